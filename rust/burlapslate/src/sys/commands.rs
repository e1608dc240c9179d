//! Lists of commands, as `include/burlapslate_shared.h`, `include/burlapslate_rows.h` and
//! `include/burlapslate_session.h` declare their calls.

use super::shared::{in_session, Kept, SessionPlace, Shared, KEEP_NOTHING};
use super::{nodes, numbers, Notices, Reply, DONE};
use crate::names::{Node, Row, Txn};
use std::collections::TryReserveError;
use std::marker::PhantomData;
use std::mem::{take, ManuallyDrop};
use std::ptr::{null, null_mut};

pub(crate) const LOCK: u32 = 2;
pub(crate) const LOCK_PATH: u32 = 3;
pub(crate) const TRY: u32 = 4;
pub(crate) const UNLOCK: u32 = 5;
pub(crate) const ESCALATE: u32 = 6;
pub(crate) const COMMIT: u32 = 8;
pub(crate) const INSERT: u32 = 11;
pub(crate) const DELETE: u32 = 12;
pub(crate) const ADOPT: u32 = 13;
pub(crate) const FORGET: u32 = 14;
pub(crate) const REKEY: u32 = 15;
pub(crate) const MOVE: u32 = 16;
pub(crate) const DROP: u32 = 17;
pub(crate) const ADD_INNER: u32 = 18;
pub(crate) const ADD_FILE: u32 = 19;
pub(crate) const ADD_ROW_FILE: u32 = 20;
pub(crate) const ADD_INDEX: u32 = 21;
pub(crate) const INDEX_BY: u32 = 22;
pub(crate) const LOCK_ROW: u32 = 23;
pub(crate) const UNLOCK_ROW: u32 = 24;
pub(crate) const REKEY_ROW: u32 = 25;
pub(crate) const TRY_PATH: u32 = 26;
pub(crate) const TRY_ROW: u32 = 27;
pub(crate) const RELEASE_SINCE: u32 = 29;
pub(crate) const LOCK_ROW_PATH: u32 = 31;
pub(crate) const TRY_ROW_PATH: u32 = 32;
pub(crate) const MARK: u32 = 33;
pub(crate) const INSERT_PATH: u32 = 34;
pub(crate) const SPLIT: u32 = 35;
pub(crate) const MERGE: u32 = 36;

/// In a list, the transaction that its call began, or that of its session: `bs_begun`. No transaction has this name.
pub(crate) const BEGUN: Txn = Txn {
    slot: u32::MAX,
    age: 0,
};

/// In a list, the node that the command at this place has made: `bs_made`. No node has this name.
pub(crate) fn made(place: usize) -> Node {
    Node {
        key: place,
        birth: u64::MAX,
    }
}

/// `bs_command`. The lists that it names outlive it.
#[repr(C)]
#[derive(Clone, Copy)]
pub(crate) struct Command<'k> {
    kind: u32,
    mode: u32,
    txn: Txn,
    node: Node,
    file: Node,
    index: Node,
    number: u64,
    key: u64,
    keys: *const u64,
    key_count: usize,
    parents: *const Node,
    parent_count: usize,
    bounds: *const u64,
    bound_count: usize,
    told: *mut Notices,
    keep: u32,
    pub(crate) reply: Reply,
    _lists: PhantomData<&'k [u64]>,
}

impl<'k> Command<'k> {
    /// With all other fields zero.
    pub(crate) fn new(kind: u32, txn: Txn) -> Command<'k> {
        Command {
            kind,
            mode: 0,
            txn,
            node: Node::NONE,
            file: Node::NONE,
            index: Node::NONE,
            number: 0,
            key: 0,
            keys: null(),
            key_count: 0,
            parents: null(),
            parent_count: 0,
            bounds: null(),
            bound_count: 0,
            told: null_mut(),
            keep: KEEP_NOTHING,
            reply: Reply::with_status(DONE),
            _lists: PhantomData,
        }
    }

    /// As a command of this kind and transaction.
    pub(crate) fn of(&mut self, kind: u32, txn: Txn) -> &mut Command<'k> {
        self.kind = kind;
        self.txn = txn;
        self
    }

    pub(crate) fn node(&mut self, node: Node) -> &mut Command<'k> {
        self.node = node;
        self
    }

    pub(crate) fn file(&mut self, file: Node) -> &mut Command<'k> {
        self.file = file;
        self
    }

    pub(crate) fn row(&mut self, row: Row) -> &mut Command<'k> {
        self.file(row.file).number(row.number)
    }

    pub(crate) fn number(&mut self, number: u64) -> &mut Command<'k> {
        self.number = number;
        self
    }

    pub(crate) fn mode(&mut self, mode: u32) -> &mut Command<'k> {
        self.mode = mode;
        self
    }

    pub(crate) fn keep(&mut self, keep: u32) -> &mut Command<'k> {
        self.keep = keep;
        self
    }

    pub(crate) fn key(&mut self, key: u64) -> &mut Command<'k> {
        self.key = key;
        self
    }

    /// With another key by an index.
    pub(crate) fn rekeyed(&mut self, index: Node, key: u64) -> &mut Command<'k> {
        self.index = index;
        self.key = key;
        self
    }

    pub(crate) fn keys(&mut self, keys: &'k [u64]) -> &mut Command<'k> {
        self.keys = numbers(keys);
        self.key_count = keys.len();
        self
    }

    pub(crate) fn parents(&mut self, parents: &'k [Node]) -> &mut Command<'k> {
        self.parents = nodes(parents);
        self.parent_count = parents.len();
        self
    }

    pub(crate) fn bounds(&mut self, bounds: &'k [u64]) -> &mut Command<'k> {
        self.bounds = numbers(bounds);
        self.bound_count = bounds.len();
        self
    }
}

/// The memory of lists, which is kept from one to the next. Between them it has no command.
pub(crate) struct Room(Vec<Command<'static>>);

// SAFETY: it has no command, and so no pointer.
unsafe impl Send for Room {}

// SAFETY: the same.
unsafe impl Sync for Room {}

impl Room {
    pub(crate) const fn new() -> Room {
        Room(Vec::new())
    }

    /// Takes memory for so many commands.
    pub(crate) fn reserve(&mut self, count: usize) -> Result<(), TryReserveError> {
        self.0.try_reserve_exact(count)
    }

    /// Gives a list of so many commands with all fields zero.
    ///
    /// # Panics
    ///
    /// If there is no memory for so many.
    pub(crate) fn lend<'k>(&mut self, count: usize) -> Vec<Command<'k>> {
        let mut list = take(&mut self.0);
        assert!(
            count <= list.capacity(),
            "memory was taken for each command"
        );
        // SAFETY: there is memory for so many, and zero in all bytes is a value of each: numbers, and null pointers.
        unsafe {
            list.as_mut_ptr().write_bytes(0, count);
            list.set_len(count);
        }
        list
    }

    /// Takes it back.
    pub(crate) fn take_back(&mut self, list: Vec<Command<'_>>) {
        let mut list = ManuallyDrop::new(list);
        list.clear();
        let (start, capacity) = (list.as_mut_ptr().cast(), list.capacity());
        // SAFETY: the memory is that of a list, which is not used any more; and the commands of the two differ in a
        // lifetime alone. None of them is left.
        self.0 = unsafe { Vec::from_raw_parts(start, 0, capacity) };
    }
}

// SAFETY: these are the calls of the headers, and their types have the layout of its types.
unsafe extern "C" {
    fn bs_table_run(table: &Shared, commands: *mut Command<'_>, count: usize) -> usize;
    fn bs_table_try_first(table: &Shared, commands: *mut Command<'_>, count: usize) -> usize;
    fn bs_session_run(
        session: &mut SessionPlace<'_>,
        commands: *mut Command<'_>,
        count: usize,
    ) -> usize;
}

/// Makes a list; how many of its commands are done.
pub(crate) fn run(table: &Shared, list: &mut [Command<'_>]) -> usize {
    // SAFETY: the count is the list's own, and so are those of the lists that each command names, which outlive it.
    unsafe { bs_table_run(table, list.as_mut_ptr(), list.len()) }
}

/// The same for the transaction of a session, which begins if there is none.
pub(crate) fn run_in_session(table: &Shared, kept: &mut Kept, list: &mut [Command<'_>]) -> usize {
    let (start, count) = (list.as_mut_ptr(), list.len());
    // SAFETY: the same.
    in_session(table, kept, |session| unsafe {
        bs_session_run(session, start, count)
    })
}

/// The place of the first try that is not passed over, or how many there are.
pub(crate) fn try_first(table: &Shared, tries: &mut [Command<'_>]) -> usize {
    // SAFETY: the same.
    unsafe { bs_table_try_first(table, tries.as_mut_ptr(), tries.len()) }
}

/// The layout of the header's type, by a C compiler for machines of 64 bits.
#[cfg(all(test, target_pointer_width = "64"))]
mod layouts {
    use super::*;
    use std::mem::offset_of;

    #[test]
    fn commands() {
        assert_eq!((size_of::<Command>(), align_of::<Command>()), (216, 8));
        assert_eq!(offset_of!(Command, txn), 8);
        assert_eq!(offset_of!(Command, node), 24);
        assert_eq!(offset_of!(Command, file), 40);
        assert_eq!(offset_of!(Command, index), 56);
        assert_eq!(offset_of!(Command, number), 72);
        assert_eq!(offset_of!(Command, key), 80);
        assert_eq!(offset_of!(Command, keys), 88);
        assert_eq!(offset_of!(Command, key_count), 96);
        assert_eq!(offset_of!(Command, parents), 104);
        assert_eq!(offset_of!(Command, bounds), 120);
        assert_eq!(offset_of!(Command, told), 136);
        assert_eq!(offset_of!(Command, keep), 144);
        assert_eq!(offset_of!(Command, reply), 152);
    }
}
