//! The library's calls, as `include/burlapslate_calls.h` declares them. All unsafe code is here, in
//! [`shared`], [`commands`], [`awaited`], [`begun`], [`running`] and [`group`].
//!
//! A reference stands for a pointer that is not null, and says for the call what the header asks of
//! it: what a call writes is behind a `&mut`, so it overlaps with nothing else and nobody else uses
//! it; what it reads has a value, since a reference is to a value. So these calls are safe, but for
//! those with a list, whose count is a word beside it: each of them has a safe one that takes a
//! slice.
//!
//! A [`Place`] is made by [`Pinned::new`], as zero, or is that of a table, and stays where it is. It is
//! changed by questions too, which take what it has out and put it back: so they take it by `&`, and what
//! they change is in an `UnsafeCell`. It is not `Sync`, so no two threads are in questions of one
//! manager at once; and no call of a manager calls back, so a question never meets another one half done.

use crate::board::Slots;
use crate::listing::Counters;
use crate::names::{Node, Row, Txn};
use crate::{FITS, SLOTS};
use std::alloc::{alloc, alloc_zeroed, Layout};
use std::cell::UnsafeCell;
use std::ffi::c_void;
use std::panic::UnwindSafe;
use std::ptr::NonNull;

pub(crate) mod awaited;
pub(crate) mod begun;
pub(crate) mod commands;
#[cfg(target_pointer_width = "64")]
pub(crate) mod group;
pub(crate) mod running;
pub(crate) mod shared;

pub(crate) const DONE: u32 = 0;
pub(crate) const NO_MEMORY: u32 = 1;
pub(crate) const NO_SUCH_NODE: u32 = 2;
pub(crate) const NO_SUCH_TXN: u32 = 3;
pub(crate) const TXN_WAITING: u32 = 4;
pub(crate) const TXN_CONDEMNED: u32 = 5;
pub(crate) const BAD_MODE: u32 = 6;
pub(crate) const NEED_PARENTS: u32 = 7;
pub(crate) const NOT_HELD: u32 = 8;
pub(crate) const HELD_CHILD: u32 = 9;
pub(crate) const WOULD_BLOCK: u32 = 10;
pub(crate) const TOO_MANY_TXNS: u32 = 11;
pub(crate) const TOO_MANY_NODES: u32 = 12;
pub(crate) const BAD_PARENTS: u32 = 13;
pub(crate) const NEED_EXCLUSIVE: u32 = 14;
pub(crate) const NOT_WAITING: u32 = 15;
pub(crate) const FILE_IN_USE: u32 = 17;
pub(crate) const BAD_KEYS: u32 = 18;
pub(crate) const WORN_OUT: u32 = 19;
pub(crate) const CYCLE: u32 = 21;
pub(crate) const RECORD_IN_USE: u32 = 22;
pub(crate) const HAS_CHILDREN: u32 = 23;
pub(crate) const NEED_RELEASE: u32 = 24;
pub(crate) const WAITING: u32 = 32;
pub(crate) const VICTIM: u32 = 33;
pub(crate) const MOVED: u32 = 34;
pub(crate) const GONE: u32 = 35;
pub(crate) const TIMED_OUT: u32 = 36;
pub(crate) const ON_THE_WAY: u32 = 37;
pub(crate) const OTHER_KEYS: u32 = 38;
pub(crate) const NO_MANAGER: u32 = 65;
pub(crate) const BAD_NUMBER: u32 = 66;
pub(crate) const IN_USE: u32 = 67;
pub(crate) const NO_PLACE: u32 = 68;
pub(crate) const TOO_MANY_WATCHERS: u32 = 70;
pub(crate) const ROWS_BY_NUMBER: u32 = 71;
pub(crate) const NOT_ROWS: u32 = 72;
pub(crate) const NOT_WRITTEN: u32 = 75;
pub(crate) const TOO_LATE: u32 = 76;
pub(crate) const NO_TRACE: u32 = 77;
pub(crate) const IN_PARTS: u32 = 78;

pub(crate) const ACTIVE: u64 = 1;
pub(crate) const WAITS: u64 = 2;
pub(crate) const CONDEMNED: u64 = 3;

pub(crate) const TOLD_GRANTED: u32 = 1;
pub(crate) const TOLD_VICTIM: u32 = 2;
pub(crate) const TOLD_MOVED: u32 = 3;
pub(crate) const TOLD_GONE: u32 = 4;

/// `bs_manager`, whose fields are the library's own.
#[repr(C)]
struct Manager {
    _is_open: bool,
    _at: *mut c_void,
}

/// The place of a manager.
#[repr(transparent)]
pub(crate) struct Place(UnsafeCell<Manager>);

// SAFETY: a manager is used by one thread at a time, now one and now another, as the header says:
// nothing of it belongs to a thread.
unsafe impl Send for Place {}

/// `bs_watcher`, whose fields are the library's own.
#[repr(C)]
pub(crate) struct WatcherPlace {
    _is_open: bool,
    _at: *mut c_void,
    parts: *mut c_void,
}

impl WatcherPlace {
    /// The place of no watcher, which is never moved; `None` if memory is refused.
    pub(crate) fn new() -> Option<Box<WatcherPlace>> {
        // SAFETY: zero in all bytes is a value of it: `false`, and a null pointer.
        unsafe { zeroed() }
    }

    /// Writes the last board that was shown.
    pub(crate) fn look(&mut self, board: &mut Board) -> Reply {
        if self.parts.is_null() {
            bs_call_look(self, board)
        } else {
            bs_call_group_look(self, board)
        }
    }

    /// Ends the watcher.
    pub(crate) fn end(&mut self) -> Reply {
        if self.parts.is_null() {
            bs_call_watch_end(self)
        } else {
            bs_call_group_watch_end(self)
        }
    }
}

// SAFETY: a watcher is used by one thread at a time, now one and now another, as the header says:
// nothing of it belongs to a thread. It is changed by `&mut` alone.
unsafe impl Send for WatcherPlace {}

// SAFETY: by `&` nothing can be done with it.
unsafe impl Sync for WatcherPlace {}

/// `bs_reply`.
#[repr(C)]
#[derive(Clone, Copy, Debug)]
pub(crate) struct Reply {
    pub(crate) status: u32,
    pub(crate) mode: u32,
    pub(crate) node: Node,
    pub(crate) txn: Txn,
    pub(crate) released: u32,
    pub(crate) kept: u32,
    pub(crate) count: u64,
    pub(crate) wanted: u32,
}

/// `bs_notice`.
#[repr(C)]
#[derive(Clone, Copy, Debug)]
pub(crate) struct Notice {
    pub(crate) txn: Txn,
    pub(crate) node: Node,
    pub(crate) kind: u32,
    pub(crate) mode: u32,
}

/// `bs_notices`.
#[repr(C)]
pub(crate) struct Notices {
    count: usize,
    at: [Notice; SLOTS],
}

impl Notices {
    /// The notices of the last call that filled it.
    pub(crate) fn as_slice(&self) -> &[Notice] {
        &self.at[..self.count]
    }
}

/// `bs_board`. It may have any bits.
#[repr(C)]
#[derive(Clone, PartialEq, Eq)]
pub(crate) struct Board {
    pub(crate) epoch: u64,
    pub(crate) ages: [u64; SLOTS],
    pub(crate) rows: [Slots; SLOTS],
}

/// `bs_stuck`.
#[repr(C)]
#[derive(Clone, Copy)]
pub(crate) struct Stuck {
    pub(crate) txn: Txn,
    pub(crate) node: Node,
    pub(crate) mode: u32,
    pub(crate) waits_for: Slots,
}

/// `bs_deadlock`.
#[repr(C)]
pub(crate) struct Deadlock {
    pub(crate) victim: Txn,
    pub(crate) count: usize,
    pub(crate) at: [Stuck; SLOTS],
}

impl Deadlock {
    /// One of nobody, to be written over.
    pub(crate) fn new() -> Deadlock {
        let nobody = Stuck {
            txn: Txn::NONE,
            node: Node::NONE,
            mode: 0,
            waits_for: Slots::NONE,
        };
        Deadlock {
            victim: Txn::NONE,
            count: 0,
            at: [nobody; SLOTS],
        }
    }
}

/// `bs_found`.
#[repr(C)]
pub(crate) struct Found {
    pub(crate) status: u32,
    pub(crate) slots: Slots,
}

/// `bs_options`, with each number chosen.
#[repr(C)]
pub(crate) struct Options {
    pub(crate) detect: u32,
    pub(crate) victims: u32,
    pub(crate) transactions: u32,
    pub(crate) nodes: u32,
    pub(crate) bounds: u32,
    pub(crate) parts: u32,
}

/// What stays where it is on the heap: the place of a manager, and the notices of its last command.
struct Own {
    place: Place,
    told: Notices,
}

/// A manager in its place: one's own, which ends with this, or that of a table, which is lent for questions.
pub(crate) struct Pinned {
    place: NonNull<Place>,
    own: Option<NonNull<Own>>,
}

// SAFETY: what is pinned is its owner's alone, and can go to another thread as a `Place` can.
unsafe impl Send for Pinned {}

impl Pinned {
    /// A place without a manager, and no notices; `None` if memory is refused.
    pub(crate) fn new() -> Option<Pinned> {
        assert_fits();
        // SAFETY: zero in all bytes is a value of it: numbers, `false`, and a null pointer.
        let own = NonNull::from(Box::leak(unsafe { zeroed::<Own>() }?));
        // SAFETY: it is there until the drop.
        let place = unsafe { NonNull::new_unchecked(&raw mut (*own.as_ptr()).place) };
        Some(Pinned {
            place,
            own: Some(own),
        })
    }

    /// The manager of a table.
    ///
    /// # Safety
    ///
    /// It is there for as long as this is used, and no other thread uses it.
    unsafe fn lent(place: NonNull<Place>) -> Pinned {
        Pinned { place, own: None }
    }

    pub(crate) fn place(&self) -> &Place {
        // SAFETY: it is there until the drop, and what changes by `&` is in an `UnsafeCell`.
        unsafe { self.place.as_ref() }
    }

    pub(crate) fn place_mut(&mut self) -> &mut Place {
        // SAFETY: it is there until the drop, and by `&mut self` nobody else uses it.
        unsafe { self.place.as_mut() }
    }

    /// The place, and the notices that a command writes. A manager that is lent has none, and makes no command.
    pub(crate) fn parts(&mut self) -> (&mut Place, &mut Notices) {
        let own = self
            .own
            .as_mut()
            .expect("a command of a manager of one's own");
        // SAFETY: both are there until the drop, and by `&mut self` nobody else uses them.
        let Own { place, told } = unsafe { own.as_mut() };
        (place, told)
    }
}

// By `&` it can only be asked.
impl UnwindSafe for Pinned {}

impl Drop for Pinned {
    fn drop(&mut self) {
        if let Some(own) = self.own {
            bs_call_end(self.place_mut());
            // SAFETY: it is of `new`, which leaked the box, and is dropped once.
            drop(unsafe { Box::from_raw(own.as_ptr()) });
        }
    }
}

/// A box of zero in all bytes; `None` if memory is refused.
///
/// # Safety
///
/// The type is not empty, and zero in all bytes is a value of it.
unsafe fn zeroed<T>() -> Option<Box<T>> {
    // SAFETY: the layout is that of the type, which is not empty.
    let memory = unsafe { alloc_zeroed(Layout::new::<T>()) };
    if memory.is_null() {
        return None;
    }
    // SAFETY: a box of the type has this layout and this allocator, and these bytes are a value.
    Some(unsafe { Box::from_raw(memory.cast()) })
}

/// A box of this value; `None` if memory is refused.
fn boxed<T>(value: T) -> Option<Box<T>> {
    const { assert!(size_of::<T>() > 0) };
    // SAFETY: the layout is that of the type, which is not empty.
    let memory: *mut T = unsafe { alloc(Layout::new::<T>()) }.cast();
    if memory.is_null() {
        return None;
    }
    // SAFETY: the memory is for a value of the type, and nobody else uses it.
    unsafe { memory.write(value) };
    // SAFETY: a box of the type has this layout and this allocator.
    Some(unsafe { Box::from_raw(memory) })
}

// SAFETY: these are the calls of the header, and their types have the layout of its types. Those
// that are safe have no conditions but what their types say, as the text above says.
unsafe extern "C" {
    pub(crate) safe fn bs_call_make_with(
        manager: &mut Place,
        detect: u32,
        victims: u32,
        most: u32,
        nodes: u32,
        bounds: u32,
    ) -> Reply;
    safe fn bs_call_end(manager: &mut Place) -> Reply;

    fn bs_call_add_inner(manager: &mut Place, parents: *const Node, count: usize) -> Reply;
    fn bs_call_add_file(manager: &mut Place, parents: *const Node, count: usize) -> Reply;
    fn bs_call_row_file(manager: &mut Place, parents: *const Node, count: usize) -> Reply;
    fn bs_call_add_index(
        manager: &mut Place,
        parents: *const Node,
        count: usize,
        file: Node,
        bounds: *const u64,
        bound_count: usize,
    ) -> Reply;

    pub(crate) safe fn bs_call_begin(manager: &mut Place) -> Reply;
    pub(crate) safe fn bs_call_begin_again(manager: &mut Place, since: u64) -> Reply;
    pub(crate) safe fn bs_call_join(manager: &mut Place, slot: u32, since: u64) -> Reply;
    pub(crate) safe fn bs_call_renew(manager: &mut Place, txn: Txn, since: u64) -> Reply;
    pub(crate) safe fn bs_call_lock(
        manager: &mut Place,
        txn: Txn,
        node: Node,
        mode: u32,
        told: &mut Notices,
    ) -> Reply;
    pub(crate) safe fn bs_call_lock_path(
        manager: &mut Place,
        txn: Txn,
        node: Node,
        mode: u32,
        told: &mut Notices,
    ) -> Reply;
    pub(crate) safe fn bs_call_try(manager: &mut Place, txn: Txn, node: Node, mode: u32) -> Reply;
    pub(crate) safe fn bs_call_unlock(
        manager: &mut Place,
        txn: Txn,
        node: Node,
        told: &mut Notices,
    ) -> Reply;
    pub(crate) safe fn bs_call_release_since(
        manager: &mut Place,
        txn: Txn,
        mark: usize,
        told: &mut Notices,
    ) -> Reply;
    pub(crate) safe fn bs_call_commit(manager: &mut Place, txn: Txn, told: &mut Notices) -> Reply;
    pub(crate) safe fn bs_call_abort(manager: &mut Place, txn: Txn, told: &mut Notices) -> Reply;
    pub(crate) safe fn bs_call_cancel(manager: &mut Place, txn: Txn, told: &mut Notices) -> Reply;
    pub(crate) safe fn bs_call_escalate(
        manager: &mut Place,
        txn: Txn,
        node: Node,
        told: &mut Notices,
    ) -> Reply;
    pub(crate) safe fn bs_call_settle(manager: &mut Place, txn: Txn, told: &mut Notices) -> Reply;

    fn bs_call_insert(
        manager: &mut Place,
        txn: Txn,
        file: Node,
        keys: *const u64,
        count: usize,
    ) -> Reply;
    fn bs_call_adopt(manager: &mut Place, file: Node, keys: *const u64, count: usize) -> Reply;
    pub(crate) safe fn bs_call_forget(manager: &mut Place, record: Node) -> Reply;
    pub(crate) safe fn bs_call_delete(
        manager: &mut Place,
        txn: Txn,
        record: Node,
        told: &mut Notices,
    ) -> Reply;
    pub(crate) safe fn bs_call_rekey(
        manager: &mut Place,
        txn: Txn,
        record: Node,
        index: Node,
        key: u64,
        told: &mut Notices,
    ) -> Reply;
    fn bs_call_move(
        manager: &mut Place,
        txn: Txn,
        node: Node,
        parents: *const Node,
        count: usize,
        told: &mut Notices,
    ) -> Reply;
    pub(crate) safe fn bs_call_drop(
        manager: &mut Place,
        txn: Txn,
        node: Node,
        told: &mut Notices,
    ) -> Reply;
    pub(crate) safe fn bs_call_split(
        manager: &mut Place,
        txn: Txn,
        interval: Node,
        at: u64,
        told: &mut Notices,
    ) -> Reply;
    pub(crate) safe fn bs_call_merge(
        manager: &mut Place,
        txn: Txn,
        interval: Node,
        told: &mut Notices,
    ) -> Reply;
    fn bs_call_index_by(
        manager: &mut Place,
        txn: Txn,
        parents: *const Node,
        count: usize,
        file: Node,
        bounds: *const u64,
        bound_count: usize,
        records: *const Node,
        record_count: usize,
        keys: *const u64,
        key_count: usize,
    ) -> Reply;

    fn bs_call_lock_row(
        manager: &mut Place,
        txn: Txn,
        file: Node,
        number: u64,
        keys: *const u64,
        count: usize,
        mode: u32,
        told: &mut Notices,
    ) -> Reply;
    pub(crate) safe fn bs_call_unlock_row(
        manager: &mut Place,
        txn: Txn,
        file: Node,
        number: u64,
        told: &mut Notices,
    ) -> Reply;
    pub(crate) safe fn bs_call_rekey_row(
        manager: &mut Place,
        txn: Txn,
        file: Node,
        number: u64,
        index: Node,
        key: u64,
        told: &mut Notices,
    ) -> Reply;
    pub(crate) safe fn bs_call_row_node(manager: &Place, file: Node, number: u64) -> Reply;

    pub(crate) safe fn bs_call_verdict(manager: &Place, txn: Txn, node: Node, mode: u32) -> Reply;
    pub(crate) safe fn bs_call_ended(manager: &Place) -> Found;
    pub(crate) safe fn bs_call_watch(manager: &Place, watcher: &mut WatcherPlace) -> Reply;
    safe fn bs_call_look(watcher: &mut WatcherPlace, board: &mut Board) -> Reply;
    safe fn bs_call_watch_end(watcher: &mut WatcherPlace) -> Reply;
    safe fn bs_call_group_look(watcher: &mut WatcherPlace, board: &mut Board) -> Reply;
    safe fn bs_call_group_watch_end(watcher: &mut WatcherPlace) -> Reply;

    pub(crate) safe fn bs_call_group(manager: &Place, node: Node) -> Reply;
    pub(crate) safe fn bs_call_held(manager: &Place, txn: Txn, node: Node) -> Reply;
    pub(crate) safe fn bs_call_effective(manager: &Place, txn: Txn, node: Node) -> Reply;
    pub(crate) safe fn bs_call_children(manager: &Place, txn: Txn, node: Node) -> Reply;
    pub(crate) safe fn bs_call_kind(manager: &Place, node: Node) -> Reply;
    pub(crate) safe fn bs_call_parent(manager: &Place, node: Node, place: usize) -> Reply;
    pub(crate) safe fn bs_call_key(manager: &Place, record: Node, place: usize) -> Reply;
    pub(crate) safe fn bs_call_index(manager: &Place, file: Node, place: usize) -> Reply;
    pub(crate) safe fn bs_call_interval(manager: &Place, index: Node, place: usize) -> Reply;
    pub(crate) safe fn bs_call_interval_of(manager: &Place, index: Node, key: u64) -> Reply;
    pub(crate) safe fn bs_call_place(manager: &Place, interval: Node) -> Reply;
    pub(crate) safe fn bs_call_has_records(manager: &Place, file: Node) -> Reply;
    pub(crate) safe fn bs_call_len(manager: &Place) -> Reply;
    pub(crate) safe fn bs_call_accepted(manager: &Place) -> Reply;
    pub(crate) safe fn bs_call_detect(manager: &Place) -> Reply;
    pub(crate) safe fn bs_call_victims(manager: &Place) -> Reply;

    pub(crate) safe fn bs_call_most(manager: &Place) -> Reply;
    pub(crate) safe fn bs_call_most_nodes(manager: &Place) -> Reply;
    pub(crate) safe fn bs_call_most_bounds(manager: &Place) -> Reply;
    pub(crate) safe fn bs_call_living(manager: &Place, slot: u32) -> Reply;
    pub(crate) safe fn bs_call_doing(manager: &Place, txn: Txn) -> Reply;
    pub(crate) safe fn bs_call_ahead(manager: &Place, txn: Txn) -> Reply;
    pub(crate) safe fn bs_call_lock_count(manager: &Place, txn: Txn) -> Reply;
    pub(crate) safe fn bs_call_lock_at(manager: &Place, txn: Txn, place: usize) -> Reply;
    pub(crate) safe fn bs_call_holders(manager: &Place, node: Node) -> Found;
    pub(crate) safe fn bs_call_mode_at(manager: &Place, slot: u32, node: Node) -> Reply;
    pub(crate) safe fn bs_call_queue_len(manager: &Place, node: Node) -> Reply;
    pub(crate) safe fn bs_call_queue_at(manager: &Place, node: Node, place: usize) -> Reply;
    pub(crate) safe fn bs_call_waits_for(manager: &Place, txn: Txn) -> Found;
    pub(crate) safe fn bs_call_next_copy(
        manager: &Place,
        node: Node,
        part: &Place,
        in_part: Node,
    ) -> Reply;
    pub(crate) safe fn bs_call_is_clear(manager: &Place, node: Node) -> Reply;
    pub(crate) safe fn bs_call_last_deadlock(manager: &Place, deadlock: &mut Deadlock) -> Reply;
    pub(crate) safe fn bs_call_counters(manager: &Place, counts: &mut Counters) -> Reply;

    pub(crate) safe fn bs_call_board(manager: &Place, board: &mut Board) -> Reply;
    pub(crate) safe fn bs_call_on_cycle(board: &Board, slot: u32) -> Found;
    pub(crate) safe fn bs_call_suspects(board: &Board) -> Found;
    pub(crate) safe fn bs_call_youngest(board: &Board, slots: &Slots) -> Reply;

    safe fn bs_call_slots() -> u32;
    safe fn bs_version() -> u32;
}

/// Stops a program whose library is of another version, or was built for another number of slots, and so knows other
/// sizes: a build that names one library and reads another's header. The last number of a version may be another.
pub(crate) fn assert_fits() {
    let fits = bs_version() as usize / 1000;
    assert_eq!(
        fits, FITS,
        "the library is of another version than the crate: a thousand times the first number, and the second"
    );
    let slots = bs_call_slots() as usize;
    assert_eq!(
        slots, SLOTS,
        "the library is for {slots} slots, and the crate was built for {SLOTS}"
    );
}

/// Where a list begins; of an empty one, some value of its type, since a pointer is to what it
/// says.
fn start<T>(list: &[T], other: &'static T) -> *const T {
    if list.is_empty() {
        other
    } else {
        list.as_ptr()
    }
}

fn nodes(list: &[Node]) -> *const Node {
    start(list, &Node::NONE)
}

fn numbers(list: &[u64]) -> *const u64 {
    start(list, &0)
}

pub(crate) fn add_inner(manager: &mut Place, parents: &[Node]) -> Reply {
    // SAFETY: the count is the list's own.
    unsafe { bs_call_add_inner(manager, nodes(parents), parents.len()) }
}

pub(crate) fn add_file(manager: &mut Place, parents: &[Node]) -> Reply {
    // SAFETY: the count is the list's own.
    unsafe { bs_call_add_file(manager, nodes(parents), parents.len()) }
}

pub(crate) fn add_row_file(manager: &mut Place, parents: &[Node]) -> Reply {
    // SAFETY: the count is the list's own.
    unsafe { bs_call_row_file(manager, nodes(parents), parents.len()) }
}

pub(crate) fn add_index(
    manager: &mut Place,
    parents: &[Node],
    file: Node,
    bounds: &[u64],
) -> Reply {
    let (above, count) = (nodes(parents), parents.len());
    // SAFETY: the counts are the lists' own.
    unsafe { bs_call_add_index(manager, above, count, file, numbers(bounds), bounds.len()) }
}

pub(crate) fn index_by(
    manager: &mut Place,
    txn: Txn,
    parents: &[Node],
    file: Node,
    bounds: &[u64],
) -> Reply {
    index_records(manager, txn, parents, file, bounds, &[], &[])
}

pub(crate) fn index_records(
    manager: &mut Place,
    txn: Txn,
    parents: &[Node],
    file: Node,
    bounds: &[u64],
    records: &[Node],
    keys: &[u64],
) -> Reply {
    // SAFETY: the counts are the lists' own.
    unsafe {
        bs_call_index_by(
            manager,
            txn,
            nodes(parents),
            parents.len(),
            file,
            numbers(bounds),
            bounds.len(),
            nodes(records),
            records.len(),
            numbers(keys),
            keys.len(),
        )
    }
}

pub(crate) fn insert(manager: &mut Place, txn: Txn, file: Node, keys: &[u64]) -> Reply {
    // SAFETY: the count is the list's own.
    unsafe { bs_call_insert(manager, txn, file, numbers(keys), keys.len()) }
}

pub(crate) fn adopt(manager: &mut Place, file: Node, keys: &[u64]) -> Reply {
    // SAFETY: the count is the list's own.
    unsafe { bs_call_adopt(manager, file, numbers(keys), keys.len()) }
}

pub(crate) fn lock_row(
    manager: &mut Place,
    txn: Txn,
    row: Row,
    keys: &[u64],
    mode: u32,
    told: &mut Notices,
) -> Reply {
    let (start, count) = (numbers(keys), keys.len());
    // SAFETY: the count is the list's own.
    unsafe { bs_call_lock_row(manager, txn, row.file, row.number, start, count, mode, told) }
}

pub(crate) fn move_node(
    manager: &mut Place,
    txn: Txn,
    node: Node,
    parents: &[Node],
    told: &mut Notices,
) -> Reply {
    // SAFETY: the count is the list's own.
    unsafe { bs_call_move(manager, txn, node, nodes(parents), parents.len(), told) }
}

#[cfg(test)]
impl Default for Reply {
    /// Zero in all fields.
    fn default() -> Reply {
        Reply::with_status(DONE)
    }
}

impl Reply {
    /// Zero in all fields but the status.
    pub(crate) fn with_status(status: u32) -> Reply {
        Reply {
            status,
            mode: 0,
            node: Node::NONE,
            txn: Txn::NONE,
            released: 0,
            kept: 0,
            count: 0,
            wanted: 0,
        }
    }
}

/// The layouts of the header's types, by a C compiler for machines of 64 bits.
#[cfg(all(test, target_pointer_width = "64"))]
mod layouts {
    use super::*;
    use std::mem::{align_of, offset_of, size_of};

    /// The size and the alignment.
    fn room<T>() -> (usize, usize) {
        (size_of::<T>(), align_of::<T>())
    }

    #[test]
    fn names() {
        assert_eq!(room::<Node>(), (16, 8));
        assert_eq!((offset_of!(Node, key), offset_of!(Node, birth)), (0, 8));
        assert_eq!(room::<Txn>(), (16, 8));
        assert_eq!((offset_of!(Txn, slot), offset_of!(Txn, age)), (0, 8));
    }

    #[test]
    fn places() {
        assert_eq!(room::<Place>(), (16, 8));
        assert_eq!(room::<Manager>(), (16, 8));
        assert_eq!(offset_of!(Manager, _is_open), 0);
        assert_eq!(offset_of!(Manager, _at), 8);
    }

    #[test]
    fn replies() {
        assert_eq!(room::<Reply>(), (64, 8));
        assert_eq!(offset_of!(Reply, status), 0);
        assert_eq!(offset_of!(Reply, mode), 4);
        assert_eq!(offset_of!(Reply, node), 8);
        assert_eq!(offset_of!(Reply, txn), 24);
        assert_eq!(offset_of!(Reply, released), 40);
        assert_eq!(offset_of!(Reply, kept), 44);
        assert_eq!(offset_of!(Reply, count), 48);
        assert_eq!(offset_of!(Reply, wanted), 56);
    }

    #[test]
    fn notices() {
        assert_eq!(room::<Notice>(), (40, 8));
        assert_eq!(offset_of!(Notice, txn), 0);
        assert_eq!(offset_of!(Notice, node), 16);
        assert_eq!(offset_of!(Notice, kind), 32);
        assert_eq!(offset_of!(Notice, mode), 36);
        assert_eq!(room::<Notices>(), (8 + 40 * SLOTS, 8));
        assert_eq!(offset_of!(Notices, count), 0);
        assert_eq!(offset_of!(Notices, at), 8);
    }

    #[test]
    fn boards() {
        let set = SLOTS / 8;
        assert_eq!(room::<Slots>(), (set, 8));
        assert_eq!(room::<Board>(), (8 + (8 + set) * SLOTS, 8));
        assert_eq!(offset_of!(Board, epoch), 0);
        assert_eq!(offset_of!(Board, ages), 8);
        assert_eq!(offset_of!(Board, rows), 8 + 8 * SLOTS);
        assert_eq!(room::<WatcherPlace>(), (24, 8));
        assert_eq!(offset_of!(WatcherPlace, _at), 8);
        assert_eq!(offset_of!(WatcherPlace, parts), 16);
        assert_eq!(room::<Stuck>(), (40 + set, 8));
        assert_eq!((offset_of!(Stuck, node), offset_of!(Stuck, mode)), (16, 32));
        assert_eq!(offset_of!(Stuck, waits_for), 40);
        assert_eq!(room::<Deadlock>(), (24 + (40 + set) * SLOTS, 8));
        assert_eq!(
            (offset_of!(Deadlock, count), offset_of!(Deadlock, at)),
            (16, 24)
        );
        assert_eq!(room::<Counters>(), (104, 8));
        assert_eq!(offset_of!(Counters, passed), 96);
        assert_eq!(room::<Found>(), (8 + set, 8));
        assert_eq!(
            (offset_of!(Found, status), offset_of!(Found, slots)),
            (0, 8)
        );
    }
}
