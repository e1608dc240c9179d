//! The calls with a table that threads share, as `include/burlapslate_shared.h`, `include/burlapslate_rows.h` and
//! `include/burlapslate_session.h` declare them. The asks are in [`awaited`](super::awaited), and the lists in
//! [`commands`](super::commands).
//!
//! Any thread may make any call with a table, so these take it by `&`. A [`Table`] is freed when its owner drops it, and
//! no thread is in a call then, because each call borrows it.
//!
//! If a table has parts, the calls of one transaction come from one thread at a time, as in a group. A session makes
//! them by `&mut`, so it is in one of them at most, and nobody else makes any, except by the transaction's name: a
//! cancel, which any thread may make; a question for how long it has waited; and a commit or an abort, of a transaction
//! that its session has left, by the one thread that takes it from [`Left`]. The calls that a name does not fit are
//! refused, whatever table it is of. While a transaction waits by an ask, which may be leaked, the library refuses its
//! calls before it uses anything of it.

use super::awaited::{self, Ends, Resumes, Waits};
use super::begun::{Begins, BeginsAtOnce};
use super::running::{self, Listener, Telling};
use super::{assert_fits, nodes, numbers, zeroed, Notice, Notices, Options, Pinned, Place, Reply};
use super::{WatcherPlace, IN_USE};
#[cfg(target_pointer_width = "64")]
use crate::group::Group;
use crate::manager::Manager;
use crate::names::{Node, Row, Txn};
use crate::refusal::{accepted, done, Refusal};
use crate::SLOTS;
use std::cell::UnsafeCell;
use std::mem::ManuallyDrop;
use std::ops::Deref;
use std::panic::{RefUnwindSafe, UnwindSafe};
use std::ptr::{null_mut, NonNull};
use std::sync::atomic::{AtomicU64, Ordering};
use std::sync::{Arc, OnceLock};
use std::thread;

/// Joined to the mode of a lock for an instant.
pub(crate) const INSTANT: u32 = 256;

/// What a failed try of a path keeps.
pub(crate) const KEEP_NOTHING: u32 = 0;
pub(crate) const KEEP_WAY: u32 = 1;

/// `bs_table`, which callers know by its address alone.
#[repr(C)]
pub(crate) struct Shared {
    _own: UnsafeCell<[u8; 0]>,
}

// SAFETY: any thread may make any call with a table, as the header says.
unsafe impl Sync for Shared {}

/// `struct timespec`: a time by `CLOCK_MONOTONIC`.
#[repr(C)]
#[derive(Clone, Copy)]
pub(crate) struct Time {
    pub(crate) seconds: i64,
    pub(crate) nanoseconds: i64,
}

/// `bs_session`, within a call.
#[repr(C)]
pub(super) struct SessionPlace<'t> {
    table: &'t Shared,
    kept: Kept,
}

/// What a transaction has kept, and how much it keeps.
#[repr(C)]
#[derive(Clone, Copy)]
pub(crate) struct Kept {
    /// The transaction; none while one rests.
    pub(crate) txn: Txn,
    pub(crate) rests: Txn,
    pub(crate) most: u32,
    pub(crate) count: u32,
}

impl Kept {
    pub(crate) const NOTHING: Kept = Kept {
        txn: Txn::NONE,
        rests: Txn::NONE,
        most: 0,
        count: 0,
    };

    /// Nothing, for a session that keeps as much.
    pub(crate) fn most_alone(&self) -> Kept {
        Kept {
            most: self.most,
            ..Kept::NOTHING
        }
    }
}

/// Where a call writes whom it notified; `None` if its caller does not ask.
type Told<'a> = Option<&'a mut Notices>;

/// The time up to which a call sleeps, or an ask waits; `None`: up to the end.
pub(crate) type Until<'a> = Option<&'a Time>;

// SAFETY: these are the calls of the header, and their types have the layout of its types. Those that are safe have no
// conditions but what their types say: an `Option` of a reference is a pointer that may be null.
unsafe extern "C" {
    fn bs_call_table_make(table: &mut *mut Shared, options: &Options, size: usize) -> Reply;
    safe fn bs_table_end(table: &Shared) -> Reply;
    fn bs_table_free(table: &mut *mut Shared) -> Reply;
    safe fn bs_after(milliseconds: u64) -> Time;

    fn bs_table_add_inner(table: &Shared, parents: *const Node, count: usize) -> Reply;
    fn bs_table_add_file(table: &Shared, parents: *const Node, count: usize) -> Reply;
    fn bs_table_add_row_file(table: &Shared, parents: *const Node, count: usize) -> Reply;
    fn bs_table_add_index(
        table: &Shared,
        parents: *const Node,
        count: usize,
        file: Node,
        bounds: *const u64,
        bound_count: usize,
    ) -> Reply;

    pub(crate) safe fn bs_table_begin(table: &Shared) -> Reply;
    pub(crate) safe fn bs_table_begin_again(table: &Shared, since: u64) -> Reply;
    pub(crate) safe fn bs_table_renew(table: &Shared, txn: Txn, since: u64) -> Reply;
    pub(crate) safe fn bs_table_begin_in_turn(table: &Shared, until: Until<'_>) -> Reply;
    safe fn bs_session_begin(session: &mut SessionPlace<'_>, until: Until<'_>) -> Reply;
    safe fn bs_session_commit(session: &mut SessionPlace<'_>, told: Told<'_>) -> Reply;
    safe fn bs_session_end(session: &mut SessionPlace<'_>) -> Reply;
    pub(crate) safe fn bs_table_begin_again_in_turn(
        table: &Shared,
        since: u64,
        until: Until<'_>,
    ) -> Reply;
    pub(crate) safe fn bs_table_lock(
        table: &Shared,
        txn: Txn,
        node: Node,
        mode: u32,
        until: Until<'_>,
    ) -> Reply;
    pub(crate) safe fn bs_table_lock_path(
        table: &Shared,
        txn: Txn,
        node: Node,
        mode: u32,
        until: Until<'_>,
    ) -> Reply;
    pub(crate) safe fn bs_table_await(
        table: &Shared,
        txn: Txn,
        node: Node,
        mode: u32,
        until: Until<'_>,
    ) -> Reply;
    pub(crate) safe fn bs_table_try(table: &Shared, txn: Txn, node: Node, mode: u32) -> Reply;
    pub(crate) safe fn bs_table_try_path(
        table: &Shared,
        txn: Txn,
        node: Node,
        mode: u32,
        keep: u32,
    ) -> Reply;
    pub(crate) safe fn bs_table_unlock(
        table: &Shared,
        txn: Txn,
        node: Node,
        told: Told<'_>,
    ) -> Reply;
    pub(crate) safe fn bs_table_mark(table: &Shared, txn: Txn) -> Reply;
    pub(crate) safe fn bs_table_release_since(
        table: &Shared,
        txn: Txn,
        savepoint: u64,
        told: Told<'_>,
    ) -> Reply;
    pub(crate) safe fn bs_table_cancel(table: &Shared, txn: Txn, told: Told<'_>) -> Reply;
    pub(crate) safe fn bs_table_commit(table: &Shared, txn: Txn, told: Told<'_>) -> Reply;
    pub(crate) safe fn bs_table_abort(table: &Shared, txn: Txn, told: Told<'_>) -> Reply;
    safe fn bs_table_settle(table: &Shared, txn: Txn, told: Told<'_>) -> Reply;
    pub(crate) safe fn bs_table_escalate(
        table: &Shared,
        txn: Txn,
        node: Node,
        told: Told<'_>,
    ) -> Reply;

    fn bs_table_insert(
        table: &Shared,
        txn: Txn,
        file: Node,
        keys: *const u64,
        count: usize,
    ) -> Reply;
    pub(crate) safe fn bs_table_delete(
        table: &Shared,
        txn: Txn,
        record: Node,
        told: Told<'_>,
    ) -> Reply;
    fn bs_table_adopt(table: &Shared, file: Node, keys: *const u64, count: usize) -> Reply;
    pub(crate) safe fn bs_table_forget(table: &Shared, record: Node) -> Reply;
    pub(crate) safe fn bs_table_rekey(
        table: &Shared,
        txn: Txn,
        record: Node,
        index: Node,
        key: u64,
        told: Told<'_>,
    ) -> Reply;
    fn bs_table_move(
        table: &Shared,
        txn: Txn,
        node: Node,
        parents: *const Node,
        count: usize,
        told: Told<'_>,
    ) -> Reply;
    pub(crate) safe fn bs_table_drop(table: &Shared, txn: Txn, node: Node, told: Told<'_>)
        -> Reply;
    pub(crate) safe fn bs_table_split(
        table: &Shared,
        txn: Txn,
        interval: Node,
        at: u64,
        told: Told<'_>,
    ) -> Reply;
    pub(crate) safe fn bs_table_merge(
        table: &Shared,
        txn: Txn,
        interval: Node,
        told: Told<'_>,
    ) -> Reply;
    fn bs_table_index_by(
        table: &Shared,
        txn: Txn,
        parents: *const Node,
        count: usize,
        file: Node,
        bounds: *const u64,
        bound_count: usize,
    ) -> Reply;
    fn bs_table_index_records(
        table: &Shared,
        txn: Txn,
        parents: *const Node,
        count: usize,
        file: Node,
        bounds: *const u64,
        bound_count: usize,
        records: *const Node,
        keys: *const u64,
        record_count: usize,
    ) -> Reply;

    fn bs_table_lock_row(
        table: &Shared,
        txn: Txn,
        file: Node,
        number: u64,
        keys: *const u64,
        count: usize,
        mode: u32,
        until: Until<'_>,
    ) -> Reply;
    fn bs_table_lock_row_path(
        table: &Shared,
        txn: Txn,
        file: Node,
        number: u64,
        keys: *const u64,
        count: usize,
        mode: u32,
        until: Until<'_>,
    ) -> Reply;
    fn bs_table_try_row(
        table: &Shared,
        txn: Txn,
        file: Node,
        number: u64,
        keys: *const u64,
        count: usize,
        mode: u32,
    ) -> Reply;
    fn bs_table_insert_path(
        table: &Shared,
        txn: Txn,
        file: Node,
        keys: *const u64,
        count: usize,
        keep: u32,
    ) -> Reply;
    fn bs_table_try_row_path(
        table: &Shared,
        txn: Txn,
        file: Node,
        number: u64,
        keys: *const u64,
        count: usize,
        mode: u32,
        keep: u32,
    ) -> Reply;
    pub(crate) safe fn bs_table_unlock_row(
        table: &Shared,
        txn: Txn,
        file: Node,
        number: u64,
        told: Told<'_>,
    ) -> Reply;
    pub(crate) safe fn bs_table_rekey_row(
        table: &Shared,
        txn: Txn,
        file: Node,
        number: u64,
        index: Node,
        key: u64,
        told: Told<'_>,
    ) -> Reply;

    pub(crate) safe fn bs_table_expire(table: &Shared, next: &mut Time) -> Reply;

    safe fn bs_table_hold(table: &Shared) -> Option<NonNull<Place>>;
    safe fn bs_table_let_go(table: &Shared) -> Reply;
    pub(crate) safe fn bs_call_table_shut(table: &Shared) -> u32;
    pub(crate) safe fn bs_call_table_watch(table: &Shared, watcher: &mut WatcherPlace) -> Reply;
    pub(crate) safe fn bs_table_watch_thread(table: &Shared, pace: u64) -> Reply;
}

/// The time of this moment.
pub(crate) fn now() -> Time {
    bs_after(0)
}

/// A table or a group for the time of a call with it, after which the panic of a waker continues.
pub(crate) struct Calling<'t, T = Shared> {
    with: &'t T,
    _resumes: Resumes,
}

impl<'t, T> Calling<'t, T> {
    pub(super) fn new(with: &'t T) -> Calling<'t, T> {
        Calling {
            with,
            _resumes: Resumes,
        }
    }
}

impl<T> Deref for Calling<'_, T> {
    type Target = T;

    fn deref(&self) -> &T {
        self.with
    }
}

/// The transactions of a table with parts that their sessions have left, by slot: the age, or 0 if there is none. The
/// thread that takes one has it alone.
struct Left([AtomicU64; SLOTS]);

impl Left {
    fn put(&self, txn: Txn) {
        self.0[txn.slot()].store(txn.age, Ordering::Release);
    }

    /// Whether it was there.
    fn take(&self, txn: Txn) -> bool {
        let at = &self.0[txn.slot()];
        let taken = at.compare_exchange(txn.age, 0, Ordering::Acquire, Ordering::Relaxed);
        txn != Txn::NONE && taken.is_ok()
    }
}

/// A call that ends a transaction.
type EndsIt = extern "C" fn(&Shared, Txn, Told<'_>) -> Reply;

/// A table, which ends with this.
pub(crate) struct Table {
    at: NonNull<Shared>,
    ends: NonNull<Ends<Shared>>,
    /// Since the first listener was given.
    telling: OnceLock<NonNull<Telling>>,
    /// Of a table with parts, as the next.
    left: Option<Box<Left>>,
    #[cfg(target_pointer_width = "64")]
    group: Option<Group>,
}

// SAFETY: any thread may make any call with a table, and any thread may end it.
unsafe impl Send for Table {}

// SAFETY: the same.
unsafe impl Sync for Table {}

// No panic passes through a call of the library.
impl UnwindSafe for Table {}
impl RefUnwindSafe for Table {}

impl Table {
    /// Makes a table, whose asks have their ends told.
    pub(crate) fn new(options: &Options) -> Result<Table, Refusal> {
        assert_fits();
        let ends = Ends::new().ok_or(Refusal::NoMemory)?;
        let mut left = None;
        if options.parts > 1 {
            // SAFETY: zero in all bytes is a value of it.
            left = Some(unsafe { zeroed::<Left>() }.ok_or(Refusal::NoMemory)?);
        }
        let mut at = null_mut();
        // SAFETY: the size is that of the options.
        accepted(unsafe { bs_call_table_make(&mut at, options, size_of::<Options>()) })?;
        let at = NonNull::new(at).expect("a table that was made");
        let ends = ends.are_of(at);
        // SAFETY: both are there until the drop, and the group is lent by this alone.
        #[cfg(target_pointer_width = "64")]
        let group = unsafe { super::group::Group::of_table(at.as_ref(), ends.as_ref().waits()) };
        let table = Table {
            at,
            ends,
            telling: OnceLock::new(),
            left,
            #[cfg(target_pointer_width = "64")]
            group: group.map(|group| Group::of(group, options.parts)),
        };
        // SAFETY: the ends are freed after the table has ended.
        accepted(unsafe { awaited::has_ends_told(table.shared(), ends) })?;
        Ok(table)
    }

    /// Its group; `None` if it has one part.
    #[cfg(target_pointer_width = "64")]
    pub(crate) fn group(&self) -> Option<&Group> {
        self.group.as_ref()
    }

    /// Whether it has parts.
    pub(crate) fn has_parts(&self) -> bool {
        self.left.is_some()
    }

    /// A session has left this transaction.
    pub(crate) fn leave(&self, txn: Txn) {
        if let Some(left) = &self.left {
            left.put(txn);
        }
    }

    /// Commits or aborts a transaction by its name. With parts it must be one that a session has left: the calls of
    /// another are its session's.
    pub(crate) fn end(&self, txn: Txn, call: EndsIt) -> Result<(), Refusal> {
        let calling = self.call();
        let Some(left) = &self.left else {
            return done(call(&calling, txn, None));
        };
        if !left.take(txn) {
            return Err(self.not_left(txn));
        }
        let end = done(call(&calling, txn, None));
        if let Err(Refusal::TxnWaiting | Refusal::TxnCondemned | Refusal::InUse) = end {
            left.put(txn);
        }
        end
    }

    /// Why a transaction that no session has left is not ended by its name.
    fn not_left(&self, txn: Txn) -> Refusal {
        match done(running::bs_table_waited(self.shared(), txn)) {
            Err(refusal @ (Refusal::NoSuchTxn | Refusal::InUse)) => refusal,
            _ => Refusal::InParts,
        }
    }

    /// Gives a listener of long waits and deadlocks, or takes it back.
    pub(crate) fn listens(
        &self,
        milliseconds: u64,
        listener: Option<Arc<Listener>>,
    ) -> Result<(), Refusal> {
        let telling = || NonNull::from(Box::leak(Box::new(Telling::new())));
        let telling = self.telling.get_or_init(telling);
        // SAFETY: it is freed after the table has ended.
        unsafe { telling.as_ref().give(&self.call(), milliseconds, listener) }
    }

    pub(crate) fn waits(&self) -> &Waits {
        // SAFETY: they are there until the drop.
        unsafe { self.ends.as_ref() }.waits()
    }

    /// For one call.
    pub(crate) fn call(&self) -> Calling<'_> {
        Calling::new(self.shared())
    }

    /// For a call of the caller's.
    pub(crate) fn shared(&self) -> &Shared {
        // SAFETY: the table is there until the drop.
        unsafe { self.at.as_ref() }
    }
}

impl BeginsAtOnce for Table {
    fn begin_now(&self, since: u64) -> Reply {
        bs_table_begin_again(self.shared(), since)
    }

    fn begins(&self) -> &dyn Begins {
        self.shared()
    }
}

impl Drop for Table {
    /// The end may sleep, which a waker must not, nor a thread that holds another table: another thread ends it then. If
    /// there can be none, the table stays.
    fn drop(&mut self) {
        let mut at = self.at.as_ptr();
        if bs_table_end(self.shared()).status != IN_USE {
            // SAFETY: the table was ended, and no thread is in a call with it: each borrows its owner.
            unsafe { bs_table_free(&mut at) };
            // SAFETY: they are of `new`, which leaked the box, and nobody tells an end any more.
            drop(unsafe { Box::from_raw(self.ends.as_ptr()) });
            // SAFETY: the same.
            let telling = |at: NonNull<Telling>| unsafe { Box::from_raw(at.as_ptr()) };
            drop(self.telling.take().map(telling));
            return awaited::resume_panic();
        }
        let Table { at, ends, .. } = *self;
        let telling = std::mem::take(&mut self.telling);
        let table = ManuallyDrop::new(Table {
            at,
            ends,
            telling,
            left: None, // Nobody makes a call with it any more.
            #[cfg(target_pointer_width = "64")]
            group: None,
        });
        let ends = move || drop(ManuallyDrop::into_inner(table));
        let _ = thread::Builder::new().spawn(ends);
    }
}

/// A table whose latch this thread holds.
struct Held<'t>(&'t Shared);

impl Drop for Held<'_> {
    fn drop(&mut self) {
        bs_table_let_go(self.0);
    }
}

/// Asks the manager of a table, with the latch held for so long, also if that panics. Refused if this thread holds the
/// table already, and if the table lends no manager.
pub(crate) fn with<T>(table: &Shared, ask: impl FnOnce(&Manager) -> T) -> Result<T, Refusal> {
    let Some(place) = bs_table_hold(table) else {
        let shut = Reply::with_status(bs_call_table_shut(table));
        return Err(Refusal::of(&shut));
    };
    let _held = Held(table);
    // SAFETY: the manager is there, and no other thread uses it, as long as the latch is held, which outlives this.
    let manager = Manager::lent(unsafe { Pinned::lent(place) });
    Ok(ask(&manager))
}

/// Settles a transaction; answers whom this notified too.
pub(crate) fn settle(table: &Shared, txn: Txn) -> (Reply, Notices) {
    let none = Notice {
        txn: Txn::NONE,
        node: Node::NONE,
        kind: 0,
        mode: 0,
    };
    let mut told = Notices {
        count: 0,
        at: [none; SLOTS],
    };
    (bs_table_settle(table, txn, Some(&mut told)), told)
}

pub(crate) fn add_inner(table: &Shared, parents: &[Node]) -> Reply {
    // SAFETY: the count is the list's own.
    unsafe { bs_table_add_inner(table, nodes(parents), parents.len()) }
}

pub(crate) fn add_file(table: &Shared, parents: &[Node]) -> Reply {
    // SAFETY: the count is the list's own.
    unsafe { bs_table_add_file(table, nodes(parents), parents.len()) }
}

pub(crate) fn add_row_file(table: &Shared, parents: &[Node]) -> Reply {
    // SAFETY: the count is the list's own.
    unsafe { bs_table_add_row_file(table, nodes(parents), parents.len()) }
}

pub(crate) fn add_index(table: &Shared, parents: &[Node], file: Node, bounds: &[u64]) -> Reply {
    let (above, count) = (nodes(parents), parents.len());
    // SAFETY: the counts are the lists' own.
    unsafe { bs_table_add_index(table, above, count, file, numbers(bounds), bounds.len()) }
}

pub(crate) fn index_by(
    table: &Shared,
    txn: Txn,
    parents: &[Node],
    file: Node,
    bounds: &[u64],
) -> Reply {
    let (above, count) = (nodes(parents), parents.len());
    let (below, bound_count) = (numbers(bounds), bounds.len());
    // SAFETY: the counts are the lists' own.
    unsafe { bs_table_index_by(table, txn, above, count, file, below, bound_count) }
}

/// There must be as many keys as records.
pub(crate) fn index_records(
    table: &Shared,
    txn: Txn,
    parents: &[Node],
    file: Node,
    bounds: &[u64],
    records: &[Node],
    keys: &[u64],
) -> Reply {
    assert_eq!(records.len(), keys.len());
    // SAFETY: the counts are the lists' own.
    unsafe {
        bs_table_index_records(
            table,
            txn,
            nodes(parents),
            parents.len(),
            file,
            numbers(bounds),
            bounds.len(),
            nodes(records),
            numbers(keys),
            keys.len(),
        )
    }
}

pub(crate) fn insert(table: &Shared, txn: Txn, file: Node, keys: &[u64]) -> Reply {
    // SAFETY: the count is the list's own.
    unsafe { bs_table_insert(table, txn, file, numbers(keys), keys.len()) }
}

pub(crate) fn insert_path(table: &Shared, txn: Txn, file: Node, keys: &[u64], keep: u32) -> Reply {
    // SAFETY: the count is the list's own.
    unsafe { bs_table_insert_path(table, txn, file, numbers(keys), keys.len(), keep) }
}

pub(crate) fn adopt(table: &Shared, file: Node, keys: &[u64]) -> Reply {
    // SAFETY: the count is the list's own.
    unsafe { bs_table_adopt(table, file, numbers(keys), keys.len()) }
}

pub(crate) fn move_node(table: &Shared, txn: Txn, node: Node, parents: &[Node]) -> Reply {
    // SAFETY: the count is the list's own.
    unsafe { bs_table_move(table, txn, node, nodes(parents), parents.len(), None) }
}

pub(crate) fn lock_row(
    table: &Shared,
    txn: Txn,
    row: Row,
    keys: &[u64],
    mode: u32,
    until: Until<'_>,
) -> Reply {
    let (Row { file, number }, start) = (row, numbers(keys));
    // SAFETY: the count is the list's own.
    unsafe { bs_table_lock_row(table, txn, file, number, start, keys.len(), mode, until) }
}

pub(crate) fn lock_row_path(
    table: &Shared,
    txn: Txn,
    row: Row,
    keys: &[u64],
    mode: u32,
    until: Until<'_>,
) -> Reply {
    let (Row { file, number }, start) = (row, numbers(keys));
    // SAFETY: the count is the list's own.
    unsafe { bs_table_lock_row_path(table, txn, file, number, start, keys.len(), mode, until) }
}

pub(crate) fn try_row(table: &Shared, txn: Txn, row: Row, keys: &[u64], mode: u32) -> Reply {
    let (Row { file, number }, start) = (row, numbers(keys));
    // SAFETY: the count is the list's own.
    unsafe { bs_table_try_row(table, txn, file, number, start, keys.len(), mode) }
}

pub(crate) fn try_row_path(
    table: &Shared,
    txn: Txn,
    row: Row,
    keys: &[u64],
    mode: u32,
    keep: u32,
) -> Reply {
    let (Row { file, number }, start) = (row, numbers(keys));
    // SAFETY: the count is the list's own.
    unsafe { bs_table_try_row_path(table, txn, file, number, start, keys.len(), mode, keep) }
}

/// Makes a call of a session.
pub(super) fn in_session<T>(
    table: &Shared,
    kept: &mut Kept,
    call: impl FnOnce(&mut SessionPlace<'_>) -> T,
) -> T {
    let mut place = SessionPlace { table, kept: *kept };
    let answer = call(&mut place);
    *kept = place.kept;
    answer
}

/// Begins the next transaction of a session.
pub(crate) fn session_begin(table: &Shared, kept: &mut Kept) -> Reply {
    in_session(table, kept, |session| bs_session_begin(session, None))
}

/// Commits the transaction of a session.
pub(crate) fn session_commit(table: &Shared, kept: &mut Kept) -> Reply {
    in_session(table, kept, |session| bs_session_commit(session, None))
}

/// Releases what a session keeps.
pub(crate) fn session_end(table: &Shared, kept: &mut Kept) -> Reply {
    in_session(table, kept, |session| bs_session_end(session))
}

/// The layouts of the header's types, by a C compiler for machines of 64 bits.
#[cfg(all(test, target_pointer_width = "64"))]
mod layouts {
    use super::*;
    use std::mem::offset_of;

    #[test]
    fn options_and_times() {
        assert_eq!(size_of::<Options>(), 24);
        assert_eq!(size_of::<Time>(), 16);
        assert_eq!(offset_of!(Time, nanoseconds), 8);
        assert_eq!(size_of::<Option<&Time>>(), 8);
    }
}
