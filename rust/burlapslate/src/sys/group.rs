//! The calls with a group of tables, as `include/burlapslate_group.h` declares them.
//!
//! Any thread may make any call with a group, so these take it by `&`. Those of one transaction come from one thread at
//! a time: a [`Transaction`] makes them, which is no copy of another and is not `Sync`. While it waits by an ask, which
//! may be leaked, the library refuses them before it uses anything of the transaction. A group is freed when its owner
//! drops it, and no thread is in a call then, because each call borrows it. The asks are in [`asks`], and the lists in
//! [`lists`].

use super::awaited::{self, Ends, Resumes, Waits};
use super::begun::{Begins, BeginsAtOnce};
use super::shared::{self, Calling, Time, Until};
use super::{
    assert_fits, nodes, numbers, Options, Pinned, Place, Reply, WatcherPlace, DONE, IN_USE,
};
use crate::group::Group as Owner;
use crate::listing::Counters;
use crate::manager::Manager;
use crate::names::{Node, Row, Txn};
use crate::refusal::{accepted, Refusal};
use crate::session::Handle;
use crate::MOST_PARTS;
use std::cell::{Cell, UnsafeCell};
use std::marker::PhantomData;
use std::mem::ManuallyDrop;
use std::panic::{RefUnwindSafe, UnwindSafe};
use std::ptr::{null_mut, NonNull};
use std::thread;

/// `bs_table_group`, which callers know by its address alone.
#[repr(C)]
struct Shared {
    _own: UnsafeCell<[u8; 0]>,
}

// SAFETY: any thread may make any call with a group, as the header says; those of one transaction are unsafe here.
unsafe impl Sync for Shared {}

/// `bs_group_savepoint`: a savepoint in each table, by the table's number.
#[repr(C)]
#[derive(Clone, Copy, PartialEq, Eq, Hash)]
pub(crate) struct Savepoint {
    at: [u64; MOST_PARTS + 1],
}

// SAFETY: these are the calls of the header, and their types have the layout of its types. Those that are safe have no
// conditions but what their types say: an `Option` of a reference is a pointer that may be null. Those with a transaction
// are not: no two threads may be in calls of one transaction.
unsafe extern "C" {
    fn bs_call_group_make(
        group: &mut *mut Shared,
        options: &Options,
        size: usize,
        parts: u32,
    ) -> Reply;
    safe fn bs_group_end(group: &Shared) -> Reply;
    fn bs_group_free(group: &mut *mut Shared) -> Reply;

    fn bs_group_add_inner(group: &Shared, parents: *const Node, count: usize) -> Reply;
    fn bs_group_add_file(group: &Shared, part: u32, parents: *const Node, count: usize) -> Reply;
    fn bs_group_add_row_file(
        group: &Shared,
        part: u32,
        parents: *const Node,
        count: usize,
    ) -> Reply;
    fn bs_group_add_spread_file(group: &Shared, parents: *const Node, count: usize) -> Reply;
    fn bs_group_add_index(
        group: &Shared,
        parents: *const Node,
        count: usize,
        file: Node,
        bounds: *const u64,
        bound_count: usize,
    ) -> Reply;
    fn bs_group_adopt(group: &Shared, file: Node, keys: *const u64, count: usize) -> Reply;
    safe fn bs_group_forget(group: &Shared, record: Node) -> Reply;

    safe fn bs_group_keep(group: &Shared, most: u32) -> Reply;
    safe fn bs_group_begin_again(group: &Shared, since: u64) -> Reply;
    safe fn bs_group_begin_again_in_turn(group: &Shared, since: u64, until: Until<'_>) -> Reply;
    fn bs_group_deadline(group: &Shared, txn: Txn, until: Until<'_>) -> Reply;
    fn bs_group_commit(group: &Shared, txn: Txn) -> Reply;
    fn bs_group_abort(group: &Shared, txn: Txn) -> Reply;
    fn bs_group_renew(group: &Shared, txn: Txn, since: u64) -> Reply;
    safe fn bs_group_cancel(group: &Shared, txn: Txn) -> Reply;
    safe fn bs_group_settle(group: &Shared, txn: Txn) -> Reply;
    fn bs_group_lock_path(
        group: &Shared,
        txn: Txn,
        node: Node,
        mode: u32,
        until: Until<'_>,
    ) -> Reply;
    fn bs_group_lock_row_path(
        group: &Shared,
        txn: Txn,
        file: Node,
        number: u64,
        keys: *const u64,
        count: usize,
        mode: u32,
        until: Until<'_>,
    ) -> Reply;
    fn bs_group_try_path(group: &Shared, txn: Txn, node: Node, mode: u32, keep: u32) -> Reply;
    fn bs_group_try_row_path(
        group: &Shared,
        txn: Txn,
        file: Node,
        number: u64,
        keys: *const u64,
        count: usize,
        mode: u32,
        keep: u32,
    ) -> Reply;
    fn bs_group_unlock(group: &Shared, txn: Txn, node: Node) -> Reply;
    fn bs_group_unlock_row(group: &Shared, txn: Txn, file: Node, number: u64) -> Reply;
    fn bs_group_escalate(group: &Shared, txn: Txn, node: Node) -> Reply;
    fn bs_group_mark(group: &Shared, txn: Txn, savepoint: &mut Savepoint) -> Reply;
    fn bs_group_release_since(group: &Shared, txn: Txn, savepoint: &Savepoint) -> Reply;
    fn bs_group_insert(
        group: &Shared,
        txn: Txn,
        file: Node,
        keys: *const u64,
        count: usize,
    ) -> Reply;
    fn bs_group_delete(group: &Shared, txn: Txn, record: Node) -> Reply;
    fn bs_group_rekey(group: &Shared, txn: Txn, record: Node, index: Node, key: u64) -> Reply;
    fn bs_group_rekey_row(
        group: &Shared,
        txn: Txn,
        file: Node,
        number: u64,
        index: Node,
        key: u64,
    ) -> Reply;
    fn bs_group_drop(group: &Shared, txn: Txn, node: Node) -> Reply;
    fn bs_group_move(
        group: &Shared,
        txn: Txn,
        node: Node,
        parents: *const Node,
        count: usize,
    ) -> Reply;
    fn bs_group_index_by(
        group: &Shared,
        txn: Txn,
        parents: *const Node,
        count: usize,
        file: Node,
        bounds: *const u64,
        bound_count: usize,
    ) -> Reply;
    fn bs_group_index_records(
        group: &Shared,
        txn: Txn,
        parents: *const Node,
        count: usize,
        file: Node,
        bounds: *const u64,
        bound_count: usize,
        records: *const Node,
        keys: *const u64,
        record_count: usize,
    ) -> Reply;
    fn bs_group_split(group: &Shared, txn: Txn, interval: Node, at: u64) -> Reply;
    fn bs_group_merge(group: &Shared, txn: Txn, interval: Node) -> Reply;
    fn bs_group_held(group: &Shared, txn: Txn, node: Node) -> Reply;
    safe fn bs_table_group_of(table: &shared::Shared) -> Option<NonNull<Shared>>;

    safe fn bs_group_expire(group: &Shared, next: &mut Time) -> Reply;
    safe fn bs_group_watch_thread(group: &Shared, pace: u64) -> Reply;
    safe fn bs_call_group_watch(group: &Shared, watcher: &mut WatcherPlace) -> Reply;

    safe fn bs_group_file_of_row(group: &Shared, file: Node, number: u64) -> Reply;
    safe fn bs_group_counters(group: &Shared, counts: &mut Counters) -> Reply;
    safe fn bs_group_hold(group: &Shared, table: u32) -> Option<NonNull<Place>>;
    safe fn bs_group_let_go(group: &Shared, table: u32) -> Reply;
    safe fn bs_group_name_in(group: &Shared, node: Node, table: u32) -> Reply;
    safe fn bs_group_name_of(group: &Shared, node: Node, table: u32) -> Reply;
}

/// A group.
pub(crate) struct Group {
    at: NonNull<Shared>,
    waits: NonNull<Waits>,
    /// The context of its callback, which ends with it; `None` if it is a table's, and ends with that.
    own: Option<NonNull<Ends<Shared>>>,
}

// SAFETY: any thread may make any call with a group, and any thread may end it.
unsafe impl Send for Group {}

// SAFETY: the same.
unsafe impl Sync for Group {}

// No panic passes through a call of the library.
impl UnwindSafe for Group {}
impl RefUnwindSafe for Group {}

impl Group {
    /// Makes a group with so many parts, whose asks have their ends told. It ends with this.
    pub(crate) fn new(options: &Options, parts: u32) -> Result<Group, Refusal> {
        assert_fits();
        let ends = Ends::new().ok_or(Refusal::NoMemory)?;
        let mut at = null_mut();
        // SAFETY: the size is that of the options.
        accepted(unsafe { bs_call_group_make(&mut at, options, size_of::<Options>(), parts) })?;
        let at = NonNull::new(at).expect("a group that was made");
        let ends = ends.are_of(at);
        // SAFETY: they are there until the drop.
        let waits = NonNull::from(unsafe { ends.as_ref() }.waits());
        let own = Some(ends);
        let group = Group { at, waits, own };
        // SAFETY: the ends are freed after the group has ended.
        accepted(unsafe { awaited::has_ends_told(group.shared(), ends) })?;
        Ok(group)
    }

    /// The group of a table with parts; `None` if it has one.
    ///
    /// # Safety
    ///
    /// The table is there for as long as this is.
    pub(super) unsafe fn of_table(table: &shared::Shared, waits: &Waits) -> Option<Group> {
        let (at, waits) = (bs_table_group_of(table)?, NonNull::from(waits));
        Some(Group {
            at,
            waits,
            own: None,
        })
    }

    pub(super) fn waits(&self) -> &Waits {
        // SAFETY: they are there until the drop.
        unsafe { self.waits.as_ref() }
    }

    fn shared(&self) -> &Shared {
        // SAFETY: the group is there until the drop.
        unsafe { self.at.as_ref() }
    }

    /// The mode in which a transaction of a table with parts holds a node.
    pub(crate) fn held(&self, txn: Txn, node: Node) -> Reply {
        // SAFETY: a session of the table makes this call, and no other thread is in a call of its transaction.
        unsafe { bs_group_held(&self.call(), txn, node) }
    }

    /// For one call.
    fn call(&self) -> Calling<'_, Shared> {
        Calling::new(self.shared())
    }

    pub(crate) fn add_inner(&self, parents: &[Node]) -> Reply {
        // SAFETY: the count is the list's own.
        unsafe { bs_group_add_inner(&self.call(), nodes(parents), parents.len()) }
    }

    /// Makes a file in this part; with 0, in each part by turns.
    pub(crate) fn add_file(&self, part: u32, parents: &[Node]) -> Reply {
        // SAFETY: the count is the list's own.
        unsafe { bs_group_add_file(&self.call(), part, nodes(parents), parents.len()) }
    }

    pub(crate) fn add_row_file(&self, part: u32, parents: &[Node]) -> Reply {
        // SAFETY: the count is the list's own.
        unsafe { bs_group_add_row_file(&self.call(), part, nodes(parents), parents.len()) }
    }

    pub(crate) fn add_spread_file(&self, parents: &[Node]) -> Reply {
        // SAFETY: the count is the list's own.
        unsafe { bs_group_add_spread_file(&self.call(), nodes(parents), parents.len()) }
    }

    pub(crate) fn add_index(&self, parents: &[Node], file: Node, bounds: &[u64]) -> Reply {
        let (group, above, count) = (&self.call(), nodes(parents), parents.len());
        // SAFETY: the counts are the lists' own.
        unsafe { bs_group_add_index(group, above, count, file, numbers(bounds), bounds.len()) }
    }

    pub(crate) fn adopt(&self, file: Node, keys: &[u64]) -> Reply {
        // SAFETY: the count is the list's own.
        unsafe { bs_group_adopt(&self.call(), file, numbers(keys), keys.len()) }
    }

    pub(crate) fn forget(&self, record: Node) -> Reply {
        bs_group_forget(&self.call(), record)
    }

    pub(crate) fn keep(&self, most: u32) -> Reply {
        bs_group_keep(&self.call(), most)
    }

    /// Cancels the wait of a transaction, which may be any thread's.
    pub(crate) fn cancel(&self, txn: Txn) -> Reply {
        bs_group_cancel(&self.call(), txn)
    }

    /// Ends all deadlocks over several tables, for a transaction that may be any thread's.
    pub(crate) fn settle(&self, txn: Txn) -> Reply {
        bs_group_settle(&self.call(), txn)
    }

    /// Cancels the waits of asks whose time is over; the next of these times is written.
    pub(crate) fn expire(&self, next: &mut Time) -> Reply {
        bs_group_expire(&self.call(), next)
    }

    /// Makes a watcher of all tables.
    pub(crate) fn watch(&self, watcher: &mut WatcherPlace) -> Reply {
        bs_call_group_watch(&self.call(), watcher)
    }

    /// Starts a thread that looks for deadlocks.
    pub(crate) fn watch_thread(&self, pace: u64) -> Reply {
        bs_group_watch_thread(&self.call(), pace)
    }

    /// Whether this thread may make calls of the group: one that names no transaction is refused if it may not.
    pub(crate) fn may_call(&self) -> bool {
        self.cancel(Txn::NONE).status != IN_USE
    }

    pub(crate) fn file_of_row(&self, row: Row) -> Reply {
        bs_group_file_of_row(&self.call(), row.file, row.number)
    }

    pub(crate) fn counters(&self) -> Result<Counters, Refusal> {
        let mut counters = Counters::default();
        accepted(bs_group_counters(&self.call(), &mut counters)).map(|_| counters)
    }

    pub(crate) fn name_in(&self, node: Node, table: u32) -> Reply {
        bs_group_name_in(&self.call(), node, table)
    }

    pub(crate) fn name_of(&self, node: Node, table: u32) -> Reply {
        bs_group_name_of(&self.call(), node, table)
    }

    /// Asks the manager of a table, with its latch held for so long, also if that panics. `None` if this thread may not
    /// hold the table.
    pub(crate) fn with<T>(&self, table: u32, ask: impl FnOnce(&Manager) -> T) -> Option<T> {
        let group = self.shared();
        let place = bs_group_hold(group, table)?;
        let _held = Held { group, table };
        // SAFETY: the manager is there, and no other thread uses it, as long as the latch is held, which outlives this.
        let manager = Manager::lent(unsafe { Pinned::lent(place) });
        Some(ask(&manager))
    }
}

impl BeginsAtOnce for Group {
    fn begin_now(&self, since: u64) -> Reply {
        bs_group_begin_again(self.shared(), since)
    }

    fn begins(&self) -> &dyn Begins {
        self.shared()
    }
}

impl Drop for Group {
    /// The end may sleep, which a waker must not, nor a thread that holds a table: another thread ends it then. If there
    /// can be none, the group stays.
    fn drop(&mut self) {
        let Some(ends) = self.own else { return };
        let mut at = self.at.as_ptr();
        if bs_group_end(self.shared()).status != IN_USE {
            // SAFETY: the group was ended, and no thread is in a call with it: each borrows its owner.
            unsafe { bs_group_free(&mut at) };
            // SAFETY: they are of `new`, which leaked the box, and nobody tells an end any more.
            drop(unsafe { Box::from_raw(ends.as_ptr()) });
            return awaited::resume_panic();
        }
        let Group { at, waits, own } = *self;
        let group = ManuallyDrop::new(Group { at, waits, own });
        let ends_it = move || drop(ManuallyDrop::into_inner(group));
        let _ = thread::Builder::new().spawn(ends_it);
    }
}

/// A table of a group whose latch this thread holds.
struct Held<'g> {
    group: &'g Shared,
    table: u32,
}

impl Drop for Held<'_> {
    fn drop(&mut self) {
        bs_group_let_go(self.group, self.table);
    }
}

/// A transaction of a group. Nobody else makes calls with its name, and one thread has it at a time.
pub(crate) struct Transaction<'g> {
    owner: Handle<'g, Owner>,
    name: Txn,
    /// The number of its last ask; 0 before the first.
    asked: usize,
    /// It is not `Sync`.
    _of_one_thread: PhantomData<Cell<()>>,
}

// No panic passes through a call of the library.
impl RefUnwindSafe for Transaction<'_> {}

impl<'g> Transaction<'g> {
    /// Begins one, for work that has been tried since an earlier begin; or answers why it has not begun.
    pub(crate) fn begin(owner: Handle<'g, Owner>, since: u64) -> Result<Transaction<'g>, Reply> {
        let begun = bs_group_begin_again(&owner.shared().call(), since);
        Transaction::begun(owner, begun)
    }

    /// The same, but it sleeps until a slot is free.
    pub(crate) fn begin_in_turn(
        owner: Handle<'g, Owner>,
        since: u64,
        until: Option<Time>,
    ) -> Result<Transaction<'g>, Reply> {
        let group = owner.shared();
        let begun = bs_group_begin_again_in_turn(&group.call(), since, until.as_ref());
        Transaction::begun(owner, begun)
    }

    /// The transaction that a begin answered so.
    pub(crate) fn begun(owner: Handle<'g, Owner>, begun: Reply) -> Result<Transaction<'g>, Reply> {
        if begun.status != DONE {
            return Err(begun);
        }
        Ok(Transaction {
            owner,
            name: begun.txn,
            asked: 0,
            _of_one_thread: PhantomData,
        })
    }

    pub(crate) fn name(&self) -> Txn {
        self.name
    }

    pub(crate) fn owner(&self) -> &Owner {
        &self.owner
    }

    fn shared(&self) -> &Shared {
        self.owner.shared().shared()
    }

    /// For one call.
    fn call(&self) -> Calling<'_, Shared> {
        self.owner.shared().call()
    }

    /// Sets the time at which each of its waits ends.
    pub(crate) fn set_deadline(&mut self, until: Option<Time>) -> Reply {
        // SAFETY: no other thread is in a call of this transaction.
        unsafe { bs_group_deadline(&self.call(), self.name, until.as_ref()) }
    }

    pub(crate) fn commit(&mut self) -> Reply {
        // SAFETY: no other thread is in a call of this transaction.
        unsafe { bs_group_commit(&self.call(), self.name) }
    }

    /// Commits it, and is the next transaction of its slot then.
    pub(crate) fn renew(&mut self, since: u64) -> Reply {
        let _resumes = Resumes; // So the panic of a waker finds the new name noted.
        let (group, txn) = (self.shared(), self.name);
        // SAFETY: no other thread is in a call of this transaction.
        let reply = unsafe { bs_group_renew(group, txn, since) };
        if reply.status == DONE {
            self.name = reply.txn;
        }
        reply
    }

    pub(crate) fn lock_path(&mut self, node: Node, mode: u32, until: Option<Time>) -> Reply {
        // SAFETY: no other thread is in a call of this transaction.
        unsafe { bs_group_lock_path(&self.call(), self.name, node, mode, until.as_ref()) }
    }

    pub(crate) fn lock_row_path(
        &mut self,
        row: Row,
        keys: &[u64],
        mode: u32,
        until: Option<Time>,
    ) -> Reply {
        let (group, txn, Row { file, number }) = (&self.call(), self.name, row);
        let (start, count, until) = (numbers(keys), keys.len(), until.as_ref());
        // SAFETY: no other thread is in a call of this transaction, and the count is the list's own.
        unsafe { bs_group_lock_row_path(group, txn, file, number, start, count, mode, until) }
    }

    pub(crate) fn try_path(&mut self, node: Node, mode: u32, keep: u32) -> Reply {
        // SAFETY: no other thread is in a call of this transaction.
        unsafe { bs_group_try_path(&self.call(), self.name, node, mode, keep) }
    }

    pub(crate) fn try_row_path(&mut self, row: Row, keys: &[u64], mode: u32, keep: u32) -> Reply {
        let (group, txn, Row { file, number }) = (&self.call(), self.name, row);
        let (start, count) = (numbers(keys), keys.len());
        // SAFETY: no other thread is in a call of this transaction, and the count is the list's own.
        unsafe { bs_group_try_row_path(group, txn, file, number, start, count, mode, keep) }
    }

    pub(crate) fn unlock(&mut self, node: Node) -> Reply {
        // SAFETY: no other thread is in a call of this transaction.
        unsafe { bs_group_unlock(&self.call(), self.name, node) }
    }

    pub(crate) fn unlock_row(&mut self, row: Row) -> Reply {
        // SAFETY: no other thread is in a call of this transaction.
        unsafe { bs_group_unlock_row(&self.call(), self.name, row.file, row.number) }
    }

    pub(crate) fn escalate(&mut self, node: Node) -> Reply {
        // SAFETY: no other thread is in a call of this transaction.
        unsafe { bs_group_escalate(&self.call(), self.name, node) }
    }

    pub(crate) fn mark(&self) -> Result<Savepoint, Refusal> {
        let mut savepoint = Savepoint {
            at: [0; MOST_PARTS + 1],
        };
        // SAFETY: no other thread is in a call of this transaction.
        let reply = unsafe { bs_group_mark(&self.call(), self.name, &mut savepoint) };
        accepted(reply).map(|_| savepoint)
    }

    pub(crate) fn release_since(&mut self, savepoint: &Savepoint) -> Reply {
        // SAFETY: no other thread is in a call of this transaction.
        unsafe { bs_group_release_since(&self.call(), self.name, savepoint) }
    }

    pub(crate) fn insert(&mut self, file: Node, keys: &[u64]) -> Reply {
        // SAFETY: no other thread is in a call of this transaction, and the count is the list's own.
        unsafe { bs_group_insert(&self.call(), self.name, file, numbers(keys), keys.len()) }
    }

    pub(crate) fn delete(&mut self, record: Node) -> Reply {
        // SAFETY: no other thread is in a call of this transaction.
        unsafe { bs_group_delete(&self.call(), self.name, record) }
    }

    pub(crate) fn rekey(&mut self, record: Node, index: Node, key: u64) -> Reply {
        // SAFETY: no other thread is in a call of this transaction.
        unsafe { bs_group_rekey(&self.call(), self.name, record, index, key) }
    }

    pub(crate) fn rekey_row(&mut self, row: Row, index: Node, key: u64) -> Reply {
        let (group, txn, Row { file, number }) = (&self.call(), self.name, row);
        // SAFETY: no other thread is in a call of this transaction.
        unsafe { bs_group_rekey_row(group, txn, file, number, index, key) }
    }

    pub(crate) fn drop_node(&mut self, node: Node) -> Reply {
        // SAFETY: no other thread is in a call of this transaction.
        unsafe { bs_group_drop(&self.call(), self.name, node) }
    }

    pub(crate) fn move_node(&mut self, node: Node, parents: &[Node]) -> Reply {
        let (group, txn, above) = (&self.call(), self.name, nodes(parents));
        // SAFETY: no other thread is in a call of this transaction, and the count is the list's own.
        unsafe { bs_group_move(group, txn, node, above, parents.len()) }
    }

    pub(crate) fn split(&mut self, interval: Node, at: u64) -> Reply {
        // SAFETY: no other thread is in a call of this transaction.
        unsafe { bs_group_split(&self.call(), self.name, interval, at) }
    }

    pub(crate) fn merge(&mut self, interval: Node) -> Reply {
        // SAFETY: no other thread is in a call of this transaction.
        unsafe { bs_group_merge(&self.call(), self.name, interval) }
    }

    pub(crate) fn index_by(&mut self, parents: &[Node], file: Node, bounds: &[u64]) -> Reply {
        let (group, txn) = (&self.call(), self.name);
        let (above, count, start) = (nodes(parents), parents.len(), numbers(bounds));
        // SAFETY: no other thread is in a call of this transaction, and the counts are the lists' own.
        unsafe { bs_group_index_by(group, txn, above, count, file, start, bounds.len()) }
    }

    /// There must be as many keys as records.
    pub(crate) fn index_records(
        &mut self,
        parents: &[Node],
        file: Node,
        bounds: &[u64],
        records: &[Node],
        keys: &[u64],
    ) -> Reply {
        assert_eq!(records.len(), keys.len());
        // SAFETY: no other thread is in a call of this transaction, and the counts are the lists' own.
        unsafe {
            bs_group_index_records(
                &self.call(),
                self.name,
                nodes(parents),
                parents.len(),
                file,
                numbers(bounds),
                bounds.len(),
                nodes(records),
                numbers(keys),
                keys.len(),
            )
        }
    }

    pub(crate) fn held(&self, node: Node) -> Reply {
        // SAFETY: no other thread is in a call of this transaction.
        unsafe { bs_group_held(&self.call(), self.name, node) }
    }
}

mod asks;
mod lists;

/// The layouts of the header's types, by a C compiler for machines of 64 bits.
#[cfg(test)]
mod layouts {
    use super::*;

    #[test]
    fn savepoints() {
        assert_eq!((size_of::<Savepoint>(), align_of::<Savepoint>()), (512, 8));
    }
}
