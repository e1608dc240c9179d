//! A group of tables that work as one.

use crate::clock::Clock;
use crate::listing::Counters;
use crate::manager::{Escalated, Manager, Options};
use crate::mode::{Detect, Mode};
use crate::names::{Node, Row, Txn};
use crate::refusal::{accepted, done, Refusal};
use crate::session::{deadline, ended, Handle, Keep, RowLocked, Stop, Tried};
use crate::sys::awaited::Asks;
use crate::sys::group::{self, Savepoint, Transaction};
use crate::sys::shared::Time;
use crate::sys::Reply;
use crate::table::{node_of, Beginning};
use crate::watching::Watching;
use crate::MOST_PARTS;
use std::fmt;
use std::sync::Arc;
use std::thread;
use std::time::{Duration, Instant};

/// A group of tables that work as one lock manager, each with a latch of its own. So threads that work in different
/// parts do not wait for each other's calls. It is a `bs_table_group` of the library.
///
/// A group has a main table, whose number is 0, and 1 to [`MOST_PARTS`] parts, numbered from 1. Its inner nodes are in
/// all of them. A file is in one part, with its indexes, their intervals and its records. A transaction, which is a
/// [`GroupSession`], locks nodes of any parts. It joins a table with its first call there.
///
/// ```
/// use burlapslate::{Group, Mode, Stop};
/// use std::thread;
///
/// let group = Group::new(4)?;
/// let db = group.add_inner(&[])?;
/// let files = [(); 4].map(|()| group.add_file(&[db]).unwrap()); // In each part by turns.
/// thread::scope(|scope| {
///     for file in files {
///         let group = &group;
///         scope.spawn(move || {
///             let mut session = group.begin()?;
///             session.lock_path(file, Mode::X)?; // It also takes IX on `db`.
///             session.commit()?;
///             Ok::<(), Stop>(())
///         });
///     }
/// });
/// let mut backup = group.begin()?;
/// backup.lock_path(db, Mode::S)?; // It reads all files, in all parts.
/// backup.commit()?;
/// # Ok::<(), Stop>(())
/// ```
///
/// The rules are those of a [`Table`](crate::Table), with these differences:
///
/// - To read below a node that has several inner nodes as parents, a transaction needs the first of them, even if it
///   holds `S` or more on another.
/// - `IS` or `IX` on an inner node is locked in the main table. No transaction needs to request it: the locks below
///   acquire their own intentions.
/// - No node is moved, and no inner node is dropped. Records are rekeyed and deleted, files and indexes dropped.
///
/// More than an intention on an inner node (`S`, `SIX`, `X`) costs a visit of each part. As long as it lasts, each
/// transaction that locks below that node needs one more call of the main table. Use it for rare work, such as a backup.
///
/// A deadlock within one table is ended as it arises. A deadlock over several tables is detected by a thread that sleeps:
/// it looks after 2 ms, and then after twice as long each time, up to 256 ms. The victim of the latter is the youngest
/// member. If no thread may be asleep, as in a program of tasks, [`expire`](Group::expire) ends it, or a thread that
/// watches ([`watch_over`](Group::watch_over)).
///
/// # Names
///
/// The names of a group's nodes and transactions are its own: use them with no [`Table`](crate::Table) or [`Manager`],
/// and with no other group. There they name nothing, or another node or transaction. [`name_in`](Group::name_in) translates the name
/// of a node into that in one of the group's tables, for questions ([`with_table`](Group::with_table)).
///
/// # Refusals
///
/// Each call of a group, and of its sessions, is refused with [`InUse`](Refusal::InUse) while the thread holds a table, of
/// this group or any other. [`name_in`](Group::name_in) and [`name_of`](Group::name_of) may be called for the table that
/// the thread holds. A call that may sleep, as for a lock or a slot, is refused with [`InUse`](Refusal::InUse) in a waker
/// too, whether it had to sleep or not; a waker may make all others.
///
/// Two tables share no node but the inner ones. So a node of another part than the call's is refused with
/// [`NoSuchNode`](Refusal::NoSuchNode), and an inner node in place of a file, an index, an interval or a record with
/// [`BadParents`](Refusal::BadParents), or with [`NotRows`](Refusal::NotRows) in place of a file of rows.
///
/// Proved are the laws by which several managers work as one, and what is decided by them. Written in C, and tested:
/// the latches, the sleeps, and the calls that keep these laws.
pub struct Group {
    group: group::Group,
    parts: u32,
    clock: Clock,
    watching: Watching,
}

/// Groups and their graph.
impl Group {
    /// Makes a group with so many parts, 1 to [`MOST_PARTS`], by the options of
    /// [`Options::new`]`(`[`Detect::AtBlock`]`)`.
    ///
    /// Refused as [`with_options`](Group::with_options).
    pub fn new(parts: usize) -> Result<Group, Refusal> {
        Group::with_options(Options::new(Detect::AtBlock), parts)
    }

    /// Makes a group with so many parts, 1 to [`MOST_PARTS`]. Each of its tables may have as many nodes as the options
    /// say, and the group as many transactions at once.
    ///
    /// Refused as [`Manager::with_options`]; with [`BadNumber`](Refusal::BadNumber) also for another number of parts.
    /// Deadlocks are detected as said above, with each [`Detect`] alike.
    pub fn with_options(options: Options, parts: usize) -> Result<Group, Refusal> {
        let options = options.checked()?;
        let parts = within(parts, MOST_PARTS)?;
        Ok(Group::of(group::Group::new(&options, parts)?, parts))
    }

    /// With so many parts.
    pub(crate) fn of(group: group::Group, parts: u32) -> Group {
        Group {
            group,
            parts,
            clock: Clock::new(),
            watching: Watching::new(),
        }
    }

    /// How many parts it has. Beside them it has the main table, whose number is 0.
    pub fn parts(&self) -> usize {
        self.parts as usize
    }

    /// The number of the table that has a node of a group: 0 for an inner node, which is in all of them, or the part of
    /// any other.
    pub fn table_of(node: Node) -> usize {
        node.key >> 32
    }

    /// As [`Manager::add_inner`], in all tables. Costs the latches of all tables at once.
    ///
    /// Refused as that call, and with [`TooManyNodes`](Refusal::TooManyNodes) if any table is full. After
    /// [`NoMemory`](Refusal::NoMemory) some tables may keep a node that nobody can name.
    pub fn add_inner(&self, parents: &[Node]) -> Result<Node, Refusal> {
        node_of(self.group.add_inner(parents))
    }

    /// As [`Manager::add_file`], in each part by turns.
    pub fn add_file(&self, parents: &[Node]) -> Result<Node, Refusal> {
        node_of(self.group.add_file(0, parents))
    }

    /// As [`Manager::add_file`], in this part, from 1 on.
    ///
    /// Refused as that call, and with [`BadNumber`](Refusal::BadNumber) if there is no such part.
    ///
    /// ```
    /// # use burlapslate::{Group, Refusal};
    /// # let group = Group::new(2)?;
    /// # let db = group.add_inner(&[])?;
    /// let orders = group.add_file_in(2, &[db])?;
    /// assert_eq!((Group::table_of(orders), Group::table_of(db)), (2, 0));
    /// assert_eq!(group.add_file_in(0, &[db]), Err(Refusal::BadNumber)); // The main table has no files.
    /// # Ok::<(), Refusal>(())
    /// ```
    pub fn add_file_in(&self, part: usize, parents: &[Node]) -> Result<Node, Refusal> {
        node_of(self.group.add_file(self.part(part)?, parents))
    }

    /// As [`Manager::add_row_file`], in each part by turns.
    pub fn add_row_file(&self, parents: &[Node]) -> Result<Node, Refusal> {
        node_of(self.group.add_row_file(0, parents))
    }

    /// As [`Manager::add_row_file`], in this part, from 1 on.
    ///
    /// Refused as that call, and with [`BadNumber`](Refusal::BadNumber) if there is no such part.
    pub fn add_row_file_in(&self, part: usize, parents: &[Node]) -> Result<Node, Refusal> {
        node_of(self.group.add_row_file(self.part(part)?, parents))
    }

    /// Makes a spread file: an inner node, which is answered, with a file of rows below it in each part. Its rows are
    /// dealt to the parts by their numbers: each part has an even share, also of rows that follow each other. So threads
    /// that lock rows of one file work in different parts. Costs the latches of all tables at once.
    ///
    /// The file of a [`Row`] may be a spread file: each call about the row is made in the row's part. To lock all rows,
    /// lock the spread file itself in `S` or `X`, as any inner node. It has no indexes, and its rows have no keys.
    /// [`file_of_row`](Group::file_of_row) names its file in one part, which can be locked and escalated alone.
    ///
    /// A transaction acquires the intentions above its rows in each of their parts, unless they were kept there
    /// ([`keep`](Group::keep)): without that, short transactions cost twice as much.
    ///
    /// Refused as [`add_inner`](Group::add_inner), and with [`BadParents`](Refusal::BadParents) also without parents. A
    /// spread file as a parent is refused with [`BadParents`](Refusal::BadParents), and a record of it with
    /// [`RowsByNumber`](Refusal::RowsByNumber). Its file in a part is refused with [`NotRows`](Refusal::NotRows) as the
    /// file of a row, and with [`BadParents`](Refusal::BadParents) by the calls that would drop it or give it an index.
    ///
    /// ```
    /// # use burlapslate::{Group, Mode, Row, RowLocked, Stop};
    /// # let group = Group::new(4)?;
    /// # let db = group.add_inner(&[])?;
    /// let orders = group.add_spread_file(&[db])?;
    /// let mut session = group.begin()?;
    /// for number in 0..100 {
    ///     let locked = session.lock_row_path(Row { file: orders, number }, &[], Mode::X)?;
    ///     assert_eq!(locked, RowLocked::Own(Mode::X));
    /// }
    /// session.commit()?;
    /// let mut report = group.begin()?;
    /// report.lock_path(orders, Mode::S)?; // It reads all rows, in all parts.
    /// report.commit()?;
    /// # Ok::<(), Stop>(())
    /// ```
    pub fn add_spread_file(&self, parents: &[Node]) -> Result<Node, Refusal> {
        node_of(self.group.add_spread_file(parents))
    }

    /// As [`Manager::add_index`], in the part of the file. If it is made, each call that waits for a row of the file is
    /// refused with [`BadKeys`](Refusal::BadKeys): it has no key for the index.
    pub fn add_index(&self, parents: &[Node], file: Node, bounds: &[u64]) -> Result<Node, Refusal> {
        node_of(self.group.add_index(parents, file, bounds))
    }

    /// As [`Manager::adopt`].
    pub fn adopt(&self, file: Node, keys: &[u64]) -> Result<Node, Refusal> {
        node_of(self.group.adopt(file, keys))
    }

    /// As [`Manager::forget`].
    pub fn forget(&self, record: Node) -> Result<(), Refusal> {
        done(self.group.forget(record))
    }
}

/// Transactions.
impl Group {
    /// A new transaction, for this thread. It costs no latch. A slot takes 64 ages at a time, so a later transaction of
    /// another slot may have a smaller age, and counts as the older one. While threads sleep for a slot
    /// ([`begin_in_turn`](Group::begin_in_turn)) no slot is free.
    ///
    /// Refused with [`TooManyTxns`](Refusal::TooManyTxns).
    pub fn begin(&self) -> Result<GroupSession<'_>, Refusal> {
        self.begin_again(u64::MAX)
    }

    /// As [`begin`](Group::begin), but if all slots are taken the thread sleeps until it has one. Threads that sleep for a
    /// slot are served in the order of their arrival.
    ///
    /// A thread that sleeps for a slot has no transaction there, so it is on no cycle of waits. If it has another session
    /// open it may wait for itself, and no detection finds that.
    ///
    /// Refused with [`InUse`](Refusal::InUse) also in a waker, and with [`NoMemory`](Refusal::NoMemory) if it has to
    /// sleep; never with [`TooManyTxns`](Refusal::TooManyTxns).
    ///
    /// ```
    /// use burlapslate::{Detect, Group, Mode, Options, Stop};
    /// use std::thread;
    ///
    /// // Two slots, for eight threads.
    /// let group = Group::with_options(Options::new(Detect::AtBlock).transactions(2), 4)?;
    /// let db = group.add_inner(&[])?;
    /// let file = group.add_file(&[db])?;
    /// thread::scope(|scope| {
    ///     for _ in 0..8 {
    ///         scope.spawn(|| {
    ///             let mut session = group.begin_in_turn()?;
    ///             session.lock_path(file, Mode::X)?;
    ///             session.commit()?;
    ///             Ok::<(), Stop>(())
    ///         });
    ///     }
    /// });
    /// # Ok::<(), Stop>(())
    /// ```
    pub fn begin_in_turn(&self) -> Result<GroupSession<'_>, Refusal> {
        self.begin_again_in_turn(u64::MAX)
    }

    /// As [`begin`](Group::begin), for work that an earlier transaction began, as [`Manager::begin_again`]: in a
    /// deadlock it counts as old as that.
    ///
    /// ```
    /// # use burlapslate::{Group, Mode, Stop};
    /// let group = Group::new(2)?;
    /// let db = group.add_inner(&[])?;
    /// let mut session = group.begin()?;
    /// let since = session.txn().age();
    /// while session.lock_path(db, Mode::X) == Err(Stop::Victim) {
    ///     session.abort();
    ///     session = group.begin_again(since)?;
    /// }
    /// session.commit()?;
    /// # Ok::<(), Stop>(())
    /// ```
    pub fn begin_again(&self, since: u64) -> Result<GroupSession<'_>, Refusal> {
        GroupSession::begin(Handle::Lent(self), since)
    }

    /// As [`begin_in_turn`](Group::begin_in_turn), for work that an earlier transaction began. It gives no earlier place
    /// among the threads that sleep.
    pub fn begin_again_in_turn(&self, since: u64) -> Result<GroupSession<'_>, Refusal> {
        GroupSession::begin_in_turn(Handle::Lent(self), since)
    }

    /// As [`begin_in_turn`](Group::begin_in_turn), but the thread sleeps no longer than this time, and the answer is then
    /// [`Stop::TimedOut`]. If a slot was freed for it by then, the transaction has begun.
    ///
    /// ```
    /// # use burlapslate::{Detect, Group, Options, Stop};
    /// # use std::time::Duration;
    /// let group = Group::with_options(Options::new(Detect::AtBlock).transactions(1), 2)?;
    /// let only = group.begin()?;
    /// let second = group.begin_timeout(Duration::from_millis(1));
    /// assert_eq!(second.map(drop), Err(Stop::TimedOut));
    /// # Ok::<(), burlapslate::Refusal>(())
    /// ```
    pub fn begin_timeout(&self, time: Duration) -> Result<GroupSession<'_>, Stop> {
        GroupSession::begin_timeout(Handle::Lent(self), time)
    }

    /// As [`begin_in_turn`](Group::begin_in_turn), for a task, as [`Table::begin_async`](crate::Table::begin_async): if
    /// all slots are taken, it waits in the same queue as the threads that sleep, and no thread sleeps for it.
    ///
    /// Refused with [`InUse`](Refusal::InUse) while the thread holds a table, and with [`NoMemory`](Refusal::NoMemory)
    /// if it has to wait; never with [`TooManyTxns`](Refusal::TooManyTxns).
    pub async fn begin_async(&self) -> Result<GroupSession<'_>, Refusal> {
        self.begin_again_async(u64::MAX).await
    }

    /// As [`begin_async`](Group::begin_async), for work that an earlier transaction began. It gives no earlier place in
    /// the queue.
    pub async fn begin_again_async(&self, since: u64) -> Result<GroupSession<'_>, Refusal> {
        let begun = Beginning::new(&self.group, since).await;
        GroupSession::begun(Handle::Lent(self), begun)
    }

    /// From now on a commit keeps in each part the first locks there that are intentions, at most so many, for the next
    /// transaction of its slot; 16 is usual. The next transaction of a thread mostly has the same slot. With 0, as at
    /// first, commits keep nothing, and this call releases what they kept.
    ///
    /// What is kept rests in the part, and belongs to no transaction of the group. It is released as soon as it blocks a
    /// request. The next transaction of the slot takes it up with its first call in the part. That transaction may then
    /// hold intentions that it has not requested, for which others wait until it ends. An abort keeps nothing. A
    /// transaction of [`begin_again`](Group::begin_again) takes nothing up: its first call in a part releases what rests
    /// there for its slot.
    ///
    /// A commit keeps nothing in a part while an inner node is locked in more than an intention, or is requested so. Such
    /// a request first releases all that rests in the group.
    ///
    /// When a victim is chosen within a part, a transaction that took something up there counts as one that began at the
    /// commit that kept it. Costs the latch of each part, one after the other.
    ///
    /// ```
    /// # use burlapslate::{Group, Mode, Stop};
    /// # let group = Group::new(2)?;
    /// # let db = group.add_inner(&[])?;
    /// # let files = [group.add_file_in(1, &[db])?, group.add_file_in(1, &[db])?];
    /// group.keep(16)?;
    /// let mut session = group.begin()?;
    /// session.lock_path(files[0], Mode::X)?;
    /// session.commit()?; // It keeps IX on `db` in part 1.
    /// let mut session = group.begin()?;
    /// session.lock_path(files[1], Mode::S)?; // It takes that up.
    /// assert_eq!(session.held(db), Ok(Mode::IX));
    /// # Ok::<(), Stop>(())
    /// ```
    pub fn keep(&self, most: usize) -> Result<(), Refusal> {
        done(self.group.keep(u32::try_from(most).unwrap_or(u32::MAX)))
    }

    /// As [`begin`](Group::begin), for a session that is one of the group's owners: what stores the session, such as a
    /// connection, need not store the group.
    ///
    /// ```
    /// use burlapslate::{Group, GroupSession, Mode};
    /// use std::sync::Arc;
    ///
    /// struct Connection {
    ///     session: GroupSession<'static>,
    /// }
    ///
    /// let group = Arc::new(Group::new(2)?);
    /// let db = group.add_inner(&[])?;
    /// let mut connection = Connection {
    ///     session: group.begin_shared()?,
    /// };
    /// drop(group);
    /// assert_eq!(connection.session.lock_path(db, Mode::X), Ok(Mode::X));
    /// connection.session.commit()?;
    /// # Ok::<(), burlapslate::Refusal>(())
    /// ```
    pub fn begin_shared(self: &Arc<Group>) -> Result<GroupSession<'static>, Refusal> {
        self.begin_shared_again(u64::MAX)
    }

    /// As [`begin_in_turn`](Group::begin_in_turn), for a session that is one of the group's owners.
    pub fn begin_shared_in_turn(self: &Arc<Group>) -> Result<GroupSession<'static>, Refusal> {
        self.begin_shared_again_in_turn(u64::MAX)
    }

    /// As [`begin_again`](Group::begin_again), for a session that is one of the group's owners.
    pub fn begin_shared_again(
        self: &Arc<Group>,
        since: u64,
    ) -> Result<GroupSession<'static>, Refusal> {
        GroupSession::begin(Handle::Shared(Arc::clone(self)), since)
    }

    /// As [`begin_again_in_turn`](Group::begin_again_in_turn), for a session that is one of the group's owners.
    pub fn begin_shared_again_in_turn(
        self: &Arc<Group>,
        since: u64,
    ) -> Result<GroupSession<'static>, Refusal> {
        GroupSession::begin_in_turn(Handle::Shared(Arc::clone(self)), since)
    }

    /// As [`begin_async`](Group::begin_async), for a session that is one of the group's owners.
    pub async fn begin_shared_async(self: &Arc<Group>) -> Result<GroupSession<'static>, Refusal> {
        self.begin_shared_again_async(u64::MAX).await
    }

    /// As [`begin_again_async`](Group::begin_again_async), for a session that is one of the group's owners.
    pub async fn begin_shared_again_async(
        self: &Arc<Group>,
        since: u64,
    ) -> Result<GroupSession<'static>, Refusal> {
        let begun = Beginning::new(&self.group, since).await;
        GroupSession::begun(Handle::Shared(Arc::clone(self)), begun)
    }

    /// As [`begin_timeout`](Group::begin_timeout), for a session that is one of the group's owners.
    pub fn begin_shared_timeout(
        self: &Arc<Group>,
        time: Duration,
    ) -> Result<GroupSession<'static>, Stop> {
        GroupSession::begin_timeout(Handle::Shared(Arc::clone(self)), time)
    }

    /// Cancels the wait of a transaction, from any thread. The thread or task that waits is woken and answered
    /// [`Stop::Cancelled`]. A path ends at the lock for which it waits; the locks acquired before that stay. Costs the
    /// latch of each table up to that where the transaction waits.
    ///
    /// Refused with [`NoSuchTxn`](Refusal::NoSuchTxn), and with [`NotWaiting`](Refusal::NotWaiting) if the transaction
    /// waits in no table. A thread that sleeps for a path may be between two tables, and is not found then; a task is. If
    /// the lock of a task is granted at that moment, its answer may be the grant.
    pub fn cancel(&self, txn: Txn) -> Result<(), Refusal> {
        done(self.group.cancel(txn))
    }

    /// Ends all deadlocks over several tables, that of this transaction among them; how many fell. Deadlocks within one
    /// table have been ended as they arose. Costs the latches of all tables.
    ///
    /// Refused with [`NoSuchTxn`](Refusal::NoSuchTxn).
    pub fn settle(&self, txn: Txn) -> Result<usize, Refusal> {
        accepted(self.group.settle(txn)).map(|reply| reply.count as usize)
    }
}

/// Questions.
impl Group {
    /// Asks questions of one of the group's tables, by its number, that are all of one moment, with its latch held. The
    /// manager has names of its own: of nodes, as [`name_in`](Group::name_in) and [`name_of`](Group::name_of) say, and of
    /// transactions, which have the slot of the group's, but another age. What a commit has kept
    /// ([`keep`](Group::keep)) is a transaction there.
    ///
    /// Refused with [`BadNumber`](Refusal::BadNumber) if there is no such table, and with [`InUse`](Refusal::InUse) if the
    /// thread holds a table already, as within the closure.
    ///
    /// ```
    /// # use burlapslate::{Group, Mode, Stop};
    /// # let group = Group::new(2)?;
    /// # let db = group.add_inner(&[])?;
    /// let orders = group.add_file_in(2, &[db])?;
    /// let mut session = group.begin()?;
    /// session.lock_path(orders, Mode::X)?;
    /// let name = group.name_in(orders, 2)?;
    /// assert_eq!(group.with_table(2, |m| m.group(name))?, Ok(Mode::X));
    /// assert!(group.with_table(1, |m| m.transactions().next().is_none())?); // It needs no other part.
    /// # Ok::<(), Stop>(())
    /// ```
    pub fn with_table<T>(
        &self,
        table: usize,
        ask: impl FnOnce(&Manager) -> T,
    ) -> Result<T, Refusal> {
        let asked = self.group.with(self.table(table)?, ask);
        asked.ok_or(Refusal::InUse)
    }

    /// The file in a part that has a row of a spread file ([`add_spread_file`](Group::add_spread_file)). Costs no latch.
    ///
    /// Refused with [`NotRows`](Refusal::NotRows) if the row's file is no spread file.
    ///
    /// ```
    /// # use burlapslate::{Group, Mode, Row, RowLocked, Stop};
    /// # let group = Group::new(4)?;
    /// # let db = group.add_inner(&[])?;
    /// let orders = group.add_spread_file(&[db])?;
    /// let row = Row { file: orders, number: 7 };
    /// let mut session = group.begin()?;
    /// assert_eq!(session.lock_row_path(row, &[], Mode::X)?, RowLocked::Own(Mode::X));
    /// let file = group.file_of_row(row)?;
    /// assert_eq!(session.held(file), Ok(Mode::IX));
    /// assert_eq!(session.escalate(file)?.mode, Mode::X); // For all rows of that part.
    /// # Ok::<(), Stop>(())
    /// ```
    pub fn file_of_row(&self, row: Row) -> Result<Node, Refusal> {
        node_of(self.group.file_of_row(row))
    }

    /// What the tables of the group have been doing since it was made: the sums of [`Manager::counters`] of each.
    /// [`most_waiting`](Counters::most_waiting) and [`longest_queue`](Counters::longest_queue) are the greatest of one
    /// table. Copies in the main table count too. Costs the latch of each table, one after the other.
    ///
    /// ```
    /// # use burlapslate::{Group, Mode, Stop};
    /// # let group = Group::new(2)?;
    /// # let db = group.add_inner(&[])?;
    /// # let file = group.add_file(&[db])?;
    /// group.begin()?.lock_path(file, Mode::X)?; // It also acquires IX on `db`.
    /// assert_eq!(group.counters()?.granted, 2);
    /// # Ok::<(), Stop>(())
    /// ```
    pub fn counters(&self) -> Result<Counters, Refusal> {
        self.group.counters()
    }

    /// The name of a node of the group in one of its tables, by the table's number. A name of a node that is not an inner
    /// one is translated whether it names a node or not.
    ///
    /// Refused with [`BadNumber`](Refusal::BadNumber) if there is no such table, with [`InUse`](Refusal::InUse) if the
    /// thread holds another one, and with [`NoSuchNode`](Refusal::NoSuchNode) if the node is not there.
    pub fn name_in(&self, node: Node, table: usize) -> Result<Node, Refusal> {
        node_of(self.group.name_in(node, self.table(table)?))
    }

    /// The name in the group of a node of one of its tables, by the table's number.
    ///
    /// Refused as [`name_in`](Group::name_in).
    ///
    /// ```
    /// # use burlapslate::{Group, Refusal};
    /// # let group = Group::new(2)?;
    /// let db = group.add_inner(&[])?;
    /// for table in 0..=group.parts() {
    ///     let name = group.name_in(db, table)?;
    ///     assert_eq!(group.name_of(name, table), Ok(db));
    /// }
    /// # Ok::<(), Refusal>(())
    /// ```
    pub fn name_of(&self, node: Node, table: usize) -> Result<Node, Refusal> {
        node_of(self.group.name_of(node, self.table(table)?))
    }

    /// The node of a row, if it has one now; refused while the thread holds a table.
    pub(crate) fn row_node(&self, row: Row) -> Result<Option<Node>, Refusal> {
        let named = match self.file_of_row(row) {
            Err(Refusal::NotRows) => row.file,
            named => named?,
        };
        let (table, number) = (Group::table_of(named), row.number);
        let Ok(file) = self.name_in(named, table) else {
            return Ok(None);
        };
        let asked = self.with_table(table, |m| m.row_node(Row { file, number }))?;
        Ok(asked.and_then(|node| self.name_of(node, table).ok()))
    }

    /// What each of its tables has, each of its own moment, as text in columns, by their numbers; refused while the
    /// thread holds a table.
    pub(crate) fn dump(&self) -> Result<String, Refusal> {
        let mut text = String::new();
        for table in 0..=self.parts() {
            text += &match table {
                0 => "Main table:\n".to_owned(),
                part => format!("\nPart {part}:\n"),
            };
            text += &self.with_table(table, |m| m.listing().to_string())?;
        }
        Ok(text)
    }

    /// The mode in which a transaction of a table with parts holds a node. It is a call of its session's.
    pub(crate) fn held(&self, txn: Txn, node: Node) -> Result<Mode, Refusal> {
        let reply = accepted(self.group.held(txn, node))?;
        Ok(Mode::of(reply.mode))
    }

    /// The number of a part.
    fn part(&self, part: usize) -> Result<u32, Refusal> {
        if part == 0 {
            return Err(Refusal::BadNumber);
        }
        self.table(part)
    }

    /// The number of a table.
    fn table(&self, table: usize) -> Result<u32, Refusal> {
        within(table, self.parts())
    }

    /// The group of the library.
    pub(crate) fn shared(&self) -> &group::Group {
        &self.group
    }

    /// A time as the library takes it.
    fn time(&self, until: Option<Instant>) -> Option<Time> {
        until.map(|until| self.clock.time(until))
    }
}

/// A number that is not above this one.
fn within(number: usize, most: usize) -> Result<u32, Refusal> {
    let number = Some(number).filter(|number| *number <= most);
    let number = number.and_then(|number| u32::try_from(number).ok());
    number.ok_or(Refusal::BadNumber)
}

/// How many parts it has.
impl fmt::Debug for Group {
    fn fmt(&self, f: &mut fmt::Formatter<'_>) -> fmt::Result {
        let mut shown = f.debug_struct("Group");
        shown.field("parts", &self.parts).finish_non_exhaustive()
    }
}

/// A savepoint of a transaction of a [`Group`]: how many nodes it held in each part. Another transaction of the group
/// cannot use it. Use it with no other group.
#[derive(Clone, Copy, PartialEq, Eq, Hash)]
pub struct GroupMark {
    txn: Txn,
    savepoint: Savepoint,
}

impl fmt::Debug for GroupMark {
    fn fmt(&self, f: &mut fmt::Formatter<'_>) -> fmt::Result {
        f.debug_tuple("GroupMark").field(&self.txn).finish()
    }
}

/// A transaction of a [`Group`], which one thread drives. A lock call sleeps until the lock is granted, or a task awaits it
/// ([`lock_path_async`](GroupSession::lock_path_async)). A session that is dropped without a commit is aborted, so that its
/// locks never outlive it: undo what it wrote first. Within a closure of [`Group::with_table`] or
/// [`Table::with`](crate::Table::with) it cannot be aborted: a drop panics there. If it is dropped in a waker while it
/// waits by a list or a leaked future, whose end is told after the waker, it is aborted then. It borrows its group, or
/// is one of its owners ([`Group::begin_shared`]).
///
/// ```
/// use burlapslate::{Group, Mode};
///
/// let group = Group::new(2)?;
/// let db = group.add_inner(&[])?;
/// let mut session = group.begin()?;
/// assert_eq!(session.lock_path(db, Mode::X), Ok(Mode::X));
/// drop(session); // It is aborted.
/// assert_eq!(group.begin()?.lock_path(db, Mode::X), Ok(Mode::X));
/// # Ok::<(), burlapslate::Refusal>(())
/// ```
///
/// It ends once:
///
/// ```compile_fail,E0382
/// # use burlapslate::{Group, Mode, Stop};
/// # let group = Group::new(2)?;
/// # let db = group.add_inner(&[])?;
/// let mut session = group.begin()?;
/// session.commit()?;
/// session.lock_path(db, Mode::X)?; // It has ended.
/// # Ok::<(), Stop>(())
/// ```
///
/// It does not outlive a group that it borrows:
///
/// ```compile_fail,E0505
/// # use burlapslate::{Group, Stop};
/// # let group = Group::new(2)?;
/// let session = group.begin()?;
/// drop(group);
/// session.commit()?;
/// # Ok::<(), Stop>(())
/// ```
///
/// The calls of one transaction come from one thread at a time. So a session is `Send`, and not `Sync`: a thread may give
/// it to another, and two threads have no part in one.
///
/// ```compile_fail,E0277
/// # use burlapslate::{Group, Refusal};
/// # let group = Group::new(2)?;
/// # let db = group.add_inner(&[])?;
/// let session = group.begin()?;
/// std::thread::scope(|scope| {
///     scope.spawn(|| session.held(db)); // A second thread has no part in it.
/// });
/// # Ok::<(), Refusal>(())
/// ```
#[must_use = "a session that is dropped is aborted"]
pub struct GroupSession<'g> {
    transaction: Transaction<'g>,
    has_ended: bool,
    /// The deadline of each of its waits.
    deadline: Option<Instant>,
}

impl<'g> GroupSession<'g> {
    fn begin(group: Handle<'g, Group>, since: u64) -> Result<GroupSession<'g>, Refusal> {
        let begun = Transaction::begin(group, since).map(GroupSession::of);
        begun.map_err(|reply| Refusal::of(&reply))
    }

    fn begin_in_turn(group: Handle<'g, Group>, since: u64) -> Result<GroupSession<'g>, Refusal> {
        let begun = Transaction::begin_in_turn(group, since, None).map(GroupSession::of);
        begun.map_err(|reply| Refusal::of(&reply))
    }

    fn begin_timeout(group: Handle<'g, Group>, time: Duration) -> Result<GroupSession<'g>, Stop> {
        let until = group.time(deadline(time));
        let begun = Transaction::begin_in_turn(group, u64::MAX, until).map(GroupSession::of);
        begun.map_err(|reply| Stop::of(&reply))
    }

    /// With the transaction that a begin answered so.
    fn begun(group: Handle<'g, Group>, begun: Reply) -> Result<GroupSession<'g>, Refusal> {
        let begun = Transaction::begun(group, begun).map(GroupSession::of);
        begun.map_err(|reply| Refusal::of(&reply))
    }

    fn of(transaction: Transaction<'g>) -> GroupSession<'g> {
        GroupSession {
            transaction,
            has_ended: false,
            deadline: None,
        }
    }

    /// The name of its transaction in the group: its slot, and its age for [`Group::begin_again`]. By it other threads may
    /// cancel a wait ([`Group::cancel`]).
    pub fn txn(&self) -> Txn {
        self.transaction.name()
    }

    /// Commits its transaction, and begins the next one in its slot, as [`Group::begin_again`]: no thread that sleeps for a
    /// slot comes between. The new transaction holds nothing but what was kept for it ([`Group::keep`]). A deadline stays.
    ///
    /// Refused as [`commit`](GroupSession::commit); but then the session stays.
    ///
    /// ```
    /// # use burlapslate::{Group, Mode, Stop};
    /// # let group = Group::new(2)?;
    /// # let db = group.add_inner(&[])?;
    /// # let file = group.add_file(&[db])?;
    /// let mut session = group.begin()?;
    /// session.lock_path(file, Mode::X)?;
    /// let before = session.txn();
    /// session.renew(u64::MAX)?;
    /// assert_ne!(session.txn(), before);
    /// assert_eq!(session.held(file), Ok(Mode::NL));
    /// # Ok::<(), Stop>(())
    /// ```
    pub fn renew(&mut self, since: u64) -> Result<(), Refusal> {
        done(self.transaction.renew(since))?;
        match self.deadline {
            Some(_) => self.set_deadline(self.deadline),
            None => Ok(()),
        }
    }

    /// Locks a node with what must be held above it, as [`Session::lock_path`](crate::Session::lock_path), and answers
    /// the mode that is held then. If an inner node above a file or its nodes is locked in more than an intention, or
    /// somebody waits for that, the call may sleep in the main table first. The answer is never [`Stop::Moved`].
    ///
    /// More than an intention on an inner node is the mode that the main table grants: what the transaction holds there
    /// alone, it keeps until it ends. [`held`](GroupSession::held) says what it holds in all tables.
    ///
    /// ```
    /// # use burlapslate::{Group, Mode, Stop};
    /// # let group = Group::new(2)?;
    /// # let db = group.add_inner(&[])?;
    /// # let file = group.add_file(&[db])?;
    /// let mut session = group.begin()?;
    /// assert_eq!(session.lock_path(file, Mode::X), Ok(Mode::X));
    /// assert_eq!(session.held(db), Ok(Mode::IX));
    /// session.commit()?;
    /// # Ok::<(), Stop>(())
    /// ```
    pub fn lock_path(&mut self, node: Node, mode: Mode) -> Result<Mode, Stop> {
        self.path(node, mode, None)
    }

    /// As [`lock_path`](GroupSession::lock_path), but after this time the wait is cancelled and answered with
    /// [`Stop::TimedOut`]. A lock that was granted by then is answered as granted.
    ///
    /// ```
    /// # use burlapslate::{Group, Mode, Stop};
    /// # use std::time::Duration;
    /// # let group = Group::new(2)?;
    /// # let db = group.add_inner(&[])?;
    /// # let file = group.add_file(&[db])?;
    /// let (mut first, mut second) = (group.begin()?, group.begin()?);
    /// first.lock_path(file, Mode::S)?;
    /// let end = second.lock_path_timeout(file, Mode::X, Duration::from_millis(1));
    /// assert_eq!(end, Err(Stop::TimedOut));
    /// assert_eq!(second.lock_path(file, Mode::S), Ok(Mode::S));
    /// # Ok::<(), Stop>(())
    /// ```
    pub fn lock_path_timeout(
        &mut self,
        node: Node,
        mode: Mode,
        time: Duration,
    ) -> Result<Mode, Stop> {
        self.path(node, mode, deadline(time))
    }

    /// As [`lock_path_timeout`](GroupSession::lock_path_timeout), with the time at which a wait is cancelled.
    pub fn lock_path_until(
        &mut self,
        node: Node,
        mode: Mode,
        until: Instant,
    ) -> Result<Mode, Stop> {
        self.path(node, mode, Some(until))
    }

    fn path(&mut self, node: Node, mode: Mode, until: Option<Instant>) -> Result<Mode, Stop> {
        let until = self.transaction.owner().time(until);
        let reply = self.transaction.lock_path(node, mode as u32, until);
        ended(&reply).map(RowLocked::mode)
    }

    /// Locks a row with what must be held above it, as [`Session::lock_row_path`](crate::Session::lock_row_path). The end
    /// of the session lets its rows go. If the file gets an index while the call sleeps, the call is refused with
    /// [`BadKeys`](Refusal::BadKeys).
    ///
    /// ```
    /// # use burlapslate::{Group, Mode, Row, RowLocked, Stop};
    /// # let group = Group::new(2)?;
    /// # let db = group.add_inner(&[])?;
    /// let file = group.add_row_file(&[db])?;
    /// let days = group.add_index(&[db], file, &[100, 200])?;
    /// let mut session = group.begin()?;
    /// let row = Row { file, number: 7 };
    /// assert_eq!(session.lock_row_path(row, &[150], Mode::X)?, RowLocked::Own(Mode::X));
    /// for node in [db, file, days] {
    ///     assert_eq!(session.held(node), Ok(Mode::IX));
    /// }
    /// # Ok::<(), Stop>(())
    /// ```
    pub fn lock_row_path(&mut self, row: Row, keys: &[u64], mode: Mode) -> Result<RowLocked, Stop> {
        self.row_path(row, keys, mode, None)
    }

    /// As [`lock_row_path`](GroupSession::lock_row_path), but after this time the wait is cancelled and answered with
    /// [`Stop::TimedOut`]. The row is let go then, and what was locked above it stays.
    pub fn lock_row_path_timeout(
        &mut self,
        row: Row,
        keys: &[u64],
        mode: Mode,
        time: Duration,
    ) -> Result<RowLocked, Stop> {
        self.row_path(row, keys, mode, deadline(time))
    }

    /// As [`lock_row_path_timeout`](GroupSession::lock_row_path_timeout), with the time at which the wait is cancelled.
    pub fn lock_row_path_until(
        &mut self,
        row: Row,
        keys: &[u64],
        mode: Mode,
        until: Instant,
    ) -> Result<RowLocked, Stop> {
        self.row_path(row, keys, mode, Some(until))
    }

    fn row_path(
        &mut self,
        row: Row,
        keys: &[u64],
        mode: Mode,
        until: Option<Instant>,
    ) -> Result<RowLocked, Stop> {
        let until = self.transaction.owner().time(until);
        ended(
            &self
                .transaction
                .lock_row_path(row, keys, mode as u32, until),
        )
    }

    /// Locks a node with what must be held above it, as [`Session::try_lock_path`](crate::Session::try_lock_path): each
    /// lock by a try, also in the main table. The call never sleeps, joins no queue and makes nobody a victim. It answers
    /// the mode that is held then, or the node, this one or one above it, for which the transaction would have to wait.
    /// For an inner node it answers the mode in the main table, as [`lock_path`](GroupSession::lock_path).
    ///
    /// If the call fails after some of the locks, `keep` says what becomes of those in the table of the node. If that
    /// table is a part, the locks that the call acquired in the main table stay.
    ///
    /// ```
    /// # use burlapslate::{Group, Keep, Mode, Refusal, Tried};
    /// # let group = Group::new(2)?;
    /// # let db = group.add_inner(&[])?;
    /// # let file = group.add_file(&[db])?;
    /// let (mut first, mut second) = (group.begin()?, group.begin()?);
    /// let tried = first.try_lock_path(file, Mode::X, Keep::Nothing)?;
    /// assert_eq!(tried, Tried::Locked(Mode::X));
    /// let tried = second.try_lock_path(file, Mode::S, Keep::Nothing)?;
    /// assert_eq!(tried, Tried::WouldBlock(file));
    /// assert_eq!(second.held(db), Ok(Mode::NL));
    /// # Ok::<(), Refusal>(())
    /// ```
    pub fn try_lock_path(
        &mut self,
        node: Node,
        mode: Mode,
        keep: Keep,
    ) -> Result<Tried<Mode>, Refusal> {
        let (mode, keep) = (mode as u32, keep.as_number());
        Tried::of_node(&self.transaction.try_path(node, mode, keep))
    }

    /// Locks a row with what must be held above it, as [`Session::try_lock_row_path`](crate::Session::try_lock_row_path):
    /// each lock by a try, also in the main table. The call never sleeps, joins no queue and makes nobody a victim. It
    /// answers how the row is held then, or the node, the row's or one above it, for which the transaction would have to
    /// wait. `keep` is as in [`try_lock_path`](GroupSession::try_lock_path).
    ///
    /// ```
    /// # use burlapslate::{Group, Keep, Mode, Refusal, Row, RowLocked, Tried};
    /// # let group = Group::new(2)?;
    /// # let db = group.add_inner(&[])?;
    /// # let file = group.add_row_file(&[db])?;
    /// let row = Row { file, number: 7 };
    /// let (mut first, mut second) = (group.begin()?, group.begin()?);
    /// let tried = first.try_lock_row_path(row, &[], Mode::X, Keep::Nothing)?;
    /// assert_eq!(tried, Tried::Locked(RowLocked::Own(Mode::X)));
    /// let tried = second.try_lock_row_path(row, &[], Mode::S, Keep::Way)?;
    /// assert!(matches!(tried, Tried::WouldBlock(node) if first.held(node) == Ok(Mode::X)));
    /// assert_eq!(second.held(file), Ok(Mode::IS)); // It is on the way.
    /// # Ok::<(), Refusal>(())
    /// ```
    pub fn try_lock_row_path(
        &mut self,
        row: Row,
        keys: &[u64],
        mode: Mode,
        keep: Keep,
    ) -> Result<Tried<RowLocked>, Refusal> {
        let (mode, keep) = (mode as u32, keep.as_number());
        Tried::of(&self.transaction.try_row_path(row, keys, mode, keep))
    }

    /// As [`Manager::unlock`], of any node but an inner one.
    ///
    /// Refused as that call, and with [`BadParents`](Refusal::BadParents) for an inner node.
    pub fn unlock(&mut self, node: Node) -> Result<(), Refusal> {
        done(self.transaction.unlock(node))
    }

    /// As [`Manager::unlock_row`].
    pub fn unlock_row(&mut self, row: Row) -> Result<(), Refusal> {
        done(self.transaction.unlock_row(row))
    }

    /// As [`Manager::escalate`], of a file, an index or an interval.
    ///
    /// Refused as that call, and with [`BadParents`](Refusal::BadParents) for an inner node.
    pub fn escalate(&mut self, node: Node) -> Result<Escalated, Refusal> {
        let reply = accepted(self.transaction.escalate(node))?;
        Ok(Escalated::of(&reply))
    }

    /// A savepoint of the transaction for [`release_since`](GroupSession::release_since), as [`Manager::mark`] in each
    /// part that the transaction has joined. It is exact as long as those are. Costs the latches of these parts, one after
    /// the other.
    pub fn mark(&self) -> Result<GroupMark, Refusal> {
        Ok(GroupMark {
            txn: self.txn(),
            savepoint: self.transaction.mark()?,
        })
    }

    /// Rolls the locks back to a savepoint, as [`Manager::release_since`] in each part, and answers how many nodes it
    /// released. In a part that the transaction has joined since, it releases everything, also what the transaction took
    /// up there ([`Group::keep`]). Waiters that are granted by it are woken.
    ///
    /// What the transaction holds in the main table stays until it ends: locks of inner nodes, and the intentions that
    /// locks in parts needed. Undo what it wrote since the savepoint before this call.
    ///
    /// Refused as that call, and with [`NoSuchTxn`](Refusal::NoSuchTxn) if the savepoint is another transaction's. If one
    /// part refuses, the others are rolled back all the same. Costs the latches of the transaction's parts, one after the
    /// other.
    ///
    /// ```
    /// # use burlapslate::{Group, Mode, Stop};
    /// # let group = Group::new(2)?;
    /// # let db = group.add_inner(&[])?;
    /// # let [orders, prices] = [group.add_file_in(1, &[db])?, group.add_file_in(2, &[db])?];
    /// let mut session = group.begin()?;
    /// session.lock_path(orders, Mode::X)?;
    /// let mark = session.mark()?;
    /// session.lock_path(prices, Mode::X)?;
    /// assert_eq!(session.release_since(mark), Ok(2)); // `prices`, and `db` in that part.
    /// assert_eq!(session.held(prices), Ok(Mode::NL));
    /// assert_eq!(session.held(orders), Ok(Mode::X));
    /// # Ok::<(), Stop>(())
    /// ```
    pub fn release_since(&mut self, mark: GroupMark) -> Result<usize, Refusal> {
        if mark.txn != self.txn() {
            return Err(Refusal::NoSuchTxn);
        }
        let reply = accepted(self.transaction.release_since(&mark.savepoint))?;
        Ok(reply.count as usize)
    }

    /// Makes a record with what must be held above it, as [`Session::insert_path`](crate::Session::insert_path): each
    /// lock by a try, also in the main table. The call never sleeps: it answers the record, or the node above it for
    /// which the transaction would have to wait. If the call fails, it keeps nothing of what it acquired in the part, but
    /// what it acquired in the main table stays.
    ///
    /// ```
    /// # use burlapslate::{Group, Mode, Refusal, Tried};
    /// # let group = Group::new(2)?;
    /// # let db = group.add_inner(&[])?;
    /// let orders = group.add_file(&[db])?;
    /// let mut session = group.begin()?;
    /// let Tried::Locked(order) = session.insert(orders, &[])? else { unreachable!() };
    /// assert_eq!(session.held(order), Ok(Mode::X));
    /// session.commit()?;
    /// # Ok::<(), Refusal>(())
    /// ```
    pub fn insert(&mut self, file: Node, keys: &[u64]) -> Result<Tried<Node>, Refusal> {
        Tried::of_made(&self.transaction.insert(file, keys))
    }

    /// As [`Manager::delete`]. Threads that sleep for the record are woken. What the call needs must be held.
    pub fn delete(&mut self, record: Node) -> Result<(), Refusal> {
        done(self.transaction.delete(record))
    }

    /// As [`Manager::rekey`]. What the call needs must be held.
    pub fn rekey(&mut self, record: Node, index: Node, key: u64) -> Result<(), Refusal> {
        done(self.transaction.rekey(record, index, key))
    }

    /// As [`Manager::rekey_row`]. What the call needs must be held.
    pub fn rekey_row(&mut self, row: Row, index: Node, key: u64) -> Result<(), Refusal> {
        done(self.transaction.rekey_row(row, index, key))
    }

    /// As [`Manager::drop_node`], of a file or an index. Threads that sleep for the node are woken and answered
    /// [`Stop::Gone`].
    ///
    /// Refused as that call, and with [`BadParents`](Refusal::BadParents) for an inner node.
    pub fn drop_node(&mut self, node: Node) -> Result<(), Refusal> {
        done(self.transaction.drop_node(node))
    }

    /// As [`Manager::move_node`], of a file or an index, which stays in its part. An intention on a new parent that is
    /// missing is tried, and a lock of the node itself if the transaction has [`X`](Mode::X) on all parents, old and new.
    /// Each call that waits in the part for the node, or for something below it, begins anew.
    ///
    /// Refused as that call, with [`WouldBlock`](Refusal::WouldBlock) if an intention cannot be granted at once, and with
    /// [`BadParents`](Refusal::BadParents) for an inner node.
    pub fn move_node(&mut self, node: Node, parents: &[Node]) -> Result<(), Refusal> {
        done(self.transaction.move_node(node, parents))
    }

    /// As [`Manager::split`]: the new interval. If a thread sleeps for the interval, its path starts again; on the way to a
    /// record or a row it continues by the interval that has the key.
    pub fn split(&mut self, interval: Node, at: u64) -> Result<Node, Refusal> {
        node_of(self.transaction.split(interval, at))
    }

    /// As [`Manager::merge`]. Threads that sleep for the next interval are woken and answered [`Stop::Gone`].
    pub fn merge(&mut self, interval: Node) -> Result<(), Refusal> {
        done(self.transaction.merge(interval))
    }

    /// A new index of a file that has no record, as [`Manager::index_by`], in the part of the file. The transaction must
    /// hold [`X`](Mode::X) on the file. If it lacks [`IX`](Mode::IX) on a parent, the call acquires it by a try, also in
    /// the main table. The call never sleeps: it answers the index, which the transaction holds in `X`, or the inner node
    /// for which the transaction would have to wait. To wait for it, lock the parent in `IX` by
    /// [`lock_path`](GroupSession::lock_path), and call again. If the call fails, the intentions that it acquired stay.
    ///
    /// If the index is made, calls that wait for rows of the file end as by [`Group::add_index`].
    ///
    /// Refused as that call, but never with [`NeedParents`](Refusal::NeedParents).
    ///
    /// ```
    /// # use burlapslate::{Group, Mode, Stop, Tried};
    /// # let group = Group::new(2)?;
    /// # let [db, days] = [group.add_inner(&[])?, group.add_inner(&[])?];
    /// # let orders = group.add_row_file(&[db])?;
    /// let (mut backup, mut session) = (group.begin()?, group.begin()?);
    /// backup.lock_path(days, Mode::S)?;
    /// session.lock_path(orders, Mode::X)?;
    /// let tried = session.index_by(&[days], orders, &[100, 200])?;
    /// assert_eq!(tried, Tried::WouldBlock(days));
    /// backup.commit()?;
    /// session.lock_path(days, Mode::IX)?; // It could sleep for that.
    /// let tried = session.index_by(&[days], orders, &[100, 200])?;
    /// assert!(matches!(tried, Tried::Locked(index) if session.held(index) == Ok(Mode::X)));
    /// # Ok::<(), Stop>(())
    /// ```
    pub fn index_by(
        &mut self,
        parents: &[Node],
        file: Node,
        bounds: &[u64],
    ) -> Result<Tried<Node>, Refusal> {
        Tried::of_made(&self.transaction.index_by(parents, file, bounds))
    }

    /// A new index of a file beside its records, as [`Manager::index_records`], in the part of the file. What the
    /// transaction lacks on a parent, and what it may have to wait for, are as of [`index_by`](GroupSession::index_by).
    ///
    /// Refused as [`Manager::index_records`], but never with [`NeedParents`](Refusal::NeedParents).
    pub fn index_records(
        &mut self,
        parents: &[Node],
        file: Node,
        bounds: &[u64],
        records: &[Node],
        keys: &[u64],
    ) -> Result<Tried<Node>, Refusal> {
        if records.len() != keys.len() {
            return Err(Refusal::BadKeys);
        }
        Tried::of_made(
            &self
                .transaction
                .index_records(parents, file, bounds, records, keys),
        )
    }

    /// The mode in which the transaction holds a node; of an inner node the supremum of what it holds in all tables, with
    /// what it has taken up there ([`Group::keep`]). Also of a victim.
    ///
    /// Refused with [`NoSuchNode`](Refusal::NoSuchNode). Costs the latch of the node's part; of an inner node the latches
    /// of the main table and of the transaction's parts, one after the other.
    pub fn held(&self, node: Node) -> Result<Mode, Refusal> {
        let reply = accepted(self.transaction.held(node))?;
        Ok(Mode::of(reply.mode))
    }

    /// Commits in each of its tables, one after the other, and wakes the waiters that are granted by it. What it has
    /// released in one table others can have before it ends in the next. If the commit is refused, because the
    /// transaction was condemned, or waits by a future that was leaked, the session is aborted.
    ///
    /// Refused with [`TxnCondemned`](Refusal::TxnCondemned), [`TxnWaiting`](Refusal::TxnWaiting).
    pub fn commit(mut self) -> Result<(), Refusal> {
        let end = done(self.transaction.commit());
        self.has_ended = end.is_ok();
        end
    }

    /// Aborts. A session that is dropped does the same.
    pub fn abort(self) {}
}

impl Drop for GroupSession<'_> {
    fn drop(&mut self) {
        if !self.has_ended {
            let end = done(self.transaction.abort());
            let is_lost = end == Err(Refusal::InUse) && !thread::panicking();
            assert!(
                !is_lost,
                "a session was dropped while its thread held a table"
            );
        }
    }
}

impl fmt::Debug for GroupSession<'_> {
    fn fmt(&self, f: &mut fmt::Formatter<'_>) -> fmt::Result {
        let name = self.transaction.name();
        f.debug_tuple("GroupSession").field(&name).finish()
    }
}

mod asks;
mod lists;
