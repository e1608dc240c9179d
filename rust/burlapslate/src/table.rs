//! A table that threads share.

use crate::clock::Clock;
#[cfg(target_pointer_width = "64")]
use crate::group::Group;
use crate::listing::Counters;
use crate::manager::{Manager, Options};
use crate::mode::{Detect, Mode, Victims};
use crate::names::{Node, Row, Txn};
use crate::notices::{Notice, Notices};
use crate::refusal::{accepted, done, Refusal};
use crate::session::{deadline, Session, Stop};
use crate::sys::shared::{self, Calling, Time};
use crate::sys::{Reply, DONE, IN_USE};
use crate::watcher::Watcher;
use crate::watching::Watching;
use std::fmt;
use std::sync::Arc;
use std::time::{Duration, Instant};

pub(crate) use asks::{Locking, Sought, Transaction};
pub(crate) use begins::Beginning;
pub use running::{Awaited, AwaitedNode, Blocker, Histogram, LongWait, Told, WaitEnd, Waits};

/// A table of granular locks that threads share: a [`Manager`] with one mutex, its latch, and a condition
/// for each slot. It is a `bs_table` of the library.
///
/// A thread begins a [`Session`], whose calls sleep while their locks wait. Each command that ends a wait
/// wakes the thread or task that waits.
///
/// ```
/// use burlapslate::{Detect, Mode, Stop, Table, SLOTS};
/// use std::thread;
///
/// let table = Table::new(Detect::AtBlock, SLOTS)?;
/// let db = table.add_inner(&[])?;
/// thread::scope(|scope| {
///     for _ in 0..4 {
///         scope.spawn(|| {
///             let mut session = table.begin()?;
///             session.lock(db, Mode::X)?; // It sleeps until the lock is granted.
///             session.commit()?;
///             Ok::<(), Stop>(())
///         });
///     }
/// });
/// # Ok::<(), burlapslate::Refusal>(())
/// ```
///
/// Proved are: what each command does, whom it notifies, how a wait ended and which slots' sleepers must be
/// woken. Written in C, and tested: the mutex, the conditions, and the calls around them.
///
/// # Parts
///
/// By [`Options::parts`] a table has several parts, with a latch each, and so serves many cores. Its calls are those of
/// the [`Group`] that [`group`](Table::group) lends, and that has the rules: what is locked where, and how
/// deadlocks over several parts are detected. These differ from a table of one part:
///
///   - [`Session::lock`], [`try_lock`](Session::try_lock), those of rows and for tasks, and [`Session::insert`] also
///     lock what must be held above. An insert and a new index acquire what they lack by tries, and are refused with
///     [`WouldBlock`](Refusal::WouldBlock) if that cannot be granted at once.
///   - An intention on an inner node is no precondition. [`Session::held`] says what a transaction holds in all parts.
///   - Each command of a list is a critical section of its own. A lock that a list left waiting goes on by itself.
///   - [`Session::mark`] takes memory, and [`release_since`](Session::release_since) keeps what the transaction has in
///     the main table.
///   - After a [`Session::rest`] each commit keeps intentions, as by [`Group::keep`] with at least its `most`, and so
///     does [`Session::renew`], which keeps nothing else.
///   - [`Table::commit`] and [`Table::abort`] end a transaction that its session has left ([`Session::leave`]). The
///     transaction of a session ends by that session alone: these calls are refused with [`InParts`](Refusal::InParts).
///   - Each call is refused with [`InUse`](Refusal::InUse) while the thread holds any table.
///   - The table lends no manager ([`with`](Table::with)).
///   - [`Session::move_node`] is for a file or an index.
///
/// What the library does not offer over several parts is refused with [`InParts`](Refusal::InParts).
///
/// ```
/// use burlapslate::{Detect, Mode, Options, Row, Stop, Table};
/// use std::thread;
///
/// let table = Table::with_options(Options::new(Detect::AtBlock).parts(4))?;
/// let db = table.add_inner(&[])?;
/// let files = [(); 4].map(|()| table.add_row_file(&[db]).unwrap());
/// thread::scope(|scope| {
///     for file in files {
///         let table = &table;
///         scope.spawn(move || {
///             let mut session = table.begin()?;
///             let _ = session.lock_row_path(Row { file, number: 7 }, &[], Mode::X)?;
///             session.commit()?;
///             Ok::<(), Stop>(())
///         });
///     }
/// });
/// let mut backup = table.begin()?;
/// backup.lock_path(db, Mode::S)?; // It reads all files, in all parts.
/// backup.commit()?;
/// # Ok::<(), Stop>(())
/// ```
pub struct Table {
    shared: shared::Table,
    clock: Clock,
    watching: Watching,
}

impl Table {
    /// Makes a table for `most` transactions at once, 1 to [`SLOTS`](crate::SLOTS), with a way of detection. The victim
    /// of a deadlock is its youngest member.
    ///
    /// Refused as [`Manager::new`].
    pub fn new(detect: Detect, most: usize) -> Result<Table, Refusal> {
        Table::choosing(detect, Victims::Youngest, most)
    }

    /// As [`new`](Table::new), with a choice of victims.
    pub fn choosing(detect: Detect, victims: Victims, most: usize) -> Result<Table, Refusal> {
        Table::with_options(Options::new(detect).victims(victims).transactions(most))
    }

    /// By options, also with several parts ([`Options::parts`]).
    ///
    /// Refused with [`BadNumber`](Refusal::BadNumber), [`NoMemory`](Refusal::NoMemory).
    pub fn with_options(options: Options) -> Result<Table, Refusal> {
        Ok(Table {
            shared: shared::Table::new(&options.checked()?)?,
            clock: Clock::new(),
            watching: Watching::new(),
        })
    }

    /// A new transaction, for this thread. While others wait for a slot
    /// ([`begin_in_turn`](Table::begin_in_turn), [`begin_async`](Table::begin_async)) no slot is free, and the call
    /// is refused with [`TooManyTxns`](Refusal::TooManyTxns).
    ///
    /// Refused as [`Manager::begin`].
    pub fn begin(&self) -> Result<Session<'_>, Refusal> {
        self.begun(shared::bs_table_begin(&self.call()))
    }

    /// As [`begin`](Table::begin), but if all slots are taken the thread sleeps until it has one. Threads
    /// and tasks that wait for a slot are served in the order of their arrival: the thread that ends a
    /// transaction begins the next one for the first of them.
    ///
    /// A thread that sleeps for a slot has no transaction there, so it is on no cycle of waits. If it has
    /// another session open it may wait for itself, and no detection finds that.
    ///
    /// Refused as [`Manager::begin`], but never with [`TooManyTxns`](Refusal::TooManyTxns); and with
    /// [`InUse`](Refusal::InUse) in a waker and while the thread holds a table ([`with`](Table::with)), where no
    /// call may sleep.
    ///
    /// ```
    /// use burlapslate::{Detect, Mode, Stop, Table};
    /// use std::thread;
    ///
    /// let table = Table::new(Detect::AtBlock, 2)?; // Two slots, for eight threads.
    /// let db = table.add_inner(&[])?;
    /// thread::scope(|scope| {
    ///     for _ in 0..8 {
    ///         scope.spawn(|| {
    ///             let mut session = table.begin_in_turn()?;
    ///             session.lock(db, Mode::X)?;
    ///             session.commit()?;
    ///             Ok::<(), Stop>(())
    ///         });
    ///     }
    /// });
    /// # Ok::<(), burlapslate::Refusal>(())
    /// ```
    pub fn begin_in_turn(&self) -> Result<Session<'_>, Refusal> {
        self.begun(shared::bs_table_begin_in_turn(&self.call(), None))
    }

    /// As [`begin`](Table::begin), for work that an earlier transaction began, as
    /// [`Manager::begin_again`].
    ///
    /// ```
    /// # use burlapslate::{Detect, Mode, Stop, Table, SLOTS};
    /// let table = Table::new(Detect::AtBlock, SLOTS)?;
    /// let db = table.add_inner(&[])?;
    /// let mut session = table.begin()?;
    /// let since = session.txn().age();
    /// while session.lock(db, Mode::X) == Err(Stop::Victim) {
    ///     session.abort();
    ///     session = table.begin_again(since)?;
    /// }
    /// session.commit()?;
    /// # Ok::<(), Stop>(())
    /// ```
    pub fn begin_again(&self, since: u64) -> Result<Session<'_>, Refusal> {
        self.begun(shared::bs_table_begin_again(&self.call(), since))
    }

    /// As [`begin_in_turn`](Table::begin_in_turn), for work that an earlier transaction began. It gives no
    /// earlier place in the begin queue.
    pub fn begin_again_in_turn(&self, since: u64) -> Result<Session<'_>, Refusal> {
        let reply = shared::bs_table_begin_again_in_turn(&self.call(), since, None);
        self.begun(reply)
    }

    /// As [`begin_in_turn`](Table::begin_in_turn), but the thread sleeps no longer than this time, and the
    /// answer is then [`Stop::TimedOut`]. If a slot was freed for it by then, the transaction has begun.
    pub fn begin_timeout(&self, time: Duration) -> Result<Session<'_>, Stop> {
        let until = self.time(deadline(time));
        let reply = shared::bs_table_begin_in_turn(&self.call(), until.as_ref());
        if reply.status == DONE {
            Ok(Session::of(self, reply.txn))
        } else {
            Err(Stop::of(&reply))
        }
    }

    /// As [`begin_in_turn`](Table::begin_in_turn), for a task: if all slots are taken, it waits in the same queue
    /// as the threads that sleep, and no thread sleeps for it. The thread that ends a transaction begins the next
    /// one and wakes the task. A task that polls rarely keeps its slot from others meanwhile.
    ///
    /// A future that is dropped while it waits takes its begin back; a transaction that has begun by then is
    /// aborted. A leaked future waits on, and keeps the slot that it gets.
    ///
    /// Refused as [`Manager::begin`], but never with [`TooManyTxns`](Refusal::TooManyTxns); and with
    /// [`InUse`](Refusal::InUse) while the thread holds this table ([`with`](Table::with)).
    ///
    /// ```
    /// # use burlapslate::{Detect, Table};
    /// # use std::future::Future;
    /// # use std::pin::pin;
    /// # use std::task::{Context, Poll, Wake, Waker};
    /// # use std::sync::Arc;
    /// # struct Nobody;
    /// # impl Wake for Nobody {
    /// #     fn wake(self: Arc<Nobody>) {}
    /// # }
    /// # let waker = Waker::from(Arc::new(Nobody));
    /// # let mut context = Context::from_waker(&waker);
    /// let table = Table::new(Detect::AtBlock, 1)?;
    /// let first = table.begin()?;
    /// let mut begin = pin!(table.begin_async()); // As a runtime polls it:
    /// assert!(begin.as_mut().poll(&mut context).is_pending());
    /// first.commit()?; // It wakes the task.
    /// let Poll::Ready(second) = begin.as_mut().poll(&mut context) else { unreachable!() };
    /// second?.commit()?;
    /// # Ok::<(), burlapslate::Refusal>(())
    /// ```
    pub async fn begin_async(&self) -> Result<Session<'_>, Refusal> {
        self.begin_again_async(u64::MAX).await
    }

    /// As [`begin_async`](Table::begin_async), for work that an earlier transaction began. It gives no earlier
    /// place in the queue.
    pub async fn begin_again_async(&self, since: u64) -> Result<Session<'_>, Refusal> {
        let begun = Beginning::new(&self.shared, since).await;
        self.begun(begun)
    }

    /// As [`begin`](Table::begin), for a session that is one of the table's owners: what stores the session,
    /// such as a connection, need not store the table.
    ///
    /// ```
    /// use burlapslate::{Detect, Mode, Session, Table, SLOTS};
    /// use std::sync::Arc;
    ///
    /// struct Connection {
    ///     session: Session<'static>,
    /// }
    ///
    /// let table = Arc::new(Table::new(Detect::AtBlock, SLOTS)?);
    /// let db = table.add_inner(&[])?;
    /// let mut connection = Connection {
    ///     session: table.begin_shared()?,
    /// };
    /// drop(table);
    /// assert_eq!(connection.session.lock(db, Mode::X), Ok(Mode::X));
    /// connection.session.commit()?;
    /// # Ok::<(), burlapslate::Refusal>(())
    /// ```
    pub fn begin_shared(self: &Arc<Table>) -> Result<Session<'static>, Refusal> {
        Ok(Session::shared(self, self.begin()?))
    }

    /// As [`begin_in_turn`](Table::begin_in_turn), for a session that is one of the table's owners.
    pub fn begin_shared_in_turn(self: &Arc<Table>) -> Result<Session<'static>, Refusal> {
        Ok(Session::shared(self, self.begin_in_turn()?))
    }

    /// As [`begin_again`](Table::begin_again), for a session that is one of the table's owners.
    pub fn begin_shared_again(self: &Arc<Table>, since: u64) -> Result<Session<'static>, Refusal> {
        Ok(Session::shared(self, self.begin_again(since)?))
    }

    /// As [`begin_again_in_turn`](Table::begin_again_in_turn), for a session that is one of the table's owners.
    pub fn begin_shared_again_in_turn(
        self: &Arc<Table>,
        since: u64,
    ) -> Result<Session<'static>, Refusal> {
        Ok(Session::shared(self, self.begin_again_in_turn(since)?))
    }

    /// As [`begin_async`](Table::begin_async), for a session that is one of the table's owners.
    pub async fn begin_shared_async(self: &Arc<Table>) -> Result<Session<'static>, Refusal> {
        Ok(Session::shared(self, self.begin_async().await?))
    }

    /// As [`begin_again_async`](Table::begin_again_async), for a session that is one of the table's owners.
    pub async fn begin_shared_again_async(
        self: &Arc<Table>,
        since: u64,
    ) -> Result<Session<'static>, Refusal> {
        Ok(Session::shared(self, self.begin_again_async(since).await?))
    }

    /// As [`begin_timeout`](Table::begin_timeout), for a session that is one of the table's owners.
    pub fn begin_shared_timeout(
        self: &Arc<Table>,
        time: Duration,
    ) -> Result<Session<'static>, Stop> {
        Ok(Session::shared(self, self.begin_timeout(time)?))
    }

    /// As [`Manager::add_inner`].
    pub fn add_inner(&self, parents: &[Node]) -> Result<Node, Refusal> {
        node_of(shared::add_inner(&self.call(), parents))
    }

    /// As [`Manager::add_file`].
    pub fn add_file(&self, parents: &[Node]) -> Result<Node, Refusal> {
        node_of(shared::add_file(&self.call(), parents))
    }

    /// As [`Manager::add_row_file`].
    pub fn add_row_file(&self, parents: &[Node]) -> Result<Node, Refusal> {
        node_of(shared::add_row_file(&self.call(), parents))
    }

    /// As [`Manager::add_index`].
    pub fn add_index(&self, parents: &[Node], file: Node, bounds: &[u64]) -> Result<Node, Refusal> {
        node_of(shared::add_index(&self.call(), parents, file, bounds))
    }

    /// As [`Manager::adopt`].
    pub fn adopt(&self, file: Node, keys: &[u64]) -> Result<Node, Refusal> {
        node_of(shared::adopt(&self.call(), file, keys))
    }

    /// As [`Manager::forget`].
    pub fn forget(&self, record: Node) -> Result<(), Refusal> {
        done(shared::bs_table_forget(&self.call(), record))
    }

    /// As [`Manager::row_node`].
    ///
    /// # Panics
    ///
    /// While the thread holds this table ([`with`](Table::with)), or any table if this one has parts.
    pub fn row_node(&self, row: Row) -> Option<Node> {
        #[cfg(target_pointer_width = "64")]
        if let Some(group) = self.group() {
            return group.row_node(row).expect(HOLDS);
        }
        self.with(|m| m.row_node(row))
    }

    /// Ends a transaction whatever it is doing, from any thread, and lets its rows go. A thread or task that
    /// waits for it is woken and answered [`Refusal::NoSuchTxn`]. If the table has parts, it must be one that its
    /// session has left ([`Session::leave`]), and in a waker it must not wait.
    ///
    /// Refused as [`Manager::abort`]; with parts also with [`InParts`](Refusal::InParts) if a session has the
    /// transaction, and with [`TxnWaiting`](Refusal::TxnWaiting) in a waker.
    pub fn abort(&self, txn: Txn) -> Result<(), Refusal> {
        self.shared.end(txn, shared::bs_table_abort)
    }

    /// Commits a transaction that no session drives any more ([`Session::leave`]), and lets its rows
    /// go.
    ///
    /// Refused as [`Manager::commit`]; with parts also with [`InParts`](Refusal::InParts) if a session has the
    /// transaction.
    pub fn commit(&self, txn: Txn) -> Result<(), Refusal> {
        self.shared.end(txn, shared::bs_table_commit)
    }

    /// Cancels the wait of a transaction, from any thread. The thread or task that waits is woken and
    /// answered [`Stop::Cancelled`]. A row that only this transaction waited for is let go. A path ends at the
    /// lock for which it waits; the locks acquired before that stay.
    ///
    /// Refused as [`Manager::cancel`].
    pub fn cancel(&self, txn: Txn) -> Result<(), Refusal> {
        done(shared::bs_table_cancel(&self.call(), txn, None))
    }

    /// Condemns victims until a transaction is on no cycle of waits, and wakes them; how many. If the table has parts,
    /// it ends all deadlocks over several of them.
    ///
    /// Refused as [`Manager::settle`].
    pub fn settle(&self, txn: Txn) -> Result<usize, Refusal> {
        if let Some(group) = self.group() {
            return group.settle(txn);
        }
        let (reply, told) = shared::settle(&self.call(), txn);
        accepted(reply)?;
        let is_victim = |notice: &Notice| matches!(notice, Notice::Victim { .. });
        Ok(Notices::of(&told).filter(is_victim).count())
    }

    /// Asks questions that are all of one moment, with the latch held. Within the closure the thread's other
    /// calls of this table are refused with [`InUse`](Refusal::InUse), and so are calls of any table that could
    /// sleep.
    ///
    /// ```
    /// # use burlapslate::{Detect, Mode, Table, SLOTS};
    /// # let table = Table::new(Detect::AtBlock, SLOTS)?;
    /// # let db = table.add_inner(&[])?;
    /// # let mut session = table.begin()?;
    /// # let _ = session.lock(db, Mode::X);
    /// table.with(|m| {
    ///     for row in m.transactions().flat_map(|row| m.locks(row.txn)) {
    ///         assert_eq!((row.node, row.mode), (db, Mode::X));
    ///     }
    /// });
    /// # Ok::<(), burlapslate::Refusal>(())
    /// ```
    ///
    /// # Panics
    ///
    /// Within the closure of another such call of this table, and if the table has parts, which have a manager each:
    /// ask those by [`Group::with_table`](crate::Group::with_table) of its [`group`](Table::group).
    /// [`try_with`](Table::try_with) is refused in place of that.
    pub fn with<T>(&self, ask: impl FnOnce(&Manager) -> T) -> T {
        match self.try_with(ask) {
            Ok(answer) => answer,
            Err(Refusal::InParts) => panic!("a table with parts lends no manager"),
            Err(_in_use) => panic!("{HOLDS}"),
        }
    }

    /// As [`with`](Table::with), but without a panic.
    ///
    /// Refused with [`InUse`](Refusal::InUse), [`InParts`](Refusal::InParts).
    ///
    /// ```
    /// # use burlapslate::{Detect, Options, Refusal, Table};
    /// let table = Table::with_options(Options::new(Detect::AtBlock).parts(2))?;
    /// assert_eq!(table.try_with(|m| m.len()), Err(Refusal::InParts));
    /// let group = table.group().unwrap();
    /// assert_eq!(group.with_table(1, |m| m.len()), Ok(0));
    /// # Ok::<(), Refusal>(())
    /// ```
    pub fn try_with<T>(&self, ask: impl FnOnce(&Manager) -> T) -> Result<T, Refusal> {
        shared::with(&self.call(), ask)
    }

    /// How many parts it has.
    pub fn parts(&self) -> usize {
        #[cfg(target_pointer_width = "64")]
        if let Some(group) = self.group() {
            return group.parts();
        }
        1
    }

    /// The group that a table with parts is; `None` if it has one part. It has the calls that a table has not, as those
    /// that make a file in a part or a spread file, and questions of one part. A transaction that it begins is one of
    /// the table.
    ///
    /// ```
    /// # use burlapslate::{Detect, Mode, Options, Stop, Table};
    /// let table = Table::with_options(Options::new(Detect::AtBlock).parts(4))?;
    /// let db = table.add_inner(&[])?;
    /// let group = table.group().unwrap();
    /// let orders = group.add_file_in(2, &[db])?;
    /// let mut session = table.begin()?;
    /// session.lock_path(orders, Mode::X)?;
    /// assert!(group.with_table(1, |m| m.transactions().next().is_none())?); // It needs no other part.
    /// # Ok::<(), Stop>(())
    /// ```
    #[cfg(target_pointer_width = "64")]
    pub fn group(&self) -> Option<&Group> {
        self.shared.group()
    }

    /// What the table has been doing since it was made, as [`Manager::counters`]; with parts as
    /// [`Group::counters`](crate::Group::counters).
    ///
    /// Refused with [`InUse`](Refusal::InUse).
    pub fn counters(&self) -> Result<Counters, Refusal> {
        #[cfg(target_pointer_width = "64")]
        if let Some(group) = self.group() {
            return group.counters();
        }
        self.try_with(Manager::counters)
    }

    /// All that there is, of one moment, as text in columns, with the waits by their length. With parts each of them,
    /// one after the other: nodes and transactions have the names that they have there
    /// ([`Group::name_of`](crate::Group::name_of)).
    ///
    /// # Panics
    ///
    /// While the thread holds this table ([`with`](Table::with)), or any table if this one has parts.
    pub fn dump(&self) -> String {
        #[cfg(target_pointer_width = "64")]
        if let Some(group) = self.group() {
            return group.dump().expect(HOLDS);
        }
        self.with(|m| m.listing().to_string())
    }

    /// A watcher, which looks without the latch.
    ///
    /// Refused as [`Manager::watch`].
    pub fn watch(&self) -> Result<Watcher, Refusal> {
        Watcher::made_by(|watcher| shared::bs_call_table_watch(&self.call(), watcher))
    }

    /// Has a thread end deadlocks, for a table with [`Detect::ByWatcher`], and waits until
    /// [`end_watch`](Table::end_watch) is called. The thread looks as a watcher does, settles every suspect, the
    /// youngest first, and rests for this time after each look. It sleeps while no lock has been left waiting
    /// since its last look. A table has one such thread, which watches until the table is dropped, and which
    /// counts as a watcher: a later call waits alone. If the table has parts, the thread is that of
    /// [`Group::watch_over`](crate::Group::watch_over).
    ///
    /// Refused as [`watch`](Table::watch), and with [`NoMemory`](Refusal::NoMemory) also if no thread can be started.
    ///
    /// ```
    /// use burlapslate::{Detect, Mode, Stop, Table, SLOTS};
    /// use std::thread;
    /// use std::time::Duration;
    ///
    /// let table = Table::new(Detect::ByWatcher, SLOTS)?;
    /// let db = table.add_inner(&[])?;
    /// let (mut older, mut younger) = (table.begin()?, table.begin()?);
    /// for session in [&mut older, &mut younger] {
    ///     assert_eq!(session.lock(db, Mode::S), Ok(Mode::S));
    /// }
    /// thread::scope(|scope| {
    ///     scope.spawn(|| table.watch_over(Duration::ZERO).unwrap());
    ///     let victim = scope.spawn(move || {
    ///         let end = younger.lock(db, Mode::X);
    ///         younger.abort();
    ///         end
    ///     });
    ///     assert_eq!(older.lock(db, Mode::X), Ok(Mode::X));
    ///     assert_eq!(victim.join().unwrap(), Err(Stop::Victim));
    ///     table.end_watch();
    /// });
    /// # Ok::<(), burlapslate::Refusal>(())
    /// ```
    pub fn watch_over(&self, rest: Duration) -> Result<(), Refusal> {
        let start = |pace| shared::bs_table_watch_thread(&self.call(), pace);
        let may_call = || self.asks_all().is_ok();
        self.watching.watch_over(rest, start, may_call)
    }

    /// Ends all calls of [`watch_over`](Table::watch_over), now and from now on. The table's thread watches on.
    pub fn end_watch(&self) {
        self.watching.end();
    }

    /// The table for one call of the library.
    pub(crate) fn call(&self) -> Calling<'_> {
        self.shared.call()
    }

    /// The table for a call of the caller's.
    pub(crate) fn shared(&self) -> &shared::Shared {
        self.shared.shared()
    }

    /// Refused with `InUse` if this thread may make no call of the table: one that names no transaction is refused so.
    /// With parts a question of all of them acquires their latches by rising number, so the thread must hold none.
    fn asks_all(&self) -> Result<(), Refusal> {
        match self.cancel(Txn::NONE) {
            Err(Refusal::InUse) => Err(Refusal::InUse),
            _ => Ok(()),
        }
    }

    /// A session has left this transaction.
    pub(crate) fn left(&self, txn: Txn) {
        self.shared.leave(txn);
    }

    /// Whether this thread may sleep in a call: one that names no transaction is refused if it may not.
    fn may_sleep(&self) -> bool {
        let (table, mode) = (self.shared(), Mode::S as u32);
        shared::bs_table_await(table, Txn::NONE, Node::NONE, mode, None).status != IN_USE
    }

    /// A time as the library takes it.
    pub(crate) fn time(&self, until: Option<Instant>) -> Option<Time> {
        until.map(|until| self.clock.time(until))
    }

    /// The session of a transaction that has begun so.
    fn begun(&self, reply: Reply) -> Result<Session<'_>, Refusal> {
        accepted(reply).map(|reply| Session::of(self, reply.txn))
    }
}

/// The node that a call has made.
pub(crate) fn node_of(reply: Reply) -> Result<Node, Refusal> {
    accepted(reply).map(|reply| reply.node)
}

/// How deadlocks are found, and how much there is; or how many parts.
impl fmt::Debug for Table {
    fn fmt(&self, f: &mut fmt::Formatter<'_>) -> fmt::Result {
        let mut shown = f.debug_struct("Table");
        let asked = self.try_with(|manager| shown.field("manager", manager).finish());
        asked.unwrap_or_else(|_refused| shown.field("parts", &self.parts()).finish_non_exhaustive())
    }
}

/// Why a question was not answered that is refused for no other reason.
const HOLDS: &str = "this thread holds the table";

mod asks;
mod begins;
mod lists;
mod running;
