//! Sessions: a transaction of a shared table that one thread drives.

use crate::manager::{Escalated, Mark};
use crate::mode::Mode;
use crate::names::{Node, Row, Txn};
use crate::refusal::{accepted, done, Refusal};
use crate::resting::Resting;
use crate::sys::awaited::{Asks, Resumes};
use crate::sys::commands::{self, Command};
use crate::sys::shared::{self, Calling, Kept};
use crate::sys::{self, Reply};
use crate::table::{node_of, Locking, Sought, Table, Transaction};
use std::error::Error;
use std::fmt;
use std::ops::Deref;
use std::sync::Arc;
use std::thread;
use std::time::{Duration, Instant};

/// Why a lock was not granted.
#[non_exhaustive]
#[derive(Clone, Copy, PartialEq, Eq, Hash, Debug)]
pub enum Stop {
    /// The request was refused, before or after it waited: with [`Refusal::NoSuchTxn`] if another thread
    /// ended the transaction meanwhile.
    Refused(Refusal),
    /// The transaction was condemned to end a deadlock, and can only abort.
    Victim,
    /// The node moved: lock from the root down again.
    Moved,
    /// The node is gone.
    Gone,
    /// The time was over first. The wait is cancelled, and the transaction is active. After a begin that
    /// timed out there is no transaction.
    TimedOut,
    /// Another thread cancelled the wait, and the transaction is active.
    Cancelled,
}

impl Stop {
    /// By what a lock that was not granted was answered.
    pub(crate) fn of(reply: &Reply) -> Stop {
        match reply.status {
            sys::VICTIM => Stop::Victim,
            sys::MOVED => Stop::Moved,
            sys::GONE => Stop::Gone,
            sys::TIMED_OUT => Stop::TimedOut,
            sys::NOT_WAITING => Stop::Cancelled,
            _ => Stop::Refused(Refusal::of(reply)),
        }
    }
}

/// What it is, for a log.
impl fmt::Display for Stop {
    fn fmt(&self, f: &mut fmt::Formatter<'_>) -> fmt::Result {
        match self {
            Stop::Refused(refusal) => refusal.fmt(f),
            Stop::Victim => f.pad("Victim"),
            Stop::Moved => f.pad("Moved"),
            Stop::Gone => f.pad("Gone"),
            Stop::TimedOut => f.pad("TimedOut"),
            Stop::Cancelled => f.pad("Cancelled"),
        }
    }
}

impl Error for Stop {}

impl From<Refusal> for Stop {
    fn from(refusal: Refusal) -> Stop {
        Stop::Refused(refusal)
    }
}

/// How a session holds a row.
#[must_use = "the row may have other keys than the call's"]
#[derive(Clone, Copy, PartialEq, Eq, Hash, Debug)]
pub enum RowLocked {
    /// In this mode, and the keys of the call are those of the row's node.
    Own(Mode),
    /// In this mode, but the row's node has other keys than the call's, or could not be asked for lack of
    /// memory. The engine reads the row's keys again. If they differ from the call's, it unlocks the row
    /// and starts again.
    OtherKeys(Mode),
}

impl RowLocked {
    /// By what a lock was answered; `None` if it was not granted.
    pub(crate) fn of(reply: &Reply) -> Option<RowLocked> {
        match reply.status {
            sys::DONE => Some(RowLocked::Own(Mode::of(reply.mode))),
            sys::OTHER_KEYS => Some(RowLocked::OtherKeys(Mode::of(reply.mode))),
            _ => None,
        }
    }

    /// The mode in which it is held.
    pub(crate) fn mode(self) -> Mode {
        match self {
            RowLocked::Own(mode) | RowLocked::OtherKeys(mode) => mode,
        }
    }
}

/// How a lock was answered, or its wait ended.
pub(crate) type Ended = Result<RowLocked, Stop>;

/// By what a lock was answered.
#[inline(always)]
pub(crate) fn ended(reply: &Reply) -> Ended {
    match RowLocked::of(reply) {
        Some(locked) => Ok(locked),
        None => Err(Stop::of(reply)),
    }
}

/// What an accepted try answers.
#[must_use = "a try that would block does not hold what it tried"]
#[derive(Clone, Copy, PartialEq, Eq, Hash, Debug)]
pub enum Tried<T> {
    /// The node or row is held: how.
    Locked(T),
    /// The transaction would have to wait, at this node.
    WouldBlock(Node),
}

impl Tried<RowLocked> {
    /// By what a try was answered.
    pub(crate) fn of(reply: &Reply) -> Result<Tried<RowLocked>, Refusal> {
        match RowLocked::of(reply) {
            Some(locked) => Ok(Tried::Locked(locked)),
            None if reply.status == sys::WOULD_BLOCK => Ok(Tried::WouldBlock(reply.node)),
            None => Err(Refusal::of(reply)),
        }
    }
}

impl Tried<Mode> {
    /// The same of a node, which has no keys.
    pub(crate) fn of_node(reply: &Reply) -> Result<Tried<Mode>, Refusal> {
        Ok(match Tried::of(reply)? {
            Tried::Locked(locked) => Tried::Locked(locked.mode()),
            Tried::WouldBlock(node) => Tried::WouldBlock(node),
        })
    }
}

impl Tried<Node> {
    /// The same of a call that makes a node.
    pub(crate) fn of_made(reply: &Reply) -> Result<Tried<Node>, Refusal> {
        Ok(match Tried::of(reply)? {
            Tried::Locked(_) => Tried::Locked(reply.node),
            Tried::WouldBlock(node) => Tried::WouldBlock(node),
        })
    }
}

/// What a failed try of a path keeps of the locks that it acquired.
#[derive(Clone, Copy, PartialEq, Eq, Hash, Debug)]
pub enum Keep {
    /// Nothing that it newly acquired.
    Nothing,
    /// All of it.
    Way,
}

impl Keep {
    pub(crate) fn as_number(self) -> u32 {
        match self {
            Keep::Nothing => shared::KEEP_NOTHING,
            Keep::Way => shared::KEEP_WAY,
        }
    }
}

/// A try of a list ([`Session::try_first`]).
#[derive(Clone, Copy, PartialEq, Eq, Hash, Debug)]
pub enum Try<'a> {
    /// As [`Session::try_lock`].
    Node {
        /// The node.
        node: Node,
        /// Its mode.
        mode: Mode,
    },
    /// As [`Session::try_lock_path`].
    Path {
        /// The node at the end of the path.
        node: Node,
        /// Its mode.
        mode: Mode,
        /// What is kept if the try is passed over.
        keep: Keep,
    },
    /// As [`Session::try_lock_row`].
    Row {
        /// The row.
        row: Row,
        /// Its keys, one for each index of its file.
        keys: &'a [u64],
        /// Its mode.
        mode: Mode,
    },
    /// As [`Session::try_lock_row_path`].
    RowPath {
        /// The row at the end of the path.
        row: Row,
        /// Its keys, one for each index of its file.
        keys: &'a [u64],
        /// Its mode.
        mode: Mode,
        /// What is kept if the try is passed over.
        keep: Keep,
    },
}

impl<'a> Try<'a> {
    /// As a command of a transaction.
    fn command(&self, txn: Txn) -> Command<'a> {
        let mut command = Command::new(commands::TRY, txn);
        match *self {
            Try::Node { node, mode } => command.node(node).mode(mode as u32),
            Try::Path { node, mode, keep } => {
                let tried = command.of(commands::TRY_PATH, txn).node(node);
                tried.mode(mode as u32).keep(keep.as_number())
            }
            Try::Row { row, keys, mode } => {
                let tried = command.of(commands::TRY_ROW, txn).row(row).keys(keys);
                tried.mode(mode as u32)
            }
            Try::RowPath {
                row,
                keys,
                mode,
                keep,
            } => {
                let tried = command.of(commands::TRY_ROW_PATH, txn).row(row).keys(keys);
                tried.mode(mode as u32).keep(keep.as_number())
            }
        };
        command
    }
}

/// The try of a list that was done.
#[derive(Clone, Copy, PartialEq, Eq, Hash, Debug)]
pub struct Taken {
    /// Its place in the list.
    pub place: usize,
    /// How it is held; a node is held as its own.
    pub locked: RowLocked,
}

/// Makes tries of a transaction by this call, which answers the place of the first that is not passed over.
pub(crate) fn try_first(
    txn: Txn,
    tries: &[Try<'_>],
    call: impl FnOnce(&mut [Command<'_>]) -> usize,
) -> Result<Option<Taken>, Refusal> {
    let mut list = Vec::new();
    let room = list.try_reserve_exact(tries.len());
    room.map_err(|_refused| Refusal::NoMemory)?;
    list.extend(tries.iter().map(|each| each.command(txn)));
    let place = call(&mut list);
    let Some(Command { reply, .. }) = list.get(place) else {
        return Ok(None);
    };
    match RowLocked::of(reply) {
        Some(locked) => Ok(Some(Taken { place, locked })),
        None => Err(Refusal::of(reply)),
    }
}

/// A transaction of a [`Table`], which one thread drives. A lock call sleeps until the lock is granted.
/// A session that is dropped without a commit is aborted, so that its locks never outlive it: undo what
/// it wrote first. Within the closure of [`Table::with`] it cannot be aborted: a drop panics there, and, if its table
/// has parts, while the thread holds any table. It borrows its table, or is one of its owners
/// ([`Table::begin_shared`]).
///
/// ```
/// use burlapslate::{Detect, Mode, Table, SLOTS};
///
/// let table = Table::new(Detect::AtBlock, SLOTS)?;
/// let db = table.add_inner(&[])?;
/// let mut session = table.begin()?;
/// assert_eq!(session.lock(db, Mode::X), Ok(Mode::X));
/// drop(session); // It is aborted.
/// assert_eq!(table.with(|m| m.group(db)), Ok(Mode::NL));
/// # Ok::<(), burlapslate::Refusal>(())
/// ```
#[must_use = "a session that is dropped is aborted"]
pub struct Session<'t> {
    own: Transaction<'t>,
    has_ended: bool,
    /// The deadline of each of its waits.
    deadline: Option<Instant>,
    /// How many locks it has from the transaction before it.
    kept: u32,
}

/// How a session has its table or its group: borrowed, or as one of its owners.
pub(crate) enum Handle<'t, T = Table> {
    Lent(&'t T),
    Shared(Arc<T>),
}

impl<T> Clone for Handle<'_, T> {
    fn clone(&self) -> Self {
        match self {
            Handle::Lent(table) => Handle::Lent(table),
            Handle::Shared(table) => Handle::Shared(Arc::clone(table)),
        }
    }
}

impl<T> Deref for Handle<'_, T> {
    type Target = T;

    fn deref(&self) -> &T {
        match self {
            Handle::Lent(table) => table,
            Handle::Shared(table) => table,
        }
    }
}

impl Session<'static> {
    /// The same transaction, in a session that shares ownership of its table.
    pub(crate) fn shared(table: &Arc<Table>, lent: Session<'_>) -> Session<'static> {
        Session::over(Handle::Shared(Arc::clone(table)), lent.ends())
    }
}

impl<'t> Session<'t> {
    pub(crate) fn of(table: &'t Table, txn: Txn) -> Session<'t> {
        Session::over(Handle::Lent(table), txn)
    }

    fn over(table: Handle<'t>, txn: Txn) -> Session<'t> {
        Session::with_kept(table, txn, 0)
    }

    /// With so many locks that the transaction before it has kept.
    pub(crate) fn with_kept(table: Handle<'t>, txn: Txn, kept: u32) -> Session<'t> {
        Session {
            own: Transaction::new(table, txn),
            has_ended: false,
            deadline: None,
            kept,
        }
    }

    /// The name of its transaction, by which other threads may abort, cancel or settle it; with parts they may cancel
    /// its waits.
    pub fn txn(&self) -> Txn {
        self.own.txn
    }

    /// Ends its transaction and begins another, which holds what it held, as [`Manager::renew`](crate::Manager::renew):
    /// the next one of this thread needs the same intentions. A deadline stays.
    ///
    /// ```
    /// # use burlapslate::{Detect, Mode, Table, SLOTS};
    /// # let table = Table::new(Detect::AtBlock, SLOTS)?;
    /// # let db = table.add_inner(&[])?;
    /// let mut session = table.begin()?;
    /// assert_eq!(session.lock(db, Mode::IX), Ok(Mode::IX));
    /// let before = session.txn();
    /// session.renew(u64::MAX)?;
    /// assert_ne!(session.txn(), before);
    /// # Ok::<(), burlapslate::Refusal>(())
    /// ```
    ///
    /// If the table has parts, what the transaction held is released, but for what is kept as by
    /// [`Group::keep`](crate::Group::keep).
    pub fn renew(&mut self, since: u64) -> Result<(), Refusal> {
        let _resumes = Resumes; // So the panic of a waker finds the new name noted.
        let reply = shared::bs_table_renew(self.own.table.shared(), self.own.txn, since);
        self.own.txn = accepted(reply)?.txn;
        Ok(())
    }

    /// Sets a deadline: from now on each wait for a lock ends at this time at the latest and is answered
    /// with [`Stop::TimedOut`], also if the call that waits has a later time or none. `None` removes it.
    ///
    /// ```
    /// # use burlapslate::{Detect, Mode, Stop, Table, SLOTS};
    /// # use std::time::{Duration, Instant};
    /// # let table = Table::new(Detect::AtBlock, SLOTS)?;
    /// # let db = table.add_inner(&[])?;
    /// let (mut first, mut second) = (table.begin()?, table.begin()?);
    /// assert_eq!(first.lock(db, Mode::X), Ok(Mode::X));
    /// second.set_deadline(Some(Instant::now() + Duration::from_millis(1)));
    /// assert_eq!(second.lock(db, Mode::S), Err(Stop::TimedOut));
    /// assert_eq!(second.lock_path(db, Mode::S), Err(Stop::TimedOut));
    /// # Ok::<(), burlapslate::Refusal>(())
    /// ```
    pub fn set_deadline(&mut self, deadline: Option<Instant>) {
        self.deadline = deadline;
    }

    /// The table for one call of the library.
    fn call(&self) -> Calling<'_> {
        self.own.call()
    }

    /// The earlier of this time and its own.
    fn until(&self, time: Option<Instant>) -> Option<Instant> {
        time.into_iter().chain(self.deadline).min()
    }

    /// Locks a row, within the earlier of this time and its own.
    #[inline(always)]
    fn sought_row(&mut self, sought: Sought<'_>, time: Option<Instant>) -> Result<RowLocked, Stop> {
        self.own.table.lock(self.own.txn, sought, self.until(time))
    }

    /// The same of a node or a path, which has no keys.
    #[inline(always)]
    fn sought(&mut self, sought: Sought<'_>, time: Option<Instant>) -> Result<Mode, Stop> {
        self.sought_row(sought, time).map(RowLocked::mode)
    }

    /// Locks what is requested, for a task.
    fn locking<'a>(&'a mut self, sought: Sought<'a>) -> Locking<'a, Transaction<'t>> {
        let time = self.own.table.time(self.deadline);
        Locking::new(&mut self.own, sought, self.deadline, time)
    }

    /// As [`Manager::lock`](crate::Manager::lock), but the call sleeps until the lock is granted or the
    /// wait ends otherwise. It answers the mode that is held then.
    ///
    /// This call, and each other that may sleep, is refused with [`InUse`](Refusal::InUse) in a waker and while
    /// the thread holds a table ([`Table::with`]).
    pub fn lock(&mut self, node: Node, mode: Mode) -> Result<Mode, Stop> {
        self.sought(Sought::node(node, mode), None)
    }

    /// As [`lock`](Session::lock), for an instant: the lock is requested and waited for as any other, and
    /// released as soon as it is granted, within the same critical section. So the answer says that the
    /// lock was granted and in which mode, no other thread sees it held, and the next waiters in the queue
    /// are granted. It is for keys that must be free at one moment, such as the interval that a new key
    /// splits.
    ///
    /// A node that the transaction holds already is converted and stays so, since no mode is ever lowered.
    /// A node of which it holds a child by another parent stays locked too, since
    /// [`unlock`](Session::unlock) refuses that.
    ///
    /// ```
    /// # use burlapslate::{Detect, Mode, Stop, Table, SLOTS};
    /// # let table = Table::new(Detect::AtBlock, SLOTS)?;
    /// # let db = table.add_inner(&[])?;
    /// let mut session = table.begin()?;
    /// assert_eq!(session.lock_instant(db, Mode::X), Ok(Mode::X));
    /// assert_eq!(table.with(|m| m.group(db)), Ok(Mode::NL));
    /// # Ok::<(), Stop>(())
    /// ```
    pub fn lock_instant(&mut self, node: Node, mode: Mode) -> Result<Mode, Stop> {
        self.sought(Sought::node_instant(node, mode), None)
    }

    /// As [`lock_path`](Session::lock_path), with the node itself for an instant, as
    /// [`lock_instant`](Session::lock_instant). The locks above it stay.
    pub fn lock_path_instant(&mut self, node: Node, mode: Mode) -> Result<Mode, Stop> {
        self.sought(Sought::path_instant(node, mode), None)
    }

    /// As [`lock`](Session::lock), but after this time the wait is cancelled and answered with
    /// [`Stop::TimedOut`]. A lock that was granted by then is answered as granted.
    ///
    /// ```
    /// # use burlapslate::{Detect, Mode, Stop, Table, SLOTS};
    /// # use std::time::Duration;
    /// # let table = Table::new(Detect::AtBlock, SLOTS)?;
    /// # let db = table.add_inner(&[])?;
    /// let (mut first, mut second) = (table.begin()?, table.begin()?);
    /// assert_eq!(first.lock(db, Mode::S), Ok(Mode::S));
    /// let end = second.lock_timeout(db, Mode::X, Duration::from_millis(1));
    /// assert_eq!(end, Err(Stop::TimedOut));
    /// assert_eq!(second.lock(db, Mode::S), Ok(Mode::S));
    /// # Ok::<(), burlapslate::Refusal>(())
    /// ```
    pub fn lock_timeout(&mut self, node: Node, mode: Mode, time: Duration) -> Result<Mode, Stop> {
        self.sought(Sought::node(node, mode), deadline(time))
    }

    /// As [`lock_timeout`](Session::lock_timeout), with the time at which the wait is cancelled.
    pub fn lock_until(&mut self, node: Node, mode: Mode, until: Instant) -> Result<Mode, Stop> {
        self.sought(Sought::node(node, mode), Some(until))
    }

    /// Locks a node with what must be held above it: intentions, root first, on all parents to write; to
    /// read, on a parent that is held already, or else on the first; then the node in its mode. The call
    /// waits for each in turn. If the node moves meanwhile the path starts again, so the answer is never
    /// [`Stop::Moved`]. Otherwise it ends at the first lock that is refused or not granted; the locks
    /// acquired before that stay.
    ///
    /// ```
    /// # use burlapslate::{Detect, Mode, Table, SLOTS};
    /// # let table = Table::new(Detect::AtBlock, SLOTS)?;
    /// # let db = table.add_inner(&[])?;
    /// # let file = table.add_file(&[db])?;
    /// let mut session = table.begin()?;
    /// assert_eq!(session.lock_path(file, Mode::X), Ok(Mode::X));
    /// assert_eq!(table.with(|m| m.held(session.txn(), db)), Ok(Mode::IX));
    /// session.commit()?;
    /// # Ok::<(), burlapslate::Refusal>(())
    /// ```
    pub fn lock_path(&mut self, node: Node, mode: Mode) -> Result<Mode, Stop> {
        self.sought(Sought::path(node, mode), None)
    }

    /// As [`lock_path`](Session::lock_path), within this time.
    pub fn lock_path_timeout(
        &mut self,
        node: Node,
        mode: Mode,
        time: Duration,
    ) -> Result<Mode, Stop> {
        self.sought(Sought::path(node, mode), deadline(time))
    }

    /// As [`lock_path_timeout`](Session::lock_path_timeout), with the time at which a wait is cancelled.
    pub fn lock_path_until(
        &mut self,
        node: Node,
        mode: Mode,
        until: Instant,
    ) -> Result<Mode, Stop> {
        self.sought(Sought::path(node, mode), Some(until))
    }

    /// As [`Manager::lock_row`](crate::Manager::lock_row), but the call sleeps until the row is granted or
    /// the wait ends otherwise. The caller locks what must be held above the row: if a parent is missing
    /// the call is refused with [`NeedParents`](Refusal::NeedParents), and [`lock_path`](Session::lock_path)
    /// locks that parent. That may sleep, and the keys may differ after it. After each grant the engine
    /// reads the row's keys again; if they differ from the call's, it unlocks the row and starts again.
    /// The end of the session lets its rows go. [`lock_row_path`](Session::lock_row_path) locks what is above the
    /// row too.
    ///
    /// ```
    /// # use burlapslate::{Detect, Mode, Row, RowLocked, Table, SLOTS};
    /// # let table = Table::new(Detect::AtBlock, SLOTS)?;
    /// # let db = table.add_inner(&[])?;
    /// let file = table.add_row_file(&[db])?;
    /// let row = Row { file, number: 7 };
    /// let mut session = table.begin()?;
    /// assert_eq!(session.lock_path(file, Mode::IX), Ok(Mode::IX));
    /// assert_eq!(session.lock_row(row, &[], Mode::X), Ok(RowLocked::Own(Mode::X)));
    /// session.commit()?;
    /// assert_eq!(table.row_node(row), None);
    /// # Ok::<(), burlapslate::Refusal>(())
    /// ```
    pub fn lock_row(&mut self, row: Row, keys: &[u64], mode: Mode) -> Result<RowLocked, Stop> {
        self.sought_row(Sought::row(row, keys, mode), None)
    }

    /// As [`lock_row`](Session::lock_row), but after this time the wait is cancelled and answered with
    /// [`Stop::TimedOut`].
    pub fn lock_row_timeout(
        &mut self,
        row: Row,
        keys: &[u64],
        mode: Mode,
        time: Duration,
    ) -> Result<RowLocked, Stop> {
        self.sought_row(Sought::row(row, keys, mode), deadline(time))
    }

    /// As [`lock_row_timeout`](Session::lock_row_timeout), with the time at which the wait is cancelled.
    pub fn lock_row_until(
        &mut self,
        row: Row,
        keys: &[u64],
        mode: Mode,
        until: Instant,
    ) -> Result<RowLocked, Stop> {
        self.sought_row(Sought::row(row, keys, mode), Some(until))
    }

    /// As [`lock_row`](Session::lock_row), with what must be held above the row: to write, [`IX`](Mode::IX) on
    /// the file and on the interval of each key; to read, [`IS`](Mode::IS) on the file, unless one of these is
    /// held already. Each is locked as by [`lock_path`](Session::lock_path), and the call waits for each in turn.
    /// If another transaction changes the row's keys meanwhile, the call continues with the new keys. So the
    /// answer is never [`NeedParents`](Refusal::NeedParents) or [`Stop::Moved`].
    ///
    /// After [`RowLocked::OtherKeys`] the transaction holds the row, and the engine reads its keys again.
    ///
    /// Otherwise the call ends at the first lock that is refused or not granted; the locks acquired before that
    /// stay. [`Stop::Gone`]: the row, or the node above it for which the call waited, was deleted or dropped.
    /// Refused with [`NotRows`](Refusal::NotRows) also if the file was dropped meanwhile.
    ///
    /// ```
    /// # use burlapslate::{Detect, Mode, Row, RowLocked, Stop, Table, SLOTS};
    /// # let table = Table::new(Detect::AtBlock, SLOTS)?;
    /// # let db = table.add_inner(&[])?;
    /// let file = table.add_row_file(&[db])?;
    /// let days = table.add_index(&[db], file, &[100, 200])?;
    /// let day = table.with(|m| m.interval_of(days, 150))?;
    /// let mut session = table.begin()?;
    /// let row = Row { file, number: 7 };
    /// assert_eq!(session.lock_row_path(row, &[150], Mode::X)?, RowLocked::Own(Mode::X));
    /// for node in [db, file, days, day] {
    ///     assert_eq!(table.with(|m| m.held(session.txn(), node)), Ok(Mode::IX));
    /// }
    /// # Ok::<(), Stop>(())
    /// ```
    pub fn lock_row_path(&mut self, row: Row, keys: &[u64], mode: Mode) -> Result<RowLocked, Stop> {
        self.sought_row(Sought::row_path(row, keys, mode), None)
    }

    /// As [`lock_row_path`](Session::lock_row_path), but after this time the wait is cancelled and answered with
    /// [`Stop::TimedOut`]. The row is let go then, and what was locked above it stays.
    pub fn lock_row_path_timeout(
        &mut self,
        row: Row,
        keys: &[u64],
        mode: Mode,
        time: Duration,
    ) -> Result<RowLocked, Stop> {
        self.sought_row(Sought::row_path(row, keys, mode), deadline(time))
    }

    /// As [`lock_row_path_timeout`](Session::lock_row_path_timeout), with the time at which the wait is cancelled.
    pub fn lock_row_path_until(
        &mut self,
        row: Row,
        keys: &[u64],
        mode: Mode,
        until: Instant,
    ) -> Result<RowLocked, Stop> {
        self.sought_row(Sought::row_path(row, keys, mode), Some(until))
    }

    /// As [`lock`](Session::lock), for a task: no thread sleeps while the lock waits, and the task is woken
    /// when the wait is over. It needs no runtime, and requests the lock at the first poll.
    ///
    /// The thread that ends the wait wakes the task, within its call of the table and without the latch. So the
    /// waker may call the table, as by polling the future, and delays that thread alone. In a waker each call
    /// that could sleep is refused with [`InUse`](Refusal::InUse). If it panics, that call of the thread panics
    /// after all that it does.
    ///
    /// A future that is dropped while it waits cancels its wait. If the lock was granted by then, the
    /// transaction keeps it until its end, as all its locks: no command lowers a mode. So a task that gave
    /// up a lock by a timeout may request it again, and it is granted at once. If the transaction was
    /// condemned by then, it can only abort. A leaked future waits on until the session is dropped.
    ///
    /// The session's deadline counts ([`set_deadline`](Session::set_deadline)) if the future is polled then, or
    /// by [`Table::expire`].
    ///
    /// ```
    /// # use burlapslate::{Detect, Mode, Table, SLOTS};
    /// # use std::future::Future;
    /// # use std::pin::pin;
    /// # use std::task::{Context, Poll, Wake, Waker};
    /// # use std::sync::Arc;
    /// # struct Nobody;
    /// # impl Wake for Nobody {
    /// #     fn wake(self: Arc<Nobody>) {}
    /// # }
    /// # let table = Table::new(Detect::AtBlock, SLOTS)?;
    /// # let db = table.add_inner(&[])?;
    /// # let waker = Waker::from(Arc::new(Nobody));
    /// # let mut context = Context::from_waker(&waker);
    /// let (mut first, mut second) = (table.begin()?, table.begin()?);
    /// assert_eq!(first.lock(db, Mode::X), Ok(Mode::X));
    /// let mut lock = pin!(second.lock_async(db, Mode::S)); // As a runtime polls it:
    /// assert_eq!(lock.as_mut().poll(&mut context), Poll::Pending);
    /// first.commit()?; // It wakes the task.
    /// assert_eq!(lock.as_mut().poll(&mut context), Poll::Ready(Ok(Mode::S)));
    /// # Ok::<(), burlapslate::Refusal>(())
    /// ```
    pub async fn lock_async(&mut self, node: Node, mode: Mode) -> Result<Mode, Stop> {
        let locked = self.locking(Sought::node(node, mode)).await;
        locked.map(RowLocked::mode)
    }

    /// As [`lock_instant`](Session::lock_instant), for a task, as [`lock_async`](Session::lock_async).
    pub async fn lock_instant_async(&mut self, node: Node, mode: Mode) -> Result<Mode, Stop> {
        let locked = self.locking(Sought::node_instant(node, mode)).await;
        locked.map(RowLocked::mode)
    }

    /// As [`lock_path`](Session::lock_path), for a task, as [`lock_async`](Session::lock_async). The call that
    /// grants a lock on the way requests the next one, and the task is woken at the end of the path. If the
    /// future is dropped, the locks acquired before stay.
    pub async fn lock_path_async(&mut self, node: Node, mode: Mode) -> Result<Mode, Stop> {
        let locked = self.locking(Sought::path(node, mode)).await;
        locked.map(RowLocked::mode)
    }

    /// As [`lock_row`](Session::lock_row), for a task, as [`lock_async`](Session::lock_async). If the future
    /// is dropped after a grant, the row is held, and its keys were not looked at.
    pub async fn lock_row_async(
        &mut self,
        row: Row,
        keys: &[u64],
        mode: Mode,
    ) -> Result<RowLocked, Stop> {
        self.locking(Sought::row(row, keys, mode)).await
    }

    /// As [`lock_row_path`](Session::lock_row_path), for a task, as [`lock_async`](Session::lock_async). The call
    /// that grants a lock on the way requests the next one, and the task is woken at the end of the path. If the
    /// future is dropped, the locks acquired before stay; after the last grant the row is held too, and its keys
    /// were not looked at.
    pub async fn lock_row_path_async(
        &mut self,
        row: Row,
        keys: &[u64],
        mode: Mode,
    ) -> Result<RowLocked, Stop> {
        self.locking(Sought::row_path(row, keys, mode)).await
    }

    /// Locks a node with what must be held above it, as [`lock_path`](Session::lock_path) does, but each
    /// lock by a try, in one critical section: the call never sleeps, joins no queue and makes nobody a
    /// victim. It answers the mode that is held then, or the node, this one or one above it, for which the
    /// transaction would have to wait.
    ///
    /// Refused as [`lock`](crate::Manager::lock), but never with [`NeedParents`](Refusal::NeedParents), and
    /// before anything is locked; [`NoMemory`](Refusal::NoMemory) and [`WornOut`](Refusal::WornOut) may also
    /// be answered after some of the locks.
    ///
    /// If the call fails after some of the locks, `keep` says what becomes of these. With [`Keep::Nothing`]
    /// each node that this call newly acquired is released again, the last first. A node that was held
    /// before stays in the mode to which it was converted, since no mode is ever lowered. A node of which
    /// the transaction already held a child by another parent stays too, with what is above it. After
    /// [`WornOut`](Refusal::WornOut) all of them stay.
    ///
    /// ```
    /// # use burlapslate::{Detect, Keep, Mode, Table, Tried, SLOTS};
    /// # let table = Table::new(Detect::AtBlock, SLOTS)?;
    /// # let db = table.add_inner(&[])?;
    /// # let file = table.add_file(&[db])?;
    /// let (mut first, mut second) = (table.begin()?, table.begin()?);
    /// let tried = first.try_lock_path(file, Mode::X, Keep::Nothing)?;
    /// assert_eq!(tried, Tried::Locked(Mode::X));
    /// let tried = second.try_lock_path(file, Mode::S, Keep::Nothing)?;
    /// assert_eq!(tried, Tried::WouldBlock(file));
    /// assert_eq!(table.with(|m| m.held(second.txn(), db)), Ok(Mode::NL));
    /// # Ok::<(), burlapslate::Refusal>(())
    /// ```
    pub fn try_lock_path(
        &mut self,
        node: Node,
        mode: Mode,
        keep: Keep,
    ) -> Result<Tried<Mode>, Refusal> {
        let (mode, keep) = (mode as u32, keep.as_number());
        let reply = shared::bs_table_try_path(&self.call(), self.own.txn, node, mode, keep);
        Tried::of_node(&reply)
    }

    /// As [`lock_row`](Session::lock_row), but the call never sleeps, joins no queue and makes nobody a
    /// victim: if the transaction would have to wait, the call answers the row's node and changes nothing.
    ///
    /// Refused as [`Manager::lock_row`](crate::Manager::lock_row); a refused call changes nothing, also for
    /// lack of memory. If the transaction held the row before, and memory or numbers are missing after the
    /// grant, the answer is [`RowLocked::OtherKeys`]; it is the same if the grant used the last number.
    pub fn try_lock_row(
        &mut self,
        row: Row,
        keys: &[u64],
        mode: Mode,
    ) -> Result<Tried<RowLocked>, Refusal> {
        let reply = shared::try_row(&self.call(), self.own.txn, row, keys, mode as u32);
        Tried::of(&reply)
    }

    /// As [`lock_row_path`](Session::lock_row_path), but each lock by a try, in one critical section: the call
    /// never sleeps, joins no queue and makes nobody a victim. It answers how the row is held then, or the node,
    /// the row's or one above it, for which the transaction would have to wait.
    ///
    /// Refused as [`try_lock_row`](Session::try_lock_row), but never with [`NeedParents`](Refusal::NeedParents).
    /// If the call fails after some of the locks, `keep` says what becomes of these, as in
    /// [`try_lock_path`](Session::try_lock_path).
    ///
    /// ```
    /// # use burlapslate::{Detect, Keep, Mode, Row, RowLocked, Table, Tried, SLOTS};
    /// # let table = Table::new(Detect::AtBlock, SLOTS)?;
    /// # let db = table.add_inner(&[])?;
    /// # let file = table.add_row_file(&[db])?;
    /// let row = Row { file, number: 7 };
    /// let (mut first, mut second) = (table.begin()?, table.begin()?);
    /// let tried = first.try_lock_row_path(row, &[], Mode::X, Keep::Nothing)?;
    /// assert_eq!(tried, Tried::Locked(RowLocked::Own(Mode::X)));
    /// let tried = second.try_lock_row_path(row, &[], Mode::S, Keep::Nothing)?;
    /// assert_eq!(Some(tried), table.row_node(row).map(Tried::WouldBlock));
    /// assert_eq!(table.with(|m| m.held(second.txn(), file)), Ok(Mode::NL));
    /// # Ok::<(), burlapslate::Refusal>(())
    /// ```
    pub fn try_lock_row_path(
        &mut self,
        row: Row,
        keys: &[u64],
        mode: Mode,
        keep: Keep,
    ) -> Result<Tried<RowLocked>, Refusal> {
        let (mode, keep) = (mode as u32, keep.as_number());
        let reply = shared::try_row_path(&self.call(), self.own.txn, row, keys, mode, keep);
        Tried::of(&reply)
    }

    /// Makes tries one after the other in one hold of the latch, up to the first that is done: `None` if there is none.
    /// A try is passed over if it would block, if its record or row has moved to where the transaction holds nothing
    /// above it ([`NeedParents`](Refusal::NeedParents)), and if it is gone ([`NoSuchNode`](Refusal::NoSuchNode)). Of a
    /// path that is passed over nothing is kept but what its `keep` says. The first try that is refused otherwise ends
    /// the list, and is answered. Takes memory for the list.
    ///
    /// ```
    /// # use burlapslate::{Detect, Mode, Row, Table, Try, SLOTS};
    /// # let table = Table::new(Detect::AtBlock, SLOTS)?;
    /// # let db = table.add_inner(&[])?;
    /// # let file = table.add_row_file(&[db])?;
    /// let jobs = [1, 2, 3].map(|number| Try::Row {
    ///     row: Row { file, number },
    ///     keys: &[],
    ///     mode: Mode::X,
    /// });
    /// let (mut first, mut second) = (table.begin()?, table.begin()?);
    /// for (place, session) in [&mut first, &mut second].into_iter().enumerate() {
    ///     session.lock_path(file, Mode::IX).unwrap();
    ///     assert_eq!(session.try_first(&jobs)?.map(|taken| taken.place), Some(place));
    /// }
    /// # Ok::<(), burlapslate::Refusal>(())
    /// ```
    pub fn try_first(&mut self, tries: &[Try<'_>]) -> Result<Option<Taken>, Refusal> {
        let call = |list: &mut [Command<'_>]| commands::try_first(&self.call(), list);
        try_first(self.own.txn, tries, call)
    }

    /// As [`Manager::unlock_row`](crate::Manager::unlock_row).
    pub fn unlock_row(&mut self, row: Row) -> Result<(), Refusal> {
        let Row { file, number } = row;
        done(shared::bs_table_unlock_row(
            &self.call(),
            self.own.txn,
            file,
            number,
            None,
        ))
    }

    /// As [`Manager::rekey_row`](crate::Manager::rekey_row).
    pub fn rekey_row(&mut self, row: Row, index: Node, key: u64) -> Result<(), Refusal> {
        let (table, Row { file, number }) = (&self.call(), row);
        done(shared::bs_table_rekey_row(
            table,
            self.own.txn,
            file,
            number,
            index,
            key,
            None,
        ))
    }

    /// As [`Manager::try_lock`](crate::Manager::try_lock).
    pub fn try_lock(&mut self, node: Node, mode: Mode) -> Result<Mode, Refusal> {
        let reply = shared::bs_table_try(&self.call(), self.own.txn, node, mode as u32);
        accepted(reply).map(|reply| Mode::of(reply.mode))
    }

    /// As [`Manager::unlock`](crate::Manager::unlock).
    pub fn unlock(&mut self, node: Node) -> Result<(), Refusal> {
        done(shared::bs_table_unlock(
            &self.call(),
            self.own.txn,
            node,
            None,
        ))
    }

    /// The mode in which the transaction holds a node; with parts as
    /// [`GroupSession::held`](crate::GroupSession::held).
    ///
    /// Refused as [`Manager::held`](crate::Manager::held), and with [`InUse`](Refusal::InUse).
    ///
    /// ```
    /// # use burlapslate::{Detect, Mode, Options, Stop, Table};
    /// for parts in [1, 4] {
    ///     let table = Table::with_options(Options::new(Detect::AtBlock).parts(parts))?;
    ///     let db = table.add_inner(&[])?;
    ///     let file = table.add_file(&[db])?;
    ///     let mut session = table.begin()?;
    ///     session.lock_path(file, Mode::X)?;
    ///     assert_eq!(session.held(db), Ok(Mode::IX));
    /// }
    /// # Ok::<(), Stop>(())
    /// ```
    pub fn held(&mut self, node: Node) -> Result<Mode, Refusal> {
        let txn = self.own.txn;
        #[cfg(target_pointer_width = "64")]
        if let Some(group) = self.own.table.group() {
            return group.held(txn, node);
        }
        self.own.table.try_with(|m| m.held(txn, node))?
    }

    /// As [`Manager::mark`](crate::Manager::mark); with parts in each of them, and it takes memory.
    pub fn mark(&mut self) -> Result<Mark, Refusal> {
        let reply = accepted(shared::bs_table_mark(&self.call(), self.own.txn))?;
        Ok(Mark(reply.count as usize))
    }

    /// As [`Manager::release_since`](crate::Manager::release_since): how many nodes it released.
    ///
    /// ```
    /// # use burlapslate::{Detect, Mode, Stop, Table, SLOTS};
    /// # let table = Table::new(Detect::AtBlock, SLOTS)?;
    /// # let db = table.add_inner(&[])?;
    /// # let file = table.add_file(&[db])?;
    /// let mut session = table.begin()?;
    /// session.lock(db, Mode::IX)?;
    /// let mark = session.mark()?;
    /// session.lock(file, Mode::X)?;
    /// assert_eq!(session.release_since(mark), Ok(1));
    /// assert_eq!(table.with(|m| m.group(file)), Ok(Mode::NL));
    /// # Ok::<(), Stop>(())
    /// ```
    pub fn release_since(&mut self, mark: Mark) -> Result<usize, Refusal> {
        let savepoint = mark.0 as u64;
        let reply = shared::bs_table_release_since(&self.call(), self.own.txn, savepoint, None);
        accepted(reply).map(|reply| reply.count as usize)
    }

    /// As [`Manager::escalate`](crate::Manager::escalate).
    pub fn escalate(&mut self, node: Node) -> Result<Escalated, Refusal> {
        let reply = shared::bs_table_escalate(&self.call(), self.own.txn, node, None);
        accepted(reply).map(|reply| Escalated::of(&reply))
    }

    /// As [`Manager::insert`](crate::Manager::insert).
    pub fn insert(&mut self, file: Node, keys: &[u64]) -> Result<Node, Refusal> {
        node_of(shared::insert(&self.call(), self.own.txn, file, keys))
    }

    /// As [`insert`](Session::insert), with what must be held above the record: [`IX`](Mode::IX) on the file and on
    /// the interval of each key, each by a try, in one critical section. Under an index that the transaction holds in
    /// [`X`](Mode::X) nothing is to be locked before. The call never sleeps: it answers the record, or the node above
    /// it for which the transaction would have to wait. Never refused with [`NeedParents`](Refusal::NeedParents). If
    /// the call fails after some of the locks, `keep` says what becomes of these, as in
    /// [`try_lock_path`](Session::try_lock_path).
    pub fn insert_path(
        &mut self,
        file: Node,
        keys: &[u64],
        keep: Keep,
    ) -> Result<Tried<Node>, Refusal> {
        let reply = shared::insert_path(&self.call(), self.own.txn, file, keys, keep.as_number());
        Tried::of_made(&reply)
    }

    /// As [`Manager::delete`](crate::Manager::delete). Threads that sleep for the record are woken.
    pub fn delete(&mut self, record: Node) -> Result<(), Refusal> {
        done(shared::bs_table_delete(
            &self.call(),
            self.own.txn,
            record,
            None,
        ))
    }

    /// As [`Manager::rekey`](crate::Manager::rekey).
    pub fn rekey(&mut self, record: Node, index: Node, key: u64) -> Result<(), Refusal> {
        let table = &self.call();
        done(shared::bs_table_rekey(
            table,
            self.own.txn,
            record,
            index,
            key,
            None,
        ))
    }

    /// As [`Manager::move_node`](crate::Manager::move_node).
    pub fn move_node(&mut self, node: Node, parents: &[Node]) -> Result<(), Refusal> {
        done(shared::move_node(&self.call(), self.own.txn, node, parents))
    }

    /// As [`Manager::drop_node`](crate::Manager::drop_node). Threads that sleep for the node are woken and
    /// answered [`Stop::Gone`].
    pub fn drop_node(&mut self, node: Node) -> Result<(), Refusal> {
        done(shared::bs_table_drop(
            &self.call(),
            self.own.txn,
            node,
            None,
        ))
    }

    /// As [`Manager::split`](crate::Manager::split): the new interval. Threads that sleep for the interval are
    /// woken; a path begins anew with it, and a lock is answered [`Stop::Moved`].
    pub fn split(&mut self, interval: Node, at: u64) -> Result<Node, Refusal> {
        let table = &self.call();
        node_of(shared::bs_table_split(
            table,
            self.own.txn,
            interval,
            at,
            None,
        ))
    }

    /// As [`Manager::merge`](crate::Manager::merge). Threads that sleep for the next interval are woken and
    /// answered [`Stop::Gone`].
    pub fn merge(&mut self, interval: Node) -> Result<(), Refusal> {
        done(shared::bs_table_merge(
            &self.call(),
            self.own.txn,
            interval,
            None,
        ))
    }

    /// As [`Manager::index_by`](crate::Manager::index_by).
    pub fn index_by(
        &mut self,
        parents: &[Node],
        file: Node,
        bounds: &[u64],
    ) -> Result<Node, Refusal> {
        node_of(shared::index_by(
            &self.call(),
            self.own.txn,
            parents,
            file,
            bounds,
        ))
    }

    /// As [`Manager::index_records`](crate::Manager::index_records). While the table is traced
    /// ([`Table::trace`](crate::Table::trace)), a call that names records is refused with
    /// [`NotWritten`](Refusal::NotWritten), whatever else is wrong with it: a trace has no line for it.
    pub fn index_records(
        &mut self,
        parents: &[Node],
        file: Node,
        bounds: &[u64],
        records: &[Node],
        keys: &[u64],
    ) -> Result<Node, Refusal> {
        if records.len() != keys.len() {
            return Err(Refusal::BadKeys);
        }
        let (table, txn) = (self.call(), self.own.txn);
        node_of(shared::index_records(
            &table, txn, parents, file, bounds, records, keys,
        ))
    }

    /// Commits, wakes the waiters that are granted by it, and lets its rows go. If the commit is refused,
    /// because the transaction was condemned or another thread ended it, the session is aborted.
    ///
    /// Refused as [`Manager::commit`](crate::Manager::commit).
    pub fn commit(mut self) -> Result<(), Refusal> {
        let reply = shared::bs_table_commit(&self.call(), self.own.txn, None);
        self.has_ended = reply.status == sys::DONE;
        done(reply)
    }

    /// Commits as [`commit`](Session::commit), and keeps for the thread's next transaction the first locks that are
    /// intentions, as many as `most` or fewer; 16 is usual. All others are released. Nothing is kept if
    /// somebody waits for a node of it, or for a slot.
    ///
    /// ```
    /// # use burlapslate::{Detect, Mode, Stop, Table, SLOTS};
    /// # let table = Table::new(Detect::AtBlock, SLOTS)?;
    /// # let db = table.add_inner(&[])?;
    /// # let files = [table.add_file(&[db])?, table.add_file(&[db])?];
    /// let mut session = table.begin()?;
    /// for file in files {
    ///     session.lock_path(file, Mode::X)?;
    ///     session = session.rest(16)?.begin()?; // It holds the data base in IX.
    /// }
    /// assert_eq!(table.with(|m| m.held(session.txn(), db)), Ok(Mode::IX));
    /// # Ok::<(), Stop>(())
    /// ```
    pub fn rest(mut self, most: usize) -> Result<Resting<'t>, Refusal> {
        let mut kept = self.keeping(most);
        accepted(shared::session_commit(&self.call(), &mut kept))?;
        self.has_ended = true;
        Ok(Resting::of(self.own.table.clone(), kept))
    }

    /// For a commit that keeps so many locks.
    fn keeping(&self, most: usize) -> Kept {
        Kept {
            txn: self.own.txn,
            most: u32::try_from(most).unwrap_or(u32::MAX),
            count: self.kept,
            ..Kept::NOTHING
        }
    }

    /// Aborts. A session that is dropped does the same.
    pub fn abort(self) {}

    /// Keeps the transaction and its locks without a session, as for one that is prepared: any thread
    /// with its name ends it by [`Table::commit`] or [`Table::abort`].
    pub fn leave(self) -> Txn {
        let table = self.own.table.clone();
        let txn = self.ends();
        table.left(txn);
        txn
    }

    /// The session ends without its transaction.
    fn ends(mut self) -> Txn {
        self.has_ended = true;
        self.own.txn
    }
}

impl Drop for Session<'_> {
    fn drop(&mut self) {
        if !self.has_ended {
            let end = done(self.own.abort()); // Refused if another thread has ended it.
            let is_lost = end == Err(Refusal::InUse) && !thread::panicking();
            assert!(
                !is_lost,
                "a session was dropped while its thread held the table"
            );
        }
    }
}

impl fmt::Debug for Session<'_> {
    fn fmt(&self, f: &mut fmt::Formatter<'_>) -> fmt::Result {
        f.debug_tuple("Session").field(&self.own.txn).finish()
    }
}

/// The time after this duration; `None` if that is beyond the clock.
pub(crate) fn deadline(time: Duration) -> Option<Instant> {
    Instant::now().checked_add(time)
}

mod lists;

pub(crate) use lists::run_whole;
pub use lists::Unfinished;
