//! For operators of a table: which transactions wait, for which others, for how long, and the totals until now.

use super::{Table, HOLDS};
use crate::listing::Deadlock;
use crate::manager::Wait;
use crate::mode::Mode;
use crate::names::{Node, Txn};
use crate::refusal::{accepted, Refusal};
use crate::sys::running::{self, Told as Heard, BUCKETS, ENDS};
use crate::sys::{DONE, WAITS};
use std::io;
use std::os::fd::{AsFd, AsRawFd};
use std::sync::Arc;
use std::time::Duration;

/// How a wait ended.
#[derive(Clone, Copy, PartialEq, Eq, Hash, Debug)]
pub enum WaitEnd {
    /// With the lock.
    Granted,
    /// Its transaction was condemned to end a deadlock.
    Victim,
    /// Its time was over.
    TimedOut,
    /// A cancel or an abort named it, or its future was dropped.
    Cancelled,
    /// The node moved.
    Moved,
    /// The node is gone.
    Gone,
}

impl WaitEnd {
    /// All of them.
    pub const ALL: [WaitEnd; ENDS] = [
        WaitEnd::Granted,
        WaitEnd::Victim,
        WaitEnd::TimedOut,
        WaitEnd::Cancelled,
        WaitEnd::Moved,
        WaitEnd::Gone,
    ];
}

/// Waits by their length, in buckets whose bounds are powers of two of a microsecond.
#[derive(Clone, Copy, PartialEq, Eq, Debug)]
pub struct Histogram {
    buckets: [u64; BUCKETS],
    total: Duration,
}

impl Histogram {
    /// The buckets by rising length: how long a wait of the bucket is at most, and how many there are. The first has up to
    /// a microsecond. The last has no bound, and what is longer than 2^27 microseconds, some 134 seconds.
    pub fn buckets(&self) -> impl Iterator<Item = (Option<Duration>, u64)> + '_ {
        let bound = |place| (place + 1 < BUCKETS).then(|| Duration::from_micros(1u64 << place));
        let buckets = self.buckets.iter().enumerate();
        buckets.map(move |(place, &count)| (bound(place), count))
    }

    /// How many waits there are.
    pub fn count(&self) -> u64 {
        self.buckets.iter().sum()
    }

    /// How long they were together.
    pub fn total(&self) -> Duration {
        self.total
    }
}

/// The waits of a table ([`Table::waits`]).
#[derive(Clone, PartialEq, Eq, Debug)]
pub struct Waits {
    ended: [Histogram; ENDS],
    /// How many transactions wait now.
    pub waiting: u64,
    /// For how long that one does which waits longest; zero if none waits.
    pub longest: Duration,
}

impl Waits {
    /// Those that have ended in one way since the table was made.
    pub fn ended(&self, end: WaitEnd) -> &Histogram {
        &self.ended[end as usize]
    }
}

/// A node with how long it was waited for: `waited` together, or up to `error` less.
#[derive(Clone, Copy, PartialEq, Eq, Debug)]
pub struct AwaitedNode {
    /// The node, which may be gone.
    pub node: Node,
    /// How long all waits for it were together, at most.
    pub waited: Duration,
    /// By how much that may be too much.
    pub error: Duration,
    /// How many waits were counted; if there is an error there may have been more.
    pub waits: u64,
}

/// The nodes that were waited for longest ([`Table::awaited`]).
#[derive(Clone, PartialEq, Eq, Debug)]
pub struct Awaited {
    /// How long all waits for all nodes were together.
    pub waited: Duration,
    /// How long ago the count began.
    pub since: Duration,
    /// Up to eight nodes, the first the one that was waited for longest.
    pub nodes: Vec<AwaitedNode>,
}

/// A transaction that is in the way of a waiter.
#[derive(Clone, Copy, PartialEq, Eq, Debug)]
pub struct Blocker {
    /// Its name.
    pub txn: Txn,
    /// The mode in which it holds the node, [`NL`](Mode::NL) if it does not.
    pub held: Mode,
    /// The mode in which it waits for the node; `None` if it does not.
    pub wants: Option<Mode>,
    /// Whether it waits, for this node or another.
    pub waits: bool,
}

/// A wait that is long, as it was at one moment.
#[derive(Clone, PartialEq, Eq, Debug)]
pub struct LongWait {
    /// The transaction that waits.
    pub txn: Txn,
    /// What it waits for.
    pub wait: Wait,
    /// For how long.
    pub waited: Duration,
    /// Those for whom it waits, by rising slot.
    pub blockers: Vec<Blocker>,
}

/// What a table tells ([`Table::on_long_wait`]).
#[non_exhaustive]
#[derive(Clone, PartialEq, Eq, Debug)]
pub enum Told {
    /// A wait is long. It may have ended by now.
    LongWait(LongWait),
    /// A deadlock was ended by its victim, as [`last_deadlock`](crate::Manager::last_deadlock) has it.
    Deadlock(Deadlock),
}

impl Told {
    fn of(heard: Heard<'_>) -> Told {
        match heard {
            Heard::Deadlock(deadlock) => Told::Deadlock(Deadlock::of(deadlock)),
            Heard::Wait(wait) => Told::LongWait(LongWait {
                txn: wait.txn,
                wait: Wait {
                    node: wait.node,
                    mode: Mode::of(wait.mode),
                },
                waited: Duration::from_nanos(wait.nanoseconds),
                blockers: wait.blockers().iter().map(Blocker::of).collect(),
            }),
        }
    }
}

impl Blocker {
    fn of(blocker: &running::Blocker) -> Blocker {
        let wanted = Mode::of(blocker.wanted);
        Blocker {
            txn: blocker.txn,
            held: Mode::of(blocker.held),
            wants: (wanted != Mode::NL).then_some(wanted),
            waits: u64::from(blocker.doing) == WAITS,
        }
    }
}

/// # For operators
///
/// A table times each wait, from the command that leaves a lock waiting to the command that ends the wait. A lock that does
/// not wait reads no clock.
///
/// ```
/// use burlapslate::{Detect, Mode, Stop, Table, WaitEnd, SLOTS};
/// use std::time::Duration;
///
/// let table = Table::new(Detect::AtBlock, SLOTS)?;
/// let db = table.add_inner(&[])?;
/// let (mut writer, mut reader) = (table.begin()?, table.begin()?);
/// writer.lock(db, Mode::X)?;
/// let wait = Duration::from_millis(3);
/// assert_eq!(reader.lock_timeout(db, Mode::S, wait), Err(Stop::TimedOut));
///
/// let waits = table.waits();
/// let late = waits.ended(WaitEnd::TimedOut);
/// assert!(late.count() == 1 && late.total() >= wait / 2 && waits.waiting == 0);
///
/// let awaited = table.awaited()?;
/// assert!(awaited.nodes[0].node == db && awaited.nodes[0].waited == awaited.waited);
///
/// assert!(table.metrics()?.contains("\nburlapslate_wait_seconds_count{end=\"timed_out\"} 1\n"));
/// # Ok::<(), Stop>(())
/// ```
impl Table {
    /// The waits of the table, all of one moment; with parts those of each part are of its own moment. A request whose
    /// transaction is condemned at once has not waited, and is not in them.
    ///
    /// # Panics
    ///
    /// While the thread holds this table ([`with`](Table::with)), or any table if this one has parts.
    pub fn waits(&self) -> Waits {
        self.asks_all().expect(HOLDS);
        let (reply, waits) = running::waits(&self.call());
        assert_eq!(reply.status, DONE, "{HOLDS}");
        Waits {
            ended: waits.ended.map(|it| Histogram {
                buckets: it.buckets,
                total: Duration::from_nanos(it.nanoseconds),
            }),
            waiting: waits.waiting,
            longest: Duration::from_nanos(waits.longest),
        }
    }

    /// What a transaction waits for, and for how long it has.
    ///
    /// Refused with [`InUse`](Refusal::InUse), [`NoSuchTxn`](Refusal::NoSuchTxn), [`NotWaiting`](Refusal::NotWaiting).
    pub fn waited(&self, txn: Txn) -> Result<(Wait, Duration), Refusal> {
        let reply = accepted(running::bs_table_waited(&self.call(), txn))?;
        let wait = Wait {
            node: reply.node,
            mode: Mode::of(reply.mode),
        };
        Ok((wait, Duration::from_nanos(reply.count)))
    }

    /// The nodes that were waited for longest, since the table was made or the last
    /// [`restart_awaited`](Table::restart_awaited); with parts each of these is of its own moment. Waits that have not
    /// ended count up to now. The table counts 32 nodes. While waits were for at most so many, all is exact; else an
    /// `error` is at most a 32nd of the whole, and a node with more than a 32nd of the whole is counted.
    ///
    /// Refused with [`InUse`](Refusal::InUse).
    pub fn awaited(&self) -> Result<Awaited, Refusal> {
        self.awaited_so(false)
    }

    /// The same, and the count begins anew at this moment: no wait is lost between two such calls.
    ///
    /// Refused as that.
    pub fn restart_awaited(&self) -> Result<Awaited, Refusal> {
        self.awaited_so(true)
    }

    fn awaited_so(&self, reset: bool) -> Result<Awaited, Refusal> {
        self.asks_all()?;
        let (reply, awaited) = running::awaited(&self.call(), reset);
        accepted(reply)?;
        let nodes = awaited.nodes().iter().map(|it| AwaitedNode {
            node: it.node,
            waited: Duration::from_nanos(it.nanoseconds),
            error: Duration::from_nanos(it.error),
            waits: it.waits,
        });
        Ok(Awaited {
            waited: Duration::from_nanos(awaited.nanoseconds),
            since: Duration::from_nanos(awaited.since),
            nodes: nodes.collect(),
        })
    }

    /// Has long waits and deadlocks told: calls the function once for each wait that lasts so long or longer, and for each
    /// deadlock that ends with a victim. It takes the place of the function before, which is not called any more after this.
    /// The time counts in whole milliseconds, rounded up.
    ///
    /// The first such call starts a thread, which makes all calls of the function, one after the other, without the latch. A
    /// slow function delays only what it is told next. A wait is told once at most. One that ends before the thread looks is
    /// not told. If the function is so slow that more than 16 deadlocks await it, others are lost.
    ///
    /// The function may make any call of a table that does not sleep; it may cancel or abort the waiter. A table that owns
    /// its function is not to be owned by it: have it keep a [`Weak`](std::sync::Weak). A panic in it ends that call alone.
    /// If another thread drops the table, or gives another function, it awaits the function that is being called.
    ///
    /// Refused with [`InUse`](Refusal::InUse) while the thread holds any table and in a waker, with
    /// [`BadNumber`](Refusal::BadNumber) if the time is zero, with [`NoMemory`](Refusal::NoMemory) also if no thread
    /// can be started, and with [`InParts`](Refusal::InParts).
    ///
    /// ```
    /// use burlapslate::{Detect, Mode, Stop, Table, Told, SLOTS};
    /// use std::sync::mpsc;
    /// use std::thread;
    /// use std::time::Duration;
    ///
    /// let table = Table::new(Detect::AtBlock, SLOTS)?;
    /// let db = table.add_inner(&[])?;
    /// let (told, hears) = mpsc::channel();
    /// table.on_long_wait(Duration::from_millis(1), move |event| told.send(event).unwrap())?;
    /// let (mut writer, mut reader) = (table.begin()?, table.begin()?);
    /// writer.lock(db, Mode::X)?;
    /// thread::scope(|scope| {
    ///     scope.spawn(|| reader.lock(db, Mode::S).unwrap());
    ///     let Told::LongWait(long) = hears.recv().unwrap() else { panic!() };
    ///     assert_eq!((long.wait.node, long.blockers[0].txn), (db, writer.txn()));
    ///     writer.commit().unwrap();
    /// });
    /// # Ok::<(), Stop>(())
    /// ```
    pub fn on_long_wait(
        &self,
        time: Duration,
        function: impl Fn(Told) + Send + Sync + 'static,
    ) -> Result<(), Refusal> {
        let milliseconds = time.as_nanos().div_ceil(1_000_000);
        let milliseconds = u64::try_from(milliseconds).unwrap_or(u64::MAX);
        let listener: Arc<running::Listener> =
            Arc::new(move |heard: Heard<'_>| function(Told::of(heard)));
        self.shared.listens(milliseconds, Some(listener))
    }

    /// Takes the function back that was given by [`on_long_wait`](Table::on_long_wait): it is not called any more after
    /// this. If it is being called, the thread sleeps until it has returned, unless the function itself makes this call.
    ///
    /// Refused with [`InUse`](Refusal::InUse), [`InParts`](Refusal::InParts) as that.
    pub fn forget_long_waits(&self) -> Result<(), Refusal> {
        self.shared.listens(0, None)
    }

    /// All counters and the histogram of waits as text in the form of OpenMetrics, all of one moment; with parts each
    /// of these is of its own moment, and inner nodes count in each.
    ///
    /// Refused with [`InUse`](Refusal::InUse).
    pub fn metrics(&self) -> Result<String, Refusal> {
        let mut text = Vec::new();
        let written = self.written(&mut text)?;
        written.expect("a list takes all");
        Ok(String::from_utf8(text).expect("the text is ASCII"))
    }

    /// Writes the same, in parts and without the latch. If an error comes half way, what was written lacks its last line,
    /// `# EOF`, by which a reader knows a whole text. A refusal is an error of the kind
    /// [`Other`](io::ErrorKind::Other).
    pub fn write_metrics(&self, to: impl io::Write) -> io::Result<()> {
        self.written(to).map_err(io::Error::other)?
    }

    fn written(&self, mut to: impl io::Write) -> Result<io::Result<()>, Refusal> {
        let mut end = Ok(());
        let mut take = |part: &[u8]| {
            end = to.write_all(part);
            end.is_ok()
        };
        let reply = running::metrics(&self.call(), &mut take);
        match end {
            Ok(()) => accepted(reply).map(|_| Ok(())),
            Err(_) => Ok(end),
        }
    }

    /// Begins a trace: writes each command that the table accepts as a line of a script, and in comments after it its
    /// answer and the notices, with their times. `gltool` plays the script and answers the same; the trace says with which
    /// words. The table has its own copy of the file's descriptor. A thread of the table's own writes; if it is late by
    /// more than eight megabytes, lines are dropped, and a comment says how many. The trace cannot be played beyond these.
    ///
    /// Refused with [`InUse`](Refusal::InUse) also if the table has a trace, with [`TooLate`](Refusal::TooLate) if a
    /// transaction has begun in it or a record was made, with [`BadNumber`](Refusal::BadNumber) if the file cannot be written
    /// to, with [`NoMemory`](Refusal::NoMemory) also if no thread can be started, and with
    /// [`InParts`](Refusal::InParts).
    pub fn trace(&self, file: impl AsFd) -> Result<(), Refusal> {
        let file = file.as_fd().as_raw_fd();
        accepted(running::bs_table_trace(&self.call(), file)).map(drop)
    }

    /// Ends the trace, after all its lines are written. Answers how many lines were dropped. A table that is dropped ends its
    /// trace too.
    ///
    /// Refused with [`InUse`](Refusal::InUse), [`NoTrace`](Refusal::NoTrace), [`InParts`](Refusal::InParts).
    /// [`NotWritten`](Refusal::NotWritten): the trace has ended, but a write has failed.
    pub fn end_trace(&self) -> Result<u64, Refusal> {
        accepted(running::bs_table_trace_end(&self.call())).map(|reply| reply.count)
    }
}
