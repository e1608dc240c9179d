//! A table with a store, and those that wait in it: threads that sleep, and tasks whose wakers count, act or poll.

#![allow(dead_code)] // Each test program uses some of it.

#[path = "../tasks/mod.rs"]
pub mod tasks;

use burlapslate::{Detect, Mode, Node, Row, RowLocked, Session, Stop, Table, Txn, SLOTS};
use std::future::Future;
use std::pin::{pin, Pin};
use std::sync::atomic::{AtomicBool, AtomicUsize, Ordering};
use std::sync::{Arc, Mutex};
use std::task::{Context, Poll, Wake, Waker};
use std::thread;
use std::time::{Duration, Instant};
pub use tasks::PATIENCE;

pub const LOW_KEY: [u64; 1] = [50];
pub const HIGH_KEY: [u64; 1] = [200];

pub type Task = Pin<Box<dyn Future<Output = ()> + Send>>;
pub type Ended = Result<RowLocked, Stop>;

/// A waker that counts.
#[derive(Default)]
pub struct Bell(AtomicUsize);

impl Wake for Bell {
    fn wake(self: Arc<Bell>) {
        self.0.fetch_add(1, Ordering::SeqCst);
    }
}

impl Bell {
    pub fn rung(&self) -> usize {
        self.0.load(Ordering::SeqCst)
    }
}

/// A task that its waker polls at once, in the thread that wakes; or after a poll within which it was woken.
pub struct Inline {
    pub task: Mutex<Option<Task>>,
    pub is_woken: AtomicBool,
}

impl Wake for Inline {
    fn wake(self: Arc<Inline>) {
        self.is_woken.store(true, Ordering::SeqCst);
        self.poll();
    }
}

impl Inline {
    pub fn start(task: impl Future<Output = ()> + Send + 'static) -> Arc<Inline> {
        let inline = Arc::new(Inline {
            task: Mutex::new(Some(Box::pin(task))),
            is_woken: AtomicBool::new(true),
        });
        inline.poll();
        inline
    }

    pub fn poll(self: &Arc<Inline>) {
        let Some(mut task) = self.task.lock().unwrap().take() else {
            return; // It is being polled, or done.
        };
        let waker = Waker::from(Arc::clone(self));
        let mut context = Context::from_waker(&waker);
        while self.is_woken.swap(false, Ordering::SeqCst) {
            if task.as_mut().poll(&mut context).is_ready() {
                return;
            }
        }
        *self.task.lock().unwrap() = Some(task);
    }
}

/// A waker that does this when it is woken.
pub struct Does(Mutex<Option<Box<dyn FnOnce() + Send>>>);

impl Does {
    pub fn waker(act: impl FnOnce() + Send + 'static) -> Waker {
        Waker::from(Arc::new(Does(Mutex::new(Some(Box::new(act))))))
    }
}

impl Wake for Does {
    fn wake(self: Arc<Does>) {
        let act = self.0.lock().unwrap().take();
        act.into_iter().for_each(|act| act());
    }
}

pub fn poll_by<F: Future>(future: &mut Pin<&mut F>, waker: Waker) -> Poll<F::Output> {
    tasks::poll(future, &waker)
}

/// The end of a future whose wait ends within its first poll: that poll is ready, or its waker was woken by the time
/// that it returns.
pub fn ends_at_once<T>(future: impl Future<Output = T>) -> T {
    let bell = Arc::new(Bell::default());
    let mut future = pin!(future);
    if let Poll::Ready(end) = poll_by(&mut future, Waker::from(Arc::clone(&bell))) {
        return end;
    }
    assert_eq!(bell.rung(), 1, "it waits on");
    match poll_by(&mut future, Waker::from(Arc::clone(&bell))) {
        Poll::Ready(end) => end,
        Poll::Pending => panic!("it waits on, though it was woken"),
    }
}

/// The end of a future that is ready as soon as it is polled: all that ended its wait was done in its own hold of the
/// latch.
pub fn is_ready<T>(future: impl Future<Output = T>) -> T {
    match poll_by(&mut pin!(future), bell()) {
        Poll::Ready(end) => end,
        Poll::Pending => panic!("it waits"),
    }
}

/// The calls that may wait, of threads and of tasks.
#[derive(Clone, Copy, PartialEq, Debug)]
pub enum Call {
    Lock,
    Instant,
    Path,
    PathInstant,
    Row,
    RowPath,
}

pub use Call::{
    Instant as ForAnInstant, Lock, Path, PathInstant, Row as OfRow, RowPath as OfRowPath,
};

impl Call {
    pub fn is_of_row(self) -> bool {
        matches!(self, OfRow | OfRowPath)
    }
}

/// What the caller asks for, and how.
#[derive(Clone, Copy, Debug)]
pub struct Ask {
    pub call: Call,
    pub node: Node,
    pub mode: Mode,
    pub row: Row,
    pub keys: [u64; 1],
    /// By a future.
    pub is_task: bool,
}

/// No task locks a path for an instant.
pub fn is_none(call: Call, is_task: bool) -> bool {
    is_task && call == PathInstant
}

impl Ask {
    pub fn is_instant(self) -> bool {
        matches!(self.call, ForAnInstant | PathInstant)
    }

    /// Makes the call, with this deadline of the session.
    pub fn make(self, session: &mut Session<'_>, until: Option<Instant>) -> Ended {
        session.set_deadline(until.or(Instant::now().checked_add(PATIENCE)));
        if self.is_task {
            ends_at_once(self.future(session))
        } else {
            self.sleep(session)
        }
    }

    /// The same of a call that no waker helps.
    pub fn make_alone(self, session: &mut Session<'_>, until: Option<Instant>) -> Ended {
        session.set_deadline(until.or(Instant::now().checked_add(PATIENCE)));
        if self.is_task {
            is_ready(self.future(session))
        } else {
            self.sleep(session)
        }
    }

    pub fn sleep(self, session: &mut Session<'_>) -> Ended {
        let Ask {
            node, mode, row, ..
        } = self;
        match self.call {
            Lock => session.lock(node, mode).map(RowLocked::Own),
            ForAnInstant => session.lock_instant(node, mode).map(RowLocked::Own),
            Path => session.lock_path(node, mode).map(RowLocked::Own),
            PathInstant => session.lock_path_instant(node, mode).map(RowLocked::Own),
            OfRow => session.lock_row(row, &self.keys, mode),
            OfRowPath => session.lock_row_path(row, &self.keys, mode),
        }
    }

    pub async fn future(self, session: &mut Session<'_>) -> Ended {
        let Ask {
            node, mode, row, ..
        } = self;
        match self.call {
            Lock => session.lock_async(node, mode).await.map(RowLocked::Own),
            ForAnInstant => session
                .lock_instant_async(node, mode)
                .await
                .map(RowLocked::Own),
            Path => session
                .lock_path_async(node, mode)
                .await
                .map(RowLocked::Own),
            PathInstant => unreachable!("no task locks a path for an instant"),
            OfRow => session.lock_row_async(row, &self.keys, mode).await,
            OfRowPath => session.lock_row_path_async(row, &self.keys, mode).await,
        }
    }
}

pub const CALLS: [(Call, bool); 11] = [
    (Lock, false),
    (ForAnInstant, false),
    (Path, false),
    (PathInstant, false),
    (OfRow, false),
    (OfRowPath, false),
    (Lock, true),
    (ForAnInstant, true),
    (Path, true),
    (OfRow, true),
    (OfRowPath, true),
];

/// A file of records and a file of rows under a root, each with an index of two intervals, parted at 100; and a record
/// below.
#[derive(Clone)]
pub struct Store {
    pub table: Arc<Table>,
    pub root: Node,
    pub file: Node,
    pub index: Node,
    pub below: Node,
    pub above: Node,
    pub low: Node,
    pub row: Row,
    pub row_index: Node,
    pub rows_below: Node,
    pub rows_above: Node,
}

impl Store {
    pub fn new(detect: Detect) -> Store {
        let table = Arc::new(Table::new(detect, SLOTS).unwrap());
        let root = table.add_inner(&[]).unwrap();
        let file = table.add_file(&[root]).unwrap();
        let rows = table.add_row_file(&[root]).unwrap();
        let [index, row_index] =
            [file, rows].map(|file| table.add_index(&[root], file, &[100]).unwrap());
        let interval = |index, place| table.with(|m| m.interval(index, place)).unwrap();
        let mut session = table.begin().unwrap();
        for node in [file, interval(index, 0)] {
            session.lock_path(node, Mode::IX).unwrap();
        }
        let low = session.insert(file, &LOW_KEY).unwrap();
        session.commit().unwrap();
        Store {
            root,
            file,
            index,
            below: interval(index, 0),
            above: interval(index, 1),
            low,
            row: Row {
                file: rows,
                number: 7,
            },
            row_index,
            rows_below: interval(row_index, 0),
            rows_above: interval(row_index, 1),
            table,
        }
    }

    pub fn begin(&self) -> Session<'static> {
        self.table.begin_shared().unwrap()
    }

    /// A session that may write in the lower intervals, and in the upper ones too if it is wide.
    pub fn writer(&self, is_wide: bool) -> Session<'static> {
        let mut session = self.begin();
        let lower = [self.file, self.below, self.row.file, self.rows_below];
        let upper = [self.above, self.rows_above];
        for node in lower
            .into_iter()
            .chain(upper.into_iter().filter(|_| is_wide))
        {
            assert_eq!(session.lock_path(node, Mode::IX), Ok(Mode::IX));
        }
        session
    }

    pub fn add_root(&self) -> Node {
        self.table.add_inner(&[]).unwrap()
    }

    pub fn held(&self, txn: Txn, node: Node) -> Mode {
        self.table.with(|m| m.held(txn, node)).unwrap()
    }

    pub fn waits_for(&self, txn: Txn) -> Option<Node> {
        self.table.with(|m| m.waiting(txn)).map(|wait| wait.node)
    }

    pub fn lives(&self, txn: Txn) -> bool {
        self.table.with(|m| m.held(txn, self.file)).is_ok()
    }

    pub fn row_node(&self) -> Node {
        self.table.row_node(self.row).unwrap()
    }

    /// A lock that is waited for by a task, which this waker wakes.
    pub fn waits(
        &self,
        mut session: Session<'static>,
        node: Node,
        mode: Mode,
        waker: Waker,
    ) -> Waiter {
        let name = session.txn();
        let end = Arc::new(Mutex::new(None));
        let told = Arc::clone(&end);
        let mut task: Task = Box::pin(async move {
            let came = session.lock_async(node, mode).await;
            *told.lock().unwrap() = Some(came);
            session.leave();
        });
        assert!(task
            .as_mut()
            .poll(&mut Context::from_waker(&waker))
            .is_pending());
        Waiter {
            name,
            end,
            task: Some(task),
        }
    }
}

/// A transaction that waits by a task.
pub struct Waiter {
    pub name: Txn,
    pub end: Arc<Mutex<Option<Result<Mode, Stop>>>>,
    pub task: Option<Task>,
}

impl Waiter {
    /// How its wait has ended.
    pub fn ended(&mut self) -> Result<Mode, Stop> {
        let bell = Waker::from(Arc::new(Bell::default()));
        let mut task = self.task.take().expect("it is asked once");
        assert!(task
            .as_mut()
            .poll(&mut Context::from_waker(&bell))
            .is_ready());
        let end = *self.end.lock().unwrap();
        end.unwrap()
    }
}

/// Looks until this is so.
pub fn await_that(is_so: impl Fn() -> bool) {
    let limit = Instant::now() + PATIENCE;
    while !is_so() {
        assert!(Instant::now() < limit, "it does not come");
        thread::sleep(Duration::from_micros(50));
    }
}

pub fn bell() -> Waker {
    Waker::from(Arc::new(Bell::default()))
}
