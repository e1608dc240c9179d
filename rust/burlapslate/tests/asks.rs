//! Waits of tasks, by a small executor: how they end, tasks that are dropped while they wait and at the moment
//! of their grant, and a crowd of tasks beside threads that sleep.

mod tasks;

use burlapslate::{Detect, Mode, Node, Refusal, Row, RowLocked, Session, Stop, Table, Txn, SLOTS};
use std::cell::Cell;
use std::future::Future;
use std::pin::{pin, Pin};
use std::sync::atomic::{AtomicBool, AtomicUsize, Ordering};
use std::sync::mpsc::{channel, Sender};
use std::sync::{Arc, Barrier, Mutex};
use std::task::{Context, Poll, RawWaker, RawWakerVTable, Wake, Waker};
use std::thread;
use std::time::{Duration, Instant};
use tasks::{block_on, poll, Bell, PATIENCE};

const RUNS: usize = 1000;
const KEY: [u64; 1] = [50];
const OTHER_KEY: [u64; 1] = [200];

/// A file with an index of two intervals, parted at 100, and a record in the first; and a file of rows with
/// one as well.
struct Store {
    table: Arc<Table>,
    root: Node,
    file: Node,
    index: Node,
    below: Node,
    above: Node,
    low: Node,
    rows: Node,
    row_places: [Node; 2],
}

impl Store {
    fn new(detect: Detect) -> Store {
        let table = Arc::new(Table::new(detect, SLOTS).unwrap());
        let root = table.add_inner(&[]).unwrap();
        let file = table.add_file(&[root]).unwrap();
        let rows = table.add_row_file(&[root]).unwrap();
        let [index, row_index] =
            [file, rows].map(|file| table.add_index(&[root], file, &[100]).unwrap());
        let interval = |index, place| table.with(|m| m.interval(index, place)).unwrap();
        let (below, above) = (interval(index, 0), interval(index, 1));
        let row_places = [interval(row_index, 0), interval(row_index, 1)];
        let mut session = table.begin().unwrap();
        session.lock_path(file, Mode::IX).unwrap();
        session.lock_path(below, Mode::IX).unwrap();
        let low = session.insert(file, &KEY).unwrap();
        session.commit().unwrap();
        Store {
            table,
            root,
            file,
            index,
            below,
            above,
            low,
            rows,
            row_places,
        }
    }

    fn begin(&self) -> Session<'_> {
        self.table.begin().unwrap()
    }

    fn writer(&self) -> Session<'_> {
        let mut session = self.begin();
        for node in [self.rows, self.row_places[0], self.row_places[1]] {
            session.lock_path(node, Mode::IX).unwrap();
        }
        session
    }

    fn bell(&self) -> (Arc<Bell>, Waker) {
        Bell::new(&self.table)
    }

    fn held(&self, txn: Txn, node: Node) -> Mode {
        self.table.with(|m| m.held(txn, node)).unwrap()
    }

    fn waits_for(&self, txn: Txn) -> Option<Node> {
        self.table.with(|m| m.waiting(txn)).map(|wait| wait.node)
    }
}

/// Two hold these, and the second asks for X on the root; so it waits, and then this is done.
fn ends(act: impl FnOnce(&Store, Session<'_>, Txn), wanted: Result<Mode, Stop>) {
    let store = Store::new(Detect::AtBlock);
    let (bell, waker) = store.bell();
    let (mut holder, mut requester) = (store.begin(), store.begin());
    let name = requester.txn();
    holder.lock_path(store.low, Mode::X).unwrap();
    requester.lock_path(store.file, Mode::IX).unwrap();
    requester.lock_path(store.below, Mode::IX).unwrap();
    let mut lock = pin!(requester.lock_async(store.low, Mode::X));
    assert_eq!(poll(&mut lock, &waker), Poll::Pending);
    assert_eq!(store.waits_for(name), Some(store.low));
    assert_eq!(bell.rung(), 0);
    act(&store, holder, name);
    assert_eq!(bell.rung(), 1);
    assert_eq!(poll(&mut lock, &waker), Poll::Ready(wanted));
    assert_eq!(bell.rung(), 1);
}

#[test]
fn each_end_wakes_the_task() {
    ends(|_, holder, _| holder.commit().unwrap(), Ok(Mode::X));
    ends(|_, holder, _| drop(holder), Ok(Mode::X));
    let cancel = |store: &Store, holder: Session<'_>, name| {
        store.table.cancel(name).unwrap();
        drop(holder);
    };
    ends(cancel, Err(Stop::Cancelled));
    ends(
        |store, mut holder, _| holder.delete(store.low).unwrap(),
        Err(Stop::Gone),
    );
    ends(
        |store, mut holder, _| {
            holder.lock_path(store.above, Mode::IX).unwrap();
            holder.rekey(store.low, store.index, 150).unwrap();
        },
        Err(Stop::Moved),
    );
    ends(
        |store, _holder, name| store.table.abort(name).unwrap(),
        Err(Stop::Refused(Refusal::NoSuchTxn)),
    );
}

#[test]
fn what_need_not_wait_is_done_at_once() {
    let store = Store::new(Detect::AtBlock);
    let (bell, waker) = store.bell();
    let mut session = store.writer();
    {
        let mut lock = pin!(session.lock_path_async(store.low, Mode::X));
        assert_eq!(poll(&mut lock, &waker), Poll::Ready(Ok(Mode::X)));
    }
    let row = Row {
        file: store.rows,
        number: 7,
    };
    {
        let mut lock = pin!(session.lock_row_async(row, &KEY, Mode::X));
        assert_eq!(
            poll(&mut lock, &waker),
            Poll::Ready(Ok(RowLocked::Own(Mode::X)))
        );
    }
    let mut other = store.begin();
    let mut lock = pin!(other.lock_async(store.low, Mode::X));
    assert!(matches!(
        poll(&mut lock, &waker),
        Poll::Ready(Err(Stop::Refused(Refusal::NeedParents(_))))
    ));
    assert_eq!(bell.rung(), 0);
}

/// A thread that is to sleep wakes the tasks first whose wait it ends: nobody else would ever end its own.
#[test]
fn a_thread_condemns_a_task() {
    let store = Store::new(Detect::AtBlock);
    let (mut older, mut younger) = (store.begin(), store.begin());
    for session in [&mut older, &mut younger] {
        session.lock(store.root, Mode::S).unwrap();
    }
    let name = younger.txn();
    thread::scope(|scope| {
        scope.spawn(|| {
            let end = block_on(younger.lock_async(store.root, Mode::X));
            assert_eq!(end, Err(Stop::Victim));
            drop(younger);
        });
        while store.waits_for(name).is_none() {
            thread::yield_now();
        }
        assert_eq!(older.lock(store.root, Mode::X), Ok(Mode::X));
    });
}

/// Who watches wakes the tasks before it rests.
#[test]
fn a_watch_condemns_a_task() {
    let store = Store::new(Detect::ByWatcher);
    let (bell, waker) = store.bell();
    let (mut older, mut younger) = (store.begin(), store.begin());
    for session in [&mut older, &mut younger] {
        session.lock(store.root, Mode::S).unwrap();
    }
    let mut granted = pin!(older.lock_async(store.root, Mode::X));
    assert_eq!(poll(&mut granted, &waker), Poll::Pending);
    let table = &store.table;
    thread::scope(|scope| {
        {
            let mut victim = pin!(younger.lock_async(store.root, Mode::X));
            assert_eq!(poll(&mut victim, &waker), Poll::Pending);
            scope.spawn(|| table.watch_over(Duration::from_secs(60)).unwrap());
            let limit = Instant::now() + PATIENCE;
            while bell.rung() == 0 && Instant::now() < limit {
                thread::yield_now();
            }
            assert_eq!(poll(&mut victim, &waker), Poll::Ready(Err(Stop::Victim)));
        }
        drop(younger);
        assert_eq!(poll(&mut granted, &waker), Poll::Ready(Ok(Mode::X)));
        table.end_watch();
    });
}

/// A path continues within the call that grants a lock on its way; its task is woken at its end.
#[test]
fn a_path_goes_on() {
    let store = Store::new(Detect::AtBlock);
    let (bell, waker) = store.bell();
    let (mut first, mut second, mut requester) = (store.begin(), store.begin(), store.begin());
    let name = requester.txn();
    first.lock_path(store.low, Mode::S).unwrap();
    second.lock_path(store.below, Mode::S).unwrap();
    let mut lock = pin!(requester.lock_path_async(store.low, Mode::X));
    assert_eq!(poll(&mut lock, &waker), Poll::Pending);
    assert_eq!(store.waits_for(name), Some(store.below));
    second.commit().unwrap();
    assert_eq!(bell.rung(), 0);
    assert_eq!(store.waits_for(name), Some(store.low));
    assert_eq!(poll(&mut lock, &waker), Poll::Pending);
    first.commit().unwrap();
    assert_eq!(bell.rung(), 1);
    assert_eq!(poll(&mut lock, &waker), Poll::Ready(Ok(Mode::X)));
    assert_eq!(store.held(name, store.below), Mode::IX);
}

#[test]
fn a_path_begins_anew() {
    let store = Store::new(Detect::AtBlock);
    let (bell, waker) = store.bell();
    let (mut first, mut requester) = (store.begin(), store.begin());
    let name = requester.txn();
    first.lock_path(store.low, Mode::X).unwrap();
    first.lock_path(store.above, Mode::IX).unwrap();
    let mut lock = pin!(requester.lock_path_async(store.low, Mode::X));
    assert_eq!(poll(&mut lock, &waker), Poll::Pending);
    first.rekey(store.low, store.index, 150).unwrap();
    assert_eq!(bell.rung(), 0);
    assert_eq!(store.held(name, store.above), Mode::IX);
    assert_eq!(poll(&mut lock, &waker), Poll::Pending);
    first.commit().unwrap();
    assert_eq!(bell.rung(), 1);
    assert_eq!(poll(&mut lock, &waker), Poll::Ready(Ok(Mode::X)));
}

/// A path whose lock on the way was granted, and that was not polled since, is cancelled at its next wait; if it has
/// none, it is at its end, and there is nothing to cancel.
#[test]
fn a_path_is_cancelled_on_its_way() {
    for has_next in [false, true] {
        let store = Store::new(Detect::AtBlock);
        let (_bell, waker) = store.bell();
        let (mut first, mut reader, mut requester) = (store.begin(), store.begin(), store.begin());
        let name = requester.txn();
        first.lock_path(store.below, Mode::S).unwrap();
        if has_next {
            reader.lock_path(store.low, Mode::S).unwrap();
        }
        {
            let mut lock = pin!(requester.lock_path_async(store.low, Mode::X));
            assert_eq!(poll(&mut lock, &waker), Poll::Pending);
            first.commit().unwrap();
            let (cancelled, end) = if has_next {
                (Ok(()), Err(Stop::Cancelled))
            } else {
                (Err(Refusal::NotWaiting), Ok(Mode::X))
            };
            assert_eq!(store.table.cancel(name), cancelled);
            assert_eq!(poll(&mut lock, &waker), Poll::Ready(end));
        }
        assert_eq!(store.table.cancel(name), Err(Refusal::NotWaiting));
        drop(reader);
        assert_eq!(requester.lock_path(store.low, Mode::X), Ok(Mode::X));
    }
}

/// The locks of a path that is dropped after its last grant stay.
#[test]
fn a_path_is_dropped_on_its_way() {
    let store = Store::new(Detect::AtBlock);
    let (_bell, waker) = store.bell();
    let (mut first, mut requester) = (store.begin(), store.begin());
    let name = requester.txn();
    first.lock_path(store.below, Mode::S).unwrap();
    {
        let mut lock = pin!(requester.lock_path_async(store.low, Mode::X));
        assert_eq!(poll(&mut lock, &waker), Poll::Pending);
        first.commit().unwrap();
    }
    assert_eq!(store.table.cancel(name), Err(Refusal::NotWaiting));
    assert_eq!(store.held(name, store.below), Mode::IX);
    assert_eq!(store.held(name, store.low), Mode::X);
    requester.commit().unwrap();
}

/// What a waker does whenever it, or a copy of it, is dropped.
struct OnDrop(Box<dyn Fn() + Send + Sync>);

/// A waker that wakes nobody. What it does outlives it.
fn waker_with(act: &OnDrop) -> Waker {
    static TABLE: RawWakerVTable = RawWakerVTable::new(
        |act| RawWaker::new(act, &TABLE),
        |act| unsafe { (*act.cast::<OnDrop>()).0() },
        |_| (),
        |act| unsafe { (*act.cast::<OnDrop>()).0() },
    );
    unsafe { Waker::from_raw(RawWaker::new(std::ptr::from_ref(act).cast(), &TABLE)) }
}

/// A cancel between two locks of a path of a task, here as a waker is dropped, is not lost: there is no such moment, or
/// it reaches the path.
#[test]
fn a_path_is_cancelled_between_two_locks() {
    let store = Store::new(Detect::AtBlock);
    let (_bell, waker) = store.bell();
    let (mut first, mut second, mut requester) = (store.begin(), store.begin(), store.begin());
    let (name, answer) = (requester.txn(), Arc::new(Mutex::new(None)));
    let (table, answered) = (Arc::clone(&store.table), Arc::clone(&answer));
    let is_armed = Arc::new(AtomicBool::new(false));
    let armed = Arc::clone(&is_armed);
    let act = OnDrop(Box::new(move || {
        if armed.swap(false, Ordering::SeqCst) {
            *answered.lock().unwrap() = Some(table.cancel(name));
        }
    }));
    first.lock_path(store.low, Mode::S).unwrap();
    second.lock_path(store.below, Mode::S).unwrap();
    {
        let mut lock = pin!(requester.lock_path_async(store.low, Mode::X));
        let own = waker_with(&act);
        assert_eq!(poll(&mut lock, &own), Poll::Pending);
        assert_eq!(store.waits_for(name), Some(store.below));
        second.commit().unwrap();
        is_armed.store(true, Ordering::SeqCst);
        let polled = poll(&mut lock, &own);
        let cancelled = answer.lock().unwrap().take();
        is_armed.store(false, Ordering::SeqCst);
        assert_eq!(
            cancelled.unwrap_or_else(|| store.table.cancel(name)),
            Ok(())
        );
        let end = if polled.is_pending() {
            poll(&mut lock, &waker)
        } else {
            polled
        };
        assert_eq!(end, Poll::Ready(Err(Stop::Cancelled)));
    }
    assert_eq!(store.waits_for(name), None);
    assert_eq!(store.held(name, store.low), Mode::NL);
    assert_eq!(store.table.cancel(name), Err(Refusal::NotWaiting));
}

/// The future of a path is leaked while it waits on its way: the path continues to its end, and there is nothing to cancel
/// then. The next wait is one like any other.
#[test]
fn a_path_is_leaked_on_its_way() {
    let store = Store::new(Detect::AtBlock);
    let (_bell, waker) = store.bell();
    let (mut first, mut second, mut requester) = (store.begin(), store.begin(), store.begin());
    let name = requester.txn();
    first.lock_path(store.below, Mode::S).unwrap();
    second.lock_path(store.above, Mode::S).unwrap();
    let mut path = Box::pin(requester.lock_path_async(store.low, Mode::X));
    assert_eq!(poll(&mut path.as_mut(), &waker), Poll::Pending);
    std::mem::forget(path);
    first.commit().unwrap();
    assert_eq!(store.held(name, store.low), Mode::X);
    assert_eq!(store.table.cancel(name), Err(Refusal::NotWaiting));
    {
        let mut lock = pin!(requester.lock_async(store.above, Mode::IX));
        assert_eq!(poll(&mut lock, &waker), Poll::Pending);
        assert_eq!(store.waits_for(name), Some(store.above));
        second.commit().unwrap();
        assert_eq!(store.table.cancel(name), Err(Refusal::NotWaiting));
        assert_eq!(poll(&mut lock, &waker), Poll::Ready(Ok(Mode::IX)));
    }
    assert_eq!(store.table.cancel(name), Err(Refusal::NotWaiting));
    requester.commit().unwrap();
}

#[test]
fn a_row_is_waited_for() {
    let store = Store::new(Detect::AtBlock);
    let (bell, waker) = store.bell();
    let row = Row {
        file: store.rows,
        number: 7,
    };
    let (mut first, mut second) = (store.writer(), store.writer());
    assert_eq!(
        first.lock_row(row, &KEY, Mode::X),
        Ok(RowLocked::Own(Mode::X))
    );
    {
        let mut lock = pin!(second.lock_row_async(row, &KEY, Mode::X));
        assert_eq!(poll(&mut lock, &waker), Poll::Pending);
        first.commit().unwrap();
        let own = Ok(RowLocked::Own(Mode::X));
        assert_eq!(poll(&mut lock, &waker), Poll::Ready(own));
    }
    let mut third = store.writer();
    let mut lock = pin!(third.lock_row_async(row, &OTHER_KEY, Mode::X));
    assert_eq!(poll(&mut lock, &waker), Poll::Pending);
    second.unlock_row(row).unwrap();
    let other = Ok(RowLocked::OtherKeys(Mode::X));
    assert_eq!(poll(&mut lock, &waker), Poll::Ready(other));
    assert_eq!(bell.rung(), 2);
}

/// A future that is dropped while it waits cancels the wait, and the waiter after it is granted.
#[test]
fn a_future_is_dropped_while_it_waits() {
    let store = Store::new(Detect::AtBlock);
    let (bell, waker) = store.bell();
    let (mut holder, mut requester, mut behind) = (store.begin(), store.begin(), store.begin());
    let name = requester.txn();
    holder.lock(store.root, Mode::S).unwrap();
    let mut late = pin!(behind.lock_async(store.root, Mode::S));
    {
        let mut lock = pin!(requester.lock_async(store.root, Mode::X));
        assert_eq!(poll(&mut lock, &waker), Poll::Pending);
        assert_eq!(poll(&mut late, &waker), Poll::Pending);
    }
    assert_eq!(store.waits_for(name), None);
    assert_eq!(bell.rung(), 1);
    assert_eq!(poll(&mut late, &waker), Poll::Ready(Ok(Mode::S)));
    assert_eq!(requester.lock(store.root, Mode::S), Ok(Mode::S));
    holder.commit().unwrap();
    requester.commit().unwrap();
}

/// Dropped at the moment of its grant: the lock is the transaction's.
#[test]
fn a_future_is_dropped_at_its_grant() {
    let store = Store::new(Detect::AtBlock);
    let (bell, waker) = store.bell();
    let (mut holder, mut requester) = (store.begin(), store.begin());
    let name = requester.txn();
    holder.lock(store.root, Mode::X).unwrap();
    {
        let mut lock = pin!(requester.lock_async(store.root, Mode::S));
        assert_eq!(poll(&mut lock, &waker), Poll::Pending);
        holder.commit().unwrap();
    }
    assert_eq!(bell.rung(), 1);
    assert_eq!(store.held(name, store.root), Mode::S);
    assert_eq!(requester.lock(store.root, Mode::S), Ok(Mode::S));
    drop(requester);
    assert_eq!(store.table.with(|m| m.group(store.root)), Ok(Mode::NL));
}

/// One that was never polled has asked for nothing.
#[test]
fn a_future_is_dropped_before_it_asks() {
    let store = Store::new(Detect::AtBlock);
    let mut requester = store.begin();
    drop(requester.lock_async(store.root, Mode::X));
    assert_eq!(store.held(requester.txn(), store.root), Mode::NL);
}

/// One that is leaked waits on, and its session ends that.
#[test]
fn a_future_is_leaked() {
    let store = Store::new(Detect::AtBlock);
    let (bell, waker) = store.bell();
    let (mut holder, mut requester) = (store.begin(), store.begin());
    holder.lock(store.root, Mode::X).unwrap();
    let mut lock = Box::pin(requester.lock_async(store.root, Mode::S));
    assert_eq!(poll(&mut lock.as_mut(), &waker), Poll::Pending);
    std::mem::forget(lock);
    assert_eq!(
        requester.lock(store.root, Mode::S),
        Err(Stop::Refused(Refusal::TxnWaiting))
    );
    drop(requester);
    assert_eq!(bell.rung(), 1);
    holder.commit().unwrap();
    assert_eq!(store.table.with(|m| m.group(store.root)), Ok(Mode::NL));
}

/// The task that polled last is woken, and no other.
#[test]
fn the_last_waker_is_woken() {
    let store = Store::new(Detect::AtBlock);
    let (first_bell, first_waker) = store.bell();
    let (bell, waker) = store.bell();
    let (mut holder, mut requester) = (store.begin(), store.begin());
    holder.lock(store.root, Mode::X).unwrap();
    let mut lock = pin!(requester.lock_async(store.root, Mode::S));
    assert_eq!(poll(&mut lock, &first_waker), Poll::Pending);
    assert_eq!(poll(&mut lock, &first_waker), Poll::Pending);
    let first = Arc::downgrade(&first_bell);
    assert_eq!(first_bell.rung(), 0);
    drop((first_bell, first_waker)); // The table has the last one, which calls it where it goes.
    assert!(first.upgrade().is_some());
    assert_eq!(poll(&mut lock, &waker), Poll::Pending);
    assert!(first.upgrade().is_none());
    holder.commit().unwrap();
    assert_eq!(bell.rung(), 1);
    assert_eq!(poll(&mut lock, &waker), Poll::Ready(Ok(Mode::S)));
    drop(waker);
    assert_eq!(Arc::strong_count(&bell), 1);
}

#[test]
fn a_deadline_comes() {
    let store = Store::new(Detect::AtBlock);
    let (bell, waker) = store.bell();
    let (mut holder, mut requester, mut patient) = (store.begin(), store.begin(), store.begin());
    let late = Instant::now() + Duration::from_secs(60);
    holder.lock(store.root, Mode::X).unwrap();
    patient.set_deadline(Some(late));
    let mut other = pin!(patient.lock_async(store.root, Mode::S));
    assert_eq!(poll(&mut other, &waker), Poll::Pending);
    let soon = Instant::now() + Duration::from_millis(2);
    requester.set_deadline(Some(soon));
    {
        let mut lock = pin!(requester.lock_path_async(store.file, Mode::X));
        if poll(&mut lock, &waker) == Poll::Pending {
            thread::sleep(Duration::from_millis(3));
            assert_eq!(bell.rung(), 0);
            assert_eq!(store.table.expire(), Some(late));
            assert_eq!(bell.rung(), 1);
            assert_eq!(poll(&mut lock, &waker), Poll::Ready(Err(Stop::TimedOut)));
        }
    }
    assert_eq!(store.waits_for(requester.txn()), None);
    holder.commit().unwrap();
    assert_eq!(poll(&mut other, &waker), Poll::Ready(Ok(Mode::S)));
    assert_eq!(store.table.expire(), None);
}

fn is_send<T: Send>(value: T) -> T {
    value
}

/// Futures go from thread to thread, as runtimes want.
#[test]
fn futures_are_sent() {
    let store = Store::new(Detect::AtBlock);
    let mut session = store.table.begin_shared().unwrap();
    let row = Row {
        file: store.rows,
        number: 1,
    };
    assert_eq!(
        block_on(is_send(session.lock_async(store.root, Mode::IX))),
        Ok(Mode::IX)
    );
    assert_eq!(
        block_on(is_send(session.lock_path_async(store.rows, Mode::X))),
        Ok(Mode::X)
    );
    assert_eq!(
        block_on(is_send(session.lock_row_async(row, &KEY, Mode::S))),
        Ok(RowLocked::Own(Mode::S))
    );
}

/// A future is dropped while another thread commits: it waited, or holds the lock.
#[test]
fn drops_and_grants() {
    let store = Store::new(Detect::AtBlock);
    let (bell, waker) = store.bell();
    let gate = Barrier::new(2);
    let name = Mutex::new(None);
    let table = &store.table;
    thread::scope(|scope| {
        scope.spawn(|| {
            for _ in 0..RUNS {
                gate.wait();
                let holder = name.lock().unwrap().take().unwrap();
                gate.wait();
                table.commit(holder).unwrap();
                gate.wait();
            }
        });
        for run in 0..RUNS {
            let mut holder = store.begin();
            let mut requester = store.begin();
            let asking = requester.txn();
            holder.lock(store.root, Mode::X).unwrap();
            let before = bell.rung();
            let mut lock = Box::pin(requester.lock_path_async(store.root, Mode::X));
            assert_eq!(poll(&mut lock.as_mut(), &waker), Poll::Pending);
            *name.lock().unwrap() = Some(holder.leave());
            gate.wait();
            gate.wait();
            for _ in 0..run % 16 {
                std::hint::spin_loop();
            }
            drop(lock);
            gate.wait();
            let held = store.held(asking, store.root);
            assert_eq!(store.waits_for(asking), None);
            assert!(held == Mode::X || held == Mode::NL);
            assert!(bell.rung() <= before + 1);
            assert_eq!(requester.lock(store.root, Mode::X), Ok(Mode::X));
            requester.commit().unwrap();
        }
    });
    drop(waker);
    assert_eq!(Arc::strong_count(&bell), 1);
}

/// One of the tasks of an executor.
struct Job {
    future: Mutex<Option<Pin<Box<dyn Future<Output = ()> + Send>>>>,
    ready: Mutex<Sender<Arc<Job>>>,
}

impl Wake for Job {
    fn wake(self: Arc<Job>) {
        let again = Arc::clone(&self);
        let _ = self.ready.lock().unwrap().send(again); // Nobody hears it where all is done.
    }
}

/// Runs these to their ends, on this thread.
fn run(futures: Vec<Pin<Box<dyn Future<Output = ()> + Send>>>) {
    let (ready, jobs) = channel();
    let mut left = futures.len();
    for future in futures {
        let job = Arc::new(Job {
            future: Mutex::new(Some(future)),
            ready: Mutex::new(ready.clone()),
        });
        ready.send(job).unwrap();
    }
    while left > 0 {
        let job = jobs.recv_timeout(PATIENCE).expect("it hangs");
        let waker = Waker::from(Arc::clone(&job));
        let mut future = job.future.lock().unwrap();
        let is_done = future.as_mut().is_some_and(|future| {
            let polled = future.as_mut().poll(&mut Context::from_waker(&waker));
            polled.is_ready()
        });
        if is_done {
            *future = None;
            left -= 1;
        }
    }
}

/// Polls a future once, and drops it where it waits then.
struct Once<F>(F);

impl<F: Future + Unpin> Future for Once<F> {
    type Output = Option<F::Output>;

    fn poll(mut self: Pin<&mut Self>, context: &mut Context<'_>) -> Poll<Self::Output> {
        match Pin::new(&mut self.0).poll(context) {
            Poll::Ready(end) => Poll::Ready(Some(end)),
            Poll::Pending => Poll::Ready(None),
        }
    }
}

/// What all add to, each by a lock of its own file.
struct Accounts {
    files: Vec<Node>,
    sums: Vec<AtomicUsize>,
}

impl Accounts {
    /// Adds by two steps, so that an addition without the lock is lost.
    fn add(&self, place: usize) {
        let sum = self.sums[place].load(Ordering::Relaxed);
        thread::yield_now();
        self.sums[place].store(sum + 1, Ordering::Relaxed);
    }
}

/// Locks two accounts, adds to both and commits. Now and then it lets a lock go that waits, and asks again.
async fn adds(table: Arc<Table>, accounts: Arc<Accounts>, places: [usize; 2]) {
    loop {
        let mut session = table.begin_shared().unwrap();
        let mut end = Ok(Mode::X);
        for place in places {
            let file = accounts.files[place];
            if place % 3 == 0 {
                let _ = Once(Box::pin(session.lock_path_async(file, Mode::X))).await;
            }
            end = session.lock_path_async(file, Mode::X).await;
            if end.is_err() {
                break;
            }
        }
        match end {
            Ok(_) => {
                for place in places {
                    accounts.add(place);
                }
                session.commit().unwrap();
                return;
            }
            Err(Stop::Victim | Stop::Cancelled) | Err(Stop::Refused(Refusal::TxnCondemned)) => {}
            Err(stop) => panic!("{stop}"),
        }
    }
}

fn crowd(detect: Detect, seed: usize) {
    const TASKS: usize = 8;
    let table = Arc::new(Table::new(detect, SLOTS).unwrap());
    let root = table.add_inner(&[]).unwrap();
    let files = (0..5).map(|_| table.add_file(&[root]).unwrap()).collect();
    let accounts = Arc::new(Accounts {
        files,
        sums: (0..5).map(|_| AtomicUsize::new(0)).collect(),
    });
    let places = |task: usize| {
        let first = (task + seed) % 5;
        [first, (first + 1 + (task * 7 + seed) % 4) % 5]
    };
    let adder = |task| adds(Arc::clone(&table), Arc::clone(&accounts), places(task));
    thread::scope(|scope| {
        let watch = (detect == Detect::ByWatcher)
            .then(|| scope.spawn(|| table.watch_over(Duration::ZERO).unwrap()));
        let mut workers = Vec::new();
        for half in 0..2 {
            let tasks = (0..TASKS).map(|task| Box::pin(adder(half * TASKS + task)) as Pin<Box<_>>);
            let tasks = tasks.collect();
            workers.push(scope.spawn(move || run(tasks)));
        }
        let alone = adder(2 * TASKS);
        workers.push(scope.spawn(move || block_on(alone)));
        for worker in workers {
            worker.join().unwrap();
        }
        table.end_watch();
        drop(watch);
    });
    let sum: usize = accounts
        .sums
        .iter()
        .map(|sum| sum.load(Ordering::Relaxed))
        .sum();
    assert_eq!(sum, 2 * (2 * TASKS + 1));
    assert_eq!(table.with(|m| m.transactions().count()), 0);
}

#[test]
fn a_crowd_of_tasks() {
    for seed in 0..RUNS {
        let is_watched = seed % 10 == 0;
        let detect = if is_watched {
            Detect::ByWatcher
        } else {
            Detect::AtBlock
        };
        crowd(detect, seed);
    }
}

thread_local! {
    static DEPTH: Cell<usize> = const { Cell::new(0) };
}

/// A waker that polls the future itself, as small executors do: so the table is called within a wake.
struct Inline {
    future: Mutex<Option<Pin<Box<dyn Future<Output = ()> + Send>>>>,
    done: AtomicUsize,
}

impl Wake for Inline {
    fn wake(self: Arc<Inline>) {
        DEPTH.set(DEPTH.get() + 1);
        let waker = Waker::from(Arc::clone(&self));
        let mut future = self.future.lock().unwrap();
        let polled = future.as_mut().map(|future| {
            let mut context = Context::from_waker(&waker);
            future.as_mut().poll(&mut context)
        });
        if polled.is_some_and(|polled| polled.is_ready()) {
            *future = None;
            self.done.fetch_add(1, Ordering::SeqCst);
        }
    }
}

#[test]
fn a_waker_polls_at_once() {
    let store = Store::new(Detect::AtBlock);
    let mut holder = store.begin();
    holder.lock(store.root, Mode::X).unwrap();
    let (table, root) = (Arc::clone(&store.table), store.root);
    let tasks: Vec<_> = (0..20)
        .map(|_| {
            let mut session = table.begin_shared().unwrap();
            let future = Box::pin(async move {
                assert_eq!(session.lock_async(root, Mode::X).await, Ok(Mode::X));
                session.commit().unwrap();
            });
            let task = Arc::new(Inline {
                future: Mutex::new(Some(future)),
                done: AtomicUsize::new(0),
            });
            Arc::clone(&task).wake();
            task
        })
        .collect();
    holder.commit().unwrap();
    assert!(tasks
        .iter()
        .all(|task| task.done.load(Ordering::SeqCst) == 1));
    assert_eq!(DEPTH.get(), 40);
}
