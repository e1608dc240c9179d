//! Stories of waits, as those of `tests/c/waits.c`: their times, the path of a slot, slots from 64 on, wakers that end
//! other waits, locks for an instant, rows that are asked for again, and deadlocks that one watches for.

mod waiters;

use burlapslate::{
    Detect, Mode, Node, Refusal, Row, RowLocked, Session, Stop, Txn, MOST_WATCHERS, SLOTS,
};
use std::pin::{pin, Pin};
use std::sync::{Arc, Mutex};
use std::task::{Context, Poll, Waker};
use std::thread;
use std::time::{Duration, Instant};
use waiters::tasks::block_on;
use waiters::*;

// ------------------------------------------------------------------------------------------------------------------
// The time of a call, and the deadline of its session.

type Timed = fn(&mut Session<'static>, &Store, Instant) -> Result<RowLocked, Stop>;

fn left(until: Instant) -> Duration {
    until.saturating_duration_since(Instant::now())
}

/// The calls that sleep no longer than to a time.
const TIMED: [Timed; 8] = [
    |session, s, until| {
        let end = session.lock_until(s.low, Mode::X, until);
        end.map(RowLocked::Own)
    },
    |session, s, until| {
        let end = session.lock_timeout(s.low, Mode::X, left(until));
        end.map(RowLocked::Own)
    },
    |session, s, until| {
        let end = session.lock_path_until(s.low, Mode::X, until);
        end.map(RowLocked::Own)
    },
    |session, s, until| {
        let end = session.lock_path_timeout(s.low, Mode::X, left(until));
        end.map(RowLocked::Own)
    },
    |session, s, until| session.lock_row_until(s.row, &LOW_KEY, Mode::X, until),
    |session, s, until| session.lock_row_timeout(s.row, &LOW_KEY, Mode::X, left(until)),
    |session, s, until| session.lock_row_path_until(s.row, &LOW_KEY, Mode::X, until),
    |session, s, until| session.lock_row_path_timeout(s.row, &LOW_KEY, Mode::X, left(until)),
];

/// A session that holds the record and the row in X.
fn holder(store: &Store) -> Session<'static> {
    let mut holder = store.writer(true);
    holder.lock(store.low, Mode::X).unwrap();
    let locked = holder.lock_row(store.row, &LOW_KEY, Mode::X);
    assert_eq!(locked, Ok(RowLocked::Own(Mode::X)));
    holder
}

/// A sleep ends at the earlier of the two, whichever of them is the call's.
#[test]
fn a_sleep_ends_at_the_earlier_time() {
    let store = Store::new(Detect::AtBlock);
    let _holder = holder(&store);
    let mut session = store.writer(true);
    for timed in TIMED {
        for is_calls in [false, true] {
            let (now, far) = (Instant::now(), Instant::now() + PATIENCE);
            session.set_deadline(Some(if is_calls { far } else { now }));
            let until = if is_calls { now } else { far };
            assert_eq!(timed(&mut session, &store, until), Err(Stop::TimedOut));
            assert!(Instant::now() < far);
            assert_eq!(store.waits_for(session.txn()), None);
        }
    }
}

/// The next time that is not over is the earliest of all, by the nanosecond, and those whose time is over are woken.
#[test]
fn two_times_lie_within_a_second() {
    let store = Store::new(Detect::AtBlock);
    let mut first = store.begin();
    first.lock(store.root, Mode::X).unwrap();
    let far = Instant::now() + Duration::from_secs(60);
    let times = [700, 600, 601].map(|nanos| far + Duration::from_nanos(nanos));
    let mut sessions = [(); 3].map(|()| store.begin());
    for (session, time) in sessions.iter_mut().zip(times) {
        session.set_deadline(Some(time));
    }
    let mut waits: Vec<_> = sessions
        .iter_mut()
        .map(|session| Some(Box::pin(session.lock_async(store.root, Mode::S))))
        .collect();
    for wait in waits.iter_mut().flatten() {
        assert!(poll_by(&mut wait.as_mut(), bell()).is_pending());
    }
    let mut next = Vec::new();
    for place in [1, 2, 0] {
        next.push(store.table.expire());
        waits[place] = None; // It is dropped, and waits no more.
    }
    assert_eq!(next, [times[1], times[2], times[0]].map(Some));
    assert_eq!(store.table.expire(), None);
}

/// A path of a task keeps its time on its way: its second wait ends at that time, though the first was granted.
/// `false`: this machine was too slow to see it wait.
fn a_path_keeps_its_time(time: Duration) -> bool {
    let store = Store::new(Detect::AtBlock);
    let (mut keeper, mut reader, mut session) = (store.begin(), store.begin(), store.begin());
    keeper.lock_path(store.low, Mode::S).unwrap();
    reader.lock_path(store.below, Mode::S).unwrap();
    let (name, until) = (session.txn(), Instant::now() + time);
    session.set_deadline(Some(until));
    let mut path = pin!(session.lock_path_async(store.low, Mode::X));
    let is_in_time = poll_by(&mut path, bell()).is_pending();
    if is_in_time {
        assert_eq!(store.waits_for(name), Some(store.below));
        thread::sleep(left(until));
        reader.commit().unwrap();
        assert_eq!(poll_by(&mut path, bell()), Poll::Ready(Err(Stop::TimedOut)));
        assert_eq!(store.held(name, store.below), Mode::IX);
        assert_eq!(store.held(name, store.low), Mode::NL);
    }
    is_in_time
}

#[test]
fn a_path_keeps_its_time_on_its_way() {
    let mut time = Duration::from_millis(2);
    while !a_path_keeps_its_time(time) {
        time *= 2;
    }
}

// ------------------------------------------------------------------------------------------------------------------
// The path of a slot.

/// A future on a path whose transaction was aborted, and the next transaction of its slot.
fn next_in_its_slot(store: &Store) -> (Task, Session<'static>) {
    let mut before = store.begin();
    let name = before.txn();
    let low = store.low;
    let mut late: Task = Box::pin(async move {
        let end = before.lock_path_async(low, Mode::X).await;
        assert_eq!(end, Err(Stop::Refused(Refusal::NoSuchTxn)));
        before.leave();
    });
    assert!(poll(&mut late).is_pending());
    store.table.abort(name).unwrap();
    let next = store.begin();
    assert_eq!(next.txn().slot(), name.slot());
    (late, next)
}

fn poll(task: &mut Task) -> Poll<()> {
    task.as_mut().poll(&mut Context::from_waker(&bell()))
}

/// The next transaction of the slot waits on a path, on its way and then for the record. Whenever the late one is polled, a
/// cancel ends that path.
#[test]
fn a_late_task_and_the_next_path() {
    for is_late in [false, true] {
        let store = Store::new(Detect::AtBlock);
        let (mut reader, mut keeper) = (store.begin(), store.begin());
        reader.lock(store.root, Mode::S).unwrap();
        keeper.lock_path(store.low, Mode::S).unwrap();
        let (mut late, mut next) = next_in_its_slot(&store);
        let name = next.txn();
        {
            let mut path = pin!(next.lock_path_async(store.low, Mode::X));
            assert!(poll_by(&mut path, bell()).is_pending());
            if !is_late {
                assert!(poll(&mut late).is_ready());
            }
            reader.commit().unwrap();
            assert_eq!(store.waits_for(name), Some(store.low));
            assert_eq!(store.table.cancel(name), Ok(()));
            assert_eq!(
                poll_by(&mut path, bell()),
                Poll::Ready(Err(Stop::Cancelled))
            );
        }
        if is_late {
            assert!(poll(&mut late).is_ready());
        }
        assert_eq!(store.held(name, store.root), Mode::IX);
        assert_eq!(store.table.cancel(name), Err(Refusal::NotWaiting));
        keeper.commit().unwrap();
        assert_eq!(next.lock_path(store.low, Mode::X), Ok(Mode::X));
    }
}

/// The next transaction of the slot was granted a lock, on no path: there is nothing to cancel, whether the late path
/// is polled again or dropped.
#[test]
fn a_path_of_before_takes_no_cancel() {
    for is_dropped in [false, true] {
        let store = Store::new(Detect::AtBlock);
        let mut reader = store.begin();
        reader.lock(store.root, Mode::S).unwrap();
        let (mut late, mut next) = next_in_its_slot(&store);
        let name = next.txn();
        {
            let mut lock = pin!(next.lock_async(store.root, Mode::IX));
            assert!(poll_by(&mut lock, bell()).is_pending());
            reader.commit().unwrap();
            assert_eq!(store.table.cancel(name), Err(Refusal::NotWaiting));
            if is_dropped {
                drop(late);
            } else {
                assert!(poll(&mut late).is_ready());
            }
            assert_eq!(store.table.cancel(name), Err(Refusal::NotWaiting));
            assert_eq!(poll_by(&mut lock, bell()), Poll::Ready(Ok(Mode::IX)));
        }
        assert_eq!(store.held(name, store.root), Mode::IX);
    }
}

// ------------------------------------------------------------------------------------------------------------------
// All slots.

/// Some slots of each word.
fn is_some(slot: usize) -> bool {
    [0, 1, 62, 63, 64, 65, 126, SLOTS - 1].contains(&slot)
}

/// A session in each slot but the third, which holds the root in X.
fn begin_all(store: &Store) -> (Session<'static>, Vec<Session<'static>>) {
    let mut all: Vec<_> = (0..SLOTS).map(|_| store.begin()).collect();
    for (slot, session) in all.iter().enumerate() {
        assert_eq!(session.txn().slot(), slot);
    }
    let mut holder = all.remove(2);
    holder.lock(store.root, Mode::X).unwrap();
    (holder, all)
}

/// The tasks of some slots have a time that is over, and are woken by the call that looks.
#[test]
fn tasks_of_all_slots_expire() {
    let store = Store::new(Detect::AtBlock);
    let (_holder, mut all) = begin_all(&store);
    let far = Instant::now() + Duration::from_secs(60);
    let soon = Instant::now() + Duration::from_millis(20);
    let soonest = far - Duration::from_secs(1);
    let mut waits: Vec<_> = all
        .iter_mut()
        .map(|session| {
            let slot = session.txn().slot();
            let time = if is_some(slot) { soon } else { far };
            session.set_deadline(Some(if slot == SLOTS - 3 { soonest } else { time }));
            let bell = Arc::new(Bell::default());
            let mut wait = Box::pin(session.lock_async(store.root, Mode::S));
            let polled = poll_by(&mut wait.as_mut(), Waker::from(Arc::clone(&bell)));
            (slot, polled, bell, wait)
        })
        .collect();
    thread::sleep(left(soon));
    assert_eq!(store.table.expire(), Some(soonest));
    for (slot, polled, bell, wait) in &mut waits {
        if is_some(*slot) && polled.is_pending() {
            assert_eq!(bell.rung(), 1, "slot {slot}");
            *polled = poll_by(&mut wait.as_mut(), Waker::from(Arc::clone(bell)));
        }
        let wanted = if is_some(*slot) {
            Poll::Ready(Err(Stop::TimedOut))
        } else {
            Poll::Pending
        };
        assert_eq!(
            (*polled, is_some(*slot) || bell.rung() == 0),
            (wanted, true),
            "slot {slot}"
        );
    }
}

/// A lock for an instant is given back in each slot, and one that stays is kept in each.
#[test]
fn instants_in_all_slots() {
    let store = Store::new(Detect::AtBlock);
    let (holder, all) = begin_all(&store);
    let mut waits: Vec<_> = all
        .into_iter()
        .map(|mut session| {
            let (name, root) = (session.txn(), store.root);
            let mut task: Task = Box::pin(async move {
                let end = match is_some(session.txn().slot()) {
                    true => session.lock_instant_async(root, Mode::S).await,
                    false => session.lock_async(root, Mode::S).await,
                };
                assert_eq!(end, Ok(Mode::S));
                session.leave();
            });
            assert!(poll(&mut task).is_pending());
            (name, task)
        })
        .collect();
    holder.commit().unwrap();
    for (name, task) in &mut waits {
        let wanted = if is_some(name.slot()) {
            Mode::NL
        } else {
            Mode::S
        };
        assert_eq!(store.held(*name, store.root), wanted);
        assert!(poll(task).is_ready());
    }
}

// ------------------------------------------------------------------------------------------------------------------
// Wakers that end other waits.

/// The tree of ends: for each place which holders its waker ends.
const SETS_OFF: [&[usize]; 12] = [
    &[1, 2, 3, 4, 5],
    &[6, 7, 8],
    &[9, 10],
    &[],
    &[],
    &[],
    &[],
    &[],
    &[],
    &[11],
    &[],
    &[],
];

/// Ends that are set off by wakers, three deep and more, come all of them before the first call returns, each once.
#[test]
fn ends_set_off_ends() {
    let store = Store::new(Detect::AtBlock);
    let ended = Arc::new(Mutex::new(vec![0; SETS_OFF.len()]));
    let nodes: Vec<Node> = SETS_OFF.iter().map(|_| store.add_root()).collect();
    let holders: Vec<Txn> = nodes
        .iter()
        .map(|&node| {
            let mut session = store.begin();
            session.lock(node, Mode::X).unwrap();
            session.leave()
        })
        .collect();
    let tasks: Vec<_> = (0..SETS_OFF.len())
        .map(|place| {
            let (ended, table) = (Arc::clone(&ended), Arc::clone(&store.table));
            let (node, mut session) = (nodes[place], store.begin());
            let next: Vec<Txn> = SETS_OFF[place].iter().map(|&next| holders[next]).collect();
            Inline::start(async move {
                assert_eq!(session.lock_async(node, Mode::S).await, Ok(Mode::S));
                ended.lock().unwrap()[place] += 1;
                for holder in next {
                    table.commit(holder).unwrap();
                }
                session.leave();
            })
        })
        .collect();
    store.table.commit(holders[0]).unwrap();
    assert_eq!(*ended.lock().unwrap(), [1; SETS_OFF.len()]);
    drop(tasks);
}

// ------------------------------------------------------------------------------------------------------------------
// Locks for an instant, and the waits of later.

/// A lock for an instant on this node came to a session, after a wait; another holds the node again.
fn instant_came(waiter: &mut Session<'static>, holder: &mut Session<'static>, node: Node) {
    holder.lock(node, Mode::X).unwrap();
    {
        let mut lock = pin!(waiter.lock_instant_async(node, Mode::X));
        assert!(poll_by(&mut lock, bell()).is_pending());
        holder.unlock(node).unwrap();
        assert_eq!(poll_by(&mut lock, bell()), Poll::Ready(Ok(Mode::X)));
    }
    holder.lock(node, Mode::X).unwrap();
}

/// What came for an instant is no answer to a later wait, of a thread or of a task.
#[test]
fn an_instant_of_before_is_nothing_to_a_wait() {
    for (call, is_task) in CALLS {
        let store = Store::new(Detect::AtBlock);
        let (mut holder, mut waiter) = (store.writer(true), store.writer(true));
        let mut node = store.low;
        if call.is_of_row() {
            let locked = holder.lock_row(store.row, &LOW_KEY, Mode::X);
            assert_eq!(locked, Ok(RowLocked::Own(Mode::X)));
            node = store.row_node();
            holder.unlock(node).unwrap(); // The row keeps its node.
        }
        instant_came(&mut waiter, &mut holder, node);
        let (name, mode) = (waiter.txn(), Mode::X);
        let (row, keys) = (store.row, LOW_KEY);
        let ask = Ask {
            call,
            node,
            mode,
            row,
            keys,
            is_task,
        };
        assert_eq!(
            ask.cancelled(&store, &mut waiter),
            Err(Stop::Cancelled),
            "{ask:?}"
        );
        assert_eq!(store.held(name, node), Mode::NL, "{ask:?}");
    }
}

/// A path that waits on its way where an instant came before is cancelled there, and does not continue.
#[test]
fn an_instant_of_before_is_nothing_to_a_path() {
    for is_task in [false, true] {
        let store = Store::new(Detect::AtBlock);
        let (mut holder, mut waiter) = (store.begin(), store.begin());
        for session in [&mut holder, &mut waiter] {
            session.lock_path(store.below, Mode::IX).unwrap();
        }
        waiter.unlock(store.below).unwrap();
        holder.unlock(store.below).unwrap();
        instant_came(&mut waiter, &mut holder, store.below);
        let ask = Ask {
            call: Path,
            node: store.low,
            mode: Mode::X,
            row: store.row,
            keys: LOW_KEY,
            is_task,
        };
        assert_eq!(ask.cancelled(&store, &mut waiter), Err(Stop::Cancelled));
        assert_eq!(store.held(waiter.txn(), store.below), Mode::NL);
    }
}

impl Ask {
    /// Makes the call, which waits, and has it cancelled.
    fn cancelled(self, store: &Store, session: &mut Session<'static>) -> Ended {
        let name = session.txn();
        session.set_deadline(Instant::now().checked_add(PATIENCE));
        if !self.is_task {
            return thread::scope(|scope| {
                let asks = scope.spawn(|| self.sleep(session));
                await_that(|| store.waits_for(name).is_some());
                store.table.cancel(name).unwrap();
                asks.join().unwrap()
            });
        }
        let mut future = pin!(self.future(session));
        assert!(poll_by(&mut future, bell()).is_pending());
        store.table.cancel(name).unwrap();
        match poll_by(&mut future, bell()) {
            Poll::Ready(end) => end,
            Poll::Pending => panic!("it waits on"),
        }
    }
}

// ------------------------------------------------------------------------------------------------------------------
// Rows that are asked for again.

/// A row of a file with three indexes, each parted at 100, is waited for by these keys.
fn row_by_keys(keys: &[u64], is_task: bool) -> Result<RowLocked, Stop> {
    const OWN: [u64; 3] = [11, 122, 33];
    let store = Store::new(Detect::AtBlock);
    let file = store.table.add_row_file(&[store.root]).unwrap();
    let row = Row { file, number: 7 };
    let (mut holder, mut waiter) = (store.begin(), store.begin());
    for _ in OWN {
        let index = store.table.add_index(&[store.root], file, &[100]).unwrap();
        for place in [0, 1] {
            let interval = store.table.with(|m| m.interval(index, place)).unwrap();
            holder.lock_path(interval, Mode::IX).unwrap();
        }
    }
    holder.lock_path(file, Mode::IX).unwrap();
    waiter.lock_path(file, Mode::IS).unwrap();
    assert_eq!(
        holder.lock_row(row, &OWN, Mode::X),
        Ok(RowLocked::Own(Mode::X))
    );
    let name = waiter.txn();
    if is_task {
        let mut lock: Pin<Box<_>> = Box::pin(waiter.lock_row_async(row, keys, Mode::S));
        assert!(poll_by(&mut lock.as_mut(), bell()).is_pending());
        holder.commit().unwrap();
        return match poll_by(&mut lock.as_mut(), bell()) {
            Poll::Ready(end) => end,
            Poll::Pending => panic!("it waits on"),
        };
    }
    thread::scope(|scope| {
        let asks = scope.spawn(|| waiter.lock_row_timeout(row, keys, Mode::S, PATIENCE));
        await_that(|| store.waits_for(name).is_some());
        holder.commit().unwrap();
        asks.join().unwrap()
    })
}

/// Each key of a row tells whether they are its own.
#[test]
fn a_row_of_many_keys_is_asked_for_again() {
    let others = Ok(RowLocked::OtherKeys(Mode::S));
    for is_task in [false, true] {
        let own = Ok(RowLocked::Own(Mode::S));
        assert_eq!(row_by_keys(&[11, 122, 33], is_task), own);
        assert_eq!(row_by_keys(&[11, 122], is_task), others);
        assert_eq!(row_by_keys(&[11, 122, 33, 0], is_task), others);
        for place in 0..3 {
            let mut keys = [11, 122, 33];
            keys[place] += 1;
            assert_eq!(row_by_keys(&keys, is_task), others);
        }
    }
}

// ------------------------------------------------------------------------------------------------------------------
// One that watches.

/// Each of two holds a record, or reads the row, and wants that of the other. The thread that watches alone ends that.
#[test]
fn waits_of_all_kinds_are_watched() {
    for (call, is_task) in CALLS {
        let store = Store::new(Detect::ByWatcher);
        let nodes = [store.low, store.add_root()];
        let mut sessions = [(); 2].map(|()| store.writer(true));
        for (session, node) in sessions.iter_mut().zip(nodes) {
            session.lock(node, Mode::X).unwrap();
            let locked = session.lock_row(store.row, &LOW_KEY, Mode::S);
            assert_eq!(locked, Ok(RowLocked::Own(Mode::S)));
        }
        let names = [sessions[0].txn(), sessions[1].txn()];
        let ask = |place: usize| Ask {
            call,
            node: nodes[1 - place],
            mode: Mode::X,
            row: store.row,
            keys: LOW_KEY,
            is_task,
        };
        let table = &store.table;
        thread::scope(|scope| {
            scope.spawn(|| table.watch_over(Duration::ZERO).unwrap());
            let [mut older, mut younger] = sessions;
            older.set_deadline(Instant::now().checked_add(PATIENCE));
            younger.set_deadline(Instant::now().checked_add(PATIENCE));
            let first = scope.spawn(move || (ask(0).end(&mut older), older));
            await_that(|| store.waits_for(names[0]).is_some());
            let second = scope.spawn(move || (ask(1).end(&mut younger), younger));
            let (end, younger) = second.join().unwrap();
            assert_eq!(end, Err(Stop::Victim), "{call:?} {is_task}");
            younger.abort();
            assert_eq!(first.join().unwrap().0, Ok(RowLocked::Own(Mode::X)));
            table.end_watch();
        });
    }
}

impl Ask {
    /// The end of the call, in this thread: a task is polled whenever it is woken.
    fn end(self, session: &mut Session<'static>) -> Ended {
        if self.is_task {
            block_on(self.future(session))
        } else {
            self.sleep(session)
        }
    }
}

/// The one that watches sees two deadlocks at once, and frees the latch between two victims.
#[test]
fn a_watch_frees_the_latch_between_victims() {
    let store = Store::new(Detect::ByWatcher);
    let nodes = [store.add_root(), store.add_root()];
    let mut sessions: Vec<_> = (0..4)
        .map(|place| {
            let mut session = store.begin();
            session.lock(nodes[place % 2], Mode::S).unwrap();
            session
        })
        .collect();
    let (table, other) = (Arc::clone(&store.table), sessions[2].txn());
    let seen = Arc::new(Mutex::new(None));
    let sees = Arc::clone(&seen);
    let waker = Does::waker(move || {
        let waits = table.with(|m| m.waiting(other)).is_some();
        *sees.lock().unwrap() = Some(waits);
    });
    let youngest = sessions.pop().unwrap();
    let woken = Arc::new(Bell::default());
    let bell = || Waker::from(Arc::clone(&woken));
    let mut waits: Vec<_> = sessions
        .into_iter()
        .enumerate()
        .map(|(place, session)| store.waits(session, nodes[place % 2], Mode::X, bell()))
        .collect();
    let mut last = store.waits(youngest, nodes[1], Mode::X, waker);
    thread::scope(|scope| {
        scope.spawn(|| store.table.watch_over(Duration::from_secs(3600)).unwrap());
        await_that(|| woken.rung() == 1 && seen.lock().unwrap().is_some());
        store.table.end_watch();
    });
    assert_eq!(*seen.lock().unwrap(), Some(true));
    assert_eq!(last.ended(), Err(Stop::Victim));
    assert_eq!(waits[2].ended(), Err(Stop::Victim));
}

/// Two calls wait for the end of the watch, and one thread watches, also after both have returned.
#[test]
fn a_watch_outlives_its_calls() {
    let store = Store::new(Detect::ByWatcher);
    let table = &store.table;
    thread::scope(|scope| {
        let calls = [(); 2].map(|()| scope.spawn(|| table.watch_over(Duration::ZERO)));
        a_deadlock_ends(&store);
        table.end_watch();
        for call in calls {
            assert_eq!(call.join().unwrap(), Ok(()));
        }
    });
    let watchers: Vec<_> = (0..).map_while(|_| table.watch().ok()).collect();
    assert_eq!(watchers.len(), MOST_WATCHERS - 1);
    assert_eq!(table.watch_over(Duration::ZERO), Ok(()));
    a_deadlock_ends(&store);
}

/// Of two that read the root and wait to write it, the younger is condemned.
fn a_deadlock_ends(store: &Store) {
    let mut sessions = [(); 2].map(|()| store.begin());
    for session in &mut sessions {
        session.lock(store.root, Mode::S).unwrap();
    }
    let woken = Arc::new(Bell::default());
    let bell = || Waker::from(Arc::clone(&woken));
    let wait = |session| store.waits(session, store.root, Mode::X, bell());
    let [mut older, mut younger] = sessions.map(wait);
    await_that(|| woken.rung() == 1);
    assert_eq!(younger.ended(), Err(Stop::Victim));
    store.table.abort(younger.name).unwrap();
    assert_eq!(older.ended(), Ok(Mode::X));
    store.table.commit(older.name).unwrap();
}
