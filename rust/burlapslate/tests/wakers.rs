//! What a waker and the closure of `Table::with` may do: they may call tables, and must not sleep; a closure may panic, and
//! a table may be dropped there.

mod waiters;

use burlapslate::{Detect, Keep, Mode, Node, Refusal, Session, Stop, Table, Tried, Try, SLOTS};
use std::panic::{catch_unwind, AssertUnwindSafe, RefUnwindSafe, UnwindSafe};
use std::pin::pin;
use std::sync::atomic::{AtomicBool, AtomicUsize, Ordering};
use std::sync::{Arc, Mutex, Weak};
use std::task::{Wake, Waker};
use std::thread;
use std::time::{Duration, Instant};
use waiters::*;

/// Has a waker do this, in the thread that grants what its task waits for.
fn in_a_waker(store: &Store, act: impl FnOnce() + Send + 'static) {
    let (mut holder, node) = (store.begin(), store.add_root());
    holder.lock(node, Mode::X).unwrap();
    let mut waiter = store.waits(store.begin(), node, Mode::S, Does::waker(act));
    holder.commit().unwrap();
    assert_eq!(waiter.ended(), Ok(Mode::S));
}

/// Each call that could sleep is refused.
fn cannot_sleep(table: &Table, session: &mut Session<'_>, store: &Store) {
    let refused = Err(Stop::Refused(Refusal::InUse));
    let node = store.root;
    assert_eq!(session.lock(node, Mode::S), refused);
    assert_eq!(session.lock_instant(node, Mode::S), refused);
    assert_eq!(session.lock_path(node, Mode::S), refused);
    let timed = session.lock_timeout(node, Mode::S, Duration::ZERO);
    assert_eq!(timed, refused);
    for row in [
        session.lock_row(store.row, &LOW_KEY, Mode::S),
        session.lock_row_path(store.row, &LOW_KEY, Mode::S),
    ] {
        assert_eq!(row.map(|_| Mode::S), refused);
    }
    assert_eq!(table.begin_in_turn().unwrap_err(), Refusal::InUse);
    let begun = table.begin_timeout(Duration::ZERO);
    assert_eq!(begun.map(drop), Err(Stop::Refused(Refusal::InUse)));
}

/// What never sleeps is done in a waker, and what could is refused.
#[test]
fn a_waker_calls_the_table() {
    let store = Store::new(Detect::AtBlock);
    let (own, mut session) = (store.clone(), store.begin());
    let name = session.txn();
    let is_done = Arc::new(Mutex::new(false));
    let done = Arc::clone(&is_done);
    in_a_waker(&store, move || {
        let table = &own.table;
        cannot_sleep(table, &mut session, &own);
        assert_eq!(session.try_lock(own.root, Mode::IX), Ok(Mode::IX));
        let tried = session.try_lock_path(own.low, Mode::X, Keep::Nothing);
        assert_eq!(tried, Ok(Tried::Locked(Mode::X)));
        assert_eq!(table.with(|m| m.held(session.txn(), own.low)), Ok(Mode::X));
        assert_eq!(table.expire(), None);
        assert!(table.begin().unwrap().commit().is_ok());
        assert!(is_ready(session.lock_path_async(own.row.file, Mode::IX)).is_ok());
        session.commit().unwrap();
        *done.lock().unwrap() = true;
    });
    assert!(*is_done.lock().unwrap());
    assert!(!store.lives(name));
}

/// A wait that begins within a waker is over by its end: its time has come, or its future was dropped.
#[test]
fn a_wait_ends_within_a_waker() {
    for is_late in [false, true] {
        let store = Store::new(Detect::AtBlock);
        let (mut holder, mut waiter) = (store.begin(), store.begin());
        holder.lock_path(store.low, Mode::X).unwrap();
        let (own, name) = (store.clone(), waiter.txn());
        in_a_waker(&store, move || {
            waiter.set_deadline(is_late.then(Instant::now));
            let mut lock = pin!(waiter.lock_path_async(own.low, Mode::S));
            let polled = poll_by(&mut lock, bell());
            assert_eq!(polled.is_ready(), is_late);
        });
        assert!(!store.lives(name));
        assert_eq!(store.table.with(|m| m.queue(store.low).unwrap().count()), 0);
        holder.commit().unwrap();
    }
}

/// A transaction is aborted in a waker, so the end of its wait is told after that; before, the next one of its slot waits.
/// The task of each is woken, and is answered its own end.
#[test]
fn a_slot_waits_again_before_an_end_is_told() {
    let store = Store::new(Detect::AtBlock);
    let mut holder = store.begin();
    holder.lock(store.root, Mode::X).unwrap();
    let woken = Arc::new(Bell::default());
    let waker = Waker::from(Arc::clone(&woken));
    let mut first = store.waits(store.begin(), store.root, Mode::S, waker);
    let (own, name) = (store.clone(), first.name);
    let next = Arc::new(Mutex::new(None));
    let begun = Arc::clone(&next);
    in_a_waker(&store, move || {
        own.table.abort(name).unwrap();
        let session = own.begin();
        assert_eq!(session.txn().slot(), name.slot());
        *begun.lock().unwrap() = Some(own.waits(session, own.root, Mode::S, bell()));
    });
    assert_eq!(woken.rung(), 1);
    assert_eq!(first.ended(), Err(Stop::Refused(Refusal::NoSuchTxn)));
    holder.commit().unwrap();
    let mut next = next.lock().unwrap().take().unwrap();
    assert_eq!(next.ended(), Ok(Mode::S));
}

/// The panic of a waker continues after the call that woke it, which has done all; others are woken too.
#[test]
fn a_waker_panics() {
    let store = Store::new(Detect::AtBlock);
    let (mut holder, node) = (store.begin(), store.add_root());
    holder.lock(node, Mode::X).unwrap();
    let (table, is_done) = (Arc::clone(&store.table), Arc::new(AtomicBool::new(false)));
    let done = Arc::clone(&is_done);
    let panics = Does::waker(|| panic!("as it is wanted"));
    let calls = Does::waker(move || {
        table.begin().unwrap().commit().unwrap();
        done.store(true, Ordering::SeqCst);
    });
    let mut waiters = [panics, calls].map(|waker| store.waits(store.begin(), node, Mode::S, waker));
    let name = holder.txn();
    let died = catch_unwind(AssertUnwindSafe(|| holder.commit()));
    assert!(died.is_err());
    assert!(is_done.load(Ordering::SeqCst));
    assert!(!store.lives(name));
    for waiter in &mut waiters {
        assert_eq!(waiter.ended(), Ok(Mode::S));
    }
}

/// Within a closure that holds the table its calls are refused, and those of another table that could sleep.
#[test]
fn a_closure_calls_tables() {
    let (store, other) = (Store::new(Detect::AtBlock), Store::new(Detect::AtBlock));
    let (mut session, mut others) = (store.begin(), other.begin());
    store.table.with(|m| {
        cannot_sleep(&store.table, &mut session, &store);
        cannot_sleep(&other.table, &mut others, &other);
        let tries = [Try::Node {
            node: store.root,
            mode: Mode::S,
        }];
        assert_eq!(session.try_first(&tries), Err(Refusal::InUse));
        assert_eq!(session.try_lock(store.root, Mode::S), Err(Refusal::InUse));
        assert_eq!(session.mark(), Err(Refusal::InUse));
        assert_eq!(store.table.begin().unwrap_err(), Refusal::InUse);
        assert_eq!(store.table.add_inner(&[]), Err(Refusal::InUse));
        assert_eq!(store.table.settle(session.txn()), Err(Refusal::InUse));
        assert_eq!(store.table.watch().unwrap_err(), Refusal::InUse);
        let watched = store.table.watch_over(Duration::ZERO);
        assert_eq!(watched, Err(Refusal::InUse));
        assert_eq!(others.try_lock(other.root, Mode::S), Ok(Mode::S));
        assert_eq!(m.held(session.txn(), store.root), Ok(Mode::NL));
    });
    assert_eq!(session.lock(store.root, Mode::S), Ok(Mode::S));
}

/// A closure that panics releases the latch, and so does one that holds the table anew or drops a session.
#[test]
fn a_closure_panics() {
    let store = Store::new(Detect::AtBlock);
    let table = &store.table;
    let panics: [&dyn Fn(); 4] = [
        &|| table.with(|_| panic!("as it is wanted")),
        &|| table.with(|_| table.with(|_| ())),
        &|| assert_eq!(table.with(|_| table.expire()), None),
        &|| {
            let session = store.begin();
            let name = session.txn();
            let died = catch_unwind(AssertUnwindSafe(|| table.with(|_| drop(session))));
            assert!(store.lives(name));
            table.abort(name).unwrap();
            std::panic::resume_unwind(died.unwrap_err());
        },
    ];
    for panics in panics {
        assert!(catch_unwind(AssertUnwindSafe(panics)).is_err());
        thread::scope(|scope| {
            let asks = scope.spawn(|| table.with(|m| m.transactions().count()));
            assert_eq!(asks.join().unwrap(), 0);
        });
    }
    assert_eq!(store.begin().lock(store.root, Mode::X), Ok(Mode::X));
}

/// A waker whose last copy is seen to be dropped.
struct Kept(Arc<AtomicUsize>);

impl Wake for Kept {
    fn wake(self: Arc<Kept>) {
        self.0.fetch_add(1, Ordering::SeqCst);
    }
}

/// A table with a task that waits until the table ends, since its future was leaked; and its waker, to be looked for.
fn with_a_leaked_future() -> (Table, Weak<Kept>, Arc<AtomicUsize>) {
    let table = Table::new(Detect::AtBlock, SLOTS).unwrap();
    let root = table.add_inner(&[]).unwrap();
    let (mut holder, waiter) = (table.begin().unwrap(), table.begin().unwrap());
    holder.lock(root, Mode::X).unwrap();
    let woken = Arc::new(AtomicUsize::new(0));
    let kept = Arc::new(Kept(Arc::clone(&woken)));
    let left = Arc::downgrade(&kept);
    leaks(waiter, root, Waker::from(kept));
    holder.leave();
    (table, left, woken)
}

/// A session waits for X on a node, and nobody awaits it.
fn leaks(mut session: Session<'_>, node: Node, waker: Waker) {
    let mut lock = Box::pin(session.lock_async(node, Mode::X));
    assert!(poll_by(&mut lock.as_mut(), waker).is_pending());
    std::mem::forget(lock);
    session.leave();
}

/// The drop of a table ends all waits, wherever it is dropped.
#[test]
fn a_table_is_dropped() {
    let store = Store::new(Detect::AtBlock);
    let drops: [&dyn Fn(Table); 3] = [
        &|table| drop(table),
        &|table| store.table.with(|_| drop(table)),
        &|table| in_a_waker(&store, move || drop(table)),
    ];
    for drops in drops {
        let (table, left, woken) = with_a_leaked_future();
        drops(table);
        await_that(|| left.upgrade().is_none());
        assert_eq!(woken.load(Ordering::SeqCst), 1);
    }
}

/// The last owner of a table is the waker of a victim, which the table's own thread wakes.
#[test]
fn a_table_is_dropped_by_its_own_thread() {
    let table = Arc::new(Table::new(Detect::ByWatcher, SLOTS).unwrap());
    let root = table.add_inner(&[]).unwrap();
    let [mut older, mut younger] = [(); 2].map(|()| table.begin_shared().unwrap());
    for session in [&mut older, &mut younger] {
        session.lock(root, Mode::S).unwrap();
    }
    let kept = Arc::new(Kept(Arc::default()));
    let left = Arc::downgrade(&kept);
    let (is_woken, is_alone) = (
        Arc::new(AtomicBool::new(false)),
        Arc::new(AtomicBool::new(false)),
    );
    let (woken, alone, own) = (
        Arc::clone(&is_woken),
        Arc::clone(&is_alone),
        Arc::clone(&table),
    );
    let drops = Does::waker(move || {
        woken.store(true, Ordering::SeqCst);
        while !alone.load(Ordering::SeqCst) {
            thread::yield_now();
        }
        drop(own);
    });
    leaks(older, root, Waker::from(kept));
    leaks(younger, root, drops);
    thread::scope(|scope| {
        scope.spawn(|| table.watch_over(Duration::ZERO).unwrap());
        await_that(|| is_woken.load(Ordering::SeqCst));
        table.end_watch();
    });
    drop(table);
    assert!(left.upgrade().is_some());
    is_alone.store(true, Ordering::SeqCst);
    await_that(|| left.upgrade().is_none());
}

/// A table and its sessions pass a `catch_unwind`, as the mutexes of the standard library do.
#[test]
fn what_a_panic_may_pass() {
    fn passes<T: UnwindSafe>() {}
    fn is_seen<T: RefUnwindSafe>() {}
    passes::<(Table, &Table, Session<'_>, burlapslate::Manager)>();
    is_seen::<Table>();
}
