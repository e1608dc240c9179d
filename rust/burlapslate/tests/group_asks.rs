//! Stories of a group whose transactions wait by tasks, or wait for a slot: how waits end, futures that are dropped while
//! they wait and at the moment of their end, what wakers may do, deadlines, deadlocks that nobody sleeps for, and begins in
//! turn.

#![cfg(target_pointer_width = "64")]

mod tasks;
mod world;

use burlapslate::{
    Answers, Detect, Do, Group, GroupSession, Keep, Mode, Node, Options, Refusal, Row, RowLocked,
    Stop, Table, Tried, Txn,
};
use std::future::Future;
use std::panic::{catch_unwind, AssertUnwindSafe};
use std::pin::{pin, Pin};
use std::sync::atomic::{AtomicBool, AtomicI64, AtomicUsize, Ordering};
use std::sync::mpsc::channel;
use std::sync::{Arc, Mutex, Weak};
use std::task::{Context, Poll, Wake, Waker};
use std::thread;
use std::time::{Duration, Instant};
use tasks::{block_on, poll, quiet, Bell, PATIENCE};
use world::{World, PARTS};

const RUNS: usize = 500;

type Task = Pin<Box<dyn Future<Output = ()> + Send>>;

/// A waker that counts, and acquires the latch of each table.
fn bell(w: &World) -> (Arc<Bell>, Waker) {
    let group = Arc::clone(&w.group);
    Bell::that(move || {
        for table in 0..=PARTS {
            group.with_table(table, |_| ()).unwrap();
        }
    })
}

/// The keys of a part's row.
const KEY: [u64; 1] = [50];

const OWN: Result<RowLocked, Stop> = Ok(RowLocked::Own(Mode::X));

/// Looks until this is so.
fn await_that(is_so: impl Fn() -> bool) {
    let limit = Instant::now() + PATIENCE;
    while !is_so() {
        assert!(Instant::now() < limit, "it does not come");
        thread::sleep(Duration::from_micros(50));
    }
}

/// The end of a future that is ready as soon as it is polled.
fn is_ready<T>(future: impl Future<Output = T>) -> T {
    match poll(&mut pin!(future), &quiet()) {
        Poll::Ready(end) => end,
        Poll::Pending => panic!("it waits"),
    }
}

// ------------------------------------------------------------------------------------------------
// How waits end.

#[test]
fn what_need_not_wait_is_done_at_once() {
    let w = World::new();
    let (bell, waker) = bell(&w);
    let spread = w.group.add_spread_file(&[w.area]).unwrap();
    let mut session = w.begin();
    for (node, mode) in [
        (w.records[0][0], Mode::X),
        (w.files[1], Mode::S),
        (w.area, Mode::IX),
        (w.base, Mode::IS),
    ] {
        let end = poll(&mut pin!(session.lock_path_async(node, mode)), &waker);
        assert!(matches!(end, Poll::Ready(Ok(_))));
    }
    let strong = poll(&mut pin!(session.lock_path_async(w.area, Mode::S)), &waker);
    assert!(matches!(strong, Poll::Ready(Ok(Mode::S | Mode::SIX))));
    for number in 0..9 {
        let row = Row {
            file: spread,
            number,
        };
        let mut lock = pin!(session.lock_row_path_async(row, &[], Mode::X));
        assert_eq!(poll(&mut lock, &waker), Poll::Ready(OWN));
    }
    assert_eq!(bell.rung(), 0);
    session.commit().unwrap();
}

#[test]
fn wrong_asks_are_refused() {
    let w = World::new();
    let mut session = w.begin();
    let s = &mut session;
    let refused = |refusal| Err(Stop::Refused(refusal));
    for (node, mode, refusal) in [
        (w.base, Mode::NL, Refusal::BadMode),
        (w.records[0][0], Mode::IX, Refusal::BadMode),
        (Node::NONE, Mode::S, Refusal::NoSuchNode),
    ] {
        assert_eq!(is_ready(s.lock_path_async(node, mode)), refused(refusal));
    }
    let wrong = [
        (w.files[0], &KEY[..], Refusal::NotRows),
        (w.base, &KEY, Refusal::NotRows),
        (w.row_files[0], &[], Refusal::BadKeys),
    ];
    for (file, keys, refusal) in wrong {
        let ask = s.lock_row_path_async(Row { file, number: 1 }, keys, Mode::S);
        assert_eq!(is_ready(ask).map(drop), Err(Stop::Refused(refusal)));
    }
    let asked = w.group.with_table(1, |_| {
        let end = is_ready(s.lock_path_async(w.files[0], Mode::S));
        assert_eq!(end, refused(Refusal::InUse));
        assert_eq!(s.set_deadline(None), Err(Refusal::InUse));
        assert_eq!(s.renew(1), Err(Refusal::InUse));
        assert_eq!(w.group.cancel(s.txn()), Err(Refusal::InUse));
        assert_eq!(w.group.begin_in_turn().err(), Some(Refusal::InUse));
    });
    assert_eq!(asked, Ok(()));
    session.commit().unwrap();
}

/// One holds a record in X, and another asks for that; it waits, and then this is done.
fn ends(act: impl FnOnce(&World, GroupSession<'_>, Txn), wanted: Result<Mode, Stop>) {
    let w = World::new();
    let (bell, waker) = bell(&w);
    let (mut holder, mut requester) = (w.begin(), w.begin());
    let (name, record) = (requester.txn(), w.records[0][0]);
    holder.lock_path(record, Mode::X).unwrap();
    let mut lock = pin!(requester.lock_path_async(record, Mode::X));
    assert_eq!(poll(&mut lock, &waker), Poll::Pending);
    assert!(w.waits(1, name));
    assert_eq!(bell.rung(), 0);
    act(&w, holder, name);
    assert_eq!(bell.rung(), 1);
    assert_eq!(poll(&mut lock, &waker), Poll::Ready(wanted));
    assert_eq!(bell.rung(), 1);
}

#[test]
fn each_end_wakes_the_task() {
    ends(|_, holder, _| holder.commit().unwrap(), Ok(Mode::X));
    ends(|_, holder, _| drop(holder), Ok(Mode::X));
    ends(
        |_, mut holder, _| holder.renew(u64::MAX).unwrap(),
        Ok(Mode::X),
    );
    let cancel = |w: &World, holder: GroupSession<'_>, name| {
        w.group.cancel(name).unwrap();
        assert_eq!(w.group.cancel(name), Err(Refusal::NotWaiting));
        drop(holder);
    };
    ends(cancel, Err(Stop::Cancelled));
    ends(
        |w, mut holder, _| holder.delete(w.records[0][0]).unwrap(),
        Err(Stop::Gone),
    );
}

/// A row path waits in the main table first, and then in the part of its file, without the task.
#[test]
fn a_path_goes_on_from_the_main_table_to_a_part() {
    let w = World::new();
    let (bell, waker) = bell(&w);
    let (mut strong, mut reader, mut requester) = (w.begin(), w.begin(), w.begin());
    let (name, row) = (requester.txn(), w.row(1));
    let own = reader.lock_row_path(row, &KEY, Mode::S);
    assert_eq!(own, Ok(RowLocked::Own(Mode::S)));
    strong.lock_path(w.area, Mode::S).unwrap();
    {
        let mut lock = pin!(requester.lock_row_path_async(row, &KEY, Mode::X));
        assert_eq!(poll(&mut lock, &waker), Poll::Pending);
        assert!(w.waits(0, name));
        strong.commit().unwrap();
        assert!(w.waits(1, name) && !w.waits(0, name));
        assert_eq!(bell.rung(), 0);
        assert_eq!(poll(&mut lock, &waker), Poll::Pending);
        reader.commit().unwrap();
        assert_eq!(bell.rung(), 1);
        assert_eq!(poll(&mut lock, &waker), Poll::Ready(OWN));
    }
    assert_eq!(requester.held(w.area), Ok(Mode::IX));
    requester.commit().unwrap();
}

/// A path whose node moves begins anew, and waits for what is above it by then.
#[test]
fn a_path_follows_its_record() {
    let w = World::new();
    let (bell, waker) = bell(&w);
    let (mut holder, mut requester) = (w.begin(), w.begin());
    let (name, record) = (requester.txn(), w.records[1][0]);
    let above = w.interval(2, w.indexes[1], 1);
    holder.lock_path(record, Mode::X).unwrap();
    holder.lock_path(above, Mode::IX).unwrap();
    {
        let mut lock = pin!(requester.lock_path_async(record, Mode::X));
        assert_eq!(poll(&mut lock, &waker), Poll::Pending);
        holder.rekey(record, w.indexes[1], 150).unwrap();
        assert!(w.waits(2, name));
        assert_eq!(bell.rung(), 0);
        holder.commit().unwrap();
        assert_eq!(bell.rung(), 1);
        assert_eq!(poll(&mut lock, &waker), Poll::Ready(Ok(Mode::X)));
    }
    assert_eq!(requester.held(above), Ok(Mode::IX));
    requester.commit().unwrap();
}

/// A lock of an inner node waits for what is held below it in a part, also of one who waits there by a task.
#[test]
fn an_inner_node_is_waited_for() {
    let w = World::new();
    let (bell, waker) = bell(&w);
    let (mut holder, mut below, mut strong) = (w.begin(), w.begin(), w.begin());
    let (writes, reads, record) = (below.txn(), strong.txn(), w.records[0][0]);
    holder.lock_path(record, Mode::X).unwrap();
    {
        let mut writer = pin!(below.lock_path_async(record, Mode::X));
        assert_eq!(poll(&mut writer, &waker), Poll::Pending);
        let mut reader = pin!(strong.lock_path_async(w.base, Mode::S));
        assert_eq!(poll(&mut reader, &waker), Poll::Pending);
        assert!(w.waits(1, writes) && w.waits(0, reads));
        holder.commit().unwrap();
        assert_eq!(bell.rung(), 1);
        assert_eq!(poll(&mut writer, &waker), Poll::Ready(Ok(Mode::X)));
        assert!(w.waits(0, reads));
    }
    below.commit().unwrap();
    assert_eq!(bell.rung(), 1);
    assert_eq!(strong.lock_path(w.base, Mode::S), Ok(Mode::S));
    strong.commit().unwrap();
}

/// A row that waits has no key for an index that is made meanwhile.
#[test]
fn an_index_ends_a_wait_for_a_row() {
    let w = World::new();
    let (bell, waker) = bell(&w);
    let (mut holder, mut requester) = (w.begin(), w.begin());
    holder.lock_path(w.row_files[0], Mode::X).unwrap();
    {
        let mut lock = pin!(requester.lock_row_path_async(w.row(1), &KEY, Mode::X));
        assert_eq!(poll(&mut lock, &waker), Poll::Pending);
        let made = holder.index_by(&[w.area], w.row_files[0], &[10]);
        assert!(matches!(made, Ok(Tried::Locked(_))));
        assert_eq!(bell.rung(), 1);
        let no_key = Err(Stop::Refused(Refusal::BadKeys));
        assert_eq!(poll(&mut lock, &waker), Poll::Ready(no_key));
    }
    holder.commit().unwrap();
    let own = requester.lock_row_path(w.row(1), &[50, 5], Mode::X);
    assert_eq!(own, OWN);
    requester.commit().unwrap();
}

/// The task that polled last is woken, and no other.
#[test]
fn the_last_waker_is_woken() {
    let w = World::new();
    let (first_bell, first_waker) = bell(&w);
    let (last_bell, last_waker) = bell(&w);
    let (mut holder, mut requester) = (w.begin(), w.begin());
    holder.lock_path(w.files[0], Mode::X).unwrap();
    let mut lock = pin!(requester.lock_path_async(w.files[0], Mode::S));
    for waker in [&first_waker, &first_waker, &last_waker] {
        assert_eq!(poll(&mut lock, waker), Poll::Pending);
    }
    drop(first_waker);
    assert_eq!(Arc::strong_count(&first_bell), 1); // The group has the last one alone.
    holder.commit().unwrap();
    assert_eq!((first_bell.rung(), last_bell.rung()), (0, 1));
    assert_eq!(poll(&mut lock, &last_waker), Poll::Ready(Ok(Mode::S)));
}

/// A thread's wait is cancelled in the main table and in a part.
#[test]
fn sleepers_are_cancelled() {
    let w = World::new();
    let mut holder = w.begin();
    let mut waiter = w.begin_shared();
    let name = waiter.txn();
    for (table, strong) in [(0, w.area), (2, w.records[1][0])] {
        holder.lock_path(strong, Mode::X).unwrap();
        assert_eq!(w.group.cancel(name), Err(Refusal::NotWaiting));
        waiter = thread::scope(|scope| {
            let sleeper = scope.spawn(|| {
                let end = waiter.lock_path(w.records[1][0], Mode::S);
                assert_eq!(end, Err(Stop::Cancelled));
                waiter
            });
            w.await_wait(table, name);
            w.group.cancel(name).unwrap();
            sleeper.join().unwrap()
        });
        holder.renew(u64::MAX).unwrap();
    }
    assert_eq!(waiter.lock_path(w.records[1][0], Mode::S), Ok(Mode::S));
    waiter.commit().unwrap();
    assert_eq!(w.group.cancel(name), Err(Refusal::NoSuchTxn));
    assert_eq!(w.group.cancel(Txn::NONE), Err(Refusal::NoSuchTxn));
    holder.commit().unwrap();
}

// ------------------------------------------------------------------------------------------------
// Futures that are dropped or leaked.

/// The session can do all again, and holds this of the record.
#[track_caller]
fn is_usable(w: &World, mut session: GroupSession<'_>, record: Node, held: Mode) {
    assert_eq!(session.held(record), Ok(held));
    assert_eq!(w.group.cancel(session.txn()), Err(Refusal::NotWaiting));
    let tried = session.try_lock_path(w.files[2], Mode::IX, Keep::Nothing);
    assert!(matches!(tried, Ok(Tried::Locked(_))));
    session.mark().unwrap();
    session.set_deadline(None).unwrap();
    let end = is_ready(session.lock_path_async(w.files[2], Mode::IX));
    assert_eq!(end, Ok(Mode::IX));
    assert_eq!(session.lock_path(record, Mode::X), Ok(Mode::X));
    session.commit().unwrap();
}

/// A future that is dropped while it waits cancels the wait, and the waiter after it is granted.
#[test]
fn a_future_is_dropped_while_it_waits() {
    let w = World::new();
    let (bell, waker) = bell(&w);
    let (mut holder, mut requester, mut behind) = (w.begin(), w.begin(), w.begin());
    let (name, record) = (requester.txn(), w.records[0][0]);
    holder.lock_path(record, Mode::S).unwrap();
    {
        let mut late = pin!(behind.lock_path_async(record, Mode::S));
        {
            let mut lock = pin!(requester.lock_path_async(record, Mode::X));
            assert_eq!(poll(&mut lock, &waker), Poll::Pending);
            assert_eq!(poll(&mut late, &waker), Poll::Pending);
        }
        assert!(!w.waits(1, name));
        assert_eq!(bell.rung(), 1);
        assert_eq!(poll(&mut late, &waker), Poll::Ready(Ok(Mode::S)));
    }
    holder.commit().unwrap();
    behind.commit().unwrap();
    assert_eq!(requester.held(w.area), Ok(Mode::IX)); // What it got on its way stays.
    is_usable(&w, requester, record, Mode::NL);
}

/// A path is dropped in the main table, on its way to a part.
#[test]
fn a_future_is_dropped_on_its_way() {
    let w = World::new();
    let (bell, waker) = bell(&w);
    let (mut strong, mut requester) = (w.begin(), w.begin());
    let (name, record) = (requester.txn(), w.records[0][0]);
    strong.lock_path(w.area, Mode::S).unwrap();
    {
        let mut lock = pin!(requester.lock_path_async(record, Mode::X));
        assert_eq!(poll(&mut lock, &waker), Poll::Pending);
        assert!(w.waits(0, name));
    }
    assert!(!w.waits(0, name));
    strong.commit().unwrap();
    assert_eq!(bell.rung(), 0);
    is_usable(&w, requester, record, Mode::NL);
}

/// Dropped at the moment of its grant: the lock is the transaction's.
#[test]
fn a_future_is_dropped_at_its_grant() {
    let w = World::new();
    let (bell, waker) = bell(&w);
    let (mut holder, mut requester) = (w.begin(), w.begin());
    let record = w.records[0][0];
    holder.lock_path(record, Mode::X).unwrap();
    {
        let mut lock = pin!(requester.lock_path_async(record, Mode::X));
        assert_eq!(poll(&mut lock, &waker), Poll::Pending);
        holder.commit().unwrap();
    }
    assert_eq!(bell.rung(), 1);
    is_usable(&w, requester, record, Mode::X);
}

/// One that was never polled has asked for nothing.
#[test]
fn a_future_is_dropped_before_it_asks() {
    let w = World::new();
    let mut requester = w.begin();
    drop(requester.lock_path_async(w.files[0], Mode::X));
    is_usable(&w, requester, w.files[0], Mode::NL);
}

/// One that is leaked waits on, and all calls of its session are refused, until the wait ends.
#[test]
fn a_future_is_leaked() {
    let w = World::new();
    let (bell, waker) = bell(&w);
    for is_granted in [false, true] {
        let (mut holder, mut requester) = (w.begin(), w.begin());
        let record = w.records[0][0];
        holder.lock_path(record, Mode::X).unwrap();
        let mut lock = Box::pin(requester.lock_path_async(record, Mode::X));
        assert_eq!(poll(&mut lock.as_mut(), &waker), Poll::Pending);
        std::mem::forget(lock);
        refuses_all(&w, &mut requester);
        let before = bell.rung();
        if is_granted {
            holder.commit().unwrap();
            assert_eq!(bell.rung(), before + 1);
            is_usable(&w, requester, record, Mode::X);
        } else {
            assert_eq!(requester.commit(), Err(Refusal::TxnWaiting)); // It is dropped, and so aborted.
            assert_eq!(bell.rung(), before + 1);
            holder.commit().unwrap();
        }
    }
}

/// One that is dropped while its thread holds a table waits on too: no call can be made there.
#[test]
fn a_future_is_dropped_by_who_holds_a_table() {
    let w = World::new();
    let (bell, waker) = bell(&w);
    let (mut holder, mut requester) = (w.begin(), w.begin());
    let record = w.records[0][0];
    holder.lock_path(record, Mode::X).unwrap();
    let mut lock = Box::pin(requester.lock_path_async(record, Mode::X));
    assert_eq!(poll(&mut lock.as_mut(), &waker), Poll::Pending);
    w.group.with_table(2, |_| drop(lock)).unwrap();
    refuses_all(&w, &mut requester);
    let held = w
        .group
        .with_table(2, |_| is_ready(requester.lock_path_async(record, Mode::X)));
    assert_eq!(held, Ok(Err(Stop::Refused(Refusal::InUse))));
    holder.commit().unwrap();
    assert_eq!(bell.rung(), 0);
    is_usable(&w, requester, record, Mode::X);
}

/// Each call is refused with `TxnWaiting`.
fn refuses_all(w: &World, session: &mut GroupSession<'_>) {
    let waits = Refusal::TxnWaiting;
    let (record, file, index) = (w.records[1][0], w.files[1], w.indexes[1]);
    let stopped = Err(Stop::Refused(waits));
    assert_eq!(session.lock_path(record, Mode::S), stopped);
    assert_eq!(session.lock_path(w.base, Mode::S), stopped);
    assert_eq!(is_ready(session.lock_path_async(record, Mode::S)), stopped);
    let row = session.lock_row_path(w.row(2), &KEY, Mode::S);
    assert_eq!(row, Err(Stop::Refused(waits)));
    let row = is_ready(session.lock_row_path_async(w.row(2), &KEY, Mode::S));
    assert_eq!(row, Err(Stop::Refused(waits)));
    let tried = session.try_lock_path(record, Mode::S, Keep::Nothing);
    assert_eq!(tried, Err(waits));
    assert_eq!(session.unlock(record), Err(waits));
    assert_eq!(session.unlock_row(w.row(2)), Err(waits));
    assert_eq!(session.escalate(file), Err(waits));
    assert_eq!(session.insert(file, &[50]), Err(waits));
    assert_eq!(session.delete(record), Err(waits));
    assert_eq!(session.rekey(record, index, 50), Err(waits));
    assert_eq!(session.mark().map(drop), Err(waits));
    assert_eq!(session.drop_node(file), Err(waits));
    assert_eq!(session.index_by(&[w.base], file, &[]), Err(waits));
    assert_eq!(session.held(record), Err(waits));
    assert_eq!(session.set_deadline(None), Err(waits));
    assert_eq!(session.renew(1), Err(waits));
}

/// While a future is dropped another thread ends its wait, in a part or in the main table on the way to it: it waited, or
/// holds the lock; and its session can be used at once.
#[test]
fn drops_and_grants() {
    for is_on_its_way in [false, true] {
        races(is_on_its_way, |mut session, record, before_drop, waker| {
            let mut lock = Box::pin(session.lock_path_async(record, Mode::X));
            assert_eq!(poll(&mut lock.as_mut(), waker), Poll::Pending);
            before_drop();
            drop(lock);
            session
        });
    }
}

/// The same of a future whose time comes at that moment: it is answered the grant, or that it was late.
#[test]
fn late_times_and_grants() {
    for is_on_its_way in [false, true] {
        races(is_on_its_way, |mut session, record, before, waker| {
            let soon = Instant::now() + Duration::from_micros(200);
            session.set_deadline(Some(soon)).unwrap();
            {
                let mut lock = pin!(session.lock_path_async(record, Mode::X));
                let mut polled = poll(&mut lock, waker);
                before();
                while polled.is_pending() {
                    polled = poll(&mut lock, waker);
                }
                let is_end = matches!(polled, Poll::Ready(Ok(Mode::X) | Err(Stop::TimedOut)));
                assert!(is_end, "{polled:?}");
            }
            session.set_deadline(None).unwrap();
            session
        });
    }
}

/// Plays this with a requester of a record, whose wait another thread ends after the call of the third argument.
fn races(
    is_on_its_way: bool,
    play: impl Fn(GroupSession<'static>, Node, &mut dyn FnMut(), &Waker) -> GroupSession<'static>,
) {
    let w = World::new();
    let (bell, waker) = bell(&w);
    let (begun, ended) = (AtomicUsize::new(0), AtomicUsize::new(0));
    let await_count = |count: &AtomicUsize, wanted| {
        let limit = Instant::now() + PATIENCE;
        while count.load(Ordering::SeqCst) < wanted {
            assert!(Instant::now() < limit, "it does not come");
        }
    };
    thread::scope(|scope| {
        let (send, receive) = channel::<GroupSession<'static>>();
        let (begun, ended) = (&begun, &ended);
        scope.spawn(move || {
            for holder in receive {
                begun.fetch_add(1, Ordering::SeqCst);
                holder.commit().unwrap();
                ended.fetch_add(1, Ordering::SeqCst);
            }
        });
        for run in 1..=RUNS {
            let (mut holder, requester) = (w.begin_shared(), w.begin_shared());
            let record = w.records[run % PARTS][0];
            let (node, mode) = match is_on_its_way {
                true => (w.area, Mode::S),
                false => (record, Mode::X),
            };
            holder.lock_path(node, mode).unwrap();
            let mut holder = Some(holder);
            let mut begins = || {
                send.send(holder.take().unwrap()).unwrap();
                await_count(begun, run);
                for _ in 0..run % 64 {
                    std::hint::spin_loop();
                }
            };
            let mut requester = play(requester, record, &mut begins, &waker);
            let asked = is_ready(requester.lock_path_async(w.base, Mode::IX));
            assert_eq!(asked, Ok(Mode::IX));
            let held = requester.held(record);
            assert!(matches!(held, Ok(Mode::X | Mode::NL)), "{held:?}");
            await_count(ended, run);
            assert_eq!(requester.lock_path(record, Mode::X), Ok(Mode::X));
            requester.commit().unwrap();
        }
    });
    drop(waker);
    assert_eq!(Arc::strong_count(&bell), 1);
}

// ------------------------------------------------------------------------------------------------
// Wakers.

/// A waker that does this when it is woken.
struct Does(Mutex<Option<Box<dyn FnOnce() + Send>>>);

impl Does {
    fn waker(act: impl FnOnce() + Send + 'static) -> Waker {
        Waker::from(Arc::new(Does(Mutex::new(Some(Box::new(act))))))
    }
}

impl Wake for Does {
    fn wake(self: Arc<Does>) {
        let act = self.0.lock().unwrap().take();
        act.into_iter().for_each(|act| act());
    }
}

/// Has a waker of the group do this, in the thread that grants what its task waits for.
fn in_a_waker(w: &World, act: impl FnOnce() + Send + 'static) {
    let file = w.group.add_file(&[w.base]).unwrap();
    let (mut holder, mut waiter) = (w.begin(), w.begin());
    holder.lock_path(file, Mode::X).unwrap();
    let mut lock = pin!(waiter.lock_path_async(file, Mode::S));
    assert!(poll(&mut lock, &Does::waker(act)).is_pending());
    holder.commit().unwrap();
    assert_eq!(poll(&mut lock, &quiet()), Poll::Ready(Ok(Mode::S)));
}

/// Has a waker of a table do this.
fn in_a_waker_of_a_table(act: impl FnOnce() + Send + 'static) {
    let table = Table::new(Detect::AtBlock, 2).unwrap();
    let db = table.add_inner(&[]).unwrap();
    let (mut holder, mut waiter) = (table.begin().unwrap(), table.begin().unwrap());
    holder.lock(db, Mode::X).unwrap();
    let mut lock = pin!(waiter.lock_async(db, Mode::S));
    assert!(poll(&mut lock, &Does::waker(act)).is_pending());
    holder.commit().unwrap();
    assert!(poll(&mut lock, &quiet()).is_ready());
}

/// What never sleeps is done in a waker of a group or a table, and what could is refused.
fn calls_the_group(group: &Arc<Group>, mut session: GroupSession<'static>, w: &Names) {
    let in_use = Err(Stop::Refused(Refusal::InUse));
    let s = &mut session;
    assert_eq!(s.lock_path(w.record, Mode::S), in_use);
    let timed = s.lock_path_timeout(w.base, Mode::S, Duration::ZERO);
    assert_eq!(timed, in_use);
    let row = s.lock_row_path(w.row, &KEY, Mode::S);
    assert_eq!(row, Err(Stop::Refused(Refusal::InUse)));
    assert_eq!(group.begin_in_turn().err(), Some(Refusal::InUse));
    let begun = group.begin_shared_timeout(Duration::ZERO);
    assert_eq!(begun.map(drop), Err(Stop::Refused(Refusal::InUse)));
    let list = [Do::LockPath(w.record.into(), Mode::S)];
    let mut answers = Answers::new();
    assert_eq!(s.run(&list, &mut answers), Ok(()));
    assert_eq!(s.await_lock(&mut answers), Err(Refusal::NotWaiting.into()));
    s.unlock(w.record).unwrap();

    let tried = s.try_lock_path(w.record, Mode::X, Keep::Nothing);
    assert_eq!(tried, Ok(Tried::Locked(Mode::X)));
    assert_eq!(s.held(w.record), Ok(Mode::X));
    let strong = is_ready(s.lock_path_async(w.base, Mode::S));
    assert!(matches!(strong, Ok(Mode::S | Mode::SIX)));
    assert_eq!(is_ready(s.lock_row_path_async(w.row, &KEY, Mode::X)), OWN);
    s.set_deadline(Some(Instant::now())).unwrap();
    s.mark().unwrap();
    assert_eq!(group.with_table(1, |m| m.is_empty()), Ok(false));
    let name = group.name_in(w.record, 1).unwrap();
    assert_eq!(group.name_of(name, 1), Ok(w.record));
    assert_eq!(group.cancel(s.txn()), Err(Refusal::NotWaiting));
    assert_eq!(group.expire(), None);
    group.begin_shared().unwrap().commit().unwrap();
    s.renew(1).unwrap();
    session.commit().unwrap();
}

/// Nodes of a world.
struct Names {
    base: Node,
    record: Node,
    row: Row,
}

#[test]
fn a_waker_calls_the_group() {
    for is_of_a_table in [false, true] {
        let w = World::new();
        let (group, session) = (Arc::clone(&w.group), w.begin_shared());
        let names = Names {
            base: w.base,
            record: w.records[0][0],
            row: w.row(1),
        };
        let is_done = Arc::new(AtomicBool::new(false));
        let done = Arc::clone(&is_done);
        let act = move || {
            calls_the_group(&group, session, &names);
            done.store(true, Ordering::SeqCst);
        };
        match is_of_a_table {
            true => in_a_waker_of_a_table(act),
            false => in_a_waker(&w, act),
        }
        assert!(is_done.load(Ordering::SeqCst));
    }
}

/// Has the function that hears of long waits of a table do this.
fn in_a_listener(act: impl FnOnce() + Send + 'static) {
    let table = Table::new(Detect::AtBlock, 2).unwrap();
    let db = table.add_inner(&[]).unwrap();
    let (done, hears) = channel();
    let act = Mutex::new(Some((act, done)));
    let listener = move |_| {
        let act = act.lock().unwrap().take();
        act.into_iter().for_each(|(act, done)| {
            act();
            done.send(()).unwrap();
        });
    };
    table
        .on_long_wait(Duration::from_millis(1), listener)
        .unwrap();
    let (mut holder, mut waiter) = (table.begin().unwrap(), table.begin().unwrap());
    holder.lock(db, Mode::X).unwrap();
    thread::scope(|scope| {
        scope.spawn(|| waiter.lock(db, Mode::S).unwrap());
        let heard = hears.recv_timeout(PATIENCE);
        holder.commit().unwrap();
        heard.unwrap();
    });
}

type Act = Box<dyn FnOnce() + Send>;

/// A wait that begins where no call may sleep, and whose future is dropped there, is over after that; until then its
/// session may do nothing. If the session is dropped there too, it is aborted after that.
#[test]
fn a_future_is_dropped_where_no_call_may_sleep() {
    let places: [fn(&World, Act); 3] = [
        |w, act| in_a_waker(w, act),
        |_, act| in_a_waker_of_a_table(act),
        |_, act| in_a_listener(act),
    ];
    for (place, drops_session) in places.iter().flat_map(|it| [(it, false), (it, true)]) {
        let w = World::new();
        let (mut holder, mut waiter) = (w.begin(), w.begin_shared());
        let (record, other) = (w.records[0][0], w.records[1][0]);
        holder.lock_path(record, Mode::X).unwrap();
        waiter.lock_path(other, Mode::X).unwrap();
        let back = Arc::new(Mutex::new(None));
        let given = Arc::clone(&back);
        let act = move || {
            let mut lock = Box::pin(waiter.lock_path_async(record, Mode::X));
            assert!(poll(&mut lock.as_mut(), &quiet()).is_pending());
            drop(lock);
            assert_eq!(waiter.held(record), Err(Refusal::TxnWaiting));
            let asked = is_ready(waiter.lock_path_async(other, Mode::X));
            assert_eq!(asked, Err(Stop::Refused(Refusal::TxnWaiting)));
            if !drops_session {
                *given.lock().unwrap() = Some(waiter);
            }
        };
        place(&w, Box::new(act));
        holder.commit().unwrap();
        match back.lock().unwrap().take() {
            Some(waiter) => is_usable(&w, waiter, record, Mode::NL),
            None => assert!(drops_session),
        }
        assert_eq!(w.living(2), 0);
    }
}

/// A future whose time is over within a waker is woken with that after it.
#[test]
fn a_time_is_over_within_a_waker() {
    let w = World::new();
    let (mut holder, mut waiter) = (w.begin(), w.begin_shared());
    let record = w.records[0][0];
    holder.lock_path(record, Mode::X).unwrap();
    waiter.set_deadline(Some(Instant::now())).unwrap();
    let (bell, waker) = bell(&w);
    let mut task: Task = Box::pin(async move {
        let end = waiter.lock_path_async(record, Mode::X).await;
        assert_eq!(end, Err(Stop::TimedOut));
        waiter.commit().unwrap();
    });
    let back = Arc::new(Mutex::new(None));
    let (given, own) = (Arc::clone(&back), waker.clone());
    in_a_waker(&w, move || {
        assert!(poll(&mut task.as_mut(), &own).is_pending());
        *given.lock().unwrap() = Some(task);
    });
    assert_eq!(bell.rung(), 1);
    let mut task = back.lock().unwrap().take().unwrap();
    assert!(poll(&mut task.as_mut(), &waker).is_ready());
    holder.commit().unwrap();
}

/// One call ends the waits of two tasks, and the waker of the one that is told first drops the other with its session.
#[test]
fn a_task_is_dropped_whose_end_is_not_told_yet() {
    let w = World::new();
    let (mut holder, record) = (w.begin(), w.records[0][0]);
    holder.lock_path(record, Mode::X).unwrap();
    let mut sessions = [w.begin_shared(), w.begin_shared()];
    sessions.sort_by_key(|session| session.txn().slot());
    let waits = |mut session: GroupSession<'static>| -> Task {
        Box::pin(async move {
            assert_eq!(session.lock_path_async(record, Mode::S).await, Ok(Mode::S));
            session.commit().unwrap();
        })
    };
    let [mut first, mut second] = sessions.map(waits);
    let (bell, waker) = bell(&w);
    assert!(poll(&mut second.as_mut(), &waker).is_pending());
    let drops = Does::waker(move || drop(second));
    assert!(poll(&mut first.as_mut(), &drops).is_pending());
    holder.commit().unwrap();
    assert_eq!(bell.rung(), 0);
    assert_eq!(w.living(1), 1); // The second has ended.
    assert!(poll(&mut first.as_mut(), &waker).is_ready());
    assert_eq!(w.begin().lock_path(record, Mode::X), Ok(Mode::X));
}

/// The panic of a waker continues after the call that woke it, which has done all; others are woken too.
#[test]
fn a_waker_panics() {
    let w = World::new();
    let (mut holder, record) = (w.begin(), w.records[0][0]);
    holder.lock_path(record, Mode::X).unwrap();
    let (bell, waker) = bell(&w);
    let panics = Does::waker(|| panic!("as it is wanted"));
    let mut sessions = [w.begin(), w.begin()];
    let [first, second] = &mut sessions;
    let mut first = pin!(first.lock_path_async(record, Mode::S));
    let mut second = pin!(second.lock_path_async(record, Mode::S));
    assert!(poll(&mut first, &panics).is_pending());
    assert!(poll(&mut second, &waker).is_pending());
    let died = catch_unwind(AssertUnwindSafe(|| holder.commit()));
    assert!(died.is_err());
    assert_eq!(bell.rung(), 1);
    assert_eq!(poll(&mut first, &waker), Poll::Ready(Ok(Mode::S)));
    assert_eq!(poll(&mut second, &waker), Poll::Ready(Ok(Mode::S)));
}

/// A renewal during which a waker panics is done.
#[test]
fn a_waker_panics_in_a_renewal() {
    let w = World::new();
    let (mut holder, mut waiter) = (w.begin(), w.begin());
    let (before, record) = (holder.txn(), w.records[0][0]);
    holder.lock_path(record, Mode::X).unwrap();
    let panics = Does::waker(|| panic!("as it is wanted"));
    let mut lock = pin!(waiter.lock_path_async(record, Mode::S));
    assert!(poll(&mut lock, &panics).is_pending());
    let died = catch_unwind(AssertUnwindSafe(|| holder.renew(u64::MAX)));
    assert!(died.is_err());
    assert_ne!(holder.txn(), before);
    assert_eq!(holder.held(record), Ok(Mode::NL));
    holder.commit().unwrap();
    assert_eq!(poll(&mut lock, &quiet()), Poll::Ready(Ok(Mode::S)));
}

/// A task that its waker polls at once, in the thread that wakes.
struct Inline(Mutex<Option<Task>>);

impl Wake for Inline {
    fn wake(self: Arc<Inline>) {
        let waker = Waker::from(Arc::clone(&self));
        let mut task = self.0.lock().unwrap();
        let polled = task
            .as_mut()
            .map(|task| task.as_mut().poll(&mut Context::from_waker(&waker)));
        if polled.is_some_and(|polled| polled.is_ready()) {
            *task = None;
        }
    }
}

#[test]
fn a_waker_polls_at_once() {
    let w = World::new();
    let mut holder = w.begin();
    holder.lock_path(w.base, Mode::S).unwrap();
    let records = w.records;
    let tasks: Vec<_> = (0..20)
        .map(|number| {
            let mut session = w.begin_shared();
            let task: Task = Box::pin(async move {
                for (part, [record, _]) in records.into_iter().enumerate() {
                    let end = session.lock_path_async(record, Mode::X).await;
                    assert_eq!(end, Ok(Mode::X));
                    if number % 3 == part {
                        break;
                    }
                }
                session.commit().unwrap();
            });
            let task = Arc::new(Inline(Mutex::new(Some(task))));
            Arc::clone(&task).wake();
            task
        })
        .collect();
    holder.commit().unwrap();
    assert!(tasks.iter().all(|task| task.0.lock().unwrap().is_none()));
}

// ------------------------------------------------------------------------------------------------
// Deadlines and renewals.

#[test]
fn deadlines_hold_in_each_table() {
    let w = World::new();
    let (mut holder, mut session) = (w.begin(), w.begin());
    let [one, two, three] = w.records.map(|[record, _]| record);
    for record in [one, two] {
        holder.lock_path(record, Mode::X).unwrap();
    }
    session.lock_path(w.files[1], Mode::IS).unwrap();
    session.set_deadline(Some(Instant::now())).unwrap();
    let late = Err(Stop::TimedOut);
    let far = Duration::from_secs(60);
    assert_eq!(session.lock_path(one, Mode::S), late);
    assert_eq!(session.lock_path_timeout(two, Mode::S, far), late);
    assert_eq!(session.lock_path(w.area, Mode::X), late);
    assert_eq!(is_ready(session.lock_path_async(two, Mode::S)), late);
    assert_eq!(session.lock_path(three, Mode::X), Ok(Mode::X)); // It need not wait.
    session.renew(u64::MAX).unwrap(); // The deadline stays.
    assert_eq!(session.lock_path(one, Mode::S), late);
    assert_eq!(is_ready(session.lock_path_async(one, Mode::S)), late);
    session.set_deadline(None).unwrap();
    session.renew(u64::MAX).unwrap();
    let name = session.txn();
    thread::scope(|scope| {
        let sleeper = scope.spawn(|| session.lock_path(one, Mode::S));
        w.await_wait(1, name);
        holder.commit().unwrap();
        assert_eq!(sleeper.join().unwrap(), Ok(Mode::S));
    });
    session.commit().unwrap();
}

/// A thread that has a clock ends the waits of tasks whose time is over, and is answered the next time.
#[test]
fn times_are_noticed() {
    let w = World::new();
    let (bell, waker) = bell(&w);
    let mut holder = w.begin();
    holder.lock_path(w.base, Mode::X).unwrap();
    let [mut one, mut two, mut three] = [(); 3].map(|()| w.begin());
    let far = Instant::now() + Duration::from_secs(60);
    let soon = Instant::now() + Duration::from_millis(2);
    one.set_deadline(Some(far)).unwrap();
    two.set_deadline(Some(soon)).unwrap();
    {
        let mut first = pin!(one.lock_path_async(w.records[0][0], Mode::S));
        let mut second = pin!(two.lock_path_async(w.records[1][0], Mode::S));
        let mut third = pin!(three.lock_path_async(w.records[1][0], Mode::S));
        assert!(poll(&mut first, &waker).is_pending());
        let is_late = poll(&mut second, &waker).is_ready(); // The machine may be slow.
        assert!(poll(&mut third, &waker).is_pending());
        thread::sleep(Duration::from_millis(3));
        let before = bell.rung();
        assert_eq!(w.group.expire(), Some(far));
        if !is_late {
            assert_eq!(bell.rung(), before + 1);
            let late = Poll::Ready(Err(Stop::TimedOut));
            assert_eq!(poll(&mut second, &waker), late);
        }
        holder.commit().unwrap();
        assert_eq!(poll(&mut first, &waker), Poll::Ready(Ok(Mode::S)));
        assert_eq!(poll(&mut third, &waker), Poll::Ready(Ok(Mode::S)));
    }
    assert_eq!(w.group.expire(), None);
    for session in [one, two, three] {
        session.commit().unwrap();
    }
}

/// A future that is polled when its time is over is late, and its task is not woken for that.
#[test]
fn a_poll_notices_the_time() {
    let w = World::new();
    let (bell, waker) = bell(&w);
    let (mut holder, mut session) = (w.begin(), w.begin());
    let record = w.records[0][0];
    holder.lock_path(record, Mode::X).unwrap();
    let soon = Instant::now() + Duration::from_millis(2);
    session.set_deadline(Some(soon)).unwrap();
    {
        let mut lock = pin!(session.lock_path_async(record, Mode::S));
        let mut polled = poll(&mut lock, &waker);
        assert!(polled.is_pending() || Instant::now() >= soon);
        while polled.is_pending() {
            thread::sleep(Duration::from_millis(1));
            polled = poll(&mut lock, &waker);
        }
        assert_eq!(polled, Poll::Ready(Err(Stop::TimedOut)));
        assert!(Instant::now() >= soon);
    }
    assert_eq!(bell.rung(), 0);
    session.set_deadline(None).unwrap();
    holder.commit().unwrap();
    is_usable(&w, session, record, Mode::NL);
}

#[test]
fn an_expiry_in_a_closure_panics() {
    let w = World::new();
    let expires = || w.group.with_table(1, |_| w.group.expire());
    let died = catch_unwind(AssertUnwindSafe(expires)).unwrap_err();
    let said = died.downcast_ref::<String>().unwrap();
    assert!(said.contains("this thread holds a table"));
    assert_eq!(w.group.expire(), None);
}

/// A renewal commits, and is another transaction of the same slot, also if no other slot is free.
#[test]
fn sessions_are_renewed() {
    let w = World::with(1);
    w.group.keep(16).unwrap();
    let mut session = w.begin();
    session.lock_path(w.records[0][0], Mode::X).unwrap();
    session.lock_path(w.area, Mode::S).unwrap();
    let (before, mark) = (session.txn(), session.mark().unwrap());
    session.renew(u64::MAX).unwrap();
    let name = session.txn();
    assert!(name.slot() == before.slot() && name.age() > before.age());
    assert_eq!(session.held(w.records[0][0]), Ok(Mode::NL));
    assert_eq!(session.held(w.area), Ok(Mode::NL)); // It was more than an intention, so nothing was kept.
    assert_eq!(session.release_since(mark), Err(Refusal::NoSuchTxn));
    assert_eq!(w.group.cancel(before), Err(Refusal::NoSuchTxn));
    session.lock_path(w.records[0][0], Mode::X).unwrap();
    session.renew(u64::MAX).unwrap();
    session.lock_path(w.records[0][1], Mode::S).unwrap();
    assert_eq!(session.held(w.files[0]), Ok(Mode::IX)); // It was kept.
    session.abort();
    w.group.keep(0).unwrap();
}

// ------------------------------------------------------------------------------------------------
// Deadlocks over several tables.

/// Two tasks wait for each other in two parts, until this ends that: the younger falls.
fn cross(ends: impl FnOnce(&World, &Bell)) {
    let w = World::new();
    let (bell, waker) = bell(&w);
    let [mut older, mut younger] = w.begin_two();
    let [one, two, three] = w.records.map(|[record, _]| record);
    older.lock_path(one, Mode::X).unwrap();
    younger.lock_path(two, Mode::X).unwrap();
    {
        let mut granted = pin!(older.lock_path_async(two, Mode::X));
        {
            let mut victim = pin!(younger.lock_path_async(one, Mode::X));
            assert!(poll(&mut granted, &waker).is_pending());
            assert!(poll(&mut victim, &waker).is_pending());
            ends(&w, &bell);
            assert_eq!(bell.rung(), 1);
            assert!(poll(&mut granted, &waker).is_pending());
            assert_eq!(poll(&mut victim, &waker), Poll::Ready(Err(Stop::Victim)));
        }
        let condemned = Err(Stop::Refused(Refusal::TxnCondemned));
        assert_eq!(younger.lock_path(three, Mode::S), condemned);
        let asked = is_ready(younger.lock_path_async(three, Mode::S));
        assert_eq!(asked, condemned);
        assert_eq!(younger.set_deadline(None), Err(Refusal::TxnCondemned));
        assert_eq!(younger.renew(1), Err(Refusal::TxnCondemned));
        assert_eq!(younger.commit(), Err(Refusal::TxnCondemned)); // It is dropped, and so aborted.
        assert_eq!(bell.rung(), 2);
        assert_eq!(poll(&mut granted, &waker), Poll::Ready(Ok(Mode::X)));
    }
    older.commit().unwrap();
}

#[test]
fn a_deadlock_of_tasks_is_ended_by_an_expiry() {
    cross(|w, bell| {
        await_that(|| {
            assert_eq!(w.group.expire(), None);
            bell.rung() > 0
        });
    });
}

/// The thread that watches returns at the end of the watch; a group has one such thread.
#[test]
fn a_deadlock_of_tasks_is_settled() {
    cross(|w, bell| {
        let name = w.begin().txn();
        assert_eq!(w.group.settle(name), Err(Refusal::NoSuchTxn));
        let own = w.begin();
        assert_eq!(w.group.settle(own.txn()), Ok(1));
        assert_eq!(bell.rung(), 1);
    });
}

#[test]
fn a_deadlock_of_tasks_is_ended_by_a_watch() {
    cross(|w, bell| {
        let rest = Duration::from_micros(500);
        thread::scope(|scope| {
            let watches = [(); 2].map(|()| scope.spawn(move || w.group.watch_over(rest)));
            await_that(|| bell.rung() > 0);
            let refused = w.group.with_table(1, |_| w.group.watch_over(rest));
            assert_eq!(refused, Ok(Err(Refusal::InUse)));
            assert!(watches.iter().all(|watch| !watch.is_finished()));
            w.group.end_watch();
            for watch in watches {
                assert_eq!(watch.join().unwrap(), Ok(()));
            }
        });
        assert_eq!(w.group.watch_over(rest), Ok(())); // It is over.
    });
}

/// A thread that sleeps in a third part looks too.
#[test]
fn a_deadlock_of_tasks_is_ended_by_a_sleeper() {
    cross(|w, bell| {
        let (mut holder, mut waiter) = (w.begin(), w.begin());
        holder.lock_path(w.records[2][0], Mode::X).unwrap();
        thread::scope(|scope| {
            let sleeper = scope.spawn(|| waiter.lock_path(w.records[2][0], Mode::S));
            await_that(|| bell.rung() > 0);
            holder.commit().unwrap();
            assert_eq!(sleeper.join().unwrap(), Ok(Mode::S));
        });
        waiter.commit().unwrap();
    });
}

/// A cycle within one part ends as it arises, by the task that closes it or of another.
#[test]
fn a_deadlock_within_a_part_ends_at_once() {
    for older_closes in [false, true] {
        let w = World::new();
        let (bell, waker) = bell(&w);
        let [mut older, mut younger] = w.begin_two();
        let [low, high] = w.records[1];
        older.lock_path(low, Mode::X).unwrap();
        younger.lock_path(high, Mode::X).unwrap();
        let mut granted = pin!(older.lock_path_async(high, Mode::X));
        {
            let mut victim = pin!(younger.lock_path_async(low, Mode::X));
            if older_closes {
                assert!(poll(&mut victim, &waker).is_pending());
                assert!(poll(&mut granted, &waker).is_pending());
                assert_eq!(bell.rung(), 1);
            } else {
                assert!(poll(&mut granted, &waker).is_pending());
            }
            let fell = Poll::Ready(Err(Stop::Victim));
            assert_eq!(poll(&mut victim, &waker), fell);
        }
        drop(younger);
        assert_eq!(poll(&mut granted, &waker), Poll::Ready(Ok(Mode::X)));
    }
}

// ------------------------------------------------------------------------------------------------
// Groups that are dropped.

/// A waker whose last copy is seen to be dropped.
struct Kept(Arc<AtomicUsize>);

impl Wake for Kept {
    fn wake(self: Arc<Kept>) {
        self.0.fetch_add(1, Ordering::SeqCst);
    }
}

/// A group with a task that waits until the group ends, since its future and sessions were leaked; its waker, to be looked
/// for; and how often that was woken.
fn with_a_leaked_future() -> (Group, Weak<Kept>, Arc<AtomicUsize>) {
    let group = Group::new(1).unwrap();
    let base = group.add_inner(&[]).unwrap();
    let file = group.add_file(&[base]).unwrap();
    let woken = Arc::new(AtomicUsize::new(0));
    let kept = Arc::new(Kept(Arc::clone(&woken)));
    let left = Arc::downgrade(&kept);
    let mut holder = group.begin().unwrap();
    holder.lock_path(file, Mode::X).unwrap();
    std::mem::forget(holder);
    leaks(group.begin().unwrap(), file, Waker::from(kept));
    (group, left, woken)
}

/// A session waits for X on a node, and nobody awaits it.
fn leaks(mut session: GroupSession<'_>, node: Node, waker: Waker) {
    let mut lock = Box::pin(session.lock_path_async(node, Mode::X));
    assert!(poll(&mut lock.as_mut(), &waker).is_pending());
    std::mem::forget(lock);
    std::mem::forget(session);
}

/// The drop of a group ends all waits, wherever it is dropped: where no call may sleep another thread does so.
#[test]
fn a_group_is_dropped() {
    let w = World::new();
    let drops: [&dyn Fn(Group); 4] = [
        &|group| drop(group),
        &|group| w.group.with_table(1, |_| drop(group)).unwrap(),
        &|group| in_a_waker(&w, move || drop(group)),
        &|group| in_a_waker_of_a_table(move || drop(group)),
    ];
    for drops in drops {
        let (group, left, woken) = with_a_leaked_future();
        drops(group);
        await_that(|| left.upgrade().is_none());
        assert_eq!(woken.load(Ordering::SeqCst), 1);
    }
}

/// The panic of a waker continues after the drop of its group.
#[test]
fn a_waker_panics_as_its_group_is_dropped() {
    let group = Group::new(1).unwrap();
    let base = group.add_inner(&[]).unwrap();
    let mut holder = group.begin().unwrap();
    holder.lock_path(base, Mode::X).unwrap();
    std::mem::forget(holder);
    let panics = Does::waker(|| panic!("as it is wanted"));
    leaks(group.begin().unwrap(), base, panics);
    assert!(catch_unwind(AssertUnwindSafe(|| drop(group))).is_err());
}

/// The last owner of a group is the waker of a victim, which the group's own thread wakes.
#[test]
fn a_group_is_dropped_by_its_own_thread() {
    let group = Arc::new(Group::new(2).unwrap());
    let base = group.add_inner(&[]).unwrap();
    let [one, two] = [1, 2].map(|part| group.add_file_in(part, &[base]).unwrap());
    let kept = Arc::new(Kept(Arc::default()));
    let left = Arc::downgrade(&kept);
    let is_woken = Arc::new(AtomicBool::new(false));
    let is_alone = Arc::new(AtomicBool::new(false));
    let (woken, alone) = (Arc::clone(&is_woken), Arc::clone(&is_alone));
    let own = Arc::clone(&group);
    let drops = Does::waker(move || {
        woken.store(true, Ordering::SeqCst);
        while !alone.load(Ordering::SeqCst) {
            thread::yield_now();
        }
        drop(own);
    });
    let mut older = group.begin().unwrap();
    let mut younger = group.begin_again(older.txn().age() + 1).unwrap();
    older.lock_path(one, Mode::X).unwrap();
    younger.lock_path(two, Mode::X).unwrap();
    leaks(older, two, Waker::from(kept));
    leaks(younger, one, drops);
    thread::scope(|scope| {
        scope.spawn(|| group.watch_over(Duration::from_micros(100)).unwrap());
        await_that(|| is_woken.load(Ordering::SeqCst));
        group.end_watch();
    });
    drop(group);
    assert!(left.upgrade().is_some());
    is_alone.store(true, Ordering::SeqCst);
    await_that(|| left.upgrade().is_none());
}

// ------------------------------------------------------------------------------------------------
// Begins in turn.

/// A thread that begins in turn, by its name among those of the process.
#[cfg(target_os = "linux")]
mod turns {
    use super::*;
    use std::fs;

    /// The name of this thread.
    fn own_task() -> String {
        let name = fs::read_link("/proc/thread-self").unwrap();
        format!("/proc/{}", name.to_str().unwrap())
    }

    /// Whether a thread sleeps.
    fn sleeps(task: &str) -> bool {
        let status = fs::read_to_string(format!("{task}/stat")).unwrap_or_default();
        let state = status
            .rsplit(") ")
            .next()
            .and_then(|rest| rest.chars().next());
        state == Some('S')
    }

    /// Threads that sleep for a slot are served in order of arrival, and nobody who came later is before them.
    #[test]
    fn begins_are_served_in_order() {
        let w = World::with(2);
        let mut living = vec![w.begin_shared(), w.begin_shared()];
        let soon = Duration::from_millis(2);
        let late = w.group.begin_timeout(soon).map(drop);
        assert_eq!(late, Err(Stop::TimedOut));
        let ((names, named), (begun, begins)) = (channel(), channel());
        thread::scope(|scope| {
            for number in 0..3 {
                let (w, names, begun) = (&w, names.clone(), begun.clone());
                scope.spawn(move || {
                    names.send(own_task()).unwrap();
                    let session = w.group.begin_shared_in_turn().unwrap();
                    begun.send((number, session)).unwrap();
                });
                let task: String = named.recv().unwrap();
                await_that(|| sleeps(&task));
            }
            let late = w.group.begin_shared_timeout(soon).map(drop);
            assert_eq!(late, Err(Stop::TimedOut));
            for number in 0..3 {
                assert_eq!(w.group.begin().err(), Some(Refusal::TooManyTxns));
                assert!(begins.try_recv().is_err());
                living.remove(0).commit().unwrap();
                let (served, session) = begins.recv_timeout(PATIENCE).unwrap();
                assert_eq!(served, number);
                living.push(session);
            }
        });
        drop(living);
        w.group.begin_in_turn().unwrap().commit().unwrap();
    }
}

/// Tasks and threads that wait for a slot are in one queue; a begin whose future is dropped is taken back, or ended.
#[test]
fn tasks_begin_in_turn() {
    let w = World::with(1);
    let only = w.begin();
    let (bell, waker) = bell(&w);
    let mut first = pin!(w.group.begin_async());
    let mut second = pin!(w.group.begin_shared_async());
    {
        let mut dropped = pin!(w.group.begin_again_async(1));
        assert!(poll(&mut first, &waker).is_pending());
        assert!(poll(&mut dropped, &waker).is_pending());
        assert!(poll(&mut second, &waker).is_pending());
    }
    assert_eq!(w.group.begin().err(), Some(Refusal::TooManyTxns));
    only.commit().unwrap();
    assert_eq!(bell.rung(), 1);
    assert!(poll(&mut second, &waker).is_pending());
    let Poll::Ready(begun) = poll(&mut first, &waker) else {
        panic!("it is its turn");
    };
    {
        let mut third = pin!(w.group.begin_shared_again_async(1));
        assert!(poll(&mut third, &waker).is_pending());
        begun.unwrap().commit().unwrap();
        let Poll::Ready(begun) = poll(&mut second, &waker) else {
            panic!("it is its turn");
        };
        drop(begun.unwrap());
        assert_eq!(bell.rung(), 3); // The third has begun, and is dropped so.
    }
    is_ready(w.group.begin_async()).unwrap().commit().unwrap();
}

/// A begin ends with the group, or with the waker of another that drops its future.
#[test]
fn a_begin_is_dropped_in_a_waker() {
    let w = World::with(1);
    let mut only = Some(w.begin_shared());
    let group = Arc::clone(&w.group);
    let waits = Arc::new(Mutex::new(None::<Task>));
    let drops = Arc::clone(&waits);
    let waker = Does::waker(move || drop(drops.lock().unwrap().take()));
    let mut first = pin!(w.group.begin_async());
    assert!(poll(&mut first, &waker).is_pending());
    let mut begin: Task = Box::pin(async move { drop(group.begin_async().await) });
    assert!(poll(&mut begin.as_mut(), &quiet()).is_pending());
    *waits.lock().unwrap() = Some(begin);
    drop(only.take());
    let Poll::Ready(begun) = poll(&mut first, &quiet()) else {
        panic!("it is its turn");
    };
    begun.unwrap().commit().unwrap();
    is_ready(w.group.begin_async()).unwrap().commit().unwrap();
}

/// A begin whose future is leaked ends with its group.
#[test]
fn a_leaked_begin_ends_with_its_group() {
    let options = Options::new(Detect::AtBlock).transactions(1);
    let group = Group::with_options(options, 2).unwrap();
    let (bell, waker) = Bell::that(|| ());
    let only = group.begin().unwrap();
    let mut leaked = Box::pin(group.begin_async());
    assert!(poll(&mut leaked.as_mut(), &waker).is_pending());
    std::mem::forget(leaked);
    std::mem::forget(only);
    drop(waker);
    drop(group);
    assert_eq!(bell.rung(), 1);
}

/// Work that begins again in its turn counts as old as its first transaction.
#[test]
fn work_begins_again_in_turn() {
    let w = World::with(2);
    let mut first = w.begin_shared();
    let since = first.txn().age();
    let mut other = w.group.begin_again(since + 1).unwrap();
    first.renew(since).unwrap(); // So the next age of its slot is above that of the other.
    first.renew(since).unwrap();
    let [low, high] = w.records[0];
    let mut again = thread::scope(|scope| {
        let begins = scope.spawn(|| w.group.begin_again_in_turn(since).unwrap());
        thread::sleep(Duration::from_millis(1));
        first.abort();
        begins.join().unwrap()
    });
    assert!(again.txn().age() > since + 1);
    again.lock_path(low, Mode::X).unwrap();
    other.lock_path(high, Mode::X).unwrap();
    let (_bell, waker) = bell(&w);
    {
        let mut granted = pin!(again.lock_path_async(high, Mode::X));
        assert!(poll(&mut granted, &waker).is_pending());
        assert_eq!(other.lock_path(low, Mode::X), Err(Stop::Victim));
        other.abort();
        assert_eq!(poll(&mut granted, &waker), Poll::Ready(Ok(Mode::X)));
    }
    again.commit().unwrap();
}

/// Threads and tasks over fewer slots: all are served, and sessions may own the group.
#[test]
fn no_turn_is_lost() {
    const EACH: usize = 100;
    let w = World::with(2);
    let count = AtomicUsize::new(0);
    thread::scope(|scope| {
        for number in 0..6 {
            let (w, count) = (&w, &count);
            scope.spawn(move || {
                for round in 0..EACH {
                    let mut session = match round % 3 {
                        0 => w.group.begin_shared_in_turn().unwrap(),
                        1 => w.group.begin_shared_again_in_turn(1).unwrap(),
                        _ => w.group.begin_shared_timeout(PATIENCE).unwrap(),
                    };
                    let record = w.records[number % PARTS][0];
                    let end = match number % 2 {
                        0 => session.lock_path(record, Mode::X),
                        _ => block_on(session.lock_path_async(record, Mode::X)),
                    };
                    assert_eq!(end, Ok(Mode::X));
                    session.commit().unwrap();
                    count.fetch_add(1, Ordering::SeqCst);
                }
            });
        }
    });
    assert_eq!(count.into_inner(), 6 * EACH);
}

// ------------------------------------------------------------------------------------------------
// A crowd.

fn is_send<T: Send>(value: T) -> T {
    value
}

/// Futures go from thread to thread, as runtimes want.
#[test]
fn futures_are_sent() {
    let w = World::new();
    let mut session = w.begin_shared();
    let end = block_on(is_send(session.lock_path_async(w.area, Mode::IX)));
    assert_eq!(end, Ok(Mode::IX));
    let own = block_on(is_send(session.lock_row_path_async(
        w.row(2),
        &KEY,
        Mode::X,
    )));
    assert_eq!(own, OWN);
    let mut answers = Answers::new();
    drop(is_send(session.await_lock_async(&mut answers)));
    drop(is_send(session.run_to_end_async(&[], &mut answers)));
    drop(is_send(w.group.begin_async()));
    let (record, group) = (w.records[0][0], Arc::clone(&w.group));
    let begun = thread::spawn(move || block_on(is_send(group.begin_shared_async())));
    begun.join().unwrap().unwrap().commit().unwrap();
    let task = is_send(async move {
        let end = session.lock_path_async(record, Mode::X).await;
        (end, session.commit())
    });
    let sent = thread::spawn(move || block_on(task));
    assert_eq!(sent.join().unwrap(), (Ok(Mode::X), Ok(())));
}

/// Polls a future once, and drops it where it waits then.
struct Once<F>(F);

impl<F: Future + Unpin> Future for Once<F> {
    type Output = Option<F::Output>;

    fn poll(mut self: Pin<&mut Self>, context: &mut Context<'_>) -> Poll<Self::Output> {
        match Pin::new(&mut self.0).poll(context) {
            Poll::Ready(end) => Poll::Ready(Some(end)),
            Poll::Pending => Poll::Ready(None),
        }
    }
}

/// How many accounts there are.
const ACCOUNTS: usize = 2 * PARTS;

/// The accounts are the rows with these numbers of files by turns.
fn account(w: &World, place: usize) -> Row {
    Row {
        file: w.row_files[place % PARTS],
        number: place as u64,
    }
}

/// Moves one from an account to another, by rows in parts that may differ. Now and then it gives up a lock that waits, and
/// asks again.
async fn transfer(w: &World, sums: &[AtomicI64], [from, to]: [usize; 2]) {
    let mut since = u64::MAX;
    loop {
        let mut session = w.group.begin_again_in_turn(since).unwrap();
        since = since.min(session.txn().age());
        let mut end = Ok(());
        for place in [from, to] {
            let row = account(w, place);
            if (from + to) % 3 == 0 {
                let once = Box::pin(session.lock_row_path_async(row, &KEY, Mode::X));
                let _ = Once(once).await;
            }
            end = session
                .lock_row_path_async(row, &KEY, Mode::X)
                .await
                .map(drop);
            if end.is_err() {
                break;
            }
        }
        match end {
            Ok(()) => {
                for (place, by) in [(from, -1), (to, 1)] {
                    let seen = sums[place].load(Ordering::Relaxed);
                    thread::yield_now();
                    sums[place].store(seen + by, Ordering::Relaxed);
                }
                return session.commit().unwrap();
            }
            Err(Stop::Victim | Stop::Refused(Refusal::TxnCondemned)) => session.abort(),
            Err(stop) => panic!("{stop}"),
        }
    }
}

/// Tasks move money between accounts of all parts, with deadlocks for which no thread sleeps, and who reads the base sees a
/// whole sum.
#[test]
fn a_crowd_of_tasks_keeps_the_sum() {
    for (keeps, is_watched) in [(0, true), (0, false), (16, true), (16, false)] {
        let w = World::with(8);
        w.group.keep(keeps).unwrap();
        crowd(&w, is_watched);
        w.group.keep(0).unwrap();
    }
}

/// One of those that are at work, which leaves as this is dropped, also by a panic.
struct AtWork<'a>(&'a AtomicUsize);

impl Drop for AtWork<'_> {
    fn drop(&mut self) {
        self.0.fetch_sub(1, Ordering::Relaxed);
    }
}

fn crowd(w: &World, is_watched: bool) {
    const TASKS: usize = 5;
    let sums = [const { AtomicI64::new(100) }; ACCOUNTS];
    let left = AtomicUsize::new(TASKS);
    let is_over = || left.load(Ordering::Relaxed) == 0;
    thread::scope(|scope| {
        for task in 0..TASKS {
            let (sums, left) = (&sums, &left);
            scope.spawn(move || {
                let _at_work = AtWork(left);
                for round in 0..60 {
                    let from = (7 * task + 3 * round) % ACCOUNTS;
                    let to = (from + 1 + (task + round) % (ACCOUNTS - 1)) % ACCOUNTS;
                    block_on(transfer(w, sums, [from, to]));
                }
            });
        }
        if is_watched {
            scope.spawn(|| w.group.watch_over(Duration::from_micros(500)).unwrap());
        }
        let mut reads = 0;
        while !is_over() || reads == 0 {
            if !is_watched {
                w.group.expire();
            }
            let mut session = w.group.begin_in_turn().unwrap();
            session
                .set_deadline(Instant::now().checked_add(Duration::from_millis(5)))
                .unwrap();
            match session.lock_path(w.base, Mode::S) {
                Ok(_) => {
                    let sum = |sum: &AtomicI64| sum.load(Ordering::Relaxed);
                    assert_eq!(sums.iter().map(sum).sum::<i64>(), 100 * ACCOUNTS as i64);
                    reads += 1;
                    session.commit().unwrap();
                }
                Err(stop) => assert!(matches!(stop, Stop::Victim | Stop::TimedOut)),
            }
            thread::sleep(Duration::from_millis(1));
        }
        w.group.end_watch();
    });
}
