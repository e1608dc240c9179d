//! Begins of tasks that wait for a slot: their turns, futures that are dropped while they wait and after their turn,
//! and tasks beside threads that sleep for slots.

mod tasks;

use burlapslate::{Detect, Mode, Refusal, Session, Stop, Table};
use std::future::Future;
use std::pin::{pin, Pin};
use std::sync::atomic::{AtomicUsize, Ordering};
use std::sync::{Arc, Mutex};
use std::task::{Poll, Wake, Waker};
use std::thread;
use tasks::{block_on, poll, quiet, Bell};

const RUNS: usize = 300;

fn of_slots(most: usize) -> Arc<Table> {
    Arc::new(Table::new(Detect::AtBlock, most).unwrap())
}

/// What a future that was woken has begun.
fn begun<'t>(
    future: &mut Pin<&mut impl Future<Output = Result<Session<'t>, Refusal>>>,
    waker: &Waker,
) -> Session<'t> {
    match poll(future, waker) {
        Poll::Ready(begun) => begun.unwrap(),
        Poll::Pending => panic!("it waits"),
    }
}

fn living(table: &Table) -> usize {
    table.with(|m| m.transactions().count())
}

#[test]
fn a_free_slot_is_taken_at_once() {
    let table = of_slots(2);
    let (bell, waker) = Bell::new(&table);
    let first = begun(&mut pin!(table.begin_async()), &waker);
    let since = first.txn().age();
    let second = begun(&mut pin!(table.begin_again_async(since)), &waker);
    assert_eq!(second.txn().age(), since + 1);
    assert_eq!((bell.rung(), living(&table)), (0, 2));
}

/// The commit begins for the first task, and wakes that alone.
#[test]
fn a_task_has_its_turn() {
    let table = of_slots(1);
    let (bell, waker) = Bell::new(&table);
    let (other_bell, other_waker) = Bell::new(&table);
    let holder = table.begin().unwrap();
    let age = holder.txn().age();
    let mut first = pin!(table.begin_async());
    let mut second = pin!(table.begin_again_async(age));
    assert!(poll(&mut first, &waker).is_pending());
    assert!(poll(&mut second, &other_waker).is_pending());
    assert_eq!(table.begin().unwrap_err(), Refusal::TooManyTxns);
    holder.commit().unwrap();
    assert_eq!((bell.rung(), other_bell.rung()), (1, 0));
    assert!(poll(&mut second, &other_waker).is_pending());
    let session = begun(&mut first, &waker);
    assert_eq!(session.txn().age(), age + 1);
    session.commit().unwrap();
    assert_eq!((bell.rung(), other_bell.rung()), (1, 1));
    assert_eq!(begun(&mut second, &other_waker).txn().age(), age + 2);
}

/// Tasks and threads that sleep are in one queue.
#[test]
fn tasks_and_threads_are_in_one_queue() {
    let table = of_slots(1);
    let (_bell, waker) = Bell::new(&table);
    let holder = table.begin().unwrap();
    let age = holder.txn().age();
    let waiting = |count| {
        let waiting = format!("burlapslate_begins_waiting {count}\n");
        while !table.metrics().unwrap().contains(&waiting) {
            thread::yield_now();
        }
    };
    thread::scope(|scope| {
        let mut first = pin!(table.begin_async());
        assert!(poll(&mut first, &waker).is_pending());
        let sleeper = scope.spawn(|| {
            let session = table.begin_in_turn().unwrap();
            let age = session.txn().age();
            session.commit().unwrap();
            age
        });
        waiting(2);
        let mut last = pin!(table.begin_async());
        assert!(poll(&mut last, &waker).is_pending());
        holder.commit().unwrap();
        begun(&mut first, &waker).commit().unwrap();
        assert_eq!(sleeper.join().unwrap(), age + 2);
        assert_eq!(begun(&mut last, &waker).txn().age(), age + 3);
    });
}

/// Work that begins again counts as old as its first transaction.
#[test]
fn work_begins_again() {
    let table = of_slots(2);
    let (_bell, waker) = Bell::new(&table);
    let root = table.add_inner(&[]).unwrap();
    let first = table.begin().unwrap();
    let since = first.txn().age();
    let mut other = table.begin().unwrap();
    let mut again = pin!(table.begin_again_async(since));
    assert!(poll(&mut again, &waker).is_pending());
    first.abort();
    let mut again = begun(&mut again, &waker);
    for session in [&mut other, &mut again] {
        session.lock(root, Mode::S).unwrap();
    }
    let mut lock = pin!(again.lock_async(root, Mode::X));
    assert!(poll(&mut lock, &waker).is_pending());
    assert_eq!(other.lock(root, Mode::X), Err(Stop::Victim));
    other.abort();
    assert_eq!(poll(&mut lock, &waker), Poll::Ready(Ok(Mode::X)));
}

/// A future that is dropped while it waits leaves the queue, and wakes nobody.
#[test]
fn a_future_is_dropped_while_it_waits() {
    let table = of_slots(1);
    let (bell, waker) = Bell::new(&table);
    let holder = table.begin().unwrap();
    let mut next = {
        let mut dropped = Box::pin(table.begin_async());
        assert!(poll(&mut dropped.as_mut(), &waker).is_pending());
        let mut next = Box::pin(table.begin_async());
        assert!(poll(&mut next.as_mut(), &waker).is_pending());
        next
    };
    holder.commit().unwrap();
    assert_eq!(bell.rung(), 1);
    begun(&mut next.as_mut(), &waker).commit().unwrap();
    assert_eq!(living(&table), 0);
}

/// If it is dropped after its turn, what has begun is ended, and the next has the slot.
#[test]
fn a_future_is_dropped_after_its_turn() {
    let table = of_slots(1);
    let (bell, waker) = Bell::new(&table);
    let holder = table.begin().unwrap();
    let mut dropped = Box::pin(table.begin_async());
    assert!(poll(&mut dropped.as_mut(), &waker).is_pending());
    let mut next = Box::pin(table.begin_async());
    assert!(poll(&mut next.as_mut(), &waker).is_pending());
    holder.commit().unwrap();
    assert_eq!((bell.rung(), living(&table)), (1, 1));
    drop(dropped);
    assert_eq!((bell.rung(), living(&table)), (2, 1));
    begun(&mut next.as_mut(), &waker).commit().unwrap();
    assert_eq!(living(&table), 0);
}

/// A thread that holds the table cannot take a begin back: it is ended as soon as it has begun.
#[test]
fn a_future_is_dropped_by_a_holder() {
    let table = of_slots(1);
    let (bell, waker) = Bell::new(&table);
    let holder = table.begin().unwrap();
    let mut dropped = Box::pin(table.begin_async());
    assert!(poll(&mut dropped.as_mut(), &waker).is_pending());
    assert!(poll(&mut dropped.as_mut(), &quiet()).is_pending());
    table.with(|_| drop(dropped));
    assert!(table
        .metrics()
        .unwrap()
        .contains("burlapslate_begins_waiting 1\n"));
    holder.commit().unwrap();
    assert_eq!((bell.rung(), living(&table)), (0, 0));
    table.begin().unwrap().commit().unwrap();
}

/// It has one end, at whichever moment it is dropped, and no slot is lost.
#[test]
fn drops_and_turns() {
    let table = of_slots(1);
    for run in 0..RUNS {
        let holder = table.begin().unwrap();
        let mut future = Box::pin(table.begin_async());
        let (_bell, waker) = Bell::new(&table);
        assert!(poll(&mut future.as_mut(), &waker).is_pending());
        thread::scope(|scope| {
            scope.spawn(|| holder.commit().unwrap());
            for _ in 0..run * 10 {
                std::hint::spin_loop();
            }
            drop(future);
        });
        assert_eq!(living(&table), 0);
    }
}

/// Drops a future when it is woken.
struct Drops(Mutex<Option<Pin<Box<dyn Future<Output = ()> + Send>>>>);

impl Wake for Drops {
    fn wake(self: Arc<Drops>) {
        drop(self.0.lock().unwrap().take());
    }
}

/// A waker may drop a future that waits, which is told after it, and one that has begun, whose slot the next one has.
#[test]
fn a_waker_drops_a_future() {
    for is_next in [false, true] {
        let table = of_slots(1);
        let (bell, waker) = Bell::new(&table);
        let holder = table.begin().unwrap();
        let own = Arc::clone(&table);
        let mut dropped: Pin<Box<dyn Future<Output = ()> + Send>> = Box::pin(async move {
            drop(own.begin_shared_async().await.unwrap());
        });
        let drops = Arc::new(Drops(Mutex::new(None)));
        let mut first = Box::pin(table.begin_async());
        if is_next {
            assert!(poll(&mut dropped.as_mut(), &Waker::from(drops.clone())).is_pending());
        } else {
            assert!(poll(&mut first.as_mut(), &Waker::from(drops.clone())).is_pending());
            assert!(poll(&mut dropped.as_mut(), &waker).is_pending());
        }
        let mut last = Box::pin(table.begin_async());
        assert!(poll(&mut last.as_mut(), &waker).is_pending());
        *drops.0.lock().unwrap() = Some(dropped);
        holder.commit().unwrap();
        assert!(drops.0.lock().unwrap().is_none());
        if !is_next {
            begun(&mut first.as_mut(), &waker).commit().unwrap();
        }
        assert_eq!(bell.rung(), 1);
        begun(&mut last.as_mut(), &waker).commit().unwrap();
        assert_eq!(living(&table), 0);
    }
}

/// The waker of the last poll is woken, and no other.
#[test]
fn the_last_waker_is_woken() {
    let table = of_slots(1);
    let (first, first_waker) = Bell::new(&table);
    let (last, last_waker) = Bell::new(&table);
    let holder = table.begin().unwrap();
    let mut future = pin!(table.begin_async());
    assert!(poll(&mut future, &first_waker).is_pending());
    assert!(poll(&mut future, &last_waker).is_pending());
    holder.commit().unwrap();
    assert_eq!((first.rung(), last.rung()), (0, 1));
    begun(&mut future, &first_waker).commit().unwrap();
}

/// A leaked future keeps the slot that it gets; a table can be dropped while one waits.
#[test]
fn a_future_is_leaked() {
    let table = Table::new(Detect::AtBlock, 1).unwrap();
    let holder = table.begin().unwrap();
    for _ in 0..2 {
        let mut future = Box::pin(table.begin_async());
        assert!(poll(&mut future.as_mut(), &quiet()).is_pending());
        std::mem::forget(future);
    }
    holder.commit().unwrap();
    assert_eq!(living(&table), 1);
    drop(table);
}

#[test]
fn a_holder_of_the_table_is_refused() {
    let table = of_slots(1);
    table.with(|_| {
        let mut future = pin!(table.begin_async());
        let refused = poll(&mut future, &quiet()).map(|begun| begun.map(drop));
        assert_eq!(refused, Poll::Ready(Err(Refusal::InUse)));
    });
}

fn is_send<T: Send>(value: T) -> T {
    value
}

/// A session of a task may be one of the table's owners, and tasks are sent to other threads.
#[test]
fn a_task_owns_its_table() {
    let table = of_slots(1);
    let root = table.add_inner(&[]).unwrap();
    let holder = table.begin_shared().unwrap();
    let age = holder.txn().age();
    let task = is_send(async move {
        let mut session = table.begin_shared_async().await.unwrap();
        let since = session.txn().age();
        assert_eq!(session.lock_async(root, Mode::X).await, Ok(Mode::X));
        session.abort();
        let again = table.begin_shared_again_async(since).await.unwrap();
        drop(table);
        again
    });
    let thread = thread::spawn(move || block_on(task));
    holder.commit().unwrap();
    assert_eq!(thread.join().unwrap().txn().age(), age + 2);
}

/// Tasks, beside threads that sleep, over fewer slots: all are served, with locks that wait too.
#[test]
fn tasks_beside_threads() {
    const EACH: usize = 50;
    let table = of_slots(3);
    let root = table.add_inner(&[]).unwrap();
    let count = AtomicUsize::new(0);
    thread::scope(|scope| {
        for number in 0..10 {
            let (table, count) = (&table, &count);
            scope.spawn(move || {
                for _ in 0..EACH {
                    if number % 2 == 0 {
                        let mut session = table.begin_in_turn().unwrap();
                        session.lock(root, Mode::X).unwrap();
                        session.commit().unwrap();
                    } else {
                        block_on(async {
                            let mut session = table.begin_async().await.unwrap();
                            session.lock_async(root, Mode::X).await.unwrap();
                            session.commit().unwrap();
                        });
                    }
                    count.fetch_add(1, Ordering::SeqCst);
                }
            });
        }
    });
    assert_eq!((count.into_inner(), living(&table)), (10 * EACH, 0));
}
