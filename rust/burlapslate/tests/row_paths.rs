//! Stories of rows that are locked with all that must be held above them, in one call: by threads, by tasks and by tries.

mod waiters;

use burlapslate::{
    Detect, Keep, Mode, Node, Refusal, Row, RowLocked, Session, Stop, Tried, Try, Txn,
};
use std::pin::pin;
use std::sync::Arc;
use std::task::{Poll, Waker};
use std::thread;
use std::time::Duration;
use waiters::*;

const OWN: RowLocked = RowLocked::Own(Mode::X);

/// The modes of a writer of the row below, as [`held`] has them, and of a reader.
const WRITES: [Mode; 5] = [Mode::IX, Mode::IX, Mode::IX, Mode::NL, Mode::X];
const READS: [Mode; 5] = [Mode::IS, Mode::IS, Mode::NL, Mode::NL, Mode::S];

/// The modes in which a transaction holds the root, the file of rows, the two intervals, and the row.
fn held(store: &Store, txn: Txn) -> [Mode; 5] {
    let above = [
        store.root,
        store.row.file,
        store.rows_below,
        store.rows_above,
    ];
    let [root, file, below, upper] = above.map(|node| store.held(txn, node));
    let row = store.table.row_node(store.row);
    let row = row.map_or(Mode::NL, |node| store.held(txn, node));
    [root, file, below, upper, row]
}

/// Locks the row below, with what must be held above it.
fn locks(store: &Store, session: &mut Session<'_>, mode: Mode) {
    let locked = session.lock_row_path(store.row, &LOW_KEY, mode);
    assert_eq!(locked, Ok(RowLocked::Own(mode)));
}

/// The end of the same in a thread that waits for this node, while this thread does that.
fn sleeps(store: &Store, waiter: &mut Session<'_>, node: Node, act: impl FnOnce()) -> Ended {
    let name = waiter.txn();
    thread::scope(|scope| {
        let locks = || waiter.lock_row_path_timeout(store.row, &LOW_KEY, Mode::X, PATIENCE);
        let sleeper = scope.spawn(locks);
        await_that(|| store.waits_for(name) == Some(node));
        act();
        sleeper.join().unwrap()
    })
}

/// Where a row path may wait.
#[derive(Clone, Copy, PartialEq, Debug)]
enum Place {
    Root,
    File,
    Interval,
    Row,
}

const PLACES: [Place; 4] = [Place::Root, Place::File, Place::Interval, Place::Row];

/// Another transaction that holds a node of the row's path in X, or the row; and that node.
fn holder_at(store: &Store, place: Place) -> (Session<'static>, Node) {
    let mut holder = store.begin();
    let node = match place {
        Place::Root => store.root,
        Place::File => store.row.file,
        Place::Interval => store.rows_below,
        Place::Row => {
            locks(store, &mut holder, Mode::X);
            return (holder, store.row_node());
        }
    };
    assert_eq!(holder.lock_path(node, Mode::X), Ok(Mode::X));
    (holder, node)
}

#[test]
fn a_row_and_what_is_above_it() {
    let store = Store::new(Detect::AtBlock);
    let mut session = store.begin();
    locks(&store, &mut session, Mode::S);
    assert_eq!(held(&store, session.txn()), READS);
    locks(&store, &mut session, Mode::X);
    assert_eq!(held(&store, session.txn()), WRITES);
    session.commit().unwrap();

    let mut reader = store.begin();
    reader.lock_path(store.rows_below, Mode::IS).unwrap();
    let locked = is_ready(reader.lock_row_path_async(store.row, &LOW_KEY, Mode::S));
    assert_eq!(locked, Ok(RowLocked::Own(Mode::S)));
    let by_interval = [Mode::IS, Mode::NL, Mode::IS, Mode::NL, Mode::S];
    assert_eq!(held(&store, reader.txn()), by_interval);
}

#[test]
fn a_row_path_is_refused() {
    let store = Store::new(Detect::AtBlock);
    let mut session = store.begin();
    let of_records = Row {
        file: store.file,
        ..store.row
    };
    for (row, keys, mode, refusal) in [
        (store.row, &LOW_KEY[..], Mode::IX, Refusal::BadMode),
        (store.row, &[], Mode::X, Refusal::BadKeys),
        (of_records, &LOW_KEY, Mode::X, Refusal::NotRows),
    ] {
        let stopped = Err(Stop::Refused(refusal));
        assert_eq!(session.lock_row_path(row, keys, mode), stopped);
        let asked = is_ready(session.lock_row_path_async(row, keys, mode));
        assert_eq!(asked, stopped);
        let tried = session.try_lock_row_path(row, keys, mode, Keep::Way);
        assert_eq!(tried, Err(refusal));
    }
    assert_eq!(held(&store, session.txn()), [Mode::NL; 5]);
}

/// A thread that waits for the row, or for a node above it, continues from there.
#[test]
fn a_row_path_continues_after_a_wait() {
    for place in PLACES {
        let store = Store::new(Detect::AtBlock);
        let (holder, node) = holder_at(&store, place);
        let mut waiter = store.begin();
        let end = sleeps(&store, &mut waiter, node, || holder.commit().unwrap());
        assert_eq!(end, Ok(OWN), "{place:?}");
        assert_eq!(held(&store, waiter.txn()), WRITES);
    }
}

/// The row gets another key while it is waited for: its new interval is locked too.
#[test]
fn a_row_gets_another_key_meanwhile() {
    let store = Store::new(Detect::AtBlock);
    let (mut holder, mut waiter) = (store.writer(true), store.begin());
    locks(&store, &mut holder, Mode::X);
    let (name, node) = (waiter.txn(), store.row_node());
    let end = sleeps(&store, &mut waiter, node, || {
        let rekeyed = holder.rekey_row(store.row, store.row_index, HIGH_KEY[0]);
        assert_eq!(rekeyed, Ok(()));
        assert_eq!(store.held(name, store.rows_above), Mode::IX);
        assert_eq!(store.waits_for(name), Some(node));
        holder.commit().unwrap();
    });
    assert_eq!(end, Ok(RowLocked::OtherKeys(Mode::X)));
    let both = [Mode::IX, Mode::IX, Mode::IX, Mode::IX, Mode::X];
    assert_eq!(held(&store, name), both);
    let locked = waiter.lock_row_path(store.row, &HIGH_KEY, Mode::X);
    assert_eq!(locked, Ok(OWN));
}

#[test]
fn its_file_is_dropped_meanwhile() {
    let store = Store::new(Detect::AtBlock);
    let (mut holder, mut waiter) = (store.begin(), store.begin());
    for node in [store.row_index, store.row.file] {
        holder.lock_path(node, Mode::X).unwrap();
    }
    {
        let mut lock = pin!(waiter.lock_row_path_async(store.row, &LOW_KEY, Mode::X));
        assert!(poll_by(&mut lock, bell()).is_pending());
        for node in [store.row_index, store.row.file] {
            holder.drop_node(node).unwrap();
        }
        assert_eq!(poll_by(&mut lock, bell()), Poll::Ready(Err(Stop::Gone)));
    }
    assert_eq!(store.held(waiter.txn(), store.root), Mode::IX);
    let again = waiter.lock_row_path(store.row, &LOW_KEY, Mode::X);
    assert_eq!(again, Err(Stop::Refused(Refusal::NotRows)));
}

/// After its time the row is let go, and what was locked above it stays.
#[test]
fn a_row_path_times_out() {
    let store = Store::new(Detect::AtBlock);
    let (holder, _) = holder_at(&store, Place::Row);
    let mut waiter = store.begin();
    let end = waiter.lock_row_path_timeout(store.row, &LOW_KEY, Mode::X, Duration::ZERO);
    assert_eq!(end, Err(Stop::TimedOut));
    holder.commit().unwrap();
    assert_eq!(store.table.row_node(store.row), None);
    let above = [Mode::IX, Mode::IX, Mode::IX, Mode::NL, Mode::NL];
    assert_eq!(held(&store, waiter.txn()), above);
}

/// The call that grants the interval requests the row; the task is woken after that is granted too.
#[test]
fn a_task_is_woken_at_the_end() {
    let store = Store::new(Detect::AtBlock);
    let (mut of_row, mut of_interval, mut waiter) = (store.begin(), store.begin(), store.begin());
    locks(&store, &mut of_row, Mode::S);
    of_interval.lock_path(store.rows_below, Mode::S).unwrap();
    let (name, woken) = (waiter.txn(), Arc::new(Bell::default()));
    let waker = || Waker::from(Arc::clone(&woken));
    let mut lock = pin!(waiter.lock_row_path_async(store.row, &LOW_KEY, Mode::X));
    assert!(poll_by(&mut lock, waker()).is_pending());
    assert_eq!(store.waits_for(name), Some(store.rows_below));
    of_interval.commit().unwrap();
    assert_eq!(store.waits_for(name), Some(store.row_node()));
    assert_eq!(woken.rung(), 0);
    of_row.commit().unwrap();
    assert_eq!(woken.rung(), 1);
    assert_eq!(poll_by(&mut lock, waker()), Poll::Ready(Ok(OWN)));
    assert_eq!(held(&store, name), WRITES);
}

/// A future that is dropped while it waits cancels its wait. What it acquired by then stays.
#[test]
fn a_future_is_dropped_while_it_waits() {
    for place in PLACES {
        let store = Store::new(Detect::AtBlock);
        let (holder, node) = holder_at(&store, place);
        let mut waiter = store.begin();
        let name = waiter.txn();
        {
            let mut lock = pin!(waiter.lock_row_path_async(store.row, &LOW_KEY, Mode::X));
            assert!(poll_by(&mut lock, bell()).is_pending());
            assert_eq!(store.waits_for(name), Some(node));
        }
        assert_eq!(store.waits_for(name), None);
        holder.commit().unwrap();
        let acquired = PLACES.iter().take_while(|&&above| above != place).count();
        let mut wanted = [Mode::NL; 5];
        wanted[..acquired].fill(Mode::IX);
        assert_eq!(held(&store, name), wanted, "{place:?}");
        locks(&store, &mut waiter, Mode::X);
    }
}

/// A try that would block at the row, or above it, keeps what it acquired or gives it back. What was held before stays in
/// the mode to which it was raised.
#[test]
fn a_tried_row_path_would_block() {
    for place in [Place::File, Place::Interval, Place::Row] {
        for keep in [Keep::Nothing, Keep::Way] {
            let store = Store::new(Detect::AtBlock);
            let mut session = store.begin();
            session.lock(store.root, Mode::IS).unwrap();
            let (holder, node) = holder_at(&store, place);
            let tried = session.try_lock_row_path(store.row, &LOW_KEY, Mode::X, keep);
            assert_eq!(tried, Ok(Tried::WouldBlock(node)));
            let kept = match keep {
                Keep::Nothing => 1,
                Keep::Way => PLACES.iter().take_while(|&&above| above != place).count(),
            };
            let mut wanted = [Mode::NL; 5];
            wanted[..kept].fill(Mode::IX);
            assert_eq!(held(&store, session.txn()), wanted, "{place:?} {keep:?}");
            holder.commit().unwrap();
            let tried = session.try_lock_row_path(store.row, &LOW_KEY, Mode::X, keep);
            assert_eq!(tried, Ok(Tried::Locked(OWN)));
            assert_eq!(held(&store, session.txn()), WRITES);
        }
    }
}

/// A skip tries each row with what must be held above it.
#[test]
fn a_skip_takes_a_row_path() {
    let store = Store::new(Detect::AtBlock);
    let (_holder, _) = holder_at(&store, Place::Row);
    let jobs = [store.row.number, 8].map(|number| Try::RowPath {
        row: Row {
            number,
            ..store.row
        },
        keys: &LOW_KEY,
        mode: Mode::X,
        keep: Keep::Nothing,
    });
    let mut session = store.begin();
    assert_eq!(session.try_first(&jobs[..1]), Ok(None));
    assert_eq!(held(&store, session.txn()), [Mode::NL; 5]);
    let taken = session.try_first(&jobs).unwrap().unwrap();
    assert_eq!((taken.place, taken.locked), (1, OWN));
    assert_eq!(store.held(session.txn(), store.rows_below), Mode::IX);
}

/// A session keeps the intentions above a row for the next one.
#[test]
fn what_rests_serves_the_next_row() {
    let store = Store::new(Detect::AtBlock);
    let mut session = store.begin();
    locks(&store, &mut session, Mode::X);
    session = session.rest(16).unwrap().begin().unwrap();
    let kept = [Mode::IX, Mode::IX, Mode::IX, Mode::NL, Mode::NL];
    assert_eq!(held(&store, session.txn()), kept);
    locks(&store, &mut session, Mode::X);
    assert_eq!(held(&store, session.txn()), WRITES);
}

/// Under an index that is held in X a record needs no lock before; under one that another reads, its insert would block.
#[test]
fn a_record_is_inserted_with_what_is_above_it() {
    let store = Store::new(Detect::AtBlock);
    let mut loads = store.begin();
    loads.lock_path(store.index, Mode::X).unwrap();
    let inserted = loads.insert_path(store.file, &LOW_KEY, Keep::Nothing);
    let Ok(Tried::Locked(record)) = inserted else {
        panic!("{inserted:?}")
    };
    assert_eq!(store.held(loads.txn(), record), Mode::X);
    assert_eq!(store.held(loads.txn(), store.below), Mode::IX);
    let mut other = store.begin();
    for (keep, kept) in [(Keep::Nothing, Mode::NL), (Keep::Way, Mode::IX)] {
        let tried = other.insert_path(store.file, &LOW_KEY, keep);
        assert_eq!(tried, Ok(Tried::WouldBlock(store.index)));
        assert_eq!(store.held(other.txn(), store.file), kept);
    }
    let refused = other.insert_path(store.file, &[1, 2], Keep::Way);
    assert_eq!(refused, Err(Refusal::BadKeys));
}
