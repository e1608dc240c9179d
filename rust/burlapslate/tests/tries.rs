//! Stories of tries, which join no queue: of paths, of rows, and of the first of a list that is free.

use burlapslate::{
    Detect, Keep, Mode, Node, Refusal, Row, RowLocked, Session, Stop, Table, Taken, Tried, Try,
    Txn, SLOTS,
};
use std::sync::atomic::{AtomicBool, AtomicUsize, Ordering};
use std::thread;
use std::time::Duration;

const KEY: [u64; 1] = [50];
const OTHER_KEY: [u64; 1] = [200];

/// A file of records and a file of rows under a root, each with an index of two intervals, parted at 100;
/// and a record in each interval of the first.
struct Store {
    table: Table,
    root: Node,
    file: Node,
    below: Node,
    low: Node,
    high: Node,
    rows: Node,
    rows_below: Node,
    rows_above: Node,
}

impl Store {
    fn new() -> Store {
        let table = Table::new(Detect::AtBlock, SLOTS).unwrap();
        let root = table.add_inner(&[]).unwrap();
        let file = table.add_file(&[root]).unwrap();
        let rows = table.add_row_file(&[root]).unwrap();
        let [index, row_index] =
            [file, rows].map(|file| table.add_index(&[root], file, &[100]).unwrap());
        let interval = |index, place| table.with(|m| m.interval(index, place)).unwrap();
        let mut session = table.begin().unwrap();
        for place in 0..2 {
            session.lock_path(interval(index, place), Mode::IX).unwrap();
        }
        session.lock_path(file, Mode::IX).unwrap();
        let [low, high] = [KEY, OTHER_KEY].map(|keys| session.insert(file, &keys).unwrap());
        session.commit().unwrap();
        Store {
            below: interval(index, 0),
            rows_below: interval(row_index, 0),
            rows_above: interval(row_index, 1),
            table,
            root,
            file,
            low,
            high,
            rows,
        }
    }

    fn begin(&self) -> Session<'_> {
        self.table.begin().unwrap()
    }

    /// One who may write the rows below.
    fn writer(&self) -> Session<'_> {
        let mut session = self.begin();
        for node in [self.rows, self.rows_below] {
            assert_eq!(session.lock_path(node, Mode::IX), Ok(Mode::IX));
        }
        session
    }

    fn row(&self, number: u64) -> Row {
        Row {
            file: self.rows,
            number,
        }
    }

    fn row_node(&self, number: u64) -> Node {
        self.table.row_node(self.row(number)).unwrap()
    }

    fn held(&self, session: &Session<'_>, node: Node) -> Mode {
        self.table.with(|m| m.held(session.txn(), node)).unwrap()
    }

    fn locks(&self, session: &Session<'_>) -> usize {
        self.table.with(|m| m.locks(session.txn()).count())
    }

    fn waiters(&self, node: Node) -> usize {
        self.table.with(|m| m.queue(node).unwrap().count())
    }

    fn waits(&self, txn: Txn) -> bool {
        self.table.with(|m| m.waiting(txn)).is_some()
    }

    /// Nobody ever waited or fell but so many, by what the manager counts.
    fn counts(&self, waited: u64) {
        let counters = self.table.with(|m| m.counters());
        assert_eq!((counters.waited, counters.condemned), (waited, 0));
    }
}

/// One that would block on its last node, or above it, keeps its way or gives it back.
#[test]
fn a_try_keeps_its_path_or_gives_it_back() {
    let store = Store::new();
    let (mut holder, mut session) = (store.begin(), store.begin());
    assert_eq!(holder.lock_path(store.low, Mode::X), Ok(Mode::X));
    for mode in [Mode::S, Mode::X] {
        let tried = session.try_lock_path(store.low, mode, Keep::Nothing);
        assert_eq!(tried, Ok(Tried::WouldBlock(store.low)));
        assert_eq!(store.locks(&session), 0);
    }
    let tried = session.try_lock_path(store.low, Mode::S, Keep::Way);
    assert_eq!(tried, Ok(Tried::WouldBlock(store.low)));
    for node in [store.root, store.file] {
        assert_eq!(store.held(&session, node), Mode::IS);
    }
    // These two are raised, and stay: no mode is ever lowered.
    let tried = session.try_lock_path(store.low, Mode::X, Keep::Nothing);
    assert_eq!(tried, Ok(Tried::WouldBlock(store.low)));
    for node in [store.root, store.file] {
        assert_eq!(store.held(&session, node), Mode::IX);
    }
    assert_eq!(store.locks(&session), 2);
    assert_eq!(store.waiters(store.low), 0);
    holder.commit().unwrap();
    let mut reader = store.begin();
    assert_eq!(reader.lock_path(store.below, Mode::S), Ok(Mode::S));
    let tried = session.try_lock_path(store.low, Mode::X, Keep::Nothing);
    assert_eq!(tried, Ok(Tried::WouldBlock(store.below)));
    assert_eq!(store.locks(&session), 2);
    reader.commit().unwrap();
    let tried = session.try_lock_path(store.low, Mode::X, Keep::Nothing);
    assert_eq!(tried, Ok(Tried::Locked(Mode::X)));
    assert_eq!(store.locks(&session), 5);
    store.counts(0);
}

/// A node above one that was read by another parent before stays: its child is held.
#[test]
fn a_parent_of_what_was_read_stays() {
    let store = Store::new();
    let (mut holder, mut session) = (store.begin(), store.begin());
    holder.lock_path(store.low, Mode::S).unwrap();
    session.lock_path(store.below, Mode::IS).unwrap();
    session.lock(store.low, Mode::S).unwrap();
    assert_eq!(store.held(&session, store.file), Mode::NL);
    let tried = session.try_lock_path(store.low, Mode::X, Keep::Nothing);
    assert_eq!(tried, Ok(Tried::WouldBlock(store.low)));
    assert_eq!(store.held(&session, store.file), Mode::IX);
    assert_eq!(store.held(&session, store.low), Mode::S);
}

/// Ways that are longer than what a try keeps of them.
#[test]
fn a_long_path_is_tried() {
    let store = Store::new();
    let mut chain = vec![store.root];
    for _ in 0..40 {
        let parent = *chain.last().unwrap();
        chain.push(store.table.add_inner(&[parent]).unwrap());
    }
    let last = *chain.last().unwrap();
    let (mut holder, mut session) = (store.begin(), store.begin());
    holder.lock_path(last, Mode::S).unwrap();
    for (keep, locks) in [(Keep::Nothing, 0), (Keep::Way, 40)] {
        let tried = session.try_lock_path(last, Mode::X, keep);
        assert_eq!(tried, Ok(Tried::WouldBlock(last)));
        assert_eq!(store.locks(&session), locks);
    }
    let mut reader = store.begin();
    let tried = reader.try_lock_path(last, Mode::S, Keep::Nothing);
    assert_eq!(tried, Ok(Tried::Locked(Mode::S)));
    assert_eq!(store.held(&reader, store.root), Mode::IS);
    assert_eq!(store.locks(&reader), 41);
}

/// A try is refused as the lock is, and then nothing is locked.
#[test]
fn a_path_is_refused() {
    let store = Store::new();
    let mut session = store.begin();
    for keep in [Keep::Nothing, Keep::Way] {
        for mode in [Mode::NL, Mode::IS, Mode::IX, Mode::SIX] {
            let tried = session.try_lock_path(store.low, mode, keep);
            assert_eq!(tried, Err(Refusal::BadMode));
        }
        assert_eq!(store.locks(&session), 0);
    }
    store.table.abort(session.txn()).unwrap();
    let tried = session.try_lock_path(store.low, Mode::NL, Keep::Way);
    assert_eq!(tried, Err(Refusal::NoSuchTxn));
    assert_eq!(session.try_first(&[]), Ok(None));
}

/// One that would have closed a cycle of waits fells nobody; and a newcomer passes nobody who waits.
#[test]
fn a_try_condemns_nobody() {
    let store = Store::new();
    let (mut older, mut younger) = (store.begin(), store.begin());
    older.lock_path(store.low, Mode::X).unwrap();
    younger.lock_path(store.high, Mode::X).unwrap();
    thread::scope(|scope| {
        let txn = younger.txn();
        let requester = scope.spawn(move || {
            let end = younger.lock_path(store.low, Mode::S);
            drop(younger);
            end
        });
        while !store.waits(txn) {
            thread::sleep(Duration::from_micros(50));
        }
        let tried = older.try_lock_path(store.high, Mode::X, Keep::Nothing);
        assert_eq!(tried, Ok(Tried::WouldBlock(store.high)));
        let mut newcomer = store.begin();
        let tried = newcomer.try_lock_path(store.low, Mode::S, Keep::Nothing);
        assert_eq!(tried, Ok(Tried::WouldBlock(store.low)));
        assert_eq!(
            (store.waiters(store.low), store.waiters(store.high)),
            (1, 0)
        );
        store.counts(1);
        older.commit().unwrap();
        assert_eq!(requester.join().unwrap(), Ok(Mode::S));
    });
}

/// Each case of a row: without a node, with one that nobody holds, held by others, held already.
#[test]
fn rows_are_tried() {
    let store = Store::new();
    let (mut one, mut two) = (store.writer(), store.writer());
    let row = store.row(7);
    let own = |mode| Ok(Tried::Locked(RowLocked::Own(mode)));
    assert_eq!(one.try_lock_row(row, &KEY, Mode::S), own(Mode::S));
    assert_eq!(two.try_lock_row(row, &KEY, Mode::S), own(Mode::S));
    let node = store.row_node(7);
    let blocked = Ok(Tried::WouldBlock(node));
    assert_eq!(two.try_lock_row(row, &KEY, Mode::X), blocked);
    assert_eq!(store.held(&two, node), Mode::S);
    two.unlock_row(row).unwrap();
    assert_eq!(one.try_lock_row(row, &KEY, Mode::X), own(Mode::X));
    assert_eq!(two.try_lock_row(row, &KEY, Mode::S), blocked);
    assert_eq!(store.locks(&two), 4);
    let other = one.try_lock_row(row, &OTHER_KEY, Mode::X);
    assert_eq!(other, Ok(Tried::Locked(RowLocked::OtherKeys(Mode::X))));
    one.unlock(node).unwrap(); // That lets no row go.
    let refused = two.try_lock_row(row, &OTHER_KEY, Mode::X);
    assert_eq!(refused, Err(Refusal::NeedParents(store.rows_above)));
    two.lock_path(store.rows_above, Mode::IX).unwrap();
    assert_eq!(two.try_lock_row(row, &OTHER_KEY, Mode::X), own(Mode::X));
    assert_ne!(store.row_node(7), node);
    two.commit().unwrap();
    assert_eq!(store.table.row_node(row), None);
    let refused = one.try_lock_row(
        Row {
            file: store.file,
            ..row
        },
        &KEY,
        Mode::X,
    );
    assert_eq!(refused, Err(Refusal::NotRows));
    let refused = one.try_lock_row(row, &[], Mode::X);
    assert_eq!(refused, Err(Refusal::BadKeys));
    store.counts(0);
}

/// The last who holds a row lets it go, also where it was had by a try beside others.
#[test]
fn a_row_that_was_tried_is_let_go() {
    let store = Store::new();
    let (mut one, mut two) = (store.writer(), store.writer());
    for session in [&mut one, &mut two] {
        let tried = session.try_lock_row(store.row(7), &KEY, Mode::S);
        assert_eq!(tried, Ok(Tried::Locked(RowLocked::Own(Mode::S))));
    }
    one.commit().unwrap();
    assert!(store.table.row_node(store.row(7)).is_some());
    two.commit().unwrap();
    assert_eq!(store.table.row_node(store.row(7)), None);
}

/// A skip over three that are locked takes the fourth, and keeps nothing of those that it passed.
#[test]
fn a_skip_takes_the_first_that_is_free() {
    let store = Store::new();
    let (mut holder, mut session) = (store.writer(), store.writer());
    for number in 0..3 {
        let held = holder.lock_row(store.row(number), &KEY, Mode::X);
        assert_eq!(held, Ok(RowLocked::Own(Mode::X)));
    }
    let jobs: Vec<Try<'_>> = (0..5)
        .map(|number| Try::Row {
            row: store.row(number),
            keys: &KEY,
            mode: Mode::X,
        })
        .collect();
    let fourth = Taken {
        place: 3,
        locked: RowLocked::Own(Mode::X),
    };
    assert_eq!(session.try_first(&jobs), Ok(Some(fourth)));
    assert_eq!(store.locks(&session), 5);
    assert_eq!(store.table.row_node(store.row(4)), None);
    assert_eq!(session.try_first(&jobs[..3]), Ok(None));
    holder.lock_path(store.low, Mode::X).unwrap();
    let mut paths = [store.low, store.below, store.high].map(|node| Try::Path {
        node,
        mode: Mode::X,
        keep: Keep::Nothing,
    });
    let mut other = store.begin();
    assert_eq!(other.try_first(&paths[..2]), Ok(None));
    assert_eq!(store.locks(&other), 0);
    assert_eq!(other.try_first(&paths).unwrap().unwrap().place, 2);
    paths[0] = Try::Node {
        node: store.low,
        mode: Mode::X,
    };
    // One whose parents are not held, as where it has moved there, is passed over; any other refusal ends the list.
    assert_eq!(store.begin().try_first(&paths), Ok(None));
    let row = Row {
        file: store.low,
        number: 7,
    };
    paths[1] = Try::Row {
        row,
        keys: &KEY,
        mode: Mode::X,
    };
    assert_eq!(store.begin().try_first(&paths), Err(Refusal::NotRows));
    store.counts(0);
}

/// Jobs of which sixteen threads take one after the other, by a skip over those that are locked.
#[test]
fn each_job_is_done_once() {
    const JOBS: usize = 200;
    let store = Store::new();
    let done = [const { AtomicBool::new(false) }; JOBS];
    let times = [const { AtomicUsize::new(0) }; JOBS];
    let work = || -> Result<(), Stop> {
        loop {
            let open = (0..JOBS).filter(|job| !done[*job].load(Ordering::SeqCst));
            let jobs: Vec<usize> = open.take(20).collect();
            if jobs.is_empty() {
                return Ok(());
            }
            let tries: Vec<Try<'_>> = jobs
                .iter()
                .map(|job| Try::Row {
                    row: store.row(*job as u64),
                    keys: &KEY,
                    mode: Mode::X,
                })
                .collect();
            let mut session = store.writer();
            if let Some(taken) = session.try_first(&tries)? {
                let job = jobs[taken.place];
                if !done[job].load(Ordering::SeqCst) {
                    times[job].fetch_add(1, Ordering::SeqCst);
                    thread::yield_now();
                    done[job].store(true, Ordering::SeqCst);
                }
            }
            session.commit()?;
        }
    };
    thread::scope(|scope| {
        let workers: Vec<_> = (0..16).map(|_| scope.spawn(work)).collect();
        for worker in workers {
            assert_eq!(worker.join().unwrap(), Ok(()));
        }
    });
    for (job, times) in times.iter().enumerate() {
        assert_eq!(times.load(Ordering::SeqCst), 1, "job {job}");
        assert_eq!(store.table.row_node(store.row(job as u64)), None);
    }
    store.counts(0);
}

/// A skip passes over a record and a row that have moved to where the session holds nothing above them, and over a
/// record that is gone, by its node and by its path. It takes the next that is free.
#[test]
fn a_skip_passes_over_what_moved_or_is_gone() {
    let store = Store::new();
    let (mut holder, mut session) = (store.writer(), store.writer());
    let index = store.table.with(|m| m.parent(store.below, 0)).unwrap();
    let above = store.table.with(|m| m.interval_of(index, 200)).unwrap();
    for node in [store.file, store.below, above, store.rows_above] {
        holder.lock_path(node, Mode::IX).unwrap();
    }
    for node in [store.file, store.below] {
        session.lock_path(node, Mode::IX).unwrap();
    }
    holder.lock_path(store.low, Mode::X).unwrap();
    holder.lock_path(store.high, Mode::X).unwrap();
    holder.rekey(store.low, index, OTHER_KEY[0]).unwrap();
    holder.delete(store.high).unwrap();
    for (number, keys) in [(7, OTHER_KEY), (8, KEY)] {
        let locked = holder.lock_row(store.row(number), &keys, Mode::X);
        assert_eq!(locked, Ok(RowLocked::Own(Mode::X)));
    }
    let mode = Mode::X;
    let node = |node| Try::Node { node, mode };
    let row = |number| Try::Row {
        row: store.row(number),
        keys: &KEY,
        mode,
    };
    let path = Try::Path {
        node: store.high,
        mode,
        keep: Keep::Nothing,
    };
    let all = [
        node(store.low),
        row(7),
        node(store.high),
        path,
        row(8),
        row(9),
    ];
    let held = store.locks(&session);
    assert_eq!(session.try_first(&all[..5]), Ok(None));
    assert_eq!(store.locks(&session), held);
    let locked = RowLocked::Own(mode);
    assert_eq!(
        session.try_first(&all),
        Ok(Some(Taken { place: 5, locked }))
    );
    holder.commit().unwrap(); // Row 7 has no node after that.
    assert_eq!(
        session.try_first(&all),
        Ok(Some(Taken { place: 1, locked }))
    );
    store.counts(0);
}
