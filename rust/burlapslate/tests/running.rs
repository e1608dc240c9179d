//! For operators of a table: times of waits, nodes that were waited for, long waits and deadlocks that are told, metrics.

use burlapslate::{
    Awaited, Blocker, Detect, Histogram, LongWait, Mode, Node, Refusal, Stop, Table, Told, Txn,
    WaitEnd, SLOTS,
};
use std::io;
use std::panic::{catch_unwind, AssertUnwindSafe};
use std::sync::atomic::{AtomicBool, AtomicUsize, Ordering};
use std::sync::mpsc::{channel, Receiver};
use std::sync::{Arc, Weak};
use std::thread;
use std::time::Duration;

const MILLISECOND: Duration = Duration::from_millis(1);

fn table() -> (Table, Node) {
    let table = Table::new(Detect::AtBlock, SLOTS).unwrap();
    let db = table.add_inner(&[]).unwrap();
    (table, db)
}

/// A table whose function sends what it is told.
fn telling(time: Duration) -> (Table, Node, Receiver<Told>) {
    let (table, db) = table();
    let (told, hears) = channel();
    table
        .on_long_wait(time, move |event| told.send(event).unwrap())
        .unwrap();
    (table, db, hears)
}

fn long(told: Told) -> LongWait {
    match told {
        Told::LongWait(wait) => wait,
        other => panic!("{other:?}"),
    }
}

/// Another transaction waits for the node, while this is done; and how its lock ended.
fn while_waiting(
    table: &Table,
    node: Node,
    mode: Mode,
    act: impl FnOnce(Txn),
) -> Result<Mode, Stop> {
    let mut session = table.begin().unwrap();
    let txn = session.txn();
    thread::scope(|scope| {
        let waiter = scope.spawn(move || session.lock(node, mode));
        while table.waited(txn).is_err() {
            thread::yield_now();
        }
        act(txn);
        waiter.join().unwrap()
    })
}

fn counts(of: &Histogram) -> Vec<u64> {
    of.buckets().map(|(_, count)| count).collect()
}

#[test]
fn waits_are_timed_by_their_ends() {
    let (table, db) = table();
    let mut holder = table.begin().unwrap();
    holder.lock(db, Mode::X).unwrap();
    let end = while_waiting(&table, db, Mode::S, |txn| {
        thread::sleep(3 * MILLISECOND);
        let (wait, waited) = table.waited(txn).unwrap();
        assert!((wait.node, wait.mode) == (db, Mode::S) && waited >= 3 * MILLISECOND);
        let waits = table.waits();
        assert!(waits.waiting == 1 && waits.longest >= waited);
        assert!(table.dump().contains("\nWaits, the longest first:\n"));
        let line = table.dump();
        let line = line.lines().find(|line| line.contains("S     inner"));
        assert!(line.is_some_and(|line| line.starts_with("    0.0")));
        table.cancel(txn).unwrap();
    });
    assert_eq!(end, Err(Stop::Cancelled));
    let waits = table.waits();
    assert!(waits.waiting == 0 && waits.longest == Duration::ZERO);
    for end in WaitEnd::ALL {
        let wanted = u64::from(end == WaitEnd::Cancelled);
        assert_eq!(waits.ended(end).count(), wanted, "{end:?}");
    }
    let cancelled = waits.ended(WaitEnd::Cancelled);
    assert!(cancelled.total() >= 3 * MILLISECOND);
    assert_eq!(counts(cancelled)[..12], [0; 12]); // Up to 2,048 microseconds.
    let bounds: Vec<_> = cancelled.buckets().map(|(bound, _)| bound).collect();
    assert_eq!(bounds[0], Some(Duration::from_micros(1)));
    assert_eq!(bounds[12], Some(Duration::from_micros(4096)));
    assert!(bounds.len() == 29 && bounds[28].is_none());
    assert_eq!(table.waited(holder.txn()), Err(Refusal::NotWaiting));
    assert_eq!(table.waited(Txn::NONE), Err(Refusal::NoSuchTxn));
}

#[test]
fn nodes_are_counted_anew_after_a_restart() {
    let (table, db) = table();
    let mut holder = table.begin().unwrap();
    holder.lock(db, Mode::X).unwrap();
    let mut waiter = table.begin().unwrap();
    let end = waiter.lock_timeout(db, Mode::S, 2 * MILLISECOND);
    assert_eq!(end, Err(Stop::TimedOut));
    let first = table.restart_awaited().unwrap();
    assert_eq!(first.nodes.len(), 1);
    let node = first.nodes[0];
    assert!(node.node == db && node.waits == 1 && node.error == Duration::ZERO);
    assert!(node.waited >= MILLISECOND && node.waited == first.waited);
    let Awaited { waited, nodes, .. } = table.awaited().unwrap();
    assert!(waited == Duration::ZERO && nodes.is_empty());
}

#[test]
fn a_long_wait_is_told_with_who_is_in_its_way() {
    let (table, db, hears) = telling(MILLISECOND);
    let mut holder = table.begin().unwrap();
    holder.lock(db, Mode::X).unwrap();
    let holder_txn = holder.txn();
    let end = while_waiting(&table, db, Mode::S, |txn| {
        let long = long(hears.recv().unwrap());
        assert!(long.txn == txn && long.waited >= MILLISECOND);
        assert_eq!((long.wait.node, long.wait.mode), (db, Mode::S));
        let holder = Blocker {
            txn: holder_txn,
            held: Mode::X,
            wants: None,
            waits: false,
        };
        assert_eq!(long.blockers, [holder]);
        table.cancel(txn).unwrap();
    });
    assert_eq!(end, Err(Stop::Cancelled));
    table.forget_long_waits().unwrap();
    assert!(hears.recv().is_err()); // The function is gone, and its channel with it.
}

#[test]
fn a_deadlock_is_told_as_the_manager_has_it() {
    let (table, db, hears) = telling(Duration::MAX);
    let (mut old, mut young) = (table.begin().unwrap(), table.begin().unwrap());
    old.lock(db, Mode::S).unwrap();
    young.lock(db, Mode::S).unwrap();
    let victim = young.txn();
    thread::scope(|scope| {
        let waiter = scope.spawn(|| old.lock(db, Mode::X));
        while table.waits().waiting == 0 {
            thread::yield_now();
        }
        assert_eq!(young.lock(db, Mode::X), Err(Stop::Victim));
        young.abort();
        assert_eq!(waiter.join().unwrap(), Ok(Mode::X));
    });
    let last = table.with(|m| m.last_deadlock()).unwrap();
    assert!(last.victim == victim && last.stuck.len() == 2);
    assert_eq!(hears.recv().unwrap(), Told::Deadlock(last));
}

#[test]
fn a_function_aborts_the_waiter() {
    let table = Arc::new(table().0);
    let db = table.add_inner(&[]).unwrap();
    let own = Arc::downgrade(&table);
    let refused = Arc::new(AtomicUsize::new(0));
    let count = Arc::clone(&refused);
    let aborts = move |told: Told| {
        let Some(table) = own.upgrade() else { return };
        // What could sleep is refused, and nothing else.
        let in_turn = table.begin_in_turn().map(drop);
        count.fetch_add((in_turn == Err(Refusal::InUse)) as usize, Ordering::SeqCst);
        table.abort(long(told).txn).unwrap();
    };
    table.on_long_wait(MILLISECOND, aborts).unwrap();
    let mut holder = table.begin().unwrap();
    holder.lock(db, Mode::X).unwrap();
    let mut waiter = table.begin().unwrap();
    let end = waiter.lock(db, Mode::S);
    assert_eq!(end, Err(Stop::Refused(Refusal::NoSuchTxn)));
    assert_eq!(refused.load(Ordering::SeqCst), 1);
}

#[test]
fn a_function_takes_itself_back() {
    let (table, db) = table();
    let table = Arc::new(table);
    let own = Arc::new(std::sync::Mutex::new(Some(Arc::clone(&table))));
    let calls = Arc::new(AtomicUsize::new(0));
    let (count, kept) = (Arc::clone(&calls), Arc::clone(&own));
    let takes_back = move |_| {
        let table = kept.lock().unwrap().take().unwrap();
        table.forget_long_waits().unwrap();
        count.fetch_add(1, Ordering::SeqCst);
    };
    table.on_long_wait(MILLISECOND, takes_back).unwrap();
    let mut holder = table.begin().unwrap();
    holder.lock(db, Mode::X).unwrap();
    let end = while_waiting(&table, db, Mode::S, |txn| {
        while calls.load(Ordering::SeqCst) == 0 {
            thread::yield_now();
        }
        table.cancel(txn).unwrap();
    });
    assert_eq!(end, Err(Stop::Cancelled));
    let mut waiter = table.begin().unwrap();
    let end = waiter.lock_timeout(db, Mode::S, 5 * MILLISECOND);
    assert_eq!(end, Err(Stop::TimedOut));
    assert!(calls.load(Ordering::SeqCst) == 1 && own.lock().unwrap().is_none());
}

/// The thread of the table drops it, as its last owner, within the function.
#[test]
fn a_table_is_dropped_within_its_function() {
    let (table, db) = table();
    let table = Arc::new(table);
    let weak: Weak<Table> = Arc::downgrade(&table);
    let (upgraded, is_upgraded) = channel();
    let (dropped, is_dropped) = channel::<()>();
    let (is_free, freed) = channel::<()>();
    let is_dropped = std::sync::Mutex::new(is_dropped);
    let drops = move |_| {
        let _freed_with_the_function = &is_free;
        if let Some(table) = weak.upgrade() {
            upgraded.send(()).unwrap();
            is_dropped.lock().unwrap().recv().unwrap();
            drop(table);
        }
    };
    table.on_long_wait(MILLISECOND, drops).unwrap();
    let mut holder = table.begin().unwrap();
    holder.lock(db, Mode::X).unwrap();
    let end = while_waiting(&table, db, Mode::S, |txn| {
        is_upgraded.recv().unwrap();
        table.cancel(txn).unwrap();
    });
    assert_eq!(end, Err(Stop::Cancelled));
    drop(holder);
    drop(table);
    dropped.send(()).unwrap();
    assert!(freed.recv().is_err());
}

#[test]
fn a_panic_ends_one_call() {
    let (table, db) = table();
    let (told, hears) = channel();
    let has_panicked = AtomicBool::new(false);
    let panics = move |event: Told| {
        told.send(event).unwrap();
        if !has_panicked.swap(true, Ordering::SeqCst) {
            panic!("of the function");
        }
    };
    table.on_long_wait(MILLISECOND, panics).unwrap();
    let mut holder = table.begin().unwrap();
    holder.lock(db, Mode::X).unwrap();
    for _ in 0..2 {
        let end = while_waiting(&table, db, Mode::S, |txn| {
            assert_eq!(long(hears.recv().unwrap()).txn, txn);
            table.cancel(txn).unwrap();
        });
        assert_eq!(end, Err(Stop::Cancelled));
    }
}

/// The next function takes the place of one that is being called only when that has returned.
#[test]
fn the_function_before_is_awaited() {
    let (table, db) = table();
    let is_inside = Arc::new(AtomicBool::new(false));
    let inside = Arc::clone(&is_inside);
    let (told, hears) = channel();
    let slow = move |_| {
        inside.store(true, Ordering::SeqCst);
        told.send(()).unwrap();
        thread::sleep(20 * MILLISECOND);
        inside.store(false, Ordering::SeqCst);
    };
    table.on_long_wait(MILLISECOND, slow).unwrap();
    let mut holder = table.begin().unwrap();
    holder.lock(db, Mode::X).unwrap();
    let end = while_waiting(&table, db, Mode::S, |txn| {
        hears.recv().unwrap();
        table.on_long_wait(MILLISECOND, |_| ()).unwrap();
        assert!(!is_inside.load(Ordering::SeqCst));
        assert!(hears.recv().is_err()); // The one before is dropped.
        table.cancel(txn).unwrap();
    });
    assert_eq!(end, Err(Stop::Cancelled));
}

#[test]
fn what_is_refused() {
    let (table, _, hears) = telling(Duration::MAX);
    let refused = table.on_long_wait(Duration::ZERO, |_| ());
    assert_eq!(refused, Err(Refusal::BadNumber));
    table.with(|_| {
        assert_eq!(table.on_long_wait(MILLISECOND, |_| ()), Err(Refusal::InUse));
        assert_eq!(table.forget_long_waits(), Err(Refusal::InUse));
        assert_eq!(table.waited(Txn::NONE), Err(Refusal::InUse));
        assert_eq!(table.awaited(), Err(Refusal::InUse));
        assert_eq!(table.restart_awaited(), Err(Refusal::InUse));
        assert_eq!(table.metrics(), Err(Refusal::InUse));
        let written = table.write_metrics(io::sink()).unwrap_err();
        assert_eq!(written.to_string(), "InUse");
        assert!(catch_unwind(AssertUnwindSafe(|| table.waits())).is_err());
    });
    assert!(hears.try_recv().is_err()); // It has its function still, and was told nothing.
    table.forget_long_waits().unwrap();
    table.forget_long_waits().unwrap();
    assert!(hears.recv().is_err());
}

/// It takes some bytes, and then fails.
struct Narrow {
    room: usize,
    panics: bool,
}

impl io::Write for Narrow {
    fn write(&mut self, part: &[u8]) -> io::Result<usize> {
        assert!(self.room > 0 || !self.panics, "of the writer");
        if self.room == 0 {
            return Err(io::ErrorKind::WriteZero.into());
        }
        let taken = part.len().min(self.room);
        self.room -= taken;
        Ok(taken)
    }

    fn flush(&mut self) -> io::Result<()> {
        Ok(())
    }
}

#[test]
fn metrics_are_whole_or_an_error() {
    let (table, _) = table();
    let text = table.metrics().unwrap();
    assert!(text.ends_with("\n# EOF\n"));
    assert!(text.contains("\nburlapslate_transactions_limit "));
    let mut written = Vec::new();
    table.write_metrics(&mut written).unwrap();
    assert_eq!(written, text.as_bytes());
    for room in [0, 1, 5000, text.len() - 1] {
        let narrow = Narrow {
            room,
            panics: false,
        };
        let end = table.write_metrics(narrow).unwrap_err();
        assert_eq!(end.kind(), io::ErrorKind::WriteZero);
        let panics = Narrow { room, panics: true };
        let end = catch_unwind(AssertUnwindSafe(|| table.write_metrics(panics)));
        assert!(end.is_err());
    }
    let whole = Narrow {
        room: text.len() + 1,
        panics: true,
    };
    table.write_metrics(whole).unwrap();
}

/// An index beside records is made by a table without a trace.
#[test]
fn a_trace_has_no_line_for_an_index_beside_records() {
    let sink = std::fs::OpenOptions::new()
        .write(true)
        .open("/dev/null")
        .unwrap();
    let (table, db) = table();
    let file = table.add_file(&[db]).unwrap();
    table.trace(&sink).unwrap();
    let mut writer = table.begin().unwrap();
    writer.lock_path(file, Mode::X).unwrap();
    let record = writer.insert(file, &[]).unwrap();
    writer.unlock(record).unwrap();
    let mut index = || writer.index_records(&[db], file, &[], &[record], &[7]);
    assert_eq!(index(), Err(Refusal::NotWritten));
    assert_eq!(table.end_trace(), Ok(0));
    index().unwrap();
    writer.commit().unwrap();
}

#[test]
fn a_trace_is_a_script() {
    let path = std::env::temp_dir().join(format!("burlapslate-{}.script", std::process::id()));
    let file = std::fs::File::create(&path).unwrap();
    let (table, db) = table();
    assert_eq!(table.end_trace(), Err(Refusal::NoTrace));
    table.trace(&file).unwrap();
    assert_eq!(table.trace(&file), Err(Refusal::InUse));
    drop(file);
    let mut writer = table.begin().unwrap();
    writer.lock(db, Mode::X).unwrap();
    writer.commit().unwrap();
    assert_eq!(table.end_trace(), Ok(0));
    let read = std::fs::File::open(&path).unwrap();
    assert_eq!(table.trace(&read), Err(Refusal::TooLate));
    let script = std::fs::read_to_string(&path).unwrap();
    std::fs::remove_file(&path).unwrap();
    let lines: Vec<_> = script.lines().filter(|it| !it.starts_with('#')).collect();
    let wanted = [
        "granular 2",
        "inner n1",
        "begin t0",
        "lock t0 X n1",
        "commit t0",
    ];
    assert_eq!(lines, wanted);
    assert!(script.ends_with("\n# The trace has ended: 0 lines were dropped\n"));

    let (table, _) = self::table();
    assert_eq!(table.trace(&read), Err(Refusal::BadNumber));
    let full = std::fs::OpenOptions::new()
        .write(true)
        .open("/dev/full")
        .unwrap();
    table.trace(&full).unwrap();
    assert_eq!(table.end_trace(), Err(Refusal::NotWritten));
}
