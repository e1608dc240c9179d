//! Stories of a table that threads share: each end of a sleep, sessions that are dropped, paths,
//! watchers and listings.

use burlapslate::{
    Board, Detect, Doing, Mode, Node, Refusal, Row, RowLocked, Session, Stop, Table, Txn, Victims,
    Wait, Watcher, MOST_WATCHERS, SLOTS,
};
use std::sync::{mpsc, Arc};
use std::thread;
use std::time::{Duration, Instant};

/// A file under a root, with an index of two intervals, parted at 100, and a record in each.
struct Store {
    table: Table,
    root: Node,
    file: Node,
    index: Node,
    below: Node,
    above: Node,
    low: Node,
    high: Node,
}

impl Store {
    fn new(detect: Detect) -> Store {
        let table = Table::new(detect, SLOTS).unwrap();
        let root = table.add_inner(&[]).unwrap();
        let file = table.add_file(&[root]).unwrap();
        let index = table.add_index(&[root], file, &[100]).unwrap();
        let [below, above] = [0, 1].map(|place| table.with(|m| m.interval(index, place)).unwrap());
        let mut session = table.begin().unwrap();
        for node in [file, below, above] {
            assert_eq!(session.lock_path(node, Mode::IX), Ok(Mode::IX));
        }
        let [low, high] = [50, 200].map(|key| session.insert(file, &[key]).unwrap());
        session.commit().unwrap();
        Store {
            table,
            root,
            file,
            index,
            below,
            above,
            low,
            high,
        }
    }

    fn begin(&self) -> Session<'_> {
        self.table.begin().unwrap()
    }

    fn held(&self, txn: Txn, node: Node) -> Mode {
        self.table.with(|m| m.held(txn, node)).unwrap()
    }

    fn await_wait(&self, txn: Txn) {
        while self.table.with(|m| m.waiting(txn)).is_none() {
            thread::sleep(Duration::from_micros(50));
        }
    }

    /// Has a session ask in a thread of its own, and come to sleep; then somebody does something, and
    /// this is how the sleep ends.
    fn woken_by(
        &self,
        mut session: Session<'_>,
        node: Node,
        mode: Mode,
        doing: impl FnOnce(),
    ) -> Result<Mode, Stop> {
        thread::scope(|scope| {
            let txn = session.txn();
            let requester = scope.spawn(move || session.lock_path(node, mode));
            self.await_wait(txn);
            doing();
            requester.join().unwrap()
        })
    }
}

#[test]
fn a_commit_grants() {
    let s = Store::new(Detect::AtBlock);
    let (mut a, b) = (s.begin(), s.begin());
    a.lock(s.root, Mode::X).unwrap();
    assert_eq!(
        s.woken_by(b, s.root, Mode::S, || a.commit().unwrap()),
        Ok(Mode::S)
    );
}

#[test]
fn an_unlock_grants() {
    let s = Store::new(Detect::AtBlock);
    let (mut a, b) = (s.begin(), s.begin());
    a.lock(s.root, Mode::X).unwrap();
    assert_eq!(
        s.woken_by(b, s.root, Mode::X, || a.unlock(s.root).unwrap()),
        Ok(Mode::X)
    );
}

#[test]
fn a_session_that_is_dropped_is_aborted() {
    let s = Store::new(Detect::AtBlock);
    let (mut a, b) = (s.begin(), s.begin());
    let txn = a.txn();
    a.lock_path(s.low, Mode::X).unwrap();
    assert_eq!(s.woken_by(b, s.low, Mode::S, || drop(a)), Ok(Mode::S));
    assert_eq!(s.table.abort(txn), Err(Refusal::NoSuchTxn));
}

#[test]
fn a_thread_that_panics_gives_its_locks_back() {
    let s = Store::new(Detect::AtBlock);
    let died = thread::scope(|scope| {
        let panics = scope.spawn(|| {
            let mut session = s.begin();
            session.lock(s.root, Mode::X).unwrap();
            panic!("as it is wanted");
        });
        panics.join()
    });
    assert!(died.is_err());
    assert_eq!(s.begin().lock(s.root, Mode::X), Ok(Mode::X));
}

#[test]
fn a_victim_is_woken() {
    for victims in [Victims::Youngest, Victims::Fewest] {
        let table = Table::choosing(Detect::AtBlock, victims, SLOTS).unwrap();
        let root = table.add_inner(&[]).unwrap();
        let [mut a, mut b] = [(); 2].map(|()| table.begin().unwrap());
        for session in [&mut a, &mut b] {
            session.lock(root, Mode::S).unwrap();
        }
        thread::scope(|scope| {
            let name = b.txn();
            let younger = scope.spawn(move || (b.lock(root, Mode::X), b));
            while table.with(|m| m.waiting(name)).is_none() {
                thread::yield_now();
            }
            let older = scope.spawn(move || a.lock(root, Mode::X));
            let (end, b) = younger.join().unwrap();
            assert_eq!(end, Err(Stop::Victim));
            assert_eq!(b.commit(), Err(Refusal::TxnCondemned)); // It is dropped, and so aborted.
            assert_eq!(older.join().unwrap(), Ok(Mode::X));
        });
        let last = table.with(|m| m.last_deadlock()).unwrap();
        assert_eq!(last.victim.slot(), 1);
        assert!(table.dump().contains("victim: slot 1, age 2"));
    }
}

#[test]
fn a_wait_is_settled() {
    let s = Store::new(Detect::ByWatcher);
    let (mut a, mut b) = (s.begin(), s.begin());
    a.lock(s.root, Mode::S).unwrap();
    b.lock(s.root, Mode::S).unwrap();
    thread::scope(|scope| {
        let (older, younger) = (a.txn(), b.txn());
        let first = scope.spawn(move || a.lock(s.root, Mode::X));
        let second = scope.spawn(move || b.lock(s.root, Mode::X));
        s.await_wait(older);
        s.await_wait(younger);
        assert_eq!(s.table.settle(older), Ok(1));
        assert_eq!(second.join().unwrap(), Err(Stop::Victim));
        assert_eq!(first.join().unwrap(), Ok(Mode::X));
    });
}

#[test]
fn a_record_moves() {
    let s = Store::new(Detect::AtBlock);
    let (mut a, mut b) = (s.begin(), s.begin());
    a.lock_path(s.low, Mode::X).unwrap();
    a.lock_path(s.above, Mode::IX).unwrap();
    b.lock_path(s.below, Mode::IX).unwrap();
    b.lock(s.file, Mode::IX).unwrap();
    thread::scope(|scope| {
        let name = b.txn();
        let waits = scope.spawn(move || (b.lock(s.low, Mode::X), b));
        s.await_wait(name);
        a.rekey(s.low, s.index, 150).unwrap();
        let (end, b) = waits.join().unwrap();
        assert_eq!(end, Err(Stop::Moved));
        let end = s.woken_by(b, s.low, Mode::X, || a.commit().unwrap());
        assert_eq!(end, Ok(Mode::X));
    });
    assert_eq!(s.table.with(|m| m.key(s.low, 0)), Some(150));
}

#[test]
fn a_record_that_moves_is_begun_anew() {
    let s = Store::new(Detect::AtBlock);
    let (mut a, b) = (s.begin(), s.begin());
    a.lock_path(s.low, Mode::X).unwrap();
    a.lock_path(s.above, Mode::IX).unwrap();
    let end = s.woken_by(b, s.low, Mode::X, || {
        a.rekey(s.low, s.index, 150).unwrap();
        a.commit().unwrap();
    });
    assert_eq!(end, Ok(Mode::X));
}

#[test]
fn a_record_goes() {
    let s = Store::new(Detect::AtBlock);
    let (mut a, b) = (s.begin(), s.begin());
    a.lock_path(s.low, Mode::X).unwrap();
    let end = s.woken_by(b, s.low, Mode::S, || a.delete(s.low).unwrap());
    assert_eq!(end, Err(Stop::Gone));
}

#[test]
fn a_file_is_dropped() {
    let s = Store::new(Detect::AtBlock);
    let rows = s.table.add_row_file(&[s.root]).unwrap();
    let row = Row {
        file: rows,
        number: 7,
    };
    let mut writer = s.begin();
    writer.lock_path(rows, Mode::IX).unwrap();
    let locked = writer.lock_row(row, &[], Mode::X);
    assert_eq!(locked, Ok(RowLocked::Own(Mode::X)));
    writer.commit().unwrap(); // It lets the row go.
    let (mut a, b) = (s.begin(), s.begin());
    a.lock_path(rows, Mode::X).unwrap();
    let end = s.woken_by(b, rows, Mode::IX, || a.drop_node(rows).unwrap());
    assert_eq!(end, Err(Stop::Gone));
    let end = s.begin().lock_path(rows, Mode::IX);
    assert_eq!(end, Err(Stop::Refused(Refusal::NoSuchNode)));
    let end = a.lock_row(row, &[], Mode::X);
    assert_eq!(end, Err(Stop::Refused(Refusal::NotRows)));
    assert_ne!(s.table.add_row_file(&[s.root]), Ok(rows));
}

/// A row that its transaction holds stands in the way, until it is let go.
#[test]
fn an_index_of_rows_is_made_again() {
    let s = Store::new(Detect::AtBlock);
    let rows = s.table.add_row_file(&[s.root]).unwrap();
    let coarse = s.table.add_index(&[s.root], rows, &[100]).unwrap();
    let interval = s.table.with(|m| m.interval_of(coarse, 120)).unwrap();
    let row = Row {
        file: rows,
        number: 7,
    };
    let (mut a, b) = (s.begin(), s.begin());
    for (node, mode) in [(rows, Mode::X), (coarse, Mode::X), (interval, Mode::IX)] {
        a.lock_path(node, mode).unwrap();
    }
    let locked = a.lock_row(row, &[120], Mode::X);
    assert_eq!(locked, Ok(RowLocked::Own(Mode::X)));
    let bounds = [50, 100, 150];
    let in_use = Err(Refusal::FileInUse);
    assert_eq!(a.index_by(&[s.root], rows, &bounds), in_use);
    assert_eq!(a.drop_node(coarse), in_use.map(drop::<Node>));
    a.unlock_row(row).unwrap();
    let finer = a.index_by(&[s.root], rows, &bounds).unwrap();
    let end = s.woken_by(b, interval, Mode::S, || a.drop_node(coarse).unwrap());
    assert_eq!(end, Err(Stop::Gone));
    a.commit().unwrap();
    let mut next = s.begin();
    assert_eq!(next.lock_path(finer, Mode::IX), Ok(Mode::IX));
    let interval = s.table.with(|m| m.interval_of(finer, 120)).unwrap();
    for node in [rows, interval] {
        assert_eq!(next.lock_path(node, Mode::IX), Ok(Mode::IX));
    }
    assert_eq!(
        next.lock_row(row, &[120], Mode::X),
        Ok(RowLocked::Own(Mode::X))
    );
}

/// A writer that sleeps on its way to a record acquires the interval that it has in a new index, too.
#[test]
fn an_index_is_made_beside_records() {
    let s = Store::new(Detect::AtBlock);
    let (mut a, mut b) = (s.begin(), s.begin());
    let (name, records) = (b.txn(), [s.low, s.high]);
    a.lock_path(s.file, Mode::X).unwrap();
    let index_records = |a: &mut Session<'_>, keys: &[u64]| {
        a.index_records(&[s.root], s.file, &[10], &records, keys)
    };
    assert_eq!(index_records(&mut a, &[7, 10]), Err(Refusal::NeedExclusive));
    assert_eq!(index_records(&mut a, &[7]), Err(Refusal::BadKeys));
    a.lock_path(s.index, Mode::X).unwrap();
    let index = thread::scope(|scope| {
        let sleeper = scope.spawn(|| b.lock_path(s.high, Mode::X));
        s.await_wait(name);
        let index = index_records(&mut a, &[7, 10]).unwrap();
        a.commit().unwrap();
        assert_eq!(sleeper.join().unwrap(), Ok(Mode::X));
        index
    });
    let [lower, upper] = [0, 1].map(|place| s.table.with(|m| m.interval(index, place)).unwrap());
    assert_eq!(s.held(name, upper), Mode::IX);
    assert_eq!(s.held(name, lower), Mode::NL);
}

#[test]
fn a_file_moves() {
    let s = Store::new(Detect::AtBlock);
    let other = s.table.add_inner(&[]).unwrap();
    let (mut a, mut b) = (s.begin(), s.begin());
    a.lock_path(s.file, Mode::X).unwrap();
    a.lock(other, Mode::IX).unwrap();
    b.lock(s.root, Mode::IS).unwrap();
    thread::scope(|scope| {
        let name = b.txn();
        let waits = scope.spawn(move || b.lock(s.file, Mode::S));
        s.await_wait(name);
        a.move_node(s.file, &[other]).unwrap();
        assert_eq!(waits.join().unwrap(), Err(Stop::Moved));
    });
}

/// A lock of the interval stops; a path begins anew, by the interval that the record has then.
#[test]
fn an_interval_is_split() {
    let s = Store::new(Detect::AtBlock);
    let (mut a, mut b, c) = (s.begin(), s.begin(), s.begin());
    a.lock_path(s.below, Mode::X).unwrap();
    b.lock_path(s.index, Mode::IX).unwrap();
    let end = s.woken_by(c, s.low, Mode::X, || {
        let name = b.txn();
        let new = thread::scope(|scope| {
            let waits = scope.spawn(move || b.lock(s.below, Mode::IX));
            s.await_wait(name);
            let new = a.split(s.below, 50).unwrap();
            assert_eq!(waits.join().unwrap(), Err(Stop::Moved));
            new
        });
        assert_eq!(s.held(a.txn(), new), Mode::X);
        assert_eq!(s.table.with(|m| m.interval_of(s.index, 50)), Ok(new));
        a.commit().unwrap();
    });
    assert_eq!(end, Ok(Mode::X));
}

#[test]
fn intervals_are_merged() {
    let s = Store::new(Detect::AtBlock);
    let (mut a, b) = (s.begin(), s.begin());
    for node in [s.below, s.above] {
        a.lock_path(node, Mode::X).unwrap();
    }
    let end = s.woken_by(b, s.above, Mode::S, || a.merge(s.below).unwrap());
    assert_eq!(end, Err(Stop::Gone));
    a.commit().unwrap();
    let mut next = s.begin();
    assert_eq!(next.lock_path(s.below, Mode::S), Ok(Mode::S));
    let end = next.lock_path(s.above, Mode::S);
    assert_eq!(end, Err(Stop::Refused(Refusal::NoSuchNode)));
}

#[test]
fn another_thread_cancels_or_aborts() {
    let s = Store::new(Detect::AtBlock);
    let (mut a, b, c) = (s.begin(), s.begin(), s.begin());
    a.lock(s.root, Mode::X).unwrap();
    let (cancelled, aborted) = (b.txn(), c.txn());
    let end = s.woken_by(b, s.root, Mode::S, || s.table.cancel(cancelled).unwrap());
    assert_eq!(end, Err(Stop::Cancelled));
    let end = s.woken_by(c, s.root, Mode::S, || s.table.abort(aborted).unwrap());
    assert_eq!(end, Err(Stop::Refused(Refusal::NoSuchTxn)));
}

#[test]
fn an_escalation_grants() {
    let s = Store::new(Detect::AtBlock);
    let parents = [(); 2].map(|()| s.table.add_inner(&[s.root]).unwrap());
    let child = s.table.add_inner(&parents).unwrap();
    let (mut a, mut b) = (s.begin(), s.begin());
    a.lock_path(child, Mode::IX).unwrap();
    b.lock_path(parents[1], Mode::IS).unwrap();
    let end = s.woken_by(b, child, Mode::S, || {
        let escalated = a.escalate(parents[0]).unwrap();
        assert_eq!((escalated.mode, escalated.released), (Mode::X, 1));
    });
    assert_eq!(end, Ok(Mode::S));
}

#[test]
fn a_time_comes() {
    let s = Store::new(Detect::AtBlock);
    let (mut a, mut b) = (s.begin(), s.begin());
    a.lock(s.root, Mode::X).unwrap();
    let (began, time) = (Instant::now(), Duration::from_millis(2));
    assert_eq!(b.lock_timeout(s.root, Mode::S, time), Err(Stop::TimedOut));
    assert!(began.elapsed() >= time);
    assert_eq!(
        b.lock_path_timeout(s.low, Mode::S, time),
        Err(Stop::TimedOut)
    );
    assert_eq!(b.try_lock(s.root, Mode::S), Err(Refusal::WouldBlock));
    a.commit().unwrap();
    assert_eq!(b.lock_timeout(s.root, Mode::S, Duration::MAX), Ok(Mode::S));
}

/// Times and grants at the same moment, again and again: a lock is held or it is not.
#[test]
fn times_and_grants() {
    let s = Store::new(Detect::AtBlock);
    for round in 0..300 {
        let (mut a, mut b) = (s.begin(), s.begin());
        a.lock(s.root, Mode::X).unwrap();
        thread::scope(|scope| {
            let requester = scope.spawn(|| {
                let end = b.lock_timeout(s.root, Mode::X, Duration::from_micros(60));
                (end, b)
            });
            thread::sleep(Duration::from_micros(round % 60));
            a.commit().unwrap();
            let (end, b) = requester.join().unwrap();
            let held = s.held(b.txn(), s.root);
            match end {
                Ok(mode) => assert!(mode == Mode::X && held == Mode::X),
                Err(stop) => assert!(stop == Stop::TimedOut && held == Mode::NL),
            }
        });
    }
}

#[test]
fn paths() {
    let s = Store::new(Detect::AtBlock);
    let mut a = s.begin();
    assert_eq!(a.lock_path(s.low, Mode::X), Ok(Mode::X));
    for node in [s.root, s.file, s.index, s.below] {
        assert_eq!(s.held(a.txn(), node), Mode::IX);
    }
    let mut b = s.begin();
    assert_eq!(b.lock_path(s.high, Mode::S), Ok(Mode::S));
    assert_eq!(s.held(b.txn(), s.file), Mode::IS);
    assert_eq!(s.held(b.txn(), s.index), Mode::NL);
    assert_eq!(
        a.lock_path(s.low, Mode::IX),
        Err(Stop::Refused(Refusal::BadMode))
    );
    let mut chain = vec![s.root];
    for _ in 0..40 {
        chain.push(s.table.add_inner(&[chain[chain.len() - 1]]).unwrap());
    }
    assert_eq!(a.lock_path(chain[40], Mode::X), Ok(Mode::X));
    assert!(chain[..40]
        .iter()
        .all(|&node| s.held(a.txn(), node) == Mode::IX));
}

#[test]
fn a_transaction_is_left_to_others() {
    let s = Store::new(Detect::AtBlock);
    let mut a = s.begin();
    a.lock(s.root, Mode::X).unwrap();
    let prepared = a.leave();
    assert_eq!(s.held(prepared, s.root), Mode::X);
    let end = s.woken_by(s.begin(), s.root, Mode::S, || {
        s.table.commit(prepared).unwrap()
    });
    assert_eq!(end, Ok(Mode::S));
}

#[test]
fn watchers_look() {
    let s = Store::new(Detect::AtBlock);
    let mut watcher = s.table.watch().unwrap();
    let (mut a, b) = (s.begin(), s.begin());
    let (holder, waiter) = (a.txn(), b.txn());
    a.lock(s.root, Mode::X).unwrap();
    let end = s.woken_by(b, s.root, Mode::S, || {
        let board = watcher.board();
        assert!(board.rows()[waiter.slot()].contains(holder.slot()));
        assert_eq!(board.epoch(), s.table.with(|m| m.accepted()));
        a.commit().unwrap();
    });
    assert_eq!(end, Ok(Mode::S));
    let mut board = Board::new();
    watcher.look(&mut board);
    assert!(board.rows().iter().all(|row| row.is_empty()));
    drop(s);
    assert_eq!(watcher.board(), board);
}

#[test]
fn a_ninth_watcher() {
    let s = Store::new(Detect::AtBlock);
    let mut watchers: Vec<Watcher> = (0..MOST_WATCHERS)
        .map(|_| s.table.watch().unwrap())
        .collect();
    assert_eq!(s.table.watch().unwrap_err(), Refusal::TooManyWatchers);
    watchers.pop();
    assert!(s.table.watch().is_ok());
}

#[test]
fn somebody_watches_over_it() {
    for rest in [Duration::ZERO, Duration::from_millis(1)] {
        let s = Store::new(Detect::ByWatcher);
        thread::scope(|scope| {
            scope.spawn(|| s.table.watch_over(rest).unwrap());
            for _ in 0..20 {
                let (mut a, mut b) = (s.begin(), s.begin());
                a.lock(s.root, Mode::S).unwrap();
                b.lock(s.root, Mode::S).unwrap();
                let (send, receive) = mpsc::channel();
                scope.spawn(move || send.send(b.lock(s.root, Mode::X)).unwrap());
                assert_eq!(a.lock(s.root, Mode::X), Ok(Mode::X));
                assert_eq!(receive.recv().unwrap(), Err(Stop::Victim));
            }
            s.table.end_watch();
        });
    }
}

#[test]
fn listings() {
    let s = Store::new(Detect::AtBlock);
    let (mut a, b) = (s.begin(), s.begin());
    let (holder, waiter) = (a.txn(), b.txn());
    a.lock_path(s.low, Mode::X).unwrap();
    let end = s.woken_by(b, s.low, Mode::S, || {
        s.table.with(|m| {
            let rows: Vec<_> = m.transactions().collect();
            assert!(rows[0].txn == holder && rows[0].doing == Doing::Active);
            let wait = Wait {
                node: s.low,
                mode: Mode::S,
            };
            assert!(rows[1].txn == waiter && rows[1].doing == Doing::Waiting(wait));
            assert!(rows[1].waits_for.iter().eq([holder.slot()]));
            assert_eq!(m.locks(holder).count(), 5);
            assert_eq!(m.lock_count(waiter), Ok(3));
            let low = m.locks(waiter).find(|row| row.node == s.low).unwrap();
            assert!(low.mode == Mode::NL && low.wants == Some(Mode::S));
            assert_eq!(
                m.holders(s.low).unwrap().iter().collect::<Vec<_>>(),
                [holder.slot()]
            );
            assert_eq!(m.mode_at(holder.slot(), s.low), Mode::X);
            let queue: Vec<_> = m.queue(s.low).unwrap().collect();
            assert!(queue.len() == 1 && queue[0].txn == waiter);
            assert_eq!(m.counters().waited, 1);
            assert_eq!(m.counters().accepted, m.accepted());
            assert_eq!(m.most(), SLOTS);
            assert!(m.last_deadlock().is_none());
        });
        let text = s.table.dump();
        assert_eq!(
            text.lines()
                .filter(|line| line.starts_with("   0 "))
                .count(),
            6
        );
        assert_eq!(
            text.lines()
                .filter(|line| line.starts_with("   1 "))
                .count(),
            4
        );
        assert!(text.contains("\n       1.        1 S\n"));
        assert!(text.contains("\n    held         0 X\n"));
        a.commit().unwrap();
    });
    assert_eq!(end, Ok(Mode::S));
}

/// What may go to another thread, and what several may have.
#[test]
fn what_threads_may_do() {
    fn goes<T: Send>() {}
    fn is_shared<T: Sync>() {}
    goes::<(Table, Session<'_>, Session<'static>, Watcher, Stop)>();
    is_shared::<(Table, Session<'_>, Session<'static>, Watcher, Stop)>();
}

/// A session that owns its table with others outlives all of them, and its drop aborts it.
#[test]
fn a_session_that_owns_its_table() {
    let table = Arc::new(Table::new(Detect::AtBlock, 1).unwrap());
    let db = table.add_inner(&[]).unwrap();
    let mut first = table.begin_shared().unwrap();
    assert_eq!(first.lock(db, Mode::X), Ok(Mode::X));
    let none = table.begin_shared_timeout(Duration::from_millis(1));
    assert_eq!(none.map(Session::leave), Err(Stop::TimedOut));
    let waits = Arc::clone(&table);
    let second = thread::spawn(move || waits.begin_shared_in_turn().unwrap());
    drop(first);
    let mut second = second.join().unwrap();
    let last = Arc::downgrade(&table);
    drop(table);
    assert_eq!(second.lock(db, Mode::S), Ok(Mode::S));
    second.commit().unwrap();
    assert!(last.upgrade().is_none());
}

/// Each wait of a session ends at its own time at the latest.
#[test]
fn a_session_has_a_deadline() {
    let s = Store::new(Detect::AtBlock);
    let (mut a, mut b) = (s.begin(), s.begin());
    a.lock(s.root, Mode::X).unwrap();
    let far = Duration::from_secs(60);
    b.set_deadline(Some(Instant::now() + Duration::from_millis(2)));
    assert_eq!(b.lock(s.root, Mode::S), Err(Stop::TimedOut));
    assert_eq!(b.lock_timeout(s.root, Mode::S, far), Err(Stop::TimedOut));
    assert_eq!(b.lock_path(s.file, Mode::S), Err(Stop::TimedOut));
    b.set_deadline(Some(Instant::now() + far));
    let soon = Duration::from_millis(2);
    assert_eq!(b.lock_timeout(s.root, Mode::S, soon), Err(Stop::TimedOut));
    let until = Instant::now() + soon;
    assert_eq!(b.lock_until(s.root, Mode::S, until), Err(Stop::TimedOut));
    assert!(Instant::now() >= until);
    assert_eq!(
        b.lock_path_until(s.file, Mode::S, until),
        Err(Stop::TimedOut)
    );
    b.set_deadline(None);
    a.commit().unwrap();
    assert_eq!(b.lock(s.root, Mode::S), Ok(Mode::S));
}

/// A file of rows under a root, with an index of two intervals, parted at 100.
struct Rows {
    table: Table,
    row: Row,
    index: Node,
}

impl Rows {
    fn new() -> Rows {
        let table = Table::new(Detect::AtBlock, SLOTS).unwrap();
        let root = table.add_inner(&[]).unwrap();
        let file = table.add_row_file(&[root]).unwrap();
        let index = table.add_index(&[root], file, &[100]).unwrap();
        let row = Row { file, number: 7 };
        Rows { table, row, index }
    }

    /// A session that may write rows in both intervals.
    fn begin(&self) -> Session<'_> {
        let mut session = self.table.begin().unwrap();
        for key in [50, 150] {
            let interval = self.table.with(|m| m.interval_of(self.index, key)).unwrap();
            assert_eq!(session.lock_path(interval, Mode::IX), Ok(Mode::IX));
        }
        assert_eq!(session.lock_path(self.row.file, Mode::IX), Ok(Mode::IX));
        session
    }

    /// What one who asks for the row by this key in a thread is answered, once the first has ended.
    fn behind(&self, key: u64, end: impl FnOnce(Session<'_>)) -> RowLocked {
        let (mut first, mut other) = (self.begin(), self.begin());
        let held = first.lock_row(self.row, &[50], Mode::X);
        assert_eq!(held, Ok(RowLocked::Own(Mode::X)));
        let name = other.txn();
        thread::scope(|scope| {
            let asked = scope.spawn(move || other.lock_row(self.row, &[key], Mode::X));
            while self.table.with(|m| m.waiting(name)).is_none() {
                thread::sleep(Duration::from_micros(50));
            }
            end(first);
            asked.join().unwrap().unwrap()
        })
    }
}

/// Who waits for a row hears behind its sleep whether the keys are those of the row's node.
#[test]
fn rows_that_are_slept_for() {
    let rows = Rows::new();
    let (own, others) = (RowLocked::Own(Mode::X), RowLocked::OtherKeys(Mode::X));
    assert_eq!(rows.behind(50, |first| first.commit().unwrap()), own);
    assert_eq!(rows.behind(50, |first| first.abort()), own);
    assert_eq!(rows.behind(150, |first| first.abort()), others);
    for (key, answer) in [(50, others), (150, own)] {
        let moved = rows.behind(key, |mut first| {
            first.rekey_row(rows.row, rows.index, 150).unwrap();
            first.commit().unwrap();
        });
        assert_eq!(moved, answer);
    }
    assert_eq!(rows.table.row_node(rows.row), None);
}
