//! Savepoints: what was locked since goes, and what was had by then stays. And locks for an instant.

mod tasks;

use burlapslate::{Detect, Manager, Mode, Node, Notice, Refusal, Row, Session, Stop, Table, SLOTS};
use std::future::Future;
use std::pin::pin;
use std::task::{Context, Poll};
use std::thread;
use std::time::Duration;
use tasks::quiet;

/// A root with two files.
struct Store {
    table: Table,
    root: Node,
    file: Node,
    other: Node,
}

impl Store {
    fn new() -> Store {
        let table = Table::new(Detect::AtBlock, SLOTS).unwrap();
        let root = table.add_inner(&[]).unwrap();
        let [file, other] = [(); 2].map(|()| table.add_file(&[root]).unwrap());
        Store {
            table,
            root,
            file,
            other,
        }
    }

    fn begin(&self) -> Session<'_> {
        self.table.begin().unwrap()
    }

    fn held(&self, session: &Session<'_>, node: Node) -> Mode {
        self.table.with(|m| m.held(session.txn(), node)).unwrap()
    }

    /// Sleeps until so many wait for a node.
    fn await_queue(&self, node: Node, count: usize) {
        while self.table.with(|m| m.queue(node).unwrap().count()) < count {
            thread::yield_now();
        }
    }
}

#[test]
fn a_savepoint_keeps_what_was_had() {
    let mut m = Manager::new(Detect::AtBlock, SLOTS).unwrap();
    let root = m.add_inner(&[]).unwrap();
    let [first, second] = [(); 2].map(|()| m.add_file(&[root]).unwrap());
    let (a, b) = (m.begin().unwrap(), m.begin().unwrap());
    let _ = m.lock_path(a, first, Mode::S).unwrap();
    let mark = m.mark(a).unwrap();
    let _ = m.lock_path(a, second, Mode::X).unwrap();
    let _ = m.lock_path(a, first, Mode::X).unwrap();
    let _ = m.lock_path(b, second, Mode::S).unwrap();
    let (released, told) = m.release_since(a, mark).unwrap();
    assert_eq!(released, 1);
    let granted = Notice::Granted {
        txn: b,
        node: second,
        mode: Mode::S,
    };
    assert_eq!(told.into_iter().collect::<Vec<_>>(), [granted]);
    assert_eq!(m.held(a, first), Ok(Mode::X));
    assert_eq!(m.held(a, root), Ok(Mode::IX));
    let (released, told) = m.release_since(a, mark).unwrap();
    assert!(released == 0 && told.is_empty());
    assert!(m.commit(b).unwrap().is_empty());
    assert_eq!(m.mark(b).unwrap_err(), Refusal::NoSuchTxn);
    assert_eq!(
        m.release_since(b, mark).map(|(n, _)| n),
        Err(Refusal::NoSuchTxn)
    );
}

#[test]
fn a_savepoint_lets_rows_go() {
    let store = &Store::new();
    let rows = store.table.add_row_file(&[store.root]).unwrap();
    let mut session = store.begin();
    session.lock_path(rows, Mode::IX).unwrap();
    let row = |number| Row { file: rows, number };
    let _ = session.lock_row(row(1), &[], Mode::X).unwrap();
    let mark = session.mark().unwrap();
    let _ = session.lock_row(row(2), &[], Mode::X).unwrap();
    assert_eq!(session.release_since(mark), Ok(1));
    assert!(store.table.row_node(row(1)).is_some());
    assert_eq!(store.table.row_node(row(2)), None);
}

#[test]
fn a_savepoint_wakes() {
    let store = &Store::new();
    let (mut a, mut b) = (store.begin(), store.begin());
    a.lock_path(store.file, Mode::IX).unwrap();
    let mark = a.mark().unwrap();
    a.lock_path(store.other, Mode::X).unwrap();
    thread::scope(|scope| {
        let sleeper = scope.spawn(move || b.lock_path(store.other, Mode::S));
        store.await_queue(store.other, 1);
        assert_eq!(a.release_since(mark), Ok(1));
        assert_eq!(sleeper.join().unwrap(), Ok(Mode::S));
    });
}

#[test]
fn what_is_granted_at_once_is_given_back() {
    let store = &Store::new();
    let mut session = store.begin();
    assert_eq!(session.lock_instant(store.root, Mode::X), Ok(Mode::X));
    assert_eq!(store.held(&session, store.root), Mode::NL);
    assert_eq!(session.lock_path_instant(store.file, Mode::X), Ok(Mode::X));
    assert_eq!(store.held(&session, store.file), Mode::NL);
    assert_eq!(store.held(&session, store.root), Mode::IX);
    session.lock(store.file, Mode::S).unwrap();
    assert_eq!(session.lock_instant(store.file, Mode::X), Ok(Mode::X));
    assert_eq!(store.held(&session, store.file), Mode::X); // It was held, and stays raised.
    let refused = session.lock_instant(store.other, Mode::NL);
    assert_eq!(refused, Err(Stop::Refused(Refusal::BadMode)));
}

/// One commit goes through all that wait for an instant, up to a lock that stays.
#[test]
fn instants_go_one_behind_the_other() {
    let store = &Store::new();
    let mut holder = store.begin();
    holder.lock(store.root, Mode::X).unwrap();
    thread::scope(|scope| {
        let mut sleepers = Vec::new();
        for place in 0..4 {
            let mut session = store.begin();
            sleepers.push(scope.spawn(move || {
                let end = match place {
                    0 | 1 => session.lock_instant(store.root, Mode::X),
                    2 => session.lock_path_instant(store.root, Mode::S),
                    _ => session.lock(store.root, Mode::X),
                };
                (end, store.held(&session, store.root), session)
            }));
            store.await_queue(store.root, place + 1);
        }
        holder.commit().unwrap();
        let ends = sleepers.into_iter().map(|sleeper| sleeper.join().unwrap());
        let ends: Vec<_> = ends.map(|(end, held, _session)| (end, held)).collect();
        let brief = |mode| (Ok(mode), Mode::NL);
        let stays = (Ok(Mode::X), Mode::X);
        assert_eq!(
            ends,
            [brief(Mode::X), brief(Mode::X), brief(Mode::S), stays]
        );
    });
}

/// A wait for an instant that ends in another way leaves nothing behind: the next lock stays.
#[test]
fn the_next_lock_stays() {
    let store = &Store::new();
    let (mut holder, mut session) = (store.begin(), store.begin());
    holder.lock(store.root, Mode::X).unwrap();
    session.set_deadline(Some(std::time::Instant::now() + Duration::from_millis(1)));
    let end = session.lock_instant(store.root, Mode::X);
    assert_eq!(end, Err(Stop::TimedOut));
    session.set_deadline(None);
    thread::scope(|scope| {
        let sleeper = scope.spawn(|| session.lock(store.root, Mode::X));
        store.await_queue(store.root, 1);
        holder.commit().unwrap();
        assert_eq!(sleeper.join().unwrap(), Ok(Mode::X));
    });
    assert_eq!(store.held(&session, store.root), Mode::X);
}

#[test]
fn a_task_asks_for_an_instant() {
    let store = &Store::new();
    let waker = quiet();
    let mut context = Context::from_waker(&waker);
    let (mut holder, mut session) = (store.begin(), store.begin());
    let txn = session.txn();
    holder.lock(store.root, Mode::X).unwrap();
    {
        let mut lock = pin!(session.lock_instant_async(store.root, Mode::X));
        assert_eq!(lock.as_mut().poll(&mut context), Poll::Pending);
        holder.commit().unwrap();
        assert_eq!(store.table.with(|m| m.held(txn, store.root)), Ok(Mode::NL));
        assert_eq!(lock.as_mut().poll(&mut context), Poll::Ready(Ok(Mode::X)));
    }
    {
        let mut dropped = pin!(session.lock_instant_async(store.root, Mode::S));
        assert_eq!(
            dropped.as_mut().poll(&mut context),
            Poll::Ready(Ok(Mode::S))
        );
    }
    assert_eq!(store.held(&session, store.root), Mode::NL);
}
