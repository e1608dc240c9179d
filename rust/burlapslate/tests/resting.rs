//! Transactions of a thread, one after the other, of which each keeps the intentions of the one before it.

use burlapslate::{Detect, Mode, Node, Refusal, Session, Table, SLOTS};
use std::sync::Arc;
use std::thread;

struct Store {
    table: Table,
    root: Node,
    file: Node,
    record: Node,
}

impl Store {
    fn of(slots: usize) -> Store {
        let table = Table::new(Detect::AtBlock, slots).unwrap();
        let root = table.add_inner(&[]).unwrap();
        let file = table.add_file(&[root]).unwrap();
        let mut session = table.begin().unwrap();
        session.lock_path(file, Mode::IX).unwrap();
        let record = session.insert(file, &[]).unwrap();
        session.commit().unwrap();
        Store {
            table,
            root,
            file,
            record,
        }
    }

    fn write(&self) -> Session<'_> {
        let mut session = self.table.begin().unwrap();
        session.lock_path(self.record, Mode::X).unwrap();
        session
    }

    fn modes(&self, session: &Session<'_>) -> [Mode; 3] {
        [self.root, self.file, self.record]
            .map(|node| self.table.with(|m| m.held(session.txn(), node)).unwrap())
    }
}

#[test]
fn a_session_keeps_its_intentions() {
    let store = Store::of(SLOTS);
    let session = store.write();
    let before = session.txn();
    let session = session.rest(16).unwrap().begin().unwrap();
    assert_ne!(session.txn(), before);
    assert_eq!(store.modes(&session), [Mode::IX, Mode::IX, Mode::NL]);
    let session = session.rest(1).unwrap().begin().unwrap();
    assert_eq!(store.modes(&session), [Mode::IX, Mode::NL, Mode::NL]);
    let session = session.rest(0).unwrap().begin().unwrap();
    assert_eq!(store.modes(&session), [Mode::NL; 3]);
    session.commit().unwrap();
}

#[test]
fn nobody_waits_for_one_that_rests() {
    let store = Store::of(SLOTS);
    let resting = store.write().rest(16).unwrap();
    let mut reader = store.table.begin().unwrap();
    assert_eq!(reader.lock(store.root, Mode::S), Ok(Mode::S));
    reader.commit().unwrap();
    let session = resting.begin().unwrap();
    assert_eq!(store.modes(&session), [Mode::NL; 3]);
}

#[test]
fn a_begin_gets_its_slot() {
    let store = Store::of(1);
    let resting = store.write().rest(16).unwrap();
    store.table.begin().unwrap().commit().unwrap();
    let session = resting.begin().unwrap();
    assert_eq!(store.modes(&session), [Mode::NL; 3]);
}

#[test]
fn what_is_dropped_is_released() {
    let store = Store::of(SLOTS);
    drop(store.write().rest(16).unwrap());
    assert_eq!(store.table.with(|m| m.group(store.root)), Ok(Mode::NL));
    drop(store.write().rest(16).unwrap().begin().unwrap());
    assert_eq!(store.table.with(|m| m.group(store.root)), Ok(Mode::NL));
}

#[test]
fn a_refused_commit_keeps_nothing() {
    let store = Store::of(SLOTS);
    let session = store.write();
    store.table.abort(session.txn()).unwrap();
    assert_eq!(session.rest(16).unwrap_err(), Refusal::NoSuchTxn);
    let resting = store.write().rest(16).unwrap();
    assert_eq!(
        store.table.with(|_| resting.begin().unwrap_err()),
        Refusal::InUse
    );
}

#[test]
fn it_goes_to_another_thread() {
    let table = Arc::new(Table::new(Detect::AtBlock, SLOTS).unwrap());
    let root = table.add_inner(&[]).unwrap();
    let mut session = table.begin_shared().unwrap();
    session.lock(root, Mode::IX).unwrap();
    let resting = session.rest(16).unwrap();
    let session = thread::spawn(move || resting.begin().unwrap())
        .join()
        .unwrap();
    assert_eq!(table.with(|m| m.held(session.txn(), root)), Ok(Mode::IX));
}
