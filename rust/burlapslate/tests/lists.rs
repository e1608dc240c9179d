//! Stories of lists: what their commands answer and name, where they stop, and how they continue.

mod halts;

use burlapslate::{
    Answers, Do, Done, Halt, Keep, Mark, Mode, Named, NamedRow, Node, Refusal, Row, RowLocked,
    Session, Stop, Table, Tried,
};
use halts::waiters::tasks::block_on;
use halts::waiters::{await_that, ends_at_once, Store, HIGH_KEY, LOW_KEY};
use halts::*;
use std::thread;
use std::time::{Duration, Instant};

/// Runs a list that is to come to its end.
#[track_caller]
fn runs(session: &mut Session<'_>, list: &[Do<'_>]) -> Vec<Done> {
    let mut answers = Answers::new();
    assert_eq!(session.run(list, &mut answers), Ok(()));
    answers.to_vec()
}

/// Runs a list that is to stop: why, and what those before answered.
#[track_caller]
fn stops(session: &mut Session<'_>, list: &[Do<'_>]) -> (Halt, Vec<Done>) {
    let mut answers = Answers::new();
    let halt = session.run(list, &mut answers).unwrap_err();
    (halt, answers.to_vec())
}

// ------------------------------------------------------------------------------------------------------------------
// What commands answer.

/// The same commands by a call each.
fn one_by_one(table: &Table, session: &mut Session<'_>, list: &[Do<'_>]) -> Vec<Done> {
    let mut done: Vec<Done> = Vec::new();
    for each in list {
        let answer = by_a_call(table, session, &done, *each);
        done.push(answer);
    }
    done
}

fn tried<T>(tried: Tried<T>) -> T {
    match tried {
        Tried::Locked(locked) => locked,
        Tried::WouldBlock(node) => panic!("{node} is held"),
    }
}

fn by_a_call(table: &Table, s: &mut Session<'_>, done: &[Done], each: Do<'_>) -> Done {
    let at = |named| match named {
        Named::Node(node) => node,
        Named::Made(place) => done[place].node().unwrap(),
    };
    let row = |row: NamedRow| Row {
        file: at(row.file),
        number: row.number,
    };
    let above = |parents: &[Named]| parents.iter().map(|named| at(*named)).collect::<Vec<_>>();
    let locked = |own, held: NamedRow| {
        let node = table.row_node(row(held)).unwrap();
        Done::RowLocked(own, node)
    };
    let made = |node: Result<Node, Refusal>| Done::Made(node.unwrap());
    let nothing = |end: Result<(), Refusal>| end.map(|()| Done::Accepted).unwrap();
    match each {
        Do::Lock(node, mode) => Done::Locked(s.lock(at(node), mode).unwrap()),
        Do::LockInstant(node, mode) => Done::Locked(s.lock_instant(at(node), mode).unwrap()),
        Do::LockPath(node, mode) => Done::Locked(s.lock_path(at(node), mode).unwrap()),
        Do::LockPathInstant(node, mode) => {
            Done::Locked(s.lock_path_instant(at(node), mode).unwrap())
        }
        Do::LockRow(held, keys, mode) => locked(s.lock_row(row(held), keys, mode).unwrap(), held),
        Do::LockRowPath(held, keys, mode) => {
            locked(s.lock_row_path(row(held), keys, mode).unwrap(), held)
        }
        Do::TryLock(node, mode) => Done::Locked(s.try_lock(at(node), mode).unwrap()),
        Do::TryLockPath(node, mode, keep) => {
            Done::Locked(tried(s.try_lock_path(at(node), mode, keep).unwrap()))
        }
        Do::TryLockRow(held, keys, mode) => {
            let own = tried(s.try_lock_row(row(held), keys, mode).unwrap());
            locked(own, held)
        }
        Do::TryLockRowPath(held, keys, mode, keep) => {
            let own = tried(s.try_lock_row_path(row(held), keys, mode, keep).unwrap());
            locked(own, held)
        }
        Do::Unlock(node) => nothing(s.unlock(at(node))),
        Do::UnlockRow(held) => nothing(s.unlock_row(row(held))),
        Do::Escalate(node) => Done::Escalated(s.escalate(at(node)).unwrap()),
        Do::Mark => Done::Marked(s.mark().unwrap()),
        Do::ReleaseSince(mark) => Done::Released(s.release_since(mark).unwrap()),
        Do::Insert(file, keys) => made(s.insert(at(file), keys)),
        Do::InsertPath(file, keys, keep) => {
            Done::Made(tried(s.insert_path(at(file), keys, keep).unwrap()))
        }
        Do::Delete(record) => nothing(s.delete(at(record))),
        Do::Rekey(record, index, key) => nothing(s.rekey(at(record), at(index), key)),
        Do::RekeyRow(held, index, key) => nothing(s.rekey_row(row(held), at(index), key)),
        Do::MoveNode(node, parents) => nothing(s.move_node(at(node), &above(parents))),
        Do::DropNode(node) => nothing(s.drop_node(at(node))),
        Do::Split(interval, key) => made(s.split(at(interval), key)),
        Do::Merge(interval) => nothing(s.merge(at(interval))),
        Do::IndexBy(parents, file, bounds) => made(s.index_by(&above(parents), at(file), bounds)),
        Do::AddInner(parents) => made(table.add_inner(&above(parents))),
        Do::AddFile(parents) => made(table.add_file(&above(parents))),
        Do::AddRowFile(parents) => made(table.add_row_file(&above(parents))),
        Do::AddIndex(parents, file, bounds) => {
            made(table.add_index(&above(parents), at(file), bounds))
        }
        Do::Adopt(file, keys) => made(table.adopt(at(file), keys)),
        Do::Forget(record) => nothing(table.forget(at(record))),
        _ => panic!("{each:?} is no command of this test"),
    }
}

/// Makes a list in one table, and its commands by a call each in another: the answers are the same, and so is all that
/// is there then.
#[track_caller]
fn is_as_its_calls(list: impl Fn(&Store) -> Vec<Do<'static>>) {
    let (store, twin) = (store(), store());
    let (mut session, mut other) = (store.writer(true), twin.writer(true));
    let answers = runs(&mut session, &list(&store));
    let called = one_by_one(&twin.table, &mut other, &list(&twin));
    assert_eq!(answers, called);
    assert_eq!(store.table.dump(), twin.table.dump());
    assert_eq!(accepted(&store.table), accepted(&twin.table));
}

fn row(store: &Store, number: u64) -> NamedRow {
    Row {
        number,
        ..store.row
    }
    .into()
}

#[test]
fn locks_answer_as_their_calls() {
    is_as_its_calls(|store| {
        let (root, file, low) = (store.root.into(), store.file.into(), store.low.into());
        vec![
            Do::Mark,
            Do::AddInner(&[]),
            Do::LockInstant(Named::Made(1), Mode::S),
            Do::Lock(Named::Made(1), Mode::S),
            Do::LockInstant(Named::Made(1), Mode::X), // It was held, and is raised.
            Do::LockPathInstant(low, Mode::S),
            Do::LockPath(low, Mode::X),
            Do::TryLock(root, Mode::IX),
            Do::TryLockPath(low, Mode::S, Keep::Nothing),
            Do::LockRow(row(store, 1), &LOW_KEY, Mode::S),
            Do::LockRowPath(row(store, 2), &HIGH_KEY, Mode::X),
            Do::TryLockRow(row(store, 3), &LOW_KEY, Mode::X),
            Do::TryLockRowPath(row(store, 4), &LOW_KEY, Mode::S, Keep::Way),
            Do::TryLock(Named::Made(9), Mode::X),
            Do::UnlockRow(row(store, 2)),
            Do::Unlock(low),
            Do::Escalate(store.row.file.into()),
            Do::Mark,
            Do::TryLockPath(file, Mode::S, Keep::Way),
        ]
    });
}

#[test]
fn changes_answer_as_their_calls() {
    is_as_its_calls(|store| {
        let (file, index) = (store.file.into(), store.index.into());
        vec![
            Do::Insert(file, &HIGH_KEY),
            Do::InsertPath(file, &LOW_KEY, Keep::Nothing),
            Do::Rekey(Named::Made(0), index, 60),
            Do::Delete(Named::Made(1)),
            Do::LockRow(row(store, 1), &LOW_KEY, Mode::X),
            Do::RekeyRow(row(store, 1), store.row_index.into(), 200),
            Do::Adopt(file, &LOW_KEY),
            Do::Lock(Named::Made(6), Mode::S),
            Do::Unlock(Named::Made(6)),
            Do::Forget(Named::Made(6)),
        ]
    });
}

#[test]
fn schemas_answer_as_their_calls() {
    is_as_its_calls(|_| {
        const OTHER: &[Named] = &[Named::Made(1)];
        const BOTH: &[Named] = &[Named::Made(0), Named::Made(1)];
        const RECORDS: Named = Named::Made(2);
        const ROWS: Named = Named::Made(4);
        const ROW: NamedRow = NamedRow {
            file: ROWS,
            number: 7,
        };
        vec![
            Do::AddInner(&[]),
            Do::AddInner(&[]),
            Do::AddFile(OTHER),
            Do::AddIndex(OTHER, RECORDS, &[100, 200]),
            Do::AddRowFile(BOTH),
            Do::LockPath(RECORDS, Mode::X),
            Do::LockPath(ROWS, Mode::X),
            Do::LockPath(Named::Made(3), Mode::X),
            Do::InsertPath(RECORDS, &[150], Keep::Nothing),
            Do::Delete(Named::Made(8)),
            Do::LockRow(ROW, &[], Mode::X),
            Do::UnlockRow(ROW),
            Do::Lock(Named::Made(0), Mode::X),
            Do::MoveNode(RECORDS, BOTH),
            Do::IndexBy(BOTH, ROWS, &[7]),
            Do::DropNode(Named::Made(3)),
            Do::DropNode(RECORDS),
        ]
    });
}

#[test]
fn splits_answer_as_their_calls() {
    is_as_its_calls(|store| {
        let (below, above) = (store.below.into(), store.above.into());
        vec![
            Do::LockPath(below, Mode::X),
            Do::LockPath(above, Mode::X),
            Do::Split(below, 40),
            Do::Split(Named::Made(2), 60),
            Do::LockInstant(Named::Made(3), Mode::X),
            Do::Merge(Named::Made(2)),
            Do::Merge(below),
            Do::Split(above, 200),
        ]
    });
}

/// The list may read the savepoint of an earlier one.
#[test]
fn a_list_releases_since_a_mark() {
    let store = store();
    let mut session = begin(&store);
    let answers = runs(
        &mut session,
        &[
            path(store.file, Mode::IX),
            Do::Mark,
            path(store.low, Mode::X),
        ],
    );
    let [_, Done::Marked(mark), GRANTED] = answers[..] else {
        panic!("{answers:?}")
    };
    let later: Mark = session.mark().unwrap();
    let list = [Do::ReleaseSince(mark), Do::Mark];
    let answers = runs(&mut session, &list);
    assert_eq!(answers, [Done::Released(3), Done::Marked(mark)]); // The record, its interval, and the index.
    assert_ne!(later, mark);
    assert_eq!(store.held(session.txn(), store.file), Mode::IX);
    assert_eq!(store.held(session.txn(), store.low), Mode::NL);
}

#[test]
fn answers_are_kept_up_to_the_next_list() {
    let store = store();
    let mut session = begin(&store);
    let mut answers = Answers::default();
    assert!(answers.is_empty());
    let list = [path(store.root, Mode::IX), Do::Mark];
    session.run(&list, &mut answers).unwrap();
    assert_eq!(answers.len(), 2);
    // It has its answers all, so nothing is left.
    let before = accepted(&store.table);
    assert_eq!(session.resume(&list, &mut answers), Ok(()));
    assert_eq!(session.resume(&list[..1], &mut answers), Ok(()));
    assert_eq!(session.resume_to_end(&[], &mut answers), Ok(()));
    assert_eq!((answers.len(), accepted(&store.table)), (2, before));
    session.run(&list[..1], &mut answers).unwrap();
    assert_eq!(*answers, [Done::Locked(Mode::IX)]);
    assert_eq!(format!("{answers:?}"), "Answers([Locked(IX)])");
    assert_eq!(session.run(&[], &mut answers), Ok(()));
    assert!(answers.is_empty());
}

// ------------------------------------------------------------------------------------------------------------------
// What they name.

#[test]
fn a_list_names_what_it_makes() {
    let store = store();
    let mut session = begin(&store);
    let root = Named::from(store.root);
    let answers = runs(
        &mut session,
        &[
            Do::AddInner(&[root]),
            Do::AddFile(&[Named::Made(0), root]),
            Do::AddIndex(&[root], Named::Made(1), &[10]),
            Do::LockPath(Named::Made(2), Mode::X),
            Do::LockPath(Named::Made(1), Mode::X),
            Do::Unlock(Named::Made(1)),
        ],
    );
    let [area, file, index] = [0, 1, 2].map(|place| answers[place].node().unwrap());
    store.table.with(|m| {
        assert_eq!(
            (m.parent(file, 0), m.parent(file, 1)),
            (Some(area), Some(store.root))
        );
        assert_eq!(m.index(file, 0), Ok(Some(index)));
        assert_eq!(m.held(session.txn(), index), Ok(Mode::X));
        assert_eq!(m.held(session.txn(), file), Ok(Mode::NL));
    });
    assert_eq!(answers[5].node(), None);
}

/// A row of a file that the list makes, the row's node, an index that it makes, and a record under that.
#[test]
fn a_list_names_rows_and_indexes() {
    let store = store();
    let mut session = begin(&store);
    let root = Named::from(store.root);
    let file = Named::Made(0);
    let answers = runs(
        &mut session,
        &[
            Do::AddRowFile(&[root]),
            Do::LockRowPath(NamedRow { file, number: 7 }, &[], Mode::X),
            Do::TryLock(Named::Made(1), Mode::X),
            Do::UnlockRow(NamedRow { file, number: 7 }),
        ],
    );
    let (file, number) = (answers[0].node().unwrap(), 7);
    assert!(matches!(
        answers[1],
        Done::RowLocked(RowLocked::Own(Mode::X), _)
    ));
    assert_eq!(store.table.row_node(Row { file, number }), None);
    assert_eq!(store.held(session.txn(), file), Mode::IX);

    let file = Named::from(store.table.add_file(&[store.root]).unwrap());
    let answers = runs(
        &mut session,
        &[
            Do::LockPath(file, Mode::X),
            Do::IndexBy(&[root], file, &[100]),
            Do::InsertPath(file, &[50], Keep::Nothing),
            Do::Rekey(Named::Made(2), Named::Made(1), 60),
        ],
    );
    let record = answers[2].node().unwrap();
    assert_eq!(store.table.with(|m| m.key(record, 0)), Some(60));

    let file = Named::Made(0);
    let row = NamedRow { file, number: 7 };
    let answers = runs(
        &mut session,
        &[
            Do::AddRowFile(&[root]),
            Do::LockPath(file, Mode::X),
            Do::IndexBy(&[root], file, &[100]),
            Do::LockRowPath(row, &[50], Mode::X),
            Do::RekeyRow(row, Named::Made(2), 60),
        ],
    );
    let node = answers[3].node().unwrap();
    assert_eq!(store.table.with(|m| m.key(node, 0)), Some(60));
}

/// A name of its own place, of a later one, or of a command without a node names none: it is refused, and so is all
/// after it left out.
#[test]
fn a_list_names_nothing() {
    let store = store();
    let mut session = begin(&store);
    let here = [Named::Made(1)];
    let none = [
        Do::Lock(Named::Made(1), Mode::IS),
        Do::Lock(Named::Made(2), Mode::IS),
        Do::Lock(Named::Made(0), Mode::IS),
        Do::Lock(Named::Made(usize::MAX), Mode::IS),
        Do::LockPath(Named::Made(3), Mode::IS),
        Do::Delete(Named::Made(0)),
        Do::Insert(Named::Made(2), &[]),
        Do::AddInner(&here),
        Do::AddFile(&here),
    ];
    for each in none {
        let before = accepted(&store.table);
        let list = [Do::Mark, each, Do::AddInner(&[])];
        let (halt, answers) = stops(&mut session, &list);
        assert_eq!(Err(halt), refused(Refusal::NoSuchNode), "{each:?}");
        assert_eq!((answers.len(), accepted(&store.table)), (1, before));
    }
    for place in [0, 1, 2, usize::MAX] {
        let file = Named::Made(place);
        let list = [
            Do::Mark,
            Do::LockRow(NamedRow { file, number: 7 }, &[], Mode::S),
        ];
        let (halt, _) = stops(&mut session, &list);
        assert_eq!(Err(halt), refused(Refusal::NotRows));
    }
}

/// After a stop a name means the same as in the whole list: what an earlier command has made, or a later one will make.
#[test]
fn places_are_those_of_the_whole_list() {
    let store = store();
    let (mut holder, mut session) = (begin(&store), begin(&store));
    holder.lock_path(store.low, Mode::S).unwrap();
    let root = Named::from(store.root);
    let parents = [Named::Made(0), Named::Made(4)];
    let list = [
        Do::AddInner(&[root]),                              // 0
        Do::LockRowPath(row(&store, 7), &LOW_KEY, Mode::X), // 1
        Do::LockPath(store.low.into(), Mode::X),            // 2, which waits
        Do::Unlock(Named::Made(1)),                         // 3, of before
        Do::AddInner(&[root]),                              // 4
        Do::AddFile(&parents),                              // 5, of before and of now
        Do::LockPath(Named::Made(5), Mode::X),              // 6, of now
        Do::Lock(Named::Made(2), Mode::X),                  // 7, of none
    ];
    let mut answers = Answers::new();
    let halt = session.run(&list, &mut answers);
    assert_eq!(halt, Err(waiting(store.low, Mode::X)));
    holder.commit().unwrap();
    session.await_lock(&mut answers).unwrap();
    let halt = session.resume(&list, &mut answers);
    assert_eq!(halt, refused(Refusal::NoSuchNode));
    assert_eq!(answers.len(), 7);
    let [area, other, file] = [0, 4, 5].map(|place| answers[place].node().unwrap());
    store.table.with(|m| {
        assert_eq!(
            (m.parent(file, 0), m.parent(file, 1)),
            (Some(area), Some(other))
        );
        assert_eq!(m.held(session.txn(), file), Ok(Mode::X));
        let row = answers[1].node().unwrap();
        assert_eq!(m.held(session.txn(), row), Ok(Mode::NL));
    });
    // Again from there, with another command in its place, which names one of the first.
    let mut list = list.to_vec();
    list[7] = Do::Lock(Named::Made(0), Mode::X);
    assert_eq!(session.resume(&list, &mut answers), Ok(()));
    assert_eq!(answers[7], GRANTED);
}

/// What a refused command would have made is not named, and what follows it in the place of it is.
#[test]
fn a_refused_command_makes_nothing() {
    let store = store();
    let mut session = store.writer(false);
    let file = Named::from(store.file);
    let mut list = [
        Do::Mark,
        Do::Insert(file, &[]), // It has no key for the index.
        Do::Delete(Named::Made(1)),
    ];
    let mut answers = Answers::new();
    for _ in 0..2 {
        let before = accepted(&store.table);
        let halt = session.run(&list, &mut answers);
        assert_eq!(halt, refused(Refusal::BadKeys));
        assert_eq!((answers.len(), accepted(&store.table)), (1, before));
    }
    list[1] = Do::Insert(file, &LOW_KEY);
    assert_eq!(session.resume(&list, &mut answers), Ok(()));
    let record = answers[1].node().unwrap();
    assert_eq!(
        store.table.with(|m| m.kind(record)).unwrap_err(),
        Refusal::NoSuchNode
    );
}

// ------------------------------------------------------------------------------------------------------------------
// Where a list stops.

/// Those after a refused command change nothing.
#[test]
fn a_list_stops_at_a_refusal() {
    let store = store();
    let mut session = begin(&store);
    let list = [
        path(store.root, Mode::IX),
        Do::Insert(store.root.into(), &[]),
        path(store.file, Mode::X),
        Do::AddInner(&[]),
    ];
    let nodes = store.table.with(|m| m.len());
    let (halt, answers) = stops(&mut session, &list);
    assert_eq!(Err(halt), refused(Refusal::BadParents));
    assert_eq!(answers, [Done::Locked(Mode::IX)]);
    assert_eq!(store.held(session.txn(), store.file), Mode::NL);
    assert_eq!(store.table.with(|m| m.len()), nodes);
    // It is no wait.
    let mut answers = Answers::new();
    assert_eq!(session.run(&list, &mut answers), Err(halt));
    let none = Err(Stop::Refused(Refusal::NotWaiting));
    assert_eq!(session.await_lock(&mut answers), none);
    assert_eq!(session.resume_to_end(&list, &mut answers), Err(halt));
    answers.accept_row(); // Nor is it a row.
    assert_eq!(answers.len(), 1);
    for (halt, text) in [
        (halt, "BadParents"),
        (waiting(store.low, Mode::X), "Waiting"),
        (Halt::WouldBlock(store.low), "WouldBlock"),
        (Halt::OtherKeys(Mode::X), "OtherKeys"),
    ] {
        assert_eq!(halt.to_string(), text);
    }
}

/// Each that would block says where, and joins no queue.
#[test]
fn a_list_stops_at_a_try_that_would_block() {
    let store = store();
    let (mut holder, mut session) = (store.writer(false), store.writer(false));
    holder.lock(store.low, Mode::S).unwrap();
    let _ = holder.lock_row(store.row, &LOW_KEY, Mode::S).unwrap();
    let mut reader = begin(&store);
    reader.lock_path(store.above, Mode::S).unwrap();
    let (low, held, keep) = (store.low.into(), store.row.into(), Keep::Nothing);
    let (node, wanted) = (store.row_node(), [Named::from(store.root)]);
    let table = &store.table;
    let cases = [
        (Do::TryLock(low, Mode::X), store.low),
        (Do::TryLockPath(low, Mode::X, keep), store.low),
        (Do::TryLockRow(held, &LOW_KEY, Mode::X), node),
        (Do::TryLockRowPath(held, &LOW_KEY, Mode::X, keep), node),
        (
            Do::InsertPath(store.file.into(), &HIGH_KEY, keep),
            store.above,
        ),
        (Do::Escalate(store.file.into()), store.file),
    ];
    session.lock(store.low, Mode::S).unwrap(); // So that an escalation has what to release.
    for (each, node) in cases {
        let before = table.with(|m| (m.len(), m.locks(session.txn()).count()));
        let (halt, answers) = stops(&mut session, &[Do::Mark, each, Do::AddInner(&wanted)]);
        assert_eq!(halt, Halt::WouldBlock(node), "{each:?}");
        assert_eq!(answers.len(), 1);
        let after = table.with(|m| (m.len(), m.locks(session.txn()).count()));
        assert_eq!((before, store.waits_for(session.txn())), (after, None));
    }
}

/// A try of a path keeps nothing, or its way.
#[test]
fn a_try_in_a_list_keeps_what_it_says() {
    let store = store();
    let mut holder = store.writer(false);
    holder.lock(store.low, Mode::S).unwrap();
    let _ = holder.lock_row(store.row, &LOW_KEY, Mode::S).unwrap();
    let mut reader = begin(&store);
    reader.lock_path(store.above, Mode::S).unwrap();
    for (keep, kept) in [(Keep::Nothing, [0; 3]), (Keep::Way, [4, 4, 3])] {
        let tries = [
            Do::TryLockPath(store.low.into(), Mode::X, keep),
            Do::TryLockRowPath(store.row.into(), &LOW_KEY, Mode::X, keep),
            Do::InsertPath(store.file.into(), &HIGH_KEY, keep),
        ];
        for (each, kept) in tries.into_iter().zip(kept) {
            let mut session = begin(&store);
            let (halt, _) = stops(&mut session, &[each]);
            assert!(matches!(halt, Halt::WouldBlock(_)));
            let locks = store.table.with(|m| m.locks(session.txn()).count());
            assert_eq!(locks, kept, "{each:?}");
        }
    }
}

/// Of those whose transaction has ended nothing is made.
#[test]
fn a_list_of_no_transaction() {
    let store = store();
    let mut session = begin(&store);
    store.table.abort(session.txn()).unwrap();
    let mut answers = Answers::new();
    let list = [Do::Mark, Do::AddInner(&[])];
    let gone = refused(Refusal::NoSuchTxn);
    let before = accepted(&store.table);
    assert_eq!(session.run(&list, &mut answers), gone);
    assert_eq!(session.resume(&list, &mut answers), gone);
    assert_eq!(session.run_to_end(&list, &mut answers), gone);
    assert_eq!(session.run(&[], &mut answers), Ok(()));
    assert_eq!(accepted(&store.table), before);
}

/// While the thread holds the table nothing is made, and nothing is lost.
#[test]
fn a_list_of_a_table_that_is_held() {
    let store = store();
    let table = &*store.table;
    let in_use = refused(Refusal::InUse);
    let (mut holder, mut session) = (table.begin().unwrap(), table.begin().unwrap());
    let (kept, mut rests) = (store.add_root(), begin(&store));
    rests.lock(kept, Mode::IX).unwrap();
    let mut resting = rests.rest(16).unwrap();
    holder.lock(store.root, Mode::S).unwrap();
    let list = [Do::Mark, path(store.root, Mode::X)];
    let mut answers = Answers::new();
    let wait = waiting(store.root, Mode::X);
    assert_eq!(session.run(&list, &mut answers), Err(wait));
    let (halt, left) = table.with(|_| {
        assert_eq!(session.resume(&list, &mut answers), in_use);
        let awaited = session.await_lock(&mut answers);
        assert_eq!(awaited, Err(Stop::Refused(Refusal::InUse)));
        let mut other = Answers::new();
        assert_eq!(table.run(&list, &mut other).unwrap_err(), Refusal::InUse);
        assert_eq!(resting.run(&list, &mut other).unwrap_err(), Refusal::InUse);
        let left = holder.run_and_commit(&[Do::Mark], &mut other).unwrap_err();
        (left.halt, left.session)
    });
    assert_eq!(Err(halt), in_use);
    let (halt, left) = table.with(|_| {
        let left = left
            .run_and_rest(16, &[Do::Mark], &mut Answers::new())
            .unwrap_err();
        (left.halt, left.session)
    });
    assert_eq!(Err(halt), in_use);
    assert_eq!(table.with(|m| m.group(kept)), Ok(Mode::IX));
    // The lock waits on, by the same answers; and the other session lives.
    assert_eq!(session.resume(&list, &mut answers), Err(wait));
    left.commit().unwrap();
    assert_eq!(session.resume_to_end(&list, &mut answers), Ok(()));
    assert_eq!(answers[1], GRANTED);
}

// ------------------------------------------------------------------------------------------------------------------
// How a list waits.

/// A list stops at a lock that waits, and continues after the grant, which another thread brings.
#[test]
fn a_list_waits_and_continues() {
    let store = store();
    let (mut holder, mut session) = (begin(&store), begin(&store));
    holder.lock_path(store.low, Mode::S).unwrap();
    let file = Named::from(store.file);
    let list = [
        Do::InsertPath(file, &LOW_KEY, Keep::Nothing),
        path(store.low, Mode::X),
        Do::Delete(Named::Made(0)),
    ];
    let mut answers = Answers::new();
    let name = session.txn();
    let halt = session.run(&list, &mut answers);
    assert_eq!(halt, Err(waiting(store.low, Mode::X)));
    assert_eq!(answers.len(), 1);
    assert_eq!(store.waits_for(name), Some(store.low));
    assert_eq!(
        session.lock(store.root, Mode::IS),
        Err(Stop::Refused(Refusal::TxnWaiting))
    );
    // Each time it says the same, and an other list is refused.
    assert_eq!(session.resume(&list, &mut answers), halt);
    assert_eq!(session.resume(&list, &mut answers), halt);
    let other = session.run(&list[1..], &mut Answers::new());
    assert_eq!(other, refused(Refusal::TxnWaiting));
    let record = answers[0].node().unwrap();
    thread::scope(|scope| {
        let ends = scope.spawn(|| {
            thread::sleep(Duration::from_millis(2));
            holder.commit()
        });
        assert_eq!(session.await_lock(&mut answers), Ok(()));
        assert_eq!(ends.join().unwrap(), Ok(()));
    });
    assert_eq!(*answers, [Done::Made(record), GRANTED]);
    assert_eq!(session.resume(&list, &mut answers), Ok(()));
    assert_eq!(*answers, [Done::Made(record), GRANTED, Done::Accepted]);
    assert_eq!(
        store.table.with(|m| m.kind(record)).unwrap_err(),
        Refusal::NoSuchNode
    );
    assert_eq!(store.held(name, store.low), Mode::X);
}

/// A list that is resumed after the grant, and not awaited, has nothing to await any more.
#[test]
fn a_list_goes_on_without_being_awaited() {
    let store = store();
    let (mut holder, mut session) = (begin(&store), begin(&store));
    holder.lock(store.root, Mode::X).unwrap();
    let list = [path(store.root, Mode::S), Do::Mark];
    let mut answers = Answers::new();
    let halt = session.run(&list, &mut answers);
    assert_eq!(halt, Err(waiting(store.root, Mode::S)));
    holder.commit().unwrap();
    assert_eq!(session.resume(&list, &mut answers), Ok(()));
    let none = Err(Stop::Refused(Refusal::NotWaiting));
    assert_eq!(session.await_lock(&mut answers), none);
    assert_eq!(session.resume_to_end(&list, &mut answers), Ok(()));
    assert_eq!(answers.len(), 2);
}

/// A path waits for one node after the other, above its own; each grant is a step.
#[test]
fn a_path_waits_at_each_node() {
    let store = store();
    let nodes = [store.root, store.file, store.low];
    for is_row in [false, true] {
        let mut session = begin(&store);
        let own = if is_row { store.row.file } else { store.file };
        let nodes = if is_row {
            vec![store.root, own]
        } else {
            nodes.to_vec()
        };
        let mut holders: Vec<_> = nodes.iter().map(|_| begin(&store)).collect();
        for (holder, node) in holders.iter_mut().zip(&nodes).rev() {
            holder.lock(store.root, Mode::IS).unwrap();
            if *node == store.low {
                holder.lock(store.file, Mode::IS).unwrap();
            }
            holder.lock(*node, Mode::S).unwrap();
        }
        let list = match is_row {
            false => [Do::Mark, path(store.low, Mode::X)],
            true => [
                Do::Mark,
                Do::LockRowPath(store.row.into(), &LOW_KEY, Mode::X),
            ],
        };
        let mut answers = Answers::new();
        let mut halt = session.run(&list, &mut answers);
        for (holder, node) in holders.into_iter().zip(&nodes) {
            let mode = if *node == store.low {
                Mode::X
            } else {
                Mode::IX
            };
            assert_eq!(halt, Err(waiting(*node, mode)));
            assert_eq!(answers.len(), 1);
            holder.commit().unwrap();
            session.await_lock(&mut answers).unwrap();
            halt = session.resume(&list, &mut answers);
        }
        assert_eq!((halt, answers.len()), (Ok(()), 2));
        session.commit().unwrap();
    }
}

/// A list that is run to its end sleeps for each lock that waits, and makes each command once.
#[test]
fn a_list_sleeps_up_to_its_end() {
    let store = store();
    let nodes = [(); 3].map(|()| store.add_root());
    for is_task in [false, true] {
        let mut session = begin(&store);
        let name = session.txn();
        let holders = nodes.map(|node| {
            let mut holder = begin(&store);
            holder.lock(node, Mode::X).unwrap();
            holder
        });
        let list: Vec<_> = nodes
            .iter()
            .flat_map(|node| [Do::AddInner(&[]), path(*node, Mode::S)])
            .collect();
        let before = store.table.with(|m| m.len());
        thread::scope(|scope| {
            let runs = scope.spawn(|| {
                let mut answers = Answers::new();
                let end = match is_task {
                    false => session.run_to_end(&list, &mut answers),
                    true => block_on(session.run_to_end_async(&list, &mut answers)),
                };
                (end, answers)
            });
            for (holder, node) in holders.into_iter().zip(nodes) {
                await_that(|| store.waits_for(name) == Some(node));
                holder.commit().unwrap();
            }
            let (end, answers) = runs.join().unwrap();
            assert_eq!((end, answers.len()), (Ok(()), 6));
        });
        assert_eq!(store.table.with(|m| m.len()), before + 3);
        // A next list begins with its first command, though the answers are those of this one.
        let mut answers = Answers::new();
        for list in [&list[..], &list[..2]] {
            session.run_to_end(list, &mut answers).unwrap();
            assert_eq!(answers.len(), list.len());
        }
    }
}

/// A lock for an instant that has waited is not requested again: another has the node by then.
#[test]
fn an_instant_is_had_once() {
    let store = store();
    let (mut holder, mut session, mut next) = (begin(&store), begin(&store), begin(&store));
    holder.lock(store.root, Mode::X).unwrap();
    let list = [Do::LockInstant(store.root.into(), Mode::X), Do::Mark];
    let mut answers = Answers::new();
    let halt = session.run(&list, &mut answers);
    assert_eq!(halt, Err(waiting(store.root, Mode::X)));
    let mut later = Answers::new();
    let halt = next.run(&[path(store.root, Mode::X)], &mut later);
    assert_eq!(halt, Err(waiting(store.root, Mode::X)));
    holder.commit().unwrap();
    assert_eq!(store.held(next.txn(), store.root), Mode::X);
    assert_eq!(session.await_lock(&mut answers), Ok(()));
    assert_eq!(*answers, [GRANTED]);
    assert_eq!(session.resume(&list, &mut answers), Ok(()));
    assert_eq!(
        next.resume_to_end(&[path(store.root, Mode::X)], &mut later),
        Ok(())
    );
    assert_eq!(*later, [GRANTED]);
}

/// The same of a path: the grant of a node above is a step, and that of its own node its answer.
#[test]
fn a_path_for_an_instant_is_had_once() {
    let store = store();
    let mut session = begin(&store);
    let (mut above, mut holder) = (begin(&store), begin(&store));
    above.lock(store.root, Mode::S).unwrap();
    holder.lock_path(store.file, Mode::S).unwrap();
    let list = [Do::LockPathInstant(store.file.into(), Mode::X), Do::Mark];
    let mut answers = Answers::new();
    let halt = session.run(&list, &mut answers);
    assert_eq!(halt, Err(waiting(store.root, Mode::IX)));
    above.commit().unwrap();
    session.await_lock(&mut answers).unwrap();
    assert!(answers.is_empty());
    let halt = session.resume(&list, &mut answers);
    assert_eq!(halt, Err(waiting(store.file, Mode::X)));
    let mut next = begin(&store);
    let mut later = Answers::new();
    let reads = [path(store.file, Mode::S)];
    let halt = next.run(&reads, &mut later);
    assert_eq!(halt, Err(waiting(store.file, Mode::S))); // It is queued after the other.
    holder.commit().unwrap();
    next.resume_to_end(&reads, &mut later).unwrap();
    session.await_lock(&mut answers).unwrap();
    assert_eq!(*answers, [GRANTED]);
    assert_eq!(session.resume(&list, &mut answers), Ok(()));
    assert_eq!(store.held(session.txn(), store.file), Mode::NL);
    assert_eq!(store.held(session.txn(), store.root), Mode::IX);
}

/// A row waits, and after the grant says whether its keys are the node's own.
#[test]
fn a_row_waits_and_looks_at_its_keys() {
    let store = store();
    for key in [LOW_KEY, HIGH_KEY] {
        let (mut holder, mut session) = (store.writer(true), store.writer(true));
        let _ = holder.lock_row(store.row, &LOW_KEY, Mode::X).unwrap();
        let list = [Do::LockRow(store.row.into(), &LOW_KEY, Mode::X), Do::Mark];
        let mut answers = Answers::new();
        let halt = session.run(&list, &mut answers);
        let node = store.row_node();
        assert_eq!(halt, Err(waiting(node, Mode::X)));
        holder
            .rekey_row(store.row, store.row_index, key[0])
            .unwrap();
        holder.commit().unwrap();
        session.await_lock(&mut answers).unwrap();
        let end = session.resume(&list, &mut answers);
        if key == LOW_KEY {
            assert_eq!(end, Ok(()));
            assert_eq!(answers[0], Done::RowLocked(RowLocked::Own(Mode::X), node));
        } else {
            assert_eq!(end, Err(Halt::OtherKeys(Mode::X)));
        }
    }
}

/// No lock waits for a transaction that rests: the list ends that one, and continues.
#[test]
fn a_wait_ends_within_the_list() {
    let store = store();
    let mut rests = begin(&store);
    rests.lock(store.root, Mode::IX).unwrap();
    let resting = rests.rest(16).unwrap();
    let mut session = begin(&store);
    assert_eq!(
        runs(&mut session, &[path(store.root, Mode::S), Do::Mark]).len(),
        2
    );
    drop(resting);
}

/// A deadline of the session ends its wait, and the list requests the lock again.
#[test]
fn a_wait_in_a_list_times_out() {
    let store = store();
    let (mut holder, mut session) = (begin(&store), begin(&store));
    holder.lock(store.root, Mode::X).unwrap();
    let list = [Do::Mark, path(store.root, Mode::S)];
    for is_task in [false, true] {
        let mut answers = Answers::new();
        session.set_deadline(Some(Instant::now() + Duration::from_millis(1)));
        let halt = session.run(&list, &mut answers);
        assert_eq!(halt, Err(waiting(store.root, Mode::S)));
        let end = if is_task {
            thread::sleep(Duration::from_millis(2));
            ends_at_once(session.await_lock_async(&mut answers))
        } else {
            session.await_lock(&mut answers)
        };
        assert_eq!((end, answers.len()), (Err(Stop::TimedOut), 1));
        assert_eq!(store.waits_for(session.txn()), None);
        let none = Err(Stop::Refused(Refusal::NotWaiting));
        assert_eq!(session.await_lock(&mut answers), none);
        assert_eq!(session.resume(&list, &mut answers), halt);
        let end = session.resume_to_end(&list, &mut answers);
        assert_eq!(end, Err(Halt::Stopped(Stop::TimedOut)));
    }
    session.set_deadline(None);
    holder.commit().unwrap();
    assert_eq!(session.run(&list, &mut Answers::new()), Ok(()));
}

/// Another thread cancels the wait, or ends the transaction.
#[test]
fn a_wait_in_a_list_is_ended_by_name() {
    let store = store();
    let (mut holder, mut session) = (begin(&store), begin(&store));
    holder.lock(store.root, Mode::X).unwrap();
    let (name, list) = (session.txn(), [path(store.root, Mode::S), Do::Mark]);
    let mut answers = Answers::new();
    let halt = session.run(&list, &mut answers);
    store.table.cancel(name).unwrap();
    assert_eq!(session.await_lock(&mut answers), Err(Stop::Cancelled));
    assert_eq!(session.resume(&list, &mut answers), halt);
    store.table.cancel(name).unwrap();
    assert_eq!(session.resume(&list, &mut answers), halt); // It requests the lock again.
    thread::scope(|scope| {
        let sleeper = scope.spawn(|| {
            let end = session.resume_to_end(&list, &mut answers);
            (end, answers.len())
        });
        await_that(|| store.waits_for(name).is_some());
        thread::sleep(Duration::from_millis(2));
        store.table.abort(name).unwrap();
        assert_eq!(sleeper.join().unwrap(), (refused(Refusal::NoSuchTxn), 0));
    });
    holder.commit().unwrap();
}

/// A node that is waited for moves, or is deleted.
#[test]
fn what_a_list_waits_for_moves_or_is_gone() {
    let store = store();
    for is_gone in [false, true] {
        let (mut holder, mut session) = (store.writer(true), store.writer(false));
        holder.lock(store.low, Mode::X).unwrap();
        let list = [Do::Mark, Do::Lock(store.low.into(), Mode::X)];
        let mut answers = Answers::new();
        let halt = session.run(&list, &mut answers);
        assert_eq!(halt, Err(waiting(store.low, Mode::X)));
        if is_gone {
            holder.delete(store.low).unwrap();
        } else {
            holder.rekey(store.low, store.index, HIGH_KEY[0]).unwrap();
        }
        holder.commit().unwrap();
        let wanted = if is_gone { Stop::Gone } else { Stop::Moved };
        assert_eq!(session.await_lock(&mut answers), Err(wanted));
        let next = session.resume(&list, &mut answers);
        match is_gone {
            true => assert_eq!(next, refused(Refusal::NoSuchNode)),
            false => assert_eq!(next, refused(Refusal::NeedParents(store.above))),
        }
        session.abort();
        let mut mover = store.writer(true);
        if !is_gone {
            mover.lock(store.low, Mode::X).unwrap();
            mover.rekey(store.low, store.index, LOW_KEY[0]).unwrap();
        }
        mover.commit().unwrap();
    }
}

// ------------------------------------------------------------------------------------------------------------------
// Victims.

/// A list whose lock closes a cycle is its victim: nothing after it is made, and the transaction can only abort.
#[test]
fn a_list_is_a_victim() {
    let store = store();
    let (one, other) = (store.add_root(), store.add_root());
    let (mut older, mut younger) = (begin(&store), begin(&store));
    older.lock(one, Mode::X).unwrap();
    younger.lock(other, Mode::X).unwrap();
    let mut waits = Answers::new();
    let reads = [path(other, Mode::X)];
    assert_eq!(older.run(&reads, &mut waits), Err(waiting(other, Mode::X)));
    let list = [
        path(store.low, Mode::X),
        path(one, Mode::X),
        Do::AddInner(&[]),
    ];
    let mut answers = Answers::new();
    let nodes = store.table.with(|m| m.len());
    let halt = younger.run(&list, &mut answers);
    assert_eq!(halt, Err(Halt::Stopped(Stop::Victim)));
    assert_eq!((answers.len(), store.table.with(|m| m.len())), (1, nodes));
    let none = Err(Stop::Refused(Refusal::NotWaiting));
    assert_eq!(younger.await_lock(&mut answers), none);
    let condemned = refused(Refusal::TxnCondemned);
    assert_eq!(younger.resume(&list, &mut answers), condemned);
    let left = younger
        .run_and_commit(&[Do::Mark], &mut Answers::new())
        .unwrap_err();
    assert_eq!(Err(left.halt), condemned);
    let since = left.session.txn().age();
    drop(left); // It aborts.
    older.resume_to_end(&reads, &mut waits).unwrap();
    older.commit().unwrap();
    // The answers are those of the victim: so the list begins anew.
    let mut again = store.table.begin_again(since).unwrap();
    assert_eq!(again.resume(&list, &mut answers), Ok(()));
    assert_eq!(answers.len(), 3);
    assert_eq!(store.held(again.txn(), store.low), Mode::X);
}

/// A list that waits becomes the victim of a cycle that another closes.
#[test]
fn a_list_that_waits_is_a_victim() {
    let store = store();
    let (one, other) = (store.add_root(), store.add_root());
    for is_awaited in [false, true] {
        let (mut older, mut younger) = (begin(&store), begin(&store));
        older.lock(one, Mode::X).unwrap();
        younger.lock(other, Mode::X).unwrap();
        let list = [path(one, Mode::S), Do::Mark];
        let mut answers = Answers::new();
        let halt = younger.run(&list, &mut answers);
        assert_eq!(halt, Err(waiting(one, Mode::S)));
        let name = younger.txn();
        let victim = Err(Halt::Stopped(Stop::Victim));
        thread::scope(|scope| {
            let sleeper = is_awaited.then(|| {
                let waits = scope.spawn(|| younger.resume_to_end(&list, &mut answers));
                thread::sleep(Duration::from_millis(2));
                waits
            });
            let closes = scope.spawn(|| older.lock(other, Mode::X));
            if let Some(sleeper) = sleeper {
                assert_eq!(sleeper.join().unwrap(), victim);
            } else {
                await_that(|| store.waits_for(name).is_none());
            }
            store.table.abort(name).unwrap();
            assert_eq!(closes.join().unwrap(), Ok(Mode::X));
        });
    }
    // One that is condemned and then awaited.
    let (mut older, mut younger) = (begin(&store), begin(&store));
    older.lock(one, Mode::X).unwrap();
    younger.lock(other, Mode::X).unwrap();
    let (mut waits, mut answers) = (Answers::new(), Answers::new());
    let list = [path(one, Mode::S)];
    assert_eq!(younger.run(&list, &mut answers), Err(waiting(one, Mode::S)));
    let closes = [path(other, Mode::X)];
    assert_eq!(older.run(&closes, &mut waits), Err(waiting(other, Mode::X)));
    assert_eq!(younger.await_lock(&mut answers), Err(Stop::Victim));
    younger.abort();
    assert_eq!(older.resume_to_end(&closes, &mut waits), Ok(()));
}

// ------------------------------------------------------------------------------------------------------------------
// Rows with other keys.

/// A row whose node has other keys is held, and stops its list until the engine has decided.
#[test]
fn a_list_stops_at_other_keys() {
    let store = store();
    let mut session = store.writer(true);
    let _ = session.lock_row(store.row, &HIGH_KEY, Mode::S).unwrap();
    let node = store.row_node();
    let row = NamedRow::from(store.row);
    for is_try in [false, true] {
        let command = |keys| match is_try {
            false => Do::LockRow(row, keys, Mode::X),
            true => Do::TryLockRow(row, keys, Mode::X),
        };
        let mut list = [Do::Mark, command(&LOW_KEY), Do::Unlock(Named::Made(1))];
        let mut answers = Answers::new();
        let other = Err(Halt::OtherKeys(Mode::X));
        assert_eq!(session.run(&list, &mut answers), other);
        assert_eq!(session.resume(&list, &mut answers), other);
        assert_eq!(session.resume_to_end(&list, &mut answers), other);
        assert_eq!(
            (answers.len(), store.held(session.txn(), node)),
            (1, Mode::X)
        );
        // It takes the row as it is, and has its node.
        answers.accept_row();
        answers.accept_row();
        let accepted = Done::RowLocked(RowLocked::OtherKeys(Mode::X), node);
        assert_eq!(answers[1..], [accepted]);
        assert_eq!(session.resume(&list, &mut answers), Ok(()));
        assert_eq!(store.held(session.txn(), node), Mode::NL);
        // Or it names the keys that the row has.
        session.lock(node, Mode::X).unwrap();
        assert_eq!(session.run(&list, &mut answers), other);
        list[1] = command(&HIGH_KEY);
        assert_eq!(session.resume(&list, &mut answers), Ok(()));
        assert_eq!(answers[1], Done::RowLocked(RowLocked::Own(Mode::X), node));
        session.lock(node, Mode::X).unwrap();
    }
}
