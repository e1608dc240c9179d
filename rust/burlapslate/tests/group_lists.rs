//! Stories of lists of commands of a group: what each command does, lists that wait, and those that are not made.

#![cfg(target_pointer_width = "64")]

mod tasks;
mod world;

use burlapslate::{
    Answers, Do, Done, Group, GroupSession, Halt, Keep, Mode, Named, NamedRow, Node, Refusal, Row,
    RowLocked, Stop, Taken, Try,
};
use std::future::Future;
use std::mem::forget;
use std::pin::pin;
use std::sync::{Arc, Mutex};
use std::task::{Context, Poll, Wake, Waker};
use std::thread;
use std::time::{Duration, Instant};
use tasks::quiet;
use world::World;

const KEY: [u64; 1] = [50];

fn named(row: Row) -> NamedRow {
    row.into()
}

/// A list names what its earlier commands make, and locks what must be held above.
#[test]
fn lists_are_made_in_order() {
    let w = World::new();
    let (under, above) = ([w.base.into()], [Named::Made(0)]);
    let list = [
        Do::AddInner(&under),
        Do::AddRowFile(&above),
        Do::AddFile(&above),
        Do::AddIndex(&above, Named::Made(2), &[10]),
        Do::LockRow(
            NamedRow {
                file: Named::Made(1),
                number: 7,
            },
            &[],
            Mode::X,
        ),
        Do::Lock(w.records[0][0].into(), Mode::X),
        Do::TryLock(w.records[1][0].into(), Mode::S),
        Do::TryLockRow(named(w.row(2)), &KEY, Mode::S),
        Do::InsertPath(Named::Made(2), &[5], Keep::Way),
        Do::Delete(Named::Made(8)),
        Do::Unlock(w.records[1][0].into()),
        Do::Escalate(w.files[0].into()),
        Do::LockInstant(w.records[2][0].into(), Mode::X),
        Do::MoveNode(w.files[0].into(), &above),
    ];
    let mut answers = Answers::new();
    let mut session = w.begin();
    assert_eq!(session.run(&list, &mut answers), Ok(()));
    assert_eq!(answers.len(), list.len());
    let [area, rows, file] = [0, 1, 2].map(|place| answers[place].node().unwrap());
    assert_eq!(Group::table_of(area), 0);
    assert!(Group::table_of(rows) > 0 && Group::table_of(file) > 0);
    let Done::RowLocked(RowLocked::Own(Mode::X), row) = answers[4] else {
        panic!("{:?}", answers[4]);
    };
    assert_eq!(session.held(row), Ok(Mode::X));
    assert_eq!(session.held(area), Ok(Mode::IX));
    assert_eq!(answers[5], Done::Locked(Mode::X));
    assert!(matches!(answers[11], Done::Escalated(escalated) if escalated.mode == Mode::X));
    assert_eq!(answers[12], Done::Locked(Mode::X));
    assert_eq!(session.held(w.records[2][0]), Ok(Mode::NL)); // It was for an instant.
    session.commit().unwrap();
}

#[test]
fn wrong_lists_stop() {
    let w = World::new();
    let mut session = w.begin();
    let under = [w.base.into()];
    let file = w.files[0].into();
    for (wrong, refusal) in [
        (Do::MoveNode(file, &under), Refusal::NeedExclusive),
        (Do::Unlock(w.base.into()), Refusal::BadParents),
        (Do::Lock(Named::Made(7), Mode::S), Refusal::NoSuchNode),
        (Do::LockRow(named(w.row(1)), &[], Mode::S), Refusal::BadKeys),
    ] {
        let list = [Do::LockPath(file, Mode::IX), wrong, Do::Unlock(file)];
        let mut answers = Answers::new();
        let end = session.run(&list, &mut answers);
        assert_eq!(end, Err(refusal.into()));
        assert_eq!(*answers, [Done::Locked(Mode::IX)]);
        assert_eq!(session.held(w.files[0]), Ok(Mode::IX));
    }
    let mut answers = Answers::new();
    let nothing = session.await_lock(&mut answers);
    assert_eq!(nothing, Err(Stop::Refused(Refusal::NotWaiting)));
    assert_eq!(session.run(&[], &mut answers), Ok(()));
    let asked = w.group.with_table(1, |_| {
        let list = [Do::LockPath(file, Mode::S)];
        assert_eq!(session.run(&list, &mut answers), Err(Refusal::InUse.into()));
        assert_eq!(session.try_first(&[]), Ok(None));
        let tries = [Try::Node {
            node: w.files[0],
            mode: Mode::S,
        }];
        assert_eq!(session.try_first(&tries), Err(Refusal::InUse));
    });
    assert_eq!(asked, Ok(()));
    session.commit().unwrap();
}

/// A list rolls back to a savepoint in all parts.
#[test]
fn lists_have_savepoints() {
    let w = World::new();
    let mut session = w.begin();
    let mut answers = Answers::new();
    let [first, second] = [w.files[0], w.files[1]];
    let list = [Do::LockPath(first.into(), Mode::X), Do::Mark];
    assert_eq!(session.run(&list, &mut answers), Ok(()));
    let Done::Marked(mark) = answers[1] else {
        unreachable!()
    };
    let list = [Do::LockPath(second.into(), Mode::X), Do::ReleaseSince(mark)];
    assert_eq!(session.run(&list, &mut answers), Ok(()));
    assert_eq!(session.held(first), Ok(Mode::X));
    assert_eq!(session.held(second), Ok(Mode::NL));
    session.commit().unwrap();
}

/// A lock that waits stops the list; it goes on by itself, also from the main table to a part, and the list continues
/// with the command after it.
#[test]
fn lists_wait() {
    let w = World::new();
    let (mut strong, mut holder, mut session) = (w.begin(), w.begin(), w.begin());
    let (name, record) = (session.txn(), w.records[0][0]);
    holder.lock_path(record, Mode::S).unwrap();
    strong.lock_path(w.area, Mode::S).unwrap();
    let list = [
        Do::LockPath(w.base.into(), Mode::IS),
        Do::LockPath(record.into(), Mode::X),
        Do::LockPath(w.records[1][0].into(), Mode::X),
    ];
    let mut answers = Answers::new();
    let halt = session.run(&list, &mut answers).unwrap_err();
    assert!(matches!(halt, Halt::Waiting(wait) if wait.node == w.area));
    assert!(w.waits(0, name));
    assert_eq!(session.resume(&list, &mut answers), Err(halt));
    assert_eq!(session.held(record), Err(Refusal::TxnWaiting));
    let waits = Err(Stop::Refused(Refusal::TxnWaiting));
    assert_eq!(session.lock_path(w.base, Mode::IS), waits);
    let in_use = Err(Stop::Refused(Refusal::InUse));
    let held = w.group.with_table(1, |_| session.await_lock(&mut answers));
    assert_eq!(held, Ok(in_use)); // It waits on.
    strong.commit().unwrap();
    w.await_wait(1, name);
    assert_eq!(session.resume(&list, &mut answers), Err(halt));
    let awaited = thread::scope(|scope| {
        let awaits = scope.spawn(|| session.await_lock(&mut answers));
        thread::sleep(Duration::from_millis(1));
        holder.commit().unwrap();
        awaits.join().unwrap()
    });
    assert_eq!(awaited, Ok(()));
    assert_eq!(answers[1..], [Done::Locked(Mode::X)]);
    assert_eq!(session.resume(&list, &mut answers), Ok(()));
    assert_eq!(answers[2], Done::Locked(Mode::X));
    session.commit().unwrap();
}

/// The call that sleeps makes the whole list; of a row it says whether the keys are the row's own.
#[test]
fn lists_are_made_to_the_end() {
    let w = World::new();
    let (mut holder, mut session) = (w.begin(), w.begin());
    let (row, name) = (w.row(2), session.txn());
    let own = holder.lock_row_path(row, &[150], Mode::X);
    assert_eq!(own, Ok(RowLocked::Own(Mode::X)));
    let list = [
        Do::LockPath(w.records[0][0].into(), Mode::X),
        Do::LockRowPath(named(row), &KEY, Mode::X),
        Do::UnlockRow(named(row)),
    ];
    let mut answers = Answers::new();
    let end = thread::scope(|scope| {
        let runs = scope.spawn(|| session.run_to_end(&list, &mut answers));
        w.await_wait(2, name);
        holder.unlock_row(row).unwrap();
        runs.join().unwrap()
    });
    assert_eq!(end, Err(Halt::OtherKeys(Mode::X)));
    assert_eq!(*answers, [Done::Locked(Mode::X)]);
    answers.accept_row();
    assert_eq!(session.resume_to_end(&list, &mut answers), Ok(()));
    assert!(matches!(
        answers[1..],
        [
            Done::RowLocked(RowLocked::OtherKeys(Mode::X), _),
            Done::Accepted
        ]
    ));
    session.commit().unwrap();
    holder.commit().unwrap();
}

/// After a wait that was over in another way the lock is requested again.
#[test]
fn waits_of_lists_end() {
    let w = World::new();
    let (mut holder, mut session) = (w.begin(), w.begin());
    let record = w.records[0][0];
    holder.lock_path(record, Mode::X).unwrap();
    let list = [Do::LockPath(record.into(), Mode::S)];
    let mut answers = Answers::new();
    let late = Err(Halt::Stopped(Stop::TimedOut));
    let soon = Instant::now().checked_add(Duration::from_millis(2));
    session.set_deadline(soon).unwrap();
    assert_eq!(session.run_to_end(&list, &mut answers), late);
    assert_eq!(session.resume_to_end(&list, &mut answers), late);
    session.set_deadline(None).unwrap();
    let halt = session.run(&list, &mut answers);
    assert!(matches!(halt, Err(Halt::Waiting(_))));
    w.group.cancel(session.txn()).unwrap();
    let cancelled = session.await_lock(&mut answers);
    assert_eq!(cancelled, Err(Stop::Cancelled));
    let halt = session.resume(&list, &mut answers);
    assert!(matches!(halt, Err(Halt::Waiting(_))));
    holder.commit().unwrap(); // It is told to the future that was leaked.
    assert_eq!(session.resume(&list, &mut answers), Ok(()));
    assert_eq!(*answers, [Done::Locked(Mode::S)]);
    session.commit().unwrap();
}

/// An index that is made meanwhile ends a wait for a row; with a key for it the list continues.
#[test]
fn an_index_ends_a_list() {
    let w = World::new();
    let (mut holder, mut session) = (w.begin(), w.begin());
    holder.lock_path(w.row_files[0], Mode::X).unwrap();
    let mut answers = Answers::new();
    let list = [Do::LockRowPath(named(w.row(1)), &KEY, Mode::X)];
    let halt = session.run(&list, &mut answers);
    assert!(matches!(halt, Err(Halt::Waiting(_))));
    holder
        .index_by(&[w.area], w.row_files[0], &[10])
        .map(drop)
        .unwrap();
    holder.commit().unwrap();
    let no_key = Err(Refusal::BadKeys.into());
    assert_eq!(session.resume_to_end(&list, &mut answers), no_key);
    let list = [Do::LockRowPath(named(w.row(1)), &[50, 5], Mode::X)];
    assert_eq!(session.resume_to_end(&list, &mut answers), Ok(()));
    session.commit().unwrap();
}

/// Of two lists that wait for each other in two parts the younger's transaction falls, as a thread awaits it.
#[test]
fn a_deadlock_of_lists_ends() {
    let w = World::new();
    let [mut older, mut younger] = w.begin_two();
    let [one, two] = [w.records[0][0], w.records[1][0]];
    let writes = |nodes: [Node; 2]| nodes.map(|node| Do::Lock(node.into(), Mode::X));
    let (mut answers, mut others) = (Answers::new(), Answers::new());
    older.run(&writes([one, one]), &mut answers).unwrap();
    younger.run(&writes([two, two]), &mut others).unwrap();
    let waits = older.run(&writes([one, two]), &mut answers);
    assert!(matches!(waits, Err(Halt::Waiting(_))));
    let end = younger.run_to_end(&writes([two, one]), &mut others);
    assert_eq!(end, Err(Halt::Stopped(Stop::Victim)));
    let end = younger.resume(&writes([two, one]), &mut others);
    assert_eq!(end, Err(Refusal::TxnCondemned.into()));
    younger.abort();
    let end = older.resume_to_end(&writes([one, two]), &mut answers);
    assert_eq!(end, Ok(()));
    older.commit().unwrap();
}

#[test]
fn the_first_try_that_is_done_is_taken() {
    let w = World::new();
    let (mut first, mut second) = (w.begin(), w.begin());
    let spread = w.group.add_spread_file(&[w.area]).unwrap();
    let row = |number| Row {
        file: spread,
        number,
    };
    let jobs = [1, 2, 3].map(|number| Try::Row {
        row: row(number),
        keys: &[],
        mode: Mode::X,
    });
    let locked = RowLocked::Own(Mode::X);
    for (place, session) in [&mut first, &mut second].into_iter().enumerate() {
        let taken = session.try_first(&jobs);
        assert_eq!(taken, Ok(Some(Taken { place, locked })));
        assert_eq!(session.held(w.base), Ok(Mode::IX)); // It is above.
    }
    let mut third = w.begin();
    assert_eq!(third.try_first(&jobs[..2]), Ok(None));
    assert_eq!(third.held(w.base), Ok(Mode::NL));
    let path = Try::Path {
        node: w.records[0][0],
        mode: Mode::S,
        keep: Keep::Nothing,
    };
    let taken = third.try_first(&[jobs[1], path]);
    let wanted = Taken {
        place: 1,
        locked: RowLocked::Own(Mode::S),
    };
    assert_eq!(taken, Ok(Some(wanted)));
    for session in [first, second, third] {
        session.commit().unwrap();
    }
}

/// A waker that does this when it is woken.
struct Does(Mutex<Option<Box<dyn FnOnce() + Send>>>);

impl Wake for Does {
    fn wake(self: Arc<Does>) {
        let act = self.0.lock().unwrap().take();
        act.into_iter().for_each(|act| act());
    }
}

/// A session whose list waits for a node that another holds.
fn waits(group: &Arc<Group>, node: Node) -> GroupSession<'static> {
    let mut session = group.begin_shared().unwrap();
    let list = [Do::Lock(node.into(), Mode::S)];
    let halt = session.run(&list, &mut Answers::new());
    assert!(matches!(halt, Err(Halt::Waiting(_))));
    session
}

#[test]
fn a_session_whose_list_waits_is_dropped() {
    let w = World::new();
    let (mut holder, record) = (w.begin(), w.records[0][0]);
    holder.lock_path(record, Mode::X).unwrap();
    drop(waits(&w.group, record));
    assert_eq!(w.living(1), 1);
    assert_eq!(waits(&w.group, record).commit(), Err(Refusal::TxnWaiting)); // It is dropped.
    assert_eq!(w.living(1), 1);
    holder.commit().unwrap();
}

/// In a waker the end of that wait is told only after it: then the transaction is aborted.
#[test]
fn a_session_whose_list_waits_is_dropped_in_a_waker() {
    let w = World::new();
    let [one, two] = [w.files[0], w.files[1]];
    let [mut first, mut second, mut waiter] = [(); 3].map(|()| w.begin());
    first.lock_path(one, Mode::X).unwrap();
    second.lock_path(two, Mode::X).unwrap();
    let before = w.living(2);
    let left = waits(&w.group, two);
    let group = Arc::clone(&w.group);
    let act = Does(Mutex::new(Some(Box::new(move || {
        drop(left);
        drop(waits(&group, two)); // Its list is made in the waker, too.
    }))));
    let waker = Waker::from(Arc::new(act));
    {
        let mut lock = pin!(waiter.lock_path_async(one, Mode::S));
        let mut context = Context::from_waker(&waker);
        assert!(lock.as_mut().poll(&mut context).is_pending());
        first.commit().unwrap();
        assert_eq!(w.living(2), before);
        assert_eq!(lock.as_mut().poll(&mut context), Poll::Ready(Ok(Mode::S)));
    }
    second.commit().unwrap();
    waiter.commit().unwrap();
}

/// The task of a list is woken at each end, and continues.
#[test]
fn a_task_makes_a_list() {
    let w = World::new();
    let (mut holder, mut session) = (w.begin(), w.begin());
    let [first, second] = [w.records[0][0], w.records[1][0]];
    let mut answers = Answers::new();
    let list = [
        Do::LockPath(first.into(), Mode::S),
        Do::LockPathInstant(second.into(), Mode::X),
        Do::LockPath(w.files[2].into(), Mode::IX),
    ];
    holder.lock_path(first, Mode::X).unwrap();
    holder.lock_path(second, Mode::S).unwrap();
    let waker = quiet();
    let mut context = Context::from_waker(&waker);
    {
        let mut run = pin!(session.run_to_end_async(&list, &mut answers));
        assert!(run.as_mut().poll(&mut context).is_pending());
        holder.unlock(first).unwrap();
        assert!(run.as_mut().poll(&mut context).is_pending());
    }
    assert_eq!(*answers, [Done::Locked(Mode::S)]); // The future was dropped, and its wait was cancelled.
    let halt = session.resume(&list, &mut answers);
    assert!(matches!(halt, Err(Halt::Waiting(wait)) if wait.node == second));
    {
        let mut rest = pin!(session.resume_to_end_async(&list, &mut answers));
        assert!(rest.as_mut().poll(&mut context).is_pending());
        holder.commit().unwrap();
        assert_eq!(rest.as_mut().poll(&mut context), Poll::Ready(Ok(())));
    }
    assert_eq!(answers.len(), 3);
    assert_eq!(session.held(second), Ok(Mode::NL));
    session.commit().unwrap();
}

/// A task that awaits the end of a list's lock leaks its future: the lock waits on, and nobody else can await it.
#[test]
fn a_future_of_a_list_is_leaked() {
    let w = World::new();
    let (mut holder, record) = (w.begin(), w.records[0][0]);
    holder.lock_path(record, Mode::X).unwrap();
    let list = [Do::LockPath(record.into(), Mode::S)];
    let mut answers = Answers::new();
    let mut session = w.begin();
    assert!(session.run(&list, &mut answers).is_err());
    let waker = quiet();
    let mut context = Context::from_waker(&waker);
    let mut leaked = Box::pin(session.await_lock_async(&mut answers));
    assert!(leaked.as_mut().poll(&mut context).is_pending());
    forget(leaked);
    let mut again = Box::pin(session.await_lock_async(&mut answers));
    let end = again.as_mut().poll(&mut context);
    let waiting = Err(Stop::Refused(Refusal::TxnWaiting));
    assert_eq!(end, Poll::Ready(waiting));
    drop(again);
    holder.commit().unwrap(); // It is told to the future that was leaked.
    assert_eq!(session.resume(&list, &mut answers), Ok(()));
    assert_eq!(*answers, [Done::Locked(Mode::S)]);
    session.commit().unwrap();
}
