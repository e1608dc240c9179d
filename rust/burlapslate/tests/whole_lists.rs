//! Stories of lists that are whole transactions, or the end of one, and of the tasks and threads that run them.

mod halts;

use burlapslate::{
    Answers, Detect, Do, Done, Halt, Keep, Mode, Named, Node, Refusal, Resting, Stop, Table,
    Unfinished,
};
use halts::waiters::tasks::{block_on, quiet};
use halts::waiters::{await_that, poll_by, Does, Store, HIGH_KEY, LOW_KEY};
use halts::*;
use std::panic::{catch_unwind, AssertUnwindSafe};
use std::pin::pin;
use std::sync::atomic::{AtomicUsize, Ordering};
use std::sync::{Arc, Mutex};
use std::thread;

// ------------------------------------------------------------------------------------------------------------------
// Whole transactions.

#[test]
fn a_whole_transaction_is_a_list() {
    let store = store();
    let file = Named::from(store.file);
    let list = [
        Do::InsertPath(file, &HIGH_KEY, Keep::Nothing),
        path(store.low, Mode::X),
        Do::Rekey(Named::Made(0), store.index.into(), HIGH_KEY[0] + 1),
    ];
    let mut answers = Answers::new();
    for _ in 0..3 {
        let ran = store.table.run(&list, &mut answers).unwrap();
        assert!(ran.is_ok());
        let record = answers[0].node().unwrap();
        store.table.with(|m| {
            assert_eq!(m.key(record, 0), Some(HIGH_KEY[0] + 1));
            assert_eq!(m.group(store.root), Ok(Mode::NL));
            assert_eq!(m.group(record), Ok(Mode::NL));
        });
        assert_eq!(*answers, [Done::Made(record), GRANTED, Done::Accepted]);
        assert_eq!(living(&store.table), 0);
    }
}

/// It stops: the transaction is that of the session, with what it has locked, and continues there.
#[test]
fn a_whole_transaction_waits() {
    let store = store();
    let mut holder = begin(&store);
    holder.lock_path(store.low, Mode::S).unwrap();
    let list = [
        path(store.row.file, Mode::X),
        path(store.low, Mode::X),
        Do::AddInner(&[]),
    ];
    let mut answers = Answers::new();
    let ran = store.table.run(&list, &mut answers).unwrap();
    let Unfinished { mut session, halt } = ran.unwrap_err();
    assert_eq!(halt, waiting(store.low, Mode::X));
    assert_eq!(store.held(session.txn(), store.row.file), Mode::X);
    assert_eq!(session.resume(&list, &mut answers), Err(halt));
    thread::scope(|scope| {
        scope.spawn(|| holder.commit());
        assert_eq!(session.resume_to_end(&list, &mut answers), Ok(()));
    });
    assert_eq!(answers.len(), 3);
    assert_eq!(session.commit(), Ok(()));
    assert_eq!(living(&store.table), 0);
}

/// It is dropped: the transaction is aborted, whatever it waits for.
#[test]
fn a_whole_transaction_is_dropped() {
    let store = store();
    let mut holder = begin(&store);
    holder.lock_path(store.low, Mode::S).unwrap();
    let list = [path(store.row.file, Mode::X), path(store.low, Mode::X)];
    let mut answers = Answers::new();
    drop(store.table.run(&list, &mut answers).unwrap());
    assert_eq!(living(&store.table), 1);
    let end = (|| -> Result<(), Halt> {
        store.table.run(&list, &mut answers)??;
        Ok(())
    })();
    assert_eq!(end, Err(waiting(store.low, Mode::X)));
    assert_eq!(living(&store.table), 1);
    assert_eq!(store.table.with(|m| m.group(store.row.file)), Ok(Mode::NL));
    holder.commit().unwrap();
    assert_eq!(store.table.run(&list, &mut answers).unwrap().ok(), Some(()));
}

/// The session of a shared table owns it, and its name is another's than that of a transaction before.
#[test]
fn a_whole_transaction_of_a_shared_table() {
    let store = store();
    let mut holder = begin(&store);
    holder.lock_path(store.low, Mode::S).unwrap();
    let list = [path(store.low, Mode::X)];
    let mut answers = Answers::new();
    let ran = store.table.run_shared(&list, &mut answers).unwrap();
    let mut left: Unfinished<'static> = ran.unwrap_err();
    let waits = thread::spawn(move || {
        let end = left.session.resume_to_end(&list, &mut answers);
        (end, left.session.commit())
    });
    holder.commit().unwrap();
    assert_eq!(waits.join().unwrap(), (Ok(()), Ok(())));
    let ran = store.table.run_shared(&[Do::Mark], &mut Answers::new());
    assert_eq!(ran.unwrap().ok(), Some(()));
}

/// If none can begin, nothing is made, and nothing is left.
#[test]
fn a_whole_transaction_that_does_not_begin() {
    let table = Table::new(Detect::AtBlock, 1).unwrap();
    let mut answers = Answers::new();
    let session = table.begin().unwrap();
    let list = [Do::AddInner(&[])];
    let nodes = table.with(|m| m.len());
    for list in [&list[..], &[]] {
        let ran = table.run(list, &mut answers);
        assert_eq!(ran.unwrap_err(), Refusal::TooManyTxns);
        assert!(answers.is_empty());
    }
    assert_eq!(table.with(|m| m.len()), nodes);
    let mut resting = session.rest(16).unwrap();
    let session = table.begin().unwrap();
    let ran = resting.run(&list, &mut answers);
    assert_eq!(ran.unwrap_err(), Refusal::TooManyTxns);
    drop(session);
    assert_eq!(resting.run(&list, &mut answers).unwrap().ok(), Some(()));
    assert_eq!(table.run(&[], &mut answers).unwrap().ok(), Some(()));
    assert_eq!(table.with(|m| m.len()), nodes + 1);
}

/// A session's last commands and its commit.
#[test]
fn a_session_commits_by_a_list() {
    let store = store();
    let mut session = begin(&store);
    session.lock(store.root, Mode::IX).unwrap();
    let mut answers = Answers::new();
    let list = [path(store.file, Mode::X), Do::Mark];
    assert_eq!(session.run_and_commit(&list, &mut answers).ok(), Some(()));
    assert_eq!((answers.len(), living(&store.table)), (2, 0));
    let end = begin(&store).run_and_commit(&[], &mut answers);
    assert_eq!((end.ok(), living(&store.table)), (Some(()), 0));
}

/// A commit in one call whose lock waits: the session is there, and its transaction lives.
#[test]
fn a_session_that_would_commit_waits() {
    let store = store();
    let mut holder = begin(&store);
    holder.lock_path(store.low, Mode::X).unwrap();
    let list = [path(store.row.file, Mode::IX), path(store.low, Mode::S)];
    let mut answers = Answers::new();
    for is_rest in [false, true] {
        let session = begin(&store);
        let name = session.txn();
        let (session, halt) = if is_rest {
            let left = session.run_and_rest(16, &list, &mut answers).unwrap_err();
            (left.session, left.halt)
        } else {
            let left = session.run_and_commit(&list, &mut answers).unwrap_err();
            (left.session, left.halt)
        };
        assert_eq!(halt, waiting(store.low, Mode::S));
        assert_eq!((session.txn(), answers.len()), (name, 1));
        assert_eq!(store.held(name, store.row.file), Mode::IX);
        assert_eq!(store.waits_for(name), Some(store.low));
        // Nor can it commit before.
        assert_eq!(session.commit(), Err(Refusal::TxnWaiting));
        assert!(!store.lives(name));
    }
    let left = store
        .begin()
        .run_and_commit(&list, &mut answers)
        .unwrap_err();
    let mut session = left.session;
    holder.commit().unwrap();
    session.await_lock(&mut answers).unwrap();
    session.resume(&list, &mut answers).unwrap();
    session.commit().unwrap();
    assert_eq!(living(&store.table), 0);
}

/// A session whose transaction another thread has ended commits nothing, and begins nothing in its place.
#[test]
fn a_session_that_has_ended_commits_nothing() {
    let slots = 2;
    let table = Table::new(Detect::AtBlock, slots).unwrap();
    let gone = refused(Refusal::NoSuchTxn);
    for is_full in [false, true] {
        for list in [&[][..], &[Do::AddInner(&[])], &[Do::Mark]] {
            let sessions = [(); 2].map(|()| table.begin().unwrap());
            for own in &sessions {
                table.abort(own.txn()).unwrap();
            }
            let others: Vec<_> = (0..slots)
                .filter(|_| is_full)
                .map(|_| table.begin())
                .collect();
            let mut answers = Answers::new();
            let [commits, rests] = sessions;
            let left = commits.run_and_commit(list, &mut answers).unwrap_err();
            assert_eq!(Err(left.halt), gone);
            let left = rests.run_and_rest(16, list, &mut answers).unwrap_err();
            assert_eq!(Err(left.halt), gone);
            assert_eq!(living(&table), others.len());
        }
    }
}

// ------------------------------------------------------------------------------------------------------------------
// Transactions that follow each other.

/// What a thread keeps from list to list.
#[test]
fn lists_rest_between() {
    let store = store();
    let writes = [path(store.low, Mode::X), Do::Mark];
    let mut answers = Answers::new();
    let mut resting = begin(&store).rest(2).unwrap();
    let held = |mode| {
        let groups = [store.root, store.file, store.index, store.low];
        let groups = groups.map(|node| store.table.with(|m| m.group(node)).unwrap());
        assert_eq!(groups, [mode, mode, Mode::NL, Mode::NL]);
    };
    for _ in 0..3 {
        assert_eq!(resting.run(&writes, &mut answers).unwrap().ok(), Some(()));
        held(Mode::IX);
        assert_eq!(answers.len(), 2);
    }
    // In the way of another it is ended, and the next begins without.
    let mut reader = begin(&store);
    assert_eq!(reader.lock_path(store.file, Mode::S), Ok(Mode::S));
    reader.commit().unwrap();
    held(Mode::NL);
    assert_eq!(resting.run(&writes, &mut answers).unwrap().ok(), Some(()));
    held(Mode::IX);
    drop(resting);
    held(Mode::NL);
}

/// One that stops has what was kept, and the next begins without; a rest of its session keeps on.
#[test]
fn a_list_after_a_rest_stops() {
    let store = store();
    let mut answers = Answers::new();
    let reads = [path(store.file, Mode::IS)];
    let writes = [Do::Mark, path(store.low, Mode::X)];
    let mut holder = begin(&store);
    holder.lock_path(store.low, Mode::S).unwrap();
    let mut resting = begin(&store).rest(2).unwrap();
    assert!(resting.run(&reads, &mut answers).unwrap().is_ok());
    let left = resting.run(&writes, &mut answers).unwrap().unwrap_err();
    assert_eq!(left.halt, waiting(store.low, Mode::X));
    let mut session = left.session;
    let Done::Marked(kept) = answers[0] else {
        panic!("{answers:?}")
    };
    // It has a transaction of its own meanwhile, which keeps as much.
    assert!(resting.run(&[], &mut Answers::new()).unwrap().is_ok());
    assert_eq!(living(&store.table), 2);
    assert!(resting.run(&reads, &mut Answers::new()).unwrap().is_ok());
    assert_eq!(living(&store.table), 3);
    drop(resting);
    holder.commit().unwrap();
    assert_eq!(session.resume_to_end(&writes, &mut answers), Ok(()));
    assert_eq!(session.release_since(kept), Ok(3)); // The two that were kept are older than the mark.
    let resting = session.rest(16).unwrap();
    let session = resting.begin().unwrap();
    assert_eq!(store.held(session.txn(), store.file), Mode::IX);
}

/// The last list of a session is its commit, and what it keeps rests.
#[test]
fn a_session_rests_by_a_list() {
    let store = store();
    let mut answers = Answers::new();
    let mut session = begin(&store);
    let first = session.txn();
    for round in 0..3 {
        let list = [path(store.low, Mode::X), Do::Mark];
        let resting: Resting<'_> = session.run_and_rest(2, &list, &mut answers).unwrap();
        assert_eq!(answers.len(), 2);
        assert_eq!(living(&store.table), 1);
        session = resting.begin().unwrap();
        assert_ne!(session.txn(), first);
        assert_eq!(
            store.held(session.txn(), store.file),
            Mode::IX,
            "round {round}"
        );
        assert_eq!(store.held(session.txn(), store.index), Mode::NL);
    }
    let resting = session.run_and_rest(0, &[], &mut answers).unwrap();
    assert_eq!(living(&store.table), 0);
    drop(resting);
}

// ------------------------------------------------------------------------------------------------------------------
// Tasks, and threads.

/// A future that is dropped while a lock of its list waits cancels that wait alone.
#[test]
fn a_task_gives_its_list_up() {
    let store = store();
    let (mut holder, mut session) = (begin(&store), begin(&store));
    holder.lock_path(store.low, Mode::X).unwrap();
    let list = [Do::Mark, path(store.low, Mode::S), Do::Mark];
    let mut answers = Answers::new();
    let name = session.txn();
    {
        let mut run = pin!(session.run_to_end_async(&list, &mut answers));
        assert!(poll_by(&mut run, quiet()).is_pending());
        assert_eq!(store.waits_for(name), Some(store.low));
    }
    assert_eq!(store.waits_for(name), None);
    assert_eq!(answers.len(), 1);
    assert_eq!(session.await_lock(&mut answers), Err(Stop::Cancelled));
    let halt = session.resume(&list, &mut answers);
    assert_eq!(halt, Err(waiting(store.low, Mode::S)));
    {
        let mut run = pin!(session.await_lock_async(&mut answers));
        assert!(poll_by(&mut run, quiet()).is_pending());
        holder.commit().unwrap();
    } // It was granted before it is dropped, and stays so.
    assert_eq!(store.held(name, store.low), Mode::S);
    assert_eq!(
        block_on(session.resume_to_end_async(&list, &mut answers)),
        Ok(())
    );
    assert_eq!(answers.len(), 3);
}

/// A task is woken at the end of the wait, of a thread that commits by a list.
#[test]
fn a_task_awaits_its_list() {
    let store = store();
    let mut holder = begin(&store);
    holder.lock_path(store.low, Mode::X).unwrap();
    let list = [path(store.low, Mode::S), Do::AddInner(&[])];
    let mut session = begin(&store);
    let name = session.txn();
    let task = thread::spawn(move || {
        let mut answers = Answers::new();
        let end = block_on(session.run_to_end_async(&list, &mut answers));
        (end, answers.to_vec(), session.commit())
    });
    await_that(|| store.waits_for(name) == Some(store.low));
    let end = holder.run_and_commit(&[Do::Mark], &mut Answers::new());
    assert!(end.is_ok());
    let (end, answers, committed) = task.join().unwrap();
    assert_eq!((end, answers.len(), committed), (Ok(()), 2, Ok(())));
}

/// A waker that panics does so after the list, whose answers are there then; and after the commit.
#[test]
fn a_waker_panics_after_the_list() {
    let store = store();
    for commits in [false, true] {
        let mut holder = begin(&store);
        holder.lock(store.root, Mode::X).unwrap();
        let name = holder.txn();
        let waker = Does::waker(|| panic!("as it is to"));
        let mut waiter = store.waits(begin(&store), store.root, Mode::S, waker);
        let list = [Do::Unlock(store.root.into()), Do::AddInner(&[])];
        let mut answers = Answers::new();
        let run = catch_unwind(AssertUnwindSafe(|| match commits {
            false => holder.run(&list, &mut answers).map(drop),
            true => Ok(holder.run_and_commit(&list[1..], &mut answers)?),
        }));
        assert!(run.is_err());
        assert_eq!(answers.len(), if commits { 1 } else { 2 });
        assert!(!store.lives(name)); // It has committed, or was aborted as it went out of scope.
        assert_eq!(waiter.ended(), Ok(Mode::S));
        store.table.abort(waiter.name).unwrap();
    }
}

/// In a waker a list is made, and does not sleep: a lock of it waits on, up to a call that may.
#[test]
fn a_waker_runs_a_list() {
    let store = store();
    let other = store.add_root();
    let (mut holder, mut blocks) = (begin(&store), begin(&store));
    holder.lock(store.root, Mode::X).unwrap();
    blocks.lock(other, Mode::X).unwrap();
    let mut session = begin(&store);
    let given = Arc::new(Mutex::new(None));
    let gives = Arc::clone(&given);
    let list = [Do::Mark, path(other, Mode::S)];
    let waker = Does::waker(move || {
        let mut answers = Answers::new();
        let run = session.run(&list, &mut answers);
        let awaited = session.await_lock(&mut answers);
        let resumed = session.resume_to_end(&list, &mut answers);
        *gives.lock().unwrap() = Some((run, awaited, resumed, session, answers));
    });
    let waiter = store.waits(begin(&store), store.root, Mode::S, waker);
    holder.commit().unwrap();
    let (run, awaited, resumed, mut session, mut answers) = given.lock().unwrap().take().unwrap();
    assert_eq!(run, Err(waiting(other, Mode::S)));
    assert_eq!(awaited, Err(Stop::Refused(Refusal::InUse)));
    assert_eq!(resumed, refused(Refusal::InUse));
    blocks.commit().unwrap();
    assert_eq!(session.resume_to_end(&list, &mut answers), Ok(()));
    store.table.abort(waiter.name).unwrap();
}

/// Answers, and the futures that have them, go to other threads.
#[test]
fn all_of_it_goes_to_other_threads() {
    fn goes<T: Send>(value: T) -> T {
        value
    }
    fn is_shared<T: Send + Sync>() {}
    is_shared::<Answers>();
    is_shared::<Do<'_>>();
    is_shared::<Unfinished<'_>>();
    let store = store();
    let mut session = begin(&store);
    let mut answers = goes(Answers::new());
    let list = [path(store.low, Mode::S)];
    drop(goes(session.run_to_end_async(&list, &mut answers)));
    drop(goes(session.await_lock_async(&mut answers)));
}

/// One of the transactions of a crowd: it locks two nodes in some order, by one list, and adds to what these guard. A
/// victim begins again.
fn moves(store: &Store, nodes: [Node; 2], guarded: [&AtomicUsize; 2], answers: &mut Answers) {
    let list = nodes.map(|node| path(node, Mode::X));
    let mut since = u64::MAX;
    loop {
        let mut session = store.table.begin_again(since).unwrap();
        since = since.min(session.txn().age());
        match session.run_to_end(&list, answers) {
            Ok(()) => {}
            Err(Halt::Stopped(Stop::Victim)) => continue,
            Err(halt) => panic!("{halt:?}"),
        }
        for each in guarded {
            let value = each.load(Ordering::Relaxed);
            each.store(value + 1, Ordering::Relaxed); // No other thread does so meanwhile.
        }
        return session.commit().unwrap();
    }
}

#[test]
fn a_crowd_runs_lists() {
    const THREADS: usize = 8;
    const ROUNDS: usize = 60;
    let store = store();
    let nodes = [(); 3].map(|()| store.add_root());
    let guarded = [const { AtomicUsize::new(0) }; 3];
    thread::scope(|scope| {
        for number in 0..THREADS {
            let (store, guarded) = (&store, &guarded);
            scope.spawn(move || {
                let mut answers = Answers::new();
                for round in 0..ROUNDS {
                    let one = (number + round) % 3;
                    let other = (one + 1 + round % 2) % 3;
                    let pair = [one, other];
                    moves(
                        store,
                        pair.map(|at| nodes[at]),
                        pair.map(|at| &guarded[at]),
                        &mut answers,
                    );
                }
            });
        }
    });
    let sum: usize = guarded
        .iter()
        .map(|each| each.load(Ordering::Relaxed))
        .sum();
    assert_eq!(sum, 2 * THREADS * ROUNDS);
    assert_eq!(living(&store.table), 0);
}

/// Whole transactions of threads that rest between, which insert below one interval, and wait for one that reads it.
#[test]
fn a_crowd_runs_whole_transactions() {
    const THREADS: usize = 6;
    const ROUNDS: usize = 40;
    let store = store();
    let made = AtomicUsize::new(0);
    thread::scope(|scope| {
        for number in 0..THREADS {
            let (store, made) = (&store, &made);
            scope.spawn(move || {
                let list = [
                    path(store.file, Mode::IX),
                    path(store.below, if number == 0 { Mode::X } else { Mode::IX }),
                    Do::Insert(store.file.into(), &LOW_KEY),
                ];
                let mut answers = Answers::new();
                let mut resting = begin(store).rest(16).unwrap();
                for _ in 0..ROUNDS {
                    if let Err(left) = resting.run(&list, &mut answers).unwrap() {
                        let mut session = left.session;
                        session.resume_to_end(&list, &mut answers).unwrap();
                        resting = session.rest(16).unwrap();
                    }
                    assert_eq!(answers.len(), 3);
                    made.fetch_add(1, Ordering::Relaxed);
                }
            });
        }
    });
    assert_eq!(made.into_inner(), THREADS * ROUNDS);
    let records = store.table.with(|m| m.has_records(store.file));
    assert_eq!((records, living(&store.table)), (Ok(true), 0));
}
