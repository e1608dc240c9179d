//! Want of memory: calls for memory are refused in turn, and a call of the manager that finds none
//! changes nothing; what gives something back takes no memory at all, in the library or here; and a
//! manager that ends gives back all that it took.
//!
//! `malloc` and its like are this program's own, and go on to those of glibc: so it is no good
//! under a checker that has its own, too.
#![cfg(all(target_os = "linux", target_env = "gnu"))]

mod common;
mod tasks;

#[cfg(target_pointer_width = "64")]
use burlapslate::Group;
use burlapslate::{
    Answers, Detect, Do, Done, Halt, Keep, Manager, Mode, Node, Notice, Options, Refusal, Row,
    RowAsked, RowLocked, Session, Stop, Table, Taken, Tried, Try, Txn, SLOTS,
};
use common::{at_block, begin, grant, manager, store, wait};
use std::cell::Cell;
use std::ffi::c_void;
use std::fmt::Debug;
use std::future::Future;
use std::mem::forget;
use std::pin::pin;
use std::ptr::null_mut;
use std::task::{Context, Poll};
use std::thread;
use std::time::{Duration, Instant};
use tasks::{poll, quiet, PATIENCE};

/// Which allocations of a thread are refused.
#[derive(Clone, Copy, PartialEq, Debug)]
enum Refused {
    None,
    /// One, counted from 1 on.
    Nth(usize),
    /// One, and all behind it.
    From(usize),
    All,
}

thread_local! {
    static REFUSED: Cell<Refused> = const { Cell::new(Refused::None) };
    /// How many blocks of memory it has.
    static BLOCKS: Cell<isize> = const { Cell::new(0) };
}

fn is_refused() -> bool {
    match REFUSED.get() {
        Refused::None => false,
        Refused::Nth(1) => {
            REFUSED.set(Refused::None);
            true
        }
        Refused::Nth(n) => {
            REFUSED.set(Refused::Nth(n - 1));
            false
        }
        Refused::From(1) => true,
        Refused::From(n) => {
            REFUSED.set(Refused::From(n - 1));
            false
        }
        Refused::All => true,
    }
}

/// What a call comes to with these allocations refused, and those that were left to be refused.
fn refusing<T>(refused: Refused, call: impl FnOnce() -> T) -> (T, Refused) {
    REFUSED.set(refused);
    let answer = call();
    (answer, REFUSED.replace(Refused::None))
}

/// What a call comes to without any memory. It compares nothing itself, since to say what differs
/// takes memory.
fn without_memory<T>(call: impl FnOnce() -> T) -> T {
    refusing(Refused::All, call).0
}

/// Counts a block that was given.
fn given(block: *mut c_void) -> *mut c_void {
    if !block.is_null() {
        BLOCKS.set(BLOCKS.get() + 1);
    }
    block
}

/// The calls of the program for memory. Of each the caller keeps what the call of glibc asks for.
mod heap {
    use super::{c_void, given, is_refused, null_mut, BLOCKS};

    extern "C" {
        fn __libc_malloc(size: usize) -> *mut c_void;
        fn __libc_calloc(count: usize, size: usize) -> *mut c_void;
        fn __libc_realloc(old: *mut c_void, size: usize) -> *mut c_void;
        fn __libc_free(block: *mut c_void);
    }

    #[no_mangle]
    unsafe extern "C" fn malloc(size: usize) -> *mut c_void {
        if is_refused() {
            return null_mut();
        }
        given(unsafe { __libc_malloc(size) })
    }

    #[no_mangle]
    unsafe extern "C" fn calloc(count: usize, size: usize) -> *mut c_void {
        if is_refused() {
            return null_mut();
        }
        given(unsafe { __libc_calloc(count, size) })
    }

    #[no_mangle]
    unsafe extern "C" fn realloc(old: *mut c_void, size: usize) -> *mut c_void {
        if old.is_null() {
            return unsafe { malloc(size) };
        }
        if is_refused() {
            return null_mut();
        }
        unsafe { __libc_realloc(old, size) }
    }

    #[no_mangle]
    unsafe extern "C" fn free(block: *mut c_void) {
        if !block.is_null() {
            BLOCKS.set(BLOCKS.get() - 1);
        }
        unsafe { __libc_free(block) }
    }
}

/// A manager that was made or not leaves nothing behind, nor does one that ends as it is.
#[test]
fn all_memory_comes_back() {
    let before = BLOCKS.get();
    let (made, _) = refusing(Refused::Nth(3), || Manager::new(Detect::AtBlock, SLOTS));
    assert!(made.is_err());
    assert_eq!(BLOCKS.get(), before);
    let (mut m, root) = at_block();
    let s = store(&mut m, root);
    let [a, b] = begin(&mut m);
    grant(&mut m, a, &s.path_below(), Mode::IX);
    wait(&mut m, b, root, Mode::X);
    assert!(BLOCKS.get() > before);
    drop(m);
    assert_eq!(BLOCKS.get(), before);
}

#[test]
fn managers_that_are_not_made() {
    let mut n = 1;
    loop {
        let (made, left) = refusing(Refused::Nth(n), || Manager::new(Detect::AtBlock, SLOTS));
        if left != Refused::None {
            assert!(made.is_ok());
            break;
        }
        assert_eq!(made.unwrap_err(), Refusal::NoMemory);
        n += 1;
    }
    assert!(n > 3);
    let refused = without_memory(|| Manager::new(Detect::AtBlock, 0).map(drop));
    assert_eq!(refused, Err(Refusal::BadNumber));
}

/// Tables that are made or not leave nothing behind.
#[test]
fn tables_that_are_not_made() {
    for parts in [1, 3] {
        let options = Options::new(Detect::AtBlock).parts(parts);
        let before = BLOCKS.get();
        let mut n = 1;
        loop {
            let (made, left) = refusing(Refused::Nth(n), || Table::with_options(options));
            if left != Refused::None {
                assert!(made.is_ok());
                break;
            }
            assert_eq!(made.unwrap_err(), Refusal::NoMemory);
            assert_eq!(BLOCKS.get(), before);
            n += 1;
        }
        assert!(n > 4);
        assert_eq!(BLOCKS.get(), before);
    }
}

/// A list of tries for which there is no memory locks nothing.
#[test]
fn a_list_that_is_not_made() {
    let table = Table::new(Detect::AtBlock, SLOTS).unwrap();
    let node = table.add_inner(&[]).unwrap();
    let mut session = table.begin().unwrap();
    let mode = Mode::S;
    let tries = [Try::Node { node, mode }];
    let tried = without_memory(|| session.try_first(&tries));
    assert_eq!(tried, Err(Refusal::NoMemory));
    assert_eq!(table.with(|m| m.group(node)), Ok(Mode::NL));
    assert_eq!(session.try_first(&[]), Ok(None));
    let locked = RowLocked::Own(mode);
    let taken = session.try_first(&tries);
    assert_eq!(taken, Ok(Some(Taken { place: 0, locked })));
}

/// A list of commands takes all its memory before the first of them, and none for one that is no longer than another
/// before it.
#[test]
fn a_list_takes_its_memory_first() {
    let table = Table::new(Detect::AtBlock, SLOTS).unwrap();
    let node = table.add_inner(&[]).unwrap();
    let mut session = table.begin().unwrap();
    let parents = [node.into()];
    let list = [
        Do::Unlock(node.into()),
        Do::Lock(node.into(), Mode::S),
        Do::AddInner(&parents),
    ];
    let mut answers = Answers::new();
    for n in 1..=3 {
        session.lock(node, Mode::S).unwrap();
        let (halt, left) = refusing(Refused::Nth(n), || session.run(&list, &mut answers));
        assert_eq!(halt, Err(Halt::from(Refusal::NoMemory)));
        assert_eq!((answers.len(), left), (0, Refused::None));
        assert_eq!(table.with(|m| (m.group(node), m.len())), (Ok(Mode::S), 1));
        answers = Answers::new();
    }
    assert_eq!(session.run(&list, &mut answers), Ok(()));
    let shorter = [Do::Lock(node.into(), Mode::X), Do::Unlock(node.into())];
    let stops = [
        Do::Lock(node.into(), Mode::S),
        Do::Delete(node.into()),
        list[2],
    ];
    for _ in 0..2 {
        let halt = without_memory(|| session.run(&stops, &mut answers));
        assert_eq!(halt, Err(Halt::from(Refusal::BadParents))); // Before what names parents.
    }
    let end = without_memory(|| session.run(&shorter, &mut answers));
    assert_eq!(end, Ok(()));
    assert_eq!(*answers, [Done::Locked(Mode::X), Done::Accepted]);
    let end = without_memory(|| session.run_and_commit(&shorter[..0], &mut answers).is_ok());
    assert!(end);
}

/// A whole transaction for whose list there is no memory does not begin, and what rests before it rests on.
#[test]
fn a_whole_list_that_is_not_made() {
    let table = Table::new(Detect::AtBlock, SLOTS).unwrap();
    let node = table.add_inner(&[]).unwrap();
    let mut session = table.begin().unwrap();
    session.lock(node, Mode::IX).unwrap();
    let mut resting = session.rest(16).unwrap();
    let mut answers = Answers::new();
    let list = [Do::Lock(node.into(), Mode::IX)];
    for _ in 0..2 {
        let ran = without_memory(|| resting.run(&list, &mut answers).map(drop));
        assert_eq!(ran, Err(Refusal::NoMemory));
        let ran = without_memory(|| table.run(&list, &mut answers).map(drop));
        assert_eq!(ran, Err(Refusal::NoMemory));
        assert_eq!(table.with(|m| m.group(node)), Ok(Mode::IX));
        assert_eq!(table.with(|m| m.transactions().count()), 1);
    }
    assert!(resting.run(&list, &mut answers).unwrap().is_ok());
    let ran = without_memory(|| resting.run(&list, &mut answers).map(|ran| ran.is_ok()));
    assert_eq!(ran, Ok(true));
    assert_eq!(table.with(|m| m.group(node)), Ok(Mode::IX));
}

/// Watchers that are made or not leave nothing behind.
#[test]
fn watchers_that_are_not_made() {
    let before = BLOCKS.get();
    let (mut m, _) = at_block();
    let mut n = 1;
    loop {
        let (made, left) = refusing(Refused::Nth(n), || m.watch());
        if left != Refused::None {
            assert!(made.is_ok());
            break;
        }
        assert_eq!(made.unwrap_err(), Refusal::NoMemory);
        n += 1;
    }
    assert!(n > 1);
    drop(m);
    assert_eq!(BLOCKS.get(), before);
}

/// Calls until the answer is no want of memory, and changes nothing before. What is left to be
/// refused goes over to the next call.
fn in_spite<T>(
    m: &mut Manager,
    left: &mut Refused,
    mut call: impl FnMut(&mut Manager) -> Result<T, Refusal>,
) -> T {
    loop {
        let before = (m.accepted(), m.len());
        let (answer, after) = refusing(*left, || call(m));
        *left = after;
        match answer {
            Ok(value) => return value,
            Err(refusal) => assert_eq!(refusal, Refusal::NoMemory),
        }
        assert_eq!((m.accepted(), m.len()), before);
    }
}

/// A scenario with an allocation refused; whether there was one.
fn run_scenario(n: usize) -> bool {
    let (mut m, root) = at_block();
    let left = &mut Refused::Nth(n);
    let file = in_spite(&mut m, left, |m| m.add_file(&[root]));
    let index = in_spite(&mut m, left, |m| m.add_index(&[root], file, &[10, 20]));
    let txn = in_spite(&mut m, left, |m| m.begin());
    let interval = m.interval(index, 0).unwrap();
    for node in [root, file, index, interval] {
        in_spite(&mut m, left, |m| m.try_lock(txn, node, Mode::IX));
    }
    for key in 0..10 {
        let record = in_spite(&mut m, left, |m| m.insert(txn, file, &[key]));
        let mode = in_spite(&mut m, left, |m| m.effective(txn, record));
        assert_eq!(mode, Mode::X);
        let inner = in_spite(&mut m, left, |m| m.add_inner(&[root]));
        in_spite(&mut m, left, |m| m.lock(txn, inner, Mode::X).map(|_| ()));
        in_spite(&mut m, left, |m| {
            m.move_node(txn, inner, &[root]).map(|_| ())
        });
    }
    let other = in_spite(&mut m, left, |m| m.add_file(&[root]));
    in_spite(&mut m, left, |m| m.try_lock(txn, other, Mode::X));
    for bounds in [&[10, 20][..], &[]] {
        let index = in_spite(&mut m, left, |m| m.index_by(txn, &[root], other, bounds));
        in_spite(&mut m, left, |m| m.drop_node(txn, index).map(|_| ()));
    }
    let record = in_spite(&mut m, left, |m| m.adopt(other, &[]));
    in_spite(&mut m, left, |m| {
        m.index_records(txn, &[root], other, &[10], &[record], &[7])
    });
    assert_eq!(m.key(record, 0), Some(7));
    let file = in_spite(&mut m, left, |m| m.add_row_file(&[root]));
    in_spite(&mut m, left, |m| m.try_lock(txn, file, Mode::IX));
    for number in 0..10 {
        let row = Row { file, number };
        in_spite(&mut m, left, |m| {
            m.lock_row(txn, row, &[], Mode::X).map(|_| ())
        });
    }
    *left == Refused::None
}

#[test]
fn allocations_that_are_refused() {
    let allocations = (1..).take_while(|&n| run_scenario(n)).count();
    assert!(allocations > 20, "{allocations}");
}

/// What is told, in place of a list that takes memory.
type Told = [Option<Notice>; 3];

fn told(notices: burlapslate::Notices) -> Told {
    let mut told = [None; 3];
    for (place, notice) in notices.enumerate() {
        told[place] = Some(notice);
    }
    told
}

fn granted(txn: Txn, node: Node, mode: Mode) -> Told {
    [Some(Notice::Granted { txn, node, mode }), None, None]
}

#[test]
fn releases_take_none() {
    let (mut m, root) = at_block();
    let [a, b, c] = begin(&mut m);
    grant(&mut m, a, &[root], Mode::X);
    wait(&mut m, b, root, Mode::IX);
    wait(&mut m, c, root, Mode::S);
    let unlocked = without_memory(|| m.unlock(a, root).map(told));
    assert_eq!(unlocked, Ok(granted(b, root, Mode::IX)));
    wait(&mut m, a, root, Mode::X);
    let cancelled = without_memory(|| m.cancel(c).map(told));
    assert_eq!(cancelled, Ok([None; 3]));
    let committed = without_memory(|| m.commit(b).map(told));
    assert_eq!(committed, Ok(granted(a, root, Mode::X)));
    wait(&mut m, c, root, Mode::S);
    let aborted = without_memory(|| m.abort(a).map(told));
    assert_eq!(aborted, Ok(granted(c, root, Mode::S)));
}

#[test]
fn a_settle_takes_none() {
    let (mut m, root) = manager(Detect::ByWatcher);
    let [a, b] = begin(&mut m);
    grant(&mut m, a, &[root], Mode::S);
    grant(&mut m, b, &[root], Mode::S);
    wait(&mut m, a, root, Mode::X);
    wait(&mut m, b, root, Mode::X);
    let board = without_memory(|| m.board());
    assert_eq!(
        without_memory(|| board.youngest(board.suspects())),
        Some(b.slot())
    );
    let settled = without_memory(|| m.settle(a).map(told));
    assert_eq!(settled, Ok([Some(Notice::Victim { txn: b }), None, None]));
}

/// A task of this session asks for X on the root, and is left waiting. Whether an allocation was refused then, which is that
/// of the board alone; a board that takes the memory of an older one needs none.
fn wait_unshown(session: &mut Session<'_>, root: Node) -> bool {
    let waker = quiet();
    let mut context = Context::from_waker(&waker);
    let mut n = 0;
    loop {
        n += 1;
        let mut lock = Box::pin(session.lock_async(root, Mode::X));
        let (polled, left) = refusing(Refused::Nth(n), || lock.as_mut().poll(&mut context));
        if polled.is_pending() {
            forget(lock); // The session waits on.
            return left == Refused::None;
        }
        assert!(polled == Poll::Ready(Err(Stop::Refused(Refusal::NoMemory))));
    }
}

/// A watch ends with this, also where a test has failed.
struct EndsWatch<'t>(&'t Table);

impl Drop for EndsWatch<'_> {
    fn drop(&mut self) {
        self.0.end_watch();
    }
}

/// Whether the board of the last wait could not be shown. The deadlock is ended all the same.
fn a_watch_ends_it() -> bool {
    let table = &Table::new(Detect::ByWatcher, SLOTS).unwrap();
    let root = table.add_inner(&[]).unwrap();
    let (mut older, mut younger) = (table.begin().unwrap(), table.begin().unwrap());
    for session in [&mut older, &mut younger] {
        session.lock(root, Mode::S).unwrap();
    }
    let name = younger.txn();
    thread::scope(|scope| {
        scope.spawn(|| table.watch_over(Duration::ZERO).unwrap());
        let _ends = EndsWatch(table);
        let waits = scope.spawn(move || older.lock_timeout(root, Mode::X, PATIENCE));
        while table.with(|m| m.counters().waited) == 0 {
            thread::yield_now();
        }
        let is_unshown = wait_unshown(&mut younger, root);
        let limit = Instant::now() + PATIENCE;
        while table.with(|m| m.waiting(name)).is_some() && Instant::now() < limit {
            thread::sleep(Duration::from_micros(50));
        }
        let condemned = Err(Stop::Refused(Refusal::TxnCondemned));
        assert_eq!(younger.lock(root, Mode::S), condemned);
        younger.abort();
        assert_eq!(waits.join().unwrap(), Ok(Mode::X));
        is_unshown
    })
}

/// The one that watches reads a board that could not be shown, since memory ran out.
#[test]
fn a_watch_takes_no_old_board() {
    let unshown = (0..20).filter(|_| a_watch_ends_it()).count();
    assert!(unshown > 0);
}

#[test]
fn rows_take_none_but_to_be_locked() {
    let (mut m, root) = at_block();
    let file = m.add_row_file(&[root]).unwrap();
    let index = m.add_index(&[root], file, &[]).unwrap();
    let [a, b] = begin(&mut m);
    let interval = m.interval(index, 0).unwrap();
    for txn in [a, b] {
        grant(&mut m, txn, &[root, file, index, interval], Mode::IX);
    }
    let row = Row { file, number: 7 };
    let (asked, node, _) = m.lock_row(a, row, &[1], Mode::X).unwrap();
    assert_eq!(asked, RowAsked::Granted(Mode::X));
    let rekeyed = without_memory(|| m.rekey_row(a, row, index, 2).map(told));
    assert_eq!(rekeyed, Ok([None; 3]));
    let (asked, ..) = m.lock_row(b, row, &[2], Mode::X).unwrap();
    assert_eq!(asked, RowAsked::Waiting);
    let committed = without_memory(|| m.commit(a).map(told));
    assert_eq!(committed, Ok(granted(b, node, Mode::X)));
    let unlocked = without_memory(|| m.unlock_row(b, row).map(told));
    assert_eq!(unlocked, Ok([None; 3]));
    assert_eq!(m.row_node(row), None);
}

#[test]
fn records_take_none_but_to_be_made() {
    let (mut m, root) = at_block();
    let s = store(&mut m, root);
    let [a, b] = begin(&mut m);
    grant(&mut m, a, &[s.root, s.file, s.index], Mode::IX);
    grant(&mut m, a, &[s.below, s.above, s.low], Mode::X);
    let raised = without_memory(|| m.try_lock(a, s.root, Mode::S));
    assert_eq!(raised, Ok(Mode::SIX));
    grant(&mut m, b, &[s.root, s.file], Mode::IS);
    wait(&mut m, b, s.low, Mode::S);
    let rekeyed = without_memory(|| m.rekey(a, s.low, s.index, 300).map(told));
    assert_eq!(rekeyed, Ok([None; 3]));
    let deleted = without_memory(|| m.delete(a, s.low).map(told));
    assert_eq!(deleted, Ok([Some(Notice::Gone { txn: b }), None, None]));
    let escalated = without_memory(|| m.escalate(a, s.index).map(|(escalated, _)| escalated.mode));
    assert_eq!(escalated, Ok(Mode::X));
}

#[test]
fn drops_take_none() {
    let (mut m, root) = at_block();
    let file = m.add_file(&[root]).unwrap();
    let index = m.add_index(&[root], file, &[10, 20]).unwrap();
    let [a, b] = begin(&mut m);
    grant(&mut m, a, &[root], Mode::IX);
    grant(&mut m, a, &[file, index], Mode::X);
    grant(&mut m, b, &[root], Mode::IS);
    wait(&mut m, b, index, Mode::S);
    let gone = [Some(Notice::Gone { txn: b }), None, None];
    assert_eq!(without_memory(|| m.drop_node(a, index).map(told)), Ok(gone));
    assert_eq!(
        without_memory(|| m.drop_node(a, file).map(told)),
        Ok([None; 3])
    );
    assert_eq!(m.len(), 1);
}

/// A path that is tried and finds no memory on its way gives back what it took, without any.
#[test]
fn a_path_that_is_tried_gives_back() {
    for n in 1.. {
        let table = Table::new(Detect::AtBlock, SLOTS).unwrap();
        let mut chain = vec![table.add_inner(&[]).unwrap()];
        for _ in 0..20 {
            chain.push(table.add_inner(&chain[chain.len() - 1..]).unwrap());
        }
        let mut session = table.begin().unwrap();
        let last = chain[chain.len() - 1];
        let (tried, _) = refusing(Refused::From(n), || {
            session.try_lock_path(last, Mode::X, Keep::Nothing)
        });
        let locks = table.with(|m| m.locks(session.txn()).count());
        if tried == Ok(Tried::Locked(Mode::X)) {
            assert_eq!(locks, chain.len());
            assert!(n > 2);
            return;
        }
        assert_eq!((tried, locks), (Err(Refusal::NoMemory), 0));
        let tried = session.try_lock_path(last, Mode::X, Keep::Nothing);
        assert_eq!(tried, Ok(Tried::Locked(Mode::X)));
    }
}

/// The same of a row, with what must be held above it.
#[test]
fn a_row_path_that_is_tried_gives_back() {
    for n in 1.. {
        let table = Table::new(Detect::AtBlock, SLOTS).unwrap();
        let root = table.add_inner(&[]).unwrap();
        let file = table.add_row_file(&[root]).unwrap();
        table.add_index(&[root], file, &[100]).unwrap();
        let row = Row { file, number: 7 };
        let mut session = table.begin().unwrap();
        let held = Ok(Tried::Locked(RowLocked::Own(Mode::X)));
        let (tried, _) = refusing(Refused::From(n), || {
            session.try_lock_row_path(row, &[50], Mode::X, Keep::Nothing)
        });
        let locks = table.with(|m| m.locks(session.txn()).count());
        if tried == held {
            assert_eq!(locks, 5);
            assert!(n > 2);
            return;
        }
        assert_eq!((tried, locks), (Err(Refusal::NoMemory), 0));
        let tried = session.try_lock_row_path(row, &[50], Mode::X, Keep::Nothing);
        assert_eq!(tried, held);
    }
}

/// A row that is tried beside another who holds it, and finds no memory to be noted, is given back.
#[test]
fn a_row_that_is_tried_is_given_back() {
    for n in 1.. {
        let table = Table::new(Detect::AtBlock, SLOTS).unwrap();
        let root = table.add_inner(&[]).unwrap();
        let file = table.add_row_file(&[root]).unwrap();
        let row = Row { file, number: 7 };
        let (mut one, mut two) = (table.begin().unwrap(), table.begin().unwrap());
        let held = Ok(Tried::Locked(RowLocked::Own(Mode::S)));
        for session in [&mut one, &mut two] {
            session.lock_path(file, Mode::IX).unwrap();
        }
        assert_eq!(one.try_lock_row(row, &[], Mode::S), held);
        let (tried, _) = refusing(Refused::From(n), || two.try_lock_row(row, &[], Mode::S));
        let locks = table.with(|m| m.locks(two.txn()).count());
        if tried == held {
            assert_eq!(locks, 3);
            assert!(n > 2);
            return;
        }
        assert_eq!((tried, locks), (Err(Refusal::NoMemory), 2));
        assert_eq!(two.try_lock_row(row, &[], Mode::S), held);
        one.commit().unwrap();
        two.commit().unwrap();
        assert_eq!(table.row_node(row), None);
    }
}

/// A group that is not made leaves nothing behind, nor does one that is dropped as it is.
#[cfg(target_pointer_width = "64")]
#[test]
fn all_memory_of_a_group_comes_back() {
    let before = BLOCKS.get();
    for n in 1.. {
        let (made, _) = refusing(Refused::Nth(n), || Group::new(2));
        let Ok(group) = made else {
            assert!(made.is_err_and(|refusal| refusal == Refusal::NoMemory));
            assert_eq!(BLOCKS.get(), before);
            continue;
        };
        assert!(n > 3);
        let db = group.add_inner(&[]).unwrap();
        let file = group.add_file(&[db]).unwrap();
        let mut session = group.begin().unwrap();
        let made = session.insert(file, &[]).unwrap();
        assert!(matches!(made, Tried::Locked(_)));
        session.commit().unwrap();
        drop(group);
        assert_eq!(BLOCKS.get(), before);
        return;
    }
}

/// Repeats a call with one allocation more each time, as long as it is refused because there is no memory.
#[cfg(target_pointer_width = "64")]
fn again<T, E: PartialEq + Debug>(refused: E, mut call: impl FnMut() -> Result<T, E>) -> T {
    for n in 1.. {
        match refusing(Refused::From(n), &mut call).0 {
            Ok(made) => return made,
            Err(refusal) => assert_eq!(refusal, refused),
        }
    }
    unreachable!()
}

/// What makes or acquires something can be called again after it was refused memory; what ends or releases something
/// takes none.
#[cfg(target_pointer_width = "64")]
#[test]
fn ends_in_a_group_take_none() {
    let (none, no_lock) = (Refusal::NoMemory, Stop::Refused(Refusal::NoMemory));
    let group = Group::new(2).unwrap();
    let db = again(none, || group.add_inner(&[]));
    let file = again(none, || group.add_file_in(1, &[db]));
    let rows = again(none, || group.add_row_file_in(2, &[db]));
    let index = again(none, || group.add_index(&[db], file, &[100]));
    let row = Row {
        file: rows,
        number: 7,
    };
    let mut session = again(none, || group.begin());
    let Tried::Locked(record) = again(none, || session.insert(file, &[50])) else {
        unreachable!()
    };
    let own = again(no_lock, || session.lock_row_path(row, &[], Mode::X));
    assert_eq!(own, RowLocked::Own(Mode::X));
    let unlocked = without_memory(|| session.unlock_row(row));
    assert_eq!(unlocked, Ok(()));
    let rekeyed = without_memory(|| session.rekey(record, index, 60));
    assert_eq!(rekeyed, Ok(()));
    assert_eq!(without_memory(|| session.held(record)), Ok(Mode::X));
    let escalated = without_memory(|| session.escalate(file).map(|escalated| escalated.mode));
    assert_eq!(escalated, Ok(Mode::X));
    assert_eq!(without_memory(|| session.delete(record)), Ok(()));
    let strong = again(no_lock, || session.lock_path(db, Mode::SIX));
    assert_eq!(strong, Mode::SIX);
    assert_eq!(without_memory(|| session.commit()), Ok(()));
    let mut session = group.begin().unwrap();
    session.lock_path(file, Mode::X).unwrap();
    without_memory(|| session.abort());
    assert_eq!(without_memory(|| group.keep(16)), Ok(()));
    for _ in 0..2 {
        let mut session = group.begin().unwrap();
        session.lock_path(file, Mode::X).unwrap();
        assert_eq!(without_memory(|| session.commit()), Ok(()));
    }
    assert_eq!(without_memory(|| group.keep(0)), Ok(()));
    let known = again(none, || group.adopt(file, &[1]));
    assert_eq!(without_memory(|| group.forget(known)), Ok(()));
    assert_eq!(without_memory(|| group.begin().map(drop)), Ok(()));
}

/// A savepoint of a table with parts takes memory; to roll back to it, to leave a transaction and to end it takes none.
#[cfg(target_pointer_width = "64")]
#[test]
fn ends_in_parts_take_none() {
    let before = BLOCKS.get();
    let none = Refusal::NoMemory;
    let table = Table::with_options(Options::new(Detect::AtBlock).parts(2)).unwrap();
    let db = again(none, || table.add_inner(&[]));
    let files = [(); 2].map(|()| again(none, || table.add_file(&[db])));
    let mut session = again(none, || table.begin());
    session.lock_path(files[0], Mode::X).unwrap();
    let mark = again(none, || session.mark());
    session.lock_path(files[1], Mode::X).unwrap();
    assert_eq!(without_memory(|| session.release_since(mark)), Ok(2));
    assert_eq!(without_memory(|| session.held(files[1])), Ok(Mode::NL));
    let name = without_memory(|| session.leave());
    let other = table.begin().unwrap();
    let own = without_memory(|| table.abort(other.txn()));
    assert_eq!(own, Err(Refusal::InParts));
    assert_eq!(without_memory(|| table.commit(name)), Ok(()));
    without_memory(|| drop(other));
    assert_eq!(without_memory(|| table.counters().map(drop)), Ok(()));
    drop(table);
    assert_eq!(BLOCKS.get(), before);
}

/// A task asks a group again after it was refused memory; to drop its future, and to set a deadline and to renew a
/// transaction, takes none.
#[cfg(target_pointer_width = "64")]
#[test]
fn tasks_of_a_group_take_none_but_to_ask() {
    let no_lock = Stop::Refused(Refusal::NoMemory);
    let group = Group::new(2).unwrap();
    let db = group.add_inner(&[]).unwrap();
    let file = group.add_row_file_in(1, &[db]).unwrap();
    let index = group.add_index(&[db], file, &[100]).unwrap();
    let row = Row { file, number: 7 };
    let waker = quiet();
    for strong in [index, db] {
        let (mut holder, mut session) = (group.begin().unwrap(), group.begin().unwrap());
        holder.lock_path(strong, Mode::S).unwrap();
        again(no_lock, || {
            let mut lock = pin!(session.lock_row_path_async(row, &[50], Mode::X));
            match poll(&mut lock, &waker) {
                Poll::Ready(end) => end.map(|_| unreachable!("it waits")),
                Poll::Pending => Ok(()),
            }
        });
        let set = without_memory(|| session.set_deadline(Some(Instant::now())));
        assert_eq!(set, Ok(()));
        let renewed = without_memory(|| session.renew(u64::MAX));
        assert_eq!(renewed, Ok(()));
        assert_eq!(without_memory(|| group.expire()), None);
        assert_eq!(without_memory(|| holder.commit()), Ok(()));
        assert_eq!(without_memory(|| session.commit()), Ok(()));
    }
}
