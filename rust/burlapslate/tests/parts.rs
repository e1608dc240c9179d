//! Stories of a table by its options: of one part, and of several by the same calls. What differs is said by name.

#![cfg(target_pointer_width = "64")]

mod tasks;

use burlapslate::{
    Answers, Detect, Do, Done, Halt, Keep, Manager, Mode, Node, Options, Refusal, Row, RowLocked,
    Session, Stop, Table, Taken, Tried, Try, Txn, Unfinished, WaitEnd, MOST_PARTS, SLOTS,
};
use std::future::Future;
use std::mem::forget;
use std::panic::{catch_unwind, AssertUnwindSafe};
use std::pin::pin;
use std::sync::atomic::{AtomicBool, AtomicI32, Ordering};
use std::sync::mpsc::channel;
use std::sync::{Arc, Mutex};
use std::task::{Poll, Wake, Waker};
use std::thread;
use std::time::{Duration, Instant};
use tasks::{block_on, poll, quiet, PATIENCE};

const FILES: usize = 4;
const MILLISECOND: Duration = Duration::from_millis(1);
const OWN: Result<RowLocked, Stop> = Ok(RowLocked::Own(Mode::X));

/// A data base with files, by turns in each part, each with an index of two intervals, parted at 100, and a record in
/// each of them; and a file of rows with such an index.
struct Store {
    table: Arc<Table>,
    base: Node,
    files: [Node; FILES],
    indexes: [Node; FILES],
    records: [[Node; 2]; FILES],
    rows: Node,
    days: Node,
}

impl Store {
    fn of(parts: usize) -> Store {
        Store::with(parts, SLOTS)
    }

    fn with(parts: usize, slots: usize) -> Store {
        let options = Options::new(Detect::AtBlock).transactions(slots);
        let table = Table::with_options(options.parts(parts)).unwrap();
        let base = table.add_inner(&[]).unwrap();
        let files = [(); FILES].map(|()| table.add_file(&[base]).unwrap());
        let index = |file| table.add_index(&[base], file, &[100]).unwrap();
        let indexes = files.map(index);
        let rows = table.add_row_file(&[base]).unwrap();
        let days = index(rows);
        let mut session = table.begin().unwrap();
        let records = files.map(|file| [50, 200].map(|key| inserted(&mut session, file, key)));
        session.commit().unwrap();
        Store {
            table: Arc::new(table),
            base,
            files,
            indexes,
            records,
            rows,
            days,
        }
    }

    fn has_parts(&self) -> bool {
        self.table.parts() > 1
    }

    fn begin(&self) -> Session<'static> {
        self.table.begin_shared().unwrap()
    }

    /// Two sessions, the older one first: both count by the age of the first.
    fn begin_two(&self) -> [Session<'static>; 2] {
        let older = self.begin();
        let younger = self.table.begin_shared_again(older.txn().age() + 1);
        [older, younger.unwrap()]
    }

    fn row(&self, number: u64) -> Row {
        let file = self.rows;
        Row { file, number }
    }

    /// An interval of an index, by its place.
    fn interval(&self, index: Node, place: usize) -> Node {
        let Some(group) = self.table.group() else {
            return self.table.with(|m| m.interval(index, place)).unwrap();
        };
        let part = burlapslate::Group::table_of(index);
        let name = group.name_in(index, part).unwrap();
        let asked = group.with_table(part, |m| m.interval(name, place).unwrap());
        group.name_of(asked.unwrap(), part).unwrap()
    }

    fn await_wait(&self, txn: Txn) {
        await_that(|| self.table.waited(txn).is_ok());
    }

    /// Has a session request something in a thread of its own, and come to sleep; then this is done, and this is how
    /// the request ends.
    fn woken_by<T: Send>(
        &self,
        mut session: Session<'_>,
        request: impl FnOnce(&mut Session<'_>) -> T + Send,
        act: impl FnOnce(Txn),
    ) -> T {
        thread::scope(|scope| {
            let txn = session.txn();
            let requester = scope.spawn(move || request(&mut session));
            self.await_wait(txn);
            act(txn);
            requester.join().unwrap()
        })
    }

    /// How many transactions live, in all parts.
    fn living(&self) -> usize {
        match self.table.group() {
            None => self.table.with(|m| m.transactions().count()),
            Some(group) => {
                let count = |part| group.with_table(part, |m| m.transactions().count());
                (0..=group.parts()).map(|part| count(part).unwrap()).sum()
            }
        }
    }
}

impl Drop for Store {
    /// Nobody has left anything.
    fn drop(&mut self) {
        if !thread::panicking() {
            assert_eq!(self.living(), 0);
        }
    }
}

/// The same story of a table of one part, and of one of several.
fn each(story: impl Fn(&Store)) {
    for parts in [1, 4] {
        story(&Store::of(parts));
    }
}

/// What parts may not offer: it is refused by name then.
#[track_caller]
fn offered<T>(answer: Result<T, Refusal>) -> Option<T> {
    assert!(!matches!(answer, Err(refusal) if refusal != Refusal::InParts));
    answer.ok()
}

fn await_that(is_so: impl Fn() -> bool) {
    let limit = Instant::now() + PATIENCE;
    while !is_so() {
        assert!(Instant::now() < limit, "it does not come");
        thread::sleep(Duration::from_micros(50));
    }
}

fn inserted(session: &mut Session<'_>, file: Node, key: u64) -> Node {
    match session.insert_path(file, &[key], Keep::Nothing).unwrap() {
        Tried::Locked(record) => record,
        Tried::WouldBlock(node) => panic!("{node} would block"),
    }
}

fn is_ready<T>(future: impl Future<Output = T>) -> T {
    match poll(&mut pin!(future), &quiet()) {
        Poll::Ready(end) => end,
        Poll::Pending => panic!("it waits"),
    }
}

fn refused<T>(refusal: Refusal) -> Result<T, Stop> {
    Err(Stop::Refused(refusal))
}

/// A waker that does this when it is woken.
struct Does(Mutex<Option<Box<dyn FnOnce() + Send>>>);

impl Does {
    fn waker(act: impl FnOnce() + Send + 'static) -> Waker {
        Waker::from(Arc::new(Does(Mutex::new(Some(Box::new(act))))))
    }
}

impl Wake for Does {
    fn wake(self: Arc<Does>) {
        let act = self.0.lock().unwrap().take();
        act.into_iter().for_each(|act| act());
    }
}

/// Does this in a waker, as the wait of a task is cancelled.
fn in_a_waker(s: &Store, act: impl FnOnce() + Send + 'static) {
    let (mut holder, mut waiter) = (s.begin(), s.begin());
    let (name, node) = (waiter.txn(), s.files[FILES - 1]);
    holder.lock_path(node, Mode::X).unwrap();
    let done = Arc::new(AtomicBool::new(false));
    let is_done = Arc::clone(&done);
    let waker = Does::waker(move || {
        act();
        is_done.store(true, Ordering::SeqCst);
    });
    let mut lock = pin!(waiter.lock_path_async(node, Mode::S));
    assert_eq!(poll(&mut lock, &waker), Poll::Pending);
    s.table.cancel(name).unwrap();
    assert!(done.load(Ordering::SeqCst));
    assert_eq!(poll(&mut lock, &quiet()), Poll::Ready(Err(Stop::Cancelled)));
}

// ------------------------------------------------------------------------------------------------
// Tables.

#[test]
fn options_say_how_many_parts() {
    let options = Options::new(Detect::AtBlock);
    for wrong in [0, MOST_PARTS + 1, usize::MAX] {
        let refused = Table::with_options(options.parts(wrong)).err();
        assert_eq!(refused, Some(Refusal::BadNumber));
    }
    let watched = Options::new(Detect::ByWatcher).parts(2);
    assert!(Table::with_options(watched).is_ok());
    let manager = Manager::with_options(options.parts(2)).map(drop);
    assert_eq!(manager, Err(Refusal::BadNumber));
    for parts in [1, 2, MOST_PARTS] {
        let table = Table::with_options(options.parts(parts).transactions(3)).unwrap();
        assert_eq!(table.parts(), parts);
        assert_eq!(
            table.group().map(|group| group.parts()),
            Some(parts).filter(|it| *it > 1)
        );
        let sessions = [(); 3].map(|()| table.begin().unwrap());
        assert_eq!(table.begin().err(), Some(Refusal::TooManyTxns));
        drop(sessions);
    }
}

#[test]
fn a_table_with_parts_lends_no_manager() {
    let s = Store::of(4);
    assert_eq!(s.table.try_with(|m| m.len()), Err(Refusal::InParts));
    let panics = catch_unwind(AssertUnwindSafe(|| s.table.with(|m| m.len()))).unwrap_err();
    let text = panics.downcast_ref::<&str>();
    assert_eq!(text, Some(&"a table with parts lends no manager"));
    let shown = format!("{:?}", s.table);
    assert_eq!(shown, "Table { parts: 4, .. }");
    let one = Store::of(1);
    one.table.with(|_| {
        assert_eq!(one.table.try_with(|_| ()), Err(Refusal::InUse));
        assert_eq!(one.table.counters(), Err(Refusal::InUse));
        assert_eq!(format!("{:?}", one.table), "Table { parts: 1, .. }");
    });
}

/// A thread that holds any table is refused by one with parts, also by what could otherwise wait for a latch in the
/// wrong order.
#[test]
fn who_holds_a_table_is_refused() {
    let (s, other) = (Store::of(4), Store::of(1));
    let mut session = s.begin();
    let mut left = Some(s.begin());
    let resting = s.begin().rest(1).unwrap();
    other.table.with(|_| {
        let in_use = Refusal::InUse;
        assert_eq!(s.table.begin().err(), Some(in_use));
        assert_eq!(s.table.add_inner(&[]), Err(in_use));
        assert_eq!(s.table.cancel(session.txn()), Err(in_use));
        assert_eq!(s.table.abort(session.txn()), Err(in_use));
        assert_eq!(s.table.counters(), Err(in_use));
        assert_eq!(s.table.waited(session.txn()), Err(in_use));
        assert_eq!(s.table.watch_over(Duration::ZERO), Err(in_use));
        assert_eq!(session.lock(s.base, Mode::S), refused(in_use));
        assert_eq!(session.held(s.base), Err(in_use));
        assert_eq!(session.mark(), Err(in_use));
        assert_eq!(session.renew(1), Err(in_use));
        let mut answers = Answers::new();
        assert_eq!(
            session.run(&[Do::Mark], &mut answers),
            Err(Halt::from(in_use))
        );
        assert_eq!(s.table.run(&[Do::Mark], &mut answers).err(), Some(in_use));
        assert!(catch_unwind(AssertUnwindSafe(|| s.table.expire())).is_err());
        assert!(catch_unwind(AssertUnwindSafe(|| s.table.waits())).is_err());
        assert!(catch_unwind(AssertUnwindSafe(|| s.table.dump())).is_err());
        assert!(catch_unwind(AssertUnwindSafe(|| s.table.row_node(s.row(1)))).is_err());
        let name = left.take().unwrap().leave();
        assert_eq!(s.table.commit(name), Err(in_use)); // It is still left.
        assert_eq!(s.table.abort(name), Err(in_use));
        left = None;
        drop(resting);
    });
    let lost = s.begin();
    let name = lost.txn();
    let end = catch_unwind(AssertUnwindSafe(|| other.table.with(|_| drop(lost))));
    assert!(end.is_err()); // It could not be aborted, and is lost.
    assert_eq!(s.table.abort(name), Err(Refusal::InParts));
    session.commit().unwrap();
}

// ------------------------------------------------------------------------------------------------
// How sleeps end.

#[test]
fn each_end_of_a_sleep() {
    each(|s| {
        let ends = |act: &dyn Fn(Session<'static>, Txn)| {
            let (mut holder, waiter) = (s.begin(), s.begin());
            let record = s.records[1][0];
            holder.lock_path(record, Mode::X).unwrap();
            let request = move |session: &mut Session<'_>| session.lock_path(record, Mode::S);
            s.woken_by(waiter, request, |txn| act(holder, txn))
        };
        assert_eq!(ends(&|holder, _| holder.commit().unwrap()), Ok(Mode::S));
        assert_eq!(ends(&|holder, _| drop(holder)), Ok(Mode::S));
        let unlocks = |mut holder: Session<'_>, _| holder.unlock(s.records[1][0]).unwrap();
        assert_eq!(ends(&unlocks), Ok(Mode::S));
        let cancels = |_, txn| s.table.cancel(txn).unwrap();
        assert_eq!(ends(&cancels), Err(Stop::Cancelled));
        let deletes = |mut holder: Session<'_>, _| {
            holder.delete(s.records[1][0]).unwrap();
            holder.commit().unwrap();
        };
        assert_eq!(ends(&deletes), Err(Stop::Gone));
        let name = s.begin().txn();
        assert_eq!(s.table.cancel(name), Err(Refusal::NoSuchTxn));
    });
}

#[test]
fn times_and_deadlines() {
    each(|s| {
        let (mut holder, mut late) = (s.begin(), s.begin());
        holder.lock_path(s.files[0], Mode::X).unwrap();
        let end = late.lock_path_timeout(s.files[0], Mode::S, MILLISECOND);
        assert_eq!(end, Err(Stop::TimedOut));
        late.set_deadline(Some(Instant::now() + MILLISECOND));
        let end = late.lock_path(s.records[0][0], Mode::S);
        assert_eq!(end, Err(Stop::TimedOut));
        late.renew(u64::MAX).unwrap_or_default(); // The deadline stays; with one part it may hold too much.
        let end = late.lock_path(s.files[0], Mode::S);
        assert_eq!(end, Err(Stop::TimedOut));
        late.set_deadline(None);
        assert_eq!(late.try_lock(s.files[0], Mode::S), Err(Refusal::WouldBlock));
        assert!(s.table.waits().ended(WaitEnd::TimedOut).count() >= 3);
        assert_eq!(s.table.waits().waiting, 0);
    });
}

#[test]
fn a_deadlock_has_a_victim() {
    each(|s| {
        let [mut older, younger] = s.begin_two();
        let cross = [[s.files[0], s.files[1]], [s.records[2][0], s.records[2][1]]];
        let name = younger.txn();
        let mut younger = Some(younger);
        for [first, second] in cross {
            let mut victim = younger.take().unwrap();
            older.lock_path(first, Mode::X).unwrap();
            victim.lock_path(second, Mode::X).unwrap();
            thread::scope(|scope| {
                let ends = scope.spawn(move || {
                    let end = victim.lock_path(first, Mode::X);
                    assert_eq!(
                        victim.lock_path(first, Mode::S),
                        refused(Refusal::TxnCondemned)
                    );
                    assert_eq!(victim.commit(), Err(Refusal::TxnCondemned)); // So it is aborted.
                    end
                });
                assert_eq!(older.lock_path(second, Mode::X), Ok(Mode::X));
                assert_eq!(ends.join().unwrap(), Err(Stop::Victim));
            });
            younger = Some(s.table.begin_shared_again(name.age()).unwrap());
        }
    });
}

// ------------------------------------------------------------------------------------------------
// Calls of a session.

#[test]
fn nodes_are_locked() {
    each(|s| {
        let mut a = s.begin();
        let [record, other] = s.records[0];
        assert_eq!(a.lock_path(record, Mode::X), Ok(Mode::X));
        assert_eq!(a.held(s.base), Ok(Mode::IX));
        assert_eq!(a.held(s.files[1]), Ok(Mode::NL));
        assert_eq!(a.held(Node::NONE), Err(Refusal::NoSuchNode));
        assert_eq!(a.try_lock(record, Mode::S), Ok(Mode::X));
        let tried = a.try_lock_path(other, Mode::S, Keep::Nothing);
        assert_eq!(tried, Ok(Tried::Locked(Mode::S)));
        let mut b = s.begin();
        for (keep, held) in [(Keep::Nothing, Mode::NL), (Keep::Way, Mode::IS)] {
            let tried = b.try_lock_path(record, Mode::S, keep);
            assert_eq!(tried, Ok(Tried::WouldBlock(record)));
            assert_eq!(b.held(s.files[0]), Ok(held));
        }
        b.unlock(s.files[0]).unwrap();
        a.unlock(other).unwrap();
        assert_eq!(a.unlock(other), Err(Refusal::NotHeld));
        assert_eq!(a.lock_path(other, Mode::IX), refused(Refusal::BadMode));
        let escalated = a.escalate(s.files[0]).unwrap();
        assert_eq!((escalated.mode, a.held(s.files[0])), (Mode::X, Ok(Mode::X)));
        assert_eq!(b.lock_path(s.files[1], Mode::S), Ok(Mode::S));
        assert_eq!(a.lock_path(s.base, Mode::S), Ok(Mode::SIX));
        assert_eq!(b.lock_path(s.base, Mode::IS), Ok(Mode::IS));
        a.commit().unwrap();
        b.commit().unwrap();
    });
}

#[test]
fn locks_for_an_instant() {
    each(|s| {
        let record = s.records[3][1];
        let mut a = s.begin();
        assert_eq!(a.lock_path_instant(record, Mode::X), Ok(Mode::X));
        assert_eq!(a.held(record), Ok(Mode::NL));
        assert_eq!(a.held(s.files[3]), Ok(Mode::IX));
        assert_eq!(a.lock_instant(record, Mode::S), Ok(Mode::S));
        a.lock_path(record, Mode::X).unwrap();
        let request = move |session: &mut Session<'_>| {
            let end = session.lock_path_instant(record, Mode::X);
            (end, session.held(record))
        };
        let end = s.woken_by(s.begin(), request, |_| a.commit().unwrap());
        assert_eq!(end, (Ok(Mode::X), Ok(Mode::NL)));
    });
}

#[test]
fn rows_are_locked() {
    each(|s| {
        let (mut a, mut b) = (s.begin(), s.begin());
        let row = s.row(7);
        assert_eq!(s.table.row_node(row), None);
        assert_eq!(a.lock_row_path(row, &[50], Mode::X), OWN);
        let node = s.table.row_node(row).unwrap();
        assert_eq!(a.held(node), Ok(Mode::X));
        assert_eq!(a.lock_row(s.row(8), &[50], Mode::X), OWN);
        let tried = b.try_lock_row_path(row, &[50], Mode::S, Keep::Way);
        assert_eq!(tried, Ok(Tried::WouldBlock(node)));
        let tried = b.try_lock_row(s.row(9), &[50], Mode::S);
        assert_eq!(tried, Ok(Tried::Locked(RowLocked::Own(Mode::S))));
        let end = b.lock_row_path_timeout(row, &[50], Mode::S, MILLISECOND);
        assert_eq!(end, Err(Stop::TimedOut));
        assert_eq!(a.lock_row_path(s.row(1), &[150], Mode::X), OWN);
        a.rekey_row(row, s.days, 150).unwrap();
        let request = move |session: &mut Session<'_>| session.lock_row_path(row, &[50], Mode::S);
        let end = s.woken_by(b, request, |_| a.commit().unwrap());
        assert_eq!(end, Ok(RowLocked::OtherKeys(Mode::S)));
        let mut c = s.begin();
        assert_eq!(c.lock_row_path(row, &[150], Mode::X), OWN);
        c.unlock_row(row).unwrap();
        assert_eq!(s.table.row_node(row), None);
        let wrong = Row {
            file: s.files[0],
            number: 7,
        };
        assert_eq!(
            c.lock_row_path(wrong, &[50], Mode::X),
            refused(Refusal::NotRows)
        );
        assert_eq!(s.table.row_node(wrong), None);
        assert_eq!(
            s.table.row_node(Row {
                file: Node::NONE,
                ..wrong
            }),
            None
        );
        assert_eq!(
            s.table.row_node(Row {
                file: s.base,
                ..wrong
            }),
            None
        );
    });
}

#[test]
fn the_first_try_that_is_done() {
    each(|s| {
        let row = |number| Try::RowPath {
            row: s.row(number),
            keys: &[50],
            mode: Mode::X,
            keep: Keep::Nothing,
        };
        let path = |node| Try::Path {
            node,
            mode: Mode::X,
            keep: Keep::Nothing,
        };
        let tries = [row(1), path(s.records[0][0]), row(2), path(Node::NONE)];
        let mut sessions = [(); 3].map(|()| s.begin());
        for (place, session) in sessions.iter_mut().enumerate() {
            let locked = RowLocked::Own(Mode::X);
            assert_eq!(session.try_first(&tries), Ok(Some(Taken { place, locked })));
        }
        assert_eq!(s.begin().try_first(&tries), Ok(None));
    });
}

#[test]
fn savepoints() {
    each(|s| {
        let mut a = s.begin();
        let none = a.mark().unwrap();
        a.lock_path(s.records[0][0], Mode::X).unwrap();
        let first = a.mark().unwrap();
        assert_eq!(a.mark(), Ok(first));
        a.lock_path(s.records[1][0], Mode::S).unwrap();
        a.lock_path(s.records[0][1], Mode::S).unwrap();
        let second = a.mark().unwrap();
        assert_eq!(a.release_since(second), Ok(0));
        let request = |session: &mut Session<'_>| session.lock_path(s.records[1][0], Mode::X);
        let end = s.woken_by(s.begin(), request, |_| {
            assert!(a.release_since(first).unwrap() >= 2);
        });
        assert_eq!(end, Ok(Mode::X));
        assert_eq!(a.held(s.records[0][0]), Ok(Mode::X));
        assert_eq!(a.held(s.records[0][1]), Ok(Mode::NL));
        assert!(s.begin().release_since(first).is_ok()); // Of another transaction: it has nothing to release.
        assert!(a.release_since(none).unwrap() > 0);
        assert_eq!(a.held(s.records[0][0]), Ok(Mode::NL));
    });
}

#[test]
fn records_and_the_schema_change() {
    each(|s| {
        let mut a = s.begin();
        a.lock_path(s.files[2], Mode::IX).unwrap();
        let record = inserted(&mut a, s.files[2], 70);
        let above = s.interval(s.indexes[2], 1);
        a.lock_path(above, Mode::IX).unwrap();
        a.rekey(record, s.indexes[2], 170).unwrap();
        a.delete(record).unwrap();
        assert_eq!(a.lock_path(record, Mode::S), refused(Refusal::NoSuchNode));
        let adopted = s.table.adopt(s.files[3], &[7]).unwrap();
        assert_ne!(adopted, record);
        s.table.forget(adopted).unwrap();
        a.lock_path(above, Mode::X).unwrap();
        let new = a.split(above, 150).unwrap();
        assert_eq!(a.held(new), Ok(Mode::X));
        a.merge(above).unwrap();
        a.commit().unwrap();
        let mut b = s.begin();
        for node in [s.files[3], s.indexes[3]] {
            b.lock_path(node, Mode::X).unwrap();
        }
        let index = b.index_records(&[s.base], s.files[3], &[10], &s.records[3], &[1, 20]);
        assert_eq!(b.held(index.unwrap()), Ok(Mode::X));
        for node in [s.rows, s.days] {
            b.lock_path(node, Mode::X).unwrap();
        }
        let index = b.index_by(&[s.base], s.rows, &[1, 2]).unwrap();
        b.drop_node(s.days).unwrap();
        b.commit().unwrap();
        let mut c = s.begin();
        assert_eq!(c.lock_path(s.days, Mode::S), refused(Refusal::NoSuchNode));
        assert_eq!(c.lock_row_path(s.row(1), &[1], Mode::X), OWN);
        assert_eq!(c.held(index), Ok(Mode::IX));
    });
}

/// A node above may be in the way of an insert and of a new index, which do not sleep.
#[test]
fn what_would_wait_for_a_node_above_is_refused_with_parts() {
    let s = Store::of(4);
    let area = s.table.add_inner(&[]).unwrap();
    let (mut reader, mut writer) = (s.begin(), s.begin());
    reader.lock_path(area, Mode::S).unwrap();
    writer.lock_path(s.rows, Mode::X).unwrap();
    let index = writer.index_by(&[area], s.rows, &[1]);
    assert_eq!(index, Err(Refusal::WouldBlock));
    let file = s.table.add_file(&[area]).unwrap();
    assert_eq!(writer.insert(file, &[]), Err(Refusal::WouldBlock));
    reader.commit().unwrap();
    assert!(writer.insert(file, &[]).is_ok());
}

#[test]
fn sessions_are_renewed() {
    each(|s| {
        let mut a = s.begin();
        a.lock_path(s.files[0], Mode::IX).unwrap();
        let before = a.txn();
        a.renew(before.age()).unwrap();
        assert_eq!(a.txn().slot(), before.slot());
        assert_ne!(a.txn(), before);
        assert_eq!(
            a.held(s.base),
            Ok(if s.has_parts() { Mode::NL } else { Mode::IX })
        );
        assert_eq!(s.table.commit(before), Err(Refusal::NoSuchTxn));
        a.commit().unwrap();
    });
}

#[test]
fn intentions_rest() {
    each(|s| {
        let mut session = s.begin();
        for _ in 0..3 {
            session.lock_path(s.records[0][0], Mode::X).unwrap();
            session = session.rest(16).unwrap().begin().unwrap();
        }
        session.lock_path(s.records[0][1], Mode::S).unwrap(); // With parts it takes up what rests there.
        assert_eq!(session.held(s.files[0]), Ok(Mode::IX));
        let mut answers = Answers::new();
        let list = [Do::LockPath(s.records[0][0].into(), Mode::X)];
        let mut resting = session.rest(16).unwrap();
        for _ in 0..2 {
            resting.run(&list, &mut answers).unwrap().unwrap();
            assert_eq!(*answers, [Done::Locked(Mode::X)]);
        }
        let mut other = s.begin(); // What rests is in nobody's way.
        assert_eq!(other.lock_path(s.base, Mode::X), Ok(Mode::X));
        let Err(Unfinished { session, halt }) = resting.run(&list, &mut answers).unwrap() else {
            panic!("it does not wait");
        };
        assert!(matches!(halt, Halt::Waiting(_)));
        drop(session);
        other.commit().unwrap();
        drop(resting);
        if let Some(group) = s.table.group() {
            group.keep(0).unwrap();
        }
    });
}

#[test]
fn what_rests_is_released() {
    each(|s| {
        let mut session = s.begin().rest(16).unwrap().begin().unwrap();
        session.lock_path(s.records[0][0], Mode::X).unwrap();
        let resting = session.rest(16).unwrap();
        assert_eq!(s.living(), 1);
        drop(resting);
        assert_eq!(s.living(), 0);
    });
}

// ------------------------------------------------------------------------------------------------
// Lists.

#[test]
fn lists_are_made() {
    each(|s| {
        let mut answers = Answers::new();
        let list = [
            Do::LockPath(s.files[0].into(), Mode::IX),
            Do::Mark,
            Do::InsertPath(s.files[0].into(), &[7], Keep::Nothing),
            Do::LockRowPath(s.row(3).into(), &[50], Mode::X),
        ];
        s.table.run(&list, &mut answers).unwrap().unwrap();
        assert_eq!(answers.len(), 4);
        let record = answers[2].node().unwrap();
        s.table.forget(record).unwrap();
        s.begin().run_and_commit(&list[..1], &mut answers).unwrap();
        let resting = s.begin().run_and_rest(0, &list[..1], &mut answers).unwrap();
        drop(resting);
        s.table
            .run_shared(&list[..1], &mut answers)
            .unwrap()
            .unwrap();
        let wrong = [Do::Unlock(s.base.into())];
        let Err(Unfinished { halt, .. }) = s.table.run(&wrong, &mut answers).unwrap() else {
            panic!("it is not held");
        };
        assert!(matches!(halt, Halt::Stopped(Stop::Refused(_))));
    });
}

/// A lock of a list waits; its thread awaits it, and the list goes on after it.
#[test]
fn a_list_goes_on_after_a_wait() {
    each(|s| {
        let record = s.records[2][1];
        let list = [
            Do::LockPath(s.records[1][0].into(), Mode::S),
            Do::LockPathInstant(record.into(), Mode::X),
            Do::LockRowPath(s.row(3).into(), &[50], Mode::X),
            Do::LockPath(s.files[3].into(), Mode::S),
        ];
        let (mut holder, mut rows, mut session) = (s.begin(), s.begin(), s.begin());
        let name = session.txn();
        holder.lock_path(record, Mode::S).unwrap();
        assert_eq!(rows.lock_row_path(s.row(3), &[50], Mode::X), OWN);
        let mut answers = Answers::new();
        let halt = session.run(&list, &mut answers).unwrap_err();
        assert!(matches!(halt, Halt::Waiting(wait) if wait.node == record));
        assert_eq!(answers.len(), 1);
        assert_eq!(session.resume(&list, &mut answers), Err(halt)); // It waits on.
        let waiting = refused(Refusal::TxnWaiting);
        assert_eq!(session.lock_path(s.base, Mode::IS), waiting);
        thread::scope(|scope| {
            let ends = scope.spawn(move || {
                let end = session.resume_to_end(&list, &mut answers);
                assert_eq!(session.held(record), Ok(Mode::NL));
                (end, answers.len())
            });
            s.await_wait(name);
            holder.commit().unwrap();
            await_that(|| {
                s.table
                    .waited(name)
                    .is_ok_and(|(wait, _)| wait.node != record)
            });
            rows.commit().unwrap();
            assert_eq!(ends.join().unwrap(), (Ok(()), 4));
        });
    });
}

#[test]
fn a_wait_of_a_list_ends_otherwise() {
    each(|s| {
        let (mut holder, mut session) = (s.begin(), s.begin());
        let record = s.records[1][1];
        holder.lock_path(record, Mode::X).unwrap();
        let list = [Do::LockPath(record.into(), Mode::S)];
        let mut answers = Answers::new();
        assert_eq!(
            session.await_lock(&mut answers),
            refused(Refusal::NotWaiting)
        );
        session.set_deadline(Some(Instant::now() + MILLISECOND));
        let end = session.run_to_end(&list, &mut answers);
        assert_eq!(end, Err(Halt::Stopped(Stop::TimedOut)));
        session.set_deadline(None);
        let halt = session.run(&list, &mut answers).unwrap_err();
        assert!(matches!(halt, Halt::Waiting(_)));
        s.table.cancel(session.txn()).unwrap();
        let end = session.await_lock(&mut answers);
        assert!(matches!(
            end,
            Err(Stop::Cancelled | Stop::Refused(Refusal::NotWaiting))
        ));
        let halt = session.run(&list, &mut answers);
        assert!(halt.is_err()); // It waits, and is aborted so.
    });
}

#[test]
fn a_task_awaits_a_list() {
    each(|s| {
        let (mut holder, mut session) = (s.begin(), s.begin());
        let record = s.records[1][1];
        holder.lock_path(record, Mode::X).unwrap();
        let list = [Do::LockPath(record.into(), Mode::S)];
        let mut answers = Answers::new();
        {
            let mut run = pin!(session.run_to_end_async(&list, &mut answers));
            assert_eq!(poll(&mut run, &quiet()), Poll::Pending);
            holder.commit().unwrap();
            assert_eq!(poll(&mut run, &quiet()), Poll::Ready(Ok(())));
        }
        assert_eq!(*answers, [Done::Locked(Mode::S)]);
        session.commit().unwrap();
    });
}

// ------------------------------------------------------------------------------------------------
// Tasks.

#[test]
fn tasks_are_woken() {
    each(|s| {
        let record = s.records[0][0];
        let (mut holder, mut a, mut b) = (s.begin(), s.begin(), s.begin());
        holder.lock_path(record, Mode::X).unwrap();
        assert_eq!(holder.lock_row_path(s.row(1), &[50], Mode::X), OWN);
        assert_eq!(
            is_ready(a.lock_path_async(s.files[1], Mode::IX)),
            Ok(Mode::IX)
        );
        let (bell, waker) = tasks::Bell::that(|| ());
        {
            let mut lock = pin!(a.lock_path_async(record, Mode::S));
            let mut row = pin!(b.lock_row_path_async(s.row(1), &[50], Mode::S));
            assert_eq!(poll(&mut lock, &waker), Poll::Pending);
            assert_eq!(poll(&mut row, &waker), Poll::Pending);
            holder.commit().unwrap();
            assert_eq!(bell.rung(), 2);
            assert_eq!(poll(&mut lock, &waker), Poll::Ready(Ok(Mode::S)));
            let own = Ok(RowLocked::Own(Mode::S));
            assert_eq!(poll(&mut row, &waker), Poll::Ready(own));
        }
        assert_eq!(is_ready(a.lock_async(record, Mode::S)), Ok(Mode::S));
        assert_eq!(is_ready(a.lock_instant_async(record, Mode::S)), Ok(Mode::S));
        a.commit().unwrap();
    });
}

#[test]
fn a_future_is_dropped_or_leaked() {
    each(|s| {
        let record = s.records[0][0];
        let (mut holder, mut a, mut b) = (s.begin(), s.begin(), s.begin());
        holder.lock_path(record, Mode::X).unwrap();
        {
            let mut lock = pin!(a.lock_path_async(record, Mode::S));
            assert_eq!(poll(&mut lock, &quiet()), Poll::Pending);
        }
        assert_eq!(a.lock_path(s.files[1], Mode::S), Ok(Mode::S)); // It is usable at once.
        let mut leaked = Box::pin(a.lock_path_async(record, Mode::S));
        assert_eq!(poll(&mut leaked.as_mut(), &quiet()), Poll::Pending);
        forget(leaked);
        let waiting = Refusal::TxnWaiting;
        assert_eq!(
            is_ready(a.lock_path_async(record, Mode::S)),
            refused(waiting)
        );
        assert_eq!(a.lock_path(s.files[1], Mode::S), refused(waiting));
        assert_eq!(
            a.mark(),
            if s.has_parts() {
                Err(waiting)
            } else {
                a.mark()
            }
        );
        assert_eq!(a.commit(), Err(waiting)); // So it is aborted, which cancels its wait.
        let mut leaked = Box::pin(b.lock_path_async(record, Mode::S));
        assert_eq!(poll(&mut leaked.as_mut(), &quiet()), Poll::Pending);
        forget(leaked);
        let name = b.leave();
        assert_eq!(s.table.commit(name), Err(waiting));
        s.table.abort(name).unwrap();
        assert_eq!(s.table.abort(name), Err(Refusal::NoSuchTxn));
    });
}

#[test]
fn deadlines_of_tasks() {
    each(|s| {
        let record = s.records[0][0];
        let (mut holder, mut a, mut b) = (s.begin(), s.begin(), s.begin());
        holder.lock_path(record, Mode::X).unwrap();
        assert_eq!(s.table.expire(), None);
        for session in [&mut a, &mut b] {
            session.set_deadline(Some(Instant::now() + 2 * MILLISECOND));
        }
        let (bell, waker) = tasks::Bell::that(|| ());
        let mut first = pin!(a.lock_path_async(record, Mode::S));
        assert_eq!(poll(&mut first, &waker), Poll::Pending);
        assert!(s.table.expire().is_some());
        thread::sleep(3 * MILLISECOND);
        assert_eq!(s.table.expire(), None);
        assert_eq!(bell.rung(), 1);
        assert_eq!(poll(&mut first, &waker), Poll::Ready(Err(Stop::TimedOut)));
        let mut second = pin!(b.lock_path_async(record, Mode::S));
        let end = poll(&mut second, &waker); // The poll notices that its time is over.
        assert_eq!(end, Poll::Ready(Err(Stop::TimedOut)));
    });
}

/// Nobody sleeps: an expiry ends the deadlock, or the thread that watches.
#[test]
fn a_deadlock_of_tasks() {
    let s = Store::of(4);
    for is_watched in [false, true] {
        let [mut older, mut younger] = s.begin_two();
        older.lock_path(s.files[0], Mode::X).unwrap();
        younger.lock_path(s.files[1], Mode::X).unwrap();
        let (bell, waker) = tasks::Bell::that(|| ());
        thread::scope(|scope| {
            let mut first = pin!(older.lock_path_async(s.files[1], Mode::X));
            assert_eq!(poll(&mut first, &quiet()), Poll::Pending);
            {
                let mut second = pin!(younger.lock_path_async(s.files[0], Mode::X));
                assert_eq!(poll(&mut second, &waker), Poll::Pending);
                if is_watched {
                    for _ in 0..2 {
                        scope.spawn(|| s.table.watch_over(MILLISECOND).unwrap());
                    }
                }
                await_that(|| {
                    if !is_watched {
                        s.table.expire();
                    }
                    bell.rung() == 1
                });
                assert_eq!(poll(&mut second, &waker), Poll::Ready(Err(Stop::Victim)));
            }
            drop(younger);
            assert_eq!(poll(&mut first, &quiet()), Poll::Ready(Ok(Mode::X)));
            if is_watched {
                s.table.end_watch();
            }
        });
    }
    assert_eq!(s.table.watch_over(MILLISECOND), Ok(())); // Its watch has ended for good.
}

// ------------------------------------------------------------------------------------------------
// Begins.

#[test]
fn begins_wait_for_a_slot() {
    for parts in [1, 4] {
        let s = &Store::with(parts, 1);
        let mut only = s.table.begin().unwrap();
        assert_eq!(s.table.begin().err(), Some(Refusal::TooManyTxns));
        let late = s.table.begin_timeout(MILLISECOND).map(drop);
        assert_eq!(late, Err(Stop::TimedOut));
        assert!(poll(&mut pin!(s.table.begin_async()), &quiet()).is_pending()); // It is taken back.
        let (bell, waker) = tasks::Bell::that(|| ());
        {
            let mut begin = pin!(s.table.begin_async());
            assert!(poll(&mut begin, &waker).is_pending());
            only.commit().unwrap();
            assert_eq!(bell.rung(), 1);
            let Poll::Ready(begun) = poll(&mut begin, &waker) else {
                panic!("it is its turn");
            };
            only = begun.unwrap();
        }
        thread::scope(|scope| {
            let begins = [(); 3].map(|()| {
                scope.spawn(|| {
                    let mut session = s.table.begin_in_turn().unwrap();
                    session.lock_path(s.records[0][0], Mode::X).unwrap();
                    session.commit().unwrap();
                })
            });
            only.commit().unwrap();
            begins.into_iter().for_each(|begin| begin.join().unwrap());
        });
        s.table.begin_again_in_turn(7).unwrap().commit().unwrap();
        is_ready(s.table.begin_shared_async())
            .unwrap()
            .commit()
            .unwrap();
    }
}

/// Threads and tasks wait for slots, some in vain: in the end each slot is free.
#[test]
fn no_slot_is_lost() {
    const SLOTS: usize = 3;
    for parts in [1, 4] {
        let s = &Store::with(parts, SLOTS);
        let works = |place: usize| {
            for round in 0..40 {
                let mut session = match (place + round) % 3 {
                    0 => s.table.begin_in_turn().unwrap(),
                    1 => block_on(s.table.begin_async()).unwrap(),
                    _ => {
                        let mut begin = Box::pin(s.table.begin_again_async(round as u64));
                        match poll(&mut begin.as_mut(), &quiet()) {
                            Poll::Ready(begun) => begun.unwrap(),
                            Poll::Pending if round % 2 == 0 => continue,
                            Poll::Pending => block_on(begin).unwrap(),
                        }
                    }
                };
                let record = s.records[(place + round) % FILES][0];
                session.lock_path(record, Mode::X).unwrap();
                session.commit().unwrap();
            }
        };
        thread::scope(|scope| {
            for place in 0..8 {
                scope.spawn(move || works(place));
            }
        });
        let all = [(); SLOTS].map(|()| s.begin());
        assert_eq!(s.table.begin().err(), Some(Refusal::TooManyTxns));
        drop(all);
    }
}

// ------------------------------------------------------------------------------------------------
// Transactions without a session.

#[test]
fn a_transaction_is_left() {
    each(|s| {
        let mut a = s.begin();
        a.lock_path(s.files[0], Mode::X).unwrap();
        let name = a.leave();
        let mut b = s.begin();
        assert_eq!(b.try_lock(s.base, Mode::X), Err(Refusal::WouldBlock));
        thread::scope(|scope| {
            let ends = [(); 4].map(|()| scope.spawn(|| s.table.commit(name)));
            let ends = ends.map(|end| end.join().unwrap());
            assert_eq!(ends.iter().filter(|end| end.is_ok()).count(), 1);
        });
        assert_eq!(s.table.commit(name), Err(Refusal::NoSuchTxn));
        assert_eq!(b.lock_path(s.base, Mode::X), Ok(Mode::X));
        let own = b.txn();
        if s.has_parts() {
            assert_eq!(s.table.abort(own), Err(Refusal::InParts));
            assert_eq!(s.table.commit(own), Err(Refusal::InParts));
            assert_eq!(b.held(s.base), Ok(Mode::X));
        }
        assert_eq!(s.table.abort(Txn::NONE), Err(Refusal::NoSuchTxn));
        let name = b.leave();
        s.table.abort(name).unwrap();
        assert_eq!(s.table.abort(name), Err(Refusal::NoSuchTxn));
    });
}

/// A victim that was left can be aborted, and nothing else.
#[test]
fn a_victim_is_left() {
    each(|s| {
        let [mut older, mut victim] = s.begin_two();
        older.lock_path(s.files[0], Mode::X).unwrap();
        victim.lock_path(s.files[1], Mode::X).unwrap();
        let name = thread::scope(|scope| {
            let ends = scope.spawn(move || {
                assert_eq!(victim.lock_path(s.files[0], Mode::X), Err(Stop::Victim));
                victim.leave()
            });
            let files = s.files;
            let locks = scope.spawn(move || older.lock_path(files[1], Mode::X));
            let name = ends.join().unwrap();
            assert_eq!(s.table.commit(name), Err(Refusal::TxnCondemned));
            s.table.abort(name).unwrap();
            assert_eq!(locks.join().unwrap(), Ok(Mode::X));
            name
        });
        assert_eq!(s.table.commit(name), Err(Refusal::NoSuchTxn));
    });
}

/// A name of another table ends nothing here.
#[test]
fn a_name_of_another_table() {
    let (s, other) = (Store::of(4), Store::of(3));
    let mut own = s.begin();
    own.lock_path(s.base, Mode::X).unwrap();
    let strange = other.begin();
    let name = strange.txn();
    for end in [
        s.table.abort(name),
        s.table.commit(name),
        s.table.cancel(name),
    ] {
        assert!(end.is_err());
    }
    assert_eq!(own.held(s.base), Ok(Mode::X));
    let name = strange.leave();
    assert!(s.table.abort(name).is_err());
    other.table.abort(name).unwrap();
}

// ------------------------------------------------------------------------------------------------
// Wakers.

#[test]
fn a_waker_calls_the_table() {
    each(|s| {
        let (table, base, record) = (Arc::clone(&s.table), s.base, s.records[0][0]);
        let mut session = s.begin();
        in_a_waker(s, move || {
            let in_use = refused(Refusal::InUse);
            assert_eq!(session.lock_path(record, Mode::X), in_use);
            assert_eq!(table.begin_in_turn().err(), Some(Refusal::InUse));
            assert_eq!(
                is_ready(session.lock_path_async(record, Mode::X)),
                Ok(Mode::X)
            );
            assert_eq!(session.held(base), Ok(Mode::IX));
            let mut answers = Answers::new();
            let list = [Do::LockPath(record.into(), Mode::X)];
            assert_eq!(session.run(&list, &mut answers), Ok(()));
            let nothing = session.await_lock(&mut answers);
            assert_eq!(nothing, refused(Refusal::NotWaiting));
            table.run(&[], &mut answers).unwrap().unwrap();
            table.begin().unwrap().commit().unwrap();
            session.commit().unwrap();
        });
    });
}

/// A session is dropped in a waker, while the end of its leaked future is to be told by this thread: it is aborted
/// then.
#[test]
fn a_session_is_dropped_in_a_waker() {
    each(|s| {
        let record = s.records[0][0];
        let (mut holder, mut session) = (s.begin(), s.begin());
        holder.lock_path(record, Mode::X).unwrap();
        let mut leaked = Box::pin(session.lock_path_async(record, Mode::S));
        assert_eq!(poll(&mut leaked.as_mut(), &quiet()), Poll::Pending);
        forget(leaked);
        in_a_waker(s, move || drop(session));
        holder.commit().unwrap();
        assert_eq!(s.begin().lock_path(record, Mode::X), Ok(Mode::X));
    });
}

/// The same while a lock waits that a list has left.
#[test]
fn a_session_whose_list_waits_is_dropped_in_a_waker() {
    each(|s| {
        let record = s.records[0][0];
        let mut holder = s.begin();
        holder.lock_path(record, Mode::X).unwrap();
        let table = Arc::clone(&s.table);
        let before = s.living();
        in_a_waker(s, move || {
            let mut answers = Answers::new();
            let list = [Do::LockPath(record.into(), Mode::S)];
            let mut session = table.begin_shared().unwrap();
            let halt = session.run(&list, &mut answers);
            assert!(matches!(halt, Err(Halt::Waiting(_))));
            let awaited = session.await_lock(&mut answers);
            assert_eq!(awaited, refused(Refusal::InUse));
            drop(session);
            let ran = table.run_shared(&list, &mut answers).unwrap();
            drop(ran.unwrap_err());
        });
        assert_eq!(s.living(), before);
        holder.commit().unwrap();
    });
}

/// A future is dropped in a waker, and its session is used after that.
#[test]
fn a_future_is_dropped_in_a_waker() {
    each(|s| {
        let (record, file) = (s.records[0][0], s.files[1]);
        let (mut holder, mut session) = (s.begin(), s.begin());
        holder.lock_path(record, Mode::X).unwrap();
        let (gives, given) = channel();
        let has_parts = s.has_parts();
        in_a_waker(s, move || {
            {
                let mut lock = pin!(session.lock_path_async(record, Mode::S));
                assert_eq!(poll(&mut lock, &quiet()), Poll::Pending);
            }
            // With parts its end is told only after this.
            let end = is_ready(session.lock_path_async(file, Mode::S));
            let waiting = refused(Refusal::TxnWaiting);
            assert_eq!(end, if has_parts { waiting } else { Ok(Mode::S) });
            gives.send(session).unwrap();
        });
        let mut session = given.recv().unwrap();
        assert_eq!(session.lock_path(file, Mode::S), Ok(Mode::S));
        holder.commit().unwrap();
    });
}

#[test]
fn a_waker_panics_in_a_renewal() {
    each(|s| {
        let record = s.records[0][0];
        let (mut holder, mut waiter) = (s.begin(), s.begin());
        holder.lock_path(record, Mode::X).unwrap();
        let before = holder.txn();
        let waker = Does::waker(|| panic!("as it is wanted"));
        let mut lock = pin!(waiter.lock_path_async(record, Mode::S));
        assert_eq!(poll(&mut lock, &waker), Poll::Pending);
        let renewed = catch_unwind(AssertUnwindSafe(|| holder.renew(u64::MAX)));
        if s.has_parts() {
            assert!(renewed.is_err());
            assert_ne!(holder.txn(), before);
        } else {
            assert_eq!(renewed.unwrap(), Err(Refusal::NeedRelease));
            assert!(catch_unwind(AssertUnwindSafe(|| holder.unlock(record))).is_err());
        }
        drop(holder);
        assert_eq!(poll(&mut lock, &quiet()), Poll::Ready(Ok(Mode::S)));
    });
}

/// The last owner of a table is dropped in a waker of another: a thread ends the table.
#[test]
fn a_table_is_dropped_in_a_waker() {
    let other = Store::of(1);
    for parts in [1, 4] {
        let options = Options::new(Detect::AtBlock).parts(parts);
        let table = Arc::new(Table::with_options(options).unwrap());
        let base = table.add_inner(&[]).unwrap();
        let mut session = table.begin_shared().unwrap();
        session.lock_path(base, Mode::X).unwrap();
        let (dropped, is_dropped) = (Arc::downgrade(&table), Arc::downgrade(&table));
        in_a_waker(&other, move || {
            drop(table);
            drop(session);
            assert!(dropped.upgrade().is_none());
        });
        assert!(is_dropped.upgrade().is_none());
    }
}

// ------------------------------------------------------------------------------------------------
// For operators.

#[test]
fn what_there_is_to_see() {
    each(|s| {
        let (mut holder, waiter) = (s.begin(), s.begin());
        let record = s.records[3][0];
        holder.lock_path(record, Mode::X).unwrap();
        assert_eq!(s.table.waited(holder.txn()), Err(Refusal::NotWaiting));
        let before = s.table.counters().unwrap().waited;
        let request = |session: &mut Session<'_>| session.lock_path(record, Mode::S);
        let end = s.woken_by(waiter, request, |txn| {
            let (wait, _) = s.table.waited(txn).unwrap();
            assert_eq!((wait.node, wait.mode), (record, Mode::S));
            assert_eq!(s.table.waits().waiting, 1);
            let text = s.table.dump();
            assert!(text.contains(" waits"), "{text}");
            assert_eq!(text.contains("Main table:\n"), s.has_parts());
            assert_eq!(text.contains("\nPart 4:\n"), s.has_parts());
            holder.commit().unwrap();
        });
        assert_eq!(end, Ok(Mode::S));
        assert!(s.table.counters().unwrap().waited > before);
        assert_eq!(s.table.waits().ended(WaitEnd::Granted).count(), 1);
    });
}

/// A file moves below another inner node, and a session that waits for it continues below that.
#[test]
fn files_move() {
    each(|s| {
        let area = s.table.add_inner(&[s.base]).unwrap();
        let (mut mover, waiter) = (s.begin(), s.begin());
        let moved = mover.move_node(s.files[0], &[area]);
        assert_eq!(moved, Err(Refusal::NeedExclusive));
        mover.lock_path(s.files[0], Mode::X).unwrap();
        mover.lock_path(area, Mode::IX).unwrap();
        let lock = |session: &mut Session<'_>| {
            session.lock_path(s.records[0][0], Mode::X).unwrap();
            session.held(area).unwrap()
        };
        let held = s.woken_by(waiter, lock, |_| {
            mover.move_node(s.files[0], &[area]).unwrap();
            mover.commit().unwrap();
        });
        assert_eq!(held, Mode::IX);
    });
}

/// A watcher shows who waits, by the table's names, also after the table is gone.
#[test]
fn watchers_look() {
    each(|s| {
        let mut watcher = s.table.watch().unwrap();
        let (mut holder, waiter) = (s.begin(), s.begin());
        let (first, second) = (holder.txn(), waiter.txn());
        holder.lock_path(s.records[0][0], Mode::X).unwrap();
        let lock = |session: &mut Session<'_>| session.lock_path(s.records[0][0], Mode::X);
        let end = s.woken_by(waiter, lock, |_| {
            let board = watcher.board();
            assert!(board.rows()[second.slot()].contains(first.slot()));
            assert_eq!(board.ages()[second.slot()], second.age());
            holder.commit().unwrap();
        });
        assert_eq!(end, Ok(Mode::X));
        assert!(watcher.board().rows().iter().all(|row| row.is_empty()));
    });
    let s = Store::of(4);
    let mut watchers = [(); 2].map(|()| s.table.watch().unwrap());
    drop(s);
    for watcher in &mut watchers {
        assert!(watcher.board().ages().iter().all(|age| *age == 0));
    }
}

/// What only a table of one part has is refused by name.
#[test]
fn what_parts_may_not_offer() {
    each(|s| {
        let _session = s.begin();
        let all = [
            offered(s.table.on_long_wait(MILLISECOND, |_| ())),
            offered(s.table.forget_long_waits()),
        ];
        assert!(s.has_parts() || all.iter().all(Option::is_some));
        let traced = s.table.trace(std::fs::File::open("/dev/null").unwrap());
        assert!(matches!(traced, Err(Refusal::TooLate | Refusal::InParts)));
        let ended = s.table.end_trace();
        assert!(matches!(ended, Err(Refusal::NoTrace | Refusal::InParts)));
    });
}

/// Waits by their nodes, metrics, and deadlocks that are settled.
#[test]
fn what_operators_ask() {
    each(|s| {
        let (mut holder, mut session) = (s.begin(), s.begin());
        holder.lock_path(s.records[1][0], Mode::X).unwrap();
        let end = session.lock_path_timeout(s.records[1][0], Mode::S, MILLISECOND);
        assert_eq!(end, Err(Stop::TimedOut));
        let awaited = s.table.restart_awaited().unwrap();
        assert_eq!(awaited.nodes[0].node, s.records[1][0]);
        assert!(s.table.awaited().unwrap().nodes.is_empty());
        let text = s.table.metrics().unwrap();
        assert!(text.contains("wait_seconds_count{end=\"timed_out\"} 1\n"));
        assert!(s.table.write_metrics(std::io::sink()).is_ok());
        assert_eq!(s.table.settle(session.txn()), Ok(0));
        assert_eq!(s.table.settle(Txn::NONE), Err(Refusal::NoSuchTxn));
    });
}

/// The sessions of a table with parts and of its group are those of one lock manager.
#[test]
fn the_group_of_a_table() {
    let s = Store::of(4);
    let group = s.table.group().unwrap();
    let orders = group.add_spread_file(&[s.base]).unwrap();
    let row = |number| Row {
        file: orders,
        number,
    };
    let (mut session, mut other) = (s.begin(), group.begin().unwrap());
    for number in 0..8 {
        assert_eq!(session.lock_row_path(row(number), &[], Mode::X), OWN);
        let node = s.table.row_node(row(number)).unwrap();
        assert_eq!(session.held(node), Ok(Mode::X));
    }
    assert_eq!(s.table.row_node(row(8)), None);
    let tried = other.try_lock_path(orders, Mode::S, Keep::Nothing);
    assert_eq!(tried, Ok(Tried::WouldBlock(orders)));
    let name = other.txn();
    assert_eq!(s.table.abort(name), Err(Refusal::InParts));
    {
        let mut lock = pin!(other.lock_path_async(orders, Mode::S));
        assert_eq!(poll(&mut lock, &quiet()), Poll::Pending);
        session.commit().unwrap();
        assert_eq!(poll(&mut lock, &quiet()), Poll::Ready(Ok(Mode::S)));
    }
    let request = move |session: &mut Session<'_>| session.lock_row_path(row(1), &[], Mode::X);
    let end = s.woken_by(s.begin(), request, |_| other.commit().unwrap());
    assert_eq!(end, OWN);
    assert_eq!(group.cancel(name), Err(Refusal::NoSuchTxn));
}

// ------------------------------------------------------------------------------------------------
// Threads.

const THREADS: usize = 16;
const ROUNDS: usize = 150;
const CELLS: usize = 2 * FILES + 8;

/// The holders of each record and each of eight rows: how many read it, or -1 if one writes it.
struct Cells([AtomicI32; CELLS]);

impl Cells {
    /// Somebody was granted this; nobody may have what conflicts.
    fn take(&self, cell: usize, mode: Mode) {
        if mode == Mode::X {
            let alone = self.0[cell].compare_exchange(0, -1, Ordering::SeqCst, Ordering::SeqCst);
            assert_eq!(alone, Ok(0), "another has it");
        } else {
            let readers = self.0[cell].fetch_add(1, Ordering::SeqCst);
            assert!(readers >= 0, "another writes it");
        }
    }

    /// Before it is released.
    fn give_back(&self, taken: &mut Vec<(usize, Mode)>) {
        for (cell, mode) in taken.drain(..) {
            let change = if mode == Mode::X { 1 } else { -1 };
            self.0[cell].fetch_add(change, Ordering::SeqCst);
        }
    }
}

/// A transaction that locks some cells, a whole file or all, and looks that nobody has what conflicts.
struct Visitor<'s> {
    s: &'s Store,
    cells: &'s Cells,
    random: u64,
}

impl Visitor<'_> {
    fn draw(&mut self, below: usize) -> usize {
        self.random ^= self.random << 13;
        self.random ^= self.random >> 7;
        self.random ^= self.random << 17;
        (self.random % below as u64) as usize
    }

    fn mode(&mut self) -> Mode {
        [Mode::S, Mode::X][self.draw(2)]
    }

    fn lock_cell(&self, session: &mut Session<'_>, cell: usize, mode: Mode) -> Result<(), Stop> {
        if cell < 2 * FILES {
            let node = self.s.records[cell / 2][cell % 2];
            return session.lock_path(node, mode).map(drop);
        }
        let row = self.s.row(cell as u64);
        match cell % 2 {
            0 => session.lock_row_path(row, &[50], mode).map(drop),
            _ => block_on(session.lock_row_path_async(row, &[50], mode)).map(drop),
        }
    }

    /// The cells that it locks together.
    fn cells(&mut self) -> Vec<usize> {
        match self.draw(16) {
            0 => (0..CELLS).collect(),
            1..=3 => {
                let file = self.draw(FILES);
                vec![2 * file, 2 * file + 1]
            }
            _ => {
                let (first, second) = (self.draw(CELLS), self.draw(CELLS));
                let mut cells = vec![first, second];
                cells.dedup();
                if self.draw(8) > 0 {
                    cells.sort_unstable();
                }
                cells
            }
        }
    }

    fn visit(&mut self, taken: &mut Vec<(usize, Mode)>) -> Result<(), Stop> {
        let mut session = self.s.table.begin()?;
        let cells = self.cells();
        let mode = if cells.len() > 2 {
            Mode::S
        } else {
            self.mode()
        };
        match cells[..] {
            [first, second] if first % 2 == 0 && second == first + 1 && second < 2 * FILES => {
                session.lock_path(self.s.files[first / 2], mode)?;
            }
            [_, _, _, ..] => drop(session.lock_path(self.s.base, mode)?),
            _ => {
                for &cell in &cells[1..] {
                    self.lock_cell(&mut session, cell, mode)?;
                }
                self.lock_cell(&mut session, cells[0], mode)?;
            }
        }
        for cell in cells {
            self.cells.take(cell, mode);
            taken.push((cell, mode));
        }
        thread::yield_now();
        self.cells.give_back(taken);
        session.commit()?;
        Ok(())
    }
}

#[test]
fn threads_never_hold_what_conflicts() {
    let s = &Store::of(4);
    let cells = &Cells(std::array::from_fn(|_| AtomicI32::new(0)));
    thread::scope(|scope| {
        for thread in 0..THREADS as u64 {
            scope.spawn(move || {
                let random = (thread + 1).wrapping_mul(0x9E37_79B9_7F4A_7C15);
                let mut visitor = Visitor { s, cells, random };
                let mut taken = Vec::new();
                for _ in 0..ROUNDS {
                    match visitor.visit(&mut taken) {
                        Ok(()) | Err(Stop::Victim) => {}
                        Err(stop) => panic!("{stop}"),
                    }
                }
            });
        }
    });
    let counters = s.table.counters().unwrap();
    assert!(counters.granted >= (THREADS * ROUNDS) as u64 && counters.waited > 0);
    assert!(cells.0.iter().all(|cell| cell.load(Ordering::SeqCst) == 0));
}

/// By its name alone a transaction has its waits cancelled and is asked about, and is never ended.
#[test]
fn others_have_the_names() {
    let s = &Store::with(4, 5);
    let names = &Mutex::new([Txn::NONE; 4]);
    let is_over = &AtomicBool::new(false);
    let works = |place: usize| {
        for round in 0..100 {
            let mut session = s.table.begin_in_turn().unwrap();
            names.lock().unwrap()[place] = session.txn();
            let end = session.lock_path(s.records[round % FILES][0], Mode::X);
            assert!(matches!(end, Ok(_) | Err(Stop::Cancelled)));
            let end = block_on(session.lock_path_async(s.records[round % FILES][1], Mode::S));
            assert!(matches!(end, Ok(_) | Err(Stop::Cancelled)));
            let commit = session.commit();
            assert_eq!(commit, Ok(()));
        }
    };
    thread::scope(|scope| {
        scope.spawn(|| {
            while !is_over.load(Ordering::SeqCst) {
                for name in *names.lock().unwrap() {
                    let ends = [s.table.abort(name), s.table.commit(name)];
                    assert!(ends.iter().all(Result::is_err));
                    let _ = (s.table.cancel(name), s.table.waited(name));
                }
                s.table.counters().unwrap();
                assert!(s.table.dump().contains("Part 4:"));
                assert!(s.table.waits().waiting <= 4);
            }
        });
        let workers: [_; 4] = std::array::from_fn(|place| scope.spawn(move || works(place)));
        let ends = workers.map(|worker| worker.join());
        is_over.store(true, Ordering::SeqCst);
        assert!(ends.iter().all(Result::is_ok));
    });
}

/// Of all threads that end transactions that were left, one ends each.
#[test]
fn each_left_transaction_is_ended_once() {
    let s = &Store::of(4);
    for round in 0..50 {
        let names: [Txn; 4] = std::array::from_fn(|place| {
            let mut session = s.begin();
            session.lock_path(s.files[place], Mode::X).unwrap();
            session.leave()
        });
        let ended = &AtomicI32::new(0);
        thread::scope(|scope| {
            for thread in 0..3 {
                scope.spawn(move || {
                    for name in names {
                        let end = match (thread + round) % 2 {
                            0 => s.table.abort(name),
                            _ => s.table.commit(name),
                        };
                        ended.fetch_add(i32::from(end.is_ok()), Ordering::SeqCst);
                    }
                });
            }
        });
        assert_eq!(ended.load(Ordering::SeqCst), 4);
    }
}
