//! A call whose own wait ends within it: by a lock for an instant that another transaction gives back, by a path that
//! continues, or by what a waker does. The call answers that end, as `tests/c/own_ends.c` has it: a thread does not
//! sleep, and a task is ready, or is woken before its poll returns.

mod waiters;

use burlapslate::{Detect, Mark, Mode, Node, Refusal, RowLocked, Session, Stop, Txn};
use std::pin::pin;
use std::sync::{Arc, Barrier, Mutex};
use std::task::{Context, Poll, Waker};
use std::thread;
use std::time::{Duration, Instant};
use waiters::tasks::block_on;
use waiters::*;

// ------------------------------------------------------------------------------------------------------------------
// What a waker does.

/// What the waker of the loser's task has, to end the caller's wait.
#[derive(Clone)]
struct Scene {
    store: Store,
    caller: Txn,
    callers_node: Node,
    mark: Mark,
    kept: Arc<Mutex<Vec<Session<'static>>>>,
}

impl Scene {
    /// The session lives on.
    fn keep(&self, session: Session<'static>) {
        self.kept.lock().unwrap().push(session);
    }
}

type Act = fn(Scene, Session<'static>) -> Task;

/// The holder has the record and the row in X, and waits for the loser, which waits for the caller. So a call of the
/// caller for the record, or for the row, closes a cycle, and the loser is its youngest. The loser's waker aborts it;
/// then the holder has what it waited for, and acts.
fn answer(
    (call, is_task): (Call, bool),
    act: Act,
    is_wide: bool,
    until: Option<Instant>,
) -> (Scene, Ask, Ended) {
    let store = Store::new(Detect::AtBlock);
    let (callers_node, losers_node) = (store.add_root(), store.add_root());
    let (mut holder, mut caller, mut loser) =
        (store.writer(true), store.writer(is_wide), store.begin());
    caller.lock(callers_node, Mode::X).unwrap();
    loser.lock(losers_node, Mode::X).unwrap();
    let scene = Scene {
        caller: caller.txn(),
        callers_node,
        mark: holder.mark().unwrap(),
        kept: Arc::default(),
        store: store.clone(),
    };
    holder.lock(store.low, Mode::X).unwrap();
    let locked = holder.lock_row(store.row, &LOW_KEY, Mode::X);
    assert_eq!(locked, Ok(RowLocked::Own(Mode::X)));
    let own = scene.clone();
    let holds = Inline::start(async move {
        assert_eq!(holder.lock_async(losers_node, Mode::X).await, Ok(Mode::X));
        act(own, holder).await;
    });
    let (table, name) = (Arc::clone(&store.table), loser.txn());
    let aborts = Does::waker(move || table.abort(name).unwrap());
    let mut loser = store.waits(loser, callers_node, Mode::X, aborts);
    let ask = Ask {
        call,
        node: store.low,
        mode: Mode::X,
        row: store.row,
        keys: LOW_KEY,
        is_task,
    };
    let end = ask.make(&mut caller, until);
    assert_eq!(loser.ended(), Err(Stop::Victim)); // So its wait ended, before its waker aborted it.
    assert_eq!(store.waits_for(caller.txn()), None);
    caller.leave();
    drop(holds);
    (scene, ask, end)
}

#[test]
fn a_waker_grants_the_caller() {
    let acts: [Act; 4] = [
        |_, holder| Box::pin(async move { holder.commit().unwrap() }),
        |_, holder| Box::pin(async move { drop(holder) }),
        |scene, mut holder| {
            Box::pin(async move {
                holder.unlock(scene.store.low).unwrap();
                holder.unlock_row(scene.store.row).unwrap();
                scene.keep(holder);
            })
        },
        |scene, mut holder| {
            Box::pin(async move {
                assert!(holder.release_since(scene.mark).unwrap() >= 3);
                scene.keep(holder);
            })
        },
    ];
    for act in acts {
        for (place, call) in CALLS.into_iter().enumerate() {
            let until = (place % 2 == 0).then(|| Instant::now() + PATIENCE);
            let (scene, ask, end) = answer(call, act, false, until);
            assert_eq!(end, Ok(RowLocked::Own(Mode::X)), "{ask:?}");
            let node = if ask.call.is_of_row() {
                scene.store.row_node()
            } else {
                ask.node
            };
            let wanted = if ask.is_instant() { Mode::NL } else { Mode::X };
            assert_eq!(scene.store.held(scene.caller, node), wanted, "{ask:?}");
        }
    }
}

/// The waker ends the wait in another way.
fn is_ended(act: Act, stop: Stop, except: fn(Call) -> bool) {
    for call in CALLS.into_iter().filter(|(call, _)| !except(*call)) {
        let (scene, ask, end) = answer(call, act, false, None);
        assert_eq!(end, Err(stop), "{ask:?}");
        let is_gone = stop == Stop::Refused(Refusal::NoSuchTxn);
        assert_eq!(scene.store.lives(scene.caller), !is_gone);
    }
}

#[test]
fn a_waker_ends_the_callers_wait() {
    fn never(_: Call) -> bool {
        false
    }
    let cancels: Act = |scene, holder| {
        Box::pin(async move {
            scene.store.table.cancel(scene.caller).unwrap();
            scene.keep(holder);
        })
    };
    is_ended(cancels, Stop::Cancelled, never);
    let aborts: Act = |scene, holder| {
        Box::pin(async move {
            scene.store.table.abort(scene.caller).unwrap();
            scene.keep(holder);
        })
    };
    is_ended(aborts, Stop::Refused(Refusal::NoSuchTxn), never);
    let condemns: Act = |scene, mut holder| {
        Box::pin(async move {
            let _ = holder.lock_async(scene.callers_node, Mode::S).await; // It closes a cycle with the caller.
        })
    };
    is_ended(condemns, Stop::Victim, never);
    let rekeys: Act = |scene, mut holder| {
        Box::pin(async move {
            let Store {
                low,
                index,
                row,
                row_index,
                ..
            } = scene.store;
            holder.rekey(low, index, HIGH_KEY[0]).unwrap();
            holder.rekey_row(row, row_index, HIGH_KEY[0]).unwrap();
            scene.keep(holder);
        })
    };
    is_ended(rekeys, Stop::Moved, continues);
    let deletes: Act = |scene, mut holder| {
        Box::pin(async move {
            holder.delete(scene.store.low).unwrap();
            scene.keep(holder);
        })
    };
    is_ended(deletes, Stop::Gone, Call::is_of_row);
}

/// Whether the call continues after a move, with what must be held above its node by then.
fn continues(call: Call) -> bool {
    matches!(call, Path | PathInstant | OfRowPath)
}

/// A path begins anew, and a wait that still meets the rule of the graph continues: the row is asked for again then, by
/// keys that are others.
#[test]
fn a_waker_moves_what_the_caller_waits_for() {
    let act: Act = |scene, mut holder| {
        Box::pin(async move {
            let Store {
                low,
                index,
                row,
                row_index,
                ..
            } = scene.store;
            holder.rekey(low, index, HIGH_KEY[0]).unwrap();
            holder.rekey_row(row, row_index, HIGH_KEY[0]).unwrap();
            holder.commit().unwrap();
        })
    };
    for call in CALLS {
        let (scene, ask, end) = answer(call, act, !continues(call.0), None);
        let store = &scene.store;
        let (node, above, wanted) = if ask.call.is_of_row() {
            let other = RowLocked::OtherKeys(Mode::X);
            (store.row_node(), store.rows_above, other)
        } else {
            (store.low, store.above, RowLocked::Own(Mode::X))
        };
        assert_eq!(end, Ok(wanted), "{ask:?}");
        let held = if ask.is_instant() { Mode::NL } else { Mode::X };
        assert_eq!(scene.store.held(scene.caller, node), held, "{ask:?}");
        assert_eq!(scene.store.held(scene.caller, above), Mode::IX);
    }
}

// ------------------------------------------------------------------------------------------------------------------
// A lock for an instant that another transaction gives back.

/// Three that wait, the holder, the loser and the passer: by tasks, or in threads.
struct Queue {
    store: Store,
    n: Node,
    n2: Node,
    child: Node,
    callers_node: Node,
    caller: Session<'static>,
    others: Vec<Waiting>,
}

/// One that waits.
enum Waiting {
    Task(Waiter),
    Thread(Txn, thread::JoinHandle<Result<Mode, Stop>>),
}

impl Waiting {
    fn name(&self) -> Txn {
        match self {
            Waiting::Task(waiter) => waiter.name,
            Waiting::Thread(name, _) => *name,
        }
    }

    fn ended(self) -> Result<Mode, Stop> {
        match self {
            Waiting::Task(mut waiter) => waiter.ended(),
            Waiting::Thread(_, thread) => thread.join().unwrap(),
        }
    }
}

impl Store {
    fn has_wait(
        &self,
        mut session: Session<'static>,
        (node, mode): (Node, Mode),
        is_instant: bool,
        is_task: bool,
    ) -> Waiting {
        let name = session.txn();
        if !is_task {
            session.set_deadline(Instant::now().checked_add(PATIENCE));
            let thread = thread::spawn(move || {
                let end = match is_instant {
                    true => session.lock_instant(node, mode),
                    false => session.lock(node, mode),
                };
                session.leave();
                end
            });
            await_that(|| self.waits_for(name).is_some());
            return Waiting::Thread(name, thread);
        }
        if !is_instant {
            return Waiting::Task(self.waits(session, node, mode, bell()));
        }
        let end = Arc::new(Mutex::new(None));
        let told = Arc::clone(&end);
        let mut task: Task = Box::pin(async move {
            let came = session.lock_instant_async(node, mode).await;
            *told.lock().unwrap() = Some(came);
            session.leave();
        });
        assert!(task
            .as_mut()
            .poll(&mut Context::from_waker(&bell()))
            .is_pending());
        Waiting::Task(Waiter {
            name,
            end,
            task: Some(task),
        })
    }

    /// The holder has n in IS and waits for the caller. In the queue of n the loser wants X, and the passer after it a
    /// mode for an instant, which is compatible with IS. A call of the caller that joins the queue closes a cycle. Its
    /// youngest is the loser; so the passer is granted, and gives back what kept the caller waiting.
    fn queue(&self, passing: Mode, is_task: bool) -> Queue {
        let [callers_node, n, n2] = [(); 3].map(|()| self.add_root());
        let child = self.table.add_inner(&[n, n2]).unwrap();
        let [mut caller, passer, mut holder, loser] = [(); 4].map(|()| self.begin());
        caller.lock(callers_node, Mode::X).unwrap();
        holder.lock(n, Mode::IS).unwrap();
        let others = vec![
            self.has_wait(holder, (callers_node, Mode::X), false, is_task),
            self.has_wait(loser, (n, Mode::X), false, is_task),
            self.has_wait(passer, (n, passing), true, is_task),
        ];
        Queue {
            store: self.clone(),
            n,
            n2,
            child,
            callers_node,
            caller,
            others,
        }
    }
}

impl Queue {
    fn ask(&self, passing: &Passing, is_task: bool) -> Ask {
        Ask {
            call: passing.call,
            node: if passing.is_child { self.child } else { self.n },
            mode: passing.mode,
            row: self.store.row,
            keys: LOW_KEY,
            is_task,
        }
    }

    /// What the caller holds after its call for that.
    fn has_passed(&self, passing: &Passing, ask: Ask) {
        let wanted = if ask.is_instant() { Mode::NL } else { ask.mode };
        let name = self.caller.txn();
        assert_eq!(self.store.held(name, ask.node), wanted, "{ask:?}");
        assert_eq!(self.store.waits_for(name), None);
        if passing.is_child {
            assert_eq!(self.store.held(name, self.n), Mode::IX);
        }
    }

    /// The loser and the passer have had their ends, and the holder waits on.
    fn others_have_ended(self, passing: Mode) {
        let [holder, loser, passer]: [Waiting; 3] = self.others.try_into().ok().unwrap();
        let name = passer.name();
        assert_eq!(loser.ended(), Err(Stop::Victim));
        assert_eq!(passer.ended(), Ok(passing));
        assert_eq!(self.store.held(name, self.n), Mode::NL);
        assert_eq!(self.store.waits_for(holder.name()), Some(self.callers_node));
        self.store.table.abort(holder.name()).unwrap();
        assert_eq!(holder.ended(), Err(Stop::Refused(Refusal::NoSuchTxn)));
    }
}

/// What the caller asks for while the passer is in the queue.
struct Passing {
    passing: Mode,
    call: Call,
    is_child: bool,
    mode: Mode,
}

const fn passing(passing: Mode, call: Call, is_child: bool, mode: Mode) -> Passing {
    Passing {
        passing,
        call,
        is_child,
        mode,
    }
}

const PASSINGS: [Passing; 8] = [
    passing(Mode::IX, Lock, false, Mode::S),
    passing(Mode::IX, ForAnInstant, false, Mode::S),
    passing(Mode::S, Lock, false, Mode::IX),
    passing(Mode::IX, Path, false, Mode::S),
    passing(Mode::IX, PathInstant, false, Mode::S),
    passing(Mode::SIX, Path, true, Mode::X),
    passing(Mode::S, PathInstant, true, Mode::X),
    passing(Mode::S, Path, true, Mode::SIX),
];

/// The call is answered with the grant, whatever its time.
#[test]
fn an_instant_given_back_grants_the_caller() {
    for each in &PASSINGS {
        for kind in 0..8 {
            let (is_task, is_asked_by_task, is_late) =
                (kind & 1 != 0, kind & 2 != 0, kind & 4 != 0);
            if is_none(each.call, is_task) {
                continue;
            }
            let store = Store::new(Detect::AtBlock);
            let mut queue = store.queue(each.passing, is_asked_by_task);
            let ask = queue.ask(each, is_task);
            let until = is_late.then(Instant::now);
            let end = ask.make_alone(&mut queue.caller, until);
            assert_eq!(end, Ok(RowLocked::Own(each.mode)), "{ask:?}");
            queue.has_passed(each, ask);
            queue.others_have_ended(each.passing);
        }
    }
}

/// The next wait of the caller is one like any other.
#[test]
fn a_lock_that_an_instant_granted_is_like_any() {
    for each in &PASSINGS[..2] {
        let store = Store::new(Detect::AtBlock);
        let mut queue = store.queue(Mode::IX, true);
        let ask = queue.ask(each, true);
        assert_eq!(
            ask.make_alone(&mut queue.caller, None),
            Ok(RowLocked::Own(Mode::S))
        );
        let node = store.add_root();
        let mut keeper = store.begin();
        keeper.lock(node, Mode::X).unwrap();
        let name = queue.caller.txn();
        let bell = Arc::new(Bell::default());
        {
            let mut again = pin!(queue.caller.lock_async(node, Mode::S));
            assert!(poll_by(&mut again, Waker::from(Arc::clone(&bell))).is_pending());
            for other in &queue.others[1..] {
                store.table.abort(other.name()).unwrap();
            }
            assert_eq!((bell.rung(), store.waits_for(name)), (0, Some(node)));
            keeper.commit().unwrap();
            assert_eq!(bell.rung(), 1);
            assert_eq!(
                poll_by(&mut again, Waker::from(bell)),
                Poll::Ready(Ok(Mode::S))
            );
        }
        assert_eq!(store.held(name, node), Mode::S);
        let kept = if ask.is_instant() { Mode::NL } else { Mode::S };
        assert_eq!(store.held(name, queue.n), kept);
    }
}

/// A reader holds the child: the path that the passer has let by waits there, and ends there.
#[test]
fn a_path_continues_to_another_wait() {
    for is_cancelled in [false, true] {
        for is_task in [false, true] {
            let store = Store::new(Detect::AtBlock);
            let mut queue = store.queue(Mode::S, true);
            let (child, name) = (queue.child, queue.caller.txn());
            let mut keeper = store.begin();
            keeper.lock(queue.n2, Mode::IS).unwrap();
            keeper.lock(child, Mode::S).unwrap();
            let ends = |keeper: Session<'static>| {
                assert_eq!(store.held(name, queue.n), Mode::IX);
                assert_eq!(store.held(name, queue.n2), Mode::IX);
                match is_cancelled {
                    true => store.table.cancel(name).unwrap(),
                    false => keeper.commit().unwrap(),
                }
            };
            let end = if is_task {
                let bell = Arc::new(Bell::default());
                let mut path = pin!(queue.caller.lock_path_async(child, Mode::X));
                assert!(poll_by(&mut path, Waker::from(Arc::clone(&bell))).is_pending());
                assert_eq!((store.waits_for(name), bell.rung()), (Some(child), 0));
                ends(keeper);
                assert_eq!(bell.rung(), 1);
                poll_by(&mut path, Waker::from(bell))
            } else {
                let caller = &mut queue.caller;
                caller.set_deadline(Instant::now().checked_add(PATIENCE));
                thread::scope(|scope| {
                    let path = scope.spawn(|| caller.lock_path(child, Mode::X));
                    await_that(|| store.waits_for(name) == Some(child));
                    ends(keeper);
                    Poll::Ready(path.join().unwrap())
                })
            };
            let wanted = if is_cancelled {
                Err(Stop::Cancelled)
            } else {
                Ok(Mode::X)
            };
            assert_eq!(end, Poll::Ready(wanted));
        }
    }
}

/// A passer in the queue of each parent of the child: a path to the child is let by twice in its call.
#[test]
fn a_path_is_let_by_twice() {
    for (call, is_task) in [(Path, false), (PathInstant, false), (Path, true)] {
        for is_asked_by_task in [false, true] {
            let store = Store::new(Detect::AtBlock);
            let mut queue = store.queue(Mode::S, is_asked_by_task);
            let [mut holder, passer, loser] = [(); 3].map(|()| store.begin());
            holder.lock(queue.n2, Mode::IS).unwrap();
            let more = [
                store.has_wait(
                    holder,
                    (queue.callers_node, Mode::X),
                    false,
                    is_asked_by_task,
                ),
                store.has_wait(loser, (queue.n2, Mode::X), false, is_asked_by_task),
                store.has_wait(passer, (queue.n2, Mode::S), true, is_asked_by_task),
            ];
            let each = passing(Mode::S, call, true, Mode::X);
            let ask = queue.ask(&each, is_task);
            let end = ask.make_alone(&mut queue.caller, None);
            assert_eq!(end, Ok(RowLocked::Own(Mode::X)), "{ask:?}");
            queue.has_passed(&each, ask);
            assert_eq!(store.held(queue.caller.txn(), queue.n2), Mode::IX);
            let [holder, loser, passer] = more;
            assert_eq!(loser.ended(), Err(Stop::Victim));
            assert_eq!(passer.ended(), Ok(Mode::S));
            store.table.abort(holder.name()).unwrap(); // The caller has still what that waits for.
            assert_eq!(holder.ended(), Err(Stop::Refused(Refusal::NoSuchTxn)));
            queue.others_have_ended(Mode::S);
        }
    }
}

// ------------------------------------------------------------------------------------------------------------------
// A path that continues.

/// A path to the goal waits at its start for the loser, and that for the blocker, which waits for the caller. When the
/// loser is a victim the path continues, and waits for the transaction that reads the goal. So it closes a cycle.
struct Goer {
    store: Store,
    n: Node,
    child: Node,
    goal: Node,
    goer: Txn,
    caller: Session<'static>,
    loser: Waiter,
    second: Option<Waiter>,
    /// These wait on.
    _others: Vec<Waiter>,
    _path: Arc<Inline>,
}

/// The second waits for n, or for the row, for its reader, which waits for the path's transaction: when the second is a
/// victim the caller is granted. Or else the keeper has n and the row in X, and waits for the path's transaction: then
/// the caller is the youngest on the cycle.
fn goer(call: Call, has_second: bool) -> Goer {
    let store = Store::new(Detect::AtBlock);
    let [callers_node, n, start, side, goers_node] = [(); 5].map(|()| store.add_root());
    let child = store.table.add_inner(&[n]).unwrap();
    let goal = store.table.add_inner(&[start, side]).unwrap();
    let [mut goer, mut blocker] = [(); 2].map(|()| store.begin());
    let mut keeper = store.writer(true);
    let (mut caller, mut second, loser) = (store.writer(true), store.writer(true), store.begin());
    caller.lock(callers_node, Mode::X).unwrap();
    blocker.lock(start, Mode::IS).unwrap();
    let at_goal = if has_second { &mut second } else { &mut caller };
    at_goal.lock(side, Mode::IS).unwrap();
    at_goal.lock(goal, Mode::S).unwrap();
    goer.lock(goers_node, Mode::X).unwrap();
    let (of_node, of_row) = if has_second {
        (Mode::IS, Mode::S)
    } else {
        (Mode::X, Mode::X)
    };
    keeper.lock(n, of_node).unwrap();
    assert_eq!(
        keeper.lock_row(store.row, &LOW_KEY, of_row),
        Ok(RowLocked::Own(of_row))
    );
    let mut others = vec![store.waits(blocker, callers_node, Mode::X, bell())];
    let loser = store.waits(loser, start, Mode::X, bell());
    let name = goer.txn();
    let path = Inline::start(async move {
        let _ = goer.lock_path_async(goal, Mode::X).await;
    });
    assert_eq!(store.waits_for(name), Some(start));
    others.push(store.waits(keeper, goers_node, Mode::X, bell()));
    let target = if call.is_of_row() {
        store.row_node()
    } else {
        n
    };
    let second = has_second.then(|| store.waits(second, target, Mode::X, bell()));
    Goer {
        store,
        n,
        child,
        goal,
        goer: name,
        caller,
        loser,
        second,
        _others: others,
        _path: path,
    }
}

impl Goer {
    fn ask(
        &self,
        (call, is_child, mode): (Call, bool, Mode),
        is_task: bool,
        keys: [u64; 1],
    ) -> Ask {
        Ask {
            call,
            node: if is_child { self.child } else { self.n },
            mode,
            row: self.store.row,
            keys,
            is_task,
        }
    }

    /// The path waits for its goal now; the loser has its end, and so has the second.
    fn has_continued(&mut self) {
        assert_eq!(self.store.waits_for(self.goer), Some(self.goal));
        assert_eq!(self.loser.ended(), Err(Stop::Victim));
        if let Some(second) = &mut self.second {
            assert_eq!(second.ended(), Err(Stop::Victim));
        }
        assert_eq!(self.store.waits_for(self.caller.txn()), None);
    }
}

const TARGETS: [(Call, bool, Mode); 10] = [
    (Lock, false, Mode::S),
    (ForAnInstant, false, Mode::S),
    (ForAnInstant, false, Mode::IX),
    (Path, false, Mode::S),
    (PathInstant, false, Mode::S),
    (Path, true, Mode::X),
    (PathInstant, true, Mode::X),
    (Path, true, Mode::S),
    (OfRow, false, Mode::S),
    (OfRowPath, false, Mode::S),
];

#[test]
fn a_path_that_continues_grants_the_caller() {
    for target in TARGETS {
        for is_task in [false, true] {
            if is_none(target.0, is_task) {
                continue;
            }
            let mut scene = goer(target.0, true);
            let ask = scene.ask(target, is_task, LOW_KEY);
            let end = ask.make(&mut scene.caller, None);
            assert_eq!(end, Ok(RowLocked::Own(ask.mode)), "{ask:?}");
            scene.has_continued();
            let node = if ask.call.is_of_row() {
                scene.store.row_node()
            } else {
                ask.node
            };
            let wanted = if ask.is_instant() { Mode::NL } else { ask.mode };
            assert_eq!(
                scene.store.held(scene.caller.txn(), node),
                wanted,
                "{ask:?}"
            );
        }
    }
}

#[test]
fn a_path_that_continues_makes_the_caller_a_victim() {
    for target in TARGETS {
        for is_task in [false, true] {
            if is_none(target.0, is_task) {
                continue;
            }
            let mut scene = goer(target.0, false);
            let ask = scene.ask(target, is_task, LOW_KEY);
            assert_eq!(
                ask.make(&mut scene.caller, None),
                Err(Stop::Victim),
                "{ask:?}"
            );
            scene.has_continued();
            let again = scene.caller.lock(scene.n, Mode::S);
            assert_eq!(again, Err(Stop::Refused(Refusal::TxnCondemned)));
        }
    }
}

/// A row that is granted so is asked for again there, and its keys may be others than was said.
#[test]
fn a_row_is_asked_for_again_in_its_call() {
    for (call, is_task) in CALLS.into_iter().filter(|(call, _)| call.is_of_row()) {
        let mut scene = goer(call, true);
        let ask = scene.ask((call, false, Mode::S), is_task, HIGH_KEY);
        let end = ask.make(&mut scene.caller, None);
        assert_eq!(end, Ok(RowLocked::OtherKeys(Mode::S)), "{ask:?}");
        scene.has_continued();
        let held = scene.store.held(scene.caller.txn(), scene.store.row_node());
        assert_eq!(held, Mode::S);
    }
}

/// A path continues in another's commit, and ends there. It is a victim itself; or the transaction is whose lock it
/// waits for, and whose waker gives up its locks.
#[test]
fn a_path_ends_in_the_call_that_lets_it_continue() {
    for is_younger in [false, true] {
        let store = Store::new(Detect::AtBlock);
        let node = store.add_root();
        let (mut holder, first, last) = (store.begin(), store.begin(), store.begin());
        let (mut one, mut other) = if is_younger {
            (last, first)
        } else {
            (first, last)
        };
        holder.lock_path(store.below, Mode::S).unwrap();
        one.lock(node, Mode::X).unwrap();
        other.lock_path(store.low, Mode::S).unwrap();
        let (name, end) = (one.txn(), Arc::new(Mutex::new(None)));
        let (told, low) = (Arc::clone(&end), store.low);
        let _path = Inline::start(async move {
            let came = one.lock_path_async(low, Mode::X).await;
            *told.lock().unwrap() = Some(came);
            one.leave();
        });
        assert_eq!(store.waits_for(name), Some(store.below));
        let table = Arc::clone(&store.table);
        let other_name = other.txn();
        let aborts = Does::waker(move || table.abort(other_name).unwrap());
        let _other = store.waits(other, node, Mode::X, aborts);
        holder.commit().unwrap();
        let wanted = if is_younger {
            Err(Stop::Victim)
        } else {
            Ok(Mode::X)
        };
        assert_eq!(*end.lock().unwrap(), Some(wanted));
        assert_eq!(store.held(name, store.below), Mode::IX);
        assert_eq!(store.lives(other_name), is_younger);
    }
}

/// A task that a waker polls asks for n: the passer lets it by, within that waker.
#[test]
fn an_ask_within_a_waker_is_granted() {
    for each in &PASSINGS[..2] {
        let store = Store::new(Detect::AtBlock);
        let queue = store.queue(Mode::IX, true);
        let ask = queue.ask(each, true);
        let node = store.add_root();
        let (mut first, mut outer) = (store.begin(), store.begin());
        first.lock(node, Mode::X).unwrap();
        let Queue {
            mut caller,
            others,
            n,
            ..
        } = queue;
        let name = caller.txn();
        let _task = Inline::start(async move {
            assert_eq!(outer.lock_async(node, Mode::S).await, Ok(Mode::S));
            let end = is_ready(ask.future(&mut caller));
            assert_eq!(end, Ok(RowLocked::Own(Mode::S)));
            outer.leave();
            caller.leave();
        });
        first.commit().unwrap();
        let wanted = if ask.is_instant() { Mode::NL } else { Mode::S };
        assert_eq!(store.held(name, n), wanted);
        for (other, end) in others
            .into_iter()
            .skip(1)
            .zip([Err(Stop::Victim), Ok(Mode::IX)])
        {
            assert_eq!(other.ended(), end);
        }
    }
}

// ------------------------------------------------------------------------------------------------------------------
// A crowd of locks for an instant.

const MEMBERS: u64 = 12;
const ROUNDS: usize = 40;

/// Small random numbers, by Marsaglia's xorshift: from 0 to below `sides`.
fn roll(dice: &mut u64, sides: u64) -> u64 {
    *dice ^= *dice << 13;
    *dice ^= *dice >> 7;
    *dice ^= *dice << 17;
    (*dice >> 16) % sides
}

/// Locks one of these, which all others want too; not, if the session was chosen as victim. One that was locked for an
/// instant is not held after that.
fn locks_one(
    store: &Store,
    session: &mut Session<'static>,
    nodes: &[Node],
    dice: &mut u64,
) -> bool {
    let modes = [Mode::IS, Mode::IX, Mode::S, Mode::SIX, Mode::X];
    let (node, mode) = (
        nodes[roll(dice, nodes.len() as u64) as usize],
        modes[roll(dice, 5) as usize],
    );
    let ask = Ask {
        call: [Lock, ForAnInstant, Path, ForAnInstant][roll(dice, 4) as usize],
        node,
        mode,
        row: store.row,
        keys: LOW_KEY,
        is_task: roll(dice, 2) == 0,
    };
    let name = session.txn();
    let is_new = store.held(name, node) == Mode::NL;
    session.set_deadline(Instant::now().checked_add(PATIENCE));
    let end = if ask.is_task {
        block_on(ask.future(session))
    } else {
        ask.sleep(session)
    };
    match end {
        Err(stop) => assert_eq!(stop, Stop::Victim, "{ask:?}"),
        Ok(RowLocked::Own(held)) => {
            let wanted = if ask.is_instant() && is_new {
                Mode::NL
            } else {
                held
            };
            assert_eq!(store.held(name, node), wanted, "{ask:?}");
        }
        Ok(RowLocked::OtherKeys(_)) => unreachable!("no row is asked for"),
    }
    end.is_ok()
}

/// Each call has its end, and no lock stays.
fn crowd(detect: Detect) {
    let store = Store::new(detect);
    let nodes = [(); 3].map(|()| store.add_root());
    let gate = Barrier::new(MEMBERS as usize);
    thread::scope(|scope| {
        let watch = (detect == Detect::ByWatcher)
            .then(|| scope.spawn(|| store.table.watch_over(Duration::ZERO).unwrap()));
        let members: Vec<_> = (0..MEMBERS)
            .map(|member| {
                let (store, gate) = (&store, &gate);
                scope.spawn(move || {
                    let mut dice = 88172645463325252 + member;
                    gate.wait();
                    for _ in 0..ROUNDS {
                        let mut session = store.begin();
                        let all = (0..3).all(|_| {
                            thread::yield_now();
                            locks_one(store, &mut session, &nodes, &mut dice)
                        });
                        if all {
                            session.commit().unwrap();
                        }
                    }
                })
            })
            .collect();
        let ends: Vec<_> = members.into_iter().map(|member| member.join()).collect();
        store.table.end_watch();
        drop(watch);
        assert!(ends.into_iter().all(|end| end.is_ok()));
    });
    for node in nodes {
        assert_eq!(store.table.with(|m| m.group(node)), Ok(Mode::NL));
    }
}

#[test]
fn a_crowd_of_instants() {
    crowd(Detect::AtBlock);
    crowd(Detect::ByWatcher);
}
