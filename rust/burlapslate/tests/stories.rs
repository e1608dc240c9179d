//! Stories of a few transactions: each command, each notice, and both ways of detection.

mod common;

use burlapslate::{
    Asked, Board, Detect, Kind, Manager, Mode, Node, Notice, Refusal, Slots, Txn, Victims, Wait,
    SLOTS, WORDS,
};
use common::{ask, at_block, begin, grant, manager, nobody, refused_lock, store, tells, wait};

#[test]
fn modes_join() {
    let (mut m, root) = at_block();
    let [a] = begin(&mut m);
    assert_eq!(m.try_lock(a, root, Mode::IX), Ok(Mode::IX));
    assert_eq!(m.try_lock(a, root, Mode::S), Ok(Mode::SIX));
    assert_eq!(m.group(root), Ok(Mode::SIX));
    nobody(m.commit(a).unwrap());
    assert_eq!(m.group(root), Ok(Mode::NL));
    assert_eq!(m.accepted(), 5);
}

#[test]
fn a_commit_grants() {
    let (mut m, root) = at_block();
    let [a, b, c] = begin(&mut m);
    grant(&mut m, a, &[root], Mode::X);
    wait(&mut m, b, root, Mode::S);
    wait(&mut m, c, root, Mode::S);
    assert_eq!(
        m.waiting(b),
        Some(Wait {
            node: root,
            mode: Mode::S
        })
    );
    let told = m.commit(a).unwrap();
    assert!(told.len() == 2 && !told.is_empty());
    tells(
        told,
        &[b, c].map(|txn| Notice::Granted {
            txn,
            node: root,
            mode: Mode::S,
        }),
    );
    assert_eq!(
        (m.held(b, root), m.held(c, root)),
        (Ok(Mode::S), Ok(Mode::S))
    );
    assert_eq!(m.waiting(b), None);
}

#[test]
fn a_conversion_goes_ahead() {
    let (mut m, root) = at_block();
    let [a, b, c] = begin(&mut m);
    grant(&mut m, a, &[root], Mode::S);
    grant(&mut m, b, &[root], Mode::S);
    wait(&mut m, c, root, Mode::X);
    assert_eq!((m.ahead(c), m.ahead(a)), (Ok(0), Err(Refusal::NotWaiting)));
    wait(&mut m, a, root, Mode::X);
    assert_eq!((m.ahead(c), m.ahead(a)), (Ok(1), Ok(0)));
    tells(
        m.commit(b).unwrap(),
        &[Notice::Granted {
            txn: a,
            node: root,
            mode: Mode::X,
        }],
    );
    assert_eq!(m.held(c, root), Ok(Mode::NL));
}

#[test]
fn an_unlock_and_a_cancel_grant() {
    let (mut m, root) = at_block();
    let [a, b, c] = begin(&mut m);
    grant(&mut m, a, &[root], Mode::S);
    wait(&mut m, b, root, Mode::X);
    wait(&mut m, c, root, Mode::IS);
    tells(
        m.cancel(b).unwrap(),
        &[Notice::Granted {
            txn: c,
            node: root,
            mode: Mode::IS,
        }],
    );
    wait(&mut m, b, root, Mode::IX);
    tells(
        m.unlock(a, root).unwrap(),
        &[Notice::Granted {
            txn: b,
            node: root,
            mode: Mode::IX,
        }],
    );
    assert_eq!(m.group(root), Ok(Mode::IX));
}

#[test]
fn a_deadlock_has_a_victim() {
    let (mut m, root) = at_block();
    let left = m.add_inner(&[root]).unwrap();
    let right = m.add_inner(&[root]).unwrap();
    let [a, b] = begin(&mut m);
    grant(&mut m, a, &[root], Mode::IX);
    grant(&mut m, b, &[root], Mode::IX);
    grant(&mut m, a, &[left], Mode::X);
    grant(&mut m, b, &[right], Mode::X);
    wait(&mut m, a, right, Mode::X);
    assert_eq!(ask(&mut m, b, left, Mode::X), Asked::Victim);
    assert_eq!(m.held(b, right), Ok(Mode::X));
    tells(
        m.abort(b).unwrap(),
        &[Notice::Granted {
            txn: a,
            node: right,
            mode: Mode::X,
        }],
    );
}

/// Of two who read the root, and both want to write it, the first one falls, though it asks last.
fn is_victim_to(m: &mut Manager, root: Node, victim: Txn, stays: Txn) {
    grant(m, victim, &[root], Mode::S);
    grant(m, stays, &[root], Mode::S);
    wait(m, stays, root, Mode::X);
    assert_eq!(ask(m, victim, root, Mode::X), Asked::Victim);
    let granted = Notice::Granted {
        txn: stays,
        node: root,
        mode: Mode::X,
    };
    tells(m.abort(victim).unwrap(), &[granted]);
    nobody(m.commit(stays).unwrap());
}

/// Who falls is the one whose work began last; of one begin the younger falls.
#[test]
fn a_victim_keeps_its_turn() {
    let (mut m, root) = at_block();
    let [first] = begin(&mut m);
    nobody(m.abort(first).unwrap());
    for since in [first.age(), 0] {
        let [other] = begin(&mut m);
        let again = m.begin_again(since).unwrap();
        assert_eq!(again.age(), other.age() + 1);
        is_victim_to(&mut m, root, other, again);
    }
    let [other] = begin(&mut m);
    let again = m.begin_again(other.age()).unwrap();
    is_victim_to(&mut m, root, again, other);
    let [other] = begin(&mut m);
    let again = m.begin_again(u64::MAX).unwrap();
    is_victim_to(&mut m, root, again, other);
}

/// A member that fits passes who waits, and is counted where that raised its mode.
#[test]
fn a_conversion_passes() {
    let (mut m, root) = at_block();
    let [a, b] = begin(&mut m);
    grant(&mut m, a, &[root], Mode::S);
    wait(&mut m, b, root, Mode::X);
    for (mode, held, passed) in [
        (Mode::IS, Mode::S, 0),
        (Mode::IX, Mode::SIX, 1),
        (Mode::X, Mode::X, 2),
    ] {
        assert_eq!(m.try_lock(a, root, mode), Ok(held));
        assert_eq!(m.counters().passed, passed);
    }
}

/// Two young readers hold what an old writer asks for, and wait for what it holds.
fn asks_in_their_way(victims: Victims) -> (Manager, [Txn; 3], Node) {
    let mut m = Manager::choosing(Detect::AtBlock, victims, SLOTS).unwrap();
    let wanted = m.add_inner(&[]).unwrap();
    let held = m.add_inner(&[]).unwrap();
    let [a, b, c] = begin(&mut m);
    grant(&mut m, a, &[held], Mode::X);
    grant(&mut m, b, &[wanted], Mode::S);
    grant(&mut m, c, &[wanted], Mode::S);
    wait(&mut m, b, held, Mode::S);
    wait(&mut m, c, held, Mode::S);
    (m, [a, b, c], wanted)
}

#[test]
fn a_choice_of_victims() {
    let (mut m, [a, b, c], wanted) = asks_in_their_way(Victims::Youngest);
    assert_eq!(m.victims(), Victims::Youngest);
    let (asked, told) = m.lock(a, wanted, Mode::X).unwrap();
    assert_eq!(asked, Asked::Waiting);
    tells(told, &[b, c].map(|txn| Notice::Victim { txn }));

    let (mut m, [a, _, _], wanted) = asks_in_their_way(Victims::Fewest);
    assert_eq!(m.victims(), Victims::Fewest);
    let (asked, told) = m.lock(a, wanted, Mode::X).unwrap();
    assert_eq!(asked, Asked::Victim);
    nobody(told);
}

#[test]
fn an_older_requester_condemns_the_younger() {
    let (mut m, root) = at_block();
    let [a, b] = begin(&mut m);
    grant(&mut m, a, &[root], Mode::S);
    grant(&mut m, b, &[root], Mode::S);
    wait(&mut m, b, root, Mode::X);
    let (asked, told) = m.lock(a, root, Mode::X).unwrap();
    assert_eq!(asked, Asked::Waiting);
    tells(told, &[Notice::Victim { txn: b }]);
    tells(
        m.abort(b).unwrap(),
        &[Notice::Granted {
            txn: a,
            node: root,
            mode: Mode::X,
        }],
    );
}

#[test]
fn a_watcher_settles() {
    let (mut m, root) = manager(Detect::ByWatcher);
    assert_eq!(m.detect(), Detect::ByWatcher);
    let [a, b, c] = begin(&mut m);
    grant(&mut m, a, &[root], Mode::S);
    grant(&mut m, b, &[root], Mode::S);
    wait(&mut m, c, root, Mode::X);
    wait(&mut m, a, root, Mode::X);
    wait(&mut m, b, root, Mode::X);
    let board = m.board();
    assert_eq!(board.epoch(), m.accepted());
    assert!(board.rows()[a.slot()].contains(b.slot()) && board.rows()[c.slot()].contains(a.slot()));
    let suspects = board.suspects();
    assert!(suspects.iter().eq([a.slot(), b.slot()]));
    assert_eq!(board.on_cycle(a.slot()), suspects);
    assert_eq!(board.on_cycle(c.slot()), Slots::NONE);
    assert_eq!(board.youngest(suspects), Some(b.slot()));
    assert_eq!(board.txn(b.slot()), Some(b));
    tells(m.settle(b).unwrap(), &[Notice::Victim { txn: b }]);
    nobody(m.settle(a).unwrap());
    tells(
        m.abort(b).unwrap(),
        &[Notice::Granted {
            txn: a,
            node: root,
            mode: Mode::X,
        }],
    );
}

#[test]
fn a_settled_transaction_may_be_told_itself() {
    let (mut m, root) = manager(Detect::ByWatcher);
    let [a, b] = begin(&mut m);
    for mode in [Mode::S, Mode::X] {
        let _ = m.lock(a, root, mode).unwrap();
        let _ = m.lock(b, root, mode).unwrap();
    }
    tells(m.settle(b).unwrap(), &[Notice::Victim { txn: b }]);
}

/// A ring of all slots waits, beyond the first 64 too.
#[test]
fn a_ring_of_all() {
    let mut m = Manager::new(Detect::ByWatcher, SLOTS).unwrap();
    let all: [Txn; SLOTS] = begin(&mut m);
    let nodes: Vec<Node> = all.iter().map(|_| m.add_inner(&[]).unwrap()).collect();
    for (&txn, &node) in all.iter().zip(&nodes) {
        grant(&mut m, txn, &[node], Mode::X);
    }
    for (place, &txn) in all.iter().enumerate() {
        wait(&mut m, txn, nodes[(place + 1) % SLOTS], Mode::X);
    }
    let board = m.board();
    assert_eq!(board.suspects(), Slots::from_words([u64::MAX; WORDS]));
    assert_eq!(board.suspects().len(), SLOTS);
    for (slot, &row) in board.rows().iter().enumerate() {
        let next = (slot + 1) % SLOTS;
        assert!(row.iter().eq([next]) && row == Slots::from_iter([next]));
        assert_eq!(board.youngest(row), Some(next));
    }
    let last = all[SLOTS - 1];
    assert_eq!(board.youngest(board.suspects()), Some(last.slot()));
}

#[test]
fn a_board_is_a_value() {
    let (mut m, root) = at_block();
    let mut board = m.board();
    assert_eq!(
        (board.epoch(), board.suspects(), board.txn(0)),
        (1, Slots::NONE, None)
    );
    assert_eq!(board.youngest(Slots::NONE), None);
    let [a, b] = begin(&mut m);
    grant(&mut m, a, &[root], Mode::X);
    wait(&mut m, b, root, Mode::S);
    let early = board.clone();
    m.read_board(&mut board);
    drop(m);
    assert_eq!(board.ages()[a.slot()], a.age());
    assert_eq!(
        (board.txn(a.slot()), board.txn(b.slot())),
        (Some(a), Some(b))
    );
    assert!(board.rows()[b.slot()].iter().eq([a.slot()]));
    assert_ne!(board, early);
    let seen = std::thread::spawn(move || board.on_cycle(0))
        .join()
        .unwrap();
    assert_eq!(seen, Slots::NONE);
}

#[test]
fn a_board_has_no_more_slots() {
    let board = Board::default();
    for slot in [SLOTS, 1 << 32, usize::MAX] {
        assert_eq!((board.txn(slot), board.on_cycle(slot)), (None, Slots::NONE));
    }
    assert_eq!(format!("{board:?}"), "Board 0 {}");
}

#[test]
fn sets_of_slots() {
    let set = Slots::from_iter([127, 65, 63, 0]);
    assert!(set.into_iter().eq([0, 63, 65, 127]));
    assert_eq!(set.words()[..2], [1 << 63 | 1, 1 << 63 | 1 << 1]);
    assert_eq!(Slots::from_words(set.words()), set);
    assert_eq!((set.len(), set.iter().len(), set.is_empty()), (4, 4, false));
    assert!((0..SLOTS + 72).filter(|&slot| set.contains(slot)).eq(set));
    assert!(!set.contains(usize::MAX) && Slots::NONE.is_empty());
    assert_eq!(format!("{set:?}"), "{0, 63, 65, 127}");
}

#[test]
fn a_record_moves() {
    let (mut m, root) = at_block();
    let s = store(&mut m, root);
    let [a, b, c] = begin(&mut m);
    grant(&mut m, a, &s.path_below(), Mode::IX);
    grant(&mut m, a, &[s.low], Mode::X);
    grant(&mut m, a, &[s.above], Mode::IX);
    grant(&mut m, b, &s.path_below(), Mode::IX);
    wait(&mut m, b, s.low, Mode::X);
    grant(&mut m, c, &[s.root, s.file], Mode::IS);
    wait(&mut m, c, s.low, Mode::S);
    tells(
        m.rekey(a, s.low, s.index, 150).unwrap(),
        &[Notice::Moved { txn: b }],
    );
    assert_eq!(m.key(s.low, 0), Some(150));
    assert_eq!(
        (m.parent(s.low, 0), m.parent(s.low, 1)),
        (Some(s.file), Some(s.above))
    );
    tells(
        m.commit(a).unwrap(),
        &[Notice::Granted {
            txn: c,
            node: s.low,
            mode: Mode::S,
        }],
    );
}

#[test]
fn a_record_goes() {
    let (mut m, root) = at_block();
    let s = store(&mut m, root);
    let [a, b] = begin(&mut m);
    grant(&mut m, a, &s.path_below(), Mode::IX);
    grant(&mut m, a, &[s.low], Mode::X);
    grant(&mut m, b, &[s.root, s.file], Mode::IS);
    wait(&mut m, b, s.low, Mode::S);
    tells(m.delete(a, s.low).unwrap(), &[Notice::Gone { txn: b }]);
    assert_eq!(m.held(b, s.low), Err(Refusal::NoSuchNode));
    assert_eq!(m.waiting(b), None);
    assert_eq!(m.has_records(s.file), Ok(true));
}

#[test]
fn an_escalation() {
    let (mut m, root) = at_block();
    let s = store(&mut m, root);
    let [a, b] = begin(&mut m);
    grant(&mut m, a, &[s.root, s.file, s.index, s.above], Mode::IX);
    grant(&mut m, a, &[s.below, s.low, s.high], Mode::X);
    assert_eq!(m.children(a, s.file), Ok(2));
    let (escalated, told) = m.escalate(a, s.file).unwrap();
    assert_eq!(
        (escalated.mode, escalated.released, escalated.kept),
        (Mode::X, 1, 1)
    );
    nobody(told);
    assert_eq!(
        (m.held(a, s.low), m.effective(a, s.low)),
        (Ok(Mode::NL), Ok(Mode::X))
    );
    assert_eq!(m.held(a, s.high), Ok(Mode::X));
    grant(&mut m, b, &[s.root], Mode::IS);
    assert_eq!(m.effective(b, s.low), Ok(Mode::NL));
}

#[test]
fn a_file_moves() {
    let (mut m, root) = at_block();
    let s = store(&mut m, root);
    let other = m.add_inner(&[root]).unwrap();
    let [a, b] = begin(&mut m);
    grant(&mut m, a, &[root], Mode::IX);
    grant(&mut m, a, &[s.file, other], Mode::X);
    grant(&mut m, b, &[root], Mode::IX);
    wait(&mut m, b, s.file, Mode::IX);
    tells(
        m.move_node(a, s.file, &[other]).unwrap(),
        &[Notice::Moved { txn: b }],
    );
    assert_eq!(
        (m.parent(s.file, 0), m.parent(s.file, 1)),
        (Some(other), None)
    );
    nobody(m.move_node(a, other, &[]).unwrap());
    assert_eq!(m.parent(other, 0), None);
}

#[test]
fn questions() {
    let (mut m, root) = at_block();
    assert!(!m.is_empty());
    let s = store(&mut m, root);
    let kinds = [root, s.file, s.index, s.below, s.low].map(|node| m.kind(node).unwrap());
    assert_eq!(
        kinds,
        [
            Kind::Inner,
            Kind::File,
            Kind::Index,
            Kind::Interval,
            Kind::Record
        ]
    );
    assert_eq!(
        (m.index(s.file, 0), m.index(s.file, 1)),
        (Ok(Some(s.index)), Ok(None))
    );
    assert_eq!(
        (m.interval_of(s.index, 99), m.interval_of(s.index, 100)),
        (Ok(s.below), Ok(s.above))
    );
    assert_eq!(
        (m.interval(s.index, 1), m.interval(s.index, 2)),
        (Some(s.above), None)
    );
    assert_eq!((m.place(s.below), m.place(s.above)), (Ok(0), Ok(1)));
    assert_eq!((m.key(s.high, 0), m.key(s.high, 1)), (Some(200), None));
    assert_eq!(m.has_records(s.file), Ok(true));
    assert_eq!((m.len(), m.detect()), (7, Detect::AtBlock));
    assert_eq!(
        format!("{m:?}"),
        "Manager { detect: AtBlock, len: 7, accepted: 12, .. }"
    );
}

#[test]
fn everybody_is_told() {
    let (mut m, root) = at_block();
    let all: [Txn; SLOTS] = begin(&mut m);
    grant(&mut m, all[0], &[root], Mode::X);
    for &txn in &all[1..] {
        wait(&mut m, txn, root, Mode::IS);
    }
    let told = m.commit(all[0]).unwrap();
    assert_eq!(told.len(), SLOTS - 1);
    let granted = |&txn| Notice::Granted {
        txn,
        node: root,
        mode: Mode::IS,
    };
    assert!(told.eq(all[1..].iter().map(granted)));
}

/// Notices are those of the last command, whatever was told before.
#[test]
fn notices_are_new_each_time() {
    let (mut m, root) = at_block();
    let [a, b] = begin(&mut m);
    grant(&mut m, a, &[root], Mode::X);
    wait(&mut m, b, root, Mode::X);
    assert_eq!(m.commit(a).unwrap().count(), 1);
    assert_eq!(refused_lock(&mut m, a, root, Mode::X), Refusal::NoSuchTxn);
    nobody(m.commit(b).unwrap());
}

/// A manager stays where it is on the heap, while its owner moves.
#[test]
fn a_manager_may_be_moved() {
    let (mut m, root) = at_block();
    let [a] = begin(&mut m);
    grant(&mut m, a, &[root], Mode::X);
    let mut many = vec![Manager::new(Detect::ByWatcher, 1).unwrap(), m];
    many.reverse();
    let mut m = many.swap_remove(0);
    assert_eq!(m.held(a, root), Ok(Mode::X));
    let m = std::thread::spawn(move || m.commit(a).map(|told| told.count()).map(|_| m))
        .join()
        .unwrap();
    assert_eq!(m.unwrap().held(a, root), Err(Refusal::NoSuchTxn));
}

#[test]
fn names_that_are_old_name_nothing() {
    let (mut m, root) = at_block();
    let s = store(&mut m, root);
    let [a] = begin(&mut m);
    grant(&mut m, a, &s.path_below(), Mode::IX);
    grant(&mut m, a, &[s.low], Mode::X);
    nobody(m.delete(a, s.low).unwrap());
    nobody(m.commit(a).unwrap());
    let [b] = begin(&mut m);
    assert!(b.slot() == a.slot() && b.age() > a.age() && b != a);
    grant(&mut m, b, &s.path_below(), Mode::IX);
    assert_ne!(m.insert(b, s.file, &[50]).unwrap(), s.low);
    let before = m.accepted();
    for txn in [a, Txn::NONE] {
        assert_eq!(refused_lock(&mut m, txn, root, Mode::S), Refusal::NoSuchTxn);
        assert_eq!(m.abort(txn).unwrap_err(), Refusal::NoSuchTxn);
        assert_eq!(
            (m.held(txn, root), m.waiting(txn)),
            (Err(Refusal::NoSuchTxn), None)
        );
    }
    for node in [s.low, Node::NONE] {
        assert_eq!(refused_lock(&mut m, b, node, Mode::S), Refusal::NoSuchNode);
        assert_eq!(m.add_inner(&[node]), Err(Refusal::NoSuchNode));
        assert_eq!(
            (m.kind(node), m.parent(node, 0)),
            (Err(Refusal::NoSuchNode), None)
        );
    }
    assert_eq!(m.accepted(), before);
}

/// Whoever waits for a node that is dropped is told so, and the name of the node is never another's.
#[test]
fn a_node_is_dropped() {
    let (mut m, root) = at_block();
    let file = m.add_file(&[root]).unwrap();
    let [a, b, c] = begin(&mut m);
    grant(&mut m, a, &[root], Mode::IX);
    grant(&mut m, a, &[file], Mode::X);
    for txn in [b, c] {
        grant(&mut m, txn, &[root], Mode::IS);
        wait(&mut m, txn, file, Mode::S);
    }
    let gone = [b, c].map(|txn| Notice::Gone { txn });
    tells(m.drop_node(a, file).unwrap(), &gone);
    assert_eq!(m.counters().gone, 2);
    assert_eq!((m.waiting(b), m.lock_count(a)), (None, Ok(1)));
    for _ in 0..10 {
        assert_ne!(m.add_file(&[root]).unwrap(), file);
    }
    for txn in [a, b] {
        assert_eq!(
            refused_lock(&mut m, txn, file, Mode::S),
            Refusal::NoSuchNode
        );
    }
    assert_eq!(m.kind(file), Err(Refusal::NoSuchNode));
    assert_eq!(m.kind(root), Ok(Kind::Inner));
}

/// The intervals of an index get finer under the locks of one transaction, which holds the new index to its
/// end.
#[test]
fn an_index_is_made_again() {
    let (mut m, root) = at_block();
    let file = m.add_file(&[root]).unwrap();
    let [coarse, other] = [(); 2].map(|()| m.add_index(&[root], file, &[100]).unwrap());
    let [a, b] = begin(&mut m);
    grant(&mut m, a, &[root], Mode::IX);
    grant(&mut m, a, &[file, coarse], Mode::X);
    grant(&mut m, b, &[root], Mode::IS);
    wait(&mut m, b, coarse, Mode::S);
    let finer = m.index_by(a, &[root], file, &[50, 100, 150]).unwrap();
    tells(m.drop_node(a, coarse).unwrap(), &[Notice::Gone { txn: b }]);
    let indexes = [0, 1, 2].map(|place| m.index(file, place).unwrap());
    assert_eq!(indexes, [Some(other), Some(finer), None]);
    wait(&mut m, b, finer, Mode::S);
    let granted = Notice::Granted {
        txn: b,
        node: finer,
        mode: Mode::S,
    };
    tells(m.commit(a).unwrap(), &[granted]);
    let interval = m.interval_of(finer, 120).unwrap();
    assert_eq!(m.place(interval), Ok(2));
}

/// Each record gets the key at its place, and is read by the new index from then on.
#[test]
fn an_index_is_made_beside_records() {
    let (mut m, root) = at_block();
    let s = store(&mut m, root);
    let [a, b] = begin(&mut m);
    grant(&mut m, a, &[root], Mode::IX);
    grant(&mut m, a, &[s.file, s.index], Mode::X);
    let records = [s.low, s.high];
    let index = m.index_records(a, &[root], s.file, &[10], &records, &[7, 10]);
    let index = index.unwrap();
    assert_eq!(m.held(a, index), Ok(Mode::X));
    assert_eq!(m.index(s.file, 1), Ok(Some(index)));
    for (record, keys, place) in [(s.low, [50, 7], 0), (s.high, [200, 10], 1)] {
        assert_eq!([0, 1].map(|place| m.key(record, place).unwrap()), keys);
        assert_eq!(m.parent(record, 2), m.interval(index, place));
    }
    nobody(m.commit(a).unwrap());
    let upper = m.interval(index, 1).unwrap();
    grant(&mut m, b, &[root, index], Mode::IS);
    grant(&mut m, b, &[upper], Mode::S);
    assert_eq!(m.effective(b, s.high), Ok(Mode::S));
    assert_eq!(m.effective(b, s.low), Ok(Mode::NL));
}

/// Two managers share nothing.
#[test]
fn two_managers() {
    let (mut m, root) = at_block();
    let (mut n, _) = at_block();
    let [a] = begin(&mut m);
    let [b] = begin(&mut n);
    let leaf = n.add_inner(&[]).unwrap();
    grant(&mut n, b, &[leaf], Mode::X);
    assert_eq!(m.kind(leaf), Err(Refusal::NoSuchNode));
    grant(&mut m, a, &[root], Mode::X);
    drop(n);
    nobody(m.commit(a).unwrap());
}
