//! Each refusal, of each command that has it. Want of memory is in `memory.rs`; a counter that has
//! come to its end is met by no test.

mod common;

use burlapslate::{
    Asked, Detect, Manager, Mode, Node, Options, Refusal, Row, RowAsked, Txn, SLOTS,
};
use common::{ask, at_block, begin, grant, refused_lock, store, wait, Store};

/// What each command of a transaction on a node is refused with.
fn of_each(m: &mut Manager, txn: Txn, s: &Store) -> [Option<Refusal>; 14] {
    [
        m.lock(txn, s.root, Mode::IS).err(),
        m.try_lock(txn, s.root, Mode::IS).err(),
        m.unlock(txn, s.root).err(),
        m.escalate(txn, s.root).err(),
        m.commit(txn).err(),
        m.insert(txn, s.file, &[1]).err(),
        m.delete(txn, s.low).err(),
        m.rekey(txn, s.low, s.index, 1).err(),
        m.move_node(txn, s.file, &[s.root]).err(),
        m.drop_node(txn, s.file).err(),
        m.index_by(txn, &[s.root], s.file, &[]).err(),
        m.index_records(txn, &[s.root], s.file, &[], &[s.low], &[1])
            .err(),
        m.split(txn, s.below, 50).err(),
        m.merge(txn, s.below).err(),
    ]
}

#[test]
fn a_transaction_that_waits_or_is_condemned() {
    let (mut m, root) = at_block();
    let s = store(&mut m, root);
    let [a, b] = begin(&mut m);
    grant(&mut m, a, &[root], Mode::S);
    grant(&mut m, b, &[root], Mode::S);
    wait(&mut m, a, root, Mode::X);
    assert_eq!(of_each(&mut m, a, &s), [Some(Refusal::TxnWaiting); 14]);
    assert_eq!(ask(&mut m, b, root, Mode::X), Asked::Victim);
    assert_eq!(of_each(&mut m, b, &s), [Some(Refusal::TxnCondemned); 14]);
    assert_eq!(m.cancel(b).unwrap_err(), Refusal::TxnCondemned);
}

#[test]
fn a_transaction_that_has_ended() {
    let (mut m, root) = at_block();
    let s = store(&mut m, root);
    let [a] = begin(&mut m);
    assert!(m.abort(a).unwrap().is_empty());
    assert_eq!(of_each(&mut m, a, &s), [Some(Refusal::NoSuchTxn); 14]);
    assert_eq!(m.cancel(a).unwrap_err(), Refusal::NoSuchTxn);
    assert_eq!(m.abort(a).unwrap_err(), Refusal::NoSuchTxn);
    assert_eq!(m.settle(a).unwrap_err(), Refusal::NoSuchTxn);
    assert_eq!(m.held(a, root), Err(Refusal::NoSuchTxn));
    assert_eq!(m.effective(a, root), Err(Refusal::NoSuchTxn));
    assert_eq!(m.children(a, root), Err(Refusal::NotHeld));
}

#[test]
fn a_node_that_is_not() {
    let (mut m, root) = at_block();
    let s = store(&mut m, root);
    let [a] = begin(&mut m);
    let none = Node::NONE;
    assert_eq!(m.add_inner(&[none]), Err(Refusal::NoSuchNode));
    assert_eq!(m.add_file(&[root, none]), Err(Refusal::NoSuchNode));
    assert_eq!(m.add_index(&[root], none, &[]), Err(Refusal::NoSuchNode));
    assert_eq!(refused_lock(&mut m, a, none, Mode::S), Refusal::NoSuchNode);
    assert_eq!(m.try_lock(a, none, Mode::S), Err(Refusal::NoSuchNode));
    assert_eq!(m.unlock(a, none).unwrap_err(), Refusal::NoSuchNode);
    assert_eq!(m.escalate(a, none).unwrap_err(), Refusal::NoSuchNode);
    assert_eq!(m.insert(a, none, &[]), Err(Refusal::NoSuchNode));
    assert_eq!(m.delete(a, none).unwrap_err(), Refusal::NoSuchNode);
    assert_eq!(m.rekey(a, s.low, none, 1).unwrap_err(), Refusal::NoSuchNode);
    assert_eq!(
        m.move_node(a, s.file, &[none]).unwrap_err(),
        Refusal::NoSuchNode
    );
    assert_eq!(m.drop_node(a, none).unwrap_err(), Refusal::NoSuchNode);
    assert_eq!(m.split(a, none, 50).unwrap_err(), Refusal::NoSuchNode);
    assert_eq!(m.merge(a, none).unwrap_err(), Refusal::NoSuchNode);
    for (parent, file) in [(none, s.file), (root, none)] {
        let made = m.index_by(a, &[parent], file, &[]);
        assert_eq!(made, Err(Refusal::NoSuchNode));
    }
    assert_eq!(m.group(none), Err(Refusal::NoSuchNode));
    assert_eq!(m.held(a, none), Err(Refusal::NoSuchNode));
    assert_eq!(m.effective(a, none), Err(Refusal::NoSuchNode));
    assert_eq!(m.children(a, none), Err(Refusal::NotHeld));
}

/// Questions about nodes of another kind.
#[test]
fn a_node_of_the_wrong_kind() {
    let (mut m, root) = at_block();
    let s = store(&mut m, root);
    assert_eq!(m.kind(Node::NONE), Err(Refusal::NoSuchNode));
    assert_eq!(m.index(root, 0), Err(Refusal::NoSuchNode));
    assert_eq!(m.interval_of(s.file, 0), Err(Refusal::NoSuchNode));
    assert_eq!(m.place(s.index), Err(Refusal::NoSuchNode));
    assert_eq!(m.has_records(s.index), Err(Refusal::NoSuchNode));
    assert_eq!((m.interval(s.file, 0), m.key(s.file, 0)), (None, None));
}

#[test]
fn parents() {
    let (mut m, root) = at_block();
    let s = store(&mut m, root);
    let [a] = begin(&mut m);
    grant(&mut m, a, &[root], Mode::IX);
    grant(&mut m, a, &[s.file], Mode::X);
    assert_eq!(m.add_inner(&[root, root]), Err(Refusal::BadParents));
    assert_eq!(m.add_inner(&[s.file]), Err(Refusal::BadParents));
    assert_eq!(m.add_file(&[]), Err(Refusal::BadParents));
    assert_eq!(m.add_index(&[], s.file, &[]), Err(Refusal::BadParents));
    assert_eq!(m.insert(a, s.index, &[]), Err(Refusal::BadParents));
    assert_eq!(m.delete(a, s.file).unwrap_err(), Refusal::BadParents);
    assert_eq!(
        m.rekey(a, s.low, s.file, 1).unwrap_err(),
        Refusal::BadParents
    );
    assert_eq!(m.escalate(a, s.low).unwrap_err(), Refusal::BadParents);
    assert_eq!(
        m.move_node(a, s.file, &[]).unwrap_err(),
        Refusal::BadParents
    );
}

#[test]
fn numbers_out_of_range() {
    let beyond_32_bits = usize::try_from(1_u64 << 32 | 1).unwrap_or(usize::MAX);
    for most in [0, SLOTS + 1, beyond_32_bits, usize::MAX] {
        assert_eq!(
            Manager::new(Detect::AtBlock, most).unwrap_err(),
            Refusal::BadNumber
        );
    }
    let (mut m, root) = at_block();
    let [a] = begin(&mut m);
    let many = [Node::NONE; burlapslate::MOST_PARENTS + 1];
    assert_eq!(m.add_inner(&many), Err(Refusal::BadNumber));
    assert_eq!(m.add_file(&many), Err(Refusal::BadNumber));
    assert_eq!(m.add_index(&many, root, &[]), Err(Refusal::BadNumber));
    assert_eq!(m.index_by(a, &many, root, &[]), Err(Refusal::BadNumber));
    assert_eq!(m.move_node(a, root, &many).unwrap_err(), Refusal::BadNumber);
    let roots = [(); burlapslate::MOST_PARENTS].map(|()| m.add_inner(&[]).unwrap());
    assert!(m.add_inner(&roots).is_ok());
}

#[test]
fn the_rule_of_the_graph() {
    let (mut m, root) = at_block();
    let s = store(&mut m, root);
    let [a] = begin(&mut m);
    assert_eq!(
        refused_lock(&mut m, a, s.file, Mode::IS),
        Refusal::NeedParents(root)
    );
    grant(&mut m, a, &[root, s.file], Mode::IX);
    assert_eq!(m.unlock(a, root).unwrap_err(), Refusal::HeldChild(s.file));
    assert_eq!(refused_lock(&mut m, a, s.low, Mode::IX), Refusal::BadMode);
    assert_eq!(refused_lock(&mut m, a, s.file, Mode::NL), Refusal::BadMode);
    assert_eq!(
        refused_lock(&mut m, a, s.low, Mode::X),
        Refusal::NeedParents(s.below)
    );
    assert_eq!(
        m.insert(a, s.file, &[150]),
        Err(Refusal::NeedParents(s.above))
    );
    assert!(m.unlock(a, s.file).unwrap().is_empty());
    assert_eq!(m.unlock(a, s.file).unwrap_err(), Refusal::NotHeld);
    assert_eq!(m.escalate(a, s.file).unwrap_err(), Refusal::NotHeld);
}

#[test]
fn locks_in_the_way() {
    let (mut m, root) = at_block();
    let [a, b] = begin(&mut m);
    grant(&mut m, a, &[root], Mode::IX);
    grant(&mut m, b, &[root], Mode::IS);
    assert_eq!(m.try_lock(b, root, Mode::S), Err(Refusal::WouldBlock));
    grant(&mut m, b, &[root], Mode::IX);
    assert_eq!(m.escalate(a, root).unwrap_err(), Refusal::WouldBlock);
    assert_eq!(m.cancel(a).unwrap_err(), Refusal::NotWaiting);
}

#[test]
fn records_and_moves() {
    let (mut m, root) = at_block();
    let s = store(&mut m, root);
    let [a] = begin(&mut m);
    grant(&mut m, a, &s.path_below(), Mode::IX);
    assert_eq!(m.delete(a, s.low).unwrap_err(), Refusal::NeedExclusive);
    assert_eq!(
        m.rekey(a, s.low, s.index, 150).unwrap_err(),
        Refusal::NeedExclusive
    );
    assert_eq!(
        m.move_node(a, s.file, &[root]).unwrap_err(),
        Refusal::NeedExclusive
    );
    grant(&mut m, a, &[s.low], Mode::X);
    assert_eq!(
        m.rekey(a, s.low, s.index, 150).unwrap_err(),
        Refusal::NeedParents(s.above)
    );
    let other = m.add_inner(&[root]).unwrap();
    grant(&mut m, a, &[root, other], Mode::X);
    assert_eq!(
        m.move_node(a, other, &[other]).unwrap_err(),
        Refusal::Cycle(other)
    );
    assert_eq!(
        m.move_node(a, root, &[other]).unwrap_err(),
        Refusal::Cycle(other)
    );
}

#[test]
fn keys() {
    let (mut m, root) = at_block();
    let s = store(&mut m, root);
    let empty = m.add_file(&[root]).unwrap();
    let [a] = begin(&mut m);
    assert_eq!(m.add_index(&[root], s.file, &[]), Err(Refusal::FileInUse));
    let rising: Vec<u64> = (1..=257).collect();
    for bounds in [&[5, 5][..], &[2, 1], &[0], &rising] {
        assert_eq!(m.add_index(&[root], empty, bounds), Err(Refusal::BadKeys));
    }
    assert!(m.add_index(&[root], empty, &rising[..256]).is_ok());
    assert_eq!(m.insert(a, s.file, &[]), Err(Refusal::BadKeys));
    assert_eq!(m.insert(a, s.file, &[1, 2]), Err(Refusal::BadKeys));
}

/// An index has as many bounds as were chosen, whatever number of nodes was.
#[test]
fn chosen_bounds() {
    let usual = Options::new(Detect::AtBlock);
    let rising: Vec<u64> = (1..=301).collect();
    for (options, most) in [
        (usual.nodes(70_000), 256),
        (usual.nodes(65_536).bounds(300), 300),
        (usual.bounds(1), 1),
    ] {
        let mut m = Manager::with_options(options).unwrap();
        assert_eq!(m.most_bounds(), most);
        let root = m.add_inner(&[]).unwrap();
        let file = m.add_file(&[root]).unwrap();
        let past = m.add_index(&[root], file, &rising[..=most]);
        assert_eq!(past, Err(Refusal::BadKeys));
        assert!(m.add_index(&[root], file, &rising[..most]).is_ok());
    }
    assert!(Manager::with_options(usual.bounds(1 << 31)).is_ok());
    for bounds in [0, (1 << 31) + 1, (1 << 32) + 1] {
        let refused = Manager::with_options(usual.bounds(bounds)).err();
        assert_eq!(refused, Some(Refusal::BadNumber));
    }
}

/// On a file of rows nothing is done by nodes, and on no other node anything by numbers.
#[test]
fn files_of_rows() {
    let (mut m, root) = at_block();
    let s = store(&mut m, root);
    let file = m.add_row_file(&[root]).unwrap();
    let [a] = begin(&mut m);
    grant(&mut m, a, &[root, file], Mode::IX);
    let row = Row { file, number: 7 };
    let (asked, node, _) = m.lock_row(a, row, &[], Mode::X).unwrap();
    assert_eq!(asked, RowAsked::Granted(Mode::X));
    let accepted = m.accepted();
    for txn in [a, Txn::NONE] {
        assert_eq!(m.insert(txn, file, &[]), Err(Refusal::RowsByNumber));
        assert_eq!(m.delete(txn, node).unwrap_err(), Refusal::RowsByNumber);
        let rekeyed = m.rekey(txn, node, s.index, 1).map(drop);
        assert_eq!(rekeyed, Err(Refusal::RowsByNumber));
    }
    assert_eq!(m.adopt(file, &[]), Err(Refusal::RowsByNumber));
    assert_eq!(m.forget(node), Err(Refusal::RowsByNumber));
    for file in [s.file, s.below, root, Node::NONE] {
        let other = Row { file, number: 7 };
        let asked = m.lock_row(Txn::NONE, other, &[1, 2], Mode::NL).map(drop);
        assert_eq!(asked, Err(Refusal::NotRows));
        assert_eq!(m.unlock_row(a, other).unwrap_err(), Refusal::NotRows);
        let rekeyed = m.rekey_row(a, other, s.index, 1).map(drop);
        assert_eq!(rekeyed, Err(Refusal::NotRows));
        assert_eq!(m.row_node(other), None);
    }
    assert_eq!((m.accepted(), m.row_node(row)), (accepted, Some(node)));
}

/// A row that gets a node is refused in this order, and a refusal changes nothing: not even that the file
/// may get an index.
#[test]
fn locks_of_rows() {
    let (mut m, root) = at_block();
    let file = m.add_row_file(&[root]).unwrap();
    let [a] = begin(&mut m);
    let row = Row { file, number: 7 };
    let before = (m.accepted(), m.counters());
    let mut refused = |txn, keys: &[u64], mode| m.lock_row(txn, row, keys, mode).unwrap_err();
    assert_eq!(refused(Txn::NONE, &[1], Mode::NL), Refusal::NoSuchTxn);
    assert_eq!(refused(a, &[1], Mode::NL), Refusal::BadKeys);
    assert_eq!(refused(a, &[], Mode::IX), Refusal::BadMode);
    assert_eq!(refused(a, &[], Mode::X), Refusal::NeedParents(file));
    assert_eq!((m.accepted(), m.counters()), before);
    assert_eq!(m.unlock_row(a, row).unwrap_err(), Refusal::NoSuchNode);
    let rekeyed = m.rekey_row(a, row, file, 1).map(drop);
    assert_eq!(rekeyed, Err(Refusal::NoSuchNode));
    assert!(m.add_index(&[root], file, &[]).is_ok());
}

#[test]
fn adopted_records() {
    let (mut m, root) = at_block();
    let file = m.add_file(&[root]).unwrap();
    let [a] = begin(&mut m);
    assert_eq!(m.adopt(root, &[]), Err(Refusal::BadParents));
    assert_eq!(m.adopt(file, &[1]), Err(Refusal::BadKeys));
    let row = m.adopt(file, &[]).unwrap();
    grant(&mut m, a, &[root, file], Mode::IX);
    grant(&mut m, a, &[row], Mode::X);
    assert_eq!(m.forget(row), Err(Refusal::RecordInUse));
    assert!(m.commit(a).unwrap().is_empty());
    assert_eq!(m.forget(row), Ok(()));
    assert_eq!(m.forget(row), Err(Refusal::NoSuchNode));
    assert_eq!(m.forget(file), Err(Refusal::BadParents));
    assert_eq!(m.add_index(&[root], file, &[]), Err(Refusal::FileInUse));
}

/// Takes the records of a store away, whose file the transaction holds in X.
fn delete_records(m: &mut Manager, txn: Txn, s: &Store) {
    grant(m, txn, &[s.below, s.above], Mode::IX);
    for record in [s.low, s.high] {
        grant(m, txn, &[record], Mode::X);
        assert!(m.delete(txn, record).unwrap().is_empty());
    }
}

/// A drop is refused in this order, and by what stands below each kind of node.
#[test]
fn drops() {
    let (mut m, root) = at_block();
    let s = store(&mut m, root);
    let [a] = begin(&mut m);
    let refused = |m: &mut Manager, node| m.drop_node(a, node).unwrap_err();
    for node in [s.low, s.below] {
        assert_eq!(refused(&mut m, node), Refusal::BadParents);
    }
    for node in [root, s.file, s.index] {
        assert_eq!(refused(&mut m, node), Refusal::NeedExclusive);
    }
    grant(&mut m, a, &[root, s.index], Mode::X);
    assert_eq!(refused(&mut m, root), Refusal::HasChildren);
    assert_eq!(refused(&mut m, s.index), Refusal::NeedExclusive); // For want of its file.
    grant(&mut m, a, &[s.file], Mode::X);
    for node in [s.index, s.file] {
        assert_eq!(refused(&mut m, node), Refusal::FileInUse);
    }
    delete_records(&mut m, a, &s);
    assert_eq!(refused(&mut m, s.file), Refusal::FileInUse); // It has an index.
    for node in [s.index, s.file, root] {
        assert!(m.drop_node(a, node).unwrap().is_empty());
        assert_eq!(refused(&mut m, node), Refusal::NoSuchNode);
    }
    assert_eq!((m.len(), m.lock_count(a)), (0, Ok(0)));
}

/// A split and a merge are refused in this order.
#[test]
fn splits_and_merges() {
    let (mut m, root) = at_block();
    let s = store(&mut m, root);
    let [a] = begin(&mut m);
    for node in [root, s.file, s.index, s.low] {
        assert_eq!(m.split(a, node, 0).unwrap_err(), Refusal::BadParents);
        assert_eq!(m.merge(a, node).unwrap_err(), Refusal::BadParents);
    }
    assert_eq!(m.merge(a, s.above).unwrap_err(), Refusal::BadParents); // It is the last.
    grant(&mut m, a, &[root, s.index], Mode::X);
    assert_eq!(m.split(a, s.below, 0).unwrap_err(), Refusal::NeedExclusive);
    grant(&mut m, a, &[s.below], Mode::X);
    assert_eq!(m.merge(a, s.below).unwrap_err(), Refusal::NeedExclusive); // For want of the next.
    for at in [0, 100, 101] {
        assert_eq!(m.split(a, s.below, at).unwrap_err(), Refusal::BadKeys);
    }
    grant(&mut m, a, &[s.above], Mode::X);
    assert_eq!(m.split(a, s.above, 100).unwrap_err(), Refusal::BadKeys);
    let (new, told) = m.split(a, s.above, 101).unwrap();
    assert!(told.is_empty());
    assert_eq!(m.held(a, new), Ok(Mode::X));
    for (interval, gone) in [(s.above, new), (s.below, s.above)] {
        assert!(m.merge(a, interval).unwrap().is_empty());
        assert_eq!(m.merge(a, gone).unwrap_err(), Refusal::NoSuchNode);
    }
    assert_eq!(m.merge(a, s.below).unwrap_err(), Refusal::BadParents);
}

/// An index of a file that has been in use is refused in this order.
#[test]
fn indexes_by_a_transaction() {
    let (mut m, root) = at_block();
    let s = store(&mut m, root);
    let area = m.add_inner(&[]).unwrap();
    let [a] = begin(&mut m);
    let refused = |m: &mut Manager, parents: &[Node], file| {
        let falling = [2, 1];
        m.index_by(a, parents, file, &falling).unwrap_err()
    };
    for (parents, file) in [(&[][..], s.file), (&[s.file], s.file), (&[area], root)] {
        assert_eq!(refused(&mut m, parents, file), Refusal::BadParents);
    }
    let above = [root, area];
    assert_eq!(refused(&mut m, &above, s.file), Refusal::NeedExclusive);
    grant(&mut m, a, &[root, s.index], Mode::IX);
    grant(&mut m, a, &[s.file], Mode::X);
    assert_eq!(refused(&mut m, &above, s.file), Refusal::NeedParents(area));
    grant(&mut m, a, &[area], Mode::IX);
    assert_eq!(refused(&mut m, &above, s.file), Refusal::FileInUse);
    delete_records(&mut m, a, &s);
    assert_eq!(refused(&mut m, &above, s.file), Refusal::BadKeys);
    for place in 1..7 {
        let index = m.index_by(a, &above, s.file, &[place]).unwrap();
        assert_eq!(m.held(a, index), Ok(Mode::X));
        assert_eq!(m.index(s.file, place as usize), Ok(Some(index)));
    }
    assert_eq!(refused(&mut m, &above, s.file), Refusal::BadParents); // It has seven.
}

/// As many nodes as may live, an index and its intervals among them.
#[test]
fn indexes_by_a_transaction_are_nodes() {
    let mut m = Manager::with_options(Options::new(Detect::AtBlock).nodes(6)).unwrap();
    let root = m.add_inner(&[]).unwrap();
    let file = m.add_file(&[root]).unwrap();
    let [a] = begin(&mut m);
    grant(&mut m, a, &[root], Mode::IX);
    grant(&mut m, a, &[file], Mode::X);
    let too_many = m.index_by(a, &[root], file, &[1, 2, 3]);
    assert_eq!(too_many, Err(Refusal::TooManyNodes));
    let index = m.index_by(a, &[root], file, &[1, 2]).unwrap();
    assert_eq!(m.len(), 6);
    assert!(m.drop_node(a, index).unwrap().is_empty());
    assert!(m.index_by(a, &[root], file, &[1, 2]).is_ok());
}

/// An index beside records is refused in this order.
#[test]
fn indexes_beside_records() {
    let (mut m, root) = at_block();
    let s = store(&mut m, root);
    let area = m.add_inner(&[]).unwrap();
    let other = m.add_file(&[root]).unwrap();
    let strange = m.adopt(other, &[]).unwrap();
    let (all, above) = ([s.low, s.high], [root, area]);
    let [a] = begin(&mut m);
    let refused = |m: &mut Manager, parents: &[Node], records: &[Node], keys: &[u64]| {
        m.index_records(a, parents, s.file, &[10], records, keys)
            .unwrap_err()
    };
    let keys = &[5, 10][..];
    assert_eq!(refused(&mut m, &[], &all, &[5]), Refusal::BadKeys);
    assert_eq!(refused(&mut m, &[s.file], &all, keys), Refusal::BadParents);
    grant(&mut m, a, &[root], Mode::IX);
    grant(&mut m, a, &[s.file], Mode::X);
    grant(&mut m, a, &[s.index, s.below], Mode::IX);
    grant(&mut m, a, &[s.low], Mode::X);
    assert_eq!(refused(&mut m, &above, &all, keys), Refusal::NeedExclusive);
    grant(&mut m, a, &[s.index], Mode::X);
    let lacking = Refusal::NeedParents(area);
    assert_eq!(refused(&mut m, &above, &all, keys), lacking);
    grant(&mut m, a, &[area], Mode::IX);
    assert_eq!(refused(&mut m, &above, &all, keys), Refusal::FileInUse);
    assert!(m.unlock(a, s.low).unwrap().is_empty());
    assert_eq!(refused(&mut m, &above, &[], &[]), Refusal::FileInUse);
    for wrong in [[s.high, s.low], [s.low; 2], [s.low, strange], [root; 2]] {
        assert_eq!(refused(&mut m, &above, &wrong, keys), Refusal::BadKeys);
    }
    assert_eq!(refused(&mut m, &above, &all[..1], &[5]), Refusal::BadKeys);
    assert_eq!(m.index(s.file, 1), Ok(None));
    assert_eq!(m.key(s.low, 1), None);
    let index = m.index_records(a, &above, s.file, &[10], &all, keys);
    assert_eq!(m.index(s.file, 1).map(Option::unwrap), index);
}

/// Rows that were adopted keep no index away that a transaction makes, as long as none stands.
#[test]
fn an_index_over_rows_that_were_adopted() {
    let (mut m, root) = at_block();
    let file = m.add_file(&[root]).unwrap();
    let row = m.adopt(file, &[]).unwrap();
    let [a] = begin(&mut m);
    grant(&mut m, a, &[root], Mode::IX);
    grant(&mut m, a, &[file], Mode::X);
    assert_eq!(m.index_by(a, &[root], file, &[]), Err(Refusal::FileInUse));
    assert_eq!(m.forget(row), Ok(()));
    assert_eq!(m.add_index(&[root], file, &[]), Err(Refusal::FileInUse));
    assert!(m.index_by(a, &[root], file, &[]).is_ok());
    assert_eq!(m.adopt(file, &[]), Err(Refusal::BadKeys));
    assert!(m.adopt(file, &[1]).is_ok());
}

#[test]
fn too_many() {
    let mut m = Manager::new(Detect::AtBlock, 1).unwrap();
    assert!(m.is_empty());
    let root = m.add_inner(&[]).unwrap();
    let [a] = begin(&mut m);
    assert_eq!(m.begin(), Err(Refusal::TooManyTxns));
    while m.len() < 65_536 {
        m.add_inner(&[]).unwrap();
    }
    assert_eq!(m.add_inner(&[]), Err(Refusal::TooManyNodes));
    assert_eq!(m.add_file(&[root]), Err(Refusal::TooManyNodes));
    assert!(m.commit(a).unwrap().is_empty());
    assert!(m.begin().is_ok());
}

/// A refusal is an error, and carries the node that it speaks of.
#[test]
fn texts() {
    let (mut m, root) = at_block();
    let file = m.add_file(&[root]).unwrap();
    let [a] = begin(&mut m);
    let refusal: Box<dyn std::error::Error> = m.try_lock(a, file, Mode::S).unwrap_err().into();
    assert_eq!(refusal.to_string(), "NeedParents");
    assert_eq!(refusal.downcast_ref(), Some(&Refusal::NeedParents(root)));
}
