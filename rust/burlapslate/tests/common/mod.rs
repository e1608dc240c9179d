//! What the stories have in common: calls that have to go as they say, and a file with records.

#![allow(dead_code)] // Each test program uses some of it.

use burlapslate::{Asked, Detect, Manager, Mode, Node, Notice, Notices, Refusal, Txn, SLOTS};

/// A manager with a root.
pub fn manager(detect: Detect) -> (Manager, Node) {
    let mut m = Manager::new(detect, SLOTS).unwrap();
    let root = m.add_inner(&[]).unwrap();
    (m, root)
}

pub fn at_block() -> (Manager, Node) {
    manager(Detect::AtBlock)
}

/// So many transactions, the oldest first.
pub fn begin<const COUNT: usize>(m: &mut Manager) -> [Txn; COUNT] {
    [(); COUNT].map(|()| m.begin().unwrap())
}

/// Asks for a lock, which tells nobody.
pub fn ask(m: &mut Manager, txn: Txn, node: Node, mode: Mode) -> Asked {
    let (asked, told) = m.lock(txn, node, mode).unwrap();
    nobody(told);
    asked
}

/// Takes locks that are granted at once.
pub fn grant(m: &mut Manager, txn: Txn, nodes: &[Node], mode: Mode) {
    for &node in nodes {
        assert_eq!(ask(m, txn, node, mode), Asked::Granted(mode));
    }
}

/// Asks for a lock that has to be waited for.
pub fn wait(m: &mut Manager, txn: Txn, node: Node, mode: Mode) {
    assert_eq!(ask(m, txn, node, mode), Asked::Waiting);
}

/// Asks for a lock that is refused.
pub fn refused_lock(m: &mut Manager, txn: Txn, node: Node, mode: Mode) -> Refusal {
    m.lock(txn, node, mode).unwrap_err()
}

/// Nobody is told.
#[track_caller]
pub fn nobody(told: Notices) {
    tells(told, &[]);
}

/// These are told.
#[track_caller]
pub fn tells(told: Notices, wanted: &[Notice]) {
    assert_eq!(told.collect::<Vec<_>>(), wanted);
}

/// A file under a root, with one index of two intervals, parted at 100, and a record in each.
#[derive(Clone, Copy)]
pub struct Store {
    pub root: Node,
    pub file: Node,
    pub index: Node,
    pub below: Node,
    pub above: Node,
    pub low: Node,
    pub high: Node,
}

/// Makes a file, with records whose keys are 50 and 200.
pub fn store(m: &mut Manager, root: Node) -> Store {
    let file = m.add_file(&[root]).unwrap();
    let index = m.add_index(&[root], file, &[100]).unwrap();
    let below = m.interval(index, 0).unwrap();
    let above = m.interval(index, 1).unwrap();
    let [txn] = begin(m);
    grant(m, txn, &[root, file, index, below, above], Mode::IX);
    let low = m.insert(txn, file, &[50]).unwrap();
    let high = m.insert(txn, file, &[200]).unwrap();
    nobody(m.commit(txn).unwrap());
    Store {
        root,
        file,
        index,
        below,
        above,
        low,
        high,
    }
}

impl Store {
    /// All that a writer of a record in the lower interval holds above it.
    pub fn path_below(&self) -> [Node; 4] {
        [self.root, self.file, self.index, self.below]
    }
}
