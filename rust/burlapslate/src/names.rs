//! The names of nodes and transactions.

use std::fmt;

/// The name of a node. It is the same as long as the node lives, and is never given again: after the node
/// is removed it names nothing, and each call refuses it. So names are safe to keep, anywhere and as long
/// as you like.
///
/// A name is good with the manager that gave it. With another manager it names nothing, or whatever
/// node has that name there.
#[repr(C)]
#[derive(Clone, Copy, PartialEq, Eq, Hash, Debug)]
pub struct Node {
    pub(crate) key: usize,
    pub(crate) birth: u64,
}

impl Node {
    /// A name that no node has, in any manager: each call refuses it.
    pub const NONE: Node = Node { key: 0, birth: 0 };
}

/// A row of a file of rows ([`Manager::add_row_file`]), by the number that the engine has for it there:
/// any number at all.
///
/// It has a node while some transaction holds it or waits for it ([`Manager::lock_row`]).
///
/// [`Manager::add_row_file`]: crate::Manager::add_row_file
/// [`Manager::lock_row`]: crate::Manager::lock_row
#[derive(Clone, Copy, PartialEq, Eq, Hash, Debug)]
pub struct Row {
    /// Its file.
    pub file: Node,
    /// Its number there.
    pub number: u64,
}

/// Its two numbers, as `12/34`.
impl fmt::Display for Node {
    fn fmt(&self, f: &mut fmt::Formatter<'_>) -> fmt::Result {
        write!(f, "{}/{}", self.key, self.birth)
    }
}

/// The name of a transaction. It is the same as long as the transaction lives, and is never given again:
/// after it has ended the name names nothing, and each call refuses it, also when another transaction has
/// its slot.
///
/// As with [`Node`], a name is good with the manager that gave it.
#[repr(C)]
#[derive(Clone, Copy, PartialEq, Eq, Hash, Debug)]
pub struct Txn {
    pub(crate) slot: u32,
    pub(crate) age: u64,
}

impl Txn {
    /// A name that no transaction has, in any manager: each call refuses it.
    pub const NONE: Txn = Txn { slot: 0, age: 0 };

    /// The transaction that a board shows in a slot.
    pub(crate) fn at(slot: usize, age: u64) -> Txn {
        let slot = u32::try_from(slot).expect("a slot is below `SLOTS`");
        Txn { slot, age }
    }

    /// Its slot, below [`SLOTS`](crate::SLOTS). No other living transaction has it, so it is good as an index of
    /// what you keep for each.
    pub fn slot(self) -> usize {
        self.slot as usize
    }

    /// Its number in the order of begins, from 1 on: of several transactions the youngest has the
    /// greatest.
    pub fn age(self) -> u64 {
        self.age
    }
}
