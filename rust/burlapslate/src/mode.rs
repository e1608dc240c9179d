//! Modes, kinds of nodes, ways of detection and choices of victims.

use std::fmt;

/// A lock mode.
///
/// Different transactions can hold these on one node: `IS` with all but `X`, `IX` with `IS` and `IX`,
/// `S` with `IS` and `S`, `SIX` with `IS`, and `X` with none.
#[repr(u32)]
#[derive(Clone, Copy, PartialEq, Eq, Hash, Debug)]
pub enum Mode {
    /// No lock. It is answered, and a request for it is refused.
    NL = 0,
    /// The intention to read below the node.
    IS = 1,
    /// The intention to write below the node.
    IX = 2,
    /// Shared: reads the node and all below it.
    S = 3,
    /// Shared, with the intention to write below the node.
    SIX = 4,
    /// Exclusive: writes the node and all below it.
    X = 5,
}

impl Mode {
    /// The mode of a number that the library answered.
    pub(crate) fn of(number: u32) -> Mode {
        match number {
            0 => Mode::NL,
            1 => Mode::IS,
            2 => Mode::IX,
            3 => Mode::S,
            4 => Mode::SIX,
            5 => Mode::X,
            _ => unreachable!("the library answered {number} for a mode"),
        }
    }
}

/// Its name, as `SIX`.
impl fmt::Display for Mode {
    fn fmt(&self, f: &mut fmt::Formatter<'_>) -> fmt::Result {
        f.pad(match self {
            Mode::NL => "NL",
            Mode::IS => "IS",
            Mode::IX => "IX",
            Mode::S => "S",
            Mode::SIX => "SIX",
            Mode::X => "X",
        })
    }
}

/// What a node is.
#[derive(Clone, Copy, PartialEq, Eq, Hash, Debug)]
pub enum Kind {
    /// An inner node, as a data base or an area: a root, or below other inner nodes.
    Inner,
    /// A file, below inner nodes.
    File,
    /// An index of a file, below inner nodes.
    Index,
    /// An interval of an index, below it.
    Interval,
    /// A record, below its file and, for each index of the file, the interval of its key.
    Record,
}

impl Kind {
    /// The kind of a number that the library answered.
    pub(crate) fn of(number: u64) -> Kind {
        match number {
            1 => Kind::Inner,
            2 => Kind::File,
            3 => Kind::Index,
            4 => Kind::Interval,
            5 => Kind::Record,
            _ => unreachable!("the library answered {number} for a kind"),
        }
    }
}

/// How deadlocks are detected.
#[repr(u32)]
#[derive(Clone, Copy, PartialEq, Eq, Hash, Debug)]
pub enum Detect {
    /// When a transaction begins to wait: a lock that closes a cycle of waits has a victim at
    /// once.
    AtBlock = 0,
    /// By a watcher: [`Table::watch_over`](crate::Table::watch_over), or a watcher of yours,
    /// which reads boards ([`Manager::board`](crate::Manager::board)) and asks
    /// [`Manager::settle`](crate::Manager::settle) for victims. Until then a cycle of waits remains.
    ByWatcher = 1,
}

impl Detect {
    /// The way of detection of a number that the library answered.
    pub(crate) fn of(number: u64) -> Detect {
        match number {
            0 => Detect::AtBlock,
            1 => Detect::ByWatcher,
            _ => unreachable!("the library answered {number} for a way of detection"),
        }
    }
}

/// How a deadlock's victims are chosen.
#[non_exhaustive]
#[repr(u32)]
#[derive(Clone, Copy, PartialEq, Eq, Hash, Debug)]
pub enum Victims {
    /// The youngest member of a cycle with the transaction that closed it, repeated until that one is on
    /// no cycle.
    Youngest = 0,
    /// The youngest of the members each of which alone takes that transaction off all its cycles, so that
    /// one victim is always enough.
    Fewest = 1,
}

impl Victims {
    /// The choice of a number that the library answered.
    pub(crate) fn of(number: u64) -> Victims {
        match number {
            0 => Victims::Youngest,
            1 => Victims::Fewest,
            _ => unreachable!("the library answered {number} for a choice of victims"),
        }
    }
}
