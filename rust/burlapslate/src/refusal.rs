//! Why a call is refused.

use crate::names::Node;
use crate::sys::{self, Reply};
use std::error::Error;
use std::fmt;

/// Why a call was refused. A refused call changes nothing and notifies nobody. If several refusals
/// apply, the first in the order of the call's list is answered.
#[non_exhaustive]
#[derive(Clone, Copy, PartialEq, Eq, Hash, Debug)]
pub enum Refusal {
    /// The allocator refused. Calls that take memory answer it, after all other refusals unless a call
    /// says otherwise.
    NoMemory,
    /// A name names no node.
    NoSuchNode,
    /// The name names no living transaction. Of
    /// [`GroupSession::release_since`](crate::GroupSession::release_since): or the savepoint is another transaction's.
    NoSuchTxn,
    /// The transaction waits for a lock.
    TxnWaiting,
    /// The transaction was chosen as a victim, and can only abort.
    TxnCondemned,
    /// `NL` was requested, or a mode other than `S` or `X` on a record.
    BadMode,
    /// This parent is not held as the call needs it.
    NeedParents(Node),
    /// The transaction does not hold the node.
    NotHeld,
    /// The transaction holds this child of the node.
    HeldChild(Node),
    /// The lock cannot be granted at once.
    WouldBlock,
    /// The most transactions that may live at once do.
    TooManyTxns,
    /// The most nodes that may live at once do, intervals and records among them: 65,536, unless another
    /// number was chosen.
    TooManyNodes,
    /// A node of the wrong kind for its place, one parent twice, or too few parents.
    BadParents,
    /// Without the exclusive locks that a delete, a rekey, a move, a drop or an index of a file in use needs.
    NeedExclusive,
    /// The transaction waits for nothing.
    NotWaiting,
    /// The file has records. Of [`add_index`](crate::Manager::add_index): or a row of it had a node. Of
    /// [`drop_node`](crate::Manager::drop_node): or the file to be removed has indexes.
    FileInUse,
    /// Bounds that do not rise from above 0, too many of them, or not a key for each index.
    BadKeys,
    /// A counter is at its end, near 2^64. All calls but questions answer it, before all other refusals
    /// except [`Refusal::BadNumber`], [`Refusal::RowsByNumber`] and [`Refusal::NotRows`].
    WornOut,
    /// The new parent is the node itself or is below it; this is that parent.
    Cycle(Node),
    /// A record cannot be forgotten while some transaction holds it or waits for it.
    RecordInUse,
    /// An inner node with children cannot be dropped.
    HasChildren,
    /// A transaction that holds more than intentions, or a node for which another waits, cannot be renewed.
    NeedRelease,
    /// The file is a file of rows: only calls about rows make, remove and change its records. It is answered
    /// before all other refusals.
    RowsByNumber,
    /// The file is no file of rows. It is answered before all other refusals, except that
    /// [`Refusal::NoMemory`] may be answered before it.
    NotRows,
    /// There are [`MOST_WATCHERS`](crate::MOST_WATCHERS) watchers already.
    TooManyWatchers,
    /// A call that could sleep, in a waker or while the thread holds a table ([`Table::with`](crate::Table::with),
    /// [`Group::with_table`](crate::Group::with_table)); or any call of the table that the thread holds, or of a
    /// [`Group`](crate::Group) or a table with parts while it holds any table; or the part of
    /// [`Manager::next_copy`](crate::Manager::next_copy) is the manager itself.
    InUse,
    /// More than 8 parents, or a manager for none or more than [`SLOTS`](crate::SLOTS) transactions, or a number of a
    /// part or a table that a [`Group`](crate::Group) does not have or cannot be made with. It is answered before all
    /// other refusals. Or a file that cannot be written to.
    BadNumber,
    /// A transaction has begun in the table, or a record was made: it cannot be traced any more.
    TooLate,
    /// The table has no trace.
    NoTrace,
    /// A trace could not be written to its end; or it has no line for this call.
    NotWritten,
    /// A table with parts ([`Options::parts`](crate::Options::parts)) has no such call; or it is a call of
    /// [`Table`](crate::Table) that would end the transaction of a session.
    InParts,
}

impl Refusal {
    /// The refusal of a reply that is one.
    pub(crate) fn of(reply: &Reply) -> Refusal {
        match reply.status {
            sys::NO_MEMORY => Refusal::NoMemory,
            sys::NO_SUCH_NODE => Refusal::NoSuchNode,
            sys::NO_SUCH_TXN => Refusal::NoSuchTxn,
            sys::TXN_WAITING => Refusal::TxnWaiting,
            sys::TXN_CONDEMNED => Refusal::TxnCondemned,
            sys::BAD_MODE => Refusal::BadMode,
            sys::NEED_PARENTS => Refusal::NeedParents(reply.node),
            sys::NOT_HELD => Refusal::NotHeld,
            sys::HELD_CHILD => Refusal::HeldChild(reply.node),
            sys::WOULD_BLOCK => Refusal::WouldBlock,
            sys::TOO_MANY_TXNS => Refusal::TooManyTxns,
            sys::TOO_MANY_NODES => Refusal::TooManyNodes,
            sys::BAD_PARENTS => Refusal::BadParents,
            sys::NEED_EXCLUSIVE => Refusal::NeedExclusive,
            sys::NOT_WAITING => Refusal::NotWaiting,
            sys::FILE_IN_USE => Refusal::FileInUse,
            sys::BAD_KEYS => Refusal::BadKeys,
            sys::WORN_OUT => Refusal::WornOut,
            sys::CYCLE => Refusal::Cycle(reply.node),
            sys::RECORD_IN_USE => Refusal::RecordInUse,
            sys::HAS_CHILDREN => Refusal::HasChildren,
            sys::NEED_RELEASE => Refusal::NeedRelease,
            sys::TOO_MANY_WATCHERS => Refusal::TooManyWatchers,
            sys::ROWS_BY_NUMBER => Refusal::RowsByNumber,
            sys::NOT_ROWS => Refusal::NotRows,
            sys::IN_USE => Refusal::InUse,
            sys::BAD_NUMBER => Refusal::BadNumber,
            sys::TOO_LATE => Refusal::TooLate,
            sys::NO_TRACE => Refusal::NoTrace,
            sys::NOT_WRITTEN => Refusal::NotWritten,
            sys::IN_PARTS => Refusal::InParts,
            // Null pointers, places without a manager and the like cannot come from these types.
            status => unreachable!("the library answered with status {status}"),
        }
    }

    /// Its name, as the header's `bs_text` has it.
    fn text(self) -> &'static str {
        match self {
            Refusal::NoMemory => "NoMemory",
            Refusal::NoSuchNode => "NoSuchNode",
            Refusal::NoSuchTxn => "NoSuchTxn",
            Refusal::TxnWaiting => "TxnWaiting",
            Refusal::TxnCondemned => "TxnCondemned",
            Refusal::BadMode => "BadMode",
            Refusal::NeedParents(_) => "NeedParents",
            Refusal::NotHeld => "NotHeld",
            Refusal::HeldChild(_) => "HeldChild",
            Refusal::WouldBlock => "WouldBlock",
            Refusal::TooManyTxns => "TooManyTxns",
            Refusal::TooManyNodes => "TooManyNodes",
            Refusal::BadParents => "BadParents",
            Refusal::NeedExclusive => "NeedExclusive",
            Refusal::NotWaiting => "NotWaiting",
            Refusal::FileInUse => "FileInUse",
            Refusal::BadKeys => "BadKeys",
            Refusal::WornOut => "WornOut",
            Refusal::Cycle(_) => "Cycle",
            Refusal::RecordInUse => "RecordInUse",
            Refusal::HasChildren => "HasChildren",
            Refusal::NeedRelease => "NeedRelease",
            Refusal::RowsByNumber => "RowsByNumber",
            Refusal::NotRows => "NotRows",
            Refusal::TooManyWatchers => "TooManyWatchers",
            Refusal::InUse => "InUse",
            Refusal::BadNumber => "BadNumber",
            Refusal::TooLate => "TooLate",
            Refusal::NoTrace => "NoTrace",
            Refusal::NotWritten => "NotWritten",
            Refusal::InParts => "InParts",
        }
    }
}

/// Its name, for a log, without the node that it may carry.
impl fmt::Display for Refusal {
    fn fmt(&self, f: &mut fmt::Formatter<'_>) -> fmt::Result {
        f.pad(self.text())
    }
}

impl Error for Refusal {}

/// A reply that is no refusal.
pub(crate) fn accepted(reply: Reply) -> Result<Reply, Refusal> {
    if reply.status == sys::DONE {
        Ok(reply)
    } else {
        Err(Refusal::of(&reply))
    }
}

/// The same of a call that answers nothing else.
pub(crate) fn done(reply: Reply) -> Result<(), Refusal> {
    accepted(reply).map(drop)
}

#[cfg(test)]
mod tests {
    use super::*;

    fn reply(status: u32) -> Reply {
        Reply {
            status,
            ..Reply::default()
        }
    }

    /// The names of the statuses by number, those that the safe calls never answer left out.
    const TEXTS: [(u32, &str); 28] = [
        (1, "NoMemory"),
        (2, "NoSuchNode"),
        (3, "NoSuchTxn"),
        (4, "TxnWaiting"),
        (5, "TxnCondemned"),
        (6, "BadMode"),
        (7, "NeedParents"),
        (8, "NotHeld"),
        (9, "HeldChild"),
        (10, "WouldBlock"),
        (11, "TooManyTxns"),
        (12, "TooManyNodes"),
        (13, "BadParents"),
        (14, "NeedExclusive"),
        (15, "NotWaiting"),
        (17, "FileInUse"),
        (18, "BadKeys"),
        (19, "WornOut"),
        (21, "Cycle"),
        (22, "RecordInUse"),
        (23, "HasChildren"),
        (24, "NeedRelease"),
        (66, "BadNumber"),
        (67, "InUse"),
        (70, "TooManyWatchers"),
        (71, "RowsByNumber"),
        (72, "NotRows"),
        (78, "InParts"),
    ];

    #[test]
    fn each_status_has_its_refusal() {
        for (status, text) in TEXTS {
            assert_eq!(accepted(reply(status)).unwrap_err().to_string(), text);
        }
        assert!(accepted(reply(0)).is_ok());
    }

    #[test]
    #[should_panic(expected = "status 65")]
    fn a_place_without_manager_is_no_refusal() {
        let _ = accepted(reply(65));
    }
}
