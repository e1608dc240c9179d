//! What transactions are told.

use crate::mode::Mode;
use crate::names::{Node, Txn};
use crate::sys;
use std::iter::FusedIterator;
use std::slice;

/// What a transaction is told of another transaction's command: how its wait ended.
#[non_exhaustive]
#[derive(Clone, Copy, PartialEq, Eq, Hash, Debug)]
pub enum Notice {
    /// Its lock is granted.
    Granted {
        /// The transaction that is told.
        txn: Txn,
        /// The node for which it waited.
        node: Node,
        /// The mode in which it now holds the node.
        mode: Mode,
    },
    /// It was condemned to end a deadlock, and can only abort.
    Victim {
        /// The transaction that is told.
        txn: Txn,
    },
    /// The node moved to where the transaction lacks the locks above it. Its wait is over; it may lock
    /// there and request the node again.
    Moved {
        /// The transaction that is told.
        txn: Txn,
    },
    /// The node was removed: the wait is over, and there is nothing to request again.
    Gone {
        /// The transaction that is told.
        txn: Txn,
    },
}

impl Notice {
    /// The transaction that is told.
    pub fn txn(&self) -> Txn {
        match *self {
            Notice::Granted { txn, .. }
            | Notice::Victim { txn }
            | Notice::Moved { txn }
            | Notice::Gone { txn } => txn,
        }
    }

    fn of(notice: &sys::Notice) -> Notice {
        let txn = notice.txn;
        match notice.kind {
            sys::TOLD_GRANTED => Notice::Granted {
                txn,
                node: notice.node,
                mode: Mode::of(notice.mode),
            },
            sys::TOLD_VICTIM => Notice::Victim { txn },
            sys::TOLD_MOVED => Notice::Moved { txn },
            sys::TOLD_GONE => Notice::Gone { txn },
            kind => unreachable!("the library told a notice of kind {kind}"),
        }
    }
}

/// The notices of one command, which end the waits of others: at most one for each transaction, by
/// rising slot.
///
/// They are stored in the manager, in a place that each command fills anew, and are read there: they
/// take no memory, are not copied, and must be read before the manager is used again. To keep them,
/// collect them.
///
/// The notified transactions sleep until the program wakes them, so a caller must not drop notices unread
/// unless it knows that nobody waits.
#[must_use = "whoever is told waits no more, and has to learn it from here"]
#[derive(Clone, Debug)]
pub struct Notices<'a> {
    left: slice::Iter<'a, sys::Notice>,
}

impl<'a> Notices<'a> {
    pub(crate) fn of(told: &'a sys::Notices) -> Notices<'a> {
        Notices {
            left: told.as_slice().iter(),
        }
    }

    /// Whether none is left.
    pub fn is_empty(&self) -> bool {
        self.left.len() == 0
    }
}

impl Iterator for Notices<'_> {
    type Item = Notice;

    fn next(&mut self) -> Option<Notice> {
        self.left.next().map(Notice::of)
    }

    fn size_hint(&self) -> (usize, Option<usize>) {
        self.left.size_hint()
    }
}

impl ExactSizeIterator for Notices<'_> {}

impl FusedIterator for Notices<'_> {}

#[cfg(test)]
mod tests {
    use super::*;

    #[test]
    #[should_panic(expected = "kind 5")]
    fn a_notice_has_one_of_four_kinds() {
        let notice = sys::Notice {
            txn: Txn::NONE,
            node: Node::NONE,
            kind: 5,
            mode: 0,
        };
        let _ = Notice::of(&notice);
    }
}
