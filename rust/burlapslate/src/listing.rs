//! Listings: the living transactions, their locks and waits, the last deadlock and counters.

use crate::board::Slots;
use crate::manager::{Manager, Wait};
use crate::mode::{Kind, Mode};
use crate::names::{Node, Txn};
use crate::sys;
use std::fmt;

/// What a transaction is doing.
#[non_exhaustive]
#[derive(Clone, Copy, PartialEq, Eq, Hash, Debug)]
pub enum Doing {
    /// It may request locks.
    Active,
    /// It waits for a lock.
    Waiting(Wait),
    /// It was condemned to end a deadlock, and can only abort.
    Condemned,
}

/// Its name, as `waits`.
impl fmt::Display for Doing {
    fn fmt(&self, f: &mut fmt::Formatter<'_>) -> fmt::Result {
        f.pad(match self {
            Doing::Active => "active",
            Doing::Waiting(_) => "waits",
            Doing::Condemned => "condemned",
        })
    }
}

/// A living transaction.
#[derive(Clone, Copy, PartialEq, Eq, Debug)]
pub struct TxnRow {
    /// Its name.
    pub txn: Txn,
    /// What it is doing.
    pub doing: Doing,
    /// The transactions for which it waits: the holders of the node in a mode that is incompatible with the
    /// wanted one, and the waiters ahead in its queue.
    pub waits_for: Slots,
}

/// Slot, age, what it is doing, what it waits for, and for whom.
impl fmt::Display for TxnRow {
    fn fmt(&self, f: &mut fmt::Formatter<'_>) -> fmt::Result {
        write!(
            f,
            "{:>4} {:>12} {}",
            self.txn.slot(),
            self.txn.age(),
            self.doing
        )?;
        if let Doing::Waiting(wait) = self.doing {
            write!(
                f,
                "     {:4} {}, behind{}",
                wait.mode,
                wait.node,
                Spaced(self.waits_for)
            )?;
        }
        Ok(())
    }
}

/// A node that a transaction holds or waits for.
#[derive(Clone, Copy, PartialEq, Eq, Debug)]
pub struct LockRow {
    /// The transaction whose lock it is.
    pub txn: Txn,
    /// The node.
    pub node: Node,
    /// The mode in which it is held, [`NL`](Mode::NL) if the transaction only waits for it.
    pub mode: Mode,
    /// The mode for which the transaction waits there; `None` if it does not.
    pub wants: Option<Mode>,
    /// How many of its children are held.
    pub children: u64,
}

/// Slot, age, the mode held, the mode waited for, the children held, and the node.
impl fmt::Display for LockRow {
    fn fmt(&self, f: &mut fmt::Formatter<'_>) -> fmt::Result {
        let wants = self.wants.map_or("-".to_string(), |mode| mode.to_string());
        let (slot, age) = (self.txn.slot(), self.txn.age());
        write!(
            f,
            "{slot:>4} {age:>12} {:4} {wants:5} {:>8} {}",
            self.mode, self.children, self.node
        )
    }
}

/// A waiter of a node.
#[derive(Clone, Copy, PartialEq, Eq, Debug)]
pub struct Waiter {
    /// Its name.
    pub txn: Txn,
    /// The mode in which it wants the node.
    pub wants: Mode,
}

/// Slot and wanted mode.
impl fmt::Display for Waiter {
    fn fmt(&self, f: &mut fmt::Formatter<'_>) -> fmt::Result {
        write!(f, "{:>8} {}", self.txn.slot(), self.wants)
    }
}

/// A member of a deadlock.
#[derive(Clone, Copy, PartialEq, Eq, Debug)]
pub struct Stuck {
    /// Its name.
    pub txn: Txn,
    /// What it waits for.
    pub wait: Wait,
    /// The slots of the members for which it waits.
    pub waits_for: Slots,
}

/// Slot, age, the wanted mode and node, and for whom it waits.
impl fmt::Display for Stuck {
    fn fmt(&self, f: &mut fmt::Formatter<'_>) -> fmt::Result {
        let (slot, age, wait) = (self.txn.slot(), self.txn.age(), self.wait);
        let behind = Spaced(self.waits_for);
        write!(
            f,
            "{slot:>4} {age:>12} {:5} {}, behind{behind}",
            wait.mode, wait.node
        )
    }
}

/// A deadlock, as it was when its victim was condemned. Its transactions may have ended since.
#[derive(Clone, PartialEq, Eq, Debug)]
pub struct Deadlock {
    /// The transaction that was condemned to end it.
    pub victim: Txn,
    /// The transactions on a cycle with the settled one, the victim among them, by rising slot.
    pub stuck: Vec<Stuck>,
}

/// The victim, and a row for each member.
impl fmt::Display for Deadlock {
    fn fmt(&self, f: &mut fmt::Formatter<'_>) -> fmt::Result {
        writeln!(
            f,
            "victim: slot {}, age {}",
            self.victim.slot(),
            self.victim.age()
        )?;
        writeln!(f, "slot          age wants waits for")?;
        self.stuck
            .iter()
            .try_for_each(|stuck| writeln!(f, "{stuck}"))
    }
}

/// What a manager has been doing since it was made, in commands that it accepted. Each of these is
/// a count that stops at the greatest `u64`.
#[repr(C)]
#[derive(Clone, Copy, PartialEq, Eq, Debug, Default)]
pub struct Counters {
    /// All accepted commands; questions do not count.
    pub accepted: u64,
    /// Requests, by lock or by try, that were granted at once.
    pub granted: u64,
    /// Locks that were answered with a wait.
    pub waited: u64,
    /// Requests for a node that the transaction held already, unless refused.
    pub conversions: u64,
    /// Waits that ended with a grant.
    pub granted_later: u64,
    /// Transactions that were condemned to end a deadlock.
    pub condemned: u64,
    /// Waits that ended because the node moved.
    pub moved: u64,
    /// Waits that ended because the node was removed.
    pub gone: u64,
    /// Escalations that were done.
    pub escalations: u64,
    /// Children that escalations released.
    pub released_children: u64,
    /// The most transactions that waited at once, after a lock that waits.
    pub most_waiting: u64,
    /// The most that waited for one node at once, after a lock that waits for it.
    pub longest_queue: u64,
    /// Conversions that were granted at once on a node for which another transaction still waits.
    pub passed: u64,
}

/// A line for each: the number, and what it counts.
impl fmt::Display for Counters {
    fn fmt(&self, f: &mut fmt::Formatter<'_>) -> fmt::Result {
        let lines = [
            (self.accepted, "commands were accepted"),
            (self.granted, "locks were granted at once"),
            (self.waited, "locks were left waiting"),
            (
                self.conversions,
                "locks were of a node that was held already",
            ),
            (self.granted_later, "waits ended with a grant"),
            (
                self.condemned,
                "transactions were condemned to end a deadlock",
            ),
            (self.moved, "waits ended since the node moved"),
            (self.gone, "waits ended since the node was gone"),
            (self.escalations, "escalations were done"),
            (self.released_children, "locks were released by them"),
            (self.most_waiting, "transactions waited at once, at most"),
            (self.longest_queue, "waited for one node at once, at most"),
            (
                self.passed,
                "locks were raised while somebody waited for their node",
            ),
        ];
        lines
            .iter()
            .try_for_each(|(count, what)| writeln!(f, "{count:<12} {what}"))
    }
}

/// Slots, with a space before each.
struct Spaced(Slots);

impl fmt::Display for Spaced {
    fn fmt(&self, f: &mut fmt::Formatter<'_>) -> fmt::Result {
        self.0.iter().try_for_each(|slot| write!(f, " {slot}"))
    }
}

/// All that there is in a manager, of one moment, to be printed ([`Manager::listing`]): counters,
/// transactions, the waits of a table by their length, the locks of each transaction, queues and the last deadlock, in
/// columns.
#[derive(Clone, Copy, Debug)]
pub struct Listing<'a> {
    pub(crate) manager: &'a Manager,
}

impl Listing<'_> {
    /// A node, with what it is.
    fn named(&self, node: Node) -> String {
        let kind = match self.manager.kind(node) {
            Ok(Kind::Inner) => "inner",
            Ok(Kind::File) => "file",
            Ok(Kind::Index) => "index",
            Ok(Kind::Interval) => "interval",
            Ok(Kind::Record) => "record",
            Err(_) => "gone",
        };
        format!("{kind} {node}")
    }

    /// The waits of a table, the longest first. A manager that is no table's knows no time.
    fn waits(&self, f: &mut fmt::Formatter<'_>) -> fmt::Result {
        let Some(waits) = self.manager.waits_by_age() else {
            return Ok(());
        };
        writeln!(
            f,
            "\nWaits, the longest first:\n     seconds slot          age wants node"
        )?;
        for (row, waited) in waits {
            let Doing::Waiting(wait) = row.doing else {
                continue;
            };
            let (slot, age, node) = (row.txn.slot(), row.txn.age(), self.named(wait.node));
            let (seconds, micros) = (waited.as_secs(), waited.subsec_micros());
            writeln!(
                f,
                "{seconds:>5}.{micros:06} {slot:>4} {age:>12} {:5} {node}",
                wait.mode
            )?;
        }
        Ok(())
    }

    /// Of each node with a queue, its holders and its waiters.
    fn queues(&self, f: &mut fmt::Formatter<'_>) -> fmt::Result {
        for row in self.manager.transactions() {
            let Doing::Waiting(Wait { node, .. }) = row.doing else {
                continue;
            };
            let queue: Vec<Waiter> = self.manager.queue(node).into_iter().flatten().collect();
            if queue.first().is_none_or(|first| first.txn != row.txn) {
                continue; // It is listed with its first waiter.
            }
            writeln!(f, "{}", self.named(node))?;
            for slot in self.manager.holders(node).into_iter().flatten() {
                writeln!(f, "    held {slot:>9} {}", self.manager.mode_at(slot, node))?;
            }
            for (place, waiter) in queue.iter().enumerate() {
                writeln!(f, "{:>8}. {waiter}", place + 1)?;
            }
        }
        Ok(())
    }
}

impl fmt::Display for Listing<'_> {
    fn fmt(&self, f: &mut fmt::Formatter<'_>) -> fmt::Result {
        let m = self.manager;
        write!(f, "Counters, since the table was made:\n{}", m.counters())?;
        writeln!(f, "\nTransactions:\nslot          age doing     waits for")?;
        for row in m.transactions() {
            writeln!(f, "{row}")?;
        }
        self.waits(f)?;
        writeln!(
            f,
            "\nLocks by transaction:\nslot          age mode wants children node"
        )?;
        for row in m.transactions().flat_map(|row| m.locks(row.txn)) {
            writeln!(f, "{row}")?;
        }
        writeln!(f, "\nQueues:\n   place     slot mode")?;
        self.queues(f)?;
        writeln!(f, "\nLast deadlock:")?;
        match m.last_deadlock() {
            Some(deadlock) => write!(f, "{deadlock}"),
            None => writeln!(f, "none"),
        }
    }
}

impl Deadlock {
    /// What the library wrote.
    pub(crate) fn of(deadlock: &sys::Deadlock) -> Deadlock {
        let stuck = deadlock.at[..deadlock.count].iter().map(|it| Stuck {
            txn: it.txn,
            wait: Wait {
                node: it.node,
                mode: Mode::of(it.mode),
            },
            waits_for: it.waits_for,
        });
        Deadlock {
            victim: deadlock.victim,
            stuck: stuck.collect(),
        }
    }
}
