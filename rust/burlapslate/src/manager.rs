//! The manager: its commands and questions.

use crate::board::{Board, Slots};
use crate::listing::{Counters, Deadlock, Doing, Listing, LockRow, TxnRow, Waiter};
use crate::mode::{Detect, Kind, Mode, Victims};
use crate::names::{Node, Row, Txn};
use crate::notices::Notices;
use crate::refusal::{accepted, Refusal};
use crate::session::Stop;
use crate::sys::{self, Pinned, Reply};
use crate::watcher::Watcher;
use crate::{MOST_PARTS, SLOTS};
use std::fmt;
use std::time::Duration;

/// What a request for a lock answers.
#[must_use = "a lock that is waited for is not granted"]
#[derive(Clone, Copy, PartialEq, Eq, Hash, Debug)]
pub enum Asked {
    /// Granted: the transaction holds the node in this mode, the supremum of what it held and what it
    /// requested.
    Granted(Mode),
    /// The transaction waits, and does nothing else until a notice of another transaction's command ends
    /// the wait, or it cancels or aborts. [`Manager::waiting`] says for what.
    Waiting,
    /// Its wait closed a cycle of waits, and it is the victim: it is condemned, keeps its locks, and can
    /// only abort.
    Victim,
}

impl Asked {
    /// By what a lock was answered.
    fn of(reply: &Reply) -> Result<Asked, Refusal> {
        match reply.status {
            sys::DONE => Ok(Asked::Granted(Mode::of(reply.mode))),
            sys::WAITING => Ok(Asked::Waiting),
            sys::VICTIM => Ok(Asked::Victim),
            _ => Err(Refusal::of(reply)),
        }
    }
}

/// What a request for a row's lock answers.
#[must_use = "a row that is waited for is not held, and one that is held may have other keys"]
#[derive(Clone, Copy, PartialEq, Eq, Hash, Debug)]
pub enum RowAsked {
    /// Granted: the transaction holds the row in this mode, and the keys of the call are those of the
    /// row's node.
    Granted(Mode),
    /// Granted as well, but the row's node has other keys than the call's. The engine reads the row's
    /// keys again. If they differ from the call's, it unlocks the row and starts again.
    OtherKeys(Mode),
    /// The transaction waits, as with [`Asked::Waiting`]. After the grant the row is requested again; that
    /// does not wait, and says whether the keys are those of the row's node.
    Waiting,
    /// The transaction is condemned, as with [`Asked::Victim`].
    Victim,
}

impl RowAsked {
    /// By what a row's lock was answered.
    fn of(reply: &Reply) -> Result<RowAsked, Refusal> {
        match reply.status {
            sys::DONE => Ok(RowAsked::Granted(Mode::of(reply.mode))),
            sys::OTHER_KEYS => Ok(RowAsked::OtherKeys(Mode::of(reply.mode))),
            sys::WAITING => Ok(RowAsked::Waiting),
            sys::VICTIM => Ok(RowAsked::Victim),
            _ => Err(Refusal::of(reply)),
        }
    }
}

/// How far a path was locked.
#[must_use = "a path may be locked in part"]
#[derive(Clone, Copy, PartialEq, Eq, Hash, Debug)]
pub enum Reached {
    /// To its end: the transaction holds the node in this mode.
    Granted(Mode),
    /// To this node, the path's own or one above it, for which the transaction waits. After the grant the
    /// path is requested again.
    Waiting(Node),
    /// To a lock whose wait closed a cycle of waits of which the transaction is the victim: it is
    /// condemned, keeps its locks, and can only abort.
    Victim,
    /// To this node above, which was granted because others were condemned. The path is requested again
    /// after all notices were delivered.
    Above(Node),
}

/// What a transaction waits for.
#[derive(Clone, Copy, PartialEq, Eq, Hash, Debug)]
pub struct Wait {
    /// The node.
    pub node: Node,
    /// The mode in which it would hold the node.
    pub mode: Mode,
}

/// A savepoint of a transaction: how many nodes it held or waited for.
#[derive(Clone, Copy, PartialEq, Eq, Hash, Debug)]
pub struct Mark(pub(crate) usize);

/// What an escalation did.
#[derive(Clone, Copy, PartialEq, Eq, Hash, Debug)]
pub struct Escalated {
    /// The mode in which the node is held now.
    pub mode: Mode,
    /// How many children were released.
    pub released: u32,
    /// How many held children were kept.
    pub kept: u32,
}

impl Escalated {
    pub(crate) fn of(reply: &Reply) -> Escalated {
        Escalated {
            mode: Mode::of(reply.mode),
            released: reply.released,
            kept: reply.kept,
        }
    }
}

/// A lock manager.
///
/// One thread uses it at a time: it is `Send`, and not `Sync`. Threads can share one in a `Mutex`. No
/// call waits, so none holds the mutex for long.
///
/// Commands take it by `&mut`. Questions change nothing and take it by `&`. A manager can be dropped
/// whatever its transactions do; that frees all its memory, and costs a walk over all that it has.
///
/// ```compile_fail,E0277
/// # use burlapslate::{Detect, Manager};
/// # let manager = Manager::new(Detect::AtBlock, 1).unwrap();
/// std::thread::scope(|scope| {
///     scope.spawn(|| manager.len()); // A second thread has no part in it.
/// });
/// ```
///
/// The notices of a command are kept in the manager, and must be read before its next call:
///
/// ```compile_fail,E0502
/// # use burlapslate::{Detect, Manager};
/// # let mut manager = Manager::new(Detect::AtBlock, 1)?;
/// # let txn = manager.begin()?;
/// let told = manager.commit(txn)?;
/// manager.len();
/// for notice in told {}
/// # Ok::<(), burlapslate::Refusal>(())
/// ```
pub struct Manager {
    pinned: Pinned,
}

/// What a manager or a table is made with.
///
/// ```
/// use burlapslate::{Detect, Manager, Options};
///
/// let manager = Manager::with_options(Options::new(Detect::AtBlock).nodes(1_000_000))?;
/// assert_eq!((manager.most_nodes(), manager.most_bounds()), (1_000_000, 256));
/// # Ok::<(), burlapslate::Refusal>(())
/// ```
#[derive(Clone, Copy, PartialEq, Eq, Debug)]
pub struct Options {
    detect: Detect,
    victims: Victims,
    transactions: usize,
    nodes: usize,
    bounds: usize,
    parts: usize,
}

impl Options {
    /// For [`SLOTS`] transactions and 65,536 nodes at once, 256 bounds of an index, and one part; the victim
    /// of a deadlock is its youngest member.
    pub fn new(detect: Detect) -> Options {
        Options {
            detect,
            victims: Victims::Youngest,
            transactions: SLOTS,
            nodes: 65_536,
            bounds: 256,
            parts: 1,
        }
    }

    /// With another choice of victims.
    pub fn victims(self, victims: Victims) -> Options {
        Options { victims, ..self }
    }

    /// For so many transactions at once, 1 to [`SLOTS`].
    pub fn transactions(self, transactions: usize) -> Options {
        Options {
            transactions,
            ..self
        }
    }

    /// For so many nodes at once, 1 to 2^31, records and intervals among them.
    pub fn nodes(self, nodes: usize) -> Options {
        Options { nodes, ..self }
    }

    /// For indexes with so many bounds at most, 1 to 2^31.
    pub fn bounds(self, bounds: usize) -> Options {
        Options { bounds, ..self }
    }

    /// For a [`Table`](crate::Table) with so many parts, 1 to [`MOST_PARTS`], each with a latch of its own. With more
    /// than one, the number of nodes is that of each part. A [`Manager`] has one part. A [`Group`](crate::Group) is
    /// told how many it has when it is made, and does not look at this.
    ///
    /// ```
    /// use burlapslate::{Detect, Mode, Options, Stop, Table};
    ///
    /// let table = Table::with_options(Options::new(Detect::AtBlock).parts(16))?;
    /// let db = table.add_inner(&[])?;
    /// let orders = table.add_file(&[db])?; // In each part by turns.
    /// let mut session = table.begin()?;
    /// assert_eq!(session.lock_path(orders, Mode::X), Ok(Mode::X));
    /// session.commit()?;
    /// # Ok::<(), Stop>(())
    /// ```
    pub fn parts(self, parts: usize) -> Options {
        Options { parts, ..self }
    }

    /// As the library takes them; refused if a number is out of range.
    pub(crate) fn checked(self) -> Result<sys::Options, Refusal> {
        let can_be = 1..=1 << 31;
        let can_have = (1..=SLOTS).contains(&self.transactions)
            && can_be.contains(&self.nodes)
            && can_be.contains(&self.bounds)
            && (1..=MOST_PARTS).contains(&self.parts);
        if !can_have {
            return Err(Refusal::BadNumber);
        }
        Ok(sys::Options {
            detect: self.detect as u32,
            victims: self.victims as u32,
            transactions: self.transactions as u32,
            nodes: self.nodes as u32,
            bounds: self.bounds as u32,
            parts: self.parts as u32,
        })
    }
}

impl Manager {
    /// Makes a manager for `most` transactions at once, 1 to [`SLOTS`], with a way of detection. The
    /// victim of a deadlock is its youngest member.
    ///
    /// Refused with [`BadNumber`](Refusal::BadNumber), [`NoMemory`](Refusal::NoMemory). Takes
    /// memory, more for more transactions.
    pub fn new(detect: Detect, most: usize) -> Result<Manager, Refusal> {
        Manager::choosing(detect, Victims::Youngest, most)
    }

    /// As [`new`](Manager::new), with a choice of victims.
    pub fn choosing(detect: Detect, victims: Victims, most: usize) -> Result<Manager, Refusal> {
        Manager::with_options(Options::new(detect).victims(victims).transactions(most))
    }

    /// By options.
    ///
    /// Refused with [`BadNumber`](Refusal::BadNumber), also for more than one part, and with
    /// [`NoMemory`](Refusal::NoMemory). Memory for nodes is taken as they are made.
    pub fn with_options(options: Options) -> Result<Manager, Refusal> {
        let options = options.checked()?;
        if options.parts > 1 {
            return Err(Refusal::BadNumber);
        }
        let mut pinned = Pinned::new().ok_or(Refusal::NoMemory)?;
        accepted(sys::bs_call_make_with(
            pinned.place_mut(),
            options.detect,
            options.victims,
            options.transactions,
            options.nodes,
            options.bounds,
        ))?;
        Ok(Manager { pinned })
    }

    /// The manager of a table, which is lent for questions.
    pub(crate) fn lent(pinned: Pinned) -> Manager {
        Manager { pinned }
    }
}

/// # The graph
///
/// The graph never has a cycle, whatever is made, moved or removed. These calls take memory, answer the
/// new node and notify nobody. [`drop_node`](Manager::drop_node) removes nodes; no name is ever given twice.
impl Manager {
    /// A new inner node under 0 to 8 different inner nodes; without parents it is a root.
    ///
    /// Refused with [`BadNumber`](Refusal::BadNumber), [`WornOut`](Refusal::WornOut),
    /// [`NoSuchNode`](Refusal::NoSuchNode), [`BadParents`](Refusal::BadParents),
    /// [`TooManyNodes`](Refusal::TooManyNodes), [`NoMemory`](Refusal::NoMemory). Costs a look-up
    /// for each parent.
    pub fn add_inner(&mut self, parents: &[Node]) -> Result<Node, Refusal> {
        accepted(sys::add_inner(self.pinned.place_mut(), parents)).map(|reply| reply.node)
    }

    /// A new file of records, under 1 to 8 different inner nodes. Its records are named by their nodes.
    ///
    /// Refused as [`add_inner`](Manager::add_inner).
    pub fn add_file(&mut self, parents: &[Node]) -> Result<Node, Refusal> {
        accepted(sys::add_file(self.pinned.place_mut(), parents)).map(|reply| reply.node)
    }

    /// A new file of rows, under 1 to 8 different inner nodes. Each of its records is a [`Row`], which
    /// the engine names by a number of its own, and which only the calls about rows make, remove and
    /// rekey. A file is of records or of rows for good.
    ///
    /// Refused as [`add_inner`](Manager::add_inner), but that [`NoMemory`](Refusal::NoMemory) may come
    /// before all but [`BadNumber`](Refusal::BadNumber).
    ///
    /// ```
    /// # use burlapslate::{Detect, Manager, Refusal, Row, SLOTS};
    /// # let mut m = Manager::new(Detect::AtBlock, SLOTS)?;
    /// # let db = m.add_inner(&[])?;
    /// # let txn = m.begin()?;
    /// let (records, rows) = (m.add_file(&[db])?, m.add_row_file(&[db])?);
    /// let row = Row { file: records, number: 7 };
    /// assert_eq!(m.unlock_row(txn, row).unwrap_err(), Refusal::NotRows);
    /// assert_eq!(m.insert(txn, rows, &[]), Err(Refusal::RowsByNumber));
    /// # Ok::<(), burlapslate::Refusal>(())
    /// ```
    pub fn add_row_file(&mut self, parents: &[Node]) -> Result<Node, Refusal> {
        accepted(sys::add_row_file(self.pinned.place_mut(), parents)).map(|reply| reply.node)
    }

    /// A new index of a file that has no records, and of which no row ever had a node by
    /// [`adopt`](Manager::adopt) or [`lock_row`](Manager::lock_row); otherwise use
    /// [`index_by`](Manager::index_by). It is under 1 to 8 different inner nodes, and has up to 256 bounds,
    /// or up to the number chosen by [`bounds`](Options::bounds). Bounds rise from above 0: interval 0 has
    /// the keys below the first bound, interval i those from bound i - 1 on. Each interval is a node.
    ///
    /// Refused with [`BadNumber`](Refusal::BadNumber), [`WornOut`](Refusal::WornOut),
    /// [`NoSuchNode`](Refusal::NoSuchNode), [`BadParents`](Refusal::BadParents) (also if the
    /// file has 7 indexes), [`FileInUse`](Refusal::FileInUse), [`BadKeys`](Refusal::BadKeys),
    /// [`TooManyNodes`](Refusal::TooManyNodes), [`NoMemory`](Refusal::NoMemory). Costs a step for
    /// each bound.
    ///
    /// ```
    /// # use burlapslate::{Detect, Kind, Manager, SLOTS};
    /// let mut m = Manager::new(Detect::AtBlock, SLOTS)?;
    /// let shop = m.add_inner(&[])?;
    /// let orders = m.add_file(&[shop])?;
    /// let by_day = m.add_index(&[shop], orders, &[100, 200])?;
    /// let days = m.interval_of(by_day, 150)?;
    /// assert_eq!(m.interval(by_day, 1), Some(days));
    /// assert_eq!(m.kind(days)?, Kind::Interval);
    /// # Ok::<(), burlapslate::Refusal>(())
    /// ```
    pub fn add_index(
        &mut self,
        parents: &[Node],
        file: Node,
        bounds: &[u64],
    ) -> Result<Node, Refusal> {
        let reply = sys::add_index(self.pinned.place_mut(), parents, file, bounds);
        accepted(reply).map(|reply| reply.node)
    }
}

/// # Transactions and locks
///
/// A call that notifies transactions answers the [`Notices`] too. The caller of a lock and of a cancel
/// is not notified: it has its answer. Calls that end or release something take no memory and cannot
/// fail for lack of it; nor do notices.
impl Manager {
    /// A new transaction.
    ///
    /// Refused with [`WornOut`](Refusal::WornOut), [`TooManyTxns`](Refusal::TooManyTxns),
    /// [`NoMemory`](Refusal::NoMemory). Takes memory. Costs a search for a free slot.
    pub fn begin(&mut self) -> Result<Txn, Refusal> {
        accepted(sys::bs_call_begin(self.pinned.place_mut())).map(|reply| reply.txn)
    }

    /// A new transaction, as by [`begin`](Manager::begin), that retries work of an earlier one, which was a
    /// victim or gave up: `since` is the age of the first that tried ([`Txn::age`](Txn::age)). The victim of
    /// a deadlock is the member whose work is the latest by that number, and of several such the youngest;
    /// the number of a transaction that [`begin`](Manager::begin) made is its own age. So work that is
    /// retried with its first number is a victim only for older work. With
    /// [`Victims::Fewest`](crate::Victims::Fewest) the oldest member is a victim also if no other member alone
    /// ends the deadlock. A number above the transaction's own age counts as that age.
    ///
    /// Refused as [`begin`](Manager::begin).
    ///
    /// ```
    /// # use burlapslate::{Asked, Detect, Manager, Mode, SLOTS};
    /// let mut m = Manager::new(Detect::AtBlock, SLOTS)?;
    /// let shop = m.add_inner(&[])?;
    /// let first = m.begin()?;
    /// m.abort(first)?; // It was a victim, say.
    /// let other = m.begin()?;
    /// let again = m.begin_again(first.age())?;
    /// m.lock(other, shop, Mode::S)?;
    /// m.lock(again, shop, Mode::S)?;
    /// m.lock(again, shop, Mode::X)?;
    /// assert_eq!(m.lock(other, shop, Mode::X)?.0, Asked::Victim); // Though it is the older of the two.
    /// # Ok::<(), burlapslate::Refusal>(())
    /// ```
    pub fn begin_again(&mut self, since: u64) -> Result<Txn, Refusal> {
        accepted(sys::bs_call_begin_again(self.pinned.place_mut(), since)).map(|reply| reply.txn)
    }

    /// A new transaction in the slot of this number, for work that began in another manager: so a transaction has
    /// one slot in several managers that work as one, and one `since`, by which each of them chooses the same
    /// victims. The number is as in [`begin_again`](Manager::begin_again), but is kept also if it is above the
    /// next age. Then it is the transaction's age too, and the next transaction has the age after it. Slots are
    /// numbered from 0, and there are as many as transactions may live at once.
    ///
    /// Refused with [`WornOut`](Refusal::WornOut), also if `u64::MAX` was given as an age, and with
    /// [`TooManyTxns`](Refusal::TooManyTxns) if the slot is taken, or there is no such slot.
    ///
    /// ```
    /// # use burlapslate::{Detect, Manager, Refusal, SLOTS};
    /// let mut m = Manager::new(Detect::AtBlock, SLOTS)?;
    /// let part = m.join(5, 40)?;
    /// assert_eq!((part.slot(), part.age()), (5, 40));
    /// assert_eq!(m.begin()?.age(), 41);
    /// assert_eq!(m.join(5, 50), Err(Refusal::TooManyTxns));
    /// # Ok::<(), burlapslate::Refusal>(())
    /// ```
    pub fn join(&mut self, slot: usize, since: u64) -> Result<Txn, Refusal> {
        let slot = u32::try_from(slot).unwrap_or(u32::MAX);
        accepted(sys::bs_call_join(self.pinned.place_mut(), slot, since)).map(|reply| reply.txn)
    }

    /// Ends a transaction and begins another in its slot, which holds what it held: intentions alone, on nodes for
    /// which nobody waits. `since` is as in [`begin_again`](Manager::begin_again), and `u64::MAX` for new work.
    ///
    /// Refused with [`NoSuchTxn`](Refusal::NoSuchTxn), [`TxnWaiting`](Refusal::TxnWaiting),
    /// [`TxnCondemned`](Refusal::TxnCondemned), [`NeedRelease`](Refusal::NeedRelease), [`WornOut`](Refusal::WornOut).
    /// Costs a step for each lock.
    ///
    /// ```
    /// # use burlapslate::{Detect, Manager, Mode, Refusal, SLOTS};
    /// let mut m = Manager::new(Detect::AtBlock, SLOTS)?;
    /// let shop = m.add_inner(&[])?;
    /// let first = m.begin()?;
    /// m.lock(first, shop, Mode::IX)?;
    /// let next = m.renew(first, u64::MAX)?;
    /// assert_eq!(m.held(next, shop)?, Mode::IX);
    /// assert_eq!(m.commit(first).err(), Some(Refusal::NoSuchTxn));
    /// # Ok::<(), burlapslate::Refusal>(())
    /// ```
    pub fn renew(&mut self, txn: Txn, since: u64) -> Result<Txn, Refusal> {
        accepted(sys::bs_call_renew(self.pinned.place_mut(), txn, since)).map(|reply| reply.txn)
    }

    /// Requests a mode on a node. To read ([`IS`](Mode::IS), [`S`](Mode::S)) the transaction needs `IS` or
    /// greater on one parent; to write ([`IX`](Mode::IX), [`SIX`](Mode::SIX), [`X`](Mode::X)) it needs `IX`
    /// or greater on all parents. A node that is held is converted to the supremum of the held and the
    /// requested mode.
    ///
    /// If the lock is not granted at once the transaction waits. With detection at block, victims are then
    /// condemned, by the choice of [`Victims`](crate::Victims), until it is on no cycle: the others are
    /// told [`Notice::Victim`](crate::Notice::Victim), the transaction itself is answered
    /// [`Asked::Victim`]. Condemned transactions leave their queues, by which others may be granted, and
    /// the transaction itself.
    ///
    /// Refused with [`WornOut`](Refusal::WornOut), [`NoSuchTxn`](Refusal::NoSuchTxn),
    /// [`TxnWaiting`](Refusal::TxnWaiting), [`TxnCondemned`](Refusal::TxnCondemned),
    /// [`NoSuchNode`](Refusal::NoSuchNode), [`BadMode`](Refusal::BadMode),
    /// [`NeedParents`](Refusal::NeedParents), [`NoMemory`](Refusal::NoMemory). Takes memory, except
    /// for a conversion that is granted at once. Costs one look-up of the node and one for each parent;
    /// if it waits with detection at block, a search along the waits too.
    ///
    /// ```
    /// # use burlapslate::{Asked, Detect, Manager, Mode, Refusal, SLOTS};
    /// let mut m = Manager::new(Detect::AtBlock, SLOTS)?;
    /// let db = m.add_inner(&[])?;
    /// let file = m.add_file(&[db])?;
    /// let txn = m.begin()?;
    /// assert_eq!(m.lock(txn, file, Mode::X).unwrap_err(), Refusal::NeedParents(db));
    /// let (asked, told) = m.lock(txn, db, Mode::IX)?;
    /// assert!(asked == Asked::Granted(Mode::IX) && told.is_empty());
    /// let (asked, _) = m.lock(txn, file, Mode::X)?;
    /// assert_eq!(asked, Asked::Granted(Mode::X));
    /// # Ok::<(), burlapslate::Refusal>(())
    /// ```
    pub fn lock(
        &mut self,
        txn: Txn,
        node: Node,
        mode: Mode,
    ) -> Result<(Asked, Notices<'_>), Refusal> {
        let (place, told) = self.pinned.parts();
        let reply = sys::bs_call_lock(place, txn, node, mode as u32, told);
        Ok((Asked::of(&reply)?, Notices::of(told)))
    }

    /// Locks a node with what must be held above it: intentions, root first, on all parents to write; to
    /// read, on the first if none is held already; then the node in its mode. Each is requested as by
    /// [`lock`](Manager::lock), and is one command. What is held already is not requested. The locks that
    /// were acquired stay, however far the path came.
    ///
    /// Refused as [`lock`](Manager::lock), but never with [`NeedParents`](Refusal::NeedParents). Then
    /// nothing was locked, except that [`NoMemory`](Refusal::NoMemory) and [`WornOut`](Refusal::WornOut)
    /// may be answered after some of the locks, which stay.
    ///
    /// ```
    /// # use burlapslate::{Detect, Manager, Mode, Reached, SLOTS};
    /// let mut m = Manager::new(Detect::AtBlock, SLOTS)?;
    /// let db = m.add_inner(&[])?;
    /// let file = m.add_file(&[db])?;
    /// let txn = m.begin()?;
    /// let (reached, _) = m.lock_path(txn, file, Mode::X)?;
    /// assert_eq!(reached, Reached::Granted(Mode::X));
    /// assert_eq!(m.held(txn, db)?, Mode::IX);
    /// # Ok::<(), burlapslate::Refusal>(())
    /// ```
    pub fn lock_path(
        &mut self,
        txn: Txn,
        node: Node,
        mode: Mode,
    ) -> Result<(Reached, Notices<'_>), Refusal> {
        let (place, told) = self.pinned.parts();
        let reply = sys::bs_call_lock_path(place, txn, node, mode as u32, told);
        let reached = match reply.status {
            sys::DONE => Reached::Granted(Mode::of(reply.mode)),
            sys::WAITING => Reached::Waiting(reply.node),
            sys::VICTIM => Reached::Victim,
            sys::ON_THE_WAY => Reached::Above(reply.node),
            _ => return Err(Refusal::of(&reply)),
        };
        Ok((reached, Notices::of(told)))
    }

    /// As [`lock`](Manager::lock), but if the lock cannot be granted at once it is refused with
    /// [`WouldBlock`](Refusal::WouldBlock), after all other refusals except
    /// [`NoMemory`](Refusal::NoMemory). The call never waits and notifies nobody; it answers the mode that
    /// is held now.
    pub fn try_lock(&mut self, txn: Txn, node: Node, mode: Mode) -> Result<Mode, Refusal> {
        let reply = sys::bs_call_try(self.pinned.place_mut(), txn, node, mode as u32);
        accepted(reply).map(|reply| Mode::of(reply.mode))
    }

    /// Releases one node of which the transaction holds no child.
    ///
    /// Refused with [`WornOut`](Refusal::WornOut), [`NoSuchTxn`](Refusal::NoSuchTxn),
    /// [`TxnWaiting`](Refusal::TxnWaiting), [`TxnCondemned`](Refusal::TxnCondemned),
    /// [`NoSuchNode`](Refusal::NoSuchNode), [`NotHeld`](Refusal::NotHeld),
    /// [`HeldChild`](Refusal::HeldChild). Takes no memory. Costs a look-up, and a step for each
    /// waiter that is granted.
    pub fn unlock(&mut self, txn: Txn, node: Node) -> Result<Notices<'_>, Refusal> {
        let (place, told) = self.pinned.parts();
        accepted(sys::bs_call_unlock(place, txn, node, told))?;
        Ok(Notices::of(told))
    }

    /// A savepoint of a transaction, for [`release_since`](Manager::release_since). Nothing is stored for it.
    /// It is exact until the transaction releases a lock that it had by then, or another transaction
    /// removes that lock's node. One made during a wait counts that wait, and a cancel of it releases it.
    ///
    /// Refused with [`NoSuchTxn`](Refusal::NoSuchTxn).
    pub fn mark(&self, txn: Txn) -> Result<Mark, Refusal> {
        self.lock_count(txn).map(Mark)
    }

    /// Rolls the locks back to a savepoint: releases the nodes that the transaction locked since, children
    /// before their parents, and answers how many. Locks from before the savepoint stay, in their mode then
    /// or in the greater one to which they were converted since: no mode is ever lowered. A node of which
    /// the transaction still holds a child stays too: that child was held before by another parent, or was
    /// converted since, which needed intentions on all its parents. Rows that nobody holds any more are let
    /// go. If the savepoint is no longer exact, fewer nodes are released, and never one from before it.
    ///
    /// Each node is one command. Refused, before anything is released, with
    /// [`NoSuchTxn`](Refusal::NoSuchTxn), [`TxnWaiting`](Refusal::TxnWaiting),
    /// [`TxnCondemned`](Refusal::TxnCondemned), and with [`WornOut`](Refusal::WornOut) if not each lock
    /// since can be counted. Takes no memory. Costs a step for each lock since, for each waiter that is
    /// granted, and for each row that the transaction has asked for.
    ///
    /// ```
    /// # use burlapslate::{Detect, Manager, Mode, SLOTS};
    /// # let mut m = Manager::new(Detect::AtBlock, SLOTS)?;
    /// # let db = m.add_inner(&[])?;
    /// # let (orders, prices) = (m.add_file(&[db])?, m.add_file(&[db])?);
    /// let txn = m.begin()?;
    /// let _ = m.lock_path(txn, orders, Mode::S)?;
    /// let mark = m.mark(txn)?;
    /// let _ = m.lock_path(txn, prices, Mode::X)?;
    /// let (released, _told) = m.release_since(txn, mark)?;
    /// assert_eq!((released, m.held(txn, prices)?), (1, Mode::NL));
    /// assert_eq!((m.held(txn, orders)?, m.held(txn, db)?), (Mode::S, Mode::IX)); // It was raised.
    /// # Ok::<(), burlapslate::Refusal>(())
    /// ```
    pub fn release_since(&mut self, txn: Txn, mark: Mark) -> Result<(usize, Notices<'_>), Refusal> {
        let (place, told) = self.pinned.parts();
        let reply = accepted(sys::bs_call_release_since(place, txn, mark.0, told))?;
        Ok((reply.count as usize, Notices::of(told)))
    }

    /// Cancels the wait of a transaction. A row that it waited for is let go.
    ///
    /// Refused with [`WornOut`](Refusal::WornOut), [`NoSuchTxn`](Refusal::NoSuchTxn),
    /// [`TxnCondemned`](Refusal::TxnCondemned), [`NotWaiting`](Refusal::NotWaiting). Takes no
    /// memory.
    pub fn cancel(&mut self, txn: Txn) -> Result<Notices<'_>, Refusal> {
        let (place, told) = self.pinned.parts();
        accepted(sys::bs_call_cancel(place, txn, told))?;
        Ok(Notices::of(told))
    }

    /// Ends a transaction and releases everything, its rows among it.
    ///
    /// Refused with [`WornOut`](Refusal::WornOut), [`NoSuchTxn`](Refusal::NoSuchTxn),
    /// [`TxnWaiting`](Refusal::TxnWaiting), [`TxnCondemned`](Refusal::TxnCondemned). Takes no
    /// memory. Costs a step for each lock and each waiter that is granted.
    ///
    /// ```
    /// # use burlapslate::{Detect, Manager, Mode, Notice, SLOTS};
    /// # let mut m = Manager::new(Detect::AtBlock, SLOTS)?;
    /// # let db = m.add_inner(&[])?;
    /// # let (a, b) = (m.begin()?, m.begin()?);
    /// # let _ = m.lock(a, db, Mode::X)?;
    /// # let _ = m.lock(b, db, Mode::S)?;
    /// for notice in m.commit(a)? {
    ///     match notice {
    ///         Notice::Granted { txn, node, mode } => assert_eq!((txn, node, mode), (b, db, Mode::S)),
    ///         other => panic!("nobody is told this: {other:?}"),
    ///     }
    /// }
    /// # Ok::<(), burlapslate::Refusal>(())
    /// ```
    pub fn commit(&mut self, txn: Txn) -> Result<Notices<'_>, Refusal> {
        let (place, told) = self.pinned.parts();
        accepted(sys::bs_call_commit(place, txn, told))?;
        Ok(Notices::of(told))
    }

    /// Ends a transaction whatever it is doing, and releases everything, its rows among it. It undoes
    /// nothing: undo what the transaction wrote first.
    ///
    /// Refused with [`WornOut`](Refusal::WornOut), [`NoSuchTxn`](Refusal::NoSuchTxn). Takes no
    /// memory. Costs as [`commit`](Manager::commit).
    pub fn abort(&mut self, txn: Txn) -> Result<Notices<'_>, Refusal> {
        let (place, told) = self.pinned.parts();
        accepted(sys::bs_call_abort(place, txn, told))?;
        Ok(Notices::of(told))
    }

    /// Condemns victims, by the choice of [`Victims`](crate::Victims), until the transaction is on no
    /// cycle of waits. Each victim is told [`Notice::Victim`](crate::Notice::Victim), also if it is the
    /// transaction itself. A watcher ends deadlocks by this call.
    ///
    /// Refused with [`WornOut`](Refusal::WornOut), [`NoSuchTxn`](Refusal::NoSuchTxn). Takes no
    /// memory.
    pub fn settle(&mut self, txn: Txn) -> Result<Notices<'_>, Refusal> {
        let (place, told) = self.pinned.parts();
        accepted(sys::bs_call_settle(place, txn, told))?;
        Ok(Notices::of(told))
    }

    /// Converts the lock of a node to [`X`](Mode::X) if the transaction writes below it, else to
    /// [`S`](Mode::S), and releases the children whose locks that implies. Rows that it released are let
    /// go. It never waits.
    ///
    /// Refused with [`WornOut`](Refusal::WornOut), [`NoSuchTxn`](Refusal::NoSuchTxn),
    /// [`TxnWaiting`](Refusal::TxnWaiting), [`TxnCondemned`](Refusal::TxnCondemned),
    /// [`NoSuchNode`](Refusal::NoSuchNode), [`BadParents`](Refusal::BadParents) (a record),
    /// [`NotHeld`](Refusal::NotHeld), [`WouldBlock`](Refusal::WouldBlock). Takes no memory. Costs a
    /// step for each lock of the transaction.
    pub fn escalate(&mut self, txn: Txn, node: Node) -> Result<(Escalated, Notices<'_>), Refusal> {
        let (place, told) = self.pinned.parts();
        let reply = accepted(sys::bs_call_escalate(place, txn, node, told))?;
        Ok((Escalated::of(&reply), Notices::of(told)))
    }
}

/// # Records, and nodes that move
///
/// A move notifies the waiters whose wait it ends. An insert, delete, adopt, forget or rekey of a record
/// of a file of rows is refused with [`RowsByNumber`](Refusal::RowsByNumber), before all else.
impl Manager {
    /// A new record of a file, with a key for each of the file's indexes, in order of their making.
    /// Its parents are the file and, for each index, the interval of its key. The transaction holds it in
    /// [`X`](Mode::X).
    ///
    /// Refused with [`WornOut`](Refusal::WornOut), [`NoSuchTxn`](Refusal::NoSuchTxn),
    /// [`TxnWaiting`](Refusal::TxnWaiting), [`TxnCondemned`](Refusal::TxnCondemned),
    /// [`NoSuchNode`](Refusal::NoSuchNode), [`BadParents`](Refusal::BadParents) (no file),
    /// [`BadKeys`](Refusal::BadKeys), [`NeedParents`](Refusal::NeedParents) (a parent not held in
    /// [`IX`](Mode::IX) or more), [`TooManyNodes`](Refusal::TooManyNodes),
    /// [`NoMemory`](Refusal::NoMemory). Takes memory. It tells nobody.
    pub fn insert(&mut self, txn: Txn, file: Node, keys: &[u64]) -> Result<Node, Refusal> {
        accepted(sys::insert(self.pinned.place_mut(), txn, file, keys)).map(|reply| reply.node)
    }

    /// A new record of a file, as [`insert`](Manager::insert) makes one, but for no transaction: nobody
    /// holds it, and no locks are needed. It is for an engine that itself gives its rows nodes while they
    /// are locked. From then on only [`index_by`](Manager::index_by) makes an index of the file.
    ///
    /// Refused with [`WornOut`](Refusal::WornOut), [`NoSuchNode`](Refusal::NoSuchNode),
    /// [`BadParents`](Refusal::BadParents) (no file), [`BadKeys`](Refusal::BadKeys),
    /// [`TooManyNodes`](Refusal::TooManyNodes), [`NoMemory`](Refusal::NoMemory). Takes memory. It
    /// tells nobody.
    pub fn adopt(&mut self, file: Node, keys: &[u64]) -> Result<Node, Refusal> {
        accepted(sys::adopt(self.pinned.place_mut(), file, keys)).map(|reply| reply.node)
    }

    /// Removes a record that nobody holds and nobody waits for.
    ///
    /// Refused with [`WornOut`](Refusal::WornOut), [`NoSuchNode`](Refusal::NoSuchNode),
    /// [`BadParents`](Refusal::BadParents) (no record), [`RecordInUse`](Refusal::RecordInUse). Takes no
    /// memory, and tells nobody.
    pub fn forget(&mut self, record: Node) -> Result<(), Refusal> {
        accepted(sys::bs_call_forget(self.pinned.place_mut(), record)).map(drop)
    }

    /// Removes a record that the transaction holds in [`X`](Mode::X). Its waiters are told
    /// [`Notice::Gone`](crate::Notice::Gone).
    ///
    /// Refused with [`WornOut`](Refusal::WornOut), [`NoSuchTxn`](Refusal::NoSuchTxn),
    /// [`TxnWaiting`](Refusal::TxnWaiting), [`TxnCondemned`](Refusal::TxnCondemned),
    /// [`NoSuchNode`](Refusal::NoSuchNode), [`BadParents`](Refusal::BadParents) (no record),
    /// [`NeedExclusive`](Refusal::NeedExclusive). Takes no memory.
    pub fn delete(&mut self, txn: Txn, record: Node) -> Result<Notices<'_>, Refusal> {
        let (place, told) = self.pinned.parts();
        accepted(sys::bs_call_delete(place, txn, record, told))?;
        Ok(Notices::of(told))
    }

    /// Gives a record another key for one index, and so another interval. The transaction needs
    /// [`X`](Mode::X) on the record and [`IX`](Mode::IX) or greater on the new parents, or `X` on all old
    /// and new parents. A waiter that no longer holds what it needs above the record is told
    /// [`Notice::Moved`](crate::Notice::Moved).
    ///
    /// Refused with [`WornOut`](Refusal::WornOut), [`NoSuchTxn`](Refusal::NoSuchTxn),
    /// [`TxnWaiting`](Refusal::TxnWaiting), [`TxnCondemned`](Refusal::TxnCondemned),
    /// [`NoSuchNode`](Refusal::NoSuchNode), [`BadParents`](Refusal::BadParents) (no record, or no
    /// index of its file), [`NeedExclusive`](Refusal::NeedExclusive),
    /// [`NeedParents`](Refusal::NeedParents). Takes no memory.
    pub fn rekey(
        &mut self,
        txn: Txn,
        record: Node,
        index: Node,
        key: u64,
    ) -> Result<Notices<'_>, Refusal> {
        let (place, told) = self.pinned.parts();
        accepted(sys::bs_call_rekey(place, txn, record, index, key, told))?;
        Ok(Notices::of(told))
    }

    /// Gives an inner node, a file or an index other parents; an inner node without parents becomes
    /// a root. The transaction needs [`X`](Mode::X) on the node and [`IX`](Mode::IX) or greater on
    /// the new parents, or, if there are both, `X` on all old and new parents. A waiter that no longer
    /// holds what it needs above the node is told [`Notice::Moved`](crate::Notice::Moved).
    ///
    /// Refused with [`BadNumber`](Refusal::BadNumber), [`WornOut`](Refusal::WornOut),
    /// [`NoSuchTxn`](Refusal::NoSuchTxn), [`TxnWaiting`](Refusal::TxnWaiting),
    /// [`TxnCondemned`](Refusal::TxnCondemned), [`NoSuchNode`](Refusal::NoSuchNode),
    /// [`BadParents`](Refusal::BadParents), [`NeedExclusive`](Refusal::NeedExclusive),
    /// [`NeedParents`](Refusal::NeedParents), [`Cycle`](Refusal::Cycle),
    /// [`NoMemory`](Refusal::NoMemory). Takes memory, and `NoMemory` may come in place of `Cycle`.
    /// Costs a search up from the parents.
    pub fn move_node(
        &mut self,
        txn: Txn,
        node: Node,
        parents: &[Node],
    ) -> Result<Notices<'_>, Refusal> {
        let (place, told) = self.pinned.parts();
        accepted(sys::move_node(place, txn, node, parents, told))?;
        Ok(Notices::of(told))
    }
}

/// # What a schema changes
///
/// Both are for files of either kind. An abort undoes neither. The name of a removed node is never given
/// again: a call with it is refused with [`NoSuchNode`](Refusal::NoSuchNode).
impl Manager {
    /// Removes an inner node that has no children, a file that has no records and no indexes, or an index
    /// with its intervals if its file has no record. The transaction holds [`X`](Mode::X) on the node, and
    /// for an index on its file too. All locks on the node and on its intervals end, its own among them.
    /// Its waiters are told [`Notice::Gone`](crate::Notice::Gone). After an index is removed, the places
    /// and the keys of the file's later indexes are one lower.
    ///
    /// Refused with [`WornOut`](Refusal::WornOut), [`NoSuchTxn`](Refusal::NoSuchTxn),
    /// [`TxnWaiting`](Refusal::TxnWaiting), [`TxnCondemned`](Refusal::TxnCondemned),
    /// [`NoSuchNode`](Refusal::NoSuchNode), [`BadParents`](Refusal::BadParents) (an interval or a record),
    /// [`NeedExclusive`](Refusal::NeedExclusive), and then with [`HasChildren`](Refusal::HasChildren) (an
    /// inner node) or [`FileInUse`](Refusal::FileInUse) (a file or an index). Takes no memory.
    ///
    /// ```
    /// # use burlapslate::{Detect, Manager, Mode, Refusal, SLOTS};
    /// # let mut m = Manager::new(Detect::AtBlock, SLOTS)?;
    /// # let shop = m.add_inner(&[])?;
    /// # let orders = m.add_file(&[shop])?;
    /// let by_day = m.add_index(&[shop], orders, &[100])?;
    /// let txn = m.begin()?;
    /// m.lock_path(txn, orders, Mode::X)?;
    /// m.lock_path(txn, by_day, Mode::X)?;
    /// let finer = m.index_by(txn, &[shop], orders, &[50, 100, 150])?;
    /// assert!(m.drop_node(txn, by_day)?.is_empty());
    /// assert_eq!(m.index(orders, 0)?, Some(finer));
    /// assert_eq!(m.group(by_day), Err(Refusal::NoSuchNode));
    /// # Ok::<(), burlapslate::Refusal>(())
    /// ```
    pub fn drop_node(&mut self, txn: Txn, node: Node) -> Result<Notices<'_>, Refusal> {
        let (place, told) = self.pinned.parts();
        accepted(sys::bs_call_drop(place, txn, node, told))?;
        Ok(Notices::of(told))
    }

    /// Splits an interval of an index in two: it keeps its keys below `at`, and a new interval, which is
    /// answered, has those from `at` on. The transaction holds [`X`](Mode::X) on the interval, and from
    /// then on on the new one too. The records of the file get the intervals of their keys, and no
    /// effective mode is another. The places of the later intervals of the index are one higher. Each
    /// waiter for the interval is told [`Notice::Moved`](crate::Notice::Moved).
    ///
    /// Refused with [`WornOut`](Refusal::WornOut), [`NoSuchTxn`](Refusal::NoSuchTxn),
    /// [`TxnWaiting`](Refusal::TxnWaiting), [`TxnCondemned`](Refusal::TxnCondemned),
    /// [`NoSuchNode`](Refusal::NoSuchNode), [`BadParents`](Refusal::BadParents) (no interval),
    /// [`NeedExclusive`](Refusal::NeedExclusive), [`BadKeys`](Refusal::BadKeys) (`at` is not above the first
    /// key of the interval and below its end, or the index has as many bounds as it may have),
    /// [`TooManyNodes`](Refusal::TooManyNodes), [`NoMemory`](Refusal::NoMemory). Takes memory. Costs a step
    /// for each node that the manager can have had at once.
    ///
    /// ```
    /// # use burlapslate::{Detect, Manager, Mode, SLOTS};
    /// # let mut m = Manager::new(Detect::AtBlock, SLOTS)?;
    /// # let shop = m.add_inner(&[])?;
    /// # let orders = m.add_file(&[shop])?;
    /// let by_day = m.add_index(&[shop], orders, &[100])?;
    /// let txn = m.begin()?;
    /// let early = m.interval_of(by_day, 7)?;
    /// m.lock_path(txn, early, Mode::X)?;
    /// let (from_50, told) = m.split(txn, early, 50)?;
    /// assert!(told.is_empty());
    /// assert_eq!(m.interval_of(by_day, 49)?, early);
    /// assert_eq!(m.interval_of(by_day, 50)?, from_50);
    /// assert!(m.merge(txn, early)?.is_empty());
    /// assert_eq!(m.interval_of(by_day, 50)?, early);
    /// # Ok::<(), burlapslate::Refusal>(())
    /// ```
    pub fn split(
        &mut self,
        txn: Txn,
        interval: Node,
        at: u64,
    ) -> Result<(Node, Notices<'_>), Refusal> {
        let (place, told) = self.pinned.parts();
        let reply = accepted(sys::bs_call_split(place, txn, interval, at, told))?;
        Ok((reply.node, Notices::of(told)))
    }

    /// Merges an interval of an index with the next one: it has the keys of both, and the next one is gone,
    /// with its locks. The transaction holds [`X`](Mode::X) on both. The records get the intervals of their
    /// keys, and no effective mode is another. The places of the later intervals are one lower. Each
    /// waiter for the next one is told [`Notice::Gone`](crate::Notice::Gone).
    ///
    /// Refused with [`WornOut`](Refusal::WornOut), [`NoSuchTxn`](Refusal::NoSuchTxn),
    /// [`TxnWaiting`](Refusal::TxnWaiting), [`TxnCondemned`](Refusal::TxnCondemned),
    /// [`NoSuchNode`](Refusal::NoSuchNode), [`BadParents`](Refusal::BadParents) (no interval, or the last of
    /// its index), [`NeedExclusive`](Refusal::NeedExclusive), [`NoMemory`](Refusal::NoMemory). Takes memory.
    /// Costs as [`split`](Manager::split).
    pub fn merge(&mut self, txn: Txn, interval: Node) -> Result<Notices<'_>, Refusal> {
        let (place, told) = self.pinned.parts();
        accepted(sys::bs_call_merge(place, txn, interval, told))?;
        Ok(Notices::of(told))
    }

    /// A new index of a file that has no record now, with parents and bounds as
    /// [`add_index`](Manager::add_index) takes them. It is the last of the file's indexes. The transaction
    /// needs [`X`](Mode::X) on the file and [`IX`](Mode::IX) or greater on each parent, and holds the index
    /// in `X` from then on, so nobody locks by the new index until it ends.
    ///
    /// Refused with [`BadNumber`](Refusal::BadNumber), [`WornOut`](Refusal::WornOut),
    /// [`NoSuchTxn`](Refusal::NoSuchTxn), [`TxnWaiting`](Refusal::TxnWaiting),
    /// [`TxnCondemned`](Refusal::TxnCondemned), [`NoSuchNode`](Refusal::NoSuchNode),
    /// [`BadParents`](Refusal::BadParents) (also if the file has 7 indexes),
    /// [`NeedExclusive`](Refusal::NeedExclusive), [`NeedParents`](Refusal::NeedParents),
    /// [`FileInUse`](Refusal::FileInUse), [`BadKeys`](Refusal::BadKeys),
    /// [`TooManyNodes`](Refusal::TooManyNodes), [`NoMemory`](Refusal::NoMemory). Takes memory. It tells
    /// nobody. Costs a step for each bound.
    pub fn index_by(
        &mut self,
        txn: Txn,
        parents: &[Node],
        file: Node,
        bounds: &[u64],
    ) -> Result<Node, Refusal> {
        let reply = sys::index_by(self.pinned.place_mut(), txn, parents, file, bounds);
        accepted(reply).map(|reply| reply.node)
    }

    /// A new index of a file beside its records, as [`index_by`](Manager::index_by) makes one of a file that
    /// has none. `records` are all records of the file in order of birth, which is the order of their
    /// inserts: the manager lists none, so keep their names. Each gets the key at its place as its last key,
    /// and the interval of that key as its last parent. Without records it is
    /// [`index_by`](Manager::index_by).
    ///
    /// The transaction needs [`X`](Mode::X) on the file and on each index of the file, and
    /// [`IX`](Mode::IX) or greater on each parent. So nobody else reads or writes a record. It may hold none
    /// itself: release them first. It holds the new index in `X` from then on.
    ///
    /// Refused as [`index_by`](Manager::index_by); with [`FileInUse`](Refusal::FileInUse) if the transaction
    /// holds a record; with [`BadKeys`](Refusal::BadKeys) also if a record is missing, named twice or out of
    /// order, or a name is not of a record of the file, and first of all if there is not a key for each.
    /// Takes memory. It tells nobody. Costs a step for each bound and each record.
    ///
    /// ```
    /// # use burlapslate::{Detect, Manager, Mode, Refusal, SLOTS};
    /// # let mut m = Manager::new(Detect::AtBlock, SLOTS)?;
    /// # let shop = m.add_inner(&[])?;
    /// # let orders = m.add_file(&[shop])?;
    /// let txn = m.begin()?;
    /// m.lock_path(txn, orders, Mode::X)?;
    /// let (one, other) = (m.insert(txn, orders, &[])?, m.insert(txn, orders, &[])?);
    /// let (records, keys) = ([one, other], [120, 7]);
    /// let in_use = m.index_records(txn, &[shop], orders, &[100], &records, &keys);
    /// assert_eq!(in_use, Err(Refusal::FileInUse));
    /// m.unlock(txn, one)?;
    /// m.unlock(txn, other)?;
    /// let by_day = m.index_records(txn, &[shop], orders, &[100], &records, &keys)?;
    /// assert_eq!(m.key(one, 0), Some(120));
    /// assert_eq!(m.parent(other, 1), Some(m.interval_of(by_day, 7)?));
    /// # Ok::<(), burlapslate::Refusal>(())
    /// ```
    pub fn index_records(
        &mut self,
        txn: Txn,
        parents: &[Node],
        file: Node,
        bounds: &[u64],
        records: &[Node],
        keys: &[u64],
    ) -> Result<Node, Refusal> {
        if records.len() != keys.len() {
            return Err(Refusal::BadKeys);
        }
        let place = self.pinned.place_mut();
        let reply = sys::index_records(place, txn, parents, file, bounds, records, keys);
        accepted(reply).map(|reply| reply.node)
    }
}

/// # Rows by the engine's own numbers
///
/// A [`Row`] of a file of rows ([`add_row_file`](Manager::add_row_file)) has a node while some transaction
/// holds it or waits for it. [`lock_row`](Manager::lock_row) makes the node.
/// [`unlock_row`](Manager::unlock_row) lets its row go; [`commit`](Manager::commit),
/// [`abort`](Manager::abort), [`cancel`](Manager::cancel), [`escalate`](Manager::escalate) and
/// [`release_since`](Manager::release_since) let all rows go that the transaction asked for by number: they
/// remove the node of a row that nobody holds or waits for any more. No row has two nodes, and no two rows
/// have one. If all that asked for a row have ended, each of these calls and [`unlock`](Manager::unlock)
/// lets it go too, whoever makes it.
///
/// The keys are the row's own, one for each index of its file in the order of making. Only the engine knows
/// them. It reads them before it locks the row, and again after each grant. If they differ by then it
/// releases the row by [`unlock_row`](Manager::unlock_row) and starts again, with the present keys and with
/// what must be held above them.
///
/// To insert a row, lock it in [`X`](Mode::X) by its number, with the keys that it will have. To delete one,
/// lock it in `X` too; it keeps its lock, its node and its number until its transaction ends.
///
/// [`unlock`](Manager::unlock) of a row's node lets go no other row: the node then stays until the row is
/// next let go. Each call is one command, and each node that it makes or removes is one more. Calls that end a
/// transaction, an escalation and a cancel visit all rows that the transaction asked for: a look-up for
/// each, and a step for each removed node.
impl Manager {
    /// Locks a row by its node, which is answered too, as [`lock`](Manager::lock) locks a node. A row
    /// without a node gets one with these keys; so does one whose node has other keys, if nobody holds
    /// that node or waits for it. Any other row is locked by the node that it has, whatever the keys of
    /// the call. The caller locks what must be held above that node:
    /// [`NeedParents`](Refusal::NeedParents) names a missing parent.
    ///
    /// Refused with [`NotRows`](Refusal::NotRows). Otherwise a row that keeps its node is refused as
    /// [`lock`](Manager::lock) of that node. One that gets a node is refused with
    /// [`WornOut`](Refusal::WornOut) if fewer than two commands can be counted any more, or three if
    /// another node is removed for it; [`NoSuchTxn`](Refusal::NoSuchTxn),
    /// [`TxnWaiting`](Refusal::TxnWaiting), [`TxnCondemned`](Refusal::TxnCondemned),
    /// [`BadKeys`](Refusal::BadKeys), [`TooManyNodes`](Refusal::TooManyNodes), also if another node would
    /// be removed for it, [`BadMode`](Refusal::BadMode), [`NeedParents`](Refusal::NeedParents).
    /// [`NoMemory`](Refusal::NoMemory) may be answered before all of these. Takes memory.
    ///
    /// ```
    /// # use burlapslate::{Detect, Manager, Mode, Row, RowAsked, SLOTS};
    /// # let mut m = Manager::new(Detect::AtBlock, SLOTS)?;
    /// # let db = m.add_inner(&[])?;
    /// let file = m.add_row_file(&[db])?;
    /// let txn = m.begin()?;
    /// let _ = m.lock_path(txn, file, Mode::IX)?;
    /// let row = Row { file, number: 1 << 40 };
    /// let (asked, node, _) = m.lock_row(txn, row, &[], Mode::X)?;
    /// assert_eq!((asked, m.row_node(row)), (RowAsked::Granted(Mode::X), Some(node)));
    /// let _ = m.commit(txn)?;
    /// assert_eq!(m.row_node(row), None);
    /// # Ok::<(), burlapslate::Refusal>(())
    /// ```
    pub fn lock_row(
        &mut self,
        txn: Txn,
        row: Row,
        keys: &[u64],
        mode: Mode,
    ) -> Result<(RowAsked, Node, Notices<'_>), Refusal> {
        let (place, told) = self.pinned.parts();
        let reply = sys::lock_row(place, txn, row, keys, mode as u32, told);
        Ok((RowAsked::of(&reply)?, reply.node, Notices::of(told)))
    }

    /// Releases a row, as [`unlock`](Manager::unlock) releases its node, and removes the node if nobody
    /// else holds it or waits for it.
    ///
    /// Refused with [`NotRows`](Refusal::NotRows), and then as [`unlock`](Manager::unlock); a row without
    /// a node is refused as a removed node. Takes no memory.
    pub fn unlock_row(&mut self, txn: Txn, row: Row) -> Result<Notices<'_>, Refusal> {
        let (place, told) = self.pinned.parts();
        accepted(sys::bs_call_unlock_row(
            place, txn, row.file, row.number, told,
        ))?;
        Ok(Notices::of(told))
    }

    /// Gives a row another key for one index, as [`rekey`](Manager::rekey) does its node.
    ///
    /// Refused with [`NotRows`](Refusal::NotRows), and then as [`rekey`](Manager::rekey); a row without a
    /// node is refused as a removed node. Takes no memory.
    pub fn rekey_row(
        &mut self,
        txn: Txn,
        row: Row,
        index: Node,
        key: u64,
    ) -> Result<Notices<'_>, Refusal> {
        let (place, told) = self.pinned.parts();
        accepted(sys::bs_call_rekey_row(
            place, txn, row.file, row.number, index, key, told,
        ))?;
        Ok(Notices::of(told))
    }

    /// The node of a row, for questions and for [`verdict`](Manager::verdict). `None` if it has none, also
    /// if its file is no file of rows.
    pub fn row_node(&self, row: Row) -> Option<Node> {
        let reply = sys::bs_call_row_node(self.pinned.place(), row.file, row.number);
        (reply.status == sys::DONE).then_some(reply.node)
    }
}

/// # Questions
///
/// They change nothing and, but for [`effective`](Manager::effective), take no memory. Each costs a
/// look-up or two; what costs more says so. They may be asked about a transaction that waits or is
/// condemned.
impl Manager {
    /// The group mode of a node: the supremum of the modes held on it, [`NL`](Mode::NL) if nobody holds
    /// it.
    ///
    /// Refused with [`NoSuchNode`](Refusal::NoSuchNode).
    pub fn group(&self, node: Node) -> Result<Mode, Refusal> {
        mode_in(sys::bs_call_group(self.pinned.place(), node))
    }

    /// The mode in which a transaction holds a node, [`NL`](Mode::NL) for none.
    ///
    /// Refused with [`NoSuchTxn`](Refusal::NoSuchTxn), [`NoSuchNode`](Refusal::NoSuchNode).
    pub fn held(&self, txn: Txn, node: Node) -> Result<Mode, Refusal> {
        mode_in(sys::bs_call_held(self.pinned.place(), txn, node))
    }

    /// What a transaction may do to a node by all its locks together: [`NL`](Mode::NL),
    /// [`S`](Mode::S) or [`X`](Mode::X).
    ///
    /// Refused with [`NoSuchTxn`](Refusal::NoSuchTxn), [`NoSuchNode`](Refusal::NoSuchNode),
    /// [`NoMemory`](Refusal::NoMemory). Takes memory, and looks at each ancestor.
    pub fn effective(&self, txn: Txn, node: Node) -> Result<Mode, Refusal> {
        mode_in(sys::bs_call_effective(self.pinned.place(), txn, node))
    }

    /// What a transaction waits for; `None` if it does not wait, or does not live.
    pub fn waiting(&self, txn: Txn) -> Option<Wait> {
        match self.doing(txn) {
            Ok(Doing::Waiting(wait)) => Some(wait),
            _ => None,
        }
    }

    /// How many children of a node a transaction holds.
    ///
    /// Refused with [`NotHeld`](Refusal::NotHeld) if it does not live or does not hold the node.
    pub fn children(&self, txn: Txn, node: Node) -> Result<u64, Refusal> {
        accepted(sys::bs_call_children(self.pinned.place(), txn, node)).map(|reply| reply.count)
    }

    /// What a node is.
    ///
    /// Refused with [`NoSuchNode`](Refusal::NoSuchNode).
    pub fn kind(&self, node: Node) -> Result<Kind, Refusal> {
        accepted(sys::bs_call_kind(self.pinned.place(), node)).map(|reply| Kind::of(reply.count))
    }

    /// A parent of a node, by its place from 0 on; of a record first its file and then, for each
    /// index, an interval. `None` if there are fewer, or the node does not live.
    ///
    /// ```
    /// # use burlapslate::{Detect, Manager, SLOTS};
    /// # let mut m = Manager::new(Detect::AtBlock, SLOTS)?;
    /// # let (left, right) = (m.add_inner(&[])?, m.add_inner(&[])?);
    /// let file = m.add_file(&[left, right])?;
    /// let parents = (0..).map_while(|place| m.parent(file, place));
    /// assert!(parents.eq([left, right]));
    /// # Ok::<(), burlapslate::Refusal>(())
    /// ```
    pub fn parent(&self, node: Node, place: usize) -> Option<Node> {
        placed(sys::bs_call_parent(self.pinned.place(), node, place)).map(|reply| reply.node)
    }

    /// A key of a record, by the place of its index. `None` if there are fewer, or the name
    /// names no record.
    pub fn key(&self, record: Node, place: usize) -> Option<u64> {
        placed(sys::bs_call_key(self.pinned.place(), record, place)).map(|reply| reply.count)
    }

    /// An index of a file, by its place in the order of making; `None` if there are fewer.
    ///
    /// Refused with [`NoSuchNode`](Refusal::NoSuchNode) if the name names no file.
    pub fn index(&self, file: Node, place: usize) -> Result<Option<Node>, Refusal> {
        let reply = sys::bs_call_index(self.pinned.place(), file, place);
        if reply.status == sys::NO_PLACE {
            return Ok(None);
        }
        accepted(reply).map(|reply| Some(reply.node))
    }

    /// An interval of an index, by its place. `None` if there are fewer, or the name names no
    /// index.
    pub fn interval(&self, index: Node, place: usize) -> Option<Node> {
        placed(sys::bs_call_interval(self.pinned.place(), index, place)).map(|reply| reply.node)
    }

    /// The interval of an index that contains a key.
    ///
    /// Refused with [`NoSuchNode`](Refusal::NoSuchNode) if the name names no index. Costs a
    /// binary search.
    pub fn interval_of(&self, index: Node, key: u64) -> Result<Node, Refusal> {
        accepted(sys::bs_call_interval_of(self.pinned.place(), index, key)).map(|reply| reply.node)
    }

    /// The place of an interval in its index.
    ///
    /// Refused with [`NoSuchNode`](Refusal::NoSuchNode) if the name names no interval. Costs a step
    /// for each interval before it.
    pub fn place(&self, interval: Node) -> Result<usize, Refusal> {
        let reply = sys::bs_call_place(self.pinned.place(), interval);
        accepted(reply).map(|reply| reply.count as usize)
    }

    /// Whether a file has records.
    ///
    /// Refused with [`NoSuchNode`](Refusal::NoSuchNode) if the name names no file.
    pub fn has_records(&self, file: Node) -> Result<bool, Refusal> {
        accepted(sys::bs_call_has_records(self.pinned.place(), file)).map(|reply| reply.count != 0)
    }

    /// How many nodes live.
    pub fn len(&self) -> usize {
        answered(sys::bs_call_len(self.pinned.place())) as usize
    }

    /// Whether no node lives.
    pub fn is_empty(&self) -> bool {
        self.len() == 0
    }

    /// How many commands were accepted; refused commands and questions do not count.
    pub fn accepted(&self) -> u64 {
        answered(sys::bs_call_accepted(self.pinned.place()))
    }

    /// How deadlocks are found.
    pub fn detect(&self) -> Detect {
        Detect::of(answered(sys::bs_call_detect(self.pinned.place())))
    }

    /// The choice of a deadlock's victims.
    pub fn victims(&self) -> Victims {
        Victims::of(answered(sys::bs_call_victims(self.pinned.place())))
    }

    /// The board of this moment: who waits for whom.
    ///
    /// Costs a step for each transaction, and two passes over each queue.
    pub fn board(&self) -> Board {
        let mut board = Board::new();
        self.read_board(&mut board);
        board
    }

    /// Reads the board of this moment over another one, for a watcher that reads many and keeps
    /// one.
    ///
    /// Costs as [`board`](Manager::board), without the making of one.
    pub fn read_board(&self, board: &mut Board) {
        answered(sys::bs_call_board(self.pinned.place(), board.as_sys()));
    }
}

/// # Visits
///
/// Questions of several managers that work as one. One is the main one, and has each node that is in
/// several. More than an intention on such a node is requested there alone, and before that each part that
/// has the node is visited: what is held on the node in the part is copied to the main manager, that on its
/// parents first. From then on an intention on it is requested in the main manager before it is requested
/// in the part, until the node is clear.
impl Manager {
    /// What is to be copied next to this manager of a node, which is `in_part` in the part: of the
    /// transactions whose mode in the part is not covered by their mode in this manager, the lowest slot, and
    /// its mode in the part. A transaction that has not joined holds nothing. `None` if nothing is left to
    /// copy.
    ///
    /// Refused with [`InUse`](Refusal::InUse) if both are one manager, [`NoSuchNode`](Refusal::NoSuchNode) if
    /// the node is not in both. Costs two look-ups for each holder of the node in the part.
    ///
    /// ```
    /// # use burlapslate::{Detect, Manager, Mode, Refusal, SLOTS};
    /// let mut main = Manager::new(Detect::AtBlock, SLOTS)?;
    /// let mut part = Manager::new(Detect::AtBlock, SLOTS)?;
    /// let (node, in_part) = (main.add_inner(&[])?, part.add_inner(&[])?);
    /// let txn = part.begin()?;
    /// let _ = part.lock(txn, in_part, Mode::IX)?;
    /// assert_eq!(main.next_copy(node, &part, in_part)?, Some((txn.slot(), Mode::IX)));
    /// let joined = main.join(txn.slot(), txn.age())?;
    /// let _ = main.lock(joined, node, Mode::IX)?;
    /// assert_eq!(main.next_copy(node, &part, in_part)?, None);
    /// assert!(main.is_clear(node)?);
    /// let _ = main.lock(joined, node, Mode::SIX)?;
    /// assert!(!main.is_clear(node)?);
    /// assert_eq!(main.next_copy(node, &main, node), Err(Refusal::InUse));
    /// # Ok::<(), burlapslate::Refusal>(())
    /// ```
    pub fn next_copy(
        &self,
        node: Node,
        part: &Manager,
        in_part: Node,
    ) -> Result<Option<(usize, Mode)>, Refusal> {
        if std::ptr::eq(self, part) {
            return Err(Refusal::InUse);
        }
        let reply = sys::bs_call_next_copy(self.pinned.place(), node, part.pinned.place(), in_part);
        if reply.status == sys::NO_PLACE {
            return Ok(None);
        }
        accepted(reply).map(|reply| Some((reply.count as usize, Mode::of(reply.mode))))
    }

    /// Whether nobody holds more than an intention on a node, or waits there for more.
    ///
    /// Refused with [`NoSuchNode`](Refusal::NoSuchNode). Costs a look-up for each holder of the node, and a
    /// step for each that waits for it.
    pub fn is_clear(&self, node: Node) -> Result<bool, Refusal> {
        accepted(sys::bs_call_is_clear(self.pinned.place(), node)).map(|reply| reply.count == 1)
    }
}

/// # Waits and watchers
///
/// Questions for a layer that puts threads to sleep, such as [`Table`](crate::Table).
impl Manager {
    /// How the wait for this node ended: `None` if the transaction still waits; the mode now held, which
    /// covers the requested one; or why the lock was not granted. The answer is [`Stop::Cancelled`] if the
    /// transaction does not wait for the node and no notice says why.
    ///
    /// ```
    /// # use burlapslate::{Asked, Detect, Manager, Mode, SLOTS};
    /// # let mut m = Manager::new(Detect::AtBlock, SLOTS)?;
    /// # let db = m.add_inner(&[])?;
    /// # let (a, b) = (m.begin()?, m.begin()?);
    /// # let _ = m.lock(a, db, Mode::X)?;
    /// assert_eq!(m.lock(b, db, Mode::S)?.0, Asked::Waiting);
    /// assert_eq!(m.verdict(b, db, Mode::S), None);
    /// let _ = m.commit(a)?;
    /// assert_eq!(m.verdict(b, db, Mode::S), Some(Ok(Mode::S)));
    /// assert!(m.ended().contains(b.slot()));
    /// # Ok::<(), burlapslate::Refusal>(())
    /// ```
    pub fn verdict(&self, txn: Txn, node: Node, mode: Mode) -> Option<Result<Mode, Stop>> {
        let reply = sys::bs_call_verdict(self.pinned.place(), txn, node, mode as u32);
        match reply.status {
            sys::WAITING => None,
            sys::DONE => Some(Ok(Mode::of(reply.mode))),
            _ => Some(Err(Stop::of(&reply))),
        }
    }

    /// The slots whose wait the last accepted command may have ended, whose sleepers must be woken. It ended
    /// no other transaction's wait. A [`release_since`](Manager::release_since) that releases nothing leaves
    /// none.
    pub fn ended(&self) -> Slots {
        found(sys::bs_call_ended(self.pinned.place())).unwrap_or(Slots::NONE)
    }

    /// Makes a watcher, which knows the board of this moment.
    ///
    /// Refused with [`TooManyWatchers`](Refusal::TooManyWatchers), [`NoMemory`](Refusal::NoMemory).
    /// Takes memory.
    pub fn watch(&mut self) -> Result<Watcher, Refusal> {
        Watcher::made_by(|watcher| sys::bs_call_watch(self.pinned.place(), watcher))
    }
}

/// # Listings
///
/// The living transactions, their locks and their waits. These calls change nothing, and all answers
/// between two commands are of one moment. Rows can be printed.
impl Manager {
    /// How many transactions may live at once.
    pub fn most(&self) -> usize {
        answered(sys::bs_call_most(self.pinned.place())) as usize
    }

    /// How many nodes may live at once.
    pub fn most_nodes(&self) -> usize {
        answered(sys::bs_call_most_nodes(self.pinned.place())) as usize
    }

    /// How many bounds an index may have.
    pub fn most_bounds(&self) -> usize {
        answered(sys::bs_call_most_bounds(self.pinned.place())) as usize
    }

    /// The transactions that live, by rising slot.
    ///
    /// ```
    /// # use burlapslate::{Detect, Manager, SLOTS};
    /// # let mut m = Manager::new(Detect::AtBlock, SLOTS)?;
    /// let a = m.begin()?;
    /// for row in m.transactions() {
    ///     assert_eq!(row.txn, a);
    ///     assert_eq!(row.to_string(), "   0            1 active");
    /// }
    /// # Ok::<(), burlapslate::Refusal>(())
    /// ```
    pub fn transactions(&self) -> impl Iterator<Item = TxnRow> + '_ {
        let living = (0..SLOTS as u32).filter_map(|slot| {
            placed(sys::bs_call_living(self.pinned.place(), slot)).map(|reply| reply.txn)
        });
        living.filter_map(|txn| {
            let doing = self.doing(txn).ok()?;
            let waits_for = self.waits_for(txn).ok()?;
            Some(TxnRow {
                txn,
                doing,
                waits_for,
            })
        })
    }

    /// What a transaction is doing.
    ///
    /// Refused with [`NoSuchTxn`](Refusal::NoSuchTxn).
    pub fn doing(&self, txn: Txn) -> Result<Doing, Refusal> {
        let reply = accepted(sys::bs_call_doing(self.pinned.place(), txn))?;
        Ok(match reply.count {
            sys::ACTIVE => Doing::Active,
            sys::WAITS => Doing::Waiting(Wait {
                node: reply.node,
                mode: Mode::of(reply.mode),
            }),
            sys::CONDEMNED => Doing::Condemned,
            count => unreachable!("the library answered {count} for what one does"),
        })
    }

    /// How many nodes a transaction holds or waits for.
    ///
    /// Refused with [`NoSuchTxn`](Refusal::NoSuchTxn).
    pub fn lock_count(&self, txn: Txn) -> Result<usize, Refusal> {
        let reply = accepted(sys::bs_call_lock_count(self.pinned.place(), txn))?;
        Ok(reply.count as usize)
    }

    /// The nodes that a transaction holds or waits for, each once; none if it does not live.
    pub fn locks(&self, txn: Txn) -> impl Iterator<Item = LockRow> + '_ {
        let row = move |reply: Reply| LockRow {
            txn,
            node: reply.node,
            mode: Mode::of(reply.mode),
            wants: Some(Mode::of(reply.wanted)).filter(|mode| *mode != Mode::NL),
            children: reply.count,
        };
        (0..).map_while(move |place| {
            placed(sys::bs_call_lock_at(self.pinned.place(), txn, place)).map(row)
        })
    }

    /// The slots of the holders of a node.
    ///
    /// Refused with [`NoSuchNode`](Refusal::NoSuchNode).
    pub fn holders(&self, node: Node) -> Result<Slots, Refusal> {
        found(sys::bs_call_holders(self.pinned.place(), node))
    }

    /// The mode in which the transaction of a slot holds a node, [`NL`](Mode::NL) for none, also
    /// if there is no such slot.
    pub fn mode_at(&self, slot: usize, node: Node) -> Mode {
        if slot >= SLOTS {
            return Mode::NL;
        }
        let reply = sys::bs_call_mode_at(self.pinned.place(), slot as u32, node);
        Mode::of(answered_in_full(reply).mode)
    }

    /// The waiters of a node, the first to be granted first.
    ///
    /// Refused with [`NoSuchNode`](Refusal::NoSuchNode).
    pub fn queue(&self, node: Node) -> Result<impl Iterator<Item = Waiter> + '_, Refusal> {
        let len = accepted(sys::bs_call_queue_len(self.pinned.place(), node))?.count;
        Ok((0..len as usize).map(move |place| {
            let reply = answered_in_full(sys::bs_call_queue_at(self.pinned.place(), node, place));
            Waiter {
                txn: reply.txn,
                wants: Mode::of(reply.mode),
            }
        }))
    }

    /// The slots of the transactions for which a transaction waits; none if it does not wait.
    ///
    /// Refused with [`NoSuchTxn`](Refusal::NoSuchTxn).
    pub fn waits_for(&self, txn: Txn) -> Result<Slots, Refusal> {
        found(sys::bs_call_waits_for(self.pinned.place(), txn))
    }

    /// How many waiters are ahead of a waiting transaction in the queue of its node. Only those, and holders
    /// that request a conversion, can be granted the node before it.
    ///
    /// Refused with [`NoSuchTxn`](Refusal::NoSuchTxn), [`NotWaiting`](Refusal::NotWaiting).
    pub fn ahead(&self, txn: Txn) -> Result<u64, Refusal> {
        accepted(sys::bs_call_ahead(self.pinned.place(), txn)).map(|reply| reply.count)
    }

    /// The deadlock that the last victim was condemned for; `None` if there was no victim yet.
    pub fn last_deadlock(&self) -> Option<Deadlock> {
        let mut deadlock = sys::Deadlock::new();
        placed(sys::bs_call_last_deadlock(
            self.pinned.place(),
            &mut deadlock,
        ))?;
        Some(Deadlock::of(&deadlock))
    }

    /// What the manager has been doing since it was made.
    pub fn counters(&self) -> Counters {
        let mut counters = Counters::default();
        answered(sys::bs_call_counters(self.pinned.place(), &mut counters));
        counters
    }

    /// All of it, to be printed.
    pub fn listing(&self) -> Listing<'_> {
        Listing { manager: self }
    }

    /// The transactions that wait, the longest first; `None` if this is no table's, and knows no time.
    pub(crate) fn waits_by_age(&self) -> Option<Vec<(TxnRow, Duration)>> {
        let waits = sys::running::waits_by_age(self.pinned.place())?;
        let row_of = |slot| self.transactions().find(|row| row.txn.slot() == slot);
        let rows = waits.into_iter().filter_map(|(slot, waited)| {
            Some((row_of(slot as usize)?, Duration::from_nanos(waited)))
        });
        Some(rows.collect())
    }
}

/// How deadlocks are found, and how much there is.
impl fmt::Debug for Manager {
    fn fmt(&self, f: &mut fmt::Formatter<'_>) -> fmt::Result {
        f.debug_struct("Manager")
            .field("detect", &self.detect())
            .field("len", &self.len())
            .field("accepted", &self.accepted())
            .finish_non_exhaustive()
    }
}

/// The mode in a reply.
fn mode_in(reply: Reply) -> Result<Mode, Refusal> {
    accepted(reply).map(|reply| Mode::of(reply.mode))
}

/// The slots of a reply.
fn found(found: sys::Found) -> Result<Slots, Refusal> {
    let status = found.status;
    accepted(Reply::with_status(status)).map(|_| found.slots)
}

/// The reply of a question that asks for a place; `None` if there are fewer.
fn placed(reply: Reply) -> Option<Reply> {
    if reply.status == sys::NO_PLACE {
        return None;
    }
    Some(answered_in_full(reply))
}

/// The number in the reply of a question that is never refused.
fn answered(reply: Reply) -> u64 {
    answered_in_full(reply).count
}

/// The reply of a question that is never refused.
fn answered_in_full(reply: Reply) -> Reply {
    match accepted(reply) {
        Ok(reply) => reply,
        Err(refusal) => unreachable!("a question was refused: {refusal}"),
    }
}
