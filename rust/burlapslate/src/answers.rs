//! How far a list was made, and what its commands answered.

use crate::list::{Do, Done, Halt, Names, Parents};
use crate::manager::Wait;
use crate::mode::Mode;
use crate::names::{Node, Txn};
use crate::refusal::Refusal;
use crate::session::{RowLocked, Stop};
use crate::sys::commands::{Command, Room};
use crate::sys::Reply;
use std::fmt;
use std::mem::replace;
use std::ops::Deref;

/// What the commands of a list answered that are done, by their places, and so how far the list was made
/// ([`Session::run`](crate::Session::run)).
///
/// It has the memory of the lists that are run with it, and takes more only for a longer one: so keep it for the lists
/// that follow.
///
/// ```
/// # use burlapslate::{Answers, Detect, Do, Done, Mode, Table, SLOTS};
/// # let table = Table::new(Detect::AtBlock, SLOTS)?;
/// # let db = table.add_inner(&[])?;
/// # let file = table.add_file(&[db])?;
/// let mut answers = Answers::new();
/// let list = [Do::LockPath(file.into(), Mode::IX), Do::Insert(file.into(), &[])];
/// let mut session = table.begin()?;
/// session.run(&list, &mut answers).unwrap();
/// assert_eq!(answers[0], Done::Locked(Mode::IX));
/// let record = answers[1].node().unwrap();
/// assert_eq!(table.with(|m| m.held(session.txn(), record)), Ok(Mode::X));
/// # Ok::<(), burlapslate::Refusal>(())
/// ```
pub struct Answers {
    /// The transaction of the list; none before the first.
    txn: Txn,
    done: Vec<Done>,
    left: Left,
    room: Room,
    /// The nodes that commands name as parents, within a run.
    parents: Vec<Node>,
}

/// The commands of a list that are to be made, for which there is memory.
pub(crate) struct Rest<'l, 'a> {
    list: &'l [Do<'a>],
    /// How many nodes they name as parents.
    parents: usize,
}

/// What the command that is not done has left.
#[derive(Clone, Copy)]
enum Left {
    Nothing,
    /// A wait, by a command that requests this node, if it is not of a row.
    Wait {
        wait: Wait,
        requested: Option<Node>,
    },
    /// A row with other keys, by this answer.
    Row(Done),
}

impl Answers {
    /// Of no list. It takes no memory.
    pub const fn new() -> Answers {
        Answers {
            txn: Txn::NONE,
            done: Vec::new(),
            left: Left::Nothing,
            room: Room::new(),
            parents: Vec::new(),
        }
    }

    /// After [`Halt::OtherKeys`]: takes the row as it is held, with [`RowLocked::OtherKeys`] for an answer, so that the
    /// list continues with the next command. Otherwise it does nothing.
    pub fn accept_row(&mut self) {
        if let Left::Row(row) = self.left {
            self.done.push(row);
            self.left = Left::Nothing;
        }
    }

    /// A list of this transaction begins.
    pub(crate) fn begin(&mut self, txn: Txn) {
        self.txn = txn;
        self.done.clear();
        self.left = Left::Nothing;
    }

    /// A list of this transaction continues, unless the answers are another's: then it begins.
    pub(crate) fn resume(&mut self, txn: Txn) {
        if self.txn != txn {
            self.begin(txn);
        }
    }

    /// The list is that of this transaction, which has begun with it.
    pub(crate) fn has_begun(&mut self, txn: Txn) {
        self.txn = txn;
    }

    /// The commands of a list that have no answer. Takes all memory for them, with so many commands after them: a run
    /// takes none.
    pub(crate) fn rest<'l, 'a>(
        &mut self,
        list: &'l [Do<'a>],
        after: usize,
    ) -> Result<Rest<'l, 'a>, Refusal> {
        let list = list.get(self.done.len()..).unwrap_or_default();
        let parents = list.iter().map(|each| each.parents().len()).sum();
        self.parents.clear();
        let taken = self.done.try_reserve_exact(list.len());
        let taken = taken.and_then(|()| self.room.reserve(list.len() + after));
        let taken = taken.and_then(|()| self.parents.try_reserve_exact(parents));
        match taken {
            Ok(()) => Ok(Rest { list, parents }),
            Err(_refused) => Err(Refusal::NoMemory),
        }
    }

    /// Makes the rest of a list for a transaction, and commands of these kinds and transactions after it, by this call,
    /// which answers how many of them are done.
    pub(crate) fn run(
        &mut self,
        rest: Rest<'_, '_>,
        txn: Txn,
        after: &[(u32, Txn)],
        call: impl FnOnce(&mut [Command<'_>]) -> usize,
    ) -> Result<(), Halt> {
        let Rest { list, parents } = rest;
        let names = Names(&self.done);
        if parents > 0 {
            let named = list.iter().flat_map(Do::parents);
            self.parents.extend(named.map(|named| names.node(*named)));
        }
        let mut parents = Parents(&self.parents);
        let mut commands = self.room.lend(list.len() + after.len());
        let (own, last) = commands.split_at_mut(list.len());
        for (each, command) in list.iter().zip(own) {
            each.write(command, txn, names, &mut parents);
        }
        for ((kind, txn), command) in after.iter().zip(last) {
            command.of(*kind, *txn);
        }
        let count = call(&mut commands);
        let stopped = commands.get(count).map(|command| command.reply);
        let done = list.iter().zip(&commands).take(count);
        let done = done.map(|(each, command)| each.done(&command.reply));
        self.done.extend(done);
        self.room.take_back(commands);
        match stopped {
            Some(reply) => Err(self.stops(list.get(count), &reply)),
            None => {
                self.left = Left::Nothing;
                Ok(())
            }
        }
    }

    /// The list stops at this command, which was answered so.
    fn stops(&mut self, command: Option<&Do<'_>>, reply: &Reply) -> Halt {
        let names = Names(&self.done);
        let requested = command.and_then(Do::requests);
        let requested = requested.map(|named| names.node(named));
        let halt = Halt::of(reply, requested);
        let before = replace(&mut self.left, Left::Nothing);
        self.left = match halt {
            Halt::Waiting(wait) => Left::Wait { wait, requested },
            Halt::OtherKeys(mode) => {
                Left::Row(Done::RowLocked(RowLocked::OtherKeys(mode), reply.node))
            }
            // The wait that an earlier run has left continues.
            Halt::Stopped(Stop::Refused(Refusal::TxnWaiting | Refusal::InUse)) => before,
            _ => Left::Nothing,
        };
        match (halt, self.left) {
            (Halt::Stopped(Stop::Refused(Refusal::TxnWaiting)), Left::Wait { wait, .. }) => {
                Halt::Waiting(wait)
            }
            _ => halt,
        }
    }

    /// The wait that the last run of this transaction has left.
    pub(crate) fn wait(&self, txn: Txn) -> Option<Wait> {
        match self.left {
            Left::Wait { wait, .. } if self.txn == txn => Some(wait),
            _ => None,
        }
    }

    /// That wait was awaited, and was answered so. If the call was refused, the wait continues. The grant of the node that
    /// the command requests is its answer, and of any other node a step to it.
    pub(crate) fn has_awaited(&mut self, end: Result<Mode, Stop>) -> Result<(), Stop> {
        if matches!(end, Err(Stop::Refused(_))) {
            return end.map(drop);
        }
        self.has_ended(end, false)
    }

    /// Over several parts the wait goes on to the end of its request, which was this; if the call was refused, the wait
    /// continues. A command of a row asks for that again, which is granted at once.
    pub(crate) fn has_come_to(&mut self, end: Result<Mode, Stop>) -> Result<(), Stop> {
        match end {
            Err(Stop::Refused(Refusal::InUse | Refusal::TxnWaiting)) => end.map(drop),
            _ => self.has_ended(end, true),
        }
    }

    fn has_ended(&mut self, end: Result<Mode, Stop>, goes_on: bool) -> Result<(), Stop> {
        let left = replace(&mut self.left, Left::Nothing);
        let mode = end?;
        if let Left::Wait { wait, requested } = left {
            if requested.is_some_and(|node| goes_on || node == wait.node) {
                self.done.push(Done::Locked(mode));
            }
        }
        Ok(())
    }
}

impl Default for Answers {
    fn default() -> Answers {
        Answers::new()
    }
}

impl Deref for Answers {
    type Target = [Done];

    fn deref(&self) -> &[Done] {
        &self.done
    }
}

impl fmt::Debug for Answers {
    fn fmt(&self, f: &mut fmt::Formatter<'_>) -> fmt::Result {
        f.debug_tuple("Answers").field(&self.done).finish()
    }
}
