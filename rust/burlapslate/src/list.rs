//! The commands of lists: what they name, what they answer, and why a list stops.

use crate::manager::{Escalated, Mark, Wait};
use crate::mode::Mode;
use crate::names::{Node, Row, Txn};
use crate::refusal::Refusal;
use crate::session::{Keep, RowLocked, Stop};
use crate::sys::commands::{self, Command};
use crate::sys::shared::INSTANT;
use crate::sys::{self, Reply};
use std::error::Error;
use std::fmt;

/// A node as a command of a list names it ([`Do`]): one that is there, or one that an earlier command of the same list
/// makes.
#[derive(Clone, Copy, PartialEq, Eq, Hash, Debug)]
pub enum Named {
    /// This node.
    Node(Node),
    /// The node that the command at this place of the list has made, from 0 on, or that of the row that it has locked
    /// ([`Done::node`]). If that command does not come before, or has no such node, this names none: the command is
    /// refused with [`NoSuchNode`](Refusal::NoSuchNode), or with [`NotRows`](Refusal::NotRows) if this is the file of
    /// a row.
    Made(usize),
}

impl From<Node> for Named {
    fn from(node: Node) -> Named {
        Named::Node(node)
    }
}

/// A row as a command of a list names it ([`Do`]).
#[derive(Clone, Copy, PartialEq, Eq, Hash, Debug)]
pub struct NamedRow {
    /// Its file.
    pub file: Named,
    /// Its number there.
    pub number: u64,
}

impl From<Row> for NamedRow {
    fn from(row: Row) -> NamedRow {
        NamedRow {
            file: row.file.into(),
            number: row.number,
        }
    }
}

/// A command of a list ([`Session::run`](crate::Session::run); [`GroupSession::run`](crate::GroupSession::run) says what
/// differs in a group). Each is as the call of its name, and has what that call takes, in its order; but a lock does not
/// sleep.
///
/// ```
/// # use burlapslate::{Answers, Detect, Do, Mode, Named, Table, SLOTS};
/// # let table = Table::new(Detect::AtBlock, SLOTS)?;
/// # let db = table.add_inner(&[])?;
/// // A file with an index: the list names the file before it is made.
/// let under = [db.into()];
/// let list = [
///     Do::AddFile(&under),
///     Do::AddIndex(&under, Named::Made(0), &[100, 200]),
///     Do::LockPath(Named::Made(0), Mode::X),
/// ];
/// let mut answers = Answers::new();
/// let mut session = table.begin()?;
/// session.run(&list, &mut answers).unwrap();
/// let [file, index] = [0, 1].map(|place| answers[place].node().unwrap());
/// assert_eq!(table.with(|m| m.index(file, 0)), Ok(Some(index)));
/// assert_eq!(table.with(|m| m.held(session.txn(), file)), Ok(Mode::X));
/// # Ok::<(), burlapslate::Refusal>(())
/// ```
#[non_exhaustive]
#[derive(Clone, Copy, PartialEq, Eq, Hash, Debug)]
pub enum Do<'a> {
    /// As [`Session::lock`](crate::Session::lock).
    Lock(Named, Mode),
    /// As [`Session::lock_instant`](crate::Session::lock_instant).
    LockInstant(Named, Mode),
    /// As [`Session::lock_path`](crate::Session::lock_path).
    LockPath(Named, Mode),
    /// As [`Session::lock_path_instant`](crate::Session::lock_path_instant).
    LockPathInstant(Named, Mode),
    /// As [`Session::lock_row`](crate::Session::lock_row).
    LockRow(NamedRow, &'a [u64], Mode),
    /// As [`Session::lock_row_path`](crate::Session::lock_row_path).
    LockRowPath(NamedRow, &'a [u64], Mode),
    /// As [`Session::try_lock`](crate::Session::try_lock).
    TryLock(Named, Mode),
    /// As [`Session::try_lock_path`](crate::Session::try_lock_path).
    TryLockPath(Named, Mode, Keep),
    /// As [`Session::try_lock_row`](crate::Session::try_lock_row).
    TryLockRow(NamedRow, &'a [u64], Mode),
    /// As [`Session::try_lock_row_path`](crate::Session::try_lock_row_path).
    TryLockRowPath(NamedRow, &'a [u64], Mode, Keep),
    /// As [`Session::unlock`](crate::Session::unlock).
    Unlock(Named),
    /// As [`Session::unlock_row`](crate::Session::unlock_row).
    UnlockRow(NamedRow),
    /// As [`Session::escalate`](crate::Session::escalate).
    Escalate(Named),
    /// As [`Session::mark`](crate::Session::mark).
    Mark,
    /// As [`Session::release_since`](crate::Session::release_since), of a mark that was made before the list.
    ReleaseSince(Mark),
    /// As [`Session::insert`](crate::Session::insert).
    Insert(Named, &'a [u64]),
    /// As [`Session::insert_path`](crate::Session::insert_path).
    InsertPath(Named, &'a [u64], Keep),
    /// As [`Session::delete`](crate::Session::delete).
    Delete(Named),
    /// As [`Session::rekey`](crate::Session::rekey).
    Rekey(Named, Named, u64),
    /// As [`Session::rekey_row`](crate::Session::rekey_row).
    RekeyRow(NamedRow, Named, u64),
    /// As [`Session::move_node`](crate::Session::move_node).
    MoveNode(Named, &'a [Named]),
    /// As [`Session::drop_node`](crate::Session::drop_node).
    DropNode(Named),
    /// As [`Session::split`](crate::Session::split).
    Split(Named, u64),
    /// As [`Session::merge`](crate::Session::merge).
    Merge(Named),
    /// As [`Session::index_by`](crate::Session::index_by).
    IndexBy(&'a [Named], Named, &'a [u64]),
    /// As [`Table::add_inner`](crate::Table::add_inner).
    AddInner(&'a [Named]),
    /// As [`Table::add_file`](crate::Table::add_file).
    AddFile(&'a [Named]),
    /// As [`Table::add_row_file`](crate::Table::add_row_file).
    AddRowFile(&'a [Named]),
    /// As [`Table::add_index`](crate::Table::add_index).
    AddIndex(&'a [Named], Named, &'a [u64]),
    /// As [`Table::adopt`](crate::Table::adopt).
    Adopt(Named, &'a [u64]),
    /// As [`Table::forget`](crate::Table::forget).
    Forget(Named),
}

impl<'a> Do<'a> {
    fn kind(&self) -> u32 {
        match self {
            Do::Lock(..) | Do::LockInstant(..) => commands::LOCK,
            Do::LockPath(..) | Do::LockPathInstant(..) => commands::LOCK_PATH,
            Do::LockRow(..) => commands::LOCK_ROW,
            Do::LockRowPath(..) => commands::LOCK_ROW_PATH,
            Do::TryLock(..) => commands::TRY,
            Do::TryLockPath(..) => commands::TRY_PATH,
            Do::TryLockRow(..) => commands::TRY_ROW,
            Do::TryLockRowPath(..) => commands::TRY_ROW_PATH,
            Do::Unlock(..) => commands::UNLOCK,
            Do::UnlockRow(..) => commands::UNLOCK_ROW,
            Do::Escalate(..) => commands::ESCALATE,
            Do::Mark => commands::MARK,
            Do::ReleaseSince(..) => commands::RELEASE_SINCE,
            Do::Insert(..) => commands::INSERT,
            Do::InsertPath(..) => commands::INSERT_PATH,
            Do::Delete(..) => commands::DELETE,
            Do::Rekey(..) => commands::REKEY,
            Do::RekeyRow(..) => commands::REKEY_ROW,
            Do::MoveNode(..) => commands::MOVE,
            Do::DropNode(..) => commands::DROP,
            Do::Split(..) => commands::SPLIT,
            Do::Merge(..) => commands::MERGE,
            Do::IndexBy(..) => commands::INDEX_BY,
            Do::AddInner(..) => commands::ADD_INNER,
            Do::AddFile(..) => commands::ADD_FILE,
            Do::AddRowFile(..) => commands::ADD_ROW_FILE,
            Do::AddIndex(..) => commands::ADD_INDEX,
            Do::Adopt(..) => commands::ADOPT,
            Do::Forget(..) => commands::FORGET,
        }
    }

    /// Writes it into a command whose fields are zero, for a transaction. The nodes that it names as parents are the
    /// first of these.
    pub(crate) fn write<'k>(
        &self,
        command: &mut Command<'k>,
        txn: Txn,
        names: Names<'_>,
        parents: &mut Parents<'k>,
    ) where
        'a: 'k,
    {
        let new = command.of(self.kind(), txn);
        match *self {
            Do::Lock(node, mode) | Do::LockPath(node, mode) | Do::TryLock(node, mode) => {
                new.node(names.node(node)).mode(mode as u32)
            }
            Do::LockInstant(node, mode) | Do::LockPathInstant(node, mode) => {
                new.node(names.node(node)).mode(mode as u32 | INSTANT)
            }
            Do::TryLockPath(node, mode, keep) => {
                let tried = new.node(names.node(node)).mode(mode as u32);
                tried.keep(keep.as_number())
            }
            Do::LockRow(row, keys, mode)
            | Do::LockRowPath(row, keys, mode)
            | Do::TryLockRow(row, keys, mode) => {
                new.row(names.row(row)).keys(keys).mode(mode as u32)
            }
            Do::TryLockRowPath(row, keys, mode, keep) => {
                let tried = new.row(names.row(row)).keys(keys).mode(mode as u32);
                tried.keep(keep.as_number())
            }
            Do::Split(interval, at) => new.node(names.node(interval)).key(at),
            Do::Unlock(node) | Do::Escalate(node) | Do::DropNode(node) | Do::Merge(node) => {
                new.node(names.node(node))
            }
            Do::Delete(record) | Do::Forget(record) => new.node(names.node(record)),
            Do::UnlockRow(row) => new.row(names.row(row)),
            Do::Mark => new,
            Do::ReleaseSince(mark) => new.number(mark.0 as u64),
            Do::Insert(file, keys) | Do::Adopt(file, keys) => new.file(names.node(file)).keys(keys),
            Do::InsertPath(file, keys, keep) => {
                new.file(names.node(file)).keys(keys).keep(keep.as_number())
            }
            Do::Rekey(record, index, key) => {
                new.node(names.node(record)).rekeyed(names.node(index), key)
            }
            Do::RekeyRow(row, index, key) => {
                new.row(names.row(row)).rekeyed(names.node(index), key)
            }
            Do::MoveNode(node, above) => new
                .node(names.node(node))
                .parents(parents.next(above.len())),
            Do::IndexBy(above, file, bounds) | Do::AddIndex(above, file, bounds) => {
                let made = new.file(names.node(file)).bounds(bounds);
                made.parents(parents.next(above.len()))
            }
            Do::AddInner(above) | Do::AddFile(above) | Do::AddRowFile(above) => {
                new.parents(parents.next(above.len()))
            }
        };
    }

    /// What it names as parents.
    pub(crate) fn parents(&self) -> &'a [Named] {
        match *self {
            Do::MoveNode(_, parents)
            | Do::IndexBy(parents, ..)
            | Do::AddInner(parents)
            | Do::AddFile(parents)
            | Do::AddRowFile(parents)
            | Do::AddIndex(parents, ..) => parents,
            _ => &[],
        }
    }

    /// The node whose lock it requests.
    pub(crate) fn requests(&self) -> Option<Named> {
        match *self {
            Do::Lock(node, _)
            | Do::LockInstant(node, _)
            | Do::LockPath(node, _)
            | Do::LockPathInstant(node, _)
            | Do::TryLock(node, _)
            | Do::TryLockPath(node, ..)
            | Do::Escalate(node) => Some(node),
            _ => None,
        }
    }

    /// What it was answered when it was done.
    pub(crate) fn done(&self, reply: &Reply) -> Done {
        match self {
            Do::Lock(..)
            | Do::LockInstant(..)
            | Do::LockPath(..)
            | Do::LockPathInstant(..)
            | Do::TryLock(..)
            | Do::TryLockPath(..) => Done::Locked(Mode::of(reply.mode)),
            Do::LockRow(..) | Do::LockRowPath(..) | Do::TryLockRow(..) | Do::TryLockRowPath(..) => {
                Done::RowLocked(RowLocked::Own(Mode::of(reply.mode)), reply.node)
            }
            Do::Insert(..)
            | Do::InsertPath(..)
            | Do::Adopt(..)
            | Do::IndexBy(..)
            | Do::Split(..)
            | Do::AddInner(..)
            | Do::AddFile(..)
            | Do::AddRowFile(..)
            | Do::AddIndex(..) => Done::Made(reply.node),
            Do::Escalate(..) => Done::Escalated(Escalated::of(reply)),
            Do::Mark => Done::Marked(Mark(reply.count as usize)),
            Do::ReleaseSince(..) => Done::Released(reply.count as usize),
            _ => Done::Accepted,
        }
    }
}

/// What a command of a list answered that was done ([`Answers`](crate::Answers)).
#[non_exhaustive]
#[derive(Clone, Copy, PartialEq, Eq, Hash, Debug)]
pub enum Done {
    /// The node was granted, in this mode, the one that is held then.
    Locked(Mode),
    /// The row was granted: how it is held, and its node.
    RowLocked(RowLocked, Node),
    /// It made this node.
    Made(Node),
    /// The transaction's savepoint.
    Marked(Mark),
    /// It released so many nodes.
    Released(usize),
    /// What the escalation did.
    Escalated(Escalated),
    /// It was accepted, and answers nothing else.
    Accepted,
}

impl Done {
    /// The node that [`Named::Made`] names: one that the command made, or that of a row.
    pub fn node(self) -> Option<Node> {
        match self {
            Done::Made(node) | Done::RowLocked(_, node) => Some(node),
            _ => None,
        }
    }
}

/// Why a list stopped before its end: what became of its first command that is not done.
#[non_exhaustive]
#[derive(Clone, Copy, PartialEq, Eq, Hash, Debug)]
pub enum Halt {
    /// Its lock waits, for this node in this mode. The transaction does nothing else until that wait has its end
    /// ([`Session::await_lock`](crate::Session::await_lock)), or is cancelled.
    Waiting(Wait),
    /// A try, an insert with its path or an escalation would have to wait, at this node.
    WouldBlock(Node),
    /// The row is held in this mode, but its node has other keys than the command's, or could not be asked for lack of
    /// memory. The engine reads the row's keys again. If they are what the list needs,
    /// [`Answers::accept_row`](crate::Answers::accept_row) takes the row as it is. Otherwise it unlocks the row, and
    /// continues with a list that has the new keys ([`Session::resume`](crate::Session::resume)).
    OtherKeys(Mode),
    /// It was refused, or was not granted.
    Stopped(Stop),
}

impl Halt {
    /// By what the command was answered that requests this node.
    pub(crate) fn of(reply: &Reply, requested: Option<Node>) -> Halt {
        match reply.status {
            sys::WAITING => Halt::Waiting(Wait {
                node: reply.node,
                mode: Mode::of(reply.mode),
            }),
            sys::OTHER_KEYS => Halt::OtherKeys(Mode::of(reply.mode)),
            // A try of a node and an escalation answer no other.
            sys::WOULD_BLOCK if reply.node == Node::NONE => {
                Halt::WouldBlock(requested.unwrap_or(reply.node))
            }
            sys::WOULD_BLOCK => Halt::WouldBlock(reply.node),
            _ => Halt::Stopped(Stop::of(reply)),
        }
    }
}

/// What it is, for a log.
impl fmt::Display for Halt {
    fn fmt(&self, f: &mut fmt::Formatter<'_>) -> fmt::Result {
        match self {
            Halt::Waiting(_) => f.pad("Waiting"),
            Halt::WouldBlock(_) => f.pad("WouldBlock"),
            Halt::OtherKeys(_) => f.pad("OtherKeys"),
            Halt::Stopped(stop) => stop.fmt(f),
        }
    }
}

impl Error for Halt {}

impl From<Stop> for Halt {
    fn from(stop: Stop) -> Halt {
        Halt::Stopped(stop)
    }
}

impl From<Refusal> for Halt {
    fn from(refusal: Refusal) -> Halt {
        Halt::Stopped(refusal.into())
    }
}

/// What the names of a list mean in a call for the rest of it: after the commands with these answers.
#[derive(Clone, Copy)]
pub(crate) struct Names<'d>(pub(crate) &'d [Done]);

impl Names<'_> {
    /// The node of a command before the call; of a later one the name that the call gives it.
    pub(crate) fn node(self, named: Named) -> Node {
        match named {
            Named::Node(node) => node,
            Named::Made(place) => match self.0.get(place) {
                Some(done) => done.node().unwrap_or(Node::NONE),
                None => commands::made(place - self.0.len()),
            },
        }
    }

    /// The same of a row.
    fn row(&self, row: NamedRow) -> Row {
        Row {
            file: self.node(row.file),
            number: row.number,
        }
    }
}

/// The nodes that the commands of a list name as parents, of one after the other.
pub(crate) struct Parents<'k>(pub(crate) &'k [Node]);

impl<'k> Parents<'k> {
    /// Those of the next command, which are so many.
    fn next(&mut self, count: usize) -> &'k [Node] {
        let (next, others) = self.0.split_at(count);
        self.0 = others;
        next
    }
}
