//! What stories of lists have in common: a store, commands, and why lists stop.

#![allow(dead_code)] // Each test program uses some of it.

#[path = "../waiters/mod.rs"]
pub mod waiters;

use burlapslate::{Detect, Do, Done, Halt, Mode, Node, Refusal, Session, Stop, Table, Wait};
use std::time::Instant;
use waiters::{Store, PATIENCE};

pub const GRANTED: Done = Done::Locked(Mode::X);

pub fn store() -> Store {
    Store::new(Detect::AtBlock)
}

/// A session whose waits end, if they do not as they are to.
pub fn begin(store: &Store) -> Session<'static> {
    let mut session = store.begin();
    session.set_deadline(Instant::now().checked_add(PATIENCE));
    session
}

pub fn path<'a>(node: Node, mode: Mode) -> Do<'a> {
    Do::LockPath(node.into(), mode)
}

pub fn waiting(node: Node, mode: Mode) -> Halt {
    Halt::Waiting(Wait { node, mode })
}

pub fn refused(refusal: Refusal) -> Result<(), Halt> {
    Err(Halt::Stopped(Stop::Refused(refusal)))
}

/// How many transactions there are.
pub fn living(table: &Table) -> usize {
    table.with(|m| m.transactions().count())
}

/// How many commands were done.
pub fn accepted(table: &Table) -> u64 {
    table.with(|m| m.accepted())
}
