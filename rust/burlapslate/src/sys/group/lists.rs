//! Lists of commands of a group, as `include/burlapslate_group.h` declares their calls.

use super::asks::bs_group_await;
use super::{Shared, Transaction};
use crate::sys::commands::Command;
use crate::sys::shared::Time;
use crate::sys::Reply;

// SAFETY: these are the calls of the header, and their types have the layout of its types.
unsafe extern "C" {
    fn bs_group_run(group: &Shared, commands: *mut Command<'_>, count: usize) -> usize;
    fn bs_group_try_first(group: &Shared, commands: *mut Command<'_>, count: usize) -> usize;
}

/// The commands of the lists are its own.
impl Transaction<'_> {
    /// Makes a list; how many of its commands are done. It is a call of its caller.
    pub(crate) fn run(&mut self, list: &mut [Command<'_>]) -> usize {
        let (start, count) = (list.as_mut_ptr(), list.len());
        // SAFETY: no other thread is in a call of this transaction. The count is the list's own, and so are those of the
        // lists that each command names, which outlive it.
        unsafe { bs_group_run(self.shared(), start, count) }
    }

    /// The place of the first try that is not passed over, or how many there are.
    pub(crate) fn try_first(&mut self, tries: &mut [Command<'_>]) -> usize {
        let (start, count) = (tries.as_mut_ptr(), tries.len());
        // SAFETY: the same.
        unsafe { bs_group_try_first(&self.call(), start, count) }
    }

    /// Sleeps until the end of the lock that a list has left waiting.
    pub(crate) fn await_left(&mut self, until: Option<Time>) -> Reply {
        // SAFETY: no other thread is in a call of this transaction.
        unsafe { bs_group_await(&self.call(), self.name, until.as_ref()) }
    }
}
