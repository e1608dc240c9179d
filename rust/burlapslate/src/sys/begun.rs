//! Begins of futures that wait for a slot, and their ends, as `include/burlapslate_session.h` declares the calls of a
//! table.
//!
//! Task and callback share what such a begin has come to. Its address is the word of the ask, with the lowest bit set: so
//! it is told from the ask of a lock, whose word is an even number.

use super::awaited::wake;
use super::shared::{bs_table_abort, Shared, Until};
use super::{Reply, DONE, WAITING};
use crate::names::Txn;
use std::mem::{align_of, replace, swap};
use std::sync::{Arc, Mutex, MutexGuard, PoisonError};
use std::task::{Poll, Waker};

// SAFETY: these are the calls of the header, and their types have the layout of its types. The word of an ask is a number.
unsafe extern "C" {
    safe fn bs_table_ask_begin_again(
        table: &Shared,
        since: u64,
        until: Until<'_>,
        word: usize,
    ) -> Reply;
    safe fn bs_table_cancel_begin(table: &Shared, word: usize) -> Reply;
}

/// What begins for tasks: a table or a group.
pub(crate) trait BeginsAtOnce {
    /// Begins a transaction if a slot is free. It is a call of its caller, as the next.
    fn begin_now(&self, since: u64) -> Reply;

    fn begins(&self) -> &dyn Begins;

    /// Makes the ask of a begin, whose end wakes this waker if it waits.
    fn ask_begin(&self, since: u64, waker: &Waker) -> Asked<'_> {
        Begin::ask(self.begins(), since, waker)
    }
}

/// Set in the words of begins alone.
const IS_BEGIN: usize = 1;

/// What is asked for begins: a table or a group.
pub(crate) trait Begins: Sync {
    /// Makes an ask with this word.
    fn ask_begin(&self, since: u64, word: usize) -> Reply;

    /// Takes the begin of this word back.
    fn cancel_begin(&self, word: usize) -> Reply;

    /// Aborts a transaction that nobody has.
    fn abort(&self, txn: Txn);
}

impl Begins for Shared {
    fn ask_begin(&self, since: u64, word: usize) -> Reply {
        bs_table_ask_begin_again(self, since, None, word)
    }

    fn cancel_begin(&self, word: usize) -> Reply {
        bs_table_cancel_begin(self, word)
    }

    fn abort(&self, txn: Txn) {
        bs_table_abort(self, txn, None);
    }
}

/// A begin that waits for a slot, or did.
pub(crate) struct Begin<'t> {
    of: &'t dyn Begins,
    state: Mutex<State>,
}

enum State {
    /// It waits, and its end wakes this waker.
    Waits(Waker),
    /// It has ended so.
    Ended(Reply),
    /// No task awaits it any more.
    Dropped,
}

/// How the ask of a begin was answered.
pub(crate) enum Asked<'t> {
    AtOnce(Reply),
    Waits(Arc<Begin<'t>>),
}

const _: () = assert!(align_of::<Begin<'_>>() > IS_BEGIN);

impl<'t> Begin<'t> {
    /// Makes an ask whose end wakes this waker if it waits.
    fn ask(of: &'t dyn Begins, since: u64, waker: &Waker) -> Asked<'t> {
        let begin = Arc::new(Begin {
            of,
            state: Mutex::new(State::Waits(waker.clone())),
        });
        let told = Arc::into_raw(Arc::clone(&begin)); // The callback's own.
        let reply = of.ask_begin(since, word_of(told));
        if reply.status == WAITING {
            return Asked::Waits(begin);
        }
        // SAFETY: the pointer is of `into_raw`, and an ask that does not wait has no call of the callback.
        drop(unsafe { Arc::from_raw(told) });
        Asked::AtOnce(reply)
    }

    /// What it came to; if it waits, it wakes this waker from now on. The other one is dropped without the lock, since that
    /// may call the table.
    pub(crate) fn poll(&self, waker: &Waker) -> Poll<Reply> {
        let mut waker = waker.clone();
        let mut state = self.state();
        let polled = match &mut *state {
            State::Waits(own) => {
                swap(own, &mut waker);
                Poll::Pending
            }
            State::Ended(reply) => Poll::Ready(*reply),
            State::Dropped => unreachable!("the task that polls it awaits it"),
        };
        drop(state);
        polled
    }

    /// No task awaits it from now on: takes it back if it waits, and ends what it has begun.
    pub(crate) fn forget(&self) {
        match self.becomes(State::Dropped) {
            // If that is refused, it has begun, or this thread holds the table: its callback ends what it begins.
            State::Waits(waker) => {
                self.of.cancel_begin(word_of(self));
                drop(waker);
            }
            State::Ended(reply) => self.abort(&reply),
            State::Dropped => {}
        }
    }

    /// It has ended so: wakes the task, or ends what was begun for a task that does not await it any more.
    fn end(&self, reply: Reply) {
        let mut state = self.state();
        if matches!(*state, State::Dropped) {
            drop(state);
            return self.abort(&reply);
        }
        let before = replace(&mut *state, State::Ended(reply));
        drop(state);
        if let State::Waits(waker) = before {
            wake(waker);
        }
    }

    /// Ends the transaction that was begun, if one was.
    fn abort(&self, begun: &Reply) {
        if begun.status == DONE {
            self.of.abort(begun.txn);
        }
    }

    fn becomes(&self, state: State) -> State {
        replace(&mut *self.state(), state)
    }

    fn state(&self) -> MutexGuard<'_, State> {
        let state = self.state.lock();
        state.unwrap_or_else(PoisonError::into_inner) // No holder of it panics.
    }
}

fn word_of(begin: *const Begin<'_>) -> usize {
    begin as usize | IS_BEGIN
}

/// Of the callback: whether this is the word of a begin; if so, that has ended so.
///
/// # Safety
///
/// The word is of an ask of a future, whose end is told by this call.
pub(super) unsafe fn ends(word: usize, end: Reply) -> bool {
    if word & IS_BEGIN == 0 {
        return false;
    }
    // SAFETY: the word is the address of what `ask` gave to this call. What it is of is there until all ends are told.
    let begin = unsafe { Arc::from_raw((word & !IS_BEGIN) as *const Begin<'_>) };
    begin.end(end);
    true
}
