//! Asks of futures, and the ends of their waits, as `include/burlapslate_shared.h` and `include/burlapslate_rows.h` declare
//! the calls of both.
//!
//! A slot has one ask that waits at most. So each slot of a table or a group has one place for a waker and for the end of
//! a wait, and the word of an ask is an even number: by that a late end, of an ask that nobody awaits any more, is told
//! from the next one's, and from that of a [`begun`].
//!
//! Over several parts a transaction waits until the callback was called with the end of its ask. So a thread that
//! cancels one sleeps until another thread has told its end, if one has to. In a callback no call may sleep, since its
//! thread may be the one which has to: there a transaction that is to be aborted is left to the call of the callback
//! with its end.

use super::begun::{self, Begins};
use super::shared::{Shared, Until};
use super::{boxed, numbers, Reply, DONE, NO_MANAGER, NO_SUCH_NODE, TXN_WAITING, WAITING};
use crate::mode::Mode;
use crate::names::{Node, Row, Txn};
use crate::refusal::Refusal;
use crate::session::{ended, Ended, Stop};
use crate::SLOTS;
use std::any::Any;
use std::cell::Cell;
use std::ffi::c_void;
use std::mem::{replace, swap};
use std::panic::{catch_unwind, resume_unwind, AssertUnwindSafe};
use std::ptr::NonNull;
use std::sync::atomic::{AtomicBool, Ordering};
use std::sync::{Mutex, MutexGuard, PoisonError};
use std::task::{Poll, Waker};
use std::thread;

pub(super) type OnEnd = unsafe extern "C" fn(*const c_void, Txn, Reply, usize);

// SAFETY: these are the calls of the header, and their types have the layout of its types. The word of an ask is a number.
unsafe extern "C" {
    fn bs_table_on_end(table: &Shared, function: OnEnd, context: *const c_void) -> Reply;
    safe fn bs_table_ask(
        table: &Shared,
        txn: Txn,
        node: Node,
        mode: u32,
        until: Until<'_>,
        word: usize,
    ) -> Reply;
    safe fn bs_table_ask_await(
        table: &Shared,
        txn: Txn,
        node: Node,
        mode: u32,
        until: Until<'_>,
        word: usize,
    ) -> Reply;
    safe fn bs_table_ask_path(
        table: &Shared,
        txn: Txn,
        node: Node,
        mode: u32,
        until: Until<'_>,
        word: usize,
    ) -> Reply;
    fn bs_table_ask_row(
        table: &Shared,
        txn: Txn,
        file: Node,
        number: u64,
        keys: *const u64,
        count: usize,
        mode: u32,
        until: Until<'_>,
        word: usize,
    ) -> Reply;
    fn bs_table_ask_row_path(
        table: &Shared,
        txn: Txn,
        file: Node,
        number: u64,
        keys: *const u64,
        count: usize,
        mode: u32,
        until: Until<'_>,
        word: usize,
    ) -> Reply;
}

/// The waits of futures, by slot.
#[repr(transparent)]
pub(crate) struct Waits([Mutex<Wait>; SLOTS]);

/// The wait of a slot's last ask.
struct Wait {
    /// That of the ask: each has another even one.
    number: usize,
    waker: Option<Waker>,
    state: State,
}

/// What became of an ask.
#[derive(Clone, Copy)]
enum State {
    /// Its end is not told yet.
    Waits,
    /// The same, and nobody has its transaction any more: that ends too, as the end is told.
    Left,
    /// It ended so.
    Ended(Ended),
}

/// Of a slot that had no ask yet.
const NOBODY: State = State::Ended(Err(Stop::Refused(Refusal::NoSuchTxn)));

/// What a session requests. The mode of a lock for an instant says so.
#[derive(Clone, Copy)]
pub(crate) enum Sought<'k> {
    /// A node.
    Node(Node, u32),
    /// A node with what must be held above it.
    Path(Node, u32),
    /// A row, with its keys.
    Row(Row, &'k [u64], u32),
    /// A row, with its keys and what must be held above it.
    RowPath(Row, &'k [u64], u32),
    /// What a list requested and left waiting for this node.
    Left(Node, u32),
}

impl Waits {
    /// A place for each slot; `None` if memory is refused.
    fn new() -> Option<Box<Waits>> {
        let mut places = Vec::new();
        places.try_reserve_exact(SLOTS).ok()?;
        places.resize_with(SLOTS, || {
            Mutex::new(Wait {
                number: 0,
                waker: None,
                state: NOBODY,
            })
        });
        let places: Box<[Mutex<Wait>; SLOTS]> = places.into_boxed_slice().try_into().ok()?;
        // SAFETY: the type is transparent.
        Some(unsafe { Box::from_raw(Box::into_raw(places).cast()) })
    }

    /// The number of a new wait. If the slot's last wait still has a waker, its transaction has ended, and the end is not
    /// told yet: then that task is woken here, since its end finds another number.
    fn begin(&self, txn: Txn, waker: Option<Waker>) -> usize {
        let mut wait = self.of(txn);
        wait.number = wait.number.wrapping_add(2);
        wait.state = State::Waits;
        let before = replace(&mut wait.waker, waker);
        let number = wait.number;
        drop(wait);
        before.into_iter().for_each(wake);
        number
    }

    /// The ask of a new wait was answered so: how the wait ended, if it has.
    fn answered(&self, txn: Txn, number: usize, reply: &Reply) -> Poll<Ended> {
        if reply.status == WAITING {
            return Poll::Pending;
        }
        let end = ended(reply);
        drop(self.end(txn, number, end)); // Without the lock, since that may call the table.
        Poll::Ready(end)
    }

    /// How the wait of this number ended; if it has not, it wakes this waker from now on. If the slot has another wait, the
    /// transaction has ended.
    fn poll(&self, txn: Txn, number: usize, waker: &Waker) -> Poll<Ended> {
        let is_woken = |own: &Waker| own.will_wake(waker);
        let wait = self.of(txn);
        if wait.number != number {
            return Poll::Ready(Err(Stop::Refused(Refusal::NoSuchTxn)));
        }
        if let State::Ended(end) = wait.state {
            return Poll::Ready(end);
        }
        if wait.waker.as_ref().is_some_and(is_woken) {
            return Poll::Pending;
        }
        drop(wait);
        self.wake_by(txn, number, waker.clone())
    }

    /// The same with another waker, which is made and dropped without the lock, since that may call the table.
    fn wake_by(&self, txn: Txn, number: usize, waker: Waker) -> Poll<Ended> {
        let mut waker = Some(waker);
        let mut wait = self.of(txn);
        if wait.number != number {
            return Poll::Ready(Err(Stop::Refused(Refusal::NoSuchTxn)));
        }
        match wait.state {
            State::Ended(end) => Poll::Ready(end),
            State::Waits | State::Left => {
                swap(&mut wait.waker, &mut waker);
                Poll::Pending
            }
        }
    }

    /// From now on the wait of this number wakes nobody; whether it has not ended.
    fn forget_waker(&self, txn: Txn, number: usize) -> bool {
        let mut wait = self.of(txn);
        if wait.number != number {
            return false;
        }
        let waker = wait.waker.take();
        let waits = !matches!(wait.state, State::Ended(_));
        drop(wait);
        drop(waker); // Without the lock, since that may call the table.
        waits
    }

    /// Whether the end of the wait of this number is not told yet.
    fn is_untold(&self, txn: Txn, number: usize) -> bool {
        let wait = self.of(txn);
        wait.number == number && !matches!(wait.state, State::Ended(_))
    }

    /// Nobody has the transaction of the wait of this number any more: who tells the end of the wait ends that too. False
    /// if the end was told.
    fn leave(&self, txn: Txn, number: usize) -> bool {
        let mut wait = self.of(txn);
        let waits = wait.number == number && matches!(wait.state, State::Waits);
        if waits {
            wait.state = State::Left;
        }
        waits
    }

    /// The wait of this number has ended so: answers which waker to wake, and whether its transaction was left.
    fn end(&self, txn: Txn, number: usize, end: Ended) -> (Option<Waker>, bool) {
        let mut wait = self.of(txn);
        if wait.number != number {
            return (None, false);
        }
        let before = replace(&mut wait.state, State::Ended(end));
        (wait.waker.take(), matches!(before, State::Left))
    }

    /// Of a callback: the wait of this number has ended so. Stores that, and wakes the task after it; whether its
    /// transaction was left.
    fn ends(&self, txn: Txn, number: usize, end: &Reply) -> bool {
        let end = match end.status {
            NO_MANAGER => Err(Stop::Refused(Refusal::NoSuchTxn)), // All ends, and the transaction with it.
            _ => ended(end),
        };
        let (waker, is_left) = self.end(txn, number, end);
        waker.into_iter().for_each(wake);
        is_left
    }

    fn of(&self, txn: Txn) -> MutexGuard<'_, Wait> {
        let wait = self.0[txn.slot()].lock();
        wait.unwrap_or_else(PoisonError::into_inner) // No holder of it panics.
    }
}

/// A transaction of a table or a group, which asks for locks. One thread has it at a time.
pub(crate) trait Asks {
    fn name(&self) -> Txn;

    fn waits(&self) -> &Waits;

    /// The number of its last ask; 0 before the first.
    fn asked(&mut self) -> &mut usize;

    /// Whether it may be in several parts.
    fn has_parts(&self) -> bool;

    /// Makes an ask with this word.
    fn request(&mut self, sought: Sought<'_>, until: Until<'_>, word: usize) -> Reply;

    /// Tries to lock a node of no table.
    fn try_nowhere(&mut self, node: Node) -> Reply;

    fn cancel(&mut self) -> Reply;

    fn abort_now(&mut self) -> Reply;

    /// Whether this thread may sleep in a call.
    fn may_sleep(&self) -> bool;

    /// Makes an ask whose end wakes this waker if it waits; answers its number too. It is a call of its caller. If the
    /// last one still waits, since its future was leaked, that keeps its place.
    fn ask(&mut self, sought: Sought<'_>, until: Until<'_>, waker: &Waker) -> (Poll<Ended>, usize) {
        let (txn, last) = (self.name(), *self.asked());
        if self.has_parts() && self.waits().is_untold(txn, last) {
            if let Some(stop) = self.barred() {
                return (Poll::Ready(Err(stop)), last);
            }
        }
        let number = self.waits().begin(txn, Some(waker.clone()));
        *self.asked() = number;
        let reply = self.request(sought, until, number);
        (self.waits().answered(txn, number, &reply), number)
    }

    /// Why it may request nothing, if so: a request of a node of no table is refused last for that.
    fn barred(&mut self) -> Option<Stop> {
        let nowhere = Node {
            key: usize::MAX,
            birth: 1,
        };
        let reply = self.try_nowhere(nowhere);
        (reply.status != NO_SUCH_NODE).then(|| Stop::of(&reply))
    }

    /// How the wait of an ask ended; if it has not, it wakes this waker from now on.
    fn poll(&mut self, number: usize, waker: &Waker) -> Poll<Ended> {
        self.waits().poll(self.name(), number, waker)
    }

    /// Cancels the wait of an ask, which wakes nobody until the next poll. False if the transaction did not wait any
    /// more. Otherwise the end of the wait was told, or will be. Over several parts it may be another one than that of
    /// a cancel.
    fn cancels(&mut self, number: usize) -> bool {
        let waits = self.waits().forget_waker(self.name(), number);
        waits && self.cancel().status == DONE
    }

    /// Cancels the wait of an ask, whose end no task awaits, and sleeps while another thread tells that; if this thread
    /// may not sleep, the end is told later.
    fn forget(&mut self, number: usize) {
        while self.cancels(number)
            && self.waits().is_untold(self.name(), number)
            && self.may_sleep()
        {
            thread::yield_now();
        }
    }

    /// Aborts it; if it waits, and the end is told only after this callback, as soon as that is told.
    fn abort(&mut self) -> Reply {
        let reply = self.abort_now();
        if reply.status != TXN_WAITING {
            return reply;
        }
        let last = *self.asked();
        if self.waits().leave(self.name(), last) || self.leave_list() {
            return Reply::with_status(DONE);
        }
        self.abort_now() // By now another thread has told it.
    }

    /// Leaves it to the call of the callback with the end of a lock that a list has left waiting. False if there is
    /// none.
    fn leave_list(&mut self) -> bool {
        let txn = self.name();
        let number = self.waits().begin(txn, None);
        *self.asked() = number;
        self.waits().leave(txn, number); // Another thread may tell the end as soon as it is asked for.
        let left = Sought::Left(Node::NONE, Mode::NL as u32);
        self.request(left, None, number).status == WAITING
    }
}

/// Asks a table for this.
pub(crate) fn ask(
    table: &Shared,
    txn: Txn,
    sought: Sought<'_>,
    until: Until<'_>,
    word: usize,
) -> Reply {
    match sought {
        Sought::Node(node, mode) => bs_table_ask(table, txn, node, mode, until, word),
        Sought::Path(node, mode) => bs_table_ask_path(table, txn, node, mode, until, word),
        Sought::Left(node, mode) => bs_table_ask_await(table, txn, node, mode, until, word),
        Sought::Row(row, keys, mode) | Sought::RowPath(row, keys, mode) => {
            let (Row { file, number }, start) = (row, numbers(keys));
            let ask = match sought {
                Sought::RowPath(..) => bs_table_ask_row_path,
                _ => bs_table_ask_row,
            };
            // SAFETY: the count is the list's own.
            unsafe {
                ask(
                    table,
                    txn,
                    file,
                    number,
                    start,
                    keys.len(),
                    mode,
                    until,
                    word,
                )
            }
        }
    }
}

/// The context of the callback of a table or a group. It stays where it is.
pub(super) struct Ends<T> {
    /// Null before that is made.
    of: Option<NonNull<T>>,
    waits: Box<Waits>,
}

/// What has a callback: a table or a group.
pub(super) trait HasEnds: Begins + Sized {
    /// Gives it its callback.
    ///
    /// # Safety
    ///
    /// The function does what the header asks of it, and the context is there for each of its calls.
    unsafe fn on_end(&self, function: OnEnd, context: *const c_void) -> Reply;
}

impl<T: HasEnds> Ends<T> {
    /// Of nothing yet; `None` if memory is refused.
    pub(super) fn new() -> Option<Box<Ends<T>>> {
        let waits = Waits::new()?;
        boxed(Ends { of: None, waits })
    }

    /// They are those of this table or group from now on. They stay until the caller frees them.
    pub(super) fn are_of(mut self: Box<Self>, of: NonNull<T>) -> NonNull<Ends<T>> {
        self.of = Some(of);
        NonNull::from(Box::leak(self))
    }

    pub(super) fn waits(&self) -> &Waits {
        &self.waits
    }
}

/// Has the ends of all asks told.
///
/// # Safety
///
/// The ends are those of the table or group, and stay until it has ended.
pub(super) unsafe fn has_ends_told<T: HasEnds>(of: &T, ends: NonNull<Ends<T>>) -> Reply {
    let context = ends.as_ptr().cast_const().cast();
    // SAFETY: the function does what the header asks of it, and its context is there for each of its calls.
    unsafe { of.on_end(on_end::<T>, context) }
}

impl HasEnds for Shared {
    unsafe fn on_end(&self, function: OnEnd, context: *const c_void) -> Reply {
        // SAFETY: the same.
        unsafe { bs_table_on_end(self, function, context) }
    }
}

/// Whether a waker has panicked in any thread: before that no call looks for a panic of its own.
static HAS_PANICKED: AtomicBool = AtomicBool::new(false);

thread_local! {
    /// Whether this thread is in a waker that [`on_end`] calls.
    static IS_WAKING: Cell<bool> = const { Cell::new(false) };
    /// With what such a waker has panicked, until the panic continues.
    static PANIC: Cell<Option<Box<dyn Any + Send>>> = const { Cell::new(None) };
}

/// After a call of the library: continues the panic of a waker, which could not pass through that call.
#[inline]
pub(super) fn resume_panic() {
    if HAS_PANICKED.load(Ordering::Relaxed) {
        resume();
    }
}

/// Not in a waker, where the panic is another's; and a thread that is panicking continues its own.
#[cold]
fn resume() {
    if IS_WAKING.get() {
        return;
    }
    let panic = PANIC.try_with(Cell::take).ok().flatten();
    if let Some(panic) = panic.filter(|_| !thread::panicking()) {
        resume_unwind(panic);
    }
}

/// Wakes a task, and keeps the panic of its waker.
pub(super) fn wake(waker: Waker) {
    let was_waking = IS_WAKING.replace(true);
    let woken = catch_unwind(AssertUnwindSafe(|| waker.wake()));
    IS_WAKING.set(was_waking);
    if let Err(panic) = woken {
        PANIC.set(Some(panic));
        HAS_PANICKED.store(true, Ordering::Relaxed);
    }
}

/// As this is dropped, the panic of a waker continues.
pub(crate) struct Resumes;

impl Drop for Resumes {
    #[inline]
    fn drop(&mut self) {
        resume_panic();
    }
}

/// The callback of all tables and groups: stores how a wait or a begin ended, wakes the task after that, and aborts a
/// transaction that was left.
///
/// # Safety
///
/// The context is the [`Ends`] of the table or group, which are there until it has ended.
unsafe extern "C" fn on_end<T: HasEnds>(context: *const c_void, txn: Txn, end: Reply, word: usize) {
    // SAFETY: each ask of a table or a group of this crate is a future's.
    if unsafe { begun::ends(word, end) } {
        return;
    }
    // SAFETY: the table or group has not ended.
    let ends = unsafe { &*context.cast::<Ends<T>>() };
    let is_left = ends.waits.ends(txn, word, &end);
    if let (true, Some(of)) = (is_left, ends.of) {
        // SAFETY: the same.
        unsafe { of.as_ref() }.abort(txn);
    }
}

#[cfg(test)]
mod tests {
    use super::*;

    /// As the documentation of the crate has it.
    #[test]
    #[cfg(target_pointer_width = "64")]
    fn what_a_slot_takes() {
        assert_eq!(size_of::<Mutex<Wait>>(), 56);
    }
}
