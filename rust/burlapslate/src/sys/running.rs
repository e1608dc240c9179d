//! The calls for whoever runs a table, as `include/burlapslate_running.h` declares them, and those by which a listing has
//! the times of waits (`c/burlapslate_inside.h`).

use super::shared::Shared;
use super::{Deadlock, Place, Reply, DONE};
use crate::names::{Node, Txn};
use crate::refusal::Refusal;
use crate::SLOTS;
use std::any::Any;
use std::cell::UnsafeCell;
use std::ffi::c_void;
use std::os::fd::RawFd;
use std::panic::{catch_unwind, resume_unwind, AssertUnwindSafe};
use std::ptr::NonNull;
use std::slice::from_raw_parts;
use std::sync::{Arc, Mutex, MutexGuard, PoisonError};

/// How many ways a wait can end, buckets a histogram has, and nodes are answered.
pub(crate) const ENDS: usize = 6;
pub(crate) const BUCKETS: usize = 29;
const MOST_AWAITED: usize = 8;

/// `bs_histogram`.
#[repr(C)]
#[derive(Clone, Copy)]
pub(crate) struct Histogram {
    pub(crate) buckets: [u64; BUCKETS],
    pub(crate) nanoseconds: u64,
}

/// `bs_waits`.
#[repr(C)]
pub(crate) struct Waits {
    pub(crate) ended: [Histogram; ENDS],
    pub(crate) waiting: u64,
    pub(crate) longest: u64,
}

/// `bs_awaited_node`.
#[repr(C)]
#[derive(Clone, Copy)]
pub(crate) struct AwaitedNode {
    pub(crate) node: Node,
    pub(crate) nanoseconds: u64,
    pub(crate) error: u64,
    pub(crate) waits: u64,
}

/// `bs_awaited`.
#[repr(C)]
pub(crate) struct Awaited {
    pub(crate) nanoseconds: u64,
    pub(crate) since: u64,
    count: usize,
    at: [AwaitedNode; MOST_AWAITED],
}

impl Awaited {
    pub(crate) fn nodes(&self) -> &[AwaitedNode] {
        &self.at[..self.count]
    }
}

/// `bs_blocker`.
#[repr(C)]
#[derive(Clone, Copy)]
pub(crate) struct Blocker {
    pub(crate) txn: Txn,
    pub(crate) held: u32,
    pub(crate) wanted: u32,
    pub(crate) doing: u32,
}

/// `bs_long_wait`.
#[repr(C)]
pub(crate) struct LongWait {
    pub(crate) txn: Txn,
    pub(crate) node: Node,
    pub(crate) mode: u32,
    pub(crate) nanoseconds: u64,
    count: usize,
    at: [Blocker; SLOTS],
}

impl LongWait {
    pub(crate) fn blockers(&self) -> &[Blocker] {
        &self.at[..self.count]
    }
}

/// What a table notes of its waits, which callers know by its address alone.
#[repr(C)]
struct Running {
    _own: UnsafeCell<[u8; 0]>,
}

type OnLongWait = unsafe extern "C" fn(*const c_void, Option<&LongWait>, Option<&Deadlock>);
type Write = unsafe extern "C" fn(*mut c_void, *const u8, usize) -> bool;

// SAFETY: these are the calls of the headers, and their types have the layout of its types. Those that are safe have no
// conditions but what their types say.
unsafe extern "C" {
    safe fn bs_table_waits(table: &Shared, waits: &mut Waits) -> Reply;
    pub(crate) safe fn bs_table_waited(table: &Shared, txn: Txn) -> Reply;
    safe fn bs_table_awaited(table: &Shared, awaited: &mut Awaited, reset: bool) -> Reply;
    fn bs_table_on_long_wait(
        table: &Shared,
        milliseconds: u64,
        function: Option<OnLongWait>,
        context: *const c_void,
    ) -> Reply;
    fn bs_table_metrics(table: &Shared, write: Write, context: *mut c_void) -> Reply;
    pub(crate) safe fn bs_table_trace(table: &Shared, file: RawFd) -> Reply;
    pub(crate) safe fn bs_table_trace_end(table: &Shared) -> Reply;

    safe fn bs_call_running(manager: &Place) -> Option<NonNull<Running>>;
    fn bs_call_waits_since(running: NonNull<Running>, slot: u32, since: &mut u64) -> bool;
    safe fn bs_call_now() -> u64;
}

/// The waits of a table; the reply says whether they were written.
pub(crate) fn waits(table: &Shared) -> (Reply, Waits) {
    let none = Histogram {
        buckets: [0; BUCKETS],
        nanoseconds: 0,
    };
    let mut waits = Waits {
        ended: [none; ENDS],
        waiting: 0,
        longest: 0,
    };
    (bs_table_waits(table, &mut waits), waits)
}

/// The nodes that were waited for longest; the reply says whether they were written.
pub(crate) fn awaited(table: &Shared, reset: bool) -> (Reply, Awaited) {
    let none = AwaitedNode {
        node: Node::NONE,
        nanoseconds: 0,
        error: 0,
        waits: 0,
    };
    let mut awaited = Awaited {
        nanoseconds: 0,
        since: 0,
        count: 0,
        at: [none; MOST_AWAITED],
    };
    (bs_table_awaited(table, &mut awaited, reset), awaited)
}

/// The slots that wait in a table that this thread holds, with the nanoseconds since when, the longest first; `None` if the
/// manager is no table's.
pub(crate) fn waits_by_age(manager: &Place) -> Option<Vec<(u32, u64)>> {
    let running = bs_call_running(manager)?;
    let now = bs_call_now();
    let waited = |slot: u32| {
        let mut since = 0;
        // SAFETY: the thread holds the table, so that this is there and nobody changes it.
        let waits = unsafe { bs_call_waits_since(running, slot, &mut since) };
        waits.then(|| (slot, now.saturating_sub(since)))
    };
    let mut waits: Vec<(u32, u64)> = (0..SLOTS as u32).filter_map(waited).collect();
    waits.sort_by_key(|&(slot, waited)| (u64::MAX - waited, slot));
    Some(waits)
}

/// What is told of long waits and deadlocks.
pub(crate) enum Told<'a> {
    Wait(&'a LongWait),
    Deadlock(&'a Deadlock),
}

/// What is done with that.
pub(crate) type Listener = dyn Fn(Told<'_>) + Send + Sync;

/// The listener of a table, to which the context of its callback points. So this stays where it is until the table has
/// ended.
pub(super) struct Telling(Mutex<Option<Arc<Listener>>>);

impl Telling {
    pub(super) fn new() -> Telling {
        Telling(Mutex::new(None))
    }

    fn listener(&self) -> MutexGuard<'_, Option<Arc<Listener>>> {
        self.0.lock().unwrap_or_else(PoisonError::into_inner) // No holder of it panics.
    }

    /// Puts a listener in the place of the one before, which is not called any more after this; `None` takes it back. It
    /// takes its place before the call, which awaits a call of the one before: and that is refused for lack of a thread
    /// alone, where there is none yet that could call the listener.
    ///
    /// # Safety
    ///
    /// This stays until the table has ended.
    pub(super) unsafe fn give(
        &self,
        table: &Shared,
        milliseconds: u64,
        listener: Option<Arc<Listener>>,
    ) -> Result<(), Refusal> {
        let function = listener.is_some().then_some(on_long_wait as OnLongWait);
        let context: *const c_void = (self as *const Telling).cast();
        // SAFETY: no time is refused, and the function is not called. A call that could sleep is refused before that.
        let tried = unsafe { bs_table_on_long_wait(table, 0, Some(on_long_wait), context) };
        if tried.status == super::IN_USE || milliseconds == 0 && listener.is_some() {
            return Err(Refusal::of(&tried));
        }
        let before = std::mem::replace(&mut *self.listener(), listener);
        // SAFETY: the function does what the header asks of it, and its context is there for each of its calls.
        let given = unsafe { bs_table_on_long_wait(table, milliseconds, function, context) };
        if given.status == DONE {
            return Ok(());
        }
        let refused = std::mem::replace(&mut *self.listener(), before);
        drop(refused); // Without the lock, since that may call the table.
        Err(Refusal::of(&given))
    }
}

/// The callback of all tables. A panic of the listener ends that call alone: its thread is the library's.
///
/// # Safety
///
/// The context is the table's [`Telling`], which is there until the table has ended.
unsafe extern "C" fn on_long_wait(
    context: *const c_void,
    wait: Option<&LongWait>,
    deadlock: Option<&Deadlock>,
) {
    // SAFETY: the table has not ended.
    let telling = unsafe { &*context.cast::<Telling>() };
    let listener = telling.listener().clone();
    let told = match (wait, deadlock) {
        (Some(wait), _) => Told::Wait(wait),
        (None, Some(deadlock)) => Told::Deadlock(deadlock),
        (None, None) => return,
    };
    let heard = catch_unwind(AssertUnwindSafe(|| {
        if let Some(listener) = listener {
            listener(told);
        }
    }));
    drop_quietly(heard.err());
}

/// What a panic carries may panic again as it is dropped.
fn drop_quietly(panic: Option<Box<dyn Any + Send>>) {
    let _ = catch_unwind(AssertUnwindSafe(|| drop(panic))).map_err(std::mem::forget);
}

/// A function that takes the parts of a text, and the panic that it ended with.
struct Taking<'f> {
    take: &'f mut dyn FnMut(&[u8]) -> bool,
    panic: Option<Box<dyn Any + Send>>,
}

/// Writes the metrics of a table by a function, until that answers `false`.
pub(crate) fn metrics(table: &Shared, take: &mut dyn FnMut(&[u8]) -> bool) -> Reply {
    let mut taking = Taking { take, panic: None };
    // SAFETY: the function does what the header asks of it, and its context is there for each of its calls.
    let reply = unsafe { bs_table_metrics(table, write, (&raw mut taking).cast()) };
    if let Some(panic) = taking.panic {
        resume_unwind(panic);
    }
    reply
}

/// Gives a part to the function. Its panic ends the text, and continues after the call.
///
/// # Safety
///
/// The context is a [`Taking`], which nobody else uses, and the part has this length.
unsafe extern "C" fn write(context: *mut c_void, text: *const u8, length: usize) -> bool {
    // SAFETY: as said.
    let (taking, part) = unsafe { (&mut *context.cast::<Taking>(), from_raw_parts(text, length)) };
    let taken = catch_unwind(AssertUnwindSafe(|| (taking.take)(part)));
    taken.unwrap_or_else(|panic| {
        taking.panic = Some(panic);
        false
    })
}

/// The layouts of the header's types, by a C compiler for machines of 64 bits.
#[cfg(all(test, target_pointer_width = "64"))]
mod layouts {
    use super::*;
    use std::mem::offset_of;

    #[test]
    fn waits() {
        assert_eq!(size_of::<Histogram>(), 240);
        assert_eq!(offset_of!(Histogram, nanoseconds), 232);
        assert_eq!(size_of::<Waits>(), 1456);
        assert_eq!(offset_of!(Waits, waiting), 1440);
        assert_eq!(offset_of!(Waits, longest), 1448);
    }

    #[test]
    fn awaited_nodes() {
        assert_eq!(size_of::<AwaitedNode>(), 40);
        assert_eq!(offset_of!(AwaitedNode, nanoseconds), 16);
        assert_eq!(offset_of!(AwaitedNode, error), 24);
        assert_eq!(offset_of!(AwaitedNode, waits), 32);
        assert_eq!(size_of::<Awaited>(), 344);
        assert_eq!(
            (offset_of!(Awaited, count), offset_of!(Awaited, at)),
            (16, 24)
        );
    }

    #[test]
    fn long_waits() {
        assert_eq!(size_of::<Blocker>(), 32);
        assert_eq!(offset_of!(Blocker, held), 16);
        assert_eq!(offset_of!(Blocker, wanted), 20);
        assert_eq!(offset_of!(Blocker, doing), 24);
        assert_eq!(size_of::<LongWait>(), 56 + 32 * SLOTS);
        assert_eq!(offset_of!(LongWait, node), 16);
        assert_eq!(offset_of!(LongWait, mode), 32);
        assert_eq!(offset_of!(LongWait, nanoseconds), 40);
        assert_eq!(
            (offset_of!(LongWait, count), offset_of!(LongWait, at)),
            (48, 56)
        );
    }
}
