//! Locks that may wait: for them a thread sleeps, or a task is woken.

use super::Table;
use crate::manager::Wait;
use crate::mode::Mode;
use crate::names::{Node, Row, Txn};
use crate::session::{ended, Ended, Handle, Stop};
pub(crate) use crate::sys::awaited::Sought;
use crate::sys::awaited::{self, Asks, Resumes, Waits};
use crate::sys::shared::{self, Calling, Time, Until, INSTANT, KEEP_NOTHING};
use crate::sys::{Reply, DONE};
use std::future::Future;
use std::pin::Pin;
use std::task::{Context, Poll, Waker};
use std::time::Instant;

impl<'k> Sought<'k> {
    pub(crate) fn node(node: Node, mode: Mode) -> Sought<'static> {
        Sought::Node(node, mode as u32)
    }

    pub(crate) fn node_instant(node: Node, mode: Mode) -> Sought<'static> {
        Sought::Node(node, mode as u32 | INSTANT)
    }

    pub(crate) fn path(node: Node, mode: Mode) -> Sought<'static> {
        Sought::Path(node, mode as u32)
    }

    pub(crate) fn path_instant(node: Node, mode: Mode) -> Sought<'static> {
        Sought::Path(node, mode as u32 | INSTANT)
    }

    pub(crate) fn row(row: Row, keys: &'k [u64], mode: Mode) -> Sought<'k> {
        Sought::Row(row, keys, mode as u32)
    }

    pub(crate) fn row_path(row: Row, keys: &'k [u64], mode: Mode) -> Sought<'k> {
        Sought::RowPath(row, keys, mode as u32)
    }

    pub(crate) fn left(wait: Wait) -> Sought<'static> {
        Sought::Left(wait.node, wait.mode as u32)
    }
}

/// A lock that a task polls. If the future is dropped before its end, the wait is cancelled; what was granted by then
/// stays.
pub(crate) struct Locking<'a, A: Asks> {
    asks: &'a mut A,
    sought: Sought<'a>,
    /// When its wait ends, by both clocks.
    until: Option<Instant>,
    time: Option<Time>,
    /// The number of its ask, while that waits.
    wait: Option<usize>,
    /// Its wait was cancelled because its time was over.
    is_late: bool,
}

impl<'a, A: Asks> Locking<'a, A> {
    pub(crate) fn new(
        asks: &'a mut A,
        sought: Sought<'a>,
        until: Option<Instant>,
        time: Option<Time>,
    ) -> Locking<'a, A> {
        Locking {
            asks,
            sought,
            until,
            time,
            wait: None,
            is_late: false,
        }
    }

    /// Makes the ask, whose end wakes this waker if it waits.
    fn ask(&mut self, waker: &Waker) -> Poll<Ended> {
        let _resumes = Resumes; // So the panic of a waker finds the wait noted.
        let (polled, number) = self.asks.ask(self.sought, self.time.as_ref(), waker);
        self.wait = Some(number);
        polled
    }

    /// How its wait ended, if it has.
    fn poll_wait(&mut self, number: usize, waker: &Waker) -> Poll<Ended> {
        match self.asks.poll(number, waker) {
            Poll::Ready(Err(Stop::Cancelled)) if self.is_late => Poll::Ready(Err(Stop::TimedOut)),
            polled => polled,
        }
    }

    /// After a poll that found it waiting: cancels the wait if its time is over. Over several parts its end may be told
    /// later, and may be another one.
    fn time_out(&mut self, number: usize, waker: &Waker) -> Poll<Ended> {
        if self.until.is_none_or(|until| until > Instant::now()) {
            return Poll::Pending;
        }
        self.is_late |= self.asks.cancels(number);
        if self.is_late && !self.asks.has_parts() {
            return Poll::Ready(Err(Stop::TimedOut));
        }
        self.poll_wait(number, waker)
    }
}

impl<A: Asks> Future for Locking<'_, A> {
    type Output = Ended;

    #[inline]
    fn poll(self: Pin<&mut Self>, context: &mut Context<'_>) -> Poll<Ended> {
        let own = self.get_mut();
        let waker = context.waker();
        let mut polled = match own.wait {
            None => own.ask(waker),
            Some(number) => own.poll_wait(number, waker),
        };
        if let (Poll::Pending, Some(number)) = (polled, own.wait) {
            polled = own.time_out(number, waker);
        }
        if polled.is_ready() {
            own.wait = None;
        }
        polled
    }
}

impl<A: Asks> Drop for Locking<'_, A> {
    fn drop(&mut self) {
        if let Some(number) = self.wait {
            self.asks.forget(number);
        }
    }
}

/// A transaction of a table, which its session has.
pub(crate) struct Transaction<'t> {
    pub(crate) table: Handle<'t>,
    pub(crate) txn: Txn,
    /// The number of its last ask; 0 before the first.
    asked: usize,
}

impl<'t> Transaction<'t> {
    pub(crate) fn new(table: Handle<'t>, txn: Txn) -> Transaction<'t> {
        Transaction {
            table,
            txn,
            asked: 0,
        }
    }

    /// The table for one call of the library.
    pub(crate) fn call(&self) -> Calling<'_> {
        self.table.call()
    }
}

impl Asks for Transaction<'_> {
    fn name(&self) -> Txn {
        self.txn
    }

    fn waits(&self) -> &Waits {
        self.table.shared.waits()
    }

    fn asked(&mut self) -> &mut usize {
        &mut self.asked
    }

    fn has_parts(&self) -> bool {
        self.table.shared.has_parts()
    }

    fn request(&mut self, sought: Sought<'_>, until: Until<'_>, word: usize) -> Reply {
        awaited::ask(self.table.shared(), self.txn, sought, until, word)
    }

    fn try_nowhere(&mut self, node: Node) -> Reply {
        let (table, mode) = (self.table.shared(), Mode::S as u32);
        shared::bs_table_try_path(table, self.txn, node, mode, KEEP_NOTHING)
    }

    fn cancel(&mut self) -> Reply {
        shared::bs_table_cancel(&self.call(), self.txn, None)
    }

    fn abort_now(&mut self) -> Reply {
        shared::bs_table_abort(&self.call(), self.txn, None)
    }

    fn may_sleep(&self) -> bool {
        self.table.may_sleep()
    }
}

/// Locks of a [`Session`](crate::Session).
impl Table {
    /// Locks what is requested, and sleeps while it must wait. Inlined, since each caller requests one kind.
    #[inline(always)]
    pub(crate) fn lock(&self, txn: Txn, sought: Sought<'_>, until: Option<Instant>) -> Ended {
        let (table, until) = (&self.call(), self.time(until));
        let until: Option<&Time> = until.as_ref();
        ended(&match sought {
            Sought::Node(node, mode) => shared::bs_table_lock(table, txn, node, mode, until),
            Sought::Path(node, mode) => shared::bs_table_lock_path(table, txn, node, mode, until),
            Sought::Left(node, mode) => shared::bs_table_await(table, txn, node, mode, until),
            Sought::Row(row, keys, mode) => shared::lock_row(table, txn, row, keys, mode, until),
            Sought::RowPath(row, keys, mode) => {
                shared::lock_row_path(table, txn, row, keys, mode, until)
            }
        })
    }

    /// Cancels the wait of each task whose deadline ([`Session::set_deadline`](crate::Session::set_deadline)) is
    /// over, which wakes the task, and answers the next deadline. Otherwise the wait of a task is cancelled when
    /// its future is polled at that time or later. A runtime that polls it only at other times, such as after
    /// its grant, may make this call by a timer of its own; most have a timeout of their own, which drops the
    /// future.
    ///
    /// If the table has parts, the call also ends deadlocks over several of them, as
    /// [`Group::expire`](crate::Group::expire).
    ///
    /// # Panics
    ///
    /// While the thread holds this table ([`with`](Table::with)), or any table if this one has parts.
    ///
    /// ```
    /// # use burlapslate::{Detect, Table, SLOTS};
    /// # let table = Table::new(Detect::AtBlock, SLOTS)?;
    /// assert_eq!(table.expire(), None); // Nobody waits with a deadline.
    /// # Ok::<(), burlapslate::Refusal>(())
    /// ```
    pub fn expire(&self) -> Option<Instant> {
        let mut next = shared::now();
        let reply = shared::bs_table_expire(&self.call(), &mut next);
        assert_eq!(reply.status, DONE, "this thread holds the table");
        (reply.count > 0).then(|| self.clock.instant(next))?
    }
}
