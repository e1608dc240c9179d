//! Begins that may wait for a slot, of tasks.

use crate::sys::awaited::Resumes;
use crate::sys::begun::{Asked, Begin, BeginsAtOnce};
use crate::sys::{Reply, TOO_MANY_TXNS};
use std::future::Future;
use std::pin::Pin;
use std::sync::Arc;
use std::task::{Context, Poll, Waker};

/// A begin of a table or a group that a task polls. If the future is dropped before its end, the begin is taken back,
/// or ended.
pub(crate) struct Beginning<'t, T> {
    of: &'t T,
    since: u64,
    /// Its ask, while that waits.
    wait: Option<Arc<Begin<'t>>>,
}

impl<'t, T: BeginsAtOnce> Beginning<'t, T> {
    /// `since` is the greatest number for new work.
    pub(crate) fn new(of: &'t T, since: u64) -> Beginning<'t, T> {
        Beginning {
            of,
            since,
            wait: None,
        }
    }

    /// Begins if a slot is free, without memory for an ask; or makes the ask.
    fn ask(&mut self, waker: &Waker) -> Poll<Reply> {
        let _resumes = Resumes; // So the panic of a waker finds the wait noted.
        let begun = self.of.begin_now(self.since);
        if begun.status != TOO_MANY_TXNS {
            return Poll::Ready(begun);
        }
        match self.of.ask_begin(self.since, waker) {
            Asked::AtOnce(reply) => Poll::Ready(reply),
            Asked::Waits(begin) => {
                self.wait = Some(begin);
                Poll::Pending
            }
        }
    }
}

impl<T: BeginsAtOnce> Future for Beginning<'_, T> {
    type Output = Reply;

    fn poll(self: Pin<&mut Self>, context: &mut Context<'_>) -> Poll<Reply> {
        let own = self.get_mut();
        let polled = match &own.wait {
            None => own.ask(context.waker()),
            Some(begin) => begin.poll(context.waker()),
        };
        if polled.is_ready() {
            own.wait = None;
        }
        polled
    }
}

impl<T> Drop for Beginning<'_, T> {
    fn drop(&mut self) {
        if let Some(begin) = self.wait.take() {
            let _resumes = Resumes;
            begin.forget();
        }
    }
}
