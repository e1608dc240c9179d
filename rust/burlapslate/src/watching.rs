//! Calls that watch over a table or a group.

use crate::refusal::{done, Refusal};
use crate::sys::{Reply, IN_USE};
use std::sync::{Condvar, Mutex, MutexGuard, PoisonError};
use std::time::Duration;

/// Where these calls wait until they must return.
pub(crate) struct Watching {
    is_over: Mutex<bool>,
    over: Condvar,
}

impl Watching {
    pub(crate) const fn new() -> Watching {
        Watching {
            is_over: Mutex::new(false),
            over: Condvar::new(),
        }
    }

    /// Has a thread watch, which this call starts with so many nanoseconds between its looks, unless there is one; and
    /// waits until the end. The other call says whether this thread may make calls: if so, and the first is refused with
    /// `IN_USE`, there is one.
    pub(crate) fn watch_over(
        &self,
        rest: Duration,
        start: impl FnOnce(u64) -> Reply,
        may_call: impl FnOnce() -> bool,
    ) -> Result<(), Refusal> {
        if *self.is_over() {
            return Ok(());
        }
        let pace = u64::try_from(rest.as_nanos()).unwrap_or(u64::MAX);
        let started = start(pace);
        let has_one = started.status == IN_USE && may_call();
        if !has_one {
            done(started)?;
        }
        let goes_on = |is_over: &mut bool| !*is_over;
        drop(self.over.wait_while(self.is_over(), goes_on));
        Ok(())
    }

    /// Ends all such calls, now and from now on.
    pub(crate) fn end(&self) {
        *self.is_over() = true;
        self.over.notify_all();
    }

    fn is_over(&self) -> MutexGuard<'_, bool> {
        let is_over = self.is_over.lock();
        is_over.unwrap_or_else(PoisonError::into_inner) // No holder of it panics.
    }
}
