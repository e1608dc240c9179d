//! What tests of tasks have in common: wakers, a poll by one, and a thread that runs one future.

#![allow(dead_code)] // Each test program uses some of it.

use burlapslate::Table;
use std::future::Future;
use std::pin::{pin, Pin};
use std::sync::atomic::{AtomicUsize, Ordering};
use std::sync::mpsc::{channel, Sender};
use std::sync::Arc;
use std::task::{Context, Poll, Wake, Waker};
use std::time::Duration;

/// A test that awaits something for so long has lost a wake-up.
pub const PATIENCE: Duration = Duration::from_secs(20);

/// A waker that counts, and calls the table or the group: so the latches are free when it is woken and when it is dropped.
pub struct Bell {
    calls: Box<dyn Fn() + Send + Sync>,
    rung: AtomicUsize,
}

impl Bell {
    pub fn new(table: &Arc<Table>) -> (Arc<Bell>, Waker) {
        let table = Arc::clone(table);
        Bell::that(move || table.with(|_| ()))
    }

    pub fn that(calls: impl Fn() + Send + Sync + 'static) -> (Arc<Bell>, Waker) {
        let bell = Arc::new(Bell {
            calls: Box::new(calls),
            rung: AtomicUsize::new(0),
        });
        (Arc::clone(&bell), Waker::from(bell))
    }

    pub fn rung(&self) -> usize {
        self.rung.load(Ordering::SeqCst)
    }
}

impl Wake for Bell {
    fn wake(self: Arc<Bell>) {
        (self.calls)();
        self.rung.fetch_add(1, Ordering::SeqCst);
    }
}

impl Drop for Bell {
    fn drop(&mut self) {
        (self.calls)();
    }
}

struct Nobody;

impl Wake for Nobody {
    fn wake(self: Arc<Nobody>) {}
}

/// A waker that wakes nobody.
pub fn quiet() -> Waker {
    Waker::from(Arc::new(Nobody))
}

pub fn poll<F: Future + ?Sized>(future: &mut Pin<&mut F>, waker: &Waker) -> Poll<F::Output> {
    future.as_mut().poll(&mut Context::from_waker(waker))
}

/// Wakes the thread that runs a future.
struct Runner(Sender<()>);

impl Wake for Runner {
    fn wake(self: Arc<Runner>) {
        let _ = self.0.send(()); // The future may be done already.
    }
}

/// Runs a future to its end, on this thread.
pub fn block_on<T>(future: impl Future<Output = T>) -> T {
    let (runner, woken) = channel();
    let waker = Waker::from(Arc::new(Runner(runner)));
    let mut future = pin!(future);
    loop {
        match poll(&mut future, &waker) {
            Poll::Ready(end) => return end,
            Poll::Pending => woken.recv_timeout(PATIENCE).expect("it is not woken"),
        }
    }
}
