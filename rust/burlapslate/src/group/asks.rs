//! Locks for which tasks wait, and how long waits last: deadlines, and who ends deadlocks where no thread sleeps.

use super::{Group, GroupSession};
use crate::mode::Mode;
use crate::names::{Node, Row};
use crate::refusal::{done, Refusal};
use crate::session::{RowLocked, Stop};
use crate::sys::group::Transaction;
use crate::sys::{shared, DONE};
use crate::table::{Locking, Sought};
use crate::watcher::Watcher;
use std::time::{Duration, Instant};

/// Locks for tasks.
impl<'g> GroupSession<'g> {
    /// Sets a deadline: from now on each wait for a lock ends at this time at the latest and is answered with
    /// [`Stop::TimedOut`], also if the call that waits has a later time or none. `None` removes it. Costs the latches of
    /// the main table and of the transaction's parts, one after the other.
    ///
    /// Refused with [`TxnCondemned`](Refusal::TxnCondemned), and with [`TxnWaiting`](Refusal::TxnWaiting) if the
    /// transaction waits by a future that was leaked.
    ///
    /// ```
    /// # use burlapslate::{Group, Mode, Stop};
    /// # use std::time::{Duration, Instant};
    /// # let group = Group::new(2)?;
    /// # let db = group.add_inner(&[])?;
    /// # let file = group.add_file(&[db])?;
    /// let (mut first, mut second) = (group.begin()?, group.begin()?);
    /// first.lock_path(file, Mode::X)?;
    /// second.set_deadline(Some(Instant::now() + Duration::from_millis(1)))?;
    /// assert_eq!(second.lock_path(file, Mode::S), Err(Stop::TimedOut));
    /// assert_eq!(second.lock_path(db, Mode::S), Err(Stop::TimedOut));
    /// # Ok::<(), Stop>(())
    /// ```
    pub fn set_deadline(&mut self, deadline: Option<Instant>) -> Result<(), Refusal> {
        let until = self.transaction.owner().time(deadline);
        done(self.transaction.set_deadline(until))?;
        self.deadline = deadline;
        Ok(())
    }

    /// As [`lock_path`](GroupSession::lock_path), for a task: no thread sleeps while a lock waits, and the task is woken
    /// at the end of the path. It needs no runtime, and requests the first lock when it is polled first. The call that
    /// grants a lock on the way requests the next one, also in another table.
    ///
    /// The thread that ends the wait wakes the task, within its call of the group and without any latch. So the waker may
    /// make any call of the group that does not sleep, as by polling the future, and delays that thread alone. If it
    /// panics, that call of the thread panics after all that it does.
    ///
    /// A future that is dropped while it waits cancels its wait, and the session can be used again. The locks acquired by
    /// then stay: of the whole path, if the last was granted at that moment. If the transaction was condemned by then, it
    /// can only abort. If another thread is just telling the end of the wait, the drop sleeps until it was told; in a waker
    /// it does not sleep, and other calls of the session may be refused with [`TxnWaiting`](Refusal::TxnWaiting) until the
    /// waker returns. A future that is leaked, or dropped while its thread holds a table, waits on, and other calls of the
    /// session are refused so, until its wait ends or the session is dropped.
    ///
    /// The session's deadline counts ([`set_deadline`](GroupSession::set_deadline)) if the future is polled then, or by
    /// [`Group::expire`].
    ///
    /// ```
    /// # use burlapslate::{Group, Mode, Stop};
    /// # use std::future::Future;
    /// # use std::pin::pin;
    /// # use std::task::{Context, Poll, Wake, Waker};
    /// # use std::sync::Arc;
    /// # struct Nobody;
    /// # impl Wake for Nobody {
    /// #     fn wake(self: Arc<Nobody>) {}
    /// # }
    /// # let group = Group::new(2)?;
    /// # let db = group.add_inner(&[])?;
    /// # let file = group.add_file(&[db])?;
    /// # let waker = Waker::from(Arc::new(Nobody));
    /// # let mut context = Context::from_waker(&waker);
    /// let (mut first, mut second) = (group.begin()?, group.begin()?);
    /// first.lock_path(file, Mode::X)?;
    /// let mut lock = pin!(second.lock_path_async(file, Mode::S)); // As a runtime polls it:
    /// assert_eq!(lock.as_mut().poll(&mut context), Poll::Pending);
    /// first.commit()?; // It wakes the task.
    /// assert_eq!(lock.as_mut().poll(&mut context), Poll::Ready(Ok(Mode::S)));
    /// # Ok::<(), Stop>(())
    /// ```
    ///
    /// While it waits the session can do nothing else:
    ///
    /// ```compile_fail,E0499
    /// # use burlapslate::{Group, Mode, Stop};
    /// # let group = Group::new(2)?;
    /// # let db = group.add_inner(&[])?;
    /// let mut session = group.begin()?;
    /// let lock = session.lock_path_async(db, Mode::S);
    /// session.lock_path(db, Mode::S)?; // The future has the session.
    /// drop(lock);
    /// # Ok::<(), Stop>(())
    /// ```
    pub async fn lock_path_async(&mut self, node: Node, mode: Mode) -> Result<Mode, Stop> {
        let locked = self.locking(Sought::path(node, mode)).await;
        locked.map(RowLocked::mode)
    }

    /// As [`lock_row_path`](GroupSession::lock_row_path), for a task, as
    /// [`lock_path_async`](GroupSession::lock_path_async). If the future is dropped after the last grant, the row is held,
    /// and its keys were not looked at.
    ///
    /// ```
    /// # use burlapslate::{Group, Mode, Row, RowLocked, Stop};
    /// # let group = Group::new(4)?;
    /// # let db = group.add_inner(&[])?;
    /// # let orders = group.add_spread_file(&[db])?;
    /// async fn writes(group: &Group, row: Row) -> Result<(), Stop> {
    ///     let mut session = group.begin()?;
    ///     let locked = session.lock_row_path_async(row, &[], Mode::X).await?;
    ///     assert_eq!(locked, RowLocked::Own(Mode::X)); // A spread file has no keys.
    ///     Ok(session.commit()?)
    /// }
    /// # use std::future::Future;
    /// # use std::pin::pin;
    /// # use std::task::{Context, Poll, Wake, Waker};
    /// # use std::sync::Arc;
    /// # struct Nobody;
    /// # impl Wake for Nobody {
    /// #     fn wake(self: Arc<Nobody>) {}
    /// # }
    /// # let waker = Waker::from(Arc::new(Nobody));
    /// # let mut context = Context::from_waker(&waker);
    /// # let done = pin!(writes(&group, Row { file: orders, number: 7 })).poll(&mut context);
    /// # assert_eq!(done, Poll::Ready(Ok(())));
    /// # Ok::<(), Stop>(())
    /// ```
    pub async fn lock_row_path_async(
        &mut self,
        row: Row,
        keys: &[u64],
        mode: Mode,
    ) -> Result<RowLocked, Stop> {
        self.locking(Sought::row_path(row, keys, mode)).await
    }

    /// Locks what is requested, for a task.
    pub(super) fn locking<'a>(&'a mut self, sought: Sought<'a>) -> Locking<'a, Transaction<'g>> {
        let time = self.transaction.owner().time(self.deadline);
        Locking::new(&mut self.transaction, sought, self.deadline, time)
    }
}

/// Waits.
impl Group {
    /// Cancels the wait of each task whose deadline ([`GroupSession::set_deadline`]) is over, which wakes the task, and
    /// answers the next deadline. Otherwise the wait of a task is cancelled when its future is polled at that time or
    /// later.
    ///
    /// The call also ends deadlocks over several tables, unless some thread has looked for them in the last 2 ms. So a
    /// program whose transactions all wait by tasks makes this call now and then, or has a thread watch
    /// ([`watch_over`](Group::watch_over)).
    ///
    /// # Panics
    ///
    /// While the thread holds a table ([`with_table`](Group::with_table), [`Table::with`](crate::Table::with)).
    ///
    /// ```
    /// # use burlapslate::{Group, Refusal};
    /// # let group = Group::new(2)?;
    /// assert_eq!(group.expire(), None); // Nobody waits with a deadline.
    /// # Ok::<(), Refusal>(())
    /// ```
    pub fn expire(&self) -> Option<Instant> {
        let mut next = shared::now();
        let reply = self.group.expire(&mut next);
        assert_eq!(reply.status, DONE, "this thread holds a table");
        (reply.count > 0).then(|| self.clock.instant(next))?
    }

    /// Has a thread end deadlocks over several tables, and waits until [`end_watch`](Group::end_watch) is called. The
    /// thread looks, and rests for this time after each look; it does not look while no transaction is in two tables. A
    /// look costs the latches of all tables. The thread is of use where no other one sleeps for a lock, which looks too. A
    /// group has one such thread, which watches until the group is dropped: a later call waits alone.
    ///
    /// Refused with [`InUse`](Refusal::InUse) while the thread holds a table, and with [`NoMemory`](Refusal::NoMemory) if
    /// no thread can be started.
    ///
    /// ```
    /// # use burlapslate::{Group, Mode, Stop};
    /// # use std::future::Future;
    /// # use std::pin::pin;
    /// # use std::sync::Arc;
    /// # use std::task::{Context, Poll, Wake, Waker};
    /// # use std::thread;
    /// # use std::time::Duration;
    /// # struct Unpark(thread::Thread);
    /// # impl Wake for Unpark {
    /// #     fn wake(self: Arc<Unpark>) {
    /// #         self.0.unpark();
    /// #     }
    /// # }
    /// # fn block_on<T>(future: impl Future<Output = T>) -> T {
    /// #     let waker = Waker::from(Arc::new(Unpark(thread::current())));
    /// #     let mut future = pin!(future);
    /// #     loop {
    /// #         match future.as_mut().poll(&mut Context::from_waker(&waker)) {
    /// #             Poll::Ready(end) => return end,
    /// #             Poll::Pending => thread::park(),
    /// #         }
    /// #     }
    /// # }
    /// let group = Group::new(2)?;
    /// let db = group.add_inner(&[])?;
    /// let [orders, stock] = [group.add_file_in(1, &[db])?, group.add_file_in(2, &[db])?];
    /// let mut older = group.begin()?;
    /// let mut younger = group.begin_again(older.txn().age() + 1)?;
    /// older.lock_path(orders, Mode::X)?;
    /// younger.lock_path(stock, Mode::X)?;
    /// thread::scope(|scope| {
    ///     scope.spawn(|| group.watch_over(Duration::from_millis(1)).unwrap());
    ///     let victim = scope.spawn(move || {
    ///         let end = block_on(younger.lock_path_async(orders, Mode::X)); // As a runtime does.
    ///         younger.abort();
    ///         end
    ///     });
    ///     assert_eq!(block_on(older.lock_path_async(stock, Mode::X)), Ok(Mode::X));
    ///     assert_eq!(victim.join().unwrap(), Err(Stop::Victim));
    ///     group.end_watch();
    /// });
    /// # Ok::<(), Stop>(())
    /// ```
    pub fn watch_over(&self, rest: Duration) -> Result<(), Refusal> {
        let start = |pace| self.group.watch_thread(pace);
        let may_call = || self.group.may_call();
        self.watching.watch_over(rest, start, may_call)
    }

    /// A watcher of all tables, which looks without a latch.
    ///
    /// Refused as [`Manager::watch`](crate::Manager::watch).
    pub fn watch(&self) -> Result<Watcher, Refusal> {
        Watcher::made_by(|watcher| self.group.watch(watcher))
    }

    /// Ends all calls of [`watch_over`](Group::watch_over), now and from now on. The group's thread watches on.
    pub fn end_watch(&self) {
        self.watching.end();
    }
}
