//! Lists of commands of a group.

use super::GroupSession;
use crate::answers::Answers;
use crate::list::{Do, Halt};
use crate::refusal::Refusal;
use crate::session::{ended, try_first, RowLocked, Stop, Taken, Try};
use crate::sys::awaited::Resumes;
use crate::table::Sought;

/// # Lists
///
/// Several commands by one call, as those of a [`Session`](crate::Session) and for engines that have these; but in a group
/// each command is a critical section of its own.
impl GroupSession<'_> {
    /// Makes the commands of a list in order, up to the first that is not done, as
    /// [`Session::run`](crate::Session::run). The call never sleeps. A lock that must wait stops the list, and goes on by
    /// itself to the end of its request. Until that end other calls of the session are refused with
    /// [`TxnWaiting`](Refusal::TxnWaiting): await it ([`await_lock`](GroupSession::await_lock)).
    ///
    /// [`Do::Lock`], [`Do::LockRow`], [`Do::TryLock`] and [`Do::TryLockRow`] also lock what must be held above. What a try
    /// or a [`Do::InsertPath`] acquired in the part of its node is released if it fails, unless it is a path whose `keep`
    /// says otherwise. A new file is in each part by turns. A savepoint of [`Do::Mark`], for [`Do::ReleaseSince`] alone, is
    /// one of all parts, and takes memory.
    ///
    /// Each command is refused as its call. The list is refused with [`NoMemory`](Refusal::NoMemory) if there is none
    /// for it.
    ///
    /// ```
    /// # use burlapslate::{Answers, Do, Done, Group, Halt, Mode, Stop};
    /// # let group = Group::new(2)?;
    /// # let db = group.add_inner(&[])?;
    /// # let [orders, stock] = [group.add_file_in(1, &[db])?, group.add_file_in(2, &[db])?];
    /// let (mut first, mut second) = (group.begin()?, group.begin()?);
    /// first.lock_path(stock, Mode::X)?;
    /// let mut answers = Answers::new();
    /// let writes = [Do::LockPath(orders.into(), Mode::X), Do::LockPath(stock.into(), Mode::X)];
    /// let stopped = second.run(&writes, &mut answers).unwrap_err();
    /// assert_eq!(*answers, [Done::Locked(Mode::X)]);
    /// assert!(matches!(stopped, Halt::Waiting(wait) if wait.node == stock));
    ///
    /// first.commit()?;
    /// assert_eq!(second.resume_to_end(&writes, &mut answers), Ok(()));
    /// assert_eq!(*answers, [Done::Locked(Mode::X); 2]);
    /// # Ok::<(), Stop>(())
    /// ```
    pub fn run(&mut self, list: &[Do<'_>], answers: &mut Answers) -> Result<(), Halt> {
        answers.begin(self.txn());
        self.resume(list, answers)
    }

    /// As [`run`](GroupSession::run), but from the first command on that has no answer, as
    /// [`Session::resume`](crate::Session::resume). If its lock waits, await that first.
    pub fn resume(&mut self, list: &[Do<'_>], answers: &mut Answers) -> Result<(), Halt> {
        let txn = self.txn();
        answers.resume(txn);
        let rest = answers.rest(list, 0)?;
        let _resumes = Resumes; // So the panic of a waker finds the answers noted.
        answers.run(rest, txn, &[], |list| self.transaction.run(list))
    }

    /// Sleeps until the end of the lock at which a list stopped ([`Halt::Waiting`]), or until the session's deadline
    /// ([`set_deadline`](GroupSession::set_deadline)). After the grant [`resume`](GroupSession::resume) continues the
    /// list. After any other end but [`Stop::Victim`] it requests the lock again.
    ///
    /// Refused with [`NotWaiting`](Refusal::NotWaiting) if no lock waits by these answers, and with
    /// [`InUse`](Refusal::InUse) as [`lock_path`](GroupSession::lock_path): then the lock waits on.
    pub fn await_lock(&mut self, answers: &mut Answers) -> Result<(), Stop> {
        answers.wait(self.txn()).ok_or(Refusal::NotWaiting)?;
        let until = self.transaction.owner().time(self.deadline);
        let end = ended(&self.transaction.await_left(until));
        answers.has_come_to(end.map(RowLocked::mode))
    }

    /// As [`await_lock`](GroupSession::await_lock), for a task, as [`lock_path_async`](GroupSession::lock_path_async).
    /// If the future is dropped while the lock waits, the wait is cancelled, and [`resume`](GroupSession::resume)
    /// requests the lock again.
    pub async fn await_lock_async(&mut self, answers: &mut Answers) -> Result<(), Stop> {
        let wait = answers.wait(self.txn()).ok_or(Refusal::NotWaiting)?;
        let end = self.locking(Sought::left(wait)).await;
        answers.has_come_to(end.map(RowLocked::mode))
    }

    /// As [`run`](GroupSession::run), but the call sleeps while a lock waits, and continues with the list after the grant.
    /// So the list never stops with [`Halt::Waiting`].
    pub fn run_to_end(&mut self, list: &[Do<'_>], answers: &mut Answers) -> Result<(), Halt> {
        answers.begin(self.txn());
        self.resume_to_end(list, answers)
    }

    /// As [`run_to_end`](GroupSession::run_to_end), from the first command on that has no answer. If that one's lock
    /// waits, the call awaits it first.
    pub fn resume_to_end(&mut self, list: &[Do<'_>], answers: &mut Answers) -> Result<(), Halt> {
        loop {
            if answers.wait(self.txn()).is_some() {
                self.await_lock(answers)?;
            }
            match self.resume(list, answers) {
                Err(Halt::Waiting(_)) => {}
                end => return end,
            }
        }
    }

    /// As [`run_to_end`](GroupSession::run_to_end), for a task, as [`lock_path_async`](GroupSession::lock_path_async).
    /// A future that is dropped cancels its wait, and leaves what the list has done by then.
    pub async fn run_to_end_async(
        &mut self,
        list: &[Do<'_>],
        answers: &mut Answers,
    ) -> Result<(), Halt> {
        answers.begin(self.txn());
        self.resume_to_end_async(list, answers).await
    }

    /// As [`resume_to_end`](GroupSession::resume_to_end), for a task.
    pub async fn resume_to_end_async(
        &mut self,
        list: &[Do<'_>],
        answers: &mut Answers,
    ) -> Result<(), Halt> {
        loop {
            if answers.wait(self.txn()).is_some() {
                self.await_lock_async(answers).await?;
            }
            match self.resume(list, answers) {
                Err(Halt::Waiting(_)) => {}
                end => return end,
            }
        }
    }

    /// Makes tries one after the other, up to the first that is done, as
    /// [`Session::try_first`](crate::Session::try_first). Each also locks what must be held above its node or row.
    pub fn try_first(&mut self, tries: &[Try<'_>]) -> Result<Option<Taken>, Refusal> {
        let txn = self.txn();
        try_first(txn, tries, |list| self.transaction.try_first(list))
    }
}
