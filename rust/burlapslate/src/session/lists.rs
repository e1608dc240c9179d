//! Lists of commands, which a session makes in one critical section.

use super::{Handle, Session, Stop};
use crate::answers::Answers;
use crate::list::{Do, Halt};
use crate::mode::Mode;
use crate::names::Txn;
use crate::refusal::Refusal;
use crate::resting::Resting;
use crate::session::RowLocked;
use crate::sys::awaited::Asks;
use crate::sys::commands::{self, BEGUN, COMMIT, MARK};
use crate::sys::shared::{self, Kept};
use crate::table::Sought;
use std::error::Error;
use std::fmt;

/// A list that was to end with a commit, and stopped before: its transaction lives on in the session, with all that it
/// has locked. If this is dropped, the transaction is aborted.
#[must_use = "the transaction is aborted if this is dropped"]
#[derive(Debug)]
pub struct Unfinished<'t> {
    /// Its transaction.
    pub session: Session<'t>,
    /// Why the list stopped. If each of its commands has an answer, the commit was refused.
    pub halt: Halt,
}

/// Why the list stopped, for a log.
impl fmt::Display for Unfinished<'_> {
    fn fmt(&self, f: &mut fmt::Formatter<'_>) -> fmt::Result {
        self.halt.fmt(f)
    }
}

impl Error for Unfinished<'_> {}

/// The transaction is aborted.
impl From<Unfinished<'_>> for Halt {
    fn from(unfinished: Unfinished<'_>) -> Halt {
        unfinished.halt
    }
}

/// # Lists
///
/// Several commands in one critical section: no other thread's commands come between them, and the latch is acquired
/// once. If the table has parts, each command is a critical section of its own, as in a
/// [`GroupSession`](crate::GroupSession::run).
impl<'t> Session<'t> {
    /// Makes the commands of a list in order, in one critical section, up to the first that is not done, and writes
    /// what they answered into `answers`, by their places; what these had before is gone. The answer says why the list
    /// stopped at that command. Those after it are not made, and change nothing.
    ///
    /// The call never sleeps. A lock that must wait stops the list, and waits. If its wait ends by what the list itself
    /// sets off, it is answered with that end: after a grant the list continues.
    ///
    /// Each command is refused as its call. `answers` take all memory that the list itself needs before its first
    /// command is made; if there is none, the list is refused with [`NoMemory`](Refusal::NoMemory).
    ///
    /// ```
    /// # use burlapslate::{Answers, Detect, Do, Done, Halt, Mode, Table, SLOTS};
    /// # let table = Table::new(Detect::AtBlock, SLOTS)?;
    /// # let db = table.add_inner(&[])?;
    /// # let [orders, stock] = [table.add_file(&[db])?, table.add_file(&[db])?];
    /// let (mut first, mut second) = (table.begin()?, table.begin()?);
    /// let mut answers = Answers::new();
    /// let writes = [Do::LockPath(orders.into(), Mode::X), Do::LockPath(stock.into(), Mode::X)];
    /// assert_eq!(first.run(&writes[1..], &mut answers), Ok(()));
    ///
    /// let stopped = second.run(&writes, &mut answers).unwrap_err();
    /// assert_eq!(*answers, [Done::Locked(Mode::X)]);
    /// assert!(matches!(stopped, Halt::Waiting(wait) if wait.node == stock));
    ///
    /// first.commit()?;
    /// assert_eq!(second.resume_to_end(&writes, &mut answers), Ok(()));
    /// assert_eq!(*answers, [Done::Locked(Mode::X); 2]);
    /// # Ok::<(), burlapslate::Refusal>(())
    /// ```
    pub fn run(&mut self, list: &[Do<'_>], answers: &mut Answers) -> Result<(), Halt> {
        answers.begin(self.own.txn);
        self.resume(list, answers)
    }

    /// As [`run`](Session::run), but from the first command on that has no answer, where the list stopped before.
    /// Places stay those of the whole list, and [`Named::Made`](crate::Named::Made) names what the earlier commands
    /// have made. Only the rest of the list is looked at: so that may differ from before, as by the keys of a row.
    ///
    /// If the list stopped at a lock that waits, await that first ([`await_lock`](Session::await_lock)). While it
    /// waits, the list stops there again; and a lock for an instant that was granted meanwhile is requested anew. If
    /// the answers are those of another transaction, as of one that was a victim, the list begins anew.
    pub fn resume(&mut self, list: &[Do<'_>], answers: &mut Answers) -> Result<(), Halt> {
        answers.resume(self.own.txn);
        let rest = answers.rest(list, 0)?;
        let calling = self.call(); // So the panic of a waker finds the answers noted.
        answers.run(rest, self.own.txn, &[], |list| {
            commands::run(&calling, list)
        })
    }

    /// Sleeps until the end of the wait at which a list stopped ([`Halt::Waiting`]), or until the session's deadline
    /// ([`set_deadline`](Session::set_deadline)). After the grant [`resume`](Session::resume) continues the list: with
    /// the next command, or with the same one if that was a step to its lock, as for a path. After any other end but
    /// [`Stop::Victim`] it requests the lock again.
    ///
    /// Refused with [`NotWaiting`](Refusal::NotWaiting) if no lock waits by these answers, and with
    /// [`InUse`](Refusal::InUse) as [`lock`](Session::lock): then the lock waits on.
    pub fn await_lock(&mut self, answers: &mut Answers) -> Result<(), Stop> {
        let wait = answers.wait(self.own.txn).ok_or(Refusal::NotWaiting)?;
        let end = self.sought(Sought::left(wait), None);
        self.has_awaited(answers, end)
    }

    /// As [`await_lock`](Session::await_lock), for a task, as [`lock_async`](Session::lock_async). If the future is
    /// dropped while the lock waits, the wait is cancelled, and [`resume`](Session::resume) requests the lock again.
    pub async fn await_lock_async(&mut self, answers: &mut Answers) -> Result<(), Stop> {
        let wait = answers.wait(self.own.txn).ok_or(Refusal::NotWaiting)?;
        let end = self.locking(Sought::left(wait)).await;
        self.has_awaited(answers, end.map(RowLocked::mode))
    }

    /// The wait of a list was awaited, and was answered so.
    fn has_awaited(&self, answers: &mut Answers, end: Result<Mode, Stop>) -> Result<(), Stop> {
        if self.own.has_parts() {
            answers.has_come_to(end)
        } else {
            answers.has_awaited(end)
        }
    }

    /// As [`run`](Session::run), but the call sleeps while a lock waits, and continues with the list after the grant.
    /// So the list never stops with [`Halt::Waiting`], and others use the table meanwhile.
    ///
    /// Refused with [`InUse`](Refusal::InUse) as [`lock`](Session::lock), if a lock must wait: then it waits on.
    pub fn run_to_end(&mut self, list: &[Do<'_>], answers: &mut Answers) -> Result<(), Halt> {
        answers.begin(self.own.txn);
        self.resume_to_end(list, answers)
    }

    /// As [`run_to_end`](Session::run_to_end), from the first command on that has no answer, as
    /// [`resume`](Session::resume). If that one's lock waits, the call awaits it first.
    pub fn resume_to_end(&mut self, list: &[Do<'_>], answers: &mut Answers) -> Result<(), Halt> {
        loop {
            if answers.wait(self.own.txn).is_some() {
                self.await_lock(answers)?;
            }
            match self.resume(list, answers) {
                Err(Halt::Waiting(_)) => {}
                end => return end,
            }
        }
    }

    /// As [`run_to_end`](Session::run_to_end), for a task, as [`lock_async`](Session::lock_async). A future that is
    /// dropped cancels its wait, and leaves what the list has done by then.
    pub async fn run_to_end_async(
        &mut self,
        list: &[Do<'_>],
        answers: &mut Answers,
    ) -> Result<(), Halt> {
        answers.begin(self.own.txn);
        self.resume_to_end_async(list, answers).await
    }

    /// As [`resume_to_end`](Session::resume_to_end), for a task.
    pub async fn resume_to_end_async(
        &mut self,
        list: &[Do<'_>],
        answers: &mut Answers,
    ) -> Result<(), Halt> {
        loop {
            if answers.wait(self.own.txn).is_some() {
                self.await_lock_async(answers).await?;
            }
            match self.resume(list, answers) {
                Err(Halt::Waiting(_)) => {}
                end => return end,
            }
        }
    }

    /// As [`run`](Session::run), and commits after the last command, in the same critical section. If the list stops,
    /// or the commit is refused, the transaction lives on in the session that is given back.
    ///
    /// ```
    /// # use burlapslate::{Answers, Detect, Do, Mode, Table, Unfinished, SLOTS};
    /// # let table = Table::new(Detect::AtBlock, SLOTS)?;
    /// # let db = table.add_inner(&[])?;
    /// let (mut reader, writer) = (table.begin()?, table.begin()?);
    /// assert_eq!(reader.lock(db, Mode::S), Ok(Mode::S));
    /// let mut answers = Answers::new();
    /// let writes = [Do::Lock(db.into(), Mode::X)];
    /// let Err(Unfinished { mut session, .. }) = writer.run_and_commit(&writes, &mut answers) else {
    ///     unreachable!("another transaction reads the node")
    /// };
    /// reader.commit()?;
    /// session.resume_to_end(&writes, &mut answers).unwrap(); // Now it is granted.
    /// session.commit()?;
    /// # Ok::<(), burlapslate::Refusal>(())
    /// ```
    pub fn run_and_commit(
        mut self,
        list: &[Do<'_>],
        answers: &mut Answers,
    ) -> Result<(), Unfinished<'t>> {
        match self.make_and_commit(list, answers) {
            Ok(()) => Ok(()),
            Err(halt) => Err(Unfinished {
                session: self,
                halt,
            }),
        }
    }

    /// As [`run_and_commit`](Session::run_and_commit), with the commit of [`rest`](Session::rest), which keeps the
    /// first locks that are intentions.
    pub fn run_and_rest(
        mut self,
        most: usize,
        list: &[Do<'_>],
        answers: &mut Answers,
    ) -> Result<Resting<'t>, Unfinished<'t>> {
        match self.make_and_rest(most, list, answers) {
            Ok(kept) => Ok(Resting::of(self.own.table.clone(), kept)),
            Err(halt) => Err(Unfinished {
                session: self,
                halt,
            }),
        }
    }

    fn make_and_commit(&mut self, list: &[Do<'_>], answers: &mut Answers) -> Result<(), Halt> {
        answers.begin(self.own.txn);
        let rest = answers.rest(list, 1)?;
        let calling = self.own.table.call();
        answers.run(rest, self.own.txn, &[(COMMIT, self.own.txn)], |list| {
            commands::run(&calling, list)
        })?;
        self.has_ended = true;
        Ok(())
    }

    /// Answers what is kept. The call would begin another transaction if this one has ended, and commit that: so a
    /// command before the commit asks for this one's mark, which is refused then.
    fn make_and_rest(
        &mut self,
        most: usize,
        list: &[Do<'_>],
        answers: &mut Answers,
    ) -> Result<Kept, Halt> {
        answers.begin(self.own.txn);
        let rest = answers.rest(list, 2)?;
        let mut kept = self.keeping(most);
        let calling = self.own.table.call();
        let after = [(MARK, self.own.txn), (COMMIT, BEGUN)];
        let end = answers.run(rest, self.own.txn, &after, |list| {
            commands::run_in_session(&calling, &mut kept, list)
        });
        if end.is_err() && kept.txn != self.own.txn {
            shared::bs_table_abort(&calling, kept.txn, None); // Another has begun, or none could.
            return Err(Refusal::NoSuchTxn.into());
        }
        end?;
        self.has_ended = true;
        Ok(kept)
    }
}

/// Begins a transaction, with what the one before it has kept, makes a list, and commits, in one critical section. What
/// that keeps for the next is in `kept`. Refused if no transaction can begin.
pub(crate) fn run_whole<'t>(
    table: &Handle<'t>,
    kept: &mut Kept,
    list: &[Do<'_>],
    answers: &mut Answers,
) -> Result<Result<(), Unfinished<'t>>, Refusal> {
    answers.begin(Txn::NONE);
    let rest = answers.rest(list, 1)?;
    kept.txn = Txn::NONE;
    let calling = table.call();
    let mut refused = None;
    let end = answers.run(rest, BEGUN, &[(COMMIT, BEGUN)], |list| {
        let done = commands::run_in_session(&calling, kept, list);
        if done == 0 && kept.txn == Txn::NONE {
            refused = list.first().map(|first| Refusal::of(&first.reply));
        }
        done
    });
    if let Some(refusal) = refused {
        return Err(refusal);
    }
    let ran = end.map_err(|halt| {
        answers.has_begun(kept.txn);
        let session = Session::with_kept(table.clone(), kept.txn, kept.count);
        *kept = kept.most_alone();
        Unfinished { session, halt }
    });
    drop(calling); // If it panics by a waker, the session is dropped as well.
    Ok(ran)
}
