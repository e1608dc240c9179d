//! What the transactions of a thread keep for the next.

use crate::answers::Answers;
use crate::list::Do;
use crate::refusal::{accepted, Refusal};
use crate::session::{run_whole, Handle, Session, Unfinished};
use crate::sys::shared::{self, Calling, Kept};
use std::fmt;

/// What a session keeps for its thread's next transaction: intentions, the first of its locks
/// ([`Session::rest`]).
///
/// A transaction that has done nothing holds them, and has a slot. Nobody waits for it: it is ended as soon
/// as it is in the way of a lock, a try or an escalation that wants more than an intention, or of a begin
/// that finds no slot. If this is dropped, what it keeps is released; in a waker or while the thread holds the
/// table ([`Table::with`](crate::Table::with)), it rests on.
///
/// If the table has parts, it has no slot: what is kept rests in the parts, as [`Group::keep`](crate::Group::keep) says.
#[must_use = "what is kept is released if this is dropped"]
pub struct Resting<'t> {
    table: Handle<'t>,
    kept: Kept,
}

impl<'t> Resting<'t> {
    pub(crate) fn of(table: Handle<'t>, kept: Kept) -> Resting<'t> {
        Resting { table, kept }
    }

    fn call(&self) -> Calling<'_> {
        self.table.call()
    }

    /// Begins the thread's next transaction. It holds what is kept, so it may hold an intention that it has
    /// not asked for; if that was released since, it holds nothing. If it needs a slot then, it begins as
    /// [`Table::begin_in_turn`](crate::Table::begin_in_turn).
    ///
    /// Refused as [`Table::begin_in_turn`](crate::Table::begin_in_turn); then nothing is kept any more.
    pub fn begin(mut self) -> Result<Session<'t>, Refusal> {
        let mut kept = self.kept;
        let reply = accepted(shared::session_begin(&self.call(), &mut kept))?;
        self.kept = Kept::NOTHING;
        Ok(Session::with_kept(
            self.table.clone(),
            reply.txn,
            kept.count,
        ))
    }

    /// Makes a whole transaction of a list, in one critical section: it begins the thread's next transaction, which
    /// holds what is kept, makes the list as [`Session::run`], and commits as [`Session::rest`] with the same `most`.
    /// If the list stops, or the commit is refused, the transaction lives on in the session that is given back, and
    /// has what was kept: then this keeps nothing, and its next transaction begins without.
    ///
    /// Refused as [`Table::run`](crate::Table::run). What is kept stays if there is no memory for the list, and after
    /// [`InUse`](Refusal::InUse); after any other refusal nothing is kept any more.
    ///
    /// ```
    /// # use burlapslate::{Answers, Detect, Do, Mode, Table, SLOTS};
    /// # let table = Table::new(Detect::AtBlock, SLOTS)?;
    /// # let db = table.add_inner(&[])?;
    /// # let file = table.add_row_file(&[db])?;
    /// # let row = |number| burlapslate::Row { file, number }.into();
    /// let mut answers = Answers::new();
    /// let mut resting = table.begin()?.rest(16)?;
    /// for number in 0..3 {
    ///     let writes = [Do::LockRowPath(row(number), &[], Mode::X)];
    ///     resting.run(&writes, &mut answers)?.unwrap();
    /// }
    /// assert_eq!(table.with(|m| m.group(file)), Ok(Mode::IX)); // It is kept for the next one.
    /// # Ok::<(), burlapslate::Refusal>(())
    /// ```
    pub fn run(
        &mut self,
        list: &[Do<'_>],
        answers: &mut Answers,
    ) -> Result<Result<(), Unfinished<'t>>, Refusal> {
        run_whole(&self.table, &mut self.kept, list, answers)
    }
}

impl Drop for Resting<'_> {
    fn drop(&mut self) {
        let mut kept = self.kept;
        let _ = shared::session_end(&self.call(), &mut kept); // If it is refused, it rests on, in nobody's way.
    }
}

impl fmt::Debug for Resting<'_> {
    fn fmt(&self, f: &mut fmt::Formatter<'_>) -> fmt::Result {
        f.debug_tuple("Resting").field(&self.kept.rests).finish()
    }
}
