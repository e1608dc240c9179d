//! Whole transactions that are lists.

use super::Table;
use crate::answers::Answers;
use crate::list::Do;
use crate::refusal::Refusal;
use crate::session::{run_whole, Handle, Session, Unfinished};
use crate::sys::shared::Kept;
use std::sync::Arc;

impl Table {
    /// Makes a whole transaction of a list, in one critical section: it begins as [`begin`](Table::begin), makes the
    /// list as [`Session::run`], and commits. If the list stops, or the commit is refused, the transaction lives on in
    /// the session that is given back.
    ///
    /// Refused as [`begin`](Table::begin), also with [`NoMemory`](Refusal::NoMemory) for the list: then nothing has
    /// begun.
    ///
    /// ```
    /// use burlapslate::{Answers, Detect, Do, Halt, Mode, Node, Table, Unfinished, SLOTS};
    ///
    /// fn write(table: &Table, record: Node, answers: &mut Answers) -> Result<(), Halt> {
    ///     let list = [Do::LockPath(record.into(), Mode::X)];
    ///     let Err(Unfinished { mut session, .. }) = table.run(&list, answers)? else {
    ///         return Ok(()); // It has committed.
    ///     };
    ///     session.resume_to_end(&list, answers)?; // It sleeps, if a lock waits.
    ///     Ok(session.commit()?)
    /// }
    ///
    /// let table = Table::new(Detect::AtBlock, SLOTS)?;
    /// let db = table.add_inner(&[])?;
    /// write(&table, db, &mut Answers::new())?;
    /// # Ok::<(), Halt>(())
    /// ```
    pub fn run(
        &self,
        list: &[Do<'_>],
        answers: &mut Answers,
    ) -> Result<Result<(), Unfinished<'_>>, Refusal> {
        let mut kept = Kept::NOTHING;
        run_whole(&Handle::Lent(self), &mut kept, list, answers)
    }

    /// As [`run`](Table::run); a session that is given back is one of the table's owners.
    pub fn run_shared(
        self: &Arc<Table>,
        list: &[Do<'_>],
        answers: &mut Answers,
    ) -> Result<Result<(), Unfinished<'static>>, Refusal> {
        let ran = self.run(list, answers)?;
        Ok(ran.map_err(|Unfinished { session, halt }| Unfinished {
            session: Session::shared(self, session),
            halt,
        }))
    }
}
