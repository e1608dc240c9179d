//! Watchers: who waits for whom, without the mutex of a table.

use crate::board::Board;
use crate::refusal::{accepted, Refusal};
use crate::sys::{Reply, WatcherPlace, DONE};
use std::fmt;

/// A watcher reads the boards that a manager publishes, with no mutex and no wait.
///
/// A manager that has watchers publishes its board after each accepted command that may have begun, ended
/// or changed a wait. After other commands the last board still shows every wait, with the ages of the
/// waiters and of the transactions for which they wait; its epoch and all other ages are of its own
/// moment. If there is no memory for a board, the next command publishes one. A watcher may outlive its
/// manager: then it sees the last board that was published.
///
/// A watcher of a table with parts joins the boards of all, each of its own moment. So it may show a cycle that never was:
/// [`Table::settle`](crate::Table::settle) looks again with the latches.
///
/// ```
/// use burlapslate::{Board, Detect, Mode, Table, SLOTS};
///
/// let table = Table::new(Detect::AtBlock, SLOTS)?;
/// let db = table.add_inner(&[])?;
/// let mut watcher = table.watch()?;
/// let mut board = Board::new();
/// watcher.look(&mut board);
/// assert!(board.rows().iter().all(|row| row.is_empty()));
/// # let _ = db;
/// # Ok::<(), burlapslate::Refusal>(())
/// ```
pub struct Watcher {
    place: Box<WatcherPlace>,
}

impl Watcher {
    /// A watcher that this call of a manager or a table makes in its place.
    pub(crate) fn made_by(
        watch: impl FnOnce(&mut WatcherPlace) -> Reply,
    ) -> Result<Watcher, Refusal> {
        let mut place = WatcherPlace::new().ok_or(Refusal::NoMemory)?;
        accepted(watch(&mut place))?;
        Ok(Watcher { place })
    }

    /// Looks: writes the last published board over this one. It is whole, and never older than the board
    /// that this watcher saw before. With detection at block, and without parts, it has no suspect.
    pub fn look(&mut self, board: &mut Board) {
        let reply = self.place.look(board.as_sys());
        assert_eq!(reply.status, DONE, "a look was refused");
    }

    /// The last board that was shown.
    pub fn board(&mut self) -> Board {
        let mut board = Board::new();
        self.look(&mut board);
        board
    }
}

impl Drop for Watcher {
    fn drop(&mut self) {
        self.place.end();
    }
}

impl fmt::Debug for Watcher {
    fn fmt(&self, f: &mut fmt::Formatter<'_>) -> fmt::Result {
        f.debug_struct("Watcher").finish_non_exhaustive()
    }
}
