//! A lock manager of granular locks, for storage engines.
//!
//! Transactions lock the nodes of a graph: inner nodes (a data base, an area), files, indexes of
//! files, intervals of indexes, and records. A transaction that locks a node holds intentions above
//! it, so that a lock on a node is an implicit lock on everything below.
//!
//! The crate is a safe interface to the library that `include/burlapslate.h` declares. The types here
//! keep what that header asks of a program in C, except for two rules: no call is made from a signal
//! handler or from the forked child of a process with threads, and the program's `malloc`, `realloc`
//! and `free` are one allocator's. Rust's own allocator may be another.
//!
//! ```
//! use burlapslate::{Asked, Detect, Manager, Mode, Notice, SLOTS};
//!
//! let mut m = Manager::new(Detect::AtBlock, SLOTS)?;
//! let db = m.add_inner(&[])?;
//! let (reader, writer) = (m.begin()?, m.begin()?);
//! let (asked, _) = m.lock(reader, db, Mode::S)?;
//! assert_eq!(asked, Asked::Granted(Mode::S));
//! let (asked, _) = m.lock(writer, db, Mode::X)?;
//! assert_eq!(asked, Asked::Waiting);
//! let told = m.commit(reader)?;
//! assert!(told.eq([Notice::Granted { txn: writer, node: db, mode: Mode::X }]));
//! # Ok::<(), burlapslate::Refusal>(())
//! ```
//!
//! # Threads
//!
//! Threads share a [`Table`]. Each begins a [`Session`], whose lock calls sleep until the lock is
//! granted, and which is aborted if it is dropped without a commit. One call locks a node or a row with all that
//! must be held above it ([`Session::lock_path`], [`Session::lock_row_path`]). If there are more threads than slots
//! they [begin in turn](Table::begin_in_turn). A thread keeps its intentions from one transaction to the next
//! ([`Session::rest`]). If threads wait for each other's calls, make the table with several parts, which have a latch
//! each ([`Options::parts`]). Such a table is a [`Group`] of tables that work as one. A task of a runtime awaits its
//! begin and its locks, and no thread sleeps ([`Table::begin_async`], [`Session::lock_async`],
//! [`GroupSession::lock_path_async`]). A [`Watcher`] reads who waits for whom without the mutex. A table says how long
//! waits last and where ([`Table::waits`], [`Table::awaited`], [`Table::metrics`]), and tells of long ones
//! ([`Table::on_long_wait`]). What it does can be written as a script ([`Table::trace`]).
//!
//! ```
//! use burlapslate::{Detect, Mode, Node, Stop, Table, SLOTS};
//! use std::thread;
//!
//! /// A transaction that writes a node.
//! fn write(table: &Table, node: Node) -> Result<(), Stop> {
//!     let mut session = table.begin()?;
//!     session.lock_path(node, Mode::X)?;
//!     // Here the node is written. If a lock is not granted, the session is dropped, and so
//!     // aborted.
//!     session.commit()?;
//!     Ok(())
//! }
//!
//! let table = Table::new(Detect::AtBlock, SLOTS)?;
//! let db = table.add_inner(&[])?;
//! let file = table.add_file(&[db])?;
//! thread::scope(|scope| {
//!     for _ in 0..4 {
//!         scope.spawn(|| write(&table, file).unwrap());
//!     }
//! });
//! println!("{}", table.dump());
//! # Ok::<(), burlapslate::Refusal>(())
//! ```
//!
//! A [`Manager`] is for programs with a scheduler of their own. One thread uses it at a time. No call
//! waits: a lock that is not granted at once is answered with [`Asked::Waiting`], and a later call of
//! another transaction ends the wait with a [`Notice`]. The caller of that call delivers the notice to
//! the waiting transaction before the manager is used again, so that notices arrive in order.
//! [`Manager::verdict`] and [`Manager::ended`] say the same to a program that only wakes its sleepers.
//!
//! # Refusals
//!
//! A refused call changes nothing. [`lock_path`](Manager::lock_path) is several locks, and says which of
//! them may stay. If several refusals apply, the first in the order of the call's list is answered
//! ([`Refusal`]).
//!
//! # Memory
//!
//! Calls that end or release something take no memory and cannot fail for lack of it: [`unlock`](Manager::unlock),
//! [`cancel`](Manager::cancel), [`commit`](Manager::commit), [`abort`](Manager::abort), [`settle`](Manager::settle),
//! [`delete`](Manager::delete), [`rekey`](Manager::rekey), [`escalate`](Manager::escalate), of nodes and of rows. The
//! others are refused with [`Refusal::NoMemory`] if the allocator refuses, and can be made again. Beside the library's
//! memory a manager takes 40 bytes for each slot when it is made, for the notices, and a table or a group 56, for the waits
//! of futures, and a table with parts 8 more; and none afterwards. But a list of tries takes some for the list,
//! [`Answers`] for a list of commands that is longer than those before it, a begin of a future that waits for itself, a
//! function of [`Table::on_long_wait`] for itself and its thread, and a try of a path that keeps nothing for the nodes
//! that it acquires.
//!
//! With 1,024 slots, making a manager takes three megabytes of stack, and reading a board 0.7: more than a thread has
//! by default ([`std::thread::Builder::stack_size`]).
//!
//! # The library
//!
//! The crate is linked with the library for C, of its own version. The build takes the archives that
//! `BURLAPSLATE_LIBS` names; or else the folder of an installation that `BURLAPSLATE_DIR` names; or else the
//! installation that `pkg-config` knows; or else, within the repository, what `tools/c_library.sh` builds.
//! `BURLAPSLATE_SLOTS` says how many [`SLOTS`] there are, or else `include/burlapslate.h`, in the folder nearest above
//! the archive that has it. If a program was built for another number or another version than its library's, it
//! stops when it makes a manager or a board.

#![deny(missing_docs)]
#![deny(unsafe_code)] // But for `sys`.
#![deny(clippy::undocumented_unsafe_blocks)]

mod answers;
mod board;
mod clock;
#[cfg(target_pointer_width = "64")]
mod group;
mod list;
mod listing;
mod manager;
mod mode;
mod names;
mod notices;
mod refusal;
mod resting;
mod session;
#[allow(unsafe_code)]
mod sys;
mod table;
mod watcher;
mod watching;

pub use answers::Answers;
pub use board::{Board, SlotIter, Slots};
#[cfg(target_pointer_width = "64")]
pub use group::{Group, GroupMark, GroupSession};
pub use list::{Do, Done, Halt, Named, NamedRow};
pub use listing::{Counters, Deadlock, Doing, Listing, LockRow, Stuck, TxnRow, Waiter};
pub use manager::{Asked, Escalated, Manager, Mark, Options, Reached, RowAsked, Wait};
pub use mode::{Detect, Kind, Mode, Victims};
pub use names::{Node, Row, Txn};
pub use notices::{Notice, Notices};
pub use refusal::Refusal;
pub use resting::Resting;
pub use session::{Keep, RowLocked, Session, Stop, Taken, Tried, Try, Unfinished};
pub use table::{Awaited, AwaitedNode, Blocker, Histogram, LongWait, Table, Told, WaitEnd, Waits};
pub use watcher::Watcher;

/// How many transactions can live at once in a manager, and so how many notices a command can have: 128, or what the
/// header of the library says with which the crate was built.
pub const SLOTS: usize = number(env!("BURLAPSLATE_SLOTS"));

/// How many words of 64 bits a set of slots has.
pub const WORDS: usize = SLOTS / 64;

/// The number that these digits say.
const fn number(digits: &str) -> usize {
    let (digits, mut number, mut place) = (digits.as_bytes(), 0, 0);
    while place < digits.len() {
        assert!(digits[place].is_ascii_digit(), "a number has other digits");
        number = 10 * number + (digits[place] - b'0') as usize;
        place += 1;
    }
    number
}

const _: () = assert!(
    SLOTS > 0 && SLOTS % 64 == 0,
    "BURLAPSLATE_SLOTS is no number of slots"
);

/// The version of this crate, which is that of `include/burlapslate.h`.
pub const VERSION: &str = env!("CARGO_PKG_VERSION");

/// The first two numbers of the version, as the library's call says its own: a library whose third is another fits.
const FITS: usize =
    1000 * number(env!("CARGO_PKG_VERSION_MAJOR")) + number(env!("CARGO_PKG_VERSION_MINOR"));

/// How many parents a node can have.
pub const MOST_PARENTS: usize = 8;

/// How many watchers a manager can have at once.
pub const MOST_WATCHERS: usize = 8;

/// How many parts a [`Group`] or a [`Table`] can have.
pub const MOST_PARTS: usize = 63;

/// The examples of the README.
#[cfg(doctest)]
#[doc = include_str!("../README.md")]
struct Readme;
