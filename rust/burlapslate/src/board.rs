//! Boards: who waits for whom at one moment.

use crate::names::Txn;
use crate::refusal::Refusal;
use crate::sys;
use crate::{SLOTS, WORDS};
use std::fmt;
use std::iter::FusedIterator;

/// A set of slots, each below [`SLOTS`].
#[repr(C)]
#[derive(Clone, Copy, PartialEq, Eq, Hash)]
pub struct Slots {
    words: [u64; WORDS],
}

impl Slots {
    /// The empty set.
    pub const NONE: Slots = Slots { words: [0; WORDS] };

    /// The set of these words: bit `s % 64` of word `s / 64` is that of slot s.
    pub const fn from_words(words: [u64; WORDS]) -> Slots {
        Slots { words }
    }

    /// Its words: bit `s % 64` of word `s / 64` is that of slot s.
    pub const fn words(self) -> [u64; WORDS] {
        self.words
    }

    /// Whether it has this slot; any number may be asked after.
    pub fn contains(self, slot: usize) -> bool {
        slot < SLOTS && self.words[slot / 64] >> (slot % 64) & 1 != 0
    }

    /// How many slots it has.
    pub fn len(self) -> usize {
        self.words
            .iter()
            .map(|word| word.count_ones() as usize)
            .sum()
    }

    /// Whether it has none.
    pub fn is_empty(self) -> bool {
        self == Slots::NONE
    }

    /// Its slots, from the lowest on.
    pub fn iter(self) -> SlotIter {
        SlotIter {
            left: self,
            place: 0,
        }
    }
}

/// The set of these slots.
///
/// # Panics
///
/// If one is not below [`SLOTS`].
impl FromIterator<usize> for Slots {
    fn from_iter<I: IntoIterator<Item = usize>>(slots: I) -> Slots {
        let mut words = [0; WORDS];
        for slot in slots {
            words[slot / 64] |= 1 << (slot % 64);
        }
        Slots { words }
    }
}

impl IntoIterator for Slots {
    type Item = usize;
    type IntoIter = SlotIter;

    fn into_iter(self) -> SlotIter {
        self.iter()
    }
}

impl fmt::Debug for Slots {
    fn fmt(&self, f: &mut fmt::Formatter<'_>) -> fmt::Result {
        f.debug_set().entries(*self).finish()
    }
}

/// The slots of a set, from the lowest on.
#[derive(Clone, Debug)]
pub struct SlotIter {
    left: Slots,
    /// No word before this one has any.
    place: usize,
}

impl Iterator for SlotIter {
    type Item = usize;

    fn next(&mut self) -> Option<usize> {
        while self.place < WORDS {
            let word = &mut self.left.words[self.place];
            if *word != 0 {
                let slot = 64 * self.place + word.trailing_zeros() as usize;
                *word &= *word - 1;
                return Some(slot);
            }
            self.place += 1;
        }
        None
    }

    fn size_hint(&self) -> (usize, Option<usize>) {
        let left = self.left.len();
        (left, Some(left))
    }
}

impl ExactSizeIterator for SlotIter {}

impl FusedIterator for SlotIter {}

/// Who waits for whom at one moment: a transaction waits for another that holds the node in an
/// incompatible mode, or that is ahead of it in the queue.
///
/// A board is a value of its own, which any thread may read without the manager and its mutex. It is large: some three
/// kilobytes for 128 slots, 136 for 1,024. It may be out of date; to settle a suspect of an old board does no harm.
///
/// ```
/// use burlapslate::{Asked, Detect, Manager, Mode, Notice, SLOTS};
///
/// let mut m = Manager::new(Detect::ByWatcher, SLOTS)?;
/// let db = m.add_inner(&[])?;
/// let (a, b) = (m.begin()?, m.begin()?);
/// for mode in [Mode::S, Mode::X] {
///     for txn in [a, b] {
///         let _ = m.lock(txn, db, mode)?; // Both read, and then each waits to write.
///     }
/// }
/// let board = m.board();
/// let suspects = board.suspects();
/// assert!(suspects.iter().eq([a.slot(), b.slot()]));
/// let victim = board.youngest(suspects).and_then(|slot| board.txn(slot));
/// assert_eq!(victim, Some(b));
/// assert!(m.settle(b)?.eq([Notice::Victim { txn: b }]));
/// # Ok::<(), burlapslate::Refusal>(())
/// ```
#[derive(Clone, PartialEq, Eq)]
pub struct Board(sys::Board);

impl Board {
    /// A board without transactions, to read others into ([`Manager::read_board`]).
    ///
    /// [`Manager::read_board`]: crate::Manager::read_board
    pub fn new() -> Board {
        sys::assert_fits();
        Board(sys::Board {
            epoch: 0,
            ages: [0; SLOTS],
            rows: [Slots::NONE; SLOTS],
        })
    }

    pub(crate) fn as_sys(&mut self) -> &mut sys::Board {
        &mut self.0
    }

    /// How many commands had been accepted by then.
    pub fn epoch(&self) -> u64 {
        self.0.epoch
    }

    /// By slot, the age of its transaction; 0: the slot is free.
    pub fn ages(&self) -> &[u64; SLOTS] {
        &self.0.ages
    }

    /// By slot, for whom it waits.
    pub fn rows(&self) -> &[Slots; SLOTS] {
        &self.0.rows
    }

    /// The transaction in a slot; `None` if the slot is free, or there is no such slot.
    pub fn txn(&self, slot: usize) -> Option<Txn> {
        match self.0.ages.get(slot) {
            None | Some(0) => None,
            Some(&age) => Some(Txn::at(slot, age)),
        }
    }

    /// The slots on a cycle of waits with this slot; none if it is on no cycle, or there is no such
    /// slot.
    ///
    /// Costs at most a step for each slot that it reaches, twice.
    pub fn on_cycle(&self, slot: usize) -> Slots {
        if slot < SLOTS {
            found(sys::bs_call_on_cycle(&self.0, slot as u32))
        } else {
            Slots::NONE
        }
    }

    /// The slots that are on any cycle of waits.
    ///
    /// Costs a pass over the rows if nobody waits, else a step for each slot and each waiter.
    pub fn suspects(&self) -> Slots {
        found(sys::bs_call_suspects(&self.0))
    }

    /// The youngest of these slots, which has the greatest age, of equal ages the lowest; `None`
    /// if there is no slot. Of the slots on a cycle, it is the one that a settle condemns first.
    pub fn youngest(&self, slots: Slots) -> Option<usize> {
        let reply = sys::bs_call_youngest(&self.0, &slots);
        match reply.status {
            sys::DONE => Some(reply.count as usize),
            sys::NO_PLACE => None,
            _ => unreachable!("the youngest of a set was refused: {}", Refusal::of(&reply)),
        }
    }
}

impl Default for Board {
    fn default() -> Board {
        Board::new()
    }
}

/// Its epoch, and of each transaction its slot, its age and for whom it waits.
impl fmt::Debug for Board {
    fn fmt(&self, f: &mut fmt::Formatter<'_>) -> fmt::Result {
        let living = (0..SLOTS).filter_map(|slot| self.txn(slot));
        let rows = living.map(|txn| (txn, self.0.rows[txn.slot()]));
        write!(f, "Board {} ", self.0.epoch)?;
        f.debug_map().entries(rows).finish()
    }
}

/// The slots that were found: a slot below `SLOTS` is never refused.
fn found(found: sys::Found) -> Slots {
    assert_eq!(found.status, sys::DONE, "a question to a board was refused");
    found.slots
}
