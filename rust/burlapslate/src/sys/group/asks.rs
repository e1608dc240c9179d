//! Asks of futures of a group, as `include/burlapslate_group.h` declares the calls.

use super::{bs_group_abort, bs_group_cancel, bs_group_try_path, Shared, Transaction};
use crate::mode::Mode;
use crate::names::{Node, Row, Txn};
use crate::sys::awaited::{Asks, HasEnds, OnEnd, Sought, Waits};
use crate::sys::begun::Begins;
use crate::sys::shared::{Until, KEEP_NOTHING};
use crate::sys::{numbers, Reply, IN_USE};
use std::ffi::c_void;

// SAFETY: these are the calls of the header, and their types have the layout of its types. The word of an ask is a number.
// Those with a transaction are as the others of a group.
unsafe extern "C" {
    fn bs_group_on_end(group: &Shared, function: OnEnd, context: *const c_void) -> Reply;
    fn bs_group_ask_path(
        group: &Shared,
        txn: Txn,
        node: Node,
        mode: u32,
        until: Until<'_>,
        word: usize,
    ) -> Reply;
    fn bs_group_ask_row_path(
        group: &Shared,
        txn: Txn,
        file: Node,
        number: u64,
        keys: *const u64,
        count: usize,
        mode: u32,
        until: Until<'_>,
        word: usize,
    ) -> Reply;
    pub(super) fn bs_group_await(group: &Shared, txn: Txn, until: Until<'_>) -> Reply;
    fn bs_group_ask_await(group: &Shared, txn: Txn, until: Until<'_>, word: usize) -> Reply;
    safe fn bs_group_ask_begin_again(
        group: &Shared,
        since: u64,
        until: Until<'_>,
        word: usize,
    ) -> Reply;
    safe fn bs_group_cancel_begin(group: &Shared, word: usize) -> Reply;
}

impl HasEnds for Shared {
    unsafe fn on_end(&self, function: OnEnd, context: *const c_void) -> Reply {
        // SAFETY: the function does what the header asks of it, and its context is there for each of its calls.
        unsafe { bs_group_on_end(self, function, context) }
    }
}

impl Begins for Shared {
    fn ask_begin(&self, since: u64, word: usize) -> Reply {
        bs_group_ask_begin_again(self, since, None, word)
    }

    fn cancel_begin(&self, word: usize) -> Reply {
        bs_group_cancel_begin(self, word)
    }

    fn abort(&self, txn: Txn) {
        // SAFETY: nobody else has the transaction.
        unsafe { bs_group_abort(self, txn) };
    }
}

impl Asks for Transaction<'_> {
    fn name(&self) -> Txn {
        self.name
    }

    fn waits(&self) -> &Waits {
        self.owner.shared().waits()
    }

    fn asked(&mut self) -> &mut usize {
        &mut self.asked
    }

    fn has_parts(&self) -> bool {
        true
    }

    /// Each lock of a group is with what must be held above.
    fn request(&mut self, sought: Sought<'_>, until: Until<'_>, word: usize) -> Reply {
        let (group, txn) = (self.shared(), self.name);
        match sought {
            // SAFETY: no other thread is in a call of this transaction.
            Sought::Node(node, mode) | Sought::Path(node, mode) => unsafe {
                bs_group_ask_path(group, txn, node, mode, until, word)
            },
            Sought::Row(row, keys, mode) | Sought::RowPath(row, keys, mode) => {
                let (Row { file, number }, start, count) = (row, numbers(keys), keys.len());
                // SAFETY: no other thread is in a call of this transaction, and the count is the list's own.
                unsafe {
                    bs_group_ask_row_path(group, txn, file, number, start, count, mode, until, word)
                }
            }
            // SAFETY: no other thread is in a call of this transaction.
            Sought::Left(..) => unsafe { bs_group_ask_await(group, txn, until, word) },
        }
    }

    fn try_nowhere(&mut self, node: Node) -> Reply {
        let (group, mode) = (self.shared(), Mode::S as u32);
        // SAFETY: no other thread is in a call of this transaction.
        unsafe { bs_group_try_path(group, self.name, node, mode, KEEP_NOTHING) }
    }

    fn cancel(&mut self) -> Reply {
        bs_group_cancel(&self.call(), self.name)
    }

    fn abort_now(&mut self) -> Reply {
        // SAFETY: no other thread is in a call of this transaction.
        unsafe { bs_group_abort(&self.call(), self.name) }
    }

    /// A call that names no transaction is refused if the thread may not sleep.
    fn may_sleep(&self) -> bool {
        // SAFETY: it is a call of no transaction.
        unsafe { bs_group_await(self.shared(), Txn::NONE, None) }.status != IN_USE
    }
}
