/*
 * burlapslate_rows.h: a row or a record with all that must be held above it, in one call; and lists that name the nodes
 * that they make. For C and C++. What burlapslate_shared.h requires of callers holds here too, and so does what it says of a null
 * table, one that was ended, and one that this thread holds.
 */
#ifndef BURLAPSLATE_ROWS_H
#define BURLAPSLATE_ROWS_H

#include "burlapslate_shared.h"

#ifdef __cplusplus
extern "C" {
#endif

/* Locks a row as bs_table_lock_row, with what must be held above it, as bs_table_lock_path locks it: a writer's IX on
 * the file and on the interval of each key; a reader's IS on the file, unless it has one of these. It sleeps for each
 * lock that must wait. If the row gets other keys meanwhile, it goes on with those. So BS_NEED_PARENTS and BS_MOVED are
 * not answered. BS_OTHER_KEYS: the row is held, and its keys are not those of the call, so look at them again. Otherwise
 * it answers as the first lock that was refused or came to nothing; what was locked before that stays locked. BS_GONE:
 * the row, or a node above it for which it waited, was deleted or dropped. After BS_TIMED_OUT the row is let go.
 * BS_NOT_ROWS also if the file was dropped meanwhile. */
bs_reply bs_table_lock_row_path(bs_table *table, bs_txn txn, bs_node file, uint64_t number, const uint64_t *keys,
                                size_t count, bs_mode mode, const struct timespec *until);

/* The same without a wait: each lock is tried, as by bs_table_try_row and bs_table_try_path. BS_WOULD_BLOCK: `node` is
 * the row's node, or one above it. `keep` is what a refused call keeps of what it acquired, of enum bs_keeps. */
bs_reply bs_table_try_row_path(bs_table *table, bs_txn txn, bs_node file, uint64_t number, const uint64_t *keys,
                               size_t count, bs_mode mode, uint32_t keep);

/* The same as an ask, as bs_table_ask_row: if a lock waits, it answers BS_WAITING, with the node for which it waits, and
 * the end comes by a callback with `word`. */
bs_reply bs_table_ask_row_path(bs_table *table, bs_txn txn, bs_node file, uint64_t number, const uint64_t *keys,
                               size_t count, bs_mode mode, const struct timespec *until, void *word);

/* Inserts a record as bs_table_insert, with what must be held above it: BS_IX on the file and on the interval of each
 * key, each tried as by bs_table_try_path. It never sleeps. Under an index that the transaction holds in BS_X nothing is
 * to be locked before. BS_WOULD_BLOCK: `node` is above the record. `keep` is as in bs_table_try_row_path. */
bs_reply bs_table_insert_path(bs_table *table, bs_txn txn, bs_node file, const uint64_t *keys, size_t count,
                              uint32_t keep);

/* In a list, the node in the reply of the command at this place, which comes before: one that it made, or the node of a
 * row. It may be a command's `node`, `file` or `index`, and each of its `parents`, if these are no more than
 * BS_MOST_PARENTS. If the place does not come before, or that reply has no node, it names none: BS_NO_SUCH_NODE, or
 * BS_NOT_ROWS as the file of a row. Places count from the first command of the call: if a list is run again from a later
 * command on, write the nodes of the earlier ones instead. */
static inline bs_node bs_made(size_t place) {
  bs_node node = { place, UINT64_MAX };
  return node;
}

#ifdef __cplusplus
}
#endif

#endif
