/*
 * burlapslate_splits.h: intervals of an index that are split and merged, for C and C++: so the ranges of a lock table
 * follow the leaves of an engine's tree; and an index of a file that has records. What burlapslate.h and
 * burlapslate_shared.h require of callers holds here too.
 */
#ifndef BURLAPSLATE_SPLITS_H
#define BURLAPSLATE_SPLITS_H

#include "burlapslate_shared.h"

#ifdef __cplusplus
extern "C" {
#endif

/* Splits an interval of an index in two: it keeps its keys below `at`, and a new interval, which the answer names in
 * `node`, has those from `at` on. The transaction holds the interval in X, and from then on the new one too; the new
 * one is the last of its locks. The records of the file get the intervals of their keys, and no effective mode is
 * another. The places of the later intervals of the index rise by one. Each waiter for the interval is told
 * BS_TOLD_MOVED, and may ask again. A range is never split under its reader: if another transaction holds the
 * interval, the X waits, and an engine that cannot wait tries it and leaves the range as it is.
 * Refused, in this order, with BS_WORN_OUT, BS_NO_SUCH_TXN, BS_TXN_WAITING, BS_TXN_CONDEMNED, BS_NO_SUCH_NODE,
 * BS_BAD_PARENTS (no interval), BS_NEED_EXCLUSIVE, BS_BAD_KEYS (`at` is not above the first key of the interval and
 * below its end, or the index has as many bounds as it may have), BS_TOO_MANY_NODES, BS_NO_MEMORY. Costs a step for
 * each node that the manager can have had at once, and for each lock of a transaction that locked something below. */
static inline bs_reply bs_split(bs_manager *manager, bs_txn txn, bs_node interval, uint64_t at, bs_notices *told) {
  return bs_call_lacks(manager, told) ? bs_call_null() : bs_call_split(manager, txn, interval, at, told);
}

/* Merges an interval of an index with the next one: it has the keys of both, and the next one is gone, with its locks.
 * The transaction holds both in X. The records get the intervals of their keys, and no effective mode is another. The
 * places of the later intervals fall by one. Each waiter for the next one is told BS_TOLD_GONE.
 * Refused, in this order, with BS_WORN_OUT, BS_NO_SUCH_TXN, BS_TXN_WAITING, BS_TXN_CONDEMNED, BS_NO_SUCH_NODE,
 * BS_BAD_PARENTS (no interval, or the last of its index), BS_NEED_EXCLUSIVE, BS_NO_MEMORY. Costs as bs_split. */
static inline bs_reply bs_merge(bs_manager *manager, bs_txn txn, bs_node interval, bs_notices *told) {
  return bs_call_lacks(manager, told) ? bs_call_null() : bs_call_merge(manager, txn, interval, told);
}

/* The same of a table that threads share. In a list of commands they are BS_DO_SPLIT, with the interval as its `node`
 * and `at` as its `key`, and BS_DO_MERGE. */
bs_reply bs_table_split(bs_table *table, bs_txn txn, bs_node interval, uint64_t at, bs_notices *told);
bs_reply bs_table_merge(bs_table *table, bs_txn txn, bs_node interval, bs_notices *told);

/* Makes an index, in `node`, of a file beside its records, as bs_index_by makes one of a file that has none. `records`
 * names all records of the file in order of birth, by which their names have a rising `birth`; it is the order of their
 * inserts. The library lists no records: the engine keeps the names that its inserts were answered. Each record gets
 * the key at its place in `keys` as its last key, and the interval of that key as its last parent. Without records it
 * is bs_index_by.
 * The transaction must hold BS_X on the file and on each index of the file, and BS_IX or more on each parent of the new
 * index, each by a lock on that node itself. So nobody else reads or writes a record. It may hold none itself: release
 * them first, under these locks. It holds the new index in BS_X from then on, so nobody locks by it until it ends.
 * Notifies nobody. The records of a file of rows are the nodes that its rows have now: none, if no row is locked.
 * Refused, in this order, with BS_WORN_OUT, BS_NO_SUCH_TXN, BS_TXN_WAITING, BS_TXN_CONDEMNED, BS_NO_SUCH_NODE,
 * BS_BAD_PARENTS (also if the file has 7 indexes), BS_NEED_EXCLUSIVE, BS_NEED_PARENTS, BS_FILE_IN_USE (the transaction
 * holds a record), BS_BAD_KEYS (the bounds; or a record is missing, named twice or out of order, or a name is not of a
 * record of the file), BS_TOO_MANY_NODES (its intervals count), BS_NO_MEMORY. With BS_BAD_NUMBER, first of all, if there
 * are more than 8 parents; BS_NO_MEMORY may come before all others. Nothing has changed then. Takes memory. Costs a step
 * for each bound and each record. */
static inline bs_reply bs_index_records(bs_manager *manager, bs_txn txn, const bs_node *parents, size_t count,
                                        bs_node file, const uint64_t *bounds, size_t bound_count,
                                        const bs_node *records, const uint64_t *keys, size_t record_count) {
  if (manager == NULL || (parents == NULL && count != 0) || (bounds == NULL && bound_count != 0)) return bs_call_null();
  if ((records == NULL || keys == NULL) && record_count != 0) return bs_call_null();
  return bs_call_index_by(manager, txn, bs_call_nodes(parents), count, file, bs_call_numbers(bounds), bound_count,
                          bs_call_nodes(records), record_count, bs_call_numbers(keys), record_count);
}

/* The same of a table that threads share; lists of commands have no such command. A path to a record that waits for the
 * file acquires the record's new interval too, after its grant. One to a row by number ends with BS_BAD_KEYS then, also
 * after bs_table_index_by: it has no key for the new index. While the table is traced (bs_table_trace), a call that
 * names records is refused with BS_NOT_WRITTEN, whatever else is wrong with it: a trace has no line for it. */
bs_reply bs_table_index_records(bs_table *table, bs_txn txn, const bs_node *parents, size_t count, bs_node file,
                                const uint64_t *bounds, size_t bound_count, const bs_node *records,
                                const uint64_t *keys, size_t record_count);

#ifdef __cplusplus
}
#endif

#endif
