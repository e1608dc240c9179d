/*
 * burlapslate_group.h: a group of tables that work as one, for C and C++. A table of burlapslate_shared.h has one latch;
 * the parts of a group have one each. So threads that work in different parts do not wait for each other's calls.
 *
 * A group has a main table and 1 to 63 parts. Its inner nodes (a database, areas) are in all of them. A file is in one
 * part, with its indexes, their intervals and its records. A transaction of the group locks nodes of any parts. It is in
 * a table only from its first call there on.
 *
 * A lock on a file or below it is made in its part alone, with the intentions above it. More than an intention on an
 * inner node (BS_S, BS_SIX, BS_X) is requested in the main table, after a visit of each part: from then on, until the
 * last such lock of the node is over, who locks below it acquires the intention in the main table first. So such a lock
 * costs two visits of each part that was used since the one before, and as long as it lasts each transaction that comes
 * below it costs a call of the main table more, which takes memory if more than 32 nodes are above. After it the first
 * path in a part that was not used costs the main table's latch. It is for what is rare: a backup, a change of the schema.
 * What is locked below conflicts with it as in one table; a group is one lock manager, with the rules of burlapslate.h.
 * Two things differ. To read by a node that has several inner nodes as parents, a transaction needs the first of them,
 * also if it has BS_S or more on another. And a lock of an inner node in BS_IS or BS_IX is made in the main table: none
 * is needed, since locks below bring their own.
 *
 * SPREAD FILES. A spread file has its rows in all parts, so that threads that lock rows of one file work in different
 * parts too. It is an inner node with a file of rows below it in each part. Its rows are dealt to the parts by their
 * numbers: each part has an even share, also of rows that follow each other. Calls about a row take the name of the
 * spread file, and are made in the row's part. To lock all rows, lock the spread file itself, as any inner node. It has
 * no indexes, its rows have no keys, and no other node is made below it. Its file in one part, which
 * bs_group_file_of_row names, can be locked and escalated alone. A transaction acquires the intentions above its rows in
 * each of their parts, unless they were kept there (bs_group_keep): without that, short transactions cost twice as much.
 *
 * WHAT YOU KEEP. What burlapslate_shared.h asks of pointers, memory and threads holds here too. The calls of one
 * transaction, its commit and its abort among them, come from one thread at a time. Names of nodes and transactions are
 * the group's own: use them with no table and no other group.
 *
 * WHAT A CALL ANSWERS. A call answers as the call of a table that has its name (`bs_table_` for `bs_group_`), and is
 * refused as that, after these:
 *   - BS_NULL_POINTER;
 *   - BS_BAD_NUMBER: a mode that is none of enum bs_modes, BS_INSTANT among them if the call does not take it, a time
 *     that is not valid, or a `keep` that is none of enum bs_keeps;
 *   - BS_IN_USE: this thread holds a table, of the group or another; or the call may sleep, or ends the group, and the
 *     thread is in a callback;
 *   - BS_NO_MANAGER: the group was ended;
 *   - BS_NO_SUCH_TXN, BS_TXN_WAITING, of a call with a transaction;
 *   - BS_TXN_CONDEMNED: the transaction fell, to end a deadlock, and can only abort;
 *   - BS_NO_SUCH_NODE: the name names no table of the group, or no node there.
 * An inner node in place of a file, an index, an interval or a record is refused with BS_BAD_PARENTS, or, as a file of
 * rows, with BS_NOT_ROWS. So is a spread file, except as the file of a row; as a parent it is refused with
 * BS_BAD_PARENTS, and a record of it with BS_ROWS_BY_NUMBER, as of any file of rows. Its file in a part is refused with
 * BS_NOT_ROWS as the file of a row, and with BS_BAD_PARENTS by the calls that would drop it or give it an index. Two
 * tables share no node but the inner ones: an index of another part than its file's, for example, is refused with
 * BS_NO_SUCH_NODE. A call that acquires something in the main table first can be refused after that, as for keys that
 * the file cannot have; what it acquired above the node stays.
 *
 * DEADLOCKS. A cycle of waits within one table is ended by that table, as it arises, whatever `detect` of the options is.
 * A cycle over several tables is ended by a thread that sleeps: it looks after 2 ms, and then after twice as long each
 * time, up to 256 ms, if any transaction is in two tables and no other thread has looked meanwhile. If no thread sleeps,
 * it is ended by bs_group_expire, bs_group_settle or a thread that watches. To look costs the latches of all tables, and
 * the boards of those where threads sleep. The youngest on a cycle falls, by `since`: its call is answered BS_VICTIM.
 *
 * KEPT INTENTIONS. A transaction mostly needs the intentions that the one before it in its thread had. After
 * bs_group_keep a commit keeps them in each part for the next transaction of its slot. They rest there, by the rules of
 * a session (burlapslate_session.h), and are released as soon as they block a request. The slot's next transaction takes
 * them up with its first call in the part. Then it may hold an intention that it has not requested, and others may wait
 * for that until it ends. What rests belongs to no transaction of the group, and its slot is free.
 *
 * COSTS. A call costs what that of a table does, a begin no latch at all. A transaction in several parts ends in one
 * after the other: what it has released in one can be had by others before it ends in the next.
 */
#ifndef BURLAPSLATE_GROUP_H
#define BURLAPSLATE_GROUP_H

#include "burlapslate_shared.h"

#if SIZE_MAX < UINT64_MAX
#error "burlapslate_group.h takes a size_t of 64 bits: a name has the number of a table in the upper half of its key"
#endif

#ifdef __cplusplus
extern "C" {
#endif

/* A group, which callers know by pointer alone. */
typedef struct bs_table_group bs_table_group;

/* How many parts a group can have. */
enum { BS_MOST_PARTS = 63 };

/* A savepoint of a transaction: one in each part, by the part's number. */
typedef struct bs_group_savepoint {
  uint64_t at[BS_MOST_PARTS + 1];
} bs_group_savepoint;

/* The table of a node, by its number: 0 is the main one, which has the inner nodes; the parts are numbered from 1. */
static inline uint32_t bs_group_table(bs_node node) {
  return (uint32_t)((uint64_t)node.key >> 32);
}

/* ------------------------------------------------------------------------------------------------
 * Groups.
 */

bs_reply bs_call_group_make(bs_table_group **group, const bs_options *options, size_t size, uint32_t parts);

/* Makes a group with so many parts, by options as bs_table_make takes them, and writes the pointer to it, which must be
 * null before. Each of its tables may have as many nodes as the options say, and the group as many transactions.
 * Refused as bs_table_make; with BS_BAD_NUMBER also if the parts are not 1 to BS_MOST_PARTS. Takes memory. */
static inline bs_reply bs_group_make(bs_table_group **group, const bs_options *options, uint32_t parts) {
  bs_status misfit = bs_call_misfit();
  if (group == NULL) return bs_call_null();
  return misfit == BS_DONE ? bs_call_group_make(group, options, sizeof *options, parts) : bs_call_only(misfit);
}

/* The group of a table with parts: for calls that a table has not, as bs_group_add_file with a part. Null for any other
 * table. */
bs_table_group *bs_table_group_of(bs_table *table);

/* Ends a group, as bs_table_end ends a table: each call from now on, and each that sleeps, is answered BS_NO_MANAGER.
 * Refused with BS_NO_MANAGER also if another thread is ending it. */
bs_reply bs_group_end(bs_table_group *group);

/* Frees the memory of a group that was ended, as bs_table_free does. */
bs_reply bs_group_free(bs_table_group **group);

/* ------------------------------------------------------------------------------------------------
 * The graph. Inner nodes do not move, and are not dropped.
 */

/* Makes an inner node, in all tables. Costs the latches of all tables at once. Refused as bs_add_inner, and with
 * BS_TOO_MANY_NODES if any table is full. After BS_NO_MEMORY some tables may keep a node that nobody can name. */
bs_reply bs_group_add_inner(bs_table_group *group, const bs_node *parents, size_t count);

/* Makes a file in this part; with 0, in each part by turns. Refused with BS_BAD_NUMBER also if there is no such part. */
bs_reply bs_group_add_file(bs_table_group *group, uint32_t part, const bs_node *parents, size_t count);
bs_reply bs_group_add_row_file(bs_table_group *group, uint32_t part, const bs_node *parents, size_t count);

/* Makes a spread file in all parts, and answers its inner node. Costs the latches of all tables at once. Refused as
 * bs_group_add_inner, and with BS_BAD_PARENTS also without parents. After BS_NO_MEMORY some tables may keep nodes that
 * nobody can name. */
bs_reply bs_group_add_spread_file(bs_table_group *group, const bs_node *parents, size_t count);

/* Makes an index in the part of its file. If it is made, each call that waits for a row of the file is answered
 * BS_BAD_KEYS: it has no key for the index. */
bs_reply bs_group_add_index(bs_table_group *group, const bs_node *parents, size_t count, bs_node file,
                            const uint64_t *bounds, size_t bound_count);

/* ------------------------------------------------------------------------------------------------
 * Transactions.
 */

/* Begins a transaction, in `txn`, without any latch. Its age is its own in the group, and greater than that of any
 * earlier one of its slot. A slot takes 64 ages at a time, so a later transaction of another slot may have a smaller
 * age, and counts as the older one: but no more than 63 of each slot do. Refused with BS_TOO_MANY_TXNS. */
bs_reply bs_group_begin(bs_table_group *group);

/* The same for work that has been tried since an earlier begin, as in bs_begin_again. */
bs_reply bs_group_begin_again(bs_table_group *group, uint64_t since);

/* The same, but if all slots are taken they sleep until they have one, as bs_table_begin_in_turn does: in order of
 * arrival. While a begin waits for a slot, those above are refused with BS_TOO_MANY_TXNS. */
bs_reply bs_group_begin_in_turn(bs_table_group *group, const struct timespec *until);
bs_reply bs_group_begin_again_in_turn(bs_table_group *group, uint64_t since, const struct timespec *until);

/* As bs_table_ask_begin, bs_table_ask_begin_again and bs_table_cancel_begin (burlapslate_session.h), in that queue. */
bs_reply bs_group_ask_begin(bs_table_group *group, const struct timespec *until, void *word);
bs_reply bs_group_ask_begin_again(bs_table_group *group, uint64_t since, const struct timespec *until, void *word);
bs_reply bs_group_cancel_begin(bs_table_group *group, const void *word);

/* As bs_table_deadline; refused with BS_TXN_WAITING also while the transaction waits by an ask or a list. Costs the
 * latches of the main table and of the transaction's parts, one after the other. */
bs_reply bs_group_deadline(bs_table_group *group, bs_txn txn, const struct timespec *until);

/* End a transaction in each of its tables, one after the other, the main one last. An abort of a transaction that waits
 * by an ask or a list first cancels that: the ask's end is told as BS_NOT_WAITING. In a callback it is refused with
 * BS_TXN_WAITING if that end is told only after the callback. */
bs_reply bs_group_commit(bs_table_group *group, bs_txn txn);
bs_reply bs_group_abort(bs_table_group *group, bs_txn txn);

/* Commits a transaction, and begins the next one in its slot, as bs_group_begin_again. */
bs_reply bs_group_renew(bs_table_group *group, bs_txn txn, uint64_t since);

/* Cancels the wait of a transaction, of any thread: its call or ask ends with BS_NOT_WAITING. The answer is
 * BS_NOT_WAITING if it waits in no table. A thread that sleeps for a path may be between two tables, and is not found
 * then; an ask is. An ask whose end is told at this moment may be answered BS_DONE. Costs the latch of each table up to
 * that where it waits. */
bs_reply bs_group_cancel(bs_table_group *group, bs_txn txn);

/* From now on a commit keeps, in each part that its transaction has joined, the first locks there that are intentions
 * (BS_IS, BS_IX), at most so many; 16 is usual. With 0, as at first, commits keep nothing, and this call releases what
 * rests.
 *   - A commit keeps nothing in a part while an inner node is locked in more than an intention, or is requested so. Such
 *     a request first releases all that rests in the group.
 *   - An abort keeps nothing.
 *   - A transaction that began again, with a `since` below its age, takes nothing up: its first call in a part releases
 *     what rests there for its slot.
 *   - When a victim is chosen within a part, a transaction that took something up there counts as one that began at the
 *     commit that kept it. It may count as older than any that came to the part after that commit.
 * It costs the latch of each part, one after the other. */
bs_reply bs_group_keep(bs_table_group *group, uint32_t most);

/* ------------------------------------------------------------------------------------------------
 * Locks.
 */

/* As bs_table_lock_path, of any node. If it is a file or below one, and an inner node above it is locked in more than an
 * intention, or somebody waits for that, it may sleep in the main table first. A mode of more than an intention on an
 * inner node is the one that the main table grants: what the transaction has there alone, it keeps until it ends. A node
 * that is no inner one is also locked for an instant (BS_INSTANT). */
bs_reply bs_group_lock_path(bs_table_group *group, bs_txn txn, bs_node node, bs_mode mode,
                            const struct timespec *until);

/* As bs_table_lock_row_path. `file` may be a spread file here, and in each call about a row. */
bs_reply bs_group_lock_row_path(bs_table_group *group, bs_txn txn, bs_node file, uint64_t number, const uint64_t *keys,
                                size_t count, bs_mode mode, const struct timespec *until);

/* The same by tries, as bs_table_try_path and bs_table_try_row_path: they never sleep. BS_WOULD_BLOCK: `node` is the one
 * that cannot be had at once. `keep` is about the table of the node; what a path to another node got in the main table
 * stays. */
bs_reply bs_group_try_path(bs_table_group *group, bs_txn txn, bs_node node, bs_mode mode, uint32_t keep);
bs_reply bs_group_try_row_path(bs_table_group *group, bs_txn txn, bs_node file, uint64_t number, const uint64_t *keys,
                               size_t count, bs_mode mode, uint32_t keep);

/* As bs_table_unlock, of a node that is not an inner one. */
bs_reply bs_group_unlock(bs_table_group *group, bs_txn txn, bs_node node);
bs_reply bs_group_unlock_row(bs_table_group *group, bs_txn txn, bs_node file, uint64_t number);

/* As bs_table_escalate, of a file, an index or an interval; refused with BS_BAD_PARENTS also for an inner node. In place
 * of a spread file, escalate its files in parts, or lock the spread file itself in BS_S or BS_X. */
bs_reply bs_group_escalate(bs_table_group *group, bs_txn txn, bs_node node);

/* Writes a savepoint of a transaction: for each part that it has joined, what bs_mark answers there. It is valid as long
 * as bs_mark says. Costs the latches of these parts, one after the other. Refused with BS_NULL_POINTER also if
 * `savepoint` is null. */
bs_reply bs_group_mark(bs_table_group *group, bs_txn txn, bs_group_savepoint *savepoint);

/* Rolls back to a savepoint in each part, as bs_release_since. In a part that the transaction has joined since, it
 * releases everything, also what was taken up there (bs_group_keep). `count` is how many nodes were released. What the
 * transaction has in the main table stays until it ends: locks of inner nodes, and the intentions that locks in parts
 * needed. If a part refuses, the others are rolled back all the same. Costs the latches of its parts, one after the
 * other. Refused with BS_NULL_POINTER also if `savepoint` is null. */
bs_reply bs_group_release_since(bs_table_group *group, bs_txn txn, const bs_group_savepoint *savepoint);

/* ------------------------------------------------------------------------------------------------
 * Records.
 */

/* As bs_table_insert_path: it never sleeps, and tries what it lacks above the record, also in the main table.
 * BS_WOULD_BLOCK: `node` is the one that cannot be had at once. If it is refused, it keeps nothing of what it got in the
 * part, but what it got in the main table stays. */
bs_reply bs_group_insert(bs_table_group *group, bs_txn txn, bs_node file, const uint64_t *keys, size_t count);

/* As the calls of a table: what they need must be held, and they request nothing. */
bs_reply bs_group_delete(bs_table_group *group, bs_txn txn, bs_node record);
bs_reply bs_group_rekey(bs_table_group *group, bs_txn txn, bs_node record, bs_node index, uint64_t key);
bs_reply bs_group_rekey_row(bs_table_group *group, bs_txn txn, bs_node file, uint64_t number, bs_node index,
                            uint64_t key);
bs_reply bs_group_adopt(bs_table_group *group, bs_node file, const uint64_t *keys, size_t count);
bs_reply bs_group_forget(bs_table_group *group, bs_node record);

/* ------------------------------------------------------------------------------------------------
 * Asks and lists: a transaction waits, and no thread sleeps for it. Until the end it may request nothing, and calls that
 * name it are refused with BS_TXN_WAITING, except bs_group_cancel, bs_group_abort, bs_group_settle, bs_group_await and
 * bs_group_ask_await.
 */

/* As bs_table_on_end: gives the group its callback, which may make any call of a group that does not sleep. */
bs_reply bs_group_on_end(bs_table_group *group, void (*function)(void *context, bs_txn txn, bs_reply end, void *word),
                         void *context);

/* As bs_table_ask_path and bs_table_ask_row_path. What must be had in the main table first is asked for there, and the
 * thread that ends that wait goes on in the part. BS_WAITING: `node` is the one for which it waits. BS_NO_MEMORY comes
 * after all refusals that the transaction and the arguments give. */
bs_reply bs_group_ask_path(bs_table_group *group, bs_txn txn, bs_node node, bs_mode mode, const struct timespec *until,
                           void *word);
bs_reply bs_group_ask_row_path(bs_table_group *group, bs_txn txn, bs_node file, uint64_t number, const uint64_t *keys,
                               size_t count, bs_mode mode, const struct timespec *until, void *word);

/* As bs_table_expire, in each table. It also looks for deadlocks over several tables, if nobody did in the last 2 ms: so
 * a program without a thread that sleeps or watches makes this call now and then. */
bs_reply bs_group_expire(bs_table_group *group, struct timespec *next);

/* Ends all deadlocks over several tables, that of this transaction among them; `count` is how many fell. Those of one
 * table have been ended as they arose. Costs the latches of all tables. Refused with BS_NO_SUCH_TXN. */
bs_reply bs_group_settle(bs_table_group *group, bs_txn txn);

/* Starts a thread that looks for deadlocks over several tables each `pace` nanoseconds, until the group ends; 0 stands for
 * 2 ms. Refused with BS_IN_USE if the group has one, and with BS_NO_MEMORY if it cannot be started. */
bs_reply bs_group_watch_thread(bs_table_group *group, uint64_t pace);

bs_reply bs_call_group_watch(bs_table_group *group, bs_watcher *watcher);

/* As bs_table_watch: makes a watcher of all tables, with the names of the group. A board is joined of those that the
 * tables have shown last, each whole, and of its own moment; its epoch is the sum of theirs. It shows each present wait,
 * but may also show a cycle that never was. So settle a suspect (bs_group_settle): that looks again with the latches, and
 * ends what is a cycle by then. The watcher can be used after the group was freed. Takes memory. */
static inline bs_reply bs_group_watch(bs_table_group *group, bs_watcher *watcher) {
  bs_status misfit = bs_call_misfit();
  if (group == NULL || watcher == NULL) return bs_call_null();
  return misfit == BS_DONE ? bs_call_group_watch(group, watcher) : bs_call_only(misfit);
}

/* As bs_table_run, but each command is a critical section of its own, in the tables that it needs. BS_DO_LOCK and
 * BS_DO_LOCK_ROW also lock what must be held above, as BS_DO_TRY and BS_DO_TRY_ROW do: these keep nothing if they are
 * refused. So does BS_DO_INSERT_PATH, whatever its `keep` is. A new file is in each part by turns. `told` is emptied.
 * BS_DO_MARK and BS_DO_RELEASE_SINCE have a number for a
 * savepoint of all parts, as bs_table_mark of a table with parts. A lock that is left waiting goes on by itself. */
size_t bs_group_run(bs_table_group *group, bs_command *commands, size_t count);

/* Sleeps until the end of the lock that a list of the transaction has left waiting, and answers it; after that it answers
 * the same up to the transaction's next list or ask. After BS_DONE run the list again from the next command on.
 * BS_TIMED_OUT: the time or the transaction's deadline came first, and the wait was cancelled. BS_NOT_WAITING: no list has left it waiting. */
bs_reply bs_group_await(bs_table_group *group, bs_txn txn, const struct timespec *until);

/* The same without a sleep: if it still waits, the answer is BS_WAITING, and its end comes by a callback. BS_TIMED_OUT:
 * bs_group_expire was called at `until` or later. Refused with BS_IN_USE if it is an ask or its end was asked for. */
bs_reply bs_group_ask_await(bs_table_group *group, bs_txn txn, const struct timespec *until, void *word);

/* As bs_table_try_first, with each try a critical section of its own. */
size_t bs_group_try_first(bs_table_group *group, bs_command *commands, size_t count);

/* ------------------------------------------------------------------------------------------------
 * Changes of the schema within a part, and intervals that are split and merged (burlapslate_splits.h).
 */

/* As bs_table_drop, of a file or an index. */
bs_reply bs_group_drop(bs_table_group *group, bs_txn txn, bs_node node);

/* As bs_table_move, of a file or an index, which stays in its part. If it lacks BS_IX on a new parent in the part, the
 * call tries that, as bs_group_index_by does. If the transaction has BS_X on all old and new parents, but not on the node,
 * it acquires that too, at once. If the call is refused, what it acquired stays. If it is done, each call that waits in
 * the part for the node, or for something below it, begins anew, and so comes last where it waits. */
bs_reply bs_group_move(bs_table_group *group, bs_txn txn, bs_node node, const bs_node *parents, size_t count);

/* As bs_table_index_by: the transaction must hold BS_X on the file. If it lacks BS_IX on a parent in the part, the call
 * tries that, as bs_group_insert does: also in the main table, if the parent or a node above it is locked or requested
 * there in more than an intention. So the call never sleeps. BS_WOULD_BLOCK: `node` is the one that cannot be had at
 * once. To wait for it, lock the parent in BS_IX by bs_group_lock_path, and call again. If the call is refused, the
 * intentions that it acquired stay. If it is done, calls that wait for rows of the file end as by bs_group_add_index. */
bs_reply bs_group_index_by(bs_table_group *group, bs_txn txn, const bs_node *parents, size_t count, bs_node file,
                           const uint64_t *bounds, size_t bound_count);

/* As bs_table_index_records: `records` are names of the group, and one of another part is refused with BS_BAD_KEYS. The
 * transaction must hold BS_X on the file and on each index of it; a parent that it lacks, and sleeps for rows, are as of
 * bs_group_index_by. A path that sleeps to write a record of the file begins anew. Takes memory for the names too. */
bs_reply bs_group_index_records(bs_table_group *group, bs_txn txn, const bs_node *parents, size_t count, bs_node file,
                                const uint64_t *bounds, size_t bound_count, const bs_node *records,
                                const uint64_t *keys, size_t record_count);

/* As bs_table_split and bs_table_merge. */
bs_reply bs_group_split(bs_table_group *group, bs_txn txn, bs_node interval, uint64_t at);
bs_reply bs_group_merge(bs_table_group *group, bs_txn txn, bs_node interval);

/* ------------------------------------------------------------------------------------------------
 * Questions.
 */

/* The mode in which a transaction holds a node, in `mode`: of an inner node the supremum of what it has in all tables,
 * with what it has taken up there (bs_group_keep).
 * Of an inner node it costs the latches of the main table and of the transaction's parts, one after the other; of
 * another node that of its part. Also of a transaction that fell. Refused with BS_NO_SUCH_TXN, BS_NO_SUCH_NODE. */
bs_reply bs_group_held(bs_table_group *group, bs_txn txn, bs_node node);

/* The file in a part that has a row of a spread file, by the row's number, in `node`. It can be locked, tried, unlocked
 * and escalated, for the rows of that part. Costs no latch. Refused with BS_NOT_ROWS if `file` is no spread file. */
bs_reply bs_group_file_of_row(bs_table_group *group, bs_node file, uint64_t number);

/* What the tables of the group have done since it was made, written into `counts`: the sums of what bs_counters tells
 * of each; `most_waiting` and `longest_queue` are the greatest of one table. Copies in the main table count too. Costs
 * the latch of each table, one after the other. Refused with BS_NULL_POINTER also if `counts` is null. */
bs_reply bs_group_counters(bs_table_group *group, bs_counts *counts);

/* Acquires the latch of a table of the group, by its number, and lends its manager, as bs_table_hold does: for questions
 * of one table. Null also if this thread holds a table already. The manager has names of its own: of nodes, as the two
 * calls below say, and of transactions, which have the slot of the group's, but another age (bs_living). One that rests
 * (bs_group_keep) is a transaction there. */
const bs_manager *bs_group_hold(bs_table_group *group, uint32_t table);
bs_reply bs_group_let_go(bs_table_group *group, uint32_t table);

/* The name in this table of a node of the group, in `node`; and the name in the group of a node of this table. This
 * thread may hold the table; it may hold no other. Refused with BS_BAD_NUMBER, first of all, if there is no such table,
 * and with BS_NO_SUCH_NODE if the node is not there. A name of a node that is not an inner one is translated whether it
 * names a node or not. Costs a look-up, and the latch of the table if this thread does not hold it. */
bs_reply bs_group_name_in(bs_table_group *group, bs_node node, uint32_t table);
bs_reply bs_group_name_of(bs_table_group *group, bs_node node, uint32_t table);

#ifdef __cplusplus
}
#endif

#endif
