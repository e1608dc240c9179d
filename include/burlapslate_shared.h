/*
 * burlapslate_shared.h: a table of granular locks that threads share, for C and C++.
 *
 * A bs_table is a manager of burlapslate.h with one mutex, its latch, and a condition variable for each slot. Any
 * thread may call it. A call whose lock must wait sleeps until the lock is granted, or never will be; each call that
 * ends a wait wakes the thread that sleeps for it. If there are more threads than slots, a begin can sleep too.
 *
 * What this header declares is compiled in the library. If the compiler keeps to ISO C (-std=c99), define
 * _POSIX_C_SOURCE as 200809L before the first header of the program, or _DEFAULT_SOURCE, as pkg-config's flags do.
 *
 * WHO MAY CALL WHEN. Any thread may make any call with a table at any time, except bs_table_free. The calls of one
 * transaction must come from one thread at a time, as for any transaction; what another thread may do to it is said
 * below. A call holds the latch for as long as it takes, but never in a sleep. No call may be made from a signal
 * handler, or from the forked child of a process with threads, and nothing may end a thread within a call. A deferred
 * pthread_cancel, which is the default, does not: a thread that sleeps in a call sleeps on, and ends after the call.
 *
 * WHAT YOU KEEP. What burlapslate.h asks of pointers, lists and the allocator, and also:
 *   - a pointer to a table, which is null before bs_table_make; threads may have copies of it;
 *   - the table's memory, which lasts until bs_table_free, even after bs_table_end: join the threads in between;
 *   - names of transactions and nodes, which are valid with the table that gave them.
 *
 * WHAT A CALL ANSWERS. A call answers as the call of burlapslate.h that has its name without `table_`. There is one
 * more status, BS_TIMED_OUT, and BS_NOT_MADE for a command of a list that was not made. What that header says of
 * refusals, memory and costs holds here too. A call is one critical section: no other thread's steps come between its
 * own. If it sleeps, other threads use the table meanwhile. A call answers after all that it set off in that critical
 * section: if its own wait has ended by then, it answers that end and does not sleep. A null table is refused with
 * BS_NULL_POINTER, and one that was ended with BS_NO_MANAGER. While a thread holds a table by bs_table_hold, its calls
 * of that table except bs_table_let_go are refused with BS_IN_USE, and so are its calls of any table that could sleep:
 * the thread would keep the latch. A call with `told` fills it if it is not null: with the notices of its command, and
 * of what goes on by that, each transaction once. Sleepers are woken in any case.
 *
 * HOW LONG A SLEEP IS. A call that may sleep takes `until`, the time by CLOCK_MONOTONIC up to which it sleeps at most;
 * bs_after gives one. If it is null, the call sleeps until the end. If it is not a valid time, the call is refused with
 * BS_BAD_NUMBER.
 *
 * HOW A WAIT GOES ON. The call that ends a wait continues it, in its own critical section, before it answers: a path
 * that was granted a node asks for the next, a row that was granted is asked for again, and a lock for an instant is
 * given back. If that ends other waits, these go on too, by rising slots. So a thread that sleeps is woken at the end of
 * its request.
 *
 * HOW A SLEEP ENDS. The thread that sleeps for a lock is answered
 *   - BS_DONE: it was granted, and is held in `mode`; for a row BS_OTHER_KEYS, if its keys are others than was said;
 *   - BS_VICTIM: the transaction was condemned to end a deadlock, by a lock or a settle, and can only abort;
 *   - BS_MOVED, BS_GONE: the node moved, or is gone, by another transaction's rekey, move, delete or drop;
 *   - BS_TIMED_OUT: its time came first; the wait was cancelled, and the transaction is active;
 *   - BS_NOT_WAITING: another thread cancelled the wait by bs_table_cancel; the transaction is active;
 *   - BS_NO_SUCH_TXN: another thread ended the transaction by bs_table_abort;
 *   - BS_NO_MANAGER: bs_table_end was called.
 * A grant that came before the sleeper acquired the latch again is a grant, even if its time was over by then. A thread
 * that sleeps for a slot is answered as bs_table_begin_in_turn says, and BS_NO_MANAGER if the table ends.
 *
 * WAITS WITHOUT A SLEEPING THREAD. An event loop asks: bs_table_ask and its like answer at once, with BS_WAITING if the
 * lock waits. The table tells how such a wait ends by a call of the engine's function, its callback, which the engine
 * gives by bs_table_on_end. The call has the transaction, the reply that a sleeper would be answered, and the word that
 * was given with the ask.
 *   - An ask that was answered BS_WAITING has one such call, and no other ask has any. Its wait ends as a sleep does.
 *   - The thread that ended the wait makes the call, in its own call of the table, after its commands and without the
 *     latch, before it sleeps and before it returns. That may be any thread: also one that sleeps for a lock, the one
 *     that watches, or the one that ends the table. If one command ended several waits, their ends are told by rising
 *     slots. Two threads may call the callback at once.
 *   - A begin that waits for a slot is an ask too (bs_table_ask_begin in burlapslate_session.h).
 *   - An ask whose wait ends before it releases the latch for the last time is answered with that end, and has no call.
 *     So the call is never made within the ask itself. But what the caller writes after its ask may not be there yet:
 *     the word must give all that the callback needs.
 *   - No thread sleeps for the time of an ask: a thread that has a clock calls bs_table_expire.
 * THE CALLBACK may make any call of a table, also of this one, except those that could sleep, and bs_table_end: these
 * are refused with BS_IN_USE, of any table. If its calls end waits, the same thread tells these ends after it, so no
 * thread calls the callback within itself. What it holds by bs_table_hold is given back after it returns; what the
 * thread held when it was called stays held, and bs_table_let_go of that is refused with BS_IN_USE. It must return, and
 * leave in no other way; a pthread_cancel takes effect after it. It must acquire no mutex that any thread holds around
 * a call of the table. The thread whose call it is waits for it: so it must be short, as a write to an eventfd that
 * wakes the loop.
 *
 * PARTS. If `options.parts` is more than 1, a table has so many parts, with a latch each, and so serves many cores. Its
 * calls are those of the group of tables that bs_table_group_of names, and burlapslate_group.h has the rules: what is
 * locked where, what a call costs, and how deadlocks are detected, with each `detect` alike. And
 *   - bs_table_lock, bs_table_try, bs_table_ask, the like of rows, and bs_table_insert lock what must be held above too;
 *   - each command of a list is a critical section of its own, and what a list has left waiting goes on by itself:
 *     bs_table_await and bs_table_ask_await await its end, whatever node and mode they are given;
 *   - `told` is emptied;
 *   - a savepoint takes memory, and a rollback keeps what the transaction has in the main table;
 *   - a session keeps intentions as bs_group_keep does, at least as many as it says;
 *   - bs_table_hold lends nothing; bs_group_hold lends the manager of a part;
 *   - what is told of all parts is of one moment in each part alone, and bs_table_metrics counts inner nodes in each;
 *   - a watcher may show a cycle that never was, and bs_table_settle ends only what is one;
 *   - bs_table_move is for a file or an index, and each call that waits for it begins anew;
 *   - bs_table_on_long_wait and traces are refused with BS_IN_PARTS.
 */
#ifndef BURLAPSLATE_SHARED_H
#define BURLAPSLATE_SHARED_H

#include "burlapslate.h"

#include <time.h>

/* Otherwise undeclared functions would be taken to answer an int. */
#if !defined(CLOCK_MONOTONIC) || (defined(__GLIBC__) && !defined(__USE_XOPEN2K8))
#error "burlapslate_shared.h takes POSIX: define _DEFAULT_SOURCE, or _POSIX_C_SOURCE as 200809L, ahead of all headers"
#endif

#ifdef __cplusplus
extern "C" {
#endif

/* A table, which callers know by pointer alone. */
typedef struct bs_table bs_table;

/* ------------------------------------------------------------------------------------------------
 * Tables.
 */

/* Makes a table, by options as bs_make takes them, or with parts (see above), and writes the pointer to it, which must be null before. If it is
 * refused, it writes nothing. Refused with BS_NULL_POINTER, BS_OTHER_VERSION, BS_OTHER_SLOTS, with BS_IN_USE if the
 * pointer is not null, and with BS_BAD_NUMBER, BS_NO_MEMORY. Takes memory. */
static inline bs_reply bs_table_make(bs_table **table, const bs_options *options) {
  bs_status misfit = bs_call_misfit();
  if (table == NULL) return bs_call_null();
  return misfit == BS_DONE ? bs_call_table_make(table, options, sizeof *options) : bs_call_only(misfit);
}

/* Ends a table, whatever its transactions do. Each call that begins from now on is answered BS_NO_MANAGER, and so is
 * each that sleeps; after this call none sleeps any more, and the table's own threads have ended. The table's memory
 * stays until bs_table_free. Watchers continue, and are ended by bs_watch_end. Refused with BS_NO_MANAGER also if
 * another thread is ending the table, and with BS_IN_USE in the callback and while the thread holds a table. */
bs_reply bs_table_end(bs_table *table);

/* Frees the memory of a table that was ended, and writes null for the pointer. No other thread may be in a call with
 * it, or make one any more. Refused with BS_NULL_POINTER, also if the pointer itself is null, and with BS_IN_USE if the
 * table was not ended. */
bs_reply bs_table_free(bs_table **table);

/* ------------------------------------------------------------------------------------------------
 * The graph.
 */

bs_reply bs_table_add_inner(bs_table *table, const bs_node *parents, size_t count);
bs_reply bs_table_add_file(bs_table *table, const bs_node *parents, size_t count);
bs_reply bs_table_add_row_file(bs_table *table, const bs_node *parents, size_t count);
bs_reply bs_table_add_index(bs_table *table, const bs_node *parents, size_t count, bs_node file, const uint64_t *bounds,
                            size_t bound_count);

/* ------------------------------------------------------------------------------------------------
 * Transactions and locks.
 */

/* The time that is so many milliseconds from now, for `until`. */
struct timespec bs_after(uint64_t milliseconds);

/* As bs_begin, at once. While a begin waits for a slot, in bs_table_begin_in_turn or as an ask, no slot is free, and
 * this is refused with BS_TOO_MANY_TXNS. */
bs_reply bs_table_begin(bs_table *table);

/* As bs_begin, but never answers BS_TOO_MANY_TXNS: if all slots are taken, it sleeps until it has one. Threads that
 * sleep for a slot, and begins that are asked for, are served in order of arrival. The call that ends a transaction
 * begins the next for the first of them, in the same critical section: so none that came later is served before. If a
 * slot is free before the sleeper has acquired the latch again, it begins, even if its time is over by then. A sleeper
 * has no transaction, so it is on no cycle of waits. A thread that still has one, and sleeps for another, may wait for
 * itself, and nothing detects that. BS_TIMED_OUT: its time came first, and nothing has begun. BS_NO_MEMORY may also
 * come after a sleep. */
bs_reply bs_table_begin_in_turn(bs_table *table, const struct timespec *until);

/* As these two, for a transaction whose work has been tried since an earlier begin, as in bs_begin_again. That gives it
 * no earlier place in the queue for a slot. */
bs_reply bs_table_begin_again(bs_table *table, uint64_t since);
bs_reply bs_table_begin_again_in_turn(bs_table *table, uint64_t since, const struct timespec *until);

/* From now on each wait of a transaction for a lock ends at this time at the latest, whatever the waiting call says;
 * null removes that limit. A call that waits already keeps its time. The limit is the transaction's own: the next one
 * of its slot has none. Refused with BS_NO_SUCH_TXN, and with BS_BAD_NUMBER, before that, if it is not a valid time. */
bs_reply bs_table_deadline(bs_table *table, bs_txn txn, const struct timespec *until);

/* Joined to the mode of a lock, as in BS_X | BS_INSTANT: the lock is requested and waits as any other, and is released
 * as soon as it is granted, in the same critical section. So BS_DONE says that the lock could be had, in `mode`, and no
 * transaction found it held; the waiters after it in the queue are next. It is for keys that must be free at that
 * moment only, as the interval that a new key divides. A node that the transaction holds already is raised, and stays
 * so: no command lowers a mode. If it holds a child of the node by another parent, the node stays too, since bs_unlock
 * refuses that. What a path locks above its node stays. A grant and a release are two commands. bs_table_lock,
 * bs_table_lock_path, bs_table_try, bs_table_ask and bs_table_ask_path take it, and in a list BS_DO_LOCK,
 * BS_DO_LOCK_PATH and BS_DO_TRY. It is not a mode: all other calls refuse it with BS_BAD_NUMBER. bs_table_await takes
 * the mode without it. Only the table knows that such a lock was granted: bs_verdict of the manager that it lends
 * answers BS_NOT_WAITING. */
#define BS_INSTANT 256u

/* As bs_lock, but never answers BS_WAITING: if the lock must wait, the call sleeps until the end of the wait. */
bs_reply bs_table_lock(bs_table *table, bs_txn txn, bs_node node, bs_mode mode, const struct timespec *until);

/* Locks a node and what must be held above it, as bs_lock_path does, and sleeps for each lock that must wait. If the
 * node moves meanwhile, the call begins anew with it, so BS_MOVED and BS_NEED_PARENTS are not answered. BS_DONE: `mode`
 * is the mode in which the node is held. Otherwise it answers as the first lock that was refused or came to nothing;
 * what was locked before that stays locked. If the node was deleted or dropped meanwhile, it answers BS_GONE or
 * BS_NO_SUCH_NODE. */
bs_reply bs_table_lock_path(bs_table *table, bs_txn txn, bs_node node, bs_mode mode, const struct timespec *until);

/* Sleeps until the end of a lock that bs_table_run left waiting, as bs_table_lock does. BS_NOT_WAITING: the transaction
 * waits for another node, or for none, and no notice tells of this one. bs_verdict of the manager that the table lends
 * says without a sleep whether a wait has its end. Refused with BS_IN_USE also if another call awaits it already. */
bs_reply bs_table_await(bs_table *table, bs_txn txn, bs_node node, bs_mode mode, const struct timespec *until);

bs_reply bs_table_try(bs_table *table, bs_txn txn, bs_node node, bs_mode mode);

/* What a try of a path that is not done keeps of the locks that it acquired on the way. */
enum bs_keeps { BS_KEEP_NOTHING = 0, BS_KEEP_WAY = 1 };

/* Locks a node and what must be held above it: the locks that bs_lock_path requests, but each by bs_try, in one
 * critical section. It never sleeps, joins no queue and makes no victim; it passes waiters only as bs_try does.
 * BS_DONE: `mode` is the mode in which the node is held. BS_WOULD_BLOCK: `node` is the one that cannot be had at once,
 * the node itself or one above it. Refused as bs_lock_path before anything is locked, in its order; BS_WOULD_BLOCK,
 * BS_NO_MEMORY and BS_WORN_OUT may come after some of the locks. Refused with BS_BAD_NUMBER, first of all, also if
 * `keep` is none of enum bs_keeps. Takes memory.
 * If it stops after some of the locks, `keep` says what becomes of these. With BS_KEEP_WAY they stay. With
 * BS_KEEP_NOTHING each node that it acquired anew is released, the last first, which wakes nobody. Even so these stay:
 *   - a node that was held before, in the mode to which it was raised: no command lowers a mode, and what was held
 *     before is not known any more;
 *   - a node above one that was held before, by another parent: bs_unlock refuses it with BS_HELD_CHILD, and so it does
 *     those above it;
 *   - after BS_WORN_OUT all of them.
 * Each lock and each release is a command of its own, which bs_counters counts. Costs these, and a refused try for each
 * missing node on the way; to read, these again after each lock. */
bs_reply bs_table_try_path(bs_table *table, bs_txn txn, bs_node node, bs_mode mode, uint32_t keep);

bs_reply bs_table_unlock(bs_table *table, bs_txn txn, bs_node node, bs_notices *told);

/* As bs_mark and bs_release_since. */
bs_reply bs_table_mark(bs_table *table, bs_txn txn);
bs_reply bs_table_release_since(bs_table *table, bs_txn txn, uint64_t savepoint, bs_notices *told);

/* Cancels a wait, and wakes the thread that sleeps for it: that one is answered BS_NOT_WAITING. */
bs_reply bs_table_cancel(bs_table *table, bs_txn txn, bs_notices *told);

bs_reply bs_table_commit(bs_table *table, bs_txn txn, bs_notices *told);

/* As bs_renew. A deadline ends with the old transaction. */
bs_reply bs_table_renew(bs_table *table, bs_txn txn, uint64_t since);

/* Ends a transaction whatever it is doing, and wakes the thread that sleeps for it: that one is answered
 * BS_NO_SUCH_TXN. Use it to end the transaction of a thread that died. */
bs_reply bs_table_abort(bs_table *table, bs_txn txn, bs_notices *told);

bs_reply bs_table_settle(bs_table *table, bs_txn txn, bs_notices *told);
bs_reply bs_table_escalate(bs_table *table, bs_txn txn, bs_node node, bs_notices *told);

/* ------------------------------------------------------------------------------------------------
 * Records, nodes that move, and what a schema changes.
 */

bs_reply bs_table_insert(bs_table *table, bs_txn txn, bs_node file, const uint64_t *keys, size_t count);
bs_reply bs_table_delete(bs_table *table, bs_txn txn, bs_node record, bs_notices *told);
bs_reply bs_table_adopt(bs_table *table, bs_node file, const uint64_t *keys, size_t count);
bs_reply bs_table_forget(bs_table *table, bs_node record);
bs_reply bs_table_rekey(bs_table *table, bs_txn txn, bs_node record, bs_node index, uint64_t key, bs_notices *told);
bs_reply bs_table_move(bs_table *table, bs_txn txn, bs_node node, const bs_node *parents, size_t count,
                       bs_notices *told);
bs_reply bs_table_drop(bs_table *table, bs_txn txn, bs_node node, bs_notices *told);
bs_reply bs_table_index_by(bs_table *table, bs_txn txn, const bs_node *parents, size_t count, bs_node file,
                           const uint64_t *bounds, size_t bound_count);

/* ------------------------------------------------------------------------------------------------
 * Rows by the engine's own numbers.
 */

/* As bs_lock_row, but never answers BS_WAITING: if the lock must wait, the call sleeps. After a sleep that was granted,
 * it asks for the row again, in the same critical section: so the answer is BS_DONE, or BS_OTHER_KEYS. It is
 * BS_OTHER_KEYS too if that second call was refused, for lack of memory or of numbers: the row is held, and the caller
 * must look at its keys again. The caller must also lock what must be held above the row: a missing parent is refused
 * with BS_NEED_PARENTS, in `node`, and bs_table_lock_path locks it. That may sleep, and the keys may be others after
 * it. After BS_TIMED_OUT the row is let go. */
bs_reply bs_table_lock_row(bs_table *table, bs_txn txn, bs_node file, uint64_t number, const uint64_t *keys,
                           size_t count, bs_mode mode, const struct timespec *until);

/* As bs_table_lock_row, but if the lock would have to wait, it is refused with BS_WOULD_BLOCK, after the other
 * refusals, and `node` is the row's node. It never sleeps, joins no queue and makes no victim. If it is refused, no
 * lock was changed: if there is no memory to note the row for its transaction, the row is released. A row that the
 * transaction held before cannot be, and then the answer is BS_OTHER_KEYS: it is held in `mode`, and the caller must
 * look at its keys again. The answer is the same if the lock took the last number. A row that has a holder costs two
 * commands, which bs_counters counts. Takes memory. */
bs_reply bs_table_try_row(bs_table *table, bs_txn txn, bs_node file, uint64_t number, const uint64_t *keys,
                          size_t count, bs_mode mode);

bs_reply bs_table_unlock_row(bs_table *table, bs_txn txn, bs_node file, uint64_t number, bs_notices *told);
bs_reply bs_table_rekey_row(bs_table *table, bs_txn txn, bs_node file, uint64_t number, bs_node index, uint64_t key,
                            bs_notices *told);

/* ------------------------------------------------------------------------------------------------
 * Asks, which do not sleep: their ends come by callbacks.
 */

/* Gives a table its callback, the function that is called with the end of each ask, and that function's first argument,
 * which may be null. A table has one, for good: BS_IN_USE if it has one already. Refused with BS_NULL_POINTER also if
 * the function is null, BS_IN_USE, BS_NO_MEMORY. */
bs_reply bs_table_on_end(bs_table *table, void (*function)(void *context, bs_txn txn, bs_reply end, void *word),
                         void *context);

/* As bs_table_lock, bs_table_lock_path and bs_table_lock_row, but if the lock waits, they answer BS_WAITING, and its
 * end comes by a callback with `word`. Until then the transaction waits: its other commands are refused with
 * BS_TXN_WAITING, and bs_table_cancel and bs_table_abort end the wait. `until`, and the transaction's deadline, are the
 * time from which on bs_table_expire cancels the wait. The keys of a row are copied. Refused with BS_NULL_POINTER also
 * if the table has no callback. BS_NO_MEMORY may come before all other refusals but BS_NULL_POINTER, BS_BAD_NUMBER of
 * the time, BS_NO_MANAGER and BS_IN_USE. The end takes no memory. */
bs_reply bs_table_ask(bs_table *table, bs_txn txn, bs_node node, bs_mode mode, const struct timespec *until,
                      void *word);
bs_reply bs_table_ask_path(bs_table *table, bs_txn txn, bs_node node, bs_mode mode, const struct timespec *until,
                           void *word);
bs_reply bs_table_ask_row(bs_table *table, bs_txn txn, bs_node file, uint64_t number, const uint64_t *keys,
                          size_t count, bs_mode mode, const struct timespec *until, void *word);

/* As bs_table_await, of a lock that bs_table_run left waiting: if it still waits, the answer is BS_WAITING, and its end
 * comes by a callback. Refused with BS_IN_USE also if another call awaits it already. */
bs_reply bs_table_ask_await(bs_table *table, bs_txn txn, bs_node node, bs_mode mode, const struct timespec *until,
                            void *word);

/* Cancels the wait of each ask, for a lock or a slot, whose time is over by CLOCK_MONOTONIC; it ends with BS_TIMED_OUT.
 * `count` says how many still wait to a time; if it is not 0, the earliest of these times is written into `next`, which
 * may be null. It is for a loop that has a timer of its own: the loop makes this call after each alarm, and sets the
 * timer to `next`; the time of an ask that comes meanwhile may be earlier. An ask whose time is over waits until some
 * thread makes this call. Costs a step for each slot and for each begin that waits for one; the latter again for each of
 * these whose time is over. */
bs_reply bs_table_expire(bs_table *table, struct timespec *next);

/* ------------------------------------------------------------------------------------------------
 * Several commands in one critical section.
 */

/* The kinds of commands of a list. Each makes the call of its name, with the fields of a bs_command that have the names
 * of that call's arguments; `node` is also its `record`, `number` its `since` or its `savepoint`, and `key_count`,
 * `parent_count` and `bound_count` are the counts of its lists. */
enum bs_command_kinds {
  BS_DO_BEGIN = 1, BS_DO_LOCK, BS_DO_LOCK_PATH, BS_DO_TRY, BS_DO_UNLOCK, BS_DO_ESCALATE, BS_DO_CANCEL, BS_DO_COMMIT,
  BS_DO_ABORT, BS_DO_SETTLE, BS_DO_INSERT, BS_DO_DELETE, BS_DO_ADOPT, BS_DO_FORGET, BS_DO_REKEY, BS_DO_MOVE, BS_DO_DROP,
  BS_DO_ADD_INNER, BS_DO_ADD_FILE, BS_DO_ADD_ROW_FILE, BS_DO_ADD_INDEX, BS_DO_INDEX_BY, BS_DO_LOCK_ROW,
  BS_DO_UNLOCK_ROW, BS_DO_REKEY_ROW, BS_DO_TRY_PATH, BS_DO_TRY_ROW, BS_DO_BEGIN_AGAIN, BS_DO_RELEASE_SINCE,
  BS_DO_RENEW, BS_DO_LOCK_ROW_PATH, BS_DO_TRY_ROW_PATH, BS_DO_MARK, BS_DO_INSERT_PATH,
  BS_DO_SPLIT, BS_DO_MERGE
};

/* A command of a list. Write it with the names of its fields, all others zero, or make it by a function below. All zero
 * is no command. */
typedef struct bs_command {
  uint32_t kind; /* of enum bs_command_kinds */
  bs_mode mode;
  bs_txn txn;    /* also bs_begun() */
  bs_node node;
  bs_node file;
  bs_node index;
  uint64_t number;
  uint64_t key;
  const uint64_t *keys;
  size_t key_count;
  const bs_node *parents;
  size_t parent_count;
  const uint64_t *bounds;
  size_t bound_count;
  bs_notices *told; /* may be null */
  uint32_t keep;    /* of BS_DO_TRY_PATH, BS_DO_TRY_ROW_PATH, BS_DO_INSERT_PATH: of enum bs_keeps */
  bs_reply reply;   /* written by bs_table_run and bs_table_try_first */
} bs_command;

/* A command of a transaction, with all other fields zero. Until a run writes it, the reply is BS_NOT_MADE. */
static inline bs_command bs_do(uint32_t kind, bs_txn txn) {
  bs_command command;
  memset(&command, 0, sizeof command);
  command.kind = kind;
  command.txn = txn;
  command.reply.status = BS_NOT_MADE;
  return command;
}

/* The same of a node, in a mode if the call has one. */
static inline bs_command bs_do_at(uint32_t kind, bs_txn txn, bs_node node, bs_mode mode) {
  bs_command command = bs_do(kind, txn);
  command.node = node;
  command.mode = mode;
  return command;
}

/* In a list, the transaction that the last BS_DO_BEGIN, BS_DO_BEGIN_AGAIN or BS_DO_RENEW before it began; with none
 * before it, it names nobody. So a whole short transaction can be one list, run again and again. No transaction has this name. */
static inline bs_txn bs_begun(void) {
  bs_txn txn = { UINT32_MAX, 0 };
  return txn;
}

/* Makes commands in order, in one critical section, up to the first that is not done, and writes each one's reply into
 * it. Answers how many were done. It never sleeps. A lock whose wait ends by what the list itself has set off is
 * answered with that end: after a grant the list continues. If fewer than `count` were done, the reply of the next says
 * why:
 *   - it was refused, or its transaction is BS_VICTIM;
 *   - BS_WAITING: a lock, a path or a row waits, for `node` in `mode`. bs_table_await awaits these. After the grant run
 *     the list again from this command on: what is held by then is granted at once, a path continues with the next
 *     node, and a row says whether its keys are the node's own. After the grant of a lock for an instant run it from
 *     the next command on;
 *   - BS_OTHER_KEYS: the row is held, but its keys are others than was said.
 * The commands after it were not made, and their replies are BS_NOT_MADE. All others are answered as the call of their
 * name. A path continues if others became victims for a lock above, and is never BS_ON_THE_WAY: its `told` has the
 * notices of all its locks. After each command, whether it is the first or the last, those go on whose wait it ended. An
 * unknown kind is refused with BS_BAD_NUMBER. If the table is refused, so is the first command; a null list has no
 * commands. A begin is refused with BS_TOO_MANY_TXNS while others wait for a slot: the first of these gets the one that
 * a command of the list frees. */
size_t bs_table_run(bs_table *table, bs_command *commands, size_t count);

/* Makes tries in order, in one critical section, each BS_DO_TRY, BS_DO_TRY_PATH, BS_DO_TRY_ROW or BS_DO_TRY_ROW_PATH,
 * up to the first that is not passed over. Answers its place, from 0 on, or `count` if there is none. It never sleeps, joins no queue and
 * makes no victim. A try is passed over, with its own reply, if it is answered
 *   - BS_WOULD_BLOCK: another transaction holds the node, or one above it;
 *   - BS_NEED_PARENTS: the record or row has moved to where the transaction holds nothing above it;
 *   - BS_NO_SUCH_NODE: the node is gone.
 * A path that is passed over keeps nothing, except as its `keep` or bs_table_try_path says. The reply of the try at the
 * answered place is
 *   - BS_DONE: it is the one that was acquired;
 *   - BS_OTHER_KEYS: it was acquired too, and is a row whose keys the caller must look at again;
 *   - else it was refused so, and none was acquired.
 * The tries after it were not made, and their replies are BS_NOT_MADE. A kind that is no try is refused with
 * BS_BAD_NUMBER. If the table is refused, so is the first command, at place 0; in a null list none is acquired. */
size_t bs_table_try_first(bs_table *table, bs_command *commands, size_t count);

/* ------------------------------------------------------------------------------------------------
 * Questions.
 */

/* Acquires the latch and lends the manager, for all that takes a const bs_manager: questions of burlapslate.h that are
 * all of one moment. Null if the table is refused, and then the latch is not held. Until bs_table_let_go no other
 * thread uses the table. */
const bs_manager *bs_table_hold(bs_table *table);

/* Releases the latch, and gives back the manager that was lent with it. Refused with BS_NULL_POINTER, with BS_NOT_HELD
 * if this thread does not hold the table, and with BS_IN_USE within the callback for a table that the thread held
 * before. */
bs_reply bs_table_let_go(bs_table *table);

/* ------------------------------------------------------------------------------------------------
 * Watchers: the waits-for graph, without the latch. A watcher is used by bs_look and ended by bs_watch_end, with no
 * table.
 */

/* As bs_watch. */
static inline bs_reply bs_table_watch(bs_table *table, bs_watcher *watcher) {
  bs_status misfit = bs_call_misfit();
  if (table == NULL || watcher == NULL) return bs_call_null();
  return misfit == BS_DONE ? bs_call_table_watch(table, watcher) : bs_call_only(misfit);
}

/* Starts a thread that ends deadlocks, for a table that was made with BS_BY_WATCHER: it looks as a watcher does,
 * settles every suspect, the youngest first, each in a critical section of its own, and then rests for `pace`
 * nanoseconds. While no lock has been left waiting since it looked, it sleeps. It ends with the table, counts as a
 * watcher, and takes no signals. Refused with BS_IN_USE if the table has such a thread, BS_TOO_MANY_WATCHERS, and with
 * BS_NO_MEMORY also if no thread can be started. */
bs_reply bs_table_watch_thread(bs_table *table, uint64_t pace);

#ifdef __cplusplus
}
#endif

#endif
