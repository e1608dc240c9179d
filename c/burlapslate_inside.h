/*
 * burlapslate_inside.h: what the sources of a table share: what a table notes of its waits, with the calls by which
 * burlapslate_shared.c tells of them, the commands of a traced table, and what burlapslate_running.c and
 * burlapslate_trace.c need of that source. Programs do not use it, and it is not installed.
 *
 * All of this is used with the table's latch held, unless a comment says otherwise. The calls about waits see each wait
 * of a table once as it begins and once as it ends, in the order of the commands.
 */
#ifndef BURLAPSLATE_INSIDE_H
#define BURLAPSLATE_INSIDE_H

#include "burlapslate_group.h"
#include "burlapslate_running.h"
#include "burlapslate_session.h"

#include <pthread.h>

/* How many nodes the sketch of the most awaited ones counts. */
enum { BS_COUNTED_NODES = 32 };

/* The wait of a slot. */
typedef struct bs_timed {
  uint64_t since; /* by CLOCK_MONOTONIC, in nanoseconds */
  bs_node node;
  bs_mode mode;
  bool is_told;   /* it was told as a long one, or is being told */
} bs_timed;

/* The nodes that were waited for longest: a Space-Saving sketch. */
typedef struct bs_sketch {
  uint64_t nanoseconds; /* of all waits that were counted */
  size_t count;
  bs_awaited_node at[BS_COUNTED_NODES];
} bs_sketch;

/* The thread that tells, with what it has to tell; only burlapslate_running.c knows it. */
struct bs_teller;

/* What a table notes of its waits. */
typedef struct bs_running {
  const bs_table *table;
  const bs_manager *manager;
  pthread_mutex_t *latch;
  struct bs_teller *teller;  /* null before the first function was given */
  bool is_ending;            /* the table ends */
  bs_slots waiting;          /* the slots that wait */
  bs_timed waits[BS_SLOTS];  /* by slot: its wait, while it waits */
  bs_histogram ended[BS_WAIT_ENDS];
  uint64_t reset;            /* since when the sketch counts, as `since` above */
  bs_sketch nodes;
  uint64_t condemned;        /* how many transactions had been condemned by the last deadlock that was noted */
  uint64_t refused;          /* how many commands had been accepted when a request was last condemned */
  uint64_t told_waits, told_deadlocks, lost_deadlocks;
} bs_running;

/* For a new table, whose fields are zero, before any other thread knows it. */
void bs_call_run(bs_running *running, const bs_table *table, const bs_manager *manager, pthread_mutex_t *latch);

/* A transaction was left waiting by the last command. */
void bs_call_wait_began(bs_running *running, bs_txn txn);

/* A transaction was condemned by its own request, the last command, so that it did not wait. */
void bs_call_condemned(bs_running *running);

/* The last command has ended the waits of these slots, or some of them. Each that it told is in `told`; the others were
 * ended by their name. */
void bs_call_waits_ended(bs_running *running, const bs_slots *ended, const bs_notices *told);

/* The wait of a slot was cancelled by the table or its group, and counts as one that has ended so: BS_END_TIMED_OUT if
 * its time is over, BS_END_VICTIM if its transaction fell in a group, BS_END_CANCELLED for another reason. */
void bs_call_wait_cut(bs_running *running, uint32_t slot, enum bs_wait_ends end);

/* The table ends: wakes the thread that tells. Then, without the latch, awaits its end. */
void bs_call_run_out(bs_running *running);
void bs_call_run_join(bs_running *running);

/* Frees what was taken for a table that was ended; no latch is needed. */
void bs_call_run_free(bs_running *running);

/* When a transaction of this slot began to wait, into `since`; false if none waits there. */
bool bs_call_waits_since(const bs_running *running, uint32_t slot, uint64_t *since);

/* The present time of the clock by which waits are timed. */
uint64_t bs_call_now(void);

/* The bytes of a cache line. */
enum { BS_LINE = 64 };

/* Memory that is zero and begins a cache line; null if it is refused. What is to be freed is in `block`. */
void *bs_call_lines(size_t size, void **block);

/* Of burlapslate_shared.c: what the table notes that this thread holds with this manager; null if it is no table's. */
bs_running *bs_call_running(const bs_manager *manager);

/* How many begins wait for a slot of that table. */
uint64_t bs_call_queued(const bs_manager *manager);

/* Whether this thread may sleep in a call of a table. No latch is needed. */
bool bs_call_may_sleep(void);

/* Gives the begins that the library has handed on to the threads that sleep for them, and to the asks. */
void bs_call_hand_on(bs_table *table);

/* Makes a condition variable whose times are by the clock that is never set. No latch is needed. */
void bs_call_make_steady(pthread_cond_t *cond);

/* Starts a thread that takes no signals of the process; whether it could be started. */
bool bs_call_start(pthread_t *thread, void *(*run)(void *), void *place);

/* Without the latch: calls a function of the engine under the rules of a callback. Ends of asks that its calls set off
 * are told after it. */
void bs_call_engine(void (*function)(void *place), void *place);

/* ------------------------------------------------------------------------------------------------
 * Lists of commands, of a table or a group. No latch is needed.
 */

/* Whether a command is of the transaction that the list began; whether it begins one; whether it is a try. */
static inline bool bs_inside_is_own(const bs_command *c) {
  const bs_txn own = bs_begun();
  return c->txn.slot == own.slot && c->txn.age == own.age;
}

static inline bool bs_inside_begins(uint32_t kind) {
  return kind == BS_DO_BEGIN || kind == BS_DO_BEGIN_AGAIN || kind == BS_DO_RENEW;
}

static inline bool bs_inside_is_try(uint32_t kind) {
  return kind == BS_DO_TRY || kind == BS_DO_TRY_PATH || kind == BS_DO_TRY_ROW || kind == BS_DO_TRY_ROW_PATH;
}

/* Whether a try that was answered so is passed over: it would block, its record or row has moved, or it is gone. */
static inline bool bs_inside_is_passed(bs_status status) {
  return status == BS_WOULD_BLOCK || status == BS_NEED_PARENTS || status == BS_NO_SUCH_NODE;
}

/* Whether a name stands for the node of an earlier command (bs_made); and names the node then, if that has one. */
static inline bool bs_inside_is_made(bs_node node) {
  return node.birth == UINT64_MAX;
}

static inline void bs_inside_name_made(const bs_command *commands, size_t place, bs_node *node) {
  if (bs_inside_is_made(*node) && node->key < place) *node = commands[node->key].reply.node;
}

/* The command at a place of a list, with all its nodes named so; `parents` has room for the names of its parents. */
static inline bs_command bs_inside_named(const bs_command *commands, size_t place, bs_node parents[BS_MOST_PARENTS]) {
  bs_command named = commands[place];
  size_t i;
  bs_inside_name_made(commands, place, &named.node);
  bs_inside_name_made(commands, place, &named.file);
  bs_inside_name_made(commands, place, &named.index);
  if (named.parents == NULL || named.parent_count > BS_MOST_PARENTS) return named;
  for (i = 0; i < named.parent_count; i++) {
    parents[i] = named.parents[i];
    bs_inside_name_made(commands, place, &parents[i]);
  }
  named.parents = parents;
  return named;
}

/* These commands of a list were not made. */
static inline void bs_inside_not_made(bs_command *commands, size_t count) {
  size_t i;
  for (i = 0; i < count; i++) commands[i].reply = bs_call_only(BS_NOT_MADE);
}

/* ------------------------------------------------------------------------------------------------
 * Of burlapslate_shared.c: what burlapslate_group.c does with its tables. No latch is needed up to bs_inside_tell_ends;
 * enter, take and release are about the latch; all others are made with it held. What they name is the table's own.
 */

/* Whether this is a valid time for `until`. */
bool bs_inside_is_time(const struct timespec *until);

/* Whether this thread holds no table by bs_table_hold. */
bool bs_inside_holds_none(void);

/* Asks in order. */
typedef struct bs_inside_asks {
  struct table_asked *first, *last;
} bs_inside_asks;

/* From now on this thread keeps the ends of asks that it must tell, so that it may hold a latch as it releases another.
 * The second call tells them; the thread holds no latch then. Within a callback they are told after that. */
void bs_inside_keep_ends(bs_inside_asks *ends);
void bs_inside_tell_ends(bs_inside_asks *ends);

/* Acquires the latch if the table is open, and answers whether it is; the second acquires it in any case. The thread does
 * not hold the table by bs_table_hold. Releases it, and wakes those whose wait has ended. Whether this thread holds the
 * table by bs_table_hold. */
bool bs_inside_enter(bs_table *table);
void bs_inside_take(bs_table *table);
void bs_inside_release(bs_table *table);
bool bs_inside_holds(const bs_table *table);

/* If this hold has ended waits: releases the latch, wakes and tells these, and acquires it again, whether the table is
 * open by then or not. */
void bs_inside_tell(bs_table *table);

/* Its manager; it is closed if the table was ended. It stays in its place. */
bs_manager *bs_inside_manager(bs_table *table);

/* From now on each thread that sleeps in the table makes this call now and then, with the time since which it has made
 * none in this sleep. The call may release the latch, and acquires it again. No thread may sleep there yet. */
typedef void bs_inside_look(void *context, bs_table *table, uint64_t since);
void bs_inside_look_by(bs_table *table, bs_inside_look *look, void *context);

/* Whether a call or an ask awaits the end of a request of the transaction in this slot; and whether any transaction
 * waits. */
bool bs_inside_sleeps(const bs_table *table, uint32_t slot);
bool bs_inside_any_waits(const bs_table *table);

/* Ends such a request with this status. If that is BS_VICTIM, the manager does not know the transaction as condemned.
 * False if none sleeps. */
bool bs_inside_end_sleep(bs_table *table, uint32_t slot, bs_status status);

/* As bs_table_lock_path and bs_table_lock_row_path: they sleep, with the latch free meanwhile. */
bs_reply bs_inside_path(bs_table *table, bs_txn txn, bs_node node, bs_mode mode, const struct timespec *until);
bs_reply bs_inside_row_path(bs_table *table, bs_txn txn, bs_node file, uint64_t number, const uint64_t *keys,
                            size_t count, bs_mode mode, const struct timespec *until);

/* As bs_table_ask_path and bs_table_ask_row_path, of a table that has a callback. They may release the latch, and acquire
 * it again. */
bs_reply bs_inside_ask_path(bs_table *table, bs_txn txn, bs_node node, bs_mode mode, const struct timespec *until,
                            void *word);
bs_reply bs_inside_ask_row_path(bs_table *table, bs_txn txn, bs_node file, uint64_t number, const uint64_t *keys,
                                size_t count, bs_mode mode, const struct timespec *until, void *word);

/* As bs_table_deadline, of a transaction that lives and a valid time. */
void bs_inside_deadline(bs_table *table, bs_txn txn, const struct timespec *until);

/* As bs_table_try_path, bs_table_try_row_path, and bs_table_insert_path, which keeps nothing. */
bs_reply bs_inside_try_path(bs_table *table, bs_txn txn, bs_node node, bs_mode mode, uint32_t keep);
bs_reply bs_inside_try_row_path(bs_table *table, bs_txn txn, bs_node file, uint64_t number, const uint64_t *keys,
                                size_t count, bs_mode mode, uint32_t keep);
bs_reply bs_inside_insert(bs_table *table, bs_txn txn, bs_node file, const uint64_t *keys, size_t count);

/* As the call of a table that has the name. */
bs_reply bs_inside_delete(bs_table *table, bs_txn txn, bs_node record);
bs_reply bs_inside_rekey(bs_table *table, bs_txn txn, bs_node record, bs_node index, uint64_t key);
bs_reply bs_inside_unlock(bs_table *table, bs_txn txn, bs_node node);
bs_reply bs_inside_release_since(bs_table *table, bs_txn txn, uint64_t savepoint);
bs_reply bs_inside_drop(bs_table *table, bs_txn txn, bs_node node);

/* As bs_table_move. If it is done, the requests of these slots end with BS_MOVED, which all wait. */
bs_reply bs_inside_move(bs_table *table, bs_txn txn, bs_node node, const bs_node *parents, size_t count,
                        const bs_slots *passers);
bs_reply bs_inside_split(bs_table *table, bs_txn txn, bs_node interval, uint64_t at);
bs_reply bs_inside_merge(bs_table *table, bs_txn txn, bs_node interval);
bs_reply bs_inside_index_records(bs_table *table, bs_txn txn, const bs_node *parents, size_t count, bs_node file,
                                 const uint64_t *bounds, size_t bound_count, const bs_node *records,
                                 const uint64_t *keys, size_t record_count);
bs_reply bs_inside_unlock_row(bs_table *table, bs_txn txn, bs_node file, uint64_t number);
bs_reply bs_inside_rekey_row(bs_table *table, bs_txn txn, bs_node file, uint64_t number, bs_node index, uint64_t key);
bs_reply bs_inside_escalate(bs_table *table, bs_txn txn, bs_node node);
bs_reply bs_inside_commit(bs_table *table, bs_txn txn);
bs_reply bs_inside_abort(bs_table *table, bs_txn txn);

/* Commits a transaction, and lets the next one of its slot rest: bs_call_commit_and_rest, or bs_inside_commit if there
 * is nothing to keep. From then on the calls above end resting transactions that block them, as those of a table do. */
bs_reply bs_inside_commit_and_rest(bs_table *table, bs_txn txn, size_t known, size_t most, uint64_t since);

/* Ends all resting transactions; BS_DONE if none rests any more. */
bs_status bs_inside_end_resting(bs_table *table);

/* ------------------------------------------------------------------------------------------------
 * Of burlapslate_group.c: what a table with parts does by its group, without any latch: as bs_table_mark,
 * bs_table_release_since and the calls of a session.
 */

/* A table of the group by its number; null if it has none. */
bs_table *bs_inside_table_of(bs_table_group *group, uint32_t number);

/* Whether this thread may call the group: BS_DONE, or why not. It holds no table then. */
bs_reply bs_inside_open(const bs_table_group *group);

/* Whether a transaction of the group has this name: BS_DONE, or why not. */
bs_reply bs_inside_lives(bs_table_group *group, bs_txn txn);

/* How many transactions of the group live, and how many begins wait for a slot. */
void bs_inside_count_txns(const bs_table_group *group, uint64_t *living, uint64_t *queued);

bs_reply bs_inside_mark(bs_table_group *group, bs_txn txn);
bs_reply bs_inside_release_to(bs_table_group *group, bs_txn txn, uint64_t savepoint);
bs_reply bs_inside_session_begin(bs_session *session, uint64_t since, const struct timespec *until);
bs_reply bs_inside_session_commit(bs_session *session);
bs_reply bs_inside_session_end(bs_session *session);
size_t bs_inside_session_run(bs_session *session, bs_command *commands, size_t count);

/* ------------------------------------------------------------------------------------------------
 * Of burlapslate_trace.c: a trace of a table.
 */

typedef struct bs_trace bs_trace;

/* Begins a trace of this table into a file, and writes the pointer to it. Refused with BS_TOO_LATE, BS_BAD_NUMBER,
 * BS_NO_MEMORY. */
bs_reply bs_call_trace(bs_table *table, bs_manager *manager, int file, bs_trace **trace);

/* Without the latch, after the table has let go of its trace: ends it as bs_table_trace_end says. */
bs_reply bs_call_trace_end(bs_trace *trace);

/* A begin that waited for a slot was handed on, and answered so. */
void bs_traced_begun(bs_trace *trace, bs_reply begun, uint64_t since);

/* The commands of a traced table: each makes the call of the manager that has its name, and says what that did. */
bs_reply bs_traced_add_inner(bs_trace *trace, const bs_node *parents, size_t count);
bs_reply bs_traced_add_file(bs_trace *trace, const bs_node *parents, size_t count);
bs_reply bs_traced_add_row_file(bs_trace *trace, const bs_node *parents, size_t count);
bs_reply bs_traced_add_index(bs_trace *trace, const bs_node *parents, size_t count, bs_node file,
                             const uint64_t *bounds, size_t bound_count);
bs_reply bs_traced_begin(bs_trace *trace);
bs_reply bs_traced_begin_again(bs_trace *trace, uint64_t since);
bs_reply bs_traced_call_begin_in_turn(bs_trace *trace, uint64_t since, uint64_t word, uint64_t until);
bs_reply bs_traced_renew(bs_trace *trace, bs_txn txn, uint64_t since);
bs_reply bs_traced_lock(bs_trace *trace, bs_txn txn, bs_node node, bs_mode mode, bs_notices *told);
bs_reply bs_traced_lock_path(bs_trace *trace, bs_txn txn, bs_node node, bs_mode mode, bs_notices *told);
bs_reply bs_traced_try(bs_trace *trace, bs_txn txn, bs_node node, bs_mode mode);
bs_reply bs_traced_call_try_path(bs_trace *trace, bs_txn txn, bs_node node, bs_mode mode, uint32_t keep,
                                 bs_notices *told);
bs_reply bs_traced_unlock(bs_trace *trace, bs_txn txn, bs_node node, bs_notices *told);
bs_reply bs_traced_release_since(bs_trace *trace, bs_txn txn, uint64_t savepoint, bs_notices *told);
bs_reply bs_traced_escalate(bs_trace *trace, bs_txn txn, bs_node node, bs_notices *told);
bs_reply bs_traced_cancel(bs_trace *trace, bs_txn txn, bs_notices *told);
bs_reply bs_traced_commit(bs_trace *trace, bs_txn txn, bs_notices *told);
bs_reply bs_traced_abort(bs_trace *trace, bs_txn txn, bs_notices *told);
bs_reply bs_traced_settle(bs_trace *trace, bs_txn txn, bs_notices *told);
bs_reply bs_traced_insert(bs_trace *trace, bs_txn txn, bs_node file, const uint64_t *keys, size_t count);
bs_reply bs_traced_delete(bs_trace *trace, bs_txn txn, bs_node record, bs_notices *told);
bs_reply bs_traced_adopt(bs_trace *trace, bs_node file, const uint64_t *keys, size_t count);
bs_reply bs_traced_forget(bs_trace *trace, bs_node record);
bs_reply bs_traced_rekey(bs_trace *trace, bs_txn txn, bs_node record, bs_node index, uint64_t key, bs_notices *told);
bs_reply bs_traced_move(bs_trace *trace, bs_txn txn, bs_node node, const bs_node *parents, size_t count,
                        bs_notices *told);
bs_reply bs_traced_drop(bs_trace *trace, bs_txn txn, bs_node node, bs_notices *told);
bs_reply bs_traced_split(bs_trace *trace, bs_txn txn, bs_node interval, uint64_t at, bs_notices *told);
bs_reply bs_traced_merge(bs_trace *trace, bs_txn txn, bs_node interval, bs_notices *told);
bs_reply bs_traced_index_by(bs_trace *trace, bs_txn txn, const bs_node *parents, size_t count, bs_node file,
                            const uint64_t *bounds, size_t bound_count);
bs_reply bs_traced_lock_row(bs_trace *trace, bs_txn txn, bs_node file, uint64_t number, const uint64_t *keys,
                            size_t count, bs_mode mode, bs_notices *told);
bs_reply bs_traced_call_try_row(bs_trace *trace, bs_txn txn, bs_node file, uint64_t number, const uint64_t *keys,
                                size_t count, bs_mode mode, bs_notices *told);
bs_reply bs_traced_call_commit_and_rest(bs_trace *trace, bs_txn txn, size_t keep, uint64_t since, bs_notices *told);
bs_reply bs_traced_call_clear_way(bs_trace *trace, uint32_t one, bs_notices *told);
bs_reply bs_traced_call_clear_node(bs_trace *trace, bs_node node, bs_mode mode, uint32_t one, bs_notices *told);
bs_reply bs_traced_call_make_room(bs_trace *trace, bs_notices *told);
bs_reply bs_traced_call_go_on(bs_trace *trace, bs_notices *told);
bs_reply bs_traced_call_time_out(bs_trace *trace, bs_txn txn, bs_notices *told);
bs_reply bs_traced_unlock_row(bs_trace *trace, bs_txn txn, bs_node file, uint64_t number, bs_notices *told);
bs_reply bs_traced_rekey_row(bs_trace *trace, bs_txn txn, bs_node file, uint64_t number, bs_node index, uint64_t key,
                             bs_notices *told);

#endif
