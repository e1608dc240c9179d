/*
 * burlapslate_trace.c: the trace of burlapslate_running.h: all that the manager of a table accepts and tells, written
 * as a script by a thread of its own. Nothing here is proved.
 *
 * burlapslate_shared.c makes each command of a traced table by a function bs_traced_* of this file, with the latch
 * held. That makes the call, and then puts a line into a ring for each command that the manager accepted: a path is
 * several locks, and a commit may forget rows. After each call the lines are compared with the manager's own count of
 * accepted commands, and a comment says how many have no line. The thread takes the lines out of the ring, and writes
 * them as text. So nobody waits for the file while the latch is held: if the ring is full, lines are dropped.
 */
#include "burlapslate_inside.h"
#include "burlapslate_splits.h"

#include <errno.h>
#include <fcntl.h>
#include <poll.h>
#include <stdlib.h>
#include <unistd.h>

/* The words of the ring, the bytes of the text, and the milliseconds for which the thread waits for more lines. */
enum { TRACE_WORDS = 1 << 20, TRACE_TEXT = 1 << 16, TRACE_NAP = 5 };

/* A script has lines of so many bytes, and so many transactions at once. */
enum { TRACE_LONGEST = 256, TRACE_TXNS = 128 };

/* The most names and numbers of a line: a node, its file and its parents; more bounds than these make no line. No line
 * is longer as a text, with its answer. */
enum { TRACE_NAMES = 2 + BS_MOST_PARENTS, TRACE_NUMBERS = 128, TRACE_LINE = 4096 };

/* The most locks of one path. A longer path is not said. */
enum { TRACE_STEPS = 256 };

/* What a line says: a form of a script, or what a comment says: how many lines were dropped before it, or how many
 * commands are not said. */
typedef enum trace_form {
  TRACE_ROOT, TRACE_INNER, TRACE_FILE, TRACE_INDEX, TRACE_INDEX_BY, TRACE_BEGIN, TRACE_BEGIN_AGAIN, TRACE_RENEW,
  TRACE_LOCK, TRACE_TRY, TRACE_UNLOCK, TRACE_RELEASE, TRACE_ESCALATE, TRACE_CANCEL, TRACE_COMMIT, TRACE_ABORT,
  TRACE_SETTLE, TRACE_INSERT, TRACE_DELETE, TRACE_ADOPT, TRACE_FORGET, TRACE_REKEY, TRACE_MOVE, TRACE_MOVE_TO_ROOT,
  TRACE_DROP, TRACE_SPLIT, TRACE_MERGE, TRACE_FORMS, TRACE_DROPPED = TRACE_FORMS, TRACE_UNSAID
} trace_form;

/* The forms as a script has them: T is the transaction, M the mode, N, F and G the first, second and third name, P all
 * names from the second and Q from the third, K the numbers. */
static const char *const trace_texts[TRACE_FORMS] = {
  "inner N", "inner N : P", "file N : P", "index N : Q on F at K", "index T N : Q on F at K", "begin T",
  "begin T again K", "renew T K", "lock T M N", "try T M N", "unlock T N", "release T K", "escalate T N", "cancel T",
  "commit T", "abort T", "settle T", "insert T N F K", "delete T N", "adopt N F K", "forget N", "rekey T N F K",
  "move T N : P", "move T N", "drop T N", "split T N at K", "merge T N"
};

/* A node as scripts name it: by the number of its birth; an interval by that of its index, with its place plus 1, which
 * is 0 for all others. */
typedef struct trace_name {
  uint64_t birth, place;
} trace_name;

/* A notice in the ring. */
typedef struct trace_notice {
  uint32_t slot, kind;
  uint64_t mode;
  trace_name name;
} trace_notice;

/* A line in the ring. After it are its names, its numbers and its notices. */
typedef struct trace_head {
  uint64_t time;   /* in nanoseconds since the trace began */
  uint64_t count;  /* of a begin and a renewal the age, of a release the nodes, of comments the lines or commands */
  uint32_t released, kept;
  uint32_t slot;
  uint16_t told_count;
  uint8_t form, mode;
  uint8_t granted, status;
  uint8_t name_count, number_count;
  uint32_t is_too_long; /* it has more numbers than a script can say */
} trace_head;

/* A line before it is in the ring. */
typedef struct trace_line {
  trace_head head;
  trace_name names[TRACE_NAMES];
  const uint64_t *numbers;
} trace_line;

/* A lock of a path: the mode that it requests, and the modes held before and after it. */
typedef struct trace_step {
  bs_node node;
  bs_mode mode, before, after;
} trace_step;

/* The nodes of rows: each has one as long as some transaction uses it. */
typedef struct trace_rows {
  bs_node *at;
  size_t count, room;
} trace_rows;

/* A trace. The latch guards what puts lines, up to `lost`; the thread alone uses what is after `ending`. */
struct bs_trace {
  bs_table *table;
  bs_manager *manager;
  uint64_t begun;         /* by CLOCK_MONOTONIC, in nanoseconds */
  uint64_t said;          /* how many accepted commands have lines, or are known to have none */
  trace_rows rows;
  trace_step steps[TRACE_STEPS]; /* of the path that is being locked */
  uint64_t *ring;
  uint64_t next;          /* the next word to be put, of a line that is not whole yet */
  bool is_full;           /* that line has no room */
  uint64_t head;          /* the words put, read by the thread too */
  uint64_t tail;          /* the words taken, written by the thread */
  uint64_t lost;          /* the lines dropped since the last line that was put */
  pthread_mutex_t latch;  /* the trace's own: guards `is_over` */
  pthread_cond_t over;
  bool is_over;           /* no line comes any more */
  pthread_t thread;
  bs_options options;
  time_t date;
  int file;
  char *text;
  size_t length;
  size_t living;          /* transactions */
  uint64_t unwritten;     /* lines that are in the text alone */
  uint64_t dropped;       /* lines */
  bool is_cut;            /* from here on no line can be played */
  bool has_failed;        /* a write has failed, and no other is tried */
};

/* ------------------------------------------------------------------------------------------------
 * Lines are put into the ring.
 */

/* Puts so many words, or none if there is no room for them. */
static void trace_put(bs_trace *trace, const void *words, size_t count) {
  size_t place = trace->next % TRACE_WORDS;
  size_t first = count < TRACE_WORDS - place ? count : TRACE_WORDS - place;
  if (trace->next + count - __atomic_load_n(&trace->tail, __ATOMIC_ACQUIRE) > TRACE_WORDS) trace->is_full = true;
  if (trace->is_full || count == 0) return;
  memcpy(trace->ring + place, words, first * sizeof(uint64_t));
  memcpy(trace->ring, (const char *)words + first * sizeof(uint64_t), (count - first) * sizeof(uint64_t));
  trace->next += count;
}

/* How many words so many things need. */
#define TRACE_WORDS_OF(thing, count) (sizeof(thing) / sizeof(uint64_t) * (count))

static trace_name trace_name_of(const bs_trace *trace, bs_node node) {
  trace_name name = { node.birth, 0 };
  if (bs_kind(trace->manager, node).count != BS_INTERVAL) return name;
  name.birth = bs_parent(trace->manager, node, 0).node.birth;
  name.place = bs_place(trace->manager, node).count + 1;
  return name;
}

static void trace_put_notice(bs_trace *trace, const bs_notice *notice) {
  trace_notice told;
  memset(&told, 0, sizeof told);
  told.slot = notice->txn.slot;
  told.kind = notice->kind;
  told.mode = notice->mode;
  if (notice->kind == BS_TOLD_GRANTED) told.name = trace_name_of(trace, notice->node);
  trace_put(trace, &told, TRACE_WORDS_OF(told, 1));
}

/* Puts what a comment says. */
static void trace_put_comment(bs_trace *trace, trace_form form, uint64_t count) {
  trace_head head;
  memset(&head, 0, sizeof head);
  head.form = (uint8_t)form;
  head.count = count;
  trace_put(trace, &head, TRACE_WORDS_OF(head, 1));
}

static void trace_begin_put(bs_trace *trace) {
  trace->next = trace->head;
  trace->is_full = false;
  if (trace->lost > 0) trace_put_comment(trace, TRACE_DROPPED, trace->lost);
}

/* What was put is whole, with so many lines; or all of it is dropped. */
static void trace_end_put(bs_trace *trace, uint64_t lines) {
  if (trace->is_full) {
    trace->lost += lines;
    return;
  }
  trace->lost = 0;
  __atomic_store_n(&trace->head, trace->next, __ATOMIC_RELEASE);
}

/* Puts a line with its notices. */
static void trace_put_line(bs_trace *trace, const trace_line *line, const bs_notices *told) {
  size_t i;
  trace_begin_put(trace);
  trace_put(trace, &line->head, TRACE_WORDS_OF(line->head, 1));
  trace_put(trace, line->names, TRACE_WORDS_OF(trace_name, line->head.name_count));
  trace_put(trace, line->numbers, line->head.number_count);
  for (i = 0; i < line->head.told_count; i++) trace_put_notice(trace, &told->at[i]);
  trace_end_put(trace, 1 + line->head.told_count);
}

/* ------------------------------------------------------------------------------------------------
 * What a line says.
 */

static const bs_txn trace_nobody = { 0, 0 };

static trace_line trace_line_of(trace_form form, bs_txn txn, bs_mode mode) {
  trace_line line;
  memset(&line.head, 0, sizeof line.head);
  line.head.form = (uint8_t)form;
  line.head.slot = txn.slot;
  line.head.mode = (uint8_t)mode;
  line.numbers = NULL;
  return line;
}

static void trace_add_name(const bs_trace *trace, trace_line *line, bs_node node) {
  if (line->head.name_count < TRACE_NAMES) line->names[line->head.name_count++] = trace_name_of(trace, node);
}

static void trace_add_names(const bs_trace *trace, trace_line *line, const bs_node *nodes, size_t count) {
  size_t i;
  for (i = 0; i < count; i++) trace_add_name(trace, line, nodes[i]);
}

static void trace_add_numbers(trace_line *line, const uint64_t *numbers, size_t count) {
  line->head.is_too_long = count > TRACE_NUMBERS;
  line->head.number_count = (uint8_t)(count > TRACE_NUMBERS ? 0 : count);
  line->numbers = numbers;
}

static bool trace_is_accepted(bs_status status) {
  return status == BS_DONE || status == BS_WAITING || status == BS_VICTIM;
}

static uint64_t trace_accepted(const bs_trace *trace) {
  return bs_call_accepted(trace->manager).count;
}

/* Puts a line that says so many commands, with its answer, and its notices if it may have some. */
static void trace_say_many(bs_trace *trace, trace_line *line, bs_reply reply, const bs_notices *told,
                           uint64_t commands) {
  line->head.time = bs_call_now() - trace->begun;
  line->head.status = (uint8_t)reply.status;
  line->head.granted = (uint8_t)reply.mode;
  line->head.released = reply.released;
  line->head.kept = reply.kept;
  line->head.told_count = (uint16_t)(told == NULL ? 0 : told->count);
  trace_put_line(trace, line, told);
  trace->said += commands;
}

static void trace_say(bs_trace *trace, trace_line *line, bs_reply reply, const bs_notices *told) {
  trace_say_many(trace, line, reply, told, 1);
}

/* ------------------------------------------------------------------------------------------------
 * Rows, and what else a call has done.
 */

/* A row has a node from now on. If that cannot be noted, its end is not said. */
static void trace_add_row(trace_rows *rows, bs_node node) {
  if (rows->count == rows->room) {
    size_t room = rows->room == 0 ? 64 : 2 * rows->room;
    bs_node *at = (bs_node *)realloc(rows->at, room * sizeof *at);
    if (at == NULL) return;
    rows->at = at;
    rows->room = room;
  }
  rows->at[rows->count++] = node;
}

/* Says that up to so many rows have lost their nodes, the latest rows first; how many. */
static uint64_t trace_say_forgotten(bs_trace *trace, uint64_t most) {
  trace_rows *rows = &trace->rows;
  size_t i = rows->count, end = rows->count;
  uint64_t found = 0;
  if (rows->count == 0) return 0;
  while (i > 0 && found < most) {
    bs_node node = rows->at[--i];
    trace_line line = trace_line_of(TRACE_FORGET, trace_nobody, BS_NL);
    if (bs_kind(trace->manager, node).status == BS_DONE) {
      rows->at[--end] = node;
      continue;
    }
    trace_add_name(trace, &line, node);
    trace_say(trace, &line, bs_call_only(BS_DONE), NULL);
    found++;
  }
  memmove(rows->at + i, rows->at + end, (rows->count - end) * sizeof *rows->at);
  rows->count -= found;
  return found;
}

/* A call was made, and has its lines: says what else it did. That is begins for those that wait for a slot, and rows
 * that lost their nodes. */
static bs_reply trace_end_call(bs_trace *trace, bs_reply reply) {
  uint64_t accepted;
  bs_call_hand_on(trace->table);
  accepted = trace_accepted(trace);
  if (trace->said < accepted) trace_say_forgotten(trace, accepted - trace->said);
  if (trace->said == accepted) return reply;
  trace_begin_put(trace);
  trace_put_comment(trace, TRACE_UNSAID, accepted - trace->said);
  trace_end_put(trace, 1);
  trace->said = accepted;
  return reply;
}

/* The same for a call of one command, with its line. */
static bs_reply trace_end(bs_trace *trace, trace_line *line, bs_reply reply, const bs_notices *told) {
  if (trace_is_accepted(reply.status)) trace_say(trace, line, reply, told);
  return trace_end_call(trace, reply);
}

/* ------------------------------------------------------------------------------------------------
 * Nodes.
 */

/* Says a new node: its name, and its parents. */
static bs_reply trace_end_node(bs_trace *trace, trace_form form, bs_reply reply, const bs_node *parents, size_t count) {
  trace_line line = trace_line_of(form, trace_nobody, BS_NL);
  trace_add_name(trace, &line, reply.node);
  trace_add_names(trace, &line, parents, count);
  return trace_end(trace, &line, reply, NULL);
}

bs_reply bs_traced_add_inner(bs_trace *trace, const bs_node *parents, size_t count) {
  bs_reply reply = bs_add_inner(trace->manager, parents, count);
  return trace_end_node(trace, count == 0 ? TRACE_ROOT : TRACE_INNER, reply, parents, count);
}

bs_reply bs_traced_add_file(bs_trace *trace, const bs_node *parents, size_t count) {
  return trace_end_node(trace, TRACE_FILE, bs_add_file(trace->manager, parents, count), parents, count);
}

bs_reply bs_traced_add_row_file(bs_trace *trace, const bs_node *parents, size_t count) {
  return trace_end_node(trace, TRACE_FILE, bs_add_row_file(trace->manager, parents, count), parents, count);
}

/* The line of a new index. */
static trace_line trace_index(const bs_trace *trace, trace_form form, bs_txn txn, bs_node index, bs_node file,
                              const bs_node *parents, size_t count) {
  trace_line line = trace_line_of(form, txn, BS_NL);
  trace_add_name(trace, &line, index);
  trace_add_name(trace, &line, file);
  trace_add_names(trace, &line, parents, count);
  return line;
}

bs_reply bs_traced_add_index(bs_trace *trace, const bs_node *parents, size_t count, bs_node file,
                             const uint64_t *bounds, size_t bound_count) {
  bs_reply reply = bs_add_index(trace->manager, parents, count, file, bounds, bound_count);
  trace_line line = trace_index(trace, TRACE_INDEX, trace_nobody, reply.node, file, parents, count);
  trace_add_numbers(&line, bounds, bound_count);
  return trace_end(trace, &line, reply, NULL);
}

bs_reply bs_traced_index_by(bs_trace *trace, bs_txn txn, const bs_node *parents, size_t count, bs_node file,
                            const uint64_t *bounds, size_t bound_count) {
  bs_reply reply = bs_index_by(trace->manager, txn, parents, count, file, bounds, bound_count);
  trace_line line = trace_index(trace, TRACE_INDEX_BY, txn, reply.node, file, parents, count);
  trace_add_numbers(&line, bounds, bound_count);
  return trace_end(trace, &line, reply, NULL);
}

/* The line of a record with its keys. */
static trace_line trace_record(const bs_trace *trace, trace_form form, bs_txn txn, bs_node record, bs_node file,
                               const uint64_t *keys, size_t count) {
  trace_line line = trace_index(trace, form, txn, record, file, NULL, 0);
  trace_add_numbers(&line, keys, count);
  return line;
}

bs_reply bs_traced_insert(bs_trace *trace, bs_txn txn, bs_node file, const uint64_t *keys, size_t count) {
  bs_reply reply = bs_insert(trace->manager, txn, file, keys, count);
  trace_line line = trace_record(trace, TRACE_INSERT, txn, reply.node, file, keys, count);
  return trace_end(trace, &line, reply, NULL);
}

bs_reply bs_traced_adopt(bs_trace *trace, bs_node file, const uint64_t *keys, size_t count) {
  bs_reply reply = bs_adopt(trace->manager, file, keys, count);
  trace_line line = trace_record(trace, TRACE_ADOPT, trace_nobody, reply.node, file, keys, count);
  return trace_end(trace, &line, reply, NULL);
}

bs_reply bs_traced_forget(bs_trace *trace, bs_node record) {
  bs_reply reply = bs_forget(trace->manager, record);
  trace_line line = trace_line_of(TRACE_FORGET, trace_nobody, BS_NL);
  trace_add_name(trace, &line, record);
  return trace_end(trace, &line, reply, NULL);
}

/* The end of a call that gives a record another key. */
static bs_reply trace_end_rekey(bs_trace *trace, bs_txn txn, bs_node record, bs_node index, uint64_t key,
                                bs_reply reply, const bs_notices *told) {
  trace_line line = trace_record(trace, TRACE_REKEY, txn, record, index, &key, 1);
  return trace_end(trace, &line, reply, told);
}

bs_reply bs_traced_rekey(bs_trace *trace, bs_txn txn, bs_node record, bs_node index, uint64_t key, bs_notices *told) {
  return trace_end_rekey(trace, txn, record, index, key, bs_rekey(trace->manager, txn, record, index, key, told), told);
}

bs_reply bs_traced_move(bs_trace *trace, bs_txn txn, bs_node node, const bs_node *parents, size_t count,
                        bs_notices *told) {
  bs_reply reply = bs_move(trace->manager, txn, node, parents, count, told);
  trace_line line = trace_line_of(count == 0 ? TRACE_MOVE_TO_ROOT : TRACE_MOVE, txn, BS_NL);
  trace_add_name(trace, &line, node);
  trace_add_names(trace, &line, parents, count);
  return trace_end(trace, &line, reply, told);
}

/* ------------------------------------------------------------------------------------------------
 * Transactions and locks.
 */

/* Says that a transaction has begun, for work that was tried since an earlier begin unless that is the greatest
 * number. */
static void trace_say_begin(bs_trace *trace, bs_reply begun, uint64_t since) {
  trace_line line = trace_line_of(since == UINT64_MAX ? TRACE_BEGIN : TRACE_BEGIN_AGAIN, begun.txn, BS_NL);
  if (begun.status != BS_DONE) return;
  line.head.count = begun.txn.age;
  trace_add_numbers(&line, &since, since == UINT64_MAX ? 0 : 1);
  trace_say(trace, &line, begun, NULL);
}

/* The end of a call that begins a transaction. */
static bs_reply trace_end_begin(bs_trace *trace, bs_reply reply, uint64_t since) {
  trace_say_begin(trace, reply, since);
  return trace_end_call(trace, reply);
}

bs_reply bs_traced_begin(bs_trace *trace) {
  return trace_end_begin(trace, bs_begin(trace->manager), UINT64_MAX);
}

bs_reply bs_traced_begin_again(bs_trace *trace, uint64_t since) {
  return trace_end_begin(trace, bs_begin_again(trace->manager, since), since);
}

bs_reply bs_traced_call_begin_in_turn(bs_trace *trace, uint64_t since, uint64_t word, uint64_t until) {
  return trace_end_begin(trace, bs_call_begin_in_turn(trace->manager, since, word, until), since);
}

void bs_traced_begun(bs_trace *trace, bs_reply begun, uint64_t since) {
  trace_say_begin(trace, begun, since);
}

bs_reply bs_traced_renew(bs_trace *trace, bs_txn txn, uint64_t since) {
  bs_reply reply = bs_renew(trace->manager, txn, since);
  trace_line line = trace_line_of(TRACE_RENEW, txn, BS_NL);
  line.head.count = reply.txn.age;
  trace_add_numbers(&line, &since, 1);
  return trace_end(trace, &line, reply, NULL);
}

/* The end of a call of a transaction about a node. */
static bs_reply trace_end_at(bs_trace *trace, trace_form form, bs_txn txn, bs_node node, bs_mode mode, bs_reply reply,
                             const bs_notices *told) {
  trace_line line = trace_line_of(form, txn, mode);
  if (!trace_is_accepted(reply.status)) return trace_end_call(trace, reply);
  trace_add_name(trace, &line, node);
  return trace_end(trace, &line, reply, told);
}

bs_reply bs_traced_lock(bs_trace *trace, bs_txn txn, bs_node node, bs_mode mode, bs_notices *told) {
  bs_reply reply = bs_lock(trace->manager, txn, node, mode, told);
  return trace_end_at(trace, TRACE_LOCK, txn, node, mode, reply, told);
}

bs_reply bs_traced_try(bs_trace *trace, bs_txn txn, bs_node node, bs_mode mode) {
  return trace_end_at(trace, TRACE_TRY, txn, node, mode, bs_try(trace->manager, txn, node, mode), NULL);
}

bs_reply bs_traced_unlock(bs_trace *trace, bs_txn txn, bs_node node, bs_notices *told) {
  bs_reply reply = bs_unlock(trace->manager, txn, node, told);
  return trace_end_at(trace, TRACE_UNLOCK, txn, node, BS_NL, reply, told);
}

bs_reply bs_traced_escalate(bs_trace *trace, bs_txn txn, bs_node node, bs_notices *told) {
  bs_reply reply = bs_escalate(trace->manager, txn, node, told);
  return trace_end_at(trace, TRACE_ESCALATE, txn, node, BS_NL, reply, told);
}

bs_reply bs_traced_delete(bs_trace *trace, bs_txn txn, bs_node record, bs_notices *told) {
  bs_reply reply = bs_delete(trace->manager, txn, record, told);
  return trace_end_at(trace, TRACE_DELETE, txn, record, BS_NL, reply, told);
}

bs_reply bs_traced_drop(bs_trace *trace, bs_txn txn, bs_node node, bs_notices *told) {
  bs_reply reply = bs_drop(trace->manager, txn, node, told);
  return trace_end_at(trace, TRACE_DROP, txn, node, BS_NL, reply, told);
}

bs_reply bs_traced_split(bs_trace *trace, bs_txn txn, bs_node interval, uint64_t at, bs_notices *told) {
  bs_reply reply = bs_split(trace->manager, txn, interval, at, told);
  trace_line line = trace_line_of(TRACE_SPLIT, txn, BS_NL);
  trace_add_name(trace, &line, interval);
  trace_add_numbers(&line, &at, 1);
  return trace_end(trace, &line, reply, told);
}

bs_reply bs_traced_merge(bs_trace *trace, bs_txn txn, bs_node interval, bs_notices *told) {
  bs_reply reply = bs_merge(trace->manager, txn, interval, told);
  return trace_end_at(trace, TRACE_MERGE, txn, interval, BS_NL, reply, told);
}

/* The end of a call of a transaction alone. */
static bs_reply trace_end_of(bs_trace *trace, trace_form form, bs_txn txn, bs_reply reply, const bs_notices *told) {
  trace_line line = trace_line_of(form, txn, BS_NL);
  return trace_end(trace, &line, reply, told);
}

bs_reply bs_traced_cancel(bs_trace *trace, bs_txn txn, bs_notices *told) {
  return trace_end_of(trace, TRACE_CANCEL, txn, bs_cancel(trace->manager, txn, told), told);
}

bs_reply bs_traced_commit(bs_trace *trace, bs_txn txn, bs_notices *told) {
  return trace_end_of(trace, TRACE_COMMIT, txn, bs_commit(trace->manager, txn, told), told);
}

bs_reply bs_traced_abort(bs_trace *trace, bs_txn txn, bs_notices *told) {
  return trace_end_of(trace, TRACE_ABORT, txn, bs_abort(trace->manager, txn, told), told);
}

bs_reply bs_traced_settle(bs_trace *trace, bs_txn txn, bs_notices *told) {
  return trace_end_of(trace, TRACE_SETTLE, txn, bs_settle(trace->manager, txn, told), told);
}

/* Says a rollback to a savepoint, which has released so many nodes, each by a command. */
static void trace_say_release(bs_trace *trace, bs_txn txn, uint64_t savepoint, uint64_t released,
                              const bs_notices *told) {
  trace_line line = trace_line_of(TRACE_RELEASE, txn, BS_NL);
  if (released == 0) return;
  line.head.count = released;
  trace_add_numbers(&line, &savepoint, 1);
  trace_say_many(trace, &line, bs_call_only(BS_DONE), told, released);
}

bs_reply bs_traced_release_since(bs_trace *trace, bs_txn txn, uint64_t savepoint, bs_notices *told) {
  bs_reply reply = bs_release_since(trace->manager, txn, savepoint, told);
  if (reply.status == BS_DONE) trace_say_release(trace, txn, savepoint, reply.count, told);
  return trace_end_call(trace, reply);
}

/* ------------------------------------------------------------------------------------------------
 * Paths.
 */

static bool trace_is_to_write(bs_mode mode) {
  return mode == BS_IX || mode == BS_SIX || mode == BS_X;
}

/* The least mode that covers both. */
static bs_mode trace_joined(bs_mode one, bs_mode other) {
  if ((one == BS_IX && other == BS_S) || (one == BS_S && other == BS_IX)) return BS_SIX;
  return one > other ? one : other;
}

/* In which mode a transaction holds a node after these steps. */
static bs_mode trace_held(const bs_trace *trace, bs_txn txn, bs_node node, size_t steps) {
  while (steps > 0) {
    const trace_step *step = &trace->steps[--steps];
    if (step->node.birth == node.birth) return step->after;
  }
  return bs_held(trace->manager, txn, node).mode;
}

/* Finds the parent that must be locked before a node, after these steps, as bs_lock_path says; false if none must. */
static bool trace_find_above(const bs_trace *trace, bs_txn txn, bs_node node, bs_mode mode, size_t steps,
                             bs_node *above) {
  bs_reply parent = bs_parent(trace->manager, node, 0);
  bs_node first = parent.node;
  bool writes = trace_is_to_write(mode), has_parents = parent.status == BS_DONE;
  size_t place;
  for (place = 0; parent.status == BS_DONE; parent = bs_parent(trace->manager, node, ++place)) {
    bs_mode held = trace_held(trace, txn, parent.node, steps);
    *above = parent.node;
    if (writes && !trace_is_to_write(held)) return true;
    if (!writes && held != BS_NL) return false;
  }
  *above = first;
  return !writes && has_parents;
}

/* Finds the lock that a path requests after these steps: that of the node, or an intention above it. */
static trace_step trace_find_step(const bs_trace *trace, bs_txn txn, bs_node node, bs_mode mode, size_t steps) {
  trace_step step = { node, mode, BS_NL, BS_NL };
  bs_node above;
  while (trace_find_above(trace, txn, step.node, step.mode, steps, &above)) {
    step.node = above;
    step.mode = trace_is_to_write(mode) ? BS_IX : BS_IS;
  }
  step.before = trace_held(trace, txn, step.node, steps);
  step.after = trace_joined(step.before, step.mode);
  return step;
}

/* Finds the locks of a path in their order, before it is locked; how many. */
static size_t trace_find_steps(bs_trace *trace, bs_txn txn, bs_node node, bs_mode mode) {
  size_t count = 0;
  do {
    trace->steps[count] = trace_find_step(trace, txn, node, mode, count);
    count++;
  } while (trace->steps[count - 1].node.birth != node.birth && count < TRACE_STEPS);
  return count;
}

/* Says the first so many steps, all granted but the last, which was answered so. */
static void trace_say_steps(bs_trace *trace, trace_form form, bs_txn txn, size_t count, bs_status last,
                            const bs_notices *told) {
  size_t i;
  for (i = 0; i < count; i++) {
    const trace_step *step = &trace->steps[i];
    trace_line line = trace_line_of(form, txn, step->mode);
    bs_reply reply = bs_call_only(i + 1 == count && trace_is_accepted(last) ? last : BS_DONE);
    reply.mode = step->after;
    trace_add_name(trace, &line, step->node);
    trace_say(trace, &line, reply, i + 1 == count ? told : NULL);
  }
}

bs_reply bs_traced_lock_path(bs_trace *trace, bs_txn txn, bs_node node, bs_mode mode, bs_notices *told) {
  size_t steps = trace_find_steps(trace, txn, node, mode);
  bs_reply reply = bs_lock_path(trace->manager, txn, node, mode, told);
  uint64_t made = trace_accepted(trace) - trace->said;
  if (made <= steps) trace_say_steps(trace, TRACE_LOCK, txn, (size_t)made, reply.status, told);
  return trace_end_call(trace, reply);
}

/* How many nodes a path has released that gave up after so many steps, given the transaction's locks before and now. */
static uint64_t trace_released(const bs_trace *trace, size_t steps, uint64_t before, uint64_t now) {
  uint64_t most = before;
  while (steps > 0) most += trace->steps[--steps].before == BS_NL;
  return most > now ? most - now : 0;
}

bs_reply bs_traced_call_try_path(bs_trace *trace, bs_txn txn, bs_node node, bs_mode mode, uint32_t keep,
                                 bs_notices *told) {
  uint64_t before = bs_lock_count(trace->manager, txn).count, now, made, released = 0;
  size_t steps = trace_find_steps(trace, txn, node, mode), done;
  bs_reply reply = bs_call_try_path(trace->manager, txn, node, mode, keep, told);
  bool gave_up = keep == BS_KEEP_NOTHING && reply.status != BS_DONE;
  made = trace_accepted(trace) - trace->said;
  now = bs_lock_count(trace->manager, txn).count;
  for (done = 0; done <= steps && made > 0; done++) {
    released = gave_up ? trace_released(trace, done, before, now) : 0;
    if (done + released < made) continue;
    trace_say_steps(trace, TRACE_TRY, txn, done, BS_DONE, NULL);
    trace_say_release(trace, txn, before, released, told);
    break;
  }
  return trace_end_call(trace, reply);
}

/* ------------------------------------------------------------------------------------------------
 * Rows.
 */

/* Says a row's lock, which was answered so. The row had a node before, or none; a node that it has got was adopted. */
static void trace_say_row(bs_trace *trace, bs_txn txn, bs_node file, const uint64_t *keys, size_t count, bs_mode mode,
                          bs_reply before, bs_reply reply, const bs_notices *told) {
  trace_line line = trace_line_of(TRACE_LOCK, txn, mode);
  if (reply.status == BS_OTHER_KEYS) reply.status = BS_DONE;
  if (!trace_is_accepted(reply.status)) return;
  if (before.status != BS_DONE || before.node.birth != reply.node.birth) {
    trace_line adopted = trace_record(trace, TRACE_ADOPT, trace_nobody, reply.node, file, keys, count);
    trace_say(trace, &adopted, bs_call_only(BS_DONE), NULL);
    trace_add_row(&trace->rows, reply.node);
  }
  trace_add_name(trace, &line, reply.node);
  trace_say(trace, &line, reply, told);
}

bs_reply bs_traced_lock_row(bs_trace *trace, bs_txn txn, bs_node file, uint64_t number, const uint64_t *keys,
                            size_t count, bs_mode mode, bs_notices *told) {
  bs_reply before = bs_row_node(trace->manager, file, number);
  bs_reply reply = bs_lock_row(trace->manager, txn, file, number, keys, count, mode, told);
  trace_say_row(trace, txn, file, keys, count, mode, before, reply, told);
  return trace_end_call(trace, reply);
}

/* Whether somebody holds a node or waits for it. */
static bool trace_is_busy(const bs_trace *trace, bs_node node) {
  bs_slots holders = bs_holders(trace->manager, node).slots;
  bool is_held = false;
  size_t i;
  for (i = 0; i < BS_SLOTS / 64; i++) is_held |= holders.words[i] != 0;
  return is_held || bs_queue_len(trace->manager, node).count > 0;
}

bs_reply bs_traced_call_try_row(bs_trace *trace, bs_txn txn, bs_node file, uint64_t number, const uint64_t *keys,
                                size_t count, bs_mode mode, bs_notices *told) {
  bs_reply before = bs_row_node(trace->manager, file, number), tried = bs_call_only(BS_DONE);
  bool is_busy = before.status == BS_DONE && trace_is_busy(trace, before.node), is_held;
  trace_line line = trace_line_of(TRACE_TRY, txn, mode), given_back = trace_line_of(TRACE_UNLOCK, txn, BS_NL);
  bs_reply reply;
  tried.mode = trace_joined(bs_held(trace->manager, txn, before.node).mode, mode);
  reply = bs_call_try_row(trace->manager, txn, file, number, keys, count, mode, told);
  is_held = reply.status == BS_DONE || reply.status == BS_OTHER_KEYS;
  trace_add_name(trace, &line, before.node);
  trace_add_name(trace, &given_back, before.node);
  if (is_busy && trace_accepted(trace) != trace->said) trace_say(trace, &line, tried, NULL);
  if (is_busy && trace_accepted(trace) == trace->said) return trace_end_call(trace, reply);
  if (is_held || !is_busy) trace_say_row(trace, txn, file, keys, count, mode, before, reply, told);
  else trace_say(trace, &given_back, bs_call_only(BS_DONE), told);
  return trace_end_call(trace, reply);
}

bs_reply bs_traced_unlock_row(bs_trace *trace, bs_txn txn, bs_node file, uint64_t number, bs_notices *told) {
  bs_node node = bs_row_node(trace->manager, file, number).node;
  bs_reply reply = bs_unlock_row(trace->manager, txn, file, number, told);
  return trace_end_at(trace, TRACE_UNLOCK, txn, node, BS_NL, reply, told);
}

bs_reply bs_traced_rekey_row(bs_trace *trace, bs_txn txn, bs_node file, uint64_t number, bs_node index, uint64_t key,
                             bs_notices *told) {
  bs_node node = bs_row_node(trace->manager, file, number).node;
  bs_reply reply = bs_rekey_row(trace->manager, txn, file, number, index, key, told);
  return trace_end_rekey(trace, txn, node, index, key, reply, told);
}

/* ------------------------------------------------------------------------------------------------
 * Waiters that go on.
 */

/* What bs_call_next_waiter says of a waiter that goes on by commands. */
enum { TRACE_GIVES_BACK = 1, TRACE_LOCKS_ON = 2, TRACE_LOCKS_AGAIN = 3, TRACE_LOCKS_ROW = 4 };

/* Whether a row has this node. */
static bool trace_has_row(const trace_rows *rows, bs_node node) {
  size_t i = rows->count;
  while (i > 0 && rows->at[i - 1].birth != node.birth) i--;
  return i > 0;
}

/* Says the lock of a row by which a waiter has gone on. The manager is asked for what the request said. */
static void trace_say_row_next(bs_trace *trace, bs_reply next, bs_reply reply, const bs_notices *told) {
  uint64_t keys[BS_MOST_PARENTS];
  size_t count = 0;
  bs_reply before = bs_call_only(trace_has_row(&trace->rows, reply.node) ? BS_DONE : BS_NO_SUCH_NODE);
  bs_reply key = bs_key(trace->manager, reply.node, 0);
  bs_node file = bs_parent(trace->manager, reply.node, 0).node;
  for (; key.status == BS_DONE && count < BS_MOST_PARENTS; key = bs_key(trace->manager, reply.node, count)) {
    keys[count++] = key.count;
  }
  before.node = reply.node;
  trace_say_row(trace, next.txn, file, keys, count, next.mode, before, reply, told);
}

bs_reply bs_traced_call_go_on(bs_trace *trace, bs_notices *told) {
  bs_reply next = bs_call_next_waiter(trace->manager), done = bs_call_only(BS_DONE), reply;
  size_t steps = next.count == TRACE_LOCKS_ON ? trace_find_steps(trace, next.txn, next.node, next.mode) : 0;
  trace_line line = trace_line_of(next.count == TRACE_GIVES_BACK ? TRACE_UNLOCK : TRACE_LOCK, next.txn, next.mode);
  uint64_t made;
  reply = bs_call_go_on(trace->manager, told);
  made = trace_accepted(trace) - trace->said;
  if (made == 0) return trace_end_call(trace, reply);
  if (next.count == TRACE_LOCKS_ON && made <= steps) {
    trace_say_steps(trace, TRACE_LOCK, next.txn, (size_t)made, reply.status, told);
  } else if (next.count == TRACE_GIVES_BACK || next.count == TRACE_LOCKS_AGAIN) {
    trace_add_name(trace, &line, next.node);
    done.mode = reply.mode;
    trace_say(trace, &line, done, told);
  } else if (next.count == TRACE_LOCKS_ROW) {
    trace_say_row_next(trace, next, reply, told);
  }
  return trace_end_call(trace, reply);
}

bs_reply bs_traced_call_time_out(bs_trace *trace, bs_txn txn, bs_notices *told) {
  bs_reply reply = bs_call_time_out(trace->manager, txn, told);
  trace_line line = trace_line_of(TRACE_CANCEL, txn, BS_NL);
  if (reply.status == BS_TIMED_OUT) trace_say(trace, &line, bs_call_only(BS_DONE), told);
  return trace_end_call(trace, reply);
}

/* ------------------------------------------------------------------------------------------------
 * Those who rest.
 */

/* A commit that keeps locks is a renewal, or a commit, if all that it releases was released before. */
bs_reply bs_traced_call_commit_and_rest(bs_trace *trace, bs_txn txn, size_t keep, uint64_t since, bs_notices *told) {
  bs_reply reply = bs_call_commit_and_rest(trace->manager, txn, keep, keep, since, told);
  trace_line line = trace_line_of(TRACE_RENEW, txn, BS_NL);
  if (reply.status != BS_DONE || reply.txn.age == 0) return trace_end_of(trace, TRACE_COMMIT, txn, reply, told);
  line.head.count = reply.txn.age;
  trace_add_numbers(&line, &since, 1);
  return trace_end(trace, &line, reply, NULL);
}

/* The end of one who rested is its commit, and a line. So a traced table ends one at a time. */
static bs_reply trace_end_resting(bs_trace *trace, bs_reply reply, const bs_notices *told) {
  trace_line line = trace_line_of(TRACE_COMMIT, reply.txn, BS_NL);
  if (reply.status == BS_DONE) trace_say(trace, &line, bs_call_only(BS_DONE), told);
  return trace_end_call(trace, reply);
}

bs_reply bs_traced_call_clear_way(bs_trace *trace, uint32_t one, bs_notices *told) {
  (void)one;
  return trace_end_resting(trace, bs_call_clear_way(trace->manager, 1, told), told);
}

bs_reply bs_traced_call_clear_node(bs_trace *trace, bs_node node, bs_mode mode, uint32_t one, bs_notices *told) {
  (void)one;
  return trace_end_resting(trace, bs_call_clear_node(trace->manager, node, mode, 1, told), told);
}

bs_reply bs_traced_call_make_room(bs_trace *trace, bs_notices *told) {
  return trace_end_resting(trace, bs_call_make_room(trace->manager, told), told);
}

/* ------------------------------------------------------------------------------------------------
 * The text.
 */

static void trace_put_char(bs_trace *trace, char one) {
  trace->text[trace->length++] = one;
}

static void trace_put_text(bs_trace *trace, const char *text) {
  size_t length = strlen(text);
  memcpy(trace->text + trace->length, text, length);
  trace->length += length;
}

/* Puts a number, with zeros before it if it has fewer digits. */
static void trace_put_digits(bs_trace *trace, uint64_t number, size_t digits) {
  char text[21];
  size_t at = sizeof text - 1;
  text[at] = 0;
  do {
    text[--at] = (char)('0' + number % 10);
    number /= 10;
  } while (number > 0 || sizeof text - 1 - at < digits);
  trace_put_text(trace, text + at);
}

static void trace_put_number(bs_trace *trace, uint64_t number) {
  trace_put_digits(trace, number, 1);
}

static void trace_put_txn(bs_trace *trace, uint32_t slot) {
  trace_put_char(trace, 't');
  trace_put_number(trace, slot);
}

static void trace_put_name(bs_trace *trace, trace_name name) {
  trace_put_char(trace, 'n');
  trace_put_number(trace, name.birth);
  if (name.place == 0) return;
  trace_put_char(trace, '.');
  trace_put_number(trace, name.place - 1);
}

/* Writes all text to the file. After a failure none is written. */
static void trace_flush(bs_trace *trace) {
  size_t done = 0;
  while (done < trace->length && !trace->has_failed) {
    struct pollfd ready = { 0, POLLOUT, 0 };
    ssize_t written = write(trace->file, trace->text + done, trace->length - done);
    ready.fd = trace->file;
    if (written > 0) done += (size_t)written;
    else if (written < 0 && errno == EAGAIN) poll(&ready, 1, -1);
    else if (written == 0 || errno != EINTR) trace->has_failed = true;
  }
  if (trace->has_failed) trace->dropped += trace->unwritten;
  trace->unwritten = trace->length = 0;
}

/* Makes room for a line. */
static void trace_make_room(bs_trace *trace) {
  if (trace->length > TRACE_TEXT - TRACE_LINE) trace_flush(trace);
}

/* From here on no line can be played, for this reason: each is a comment. */
static void trace_cut(bs_trace *trace, const char *why) {
  trace_put_text(trace, "# ");
  trace_put_text(trace, why);
  trace_put_text(trace, ": no line from here on can be played\n");
  trace->is_cut = true;
}

static void trace_begin_line(bs_trace *trace, const char *playable) {
  trace_put_text(trace, trace->is_cut ? "#- " : playable);
}

/* ------------------------------------------------------------------------------------------------
 * Lines are taken out of the ring, and written.
 */

static void trace_take(bs_trace *trace, uint64_t *from, void *words, size_t count) {
  size_t place = *from % TRACE_WORDS;
  size_t first = count < TRACE_WORDS - place ? count : TRACE_WORDS - place;
  memcpy(words, trace->ring + place, first * sizeof(uint64_t));
  memcpy((char *)words + first * sizeof(uint64_t), trace->ring, (count - first) * sizeof(uint64_t));
  *from += count;
}

/* A line that was taken. */
typedef struct trace_taken {
  trace_head head;
  trace_name names[TRACE_NAMES];
  uint64_t numbers[TRACE_NUMBERS];
} trace_taken;

static void trace_write_names(bs_trace *trace, const trace_taken *line, size_t first) {
  size_t i;
  for (i = first; i < line->head.name_count; i++) {
    if (i > first) trace_put_char(trace, ' ');
    trace_put_name(trace, line->names[i]);
  }
}

/* Numbers are last, and there may be none. */
static void trace_write_numbers(bs_trace *trace, const trace_taken *line) {
  size_t i;
  trace->length--;
  for (i = 0; i < line->head.number_count; i++) {
    trace_put_char(trace, ' ');
    trace_put_number(trace, line->numbers[i]);
  }
}

/* Writes the form of a line. */
static void trace_write_form(bs_trace *trace, const trace_taken *line) {
  const char *form;
  for (form = trace_texts[line->head.form]; *form != 0; form++) {
    switch (*form) {
      case 'T': trace_put_txn(trace, line->head.slot); break;
      case 'M': trace_put_text(trace, bs_mode_text(line->head.mode)); break;
      case 'N': trace_put_name(trace, line->names[0]); break;
      case 'F': trace_put_name(trace, line->names[1]); break;
      case 'P': trace_write_names(trace, line, 1); break;
      case 'Q': trace_write_names(trace, line, 2); break;
      case 'K': trace_write_numbers(trace, line); break;
      default: trace_put_char(trace, *form); break;
    }
  }
}

/* Writes a line as a script has it. */
static void trace_write_command(bs_trace *trace, const trace_taken *line) {
  size_t start = trace->length;
  trace_begin_line(trace, "");
  trace_write_form(trace, line);
  if (!trace->is_cut && (line->head.is_too_long || trace->length - start > TRACE_LONGEST)) {
    trace->length = start;
    trace_cut(trace, "the next line is too long for a script");
    trace_begin_line(trace, "");
    trace_write_form(trace, line);
  }
  trace_put_text(trace, line->head.is_too_long ? " ..\n" : "\n");
}

/* Begins the comment that says an answer or a notice: with its time, in seconds. */
static void trace_begin_answer(bs_trace *trace, uint64_t nanoseconds) {
  trace_make_room(trace);
  trace_begin_line(trace, "# ");
  trace_put_number(trace, nanoseconds / 1000000000u);
  trace_put_char(trace, '.');
  trace_put_digits(trace, nanoseconds / 1000 % 1000000, 6);
  trace_put_char(trace, ' ');
}

/* Writes what `ok` is followed by, and the end of the line. */
static void trace_write_done(bs_trace *trace, const trace_head *head) {
  bool has_mode = head->form == TRACE_LOCK || head->form == TRACE_TRY || head->form == TRACE_ESCALATE;
  if (has_mode) trace_put_char(trace, ' ');
  if (has_mode) trace_put_text(trace, bs_mode_text(head->granted));
  if (head->form == TRACE_RELEASE) trace_put_char(trace, ' ');
  if (head->form == TRACE_RELEASE) trace_put_number(trace, head->count);
  if (head->form == TRACE_ESCALATE) {
    trace_put_text(trace, " released ");
    trace_put_number(trace, head->released);
    trace_put_text(trace, " kept ");
    trace_put_number(trace, head->kept);
  }
}

static void trace_write_answer(bs_trace *trace, const trace_head *head) {
  trace_begin_answer(trace, head->time);
  trace_put_text(trace, head->status == BS_WAITING ? "wait" : head->status == BS_VICTIM ? "victim" : "ok");
  if (head->status == BS_DONE) trace_write_done(trace, head);
  trace_put_char(trace, '\n');
}

static void trace_write_notice(bs_trace *trace, uint64_t time, const trace_notice *told) {
  static const char *const kinds[] = { "", " granted ", " victim", " moved", " gone" };
  trace_begin_answer(trace, time);
  trace_put_text(trace, "told ");
  trace_put_txn(trace, told->slot);
  trace_put_text(trace, kinds[told->kind <= BS_TOLD_GONE ? told->kind : 0]);
  if (told->kind == BS_TOLD_GRANTED) {
    trace_put_text(trace, bs_mode_text((bs_mode)told->mode));
    trace_put_char(trace, ' ');
    trace_put_name(trace, told->name);
  }
  trace_put_char(trace, '\n');
}

/* Writes the name of a transaction that began. A script has only so many at once. */
static void trace_write_begun(bs_trace *trace, const trace_head *head) {
  trace_make_room(trace);
  trace_put_text(trace, "# t");
  trace_put_number(trace, head->slot);
  trace_put_text(trace, " has the age ");
  trace_put_number(trace, head->count);
  trace_put_char(trace, '\n');
}

/* Counts the transactions. One more than a script can have makes the end of what can be played. */
static void trace_count_living(bs_trace *trace, const trace_head *head) {
  if (head->form == TRACE_COMMIT || head->form == TRACE_ABORT) trace->living--;
  if (head->form != TRACE_BEGIN && head->form != TRACE_BEGIN_AGAIN) return;
  if (++trace->living > TRACE_TXNS && !trace->is_cut) trace_cut(trace, "a script has no more transactions at once");
}

/* Writes what is no command. */
static void trace_write_comment(bs_trace *trace, const trace_head *head) {
  bool is_dropped = head->form == TRACE_DROPPED;
  if (is_dropped) trace->dropped += head->count;
  trace_put_text(trace, "# ");
  trace_put_number(trace, head->count);
  trace_put_text(trace, is_dropped ? " lines were dropped\n" : " commands are not said\n");
  if (!trace->is_cut) trace_cut(trace, is_dropped ? "the ring was full" : "what they were is not known");
}

/* Takes one line with its notices out of the ring, and writes it. */
static void trace_write_line(bs_trace *trace, uint64_t *from) {
  trace_taken line;
  trace_notice told;
  size_t i;
  trace_make_room(trace);
  trace_take(trace, from, &line.head, TRACE_WORDS_OF(line.head, 1));
  if (line.head.form >= TRACE_FORMS) {
    trace_write_comment(trace, &line.head);
    return;
  }
  trace_take(trace, from, line.names, TRACE_WORDS_OF(trace_name, line.head.name_count));
  trace_take(trace, from, line.numbers, line.head.number_count);
  trace_count_living(trace, &line.head);
  trace_write_command(trace, &line);
  trace_write_answer(trace, &line.head);
  for (i = 0; i < line.head.told_count; i++) {
    trace_take(trace, from, &told, TRACE_WORDS_OF(told, 1));
    trace_write_notice(trace, line.head.time, &told);
  }
  if (line.head.form == TRACE_BEGIN || line.head.form == TRACE_BEGIN_AGAIN || line.head.form == TRACE_RENEW) {
    trace_write_begun(trace, &line.head);
  }
  trace->unwritten += 1 + line.head.told_count;
}

/* Writes all lines that are in the ring. */
static void trace_write_all(bs_trace *trace) {
  uint64_t from = trace->tail, head = __atomic_load_n(&trace->head, __ATOMIC_ACQUIRE);
  while (from != head) {
    trace_write_line(trace, &from);
    __atomic_store_n(&trace->tail, from, __ATOMIC_RELEASE);
  }
  trace_flush(trace);
}

/* ------------------------------------------------------------------------------------------------
 * The thread.
 */

static void trace_write_beginning(bs_trace *trace) {
  char date[sizeof "9999-12-31T23:59:59Z"] = "";
  struct tm utc;
  if (gmtime_r(&trace->date, &utc) != NULL) strftime(date, sizeof date, "%Y-%m-%dT%H:%M:%SZ", &utc);
  trace_put_text(trace, "granular 2\n");
  trace_begin_answer(trace, 0);
  trace_put_text(trace, "ok\n# The trace of a table, from ");
  trace_put_text(trace, date);
  trace_put_text(trace, " on. It is played by\n# gltool --trace --schema --savepoints --detect ");
  trace_put_text(trace, trace->options.detect == BS_AT_BLOCK ? "at-block" : "by-watcher");
  trace_put_text(trace, trace->options.victims == BS_YOUNGEST ? " --victims youngest\n" : " --victims fewest\n");
}

/* All lines that were put are written: says how many were dropped. */
static void trace_write_end(bs_trace *trace) {
  trace->dropped += trace->lost;
  trace_make_room(trace);
  trace_put_text(trace, "# The trace has ended: ");
  trace_put_number(trace, trace->dropped);
  trace_put_text(trace, " lines were dropped\n");
  trace_flush(trace);
}

/* Waits a while for more lines; whether there may be some. */
static bool trace_nap(bs_trace *trace) {
  struct timespec until = bs_after(TRACE_NAP);
  bool is_over;
  pthread_mutex_lock(&trace->latch);
  if (!trace->is_over) pthread_cond_timedwait(&trace->over, &trace->latch, &until);
  is_over = trace->is_over;
  pthread_mutex_unlock(&trace->latch);
  return !is_over;
}

/* It naps in place of being woken, so that no command makes a call of the system. */
static void *trace_write_on(void *place) {
  bs_trace *trace = (bs_trace *)place;
  trace_write_beginning(trace);
  do {
    trace_write_all(trace);
  } while (trace_nap(trace));
  trace_write_all(trace);
  trace_write_end(trace);
  return NULL;
}

/* ------------------------------------------------------------------------------------------------
 * What a table has when its trace begins.
 */

/* The node that was made as the how manieth, from 0 on, if no node was ever removed. */
static bs_node trace_node_made(size_t place) {
  bs_node node = { place, place + 1 };
  return node;
}

/* Whether a manager has accepted nothing but nodes, none of them a record. */
static bool trace_has_only_schema(const bs_manager *m) {
  uint64_t made = 0;
  size_t place, count = (size_t)bs_len(m).count;
  for (place = 0; place < count; place++) {
    bs_reply kind = bs_kind(m, trace_node_made(place));
    if (kind.status != BS_DONE || kind.count == BS_RECORD) return false;
    made += kind.count != BS_INTERVAL;
  }
  return bs_call_accepted(m).count == made;
}

/* Says a node with its parents. */
static void trace_say_made(bs_trace *trace, trace_line *line, bs_node node) {
  bs_reply parent = bs_parent(trace->manager, node, 0);
  size_t place;
  for (place = 0; parent.status == BS_DONE; parent = bs_parent(trace->manager, node, ++place)) {
    trace_add_name(trace, line, parent.node);
  }
  trace_say_many(trace, line, bs_call_only(BS_DONE), NULL, 0);
}

/* The lowest key of an interval. */
static uint64_t trace_lowest_key(const bs_manager *m, bs_node index, uint64_t place) {
  uint64_t low = 0, high = UINT64_MAX;
  while (low < high) {
    uint64_t key = low + (high - low) / 2;
    if (bs_place(m, bs_interval_of(m, index, key).node).count >= place) high = key;
    else low = key + 1;
  }
  return low;
}

/* The bounds of an index, or as many of them as a line can have and one more; how many. */
static size_t trace_find_bounds(const bs_manager *m, bs_node index, uint64_t *bounds) {
  size_t count = 0;
  while (count <= TRACE_NUMBERS && bs_interval(m, index, count + 1).status == BS_DONE) {
    bounds[count] = trace_lowest_key(m, index, count + 1);
    count++;
  }
  return count;
}

static void trace_say_indexes(bs_trace *trace, bs_node file) {
  uint64_t bounds[TRACE_NUMBERS + 1];
  bs_reply index = bs_index(trace->manager, file, 0);
  size_t place;
  for (place = 0; index.status == BS_DONE; index = bs_index(trace->manager, file, ++place)) {
    trace_line line = trace_index(trace, TRACE_INDEX, trace_nobody, index.node, file, NULL, 0);
    trace_add_numbers(&line, bounds, trace_find_bounds(trace->manager, index.node, bounds));
    trace_say_made(trace, &line, index.node);
  }
}

/* Says a node if it is an inner node or a file: intervals are said with their index. */
static void trace_say_node(bs_trace *trace, bs_node node) {
  uint64_t kind = bs_kind(trace->manager, node).count;
  bool is_root = bs_parent(trace->manager, node, 0).status != BS_DONE;
  trace_form form = kind == BS_FILE ? TRACE_FILE : is_root ? TRACE_ROOT : TRACE_INNER;
  trace_line line = trace_line_of(form, trace_nobody, BS_NL);
  if (kind != BS_FILE && kind != BS_INNER) return;
  trace_add_name(trace, &line, node);
  trace_say_made(trace, &line, node);
}

/* Says the nodes that there are, each after its parents, and then the indexes of each file in their order. */
static void trace_say_schema(bs_trace *trace) {
  size_t place, count = (size_t)bs_len(trace->manager).count;
  for (place = 0; place < count; place++) trace_say_node(trace, trace_node_made(place));
  for (place = 0; place < count; place++) {
    bs_node node = trace_node_made(place);
    if (bs_kind(trace->manager, node).count == BS_FILE) trace_say_indexes(trace, node);
  }
}

/* ------------------------------------------------------------------------------------------------
 * A trace begins and ends.
 */

static void trace_free(bs_trace *trace) {
  if (trace->file >= 0) close(trace->file);
  free(trace->rows.at);
  free(trace->ring);
  free(trace->text);
  free(trace);
}

/* A new trace; null if memory or a descriptor is refused. */
static bs_trace *trace_make(bs_table *table, bs_manager *manager, int file) {
  bs_trace *trace = (bs_trace *)malloc(sizeof *trace);
  if (trace == NULL) return NULL;
  memset(trace, 0, sizeof *trace);
  trace->table = table;
  trace->manager = manager;
  trace->begun = bs_call_now();
  trace->date = time(NULL);
  trace->said = trace_accepted(trace);
  bs_limits(manager, &trace->options);
  trace->ring = (uint64_t *)malloc(TRACE_WORDS * sizeof *trace->ring);
  trace->text = (char *)malloc(TRACE_TEXT);
  trace->file = fcntl(file, F_DUPFD_CLOEXEC, 0);
  if (trace->ring != NULL && trace->text != NULL && trace->file >= 0) return trace;
  trace_free(trace);
  return NULL;
}

/* Starts the thread of a new trace; if that is refused, nothing of the trace stays. */
static bool trace_start(bs_trace *trace) {
  pthread_mutex_init(&trace->latch, NULL);
  bs_call_make_steady(&trace->over);
  if (bs_call_start(&trace->thread, trace_write_on, trace)) return true;
  pthread_cond_destroy(&trace->over);
  pthread_mutex_destroy(&trace->latch);
  trace_free(trace);
  return false;
}

bs_reply bs_call_trace(bs_table *table, bs_manager *manager, int file, bs_trace **trace) {
  int flags = fcntl(file, F_GETFL);
  bs_trace *made;
  if (!trace_has_only_schema(manager)) return bs_call_only(BS_TOO_LATE);
  if (flags < 0 || (flags & O_ACCMODE) == O_RDONLY) return bs_call_only(BS_BAD_NUMBER);
  made = trace_make(table, manager, file);
  if (made == NULL) return bs_call_only(BS_NO_MEMORY);
  trace_say_schema(made);
  if (!trace_start(made)) return bs_call_only(BS_NO_MEMORY);
  *trace = made;
  return bs_call_only(BS_DONE);
}

bs_reply bs_call_trace_end(bs_trace *trace) {
  bs_reply reply;
  int state;
  if (trace == NULL) return bs_call_only(BS_NO_TRACE);
  pthread_setcancelstate(PTHREAD_CANCEL_DISABLE, &state);
  pthread_mutex_lock(&trace->latch);
  trace->is_over = true;
  pthread_cond_signal(&trace->over);
  pthread_mutex_unlock(&trace->latch);
  pthread_join(trace->thread, NULL);
  pthread_cond_destroy(&trace->over);
  pthread_mutex_destroy(&trace->latch);
  reply = bs_call_only(trace->has_failed ? BS_NOT_WRITTEN : BS_DONE);
  reply.count = trace->dropped;
  trace_free(trace);
  pthread_setcancelstate(state, &state);
  return reply;
}
