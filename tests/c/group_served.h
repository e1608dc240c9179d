/*
 * group_served.h: each call that changes the manager of a table of a group is logged: in the table's latch, with its
 * answer and a number. The numbers of all tables are one sequence, in which each table's calls are in their own order,
 * and each call of a thread is after those that the thread made before. So is the begin of each transaction, which its
 * thread logs itself. It includes the sources of the table and the group, whose calls are logged.
 */
#ifndef GROUP_SERVED_H
#define GROUP_SERVED_H

#include "served.h"

#include <pthread.h>

/* More calls, which the tables of a group make. They are logged, and made again, as they are. The last is no call: a
 * thread logs it when its transaction has begun. */
enum {
  RELEASE_SINCE = KINDS, ADOPT, FORGET, SPLIT, MERGE, INDEX_RECORDS, JOIN, COMMIT_AND_REST, CLEAR_WAY, CLEAR_NODE,
  MAKE_ROOM, WAKE, BEGIN_IN_TURN, TAKE_BEGUN, TAKE_LATE_BEGIN, WITHDRAW_BEGIN, AWAIT_NODE, AWAIT_PATH, AWAIT_ROW,
  AWAIT_ROW_PATH, CLIMB_TO_ROW, WITHDRAW_WAITER, GO_ON, TIME_OUT, BEGAN
};

/* There is a log for each table, one for the table in whose queue begins wait, and one for the begins. */
enum { MOST_TABLES = 16 + 1, MOST_LOGS = MOST_TABLES + 2 };

struct served {
  struct call call;
  bs_reply reply;
  size_t told_count;
  uint64_t told_sum; /* of all fields of the notices */
  uint64_t accepted; /* after it */
  uint64_t number;   /* in the order of all */
  uint32_t table;
  uint32_t victims;  /* how many it has condemned */
  bs_status cut;     /* with what the group has ended the wait, if it has */
};

struct served_log {
  struct served *at;
  size_t count, room;
};

/* Each is protected by the latch of its table, the last one by `begins`. */
static struct served_log logs[MOST_LOGS];
static pthread_mutex_t begins = PTHREAD_MUTEX_INITIALIZER;
static uint64_t calls;  /* atomic: how many were logged */
static bool is_logging; /* written while there is one thread */

/* How the group ends a wait, in this thread's present call. */
static __thread bs_status my_cut;

/* The log of a manager. */
static uint32_t log_of(const bs_manager *m);

static uint32_t victims_of(bs_reply reply, const bs_notices *told) {
  uint32_t victims = reply.status == BS_VICTIM;
  size_t i;
  for (i = 0; told != NULL && i < told->count; i++) victims += told->at[i].kind == BS_TOLD_VICTIM;
  return victims;
}

/* A new place at the end of a log. */
static struct served *next_place(uint32_t table) {
  struct served_log *own = &logs[table];
  struct served *s;
  if (own->count == own->room) {
    own->room = own->room == 0 ? 1024 : 2 * own->room;
    own->at = (struct served *)realloc(own->at, own->room * sizeof *own->at);
    if (own->at == NULL) abort();
  }
  s = &own->at[own->count++];
  memset(s, 0, sizeof *s);
  s->table = table;
  s->number = __atomic_fetch_add(&calls, 1, __ATOMIC_SEQ_CST);
  return s;
}

static void write_down(bs_manager *m, const struct call *call, bs_reply reply, const bs_notices *told) {
  struct served *s = next_place(log_of(m));
  s->call = *call;
  s->reply = reply;
  s->told_count = told == NULL ? 0 : told->count;
  s->told_sum = told == NULL ? 0 : sum_of(told);
  s->accepted = accepted_by(m);
  s->victims = victims_of(reply, told);
  s->cut = my_cut;
}

/* Makes a call with a manager. */
static bs_reply made_of_any(bs_manager *m, const struct call *c, bs_notices *told) {
  told->count = 0;
  switch ((uint32_t)c->kind) {
    case RELEASE_SINCE: return bs_release_since(m, c->txn, c->key, told);
    case ADOPT: return bs_adopt(m, c->node, c->numbers, c->number_count);
    case FORGET: return bs_forget(m, c->node);
    case SPLIT: return bs_split(m, c->txn, c->node, c->key, told);
    case MERGE: return bs_merge(m, c->txn, c->node, told);
    case INDEX_RECORDS:
      return bs_index_records(m, c->txn, c->parents, c->parent_count, c->other, c->numbers, c->number_count, c->records,
                              c->keys, c->record_count);
    case JOIN: return bs_call_join(m, c->txn.slot, c->key);
    case COMMIT_AND_REST: return bs_call_commit_and_rest(m, c->txn, (size_t)c->row, (size_t)c->until, c->key, told);
    case CLEAR_WAY: return bs_call_clear_way(m, (uint32_t)c->key, told);
    case CLEAR_NODE: return bs_call_clear_node(m, c->node, c->mode, (uint32_t)c->key, told);
    case MAKE_ROOM: return bs_call_make_room(m, told);
    case WAKE: return bs_call_wake(m, c->txn);
    case BEGIN_IN_TURN: return bs_call_begin_in_turn(m, c->key, c->row, c->until);
    case TAKE_BEGUN: return bs_call_take_begun(m);
    case TAKE_LATE_BEGIN: return bs_call_take_late_begin(m, c->until);
    case WITHDRAW_BEGIN: return bs_call_withdraw_begin(m, c->row);
    case AWAIT_NODE: return bs_call_await_node(m, c->txn, c->node, c->mode, c->is_instant, c->until);
    case AWAIT_PATH:
      return bs_call_await_path(m, c->txn, c->node, c->mode, c->is_instant, c->other, c->wanted, c->until);
    case AWAIT_ROW:
      return bs_call_await_row(m, c->txn, c->node, c->row, c->numbers, c->number_count, c->mode, c->other, c->until);
    case AWAIT_ROW_PATH:
      return bs_call_await_row_path(m, c->txn, c->node, c->row, c->numbers, c->number_count, c->mode, c->other,
                                    c->until);
    case CLIMB_TO_ROW:
      return bs_call_climb_to_row(m, c->txn, c->node, c->row, c->numbers, c->number_count, c->mode, c->other, c->until);
    case WITHDRAW_WAITER: return bs_call_withdraw_waiter(m, c->txn);
    case GO_ON: return bs_call_go_on(m, told);
    case TIME_OUT: return bs_call_time_out(m, c->txn, told);
    default: return made(m, c, told);
  }
}

static bs_reply serve(bs_manager *m, struct call call, bs_notices *told) {
  static __thread bs_notices none;
  bs_reply reply = made_of_any(m, &call, told == NULL ? &none : told);
  if (is_logging) write_down(m, &call, reply, told);
  return reply;
}

static bs_reply serve_request(bs_manager *m, struct call call, bs_notices *told) {
  return serve(m, call, told);
}

/* A call of one of the kinds above. */
static struct call call_more(uint32_t kind, bs_txn txn, bs_node node, uint64_t key) {
  struct call call = call_of((enum kind)kind, txn, node);
  call.key = key;
  return call;
}

static const bs_node nothing = { 0, 0 };

static bs_reply served_adopt(bs_manager *m, bs_node file, const uint64_t *keys, size_t count) {
  struct call call = call_more(ADOPT, nobody, file, 0);
  give_numbers(&call, keys, count);
  return serve(m, call, NULL);
}

static bs_reply served_index_records(bs_manager *m, bs_txn txn, const bs_node *parents, size_t count, bs_node file,
                                     const uint64_t *bounds, size_t bound_count, const bs_node *records,
                                     const uint64_t *keys, size_t record_count) {
  struct call call = adding((enum kind)INDEX_RECORDS, parents, count);
  call.txn = txn;
  call.other = file;
  give_numbers(&call, bounds, bound_count);
  if (record_count > MOST_RECORDS) abort();
  memcpy(call.records, records, record_count * sizeof *records);
  memcpy(call.keys, keys, record_count * sizeof *keys);
  call.record_count = record_count;
  return serve(m, call, NULL);
}

static bs_reply served_join(bs_manager *m, uint32_t slot, uint64_t since) {
  bs_txn txn = { 0, 0 };
  txn.slot = slot;
  return serve(m, call_more(JOIN, txn, nothing, since), NULL);
}

static bs_reply served_rest(bs_manager *m, bs_txn txn, size_t known, size_t most, uint64_t since, bs_notices *told) {
  struct call call = call_more(COMMIT_AND_REST, txn, nothing, since);
  call.row = known;
  call.until = most;
  return serve(m, call, told);
}

static bs_reply served_clear_node(bs_manager *m, bs_node node, bs_mode mode, uint32_t one, bs_notices *told) {
  struct call call = call_more(CLEAR_NODE, nobody, node, one);
  call.mode = mode;
  return serve(m, call, told);
}

static bs_reply served_begin_in_turn(bs_manager *m, uint64_t since, uint64_t word, uint64_t until) {
  struct call call = call_more(BEGIN_IN_TURN, nobody, nothing, since);
  call.row = word;
  call.until = until;
  return serve(m, call, NULL);
}

static bs_reply served_late_begin(bs_manager *m, uint64_t now) {
  struct call call = call_more(TAKE_LATE_BEGIN, nobody, nothing, 0);
  call.until = now;
  return serve(m, call, NULL);
}

static bs_reply served_withdraw_begin(bs_manager *m, uint64_t word) {
  struct call call = call_more(WITHDRAW_BEGIN, nobody, nothing, 0);
  call.row = word;
  return serve(m, call, NULL);
}

/* A wait that is awaited until a time: of a node, or of a path or a row that waits for `at`. */
static struct call awaiting(uint32_t kind, bs_txn txn, bs_node node, bs_mode mode, bs_node at, uint64_t until) {
  struct call call = call_more(kind, txn, node, 0);
  call.mode = mode;
  call.other = at;
  call.until = until;
  return call;
}

static bs_reply served_await_node(bs_manager *m, bs_txn txn, bs_node node, bs_mode mode, uint32_t instant,
                                  uint64_t until) {
  struct call call = awaiting(AWAIT_NODE, txn, node, mode, nothing, until);
  call.is_instant = instant != 0;
  return serve(m, call, NULL);
}

static bs_reply served_await_path(bs_manager *m, bs_txn txn, bs_node node, bs_mode mode, uint32_t instant, bs_node at,
                                  bs_mode wanted, uint64_t until) {
  struct call call = awaiting(AWAIT_PATH, txn, node, mode, at, until);
  call.is_instant = instant != 0;
  call.wanted = wanted;
  return serve(m, call, NULL);
}

static bs_reply served_await_row(bs_manager *m, uint32_t kind, bs_txn txn, bs_node file, uint64_t number,
                                 const uint64_t *keys, size_t count, bs_mode mode, bs_node at, uint64_t until) {
  struct call call = awaiting(kind, txn, file, mode, at, until);
  call.row = number;
  give_numbers(&call, keys, count);
  return serve(m, call, NULL);
}

/* The group adds files by these names. */
static bs_reply served_add_file(bs_manager *m, const bs_node *parents, size_t count) {
  return served_add(m, ADD_FILE, parents, count);
}

static bs_reply served_add_row_file(bs_manager *m, const bs_node *parents, size_t count) {
  return served_add(m, ADD_ROW_FILE, parents, count);
}

#define bs_release_since(m, txn, to, told) serve(m, call_more(RELEASE_SINCE, txn, nothing, to), told)
#define bs_adopt(m, file, keys, count) served_adopt(m, file, keys, count)
#define bs_forget(m, record) serve(m, call_more(FORGET, nobody, record, 0), NULL)
#define bs_split(m, txn, interval, at, told) serve(m, call_more(SPLIT, txn, interval, at), told)
#define bs_merge(m, txn, interval, told) serve(m, call_more(MERGE, txn, interval, 0), told)
#define bs_index_records(m, txn, parents, count, file, bounds, most, records, keys, names) \
  served_index_records(m, txn, parents, count, file, bounds, most, records, keys, names)
#define bs_call_join(m, slot, since) served_join(m, slot, since)
#define bs_call_commit_and_rest(m, txn, known, most, since, told) served_rest(m, txn, known, most, since, told)
#define bs_call_clear_way(m, one, told) serve(m, call_more(CLEAR_WAY, nobody, nothing, one), told)
#define bs_call_clear_node(m, node, mode, one, told) served_clear_node(m, node, mode, one, told)
#define bs_call_make_room(m, told) serve(m, call_more(MAKE_ROOM, nobody, nothing, 0), told)
#define bs_call_wake(m, txn) serve(m, call_more(WAKE, txn, nothing, 0), NULL)
#define bs_call_begin_in_turn(m, since, word, until) served_begin_in_turn(m, since, word, until)
#define bs_call_take_begun(m) serve(m, call_more(TAKE_BEGUN, nobody, nothing, 0), NULL)
#define bs_call_take_late_begin(m, now) served_late_begin(m, now)
#define bs_call_withdraw_begin(m, word) served_withdraw_begin(m, word)
#define bs_call_await_node(m, txn, node, mode, instant, until) served_await_node(m, txn, node, mode, instant, until)
#define bs_call_await_path(m, txn, node, mode, instant, at, wanted, until) \
  served_await_path(m, txn, node, mode, instant, at, wanted, until)
#define bs_call_await_row(m, txn, file, number, keys, count, mode, at, until) \
  served_await_row(m, AWAIT_ROW, txn, file, number, keys, count, mode, at, until)
#define bs_call_await_row_path(m, txn, file, number, keys, count, mode, at, until) \
  served_await_row(m, AWAIT_ROW_PATH, txn, file, number, keys, count, mode, at, until)
#define bs_call_climb_to_row(m, txn, file, number, keys, count, mode, at, until) \
  served_await_row(m, CLIMB_TO_ROW, txn, file, number, keys, count, mode, at, until)
#define bs_call_withdraw_waiter(m, txn) serve(m, call_more(WITHDRAW_WAITER, txn, nothing, 0), NULL)
#define bs_call_go_on(m, told) serve(m, call_more(GO_ON, nobody, nothing, 0), told)
#define bs_call_time_out(m, txn, told) serve(m, call_more(TIME_OUT, txn, nothing, 0), told)

#include "burlapslate_shared.c"

/* The group ends a wait so. */
static bool cut_sleep(bs_table *table, uint32_t slot, bs_status status) {
  bool ended;
  my_cut = status;
  ended = bs_inside_end_sleep(table, slot, status);
  my_cut = BS_DONE;
  return ended;
}

#define bs_inside_end_sleep(table, slot, status) cut_sleep(table, slot, status)
#undef bs_add_file
#undef bs_add_row_file
#define bs_add_file served_add_file
#define bs_add_row_file served_add_row_file

#include "group_world.h"

static uint32_t log_of(const bs_manager *m) {
  uint32_t number = 0;
  while (number <= group->parts && group->tables[number].manager != m) number++;
  return number;
}

/* Logs that a transaction has begun: its name, and since when its work was tried. */
static bs_txn note_begin(bs_txn txn, uint64_t since) {
  struct served *s;
  pthread_mutex_lock(&begins);
  s = next_place(MOST_LOGS - 1);
  s->call = call_more(BEGAN, txn, nothing, since < txn.age ? since : txn.age);
  pthread_mutex_unlock(&begins);
  return txn;
}

#endif
