/*
 * Stories of a table that threads share: each is a function that ends the program with status 1 at the first wrong
 * answer, and else prints its name.
 *
 *   shared [SECONDS [THREADS]]   the time that a story may take before it is said to hang, 20 if none is given; and how
 *                                many threads take turns over fewer slots, at least 256, 1000 if none is given
 *
 * It is linked with the calls for memory of memory.h.
 */
#include "burlapslate.h"
#include "memory.h"

#include <sched.h>
#include <stdarg.h>
#include <stdio.h>

/* This many begins that are handed on are refused memory: their slots are for the next. */
static int refused_begins;

static bs_reply noted_begun(bs_manager *m) {
  bs_reply begun = bs_call_take_begun(m);
  bs_reply refused = bs_call_only(BS_NO_MEMORY);
  bs_notices notices;
  if (refused_begins == 0 || begun.count == 0) return begun;
  refused_begins--;
  bs_abort(m, begun.txn, &notices);
  refused.count = begun.count;
  return refused;
}

#define bs_call_take_begun(m) noted_begun(m)

/* How many tried paths told somebody. */
static size_t told_by_tries;

static bs_reply noted_try_path(bs_manager *m, bs_txn txn, bs_node node, bs_mode mode, uint32_t keep, bs_notices *list) {
  bs_reply reply = bs_call_try_path(m, txn, node, mode, keep, list);
  if (list->count > 0) told_by_tries++;
  return reply;
}

#define bs_call_try_path(m, txn, node, mode, keep, list) noted_try_path(m, txn, node, mode, keep, list)

/* When the header makes the condition of a thread that begins to sleep for a slot, under the latch, the number of its
 * arrival is noted. */
static __thread long my_arrival;
static long arrivals;

static int noted_cond_init(pthread_cond_t *cond, const pthread_condattr_t *attributes) {
  my_arrival = ++arrivals;
  return pthread_cond_init(cond, attributes);
}

static bs_reply noted_end(bs_manager *m);
static int noted_fprintf(FILE *out, const char *format, ...) __attribute__((format(printf, 2, 3)));

#define pthread_cond_init noted_cond_init
#define bs_end(m) noted_end(m)
#define fprintf noted_fprintf

#include "burlapslate_shared.c"
#include "burlapslate_dump.c"

#undef pthread_cond_init
#undef bs_end
#undef fprintf
#undef bs_begin
#undef bs_call_try_path

#include "threads.h"

/* When the manager of an ending table is ended, it is noted how many still sleep on the table. */
static const bs_table *ending;
static size_t asleep_at_end;

static bs_reply noted_end(bs_manager *m) {
  if (ending != NULL) asleep_at_end = ending->sleepers;
  return bs_end(m);
}

/* ------------------------------------------------------------------------------------------------
 * A table with a store, and a thread that requests locks.
 */

/* A file under a root, with an index of two intervals, parted at 100, and a record in each. */
static bs_table *table;

/* When the header writes text, nobody uses the table, so its latch is free. */
static size_t texts;
static bool is_held; /* unless the story holds it */

/* A write may be a point at which a thread is cancelled. */
static __thread bool is_cancelled_in_writes;

static int noted_fprintf(FILE *out, const char *format, ...) {
  va_list words;
  int written;
  if (!is_held) {
    WANT(pthread_mutex_trylock(&table->latch) == 0);
    pthread_mutex_unlock(&table->latch);
  }
  if (is_cancelled_in_writes) pthread_testcancel();
  texts++;
  va_start(words, format);
  written = vfprintf(out, format, words);
  va_end(words);
  return written;
}

static bs_node root, file, by_key, below, above, low, high;
static bs_notices told;

static void close_table(void) {
  DONE(bs_table_end(table));
  DONE(bs_table_free(&table));
}

/* Ends the table, and checks that nobody sleeps on it when its manager is ended. */
static void end_as_all_leave(void) {
  ending = table;
  asleep_at_end = SIZE_MAX;
  DONE(bs_table_end(table));
  ending = NULL;
  WANT(asleep_at_end == 0);
}

static bs_txn begin(void) {
  return DONE(bs_table_begin(table)).txn;
}

static void set_up(uint32_t detect) {
  static const uint64_t bound = 100, keys[2] = { 50, 200 };
  bs_txn t;
  DONE(make_table(&table, detect, BS_YOUNGEST, BS_SLOTS));
  root = DONE(bs_table_add_inner(table, NULL, 0)).node;
  file = DONE(bs_table_add_file(table, &root, 1)).node;
  by_key = DONE(bs_table_add_index(table, &root, 1, file, &bound, 1)).node;
  below = DONE(ASK(table, bs_interval, by_key, 0)).node;
  above = DONE(ASK(table, bs_interval_of, by_key, 100)).node;
  t = begin();
  DONE(bs_table_lock_path(table, t, file, BS_IX, NULL));
  DONE(bs_table_lock_path(table, t, below, BS_IX, NULL));
  DONE(bs_table_lock_path(table, t, above, BS_IX, NULL));
  low = DONE(bs_table_insert(table, t, file, &keys[0], 1)).node;
  high = DONE(bs_table_insert(table, t, file, &keys[1], 1)).node;
  DONE(bs_table_commit(table, t, NULL));
}

struct requester {
  bs_txn txn;
  bs_node node;
  bs_mode mode;
  bool by_path;
  const struct timespec *until;
  bs_reply reply;
  pthread_t thread;
};

static void *ask(void *arg) {
  struct requester *a = (struct requester *)arg;
  if (a->by_path) a->reply = bs_table_lock_path(table, a->txn, a->node, a->mode, a->until);
  else a->reply = bs_table_lock(table, a->txn, a->node, a->mode, a->until);
  return NULL;
}

/* How many threads sleep in the table. */
static size_t sleepers(void) {
  size_t count;
  pthread_mutex_lock(&table->latch);
  count = table->sleepers;
  pthread_mutex_unlock(&table->latch);
  return count;
}

static void await_wait(bs_txn txn) {
  while (wait_in(table, txn).status != BS_WAITING) nap();
}

static void ask_in_thread(struct requester *a, bs_txn txn, bs_node node, bs_mode mode, bool by_path) {
  memset(a, 0, sizeof *a);
  a->txn = txn;
  a->node = node;
  a->mode = mode;
  a->by_path = by_path;
  start(&a->thread, ask, a);
}

/* A transaction requests a lock in a thread. */
static void start_asking_for(struct requester *a, bs_txn txn, bs_node node, bs_mode mode) {
  ask_in_thread(a, txn, node, mode, false);
}

/* The same, and it has to wait. */
static void send(struct requester *a, bs_txn txn, bs_node node, bs_mode mode) {
  start_asking_for(a, txn, node, mode);
  await_wait(txn);
}

static void send_by_path(struct requester *a, bs_txn txn, bs_node node, bs_mode mode) {
  ask_in_thread(a, txn, node, mode, true);
  await_wait(txn);
}

/* The thread has returned, with this status. */
static bs_reply back(struct requester *a, bs_status status) {
  join(a->thread);
  return ANSWERS(status, a->reply);
}

static bool is_told(size_t place, bs_txn txn, uint32_t kind) {
  return place < told.count && same_txn(told.at[place].txn, txn) && told.at[place].kind == kind;
}

static void holds(bs_txn txn, bs_node node, bs_mode mode) {
  WANT(ASK(table, bs_held, txn, node).mode == mode);
}

/* ------------------------------------------------------------------------------------------------
 * How a sleep ends.
 */

static void a_commit_grants(void) {
  struct requester one, two;
  bs_txn a, b, c;
  set_up(BS_AT_BLOCK);
  a = begin(), b = begin(), c = begin();
  DONE(bs_table_lock(table, a, root, BS_X, NULL));
  send(&one, b, root, BS_S);
  send(&two, c, root, BS_IS);
  DONE(bs_table_commit(table, a, &told));
  WANT(told.count == 2 && is_told(0, b, BS_TOLD_GRANTED) && is_told(1, c, BS_TOLD_GRANTED));
  WANT(back(&one, BS_DONE).mode == BS_S && back(&two, BS_DONE).mode == BS_IS);
  holds(b, root, BS_S);
  close_table();
}

static void an_unlock_grants(void) {
  struct requester one;
  bs_txn a, b;
  set_up(BS_AT_BLOCK);
  a = begin(), b = begin();
  DONE(bs_table_lock(table, a, root, BS_X, NULL));
  send(&one, b, root, BS_X);
  DONE(bs_table_unlock(table, a, root, NULL));
  WANT(back(&one, BS_DONE).mode == BS_X);
  close_table();
}

/* One commit wakes all, also in slots from 64 on. */
static void a_commit_wakes_all(void) {
  static struct requester all[BS_SLOTS - 1];
  bs_txn a;
  size_t i;
  set_up(BS_AT_BLOCK);
  a = begin();
  DONE(bs_table_lock(table, a, root, BS_X, NULL));
  for (i = 0; i < BS_SLOTS - 1; i++) send(&all[i], begin(), root, BS_IS);
  DONE(bs_table_commit(table, a, &told));
  WANT(told.count == BS_SLOTS - 1);
  for (i = 0; i < BS_SLOTS - 1; i++) WANT(back(&all[i], BS_DONE).mode == BS_IS);
  close_table();
}

/* The younger sleeps, and the older closes the cycle in this way. */
static void closes_a_cycle(void (*asks)(struct requester *a, bs_txn txn, bs_node node, bs_mode mode)) {
  struct requester one, two;
  bs_txn a, b;
  set_up(BS_AT_BLOCK);
  a = begin(), b = begin();
  DONE(bs_table_lock(table, a, root, BS_S, NULL));
  DONE(bs_table_lock(table, b, root, BS_S, NULL));
  send(&one, b, root, BS_X);
  asks(&two, a, root, BS_X);
  back(&one, BS_VICTIM);
  ANSWERS(BS_TXN_CONDEMNED, bs_table_lock(table, b, root, BS_S, NULL));
  DONE(bs_table_abort(table, b, NULL));
  WANT(back(&two, BS_DONE).mode == BS_X);
  close_table();
}

static void a_lock_condemns(void) {
  closes_a_cycle(send);
}

static void a_path_condemns(void) {
  closes_a_cycle(send_by_path);
}

/* The requester itself is the victim, and does not sleep. */
static void a_requester_is_victim(void) {
  struct requester one;
  bs_txn a, b;
  set_up(BS_AT_BLOCK);
  a = begin(), b = begin();
  DONE(bs_table_lock(table, a, root, BS_S, NULL));
  DONE(bs_table_lock(table, b, root, BS_S, NULL));
  send(&one, a, root, BS_X);
  ANSWERS(BS_VICTIM, bs_table_lock(table, b, root, BS_X, NULL));
  DONE(bs_table_abort(table, b, &told));
  WANT(told.count == 1 && is_told(0, a, BS_TOLD_GRANTED));
  back(&one, BS_DONE);
  close_table();
}

static void a_settle_condemns(void) {
  struct requester one, two;
  bs_txn a, b;
  set_up(BS_BY_WATCHER);
  a = begin(), b = begin();
  DONE(bs_table_lock(table, a, root, BS_S, NULL));
  DONE(bs_table_lock(table, b, root, BS_S, NULL));
  send(&one, a, root, BS_X);
  send(&two, b, root, BS_X);
  DONE(bs_table_settle(table, a, &told));
  WANT(told.count == 1 && is_told(0, b, BS_TOLD_VICTIM));
  back(&two, BS_VICTIM);
  DONE(bs_table_abort(table, b, NULL));
  back(&one, BS_DONE);
  close_table();
}

static void a_rekey_moves(void) {
  struct requester one;
  bs_txn a, b;
  set_up(BS_AT_BLOCK);
  a = begin(), b = begin();
  DONE(bs_table_lock_path(table, a, low, BS_X, NULL));
  DONE(bs_table_lock_path(table, a, above, BS_IX, NULL));
  DONE(bs_table_lock_path(table, b, below, BS_IX, NULL));
  DONE(bs_table_lock(table, b, file, BS_IX, NULL));
  send(&one, b, low, BS_X);
  DONE(bs_table_rekey(table, a, low, by_key, 150, &told));
  WANT(told.count == 1 && is_told(0, b, BS_TOLD_MOVED));
  back(&one, BS_MOVED);
  WANT(ASK(table, bs_key, low, 0).count == 150);
  close_table();
}

static void a_file_moves(void) {
  struct requester one;
  bs_node other;
  bs_txn a, b;
  set_up(BS_AT_BLOCK);
  other = DONE(bs_table_add_inner(table, NULL, 0)).node;
  a = begin(), b = begin();
  DONE(bs_table_lock_path(table, a, file, BS_X, NULL));
  DONE(bs_table_lock(table, a, other, BS_IX, NULL));
  DONE(bs_table_lock(table, b, root, BS_IS, NULL));
  send(&one, b, file, BS_S);
  DONE(bs_table_move(table, a, file, &other, 1, NULL));
  back(&one, BS_MOVED);
  WANT(same_node(ASK(table, bs_parent, file, 0).node, other));
  close_table();
}

static void a_record_goes(void) {
  struct requester one;
  bs_txn a, b;
  set_up(BS_AT_BLOCK);
  a = begin(), b = begin();
  DONE(bs_table_lock_path(table, a, low, BS_X, NULL));
  send_by_path(&one, b, low, BS_S);
  DONE(bs_table_delete(table, a, low, &told));
  WANT(told.count == 1 && is_told(0, b, BS_TOLD_GONE));
  back(&one, BS_GONE);
  ANSWERS(BS_NO_SUCH_NODE, ASK(table, bs_kind, low));
  close_table();
}

/* A sleeper for a node that is dropped is woken, also on the way of a path; later requests do not find the node. */
static void a_drop_ends_sleeps(void) {
  struct requester one, two;
  bs_node area, under;
  bs_txn a, b, c;
  set_up(BS_AT_BLOCK);
  area = DONE(bs_table_add_inner(table, &root, 1)).node;
  under = DONE(bs_table_add_file(table, &area, 1)).node;
  a = begin(), b = begin(), c = begin();
  DONE(bs_table_lock_path(table, a, under, BS_X, NULL));
  DONE(bs_table_lock(table, a, area, BS_X, NULL));
  DONE(bs_table_lock(table, b, root, BS_IS, NULL));
  send(&one, b, area, BS_S);
  send_by_path(&two, c, under, BS_X);
  ANSWERS(BS_HAS_CHILDREN, bs_table_drop(table, a, area, NULL));
  DONE(bs_table_drop(table, a, under, &told));
  WANT(told.count == 0);
  DONE(bs_table_drop(table, a, area, &told));
  WANT(told.count == 2 && is_told(0, b, BS_TOLD_GONE) && is_told(1, c, BS_TOLD_GONE));
  back(&one, BS_GONE);
  back(&two, BS_GONE);
  holds(c, root, BS_IX);
  ANSWERS(BS_NO_SUCH_NODE, bs_table_lock_path(table, c, under, BS_X, NULL));
  ANSWERS(BS_NO_SUCH_NODE, bs_table_lock(table, b, area, BS_S, NULL));
  close_table();
}

/* An escalation releases a child, for which a reader with another parent waits. */
static void grants_by(bs_reply (*escalate)(bs_table *, bs_txn, bs_node, bs_notices *)) {
  struct requester one;
  bs_node parents[2], child;
  bs_reply reply;
  bs_txn a, b;
  set_up(BS_AT_BLOCK);
  parents[0] = DONE(bs_table_add_inner(table, &root, 1)).node;
  parents[1] = DONE(bs_table_add_inner(table, &root, 1)).node;
  child = DONE(bs_table_add_inner(table, parents, 2)).node;
  a = begin(), b = begin();
  DONE(bs_table_lock_path(table, a, child, BS_IX, NULL));
  DONE(bs_table_lock_path(table, b, parents[1], BS_IS, NULL));
  send(&one, b, child, BS_S);
  reply = DONE(escalate(table, a, parents[0], NULL));
  WANT(reply.mode == BS_X && reply.released == 1);
  WANT(back(&one, BS_DONE).mode == BS_S);
  close_table();
}

/* A sleeper for an interval that is split is woken. A path goes on: its thread sleeps for the interval again. */
static void a_split_ends_sleeps(void) {
  struct requester one, two;
  bs_txn a, b, c;
  bs_node part;
  set_up(BS_AT_BLOCK);
  a = begin(), b = begin(), c = begin();
  DONE(bs_table_lock_path(table, a, below, BS_X, NULL));
  DONE(bs_table_lock_path(table, c, by_key, BS_IS, NULL));
  send_by_path(&one, b, below, BS_S);
  send(&two, c, below, BS_S);
  ANSWERS(BS_BAD_KEYS, bs_table_split(table, a, below, 100, &told));
  part = DONE(bs_table_split(table, a, below, 60, &told)).node;
  WANT(told.count == 2 && is_told(0, b, BS_TOLD_MOVED) && is_told(1, c, BS_TOLD_MOVED));
  back(&two, BS_MOVED);
  WANT(wait_in(table, b).status == BS_WAITING && same_node(wait_in(table, b).node, below));
  ANSWERS(BS_IN_USE, (bs_table_hold(table), bs_table_split(table, a, part, 70, NULL)));
  DONE(bs_table_let_go(table));
  DONE(bs_table_commit(table, a, &told));
  WANT(told.count == 1 && is_told(0, b, BS_TOLD_GRANTED) && back(&one, BS_DONE).mode == BS_S);
  holds(b, below, BS_S), holds(b, part, BS_NL), holds(c, below, BS_NL);
  close_table();
}

/* Reads the keys below 100: S on the intervals that have them, each as it is when those before it are held. */
static void *read_lower(void *arg) {
  struct requester *r = (struct requester *)arg;
  size_t place = 0;
  bs_node last;
  do {
    r->node = DONE(ASK(table, bs_interval, by_key, place++)).node;
    r->reply = bs_table_lock_path(table, r->txn, r->node, BS_S, NULL);
    last = DONE(ASK(table, bs_interval_of, by_key, 99)).node;
  } while (r->reply.status == BS_DONE && !same_node(r->node, last));
  return NULL;
}

/* A reader of a range sleeps while that is split, twice, and then has the intervals as they are. */
static void a_reader_of_a_range_follows_its_splits(void) {
  struct requester one;
  bs_txn a, b;
  bs_node second, third;
  set_up(BS_AT_BLOCK);
  a = begin(), b = begin();
  DONE(bs_table_lock_path(table, a, below, BS_X, NULL));
  memset(&one, 0, sizeof one);
  one.txn = b;
  start(&one.thread, read_lower, &one);
  await_wait(b);
  third = DONE(bs_table_split(table, a, below, 60, NULL)).node;
  await_wait(b);
  second = DONE(bs_table_split(table, a, below, 30, NULL)).node;
  DONE(bs_table_commit(table, a, NULL));
  back(&one, BS_DONE);
  holds(b, below, BS_S), holds(b, second, BS_S), holds(b, third, BS_S), holds(b, above, BS_NL);
  WANT(same_node(ASK(table, bs_parent, low, 1).node, second));
  close_table();
}

/* A merge wakes each sleeper for the interval that goes, also on a path, and none for the one that stays. */
static void a_merge_ends_sleeps(void) {
  struct requester one, two, three;
  bs_txn a, b, c, d;
  set_up(BS_AT_BLOCK);
  a = begin(), b = begin(), c = begin(), d = begin();
  DONE(bs_table_lock_path(table, a, below, BS_X, NULL));
  DONE(bs_table_lock_path(table, c, by_key, BS_IX, NULL));
  DONE(bs_table_lock_path(table, d, by_key, BS_IS, NULL));
  ANSWERS(BS_NEED_EXCLUSIVE, bs_table_merge(table, a, below, &told));
  DONE(bs_table_lock_path(table, a, above, BS_X, NULL));
  send_by_path(&one, b, above, BS_S);
  send(&two, c, above, BS_IX);
  send(&three, d, below, BS_S);
  DONE(bs_table_merge(table, a, below, &told));
  WANT(told.count == 2 && is_told(0, b, BS_TOLD_GONE) && is_told(1, c, BS_TOLD_GONE));
  back(&one, BS_GONE);
  back(&two, BS_GONE);
  ANSWERS(BS_NO_SUCH_NODE, bs_table_lock_path(table, b, above, BS_S, NULL));
  WANT(same_node(wait_in(table, d).node, below));
  DONE(bs_table_commit(table, a, NULL));
  WANT(back(&three, BS_DONE).mode == BS_S);
  WANT(same_node(ASK(table, bs_parent, high, 1).node, below));
  close_table();
}

static void an_escalation_grants(void) {
  grants_by(bs_table_escalate);
  grants_by(bs_table_escalate);
}

/* Another thread cancels the wait: the transaction is active then. */
static void a_cancel_ends_a_sleep(void) {
  struct requester one;
  bs_txn a, b;
  set_up(BS_AT_BLOCK);
  a = begin(), b = begin();
  DONE(bs_table_lock(table, a, root, BS_X, NULL));
  send(&one, b, root, BS_X);
  DONE(bs_table_cancel(table, b, &told));
  WANT(told.count == 0);
  back(&one, BS_NOT_WAITING);
  ANSWERS(BS_WOULD_BLOCK, bs_table_try(table, b, root, BS_IS));
  ANSWERS(BS_NOT_WAITING, bs_table_cancel(table, b, NULL));
  close_table();
}

/* And the waiter after it is granted. */
static void a_cancel_grants(void) {
  struct requester one, two;
  bs_txn a, b, c;
  set_up(BS_AT_BLOCK);
  a = begin(), b = begin(), c = begin();
  DONE(bs_table_lock(table, a, root, BS_S, NULL));
  send(&one, b, root, BS_X);
  send(&two, c, root, BS_S);
  DONE(bs_table_cancel(table, b, NULL));
  back(&one, BS_NOT_WAITING);
  back(&two, BS_DONE);
  close_table();
}

/* Another thread ends the transaction, and one that begins then may have its slot. */
static void an_abort_ends_a_sleep(void) {
  struct requester one;
  bs_txn a, b, c;
  set_up(BS_AT_BLOCK);
  a = begin(), b = begin();
  DONE(bs_table_lock(table, a, root, BS_X, NULL));
  send(&one, b, root, BS_X);
  DONE(bs_table_abort(table, b, NULL));
  c = begin();
  WANT(c.slot == b.slot && c.age != b.age);
  back(&one, BS_NO_SUCH_TXN);
  close_table();
}

/* A thread leaves its transaction open and ends. */
static void *leave_open(void *arg) {
  bs_txn *left = (bs_txn *)arg;
  *left = begin();
  DONE(bs_table_lock_path(table, *left, low, BS_X, NULL));
  return NULL;
}

static void a_thread_dies(void) {
  struct requester one;
  bs_txn left, b;
  pthread_t thread;
  set_up(BS_AT_BLOCK);
  b = begin();
  start(&thread, leave_open, &left);
  join(thread);
  send_by_path(&one, b, low, BS_X);
  DONE(bs_table_abort(table, left, NULL));
  WANT(back(&one, BS_DONE).mode == BS_X);
  close_table();
}

/* It sleeps on through wakes without a reason, and while others use other nodes. */
static void an_idle_wake(void) {
  struct requester one;
  bs_txn a, b, c;
  int i;
  set_up(BS_AT_BLOCK);
  a = begin(), b = begin();
  DONE(bs_table_lock_path(table, a, low, BS_X, NULL));
  send_by_path(&one, b, low, BS_S);
  for (i = 0; i < 500; i++) {
    pthread_mutex_lock(&table->latch);
    pthread_cond_broadcast(&table->ended[b.slot]);
    pthread_mutex_unlock(&table->latch);
    c = begin();
    DONE(bs_table_lock_path(table, c, high, BS_X, NULL));
    DONE(bs_table_commit(table, c, NULL));
    ANSWERS(BS_WAITING, wait_in(table, b));
  }
  WANT(one.reply.status == 0 && one.reply.mode == BS_NL);
  DONE(bs_table_commit(table, a, NULL));
  WANT(back(&one, BS_DONE).mode == BS_S);
  close_table();
}

/* A thread that is cancelled in its sleep sleeps on, and ends after its call. */
struct cancelled {
  bs_txn txn; /* it waits for the root; with no name, for a slot */
  bool begins;
  bs_reply reply;
  pthread_t thread;
};

static void *sleep_to_the_end(void *arg) {
  struct cancelled *c = (struct cancelled *)arg;
  c->reply = c->begins ? bs_table_begin_in_turn(table, NULL) : bs_table_lock(table, c->txn, root, BS_X, NULL);
  pthread_testcancel();
  return NULL;
}

static void a_thread_is_cancelled(bool begins) {
  struct cancelled c;
  void *came = NULL;
  bs_txn a;
  memset(&c, 0, sizeof c);
  DONE(make_table(&table, BS_AT_BLOCK, BS_YOUNGEST, 2));
  root = DONE(bs_table_add_inner(table, NULL, 0)).node;
  a = begin(), c.txn = begin();
  c.begins = begins;
  DONE(bs_table_lock(table, a, root, BS_X, NULL));
  start(&c.thread, sleep_to_the_end, &c);
  while (sleepers() != 1) nap();
  WANT(pthread_cancel(c.thread) == 0);
  nap();
  WANT(sleepers() == 1);
  DONE(bs_table_commit(table, a, NULL));
  WANT(pthread_join(c.thread, &came) == 0 && came == PTHREAD_CANCELED);
  DONE(c.reply);
  close_table();
}

static void a_thread_is_cancelled_in_its_sleep(void) {
  a_thread_is_cancelled(false);
  a_thread_is_cancelled(true);
}

/* ------------------------------------------------------------------------------------------------
 * Times.
 */

static bool is_over(const struct timespec *until) {
  struct timespec now;
  clock_gettime(CLOCK_MONOTONIC, &now);
  return now.tv_sec > until->tv_sec || (now.tv_sec == until->tv_sec && now.tv_nsec >= until->tv_nsec);
}

/* Whether `later` is at least this many milliseconds after `sooner`, and less than a minute more. */
static bool lies_behind(const struct timespec *sooner, const struct timespec *later, uint64_t milliseconds) {
  int64_t apart = (int64_t)(later->tv_sec - sooner->tv_sec) * 1000000000 + (later->tv_nsec - sooner->tv_nsec);
  int64_t least = (int64_t)milliseconds * 1000000;
  return apart >= least && apart < least + (int64_t)60 * 1000000000;
}

/* A time ahead is valid, and as far ahead as was said. */
static void a_time_ahead(void) {
  static const uint64_t far[] = { 0, 1, 999, 1000, 1001, 86400000, 4294967296 };
  size_t i, ms;
  for (i = 0; i < sizeof far / sizeof *far; i++) {
    struct timespec before = moment_in(0), time = bs_after(far[i]);
    WANT(table_is_time(&time) && lies_behind(&before, &time, far[i]));
  }
  for (ms = 0; ms < 1000; ms++) {
    struct timespec time = bs_after(ms);
    WANT(table_is_time(&time));
  }
}

static void a_time_comes(void) {
  struct timespec until = moment_in(2000), wrong = moment_in(0);
  struct requester two;
  bs_txn a, b, c;
  set_up(BS_AT_BLOCK);
  a = begin(), b = begin(), c = begin();
  DONE(bs_table_lock(table, a, root, BS_S, NULL));
  ANSWERS(BS_TIMED_OUT, bs_table_lock(table, b, root, BS_X, &until));
  WANT(is_over(&until));
  ANSWERS(BS_NOT_WAITING, wait_in(table, b));
  DONE(bs_table_lock(table, b, root, BS_IS, &until));
  wrong.tv_nsec = 1000000000;
  ANSWERS(BS_BAD_NUMBER, bs_table_lock(table, b, root, BS_IS, &wrong));
  ANSWERS(BS_BAD_NUMBER, bs_table_await(table, b, root, BS_IS, &wrong));
  ANSWERS(BS_BAD_NUMBER, bs_table_lock_path(table, b, root, BS_IS, &wrong));
  wrong.tv_nsec = -1;
  ANSWERS(BS_BAD_NUMBER, bs_table_lock(table, b, root, BS_IS, &wrong));
  send(&two, b, root, BS_X);
  until = moment_in(1000);
  ANSWERS(BS_TIMED_OUT, bs_table_lock(table, c, root, BS_IS, &until));
  DONE(bs_table_commit(table, a, NULL));
  back(&two, BS_DONE);
  close_table();
}

/* Each wait of a transaction ends at its deadline at the latest; no wait of the next transaction in its slot does. */
static void a_deadline_of_its_own(void) {
  struct timespec soon = moment_in(2000), far = moment_in(60000000), wrong = far;
  struct requester two;
  bs_txn a, b, c;
  set_up(BS_AT_BLOCK);
  a = begin(), b = begin();
  DONE(bs_table_lock(table, a, root, BS_X, NULL));
  DONE(bs_table_deadline(table, b, &soon));
  ANSWERS(BS_TIMED_OUT, bs_table_lock(table, b, root, BS_S, NULL));
  WANT(is_over(&soon));
  ANSWERS(BS_TIMED_OUT, bs_table_lock(table, b, root, BS_S, &far));
  ANSWERS(BS_TIMED_OUT, bs_table_lock_path(table, b, root, BS_S, NULL));
  DONE(bs_table_deadline(table, b, &far));
  soon = moment_in(2000);
  ANSWERS(BS_TIMED_OUT, bs_table_lock(table, b, root, BS_S, &soon));
  wrong.tv_nsec = 1000000000;
  ANSWERS(BS_BAD_NUMBER, bs_table_deadline(table, b, &wrong));
  DONE(bs_table_deadline(table, b, &soon));
  DONE(bs_table_deadline(table, b, NULL));
  send(&two, b, root, BS_S);
  DONE(bs_table_commit(table, a, NULL));
  back(&two, BS_DONE);
  DONE(bs_table_deadline(table, b, &soon));
  DONE(bs_table_commit(table, b, NULL));
  ANSWERS(BS_NO_SUCH_TXN, bs_table_deadline(table, b, &soon));
  a = begin(), c = begin();
  WANT(c.slot == b.slot);
  DONE(bs_table_lock(table, a, root, BS_X, NULL));
  send(&two, c, root, BS_S);
  DONE(bs_table_commit(table, a, NULL));
  back(&two, BS_DONE);
  DONE(bs_table_end(table));
  ANSWERS(BS_NO_MANAGER, bs_table_deadline(table, c, &soon));
  DONE(bs_table_free(&table));
}

/* A waiter whose time is over lets the waiter after it be granted. */
static void a_time_comes_and_grants(void) {
  struct timespec until = moment_in(100000);
  struct requester one, two;
  bs_txn a, b, c;
  set_up(BS_AT_BLOCK);
  a = begin(), b = begin(), c = begin();
  DONE(bs_table_lock(table, a, root, BS_S, NULL));
  memset(&one, 0, sizeof one);
  one.txn = b, one.node = root, one.mode = BS_X, one.until = &until;
  two = one;
  two.txn = c, two.mode = BS_S, two.until = NULL;
  start(&one.thread, ask, &one);
  nap();
  start(&two.thread, ask, &two);
  back(&one, BS_TIMED_OUT);
  WANT(back(&two, BS_DONE).mode == BS_S);
  close_table();
}

/* Acquires the latch while a transaction waits, and returns the manager for a command; null if its wait, the first of
 * the table, is already over. */
static bs_manager *hold_in_wait(bs_txn txn) {
  bs_counts counts;
  memset(&counts, 0, sizeof counts);
  for (;;) {
    const bs_manager *m = bs_table_hold(table);
    if (wait_of(m, txn).status == BS_WAITING) return &table->manager;
    DONE(bs_counters(m, &counts));
    bs_table_let_go(table);
    if (counts.waited > 0) return NULL;
    nap();
  }
}

/* The time is over, and then, before the sleeper has the latch again, the lock is granted. False: this machine was too
 * slow to see it wait. */
static bool grants_behind_the_time(long microseconds) {
  struct timespec until;
  struct requester one;
  bs_manager *m;
  bs_txn a, b;
  set_up(BS_AT_BLOCK);
  a = begin(), b = begin();
  DONE(bs_table_lock(table, a, root, BS_X, NULL));
  until = moment_in(microseconds);
  memset(&one, 0, sizeof one);
  one.txn = b, one.node = root, one.mode = BS_X, one.until = &until;
  start(&one.thread, ask, &one);
  m = hold_in_wait(b);
  if (m != NULL) {
    while (!is_over(&until)) nap();
    nap();
    DONE(bs_commit(m, a, &told));
    table_wake_told(table, &told);
    bs_table_let_go(table);
  }
  WANT(back(&one, m == NULL ? BS_TIMED_OUT : BS_DONE).mode == (m == NULL ? BS_NL : BS_X));
  holds(b, root, m == NULL ? BS_NL : BS_X);
  close_table();
  return m != NULL;
}

static void a_grant_behind_the_time(void) {
  long microseconds = 50000;
  while (!grants_behind_the_time(microseconds)) microseconds *= 2;
}

/* Times and grants at the same moment, again and again: a lock is held or it is not. */
static void times_and_grants(void) {
  uint64_t dice = 88172645463325252u;
  long granted = 0, late = 0;
  int i;
  set_up(BS_AT_BLOCK);
  for (i = 0; i < 200; i++) {
    bs_txn a = begin(), b = begin();
    struct timespec until = moment_in(60 + (long)roll(&dice, 60)), pause = { 0, 0 };
    struct requester one;
    DONE(bs_table_lock(table, a, root, BS_X, NULL));
    memset(&one, 0, sizeof one);
    one.txn = b, one.node = root, one.mode = BS_X, one.until = &until;
    start(&one.thread, ask, &one);
    pause.tv_nsec = (long)roll(&dice, 80000);
    nanosleep(&pause, NULL);
    DONE(bs_table_commit(table, a, NULL));
    join(one.thread);
    WANT(one.reply.status == BS_DONE || one.reply.status == BS_TIMED_OUT);
    holds(b, root, one.reply.status == BS_DONE ? BS_X : BS_NL);
    if (one.reply.status == BS_DONE) granted++;
    else late++;
    DONE(bs_table_commit(table, b, NULL));
  }
  WANT(granted + late == 200);
  close_table();
}

/* ------------------------------------------------------------------------------------------------
 * Begins that sleep for a slot.
 */

/* A table with this many slots, and only a root. */
static void set_up_slots(uint32_t most) {
  DONE(make_table(&table, BS_AT_BLOCK, BS_YOUNGEST, most));
  root = DONE(bs_table_add_inner(table, NULL, 0)).node;
}

/* A thread that begins a transaction, for new work or, if `since` is not 0, for that of an earlier begin. */
struct beginner {
  uint64_t since;
  const struct timespec *until;
  bs_reply reply;
  pthread_t thread;
};

static void *begin_in_turn(void *arg) {
  struct beginner *b = (struct beginner *)arg;
  if (b->since == 0) b->reply = bs_table_begin_in_turn(table, b->until);
  else b->reply = bs_table_begin_again_in_turn(table, b->since, b->until);
  return NULL;
}

static void await_sleepers(size_t count) {
  while (sleepers() != count) nap();
}

static void start_to_begin(struct beginner *b, uint64_t since, const struct timespec *until) {
  memset(b, 0, sizeof *b);
  b->since = since;
  b->until = until;
  start(&b->thread, begin_in_turn, b);
}

/* A thread enters the begin queue, the last of this many. */
static void enter_begin_queue(struct beginner *b, size_t count) {
  start_to_begin(b, 0, NULL);
  await_sleepers(count);
}

static bs_txn begun(struct beginner *b) {
  join(b->thread);
  return DONE(b->reply).txn;
}

/* The calls that end a transaction, by their numbers: each gives its slot to a begin that sleeps. */
enum { WAYS_TO_END = 5 };

static void end_by(int way, bs_txn txn) {
  bs_command list[1];
  switch (way) {
    case 0: DONE(bs_table_commit(table, txn, NULL)); break;
    case 1: DONE(bs_table_abort(table, txn, NULL)); break;
    case 2:
    case 3:
      list[0] = bs_do(way == 2 ? BS_DO_COMMIT : BS_DO_ABORT, txn);
      WANT(bs_table_run(table, list, 1) == 1);
      break;
    default:
      WANT(bs_table_hold(table) != NULL);
      DONE(bs_commit(&table->manager, txn, &told));
      DONE(bs_table_let_go(table));
  }
}

static void a_begin_sleeps_for_a_slot(void) {
  static const struct timespec wrong = { 0, 1000000000 };
  struct timespec past = moment_in(0);
  struct beginner one;
  bs_txn holder, next;
  int way;
  set_up_slots(1);
  holder = DONE(bs_table_begin_in_turn(table, NULL)).txn;
  for (way = 0; way < WAYS_TO_END; way++) {
    enter_begin_queue(&one, 1);
    end_by(way, holder);
    next = begun(&one);
    WANT(next.slot == holder.slot && next.age == holder.age + 1);
    holder = next;
  }
  ANSWERS(BS_TIMED_OUT, bs_table_begin_in_turn(table, &past));
  ANSWERS(BS_BAD_NUMBER, bs_table_begin_in_turn(table, &wrong));
  DONE(bs_table_commit(table, holder, NULL));
  holder = DONE(bs_table_begin_in_turn(table, &past)).txn;
  DONE(bs_table_end(table));
  ANSWERS(BS_NO_MANAGER, bs_table_begin_in_turn(table, NULL));
  DONE(bs_table_free(&table));
  ANSWERS(BS_NULL_POINTER, bs_table_begin_in_turn(NULL, NULL));
}

enum { MOST_BEGINNERS = BS_SLOTS < 500 ? 1000 : 2 * BS_SLOTS };

static size_t beginners = MOST_BEGINNERS;

/* A thread that works in a transaction: the number of its arrival in the begin queue, 0 if it did not sleep, and its
 * age. */
struct worker {
  long arrival;
  uint64_t age;
  pthread_t thread;
};

/* How many have done their work, protected by the root's lock. */
static long worked;

static void *work_in_turn(void *arg) {
  struct worker *w = (struct worker *)arg;
  bs_txn txn = DONE(bs_table_begin_in_turn(table, NULL)).txn;
  w->arrival = my_arrival;
  w->age = txn.age;
  DONE(bs_table_lock(table, txn, root, BS_X, NULL));
  worked++;
  DONE(bs_table_commit(table, txn, NULL));
  return NULL;
}

static int by_age(const void *one, const void *other) {
  uint64_t a = ((const struct worker *)one)->age, b = ((const struct worker *)other)->age;
  return (a > b) - (a < b);
}

/* Many threads over fewer slots do their work once each. Half of them sleep; while the others arrive, one slot after
 * the other is freed. Those that slept began in the order of their arrival, and no two had the same age. */
static void begins_over(uint32_t most) {
  static struct worker all[MOST_BEGINNERS];
  bs_txn held[BS_SLOTS];
  long before = 0;
  size_t i, freed = 0, slept = 0, half = beginners / 2;
  set_up_slots(most);
  worked = 0;
  for (i = 0; i < most; i++) held[i] = begin();
  for (i = 1; i <= 2 * half; i++) {
    start(&all[i - 1].thread, work_in_turn, &all[i - 1]);
    if (i == half) await_sleepers(half);
    if (i > half && (i - half) * most >= (freed + 1) * half) DONE(bs_table_commit(table, held[freed++], NULL));
  }
  for (i = 0; i < 2 * half; i++) join(all[i].thread);
  qsort(all, 2 * half, sizeof all[0], by_age);
  for (i = 0; i < 2 * half; i++) {
    WANT(all[i].age == held[most - 1].age + i + 1);
    if (all[i].arrival == 0) continue;
    WANT(all[i].arrival > before);
    before = all[i].arrival;
    slept++;
  }
  WANT(freed == most && worked == (long)(2 * half) && slept >= half && ASK(table, bs_living, 0).status == BS_NO_PLACE);
  close_table();
}

static void begins_over_all_slots(void) {
  begins_over(BS_SLOTS);
}

static void begins_over_four_slots(void) {
  begins_over(4);
}

/* Not even while the earlier one is still asleep with its slot. */
static void a_later_begin_does_not_pass(void) {
  struct timespec past = moment_in(0);
  struct beginner one, two;
  bs_command list[2];
  bs_txn a, b, first;
  int i;
  set_up_slots(2);
  a = begin(), b = begin();
  enter_begin_queue(&one, 1);
  enter_begin_queue(&two, 2);
  ANSWERS(BS_TOO_MANY_TXNS, bs_table_begin(table));
  list[0] = bs_do(BS_DO_COMMIT, a), list[1] = bs_do(BS_DO_BEGIN, bs_begun());
  WANT(bs_table_run(table, list, 2) == 1 && list[1].reply.status == BS_TOO_MANY_TXNS);
  ANSWERS(BS_TOO_MANY_TXNS, bs_table_begin(table));
  ANSWERS(BS_TIMED_OUT, bs_table_begin_in_turn(table, &past));
  first = begun(&one);
  WANT(first.age == b.age + 1);
  DONE(bs_table_commit(table, b, NULL));
  ANSWERS(BS_TOO_MANY_TXNS, bs_table_begin(table));
  WANT(begun(&two).age == first.age + 1);
  list[0] = bs_do(BS_DO_COMMIT, first);
  for (i = 0; i < 3; i++) {
    WANT(bs_table_run(table, list, 2) == 2); /* Nobody sleeps for the slot any more. */
    list[0] = bs_do(BS_DO_COMMIT, list[1].reply.txn);
  }
  close_table();
}

/* Of two transactions that read the root and both want to write it, the one in `victim` is the victim. Both end. */
static void is_victim_to(bs_txn victim, bs_txn stays) {
  bs_command list[1];
  ANSWERS(BS_DONE, bs_table_lock(table, victim, root, BS_S, NULL));
  ANSWERS(BS_DONE, bs_table_lock(table, stays, root, BS_S, NULL));
  list[0] = bs_do_at(BS_DO_LOCK, stays, root, BS_X);
  WANT(bs_table_run(table, list, 1) == 0 && list[0].reply.status == BS_WAITING);
  ANSWERS(BS_VICTIM, bs_table_lock(table, victim, root, BS_X, NULL));
  DONE(bs_table_abort(table, victim, NULL));
  WANT(DONE(bs_table_await(table, stays, root, BS_X, NULL)).mode == BS_X);
  DONE(bs_table_commit(table, stays, NULL));
}

/* The victim is the transaction whose work began last, whichever has the greater age. */
static void a_victim_keeps_its_turn(void) {
  bs_command list[2];
  bs_txn first, other, again;
  set_up(BS_AT_BLOCK);
  first = begin();
  DONE(bs_table_abort(table, first, NULL));
  other = begin(), again = DONE(bs_table_begin_again(table, first.age)).txn;
  WANT(again.age == other.age + 1);
  is_victim_to(other, again);
  other = begin(), again = DONE(bs_table_begin_again(table, other.age)).txn;
  is_victim_to(again, other);
  other = begin(), again = DONE(bs_table_begin_again(table, UINT64_MAX)).txn;
  is_victim_to(again, other);
  other = begin(), again = DONE(bs_table_begin_again(table, 0)).txn;
  is_victim_to(other, again);
  other = begin(), again = DONE(bs_table_begin_again_in_turn(table, first.age, NULL)).txn;
  is_victim_to(other, again);
  other = begin();
  list[0] = bs_do(BS_DO_BEGIN_AGAIN, bs_begun()), list[0].number = first.age;
  list[1] = bs_do_at(BS_DO_LOCK, bs_begun(), root, BS_S);
  WANT(bs_table_run(table, list, 2) == 2 && list[0].reply.txn.age == other.age + 1);
  is_victim_to(other, list[0].reply.txn);
  close_table();
}

/* A renewed transaction keeps its intentions under another name, and is as young as one that begins. */
static void a_renewal_keeps_intentions(void) {
  bs_command list[3];
  bs_txn old, new, other;
  set_up(BS_AT_BLOCK);
  old = begin();
  DONE(bs_table_lock(table, old, root, BS_IX, NULL));
  other = begin();
  new = DONE(bs_table_renew(table, old, UINT64_MAX)).txn;
  WANT(new.slot == old.slot && new.age == other.age + 1);
  ANSWERS(BS_NO_SUCH_TXN, bs_table_commit(table, old, NULL));
  ANSWERS(BS_WOULD_BLOCK, bs_table_try(table, other, root, BS_S));
  list[0] = bs_do(BS_DO_RENEW, new), list[0].number = old.age;
  list[1] = bs_do_at(BS_DO_LOCK, bs_begun(), root, BS_SIX);
  list[2] = bs_do(BS_DO_RENEW, bs_begun());
  WANT(bs_table_run(table, list, 3) == 2 && list[2].reply.status == BS_NEED_RELEASE);
  WANT(list[0].reply.txn.slot == old.slot && list[1].reply.mode == BS_SIX);
  ANSWERS(BS_NEED_RELEASE, bs_table_renew(table, list[0].reply.txn, 0));
  DONE(bs_table_commit(table, list[0].reply.txn, NULL));
  DONE(bs_table_commit(table, other, NULL));
  close_table();
}

/* In the begin queue old work has no earlier place; it keeps its turn after that. */
static void a_begin_again_sleeps_for_a_slot(void) {
  struct beginner one, two;
  bs_command list[1];
  bs_txn a, b, new_work, old_work;
  set_up_slots(2);
  a = begin(), b = begin();
  enter_begin_queue(&one, 1);
  start_to_begin(&two, a.age, NULL);
  await_sleepers(2);
  ANSWERS(BS_TOO_MANY_TXNS, bs_table_begin_again(table, a.age));
  list[0] = bs_do(BS_DO_BEGIN_AGAIN, bs_begun());
  WANT(bs_table_run(table, list, 1) == 0 && list[0].reply.status == BS_TOO_MANY_TXNS);
  DONE(bs_table_commit(table, a, NULL));
  new_work = begun(&one);
  DONE(bs_table_commit(table, b, NULL));
  old_work = begun(&two);
  WANT(new_work.age == b.age + 1 && old_work.age == new_work.age + 1);
  is_victim_to(new_work, old_work);
  close_table();
}

/* A list may free several slots: each is given to a sleeping begin after the last command. */
static void a_list_frees_slots(void) {
  struct beginner one, two;
  bs_command list[2];
  bs_txn a, b;
  set_up_slots(2);
  a = begin(), b = begin();
  enter_begin_queue(&one, 1);
  enter_begin_queue(&two, 2);
  list[0] = bs_do(BS_DO_COMMIT, a), list[1] = bs_do(BS_DO_ABORT, b);
  WANT(bs_table_run(table, list, 2) == 2);
  a = begun(&one);
  WANT(begun(&two).age == a.age + 1);
  close_table();
}

/* Whether the last of this many has entered the begin queue before a time. */
static bool enters_begin_queue(size_t count, const struct timespec *until) {
  while (sleepers() != count && !is_over(until)) nap();
  return sleepers() == count;
}

/* Of five the first, the third and the last have this much time. False: this machine was too slow for that. */
static bool some_leave_the_begin_queue_in(long microseconds) {
  struct timespec until;
  struct beginner all[5];
  bool is_in_time = true;
  bs_txn holder, next;
  size_t i;
  set_up_slots(1);
  holder = begin();
  until = moment_in(microseconds);
  for (i = 0; i < 5; i++) {
    start_to_begin(&all[i], 0, i % 2 == 0 ? &until : NULL);
    is_in_time = enters_begin_queue(i + 1, &until) && is_in_time;
  }
  for (i = 0; i < 5; i += 2) {
    join(all[i].thread);
    ANSWERS(BS_TIMED_OUT, all[i].reply);
  }
  WANT(is_over(&until));
  await_sleepers(2);
  for (i = 1; i < 5 && is_in_time; i += 2) {
    DONE(bs_table_commit(table, holder, NULL));
    next = begun(&all[i]);
    WANT(next.age == holder.age + 1);
    holder = next;
  }
  if (is_in_time) {
    DONE(bs_table_commit(table, holder, NULL));
    begin();
  }
  close_table();
  for (i = 1; i < 5 && !is_in_time; i += 2) join(all[i].thread);
  return is_in_time;
}

/* Begins whose time is over leave the begin queue at its front, in the middle and at its end; the others keep their
 * order. */
static void some_leave_the_begin_queue(void) {
  long microseconds = 50000;
  while (!some_leave_the_begin_queue_in(microseconds)) microseconds *= 2;
}

/* The time is over, and then, before the sleeper has the latch again, a slot is free. False: this machine was too slow
 * to see it in the begin queue. */
static bool begins_behind_the_time(long microseconds) {
  struct timespec until;
  struct beginner one;
  bool is_in_begin_queue = false;
  bs_txn a;
  set_up_slots(1);
  a = begin();
  until = moment_in(microseconds);
  start_to_begin(&one, 0, &until);
  while (!is_in_begin_queue && !is_over(&until)) {
    nap();
    WANT(bs_table_hold(table) != NULL);
    is_in_begin_queue = table->queued > 0;
    if (!is_in_begin_queue) bs_table_let_go(table);
  }
  if (is_in_begin_queue) {
    while (!is_over(&until)) nap();
    nap();
    DONE(bs_commit(&table->manager, a, &told));
    bs_table_let_go(table);
  }
  join(one.thread);
  WANT(one.reply.status == (is_in_begin_queue ? BS_DONE : BS_TIMED_OUT));
  close_table();
  return is_in_begin_queue;
}

static void a_begin_behind_the_time(void) {
  long microseconds = 20000;
  while (!begins_behind_the_time(microseconds)) microseconds *= 2;
}

/* Times and turns at the same moment, again and again: one has begun, or its slot is free. */
static void times_and_begins(void) {
  uint64_t dice = 88172645463325252u;
  int i;
  set_up_slots(1);
  for (i = 0; i < 200; i++) {
    bs_txn a = begin();
    struct timespec until = moment_in(60 + (long)roll(&dice, 60)), pause = { 0, 0 };
    struct beginner one;
    start_to_begin(&one, 0, &until);
    pause.tv_nsec = (long)roll(&dice, 80000);
    nanosleep(&pause, NULL);
    DONE(bs_table_commit(table, a, NULL));
    join(one.thread);
    WANT(one.reply.status == BS_DONE || one.reply.status == BS_TIMED_OUT);
    if (one.reply.status == BS_DONE) {
      ANSWERS(BS_TOO_MANY_TXNS, bs_table_begin(table));
      DONE(bs_table_commit(table, one.reply.txn, NULL));
    }
  }
  close_table();
}

/* A table that ends wakes the begin queue and the sleepers for locks, and waits until all have left. */
static void an_end_with_a_begin_queue(void) {
  static struct beginner queued[200];
  struct timespec until = moment_in(60000000);
  struct requester requester;
  bs_txn a, b;
  size_t i;
  set_up_slots(2);
  a = begin(), b = begin();
  DONE(bs_table_lock(table, a, root, BS_X, NULL));
  send(&requester, b, root, BS_X);
  for (i = 0; i < 200; i++) start_to_begin(&queued[i], 0, i % 2 == 0 ? &until : NULL);
  await_sleepers(201);
  end_as_all_leave();
  back(&requester, BS_NO_MANAGER);
  for (i = 0; i < 200; i++) {
    join(queued[i].thread);
    ANSWERS(BS_NO_MANAGER, queued[i].reply);
  }
  DONE(bs_table_free(&table));
}

/* ------------------------------------------------------------------------------------------------
 * Paths.
 */

static void paths(void) {
  bs_node chain[40], deep;
  bs_txn a, b;
  size_t i;
  set_up(BS_AT_BLOCK);
  a = begin(), b = begin();
  WANT(DONE(bs_table_lock_path(table, a, low, BS_X, NULL)).mode == BS_X);
  holds(a, root, BS_IX), holds(a, file, BS_IX), holds(a, by_key, BS_IX), holds(a, below, BS_IX);
  holds(a, above, BS_NL);
  WANT(DONE(bs_table_lock_path(table, b, high, BS_S, NULL)).mode == BS_S);
  holds(b, root, BS_IS), holds(b, file, BS_IS), holds(b, by_key, BS_NL), holds(b, above, BS_NL);
  DONE(bs_table_commit(table, b, NULL));
  b = begin();
  DONE(bs_table_lock_path(table, b, above, BS_IS, NULL));
  DONE(bs_table_lock_path(table, b, high, BS_S, NULL));
  holds(b, file, BS_NL);
  WANT(DONE(bs_table_lock_path(table, a, low, BS_S, NULL)).mode == BS_X);
  ANSWERS(BS_BAD_MODE, bs_table_lock_path(table, a, low, BS_IX, NULL));
  ANSWERS(BS_BAD_NUMBER, bs_table_lock_path(table, a, low, 6, NULL));
  chain[0] = root;
  for (i = 1; i < 40; i++) chain[i] = DONE(bs_table_add_inner(table, &chain[i - 1], 1)).node;
  deep = chain[39];
  DONE(bs_table_lock_path(table, a, deep, BS_X, NULL));
  for (i = 0; i < 39; i++) holds(a, chain[i], BS_IX);
  holds(a, deep, BS_X);
  close_table();
}

/* Each lock of a path is waited for in turn. */
static void a_path_waits_twice(void) {
  struct requester one;
  bs_txn a, b, c;
  set_up(BS_AT_BLOCK);
  a = begin(), b = begin(), c = begin();
  DONE(bs_table_lock_path(table, a, low, BS_S, NULL));
  DONE(bs_table_lock_path(table, c, below, BS_S, NULL));
  send_by_path(&one, b, low, BS_X);
  WANT(same_node(wait_in(table, b).node, below));
  DONE(bs_table_commit(table, c, NULL));
  while (!same_node(wait_in(table, b).node, low)) nap();
  DONE(bs_table_commit(table, a, NULL));
  WANT(back(&one, BS_DONE).mode == BS_X);
  holds(b, below, BS_IX);
  close_table();
}

/* A record that moves while its path waits is locked at its new place. */
static void a_path_moves(void) {
  struct requester one;
  bs_txn a, b;
  set_up(BS_AT_BLOCK);
  a = begin(), b = begin();
  DONE(bs_table_lock_path(table, a, low, BS_X, NULL));
  DONE(bs_table_lock_path(table, a, above, BS_IX, NULL));
  send_by_path(&one, b, low, BS_X);
  DONE(bs_table_rekey(table, a, low, by_key, 150, &told));
  WANT(told.count == 1 && is_told(0, b, BS_TOLD_MOVED));
  DONE(bs_table_commit(table, a, NULL));
  WANT(back(&one, BS_DONE).mode == BS_X);
  holds(b, above, BS_IX), holds(b, below, BS_IX);
  close_table();
}

/* A path that was granted a lock on its way waits for the next before its sleeper is awake: a cancel ends it there. */
static void a_path_is_cancelled_on_its_way(void) {
  struct requester one;
  bs_command list[3];
  bs_txn a, b, c;
  set_up(BS_AT_BLOCK);
  a = begin(), b = begin(), c = begin();
  DONE(bs_table_lock_path(table, c, low, BS_S, NULL));
  DONE(bs_table_lock(table, a, root, BS_S, NULL));
  send_by_path(&one, b, low, BS_X);
  list[0] = bs_do(BS_DO_COMMIT, a), list[1] = bs_do(BS_DO_CANCEL, b), list[2] = bs_do(BS_DO_CANCEL, b);
  WANT(bs_table_run(table, list, 3) == 2 && list[2].reply.status == BS_NOT_WAITING);
  back(&one, BS_NOT_WAITING);
  WANT(one.reply.mode == BS_NL);
  holds(b, root, BS_IX), holds(b, file, BS_IX), holds(b, low, BS_NL);
  DONE(bs_table_commit(table, b, NULL));
  close_table();
}

/* If that was the last lock of the path, the path is done, and there is nothing to cancel. */
static void a_path_is_cancelled_at_its_end(void) {
  struct requester one;
  bs_command list[2];
  bs_txn a, b;
  set_up(BS_AT_BLOCK);
  a = begin(), b = begin();
  DONE(bs_table_lock_path(table, a, low, BS_S, NULL));
  send_by_path(&one, b, low, BS_X);
  list[0] = bs_do(BS_DO_COMMIT, a), list[1] = bs_do(BS_DO_CANCEL, b);
  WANT(bs_table_run(table, list, 2) == 1 && list[1].reply.status == BS_NOT_WAITING);
  WANT(back(&one, BS_DONE).mode == BS_X);
  close_table();
}

/* The record of a path has moved, and the path waits for it again. */
static void a_path_that_moved_is_cancelled(void) {
  struct requester one;
  bs_command list[2];
  bs_txn a, b;
  set_up(BS_AT_BLOCK);
  a = begin(), b = begin();
  DONE(bs_table_lock_path(table, a, low, BS_X, NULL));
  DONE(bs_table_lock_path(table, a, above, BS_IX, NULL));
  send_by_path(&one, b, low, BS_X);
  list[0] = (bs_command){ .kind = BS_DO_REKEY, .txn = a, .node = low, .index = by_key, .key = 150 };
  list[1] = bs_do(BS_DO_CANCEL, b);
  WANT(bs_table_run(table, list, 2) == 2);
  back(&one, BS_NOT_WAITING);
  holds(b, low, BS_NL);
  close_table();
}

/* A path ends at the first lock that is not granted, and keeps the locks above. */
static void a_path_ends_early(void) {
  struct timespec until;
  bs_txn a, b;
  set_up(BS_AT_BLOCK);
  a = begin(), b = begin();
  DONE(bs_table_lock_path(table, a, file, BS_X, NULL));
  until = moment_in(1000);
  ANSWERS(BS_TIMED_OUT, bs_table_lock_path(table, b, low, BS_X, &until));
  holds(b, root, BS_IX), holds(b, low, BS_NL), holds(b, below, BS_NL);
  DONE(bs_table_abort(table, b, NULL));
  ANSWERS(BS_NO_SUCH_TXN, bs_table_lock_path(table, b, low, BS_X, NULL));
  close_table();
}

/* ------------------------------------------------------------------------------------------------
 * Rows by the engine's own numbers.
 */

/* A file of rows, with an index of two intervals, parted at 100. */
static bs_node rows, by_row_key, rows_below, rows_above;

/* The engine's row with the number 7: its key is in a page with its own latch, and the row's lock protects the rest of
 * it. */
static pthread_mutex_t page = PTHREAD_MUTEX_INITIALIZER;
static uint64_t page_key;
static bool is_there;
static long amount;

enum { OLD_KEY = 70, NEW_KEY = 150, OLD_ROW = 7 };

static uint64_t read_key(void) {
  uint64_t key;
  pthread_mutex_lock(&page);
  key = page_key;
  pthread_mutex_unlock(&page);
  return key;
}

static void write_key(uint64_t key) {
  pthread_mutex_lock(&page);
  page_key = key;
  pthread_mutex_unlock(&page);
}

static void set_up_rows(uint32_t detect) {
  static const uint64_t bound = 100;
  set_up(detect);
  rows = DONE(bs_table_add_row_file(table, &root, 1)).node;
  by_row_key = DONE(bs_table_add_index(table, &root, 1, rows, &bound, 1)).node;
  rows_below = DONE(ASK(table, bs_interval, by_row_key, 0)).node;
  rows_above = DONE(ASK(table, bs_interval, by_row_key, 1)).node;
  page_key = OLD_KEY;
  is_there = true;
  amount = 0;
  if (detect == BS_BY_WATCHER) DONE(bs_table_watch_thread(table, 0));
}

/* Locks what is needed above a row with this key. */
static bs_reply lock_above(bs_txn t, uint64_t key) {
  bs_reply reply = bs_table_lock_path(table, t, rows, BS_IX, NULL);
  bs_node interval = ASK(table, bs_interval_of, by_row_key, key).node;
  return reply.status == BS_DONE ? bs_table_lock_path(table, t, interval, BS_IX, NULL) : reply;
}

static bs_txn begin_writer(uint64_t key) {
  bs_txn t = begin();
  DONE(lock_above(t, key));
  return t;
}

static bs_reply ask_row(bs_txn t, uint64_t number, uint64_t key, const struct timespec *until) {
  return bs_table_lock_row(table, t, rows, number, &key, 1, BS_X, until);
}

/* Locks a row by a key. If its node has another key, also locks what is missing above that. */
static bs_reply ask_row_by(bs_txn t, uint64_t number, uint64_t key) {
  bs_reply reply = lock_above(t, key);
  while (reply.status == BS_DONE) {
    reply = ask_row(t, number, key, NULL);
    if (reply.status != BS_NEED_PARENTS) break;
    reply = bs_table_lock_path(table, t, reply.node, BS_IX, NULL);
  }
  return reply;
}

/* A thread that requests a row, and begins again if its key is another after the grant. */
struct row_requester {
  bs_txn txn;
  uint64_t number, key; /* for row 7 the key that the page has first */
  const struct timespec *until;
  bool looks;           /* at the page, after each grant */
  size_t others;        /* how often it was told of other keys */
  size_t anew;          /* how often it began again */
  bs_reply reply;
  pthread_t thread;
};

static void *ask_for_row(void *arg) {
  struct row_requester *a = (struct row_requester *)arg;
  if (!a->looks) {
    a->reply = ask_row(a->txn, a->number, a->key, a->until);
    return NULL;
  }
  for (;;) {
    a->key = read_key();
    a->reply = ask_row_by(a->txn, OLD_ROW, a->key);
    if (a->reply.status == BS_OTHER_KEYS) a->others++;
    if ((a->reply.status != BS_DONE && a->reply.status != BS_OTHER_KEYS) || read_key() == a->key) return NULL;
    a->anew++;
    DONE(bs_table_unlock_row(table, a->txn, rows, OLD_ROW, NULL));
  }
}

static void start_asking(struct row_requester *a, bs_txn txn, uint64_t number, uint64_t key, bool looks) {
  memset(a, 0, sizeof *a);
  a->txn = txn;
  a->number = number;
  a->key = key;
  a->looks = looks;
  start(&a->thread, ask_for_row, a);
}

/* The same, and it has to wait. */
static void send_for_row(struct row_requester *a, bs_txn txn, uint64_t number, uint64_t key) {
  start_asking(a, txn, number, key, false);
  await_wait(txn);
}

static bs_reply back_with_row(struct row_requester *a, bs_status status) {
  join(a->thread);
  return ANSWERS(status, a->reply);
}

static bs_node locked_row(bs_txn t, uint64_t number, uint64_t key) {
  return DONE(ask_row(t, number, key, NULL)).node;
}

static bool has_node(uint64_t number) {
  return ASK(table, bs_row_node, rows, number).status == BS_DONE;
}

static bool holds_row(bs_txn t, uint64_t number) {
  bs_reply row = ASK(table, bs_row_node, rows, number);
  return row.status == BS_DONE && ASK(table, bs_held, t, row.node).mode == BS_X;
}

static void a_row_is_slept_for(void) {
  struct row_requester one;
  bs_node row;
  bs_txn a, b;
  set_up_rows(BS_AT_BLOCK);
  a = begin_writer(OLD_KEY), b = begin_writer(OLD_KEY);
  row = locked_row(a, 7, OLD_KEY);
  send_for_row(&one, b, 7, OLD_KEY);
  DONE(bs_table_commit(table, a, &told));
  WANT(told.count == 1 && is_told(0, b, BS_TOLD_GRANTED));
  back_with_row(&one, BS_DONE);
  WANT(one.reply.mode == BS_X && same_node(one.reply.node, row));
  holds(b, row, BS_X);
  DONE(bs_table_unlock_row(table, b, rows, 7, NULL));
  WANT(!has_node(7));
  close_table();
}

/* A thread that slept for a row by other keys than its node's holds it too, and is told so. */
static void a_row_with_other_keys_is_slept_for(void) {
  struct row_requester one;
  bs_node row;
  bs_txn a, b;
  set_up_rows(BS_AT_BLOCK);
  a = begin_writer(NEW_KEY), b = begin_writer(NEW_KEY);
  row = locked_row(a, 7, NEW_KEY);
  send_for_row(&one, b, 7, OLD_KEY);
  DONE(bs_table_unlock_row(table, a, rows, 7, NULL));
  back_with_row(&one, BS_OTHER_KEYS);
  WANT(one.reply.mode == BS_X && same_node(one.reply.node, row));
  holds(b, row, BS_X);
  ANSWERS(BS_OTHER_KEYS, ask_row(b, 7, OLD_KEY, NULL));
  DONE(ask_row(b, 7, NEW_KEY, NULL));
  close_table();
}

/* A sleep for a row ends as any sleep does. */
static void how_a_sleep_for_a_row_ends(void) {
  static const struct timespec wrong = { 0, -1 };
  struct row_requester one;
  struct timespec until;
  bs_txn a, b, c;
  set_up_rows(BS_AT_BLOCK);
  a = begin_writer(OLD_KEY), b = begin_writer(OLD_KEY), c = begin();
  DONE(lock_above(a, NEW_KEY));
  locked_row(a, 7, OLD_KEY);
  ANSWERS(BS_BAD_NUMBER, ask_row(b, 7, OLD_KEY, &wrong));
  ANSWERS(BS_NEED_PARENTS, ask_row(c, 8, OLD_KEY, NULL));
  until = moment_in(1000);
  ANSWERS(BS_TIMED_OUT, ask_row(b, 7, OLD_KEY, &until));
  send_for_row(&one, b, 7, OLD_KEY);
  DONE(bs_table_cancel(table, b, NULL));
  back_with_row(&one, BS_NOT_WAITING);
  send_for_row(&one, b, 7, OLD_KEY);
  DONE(bs_table_rekey_row(table, a, rows, 7, by_row_key, NEW_KEY, NULL));
  back_with_row(&one, BS_MOVED);
  DONE(lock_above(b, NEW_KEY));
  send_for_row(&one, b, 7, NEW_KEY);
  DONE(bs_table_abort(table, b, NULL));
  back_with_row(&one, BS_NO_SUCH_TXN);
  DONE(bs_table_commit(table, a, NULL));
  WANT(!has_node(7));
  DONE(bs_table_end(table));
  ANSWERS(BS_NO_MANAGER, ask_row(a, 7, OLD_KEY, NULL));
  ANSWERS(BS_NO_MANAGER, bs_table_add_row_file(table, &root, 1));
  DONE(bs_table_free(&table));
}

/* A file of rows is dropped and made again in one list, while a writer sleeps for it: the writer is told, and the
 * numbers of its rows are free in the new file. */
static void a_file_of_rows_is_dropped(void) {
  struct requester one, two;
  bs_command list[4];
  bs_txn a, b, c;
  set_up_rows(BS_AT_BLOCK);
  a = begin_writer(OLD_KEY), b = begin(), c = begin();
  locked_row(a, 7, OLD_KEY);
  send_by_path(&one, b, rows, BS_X);
  send_by_path(&two, c, rows, BS_IX);
  DONE(bs_table_commit(table, a, NULL));
  back(&one, BS_DONE);
  DONE(bs_table_lock_path(table, b, by_row_key, BS_X, NULL));
  ANSWERS(BS_FILE_IN_USE, bs_table_drop(table, b, rows, NULL));
  list[0] = bs_do_at(BS_DO_DROP, b, by_row_key, BS_NL);
  list[1] = bs_do_at(BS_DO_DROP, b, rows, BS_NL);
  list[1].told = &told;
  list[2] = (bs_command){ .kind = BS_DO_ADD_ROW_FILE, .parents = &root, .parent_count = 1 };
  list[3] = bs_do(BS_DO_COMMIT, b);
  WANT(bs_table_run(table, list, 4) == 4 && told.count == 1 && is_told(0, c, BS_TOLD_GONE));
  back(&two, BS_GONE);
  ANSWERS(BS_NOT_ROWS, ask_row(c, 7, OLD_KEY, NULL));
  WANT(!same_node(list[2].reply.node, rows));
  rows = list[2].reply.node;
  DONE(bs_table_lock_path(table, c, rows, BS_IX, NULL));
  DONE(bs_table_lock_row(table, c, rows, 7, NULL, 0, BS_X, NULL));
  DONE(bs_table_commit(table, c, NULL));
  close_table();
}

/* An index is dropped and made with finer bounds in one list. A sleeper for it is told so, and a sleeper for the file
 * is granted after the list. */
static void an_index_is_made_again(void) {
  static const uint64_t finer[3] = { 50, 100, 150 };
  struct requester one, two;
  bs_command list[3];
  bs_node days;
  bs_txn a, b, c;
  set_up_rows(BS_AT_BLOCK);
  a = begin(), b = begin(), c = begin();
  DONE(bs_table_lock_path(table, a, rows, BS_X, NULL));
  DONE(bs_table_lock_path(table, a, by_row_key, BS_X, NULL));
  send_by_path(&one, b, rows_below, BS_S);
  send_by_path(&two, c, rows, BS_IX);
  list[0] = bs_do_at(BS_DO_DROP, a, by_row_key, BS_NL);
  list[1] = (bs_command){ .kind = BS_DO_INDEX_BY, .txn = a, .parents = &root, .parent_count = 1, .file = rows,
                          .bounds = finer, .bound_count = 3 };
  list[2] = bs_do(BS_DO_COMMIT, a);
  WANT(bs_table_run(table, list, 3) == 3);
  back(&one, BS_GONE);
  back(&two, BS_DONE);
  by_row_key = list[1].reply.node;
  days = DONE(ASK(table, bs_interval_of, by_row_key, 120)).node;
  WANT(ASK(table, bs_place, days).count == 2);
  DONE(bs_table_lock_path(table, c, days, BS_IX, NULL));
  DONE(ask_row(c, 7, 120, NULL));
  DONE(bs_table_commit(table, c, NULL));
  ANSWERS(BS_NO_SUCH_NODE, bs_table_lock_path(table, b, rows_below, BS_S, NULL));
  close_table();
}

/* An index is made beside two records, while a writer sleeps on its way to one of them. After its grant it acquires the
 * interval that the record has by then. */
static void an_index_is_made_beside_records(void) {
  static const uint64_t bound = 10, keys[2] = { 5, 20 };
  struct requester one;
  bs_node records[2], index;
  bs_txn a, b;
  set_up(BS_AT_BLOCK);
  records[0] = low, records[1] = high;
  a = begin(), b = begin();
  DONE(bs_table_lock_path(table, a, file, BS_X, NULL));
  ANSWERS(BS_NEED_EXCLUSIVE, bs_table_index_records(table, a, &root, 1, file, &bound, 1, records, keys, 2));
  DONE(bs_table_lock_path(table, a, by_key, BS_X, NULL));
  send_by_path(&one, b, high, BS_X);
  ANSWERS(BS_FILE_IN_USE, bs_table_index_by(table, a, &root, 1, file, &bound, 1));
  ANSWERS(BS_BAD_KEYS, bs_table_index_records(table, a, &root, 1, file, &bound, 1, records, keys, 1));
  index = DONE(bs_table_index_records(table, a, &root, 1, file, &bound, 1, records, keys, 2)).node;
  holds(a, index, BS_X);
  WANT(ASK(table, bs_key, low, 1).count == 5 && ASK(table, bs_key, high, 1).count == 20);
  DONE(bs_table_commit(table, a, NULL));
  back(&one, BS_DONE);
  holds(b, high, BS_X);
  holds(b, DONE(ASK(table, bs_interval, index, 1)).node, BS_IX);
  holds(b, DONE(ASK(table, bs_interval, index, 0)).node, BS_NL);
  close_table();
}

/* Whether there is an nth allocation of an index beside records, which is refused: then nothing has changed. */
static bool refuses_an_index_beside_records(long n) {
  static const uint64_t keys[2] = { 5, 20 };
  bs_node records[2];
  uint64_t accepted;
  bool refused;
  bs_reply reply;
  bs_txn a;
  set_up(BS_AT_BLOCK);
  records[0] = low, records[1] = high;
  a = begin();
  DONE(bs_table_lock_path(table, a, file, BS_X, NULL));
  DONE(bs_table_lock_path(table, a, by_key, BS_X, NULL));
  accepted = accepted_in(table);
  refused_allocation = n;
  reply = bs_table_index_records(table, a, &root, 1, file, keys, 1, records, keys, 2);
  refused = refused_allocation == 0;
  refused_allocation = 0;
  if (reply.status == BS_NO_MEMORY) {
    WANT(accepted_in(table) == accepted && ASK(table, bs_index, file, 1).status == BS_NO_PLACE);
    WANT(ASK(table, bs_key, high, 1).status == BS_NO_PLACE && ASK(table, bs_parent, high, 2).status == BS_NO_PLACE);
    reply = bs_table_index_records(table, a, &root, 1, file, keys, 1, records, keys, 2);
  }
  WANT(same_node(ASK(table, bs_index, file, 1).node, DONE(reply).node));
  close_table();
  return refused;
}

static void an_index_beside_records_needs_memory(void) {
  long n = 1;
  while (refuses_an_index_beside_records(n)) n++;
  WANT(n > 2);
}

static void rows_that_change(void) {
  bs_reply reply;
  bs_node row;
  bs_txn a;
  set_up_rows(BS_AT_BLOCK);
  a = begin_writer(OLD_KEY);
  DONE(lock_above(a, NEW_KEY));
  row = locked_row(a, 7, OLD_KEY);
  WANT(same_node(ASK(table, bs_row_node, rows, 7).node, row));
  DONE(bs_table_rekey_row(table, a, rows, 7, by_row_key, NEW_KEY, &told));
  WANT(ASK(table, bs_key, row, 0).count == NEW_KEY && told.count == 0);
  DONE(bs_table_commit(table, a, NULL));
  WANT(!has_node(7));
  a = begin();
  DONE(bs_table_lock_path(table, a, rows, BS_IS, NULL));
  DONE(bs_table_lock_row(table, a, rows, 7, &page_key, 1, BS_S, NULL));
  reply = DONE(bs_table_escalate(table, a, rows, NULL));
  WANT(reply.mode == BS_S && reply.released == 1 && !has_node(7));
  close_table();
}

/* A victim sleeps for a row, and is woken though the requester that made it a victim is told of other keys. */
static void other_keys_granted_by_a_victim(void) {
  struct row_requester one;
  struct requester two;
  uint64_t key = OLD_KEY;
  bs_node other;
  bs_txn a, b, c;
  set_up_rows(BS_AT_BLOCK);
  other = DONE(bs_table_add_inner(table, NULL, 0)).node;
  a = begin(), b = begin_writer(NEW_KEY), c = begin_writer(NEW_KEY);
  DONE(bs_table_lock(table, a, other, BS_X, NULL));
  DONE(bs_table_lock_row(table, b, rows, 7, &(uint64_t){ NEW_KEY }, 1, BS_S, NULL));
  send_for_row(&one, c, 7, NEW_KEY);
  send(&two, b, other, BS_S);
  DONE(bs_table_lock_path(table, a, rows, BS_IS, NULL));
  ANSWERS(BS_OTHER_KEYS, bs_table_lock_row(table, a, rows, 7, &key, 1, BS_S, NULL));
  back_with_row(&one, BS_VICTIM);
  DONE(bs_table_commit(table, a, NULL));
  back(&two, BS_DONE);
  close_table();
}

enum { TURNS = 200 };

/* One side makes records of a file of rows by their nodes, and is refused each time, while the other locks its row. */
static void *insert_by_node(void *arg) {
  static const uint64_t key = OLD_KEY;
  int i;
  for (i = 0; i < TURNS; i++) {
    bs_txn t = begin_writer(OLD_KEY);
    bs_reply row = ASK(table, bs_row_node, rows, 7);
    ANSWERS(BS_ROWS_BY_NUMBER, bs_table_insert(table, t, rows, &key, 1));
    ANSWERS(BS_ROWS_BY_NUMBER, bs_table_adopt(table, rows, &key, 1));
    if (row.status == BS_DONE) {
      row = bs_table_forget(table, row.node);
      WANT(row.status == BS_ROWS_BY_NUMBER || row.status == BS_NO_SUCH_NODE); /* It may be gone by then. */
    }
    DONE(bs_table_commit(table, t, NULL));
  }
  return arg;
}

static void *add_by_number(void *arg) {
  int i;
  for (i = 0; i < TURNS; i++) {
    bs_txn t = begin_writer(OLD_KEY);
    long before;
    DONE(ask_row(t, 7, OLD_KEY, NULL));
    before = amount;
    WANT(ASK0(table, bs_len).count > 0);
    amount = before + 1;
    DONE(bs_table_commit(table, t, NULL));
  }
  return arg;
}

static void two_paths_to_one_row(void) {
  pthread_t threads[4];
  uint64_t nodes;
  size_t i;
  set_up_rows(BS_AT_BLOCK);
  nodes = ASK0(table, bs_len).count;
  for (i = 0; i < 4; i++) start(&threads[i], i < 2 ? insert_by_node : add_by_number, NULL);
  for (i = 0; i < 4; i++) join(threads[i]);
  WANT(amount == 2 * TURNS && !has_node(7) && ASK0(table, bs_len).count == nodes);
  close_table();
}

/* A thread that deletes the row and has not ended: it ends when the other waits for the row. */
struct deleter {
  bs_txn txn, other;
  bool commits;
  pthread_t thread;
};

static void *delete_row(void *arg) {
  struct deleter *d = (struct deleter *)arg;
  locked_row(d->txn, 7, OLD_KEY);
  is_there = false;
  await_wait(d->other);
  if (d->commits) {
    DONE(bs_table_commit(table, d->txn, NULL));
  } else {
    is_there = true;
    DONE(bs_table_abort(table, d->txn, NULL));
  }
  return NULL;
}

/* Nobody gets the row, or its number, before that. */
static void a_row_is_deleted(bool commits) {
  struct row_requester one;
  struct deleter d;
  set_up_rows(BS_AT_BLOCK);
  d.txn = begin_writer(OLD_KEY), d.other = begin_writer(OLD_KEY);
  d.commits = commits;
  start(&d.thread, delete_row, &d);
  while (!holds_row(d.txn, 7)) nap();
  start_asking(&one, d.other, 7, OLD_KEY, false);
  back_with_row(&one, BS_DONE);
  WANT(is_there == !commits && holds_row(d.other, 7));
  join(d.thread);
  close_table();
}

static void a_delete_that_commits(void) {
  a_row_is_deleted(true);
}

static void a_delete_that_aborts(void) {
  a_row_is_deleted(false);
}

/* A thread that moves the row: between its rekey and the writing of the key another reads the page. */
struct mover {
  bs_txn txn, other;
  bool asks; /* for row 8 too, which the other holds */
  pthread_t thread;
};

static void *move_row(void *arg) {
  struct mover *m = (struct mover *)arg;
  DONE(ask_row_by(m->txn, OLD_ROW, OLD_KEY));
  DONE(lock_above(m->txn, NEW_KEY));
  DONE(bs_table_rekey_row(table, m->txn, rows, OLD_ROW, by_row_key, NEW_KEY, NULL));
  await_wait(m->other);
  if (m->asks) DONE(ask_row_by(m->txn, 8, OLD_KEY));
  write_key(NEW_KEY);
  DONE(bs_table_commit(table, m->txn, NULL));
  return NULL;
}

/* Whether the node of the row has the new key. */
static bool is_rekeyed(void) {
  bs_reply row = ASK(table, bs_row_node, rows, OLD_ROW);
  return row.status == BS_DONE && ASK(table, bs_key, row.node, 0).count == NEW_KEY;
}

/* A thread that read the old key waits for the row, is told of other keys after the grant, and begins again. */
static void a_mover_beside_an_old_key(void) {
  struct row_requester one;
  struct mover m;
  set_up_rows(BS_AT_BLOCK);
  m.txn = begin(), m.other = begin(), m.asks = false;
  start(&m.thread, move_row, &m);
  while (!is_rekeyed()) nap();
  start_asking(&one, m.other, OLD_ROW, OLD_KEY, true);
  back_with_row(&one, BS_DONE);
  WANT(one.others == 1 && one.anew == 1 && one.key == NEW_KEY && holds_row(m.other, OLD_ROW));
  join(m.thread);
  DONE(bs_table_commit(table, m.other, NULL));
  WANT(!has_node(OLD_ROW));
  close_table();
}

/* The two wait for each other, and the younger is the victim. */
static void a_mover_in_a_cycle(uint32_t detect) {
  struct row_requester one;
  struct mover m;
  set_up_rows(detect);
  m.txn = begin(), m.other = begin(), m.asks = true;
  DONE(ask_row_by(m.other, 8, OLD_KEY));
  start(&m.thread, move_row, &m);
  while (!is_rekeyed()) nap();
  start_asking(&one, m.other, OLD_ROW, OLD_KEY, true);
  back_with_row(&one, BS_VICTIM);
  DONE(bs_table_abort(table, m.other, NULL));
  join(m.thread);
  WANT(read_key() == NEW_KEY && !has_node(OLD_ROW) && !has_node(8));
  close_table();
}

static void a_mover_in_a_cycle_at_block(void) {
  a_mover_in_a_cycle(BS_AT_BLOCK);
}

static void a_mover_in_a_cycle_by_watcher(void) {
  a_mover_in_a_cycle(BS_BY_WATCHER);
}

/* The stage of a story of several threads. */
static int stage;

static void reach(int next) {
  pthread_mutex_lock(&page);
  stage = next;
  pthread_mutex_unlock(&page);
}

static void await_stage(int wanted_stage) {
  int at = 0;
  while (at < wanted_stage) {
    nap();
    pthread_mutex_lock(&page);
    at = stage;
    pthread_mutex_unlock(&page);
  }
}

/* A writer that reads the key, and locks the row by it only after the row has moved and the move is committed. */
static void *write_late(void *arg) {
  struct row_requester *w = (struct row_requester *)arg;
  uint64_t key = read_key();
  reach(1);
  await_stage(2);
  DONE(ask_row_by(w->txn, OLD_ROW, key)); /* There was no node, so these were taken as the row's own. */
  reach(3);
  await_stage(4);
  WANT(read_key() != key);
  DONE(bs_table_unlock_row(table, w->txn, rows, OLD_ROW, NULL));
  w->looks = true;
  ask_for_row(w);
  amount++;
  return NULL;
}

/* Reading the keys again after the grant keeps the writer from a row in an interval that another transaction reads. */
static void a_row_that_moved_unseen(void) {
  struct row_requester writer;
  struct mover m;
  bs_txn reader;
  long before;
  set_up_rows(BS_AT_BLOCK);
  stage = 0;
  memset(&writer, 0, sizeof writer);
  writer.txn = begin(), m.txn = begin(), reader = begin();
  start(&writer.thread, write_late, &writer);
  await_stage(1);
  DONE(ask_row_by(m.txn, OLD_ROW, OLD_KEY));
  DONE(lock_above(m.txn, NEW_KEY));
  DONE(bs_table_rekey_row(table, m.txn, rows, OLD_ROW, by_row_key, NEW_KEY, NULL));
  write_key(NEW_KEY);
  DONE(bs_table_commit(table, m.txn, NULL));
  DONE(bs_table_lock_path(table, reader, rows_above, BS_S, NULL));
  before = amount;
  reach(2);
  await_stage(3);
  holds(reader, rows_above, BS_S);
  WANT(holds_row(writer.txn, OLD_ROW)); /* The row belongs in that interval: only that second look keeps the two
                                         * apart. */
  reach(4);
  await_wait(writer.txn);
  WANT(amount == before && same_node(wait_in(table, writer.txn).node, rows_above));
  DONE(bs_table_commit(table, reader, NULL));
  back_with_row(&writer, BS_DONE);
  WANT(amount == before + 1 && writer.key == NEW_KEY && holds_row(writer.txn, OLD_ROW));
  close_table();
}

/* ------------------------------------------------------------------------------------------------
 * Lists of commands.
 */

static void lists_of_commands(void) {
  static bs_notices first;
  struct requester one;
  bs_command list[6];
  bs_txn a, b;
  set_up(BS_AT_BLOCK);
  a = begin(), b = begin();
  list[0] = bs_do_at(BS_DO_LOCK, a, root, BS_IX);
  list[1] = bs_do_at(BS_DO_LOCK, a, file, BS_IX);
  list[2] = bs_do_at(BS_DO_TRY, a, root, BS_X);
  WANT(bs_table_run(table, list, 3) == 3 && list[2].reply.mode == BS_X);
  send(&one, b, root, BS_S);
  list[0] = bs_do_at(BS_DO_UNLOCK, a, file, BS_NL);
  list[1] = bs_do(BS_DO_COMMIT, a);
  list[1].told = &first;
  list[2] = bs_do(BS_DO_BEGIN, bs_begun());
  list[3] = bs_do_at(BS_DO_LOCK, a, root, BS_S);
  list[4] = bs_do(BS_DO_BEGIN, bs_begun());
  list[4].reply.status = 99;
  WANT(bs_table_run(table, list, 5) == 3);
  WANT(list[3].reply.status == BS_NO_SUCH_TXN && list[4].reply.status == BS_NOT_MADE);
  WANT(first.count == 1 && same_txn(first.at[0].txn, b));
  back(&one, BS_DONE);
  a = list[2].reply.txn;
  list[0] = bs_do_at(BS_DO_LOCK, a, root, BS_IX);
  list[1] = bs_do_at(BS_DO_LOCK, a, file, BS_X);
  WANT(list[1].reply.status == BS_NOT_MADE);
  WANT(bs_table_run(table, list, 2) == 0 && list[0].reply.status == BS_WAITING);
  WANT(list[1].reply.status == BS_NOT_MADE);
  ANSWERS(BS_WAITING, ASK(table, bs_verdict, a, root, BS_IX));
  DONE(bs_table_commit(table, b, NULL));
  DONE(ASK(table, bs_verdict, a, root, BS_IX));
  WANT(DONE(bs_table_await(table, a, root, BS_IX, NULL)).mode == BS_IX);
  ANSWERS(BS_NOT_WAITING, bs_table_await(table, a, file, BS_X, NULL));
  DONE(bs_table_end(table));
  list[1].reply.status = BS_DONE;
  WANT(bs_table_run(table, list, 2) == 0 && list[0].reply.status == BS_NO_MANAGER);
  WANT(list[1].reply.status == BS_NOT_MADE);
  WANT(bs_table_run(NULL, list, 2) == 0 && list[0].reply.status == BS_NULL_POINTER);
  WANT(bs_table_run(table, NULL, 2) == 0 && bs_table_run(table, list, 0) == 0);
  DONE(bs_table_free(&table));
}

/* A whole transaction in a list, which is run again and again. */
static void lists_that_begin(void) {
  bs_command list[4];
  bs_txn before;
  set_up(BS_AT_BLOCK);
  list[0] = bs_do(BS_DO_BEGIN, bs_begun());
  list[1] = bs_do_at(BS_DO_LOCK, bs_begun(), root, BS_IX);
  list[2] = bs_do_at(BS_DO_LOCK, bs_begun(), file, BS_X);
  list[3] = bs_do(BS_DO_COMMIT, bs_begun());
  WANT(bs_table_run(table, list, 4) == 4 && list[2].reply.mode == BS_X);
  before = list[0].reply.txn;
  WANT(bs_table_run(table, list, 4) == 4 && list[0].reply.txn.age > before.age);
  WANT(bs_table_run(table, &list[1], 1) == 0 && list[1].reply.status == BS_NO_SUCH_TXN);
  ANSWERS(BS_NO_SUCH_TXN, bs_table_abort(table, list[0].reply.txn, NULL));
  close_table();
}

/* A list wakes the transactions that it names. */
static void lists_that_name(void) {
  struct requester one, two;
  bs_command list[2];
  bs_txn a, b, c;
  set_up(BS_AT_BLOCK);
  a = begin(), b = begin(), c = begin();
  DONE(bs_table_lock(table, a, root, BS_X, NULL));
  send(&one, b, root, BS_X);
  send(&two, c, root, BS_X);
  list[0] = bs_do(BS_DO_CANCEL, b);
  list[1] = bs_do(BS_DO_ABORT, c);
  WANT(bs_table_run(table, list, 2) == 2);
  back(&one, BS_NOT_WAITING);
  back(&two, BS_NO_SUCH_TXN);
  close_table();
}

/* A row with one key, for a list. */
static bs_command row_command(uint32_t kind, bs_txn t, const uint64_t *key) {
  bs_command command = bs_do(kind, t);
  command.mode = BS_X;
  command.file = rows;
  command.number = OLD_ROW;
  command.keys = key;
  command.key_count = 1;
  command.index = by_row_key;
  command.key = NEW_KEY;
  return command;
}

/* All that a session does to a row is one list, from its begin to its commit; and it is run again. */
static void a_list_of_paths_and_rows(void) {
  static const uint64_t key = OLD_KEY;
  bs_txn t = bs_begun();
  bs_command list[9];
  int round;
  set_up_rows(BS_AT_BLOCK);
  list[0] = bs_do(BS_DO_BEGIN, t);
  list[1] = bs_do_at(BS_DO_LOCK_PATH, t, rows_below, BS_IX);
  list[2] = (bs_command){ .kind = BS_DO_LOCK_PATH, .txn = t, .node = rows_above, .mode = BS_IX };
  list[3] = bs_do_at(BS_DO_LOCK_PATH, t, rows, BS_IX);
  list[4] = row_command(BS_DO_LOCK_ROW, t, &key);
  list[5] = row_command(BS_DO_REKEY_ROW, t, &key);
  list[6] = row_command(BS_DO_UNLOCK_ROW, t, &key);
  list[7] = row_command(BS_DO_LOCK_ROW, t, &key);
  list[8] = bs_do(BS_DO_COMMIT, t);
  for (round = 0; round < 3; round++) {
    WANT(bs_table_run(table, list, 9) == 9 && !has_node(OLD_ROW));
    WANT(list[1].reply.mode == BS_IX && list[4].reply.mode == BS_X && list[7].reply.mode == BS_X);
    WANT(!same_node(list[4].reply.node, list[7].reply.node));
  }
  list[8] = row_command(BS_DO_LOCK_ROW, t, &key);
  list[5] = list[8], list[5].number = 8;
  list[6] = row_command(BS_DO_REKEY_ROW, t, &key), list[7] = list[6];
  WANT(bs_table_run(table, list, 9) == 8 && list[8].reply.status == BS_OTHER_KEYS && list[8].reply.mode == BS_X);
  close_table();
}

/* A path that waits on its way stops a list, which says for which node. After the grant the list continues from
 * there. */
static void a_path_waits_in_a_list(void) {
  struct timespec past = moment_in(0);
  bs_command list[3];
  bs_txn a, b;
  set_up(BS_AT_BLOCK);
  a = begin(), b = begin();
  DONE(bs_table_lock_path(table, a, file, BS_X, NULL));
  list[0] = bs_do_at(BS_DO_LOCK_PATH, b, low, BS_X);
  list[1] = bs_do_at(BS_DO_LOCK_PATH, b, high, BS_S);
  list[2] = bs_do(BS_DO_COMMIT, b);
  WANT(bs_table_run(table, list, 3) == 0 && list[0].reply.status == BS_WAITING);
  WANT(same_node(list[0].reply.node, file) && list[0].reply.mode == BS_IX && list[0].reply.count == 0);
  WANT(list[1].reply.status == BS_NOT_MADE && list[2].reply.status == BS_NOT_MADE);
  WANT(bs_table_run(table, list, 3) == 0 && list[0].reply.status == BS_TXN_WAITING);
  DONE(bs_table_commit(table, a, &told));
  WANT(told.count == 1 && is_told(0, b, BS_TOLD_GRANTED));
  DONE(bs_table_await(table, b, file, BS_IX, NULL));
  WANT(bs_table_run(table, list, 3) == 3 && list[0].reply.mode == BS_X && list[1].reply.mode == BS_S);
  a = begin(), b = begin();
  DONE(bs_table_lock_path(table, a, low, BS_S, NULL));
  list[0] = bs_do_at(BS_DO_LOCK_PATH, b, low, BS_X);
  WANT(bs_table_run(table, list, 1) == 0 && same_node(list[0].reply.node, low) && list[0].reply.mode == BS_X);
  ANSWERS(BS_TIMED_OUT, bs_table_await(table, b, low, BS_X, &past));
  list[0] = bs_do_at(BS_DO_LOCK, b, low, BS_X);
  WANT(bs_table_run(table, list, 1) == 0 && same_node(list[0].reply.node, low) && list[0].reply.mode == BS_X);
  DONE(bs_table_cancel(table, b, NULL));
  ANSWERS(BS_NOT_WAITING, bs_table_await(table, b, low, BS_X, NULL));
  close_table();
}

/* So does a row. After the grant it is requested again, and its keys may be others. */
static void a_row_waits_in_a_list(void) {
  static const uint64_t key = OLD_KEY, other_key = NEW_KEY;
  bs_command list[2];
  bs_txn a, b;
  bs_node row;
  set_up_rows(BS_AT_BLOCK);
  a = begin_writer(OLD_KEY), b = begin_writer(OLD_KEY);
  row = locked_row(a, OLD_ROW, OLD_KEY);
  list[0] = row_command(BS_DO_LOCK_ROW, b, &key);
  list[1] = row_command(BS_DO_UNLOCK_ROW, b, &key);
  WANT(bs_table_run(table, list, 2) == 0 && list[0].reply.status == BS_WAITING && list[0].reply.mode == BS_X);
  WANT(same_node(list[0].reply.node, row) && list[1].reply.status == BS_NOT_MADE);
  DONE(bs_table_commit(table, a, NULL));
  DONE(bs_table_await(table, b, row, BS_X, NULL));
  list[0].keys = &other_key;
  WANT(bs_table_run(table, list, 2) == 0 && list[0].reply.status == BS_OTHER_KEYS && list[0].reply.mode == BS_X);
  WANT(same_node(list[0].reply.node, row) && list[1].reply.status == BS_NOT_MADE && holds_row(b, OLD_ROW));
  list[0].keys = &key;
  WANT(bs_table_run(table, list, 2) == 2 && !has_node(OLD_ROW));
  close_table();
}

/* Two sleepers become victims for locks of one path, and the path continues: its list has both, by rising slot. The one
 * that is told later is in the lower slot. */
static void a_path_goes_on_in_a_list(void) {
  static bs_notices all;
  struct requester one, two, three;
  bs_node other, third;
  bs_command list[2];
  bs_txn a, b, c, d;
  set_up(BS_AT_BLOCK);
  other = DONE(bs_table_add_inner(table, NULL, 0)).node;
  third = DONE(bs_table_add_inner(table, NULL, 0)).node;
  a = begin(), d = begin(), b = begin(), c = begin();
  DONE(bs_table_lock(table, a, other, BS_X, NULL));
  DONE(bs_table_lock(table, a, third, BS_X, NULL));
  DONE(bs_table_lock_path(table, b, root, BS_IS, NULL));
  DONE(bs_table_lock_path(table, d, low, BS_S, NULL));
  send(&one, b, other, BS_S);
  send(&two, c, root, BS_X);
  send(&three, d, third, BS_S);
  list[0] = bs_do_at(BS_DO_LOCK_PATH, a, low, BS_X);
  list[0].told = &all;
  list[1] = bs_do_at(BS_DO_LOCK, a, high, BS_S);
  WANT(bs_table_run(table, list, 2) == 0 && list[0].reply.status == BS_WAITING && same_node(list[0].reply.node, low));
  WANT(all.count == 2 && same_txn(all.at[0].txn, d) && all.at[0].kind == BS_TOLD_VICTIM);
  WANT(same_txn(all.at[1].txn, c) && all.at[1].kind == BS_TOLD_VICTIM && d.slot < c.slot);
  back(&two, BS_VICTIM);
  back(&three, BS_VICTIM);
  DONE(bs_table_abort(table, d, NULL));
  DONE(bs_table_await(table, a, low, BS_X, NULL));
  WANT(bs_table_run(table, list, 2) == 2 && all.count == 0);
  DONE(bs_table_abort(table, c, NULL));
  DONE(bs_table_commit(table, a, NULL));
  back(&one, BS_DONE);
  close_table();
}

/* A split and a merge in a list, which tell their waiters; and a list that ends where a split is refused. */
static void a_list_of_splits_and_merges(void) {
  struct requester one;
  bs_notices heard;
  bs_command list[7];
  bs_txn a, b;
  set_up(BS_AT_BLOCK);
  a = begin(), b = begin();
  DONE(bs_table_lock_path(table, a, below, BS_X, NULL));
  DONE(bs_table_lock_path(table, b, by_key, BS_IS, NULL));
  send(&one, b, below, BS_S);
  list[0] = bs_do_at(BS_DO_SPLIT, a, below, BS_NL), list[0].key = 60, list[0].told = &heard;
  list[1] = bs_do_at(BS_DO_SPLIT, a, bs_made(0), BS_NL), list[1].key = 80;
  list[2] = bs_do_at(BS_DO_LOCK_PATH, a, above, BS_X);
  list[3] = bs_do_at(BS_DO_MERGE, a, bs_made(1), BS_NL);
  list[4] = bs_do_at(BS_DO_SPLIT, a, below, BS_NL), list[4].key = 60;
  list[5] = bs_do_at(BS_DO_MERGE, a, below, BS_NL);
  WANT(bs_table_run(table, list, 6) == 4 && list[4].reply.status == BS_BAD_KEYS);
  WANT(list[5].reply.status == BS_NOT_MADE && ASK(table, bs_kind, above).status == BS_NO_SUCH_NODE);
  WANT(heard.count == 1 && same_txn(heard.at[0].txn, b) && heard.at[0].kind == BS_TOLD_MOVED);
  back(&one, BS_MOVED);
  holds(a, below, BS_X), holds(a, list[0].reply.node, BS_X), holds(a, list[1].reply.node, BS_X);
  WANT(same_node(ASK(table, bs_interval, by_key, 2).node, list[1].reply.node));
  WANT(same_node(ASK(table, bs_parent, high, 1).node, list[1].reply.node));
  list[4] = bs_do_at(BS_DO_MERGE, a, below, BS_NL), list[6] = bs_do(BS_DO_COMMIT, a);
  WANT(bs_table_run(table, list + 4, 3) == 3);
  WANT(same_node(ASK(table, bs_interval_of, by_key, UINT64_MAX).node, below));
  close_table();
}

/* An unknown kind is refused, and so is a command for a name that names nobody. */
static void commands_that_are_none(void) {
  static const bs_command nothing = { 0 };
  bs_command list[3];
  bs_txn a;
  uint32_t kind;
  set_up(BS_AT_BLOCK);
  a = begin();
  list[0] = nothing, list[1] = nothing, list[2] = bs_do(BS_DO_COMMIT, a);
  WANT(bs_table_run(table, list, 3) == 0 && list[0].reply.status == BS_BAD_NUMBER);
  WANT(list[1].reply.status == BS_NOT_MADE && list[2].reply.status == BS_NOT_MADE);
  WANT(bs_do(BS_DO_COMMIT, a).reply.status == BS_NOT_MADE);
  WANT(bs_do_at(BS_DO_TRY, a, root, BS_X).reply.status == BS_NOT_MADE);
  for (kind = BS_DO_MERGE + 1; kind != 0; kind <<= 1) {
    list[0] = bs_do_at(kind, a, root, BS_X);
    WANT(bs_table_run(table, list, 1) == 0 && list[0].reply.status == BS_BAD_NUMBER);
  }
  list[0] = bs_do(BS_DO_COMMIT, bs_begun()); /* without a begin before it */
  WANT(bs_table_run(table, list, 1) == 0 && list[0].reply.status == BS_NO_SUCH_TXN);
  ANSWERS(BS_NO_SUCH_TXN, bs_table_commit(table, bs_begun(), NULL));
  WANT(bs_table_run(table, NULL, 3) == 0 && bs_table_run(table, list, 0) == 0);
  list[0] = bs_do(BS_DO_BEGIN, bs_begun()), list[1] = bs_do(BS_DO_COMMIT, bs_begun()), list[1].txn.age = 7;
  WANT(bs_table_run(table, list, 2) == 1 && list[1].reply.status == BS_NO_SUCH_TXN);
  list[1].txn.age = 0, list[1].txn.slot = 255;
  WANT(bs_table_run(table, list, 2) == 1 && list[1].reply.status == BS_NO_SUCH_TXN);
  close_table();
}

/* Each command can be in a list. */
static void every_command(void) {
  static const uint64_t bound = 7, key = 3;
  bs_node top, under, table_node, index, record;
  bs_command list[7];
  bs_txn t, u;
  set_up(BS_AT_BLOCK);
  list[0] = (bs_command){ .kind = BS_DO_ADD_INNER };
  WANT(bs_table_run(table, list, 1) == 1);
  top = list[0].reply.node;
  list[0] = (bs_command){ .kind = BS_DO_ADD_FILE, .parents = &top, .parent_count = 1 };
  list[1] = (bs_command){ .kind = BS_DO_ADD_INNER, .parents = &top, .parent_count = 1 };
  WANT(bs_table_run(table, list, 2) == 2);
  table_node = list[0].reply.node, under = list[1].reply.node;
  list[0] = (bs_command){ .kind = BS_DO_ADD_INDEX, .parents = &top, .parent_count = 1, .file = table_node,
                          .bounds = &bound, .bound_count = 1 };
  list[1] = bs_do(BS_DO_BEGIN, bs_begun());
  list[2] = bs_do(BS_DO_BEGIN, bs_begun());
  WANT(bs_table_run(table, list, 3) == 3);
  index = list[0].reply.node, t = list[1].reply.txn, u = list[2].reply.txn;
  DONE(bs_table_lock_path(table, t, ASK(table, bs_interval, index, 0).node, BS_X, NULL));
  DONE(bs_table_lock_path(table, t, ASK(table, bs_interval, index, 1).node, BS_IX, NULL));
  DONE(bs_table_lock_path(table, t, table_node, BS_IX, NULL));
  list[0] = (bs_command){ .kind = BS_DO_INSERT, .txn = t, .file = table_node, .keys = &key, .key_count = 1 };
  WANT(bs_table_run(table, list, 1) == 1);
  record = list[0].reply.node;
  list[0] = bs_do_at(BS_DO_ESCALATE, t, table_node, BS_NL);
  list[1] = (bs_command){ .kind = BS_DO_REKEY, .txn = t, .node = record, .index = index, .key = 8 };
  list[2] = bs_do_at(BS_DO_DELETE, t, record, BS_NL);
  list[3] = bs_do(BS_DO_SETTLE, t);
  list[4] = bs_do(BS_DO_ABORT, u);
  WANT(bs_table_run(table, list, 2) == 1 && list[1].reply.status == BS_NEED_EXCLUSIVE);
  list[0] = bs_do_at(BS_DO_LOCK, t, record, BS_X);
  WANT(bs_table_run(table, list, 2) == 2 && ASK(table, bs_key, record, 0).count == 8);
  list[1] = bs_do_at(BS_DO_TRY, t, record, BS_X);
  WANT(bs_table_run(table, list, 5) == 5);
  WANT(ASK(table, bs_key, record, 0).status == BS_NO_SUCH_NODE);
  list[0] = bs_do_at(BS_DO_LOCK, t, table_node, BS_X);
  list[1] = bs_do_at(BS_DO_LOCK, t, under, BS_IX);
  list[2] = (bs_command){ .kind = BS_DO_MOVE, .txn = t, .node = table_node, .parents = &under, .parent_count = 1 };
  list[3] = bs_do(BS_DO_CANCEL, t);
  WANT(bs_table_run(table, list, 4) == 3 && list[3].reply.status == BS_NOT_WAITING);
  list[0] = (bs_command){ .kind = BS_DO_ADOPT, .file = table_node, .keys = &key, .key_count = 1 };
  WANT(bs_table_run(table, list, 1) == 1);
  list[1] = bs_do_at(BS_DO_FORGET, bs_begun(), list[0].reply.node, BS_NL);
  WANT(bs_table_run(table, list + 1, 1) == 1 && bs_table_run(table, list + 1, 1) == 0);
  close_table();
}

/* So can each schema change. */
static void every_command_of_a_schema(void) {
  static const uint64_t bound = 7;
  bs_node top, table_node, index;
  bs_command list[7];
  set_up(BS_AT_BLOCK);
  top = root;
  list[0] = (bs_command){ .kind = BS_DO_ADD_ROW_FILE, .parents = &top, .parent_count = 1 };
  WANT(bs_table_run(table, list, 1) == 1 && ASK(table, bs_kind, list[0].reply.node).count == BS_FILE);
  table_node = list[0].reply.node;
  ANSWERS(BS_ROWS_BY_NUMBER, bs_table_adopt(table, table_node, NULL, 0));
  list[0] = bs_do(BS_DO_BEGIN, bs_begun());
  list[1] = bs_do_at(BS_DO_LOCK, bs_begun(), top, BS_IX);
  list[2] = bs_do_at(BS_DO_LOCK, bs_begun(), table_node, BS_X);
  list[3] = (bs_command){ .kind = BS_DO_INDEX_BY, .txn = bs_begun(), .parents = &top, .parent_count = 1,
                          .file = table_node, .bounds = &bound, .bound_count = 1 };
  list[4] = bs_do(BS_DO_COMMIT, bs_begun());
  WANT(bs_table_run(table, list, 5) == 5);
  index = list[3].reply.node;
  WANT(same_node(ASK(table, bs_index, table_node, 0).node, index));
  list[3] = bs_do_at(BS_DO_LOCK, bs_begun(), index, BS_X);
  list[4] = bs_do_at(BS_DO_DROP, bs_begun(), index, BS_NL);
  list[5] = bs_do_at(BS_DO_DROP, bs_begun(), table_node, BS_NL);
  list[6] = bs_do(BS_DO_COMMIT, bs_begun());
  WANT(bs_table_run(table, list, 7) == 7 && ASK(table, bs_kind, table_node).status == BS_NO_SUCH_NODE);
  WANT(bs_table_run(table, list, 7) == 2 && list[2].reply.status == BS_NO_SUCH_NODE);
  close_table();
}

/* ------------------------------------------------------------------------------------------------
 * Tries, which join no queue.
 */

static bs_reply try_path(bs_txn t, bs_node node, bs_mode mode, uint32_t keep) {
  return bs_table_try_path(table, t, node, mode, keep);
}

/* The try would have had to wait for this node. */
static void would_block(bs_reply reply, bs_node at) {
  ANSWERS(BS_WOULD_BLOCK, reply);
  WANT(same_node(reply.node, at));
}

static uint64_t locks_of(bs_txn t) {
  return DONE(ASK(table, bs_lock_count, t)).count;
}

static uint64_t queue_at(bs_node node) {
  return DONE(ASK(table, bs_queue_len, node)).count;
}

static bool is_active(bs_txn t) {
  return DONE(ASK(table, bs_doing, t)).count == BS_ACTIVE;
}

/* The modes of the store's six nodes. */
static void see_modes(bs_txn t, bs_mode *modes) {
  modes[0] = ASK(table, bs_held, t, root).mode;
  modes[1] = ASK(table, bs_held, t, file).mode;
  modes[2] = ASK(table, bs_held, t, by_key).mode;
  modes[3] = ASK(table, bs_held, t, below).mode;
  modes[4] = ASK(table, bs_held, t, low).mode;
  modes[5] = ASK(table, bs_held, t, high).mode;
}

/* A free path is locked as bs_table_lock_path locks it, also if some of it is already held. */
static void a_path_is_tried(void) {
  bs_mode mode, first, one[6], other[6];
  bs_node nodes[4];
  size_t i;
  set_up(BS_AT_BLOCK);
  nodes[0] = root, nodes[1] = file, nodes[2] = below, nodes[3] = low;
  for (i = 0; i < 4; i++) {
    for (mode = BS_IS; mode <= BS_X; mode++) {
      for (first = BS_NL; first <= BS_X; first++) {
        bs_txn t = begin(), u;
        bs_reply tried, locked;
        if (first != BS_NL) DONE(bs_table_lock_path(table, t, by_key, first, NULL));
        tried = try_path(t, nodes[i], mode, i % 2 == 0 ? BS_KEEP_NOTHING : BS_KEEP_WAY);
        see_modes(t, one);
        DONE(bs_table_commit(table, t, NULL));
        u = begin();
        if (first != BS_NL) DONE(bs_table_lock_path(table, u, by_key, first, NULL));
        locked = bs_table_lock_path(table, u, nodes[i], mode, NULL);
        see_modes(u, other);
        DONE(bs_table_commit(table, u, NULL));
        WANT(tried.status == locked.status && tried.mode == locked.mode && memcmp(one, other, sizeof one) == 0);
        WANT(tried.status == (i == 3 && mode != BS_S && mode != BS_X ? BS_BAD_MODE : BS_DONE));
      }
    }
  }
  close_table();
}

/* A reader needs fewer nodes once it holds one above them that is also a parent. */
static void a_reader_skips_a_parent(void) {
  bs_node parents[2], node;
  bs_txn t, u;
  set_up(BS_AT_BLOCK);
  parents[0] = DONE(bs_table_add_inner(table, &root, 1)).node;
  parents[1] = root;
  node = DONE(bs_table_add_inner(table, parents, 2)).node;
  t = begin(), u = begin();
  DONE(try_path(t, node, BS_S, BS_KEEP_NOTHING));
  DONE(bs_table_lock_path(table, u, node, BS_S, NULL));
  WANT(locks_of(t) == 2 && locks_of(u) == 2);
  holds(t, root, BS_IS), holds(t, parents[0], BS_NL);
  close_table();
}

/* A try that would block on its last node, or above it, keeps its path or releases it. */
static void a_try_gives_back_its_path(void) {
  bs_txn a, b, t;
  told_by_tries = 0;
  set_up(BS_AT_BLOCK);
  a = begin(), b = begin(), t = begin();
  DONE(bs_table_lock_path(table, a, low, BS_X, NULL));
  would_block(try_path(t, low, BS_X, BS_KEEP_NOTHING), low);
  WANT(locks_of(t) == 0 && is_active(t) && queue_at(low) == 0);
  would_block(try_path(t, low, BS_S, BS_KEEP_NOTHING), low);
  WANT(locks_of(t) == 0);
  would_block(try_path(t, low, BS_S, BS_KEEP_WAY), low);
  WANT(locks_of(t) == 2);
  holds(t, root, BS_IS), holds(t, file, BS_IS);
  would_block(try_path(t, low, BS_S, BS_KEEP_NOTHING), low);
  WANT(locks_of(t) == 2); /* It acquired none of them anew. */
  DONE(bs_table_abort(table, t, NULL));
  t = begin();
  would_block(try_path(t, low, BS_X, BS_KEEP_WAY), low);
  WANT(locks_of(t) == 4);
  holds(t, root, BS_IX), holds(t, file, BS_IX), holds(t, by_key, BS_IX), holds(t, below, BS_IX);
  DONE(bs_table_abort(table, t, NULL));
  DONE(bs_table_commit(table, a, NULL));
  DONE(bs_table_lock_path(table, b, below, BS_S, NULL));
  t = begin();
  would_block(try_path(t, low, BS_X, BS_KEEP_NOTHING), below);
  WANT(locks_of(t) == 0 && queue_at(below) == 0);
  would_block(try_path(t, low, BS_X, BS_KEEP_WAY), below);
  WANT(locks_of(t) == 3 && told_by_tries == 0);
  DONE(bs_table_commit(table, b, NULL));
  WANT(DONE(try_path(t, low, BS_X, BS_KEEP_NOTHING)).mode == BS_X && locks_of(t) == 5);
  close_table();
}

/* A node that was held before stays raised: no mode is ever lowered. What was acquired anew is released. */
static void a_raised_parent_stays(void) {
  bs_txn a, t;
  set_up(BS_AT_BLOCK);
  a = begin(), t = begin();
  DONE(bs_table_lock_path(table, a, low, BS_S, NULL));
  DONE(bs_table_lock_path(table, t, file, BS_IS, NULL));
  would_block(try_path(t, low, BS_X, BS_KEEP_NOTHING), low);
  WANT(locks_of(t) == 2);
  holds(t, root, BS_IX), holds(t, file, BS_IX);
  would_block(try_path(t, low, BS_X, BS_KEEP_NOTHING), low);
  WANT(locks_of(t) == 2);
  close_table();
}

/* A node above one that the transaction had read by another parent stays: its child is held. */
static void a_parent_of_what_was_read_stays(void) {
  bs_txn a, t;
  set_up(BS_AT_BLOCK);
  a = begin(), t = begin();
  DONE(bs_table_lock_path(table, a, low, BS_S, NULL));
  DONE(bs_table_lock_path(table, t, below, BS_IS, NULL));
  DONE(bs_table_lock(table, t, low, BS_S, NULL));
  holds(t, file, BS_NL);
  would_block(try_path(t, low, BS_X, BS_KEEP_NOTHING), low);
  holds(t, low, BS_S), holds(t, file, BS_IX), holds(t, below, BS_IX), holds(t, by_key, BS_IX), holds(t, root, BS_IX);
  ANSWERS(BS_HELD_CHILD, bs_table_unlock(table, t, file, NULL));
  DONE(bs_table_commit(table, a, NULL));
  DONE(try_path(t, low, BS_X, BS_KEEP_NOTHING));
  DONE(bs_table_commit(table, t, NULL));
  close_table();
}

/* A newcomer passes no waiter; a transaction that holds the node does, as by any lock. */
static void a_try_does_not_pass(void) {
  struct requester one;
  bs_txn a, b, c;
  set_up(BS_AT_BLOCK);
  a = begin(), b = begin(), c = begin();
  DONE(bs_table_lock_path(table, a, low, BS_S, NULL));
  send_by_path(&one, b, low, BS_X);
  would_block(try_path(c, low, BS_S, BS_KEEP_NOTHING), low);
  WANT(locks_of(c) == 0 && queue_at(low) == 1 && is_active(c));
  DONE(bs_table_lock_path(table, a, below, BS_IX, NULL));
  WANT(DONE(try_path(a, low, BS_X, BS_KEEP_NOTHING)).mode == BS_X && queue_at(low) == 1);
  DONE(bs_table_commit(table, a, NULL));
  back(&one, BS_DONE);
  close_table();
}

/* A try that would have closed a cycle of waits makes no victim, and is none. */
static void a_try_condemns_nobody(void) {
  struct requester one;
  bs_txn older, younger;
  bs_counts counts;
  bs_command list[1];
  set_up(BS_AT_BLOCK);
  older = begin(), younger = begin();
  DONE(bs_table_lock_path(table, older, low, BS_X, NULL));
  DONE(bs_table_lock_path(table, younger, high, BS_X, NULL));
  send_by_path(&one, younger, low, BS_X);
  would_block(try_path(older, high, BS_X, BS_KEEP_NOTHING), high);
  would_block(try_path(older, high, BS_S, BS_KEEP_WAY), high);
  list[0] = bs_do_at(BS_DO_TRY_PATH, older, high, BS_X);
  WANT(bs_table_run(table, list, 1) == 0 && list[0].reply.status == BS_WOULD_BLOCK);
  WANT(bs_table_try_first(table, list, 1) == 1 && list[0].reply.status == BS_WOULD_BLOCK);
  memset(&counts, 0, sizeof counts);
  DONE(bs_counters(bs_table_hold(table), &counts));
  DONE(bs_table_let_go(table));
  WANT(counts.condemned == 0 && counts.waited == 1 && queue_at(high) == 0 && is_active(older));
  DONE(bs_table_commit(table, older, NULL));
  back(&one, BS_DONE);
  close_table();
}

/* A try of a path is refused as the path is, before anything is locked. */
static void a_path_is_refused(void) {
  bs_node nowhere = { 7, 7 };
  struct requester one;
  bs_txn a, b, c, d, gone = { 3, 99 };
  uint32_t keep;
  set_up(BS_AT_BLOCK);
  a = begin(), b = begin(), c = begin(), d = begin();
  DONE(bs_table_lock(table, b, root, BS_IS, NULL));
  DONE(bs_table_lock(table, c, root, BS_IS, NULL));
  send(&one, b, root, BS_X);
  ANSWERS(BS_VICTIM, bs_table_lock(table, c, root, BS_X, NULL));
  for (keep = BS_KEEP_NOTHING; keep <= BS_KEEP_WAY; keep++) {
    ANSWERS(BS_NO_SUCH_TXN, try_path(gone, nowhere, BS_NL, keep));
    ANSWERS(BS_NO_SUCH_TXN, try_path(bs_begun(), nowhere, BS_NL, keep));
    ANSWERS(BS_TXN_WAITING, try_path(b, nowhere, BS_NL, keep));
    ANSWERS(BS_TXN_CONDEMNED, try_path(c, nowhere, BS_NL, keep));
    ANSWERS(BS_NO_SUCH_NODE, try_path(a, nowhere, BS_NL, keep));
    ANSWERS(BS_BAD_MODE, try_path(a, low, BS_NL, keep));
    ANSWERS(BS_BAD_MODE, try_path(a, low, BS_IX, keep));
    ANSWERS(BS_BAD_NUMBER, try_path(gone, low, BS_X + 1, keep));
    WANT(locks_of(a) == 0);
  }
  for (keep = BS_KEEP_WAY + 1; keep != 0; keep <<= 1) ANSWERS(BS_BAD_NUMBER, try_path(gone, low, BS_X, keep));
  ANSWERS(BS_BAD_NUMBER, try_path(a, low, BS_KEEP_WAY, BS_X));
  WANT(locks_of(a) == 0 && queue_at(root) == 1);
  DONE(bs_table_abort(table, c, NULL));
  back(&one, BS_DONE);
  would_block(try_path(d, low, BS_X, BS_KEEP_WAY), root);
  close_table();
}

/* A chain of nodes, one under the other, and a lattice of layers, in which each node is under all of the layer above:
 * paths that are longer than what a try stores of them. */
enum { DEEP = 40, LAYERS = 12, WIDE = 4 };

static bs_node chain[DEEP], lattice[LAYERS][WIDE];

static void set_up_deep(uint32_t detect) {
  size_t i, j;
  set_up(detect);
  chain[0] = DONE(bs_table_add_inner(table, NULL, 0)).node;
  for (i = 1; i < DEEP; i++) chain[i] = DONE(bs_table_add_inner(table, &chain[i - 1], 1)).node;
  for (i = 0; i < LAYERS; i++) {
    for (j = 0; j < WIDE; j++) {
      lattice[i][j] = DONE(bs_table_add_inner(table, i == 0 ? NULL : lattice[i - 1], i == 0 ? 0 : WIDE)).node;
    }
  }
}

/* All that was acquired on such a path is released, and all of it is acquired if nobody has the node. */
static void long_paths_are_tried(void) {
  bs_txn a, t;
  set_up_deep(BS_AT_BLOCK);
  a = begin(), t = begin();
  DONE(bs_table_lock_path(table, a, chain[DEEP - 1], BS_S, NULL));
  DONE(bs_table_lock_path(table, a, lattice[LAYERS - 1][0], BS_S, NULL));
  would_block(try_path(t, chain[DEEP - 1], BS_X, BS_KEEP_NOTHING), chain[DEEP - 1]);
  WANT(locks_of(t) == 0);
  would_block(try_path(t, lattice[LAYERS - 1][0], BS_X, BS_KEEP_NOTHING), lattice[LAYERS - 1][0]);
  WANT(locks_of(t) == 0);
  would_block(try_path(t, chain[DEEP - 1], BS_X, BS_KEEP_WAY), chain[DEEP - 1]);
  WANT(locks_of(t) == DEEP - 1);
  DONE(bs_table_commit(table, a, NULL));
  DONE(bs_table_commit(table, t, NULL));
  t = begin();
  WANT(DONE(try_path(t, chain[DEEP - 1], BS_S, BS_KEEP_NOTHING)).mode == BS_S && locks_of(t) == DEEP);
  holds(t, chain[0], BS_IS);
  WANT(DONE(try_path(t, lattice[LAYERS - 1][0], BS_X, BS_KEEP_NOTHING)).mode == BS_X);
  WANT(locks_of(t) == DEEP + (LAYERS - 1) * WIDE + 1);
  holds(t, lattice[0][WIDE - 1], BS_IX);
  DONE(bs_table_commit(table, t, NULL));
  t = begin();
  DONE(try_path(t, lattice[LAYERS - 1][0], BS_S, BS_KEEP_NOTHING));
  WANT(locks_of(t) == LAYERS); /* A reader needs one parent of each. */
  close_table();
}

/* If memory is refused on the way, all that was acquired is released, or kept; and the try can be repeated. */
static void a_try_without_memory(void) {
  uint32_t keep;
  long refused = 0;
  for (keep = BS_KEEP_NOTHING; keep <= BS_KEEP_WAY; keep++) {
    bs_status status = BS_NO_MEMORY;
    long n;
    for (n = 1; status == BS_NO_MEMORY; n++) {
      uint64_t kept;
      bs_txn t;
      set_up_deep(BS_AT_BLOCK);
      t = begin();
      refused_allocation = n;
      status = try_path(t, chain[DEEP - 1], BS_X, keep).status;
      refused_allocation = 0;
      kept = locks_of(t);
      WANT(status == BS_DONE ? kept == DEEP : status == BS_NO_MEMORY && (kept == 0 || keep == BS_KEEP_WAY));
      if (kept > 0 && kept < DEEP) refused++;
      DONE(try_path(t, chain[DEEP - 1], BS_X, keep));
      WANT(locks_of(t) == DEEP);
      close_table();
    }
    WANT(status == BS_DONE && n > 2);
  }
  WANT(refused > 0);
}

static bs_reply try_row(bs_txn t, uint64_t number, uint64_t key, bs_mode mode) {
  return bs_table_try_row(table, t, rows, number, &key, 1, mode);
}

static bs_node row_node(uint64_t number) {
  return DONE(ASK(table, bs_row_node, rows, number)).node;
}

/* A free row: without a node it gets one; if nobody holds its node, it gets a new one with these keys. */
static void a_row_is_tried(void) {
  bs_node before;
  bs_reply now;
  bs_txn t, u;
  set_up_rows(BS_AT_BLOCK);
  t = begin_writer(OLD_KEY), u = begin_writer(NEW_KEY);
  now = DONE(try_row(t, 7, OLD_KEY, BS_S));
  before = now.node;
  WANT(now.mode == BS_S && same_node(before, row_node(7)));
  now = DONE(try_row(t, 7, OLD_KEY, BS_X)); /* It is held in a lower mode. */
  WANT(now.mode == BS_X && same_node(now.node, before));
  WANT(DONE(try_row(t, 7, OLD_KEY, BS_S)).mode == BS_X);
  ANSWERS(BS_OTHER_KEYS, try_row(t, 7, NEW_KEY, BS_X));
  DONE(bs_table_unlock(table, t, before, NULL)); /* That lets no row go. */
  WANT(has_node(7));
  WANT(same_node(DONE(try_row(t, 7, OLD_KEY, BS_X)).node, before));
  DONE(bs_table_unlock(table, t, before, NULL));
  now = DONE(try_row(u, 7, NEW_KEY, BS_X));
  WANT(now.mode == BS_X && !same_node(now.node, before) && same_node(now.node, row_node(7)));
  WANT(ASK(table, bs_key, now.node, 0).count == NEW_KEY);
  DONE(bs_table_unlock(table, u, now.node, NULL));
  WANT(same_node(ANSWERS(BS_NEED_PARENTS, try_row(u, 7, OLD_KEY, BS_X)).node, rows_below));
  WANT(same_node(ANSWERS(BS_NEED_PARENTS, try_row(t, 7, NEW_KEY, BS_X)).node, rows_above));
  DONE(bs_table_commit(table, t, NULL));
  DONE(try_row(u, 7, NEW_KEY, BS_X));
  DONE(bs_table_commit(table, u, NULL));
  WANT(!has_node(7));
  close_table();
}

/* A row that others hold: in a compatible mode it is held too, and let go in the end; else nothing is changed. */
static void a_row_of_others_is_tried(void) {
  struct row_requester one;
  bs_reply reply;
  bs_node node;
  bs_txn a, b, c, d;
  set_up_rows(BS_AT_BLOCK);
  a = begin_writer(OLD_KEY), b = begin_writer(OLD_KEY), c = begin_writer(OLD_KEY), d = begin();
  node = DONE(try_row(a, 7, OLD_KEY, BS_S)).node;
  reply = DONE(try_row(b, 7, OLD_KEY, BS_S));
  WANT(reply.mode == BS_S && same_node(reply.node, node));
  reply = ANSWERS(BS_OTHER_KEYS, try_row(c, 7, NEW_KEY, BS_S));
  WANT(reply.mode == BS_S && same_node(reply.node, node));
  DONE(bs_table_unlock_row(table, c, rows, 7, NULL));
  WANT(same_node(ANSWERS(BS_NEED_PARENTS, try_row(d, 7, OLD_KEY, BS_S)).node, rows));
  DONE(bs_table_commit(table, a, NULL));
  WANT(has_node(7));
  DONE(bs_table_commit(table, b, NULL));
  WANT(!has_node(7)); /* The last holder lets it go: it was noted for that one. */
  a = begin_writer(OLD_KEY), b = begin_writer(OLD_KEY);
  node = DONE(try_row(a, 7, OLD_KEY, BS_X)).node;
  would_block(try_row(b, 7, OLD_KEY, BS_S), node);
  would_block(try_row(b, 7, NEW_KEY, BS_X), node);
  WANT(locks_of(b) == 4 && is_active(b) && queue_at(node) == 0);
  DONE(bs_table_unlock_row(table, a, rows, 7, NULL));
  DONE(try_row(a, 7, OLD_KEY, BS_S));
  DONE(try_row(b, 7, OLD_KEY, BS_S));
  node = row_node(7);
  would_block(try_row(b, 7, OLD_KEY, BS_X), node);
  holds(b, node, BS_S);
  DONE(bs_table_unlock_row(table, b, rows, 7, NULL));
  send_for_row(&one, b, 7, OLD_KEY);
  would_block(try_row(c, 7, OLD_KEY, BS_S), node); /* A newcomer passes no waiter. */
  WANT(queue_at(node) == 1 && is_active(c));
  WANT(DONE(try_row(a, 7, OLD_KEY, BS_X)).mode == BS_X); /* A holder of the row does. */
  DONE(bs_table_commit(table, a, NULL));
  back_with_row(&one, BS_DONE);
  close_table();
}

/* A try of a row that would have closed a cycle makes no victim. */
static void a_try_of_a_row_condemns_nobody(void) {
  struct row_requester one;
  bs_txn older, younger;
  bs_counts counts;
  set_up_rows(BS_AT_BLOCK);
  older = begin_writer(OLD_KEY), younger = begin_writer(OLD_KEY);
  DONE(try_row(older, 7, OLD_KEY, BS_X));
  DONE(try_row(younger, 8, OLD_KEY, BS_X));
  send_for_row(&one, younger, 7, OLD_KEY);
  would_block(try_row(older, 8, OLD_KEY, BS_X), row_node(8));
  memset(&counts, 0, sizeof counts);
  DONE(bs_counters(bs_table_hold(table), &counts));
  DONE(bs_table_let_go(table));
  WANT(counts.condemned == 0 && counts.waited == 1 && is_active(older) && queue_at(row_node(8)) == 0);
  DONE(bs_table_commit(table, older, NULL));
  back_with_row(&one, BS_DONE);
  close_table();
}

/* In each mode and with each list of keys, a try is refused as the lock of the row is. Returns how many were. */
static size_t refuses_alike(bs_txn t, bs_node of, uint64_t number) {
  static const uint64_t keys[2] = { OLD_KEY, NEW_KEY };
  size_t k, refused = 0;
  bs_mode mode;
  for (mode = BS_NL; mode <= BS_X + 1; mode++) {
    for (k = 0; k < 6; k++) {
      const uint64_t *list = k % 2 == 0 ? keys : NULL;
      bs_reply tried = bs_table_try_row(table, t, of, number, list, k / 2, mode), locked;
      if (tried.status == BS_DONE || tried.status == BS_OTHER_KEYS) {
        DONE(bs_table_unlock_row(table, t, of, number, NULL));
      } else if (tried.status != BS_WOULD_BLOCK) {
        locked = bs_table_lock_row(table, t, of, number, list, k / 2, mode, NULL);
        WANT(tried.status == locked.status && same_node(tried.node, locked.node));
        refused++;
      }
    }
  }
  return refused;
}

/* The same for each transaction and each file, for a row with a node and for one without. */
static void a_row_is_refused(void) {
  bs_txn txns[5], holder, gone = { 3, 99 };
  bs_node files[4], other;
  struct requester one;
  size_t i, j, refused = 0;
  set_up_rows(BS_AT_BLOCK);
  files[0] = rows, files[1] = file, files[2] = root, files[3] = low;
  for (i = 0; i < 4; i++) txns[i] = begin();
  txns[4] = gone;
  holder = begin_writer(OLD_KEY);
  DONE(try_row(holder, 7, OLD_KEY, BS_S));
  DONE(lock_above(txns[0], OLD_KEY));
  DONE(bs_table_lock_path(table, txns[1], rows, BS_IX, NULL));
  other = DONE(bs_table_add_inner(table, NULL, 0)).node;
  DONE(bs_table_lock(table, txns[2], other, BS_IS, NULL));
  DONE(bs_table_lock(table, txns[3], other, BS_IS, NULL));
  send(&one, txns[2], other, BS_X);
  ANSWERS(BS_VICTIM, bs_table_lock(table, txns[3], other, BS_X, NULL));
  for (i = 0; i < 5; i++) {
    for (j = 0; j < 4; j++) refused += refuses_alike(txns[i], files[j], 7) + refuses_alike(txns[i], files[j], 8);
  }
  WANT(refused > 1600 && has_node(7) && !has_node(8));
  refuses_alike(holder, rows, 7); /* It releases the row. */
  WANT(!has_node(7));
  DONE(bs_table_abort(table, txns[3], NULL));
  back(&one, BS_DONE);
  close_table();
}

/* If memory is refused, a row that was not held is not held, and one that was is still held: its keys are not known. */
static void a_row_without_memory(void) {
  bs_status status = BS_NO_MEMORY;
  bs_txn a, b;
  bs_reply reply;
  long n;
  for (n = 1; status == BS_NO_MEMORY; n++) {
    set_up_rows(BS_AT_BLOCK);
    a = begin_writer(OLD_KEY), b = begin_writer(OLD_KEY);
    DONE(try_row(a, 7, OLD_KEY, BS_S));
    refused_allocation = n;
    status = try_row(b, 7, OLD_KEY, BS_S).status;
    refused_allocation = 0;
    WANT(locks_of(b) == (status == BS_DONE ? 5 : 4));
    DONE(try_row(b, 7, OLD_KEY, BS_S));
    DONE(bs_table_commit(table, a, NULL));
    DONE(bs_table_commit(table, b, NULL));
    WANT(!has_node(7));
    close_table();
  }
  WANT(status == BS_DONE && n > 2);
  status = BS_OTHER_KEYS;
  for (n = 1; status == BS_OTHER_KEYS; n++) {
    set_up_rows(BS_AT_BLOCK);
    a = begin_writer(OLD_KEY), b = begin_writer(OLD_KEY);
    DONE(try_row(a, 7, OLD_KEY, BS_S));
    DONE(bs_table_lock(table, b, row_node(7), BS_S, NULL)); /* Its node alone: no row is noted. */
    refused_allocation = n;
    reply = try_row(b, 7, OLD_KEY, BS_S);
    refused_allocation = 0;
    status = reply.status;
    WANT(reply.mode == BS_S && same_node(reply.node, row_node(7)));
    holds(b, row_node(7), BS_S);
    close_table();
  }
  WANT(status == BS_DONE && n > 2);
}

static bs_command row_try(bs_txn t, uint64_t number, const uint64_t *key) {
  bs_command command = row_command(BS_DO_TRY_ROW, t, key);
  command.number = number;
  return command;
}

/* Tries in lists. One that would block ends the list, as a refusal does. */
static void a_list_of_tries(void) {
  static const uint64_t key = OLD_KEY;
  bs_txn t = bs_begun(), a;
  bs_command list[6];
  size_t round;
  set_up_rows(BS_AT_BLOCK);
  list[0] = bs_do(BS_DO_BEGIN, t);
  list[1] = bs_do_at(BS_DO_TRY_PATH, t, rows, BS_IX);
  list[2] = bs_do_at(BS_DO_TRY_PATH, t, rows_below, BS_IX);
  list[3] = row_try(t, 7, &key);
  list[4] = bs_do_at(BS_DO_TRY_PATH, t, low, BS_X);
  list[5] = bs_do(BS_DO_COMMIT, t);
  for (round = 0; round < 3; round++) {
    WANT(bs_table_run(table, list, 6) == 6 && !has_node(7));
    WANT(list[2].reply.mode == BS_IX && list[3].reply.mode == BS_X && list[4].reply.mode == BS_X);
  }
  a = begin();
  DONE(bs_table_lock_path(table, a, low, BS_S, NULL));
  list[4].told = &told, told.count = 7;
  WANT(bs_table_run(table, list, 6) == 4 && told.count == 0);
  would_block(list[4].reply, low);
  WANT(list[5].reply.status == BS_NOT_MADE);
  t = list[0].reply.txn;
  holds(t, file, BS_NL);
  list[4].keep = BS_KEEP_WAY, list[4].txn = t;
  WANT(bs_table_run(table, &list[4], 1) == 0);
  holds(t, file, BS_IX);
  list[4].keep = 2;
  WANT(bs_table_run(table, &list[4], 1) == 0 && list[4].reply.status == BS_BAD_NUMBER);
  DONE(lock_above(a, OLD_KEY));
  list[3].txn = a;
  WANT(bs_table_run(table, &list[3], 1) == 0 && list[3].reply.status == BS_WOULD_BLOCK && is_active(a));
  WANT(same_node(list[3].reply.node, row_node(7)));
  close_table();
}

/* A skip over three locked rows acquires the fourth, and keeps nothing of those that it passed. */
static void a_skip_takes_the_first_that_is_free(void) {
  static const uint64_t key = OLD_KEY, other_key = NEW_KEY;
  bs_command list[5];
  uint64_t number;
  bs_txn a, t;
  size_t i;
  set_up_rows(BS_AT_BLOCK);
  a = begin_writer(OLD_KEY), t = begin_writer(OLD_KEY);
  for (number = 0; number < 3; number++) DONE(try_row(a, number, OLD_KEY, BS_X));
  for (number = 0; number < 5; number++) list[number] = row_try(t, number, &key);
  list[4].told = &told, told.count = 7;
  WANT(bs_table_try_first(table, list, 5) == 3);
  for (i = 0; i < 3; i++) would_block(list[i].reply, row_node(i));
  WANT(list[3].reply.status == BS_DONE && list[3].reply.mode == BS_X && same_node(list[3].reply.node, row_node(3)));
  WANT(list[4].reply.status == BS_NOT_MADE && !has_node(4) && locks_of(t) == 5 && told.count == 7);
  for (i = 0; i < 3; i++) WANT(queue_at(row_node(i)) == 0);
  list[3].keys = &other_key;
  WANT(bs_table_try_first(table, list, 5) == 3 && list[3].reply.status == BS_OTHER_KEYS);
  WANT(bs_table_try_first(table, list, 3) == 3 && is_active(t));
  list[1].keys = NULL; /* Any other refusal ends it. */
  WANT(bs_table_try_first(table, list, 5) == 1 && list[1].reply.status == BS_NULL_POINTER);
  for (i = 2; i < 5; i++) WANT(list[i].reply.status == BS_NOT_MADE);
  DONE(bs_table_commit(table, t, NULL));
  t = begin();
  DONE(bs_table_lock_path(table, a, low, BS_X, NULL));
  list[0] = bs_do_at(BS_DO_TRY_PATH, t, low, BS_S);
  list[1] = bs_do_at(BS_DO_TRY_PATH, t, below, BS_X);
  list[2] = bs_do_at(BS_DO_TRY, t, low, BS_S);
  WANT(bs_table_try_first(table, list, 2) == 2 && locks_of(t) == 0);
  would_block(list[0].reply, low);
  would_block(list[1].reply, below);
  list[1].keep = BS_KEEP_WAY;
  WANT(bs_table_try_first(table, list, 2) == 2 && locks_of(t) == 2); /* Unless it is to be kept. */
  list[1].keep = BS_KEEP_NOTHING;
  list[2] = bs_do_at(BS_DO_TRY_PATH, t, high, BS_X);
  WANT(bs_table_try_first(table, list, 3) == 2 && list[2].reply.mode == BS_X && locks_of(t) == 5);
  close_table();
}

/* A kind that is no try is refused, and so is a null table. */
static void a_skip_is_refused(void) {
  bs_command list[2];
  uint32_t kind;
  bs_txn t;
  set_up(BS_AT_BLOCK);
  t = begin();
  for (kind = 0; kind <= BS_DO_BEGIN_AGAIN + 1; kind++) {
    bool is_try = kind == BS_DO_TRY || kind == BS_DO_TRY_PATH || kind == BS_DO_TRY_ROW;
    list[0] = bs_do_at(kind, t, root, BS_IS), list[1] = bs_do_at(BS_DO_TRY, t, root, BS_X);
    list[0].told = &told, told.count = 7;
    if (is_try) continue;
    WANT(bs_table_try_first(table, list, 2) == 0 && list[0].reply.status == BS_BAD_NUMBER && told.count == 0);
    WANT(list[1].reply.status == BS_NOT_MADE && locks_of(t) == 0);
  }
  list[0] = bs_do_at(BS_DO_TRY, bs_begun(), root, BS_X);
  WANT(bs_table_try_first(table, list, 1) == 0 && list[0].reply.status == BS_NO_SUCH_TXN);
  list[0] = bs_do_at(BS_DO_TRY_ROW, t, root, BS_X);
  list[0].file = file;
  WANT(bs_table_try_first(table, list, 1) == 0 && list[0].reply.status == BS_NOT_ROWS);
  WANT(bs_table_try_first(table, NULL, 3) == 3 && bs_table_try_first(table, list, 0) == 0);
  close_table();
}

/* A skip passes over a record and a row that have moved to where the transaction holds nothing above them, and over a
 * record that is gone, by its node and by its path. It acquires the next free one. */
static void a_skip_passes_over_what_moved_or_is_gone(void) {
  static const uint64_t key = OLD_KEY;
  bs_command list[6];
  bs_txn a, t;
  uint64_t held;
  set_up_rows(BS_AT_BLOCK);
  a = begin_writer(OLD_KEY), t = begin_writer(OLD_KEY);
  DONE(bs_table_lock_path(table, t, below, BS_IX, NULL));
  DONE(bs_table_lock_path(table, t, file, BS_IX, NULL));
  DONE(lock_above(a, NEW_KEY));
  DONE(bs_table_lock_path(table, a, low, BS_X, NULL));
  DONE(bs_table_lock_path(table, a, high, BS_X, NULL));
  DONE(bs_table_rekey(table, a, low, by_key, 150, NULL));
  DONE(bs_table_delete(table, a, high, NULL));
  DONE(ask_row(a, 7, NEW_KEY, NULL));
  DONE(ask_row(a, 8, OLD_KEY, NULL));
  list[0] = bs_do_at(BS_DO_TRY, t, low, BS_X);
  list[1] = row_try(t, 7, &key);
  list[2] = bs_do_at(BS_DO_TRY, t, high, BS_X);
  list[3] = bs_do_at(BS_DO_TRY_PATH, t, high, BS_X);
  list[4] = row_try(t, 8, &key);
  list[5] = row_try(t, 9, &key);
  held = locks_of(t);
  WANT(bs_table_try_first(table, list, 5) == 5 && locks_of(t) == held);
  WANT(bs_table_try_first(table, list, 6) == 5 && list[5].reply.status == BS_DONE && locks_of(t) == held + 1);
  WANT(list[0].reply.status == BS_NEED_PARENTS && same_node(list[0].reply.node, above));
  WANT(list[1].reply.status == BS_NEED_PARENTS && same_node(list[1].reply.node, rows_above));
  WANT(list[2].reply.status == BS_NO_SUCH_NODE && list[3].reply.status == BS_NO_SUCH_NODE);
  would_block(list[4].reply, row_node(8));
  DONE(bs_table_commit(table, a, NULL));
  WANT(bs_table_try_first(table, list, 6) == 1 && list[1].reply.status == BS_DONE); /* Its node was removed by the
                                                                                     * commit. */
  WANT(list[0].reply.status == BS_NEED_PARENTS);
  close_table();
}

/* Jobs in a table; sixteen threads take one after the other by a skip over the locked ones. */
enum { JOBS = 200, WORKERS = 16, AT_ONCE = 20 };

static bool is_done[JOBS];    /* in the page */
static long times_done[JOBS]; /* by the holder of the row */

/* The first jobs that are not done, from the front of the table. */
static size_t see_jobs(uint64_t *jobs) {
  size_t i, count = 0;
  pthread_mutex_lock(&page);
  for (i = 0; i < JOBS && count < AT_ONCE; i++) {
    if (!is_done[i]) jobs[count++] = i;
  }
  pthread_mutex_unlock(&page);
  return count;
}

/* The job may have been done since the page was read. */
static bool is_open(uint64_t job) {
  bool is;
  pthread_mutex_lock(&page);
  is = !is_done[job];
  pthread_mutex_unlock(&page);
  return is;
}

static void do_job(uint64_t job) {
  times_done[job]++;
  sched_yield();
  pthread_mutex_lock(&page);
  is_done[job] = true;
  pthread_mutex_unlock(&page);
}

static void *work_off(void *arg) {
  static const uint64_t key = OLD_KEY;
  uint64_t jobs[AT_ONCE];
  bs_command list[AT_ONCE];
  size_t count, i, place;
  while ((count = see_jobs(jobs)) > 0) {
    bs_txn t = begin_writer(OLD_KEY);
    for (i = 0; i < count; i++) list[i] = row_try(t, jobs[i], &key);
    place = bs_table_try_first(table, list, count);
    if (place < count) {
      WANT(list[place].reply.status == BS_DONE);
      if (is_open(jobs[place])) do_job(jobs[place]);
    }
    DONE(bs_table_commit(table, t, NULL));
  }
  return arg;
}

static void each_job_is_done_once(void) {
  pthread_t workers[WORKERS];
  bs_counts counts;
  size_t i;
  set_up_rows(BS_AT_BLOCK);
  memset(is_done, 0, sizeof is_done);
  memset(times_done, 0, sizeof times_done);
  for (i = 0; i < WORKERS; i++) start(&workers[i], work_off, NULL);
  for (i = 0; i < WORKERS; i++) join(workers[i]);
  for (i = 0; i < JOBS; i++) WANT(times_done[i] == 1 && !has_node(i));
  memset(&counts, 0, sizeof counts);
  DONE(bs_counters(bs_table_hold(table), &counts));
  DONE(bs_table_let_go(table));
  WANT(counts.waited == 0 && counts.condemned == 0 && sleepers() == 0);
  close_table();
}

/* ------------------------------------------------------------------------------------------------
 * Savepoints, and locks for an instant.
 */

static void a_savepoint_wakes(void) {
  struct requester one;
  bs_txn a, b;
  uint64_t mark;
  set_up(BS_AT_BLOCK);
  a = begin(), b = begin();
  DONE(bs_table_lock(table, a, root, BS_IX, NULL));
  mark = DONE(bs_table_mark(table, a)).count;
  DONE(bs_table_lock_path(table, a, low, BS_X, NULL));
  send_by_path(&one, b, low, BS_S);
  WANT(mark == 1 && DONE(bs_table_release_since(table, a, mark, &told)).count == 4);
  WANT(told.count == 1 && is_told(0, b, BS_TOLD_GRANTED));
  back(&one, BS_DONE);
  holds(b, low, BS_S);
  holds(a, root, BS_IX);
  WANT(locks_of(a) == 1 && DONE(bs_table_release_since(table, a, mark, NULL)).count == 0);
  close_table();
}

/* A list rolls back to a savepoint, and locks others. */
static void a_savepoint_in_a_list(void) {
  bs_command list[3];
  bs_txn a;
  set_up(BS_AT_BLOCK);
  a = begin();
  DONE(bs_table_lock(table, a, root, BS_IX, NULL));
  list[0] = bs_do_at(BS_DO_LOCK_PATH, a, low, BS_X);
  list[1] = bs_do(BS_DO_RELEASE_SINCE, a);
  list[1].number = 1;
  list[2] = bs_do_at(BS_DO_LOCK_PATH, a, above, BS_X);
  WANT(bs_table_run(table, list, 3) == 3 && list[1].reply.count == 4);
  holds(a, low, BS_NL);
  holds(a, above, BS_X);
  list[1].txn.age++;
  WANT(bs_table_run(table, list + 1, 1) == 0 && list[1].reply.status == BS_NO_SUCH_TXN);
  close_table();
}

/* A lock that is granted at once is released at once; what the path locked above it stays. */
static void a_lock_for_an_instant(void) {
  bs_txn a, b;
  set_up(BS_AT_BLOCK);
  a = begin(), b = begin();
  WANT(DONE(bs_table_lock(table, a, root, BS_X | BS_INSTANT, NULL)).mode == BS_X && locks_of(a) == 0);
  WANT(DONE(bs_table_lock_path(table, a, low, BS_X | BS_INSTANT, NULL)).mode == BS_X && locks_of(a) == 4);
  holds(a, below, BS_IX);
  holds(a, low, BS_NL);
  WANT(DONE(bs_table_try(table, a, low, BS_X | BS_INSTANT)).mode == BS_X && locks_of(a) == 4);
  DONE(bs_table_lock_path(table, b, low, BS_S, NULL));
  ANSWERS(BS_WOULD_BLOCK, bs_table_try(table, a, low, BS_X | BS_INSTANT));
  WANT(DONE(bs_table_try(table, a, low, BS_S | BS_INSTANT)).mode == BS_S && locks_of(a) == 4);
  ANSWERS(BS_BAD_MODE, bs_table_lock(table, a, low, BS_IX | BS_INSTANT, NULL));
  ANSWERS(BS_BAD_MODE, bs_table_lock(table, a, low, BS_NL | BS_INSTANT, NULL));
  ANSWERS(BS_BAD_NUMBER, bs_table_lock(table, a, low, (BS_X + 1) | BS_INSTANT, NULL));
  ANSWERS(BS_BAD_NUMBER, bs_table_lock(table, a, low, BS_X | BS_INSTANT << 1, NULL));
  ANSWERS(BS_BAD_NUMBER, bs_table_try_path(table, a, low, BS_S | BS_INSTANT, BS_KEEP_WAY));
  ANSWERS(BS_BAD_NUMBER, bs_table_await(table, a, low, BS_S | BS_INSTANT, NULL));
  ANSWERS(BS_BAD_NUMBER, bs_table_lock_row(table, a, file, 1, NULL, 0, BS_S | BS_INSTANT, NULL));
  close_table();
}

/* Those that wait are released in the critical section that grants them: so one commit grants all of them, up to a lock
 * that stays, and a caller's list has them all. */
static void instants_in_a_row(void) {
  struct requester one, two, three, last;
  bs_txn a, b, c, d, e;
  set_up(BS_AT_BLOCK);
  a = begin(), b = begin(), c = begin(), d = begin(), e = begin();
  DONE(bs_table_lock(table, a, root, BS_X, NULL));
  send(&one, b, root, BS_X | BS_INSTANT);
  send(&two, c, root, BS_S | BS_INSTANT);
  send_by_path(&three, d, root, BS_X | BS_INSTANT);
  send(&last, e, root, BS_X);
  WANT(queue_at(root) == 4);
  DONE(bs_table_commit(table, a, &told));
  WANT(told.count == 4 && is_told(0, b, BS_TOLD_GRANTED) && is_told(1, c, BS_TOLD_GRANTED));
  WANT(is_told(2, d, BS_TOLD_GRANTED) && is_told(3, e, BS_TOLD_GRANTED) && queue_at(root) == 0);
  WANT(back(&one, BS_DONE).mode == BS_X && back(&two, BS_DONE).mode == BS_S && back(&three, BS_DONE).mode == BS_X);
  WANT(back(&last, BS_DONE).mode == BS_X && locks_of(b) == 0 && locks_of(c) == 0 && locks_of(d) == 0);
  holds(e, root, BS_X);
  close_table();
}

/* If a wait for an instant ends in another way, there is nothing to release, and the transaction's next lock stays. */
static void an_instant_that_never_comes(void) {
  struct requester one;
  struct timespec until;
  bs_txn a, b, c;
  set_up(BS_AT_BLOCK);
  a = begin(), b = begin(), c = begin();
  DONE(bs_table_lock(table, a, root, BS_X, NULL));
  until = moment_in(1000);
  ANSWERS(BS_TIMED_OUT, bs_table_lock(table, b, root, BS_X | BS_INSTANT, &until));
  send(&one, b, root, BS_X | BS_INSTANT);
  DONE(bs_table_cancel(table, b, NULL));
  back(&one, BS_NOT_WAITING);
  send(&one, b, root, BS_X);
  DONE(bs_table_commit(table, a, NULL));
  back(&one, BS_DONE);
  holds(b, root, BS_X);
  send(&one, c, root, BS_X | BS_INSTANT);
  DONE(bs_table_abort(table, c, NULL));
  back(&one, BS_NO_SUCH_TXN);
  c = begin();
  send(&one, c, root, BS_S);
  DONE(bs_table_commit(table, b, NULL));
  back(&one, BS_DONE);
  holds(c, root, BS_S);
  close_table();
}

/* A lock for an instant that was granted is no answer to the next wait, even for the same node. */
static void an_instant_that_came_is_over(void) {
  struct requester one;
  bs_txn a, b;
  set_up(BS_AT_BLOCK);
  a = begin(), b = begin();
  DONE(bs_table_lock(table, a, root, BS_X, NULL));
  send(&one, b, root, BS_X | BS_INSTANT);
  DONE(bs_table_release_since(table, a, 0, NULL));
  back(&one, BS_DONE);
  DONE(bs_table_lock(table, a, root, BS_X, NULL));
  send(&one, b, root, BS_X);
  DONE(bs_table_cancel(table, b, NULL));
  back(&one, BS_NOT_WAITING);
  send_by_path(&one, b, root, BS_X);
  DONE(bs_table_cancel(table, b, NULL));
  back(&one, BS_NOT_WAITING);
  close_table();
}

/* A transaction that waits for an instant may be a victim, as any waiter; its locks stay until it aborts. */
static void an_instant_is_victim(void) {
  struct requester one, two;
  bs_txn a, b;
  set_up(BS_AT_BLOCK);
  a = begin(), b = begin();
  DONE(bs_table_lock_path(table, a, low, BS_X, NULL));
  DONE(bs_table_lock_path(table, b, high, BS_X, NULL));
  send(&one, b, low, BS_S | BS_INSTANT);
  send(&two, a, high, BS_S | BS_INSTANT);
  back(&one, BS_VICTIM);
  WANT(locks_of(b) == 5);
  DONE(bs_table_abort(table, b, NULL));
  WANT(back(&two, BS_DONE).mode == BS_S && locks_of(a) == 5);
  holds(a, high, BS_NL);
  close_table();
}

/* A node that is already held is raised, and stays; one that is held for a child by another parent stays too. */
static void an_instant_of_what_is_held(void) {
  bs_txn a;
  set_up(BS_AT_BLOCK);
  a = begin();
  DONE(bs_table_lock_path(table, a, file, BS_S, NULL));
  WANT(DONE(bs_table_lock_path(table, a, file, BS_X | BS_INSTANT, NULL)).mode == BS_X);
  holds(a, file, BS_X);
  DONE(bs_table_lock(table, a, low, BS_S, NULL));
  WANT(DONE(bs_table_lock_path(table, a, below, BS_IS | BS_INSTANT, NULL)).mode == BS_IS);
  holds(a, below, BS_IS);
  DONE(bs_table_unlock(table, a, low, NULL));
  DONE(bs_table_unlock(table, a, below, NULL));
  close_table();
}

/* In a list a lock for an instant that waits is awaited in its mode, and the list continues after it. */
static void an_instant_in_a_list(void) {
  bs_command list[3];
  bs_txn a, b;
  set_up(BS_AT_BLOCK);
  a = begin(), b = begin();
  list[0] = bs_do_at(BS_DO_LOCK_PATH, a, low, BS_X | BS_INSTANT);
  list[1] = bs_do_at(BS_DO_TRY, a, low, BS_S | BS_INSTANT);
  list[2] = bs_do_at(BS_DO_LOCK, a, high, BS_S | BS_INSTANT);
  WANT(bs_table_run(table, list, 3) == 3 && list[2].reply.mode == BS_S && locks_of(a) == 4);
  DONE(bs_table_lock_path(table, b, high, BS_X, NULL));
  WANT(bs_table_run(table, list, 3) == 2 && list[2].reply.status == BS_WAITING && list[2].reply.mode == BS_S);
  WANT(same_node(list[2].reply.node, high));
  DONE(bs_table_commit(table, b, &told));
  WANT(told.count == 1 && is_told(0, a, BS_TOLD_GRANTED));
  WANT(DONE(bs_table_await(table, a, high, BS_S, NULL)).mode == BS_S && locks_of(a) == 4);
  b = begin();
  DONE(bs_table_lock_path(table, b, low, BS_S, NULL));
  WANT(bs_table_run(table, list, 1) == 0 && list[0].reply.status == BS_WAITING && list[0].reply.mode == BS_X);
  DONE(bs_table_commit(table, b, NULL));
  WANT(DONE(bs_table_await(table, a, low, BS_X, NULL)).mode == BS_X && locks_of(a) == 4);
  close_table();
}

/* Leaves a lock waiting, by a list. */
static void leave_waiting(bs_txn txn, bs_node node, bs_mode mode) {
  bs_command lock = bs_do_at(BS_DO_LOCK, txn, node, mode);
  WANT(bs_table_run(table, &lock, 1) == 0 && lock.reply.status == BS_WAITING);
}

/* A path in a list, with its node for an instant, for which a victim is chosen above and one at the node: the caller is
 * told of both, also after the release. */
static void an_instant_in_a_list_tells_all(void) {
  bs_command path;
  bs_node apart, node;
  bs_txn a, b, c, d;
  set_up(BS_AT_BLOCK);
  apart = DONE(bs_table_add_inner(table, NULL, 0)).node;
  node = DONE(bs_table_add_inner(table, &root, 1)).node;
  a = begin(), b = begin(), d = begin(), c = begin();
  DONE(bs_table_lock_path(table, a, node, BS_IX, NULL));
  DONE(bs_table_lock(table, b, apart, BS_X, NULL));
  DONE(bs_table_lock(table, d, root, BS_IX, NULL));
  leave_waiting(a, apart, BS_S);
  leave_waiting(c, root, BS_SIX);
  leave_waiting(d, node, BS_X);
  path = bs_do_at(BS_DO_LOCK_PATH, b, node, BS_IX | BS_INSTANT);
  path.told = &told;
  WANT(bs_table_run(table, &path, 1) == 1 && path.reply.mode == BS_IX && locks_of(b) == 2);
  WANT(told.count == 2 && is_told(0, d, BS_TOLD_VICTIM) && is_told(1, c, BS_TOLD_VICTIM));
  close_table();
}

/* ------------------------------------------------------------------------------------------------
 * Watchers.
 */

static bool waits_on_board(const bs_board *board, bs_txn one, bs_txn other) {
  return bs_has(board->rows[one.slot], other.slot);
}

static void a_watcher_looks(void) {
  static bs_board board;
  bs_watcher watcher = BS_NO_WATCHER_HERE;
  struct requester one;
  bs_txn a, b;
  set_up(BS_AT_BLOCK);
  DONE(bs_table_watch(table, &watcher));
  a = begin(), b = begin();
  DONE(bs_table_lock(table, a, root, BS_X, NULL));
  send(&one, b, root, BS_S);
  DONE(bs_look(&watcher, &board));
  WANT(waits_on_board(&board, b, a) && !waits_on_board(&board, a, b));
  WANT(board.epoch == accepted_in(table));
  DONE(bs_table_commit(table, a, NULL));
  back(&one, BS_DONE);
  DONE(bs_look(&watcher, &board));
  WANT(!waits_on_board(&board, b, a) && board.ages[a.slot] == 0);
  close_table();
  DONE(bs_look(&watcher, &board));
  DONE(bs_watch_end(&watcher));
  ANSWERS(BS_NO_WATCHER, bs_look(&watcher, &board));
}

/* Commands that have nothing to do with a wait are not shown: the last board still shows every wait. If a wait may have
 * begun, ended or changed, the next board is shown. */
static void a_watcher_is_shown_changes(void) {
  static bs_board board;
  bs_watcher watcher = BS_NO_WATCHER_HERE;
  struct requester one, two;
  bs_txn a, b, c;
  uint64_t seen;
  set_up(BS_AT_BLOCK);
  DONE(bs_table_watch(table, &watcher));
  a = begin(), b = begin();
  DONE(bs_table_lock_path(table, a, low, BS_X, NULL));
  send_by_path(&one, b, low, BS_X);
  DONE(bs_look(&watcher, &board));
  WANT(waits_on_board(&board, b, a) && board.epoch == accepted_in(table));
  seen = board.epoch;

  c = begin();
  DONE(bs_table_lock_path(table, c, high, BS_X, NULL));
  DONE(bs_table_unlock(table, c, high, NULL));
  DONE(bs_table_lock(table, c, high, BS_S, NULL));
  DONE(bs_table_commit(table, c, NULL));
  DONE(bs_look(&watcher, &board));
  WANT(board.epoch == seen && seen < accepted_in(table));
  WANT(waits_on_board(&board, b, a) && board.ages[b.slot] == b.age && board.ages[a.slot] == a.age);

  c = begin();
  send_by_path(&two, c, low, BS_X);
  DONE(bs_look(&watcher, &board));
  WANT(waits_on_board(&board, b, a) && waits_on_board(&board, c, a) && waits_on_board(&board, c, b));
  WANT(board.ages[c.slot] == c.age && board.epoch == accepted_in(table));

  DONE(bs_table_commit(table, a, NULL));
  back(&one, BS_DONE);
  DONE(bs_look(&watcher, &board));
  WANT(!waits_on_board(&board, b, a) && waits_on_board(&board, c, b) && !waits_on_board(&board, c, a));
  DONE(bs_table_commit(table, b, NULL));
  back(&two, BS_DONE);
  DONE(bs_look(&watcher, &board));
  WANT(!waits_on_board(&board, c, b) && board.epoch == accepted_in(table));

  DONE(bs_table_commit(table, c, NULL));
  DONE(bs_look(&watcher, &board));
  WANT(board.epoch < accepted_in(table));
  DONE(bs_watch_end(&watcher));
  close_table();
}

static void a_ninth_watcher(void) {
  static const bs_watcher none = BS_NO_WATCHER_HERE;
  bs_watcher all[9];
  size_t i;
  set_up(BS_BY_WATCHER);
  for (i = 0; i < 9; i++) all[i] = none;
  for (i = 0; i < BS_MOST_WATCHERS; i++) DONE(bs_table_watch(table, &all[i]));
  ANSWERS(BS_TOO_MANY_WATCHERS, bs_table_watch(table, &all[8]));
  ANSWERS(BS_TOO_MANY_WATCHERS, bs_table_watch_thread(table, 0));
  ANSWERS(BS_IN_USE, bs_table_watch(table, &all[0]));
  DONE(bs_watch_end(&all[3]));
  DONE(bs_table_watch_thread(table, 0));
  ANSWERS(BS_TOO_MANY_WATCHERS, bs_table_watch(table, &all[8]));
  ANSWERS(BS_IN_USE, bs_table_watch_thread(table, 0));
  close_table();
  for (i = 0; i < 9; i++) bs_watch_end(&all[i]);
}

/* One of two watchers ends, and the other sees a wait that begins then. */
static void one_of_two_watchers_goes_on(void) {
  static bs_board board;
  int ends;
  for (ends = 0; ends < 2; ends++) {
    static const bs_watcher none = BS_NO_WATCHER_HERE;
    bs_watcher both[2];
    struct requester one;
    bs_txn a, b;
    both[0] = both[1] = none;
    set_up(BS_BY_WATCHER);
    a = begin(), b = begin();
    DONE(bs_table_lock(table, a, root, BS_X, NULL));
    DONE(bs_table_watch(table, &both[0]));
    DONE(bs_table_watch(table, &both[1]));
    DONE(bs_watch_end(&both[ends]));
    send(&one, b, root, BS_S);
    DONE(bs_look(&both[1 - ends], &board));
    WANT(waits_on_board(&board, b, a));
    DONE(bs_table_commit(table, a, NULL));
    back(&one, BS_DONE);
    DONE(bs_watch_end(&both[1 - ends]));
    close_table();
  }
}

/* Nine watchers are made and ended beside one that stays, and sees the wait that begins after them. */
static void watchers_come_and_go(void) {
  static bs_board board;
  bs_watcher stays = BS_NO_WATCHER_HERE;
  struct requester one;
  bs_txn a, b;
  int i;
  set_up(BS_BY_WATCHER);
  DONE(bs_table_watch(table, &stays));
  for (i = 0; i < BS_MOST_WATCHERS + 1; i++) {
    bs_watcher watcher = BS_NO_WATCHER_HERE;
    DONE(bs_table_watch(table, &watcher));
    DONE(bs_look(&watcher, &board));
    DONE(bs_watch_end(&watcher));
  }
  a = begin(), b = begin();
  DONE(bs_table_lock(table, a, root, BS_X, NULL));
  send(&one, b, root, BS_S);
  DONE(bs_look(&stays, &board));
  WANT(waits_on_board(&board, b, a));
  DONE(bs_table_commit(table, a, NULL));
  back(&one, BS_DONE);
  DONE(bs_watch_end(&stays));
  close_table();
}

/* The epoch of a board that is known to be shown; and until when they look. */
static uint64_t known_epoch;
static struct timespec looks_until;

/* No look gives an older board than one that was shown before it. */
static void *look_for_known(void *arg) {
  bs_watcher watcher = BS_NO_WATCHER_HERE;
  bs_board board;
  DONE(bs_table_watch(table, &watcher));
  while (!is_over(&looks_until)) {
    uint64_t known = __atomic_load_n(&known_epoch, __ATOMIC_SEQ_CST);
    DONE(bs_look(&watcher, &board));
    WANT(board.epoch >= known);
  }
  DONE(bs_watch_end(&watcher));
  return arg;
}

/* Eight look at once for a third of a second, while a wait begins and ends again and again: each tries again if another was
 * in its way. */
static void looks_miss_nothing(void) {
  pthread_t threads[BS_MOST_WATCHERS];
  bs_txn a, b;
  bs_command lock;
  int i;
  set_up(BS_BY_WATCHER);
  a = begin(), b = begin();
  DONE(bs_table_lock(table, a, root, BS_X, NULL));
  known_epoch = 0;
  looks_until = moment_in(300000);
  for (i = 0; i < BS_MOST_WATCHERS; i++) WANT(pthread_create(&threads[i], NULL, look_for_known, NULL) == 0);
  for (i = 0; !is_over(&looks_until); i++) {
    lock = bs_do(BS_DO_LOCK, b);
    lock.node = root;
    lock.mode = BS_S;
    WANT(bs_table_run(table, &lock, 1) == 0 && lock.reply.status == BS_WAITING);
    if (i > 100) __atomic_store_n(&known_epoch, accepted_in(table), __ATOMIC_SEQ_CST);
    DONE(bs_table_cancel(table, b, NULL));
  }
  for (i = 0; i < BS_MOST_WATCHERS; i++) pthread_join(threads[i], NULL);
  close_table();
}

/* Watchers for which there was no memory do not count: an allocation of a watch is refused eight times, and then eight
 * watch. */
static void refused_watchers(void) {
  static const bs_watcher none = BS_NO_WATCHER_HERE;
  bs_watcher all[BS_MOST_WATCHERS + 1];
  long n = 1;
  int i;
  bool refused = true;
  for (; refused; n++) {
    for (i = 0; i < BS_MOST_WATCHERS + 1; i++) all[i] = none;
    set_up(BS_BY_WATCHER);
    DONE(bs_table_watch(table, &all[0])); /* What the first allocates for all exists from now on. */
    DONE(bs_watch_end(&all[0]));
    for (i = 0; i < BS_MOST_WATCHERS && refused; i++) {
      bs_reply reply;
      refused_allocation = n;
      reply = bs_table_watch(table, &all[0]);
      refused = refused_allocation == 0;
      refused_allocation = 0;
      ANSWERS(refused ? BS_NO_MEMORY : BS_DONE, reply);
      if (!refused) DONE(bs_watch_end(&all[0]));
    }
    for (i = 0; i < BS_MOST_WATCHERS; i++) DONE(bs_table_watch(table, &all[i]));
    ANSWERS(BS_TOO_MANY_WATCHERS, bs_table_watch(table, &all[BS_MOST_WATCHERS]));
    for (i = 0; i < BS_MOST_WATCHERS; i++) DONE(bs_watch_end(&all[i]));
    close_table();
  }
  WANT(n > 2);
}

/* The thread that watches ends the wait of a pair for each other, whenever it began. */
static void a_thread_watches(uint64_t pace) {
  int i;
  set_up(BS_BY_WATCHER);
  DONE(bs_table_watch_thread(table, pace));
  for (i = 0; i < 20; i++) {
    bs_txn a = begin(), b = begin();
    struct requester one, two;
    DONE(bs_table_lock(table, a, root, BS_S, NULL));
    DONE(bs_table_lock(table, b, root, BS_S, NULL));
    memset(&one, 0, sizeof one);
    one.txn = a, one.node = root, one.mode = BS_X, one.by_path = i % 4 < 2;
    two = one;
    two.txn = b;
    start(&one.thread, ask, &one);
    if (i % 2 == 0) nap();
    start(&two.thread, ask, &two);
    back(&two, BS_VICTIM);
    DONE(bs_table_abort(table, b, NULL));
    back(&one, BS_DONE);
    DONE(bs_table_commit(table, a, NULL));
  }
  close_table();
}

static void a_thread_watches_without_rest(void) {
  a_thread_watches(0);
}

static void a_thread_watches_and_rests(void) {
  a_thread_watches(1000000);
}

/* A path that goes on to another wait closes a cycle by that, long after the last lock was left waiting: the thread that
 * watches is told of it. */
static void a_wait_that_goes_on_is_watched(void) {
  struct requester one, other;
  bs_node beside;
  bs_txn a, b, holder;
  int i;
  set_up(BS_BY_WATCHER);
  DONE(bs_table_watch_thread(table, 0));
  beside = DONE(bs_table_add_file(table, &root, 1)).node;
  a = begin();
  b = begin();
  holder = begin();
  DONE(bs_table_lock_path(table, a, beside, BS_X, NULL));
  DONE(bs_table_lock_path(table, b, low, BS_S, NULL));
  DONE(bs_table_lock_path(table, holder, file, BS_S, NULL));
  send_by_path(&other, b, beside, BS_S);
  send_by_path(&one, a, low, BS_X);
  for (i = 0; i < 400; i++) nap();
  DONE(bs_table_commit(table, holder, NULL));
  back(&other, BS_VICTIM);
  DONE(bs_table_abort(table, b, NULL));
  back(&one, BS_DONE);
  DONE(bs_table_commit(table, a, NULL));
  close_table();
}

/* It does not delay the end of the table, however long it rests. */
static void a_thread_rests_long(void) {
  struct requester one;
  bs_txn a, b;
  set_up(BS_BY_WATCHER);
  DONE(bs_table_watch_thread(table, UINT64_C(3600000000000)));
  a = begin(), b = begin();
  DONE(bs_table_lock(table, a, root, BS_X, NULL));
  send(&one, b, root, BS_X);
  close_table();
  back(&one, BS_NO_MANAGER);
}

static volatile sig_atomic_t handled;

static void handle(int number) {
  handled = number;
}

/* It takes no signal of the process: this thread blocks it, so it is pending. */
static void a_thread_watches_without_signals(void) {
  struct timespec pause = { 0, 5000000 };
  struct sigaction action, before;
  sigset_t mine;
  memset(&action, 0, sizeof action);
  action.sa_handler = handle;
  handled = 0;
  set_up(BS_BY_WATCHER);
  WANT(sigaction(SIGUSR1, &action, &before) == 0);
  DONE(bs_table_watch_thread(table, 0));
  sigemptyset(&mine);
  sigaddset(&mine, SIGUSR1);
  WANT(pthread_sigmask(SIG_BLOCK, &mine, NULL) == 0);
  WANT(kill(getpid(), SIGUSR1) == 0);
  nanosleep(&pause, NULL);
  WANT(handled == 0);
  WANT(pthread_sigmask(SIG_UNBLOCK, &mine, NULL) == 0);
  WANT(handled == SIGUSR1);
  close_table();
  WANT(sigaction(SIGUSR1, &before, NULL) == 0);
}

/* It is refused the memory to show what it did itself: it settles once, and sleeps. */
static void a_thread_watches_without_memory(void) {
  struct timespec pause = { 0, 20000000 };
  struct requester one, two;
  uint64_t accepted;
  bs_txn a, b;
  set_up(BS_BY_WATCHER);
  DONE(bs_table_watch_thread(table, 0));
  refuse_thread(table->watch);
  a = begin(), b = begin();
  DONE(bs_table_lock(table, a, root, BS_S, NULL));
  DONE(bs_table_lock(table, b, root, BS_S, NULL));
  send(&one, a, root, BS_X);
  start_asking_for(&two, b, root, BS_X);
  back(&two, BS_VICTIM);
  accepted = accepted_in(table);
  nanosleep(&pause, NULL);
  WANT(accepted_in(table) == accepted);
  DONE(bs_table_abort(table, b, NULL));
  back(&one, BS_DONE);
  close_table();
  refuse_no_thread();
}

/* Two deadlocks are on one board: both are ended before it rests, for an hour. A third that closes then stays. */
static void a_thread_ends_all_it_sees(void) {
  struct timespec pause = { 0, 5000000 };
  struct requester one, two;
  bs_node both[2];
  bs_txn t[4], a, b;
  size_t i;
  set_up(BS_BY_WATCHER);
  both[0] = DONE(bs_table_add_inner(table, NULL, 0)).node;
  both[1] = DONE(bs_table_add_inner(table, NULL, 0)).node;
  for (i = 0; i < 4; i++) {
    t[i] = begin();
    DONE(bs_table_lock(table, t[i], both[i % 2], BS_S, NULL));
  }
  DONE(bs_table_watch_thread(table, UINT64_C(3600000000000)));
  WANT(bs_table_hold(table) != NULL);
  for (i = 0; i < 4; i++) ANSWERS(BS_WAITING, bs_lock(&table->manager, t[i], both[i % 2], BS_X, &told));
  table->waited = accepted_by(&table->manager);
  pthread_cond_signal(&table->began);
  bs_table_let_go(table);
  for (i = 2; i < 4; i++) {
    while (ASK(table, bs_doing, t[i]).count != BS_CONDEMNED) nap();
  }
  WANT(ASK(table, bs_doing, t[0]).count == BS_WAITS && ASK(table, bs_doing, t[1]).count == BS_WAITS);
  a = begin(), b = begin();
  DONE(bs_table_lock(table, a, root, BS_S, NULL));
  DONE(bs_table_lock(table, b, root, BS_S, NULL));
  send(&one, a, root, BS_X);
  send(&two, b, root, BS_X);
  nanosleep(&pause, NULL);
  WANT(ASK(table, bs_doing, a).count == BS_WAITS && ASK(table, bs_doing, b).count == BS_WAITS);
  close_table();
  back(&one, BS_NO_MANAGER);
  back(&two, BS_NO_MANAGER);
}

/* ------------------------------------------------------------------------------------------------
 * Listings.
 */

static bool has_one(bs_slots set, uint32_t slot) {
  bs_slots one = { { 0 } };
  one.words[slot / 64] = (uint64_t)1 << slot % 64;
  return same_slots(set, one);
}

static void listings(void) {
  static bs_deadlock last;
  bs_counts counts;
  struct requester one, two;
  const bs_manager *m;
  bs_txn a, b, c;
  size_t place, rows = 0;
  set_up(BS_AT_BLOCK);
  ANSWERS(BS_NO_PLACE, ASK(table, bs_last_deadlock, &last));
  a = begin(), b = begin(), c = begin();
  DONE(bs_table_lock_path(table, a, low, BS_X, NULL));
  send_by_path(&one, b, low, BS_S);
  send_by_path(&two, c, low, BS_S);
  m = bs_table_hold(table);
  WANT(limits_of(m).transactions == BS_SLOTS && same_txn(bs_living(m, a.slot).txn, a));
  WANT(bs_living(m, 5).status == BS_NO_PLACE && bs_living(m, BS_SLOTS).status == BS_BAD_NUMBER);
  WANT(bs_doing(m, a).count == BS_ACTIVE && bs_doing(m, b).count == BS_WAITS);
  WANT(bs_lock_count(m, a).count == 5 && bs_lock_count(m, b).count == 3);
  for (place = 0; bs_lock_at(m, a, place).status == BS_DONE; place++) {
    if (same_node(bs_lock_at(m, a, place).node, file)) rows += bs_lock_at(m, a, place).count;
  }
  WANT(place == 5 && rows == 1);
  WANT(has_one(bs_holders(m, low).slots, a.slot));
  WANT(bs_held(m, a, low).mode == BS_X && bs_held(m, b, low).mode == BS_NL);
  WANT(bs_queue_len(m, low).count == 2 && same_txn(bs_queue_at(m, low, 0).txn, b));
  WANT(same_txn(bs_queue_at(m, low, 1).txn, c) && bs_queue_at(m, low, 2).status == BS_NO_PLACE);
  WANT(bs_has(bs_waits_for(m, c).slots, a.slot) && bs_has(bs_waits_for(m, c).slots, b.slot));
  bs_table_let_go(table);
  DONE(ASK(table, bs_counters, &counts));
  WANT(counts.waited == 2 && counts.accepted == accepted_in(table));
  ANSWERS(BS_WAITING, wait_in(table, b));
  WANT(ASK(table, bs_queue_len, low).count == 2 && FIND(table, bs_holders, low).status == BS_DONE);
  DONE(bs_table_commit(table, a, NULL));
  back(&one, BS_DONE), back(&two, BS_DONE);
  send_by_path(&one, b, low, BS_X);
  ANSWERS(BS_VICTIM, bs_table_lock_path(table, c, low, BS_X, NULL));
  DONE(ASK(table, bs_last_deadlock, &last));
  WANT(same_txn(last.victim, c) && last.count == 2);
  WANT(same_txn(last.at[0].txn, b) && same_node(last.at[0].node, low) && last.at[0].mode == BS_X);
  WANT(same_txn(last.at[1].txn, c) && bs_has(last.at[1].waits_for, b.slot) && bs_has(last.at[0].waits_for, c.slot));
  DONE(bs_table_abort(table, c, NULL));
  back(&one, BS_DONE);
  DONE(ASK(table, bs_counters, &counts));
  WANT(counts.condemned == 1 && counts.granted_later == 3 && counts.most_waiting <= 2);
  close_table();
}

/* How many lines of a text begin with this. */
static size_t lines_with(FILE *text, const char *start_of_line) {
  char line[200];
  size_t count = 0;
  rewind(text);
  while (fgets(line, sizeof line, text) != NULL) count += strncmp(line, start_of_line, strlen(start_of_line)) == 0;
  return count;
}

/* The engine's names: one with a byte that no name has, one that fills its room, and none for the others. */
static void name_of(void *context, bs_node node, char *text, size_t room) {
  WANT(context == &told && room == 80 && text[0] == 0);
  if (same_node(node, root)) memcpy(text, "da\nta", 6);
  if (same_node(node, file)) memset(text, 'f', room);
}

/* A dump has the engine's names, of a table and of one that the thread holds. */
static void a_dump_has_names(void) {
  FILE *text = tmpfile();
  char line[200];
  int named = 0, filled = 0;
  bs_txn a;
  WANT(text != NULL);
  set_up(BS_AT_BLOCK);
  a = begin();
  DONE(bs_table_lock_path(table, a, low, BS_X, NULL));
  ANSWERS(BS_NULL_POINTER, bs_table_name_nodes(NULL, name_of, NULL));
  DONE(bs_table_name_nodes(table, name_of, &told));
  DONE(bs_table_dump(table, text));
  is_held = true;
  DONE(bs_dump(bs_table_hold(table), text));
  is_held = false;
  ANSWERS(BS_IN_USE, bs_table_name_nodes(table, NULL, NULL));
  DONE(bs_table_let_go(table));
  DONE(bs_table_name_nodes(table, NULL, NULL));
  DONE(bs_table_dump(table, text));
  rewind(text);
  while (fgets(line, sizeof line, text) != NULL) {
    named += strstr(line, " da?ta\n") != NULL;
    filled += strstr(line, " ffff") != NULL && strlen(strstr(line, " ffff")) == 81;
  }
  WANT(named == 2 && filled == 2);
  close_table();
  fclose(text);
}

static void a_dump(void) {
  struct requester one;
  FILE *text = tmpfile();
  bs_txn a, b;
  WANT(text != NULL);
  set_up(BS_AT_BLOCK);
  a = begin(), b = begin();
  DONE(bs_table_lock_path(table, a, low, BS_X, NULL));
  send_by_path(&one, b, low, BS_S);
  DONE(bs_table_dump(table, text));
  WANT(lines_with(text, "Counters") == 1 && lines_with(text, "Transactions:") == 1);
  WANT(lines_with(text, "   0 ") == 6 && lines_with(text, "   1 ") == 4);
  WANT(lines_with(text, "       1.        1 S") == 1 && lines_with(text, "    held         0 X") == 1);
  WANT(lines_with(text, "none") == 1);
  DONE(bs_table_commit(table, a, NULL));
  back(&one, BS_DONE);
  ANSWERS(BS_NULL_POINTER, bs_table_dump(table, NULL));
  ANSWERS(BS_NULL_POINTER, bs_table_dump(NULL, text));
  DONE(bs_table_end(table));
  ANSWERS(BS_NO_MANAGER, bs_table_dump(table, text));
  DONE(bs_table_free(&table));
  fclose(text);
  WANT(texts > 0);
}

static bool same_text(FILE *one, FILE *other) {
  int a, b;
  rewind(one);
  rewind(other);
  do {
    a = getc(one);
    b = getc(other);
  } while (a == b && a != EOF);
  return a == b;
}

enum { MANY_LOCKS = 2 * DUMP_PART + 7 };

/* Its locks are copied in several parts. */
static void a_long_dump(void) {
  FILE *text = tmpfile(), *whole = tmpfile();
  bs_txn a, b;
  size_t i;
  WANT(text != NULL && whole != NULL);
  set_up(BS_AT_BLOCK);
  a = begin(), b = begin();
  for (i = 1; i < MANY_LOCKS; i++) {
    DONE(bs_table_lock_path(table, a, DONE(bs_table_add_inner(table, &root, 1)).node, BS_X, NULL));
    if (i >= DUMP_PART) continue;
    DONE(bs_table_lock_path(table, b, DONE(bs_table_add_inner(table, &root, 1)).node, BS_X, NULL));
  }
  DONE(bs_table_dump(table, text));
  is_held = true;
  DONE(bs_dump(bs_table_hold(table), whole));
  bs_table_let_go(table);
  is_held = false;
  WANT(same_text(text, whole));
  WANT(lines_with(text, "   0 ") == 1 + MANY_LOCKS && lines_with(text, "   1 ") == 1 + DUMP_PART);
  refused_allocation = 1;
  ANSWERS(BS_NO_MEMORY, bs_table_dump(table, text));
  DONE(bs_table_end(table));
  ANSWERS(BS_NO_MANAGER, bs_table_dump(table, text));
  DONE(bs_table_free(&table));
  ANSWERS(BS_NULL_POINTER, bs_dump(NULL, text));
  fclose(text);
  fclose(whole);
}

/* A thread that dumps a table, or a table that it holds, and that is cancelled before it writes. */
struct dumper {
  bool holds;
  FILE *text;
  bs_reply reply;
  pthread_t thread;
};

static void *dump_to_the_end(void *arg) {
  struct dumper *d = (struct dumper *)arg;
  is_cancelled_in_writes = true;
  pthread_cancel(pthread_self());
  d->reply = d->holds ? bs_dump(bs_table_hold(table), d->text) : bs_table_dump(table, d->text);
  if (d->holds) DONE(bs_table_let_go(table));
  pthread_testcancel();
  return NULL;
}

/* The dump is written to its end, and the thread ends after it: its memory is freed, and the latch is released. */
static void a_dump_is_cancelled(void) {
  int holds;
  set_up(BS_AT_BLOCK);
  DONE(bs_table_lock_path(table, begin(), low, BS_X, NULL));
  for (holds = 0; holds < 2; holds++) {
    struct dumper d;
    void *came = NULL;
    memset(&d, 0, sizeof d);
    d.reply.status = BS_NOT_MADE;
    d.holds = is_held = holds;
    d.text = tmpfile();
    WANT(d.text != NULL);
    start(&d.thread, dump_to_the_end, &d);
    WANT(pthread_join(d.thread, &came) == 0);
    is_held = false;
    DONE(d.reply);
    WANT(came == PTHREAD_CANCELED && lines_with(d.text, "Last deadlock:") == 1 && lines_with(d.text, "none") == 1);
    fclose(d.text);
    DONE(bs_table_begin(table));
  }
  close_table();
}

/* ------------------------------------------------------------------------------------------------
 * Tables that end.
 */

enum { SLEEPERS = 40 };

static void an_end_with_sleepers(void) {
  static struct requester requesters[SLEEPERS];
  bs_txn a;
  size_t i;
  set_up(BS_AT_BLOCK);
  a = begin();
  DONE(bs_table_lock(table, a, root, BS_X, NULL));
  for (i = 0; i < SLEEPERS; i++) send_by_path(&requesters[i], begin(), i % 2 == 0 ? low : high, BS_X);
  end_as_all_leave();
  for (i = 0; i < SLEEPERS; i++) back(&requesters[i], BS_NO_MANAGER);
  for (i = 0; i < SLEEPERS; i++) ANSWERS(BS_NO_MANAGER, bs_table_abort(table, requesters[i].txn, NULL));
  DONE(bs_table_free(&table));
}

/* Threads that continue to call while the table ends. */
static void *call_on(void *arg) {
  long calls = 0;
  (void)arg;
  for (;;) {
    bs_reply reply = bs_table_begin(table);
    if (reply.status == BS_DONE) reply = bs_table_lock_path(table, reply.txn, low, BS_X, NULL);
    if (reply.status == BS_NO_MANAGER) return NULL;
    if (reply.status == BS_DONE && ++calls % 3 != 0) continue; /* It is left open, so that others sleep. */
  }
}

static void an_end_in_the_middle(void) {
  pthread_t threads[8];
  size_t i, round;
  for (round = 0; round < 20; round++) {
    set_up(BS_BY_WATCHER);
    DONE(bs_table_watch_thread(table, 0));
    for (i = 0; i < 8; i++) start(&threads[i], call_on, NULL);
    nap();
    DONE(bs_table_end(table));
    for (i = 0; i < 8; i++) join(threads[i]);
    DONE(bs_table_free(&table));
  }
}

static void a_table_by_options(void) {
  bs_table *t = NULL;
  bs_options options = { 0, 0, 0, 0, 0, 0 }, was = options;
  options.transactions = 5;
  options.nodes = 70000;
  options.bounds = 300;
  DONE(bs_table_make(&t, &options));
  DONE(ASK(t, bs_limits, &was));
  WANT(was.transactions == 5 && was.nodes == 70000 && was.bounds == 300);
  DONE(bs_table_end(t));
  DONE(bs_table_free(&t));
  options.bounds = UINT32_MAX;
  ANSWERS(BS_BAD_NUMBER, bs_table_make(&t, &options));
  WANT(t == NULL);
  ANSWERS(BS_BAD_NUMBER, make_table(&t, 2, BS_YOUNGEST, 1));
  ANSWERS(BS_BAD_NUMBER, make_table(&t, BS_AT_BLOCK, 2, 1));
  ANSWERS(BS_BAD_NUMBER, make_table(&t, BS_AT_BLOCK, BS_YOUNGEST, BS_SLOTS + 1));
  WANT(t == NULL);
  DONE(bs_table_make(&t, NULL));
  DONE(ASK(t, bs_limits, &was));
  WANT(was.transactions == BS_SLOTS && was.nodes == 65536 && was.bounds == 256);
  DONE(bs_table_end(t));
  DONE(bs_table_free(&t));
}

/* If there is no table, each call is refused with this status: those that change a schema. */
static void refuses_changes(bs_table *none, bs_status status, bs_txn t) {
  static const uint64_t key = 1;
  told.count = 1;
  ANSWERS(status, bs_table_drop(none, t, root, &told));
  WANT(told.count == 0);
  ANSWERS(status, bs_table_index_by(none, t, &root, 1, file, NULL, 0));
  ANSWERS(status, bs_table_index_records(none, t, &root, 1, file, NULL, 0, &low, &key, 1));
}

/* And all others. */
static void refuses_all(bs_table *none, bs_status status, bs_txn t) {
  bs_watcher watcher = BS_NO_WATCHER_HERE;
  bs_command list[2];
  FILE *text = tmpfile();
  WANT(text != NULL);
  told.count = 1;
  ANSWERS(status, bs_table_commit(none, t, &told));
  WANT(told.count == 0);
  refuses_changes(none, status, t);
  ANSWERS(status, bs_table_begin(none));
  ANSWERS(status, bs_table_begin_in_turn(none, NULL));
  ANSWERS(status, bs_table_begin_again(none, 1));
  ANSWERS(status, bs_table_renew(none, t, 1));
  ANSWERS(status, bs_table_begin_again_in_turn(none, 1, NULL));
  ANSWERS(status, bs_table_deadline(none, t, NULL));
  ANSWERS(status, bs_table_lock(none, t, root, BS_X, NULL));
  ANSWERS(status, bs_table_lock_path(none, t, root, BS_X, NULL));
  ANSWERS(status, bs_table_await(none, t, root, BS_X, NULL));
  ANSWERS(status, bs_table_lock_row(none, t, file, 1, NULL, 0, BS_X, NULL));
  ANSWERS(status, bs_table_try(none, t, root, BS_X));
  ANSWERS(status, bs_table_try_path(none, t, root, BS_X, BS_KEEP_WAY));
  ANSWERS(status, bs_table_try_path(none, t, root, BS_X, 2));
  ANSWERS(status, bs_table_try_row(none, t, file, 1, NULL, 1, BS_X));
  ANSWERS(status, bs_table_watch(none, &watcher));
  ANSWERS(status, bs_table_watch_thread(none, 0));
  ANSWERS(status, bs_table_dump(none, text));
  ANSWERS(status, bs_table_end(none));
  WANT(bs_table_hold(none) == NULL);
  list[0] = bs_do(BS_DO_COMMIT, t), list[1] = list[0];
  list[0].told = &told;
  told.count = 1;
  WANT(bs_table_run(none, list, 2) == 0 && list[0].reply.status == status && told.count == 0);
  WANT(list[1].reply.status == BS_NOT_MADE);
  told.count = 1, list[1].reply.status = BS_DONE;
  WANT(bs_table_try_first(none, list, 2) == 0 && list[0].reply.status == status && told.count == 0);
  WANT(list[1].reply.status == BS_NOT_MADE);
  fclose(text);
}

/* Null, and ended, and held by the calling thread. */
static void places_without_a_table(void) {
  bs_table *never = NULL;
  bs_txn t = { 0, 0 };
  refuses_all(NULL, BS_NULL_POINTER, t);
  ANSWERS(BS_NULL_POINTER, bs_table_make(NULL, NULL));
  ANSWERS(BS_NULL_POINTER, bs_table_free(NULL));
  ANSWERS(BS_NULL_POINTER, bs_table_free(&never));
  ANSWERS(BS_NULL_POINTER, bs_table_let_go(NULL));
  set_up(BS_AT_BLOCK);
  ANSWERS(BS_IN_USE, bs_table_make(&table, NULL));
  ANSWERS(BS_IN_USE, bs_table_free(&table));
  ANSWERS(BS_NOT_HELD, bs_table_let_go(table));
  t = begin();
  WANT(bs_table_hold(table) == &table->manager);
  refuses_all(table, BS_IN_USE, t);
  ANSWERS(BS_IN_USE, bs_table_free(&table));
  DONE(bs_table_let_go(table));
  ANSWERS(BS_NOT_HELD, bs_table_let_go(table));
  DONE(bs_table_end(table));
  refuses_all(table, BS_NO_MANAGER, t);
  ANSWERS(BS_NOT_HELD, bs_table_let_go(table));
  DONE(bs_table_free(&table));
  WANT(table == NULL);
}

/* A thread may hold several tables, and releases them in any order. */
static void two_tables_are_lent(void) {
  bs_table *other = NULL;
  set_up(BS_AT_BLOCK);
  DONE(bs_table_make(&other, NULL));
  WANT(bs_table_hold(table) != NULL && bs_table_hold(other) != NULL);
  ANSWERS(BS_IN_USE, bs_table_begin(table));
  ANSWERS(BS_IN_USE, bs_table_begin(other));
  DONE(bs_table_let_go(table));
  ANSWERS(BS_NOT_HELD, bs_table_let_go(table));
  ANSWERS(BS_IN_USE, bs_table_begin(other));
  DONE(bs_table_let_go(other));
  DONE(bs_table_begin(table));
  DONE(bs_table_begin(other));
  DONE(bs_table_end(other));
  DONE(bs_table_free(&other));
  close_table();
}

/* While a thread holds a table it can call another one, but make no call that could sleep: it would keep the latch.
 * Such calls are refused whether they would have slept or not. */
static void a_holder_of_a_table_does_not_sleep(void) {
  bs_table *other = NULL;
  bs_command list[1];
  bs_node node, none = { 0, 0 };
  bs_txn a, b;
  set_up(BS_AT_BLOCK);
  DONE(make_table(&other, BS_AT_BLOCK, BS_YOUNGEST, 3));
  node = DONE(bs_table_add_inner(other, NULL, 0)).node;
  a = DONE(bs_table_begin(other)).txn, b = DONE(bs_table_begin(other)).txn;
  DONE(bs_table_lock(other, a, node, BS_S, NULL));
  WANT(bs_table_hold(table) != NULL);
  ANSWERS(BS_IN_USE, bs_table_lock(other, b, node, BS_X, NULL));
  ANSWERS(BS_IN_USE, bs_table_lock(other, b, node, BS_S, NULL));
  ANSWERS(BS_IN_USE, bs_table_lock_path(other, b, node, BS_S, NULL));
  ANSWERS(BS_IN_USE, bs_table_lock_row(other, b, node, 1, NULL, 0, BS_S, NULL));
  ANSWERS(BS_IN_USE, bs_table_await(other, b, node, BS_S, NULL));
  ANSWERS(BS_IN_USE, bs_table_begin_in_turn(other, NULL));
  ANSWERS(BS_IN_USE, bs_table_begin_again_in_turn(other, 1, NULL));
  ANSWERS(BS_IN_USE, bs_table_end(other));
  ANSWERS(BS_NULL_POINTER, bs_table_lock(NULL, b, node, BS_S, NULL));
  ANSWERS(BS_NULL_POINTER, bs_table_begin_in_turn(NULL, NULL));
  ANSWERS(BS_NULL_POINTER, bs_table_end(NULL));
  WANT(wait_in(other, b).status == BS_NOT_WAITING && ASK(other, bs_held, b, node).mode == BS_NL);
  WANT(DONE(bs_table_try(other, b, node, BS_S)).mode == BS_S);
  list[0] = bs_do_at(BS_DO_LOCK, b, node, BS_X);
  WANT(bs_table_run(other, list, 1) == 0 && list[0].reply.status == BS_WAITING);
  DONE(bs_table_commit(other, a, NULL));
  DONE(bs_table_begin(other));
  DONE(bs_table_let_go(table));
  DONE(bs_table_await(other, b, node, BS_X, NULL));
  ANSWERS(BS_NO_SUCH_NODE, bs_table_lock(other, b, none, BS_X, NULL));
  DONE(bs_table_end(other));
  DONE(bs_table_free(&other));
  close_table();
}

/* Another thread does not hold what this one holds: it waits for the latch, and cannot release it. */
static void *let_go_of_it(void *arg) {
  (void)arg;
  ANSWERS(BS_NOT_HELD, bs_table_let_go(table));
  DONE(bs_table_begin(table));
  return NULL;
}

static void a_table_is_lent(void) {
  pthread_t other;
  bs_counts before, counts;
  const bs_manager *m;
  set_up(BS_AT_BLOCK);
  m = bs_table_hold(table);
  memset(&before, 0, sizeof before), memset(&counts, 0, sizeof counts);
  DONE(bs_counters(m, &before));
  start(&other, let_go_of_it, NULL);
  nap();
  DONE(bs_counters(m, &counts));
  WANT(counts.accepted == before.accepted);
  DONE(bs_table_let_go(table));
  join(other);
  WANT(accepted_in(table) == before.accepted + 1);
  close_table();
}

/* ------------------------------------------------------------------------------------------------
 * Lack of memory.
 */

static void refused_tables(void) {
  bs_reply made = { BS_NO_MEMORY, BS_NL, { 0, 0 }, { 0, 0 }, 0, 0, 0, BS_NL };
  long n;
  for (n = 1; made.status == BS_NO_MEMORY; n++) {
    bs_table *t = NULL;
    refused_allocation = n;
    made = bs_table_make(&t, NULL);
    refused_allocation = 0;
    WANT((t != NULL) == (made.status == BS_DONE));
    if (t == NULL) continue;
    DONE(bs_table_end(t));
    DONE(bs_table_free(&t));
  }
  WANT(made.status == BS_DONE && n > 3);
}

/* A call whose allocation is refused is made again, and is done then; whether one was refused. */
static bool refuses(long n) {
  bs_watcher watcher = BS_NO_WATCHER_HERE;
  bs_command list[2];
  bool refused;
  bs_txn t;
  bs_reply reply;
  set_up(BS_BY_WATCHER);
  t = begin();
  refused_allocation = n;
  reply = bs_table_lock_path(table, t, low, BS_X, NULL);
  if (reply.status == BS_NO_MEMORY) reply = bs_table_lock_path(table, t, low, BS_X, NULL);
  DONE(reply);
  list[0] = bs_do_at(BS_DO_LOCK, t, above, BS_IX);
  list[1] = bs_do_at(BS_DO_LOCK, t, high, BS_X);
  if (bs_table_run(table, list, 2) < 2) WANT(bs_table_run(table, list, 2) == 2);
  reply = bs_table_watch(table, &watcher);
  if (reply.status == BS_NO_MEMORY) reply = bs_table_watch(table, &watcher);
  DONE(reply);
  reply = bs_table_watch_thread(table, 0);
  if (reply.status == BS_NO_MEMORY) reply = bs_table_watch_thread(table, 0);
  DONE(reply);
  refused = refused_allocation == 0;
  refused_allocation = 0;
  DONE(bs_table_commit(table, t, NULL));
  close_table();
  DONE(bs_watch_end(&watcher));
  return refused;
}

static void refused_allocations(void) {
  long n = 1;
  while (refuses(n)) n++;
  WANT(n > 2);
}

/* A begin for a sleeping thread is refused memory, in the thread that ends a transaction: the sleeper is told, and the
 * next in the begin queue has the slot. If there is none the slot is free. */
static void refused_queued_begins(void) {
  struct beginner queued[3];
  bs_txn holder;
  size_t i;
  set_up_slots(1);
  holder = begin();
  for (i = 0; i < 3; i++) enter_begin_queue(&queued[i], i + 1);
  refused_begins = 2;
  DONE(bs_table_commit(table, holder, NULL));
  for (i = 0; i < 2; i++) {
    join(queued[i].thread);
    ANSWERS(BS_NO_MEMORY, queued[i].reply);
  }
  holder = begun(&queued[2]);
  ANSWERS(BS_TOO_MANY_TXNS, bs_table_begin(table));
  enter_begin_queue(&queued[0], 1);
  refused_begins = 1;
  DONE(bs_table_commit(table, holder, NULL));
  join(queued[0].thread);
  ANSWERS(BS_NO_MEMORY, queued[0].reply);
  begin();
  close_table();
}

/* ------------------------------------------------------------------------------------------------
 * The whole.
 */

static unsigned patience = 20;

static void tell(const char *name, void (*body)(void)) {
  long before = blocks_out();
  story = name;
  feed(patience);
  body();
  WANT(blocks_out() == before);
  printf("%s\n", name);
}

#define TELL(name) tell(#name, name)

int main(int count, char **words) {
  setvbuf(stdout, NULL, _IONBF, 0);
  if (count > 1) patience = (unsigned)atoi(words[1]);
  if (count > 2) beginners = (size_t)atoi(words[2]);
  WANT(beginners >= 2 * BS_SLOTS && beginners <= MOST_BEGINNERS);
  TELL(a_commit_grants);
  TELL(an_unlock_grants);
  TELL(a_commit_wakes_all);
  TELL(a_lock_condemns);
  TELL(a_path_condemns);
  TELL(a_requester_is_victim);
  TELL(a_settle_condemns);
  TELL(a_rekey_moves);
  TELL(a_file_moves);
  TELL(a_record_goes);
  TELL(a_drop_ends_sleeps);
  TELL(a_split_ends_sleeps);
  TELL(a_reader_of_a_range_follows_its_splits);
  TELL(a_merge_ends_sleeps);
  TELL(an_escalation_grants);
  TELL(a_cancel_ends_a_sleep);
  TELL(a_cancel_grants);
  TELL(an_abort_ends_a_sleep);
  TELL(a_thread_dies);
  TELL(an_idle_wake);
  TELL(a_thread_is_cancelled_in_its_sleep);
  TELL(a_time_ahead);
  TELL(a_time_comes);
  TELL(a_deadline_of_its_own);
  TELL(a_time_comes_and_grants);
  TELL(a_grant_behind_the_time);
  TELL(times_and_grants);
  TELL(a_begin_sleeps_for_a_slot);
  TELL(a_victim_keeps_its_turn);
  TELL(a_renewal_keeps_intentions);
  TELL(a_begin_again_sleeps_for_a_slot);
  TELL(begins_over_all_slots);
  TELL(begins_over_four_slots);
  TELL(a_later_begin_does_not_pass);
  TELL(a_list_frees_slots);
  TELL(some_leave_the_begin_queue);
  TELL(a_begin_behind_the_time);
  TELL(times_and_begins);
  TELL(an_end_with_a_begin_queue);
  TELL(paths);
  TELL(a_path_waits_twice);
  TELL(a_path_moves);
  TELL(a_path_is_cancelled_on_its_way);
  TELL(a_path_is_cancelled_at_its_end);
  TELL(a_path_that_moved_is_cancelled);
  TELL(a_path_ends_early);
  TELL(a_row_is_slept_for);
  TELL(a_row_with_other_keys_is_slept_for);
  TELL(how_a_sleep_for_a_row_ends);
  TELL(a_file_of_rows_is_dropped);
  TELL(an_index_is_made_again);
  TELL(an_index_is_made_beside_records);
  TELL(an_index_beside_records_needs_memory);
  TELL(rows_that_change);
  TELL(other_keys_granted_by_a_victim);
  TELL(two_paths_to_one_row);
  TELL(a_delete_that_commits);
  TELL(a_delete_that_aborts);
  TELL(a_mover_beside_an_old_key);
  TELL(a_mover_in_a_cycle_at_block);
  TELL(a_mover_in_a_cycle_by_watcher);
  TELL(a_row_that_moved_unseen);
  TELL(lists_of_commands);
  TELL(lists_that_begin);
  TELL(lists_that_name);
  TELL(every_command);
  TELL(every_command_of_a_schema);
  TELL(a_list_of_paths_and_rows);
  TELL(a_path_waits_in_a_list);
  TELL(a_row_waits_in_a_list);
  TELL(a_path_goes_on_in_a_list);
  TELL(a_list_of_splits_and_merges);
  TELL(commands_that_are_none);
  TELL(a_path_is_tried);
  TELL(a_reader_skips_a_parent);
  TELL(a_try_gives_back_its_path);
  TELL(a_raised_parent_stays);
  TELL(a_parent_of_what_was_read_stays);
  TELL(a_try_does_not_pass);
  TELL(a_try_condemns_nobody);
  TELL(a_path_is_refused);
  TELL(long_paths_are_tried);
  TELL(a_try_without_memory);
  TELL(a_row_is_tried);
  TELL(a_row_of_others_is_tried);
  TELL(a_try_of_a_row_condemns_nobody);
  TELL(a_row_is_refused);
  TELL(a_row_without_memory);
  TELL(a_list_of_tries);
  TELL(a_skip_takes_the_first_that_is_free);
  TELL(a_skip_is_refused);
  TELL(a_skip_passes_over_what_moved_or_is_gone);
  TELL(each_job_is_done_once);
  TELL(a_savepoint_wakes);
  TELL(a_savepoint_in_a_list);
  TELL(a_lock_for_an_instant);
  TELL(instants_in_a_row);
  TELL(an_instant_that_never_comes);
  TELL(an_instant_that_came_is_over);
  TELL(an_instant_is_victim);
  TELL(an_instant_of_what_is_held);
  TELL(an_instant_in_a_list);
  TELL(an_instant_in_a_list_tells_all);
  TELL(a_watcher_looks);
  TELL(a_watcher_is_shown_changes);
  TELL(a_ninth_watcher);
  TELL(one_of_two_watchers_goes_on);
  TELL(watchers_come_and_go);
  TELL(looks_miss_nothing);
  TELL(refused_watchers);
  TELL(a_thread_watches_without_rest);
  TELL(a_thread_watches_and_rests);
  TELL(a_thread_rests_long);
  TELL(a_thread_watches_without_signals);
  TELL(a_thread_watches_without_memory);
  TELL(a_wait_that_goes_on_is_watched);
  TELL(a_thread_ends_all_it_sees);
  TELL(listings);
  TELL(a_dump);
  TELL(a_dump_has_names);
  TELL(a_long_dump);
  TELL(a_dump_is_cancelled);
  TELL(an_end_with_sleepers);
  TELL(an_end_in_the_middle);
  TELL(a_table_by_options);
  TELL(places_without_a_table);
  TELL(a_table_is_lent);
  TELL(two_tables_are_lent);
  TELL(a_holder_of_a_table_does_not_sleep);
  TELL(refused_tables);
  TELL(refused_allocations);
  TELL(refused_queued_begins);
  return 0;
}
