/*
 * Stories of asks, which do not sleep: each is a function that ends the program with status 1 at the first wrong
 * answer, and else prints its name. Each ask that was left waiting has one call of the callback, and no other ask has
 * any.
 *
 *   asks [SECONDS [RUNS]]   the time that a story may take before it is said to hang, 20 if none is given; and how
 *                           often races are run, 1000 if none is given
 *
 * It is linked with the calls for memory of memory.h.
 */
#include "burlapslate.h"
#include "memory.h"

#include "burlapslate_shared.c"

#include "threads.h"

#include <sched.h>
#ifdef __linux__
#include <sys/epoll.h>
#include <sys/eventfd.h>
#endif

static bs_table *table;
static bs_node root, file, by_key, below, above, low, rows, by_row_key;
static bs_notices told;
static unsigned long runs = 1000;

/* ------------------------------------------------------------------------------------------------
 * Requesters, and the callback that hears the ends of asks.
 */

/* What is heard of an ask: it is the word of the ask. What the callback does then is in `does`. */
struct heard {
  bs_txn txn;
  int calls;
  int place; /* its call was the how manieth of the story, from 0 on */
  bs_reply end;
  pthread_t by;
  void (*does)(struct heard *h);
};

static pthread_mutex_t ear = PTHREAD_MUTEX_INITIALIZER;
static int calls;
static int context_word;

/* How deep this thread is in calls of the callback, and the ask that it makes at the moment. */
static __thread int depth;
static __thread const struct heard *asking;

/* The callback finds the latch free, but a table that ends lends nothing. */
static void hear(void *context, bs_txn txn, bs_reply end, void *word) {
  struct heard *h = (struct heard *)word;
  const bs_manager *lent = bs_table_hold(table);
  WANT(context == &context_word);
  WANT(++depth == 1);
  WANT(h != asking);
  WANT((lent == NULL) == (end.status == BS_NO_MANAGER));
  if (lent != NULL) DONE(bs_table_let_go(table));
  pthread_mutex_lock(&ear);
  WANT(same_txn(h->txn, txn));
  WANT(h->calls == 0);
  h->place = calls++;
  h->end = end;
  h->by = pthread_self();
  h->calls = 1;
  pthread_mutex_unlock(&ear);
  if (h->does != NULL) h->does(h);
  depth--;
}

static int calls_of(const struct heard *h) {
  int count;
  pthread_mutex_lock(&ear);
  count = h->calls;
  pthread_mutex_unlock(&ear);
  return count;
}

/* The end of the ask was told by one call, with this status. */
static bs_reply heard_so(struct heard *h, bs_status status, int line) {
  bs_reply end;
  while (calls_of(h) == 0) nap();
  pthread_mutex_lock(&ear);
  end = h->end;
  pthread_mutex_unlock(&ear);
  return answered(end, status, "heard so", __FILE__, line);
}

#define HEARD(h, status) heard_so((h), (status), __LINE__)

/* The same, by this thread, before now. */
#define HEARD_BY_NOW(h, status) (WANT(calls_of(h) == 1), WANT(pthread_equal((h)->by, pthread_self())), HEARD(h, status))

static struct heard nothing_heard(bs_txn txn) {
  struct heard h;
  memset(&h, 0, sizeof h);
  h.txn = txn;
  return h;
}

static bs_reply ask_until(struct heard *h, bs_txn txn, bs_node node, bs_mode mode, const struct timespec *until) {
  bs_reply reply;
  *h = nothing_heard(txn);
  asking = h;
  reply = bs_table_ask(table, txn, node, mode, until, h);
  asking = NULL;
  return reply;
}

static bs_reply ask(struct heard *h, bs_txn txn, bs_node node, bs_mode mode) {
  return ask_until(h, txn, node, mode, NULL);
}

static bs_reply ask_path(struct heard *h, bs_txn txn, bs_node node, bs_mode mode) {
  bs_reply reply;
  *h = nothing_heard(txn);
  asking = h;
  reply = bs_table_ask_path(table, txn, node, mode, NULL, h);
  asking = NULL;
  return reply;
}

static bs_reply ask_row(struct heard *h, bs_txn txn, uint64_t number, uint64_t key) {
  bs_reply reply;
  *h = nothing_heard(txn);
  asking = h;
  reply = bs_table_ask_row(table, txn, rows, number, &key, 1, BS_X, NULL, h);
  asking = NULL;
  key = 0; /* the ask has a copy */
  return reply;
}

#define WAITS(call) ANSWERS(BS_WAITING, call)

static void close_table(void) {
  DONE(bs_table_end(table));
  DONE(bs_table_free(&table));
}

static bs_txn begin(void) {
  return DONE(bs_table_begin(table)).txn;
}

static void holds(bs_txn txn, bs_node node, bs_mode mode) {
  WANT(ASK(table, bs_held, txn, node).mode == mode);
}

static void set_up(uint32_t detect) {
  static const uint64_t bound = 100, key = 50;
  bs_txn t;
  calls = 0;
  DONE(make_table(&table, detect, BS_YOUNGEST, BS_SLOTS));
  DONE(bs_table_on_end(table, hear, &context_word));
  root = DONE(bs_table_add_inner(table, NULL, 0)).node;
  file = DONE(bs_table_add_file(table, &root, 1)).node;
  by_key = DONE(bs_table_add_index(table, &root, 1, file, &bound, 1)).node;
  below = DONE(ASK(table, bs_interval, by_key, 0)).node;
  above = DONE(ASK(table, bs_interval, by_key, 1)).node;
  rows = DONE(bs_table_add_row_file(table, &root, 1)).node;
  by_row_key = DONE(bs_table_add_index(table, &root, 1, rows, &bound, 1)).node;
  t = begin();
  DONE(bs_table_lock_path(table, t, file, BS_IX, NULL));
  DONE(bs_table_lock_path(table, t, below, BS_IX, NULL));
  low = DONE(bs_table_insert(table, t, file, &key, 1)).node;
  DONE(bs_table_commit(table, t, NULL));
}

/* A transaction that may write rows in all intervals. */
static bs_txn begin_writer(void) {
  bs_txn t = begin();
  size_t i;
  DONE(bs_table_lock_path(table, t, rows, BS_IX, NULL));
  for (i = 0; i < 2; i++) DONE(bs_table_lock_path(table, t, ASK(table, bs_interval, by_row_key, i).node, BS_IX, NULL));
  return t;
}

/* ------------------------------------------------------------------------------------------------
 * How an ask ends.
 */

/* An ask that need not wait is answered as a lock is, and the callback is not called. */
static void an_ask_is_answered_at_once(void) {
  struct heard h;
  bs_txn a, b;
  set_up(BS_AT_BLOCK);
  a = begin(), b = begin();
  WANT(DONE(ask(&h, a, root, BS_IX)).mode == BS_IX);
  WANT(DONE(ask_path(&h, a, low, BS_X)).mode == BS_X);
  WANT(DONE(ask_path(&h, b, by_row_key, BS_IX)).mode == BS_IX);
  ANSWERS(BS_NEED_PARENTS, ask_row(&h, b, 7, 50));
  ANSWERS(BS_NEED_PARENTS, ask(&h, b, low, BS_X));
  WAITS(ask(&h, b, file, BS_S));
  DONE(bs_table_commit(table, a, NULL));
  WANT(HEARD_BY_NOW(&h, BS_DONE).mode == BS_S);
  WANT(calls == 1);
  DONE(bs_table_commit(table, b, NULL));
  ANSWERS(BS_NO_SUCH_TXN, ask(&h, b, root, BS_S));
  WANT(calls == 1);
  close_table();
}

/* One commit ends all waits, by rising slots, before it returns. */
static void a_commit_ends_all(void) {
  static struct heard all[BS_SLOTS - 1];
  bs_txn a;
  int i;
  set_up(BS_AT_BLOCK);
  a = begin();
  DONE(bs_table_lock(table, a, root, BS_X, NULL));
  for (i = 0; i < BS_SLOTS - 1; i++) WAITS(ask(&all[i], begin(), root, BS_IS));
  WANT(calls == 0);
  DONE(bs_table_commit(table, a, &told));
  WANT(told.count == BS_SLOTS - 1 && calls == BS_SLOTS - 1);
  for (i = 0; i < BS_SLOTS - 1; i++) {
    WANT(HEARD_BY_NOW(&all[i], BS_DONE).mode == BS_IS && all[i].place == i);
    WANT(same_txn(told.at[i].txn, all[i].txn));
    holds(all[i].txn, root, BS_IS);
  }
  close_table();
}

static bs_reply cancels(bs_txn txn, bs_txn holder) {
  (void)holder;
  return bs_table_cancel(table, txn, NULL);
}

static bs_reply aborts(bs_txn txn, bs_txn holder) {
  (void)holder;
  return bs_table_abort(table, txn, NULL);
}

static bs_reply commits(bs_txn txn, bs_txn holder) {
  (void)txn;
  return bs_table_commit(table, holder, NULL);
}

static bs_reply unlocks(bs_txn txn, bs_txn holder) {
  (void)txn;
  return bs_table_unlock(table, holder, low, NULL);
}

static bs_reply deletes(bs_txn txn, bs_txn holder) {
  (void)txn;
  return bs_table_delete(table, holder, low, NULL);
}

static bs_reply rekeys(bs_txn txn, bs_txn holder) {
  (void)txn;
  DONE(bs_table_lock_path(table, holder, above, BS_IX, NULL));
  return bs_table_rekey(table, holder, low, by_key, 150, NULL);
}

/* The same by a list. */
static bs_reply runs_a_list(uint32_t kind, bs_txn txn) {
  bs_command list[2];
  list[0] = bs_do(BS_DO_BEGIN, bs_begun());
  list[1] = bs_do(kind, txn);
  WANT(bs_table_run(table, list, 2) == 2);
  return list[1].reply;
}

static bs_reply cancels_in_a_list(bs_txn txn, bs_txn holder) {
  (void)holder;
  return runs_a_list(BS_DO_CANCEL, txn);
}

static bs_reply commits_in_a_list(bs_txn txn, bs_txn holder) {
  (void)txn;
  return runs_a_list(BS_DO_COMMIT, holder);
}

/* A lock of a record waits, and this act ends it: with one call, within the act. */
static void ends(bs_reply (*act)(bs_txn txn, bs_txn holder), bs_status with) {
  struct heard h;
  bs_txn a, b;
  set_up(BS_AT_BLOCK);
  a = begin(), b = begin();
  DONE(bs_table_lock_path(table, a, low, BS_X, NULL));
  DONE(bs_table_lock_path(table, b, file, BS_IX, NULL));
  DONE(bs_table_lock_path(table, b, below, BS_IX, NULL));
  WAITS(ask(&h, b, low, BS_X));
  ANSWERS(BS_TXN_WAITING, bs_table_lock(table, b, root, BS_IX, NULL));
  ANSWERS(BS_TXN_WAITING, bs_table_commit(table, b, NULL));
  WANT(calls == 0);
  DONE(act(b, a));
  HEARD_BY_NOW(&h, with);
  WANT(calls == 1);
  if (with != BS_NO_SUCH_TXN) DONE(bs_table_abort(table, b, NULL));
  bs_table_abort(table, a, NULL);
  WANT(calls == 1);
  close_table();
}

static void each_end_of_an_ask(void) {
  ends(commits, BS_DONE);
  ends(commits_in_a_list, BS_DONE);
  ends(unlocks, BS_DONE);
  ends(cancels, BS_NOT_WAITING);
  ends(cancels_in_a_list, BS_NOT_WAITING);
  ends(aborts, BS_NO_SUCH_TXN);
  ends(deletes, BS_GONE);
  ends(rekeys, BS_MOVED);
}

/* A commit grants parts of two paths. The first one's next lock waits; that of the second makes it a victim, and the
 * commit tells that alone of it. */
static void a_transaction_is_told_once_a_command(void) {
  struct heard condemned, granted;
  bs_node low_rows;
  bs_txn a, b, c;
  set_up(BS_AT_BLOCK);
  low_rows = ASK(table, bs_interval, by_row_key, 0).node;
  c = begin(), b = begin(), a = begin();
  DONE(bs_table_commit(table, c, NULL));
  c = begin();
  WANT(c.slot < b.slot);
  DONE(bs_table_lock_path(table, a, by_key, BS_S, NULL));
  DONE(bs_table_lock_path(table, a, by_row_key, BS_S, NULL));
  DONE(bs_table_lock_path(table, b, below, BS_S, NULL));
  DONE(bs_table_lock_path(table, c, low_rows, BS_S, NULL));
  WAITS(ask_path(&condemned, c, below, BS_X));
  WAITS(ask_path(&granted, b, low_rows, BS_X));
  DONE(bs_table_commit(table, a, &told));
  WANT(same_node(HEARD_BY_NOW(&condemned, BS_VICTIM).node, below));
  WANT(told.count == 2 && same_txn(told.at[0].txn, c) && told.at[0].kind == BS_TOLD_VICTIM);
  WANT(same_txn(told.at[1].txn, b) && told.at[1].kind == BS_TOLD_GRANTED && calls_of(&granted) == 0);
  DONE(bs_table_abort(table, c, NULL));
  HEARD_BY_NOW(&granted, BS_DONE);
  close_table();
}

/* A rollback to a savepoint ends an ask. Asks for an instant end one after the other in the same critical section, each
 * with one call; a path continues to its node for an instant, and releases only that. */
static void a_savepoint_ends_asks_for_an_instant(void) {
  struct heard one, two, path, last;
  bs_txn a, b, c, d, e;
  set_up(BS_AT_BLOCK);
  a = begin(), b = begin(), c = begin(), d = begin(), e = begin();
  WANT(DONE(ask(&one, b, root, BS_X | BS_INSTANT)).mode == BS_X && calls == 0);
  holds(b, root, BS_NL);
  DONE(bs_table_lock(table, a, root, BS_X, NULL));
  WAITS(ask(&one, b, root, BS_X | BS_INSTANT));
  WAITS(ask(&two, c, root, BS_X | BS_INSTANT));
  WAITS(ask_path(&path, d, low, BS_X | BS_INSTANT));
  WAITS(ask(&last, e, root, BS_S));
  DONE(bs_table_release_since(table, a, 0, &told));
  WANT(HEARD_BY_NOW(&one, BS_DONE).mode == BS_X && HEARD_BY_NOW(&two, BS_DONE).mode == BS_X);
  WANT(HEARD_BY_NOW(&path, BS_DONE).mode == BS_X && calls == 3 && told.count == 3);
  holds(b, root, BS_NL);
  holds(c, root, BS_NL);
  holds(d, below, BS_IX);
  holds(d, low, BS_NL);
  DONE(bs_table_commit(table, d, NULL));
  WANT(HEARD_BY_NOW(&last, BS_DONE).mode == BS_S && calls == 4);
  holds(e, root, BS_S);
  close_table();
}

static void an_escalation_ends_an_ask(void) {
  struct heard h;
  bs_node parents[2], child;
  bs_txn a, b;
  set_up(BS_AT_BLOCK);
  parents[0] = DONE(bs_table_add_inner(table, &root, 1)).node;
  parents[1] = DONE(bs_table_add_inner(table, &root, 1)).node;
  child = DONE(bs_table_add_inner(table, parents, 2)).node;
  a = begin(), b = begin();
  DONE(bs_table_lock_path(table, a, child, BS_IX, NULL));
  DONE(bs_table_lock_path(table, b, parents[1], BS_IS, NULL));
  WAITS(ask(&h, b, child, BS_S));
  DONE(bs_table_escalate(table, a, parents[0], NULL));
  WANT(HEARD_BY_NOW(&h, BS_DONE).mode == BS_S);
  close_table();
}

static void a_move_and_a_drop_end_asks(void) {
  struct heard one, two;
  bs_node areas[2], under;
  bs_txn a, b, c;
  set_up(BS_AT_BLOCK);
  areas[0] = DONE(bs_table_add_inner(table, &root, 1)).node;
  areas[1] = DONE(bs_table_add_inner(table, &root, 1)).node;
  under = DONE(bs_table_add_file(table, &areas[0], 1)).node;
  a = begin(), b = begin(), c = begin();
  DONE(bs_table_lock_path(table, a, under, BS_X, NULL));
  DONE(bs_table_lock_path(table, a, areas[1], BS_IX, NULL));
  DONE(bs_table_lock_path(table, b, areas[0], BS_IX, NULL));
  WAITS(ask(&one, b, under, BS_X));
  DONE(bs_table_move(table, a, under, &areas[1], 1, NULL));
  HEARD_BY_NOW(&one, BS_MOVED);
  WAITS(ask_path(&two, c, under, BS_X));
  DONE(bs_table_drop(table, a, under, NULL));
  HEARD_BY_NOW(&two, BS_GONE);
  WANT(calls == 2);
  close_table();
}

/* ------------------------------------------------------------------------------------------------
 * Victims.
 */

static void aborts_it(struct heard *h) {
  if (h->end.status == BS_VICTIM) DONE(bs_table_abort(table, h->txn, NULL));
}

/* Two transactions hold S, and the younger requests X. The next request closes the cycle. */
static void ask_as_younger(struct heard *h, bs_txn *a, bs_txn *b) {
  *a = begin(), *b = begin();
  DONE(bs_table_lock(table, *a, root, BS_S, NULL));
  DONE(bs_table_lock(table, *b, root, BS_S, NULL));
  WAITS(ask(h, *b, root, BS_X));
  h->does = aborts_it;
}

/* A lock that sleeps tells its victim before it sleeps: nothing else would ever end its wait here. */
static void a_lock_condemns_an_ask(void) {
  struct heard h;
  bs_txn a, b;
  set_up(BS_AT_BLOCK);
  ask_as_younger(&h, &a, &b);
  WANT(DONE(bs_table_lock(table, a, root, BS_X, NULL)).mode == BS_X);
  HEARD_BY_NOW(&h, BS_VICTIM);
  WANT(calls == 1);
  close_table();
}

static void a_path_condemns_an_ask(void) {
  struct heard h;
  bs_txn a, b;
  set_up(BS_AT_BLOCK);
  ask_as_younger(&h, &a, &b);
  WANT(DONE(bs_table_lock_path(table, a, root, BS_X, NULL)).mode == BS_X);
  HEARD_BY_NOW(&h, BS_VICTIM);
  close_table();
}

/* An ask whose wait ends while it tells others is answered that end, and has no call. */
static void an_ask_condemns_an_ask(void) {
  struct heard h, own;
  bs_txn a, b;
  set_up(BS_AT_BLOCK);
  ask_as_younger(&h, &a, &b);
  WANT(DONE(ask(&own, a, root, BS_X)).mode == BS_X);
  HEARD_BY_NOW(&h, BS_VICTIM);
  WANT(calls == 1 && own.calls == 0);
  close_table();
}

static bs_txn to_end;

static void aborts_the_requester(struct heard *h) {
  (void)h;
  DONE(bs_table_abort(table, to_end, NULL));
}

static void an_ask_is_ended_by_what_it_tells(void) {
  struct heard h, own;
  bs_txn a, b;
  set_up(BS_AT_BLOCK);
  ask_as_younger(&h, &a, &b);
  h.does = aborts_the_requester;
  to_end = a;
  ANSWERS(BS_NO_SUCH_TXN, ask(&own, a, root, BS_X));
  HEARD_BY_NOW(&h, BS_VICTIM);
  WANT(calls == 1 && own.calls == 0);
  close_table();
}

/* The requester itself is the victim, and is answered so. */
static void a_requester_is_victim(void) {
  struct heard one, two;
  bs_txn a, b;
  set_up(BS_AT_BLOCK);
  a = begin(), b = begin();
  DONE(bs_table_lock(table, a, root, BS_S, NULL));
  DONE(bs_table_lock(table, b, root, BS_S, NULL));
  WAITS(ask(&one, a, root, BS_X));
  ANSWERS(BS_VICTIM, ask(&two, b, root, BS_X));
  WANT(calls == 0);
  DONE(bs_table_abort(table, b, NULL));
  WANT(HEARD_BY_NOW(&one, BS_DONE).mode == BS_X && calls == 1);
  close_table();
}

static void a_settle_ends_an_ask(void) {
  struct heard one, two;
  bs_txn a, b;
  set_up(BS_BY_WATCHER);
  ask_as_younger(&one, &a, &b);
  WAITS(ask(&two, a, root, BS_X));
  DONE(bs_table_settle(table, a, NULL));
  HEARD_BY_NOW(&one, BS_VICTIM);
  WANT(HEARD_BY_NOW(&two, BS_DONE).mode == BS_X && calls == 2);
  close_table();
}

/* The thread that watches calls the callback. */
static void a_watching_thread_ends_asks(void) {
  struct heard one, two;
  bs_txn a, b;
  set_up(BS_BY_WATCHER);
  a = begin(), b = begin();
  DONE(bs_table_watch_thread(table, 1000));
  DONE(bs_table_lock(table, a, root, BS_S, NULL));
  DONE(bs_table_lock(table, b, root, BS_S, NULL));
  one = two = nothing_heard(a);
  one.does = two.does = aborts_it;
  one.txn = b;
  WAITS(bs_table_ask(table, b, root, BS_X, NULL, &one));
  WAITS(bs_table_ask(table, a, root, BS_X, NULL, &two));
  HEARD(&one, BS_VICTIM);
  WANT(HEARD(&two, BS_DONE).mode == BS_X);
  WANT(!pthread_equal(one.by, pthread_self()));
  close_table();
}

/* ------------------------------------------------------------------------------------------------
 * Paths and rows.
 */

static void a_path_goes_on(void) {
  struct heard h;
  bs_txn a, b, c;
  set_up(BS_AT_BLOCK);
  a = begin(), b = begin(), c = begin();
  DONE(bs_table_lock_path(table, a, low, BS_S, NULL));
  DONE(bs_table_lock_path(table, c, below, BS_S, NULL));
  WAITS(ask_path(&h, b, low, BS_X));
  WANT(same_node(wait_in(table, b).node, below));
  DONE(bs_table_commit(table, c, NULL));
  WANT(calls == 0 && same_node(wait_in(table, b).node, low));
  DONE(bs_table_commit(table, a, NULL));
  WANT(HEARD_BY_NOW(&h, BS_DONE).mode == BS_X && calls == 1);
  holds(b, below, BS_IX), holds(b, low, BS_X);
  close_table();
}

/* A path that continues at its end, with nothing left to wait for. */
static void a_path_comes_to_its_end(void) {
  struct heard h;
  bs_txn a, b;
  set_up(BS_AT_BLOCK);
  a = begin(), b = begin();
  DONE(bs_table_lock_path(table, a, file, BS_S, NULL));
  WAITS(ask_path(&h, b, low, BS_X));
  DONE(bs_table_commit(table, a, NULL));
  WANT(HEARD_BY_NOW(&h, BS_DONE).mode == BS_X && calls == 1);
  holds(b, low, BS_X);
  close_table();
}

static void a_path_begins_anew(void) {
  struct heard h;
  bs_txn a, b;
  set_up(BS_AT_BLOCK);
  a = begin(), b = begin();
  DONE(bs_table_lock_path(table, a, low, BS_X, NULL));
  DONE(bs_table_lock_path(table, a, above, BS_IX, NULL));
  WAITS(ask_path(&h, b, low, BS_X));
  DONE(bs_table_rekey(table, a, low, by_key, 150, NULL));
  WANT(calls == 0 && same_node(wait_in(table, b).node, low));
  holds(b, above, BS_IX);
  DONE(bs_table_commit(table, a, NULL));
  WANT(HEARD_BY_NOW(&h, BS_DONE).mode == BS_X && calls == 1);
  close_table();
}

/* Two readers want to write, and their paths wait for one transaction. Both continue in one critical section, and the
 * younger is the victim: by its own lock if that is the last, otherwise by the other's. */
static void paths_meet(bool is_younger_first) {
  struct heard one, two;
  bs_txn gap, a, older, younger;
  set_up(BS_AT_BLOCK);
  gap = begin(), older = begin();
  if (is_younger_first) DONE(bs_table_abort(table, gap, NULL));
  younger = begin(), a = begin();
  WANT((younger.slot < older.slot) == is_younger_first);
  DONE(bs_table_lock_path(table, a, below, BS_S, NULL));
  DONE(bs_table_lock_path(table, older, file, BS_IS, NULL));
  DONE(bs_table_lock(table, older, low, BS_S, NULL));
  DONE(bs_table_lock_path(table, younger, file, BS_IS, NULL));
  DONE(bs_table_lock(table, younger, low, BS_S, NULL));
  WAITS(ask_path(&one, older, low, BS_X));
  WAITS(ask_path(&two, younger, low, BS_X));
  WANT(same_node(wait_in(table, older).node, below) && same_node(wait_in(table, younger).node, below));
  two.does = aborts_it;
  DONE(bs_table_commit(table, a, NULL));
  HEARD_BY_NOW(&two, BS_VICTIM);
  WANT(HEARD_BY_NOW(&one, BS_DONE).mode == BS_X && calls == 2);
  holds(older, low, BS_X);
  close_table();
}

static void paths_meet_on_their_ways(void) {
  paths_meet(false);
  paths_meet(true);
}

/* Others become victims for a lock above, which is then granted: the path continues, and they are told. */
static void a_path_goes_on_where_others_are_victims(void) {
  struct heard one, two, own;
  bs_node other;
  bs_txn a, b, c;
  set_up(BS_AT_BLOCK);
  other = DONE(bs_table_add_inner(table, NULL, 0)).node;
  a = begin(), b = begin(), c = begin();
  DONE(bs_table_lock(table, a, other, BS_X, NULL));
  DONE(bs_table_lock(table, b, root, BS_IS, NULL));
  WAITS(ask(&one, b, other, BS_S));
  WAITS(ask(&two, c, root, BS_X));
  WANT(DONE(ask_path(&own, a, low, BS_X)).mode == BS_X);
  HEARD_BY_NOW(&two, BS_VICTIM);
  WANT(calls == 1);
  holds(a, low, BS_X);
  close_table();
}

static void a_path_ends_on_its_way(void) {
  struct heard h;
  bs_txn a, b;
  set_up(BS_AT_BLOCK);
  a = begin(), b = begin();
  DONE(bs_table_lock_path(table, a, low, BS_X, NULL));
  DONE(bs_table_lock_path(table, a, below, BS_X, NULL));
  WAITS(ask_path(&h, b, low, BS_X));
  DONE(bs_table_cancel(table, b, NULL));
  HEARD_BY_NOW(&h, BS_NOT_WAITING);
  holds(b, root, BS_IX);
  WAITS(ask_path(&h, b, low, BS_X));
  DONE(bs_table_delete(table, a, low, NULL));
  WANT(calls == 1);
  DONE(bs_table_commit(table, a, NULL));
  HEARD_BY_NOW(&h, BS_NO_SUCH_NODE);
  WANT(calls == 2);
  close_table();
}

static void a_row_is_asked_for(void) {
  struct heard h;
  bs_node row;
  bs_reply end;
  bs_txn a, b;
  set_up(BS_AT_BLOCK);
  a = begin_writer(), b = begin_writer();
  row = DONE(ask_row(&h, a, 7, 50)).node;
  WANT(same_node(WAITS(ask_row(&h, b, 7, 50)).node, row));
  DONE(bs_table_commit(table, a, NULL));
  end = HEARD_BY_NOW(&h, BS_DONE);
  WANT(end.mode == BS_X && same_node(end.node, row));
  a = begin_writer();
  WAITS(ask_row(&h, a, 7, 150));
  DONE(bs_table_unlock_row(table, b, rows, 7, NULL));
  end = HEARD_BY_NOW(&h, BS_OTHER_KEYS);
  WANT(end.mode == BS_X && same_node(end.node, row));
  holds(a, row, BS_X);
  DONE(bs_table_commit(table, a, NULL));
  ANSWERS(BS_NO_SUCH_NODE, ASK(table, bs_row_node, rows, 7));
  WANT(calls == 2);
  close_table();
}

/* More keys than any row has are other keys. */
static void a_row_with_too_many_keys(void) {
  static uint64_t keys[40];
  struct heard h;
  bs_txn a, b;
  size_t i;
  set_up(BS_AT_BLOCK);
  a = begin_writer(), b = begin_writer();
  for (i = 0; i < 40; i++) keys[i] = 50;
  DONE(ask_row(&h, a, 7, 50));
  h = nothing_heard(b);
  WAITS(bs_table_ask_row(table, b, rows, 7, keys, 40, BS_X, NULL, &h));
  DONE(bs_table_rekey_row(table, a, rows, 7, by_row_key, 60, NULL));
  DONE(bs_table_commit(table, a, NULL));
  HEARD_BY_NOW(&h, BS_OTHER_KEYS);
  ANSWERS(BS_NULL_POINTER, bs_table_ask_row(table, b, rows, 7, NULL, 1, BS_X, NULL, &h));
  close_table();
}

static void a_row_moves(void) {
  struct heard h;
  bs_txn a, b;
  set_up(BS_AT_BLOCK);
  a = begin_writer(), b = begin();
  DONE(bs_table_lock_path(table, b, rows, BS_IX, NULL));
  DONE(bs_table_lock_path(table, b, ASK(table, bs_interval, by_row_key, 0).node, BS_IX, NULL));
  DONE(ask_row(&h, a, 7, 50));
  WAITS(ask_row(&h, b, 7, 50));
  DONE(bs_table_rekey_row(table, a, rows, 7, by_row_key, 150, NULL));
  HEARD_BY_NOW(&h, BS_MOVED);
  WANT(calls == 1);
  close_table();
}

/* ------------------------------------------------------------------------------------------------
 * Times.
 */

static bool same_time(struct timespec one, struct timespec other) {
  return one.tv_sec == other.tv_sec && one.tv_nsec == other.tv_nsec;
}

static bool is_over(struct timespec time) {
  struct timespec now = moment_in(0);
  return now.tv_sec > time.tv_sec || (now.tv_sec == time.tv_sec && now.tv_nsec > time.tv_nsec);
}

/* The times of asks end only by a call of bs_table_expire. */
static void an_ask_expires(void) {
  struct timespec soon = moment_in(2000), late = moment_in(60000000), later = moment_in(90000000), next;
  struct heard one, two, three, four;
  bs_txn a, b, c, d;
  set_up(BS_AT_BLOCK);
  a = begin(), b = begin(), c = begin(), d = begin();
  WANT(DONE(bs_table_expire(table, &next)).count == 0);
  DONE(bs_table_lock(table, a, root, BS_S, NULL));
  WAITS(ask_until(&one, b, root, BS_X, &soon));
  WAITS(ask_until(&two, c, root, BS_S, &late));
  WAITS(ask_until(&three, d, root, BS_X, NULL));
  while (!is_over(soon)) nap();
  WANT(calls == 0 && wait_in(table, b).status == BS_WAITING);
  WANT(DONE(bs_table_expire(table, &next)).count == 0);
  HEARD_BY_NOW(&one, BS_TIMED_OUT);
  WANT(HEARD_BY_NOW(&two, BS_DONE).mode == BS_S && calls == 2);
  ANSWERS(BS_WOULD_BLOCK, bs_table_try(table, b, root, BS_X));
  WAITS(ask_until(&one, b, root, BS_X, &late));
  WAITS(ask_until(&four, begin(), root, BS_X, &later));
  WANT(DONE(bs_table_expire(table, &next)).count == 2 && same_time(next, late));
  DONE(bs_table_cancel(table, four.txn, NULL));
  WANT(DONE(bs_table_expire(table, &next)).count == 1 && same_time(next, late));
  WANT(DONE(bs_table_expire(table, NULL)).count == 1 && calls == 3);
  DONE(bs_table_cancel(table, b, NULL));
  DONE(bs_table_cancel(table, d, NULL));
  WANT(calls == 5);
  close_table();
}

/* A time before the clock's first is over, and one after its last never comes. */
static void a_time_that_no_clock_shows(void) {
  struct timespec before = { -1, 0 }, after = { 18446744074, 0 };
  struct heard one, two;
  bs_txn a, b, c;
  set_up(BS_AT_BLOCK);
  a = begin(), b = begin(), c = begin();
  DONE(bs_table_lock(table, a, root, BS_X, NULL));
  WAITS(ask_until(&one, b, root, BS_S, &before));
  WAITS(ask_until(&two, c, root, BS_S, &after));
  WANT(DONE(bs_table_expire(table, NULL)).count == 1);
  HEARD_BY_NOW(&one, BS_TIMED_OUT);
  DONE(bs_table_commit(table, a, NULL));
  WANT(HEARD_BY_NOW(&two, BS_DONE).mode == BS_S && calls == 2);
  close_table();
}

/* A transaction's deadline is a limit of its asks too; the earlier one counts. */
static void an_ask_with_a_deadline(void) {
  struct timespec past = moment_in(0), late = moment_in(60000000), later = moment_in(90000000), next;
  struct heard h;
  bs_txn a, b;
  set_up(BS_AT_BLOCK);
  a = begin(), b = begin();
  DONE(bs_table_lock_path(table, a, low, BS_S, NULL));
  DONE(bs_table_deadline(table, b, &late));
  WAITS(ask_until(&h, b, root, BS_X, &later));
  WANT(DONE(bs_table_expire(table, &next)).count == 1 && same_time(next, late));
  DONE(bs_table_cancel(table, b, NULL));
  WAITS(ask_until(&h, b, root, BS_X, &past));
  WANT(DONE(bs_table_expire(table, &next)).count == 0);
  HEARD_BY_NOW(&h, BS_TIMED_OUT);
  DONE(bs_table_deadline(table, b, &past));
  WAITS(ask_path(&h, b, low, BS_X));
  WANT(DONE(bs_table_expire(table, &next)).count == 0);
  HEARD_BY_NOW(&h, BS_TIMED_OUT);
  holds(b, below, BS_IX);
  WANT(calls == 3);
  close_table();
}

/* The times of a path and of a lock are over. The lowest slot ends first: a path that goes on by that waits again, and ends
 * in the same call; or it has ended before. */
static void a_path_expires(bool is_first) {
  struct timespec past = moment_in(0), next;
  struct heard one, two;
  bs_txn gap, a, b, c;
  set_up(BS_AT_BLOCK);
  a = begin(), gap = begin(), c = begin();
  if (is_first) DONE(bs_table_abort(table, gap, NULL));
  b = begin();
  WANT((b.slot < c.slot) == is_first);
  DONE(bs_table_lock_path(table, a, low, BS_S, NULL));
  DONE(bs_table_lock(table, c, root, BS_IX, NULL));
  WAITS(ask_until(&one, c, root, BS_X, &past));
  two = nothing_heard(b);
  WAITS(bs_table_ask_path(table, b, low, BS_X, &past, &two));
  WANT(same_node(wait_in(table, b).node, root));
  WANT(DONE(bs_table_expire(table, &next)).count == 0);
  HEARD_BY_NOW(&one, BS_TIMED_OUT);
  HEARD_BY_NOW(&two, BS_TIMED_OUT);
  holds(b, root, is_first ? BS_NL : BS_IX);
  WANT(calls == 2);
  close_table();
}

static void a_path_expires_on_its_way(void) {
  a_path_expires(false);
  a_path_expires(true);
}

/* ------------------------------------------------------------------------------------------------
 * What the callback may do.
 */

static size_t commits_made;

/* Each commits, and so ends the wait of the next. */
static void commits_too(struct heard *h) {
  commits_made++;
  DONE(bs_table_commit(table, h->txn, NULL));
}

static void a_chain_of_ends(void) {
  static struct heard all[BS_SLOTS - 1];
  bs_txn a;
  int i;
  set_up(BS_AT_BLOCK);
  a = begin();
  commits_made = 0;
  DONE(bs_table_lock(table, a, root, BS_X, NULL));
  for (i = 0; i < BS_SLOTS - 1; i++) {
    WAITS(ask(&all[i], begin(), root, BS_X));
    all[i].does = commits_too;
  }
  DONE(bs_table_commit(table, a, NULL));
  WANT(commits_made == BS_SLOTS - 1 && calls == BS_SLOTS - 1);
  for (i = 0; i < BS_SLOTS - 1; i++) WANT(HEARD_BY_NOW(&all[i], BS_DONE).mode == BS_X);
  close_table();
}

static struct heard inner;
static bs_table *others;

/* The callback may not call what could sleep, or end a table, not even another one. All else is done. A table that it
 * still holds at its end is released after it. */
static void calls_the_table(struct heard *h) {
  struct timespec past = moment_in(0);
  bs_txn t = begin();
  ANSWERS(BS_IN_USE, bs_table_lock(table, t, root, BS_X, NULL));
  ANSWERS(BS_IN_USE, bs_table_lock_path(table, t, root, BS_X, &past));
  ANSWERS(BS_IN_USE, bs_table_lock_row(table, t, rows, 1, NULL, 0, BS_X, NULL));
  ANSWERS(BS_IN_USE, bs_table_await(table, h->txn, root, BS_X, NULL));
  ANSWERS(BS_IN_USE, bs_table_begin_in_turn(table, NULL));
  ANSWERS(BS_IN_USE, bs_table_begin_in_turn(others, NULL));
  ANSWERS(BS_IN_USE, bs_table_end(table));
  ANSWERS(BS_IN_USE, bs_table_end(others));
  ANSWERS(BS_IN_USE, bs_table_free(&others));
  ANSWERS(BS_NULL_POINTER, bs_table_lock(NULL, t, root, BS_X, NULL));
  ANSWERS(BS_NULL_POINTER, bs_table_end(NULL));
  DONE(bs_table_deadline(table, t, &past));
  WAITS(ask(&inner, t, root, BS_X));
  WANT(DONE(bs_table_expire(table, NULL)).count == 0);
  WANT(calls_of(&inner) == 0);
  WANT(bs_table_hold(table) != NULL);
  WANT(bs_table_hold(others) != NULL);
}

static void the_function_calls_the_table(void) {
  struct heard h;
  bs_txn a, b;
  set_up(BS_AT_BLOCK);
  DONE(make_table(&others, BS_AT_BLOCK, BS_YOUNGEST, 1));
  a = begin(), b = begin();
  DONE(bs_table_lock(table, a, root, BS_X, NULL));
  WAITS(ask(&h, b, root, BS_X));
  h.does = calls_the_table;
  DONE(bs_table_commit(table, a, NULL));
  HEARD_BY_NOW(&inner, BS_TIMED_OUT);
  WANT(calls == 2);
  ANSWERS(BS_NOT_HELD, bs_table_let_go(table));
  ANSWERS(BS_NOT_HELD, bs_table_let_go(others));
  DONE(bs_table_begin_in_turn(others, NULL));
  DONE(bs_table_end(others));
  DONE(bs_table_free(&others));
  close_table();
}

/* A thread that holds another table ends asks of this one, and still holds the other. */
static void a_holder_of_another_tells(void) {
  struct heard h;
  bs_txn a, b;
  set_up(BS_AT_BLOCK);
  DONE(make_table(&others, BS_AT_BLOCK, BS_YOUNGEST, 1));
  a = begin(), b = begin();
  DONE(bs_table_lock(table, a, root, BS_X, NULL));
  WAITS(ask(&h, b, root, BS_X));
  WANT(bs_table_hold(others) != NULL);
  DONE(bs_table_commit(table, a, NULL));
  HEARD_BY_NOW(&h, BS_DONE);
  DONE(bs_table_let_go(others));
  DONE(bs_table_end(others));
  DONE(bs_table_free(&others));
  close_table();
}

static bs_table *third;

/* The callback can neither release nor use the table that the thread held when it was called. A table that the callback
 * itself holds it may release, or leave that to the call. */
static void takes_the_outer_table(struct heard *h) {
  (void)h;
  ANSWERS(BS_IN_USE, bs_table_let_go(others));
  WANT(bs_table_hold(others) == NULL);
  ANSWERS(BS_IN_USE, bs_table_begin(others));
  WANT(bs_table_hold(third) != NULL);
  DONE(bs_table_let_go(third));
  ANSWERS(BS_NOT_HELD, bs_table_let_go(third));
  ANSWERS(BS_IN_USE, bs_table_let_go(others));
  WANT(bs_table_hold(third) != NULL);
}

/* A thread that holds another table tells two ends: it still holds that after them, and nothing else. */
static void what_is_held_outside_stays_held(void) {
  struct heard one, two;
  bs_txn a;
  set_up(BS_AT_BLOCK);
  DONE(make_table(&others, BS_AT_BLOCK, BS_YOUNGEST, 1));
  DONE(make_table(&third, BS_AT_BLOCK, BS_YOUNGEST, 1));
  a = begin();
  DONE(bs_table_lock(table, a, root, BS_X, NULL));
  WAITS(ask(&one, begin(), root, BS_S));
  WAITS(ask(&two, begin(), root, BS_S));
  one.does = two.does = takes_the_outer_table;
  WANT(bs_table_hold(others) != NULL);
  DONE(bs_table_commit(table, a, NULL));
  HEARD_BY_NOW(&one, BS_DONE), HEARD_BY_NOW(&two, BS_DONE);
  ANSWERS(BS_NOT_HELD, bs_table_let_go(third));
  ANSWERS(BS_IN_USE, bs_table_begin(others));
  DONE(bs_table_let_go(others));
  ANSWERS(BS_NOT_HELD, bs_table_let_go(others));
  DONE(bs_table_begin(others));
  DONE(bs_table_begin(third));
  DONE(bs_table_end(others)), DONE(bs_table_free(&others));
  DONE(bs_table_end(third)), DONE(bs_table_free(&third));
  close_table();
}

/* A thread is cancelled within a call of the callback: it ends after the call of the table. */
static void comes_to_a_cancel(struct heard *h) {
  (void)h;
  pthread_testcancel();
}

static void *commits_cancelled(void *arg) {
  pthread_cancel(pthread_self());
  DONE(bs_table_commit(table, *(bs_txn *)arg, NULL));
  pthread_testcancel();
  return NULL;
}

static void a_thread_is_cancelled_in_a_call(void) {
  struct heard one, two;
  pthread_t thread;
  void *end;
  bs_txn a;
  set_up(BS_AT_BLOCK);
  a = begin();
  DONE(bs_table_lock(table, a, root, BS_X, NULL));
  WAITS(ask(&one, begin(), root, BS_S));
  WAITS(ask(&two, begin(), root, BS_S));
  one.does = two.does = comes_to_a_cancel;
  start(&thread, commits_cancelled, &a);
  WANT(pthread_join(thread, &end) == 0 && end == PTHREAD_CANCELED);
  HEARD(&one, BS_DONE), HEARD(&two, BS_DONE);
  close_table();
}

/* ------------------------------------------------------------------------------------------------
 * Tables, memory, refusals.
 */

static void asks_that_are_refused(void) {
  static const struct timespec wrong = { 0, -1 };
  struct heard h;
  bs_txn a;
  set_up(BS_AT_BLOCK);
  a = begin();
  h = nothing_heard(a);
  ANSWERS(BS_IN_USE, bs_table_on_end(table, hear, NULL));
  ANSWERS(BS_NULL_POINTER, bs_table_on_end(table, NULL, NULL));
  ANSWERS(BS_NULL_POINTER, bs_table_on_end(NULL, hear, NULL));
  ANSWERS(BS_NULL_POINTER, bs_table_ask(NULL, a, root, BS_S, NULL, &h));
  ANSWERS(BS_NULL_POINTER, bs_table_expire(NULL, NULL));
  ANSWERS(BS_BAD_NUMBER, bs_table_ask(table, a, root, BS_S, &wrong, &h));
  ANSWERS(BS_BAD_NUMBER, bs_table_ask_path(table, a, root, BS_S, &wrong, &h));
  ANSWERS(BS_BAD_NUMBER, bs_table_ask_await(table, a, root, BS_S, &wrong, &h));
  ANSWERS(BS_BAD_NUMBER, bs_table_ask_row(table, a, rows, 1, NULL, 0, BS_S, &wrong, &h));
  ANSWERS(BS_BAD_NUMBER, ask(&h, a, root, 77));
  ANSWERS(BS_BAD_MODE, ask(&h, a, root, BS_NL));
  ANSWERS(BS_NOT_WAITING, bs_table_ask_await(table, a, root, BS_S, NULL, &h));
  WANT(bs_table_hold(table) != NULL);
  ANSWERS(BS_IN_USE, bs_table_ask(table, a, root, BS_S, NULL, &h));
  ANSWERS(BS_IN_USE, bs_table_expire(table, NULL));
  DONE(bs_table_let_go(table));
  DONE(bs_table_end(table));
  ANSWERS(BS_NO_MANAGER, ask(&h, a, root, BS_S));
  ANSWERS(BS_NO_MANAGER, bs_table_on_end(table, hear, NULL));
  ANSWERS(BS_NO_MANAGER, bs_table_expire(table, NULL));
  WANT(calls == 0);
  DONE(bs_table_free(&table));
}

/* And without memory for one, or for an ask. */
static void a_table_without_a_function(void) {
  struct heard h;
  bs_txn a;
  calls = 0;
  DONE(make_table(&table, BS_AT_BLOCK, BS_YOUNGEST, 2));
  root = DONE(bs_table_add_inner(table, NULL, 0)).node;
  a = begin();
  ANSWERS(BS_NULL_POINTER, ask(&h, a, root, BS_S));
  ANSWERS(BS_NULL_POINTER, ask_path(&h, a, root, BS_S));
  WANT(DONE(bs_table_expire(table, NULL)).count == 0);
  refused_allocation = 1;
  ANSWERS(BS_NO_MEMORY, bs_table_on_end(table, hear, &context_word));
  DONE(bs_table_on_end(table, hear, &context_word));
  refused_allocation = 1;
  ANSWERS(BS_NO_MEMORY, ask(&h, a, root, BS_S));
  DONE(ask(&h, a, root, BS_S));
  WANT(calls == 0);
  close_table();
}

/* Ending asks takes no memory. Each allocation of an ask can be refused: then nothing waits, and there is no call. */
static void asks_without_memory(void) {
  struct heard h, other;
  bs_txn a, b;
  long n;
  set_up(BS_AT_BLOCK);
  a = begin(), b = begin();
  DONE(bs_table_lock_path(table, a, low, BS_X, NULL));
  for (n = 1;; n++) {
    bs_reply reply;
    refused_allocation = n;
    reply = ask_path(&h, b, low, BS_X);
    refused_allocation = 0;
    if (reply.status == BS_WAITING) break;
    ANSWERS(BS_NO_MEMORY, reply);
    WANT(wait_in(table, b).status == BS_NOT_WAITING);
  }
  WANT(n > 2 && calls == 0);
  WAITS(ask(&other, begin(), root, BS_X));
  refuse_thread(pthread_self());
  DONE(bs_table_commit(table, a, NULL));
  refuse_no_thread();
  WANT(HEARD_BY_NOW(&h, BS_DONE).mode == BS_X);
  DONE(bs_table_commit(table, b, NULL));
  HEARD_BY_NOW(&other, BS_DONE);
  close_table();
}

/* A path that cannot continue for lack of memory ends so. */
static void a_path_goes_on_without_memory(void) {
  struct heard h;
  bs_txn a, b;
  set_up(BS_AT_BLOCK);
  a = begin(), b = begin();
  DONE(bs_table_lock_path(table, a, root, BS_S, NULL));
  WAITS(ask_path(&h, b, low, BS_X));
  refuse_thread(pthread_self());
  DONE(bs_table_commit(table, a, NULL));
  refuse_no_thread();
  WANT(calls == 1);
  if (h.end.status == BS_DONE) holds(b, low, BS_X);
  else HEARD_BY_NOW(&h, BS_NO_MEMORY);
  DONE(bs_table_commit(table, b, NULL));
  close_table();
}

static void an_end_with_asks(void) {
  static struct heard all[BS_SLOTS - 1];
  struct timespec late = moment_in(60000000);
  bs_txn a;
  int i;
  set_up(BS_AT_BLOCK);
  a = begin();
  DONE(bs_table_lock_path(table, a, low, BS_X, NULL));
  for (i = 0; i < BS_SLOTS - 1; i++) {
    bs_txn t = begin();
    WAITS(i % 2 == 0 ? ask_until(&all[i], t, root, BS_X, &late) : ask_path(&all[i], t, root, BS_S));
  }
  DONE(bs_table_end(table));
  for (i = 0; i < BS_SLOTS - 1; i++) HEARD_BY_NOW(&all[i], BS_NO_MANAGER);
  WANT(calls == BS_SLOTS - 1);
  DONE(bs_table_free(&table));
}

static bool is_let_in;

static void stays_in(struct heard *h) {
  (void)h;
  pthread_mutex_lock(&ear);
  is_let_in = true;
  pthread_mutex_unlock(&ear);
  while (bs_call_table_shut(table) == BS_DONE) nap();
  { struct timespec longer = { 0, 20000000 }; nanosleep(&longer, NULL); }
  pthread_mutex_lock(&ear);
  is_let_in = false;
  pthread_mutex_unlock(&ear);
}

static void *commits_it(void *arg) {
  DONE(bs_table_commit(table, *(bs_txn *)arg, NULL));
  return NULL;
}

static bool is_in(void) {
  bool is;
  pthread_mutex_lock(&ear);
  is = is_let_in;
  pthread_mutex_unlock(&ear);
  return is;
}

/* The end of a table waits for a call that another thread makes. */
static void an_end_waits_for_a_call(void) {
  struct heard h;
  pthread_t thread;
  bs_txn a;
  set_up(BS_AT_BLOCK);
  a = begin();
  DONE(bs_table_lock(table, a, root, BS_X, NULL));
  WAITS(ask(&h, begin(), root, BS_S));
  h.does = stays_in;
  start(&thread, commits_it, &a);
  while (!is_in()) nap();
  DONE(bs_table_end(table));
  WANT(!is_in());
  HEARD(&h, BS_DONE);
  join(thread);
  DONE(bs_table_free(&table));
}

/* A list is left waiting, and its end is told. */
static void a_list_is_left_waiting(void) {
  struct heard h, other;
  bs_command list[2];
  bs_txn a, b;
  set_up(BS_AT_BLOCK);
  a = begin(), b = begin();
  DONE(bs_table_lock(table, a, root, BS_X, NULL));
  list[0] = bs_do_at(BS_DO_LOCK, b, root, BS_IX);
  list[1] = bs_do(BS_DO_COMMIT, b);
  WANT(bs_table_run(table, list, 2) == 0 && list[0].reply.status == BS_WAITING);
  h = other = nothing_heard(b);
  WAITS(bs_table_ask_await(table, b, list[0].reply.node, list[0].reply.mode, NULL, &h));
  ANSWERS(BS_IN_USE, bs_table_ask_await(table, b, list[0].reply.node, list[0].reply.mode, NULL, &other));
  ANSWERS(BS_NOT_WAITING, bs_table_ask_await(table, b, file, BS_X, NULL, &other));
  DONE(bs_table_commit(table, a, NULL));
  HEARD_BY_NOW(&h, BS_DONE);
  WANT(calls == 1 && other.calls == 0);
  DONE(bs_table_ask_await(table, b, list[0].reply.node, list[0].reply.mode, NULL, &other));
  WANT(bs_table_run(table, list, 2) == 2 && calls == 1);
  close_table();
}

/* The same of a lock for an instant, which nobody holds after its end. */
static void an_instant_of_a_list_is_awaited(void) {
  struct heard h;
  bs_command command;
  bs_txn a, b;
  set_up(BS_AT_BLOCK);
  a = begin(), b = begin();
  DONE(bs_table_lock(table, a, root, BS_X, NULL));
  command = bs_do_at(BS_DO_LOCK, b, root, BS_S | BS_INSTANT);
  WANT(bs_table_run(table, &command, 1) == 0);
  h = nothing_heard(b);
  WAITS(bs_table_ask_await(table, b, root, command.reply.mode, NULL, &h));
  DONE(bs_table_commit(table, a, NULL));
  WANT(HEARD_BY_NOW(&h, BS_DONE).mode == BS_S);
  holds(b, root, BS_NL);
  close_table();
}

/* A thread sleeps for a lock, and an ask for the same one is after it in the queue: each has its own end. */
static void *sleeps(void *arg) {
  bs_txn t = *(bs_txn *)arg;
  DONE(bs_table_lock(table, t, root, BS_X, NULL));
  DONE(bs_table_commit(table, t, NULL));
  return NULL;
}

static void a_sleeper_and_an_ask(void) {
  struct heard h;
  pthread_t thread;
  bs_txn a, b;
  set_up(BS_AT_BLOCK);
  a = begin(), b = begin();
  DONE(bs_table_lock(table, a, root, BS_X, NULL));
  start(&thread, sleeps, &b);
  while (wait_in(table, b).status != BS_WAITING) nap();
  WAITS(ask(&h, begin(), root, BS_X));
  DONE(bs_table_commit(table, a, NULL));
  HEARD(&h, BS_DONE);
  join(thread);
  WANT(pthread_equal(h.by, thread));
  close_table();
}

/* A callback that makes no call of the table. */
static void hear_alone(void *context, bs_txn txn, bs_reply end, void *word) {
  (void)context, (void)txn;
  WANT(end.status == BS_DONE);
  ++*(int *)word;
}

static void *reads_root(void *arg) {
  DONE(bs_table_lock(table, *(bs_txn *)arg, root, BS_S, NULL));
  return NULL;
}

/* One commit ends the wait of a sleeper and that of an ask, and nobody calls the table after it. */
static void a_commit_wakes_and_tells(void) {
  pthread_t thread;
  int heard = 0;
  bs_txn a, b;
  DONE(make_table(&table, BS_AT_BLOCK, BS_YOUNGEST, BS_SLOTS));
  DONE(bs_table_on_end(table, hear_alone, NULL));
  root = DONE(bs_table_add_inner(table, NULL, 0)).node;
  a = begin(), b = begin();
  DONE(bs_table_lock(table, a, root, BS_X, NULL));
  start(&thread, reads_root, &b);
  while (wait_in(table, b).status != BS_WAITING) nap();
  WAITS(bs_table_ask(table, begin(), root, BS_S, NULL, &heard));
  DONE(bs_table_commit(table, a, NULL));
  WANT(heard == 1);
  join(thread);
  close_table();
}

/* ------------------------------------------------------------------------------------------------
 * Races.
 */

static pthread_barrier_t gate;
static bs_txn holders[2];

static void *commits_by_the_gate(void *arg) {
  unsigned long i;
  (void)arg;
  for (i = 0; i < runs; i++) {
    pthread_barrier_wait(&gate);
    DONE(bs_table_commit(table, holders[0], NULL));
    pthread_barrier_wait(&gate);
  }
  return NULL;
}

/* An ask and a commit at the same time: the ask is answered the grant and has no call, or it waits and has one. */
static void asks_and_commits(void) {
  unsigned long i, waited = 0;
  pthread_t thread;
  set_up(BS_AT_BLOCK);
  WANT(pthread_barrier_init(&gate, NULL, 2) == 0);
  start(&thread, commits_by_the_gate, NULL);
  for (i = 0; i < runs; i++) {
    struct heard h;
    bs_reply reply;
    bs_txn b;
    holders[0] = begin(), b = begin();
    DONE(bs_table_lock(table, holders[0], root, BS_X, NULL));
    pthread_barrier_wait(&gate);
    reply = i % 2 == 0 ? ask(&h, b, root, BS_X) : ask_path(&h, b, file, BS_X);
    pthread_barrier_wait(&gate);
    if (reply.status == BS_WAITING) WANT(HEARD(&h, BS_DONE).mode == BS_X), waited++;
    else DONE(reply), WANT(calls_of(&h) == 0);
    DONE(bs_table_commit(table, b, NULL));
    feed(20);
  }
  join(thread);
  WANT((unsigned long)calls == waited);
  WANT(pthread_barrier_destroy(&gate) == 0);
  close_table();
}

static struct heard felled;

static void *aborts_by_the_gate(void *arg) {
  unsigned long i;
  (void)arg;
  for (i = 0; i < runs; i++) {
    bs_status status;
    pthread_barrier_wait(&gate);
    status = bs_table_abort(table, holders[1], NULL).status;
    WANT(status == BS_DONE);
    pthread_barrier_wait(&gate);
  }
  return NULL;
}

/* The requester's transaction is ended while its ask tells a victim: by its answer, or by one call. */
static void asks_and_aborts(void) {
  unsigned long i;
  pthread_t thread;
  set_up(BS_AT_BLOCK);
  WANT(pthread_barrier_init(&gate, NULL, 2) == 0);
  start(&thread, aborts_by_the_gate, NULL);
  for (i = 0; i < runs; i++) {
    struct heard h;
    bs_reply reply;
    bs_txn b;
    calls = 0;
    holders[1] = begin(), b = begin();
    DONE(bs_table_lock(table, holders[1], root, BS_S, NULL));
    DONE(bs_table_lock(table, b, root, BS_S, NULL));
    WAITS(ask(&felled, b, root, BS_X));
    pthread_barrier_wait(&gate);
    reply = ask(&h, holders[1], root, BS_X);
    pthread_barrier_wait(&gate);
    if (reply.status == BS_WAITING) HEARD(&h, BS_NO_SUCH_TXN);
    else ANSWERS(BS_NO_SUCH_TXN, reply), WANT(calls_of(&h) == 0);
    WANT(calls_of(&felled) == 1);
    DONE(bs_table_abort(table, b, NULL));
    feed(20);
  }
  join(thread);
  WANT(pthread_barrier_destroy(&gate) == 0);
  close_table();
}

/* ------------------------------------------------------------------------------------------------
 * A crowd: an event loop whose clients ask, beside threads that sleep.
 */

enum { MOST_FILES = 40, TO_LOCK = 2, LOOP_CLIENTS = 6, SLEEPERS = 3, MOST_CLIENTS = 10000 };

/* A client of a loop: it locks two files, adds to both, and commits. */
struct client {
  bs_txn txn;
  size_t files[TO_LOCK];
  size_t locked;
  bs_reply end;
  bool is_asked;
  struct client *next;
};

/* A queue of clients that may continue. */
struct queue {
  struct client *first, *last;
};

static bs_node files[MOST_FILES];
static size_t file_count;
static unsigned long accounts[MOST_FILES];
static pthread_cond_t came = PTHREAD_COND_INITIALIZER;
static struct queue to_go_on, to_work;
static size_t at_work;
static bool is_all_done;

static void enqueue(struct queue *queue, struct client *client) {
  client->next = NULL;
  if (queue->first == NULL) queue->first = client;
  else queue->last->next = client;
  queue->last = client;
}

static struct client *dequeue(struct queue *queue) {
  struct client *client = queue->first;
  if (client != NULL) queue->first = client->next;
  return client;
}

static void set_up_files(uint32_t detect, uint32_t most, size_t number) {
  size_t i;
  file_count = number;
  DONE(make_table(&table, detect, BS_YOUNGEST, most));
  root = DONE(bs_table_add_inner(table, NULL, 0)).node;
  for (i = 0; i < file_count; i++) {
    files[i] = DONE(bs_table_add_file(table, &root, 1)).node;
    accounts[i] = 0;
  }
  to_go_on.first = to_work.first = NULL;
  is_all_done = false;
}

/* The end of an ask: its client may continue, in the loop. */
static void wakes_the_loop(void *context, bs_txn txn, bs_reply end, void *word) {
  struct client *client = (struct client *)word;
  (void)context;
  WANT(bs_table_hold(table) != NULL);
  DONE(bs_table_let_go(table));
  pthread_mutex_lock(&ear);
  WANT(client->is_asked && same_txn(client->txn, txn));
  client->is_asked = false;
  client->end = end;
  enqueue(&to_go_on, client);
  pthread_cond_signal(&came);
  pthread_mutex_unlock(&ear);
}

static void choose(struct client *client, uint64_t *dice) {
  client->files[0] = (size_t)roll(dice, file_count);
  client->files[1] = (client->files[0] + 1 + (size_t)roll(dice, file_count - 1)) % file_count;
  client->locked = 0;
}

/* Asks for the next file: the answer, or BS_WAITING. Its end may come before the call returns. */
static bs_reply ask_next(struct client *client, const struct timespec *until) {
  bs_reply reply;
  pthread_mutex_lock(&ear);
  client->is_asked = true;
  pthread_mutex_unlock(&ear);
  reply = bs_table_ask_path(table, client->txn, files[client->files[client->locked]], BS_X, until, client);
  if (reply.status == BS_WAITING) return reply;
  pthread_mutex_lock(&ear);
  WANT(client->is_asked);
  client->is_asked = false;
  pthread_mutex_unlock(&ear);
  return reply;
}

/* Adds to what is held in X, and commits. If another thread aborted the transaction meanwhile, nothing was added. */
static bool adds_and_commits(struct client *client) {
  bs_command hold = bs_do_at(BS_DO_TRY, client->txn, files[client->files[0]], BS_X);
  size_t i;
  if (bs_table_run(table, &hold, 1) != 1) return false;
  for (i = 0; i < TO_LOCK; i++) accounts[client->files[i]]++;
  return bs_table_commit(table, client->txn, NULL).status == BS_DONE;
}

/* Continues with a client that was answered so, until it waits or has done its work; whether it has. */
static bool go_on(struct client *client, bs_reply reply, const struct timespec *until) {
  for (;;) {
    if (reply.status == BS_WAITING) return false;
    if (reply.status == BS_DONE) {
      if (++client->locked == TO_LOCK) return true;
    } else {
      WANT(reply.status == BS_VICTIM || reply.status == BS_TIMED_OUT || reply.status == BS_NOT_WAITING);
      DONE(bs_table_abort(table, client->txn, NULL));
      client->txn = DONE(bs_table_begin(table)).txn;
      client->locked = 0;
    }
    reply = ask_next(client, until);
  }
}

static void *sleeps_for_files(void *arg) {
  uint64_t dice = 77 + (uint64_t)(size_t)arg;
  struct client own;
  size_t round;
  memset(&own, 0, sizeof own);
  for (round = 0; round < 3; round++) {
    bs_status status = BS_DONE;
    own.txn = DONE(bs_table_begin_in_turn(table, NULL)).txn;
    choose(&own, &dice);
    for (own.locked = 0; own.locked < TO_LOCK && status == BS_DONE; own.locked++) {
      status = bs_table_lock_path(table, own.txn, files[own.files[own.locked]], BS_X, NULL).status;
    }
    if (status == BS_DONE && adds_and_commits(&own)) continue;
    WANT(status == BS_VICTIM || status == BS_NOT_WAITING);
    DONE(bs_table_abort(table, own.txn, NULL));
    round--;
  }
  return NULL;
}

/* Cancels waits of others now and then. */
static void *cancels_some(void *arg) {
  uint64_t dice = 5;
  bool is_done = false;
  (void)arg;
  while (!is_done) {
    bs_reply living;
    living = ASK(table, bs_living, (uint32_t)roll(&dice, BS_SLOTS));
    if (living.status == BS_DONE) bs_table_cancel(table, living.txn, NULL);
    sched_yield();
    pthread_mutex_lock(&ear);
    is_done = is_all_done;
    pthread_mutex_unlock(&ear);
  }
  return NULL;
}

/* The next client that may continue. If there is none for a millisecond, the late waits are cancelled. */
static struct client *next_of_loop(void) {
  struct client *client;
  pthread_mutex_lock(&ear);
  client = dequeue(&to_go_on);
  if (client == NULL) {
    struct timespec until;
    clock_gettime(CLOCK_REALTIME, &until);
    until.tv_nsec += 1000000;
    if (until.tv_nsec >= 1000000000) until.tv_sec++, until.tv_nsec -= 1000000000;
    pthread_cond_timedwait(&came, &ear, &until);
    client = dequeue(&to_go_on);
  }
  pthread_mutex_unlock(&ear);
  return client;
}

static void loops(uint64_t seed) {
  struct client clients[LOOP_CLIENTS];
  uint64_t dice = seed + 1;
  size_t i, done = 0;
  memset(clients, 0, sizeof clients);
  for (i = 0; i < LOOP_CLIENTS; i++) {
    struct timespec until = moment_in(2000);
    clients[i].txn = DONE(bs_table_begin_in_turn(table, NULL)).txn;
    choose(&clients[i], &dice);
    if (!go_on(&clients[i], ask_next(&clients[i], &until), &until)) continue;
    WANT(adds_and_commits(&clients[i]));
    done++;
  }
  while (done < LOOP_CLIENTS) {
    struct timespec until = moment_in(2000);
    struct client *next = next_of_loop();
    DONE(bs_table_expire(table, NULL));
    if (next == NULL || !go_on(next, next->end, &until)) continue;
    WANT(adds_and_commits(next));
    done++;
  }
}

static unsigned long sum_of_accounts(void) {
  unsigned long sum = 0;
  size_t i;
  for (i = 0; i < file_count; i++) sum += accounts[i];
  return sum;
}

/* A loop has a slot for each of its clients, so it begins again at once. */
static void a_crowd(uint64_t seed, uint32_t detect) {
  pthread_t threads[SLEEPERS], canceller;
  size_t i;
  set_up_files(detect, LOOP_CLIENTS + SLEEPERS, 6);
  DONE(bs_table_on_end(table, wakes_the_loop, NULL));
  if (detect == BS_BY_WATCHER) DONE(bs_table_watch_thread(table, 10000));
  for (i = 0; i < SLEEPERS; i++) start(&threads[i], sleeps_for_files, (void *)(size_t)(seed * SLEEPERS + i));
  start(&canceller, cancels_some, NULL);
  loops(seed);
  for (i = 0; i < SLEEPERS; i++) join(threads[i]);
  pthread_mutex_lock(&ear);
  is_all_done = true;
  pthread_mutex_unlock(&ear);
  join(canceller);
  WANT(sum_of_accounts() == TO_LOCK * (LOOP_CLIENTS + 3 * SLEEPERS));
  close_table();
}

static void a_crowd_asks_and_sleeps(void) {
  unsigned long i;
  for (i = 0; i < runs; i++) {
    feed(20);
    a_crowd(i, i % 2 == 0 ? BS_AT_BLOCK : BS_BY_WATCHER);
  }
}

/* ------------------------------------------------------------------------------------------------
 * An event loop of ten thousand clients, by epoll, with a pool that does their work.
 */

#ifdef __linux__
static int bell;
static struct client crowd[MOST_CLIENTS];

static void ring(void) {
  static const uint64_t one = 1;
  WANT(write(bell, &one, sizeof one) == sizeof one);
}

static void rings(void *context, bs_txn txn, bs_reply end, void *word) {
  wakes_the_loop(context, txn, end, word);
  ring();
}

/* A thread of the pool: it works for clients that have their locks, and rings after the commit. */
static void *works(void *arg) {
  (void)arg;
  pthread_mutex_lock(&ear);
  while (!is_all_done) {
    struct client *client = dequeue(&to_work);
    if (client == NULL) {
      pthread_cond_wait(&came, &ear);
      continue;
    }
    pthread_mutex_unlock(&ear);
    WANT(adds_and_commits(client));
    pthread_mutex_lock(&ear);
    at_work--;
    ring();
  }
  pthread_mutex_unlock(&ear);
  return NULL;
}

static void hand_over(struct client *client) {
  pthread_mutex_lock(&ear);
  enqueue(&to_work, client);
  at_work++;
  pthread_cond_broadcast(&came);
  pthread_mutex_unlock(&ear);
}

/* Clients whose ends were heard continue. */
static size_t serve_loop(void) {
  size_t done = 0;
  for (;;) {
    struct client *client;
    pthread_mutex_lock(&ear);
    client = dequeue(&to_go_on);
    pthread_mutex_unlock(&ear);
    if (client == NULL) return done;
    if (!go_on(client, client->end, NULL)) continue;
    hand_over(client);
    done++;
  }
}

static void await_bell(int loop) {
  struct epoll_event event;
  uint64_t rung;
  WANT(epoll_wait(loop, &event, 1, -1) == 1);
  WANT(read(bell, &rung, sizeof rung) == sizeof rung);
}

static size_t number_at_work(void) {
  size_t number;
  pthread_mutex_lock(&ear);
  number = at_work;
  pthread_mutex_unlock(&ear);
  return number;
}

/* Clients begin in the order of the loop's own queue, while a slot is free. */
static void an_event_loop(void) {
  struct epoll_event event = { EPOLLIN, { NULL } };
  pthread_t pool[3];
  uint64_t dice = 1;
  size_t i, most = runs < 100 ? 500 : MOST_CLIENTS, begun = 0, done = 0;
  int loop = epoll_create1(0);
  bell = eventfd(0, 0);
  WANT(loop >= 0 && bell >= 0 && epoll_ctl(loop, EPOLL_CTL_ADD, bell, &event) == 0);
  memset(crowd, 0, sizeof crowd);
  set_up_files(BS_AT_BLOCK, BS_SLOTS, MOST_FILES);
  DONE(bs_table_on_end(table, rings, NULL));
  for (i = 0; i < 3; i++) start(&pool[i], works, NULL);
  while (done < most || number_at_work() > 0) {
    bs_reply next = bs_call_only(BS_TOO_MANY_TXNS);
    done += serve_loop();
    if (begun - done + number_at_work() < BS_SLOTS - 1 && begun < most) next = DONE(bs_table_begin(table));
    if (next.status == BS_DONE) {
      struct client *client = &crowd[begun++];
      client->txn = next.txn;
      choose(client, &dice);
      if (go_on(client, ask_next(client, NULL), NULL)) hand_over(client), done++;
    } else if (done < most || number_at_work() > 0) {
      await_bell(loop);
    }
    feed(20);
  }
  pthread_mutex_lock(&ear);
  is_all_done = true;
  pthread_cond_broadcast(&came);
  pthread_mutex_unlock(&ear);
  for (i = 0; i < 3; i++) join(pool[i]);
  WANT(begun == most && sum_of_accounts() == TO_LOCK * most);
  close_table();
  WANT(close(bell) == 0 && close(loop) == 0);
}
#endif

/* ------------------------------------------------------------------------------------------------
 * The whole.
 */

static unsigned patience = 20;

static void tell(const char *name, void (*body)(void)) {
  long before = blocks_out();
  story = name;
  feed(patience);
  body();
  WANT(blocks_out() == before);
  printf("%s\n", name);
}

#define TELL(name) tell(#name, name)

int main(int count, char **words) {
  setvbuf(stdout, NULL, _IONBF, 0);
  if (count > 1) patience = (unsigned)atoi(words[1]);
  if (count > 2) runs = (unsigned long)atoi(words[2]);
  TELL(an_ask_is_answered_at_once);
  TELL(a_commit_ends_all);
  TELL(each_end_of_an_ask);
  TELL(a_transaction_is_told_once_a_command);
  TELL(a_savepoint_ends_asks_for_an_instant);
  TELL(an_escalation_ends_an_ask);
  TELL(a_move_and_a_drop_end_asks);
  TELL(a_lock_condemns_an_ask);
  TELL(a_path_condemns_an_ask);
  TELL(an_ask_condemns_an_ask);
  TELL(an_ask_is_ended_by_what_it_tells);
  TELL(a_requester_is_victim);
  TELL(a_settle_ends_an_ask);
  TELL(a_watching_thread_ends_asks);
  TELL(a_path_goes_on);
  TELL(a_path_comes_to_its_end);
  TELL(a_path_begins_anew);
  TELL(paths_meet_on_their_ways);
  TELL(a_path_goes_on_where_others_are_victims);
  TELL(a_path_ends_on_its_way);
  TELL(a_row_is_asked_for);
  TELL(a_row_with_too_many_keys);
  TELL(a_row_moves);
  TELL(an_ask_expires);
  TELL(a_time_that_no_clock_shows);
  TELL(an_ask_with_a_deadline);
  TELL(a_path_expires_on_its_way);
  TELL(a_chain_of_ends);
  TELL(the_function_calls_the_table);
  TELL(a_holder_of_another_tells);
  TELL(what_is_held_outside_stays_held);
  TELL(a_thread_is_cancelled_in_a_call);
  TELL(asks_that_are_refused);
  TELL(a_table_without_a_function);
  TELL(asks_without_memory);
  TELL(a_path_goes_on_without_memory);
  TELL(an_end_with_asks);
  TELL(an_end_waits_for_a_call);
  TELL(a_list_is_left_waiting);
  TELL(an_instant_of_a_list_is_awaited);
  TELL(a_sleeper_and_an_ask);
  TELL(a_commit_wakes_and_tells);
  TELL(asks_and_commits);
  TELL(asks_and_aborts);
  TELL(a_crowd_asks_and_sleeps);
#ifdef __linux__
  TELL(an_event_loop);
#endif
  return 0;
}
