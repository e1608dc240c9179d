/*
 * waiters.h: a table with a store, and its waiters: threads that sleep, and asks whose ends are heard. The
 * program includes memory.h and burlapslate_shared.c before it.
 */
#ifndef WAITERS_H
#define WAITERS_H

#include "burlapslate_rows.h"
#include "threads.h"

static bs_table *table;

/* A file of records and a file of rows under a root, each with an index of two intervals, parted at 100. There is a
 * record in each interval of the first; a row has a node only while a transaction uses it. */
static bs_node root, file, by_key, below, above, low, high;
static bs_node rows, by_row_key, rows_below, rows_above;
static __attribute__((unused)) bs_notices told;

enum { LOW_KEY = 50, HIGH_KEY = 200, ROW = 7 };

static inline void close_table(void) {
  DONE(bs_table_end(table));
  DONE(bs_table_free(&table));
}

static inline bs_txn begin(void) {
  return DONE(bs_table_begin(table)).txn;
}

static inline void holds(bs_txn txn, bs_node node, bs_mode mode) {
  WANT(ASK(table, bs_held, txn, node).mode == mode);
}

static inline uint64_t doing_of(bs_txn txn) {
  return ASK(table, bs_doing, txn).count;
}

static inline bool waits_for(bs_txn txn, bs_node node) {
  bs_reply wait = wait_in(table, txn);
  return wait.status == BS_WAITING && same_node(wait.node, node);
}

static inline void await_wait(bs_txn txn) {
  while (wait_in(table, txn).status != BS_WAITING) nap();
}

static inline bool same_time(struct timespec one, struct timespec other) {
  return one.tv_sec == other.tv_sec && one.tv_nsec == other.tv_nsec;
}

/* Intentions to write on both intervals of an index and on its file. */
static inline void intend(bs_txn txn, bs_node of_file, bs_node lower, bs_node upper) {
  DONE(bs_table_lock_path(table, txn, of_file, BS_IX, NULL));
  DONE(bs_table_lock_path(table, txn, lower, BS_IX, NULL));
  DONE(bs_table_lock_path(table, txn, upper, BS_IX, NULL));
}

/* A transaction that may write records and rows in all intervals. */
static inline bs_txn begin_writer(void) {
  bs_txn txn = begin();
  intend(txn, file, below, above);
  intend(txn, rows, rows_below, rows_above);
  return txn;
}

/* ------------------------------------------------------------------------------------------------
 * Asks, and the callback that hears their ends.
 */

/* What is heard of an ask: it is the word of the ask. */
struct heard {
  bs_txn txn;
  bool begins; /* it is an ask of a begin, which has its transaction at its end */
  int calls;
  int place; /* its call was the how manieth of the story, from 0 on */
  bs_reply end;
  pthread_t by;
  void (*does)(struct heard *h); /* what the callback does then, or null */
};

static pthread_mutex_t ear = PTHREAD_MUTEX_INITIALIZER;
static int calls;
static int context_word;
static __attribute__((unused)) bool is_ending; /* a table may end while callbacks run */

/* How deep this thread is in calls of the callback, and the ask that it makes at the moment. */
static __thread int depth;
static __thread const struct heard *asking;

/* The callback finds the latch free, but a table that ends lends nothing. It is never called within itself, nor for an
 * ask whose call has not returned. */
static inline void hear(void *context, bs_txn txn, bs_reply end, void *word) {
  struct heard *h = (struct heard *)word;
  const bs_manager *lent = bs_table_hold(table);
  WANT(context == &context_word);
  WANT(++depth == 1);
  WANT(h != asking);
  if (lent != NULL) DONE(bs_table_let_go(table));
  pthread_mutex_lock(&ear);
  WANT(is_ending || (lent == NULL) == (end.status == BS_NO_MANAGER));
  WANT(same_txn(h->begins ? end.txn : h->txn, txn));
  WANT(h->calls == 0);
  h->txn = txn;
  h->place = calls++;
  h->end = end;
  h->by = pthread_self();
  h->calls = 1;
  pthread_mutex_unlock(&ear);
  if (h->does != NULL) h->does(h);
  depth--;
}

static inline int calls_of(const struct heard *h) {
  int count;
  pthread_mutex_lock(&ear);
  count = h->calls;
  pthread_mutex_unlock(&ear);
  return count;
}

static inline bs_reply heard_so(struct heard *h, bs_status status, const char *in, int line) {
  bs_reply end;
  while (calls_of(h) == 0) nap();
  pthread_mutex_lock(&ear);
  end = h->end;
  pthread_mutex_unlock(&ear);
  return answered(end, status, "heard so", in, line);
}

/* The end of an ask was told by one call, with this status. */
#define HEARD(h, status) heard_so((h), (status), __FILE__, __LINE__)

/* The same, by this thread, before now. */
#define HEARD_BY_NOW(h, status) (WANT(calls_of(h) == 1), WANT(pthread_equal((h)->by, pthread_self())), HEARD(h, status))

#define WAITS(call) ANSWERS(BS_WAITING, call)

/* An ask of this word begins. */
static inline const struct heard *begin_asking(struct heard *h, bs_txn txn, void (*does)(struct heard *h)) {
  const struct heard *before = asking;
  memset(h, 0, sizeof *h);
  h->txn = txn;
  h->does = does;
  asking = h;
  return before;
}

static inline bs_reply ask_until(struct heard *h, bs_txn txn, bs_node node, bs_mode mode,
                                 const struct timespec *until) {
  const struct heard *before = begin_asking(h, txn, NULL);
  bs_reply reply = bs_table_ask(table, txn, node, mode, until, h);
  asking = before;
  return reply;
}

static inline bs_reply ask(struct heard *h, bs_txn txn, bs_node node, bs_mode mode) {
  return ask_until(h, txn, node, mode, NULL);
}

static inline bs_reply ask_path_until(struct heard *h, bs_txn txn, bs_node node, bs_mode mode,
                                      const struct timespec *until) {
  const struct heard *before = begin_asking(h, txn, NULL);
  bs_reply reply = bs_table_ask_path(table, txn, node, mode, until, h);
  asking = before;
  return reply;
}

static inline bs_reply ask_path(struct heard *h, bs_txn txn, bs_node node, bs_mode mode) {
  return ask_path_until(h, txn, node, mode, NULL);
}

static inline bs_reply ask_row_until(struct heard *h, bs_txn txn, uint64_t key, bs_mode mode,
                                     const struct timespec *until) {
  const struct heard *before = begin_asking(h, txn, NULL);
  bs_reply reply = bs_table_ask_row(table, txn, rows, ROW, &key, 1, mode, until, h);
  asking = before;
  key = 0; /* The ask has a copy. */
  return reply;
}

static inline bs_reply ask_row(struct heard *h, bs_txn txn, uint64_t key, bs_mode mode) {
  return ask_row_until(h, txn, key, mode, NULL);
}

static inline bs_reply ask_await_until(struct heard *h, bs_txn txn, bs_node node, bs_mode mode,
                                       const struct timespec *until) {
  const struct heard *before = begin_asking(h, txn, NULL);
  bs_reply reply = bs_table_ask_await(table, txn, node, mode, until, h);
  asking = before;
  return reply;
}

static inline bs_reply lock_row(bs_txn txn, uint64_t key, bs_mode mode, const struct timespec *until) {
  return bs_table_lock_row(table, txn, rows, ROW, &key, 1, mode, until);
}

static inline bs_reply lock_row_path(bs_txn txn, uint64_t key, bs_mode mode, const struct timespec *until) {
  return bs_table_lock_row_path(table, txn, rows, ROW, &key, 1, mode, until);
}

static inline bs_reply ask_row_path(struct heard *h, bs_txn txn, uint64_t key, bs_mode mode,
                                    const struct timespec *until) {
  const struct heard *before = begin_asking(h, txn, NULL);
  bs_reply reply = bs_table_ask_row_path(table, txn, rows, ROW, &key, 1, mode, until, h);
  asking = before;
  key = 0; /* The ask has a copy. */
  return reply;
}

/* If it is not negative, the table of a story is traced into this file: from its first transaction on. */
static __attribute__((unused)) int traced_into = -1;

/* A table with the store, whose callback hears. */
static inline void set_up(uint32_t detect) {
  static const uint64_t bound = 100, keys[2] = { LOW_KEY, HIGH_KEY };
  bs_txn t;
  calls = 0;
  DONE(make_table(&table, detect, BS_YOUNGEST, BS_SLOTS));
  DONE(bs_table_on_end(table, hear, &context_word));
  root = DONE(bs_table_add_inner(table, NULL, 0)).node;
  file = DONE(bs_table_add_file(table, &root, 1)).node;
  by_key = DONE(bs_table_add_index(table, &root, 1, file, &bound, 1)).node;
  below = DONE(ASK(table, bs_interval, by_key, 0)).node;
  above = DONE(ASK(table, bs_interval, by_key, 1)).node;
  rows = DONE(bs_table_add_row_file(table, &root, 1)).node;
  by_row_key = DONE(bs_table_add_index(table, &root, 1, rows, &bound, 1)).node;
  rows_below = DONE(ASK(table, bs_interval, by_row_key, 0)).node;
  rows_above = DONE(ASK(table, bs_interval, by_row_key, 1)).node;
  if (traced_into >= 0) DONE(bs_table_trace(table, traced_into));
  t = begin();
  intend(t, file, below, above);
  low = DONE(bs_table_insert(table, t, file, &keys[0], 1)).node;
  high = DONE(bs_table_insert(table, t, file, &keys[1], 1)).node;
  DONE(bs_table_commit(table, t, NULL));
}

static inline bs_node add_root(void) {
  return DONE(bs_table_add_inner(table, NULL, 0)).node;
}

/* A command of this kind for the row, by its lower key. */
static __attribute__((unused)) bs_command row_command(uint32_t kind, bs_txn txn, bs_mode mode) {
  static const uint64_t key = LOW_KEY;
  bs_command command = bs_do(kind, txn);
  command.file = rows;
  command.number = ROW;
  command.keys = &key;
  command.key_count = 1;
  command.mode = mode;
  return command;
}

/* A list of one command, which the table leaves waiting. */
static inline void leave_waiting(bs_command *command) {
  WANT(bs_table_run(table, command, 1) == 0);
  ANSWERS(BS_WAITING, command->reply);
}

/* ------------------------------------------------------------------------------------------------
 * Threads that sleep.
 */

/* The calls that sleep. BY_AWAIT awaits a lock that a list has left waiting. */
enum sleep_call { BY_LOCK, BY_PATH, BY_ROW, BY_ROW_PATH, BY_AWAIT, BY_BEGIN };

/* A thread that sleeps in a call of the table. */
struct sleeper {
  enum sleep_call by;
  bs_txn txn;
  bs_node node;
  bs_mode mode;
  uint64_t key; /* of the row */
  const struct timespec *until;
  bool is_held_up;           /* the latch guards this, and those below, while the thread is in its call */
  size_t sleeps;             /* how often it has slept */
  struct timespec slept_to;  /* and to which time at last, if it had one */
  bs_reply reply;
  pthread_t thread;
};

static __thread __attribute__((unused)) struct sleeper *me;

static inline bs_reply sleep_by(struct sleeper *s) {
  switch (s->by) {
    case BY_LOCK: return bs_table_lock(table, s->txn, s->node, s->mode, s->until);
    case BY_PATH: return bs_table_lock_path(table, s->txn, s->node, s->mode, s->until);
    case BY_ROW: return lock_row(s->txn, s->key, s->mode, s->until);
    case BY_ROW_PATH: return lock_row_path(s->txn, s->key, s->mode, s->until);
    case BY_AWAIT: return bs_table_await(table, s->txn, s->node, s->mode, s->until);
    default: return bs_table_begin_in_turn(table, s->until);
  }
}

static inline void *fall_asleep(void *arg) {
  me = (struct sleeper *)arg;
  me->reply = sleep_by(me);
  return NULL;
}

static inline struct sleeper sleeper_of(enum sleep_call by, bs_txn txn, bs_node node, bs_mode mode) {
  struct sleeper s;
  memset(&s, 0, sizeof s);
  s.by = by;
  s.txn = txn;
  s.node = node;
  s.mode = mode;
  s.key = LOW_KEY;
  return s;
}

/* A thread calls for a lock. */
static inline void set_out(struct sleeper *s, enum sleep_call by, bs_txn txn, bs_node node, bs_mode mode) {
  *s = sleeper_of(by, txn, node, mode);
  start(&s->thread, fall_asleep, s);
}

/* The same, and it has to wait. */
static inline void send(struct sleeper *s, enum sleep_call by, bs_txn txn, bs_node node, bs_mode mode) {
  set_out(s, by, txn, node, mode);
  await_wait(txn);
}

static inline bs_reply back_so(struct sleeper *s, bs_status status, const char *in, int line) {
  join(s->thread);
  return answered(s->reply, status, "back so", in, line);
}

/* The thread has returned, with this status. */
#define BACK(s, status) back_so((s), (status), __FILE__, __LINE__)

/* How many threads sleep in the table. */
static inline size_t sleepers(void) {
  size_t count;
  pthread_mutex_lock(&table->latch);
  count = table->sleepers;
  pthread_mutex_unlock(&table->latch);
  return count;
}

static inline void await_sleepers(size_t count) {
  while (sleepers() != count) nap();
}

/* ------------------------------------------------------------------------------------------------
 * The whole.
 */

static unsigned patience = 20;

static void tell(const char *name, void (*body)(void)) {
  long before = blocks_out();
  story = name;
  feed(patience);
  body();
  WANT(blocks_out() == before);
  printf("%s\n", name);
}

#define TELL(name) tell(#name, name)

#endif
