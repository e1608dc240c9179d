/*
 * The scenarios through a shared table of this repository: every answer is checked.
 */
#include "race.h"
#include "ours.h"

#include "burlapslate_session.h"

#include <pthread.h>
#include <stdlib.h>

static bs_table *table;
static bs_node path[INNER_NODES];
static bs_node own[MOST_CREW]; /* a record for each thread */
static long rounds_each;

static void open_table(void) {
  bs_txn txn;
  size_t i;
  DONE(bs_table_make(&table, NULL));
  path[0] = DONE(bs_table_add_inner(table, NULL, 0)).node;
  path[1] = DONE(bs_table_add_inner(table, &path[0], 1)).node;
  path[2] = DONE(bs_table_add_file(table, &path[1], 1)).node;
  txn = DONE(bs_table_begin(table)).txn;
  DONE(bs_table_lock_path(table, txn, path[2], BS_IX, NULL));
  for (i = 0; i < MOST_CREW; i++) own[i] = DONE(bs_table_insert(table, txn, path[2], NULL, 0)).node;
  DONE(bs_table_commit(table, txn, NULL));
}

static void close_table(void) {
  WANT(bs_group(bs_table_hold(table), path[0]).mode == BS_NL);
  DONE(bs_table_let_go(table));
  DONE(bs_table_end(table));
  DONE(bs_table_free(&table));
}

enum { ALL = INNER_NODES + 3 };

/* All of it in one critical section: a list that is made in each round. */
static void fill_list(bs_command *list, size_t number) {
  size_t i;
  list[0] = bs_do(BS_DO_BEGIN, bs_begun());
  for (i = 0; i < INNER_NODES; i++) list[1 + i] = bs_do_at(BS_DO_LOCK, bs_begun(), path[i], BS_IX);
  list[ALL - 2] = bs_do_at(BS_DO_LOCK, bs_begun(), own[number], BS_X);
  list[ALL - 1] = bs_do(BS_DO_COMMIT, bs_begun());
}

static void short_transaction(size_t number) {
  bs_txn txn = DONE(bs_table_begin(table)).txn;
  size_t i;
  for (i = 0; i < INNER_NODES; i++) DONE(bs_table_lock(table, txn, path[i], BS_IX, NULL));
  DONE(bs_table_lock(table, txn, own[number], BS_X, NULL));
  DONE(bs_table_commit(table, txn, NULL));
}

/* ------------------------------------------------------------------------------------------------
 * One thread, alone and beside one who looks.
 */

static MEASURED uint64_t measured_rounds(long rounds) {
  uint64_t start = now();
  while (rounds-- > 0) short_transaction(0);
  return now() - start;
}

uint64_t table_write(long rounds) {
  uint64_t taken;
  open_table();
  taken = measured_rounds(rounds);
  close_table();
  return taken;
}

static MEASURED uint64_t measured_in_session(bs_session *session, long rounds) {
  uint64_t start = now();
  while (rounds-- > 0) {
    bs_txn txn = DONE(bs_session_begin(session, NULL)).txn;
    DONE(bs_table_lock_path(table, txn, own[0], BS_X, NULL));
    DONE(bs_session_commit(session, NULL));
  }
  return now() - start;
}

/* A list of a session, which is its whole transaction. */
static MEASURED uint64_t measured_in_lists(bs_session *session, long rounds) {
  uint64_t start = now();
  bs_command list[2];
  list[0] = bs_do_at(BS_DO_LOCK_PATH, bs_begun(), own[0], BS_X);
  list[1] = bs_do(BS_DO_COMMIT, bs_begun());
  while (rounds-- > 0) WANT(bs_session_run(session, list, 2) == 2);
  return now() - start;
}

/* The same transaction in a session, whose intentions are kept. */
static uint64_t in_session(uint64_t (*measured)(bs_session *session, long rounds), long rounds) {
  bs_session session;
  uint64_t taken;
  open_table();
  session = bs_session_of(table, INNER_NODES);
  taken = measured(&session, rounds);
  DONE(bs_session_end(&session));
  close_table();
  return taken;
}

uint64_t table_session(long rounds) {
  return in_session(measured_in_session, rounds);
}

uint64_t table_session_list(long rounds) {
  return in_session(measured_in_lists, rounds);
}

enum { RESTING = 126 };

/* A transaction that locks the inner nodes and commits: the session keeps its locks, and rests. */
static void let_rest(bs_session *session) {
  bs_txn txn = DONE(bs_session_begin(session, NULL)).txn;
  DONE(bs_table_lock_path(table, txn, path[INNER_NODES - 1], BS_IX, NULL));
  WANT(DONE(bs_session_commit(session, NULL)).count == INNER_NODES);
}

static MEASURED uint64_t measured_root(bs_txn txn) {
  uint64_t start = now();
  DONE(bs_table_lock(table, txn, path[0], BS_S, NULL));
  return now() - start;
}

/* The root for reading, while many sessions rest that hold it. What leads to it is neither timed nor counted. */
uint64_t table_resting(long rounds) {
  bs_session resting[RESTING];
  uint64_t taken = 0;
  size_t i;
  open_table();
  for (i = 0; i < RESTING; i++) resting[i] = bs_session_of(table, INNER_NODES);
  while (rounds-- > 0) {
    bs_txn txn;
    for (i = 0; i < RESTING; i++) let_rest(&resting[i]);
    txn = DONE(bs_table_begin(table)).txn;
    taken += measured_root(txn);
    DONE(bs_table_commit(table, txn, NULL));
  }
  for (i = 0; i < RESTING; i++) DONE(bs_session_end(&resting[i]));
  close_table();
  return taken;
}

static pthread_mutex_t over_latch = PTHREAD_MUTEX_INITIALIZER;
static bool is_over;

static bool goes_on(void) {
  bool on;
  pthread_mutex_lock(&over_latch);
  on = !is_over;
  pthread_mutex_unlock(&over_latch);
  return on;
}

/* Checks whether it is over only once in 1,000 looks, so that it does little but look. */
static void *look_on(void *arg) {
  bs_watcher *watcher = arg;
  bs_board *board = calloc(1, sizeof *board);
  uint64_t epoch = 0;
  long i;
  WANT(board != NULL);
  while (goes_on()) {
    for (i = 0; i < 1000; i++) {
      DONE(bs_look(watcher, board));
      WANT(board->epoch >= epoch);
      epoch = board->epoch;
    }
  }
  free(board);
  return NULL;
}

static void set_over(bool over) {
  pthread_mutex_lock(&over_latch);
  is_over = over;
  pthread_mutex_unlock(&over_latch);
}

uint64_t table_watched(long rounds) {
  bs_watcher watcher = BS_NO_WATCHER_HERE;
  pthread_t thread;
  uint64_t taken;
  open_table();
  DONE(bs_table_watch(table, &watcher));
  set_over(false);
  WANT(pthread_create(&thread, NULL, look_on, &watcher) == 0);
  taken = measured_rounds(rounds);
  set_over(true);
  WANT(pthread_join(thread, NULL) == 0);
  DONE(bs_watch_end(&watcher));
  close_table();
  return taken;
}

/* ------------------------------------------------------------------------------------------------
 * Several threads, each on a record of its own.
 */

static void work(size_t number) {
  long left = rounds_each;
  while (left-- > 0) short_transaction(number);
}

static void work_at_once(size_t number) {
  bs_command list[ALL];
  long left = rounds_each;
  fill_list(list, number);
  while (left-- > 0) WANT(bs_table_run(table, list, ALL) == ALL);
}

static uint64_t crew_of(size_t count, long rounds, void (*body)(size_t number)) {
  uint64_t taken;
  open_table();
  rounds_each = rounds / (long)count;
  taken = together(count, body);
  close_table();
  return taken;
}

uint64_t table_crew_1(long rounds) {
  return crew_of(1, rounds, work);
}

uint64_t table_crew_4(long rounds) {
  return crew_of(4, rounds, work);
}

uint64_t table_crew_16(long rounds) {
  return crew_of(16, rounds, work);
}

uint64_t table_once_4(long rounds) {
  return crew_of(4, rounds, work_at_once);
}

uint64_t table_once_16(long rounds) {
  return crew_of(16, rounds, work_at_once);
}

/* ------------------------------------------------------------------------------------------------
 * A wait and its grant: the lock goes to and fro between two threads. A commit and the next ask are one hold of the
 * latch, so that each round waits once.
 */

static bs_txn first[2];

static void take_turns(size_t number) {
  bs_txn mine = first[number];
  long left = rounds_each;
  if (number == 1) DONE(bs_table_await(table, mine, path[0], BS_X, NULL));
  while (left-- > 0) {
    bs_txn next = DONE(bs_table_begin(table)).txn;
    bs_command list[2];
    list[0] = (bs_command){ .kind = BS_DO_COMMIT, .txn = mine };
    list[1] = (bs_command){ .kind = BS_DO_LOCK, .txn = next, .node = path[0], .mode = BS_X };
    WANT(bs_table_run(table, list, 2) == 1 && list[1].reply.status == BS_WAITING);
    DONE(bs_table_await(table, next, path[0], BS_X, NULL));
    mine = next;
  }
  DONE(bs_table_commit(table, mine, NULL));
}

uint64_t table_wait(long rounds) {
  bs_command wait;
  uint64_t taken;
  open_table();
  rounds_each = rounds / 2;
  first[0] = DONE(bs_table_begin(table)).txn;
  first[1] = DONE(bs_table_begin(table)).txn;
  DONE(bs_table_lock(table, first[0], path[0], BS_X, NULL));
  wait = bs_do_at(BS_DO_LOCK, first[1], path[0], BS_X);
  WANT(bs_table_run(table, &wait, 1) == 0 && wait.reply.status == BS_WAITING);
  taken = together(2, take_turns);
  close_table();
  return taken;
}
