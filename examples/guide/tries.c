/*
 * Locks that do not wait, over a shared table: a client that asks for a row with NOWAIT, and jobs in a table, of which
 * workers take one after the other with SKIP LOCKED.
 */
#include "guide.h"

#include "burlapslate_shared.h"

#include <pthread.h>

enum { JOBS = 60, WORKERS = 4, AT_ONCE = 8 };

static bs_table *table;
static bs_node db, orders, order, jobs;

/* The engine's own page of jobs. What stands in a job is guarded by its row's lock. */
static pthread_mutex_t page = PTHREAD_MUTEX_INITIALIZER;
static bool is_done[JOBS];
static int times_done[JOBS];

static void open_table(void) {
  bs_txn t;
  DONE(bs_table_make(&table, NULL));
  db = DONE(bs_table_add_inner(table, NULL, 0)).node;
  orders = DONE(bs_table_add_file(table, &db, 1)).node;
  jobs = DONE(bs_table_add_row_file(table, &db, 1)).node;
  t = DONE(bs_table_begin(table)).txn;
  DONE(bs_table_lock_path(table, t, orders, BS_IX, NULL));
  order = DONE(bs_table_insert(table, t, orders, NULL, 0)).node;
  DONE(bs_table_commit(table, t, NULL));
}

static void close_table(void) {
  DONE(bs_table_end(table));
  DONE(bs_table_free(&table));
}

/* A statement that must not wait: whether it has the row. The transaction goes on, whatever it is. */
static bool select_nowait(bs_txn t, bs_node row) {
  bs_reply reply = bs_table_try_path(table, t, row, BS_X, BS_KEEP_NOTHING);
  if (reply.status == BS_WOULD_BLOCK) return false; /* `node` is where it would have had to wait. */
  DONE(reply);
  return true;
}

void locks_that_do_not_wait(void) {
  bs_txn t, other;
  open_table();
  t = DONE(bs_table_begin(table)).txn;
  other = DONE(bs_table_begin(table)).txn;
  WANT(select_nowait(other, order));
  WANT(!select_nowait(t, order));
  WANT(bs_lock_count(bs_table_hold(table), t).count == 0);
  DONE(bs_table_let_go(table));
  DONE(bs_table_commit(table, other, NULL));
  WANT(select_nowait(t, order));
  close_table();
}

/* The first jobs of the page that are not done, as the engine reads them without locks. */
static size_t open_jobs(uint64_t *seen) {
  uint64_t job;
  size_t count = 0;
  pthread_mutex_lock(&page);
  for (job = 0; job < JOBS && count < AT_ONCE; job++) {
    if (!is_done[job]) seen[count++] = job;
  }
  pthread_mutex_unlock(&page);
  return count;
}

/* Locks the first of these jobs that nobody has: its place, or `count` where others have all of them. */
static size_t take_one(bs_txn t, const uint64_t *seen, size_t count) {
  bs_command list[AT_ONCE];
  size_t i;
  for (i = 0; i < count; i++) {
    list[i] = bs_do(BS_DO_TRY_ROW, t);
    list[i].file = jobs;
    list[i].number = seen[i];
    list[i].mode = BS_X;
  }
  i = bs_table_try_first(table, list, count);
  if (i < count) DONE(list[i].reply);
  return i;
}

/* Does a job under its lock, where it is open still: another may have done it before the lock was had. */
static void do_job(uint64_t job) {
  bool is_open;
  pthread_mutex_lock(&page);
  is_open = !is_done[job];
  pthread_mutex_unlock(&page);
  if (!is_open) return;
  times_done[job]++;
  pthread_mutex_lock(&page);
  is_done[job] = true;
  pthread_mutex_unlock(&page);
}

static void *work(void *arg) {
  uint64_t seen[AT_ONCE];
  size_t count, place;
  while ((count = open_jobs(seen)) > 0) {
    bs_txn t = DONE(bs_table_begin(table)).txn;
    DONE(bs_table_lock_path(table, t, jobs, BS_IX, NULL));
    place = take_one(t, seen, count);
    if (place < count) do_job(seen[place]);
    DONE(bs_table_commit(table, t, NULL));
  }
  return arg;
}

void jobs_in_a_table(void) {
  pthread_t workers[WORKERS];
  size_t i;
  open_table();
  for (i = 0; i < WORKERS; i++) WANT(pthread_create(&workers[i], NULL, work, NULL) == 0);
  for (i = 0; i < WORKERS; i++) WANT(pthread_join(workers[i], NULL) == 0);
  for (i = 0; i < JOBS; i++) WANT(times_done[i] == 1);
  close_table();
}
