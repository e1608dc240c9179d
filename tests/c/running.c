/*
 * Stories of a table that is run: how long waits last and how they end, the nodes that were waited for longest, long
 * waits and deadlocks that are told, and metrics. Each is a function that ends the program with status 1 at the first
 * answer that is not as wanted, and else prints its name.
 *
 *   running [SECONDS]   the time that a story may take before it is said to hang, 20 if none is given
 *   running metrics     prints the metrics of a table after some waits, for metrics.sh
 *
 * It is linked with the calls for memory of memory.h.
 */
#include "burlapslate.h"
#include "memory.h"

#include <stdio.h>
#include <time.h>

/* What the table calls is noted here, and some of it is done as a story wants. */
static int noted_wait(pthread_cond_t *on, pthread_mutex_t *latch);
static int noted_timedwait(pthread_cond_t *on, pthread_mutex_t *latch, const struct timespec *until);
static int noted_gettime(clockid_t clock, struct timespec *time);
static int noted_create(pthread_t *thread, const pthread_attr_t *attributes, void *(*run)(void *), void *arg);

#include "burlapslate_shared.h"

#define pthread_cond_wait noted_wait
#define pthread_cond_timedwait noted_timedwait
#define clock_gettime noted_gettime
#define pthread_create noted_create

#include "burlapslate_shared.c"
#include "burlapslate_running.c"
#include "burlapslate_dump.c"

#undef pthread_cond_wait
#undef pthread_cond_timedwait
#undef clock_gettime
#undef pthread_create

#include "waiters.h"

/* The time by which the table times waits, in nanoseconds, if a story says it; what each reading adds to it; and how
 * often the clock was read. */
static pthread_mutex_t clock_latch = PTHREAD_MUTEX_INITIALIZER;
static uint64_t said, step;
static long readings;

static int noted_gettime(clockid_t clock, struct timespec *time) {
  int status = 0;
  pthread_mutex_lock(&clock_latch);
  readings++;
  if (said == 0) {
    status = clock_gettime(clock, time);
  } else {
    time->tv_sec = (time_t)(said / 1000000000u);
    time->tv_nsec = (long)(said % 1000000000u);
    said += step;
  }
  pthread_mutex_unlock(&clock_latch);
  return status;
}

static void say_time(uint64_t nanoseconds) {
  pthread_mutex_lock(&clock_latch);
  said = nanoseconds;
  step = 0;
  pthread_mutex_unlock(&clock_latch);
}

static void pass_time(uint64_t nanoseconds) {
  pthread_mutex_lock(&clock_latch);
  said += nanoseconds;
  pthread_mutex_unlock(&clock_latch);
}

static bool is_said(void) {
  bool is;
  pthread_mutex_lock(&clock_latch);
  is = said != 0;
  pthread_mutex_unlock(&clock_latch);
  return is;
}

static long readings_by_now(void) {
  long count;
  pthread_mutex_lock(&clock_latch);
  count = readings;
  pthread_mutex_unlock(&clock_latch);
  return count;
}

/* How often the thread that tells has slept to a time, and the last such time; the latch guards both. */
static uint64_t looks;
static struct timespec looks_again_at;

/* How many threads await the return of the function; the latch guards it. */
static size_t awaiting;

static int noted_wait(pthread_cond_t *on, pthread_mutex_t *latch) {
  bool awaits = table != NULL && table->running.teller != NULL && on == &table->running.teller->returned;
  int status;
  if (awaits) awaiting++;
  status = pthread_cond_wait(on, latch);
  if (awaits) awaiting--;
  return status;
}

/* A sleep to a said time is a short one. */
static int noted_timedwait(pthread_cond_t *on, pthread_mutex_t *latch, const struct timespec *until) {
  struct timespec soon = moment_in(300);
  bool is_look = table != NULL && table->running.teller != NULL && on == &table->running.teller->due;
  if (is_look) looks++, looks_again_at = *until;
  return pthread_cond_timedwait(on, latch, is_said() ? &soon : until);
}

/* This many threads are not started. */
static int refused_threads;

static int noted_create(pthread_t *thread, const pthread_attr_t *attributes, void *(*run)(void *), void *arg) {
  if (refused_threads == 0) return pthread_create(thread, attributes, run, arg);
  refused_threads--;
  return EAGAIN;
}

enum { MILLISECOND = 1000000, BEGINNING = 1000000000 };

/* ------------------------------------------------------------------------------------------------
 * Histograms.
 */

static bs_waits waits_by_now(void) {
  bs_waits waits;
  DONE(bs_table_waits(table, &waits));
  return waits;
}

/* How many waits a histogram has, from a bucket on. */
static uint64_t count_from(const bs_histogram *histogram, size_t bucket) {
  uint64_t count = 0;
  for (; bucket < BS_WAIT_BUCKETS; bucket++) count += histogram->buckets[bucket];
  return count;
}

static uint64_t count_ended(const bs_waits *waits) {
  uint64_t count = 0;
  size_t end;
  for (end = 0; end < BS_WAIT_ENDS; end++) count += count_from(&waits->ended[end], 0);
  return count;
}

/* The counters of the manager tell of as many waits as the histograms, in all and by their ends. */
static void waits_are_counted(void) {
  bs_waits waits = waits_by_now();
  bs_counts counts;
  DONE(bs_counters(bs_table_hold(table), &counts));
  DONE(bs_table_let_go(table));
  WANT(counts.waited == waits.waiting + count_ended(&waits));
  WANT(counts.granted_later == count_from(&waits.ended[BS_END_GRANTED], 0));
  WANT(counts.moved == count_from(&waits.ended[BS_END_MOVED], 0));
  WANT(counts.gone == count_from(&waits.ended[BS_END_GONE], 0));
  WANT(counts.condemned >= count_from(&waits.ended[BS_END_VICTIM], 0));
}

static void shut_table(void) {
  waits_are_counted();
  close_table();
  say_time(0);
}

/* One wait has ended since `before`, so and in this bucket, and took so long. */
static void one_ended(const bs_waits *before, enum bs_wait_ends end, size_t bucket, uint64_t nanoseconds) {
  bs_waits waits = waits_by_now();
  WANT(count_ended(&waits) == count_ended(before) + 1);
  WANT(waits.ended[end].buckets[bucket] == before->ended[end].buckets[bucket] + 1);
  WANT(waits.ended[end].nanoseconds == before->ended[end].nanoseconds + nanoseconds);
}

/* A holder of a node of its own, and an ask that waits for it. */
struct pair {
  bs_txn holder, waiter;
  bs_node node;
  struct heard h;
};

static void make_pair(struct pair *p) {
  p->node = add_root();
  p->holder = begin();
  p->waiter = begin();
  DONE(bs_table_lock(table, p->holder, p->node, BS_X, NULL));
  WAITS(ask(&p->h, p->waiter, p->node, BS_X));
}

/* A wait of this length is in this bucket. */
static void a_wait_lasts(uint64_t nanoseconds, size_t bucket) {
  bs_waits before = waits_by_now();
  struct pair p;
  make_pair(&p);
  WANT(waits_by_now().waiting == before.waiting + 1 && waits_by_now().longest == 0);
  pass_time(nanoseconds);
  WANT(waits_by_now().longest == nanoseconds);
  WANT(ASK(table, bs_doing, p.waiter).count == BS_WAITS && DONE(bs_table_waited(table, p.waiter)).count == nanoseconds);
  WANT(same_node(bs_table_waited(table, p.waiter).node, p.node) && bs_table_waited(table, p.waiter).mode == BS_X);
  DONE(bs_table_commit(table, p.holder, NULL));
  HEARD(&p.h, BS_DONE);
  one_ended(&before, BS_END_GRANTED, bucket, nanoseconds);
  ANSWERS(BS_NOT_WAITING, bs_table_waited(table, p.waiter));
  ANSWERS(BS_NO_SUCH_TXN, bs_table_waited(table, p.holder));
  DONE(bs_table_commit(table, p.waiter, NULL));
  WANT(waits_by_now().waiting == 0 && waits_by_now().longest == 0);
}

/* Each power of two of microseconds is the last length of its bucket. */
static void lengths_have_their_buckets(void) {
  size_t i;
  set_up(BS_AT_BLOCK);
  say_time(BEGINNING);
  a_wait_lasts(0, 0);
  a_wait_lasts(1, 0);
  for (i = 0; i < 28; i++) {
    a_wait_lasts(UINT64_C(1000) << i, i);
    a_wait_lasts((UINT64_C(1000) << i) + 1, i + 1);
  }
  a_wait_lasts(3 * MILLISECOND, 12); /* above 2,048 microseconds, up to 4,096 */
  a_wait_lasts(UINT64_C(100000000000), 27);
  a_wait_lasts(UINT64_C(1000000000000), 28);
  shut_table();
}

/* A clock of the system, from before a sleep to after it, has the length between its own. */
static void a_sleep_of_three_milliseconds(void) {
  struct timespec until = moment_in(3000);
  bs_waits waits;
  uint64_t before, after;
  set_up(BS_AT_BLOCK);
  DONE(bs_table_lock(table, begin(), root, BS_X, NULL));
  before = bs_call_now();
  until = moment_in(3000);
  ANSWERS(BS_TIMED_OUT, bs_table_lock(table, begin(), root, BS_X, &until));
  after = bs_call_now();
  waits = waits_by_now();
  WANT(count_ended(&waits) == 1 && count_from(&waits.ended[BS_END_TIMED_OUT], 12) == 1);
  WANT(waits.ended[BS_END_TIMED_OUT].nanoseconds <= after - before);
  WANT(waits.ended[BS_END_TIMED_OUT].nanoseconds >= 2 * MILLISECOND);
  shut_table();
}

/* ------------------------------------------------------------------------------------------------
 * Ends.
 */

/* The ways in which a lock comes to wait. */
enum waits_by {
  ASKED, ASKED_INSTANT, ASKED_PATH, ASKED_ROW, SLEPT, SLEPT_PATH, SLEPT_ROW, LISTED, LISTED_INSTANT, LISTED_PATH,
  LISTED_ROW, WAITS_BY
};

static struct sleeper sleeper;
static struct heard heard;

/* The waiter waits for the record, or for the row, which another transaction holds. */
static void wait_by(enum waits_by by, bs_txn waiter) {
  static const uint64_t key = LOW_KEY;
  bs_command command = bs_do_at(BS_DO_LOCK, waiter, low, BS_X);
  switch (by) {
    case ASKED: WAITS(ask(&heard, waiter, low, BS_X)); break;
    case ASKED_INSTANT: WAITS(ask(&heard, waiter, low, BS_X | BS_INSTANT)); break;
    case ASKED_PATH: WAITS(ask_path(&heard, waiter, low, BS_X)); break;
    case ASKED_ROW: WAITS(ask_row(&heard, waiter, LOW_KEY, BS_X)); break;
    case SLEPT: send(&sleeper, BY_LOCK, waiter, low, BS_X); break;
    case SLEPT_PATH: send(&sleeper, BY_PATH, waiter, low, BS_X); break;
    case SLEPT_ROW: send(&sleeper, BY_ROW, waiter, rows, BS_X); break;
    case LISTED: leave_waiting(&command); break;
    case LISTED_INSTANT:
      command.mode |= BS_INSTANT;
      leave_waiting(&command);
      break;
    case LISTED_PATH:
      command.kind = BS_DO_LOCK_PATH;
      leave_waiting(&command);
      break;
    default:
      command = bs_do(BS_DO_LOCK_ROW, waiter);
      command.file = rows, command.number = ROW, command.keys = &key, command.key_count = 1, command.mode = BS_X;
      leave_waiting(&command);
  }
}

static bool is_row(enum waits_by by) {
  return by == ASKED_ROW || by == SLEPT_ROW || by == LISTED_ROW;
}

/* Its caller has the answer. */
static void wait_ends(enum waits_by by, bs_status status) {
  if (by <= ASKED_ROW) HEARD(&heard, status);
  else if (by <= SLEPT_ROW) BACK(&sleeper, status);
}

/* The ways in which a wait ends. */
enum ends_by {
  COMMITTED, UNLOCKED, LIST_COMMITTED, CONDEMNED, CANCELLED, ABORTED, LIST_CANCELLED, MOVED, GONE, ENDS_BY
};

static enum bs_wait_ends end_of(enum ends_by by) {
  if (by <= LIST_COMMITTED) return BS_END_GRANTED;
  if (by == CONDEMNED) return BS_END_VICTIM;
  if (by <= LIST_CANCELLED) return BS_END_CANCELLED;
  return by == MOVED ? BS_END_MOVED : BS_END_GONE;
}

/* The wait is ended by the holder, or by a cycle that the holder closes, or by its name. */
static bs_status end_by(enum ends_by by, bs_txn holder, bs_txn waiter, bool of_row) {
  bs_command command = by == LIST_CANCELLED ? bs_do(BS_DO_CANCEL, waiter) : bs_do(BS_DO_COMMIT, holder);
  switch (by) {
    case COMMITTED: DONE(bs_table_commit(table, holder, NULL)); return BS_DONE;
    case UNLOCKED:
      DONE(of_row ? bs_table_unlock_row(table, holder, rows, ROW, NULL) : bs_table_unlock(table, holder, low, NULL));
      return BS_DONE;
    case LIST_COMMITTED: WANT(bs_table_run(table, &command, 1) == 1); return BS_DONE;
    case CONDEMNED: DONE(bs_table_lock(table, holder, high, BS_X, NULL)); return BS_VICTIM;
    case CANCELLED: DONE(bs_table_cancel(table, waiter, NULL)); return BS_NOT_WAITING;
    case ABORTED: DONE(bs_table_abort(table, waiter, NULL)); return BS_NO_SUCH_TXN;
    case LIST_CANCELLED: WANT(bs_table_run(table, &command, 1) == 1); return BS_NOT_WAITING;
    case MOVED: DONE(bs_table_rekey(table, holder, low, by_key, HIGH_KEY, NULL)); return BS_MOVED;
    default: DONE(bs_table_delete(table, holder, low, NULL)); return BS_GONE;
  }
}

/* The waiter must lose its wait if the record moves: it has intentions below the old interval alone. A path would
 * continue. */
static bs_txn begin_waiter(enum ends_by end) {
  bs_txn txn;
  if (end != MOVED) return begin_writer();
  txn = begin();
  DONE(bs_table_lock_path(table, txn, file, BS_IX, NULL));
  DONE(bs_table_lock_path(table, txn, below, BS_IX, NULL));
  return txn;
}

/* Whether this wait can end so: only a record moves or is deleted, and a path that moves waits again. */
static bool can_end(enum waits_by by, enum ends_by end) {
  if (end == MOVED) return !is_row(by) && by != ASKED_PATH && by != SLEPT_PATH;
  return end != GONE || !is_row(by);
}

/* A wait of three milliseconds, which begins in one way and ends in another, by a clock that a story says. */
static void a_wait_begins_and_ends(enum waits_by by, enum ends_by end) {
  bs_txn holder, waiter;
  bs_waits before;
  set_up(BS_AT_BLOCK);
  say_time(BEGINNING);
  holder = begin_writer();
  if (is_row(by)) DONE(lock_row(holder, LOW_KEY, BS_X, NULL));
  else DONE(bs_table_lock(table, holder, low, BS_X, NULL));
  waiter = begin_waiter(end);
  if (end == CONDEMNED) DONE(bs_table_lock(table, waiter, high, BS_X, NULL));
  before = waits_by_now();
  wait_by(by, waiter);
  pass_time(3 * MILLISECOND);
  if (end == CONDEMNED) {
    struct heard own;
    WAITS(ask(&own, holder, high, BS_X));
    wait_ends(by, BS_VICTIM);
    one_ended(&before, BS_END_VICTIM, 12, 3 * MILLISECOND);
    DONE(bs_table_abort(table, waiter, NULL));
    HEARD(&own, BS_DONE);
  } else {
    wait_ends(by, end_by(end, holder, waiter, is_row(by)));
    one_ended(&before, end_of(end), 12, 3 * MILLISECOND);
  }
  WANT(waits_by_now().waiting == 0);
  shut_table();
}

static void each_wait_ends_in_each_way(void) {
  int by, end;
  for (by = 0; by < WAITS_BY; by++) {
    for (end = 0; end < ENDS_BY; end++) {
      if (can_end((enum waits_by)by, (enum ends_by)end)) a_wait_begins_and_ends((enum waits_by)by, (enum ends_by)end);
    }
  }
}

/* Times that are over: of a call that sleeps, of an ask, and of a row. Each reading of the clock takes three
 * milliseconds. */
static void times_are_over(void) {
  static const enum sleep_call calls_that_sleep[] = { BY_LOCK, BY_PATH, BY_ROW, BY_AWAIT };
  struct timespec past = { 0, 0 };
  size_t i;
  for (i = 0; i < 6; i++) {
    bs_txn holder, waiter;
    bs_waits before;
    set_up(BS_AT_BLOCK);
    holder = begin_writer(), waiter = begin_writer();
    DONE(bs_table_lock(table, holder, low, BS_X, NULL));
    DONE(lock_row(holder, LOW_KEY, BS_X, NULL));
    before = waits_by_now();
    say_time(BEGINNING);
    step = 3 * MILLISECOND;
    if (i < 4) {
      struct sleeper own = sleeper_of(calls_that_sleep[i], waiter, low, BS_X);
      bs_command command = bs_do_at(BS_DO_LOCK, waiter, low, BS_X);
      own.until = &past;
      if (own.by == BY_AWAIT) leave_waiting(&command);
      ANSWERS(BS_TIMED_OUT, sleep_by(&own));
    } else {
      WAITS(i == 4 ? ask_until(&heard, waiter, low, BS_X, &past) : ask_row_until(&heard, waiter, LOW_KEY, BS_X, &past));
      pthread_mutex_lock(&clock_latch);
      step = 0;
      pthread_mutex_unlock(&clock_latch);
      DONE(bs_table_expire(table, NULL));
      HEARD(&heard, BS_TIMED_OUT);
    }
    one_ended(&before, BS_END_TIMED_OUT, 12, 3 * MILLISECOND);
    shut_table();
  }
}

/* A request that is condemned at once has not waited. */
static void a_victim_that_did_not_wait(void) {
  struct heard own;
  bs_txn a, b;
  bs_node other;
  set_up(BS_AT_BLOCK);
  other = add_root();
  a = begin(), b = begin();
  DONE(bs_table_lock(table, a, root, BS_X, NULL));
  DONE(bs_table_lock(table, b, other, BS_X, NULL));
  WAITS(ask(&own, a, other, BS_X));
  ANSWERS(BS_VICTIM, bs_table_lock(table, b, root, BS_X, NULL));
  WANT(waits_by_now().waiting == 1 && count_from(&waits_by_now().ended[BS_END_VICTIM], 0) == 0);
  DONE(bs_table_abort(table, b, NULL));
  HEARD(&own, BS_DONE);
  shut_table();
}

/* A path that waits for two nodes has two waits, each with its own length. */
static void a_path_waits_twice(void) {
  struct heard own;
  bs_txn first = begin(), second = begin(), path = begin();
  DONE(bs_table_lock_path(table, first, file, BS_S, NULL));
  DONE(bs_table_lock_path(table, second, low, BS_S, NULL));
  WAITS(ask_path(&own, path, low, BS_X));
  pass_time(3 * MILLISECOND);
  DONE(bs_table_commit(table, first, NULL));
  WANT(calls_of(&own) == 0 && same_node(DONE(bs_table_waited(table, path)).node, low));
  pass_time(100000);
  DONE(bs_table_commit(table, second, NULL));
  HEARD(&own, BS_DONE);
  WANT(waits_by_now().ended[BS_END_GRANTED].buckets[12] == 1 && waits_by_now().ended[BS_END_GRANTED].buckets[7] == 1);
  DONE(bs_table_commit(table, path, NULL));
}

/* A path waits several times, and a lock for an instant sets off others: each wait is counted. */
static void one_call_waits_twice(void) {
  struct heard own, other;
  bs_txn first, second, path;
  set_up(BS_AT_BLOCK);
  say_time(BEGINNING);
  a_path_waits_twice();
  first = begin(), second = begin(), path = begin();
  DONE(bs_table_lock(table, second, root, BS_IX, NULL));
  DONE(bs_table_lock(table, second, file, BS_X, NULL));
  DONE(bs_table_lock(table, first, root, BS_IX, NULL));
  WAITS(ask(&other, first, file, BS_X | BS_INSTANT));
  WAITS(ask_path(&own, path, file, BS_S));
  pass_time(3 * MILLISECOND);
  DONE(bs_table_commit(table, second, NULL));
  HEARD(&other, BS_DONE);
  HEARD(&own, BS_DONE);
  WANT(waits_by_now().ended[BS_END_GRANTED].buckets[12] == 3);
  shut_table();
}

/* A lock that does not wait reads no clock, nor do its commit and its abort. */
static void no_wait_reads_no_clock(void) {
  uint64_t key = LOW_KEY;
  long before;
  bs_txn txn;
  set_up(BS_AT_BLOCK);
  before = readings_by_now();
  txn = begin_writer();
  DONE(bs_table_lock(table, txn, low, BS_X, NULL));
  DONE(bs_table_lock(table, txn, high, BS_X | BS_INSTANT, NULL));
  DONE(bs_table_lock_row(table, txn, rows, ROW, &key, 1, BS_X, NULL));
  DONE(bs_table_unlock(table, txn, low, NULL));
  DONE(bs_table_try(table, txn, low, BS_S));
  ANSWERS(BS_NOT_WAITING, bs_table_cancel(table, txn, NULL));
  DONE(bs_table_commit(table, txn, NULL));
  DONE(bs_table_abort(table, begin_writer(), NULL));
  WANT(readings_by_now() == before);
  shut_table();
}

/* ------------------------------------------------------------------------------------------------
 * Dumps.
 */

/* The lines of a dump that follow its heading of waits, and how many there are. */
static size_t lines_of_waits(FILE *text, char lines[][100]) {
  char line[200];
  size_t count = 0;
  bool is_there = false;
  rewind(text);
  while (fgets(line, sizeof line, text) != NULL) {
    if (is_there && line[0] == '\n') break;
    if (is_there && strstr(line, "seconds slot") == NULL) snprintf(lines[count++], 100, "%.99s", line);
    if (strcmp(line, "Waits, the longest first:\n") == 0) is_there = true;
  }
  return is_there ? count : 99;
}

/* The first of these lines has these slots and seconds. */
static void says_waits(FILE *text, size_t count, const char *const *wanted_lines) {
  char lines[8][100];
  size_t i;
  WANT(lines_of_waits(text, lines) == count);
  for (i = 0; i < count; i++) WANT(strncmp(lines[i], wanted_lines[i], strlen(wanted_lines[i])) == 0);
}

/* The waits of a dump are by their age, whatever slots they have; also of a table that is held. */
static void a_dump_is_by_age(void) {
  static const char *const wanted_lines[] = { "    9.000000    3            5 S     inner",
                                              "    8.500000    1            3 X", "    6.000001    2            4 S" };
  struct heard h[3];
  FILE *text = tmpfile(), *again = tmpfile(), *none = tmpfile();
  bs_txn t[4];
  size_t i;
  WANT(text != NULL && again != NULL && none != NULL);
  set_up(BS_AT_BLOCK);
  for (i = 0; i < 4; i++) t[i] = begin();
  DONE(bs_table_lock(table, t[0], root, BS_X, NULL));
  say_time(BEGINNING);
  WAITS(ask(&h[0], t[3], root, BS_S));
  pass_time(500 * MILLISECOND);
  WAITS(ask(&h[1], t[1], root, BS_X));
  say_time(UINT64_C(3999999000));
  WAITS(ask(&h[2], t[2], root, BS_S));
  say_time(UINT64_C(10000000000));
  DONE(bs_table_dump(table, text));
  says_waits(text, 3, wanted_lines);
  DONE(bs_dump(bs_table_hold(table), again));
  DONE(bs_table_let_go(table));
  says_waits(again, 3, wanted_lines);
  DONE(bs_table_commit(table, t[0], NULL));
  DONE(bs_table_commit(table, t[3], NULL));
  DONE(bs_table_commit(table, t[1], NULL));
  DONE(bs_table_dump(table, none));
  says_waits(none, 0, NULL);
  shut_table();
  fclose(text);
  fclose(again);
  fclose(none);
}

/* A manager that is no table's knows no time, also while the thread holds a table. */
static void a_dump_without_times(void) {
  bs_manager m = BS_NO_MANAGER_HERE;
  FILE *text = tmpfile();
  char lines[8][100];
  bs_txn a, b;
  bs_node node;
  WANT(text != NULL);
  set_up(BS_AT_BLOCK);
  DONE(make_manager(&m, BS_AT_BLOCK, 2));
  node = DONE(bs_add_inner(&m, NULL, 0)).node;
  a = DONE(bs_begin(&m)).txn, b = DONE(bs_begin(&m)).txn;
  DONE(bs_lock(&m, a, node, BS_X, &told));
  WAITS(bs_lock(&m, b, node, BS_X, &told));
  WANT(bs_table_hold(table) != NULL);
  DONE(bs_dump(&m, text));
  DONE(bs_table_let_go(table));
  WANT(lines_of_waits(text, lines) == 99);
  DONE(bs_end(&m));
  shut_table();
  fclose(text);
}

/* ------------------------------------------------------------------------------------------------
 * The nodes that were waited for longest.
 */

enum { MANY_NODES = 100 };
static bs_node nodes[MANY_NODES];
static uint64_t waited_for[MANY_NODES], waits_for_node[MANY_NODES], waited_in_all;

/* A wait for one of the nodes. */
static void wait_for_node(size_t i, uint64_t nanoseconds) {
  bs_txn holder = begin(), waiter = begin();
  struct heard h;
  DONE(bs_table_lock(table, holder, nodes[i], BS_X, NULL));
  WAITS(ask(&h, waiter, nodes[i], BS_S));
  pass_time(nanoseconds);
  DONE(bs_table_commit(table, holder, NULL));
  HEARD(&h, BS_DONE);
  DONE(bs_table_commit(table, waiter, NULL));
  waited_for[i] += nanoseconds;
  waits_for_node[i]++;
  waited_in_all += nanoseconds;
}

static void forget_nodes(void) {
  memset(waited_for, 0, sizeof waited_for);
  memset(waits_for_node, 0, sizeof waits_for_node);
  waited_in_all = 0;
}

static void set_up_nodes(void) {
  size_t i;
  say_time(BEGINNING);
  set_up(BS_AT_BLOCK);
  for (i = 0; i < MANY_NODES; i++) nodes[i] = add_root();
  forget_nodes();
}

static size_t number_of(bs_node node) {
  size_t i = 0;
  while (i < MANY_NODES && !same_node(nodes[i], node)) i++;
  WANT(i < MANY_NODES);
  return i;
}

static bool is_among(const bs_awaited *awaited, size_t number) {
  size_t i;
  for (i = 0; i < awaited->count; i++) {
    if (same_node(awaited->at[i].node, nodes[number])) return true;
  }
  return false;
}

/* What is answered fits what was waited: each node's bound, the bound of the error, the order, and that no other node
 * was waited for longer than the last one may have been. */
static void fits(const bs_awaited *awaited) {
  size_t i, most;
  WANT(awaited->nanoseconds == waited_in_all && awaited->count <= BS_MOST_AWAITED);
  for (i = 0; i < awaited->count; i++) {
    const bs_awaited_node *at = &awaited->at[i];
    most = number_of(at->node);
    WANT(at->nanoseconds >= waited_for[most] && at->nanoseconds - at->error <= waited_for[most]);
    WANT(at->error <= awaited->nanoseconds / 32 && at->waits >= 1 && at->waits <= waits_for_node[most]);
    WANT(i == 0 || awaited->at[i - 1].nanoseconds >= at->nanoseconds);
  }
  for (i = 0; i < MANY_NODES; i++) {
    if (waits_for_node[i] == 0 || is_among(awaited, i)) continue;
    WANT(awaited->count == BS_MOST_AWAITED && waited_for[i] <= awaited->at[BS_MOST_AWAITED - 1].nanoseconds);
  }
}

static bs_awaited awaited_by_now(bool reset) {
  bs_awaited awaited;
  DONE(bs_table_awaited(table, &awaited, reset));
  return awaited;
}

/* With up to 32 nodes all is exact. */
static void twenty_nodes_are_exact(void) {
  bs_awaited awaited;
  uint64_t dice = 88172645463325252u;
  size_t i;
  set_up_nodes();
  WANT(awaited_by_now(false).count == 0 && awaited_by_now(false).nanoseconds == 0);
  for (i = 0; i < 300; i++) {
    size_t number = roll(&dice, 20);
    wait_for_node(number, roll(&dice, (number + 1) * MILLISECOND));
  }
  awaited = awaited_by_now(false);
  fits(&awaited);
  WANT(awaited.count == 8 && awaited.since == waited_in_all);
  for (i = 0; i < 8; i++) {
    size_t number = number_of(awaited.at[i].node);
    WANT(awaited.at[i].error == 0 && awaited.at[i].nanoseconds == waited_for[number]);
    WANT(awaited.at[i].waits == waits_for_node[number]);
  }
  shut_table();
}

/* With more, the error is bounded, and a node with more than a 32nd of the whole is counted: here three of them. */
static void many_nodes_have_a_bound(void) {
  uint64_t dice = 362436069362436069u;
  int round;
  set_up_nodes();
  for (round = 0; round < 4; round++) {
    bs_awaited awaited;
    size_t i;
    for (i = 0; i < 300; i++) {
      bool is_hot = roll(&dice, 4) == 0;
      wait_for_node(is_hot ? 40 + 20 * roll(&dice, 3) : roll(&dice, MANY_NODES), roll(&dice, MILLISECOND));
    }
    awaited = awaited_by_now(round == 2);
    fits(&awaited);
    WANT(waited_for[40] > waited_in_all / 32 && is_among(&awaited, 40));
    WANT(is_among(&awaited, 60) && is_among(&awaited, 80));
    if (round == 2) forget_nodes();
  }
  shut_table();
}

/* A wait that has not ended counts up to now, and after a reset what comes after it. */
static void present_waits_count(void) {
  bs_awaited awaited;
  bs_txn holder, waiter;
  struct heard h;
  set_up_nodes();
  holder = begin(), waiter = begin();
  DONE(bs_table_lock(table, holder, nodes[5], BS_X, NULL));
  WAITS(ask(&h, waiter, nodes[5], BS_S));
  pass_time(700);
  awaited = awaited_by_now(false);
  WANT(awaited.count == 1 && same_node(awaited.at[0].node, nodes[5]) && awaited.at[0].nanoseconds == 700);
  WANT(awaited.at[0].waits == 1 && awaited.nanoseconds == 700);
  awaited = awaited_by_now(true);
  WANT(awaited.count == 1 && awaited.at[0].nanoseconds == 700 && awaited.since == 700);
  awaited = awaited_by_now(false);
  WANT(awaited.count == 1 && awaited.at[0].nanoseconds == 0 && awaited.since == 0);
  pass_time(50);
  DONE(bs_table_commit(table, holder, NULL));
  HEARD(&h, BS_DONE);
  awaited = awaited_by_now(true);
  WANT(awaited.count == 1 && awaited.at[0].nanoseconds == 50 && awaited.nanoseconds == 50 && awaited.since == 50);
  WANT(waits_by_now().ended[BS_END_GRANTED].nanoseconds == 750);
  WANT(awaited_by_now(false).count == 0);
  shut_table();
}

/* ------------------------------------------------------------------------------------------------
 * Long waits and deadlocks.
 */

enum { MOST_TOLD = 40 };

/* What the function was told, under a latch of its own. */
struct told_event {
  bool is_wait;
  bs_long_wait wait;
  bs_deadlock deadlock;
  pthread_t by;
};

static pthread_mutex_t told_latch = PTHREAD_MUTEX_INITIALIZER;
static struct told_event events[MOST_TOLD];
static size_t event_count;
static size_t returning; /* so many calls of the function may return */
static size_t inside;    /* how many are within it */
static void (*does)(const bs_long_wait *wait, const bs_deadlock *deadlock);

static void let_return(size_t calls_of_function) {
  pthread_mutex_lock(&told_latch);
  returning = calls_of_function;
  pthread_mutex_unlock(&told_latch);
}

static bool may_return(size_t place) {
  bool may;
  pthread_mutex_lock(&told_latch);
  may = place < returning;
  pthread_mutex_unlock(&told_latch);
  return may;
}

static size_t told_by_now(void) {
  size_t count;
  pthread_mutex_lock(&told_latch);
  count = event_count;
  pthread_mutex_unlock(&told_latch);
  return count;
}

static size_t inside_now(void) {
  size_t count;
  pthread_mutex_lock(&told_latch);
  count = inside;
  pthread_mutex_unlock(&told_latch);
  return count;
}

static int long_word;

/* The function finds the latch free. */
static void hear_long(void *context, const bs_long_wait *wait, const bs_deadlock *deadlock) {
  const bs_manager *lent = bs_table_hold(table);
  struct told_event *event;
  size_t place;
  sigset_t blocked;
  WANT(context == &long_word);
  WANT(pthread_sigmask(SIG_BLOCK, NULL, &blocked) == 0 && sigismember(&blocked, SIGUSR1) == 1);
  WANT((wait == NULL) != (deadlock == NULL));
  if (lent != NULL) DONE(bs_table_let_go(table));
  pthread_mutex_lock(&told_latch);
  WANT(event_count < MOST_TOLD && ++inside == 1);
  place = event_count++;
  event = &events[place];
  event->is_wait = wait != NULL;
  if (wait != NULL) event->wait = *wait;
  else event->deadlock = *deadlock;
  event->by = pthread_self();
  pthread_mutex_unlock(&told_latch);
  if (does != NULL) does(wait, deadlock);
  while (!may_return(place)) nap();
  pthread_mutex_lock(&told_latch);
  inside--;
  pthread_mutex_unlock(&told_latch);
}

static const struct told_event *event_at(size_t place) {
  while (told_by_now() <= place) nap();
  return &events[place];
}

static void set_up_telling(uint32_t detect, uint64_t milliseconds) {
  set_up(detect);
  event_count = 0;
  does = NULL;
  returning = MOST_TOLD;
  DONE(bs_table_on_long_wait(table, milliseconds, hear_long, &long_word));
}

/* The thread that tells has looked some times since. */
static uint64_t looks_by_now(void) {
  uint64_t count;
  pthread_mutex_lock(&table->latch);
  count = looks;
  pthread_mutex_unlock(&table->latch);
  return count;
}

/* The time to which the thread that tells sleeps. */
static struct timespec looks_again(void) {
  struct timespec at;
  pthread_mutex_lock(&table->latch);
  at = looks_again_at;
  pthread_mutex_unlock(&table->latch);
  return at;
}

static void await_looks(void) {
  uint64_t before = looks_by_now();
  while (looks_by_now() < before + 3) nap();
}

/* Whether the thread that tells sleeps until it gets a sign. */
static bool is_at_rest(void) {
  bool is;
  pthread_mutex_lock(&table->latch);
  is = table->running.teller->is_idle;
  pthread_mutex_unlock(&table->latch);
  return is;
}

static void await_rest(void) {
  while (!is_at_rest()) nap();
}

/* A wait is told once it is as long as was said, and only once, with who is in its way. */
static void a_long_wait_is_told_once(void) {
  struct heard h[3];
  const bs_long_wait *wait;
  bs_txn holder, reader, ahead, waiter;
  bs_node other;
  struct heard elsewhere;
  set_up_telling(BS_AT_BLOCK, 1000);
  say_time(BEGINNING);
  holder = begin(), reader = begin(), ahead = begin(), waiter = begin();
  DONE(bs_table_lock(table, holder, root, BS_IX, NULL));
  DONE(bs_table_lock(table, reader, root, BS_IS, NULL));
  other = add_root();
  DONE(bs_table_lock(table, reader, other, BS_X, NULL));
  WAITS(ask(&h[0], ahead, root, BS_S));
  pass_time(1);
  WAITS(ask(&h[1], waiter, root, BS_IX));
  pass_time(UINT64_C(999999998));
  await_looks();
  WANT(told_by_now() == 0 && looks_again().tv_sec == 2 && looks_again().tv_nsec == 0);
  pass_time(1);
  wait = &event_at(0)->wait;
  WANT(event_at(0)->is_wait && same_txn(wait->txn, ahead) && same_node(wait->node, root) && wait->mode == BS_S);
  WANT(wait->nanoseconds == 1000 * MILLISECOND && wait->count == 1);
  WANT(same_txn(wait->at[0].txn, holder) && wait->at[0].held == BS_IX && wait->at[0].wanted == BS_NL);
  WANT(wait->at[0].doing == BS_ACTIVE);
  await_looks();
  WANT(told_by_now() == 1);
  pass_time(1);
  wait = &event_at(1)->wait;
  WANT(same_txn(wait->txn, waiter) && wait->mode == BS_IX && wait->count == 1);
  WANT(same_txn(wait->at[0].txn, ahead) && wait->at[0].held == BS_NL && wait->at[0].wanted == BS_S);
  WANT(wait->at[0].doing == BS_WAITS && pthread_equal(event_at(0)->by, event_at(1)->by));
  WAITS(ask(&elsewhere, holder, other, BS_S));
  pass_time(UINT64_C(5000000000));
  WANT(same_txn(event_at(2)->wait.txn, holder) && same_node(event_at(2)->wait.node, other));
  await_rest();
  WANT(told_by_now() == 3);
  WAITS(ask(&h[2], begin(), root, BS_X));
  pass_time(UINT64_C(5000000000));
  wait = &event_at(3)->wait;
  WANT(wait->count == 4 && same_txn(wait->at[0].txn, holder) && same_txn(wait->at[1].txn, reader));
  WANT(wait->at[0].held == BS_IX && wait->at[0].wanted == BS_NL && wait->at[0].doing == BS_WAITS);
  WANT(wait->at[1].held == BS_IS && wait->at[1].wanted == BS_NL && wait->at[1].doing == BS_ACTIVE);
  await_rest();
  DONE(bs_table_commit(table, reader, NULL));
  HEARD(&elsewhere, BS_DONE);
  DONE(bs_table_commit(table, holder, NULL));
  DONE(bs_table_commit(table, ahead, NULL));
  WANT(told_by_now() == 4 && table->running.told_waits == 4);
  shut_table();
}

/* A wait that ends before is not told, and the next wait of the same slot is. */
static void a_short_wait_is_not_told(void) {
  struct pair p, q;
  set_up_telling(BS_AT_BLOCK, 10);
  say_time(BEGINNING);
  make_pair(&p);
  pass_time(10 * MILLISECOND - 1);
  await_looks();
  DONE(bs_table_commit(table, p.holder, NULL));
  DONE(bs_table_commit(table, p.waiter, NULL));
  pass_time(UINT64_C(60000000000));
  await_rest();
  make_pair(&q);
  WANT(q.waiter.slot == p.waiter.slot);
  await_looks();
  WANT(told_by_now() == 0);
  pass_time(10 * MILLISECOND);
  WANT(same_txn(event_at(0)->wait.txn, q.waiter) && same_node(event_at(0)->wait.node, q.node));
  DONE(bs_table_commit(table, q.holder, NULL));
  DONE(bs_table_commit(table, q.waiter, NULL));
  make_pair(&q);
  pass_time(10 * MILLISECOND);
  WANT(same_txn(event_at(1)->wait.txn, q.waiter));
  shut_table();
}

/* By the clock of the system: the thread sleeps, and wakes by itself when the wait is long. */
static void a_thread_wakes_by_time(void) {
  struct heard h;
  bs_txn waiter;
  uint64_t nanoseconds;
  set_up_telling(BS_AT_BLOCK, 5);
  await_rest();
  DONE(bs_table_lock(table, begin(), root, BS_X, NULL));
  waiter = begin();
  WAITS(ask(&h, waiter, root, BS_S));
  nanoseconds = event_at(0)->wait.nanoseconds;
  WANT(nanoseconds >= 5 * MILLISECOND && nanoseconds <= DONE(bs_table_waited(table, waiter)).count);
  shut_table();
}

/* A wait that began before the function was given counts in full; what was told once is not told to another function;
 * and a shorter time wakes the thread. */
static void times_and_functions_change(void) {
  struct pair p, q;
  set_up(BS_AT_BLOCK);
  event_count = 0;
  does = NULL;
  returning = MOST_TOLD;
  say_time(BEGINNING);
  make_pair(&p);
  pass_time(50 * MILLISECOND);
  DONE(bs_table_on_long_wait(table, 50, hear_long, &long_word));
  WANT(same_txn(event_at(0)->wait.txn, p.waiter));
  DONE(bs_table_on_long_wait(table, 10000, hear_long, &long_word));
  make_pair(&q);
  pass_time(50 * MILLISECOND);
  await_looks();
  DONE(bs_table_on_long_wait(table, 0, NULL, NULL));
  pass_time(20000 * (uint64_t)MILLISECOND);
  await_rest();
  WANT(told_by_now() == 1);
  DONE(bs_table_on_long_wait(table, UINT64_MAX, hear_long, &long_word));
  await_rest();
  WANT(told_by_now() == 1);
  DONE(bs_table_on_long_wait(table, UINT64_MAX / 1000000 + 1, hear_long, &long_word));
  await_rest();
  WANT(told_by_now() == 1);
  DONE(bs_table_on_long_wait(table, UINT64_MAX / 2000000, hear_long, &long_word));
  await_looks();
  WANT(told_by_now() == 1);
  DONE(bs_table_on_long_wait(table, 20050, hear_long, &long_word));
  WANT(same_txn(event_at(1)->wait.txn, q.waiter));
  await_rest();
  WANT(told_by_now() == 2);
  shut_table();
}

/* Two transactions that wait for each other. The younger is condemned: by its own request, or while it waits. Answers
 * the victim, which has aborted. */
static bs_txn a_deadlock(bool of_requester) {
  struct heard h[2];
  bs_node one = add_root(), other = add_root();
  bs_txn old = begin(), young = begin();
  DONE(bs_table_lock(table, old, one, BS_X, NULL));
  DONE(bs_table_lock(table, young, other, BS_X, NULL));
  if (of_requester) {
    WAITS(ask(&h[0], old, other, BS_X));
    ANSWERS(BS_VICTIM, ask(&h[1], young, one, BS_X));
  } else {
    WAITS(ask(&h[1], young, one, BS_X));
    WAITS(ask(&h[0], old, other, BS_X));
    HEARD(&h[1], BS_VICTIM);
  }
  DONE(bs_table_abort(table, young, NULL));
  HEARD(&h[0], BS_DONE);
  DONE(bs_table_commit(table, old, NULL));
  return young;
}

static bool same_deadlock(const bs_deadlock *one, const bs_deadlock *other) {
  size_t i;
  if (!same_txn(one->victim, other->victim) || one->count != other->count) return false;
  for (i = 0; i < one->count; i++) {
    if (!same_txn(one->at[i].txn, other->at[i].txn) || !same_node(one->at[i].node, other->at[i].node)) return false;
    if (one->at[i].mode != other->at[i].mode || !same_slots(one->at[i].waits_for, other->at[i].waits_for)) return false;
  }
  return true;
}

static bs_deadlock last_deadlock(void) {
  bs_deadlock last;
  DONE(bs_last_deadlock(bs_table_hold(table), &last));
  DONE(bs_table_let_go(table));
  return last;
}

/* Each deadlock is told with its cycle, in order, whoever is the victim; none from before. */
static void deadlocks_are_told(void) {
  bs_deadlock last;
  bs_txn victim;
  size_t i;
  set_up_telling(BS_AT_BLOCK, UINT64_MAX);
  DONE(bs_table_on_long_wait(table, 0, NULL, NULL));
  a_deadlock(true);
  DONE(bs_table_on_long_wait(table, UINT64_MAX, hear_long, &long_word));
  for (i = 0; i < 6; i++) {
    victim = a_deadlock(i % 2 == 0);
    last = last_deadlock();
    WANT(same_txn(last.victim, victim) && last.count == 2);
    WANT(!event_at(i)->is_wait && same_deadlock(&event_at(i)->deadlock, &last));
  }
  await_rest();
  WANT(told_by_now() == 6 && table->running.told_deadlocks == 6 && table->running.lost_deadlocks == 0);
  shut_table();
}

/* The thread that watches ends a deadlock of sleepers, and the other tells it; a settle by name does too. */
static void watched_deadlocks_are_told(void) {
  struct sleeper one, other;
  bs_node a, b;
  bs_txn old, young;
  int round;
  set_up_telling(BS_BY_WATCHER, UINT64_MAX);
  for (round = 0; round < 2; round++) {
    a = add_root(), b = add_root();
    old = begin(), young = begin();
    if (round == 1) DONE(bs_table_watch_thread(table, 0));
    DONE(bs_table_lock(table, old, a, BS_X, NULL));
    DONE(bs_table_lock(table, young, b, BS_X, NULL));
    send(&one, BY_LOCK, old, b, BS_X);
    set_out(&other, BY_LOCK, young, a, BS_X);
    if (round == 0) {
      await_wait(young);
      DONE(bs_table_settle(table, old, NULL));
    }
    BACK(&other, BS_VICTIM);
    DONE(bs_table_abort(table, young, NULL));
    BACK(&one, BS_DONE);
    WANT(!event_at((size_t)round)->is_wait && same_txn(event_at((size_t)round)->deadlock.victim, young));
    WANT(event_at((size_t)round)->deadlock.count == 2);
  }
  shut_table();
}

/* A victim that waits, and whose wait a list has left that nobody awaits. */
static void a_victim_that_nobody_awaits_is_told(void) {
  struct heard h;
  bs_command command;
  bs_txn old, young;
  set_up_telling(BS_AT_BLOCK, UINT64_MAX);
  old = begin_writer(), young = begin_writer();
  DONE(bs_table_lock(table, old, low, BS_X, NULL));
  DONE(bs_table_lock(table, young, high, BS_X, NULL));
  command = bs_do_at(BS_DO_LOCK, young, low, BS_X);
  leave_waiting(&command);
  WAITS(ask(&h, old, high, BS_X));
  WANT(same_txn(event_at(0)->deadlock.victim, young));
  await_rest();
  WANT(told_by_now() == 1);
  DONE(bs_table_abort(table, young, NULL));
  HEARD(&h, BS_DONE);
  shut_table();
}

/* A list that condemns tells it once, by a lock, by a path and by a row. */
static void listed_deadlocks_are_told_once(void) {
  size_t i;
  for (i = 0; i < 4; i++) {
    struct heard h;
    bs_command command;
    bs_txn old, young;
    uint64_t key = LOW_KEY;
    set_up_telling(BS_AT_BLOCK, UINT64_MAX);
    old = begin_writer(), young = begin_writer();
    DONE(bs_table_lock(table, young, high, BS_X, NULL));
    DONE(i == 2 ? lock_row(old, LOW_KEY, BS_X, NULL) : bs_table_lock(table, old, low, BS_X, NULL));
    WAITS(ask(&h, old, high, BS_X));
    command = bs_do_at(i == 1 ? BS_DO_LOCK_PATH : BS_DO_LOCK, young, low, i == 3 ? BS_X | BS_INSTANT : BS_X);
    if (i == 2) {
      command = bs_do(BS_DO_LOCK_ROW, young);
      command.file = rows, command.number = ROW, command.keys = &key, command.key_count = 1, command.mode = BS_X;
    }
    WANT(bs_table_run(table, &command, 1) == 0);
    ANSWERS(BS_VICTIM, command.reply);
    WANT(same_txn(event_at(0)->deadlock.victim, young));
    await_rest();
    WANT(told_by_now() == 1);
    DONE(bs_table_abort(table, young, NULL));
    HEARD(&h, BS_DONE);
    shut_table();
  }
}

/* One lock that closes two cycles condemns two: the last of them is told. */
static void two_victims_of_one_lock(void) {
  struct heard h[3];
  bs_node a, b;
  bs_txn old, one, other;
  set_up_telling(BS_AT_BLOCK, UINT64_MAX);
  a = add_root(), b = add_root();
  old = begin(), one = begin(), other = begin();
  DONE(bs_table_lock(table, old, a, BS_X, NULL));
  DONE(bs_table_lock(table, one, b, BS_S, NULL));
  DONE(bs_table_lock(table, other, b, BS_S, NULL));
  WAITS(ask(&h[0], one, a, BS_S));
  WAITS(ask(&h[1], other, a, BS_S));
  WAITS(ask(&h[2], old, b, BS_X));
  HEARD(&h[0], BS_VICTIM);
  HEARD(&h[1], BS_VICTIM);
  WANT(same_txn(event_at(0)->deadlock.victim, last_deadlock().victim));
  await_rest();
  WANT(told_by_now() == 1 && count_from(&waits_by_now().ended[BS_END_VICTIM], 0) == 2);
  shut_table();
}

/* One lock condemns another transaction, and then its own: that is told once, with its own. */
static void a_victim_beside_its_requester(void) {
  struct heard h[2];
  bs_node a, b;
  bs_txn old, requester, young;
  set_up_telling(BS_AT_BLOCK, UINT64_MAX);
  a = add_root(), b = add_root();
  old = begin(), requester = begin(), young = begin();
  DONE(bs_table_lock(table, requester, a, BS_X, NULL));
  DONE(bs_table_lock(table, old, b, BS_S, NULL));
  DONE(bs_table_lock(table, young, b, BS_S, NULL));
  WAITS(ask(&h[0], old, a, BS_S));
  WAITS(ask(&h[1], young, a, BS_S));
  ANSWERS(BS_VICTIM, bs_table_lock(table, requester, b, BS_X, NULL));
  HEARD(&h[1], BS_VICTIM);
  WANT(same_txn(event_at(0)->deadlock.victim, requester));
  await_rest();
  WANT(told_by_now() == 1);
  shut_table();
}

/* While the function is slow, deadlocks await it up to a number; others are lost and counted. No lock waits for it. */
static void a_slow_function_loses_some(void) {
  static bs_deadlock deadlocks[RUNNING_DEADLOCKS];
  struct pair p;
  size_t i;
  set_up_telling(BS_AT_BLOCK, 1);
  let_return(0);
  say_time(BEGINNING);
  make_pair(&p);
  pass_time(MILLISECOND);
  event_at(0);
  for (i = 0; i < RUNNING_DEADLOCKS; i++) a_deadlock(i % 3 == 0), deadlocks[i] = last_deadlock();
  for (i = 0; i < 3; i++) a_deadlock(false);
  WANT(table->running.lost_deadlocks == 3 && told_by_now() == 1);
  DONE(bs_table_commit(table, p.holder, NULL));
  HEARD(&p.h, BS_DONE);
  let_return(MOST_TOLD);
  for (i = 0; i < RUNNING_DEADLOCKS; i++) WANT(same_deadlock(&event_at(1 + i)->deadlock, &deadlocks[i]));
  await_rest();
  WANT(told_by_now() == 1 + RUNNING_DEADLOCKS);
  a_deadlock(true);
  WANT(!event_at(1 + RUNNING_DEADLOCKS)->is_wait);
  shut_table();
}

enum { RING = BS_SLOTS - 28 };

/* A deadlock of many: each holds a node, and waits for the next one's. */
static void a_ring(void) {
  static struct heard h[RING];
  bs_node of[RING];
  bs_txn txns[RING];
  size_t i;
  for (i = 0; i < RING; i++) {
    of[i] = add_root(), txns[i] = begin();
    DONE(bs_table_lock(table, txns[i], of[i], BS_X, NULL));
  }
  for (i = 0; i + 1 < RING; i++) WAITS(ask(&h[i], txns[i], of[i + 1], BS_X));
  ANSWERS(BS_VICTIM, ask(&h[i], txns[i], of[0], BS_X));
  for (i = RING; i-- > 0;) DONE(bs_table_abort(table, txns[i], NULL));
}

/* Deadlocks await the function as long as there is room for their transactions: the third of almost all slots is lost,
 * and a small one after it is not. */
static void long_cycles_need_room(void) {
  struct pair p;
  bs_deadlock last;
  int i;
  set_up_telling(BS_AT_BLOCK, 1);
  let_return(0);
  say_time(BEGINNING);
  make_pair(&p);
  pass_time(MILLISECOND);
  event_at(0);
  for (i = 0; i < RUNNING_STUCK / RING + 1; i++) a_ring();
  WANT(table->running.lost_deadlocks == 1);
  a_deadlock(true);
  last = last_deadlock();
  WANT(table->running.lost_deadlocks == 1);
  let_return(MOST_TOLD);
  for (i = 0; i < RUNNING_STUCK / RING; i++) WANT(event_at(1 + (size_t)i)->deadlock.count == RING);
  WANT(same_deadlock(&event_at(1 + (size_t)i)->deadlock, &last));
  await_rest();
  shut_table();
}

/* What the function does in a story. */
static bs_table *other_table;
static struct heard in_function;
static bs_reply replies[12];

/* What may not be called there is refused, and what could sleep. */
static void calls_what_it_may_not(const bs_long_wait *wait, const bs_deadlock *deadlock) {
  uint64_t key = LOW_KEY;
  bs_txn txn = DONE(bs_table_begin(table)).txn;
  (void)deadlock;
  ANSWERS(BS_IN_USE, bs_table_end(table));
  ANSWERS(BS_IN_USE, bs_table_lock(table, txn, root, BS_X, NULL));
  ANSWERS(BS_IN_USE, bs_table_lock_path(table, txn, root, BS_X, NULL));
  ANSWERS(BS_IN_USE, bs_table_lock_row(table, txn, rows, ROW, &key, 1, BS_X, NULL));
  ANSWERS(BS_IN_USE, bs_table_await(table, txn, root, BS_X, NULL));
  ANSWERS(BS_IN_USE, bs_table_begin_in_turn(table, NULL));
  ANSWERS(BS_IN_USE, bs_table_on_long_wait(other_table, 1, hear_long, &long_word));
  WAITS(ask(&in_function, txn, wait->node, BS_S));
  DONE(bs_table_cancel(table, txn, NULL));
  WANT(calls_of(&in_function) == 0); /* It is told after the function. */
  DONE(bs_table_abort(table, txn, NULL));
  WANT(bs_table_hold(table) != NULL); /* It is given back after the function. */
  ANSWERS(BS_IN_USE, bs_table_on_long_wait(table, 1, hear_long, &long_word));
}

static void a_function_calls_what_it_may_not(void) {
  struct pair p;
  set_up_telling(BS_AT_BLOCK, 10);
  DONE(make_table(&other_table, BS_AT_BLOCK, BS_YOUNGEST, 2));
  does = calls_what_it_may_not;
  say_time(BEGINNING);
  make_pair(&p);
  pass_time(10 * MILLISECOND);
  event_at(0);
  HEARD(&in_function, BS_NOT_WAITING);
  WANT(pthread_equal(in_function.by, events[0].by));
  DONE(bs_table_commit(table, p.holder, NULL));
  HEARD(&p.h, BS_DONE);
  await_rest();
  shut_table();
  DONE(bs_table_end(other_table));
  DONE(bs_table_free(&other_table));
}

/* The function ends the wait of which it is told: by a cancel, or by an abort. */
static void cancels_or_aborts(const bs_long_wait *wait, const bs_deadlock *deadlock) {
  (void)deadlock;
  DONE(told_by_now() == 1 ? bs_table_cancel(table, wait->txn, NULL) : bs_table_abort(table, wait->txn, NULL));
}

static void a_function_ends_the_wait(void) {
  struct pair p;
  struct sleeper s;
  set_up_telling(BS_AT_BLOCK, 10);
  does = cancels_or_aborts;
  say_time(BEGINNING);
  make_pair(&p);
  pass_time(10 * MILLISECOND);
  HEARD(&p.h, BS_NOT_WAITING);
  WANT(pthread_equal(p.h.by, event_at(0)->by));
  send(&s, BY_LOCK, begin(), p.node, BS_X);
  pass_time(10 * MILLISECOND);
  BACK(&s, BS_NO_SUCH_TXN);
  WANT(count_from(&waits_by_now().ended[BS_END_CANCELLED], 0) == 2);
  shut_table();
}

/* The function puts another in its own place, or none. */
static void takes_itself_back(const bs_long_wait *wait, const bs_deadlock *deadlock) {
  (void)wait, (void)deadlock;
  if (told_by_now() == 1) DONE(bs_table_on_long_wait(table, 20, hear_long, &long_word));
  else DONE(bs_table_on_long_wait(table, 0, NULL, NULL));
}

static void a_function_takes_itself_back(void) {
  struct pair p[3];
  set_up_telling(BS_AT_BLOCK, 10);
  does = takes_itself_back;
  say_time(BEGINNING);
  make_pair(&p[0]);
  pass_time(10 * MILLISECOND);
  event_at(0);
  make_pair(&p[1]);
  pass_time(20 * MILLISECOND);
  event_at(1);
  make_pair(&p[2]);
  pass_time(60000 * (uint64_t)MILLISECOND);
  a_deadlock(true);
  await_rest();
  WANT(told_by_now() == 2 && table->running.lost_deadlocks == 0);
  shut_table();
}

/* A thread that makes a call of the table which awaits the function. */
struct awaiter {
  bool ends;  /* it ends the table */
  bool gives; /* or gives the function again, and else takes it back */
  bool is_back;
  bs_reply reply;
  pthread_t thread;
};

static void *await_function(void *arg) {
  struct awaiter *a = (struct awaiter *)arg;
  pthread_cancel(pthread_self());
  if (a->ends) a->reply = bs_table_end(table);
  else a->reply = bs_table_on_long_wait(table, 10, a->gives ? hear_long : NULL, &long_word);
  pthread_mutex_lock(&told_latch);
  a->is_back = true;
  WANT(inside == 0 || a->gives);
  pthread_mutex_unlock(&told_latch);
  pthread_testcancel();
  return NULL;
}

static bool is_back(const struct awaiter *a) {
  bool is;
  pthread_mutex_lock(&told_latch);
  is = a->is_back;
  pthread_mutex_unlock(&told_latch);
  return is;
}

/* A call that takes the function back, and one that ends the table, await the function that is being called; a cancel
 * of their thread takes effect after them. */
static void a_function_is_awaited(void) {
  int ends;
  for (ends = 1; ends >= 0; ends--) {
    struct awaiter a;
    struct pair p, q;
    void *came = NULL;
    int i;
    memset(&a, 0, sizeof a);
    a.ends = ends == 1;
    set_up_telling(BS_AT_BLOCK, 10);
    let_return(0);
    say_time(BEGINNING);
    make_pair(&p);
    pass_time(10 * MILLISECOND);
    event_at(0);
    start(&a.thread, await_function, &a);
    for (i = 0; i < 40; i++) nap();
    WANT(!is_back(&a) && inside_now() == 1);
    let_return(MOST_TOLD);
    WANT(pthread_join(a.thread, &came) == 0 && came == PTHREAD_CANCELED);
    DONE(a.reply);
    WANT(inside_now() == 0 && told_by_now() == 1);
    if (ends == 0) {
      make_pair(&q);
      pass_time(60000 * (uint64_t)MILLISECOND);
      await_rest();
      WANT(told_by_now() == 1);
      shut_table();
    } else {
      say_time(0);
      DONE(bs_table_free(&table));
    }
  }
}

static bool awaits_function(void) {
  bool awaits;
  pthread_mutex_lock(&table->latch);
  awaits = awaiting > 0;
  pthread_mutex_unlock(&table->latch);
  return awaits;
}

/* A function takes the place of one that is being called, and the caller awaits that call alone, and not the next,
 * which does not return. */
static void the_next_function_is_not_awaited(void) {
  struct awaiter a;
  struct pair p, q;
  void *came = NULL;
  memset(&a, 0, sizeof a);
  a.gives = true;
  set_up_telling(BS_AT_BLOCK, 10);
  let_return(0);
  say_time(BEGINNING);
  make_pair(&p);
  pass_time(10 * MILLISECOND);
  event_at(0);
  make_pair(&q);
  pass_time(10 * MILLISECOND);
  start(&a.thread, await_function, &a);
  while (!awaits_function()) nap();
  let_return(1);
  WANT(pthread_join(a.thread, &came) == 0 && came == PTHREAD_CANCELED);
  DONE(a.reply);
  WANT(same_txn(event_at(1)->wait.txn, q.waiter) && inside_now() == 1);
  let_return(MOST_TOLD);
  shut_table();
}

/* The function is called while one thread takes it back and another ends the table: both await it. */
static void an_end_and_a_call_await_it(void) {
  struct awaiter taker, ender;
  struct pair p;
  void *came = NULL;
  memset(&taker, 0, sizeof taker);
  memset(&ender, 0, sizeof ender);
  ender.ends = true;
  set_up_telling(BS_AT_BLOCK, 10);
  let_return(0);
  say_time(BEGINNING);
  make_pair(&p);
  pass_time(10 * MILLISECOND);
  event_at(0);
  start(&taker.thread, await_function, &taker);
  while (!awaits_function()) nap();
  start(&ender.thread, await_function, &ender);
  HEARD(&p.h, BS_NO_MANAGER); /* The end has begun. */
  WANT(!is_back(&taker) && !is_back(&ender) && inside_now() == 1);
  let_return(MOST_TOLD);
  WANT(pthread_join(taker.thread, &came) == 0 && came == PTHREAD_CANCELED);
  WANT(pthread_join(ender.thread, &came) == 0 && came == PTHREAD_CANCELED);
  DONE(taker.reply);
  DONE(ender.reply);
  DONE(bs_table_free(&table));
  say_time(0);
}

/* A table is ended while waits and deadlocks are to be told: what is not being told is not told any more. */
static void an_end_tells_no_more(void) {
  struct pair p;
  set_up_telling(BS_AT_BLOCK, 1);
  say_time(BEGINNING);
  make_pair(&p);
  pass_time(UINT64_C(500000));
  await_looks();
  DONE(bs_table_end(table));
  pass_time(UINT64_C(500000));
  HEARD(&p.h, BS_NO_MANAGER);
  WANT(told_by_now() == 0);
  ANSWERS(BS_NO_MANAGER, bs_table_on_long_wait(table, 1, hear_long, &long_word));
  DONE(bs_table_free(&table));
  say_time(0);
}

/* ------------------------------------------------------------------------------------------------
 * Refusals.
 */

static bool write_nowhere(void *context, const char *text, size_t length) {
  (void)context, (void)text, (void)length;
  return true;
}

static void in_callback(struct heard *h) {
  (void)h;
  replies[0] = bs_table_on_long_wait(table, 1, hear_long, &long_word);
}

/* All calls of a table that is refused so; they write nothing. */
static void all_refused(bs_table *of, bs_status status) {
  static bs_waits waits, same_waits;
  static bs_awaited awaited, same_awaited;
  bs_txn none = { 0, 1 };
  memset(&waits, 99, sizeof waits);
  memset(&awaited, 99, sizeof awaited);
  same_waits = waits, same_awaited = awaited;
  ANSWERS(status, bs_table_waits(of, &waits));
  ANSWERS(status, bs_table_waited(of, none));
  ANSWERS(status, bs_table_awaited(of, &awaited, true));
  WANT(memcmp(&waits, &same_waits, sizeof waits) == 0 && memcmp(&awaited, &same_awaited, sizeof awaited) == 0);
  ANSWERS(status, bs_table_on_long_wait(of, 1, hear_long, &long_word));
  ANSWERS(status, bs_table_on_long_wait(of, 0, NULL, NULL));
  ANSWERS(status, bs_table_metrics(of, write_nowhere, NULL));
}

static void misuse_is_refused(void) {
  bs_table *other = NULL;
  struct heard h;
  bs_txn holder;
  all_refused(NULL, BS_NULL_POINTER);
  set_up(BS_AT_BLOCK);
  DONE(make_table(&other, BS_AT_BLOCK, BS_YOUNGEST, 2));
  ANSWERS(BS_NULL_POINTER, bs_table_waits(table, NULL));
  ANSWERS(BS_NULL_POINTER, bs_table_awaited(table, NULL, true));
  ANSWERS(BS_NULL_POINTER, bs_table_metrics(table, NULL, NULL));
  ANSWERS(BS_BAD_NUMBER, bs_table_on_long_wait(table, 0, hear_long, &long_word));
  DONE(bs_table_on_long_wait(table, 0, NULL, NULL));
  DONE(bs_table_on_long_wait(table, 1, NULL, NULL));
  WANT(table->running.teller == NULL);
  WANT(bs_table_hold(table) != NULL);
  all_refused(table, BS_IN_USE);
  ANSWERS(BS_IN_USE, bs_table_on_long_wait(other, 1, hear_long, &long_word));
  DONE(bs_table_metrics(other, write_nowhere, NULL));
  DONE(bs_table_let_go(table));
  holder = begin();
  DONE(bs_table_lock(table, holder, root, BS_X, NULL));
  WAITS(ask(&h, begin(), root, BS_X));
  h.does = in_callback;
  DONE(bs_table_commit(table, holder, NULL));
  ANSWERS(BS_IN_USE, replies[0]);
  DONE(bs_table_end(table));
  all_refused(table, BS_NO_MANAGER);
  DONE(bs_table_free(&table));
  DONE(bs_table_end(other));
  DONE(bs_table_free(&other));
}

/* Neither the questions nor the metrics take memory, and nothing is reset by a call that is refused. */
static void questions_take_no_memory(void) {
  struct pair p;
  bs_waits waits;
  bs_awaited awaited;
  say_time(BEGINNING);
  set_up(BS_AT_BLOCK);
  make_pair(&p);
  pass_time(500);
  WANT(bs_table_hold(table) != NULL);
  ANSWERS(BS_IN_USE, bs_table_awaited(table, &awaited, true));
  DONE(bs_table_let_go(table));
  refused_allocation = 1;
  DONE(bs_table_waits(table, &waits));
  DONE(bs_table_waited(table, p.waiter));
  DONE(bs_table_awaited(table, &awaited, false));
  DONE(bs_table_metrics(table, write_nowhere, NULL));
  WANT(refused_allocation == 1 && awaited.since == 500 && awaited.count == 1);
  refused_allocation = 0;
  shut_table();
}

/* Without memory or a thread nothing has changed, and the call can be made again. */
static void a_teller_that_cannot_be_had(void) {
  struct pair p;
  set_up(BS_AT_BLOCK);
  event_count = 0;
  does = NULL;
  returning = MOST_TOLD;
  refused_allocation = 1;
  ANSWERS(BS_NO_MEMORY, bs_table_on_long_wait(table, 10, hear_long, &long_word));
  refused_allocation = 0;
  refused_threads = 1;
  ANSWERS(BS_NO_MEMORY, bs_table_on_long_wait(table, 10, hear_long, &long_word));
  WANT(table->running.teller == NULL);
  DONE(bs_table_on_long_wait(table, 10, hear_long, &long_word));
  say_time(BEGINNING);
  make_pair(&p);
  pass_time(10 * MILLISECOND);
  WANT(event_at(0)->is_wait);
  shut_table();
}

/* ------------------------------------------------------------------------------------------------
 * Metrics.
 */

struct text {
  char at[40000];
  size_t length;
  size_t parts, most; /* how many parts were taken, and how many are to be */
};

static bool take_text(void *context, const char *text, size_t length) {
  struct text *to = (struct text *)context;
  const bs_manager *lent = bs_table_hold(table);
  WANT(lent != NULL); /* The latch is free. */
  DONE(bs_table_let_go(table));
  WANT(to->parts <= to->most && length > 0);
  if (to->parts++ == to->most) return false;
  WANT(to->length + length < sizeof to->at);
  memcpy(to->at + to->length, text, length);
  to->length += length;
  to->at[to->length] = 0;
  return true;
}

static struct text metrics_by_now(void) {
  struct text text = { { 0 }, 0, 0, 1000 };
  DONE(bs_table_metrics(table, take_text, &text));
  return text;
}

/* The text has this line. */
static bool has_line(const struct text *text, const char *line) {
  const char *at = strstr(text->at, line);
  return at != NULL && (at == text->at || at[-1] == '\n') && at[strlen(line)] == '\n';
}

/* Some waits of each length and end, a deadlock, and one that waits. */
static void make_history(struct pair *p) {
  bs_txn holder, waiter;
  struct heard h;
  say_time(BEGINNING);
  set_up(BS_AT_BLOCK);
  a_wait_lasts(3 * MILLISECOND, 12);
  a_wait_lasts(UINT64_C(200000000000), 28);
  event_count = 0;
  does = NULL;
  returning = MOST_TOLD;
  DONE(bs_table_on_long_wait(table, 1000, hear_long, &long_word));
  holder = begin(), waiter = begin();
  DONE(bs_table_lock(table, holder, root, BS_X, NULL));
  WAITS(ask(&h, waiter, root, BS_X));
  pass_time(500);
  DONE(bs_table_cancel(table, waiter, NULL));
  DONE(bs_table_abort(table, waiter, NULL));
  DONE(bs_table_abort(table, holder, NULL));
  a_deadlock(false);
  make_pair(p);
  pass_time(1500 * MILLISECOND);
  event_at(1);
  await_rest();
}

/* The numbers are those of the table. */
static void metrics_say_what_is(void) {
  struct sleeper queued;
  struct pair p;
  bs_txn first;
  struct text text;
  bs_options options = options_of(BS_AT_BLOCK, BS_YOUNGEST, 2);
  make_history(&p);
  text = metrics_by_now();
  WANT(has_line(&text, "burlapslate_waiting 1") && has_line(&text, "burlapslate_transactions 2"));
  WANT(has_line(&text, "burlapslate_longest_wait_seconds 1.500000000"));
  WANT(has_line(&text, "burlapslate_locks_waited_total 6") && has_line(&text, "burlapslate_victims_total 1"));
  WANT(has_line(&text, "burlapslate_long_waits_told_total 1"));
  WANT(has_line(&text, "burlapslate_deadlocks_told_total 1") && has_line(&text, "burlapslate_deadlocks_lost_total 0"));
  WANT(has_line(&text, "burlapslate_wait_seconds_bucket{end=\"granted\",le=\"0.002048\"} 1"));
  WANT(has_line(&text, "burlapslate_wait_seconds_bucket{end=\"granted\",le=\"0.004096\"} 2"));
  WANT(has_line(&text, "burlapslate_wait_seconds_bucket{end=\"granted\",le=\"134.217728\"} 2"));
  WANT(has_line(&text, "burlapslate_wait_seconds_bucket{end=\"granted\",le=\"+Inf\"} 3"));
  WANT(has_line(&text, "burlapslate_wait_seconds_count{end=\"granted\"} 3"));
  WANT(has_line(&text, "burlapslate_wait_seconds_sum{end=\"granted\"} 200.003000000"));
  WANT(has_line(&text, "burlapslate_wait_seconds_bucket{end=\"cancelled\",le=\"0.000001\"} 1"));
  WANT(has_line(&text, "burlapslate_wait_seconds_sum{end=\"cancelled\"} 0.000000500"));
  WANT(has_line(&text, "burlapslate_wait_seconds_count{end=\"victim\"} 1"));
  WANT(has_line(&text, "burlapslate_wait_seconds_count{end=\"moved\"} 0"));
  WANT(strcmp(text.at + text.length - 6, "# EOF\n") == 0);
  shut_table();
  DONE(bs_table_make(&table, &options));
  first = DONE(bs_table_begin(table)).txn;
  DONE(bs_table_begin(table));
  queued = sleeper_of(BY_BEGIN, p.holder, root, BS_X);
  start(&queued.thread, fall_asleep, &queued);
  await_sleepers(1);
  text = metrics_by_now();
  WANT(has_line(&text, "burlapslate_begins_waiting 1") && has_line(&text, "burlapslate_transactions_limit 2"));
  WANT(has_line(&text, "burlapslate_waiting 0")); /* A begin is no wait. */
  DONE(bs_table_commit(table, first, NULL));
  BACK(&queued, BS_DONE);
  text = metrics_by_now();
  WANT(has_line(&text, "burlapslate_begins_waiting 0"));
  queued = sleeper_of(BY_BEGIN, p.holder, root, BS_X);
  start(&queued.thread, fall_asleep, &queued);
  await_sleepers(1);
  DONE(bs_table_end(table));
  BACK(&queued, BS_NO_MANAGER);
  DONE(bs_table_free(&table));
}

/* A function that fails at any part is called no more, and the call says so; the next call writes all again. */
static void a_writer_fails_half_way(void) {
  struct text whole, text;
  struct pair p;
  size_t most;
  make_history(&p);
  whole = metrics_by_now();
  WANT(whole.parts > 3);
  for (most = 0; most < whole.parts; most++) {
    memset(&text, 0, sizeof text);
    text.most = most;
    ANSWERS(BS_NOT_WRITTEN, bs_table_metrics(table, take_text, &text));
    WANT(text.parts == most + 1 && memcmp(text.at, whole.at, text.length) == 0);
    WANT(strstr(text.at, "# EOF") == NULL);
  }
  text = metrics_by_now();
  WANT(strcmp(text.at, whole.at) == 0);
  shut_table();
}

/* The writer ends the table, in the middle of a text: the rest is written from the copy. */
static bool ends_table(void *context, const char *text, size_t length) {
  struct text *to = (struct text *)context;
  (void)text;
  if (to->parts++ == 0) DONE(bs_table_end(table));
  to->length += length;
  return true;
}

static void a_writer_ends_the_table(void) {
  struct text text = { { 0 }, 0, 0, 1000 };
  set_up(BS_AT_BLOCK);
  DONE(bs_table_metrics(table, ends_table, &text));
  WANT(text.parts > 3);
  ANSWERS(BS_NO_MANAGER, bs_table_metrics(table, ends_table, &text));
  DONE(bs_table_free(&table));
}

/* A thread that is cancelled while it writes ends after the call. */
static bool is_cancelled(void *context, const char *text, size_t length) {
  pthread_testcancel();
  return take_text(context, text, length);
}

static void *write_to_the_end(void *arg) {
  struct text *text = (struct text *)arg;
  pthread_cancel(pthread_self());
  replies[1] = bs_table_metrics(table, is_cancelled, text);
  pthread_testcancel();
  return NULL;
}

static void a_writer_is_cancelled(void) {
  static struct text text;
  pthread_t thread;
  void *came = NULL;
  set_up(BS_AT_BLOCK);
  text.most = 1000;
  replies[1].status = BS_NOT_MADE;
  start(&thread, write_to_the_end, &text);
  WANT(pthread_join(thread, &came) == 0 && came == PTHREAD_CANCELED);
  DONE(replies[1]);
  WANT(strcmp(text.at + text.length - 6, "# EOF\n") == 0);
  shut_table();
}

/* ------------------------------------------------------------------------------------------------
 * A crowd.
 */

enum { CROWD = 8, CROWD_ROUNDS = 100, CROWD_NODES = 3 };
static bs_node crowd_nodes[CROWD_NODES];

/* Locks two of few nodes, with a time, and ends. */
static void *jostle(void *arg) {
  uint64_t dice = 88172645463325252u + (uint64_t)(size_t)arg * 977;
  int round;
  for (round = 0; round < CROWD_ROUNDS; round++) {
    bs_txn txn = begin();
    int i;
    for (i = 0; i < 2; i++) {
      struct timespec until = moment_in(2000);
      bs_mode mode = roll(&dice, 2) == 0 ? BS_S : BS_X;
      bs_status status = bs_table_lock(table, txn, crowd_nodes[roll(&dice, CROWD_NODES)], mode, &until).status;
      if (status == BS_DONE && i == 0) nap(); /* Others wait meanwhile. */
    }
    bs_table_abort(table, txn, NULL);
  }
  return NULL;
}

static void hear_any(void *context, const bs_long_wait *wait, const bs_deadlock *deadlock) {
  WANT(context == &long_word && (wait == NULL) != (deadlock == NULL));
  if (wait != NULL && wait->nanoseconds % 2 == 0) bs_table_cancel(table, wait->txn, NULL);
}

/* Threads that wait, time out and are condemned, while others ask, tell and give other functions: in the end each wait
 * is counted once. */
static void a_crowd_is_counted(void) {
  pthread_t threads[CROWD];
  bs_waits waits;
  bs_awaited awaited;
  size_t i;
  set_up(BS_AT_BLOCK);
  for (i = 0; i < CROWD_NODES; i++) crowd_nodes[i] = add_root();
  DONE(bs_table_on_long_wait(table, 1, hear_any, &long_word));
  for (i = 0; i < CROWD; i++) start(&threads[i], jostle, (void *)i);
  for (i = 0; i < 50; i++) {
    struct text text = { { 0 }, 0, 0, 1000 };
    DONE(bs_table_awaited(table, &awaited, i % 10 == 0));
    WANT(awaited.count <= CROWD_NODES);
    DONE(bs_table_metrics(table, take_text, &text));
    if (i % 5 == 0) DONE(bs_table_on_long_wait(table, i % 2, i % 2 == 0 ? NULL : hear_any, &long_word));
    nap();
  }
  for (i = 0; i < CROWD; i++) join(threads[i]);
  waits = waits_by_now();
  WANT(waits.waiting == 0);
  WANT(count_ended(&waits) > 0);
  shut_table();
}

/* ------------------------------------------------------------------------------------------------
 * The whole.
 */

static bool print_text(void *context, const char *text, size_t length) {
  return fwrite(text, 1, length, (FILE *)context) == length;
}

/* For a parser that is not ours. */
static int print_metrics(void) {
  struct pair p;
  make_history(&p);
  DONE(bs_table_metrics(table, print_text, stdout));
  shut_table();
  return 0;
}

int main(int count, char **words) {
  setvbuf(stdout, NULL, _IONBF, 0);
  if (count > 1 && strcmp(words[1], "metrics") == 0) return print_metrics();
  if (count > 1) patience = (unsigned)atoi(words[1]);
  TELL(lengths_have_their_buckets);
  TELL(a_sleep_of_three_milliseconds);
  TELL(each_wait_ends_in_each_way);
  TELL(times_are_over);
  TELL(a_victim_that_did_not_wait);
  TELL(one_call_waits_twice);
  TELL(no_wait_reads_no_clock);
  TELL(a_dump_is_by_age);
  TELL(a_dump_without_times);
  TELL(twenty_nodes_are_exact);
  TELL(many_nodes_have_a_bound);
  TELL(present_waits_count);
  TELL(a_function_is_awaited); /* first of those that end such a table */
  TELL(a_long_wait_is_told_once);
  TELL(a_short_wait_is_not_told);
  TELL(a_thread_wakes_by_time);
  TELL(times_and_functions_change);
  TELL(deadlocks_are_told);
  TELL(watched_deadlocks_are_told);
  TELL(a_victim_that_nobody_awaits_is_told);
  TELL(listed_deadlocks_are_told_once);
  TELL(two_victims_of_one_lock);
  TELL(a_victim_beside_its_requester);
  TELL(a_slow_function_loses_some);
  TELL(long_cycles_need_room);
  TELL(a_function_calls_what_it_may_not);
  TELL(a_function_ends_the_wait);
  TELL(a_function_takes_itself_back);
  TELL(the_next_function_is_not_awaited);
  TELL(an_end_and_a_call_await_it);
  TELL(an_end_tells_no_more);
  TELL(misuse_is_refused);
  TELL(questions_take_no_memory);
  TELL(a_teller_that_cannot_be_had);
  TELL(metrics_say_what_is);
  TELL(a_writer_fails_half_way);
  TELL(a_writer_ends_the_table);
  TELL(a_writer_is_cancelled);
  TELL(a_crowd_is_counted);
  return 0;
}
