/*
 * Stories of waits: of their times, their slots and places, the begin queue, ends that set off others, locks for an
 * instant, the thread that watches, and a table that ends. Each is a function that ends the program with status 1 at
 * the first answer that is not as wanted, and else prints its name.
 *
 *   waits [SECONDS]   the time that a story may take before it is said to hang, 20 if none is given
 *
 * It is linked with the calls for memory of memory.h.
 */
#include "burlapslate.h"
#include "memory.h"

#include <stdio.h>
#include <time.h>

/* What the table calls is noted here, and some of it is done as a story wants. */
static int noted_wait(pthread_cond_t *on, pthread_mutex_t *latch);
static int noted_timedwait(pthread_cond_t *on, pthread_mutex_t *latch, const struct timespec *until);
static int noted_gettime(clockid_t clock, struct timespec *time);
static int noted_create(pthread_t *thread, const pthread_attr_t *attributes, void *(*run)(void *), void *arg);

#include "burlapslate_shared.h"

#define pthread_cond_wait noted_wait
#define pthread_cond_timedwait noted_timedwait
#define clock_gettime noted_gettime
#define pthread_create noted_create

#include "burlapslate_shared.c"

#undef pthread_cond_wait
#undef pthread_cond_timedwait
#undef clock_gettime
#undef pthread_create

#include "waiters.h"

/* A thread that is held up has been woken, and gets the latch again only when the story lets it. */
static void hold_up(pthread_mutex_t *latch) {
  while (me != NULL && me->is_held_up) {
    pthread_mutex_unlock(latch);
    nap();
    pthread_mutex_lock(latch);
  }
}

/* How many threads sleep until a wait begins, as the thread that watches does if it has seen all waits; and the last
 * wait that it has seen. */
static size_t idle;
static uint64_t seen_by_idle;

static int noted_wait(pthread_cond_t *on, pthread_mutex_t *latch) {
  bool is_idle = table != NULL && on == &table->began;
  int status;
  if (me != NULL) me->sleeps++;
  if (is_idle) idle++, seen_by_idle = table->waited;
  status = pthread_cond_wait(on, latch);
  if (is_idle) idle--;
  hold_up(latch);
  return status;
}

static int noted_timedwait(pthread_cond_t *on, pthread_mutex_t *latch, const struct timespec *until) {
  int status;
  if (me != NULL) me->sleeps++, me->slept_to = *until;
  status = pthread_cond_timedwait(on, latch, until);
  hold_up(latch);
  return status;
}

/* The time of the clock, if a story says it. */
static const struct timespec *said_time;

static int noted_gettime(clockid_t clock, struct timespec *time) {
  if (said_time == NULL) return clock_gettime(clock, time);
  *time = *said_time;
  return 0;
}

/* This many threads are not started. */
static int refused_threads;

static int noted_create(pthread_t *thread, const pthread_attr_t *attributes, void *(*run)(void *), void *arg) {
  if (refused_threads == 0) return pthread_create(thread, attributes, run, arg);
  refused_threads--;
  return EAGAIN;
}

static void set_held_up(struct sleeper *s, bool is_held_up) {
  pthread_mutex_lock(&table->latch);
  s->is_held_up = is_held_up;
  pthread_mutex_unlock(&table->latch);
}

/* ------------------------------------------------------------------------------------------------
 * The time of a call, and the deadline of its transaction.
 */

/* A transaction that holds the record and the row in X. */
static bs_txn begin_holder(void) {
  bs_txn holder = begin_writer();
  DONE(bs_table_lock(table, holder, low, BS_X, NULL));
  DONE(lock_row(holder, LOW_KEY, BS_X, NULL));
  return holder;
}

/* The thread sleeps in a call of its own; a list leaves a lock waiting first if that is to be awaited. */
static bs_reply sleep_here(struct sleeper *own) {
  bs_reply reply;
  if (own->by == BY_AWAIT) {
    bs_command command = bs_do_at(BS_DO_LOCK, own->txn, own->node, own->mode);
    leave_waiting(&command);
  }
  me = own;
  reply = sleep_by(own);
  me = NULL;
  return reply;
}

/* The sleep ends at the earlier of two times, which is over, whichever of them is the call's. */
static void sleeps_to_the_earlier(enum sleep_call by, struct timespec earlier, struct timespec later) {
  struct sleeper own;
  bs_txn waiter;
  int round;
  set_up(BS_AT_BLOCK);
  begin_holder();
  waiter = begin_writer();
  for (round = 0; round < 2; round++) {
    own = sleeper_of(by, waiter, low, BS_X);
    own.until = round == 0 ? &earlier : &later;
    DONE(bs_table_deadline(table, waiter, round == 0 ? &later : &earlier));
    ANSWERS(BS_TIMED_OUT, sleep_here(&own));
    WANT(own.sleeps == 1 && same_time(own.slept_to, earlier));
    WANT(wait_in(table, waiter).status == BS_NOT_WAITING);
  }
  close_table();
}

/* The calls that wait for a lock. */
static const enum sleep_call lock_calls[] = { BY_LOCK, BY_PATH, BY_ROW, BY_AWAIT };

enum { LOCK_CALLS = sizeof lock_calls / sizeof *lock_calls };

static void a_sleep_ends_at_the_earlier_time(void) {
  size_t i;
  for (i = 0; i < LOCK_CALLS; i++) sleeps_to_the_earlier(lock_calls[i], moment_in(0), moment_in(60000000));
}

/* An ask of each kind by the holder's record or row. */
static bs_reply ask_by(struct heard *h, enum sleep_call by, bs_txn txn, const struct timespec *until) {
  bs_command command;
  switch (by) {
    case BY_LOCK: return ask_until(h, txn, low, BS_X, until);
    case BY_PATH: return ask_path_until(h, txn, low, BS_X, until);
    case BY_ROW: return ask_row_until(h, txn, LOW_KEY, BS_X, until);
    default:
      command = bs_do_at(BS_DO_LOCK, txn, low, BS_X);
      leave_waiting(&command);
      return ask_await_until(h, txn, low, BS_X, until);
  }
}

/* An ask waits to the earlier of two times, whichever of them is the call's. */
static void waits_to_the_earlier(enum sleep_call by, struct timespec earlier, struct timespec later) {
  struct timespec next;
  struct heard h;
  bs_txn waiter;
  int round;
  set_up(BS_AT_BLOCK);
  begin_holder();
  waiter = begin_writer();
  for (round = 0; round < 2; round++) {
    DONE(bs_table_deadline(table, waiter, round == 0 ? &later : &earlier));
    WAITS(ask_by(&h, by, waiter, round == 0 ? &earlier : &later));
    WANT(DONE(bs_table_expire(table, &next)).count == 1 && same_time(next, earlier));
    DONE(bs_table_cancel(table, waiter, NULL));
    HEARD_BY_NOW(&h, BS_NOT_WAITING);
  }
  close_table();
}

static void an_ask_waits_to_the_earlier_time(void) {
  struct timespec far = moment_in(60000000);
  size_t i;
  for (i = 0; i < LOCK_CALLS; i++) waits_to_the_earlier(lock_calls[i], far, moment_in(90000000));
}

/* A deadline that is set while the transaction sleeps, or while its ask waits, is of its later waits. */
static void a_deadline_set_meanwhile_is_of_later_waits(void) {
  struct timespec past = moment_in(0), far = moment_in(60000000), next;
  struct sleeper one;
  struct heard h;
  bs_txn holder, sleeper, requester;
  set_up(BS_AT_BLOCK);
  holder = begin_holder(), sleeper = begin_writer(), requester = begin_writer();
  DONE(bs_table_deadline(table, sleeper, &far));
  DONE(bs_table_deadline(table, requester, &far));
  send(&one, BY_LOCK, sleeper, low, BS_X);
  WAITS(ask_row(&h, requester, LOW_KEY, BS_X));
  DONE(bs_table_deadline(table, sleeper, &past));
  DONE(bs_table_deadline(table, requester, &past));
  WANT(DONE(bs_table_expire(table, &next)).count == 1 && same_time(next, far));
  pthread_mutex_lock(&table->latch);
  while (one.sleeps < 3) { /* It is woken, and nothing has ended its wait. */
    pthread_cond_broadcast(&table->ended[sleeper.slot]);
    pthread_mutex_unlock(&table->latch);
    nap();
    pthread_mutex_lock(&table->latch);
  }
  WANT(same_time(one.slept_to, far));
  pthread_mutex_unlock(&table->latch);
  DONE(bs_table_commit(table, holder, NULL));
  BACK(&one, BS_DONE);
  HEARD_BY_NOW(&h, BS_DONE);
  DONE(bs_table_lock(table, requester, high, BS_X, NULL));
  ANSWERS(BS_TIMED_OUT, bs_table_lock(table, sleeper, high, BS_X, NULL));
  close_table();
}

/* A path that waits twice keeps its time, be it the call's or the transaction's: its first wait is granted, though the
 * time is over by then, and its second ends at that time. It sleeps once. */
static void a_path_keeps_its_time_on_its_way(void) {
  struct timespec past = moment_in(0);
  struct sleeper one;
  bs_txn reader, waiter;
  int round;
  set_up(BS_AT_BLOCK);
  DONE(bs_table_lock_path(table, begin(), low, BS_S, NULL));
  for (round = 0; round < 2; round++) {
    reader = begin(), waiter = begin();
    DONE(bs_table_lock_path(table, reader, below, BS_S, NULL));
    if (round == 1) DONE(bs_table_deadline(table, waiter, &past));
    one = sleeper_of(BY_PATH, waiter, low, BS_X);
    one.until = round == 0 ? &past : NULL;
    one.is_held_up = true;
    start(&one.thread, fall_asleep, &one);
    await_wait(waiter);
    WANT(waits_for(waiter, below));
    DONE(bs_table_commit(table, reader, NULL));
    set_held_up(&one, false);
    BACK(&one, BS_TIMED_OUT);
    WANT(one.sleeps == 1 && same_time(one.slept_to, past));
    holds(waiter, below, BS_IX), holds(waiter, low, BS_NL);
    DONE(bs_table_commit(table, waiter, NULL));
  }
  close_table();
}

/* ------------------------------------------------------------------------------------------------
 * Times within one second.
 */

/* A time within a second: this many nanoseconds of a full second, which is this many seconds ahead. */
static struct timespec time_within(time_t seconds, long nanoseconds) {
  struct timespec time = moment_in(0);
  time.tv_sec += seconds;
  time.tv_nsec = nanoseconds;
  return time;
}

static void two_times_lie_within_a_second(void) {
  size_t i;
  for (i = 0; i < LOCK_CALLS; i++) {
    struct timespec past = time_within(-1, 1), far = time_within(60, 600), later;
    later = past, later.tv_nsec = 2;
    sleeps_to_the_earlier(lock_calls[i], past, later);
    later.tv_nsec = 999999999;
    sleeps_to_the_earlier(lock_calls[i], past, later);
    later = far, later.tv_nsec = 700;
    waits_to_the_earlier(lock_calls[i], far, later);
  }
}

/* The clock shows the middle of a second. The asks whose times it has reached end, and the next time is the earliest of
 * the others. */
static void asks_expire_within_a_second(void) {
  static const struct timespec now = { 1000, 500000000 };
  static const struct timespec times[] = { { 1000, 500000002 }, { 999, 999999999 }, { 1000, 500000000 },
                                           { 1000, 500000001 }, { 1001, 0 }, { 1000, 499999999 } };
  enum { ASKS = 6 };
  struct heard all[ASKS];
  struct timespec next;
  size_t i;
  set_up(BS_AT_BLOCK);
  DONE(bs_table_lock(table, begin(), root, BS_X, NULL));
  for (i = 0; i < ASKS; i++) WAITS(ask_until(&all[i], begin(), root, BS_S, &times[i]));
  said_time = &now;
  WANT(DONE(bs_table_expire(table, &next)).count == 3 && same_time(next, times[3]));
  said_time = NULL;
  for (i = 0; i < ASKS; i++) {
    bool is_over = i == 1 || i == 2 || i == 5;
    WANT(calls_of(&all[i]) == (is_over ? 1 : 0));
    if (is_over) HEARD_BY_NOW(&all[i], BS_TIMED_OUT);
  }
  close_table();
}

/* ------------------------------------------------------------------------------------------------
 * The path of a slot.
 */

/* A sleeper on a path whose transaction was aborted is held up, and the next transaction of its slot begins. */
static bs_txn begin_in_its_slot(struct sleeper *late) {
  bs_txn next, before = begin();
  send(late, BY_PATH, before, low, BS_X);
  set_held_up(late, true);
  DONE(bs_table_abort(table, before, NULL));
  next = begin();
  WANT(next.slot == before.slot && next.age != before.age);
  return next;
}

/* A transaction that reads the root, so that all others wait there to write below. */
static bs_txn begin_reader(void) {
  bs_txn reader = begin();
  DONE(bs_table_lock(table, reader, root, BS_S, NULL));
  return reader;
}

/* The next transaction of the slot sleeps on a path. Whenever the late sleeper returns, that path goes on. */
static void the_next_path_goes_on(bool is_late) {
  struct sleeper late, one;
  bs_command list[2];
  bs_txn reader, next;
  set_up(BS_AT_BLOCK);
  reader = begin_reader();
  next = begin_in_its_slot(&late);
  send(&one, BY_PATH, next, low, BS_X);
  if (!is_late) set_held_up(&late, false), BACK(&late, BS_NO_SUCH_TXN);
  list[0] = bs_do(BS_DO_COMMIT, reader), list[1] = bs_do(BS_DO_CANCEL, next);
  WANT(bs_table_run(table, list, 2) == 1 && list[1].reply.status == BS_NOT_WAITING);
  BACK(&one, BS_DONE);
  holds(next, root, BS_IX), holds(next, low, BS_X);
  if (is_late) set_held_up(&late, false), BACK(&late, BS_NO_SUCH_TXN);
  close_table();
}

static void a_late_sleeper_and_the_next_path(void) {
  the_next_path_goes_on(false);
  the_next_path_goes_on(true);
}

/* The next transaction of the slot was granted a lock, on no path: there is nothing to cancel. */
static void a_path_of_before_takes_no_cancel(void) {
  struct sleeper late;
  bs_command command;
  bs_txn reader, next;
  set_up(BS_AT_BLOCK);
  reader = begin_reader();
  next = begin_in_its_slot(&late);
  command = bs_do_at(BS_DO_LOCK, next, root, BS_IX);
  leave_waiting(&command);
  DONE(bs_table_commit(table, reader, NULL));
  ANSWERS(BS_NOT_WAITING, bs_table_cancel(table, next, NULL));
  set_held_up(&late, false);
  BACK(&late, BS_NO_SUCH_TXN);
  DONE(bs_table_await(table, next, root, BS_IX, NULL));
  close_table();
}

/* A path that has ended leaves nothing to cancel, whether it was granted, refused or too late. */
static void a_path_that_ended_takes_no_cancel(void) {
  struct timespec past = moment_in(0);
  struct sleeper one;
  bs_command command;
  bs_txn reader, waiter;
  set_up(BS_AT_BLOCK);
  reader = begin_reader(), waiter = begin();
  ANSWERS(BS_TIMED_OUT, bs_table_lock_path(table, waiter, low, BS_X, &past));
  command = bs_do_at(BS_DO_LOCK, waiter, root, BS_IX);
  leave_waiting(&command);
  DONE(bs_table_commit(table, reader, NULL));
  ANSWERS(BS_NOT_WAITING, bs_table_cancel(table, waiter, NULL));
  DONE(bs_table_commit(table, waiter, NULL));
  reader = begin_reader(), waiter = begin();
  send(&one, BY_PATH, waiter, low, BS_X);
  DONE(bs_table_commit(table, reader, NULL));
  BACK(&one, BS_DONE);
  ANSWERS(BS_NOT_WAITING, bs_table_cancel(table, waiter, NULL));
  close_table();
}

/* ------------------------------------------------------------------------------------------------
 * The begin queue.
 */

enum { IN_BEGIN_QUEUE = 4 };

/* A thread enters the begin queue, the last of this many. Its time may be over: then it is held up before it leaves. */
static void enter_begin_queue(struct sleeper *s, size_t count, const struct timespec *until) {
  *s = sleeper_of(BY_BEGIN, bs_begun(), root, BS_NL);
  s->until = until;
  s->is_held_up = until != NULL;
  start(&s->thread, fall_asleep, s);
  await_sleepers(count);
}

static void leave_begin_queue(struct sleeper *s) {
  set_held_up(s, false);
  BACK(s, BS_TIMED_OUT);
}

/* The sleeper begins in the slot that this transaction releases. */
static bs_txn begins_behind(struct sleeper *s, bs_txn holder) {
  bs_txn next;
  DONE(bs_table_commit(table, holder, NULL));
  next = BACK(s, BS_DONE).txn;
  WANT(next.age == holder.age + 1);
  return next;
}

/* Of four begins that sleep for a slot two leave, one after the other, and a fifth arrives at some moment of that. The
 * others begin in their order, and the fifth begins last. */
static void two_leave(size_t first, size_t second, int moment) {
  struct timespec past = moment_in(0);
  struct sleeper all[IN_BEGIN_QUEUE + 1];
  bs_txn holder;
  size_t i;
  DONE(make_table(&table, BS_AT_BLOCK, BS_YOUNGEST, 1));
  holder = begin();
  for (i = 0; i < IN_BEGIN_QUEUE; i++) enter_begin_queue(&all[i], i + 1, i == first || i == second ? &past : NULL);
  if (moment == 0) enter_begin_queue(&all[IN_BEGIN_QUEUE], IN_BEGIN_QUEUE + 1, NULL);
  leave_begin_queue(&all[first]);
  if (moment == 1) enter_begin_queue(&all[IN_BEGIN_QUEUE], IN_BEGIN_QUEUE, NULL);
  leave_begin_queue(&all[second]);
  if (moment == 2) enter_begin_queue(&all[IN_BEGIN_QUEUE], IN_BEGIN_QUEUE - 1, NULL);
  ANSWERS(BS_TOO_MANY_TXNS, bs_table_begin(table));
  for (i = 0; i <= IN_BEGIN_QUEUE; i++) {
    if (i != first && i != second) holder = begins_behind(&all[i], holder);
  }
  DONE(bs_table_commit(table, holder, NULL));
  DONE(bs_table_begin(table));
  close_table();
}

static void some_leave_the_begin_queue_while_one_comes(void) {
  size_t first, second;
  int moment;
  for (first = 0; first < IN_BEGIN_QUEUE; first++) {
    for (second = 0; second < IN_BEGIN_QUEUE; second++) {
      for (moment = 0; moment < 3 && second != first; moment++) two_leave(first, second, moment);
    }
  }
}

/* The last one leaves while another arrives, until the begin queue is empty; and then it is used again. */
static void a_begin_queue_ends_and_begins_anew(void) {
  struct timespec past = moment_in(0);
  struct sleeper one, two;
  bs_txn holder;
  DONE(make_table(&table, BS_AT_BLOCK, BS_YOUNGEST, 1));
  holder = begin();
  enter_begin_queue(&one, 1, &past);
  enter_begin_queue(&two, 2, &past);
  leave_begin_queue(&two);
  enter_begin_queue(&two, 2, &past);
  leave_begin_queue(&one);
  enter_begin_queue(&one, 2, &past);
  leave_begin_queue(&one);
  leave_begin_queue(&two);
  enter_begin_queue(&one, 1, NULL);
  enter_begin_queue(&two, 2, NULL);
  holder = begins_behind(&one, holder);
  begins_behind(&two, holder);
  close_table();
}

/* ------------------------------------------------------------------------------------------------
 * All slots.
 */

/* Some slots of each word. */
static const uint32_t some_slots[] = { 0, 1, 62, 63, 64, 65, 126, BS_SLOTS - 1 };

enum { SOME = 8 };

static bool is_some(uint32_t slot) {
  size_t i;
  for (i = 0; i < SOME; i++) {
    if (some_slots[i] == slot) return true;
  }
  return false;
}

/* A transaction in each slot, in the order of the slots. */
static void begin_all(bs_txn *all) {
  uint32_t slot;
  for (slot = 0; slot < BS_SLOTS; slot++) {
    all[slot] = begin();
    WANT(all[slot].slot == slot);
  }
}

/* A table that ends wakes the sleepers of each slot, in whatever call they sleep. */
static void an_end_wakes_the_sleepers_of_all_slots(void) {
  static struct sleeper some[SOME];
  bs_txn all[BS_SLOTS];
  size_t i;
  set_up(BS_AT_BLOCK);
  begin_all(all);
  DONE(bs_table_lock(table, all[2], root, BS_X, NULL));
  for (i = 0; i < SOME; i++) send(&some[i], i % 2 == 0 ? BY_LOCK : BY_PATH, all[some_slots[i]], root, BS_X);
  DONE(bs_table_end(table));
  for (i = 0; i < SOME; i++) BACK(&some[i], BS_NO_MANAGER);
  DONE(bs_table_free(&table));
}

/* The asks of all slots wait to a time, and those of some slots to one that is over. */
static void asks_of_all_slots_expire(void) {
  static struct heard h[BS_SLOTS];
  struct timespec past = moment_in(0), far = moment_in(60000000), soonest = far, next;
  bs_txn all[BS_SLOTS];
  uint32_t slot;
  set_up(BS_AT_BLOCK);
  begin_all(all);
  soonest.tv_sec--;
  DONE(bs_table_lock(table, all[2], root, BS_X, NULL));
  for (slot = 0; slot < BS_SLOTS; slot++) {
    const struct timespec *until = is_some(slot) ? &past : slot == BS_SLOTS - 3 ? &soonest : &far;
    if (slot != 2) WAITS(ask_until(&h[slot], all[slot], root, BS_S, until));
  }
  WANT(DONE(bs_table_expire(table, &next)).count == BS_SLOTS - 1 - SOME && same_time(next, soonest));
  WANT(calls == SOME);
  for (slot = 0; slot < SOME; slot++) HEARD_BY_NOW(&h[some_slots[slot]], BS_TIMED_OUT);
  DONE(bs_table_end(table));
  for (slot = 0; slot < BS_SLOTS; slot++) {
    if (slot != 2 && !is_some(slot)) HEARD_BY_NOW(&h[slot], BS_NO_MANAGER);
  }
  WANT(calls == BS_SLOTS - 1);
  DONE(bs_table_free(&table));
}

/* Asks of some slots from 64 on end, and those whose slots have the same place in the first word wait on, until they
 * are granted. */
static void an_ask_ends_beside_other_words(void) {
  static struct heard h[BS_SLOTS];
  bs_txn all[BS_SLOTS];
  uint32_t slot;
  set_up(BS_AT_BLOCK);
  begin_all(all);
  DONE(bs_table_lock(table, all[2], root, BS_X, NULL));
  for (slot = 0; slot < BS_SLOTS; slot++) {
    if (slot != 2) WAITS(ask(&h[slot], all[slot], root, BS_S));
  }
  for (slot = 64; slot < BS_SLOTS; slot++) {
    if (is_some(slot)) DONE(bs_table_cancel(table, all[slot], NULL));
  }
  DONE(bs_table_commit(table, all[2], NULL));
  WANT(calls == BS_SLOTS - 1);
  for (slot = 0; slot < BS_SLOTS; slot++) {
    if (slot != 2) HEARD_BY_NOW(&h[slot], slot >= 64 && is_some(slot) ? BS_NOT_WAITING : BS_DONE);
  }
  close_table();
}

/* A lock for an instant is released in each slot, and one that stays is kept in each. */
static void instants_in_all_slots(void) {
  static struct heard h[BS_SLOTS];
  bs_txn all[BS_SLOTS];
  uint32_t slot;
  set_up(BS_AT_BLOCK);
  begin_all(all);
  DONE(bs_table_lock(table, all[2], root, BS_X, NULL));
  for (slot = 0; slot < BS_SLOTS; slot++) {
    if (slot != 2) WAITS(ask(&h[slot], all[slot], root, is_some(slot) ? BS_S | BS_INSTANT : BS_S));
  }
  DONE(bs_table_commit(table, all[2], &told));
  WANT(calls == BS_SLOTS - 1 && told.count == BS_SLOTS - 1);
  for (slot = 0; slot < BS_SLOTS; slot++) {
    if (slot == 2) continue;
    WANT(HEARD_BY_NOW(&h[slot], BS_DONE).mode == BS_S);
    holds(all[slot], root, is_some(slot) ? BS_NL : BS_S);
  }
  close_table();
}

/* ------------------------------------------------------------------------------------------------
 * The thread that watches.
 */

/* The thread has seen all waits, and sleeps. */
static void await_idle(void) {
  bool is_idle = false;
  while (!is_idle) {
    nap();
    pthread_mutex_lock(&table->latch);
    is_idle = idle == 1 && seen_by_idle == table->waited;
    pthread_mutex_unlock(&table->latch);
  }
}

static void await_condemned(bs_txn txn) {
  while (doing_of(txn) != BS_CONDEMNED) nap();
}

static bool same_signals(const sigset_t *one, const sigset_t *other) {
  int number;
  for (number = 1; number < 32; number++) {
    if (sigismember(one, number) != sigismember(other, number)) return false;
  }
  return true;
}

/* Starts a thread that watches; the signals that its caller blocks are the same after that. */
static bs_reply start_watch(uint64_t pace) {
  sigset_t before, after;
  bs_reply reply;
  WANT(pthread_sigmask(SIG_SETMASK, NULL, &before) == 0);
  reply = bs_table_watch_thread(table, pace);
  WANT(pthread_sigmask(SIG_SETMASK, NULL, &after) == 0 && same_signals(&before, &after));
  return reply;
}

/* A table with a thread that watches and is asleep, and two transactions that both read the root. */
static void set_up_watched(bs_txn *older, bs_txn *younger) {
  set_up(BS_BY_WATCHER);
  DONE(start_watch(0));
  *older = begin_reader(), *younger = begin_reader();
  await_idle();
}

/* A transaction waits for X on the root by a list, with each allocation refused in turn, until only that of the board
 * is refused. */
static void wait_unshown(bs_txn txn) {
  bs_command command = bs_do_at(BS_DO_LOCK, txn, root, BS_X);
  long n = 0;
  do {
    refused_allocation = ++n;
    bs_table_run(table, &command, 1);
    WANT(command.reply.status == BS_NO_MEMORY || refused_allocation == 0);
    refused_allocation = 0;
  } while (command.reply.status == BS_NO_MEMORY);
  ANSWERS(BS_WAITING, command.reply);
}

/* The board of the last wait could not be shown, for lack of memory: the thread reads it, and ends the deadlock. */
static void a_thread_takes_no_old_board(void) {
  struct sleeper one;
  bs_txn older, younger;
  set_up_watched(&older, &younger);
  send(&one, BY_LOCK, older, root, BS_X);
  await_idle();
  wait_unshown(younger);
  await_condemned(younger);
  DONE(bs_table_abort(table, younger, NULL));
  BACK(&one, BS_DONE);
  close_table();
}

/* It sleeps while no wait has begun since its last look, also if commands were accepted meanwhile. */
static void a_thread_sleeps_between_waits(void) {
  struct sleeper one;
  bs_txn holder, waiter;
  int round;
  set_up_watched(&holder, &waiter);
  for (round = 0; round < 3; round++) {
    send(&one, BY_LOCK, waiter, root, BS_X);
    await_idle();
    DONE(bs_table_commit(table, begin(), NULL));
    await_idle();
    DONE(bs_table_commit(table, holder, NULL));
    BACK(&one, BS_DONE);
    holder = waiter, waiter = begin();
    await_idle();
  }
  close_table();
}

/* While the thread looks, its watcher is out of its place: a second thread is refused all the same. */
static void a_thread_looks_and_is_alone(void) {
  bs_watcher eye;
  set_up(BS_BY_WATCHER);
  DONE(bs_table_watch_thread(table, 0));
  pthread_mutex_lock(&table->latch);
  eye = table->eye;
  memset(&table->eye, 0, sizeof table->eye);
  pthread_mutex_unlock(&table->latch);
  ANSWERS(BS_IN_USE, bs_table_watch_thread(table, 0));
  pthread_mutex_lock(&table->latch);
  table->eye = eye;
  pthread_mutex_unlock(&table->latch);
  close_table();
}

/* A thread that could not be started does not count as a watcher, and its caller blocks no signals after the call. */
static void a_thread_that_cannot_be_started(void) {
  bs_watcher watchers[BS_MOST_WATCHERS];
  bs_watcher none = BS_NO_WATCHER_HERE;
  sigset_t mine;
  int i;
  set_up(BS_BY_WATCHER);
  sigemptyset(&mine);
  sigaddset(&mine, SIGUSR2);
  WANT(pthread_sigmask(SIG_BLOCK, &mine, NULL) == 0);
  for (i = 0; i < BS_MOST_WATCHERS; i++) watchers[i] = none;
  refused_threads = 2;
  ANSWERS(BS_NO_MEMORY, start_watch(0));
  ANSWERS(BS_NO_MEMORY, start_watch(0));
  for (i = 1; i < BS_MOST_WATCHERS; i++) DONE(bs_table_watch(table, &watchers[i]));
  DONE(start_watch(0));
  ANSWERS(BS_IN_USE, start_watch(0));
  ANSWERS(BS_TOO_MANY_WATCHERS, bs_table_watch(table, &watchers[0]));
  WANT(pthread_sigmask(SIG_UNBLOCK, &mine, NULL) == 0);
  close_table();
  for (i = 1; i < BS_MOST_WATCHERS; i++) DONE(bs_watch_end(&watchers[i]));
}

static sigset_t heard_blocked;

static void notes_signals(struct heard *h) {
  if (h->end.status == BS_VICTIM) WANT(pthread_sigmask(SIG_SETMASK, NULL, &heard_blocked) == 0);
  if (h->end.status == BS_VICTIM) DONE(bs_table_abort(table, h->txn, NULL));
}

/* In the callback the thread that watches blocks all signals, except those that a fault of its own raises. */
static void a_thread_blocks_signals_but_its_faults(void) {
  static const int faults[] = { SIGSEGV, SIGBUS, SIGFPE, SIGILL, SIGTRAP };
  static const int others[] = { SIGHUP, SIGINT, SIGQUIT, SIGTERM, SIGUSR1, SIGUSR2, SIGALRM, SIGCHLD, SIGPIPE };
  struct heard one, two;
  bs_txn older, younger;
  size_t i;
  set_up_watched(&older, &younger);
  begin_asking(&two, younger, notes_signals);
  asking = NULL;
  WAITS(ask(&one, older, root, BS_X));
  WAITS(bs_table_ask(table, younger, root, BS_X, NULL, &two));
  HEARD(&two, BS_VICTIM);
  HEARD(&one, BS_DONE);
  WANT(pthread_equal(two.by, table->watch));
  for (i = 0; i < sizeof faults / sizeof *faults; i++) WANT(sigismember(&heard_blocked, faults[i]) == 0);
  for (i = 0; i < sizeof others / sizeof *others; i++) WANT(sigismember(&heard_blocked, others[i]) == 1);
  close_table();
}

static bs_txn other_victim;

/* The other deadlock that the thread has seen is not ended yet, and the table is free. */
static void finds_another_deadlock(struct heard *h) {
  if (h->end.status != BS_VICTIM || same_txn(h->txn, other_victim)) return;
  WANT(doing_of(other_victim) == BS_WAITS);
  DONE(bs_table_commit(table, begin(), NULL));
}

/* The thread sees two deadlocks at once, and ends the younger victim's wait before it chooses the other. */
static void a_thread_frees_the_latch_between_victims(void) {
  bs_node nodes[2];
  struct heard h[4];
  bs_txn t[4];
  size_t i;
  set_up(BS_BY_WATCHER);
  nodes[0] = add_root(), nodes[1] = add_root();
  for (i = 0; i < 4; i++) {
    t[i] = begin();
    DONE(bs_table_lock(table, t[i], nodes[i % 2], BS_S, NULL));
  }
  for (i = 0; i < 4; i++) {
    WAITS(ask(&h[i], t[i], nodes[i % 2], BS_X));
    h[i].does = finds_another_deadlock;
  }
  other_victim = t[2];
  DONE(start_watch(UINT64_C(3600000000000)));
  HEARD(&h[3], BS_VICTIM);
  HEARD(&h[2], BS_VICTIM);
  WANT(h[3].place == 0 && h[2].place == 1);
  close_table();
}

/* The ways in which a wait for a node, or for the row, begins by a list, for an instant, or by an ask. */
enum { WAYS_TO_WAIT = 10 };

static void begin_to_wait(int way, bs_txn txn, bs_node node, struct heard *h, struct sleeper *s) {
  bs_command command = bs_do_at(BS_DO_LOCK, txn, node, BS_X);
  switch (way) {
    case 0: command.kind = BS_DO_LOCK_PATH; break;
    case 1: command.mode |= BS_INSTANT; break;
    case 2: command.kind = BS_DO_LOCK_PATH, command.mode |= BS_INSTANT; break;
    case 3: command = row_command(BS_DO_LOCK_ROW, txn, BS_X); break;
    case 4: WAITS(ask(h, txn, node, BS_X | BS_INSTANT)); return;
    case 5: WAITS(ask_path(h, txn, node, BS_X | BS_INSTANT)); return;
    case 6: WAITS(ask_row(h, txn, LOW_KEY, BS_X)); return;
    case 7: set_out(s, BY_LOCK, txn, node, BS_X | BS_INSTANT); return;
    case 8: set_out(s, BY_PATH, txn, node, BS_X | BS_INSTANT); return;
    default: break;
  }
  leave_waiting(&command);
}

/* Each of two holds a record in X, and the row in S. Each wants the record of the other, or the row in X, in this way.
 * The thread alone ends that: it is asleep when the cycle is closed. */
static void is_watched(int way) {
  bool is_slept = way == 7 || way == 8, is_asked = way >= 4 && way <= 6;
  struct sleeper s[2];
  struct heard h[2];
  bs_txn t[2];
  size_t i;
  set_up(BS_BY_WATCHER);
  DONE(start_watch(0));
  for (i = 0; i < 2; i++) {
    t[i] = begin_writer();
    DONE(bs_table_lock(table, t[i], i == 0 ? low : high, BS_X, NULL));
    DONE(lock_row(t[i], LOW_KEY, BS_S, NULL));
  }
  begin_to_wait(way, t[0], high, &h[0], &s[0]);
  await_wait(t[0]);
  await_idle();
  begin_to_wait(way, t[1], low, &h[1], &s[1]);
  await_condemned(t[1]);
  if (is_slept) BACK(&s[1], BS_VICTIM);
  if (is_asked) HEARD(&h[1], BS_VICTIM);
  DONE(bs_table_abort(table, t[1], NULL));
  if (is_slept) BACK(&s[0], BS_DONE);
  if (is_asked) HEARD(&h[0], BS_DONE);
  WANT(doing_of(t[0]) == BS_ACTIVE);
  close_table();
}

static void waits_that_are_left_are_watched(void) {
  int way;
  for (way = 0; way < WAYS_TO_WAIT; way++) is_watched(way);
}

/* ------------------------------------------------------------------------------------------------
 * Ends that set off others.
 */

enum { ENDS = 12 };

/* The nodes of a tree of ends, by their places: each with the transaction that holds it and the ask that waits. */
static bs_node held_at[ENDS];
static bs_txn holders[ENDS];
static struct heard waiters[ENDS];

static void ends_one(int at) {
  DONE(bs_table_commit(table, holders[at], NULL));
}

/* The same of two, by one call. */
static void ends_two(int at) {
  bs_command list[2];
  list[0] = bs_do(BS_DO_COMMIT, holders[at]), list[1] = bs_do(BS_DO_COMMIT, holders[at + 1]);
  WANT(bs_table_run(table, list, 2) == 2);
}

/* The first end sets off two others by two calls, and two more by one. Each of the first two sets off two. */
static void sets_off_others(struct heard *h) {
  switch (h - waiters) {
    case 0: ends_one(1), ends_one(2), ends_two(3), ends_one(5); break;
    case 1: ends_two(6), ends_one(8); break;
    case 2: ends_one(9), ends_one(10); break;
    case 9: ends_one(11); break;
    default: break;
  }
}

/* Ends that the callback sets off come after it, in their order, by the same thread, and before the first call returns;
 * three deep and more. */
static void ends_set_off_ends(void) {
  static const int order[ENDS] = { 0, 1, 2, 3, 4, 5, 6, 7, 8, 9, 10, 11 };
  int i;
  set_up(BS_AT_BLOCK);
  for (i = 0; i < ENDS; i++) {
    held_at[i] = add_root();
    holders[i] = begin();
    DONE(bs_table_lock(table, holders[i], held_at[i], BS_X, NULL));
    WAITS(ask(&waiters[i], begin(), held_at[i], BS_S));
    waiters[i].does = sets_off_others;
  }
  ends_one(0);
  WANT(calls == ENDS);
  for (i = 0; i < ENDS; i++) {
    WANT(HEARD_BY_NOW(&waiters[i], BS_DONE).mode == BS_S && waiters[i].place == order[i]);
    holds(waiters[i].txn, held_at[i], BS_S);
  }
  close_table();
}

/* ------------------------------------------------------------------------------------------------
 * Locks for an instant, and the waits of later.
 */

/* A lock for an instant on this node came to a transaction, after a wait; another holds the node again. */
static void instant_came(bs_txn waiter, bs_txn holder, bs_node node) {
  bs_command command = bs_do_at(BS_DO_LOCK, waiter, node, BS_X | BS_INSTANT);
  DONE(bs_table_lock(table, holder, node, BS_X, NULL));
  leave_waiting(&command);
  DONE(bs_table_unlock(table, holder, node, NULL));
  WANT(DONE(bs_table_await(table, waiter, node, BS_X, NULL)).mode == BS_X);
  holds(waiter, node, BS_NL);
  DONE(bs_table_lock(table, holder, node, BS_X, NULL));
}

/* The ways in which a transaction waits for the record, on the way to it, or for the row, after an instant that came
 * there. */
enum { LATER_WAITS = 9 };

static void wait_again(int way, bs_txn txn, bs_node node, struct sleeper *s, struct heard *h) {
  bs_command command = bs_do_at(BS_DO_LOCK, txn, node, BS_X);
  switch (way) {
    case 0: send(s, BY_PATH, txn, node, BS_X); return;
    case 1: send(s, BY_ROW, txn, node, BS_X); return;
    case 2: send(s, BY_LOCK, txn, node, BS_X | BS_INSTANT); return;
    case 3: WAITS(ask_path(h, txn, node, BS_X)); return;
    case 4: WAITS(ask_row(h, txn, LOW_KEY, BS_X)); return;
    case 5: WAITS(ask(h, txn, node, BS_X)); return;
    case 6: command.kind = BS_DO_LOCK_PATH; break;
    case 7: command = row_command(BS_DO_LOCK_ROW, txn, BS_X); break;
    default: break;
  }
  leave_waiting(&command);
}

/* The wait is cancelled: it was not granted, whatever was before. */
static void is_nothing_to(int way) {
  bool is_row = way == 1 || way == 4 || way == 7;
  struct sleeper s;
  struct heard h;
  bs_txn holder, waiter;
  bs_node node;
  set_up(BS_AT_BLOCK);
  holder = begin_writer(), waiter = begin_writer();
  node = is_row ? DONE(lock_row(holder, LOW_KEY, BS_X, NULL)).node : low;
  if (is_row) DONE(bs_table_unlock(table, holder, node, NULL)); /* The row keeps its node. */
  instant_came(waiter, holder, node);
  wait_again(way, waiter, node, &s, &h);
  DONE(bs_table_cancel(table, waiter, NULL));
  if (way < 3) BACK(&s, BS_NOT_WAITING);
  else if (way < 6) HEARD_BY_NOW(&h, BS_NOT_WAITING);
  else ANSWERS(BS_NOT_WAITING, bs_table_await(table, waiter, node, BS_X, NULL));
  holds(waiter, node, BS_NL);
  close_table();
}

static void an_instant_of_before_is_nothing_to_a_wait(void) {
  int way;
  for (way = 0; way < LATER_WAITS; way++) is_nothing_to(way);
}

/* A path that waits on its way, where a lock for an instant was granted before, is cancelled there, and does not
 * continue. */
static void an_instant_of_before_is_nothing_to_a_path(void) {
  struct sleeper s;
  struct heard h;
  bs_command command;
  bs_txn holder, waiter;
  int round;
  set_up(BS_AT_BLOCK);
  for (round = 0; round < 3; round++) {
    holder = begin(), waiter = begin();
    DONE(bs_table_lock_path(table, holder, below, BS_IX, NULL));
    DONE(bs_table_lock_path(table, waiter, below, BS_IX, NULL));
    DONE(bs_table_unlock(table, waiter, below, NULL));
    DONE(bs_table_unlock(table, holder, below, NULL));
    instant_came(waiter, holder, below);
    command = bs_do_at(BS_DO_LOCK_PATH, waiter, low, BS_X);
    if (round == 0) send(&s, BY_PATH, waiter, low, BS_X);
    else if (round == 1) WAITS(ask_path(&h, waiter, low, BS_X));
    else leave_waiting(&command);
    WANT(waits_for(waiter, below));
    DONE(bs_table_cancel(table, waiter, NULL));
    if (round == 0) BACK(&s, BS_NOT_WAITING);
    else if (round == 1) HEARD_BY_NOW(&h, BS_NOT_WAITING);
    else ANSWERS(BS_NOT_WAITING, bs_table_await(table, waiter, below, BS_IX, NULL));
    DONE(bs_table_commit(table, waiter, NULL));
    DONE(bs_table_commit(table, holder, NULL));
  }
  close_table();
}

/* A lock for an instant that was granted is no answer to the next transaction of the slot, nor about another node. */
static void an_instant_is_of_its_transaction_and_node(void) {
  bs_txn holder, waiter, next;
  set_up(BS_AT_BLOCK);
  holder = begin_writer(), waiter = begin_writer();
  instant_came(waiter, holder, low);
  WANT(DONE(bs_table_await(table, waiter, low, BS_X, NULL)).mode == BS_X);
  ANSWERS(BS_NOT_WAITING, bs_table_await(table, waiter, high, BS_X, NULL));
  DONE(bs_table_commit(table, waiter, NULL));
  ANSWERS(BS_NO_SUCH_TXN, bs_table_await(table, waiter, low, BS_X, NULL));
  next = begin();
  WANT(next.slot == waiter.slot);
  ANSWERS(BS_NOT_WAITING, bs_table_await(table, next, low, BS_X, NULL));
  close_table();
}

/* ------------------------------------------------------------------------------------------------
 * Rows that are asked for again.
 */

enum { KEYS = 3 };

/* A file of rows with three indexes, each parted at 100. */
static bs_node many_rows, indexes[KEYS];

static void set_up_many_keys(void) {
  static const uint64_t bound = 100;
  size_t i;
  set_up(BS_AT_BLOCK);
  many_rows = DONE(bs_table_add_row_file(table, &root, 1)).node;
  for (i = 0; i < KEYS; i++) indexes[i] = DONE(bs_table_add_index(table, &root, 1, many_rows, &bound, 1)).node;
}

static bs_txn begin_writer_of_many(void) {
  bs_txn txn = begin();
  size_t i;
  for (i = 0; i < KEYS; i++) {
    bs_node lower = ASK(table, bs_interval, indexes[i], 0).node, upper = ASK(table, bs_interval, indexes[i], 1).node;
    intend(txn, many_rows, lower, upper);
  }
  return txn;
}

static bs_txn begin_reader_of_many(void) {
  bs_txn txn = begin();
  DONE(bs_table_lock_path(table, txn, many_rows, BS_IS, NULL));
  return txn;
}

/* The ask waits for a row by these keys, and its caller uses their place for something else. */
static bs_reply row_by_keys(const uint64_t *keys, size_t count) {
  uint64_t place[KEYS + 1];
  struct heard h;
  bs_txn holder, waiter;
  bs_reply end;
  static const uint64_t own[KEYS] = { 11, 122, 33 };
  set_up_many_keys();
  holder = begin_writer_of_many(), waiter = begin_reader_of_many();
  memcpy(place, keys, count * sizeof *keys);
  DONE(bs_table_lock_row(table, holder, many_rows, ROW, own, KEYS, BS_X, NULL));
  begin_asking(&h, waiter, NULL);
  asking = NULL;
  WAITS(bs_table_ask_row(table, waiter, many_rows, ROW, place, count, BS_S, NULL, &h));
  memset(place, 0, sizeof place);
  DONE(bs_table_commit(table, holder, NULL));
  WANT(calls_of(&h) == 1);
  end = h.end;
  WANT(end.mode == BS_S);
  holds(waiter, end.node, BS_S);
  close_table();
  return end;
}

/* All keys of a row are copied, and each of them tells whether they are its own. */
static void a_row_of_many_keys_is_asked_for_again(void) {
  static const uint64_t own[KEYS + 1] = { 11, 122, 33, 0 };
  uint64_t others[KEYS + 1];
  size_t i;
  DONE(row_by_keys(own, KEYS));
  ANSWERS(BS_OTHER_KEYS, row_by_keys(own, KEYS - 1));
  ANSWERS(BS_OTHER_KEYS, row_by_keys(own, KEYS + 1));
  for (i = 0; i < KEYS; i++) {
    memcpy(others, own, sizeof own);
    others[i]++;
    ANSWERS(BS_OTHER_KEYS, row_by_keys(others, KEYS));
  }
}

/* A row is not locked for an instant: each call of a row refuses that word, and nothing waits. */
static void a_row_is_not_locked_for_an_instant(void) {
  static const uint64_t key = LOW_KEY;
  bs_command list[2];
  struct heard h;
  bs_txn holder, txn;
  size_t i;
  set_up(BS_AT_BLOCK);
  holder = begin_writer(), txn = begin_writer();
  for (i = 0; i < 2; i++) {
    list[0] = row_command(BS_DO_LOCK_ROW, txn, BS_X | BS_INSTANT);
    list[1] = list[0];
    list[1].kind = BS_DO_TRY_ROW;
    ANSWERS(BS_BAD_NUMBER, lock_row(txn, LOW_KEY, BS_X | BS_INSTANT, NULL));
    ANSWERS(BS_BAD_NUMBER, ask_row(&h, txn, LOW_KEY, BS_X | BS_INSTANT));
    ANSWERS(BS_BAD_NUMBER, bs_table_try_row(table, txn, rows, ROW, &key, 1, BS_X | BS_INSTANT));
    WANT(bs_table_run(table, &list[0], 1) == 0 && list[0].reply.status == BS_BAD_NUMBER);
    WANT(bs_table_run(table, &list[1], 1) == 0 && list[1].reply.status == BS_BAD_NUMBER);
    ANSWERS(BS_BAD_NUMBER, ask_await_until(&h, txn, low, BS_X | BS_INSTANT, NULL));
    WANT(wait_in(table, txn).status == BS_NOT_WAITING && calls == 0);
    if (i == 0) DONE(lock_row(holder, LOW_KEY, BS_X, NULL)); /* The second time the row would have to be waited for. */
  }
  close_table();
}

/* A row that waits in a list is awaited by the node and the mode of its reply, and the list is run again from it. */
static void a_row_is_awaited_by_its_reply(void) {
  static const uint64_t other_key = HIGH_KEY;
  bs_command list[2];
  struct heard h;
  bs_txn holder, waiter;
  int round;
  set_up(BS_AT_BLOCK);
  for (round = 0; round < 4; round++) {
    holder = begin_writer(), waiter = begin_writer();
    DONE(lock_row(holder, LOW_KEY, BS_X, NULL));
    list[0] = row_command(BS_DO_LOCK_ROW, waiter, round % 2 == 0 ? BS_X : BS_S);
    if (round >= 2) list[0].keys = &other_key;
    list[1] = bs_do(BS_DO_COMMIT, waiter);
    leave_waiting(&list[0]);
    WANT(list[0].reply.mode == list[0].mode);
    WANT(same_node(list[0].reply.node, ASK(table, bs_row_node, rows, ROW).node));
    WAITS(ask_await_until(&h, waiter, list[0].reply.node, list[0].reply.mode, NULL));
    DONE(bs_table_commit(table, holder, NULL));
    WANT(HEARD_BY_NOW(&h, BS_DONE).mode == list[0].mode);
    WANT(bs_table_run(table, list, 2) == (round < 2 ? 2 : 0));
    WANT(list[0].reply.status == (round < 2 ? BS_DONE : BS_OTHER_KEYS) && list[0].reply.mode == list[0].mode);
    if (round >= 2) DONE(bs_table_commit(table, waiter, NULL));
  }
  close_table();
}

/* ------------------------------------------------------------------------------------------------
 * A thread that is cancelled as it ends a table.
 */

static void comes_to_a_cancel(struct heard *h) {
  (void)h;
  pthread_testcancel();
}

struct ender {
  bs_reply reply;
  pthread_t thread;
};

static void *ends_the_table(void *arg) {
  struct ender *e = (struct ender *)arg;
  pthread_cancel(pthread_self());
  e->reply = bs_table_end(table);
  pthread_testcancel();
  return NULL;
}

/* It ends after the call, which is done; and it can be cancelled again then. The table has a thread that watches, a
 * sleeper and an ask. */
static void an_end_of_a_table_is_cancelled(void) {
  struct ender e = { { 0 }, 0 };
  struct sleeper one;
  struct heard h;
  bs_txn reader;
  void *came = NULL;
  set_up(BS_BY_WATCHER);
  DONE(start_watch(UINT64_C(3600000000000)));
  reader = begin_reader();
  send(&one, BY_LOCK, begin(), root, BS_X);
  WAITS(ask(&h, begin(), root, BS_X));
  h.does = comes_to_a_cancel;
  e.reply.status = BS_NOT_MADE;
  start(&e.thread, ends_the_table, &e);
  WANT(pthread_join(e.thread, &came) == 0);
  DONE(e.reply);
  WANT(came == PTHREAD_CANCELED);
  BACK(&one, BS_NO_MANAGER);
  HEARD(&h, BS_NO_MANAGER);
  WANT(pthread_equal(h.by, e.thread));
  ANSWERS(BS_NO_MANAGER, bs_table_commit(table, reader, NULL));
  DONE(bs_table_free(&table));
}

/* ------------------------------------------------------------------------------------------------
 * The whole.
 */

int main(int count, char **words) {
  setvbuf(stdout, NULL, _IONBF, 0);
  if (count > 1) patience = (unsigned)atoi(words[1]);
  TELL(a_sleep_ends_at_the_earlier_time);
  TELL(an_ask_waits_to_the_earlier_time);
  TELL(a_deadline_set_meanwhile_is_of_later_waits);
  TELL(a_path_keeps_its_time_on_its_way);
  TELL(two_times_lie_within_a_second);
  TELL(asks_expire_within_a_second);
  TELL(a_late_sleeper_and_the_next_path);
  TELL(a_path_of_before_takes_no_cancel);
  TELL(a_path_that_ended_takes_no_cancel);
  TELL(some_leave_the_begin_queue_while_one_comes);
  TELL(a_begin_queue_ends_and_begins_anew);
  TELL(an_end_wakes_the_sleepers_of_all_slots);
  TELL(asks_of_all_slots_expire);
  TELL(an_ask_ends_beside_other_words);
  TELL(instants_in_all_slots);
  TELL(a_thread_takes_no_old_board);
  TELL(a_thread_sleeps_between_waits);
  TELL(a_thread_looks_and_is_alone);
  TELL(a_thread_that_cannot_be_started);
  TELL(a_thread_blocks_signals_but_its_faults);
  TELL(a_thread_frees_the_latch_between_victims);
  TELL(waits_that_are_left_are_watched);
  TELL(ends_set_off_ends);
  TELL(an_instant_of_before_is_nothing_to_a_wait);
  TELL(an_instant_of_before_is_nothing_to_a_path);
  TELL(an_instant_is_of_its_transaction_and_node);
  TELL(a_row_of_many_keys_is_asked_for_again);
  TELL(a_row_is_not_locked_for_an_instant);
  TELL(a_row_is_awaited_by_its_reply);
  TELL(an_end_of_a_table_is_cancelled);
  return 0;
}
