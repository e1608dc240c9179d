/*
 * Stories of begins that are asked for: each is a function that ends the program with status 1 at the first wrong
 * answer, and else prints its name. Each such begin that was left waiting has one call of the callback, and no other
 * has any.
 *
 *   begins [SECONDS [RUNS]]   the time that a story may take before it is said to hang, 20 if none is given; and how
 *                             often races are run, 200 if none is given
 *
 * It is linked with the calls for memory of memory.h.
 */
#include "burlapslate.h"
#include "memory.h"

#include "burlapslate_session.h"

/* This many begins that are handed on are refused memory: their slots are for the next. */
static int refused_begins;

static bs_reply noted_begun(bs_manager *m) {
  bs_reply begun = bs_call_take_begun(m);
  bs_reply refused = bs_call_only(BS_NO_MEMORY);
  bs_notices notices;
  if (refused_begins == 0 || begun.count == 0) return begun;
  refused_begins--;
  bs_abort(m, begun.txn, &notices);
  refused.count = begun.count;
  return refused;
}

#define bs_call_take_begun(m) noted_begun(m)

#include "burlapslate_shared.c"

#include "waiters.h"

#include <sched.h>

static unsigned long runs = 200;

static const bs_txn nobody;

/* A table of so many slots, whose callback hears. */
static void make_of(uint32_t most) {
  calls = 0;
  DONE(make_table(&table, BS_AT_BLOCK, BS_YOUNGEST, most));
  DONE(bs_table_on_end(table, hear, &context_word));
  root = add_root();
}

static void ask_with(struct heard *h) {
  begin_asking(h, nobody, NULL);
  h->begins = true;
}

static bs_reply ask_begin_until(struct heard *h, const struct timespec *until) {
  bs_reply reply;
  ask_with(h);
  reply = bs_table_ask_begin(table, until, h);
  asking = NULL;
  return reply;
}

static bs_reply ask_begin(struct heard *h) {
  return ask_begin_until(h, NULL);
}

static bs_reply ask_begin_again(struct heard *h, uint64_t since) {
  bs_reply reply;
  ask_with(h);
  reply = bs_table_ask_begin_again(table, since, NULL, h);
  asking = NULL;
  return reply;
}

/* The transaction that was told by now. */
#define BEGUN_BY_NOW(h) (HEARD_BY_NOW(h, BS_DONE).txn)

/* An end without a transaction was told by now. */
#define ENDED_BY_NOW(h, status) WANT(same_txn(HEARD_BY_NOW(h, status).txn, nobody))

/* A thread sleeps for a slot, so that this many sleep. */
static void sleep_for_slot(struct sleeper *s, size_t count) {
  *s = sleeper_of(BY_BEGIN, nobody, root, BS_NL);
  start(&s->thread, fall_asleep, s);
  await_sleepers(count);
}

/* ------------------------------------------------------------------------------------------------
 * Turns.
 */

static void an_ask_begins_at_once(void) {
  struct heard one, two;
  bs_txn a, b;
  make_of(2);
  a = DONE(ask_begin(&one)).txn;
  b = DONE(ask_begin_again(&two, a.age)).txn;
  WANT(a.slot != b.slot && b.age == a.age + 1 && doing_of(a) == 1 && doing_of(b) == 1);
  WAITS(ask_begin(&one));
  DONE(bs_table_commit(table, a, NULL));
  WANT(BEGUN_BY_NOW(&one).slot == a.slot);
  WANT(calls == 1 && table->queued == 0);
  close_table();
  WANT(calls == 1);
}

/* The calls that end a transaction, by their numbers: each begins for the first that waits. */
enum { WAYS_TO_END = 6 };

static void end_by(int way, bs_txn txn) {
  bs_command list[1];
  bs_session own;
  switch (way) {
    case 0: DONE(bs_table_commit(table, txn, NULL)); break;
    case 1: DONE(bs_table_abort(table, txn, NULL)); break;
    case 2:
    case 3:
      list[0] = bs_do(way == 2 ? BS_DO_COMMIT : BS_DO_ABORT, txn);
      WANT(bs_table_run(table, list, 1) == 1);
      break;
    case 4:
      own = bs_session_of(table, 4);
      own.txn = txn;
      WANT(DONE(bs_session_commit(&own, NULL)).count == 0);
      break;
    default:
      WANT(bs_table_hold(table) != NULL);
      DONE(bs_commit(&table->manager, txn, &told));
      DONE(bs_table_let_go(table));
  }
}

static void an_ask_begins_in_its_turn(void) {
  struct heard one;
  bs_txn holder, next;
  int way;
  make_of(1);
  holder = begin();
  for (way = 0; way < WAYS_TO_END; way++) {
    WAITS(ask_begin(&one));
    ANSWERS(BS_TOO_MANY_TXNS, bs_table_begin(table));
    WANT(calls_of(&one) == 0 && table->queued == 1);
    end_by(way, holder);
    next = BEGUN_BY_NOW(&one);
    WANT(next.slot == holder.slot && next.age == holder.age + 1 && doing_of(next) == 1);
    WANT(one.end.count == 0 && one.end.mode == BS_NL && one.end.node.birth == 0);
    ANSWERS(BS_TOO_MANY_TXNS, bs_table_begin(table));
    holder = next;
  }
  DONE(bs_table_commit(table, holder, NULL));
  begin();
  close_table();
  WANT(calls == WAYS_TO_END);
}

/* Sleepers and asks are in one queue. */
enum { TURNS = 12 };

static void asks_and_sleepers_are_in_one_queue(void) {
  struct heard h[TURNS];
  struct sleeper s[TURNS];
  bs_txn last;
  size_t i, sleeping = 0;
  make_of(1);
  last = begin();
  for (i = 0; i < TURNS; i++) {
    if (i % 3 == 1) sleep_for_slot(&s[i], ++sleeping);
    else WAITS(ask_begin(&h[i]));
  }
  WANT(table->queued == TURNS);
  for (i = 0; i < TURNS; i++) {
    uint64_t age = last.age;
    DONE(bs_table_commit(table, last, NULL));
    last = i % 3 == 1 ? BACK(&s[i], BS_DONE).txn : BEGUN_BY_NOW(&h[i]);
    WANT(last.age == age + 1);
  }
  WANT(calls == TURNS - TURNS / 3 && table->queued == 0);
  close_table();
}

/* One call frees several slots: each is for the next, and the ends are told in their order, after those of locks. */
static void several_begin_by_one_call(void) {
  struct heard h[3], lock;
  struct sleeper s;
  bs_command list[3];
  bs_txn a, b, c;
  size_t i;
  make_of(3);
  a = begin(), b = begin(), c = begin();
  DONE(bs_table_lock(table, a, root, BS_X, NULL));
  for (i = 0; i < 2; i++) WAITS(ask_begin(&h[i]));
  sleep_for_slot(&s, 1);
  WAITS(ask_begin(&h[2]));
  WAITS(ask(&lock, c, root, BS_X));
  list[0] = bs_do(BS_DO_ABORT, b), list[1] = bs_do(BS_DO_COMMIT, a);
  list[2] = bs_do(BS_DO_BEGIN, bs_begun());
  WANT(bs_table_run(table, list, 3) == 2 && list[2].reply.status == BS_TOO_MANY_TXNS);
  HEARD_BY_NOW(&lock, BS_DONE);
  WANT(BEGUN_BY_NOW(&h[0]).age == c.age + 1 && BEGUN_BY_NOW(&h[1]).age == c.age + 2);
  WANT(lock.place == 0 && h[0].place == 1 && h[1].place == 2 && calls == 3);
  DONE(bs_table_commit(table, c, NULL));
  WANT(BACK(&s, BS_DONE).txn.age == c.age + 3 && calls == 3);
  DONE(bs_table_commit(table, s.reply.txn, NULL));
  WANT(BEGUN_BY_NOW(&h[2]).age == c.age + 4);
  close_table();
}

/* Of two that read the root and both want to write it, the first is the victim of the second. Both end. */
static void is_victim_to(bs_txn victim, bs_txn stays) {
  struct heard h;
  DONE(bs_table_lock(table, victim, root, BS_S, NULL));
  DONE(bs_table_lock(table, stays, root, BS_S, NULL));
  WAITS(ask(&h, stays, root, BS_X));
  ANSWERS(BS_VICTIM, bs_table_lock(table, victim, root, BS_X, NULL));
  DONE(bs_table_abort(table, victim, NULL));
  HEARD_BY_NOW(&h, BS_DONE);
  DONE(bs_table_commit(table, stays, NULL));
}

/* Work that begins again keeps the age since which it was tried, whether it waited or not. */
static void asked_work_begins_again(void) {
  struct heard one;
  bs_txn first, other, again;
  make_of(2);
  first = begin(), other = begin();
  WAITS(ask_begin_again(&one, first.age));
  DONE(bs_table_abort(table, first, NULL));
  again = BEGUN_BY_NOW(&one);
  WANT(again.age > other.age);
  is_victim_to(other, again);
  other = begin(), again = DONE(ask_begin_again(&one, first.age)).txn;
  is_victim_to(other, again);
  other = begin(), again = DONE(ask_begin(&one)).txn;
  is_victim_to(again, other);
  first = begin(), other = begin();
  WAITS(ask_begin(&one));
  DONE(bs_table_abort(table, first, NULL));
  is_victim_to(BEGUN_BY_NOW(&one), other);
  close_table();
}

/* ------------------------------------------------------------------------------------------------
 * Times.
 */

/* A time that is over ends an ask as the loop looks at the clock, and no other. The next time is of an ask for a slot or
 * for a lock. */
static void a_time_is_over(void) {
  struct timespec past = moment_in(0), soon = moment_in(50000000), later = moment_in(60000000), next;
  struct heard late[2], timed[3], lock, free_of_time;
  struct sleeper s;
  bs_txn a, b;
  make_of(2);
  a = begin(), b = begin();
  WAITS(ask_begin_until(&late[0], &past));
  WAITS(ask_begin(&free_of_time));
  sleep_for_slot(&s, 1);
  WAITS(ask_begin_until(&timed[0], &later));
  WAITS(ask_begin_until(&late[1], &past));
  WANT(calls == 0);
  WANT(DONE(bs_table_expire(table, &next)).count == 1 && same_time(next, later));
  ENDED_BY_NOW(&late[0], BS_TIMED_OUT);
  ENDED_BY_NOW(&late[1], BS_TIMED_OUT);
  WANT(late[0].place == 0 && late[1].place == 1 && calls == 2 && table->queued == 3);
  WAITS(ask_begin_until(&timed[1], &soon));
  WAITS(ask_begin_until(&timed[2], &later));
  WANT(DONE(bs_table_expire(table, &next)).count == 3 && same_time(next, soon));
  DONE(bs_table_cancel_begin(table, &timed[2]));
  DONE(bs_table_lock(table, a, root, BS_X, NULL));
  WAITS(ask_until(&lock, b, root, BS_X, &later));
  WANT(DONE(bs_table_expire(table, &next)).count == 3 && same_time(next, soon));
  DONE(bs_table_cancel_begin(table, &timed[1]));
  DONE(bs_table_cancel(table, b, NULL));
  WAITS(ask_until(&lock, b, root, BS_X, &soon));
  WANT(DONE(bs_table_expire(table, &next)).count == 2 && same_time(next, soon));
  DONE(bs_table_expire(table, NULL));
  DONE(bs_table_commit(table, a, NULL));
  WANT(BEGUN_BY_NOW(&free_of_time).slot == a.slot);
  HEARD_BY_NOW(&lock, BS_DONE);
  DONE(bs_table_commit(table, b, NULL));
  BACK(&s, BS_DONE);
  DONE(bs_table_commit(table, free_of_time.txn, NULL));
  WANT(BEGUN_BY_NOW(&timed[0]).slot == a.slot);
  WANT(DONE(bs_table_expire(table, &next)).count == 0 && same_time(next, soon));
  close_table();
}

/* An ask whose time is over has its turn until some thread looks at the clock; a thread that sleeps looks itself. */
static void a_turn_behind_the_time(void) {
  struct timespec past = moment_in(0);
  struct heard one, two;
  bs_txn a;
  make_of(1);
  a = DONE(ask_begin_until(&one, &past)).txn;
  ANSWERS(BS_TIMED_OUT, bs_table_begin_in_turn(table, &past));
  WANT(table->queued == 0);
  WAITS(ask_begin_until(&two, &past));
  DONE(bs_table_commit(table, a, NULL));
  HEARD_BY_NOW(&two, BS_DONE);
  WANT(DONE(bs_table_expire(table, NULL)).count == 0 && calls == 1);
  close_table();
}

/* ------------------------------------------------------------------------------------------------
 * Begins that are taken back.
 */

static void a_begin_is_taken_back(void) {
  struct heard one, two, other;
  struct sleeper s;
  bs_txn a;
  make_of(1);
  a = begin();
  WAITS(ask_begin(&one));
  sleep_for_slot(&s, 1);
  WAITS(ask_begin(&other));
  WAITS(ask_begin(&two));
  DONE(bs_table_cancel_begin(table, &other));
  ENDED_BY_NOW(&other, BS_NOT_WAITING);
  ANSWERS(BS_NOT_WAITING, bs_table_cancel_begin(table, &other));
  DONE(bs_table_cancel_begin(table, &one));
  ENDED_BY_NOW(&one, BS_NOT_WAITING);
  WANT(calls == 2 && table->queued == 2);
  WAITS(ask_begin(&one));
  DONE(bs_table_cancel_begin(table, &one)); /* the last */
  WAITS(ask_begin(&other));
  DONE(bs_table_cancel_begin(table, &other));
  ENDED_BY_NOW(&other, BS_NOT_WAITING);
  DONE(bs_table_commit(table, a, NULL));
  a = BACK(&s, BS_DONE).txn;
  WAITS(ask_begin(&one));
  DONE(bs_table_cancel_begin(table, &one));
  WAITS(ask_begin(&one));
  DONE(bs_table_commit(table, a, NULL));
  a = BEGUN_BY_NOW(&two);
  ANSWERS(BS_NOT_WAITING, bs_table_cancel_begin(table, &two));
  ANSWERS(BS_NOT_WAITING, bs_table_cancel_begin(table, NULL));
  DONE(bs_table_commit(table, a, NULL));
  a = BEGUN_BY_NOW(&one);
  ANSWERS(BS_NOT_WAITING, bs_table_cancel_begin(table, &one));
  DONE(bs_table_commit(table, a, NULL));
  WANT(calls == 7);
  close_table();
}

/* Of several with one word, the first is taken back; an ask for a lock with that word is none. */
static int told_null;
static bs_reply null_ends[4];

static void hears_null(void *context, bs_txn txn, bs_reply end, void *word) {
  (void)context;
  WANT(word == NULL && told_null < 4);
  end.txn = txn;
  null_ends[told_null++] = end;
}

static void begins_with_one_word(void) {
  bs_txn a, b;
  told_null = 0;
  DONE(make_table(&table, BS_AT_BLOCK, BS_YOUNGEST, 2));
  ANSWERS(BS_NOT_WAITING, bs_table_cancel_begin(table, NULL));
  DONE(bs_table_on_end(table, hears_null, NULL));
  root = add_root();
  a = begin(), b = begin();
  DONE(bs_table_lock(table, a, root, BS_X, NULL));
  WAITS(bs_table_ask(table, b, root, BS_S, NULL, NULL));
  ANSWERS(BS_NOT_WAITING, bs_table_cancel_begin(table, NULL));
  WAITS(bs_table_ask_begin_again(table, 1, NULL, NULL));
  WAITS(bs_table_ask_begin(table, NULL, NULL));
  DONE(bs_table_cancel(table, b, NULL));
  DONE(bs_table_cancel_begin(table, NULL));
  WANT(told_null == 2 && same_txn(null_ends[0].txn, b) && same_txn(null_ends[1].txn, nobody));
  WANT(null_ends[1].status == BS_NOT_WAITING && table->queued == 1);
  DONE(bs_table_commit(table, a, NULL));
  WANT(told_null == 3 && null_ends[2].status == BS_DONE && null_ends[2].txn.age == b.age + 1);
  close_table();
}

/* ------------------------------------------------------------------------------------------------
 * The callback.
 */

static struct heard inner[2];

/* It asks for begins, and takes one back: that is told after it. */
static void asks_in_the_callback(struct heard *h) {
  WAITS(ask_begin(&inner[0]));
  WAITS(ask_begin(&inner[1]));
  DONE(bs_table_cancel_begin(table, &inner[1]));
  WANT(calls_of(&inner[1]) == 0);
  DONE(bs_table_commit(table, h->txn, NULL));
  WANT(calls_of(&inner[0]) == 0);
}

static void the_callback_asks(void) {
  struct heard one;
  bs_txn a;
  make_of(1);
  a = begin();
  WAITS(ask_begin(&one));
  one.does = asks_in_the_callback;
  DONE(bs_table_commit(table, a, NULL));
  HEARD_BY_NOW(&one, BS_DONE);
  ENDED_BY_NOW(&inner[1], BS_NOT_WAITING);
  HEARD_BY_NOW(&inner[0], BS_DONE);
  WANT(one.place == 0 && inner[1].place == 1 && inner[0].place == 2);
  close_table();
}

enum { CHAIN = 1000 };

static size_t commits_made;

/* Each commits, and so begins the next. */
static void commits_too(struct heard *h) {
  commits_made++;
  DONE(bs_table_commit(table, h->txn, NULL));
}

/* More asks than slots: each is told once, in order, and no callback runs within another. */
static void a_chain_of_begins(void) {
  static struct heard all[CHAIN];
  bs_txn a;
  size_t i;
  make_of(1);
  a = begin();
  commits_made = 0;
  for (i = 0; i < CHAIN; i++) {
    WAITS(ask_begin(&all[i]));
    all[i].does = commits_too;
  }
  DONE(bs_table_commit(table, a, NULL));
  WANT(commits_made == CHAIN && calls == CHAIN);
  for (i = 0; i < CHAIN; i++) {
    WANT(BEGUN_BY_NOW(&all[i]).age == a.age + 1 + i);
    WANT(all[i].place == (int)i);
  }
  close_table();
}

/* ------------------------------------------------------------------------------------------------
 * Sessions.
 */

static bs_session rest_at_root(void) {
  bs_session rests = bs_session_of(table, 1);
  bs_txn txn = DONE(bs_session_begin(&rests, NULL)).txn;
  DONE(bs_table_lock(table, txn, root, BS_IX, NULL));
  WANT(DONE(bs_session_commit(&rests, NULL)).count == 1);
  return rests;
}

/* An ask that finds no slot ends the one that has rested longest, and does not wait. */
static void an_ask_ends_one_that_rests(void) {
  bs_session first, second;
  struct heard one, two, three;
  bs_txn a, b;
  make_of(2);
  first = rest_at_root(), second = rest_at_root();
  a = DONE(ask_begin(&one)).txn;
  WANT(a.slot == first.rests.slot);
  b = DONE(ask_begin_again(&two, a.age)).txn;
  WANT(b.slot == second.rests.slot);
  WAITS(ask_begin(&three));
  WANT(calls == 0);
  close_table();
}

/* While an ask waits for a slot nobody rests. */
static void nobody_rests_while_an_ask_waits(void) {
  bs_session own;
  struct heard one;
  bs_txn txn;
  make_of(1);
  own = bs_session_of(table, 4);
  txn = DONE(bs_session_begin(&own, NULL)).txn;
  DONE(bs_table_lock(table, txn, root, BS_IX, NULL));
  WAITS(ask_begin(&one));
  WANT(DONE(bs_session_commit(&own, NULL)).count == 0);
  txn = BEGUN_BY_NOW(&one);
  holds(txn, root, BS_NL);
  DONE(bs_table_commit(table, txn, NULL));
  own = rest_at_root();
  WANT(own.kept == 1);
  close_table();
}

/* ------------------------------------------------------------------------------------------------
 * Tables, memory, refusals.
 */

/* In a table that is ending nobody asks, or takes back. */
static void asks_too_late(struct heard *h) {
  ANSWERS(BS_NO_MANAGER, bs_table_ask_begin(table, NULL, h));
  ANSWERS(BS_NO_MANAGER, bs_table_cancel_begin(table, h));
}

/* A table that ends tells each ask that waits, for a lock or for a slot, once, and wakes those that sleep. */
static void a_table_ends(void) {
  struct timespec later = moment_in(60000000);
  struct heard lock, h[3];
  struct sleeper s[2];
  bs_txn a, b;
  size_t i;
  make_of(2);
  a = begin(), b = begin();
  DONE(bs_table_lock(table, a, root, BS_X, NULL));
  for (i = 0; i < 2; i++) {
    WAITS(ask_begin_until(&h[i], i == 0 ? NULL : &later));
    sleep_for_slot(&s[i], i + 1);
  }
  WAITS(ask_begin_again(&h[2], a.age));
  WAITS(ask(&lock, b, root, BS_X));
  h[0].does = asks_too_late;
  DONE(bs_table_end(table));
  HEARD_BY_NOW(&lock, BS_NO_MANAGER);
  for (i = 0; i < 3; i++) ENDED_BY_NOW(&h[i], BS_NO_MANAGER);
  WANT(lock.place == 0 && h[0].place == 1 && h[1].place == 2 && h[2].place == 3 && calls == 4);
  for (i = 0; i < 2; i++) BACK(&s[i], BS_NO_MANAGER);
  WANT(table->queued == 0);
  DONE(bs_table_free(&table));
}

static void refuses_all(bs_table *none, bs_status status) {
  struct heard h;
  ANSWERS(status, bs_table_ask_begin(none, NULL, &h));
  ANSWERS(status, bs_table_ask_begin_again(none, 1, NULL, &h));
  ANSWERS(status, bs_table_cancel_begin(none, &h));
}

static void begins_that_are_refused(void) {
  static const struct timespec wrong = { 0, -1 };
  struct heard h;
  refuses_all(NULL, BS_NULL_POINTER);
  DONE(make_table(&table, BS_AT_BLOCK, BS_YOUNGEST, 1));
  ANSWERS(BS_BAD_NUMBER, bs_table_ask_begin(table, &wrong, &h));
  ANSWERS(BS_NULL_POINTER, bs_table_ask_begin(table, NULL, &h));
  ANSWERS(BS_NULL_POINTER, bs_table_ask_begin_again(table, 1, NULL, &h));
  ANSWERS(BS_NOT_WAITING, bs_table_cancel_begin(table, &h));
  calls = 0;
  DONE(bs_table_on_end(table, hear, &context_word));
  ANSWERS(BS_BAD_NUMBER, bs_table_ask_begin(table, &wrong, &h));
  ANSWERS(BS_BAD_NUMBER, bs_table_ask_begin_again(table, 1, &wrong, &h));
  WANT(bs_table_hold(table) != NULL);
  refuses_all(table, BS_IN_USE);
  DONE(bs_table_let_go(table));
  begin();
  DONE(bs_table_end(table));
  refuses_all(table, BS_NO_MANAGER);
  WANT(calls == 0);
  DONE(bs_table_free(&table));
}

/* Each allocation of an ask can be refused: then nothing waits, and there is no call. Its end takes no memory. */
static void asks_without_memory(void) {
  struct heard one, two;
  bs_txn a;
  long n;
  make_of(1);
  a = begin();
  for (n = 1;; n++) {
    bs_reply reply;
    refused_allocation = n;
    reply = ask_begin(&one);
    refused_allocation = 0;
    if (reply.status == BS_WAITING) break;
    ANSWERS(BS_NO_MEMORY, reply);
    WANT(table->queued == 0);
    ANSWERS(BS_NOT_WAITING, bs_table_cancel_begin(table, &one));
  }
  WANT(n > 1 && calls == 0);
  WAITS(ask_begin(&two));
  refuse_thread(pthread_self());
  DONE(bs_table_cancel_begin(table, &one));
  ENDED_BY_NOW(&one, BS_NOT_WAITING);
  DONE(bs_table_commit(table, a, NULL));
  refuse_no_thread();
  if (two.end.status == BS_NO_MEMORY) begin();
  else HEARD_BY_NOW(&two, BS_DONE);
  WANT(calls == 2);
  close_table();
}

/* A begin that is refused memory in its turn is told so. The next one has the slot; if there is none, it is free. */
static void a_turn_without_memory(void) {
  struct heard one, two;
  bs_txn a;
  make_of(1);
  a = begin();
  WAITS(ask_begin(&one));
  WAITS(ask_begin(&two));
  refused_begins = 1;
  DONE(bs_table_commit(table, a, NULL));
  ENDED_BY_NOW(&one, BS_NO_MEMORY);
  DONE(bs_table_commit(table, BEGUN_BY_NOW(&two), NULL));
  a = begin();
  WAITS(ask_begin(&one));
  refused_begins = 1;
  DONE(bs_table_commit(table, a, NULL));
  ENDED_BY_NOW(&one, BS_NO_MEMORY);
  begin();
  close_table();
}

/* ------------------------------------------------------------------------------------------------
 * Threads.
 */

static bool is_enough(const unsigned *count, unsigned most) {
  return __atomic_load_n(count, __ATOMIC_SEQ_CST) >= most;
}

enum { SLEEPERS = 8, SLOTS = 4, CLIENTS = 4, SHARE = 200 };

static unsigned served, at_work;

/* Begins and commits until the loop has had its share. */
static void *sleeps_for_slots(void *arg) {
  bool is_first = true;
  while (!is_enough(&served, SHARE)) {
    bs_txn txn = DONE(bs_table_begin_in_turn(table, NULL)).txn;
    if (is_first) __atomic_add_fetch(&at_work, 1, __ATOMIC_SEQ_CST);
    is_first = false;
    nap();
    DONE(bs_table_commit(table, txn, NULL));
  }
  return arg;
}

/* A client of the loop asks for a slot, or has heard of its turn: it commits. Whether it waits. */
static bool serve(struct heard *client, bool waits) {
  bs_reply reply;
  if (waits && calls_of(client) == 0) return true;
  reply = waits ? HEARD(client, BS_DONE) : ask_begin(client);
  if (reply.status == BS_WAITING) return true;
  DONE(bs_table_commit(table, DONE(reply).txn, NULL));
  __atomic_add_fetch(&served, 1, __ATOMIC_SEQ_CST);
  return false;
}

/* An event loop beside threads that sleep for all slots. A begin at once is refused to it while one sleeps; an ask has
 * its turn. */
static void a_loop_begins_its_share(void) {
  pthread_t threads[SLEEPERS];
  struct heard clients[CLIENTS];
  bool waits[CLIENTS] = { false };
  size_t i;
  make_of(SLOTS);
  served = at_work = 0;
  for (i = 0; i < SLEEPERS; i++) start(&threads[i], sleeps_for_slots, NULL);
  while (!is_enough(&at_work, SLEEPERS)) nap();
  while (!is_enough(&served, SHARE)) {
    for (i = 0; i < CLIENTS; i++) waits[i] = serve(&clients[i], waits[i]);
    sched_yield();
  }
  for (i = 0; i < CLIENTS; i++) {
    while (waits[i]) waits[i] = serve(&clients[i], true);
  }
  for (i = 0; i < SLEEPERS; i++) join(threads[i]);
  WANT(table->queued == 0);
  close_table();
}

static unsigned long round_now;

/* Takes the begin back while another thread frees its slot. */
static void *takes_back(void *word) {
  uint64_t dice = 77 + round_now;
  struct timespec pause = { 0, (long)roll(&dice, 40000) };
  nanosleep(&pause, NULL);
  return bs_table_cancel_begin(table, word).status == BS_DONE ? word : NULL;
}

static void *looks_at_the_clock(void *word) {
  while (calls_of((struct heard *)word) == 0) DONE(bs_table_expire(table, NULL));
  return NULL;
}

/* A begin is taken back, or its time is over, at the moment of its turn: it has one end, and no slot is lost. */
static void ends_and_turns(void) {
  uint64_t dice = 88172645463325252u;
  make_of(1);
  for (round_now = 0; round_now < runs; round_now++) {
    bool by_time = round_now % 2 == 0;
    struct timespec until = moment_in(20 + (long)roll(&dice, 60)), pause = { 0, 0 };
    struct heard one;
    pthread_t other;
    void *taken;
    bs_txn a = begin();
    bs_reply end;
    WAITS(ask_begin_until(&one, by_time ? &until : NULL));
    start(&other, by_time ? looks_at_the_clock : takes_back, &one);
    pause.tv_nsec = (long)roll(&dice, 60000);
    nanosleep(&pause, NULL);
    DONE(bs_table_commit(table, a, NULL));
    WANT(pthread_join(other, &taken) == 0);
    while (calls_of(&one) == 0) nap();
    end = one.end;
    if (end.status != BS_DONE) ANSWERS(by_time ? BS_TIMED_OUT : BS_NOT_WAITING, end);
    if (!by_time) WANT((taken == NULL) == (end.status == BS_DONE));
    if (end.status == BS_DONE) DONE(bs_table_commit(table, end.txn, NULL));
  }
  WANT(calls == (int)runs && table->queued == 0);
  close_table();
}

int main(int count, char **words) {
  setvbuf(stdout, NULL, _IONBF, 0);
  if (count > 1) patience = (unsigned)atoi(words[1]);
  if (count > 2) runs = (unsigned long)atoi(words[2]);
  TELL(an_ask_begins_at_once);
  TELL(an_ask_begins_in_its_turn);
  TELL(asks_and_sleepers_are_in_one_queue);
  TELL(several_begin_by_one_call);
  TELL(asked_work_begins_again);
  TELL(a_time_is_over);
  TELL(a_turn_behind_the_time);
  TELL(a_begin_is_taken_back);
  TELL(begins_with_one_word);
  TELL(the_callback_asks);
  TELL(a_chain_of_begins);
  TELL(an_ask_ends_one_that_rests);
  TELL(nobody_rests_while_an_ask_waits);
  TELL(a_table_ends);
  TELL(begins_that_are_refused);
  TELL(asks_without_memory);
  TELL(a_turn_without_memory);
  TELL(a_loop_begins_its_share);
  TELL(ends_and_turns);
  return 0;
}
