/*
 * group_asks.c: stories of a group of tables whose transactions wait without a thread, by asks and lists, or wait for a
 * slot. It looks into the group, whose source it includes.
 */
#include "group_world.h"

/* ------------------------------------------------------------------------------------------------
 * What the group's callback was told.
 */

enum { MOST_TOLD = 64 };

typedef struct told_end {
  bs_txn txn;
  bs_reply end;
  void *word;
  pthread_t thread;
} told_end;

static pthread_mutex_t told_latch = PTHREAD_MUTEX_INITIALIZER;
static told_end told[MOST_TOLD];
static size_t told_count;
static char words[BS_SLOTS]; /* by slot: the word of each ask */
static void (*told_does)(bs_txn txn); /* what the callback does beside, if it is not null */

static void hear(void *context, bs_txn txn, bs_reply end, void *word) {
  told_end *own;
  WANT(context == &told_latch);
  pthread_mutex_lock(&told_latch);
  WANT(told_count < MOST_TOLD);
  own = &told[told_count++];
  own->txn = txn;
  own->end = end;
  own->word = word;
  own->thread = pthread_self();
  pthread_mutex_unlock(&told_latch);
  if (told_does != NULL) told_does(txn);
}

static size_t heard(void) {
  size_t count;
  pthread_mutex_lock(&told_latch);
  count = told_count;
  pthread_mutex_unlock(&told_latch);
  return count;
}

/* The one end that was told since the last such call is that of this transaction. */
static bs_reply tells(bs_txn txn, bs_status status) {
  bs_reply end;
  WANT(heard() == 1);
  end = told[0].end;
  WANT(told[0].txn.slot == txn.slot && told[0].txn.age == txn.age && told[0].word == &words[txn.slot]);
  told_count = 0;
  ANSWERS(status, end);
  want_rules(group);
  return end;
}

static void tells_nobody(void) {
  WANT(heard() == 0);
}

static void listen(void) {
  told_count = 0;
  told_does = NULL;
  DONE(bs_group_on_end(group, hear, &told_latch));
}

/* Asks; the word of a transaction is the same for each. */
static bs_reply ask(bs_txn txn, bs_node node, bs_mode mode) {
  return bs_group_ask_path(group, txn, node, mode, NULL, &words[txn.slot]);
}

static bs_reply ask_until(bs_txn txn, bs_node node, bs_mode mode, struct timespec until) {
  return bs_group_ask_path(group, txn, node, mode, &until, &words[txn.slot]);
}

static bs_reply ask_row(bs_txn txn, bs_node file, uint64_t number, bs_mode mode) {
  const uint64_t key = 200;
  size_t count = bs_group_table(file) == 0 ? 0 : 1; /* a spread file has no index */
  return bs_group_ask_row_path(group, txn, file, number, &key, count, mode, NULL, &words[txn.slot]);
}

static bs_reply lock_row(bs_txn txn, bs_node file, uint64_t number, bs_mode mode) {
  const uint64_t key = 200;
  return bs_group_lock_row_path(group, txn, file, number, &key, bs_group_table(file) == 0 ? 0 : 1, mode, NULL);
}

static bool is_same(bs_node one, bs_node other) {
  return one.key == other.key && one.birth == other.birth;
}

/* The transaction waits for this node, and may request nothing. */
static void waits_for(bs_reply reply, bs_txn txn, bs_node node) {
  bs_group_savepoint savepoint;
  ANSWERS(BS_WAITING, reply);
  WANT(is_same(reply.node, node));
  ANSWERS(BS_TXN_WAITING, bs_group_commit(group, txn));
  ANSWERS(BS_TXN_WAITING, bs_group_renew(group, txn, 1));
  ANSWERS(BS_TXN_WAITING, lock_path(txn, files[1], BS_S));
  ANSWERS(BS_TXN_WAITING, ask(txn, files[1], BS_S));
  ANSWERS(BS_TXN_WAITING, bs_group_try_path(group, txn, files[1], BS_S, 0));
  ANSWERS(BS_TXN_WAITING, bs_group_insert(group, txn, files[1], NULL, 0));
  ANSWERS(BS_TXN_WAITING, bs_group_unlock(group, txn, files[1]));
  ANSWERS(BS_TXN_WAITING, bs_group_mark(group, txn, &savepoint));
  ANSWERS(BS_TXN_WAITING, bs_group_deadline(group, txn, NULL));
  ANSWERS(BS_TXN_WAITING, bs_group_held(group, txn, files[1]));
  want_rules(group);
}

/* ------------------------------------------------------------------------------------------------
 * Asks.
 */

static void wrong_asks_are_refused(void) {
  const struct timespec bad = { 0, 1000000000 };
  bs_txn txn = begun(), nobody = { 5, 77 };
  const uint64_t key = 200;
  struct timespec next;
  ANSWERS(BS_NULL_POINTER, ask(txn, files[1], BS_S));
  ANSWERS(BS_NULL_POINTER, ask_row(txn, row_files[1], 1, BS_S));
  ANSWERS(BS_NULL_POINTER, bs_group_on_end(group, NULL, NULL));
  ANSWERS(BS_NULL_POINTER, bs_group_on_end(NULL, hear, NULL));
  listen();
  ANSWERS(BS_IN_USE, bs_group_on_end(group, hear, &told_latch));
  ANSWERS(BS_NULL_POINTER, bs_group_ask_path(NULL, txn, files[1], BS_S, NULL, NULL));
  ANSWERS(BS_NULL_POINTER, bs_group_ask_row_path(NULL, txn, files[1], 1, &key, 1, BS_S, NULL, NULL));
  ANSWERS(BS_NULL_POINTER, bs_group_ask_row_path(group, txn, row_files[1], 1, NULL, 1, BS_S, NULL, NULL));
  ANSWERS(BS_NULL_POINTER, bs_group_expire(NULL, &next));
  ANSWERS(BS_NULL_POINTER, bs_group_cancel(NULL, txn));
  ANSWERS(BS_NULL_POINTER, bs_group_deadline(NULL, txn, NULL));
  ANSWERS(BS_BAD_NUMBER, ask(txn, files[1], 7));
  ANSWERS(BS_BAD_NUMBER, ask(txn, base, BS_S | BS_INSTANT));
  ANSWERS(BS_BAD_NUMBER, ask_row(txn, row_files[1], 1, BS_S | BS_INSTANT));
  ANSWERS(BS_BAD_NUMBER, ask_until(txn, files[1], BS_S, bad));
  ANSWERS(BS_BAD_NUMBER, bs_group_deadline(group, txn, &bad));
  ANSWERS(BS_NO_SUCH_TXN, ask(nobody, files[1], BS_S));
  ANSWERS(BS_NO_SUCH_TXN, bs_group_cancel(group, nobody));
  ANSWERS(BS_NO_SUCH_TXN, bs_group_deadline(group, nobody, NULL));
  ANSWERS(BS_BAD_MODE, ask(txn, base, BS_NL));
  ANSWERS(BS_NOT_ROWS, ask_row(txn, files[1], 1, BS_S));
  ANSWERS(BS_NOT_ROWS, ask_row(txn, base, 1, BS_S));
  ANSWERS(BS_BAD_KEYS, bs_group_ask_row_path(group, txn, row_files[1], 1, NULL, 0, BS_S, NULL, NULL));
  ANSWERS(BS_NOT_WAITING, bs_group_cancel(group, txn));
  WANT(DONE(bs_group_expire(group, NULL)).count == 0);
  DONE(bs_group_hold(group, 1) != NULL ? bs_group_let_go(group, 1) : bs_call_null());
  WANT(bs_group_hold(group, 1) != NULL);
  ANSWERS(BS_IN_USE, ask(txn, files[1], BS_S));
  DONE(bs_group_let_go(group, 1));
  tells_nobody();
  commit(txn);
}

static void what_can_be_had_is_answered(void) {
  bs_txn txn = begun();
  listen();
  WANT(DONE(ask(txn, records[1][0], BS_X)).mode == BS_X);
  DONE(ask_row(txn, row_files[2], 1, BS_X));
  DONE(ask(txn, areas[2], BS_S));
  DONE(ask(txn, records[3][0], BS_S | BS_INSTANT));
  WANT(held_in(group, 3, txn, records[3][0]) == BS_NL);
  tells_nobody();
  commit(txn);
}

static void ends_are_told(void) {
  bs_txn holder = begun(), txn = begun();
  listen();
  DONE(lock_path(holder, records[1][0], BS_X));
  waits_for(ask(txn, records[1][0], BS_S), txn, records[1][0]);
  tells_nobody();
  commit(holder);
  WANT(pthread_equal(told[0].thread, pthread_self()));
  WANT(tells(txn, BS_DONE).mode == BS_S);
  WANT(DONE(bs_group_held(group, txn, records[1][0])).mode == BS_S);
  commit(txn);
}

/* An ask for a row waits in the main table first, and then in its part. */
static void asks_go_on_from_table_to_table(void) {
  bs_txn strong = begun(), reader = begun(), txn = begun();
  listen();
  DONE(lock_row(reader, row_files[1], 1, BS_S));
  DONE(lock_path(strong, areas[1], BS_S)); /* the area of the index */
  waits_for(ask_row(txn, row_files[1], 1, BS_X), txn, areas[1]);
  commit(strong);
  tells_nobody();
  WANT(sleeps_in(1, txn));
  ANSWERS(BS_TXN_WAITING, bs_group_commit(group, txn));
  commit(reader);
  WANT(DONE(bs_group_held(group, txn, tells(txn, BS_DONE).node)).mode == BS_X);
  WANT(held_in(group, 1, txn, areas[1]) == BS_IX);
  commit(txn);
}

/* So does one for a row of a spread file, whose part is that of the row. */
static void asks_find_the_part_of_a_row(void) {
  bs_node spread = DONE(bs_group_add_spread_file(group, &areas[1], 1)).node;
  bs_node file = DONE(bs_group_file_of_row(group, spread, 7)).node;
  bs_txn strong = begun(), txn = begun();
  listen();
  DONE(lock_path(strong, areas[1], BS_X));
  waits_for(ask_row(txn, spread, 7, BS_X), txn, areas[1]);
  commit(strong);
  tells(txn, BS_DONE);
  WANT(DONE(bs_group_held(group, txn, file)).mode == BS_IX);
  commit(txn);
}

/* A strong lock above is requested while an ask waits in a part: its intentions are copied, as those of a sleeper. */
static void asks_are_visited(void) {
  bs_txn holder = begun(), txn = begun(), strong = begun();
  listen();
  DONE(lock_path(holder, records[1][0], BS_X));
  waits_for(ask(txn, records[1][0], BS_S), txn, records[1][0]);
  waits_for(ask(strong, base, BS_S), strong, base);
  WANT(held_in(group, 0, txn, base) == BS_IS && held_in(group, 0, holder, base) == BS_IX);
  commit(holder);
  WANT(heard() == 2 && told[0].txn.slot == txn.slot && told[1].txn.slot == strong.slot);
  WANT(told[0].end.status == BS_DONE && told[1].end.status == BS_DONE);
  told_count = 0;
  commit(txn);
  commit(strong);
}

/* As long as an ask for a strong lock waits, marks stay; they are cleared with its end. */
static void strong_asks_stay_in_progress(void) {
  bs_txn holder = begun(), strong = begun();
  listen();
  DONE(lock_path(holder, records[1][0], BS_X));
  waits_for(ask_until(strong, areas[0], BS_X, bs_after(1)), strong, areas[0]);
  WANT(marks_in(group, 1) == 1 && marks_in(group, 4) == 1);
  WANT(group_inner_named(&group->tables[0], areas[0])->in_progress == 1);
  while (heard() == 0) DONE(bs_group_expire(group, NULL));
  tells(strong, BS_TIMED_OUT);
  WANT(marks_in(group, 1) == 0 && marks_in(group, 4) == 0);
  WANT(group_inner_named(&group->tables[0], areas[0])->in_progress == 0);
  waits_for(ask(strong, areas[0], BS_X), strong, areas[0]);
  commit(holder);
  WANT(tells(strong, BS_DONE).mode == BS_X);
  WANT(marks_in(group, 1) == 1 && group_inner_named(&group->tables[0], areas[0])->in_progress == 0);
  commit(strong);
  WANT(marks_in(group, 1) == 0);
}

static void times_are_noticed(void) {
  bs_txn holder = begun(), one = begun(), other = begun(), last = begun();
  struct timespec next = { 0, 0 }, far = bs_after(100000), near = bs_after(50000);
  listen();
  DONE(lock_path(holder, base, BS_X));
  waits_for(ask_until(one, records[1][0], BS_S, far), one, base);
  DONE(bs_group_deadline(group, other, &near));
  waits_for(ask(other, records[2][0], BS_S), other, base);
  waits_for(ask(last, records[2][0], BS_S), last, base);
  WANT(DONE(bs_group_expire(group, &next)).count == 2);
  WANT(next.tv_sec == near.tv_sec && next.tv_nsec == near.tv_nsec);
  DONE(bs_group_cancel(group, other));
  tells(other, BS_NOT_WAITING);
  WANT(DONE(bs_group_expire(group, &next)).count == 1 && next.tv_sec == far.tv_sec);
  waits_for(ask_until(other, records[2][0], BS_S, at_once), other, base);
  DONE(bs_group_expire(group, NULL));
  tells(other, BS_TIMED_OUT);
  DONE(bs_group_abort(group, one));
  tells(one, BS_NOT_WAITING);
  ANSWERS(BS_NO_SUCH_TXN, bs_group_commit(group, one));
  commit(holder);
  tells(last, BS_DONE);
  commit(other);
  commit(last);
}

/* The earliest of the times in any table is the next. */
static void the_earliest_time_is_next(void) {
  bs_txn holder = begun(), one = begun(), other = begun();
  struct timespec next = { 0, 0 }, far = bs_after(100000), near = bs_after(50000);
  listen();
  DONE(lock_path(holder, records[1][0], BS_X));
  DONE(lock_path(holder, records[2][0], BS_X));
  waits_for(ask_until(one, records[1][0], BS_S, near), one, records[1][0]);
  waits_for(ask_until(other, records[2][0], BS_S, far), other, records[2][0]);
  WANT(DONE(bs_group_expire(group, &next)).count == 2);
  WANT(next.tv_sec == near.tv_sec && next.tv_nsec == near.tv_nsec);
  DONE(bs_group_cancel(group, one));
  tells(one, BS_NOT_WAITING);
  commit(holder);
  tells(other, BS_DONE);
  commit(one);
  commit(other);
}

/* The limit of a transaction holds in each table, whether it joins it before or after. */
static void deadlines_hold_in_each_table(void) {
  bs_txn holder = begun(), txn = begun();
  listen();
  DONE(lock_path(holder, records[1][0], BS_X));
  DONE(lock_path(holder, records[2][0], BS_X));
  DONE(lock_path(txn, files[2], BS_IS));
  DONE(bs_group_deadline(group, txn, &at_once));
  ANSWERS(BS_TIMED_OUT, lock_path(txn, records[1][0], BS_S));
  ANSWERS(BS_TIMED_OUT, lock_path(txn, records[2][0], BS_S));
  ANSWERS(BS_TIMED_OUT, lock_path(txn, areas[1], BS_X));
  DONE(bs_group_deadline(group, txn, NULL));
  waits_for(ask(txn, records[1][0], BS_S), txn, records[1][0]);
  DONE(bs_group_expire(group, NULL));
  tells_nobody();
  DONE(bs_group_cancel(group, txn));
  tells(txn, BS_NOT_WAITING);
  waits_for(ask(txn, areas[1], BS_X), txn, areas[1]);
  DONE(bs_group_expire(group, NULL));
  tells_nobody();
  DONE(bs_group_cancel(group, txn));
  tells(txn, BS_NOT_WAITING);
  DONE(bs_group_deadline(group, txn, &at_once));
  txn = DONE(bs_group_renew(group, txn, txn.age)).txn;
  waits_for(ask(txn, records[2][0], BS_S), txn, records[2][0]);
  DONE(bs_group_expire(group, NULL));
  tells_nobody();
  commit(holder);
  tells(txn, BS_DONE);
  commit(txn);
}

static void sleepers_are_cancelled(void) {
  bs_txn holder = begun(), txn = begun();
  sleeper own;
  DONE(lock_path(holder, base, BS_X));
  sleep_in(&own, 0, txn, records[1][0], BS_S);
  DONE(bs_group_cancel(group, txn));
  wakes_with(&own, BS_NOT_WAITING);
  ANSWERS(BS_NOT_WAITING, bs_group_cancel(group, txn));
  commit(holder);
  holder = begun();
  DONE(lock_path(holder, records[1][0], BS_X));
  sleep_in(&own, 1, txn, records[1][0], BS_S);
  DONE(bs_group_cancel(group, txn));
  wakes_with(&own, BS_NOT_WAITING);
  commit(holder);
  commit(txn);
}

/* Two asks wait for each other, in two parts: who calls bs_group_expire finds that. */
static void cross(bs_txn one, bs_txn other) {
  DONE(lock_path(one, records[1][0], BS_X));
  DONE(lock_path(other, records[2][0], BS_X));
  waits_for(ask(one, records[2][0], BS_X), one, records[2][0]);
  waits_for(ask(other, records[1][0], BS_X), other, records[1][0]);
  tells_nobody();
}

static void one_of_a_cross_falls(bs_txn one, bs_txn other) {
  tells(other, BS_VICTIM);
  ANSWERS(BS_TXN_CONDEMNED, lock_path(other, files[3], BS_S));
  ANSWERS(BS_TXN_CONDEMNED, ask(other, files[3], BS_S));
  DONE(bs_group_abort(group, other));
  tells(one, BS_DONE);
  commit(one);
}

static void cycles_of_asks_end(void) {
  bs_txn one = begun(), other = DONE(bs_group_begin_again(group, one.age + 1)).txn;
  listen();
  cross(one, other);
  while (heard() == 0) DONE(bs_group_expire(group, NULL));
  one_of_a_cross_falls(one, other);
}

static void a_thread_watches(void) {
  bs_txn one = begun(), other = DONE(bs_group_begin_again(group, one.age + 1)).txn;
  ANSWERS(BS_NULL_POINTER, bs_group_watch_thread(NULL, 1));
  listen();
  WANT(group_ahead(UINT64_MAX).tv_sec == INT64_MAX / 1000000000);
  DONE(bs_group_watch_thread(group, 1000000));
  ANSWERS(BS_IN_USE, bs_group_watch_thread(group, 1000000));
  DONE(lock_path(one, records[1][0], BS_X));
  DONE(lock_path(other, records[2][0], BS_X));
  ANSWERS(BS_WAITING, ask(one, records[2][0], BS_X));
  ANSWERS(BS_WAITING, ask(other, records[1][0], BS_X));
  while (heard() == 0) nap();
  one_of_a_cross_falls(one, other);
}

/* A sleeper in a third table ends it too, and tells it after all latches are released. */
static uint32_t aborted; /* atomic */

static void abort_in_callback(bs_txn txn) {
  DONE(bs_group_abort(group, txn));
  __atomic_fetch_add(&aborted, 1, __ATOMIC_ACQ_REL);
}

static void sleepers_end_cycles_of_asks(void) {
  bs_txn one = begun(), other = DONE(bs_group_begin_again(group, one.age + 1)).txn, last = begun(), holder = begun();
  sleeper own;
  listen();
  DONE(lock_path(holder, records[3][0], BS_X));
  sleep_in(&own, 3, last, records[3][0], BS_S);
  told_does = abort_in_callback;
  aborted = 0;
  DONE(lock_path(one, records[1][0], BS_X));
  DONE(lock_path(other, records[2][0], BS_X));
  ANSWERS(BS_WAITING, ask(one, records[2][0], BS_X));
  ANSWERS(BS_WAITING, ask(other, records[1][0], BS_X));
  while (__atomic_load_n(&aborted, __ATOMIC_ACQUIRE) < 2) nap();
  WANT(told[0].end.status == BS_VICTIM && told[1].end.status == BS_DONE);
  WANT(told[0].txn.slot == other.slot && told[1].txn.slot == one.slot);
  commit(holder);
  wakes_with(&own, BS_DONE);
  commit(last);
}

static bs_reply index_records(bs_txn txn, bs_node area, const uint64_t *keys) {
  return bs_group_index_records(group, txn, &area, 1, files[1], NULL, 0, records[1], keys, RECORDS);
}

static void new_indexes_end_asks(void) {
  const uint64_t keys[RECORDS] = { 1, 2, 3, 4 };
  bs_txn schema = begun(), row = begun(), record = begun(), strong = begun();
  listen();
  DONE(lock_path(schema, row_files[1], BS_X));
  DONE(lock_path(schema, indexes[1], BS_X));
  ANSWERS(BS_WAITING, ask_row(row, row_files[1], 1, BS_X));
  DONE(bs_group_index_by(group, schema, &areas[1], 1, row_files[1], NULL, 0));
  tells(row, BS_BAD_KEYS);
  commit(schema);
  commit(row);
  schema = begun();
  DONE(lock_path(schema, files[1], BS_X));
  waits_for(ask(record, records[1][0], BS_X), record, files[1]);
  DONE(lock_path(strong, areas[2], BS_S));
  /* The transaction of the schema needs an intention on the area, which another reads: so it makes the index elsewhere. */
  ANSWERS(BS_WOULD_BLOCK, index_records(schema, areas[2], keys));
  DONE(index_records(schema, areas[0], keys));
  tells_nobody();
  commit(schema);
  tells(record, BS_DONE);
  commit(record);
  commit(strong);
}

/* Ends of one command are told by rising slots: so the callback of the first comes before the second is told. */
static bs_txn callback_other;

static bs_txn begin_two(void) {
  bs_txn one = begun();
  callback_other = begun();
  if (one.slot > callback_other.slot) {
    bs_txn lower = callback_other;
    callback_other = one;
    one = lower;
  }
  return one;
}

static void call_in_callback(bs_txn txn) {
  ANSWERS(BS_IN_USE, lock_path(txn, files[3], BS_S));
  ANSWERS(BS_IN_USE, lock_row(txn, row_files[3], 1, BS_S));
  ANSWERS(BS_IN_USE, bs_group_await(group, txn, NULL));
  ANSWERS(BS_IN_USE, bs_group_begin_in_turn(group, NULL));
  ANSWERS(BS_IN_USE, bs_group_end(group));
  DONE(bs_group_try_path(group, txn, files[3], BS_S, 0));
  DONE(ask(txn, records[4][0], BS_S));
  told_does = NULL;
  /* Its end is told after this one, by this thread. */
  ANSWERS(BS_TXN_WAITING, bs_group_abort(group, callback_other));
  commit(txn);
}

static void callbacks_call(void) {
  bs_txn holder = begun(), one = begin_two();
  listen();
  DONE(lock_path(holder, records[1][0], BS_X));
  waits_for(ask(one, records[1][0], BS_S), one, records[1][0]);
  waits_for(ask(callback_other, records[1][0], BS_S), callback_other, records[1][0]);
  told_does = call_in_callback;
  commit(holder);
  WANT(heard() == 2 && told[1].txn.slot == callback_other.slot && told[1].end.status == BS_DONE);
  ANSWERS(BS_NO_SUCH_TXN, bs_group_commit(group, one));
  commit(callback_other);
}

/* A path to a part takes the place of a victim in a queue of the main table: that one is told before the part's latch is
 * acquired, so its callback may use the part. */
static void abort_and_try_in_callback(bs_txn txn) {
  DONE(bs_group_abort(group, txn));
  DONE(bs_group_try_path(group, callback_other, records[2][1], BS_S, 0));
}

static void victims_are_told_before_a_part_is_entered(void) {
  bs_txn reader = DONE(bs_group_begin_again(group, 0)).txn, holder = DONE(bs_group_begin_again(group, 1)).txn;
  bs_txn victim = begun();
  callback_other = begun();
  listen();
  DONE(lock_path(holder, areas[1], BS_S));
  DONE(lock_path(reader, areas[2], BS_X));
  waits_for(ask(victim, areas[1], BS_X), victim, areas[1]);
  waits_for(ask(holder, areas[2], BS_S), holder, areas[2]);
  told_does = abort_and_try_in_callback;
  DONE(lock_path(reader, records[2][0], BS_S));
  told_does = NULL;
  tells(victim, BS_VICTIM);
  commit(reader);
  tells(holder, BS_DONE);
  commit(holder);
  commit(callback_other);
}

/* The callback ends the transaction whose call tells it, and the marks for which that looks: the call is answered so, and
 * acquires nothing for a slot that is free. */
static bs_txn callback_caller, callback_holder;

static void end_caller_in_callback(bs_txn txn) {
  if (txn.slot == callback_holder.slot) {
    DONE(bs_group_commit(group, txn));
    return;
  }
  DONE(bs_group_abort(group, txn));
  DONE(bs_group_abort(group, callback_caller));
}

static void callers_are_ended_by_callbacks(void) {
  bs_txn victim, user;
  callback_caller = DONE(bs_group_begin_again(group, 0)).txn;
  callback_holder = DONE(bs_group_begin_again(group, 1)).txn;
  victim = begun();
  listen();
  DONE(lock_path(callback_holder, areas[1], BS_S));
  DONE(lock_path(user = begun(), records[2][1], BS_S)); /* so the part is used, and its marks do not stay */
  commit(user);
  DONE(lock_path(callback_caller, areas[2], BS_X));
  waits_for(ask(victim, areas[1], BS_X), victim, areas[1]);
  waits_for(ask(callback_holder, areas[2], BS_S), callback_holder, areas[2]);
  told_does = end_caller_in_callback;
  ANSWERS(BS_NO_SUCH_TXN, lock_path(callback_caller, records[2][0], BS_S));
  WANT(heard() == 2);
  want_rest(group);
}

/* The second waits in no table by then: it is on its way from the main table to its part. */
static void cancel_in_callback(bs_txn txn) {
  if (txn.slot == callback_other.slot) return;
  DONE(bs_group_cancel(group, callback_other));
}

static void asks_are_cancelled_between_tables(void) {
  bs_txn strong = begun(), one = begin_two();
  listen();
  DONE(lock_path(strong, base, BS_X));
  waits_for(ask(one, records[1][0], BS_S), one, base);
  waits_for(ask(callback_other, records[2][0], BS_S), callback_other, base);
  told_does = cancel_in_callback;
  commit(strong);
  WANT(heard() == 2 && told[0].end.status == BS_DONE && told[1].end.status == BS_NOT_WAITING);
  WANT(told[1].txn.slot == callback_other.slot && held_in(group, 2, callback_other, records[2][0]) == BS_NL);
  WANT(group_slot_at(group, callback_other.slot)->ask->cancelled == 0);
  told_does = NULL;
  DONE(ask(callback_other, records[2][0], BS_S));
  commit(one);
  commit(callback_other);
}

/* A cancel of a transaction that has ended takes no later one's place. */
static void late_cancels_change_nothing(void) {
  bs_txn holder = begun(), txn = begun();
  group_ask *asked;
  listen();
  DONE(lock_path(holder, records[1][0], BS_X));
  waits_for(ask(txn, records[1][0], BS_S), txn, records[1][0]);
  asked = group_slot_at(group, txn.slot)->ask;
  group_cancel_ask(asked, txn.age);
  group_cancel_ask(asked, txn.age - 1);
  WANT(asked->cancelled == txn.age);
  commit(holder);
  tells(txn, BS_DONE);
  ANSWERS(BS_NOT_WAITING, bs_group_cancel(group, txn));
  commit(txn);
}

static void refused_memory_asks_for_nothing(void) {
  bs_txn holder = begun(), txn = begun();
  uint64_t next;
  bs_reply reply;
  listen();
  DONE(lock_path(holder, base, BS_X));
  for (next = 1, reply.status = BS_NO_MEMORY; reply.status == BS_NO_MEMORY; next++) {
    refused_allocation = next;
    reply = ask_row(txn, row_files[1], 1, BS_S);
    refused_allocation = 0;
    want_rules(group);
  }
  WANT(next > 3);
  ANSWERS(BS_WAITING, reply);
  commit(holder);
  tells(txn, BS_DONE);
  commit(txn);
}

/* ------------------------------------------------------------------------------------------------
 * Lists.
 */

static void lists_are_made_in_order(void) {
  bs_notices notices;
  bs_node parents[1];
  bs_command list[8];
  notices.count = 3;
  parents[0] = bs_made(1);
  list[0] = bs_do(BS_DO_BEGIN, bs_begun());
  list[1] = bs_do(BS_DO_ADD_INNER, bs_begun());
  list[1].parents = &base;
  list[1].parent_count = 1;
  list[2] = bs_do(BS_DO_ADD_ROW_FILE, bs_begun());
  list[2].parents = parents;
  list[2].parent_count = 1;
  list[3] = bs_do(BS_DO_LOCK_ROW_PATH, bs_begun());
  list[3].file = bs_made(2);
  list[3].number = 7;
  list[3].mode = BS_X;
  list[4] = bs_do_at(BS_DO_LOCK, bs_begun(), records[1][0], BS_X);
  list[4].told = &notices;
  list[5] = bs_do_at(BS_DO_TRY_PATH, bs_begun(), areas[0], BS_IS);
  list[6] = bs_do(BS_DO_COMMIT, bs_begun());
  list[7] = bs_do(BS_DO_COMMIT, bs_begun());
  WANT(bs_group_run(group, list, 8) == 7);
  WANT(list[7].reply.status == BS_NO_SUCH_TXN && notices.count == 0 && list[4].reply.mode == BS_X);
  WANT(bs_group_table(list[2].reply.node) != 0 && bs_group_table(list[1].reply.node) == 0);
  WANT(bs_group_run(group, NULL, 3) == 0 && bs_group_run(group, list, 0) == 0);
  list[0] = bs_do(BS_DO_BEGIN, bs_begun());
  list[1] = bs_do_at(BS_DO_LOCK, bs_begun(), files[1], BS_X);
  list[2] = bs_do_at(BS_DO_MOVE, bs_begun(), files[1], BS_NL);
  list[2].parents = &areas[1];
  list[2].parent_count = 1;
  list[3] = bs_do(BS_DO_COMMIT, bs_begun());
  WANT(bs_group_run(group, list, 4) == 4);
  list[0] = bs_do(1000, bs_begun());
  WANT(bs_group_run(group, list, 2) == 0);
  WANT(list[0].reply.status == BS_BAD_NUMBER && list[1].reply.status == BS_NOT_MADE);
  WANT(bs_group_run(NULL, list, 1) == 0);
}

static void lists_wait(void) {
  bs_txn holder = begun(), txn = begun();
  bs_command list[3];
  bs_reply reply;
  listen();
  DONE(lock_path(holder, records[1][0], BS_X));
  list[0] = bs_do_at(BS_DO_LOCK_PATH, txn, records[2][0], BS_X);
  list[1] = bs_do_at(BS_DO_LOCK_PATH, txn, records[1][0], BS_S);
  list[2] = bs_do(BS_DO_COMMIT, txn);
  WANT(bs_group_run(group, list, 3) == 1);
  WANT(list[2].reply.status == BS_NOT_MADE);
  waits_for(list[1].reply, txn, records[1][0]);
  reply.status = bs_group_run(group, list + 1, 2) == 0 ? list[1].reply.status : BS_DONE;
  ANSWERS(BS_TXN_WAITING, reply);
  ANSWERS(BS_TIMED_OUT, bs_group_await(group, txn, &at_once));
  DONE(bs_group_deadline(group, txn, &at_once));
  WANT(bs_group_run(group, list + 1, 2) == 0);
  ANSWERS(BS_TIMED_OUT, bs_group_await(group, txn, NULL));
  DONE(bs_group_deadline(group, txn, NULL));
  WANT(bs_group_run(group, list + 1, 2) == 0);
  waits_for(list[1].reply, txn, records[1][0]);
  commit(holder);
  WANT(DONE(bs_group_await(group, txn, NULL)).mode == BS_S);
  DONE(bs_group_await(group, txn, NULL));
  WANT(bs_group_run(group, list + 1, 2) == 2);
  txn = begun();
  ANSWERS(BS_NOT_WAITING, bs_group_await(group, txn, NULL));
  ANSWERS(BS_NULL_POINTER, bs_group_await(NULL, txn, NULL));
  commit(txn);
  ANSWERS(BS_NO_SUCH_TXN, bs_group_await(group, txn, NULL));
}

/* Asks and lists that wait for what moves begin anew: those whose path lacks something by then wait in the main table. */
static void asks_begin_anew_after_a_move(void) {
  bs_txn mover = begun(), reader = begun(), writer = begun(), rows = begun(), listed = begun();
  bs_command list = bs_do(BS_DO_LOCK_ROW_PATH, listed);
  const uint64_t key = 200;
  listen();
  list.file = row_files[1];
  list.number = 8;
  list.keys = &key;
  list.key_count = 1;
  list.mode = BS_X;
  DONE(lock_path(mover, files[1], BS_X));
  DONE(lock_path(mover, indexes[1], BS_X));
  waits_for(ask(writer, records[1][0], BS_X), writer, files[1]);
  waits_for(ask_row(rows, row_files[1], 7, BS_X), rows, indexes[1]);
  WANT(bs_group_run(group, &list, 1) == 0 && list.reply.status == BS_WAITING);
  DONE(lock_path(mover, areas[2], BS_IX));
  ANSWERS(BS_WAITING, ask(reader, areas[2], BS_S));
  DONE(bs_group_move(group, mover, files[1], &areas[2], 1));
  DONE(bs_group_move(group, mover, indexes[1], &areas[2], 1));
  index_areas[1] = 2;
  want_rules(group);
  tells_nobody();
  WANT(sleeps_in(0, writer) && sleeps_in(0, rows) && sleeps_in(0, listed));
  commit(mover);
  tells(reader, BS_DONE);
  WANT(sleeps_in(0, writer) && sleeps_in(0, rows) && sleeps_in(0, listed));
  commit(reader);
  WANT(heard() == 2 && told[0].end.status == BS_DONE && told[1].end.status == BS_DONE);
  told_count = 0;
  DONE(bs_group_await(group, listed, NULL));
  WANT(held_in(group, 1, writer, areas[2]) == BS_IX && held_in(group, 1, rows, areas[2]) == BS_IX);
  commit(writer);
  commit(rows);
  commit(listed);
}

/* A thread that awaits what a list left waiting. */
typedef struct awaiter {
  pthread_t thread;
  bs_txn txn;
  bs_reply reply;
} awaiter;

static void *await_it(void *place) {
  awaiter *own = (awaiter *)place;
  own->reply = bs_group_await(group, own->txn, NULL);
  return NULL;
}

static void run_one(bs_txn txn, bs_node node, bs_mode mode, bs_status status) {
  bs_command list = bs_do_at(BS_DO_LOCK, txn, node, mode);
  bs_group_run(group, &list, 1);
  ANSWERS(status, list.reply);
}

static void awaits_are_woken(void) {
  bs_txn strong = begun(), reader = begun(), txn = begun();
  awaiter own;
  own.txn = txn;
  DONE(lock_row(reader, row_files[1], 200, BS_S));
  DONE(lock_path(strong, areas[0], BS_S));
  run_one(txn, row_files[1], BS_X, BS_WAITING);
  start(&own.thread, await_it, &own);
  nap();
  commit(strong);
  nap();
  commit(reader);
  join(own.thread);
  WANT(DONE(own.reply).mode == BS_X);
  commit(txn);
}

/* Who awaits looks for cycles meanwhile. */
static void cycles_of_lists_end(void) {
  bs_txn one = begun(), other = DONE(bs_group_begin_again(group, one.age + 1)).txn;
  DONE(lock_path(one, records[1][0], BS_X));
  DONE(lock_path(other, records[2][0], BS_X));
  run_one(one, records[2][0], BS_X, BS_WAITING);
  run_one(other, records[1][0], BS_X, BS_WAITING);
  ANSWERS(BS_VICTIM, bs_group_await(group, other, NULL));
  DONE(bs_group_abort(group, other));
  DONE(bs_group_await(group, one, NULL));
  commit(one);
}

static void the_first_is_acquired(void) {
  bs_txn holder = begun(), txn = begun();
  bs_command list[4];
  DONE(lock_path(holder, records[1][0], BS_X));
  list[0] = bs_do_at(BS_DO_TRY, txn, records[1][0], BS_S);
  list[1] = bs_do_at(BS_DO_TRY_PATH, txn, records[2][0], BS_S);
  list[2] = bs_do_at(BS_DO_TRY_PATH, txn, records[3][0], BS_S);
  list[3] = bs_do_at(BS_DO_LOCK, txn, records[4][0], BS_S);
  WANT(bs_group_try_first(group, list, 4) == 1);
  WANT(list[0].reply.status == BS_WOULD_BLOCK && list[1].reply.status == BS_DONE);
  WANT(list[2].reply.status == BS_NOT_MADE && held_in(group, 3, txn, records[3][0]) == BS_NL);
  WANT(bs_group_try_first(group, list + 3, 1) == 0 && list[3].reply.status == BS_BAD_NUMBER);
  WANT(bs_group_try_first(group, list, 1) == 1 && bs_group_try_first(group, NULL, 2) == 2);
  commit(holder);
  commit(txn);
}

static void transactions_are_renewed(void) {
  bs_txn txn = begun(), next;
  DONE(lock_path(txn, records[1][0], BS_X));
  DONE(lock_path(txn, areas[2], BS_S));
  next = DONE(bs_group_renew(group, txn, txn.age)).txn;
  WANT(next.slot == txn.slot && next.age > txn.age);
  WANT(group_slot_at(group, next.slot)->since == txn.age);
  ANSWERS(BS_NO_SUCH_TXN, bs_group_renew(group, txn, 1));
  WANT(DONE(bs_group_held(group, next, records[1][0])).mode == BS_NL);
  commit(next);
}

/* ------------------------------------------------------------------------------------------------
 * Begins in turn. The group has two slots.
 */

typedef struct beginner {
  pthread_t thread;
  struct timespec until;
  bool has_time;
  bs_reply reply;
  bool is_over; /* atomic */
} beginner;

static void *begin_it(void *place) {
  beginner *own = (beginner *)place;
  own->reply = bs_group_begin_again_in_turn(group, 1, own->has_time ? &own->until : NULL);
  __atomic_store_n(&own->is_over, true, __ATOMIC_RELEASE);
  return NULL;
}

/* How many begins are in the queue, or are the next. */
static uint64_t turns(void) {
  uint64_t count = 0;
  uint32_t slot;
  const bs_manager *m;
  if (__atomic_load_n(&group->queued, __ATOMIC_ACQUIRE) == 0) return 0;
  pthread_mutex_lock(&group->turns.latch);
  m = bs_table_hold(group->turns.table);
  for (slot = 0; m != NULL && slot < BS_SLOTS; slot++) count += bs_living(m, slot).status == BS_DONE;
  if (m != NULL) DONE(bs_table_let_go(group->turns.table));
  pthread_mutex_unlock(&group->turns.latch);
  return m == NULL ? 0 : count - 1; /* one has the gate */
}

static void sleep_for_turn(beginner *own, uint64_t before) {
  memset(own, 0, sizeof *own);
  start(&own->thread, begin_it, own);
  while (turns() != before + 1) nap();
}

static void begins_are_served_in_order(void) {
  bs_txn one = DONE(bs_group_begin_in_turn(group, NULL)).txn, other = begun();
  beginner first, second, third;
  struct timespec soon = bs_after(2);
  const struct timespec bad = { 0, 1000000000 };
  ANSWERS(BS_NULL_POINTER, bs_group_begin_in_turn(NULL, NULL));
  ANSWERS(BS_BAD_NUMBER, bs_group_begin_in_turn(group, &bad));
  ANSWERS(BS_TIMED_OUT, bs_group_begin_in_turn(group, &soon));
  sleep_for_turn(&first, 0);
  sleep_for_turn(&second, 1);
  sleep_for_turn(&third, 2);
  soon = bs_after(2);
  ANSWERS(BS_TIMED_OUT, bs_group_begin_in_turn(group, &soon));
  ANSWERS(BS_TOO_MANY_TXNS, bs_group_begin(group));
  commit(one);
  join(first.thread);
  WANT(!__atomic_load_n(&second.is_over, __ATOMIC_ACQUIRE));
  ANSWERS(BS_TOO_MANY_TXNS, bs_group_begin(group));
  DONE(bs_group_abort(group, other));
  join(second.thread);
  WANT(!__atomic_load_n(&third.is_over, __ATOMIC_ACQUIRE));
  commit(DONE(first.reply).txn);
  join(third.thread);
  commit(DONE(second.reply).txn);
  WANT(group_slot_at(group, third.reply.txn.slot)->since == 1);
  commit(DONE(third.reply).txn);
  /* A begin that came later gets no slot that is free for who sleeps. */
  __atomic_fetch_add(&group->queued, 1, __ATOMIC_SEQ_CST);
  ANSWERS(BS_TOO_MANY_TXNS, bs_group_begin(group));
  __atomic_fetch_sub(&group->queued, 1, __ATOMIC_SEQ_CST);
  one = DONE(bs_group_begin_in_turn(group, NULL)).txn;
  commit(one);
}

/* Several threads for two slots: all are served, and none is lost. */
enum { QUEUERS = 6, ROUNDS = 200 };

static void *queue_often(void *place) {
  size_t round;
  (void)place;
  for (round = 0; round < ROUNDS; round++) commit(DONE(bs_group_begin_in_turn(group, NULL)).txn);
  return NULL;
}

static void no_turn_is_lost(void) {
  pthread_t threads[QUEUERS];
  size_t i;
  for (i = 0; i < QUEUERS; i++) start(&threads[i], queue_often, NULL);
  for (i = 0; i < QUEUERS; i++) join(threads[i]);
  WANT(group->queued == 0);
}

/* ------------------------------------------------------------------------------------------------
 * Ends of a group.
 */

static void ends_tell_all(void) {
  bs_txn holder = begun(), one, other, last;
  beginner queued;
  awaiter own;
  listen();
  one = begun();
  other = begun();
  last = begun();
  own.txn = last;
  DONE(lock_path(holder, base, BS_X));
  waits_for(ask(one, records[1][0], BS_S), one, base);
  waits_for(ask(other, areas[1], BS_X), other, base);
  run_one(last, records[1][0], BS_X, BS_WAITING);
  start(&own.thread, await_it, &own);
  while (bs_group_begin(group).status == BS_DONE) continue;
  sleep_for_turn(&queued, 0);
  DONE(bs_group_watch_thread(group, 1000));
  DONE(bs_group_end(group));
  WANT(heard() == 2 && told[0].end.status == BS_NO_MANAGER && told[1].end.status == BS_NO_MANAGER);
  join(own.thread);
  ANSWERS(BS_NO_MANAGER, own.reply);
  join(queued.thread);
  ANSWERS(BS_NO_MANAGER, queued.reply);
  ANSWERS(BS_NO_MANAGER, ask(one, records[1][0], BS_S));
  ANSWERS(BS_NO_MANAGER, bs_group_cancel(group, one));
  ANSWERS(BS_NO_MANAGER, bs_group_expire(group, NULL));
  ANSWERS(BS_NO_MANAGER, bs_group_await(group, last, NULL));
  ANSWERS(BS_NO_MANAGER, bs_group_begin_in_turn(group, NULL));
  ANSWERS(BS_NO_MANAGER, bs_group_watch_thread(group, 1));
  DONE(bs_group_free(&group));
}

/* ------------------------------------------------------------------------------------------------
 * The program.
 */

#define STORY(name) { #name, name, BS_SLOTS }

static const struct {
  const char *name;
  void (*play)(void);
  uint32_t slots;
} stories[] = {
  STORY(wrong_asks_are_refused), STORY(what_can_be_had_is_answered), STORY(ends_are_told),
  STORY(asks_go_on_from_table_to_table), STORY(asks_find_the_part_of_a_row), STORY(asks_are_visited),
  STORY(strong_asks_stay_in_progress), STORY(times_are_noticed), STORY(the_earliest_time_is_next),
  STORY(deadlines_hold_in_each_table), STORY(sleepers_are_cancelled), STORY(cycles_of_asks_end),
  STORY(a_thread_watches), STORY(sleepers_end_cycles_of_asks), STORY(new_indexes_end_asks), STORY(callbacks_call),
  STORY(victims_are_told_before_a_part_is_entered),
  STORY(callers_are_ended_by_callbacks), STORY(asks_are_cancelled_between_tables),
  STORY(late_cancels_change_nothing), STORY(refused_memory_asks_for_nothing), STORY(lists_are_made_in_order),
  STORY(lists_wait), STORY(asks_begin_anew_after_a_move), STORY(awaits_are_woken), STORY(cycles_of_lists_end), STORY(the_first_is_acquired),
  STORY(transactions_are_renewed),
  { "begins_are_served_in_order", begins_are_served_in_order, 2 }, { "no_turn_is_lost", no_turn_is_lost, 2 },
};

static void play_stories(uint32_t keeps) {
  size_t i;
  for (i = 0; i < sizeof stories / sizeof stories[0]; i++) {
    story = stories[i].name;
    feed(20);
    world_keeps = keeps;
    make_world(stories[i].slots);
    stories[i].play();
    end_world();
    printf("%s%s\n", story, keeps != 0 ? ", kept" : "");
  }
  world_keeps = 0;
}

int main(void) {
  setvbuf(stdout, NULL, _IOLBF, 0);
  play_stories(0);
  play_stories(16);
  story = "ends_tell_all";
  make_world(8);
  ends_tell_all();
  printf("%s\n", story);
  story = "all memory is given back";
  WANT(blocks_out() == 0);
  return 0;
}
