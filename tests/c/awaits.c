/*
 * awaits.c: stories of waiters that the library keeps: a lock, a path and a row that a call left waiting are registered,
 * and go on one command at a time when the call that ended their wait says so; a lock for an instant is released as it is
 * granted; waits end at their time. Each is a function that ends the program with status 1 at the first answer that is
 * not as wanted, and else prints its name.
 */
#include "burlapslate.h"
#include "checks.h"
#include "same.h"

static bs_notices told;
static bs_manager manager = BS_NO_MANAGER_HERE;
static bs_manager *const m = &manager;
/* The root, a file with one record, a file of rows, and three transactions. */
static bs_node db, file, record, rows;
static bs_txn a, b, c;

/* A wait without a time at which it ends. */
#define NEVER UINT64_MAX

static void begin(const char *name) {
  bs_options options = { 0 };
  bs_txn maker;
  story = name;
  options.transactions = 8;
  DONE(bs_make(m, &options));
  db = DONE(bs_add_inner(m, NULL, 0)).node;
  file = DONE(bs_add_file(m, &db, 1)).node;
  rows = DONE(bs_add_row_file(m, &db, 1)).node;
  maker = DONE(bs_begin(m)).txn;
  DONE(bs_lock_path(m, maker, file, BS_IX, &told));
  record = DONE(bs_insert(m, maker, file, NULL, 0)).node;
  DONE(bs_commit(m, maker, &told));
  a = DONE(bs_begin(m)).txn;
  b = DONE(bs_begin(m)).txn;
  c = DONE(bs_begin(m)).txn;
}

/* Nobody's wait is over. */
static void nobody(int line) {
  answered(bs_call_next_waiter(m), BS_NO_PLACE, "the next waiter", __FILE__, line);
  answered(bs_call_go_on(m, &told), BS_NO_PLACE, "the answer", __FILE__, line);
}

#define NOBODY() nobody(__LINE__)

static void end(void) {
  NOBODY();
  DONE(bs_end(m));
  puts(story);
}

/* The next waiter that goes on is this transaction, by this kind of command; with this answer. */
static bs_reply goes(bs_txn txn, uint64_t kind, bs_status status, bs_mode mode, int line) {
  bs_reply next = answered(bs_call_next_waiter(m), BS_DONE, "the next waiter", __FILE__, line), came;
  wanted(same_txn(next.txn, txn), "the transaction that is next", __FILE__, line);
  wanted(next.count == kind, "what it does", __FILE__, line);
  came = answered(bs_call_go_on(m, &told), status, "the answer", __FILE__, line);
  wanted(same_txn(came.txn, txn), "the transaction that goes on", __FILE__, line);
  wanted(came.mode == mode, "the mode", __FILE__, line);
  wanted(came.count == (bs_call_next_waiter(m).status == BS_DONE), "whether a wait is over after it", __FILE__, line);
  return came;
}

#define ENDS(txn, status, mode) goes((txn), 0, (status), (mode), __LINE__)
#define GIVES_BACK(txn, mode) goes((txn), 1, BS_DONE, (mode), __LINE__)
#define LOCKS_ON(txn, status, mode) goes((txn), 2, (status), (mode), __LINE__)
#define LOCKS_AGAIN(txn, status, mode) goes((txn), 3, (status), (mode), __LINE__)

/* The one holds the root, and the other waits for it. */
static void wait_for_root(bs_mode mode) {
  DONE(bs_lock(m, a, db, BS_X, &told));
  ANSWERS(BS_WAITING, bs_lock(m, b, db, mode, &told));
}

/* The transaction that waits requests a path and waits for a node above its end in this mode; that is awaited. */
static void await_path(bs_node node, bs_mode mode, uint32_t instant, bs_mode wanted) {
  bs_node at = ANSWERS(BS_WAITING, bs_lock_path(m, b, node, mode, &told)).node;
  ANSWERS(BS_WAITING, bs_call_await_path(m, b, node, mode, instant, at, wanted, NEVER));
}

static void a_lock_is_awaited_once(void) {
  bs_reply waits;
  begin(__func__);
  wait_for_root(BS_IX);
  waits = ANSWERS(BS_WAITING, bs_call_await_node(m, b, db, BS_IX, 0, NEVER));
  WANT(same_node(waits.node, db) && waits.mode == BS_IX);
  ANSWERS(BS_IN_USE, bs_call_await_node(m, b, db, BS_IX, 0, NEVER));
  ANSWERS(BS_BAD_NUMBER, bs_call_await_node(m, b, db, 9, 0, NEVER));
  NOBODY();
  DONE(bs_commit(m, a, &told));
  ENDS(b, BS_DONE, BS_IX);
  WANT(bs_held(m, b, db).mode == BS_IX);
  end();
}

static void a_wait_that_is_over_is_not_awaited(void) {
  begin(__func__);
  wait_for_root(BS_IX);
  DONE(bs_commit(m, a, &told));
  WANT(DONE(bs_call_await_node(m, b, db, BS_IX, 0, NEVER)).mode == BS_IX);
  ANSWERS(BS_NOT_WAITING, bs_call_await_node(m, c, db, BS_IX, 0, NEVER));
  ANSWERS(BS_NO_SUCH_TXN, bs_call_await_node(m, a, db, BS_IX, 0, NEVER));
  end();
}

static void a_waiter_is_withdrawn(void) {
  begin(__func__);
  wait_for_root(BS_IX);
  ANSWERS(BS_NO_PLACE, bs_call_withdraw_waiter(m, b));
  ANSWERS(BS_WAITING, bs_call_await_node(m, b, db, BS_IX, 0, NEVER));
  ANSWERS(BS_NO_PLACE, bs_call_withdraw_waiter(m, a));
  DONE(bs_call_withdraw_waiter(m, b));
  WANT(wait_of(m, b).status == BS_WAITING);
  DONE(bs_commit(m, a, &told));
  end();
}

static void a_lock_for_an_instant_is_held_by_nobody(void) {
  begin(__func__);
  wait_for_root(BS_X);
  ANSWERS(BS_WAITING, bs_call_await_node(m, b, db, BS_X, 1, NEVER));
  ANSWERS(BS_WAITING, bs_lock(m, c, db, BS_X, &told));
  ANSWERS(BS_WAITING, bs_call_await_node(m, c, db, BS_X, 0, NEVER));
  DONE(bs_commit(m, a, &told));
  GIVES_BACK(b, BS_X);
  WANT(told.count == 1 && same_txn(told.at[0].txn, c));
  WANT(bs_held(m, b, db).mode == BS_NL);
  ENDS(c, BS_DONE, BS_X);
  end();
}

static void a_path_goes_on(void) {
  begin(__func__);
  DONE(bs_lock(m, a, db, BS_X, &told));
  await_path(record, BS_X, 0, BS_IX);
  DONE(bs_commit(m, a, &told));
  LOCKS_ON(b, BS_DONE, BS_X);
  WANT(bs_held(m, b, record).mode == BS_X);
  end();
}

static void a_path_waits_again(void) {
  begin(__func__);
  DONE(bs_lock(m, a, db, BS_S, &told));
  DONE(bs_lock_path(m, c, file, BS_S, &told));
  await_path(record, BS_X, 0, BS_IX);
  DONE(bs_commit(m, a, &told));
  WANT(same_node(LOCKS_ON(b, BS_WAITING, BS_IX).node, file));
  DONE(bs_commit(m, c, &told));
  LOCKS_ON(b, BS_DONE, BS_X);
  end();
}

static void a_path_for_an_instant_gives_back_its_node(void) {
  begin(__func__);
  DONE(bs_lock(m, a, db, BS_X, &told));
  await_path(file, BS_S, 1, BS_IS);
  DONE(bs_commit(m, a, &told));
  WANT(same_node(LOCKS_ON(b, BS_ON_THE_WAY, BS_S).node, file));
  GIVES_BACK(b, BS_S);
  WANT(bs_held(m, b, file).mode == BS_NL && bs_held(m, b, db).mode == BS_IS);
  end();
}

static void a_path_ends_with_its_transaction(void) {
  begin(__func__);
  DONE(bs_lock(m, a, db, BS_X, &told));
  await_path(record, BS_X, 0, BS_IX);
  DONE(bs_abort(m, b, &told));
  ENDS(b, BS_NO_SUCH_TXN, BS_NL);
  end();
}

static void a_row_has_the_node_that_was_waited_for(void) {
  bs_reply waits;
  begin(__func__);
  DONE(bs_lock_path(m, a, rows, BS_IX, &told));
  DONE(bs_lock_path(m, b, rows, BS_IX, &told));
  DONE(bs_lock_row(m, a, rows, 7, NULL, 0, BS_X, &told));
  waits = ANSWERS(BS_WAITING, bs_lock_row(m, b, rows, 7, NULL, 0, BS_X, &told));
  ANSWERS(BS_WAITING, bs_call_await_row(m, b, rows, 7, bs_call_numbers(NULL), 0, BS_X, waits.node, NEVER));
  DONE(bs_commit(m, a, &told));
  WANT(same_node(DONE(bs_row_node(m, rows, 7)).node, waits.node));
  LOCKS_AGAIN(b, BS_DONE, BS_X);
  end();
}

static void waits_go_on_by_rising_slots(void) {
  begin(__func__);
  DONE(bs_lock(m, b, db, BS_X, &told));
  ANSWERS(BS_WAITING, bs_lock(m, c, db, BS_IS, &told));
  ANSWERS(BS_WAITING, bs_call_await_node(m, c, db, BS_IS, 0, NEVER));
  ANSWERS(BS_WAITING, bs_lock(m, a, db, BS_IS, &told));
  ANSWERS(BS_WAITING, bs_call_await_node(m, a, db, BS_IS, 0, NEVER));
  DONE(bs_commit(m, b, &told));
  ENDS(a, BS_DONE, BS_IS);
  ENDS(c, BS_DONE, BS_IS);
  end();
}

static void waits_end_at_their_time(void) {
  begin(__func__);
  wait_for_root(BS_IX);
  ANSWERS(BS_NO_PLACE, bs_call_earliest_time(m));
  ANSWERS(BS_WAITING, bs_call_await_node(m, b, db, BS_IX, 0, 5));
  WANT(DONE(bs_call_earliest_time(m)).count == 5);
  ANSWERS(BS_NO_PLACE, bs_call_first_late(m, 4));
  WANT(same_txn(DONE(bs_call_first_late(m, 5)).txn, b));
  ANSWERS(BS_TIMED_OUT, bs_call_time_out(m, b, &told));
  WANT(wait_of(m, b).status == BS_NOT_WAITING);
  ANSWERS(BS_NO_PLACE, bs_call_first_late(m, 5));
  ANSWERS(BS_NO_PLACE, bs_call_time_out(m, b, &told));
  ANSWERS(BS_WAITING, bs_lock(m, b, db, BS_IX, &told));
  ANSWERS(BS_WAITING, bs_call_await_node(m, b, db, BS_IX, 0, NEVER));
  ANSWERS(BS_NO_PLACE, bs_call_first_late(m, UINT64_MAX));
  DONE(bs_commit(m, a, &told));
  ANSWERS(BS_NO_PLACE, bs_call_time_out(m, b, &told));
  ENDS(b, BS_DONE, BS_IX);
  end();
}

int main(void) {
  a_lock_is_awaited_once();
  a_wait_that_is_over_is_not_awaited();
  a_waiter_is_withdrawn();
  a_lock_for_an_instant_is_held_by_nobody();
  a_path_goes_on();
  a_path_waits_again();
  a_path_for_an_instant_gives_back_its_node();
  a_path_ends_with_its_transaction();
  a_row_has_the_node_that_was_waited_for();
  waits_go_on_by_rising_slots();
  waits_end_at_their_time();
  return 0;
}
