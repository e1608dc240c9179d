/*
 * Stories of sessions, whose transactions keep the intentions of those before them. Each is a function that ends the
 * program with status 1 at the first answer that is not as wanted, and else prints its name.
 *
 *   sessions [SECONDS]   the time that a story may take before it is said to hang, 20 if none is given
 *
 * It is linked with the calls for memory of memory.h.
 */
#include "burlapslate.h"
#include "memory.h"

#include <stdio.h>
#include <time.h>

#include "burlapslate_running.h"
#include "burlapslate_session.h"

#include "burlapslate_shared.c"

#include "waiters.h"

static bs_session session;

enum { ABOVE = 4 }; /* the root, the file, the index and its interval are above a record */

/* How many transactions rest. */
static uint32_t resting(const bs_manager *m) {
  bs_found found = bs_call_resting(m);
  uint32_t slot, count = 0;
  WANT(found.status == BS_DONE);
  for (slot = 0; slot < BS_SLOTS; slot++) count += bs_has(found.slots, slot);
  return count;
}

/* A session that has written the low record, and rests: it keeps its intentions on all above. */
static bs_session rest_after_write(void) {
  bs_session rests = bs_session_of(table, 16);
  bs_txn txn = DONE(bs_session_begin(&rests, NULL)).txn;
  DONE(bs_table_lock_path(table, txn, low, BS_X, NULL));
  WANT(DONE(bs_session_commit(&rests, NULL)).count == ABOVE);
  return rests;
}

/* The same after it has read the record. */
static bs_session rest_after_read(void) {
  bs_session rests = bs_session_of(table, 16);
  bs_txn txn = DONE(bs_session_begin(&rests, NULL)).txn;
  DONE(bs_table_lock_path(table, txn, file, BS_IS, NULL));
  DONE(bs_table_lock_path(table, txn, below, BS_IS, NULL));
  WANT(DONE(bs_session_commit(&rests, NULL)).count == ABOVE);
  return rests;
}

/* Whether the session still rests with its intentions; then it is in the next transaction. */
static bool still_rests(bs_session *rests) {
  bs_txn was = rests->rests;
  bs_txn txn = DONE(bs_session_begin(rests, NULL)).txn;
  bool is_kept = same_txn(was, txn);
  holds(txn, root, is_kept ? ASK(table, bs_held, was, root).mode : BS_NL);
  WANT((ASK(table, bs_lock_count, txn).count > 0) == is_kept);
  return is_kept;
}

static void was_ended(bs_session *rests) {
  WANT(!still_rests(rests));
  DONE(bs_session_commit(rests, NULL));
}

static void is_kept(bs_session *rests) {
  WANT(still_rests(rests));
  DONE(bs_session_commit(rests, NULL));
}

/* ------------------------------------------------------------------------------------------------
 * What is kept.
 */

static void a_session_keeps_its_intentions(void) {
  bs_txn first, next, other;
  set_up(BS_AT_BLOCK);
  session = bs_session_of(table, 16);
  first = DONE(bs_session_begin(&session, NULL)).txn;
  DONE(bs_table_lock_path(table, first, low, BS_X, NULL));
  WANT(DONE(bs_session_commit(&session, &told)).count == ABOVE && told.count == 0);
  ANSWERS(BS_NO_SUCH_TXN, bs_table_commit(table, first, NULL));
  other = begin();
  DONE(bs_table_lock_path(table, other, low, BS_X, NULL));
  DONE(bs_table_commit(table, other, NULL));
  next = DONE(bs_session_begin(&session, NULL)).txn;
  WANT(next.slot == first.slot && next.age > first.age);
  holds(next, root, BS_IX);
  holds(next, file, BS_IX);
  holds(next, by_key, BS_IX);
  holds(next, below, BS_IX);
  holds(next, low, BS_NL);
  DONE(bs_table_lock(table, next, low, BS_X, NULL));
  WANT(DONE(bs_session_commit(&session, NULL)).count == ABOVE);
  DONE(bs_session_end(&session));
  close_table();
}

/* It keeps as many as it says, the first, and what it locks later too. */
static void as_many_as_it_says(void) {
  bs_session two, none, more;
  bs_txn txn;
  set_up(BS_AT_BLOCK);
  two = bs_session_of(table, 2), none = bs_session_of(table, 0), more = bs_session_of(table, 16);
  txn = DONE(bs_session_begin(&two, NULL)).txn;
  intend(txn, file, below, above);
  WANT(DONE(bs_session_commit(&two, NULL)).count == 2);
  txn = DONE(bs_session_begin(&two, NULL)).txn;
  WANT(ASK(table, bs_lock_count, txn).count == 2);
  DONE(bs_session_commit(&two, NULL));
  txn = DONE(bs_session_begin(&none, NULL)).txn;
  intend(txn, file, below, above);
  WANT(DONE(bs_session_commit(&none, NULL)).count == 0);
  txn = DONE(bs_session_begin(&more, NULL)).txn;
  DONE(bs_table_lock_path(table, txn, low, BS_X, NULL));
  WANT(DONE(bs_session_commit(&more, NULL)).count == ABOVE);
  txn = DONE(bs_session_begin(&more, NULL)).txn;
  DONE(bs_table_lock_path(table, txn, above, BS_IX, NULL));
  DONE(bs_table_lock(table, txn, high, BS_X, NULL));
  WANT(DONE(bs_session_commit(&more, NULL)).count == ABOVE + 1);
  txn = DONE(bs_session_begin(&more, NULL)).txn;
  holds(txn, above, BS_IX);
  DONE(bs_session_commit(&more, NULL));
  close_table();
}

/* A node that was raised is not kept, and nothing else is then. */
static void what_was_raised_is_not_kept(void) {
  bs_txn txn, other;
  set_up(BS_AT_BLOCK);
  session = rest_after_write();
  txn = DONE(bs_session_begin(&session, NULL)).txn;
  DONE(bs_table_lock(table, txn, file, BS_X, NULL));
  WANT(DONE(bs_session_commit(&session, NULL)).count == 0);
  other = begin();
  DONE(bs_table_try_path(table, other, file, BS_X, BS_KEEP_NOTHING));
  DONE(bs_table_commit(table, other, NULL));
  txn = DONE(bs_session_begin(&session, NULL)).txn;
  holds(txn, root, BS_NL);
  DONE(bs_table_lock_path(table, txn, file, BS_S, NULL));
  DONE(bs_table_lock(table, txn, root, BS_S, NULL));
  WANT(DONE(bs_session_commit(&session, NULL)).count == 0);
  close_table();
}

/* A commit tells who gets what it releases. */
static void a_commit_of_a_session_tells(void) {
  struct heard h;
  bs_txn txn, other;
  set_up(BS_AT_BLOCK);
  session = bs_session_of(table, 16);
  txn = DONE(bs_session_begin(&session, NULL)).txn;
  DONE(bs_table_lock_path(table, txn, low, BS_X, NULL));
  other = begin_writer();
  WAITS(ask(&h, other, low, BS_X));
  WANT(DONE(bs_session_commit(&session, &told)).count == ABOVE);
  WANT(told.count == 1 && same_txn(told.at[0].txn, other) && told.at[0].kind == BS_TOLD_GRANTED);
  HEARD_BY_NOW(&h, BS_DONE);
  WANT(still_rests(&session));
  close_table();
}

/* Nothing is kept that somebody waits for. The rest is told with it. */
static void what_is_waited_for_is_not_kept(void) {
  struct heard h, g;
  bs_txn txn, other, third;
  set_up(BS_AT_BLOCK);
  session = bs_session_of(table, 16);
  txn = DONE(bs_session_begin(&session, NULL)).txn;
  DONE(bs_table_lock_path(table, txn, low, BS_X, NULL));
  third = begin();
  DONE(bs_table_lock_path(table, third, below, BS_IS, NULL));
  DONE(bs_table_lock_path(table, third, file, BS_IS, NULL));
  WAITS(ask(&g, third, low, BS_S));
  other = begin();
  WAITS(ask_path(&h, other, file, BS_S));
  WANT(DONE(bs_session_commit(&session, &told)).count == 0);
  WANT(told.count == 2);
  HEARD_BY_NOW(&g, BS_DONE);
  HEARD_BY_NOW(&h, BS_DONE);
  WANT(!still_rests(&session));
  close_table();
}

/* ------------------------------------------------------------------------------------------------
 * Nobody waits for one that rests.
 */

static void a_lock_does_not_wait(void) {
  bs_session reads, writes;
  bs_txn txn;
  set_up(BS_AT_BLOCK);
  reads = rest_after_read(), writes = rest_after_write();
  txn = begin();
  DONE(bs_table_lock_path(table, txn, file, BS_S, NULL));
  is_kept(&reads); /* It goes with a reader. */
  DONE(bs_table_commit(table, txn, NULL));
  was_ended(&writes);
  writes = rest_after_write();
  txn = begin();
  DONE(bs_table_lock(table, txn, root, BS_X, NULL));
  DONE(bs_table_commit(table, txn, NULL));
  was_ended(&reads);
  was_ended(&writes);
  close_table();
}

/* Others are in the way too: the one that rests is ended, and the asker waits for them. */
static void others_are_waited_for(void) {
  struct heard h;
  bs_txn txn, other;
  set_up(BS_AT_BLOCK);
  other = begin_writer();
  session = rest_after_write();
  txn = begin();
  WAITS(ask_path(&h, txn, file, BS_S));
  was_ended(&session);
  DONE(bs_table_commit(table, other, NULL));
  HEARD_BY_NOW(&h, BS_DONE);
  close_table();
}

/* An ask, a path and a lock of a list, and one for an instant. */
static void no_other_request_waits(void) {
  struct heard h;
  bs_command list[3];
  bs_txn txn;
  set_up(BS_AT_BLOCK);
  session = rest_after_write();
  txn = begin();
  DONE(ask_path(&h, txn, file, BS_S));
  WANT(h.calls == 0);
  was_ended(&session);
  DONE(bs_table_commit(table, txn, NULL));
  session = rest_after_write();
  list[0] = bs_do(BS_DO_BEGIN, bs_begun());
  list[1] = bs_do_at(BS_DO_LOCK_PATH, bs_begun(), below, BS_S);
  list[2] = bs_do(BS_DO_COMMIT, bs_begun());
  WANT(bs_table_run(table, list, 3) == 3);
  was_ended(&session);
  session = rest_after_write();
  list[1] = bs_do_at(BS_DO_LOCK, bs_begun(), root, BS_S);
  WANT(bs_table_run(table, list, 3) == 3);
  was_ended(&session);
  session = rest_after_write();
  list[1] = bs_do_at(BS_DO_LOCK, bs_begun(), root, BS_S | BS_INSTANT);
  WANT(bs_table_run(table, list, 3) == 3);
  was_ended(&session);
  close_table();
}

/* An intention of a resting one is no obstacle to a try. */
static void no_try_is_refused(void) {
  bs_session other;
  bs_command list[1];
  bs_txn txn;
  set_up(BS_AT_BLOCK);
  session = rest_after_write(), other = rest_after_write();
  txn = begin();
  DONE(bs_table_try_path(table, txn, below, BS_S, BS_KEEP_NOTHING));
  was_ended(&session);
  was_ended(&other);
  session = rest_after_read();
  DONE(bs_table_try(table, txn, root, BS_IX));
  is_kept(&session);
  DONE(bs_table_try(table, txn, root, BS_X));
  was_ended(&session);
  DONE(bs_table_commit(table, txn, NULL));
  txn = begin();
  session = rest_after_write();
  list[0] = bs_do_at(BS_DO_TRY, txn, root, BS_S);
  WANT(bs_table_try_first(table, list, 1) == 0 && list[0].reply.status == BS_DONE);
  was_ended(&session);
  DONE(bs_table_commit(table, txn, NULL));
  close_table();
}

/* A try that others refuse stays refused. An intention that is refused ends nobody. */
static void a_try_is_refused_for_others(void) {
  bs_txn txn, other;
  set_up(BS_AT_BLOCK);
  session = rest_after_read();
  other = begin();
  DONE(bs_table_lock_path(table, other, file, BS_S, NULL));
  txn = begin();
  ANSWERS(BS_WOULD_BLOCK, bs_table_try_path(table, txn, file, BS_IX, BS_KEEP_NOTHING));
  is_kept(&session);
  ANSWERS(BS_WOULD_BLOCK, bs_table_try_path(table, txn, file, BS_X, BS_KEEP_NOTHING));
  was_ended(&session);
  close_table();
}

static void no_escalation_is_refused(void) {
  bs_txn txn;
  set_up(BS_AT_BLOCK);
  session = rest_after_write();
  txn = begin();
  DONE(bs_table_lock_path(table, txn, below, BS_IX, NULL));
  DONE(bs_table_lock_path(table, txn, high, BS_X, NULL));
  WANT(DONE(bs_table_escalate(table, txn, file, NULL)).mode == BS_X);
  was_ended(&session);
  close_table();
}

/* A path that waited goes on, to where a session rests. */
static void a_path_goes_on_past_it(void) {
  struct heard h;
  bs_waits waits;
  bs_txn txn, other;
  set_up(BS_AT_BLOCK);
  session = rest_after_read();
  other = begin();
  DONE(bs_table_lock_path(table, other, by_key, BS_S, NULL));
  txn = begin();
  WAITS(ask_path(&h, txn, below, BS_X));
  WANT(waits_for(txn, by_key) && resting(&table->manager) == 1);
  DONE(bs_table_commit(table, other, NULL));
  HEARD_BY_NOW(&h, BS_DONE);
  DONE(bs_table_waits(table, &waits));
  WANT(waits.waiting == 0);
  was_ended(&session);
  close_table();
}

/* It works again: who wants more than an intention waits. */
static void one_that_works_is_not_ended(void) {
  struct heard h;
  bs_txn txn, other;
  set_up(BS_AT_BLOCK);
  session = rest_after_write();
  txn = DONE(bs_session_begin(&session, NULL)).txn;
  other = begin();
  WAITS(ask_path(&h, other, file, BS_S));
  ANSWERS(BS_WOULD_BLOCK, bs_table_try_path(table, begin(), root, BS_X, BS_KEEP_NOTHING));
  holds(txn, file, BS_IX);
  DONE(bs_table_insert(table, txn, file, (const uint64_t[]){ 7 }, 1));
  WANT(DONE(bs_session_commit(&session, NULL)).count == 0);
  HEARD_BY_NOW(&h, BS_DONE);
  close_table();
}

/* ------------------------------------------------------------------------------------------------
 * Slots.
 */

static void make_of(uint32_t most) {
  calls = 0;
  DONE(make_table(&table, BS_AT_BLOCK, BS_YOUNGEST, most));
  DONE(bs_table_on_end(table, hear, &context_word));
  root = add_root();
}

static bs_session rest_at_root(void) {
  bs_session rests = bs_session_of(table, 1);
  bs_txn txn = DONE(bs_session_begin(&rests, NULL)).txn;
  DONE(bs_table_lock(table, txn, root, BS_IX, NULL));
  WANT(DONE(bs_session_commit(&rests, NULL)).count == 1);
  return rests;
}

/* A begin that finds no slot ends the one that has rested longest, and that one alone. */
static void a_begin_gets_a_slot(void) {
  bs_session sessions[4];
  bs_command list = bs_do(BS_DO_BEGIN, bs_begun());
  bs_txn txn;
  size_t i;
  make_of(4);
  for (i = 0; i < 4; i++) sessions[i] = rest_at_root();
  DONE(bs_session_begin(&sessions[0], NULL));
  DONE(bs_session_commit(&sessions[0], NULL)); /* Now it has rested least. */
  txn = begin();
  WANT(txn.slot == sessions[1].rests.slot);
  DONE(bs_table_begin_again(table, 1));
  WANT(bs_table_run(table, &list, 1) == 1);
  WANT(list.reply.txn.slot == sessions[3].rests.slot);
  WANT(DONE(bs_table_begin_in_turn(table, NULL)).txn.slot == sessions[0].rests.slot);
  ANSWERS(BS_TOO_MANY_TXNS, bs_table_begin(table));
  for (i = 0; i < 4; i++) {
    struct timespec now = moment_in(0);
    ANSWERS(BS_TIMED_OUT, bs_session_begin(&sessions[i], &now));
  }
  DONE(bs_table_commit(table, txn, NULL));
  DONE(bs_session_begin(&sessions[2], NULL));
  close_table();
}

/* A traced table ends one at a time, since each end is a line, and so all who are in the way. */
static void a_traced_table_ends_all(void) {
  FILE *file = tmpfile();
  bs_session other;
  bs_txn txn;
  make_of(4);
  WANT(file != NULL);
  DONE(bs_table_trace(table, fileno(file)));
  session = rest_at_root(), other = rest_at_root();
  txn = begin();
  DONE(bs_table_lock(table, txn, root, BS_S, NULL));
  was_ended(&session);
  was_ended(&other);
  DONE(bs_table_commit(table, txn, NULL));
  session = rest_at_root(), other = rest_at_root();
  txn = begin();
  DONE(bs_table_try(table, txn, root, BS_X));
  was_ended(&session);
  was_ended(&other);
  DONE(bs_table_trace_end(table));
  fclose(file);
  close_table();
}

/* One that was aborted by its name, whose slot another has, makes no room: the next one that rests does. */
static void who_was_aborted_makes_no_room(void) {
  bs_session first, second;
  make_of(2);
  first = rest_at_root(), second = rest_at_root();
  DONE(bs_table_abort(table, first.rests, NULL));
  begin();
  WANT(DONE(bs_table_begin_in_turn(table, NULL)).txn.slot == second.rests.slot);
  WANT(resting(&table->manager) == 0);
  ANSWERS(BS_TOO_MANY_TXNS, bs_table_begin(table));
  close_table();
}

/* Nobody rests while a thread sleeps for a slot. */
static void a_slot_is_handed_on(void) {
  struct sleeper s;
  bs_txn txn;
  make_of(1);
  session = bs_session_of(table, 1);
  txn = DONE(bs_session_begin(&session, NULL)).txn;
  DONE(bs_table_lock(table, txn, root, BS_IX, NULL));
  s = sleeper_of(BY_BEGIN, txn, root, BS_NL);
  start(&s.thread, fall_asleep, &s);
  await_sleepers(1);
  WANT(DONE(bs_session_commit(&session, NULL)).count == 0);
  WANT(BACK(&s, BS_DONE).txn.slot == 0);
  close_table();
}

/* ------------------------------------------------------------------------------------------------
 * Lists of a session.
 */

static bs_command list[4];

/* The list of a transaction that writes the low record. */
static void write_low(void) {
  list[0] = bs_do_at(BS_DO_LOCK_PATH, bs_begun(), low, BS_X);
  list[1] = bs_do(BS_DO_COMMIT, bs_begun());
}

/* A whole transaction is one list, and the next one keeps its intentions. */
static void a_transaction_is_a_list(void) {
  bs_txn first;
  set_up(BS_AT_BLOCK);
  session = bs_session_of(table, 16);
  write_low();
  WANT(bs_session_run(&session, list, 2) == 2 && list[1].reply.count == ABOVE);
  WANT(session.txn.age == 0 && resting(&table->manager) == 1);
  first = session.rests;
  WANT(bs_session_run(&session, list, 1) == 1);
  WANT(same_txn(session.txn, first) && resting(&table->manager) == 0);
  holds(first, file, BS_IX);
  holds(first, low, BS_X);
  WANT(bs_session_run(&session, list + 1, 1) == 1 && list[1].reply.count == ABOVE);
  ANSWERS(BS_NO_SUCH_TXN, bs_table_commit(table, first, NULL));
  close_table();
}

/* What follows the commit in its list has no transaction, and another's commit keeps nothing. */
static void a_commit_in_a_list(void) {
  bs_txn other;
  set_up(BS_AT_BLOCK);
  session = rest_after_write();
  other = begin_writer();
  list[0] = bs_do(BS_DO_COMMIT, other);
  list[1] = bs_do(BS_DO_COMMIT, bs_begun());
  list[2] = bs_do_at(BS_DO_LOCK, bs_begun(), root, BS_IS);
  WANT(bs_session_run(&session, list, 3) == 2);
  WANT(list[0].reply.count == 0 && list[1].reply.count == ABOVE);
  WANT(list[2].reply.status == BS_NO_SUCH_TXN);
  is_kept(&session);
  close_table();
}

/* The transaction that a list renews is the session's, and another's is not. */
static void a_list_renews_its_transaction(void) {
  bs_txn first, other;
  set_up(BS_AT_BLOCK);
  session = rest_after_write();
  other = begin_writer();
  list[0] = bs_do_at(BS_DO_LOCK_PATH, bs_begun(), file, BS_IX);
  list[1] = bs_do(BS_DO_RENEW, bs_begun());
  list[1].number = UINT64_MAX;
  list[2] = list[1];
  list[2].txn = other;
  WANT(bs_session_run(&session, list, 3) == 3);
  first = list[0].reply.txn;
  WANT(same_txn(session.txn, list[1].reply.txn) && !same_txn(session.txn, first));
  ANSWERS(BS_NO_SUCH_TXN, bs_table_mark(table, other));
  DONE(bs_table_commit(table, list[2].reply.txn, NULL));
  write_low();
  WANT(bs_session_run(&session, list, 2) == 2 && list[1].reply.count == ABOVE);
  is_kept(&session);
  close_table();
}

/* A lock that waits stops the list; the transaction goes on after its wait. */
static void a_list_of_a_session_waits(void) {
  struct heard h;
  bs_txn other;
  set_up(BS_AT_BLOCK);
  session = rest_after_write();
  other = begin_writer();
  DONE(bs_table_lock(table, other, low, BS_X, NULL));
  write_low();
  WANT(bs_session_run(&session, list, 2) == 0);
  WANT(list[0].reply.status == BS_WAITING && list[1].reply.status == BS_NOT_MADE);
  ANSWERS(BS_TXN_WAITING, (bs_session_run(&session, list + 1, 1), list[1].reply));
  begin_asking(&h, session.txn, NULL);
  WAITS(bs_table_ask_await(table, session.txn, low, BS_X, NULL, &h));
  asking = NULL;
  DONE(bs_table_commit(table, other, NULL));
  HEARD_BY_NOW(&h, BS_DONE);
  other = begin_writer();
  WAITS(ask(&h, other, low, BS_X));
  list[1].told = &told;
  WANT(bs_session_run(&session, list + 1, 1) == 1);
  WANT(told.count == 1 && same_txn(told.at[0].txn, other));
  HEARD_BY_NOW(&h, BS_DONE);
  is_kept(&session);
  close_table();
}

/* No slot is free, or others wait for one; a list's commit frees the slot for them. */
static void a_list_finds_no_slot(void) {
  struct sleeper s;
  bs_txn other;
  make_of(1);
  session = bs_session_of(table, 1);
  other = begin();
  list[0] = bs_do_at(BS_DO_LOCK, bs_begun(), root, BS_IX);
  list[0].told = &told;
  list[1] = bs_do(BS_DO_COMMIT, bs_begun());
  told.count = 1;
  WANT(bs_session_run(&session, list, 2) == 0 && told.count == 0);
  WANT(list[0].reply.status == BS_TOO_MANY_TXNS && list[1].reply.status == BS_NOT_MADE);
  DONE(bs_table_commit(table, other, NULL));
  WANT(bs_session_run(&session, list, 1) == 1);
  s = sleeper_of(BY_BEGIN, session.txn, root, BS_NL);
  start(&s.thread, fall_asleep, &s);
  await_sleepers(1);
  WANT(bs_session_run(&session, list + 1, 1) == 1 && list[1].reply.count == 0);
  WANT(BACK(&s, BS_DONE).txn.slot == 0);
  close_table();
}

static void lists_of_no_session(void) {
  set_up(BS_AT_BLOCK);
  session = rest_after_write();
  write_low();
  WANT(bs_session_run(NULL, list, 2) == 0);
  WANT(list[0].reply.status == BS_NULL_POINTER && list[1].reply.status == BS_NOT_MADE);
  WANT(bs_session_run(&session, NULL, 2) == 0 && bs_session_run(&session, list, 0) == 0);
  WANT(resting(&table->manager) == 1);
  WANT(bs_table_hold(table) != NULL);
  WANT(bs_session_run(&session, list, 2) == 0 && list[0].reply.status == BS_IN_USE);
  DONE(bs_table_let_go(table));
  DONE(bs_table_end(table));
  WANT(bs_session_run(&session, list, 2) == 0 && list[0].reply.status == BS_NO_MANAGER);
  DONE(bs_table_free(&table));
}

/* ------------------------------------------------------------------------------------------------
 * What a caller may get wrong.
 */

static void calls_in_the_wrong_order(void) {
  bs_txn txn;
  set_up(BS_AT_BLOCK);
  session = bs_session_of(table, 16);
  ANSWERS(BS_NO_SUCH_TXN, bs_session_commit(&session, NULL));
  DONE(bs_session_end(&session));
  txn = DONE(bs_session_begin(&session, NULL)).txn;
  ANSWERS(BS_IN_USE, bs_session_begin(&session, NULL));
  ANSWERS(BS_IN_USE, bs_session_begin_again(&session, 1, NULL));
  ANSWERS(BS_IN_USE, bs_session_end(&session));
  DONE(bs_table_lock_path(table, txn, file, BS_IX, NULL));
  DONE(bs_session_commit(&session, NULL));
  told.count = 1;
  ANSWERS(BS_NO_SUCH_TXN, bs_session_commit(&session, &told));
  WANT(told.count == 0);
  DONE(bs_session_end(&session));
  ANSWERS(BS_NO_SUCH_TXN, bs_session_commit(&session, NULL));
  WANT(resting(&table->manager) == 0);
  txn = DONE(bs_session_begin(&session, NULL)).txn;
  holds(txn, root, BS_NL);
  DONE(bs_table_abort(table, txn, NULL)); /* It may be ended by a call of the table too. */
  ANSWERS(BS_NO_SUCH_TXN, bs_session_commit(&session, NULL));
  DONE(bs_session_begin(&session, NULL));
  close_table();
}

static void what_is_no_session(void) {
  struct timespec wrong = { 0, -1 };
  session = bs_session_of(NULL, 16);
  ANSWERS(BS_NULL_POINTER, bs_session_begin(NULL, NULL));
  ANSWERS(BS_NULL_POINTER, bs_session_begin_again(NULL, 1, NULL));
  ANSWERS(BS_NULL_POINTER, bs_session_commit(NULL, NULL));
  ANSWERS(BS_NULL_POINTER, bs_session_end(NULL));
  ANSWERS(BS_NULL_POINTER, bs_session_begin(&session, NULL));
  ANSWERS(BS_NULL_POINTER, bs_session_commit(&session, NULL));
  ANSWERS(BS_NULL_POINTER, bs_session_end(&session));
  set_up(BS_AT_BLOCK);
  session = rest_after_write();
  ANSWERS(BS_BAD_NUMBER, bs_session_begin(&session, &wrong));
  WANT(bs_table_hold(table) != NULL);
  ANSWERS(BS_IN_USE, bs_session_begin(&session, NULL));
  ANSWERS(BS_IN_USE, bs_session_commit(&session, NULL));
  ANSWERS(BS_IN_USE, bs_session_end(&session));
  DONE(bs_table_let_go(table));
  DONE(bs_table_end(table));
  ANSWERS(BS_NO_MANAGER, bs_session_begin(&session, NULL));
  ANSWERS(BS_NO_MANAGER, bs_session_commit(&session, NULL));
  ANSWERS(BS_NO_MANAGER, bs_session_end(&session));
  DONE(bs_table_free(&table));
}

/* A commit that is refused changes nothing. */
static void a_commit_is_refused(void) {
  struct heard h;
  bs_txn txn, other;
  set_up(BS_AT_BLOCK);
  session = rest_after_write();
  txn = DONE(bs_session_begin(&session, NULL)).txn;
  DONE(bs_table_lock_path(table, txn, above, BS_IX, NULL));
  other = begin_writer();
  DONE(bs_table_lock(table, other, low, BS_X, NULL));
  WAITS(ask(&h, txn, low, BS_X));
  ANSWERS(BS_TXN_WAITING, bs_session_commit(&session, NULL));
  holds(txn, above, BS_IX);
  DONE(bs_table_cancel(table, txn, NULL));
  HEARD_BY_NOW(&h, BS_NOT_WAITING);
  WANT(DONE(bs_session_commit(&session, NULL)).count == ABOVE + 1);
  close_table();
}

/* The one that rests is aborted by its name, and another has its slot: that one works, and stays. */
static void its_slot_is_another_s(void) {
  struct heard h;
  bs_session again;
  bs_txn txn, other;
  set_up(BS_AT_BLOCK);
  session = rest_after_write();
  DONE(bs_table_abort(table, session.rests, NULL));
  other = begin();
  WANT(other.slot == session.rests.slot);
  DONE(bs_table_lock_path(table, other, file, BS_IX, NULL));
  txn = begin();
  WAITS(ask_path(&h, txn, file, BS_S));
  holds(other, file, BS_IX);
  was_ended(&session);
  DONE(bs_table_commit(table, other, NULL));
  HEARD_BY_NOW(&h, BS_DONE);
  DONE(bs_table_commit(table, txn, NULL));
  session = rest_after_write();
  DONE(bs_table_abort(table, session.rests, NULL));
  again = rest_after_write();
  WANT(again.rests.slot == session.rests.slot && resting(&table->manager) == 1);
  was_ended(&session);
  is_kept(&again);
  close_table();
}

/* The transaction that rests has no name for its session's thread: a call after the commit locks nothing. */
static void a_late_call_is_refused(void) {
  bs_txn late;
  set_up(BS_AT_BLOCK);
  session = rest_after_write();
  late = session.txn;
  ANSWERS(BS_NO_SUCH_TXN, bs_table_lock(table, late, file, BS_X, NULL));
  ANSWERS(BS_NO_SUCH_TXN, bs_table_abort(table, late, NULL));
  is_kept(&session);
  close_table();
}

/* One that rests locks by a name that was not given out: it is not ended, so no lock is lost. */
static void who_has_locked_is_not_ended(void) {
  struct heard h;
  bs_txn txn, named;
  make_of(2);
  session = rest_at_root(), named = session.rests;
  DONE(bs_table_lock(table, named, root, BS_X, NULL));
  txn = begin();
  WAITS(ask(&h, txn, root, BS_S));
  holds(named, root, BS_X);
  ANSWERS(BS_TOO_MANY_TXNS, bs_table_begin(table));
  holds(named, root, BS_X);
  DONE(bs_table_commit(table, named, NULL));
  HEARD_BY_NOW(&h, BS_DONE);
  DONE(bs_table_commit(table, txn, NULL));
  WANT(DONE(bs_session_begin(&session, NULL)).txn.age > named.age);
  close_table();
}

static void abort_it(struct heard *h) {
  DONE(bs_table_abort(table, h->txn, NULL));
}

/* Work that is tried again keeps nothing, and has its first age. */
static void work_begins_again(void) {
  bs_txn txn, other;
  struct heard h;
  set_up(BS_AT_BLOCK);
  other = begin_writer();
  session = rest_after_write();
  txn = DONE(bs_session_begin_again(&session, 1, NULL)).txn;
  WANT(resting(&table->manager) == 0);
  holds(txn, root, BS_NL);
  intend(txn, file, below, above);
  DONE(bs_table_lock(table, txn, low, BS_X, NULL));
  DONE(bs_table_lock(table, other, high, BS_X, NULL));
  begin_asking(&h, other, abort_it);
  WAITS(bs_table_ask(table, other, low, BS_X, NULL, &h));
  asking = NULL;
  DONE(bs_table_lock(table, txn, high, BS_X, NULL)); /* The other falls: its work began later. */
  HEARD_BY_NOW(&h, BS_VICTIM);
  WANT(DONE(bs_session_commit(&session, NULL)).count == ABOVE + 1);
  close_table();
}

static void a_deadline_ends_with_its_transaction(void) {
  struct timespec past = moment_in(0), later = moment_in(2000);
  bs_txn txn, other;
  set_up(BS_AT_BLOCK);
  session = rest_after_write();
  txn = DONE(bs_session_begin(&session, NULL)).txn;
  DONE(bs_table_deadline(table, txn, &past));
  DONE(bs_session_commit(&session, NULL));
  txn = DONE(bs_session_begin(&session, NULL)).txn;
  other = begin_writer();
  DONE(bs_table_lock(table, other, low, BS_X, NULL));
  ANSWERS(BS_TIMED_OUT, bs_table_lock(table, txn, low, BS_X, &later));
  WANT(bs_call_now() > table_time_of(&past) + 1000000u);
  close_table();
}

/* ------------------------------------------------------------------------------------------------
 * One call of a manager.
 */

enum { PLAYERS = 5, PLAYED = 6, TURNS_OF_PLAY = 4000 };

/* Two managers with the same nodes, and what is done to both. */
static bs_manager pair[2];
static bs_node played[PLAYED];

static void make_pair(void) {
  size_t i, of;
  for (of = 0; of < 2; of++) {
    static const bs_manager none = BS_NO_MANAGER_HERE;
    pair[of] = none;
    DONE(bs_make(&pair[of], NULL));
    played[0] = DONE(bs_add_inner(&pair[of], NULL, 0)).node;
    for (i = 1; i < PLAYED; i++) played[i] = DONE(bs_add_inner(&pair[of], &played[(i - 1) / 2], 1)).node;
  }
}

/* The same by three commands. */
static bs_reply by_commands(bs_manager *m, bs_txn txn, uint64_t keep, uint64_t since, bs_notices *notices) {
  bs_notices more;
  bs_reply renewed, reply = bs_release_since(m, txn, keep, notices);
  if (reply.status != BS_DONE) return reply;
  reply.count = 0;
  renewed = bs_renew(m, txn, since);
  if (renewed.status == BS_DONE) return renewed;
  reply = bs_commit(m, txn, &more);
  table_tell_too(notices, &more);
  return reply;
}

static void are_alike(void) {
  uint32_t slot;
  size_t i;
  WANT(accepted_by(&pair[0]) == accepted_by(&pair[1]));
  for (slot = 0; slot < PLAYERS; slot++) {
    bs_reply one = bs_living(&pair[0], slot), other = bs_living(&pair[1], slot);
    WANT(one.status == other.status && same_txn(one.txn, other.txn));
    if (one.status != BS_DONE) continue;
    WANT(bs_doing(&pair[0], one.txn).count == bs_doing(&pair[1], one.txn).count);
    WANT(same_node(wait_of(&pair[0], one.txn).node, wait_of(&pair[1], one.txn).node));
    WANT(bs_lock_count(&pair[0], one.txn).count == bs_lock_count(&pair[1], one.txn).count);
    for (i = 0; i < PLAYED; i++) {
      WANT(bs_held(&pair[0], one.txn, played[i]).mode == bs_held(&pair[1], one.txn, played[i]).mode);
    }
  }
}

static bool same_told(const bs_notices *one, const bs_notices *other) {
  size_t i;
  if (one->count != other->count) return false;
  for (i = 0; i < one->count; i++) {
    if (!same_txn(one->at[i].txn, other->at[i].txn) || one->at[i].kind != other->at[i].kind) return false;
  }
  return true;
}

/* Any order of locks and commits: the one call and the three commands leave, tell and answer the same. */
static void one_call_is_three_commands(void) {
  uint64_t dice = 88172645463325252u;
  bs_txn txns[PLAYERS];
  size_t i, j, kept = 0, ended = 0, refused = 0;
  make_pair();
  for (i = 0; i < PLAYERS; i++) txns[i] = DONE(bs_begin(&pair[0])).txn, DONE(bs_begin(&pair[1]));
  for (i = 0; i < TURNS_OF_PLAY; i++) {
    bs_txn *own = &txns[roll(&dice, PLAYERS)];
    uint64_t keep = roll(&dice, 5), since = roll(&dice, 2) == 0 ? UINT64_MAX : roll(&dice, 50);
    bs_notices first, second;
    bs_reply one, other;
    if (roll(&dice, 3) != 0) {
      static const bs_mode modes[8] = { BS_IS, BS_IS, BS_IX, BS_IX, BS_IX, BS_S, BS_SIX, BS_X };
      bs_mode mode = modes[roll(&dice, 8)];
      bs_node node = played[roll(&dice, PLAYED)];
      one = bs_lock_path(&pair[0], *own, node, mode, &first);
      other = bs_lock_path(&pair[1], *own, node, mode, &second);
    } else {
      one = bs_commit_keeping(&pair[0], *own, keep, since, &first);
      other = by_commands(&pair[1], *own, keep, since, &second);
      WANT(one.count == other.count);
      kept += one.txn.age != 0, ended += one.status == BS_DONE && one.txn.age == 0, refused += one.status != BS_DONE;
      if (one.txn.age != 0) *own = one.txn;
    }
    WANT(one.status == other.status && same_txn(one.txn, other.txn) && same_told(&first, &second));
    for (j = 0; j < PLAYERS; j++) {
      if (bs_doing(&pair[0], txns[j]).count == BS_CONDEMNED) {
        DONE(bs_abort(&pair[0], txns[j], &first)), DONE(bs_abort(&pair[1], txns[j], &second));
      }
      if (bs_doing(&pair[0], txns[j]).status != BS_DONE) txns[j] = DONE(bs_begin(&pair[0])).txn, DONE(bs_begin(&pair[1]));
    }
    are_alike();
  }
  WANT(kept > 100 && ended > 100 && refused > 100);
  ANSWERS(BS_NULL_POINTER, bs_commit_keeping(NULL, txns[0], 0, 0, &told));
  ANSWERS(BS_NULL_POINTER, bs_commit_keeping(&pair[0], txns[0], 0, 0, NULL));
  DONE(bs_end(&pair[0])), DONE(bs_end(&pair[1]));
  ANSWERS(BS_NO_MANAGER, bs_commit_keeping(&pair[0], txns[0], 0, 0, &told));
}

/* ------------------------------------------------------------------------------------------------
 * A crowd.
 */

enum { CROWD = 12, SLOTS = 8, TURNS = 400, RECORDS = 6 };

static bs_node records[RECORDS];
static int writers[RECORDS], readers; /* who writes a record, and how many read all */
static bool crowd_is_over;

static void work_on(bs_txn txn, uint64_t *dice) {
  size_t which = roll(dice, RECORDS);
  struct timespec until = moment_in(20000);
  if (bs_table_lock_path(table, txn, records[which], BS_X, &until).status != BS_DONE) return;
  WANT(__atomic_add_fetch(&writers[which], 1, __ATOMIC_SEQ_CST) == 1);
  WANT(__atomic_load_n(&readers, __ATOMIC_SEQ_CST) == 0);
  if (roll(dice, 4) == 0) nap();
  WANT(__atomic_sub_fetch(&writers[which], 1, __ATOMIC_SEQ_CST) == 0);
}

static void read_all(bs_txn txn, uint64_t *dice) {
  struct timespec until = moment_in(20000);
  bs_node of = roll(dice, 2) == 0 ? root : file;
  bs_mode mode = roll(dice, 4) == 0 ? BS_X : BS_S;
  size_t i;
  if (bs_table_lock_path(table, txn, of, mode, &until).status != BS_DONE) return;
  __atomic_add_fetch(&readers, 1, __ATOMIC_SEQ_CST);
  for (i = 0; i < RECORDS; i++) WANT(__atomic_load_n(&writers[i], __ATOMIC_SEQ_CST) == 0);
  __atomic_sub_fetch(&readers, 1, __ATOMIC_SEQ_CST);
}

static void *crowd_one(void *arg) {
  uint64_t dice = 88172645463325252u + (uint64_t)(uintptr_t)arg * 7919u;
  bs_session own = bs_session_of(table, roll(&dice, 5));
  size_t i;
  for (i = 0; i < TURNS; i++) {
    bs_txn txn = DONE(bs_session_begin(&own, NULL)).txn;
    if (roll(&dice, 25) == 0) read_all(txn, &dice);
    else work_on(txn, &dice);
    if (roll(&dice, 30) == 0 || doing_of(txn) != 1) DONE(bs_table_abort(table, txn, NULL));
    else DONE(bs_session_commit(&own, NULL));
    if (roll(&dice, 50) == 0) DONE(bs_session_end(&own));
  }
  return NULL;
}

/* While the latch is free nobody waits for one that rests, and each that rests lives and holds intentions alone. */
static void check_law(const bs_manager *lent) {
  bs_slots rest = bs_call_resting(lent).slots;
  uint32_t slot, other;
  uint64_t place;
  for (slot = 0; slot < BS_SLOTS; slot++) {
    bs_reply living = bs_living(lent, slot), lock;
    bs_slots waited;
    WANT(living.status == BS_DONE || !bs_has(rest, slot));
    if (living.status != BS_DONE) continue;
    for (place = 0; (lock = bs_lock_at(lent, living.txn, place)).status == BS_DONE; place++) {
      WANT(!bs_has(rest, slot) || lock.mode == BS_IS || lock.mode == BS_IX);
    }
    waited = bs_waits_for(lent, living.txn).slots;
    for (other = 0; other < BS_SLOTS; other++) WANT(!bs_has(waited, other) || !bs_has(rest, other));
  }
}

static void *look_on(void *arg) {
  while (!__atomic_load_n(&crowd_is_over, __ATOMIC_SEQ_CST)) {
    check_law(bs_table_hold(table));
    DONE(bs_table_let_go(table));
    nap();
  }
  return arg;
}

/* More threads than slots, each with a session of its own. */
static void a_crowd_of_sessions(void) {
  pthread_t threads[CROWD], looker;
  size_t i;
  bs_txn txn;
  make_of(SLOTS);
  file = DONE(bs_table_add_file(table, &root, 1)).node;
  txn = begin();
  DONE(bs_table_lock_path(table, txn, file, BS_IX, NULL));
  for (i = 0; i < RECORDS; i++) records[i] = DONE(bs_table_insert(table, txn, file, NULL, 0)).node;
  DONE(bs_table_commit(table, txn, NULL));
  start(&looker, look_on, NULL);
  for (i = 0; i < CROWD; i++) start(&threads[i], crowd_one, (void *)(uintptr_t)i);
  for (i = 0; i < CROWD; i++) join(threads[i]);
  __atomic_store_n(&crowd_is_over, true, __ATOMIC_SEQ_CST);
  join(looker);
  close_table();
}

int main(int count, char **words) {
  setvbuf(stdout, NULL, _IONBF, 0);
  if (count > 1) patience = (unsigned)atoi(words[1]);
  TELL(a_session_keeps_its_intentions);
  TELL(as_many_as_it_says);
  TELL(what_was_raised_is_not_kept);
  TELL(a_commit_of_a_session_tells);
  TELL(what_is_waited_for_is_not_kept);
  TELL(a_lock_does_not_wait);
  TELL(others_are_waited_for);
  TELL(no_other_request_waits);
  TELL(no_try_is_refused);
  TELL(a_try_is_refused_for_others);
  TELL(no_escalation_is_refused);
  TELL(a_path_goes_on_past_it);
  TELL(one_that_works_is_not_ended);
  TELL(a_begin_gets_a_slot);
  TELL(a_traced_table_ends_all);
  TELL(who_was_aborted_makes_no_room);
  TELL(a_slot_is_handed_on);
  TELL(a_transaction_is_a_list);
  TELL(a_commit_in_a_list);
  TELL(a_list_renews_its_transaction);
  TELL(a_list_of_a_session_waits);
  TELL(a_list_finds_no_slot);
  TELL(lists_of_no_session);
  TELL(calls_in_the_wrong_order);
  TELL(what_is_no_session);
  TELL(a_commit_is_refused);
  TELL(its_slot_is_another_s);
  TELL(a_late_call_is_refused);
  TELL(who_has_locked_is_not_ended);
  TELL(work_begins_again);
  TELL(a_deadline_ends_with_its_transaction);
  TELL(one_call_is_three_commands);
  TELL(a_crowd_of_sessions);
  return 0;
}
