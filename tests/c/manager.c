/*
 * Stories of a few transactions over a manager, with every answer that is wanted: work that begins again or joins, the
 * last deadlock, what is counted, paths, adopted rows, a schema that changes, rows by number, intervals that are split
 * and merged, an index beside records, limits and watchers. Each is a function that ends the program with status 1 at the first answer that is
 * not as wanted, and else prints its name. What scripts can ask is in tests/scripts.
 */
#include "burlapslate_parts.h"
#include "burlapslate_splits.h"
#include "memory.h"
#include "same.h"

#include <stdio.h>
#include <stdlib.h>

static const char *story;
static bs_notices told;
/* The manager of the story, the root of its graph, and its first transactions. */
static bs_manager manager = BS_NO_MANAGER_HERE;
static bs_manager *const m = &manager;
static bs_node db;
static bs_txn a, b, c;

static const bs_node no_node;
static const bs_txn no_txn;

static void wanted(bool holds, const char *what, int line) {
  if (holds) return;
  fprintf(stderr, "manager.c:%d: %s: not so: %s\n", line, story, what);
  exit(1);
}

#define WANT(condition) wanted((condition), #condition, __LINE__)

/* A call is answered so. */
static bs_reply answers(bs_status status, bs_reply reply, int line) {
  if (reply.status != status) fprintf(stderr, "wanted %s, answered: %s\n", bs_text(status), bs_text(reply.status));
  wanted(reply.status == status, "the answer", line);
  return reply;
}

#define ANSWERS(status, call) answers((status), (call), __LINE__)
#define DONE(call) ANSWERS(BS_DONE, call)

/* A command is answered so, and no other transaction is told. */
static bs_reply tells_nobody(bs_status status, bs_reply reply, int line) {
  answers(status, reply, line);
  wanted(told.count == 0, "nobody is told", line);
  return reply;
}

#define QUIET(status, call) tells_nobody((status), (call), __LINE__)

/* One transaction is told this, and no other. */
static bool is_told(bs_txn txn, uint32_t kind) {
  return told.count == 1 && same_txn(told.at[0].txn, txn) && told.at[0].kind == kind;
}

static bool is_granted(bs_txn txn, bs_node node, bs_mode mode) {
  return is_told(txn, BS_TOLD_GRANTED) && same_node(told.at[0].node, node) && told.at[0].mode == mode;
}

/* A lock is granted in a mode, that which was asked joined with that which was held. */
static void grants(bs_txn txn, bs_node node, bs_mode mode, bs_mode held, int line) {
  wanted(tells_nobody(BS_DONE, bs_lock(m, txn, node, mode, &told), line).mode == held, "the mode", line);
}

#define RAISES(txn, node, mode, held) grants((txn), (node), (mode), (held), __LINE__)
#define LOCKS(txn, node, mode) RAISES(txn, node, mode, mode)
#define WAITS(txn, node, mode) QUIET(BS_WAITING, bs_lock(m, txn, node, mode, &told))

/* A path is locked to its end. */
static void grants_path(bs_txn txn, bs_node node, bs_mode mode, int line) {
  bs_reply reply = tells_nobody(BS_DONE, bs_lock_path(m, txn, node, mode, &told), line);
  wanted(reply.mode == mode && same_node(reply.node, no_node), "the end of the path", line);
}

#define LOCKS_PATH(txn, node, mode) grants_path((txn), (node), (mode), __LINE__)

/* A path is locked as far as a node, for which the transaction waits. */
static void waits_at(bs_txn txn, bs_node node, bs_mode mode, bs_node at, int line) {
  bs_reply reply = tells_nobody(BS_WAITING, bs_lock_path(m, txn, node, mode, &told), line);
  wanted(same_node(reply.node, at), "the node that is waited for", line);
}

#define WAITS_AT(txn, node, mode, at) waits_at((txn), (node), (mode), (at), __LINE__)

static void has_mode(bs_txn txn, bs_node node, bs_mode mode, int line) {
  wanted(answers(BS_DONE, bs_held(m, txn, node), line).mode == mode, "the held mode", line);
}

#define HOLDS(txn, node, mode) has_mode((txn), (node), (mode), __LINE__)

/* The name that a manager gives next at a place: keys count from 0 and are given again, births from 1 and are not. */
static bool is_named(bs_node node, size_t key, uint64_t birth) {
  return node.key == key && node.birth == birth;
}

static bool is_transaction(bs_txn txn, uint32_t slot, uint64_t age) {
  return txn.slot == slot && txn.age == age;
}

/* A manager for four transactions, with a root. */
static void open_manager(uint32_t detect) {
  DONE(make_manager(m, detect, 4));
  db = DONE(bs_add_inner(m, NULL, 0)).node;
}

static bs_txn begin(void) {
  return DONE(bs_begin(m)).txn;
}

static void begin_two(void) {
  a = begin();
  b = begin();
}

static bs_node make_file(void) {
  return DONE(bs_add_file(m, &db, 1)).node;
}

/* An index of a file with bounds, under the root. */
static bs_node make_index(bs_node file, const uint64_t *bounds, size_t count) {
  return DONE(bs_add_index(m, &db, 1, file, bounds, count)).node;
}

static bs_node interval(bs_node index, size_t place) {
  return DONE(bs_interval(m, index, place)).node;
}

static void end_manager(void) {
  DONE(bs_end(m));
}

/* ------------------------------------------------------------------------------------------------
 * Work that begins again: the victim is the transaction whose work began last.
 */

/* Of two readers that want to write the younger is the victim, and both end. A third begins for new work, and a fourth
 * for work that was begun with this number; both read. */
static void begin_after_a_deadlock(uint64_t since) {
  open_manager(BS_AT_BLOCK);
  begin_two();
  LOCKS(a, db, BS_S);
  LOCKS(b, db, BS_S);
  WAITS(a, db, BS_X);
  QUIET(BS_VICTIM, bs_lock(m, b, db, BS_X, &told));
  DONE(bs_abort(m, b, &told));
  WANT(is_granted(a, db, BS_X));
  QUIET(BS_DONE, bs_commit(m, a, &told));
  a = begin();
  b = DONE(bs_begin_again(m, since)).txn;
  WANT(is_transaction(a, 0, 3) && is_transaction(b, 1, 4));
  LOCKS(a, db, BS_S);
  LOCKS(b, db, BS_S);
}

/* The requester closes the cycle, and is the victim. */
static void requester_is_victim(bs_txn first, bs_txn requester) {
  WAITS(first, db, BS_X);
  QUIET(BS_VICTIM, bs_lock(m, requester, db, BS_X, &told));
  DONE(bs_abort(m, requester, &told));
  WANT(is_granted(first, db, BS_X));
  HOLDS(first, db, BS_X);
  end_manager();
}

/* The requester closes the cycle, and the transaction that waits already is the victim. */
static void waiter_is_victim(bs_txn first, bs_txn requester) {
  WAITS(first, db, BS_X);
  ANSWERS(BS_WAITING, bs_lock(m, requester, db, BS_X, &told));
  WANT(is_told(first, BS_TOLD_VICTIM));
  DONE(bs_abort(m, first, &told));
  WANT(is_granted(requester, db, BS_X));
  HOLDS(requester, db, BS_X);
  end_manager();
}

static void work_that_begins_again_is_older(void) {
  begin_after_a_deadlock(2);
  waiter_is_victim(a, b);
}

static void newer_work_is_the_victim_if_it_asks_last(void) {
  begin_after_a_deadlock(2);
  requester_is_victim(b, a);
}

static void work_since_no_begin_is_the_oldest(void) {
  begin_after_a_deadlock(0);
  requester_is_victim(b, a);
}

static void of_work_of_one_begin_the_younger_is_the_victim(void) {
  begin_after_a_deadlock(3);
  waiter_is_victim(b, a);
}

static void a_later_number_counts_as_its_own(void) {
  begin_after_a_deadlock(UINT64_MAX);
  waiter_is_victim(b, a);
}

/* ------------------------------------------------------------------------------------------------
 * Work that joins: several managers that work as one have the same slots, and the same numbers for victims.
 */

static bs_txn join(uint32_t slot, uint64_t since) {
  return DONE(bs_join(m, slot, since)).txn;
}

static void work_that_joins_has_its_slot_and_its_number(void) {
  open_manager(BS_AT_BLOCK);
  WANT(is_transaction(begin(), 0, 1));
  WANT(is_transaction(join(2, 9), 2, 9));
  WANT(is_transaction(begin(), 1, 10));
  WANT(is_transaction(join(3, 4), 3, 11));
  end_manager();
}

static void work_joins_no_slot_but_a_free_one(void) {
  open_manager(BS_AT_BLOCK);
  a = join(2, 9);
  ANSWERS(BS_TOO_MANY_TXNS, bs_join(m, 2, 20));
  ANSWERS(BS_TOO_MANY_TXNS, bs_join(m, 4, 20));
  ANSWERS(BS_TOO_MANY_TXNS, bs_join(m, UINT32_MAX, 20));
  QUIET(BS_DONE, bs_commit(m, a, &told));
  WANT(is_transaction(join(2, 0), 2, 10));
  end_manager();
}

/* Of two that joined the victim is that of the later number, whichever joined first. */
static void work_that_joins_is_as_old_as_its_number(void) {
  open_manager(BS_AT_BLOCK);
  a = join(0, 5);
  b = join(1, 2);
  WANT(is_transaction(a, 0, 5) && is_transaction(b, 1, 6));
  LOCKS(a, db, BS_S);
  LOCKS(b, db, BS_S);
  waiter_is_victim(a, b);
}

static void no_work_joins_after_the_last_age(void) {
  open_manager(BS_AT_BLOCK);
  WANT(is_transaction(join(0, UINT64_MAX), 0, UINT64_MAX));
  ANSWERS(BS_WORN_OUT, bs_join(m, 1, 1));
  ANSWERS(BS_WORN_OUT, bs_join(m, 0, 1));
  ANSWERS(BS_WORN_OUT, bs_begin(m));
  end_manager();
}

/* ------------------------------------------------------------------------------------------------
 * The last deadlock.
 */

static bs_deadlock last;

/* On the deadlock a transaction waits for a node in a mode, and for one other transaction alone. */
static bool is_stuck(size_t place, bs_txn txn, bs_node node, bs_mode mode, bs_txn blocker) {
  bs_stuck stuck = last.at[place];
  bs_slots one = { { 0 } };
  one.words[blocker.slot / 64] = (uint64_t)1 << blocker.slot % 64;
  return place < last.count && same_txn(stuck.txn, txn) && same_node(stuck.node, node) && stuck.mode == mode &&
         same_slots(stuck.waits_for, one);
}

/* Two readers of the root wait to write it; the second is the victim, and both end. */
static void pair_deadlocks(void) {
  begin_two();
  LOCKS(a, db, BS_S);
  LOCKS(b, db, BS_S);
  WAITS(a, db, BS_X);
  QUIET(BS_VICTIM, bs_lock(m, b, db, BS_X, &told));
  DONE(bs_abort(m, b, &told));
  WANT(is_granted(a, db, BS_X));
  QUIET(BS_DONE, bs_commit(m, a, &told));
}

/* The last deadlock is that of these two, of which the second was the victim. */
static bool is_of_pair(void) {
  DONE(bs_last_deadlock(m, &last));
  return same_txn(last.victim, b) && last.count == 2 && is_stuck(0, a, db, BS_X, b) && is_stuck(1, b, db, BS_X, a);
}

static void a_deadlock_is_kept_until_the_next(void) {
  open_manager(BS_AT_BLOCK);
  ANSWERS(BS_NO_PLACE, bs_last_deadlock(m, &last));
  pair_deadlocks();
  WANT(is_transaction(a, 0, 1) && is_transaction(b, 1, 2) && is_of_pair());
  pair_deadlocks();
  WANT(is_transaction(a, 0, 3) && is_transaction(b, 1, 4) && is_of_pair());
  end_manager();
}

static void a_settled_deadlock_is_kept(void) {
  open_manager(BS_BY_WATCHER);
  begin_two();
  LOCKS(a, db, BS_S);
  LOCKS(b, db, BS_S);
  WAITS(a, db, BS_X);
  WAITS(b, db, BS_X);
  ANSWERS(BS_NO_PLACE, bs_last_deadlock(m, &last));
  DONE(bs_settle(m, a, &told));
  WANT(is_told(b, BS_TOLD_VICTIM) && is_of_pair());
  end_manager();
}

/* The first transaction of a ring waits for a fourth too, which waits for none and so is on no cycle. */
static void a_ring_of_three_is_kept(void) {
  bs_node g, h;
  bs_txn d;
  open_manager(BS_AT_BLOCK);
  g = DONE(bs_add_inner(m, NULL, 0)).node;
  h = DONE(bs_add_inner(m, NULL, 0)).node;
  begin_two();
  c = begin();
  d = begin();
  LOCKS(a, db, BS_X);
  LOCKS(b, g, BS_S);
  LOCKS(c, h, BS_X);
  LOCKS(d, g, BS_S);
  WAITS(a, g, BS_X);
  WAITS(b, h, BS_S);
  QUIET(BS_VICTIM, bs_lock(m, c, db, BS_IX, &told));
  DONE(bs_last_deadlock(m, &last));
  WANT(same_txn(last.victim, c) && last.count == 3);
  WANT(is_stuck(0, a, g, BS_X, b) && is_stuck(1, b, h, BS_S, c) && is_stuck(2, c, db, BS_IX, a));
  end_manager();
}

/* ------------------------------------------------------------------------------------------------
 * Counters.
 */

/* All that is counted, but for the accepted commands, is so much. */
static void counts(bs_counts counted, int line) {
  bs_counts came;
  answers(BS_DONE, bs_counters(m, &came), line);
  came.accepted = 0;
  wanted(memcmp(&came, &counted, sizeof came) == 0, "what is counted", line);
}

#define COUNTED(...) counts((bs_counts){ __VA_ARGS__ }, __LINE__)

static bs_node file;

/* A root, a file and two transactions. */
static void open_file(void) {
  open_manager(BS_AT_BLOCK);
  file = make_file();
  begin_two();
}

/* The first transaction holds the file in X; two others hold the root in IS. */
static void open_held_file(void) {
  open_file();
  c = begin();
  LOCKS(a, db, BS_IX);
  LOCKS(a, db, BS_IX);
  LOCKS(a, file, BS_X);
  LOCKS(b, db, BS_IS);
  WANT(DONE(bs_try(m, c, db, BS_IS)).mode == BS_IS);
}

/* The first transaction writes the file, and the second reads it. */
static void open_shared_file(void) {
  open_file();
  LOCKS(a, db, BS_IX);
  LOCKS(a, file, BS_IX);
  LOCKS(b, db, BS_IS);
  LOCKS(b, file, BS_IS);
}

static void a_new_manager_has_counted_nothing(void) {
  open_manager(BS_AT_BLOCK);
  COUNTED(.granted = 0);
  end_manager();
}

static void requests_and_waits_are_counted(void) {
  open_held_file();
  ANSWERS(BS_WOULD_BLOCK, bs_try(m, c, file, BS_S));
  WAITS(b, file, BS_S);
  WAITS(c, file, BS_S);
  COUNTED(.granted = 5, .waited = 2, .conversions = 1, .most_waiting = 2, .longest_queue = 2);
  DONE(bs_commit(m, a, &told));
  WANT(told.count == 2);
  COUNTED(.granted = 5, .waited = 2, .conversions = 1, .granted_later = 2, .most_waiting = 2, .longest_queue = 2);
  end_manager();
}

static void refusals_and_questions_are_not_counted(void) {
  open_held_file();
  WAITS(b, file, BS_S);
  COUNTED(.granted = 5, .waited = 1, .conversions = 1, .most_waiting = 1, .longest_queue = 1);
  QUIET(BS_TXN_WAITING, bs_lock(m, b, file, BS_S, &told));
  QUIET(BS_TXN_WAITING, bs_commit(m, b, &told));
  QUIET(BS_NO_SUCH_NODE, bs_lock(m, a, no_node, BS_S, &told));
  ANSWERS(BS_NO_SUCH_TXN, bs_try(m, no_txn, file, BS_S));
  HOLDS(a, file, BS_X);
  WANT(DONE(bs_group(m, file)).mode == BS_X);
  COUNTED(.granted = 5, .waited = 1, .conversions = 1, .most_waiting = 1, .longest_queue = 1);
  end_manager();
}

static void conversions_past_a_wait_are_counted(void) {
  open_manager(BS_AT_BLOCK);
  begin_two();
  LOCKS(a, db, BS_S);
  WAITS(b, db, BS_X);
  RAISES(a, db, BS_IS, BS_S);
  WANT(DONE(bs_try(m, a, db, BS_IX)).mode == BS_SIX);
  LOCKS(a, db, BS_X);
  COUNTED(.granted = 4, .waited = 1, .conversions = 3, .most_waiting = 1, .longest_queue = 1, .passed = 2);
  end_manager();
}

static void a_victim_is_counted(void) {
  open_manager(BS_AT_BLOCK);
  begin_two();
  LOCKS(a, db, BS_S);
  LOCKS(b, db, BS_S);
  WAITS(a, db, BS_X);
  QUIET(BS_VICTIM, bs_lock(m, b, db, BS_X, &told));
  COUNTED(.granted = 2, .waited = 1, .conversions = 2, .condemned = 1, .most_waiting = 1, .longest_queue = 1);
  DONE(bs_abort(m, b, &told));
  WANT(is_granted(a, db, BS_X));
  QUIET(BS_DONE, bs_commit(m, a, &told));
  COUNTED(.granted = 2, .waited = 1, .conversions = 2, .granted_later = 1, .condemned = 1, .most_waiting = 1,
          .longest_queue = 1);
  end_manager();
}

static void a_victim_that_is_told_is_counted(void) {
  open_manager(BS_AT_BLOCK);
  begin_two();
  LOCKS(a, db, BS_S);
  LOCKS(b, db, BS_S);
  WAITS(b, db, BS_X);
  ANSWERS(BS_WAITING, bs_lock(m, a, db, BS_X, &told));
  WANT(is_told(b, BS_TOLD_VICTIM));
  COUNTED(.granted = 2, .waited = 2, .conversions = 2, .condemned = 1, .most_waiting = 1, .longest_queue = 1);
  end_manager();
}

static void a_wait_for_a_file_that_moves_is_counted(void) {
  bs_node other;
  open_manager(BS_AT_BLOCK);
  begin_two();
  other = DONE(bs_add_inner(m, NULL, 0)).node;
  file = make_file();
  LOCKS(a, db, BS_IX);
  LOCKS(a, other, BS_IX);
  LOCKS(a, file, BS_X);
  LOCKS(b, db, BS_IS);
  WAITS(b, file, BS_S);
  DONE(bs_move(m, a, file, &other, 1, &told));
  WANT(is_told(b, BS_TOLD_MOVED));
  COUNTED(.granted = 4, .waited = 1, .moved = 1, .most_waiting = 1, .longest_queue = 1);
  end_manager();
}

static void a_wait_for_a_record_that_moves_is_counted(void) {
  static const uint64_t bound = 100, key = 50;
  bs_node index, record;
  open_file();
  index = make_index(file, &bound, 1);
  LOCKS(a, db, BS_IX);
  LOCKS(a, file, BS_IX);
  LOCKS(a, index, BS_IX);
  LOCKS(a, interval(index, 0), BS_IX);
  LOCKS(a, interval(index, 1), BS_IX);
  LOCKS(b, db, BS_IS);
  LOCKS(b, index, BS_IS);
  LOCKS(b, interval(index, 0), BS_IS);
  record = DONE(bs_insert(m, a, file, &key, 1)).node;
  WAITS(b, record, BS_S);
  QUIET(BS_DONE, bs_rekey(m, a, record, index, 60, &told));
  DONE(bs_rekey(m, a, record, index, 150, &told));
  WANT(is_told(b, BS_TOLD_MOVED));
  COUNTED(.granted = 8, .waited = 1, .moved = 1, .most_waiting = 1, .longest_queue = 1);
  end_manager();
}

static void a_wait_for_a_record_that_is_deleted_is_counted(void) {
  bs_node record;
  open_shared_file();
  record = DONE(bs_insert(m, a, file, NULL, 0)).node;
  WAITS(b, record, BS_S);
  DONE(bs_delete(m, a, record, &told));
  WANT(is_told(b, BS_TOLD_GONE));
  COUNTED(.granted = 4, .waited = 1, .gone = 1, .most_waiting = 1, .longest_queue = 1);
  end_manager();
}

static void an_escalation_is_counted(void) {
  bs_node last;
  bs_reply reply;
  open_shared_file();
  DONE(bs_insert(m, a, file, NULL, 0));
  last = DONE(bs_insert(m, a, file, NULL, 0)).node;
  QUIET(BS_WOULD_BLOCK, bs_escalate(m, a, file, &told));
  QUIET(BS_BAD_PARENTS, bs_escalate(m, a, last, &told));
  QUIET(BS_DONE, bs_commit(m, b, &told));
  reply = QUIET(BS_DONE, bs_escalate(m, a, file, &told));
  WANT(reply.mode == BS_X && reply.released == 2 && reply.kept == 0);
  COUNTED(.granted = 4, .escalations = 1, .released_children = 2);
  end_manager();
}

/* ------------------------------------------------------------------------------------------------
 * Paths: what is locked above a node, and where a path ends.
 */

static bs_node first, second, in_first, in_second, record;
static bs_txn t;

/* A file with two indexes of two intervals. */
static void open_indexes(void) {
  static const uint64_t bound = 10;
  open_manager(BS_AT_BLOCK);
  file = make_file();
  first = make_index(file, &bound, 1);
  second = make_index(file, &bound, 1);
  in_first = interval(first, 0);
  in_second = interval(second, 0);
}

/* A record in the first interval of each, whose transaction has committed; and a transaction. */
static void open_record(void) {
  static const uint64_t keys[] = { 1, 2 };
  open_indexes();
  a = begin();
  LOCKS_PATH(a, file, BS_IX);
  LOCKS_PATH(a, in_first, BS_IX);
  LOCKS_PATH(a, in_second, BS_IX);
  record = DONE(bs_insert(m, a, file, keys, 2)).node;
  QUIET(BS_DONE, bs_commit(m, a, &told));
  t = begin();
}

static void a_record_is_read_by_its_first_parent(void) {
  open_record();
  LOCKS_PATH(t, record, BS_S);
  HOLDS(t, db, BS_IS);
  HOLDS(t, file, BS_IS);
  HOLDS(t, first, BS_NL);
  end_manager();
}

static void a_record_is_written_by_all_its_parents(void) {
  open_record();
  LOCKS_PATH(t, record, BS_X);
  HOLDS(t, file, BS_IX);
  HOLDS(t, in_first, BS_IX);
  HOLDS(t, in_second, BS_IX);
  HOLDS(t, second, BS_IX);
  HOLDS(t, db, BS_IX);
  end_manager();
}

static void a_reader_by_another_parent_locks_nothing_above(void) {
  open_record();
  LOCKS_PATH(t, in_second, BS_IS);
  LOCKS_PATH(t, record, BS_S);
  HOLDS(t, file, BS_NL);
  end_manager();
}

/* The root is the second parent of a node, and the parent of its first one: once the root is locked, it is enough. */
static void a_reader_locks_no_parent_more_than_it_needs(void) {
  bs_node both[2], node;
  open_manager(BS_AT_BLOCK);
  a = begin();
  both[0] = DONE(bs_add_inner(m, &db, 1)).node;
  both[1] = db;
  node = DONE(bs_add_inner(m, both, 2)).node;
  LOCKS_PATH(a, node, BS_S);
  HOLDS(a, db, BS_IS);
  HOLDS(a, both[0], BS_NL);
  end_manager();
}

static void a_path_continues_after_a_wait(void) {
  open_indexes();
  begin_two();
  LOCKS_PATH(a, db, BS_X);
  WAITS_AT(b, file, BS_S, db);
  HOLDS(b, file, BS_NL);
  DONE(bs_commit(m, a, &told));
  WANT(is_granted(b, db, BS_IS));
  LOCKS_PATH(b, file, BS_S);
  HOLDS(b, db, BS_IS);
  end_manager();
}

static void a_bad_mode_leaves_nothing_locked(void) {
  open_record();
  QUIET(BS_BAD_MODE, bs_lock_path(m, t, record, BS_IX, &told));
  HOLDS(t, file, BS_NL);
  HOLDS(t, db, BS_NL);
  end_manager();
}

/* A transaction holds another root in X, and a reader of the first root waits for that. A third waits to write the
 * first root, and is ahead there. */
static void a_victim_is_told_before_a_path_continues(void) {
  bs_node other;
  bs_reply reply;
  open_indexes();
  begin_two();
  c = begin();
  other = DONE(bs_add_inner(m, NULL, 0)).node;
  LOCKS_PATH(a, other, BS_X);
  LOCKS_PATH(b, db, BS_IS);
  WAITS(b, other, BS_S);
  WAITS(c, db, BS_X);
  reply = ANSWERS(BS_ON_THE_WAY, bs_lock_path(m, a, file, BS_X, &told));
  WANT(same_node(reply.node, db) && is_told(c, BS_TOLD_VICTIM));
  HOLDS(a, db, BS_IX);
  LOCKS_PATH(a, file, BS_X);
  end_manager();
}

/* Of two readers of the root the first wants to write it, and the second to write below. */
static void a_path_ends_where_its_transaction_is_the_victim(void) {
  bs_reply reply;
  open_indexes();
  begin_two();
  LOCKS(a, db, BS_S);
  LOCKS(b, db, BS_S);
  WAITS(a, db, BS_X);
  reply = QUIET(BS_VICTIM, bs_lock_path(m, b, file, BS_X, &told));
  WANT(same_node(reply.node, db));
  HOLDS(b, db, BS_S);
  HOLDS(b, file, BS_NL);
  end_manager();
}

/* ------------------------------------------------------------------------------------------------
 * Rows that have a node only while they are locked: they are adopted and forgotten.
 */

static bs_node low;

/* A file with one index of two intervals, of which `low` is the first. */
static void open_index(void) {
  static const uint64_t bound = 10;
  open_manager(BS_AT_BLOCK);
  file = make_file();
  first = make_index(file, &bound, 1);
  low = interval(first, 0);
}

static bs_node adopt(uint64_t key) {
  return DONE(bs_adopt(m, file, &key, 1)).node;
}

static void a_row_stays_while_it_is_locked(void) {
  bs_node row;
  open_index();
  begin_two();
  row = adopt(7);
  HOLDS(a, row, BS_NL);
  LOCKS_PATH(a, row, BS_X);
  WAITS_AT(b, row, BS_S, row);
  ANSWERS(BS_RECORD_IN_USE, bs_forget(m, row));
  DONE(bs_commit(m, a, &told));
  WANT(is_granted(b, row, BS_S));
  HOLDS(b, row, BS_S);
  ANSWERS(BS_RECORD_IN_USE, bs_forget(m, row));
  QUIET(BS_DONE, bs_commit(m, b, &told));
  DONE(bs_forget(m, row));
  ANSWERS(BS_NO_SUCH_NODE, bs_forget(m, row));
  end_manager();
}

/* A file gets no index after its first row, also when that has no node any more. Another file does. */
static void no_index_is_made_over_rows(void) {
  bs_node row, other;
  open_index();
  row = adopt(7);
  WANT(is_named(row, 5, 6));
  DONE(bs_forget(m, row));
  ANSWERS(BS_FILE_IN_USE, bs_add_index(m, &db, 1, file, NULL, 0));
  other = make_file();
  WANT(is_named(other, row.key, 7));
  WANT(is_named(make_index(other, NULL, 0), 6, 8));
  end_manager();
}

static void a_row_is_adopted_only_in_place_of_a_record(void) {
  static const uint64_t key = 7;
  open_index();
  ANSWERS(BS_NO_SUCH_NODE, bs_adopt(m, no_node, &key, 1));
  ANSWERS(BS_BAD_PARENTS, bs_adopt(m, db, &key, 1));
  ANSWERS(BS_BAD_KEYS, bs_adopt(m, file, NULL, 0));
  ANSWERS(BS_NO_SUCH_NODE, bs_forget(m, no_node));
  ANSWERS(BS_BAD_PARENTS, bs_forget(m, file));
  end_manager();
}

/* A reader of an interval reads a row that is adopted below it, and keeps writers away from it. */
static void an_adopted_row_is_read_from_above(void) {
  bs_node row;
  open_index();
  begin_two();
  LOCKS_PATH(a, low, BS_S);
  row = adopt(7);
  WANT(DONE(bs_effective(m, a, row)).mode == BS_S);
  WAITS_AT(b, row, BS_X, low);
  DONE(bs_forget(m, row));
  DONE(bs_commit(m, a, &told));
  WANT(is_granted(b, low, BS_IX));
  HOLDS(b, low, BS_IX);
  end_manager();
}

/* ------------------------------------------------------------------------------------------------
 * A schema that changes.
 */

/* A transaction holds a file in X with its index, and has deleted the only record. */
static void open_schema(void) {
  static const uint64_t key = 1, bound = 5;
  open_index();
  a = begin();
  LOCKS_PATH(a, file, BS_X);
  LOCKS_PATH(a, low, BS_IX);
  record = DONE(bs_insert(m, a, file, &key, 1)).node;
  QUIET(BS_NEED_EXCLUSIVE, bs_drop(m, a, first, &told));
  QUIET(BS_BAD_PARENTS, bs_drop(m, a, low, &told));
  QUIET(BS_BAD_PARENTS, bs_drop(m, a, record, &told));
  LOCKS_PATH(a, first, BS_X);
  QUIET(BS_FILE_IN_USE, bs_drop(m, a, first, &told));
  ANSWERS(BS_FILE_IN_USE, bs_index_by(m, a, &db, 1, file, &bound, 1));
  QUIET(BS_DONE, bs_delete(m, a, record, &told));
}

static void an_index_is_dropped_and_made_again(void) {
  static const uint64_t zero, five = 5;
  bs_node again;
  open_schema();
  b = begin();
  LOCKS_PATH(b, db, BS_IS);
  WAITS(b, first, BS_IS);
  DONE(bs_drop(m, a, first, &told));
  WANT(is_told(b, BS_TOLD_GONE));
  ANSWERS(BS_NO_SUCH_NODE, bs_held(m, b, first));
  ANSWERS(BS_NO_SUCH_NODE, bs_held(m, a, low));
  ANSWERS(BS_NEED_EXCLUSIVE, bs_index_by(m, b, &db, 1, file, &five, 1));
  ANSWERS(BS_BAD_KEYS, bs_index_by(m, a, &db, 1, file, &zero, 1));
  again = DONE(bs_index_by(m, a, &db, 1, file, &five, 1)).node;
  WANT(is_named(again, 4, 7)); /* The key that was freed last. */
  HOLDS(a, again, BS_X);
  WAITS(b, again, BS_IS);
  DONE(bs_commit(m, a, &told));
  WANT(is_granted(b, again, BS_IS));
  HOLDS(b, again, BS_IS);
  end_manager();
}

static void a_tree_is_dropped_from_below(void) {
  open_schema();
  LOCKS_PATH(a, db, BS_X);
  QUIET(BS_HAS_CHILDREN, bs_drop(m, a, db, &told));
  QUIET(BS_FILE_IN_USE, bs_drop(m, a, file, &told));
  QUIET(BS_DONE, bs_drop(m, a, first, &told));
  QUIET(BS_DONE, bs_drop(m, a, file, &told));
  QUIET(BS_DONE, bs_drop(m, a, db, &told));
  ANSWERS(BS_NO_SUCH_NODE, bs_held(m, a, db));
  QUIET(BS_DONE, bs_commit(m, a, &told));
  end_manager();
}

/* ------------------------------------------------------------------------------------------------
 * Rows by number, whose nodes exist while the rows are locked.
 */

static bs_node records, high;

/* A file of records; and a file of rows with one index of two intervals, parted at 10. */
static void open_rows(void) {
  static const uint64_t bound = 10;
  open_manager(BS_AT_BLOCK);
  records = make_file();
  file = DONE(bs_add_row_file(m, &db, 1)).node;
  first = make_index(file, &bound, 1);
  low = interval(first, 0);
  high = interval(first, 1);
}

/* A transaction that can write rows. */
static bs_txn begin_writer(void) {
  bs_txn writer = begin();
  const bs_node above[] = { db, file, records, first, low, high };
  size_t i;
  for (i = 0; i < sizeof above / sizeof above[0]; i++) DONE(bs_try(m, writer, above[i], BS_IX));
  return writer;
}

static void open_writer(void) {
  open_rows();
  a = begin_writer();
}

static void open_writers(void) {
  open_writer();
  b = begin_writer();
}

/* Asks for the seventh row. */
static bs_reply ask(bs_txn txn, uint64_t key, bs_mode mode) {
  return bs_lock_row(m, txn, file, 7, &key, 1, mode, &told);
}

/* A lock of the row has this status, by a node of this name. */
static void row_answers(bs_status status, bs_reply reply, size_t key, uint64_t birth, int line) {
  tells_nobody(status, reply, line);
  wanted(is_named(reply.node, key, birth), "the node of the row", line);
}

#define ROW(status, call, key, birth) row_answers((status), (call), (key), (birth), __LINE__)

static bool has_node(void) {
  return bs_row_node(m, file, 7).status == BS_DONE;
}

static bool has_rows(bs_node node) {
  bs_status status = bs_unlock_row(m, a, node, 1000, &told).status;
  WANT(status == BS_NO_SUCH_NODE || status == BS_NOT_ROWS);
  return status == BS_NO_SUCH_NODE;
}

static uint64_t nodes(void) {
  return DONE(bs_len(m)).count;
}

static void a_row_has_a_node_while_it_is_locked(void) {
  open_writers();
  WANT(nodes() == 6);
  ROW(BS_DONE, ask(a, 5, BS_X), 6, 7);
  ROW(BS_WAITING, ask(b, 5, BS_S), 6, 7);
  WANT(has_node());
  DONE(bs_commit(m, a, &told));
  WANT(told.count == 1 && has_node());
  QUIET(BS_DONE, bs_commit(m, b, &told));
  WANT(!has_node() && nodes() == 6);
  end_manager();
}

/* A transaction that names other keys than those of a held row's node locks that node, and is told so. */
static void a_row_is_locked_by_the_node_that_it_has(void) {
  open_writers();
  ROW(BS_DONE, ask(a, 5, BS_S), 6, 7);
  ROW(BS_OTHER_KEYS, ask(b, 50, BS_S), 6, 7);
  ROW(BS_WAITING, ask(b, 50, BS_X), 6, 7);
  DONE(bs_commit(m, a, &told));
  WANT(told.count == 1 && has_node());
  ROW(BS_OTHER_KEYS, ask(b, 50, BS_X), 6, 7);
  QUIET(BS_DONE, bs_unlock_row(m, b, file, 7, &told));
  ROW(BS_DONE, ask(b, 50, BS_X), 6, 8);
  end_manager();
}

/* A row that is released by its node keeps that, and gets another node if a transaction names other keys. */
static void a_row_whose_node_is_free_gets_another(void) {
  bs_node node;
  open_writers();
  ROW(BS_DONE, ask(a, 5, BS_S), 6, 7);
  node = DONE(bs_row_node(m, file, 7)).node;
  WANT(nodes() == 7 && is_named(node, 6, 7));
  QUIET(BS_DONE, bs_unlock(m, a, node, &told));
  WANT(has_node());
  ROW(BS_DONE, ask(b, 50, BS_X), 7, 8);
  WANT(is_named(DONE(bs_row_node(m, file, 7)).node, 7, 8) && nodes() == 7);
  QUIET(BS_DONE, bs_commit(m, b, &told));
  WANT(!has_node() && nodes() == 6);
  end_manager();
}

static void a_refused_lock_of_a_row_changes_nothing(void) {
  open_rows();
  a = begin();
  WANT(nodes() == 6 && accepted_by(m) == 5);
  WANT(same_node(QUIET(BS_NEED_PARENTS, ask(a, 5, BS_X)).node, file));
  QUIET(BS_BAD_MODE, ask(a, 5, BS_IX));
  QUIET(BS_NO_SUCH_TXN, ask(no_txn, 5, BS_X));
  QUIET(BS_NO_SUCH_NODE, bs_unlock_row(m, a, file, 7, &told));
  WANT(!has_node() && nodes() == 6 && accepted_by(m) == 5);
  WANT(is_named(make_index(file, NULL, 0), 6, 7));
  end_manager();
}

static void a_file_of_rows_has_no_other_records(void) {
  static const uint64_t key = 5;
  bs_node row;
  open_writer();
  ANSWERS(BS_ROWS_BY_NUMBER, bs_insert(m, a, file, &key, 1));
  ANSWERS(BS_ROWS_BY_NUMBER, bs_adopt(m, file, &key, 1));
  ROW(BS_DONE, ask(a, 5, BS_X), 6, 7);
  row = DONE(bs_row_node(m, file, 7)).node;
  QUIET(BS_ROWS_BY_NUMBER, bs_delete(m, a, row, &told));
  ANSWERS(BS_ROWS_BY_NUMBER, bs_forget(m, row));
  QUIET(BS_ROWS_BY_NUMBER, bs_rekey(m, a, row, first, 50, &told));
  ROW(BS_DONE, ask(a, 5, BS_X), 6, 7);
  end_manager();
}

static void a_file_of_records_has_no_rows(void) {
  open_writer();
  QUIET(BS_NOT_ROWS, bs_lock_row(m, a, records, 7, NULL, 0, BS_X, &told));
  QUIET(BS_NOT_ROWS, bs_unlock_row(m, a, records, 7, &told));
  QUIET(BS_NOT_ROWS, bs_rekey_row(m, a, records, 7, first, 5, &told));
  WANT(is_named(DONE(bs_insert(m, a, records, NULL, 0)).node, 6, 7));
  WANT(!has_rows(records) && has_rows(file));
  end_manager();
}

/* Twenty more files of rows: more than are looked at one after the other. */
static void a_file_of_rows_is_one_of_many(void) {
  bs_node more[20];
  size_t i;
  open_writer();
  for (i = 0; i < 20; i++) {
    more[i] = DONE(bs_add_row_file(m, &db, 1)).node;
    WANT(has_rows(more[i]));
  }
  WANT(is_named(more[0], 6, 7) && is_named(more[19], 25, 26));
  WANT(has_rows(file) && has_rows(more[19]) && !has_rows(records));
  ANSWERS(BS_ROWS_BY_NUMBER, bs_insert(m, a, more[19], NULL, 0));
  QUIET(BS_NOT_ROWS, bs_lock_row(m, a, records, 7, NULL, 0, BS_X, &told));
  WANT(DONE(bs_try(m, a, more[0], BS_X)).mode == BS_X);
  QUIET(BS_DONE, bs_drop(m, a, more[0], &told));
  WANT(!has_rows(more[0]) && has_rows(more[19]));
  ROW(BS_DONE, ask(a, 5, BS_X), 6, 27);
  end_manager();
}

/* The number of a row that is locked in X is used until its transaction ends. */
static void a_number_is_free_at_the_commit(void) {
  open_writers();
  ROW(BS_DONE, ask(a, 5, BS_X), 6, 7);
  ROW(BS_WAITING, ask(b, 5, BS_X), 6, 7);
  QUIET(BS_DONE, bs_cancel(m, b, &told));
  WANT(has_node());
  ROW(BS_WAITING, ask(b, 5, BS_X), 6, 7);
  DONE(bs_commit(m, a, &told));
  WANT(told.count == 1 && has_node());
  ROW(BS_DONE, ask(b, 5, BS_X), 6, 7);
  QUIET(BS_NOT_WAITING, bs_cancel(m, b, &told));
  QUIET(BS_DONE, bs_commit(m, b, &told));
  WANT(!has_node());
  end_manager();
}

/* ------------------------------------------------------------------------------------------------
 * Rows that get nodes below a reader of an interval, which keeps its mode on all that it reads.
 */

static bs_node kept;
static bs_txn reader, other;

/* Locks a row whose number is its key for both indexes. */
static bs_reply lock_row(bs_txn txn, uint64_t number, uint64_t key, bs_mode mode) {
  const uint64_t keys[] = { key, key };
  return bs_lock_row(m, txn, file, number, keys, 2, mode, &told);
}

/* A file of rows with an index of three intervals and one of two. The reader holds the first interval in S, and a third
 * transaction holds the row 40 in it. */
static void open_reader(void) {
  static const uint64_t bounds[] = { 10, 20 }, bound = 15;
  bs_txn keeper;
  open_manager(BS_AT_BLOCK);
  file = DONE(bs_add_row_file(m, &db, 1)).node;
  first = make_index(file, bounds, 2);
  second = make_index(file, &bound, 1);
  low = interval(first, 0);
  reader = begin();
  other = begin();
  keeper = begin();
  LOCKS_PATH(keeper, file, BS_IS);
  kept = QUIET(BS_DONE, lock_row(keeper, 40, 5, BS_S)).node;
  LOCKS_PATH(reader, low, BS_S);
}

static bool may(bs_txn txn, bs_node node, bs_mode mode) {
  return DONE(bs_effective(m, txn, node)).mode == mode;
}

/* The reader reads the interval and the row, which has the parents and keys that it had. */
static void reads_on(void) {
  WANT(may(reader, low, BS_S) && may(reader, kept, BS_S));
  WANT(same_node(DONE(bs_parent(m, kept, 1)).node, low));
  WANT(DONE(bs_key(m, kept, 0)).count == 5 && DONE(bs_key(m, kept, 1)).count == 5);
}

static bool row_has_node(uint64_t number) {
  return bs_row_node(m, file, number).status == BS_DONE;
}

/* The other locks a row by the file, to which the reader may do so much. */
static void other_locks(uint64_t number, bs_mode mode, bs_mode effect) {
  bs_reply reply = QUIET(BS_DONE, lock_row(other, number, number, mode));
  WANT(reply.mode == mode && may(reader, reply.node, effect));
  reads_on();
}

static void rows_get_nodes_below_a_reader(void) {
  uint64_t number, before;
  open_reader();
  before = nodes();
  LOCKS_PATH(other, file, BS_IS);
  for (number = 0; number < 10; number++) {
    other_locks(number, BS_S, BS_S);
    QUIET(BS_DONE, bs_unlock_row(m, other, file, number, &told));
    WANT(!row_has_node(number));
    reads_on();
  }
  WANT(nodes() == before && row_has_node(40));
  end_manager();
}

static void rows_beside_a_reader_are_written(void) {
  uint64_t number, before;
  open_reader();
  before = nodes();
  LOCKS_PATH(other, file, BS_IX);
  LOCKS_PATH(other, interval(first, 2), BS_IX);
  LOCKS_PATH(other, interval(second, 1), BS_IX);
  for (number = 20; number < 24; number++) other_locks(number, BS_X, BS_NL);
  QUIET(BS_DONE, bs_commit(m, other, &told));
  WANT(nodes() == before && row_has_node(40));
  reads_on();
  QUIET(BS_DONE, bs_commit(m, reader, &told));
  end_manager();
}

static void a_writer_below_a_reader_waits(void) {
  open_reader();
  LOCKS_PATH(other, file, BS_IX);
  WANT(same_node(QUIET(BS_NEED_PARENTS, lock_row(other, 3, 3, BS_X)).node, low));
  WANT(!row_has_node(3));
  WAITS_AT(other, low, BS_IX, low);
  reads_on();
  QUIET(BS_DONE, bs_cancel(m, other, &told));
  reads_on();
  end_manager();
}

static void a_row_that_is_read_keeps_its_node(void) {
  bs_node node;
  open_reader();
  node = QUIET(BS_DONE, lock_row(reader, 7, 7, BS_S)).node;
  LOCKS_PATH(other, file, BS_IS);
  other_locks(7, BS_S, BS_S);
  QUIET(BS_DONE, bs_unlock_row(m, other, file, 7, &told));
  WANT(same_node(DONE(bs_row_node(m, file, 7)).node, node));
  HOLDS(reader, node, BS_S);
  QUIET(BS_DONE, bs_commit(m, reader, &told));
  WANT(!row_has_node(7));
  end_manager();
}

/* ------------------------------------------------------------------------------------------------
 * Intervals that are split and merged. Records 5 and 7 are below the first of two intervals, parted at 10.
 */

static bs_node five, seven, part;

static void open_intervals(void) {
  open_index();
  high = interval(first, 1);
  five = adopt(5);
  seven = adopt(7);
  begin_two();
}

/* The first transaction holds the interval of both records in X, and splits it between them. */
static void split_low(void) {
  open_intervals();
  LOCKS_PATH(a, low, BS_X);
  part = QUIET(BS_DONE, bs_split(m, a, low, 6, &told)).node;
}

static bs_mode effect(bs_txn txn, bs_node node) {
  return DONE(bs_effective(m, txn, node)).mode;
}

static uint64_t children(bs_txn txn, bs_node node) {
  return DONE(bs_children(m, txn, node)).count;
}

static uint64_t lock_count(bs_txn txn) {
  return DONE(bs_lock_count(m, txn)).count;
}

/* The interval of a record. */
static bool is_in(bs_node of, bs_node above) {
  return same_node(DONE(bs_parent(m, of, 1)).node, above);
}

/* The intervals of the index, by their places. */
static bool are_intervals(const bs_node *all, size_t count) {
  size_t i = 0;
  while (i < count && same_node(interval(first, i), all[i]) && DONE(bs_place(m, all[i])).count == i) i++;
  return i == count && bs_interval(m, first, count).status == BS_NO_PLACE;
}

static void an_interval_is_split(void) {
  bs_node all[3];
  uint64_t locks;
  open_intervals();
  LOCKS_PATH(a, low, BS_X);
  locks = lock_count(a);
  part = QUIET(BS_DONE, bs_split(m, a, low, 6, &told)).node;
  WANT(is_named(part, 7, 8));
  all[0] = low, all[1] = part, all[2] = high;
  WANT(are_intervals(all, 3));
  WANT(DONE(bs_kind(m, part)).count == BS_INTERVAL && same_node(DONE(bs_parent(m, part, 0)).node, first));
  WANT(same_node(DONE(bs_interval_of(m, first, 5)).node, low));
  WANT(same_node(DONE(bs_interval_of(m, first, 6)).node, part));
  WANT(same_node(DONE(bs_interval_of(m, first, 9)).node, part));
  WANT(same_node(DONE(bs_interval_of(m, first, 10)).node, high));
  WANT(is_in(five, low) && is_in(seven, part));
  HOLDS(a, low, BS_X);
  HOLDS(a, part, BS_X);
  WANT(lock_count(a) == locks + 1 && same_node(DONE(bs_lock_at(m, a, locks)).node, part));
  end_manager();
}

/* What a transaction may do to a record is what it may have done before, also if it holds the file. */
static void no_effective_mode_is_another_after_a_split(void) {
  bs_mode of_first;
  open_intervals();
  LOCKS_PATH(a, low, BS_X);
  LOCKS_PATH(b, db, BS_IS);
  of_first = effect(a, seven);
  WANT(of_first != BS_NL && effect(b, seven) == BS_NL);
  part = QUIET(BS_DONE, bs_split(m, a, low, 6, &told)).node;
  WANT(effect(a, five) == of_first && effect(a, seven) == of_first && effect(b, seven) == BS_NL);
  LOCKS_PATH(a, file, BS_X);
  WANT(effect(a, five) == BS_X && effect(a, seven) == BS_X);
  QUIET(BS_DONE, bs_split(m, a, part, 8, &told));
  WANT(effect(a, five) == BS_X && effect(a, seven) == BS_X);
  QUIET(BS_DONE, bs_merge(m, a, low, &told));
  WANT(effect(a, five) == BS_X && effect(a, seven) == BS_X);
  end_manager();
}

/* Who writes a record that moved needs the new interval, and not the one from which it moved. */
static void a_record_that_moved_needs_the_new_interval(void) {
  split_low();
  QUIET(BS_DONE, bs_commit(m, a, &told));
  LOCKS_PATH(b, file, BS_IX);
  LOCKS_PATH(b, low, BS_IX);
  LOCKS(b, five, BS_X);
  WANT(same_node(QUIET(BS_NEED_PARENTS, bs_lock(m, b, seven, BS_X, &told)).node, part));
  WANT(same_node(QUIET(BS_NEED_PARENTS, bs_rekey(m, b, five, first, 6, &told)).node, part));
  LOCKS_PATH(b, part, BS_IX);
  LOCKS(b, seven, BS_X);
  QUIET(BS_DONE, bs_rekey(m, b, five, first, 6, &told));
  WANT(is_in(five, part));
  end_manager();
}

/* A reader of both records by their file keeps its locks while their interval is split and merged. */
static void a_reader_below_keeps_its_locks(void) {
  open_intervals();
  LOCKS_PATH(b, five, BS_S);
  LOCKS_PATH(b, seven, BS_S);
  LOCKS_PATH(a, low, BS_X);
  part = QUIET(BS_DONE, bs_split(m, a, low, 6, &told)).node;
  HOLDS(b, five, BS_S);
  HOLDS(b, seven, BS_S);
  HOLDS(b, part, BS_NL);
  WANT(children(b, file) == 2 && bs_children(m, b, part).status == BS_NOT_HELD);
  QUIET(BS_DONE, bs_commit(m, a, &told));
  LOCKS_PATH(b, low, BS_IS);
  LOCKS_PATH(b, part, BS_IS);
  WANT(children(b, low) == 1 && children(b, part) == 1 && children(b, first) == 2);
  WANT(same_node(QUIET(BS_HELD_CHILD, bs_unlock(m, b, low, &told)).node, five));
  WANT(same_node(QUIET(BS_HELD_CHILD, bs_unlock(m, b, part, &told)).node, seven));
  QUIET(BS_DONE, bs_unlock(m, b, five, &told));
  QUIET(BS_DONE, bs_unlock(m, b, low, &told));
  WANT(children(b, part) == 1);
  end_manager();
}

/* The transaction that splits holds records of both parts. Each part counts its own from then on, and after the merge
 * the first has all. */
static void the_children_of_both_parts_are_counted(void) {
  bs_reply escalated;
  open_intervals();
  LOCKS_PATH(a, five, BS_X);
  LOCKS_PATH(a, seven, BS_X);
  RAISES(a, low, BS_X, BS_X);
  WANT(children(a, low) == 2);
  part = QUIET(BS_DONE, bs_split(m, a, low, 6, &told)).node;
  WANT(children(a, low) == 1 && children(a, part) == 1 && children(a, first) == 2 && children(a, file) == 2);
  WANT(same_node(QUIET(BS_HELD_CHILD, bs_unlock(m, a, part, &told)).node, seven));
  WANT(same_node(QUIET(BS_HELD_CHILD, bs_unlock(m, a, low, &told)).node, five));
  QUIET(BS_DONE, bs_merge(m, a, low, &told));
  WANT(children(a, low) == 2 && children(a, first) == 1);
  part = QUIET(BS_DONE, bs_split(m, a, low, 6, &told)).node;
  RAISES(a, file, BS_X, BS_X);
  escalated = QUIET(BS_DONE, bs_escalate(m, a, part, &told));
  WANT(escalated.released == 1 && escalated.kept == 0);
  HOLDS(a, seven, BS_NL);
  HOLDS(a, five, BS_X);
  QUIET(BS_DONE, bs_unlock(m, a, part, &told));
  QUIET(BS_HELD_CHILD, bs_unlock(m, a, low, &told));
  end_manager();
}

static void who_waits_for_an_interval_hears_of_its_split(void) {
  bs_counts counted;
  open_intervals();
  c = begin();
  LOCKS_PATH(a, low, BS_X);
  LOCKS_PATH(a, high, BS_X);
  WAITS_AT(b, low, BS_S, low);
  WAITS_AT(c, high, BS_S, high);
  part = DONE(bs_split(m, a, low, 6, &told)).node;
  WANT(is_told(b, BS_TOLD_MOVED));
  ANSWERS(BS_MOVED, bs_verdict(m, b, low, BS_S));
  WANT(wait_of(m, b).status == BS_NOT_WAITING && wait_of(m, c).status == BS_WAITING);
  DONE(bs_counters(m, &counted));
  WANT(counted.moved == 1 && counted.waited == 2);
  WAITS_AT(b, low, BS_S, low);
  DONE(bs_commit(m, a, &told));
  WANT(told.count == 2);
  HOLDS(b, low, BS_S);
  HOLDS(c, high, BS_S);
  LOCKS_PATH(b, part, BS_S);
  end_manager();
}

static void who_waits_for_a_merged_interval_hears_that_it_is_gone(void) {
  bs_counts counted;
  uint64_t locks;
  open_intervals();
  c = begin();
  LOCKS_PATH(a, low, BS_X);
  LOCKS_PATH(a, high, BS_X);
  locks = lock_count(a);
  WAITS_AT(b, high, BS_S, high);
  WAITS_AT(c, low, BS_S, low);
  DONE(bs_merge(m, a, low, &told));
  WANT(is_told(b, BS_TOLD_GONE));
  ANSWERS(BS_GONE, bs_verdict(m, b, high, BS_S));
  ANSWERS(BS_NO_SUCH_NODE, bs_kind(m, high));
  WANT(lock_count(a) == locks - 1 && are_intervals(&low, 1));
  WANT(same_node(DONE(bs_interval_of(m, first, 10)).node, low));
  DONE(bs_counters(m, &counted));
  WANT(counted.gone == 1 && wait_of(m, b).status == BS_NOT_WAITING);
  DONE(bs_commit(m, a, &told));
  WANT(is_granted(c, low, BS_S));
  end_manager();
}

static void a_merge_undoes_a_split(void) {
  bs_node all[2], again;
  uint64_t locks;
  open_intervals();
  LOCKS_PATH(a, low, BS_X);
  locks = lock_count(a);
  part = QUIET(BS_DONE, bs_split(m, a, low, 6, &told)).node;
  QUIET(BS_DONE, bs_merge(m, a, low, &told));
  all[0] = low, all[1] = high;
  WANT(are_intervals(all, 2) && is_in(five, low) && is_in(seven, low));
  WANT(lock_count(a) == locks && bs_held(m, a, part).status == BS_NO_SUCH_NODE);
  HOLDS(a, low, BS_X);
  again = QUIET(BS_DONE, bs_split(m, a, low, 7, &told)).node;
  WANT(is_named(again, part.key, 9) && is_in(seven, again));
  end_manager();
}

/* One transaction waits, and another is condemned: nobody but the first can make a command. */
static void open_refused(void) {
  bs_node one, other;
  open_intervals();
  c = begin();
  one = DONE(bs_add_inner(m, NULL, 0)).node;
  other = DONE(bs_add_inner(m, NULL, 0)).node;
  LOCKS(b, one, BS_X);
  LOCKS(c, other, BS_X);
  WAITS(b, other, BS_S);
  QUIET(BS_VICTIM, bs_lock(m, c, one, BS_S, &told));
}

static void a_split_is_refused(void) {
  uint64_t accepted, nodes;
  open_refused();
  ANSWERS(BS_NULL_POINTER, bs_split(NULL, a, low, 6, &told));
  ANSWERS(BS_NULL_POINTER, bs_split(m, a, low, 6, NULL));
  QUIET(BS_NO_SUCH_TXN, bs_split(m, no_txn, no_node, 0, &told));
  QUIET(BS_TXN_WAITING, bs_split(m, b, no_node, 0, &told));
  QUIET(BS_TXN_CONDEMNED, bs_split(m, c, no_node, 0, &told));
  QUIET(BS_NO_SUCH_NODE, bs_split(m, a, no_node, 0, &told));
  QUIET(BS_BAD_PARENTS, bs_split(m, a, first, 0, &told));
  LOCKS_PATH(a, low, BS_SIX);
  QUIET(BS_NEED_EXCLUSIVE, bs_split(m, a, low, 0, &told));
  LOCKS_PATH(a, low, BS_X);
  LOCKS_PATH(a, high, BS_X);
  accepted = accepted_by(m);
  nodes = bs_len(m).count;
  QUIET(BS_BAD_KEYS, bs_split(m, a, low, 0, &told));
  QUIET(BS_BAD_KEYS, bs_split(m, a, low, 10, &told));
  QUIET(BS_BAD_KEYS, bs_split(m, a, low, 11, &told));
  QUIET(BS_BAD_KEYS, bs_split(m, a, high, 10, &told));
  WANT(accepted_by(m) == accepted && bs_len(m).count == nodes);
  QUIET(BS_DONE, bs_split(m, a, low, 9, &told));
  QUIET(BS_DONE, bs_split(m, a, low, 1, &told));
  QUIET(BS_DONE, bs_split(m, a, high, UINT64_MAX, &told));
  WANT(accepted_by(m) == accepted + 3 && bs_len(m).count == nodes + 3);
  end_manager();
}

static void a_merge_is_refused(void) {
  uint64_t nodes;
  open_refused();
  ANSWERS(BS_NULL_POINTER, bs_merge(NULL, a, low, &told));
  ANSWERS(BS_NULL_POINTER, bs_merge(m, a, low, NULL));
  QUIET(BS_NO_SUCH_TXN, bs_merge(m, no_txn, no_node, &told));
  QUIET(BS_TXN_WAITING, bs_merge(m, b, no_node, &told));
  QUIET(BS_TXN_CONDEMNED, bs_merge(m, c, no_node, &told));
  QUIET(BS_NO_SUCH_NODE, bs_merge(m, a, no_node, &told));
  QUIET(BS_BAD_PARENTS, bs_merge(m, a, first, &told));
  QUIET(BS_BAD_PARENTS, bs_merge(m, a, high, &told));
  nodes = bs_len(m).count;
  LOCKS_PATH(a, low, BS_X);
  QUIET(BS_NEED_EXCLUSIVE, bs_merge(m, a, low, &told));
  LOCKS_PATH(a, high, BS_SIX);
  QUIET(BS_NEED_EXCLUSIVE, bs_merge(m, a, low, &told));
  LOCKS_PATH(a, high, BS_X);
  QUIET(BS_DONE, bs_merge(m, a, low, &told));
  WANT(bs_len(m).count == nodes - 1);
  QUIET(BS_BAD_PARENTS, bs_merge(m, a, low, &told));
  end_manager();
}

/* A manager of six nodes, whose indexes have two bounds at most. */
static void the_limits_of_a_manager_hold_for_splits(void) {
  static const bs_options options = { BS_AT_BLOCK, BS_YOUNGEST, 4, 6, 2, 1 };
  static const uint64_t bound = 10;
  DONE(bs_make(m, &options));
  db = DONE(bs_add_inner(m, NULL, 0)).node;
  file = make_file();
  first = make_index(file, &bound, 1);
  low = interval(first, 0);
  a = begin();
  LOCKS_PATH(a, low, BS_X);
  QUIET(BS_DONE, bs_split(m, a, low, 6, &told));
  QUIET(BS_BAD_KEYS, bs_split(m, a, low, 3, &told));
  QUIET(BS_DONE, bs_merge(m, a, low, &told));
  five = adopt(5);
  QUIET(BS_TOO_MANY_NODES, bs_split(m, a, low, 6, &told));
  DONE(bs_forget(m, five));
  QUIET(BS_DONE, bs_split(m, a, low, 6, &told));
  end_manager();
}

/* The lock of the new interval is younger than the savepoint, and goes. The interval stays split. */
static void a_savepoint_before_a_split(void) {
  uint64_t mark;
  open_intervals();
  LOCKS_PATH(a, low, BS_X);
  mark = DONE(bs_mark(m, a)).count;
  part = QUIET(BS_DONE, bs_split(m, a, low, 6, &told)).node;
  LOCKS_PATH(a, seven, BS_X);
  WAITS_AT(b, part, BS_S, part);
  WANT(DONE(bs_release_since(m, a, mark, &told)).count == 3); /* The record, its file and the new interval. */
  WANT(is_granted(b, part, BS_S));
  HOLDS(a, part, BS_NL);
  HOLDS(a, low, BS_X);
  WANT(is_in(seven, part) && lock_count(a) == mark);
  end_manager();
}

/* A merge releases a lock from before the savepoint, whose place a later one takes: that one stays. */
static void a_savepoint_that_a_merge_spoils(void) {
  uint64_t mark;
  open_intervals();
  LOCKS_PATH(a, low, BS_X);
  LOCKS_PATH(a, high, BS_X);
  mark = DONE(bs_mark(m, a)).count;
  LOCKS_PATH(a, file, BS_IX);
  QUIET(BS_DONE, bs_merge(m, a, low, &told));
  WANT(QUIET(BS_DONE, bs_release_since(m, a, mark, &told)).count == 0);
  HOLDS(a, file, BS_IX);
  HOLDS(a, low, BS_X);
  end_manager();
}

/* A row has a node while it is locked, which follows the intervals as a record does. */
static void a_row_follows_its_interval(void) {
  static const uint64_t key = 7;
  bs_node row;
  open_rows();
  begin_two();
  LOCKS_PATH(b, file, BS_IS);
  row = QUIET(BS_DONE, bs_lock_row(m, b, file, 1, &key, 1, BS_S, &told)).node;
  LOCKS_PATH(a, low, BS_X);
  part = QUIET(BS_DONE, bs_split(m, a, low, 6, &told)).node;
  WANT(is_in(row, part) && same_node(DONE(bs_row_node(m, file, 1)).node, row));
  QUIET(BS_DONE, bs_commit(m, a, &told));
  LOCKS_PATH(b, part, BS_IS);
  WANT(children(b, part) == 1);
  QUIET(BS_DONE, bs_unlock_row(m, b, file, 1, &told));
  WANT(children(b, part) == 0 && bs_row_node(m, file, 1).status == BS_NO_SUCH_NODE);
  end_manager();
}

/* ------------------------------------------------------------------------------------------------
 * An index beside records.
 */

/* Three records of a file with two indexes, by their births, and their keys for a third index, which is parted at 20. */
static bs_node named[3];
static const uint64_t by_third[3] = { 25, 7, 20 }, third_bound = 20;

/* The first transaction holds the file, both indexes and the records, which it has inserted, in X. */
static void open_inserted(void) {
  static const uint64_t keys[3][2] = { { 1, 12 }, { 15, 2 }, { 3, 4 } };
  size_t i;
  open_indexes();
  begin_two();
  LOCKS_PATH(a, file, BS_X);
  LOCKS_PATH(a, first, BS_X);
  LOCKS_PATH(a, second, BS_X);
  for (i = 0; i < 2; i++) {
    LOCKS_PATH(a, interval(first, i), BS_IX);
    LOCKS_PATH(a, interval(second, i), BS_IX);
  }
  for (i = 0; i < 3; i++) named[i] = DONE(bs_insert(m, a, file, keys[i], 2)).node;
}

/* It has released the records. */
static void open_named(void) {
  size_t i;
  open_inserted();
  for (i = 0; i < 3; i++) QUIET(BS_DONE, bs_unlock(m, a, named[i], &told));
}

/* Makes a third index of a file beside so many records, below a node and parted at a bound. */
static bs_reply make_third(bs_txn txn, bs_node parent, bs_node of, uint64_t bound, const bs_node *all, size_t count) {
  return bs_index_records(m, txn, &parent, 1, of, &bound, 1, all, by_third, count);
}

/* What a record has for the two indexes that it had before is what it had then. */
static void keeps_its_place(bs_node of, uint64_t by_first, uint64_t by_second) {
  WANT(DONE(bs_key(m, of, 0)).count == by_first && DONE(bs_key(m, of, 1)).count == by_second);
  WANT(same_node(DONE(bs_parent(m, of, 0)).node, file));
  WANT(same_node(DONE(bs_parent(m, of, 1)).node, DONE(bs_interval_of(m, first, by_first)).node));
  WANT(same_node(DONE(bs_parent(m, of, 2)).node, DONE(bs_interval_of(m, second, by_second)).node));
}

/* The index is the last of the file's, held in X by its maker alone, and each record is in the interval of its key. */
static void an_index_is_made_beside_records(void) {
  uint64_t accepted, locks;
  bs_node third;
  size_t i;
  open_named();
  LOCKS_PATH(b, db, BS_IS);
  accepted = accepted_by(m);
  locks = lock_count(a);
  third = DONE(make_third(a, db, file, third_bound, named, 3)).node;
  WANT(accepted_by(m) == accepted + 1 && lock_count(a) == locks + 1);
  WANT(same_node(DONE(bs_lock_at(m, a, locks)).node, third) && same_node(DONE(bs_index(m, file, 2)).node, third));
  HOLDS(a, third, BS_X);
  for (i = 0; i < 3; i++) {
    WANT(DONE(bs_key(m, named[i], 2)).count == by_third[i] && bs_key(m, named[i], 3).status == BS_NO_PLACE);
    WANT(same_node(DONE(bs_parent(m, named[i], 3)).node, interval(third, by_third[i] >= third_bound)));
    WANT(bs_parent(m, named[i], 4).status == BS_NO_PLACE);
  }
  keeps_its_place(named[0], 1, 12);
  keeps_its_place(named[1], 15, 2);
  keeps_its_place(named[2], 3, 4);
  WAITS(b, third, BS_IS);
  DONE(bs_commit(m, a, &told));
  WANT(is_granted(b, third, BS_IS));
  end_manager();
}

/* What its maker may do to a record is what it may have done before; others may do nothing, before and after. */
static void no_effective_mode_is_another_beside_records(void) {
  size_t i;
  open_named();
  LOCKS_PATH(b, db, BS_IS);
  for (i = 0; i < 3; i++) WANT(effect(a, named[i]) == BS_X && effect(b, named[i]) == BS_NL);
  DONE(make_third(a, db, file, third_bound, named, 3));
  for (i = 0; i < 3; i++) WANT(effect(a, named[i]) == BS_X && effect(b, named[i]) == BS_NL);
  end_manager();
}

/* A reader of an interval of the new index keeps writers away from the records there, and from no others. */
static void an_interval_beside_records_is_read(void) {
  bs_node third, upper;
  open_named();
  third = DONE(make_third(a, db, file, third_bound, named, 3)).node;
  upper = interval(third, 1);
  QUIET(BS_DONE, bs_commit(m, a, &told));
  LOCKS_PATH(b, upper, BS_S);
  WANT(effect(b, named[0]) == BS_S && effect(b, named[1]) == BS_NL && effect(b, named[2]) == BS_S);
  a = begin();
  LOCKS_PATH(a, named[1], BS_X);
  WAITS_AT(a, named[0], BS_X, upper);
  DONE(bs_commit(m, b, &told));
  WANT(is_granted(a, upper, BS_IX));
  LOCKS_PATH(a, named[0], BS_X);
  end_manager();
}

/* A record that is inserted, rekeyed or deleted afterwards has a key for the new index like any other. */
static void records_live_on_beside_an_index(void) {
  static const uint64_t keys[3] = { 1, 2, 30 };
  bs_node third, later;
  open_named();
  third = DONE(make_third(a, db, file, third_bound, named, 3)).node;
  LOCKS_PATH(a, interval(third, 0), BS_IX);
  ANSWERS(BS_BAD_KEYS, bs_insert(m, a, file, keys, 2));
  WANT(same_node(ANSWERS(BS_NEED_PARENTS, bs_insert(m, a, file, keys, 3)).node, interval(third, 1)));
  LOCKS_PATH(a, interval(third, 1), BS_IX);
  later = DONE(bs_insert(m, a, file, keys, 3)).node;
  WANT(same_node(DONE(bs_parent(m, later, 3)).node, interval(third, 1)));
  LOCKS(a, named[1], BS_X);
  QUIET(BS_DONE, bs_rekey(m, a, named[1], third, 40, &told));
  WANT(same_node(DONE(bs_parent(m, named[1], 3)).node, interval(third, 1)));
  QUIET(BS_DONE, bs_delete(m, a, named[1], &told));
  QUIET(BS_DONE, bs_delete(m, a, later, &told));
  ANSWERS(BS_FILE_IN_USE, bs_drop(m, a, third, &told));
  LOCKS(a, named[0], BS_X);
  LOCKS(a, named[2], BS_X);
  QUIET(BS_DONE, bs_delete(m, a, named[0], &told));
  QUIET(BS_DONE, bs_delete(m, a, named[2], &told));
  QUIET(BS_DONE, bs_drop(m, a, third, &told));
  end_manager();
}

/* Of a file that has no records it is bs_index_by, whose locks are enough then. */
static void an_index_beside_no_records(void) {
  open_index();
  a = begin();
  LOCKS_PATH(a, file, BS_X);
  WANT(same_node(DONE(bs_index(m, file, 0)).node, first));
  WANT(bs_held(m, a, first).mode == BS_NL);
  second = DONE(bs_index_records(m, a, &db, 1, file, NULL, 0, NULL, NULL, 0)).node;
  HOLDS(a, second, BS_X);
  WANT(same_node(DONE(bs_index(m, file, 1)).node, second));
  end_manager();
}

/* A list of records is refused whole, and nothing has changed. */
static void refuses_records(bs_status status, const bs_node *all, size_t count) {
  uint64_t accepted = accepted_by(m), nodes = bs_len(m).count;
  ANSWERS(status, make_third(a, db, file, third_bound, all, count));
  WANT(accepted_by(m) == accepted && bs_len(m).count == nodes && bs_index(m, file, 2).status == BS_NO_PLACE);
  WANT(bs_key(m, named[0], 2).status == BS_NO_PLACE && bs_parent(m, named[0], 3).status == BS_NO_PLACE);
}

static void all_records_are_named_in_order(void) {
  bs_node all[4], strange;
  open_named();
  strange = DONE(bs_adopt(m, make_file(), NULL, 0)).node;
  refuses_records(BS_FILE_IN_USE, named, 0);
  refuses_records(BS_BAD_KEYS, named, 2);
  refuses_records(BS_BAD_KEYS, named + 1, 2);
  all[0] = named[0], all[1] = named[0], all[2] = named[2];
  refuses_records(BS_BAD_KEYS, all, 3);
  all[0] = named[1], all[1] = named[0];
  refuses_records(BS_BAD_KEYS, all, 3);
  all[0] = named[0], all[1] = named[1], all[2] = strange;
  refuses_records(BS_BAD_KEYS, all, 3);
  all[2] = interval(first, 0);
  refuses_records(BS_BAD_KEYS, all, 3);
  all[2] = no_node;
  refuses_records(BS_BAD_KEYS, all, 3);
  all[2] = named[2], all[2].birth++;
  refuses_records(BS_BAD_KEYS, all, 3);
  DONE(make_third(a, db, file, third_bound, named, 3));
  end_manager();
}

/* Beneath the header's call the two lists have a length each: a key for each record is refused as anything else. */
static void each_record_has_a_key(void) {
  static const uint64_t keys[4] = { 1, 2, 3, 4 };
  open_named();
  ANSWERS(BS_BAD_KEYS, bs_call_index_by(m, a, &db, 1, file, keys, 0, named, 3, keys, 2));
  ANSWERS(BS_BAD_KEYS, bs_call_index_by(m, a, &db, 1, file, keys, 0, named, 3, keys, 4));
  DONE(bs_call_index_by(m, a, &db, 1, file, keys, 0, named, 3, keys, 3));
  end_manager();
}

/* The names of the records take memory before anything else is looked at, but the number of parents. */
static void names_of_records_take_memory(void) {
  bs_node many[9] = { { 0, 0 } };
  open_named();
  refused_allocation = 1;
  ANSWERS(BS_BAD_NUMBER, bs_index_records(m, no_txn, many, 9, no_node, NULL, 0, named, by_third, 3));
  WANT(refused_allocation == 1);
  ANSWERS(BS_NO_MEMORY, make_third(no_txn, no_node, no_node, 0, named, 3));
  WANT(refused_allocation == 0);
  ANSWERS(BS_NO_SUCH_TXN, make_third(no_txn, no_node, no_node, 0, named, 3));
  end_manager();
}

/* Each refusal comes before those that are wrong as well. */
static void an_index_beside_records_is_refused(void) {
  static const uint64_t zero = 0;
  bs_node many[9] = { { 0, 0 } }, area, reversed[3];
  open_refused();
  area = DONE(bs_add_inner(m, NULL, 0)).node;
  reversed[0] = seven, reversed[1] = five, reversed[2] = no_node;
  ANSWERS(BS_NULL_POINTER, bs_index_records(NULL, a, &db, 1, file, NULL, 0, reversed, by_third, 3));
  ANSWERS(BS_NULL_POINTER, bs_index_records(m, a, NULL, 1, file, NULL, 0, reversed, by_third, 3));
  ANSWERS(BS_NULL_POINTER, bs_index_records(m, a, &db, 1, file, NULL, 1, reversed, by_third, 3));
  ANSWERS(BS_NULL_POINTER, bs_index_records(m, a, &db, 1, file, NULL, 0, NULL, by_third, 3));
  ANSWERS(BS_NULL_POINTER, bs_index_records(m, a, &db, 1, file, NULL, 0, reversed, NULL, 3));
  ANSWERS(BS_BAD_NUMBER, bs_index_records(m, no_txn, many, 9, no_node, &zero, 1, reversed, by_third, 3));
  ANSWERS(BS_NO_SUCH_TXN, make_third(no_txn, no_node, no_node, 0, reversed, 3));
  ANSWERS(BS_TXN_WAITING, make_third(b, no_node, no_node, 0, reversed, 3));
  ANSWERS(BS_TXN_CONDEMNED, make_third(c, no_node, no_node, 0, reversed, 3));
  ANSWERS(BS_NO_SUCH_NODE, make_third(a, no_node, first, 0, reversed, 3));
  ANSWERS(BS_NO_SUCH_NODE, make_third(a, first, no_node, 0, reversed, 3));
  ANSWERS(BS_BAD_PARENTS, make_third(a, first, file, 0, reversed, 3));
  ANSWERS(BS_BAD_PARENTS, make_third(a, area, first, 0, reversed, 3));
  ANSWERS(BS_BAD_PARENTS, bs_index_records(m, a, NULL, 0, file, &zero, 1, reversed, by_third, 3));
  LOCKS_PATH(a, file, BS_SIX);
  LOCKS_PATH(a, first, BS_X);
  ANSWERS(BS_NEED_EXCLUSIVE, make_third(a, area, file, 0, reversed, 3));
  LOCKS_PATH(a, file, BS_X);
  QUIET(BS_DONE, bs_unlock(m, a, first, &told));
  LOCKS_PATH(a, low, BS_IX);
  LOCKS_PATH(a, five, BS_X);
  ANSWERS(BS_NEED_EXCLUSIVE, make_third(a, area, file, 0, reversed, 3));
  LOCKS_PATH(a, first, BS_X);
  WANT(same_node(ANSWERS(BS_NEED_PARENTS, make_third(a, area, file, 0, reversed, 3)).node, area));
  LOCKS(a, area, BS_IX);
  ANSWERS(BS_FILE_IN_USE, make_third(a, area, file, 0, reversed, 3));
  QUIET(BS_DONE, bs_unlock(m, a, five, &told));
  ANSWERS(BS_BAD_KEYS, make_third(a, area, file, 0, reversed, 2));
  reversed[0] = five, reversed[1] = seven;
  ANSWERS(BS_BAD_KEYS, make_third(a, area, file, 0, reversed, 2));
  DONE(make_third(a, area, file, 1, reversed, 2));
  end_manager();
  ANSWERS(BS_NO_MANAGER, make_third(a, area, file, 1, reversed, 2));
}

/* A manager of six nodes, whose indexes have one bound at most; and the eighth index of a file. */
static void the_limits_of_a_manager_hold_beside_records(void) {
  static const bs_options options = { BS_AT_BLOCK, BS_YOUNGEST, 4, 6, 1, 1 };
  static const uint64_t bounds[2] = { 10, 20 };
  size_t i;
  DONE(bs_make(m, &options));
  db = DONE(bs_add_inner(m, NULL, 0)).node;
  file = make_file();
  for (i = 0; i < 2; i++) named[i] = DONE(bs_adopt(m, file, NULL, 0)).node;
  a = begin();
  LOCKS_PATH(a, file, BS_X);
  ANSWERS(BS_BAD_KEYS, bs_index_records(m, a, &db, 1, file, bounds, 2, named, by_third, 2));
  ANSWERS(BS_TOO_MANY_NODES, bs_index_records(m, a, &db, 1, file, bounds, 1, named, by_third, 2));
  DONE(bs_index_records(m, a, &db, 1, file, NULL, 0, named, by_third, 2));
  end_manager();
  open_named();
  for (i = 2; i < 7; i++) DONE(bs_index_records(m, a, &db, 1, file, NULL, 0, named, by_third, 3));
  ANSWERS(BS_BAD_PARENTS, bs_index_records(m, a, &db, 1, file, NULL, 0, named, by_third, 3));
  WANT(DONE(bs_key(m, named[2], 6)).count == by_third[2] && bs_parent(m, named[2], 8).status == BS_NO_PLACE);
  end_manager();
}

/* A row that its transaction has unlocked by its node keeps that, and it gets a key like a record. */
static void an_index_beside_rows(void) {
  static const uint64_t keys[2] = { 5, 30 };
  bs_node row;
  open_rows();
  a = begin();
  LOCKS_PATH(a, file, BS_X);
  LOCKS_PATH(a, first, BS_X);
  LOCKS_PATH(a, low, BS_IX);
  row = QUIET(BS_DONE, bs_lock_row(m, a, file, 7, keys, 1, BS_X, &told)).node;
  ANSWERS(BS_FILE_IN_USE, make_third(a, db, file, third_bound, &row, 1));
  QUIET(BS_DONE, bs_unlock(m, a, row, &told));
  ANSWERS(BS_FILE_IN_USE, make_third(a, db, file, third_bound, NULL, 0));
  second = DONE(bs_index_records(m, a, &db, 1, file, &third_bound, 1, &row, keys + 1, 1)).node;
  WANT(DONE(bs_key(m, row, 1)).count == 30);
  LOCKS_PATH(a, interval(second, 1), BS_IX);
  WANT(same_node(QUIET(BS_DONE, bs_lock_row(m, a, file, 7, keys, 2, BS_X, &told)).node, row));
  QUIET(BS_DONE, bs_unlock_row(m, a, file, 7, &told));
  DONE(make_third(a, db, file, third_bound, NULL, 0));
  end_manager();
}

/* ------------------------------------------------------------------------------------------------
 * Limits, slots and boards.
 */

static void one_transaction_holds_many_nodes(void) {
  bs_node node = no_node;
  uint64_t i;
  DONE(make_manager(m, BS_AT_BLOCK, 1));
  a = begin();
  for (i = 0; i < 60000; i++) {
    node = DONE(bs_add_inner(m, NULL, 0)).node;
    LOCKS(a, node, BS_X);
  }
  WANT(is_named(node, 59999, 60000) && DONE(bs_group(m, node)).mode == BS_X);
  QUIET(BS_DONE, bs_commit(m, a, &told));
  WANT(DONE(bs_group(m, node)).mode == BS_NL);
  end_manager();
}

static void a_transaction_takes_the_lowest_free_slot(void) {
  bs_txn all[BS_SLOTS];
  uint32_t slot;
  DONE(make_manager(m, BS_AT_BLOCK, BS_SLOTS));
  for (slot = 0; slot < BS_SLOTS; slot++) {
    all[slot] = begin();
    WANT(is_transaction(all[slot], slot, (uint64_t)slot + 1));
  }
  ANSWERS(BS_TOO_MANY_TXNS, bs_begin(m));
  QUIET(BS_DONE, bs_commit(m, all[5], &told));
  WANT(is_transaction(begin(), 5, BS_SLOTS + 1));
  ANSWERS(BS_NO_SUCH_TXN, bs_doing(m, all[5]));
  end_manager();
}

static bs_board board;

static void a_board_shows_who_lives(void) {
  uint32_t slot;
  open_manager(BS_AT_BLOCK);
  begin_two();
  QUIET(BS_DONE, bs_commit(m, a, &told));
  DONE(bs_read_board(m, &board));
  WANT(board.epoch == 4 && board.ages[0] == 0 && board.ages[1] == b.age && board.ages[2] == 0);
  for (slot = 0; slot < BS_SLOTS; slot++) WANT(same_slots(board.rows[slot], (bs_slots){ { 0 } }));
  end_manager();
}

/* ------------------------------------------------------------------------------------------------
 * Watchers.
 */

/* Whether the eighth transaction waits for the root. */
static bool is_waiting;

/* A transaction in each slot. The first holds the root in X, and the last waits for it. */
static void open_watched(void) {
  uint32_t slot;
  DONE(make_manager(m, BS_AT_BLOCK, BS_SLOTS));
  db = DONE(bs_add_inner(m, NULL, 0)).node;
  for (slot = 0; slot < BS_SLOTS; slot++) {
    c = begin();
    if (slot == 0) a = c;
    if (slot == 7) b = c;
  }
  LOCKS(a, db, BS_X);
  WAITS(c, db, BS_S);
  is_waiting = false;
}

/* A board is shown: a wait begins, or it ends. */
static void change(void) {
  if (is_waiting) QUIET(BS_DONE, bs_cancel(m, b, &told));
  if (!is_waiting) WAITS(b, db, BS_S);
  is_waiting = !is_waiting;
}

/* A look gives the board of this moment. */
static void sees(bs_watcher *watcher) {
  static bs_board now;
  DONE(bs_look(watcher, &board));
  DONE(bs_read_board(m, &now));
  WANT(memcmp(&board, &now, sizeof board) == 0);
  WANT(board.epoch == accepted_by(m) && bs_has(board.rows[b.slot], a.slot) == is_waiting);
}

/* Whether there is a watcher: a cancel takes memory only to show a board. */
static bool is_watched(void) {
  bool asks;
  if (!is_waiting) change();
  refused_allocation = 1000;
  change();
  asks = refused_allocation != 1000;
  refused_allocation = 0;
  return asks;
}

static void watch(bs_watcher *watcher) {
  static const bs_watcher none = BS_NO_WATCHER_HERE;
  *watcher = none;
  DONE(bs_watch(m, watcher));
}

static void a_look_sees_what_was_shown_last(void) {
  bs_watcher watcher;
  int i;
  open_watched();
  WANT(!is_watched());
  watch(&watcher);
  sees(&watcher);
  for (i = 0; i < 30; i++) {
    change();
    sees(&watcher);
    sees(&watcher);
    change();
    change();
  }
  sees(&watcher);
  DONE(bs_watch_end(&watcher));
  end_manager();
}

/* One of two watchers ends, and the other sees what is shown after that. */
static void other_watcher_continues(int ends) {
  bs_watcher both[2];
  open_watched();
  watch(&both[0]);
  watch(&both[1]);
  DONE(bs_watch_end(&both[ends]));
  WANT(is_watched());
  change();
  sees(&both[1 - ends]);
  DONE(bs_watch_end(&both[1 - ends]));
  WANT(!is_watched());
  end_manager();
}

static void one_of_two_watchers_goes_on(void) {
  other_watcher_continues(0);
  other_watcher_continues(1);
}

static void nine_come_and_go_beside_one_that_stays(void) {
  bs_watcher stays, watcher;
  int i;
  open_watched();
  watch(&stays);
  for (i = 0; i < BS_MOST_WATCHERS + 1; i++) {
    watch(&watcher);
    sees(&watcher);
    DONE(bs_watch_end(&watcher));
    WANT(is_watched());
  }
  sees(&stays);
  DONE(bs_watch_end(&stays));
  WANT(!is_watched());
  end_manager();
}

/* These places get watchers. */
static void watch_each(bs_watcher *watchers, int count) {
  int i;
  for (i = 0; i < count; i++) watch(&watchers[i]);
}

static void end_each(bs_watcher *watchers, int count) {
  int i;
  for (i = 0; i < count; i++) DONE(bs_watch_end(&watchers[i]));
}

static void eight_watch_and_no_ninth(void) {
  bs_watcher all[BS_MOST_WATCHERS], more = BS_NO_WATCHER_HERE;
  int i;
  open_watched();
  watch_each(all, BS_MOST_WATCHERS);
  ANSWERS(BS_TOO_MANY_WATCHERS, bs_watch(m, &more));
  ANSWERS(BS_TOO_MANY_WATCHERS, bs_watch(m, &more));
  end_each(all + 5, BS_MOST_WATCHERS - 5);
  watch_each(all + 5, BS_MOST_WATCHERS - 5);
  ANSWERS(BS_TOO_MANY_WATCHERS, bs_watch(m, &more));
  change();
  for (i = 0; i < BS_MOST_WATCHERS; i++) sees(&all[i]);
  end_each(all, BS_MOST_WATCHERS);
  WANT(!is_watched());
  end_manager();
}

/* ------------------------------------------------------------------------------------------------ */

static void tell(const char *name, void (*body)(void)) {
  long before = blocks_out();
  story = name;
  body();
  WANT(blocks_out() == before);
  printf("%s\n", name);
}

#define TELL(name) tell(#name, name)

static void tell_of_waits(void) {
  TELL(work_that_begins_again_is_older);
  TELL(newer_work_is_the_victim_if_it_asks_last);
  TELL(work_since_no_begin_is_the_oldest);
  TELL(of_work_of_one_begin_the_younger_is_the_victim);
  TELL(a_later_number_counts_as_its_own);
  TELL(work_that_joins_has_its_slot_and_its_number);
  TELL(work_joins_no_slot_but_a_free_one);
  TELL(work_that_joins_is_as_old_as_its_number);
  TELL(no_work_joins_after_the_last_age);
  TELL(a_deadlock_is_kept_until_the_next);
  TELL(a_settled_deadlock_is_kept);
  TELL(a_ring_of_three_is_kept);
  TELL(a_new_manager_has_counted_nothing);
  TELL(requests_and_waits_are_counted);
  TELL(refusals_and_questions_are_not_counted);
  TELL(conversions_past_a_wait_are_counted);
  TELL(a_victim_is_counted);
  TELL(a_victim_that_is_told_is_counted);
  TELL(a_wait_for_a_file_that_moves_is_counted);
  TELL(a_wait_for_a_record_that_moves_is_counted);
  TELL(a_wait_for_a_record_that_is_deleted_is_counted);
  TELL(an_escalation_is_counted);
}

static void tell_of_nodes(void) {
  TELL(a_record_is_read_by_its_first_parent);
  TELL(a_record_is_written_by_all_its_parents);
  TELL(a_reader_by_another_parent_locks_nothing_above);
  TELL(a_reader_locks_no_parent_more_than_it_needs);
  TELL(a_path_continues_after_a_wait);
  TELL(a_bad_mode_leaves_nothing_locked);
  TELL(a_victim_is_told_before_a_path_continues);
  TELL(a_path_ends_where_its_transaction_is_the_victim);
  TELL(a_row_stays_while_it_is_locked);
  TELL(no_index_is_made_over_rows);
  TELL(a_row_is_adopted_only_in_place_of_a_record);
  TELL(an_adopted_row_is_read_from_above);
  TELL(an_index_is_dropped_and_made_again);
  TELL(a_tree_is_dropped_from_below);
}

static void tell_of_rows(void) {
  TELL(a_row_has_a_node_while_it_is_locked);
  TELL(a_row_is_locked_by_the_node_that_it_has);
  TELL(a_row_whose_node_is_free_gets_another);
  TELL(a_refused_lock_of_a_row_changes_nothing);
  TELL(a_file_of_rows_has_no_other_records);
  TELL(a_file_of_records_has_no_rows);
  TELL(a_file_of_rows_is_one_of_many);
  TELL(a_number_is_free_at_the_commit);
  TELL(rows_get_nodes_below_a_reader);
  TELL(rows_beside_a_reader_are_written);
  TELL(a_writer_below_a_reader_waits);
  TELL(a_row_that_is_read_keeps_its_node);
}

static void tell_of_intervals(void) {
  TELL(an_interval_is_split);
  TELL(no_effective_mode_is_another_after_a_split);
  TELL(a_record_that_moved_needs_the_new_interval);
  TELL(a_reader_below_keeps_its_locks);
  TELL(the_children_of_both_parts_are_counted);
  TELL(who_waits_for_an_interval_hears_of_its_split);
  TELL(who_waits_for_a_merged_interval_hears_that_it_is_gone);
  TELL(a_merge_undoes_a_split);
  TELL(a_split_is_refused);
  TELL(a_merge_is_refused);
  TELL(the_limits_of_a_manager_hold_for_splits);
  TELL(a_savepoint_before_a_split);
  TELL(a_savepoint_that_a_merge_spoils);
  TELL(a_row_follows_its_interval);
}

static void tell_of_records_beside_an_index(void) {
  TELL(an_index_is_made_beside_records);
  TELL(no_effective_mode_is_another_beside_records);
  TELL(an_interval_beside_records_is_read);
  TELL(records_live_on_beside_an_index);
  TELL(an_index_beside_no_records);
  TELL(all_records_are_named_in_order);
  TELL(each_record_has_a_key);
  TELL(names_of_records_take_memory);
  TELL(an_index_beside_records_is_refused);
  TELL(the_limits_of_a_manager_hold_beside_records);
  TELL(an_index_beside_rows);
}

static void tell_of_limits_and_watchers(void) {
  TELL(one_transaction_holds_many_nodes);
  TELL(a_transaction_takes_the_lowest_free_slot);
  TELL(a_board_shows_who_lives);
  TELL(a_look_sees_what_was_shown_last);
  TELL(one_of_two_watchers_goes_on);
  TELL(nine_come_and_go_beside_one_that_stays);
  TELL(eight_watch_and_no_ninth);
}

int main(void) {
  setvbuf(stdout, NULL, _IONBF, 0);
  tell_of_waits();
  tell_of_nodes();
  tell_of_rows();
  tell_of_intervals();
  tell_of_records_beside_an_index();
  tell_of_limits_and_watchers();
  return 0;
}
