/*
 * Stories over the library, from the header alone: each is a function that ends the program with status 1 at the first
 * wrong answer, and else prints its name.
 *
 * It is linked with the calls for memory of memory.h, to see that a refused allocation changes nothing, and that each
 * manager frees what it took.
 */
#include "burlapslate_parts.h"
#include "burlapslate_splits.h"
#include "memory.h"
#include "same.h"

#include <stdio.h>
#include <stdlib.h>

static const char *story;
static bs_notices told;

static void wanted(bool holds, const char *what, int line) {
  if (holds) return;
  fprintf(stderr, "stories.c:%d: %s: not so: %s\n", line, story, what);
  exit(1);
}

#define WANT(condition) wanted((condition), #condition, __LINE__)

static bool is_empty(bs_slots slots) {
  static const bs_slots none = { { 0 } };
  return same_slots(slots, none);
}

/* A call must be done. */
static bs_reply done(bs_reply reply, int line) {
  if (reply.status != BS_DONE) fprintf(stderr, "answered: %s\n", bs_text(reply.status));
  wanted(reply.status == BS_DONE, "Done", line);
  return reply;
}

#define DONE(call) done((call), __LINE__)

static bool is_told(size_t place, bs_txn txn, uint32_t kind) {
  return place < told.count && same_txn(told.at[place].txn, txn) && told.at[place].kind == kind;
}

/* Makes a manager at a place, with a root; returns the root. */
static bs_node begin_manager(bs_manager *m, uint32_t detect) {
  DONE(make_manager(m, detect, BS_SLOTS));
  return DONE(bs_add_inner(m, NULL, 0)).node;
}

static bs_txn begin(bs_manager *m) {
  return DONE(bs_begin(m)).txn;
}

/* A file under a root with one index of two intervals, parted at 100; a file of records has a record in each. */
struct file {
  bs_node root, file, index, below, above, low, high;
};

static struct file with_index(bs_manager *m, bs_node root, bs_node file) {
  static const uint64_t bound = 100;
  struct file f;
  memset(&f, 0, sizeof f);
  f.root = root;
  f.file = file;
  f.index = DONE(bs_add_index(m, &root, 1, file, &bound, 1)).node;
  f.below = DONE(bs_interval(m, f.index, 0)).node;
  f.above = DONE(bs_interval(m, f.index, 1)).node;
  return f;
}

static struct file make_row_file(bs_manager *m, bs_node root) {
  return with_index(m, root, DONE(bs_add_row_file(m, &root, 1)).node);
}

static struct file make_file(bs_manager *m, bs_node root) {
  const uint64_t low = 50, high = 200;
  struct file f = with_index(m, root, DONE(bs_add_file(m, &root, 1)).node);
  bs_txn t = begin(m);
  DONE(bs_lock(m, t, root, BS_IX, &told));
  DONE(bs_lock(m, t, f.file, BS_IX, &told));
  DONE(bs_lock(m, t, f.index, BS_IX, &told));
  DONE(bs_lock(m, t, f.below, BS_IX, &told));
  DONE(bs_lock(m, t, f.above, BS_IX, &told));
  f.low = DONE(bs_insert(m, t, f.file, &low, 1)).node;
  f.high = DONE(bs_insert(m, t, f.file, &high, 1)).node;
  DONE(bs_commit(m, t, &told));
  return f;
}

static void lock_path(bs_manager *m, bs_txn t, struct file f, bs_node interval) {
  DONE(bs_lock(m, t, f.root, BS_IX, &told));
  DONE(bs_lock(m, t, f.file, BS_IX, &told));
  DONE(bs_lock(m, t, f.index, BS_IX, &told));
  DONE(bs_lock(m, t, interval, BS_IX, &told));
}

static void modes_join(void) {
  bs_manager m = BS_NO_MANAGER_HERE;
  bs_node root = begin_manager(&m, BS_AT_BLOCK);
  bs_txn a = begin(&m);
  WANT(bs_try(&m, a, root, BS_IX).mode == BS_IX);
  WANT(bs_try(&m, a, root, BS_S).mode == BS_SIX);
  WANT(bs_group(&m, root).mode == BS_SIX);
  DONE(bs_commit(&m, a, &told));
  WANT(told.count == 0);
  WANT(bs_group(&m, root).mode == BS_NL);
  WANT(accepted_by(&m) == 5);
  DONE(bs_end(&m));
}

static void a_commit_grants(void) {
  bs_manager m = BS_NO_MANAGER_HERE;
  bs_node root = begin_manager(&m, BS_AT_BLOCK);
  bs_txn a = begin(&m), b = begin(&m), c = begin(&m);
  bs_reply wait;
  DONE(bs_lock(&m, a, root, BS_X, &told));
  WANT(bs_lock(&m, b, root, BS_S, &told).status == BS_WAITING);
  WANT(bs_lock(&m, c, root, BS_S, &told).status == BS_WAITING);
  wait = wait_of(&m, b);
  WANT(wait.status == BS_WAITING && wait.mode == BS_S && same_node(wait.node, root));
  WANT(bs_lock(&m, b, root, BS_S, &told).status == BS_TXN_WAITING);
  WANT(bs_try(&m, a, root, BS_X).status == BS_DONE);
  DONE(bs_commit(&m, a, &told));
  WANT(told.count == 2 && is_told(0, b, BS_TOLD_GRANTED) && is_told(1, c, BS_TOLD_GRANTED));
  WANT(told.at[0].mode == BS_S && same_node(told.at[0].node, root));
  WANT(bs_held(&m, b, root).mode == BS_S && bs_held(&m, c, root).mode == BS_S);
  WANT(wait_of(&m, b).status == BS_NOT_WAITING);
  DONE(bs_end(&m));
}

static void a_conversion_goes_ahead(void) {
  bs_manager m = BS_NO_MANAGER_HERE;
  bs_node root = begin_manager(&m, BS_AT_BLOCK);
  bs_txn a = begin(&m), b = begin(&m), c = begin(&m);
  DONE(bs_lock(&m, a, root, BS_S, &told));
  DONE(bs_lock(&m, b, root, BS_S, &told));
  WANT(bs_lock(&m, c, root, BS_X, &told).status == BS_WAITING);
  WANT(DONE(bs_ahead(&m, c)).count == 0 && bs_ahead(&m, a).status == BS_NOT_WAITING);
  WANT(bs_lock(&m, a, root, BS_X, &told).status == BS_WAITING);
  WANT(DONE(bs_ahead(&m, c)).count == 1 && DONE(bs_ahead(&m, a)).count == 0);
  DONE(bs_commit(&m, b, &told));
  WANT(told.count == 1 && is_told(0, a, BS_TOLD_GRANTED) && told.at[0].mode == BS_X);
  WANT(DONE(bs_ahead(&m, c)).count == 0 && bs_ahead(&m, a).status == BS_NOT_WAITING);
  WANT(bs_held(&m, c, root).mode == BS_NL);
  DONE(bs_cancel(&m, c, &told));
  WANT(bs_cancel(&m, c, &told).status == BS_NOT_WAITING);
  DONE(bs_end(&m));
}

static bs_counts counts_of(const bs_manager *m) {
  bs_counts counts;
  DONE(bs_counters(m, &counts));
  return counts;
}

/* A compatible conversion passes waiters, and is counted if it raised the mode. */
static void a_conversion_passes(void) {
  bs_manager m = BS_NO_MANAGER_HERE;
  bs_node root = begin_manager(&m, BS_AT_BLOCK);
  bs_txn a = begin(&m), b = begin(&m);
  DONE(bs_lock(&m, a, root, BS_S, &told));
  WANT(bs_lock(&m, b, root, BS_X, &told).status == BS_WAITING);
  WANT(DONE(bs_lock(&m, a, root, BS_IS, &told)).mode == BS_S && counts_of(&m).passed == 0);
  WANT(DONE(bs_try(&m, a, root, BS_IX)).mode == BS_SIX && counts_of(&m).passed == 1);
  WANT(DONE(bs_lock(&m, a, root, BS_X, &told)).mode == BS_X && counts_of(&m).passed == 2);
  DONE(bs_cancel(&m, b, &told));
  DONE(bs_unlock(&m, a, root, &told));
  DONE(bs_lock(&m, a, root, BS_S, &told));
  WANT(DONE(bs_lock(&m, a, root, BS_X, &told)).mode == BS_X && counts_of(&m).passed == 2); /* Nobody waits. */
  DONE(bs_end(&m));
}

static void a_deadlock_has_a_victim(void) {
  bs_node left, right;
  bs_manager m = BS_NO_MANAGER_HERE;
  bs_node root = begin_manager(&m, BS_AT_BLOCK);
  bs_txn a = begin(&m), b = begin(&m);
  left = DONE(bs_add_inner(&m, &root, 1)).node;
  right = DONE(bs_add_inner(&m, &root, 1)).node;
  DONE(bs_lock(&m, a, root, BS_IX, &told));
  DONE(bs_lock(&m, b, root, BS_IX, &told));
  DONE(bs_lock(&m, a, left, BS_X, &told));
  DONE(bs_lock(&m, b, right, BS_X, &told));
  WANT(bs_lock(&m, a, right, BS_X, &told).status == BS_WAITING);
  WANT(bs_lock(&m, b, left, BS_X, &told).status == BS_VICTIM);
  WANT(told.count == 0);
  WANT(bs_commit(&m, b, &told).status == BS_TXN_CONDEMNED);
  WANT(bs_held(&m, b, right).mode == BS_X);
  DONE(bs_abort(&m, b, &told));
  WANT(told.count == 1 && is_told(0, a, BS_TOLD_GRANTED));
  DONE(bs_commit(&m, a, &told));
  DONE(bs_end(&m));
}

/* Two young readers hold what an old writer requests, and wait for what it holds: the victim depends on the choice. */
static bs_status asks_in_their_way(uint32_t choice) {
  bs_manager m = BS_NO_MANAGER_HERE;
  bs_options options = { 0, 0, 0, 0, 0, 0 };
  bs_node wanted_node, held;
  bs_txn a, b, c;
  bs_status status;
  options.victims = choice;
  DONE(bs_make(&m, &options));
  WANT(limits_of(&m).victims == choice);
  wanted_node = DONE(bs_add_inner(&m, NULL, 0)).node;
  held = DONE(bs_add_inner(&m, NULL, 0)).node;
  a = begin(&m);
  b = begin(&m);
  c = begin(&m);
  DONE(bs_lock(&m, a, held, BS_X, &told));
  DONE(bs_lock(&m, b, wanted_node, BS_S, &told));
  DONE(bs_lock(&m, c, wanted_node, BS_S, &told));
  WANT(bs_lock(&m, b, held, BS_S, &told).status == BS_WAITING);
  WANT(bs_lock(&m, c, held, BS_S, &told).status == BS_WAITING);
  status = bs_lock(&m, a, wanted_node, BS_X, &told).status;
  if (status == BS_WAITING) WANT(told.count == 2 && is_told(0, b, BS_TOLD_VICTIM) && is_told(1, c, BS_TOLD_VICTIM));
  if (status == BS_VICTIM) WANT(told.count == 0);
  DONE(bs_end(&m));
  return status;
}

static void a_choice_of_victims(void) {
  bs_manager m = BS_NO_MANAGER_HERE;
  bs_options options = options_of(BS_AT_BLOCK, 2, 1);
  WANT(asks_in_their_way(BS_YOUNGEST) == BS_WAITING);
  WANT(asks_in_their_way(BS_FEWEST) == BS_VICTIM);
  WANT(bs_make(&m, &options).status == BS_BAD_NUMBER);
  WANT(bs_limits(&m, &options).status == BS_NO_MANAGER && bs_limits(NULL, &options).status == BS_NULL_POINTER);
}

static void an_older_requester_condemns_the_younger(void) {
  bs_manager m = BS_NO_MANAGER_HERE;
  bs_node root = begin_manager(&m, BS_AT_BLOCK);
  bs_txn a = begin(&m), b = begin(&m);
  DONE(bs_lock(&m, a, root, BS_S, &told));
  DONE(bs_lock(&m, b, root, BS_S, &told));
  WANT(bs_lock(&m, b, root, BS_X, &told).status == BS_WAITING);
  WANT(bs_lock(&m, a, root, BS_X, &told).status == BS_WAITING);
  WANT(told.count == 1 && is_told(0, b, BS_TOLD_VICTIM));
  DONE(bs_abort(&m, b, &told));
  WANT(told.count == 1 && is_told(0, a, BS_TOLD_GRANTED) && told.at[0].mode == BS_X);
  DONE(bs_end(&m));
}

static void a_watcher_settles(void) {
  bs_manager m = BS_NO_MANAGER_HERE;
  bs_node root = begin_manager(&m, BS_BY_WATCHER);
  bs_txn a = begin(&m), b = begin(&m);
  WANT(limits_of(&m).detect == BS_BY_WATCHER);
  DONE(bs_lock(&m, a, root, BS_S, &told));
  DONE(bs_lock(&m, b, root, BS_S, &told));
  WANT(bs_lock(&m, a, root, BS_X, &told).status == BS_WAITING);
  WANT(bs_lock(&m, b, root, BS_X, &told).status == BS_WAITING);
  WANT(told.count == 0);
  DONE(bs_settle(&m, a, &told));
  WANT(told.count == 1 && is_told(0, b, BS_TOLD_VICTIM));
  DONE(bs_settle(&m, a, &told));
  WANT(told.count == 0);
  DONE(bs_end(&m));
}

static void the_rule_of_the_graph(void) {
  bs_manager m = BS_NO_MANAGER_HERE;
  bs_node root = begin_manager(&m, BS_AT_BLOCK);
  struct file f = make_file(&m, root);
  bs_txn a = begin(&m);
  bs_reply reply = bs_lock(&m, a, f.file, BS_IS, &told);
  WANT(reply.status == BS_NEED_PARENTS && same_node(reply.node, root));
  DONE(bs_lock(&m, a, root, BS_IX, &told));
  DONE(bs_lock(&m, a, f.file, BS_IX, &told));
  WANT(bs_children(&m, a, root).count == 1);
  reply = bs_unlock(&m, a, root, &told);
  WANT(reply.status == BS_HELD_CHILD && same_node(reply.node, f.file));
  WANT(bs_lock(&m, a, f.low, BS_IX, &told).status == BS_BAD_MODE);
  reply = bs_lock(&m, a, f.low, BS_X, &told);
  WANT(reply.status == BS_NEED_PARENTS && same_node(reply.node, f.below));
  DONE(bs_unlock(&m, a, f.file, &told));
  WANT(bs_unlock(&m, a, f.file, &told).status == BS_NOT_HELD);
  DONE(bs_end(&m));
}

static void a_path_of_locks(void) {
  bs_manager m = BS_NO_MANAGER_HERE;
  bs_node root = begin_manager(&m, BS_AT_BLOCK);
  struct file f = make_file(&m, root);
  bs_txn a = begin(&m), b = begin(&m);
  uint64_t accepted = accepted_by(&m);
  bs_reply reply;
  WANT(bs_lock_path(&m, a, f.low, BS_IX, &told).status == BS_BAD_MODE && bs_held(&m, a, root).mode == BS_NL);
  WANT(DONE(bs_lock_path(&m, a, f.low, BS_X, &told)).mode == BS_X && told.count == 0);
  WANT(bs_held(&m, a, root).mode == BS_IX && bs_held(&m, a, f.file).mode == BS_IX);
  WANT(bs_held(&m, a, f.index).mode == BS_IX && bs_held(&m, a, f.below).mode == BS_IX);
  WANT(accepted_by(&m) == accepted + 5);
  WANT(DONE(bs_lock_path(&m, a, f.low, BS_S, &told)).mode == BS_X && accepted_by(&m) == accepted + 6);
  DONE(bs_lock_path(&m, b, f.high, BS_S, &told));
  WANT(bs_held(&m, b, f.file).mode == BS_IS && bs_held(&m, b, f.above).mode == BS_NL);
  DONE(bs_commit(&m, b, &told));
  b = begin(&m);
  reply = bs_lock_path(&m, b, f.file, BS_X, &told);
  WANT(reply.status == BS_WAITING && same_node(reply.node, f.file) && bs_held(&m, b, root).mode == BS_IX);
  DONE(bs_commit(&m, a, &told));
  WANT(told.count == 1 && is_told(0, b, BS_TOLD_GRANTED));
  a = begin(&m);
  reply = bs_lock_path(&m, a, f.low, BS_S, &told);
  WANT(reply.status == BS_WAITING && same_node(reply.node, f.file));
  DONE(bs_commit(&m, b, &told));
  WANT(DONE(bs_lock_path(&m, a, f.low, BS_S, &told)).mode == BS_S);
  DONE(bs_end(&m));
}

static void a_path_granted_by_a_victim(void) {
  bs_manager m = BS_NO_MANAGER_HERE;
  bs_node root = begin_manager(&m, BS_AT_BLOCK), other = DONE(bs_add_inner(&m, NULL, 0)).node;
  struct file f = make_file(&m, root);
  bs_txn a = begin(&m), b = begin(&m), c = begin(&m);
  bs_reply reply;
  DONE(bs_lock(&m, a, other, BS_X, &told));
  DONE(bs_lock_path(&m, b, f.file, BS_IS, &told));
  WANT(bs_lock(&m, b, other, BS_S, &told).status == BS_WAITING);
  WANT(bs_lock_path(&m, c, f.file, BS_X, &told).status == BS_WAITING);
  reply = bs_lock_path(&m, a, f.low, BS_X, &told);
  WANT(reply.status == BS_ON_THE_WAY && same_node(reply.node, f.file) && bs_held(&m, a, f.file).mode == BS_IX);
  WANT(told.count == 1 && is_told(0, c, BS_TOLD_VICTIM));
  WANT(DONE(bs_lock_path(&m, a, f.low, BS_X, &told)).mode == BS_X && told.count == 0);
  DONE(bs_end(&m));
}

static void a_record_moves(void) {
  bs_manager m = BS_NO_MANAGER_HERE;
  bs_node root = begin_manager(&m, BS_AT_BLOCK);
  struct file f = make_file(&m, root);
  bs_txn a = begin(&m), b = begin(&m), c = begin(&m);
  lock_path(&m, a, f, f.below);
  DONE(bs_lock(&m, a, f.low, BS_X, &told));
  WANT(bs_rekey(&m, a, f.low, f.index, 150, &told).status == BS_NEED_PARENTS);
  DONE(bs_lock(&m, a, f.above, BS_IX, &told));
  lock_path(&m, b, f, f.below);
  WANT(bs_lock(&m, b, f.low, BS_X, &told).status == BS_WAITING);
  DONE(bs_lock(&m, c, root, BS_IS, &told));
  DONE(bs_lock(&m, c, f.file, BS_IS, &told));
  WANT(bs_lock(&m, c, f.low, BS_S, &told).status == BS_WAITING);
  DONE(bs_rekey(&m, a, f.low, f.index, 150, &told));
  WANT(told.count == 1 && is_told(0, b, BS_TOLD_MOVED));
  WANT(bs_key(&m, f.low, 0).count == 150);
  WANT(same_node(bs_parent(&m, f.low, 0).node, f.file) && same_node(bs_parent(&m, f.low, 1).node, f.above));
  DONE(bs_commit(&m, a, &told));
  WANT(told.count == 1 && is_told(0, c, BS_TOLD_GRANTED) && told.at[0].mode == BS_S);
  DONE(bs_end(&m));
}

static void a_record_goes(void) {
  bs_manager m = BS_NO_MANAGER_HERE;
  bs_node root = begin_manager(&m, BS_AT_BLOCK);
  struct file f = make_file(&m, root);
  bs_txn a = begin(&m), b = begin(&m);
  lock_path(&m, a, f, f.below);
  WANT(bs_delete(&m, a, f.low, &told).status == BS_NEED_EXCLUSIVE);
  DONE(bs_lock(&m, a, f.low, BS_X, &told));
  DONE(bs_lock(&m, b, root, BS_IS, &told));
  DONE(bs_lock(&m, b, f.file, BS_IS, &told));
  WANT(bs_lock(&m, b, f.low, BS_S, &told).status == BS_WAITING);
  DONE(bs_delete(&m, a, f.low, &told));
  WANT(told.count == 1 && is_told(0, b, BS_TOLD_GONE));
  WANT(bs_held(&m, b, f.low).status == BS_NO_SUCH_NODE);
  WANT(bs_kind(&m, f.low).status == BS_NO_SUCH_NODE);
  WANT(bs_has_records(&m, f.file).count == 1);
  DONE(bs_end(&m));
}

static void a_record_is_adopted(void) {
  static const uint64_t key = 70;
  bs_manager m = BS_NO_MANAGER_HERE;
  bs_node root = begin_manager(&m, BS_AT_BLOCK), row;
  struct file f = make_file(&m, root);
  bs_txn a = begin(&m), b = begin(&m);
  WANT(bs_adopt(&m, root, &key, 1).status == BS_BAD_PARENTS && bs_adopt(&m, f.file, NULL, 0).status == BS_BAD_KEYS);
  row = DONE(bs_adopt(&m, f.file, &key, 1)).node;
  WANT(same_node(bs_parent(&m, row, 1).node, f.below) && bs_group(&m, row).mode == BS_NL);
  DONE(bs_lock_path(&m, a, row, BS_X, &told));
  WANT(bs_lock_path(&m, b, row, BS_S, &told).status == BS_WAITING);
  WANT(bs_forget(&m, row).status == BS_RECORD_IN_USE);
  DONE(bs_commit(&m, a, &told));
  WANT(told.count == 1 && is_told(0, b, BS_TOLD_GRANTED) && bs_forget(&m, row).status == BS_RECORD_IN_USE);
  DONE(bs_commit(&m, b, &told));
  DONE(bs_forget(&m, row));
  WANT(bs_forget(&m, row).status == BS_NO_SUCH_NODE && bs_forget(&m, f.below).status == BS_BAD_PARENTS);
  DONE(bs_end(&m));
}

/* After the first row that had a node a file gets no index. */
static void an_index_over_rows(void) {
  bs_manager m = BS_NO_MANAGER_HERE;
  bs_node root = begin_manager(&m, BS_AT_BLOCK), file = DONE(bs_add_file(&m, &root, 1)).node;
  bs_node rows = DONE(bs_add_row_file(&m, &root, 1)).node;
  bs_txn a = begin(&m);
  DONE(bs_forget(&m, DONE(bs_adopt(&m, file, NULL, 0)).node));
  WANT(bs_has_records(&m, file).count == 0 && bs_add_index(&m, &root, 1, file, NULL, 0).status == BS_FILE_IN_USE);
  WANT(bs_lock_row(&m, a, rows, 7, NULL, 0, BS_X, &told).status == BS_NEED_PARENTS);
  DONE(bs_add_index(&m, &root, 1, rows, NULL, 0));
  DONE(bs_lock_path(&m, a, rows, BS_IX, &told));
  DONE(bs_lock_path(&m, a, bs_interval(&m, bs_index(&m, rows, 0).node, 0).node, BS_IX, &told));
  DONE(bs_lock_row(&m, a, rows, 7, &(uint64_t){ 1 }, 1, BS_X, &told));
  DONE(bs_commit(&m, a, &told));
  WANT(bs_has_records(&m, rows).count == 0 && bs_add_index(&m, &root, 1, rows, NULL, 0).status == BS_FILE_IN_USE);
  DONE(bs_end(&m));
}

/* All that can be asked of a manager as a whole, to compare it. */
struct seen {
  uint64_t accepted, nodes;
  bs_slots ended;
  bs_counts counts;
  bs_board board;
};

static struct seen see(bs_manager *m) {
  struct seen s;
  memset(&s, 0, sizeof s);
  s.accepted = accepted_by(m);
  s.nodes = bs_len(m).count;
  s.ended = bs_ended(m).slots;
  DONE(bs_counters(m, &s.counts));
  DONE(bs_read_board(m, &s.board));
  return s;
}

/* Nothing has changed, and nobody was told. */
static bool is_as(bs_manager *m, const struct seen *before) {
  struct seen now = see(m);
  return memcmp(&now, before, sizeof now) == 0 && told.count == 0;
}

/* Locks what is needed above a row with this key. */
static void lock_above(bs_manager *m, bs_txn t, struct file f, uint64_t key) {
  DONE(bs_lock_path(m, t, f.file, BS_IX, &told));
  DONE(bs_lock_path(m, t, key < 100 ? f.below : f.above, BS_IX, &told));
}

static bs_reply ask_row(bs_manager *m, bs_txn t, struct file f, uint64_t number, uint64_t key, bs_mode mode) {
  return bs_lock_row(m, t, f.file, number, &key, 1, mode, &told);
}

/* Locks a row with its key, after what is needed above it. */
static bs_reply lock_row(bs_manager *m, bs_txn t, struct file f, uint64_t number, uint64_t key, bs_mode mode) {
  lock_above(m, t, f, key);
  return ask_row(m, t, f, number, key, mode);
}

static bool has_node(bs_manager *m, struct file f, uint64_t number) {
  return bs_row_node(m, f.file, number).status == BS_DONE;
}

/* A manager with a file of rows. */
static struct file begin_rows(bs_manager *m) {
  return make_row_file(m, begin_manager(m, BS_AT_BLOCK));
}

static void a_row_by_its_number(void) {
  bs_manager m = BS_NO_MANAGER_HERE;
  struct file f = begin_rows(&m);
  uint64_t nodes = bs_len(&m).count;
  bs_txn a = begin(&m), b = begin(&m);
  bs_node row = DONE(lock_row(&m, a, f, 7, 70, BS_S)).node;
  WANT(same_node(row, DONE(bs_row_node(&m, f.file, 7)).node) && bs_held(&m, a, row).mode == BS_S);
  WANT(bs_key(&m, row, 0).count == 70 && same_node(bs_parent(&m, row, 1).node, f.below));
  WANT(same_node(row, DONE(lock_row(&m, b, f, 7, 70, BS_S)).node) && bs_len(&m).count == nodes + 1);
  DONE(bs_unlock_row(&m, a, f.file, 7, &told));
  WANT(has_node(&m, f, 7));
  DONE(bs_unlock_row(&m, b, f.file, 7, &told));
  WANT(!has_node(&m, f, 7) && bs_kind(&m, row).status == BS_NO_SUCH_NODE && bs_len(&m).count == nodes);
  DONE(lock_row(&m, a, f, 1, 10, BS_X));
  DONE(lock_row(&m, a, f, 2, 110, BS_X));
  WANT(has_node(&m, f, 1) && has_node(&m, f, 2) && bs_len(&m).count == nodes + 2);
  DONE(bs_commit(&m, a, &told));
  WANT(!has_node(&m, f, 1) && !has_node(&m, f, 2) && bs_len(&m).count == nodes && told.count == 0);
  DONE(bs_end(&m));
}

/* By its node a row is locked and unlocked as any record. The node then stays, and is removed when the row is let
 * go. */
static void a_row_by_its_node(void) {
  bs_manager m = BS_NO_MANAGER_HERE;
  struct file f = begin_rows(&m);
  bs_txn a = begin(&m), b = begin(&m);
  bs_node row = DONE(lock_row(&m, a, f, 7, 70, BS_S)).node;
  WANT(DONE(bs_lock(&m, a, row, BS_X, &told)).mode == BS_X);
  WANT(bs_lock_path(&m, b, row, BS_S, &told).status == BS_WAITING);
  DONE(bs_unlock(&m, a, row, &told));
  WANT(is_told(0, b, BS_TOLD_GRANTED) && DONE(ask_row(&m, b, f, 7, 70, BS_S)).mode == BS_S);
  DONE(bs_unlock(&m, b, row, &told));
  WANT(same_node(row, DONE(bs_row_node(&m, f.file, 7)).node) && bs_group(&m, row).mode == BS_NL);
  DONE(bs_commit(&m, b, &told));
  WANT(!has_node(&m, f, 7) && bs_kind(&m, row).status == BS_NO_SUCH_NODE);
  DONE(bs_end(&m));
}

static void a_row_is_waited_for(void) {
  bs_manager m = BS_NO_MANAGER_HERE;
  struct file f = begin_rows(&m);
  bs_txn a = begin(&m), b = begin(&m), c = begin(&m);
  bs_node row = DONE(lock_row(&m, a, f, 7, 70, BS_X)).node;
  bs_reply reply = lock_row(&m, b, f, 7, 70, BS_S);
  WANT(reply.status == BS_WAITING && same_node(reply.node, row));
  WANT(bs_verdict(&m, b, row, BS_S).status == BS_WAITING);
  WANT(lock_row(&m, c, f, 7, 70, BS_X).status == BS_WAITING);
  DONE(bs_cancel(&m, c, &told));
  WANT(bs_has(bs_ended(&m).slots, c.slot) && told.count == 0 && has_node(&m, f, 7));
  DONE(bs_commit(&m, a, &told));
  WANT(told.count == 1 && is_told(0, b, BS_TOLD_GRANTED) && same_node(told.at[0].node, row));
  WANT(bs_has(bs_ended(&m).slots, b.slot) && DONE(bs_verdict(&m, b, row, BS_S)).mode == BS_S);
  reply = DONE(ask_row(&m, b, f, 7, 70, BS_S));
  WANT(reply.mode == BS_S && same_node(reply.node, row) && told.count == 0);
  DONE(bs_commit(&m, b, &told));
  WANT(!has_node(&m, f, 7));
  DONE(bs_end(&m));
}

/* A row is locked by the node that it has; after the grant a call says whether the keys are the node's own. */
static void a_row_with_other_keys(void) {
  bs_manager m = BS_NO_MANAGER_HERE;
  struct file f = begin_rows(&m);
  bs_txn a = begin(&m), b = begin(&m);
  bs_node row = DONE(lock_row(&m, a, f, 7, 150, BS_X)).node;
  bs_reply reply = lock_row(&m, b, f, 7, 70, BS_X);
  WANT(reply.status == BS_NEED_PARENTS && same_node(reply.node, f.above));
  lock_above(&m, b, f, 150);
  reply = ask_row(&m, b, f, 7, 70, BS_X);
  WANT(reply.status == BS_WAITING && same_node(reply.node, row) && reply.mode == BS_NL);
  WANT(ask_row(&m, a, f, 7, 70, BS_S).status == BS_OTHER_KEYS && bs_held(&m, a, row).mode == BS_X);
  DONE(bs_commit(&m, a, &told));
  WANT(told.count == 1 && is_told(0, b, BS_TOLD_GRANTED) && bs_key(&m, row, 0).count == 150);
  reply = ask_row(&m, b, f, 7, 70, BS_X);
  WANT(reply.status == BS_OTHER_KEYS && reply.mode == BS_X && same_node(reply.node, row) && told.count == 0);
  DONE(ask_row(&m, b, f, 7, 150, BS_X));
  DONE(bs_rekey_row(&m, b, f.file, 7, f.index, 70, &told));
  WANT(ask_row(&m, b, f, 7, 150, BS_X).status == BS_OTHER_KEYS && ask_row(&m, b, f, 7, 70, BS_X).status == BS_DONE);
  WANT(bs_lock_row(&m, b, f.file, 7, NULL, 0, BS_X, &told).status == BS_OTHER_KEYS);
  DONE(bs_unlock_row(&m, b, f.file, 7, &told));
  WANT(!has_node(&m, f, 7) && !same_node(DONE(ask_row(&m, b, f, 7, 150, BS_X)).node, row));
  DONE(bs_end(&m));
}

/* A node that nobody holds or waits for is replaced if the keys are others. */
static void a_row_whose_node_stands(void) {
  bs_manager m = BS_NO_MANAGER_HERE;
  struct file f = begin_rows(&m);
  bs_txn a = begin(&m), b = begin(&m);
  bs_node row = DONE(lock_row(&m, a, f, 7, 70, BS_X)).node, other;
  uint64_t accepted, nodes = bs_len(&m).count;
  DONE(bs_unlock(&m, a, row, &told));
  WANT(has_node(&m, f, 7));
  lock_above(&m, b, f, 150);
  accepted = accepted_by(&m);
  other = DONE(ask_row(&m, b, f, 7, 150, BS_X)).node;
  WANT(accepted_by(&m) == accepted + 3 && bs_len(&m).count == nodes);
  WANT(!same_node(row, other) && bs_kind(&m, row).status == BS_NO_SUCH_NODE);
  WANT(bs_key(&m, other, 0).count == 150 && same_node(bs_parent(&m, other, 1).node, f.above));
  DONE(bs_unlock(&m, b, other, &told));
  WANT(same_node(DONE(ask_row(&m, b, f, 7, 150, BS_X)).node, other));
  DONE(bs_abort(&m, b, &told));
  WANT(!has_node(&m, f, 7));
  DONE(bs_end(&m));
}

/* A file is of records or of rows. The calls of the other kind are refused before all else, whatever their
 * arguments. */
static void files_of_two_kinds(void) {
  static const uint64_t keys[2] = { 70, 80 };
  bs_manager m = BS_NO_MANAGER_HERE;
  bs_node root = begin_manager(&m, BS_AT_BLOCK), row, others[4];
  struct file rows = make_row_file(&m, root), f = make_file(&m, root);
  bs_txn a = begin(&m), gone = { 5, 0 }, txns[2];
  struct seen before;
  size_t i;
  row = DONE(lock_row(&m, a, rows, 7, 70, BS_X)).node;
  txns[0] = a, txns[1] = gone;
  others[0] = f.file, others[1] = f.below, others[2] = root, others[3].key = 0, others[3].birth = 0;
  before = see(&m);
  for (i = 0; i < 2; i++) {
    WANT(bs_insert(&m, txns[i], rows.file, keys, i).status == BS_ROWS_BY_NUMBER);
    WANT(bs_delete(&m, txns[i], row, &told).status == BS_ROWS_BY_NUMBER);
    WANT(bs_rekey(&m, txns[i], row, f.index, 150, &told).status == BS_ROWS_BY_NUMBER);
  }
  WANT(bs_adopt(&m, rows.file, keys, 2).status == BS_ROWS_BY_NUMBER && bs_forget(&m, row).status == BS_ROWS_BY_NUMBER);
  for (i = 0; i < 4; i++) {
    WANT(bs_lock_row(&m, gone, others[i], 7, keys, 2, BS_NL, &told).status == BS_NOT_ROWS);
    WANT(bs_unlock_row(&m, gone, others[i], 7, &told).status == BS_NOT_ROWS);
    WANT(bs_rekey_row(&m, gone, others[i], 7, root, 80, &told).status == BS_NOT_ROWS);
    WANT(bs_row_node(&m, others[i], 7).status == BS_NO_SUCH_NODE);
  }
  WANT(is_as(&m, &before) && same_node(bs_row_node(&m, rows.file, 7).node, row));
  WANT(bs_lock_row(&m, gone, f.file, 7, keys, 2, 6, &told).status == BS_BAD_NUMBER);
  WANT(bs_add_row_file(&m, &rows.file, 1).status == BS_BAD_PARENTS && bs_kind(&m, rows.file).count == BS_FILE);
  DONE(bs_lock_path(&m, a, f.low, BS_X, &told));
  DONE(bs_delete(&m, a, f.low, &told));
  DONE(bs_end(&m));
}

/* A refused call about a row changes nothing: no count, no board, no node, and the file may still get an index. */
static void rows_are_refused(void) {
  static const uint64_t key = 70;
  bs_manager m = BS_NO_MANAGER_HERE;
  struct file f = begin_rows(&m);
  bs_txn a = begin(&m), gone = { 5, 0 };
  struct seen before = see(&m);
  bs_reply reply = ask_row(&m, a, f, 7, key, BS_X);
  WANT(reply.status == BS_NEED_PARENTS && same_node(reply.node, f.file) && is_as(&m, &before));
  WANT(ask_row(&m, a, f, 7, key, 6).status == BS_BAD_NUMBER);
  WANT(bs_lock_row(&m, gone, f.file, 7, &key, 0, BS_NL, &told).status == BS_NO_SUCH_TXN);
  WANT(bs_lock_row(&m, a, f.file, 7, &key, 0, BS_NL, &told).status == BS_BAD_KEYS);
  WANT(ask_row(&m, a, f, 7, key, BS_IX).status == BS_BAD_MODE);
  WANT(bs_unlock_row(&m, a, f.file, 7, &told).status == BS_NO_SUCH_NODE);
  WANT(bs_rekey_row(&m, a, f.file, 7, f.index, 80, &told).status == BS_NO_SUCH_NODE);
  WANT(bs_cancel(&m, a, &told).status == BS_NOT_WAITING);
  WANT(bs_commit(&m, gone, &told).status == BS_NO_SUCH_TXN);
  WANT(bs_abort(&m, gone, &told).status == BS_NO_SUCH_TXN);
  WANT(bs_escalate(&m, a, f.file, &told).status == BS_NOT_HELD);
  WANT(is_as(&m, &before) && !has_node(&m, f, 7));
  DONE(bs_add_index(&m, &f.root, 1, f.file, NULL, 0));
  DONE(bs_end(&m));
  WANT(ask_row(&m, a, f, 7, key, BS_X).status == BS_NO_MANAGER && !has_node(&m, f, 7));
  WANT(bs_add_row_file(&m, &f.root, 1).status == BS_NO_MANAGER);
}

/* The same if the row has a node, which stays. */
static void rows_with_nodes_are_refused(void) {
  static const uint64_t key = 70;
  bs_manager m = BS_NO_MANAGER_HERE;
  struct file f = begin_rows(&m);
  bs_txn a = begin(&m), b = begin(&m), c = begin(&m);
  bs_node row = DONE(lock_row(&m, a, f, 7, 70, BS_S)).node;
  struct seen before;
  WANT(lock_row(&m, b, f, 7, 70, BS_X).status == BS_WAITING);
  before = see(&m);
  told.count = 0;
  WANT(ask_row(&m, b, f, 7, 70, BS_X).status == BS_TXN_WAITING);
  WANT(ask_row(&m, b, f, 8, 70, BS_X).status == BS_TXN_WAITING && !has_node(&m, f, 8));
  WANT(ask_row(&m, c, f, 7, 70, BS_S).status == BS_NEED_PARENTS);
  WANT(ask_row(&m, c, f, 7, 70, BS_NL).status == BS_BAD_MODE);
  WANT(bs_unlock_row(&m, c, f.file, 7, &told).status == BS_NOT_HELD);
  WANT(bs_rekey_row(&m, a, f.file, 7, f.index, 80, &told).status == BS_NEED_EXCLUSIVE);
  WANT(bs_lock_row(&m, a, f.file, 7, NULL, 1, BS_X, &told).status == BS_NULL_POINTER);
  WANT(bs_lock_row(NULL, a, f.file, 7, &key, 1, BS_X, &told).status == BS_NULL_POINTER);
  WANT(bs_lock_row(&m, a, f.file, 7, &key, 1, BS_X, NULL).status == BS_NULL_POINTER);
  WANT(bs_commit(&m, a, NULL).status == BS_NULL_POINTER && bs_row_node(NULL, f.file, 7).status == BS_NULL_POINTER);
  WANT(is_as(&m, &before) && same_node(bs_row_node(&m, f.file, 7).node, row));
  DONE(bs_unlock(&m, a, row, &told));
  DONE(bs_unlock(&m, b, row, &told));
  before = see(&m);
  WANT(ask_row(&m, c, f, 7, 150, BS_X).status == BS_NEED_PARENTS && is_as(&m, &before));
  WANT(same_node(bs_row_node(&m, f.file, 7).node, row) && bs_key(&m, row, 0).count == 70);
  DONE(bs_end(&m));
}

static void a_deadlock_over_rows(void) {
  bs_manager m = BS_NO_MANAGER_HERE;
  struct file f = begin_rows(&m);
  bs_txn a = begin(&m), b = begin(&m);
  bs_node one = DONE(lock_row(&m, a, f, 1, 10, BS_X)).node, two = DONE(lock_row(&m, b, f, 2, 20, BS_X)).node;
  bs_reply reply;
  WANT(lock_row(&m, a, f, 2, 20, BS_X).status == BS_WAITING);
  reply = lock_row(&m, b, f, 1, 10, BS_X);
  WANT(reply.status == BS_VICTIM && same_node(reply.node, one));
  DONE(bs_abort(&m, b, &told));
  WANT(told.count == 1 && is_told(0, a, BS_TOLD_GRANTED) && same_node(told.at[0].node, two));
  WANT(has_node(&m, f, 1) && has_node(&m, f, 2));
  DONE(bs_commit(&m, a, &told));
  WANT(!has_node(&m, f, 1) && !has_node(&m, f, 2));
  DONE(bs_end(&m));
}

/* The requester is granted because another becomes a victim, which is told; and it is told that the keys are others. */
static void other_keys_granted_by_a_victim(void) {
  bs_manager m = BS_NO_MANAGER_HERE;
  bs_node root = begin_manager(&m, BS_AT_BLOCK), other = DONE(bs_add_inner(&m, NULL, 0)).node, row;
  struct file f = make_row_file(&m, root);
  bs_txn a = begin(&m), b = begin(&m), c = begin(&m);
  bs_reply reply;
  DONE(bs_lock(&m, a, other, BS_X, &told));
  row = DONE(lock_row(&m, b, f, 7, 150, BS_S)).node;
  WANT(lock_row(&m, c, f, 7, 150, BS_X).status == BS_WAITING);
  WANT(bs_lock(&m, b, other, BS_S, &told).status == BS_WAITING);
  DONE(bs_lock_path(&m, a, f.file, BS_IS, &told));
  WANT(ask_row(&m, a, f, 7, 70, BS_S).status == BS_OTHER_KEYS);
  WANT(told.count == 1 && is_told(0, c, BS_TOLD_VICTIM));
  WANT(bs_has(bs_ended(&m).slots, c.slot) && bs_held(&m, a, row).mode == BS_S);
  DONE(bs_abort(&m, c, &told));
  reply = ask_row(&m, a, f, 7, 150, BS_S);
  WANT(reply.status == BS_DONE && same_node(reply.node, row));
  DONE(bs_end(&m));
}

/* A row that is inserted or deleted is locked in X until its transaction ends, by a commit or an abort; before that
 * nobody gets the row or its number. */
static void rows_come_and_go(void) {
  bs_manager m = BS_NO_MANAGER_HERE;
  struct file f = begin_rows(&m);
  bs_txn a = begin(&m), b = begin(&m), c = begin(&m);
  bs_node row = DONE(lock_row(&m, a, f, 7, 70, BS_X)).node;
  DONE(lock_row(&m, a, f, 1, 70, BS_S));
  DONE(lock_row(&m, b, f, 3, 70, BS_S));
  WANT(lock_row(&m, b, f, 7, 80, BS_X).status == BS_WAITING);
  lock_above(&m, a, f, 150);
  DONE(bs_rekey_row(&m, a, f.file, 7, f.index, 150, &told));
  WANT(told.count == 1 && is_told(0, b, BS_TOLD_MOVED) && same_node(bs_parent(&m, row, 1).node, f.above));
  lock_above(&m, b, f, 150);
  WANT(ask_row(&m, b, f, 7, 80, BS_X).status == BS_WAITING);
  WANT(lock_row(&m, c, f, 7, 150, BS_X).status == BS_WAITING);
  DONE(bs_commit(&m, a, &told));
  WANT(told.count == 1 && is_told(0, b, BS_TOLD_GRANTED) && !has_node(&m, f, 1));
  WANT(ask_row(&m, b, f, 7, 80, BS_X).status == BS_OTHER_KEYS);
  DONE(bs_abort(&m, b, &told));
  WANT(told.count == 1 && is_told(0, c, BS_TOLD_GRANTED) && !has_node(&m, f, 3));
  DONE(ask_row(&m, c, f, 7, 150, BS_X));
  DONE(bs_commit(&m, c, &told));
  WANT(!has_node(&m, f, 7) && bs_kind(&m, row).status == BS_NO_SUCH_NODE && bs_has_records(&m, f.file).count == 0);
  DONE(bs_end(&m));
}

/* A file is held whole: its rows are let go, except one that another transaction reads. */
static void an_escalation_of_rows(void) {
  bs_manager m = BS_NO_MANAGER_HERE;
  struct file f = begin_rows(&m);
  bs_txn a = begin(&m), b = begin(&m);
  bs_reply reply;
  DONE(lock_row(&m, a, f, 1, 10, BS_S));
  DONE(lock_row(&m, a, f, 2, 20, BS_S));
  DONE(bs_lock_path(&m, b, f.file, BS_IS, &told));
  DONE(ask_row(&m, b, f, 2, 20, BS_S));
  reply = DONE(bs_escalate(&m, a, f.file, &told));
  WANT(reply.mode == BS_SIX && reply.released == 2 && !has_node(&m, f, 1) && has_node(&m, f, 2));
  DONE(bs_end(&m));
}

static void an_escalation(void) {
  bs_manager m = BS_NO_MANAGER_HERE;
  bs_node root = begin_manager(&m, BS_AT_BLOCK);
  struct file f = make_file(&m, root);
  bs_txn a = begin(&m);
  bs_reply reply;
  DONE(bs_lock(&m, a, root, BS_IX, &told));
  DONE(bs_lock(&m, a, f.file, BS_IX, &told));
  DONE(bs_lock(&m, a, f.index, BS_IX, &told));
  DONE(bs_lock(&m, a, f.below, BS_X, &told));
  DONE(bs_lock(&m, a, f.above, BS_IX, &told));
  DONE(bs_lock(&m, a, f.low, BS_X, &told));
  DONE(bs_lock(&m, a, f.high, BS_X, &told));
  reply = DONE(bs_escalate(&m, a, f.file, &told));
  WANT(reply.mode == BS_X && reply.released == 1 && reply.kept == 1);
  WANT(bs_held(&m, a, f.low).mode == BS_NL && bs_effective(&m, a, f.low).mode == BS_X);
  WANT(bs_held(&m, a, f.high).mode == BS_X);
  DONE(bs_end(&m));
}

/* What was locked since is released, and its waiters are told. What was held before stays, in the mode to which it was
 * raised. */
static void a_savepoint(void) {
  bs_manager m = BS_NO_MANAGER_HERE;
  bs_node root = begin_manager(&m, BS_AT_BLOCK);
  struct file f = make_file(&m, root);
  bs_txn a = begin(&m), b = begin(&m), c = begin(&m);
  uint64_t accepted, first, second;
  DONE(bs_lock_path(&m, a, f.low, BS_S, &told));
  first = DONE(bs_mark(&m, a)).count;
  WANT(first == 3 && bs_held(&m, a, root).mode == BS_IS);
  DONE(bs_lock_path(&m, a, f.above, BS_IX, &told));
  second = DONE(bs_mark(&m, a)).count;
  DONE(bs_lock_path(&m, a, f.high, BS_X, &told));
  WANT(second == 5 && DONE(bs_mark(&m, a)).count == 6 && bs_held(&m, a, f.file).mode == BS_IX);
  DONE(bs_lock_path(&m, b, f.file, BS_IS, &told));
  WANT(bs_lock(&m, b, f.high, BS_S, &told).status == BS_WAITING);
  DONE(bs_lock_path(&m, c, f.index, BS_IX, &told));
  accepted = accepted_by(&m);
  WANT(DONE(bs_release_since(&m, a, second, &told)).count == 1 && accepted_by(&m) == accepted + 1);
  WANT(told.count == 1 && is_told(0, b, BS_TOLD_GRANTED) && bs_held(&m, a, f.high).mode == BS_NL);
  WANT(bs_has(bs_ended(&m).slots, b.slot));
  WANT(DONE(bs_release_since(&m, a, second, &told)).count == 0 && told.count == 0);
  WANT(bs_has(bs_ended(&m).slots, b.slot));
  WANT(DONE(bs_release_since(&m, a, first, &told)).count == 2 && accepted_by(&m) == accepted + 3);
  WANT(!bs_has(bs_ended(&m).slots, b.slot));
  WANT(bs_held(&m, a, root).mode == BS_IX && bs_held(&m, a, f.file).mode == BS_IX);
  WANT(bs_held(&m, a, f.low).mode == BS_S && bs_held(&m, a, f.index).mode == BS_NL);
  WANT(bs_held(&m, c, f.index).mode == BS_IX && DONE(bs_mark(&m, a)).count == first);
  WANT(DONE(bs_release_since(&m, a, 0, &told)).count == 3 && told.count == 0 && DONE(bs_mark(&m, a)).count == 0);
  DONE(bs_end(&m));
}

/* A record that was read by its file is written since: so it needs the interval that was locked for that. */
static void a_savepoint_before_a_raise(void) {
  bs_manager m = BS_NO_MANAGER_HERE;
  bs_node root = begin_manager(&m, BS_AT_BLOCK);
  struct file f = make_file(&m, root);
  bs_txn a = begin(&m);
  uint64_t mark;
  DONE(bs_lock_path(&m, a, f.low, BS_S, &told));
  mark = DONE(bs_mark(&m, a)).count;
  DONE(bs_lock_path(&m, a, f.high, BS_X, &told));
  DONE(bs_lock_path(&m, a, f.low, BS_X, &told));
  WANT(mark == 3 && DONE(bs_mark(&m, a)).count == 7);
  WANT(DONE(bs_release_since(&m, a, mark, &told)).count == 2);
  WANT(bs_held(&m, a, f.high).mode == BS_NL && bs_held(&m, a, f.above).mode == BS_NL);
  WANT(bs_held(&m, a, f.low).mode == BS_X && bs_held(&m, a, f.below).mode == BS_IX);
  WANT(bs_held(&m, a, f.index).mode == BS_IX && DONE(bs_release_since(&m, a, mark, &told)).count == 0);
  DONE(bs_commit(&m, a, &told));
  DONE(bs_end(&m));
}

/* If a lock from before it was released, fewer nodes are released than were locked since, and none from before. */
static void a_savepoint_that_is_spoilt(void) {
  bs_manager m = BS_NO_MANAGER_HERE;
  bs_node root = begin_manager(&m, BS_AT_BLOCK), others[4];
  bs_txn a = begin(&m);
  uint64_t mark;
  size_t i;
  for (i = 0; i < 4; i++) others[i] = DONE(bs_add_inner(&m, NULL, 0)).node;
  DONE(bs_lock(&m, a, root, BS_X, &told));
  DONE(bs_lock(&m, a, others[0], BS_X, &told));
  mark = DONE(bs_mark(&m, a)).count;
  for (i = 1; i < 4; i++) DONE(bs_lock(&m, a, others[i], BS_X, &told));
  DONE(bs_unlock(&m, a, root, &told));
  WANT(DONE(bs_release_since(&m, a, mark, &told)).count == 2 && bs_held(&m, a, others[0]).mode == BS_X);
  WANT(DONE(bs_mark(&m, a)).count == mark && DONE(bs_release_since(&m, a, mark, &told)).count == 0);
  DONE(bs_end(&m));
}

/* A savepoint made during a wait counts that wait: a cancel of that wait spoils the savepoint. */
static void a_savepoint_of_a_wait(void) {
  bs_manager m = BS_NO_MANAGER_HERE;
  bs_node root = begin_manager(&m, BS_AT_BLOCK), others[3];
  bs_txn a = begin(&m), b = begin(&m);
  uint64_t mark;
  size_t i;
  for (i = 0; i < 3; i++) others[i] = DONE(bs_add_inner(&m, NULL, 0)).node;
  DONE(bs_lock(&m, a, root, BS_X, &told));
  DONE(bs_lock(&m, b, others[0], BS_X, &told));
  WANT(bs_lock(&m, b, root, BS_X, &told).status == BS_WAITING);
  mark = DONE(bs_mark(&m, b)).count;
  DONE(bs_cancel(&m, b, &told));
  WANT(mark == 2 && DONE(bs_mark(&m, b)).count == 1);
  for (i = 1; i < 3; i++) DONE(bs_lock(&m, b, others[i], BS_X, &told));
  WANT(DONE(bs_release_since(&m, b, mark, &told)).count == 1 && bs_held(&m, b, others[0]).mode == BS_X);
  DONE(bs_end(&m));
}

/* A row whose last holder locked it only by its node loses the node when that holder gives it back. */
static void a_row_that_is_locked_by_its_node(void) {
  bs_manager m = BS_NO_MANAGER_HERE;
  struct file f = begin_rows(&m);
  bs_txn a = begin(&m), b = begin(&m), c = begin(&m);
  bs_node row = DONE(lock_row(&m, a, f, 1, 10, BS_S)).node;
  DONE(bs_lock_path(&m, b, row, BS_S, &told));
  DONE(bs_commit(&m, a, &told));
  WANT(has_node(&m, f, 1));
  DONE(bs_commit(&m, b, &told));
  WANT(!has_node(&m, f, 1) && bs_kind(&m, row).status == BS_NO_SUCH_NODE);
  a = begin(&m), b = begin(&m);
  row = DONE(lock_row(&m, a, f, 1, 10, BS_S)).node;
  DONE(bs_lock_path(&m, b, row, BS_S, &told));
  DONE(bs_unlock_row(&m, a, f.file, 1, &told));
  DONE(bs_lock_path(&m, c, row, BS_S, &told));
  DONE(bs_commit(&m, a, &told));
  DONE(bs_unlock(&m, b, row, &told));
  WANT(has_node(&m, f, 1));
  DONE(bs_unlock(&m, c, row, &told));
  WANT(!has_node(&m, f, 1));
  DONE(bs_end(&m));
}

/* The transaction that takes the slot of the one that left a row lets it go too, and another that has asked for it. */
static void a_row_that_was_left(void) {
  bs_manager m = BS_NO_MANAGER_HERE;
  struct file f = begin_rows(&m);
  bs_txn a = begin(&m), b = begin(&m), c;
  bs_node row = DONE(lock_row(&m, a, f, 1, 10, BS_S)).node;
  DONE(bs_lock_path(&m, b, row, BS_S, &told));
  DONE(bs_commit(&m, a, &told));
  c = begin(&m);
  WANT(c.slot == a.slot);
  DONE(lock_row(&m, c, f, 2, 20, BS_S));
  WANT(same_node(DONE(lock_row(&m, c, f, 1, 10, BS_S)).node, row));
  DONE(bs_commit(&m, b, &told));
  WANT(has_node(&m, f, 1) && has_node(&m, f, 2));
  DONE(bs_commit(&m, c, &told));
  WANT(!has_node(&m, f, 1) && !has_node(&m, f, 2));
  DONE(bs_end(&m));
}

static void a_savepoint_of_rows(void) {
  bs_manager m = BS_NO_MANAGER_HERE;
  struct file f = begin_rows(&m);
  bs_txn a = begin(&m), b = begin(&m);
  uint64_t mark;
  DONE(lock_row(&m, a, f, 1, 10, BS_X));
  mark = DONE(bs_mark(&m, a)).count;
  DONE(lock_row(&m, a, f, 2, 110, BS_X));
  DONE(lock_row(&m, a, f, 3, 120, BS_S));
  DONE(lock_row(&m, b, f, 3, 120, BS_S));
  WANT(DONE(bs_release_since(&m, a, mark, &told)).count == 3 && told.count == 0);
  WANT(has_node(&m, f, 1) && !has_node(&m, f, 2) && has_node(&m, f, 3));
  DONE(bs_commit(&m, b, &told));
  WANT(!has_node(&m, f, 3) && has_node(&m, f, 1));
  WANT(DONE(bs_release_since(&m, a, mark - 1, &told)).count == 1 && !has_node(&m, f, 1));
  DONE(bs_end(&m));
}

static void a_savepoint_is_refused(void) {
  bs_manager m = BS_NO_MANAGER_HERE;
  bs_node root = begin_manager(&m, BS_AT_BLOCK), other = DONE(bs_add_inner(&m, NULL, 0)).node;
  bs_txn a = begin(&m), b = begin(&m), none = b;
  none.age = 999;
  WANT(bs_mark(&m, none).status == BS_NO_SUCH_TXN && bs_release_since(&m, none, 0, &told).status == BS_NO_SUCH_TXN);
  DONE(bs_lock(&m, a, root, BS_X, &told));
  DONE(bs_lock(&m, b, other, BS_X, &told));
  WANT(bs_lock(&m, b, root, BS_X, &told).status == BS_WAITING && DONE(bs_mark(&m, b)).count == 2);
  told.count = 7;
  WANT(bs_release_since(&m, b, 0, &told).status == BS_TXN_WAITING && told.count == 0);
  WANT(bs_lock(&m, a, other, BS_X, &told).status == BS_WAITING && is_told(0, b, BS_TOLD_VICTIM));
  WANT(bs_release_since(&m, b, 0, &told).status == BS_TXN_CONDEMNED && bs_held(&m, b, other).mode == BS_X);
  DONE(bs_abort(&m, b, &told));
  WANT(DONE(bs_release_since(&m, a, UINT64_MAX, &told)).count == 0 && bs_held(&m, a, other).mode == BS_X);
  WANT(bs_release_since(&m, a, 0, NULL).status == BS_NULL_POINTER);
  WANT(bs_release_since(NULL, a, 0, &told).status == BS_NULL_POINTER && bs_mark(NULL, a).status == BS_NULL_POINTER);
  DONE(bs_end(&m));
  WANT(bs_release_since(&m, a, 0, &told).status == BS_NO_MANAGER && bs_mark(&m, a).status == BS_NO_MANAGER);
}

static void a_file_moves(void) {
  bs_node other;
  bs_manager m = BS_NO_MANAGER_HERE;
  bs_node root = begin_manager(&m, BS_AT_BLOCK);
  struct file f = make_file(&m, root);
  bs_txn a = begin(&m);
  other = DONE(bs_add_inner(&m, &root, 1)).node;
  DONE(bs_lock(&m, a, root, BS_IX, &told));
  DONE(bs_lock(&m, a, f.file, BS_X, &told));
  WANT(bs_move(&m, a, f.file, &other, 1, &told).status == BS_NEED_PARENTS);
  DONE(bs_lock(&m, a, other, BS_X, &told));
  DONE(bs_move(&m, a, f.file, &other, 1, &told));
  WANT(same_node(bs_parent(&m, f.file, 0).node, other));
  WANT(bs_parent(&m, f.file, 1).status == BS_NO_PLACE);
  WANT(bs_move(&m, a, other, &other, 1, &told).status == BS_CYCLE);
  WANT(bs_move(&m, a, f.file, NULL, 0, &told).status == BS_BAD_PARENTS);
  DONE(bs_end(&m));
}

/* Deletes the records of a file; the transaction holds the file and its index. */
static void delete_records(bs_manager *m, bs_txn t, struct file f) {
  lock_path(m, t, f, f.below);
  DONE(bs_lock(m, t, f.above, BS_IX, &told));
  DONE(bs_lock(m, t, f.low, BS_X, &told));
  DONE(bs_lock(m, t, f.high, BS_X, &told));
  DONE(bs_delete(m, t, f.low, &told));
  DONE(bs_delete(m, t, f.high, &told));
}

/* Transactions that can do nothing: one that has ended, one that waits, and one that was condemned. */
struct unable {
  bs_txn ended, waits, condemned;
};

static struct unable make_unable(bs_manager *m) {
  bs_node node = DONE(bs_add_inner(m, NULL, 0)).node;
  struct unable u;
  u.ended = begin(m), u.waits = begin(m), u.condemned = begin(m);
  DONE(bs_commit(m, u.ended, &told));
  DONE(bs_lock(m, u.waits, node, BS_S, &told));
  DONE(bs_lock(m, u.condemned, node, BS_S, &told));
  WANT(bs_lock(m, u.waits, node, BS_X, &told).status == BS_WAITING);
  WANT(bs_lock(m, u.condemned, node, BS_X, &told).status == BS_VICTIM);
  return u;
}

/* A drop is refused in this order, and for what is below each kind of node. */
static void a_drop_is_refused(void) {
  bs_node nothing = { 0, 0 };
  bs_manager m = BS_NO_MANAGER_HERE;
  bs_node root = begin_manager(&m, BS_AT_BLOCK);
  struct file f = make_file(&m, root);
  struct unable u = make_unable(&m);
  bs_txn a = begin(&m);
  struct seen before = see(&m);
  WANT(bs_drop(&m, u.ended, nothing, &told).status == BS_NO_SUCH_TXN);
  WANT(bs_drop(&m, u.waits, nothing, &told).status == BS_TXN_WAITING);
  WANT(bs_drop(&m, u.condemned, nothing, &told).status == BS_TXN_CONDEMNED);
  WANT(bs_drop(&m, a, nothing, &told).status == BS_NO_SUCH_NODE);
  WANT(bs_drop(&m, a, f.low, &told).status == BS_BAD_PARENTS);
  WANT(bs_drop(&m, a, f.below, &told).status == BS_BAD_PARENTS);
  WANT(bs_drop(&m, a, root, &told).status == BS_NEED_EXCLUSIVE);
  WANT(bs_drop(&m, a, f.file, &told).status == BS_NEED_EXCLUSIVE);
  WANT(bs_drop(&m, a, f.index, &told).status == BS_NEED_EXCLUSIVE && is_as(&m, &before));
  DONE(bs_lock(&m, a, root, BS_X, &told));
  DONE(bs_lock(&m, a, f.index, BS_X, &told));
  WANT(bs_drop(&m, a, root, &told).status == BS_HAS_CHILDREN);
  WANT(bs_drop(&m, a, f.index, &told).status == BS_NEED_EXCLUSIVE); /* Its file is not locked. */
  DONE(bs_lock(&m, a, f.file, BS_X, &told));
  WANT(bs_drop(&m, a, f.index, &told).status == BS_FILE_IN_USE);
  WANT(bs_drop(&m, a, f.file, &told).status == BS_FILE_IN_USE);
  delete_records(&m, a, f);
  WANT(bs_drop(&m, a, f.file, &told).status == BS_FILE_IN_USE); /* It has an index. */
  DONE(bs_drop(&m, a, f.index, &told));
  WANT(bs_kind(&m, f.below).status == BS_NO_SUCH_NODE && bs_index(&m, f.file, 0).status == BS_NO_PLACE);
  DONE(bs_drop(&m, a, f.file, &told));
  DONE(bs_drop(&m, a, root, &told));
  WANT(bs_len(&m).count == 1 && bs_lock_count(&m, a).count == 0 && told.count == 0);
  DONE(bs_end(&m));
}

/* Bounds that fall, so that any other refusal comes before that of the bounds. */
static bs_reply index_falling(bs_manager *m, bs_txn t, const bs_node *parents, bs_node file) {
  static const uint64_t falling[2] = { 2, 1 };
  return bs_index_by(m, t, parents, 2, file, falling, 2);
}

/* An index of a file that has been in use is refused in this order. */
static void an_index_by_is_refused(void) {
  bs_node nothing = { 0, 0 }, parents[2], none[2], files[2];
  bs_manager m = BS_NO_MANAGER_HERE;
  bs_node root = begin_manager(&m, BS_AT_BLOCK);
  struct file f = make_file(&m, root);
  struct unable u = make_unable(&m);
  bs_txn a = begin(&m);
  bs_reply reply;
  uint64_t i;
  struct seen before;
  parents[0] = none[0] = files[0] = root;
  parents[1] = DONE(bs_add_inner(&m, NULL, 0)).node, none[1] = nothing, files[1] = f.file;
  before = see(&m);
  WANT(index_falling(&m, u.ended, none, nothing).status == BS_NO_SUCH_TXN);
  WANT(index_falling(&m, u.waits, none, nothing).status == BS_TXN_WAITING);
  WANT(index_falling(&m, u.condemned, none, nothing).status == BS_TXN_CONDEMNED);
  WANT(index_falling(&m, a, none, root).status == BS_NO_SUCH_NODE);
  WANT(index_falling(&m, a, files, nothing).status == BS_NO_SUCH_NODE);
  WANT(index_falling(&m, a, files, f.file).status == BS_BAD_PARENTS);
  WANT(index_falling(&m, a, parents, f.index).status == BS_BAD_PARENTS);
  WANT(bs_index_by(&m, a, NULL, 0, f.file, NULL, 0).status == BS_BAD_PARENTS);
  WANT(index_falling(&m, a, parents, f.file).status == BS_NEED_EXCLUSIVE && is_as(&m, &before));
  DONE(bs_lock_path(&m, a, f.file, BS_X, &told));
  reply = index_falling(&m, a, parents, f.file);
  WANT(reply.status == BS_NEED_PARENTS && same_node(reply.node, parents[1]));
  DONE(bs_lock(&m, a, parents[1], BS_IX, &told));
  WANT(index_falling(&m, a, parents, f.file).status == BS_FILE_IN_USE);
  delete_records(&m, a, f);
  WANT(index_falling(&m, a, parents, f.file).status == BS_BAD_KEYS);
  for (i = 1; i < 7; i++) {
    bs_node made = DONE(bs_index_by(&m, a, parents, 2, f.file, &i, 1)).node;
    WANT(bs_held(&m, a, made).mode == BS_X && same_node(bs_index(&m, f.file, i).node, made));
  }
  WANT(index_falling(&m, a, parents, f.file).status == BS_BAD_PARENTS); /* It has seven. */
  DONE(bs_end(&m));
}

/* A waiter for a node that is dropped is told so. Another node may have its key later, but none its name. */
static void a_node_is_dropped(void) {
  bs_manager m = BS_NO_MANAGER_HERE;
  bs_node root = begin_manager(&m, BS_AT_BLOCK), file = DONE(bs_add_file(&m, &root, 1)).node, next;
  bs_txn a = begin(&m), b = begin(&m), c = begin(&m);
  bs_counts counts;
  size_t made = 0;
  DONE(bs_lock_path(&m, a, file, BS_X, &told));
  WANT(bs_lock_path(&m, b, file, BS_S, &told).status == BS_WAITING);
  WANT(bs_lock_path(&m, c, file, BS_IX, &told).status == BS_WAITING);
  DONE(bs_drop(&m, a, file, &told));
  WANT(told.count == 2 && is_told(0, b, BS_TOLD_GONE) && is_told(1, c, BS_TOLD_GONE));
  WANT(bs_has(bs_ended(&m).slots, b.slot) && bs_has(bs_ended(&m).slots, c.slot));
  WANT(wait_of(&m, b).status == BS_NOT_WAITING && bs_lock_count(&m, a).count == 1);
  WANT(bs_lock_count(&m, b).count == 1 && DONE(bs_counters(&m, &counts)).status == BS_DONE && counts.gone == 2);
  do {
    next = DONE(bs_add_file(&m, &root, 1)).node;
    WANT(next.birth != file.birth && ++made < 100);
  } while (next.key != file.key);
  WANT(bs_verdict(&m, b, file, BS_S).status == BS_GONE && bs_verdict(&m, c, file, BS_IX).status == BS_GONE);
  WANT(bs_lock(&m, b, file, BS_S, &told).status == BS_NO_SUCH_NODE && bs_group(&m, file).status == BS_NO_SUCH_NODE);
  WANT(bs_lock_path(&m, c, file, BS_S, &told).status == BS_NO_SUCH_NODE);
  WANT(bs_drop(&m, a, file, &told).status == BS_NO_SUCH_NODE && bs_held(&m, a, next).mode == BS_NL);
  DONE(bs_lock(&m, b, next, BS_S, &told));
  DONE(bs_end(&m));
}

/* The intervals of an index become finer under the locks of one transaction, which holds the new index until it
 * ends. */
static void an_index_is_made_again(void) {
  static const uint64_t finer[3] = { 50, 100, 150 };
  bs_manager m = BS_NO_MANAGER_HERE;
  bs_node root = begin_manager(&m, BS_AT_BLOCK), made, other, days;
  struct file f = with_index(&m, root, DONE(bs_add_file(&m, &root, 1)).node);
  bs_txn a = begin(&m), b = begin(&m);
  other = DONE(bs_add_index(&m, &root, 1, f.file, NULL, 0)).node;
  DONE(bs_lock_path(&m, a, f.file, BS_X, &told));
  DONE(bs_lock_path(&m, a, f.index, BS_X, &told));
  DONE(bs_lock(&m, a, f.below, BS_X, &told));
  WANT(bs_lock_path(&m, b, f.below, BS_S, &told).status == BS_WAITING);
  made = DONE(bs_index_by(&m, a, &root, 1, f.file, finer, 3)).node;
  DONE(bs_drop(&m, a, f.index, &told));
  WANT(told.count == 1 && is_told(0, b, BS_TOLD_GONE) && bs_held(&m, a, f.below).status == BS_NO_SUCH_NODE);
  WANT(same_node(bs_index(&m, f.file, 0).node, other) && same_node(bs_index(&m, f.file, 1).node, made));
  WANT(bs_index(&m, f.file, 2).status == BS_NO_PLACE && bs_held(&m, a, made).mode == BS_X);
  days = DONE(bs_interval_of(&m, made, 120)).node;
  WANT(bs_place(&m, days).count == 2 && bs_interval(&m, made, 4).status == BS_NO_PLACE);
  WANT(bs_lock_path(&m, b, days, BS_IX, &told).status == BS_WAITING);
  DONE(bs_commit(&m, a, &told));
  WANT(told.count == 1 && is_told(0, b, BS_TOLD_GRANTED) && same_node(told.at[0].node, made));
  DONE(bs_lock_path(&m, b, days, BS_IX, &told));
  DONE(bs_end(&m));
}

/* Rows that have nodes refuse a drop, whoever left them, until they are let go. A file that is gone is no file of rows
 * any more, even if another file has its key. */
static void a_file_of_rows_is_dropped(void) {
  bs_manager m = BS_NO_MANAGER_HERE;
  struct file f = begin_rows(&m);
  bs_txn a = begin(&m), b = begin(&m);
  bs_node made, next;
  DONE(bs_unlock(&m, a, DONE(lock_row(&m, a, f, 7, 70, BS_X)).node, &told)); /* It lets no row go. */
  DONE(bs_unlock(&m, a, f.below, &told));
  DONE(bs_unlock(&m, a, f.index, &told));
  DONE(bs_unlock(&m, a, f.file, &told));
  DONE(bs_lock_path(&m, b, f.file, BS_X, &told));
  DONE(bs_lock_path(&m, b, f.index, BS_X, &told));
  WANT(bs_drop(&m, b, f.index, &told).status == BS_FILE_IN_USE);
  DONE(lock_row(&m, b, f, 7, 70, BS_X));
  WANT(bs_index_by(&m, b, &f.root, 1, f.file, NULL, 0).status == BS_FILE_IN_USE);
  DONE(bs_unlock_row(&m, b, f.file, 7, &told));
  WANT(bs_add_index(&m, &f.root, 1, f.file, NULL, 0).status == BS_FILE_IN_USE);
  made = DONE(bs_index_by(&m, b, &f.root, 1, f.file, NULL, 0)).node;
  DONE(bs_drop(&m, b, f.index, &told));
  DONE(bs_lock(&m, b, bs_interval(&m, made, 0).node, BS_IX, &told));
  DONE(ask_row(&m, b, f, 8, 170, BS_X));
  WANT(bs_drop(&m, b, made, &told).status == BS_FILE_IN_USE);
  DONE(bs_unlock_row(&m, b, f.file, 8, &told));
  DONE(bs_drop(&m, b, made, &told));
  DONE(bs_drop(&m, b, f.file, &told));
  WANT(bs_len(&m).count == 1 && bs_row_node(&m, f.file, 7).status == BS_NO_SUCH_NODE);
  WANT(bs_unlock_row(&m, b, f.file, 7, &told).status == BS_NOT_ROWS);
  WANT(bs_lock_row(&m, b, f.file, 7, NULL, 0, BS_X, &told).status == BS_NOT_ROWS);
  do next = DONE(bs_add_file(&m, &f.root, 1)).node;
  while (next.key != f.file.key);
  WANT(bs_lock_row(&m, b, next, 7, NULL, 0, BS_X, &told).status == BS_NOT_ROWS);
  DONE(bs_adopt(&m, next, NULL, 0));
  DONE(bs_commit(&m, b, &told));
  DONE(bs_end(&m));
}

/* A transaction that reads a row by one index holds nothing on the file, nor on another index. So the row refuses the
 * drop, though both of these are held in X; and nobody reads by the first index after that is held too. */
static void a_reader_by_another_index(void) {
  static const uint64_t keys[2] = { 70, 1 };
  bs_manager m = BS_NO_MANAGER_HERE;
  struct file f = begin_rows(&m);
  bs_node other = DONE(bs_add_index(&m, &f.root, 1, f.file, NULL, 0)).node;
  bs_txn reader = begin(&m), a = begin(&m);
  DONE(bs_lock_path(&m, reader, bs_interval(&m, other, 0).node, BS_IS, &told));
  DONE(bs_lock_row(&m, reader, f.file, 7, keys, 2, BS_S, &told));
  DONE(bs_lock_path(&m, a, f.file, BS_X, &told));
  DONE(bs_lock_path(&m, a, f.index, BS_X, &told));
  WANT(bs_drop(&m, a, f.index, &told).status == BS_FILE_IN_USE);
  WANT(bs_lock_path(&m, a, other, BS_X, &told).status == BS_WAITING);
  DONE(bs_commit(&m, reader, &told));
  WANT(told.count == 1 && is_told(0, a, BS_TOLD_GRANTED));
  DONE(bs_drop(&m, a, f.index, &told));
  WANT(same_node(bs_index(&m, f.file, 0).node, other));
  DONE(bs_end(&m));
}

static void questions(void) {
  bs_manager m = BS_NO_MANAGER_HERE;
  bs_node root = begin_manager(&m, BS_AT_BLOCK);
  struct file f = make_file(&m, root);
  WANT(bs_kind(&m, root).count == BS_INNER && bs_kind(&m, f.file).count == BS_FILE);
  WANT(bs_kind(&m, f.index).count == BS_INDEX && bs_kind(&m, f.below).count == BS_INTERVAL);
  WANT(bs_kind(&m, f.low).count == BS_RECORD);
  WANT(same_node(bs_index(&m, f.file, 0).node, f.index) && bs_index(&m, f.file, 1).status == BS_NO_PLACE);
  WANT(bs_index(&m, root, 0).status == BS_NO_SUCH_NODE);
  WANT(same_node(bs_interval_of(&m, f.index, 99).node, f.below));
  WANT(same_node(bs_interval_of(&m, f.index, 100).node, f.above));
  WANT(bs_interval_of(&m, f.file, 0).status == BS_NO_SUCH_NODE);
  WANT(bs_place(&m, f.above).count == 1 && bs_place(&m, f.index).status == BS_NO_SUCH_NODE);
  WANT(bs_interval(&m, f.index, 2).status == BS_NO_PLACE);
  WANT(bs_key(&m, f.high, 0).count == 200 && bs_key(&m, f.high, 1).status == BS_NO_PLACE);
  WANT(bs_has_records(&m, f.file).count == 1 && bs_has_records(&m, f.index).status == BS_NO_SUCH_NODE);
  WANT(bs_len(&m).count == 7);
  DONE(bs_end(&m));
}

static void stale_names(void) {
  bs_node nothing = { 0, 0 }, made_up = { (size_t)-1, UINT64_MAX };
  bs_txn nobody = { 0, 0 }, beyond = { BS_SLOTS, 1 };
  bs_manager m = BS_NO_MANAGER_HERE;
  bs_node root = begin_manager(&m, BS_AT_BLOCK);
  bs_txn a = begin(&m), b;
  DONE(bs_lock(&m, a, root, BS_X, &told));
  DONE(bs_commit(&m, a, &told));
  b = begin(&m);
  WANT(b.slot == a.slot && b.age != a.age);
  WANT(bs_lock(&m, a, root, BS_S, &told).status == BS_NO_SUCH_TXN);
  WANT(bs_abort(&m, a, &told).status == BS_NO_SUCH_TXN);
  WANT(bs_lock(&m, nobody, root, BS_S, &told).status == BS_NO_SUCH_TXN);
  WANT(bs_lock(&m, beyond, root, BS_S, &told).status == BS_NO_SUCH_TXN);
  WANT(bs_lock(&m, b, nothing, BS_S, &told).status == BS_NO_SUCH_NODE);
  WANT(bs_lock(&m, b, made_up, BS_S, &told).status == BS_NO_SUCH_NODE);
  WANT(bs_add_inner(&m, &made_up, 1).status == BS_NO_SUCH_NODE);
  WANT(accepted_by(&m) == 5);
  DONE(bs_end(&m));
}

/* A name with a slot that does not exist, and the age of a living transaction: each call with it is refused as one with
 * the name of a transaction that has ended, in the same order of refusals, and nothing changes. */
static void no_transaction_by(bs_manager *m, bs_txn none, const struct file *f) {
  const uint64_t key = 1;
  bs_node nothing = { 0, 0 };
  WANT(bs_lock(m, none, f->low, 6, &told).status == BS_BAD_NUMBER);
  WANT(bs_lock(m, none, nothing, BS_X, &told).status == BS_NO_SUCH_TXN);
  WANT(bs_lock_path(m, none, nothing, BS_X, &told).status == BS_NO_SUCH_TXN);
  WANT(bs_try(m, none, nothing, BS_X).status == BS_NO_SUCH_TXN);
  WANT(bs_unlock(m, none, nothing, &told).status == BS_NO_SUCH_TXN);
  WANT(bs_escalate(m, none, nothing, &told).status == BS_NO_SUCH_TXN);
  WANT(bs_cancel(m, none, &told).status == BS_NO_SUCH_TXN && bs_settle(m, none, &told).status == BS_NO_SUCH_TXN);
  WANT(bs_commit(m, none, &told).status == BS_NO_SUCH_TXN && bs_abort(m, none, &told).status == BS_NO_SUCH_TXN);
  WANT(bs_insert(m, none, f->file, &key, 1).status == BS_NO_SUCH_TXN);
  WANT(bs_delete(m, none, f->low, &told).status == BS_NO_SUCH_TXN);
  WANT(bs_rekey(m, none, f->low, f->index, 7, &told).status == BS_NO_SUCH_TXN);
  WANT(bs_move(m, none, f->index, &f->root, 1, &told).status == BS_NO_SUCH_TXN);
  WANT(bs_drop(m, none, nothing, &told).status == BS_NO_SUCH_TXN);
  WANT(bs_index_by(m, none, &nothing, 1, nothing, NULL, 0).status == BS_NO_SUCH_TXN);
  WANT(bs_commit(m, none, &told).status == BS_NO_SUCH_TXN);
  WANT(bs_abort(m, none, &told).status == BS_NO_SUCH_TXN);
  WANT(bs_cancel(m, none, &told).status == BS_NO_SUCH_TXN);
  WANT(bs_escalate(m, none, f->file, &told).status == BS_NO_SUCH_TXN);
  WANT(bs_verdict(m, none, f->low, BS_X).status == BS_NO_SUCH_TXN);
  WANT(bs_held(m, none, f->low).status == BS_NO_SUCH_TXN && bs_effective(m, none, f->low).status == BS_NO_SUCH_TXN);
  WANT(bs_children(m, none, f->file).status == BS_NO_SUCH_TXN);
  WANT(bs_doing(m, none).status == BS_NO_SUCH_TXN && bs_lock_count(m, none).status == BS_NO_SUCH_TXN);
  WANT(bs_ahead(m, none).status == BS_NO_SUCH_TXN);
  WANT(bs_lock_at(m, none, 0).status == BS_NO_SUCH_TXN && bs_waits_for(m, none).status == BS_NO_SUCH_TXN);
}

/* The same for calls about rows. */
static void no_row_by(bs_manager *m, bs_txn none, const struct file *f) {
  const uint64_t key = 50;
  WANT(bs_lock_row(m, none, f->file, 7, &key, 1, BS_X, &told).status == BS_NO_SUCH_TXN);
  WANT(bs_unlock_row(m, none, f->file, 7, &told).status == BS_NO_SUCH_TXN);
  WANT(bs_rekey_row(m, none, f->file, 7, f->index, 60, &told).status == BS_NO_SUCH_TXN);
}

static void slots_that_are_none(void) {
  static const uint32_t beyond[] = { BS_SLOTS, 2 * BS_SLOTS, 256 * BS_SLOTS, 65536 * BS_SLOTS, (uint32_t)1 << 31 };
  bs_manager m = BS_NO_MANAGER_HERE;
  bs_node root = begin_manager(&m, BS_AT_BLOCK);
  struct file f = make_file(&m, root), rows = make_row_file(&m, root);
  bs_txn a = begin(&m), none = a;
  uint64_t before;
  size_t i;
  DONE(bs_lock_path(&m, a, f.low, BS_X, &told));
  before = accepted_by(&m);
  for (i = 0; i < sizeof beyond / sizeof beyond[0]; i++) {
    none.slot = beyond[i] + a.slot;
    no_transaction_by(&m, none, &f);
    no_row_by(&m, none, &rows);
    WANT(bs_living(&m, none.slot).status == BS_BAD_NUMBER);
  }
  WANT(accepted_by(&m) == before && bs_held(&m, a, f.low).mode == BS_X);
  DONE(bs_end(&m));
}

static void numbers_out_of_range(void) {
  bs_node many[9] = { { 0, 0 }, { 0, 0 }, { 0, 0 }, { 0, 0 }, { 0, 0 }, { 0, 0 }, { 0, 0 }, { 0, 0 }, { 0, 0 } };
  bs_manager none = BS_NO_MANAGER_HERE;
  bs_manager m = BS_NO_MANAGER_HERE;
  bs_node root = begin_manager(&m, BS_AT_BLOCK);
  bs_txn a = begin(&m);
  WANT(make_manager(&none, 2, 1).status == BS_BAD_NUMBER);
  WANT(make_manager(&none, BS_AT_BLOCK, BS_SLOTS + 1).status == BS_BAD_NUMBER);
  WANT(bs_lock(&m, a, root, 6, &told).status == BS_BAD_NUMBER);
  WANT(bs_try(&m, a, root, UINT32_MAX).status == BS_BAD_NUMBER);
  WANT(bs_lock(&m, a, root, BS_NL, &told).status == BS_BAD_MODE);
  WANT(bs_add_inner(&m, many, 9).status == BS_BAD_NUMBER && bs_add_row_file(&m, many, 9).status == BS_BAD_NUMBER);
  WANT(bs_move(&m, a, root, many, 9, &told).status == BS_BAD_NUMBER);
  WANT(bs_index_by(&m, a, many, 9, root, NULL, 0).status == BS_BAD_NUMBER);
  DONE(bs_end(&m));
}

static void options_are_taken(void) {
  bs_manager m = BS_NO_MANAGER_HERE, usual = BS_NO_MANAGER_HERE;
  bs_options options = { 0, 0, 0, 0, 0, 0 }, was = options;
  bs_node root;
  DONE(bs_make(&usual, &options)); /* 0 means the default in each of them */
  was = limits_of(&usual);
  WANT(was.detect == BS_AT_BLOCK && was.victims == BS_YOUNGEST && was.transactions == BS_SLOTS);
  WANT(was.nodes == 65536 && was.bounds == 256);
  DONE(bs_end(&usual));
  options.victims = BS_FEWEST;
  options.transactions = 2;
  options.nodes = 2;
  DONE(bs_make(&m, &options));
  DONE(bs_limits(&m, &was));
  WANT(was.detect == BS_AT_BLOCK && was.victims == BS_FEWEST);
  WANT(was.transactions == 2 && was.nodes == 2 && was.bounds == 256);
  root = DONE(bs_add_inner(&m, NULL, 0)).node;
  DONE(bs_add_inner(&m, &root, 1));
  WANT(bs_add_inner(&m, &root, 1).status == BS_TOO_MANY_NODES);
  WANT(bs_make(&m, &options).status == BS_IN_USE);
  DONE(bs_end(&m));
  options.nodes = UINT32_MAX;
  WANT(bs_make(&m, &options).status == BS_BAD_NUMBER);
  DONE(bs_make(&usual, NULL));
  WANT(limits_of(&usual).nodes == 65536 && limits_of(&usual).transactions == BS_SLOTS);
  WANT(bs_make(NULL, NULL).status == BS_NULL_POINTER && bs_limits(&usual, NULL).status == BS_NULL_POINTER);
  DONE(bs_end(&usual));
  was.bounds = 7;
  WANT(bs_limits(&usual, &was).status == BS_NO_MANAGER && was.bounds == 0);
}

/* A caller may know fewer options than the library, or more. */
static void options_of_another_size(void) {
  struct { bs_options known; uint32_t more; } longer = { { 0, 0, 0, 9, 7, 0 }, 5 };
  WANT(bs_call_chosen(&longer.known, sizeof longer).bounds == 7);
  WANT(bs_call_chosen(&longer.known, offsetof(bs_options, bounds)).nodes == 9);
  WANT(bs_call_chosen(&longer.known, offsetof(bs_options, bounds)).bounds == 256);
  WANT(bs_call_chosen(NULL, sizeof longer).nodes == 65536);
}

/* A manager made with these options has indexes of this many bounds, and of no more. */
static void has_bounds(const bs_options *options, uint32_t most) {
  bs_manager m = BS_NO_MANAGER_HERE;
  bs_options was;
  bs_node root, file;
  uint64_t bounds[301];
  size_t at;
  for (at = 0; at < 301; at++) bounds[at] = at + 1;
  DONE(bs_make(&m, options));
  DONE(bs_limits(&m, &was));
  WANT(was.bounds == most);
  root = DONE(bs_add_inner(&m, NULL, 0)).node;
  file = DONE(bs_add_file(&m, &root, 1)).node;
  WANT(bs_add_index(&m, &root, 1, file, bounds, most + 1).status == BS_BAD_KEYS);
  DONE(bs_add_index(&m, &root, 1, file, bounds, most));
  WANT(bs_len(&m).count == most + 4);
  DONE(bs_end(&m));
}

static void bounds_are_chosen_for_themselves(void) {
  bs_manager m = BS_NO_MANAGER_HERE;
  bs_options options = { 0, 0, 0, 0, 0, 0 };
  has_bounds(NULL, 256);
  options.nodes = 70000;
  has_bounds(&options, 256);
  options.bounds = 300;
  has_bounds(&options, 300);
  options.nodes = 65536;
  has_bounds(&options, 300);
  options.bounds = 1;
  has_bounds(&options, 1);
  options.bounds = (uint32_t)1 << 31;
  DONE(bs_make(&m, &options));
  WANT(limits_of(&m).bounds == (uint32_t)1 << 31);
  DONE(bs_end(&m));
  options.bounds++;
  WANT(bs_make(&m, &options).status == BS_BAD_NUMBER);
}

static void intervals_are_nodes(void) {
  bs_manager m = BS_NO_MANAGER_HERE;
  bs_options options = { 0, 0, 0, 0, 0, 0 };
  const uint64_t bounds[3] = { 1, 2, 3 };
  bs_node root, file, index;
  bs_txn a;
  options.nodes = 6;
  DONE(bs_make(&m, &options));
  root = DONE(bs_add_inner(&m, NULL, 0)).node;
  file = DONE(bs_add_file(&m, &root, 1)).node;
  WANT(bs_add_index(&m, &root, 1, file, bounds, 3).status == BS_TOO_MANY_NODES);
  index = DONE(bs_add_index(&m, &root, 1, file, bounds, 2)).node;
  a = begin(&m);
  DONE(bs_lock_path(&m, a, file, BS_X, &told));
  DONE(bs_lock(&m, a, index, BS_X, &told));
  WANT(bs_index_by(&m, a, &root, 1, file, NULL, 0).status == BS_TOO_MANY_NODES);
  DONE(bs_drop(&m, a, index, &told));
  WANT(bs_len(&m).count == 2 && bs_index_by(&m, a, &root, 1, file, bounds, 3).status == BS_TOO_MANY_NODES);
  DONE(bs_index_by(&m, a, &root, 1, file, bounds, 2));
  DONE(bs_end(&m));
}

/* A constant place, which so never had a manager, is asked: nothing is written there. */
static void a_constant_place(void) {
  static const bs_manager never = BS_NO_MANAGER_HERE;
  bs_node node = { 0, 0 };
  bs_txn txn = { 0, 0 };
  static bs_board board;
  static bs_deadlock last;
  bs_counts counts;
  WANT(bs_len(&never).status == BS_NO_MANAGER && bs_held(&never, txn, node).status == BS_NO_MANAGER);
  WANT(bs_group(&never, node).status == BS_NO_MANAGER && bs_kind(&never, node).status == BS_NO_MANAGER);
  WANT(bs_effective(&never, txn, node).status == BS_NO_MANAGER);
  WANT(bs_children(&never, txn, node).status == BS_NO_MANAGER);
  WANT(bs_parent(&never, node, 0).status == BS_NO_MANAGER && bs_key(&never, node, 0).status == BS_NO_MANAGER);
  WANT(bs_index(&never, node, 0).status == BS_NO_MANAGER && bs_interval(&never, node, 0).status == BS_NO_MANAGER);
  WANT(bs_interval_of(&never, node, 0).status == BS_NO_MANAGER && bs_place(&never, node).status == BS_NO_MANAGER);
  WANT(bs_has_records(&never, node).status == BS_NO_MANAGER && bs_living(&never, 0).status == BS_NO_MANAGER);
  WANT(bs_doing(&never, txn).status == BS_NO_MANAGER && bs_lock_count(&never, txn).status == BS_NO_MANAGER);
  WANT(bs_ahead(&never, txn).status == BS_NO_MANAGER);
  WANT(bs_lock_at(&never, txn, 0).status == BS_NO_MANAGER && bs_queue_len(&never, node).status == BS_NO_MANAGER);
  WANT(bs_queue_at(&never, node, 0).status == BS_NO_MANAGER && bs_holders(&never, node).status == BS_NO_MANAGER);
  WANT(bs_waits_for(&never, txn).status == BS_NO_MANAGER && bs_ended(&never).status == BS_NO_MANAGER);
  WANT(bs_verdict(&never, txn, node, BS_X).status == BS_NO_MANAGER);
  WANT(bs_verdict(&never, txn, node, 6).status == BS_BAD_NUMBER && bs_living(&never, BS_SLOTS).status == BS_BAD_NUMBER);
  WANT(bs_row_node(&never, node, 0).status == BS_NO_MANAGER && bs_read_board(&never, &board).status == BS_NO_MANAGER);
  WANT(bs_last_deadlock(&never, &last).status == BS_NO_MANAGER && bs_counters(&never, &counts).status == BS_NO_MANAGER);
}

/* Copies to the main manager what is held on a node in a part; returns how many locks that took. */
static size_t visit(bs_manager *m, bs_node node, const bs_manager *part, bs_node in_part) {
  size_t copied = 0;
  bs_reply next = bs_next_copy(m, node, part, in_part);
  for (; next.status == BS_DONE; next = bs_next_copy(m, node, part, in_part)) {
    uint32_t slot = (uint32_t)next.count;
    bs_txn there = DONE(bs_living(part, slot)).txn;
    bs_reply here = bs_living(m, slot);
    if (here.status == BS_NO_PLACE) here = bs_join(m, slot, there.age);
    WANT(next.mode == bs_held(part, there, in_part).mode && copied < BS_SLOTS);
    WANT(DONE(bs_lock(m, DONE(here).txn, node, next.mode, &told)).mode == next.mode && told.count == 0);
    copied++;
  }
  WANT(next.status == BS_NO_PLACE && next.count == 0 && next.mode == BS_NL);
  return copied;
}

/* Ends in both managers the transaction that has this slot. */
static void commit_in_both(bs_manager *m, bs_manager *part, uint32_t slot) {
  DONE(bs_commit(part, DONE(bs_living(part, slot)).txn, &told));
  DONE(bs_commit(m, DONE(bs_living(m, slot)).txn, &told));
}

static bool is_next(bs_reply next, bs_txn txn, bs_mode mode) {
  return next.status == BS_DONE && next.count == txn.slot && next.mode == mode;
}

/* Three have intentions on a file in a part, and a fourth is to read it in the main manager. */
static void a_part_is_visited(void) {
  bs_manager m = BS_NO_MANAGER_HERE, part = BS_NO_MANAGER_HERE;
  bs_node root = begin_manager(&m, BS_AT_BLOCK), in_part = begin_manager(&part, BS_AT_BLOCK);
  bs_node file = DONE(bs_add_file(&m, &root, 1)).node, there = DONE(bs_add_file(&part, &in_part, 1)).node;
  bs_txn a = begin(&part), b = begin(&part), c = begin(&part), reader;
  DONE(bs_lock_path(&part, a, there, BS_IS, &told));
  DONE(bs_lock_path(&part, b, there, BS_IX, &told));
  DONE(bs_lock_path(&part, c, there, BS_IX, &told));
  reader = DONE(bs_join(&m, 3, 4)).txn;
  WANT(is_next(bs_next_copy(&m, file, &part, there), a, BS_IS));
  WANT(visit(&m, root, &part, in_part) == 3 && visit(&m, file, &part, there) == 3);
  WANT(DONE(bs_is_clear(&m, file)).count == 1);
  WANT(bs_lock_path(&m, reader, file, BS_S, &told).status == BS_WAITING);
  WANT(DONE(bs_is_clear(&m, file)).count == 0 && DONE(bs_is_clear(&m, root)).count == 1);
  commit_in_both(&m, &part, b.slot);
  WANT(told.count == 0 && DONE(bs_is_clear(&m, file)).count == 0);
  commit_in_both(&m, &part, c.slot);
  WANT(told.count == 1 && is_told(0, reader, BS_TOLD_GRANTED) && DONE(bs_is_clear(&m, file)).count == 0);
  DONE(bs_commit(&m, reader, &told));
  WANT(DONE(bs_is_clear(&m, file)).count == 1 && bs_next_copy(&m, file, &part, there).status == BS_NO_PLACE);
  DONE(bs_lock_path(&part, a, there, BS_IX, &told));
  WANT(is_next(bs_next_copy(&m, file, &part, there), a, BS_IX) && visit(&m, root, &part, in_part) == 1);
  DONE(bs_end(&m));
  DONE(bs_end(&part));
}

static bool lacks_at(bs_reply lacks, bs_node node, bs_mode mode) {
  return lacks.status == BS_DONE && lacks.mode == mode && lacks.node.key == node.key && lacks.node.birth == node.birth;
}

/* A part has a file with an index below another area than its own, and is marked for the root and both areas. */
static void paths_lack_intentions(void) {
  bs_manager m = BS_NO_MANAGER_HERE, part = BS_NO_MANAGER_HERE;
  bs_node root = begin_manager(&m, BS_AT_BLOCK), in_part = begin_manager(&part, BS_AT_BLOCK);
  bs_node area = DONE(bs_add_inner(&m, &root, 1)).node, there = DONE(bs_add_inner(&part, &in_part, 1)).node;
  bs_node other = DONE(bs_add_inner(&m, &root, 1)).node, other_there = DONE(bs_add_inner(&part, &in_part, 1)).node;
  bs_node file = DONE(bs_add_file(&part, &there, 1)).node;
  const bs_marked marks[] = { { root, in_part }, { area, there }, { other, other_there } };
  bs_target target = { file, BS_X, 0 }, row = { file, BS_X, 1 }, read = { file, BS_S, 1 };
  bs_txn txn = begin(&part), reader = begin(&part), in_main;
  DONE(bs_add_index(&part, &other_there, 1, file, NULL, 0));
  WANT(lacks_at(bs_path_lacks(&m, &part, txn.slot, target, marks, 3), root, BS_IX));
  WANT(lacks_at(bs_path_lacks(&m, &part, txn.slot, read, marks, 3), root, BS_IS));
  in_main = DONE(bs_join(&m, txn.slot, txn.age)).txn;
  DONE(bs_lock_path(&m, in_main, area, BS_IS, &told));
  WANT(lacks_at(bs_path_lacks(&m, &part, txn.slot, target, marks, 3), root, BS_IX));
  WANT(bs_path_lacks(&m, &part, txn.slot, read, marks, 3).status == BS_NO_PLACE);
  WANT(lacks_at(bs_path_lacks(NULL, &part, txn.slot, read, marks, 3), root, BS_IS));
  DONE(bs_lock(&m, in_main, root, BS_IX, &told));
  WANT(lacks_at(bs_path_lacks(&m, &part, txn.slot, target, marks, 3), area, BS_IX));
  DONE(bs_lock(&m, in_main, area, BS_IX, &told));
  WANT(bs_path_lacks(&m, &part, txn.slot, target, marks, 3).status == BS_NO_PLACE);
  WANT(lacks_at(bs_path_lacks(&m, &part, txn.slot, row, marks, 3), other, BS_IX));
  WANT(lacks_at(bs_path_lacks(&m, &part, reader.slot, read, marks + 1, 2), area, BS_IS));
  WANT(bs_path_lacks(&m, &part, reader.slot, read, marks + 2, 1).status == BS_NO_PLACE);
  DONE(bs_lock_path(&part, reader, there, BS_IS, &told));
  WANT(bs_path_lacks(NULL, &part, reader.slot, read, marks, 3).status == BS_NO_PLACE);
  row.mode = BS_IX;
  WANT(bs_path_lacks(&m, &part, reader.slot, row, marks, 3).status == BS_NO_PLACE);
  WANT(bs_own_copy(&m, area, &part, there, txn.slot).status == BS_NO_PLACE);
  WANT(DONE(bs_own_copy(&m, area, &part, there, reader.slot)).mode == BS_IS);
  WANT(DONE(bs_may_clear(&m, area, 0)).count == 1 && DONE(bs_may_clear(&m, area, 1)).count == 0);
  DONE(bs_lock(&m, in_main, area, BS_X, &told));
  WANT(DONE(bs_may_clear(&m, area, 0)).count == 0);
  DONE(bs_end(&m));
  DONE(bs_end(&part));
}

/* Which waits a new index ends. */
static void waits_end_after_an_index(void) {
  bs_manager part = BS_NO_MANAGER_HERE;
  bs_node root, file, other, record;
  bs_target to;
  bs_txn txn;
  DONE(bs_make(&part, NULL));
  root = DONE(bs_add_inner(&part, NULL, 0)).node;
  file = DONE(bs_add_file(&part, &root, 1)).node;
  other = DONE(bs_add_file(&part, &root, 1)).node;
  txn = DONE(bs_begin(&part)).txn;
  DONE(bs_lock_path(&part, txn, file, BS_X, &told));
  record = DONE(bs_insert(&part, txn, file, NULL, 0)).node;
  to.node = file;
  to.rows = 1;
  to.mode = BS_S;
  WANT(bs_after_index(&part, to, file).status == BS_BAD_KEYS && bs_after_index(&part, to, other).status == BS_DONE);
  to.mode = BS_X;
  WANT(bs_after_index(&part, to, file).status == BS_BAD_KEYS);
  to.rows = 0;
  WANT(bs_after_index(&part, to, file).status == BS_DONE);
  to.node = record;
  WANT(bs_after_index(&part, to, file).status == BS_MOVED && bs_after_index(&part, to, other).status == BS_DONE);
  to.mode = BS_S;
  WANT(bs_after_index(&part, to, file).status == BS_DONE);
  to.mode = 6;
  WANT(bs_after_index(&part, to, file).status == BS_BAD_NUMBER);
  WANT(bs_after_index(NULL, to, file).status == BS_NULL_POINTER);
  DONE(bs_end(&part));
  WANT(bs_after_index(&part, to, file).status == BS_NO_MANAGER);
}

static bool ends_by_a_move(bs_manager *part, bs_target to, bs_node node) {
  bs_status status = bs_after_move(part, to, node).status;
  WANT(status == BS_MOVED || status == BS_DONE);
  return status == BS_MOVED;
}

/* Which waits end if a node is moved: a file with an index below another area than its own. */
static void waits_end_after_a_move(void) {
  bs_manager part = BS_NO_MANAGER_HERE;
  const uint64_t bound = 10, key = 3;
  bs_node root = begin_manager(&part, BS_AT_BLOCK);
  bs_node area = DONE(bs_add_inner(&part, &root, 1)).node, far = DONE(bs_add_inner(&part, &root, 1)).node;
  bs_node file = DONE(bs_add_file(&part, &area, 1)).node, other = DONE(bs_add_file(&part, &far, 1)).node;
  bs_node index = DONE(bs_add_index(&part, &far, 1, file, &bound, 1)).node, record;
  bs_target read = { file, BS_S, 1 }, write = { file, BS_X, 1 }, to = { file, BS_X, 0 };
  bs_txn txn = begin(&part);
  DONE(bs_lock_path(&part, txn, file, BS_X, &told));
  DONE(bs_lock_path(&part, txn, DONE(bs_interval_of(&part, index, key)).node, BS_X, &told));
  record = DONE(bs_insert(&part, txn, file, &key, 1)).node;
  WANT(ends_by_a_move(&part, read, file) && ends_by_a_move(&part, read, area) && ends_by_a_move(&part, read, root));
  WANT(!ends_by_a_move(&part, read, index) && !ends_by_a_move(&part, read, far) && !ends_by_a_move(&part, read, other));
  WANT(ends_by_a_move(&part, write, file) && ends_by_a_move(&part, write, index) && ends_by_a_move(&part, write, far));
  WANT(!ends_by_a_move(&part, write, other));
  WANT(ends_by_a_move(&part, to, file) && ends_by_a_move(&part, to, area) && !ends_by_a_move(&part, to, index));
  to.node = record;
  WANT(ends_by_a_move(&part, to, record) && ends_by_a_move(&part, to, index) && ends_by_a_move(&part, to, far));
  to.mode = BS_S;
  WANT(ends_by_a_move(&part, to, file) && !ends_by_a_move(&part, to, index) && !ends_by_a_move(&part, to, far));
  to.node = other;
  WANT(ends_by_a_move(&part, to, far) && !ends_by_a_move(&part, to, file) && !ends_by_a_move(&part, to, area));
  DONE(bs_lock_path(&part, txn, far, BS_X, &told));
  DONE(bs_move(&part, txn, file, &far, 1, &told));
  WANT(ends_by_a_move(&part, read, file) && !ends_by_a_move(&part, to, file) && !ends_by_a_move(&part, read, area));
  read.mode = BS_IX;
  WANT(!ends_by_a_move(&part, read, file));
  read.mode = 6;
  WANT(bs_after_move(&part, read, file).status == BS_BAD_NUMBER);
  WANT(bs_after_move(NULL, write, file).status == BS_NULL_POINTER);
  DONE(bs_end(&part));
  WANT(bs_after_move(&part, write, file).status == BS_NO_MANAGER);
}

/* A path passes as many nodes as are found without memory; then one more, and memory is refused once. */
static void waits_end_far_below(void) {
  bs_manager part = BS_NO_MANAGER_HERE;
  bs_node root = begin_manager(&part, BS_AT_BLOCK), last = root, other = DONE(bs_add_inner(&part, &root, 1)).node;
  bs_target to = { root, BS_X, 0 };
  int i;
  for (i = 0; i < 31; i++) to.node = last = DONE(bs_add_inner(&part, &last, 1)).node;
  refused_allocation = 1;
  WANT(ends_by_a_move(&part, to, root) && ends_by_a_move(&part, to, last) && !ends_by_a_move(&part, to, other));
  WANT(refused_allocation == 1);
  refused_allocation = 0;
  to.node = DONE(bs_add_file(&part, &last, 1)).node;
  refused_allocation = 1;
  WANT(bs_after_move(&part, to, root).status == BS_NO_MEMORY && refused_allocation == 0);
  WANT(ends_by_a_move(&part, to, root) && ends_by_a_move(&part, to, last) && !ends_by_a_move(&part, to, other));
  DONE(bs_end(&part));
}

/* What may rest beside which marks, and who takes it up. */
static void some_may_rest(void) {
  const bs_marked mark = { { 1, 1 }, { 1, 2 } };
  WANT(bs_may_rest(true, 1, NULL, 0) && bs_may_rest(true, UINT64_MAX, &mark, 0));
  WANT(!bs_may_rest(true, 1, &mark, 1) && !bs_may_rest(true, 1, NULL, 1));
  WANT(!bs_may_rest(false, 1, NULL, 0) && !bs_may_rest(true, 0, NULL, 0));
  WANT(bs_takes_up(9, 9) && !bs_takes_up(9, 8));
}

/* One waits for another in one manager, and that for it in another manager. */
static void boards_are_joined(void) {
  static bs_board joined, one;
  joined.ages[1] = 9;
  joined.ages[BS_SLOTS - 1] = 7;
  one.rows[1].words[(BS_SLOTS - 1) / 64] = (uint64_t)1 << (BS_SLOTS - 1) % 64;
  bs_join_board(&joined, &one);
  WANT(bs_youngest(&joined, bs_suspects(&joined).slots).status == BS_NO_PLACE);
  memset(&one, 0, sizeof one);
  one.rows[BS_SLOTS - 1].words[0] = 2;
  bs_join_board(&joined, &one);
  WANT(DONE(bs_youngest(&joined, bs_suspects(&joined).slots)).count == 1);
  WANT(joined.ages[1] == 9 && joined.ages[BS_SLOTS - 1] == 7 && joined.rows[BS_SLOTS - 1].words[0] == 2);
}

/* Refused questions about visits. */
static void visits_are_refused(void) {
  bs_node nothing = { 0, 0 };
  bs_manager m = BS_NO_MANAGER_HERE, part = BS_NO_MANAGER_HERE;
  bs_node root = begin_manager(&m, BS_AT_BLOCK), in_part;
  bs_target target = { root, BS_X, 0 };
  WANT(bs_next_copy(NULL, root, &part, root).status == BS_NULL_POINTER);
  WANT(bs_next_copy(&part, root, NULL, root).status == BS_NULL_POINTER);
  WANT(bs_next_copy(&m, root, &part, root).status == BS_NO_MANAGER);
  WANT(bs_next_copy(&part, root, &m, root).status == BS_NO_MANAGER);
  WANT(bs_is_clear(NULL, root).status == BS_NULL_POINTER && bs_is_clear(&part, root).status == BS_NO_MANAGER);
  WANT(bs_may_clear(NULL, root, 0).status == BS_NULL_POINTER && bs_may_clear(&part, root, 0).status == BS_NO_MANAGER);
  WANT(bs_own_copy(NULL, root, &part, root, 0).status == BS_NULL_POINTER);
  WANT(bs_own_copy(&m, root, &part, root, 0).status == BS_NO_MANAGER);
  WANT(bs_path_lacks(&part, &m, 0, target, NULL, 0).status == BS_NO_MANAGER);
  WANT(bs_path_lacks(NULL, &part, 0, target, NULL, 0).status == BS_NO_MANAGER);
  in_part = begin_manager(&part, BS_AT_BLOCK);
  WANT(bs_next_copy(&m, nothing, &m, nothing).status == BS_IN_USE);
  WANT(bs_next_copy(&m, nothing, &part, in_part).status == BS_NO_SUCH_NODE);
  WANT(bs_next_copy(&m, root, &part, nothing).status == BS_NO_SUCH_NODE);
  WANT(bs_next_copy(&m, root, &part, in_part).status == BS_NO_PLACE);
  WANT(bs_is_clear(&m, nothing).status == BS_NO_SUCH_NODE && DONE(bs_is_clear(&m, root)).count == 1);
  WANT(bs_may_clear(&m, nothing, 1).status == BS_NO_SUCH_NODE);
  WANT(bs_own_copy(&m, nothing, &m, nothing, 0).status == BS_IN_USE);
  WANT(bs_own_copy(&m, nothing, &part, in_part, 0).status == BS_NO_SUCH_NODE);
  WANT(bs_own_copy(&m, root, &part, nothing, 0).status == BS_NO_SUCH_NODE);
  WANT(bs_own_copy(&m, root, &part, in_part, BS_SLOTS).status == BS_BAD_NUMBER);
  WANT(bs_own_copy(&m, root, &part, in_part, 0).status == BS_NO_PLACE);
  WANT(bs_path_lacks(&m, NULL, 0, target, NULL, 0).status == BS_NULL_POINTER);
  WANT(bs_path_lacks(&m, &part, 0, target, NULL, 1).status == BS_NULL_POINTER);
  WANT(bs_path_lacks(&m, &m, 0, target, NULL, 0).status == BS_IN_USE);
  WANT(bs_path_lacks(&m, &part, BS_SLOTS, target, NULL, 0).status == BS_BAD_NUMBER);
  WANT(bs_path_lacks(&m, &part, 0, target, NULL, 0).status == BS_NO_PLACE);
  target.mode = 6;
  WANT(bs_path_lacks(NULL, &part, 0, target, NULL, 0).status == BS_BAD_NUMBER);
  DONE(bs_end(&m));
  DONE(bs_end(&part));
}

/* A name that names nothing is refused so, whatever the question; that there are fewer is another answer. */
static void names_that_name_nothing(void) {
  bs_node nothing = { 0, 0 };
  bs_manager m = BS_NO_MANAGER_HERE;
  bs_node root = begin_manager(&m, BS_AT_BLOCK);
  struct file f = make_file(&m, root);
  bs_txn a = begin(&m), gone = { 5, 0 };
  WANT(bs_parent(&m, nothing, 0).status == BS_NO_SUCH_NODE && bs_parent(&m, f.low, 2).status == BS_NO_PLACE);
  WANT(bs_key(&m, nothing, 0).status == BS_NO_SUCH_NODE && bs_key(&m, f.file, 0).status == BS_NO_SUCH_NODE);
  WANT(bs_key(&m, f.low, 1).status == BS_NO_PLACE && bs_interval(&m, f.index, 2).status == BS_NO_PLACE);
  WANT(bs_interval(&m, nothing, 0).status == BS_NO_SUCH_NODE && bs_interval(&m, f.file, 0).status == BS_NO_SUCH_NODE);
  WANT(bs_index(&m, nothing, 0).status == BS_NO_SUCH_NODE && bs_index(&m, f.file, 1).status == BS_NO_PLACE);
  WANT(bs_queue_at(&m, nothing, 0).status == BS_NO_SUCH_NODE && bs_queue_at(&m, f.file, 0).status == BS_NO_PLACE);
  WANT(bs_lock_at(&m, gone, 0).status == BS_NO_SUCH_TXN && bs_lock_at(&m, a, 0).status == BS_NO_PLACE);
  WANT(bs_children(&m, gone, f.file).status == BS_NO_SUCH_TXN && bs_children(&m, a, f.file).status == BS_NOT_HELD);
  WANT(bs_children(&m, a, nothing).status == BS_NO_SUCH_NODE && bs_holders(&m, nothing).status == BS_NO_SUCH_NODE);
  WANT(bs_doing(&m, gone).status == BS_NO_SUCH_TXN && bs_lock_count(&m, gone).status == BS_NO_SUCH_TXN);
  DONE(bs_end(&m));
}

static void places_without_a_manager(void) {
  bs_manager never = BS_NO_MANAGER_HERE, m = BS_NO_MANAGER_HERE;
  bs_node root = begin_manager(&m, BS_AT_BLOCK);
  bs_txn a = begin(&m);
  WANT(bs_begin(&never).status == BS_NO_MANAGER && bs_len(&never).status == BS_NO_MANAGER);
  WANT(bs_begin_again(&never, 1).status == BS_NO_MANAGER && bs_join(&never, 0, 1).status == BS_NO_MANAGER);
  WANT(bs_end(&never).status == BS_NO_MANAGER);
  WANT(make_manager(&m, BS_AT_BLOCK, 1).status == BS_IN_USE);
  DONE(bs_lock(&m, a, root, BS_X, &told));
  DONE(bs_end(&m));
  WANT(bs_end(&m).status == BS_NO_MANAGER);
  told.count = 1;
  WANT(bs_commit(&m, a, &told).status == BS_NO_MANAGER && told.count == 0);
  WANT(bs_held(&m, a, root).status == BS_NO_MANAGER);
  told.count = 1;
  WANT(bs_drop(&m, a, root, &told).status == BS_NO_MANAGER && told.count == 0);
  WANT(bs_index_by(&m, a, &root, 1, root, NULL, 0).status == BS_NO_MANAGER);
  DONE(make_manager(&m, BS_AT_BLOCK, 1));
  WANT(bs_lock(&m, a, root, BS_X, &told).status == BS_NO_SUCH_TXN);
  begin(&m);
  WANT(bs_begin(&m).status == BS_TOO_MANY_TXNS && bs_begin_again(&m, 1).status == BS_TOO_MANY_TXNS);
  DONE(bs_end(&m));
}

/* A call that the header refuses leaves no notices of an earlier call. */
static bool is_refused_and_empty(bs_reply reply) {
  bool is_empty = told.count == 0;
  told.count = 1;
  return reply.status == BS_NULL_POINTER && is_empty;
}

static void a_refused_call_tells_nobody(void) {
  static const uint64_t key = 7;
  bs_manager m = BS_NO_MANAGER_HERE;
  bs_node root = begin_manager(&m, BS_AT_BLOCK);
  bs_txn a = begin(&m);
  told.count = 1;
  WANT(is_refused_and_empty(bs_lock_row(&m, a, root, 7, NULL, 1, BS_X, &told)));
  WANT(is_refused_and_empty(bs_lock_row(NULL, a, root, 7, &key, 1, BS_X, &told)));
  WANT(is_refused_and_empty(bs_move(&m, a, root, NULL, 1, &told)));
  WANT(is_refused_and_empty(bs_move(NULL, a, root, &root, 1, &told)));
  WANT(is_refused_and_empty(bs_drop(NULL, a, root, &told)));
  WANT(is_refused_and_empty(bs_lock(NULL, a, root, BS_X, &told)));
  WANT(is_refused_and_empty(bs_lock_path(NULL, a, root, BS_X, &told)));
  WANT(is_refused_and_empty(bs_commit(NULL, a, &told)));
  DONE(bs_end(&m));
}

static void null_pointers(void) {
  bs_manager m = BS_NO_MANAGER_HERE;
  bs_node root = begin_manager(&m, BS_AT_BLOCK);
  bs_txn a = begin(&m);
  WANT(bs_make(NULL, NULL).status == BS_NULL_POINTER && bs_end(NULL).status == BS_NULL_POINTER);
  WANT(bs_begin(NULL).status == BS_NULL_POINTER && bs_len(NULL).status == BS_NULL_POINTER);
  WANT(bs_begin_again(NULL, 1).status == BS_NULL_POINTER && bs_join(NULL, 0, 1).status == BS_NULL_POINTER);
  WANT(bs_lock(&m, a, root, BS_X, NULL).status == BS_NULL_POINTER);
  WANT(bs_lock_path(&m, a, root, BS_X, NULL).status == BS_NULL_POINTER);
  WANT(bs_held(&m, a, root).mode == BS_NL);
  told.count = 1;
  WANT(bs_commit(NULL, a, &told).status == BS_NULL_POINTER && told.count == 0);
  WANT(bs_commit(&m, a, NULL).status == BS_NULL_POINTER);
  WANT(bs_add_file(&m, NULL, 1).status == BS_NULL_POINTER && bs_add_file(&m, NULL, 0).status == BS_BAD_PARENTS);
  WANT(bs_add_row_file(&m, NULL, 1).status == BS_NULL_POINTER && bs_add_row_file(&m, NULL, 0).status == BS_BAD_PARENTS);
  WANT(bs_add_row_file(NULL, &root, 1).status == BS_NULL_POINTER);
  WANT(bs_add_index(&m, &root, 1, root, NULL, 1).status == BS_NULL_POINTER);
  WANT(bs_insert(&m, a, root, NULL, 1).status == BS_NULL_POINTER);
  WANT(bs_move(&m, a, root, NULL, 1, &told).status == BS_NULL_POINTER);
  WANT(bs_drop(&m, a, root, NULL).status == BS_NULL_POINTER);
  WANT(bs_index_by(&m, a, NULL, 1, root, NULL, 0).status == BS_NULL_POINTER);
  WANT(bs_index_by(&m, a, &root, 1, root, NULL, 1).status == BS_NULL_POINTER);
  WANT(bs_index_by(NULL, a, &root, 1, root, NULL, 0).status == BS_NULL_POINTER);
  DONE(bs_end(&m));
}

static void everybody_is_told(void) {
  bs_manager m = BS_NO_MANAGER_HERE;
  bs_node root = begin_manager(&m, BS_AT_BLOCK);
  bs_txn all[BS_SLOTS];
  size_t i;
  for (i = 0; i < BS_SLOTS; i++) all[i] = begin(&m);
  WANT(bs_begin(&m).status == BS_TOO_MANY_TXNS);
  DONE(bs_lock(&m, all[0], root, BS_X, &told));
  for (i = 1; i < BS_SLOTS; i++) WANT(bs_lock(&m, all[i], root, BS_IS, &told).status == BS_WAITING);
  DONE(bs_commit(&m, all[0], &told));
  WANT(told.count == BS_SLOTS - 1);
  for (i = 1; i < BS_SLOTS; i++) WANT(is_told(i - 1, all[i], BS_TOLD_GRANTED) && told.at[i - 1].mode == BS_IS);
  DONE(bs_end(&m));
}

/* A call whose allocation is refused changes nothing, and is done when it is repeated. */
static bs_node made_in_spite(bs_manager *m, bs_node root) {
  uint64_t before = accepted_by(m), nodes = bs_len(m).count;
  bs_reply made = bs_add_inner(m, &root, 1);
  if (made.status == BS_NO_MEMORY) {
    WANT(accepted_by(m) == before && bs_len(m).count == nodes);
    made = bs_add_inner(m, &root, 1);
  }
  return DONE(made).node;
}

static void locked_in_spite(bs_manager *m, bs_txn t, bs_node node) {
  uint64_t before = accepted_by(m);
  bs_reply locked = bs_lock(m, t, node, BS_X, &told);
  if (locked.status == BS_NO_MEMORY) {
    WANT(accepted_by(m) == before && bs_held(m, t, node).mode == BS_NL && told.count == 0);
    locked = bs_lock(m, t, node, BS_X, &told);
  }
  DONE(locked);
}

/* Whether there is an nth allocation, which is refused. */
static bool refuses(long n) {
  bs_manager m = BS_NO_MANAGER_HERE;
  bs_node root = begin_manager(&m, BS_AT_BLOCK);
  bs_txn a = begin(&m);
  bool refused;
  int i;
  DONE(bs_lock(&m, a, root, BS_IX, &told));
  refused_allocation = n;
  for (i = 0; i < 40; i++) locked_in_spite(&m, a, made_in_spite(&m, root));
  refused = refused_allocation == 0;
  refused_allocation = 0;
  DONE(bs_commit(&m, a, &told));
  DONE(bs_end(&m));
  return refused;
}

/* One more than the number of allocations, each of which was refused in turn. */
static long allocations_of(bool (*refuses_nth)(long n)) {
  long n = 1;
  while (refuses_nth(n)) n++;
  return n;
}

static void refused_allocations(void) {
  WANT(allocations_of(refuses) > 4);
}

static bs_node index_in_spite(bs_manager *m, bs_txn t, bs_node root, bs_node file) {
  static const uint64_t bounds[2] = { 10, 20 };
  uint64_t before = accepted_by(m), nodes = bs_len(m).count;
  bs_reply made = bs_index_by(m, t, &root, 1, file, bounds, 2);
  if (made.status == BS_NO_MEMORY) {
    WANT(accepted_by(m) == before && bs_len(m).count == nodes && bs_index(m, file, 0).status == BS_NO_PLACE);
    made = bs_index_by(m, t, &root, 1, file, bounds, 2);
  }
  return DONE(made).node;
}

/* A drop takes no memory: a refusal of an allocation is still due after it. */
static void drop_without_memory(bs_manager *m, bs_txn t, bs_node node) {
  long left = refused_allocation;
  refused_allocation = 1;
  DONE(bs_drop(m, t, node, &told));
  WANT(refused_allocation == 1);
  refused_allocation = left;
}

/* Whether there is an nth allocation of indexes that are made and dropped, which is refused. */
static bool refuses_an_index(long n) {
  bs_manager m = BS_NO_MANAGER_HERE;
  bs_node root = begin_manager(&m, BS_AT_BLOCK), files[8];
  bs_txn a = begin(&m);
  bool refused;
  size_t i;
  for (i = 0; i < 8; i++) files[i] = DONE(bs_add_file(&m, &root, 1)).node;
  for (i = 0; i < 8; i++) DONE(bs_lock_path(&m, a, files[i], BS_X, &told));
  refused_allocation = n;
  for (i = 0; i < 8; i++) index_in_spite(&m, a, root, files[i]);
  for (i = 0; i < 8; i++) drop_without_memory(&m, a, bs_index(&m, files[i], 0).node);
  for (i = 0; i < 8; i++) drop_without_memory(&m, a, files[i]);
  refused = refused_allocation == 0;
  refused_allocation = 0;
  WANT(bs_len(&m).count == 1 && bs_lock_count(&m, a).count == 1);
  DONE(bs_end(&m));
  return refused;
}

static void refused_allocations_of_indexes(void) {
  WANT(allocations_of(refuses_an_index) > 2);
}

enum { BESIDE = 5 };

/* Whether a file has so many indexes, and each of its records a key for each and a parent more. */
static bool have_indexes(const bs_manager *m, bs_node file, const bs_node *records, size_t count) {
  size_t i;
  for (i = 0; i < BESIDE; i++) {
    if (bs_key(m, records[i], count).status != BS_NO_PLACE || bs_parent(m, records[i], count).status != BS_DONE) return false;
    if (bs_parent(m, records[i], count + 1).status != BS_NO_PLACE) return false;
    if (count > 0 && bs_key(m, records[i], count - 1).count != 10 * i) return false;
  }
  return bs_index(m, file, count).status == BS_NO_PLACE;
}

/* Makes an index of a file beside its records, which has so many indexes. */
static void index_beside_in_spite(bs_manager *m, bs_txn t, bs_node file, const bs_node *records, size_t count) {
  static const uint64_t bounds[2] = { 10, 20 }, keys[BESIDE] = { 0, 10, 20, 30, 40 };
  bs_node root = bs_parent(m, file, 0).node;
  uint64_t before = accepted_by(m), nodes = bs_len(m).count;
  bs_reply made = bs_index_records(m, t, &root, 1, file, bounds, 2, records, keys, BESIDE);
  if (made.status == BS_NO_MEMORY) {
    WANT(accepted_by(m) == before && bs_len(m).count == nodes && have_indexes(m, file, records, count));
    made = bs_index_records(m, t, &root, 1, file, bounds, 2, records, keys, BESIDE);
  }
  DONE(made);
  WANT(accepted_by(m) == before + 1 && bs_len(m).count == nodes + 4 && have_indexes(m, file, records, count + 1));
}

/* Whether there is an nth allocation of four indexes that are made beside records, which is refused. */
static bool refuses_an_index_beside_records(long n) {
  bs_manager m = BS_NO_MANAGER_HERE;
  bs_node root = begin_manager(&m, BS_AT_BLOCK), file = DONE(bs_add_file(&m, &root, 1)).node, records[BESIDE];
  bs_txn a = begin(&m);
  bool refused;
  size_t i;
  DONE(bs_lock_path(&m, a, file, BS_X, &told));
  for (i = 0; i < BESIDE; i++) records[i] = DONE(bs_adopt(&m, file, NULL, 0)).node;
  refused_allocation = n;
  for (i = 0; i < 4; i++) index_beside_in_spite(&m, a, file, records, i);
  refused = refused_allocation == 0;
  refused_allocation = 0;
  DONE(bs_commit(&m, a, &told));
  for (i = 0; i < BESIDE; i++) DONE(bs_forget(&m, records[i]));
  DONE(bs_end(&m));
  return refused;
}

static void refused_allocations_beside_records(void) {
  WANT(allocations_of(refuses_an_index_beside_records) > 2);
}

/* A call whose allocation is refused changes nothing. */
static bs_node split_in_spite(bs_manager *m, bs_txn t, bs_node interval, uint64_t at) {
  struct seen before = see(m);
  uint64_t locks = bs_lock_count(m, t).count, children = bs_children(m, t, interval).count;
  bs_reply made;
  told.count = 0;
  made = bs_split(m, t, interval, at, &told);
  if (made.status == BS_NO_MEMORY) {
    WANT(is_as(m, &before) && bs_lock_count(m, t).count == locks);
    WANT(bs_children(m, t, interval).count == children);
    made = bs_split(m, t, interval, at, &told);
  }
  return DONE(made).node;
}

static void merge_in_spite(bs_manager *m, bs_txn t, bs_node interval, bs_node next) {
  struct seen before = see(m);
  uint64_t locks = bs_lock_count(m, t).count;
  bs_reply made;
  told.count = 0;
  made = bs_merge(m, t, interval, &told);
  if (made.status == BS_NO_MEMORY) {
    WANT(is_as(m, &before) && bs_lock_count(m, t).count == locks && bs_held(m, t, next).mode == BS_X);
    made = bs_merge(m, t, interval, &told);
  }
  DONE(made);
}

/* Whether there is an nth allocation of splits and merges, which is refused. Two transactions read the records, which
 * move one by one. */
static bool refuses_a_split(long n) {
  enum { RECORDS = 20 };
  bs_manager m = BS_NO_MANAGER_HERE;
  struct file f = make_file(&m, begin_manager(&m, BS_AT_BLOCK));
  bs_txn a = begin(&m), b = begin(&m);
  bs_node records[RECORDS], parts[RECORDS];
  bool refused;
  uint64_t i, key;
  DONE(bs_lock_path(&m, a, f.below, BS_X, &told));
  for (i = 0, key = 99; i < RECORDS; i++, key--) records[i] = DONE(bs_adopt(&m, f.file, &key, 1)).node;
  for (i = 0; i < RECORDS; i++) DONE(bs_lock_path(&m, b, records[i], BS_S, &told));
  for (i = 0; i < RECORDS; i++) DONE(bs_lock_path(&m, a, records[i], BS_S, &told));
  refused_allocation = n;
  for (i = 0; i < RECORDS; i++) parts[i] = split_in_spite(&m, a, f.below, 99 - i);
  for (i = 0; i < RECORDS; i++) WANT(bs_children(&m, a, parts[i]).count == 1);
  for (i = RECORDS; i-- > 0;) merge_in_spite(&m, a, f.below, parts[i]);
  refused = refused_allocation == 0;
  refused_allocation = 0;
  WANT(bs_children(&m, a, f.below).count == RECORDS && bs_children(&m, b, f.file).count == RECORDS);
  DONE(bs_end(&m));
  return refused;
}

static void refused_allocations_of_splits(void) {
  WANT(allocations_of(refuses_a_split) > 4);
}

/* A transaction that may write rows in the lower interval. */
static bs_txn begin_writer(bs_manager *m, struct file f) {
  bs_txn t = begin(m);
  lock_above(m, t, f, 70);
  return t;
}

/* A row whose allocation is refused is unchanged, and so is all else; it is locked, or waits, when the call is
 * repeated. */
static void row_in_spite(bs_manager *m, bs_txn t, struct file f, uint64_t number, uint64_t key, bs_mode mode,
                         bs_status end) {
  bs_node row = bs_row_node(m, f.file, number).node;
  struct seen before = see(m);
  bs_reply reply = ask_row(m, t, f, number, key, mode);
  if (reply.status == BS_NO_MEMORY) {
    WANT(is_as(m, &before) && same_node(bs_row_node(m, f.file, number).node, row));
    reply = ask_row(m, t, f, number, key, mode);
  }
  WANT(reply.status == end && same_node(reply.node, bs_row_node(m, f.file, number).node));
}

/* Whether there is an nth allocation among these rows, which is refused: rows that get a node, that get another one,
 * that are already held, that two read, and that are waited for. */
static bool refuses_row(long n) {
  bs_manager m = BS_NO_MANAGER_HERE;
  struct file f = begin_rows(&m);
  bs_txn first = begin_writer(&m, f), a, b = begin_writer(&m, f), c = begin_writer(&m, f);
  uint64_t nodes = bs_len(&m).count, number;
  bool refused;
  for (number = 0; number < 10; number++) DONE(ask_row(&m, first, f, number, 60, BS_S));
  DONE(bs_commit(&m, first, &told));
  a = begin_writer(&m, f);
  told.count = 0;
  refused_allocation = n;
  for (number = 0; number < 40; number++) row_in_spite(&m, a, f, number, 70, number < 20 ? BS_S : BS_X, BS_DONE);
  for (number = 0; number < 40; number++) row_in_spite(&m, a, f, number, 80, BS_S, BS_OTHER_KEYS);
  for (number = 0; number < 20; number++) row_in_spite(&m, b, f, number, 70, BS_S, BS_DONE);
  row_in_spite(&m, b, f, 30, 70, BS_X, BS_WAITING);
  row_in_spite(&m, c, f, 19, 80, BS_X, BS_WAITING);
  refused = refused_allocation == 0;
  refused_allocation = 0;
  DONE(bs_commit(&m, a, &told));
  WANT(told.count == 1 && is_told(0, b, BS_TOLD_GRANTED));
  DONE(bs_commit(&m, b, &told));
  DONE(bs_commit(&m, c, &told));
  WANT(bs_len(&m).count == nodes && !has_node(&m, f, 0) && !has_node(&m, f, 19));
  DONE(bs_end(&m));
  return refused;
}

static void refused_allocations_of_rows(void) {
  WANT(allocations_of(refuses_row) > 8);
}

/* The same for files of rows. */
static bool refuses_row_file(long n) {
  bs_manager m = BS_NO_MANAGER_HERE;
  bs_node root = begin_manager(&m, BS_AT_BLOCK);
  bool refused;
  int i;
  told.count = 0;
  refused_allocation = n;
  for (i = 0; i < 20; i++) {
    struct seen before = see(&m);
    bs_reply made = bs_add_row_file(&m, &root, 1);
    if (made.status == BS_NO_MEMORY) {
      WANT(is_as(&m, &before));
      made = bs_add_row_file(&m, &root, 1);
    }
    DONE(made);
  }
  refused = refused_allocation == 0;
  refused_allocation = 0;
  DONE(bs_end(&m));
  return refused;
}

static void refused_allocations_of_row_files(void) {
  WANT(allocations_of(refuses_row_file) > 2);
}

/* The bytes in use after a thousand rows are locked, from this one on; and they are released. */
static long bytes_of_rows(bs_manager *m, struct file f, uint64_t from) {
  static const uint64_t key = 70;
  bs_txn a = begin_writer(m, f);
  uint64_t number;
  long locked;
  for (number = from; number < from + 1000; number++) {
    DONE(bs_lock_row(m, a, f.file, number, &key, 1, BS_X, &told));
  }
  locked = bytes_out();
  DONE(bs_commit(m, a, &told));
  return locked;
}

/* A hundred thousand rows, of which a thousand are locked at a time, take the memory of a thousand, or twice that: a
 * map from which names were removed may double once. */
static void rows_that_nobody_locks(void) {
  bs_manager m = BS_NO_MANAGER_HERE;
  struct file f = begin_rows(&m);
  long locked = bytes_of_rows(&m, f, 0), idle = bytes_out();
  uint64_t from;
  for (from = 1000; from < 100000; from += 1000) {
    WANT(bytes_of_rows(&m, f, from) <= 2 * locked && bytes_out() <= 2 * idle);
  }
  DONE(bs_end(&m));
}

/* A hundred thousand tables that are made, locked, given an index and dropped in turn take the memory of a thousand. */
static void tables_come_and_go(void) {
  bs_manager m = BS_NO_MANAGER_HERE;
  bs_node root = begin_manager(&m, BS_AT_BLOCK);
  bs_txn a = begin(&m);
  long at_first = 0;
  uint64_t bound = 5, turn;
  for (turn = 1; turn <= 100000; turn++) {
    bs_node file = DONE(bs_add_file(&m, &root, 1)).node, index;
    DONE(bs_lock_path(&m, a, file, BS_X, &told));
    index = DONE(bs_index_by(&m, a, &root, 1, file, &bound, 1)).node;
    DONE(bs_drop(&m, a, index, &told));
    DONE(bs_drop(&m, a, file, &told));
    if (turn == 1000) at_first = bytes_out();
  }
  WANT(bytes_out() == at_first && bs_len(&m).count == 1);
  DONE(bs_end(&m));
}

static void refused_managers(void) {
  long n;
  bs_reply made = { BS_NO_MEMORY, BS_NL, { 0, 0 }, { 0, 0 }, 0, 0, 0, BS_NL };
  for (n = 1; made.status == BS_NO_MEMORY; n++) {
    bs_manager m = BS_NO_MANAGER_HERE;
    refused_allocation = n;
    made = make_manager(&m, BS_AT_BLOCK, 128);
    refused_allocation = 0;
    WANT(bs_begin(&m).status == (made.status == BS_DONE ? BS_DONE : BS_NO_MANAGER));
    WANT(bs_end(&m).status == made.status || made.status == BS_NO_MEMORY);
  }
  WANT(made.status == BS_DONE && n > 2);
}

static void a_board_shows_a_cycle(void) {
  static bs_board board;
  bs_manager m = BS_NO_MANAGER_HERE;
  bs_node root = begin_manager(&m, BS_BY_WATCHER);
  bs_txn a = begin(&m), b = begin(&m), c = begin(&m), victim;
  bs_found found;
  bs_reply youngest;
  uint32_t slot;
  DONE(bs_read_board(&m, &board));
  WANT(board.epoch == 4 && board.ages[a.slot] == a.age && board.ages[BS_SLOTS - 1] == 0);
  found = bs_suspects(&board);
  WANT(found.status == BS_DONE && is_empty(found.slots));
  WANT(bs_youngest(&board, found.slots).status == BS_NO_PLACE);
  DONE(bs_lock(&m, a, root, BS_S, &told));
  DONE(bs_lock(&m, b, root, BS_S, &told));
  WANT(bs_lock(&m, c, root, BS_X, &told).status == BS_WAITING);
  WANT(bs_lock(&m, a, root, BS_X, &told).status == BS_WAITING);
  WANT(bs_lock(&m, b, root, BS_X, &told).status == BS_WAITING);
  WANT(bs_has(board.rows[a.slot], b.slot) == false);
  DONE(bs_read_board(&m, &board));
  WANT(bs_has(board.rows[a.slot], b.slot) && bs_has(board.rows[c.slot], a.slot));
  found = bs_on_cycle(&board, a.slot);
  for (slot = 0; slot < BS_SLOTS + 72; slot++) WANT(bs_has(found.slots, slot) == (slot == a.slot || slot == b.slot));
  WANT(is_empty(bs_on_cycle(&board, c.slot).slots));
  WANT(same_slots(bs_suspects(&board).slots, found.slots));
  youngest = DONE(bs_youngest(&board, found.slots));
  WANT(youngest.count == b.slot);
  victim.slot = (uint32_t)youngest.count;
  victim.age = board.ages[youngest.count];
  DONE(bs_settle(&m, victim, &told));
  WANT(told.count == 1 && is_told(0, b, BS_TOLD_VICTIM));
  WANT(bs_on_cycle(&board, BS_SLOTS).status == BS_BAD_NUMBER);
  WANT(bs_on_cycle(&board, 256 * BS_SLOTS + a.slot).status == BS_BAD_NUMBER);
  WANT(bs_on_cycle(NULL, 0).status == BS_NULL_POINTER && bs_suspects(NULL).status == BS_NULL_POINTER);
  WANT(bs_youngest(NULL, found.slots).status == BS_NULL_POINTER);
  WANT(bs_read_board(&m, NULL).status == BS_NULL_POINTER);
  DONE(bs_end(&m));
  WANT(bs_read_board(&m, &board).status == BS_NO_MANAGER);
}

/* The set has only this slot, and each slot its own bit. */
static void has_one(bs_slots set, size_t slot) {
  size_t i;
  for (i = 0; i < BS_SLOTS; i++) WANT(bs_has(set, (uint32_t)i) == (i == slot));
  for (i = 0; i < BS_SLOTS / 64; i++) WANT(set.words[i] == (i == slot / 64 ? (uint64_t)1 << slot % 64 : 0));
}

/* A board is read whole: in a ring of all slots each waits for the next, also from slot 64 on. */
static void a_ring_of_all(void) {
  static bs_board board;
  bs_node nodes[BS_SLOTS];
  bs_manager m = BS_NO_MANAGER_HERE;
  bs_txn all[BS_SLOTS];
  bs_found found;
  size_t i;
  begin_manager(&m, BS_BY_WATCHER);
  for (i = 0; i < BS_SLOTS; i++) {
    all[i] = begin(&m);
    nodes[i] = DONE(bs_add_inner(&m, NULL, 0)).node;
    DONE(bs_lock(&m, all[i], nodes[i], BS_X, &told));
  }
  for (i = 0; i < BS_SLOTS; i++) WANT(bs_lock(&m, all[i], nodes[(i + 1) % BS_SLOTS], BS_X, &told).status == BS_WAITING);
  DONE(bs_read_board(&m, &board));
  found = bs_suspects(&board);
  for (i = 0; i < BS_SLOTS / 64; i++) WANT(found.slots.words[i] == UINT64_MAX);
  for (i = 0; i < BS_SLOTS; i++) has_one(board.rows[i], (i + 1) % BS_SLOTS);
  WANT(bs_youngest(&board, found.slots).count == all[BS_SLOTS - 1].slot);
  for (i = 0; i < BS_SLOTS; i++) WANT(bs_youngest(&board, board.rows[i]).count == (i + 1) % BS_SLOTS);
  DONE(bs_end(&m));
}

static void tell(const char *name, void (*body)(void)) {
  long before = blocks_out();
  story = name;
  body();
  WANT(blocks_out() == before);
  printf("%s\n", name);
}

#define TELL(name) tell(#name, name)

int main(void) {
  setvbuf(stdout, NULL, _IONBF, 0);
  TELL(modes_join);
  TELL(a_commit_grants);
  TELL(a_conversion_goes_ahead);
  TELL(a_conversion_passes);
  TELL(a_deadlock_has_a_victim);
  TELL(a_choice_of_victims);
  TELL(an_older_requester_condemns_the_younger);
  TELL(a_watcher_settles);
  TELL(a_board_shows_a_cycle);
  TELL(a_ring_of_all);
  TELL(the_rule_of_the_graph);
  TELL(a_path_of_locks);
  TELL(a_path_granted_by_a_victim);
  TELL(a_record_moves);
  TELL(a_record_goes);
  TELL(a_record_is_adopted);
  TELL(an_index_over_rows);
  TELL(a_row_by_its_number);
  TELL(a_row_by_its_node);
  TELL(a_row_is_waited_for);
  TELL(a_row_with_other_keys);
  TELL(a_row_whose_node_stands);
  TELL(files_of_two_kinds);
  TELL(rows_are_refused);
  TELL(rows_with_nodes_are_refused);
  TELL(a_deadlock_over_rows);
  TELL(other_keys_granted_by_a_victim);
  TELL(rows_come_and_go);
  TELL(an_escalation_of_rows);
  TELL(an_escalation);
  TELL(a_savepoint);
  TELL(a_savepoint_before_a_raise);
  TELL(a_savepoint_that_is_spoilt);
  TELL(a_savepoint_of_a_wait);
  TELL(a_row_that_is_locked_by_its_node);
  TELL(a_row_that_was_left);
  TELL(a_savepoint_of_rows);
  TELL(a_savepoint_is_refused);
  TELL(a_file_moves);
  TELL(a_drop_is_refused);
  TELL(an_index_by_is_refused);
  TELL(a_node_is_dropped);
  TELL(an_index_is_made_again);
  TELL(a_file_of_rows_is_dropped);
  TELL(a_reader_by_another_index);
  TELL(questions);
  TELL(stale_names);
  TELL(slots_that_are_none);
  TELL(numbers_out_of_range);
  TELL(options_are_taken);
  TELL(options_of_another_size);
  TELL(bounds_are_chosen_for_themselves);
  TELL(intervals_are_nodes);
  TELL(places_without_a_manager);
  TELL(a_constant_place);
  TELL(names_that_name_nothing);
  TELL(a_part_is_visited);
  TELL(paths_lack_intentions);
  TELL(waits_end_after_an_index);
  TELL(waits_end_after_a_move);
  TELL(waits_end_far_below);
  TELL(some_may_rest);
  TELL(boards_are_joined);
  TELL(visits_are_refused);
  TELL(a_refused_call_tells_nobody);
  TELL(null_pointers);
  TELL(everybody_is_told);
  TELL(refused_allocations);
  TELL(refused_allocations_of_indexes);
  TELL(refused_allocations_beside_records);
  TELL(refused_allocations_of_splits);
  TELL(refused_allocations_of_rows);
  TELL(refused_allocations_of_row_files);
  TELL(rows_that_nobody_locks);
  TELL(tables_come_and_go);
  TELL(refused_managers);
  return 0;
}
