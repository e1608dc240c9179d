/*
 * groups.c: stories of a group of tables, and a crowd that uses one. It looks into the group, whose source it includes.
 *
 *   groups                          the stories, and a crowd for a second
 *   groups SECONDS [SEED]           crowds for so many seconds, and before that many calls beside a table
 */
#include "group_world.h"
#include "pcg.h"

/* ------------------------------------------------------------------------------------------------
 * Stories of one thread.
 */

/* Each call of a transaction in a part, and one that marks or counts, is refused so. */
static void calls_of_parts_are_refused(bs_table_group *of, bs_txn txn, bs_status status) {
  bs_node file = { (size_t)1 << 32 | 1, 1 };
  const uint64_t key = 1;
  bs_group_savepoint savepoint;
  memset(&savepoint, 0, sizeof savepoint);
  ANSWERS(status, bs_group_unlock(of, txn, file));
  ANSWERS(status, bs_group_drop(of, txn, file));
  ANSWERS(status, bs_group_move(of, txn, file, &base, 1));
  ANSWERS(status, bs_group_split(of, txn, file, 1));
  ANSWERS(status, bs_group_merge(of, txn, file));
  ANSWERS(status, bs_group_index_by(of, txn, &base, 1, file, NULL, 0));
  ANSWERS(status, bs_group_index_records(of, txn, &base, 1, file, NULL, 0, &file, &key, 1));
  ANSWERS(status, bs_group_mark(of, txn, &savepoint));
  ANSWERS(status, bs_group_release_since(of, txn, &savepoint));
}

static void groups_are_made_and_ended(void) {
  bs_table_group *other = NULL;
  bs_options options;
  memset(&options, 0, sizeof options);
  ANSWERS(BS_NULL_POINTER, bs_group_make(NULL, NULL, 1));
  ANSWERS(BS_BAD_NUMBER, bs_group_make(&other, NULL, 0));
  ANSWERS(BS_BAD_NUMBER, bs_group_make(&other, NULL, BS_MOST_PARTS + 1));
  options.transactions = BS_SLOTS + 1;
  ANSWERS(BS_BAD_NUMBER, bs_group_make(&other, &options, 1));
  options.transactions = 0;
  options.detect = BS_BY_WATCHER + 1;
  ANSWERS(BS_BAD_NUMBER, bs_group_make(&other, &options, 1));
  options.detect = 0;
  options.victims = 7;
  ANSWERS(BS_BAD_NUMBER, bs_group_make(&other, &options, 1));
  WANT(other == NULL);
  DONE(bs_group_make(&other, NULL, BS_MOST_PARTS));
  ANSWERS(BS_IN_USE, bs_group_make(&other, NULL, 1));
  ANSWERS(BS_IN_USE, bs_group_free(&other));
  DONE(bs_group_end(other));
  ANSWERS(BS_NO_MANAGER, bs_group_end(other));
  ANSWERS(BS_NO_MANAGER, bs_group_begin(other));
  ANSWERS(BS_NO_MANAGER, bs_group_keep(other, 1));
  ANSWERS(BS_NO_MANAGER, bs_group_add_inner(other, NULL, 0));
  WANT(bs_group_hold(other, 0) == NULL);
  calls_of_parts_are_refused(other, (bs_txn){ 0, 1 }, BS_NO_MANAGER);
  DONE(bs_group_free(&other));
  ANSWERS(BS_NULL_POINTER, bs_group_free(&other));
  ANSWERS(BS_NULL_POINTER, bs_group_free(NULL));
  ANSWERS(BS_NULL_POINTER, bs_group_end(NULL));
}

/* The same of the calls that change a schema, and of savepoints and counters. */
static void null_calls_of_parts_are_refused(bs_txn txn) {
  const uint64_t key = 1;
  bs_group_savepoint savepoint;
  bs_counts counts;
  ANSWERS(BS_NULL_POINTER, bs_group_unlock(NULL, txn, files[1]));
  ANSWERS(BS_NULL_POINTER, bs_group_drop(NULL, txn, files[1]));
  ANSWERS(BS_NULL_POINTER, bs_group_move(NULL, txn, files[1], &base, 1));
  ANSWERS(BS_NULL_POINTER, bs_group_move(group, txn, files[1], NULL, 1));
  ANSWERS(BS_NULL_POINTER, bs_group_split(NULL, txn, files[1], 1));
  ANSWERS(BS_NULL_POINTER, bs_group_merge(NULL, txn, files[1]));
  ANSWERS(BS_NULL_POINTER, bs_group_index_by(NULL, txn, &base, 1, files[1], NULL, 0));
  ANSWERS(BS_NULL_POINTER, bs_group_index_by(group, txn, NULL, 1, files[1], NULL, 0));
  ANSWERS(BS_NULL_POINTER, bs_group_index_by(group, txn, &base, 1, files[1], NULL, 1));
  ANSWERS(BS_NULL_POINTER, bs_group_index_records(NULL, txn, &base, 1, files[1], NULL, 0, NULL, NULL, 0));
  ANSWERS(BS_NULL_POINTER, bs_group_index_records(group, txn, NULL, 1, files[1], NULL, 0, NULL, NULL, 0));
  ANSWERS(BS_NULL_POINTER, bs_group_index_records(group, txn, &base, 1, files[1], NULL, 1, NULL, NULL, 0));
  ANSWERS(BS_NULL_POINTER, bs_group_index_records(group, txn, &base, 1, files[1], NULL, 0, records[1], NULL, 1));
  ANSWERS(BS_NULL_POINTER, bs_group_index_records(group, txn, &base, 1, files[1], NULL, 0, NULL, &key, 1));
  ANSWERS(BS_NULL_POINTER, bs_group_mark(NULL, txn, &savepoint));
  ANSWERS(BS_NULL_POINTER, bs_group_mark(group, txn, NULL));
  ANSWERS(BS_NULL_POINTER, bs_group_release_since(NULL, txn, &savepoint));
  ANSWERS(BS_NULL_POINTER, bs_group_release_since(group, txn, NULL));
  ANSWERS(BS_NULL_POINTER, bs_group_counters(NULL, &counts));
  ANSWERS(BS_NULL_POINTER, bs_group_counters(group, NULL));
}

static void null_groups_are_refused(void) {
  bs_txn txn = { 0, 1 };
  ANSWERS(BS_NULL_POINTER, bs_group_begin(NULL));
  ANSWERS(BS_NULL_POINTER, bs_group_begin_again(NULL, 1));
  ANSWERS(BS_NULL_POINTER, bs_group_commit(NULL, txn));
  ANSWERS(BS_NULL_POINTER, bs_group_abort(NULL, txn));
  ANSWERS(BS_NULL_POINTER, bs_group_keep(NULL, 1));
  ANSWERS(BS_NULL_POINTER, bs_group_add_inner(NULL, NULL, 0));
  ANSWERS(BS_NULL_POINTER, bs_group_add_inner(group, NULL, 1));
  ANSWERS(BS_NULL_POINTER, bs_group_add_spread_file(NULL, &base, 1));
  ANSWERS(BS_NULL_POINTER, bs_group_add_spread_file(group, NULL, 1));
  ANSWERS(BS_NULL_POINTER, bs_group_file_of_row(NULL, base, 1));
  ANSWERS(BS_NULL_POINTER, bs_group_add_file(NULL, 1, &base, 1));
  ANSWERS(BS_NULL_POINTER, bs_group_add_file(group, 1, NULL, 1));
  ANSWERS(BS_NULL_POINTER, bs_group_add_row_file(group, 1, NULL, 1));
  ANSWERS(BS_NULL_POINTER, bs_group_add_index(group, &base, 1, files[1], NULL, 1));
  ANSWERS(BS_NULL_POINTER, bs_group_lock_path(NULL, txn, base, BS_S, NULL));
  ANSWERS(BS_NULL_POINTER, bs_group_try_path(NULL, txn, base, BS_S, BS_KEEP_WAY));
  ANSWERS(BS_NULL_POINTER, bs_group_try_row_path(group, txn, row_files[1], 1, NULL, 1, BS_S, BS_KEEP_WAY));
  ANSWERS(BS_NULL_POINTER, bs_group_lock_row_path(NULL, txn, base, 1, NULL, 0, BS_S, NULL));
  ANSWERS(BS_NULL_POINTER, bs_group_lock_row_path(group, txn, base, 1, NULL, 1, BS_S, NULL));
  ANSWERS(BS_NULL_POINTER, bs_group_insert(NULL, txn, base, NULL, 0));
  ANSWERS(BS_NULL_POINTER, bs_group_insert(group, txn, base, NULL, 1));
  ANSWERS(BS_NULL_POINTER, bs_group_adopt(group, base, NULL, 1));
  ANSWERS(BS_NULL_POINTER, bs_group_forget(NULL, base));
  ANSWERS(BS_NULL_POINTER, bs_group_delete(NULL, txn, base));
  ANSWERS(BS_NULL_POINTER, bs_group_rekey(NULL, txn, base, base, 1));
  ANSWERS(BS_NULL_POINTER, bs_group_rekey_row(NULL, txn, base, 1, base, 1));
  ANSWERS(BS_NULL_POINTER, bs_group_unlock_row(NULL, txn, base, 1));
  ANSWERS(BS_NULL_POINTER, bs_group_escalate(NULL, txn, base));
  null_calls_of_parts_are_refused(txn);
  ANSWERS(BS_NULL_POINTER, bs_group_held(NULL, txn, base));
  ANSWERS(BS_NULL_POINTER, bs_group_name_in(NULL, base, 0));
  ANSWERS(BS_NULL_POINTER, bs_group_let_go(NULL, 0));
  WANT(bs_group_hold(NULL, 0) == NULL && bs_group_hold(group, PARTS + 1) == NULL);
}

static void wrong_graphs_are_refused(void) {
  bs_node nine[9], none = { 77, 3 }, far = { (size_t)(PARTS + 1) << 32 | 1, 1 };
  const uint64_t falling[2] = { 5, 4 };
  uint64_t key = 1;
  size_t i;
  for (i = 0; i < 9; i++) nine[i] = base;
  ANSWERS(BS_BAD_NUMBER, bs_group_add_inner(group, nine, 9));
  ANSWERS(BS_BAD_NUMBER, bs_group_add_file(group, 1, nine, 9));
  ANSWERS(BS_BAD_NUMBER, bs_group_add_file(group, PARTS + 1, &base, 1));
  ANSWERS(BS_BAD_NUMBER, bs_group_add_index(group, nine, 9, files[1], NULL, 0));
  ANSWERS(BS_NO_SUCH_NODE, bs_group_add_inner(group, &none, 1));
  ANSWERS(BS_NO_SUCH_NODE, bs_group_add_inner(group, &far, 1));
  ANSWERS(BS_NO_SUCH_NODE, bs_group_add_inner(group, &files[1], 1));
  ANSWERS(BS_BAD_PARENTS, bs_group_add_inner(group, nine, 2));
  ANSWERS(BS_NO_SUCH_NODE, bs_group_add_file(group, 1, &none, 1));
  ANSWERS(BS_NO_SUCH_NODE, bs_group_add_file(group, 1, &files[2], 1));
  ANSWERS(BS_BAD_PARENTS, bs_group_add_file(group, 1, &files[1], 1));
  ANSWERS(BS_BAD_PARENTS, bs_group_add_file(group, 1, NULL, 0));
  ANSWERS(BS_BAD_PARENTS, bs_group_add_index(group, &base, 1, base, NULL, 0));
  ANSWERS(BS_NO_SUCH_NODE, bs_group_add_index(group, &base, 1, none, NULL, 0));
  ANSWERS(BS_NO_SUCH_NODE, bs_group_add_index(group, &base, 1, far, NULL, 0));
  ANSWERS(BS_BAD_KEYS, bs_group_add_index(group, &base, 1, DONE(bs_group_add_file(group, 1, &base, 1)).node, falling, 2));
  ANSWERS(BS_BAD_PARENTS, bs_group_adopt(group, base, &key, 1));
  ANSWERS(BS_NO_SUCH_NODE, bs_group_adopt(group, far, &key, 1));
  ANSWERS(BS_BAD_PARENTS, bs_group_forget(group, base));
  ANSWERS(BS_BAD_PARENTS, bs_group_forget(group, files[1]));
  want_rest(group);
}

static void wrong_requests_are_refused(void) {
  bs_txn txn = begun(), gone = txn, far = { BS_SLOTS, 1 };
  bs_node none = { 77, 3 }, beyond = { (size_t)(PARTS + 1) << 32 | 1, 1 };
  struct timespec bad = { 0, 1000000000 };
  uint64_t key = 5;
  ANSWERS(BS_BAD_NUMBER, lock_path(txn, base, BS_X + 1));
  ANSWERS(BS_BAD_NUMBER, lock_path(txn, areas[1], BS_S | BS_INSTANT));
  ANSWERS(BS_BAD_NUMBER, lock_path(txn, records[1][0], (BS_X + 1) | BS_INSTANT));
  ANSWERS(BS_BAD_NUMBER, bs_group_try_path(group, txn, records[1][0], BS_X | BS_INSTANT, BS_KEEP_WAY));
  ANSWERS(BS_BAD_NUMBER, bs_group_lock_path(group, txn, base, BS_S, &bad));
  ANSWERS(BS_BAD_NUMBER, bs_group_lock_row_path(group, txn, row_files[1], 1, &key, 1, BS_S, &bad));
  ANSWERS(BS_BAD_MODE, lock_path(txn, base, BS_NL));
  ANSWERS(BS_BAD_MODE, lock_path(txn, files[1], BS_NL));
  ANSWERS(BS_BAD_MODE, lock_path(txn, records[1][0], BS_IX));
  ANSWERS(BS_NO_SUCH_NODE, lock_path(txn, none, BS_S));
  ANSWERS(BS_NO_SUCH_NODE, lock_path(txn, beyond, BS_S));
  ANSWERS(BS_NOT_ROWS, bs_group_lock_row_path(group, txn, base, 1, &key, 1, BS_S, NULL));
  ANSWERS(BS_NOT_ROWS, bs_group_lock_row_path(group, txn, beyond, 1, &key, 1, BS_S, NULL));
  ANSWERS(BS_NOT_ROWS, bs_group_lock_row_path(group, txn, files[1], 1, NULL, 0, BS_S, NULL));
  ANSWERS(BS_BAD_KEYS, bs_group_lock_row_path(group, txn, row_files[1], 1, NULL, 0, BS_S, NULL));
  ANSWERS(BS_BAD_PARENTS, bs_group_insert(group, txn, base, NULL, 0));
  ANSWERS(BS_BAD_PARENTS, bs_group_insert(group, txn, records[1][0], NULL, 0));
  ANSWERS(BS_ROWS_BY_NUMBER, bs_group_insert(group, txn, row_files[1], &key, 1));
  ANSWERS(BS_BAD_PARENTS, bs_group_delete(group, txn, areas[0]));
  ANSWERS(BS_NEED_EXCLUSIVE, bs_group_delete(group, txn, records[1][0]));
  ANSWERS(BS_BAD_PARENTS, bs_group_rekey(group, txn, base, indexes[1], 1));
  ANSWERS(BS_NO_SUCH_NODE, bs_group_rekey_row(group, txn, row_files[1], 9, indexes[1], 1));
  ANSWERS(BS_NOT_ROWS, bs_group_unlock_row(group, txn, base, 1));
  ANSWERS(BS_BAD_PARENTS, bs_group_escalate(group, txn, base));
  ANSWERS(BS_NOT_HELD, bs_group_escalate(group, txn, files[1]));
  ANSWERS(BS_NO_SUCH_NODE, bs_group_held(group, txn, none));
  ANSWERS(BS_NO_SUCH_NODE, bs_group_held(group, txn, beyond));
  ANSWERS(BS_NO_SUCH_TXN, lock_path(far, base, BS_S));
  commit(txn);
  ANSWERS(BS_NO_SUCH_TXN, lock_path(gone, records[1][0], BS_S));
  ANSWERS(BS_NO_SUCH_TXN, bs_group_commit(group, gone));
  ANSWERS(BS_NO_SUCH_TXN, bs_group_abort(group, gone));
  ANSWERS(BS_NO_SUCH_TXN, bs_group_held(group, gone, base));
  ANSWERS(BS_NO_SUCH_TXN, bs_group_insert(group, gone, files[1], NULL, 0));
  want_rest(group);
}

/* Of the calls in a part that change a schema: an inner node, a node of no part, or one of another kind. */
static void wrong_changes_are_refused(void) {
  bs_txn txn = begun(), gone = txn;
  bs_node none = { 77, 3 }, beyond = { (size_t)(PARTS + 1) << 32 | 1, 1 }, nine[9];
  bs_counts counts;
  size_t i;
  for (i = 0; i < 9; i++) nine[i] = base;
  ANSWERS(BS_BAD_PARENTS, bs_group_unlock(group, txn, base));
  ANSWERS(BS_BAD_PARENTS, bs_group_drop(group, txn, quarters[0]));
  ANSWERS(BS_BAD_PARENTS, bs_group_split(group, txn, base, 1));
  ANSWERS(BS_BAD_PARENTS, bs_group_merge(group, txn, base));
  ANSWERS(BS_BAD_PARENTS, bs_group_index_by(group, txn, &base, 1, base, NULL, 0));
  ANSWERS(BS_NO_SUCH_NODE, bs_group_unlock(group, txn, none));
  ANSWERS(BS_NO_SUCH_NODE, bs_group_drop(group, txn, beyond));
  ANSWERS(BS_NO_SUCH_NODE, bs_group_split(group, txn, beyond, 1));
  ANSWERS(BS_NO_SUCH_NODE, bs_group_merge(group, txn, none));
  ANSWERS(BS_NO_SUCH_NODE, bs_group_index_by(group, txn, &base, 1, beyond, NULL, 0));
  ANSWERS(BS_BAD_PARENTS, bs_group_split(group, txn, files[1], 1));
  ANSWERS(BS_BAD_PARENTS, bs_group_merge(group, txn, records[1][0]));
  ANSWERS(BS_BAD_PARENTS, bs_group_drop(group, txn, records[1][0]));
  ANSWERS(BS_BAD_NUMBER, bs_group_index_by(group, txn, nine, 9, files[1], NULL, 0));
  commit(txn);
  calls_of_parts_are_refused(group, gone, BS_NO_SUCH_TXN);
  WANT(bs_group_hold(group, 0) != NULL);
  calls_of_parts_are_refused(group, gone, BS_IN_USE);
  ANSWERS(BS_IN_USE, bs_group_counters(group, &counts));
  DONE(bs_group_let_go(group, 0));
  want_rest(group);
}

/* What the transaction must hold for them, and what a file and its parents must be. */
static void changes_need_their_locks(void) {
  bs_txn txn = begun();
  const uint64_t falling[2] = { 5, 4 };
  bs_node two[2];
  ANSWERS(BS_NOT_HELD, bs_group_unlock(group, txn, files[1]));
  ANSWERS(BS_NEED_EXCLUSIVE, bs_group_drop(group, txn, files[1]));
  ANSWERS(BS_NEED_EXCLUSIVE, bs_group_index_by(group, txn, &base, 1, row_files[1], NULL, 0));
  DONE(lock_path(txn, files[1], BS_X));
  DONE(lock_path(txn, row_files[1], BS_X));
  DONE(lock_path(txn, indexes[1], BS_IS));
  ANSWERS(BS_FILE_IN_USE, bs_group_drop(group, txn, files[1]));
  ANSWERS(BS_FILE_IN_USE, bs_group_drop(group, txn, row_files[1]));
  ANSWERS(BS_NEED_EXCLUSIVE, bs_group_drop(group, txn, indexes[1]));
  ANSWERS(BS_FILE_IN_USE, bs_group_index_by(group, txn, &base, 1, files[1], NULL, 0));
  two[0] = base;
  two[1] = files[2];
  ANSWERS(BS_NO_SUCH_NODE, bs_group_index_by(group, txn, two, 2, row_files[1], NULL, 0));
  two[1] = base;
  ANSWERS(BS_BAD_PARENTS, bs_group_index_by(group, txn, two, 2, row_files[1], NULL, 0));
  ANSWERS(BS_BAD_KEYS, bs_group_index_by(group, txn, &base, 1, row_files[1], falling, 2));
  commit(txn);
  want_rest(group);
}

static void who_holds_a_table_is_refused(void) {
  bs_txn txn = begun();
  bs_table_group *same = group;
  WANT(bs_group_hold(group, 2) != NULL);
  WANT(bs_group_hold(group, 2) == NULL && bs_group_hold(group, 3) == NULL);
  ANSWERS(BS_IN_USE, bs_group_begin(group));
  ANSWERS(BS_IN_USE, lock_path(txn, records[1][0], BS_S));
  ANSWERS(BS_IN_USE, bs_group_commit(group, txn));
  ANSWERS(BS_IN_USE, bs_group_add_inner(group, NULL, 0));
  ANSWERS(BS_IN_USE, bs_group_end(group));
  ANSWERS(BS_IN_USE, bs_group_keep(group, 1));
  ANSWERS(BS_IN_USE, bs_group_free(&same));
  ANSWERS(BS_IN_USE, bs_group_name_in(group, base, 1));
  DONE(bs_group_name_in(group, base, 2));
  ANSWERS(BS_NOT_HELD, bs_group_let_go(group, 1));
  ANSWERS(BS_BAD_NUMBER, bs_group_let_go(group, PARTS + 1));
  DONE(bs_group_let_go(group, 2));
  ANSWERS(BS_NOT_HELD, bs_group_let_go(group, 2));
  commit(txn);
}

static void names_are_translated(void) {
  bs_node none = { 77, 3 }, there;
  uint32_t table;
  for (table = 0; table <= PARTS; table++) {
    there = DONE(bs_group_name_in(group, areas[1], table)).node;
    WANT(bs_kind(bs_group_hold(group, table), there).count == BS_INNER);
    DONE(bs_group_let_go(group, table));
    WANT(group_is_node(DONE(bs_group_name_of(group, there, table)).node, areas[1]));
  }
  there = DONE(bs_group_name_in(group, files[3], 3)).node;
  WANT(bs_kind(bs_group_hold(group, 3), there).count == BS_FILE);
  DONE(bs_group_let_go(group, 3));
  WANT(group_is_node(DONE(bs_group_name_of(group, there, 3)).node, files[3]));
  ANSWERS(BS_NO_SUCH_NODE, bs_group_name_in(group, files[3], 2));
  ANSWERS(BS_NO_SUCH_NODE, bs_group_name_in(group, files[3], 0));
  ANSWERS(BS_NO_SUCH_NODE, bs_group_name_in(group, none, 1));
  ANSWERS(BS_NO_SUCH_NODE, bs_group_name_of(group, none, 0));
  ANSWERS(BS_BAD_NUMBER, bs_group_name_in(group, base, PARTS + 1));
  ANSWERS(BS_BAD_NUMBER, bs_group_name_of(group, base, PARTS + 1));
}

static void one_part_needs_no_other(void) {
  bs_txn txn = begun();
  uint32_t table;
  WANT(DONE(lock_path(txn, records[2][0], BS_X)).mode == BS_X);
  WANT(DONE(bs_group_held(group, txn, records[2][0])).mode == BS_X);
  WANT(DONE(bs_group_held(group, txn, records[3][0])).mode == BS_NL);
  WANT(DONE(bs_group_held(group, txn, base)).mode == BS_IX);
  for (table = 0; table <= PARTS; table++) WANT(held_in(group, table, txn, base) == (table == 2 ? BS_IX : BS_NL));
  WANT(!group_slot_at(group, txn.slot)->is_in_main && group_count_spread(group) == 0);
  commit(txn);
  want_rest(group);
}

static void begins_have_ages(void) {
  bs_txn old = begun(), txns[BS_SLOTS];
  bs_reply again;
  uint32_t i, j;
  commit(old);
  for (i = 0; i < 100; i++) {
    bs_txn txn = begun();
    WANT(txn.slot == old.slot && txn.age > old.age);
    old = txn;
    commit(txn);
  }
  again = DONE(bs_group_begin_again(group, 3));
  WANT(group_slot_at(group, again.txn.slot)->since == 3 && again.txn.age > old.age);
  DONE(lock_path(again.txn, records[1][0], BS_S));
  DONE(bs_group_abort(group, again.txn));
  again = DONE(bs_group_begin_again(group, UINT64_MAX));
  WANT(group_slot_at(group, again.txn.slot)->since == again.txn.age);
  commit(again.txn);
  for (i = 0; i < group->most; i++) txns[i] = begun();
  ANSWERS(BS_TOO_MANY_TXNS, bs_group_begin(group));
  for (i = 0; i < group->most; i++) {
    for (j = 0; j < i; j++) WANT(txns[i].slot != txns[j].slot && txns[i].age != txns[j].age);
    DONE(lock_path(txns[i], records[1 + i % PARTS][0], BS_S));
  }
  commit(txns[5]);
  txns[5] = begun();
  for (i = 0; i < group->most; i++) commit(txns[i]);
  want_rest(group);
}

static void records_come_and_go(void) {
  const uint64_t bounds[2] = { 10, 20 };
  bs_node two[2], file, index, record, interval, other;
  uint64_t key = 15;
  bs_txn txn = begun();
  two[0] = areas[0];
  two[1] = areas[1];
  file = DONE(bs_group_add_file(group, 2, two, 2)).node;
  index = DONE(bs_group_add_index(group, &areas[2], 1, file, bounds, 2)).node;
  record = DONE(bs_group_insert(group, txn, file, &key, 1)).node;
  WANT(DONE(bs_group_held(group, txn, record)).mode == BS_X);
  WANT(held_in(group, 2, txn, areas[0]) == BS_IX && held_in(group, 2, txn, areas[1]) == BS_IX);
  WANT(held_in(group, 2, txn, areas[2]) == BS_IX && held_in(group, 2, txn, base) == BS_IX);
  interval = bs_interval_of(bs_group_hold(group, 2), DONE(bs_group_name_in(group, index, 2)).node, 25).node;
  interval = DONE(bs_group_name_of(group, interval, 2)).node;
  DONE(bs_group_let_go(group, 2));
  WANT(group_is_node(ANSWERS(BS_NEED_PARENTS, bs_group_rekey(group, txn, record, index, 25)).node, interval));
  DONE(lock_path(txn, interval, BS_IX));
  DONE(bs_group_rekey(group, txn, record, index, 25));
  ANSWERS(BS_NO_SUCH_NODE, bs_group_rekey(group, txn, record, indexes[3], 25));
  DONE(bs_group_delete(group, txn, record));
  ANSWERS(BS_NO_SUCH_NODE, bs_group_delete(group, txn, record));
  commit(txn);
  other = DONE(bs_group_adopt(group, file, &key, 1)).node;
  WANT(bs_group_table(other) == 2);
  txn = begun();
  DONE(lock_path(txn, other, BS_S));
  ANSWERS(BS_RECORD_IN_USE, bs_group_forget(group, other));
  WANT(DONE(bs_group_escalate(group, txn, file)).mode == BS_S);
  WANT(DONE(bs_group_held(group, txn, other)).mode == BS_NL);
  commit(txn);
  DONE(bs_group_forget(group, other));
  want_rest(group);
}

static void rows_have_numbers(void) {
  bs_txn txn = begun(), reader = begun();
  uint64_t keys[2] = { 50, 150 };
  bs_reply reply;
  reply = DONE(bs_group_lock_row_path(group, txn, row_files[3], 7, keys, 1, BS_X, NULL));
  WANT(bs_group_table(reply.node) == 3);
  WANT(held_in(group, 3, txn, area_of(3)) == BS_IX && held_in(group, 3, txn, areas[3 % AREAS]) == BS_IX);
  ANSWERS(BS_NEED_PARENTS, bs_group_rekey_row(group, txn, row_files[3], 7, indexes[3], 150));
  DONE(bs_group_lock_row_path(group, txn, row_files[3], 8, keys + 1, 1, BS_X, NULL));
  DONE(bs_group_rekey_row(group, txn, row_files[3], 7, indexes[3], 150));
  DONE(bs_group_unlock_row(group, txn, row_files[3], 7));
  ANSWERS(BS_NO_SUCH_NODE, bs_group_unlock_row(group, txn, row_files[3], 7));
  DONE(bs_group_lock_row_path(group, reader, row_files[3], 7, keys, 1, BS_S, NULL));
  WANT(held_in(group, 3, reader, area_of(3)) == BS_IS && held_in(group, 3, reader, areas[3 % AREAS]) == BS_NL);
  commit(txn);
  commit(reader);
  want_rest(group);
}

/* The name in the group of an interval of an index, by its place. */
static bs_node interval_of(bs_node index, size_t place) {
  uint32_t part = bs_group_table(index);
  bs_node there = DONE(bs_group_name_in(group, index, part)).node;
  bs_reply interval = bs_interval(bs_group_hold(group, part), there, place);
  DONE(bs_group_let_go(group, part));
  return DONE(bs_group_name_of(group, DONE(interval).node, part)).node;
}

static void nodes_are_unlocked(void) {
  bs_txn txn = begun(), other = begun();
  DONE(lock_path(txn, records[2][0], BS_X));
  ANSWERS(BS_HELD_CHILD, bs_group_unlock(group, txn, files[2]));
  ANSWERS(BS_TIMED_OUT, lock_for(other, records[2][0], BS_S, 1));
  DONE(bs_group_unlock(group, txn, records[2][0]));
  ANSWERS(BS_NOT_HELD, bs_group_unlock(group, txn, records[2][0]));
  DONE(lock_path(other, records[2][0], BS_X));
  DONE(bs_group_unlock(group, txn, files[2]));
  WANT(held_in(group, 2, txn, area_of(2)) == BS_IX && DONE(bs_group_held(group, txn, files[2])).mode == BS_NL);
  commit(txn);
  commit(other);
  want_rest(group);
}

/* Intervals that are split and merged: the names are the group's. */
static void intervals_are_split_and_merged(void) {
  bs_txn txn = begun(), reader = begun();
  bs_node first = interval_of(indexes[2], 0), made;
  ANSWERS(BS_NEED_EXCLUSIVE, bs_group_split(group, txn, first, 40));
  DONE(lock_path(txn, first, BS_X));
  ANSWERS(BS_BAD_KEYS, bs_group_split(group, txn, first, BOUND));
  made = DONE(bs_group_split(group, txn, first, 40)).node;
  WANT(bs_group_table(made) == 2 && group_is_node(made, interval_of(indexes[2], 1)));
  WANT(DONE(bs_group_held(group, txn, made)).mode == BS_X);
  ANSWERS(BS_TIMED_OUT, lock_for(reader, made, BS_S, 1));
  ANSWERS(BS_NEED_EXCLUSIVE, bs_group_merge(group, txn, made));
  DONE(bs_group_merge(group, txn, first));
  ANSWERS(BS_NO_SUCH_NODE, bs_group_held(group, txn, made));
  ANSWERS(BS_BAD_PARENTS, bs_group_merge(group, txn, interval_of(indexes[2], 1)));
  WANT(held_in(group, 2, txn, areas[2]) == BS_IX && !group_slot_at(group, txn.slot)->is_in_main);
  commit(txn);
  commit(reader);
  want_rest(group);
}

/* A file and an index are dropped, and another index is made by a transaction. Only in the part, as long as nobody has
 * more than an intention above. */
static void schemas_change_in_a_part(void) {
  bs_txn txn = begun(), other = begun(), strong = begun();
  bs_node index, file = DONE(bs_group_add_file(group, 3, &areas[0], 1)).node;
  const uint64_t keys[] = { 10, 20 };
  DONE(lock_path(txn, row_files[3], BS_X));
  DONE(lock_path(txn, indexes[3], BS_X));
  DONE(bs_group_drop(group, txn, indexes[3]));
  ANSWERS(BS_NO_SUCH_NODE, bs_group_held(group, txn, indexes[3]));
  index = DONE(bs_group_index_by(group, txn, areas, AREAS, row_files[3], keys, 2)).node;
  WANT(bs_group_table(index) == 3 && DONE(bs_group_held(group, txn, index)).mode == BS_X);
  WANT(held_in(group, 3, txn, areas[1]) == BS_IX && !group_slot_at(group, txn.slot)->is_in_main);
  ANSWERS(BS_TIMED_OUT, lock_for(other, index, BS_IS, 1));
  DONE(lock_path(txn, file, BS_X));
  DONE(bs_group_drop(group, txn, file));
  ANSWERS(BS_NO_SUCH_NODE, lock_path(other, file, BS_S));
  want_rules(group);
  commit(txn);
  DONE(bs_group_lock_row_path(group, other, row_files[3], 1, keys, 1, BS_X, NULL));
  WANT(held_in(group, 3, other, areas[1]) == BS_IX);
  ANSWERS(BS_TIMED_OUT, lock_for(strong, areas[1], BS_S, 1));
  commit(other);
  commit(strong);
  want_rest(group);
}

/* An index is made beside the records of a file; each name but theirs, in order of birth, is refused. */
static void an_index_is_made_beside_records(void) {
  const uint64_t bound = BOUND, keys[RECORDS] = { 20, BOUND, 3, 200 };
  bs_txn txn = begun(), reader = begun();
  bs_node file = files[2], area = area_of(1), all[RECORDS], index;
  size_t i;
  for (i = 0; i < RECORDS; i++) all[i] = records[2][i];
  ANSWERS(BS_NEED_EXCLUSIVE, bs_group_index_records(group, txn, &area, 1, file, &bound, 1, all, keys, RECORDS));
  DONE(lock_path(txn, file, BS_X));
  DONE(lock_path(txn, all[1], BS_X));
  ANSWERS(BS_FILE_IN_USE, bs_group_index_records(group, txn, &area, 1, file, &bound, 1, all, keys, RECORDS));
  DONE(bs_group_unlock(group, txn, all[1]));
  ANSWERS(BS_FILE_IN_USE, bs_group_index_records(group, txn, &area, 1, file, &bound, 1, all, keys, 0));
  ANSWERS(BS_BAD_KEYS, bs_group_index_records(group, txn, &area, 1, file, &bound, 1, all, keys, RECORDS - 1));
  all[3] = records[1][3];
  ANSWERS(BS_BAD_KEYS, bs_group_index_records(group, txn, &area, 1, file, &bound, 1, all, keys, RECORDS));
  all[3] = base;
  ANSWERS(BS_BAD_KEYS, bs_group_index_records(group, txn, &area, 1, file, &bound, 1, all, keys, RECORDS));
  all[3] = records[2][2], all[2] = records[2][3];
  ANSWERS(BS_BAD_KEYS, bs_group_index_records(group, txn, &area, 1, file, &bound, 1, all, keys, RECORDS));
  ANSWERS(BS_NO_MEMORY, bs_group_index_records(group, txn, &area, 1, file, &bound, 1, all, keys, SIZE_MAX / 8));
  index = DONE(bs_group_index_records(group, txn, &area, 1, file, &bound, 1, records[2], keys, RECORDS)).node;
  WANT(bs_group_table(index) == 2 && DONE(bs_group_held(group, txn, index)).mode == BS_X);
  WANT(held_in(group, 2, txn, area) == BS_IX && !group_slot_at(group, txn.slot)->is_in_main);
  commit(txn);
  DONE(lock_path(reader, interval_of(index, 1), BS_S));
  txn = begun();
  DONE(lock_path(txn, records[2][0], BS_X));
  ANSWERS(BS_TIMED_OUT, lock_for(txn, records[2][1], BS_X, 1));
  DONE(lock_path(txn, records[2][2], BS_X));
  ANSWERS(BS_TIMED_OUT, lock_for(txn, records[2][3], BS_X, 1));
  commit(txn);
  commit(reader);
  want_rest(group);
}

/* More than an intention on an inner node is held in the main table; what its holder has below needs it there. */
/* What a move of a file or an index may be refused with, and what it needs. */
static void wrong_moves_are_refused(void) {
  bs_txn txn = begun();
  bs_node nine[9];
  size_t i;
  for (i = 0; i < 9; i++) nine[i] = areas[i % AREAS];
  ANSWERS(BS_BAD_NUMBER, bs_group_move(group, txn, files[1], nine, 9));
  ANSWERS(BS_NO_SUCH_TXN, bs_group_move(group, (bs_txn){ 0, 77 }, files[1], &areas[1], 1));
  ANSWERS(BS_NO_SUCH_NODE, bs_group_move(group, txn, (bs_node){ 77, 3 }, &areas[1], 1));
  ANSWERS(BS_BAD_PARENTS, bs_group_move(group, txn, areas[0], &base, 1));
  ANSWERS(BS_BAD_PARENTS, bs_group_move(group, txn, records[1][0], &areas[1], 1));
  ANSWERS(BS_BAD_PARENTS, bs_group_move(group, txn, files[1], &row_files[1], 1));
  ANSWERS(BS_NO_SUCH_NODE, bs_group_move(group, txn, files[1], &files[2], 1));
  ANSWERS(BS_NEED_EXCLUSIVE, bs_group_move(group, txn, files[1], &areas[1], 1));
  DONE(lock_path(txn, areas[0], BS_X));
  ANSWERS(BS_NEED_EXCLUSIVE, bs_group_move(group, txn, files[1], &areas[1], 1));
  DONE(lock_path(txn, areas[1], BS_SIX));
  ANSWERS(BS_NEED_EXCLUSIVE, bs_group_move(group, txn, files[1], &areas[1], 1));
  ANSWERS(BS_NEED_EXCLUSIVE, bs_group_move(group, txn, files[2], &areas[0], 1));
  WANT(held_in(group, 1, txn, areas[1]) == BS_NL && DONE(bs_group_held(group, txn, files[1])).mode == BS_NL);
  commit(txn);
  want_rest(group);
}

/* A file moves below another area: whoever reads that area excludes the mover, and then waits for it. After it, who
 * writes below the file needs that area, and the old one no more. */
static void files_move_in_their_parts(void) {
  bs_txn txn = begun(), reader = begun();
  DONE(lock_path(txn, files[1], BS_X));
  DONE(lock_path(reader, areas[1], BS_S));
  WANT(group_is_node(ANSWERS(BS_WOULD_BLOCK, bs_group_move(group, txn, files[1], &areas[1], 1)).node, areas[1]));
  WANT(held_in(group, 1, txn, areas[1]) == BS_NL);
  commit(reader);
  DONE(bs_group_move(group, txn, files[1], &areas[1], 1));
  WANT(held_in(group, 1, txn, areas[1]) == BS_IX && held_in(group, 1, txn, areas[0]) == BS_IX);
  want_rules(group);
  reader = begun();
  ANSWERS(BS_WOULD_BLOCK, bs_group_try_path(group, reader, areas[1], BS_S, 0));
  commit(txn);
  DONE(lock_path(reader, areas[1], BS_S));
  txn = begun();
  WANT(group_is_node(ANSWERS(BS_WOULD_BLOCK, bs_group_try_path(group, txn, records[1][0], BS_X, 0)).node, areas[1]));
  commit(reader);
  reader = begun();
  DONE(lock_path(reader, areas[0], BS_X));
  DONE(bs_group_try_path(group, txn, records[1][0], BS_X, 0));
  WANT(held_in(group, 1, txn, areas[1]) == BS_IX && held_in(group, 1, txn, areas[0]) == BS_NL);
  commit(reader);
  commit(txn);
  want_rest(group);
}

/* Who has all parents of a file, old and new, in BS_X may move it, as in a table, and then has the file too. So may who
 * has the file and reads a new parent. An index is moved likewise. */
static void parents_stand_for_their_file(void) {
  bs_node both[2] = { areas[0], areas[1] };
  bs_txn txn = begun();
  DONE(lock_path(txn, areas[0], BS_X));
  DONE(lock_path(txn, areas[1], BS_X));
  DONE(bs_group_move(group, txn, files[1], both, 2));
  WANT(DONE(bs_group_held(group, txn, files[1])).mode == BS_X && held_in(group, 1, txn, areas[1]) == BS_IX);
  want_rules(group);
  DONE(bs_group_move(group, txn, files[1], &areas[1], 1));
  commit(txn);
  txn = begun();
  DONE(lock_path(txn, areas[2], BS_SIX));
  DONE(lock_path(txn, indexes[1], BS_X));
  DONE(bs_group_move(group, txn, indexes[1], &areas[2], 1));
  WANT(held_in(group, 1, txn, areas[2]) == BS_IX && held_in(group, 0, txn, areas[2]) == BS_SIX);
  index_areas[1] = 2;
  commit(txn);
  want_rest(group);
}

static void strong_locks_are_in_main(void) {
  bs_txn txn = begun();
  uint32_t part;
  DONE(lock_path(txn, records[1][0], BS_X));
  WANT(DONE(lock_path(txn, areas[1], BS_S)).mode == BS_S);
  WANT(held_in(group, 0, txn, areas[1]) == BS_S && held_in(group, 0, txn, base) == BS_IX);
  WANT(held_in(group, 0, txn, area_of(1)) == BS_IX);
  for (part = 1; part <= PARTS; part++) WANT(marks_in(group, part) == 1);
  want_rules(group);
  DONE(lock_path(txn, records[2][0], BS_X));
  WANT(held_in(group, 0, txn, areas[1]) == BS_SIX && held_in(group, 2, txn, areas[1]) == BS_IX);
  WANT(DONE(bs_group_held(group, txn, areas[1])).mode == BS_SIX);
  WANT(DONE(lock_path(txn, base, BS_IS)).mode == BS_IX);
  WANT(DONE(lock_path(txn, base, BS_X)).mode == BS_X);
  for (part = 1; part <= PARTS; part++) WANT(marks_in(group, part) == 2);
  DONE(lock_path(txn, records[4][0], BS_S));
  want_rules(group);
  commit(txn);
  want_rest(group);
}

/* An insert never sleeps; what it cannot have is named. */
static void inserts_are_tried(void) {
  bs_txn txn = begun(), other = begun();
  DONE(lock_path(txn, base, BS_S));
  WANT(group_is_node(ANSWERS(BS_WOULD_BLOCK, bs_group_insert(group, other, files[1], NULL, 0)).node, base));
  ANSWERS(BS_TIMED_OUT, lock_for(other, records[1][0], BS_X, 1));
  DONE(lock_path(other, records[1][0], BS_S));
  WANT(held_in(group, 0, other, base) == BS_IS && held_in(group, 1, other, base) == BS_IS);
  WANT(held_in(group, 0, other, area_of(1)) == BS_NL && held_in(group, 1, other, area_of(1)) == BS_IS);
  commit(txn);
  commit(other);
  want_rest(group);
}

/* A try never sleeps either, and keeps what it got in the table of its node only if it is to. */
static void paths_are_tried(void) {
  bs_txn txn = begun(), other = begun();
  bs_node record = records[1][0];
  WANT(DONE(bs_group_try_path(group, txn, record, BS_X, BS_KEEP_NOTHING)).mode == BS_X);
  WANT(group_is_node(ANSWERS(BS_WOULD_BLOCK, bs_group_try_path(group, other, record, BS_S, BS_KEEP_NOTHING)).node, record));
  WANT(held_in(group, 1, other, base) == BS_NL && held_in(group, 1, other, files[1]) == BS_NL);
  ANSWERS(BS_WOULD_BLOCK, bs_group_try_path(group, other, record, BS_S, BS_KEEP_WAY));
  WANT(held_in(group, 1, other, base) == BS_IS && held_in(group, 1, other, files[1]) == BS_IS);
  WANT(group_is_node(ANSWERS(BS_WOULD_BLOCK, bs_group_try_path(group, other, base, BS_S, BS_KEEP_NOTHING)).node, base));
  WANT(held_in(group, 0, other, base) == BS_IS && marks_in(group, 1) == 0);
  DONE(bs_group_try_path(group, other, areas[1], BS_S, BS_KEEP_NOTHING));
  WANT(held_in(group, 0, other, areas[1]) == BS_S && marks_in(group, 1) == 1);
  WANT(group_is_node(ANSWERS(BS_WOULD_BLOCK, bs_group_try_path(group, txn, files[2], BS_IX, BS_KEEP_WAY)).node, areas[1]));
  ANSWERS(BS_BAD_NUMBER, bs_group_try_path(group, txn, record, BS_S, BS_KEEP_WAY + 1));
  want_rules(group);
  commit(txn);
  commit(other);
  want_rest(group);
}

/* A lock for an instant says that it could be had, and leaves what is above its node. */
static void instants_are_released(void) {
  bs_txn txn = begun(), other = begun();
  bs_node record = records[1][0];
  DONE(lock_path(txn, record, BS_S));
  DONE(lock_path(other, record, BS_S | BS_INSTANT));
  WANT(held_in(group, 1, other, record) == BS_NL && held_in(group, 1, other, files[1]) == BS_IS);
  ANSWERS(BS_TIMED_OUT, bs_group_lock_path(group, other, record, BS_X | BS_INSTANT, &at_once));
  WANT(DONE(lock_path(txn, record, BS_X | BS_INSTANT)).mode == BS_X && held_in(group, 1, txn, record) == BS_X);
  DONE(lock_path(txn, areas[1], BS_S));
  DONE(lock_path(other, records[2][0], BS_S | BS_INSTANT));
  WANT(held_in(group, 0, other, areas[1]) == BS_IS && held_in(group, 2, other, records[2][0]) == BS_NL);
  want_rules(group);
  commit(txn);
  commit(other);
  want_rest(group);
}

static void row_paths_are_tried(void) {
  bs_txn txn = begun(), other = begun();
  const uint64_t key = 50, other_key = 150;
  bs_node row = DONE(bs_group_try_row_path(group, txn, row_files[3], 7, &key, 1, BS_X, BS_KEEP_NOTHING)).node;
  bs_reply reply = ANSWERS(BS_WOULD_BLOCK, bs_group_try_row_path(group, other, row_files[3], 7, &key, 1, BS_S, BS_KEEP_NOTHING));
  WANT(bs_group_table(row) == 3 && group_is_node(reply.node, row));
  WANT(held_in(group, 3, other, row_files[3]) == BS_NL && held_in(group, 3, other, base) == BS_NL);
  ANSWERS(BS_WOULD_BLOCK, bs_group_try_row_path(group, other, row_files[3], 7, &key, 1, BS_S, BS_KEEP_WAY));
  WANT(held_in(group, 3, other, row_files[3]) == BS_IS);
  ANSWERS(BS_OTHER_KEYS, bs_group_try_row_path(group, txn, row_files[3], 7, &other_key, 1, BS_X, BS_KEEP_WAY));
  ANSWERS(BS_NOT_ROWS, bs_group_try_row_path(group, txn, base, 7, &key, 1, BS_X, BS_KEEP_WAY));
  ANSWERS(BS_BAD_NUMBER, bs_group_try_row_path(group, txn, row_files[3], 7, &key, 1, BS_X, BS_KEEP_WAY + 1));
  commit(txn);
  commit(other);
  want_rest(group);
}

/* Nodes that are made while a node above them is locked. */
static void nodes_are_made_at_any_time(void) {
  bs_txn txn = begun(), other = begun();
  bs_node area, file, many[40], record;
  size_t i;
  DONE(lock_path(txn, base, BS_X));
  area = DONE(bs_group_add_inner(group, &base, 1)).node;
  file = DONE(bs_group_add_file(group, 0, &area, 1)).node;
  ANSWERS(BS_TIMED_OUT, lock_for(other, file, BS_IS, 1));
  DONE(lock_path(txn, file, BS_X));
  commit(txn);
  DONE(lock_path(other, file, BS_X));
  record = DONE(bs_group_insert(group, other, file, NULL, 0)).node;
  WANT(DONE(bs_group_held(group, other, record)).mode == BS_X);
  commit(other);
  for (i = 0; i < 40; i++) many[i] = DONE(bs_group_add_inner(group, i == 0 ? &area : &many[i - 1], 1)).node;
  file = DONE(bs_group_add_file(group, 2, &many[39], 1)).node;
  txn = begun();
  DONE(lock_path(txn, many[20], BS_SIX));
  want_rules(group);
  other = begun();
  ANSWERS(BS_TIMED_OUT, lock_for(other, file, BS_IX, 1));
  DONE(lock_path(other, file, BS_IS));
  want_rules(group);
  commit(other);
  commit(txn);
  want_rest(group);
}

/* A file below more marked nodes than any small list has places. */
static void many_marks_are_reached(void) {
  bs_node nodes[24], parents[8], file;
  bs_txn owners[24], txn;
  size_t i;
  for (i = 0; i < 24; i++) nodes[i] = DONE(bs_group_add_inner(group, i < 8 ? &base : &nodes[i - 8], 1)).node;
  memcpy(parents, nodes + 16, sizeof parents);
  file = DONE(bs_group_add_file(group, 3, parents, 8)).node;
  for (i = 0; i < 24; i++) DONE(lock_path(owners[i] = begun(), nodes[i], BS_S));
  WANT(marks_in(group, 3) == 24);
  txn = begun();
  DONE(lock_path(txn, file, BS_S));
  want_rules(group);
  ANSWERS(BS_TIMED_OUT, lock_for(txn, file, BS_X, 1));
  for (i = 0; i < 24; i++) commit(owners[i]);
  WANT(marks_in(group, 3) == 0);
  DONE(lock_path(txn, file, BS_X));
  owners[0] = begun();
  ANSWERS(BS_TIMED_OUT, lock_for(owners[0], nodes[23], BS_S, 1));
  WANT(marks_in(group, 3) == 0);
  commit(owners[0]);
  commit(txn);
  want_rest(group);
}

/* ------------------------------------------------------------------------------------------------
 * One thread makes the same calls of a group and of a table with the same nodes, as several transactions. No call sleeps:
 * its time is over. All answers are the same, and all that is held.
 */

enum { TWINS = 6, TWIN_NODES = 1 + 2 * AREAS + PARTS * (1 + RECORDS), TWIN_STEPS = 3000 };

static bs_table *twin_table;
static bs_node twin_nodes[2][TWIN_NODES]; /* of the group and of the table; files are the last but their records */
static size_t twin_count;
static bs_txn twin_txns[2][TWINS];

static void add_twins(bs_node of_group, bs_node of_table) {
  twin_nodes[0][twin_count] = of_group;
  twin_nodes[1][twin_count++] = of_table;
}

static bs_node twin_of(bs_node node) {
  size_t i;
  for (i = 0; i < twin_count && !group_is_node(twin_nodes[0][i], node); i++) continue;
  WANT(i < twin_count);
  return twin_nodes[1][i];
}

static void make_twin_table(void) {
  bs_txn txn;
  uint32_t i, record;
  DONE(bs_table_make(&twin_table, NULL));
  twin_count = 0;
  add_twins(base, DONE(bs_table_add_inner(twin_table, NULL, 0)).node);
  for (i = 0; i < AREAS; i++) add_twins(areas[i], DONE(bs_table_add_inner(twin_table, &twin_nodes[1][0], 1)).node);
  for (i = 0; i < AREAS; i++) add_twins(quarters[i], DONE(bs_table_add_inner(twin_table, &twin_nodes[1][1 + i], 1)).node);
  txn = DONE(bs_table_begin(twin_table)).txn;
  for (i = 1; i <= PARTS; i++) {
    bs_node area = twin_of(area_of(i)), file = DONE(bs_table_add_file(twin_table, &area, 1)).node;
    add_twins(files[i], file);
    DONE(bs_table_lock_path(twin_table, txn, file, BS_IX, NULL));
    for (record = 0; record < RECORDS; record++) {
      add_twins(records[i][record], DONE(bs_table_insert(twin_table, txn, file, NULL, 0)).node);
    }
  }
  DONE(bs_table_commit(twin_table, txn, NULL));
  WANT(twin_count == TWIN_NODES);
}

static void begin_twins(size_t which) {
  twin_txns[0][which] = begun();
  twin_txns[1][which] = DONE(bs_table_begin(twin_table)).txn;
}

/* Inserts a record by both, and deletes it. A refused insert keeps in the group what it has got in the main table: so the
 * transactions end. */
static bs_reply insert_twins(size_t which, size_t node, bs_reply *twin) {
  bs_txn one = twin_txns[0][which], other = twin_txns[1][which];
  bs_reply answer = bs_group_insert(group, one, twin_nodes[0][node], NULL, 0);
  *twin = bs_table_insert_path(twin_table, other, twin_nodes[1][node], NULL, 0, BS_KEEP_NOTHING);
  if (answer.status == BS_DONE) DONE(bs_group_delete(group, one, answer.node));
  if (twin->status == BS_DONE) DONE(bs_table_delete(twin_table, other, twin->node, NULL));
  if (answer.status != BS_WOULD_BLOCK || twin->status != BS_WOULD_BLOCK) return answer;
  WANT(same_node(twin_of(answer.node), twin->node));
  commit(one);
  DONE(bs_table_commit(twin_table, other, NULL));
  begin_twins(which);
  return answer;
}

/* Makes one random call of both. */
static void step_twins(pcg *dice) {
  size_t which = pcg_below(dice, TWINS), node = pcg_below(dice, TWIN_NODES), what = pcg_below(dice, 100);
  bs_mode mode = 1 + (bs_mode)pcg_below(dice, 5);
  bs_txn one = twin_txns[0][which], other = twin_txns[1][which];
  bs_node in_group = twin_nodes[0][node], in_table = twin_nodes[1][node];
  bs_reply answer, twin;
  if (what < 12) {
    answer = what < 6 ? bs_group_commit(group, one) : bs_group_abort(group, one);
    twin = what < 6 ? bs_table_commit(twin_table, other, NULL) : bs_table_abort(twin_table, other, NULL);
    begin_twins(which);
  } else if (what < 17) {
    answer = insert_twins(which, node, &twin);
  } else if (what < 22 && node > 2 * AREAS) {
    answer = bs_group_escalate(group, one, in_group);
    twin = bs_table_escalate(twin_table, other, in_table, NULL);
    WANT(answer.released == twin.released && answer.kept == twin.kept);
  } else if (what < 27 && node > 2 * AREAS) {
    answer = bs_group_unlock(group, one, in_group);
    twin = bs_table_unlock(twin_table, other, in_table, NULL);
  } else {
    answer = bs_group_lock_path(group, one, in_group, mode, &at_once);
    twin = bs_table_lock_path(twin_table, other, in_table, mode, &at_once);
  }
  if (answer.status != twin.status) fprintf(stderr, "%s, and %s\n", bs_text(answer.status), bs_text(twin.status));
  WANT(answer.status == twin.status && answer.mode == twin.mode);
}

static void want_twins_hold_the_same(void) {
  size_t which, node;
  for (which = 0; which < TWINS; which++) {
    for (node = 0; node < TWIN_NODES; node++) {
      bs_mode mode = DONE(bs_group_held(group, twin_txns[0][which], twin_nodes[0][node])).mode;
      bs_reply held = bs_held(bs_table_hold(twin_table), twin_txns[1][which], twin_nodes[1][node]);
      DONE(bs_table_let_go(twin_table));
      WANT(held.status == BS_DONE && held.mode == mode);
    }
  }
}

static void step_twins_often(uint64_t seed, size_t steps) {
  pcg dice = pcg_new(seed, 7);
  size_t step, which;
  make_twin_table();
  for (which = 0; which < TWINS; which++) begin_twins(which);
  for (step = 0; step < steps; step++) {
    step_twins(&dice);
    if (step % 20 != 0) continue;
    want_rules(group);
    want_twins_hold_the_same();
  }
  for (which = 0; which < TWINS; which++) commit(twin_txns[0][which]);
  DONE(bs_table_end(twin_table));
  DONE(bs_table_free(&twin_table));
  want_rest(group);
}

static void answers_are_those_of_a_table(void) {
  step_twins_often(1, TWIN_STEPS);
}

/* ------------------------------------------------------------------------------------------------
 * Memory that is refused.
 */

static void refused_memory_makes_no_group(void) {
  long before = blocks_out(), next;
  bs_table_group *made = NULL;
  bs_reply reply;
  for (next = 1;; next++) {
    refused_allocation = next;
    reply = bs_group_make(&made, NULL, 2);
    refused_allocation = 0;
    if (reply.status == BS_DONE) break;
    ANSWERS(BS_NO_MEMORY, reply);
    WANT(made == NULL && blocks_out() == before);
  }
  WANT(next > 3);
  DONE(bs_group_end(made));
  DONE(bs_group_free(&made));
  WANT(blocks_out() == before);
}

/* Whatever is refused, the rules hold, and the call can be made again. */
static void refused_memory_breaks_no_rule(void) {
  bs_txn readers[PARTS + 1], strong;
  bs_node parent = base;
  bs_reply reply;
  long next;
  uint32_t part, made;
  for (made = 0; made < 20; made++) {
    for (next = 1, reply.status = BS_NO_MEMORY; reply.status == BS_NO_MEMORY; next++) {
      refused_allocation = next;
      reply = bs_group_add_inner(group, &parent, 1);
      refused_allocation = 0;
      want_rules(group);
    }
    parent = DONE(reply).node;
  }
  for (part = 1; part <= PARTS; part++) DONE(lock_path(readers[part] = begun(), records[part][0], BS_S));
  strong = begun();
  for (next = 1, reply.status = BS_NO_MEMORY; reply.status == BS_NO_MEMORY; next++) {
    refused_allocation = next;
    reply = lock_path(strong, base, BS_S);
    refused_allocation = 0;
    want_rules(group);
    if (reply.status != BS_DONE) WANT(marks_in(group, 1) == 0);
  }
  DONE(reply);
  for (next = 1, reply.status = BS_NO_MEMORY; reply.status == BS_NO_MEMORY; next++) {
    refused_allocation = next;
    reply = lock_path(readers[1], records[2][0], BS_S);
    refused_allocation = 0;
    want_rules(group);
  }
  DONE(reply);
  for (part = 1; part <= PARTS; part++) commit(readers[part]);
  commit(strong);
  want_rest(group);
}

/* The same of an index beside records, whose names need memory too. */
static void refused_memory_makes_no_index_beside_records(void) {
  const uint64_t keys[RECORDS] = { 20, BOUND, 3, 200 };
  bs_txn txn = begun();
  bs_reply reply;
  long next;
  DONE(lock_path(txn, files[1], BS_X));
  DONE(lock_path(txn, areas[2], BS_SIX));
  for (next = 1, reply.status = BS_NO_MEMORY; reply.status == BS_NO_MEMORY; next++) {
    refused_allocation = next;
    reply = bs_group_index_records(group, txn, &areas[2], 1, files[1], keys, 1, records[1], keys, RECORDS);
    refused_allocation = 0;
    want_rules(group);
  }
  WANT(next > 3 && DONE(bs_group_held(group, txn, DONE(reply).node)).mode == BS_X);
  commit(txn);
  want_rest(group);
}

/* The same of an index, below a node that its transaction has in more than an intention, and of splits and savepoints. */
static void refused_memory_makes_no_index(void) {
  const uint64_t bound = BOUND;
  bs_group_savepoint savepoint;
  bs_txn txn = begun();
  bs_node first;
  bs_reply reply;
  long next;
  DONE(lock_path(txn, row_files[1], BS_X));
  DONE(bs_group_mark(group, txn, &savepoint));
  DONE(lock_path(txn, areas[2], BS_SIX));
  for (next = 1, reply.status = BS_NO_MEMORY; reply.status == BS_NO_MEMORY; next++) {
    refused_allocation = next;
    reply = bs_group_index_by(group, txn, &areas[2], 1, row_files[1], &bound, 1);
    refused_allocation = 0;
    want_rules(group);
  }
  WANT(held_in(group, 1, txn, areas[2]) == BS_IX);
  first = interval_of(DONE(reply).node, 0);
  DONE(lock_path(txn, first, BS_X));
  for (next = 1, reply.status = BS_NO_MEMORY; reply.status == BS_NO_MEMORY; next++) {
    refused_allocation = next;
    reply = bs_group_split(group, txn, first, 40);
    refused_allocation = 0;
    want_rules(group);
  }
  DONE(reply);
  refused_allocation = 1;
  reply = bs_group_release_since(group, txn, &savepoint);
  refused_allocation = 0;
  WANT(DONE(reply).count > 0);
  want_rules(group);
  commit(txn);
  want_rest(group);
}

/* The same of a move, which the transaction's locks on the parents allow. */
static void refused_memory_moves_nothing(void) {
  bs_txn txn = begun();
  bs_reply reply;
  long next;
  DONE(lock_path(txn, areas[0], BS_X));
  DONE(lock_path(txn, areas[1], BS_X));
  for (next = 1, reply.status = BS_NO_MEMORY; reply.status == BS_NO_MEMORY; next++) {
    refused_allocation = next;
    reply = bs_group_move(group, txn, files[1], &areas[1], 1);
    refused_allocation = 0;
    want_rules(group);
  }
  DONE(reply);
  WANT(next > 2 && DONE(bs_group_held(group, txn, files[1])).mode == BS_X);
  commit(txn);
  want_rest(group);
}

/* ------------------------------------------------------------------------------------------------
 * Stories of several threads.
 */

/* Requests a row in BS_X for 5 milliseconds, with so many keys, which are all the same. */
static bs_reply lock_row_for(bs_txn txn, bs_node file, size_t count) {
  static const uint64_t keys[] = { 200, 200 };
  struct timespec until = bs_after(5);
  return bs_group_lock_row_path(group, txn, file, 1, keys, count, BS_X, &until);
}

static void instants_are_awaited(void) {
  bs_txn holder = begun(), other = begun();
  sleeper own;
  DONE(lock_path(holder, records[1][0], BS_S));
  sleep_in(&own, 1, other, records[1][0], BS_X | BS_INSTANT);
  commit(holder);
  wakes_with(&own, BS_DONE);
  WANT(held_in(group, 1, other, records[1][0]) == BS_NL && held_in(group, 1, other, files[1]) == BS_IX);
  commit(other);
  want_rest(group);
}

static void strong_waits_for_records_of_any_part(void) {
  uint32_t part;
  for (part = 1; part <= PARTS; part++) {
    bs_txn writer = begun(), reader = begun(), strong = begun();
    sleeper own;
    DONE(lock_path(reader, records[part][1], BS_S));
    DONE(lock_path(writer, records[part][0], BS_X));
    sleep_in(&own, 0, strong, base, BS_S);
    WANT(marks_in(group, part) == 1);
    commit(reader);
    WANT(sleeps_in(0, strong));
    commit(writer);
    wakes_with(&own, BS_DONE);
    commit(strong);
    want_rest(group);
  }
}

static void records_wait_for_strong(void) {
  uint32_t part;
  for (part = 1; part <= PARTS; part++) {
    bs_txn writer = begun(), reader = begun(), strong = begun();
    sleeper own, too;
    DONE(lock_path(strong, area_of(part), BS_S));
    DONE(lock_path(reader, records[part][0], BS_S));
    sleep_in(&own, 0, writer, records[part][1], BS_X);
    WANT(held_in(group, 0, writer, base) == BS_IX);
    commit(strong);
    wakes_with(&own, BS_DONE);
    commit(writer);
    strong = begun();
    sleep_in(&too, 0, strong, base, BS_X);
    commit(reader);
    wakes_with(&too, BS_DONE);
    commit(strong);
    want_rest(group);
  }
}

/* Who waits in a part when that is visited gets its intentions in the main table, and its path goes on below. */
static void sleepers_are_visited(void) {
  bs_txn holder = begun(), waiter = begun(), strong = begun(), late = begun();
  sleeper own, too, last;
  DONE(lock_path(holder, files[2], BS_S));
  sleep_in(&own, 2, waiter, records[2][0], BS_X);
  WANT(!group_slot_at(group, waiter.slot)->is_in_main);
  sleep_in(&too, 0, strong, base, BS_S);
  WANT(held_in(group, 0, waiter, base) == BS_IX && held_in(group, 0, holder, base) == BS_IS);
  commit(holder);
  wakes_with(&own, BS_DONE);
  WANT(sleeps_in(0, strong));
  sleep_in(&last, 0, late, records[3][0], BS_X);
  commit(waiter);
  wakes_with(&too, BS_DONE);
  WANT(sleeps_in(0, late));
  commit(strong);
  wakes_with(&last, BS_DONE);
  commit(late);
  want_rest(group);
}

/* The same of a row, whose index is in another area than its file; and a visit of the index's area alone. */
static void rows_that_wait_are_visited(void) {
  bs_txn holder = begun(), waiter = begun(), strong = begun();
  sleeper own, too;
  DONE(lock_path(holder, row_files[1], BS_S));
  memset(&own, 0, sizeof own);
  own.is_row = true;
  own.number = 5;
  own.key = 200;
  own.txn = waiter;
  own.node = row_files[1];
  own.mode = BS_X;
  start(&own.thread, sleep_for_it, &own);
  while (!sleeps_in(1, waiter)) nap();
  sleep_in(&too, 0, strong, areas[1], BS_S);
  WANT(held_in(group, 0, waiter, areas[1]) == BS_IX);
  WANT(held_in(group, 1, waiter, areas[1]) == BS_NL || held_in(group, 1, waiter, areas[1]) == BS_IX);
  commit(holder);
  wakes_with(&own, BS_DONE);
  WANT(held_in(group, 1, waiter, areas[1]) == BS_IX);
  commit(waiter);
  wakes_with(&too, BS_DONE);
  commit(strong);
  want_rest(group);
}

/* A row waits for its file, and meanwhile an index below a marked node is made there: the row has no key for it, so that
 * its path ends before it asks for anything above the index. */
static void new_indexes_end_paths(void) {
  bs_txn holder = begun(), waiter = begun(), strong = begun();
  uint64_t bound = BOUND;
  sleeper own;
  DONE(lock_path(holder, row_files[1], BS_S));
  memset(&own, 0, sizeof own);
  own.is_row = true;
  own.key = 200;
  own.txn = waiter;
  own.node = row_files[1];
  own.mode = BS_X;
  start(&own.thread, sleep_for_it, &own);
  while (!sleeps_in(1, waiter)) nap();
  DONE(lock_path(strong, areas[2], BS_S));
  WANT(marks_in(group, 1) == 1);
  DONE(bs_group_add_index(group, &areas[2], 1, row_files[1], &bound, 1));
  wakes_with(&own, BS_BAD_KEYS);
  commit(holder);
  WANT(held_in(group, 0, waiter, areas[2]) == BS_NL && held_in(group, 1, waiter, areas[2]) == BS_NL);
  ANSWERS(BS_TIMED_OUT, lock_row_for(waiter, row_files[1], 2));
  WANT(held_in(group, 1, waiter, areas[2]) == BS_NL);
  commit(strong);
  commit(waiter);
  want_rest(group);
}

/* An index below inner nodes that others have in more than an intention. */
static void indexes_need_what_is_above(void) {
  bs_txn txn = begun(), strong = begun(), late = begun();
  sleeper own;
  DONE(lock_path(txn, row_files[1], BS_X));
  DONE(lock_path(strong, areas[2], BS_S));
  WANT(held_in(group, 1, txn, areas[2]) == BS_NL);
  WANT(group_is_node(ANSWERS(BS_WOULD_BLOCK, bs_group_index_by(group, txn, &areas[2], 1, row_files[1], NULL, 0)).node,
                     areas[2]));
  WANT(held_in(group, 1, txn, areas[2]) == BS_NL && held_in(group, 0, txn, base) == BS_IX);
  sleep_in(&own, 0, txn, areas[2], BS_IX);
  commit(strong);
  wakes_with(&own, BS_DONE);
  sleep_in(&own, 0, late, areas[2], BS_S);
  WANT(marks_in(group, 1) == 1 && held_in(group, 1, txn, areas[2]) == BS_NL);
  DONE(bs_group_index_by(group, txn, &areas[2], 1, row_files[1], NULL, 0));
  WANT(held_in(group, 1, txn, areas[2]) == BS_IX && held_in(group, 0, txn, areas[2]) == BS_IX);
  want_rules(group);
  commit(txn);
  wakes_with(&own, BS_DONE);
  commit(late);
  want_rest(group);
}

/* Starts a thread that requests a row of part 1 with this key, and waits until it sleeps in that part. */
static void sleep_for_row(sleeper *own, bs_txn txn, uint64_t key, bs_mode mode) {
  memset(own, 0, sizeof *own);
  own->is_row = true;
  own->key = key;
  own->txn = txn;
  own->node = row_files[1];
  own->mode = mode;
  start(&own->thread, sleep_for_it, own);
  while (!sleeps_in(1, txn)) nap();
  want_rules(group);
}

/* A path that waits passes no node more: one index is dropped, and another is made below a marked node, while rows wait
 * with a key for one. They end as that is made, before the locks that they wait for; waits for other nodes go on. */
static void other_indexes_end_paths(void) {
  bs_txn holder = begun(), writer = begun(), reader = begun(), third = begun(), strong = begun();
  sleeper writes, reads, goes_on, waits;
  DONE(lock_path(holder, row_files[1], BS_X));
  DONE(lock_path(holder, indexes[1], BS_X));
  sleep_for_row(&writes, writer, 200, BS_X);
  sleep_for_row(&reads, reader, 200, BS_S);
  sleep_in(&goes_on, 1, third, row_files[1], BS_IX);
  DONE(lock_path(holder, areas[2], BS_IX));
  sleep_in(&waits, 0, strong, areas[2], BS_S);
  WANT(group_is_marked(&group->tables[1], (uint32_t)areas[2].key));
  DONE(bs_group_drop(group, holder, indexes[1]));
  want_rules(group);
  WANT(sleeps_in(1, writer) && sleeps_in(1, reader));
  DONE(bs_group_index_by(group, holder, &areas[2], 1, row_files[1], NULL, 0));
  wakes_with(&writes, BS_BAD_KEYS);
  wakes_with(&reads, BS_BAD_KEYS);
  WANT(sleeps_in(1, third) && held_in(group, 0, writer, areas[2]) == BS_NL);
  commit(holder);
  wakes_with(&goes_on, BS_DONE);
  wakes_with(&waits, BS_DONE);
  ANSWERS(BS_TIMED_OUT, lock_row_for(writer, row_files[1], 1));
  commit(strong);
  DONE(lock_row_for(writer, row_files[1], 1));
  WANT(held_in(group, 1, writer, areas[2]) == BS_IX);
  commit(writer);
  commit(reader);
  commit(third);
  want_rest(group);
}

/* The same with an index below another root, which is locked already: a request for more below that root visits the
 * part after the row's wait has ended. */
static void new_roots_end_paths(void) {
  bs_txn holder = begun(), waiter = begun(), strong = begun(), more = begun();
  bs_node root = DONE(bs_group_add_inner(group, NULL, 0)).node, below = DONE(bs_group_add_inner(group, &root, 1)).node;
  sleeper own;
  DONE(lock_path(holder, row_files[1], BS_S));
  sleep_for_row(&own, waiter, 200, BS_X);
  DONE(lock_path(strong, root, BS_S));
  DONE(bs_group_add_index(group, &below, 1, row_files[1], NULL, 0));
  wakes_with(&own, BS_BAD_KEYS);
  DONE(lock_path(more, below, BS_S));
  want_rules(group);
  commit(holder);
  commit(waiter);
  commit(strong);
  commit(more);
  want_rest(group);
}

/* A path that waits for a record begins anew as an index is made beside it: so it waits for who reads the parent of that
 * index, though it had no lock to request there before. Paths to other nodes wait on. */
static void paths_to_records_begin_anew(void) {
  const uint64_t keys[RECORDS] = { 0, 0, 0, 0 };
  bs_txn maker = begun(), reader = begun(), writer = begun(), third = begun();
  bs_node root = DONE(bs_group_add_inner(group, NULL, 0)).node, other = DONE(bs_group_add_file(group, 1, &root, 1)).node;
  sleeper reads, writes, goes_on;
  DONE(lock_path(maker, files[1], BS_X));
  DONE(lock_path(maker, other, BS_IX));
  sleep_in(&writes, 1, writer, records[1][0], BS_X);
  sleep_in(&goes_on, 1, third, files[1], BS_IX);
  sleep_in(&reads, 0, reader, root, BS_S);
  WANT(group_is_marked(&group->tables[1], (uint32_t)root.key) && held_in(group, 0, writer, root) == BS_NL);
  DONE(bs_group_index_records(group, maker, &root, 1, files[1], NULL, 0, records[1], keys, RECORDS));
  while (!sleeps_in(0, writer)) nap();
  WANT(sleeps_in(1, third));
  commit(maker);
  wakes_with(&reads, BS_DONE);
  wakes_with(&goes_on, BS_DONE);
  WANT(sleeps_in(0, writer) && held_in(group, 1, writer, root) == BS_NL);
  commit(reader);
  wakes_with(&writes, BS_DONE);
  WANT(held_in(group, 1, writer, root) == BS_IX);
  commit(writer);
  commit(third);
  want_rest(group);
}

/* A path that waits begins anew as a file above it moves below a node that somebody waits to read: so it waits for that
 * reader, though it had no lock to request there before. Paths to other nodes wait on. */
static void paths_begin_anew_after_a_move(void) {
  bs_txn mover = begun(), reader = begun(), writer = begun(), behind = begun(), third = begun();
  bs_node other = DONE(bs_group_add_file(group, 1, &areas[0], 1)).node;
  sleeper reads, writes, next, goes_on;
  DONE(lock_path(mover, files[1], BS_X));
  DONE(lock_path(mover, other, BS_X));
  sleep_in(&writes, 1, writer, records[1][0], BS_X);
  sleep_in(&next, 1, behind, files[1], BS_IX);
  sleep_in(&goes_on, 1, third, other, BS_IX);
  DONE(lock_path(mover, areas[1], BS_IX));
  sleep_in(&reads, 0, reader, areas[1], BS_S);
  WANT(group_is_marked(&group->tables[1], (uint32_t)areas[1].key) && held_in(group, 0, writer, areas[1]) == BS_NL);
  DONE(bs_group_move(group, mover, files[1], &areas[1], 1));
  want_rules(group);
  while (!sleeps_in(0, writer) || !sleeps_in(0, behind)) nap();
  WANT(sleeps_in(1, third) && held_in(group, 1, writer, areas[1]) == BS_NL);
  commit(mover);
  wakes_with(&reads, BS_DONE);
  wakes_with(&goes_on, BS_DONE);
  WANT(sleeps_in(0, writer) && sleeps_in(0, behind));
  commit(reader);
  wakes_with(&next, BS_DONE);
  wakes_with(&writes, BS_DONE);
  WANT(held_in(group, 1, writer, areas[1]) == BS_IX && held_in(group, 1, behind, areas[1]) == BS_IX);
  commit(behind);
  commit(writer);
  commit(third);
  want_rest(group);
}

/* So does one to a row as an index of its file moves. If the move is refused, all wait on, in their order. */
static void paths_to_rows_begin_anew(void) {
  bs_txn mover = begun(), reader = begun(), writer = begun();
  sleeper reads, writes;
  DONE(lock_path(mover, indexes[1], BS_X));
  sleep_for_row(&writes, writer, 200, BS_X);
  DONE(lock_path(reader, areas[2], BS_S));
  ANSWERS(BS_WOULD_BLOCK, bs_group_move(group, mover, indexes[1], &areas[2], 1));
  WANT(sleeps_in(1, writer));
  commit(reader);
  reader = begun();
  DONE(lock_path(mover, areas[2], BS_IX));
  sleep_in(&reads, 0, reader, areas[2], BS_S);
  DONE(bs_group_move(group, mover, indexes[1], &areas[2], 1));
  index_areas[1] = 2;
  while (!sleeps_in(0, writer)) nap();
  WANT(held_in(group, 1, writer, areas[2]) == BS_NL);
  commit(mover);
  wakes_with(&reads, BS_DONE);
  WANT(sleeps_in(0, writer));
  commit(reader);
  wakes_with(&writes, BS_DONE);
  WANT(held_in(group, 1, writer, areas[2]) == BS_IX);
  commit(writer);
  want_rest(group);
}

/* How many waits in part 1 have ended so. */
static uint64_t ended_so(enum bs_wait_ends end) {
  uint64_t count = 0;
  bs_waits waits;
  size_t i;
  DONE(bs_table_waits(group->tables[1].table, &waits));
  for (i = 0; i < BS_WAIT_BUCKETS; i++) count += waits.ended[end].buckets[i];
  return count;
}

/* Each wait that passes what moved begins anew, also one that has what it needs above, and would wait on in a table. */
static void all_waits_begin_anew(void) {
  bs_txn mover = begun(), one = begun(), other = begun();
  bs_node beside = DONE(bs_group_add_file(group, 1, &areas[2], 1)).node;
  sleeper first, second;
  uint64_t moved = ended_so(BS_END_MOVED), cancelled = ended_so(BS_END_CANCELLED);
  DONE(lock_path(one, beside, BS_IX));
  DONE(lock_path(mover, files[1], BS_X));
  sleep_in(&first, 1, one, records[1][0], BS_X);
  sleep_in(&second, 1, other, files[1], BS_IS);
  DONE(bs_group_move(group, mover, files[1], &areas[2], 1));
  want_rules(group);
  while (!sleeps_in(1, one) || !sleeps_in(1, other)) nap();
  WANT(held_in(group, 1, one, areas[2]) == BS_IX && held_in(group, 1, other, areas[2]) == BS_IS);
  WANT(ended_so(BS_END_MOVED) == moved + 2 && ended_so(BS_END_CANCELLED) == cancelled);
  commit(mover);
  wakes_with(&second, BS_DONE);
  wakes_with(&first, BS_DONE);
  commit(one);
  commit(other);
  want_rest(group);
}

/* An unlock, a split, a merge and a drop end waits in the part, as in a table. After a split, who waits for a row waits
 * for the interval of its key. */
static void changes_end_waits(void) {
  bs_txn txn = begun(), waiter = begun();
  bs_node first = interval_of(indexes[1], 0), made, file = DONE(bs_group_add_file(group, 1, &areas[0], 1)).node;
  sleeper own;
  DONE(lock_path(txn, records[1][0], BS_X));
  sleep_in(&own, 1, waiter, records[1][0], BS_S);
  DONE(bs_group_unlock(group, txn, records[1][0]));
  wakes_with(&own, BS_DONE);
  DONE(lock_path(txn, first, BS_X));
  sleep_for_row(&own, waiter, 70, BS_X);
  made = DONE(bs_group_split(group, txn, first, 40)).node;
  want_rules(group);
  WANT(sleeps_in(1, waiter));
  DONE(bs_group_unlock(group, txn, made));
  wakes_with(&own, BS_DONE);
  WANT(DONE(bs_group_held(group, waiter, made)).mode == BS_IX);
  ANSWERS(BS_NEED_EXCLUSIVE, bs_group_merge(group, txn, first));
  DONE(bs_group_unlock_row(group, waiter, row_files[1], 0));
  DONE(bs_group_unlock(group, waiter, made));
  DONE(lock_path(txn, made, BS_X));
  sleep_in(&own, 1, waiter, made, BS_S);
  DONE(bs_group_merge(group, txn, first));
  wakes_with(&own, BS_GONE);
  DONE(lock_path(txn, file, BS_X));
  sleep_in(&own, 1, waiter, file, BS_S);
  DONE(bs_group_drop(group, txn, file));
  wakes_with(&own, BS_GONE);
  commit(txn);
  commit(waiter);
  want_rest(group);
}

/* A savepoint is one in each part. */
static void savepoints_are_of_parts(void) {
  bs_txn txn = begun(), waiter = begun();
  bs_group_savepoint first, second;
  sleeper own, too;
  uint32_t part;
  DONE(bs_group_mark(group, txn, &first));
  for (part = 0; part <= BS_MOST_PARTS; part++) WANT(first.at[part] == 0);
  WANT(DONE(bs_group_release_since(group, txn, &first)).count == 0);
  DONE(lock_path(txn, records[1][0], BS_X));
  DONE(bs_group_mark(group, txn, &second));
  WANT(second.at[1] == 4 && second.at[2] == 0);
  DONE(lock_path(txn, records[1][1], BS_X));
  DONE(lock_path(txn, records[2][1], BS_X));
  DONE(lock_path(txn, areas[2], BS_S));
  sleep_in(&own, 1, waiter, records[1][1], BS_S);
  WANT(DONE(bs_group_release_since(group, txn, &second)).count == 5);
  wakes_with(&own, BS_DONE);
  WANT(DONE(bs_group_held(group, txn, records[1][0])).mode == BS_X);
  WANT(held_in(group, 2, txn, base) == BS_NL && held_in(group, 1, txn, base) == BS_IX);
  WANT(held_in(group, 0, txn, areas[2]) == BS_S && held_in(group, 0, txn, area_of(2)) == BS_IX);
  sleep_in(&too, 1, waiter, records[1][0], BS_S);
  DONE(lock_path(txn, records[2][1], BS_S));
  WANT(DONE(bs_group_release_since(group, txn, &first)).count == 8);
  wakes_with(&too, BS_DONE);
  WANT(held_in(group, 1, txn, base) == BS_NL && held_in(group, 0, txn, base) == BS_IX);
  commit(txn);
  commit(waiter);
  want_rest(group);
}

/* What the group counts is what its tables count. */
static void counters_are_summed(void) {
  bs_txn txn = begun(), strong = begun(), late = begun();
  bs_counts before, after;
  sleeper own, too;
  DONE(bs_group_counters(group, &before));
  DONE(lock_path(txn, records[2][0], BS_X));
  sleep_in(&own, 2, strong, records[2][0], BS_S);
  sleep_in(&too, 0, late, base, BS_X);
  commit(txn);
  wakes_with(&own, BS_DONE);
  commit(strong);
  wakes_with(&too, BS_DONE);
  commit(late);
  DONE(bs_group_counters(group, &after));
  WANT(after.waited >= before.waited + 2 && after.granted_later == before.granted_later + after.waited - before.waited);
  WANT(after.accepted > before.accepted && after.granted > before.granted);
  WANT(after.most_waiting >= 1 && after.longest_queue >= 1 && after.condemned == before.condemned);
  want_rest(group);
}

/* A reader that waits is visited too, and is in nobody's way. */
static void readers_that_wait_are_visited(void) {
  bs_txn holder = begun(), waiter = begun(), strong = begun();
  sleeper own, too;
  DONE(lock_path(holder, records[3][0], BS_X));
  sleep_in(&own, 3, waiter, records[3][0], BS_S);
  sleep_in(&too, 0, strong, area_of(3), BS_S);
  WANT(held_in(group, 0, waiter, area_of(3)) == BS_IS);
  DONE(bs_group_abort(group, holder));
  wakes_with(&own, BS_DONE);
  wakes_with(&too, BS_DONE);
  commit(waiter);
  commit(strong);
  want_rest(group);
}

/* A mark stays while a request for more waits for a node above: the last holder before it leaves it. Otherwise the reader
 * would not be seen by that request. */
static void marks_stay_for_requests_above(void) {
  bs_txn first = begun(), above = begun(), strong = begun(), reader = begun();
  sleeper own;
  DONE(lock_path(reader, records[3][0], BS_S));
  DONE(lock_path(first, areas[0], BS_S));
  DONE(lock_path(above, base, BS_S));
  sleep_in(&own, 0, strong, areas[0], BS_X);
  WANT(held_in(group, 0, strong, base) == BS_NL);
  commit(first);
  want_rules(group);
  WANT(group_is_marked(&group->tables[1], (uint32_t)areas[0].key));
  DONE(lock_path(reader, records[1][0], BS_S));
  commit(above);
  while (held_in(group, 0, strong, base) != BS_IX) nap();
  WANT(sleeps_in(0, strong));
  WANT(held_in(group, 0, strong, areas[0]) == BS_NL);
  commit(reader);
  wakes_with(&own, BS_DONE);
  commit(strong);
  want_rest(group);
}

/* The time of a strong request, and of one that waits for it, is over. */
static void times_leave_no_marks(void) {
  bs_txn writer = begun(), strong = begun(), other = begun();
  DONE(lock_path(writer, records[1][0], BS_X));
  ANSWERS(BS_TIMED_OUT, lock_for(strong, base, BS_S, 5));
  WANT(marks_in(group, 1) == 0);
  want_rules(group);
  WANT(held_in(group, 0, writer, base) == BS_IX);
  DONE(lock_path(other, areas[1], BS_X));
  ANSWERS(BS_TIMED_OUT, lock_for(strong, areas[1], BS_S, 5));
  WANT(marks_in(group, 1) == 1);
  ANSWERS(BS_TIMED_OUT, lock_for(strong, records[2][0], BS_S, 5));
  ANSWERS(BS_TIMED_OUT, lock_for(other, records[1][0], BS_S, 5));
  commit(other);
  WANT(marks_in(group, 1) == 0);
  DONE(lock_path(strong, records[2][0], BS_S));
  commit(strong);
  commit(writer);
  want_rest(group);
}

/* The end of a strong lock, or of a request for one, clears the marks of the parts that were used since the one before. In
 * another the next path clears those that may be, and no others. */
static void paths_clear_marks(void) {
  bs_txn writer = begun(), strong = begun(), other = begun();
  DONE(lock_path(writer, records[1][0], BS_X));
  ANSWERS(BS_TIMED_OUT, lock_for(strong, base, BS_S, 5));
  WANT(marks_left_in(group, 1) == 0 && marks_left_in(group, 2) == 0);
  ANSWERS(BS_TIMED_OUT, lock_for(strong, base, BS_S, 5));
  WANT(marks_left_in(group, 1) == 1 && marks_left_in(group, 2) == 1);
  DONE(lock_path(other, records[1][1], BS_X));
  WANT(marks_left_in(group, 1) == 0 && marks_left_in(group, 2) == 1 && held_in(group, 0, other, base) == BS_NL);
  ANSWERS(BS_WOULD_BLOCK, bs_group_try_path(group, strong, base, BS_S, BS_KEEP_WAY));
  WANT(marks_left_in(group, 1) == 0 && marks_left_in(group, 2) == 1);
  DONE(lock_path(strong, areas[2], BS_S));
  WANT(marks_left_in(group, 1) == 1 && marks_left_in(group, 2) == 2);
  DONE(lock_path(other, records[1][2], BS_X));
  WANT(marks_left_in(group, 1) == 1 && group_is_marked(&group->tables[1], 1 + 2));
  want_rules(group);
  commit(strong);
  WANT(marks_left_in(group, 1) == 1);
  commit(other);
  commit(writer);
  other = begun();
  DONE(lock_path(other, records[1][0], BS_S));
  WANT(marks_left_in(group, 1) == 0 && marks_left_in(group, 2) == 2);
  DONE(bs_group_insert(group, other, files[2], NULL, 0));
  WANT(marks_left_in(group, 2) == 0);
  commit(other);
  want_rest(group);
}

/* Of two that wait for each other in two parts, the younger falls. */
static void cycles_over_parts_end(void) {
  bs_txn old = begun(), young = begun();
  sleeper own, too;
  DONE(lock_path(old, records[1][0], BS_X));
  DONE(lock_path(young, records[2][0], BS_X));
  sleep_in(&own, 2, old, records[2][0], BS_X);
  memset(&too, 0, sizeof too);
  too.txn = young;
  too.node = records[1][0];
  too.mode = BS_S;
  start(&too.thread, sleep_for_it, &too);
  wakes_with(&too, BS_VICTIM);
  WANT(sleeps_in(2, old));
  ANSWERS(BS_TXN_CONDEMNED, bs_group_commit(group, young));
  ANSWERS(BS_TXN_CONDEMNED, lock_path(young, records[3][0], BS_S));
  ANSWERS(BS_TXN_CONDEMNED, bs_group_insert(group, young, files[1], NULL, 0));
  calls_of_parts_are_refused(group, young, BS_TXN_CONDEMNED);
  WANT(DONE(bs_group_held(group, young, records[2][0])).mode == BS_X);
  DONE(bs_group_abort(group, young));
  wakes_with(&own, BS_DONE);
  commit(old);
  want_rest(group);
}

/* The same with the younger by its `since`, and over the main table: who waits there holds a record that the other
 * wants. */
static void cycles_over_main_end(void) {
  bs_txn other = begun(), strong = DONE(bs_group_begin_again(group, 0)).txn;
  sleeper own, too;
  DONE(lock_path(strong, records[1][0], BS_X));
  DONE(lock_path(other, records[2][0], BS_X));
  sleep_in(&own, 0, strong, base, BS_S);
  memset(&too, 0, sizeof too);
  too.txn = other;
  too.node = records[1][0];
  too.mode = BS_S;
  start(&too.thread, sleep_for_it, &too);
  wakes_with(&too, BS_VICTIM);
  WANT(sleeps_in(0, strong));
  DONE(bs_group_abort(group, other));
  wakes_with(&own, BS_DONE);
  commit(strong);
  want_rest(group);
}

/* Three on a cycle over three tables: one falls. */
static void one_of_a_cycle_falls(void) {
  bs_txn txns[3];
  sleeper own[3];
  size_t i, fallen = 0;
  for (i = 0; i < 3; i++) DONE(lock_path(txns[i] = begun(), records[i + 1][0], BS_X));
  for (i = 0; i < 3; i++) {
    memset(&own[i], 0, sizeof own[i]);
    own[i].txn = txns[i];
    own[i].node = records[(i + 1) % 3 + 1][0];
    own[i].mode = BS_X;
    start(&own[i].thread, sleep_for_it, &own[i]);
  }
  while (fallen == 0) {
    for (i = 0; i < 3; i++) {
      if (!__atomic_load_n(&own[i].is_over, __ATOMIC_ACQUIRE)) continue;
      join(own[i].thread);
      ANSWERS(BS_VICTIM, own[i].reply);
      DONE(bs_group_abort(group, txns[i]));
      fallen++;
      break;
    }
    if (fallen == 0) nap();
  }
  join(own[(i + 2) % 3].thread);
  DONE(own[(i + 2) % 3].reply);
  commit(txns[(i + 2) % 3]);
  join(own[(i + 1) % 3].thread);
  DONE(own[(i + 1) % 3].reply);
  commit(txns[(i + 1) % 3]);
  want_rest(group);
}

/* A cycle within one part, and one within the main table, end at once. */
static void cycles_of_one_table_end(void) {
  bs_txn old = begun(), young = begun();
  sleeper own;
  DONE(lock_path(old, records[1][0], BS_X));
  DONE(lock_path(young, records[1][1], BS_X));
  sleep_in(&own, 1, old, records[1][1], BS_X);
  ANSWERS(BS_VICTIM, lock_path(young, records[1][0], BS_X));
  ANSWERS(BS_TXN_CONDEMNED, lock_path(young, base, BS_S));
  DONE(bs_group_abort(group, young));
  wakes_with(&own, BS_DONE);
  commit(old);
  old = begun();
  young = begun();
  DONE(lock_path(old, base, BS_S));
  DONE(lock_path(young, base, BS_S));
  sleep_in(&own, 0, old, base, BS_X);
  ANSWERS(BS_VICTIM, lock_path(young, records[1][0], BS_X));
  ANSWERS(BS_TXN_CONDEMNED, bs_group_commit(group, young));
  DONE(bs_group_abort(group, young));
  wakes_with(&own, BS_DONE);
  commit(old);
  old = begun();
  young = begun();
  DONE(lock_path(old, base, BS_S));
  DONE(lock_path(young, base, BS_S));
  sleep_in(&own, 0, old, base, BS_X);
  ANSWERS(BS_VICTIM, lock_path(young, base, BS_SIX));
  ANSWERS(BS_TXN_CONDEMNED, bs_group_commit(group, young));
  DONE(bs_group_abort(group, young));
  wakes_with(&own, BS_DONE);
  commit(old);
  want_rest(group);
}

/* ------------------------------------------------------------------------------------------------
 * Stories of intentions that are kept.
 */

static void keep(uint32_t most) {
  world_keeps = most;
  DONE(bs_group_keep(group, most));
}

/* How many locks rest in a part for a slot; 0 if none rests. */
static uint64_t rest_in(uint32_t part, uint32_t slot) {
  const group_table *t = &group->tables[part];
  uint64_t locks = 0;
  bs_inside_take(t->table);
  if (rests_there(t, slot)) locks = bs_lock_count(t->manager, bs_living(t->manager, slot).txn).count;
  bs_inside_release(t->table);
  return locks;
}

/* Begins a transaction of its own slot, and lets it rest with the path to a record of each of these parts. */
static uint32_t let_rest(uint32_t first, uint32_t last, bs_mode mode) {
  bs_txn txn = begun();
  uint32_t part;
  for (part = first; part <= last; part++) DONE(lock_path(txn, records[part][0], mode));
  commit(txn);
  for (part = first; part <= last; part++) WANT(rest_in(part, txn.slot) == 3);
  return txn.slot;
}

/* The next transaction of the slot has in its first call what the last one kept, and what it asks for. */
static void what_rests_is_taken_up(void) {
  bs_txn txn;
  uint32_t slot;
  keep(16);
  slot = let_rest(1, 1, BS_X);
  want_rules(group);
  WANT(!group_slot_at(group, slot)->is_taken);
  txn = begun();
  WANT(txn.slot == slot && DONE(bs_group_held(group, txn, base)).mode == BS_NL);
  DONE(lock_path(txn, records[1][1], BS_S));
  WANT(rest_in(1, slot) == 0 && DONE(bs_group_held(group, txn, files[1])).mode == BS_IX);
  WANT(held_in(group, 1, txn, base) == BS_IX && DONE(bs_group_held(group, txn, records[1][0])).mode == BS_NL);
  want_rules(group);
  WANT(group_count_spread(group) == 0);
  DONE(lock_path(txn, records[2][0], BS_S));
  WANT(group_count_spread(group) == 1);
  commit(txn);
  WANT(rest_in(1, slot) == 3 && rest_in(2, slot) == 3 && group_count_spread(group) == 0);
  want_rest(group);
}

/* What is taken up comes after a savepoint that was made before; and what is released is not kept. */
static void what_is_released_does_not_rest(void) {
  bs_group_savepoint first, second;
  bs_txn txn;
  uint32_t slot;
  keep(16);
  slot = let_rest(1, 2, BS_X);
  txn = begun();
  DONE(bs_group_mark(group, txn, &first));
  DONE(lock_path(txn, records[1][1], BS_S));
  DONE(bs_group_mark(group, txn, &second));
  WANT(txn.slot == slot && first.at[1] == 0 && second.at[1] == 4);
  WANT(DONE(bs_group_release_since(group, txn, &second)).count == 0);
  WANT(DONE(bs_group_release_since(group, txn, &first)).count == 4);
  WANT(DONE(bs_group_held(group, txn, base)).mode == BS_NL);
  commit(txn);
  WANT(rest_in(1, slot) == 0 && rest_in(2, slot) == 3);
  txn = begun();
  DONE(lock_path(txn, records[2][1], BS_S));
  DONE(bs_group_unlock(group, txn, records[2][1]));
  DONE(bs_group_unlock(group, txn, files[2]));
  DONE(bs_group_mark(group, txn, &second));
  DONE(lock_path(txn, files[2], BS_S));
  commit(txn);
  WANT(txn.slot == slot && second.at[2] == 2 && rest_in(2, slot) == 2);
  want_rules(group);
  txn = begun();
  DONE(lock_path(txn, records[2][1], BS_X));
  DONE(bs_group_release_since(group, txn, &second));
  WANT(DONE(bs_group_held(group, txn, files[2])).mode == BS_NL);
  DONE(lock_path(txn, files[2], BS_S));
  commit(txn);
  WANT(rest_in(2, slot) == 2);
  want_rest(group);
}

/* What rests in a part stays while transactions of the slot work in others; and the most that is kept can change. */
static void each_part_has_what_rests(void) {
  bs_txn txn;
  uint32_t slot;
  keep(16);
  slot = let_rest(1, 2, BS_X);
  txn = begun();
  DONE(lock_path(txn, records[2][1], BS_X));
  DONE(bs_group_lock_row_path(group, txn, row_files[2], 7, (const uint64_t[]){ 50 }, 1, BS_S, NULL));
  commit(txn);
  WANT(rest_in(1, slot) == 3 && rest_in(2, slot) == 3);
  txn = begun();
  DONE(bs_group_insert(group, txn, files[1], NULL, 0));
  DONE(lock_path(txn, records[2][1], BS_X));
  WANT(group_count_spread(group) == 1);
  commit(txn);
  keep(2);
  txn = begun();
  DONE(lock_path(txn, records[1][1], BS_S));
  DONE(lock_path(txn, records[3][1], BS_S));
  commit(txn);
  WANT(rest_in(1, slot) == 2 && rest_in(2, slot) == 3 && rest_in(3, slot) == 2);
  keep(0);
  WANT(rest_in(1, slot) + rest_in(2, slot) + rest_in(3, slot) == 0);
  txn = begun();
  DONE(lock_path(txn, records[1][1], BS_S));
  commit(txn);
  WANT(rest_in(1, slot) == 0);
  want_rest(group);
}

/* What is more than an intention is not kept, nor what comes after it. */
static void only_intentions_rest(void) {
  bs_txn txn;
  keep(16);
  DONE(lock_path(txn = begun(), files[1], BS_S));
  DONE(lock_path(txn, records[2][0], BS_X));
  DONE(lock_path(txn, files[2], BS_X));
  commit(txn);
  WANT(rest_in(1, txn.slot) == 2 && rest_in(2, txn.slot) == 2);
  txn = begun();
  DONE(lock_path(txn, records[2][0], BS_X));
  commit(txn);
  WANT(rest_in(2, txn.slot) == 3);
  txn = begun();
  DONE(lock_path(txn, files[2], BS_S));
  WANT(DONE(bs_group_held(group, txn, files[2])).mode == BS_SIX);
  commit(txn);
  WANT(rest_in(2, txn.slot) == 0);
  txn = begun();
  DONE(lock_path(txn, files[2], BS_S));
  commit(txn);
  WANT(rest_in(2, txn.slot) == 2);
  want_rules(group);
  want_rest(group);
}

/* A lock of more than an intention on an inner node ends who rests in any part, and none rests while it lasts. */
static void strong_locks_end_what_rests(void) {
  static const bs_mode modes[] = { BS_S, BS_SIX, BS_X };
  bs_node nodes[3];
  bs_txn others[PARTS + 1], strong, reader;
  uint32_t part, i;
  nodes[0] = base;
  nodes[1] = areas[1];
  nodes[2] = quarters[0];
  keep(16);
  for (i = 0; i < 9; i++) {
    for (part = 1; part <= PARTS; part++) DONE(lock_path(others[part] = begun(), records[part][0], BS_X));
    for (part = 1; part <= PARTS; part++) commit(others[part]);
    for (part = 1; part <= PARTS; part++) WANT(rest_in(part, others[part].slot) == 3);
    DONE(bs_group_lock_path(group, strong = begun(), nodes[i % 3], modes[i / 3], &at_once));
    for (part = 1; part <= PARTS; part++) WANT(rest_in(part, others[part].slot) == 0 && marks_in(group, part) == 1);
    want_rules(group);
    reader = begun();
    if (i < 3) DONE(lock_path(reader, records[4][0], BS_S));
    commit(reader);
    for (part = 1; part <= PARTS; part++) WANT(rest_in(part, reader.slot) == 0);
    want_rules(group);
    DONE(lock_path(strong, records[1][1], BS_S));
    commit(strong);
    WANT(rest_in(1, strong.slot) == 0);
    WANT(let_rest(1, PARTS, BS_S) < group->most);
    want_rest(group);
  }
}

/* Who rests keeps nobody from more than an intention on a file, whether that is locked, tried or escalated to. */
static void who_rests_is_in_nobodys_way(void) {
  bs_txn txn = begun(), holder;
  uint32_t slot;
  sleeper own;
  keep(16);
  slot = let_rest(1, 3, BS_X);
  WANT(slot != txn.slot);
  DONE(bs_group_lock_path(group, txn, files[1], BS_X, &at_once));
  WANT(rest_in(1, slot) == 0 && rest_in(2, slot) == 3);
  DONE(lock_path(txn, records[2][1], BS_S));
  WANT(DONE(bs_group_escalate(group, txn, files[2])).mode == BS_S);
  WANT(rest_in(2, slot) == 0 && rest_in(3, slot) == 3);
  want_rules(group);
  DONE(lock_path(holder = begun(), records[3][1], BS_X));
  WANT(holder.slot == slot);
  slot = let_rest(3, 3, BS_X);
  sleep_in(&own, 3, txn, files[3], BS_S);
  WANT(rest_in(3, slot) == 0);
  commit(holder);
  wakes_with(&own, BS_DONE);
  WANT(rest_in(3, holder.slot) == 0);
  commit(txn);
  want_rest(group);
}

/* A transaction that fell, or is aborted, keeps nothing; what rests elsewhere for its slot stays. */
static void aborts_keep_nothing(void) {
  bs_txn txn, other;
  sleeper own;
  uint32_t slot;
  keep(16);
  slot = let_rest(1, 2, BS_X);
  txn = begun();
  DONE(lock_path(txn, records[1][1], BS_X));
  DONE(bs_group_abort(group, txn));
  WANT(txn.slot == slot && rest_in(1, slot) == 0 && rest_in(2, slot) == 3);
  want_rules(group);
  other = begun();
  txn = begun();
  WANT(other.slot == slot);
  DONE(lock_path(other, records[2][0], BS_X));
  DONE(lock_path(txn, records[2][1], BS_X));
  sleep_in(&own, 2, other, records[2][1], BS_X);
  ANSWERS(BS_VICTIM, lock_path(txn, records[2][0], BS_X));
  ANSWERS(BS_TXN_CONDEMNED, bs_group_commit(group, txn));
  DONE(bs_group_abort(group, txn));
  WANT(rest_in(2, txn.slot) == 0);
  wakes_with(&own, BS_DONE);
  commit(other);
  WANT(rest_in(2, slot) == 3);
  want_rest(group);
}

/* Two wait for each other in part 1: this one falls, and the other, which slept, goes on. */
static void falls_beside(bs_txn falls, bs_txn sleeps) {
  sleeper own;
  DONE(lock_path(falls, records[1][0], BS_X));
  DONE(lock_path(sleeps, records[1][1], BS_X));
  sleep_in(&own, 1, sleeps, records[1][0], BS_X);
  ANSWERS(BS_VICTIM, lock_path(falls, records[1][1], BS_X));
  DONE(bs_group_abort(group, falls));
  wakes_with(&own, BS_DONE);
  commit(sleeps);
}

/* What an older transaction has kept does not make the next one of its slot older: it falls in its turn. */
static void what_rests_is_as_young_as_the_next(void) {
  bs_txn middle = begun(), txn = DONE(bs_group_begin_again(group, 0)).txn;
  uint32_t slot = txn.slot;
  keep(16);
  DONE(lock_path(middle, records[1][1], BS_S));
  DONE(lock_path(txn, records[1][0], BS_X));
  commit(txn);
  WANT(rest_in(1, slot) == 3);
  txn = begun();
  WANT(txn.slot == slot && middle.age < txn.age);
  falls_beside(txn, middle);
  want_rest(group);
}

/* Work that was tried before is as old as it was: it takes nothing up. */
static void work_that_is_tried_again_joins(void) {
  bs_txn other, txn;
  uint32_t slot;
  keep(16);
  slot = let_rest(1, 2, BS_X);
  txn = DONE(bs_group_begin_again(group, 0)).txn;
  other = DONE(bs_group_begin_again(group, 1)).txn;
  WANT(txn.slot == slot);
  DONE(lock_path(txn, base, BS_IS));
  WANT(rest_in(1, slot) == 3 && rest_in(2, slot) == 3);
  DONE(lock_path(txn, records[2][1], BS_S));
  WANT(rest_in(2, slot) == 0 && held_in(group, 2, txn, files[2]) == BS_IS);
  falls_beside(other, txn);
  WANT(rest_in(1, slot) == 3 && rest_in(2, slot) == 3);
  want_rest(group);
}

/* Many transactions of several slots, over several blocks of ages, by turns in one part and another. */
static void slots_take_turns(void) {
  bs_txn txns[3];
  uint32_t i, j;
  keep(16);
  for (i = 0; i < 500; i++) {
    for (j = 0; j < 3; j++) DONE(lock_path(txns[j] = begun(), records[1 + (i * (j + 1)) % PARTS][j], BS_X));
    for (j = 0; j < 3; j++) commit(txns[j]);
    if (i % 50 == 0) want_rules(group);
  }
  WANT(rest_in(1 + (499 % PARTS), txns[0].slot) == 3);
  want_rest(group);
}

/* A group ends with those who rest in it. */
static void ends_end_what_rests(void) {
  keep(16);
  let_rest(1, PARTS, BS_X);
  DONE(bs_group_end(group));
  ANSWERS(BS_NO_MANAGER, bs_group_keep(group, 0));
  DONE(bs_group_free(&group));
  world_keeps = 0;
}

/* A group ends under those who sleep in it. */
static void ends_wake_all(void) {
  bs_txn holder = begun(), one = begun(), two = begun();
  sleeper own, too;
  DONE(lock_path(holder, records[2][0], BS_X));
  sleep_in(&own, 2, one, records[2][0], BS_X);
  sleep_in(&too, 0, two, base, BS_S);
  DONE(bs_group_end(group));
  join(own.thread);
  join(too.thread);
  ANSWERS(BS_NO_MANAGER, own.reply);
  ANSWERS(BS_NO_MANAGER, too.reply);
  ANSWERS(BS_NO_MANAGER, bs_group_commit(group, holder));
  ANSWERS(BS_NO_MANAGER, lock_path(one, base, BS_S));
  DONE(bs_group_free(&group));
}

/* The same while they look for cycles. */
static void ends_come_between_looks(void) {
  enum { SLEEPERS = 8 };
  sleeper own[SLEEPERS];
  struct timespec some = { 0, 15000000 };
  bs_txn holder = begun(), txns[SLEEPERS];
  uint32_t i;
  for (i = 1; i <= PARTS; i++) DONE(lock_path(holder, records[i][0], BS_X));
  for (i = 0; i < SLEEPERS; i++) DONE(lock_path(txns[i] = begun(), records[1 + (i + 1) % PARTS][1], BS_S));
  for (i = 0; i < SLEEPERS; i++) {
    bool is_last = i >= SLEEPERS - 2;
    sleep_in(&own[i], is_last ? 0 : 1 + i % PARTS, txns[i], is_last ? base : records[1 + i % PARTS][0], BS_S);
  }
  WANT(group_count_spread(group) > SLEEPERS / 2);
  nanosleep(&some, NULL);
  DONE(bs_group_end(group));
  for (i = 0; i < SLEEPERS; i++) {
    join(own[i].thread);
    ANSWERS(BS_NO_MANAGER, own[i].reply);
  }
  DONE(bs_group_free(&group));
}

/* ------------------------------------------------------------------------------------------------
 * Stories of spread files.
 */

static bs_node add_spread(void) {
  return DONE(bs_group_add_spread_file(group, &areas[1], 1)).node;
}

/* The file that has a row. */
static bs_node file_of(bs_node spread, uint64_t number) {
  return DONE(bs_group_file_of_row(group, spread, number)).node;
}

/* The first row in a part, from this number on. */
static uint64_t row_in(bs_node spread, uint32_t part, uint64_t number) {
  while (bs_group_table(file_of(spread, number)) != part) number++;
  return number;
}

static bs_reply lock_dealt(bs_txn txn, bs_node spread, uint64_t number, bs_mode mode, const struct timespec *until) {
  return bs_group_lock_row_path(group, txn, spread, number, NULL, 0, mode, until);
}

static bs_reply try_dealt(bs_txn txn, bs_node spread, uint64_t number, bs_mode mode) {
  return bs_group_try_row_path(group, txn, spread, number, NULL, 0, mode, BS_KEEP_NOTHING);
}

/* Starts a thread that requests a row, and waits until it sleeps in this table. */
static void sleep_for_dealt(sleeper *own, uint32_t table, bs_txn txn, bs_node spread, uint64_t number, bs_mode mode) {
  memset(own, 0, sizeof *own);
  own->is_row = true;
  own->number = number;
  own->txn = txn;
  own->node = spread;
  own->mode = mode;
  start(&own->thread, sleep_for_it, own);
  while (!sleeps_in(table, txn)) nap();
  want_rules(group);
}

/* Of so many parts each has an even share of rows whose numbers have equal steps. */
static void want_even_shares(uint32_t parts, uint64_t step) {
  uint32_t shares[BS_MOST_PARTS + 1] = { 0 }, i, part;
  for (i = 0; i < 64 * parts; i++) {
    part = group_part_of_row(i * step, parts);
    WANT(part >= 1 && part <= parts);
    shares[part]++;
  }
  for (part = 1; part <= parts; part++) WANT(shares[part] >= 32 && shares[part] <= 96);
}

/* Each part has a file below the inner node, which is its rows' own. */
static void rows_are_dealt_to_all_parts(void) {
  bs_node spread = add_spread(), other = add_spread();
  uint32_t parts, part;
  for (parts = 1; parts <= BS_MOST_PARTS; parts++) {
    const uint64_t steps[] = { 1, 2, 10, 1000, parts, 2 * parts, (uint64_t)parts << 16, 4096, 65536, (uint64_t)1 << 32,
                               (uint64_t)1 << 40, (uint64_t)1 << 48 };
    size_t i;
    for (i = 0; i < sizeof steps / sizeof steps[0]; i++) want_even_shares(parts, steps[i]);
  }
  WANT(bs_group_table(spread) == 0 && !group_is_node(spread, other));
  for (part = 1; part <= PARTS; part++) {
    bs_node file = file_of(spread, row_in(spread, part, 0)), there = DONE(bs_group_name_in(group, file, part)).node;
    const bs_manager *m = bs_group_hold(group, part);
    bs_node above = DONE(bs_parent(m, there, 0)).node;
    WANT(bs_kind(m, there).count == BS_FILE && bs_kind(m, above).count == BS_INNER);
    WANT(bs_parent(m, there, 1).status != BS_DONE);
    DONE(bs_group_let_go(group, part));
    WANT(group_is_node(DONE(bs_group_name_of(group, above, part)).node, spread));
    WANT(group_is_node(DONE(bs_group_name_of(group, there, part)).node, file));
    WANT(group_is_node(file, file_of(spread, row_in(spread, part, 1000))));
    WANT(!group_is_node(file, file_of(other, row_in(other, part, 0))));
  }
  group_take_all(group); /* The question needs no latch. */
  WANT(bs_group_table(file_of(spread, 7)) == group_part_of_row(7, PARTS));
  group_release_all(group);
  want_rest(group);
}

/* A row needs its part alone, with what is above the spread file: here two areas. */
static void rows_need_one_part(void) {
  bs_node spread = DONE(bs_group_add_spread_file(group, areas, 2)).node;
  bs_txn txn = begun(), strong = begun();
  uint32_t table, part = bs_group_table(file_of(spread, 7));
  DONE(lock_dealt(txn, spread, 7, BS_X, NULL));
  for (table = 0; table <= PARTS; table++) {
    bs_mode mode = table == part ? BS_IX : BS_NL;
    WANT(held_in(group, table, txn, spread) == mode && held_in(group, table, txn, base) == mode);
    WANT(held_in(group, table, txn, areas[0]) == mode && held_in(group, table, txn, areas[1]) == mode);
  }
  WANT(!group_slot_at(group, txn.slot)->is_in_main && group_count_spread(group) == 0);
  ANSWERS(BS_TIMED_OUT, lock_for(strong, areas[1], BS_S, 1));
  commit(txn);
  commit(strong);
  want_rest(group);
}

/* A row is locked, tried and unlocked in its part, with the intentions above it there. */
static void rows_are_locked_in_their_parts(void) {
  bs_node spread = add_spread();
  bs_txn txn = begun(), other = begun();
  uint64_t number;
  uint32_t table;
  for (number = 0; number < 40; number++) {
    bs_node file = file_of(spread, number), row = DONE(lock_dealt(txn, spread, number, BS_X, NULL)).node;
    uint32_t part = bs_group_table(file);
    WANT(bs_group_table(row) == part && DONE(bs_group_held(group, txn, row)).mode == BS_X);
    WANT(held_in(group, part, txn, file) == BS_IX && held_in(group, part, txn, spread) == BS_IX);
    WANT(group_is_node(ANSWERS(BS_WOULD_BLOCK, try_dealt(other, spread, number, BS_S)).node, row));
    ANSWERS(BS_TIMED_OUT, lock_dealt(other, spread, number, BS_S, &at_once));
    DONE(try_dealt(other, spread, number + 1000, BS_S));
    DONE(bs_group_unlock_row(group, txn, spread, number));
    ANSWERS(BS_NO_SUCH_NODE, bs_group_unlock_row(group, txn, spread, number));
    DONE(try_dealt(other, spread, number, BS_X));
    ANSWERS(BS_WOULD_BLOCK, try_dealt(txn, spread, number, BS_S));
    ANSWERS(BS_TIMED_OUT, lock_dealt(txn, spread, number, BS_X, &at_once));
  }
  for (table = 0; table <= PARTS; table++) WANT(held_in(group, table, other, spread) == (table == 0 ? BS_NL : BS_IX));
  WANT(!group_slot_at(group, txn.slot)->is_in_main && DONE(bs_group_held(group, other, spread)).mode == BS_IX);
  commit(other);
  commit(txn);
  want_rest(group);
}

/* In a part the file is escalated and locked for the rows there. */
static void files_of_parts_are_escalated(void) {
  bs_node spread = add_spread();
  bs_txn txn = begun(), other = begun();
  uint64_t here = row_in(spread, 2, 0), too = row_in(spread, 2, here + 1), far = row_in(spread, 3, 0);
  bs_node file = file_of(spread, here), row = DONE(lock_dealt(txn, spread, here, BS_X, NULL)).node;
  bs_reply reply;
  DONE(lock_dealt(txn, spread, far, BS_X, NULL));
  reply = DONE(bs_group_escalate(group, txn, file));
  WANT(reply.mode == BS_X && reply.released == 1);
  ANSWERS(BS_NO_SUCH_NODE, bs_group_held(group, txn, row));
  WANT(group_is_node(ANSWERS(BS_WOULD_BLOCK, try_dealt(other, spread, too, BS_S)).node, file));
  DONE(lock_dealt(other, spread, row_in(spread, 3, far + 1), BS_X, NULL));
  DONE(lock_path(other, file_of(spread, row_in(spread, 1, 0)), BS_S));
  ANSWERS(BS_WOULD_BLOCK, try_dealt(txn, spread, row_in(spread, 1, 0), BS_X));
  DONE(try_dealt(txn, spread, row_in(spread, 1, 0), BS_S));
  ANSWERS(BS_WOULD_BLOCK, bs_group_try_path(group, other, spread, BS_S, BS_KEEP_WAY));
  commit(txn);
  DONE(bs_group_unlock(group, other, file_of(spread, row_in(spread, 1, 0))));
  commit(other);
  want_rest(group);
}

/* Below a spread file nothing is made but its files, and it has nothing of a file but rows. */
static void wrong_graphs_of_spread_files_are_refused(void) {
  bs_node spread = add_spread(), file = file_of(spread, row_in(spread, 1, 0)), two[2], none = { 77, 3 };
  two[0] = base;
  two[1] = spread;
  ANSWERS(BS_BAD_PARENTS, bs_group_add_spread_file(group, NULL, 0));
  ANSWERS(BS_BAD_PARENTS, bs_group_add_spread_file(group, &spread, 1));
  ANSWERS(BS_NO_SUCH_NODE, bs_group_add_spread_file(group, &none, 1));
  ANSWERS(BS_NO_SUCH_NODE, bs_group_add_spread_file(group, &files[1], 1));
  ANSWERS(BS_BAD_NUMBER, bs_group_add_spread_file(group, &base, 9));
  ANSWERS(BS_BAD_PARENTS, bs_group_add_inner(group, two, 2));
  ANSWERS(BS_BAD_PARENTS, bs_group_add_file(group, 1, &spread, 1));
  ANSWERS(BS_BAD_PARENTS, bs_group_add_row_file(group, 0, two, 2));
  ANSWERS(BS_BAD_PARENTS, bs_group_add_index(group, &base, 1, spread, NULL, 0));
  ANSWERS(BS_BAD_PARENTS, bs_group_add_index(group, &spread, 1, files[1], NULL, 0));
  ANSWERS(BS_BAD_PARENTS, bs_group_add_index(group, &base, 1, file, NULL, 0));
  ANSWERS(BS_BAD_PARENTS, bs_group_add_file(group, 1, &file, 1));
  ANSWERS(BS_ROWS_BY_NUMBER, bs_group_adopt(group, spread, NULL, 0));
  ANSWERS(BS_ROWS_BY_NUMBER, bs_group_adopt(group, file, NULL, 0));
  ANSWERS(BS_BAD_PARENTS, bs_group_forget(group, spread));
  WANT(bs_group_hold(group, 1) != NULL);
  ANSWERS(BS_IN_USE, bs_group_add_spread_file(group, &base, 1));
  ANSWERS(BS_IN_USE, bs_group_file_of_row(group, spread, 1));
  DONE(bs_group_let_go(group, 1));
  want_rest(group);
}

/* Each wrong use of a spread file by a transaction. */
static void wrong_uses_of_spread_files_are_refused(void) {
  bs_node spread = add_spread(), file = file_of(spread, row_in(spread, 1, 0)), late = { spread.key, spread.birth + 1 };
  bs_txn txn = begun();
  uint64_t key = 5;
  ANSWERS(BS_ROWS_BY_NUMBER, bs_group_insert(group, txn, spread, NULL, 0));
  ANSWERS(BS_ROWS_BY_NUMBER, bs_group_insert(group, txn, file, NULL, 0));
  ANSWERS(BS_BAD_PARENTS, bs_group_unlock(group, txn, spread));
  ANSWERS(BS_BAD_PARENTS, bs_group_escalate(group, txn, spread));
  ANSWERS(BS_BAD_PARENTS, bs_group_drop(group, txn, spread));
  ANSWERS(BS_BAD_PARENTS, bs_group_index_by(group, txn, &base, 1, spread, NULL, 0));
  ANSWERS(BS_BAD_KEYS, bs_group_lock_row_path(group, txn, spread, 1, &key, 1, BS_S, NULL));
  ANSWERS(BS_BAD_KEYS, bs_group_try_row_path(group, txn, spread, 1, &key, 1, BS_S, BS_KEEP_WAY));
  ANSWERS(BS_BAD_NUMBER, lock_dealt(txn, spread, 1, BS_X + 1, NULL));
  ANSWERS(BS_NOT_ROWS, lock_dealt(txn, late, 1, BS_X, NULL));
  ANSWERS(BS_NOT_ROWS, bs_group_file_of_row(group, base, 1));
  ANSWERS(BS_NOT_ROWS, bs_group_file_of_row(group, late, 1));
  ANSWERS(BS_NOT_ROWS, bs_group_file_of_row(group, row_files[1], 1));
  ANSWERS(BS_NOT_ROWS, bs_group_file_of_row(group, file, 1));
  ANSWERS(BS_NO_SUCH_NODE, bs_group_unlock_row(group, txn, spread, 1));
  ANSWERS(BS_NO_SUCH_NODE, bs_group_rekey_row(group, txn, spread, 1, indexes[1], 5));
  commit(txn);
  ANSWERS(BS_NO_SUCH_TXN, lock_dealt(txn, spread, 1, BS_X, NULL));
  ANSWERS(BS_NO_SUCH_TXN, bs_group_unlock_row(group, txn, spread, 1));
  want_rest(group);
}

/* The file in a part stays as it is, and a row has no second name by it. */
static void files_of_parts_stay_as_they_are(void) {
  bs_node spread = add_spread();
  uint64_t number = row_in(spread, 1, 0);
  bs_node file = file_of(spread, number);
  bs_txn txn = begun();
  DONE(lock_dealt(txn, spread, number, BS_X, NULL));
  ANSWERS(BS_NOT_ROWS, lock_dealt(txn, file, number, BS_X, NULL));
  ANSWERS(BS_NOT_ROWS, try_dealt(txn, file, number, BS_X));
  ANSWERS(BS_NOT_ROWS, bs_group_unlock_row(group, txn, file, number));
  ANSWERS(BS_NOT_ROWS, bs_group_rekey_row(group, txn, file, number, indexes[1], 5));
  ANSWERS(BS_BAD_PARENTS, bs_group_rekey_row(group, txn, spread, number, indexes[1], 5));
  ANSWERS(BS_NO_SUCH_NODE, bs_group_rekey_row(group, txn, spread, number, indexes[2], 5));
  DONE(bs_group_unlock_row(group, txn, spread, number));
  DONE(lock_path(txn, file, BS_X));
  DONE(lock_path(txn, row_files[1], BS_X));
  ANSWERS(BS_BAD_PARENTS, bs_group_drop(group, txn, file));
  ANSWERS(BS_BAD_PARENTS, bs_group_move(group, txn, file, &base, 1));
  ANSWERS(BS_BAD_PARENTS, bs_group_move(group, txn, row_files[1], &spread, 1));
  ANSWERS(BS_BAD_PARENTS, bs_group_index_by(group, txn, &base, 1, file, NULL, 0));
  ANSWERS(BS_BAD_PARENTS, bs_group_index_by(group, txn, &spread, 1, row_files[1], NULL, 0));
  DONE(lock_dealt(txn, spread, number, BS_X, NULL));
  DONE(bs_group_lock_row_path(group, txn, row_files[1], 1, (const uint64_t[]){ 5 }, 1, BS_X, NULL));
  commit(txn);
  want_rest(group);
}

/* Other files of rows serve as ever, whatever keys their names have in the part. */
static void other_files_stay_free(void) {
  bs_node spread = add_spread();
  bs_txn txn = begun();
  const uint64_t key = 5;
  size_t i;
  WANT(group->tables[1].dealt != 0 && bs_group_table(spread) == 0);
  for (i = 0; i < 64; i++) {
    bs_node file = DONE(bs_group_add_row_file(group, 1, &areas[1], 1)).node;
    DONE(bs_group_add_index(group, &base, 1, file, NULL, 0));
    DONE(bs_group_lock_row_path(group, txn, file, 7, &key, 1, BS_X, NULL));
    DONE(bs_group_unlock_row(group, txn, file, 7));
    file = DONE(bs_group_add_row_file(group, 1, &areas[1], 1)).node;
    DONE(lock_path(txn, file, BS_X));
    DONE(bs_group_drop(group, txn, file));
  }
  commit(txn);
  want_rest(group);
}

/* More than an intention on the whole and a row of each part wait for each other; the same on an area above it. */
static void spread_files_are_locked_as_a_whole(void) {
  bs_node spread = add_spread(), whole[2];
  uint32_t i;
  whole[0] = spread;
  whole[1] = areas[1];
  for (i = 0; i < 2 * PARTS; i++) {
    uint32_t part = 1 + i % PARTS;
    uint64_t number = row_in(spread, part, 10 * i), too = row_in(spread, part, number + 1);
    bs_txn writer = begun(), reader = begun(), strong = begun(), last = begun();
    sleeper own;
    DONE(lock_dealt(writer, spread, number, BS_X, NULL));
    DONE(lock_dealt(reader, spread, too, BS_S, NULL));
    sleep_in(&own, 0, strong, whole[i / PARTS], BS_S);
    WANT(marks_in(group, part) == 1 && held_in(group, 0, writer, spread) == (i < PARTS ? BS_IX : BS_NL));
    commit(writer);
    wakes_with(&own, BS_DONE);
    DONE(try_dealt(last, spread, number, BS_S));
    DONE(bs_group_unlock_row(group, last, spread, number));
    writer = begun();
    sleep_for_dealt(&own, 0, writer, spread, number, BS_X);
    DONE(lock_dealt(strong, spread, number, BS_X, NULL));
    WANT(DONE(bs_group_held(group, strong, whole[i / PARTS])).mode == BS_SIX);
    commit(strong);
    wakes_with(&own, BS_DONE);
    commit(writer);
    sleep_in(&own, 0, last, whole[i / PARTS], BS_X);
    commit(reader);
    wakes_with(&own, BS_DONE);
    reader = begun();
    sleep_for_dealt(&own, 0, reader, spread, too, BS_S);
    ANSWERS(BS_WOULD_BLOCK, try_dealt(strong = begun(), spread, number + 100, BS_S));
    commit(last);
    wakes_with(&own, BS_DONE);
    commit(strong);
    commit(reader);
    want_rest(group);
  }
}

/* Two that wait for each other's rows in two parts: the younger falls. */
static void cycles_over_rows_end(void) {
  bs_node spread = add_spread();
  bs_txn old = begun(), young = begun();
  uint64_t one = row_in(spread, 1, 0), two = row_in(spread, 2, 0);
  sleeper own;
  DONE(lock_dealt(old, spread, one, BS_X, NULL));
  DONE(lock_dealt(young, spread, two, BS_X, NULL));
  sleep_for_dealt(&own, 2, old, spread, two, BS_X);
  ANSWERS(BS_VICTIM, lock_dealt(young, spread, one, BS_X, NULL));
  ANSWERS(BS_TXN_CONDEMNED, try_dealt(young, spread, two, BS_S));
  ANSWERS(BS_TXN_CONDEMNED, bs_group_unlock_row(group, young, spread, two));
  DONE(bs_group_abort(group, young));
  wakes_with(&own, BS_DONE);
  commit(old);
  want_rest(group);
}

/* What a commit keeps in a part serves for each row there, and a lock of the whole ends it. */
static void intentions_on_spread_files_are_kept(void) {
  bs_node spread = add_spread();
  bs_txn txn = begun();
  uint64_t number = row_in(spread, 1, 0);
  bs_counts before, after;
  keep(16);
  DONE(lock_dealt(txn, spread, number, BS_X, NULL));
  commit(txn);
  WANT(rest_in(1, txn.slot) == 4);
  txn = begun();
  DONE(bs_group_counters(group, &before));
  DONE(lock_dealt(txn, spread, row_in(spread, 1, number + 1), BS_X, NULL));
  DONE(bs_group_counters(group, &after));
  WANT(after.granted == before.granted + 1);
  commit(txn);
  WANT(rest_in(1, txn.slot) == 4);
  DONE(lock_path(txn = begun(), spread, BS_S));
  WANT(rest_in(1, txn.slot) == 0);
  commit(txn);
  want_rest(group);
}

/* Whatever memory is refused, there is either a spread file in all parts, or no name of one. */
static void refused_memory_makes_no_spread_file(void) {
  bs_txn txn = begun();
  uint32_t made, part;
  for (made = 0; made < 20; made++) {
    uint32_t before = group->tables[0].count;
    bs_reply reply;
    long next;
    for (next = 1, reply.status = BS_NO_MEMORY; reply.status == BS_NO_MEMORY; next++) {
      refused_allocation = next;
      reply = bs_group_add_spread_file(group, &areas[made % AREAS], 1);
      refused_allocation = 0;
      want_rules(group);
      WANT(group->tables[0].count == before + (reply.status == BS_DONE ? 1 : 0));
    }
    WANT(next > 3);
    DONE(reply);
    for (part = 1; part <= PARTS; part++) DONE(lock_dealt(txn, reply.node, row_in(reply.node, part, 0), BS_X, NULL));
  }
  commit(txn);
  want_rest(group);
}

/* How many nodes a table has. */
static uint64_t nodes_in(bs_table_group *of, uint32_t table) {
  uint64_t nodes = bs_len(bs_group_hold(of, table)).count;
  DONE(bs_group_let_go(of, table));
  return nodes;
}

/* A part that has room for the inner node alone. */
static void full_parts_get_no_spread_file(void) {
  bs_table_group *small = NULL;
  bs_options options;
  bs_node root;
  memset(&options, 0, sizeof options);
  options.nodes = 4;
  DONE(bs_group_make(&small, &options, 2));
  root = DONE(bs_group_add_inner(small, NULL, 0)).node;
  DONE(bs_group_add_file(small, 2, &root, 1));
  DONE(bs_group_add_file(small, 2, &root, 1));
  ANSWERS(BS_TOO_MANY_NODES, bs_group_add_spread_file(small, &root, 1));
  WANT(nodes_in(small, 0) == 1 && nodes_in(small, 1) == 1 && nodes_in(small, 2) == 3);
  DONE(bs_group_add_inner(small, &root, 1));
  ANSWERS(BS_TOO_MANY_NODES, bs_group_add_inner(small, &root, 1));
  DONE(bs_group_end(small));
  ANSWERS(BS_NO_MANAGER, bs_group_add_spread_file(small, &root, 1));
  ANSWERS(BS_NO_MANAGER, bs_group_file_of_row(small, root, 1));
  DONE(bs_group_free(&small));
}

/* Tellers move money between accounts, which are rows of one spread file, while auditors read all of them at once. */
enum { ACCOUNTS = 24, TELLERS = 14, AUDITORS = 2, TRANSFERS = 300, MONEY = 100 };

static bs_node bank;
static uint64_t accounts[ACCOUNTS]; /* each read and written with its row */
static uint32_t tellers_left;       /* atomic */

typedef struct clerk {
  pthread_t thread;
  pcg dice;
  uint64_t done;
} clerk;

/* Whether a transaction gets an account in BS_X; else it is tried in vain, or a victim. */
static bool has_account(clerk *own, bs_txn txn, uint64_t number) {
  bool tries = pcg_below(&own->dice, 4) == 0;
  bs_reply reply = tries ? try_dealt(txn, bank, number, BS_X) : lock_dealt(txn, bank, number, BS_X, NULL);
  if (reply.status != BS_WOULD_BLOCK && reply.status != BS_VICTIM) DONE(reply);
  return reply.status == BS_DONE;
}

static void *teller(void *place) {
  clerk *own = (clerk *)place;
  while (own->done < TRANSFERS) {
    uint64_t low = pcg_below(&own->dice, ACCOUNTS - 1), high = low + 1 + pcg_below(&own->dice, ACCOUNTS - 1 - low);
    bs_txn txn = begun();
    if (!has_account(own, txn, low) || !has_account(own, txn, high)) {
      DONE(bs_group_abort(group, txn));
      continue;
    }
    accounts[low]++;
    accounts[high]--;
    commit(txn);
    own->done++;
  }
  __atomic_fetch_sub(&tellers_left, 1, __ATOMIC_SEQ_CST);
  return NULL;
}

static void *auditor(void *place) {
  clerk *own = (clerk *)place;
  while (own->done == 0 || __atomic_load_n(&tellers_left, __ATOMIC_SEQ_CST) > 0) {
    bs_txn txn = begun();
    uint64_t sum = 0;
    size_t i;
    DONE(lock_path(txn, bank, BS_S));
    for (i = 0; i < ACCOUNTS; i++) sum += accounts[i];
    WANT(sum == ACCOUNTS * MONEY);
    commit(txn);
    own->done++;
    nap();
  }
  return NULL;
}

static void threads_share_a_spread_file(void) {
  static clerk clerks[TELLERS + AUDITORS];
  size_t i;
  bank = add_spread();
  tellers_left = TELLERS;
  for (i = 0; i < ACCOUNTS; i++) accounts[i] = MONEY;
  memset(clerks, 0, sizeof clerks);
  for (i = 0; i < TELLERS + AUDITORS; i++) {
    clerks[i].dice = pcg_new(7, i);
    start(&clerks[i].thread, i < TELLERS ? teller : auditor, &clerks[i]);
  }
  for (i = 0; i < 40; i++) WANT(!group_is_node(add_spread(), bank));
  for (i = 0; i < TELLERS + AUDITORS; i++) join(clerks[i].thread);
  want_rest(group);
}

/* ------------------------------------------------------------------------------------------------
 * A crowd: threads make random transactions, and each lock that is granted is checked against a shadow, which counts who
 * has what.
 */

enum { MOST_THREADS = 128, MOST_CLAIMS = 512, ROWS = 6 };

/* What is counted of a node or a row: who holds it in S or more, or in X; and who reads or writes something below it, the
 * node itself not counted. */
typedef struct shade {
  uint64_t readers, writers; /* of the node itself, by BS_S, BS_SIX or BS_X; by BS_X */
  uint64_t reads, writes;    /* below it */
} shade;

static shade of_base, of_areas[AREAS], of_quarters[AREAS], of_files[MOST_PARTS + 1], of_row_files[MOST_PARTS + 1];
static shade of_records[MOST_PARTS + 1][RECORDS], of_rows[MOST_PARTS + 1][ROWS];
static bs_node dealt;                             /* a spread file below an area */
static shade of_dealt, of_dealt_in[MOST_PARTS + 1], of_dealt_rows[2 * ROWS];

enum { CROSSED = 200, INDEXES = 3 };

/* A file below the first areas, one or two, with its indexes and the areas of those, which the holder of the file in BS_X
 * changes. */
typedef struct crossed_file {
  bs_node node, records[RECORDS], indexes[INDEXES];
  uint32_t parents, areas[INDEXES], index_count;
  shade of, of_records[RECORDS];
} crossed_file;

static crossed_file crossed[CROSSED];
static uint32_t crossed_now; /* atomic: the one that is used; after it has all its indexes the next is */

/* The word of an ask: whose it is, and whether it is for a begin. */
typedef struct crowd_word {
  struct crowd_thread *own;
  bool is_begin;
} crowd_word;

/* A thread of the crowd. */
typedef struct crowd_thread {
  pthread_t thread;
  uint32_t number;
  pcg dice;
  bs_txn txn;
  uint64_t since;
  size_t claims;
  uint64_t *at[MOST_CLAIMS];
  uint64_t commits, aborts, victims, times, strong, checks, ended, changes, rollbacks, asks, cancels, begins;
  crowd_word of_locks, of_begins;
  bs_reply end;                 /* of its ask, once it was told */
  bool is_told;                 /* atomic, as the next two */
  uint64_t named_slot, named_age; /* the name of its transaction, for who cancels its wait */
} crowd_thread;

static crowd_thread crowd_threads[MOST_THREADS];
static uint32_t crowd_count;

static uint64_t crowd_end;     /* the time of the clock */
static uint32_t strong_share;  /* of a thousand requests */

static void claim(crowd_thread *own, uint64_t *count) {
  WANT(own->claims < MOST_CLAIMS);
  __atomic_fetch_add(count, 1, __ATOMIC_SEQ_CST);
  own->at[own->claims++] = count;
}

/* How many others there are. */
static uint64_t others(const crowd_thread *own, const uint64_t *count) {
  uint64_t all = __atomic_load_n(count, __ATOMIC_SEQ_CST), mine = 0;
  size_t i;
  for (i = 0; i < own->claims; i++) mine += own->at[i] == count;
  WANT(all >= mine);
  return all - mine;
}

/* Gives up all claims but the first, so many. */
static void give_up_claims(crowd_thread *own, size_t left) {
  while (own->claims > left) __atomic_fetch_sub(own->at[--own->claims], 1, __ATOMIC_SEQ_CST);
}

/* This thread has read or written something below a node. */
static void below(crowd_thread *own, shade *of, bool writes) {
  claim(own, writes ? &of->writes : &of->reads);
  WANT(others(own, &of->writers) == 0);
  if (writes) WANT(others(own, &of->readers) == 0);
}

/* This thread has a node or a row in a mode. */
static void has(crowd_thread *own, shade *of, bs_mode mode) {
  if (mode == BS_IS || mode == BS_IX) {
    below(own, of, mode == BS_IX);
    return;
  }
  claim(own, &of->readers);
  if (mode == BS_X) claim(own, &of->writers);
  if (mode == BS_SIX) claim(own, &of->writes);
  WANT(others(own, &of->writers) == 0 && others(own, &of->writes) == 0);
  if (mode == BS_X) WANT(others(own, &of->readers) == 0 && others(own, &of->reads) == 0);
  if (mode == BS_SIX) WANT(others(own, &of->readers) == 0);
}

static void above_part(crowd_thread *own, uint32_t part, bool writes) {
  below(own, &of_base, writes);
  below(own, &of_areas[(part - 1) % AREAS], writes);
}

static uint32_t draw(crowd_thread *own, uint32_t below_this) {
  return (uint32_t)pcg_below(&own->dice, below_this);
}

/* Whether a request was granted. If its transaction fell, `fell` is set. */
static bool was_granted(crowd_thread *own, bs_reply reply, bool *fell) {
  if (reply.status == BS_DONE) return true;
  if (reply.status == BS_VICTIM) *fell = true;
  else own->times++;
  WANT(reply.status == BS_VICTIM || reply.status == BS_TIMED_OUT || reply.status == BS_WOULD_BLOCK ||
       reply.status == BS_NOT_WAITING);
  return false;
}

/* The same of a row, whose file may have got another index. */
static bool row_was_granted(crowd_thread *own, bs_reply reply, bool *fell) {
  if (reply.status != BS_BAD_KEYS) return was_granted(own, reply, fell);
  own->ended++;
  return false;
}

/* A time for a request: mostly none. */
static const struct timespec *some_time(crowd_thread *own, struct timespec *time) {
  if (draw(own, 10) > 0) return NULL;
  *time = moment_in(draw(own, 2000));
  return time;
}

/* The callback of the crowd's group. */
static void hear_in_crowd(void *context, bs_txn txn, bs_reply end, void *word) {
  const crowd_word *of = (const crowd_word *)word;
  crowd_thread *own = of->own;
  bs_txn named = of->is_begin ? end.txn : own->txn;
  WANT(context == &crowd_end && txn.slot == named.slot && txn.age == named.age);
  WANT(!__atomic_load_n(&own->is_told, __ATOMIC_RELAXED));
  own->end = end;
  __atomic_store_n(&own->is_told, true, __ATOMIC_RELEASE);
}

/* Waits for the end of an ask; asks of others end meanwhile. */
static bs_reply hear_of_ask(crowd_thread *own, bs_reply reply) {
  if (reply.status != BS_WAITING) return reply;
  own->asks++;
  while (!__atomic_load_n(&own->is_told, __ATOMIC_ACQUIRE)) {
    nap();
    DONE(bs_group_expire(group, NULL));
  }
  return own->end;
}

/* Awaits what a list has left waiting: it sleeps, or asks for that end. */
static bs_reply run_and_await(crowd_thread *own, bs_command *list, const struct timespec *until) {
  bs_group_run(group, list, 1);
  if (list->reply.status != BS_WAITING) return list->reply;
  if (draw(own, 2) == 0) return bs_group_await(group, own->txn, until);
  return hear_of_ask(own, bs_group_ask_await(group, own->txn, until, &own->of_locks));
}

/* Locks a node: the thread sleeps in the call, it asks, or a list leaves it waiting. */
static bs_reply lock_node(crowd_thread *own, bs_node node, bs_mode mode, const struct timespec *until) {
  bs_command list = bs_do_at(BS_DO_LOCK_PATH, own->txn, node, mode);
  uint32_t way = draw(own, 4);
  __atomic_store_n(&own->is_told, false, __ATOMIC_RELAXED);
  if (way == 0) return hear_of_ask(own, bs_group_ask_path(group, own->txn, node, mode, until, &own->of_locks));
  if (way == 1) return run_and_await(own, &list, until);
  return bs_group_lock_path(group, own->txn, node, mode, until);
}

/* Locks a row in one of these ways. */
static bs_reply lock_row(crowd_thread *own, bs_node file, uint64_t number, const uint64_t *keys, size_t count,
                         bs_mode mode, const struct timespec *until) {
  bs_command list = bs_do_at(BS_DO_LOCK_ROW_PATH, own->txn, file, mode);
  uint32_t way = draw(own, 4);
  list.file = file;
  list.number = number;
  list.keys = keys;
  list.key_count = count;
  __atomic_store_n(&own->is_told, false, __ATOMIC_RELAXED);
  if (way == 0) {
    return hear_of_ask(
        own, bs_group_ask_row_path(group, own->txn, file, number, keys, count, mode, until, &own->of_locks));
  }
  if (way == 1) return run_and_await(own, &list, until);
  return bs_group_lock_row_path(group, own->txn, file, number, keys, count, mode, until);
}

/* Cancels the wait of another transaction, if it waits. */
static void cancel_another(crowd_thread *own) {
  const crowd_thread *other = &crowd_threads[draw(own, crowd_count)];
  bs_txn txn;
  bs_reply reply;
  txn.slot = (uint32_t)__atomic_load_n(&other->named_slot, __ATOMIC_RELAXED);
  txn.age = __atomic_load_n(&other->named_age, __ATOMIC_RELAXED);
  if (other == own) return;
  reply = bs_group_cancel(group, txn);
  if (reply.status == BS_DONE) own->cancels++;
  WANT(reply.status == BS_DONE || reply.status == BS_NOT_WAITING || reply.status == BS_NO_SUCH_TXN);
}

/* Mostly a lock, and else a try. */
static bool request(crowd_thread *own, bs_node node, bs_mode mode, bool *fell) {
  struct timespec time;
  if (draw(own, 5) == 0) {
    return was_granted(own, bs_group_try_path(group, own->txn, node, mode, draw(own, 2)), fell);
  }
  return was_granted(own, lock_node(own, node, mode, some_time(own, &time)), fell);
}

static bool is_write(bs_mode mode) {
  return mode == BS_IX || mode >= BS_SIX;
}

static bs_mode some_mode(crowd_thread *own) {
  static const bs_mode modes[] = { BS_IS, BS_IX, BS_S, BS_SIX, BS_X };
  return modes[draw(own, 5)];
}

/* The spread file as a whole. */
static void touch_dealt(crowd_thread *own, bool *fell) {
  bs_mode mode = some_mode(own);
  if (!request(own, dealt, mode, fell)) return;
  own->strong++;
  below(own, &of_base, is_write(mode));
  below(own, &of_areas[1], is_write(mode));
  has(own, &of_dealt, mode);
}

static void touch_inner(crowd_thread *own, bool *fell) {
  uint32_t area = draw(own, AREAS), depth = draw(own, 4);
  bs_mode mode = some_mode(own);
  if (depth == 3) {
    touch_dealt(own, fell);
    return;
  }
  if (!request(own, depth == 0 ? base : depth == 1 ? areas[area] : quarters[area], mode, fell)) return;
  own->strong++;
  if (depth > 0) below(own, &of_base, is_write(mode));
  if (depth > 1) below(own, &of_areas[area], is_write(mode));
  has(own, depth == 0 ? &of_base : depth == 1 ? &of_areas[area] : &of_quarters[area], mode);
}

static void touch_file(crowd_thread *own, bool *fell) {
  uint32_t part = 1 + draw(own, world_parts);
  bs_mode mode = some_mode(own);
  if (!request(own, files[part], mode, fell)) return;
  above_part(own, part, is_write(mode));
  has(own, &of_files[part], mode);
}

static void touch_record(crowd_thread *own, bool *fell) {
  uint32_t part = 1 + draw(own, world_parts), record = draw(own, RECORDS);
  bool writes = draw(own, 2) == 0;
  if (!request(own, records[part][record], writes ? BS_X : BS_S, fell)) return;
  above_part(own, part, writes);
  below(own, &of_files[part], writes);
  has(own, &of_records[part][record], writes ? BS_X : BS_S);
}

/* A row: to write it the area of its index is needed too. */
static void touch_row(crowd_thread *own, bool *fell) {
  uint32_t part = 1 + draw(own, world_parts), row = draw(own, ROWS);
  uint64_t key = row * (uint64_t)50;
  bool writes = draw(own, 2) == 0;
  struct timespec time;
  bs_mode mode = writes ? BS_X : BS_S;
  bs_reply reply;
  if (draw(own, 5) == 0) {
    reply = bs_group_try_row_path(group, own->txn, row_files[part], row, &key, 1, mode, draw(own, 2));
  } else {
    reply = lock_row(own, row_files[part], row, &key, 1, mode, some_time(own, &time));
  }
  if (!row_was_granted(own, reply, fell)) return;
  above_part(own, part, writes);
  below(own, &of_quarters[(part - 1) % AREAS], writes);
  if (writes) below(own, &of_areas[index_areas[part]], true);
  below(own, &of_row_files[part], writes);
  has(own, &of_rows[part][row], writes ? BS_X : BS_S);
}

/* A row of the spread file, by its number, or its file in a part. */
static void touch_dealt_row(crowd_thread *own, bool *fell) {
  uint32_t row = draw(own, 2 * ROWS), part = bs_group_table(file_of(dealt, row)), drawn = draw(own, 10);
  bool writes = draw(own, 2) == 0;
  struct timespec time;
  bs_mode mode = writes ? BS_X : BS_S;
  bs_reply reply;
  if (drawn == 0) {
    reply = lock_node(own, file_of(dealt, row), mode, some_time(own, &time));
  } else if (drawn < 3) {
    reply = bs_group_try_row_path(group, own->txn, dealt, row, NULL, 0, mode, draw(own, 2));
  } else {
    reply = lock_row(own, dealt, row, NULL, 0, mode, some_time(own, &time));
  }
  if (!was_granted(own, reply, fell)) return;
  below(own, &of_base, writes);
  below(own, &of_areas[1], writes);
  below(own, &of_dealt, writes);
  if (drawn > 0) below(own, &of_dealt_in[part], writes);
  has(own, drawn > 0 ? &of_dealt_rows[row] : &of_dealt_in[part], mode);
}

/* This thread has something below such a file. Who reads needs one of its parents, and it is not known here which. */
static void above_crossed(crowd_thread *own, const crossed_file *file, bool writes) {
  uint32_t i;
  below(own, &of_base, writes);
  if (!writes) return;
  for (i = 0; i < file->parents; i++) below(own, &of_areas[i], true);
  for (i = 0; i < file->index_count; i++) below(own, &of_areas[file->areas[i]], true);
}

static crossed_file *crossed_file_of_now(void) {
  return &crossed[__atomic_load_n(&crossed_now, __ATOMIC_SEQ_CST)];
}

/* A record of such a file. */
static void touch_crossed(crowd_thread *own, bool *fell) {
  uint32_t record = draw(own, RECORDS);
  crossed_file *file = crossed_file_of_now();
  bool writes = draw(own, 2) == 0;
  if (!request(own, file->records[record], writes ? BS_X : BS_S, fell)) return;
  above_crossed(own, file, writes);
  below(own, &file->of, writes);
  has(own, &file->of_records[record], writes ? BS_X : BS_S);
}

/* Has such a file and its indexes in BS_X. */
static bool has_crossed(crowd_thread *own, crossed_file *file, bool *fell) {
  struct timespec time = moment_in(1000);
  uint32_t i;
  if (!was_granted(own, lock_node(own, file->node, BS_X, &time), fell)) return false;
  below(own, &of_base, true);
  has(own, &file->of, BS_X);
  for (i = 0; i < file->index_count; i++) {
    if (!was_granted(own, lock_node(own, file->indexes[i], BS_X, &time), fell)) return false;
  }
  above_crossed(own, file, true);
  return true;
}

/* Makes one more index of such a file, beside its records. */
static void touch_crossed_schema(crowd_thread *own, bool *fell) {
  const uint64_t keys[RECORDS] = { 0, 0, 0, 0 };
  uint32_t area = draw(own, AREAS);
  crossed_file *file = crossed_file_of_now();
  bs_reply reply;
  if (!has_crossed(own, file, fell) || file->index_count == INDEXES) return;
  reply = bs_group_index_records(group, own->txn, &areas[area], 1, file->node, NULL, 0, file->records, keys, RECORDS);
  if (reply.status == BS_FILE_IN_USE || !was_granted(own, reply, fell)) return;
  below(own, &of_areas[area], true);
  file->areas[file->index_count] = area;
  file->indexes[file->index_count++] = reply.node;
  own->changes++;
  if (file->index_count < INDEXES || file == &crossed[CROSSED - 1]) return;
  __atomic_store_n(&crossed_now, (uint32_t)(file - crossed) + 1, __ATOMIC_SEQ_CST);
}

/* A record that is inserted, and mostly deleted. */
static void touch_new(crowd_thread *own, bool *fell) {
  uint32_t part = 1 + draw(own, world_parts);
  bs_reply reply = bs_group_insert(group, own->txn, files[part], NULL, 0);
  if (!was_granted(own, reply, fell)) return;
  above_part(own, part, true);
  below(own, &of_files[part], true);
  DONE(bs_group_delete(group, own->txn, reply.node));
}

static void touch_escalated(crowd_thread *own) {
  uint32_t part = 1 + draw(own, world_parts);
  bool is_dealt = draw(own, 2) == 0;
  bs_node file = is_dealt ? file_of(dealt, row_in(dealt, part, 0)) : files[part];
  bs_reply reply = bs_group_escalate(group, own->txn, file);
  if (reply.status == BS_NOT_HELD || reply.status == BS_WOULD_BLOCK) return;
  DONE(reply);
  has(own, is_dealt ? &of_dealt_in[part] : &of_files[part], reply.mode);
}

/* Has a node of a file of rows in BS_X, or the file, within a millisecond. */
static bool has_for_change(crowd_thread *own, uint32_t part, bs_node node, bool *fell) {
  struct timespec time = moment_in(1000);
  if (!was_granted(own, lock_node(own, node, BS_X, &time), fell)) return false;
  above_part(own, part, true);
  below(own, &of_quarters[(part - 1) % AREAS], true);
  return true;
}

/* Moves the index of a file of rows below an area. */
static void move_index(crowd_thread *own, uint32_t part, uint32_t area, bool *fell) {
  if (!was_granted(own, bs_group_move(group, own->txn, indexes[part], &areas[area], 1), fell)) return;
  below(own, &of_areas[area], true);
  index_areas[part] = area;
  own->changes++;
}

/* Puts another index in the place of that of a file of rows, mostly in another area, or moves it there. Rows that wait
 * for the file have one key, before and after that. */
static void touch_schema(crowd_thread *own, bool *fell) {
  const uint64_t bound = BOUND;
  uint32_t part = 1 + draw(own, world_parts), area = draw(own, AREAS);
  bs_reply reply;
  if (!has_for_change(own, part, row_files[part], fell)) return;
  has(own, &of_row_files[part], BS_X);
  if (!has_for_change(own, part, indexes[part], fell)) return;
  below(own, &of_areas[index_areas[part]], true);
  if (draw(own, 2) == 0) {
    move_index(own, part, area, fell);
    return;
  }
  reply = bs_group_index_by(group, own->txn, &areas[area], 1, row_files[part], &bound, 1);
  if (reply.status == BS_FILE_IN_USE || !was_granted(own, reply, fell)) return;
  below(own, &of_areas[area], true);
  DONE(bs_group_drop(group, own->txn, indexes[part]));
  indexes[part] = reply.node;
  index_areas[part] = area;
  own->changes++;
}

static void touch_something(crowd_thread *own, bool *fell) {
  uint32_t drawn = draw(own, 1000);
  if (drawn < strong_share) touch_inner(own, fell);
  else if (drawn < strong_share + 50) touch_file(own, fell);
  else if (drawn < strong_share + 100) touch_new(own, fell);
  else if (drawn < strong_share + 250) touch_crossed(own, fell);
  else if (drawn < strong_share + 270) touch_escalated(own);
  else if (drawn < strong_share + 290) touch_schema(own, fell);
  else if (drawn < strong_share + 350) touch_crossed_schema(own, fell);
  else if (drawn < 650) touch_record(own, fell);
  else if (drawn < 800) touch_dealt_row(own, fell);
  else touch_row(own, fell);
}

/* Asks for a begin, and may cancel that. */
static bs_reply ask_begin(crowd_thread *own, const struct timespec *until) {
  bool is_cancelled = false;
  bs_reply reply;
  __atomic_store_n(&own->is_told, false, __ATOMIC_RELAXED);
  reply = bs_group_ask_begin_again(group, own->since, until, &own->of_begins);
  if (reply.status != BS_WAITING) return reply;
  own->begins++;
  if (draw(own, 4) == 0) is_cancelled = bs_group_cancel_begin(group, &own->of_begins).status == BS_DONE;
  reply = hear_of_ask(own, reply);
  WANT((reply.status == BS_NOT_WAITING) == is_cancelled);
  return reply;
}

/* Begins a transaction; others may have all slots. */
static void begin_one(crowd_thread *own) {
  bs_reply reply = bs_group_begin_again(group, own->since);
  while (reply.status == BS_TOO_MANY_TXNS) {
    struct timespec time = moment_in(draw(own, 2000));
    const struct timespec *until = draw(own, 2) == 0 ? NULL : &time;
    if (draw(own, 2) == 0) reply = ask_begin(own, until);
    else reply = bs_group_begin_again_in_turn(group, own->since, until);
    if (reply.status == BS_TIMED_OUT || reply.status == BS_NOT_WAITING) reply = bs_group_begin_again(group, own->since);
  }
  own->txn = DONE(reply).txn;
  __atomic_store_n(&own->named_slot, own->txn.slot, __ATOMIC_RELAXED);
  __atomic_store_n(&own->named_age, own->txn.age, __ATOMIC_RELAXED);
  if (own->since == UINT64_MAX) own->since = own->txn.age;
}

/* Sets a savepoint, of a transaction with so many claims, or rolls back to it. What it has in the main table stays, but
 * nothing is claimed of that any more. */
static void use_savepoint(crowd_thread *own, bs_group_savepoint *savepoint, size_t *claims) {
  if (draw(own, 2) == 0) {
    DONE(bs_group_mark(group, own->txn, savepoint));
    *claims = own->claims;
    return;
  }
  give_up_claims(own, *claims);
  DONE(bs_group_release_since(group, own->txn, savepoint));
  own->rollbacks++;
}

/* Makes one transaction. A victim begins again, as old as before. */
static void make_one(crowd_thread *own) {
  uint32_t left = 1 + draw(own, 6);
  bool fell = false;
  bs_group_savepoint savepoint;
  size_t claims = 0;
  begin_one(own);
  memset(&savepoint, 0, sizeof savepoint);
  while (left-- > 0 && !fell) {
    touch_something(own, &fell);
    if (draw(own, 200) == 0) nap();
    if (!fell && draw(own, 10) == 0) use_savepoint(own, &savepoint, &claims);
    if (draw(own, 20) == 0) cancel_another(own);
  }
  give_up_claims(own, 0);
  if (fell || draw(own, 10) == 0) {
    DONE(bs_group_abort(group, own->txn));
    if (fell) own->victims++;
    else own->aborts++;
  } else {
    DONE(bs_group_commit(group, own->txn));
    own->commits++;
  }
  if (!fell) own->since = UINT64_MAX;
}

static void *in_crowd(void *place) {
  crowd_thread *own = (crowd_thread *)place;
  uint32_t made = 0;
  own->since = UINT64_MAX;
  while (own->commits == 0 || bs_call_now() < crowd_end) {
    make_one(own);
    if (++made % 300 != own->number) continue;
    if (world_keeps != 0 && own->number == 0) DONE(bs_group_keep(group, draw(own, 2 * world_keeps)));
    want_rules(group);
    own->checks++;
  }
  return NULL;
}

static void make_crossed(crossed_file *file, uint32_t parents) {
  bs_txn txn = begun();
  size_t i;
  memset(file, 0, sizeof *file);
  file->parents = parents;
  file->node = DONE(bs_group_add_file(group, world_parts > 1 ? 2 : 1, areas, parents)).node;
  for (i = 0; i < RECORDS; i++) file->records[i] = DONE(bs_group_insert(group, txn, file->node, NULL, 0)).node;
  commit(txn);
}

/* A crowd of so many threads, over so many slots, in a group of so many parts that keeps intentions or not. */
static void crowd(uint32_t threads, uint32_t slots, uint32_t parts, uint32_t strong, bool keeps, uint64_t milliseconds,
                  uint64_t seed) {
  crowd_thread *all = crowd_threads, sum;
  uint32_t i;
  world_keeps = keeps ? 8 : 0;
  world_parts = parts;
  make_world(slots);
  dealt = add_spread();
  for (i = 0; i < CROSSED; i++) make_crossed(&crossed[i], 1 + i % 2);
  crossed_now = 0;
  strong_share = strong;
  crowd_end = bs_call_now() + milliseconds * 1000000;
  memset(all, 0, sizeof crowd_threads);
  crowd_count = threads;
  DONE(bs_group_on_end(group, hear_in_crowd, &crowd_end));
  memset(&sum, 0, sizeof sum);
  for (i = 0; i < threads; i++) {
    all[i].number = i;
    all[i].dice = pcg_new(seed, i);
    all[i].of_locks.own = all[i].of_begins.own = &all[i];
    all[i].of_begins.is_begin = true;
    start(&all[i].thread, in_crowd, &all[i]);
  }
  for (i = 0; i < threads; i++) {
    join(all[i].thread);
    sum.commits += all[i].commits;
    sum.aborts += all[i].aborts;
    sum.victims += all[i].victims;
    sum.times += all[i].times;
    sum.strong += all[i].strong;
    sum.checks += all[i].checks;
    sum.ended += all[i].ended;
    sum.changes += all[i].changes;
    sum.rollbacks += all[i].rollbacks;
    sum.asks += all[i].asks;
    sum.cancels += all[i].cancels;
    sum.begins += all[i].begins;
  }
  printf("crowd of %u, %u slots, %u parts, %u in 1000 strong%s: %llu commits, %llu aborts, %llu victims, ", threads, slots,
         parts, strong, keeps ? ", kept" : "", (unsigned long long)sum.commits, (unsigned long long)sum.aborts,
         (unsigned long long)sum.victims);
  printf("%llu late, %llu inner, %llu checks, %llu indexes, ", (unsigned long long)sum.times,
         (unsigned long long)sum.strong, (unsigned long long)sum.checks, (unsigned long long)sum.changes);
  printf("%llu ended by them, %llu rolled back, %llu asks waited, %llu begins, %llu cancels\n",
         (unsigned long long)sum.ended, (unsigned long long)sum.rollbacks, (unsigned long long)sum.asks,
         (unsigned long long)sum.begins, (unsigned long long)sum.cancels);
  end_world();
  world_keeps = 0;
  world_parts = PARTS;
}

/* ------------------------------------------------------------------------------------------------
 * The program.
 */

/* A story; it is played again in a group that keeps intentions, unless it calls bs_group_keep or depends on what is
 * held. */
#define STORY(name) { #name, name, true }
#define STORY_ALONE(name) { #name, name, false }

static const struct {
  const char *name;
  void (*play)(void);
  bool is_played_again;
} stories[] = {
  STORY(null_groups_are_refused), STORY(wrong_graphs_are_refused), STORY(wrong_requests_are_refused),
  STORY(wrong_changes_are_refused), STORY(changes_need_their_locks), STORY(nodes_are_unlocked), STORY(intervals_are_split_and_merged),
  STORY(schemas_change_in_a_part), STORY(an_index_is_made_beside_records), STORY(wrong_moves_are_refused),
  STORY(files_move_in_their_parts), STORY(parents_stand_for_their_file),
  STORY(who_holds_a_table_is_refused), STORY(names_are_translated), STORY(one_part_needs_no_other),
  STORY(begins_have_ages), STORY_ALONE(records_come_and_go), STORY(rows_have_numbers), STORY(strong_locks_are_in_main),
  STORY(inserts_are_tried), STORY(paths_are_tried), STORY(row_paths_are_tried), STORY(instants_are_released), STORY(nodes_are_made_at_any_time), STORY(many_marks_are_reached),
  STORY_ALONE(answers_are_those_of_a_table),
  STORY(refused_memory_makes_no_group), STORY(refused_memory_breaks_no_rule),
  STORY(refused_memory_makes_no_index), STORY(refused_memory_makes_no_index_beside_records),
  STORY(refused_memory_moves_nothing),
  STORY(instants_are_awaited), STORY(strong_waits_for_records_of_any_part), STORY(records_wait_for_strong),
  STORY(sleepers_are_visited),
  STORY(rows_that_wait_are_visited), STORY(new_indexes_end_paths), STORY(readers_that_wait_are_visited),
  STORY(indexes_need_what_is_above), STORY(other_indexes_end_paths), STORY(new_roots_end_paths),
  STORY(paths_to_records_begin_anew), STORY(paths_begin_anew_after_a_move), STORY(paths_to_rows_begin_anew),
  STORY(all_waits_begin_anew),
  STORY(changes_end_waits), STORY_ALONE(savepoints_are_of_parts), STORY(counters_are_summed),
  STORY(marks_stay_for_requests_above),
  STORY(times_leave_no_marks), STORY(paths_clear_marks), STORY(cycles_over_parts_end), STORY(cycles_over_main_end), STORY(one_of_a_cycle_falls),
  STORY(cycles_of_one_table_end), STORY_ALONE(what_rests_is_taken_up),
  STORY_ALONE(what_is_released_does_not_rest),
  STORY_ALONE(each_part_has_what_rests), STORY_ALONE(only_intentions_rest),
  STORY_ALONE(strong_locks_end_what_rests), STORY_ALONE(who_rests_is_in_nobodys_way), STORY_ALONE(aborts_keep_nothing),
  STORY_ALONE(what_rests_is_as_young_as_the_next), STORY_ALONE(work_that_is_tried_again_joins),
  STORY_ALONE(slots_take_turns), STORY(rows_are_dealt_to_all_parts), STORY(rows_need_one_part),
  STORY(rows_are_locked_in_their_parts), STORY(files_of_parts_are_escalated),
  STORY(wrong_graphs_of_spread_files_are_refused), STORY(wrong_uses_of_spread_files_are_refused),
  STORY(files_of_parts_stay_as_they_are), STORY(other_files_stay_free), STORY(spread_files_are_locked_as_a_whole),
  STORY(cycles_over_rows_end), STORY_ALONE(intentions_on_spread_files_are_kept),
  STORY(refused_memory_makes_no_spread_file), STORY(full_parts_get_no_spread_file),
  STORY(threads_share_a_spread_file),
};

static void play_stories(uint32_t keeps) {
  size_t i;
  for (i = 0; i < sizeof stories / sizeof stories[0]; i++) {
    if (keeps != 0 && !stories[i].is_played_again) continue;
    story = stories[i].name;
    feed(20);
    world_keeps = keeps;
    make_world(BS_SLOTS);
    stories[i].play();
    world_keeps = 0;
    end_world();
    printf("%s%s\n", story, keeps != 0 ? ", kept" : "");
  }
}

static void play_all(void) {
  story = "groups_are_made_and_ended";
  groups_are_made_and_ended();
  printf("%s\n", story);
  play_stories(0);
  play_stories(16);
  story = "ends_end_what_rests";
  make_world(BS_SLOTS);
  ends_end_what_rests();
  printf("%s\n", story);
  story = "ends_wake_all";
  make_world(BS_SLOTS);
  ends_wake_all();
  printf("%s\n", story);
  story = "ends_come_between_looks";
  make_world(BS_SLOTS);
  ends_come_between_looks();
  printf("%s\n", story);
}

static void play_twins(uint64_t seed) {
  size_t i;
  story = "answers_are_those_of_a_table";
  for (i = 0; i < 10; i++) {
    feed(20);
    make_world(BS_SLOTS);
    step_twins_often(10 * seed + i, 2 * TWIN_STEPS);
    end_world();
  }
  printf("%s\n", story);
}

static void play_crowds(uint64_t milliseconds, uint64_t seed) {
  static const struct { uint32_t threads, slots, parts, strong; } crowds[] = {
    { 4, 8, 4, 50 }, { 8, BS_SLOTS, 4, 10 }, { 16, 12, 4, 30 }, { 2, 2, 4, 200 }, { 128, BS_SLOTS, 1, 10 },
    { 128, 100, 16, 10 },
  };
  size_t i, count = sizeof crowds / sizeof crowds[0];
  story = "crowd";
  for (i = 0; i < count; i++) {
    feed(20 + (unsigned)(milliseconds / 1000));
    crowd(crowds[i].threads, crowds[i].slots, crowds[i].parts, crowds[i].strong, (seed + i) % 2 == 0, milliseconds / count,
          seed + i);
  }
}

int main(int count, char **words) {
  setvbuf(stdout, NULL, _IOLBF, 0);
  if (count > 1) {
    uint64_t seed = count > 2 ? (uint64_t)atol(words[2]) : 1;
    play_twins(seed);
    play_crowds((uint64_t)atol(words[1]) * 1000, seed);
    return 0;
  }
  play_all();
  play_crowds(800, 1);
  story = "all memory is given back";
  WANT(blocks_out() == 0);
  return 0;
}
