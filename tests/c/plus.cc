// The headers as C++: calls of each, and sessions that sleep.
#include "burlapslate.h"
#include "burlapslate_dump.h"
#include "burlapslate_group.h"
#include "burlapslate_parts.h"
#include "burlapslate_rows.h"
#include "burlapslate_running.h"
#include "burlapslate_session.h"
#include "burlapslate_splits.h"

#include <pthread.h>

static bs_table *table;
static bs_node root;

static void *ask(void *arg) {
  bs_txn *txn = static_cast<bs_txn *>(arg);
  bs_reply reply = bs_table_lock(table, *txn, root, BS_X, NULL);
  return reply.status == BS_DONE && bs_table_commit(table, *txn, NULL).status == BS_DONE ? arg : NULL;
}

static bool waits(bs_txn txn) {
  uint64_t doing = bs_doing(bs_table_hold(table), txn).count;
  bs_table_let_go(table);
  return doing == BS_WAITS;
}

static bool shares() {
  pthread_t thread;
  void *came = NULL;
  bs_options options = {};
  options.detect = BS_BY_WATCHER;
  options.victims = BS_FEWEST;
  options.transactions = 2;
  if (bs_table_make(&table, &options).status != BS_DONE) return false;
  root = bs_table_add_inner(table, NULL, 0).node;
  bs_txn a = bs_table_begin(table).txn, b = bs_table_begin(table).txn;
  if (bs_table_watch_thread(table, 0).status != BS_DONE) return false;
  if (bs_table_lock(table, a, root, BS_S, NULL).status != BS_DONE) return false;
  if (pthread_create(&thread, NULL, ask, &b) != 0) return false;
  while (!waits(b)) continue;
  bs_command list[2] = {};
  list[0] = bs_do(BS_DO_COMMIT, a);
  if (bs_table_try_path(table, a, root, BS_S, BS_KEEP_NOTHING).mode != BS_S) return false;
  if (bs_table_try_row(table, a, root, 1, NULL, 0, BS_X).status != BS_NOT_ROWS) return false;
  list[1] = bs_do_at(BS_DO_TRY_PATH, a, root, BS_S);
  if (bs_table_try_first(table, list + 1, 1) != 0 || list[1].reply.mode != BS_S) return false;
  list[1] = bs_command();
  if (bs_table_run(table, list, 2) != 1 || list[1].reply.status != BS_BAD_NUMBER) return false;
  if (pthread_join(thread, &came) != 0 || came == NULL) return false;
  FILE *nowhere = fopen("/dev/null", "w");
  bool is_written = nowhere != NULL && bs_table_dump(table, nowhere).status == BS_DONE;
  if (nowhere != NULL) fclose(nowhere);
  return is_written && bs_table_end(table).status == BS_DONE && bs_table_free(&table).status == BS_DONE;
}

static void hear(void *context, bs_txn txn, bs_reply end, void *word) {
  bool is_granted = context == NULL && end.status == BS_DONE && end.mode == BS_X;
  if (is_granted) static_cast<bs_txn *>(word)->age -= txn.age;
}

static bool asks() {
  if (bs_table_make(&table, NULL).status != BS_DONE || bs_table_on_end(table, hear, NULL).status != BS_DONE) return false;
  root = bs_table_add_inner(table, NULL, 0).node;
  bs_txn a = bs_table_begin(table).txn, b = bs_table_begin(table).txn, heard = b;
  if (bs_table_ask(table, a, root, BS_X, NULL, NULL).status != BS_DONE) return false;
  if (bs_table_ask_path(table, b, root, BS_X, NULL, &heard).status != BS_WAITING) return false;
  if (bs_table_ask_row(table, a, root, 1, NULL, 0, BS_X, NULL, NULL).status != BS_NOT_ROWS) return false;
  if (bs_table_ask_await(table, a, root, BS_X, NULL, NULL).status != BS_NOT_WAITING) return false;
  if (bs_table_expire(table, NULL).count != 0 || bs_table_commit(table, a, NULL).status != BS_DONE) return false;
  return heard.age == 0 && bs_table_end(table).status == BS_DONE && bs_table_free(&table).status == BS_DONE;
}

static void hear_long(void *context, const bs_long_wait *wait, const bs_deadlock *deadlock) {
  if (context == NULL && deadlock == NULL) bs_table_cancel(table, wait->txn, NULL);
}

static bool take(void *context, const char *text, size_t length) {
  *static_cast<size_t *>(context) += text == NULL ? 0 : length;
  return true;
}

static bool runs() {
  bs_waits waits;
  bs_awaited awaited;
  size_t length = 0;
  if (bs_table_make(&table, NULL).status != BS_DONE) return false;
  root = bs_table_add_inner(table, NULL, 0).node;
  bs_txn a = bs_table_begin(table).txn, b = bs_table_begin(table).txn;
  if (bs_table_on_long_wait(table, 1, hear_long, NULL).status != BS_DONE) return false;
  if (bs_table_lock(table, a, root, BS_X, NULL).status != BS_DONE) return false;
  if (bs_table_lock(table, b, root, BS_S, NULL).status != BS_NOT_WAITING) return false;
  if (bs_table_waited(table, b).status != BS_NOT_WAITING) return false;
  if (bs_table_waits(table, &waits).status != BS_DONE) return false;
  if (waits.waiting != 0 || waits.ended[BS_END_CANCELLED].nanoseconds < 1000000) return false;
  if (bs_table_awaited(table, &awaited, true).status != BS_DONE || awaited.count != 1) return false;
  if (bs_table_metrics(table, take, &length).status != BS_DONE || length == 0) return false;
  return bs_table_end(table).status == BS_DONE && bs_table_free(&table).status == BS_DONE;
}

static bool climbs(bs_txn txn) {
  bs_command list[2];
  bs_node file = bs_table_add_row_file(table, &root, 1).node, first = bs_made(0);
  list[0] = bs_do(BS_DO_ADD_INNER, txn);
  list[0].parents = &root;
  list[1] = bs_do(BS_DO_ADD_INNER, txn);
  list[1].parents = &first;
  list[0].parent_count = list[1].parent_count = 1;
  if (bs_table_run(table, list, 2) != 2) return false;
  if (bs_table_insert_path(table, txn, file, NULL, 0, BS_KEEP_WAY).status != BS_ROWS_BY_NUMBER) return false;
  if (bs_table_ask_row_path(table, txn, file, 1, NULL, 0, BS_S, NULL, NULL).status != BS_NULL_POINTER) return false;
  if (bs_table_try_row_path(table, txn, file, 1, NULL, 0, BS_S, BS_KEEP_NOTHING).status != BS_DONE) return false;
  return bs_table_lock_row_path(table, txn, file, 1, NULL, 0, BS_X, NULL).status == BS_DONE;
}

static bool keeps() {
  if (bs_table_make(&table, NULL).status != BS_DONE) return false;
  root = bs_table_add_inner(table, NULL, 0).node;
  if (bs_table_ask_begin(table, NULL, NULL).status != BS_NULL_POINTER) return false;
  if (bs_table_ask_begin_again(table, 1, NULL, NULL).status != BS_NULL_POINTER) return false;
  if (bs_join(NULL, 0, 1).status != BS_NULL_POINTER) return false;
  if (bs_next_copy(NULL, root, NULL, root).status != BS_NULL_POINTER) return false;
  if (bs_is_clear(NULL, root).status != BS_NULL_POINTER) return false;
  if (bs_may_clear(NULL, root, 0).status != BS_NULL_POINTER) return false;
  if (bs_own_copy(NULL, root, NULL, root, 0).status != BS_NULL_POINTER) return false;
  if (bs_path_lacks(NULL, NULL, 0, { root, BS_X, 0 }, NULL, 0).status != BS_NULL_POINTER) return false;
  if (bs_table_cancel_begin(table, NULL).status != BS_NOT_WAITING) return false;
  bs_session session = bs_session_of(table, 1);
  bs_txn first = bs_session_begin(&session, NULL).txn;
  if (bs_table_lock(table, first, root, BS_IX, NULL).status != BS_DONE) return false;
  if (bs_session_commit(&session, NULL).count != 1) return false;
  if (bs_session_begin_again(&session, first.age, NULL).status != BS_DONE) return false;
  if (!climbs(session.txn)) return false;
  if (bs_session_commit(&session, NULL).status != BS_DONE || bs_session_end(&session).status != BS_DONE) return false;
  return bs_table_end(table).status == BS_DONE && bs_table_free(&table).status == BS_DONE;
}

static bool changes(bs_table_group *group, bs_node base) {
  bs_group_savepoint savepoint = {};
  bs_counts counts;
  bs_txn txn = bs_group_begin(group).txn;
  bs_node file = bs_group_add_file(group, 1, &base, 1).node;
  if (bs_group_lock_path(group, txn, file, BS_X, NULL).status != BS_DONE) return false;
  if (bs_group_mark(group, txn, &savepoint).status != BS_DONE || savepoint.at[1] != 2) return false;
  bs_node index = bs_group_index_by(group, txn, &base, 1, file, NULL, 0).node;
  if (bs_group_split(group, txn, index, 7).status != BS_BAD_PARENTS) return false;
  if (bs_group_merge(group, txn, index).status != BS_BAD_PARENTS) return false;
  if (bs_group_drop(group, txn, index).status != BS_DONE) return false;
  if (bs_group_release_since(group, txn, &savepoint).count != 0) return false;
  if (bs_group_unlock(group, txn, file).status != BS_DONE) return false;
  if (bs_group_counters(group, &counts).status != BS_DONE || counts.accepted == 0) return false;
  return bs_group_commit(group, txn).status == BS_DONE;
}

static bool groups() {
  bs_table_group *group = NULL;
  if (bs_group_make(&group, NULL, 2).status != BS_DONE) return false;
  bs_node base = bs_group_add_inner(group, NULL, 0).node;
  bs_node file = bs_group_add_file(group, 2, &base, 1).node;
  if (bs_group_keep(group, 16).status != BS_DONE) return false;
  bs_txn txn = bs_group_begin(group).txn;
  bs_node record = bs_group_insert(group, txn, file, NULL, 0).node;
  if (bs_group_table(base) != 0 || bs_group_table(record) != 2) return false;
  if (bs_group_lock_path(group, txn, base, BS_S, NULL).mode != BS_SIX) return false;
  if (bs_group_held(group, txn, record).mode != BS_X) return false;
  if (bs_group_commit(group, txn).status != BS_DONE || !changes(group, base)) return false;
  if (bs_group_end(group).status != BS_DONE) return false;
  return bs_group_free(&group).status == BS_DONE && group == NULL;
}

static bool splits() {
  if (bs_table_make(&table, NULL).status != BS_DONE) return false;
  root = bs_table_add_inner(table, NULL, 0).node;
  bs_node file = bs_table_add_file(table, &root, 1).node;
  bs_node index = bs_table_add_index(table, &root, 1, file, NULL, 0).node;
  bs_txn txn = bs_table_begin(table).txn;
  bs_node interval = bs_interval(bs_table_hold(table), index, 0).node;
  if (bs_table_let_go(table).status != BS_DONE) return false;
  if (bs_table_lock_path(table, txn, interval, BS_X, NULL).status != BS_DONE) return false;
  if (bs_split(NULL, txn, interval, 7, NULL).status != BS_NULL_POINTER) return false;
  if (bs_merge(NULL, txn, interval, NULL).status != BS_NULL_POINTER) return false;
  if (bs_index_records(NULL, txn, NULL, 0, interval, NULL, 0, NULL, NULL, 0).status != BS_NULL_POINTER) return false;
  if (bs_table_split(table, txn, interval, 7, NULL).status != BS_DONE) return false;
  if (bs_table_merge(table, txn, interval, NULL).status != BS_DONE) return false;
  return bs_table_end(table).status == BS_DONE && bs_table_free(&table).status == BS_DONE;
}

int main() {
  bs_manager m = BS_NO_MANAGER_HERE;
  return bs_end(&m).status == BS_NO_MANAGER && shares() && asks() && runs() && keeps() && splits() && groups() ? 0 : 1;
}
