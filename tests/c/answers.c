/* A program that is compiled against a package, as C and as C++: two sessions wait for each other, each answer is
 * compared, and the status is the number of the first line with a wrong answer. */
#include "burlapslate.h"
#include "burlapslate_shared.h"

#include <pthread.h>

static bs_table *table;
static bs_node node;

static void *other(void *came) {
  bs_txn txn = bs_table_begin(table).txn;
  if (bs_table_lock(table, txn, node, BS_X, NULL).status != BS_DONE) return NULL;
  return bs_table_commit(table, txn, NULL).status == BS_DONE ? came : NULL;
}

#define WANTED(CALL, STATUS) \
  do { \
    if ((CALL).status != (STATUS)) return __LINE__; \
  } while (0)

/* Two transactions hold S and request X: the younger is the victim. */
static int deadlock(void) {
  bs_manager m = BS_NO_MANAGER_HERE;
  bs_notices told;
  WANTED(bs_begin(&m), BS_NO_MANAGER);
  WANTED(bs_make(&m, NULL), BS_DONE);
  bs_node db = bs_add_inner(&m, NULL, 0).node;
  bs_txn a = bs_begin(&m).txn, b = bs_begin(&m).txn;
  WANTED(bs_lock(&m, a, db, BS_S, &told), BS_DONE);
  WANTED(bs_lock(&m, b, db, BS_S, &told), BS_DONE);
  WANTED(bs_lock(&m, a, db, BS_X, &told), BS_WAITING);
  WANTED(bs_lock(&m, b, db, BS_X, &told), BS_VICTIM);
  WANTED(bs_abort(&m, b, &told), BS_DONE);
  if (told.count != 1 || told.at[0].kind != BS_TOLD_GRANTED || told.at[0].mode != BS_X) return __LINE__;
  WANTED(bs_commit(&m, b, &told), BS_NO_SUCH_TXN);
  WANTED(bs_commit(&m, a, &told), BS_DONE);
  WANTED(bs_end(&m), BS_DONE);
  return 0;
}

/* How many transactions wait for the node. */
static uint64_t waiters(void) {
  const bs_manager *m = bs_table_hold(table);
  uint64_t count = bs_queue_len(m, node).count;
  bs_table_let_go(table);
  return count;
}

/* A session sleeps until the other commits. */
static int sleeper(void) {
  pthread_t thread;
  void *came = NULL;
  WANTED(bs_table_make(&table, NULL), BS_DONE);
  node = bs_table_add_inner(table, NULL, 0).node;
  bs_txn txn = bs_table_begin(table).txn;
  WANTED(bs_table_lock(table, txn, node, BS_X, NULL), BS_DONE);
  if (pthread_create(&thread, NULL, other, table) != 0) return __LINE__;
  while (waiters() == 0) continue;
  WANTED(bs_table_commit(table, txn, NULL), BS_DONE);
  if (pthread_join(thread, &came) != 0 || came != table) return __LINE__;
  WANTED(bs_table_end(table), BS_DONE);
  WANTED(bs_table_free(&table), BS_DONE);
  return 0;
}

int main(void) {
  int line = deadlock();
  return line != 0 ? line : sleeper();
}
