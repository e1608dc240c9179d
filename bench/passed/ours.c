/*
 * The side of a shared table of this repository: readers lock the node in S, the writer in X.
 */
#include "passed.h"
#include "ours.h"

#include "burlapslate_shared.h"

static bs_table *table;
static bs_node node;
static bs_txn txns[READERS + 1];

static void set_up(void) {
  DONE(bs_table_make(&table, NULL));
  node = DONE(bs_table_add_inner(table, NULL, 0)).node;
}

static void take(size_t number) {
  txns[number] = DONE(bs_table_begin(table)).txn;
  DONE(bs_table_lock(table, txns[number], node, number == READERS ? BS_X : BS_S, NULL));
}

static void give_back(size_t number) {
  DONE(bs_table_commit(table, txns[number], NULL));
}

static void tear_down(void) {
  DONE(bs_table_end(table));
  DONE(bs_table_free(&table));
}

const struct side ours = { set_up, take, give_back, tear_down };
