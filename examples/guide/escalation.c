/*
 * Many locks on rows, traded for one on the table.
 */
#include "guide.h"

enum { MANY_ROWS = 8 };

/* Locks a row to read. After every so many rows the table is asked for; where somebody writes there, the
 * locks on rows do. */
static bs_status lock_to_read(bs_manager *m, bs_txn t, bs_node table, bs_node row) {
  bs_status status;
  if (bs_held(m, t, table).mode >= BS_S) return BS_DONE; /* BS_S, BS_SIX or BS_X: it reads all rows. */
  status = bs_lock_path(m, t, row, BS_S, &told).status;
  if (status != BS_DONE || bs_children(m, t, table).count % MANY_ROWS != 0) return status;
  status = bs_escalate(m, t, table, &told).status;
  return status == BS_WOULD_BLOCK ? BS_DONE : status;
}

static void read_rows(bs_manager *m, const struct shop *s, bs_txn t, const bs_node *rows, size_t count) {
  size_t i;
  for (i = 0; i < count; i++) WANT(lock_to_read(m, t, s->orders, rows[i]) == BS_DONE);
}

/* The first time a writer is in the way, the second time nobody is. */
void a_reader_escalates(void) {
  bs_manager m;
  struct shop s;
  bs_txn reader, writer;
  bs_node rows[3 * MANY_ROWS], other;
  size_t i;
  open_manager(&m, BS_AT_BLOCK, BS_YOUNGEST);
  s = make_shop(&m);
  for (i = 0; i < 3 * MANY_ROWS; i++) rows[i] = add_order(&m, &s, i);
  other = add_order(&m, &s, 250);
  reader = begin(&m);
  writer = begin(&m);
  DONE(bs_lock_path(&m, writer, other, BS_X, &told));
  read_rows(&m, &s, reader, rows, MANY_ROWS);
  WANT(bs_held(&m, reader, s.orders).mode == BS_IS && bs_children(&m, reader, s.orders).count == MANY_ROWS);
  DONE(bs_commit(&m, writer, &told));
  read_rows(&m, &s, reader, rows + MANY_ROWS, 2 * MANY_ROWS);
  WANT(bs_held(&m, reader, s.orders).mode == BS_S && bs_children(&m, reader, s.orders).count == 0);
  WANT(bs_effective(&m, reader, other).mode == BS_S);
  DONE(bs_end(&m));
}

/* A row that is held to write has two parents, so the lock on it goes when both are held in BS_X. */
void a_writer_escalates(void) {
  bs_manager m;
  struct shop s;
  bs_txn t;
  bs_node early;
  bs_reply reply;
  size_t i;
  open_manager(&m, BS_AT_BLOCK, BS_YOUNGEST);
  s = make_shop(&m);
  early = interval_of(&m, &s, 0);
  t = begin(&m);
  for (i = 0; i < MANY_ROWS; i++) DONE(bs_lock_path(&m, t, add_order(&m, &s, i), BS_X, &told));
  reply = DONE(bs_escalate(&m, t, s.orders, &told));
  WANT(reply.mode == BS_X && reply.released == 0 && reply.kept == MANY_ROWS);
  reply = DONE(bs_escalate(&m, t, early, &told));
  WANT(reply.mode == BS_X && reply.released == MANY_ROWS && reply.kept == 0);
  DONE(bs_end(&m));
}

/* Locks on the table and on its index stand for all rows, and are held on no row and no interval. */
void implied_is_not_held(void) {
  bs_manager m;
  struct shop s;
  bs_txn t;
  bs_node order;
  const uint64_t day = 170;
  open_manager(&m, BS_AT_BLOCK, BS_YOUNGEST);
  s = make_shop(&m);
  order = add_order(&m, &s, 150);
  t = begin(&m);
  DONE(bs_lock_path(&m, t, s.orders, BS_X, &told));
  DONE(bs_lock_path(&m, t, s.by_day, BS_X, &told));
  WANT(bs_effective(&m, t, order).mode == BS_X);
  WANT(bs_insert(&m, t, s.orders, &day, 1).status == BS_NEED_PARENTS);
  WANT(bs_delete(&m, t, order, &told).status == BS_NEED_EXCLUSIVE);
  DONE(bs_lock_path(&m, t, order, BS_X, &told));
  DONE(bs_insert(&m, t, s.orders, &day, 1));
  DONE(bs_delete(&m, t, order, &told));
  DONE(bs_end(&m));
}
