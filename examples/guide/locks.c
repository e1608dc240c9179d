/*
 * The order of locks; readers of intervals; rows that move between intervals.
 */
#include "guide.h"

#include <stdlib.h>

/* To write, all parents; to read, one. */
void intentions_first(void) {
  bs_manager m;
  struct shop s;
  bs_txn reader, writer;
  bs_node order;
  bs_reply reply;
  open_manager(&m, BS_AT_BLOCK, BS_YOUNGEST);
  s = make_shop(&m);
  order = add_order(&m, &s, 150);
  reader = begin(&m);
  reply = bs_lock(&m, reader, order, BS_S, &told);
  WANT(reply.status == BS_NEED_PARENTS && same_node(reply.node, s.orders));
  DONE(bs_lock(&m, reader, s.db, BS_IS, &told));
  DONE(bs_lock(&m, reader, s.tables, BS_IS, &told));
  DONE(bs_lock(&m, reader, s.orders, BS_IS, &told));
  DONE(bs_lock(&m, reader, order, BS_S, &told));
  DONE(bs_commit(&m, reader, &told));
  writer = begin(&m);
  DONE(bs_lock_path(&m, writer, order, BS_X, &told));
  WANT(bs_held(&m, writer, s.orders).mode == BS_IX);
  WANT(bs_held(&m, writer, interval_of(&m, &s, 150)).mode == BS_IX);
  WANT(bs_held(&m, writer, s.by_day).mode == BS_IX && bs_held(&m, writer, s.db).mode == BS_IX);
  DONE(bs_end(&m));
}

/* No birth is given twice, so this order has no ties. */
static int by_birth(const void *left, const void *right) {
  const bs_node *a = left, *b = right;
  return (a->birth > b->birth) - (a->birth < b->birth);
}

/* Locks nodes in the order of their births, up to the first that is not granted at once. */
static bs_status lock_in_order(bs_manager *m, bs_txn t, bs_node *nodes, size_t count, bs_mode mode) {
  bs_status status = BS_DONE;
  size_t i;
  qsort(nodes, count, sizeof nodes[0], by_birth);
  for (i = 0; i < count && status == BS_DONE; i++) status = bs_lock_path(m, t, nodes[i], mode, &told).status;
  return status;
}

/* Two transactions name the same two orders, each in its own order. */
void one_order_for_all(void) {
  bs_manager m;
  struct shop s;
  bs_txn a, b;
  bs_node of_a[2], of_b[2];
  open_manager(&m, BS_AT_BLOCK, BS_YOUNGEST);
  s = make_shop(&m);
  of_a[0] = of_b[1] = add_order(&m, &s, 150);
  of_a[1] = of_b[0] = add_order(&m, &s, 20);
  a = begin(&m);
  b = begin(&m);
  WANT(lock_in_order(&m, a, of_a, 2, BS_X) == BS_DONE);
  WANT(lock_in_order(&m, b, of_b, 2, BS_X) == BS_WAITING);
  DONE(bs_commit(&m, a, &told));
  WANT(is_told(0, b, BS_TOLD_GRANTED));
  WANT(lock_in_order(&m, b, of_b, 2, BS_X) == BS_DONE);
  DONE(bs_end(&m));
}

/* Who reads to write locks in BS_X at once: two who hold BS_S and ask for more wait for each other. */
void no_upgrades(void) {
  bs_manager m;
  struct shop s;
  bs_txn a, b;
  bs_node order;
  open_manager(&m, BS_AT_BLOCK, BS_YOUNGEST);
  s = make_shop(&m);
  order = add_order(&m, &s, 150);
  a = begin(&m);
  b = begin(&m);
  DONE(bs_lock_path(&m, a, order, BS_S, &told));
  DONE(bs_lock_path(&m, b, order, BS_S, &told));
  WANT(bs_lock_path(&m, a, order, BS_X, &told).status == BS_WAITING);
  WANT(bs_lock_path(&m, b, order, BS_X, &told).status == BS_VICTIM);
  DONE(bs_abort(&m, b, &told));
  WANT(is_told(0, a, BS_TOLD_GRANTED) && told.at[0].mode == BS_X);
  DONE(bs_end(&m));
}

/* A reader has an interval; a writer wants to bring rows into it, or to take one out. */
void no_phantoms(void) {
  bs_manager m;
  struct shop s;
  bs_txn reader, writer;
  bs_node early, inside, interval;
  const uint64_t day = 170;
  open_manager(&m, BS_AT_BLOCK, BS_YOUNGEST);
  s = make_shop(&m);
  early = add_order(&m, &s, 20);
  inside = add_order(&m, &s, 150);
  interval = interval_of(&m, &s, day);
  reader = begin(&m);
  writer = begin(&m);
  DONE(bs_lock_path(&m, reader, interval, BS_S, &told));
  DONE(bs_lock_path(&m, writer, early, BS_X, &told));
  WANT(bs_try(&m, writer, interval, BS_IX).status == BS_WOULD_BLOCK);
  WANT(bs_insert(&m, writer, s.orders, &day, 1).status == BS_NEED_PARENTS);
  WANT(bs_rekey(&m, writer, early, s.by_day, day, &told).status == BS_NEED_PARENTS);
  WANT(bs_lock(&m, writer, inside, BS_X, &told).status == BS_NEED_PARENTS);
  WANT(bs_delete(&m, writer, inside, &told).status == BS_NEED_EXCLUSIVE);
  WANT(bs_effective(&m, reader, inside).mode == BS_S);
  DONE(bs_end(&m));
}

/* Gives an order another day. Its interval need not change by that; where it does, all is locked first. */
static bs_reply move_order(bs_manager *m, const struct shop *s, bs_txn t, bs_node order, uint64_t day) {
  bs_reply reply = bs_lock_path(m, t, order, BS_X, &told);
  if (reply.status != BS_DONE) return reply;
  reply = bs_lock_path(m, t, interval_of(m, s, day), BS_IX, &told);
  if (reply.status != BS_DONE) return reply;
  return bs_rekey(m, t, order, s->by_day, day, &told);
}

/* A writer and a reader wait for a row that moves. The writer lacks the new interval; the reader came by
 * the table, which is the row's parent still. */
void a_row_moves(void) {
  bs_manager m;
  struct shop s;
  bs_txn mover, writer, reader;
  bs_node order;
  open_manager(&m, BS_AT_BLOCK, BS_YOUNGEST);
  s = make_shop(&m);
  order = add_order(&m, &s, 20);
  mover = begin(&m);
  writer = begin(&m);
  reader = begin(&m);
  DONE(bs_lock_path(&m, mover, order, BS_X, &told));
  WANT(bs_lock_path(&m, writer, order, BS_X, &told).status == BS_WAITING);
  WANT(bs_lock_path(&m, reader, order, BS_S, &told).status == BS_WAITING);
  DONE(move_order(&m, &s, mover, order, 150));
  WANT(told.count == 1 && is_told(0, writer, BS_TOLD_MOVED));
  WANT(bs_lock_path(&m, writer, order, BS_X, &told).status == BS_WAITING);
  WANT(bs_held(&m, writer, interval_of(&m, &s, 150)).mode == BS_IX);
  DONE(bs_commit(&m, mover, &told));
  WANT(told.count == 1 && is_told(0, reader, BS_TOLD_GRANTED));
  DONE(bs_commit(&m, reader, &told));
  WANT(told.count == 1 && is_told(0, writer, BS_TOLD_GRANTED));
  DONE(bs_end(&m));
}
