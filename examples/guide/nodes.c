/*
 * Which node stands for what.
 */
#include "guide.h"

struct shop make_shop(bs_manager *m) {
  static const uint64_t days[] = { 100, 200 };
  struct shop s;
  s.db = DONE(bs_add_inner(m, NULL, 0)).node;
  s.tables = DONE(bs_add_inner(m, &s.db, 1)).node;
  s.indexes = DONE(bs_add_inner(m, &s.db, 1)).node;
  s.orders = DONE(bs_add_file(m, &s.tables, 1)).node;
  s.by_day = DONE(bs_add_index(m, &s.indexes, 1, s.orders, days, 2)).node;
  return s;
}

/* An order lies under the table and under the interval of its day. */
void which_node_for_what(void) {
  bs_manager m;
  struct shop s;
  bs_node order;
  open_manager(&m, BS_AT_BLOCK, BS_YOUNGEST);
  s = make_shop(&m);
  order = add_order(&m, &s, 150);
  WANT(bs_kind(&m, s.db).count == BS_INNER && bs_kind(&m, s.tables).count == BS_INNER);
  WANT(bs_kind(&m, s.orders).count == BS_FILE && bs_kind(&m, s.by_day).count == BS_INDEX);
  WANT(bs_kind(&m, order).count == BS_RECORD && bs_key(&m, order, 0).count == 150);
  WANT(same_node(bs_parent(&m, order, 0).node, s.orders));
  WANT(same_node(bs_parent(&m, order, 1).node, interval_of(&m, &s, 199)));
  WANT(bs_parent(&m, order, 2).status == BS_NO_PLACE);
  WANT(bs_len(&m).count == 9);
  DONE(bs_end(&m));
}

/* A file whose pages are locked whole, in extents of 64. */
struct heap {
  bs_node root, pages, extents;
};

static struct heap make_heap(bs_manager *m) {
  static const uint64_t firsts[] = { 64, 128, 192 };
  struct heap h;
  h.root = DONE(bs_add_inner(m, NULL, 0)).node;
  h.pages = DONE(bs_add_file(m, &h.root, 1)).node;
  h.extents = DONE(bs_add_index(m, &h.root, 1, h.pages, firsts, 3)).node;
  return h;
}

/* Its number is the page's key, by which it lies in its extent. */
static bs_node add_page(bs_manager *m, bs_txn t, const struct heap *h, uint64_t number) {
  bs_node extent = DONE(bs_interval_of(m, h->extents, number)).node;
  DONE(bs_lock_path(m, t, h->pages, BS_IX, &told));
  DONE(bs_lock_path(m, t, extent, BS_IX, &told));
  return DONE(bs_insert(m, t, h->pages, &number, 1)).node;
}

/* Who reads an extent reads its pages, with no lock on them. */
void pages_as_records(void) {
  bs_manager m;
  struct heap h;
  bs_txn a, b;
  bs_node page, extent;
  open_manager(&m, BS_AT_BLOCK, BS_YOUNGEST);
  h = make_heap(&m);
  a = begin(&m);
  page = add_page(&m, a, &h, 70);
  DONE(bs_commit(&m, a, &told));
  b = begin(&m);
  extent = DONE(bs_interval_of(&m, h.extents, 70)).node;
  DONE(bs_lock_path(&m, b, extent, BS_S, &told));
  WANT(bs_held(&m, b, page).mode == BS_NL && bs_effective(&m, b, page).mode == BS_S);
  DONE(bs_end(&m));
}
