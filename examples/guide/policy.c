/*
 * A watcher with a choice of victims of its own: whoever holds the fewest rows gives way. The store has
 * the latch and the transactions' entries.
 */
#include "guide.h"

#include "store.h"

enum { PATIENCE = 1500 }; /* Milliseconds, so that nothing hangs; it is never used up. */

struct policy {
  struct store store;
  struct shop shop;
};

static uint64_t rows_held(struct policy *p, bs_txn txn) {
  bs_reply rows = bs_children(&p->store.manager, txn, p->shop.orders);
  return rows.status == BS_DONE ? rows.count : 0;
}

/* Of those on a cycle the one that gives way. */
static bs_txn with_fewest_rows(struct policy *p, const bs_board *board, bs_slots cycle) {
  bs_txn fewest = { 0, 0 };
  uint32_t slot;
  for (slot = 0; slot < BS_SLOTS; slot++) {
    bs_txn txn = { slot, board->ages[slot] };
    if (!bs_has(cycle, slot)) continue;
    if (fewest.age == 0 || rows_held(p, txn) < rows_held(p, fewest)) fewest = txn;
  }
  return fewest;
}

/* Its wait alone is taken away: its owner is told, undoes what it wrote, and aborts. */
static void give_way(struct store *s, bs_txn txn) {
  struct txn_entry *entry = &s->txn_entries[txn.slot];
  DONE(bs_cancel(&s->manager, txn, &s->told));
  store_deliver(s);
  entry->ending = VICTIM;
  pthread_cond_signal(&entry->wake);
}

/* The slots on a cycle with the lowest that is on one. */
static bs_slots some_cycle(const bs_board *board) {
  bs_slots suspects = bs_suspects(board).slots;
  uint32_t slot = 0;
  while (slot < BS_SLOTS && !bs_has(suspects, slot)) slot++;
  return slot < BS_SLOTS ? bs_on_cycle(board, slot).slots : suspects;
}

/* The latch is held all the time, so each board is of now, and whom it shows waiting can be cancelled. */
static void break_cycles(struct policy *p) {
  bs_board board;
  bs_slots cycle;
  do {
    DONE(bs_read_board(&p->store.manager, &board));
    cycle = some_cycle(&board);
    if (!is_empty(cycle)) give_way(&p->store, with_fewest_rows(p, &board, cycle));
  } while (!is_empty(cycle));
}

/* Looks whenever somebody has begun to wait. */
static void *watch(void *arg) {
  struct policy *p = arg;
  struct store *s = &p->store;
  uint64_t seen = 0;
  store_latch(s);
  while (!s->is_closing) {
    if (s->waits == seen) {
      store_await_news(s);
    } else {
      seen = s->waits;
      break_cycles(p);
    }
  }
  store_unlatch(s);
  return NULL;
}

/* A transaction that asks for one more row. */
struct requester {
  struct policy *policy;
  bs_txn txn;
  bs_node wanted;
  enum ending ending;
  pthread_t thread;
};

static void *ask(void *arg) {
  struct requester *a = arg;
  struct store *s = &a->policy->store;
  store_latch(s);
  a->ending = store_lock(s, a->txn, a->wanted, BS_X, PATIENCE);
  if (a->ending == GRANTED) DONE(bs_commit(&s->manager, a->txn, &s->told));
  else DONE(bs_abort(&s->manager, a->txn, &s->told));
  store_deliver(s);
  store_unlatch(s);
  return NULL;
}

static void start(pthread_t *thread, void *(*run)(void *), void *arg) {
  WANT(pthread_create(thread, NULL, run, arg) == 0);
}

static void stop(struct store *s, pthread_t thread) {
  store_latch(s);
  s->is_closing = true;
  store_tell_news(s);
  store_unlatch(s);
  WANT(pthread_join(thread, NULL) == 0);
}

static struct requester begin_requester(struct policy *p, bs_node has, bs_node wants) {
  struct requester a = { .policy = p, .wanted = wants };
  bs_manager *m = &p->store.manager;
  a.txn = begin(m);
  DONE(bs_lock_path(m, a.txn, has, BS_X, &told));
  return a;
}

/* The older transaction holds one row, the younger two: here the older gives way. */
void another_choice_of_victims(void) {
  static struct policy p;
  bs_manager *m = &p.store.manager;
  struct requester light, heavy;
  pthread_t watcher;
  bs_node left, right;
  store_open(&p.store, BS_BY_WATCHER);
  p.shop = make_shop(m);
  left = add_order(m, &p.shop, 20);
  right = add_order(m, &p.shop, 21);
  light = begin_requester(&p, left, right);
  heavy = begin_requester(&p, right, left);
  DONE(bs_lock_path(m, heavy.txn, add_order(m, &p.shop, 22), BS_X, &told));
  start(&watcher, watch, &p);
  start(&light.thread, ask, &light);
  start(&heavy.thread, ask, &heavy);
  WANT(pthread_join(light.thread, NULL) == 0 && pthread_join(heavy.thread, NULL) == 0);
  stop(&p.store, watcher);
  WANT(light.ending == VICTIM && heavy.ending == GRANTED);
  store_close(&p.store);
}
