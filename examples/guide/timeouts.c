/*
 * A thread that takes back the waits that are too old. The store has the latch and the transactions' entries.
 */
#include "guide.h"

#include "store.h"

#include <time.h>

enum { LIMIT = 20, PAUSE = 5, PATIENCE = 1500 }; /* Milliseconds; the patience is never used up. */

struct patrol {
  struct store store;
  uint64_t asked_at[BS_SLOTS]; /* by slot, when its last ask began */
  uint64_t ended;              /* how many waits were taken back */
};

/* Milliseconds of a clock that nobody sets. */
static uint64_t now(void) {
  struct timespec moment;
  clock_gettime(CLOCK_MONOTONIC, &moment);
  return (uint64_t)moment.tv_sec * 1000 + (uint64_t)moment.tv_nsec / 1000000;
}

static enum ending timed_lock(struct patrol *p, bs_txn txn, bs_node node, bs_mode mode) {
  p->asked_at[txn.slot] = now();
  return store_lock(&p->store, txn, node, mode, PATIENCE);
}

/* Whoever cancels is told nothing, and nor is the one whose wait it was: its owner is told here. */
static void take_back(struct patrol *p, bs_txn txn) {
  struct store *s = &p->store;
  struct txn_entry *entry = &s->txn_entries[txn.slot];
  DONE(bs_cancel(&s->manager, txn, &s->told));
  store_deliver(s);
  entry->ending = GAVE_UP;
  pthread_cond_signal(&entry->wake);
  p->ended++;
}

/* With the latch held, so that whoever waits is still waiting when it is cancelled. */
static void end_old_waits(struct patrol *p) {
  bs_manager *m = &p->store.manager;
  bs_board board;
  uint32_t slot;
  DONE(bs_read_board(m, &board));
  for (slot = 0; slot < BS_SLOTS; slot++) {
    bs_txn txn = { slot, board.ages[slot] };
    if (bs_doing(m, txn).count != BS_WAITS) continue;
    if (now() - p->asked_at[slot] >= LIMIT) take_back(p, txn);
  }
}

static void *walk(void *arg) {
  struct patrol *p = arg;
  struct timespec pause = { 0, PAUSE * 1000000L };
  bool goes_on = true;
  while (goes_on) {
    nanosleep(&pause, NULL);
    store_latch(&p->store);
    end_old_waits(p);
    goes_on = !p->store.is_closing;
    store_unlatch(&p->store);
  }
  return NULL;
}

/* The transaction whose wait was taken back is active, and keeps its other locks. */
void waits_that_are_too_old(void) {
  static struct patrol p;
  struct store *s = &p.store;
  pthread_t thread;
  bs_node root;
  bs_txn holder, waiter;
  store_open(s, BS_AT_BLOCK);
  root = DONE(bs_add_inner(&s->manager, NULL, 0)).node;
  holder = begin(&s->manager);
  waiter = begin(&s->manager);
  DONE(bs_lock(&s->manager, holder, root, BS_X, &told));
  WANT(pthread_create(&thread, NULL, walk, &p) == 0);
  store_latch(s);
  WANT(timed_lock(&p, waiter, root, BS_X) == GAVE_UP);
  WANT(p.ended == 1 && bs_doing(&s->manager, waiter).count == BS_ACTIVE);
  DONE(bs_commit(&s->manager, holder, &s->told));
  WANT(timed_lock(&p, waiter, root, BS_X) == GRANTED);
  s->is_closing = true;
  store_unlatch(s);
  WANT(pthread_join(thread, NULL) == 0);
  store_close(s);
}
