#include "watcher.h"

#include "check.h"
#include "guide.h"

/* Sleeps until somebody has begun to wait since the last look, since no cycle of waits closes but by a
 * wait that begins. False: the store closes. */
static bool next_board(struct store *s, uint64_t *seen, bs_board *board) {
  bool goes_on;
  store_latch(s);
  while (s->waits == *seen && !s->is_closing) store_await_news(s);
  *seen = s->waits;
  goes_on = !s->is_closing;
  if (goes_on) MUST(bs_read_board(&s->manager, board));
  store_unlatch(s);
  return goes_on;
}

/* The board is looked through without the latch, so it may be old: whoever is on no cycle any more is
 * left alone by bs_settle, and whoever has ended is not found. */
static void settle_suspects(struct store *s, const bs_board *board) {
  bs_slots suspects = bs_suspects(board).slots;
  uint32_t slot;
  for (slot = 0; slot < BS_SLOTS; slot++) {
    bs_txn suspect = { slot, board->ages[slot] };
    bs_reply reply;
    if (!bs_has(suspects, slot)) continue;
    store_latch(s);
    reply = bs_settle(&s->manager, suspect, &s->told);
    if (reply.status != BS_NO_SUCH_TXN) must(reply, "bs_settle");
    store_deliver(s);
    store_unlatch(s);
  }
}

static void *watch(void *arg) {
  struct watcher *w = arg;
  uint64_t seen = 0;
  bs_board board;
  while (next_board(w->store, &seen, &board)) settle_suspects(w->store, &board);
  return NULL;
}

void watcher_start(struct watcher *w, struct store *s) {
  w->store = s;
  if (pthread_create(&w->thread, NULL, watch, w) != 0) fail("no thread for the watcher");
}

void watcher_stop(struct watcher *w) {
  store_latch(w->store);
  w->store->is_closing = true;
  store_tell_news(w->store);
  store_unlatch(w->store);
  pthread_join(w->thread, NULL);
}

/* Two that hold a node in BS_S, and ask for BS_X. */
struct reader {
  struct store *store;
  bs_txn txn;
  bs_node node;
  enum ending ending;
  pthread_t thread;
};

static void *convert(void *arg) {
  struct reader *r = arg;
  struct store *s = r->store;
  store_latch(s);
  r->ending = store_lock(s, r->txn, r->node, BS_X, FOR_EVER);
  if (r->ending == GRANTED) DONE(bs_commit(&s->manager, r->txn, &s->told));
  else DONE(bs_abort(&s->manager, r->txn, &s->told));
  store_deliver(s);
  store_unlatch(s);
  return NULL;
}

void a_watcher_of_your_own(void) {
  static struct store store;
  struct watcher watcher;
  struct reader readers[2];
  bs_node root;
  size_t i;
  store_open(&store, BS_BY_WATCHER);
  root = DONE(bs_add_inner(&store.manager, NULL, 0)).node;
  for (i = 0; i < 2; i++) {
    struct reader r = { .store = &store, .node = root };
    r.txn = begin(&store.manager);
    DONE(bs_lock(&store.manager, r.txn, root, BS_S, &told));
    readers[i] = r;
  }
  watcher_start(&watcher, &store);
  for (i = 0; i < 2; i++) WANT(pthread_create(&readers[i].thread, NULL, convert, &readers[i]) == 0);
  for (i = 0; i < 2; i++) WANT(pthread_join(readers[i].thread, NULL) == 0);
  watcher_stop(&watcher);
  WANT(readers[0].ending == GRANTED && readers[1].ending == VICTIM);
  store_close(&store);
}
