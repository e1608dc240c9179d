/*
 * watcher.h: a thread of one's own that ends deadlocks, for a store that was opened with BS_BY_WATCHER.
 */
#ifndef WATCHER_H
#define WATCHER_H

#include "store.h"

struct watcher {
  struct store *store;
  pthread_t thread;
};

void watcher_start(struct watcher *w, struct store *s);

/* Tells the watcher that the store closes, and waits for its end. */
void watcher_stop(struct watcher *w);

#endif
