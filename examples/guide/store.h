/*
 * store.h: a lock manager under a scheduler of one's own: one latch round all its calls, transactions that sleep
 * while they wait, and the notices that wake them. It knows nothing of what is locked. With threads as here,
 * bs_table does the same in fewer lines.
 *
 * The latch is held for a call or a few, never for the length of a transaction, and never in a sleep.
 */
#ifndef STORE_H
#define STORE_H

#include "burlapslate.h"

#include <pthread.h>

/* How an ask for a lock ends: GRANTED to GONE are the kinds of notices. */
enum ending {
  NOT_YET = 0,
  GRANTED = BS_TOLD_GRANTED,
  VICTIM = BS_TOLD_VICTIM, /* to end a deadlock: roll back, abort, and begin again */
  MOVED = BS_TOLD_MOVED,   /* the node has other parents now: ask again, from the root down */
  GONE = BS_TOLD_GONE,     /* the node is no more */
  GAVE_UP = 5,             /* it took longer than the requester's patience */
  ENDINGS = 6
};

/* For messages. */
const char *ending_text(enum ending ending);

/* The patience of who waits as long as it takes. */
enum { FOR_EVER = 0 };

/* Where the transaction of a slot sleeps, and how its wait ended. */
struct txn_entry {
  pthread_cond_t wake;
  enum ending ending;
};

struct store {
  pthread_mutex_t latch;
  pthread_cond_t news; /* somebody began to wait, came to a gate, or closes the store */
  bs_manager manager;
  bs_notices told; /* by the last call */
  struct txn_entry txn_entries[BS_SLOTS];
  uint64_t waits;          /* how many waits have begun */
  uint64_t ended[ENDINGS]; /* and how many have ended, by their endings */
  bool is_closing;
};

void store_open(struct store *s, enum bs_detects detect);

/* No thread uses the store any more. */
void store_close(struct store *s);

void store_latch(struct store *s);
void store_unlatch(struct store *s);

/* These are called with the latch held. */

/* Asks for a lock, and sleeps until its end where it has to wait: at most `patience` milliseconds. The
 * latch is free during the sleep, so whatever was read under it before may be old. */
enum ending store_lock(struct store *s, bs_txn txn, bs_node node, bs_mode mode, unsigned patience);

/* Wakes whom the last call with `told` has told something; to be called after each such call. */
void store_deliver(struct store *s);

bool store_is_waiting(struct store *s, bs_txn txn);
void store_tell_news(struct store *s);
void store_await_news(struct store *s);

#endif
