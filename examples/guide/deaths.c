/*
 * Threads that end without ending their transactions: between calls, and within one.
 */
#include "guide.h"

#include <errno.h>
#include <pthread.h>

/* A manager whose mutex says when its holder has died. */
struct guarded {
  pthread_mutex_t mutex;
  bool is_busy; /* a call is under way, or its notices are not delivered yet */
  bs_manager manager;
  struct shop shop;
};

static void open_guarded(struct guarded *g) {
  pthread_mutexattr_t robust;
  WANT(pthread_mutexattr_init(&robust) == 0);
  WANT(pthread_mutexattr_setrobust(&robust, PTHREAD_MUTEX_ROBUST) == 0);
  WANT(pthread_mutex_init(&g->mutex, &robust) == 0);
  pthread_mutexattr_destroy(&robust);
  g->is_busy = false;
  open_manager(&g->manager, BS_AT_BLOCK, BS_YOUNGEST);
  g->shop = make_shop(&g->manager);
}

/* False: a thread died within a call. The manager is at its end, for this thread and for all that come. */
static bool take(struct guarded *g) {
  int status = pthread_mutex_lock(&g->mutex);
  if (status == EOWNERDEAD && !g->is_busy) status = pthread_mutex_consistent(&g->mutex);
  if (status == EOWNERDEAD) pthread_mutex_unlock(&g->mutex); /* Unmended: nobody gets it any more. */
  return status == 0;
}

static void give_back(struct guarded *g) {
  pthread_mutex_unlock(&g->mutex);
}

/* What a worker leaves to its supervisor. */
struct job {
  struct guarded *guarded;
  bs_node row;
  bs_txn txn;
  bool has_ended; /* its transaction */
  void (*dies)(struct guarded *g);
  pthread_t thread;
};

static void *work(void *arg) {
  struct job *j = arg;
  struct guarded *g = j->guarded;
  WANT(take(g));
  g->is_busy = true;
  j->txn = begin(&g->manager);
  DONE(bs_lock_path(&g->manager, j->txn, j->row, BS_X, &told));
  g->is_busy = false;
  j->dies(g);
  return NULL; /* Neither committed nor aborted. */
}

static void die_between_calls(struct guarded *g) {
  give_back(g);
}

/* As if the call had not come back. */
static void die_in_a_call(struct guarded *g) {
  g->is_busy = true;
}

static void die_with_the_mutex(struct guarded *g) {
  (void)g;
}

static void run_to_death(struct job *j, struct guarded *g, void (*dies)(struct guarded *g)) {
  j->guarded = g;
  j->row = add_order(&g->manager, &g->shop, 20);
  j->has_ended = false;
  j->dies = dies;
  WANT(pthread_create(&j->thread, NULL, work, j) == 0);
}

/* Waits for the end of a worker. What its transaction wrote is undone here, while its locks keep others
 * away; then they are released. False: the manager is at its end. */
static bool bury(struct job *j) {
  struct guarded *g = j->guarded;
  WANT(pthread_join(j->thread, NULL) == 0);
  if (!take(g)) return false;
  if (!j->has_ended) DONE(bs_abort(&g->manager, j->txn, &told));
  j->has_ended = true;
  give_back(g);
  return true;
}

static void bury_and_lock(void (*dies)(struct guarded *g)) {
  static struct guarded g;
  struct job j;
  bs_txn next;
  open_guarded(&g);
  run_to_death(&j, &g, dies);
  WANT(bury(&j));
  WANT(take(&g));
  next = begin(&g.manager);
  DONE(bs_lock_path(&g.manager, next, j.row, BS_X, &told));
  DONE(bs_end(&g.manager));
  give_back(&g);
  WANT(pthread_mutex_destroy(&g.mutex) == 0);
}

void a_thread_that_died(void) {
  bury_and_lock(die_between_calls);
  bury_and_lock(die_with_the_mutex);
}

/* No call is made with the manager any more, not even bs_end: its memory is lost to the process. */
void a_thread_that_died_in_a_call(void) {
  static struct guarded g;
  struct job j;
  open_guarded(&g);
  run_to_death(&j, &g, die_in_a_call);
  WANT(!bury(&j));
  WANT(!take(&g));
  WANT(pthread_mutex_lock(&g.mutex) == ENOTRECOVERABLE);
}
