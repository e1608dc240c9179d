#include "store.h"

#include "check.h"

#include <errno.h>
#include <time.h>

const char *ending_text(enum ending ending) {
  static const char *const texts[ENDINGS] = { "not yet", "granted", "victim", "moved", "gone", "gave up" };
  return texts[ending];
}

void store_open(struct store *s, enum bs_detects detect) {
  static const bs_manager none = BS_NO_MANAGER_HERE;
  bs_options options = { 0 };
  pthread_condattr_t by_steady_clock;
  size_t slot;
  pthread_condattr_init(&by_steady_clock);
  pthread_condattr_setclock(&by_steady_clock, CLOCK_MONOTONIC);
  pthread_mutex_init(&s->latch, NULL);
  pthread_cond_init(&s->news, NULL);
  for (slot = 0; slot < BS_SLOTS; slot++) pthread_cond_init(&s->txn_entries[slot].wake, &by_steady_clock);
  pthread_condattr_destroy(&by_steady_clock);
  s->manager = none;
  options.detect = detect;
  MUST(bs_make(&s->manager, &options));
}

void store_close(struct store *s) {
  size_t slot;
  MUST(bs_end(&s->manager));
  for (slot = 0; slot < BS_SLOTS; slot++) pthread_cond_destroy(&s->txn_entries[slot].wake);
  pthread_cond_destroy(&s->news);
  pthread_mutex_destroy(&s->latch);
}

void store_latch(struct store *s) {
  pthread_mutex_lock(&s->latch);
}

void store_unlatch(struct store *s) {
  pthread_mutex_unlock(&s->latch);
}

void store_deliver(struct store *s) {
  size_t i;
  for (i = 0; i < s->told.count; i++) {
    struct txn_entry *entry = &s->txn_entries[s->told.at[i].txn.slot];
    entry->ending = (enum ending)s->told.at[i].kind;
    s->ended[entry->ending]++;
    pthread_cond_signal(&entry->wake);
  }
}

static struct timespec moment_in(unsigned milliseconds) {
  struct timespec moment;
  clock_gettime(CLOCK_MONOTONIC, &moment);
  moment.tv_sec += milliseconds / 1000;
  moment.tv_nsec += milliseconds % 1000 * 1000000L;
  if (moment.tv_nsec >= 1000000000L) {
    moment.tv_sec++;
    moment.tv_nsec -= 1000000000L;
  }
  return moment;
}

/* A wait that took too long is taken back. Who stood behind it may be granted by that. */
static enum ending give_up(struct store *s, bs_txn txn) {
  MUST(bs_cancel(&s->manager, txn, &s->told));
  store_deliver(s);
  s->ended[GAVE_UP]++;
  return GAVE_UP;
}

/* Nobody but a notice ends the wait: a wake without one is none, and goes on sleeping. */
static enum ending sleep_until_told(struct store *s, bs_txn txn, unsigned patience) {
  struct txn_entry *entry = &s->txn_entries[txn.slot];
  struct timespec until = moment_in(patience);
  int status = 0;
  s->waits++;
  store_tell_news(s);
  while (entry->ending == NOT_YET && status != ETIMEDOUT) {
    if (patience == FOR_EVER) status = pthread_cond_wait(&entry->wake, &s->latch);
    else status = pthread_cond_timedwait(&entry->wake, &s->latch, &until);
  }
  return entry->ending == NOT_YET ? give_up(s, txn) : entry->ending;
}

enum ending store_lock(struct store *s, bs_txn txn, bs_node node, bs_mode mode, unsigned patience) {
  bs_reply reply;
  s->txn_entries[txn.slot].ending = NOT_YET;
  reply = bs_lock(&s->manager, txn, node, mode, &s->told);
  store_deliver(s); /* With detection at block an ask can condemn others. */
  switch (reply.status) {
    case BS_WAITING: return sleep_until_told(s, txn, patience);
    case BS_VICTIM: return VICTIM;
    case BS_NEED_PARENTS: return MOVED; /* It moved while the locks above it were waited for. */
    case BS_NO_SUCH_NODE: return GONE;
    default: must(reply, "bs_lock"); return GRANTED;
  }
}

bool store_is_waiting(struct store *s, bs_txn txn) {
  return bs_doing(&s->manager, txn).count == BS_WAITS;
}

void store_tell_news(struct store *s) {
  pthread_cond_broadcast(&s->news);
}

void store_await_news(struct store *s) {
  pthread_cond_wait(&s->news, &s->latch);
}
