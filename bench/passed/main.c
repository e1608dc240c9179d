/*
 * passed ours|theirs TURNS: prints how many grants to readers were counted from the writer's request to its grant,
 * parted by tabs: as a mean of so many turns, in the 99th of a hundred from the fewest on, and at most. A reader
 * counts its grant while it holds it. So some of the holders at the request may be counted as granted after it, and
 * none is missed. A writer that loses the processor before its call has begun is passed too.
 */
#include "passed.h"

#include <pthread.h>
#include <sched.h>
#include <stdatomic.h>
#include <stdbool.h>
#include <stdio.h>
#include <stdlib.h>
#include <string.h>

static const struct side *side;
static atomic_ulong grants;
static atomic_bool is_over;

static void *reader(void *number) {
  while (!atomic_load(&is_over)) {
    side->take((size_t)(uintptr_t)number);
    atomic_fetch_add(&grants, 1);
    sched_yield(); /* So that many hold it at one time. */
    side->give_back((size_t)(uintptr_t)number);
  }
  return NULL;
}

/* After the writer some readers hold the node again before it requests it. */
static void let_readers_in(void) {
  unsigned long before = atomic_load(&grants);
  while (atomic_load(&grants) < before + READERS) sched_yield();
}

/* How many grants to readers a turn of the writer took. */
static unsigned long passed_in_turn(void) {
  unsigned long before, behind;
  let_readers_in();
  before = atomic_load(&grants);
  side->take(READERS);
  behind = atomic_load(&grants);
  side->give_back(READERS);
  return behind - before;
}

static int from_the_fewest_on(const void *one, const void *other) {
  unsigned long x = *(const unsigned long *)one, y = *(const unsigned long *)other;
  return x < y ? -1 : x > y;
}

static void play(size_t turns) {
  unsigned long *passed = malloc(turns * sizeof *passed), all = 0;
  size_t turn;
  WANT(turns > 0 && passed != NULL);
  for (turn = 0; turn < turns; turn++) {
    passed[turn] = passed_in_turn();
    all += passed[turn];
  }
  qsort(passed, turns, sizeof *passed, from_the_fewest_on);
  printf("%.1f\t%lu\t%lu\n", (double)all / (double)turns, passed[turns * 99 / 100], passed[turns - 1]);
  free(passed);
}

int main(int count, char **words) {
  pthread_t threads[READERS];
  size_t i;
  WANT(count == 3);
#ifdef HAVE_DB
  side = strcmp(words[1], "theirs") == 0 ? &theirs : &ours;
#else
  side = &ours;
#endif
  side->set_up();
  for (i = 0; i < READERS; i++) WANT(pthread_create(&threads[i], NULL, reader, (void *)(uintptr_t)i) == 0);
  play((size_t)atol(words[2]));
  atomic_store(&is_over, true);
  for (i = 0; i < READERS; i++) WANT(pthread_join(threads[i], NULL) == 0);
  side->tear_down();
  return 0;
}
