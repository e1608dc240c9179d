/*
 * work.h: what the coordinator has its clients do.
 */
#ifndef WORK_H
#define WORK_H

#include "remote.h"

struct office {
  struct decisions decisions;
  pthread_mutex_t mutex;
  FILE *acknowledged; /* by line a transaction that a client was told is committed, and of how many shards it was */
  uint64_t transfers, audits, again, unknown;
};

void office_acknowledge(struct office *o, const struct txn *t);

/* stories.c: led step by step. The last need somebody who starts a shard again that was killed. */
void story_of_cycles(struct office *o);
void stories_of_one_who_goes(struct office *o);
void stories_of_kills(struct office *o);

/* phantom.c: a cycle that a gathered board shows, and that never was. Nobody else gathers meanwhile. */
void stories_of_phantoms(struct office *o);

/* crowd.c: client threads that move money, and read all accounts. */
void crowd(struct office *o, uint64_t seed);

#endif
