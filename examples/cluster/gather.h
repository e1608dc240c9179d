/*
 * gather.h: a thread that gathers the boards of all shards, and ends the cycles of waits over several.
 */
#ifndef GATHER_H
#define GATHER_H

#include "burlapslate.h"

#include "remote.h"

struct gatherer {
  struct client client;
  bs_board board;    /* the union of the shards' boards: its slots stand for transactions of the cluster, by number */
  size_t count;      /* how many slots have one */
  uint64_t victims;
  pthread_mutex_t mutex;
  bool is_ending;
  pthread_t thread;
};

/* The parts of a look: nothing is on the board; the board of a shard is added to it, and one that is not there shows no
 * waits; of each cycle that it shows by then the youngest falls. */
void gather_begin(struct gatherer *g);
void gather_shard(struct gatherer *g, unsigned shard);
void gather_end_cycles(struct gatherer *g);

void gather_start(struct gatherer *g);
void gather_stop(struct gatherer *g);

#endif
