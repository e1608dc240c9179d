/*
 * remote.h: transactions over several shards, as their coordinator has them.
 */
#ifndef REMOTE_H
#define REMOTE_H

#include "cluster.h"
#include "decide.h"
#include "wire.h"

/* One thread's connections. */
struct client {
  struct wire wires[SHARDS];
  unsigned tries; /* how often a shard that is not there is looked for, every 10 milliseconds */
};

/* The tries of who can wait until a shard is there again. */
enum { UNTIL_IT_IS_THERE = 1500 };

void client_make(struct client *c, unsigned tries);
void client_end(struct client *c);

/* Asks a shard. False: it is not there, or has gone, and nobody knows whether it heard. */
bool ask(struct client *c, unsigned shard, char *reply, const char *format, ...);

struct txn {
  struct client *client;
  uint64_t number; /* they rise: the youngest has the greatest */
  bool is_part[SHARDS];
  bool has_failed; /* it can only be aborted */
};

enum ending { COMMITTED, ABORTED, UNKNOWN };

struct txn txn_begin(struct client *c);

/* Reads an account under a lock in S; the same in X, to write it. False: the transaction has failed. */
bool txn_read(struct txn *t, unsigned account, int64_t *balance);
bool txn_take(struct txn *t, unsigned account, int64_t *balance);

/* Writes an account that it has taken. */
void txn_write(struct txn *t, unsigned account, int64_t balance);

unsigned txn_parts(const struct txn *t);

/* The two phases: whether all vote for it; and then the word is written where they do, and the one that stands is
 * carried out. */
bool txn_prepare(struct txn *t);
enum ending txn_second_phase(struct txn *t, struct decisions *d, bool has_votes);

/* Ends it. Of one over a single shard the answer may be UNKNOWN: the shard was killed, and nobody heard whether it had
 * committed by then. */
enum ending txn_end(struct txn *t, struct decisions *d);

#endif
