/*
 * cluster.h: what all programs of the cluster know: how many shards there are, and which account lies where.
 */
#ifndef CLUSTER_H
#define CLUSTER_H

#include <stdbool.h>
#include <stddef.h>
#include <stdint.h>
#include <stdio.h>

enum { SHARDS = 3, ACCOUNTS_EACH = 4, ACCOUNTS = SHARDS * ACCOUNTS_EACH, FIRST_BALANCE = 100 };

/* The greatest length of a line, and of a file's name. */
enum { LINE = 4096, NAME = 64 };

/* Keys are placed by range: the first accounts in shard 0, the next in shard 1, and so on. */
static inline unsigned shard_of(unsigned account) {
  return account / ACCOUNTS_EACH;
}

/* A file of a shard in the working folder: `socket`, `log`. */
static inline void shard_file(char *name, unsigned shard, const char *kind) {
  snprintf(name, NAME, "shard-%u.%s", shard, kind);
}

#endif
