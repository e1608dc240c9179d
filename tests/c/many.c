/*
 * As many records as the first word says, by default a million, are made, and one of 127 transactions locks each once,
 * in a manager whose limit they just meet. It ends the program with status 1 at the first wrong answer, and else prints
 * a line.
 *
 * It is linked with the calls for memory of memory.h, to see that at that size too a refused allocation changes
 * nothing.
 */
#include "burlapslate.h"
#include "memory.h"

#include <stdio.h>
#include <stdlib.h>

enum { LOCKERS = 127, BATCH = 10000, ABOVE = 4 };

static bs_notices told;
static bs_manager m = BS_NO_MANAGER_HERE;
static bs_node db, file, by_key, below;

static void wanted(bool holds, const char *what, int line) {
  if (holds) return;
  fprintf(stderr, "many.c:%d: not so: %s\n", line, what);
  exit(1);
}

#define WANT(condition) wanted((condition), #condition, __LINE__)

static bs_reply done(bs_reply reply) {
  WANT(reply.status == BS_DONE);
  return reply;
}

/* A transaction that may write records. */
static bs_txn begin(void) {
  bs_txn t = done(bs_begin(&m)).txn;
  done(bs_lock_path(&m, t, file, BS_IX, &told));
  done(bs_lock_path(&m, t, below, BS_IX, &told));
  return t;
}

static void make_graph(uint32_t nodes) {
  bs_options options = { 0, 0, 0, 0, 0, 0 }, was;
  options.nodes = nodes;
  done(bs_make(&m, &options));
  done(bs_limits(&m, &was));
  WANT(was.nodes == nodes && was.transactions == BS_SLOTS && was.detect == BS_AT_BLOCK && was.victims == BS_YOUNGEST);
  db = done(bs_add_inner(&m, NULL, 0)).node;
  file = done(bs_add_file(&m, &db, 1)).node;
  by_key = done(bs_add_index(&m, &db, 1, file, NULL, 0)).node;
  below = done(bs_interval_of(&m, by_key, 0)).node;
}

/* All records except the last. */
static void insert_most(bs_node *records, uint32_t count) {
  uint32_t at;
  bs_txn t = begin();
  for (at = 0; at < count - 1; at++) {
    uint64_t key = at;
    records[at] = done(bs_insert(&m, t, file, &key, 1)).node;
    if (at % BATCH != BATCH - 1) continue;
    done(bs_commit(&m, t, &told));
    t = begin();
  }
  done(bs_commit(&m, t, &told));
}

/* The last one, each of whose allocations is refused in turn; and one more, for which there is no place. */
static void insert_last(bs_node *records, uint32_t count) {
  uint64_t key = count;
  bs_txn t = begin();
  bs_reply last;
  long refused;
  for (refused = 1;; refused++) {
    refused_allocation = refused;
    last = bs_insert(&m, t, file, &key, 1);
    refused_allocation = 0;
    if (last.status == BS_DONE) break;
    WANT(last.status == BS_NO_MEMORY && bs_len(&m).count == count - 1 + ABOVE && refused < 20);
  }
  WANT(bs_insert(&m, t, file, &key, 1).status == BS_TOO_MANY_NODES);
  done(bs_delete(&m, t, last.node, &told));
  records[count - 1] = done(bs_insert(&m, t, file, &key, 1)).node;
  WANT(bs_insert(&m, t, file, &key, 1).status == BS_TOO_MANY_NODES);
  WANT(bs_len(&m).count == count + ABOVE);
  done(bs_commit(&m, t, &told));
}

/* One of 127 transactions locks each record, and then all commit. */
static void lock_each(const bs_node *records, uint32_t count) {
  bs_txn lockers[LOCKERS];
  uint32_t at, n;
  for (n = 0; n < LOCKERS; n++) lockers[n] = begin();
  for (at = 0; at < count; at++) WANT(done(bs_lock(&m, lockers[at % LOCKERS], records[at], BS_X, &told)).mode == BS_X);
  WANT(bs_try(&m, lockers[0], records[1], BS_S).status == BS_WOULD_BLOCK);
  WANT(bs_children(&m, lockers[0], below).count == (count + LOCKERS - 1) / LOCKERS);
  for (n = 0; n < LOCKERS; n++) done(bs_commit(&m, lockers[n], &told));
  for (at = 0; at < count; at += BATCH / 2) WANT(done(bs_group(&m, records[at])).mode == BS_NL);
}

int main(int count, char **words) {
  uint32_t most = count > 1 ? (uint32_t)strtoul(words[1], NULL, 10) : 1000000;
  bs_node *records = __real_malloc(most * sizeof *records);
  WANT(records != NULL && most > LOCKERS);
  make_graph(most + ABOVE);
  insert_most(records, most);
  insert_last(records, most);
  lock_each(records, most);
  done(bs_end(&m));
  WANT(blocks_out() == 0);
  printf("%u records, each locked once\n", (unsigned)most);
  __real_free(records);
  return 0;
}
