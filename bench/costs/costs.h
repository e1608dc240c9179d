/*
 * What the pieces of bench/costs share: the scene in which they are measured, and the pieces.
 */
#ifndef COSTS_H
#define COSTS_H

#include "ours.h"

#include "burlapslate_shared.h"

/* The other living transactions. */
enum crowd {
  ON_THE_PATH, /* so many that hold the nodes above the record in IX */
  ELSEWHERE,  /* so many, of which half hold a root of their own each, and half wait for it */
  QUEUED      /* so many that wait for one root, and its holder */
};

/* The calls by which a scene is made: a manager's, or a table's. */
struct door {
  void (*open)(void);
  bs_reply (*serve)(bs_command command);
  bs_reply (*interval)(bs_node index, size_t place);
  void (*close)(void);
};

extern const struct door by_manager, by_table;

/* What there is while a piece is measured. */
struct scene {
  const struct door *door; /* null: the piece makes what it needs */
  enum crowd crowd;
  size_t others;
  bool is_watched; /* a watcher looks at the table */
};

void open_scene(const struct scene *scene);
void close_scene(const struct scene *scene);

/* The nodes that a round locks, from the root down to the record. Each thread has its own. */
enum { ABOVE = 4 };
struct path {
  bs_node above[ABOVE];
  bs_node record;
};

extern struct path paths[MOST_TOGETHER];
extern bs_manager manager;
extern bs_notices told;
extern bs_table *table;
extern bs_watcher watcher;

/* A node and a transaction of the manager. */
static inline bs_node new_root(void) { return DONE(bs_add_inner(&manager, NULL, 0)).node; }
static inline bs_txn begun(void) { return DONE(bs_begin(&manager)).txn; }

/* A call that must be done at once, and tell so many. */
static inline void tells(bs_reply reply, size_t count) {
  DONE(reply);
  WANT(told.count == count);
}

/* A lock that must wait. */
static inline void waits(bs_reply reply) { WANT(reply.status == BS_WAITING && told.count == 0); }

/* A piece runs so many rounds, and answers the nanoseconds of the measured part. Its number says which one of several
 * it is. */
typedef uint64_t piece(size_t number, long rounds);

/* A round is seven commands: begin, IX on a root, a file, an index and an interval, X on a record of the interval,
 * commit. It is made by calls of the manager; by calls of the table; by a list of the seven; and by so many threads. */
piece rounds_by_manager, rounds_by_calls, rounds_by_lists, rounds_in_threads;

/* One call of the table: the snapshot; a question; a look of a watcher. */
piece boards, questions, looks;

/* A lock that waits with the commit that grants it; an insert with the delete of its record; a commit that grants so
 * many of 127; and one that grants none of 63. */
piece waits_and_grants, inserts_and_deletes, releases, vain_releases;

/* What is read of a snapshot of the shape that has this number. */
enum shapes { IDLE, CHAIN, RING, QUEUE, CLOSED_QUEUE };
piece cycles, victims, suspects;

#endif
