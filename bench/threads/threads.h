/*
 * Shared by the two sides: what threads do with a shared table and with Berkeley DB's lock subsystem.
 */
#ifndef THREADS_H
#define THREADS_H

#include "frame.h"

#include <stdbool.h>

enum {
  INNER_NODES = 3,           /* a database, an area, a file: the path to the record of a short transaction */
  SHORT = INNER_NODES + 3,   /* the commands of a short transaction */
  ROWS = 10000,              /* the rows of a mix */
  TOUCHES = 4,               /* how many rows its transaction reads or writes */
  BUCKETS = 1024             /* of times: each power of two in sixteen */
};

/* What the threads do. */
enum works {
  OWN,    /* short transactions, each thread on a record of its own */
  HOT,    /* the same, all on one record */
  NODES,  /* rows that are read and written, each with a permanent node */
  NUMBERS /* the same by the rows' numbers; with Berkeley DB it is the same work as the one before */
};

/* The settings of a turn. */
struct scene {
  enum works work;
  bool in_lists;       /* several commands in one call, if possible */
  bool in_sessions;    /* each thread in a session; for Berkeley DB there is no difference */
  bool is_partitioned; /* Berkeley DB has its default number of partitions; else one */
};

/* A row to read or write. */
struct touch {
  uint32_t row;
  bool writes;
};

/* A thread of a turn, and what it has done. */
struct worker {
  size_t number;
  uint64_t dice;
  uint64_t transactions, commands;
  uint64_t victims; /* how many tries of transactions were victims, and began again */
  uint64_t writes;  /* of rows, by transactions that committed */
  uint64_t times[BUCKETS];
} __attribute__((aligned(128)));

/* Makes one short transaction; or tries one of a mix, and answers whether it committed: otherwise it was chosen as
 * victim, has undone its writes, and has aborted. */
typedef bool try_one(struct worker *worker, const struct touch *touches);

/* A side: makes a scene, says how a transaction is made in it, and ends it. */
struct side {
  void (*set_up)(const struct scene *scene);
  try_one *(*play)(const struct scene *scene);
  void (*tear_down)(void);
};

extern const struct side ours, theirs;

/* What an engine does with a row under its lock. */
void touch_row(const struct touch *touch);

/* Undoes the writes to the first so many of the rows that a transaction touched. */
void undo_rows(const struct touch *touches, size_t count);

#endif
