/*
 * Shared by the two sides of the race: the scenarios.
 */
#ifndef RACE_H
#define RACE_H

#include "frame.h"

#include <stdbool.h>

enum {
  INNER_NODES = 3,     /* a database, an area, a file: the path to the records */
  MOST_RECORDS = 1000, /* how many records a scenario can have */
  CREW = 4,            /* how many threads the crew has by default */
  MOST_CREW = 16       /* and at most */
};

/* How Berkeley DB is used. If a line has several ways, the fastest counts. */
enum ways {
  KEPT = 0,       /* one locker for all transactions of a thread */
  FRESH = 1,      /* a locker for each transaction */
  AT_ONCE = 2,    /* the four locks in one lock_vec */
  THREADED = 4,   /* DB_THREAD, which gives it latches of its own */
  PARTITIONED = 8 /* its default number of partitions, ten for each processor; else one */
};

/* What there is before a scenario begins. */
struct scene {
  size_t others;  /* transactions that hold intentions to write on all inner nodes */
  size_t records; /* records below the inner nodes */
  unsigned way;   /* of enum ways; ours has one */
};

/* A side: makes a scene, runs scenarios in it, and ends it. A scenario answers the nanoseconds of so many rounds. */
typedef uint64_t play(long rounds);
struct side {
  void (*set_up)(const struct scene *scene);
  void (*tear_down)(void);
};

extern const struct side ours, theirs;

/* A short transaction: begin, intentions on the inner nodes, a lock on a record, commit. */
play ours_write, ours_write_path, theirs_write;
play ours_read, theirs_read;

/* The commit of all records and the path to them. What leads to it is neither timed nor counted. */
play ours_commit, theirs_commit;

/* The rollback to a savepoint after the path: it releases all records. Theirs has none. */
play ours_back;

/* A lock that waits, and the commit that grants it. */
play ours_wait, ours_wait_paired, theirs_wait_paired;

/* Two that wait for each other: the younger aborts, the older continues. */
play ours_deadlock, ours_deadlock_paired, theirs_deadlock_paired;

/* Short transactions by CREW threads, each on a record of its own; and by so many. */
play ours_crew, theirs_crew, theirs_crew_1, theirs_crew_16;

/* The same through a shared table: a short transaction that writes, alone and beside a watcher that looks all the
 * time; a lock that ends those who rest; a wait and its grant; crews. For the first of these, a count has only what the
 * thread that writes does, or that locks. */
play table_write, table_session, table_session_list, table_watched, table_resting, table_wait, table_crew_1, table_crew_4, table_crew_16;

/* And with all of it in one call. */
play table_once_4, table_once_16;

#endif
