/*
 * The nodes of a program that measures records: below a root a file of records and one of rows, each with an index of one
 * interval.
 */
#ifndef FILES_H
#define FILES_H

#include "ours.h"

/* The root, the files, their indexes and the intervals. */
enum { ABOVE = 7 };

static bs_manager m = BS_NO_MANAGER_HERE;
static bs_notices told;
static bs_node db, file, below, row_file, row_below;

/* Makes an index of a file, of one interval, which it answers. */
static bs_node interval_of(bs_node of) {
  bs_node index = DONE(bs_add_index(&m, &db, 1, of, NULL, 0)).node;
  return DONE(bs_interval_of(&m, index, 0)).node;
}

/* Makes the manager, for so many nodes at once, and the nodes in it. */
static void make_files(uint32_t nodes) {
  bs_options options = { 0 };
  options.nodes = nodes;
  DONE(bs_make(&m, &options));
  db = DONE(bs_add_inner(&m, NULL, 0)).node;
  file = DONE(bs_add_file(&m, &db, 1)).node;
  below = interval_of(file);
  row_file = DONE(bs_add_row_file(&m, &db, 1)).node;
  row_below = interval_of(row_file);
}

/* A transaction with intentions on a file, an interval, and all above them. */
static bs_txn begin_at(bs_node above, bs_node interval) {
  bs_txn t = DONE(bs_begin(&m)).txn;
  DONE(bs_lock_path(&m, t, above, BS_IX, &told));
  DONE(bs_lock_path(&m, t, interval, BS_IX, &told));
  return t;
}

#endif
