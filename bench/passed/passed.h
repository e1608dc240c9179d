/*
 * How often a waiting writer is passed by readers that lock and release.
 */
#ifndef PASSED_H
#define PASSED_H

#include "frame.h"

/* As many readers as can live beside the writer. */
enum { READERS = 127 };

/* What a side does in one thread: begins and acquires the node, as a reader or as the writer, which may sleep; and
 * ends. Each thread has a number, the writer READERS. */
struct side {
  void (*set_up)(void);
  void (*take)(size_t number);
  void (*give_back)(size_t number);
  void (*tear_down)(void);
};

extern const struct side ours, theirs;

#endif
