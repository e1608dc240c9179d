/* What scale.sh measures, by either side: each step is one function, so that callgrind can tell them apart. */
#ifndef SCALE_H
#define SCALE_H

#include "frame.h"

enum { PER_TRANSACTION = 100 };

/* The records, in the order in which each step visits them. */
struct work {
  uint32_t records;
  const uint32_t *order;
};

/* A step over all records; null if a side has nothing to do. */
struct step {
  const char *title;
  void (*run)(const struct work *work);
};

struct side {
  void (*set_up)(const struct work *work);
  const struct step *steps;
  size_t count;
  void (*tear_down)(void);
};

extern const struct side ours;
#ifdef HAVE_DB
extern const struct side theirs;
#endif

#endif
