/* The steps through the library, in a manager whose limit is what they need. */
#include "scale.h"
#include "files.h"

#include <burlapslate_splits.h>

#include <stdlib.h>

static bs_node *records;

static void set_up(const struct work *work) {
  records = malloc(work->records * sizeof *records);
  if (records == NULL) fail("no memory", __FILE__, __LINE__);
  make_files(work->records + ABOVE + 1); /* One for the new part of a split. */
}

static void tear_down(void) {
  DONE(bs_end(&m));
  free(records);
}

static bs_txn begin(void) {
  return begin_at(file, below);
}

static void commit(bs_txn t) {
  DONE(bs_commit(&m, t, &told));
}

/* Visits all records, a hundred in a transaction. */
#define IN_TRANSACTIONS(work, at, t, what)                                        \
  do {                                                                            \
    bs_txn t = begin();                                                           \
    uint32_t at;                                                                  \
    for (at = 0; at < (work)->records; at++) {                                    \
      what;                                                                       \
      if (at % PER_TRANSACTION != PER_TRANSACTION - 1) continue;                  \
      commit(t);                                                                  \
      t = begin();                                                                \
    }                                                                             \
    commit(t);                                                                    \
  } while (0)

static __attribute__((noinline)) void step_insert(const struct work *work) {
  IN_TRANSACTIONS(work, at, t, {
    uint64_t key = work->order[at];
    records[work->order[at]] = DONE(bs_insert(&m, t, file, &key, 1)).node;
  });
}

static __attribute__((noinline)) void step_lock(const struct work *work) {
  IN_TRANSACTIONS(work, at, t, DONE(bs_lock(&m, t, records[work->order[at]], BS_X, &told)));
}

static __attribute__((noinline)) void step_lock_all(const struct work *work) {
  uint32_t at;
  bs_txn t = begin();
  for (at = 0; at < work->records; at++) DONE(bs_lock(&m, t, records[work->order[at]], BS_X, &told));
  commit(t);
}

static __attribute__((noinline)) void step_escalate(const struct work *work) {
  uint32_t at;
  bs_txn t = begin();
  for (at = 0; at < work->records; at++) DONE(bs_lock(&m, t, records[work->order[at]], BS_X, &told));
  DONE(bs_escalate(&m, t, below, &told));
  commit(t);
}

/* Once, in the middle of all records. */
static __attribute__((noinline)) void step_split(const struct work *work) {
  bs_txn t = begin();
  DONE(bs_lock(&m, t, below, BS_X, &told));
  DONE(bs_split(&m, t, below, work->records / 2, &told));
  DONE(bs_merge(&m, t, below, &told));
  commit(t);
}

static __attribute__((noinline)) void step_delete(const struct work *work) {
  IN_TRANSACTIONS(work, at, t, {
    DONE(bs_lock(&m, t, records[work->order[at]], BS_X, &told));
    DONE(bs_delete(&m, t, records[work->order[at]], &told));
  });
}

/* Visits all records, a hundred in a transaction, by the places `from` up to `to`. */
#define BY_TRANSACTIONS(work, from, to, t, begun, what)                                                 \
  do {                                                                                                  \
    uint32_t from, to;                                                                                  \
    for (from = 0; from < (work)->records; from = to) {                                                 \
      bs_txn t = begun;                                                                                 \
      to = (work)->records - from < PER_TRANSACTION ? (work)->records : from + PER_TRANSACTION;         \
      what;                                                                                             \
    }                                                                                                   \
  } while (0)

/* Records that exist only while they are locked. */
static __attribute__((noinline)) void step_adopt(const struct work *work) {
  uint32_t at;
  BY_TRANSACTIONS(work, from, to, t, begin(), {
    for (at = from; at < to; at++) {
      uint64_t key = work->order[at];
      records[key] = DONE(bs_adopt(&m, file, &key, 1)).node;
      DONE(bs_lock(&m, t, records[key], BS_X, &told));
    }
    commit(t);
    for (at = from; at < to; at++) DONE(bs_forget(&m, records[work->order[at]]));
  });
}

/* The same by the rows' numbers: the library adopts and forgets. */
static __attribute__((noinline)) void step_row(const struct work *work) {
  uint32_t at;
  BY_TRANSACTIONS(work, from, to, t, begin_at(row_file, row_below), {
    for (at = from; at < to; at++) {
      uint64_t key = work->order[at];
      DONE(bs_lock_row(&m, t, row_file, key, &key, 1, BS_X, &told));
    }
    DONE(bs_commit(&m, t, &told));
  });
}

static const struct step steps[] = {
  { "insert\tstep_insert", step_insert },
  { "lock, a hundred in a transaction\tstep_lock", step_lock },
  { "lock, all in one transaction\tstep_lock_all", step_lock_all },
  { "lock all, and escalate\tstep_escalate", step_escalate },
  { "split and merge all\tstep_split", step_split },
  { "lock and delete\tstep_delete", step_delete },
  { "adopt, lock, commit and forget\tstep_adopt", step_adopt },
  { "lock a row by its number, and commit\tstep_row", step_row },
};

const struct side ours = { set_up, steps, sizeof steps / sizeof *steps, tear_down };
