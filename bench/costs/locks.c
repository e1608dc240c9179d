/*
 * Waits with their grants, inserts with their deletes, and releases, each on a manager of its own. Every answer and
 * every list of notices is checked, as a caller must.
 */
#include "costs.h"

/* How many can wait for one transaction: all that may live but that one. */
enum { WAITERS = BS_SLOTS - 1, INDEXES = 3 };

/* ------------------------------------------------------------------------------------------------
 * Waits.
 */

/* Each in turn requests what the one before it holds, which then commits. Answers the holder at the end. */
static bs_txn hand_over(bs_node root, bs_txn holder, const bs_txn *waiters, size_t count) {
  size_t i;
  for (i = 0; i < count; i++) {
    waits(bs_lock(&manager, waiters[i], root, BS_X, &told));
    tells(bs_commit(&manager, holder, &told), 1);
    WANT(told.at[0].txn.age == waiters[i].age && told.at[0].kind == BS_TOLD_GRANTED);
    holder = waiters[i];
  }
  return holder;
}

static MEASURED bs_txn measured_turns(bs_node root, bs_txn holder, const bs_txn *waiters, size_t count) {
  return hand_over(root, holder, waiters, count);
}

static void begin_all(bs_txn waiters[WAITERS]) {
  size_t i;
  for (i = 0; i < WAITERS; i++) waiters[i] = begun();
}

/* The waiters are begun beforehand, each in a slot that has had a lock before. */
uint64_t waits_and_grants(size_t number, long rounds) {
  bs_txn waiters[WAITERS], holder;
  uint64_t start, taken = 0;
  bs_node root;
  (void)number;
  by_manager.open();
  root = new_root();
  holder = begun();
  tells(bs_lock(&manager, holder, root, BS_X, &told), 0);
  begin_all(waiters);
  holder = hand_over(root, holder, waiters, WAITERS);
  while (rounds > 0) {
    size_t turns = rounds < WAITERS ? (size_t)rounds : WAITERS;
    begin_all(waiters);
    start = now();
    holder = measured_turns(root, holder, waiters, turns);
    taken += now() - start;
    rounds -= (long)turns;
  }
  by_manager.close();
  return taken;
}

/* ------------------------------------------------------------------------------------------------
 * Inserts.
 */

static MEASURED void measured_inserts(bs_txn txn, bs_node file, long rounds) {
  static const uint64_t keys[INDEXES] = { 50, 50, 50 };
  while (rounds-- > 0) {
    bs_node record = DONE(bs_insert(&manager, txn, file, keys, INDEXES)).node;
    tells(bs_delete(&manager, txn, record, &told), 0);
  }
}

/* The file has three indexes of one interval each, and all parents of the record are held in IX. */
uint64_t inserts_and_deletes(size_t number, long rounds) {
  uint64_t start;
  bs_node root, file;
  bs_txn txn;
  size_t i;
  (void)number;
  by_manager.open();
  root = new_root();
  file = DONE(bs_add_file(&manager, &root, 1)).node;
  txn = begun();
  tells(bs_lock_path(&manager, txn, file, BS_IX, &told), 0);
  for (i = 0; i < INDEXES; i++) {
    bs_node index = DONE(bs_add_index(&manager, &root, 1, file, NULL, 0)).node;
    tells(bs_lock_path(&manager, txn, DONE(bs_interval(&manager, index, 0)).node, BS_IX, &told), 0);
  }
  start = now();
  measured_inserts(txn, file, rounds);
  start = now() - start;
  by_manager.close();
  return start;
}

/* ------------------------------------------------------------------------------------------------
 * Releases.
 */

/* One holds a root in SIX and all others in IS; these convert, the first `writers` to IX, which is compatible with
 * itself, and the others to S, which waits after them. Answers the one, and with it the first that converts. */
static bs_txn lay_conversions(size_t writers, bs_txn *first) {
  bs_txn holder = begun(), others[WAITERS];
  bs_node root = new_root();
  size_t i;
  tells(bs_lock(&manager, holder, root, BS_SIX, &told), 0);
  begin_all(others);
  for (i = 0; i < WAITERS; i++) tells(bs_lock(&manager, others[i], root, BS_IS, &told), 0);
  for (i = 0; i < WAITERS; i++) waits(bs_lock(&manager, others[i], root, i < writers ? BS_IX : BS_S, &told));
  *first = others[0];
  return holder;
}

static MEASURED void measured_commit(bs_txn txn, size_t granted) {
  tells(bs_commit(&manager, txn, &told), granted);
}

static uint64_t timed_commit(bs_txn txn, size_t granted) {
  uint64_t start = now();
  measured_commit(txn, granted);
  return now() - start;
}

uint64_t releases(size_t number, long rounds) {
  uint64_t taken = 0;
  while (rounds-- > 0) {
    bs_txn first;
    by_manager.open();
    taken += timed_commit(lay_conversions(number, &first), number);
    by_manager.close();
  }
  return taken;
}

/* IX was granted to so many, of which the first commits; none of the others, which want S, is granted by it. */
uint64_t vain_releases(size_t number, long rounds) {
  uint64_t taken = 0;
  while (rounds-- > 0) {
    bs_txn first;
    by_manager.open();
    tells(bs_commit(&manager, lay_conversions(number, &first), &told), number);
    taken += timed_commit(first, 0);
    by_manager.close();
  }
  return taken;
}
