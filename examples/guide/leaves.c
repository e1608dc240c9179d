/*
 * Ranges that follow the leaves: a set of keys in leaves that split where they are full. Each interval of the index
 * begins where a leaf does, so a reader of a range locks about as many intervals as it reads leaves.
 */
#include "guide.h"

#include "burlapslate_rows.h"
#include "burlapslate_splits.h"

#include <pthread.h>
#include <sched.h>

enum { LEAF_KEYS = 8, LEAVES = 256, KEYS = 1000, WORKERS = 16, TURNS = 100 };

/* A leaf has the keys from its first one on, up to where the next leaf begins. */
struct leaf {
  uint64_t from;
  bool begins_range; /* an interval begins here too */
  size_t count;
  uint64_t keys[LEAF_KEYS];
};

/* The leaves by rising keys, and their latch, with which nobody sleeps. */
static struct leaf leaves[LEAVES];
static size_t leaf_count;
static pthread_mutex_t latch = PTHREAD_MUTEX_INITIALIZER;

static bs_table *table;
static struct { bs_node db, rows, by_key; } set;

/* One leaf, and one interval. A key is the number of a row. */
static void open_set(void) {
  DONE(bs_table_make(&table, NULL));
  set.db = DONE(bs_table_add_inner(table, NULL, 0)).node;
  set.rows = DONE(bs_table_add_row_file(table, &set.db, 1)).node;
  set.by_key = DONE(bs_table_add_index(table, &set.db, 1, set.rows, NULL, 0)).node;
  leaves[0] = (struct leaf){ .from = 0, .begins_range = true };
  leaf_count = 1;
}

/* Each range is where its leaves are. */
static void close_set(void) {
  const bs_manager *m = bs_table_hold(table);
  size_t i, ranges = 0;
  for (i = 0; i < leaf_count; i++) {
    ranges += leaves[i].begins_range;
    WANT(same_node(bs_interval_of(m, set.by_key, leaves[i].from).node, bs_interval(m, set.by_key, ranges - 1).node));
  }
  WANT(bs_interval(m, set.by_key, ranges).status == BS_NO_PLACE);
  DONE(bs_table_let_go(table));
  DONE(bs_table_end(table)), DONE(bs_table_free(&table));
}

/* ------------------------------------------------------------------------------------------------
 * Writers.
 */

static size_t leaf_of(uint64_t key) {
  size_t i = leaf_count - 1;
  while (leaves[i].from > key) i--;
  return i;
}

/* The upper half of a full leaf becomes a leaf, where no range begins as yet. */
static void split_leaf(size_t i) {
  struct leaf *lower = &leaves[i], *upper = lower + 1;
  WANT(leaf_count < LEAVES);
  memmove(upper + 1, upper, (leaf_count++ - i - 1) * sizeof *upper);
  lower->count = upper->count = LEAF_KEYS / 2;
  memcpy(upper->keys, lower->keys + lower->count, upper->count * sizeof upper->keys[0]);
  upper->from = upper->keys[0];
  upper->begins_range = false;
}

/* Splits the range of a leaf where its leaves begin. The transaction writes in it. While others do too the range stays
 * as it is, and a later split of one of its leaves comes here again. */
static void follow_leaves(bs_txn t, size_t i) {
  bs_node range;
  while (!leaves[i].begins_range) i--;
  range = bs_interval_of(bs_table_hold(table), set.by_key, leaves[i].from).node;
  DONE(bs_table_let_go(table));
  if (bs_table_try_path(table, t, range, BS_X, BS_KEEP_NOTHING).status != BS_DONE) return;
  for (i++; i < leaf_count && !leaves[i].begins_range; i++) {
    bs_reply made = bs_table_split(table, t, range, leaves[i].from, NULL);
    if (made.status != BS_DONE) return; /* No memory, or as many as an index may have. */
    range = made.node;
    leaves[i].begins_range = true;
  }
}

/* Puts a key into its leaf, with the latch held. */
static void put(bs_txn t, uint64_t key) {
  struct leaf *leaf = &leaves[leaf_of(key)];
  size_t place = 0;
  while (place < leaf->count && leaf->keys[place] < key) place++;
  if (place < leaf->count && leaf->keys[place] == key) return;
  if (leaf->count == LEAF_KEYS) {
    split_leaf(leaf_of(key));
    follow_leaves(t, leaf_of(key));
    put(t, key);
    return;
  }
  memmove(leaf->keys + place + 1, leaf->keys + place, (leaf->count++ - place) * sizeof key);
  leaf->keys[place] = key;
}

/* The path to the row takes intentions on the range that has its key by then. */
static void insert(uint64_t key) {
  bs_txn t = DONE(bs_table_begin(table)).txn;
  DONE(bs_table_lock_row_path(table, t, set.rows, key, &key, 1, BS_X, NULL));
  pthread_mutex_lock(&latch);
  put(t, key);
  pthread_mutex_unlock(&latch);
  DONE(bs_table_commit(table, t, NULL));
}

/* ------------------------------------------------------------------------------------------------
 * Readers.
 */

/* The first range of these keys that a reader does not hold; whether there is one. */
static bool lacks_range(bs_txn t, uint64_t from, uint64_t to, bs_node *range) {
  const bs_manager *m = bs_table_hold(table);
  bs_node last = bs_interval_of(m, set.by_key, to).node;
  size_t place = bs_place(m, bs_interval_of(m, set.by_key, from).node).count;
  bool is_held;
  do {
    *range = bs_interval(m, set.by_key, place++).node;
    is_held = bs_held(m, t, *range).mode == BS_S;
  } while (is_held && !same_node(*range, last));
  DONE(bs_table_let_go(table));
  return !is_held;
}

/* By rising keys, so that readers close no cycle. A range may be split while its reader sleeps: then it has less. */
static void lock_ranges(bs_txn t, uint64_t from, uint64_t to) {
  bs_node range;
  while (lacks_range(t, from, to, &range)) DONE(bs_table_lock_path(table, t, range, BS_S, NULL));
}

static size_t count_keys(uint64_t from, uint64_t to) {
  size_t i, j, count = 0;
  pthread_mutex_lock(&latch);
  for (i = leaf_of(from); i < leaf_count && leaves[i].from <= to; i++) {
    for (j = 0; j < leaves[i].count; j++) count += leaves[i].keys[j] >= from && leaves[i].keys[j] <= to;
  }
  pthread_mutex_unlock(&latch);
  return count;
}

/* No key comes into what it has read. */
static void read_twice(uint64_t from, uint64_t to) {
  bs_txn t = DONE(bs_table_begin(table)).txn;
  size_t before;
  lock_ranges(t, from, to);
  before = count_keys(from, to);
  sched_yield();
  WANT(count_keys(from, to) == before);
  DONE(bs_table_commit(table, t, NULL));
}

static void *work(void *arg) {
  uint64_t dice = *(uint64_t *)arg;
  size_t i;
  for (i = 0; i < TURNS; i++) {
    uint64_t key = roll(&dice) % KEYS;
    if (roll(&dice) % 3 == 0) read_twice(key, key + KEYS / 10);
    else insert(key);
  }
  return NULL;
}

void ranges_that_follow_the_leaves(void) {
  pthread_t threads[WORKERS];
  uint64_t dice[WORKERS];
  size_t i;
  open_set();
  for (i = 0; i < WORKERS; i++) dice[i] = i + 1;
  for (i = 0; i < WORKERS; i++) WANT(pthread_create(&threads[i], NULL, work, &dice[i]) == 0);
  for (i = 0; i < WORKERS; i++) WANT(pthread_join(threads[i], NULL) == 0);
  WANT(leaf_count > KEYS / LEAF_KEYS / 2);
  close_set();
}

/* A range in which another writes stays as it is, and follows at the next split of a leaf. */
void a_range_follows_later(void) {
  bs_txn other;
  uint64_t key = KEYS;
  open_set();
  other = DONE(bs_table_begin(table)).txn;
  DONE(bs_table_lock_row_path(table, other, set.rows, key, &key, 1, BS_X, NULL));
  for (key = 0; leaf_count < 2; key++) insert(key);
  WANT(!leaves[1].begins_range);
  DONE(bs_table_commit(table, other, NULL));
  for (; leaf_count < 3; key++) insert(key);
  WANT(leaves[1].begins_range && leaves[2].begins_range);
  close_set();
}
