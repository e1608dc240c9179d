/*
 * Keys that are hashed onto bucket records, where there are more rows than nodes.
 */
#include "guide.h"

enum { BUCKETS = 1024 };

/* A file without indexes, whose records stand for all keys that are hashed onto them. */
struct hashed {
  bs_node root, file;
  bs_node buckets[BUCKETS];
};

/* Spreads keys that lie close together (multiplicative hashing). */
static uint64_t mixed(uint64_t key) {
  return key * 0x9e3779b97f4a7c15u >> 32;
}

static bs_node bucket_of(const struct hashed *h, uint64_t key) {
  return h->buckets[mixed(key) % BUCKETS];
}

/* Made once, before anybody locks a key. */
static void make_buckets(bs_manager *m, struct hashed *h) {
  bs_txn t = begin(m);
  size_t i;
  h->root = DONE(bs_add_inner(m, NULL, 0)).node;
  h->file = DONE(bs_add_file(m, &h->root, 1)).node;
  DONE(bs_lock_path(m, t, h->file, BS_IX, &told));
  for (i = 0; i < BUCKETS; i++) h->buckets[i] = DONE(bs_insert(m, t, h->file, NULL, 0)).node;
  DONE(bs_commit(m, t, &told));
}

/* Another key of the same bucket. */
static uint64_t neighbour(const struct hashed *h, uint64_t key) {
  uint64_t other = key + 1;
  while (!same_node(bucket_of(h, other), bucket_of(h, key))) other++;
  return other;
}

void more_rows_than_nodes(void) {
  static struct hashed h;
  bs_manager m;
  bs_txn a, b;
  uint64_t key = 1000000, other;
  open_manager(&m, BS_AT_BLOCK, BS_YOUNGEST);
  make_buckets(&m, &h);
  other = neighbour(&h, key);
  a = begin(&m);
  b = begin(&m);
  DONE(bs_lock_path(&m, a, bucket_of(&h, key), BS_X, &told));
  DONE(bs_lock_path(&m, a, bucket_of(&h, other), BS_X, &told));
  WANT(bs_children(&m, a, h.file).count == 1); /* One bucket, held once for both keys. */
  DONE(bs_lock_path(&m, b, h.file, BS_IX, &told));
  WANT(bs_try(&m, b, bucket_of(&h, other), BS_X).status == BS_WOULD_BLOCK);
  DONE(bs_end(&m));
}

enum { KEYS_EACH = 8, PAIRS = 1600 };

static bs_txn begin_to_write(bs_manager *m, const struct hashed *h) {
  bs_txn t = begin(m);
  DONE(bs_lock_path(m, t, h->file, BS_IX, &told));
  return t;
}

/* How many locks on keys at random are refused, since somebody has their buckets. */
static unsigned refused_locks(bs_manager *m, const struct hashed *h, bs_txn t, uint64_t *dice) {
  unsigned refused = 0;
  size_t i;
  for (i = 0; i < KEYS_EACH; i++) {
    bs_status status = bs_try(m, t, bucket_of(h, roll(dice)), BS_X).status;
    WANT(status == BS_DONE || status == BS_WOULD_BLOCK);
    refused += status == BS_WOULD_BLOCK;
  }
  return refused;
}

static bool meet(bs_manager *m, const struct hashed *h, uint64_t *dice) {
  bs_txn a = begin_to_write(m, h), b = begin_to_write(m, h);
  unsigned refused;
  WANT(refused_locks(m, h, a, dice) == 0);
  refused = refused_locks(m, h, b, dice);
  DONE(bs_commit(m, a, &told));
  DONE(bs_commit(m, b, &told));
  return refused > 0;
}

/* Pairs of transactions with 8 keys each, of 2 to the 48: whoever meets does so by accident. */
void false_conflicts(void) {
  static struct hashed h;
  bs_manager m;
  uint64_t dice = 0x9e3779b97f4a7c15u;
  unsigned met = 0, by_arithmetic = PAIRS * KEYS_EACH * KEYS_EACH / BUCKETS;
  size_t i;
  open_manager(&m, BS_AT_BLOCK, BS_YOUNGEST);
  make_buckets(&m, &h);
  for (i = 0; i < PAIRS; i++) met += meet(&m, &h, &dice);
  WANT(met > by_arithmetic / 2 && met < by_arithmetic * 3 / 2);
  DONE(bs_end(&m));
}

enum { INTERVALS = 3, BUCKETS_EACH = 16 };

/* A table with some buckets under each interval of its index by day. */
struct ranged {
  struct shop shop;
  bs_node buckets[INTERVALS][BUCKETS_EACH];
};

static bs_node bucket_under(bs_manager *m, const struct ranged *r, uint64_t day, uint64_t key) {
  bs_node interval = interval_of(m, &r->shop, day);
  uint64_t place = DONE(bs_place(m, interval)).count;
  return r->buckets[place][mixed(key) % BUCKETS_EACH];
}

static void make_ranged(bs_manager *m, struct ranged *r) {
  static const uint64_t days[INTERVALS] = { 0, 100, 200 };
  size_t i;
  r->shop = make_shop(m);
  for (i = 0; i < INTERVALS * BUCKETS_EACH; i++) {
    size_t place = i / BUCKETS_EACH;
    r->buckets[place][i % BUCKETS_EACH] = add_order(m, &r->shop, days[place]);
  }
}

/* Who reads an interval keeps writers from its buckets, and so from all keys of its days. */
void buckets_under_intervals(void) {
  static struct ranged r;
  bs_manager m;
  bs_txn reader, writer;
  bs_node interval;
  bs_reply reply;
  open_manager(&m, BS_AT_BLOCK, BS_YOUNGEST);
  make_ranged(&m, &r);
  interval = interval_of(&m, &r.shop, 150);
  reader = begin(&m);
  DONE(bs_lock_path(&m, reader, interval, BS_S, &told));
  writer = begin(&m);
  reply = bs_lock_path(&m, writer, bucket_under(&m, &r, 150, 7), BS_X, &told);
  WANT(reply.status == BS_WAITING && same_node(bs_doing(&m, writer).node, interval));
  DONE(bs_cancel(&m, writer, &told));
  DONE(bs_lock_path(&m, writer, bucket_under(&m, &r, 250, 7), BS_X, &told));
  DONE(bs_end(&m));
}
