/*
 * The memory of a manager, a table, a record, a lock and a row. It is run by bench/memory.sh, which links this
 * program's malloc, realloc and free before the C library's (--wrap). They count what malloc_usable_size says, and
 * eight bytes for each block.
 */
#include "files.h"

#include "burlapslate_shared.h"

#include <malloc.h>
#include <stdio.h>

enum { RECORDS = 100000, PER_TRANSACTION = 100, HEAD = 8, MOST_INDEXES = 3 };

static size_t taken;

void *__real_malloc(size_t size);
void *__real_realloc(void *block, size_t size);
void __real_free(void *block);
void *__wrap_malloc(size_t size);
void *__wrap_realloc(void *block, size_t size);
void __wrap_free(void *block);

static void *counted(void *block) {
  if (block != NULL) taken += malloc_usable_size(block) + HEAD;
  return block;
}

static void uncounted(void *block) {
  if (block != NULL) taken -= malloc_usable_size(block) + HEAD;
}

void *__wrap_malloc(size_t size) {
  return counted(__real_malloc(size));
}

void *__wrap_realloc(void *block, size_t size) {
  uncounted(block);
  return counted(__real_realloc(block, size));
}

void __wrap_free(void *block) {
  uncounted(block);
  __real_free(block);
}

static bs_node records[RECORDS];

static void row(const char *what, size_t bytes) {
  printf("%-66s%9zu\n", what, bytes);
}

/* The share of each of so many, rounded to the nearest. */
static size_t each(size_t bytes, size_t count) {
  return (bytes + count / 2) / count;
}

static void set_up(void) {
  make_files(4 * RECORDS);
}

/* The memory of an empty manager, for so many transactions. */
static size_t empty_manager(uint32_t most) {
  bs_options options = { 0 };
  size_t before = taken, with;
  options.transactions = most;
  DONE(bs_make(&m, &options));
  with = taken - before;
  DONE(bs_end(&m));
  WANT(taken == before);
  return with;
}

static size_t empty_table(void) {
  bs_table *table = NULL;
  size_t before = taken, with;
  DONE(bs_table_make(&table, NULL));
  with = taken - before;
  DONE(bs_table_end(table));
  DONE(bs_table_free(&table));
  WANT(taken == before);
  return with;
}

/* Inserts records of a file, with one key for all of its indexes, of each of which this is the interval: a hundred in
 * a transaction, so that no list is large before the locks are acquired. */
static size_t records_come(bs_node of, const bs_node *intervals, size_t indexes) {
  size_t before = taken, i;
  uint64_t key = 0;
  while (key < RECORDS) {
    bs_txn t = begin_at(of, intervals[0]);
    for (i = 1; i < indexes; i++) DONE(bs_lock_path(&m, t, intervals[i], BS_IX, &told));
    do {
      uint64_t keys[MOST_INDEXES] = { key, key, key };
      records[key] = DONE(bs_insert(&m, t, of, keys, indexes)).node;
    } while (++key % PER_TRANSACTION != 0);
    DONE(bs_commit(&m, t, &told));
  }
  return taken - before;
}

/* The same for a file with three indexes. */
static size_t wide_records_come(void) {
  bs_node wide = DONE(bs_add_file(&m, &db, 1)).node, intervals[MOST_INDEXES];
  size_t i;
  for (i = 0; i < MOST_INDEXES; i++) intervals[i] = interval_of(wide);
  return records_come(wide, intervals, MOST_INDEXES);
}

static void lock_from(bs_txn t, size_t from, size_t count) {
  size_t at;
  for (at = from; at < from + count; at++) DONE(bs_lock(&m, t, records[at], BS_X, &told));
}

/* Locks all records in X by so many transactions: the memory for that, and what remains after their commits. */
static void lock_all(size_t by, size_t *with, size_t *behind) {
  bs_txn t[PER_TRANSACTION];
  size_t before = taken, i;
  for (i = 0; i < by; i++) {
    t[i] = begin_at(file, below);
    lock_from(t[i], i * (RECORDS / by), RECORDS / by);
  }
  *with = taken - before;
  for (i = 0; i < by; i++) DONE(bs_commit(&m, t[i], &told));
  *behind = taken - before;
}

static void lock_rows(size_t *with, size_t *behind) {
  bs_txn t = begin_at(row_file, row_below);
  size_t before = taken;
  uint64_t number;
  for (number = 0; number < RECORDS; number++) {
    DONE(bs_lock_row(&m, t, row_file, number, &number, 1, BS_X, &told));
  }
  *with = taken - before;
  DONE(bs_commit(&m, t, &told));
  *behind = taken - before;
}

int main(void) {
  size_t with, behind;
  printf("of %d slots, in bytes\n", BS_SLOTS);
  row("an empty manager for all transactions", empty_manager(BS_SLOTS));
  row("for 16", empty_manager(16));
  row("for 1", empty_manager(1));
  row("an empty bs_table", empty_table());
  set_up();
  row("a record that nobody locks, of 100,000", each(records_come(file, &below, 1), RECORDS));
  lock_all(1, &with, &behind);
  row("a lock of a record in X, of 100,000 by one transaction", each(with, RECORDS));
  row("of it, what stays with the manager behind the commit", each(behind, RECORDS));
  DONE(bs_end(&m));
  set_up();
  (void)records_come(file, &below, 1);
  lock_all(PER_TRANSACTION, &with, &behind);
  row("a lock of a record in X, of 100,000 by a hundred transactions", each(with, RECORDS));
  DONE(bs_end(&m));
  set_up();
  lock_rows(&with, &behind);
  row("a row by its number while it is locked in X, of 100,000", each(with, RECORDS));
  row("of it, what stays with the manager behind the commit", each(behind, RECORDS));
  DONE(bs_end(&m));
  set_up();
  row("a record with three indexes that nobody locks, of 100,000", each(wide_records_come(), RECORDS));
  DONE(bs_end(&m));
  return 0;
}
