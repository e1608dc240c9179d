/*
 * What threads do a second with a table and with a group of tables, by turns in one program: each transaction locks a
 * record of the thread's own in BS_X, in a file of the thread's own, by its path from the data base, and commits; or it
 * locks in BS_X four of 10,000 rows, of a file of the thread's own or of one that all threads use; or one of a hundred
 * transactions, or of twenty, locks the data base in BS_S in place of a record.
 *
 *   groups [SECONDS [PARTS]]    for 1, 2, 4 and 16 threads prints a row for each side, the median of five turns, each as
 *                               long as this (0.3): transactions a second, and how many times those of the table by calls
 *
 * The sides are a table by calls, the same with each transaction in one list, a group, the group when it keeps intentions
 * (bs_group_keep), and the group while a transaction that only reads has BS_S on an area where none of the threads
 * works; with rows in files of their own a table and the group that keeps intentions; with the rows of one file a table
 * by calls, the group with a spread file, and that when it keeps intentions; and with locks of the data base a table and
 * the group. The rows are drawn, and locked by rising number, so that no transaction is a victim. PARTS is 16 if it is
 * not named.
 */
#include "burlapslate_group.h"
#include "burlapslate_rows.h"

#include <pthread.h>
#include <stdio.h>
#include <stdlib.h>
#include <string.h>

enum { MOST_THREADS = 16, TURNS = 5, SIDES = 14, COUNTS = 4, KEPT = 16, ROWS = 10000, DRAWN = 4 };

static const size_t counts[COUNTS] = { 1, 2, 4, 16 };

static bs_table *table;
static bs_table_group *group;
static bs_node in_table[MOST_THREADS], in_group[MOST_THREADS], idle_area, file_in_table, file_in_group;
static bs_node rows_in_table[MOST_THREADS], rows_in_own_part[MOST_THREADS], base_of_table, base_of_group;
static volatile bool is_over;

static struct worker {
  pthread_t thread;
  size_t number;
  int side;
  uint64_t done, dice;
} __attribute__((aligned(128))) workers[MOST_THREADS];

static bs_reply done(bs_reply reply, int line) {
  if (reply.status == BS_DONE) return reply;
  fprintf(stderr, "line %d: answered: %s\n", line, bs_text(reply.status));
  exit(1);
}

#define DONE(call) done((call), __LINE__)

static void by_calls(struct worker *own) {
  bs_node record = in_table[own->number];
  bs_txn txn = DONE(bs_table_begin(table)).txn;
  DONE(bs_table_lock_path(table, txn, record, BS_X, NULL));
  DONE(bs_table_commit(table, txn, NULL));
}

static void in_list(struct worker *own) {
  bs_node record = in_table[own->number];
  bs_command list[3];
  list[0] = bs_do(BS_DO_BEGIN, bs_begun());
  list[1] = bs_do_at(BS_DO_LOCK_PATH, bs_begun(), record, BS_X);
  list[2] = bs_do(BS_DO_COMMIT, bs_begun());
  if (bs_table_run(table, list, 3) != 3) exit(1);
}

static void in_a_group(struct worker *own) {
  bs_node record = in_group[own->number];
  bs_txn txn = DONE(bs_group_begin(group)).txn;
  DONE(bs_group_lock_path(group, txn, record, BS_X, NULL));
  DONE(bs_group_commit(group, txn));
}

static uint64_t drawn(struct worker *own, uint64_t below) {
  own->dice = own->dice * UINT64_C(6364136223846793005) + UINT64_C(1442695040888963407);
  return (own->dice >> 33) % below;
}

/* Draws four rows, by rising number: one of each quarter. */
static void draw(struct worker *own, uint64_t *rows) {
  size_t i;
  for (i = 0; i < DRAWN; i++) rows[i] = ROWS / DRAWN * i + drawn(own, ROWS / DRAWN);
}

static void rows_of_table(struct worker *own, bs_node file) {
  uint64_t rows[DRAWN];
  bs_txn txn = DONE(bs_table_begin(table)).txn;
  size_t i;
  draw(own, rows);
  for (i = 0; i < DRAWN; i++) DONE(bs_table_lock_row_path(table, txn, file, rows[i], NULL, 0, BS_X, NULL));
  DONE(bs_table_commit(table, txn, NULL));
}

static void rows_of_group(struct worker *own, bs_node file) {
  uint64_t rows[DRAWN];
  bs_txn txn = DONE(bs_group_begin(group)).txn;
  size_t i;
  draw(own, rows);
  for (i = 0; i < DRAWN; i++) DONE(bs_group_lock_row_path(group, txn, file, rows[i], NULL, 0, BS_X, NULL));
  DONE(bs_group_commit(group, txn));
}

static void rows_by_calls(struct worker *own) {
  rows_of_table(own, file_in_table);
}

static void rows_in_a_group(struct worker *own) {
  rows_of_group(own, file_in_group);
}

static void own_rows_by_calls(struct worker *own) {
  rows_of_table(own, rows_in_table[own->number]);
}

static void own_rows_in_a_group(struct worker *own) {
  rows_of_group(own, rows_in_own_part[own->number]);
}

/* Locks the data base, one time in so many. */
static void table_or_all(struct worker *own, uint64_t times) {
  bs_txn txn;
  if (drawn(own, times) != 0) {
    by_calls(own);
    return;
  }
  txn = DONE(bs_table_begin(table)).txn;
  DONE(bs_table_lock_path(table, txn, base_of_table, BS_S, NULL));
  DONE(bs_table_commit(table, txn, NULL));
}

static void group_or_all(struct worker *own, uint64_t times) {
  bs_txn txn;
  if (drawn(own, times) != 0) {
    in_a_group(own);
    return;
  }
  txn = DONE(bs_group_begin(group)).txn;
  DONE(bs_group_lock_path(group, txn, base_of_group, BS_S, NULL));
  DONE(bs_group_commit(group, txn));
}

static void table_reads_of_100(struct worker *own) {
  table_or_all(own, 100);
}

static void group_reads_of_100(struct worker *own) {
  group_or_all(own, 100);
}

static void table_reads_of_20(struct worker *own) {
  table_or_all(own, 20);
}

static void group_reads_of_20(struct worker *own) {
  group_or_all(own, 20);
}

/* The sides. */
static const struct {
  const char *name;
  void (*make_one)(struct worker *own); /* one transaction */
  int beside;                           /* the side with which it is compared */
  uint32_t kept;
  bool has_reader;
} sides[SIDES] = {
  { "table, by calls", by_calls, 0, 0, false },
  { "table, in a list", in_list, 0, 0, false },
  { "group", in_a_group, 0, 0, false },
  { "group, intentions kept", in_a_group, 0, KEPT, false },
  { "group, one area in S", in_a_group, 0, 0, true },
  { "table, own rows", own_rows_by_calls, 5, 0, false },
  { "group, own rows, kept", own_rows_in_a_group, 5, KEPT, false },
  { "table, rows of a file", rows_by_calls, 7, 0, false },
  { "group, spread file", rows_in_a_group, 7, 0, false },
  { "spread file, kept", rows_in_a_group, 7, KEPT, false },
  { "table, 1 in 100 in S", table_reads_of_100, 10, 0, false },
  { "group, 1 in 100 in S", group_reads_of_100, 10, KEPT, false },
  { "table, 1 in 20 in S", table_reads_of_20, 12, 0, false },
  { "group, 1 in 20 in S", group_reads_of_20, 12, KEPT, false },
};

static void *work(void *place) {
  struct worker *own = place;
  while (!is_over) {
    sides[own->side].make_one(own);
    own->done++;
  }
  return NULL;
}

static void make_table(void) {
  bs_node area;
  bs_txn txn;
  size_t i;
  DONE(bs_table_make(&table, NULL));
  base_of_table = DONE(bs_table_add_inner(table, NULL, 0)).node;
  area = DONE(bs_table_add_inner(table, &base_of_table, 1)).node;
  txn = DONE(bs_table_begin(table)).txn;
  for (i = 0; i < MOST_THREADS; i++) {
    bs_node file = DONE(bs_table_add_file(table, &area, 1)).node;
    DONE(bs_table_lock_path(table, txn, file, BS_IX, NULL));
    in_table[i] = DONE(bs_table_insert(table, txn, file, NULL, 0)).node;
    rows_in_table[i] = DONE(bs_table_add_row_file(table, &area, 1)).node;
  }
  DONE(bs_table_commit(table, txn, NULL));
  file_in_table = DONE(bs_table_add_row_file(table, &area, 1)).node;
}

static void make_group(uint32_t parts) {
  bs_node area;
  bs_txn txn;
  uint32_t i;
  DONE(bs_group_make(&group, NULL, parts));
  base_of_group = DONE(bs_group_add_inner(group, NULL, 0)).node;
  area = DONE(bs_group_add_inner(group, &base_of_group, 1)).node;
  idle_area = DONE(bs_group_add_inner(group, &base_of_group, 1)).node;
  txn = DONE(bs_group_begin(group)).txn;
  for (i = 0; i < MOST_THREADS; i++) {
    bs_node file = DONE(bs_group_add_file(group, 1 + i % parts, &area, 1)).node;
    in_group[i] = DONE(bs_group_insert(group, txn, file, NULL, 0)).node;
    rows_in_own_part[i] = DONE(bs_group_add_row_file(group, 1 + i % parts, &area, 1)).node;
  }
  DONE(bs_group_commit(group, txn));
  file_in_group = DONE(bs_group_add_spread_file(group, &area, 1)).node;
}

static double turn(int side, size_t threads, double seconds) {
  struct timespec rest = { (time_t)seconds, (long)((seconds - (double)(time_t)seconds) * 1e9) }, from, to;
  uint64_t all = 0;
  bs_txn reader = { 0, 0 };
  size_t i;
  DONE(bs_group_keep(group, sides[side].kept));
  if (sides[side].has_reader) {
    reader = DONE(bs_group_begin(group)).txn;
    DONE(bs_group_lock_path(group, reader, idle_area, BS_S, NULL));
  }
  is_over = false;
  clock_gettime(CLOCK_MONOTONIC, &from);
  for (i = 0; i < threads; i++) {
    workers[i].number = i;
    workers[i].side = side;
    workers[i].done = 0;
    workers[i].dice = i;
    if (pthread_create(&workers[i].thread, NULL, work, &workers[i]) != 0) exit(1);
  }
  nanosleep(&rest, NULL);
  is_over = true;
  for (i = 0; i < threads; i++) {
    pthread_join(workers[i].thread, NULL);
    all += workers[i].done;
  }
  clock_gettime(CLOCK_MONOTONIC, &to);
  if (sides[side].has_reader) DONE(bs_group_commit(group, reader));
  return (double)all / ((double)(to.tv_sec - from.tv_sec) + (double)(to.tv_nsec - from.tv_nsec) / 1e9);
}

static int by_size(const void *a, const void *b) {
  const double *one = a, *other = b;
  return (*one > *other) - (*one < *other);
}

int main(int count, char **words) {
  double seconds = count > 1 ? atof(words[1]) : 0.3, figures[SIDES][TURNS];
  size_t i;
  int side, at;
  make_table();
  make_group(count > 2 ? (uint32_t)atoi(words[2]) : 16);
  for (i = 0; i < COUNTS; i++) {
    for (at = 0; at < TURNS; at++) {
      for (side = 0; side < SIDES; side++) figures[side][at] = turn(side, counts[i], seconds);
    }
    for (side = 0; side < SIDES; side++) {
      qsort(figures[side], TURNS, sizeof figures[side][0], by_size);
      printf("%8zu  %-24s%12.0f%8.2f\n", counts[i], sides[side].name, figures[side][TURNS / 2],
             figures[side][TURNS / 2] / figures[sides[side].beside][TURNS / 2]);
    }
  }
  DONE(bs_group_end(group));
  DONE(bs_group_free(&group));
  DONE(bs_table_end(table));
  DONE(bs_table_free(&table));
  return 0;
}
