/*
 * Traces of a shared table: what they can follow, and what they cost (bench/traced.sh).
 *
 *   traced follow FILE RATE SECONDS   four threads make RATE commands a second together, 0 for as many as they can
 *   traced costs FILE                 what a command takes without a trace and with one
 */
#include "ours.h"

#include "burlapslate_running.h"

#include <fcntl.h>
#include <stdio.h>
#include <stdlib.h>
#include <string.h>
#include <sys/stat.h>
#include <time.h>
#include <unistd.h>

enum { CREW = 4, INNER = 3, COMMANDS = INNER + 3 };

static bs_table *table;
static bs_node path[INNER], own[CREW], shared;
static int file;
static uint64_t pace, ends; /* nanoseconds of a transaction; the time at which the threads end */
static uint64_t made[CREW];

static void open_table(const char *name) {
  bs_txn txn;
  size_t i;
  DONE(bs_table_make(&table, NULL));
  path[0] = DONE(bs_table_add_inner(table, NULL, 0)).node;
  path[1] = DONE(bs_table_add_inner(table, &path[0], 1)).node;
  path[2] = DONE(bs_table_add_file(table, &path[1], 1)).node;
  file = name == NULL ? -1 : open(name, O_WRONLY | O_CREAT | O_TRUNC, 0600);
  if (name != NULL) DONE(bs_table_trace(table, file));
  txn = DONE(bs_table_begin(table)).txn;
  DONE(bs_table_lock_path(table, txn, path[2], BS_IX, NULL));
  for (i = 0; i < CREW; i++) own[i] = DONE(bs_table_insert(table, txn, path[2], NULL, 0)).node;
  shared = DONE(bs_table_insert(table, txn, path[2], NULL, 0)).node;
  DONE(bs_table_commit(table, txn, NULL));
}

static void close_table(void) {
  DONE(bs_table_end(table));
  DONE(bs_table_free(&table));
  if (file >= 0) close(file);
}

static void transaction(bs_node record) {
  bs_txn txn = DONE(bs_table_begin(table)).txn;
  size_t i;
  for (i = 0; i < INNER; i++) DONE(bs_table_lock(table, txn, path[i], BS_IX, NULL));
  DONE(bs_table_lock(table, txn, record, BS_X, NULL));
  DONE(bs_table_commit(table, txn, NULL));
}

/* Makes transactions at its pace. A thread that is late makes the next ones at once. */
static void make_some(size_t number) {
  uint64_t next = now();
  for (; next < ends && now() < ends; next += pace) {
    while (now() < next) {
      struct timespec rest = { 0, 20000 };
      nanosleep(&rest, NULL);
    }
    transaction(made[number] % 16 == 0 ? shared : own[number]);
    made[number]++;
  }
}

static void follow(const char *name, uint64_t rate, uint64_t seconds) {
  uint64_t all = 0, dropped, began;
  struct stat of;
  size_t i;
  open_table(name);
  pace = rate == 0 ? 0 : UINT64_C(1000000000) * CREW * COMMANDS / rate;
  began = now();
  ends = began + seconds * UINT64_C(1000000000);
  if (pace == 0) pace = 1;
  together(CREW, make_some);
  began = now() - began;
  for (i = 0; i < CREW; i++) all += made[i] * COMMANDS;
  dropped = DONE(bs_table_trace_end(table)).count;
  WANT(fstat(file, &of) == 0);
  printf("%9.0f commands a second: %lu lines dropped, %.1f megabytes\n", (double)all * 1e9 / (double)began,
         (unsigned long)dropped, (double)of.st_size / 1e6);
  close_table();
}

static double cost(const char *name) {
  uint64_t times[TURNS];
  size_t turn, i;
  for (turn = 0; turn < TURNS; turn++) {
    open_table(name);
    times[turn] = now();
    for (i = 0; i < 10000; i++) transaction(own[0]);
    times[turn] = now() - times[turn];
    close_table();
  }
  return of_round(times, BEST, 10000L * COMMANDS);
}

int main(int count, char **words) {
  if (count == 5 && strcmp(words[1], "follow") == 0) {
    follow(words[2], strtoull(words[3], NULL, 10), strtoull(words[4], NULL, 10));
  } else if (count == 3 && strcmp(words[1], "costs") == 0) {
    printf("a command takes %.0f ns without a trace, ", cost(NULL));
    printf("%.0f ns with one\n", cost(words[2]));
  } else {
    return 2;
  }
  return 0;
}
