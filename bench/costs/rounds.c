/*
 * Rounds, and the calls of the table that change nothing. Every answer and every list of notices is checked, as a
 * caller must.
 */
#include "costs.h"

/* How many commands a round has. */
enum { ALL = ABOVE + 3 };

static long rounds_each;

/* ------------------------------------------------------------------------------------------------
 * Rounds.
 */

static void round_by_manager(const struct path *path) {
  bs_txn txn = begun();
  size_t i;
  for (i = 0; i < ABOVE; i++) tells(bs_lock(&manager, txn, path->above[i], BS_IX, &told), 0);
  tells(bs_lock(&manager, txn, path->record, BS_X, &told), 0);
  tells(bs_commit(&manager, txn, &told), 0);
}

static void round_by_calls(const struct path *path) {
  bs_txn txn = DONE(bs_table_begin(table)).txn;
  size_t i;
  for (i = 0; i < ABOVE; i++) DONE(bs_table_lock(table, txn, path->above[i], BS_IX, NULL));
  DONE(bs_table_lock(table, txn, path->record, BS_X, NULL));
  DONE(bs_table_commit(table, txn, NULL));
}

static MEASURED void measured_by_manager(long rounds) {
  while (rounds-- > 0) round_by_manager(&paths[0]);
}

static MEASURED void measured_by_calls(const struct path *path, long rounds) {
  while (rounds-- > 0) round_by_calls(path);
}

static MEASURED void measured_by_lists(bs_command *list, long rounds) {
  while (rounds-- > 0) WANT(bs_table_run(table, list, ALL) == ALL);
}

uint64_t rounds_by_manager(size_t number, long rounds) {
  uint64_t start = now();
  (void)number;
  measured_by_manager(rounds);
  return now() - start;
}

uint64_t rounds_by_calls(size_t number, long rounds) {
  uint64_t start = now();
  measured_by_calls(&paths[number], rounds);
  return now() - start;
}

/* The list is made once, and served again and again. */
uint64_t rounds_by_lists(size_t number, long rounds) {
  const struct path *path = &paths[number];
  bs_command list[ALL];
  uint64_t start;
  size_t i;
  list[0] = bs_do(BS_DO_BEGIN, bs_begun());
  for (i = 0; i < ABOVE; i++) list[1 + i] = bs_do_at(BS_DO_LOCK, bs_begun(), path->above[i], BS_IX);
  list[ALL - 2] = bs_do_at(BS_DO_LOCK, bs_begun(), path->record, BS_X);
  list[ALL - 1] = bs_do(BS_DO_COMMIT, bs_begun());
  start = now();
  measured_by_lists(list, rounds);
  return now() - start;
}

static void work(size_t number) { measured_by_calls(&paths[number], rounds_each); }

uint64_t rounds_in_threads(size_t number, long rounds) {
  rounds_each = rounds / (long)number;
  return together(number, work);
}

/* ------------------------------------------------------------------------------------------------
 * Calls that change nothing.
 */

static MEASURED void measured_boards(bs_board *board, long rounds) {
  while (rounds-- > 0) {
    DONE(bs_read_board(bs_table_hold(table), board));
    DONE(bs_table_let_go(table));
  }
}

static MEASURED void measured_questions(long rounds) {
  while (rounds-- > 0) {
    WANT(DONE(bs_group(bs_table_hold(table), paths[0].record)).mode == BS_NL);
    DONE(bs_table_let_go(table));
  }
}

static MEASURED void measured_looks(bs_board *board, long rounds) {
  while (rounds-- > 0) DONE(bs_look(&watcher, board));
}

uint64_t boards(size_t number, long rounds) {
  static bs_board board;
  uint64_t start = now();
  (void)number;
  measured_boards(&board, rounds);
  return now() - start;
}

uint64_t questions(size_t number, long rounds) {
  uint64_t start = now();
  (void)number;
  measured_questions(rounds);
  return now() - start;
}

uint64_t looks(size_t number, long rounds) {
  static bs_board board;
  uint64_t start = now();
  (void)number;
  measured_looks(&board, rounds);
  return now() - start;
}
