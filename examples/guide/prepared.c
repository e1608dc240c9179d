/*
 * Transactions that are prepared to commit, and wait for the word of somebody else.
 */
#include "guide.h"

enum { ROWS = 3 };

/* What the log keeps of a lock: the row, and the mode. */
struct noted {
  size_t row;
  bs_mode mode;
};

/* What the engine keeps of a prepared transaction, beside its log. */
struct prepared {
  uint64_t number; /* by which the others know it */
  bs_txn txn;
};

/* Behind its last lock, which was granted: so it does not wait, and is not condemned. */
static struct prepared prepare(bs_manager *m, bs_txn txn, uint64_t number) {
  struct prepared p = { number, txn };
  WANT(bs_doing(m, txn).count == BS_ACTIVE);
  return p;
}

/* Whoever has the name carries the word out, whatever thread it is. */
static void decide(bs_manager *m, const struct prepared *p, bool commits) {
  if (commits) DONE(bs_commit(m, p->txn, &told));
  else DONE(bs_abort(m, p->txn, &told)); /* Its rows are undone by then. */
}

/* Two others close a cycle, and one of them waits for the prepared one too. */
void prepared_transactions(void) {
  static bs_board board;
  bs_manager m;
  struct shop s;
  struct prepared p;
  bs_txn a, old, young;
  bs_node row;
  open_manager(&m, BS_BY_WATCHER, BS_YOUNGEST);
  s = make_shop(&m);
  row = add_order(&m, &s, 20);
  old = begin(&m);
  young = begin(&m);
  a = begin(&m);
  DONE(bs_lock_path(&m, a, row, BS_S, &told));
  p = prepare(&m, a, 7);
  DONE(bs_lock_path(&m, old, row, BS_S, &told));
  DONE(bs_lock_path(&m, young, row, BS_S, &told));
  WANT(bs_lock_path(&m, old, row, BS_X, &told).status == BS_WAITING);
  WANT(bs_lock_path(&m, young, row, BS_X, &told).status == BS_WAITING);
  DONE(bs_read_board(&m, &board));
  WANT(bs_has(board.rows[old.slot], p.txn.slot) && !bs_has(bs_suspects(&board).slots, p.txn.slot));
  DONE(bs_settle(&m, p.txn, &told));
  WANT(told.count == 0);
  DONE(bs_settle(&m, old, &told));
  WANT(told.count == 1 && is_told(0, young, BS_TOLD_VICTIM));
  DONE(bs_abort(&m, young, &told));
  WANT(told.count == 0); /* The old one waits for the word. */
  decide(&m, &p, true);
  WANT(told.count == 1 && is_told(0, old, BS_TOLD_GRANTED));
  DONE(bs_end(&m));
}

/* Before anybody else is let in, so each lock is granted at once, as these went together before. */
static struct prepared lock_again(bs_manager *m, const bs_node *rows, uint64_t number, const struct noted *log,
                                  size_t count) {
  bs_txn t = begin(m);
  size_t i;
  for (i = 0; i < count; i++) DONE(bs_lock_path(m, t, rows[log[i].row], log[i].mode, &told));
  return prepare(m, t, number);
}

/* A new manager has new names for all nodes and transactions; rows and numbers are the engine's. */
void after_a_restart(void) {
  static const struct noted log[] = { { 0, BS_X }, { 2, BS_S } };
  bs_manager m;
  struct shop s;
  struct prepared p;
  bs_node rows[ROWS];
  bs_txn other;
  size_t i;
  open_manager(&m, BS_AT_BLOCK, BS_YOUNGEST);
  s = make_shop(&m);
  for (i = 0; i < ROWS; i++) rows[i] = add_order(&m, &s, 100 * i);
  p = lock_again(&m, rows, 7, log, sizeof log / sizeof log[0]);
  other = begin(&m);
  DONE(bs_lock_path(&m, other, rows[1], BS_X, &told));
  DONE(bs_lock_path(&m, other, rows[2], BS_S, &told));
  WANT(bs_lock_path(&m, other, rows[0], BS_X, &told).status == BS_WAITING);
  decide(&m, &p, false);
  WANT(is_told(0, other, BS_TOLD_GRANTED));
  DONE(bs_end(&m));
}
