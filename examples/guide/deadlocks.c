/*
 * Deadlocks: found when a wait begins, or on a board; and whom they take.
 */
#include "guide.h"

/* The first waits for the last, and the last, which asks then, for the first. */
static bs_status close_cycle(bs_manager *m, const struct shop *s, bs_txn first, bs_txn last) {
  bs_node one = add_order(m, s, 20), other = add_order(m, s, 150);
  DONE(bs_lock_path(m, first, one, BS_X, &told));
  DONE(bs_lock_path(m, last, other, BS_X, &told));
  WANT(bs_lock_path(m, first, other, BS_X, &told).status == BS_WAITING);
  return bs_lock_path(m, last, one, BS_X, &told).status;
}

/* The youngest falls: the requester, who is answered so, or another, who is told so. */
void deadlocks_at_block(void) {
  bs_manager m;
  struct shop s;
  bs_txn old, young;
  open_manager(&m, BS_AT_BLOCK, BS_YOUNGEST);
  s = make_shop(&m);
  old = begin(&m);
  young = begin(&m);
  WANT(close_cycle(&m, &s, old, young) == BS_VICTIM && told.count == 0);
  DONE(bs_abort(&m, young, &told));
  WANT(is_told(0, old, BS_TOLD_GRANTED));
  young = begin(&m);
  WANT(close_cycle(&m, &s, young, old) == BS_WAITING);
  WANT(told.count == 1 && is_told(0, young, BS_TOLD_VICTIM));
  WANT(bs_commit(&m, young, &told).status == BS_TXN_CONDEMNED);
  DONE(bs_abort(&m, young, &told));
  WANT(is_told(0, old, BS_TOLD_GRANTED));
  DONE(bs_end(&m));
}

/* Work that fell begins again with the number of its first begin: then it is the other's turn to fall. */
void a_victim_keeps_its_turn(void) {
  bs_manager m;
  struct shop s;
  bs_txn victim, other, again;
  open_manager(&m, BS_AT_BLOCK, BS_YOUNGEST);
  s = make_shop(&m);
  other = begin(&m);
  victim = begin(&m);
  WANT(close_cycle(&m, &s, other, victim) == BS_VICTIM);
  DONE(bs_abort(&m, victim, &told));
  DONE(bs_commit(&m, other, &told));
  other = begin(&m);
  again = DONE(bs_begin_again(&m, victim.age)).txn;
  WANT(close_cycle(&m, &s, other, again) == BS_WAITING && is_told(0, other, BS_TOLD_VICTIM));
  DONE(bs_abort(&m, other, &told));
  WANT(is_told(0, again, BS_TOLD_GRANTED));
  DONE(bs_end(&m));
}

/* Two young readers hold what an old writer asks for, and wait for what it holds. */
static bs_status ask_among_readers(uint32_t victims) {
  bs_manager m;
  struct shop s;
  bs_txn writer, readers[2];
  bs_node has, wants;
  bs_status status;
  size_t i;
  open_manager(&m, BS_AT_BLOCK, victims);
  s = make_shop(&m);
  has = add_order(&m, &s, 20);
  wants = add_order(&m, &s, 150);
  writer = begin(&m);
  DONE(bs_lock_path(&m, writer, has, BS_X, &told));
  for (i = 0; i < 2; i++) {
    readers[i] = begin(&m);
    DONE(bs_lock_path(&m, readers[i], wants, BS_S, &told));
    WANT(bs_lock_path(&m, readers[i], has, BS_S, &told).status == BS_WAITING);
  }
  status = bs_lock_path(&m, writer, wants, BS_X, &told).status;
  if (status == BS_WAITING) WANT(is_told(0, readers[0], BS_TOLD_VICTIM) && is_told(1, readers[1], BS_TOLD_VICTIM));
  if (status == BS_VICTIM) WANT(told.count == 0);
  DONE(bs_end(&m));
  return status;
}

/* The readers, since they are younger; or the writer, since it alone is enough. */
void whom_a_deadlock_takes(void) {
  WANT(ask_among_readers(BS_YOUNGEST) == BS_WAITING);
  WANT(ask_among_readers(BS_FEWEST) == BS_VICTIM);
}

/* How many fall where all suspects of a board are settled, one after the other. */
static size_t settle_all(bs_manager *m, const bs_board *board) {
  bs_slots suspects = bs_suspects(board).slots;
  size_t condemned = 0;
  uint32_t slot;
  for (slot = 0; slot < BS_SLOTS; slot++) {
    bs_txn suspect = { slot, board->ages[slot] };
    bs_status status;
    if (!bs_has(suspects, slot)) continue;
    status = bs_settle(m, suspect, &told).status;
    WANT(status == BS_DONE || status == BS_NO_SUCH_TXN);
    condemned += told.count;
  }
  return condemned;
}

/* Suspects of whom one has given way, and suspects that have ended. */
void old_boards_do_no_harm(void) {
  static bs_board board;
  bs_manager m;
  struct shop s;
  bs_txn old, young;
  open_manager(&m, BS_BY_WATCHER, BS_YOUNGEST);
  s = make_shop(&m);
  old = begin(&m);
  young = begin(&m);
  WANT(close_cycle(&m, &s, old, young) == BS_WAITING && told.count == 0);
  DONE(bs_read_board(&m, &board));
  WANT(settle_all(&m, &board) == 1);
  WANT(settle_all(&m, &board) == 0);
  DONE(bs_abort(&m, young, &told));
  DONE(bs_commit(&m, old, &told));
  WANT(settle_all(&m, &board) == 0);
  DONE(bs_end(&m));
}
