/*
 * What each answer and each notice asks of an engine.
 */
#include "guide.h"

enum action {
  GO_ON,      /* it is done, or it is an answer and no fault */
  SLEEP,      /* until a notice tells how the wait ended */
  LOOK_AGAIN, /* the row may lie elsewhere or be gone: look at it anew, and lock it there from the root down */
  DO_WITHOUT, /* it would have to wait: go on with what is held, or ask by bs_lock */
  ASK_LATER,  /* somebody uses the record: it stays, and is not to be forgotten yet */
  ROLL_BACK,  /* undo, bs_abort, and begin again */
  LEAVE,      /* another thread ended the transaction, and undid what it did */
  MAKE_ROOM,  /* as many live as may: wait until one ends, or roll back */
  CLOSE,      /* the manager has come to its end: let all end, bs_end, bs_make */
  MEND        /* the program is wrong: stop */
};

static enum action what_to_do(bs_status status) {
  switch ((enum bs_statuses)status) {
    case BS_DONE: case BS_NO_PLACE: case BS_NOT_WAITING: return GO_ON;
    case BS_NOT_MADE: return GO_ON; /* By the answer of the command that ended the list. */
    case BS_WAITING: return SLEEP;
    case BS_NEED_PARENTS: case BS_NO_SUCH_NODE: case BS_MOVED: case BS_GONE: return LOOK_AGAIN;
    case BS_ON_THE_WAY: case BS_OTHER_KEYS: return LOOK_AGAIN;
    case BS_WOULD_BLOCK: return DO_WITHOUT;
    case BS_NEED_RELEASE: return DO_WITHOUT; /* Without the renewal: commit, and begin. */
    case BS_RECORD_IN_USE: return ASK_LATER;
    case BS_NOT_WRITTEN: return ASK_LATER; /* The metrics are not whole, or a trace is not. */
    case BS_VICTIM: case BS_TXN_CONDEMNED: case BS_NO_MEMORY: case BS_TIMED_OUT: return ROLL_BACK;
    case BS_NO_SUCH_TXN: return LEAVE;
    case BS_TOO_MANY_TXNS: case BS_TOO_MANY_NODES: case BS_TOO_MANY_WATCHERS: return MAKE_ROOM;
    case BS_WORN_OUT: return CLOSE;
    case BS_TXN_WAITING: case BS_BAD_MODE: case BS_NOT_HELD: case BS_HELD_CHILD: return MEND;
    case BS_BAD_PARENTS: case BS_NEED_EXCLUSIVE: case BS_BAD_KEYS: return MEND;
    case BS_FILE_IN_USE: case BS_HAS_CHILDREN: return MEND; /* What stands below goes first. */
    case BS_CYCLE: case BS_NULL_POINTER: case BS_NO_MANAGER: case BS_BAD_NUMBER: case BS_IN_USE: return MEND;
    case BS_NO_WATCHER: case BS_ROWS_BY_NUMBER: case BS_NOT_ROWS: return MEND;
    case BS_OTHER_SLOTS: case BS_OTHER_VERSION: return MEND;
    case BS_IN_PARTS: return MEND; /* A table of one part has the call. */
    case BS_TOO_LATE: case BS_NO_TRACE: return MEND; /* A trace begins before the first transaction. */
    case BS_NAME_TAKEN: case BS_BAD_LINE: return MEND; /* Not answered to C. */
  }
  return MEND;
}

static enum action after_notice(uint32_t kind) {
  switch ((enum bs_notice_kinds)kind) {
    case BS_TOLD_GRANTED: return GO_ON;
    case BS_TOLD_VICTIM: return ROLL_BACK;
    case BS_TOLD_MOVED: case BS_TOLD_GONE: return LOOK_AGAIN;
  }
  return MEND;
}

static enum action of(bs_reply reply) {
  return what_to_do(reply.status);
}

static enum action of_notice(size_t place, bs_txn txn) {
  WANT(place < told.count && told.at[place].txn.slot == txn.slot);
  return after_notice(told.at[place].kind);
}

static void of_locks(bs_manager *m, const struct shop *s) {
  bs_node order = add_order(m, s, 20);
  bs_txn a = begin(m), b = begin(m);
  WANT(of(bs_lock(m, a, order, BS_X, &told)) == LOOK_AGAIN);
  WANT(of(bs_lock_path(m, a, order, BS_X, &told)) == GO_ON);
  WANT(of(bs_lock(m, a, order, BS_IX, &told)) == MEND);
  WANT(of(bs_unlock(m, a, s->orders, &told)) == MEND);
  WANT(of(bs_lock_path(m, b, s->orders, BS_IX, &told)) == GO_ON);
  WANT(of(bs_try(m, b, s->orders, BS_S)) == DO_WITHOUT);
  WANT(of(bs_lock_path(m, b, order, BS_X, &told)) == SLEEP);
  WANT(of(bs_commit(m, b, &told)) == MEND);
  DONE(bs_delete(m, a, order, &told));
  WANT(of_notice(0, b) == LOOK_AGAIN);
  WANT(of(bs_lock(m, b, order, BS_X, &told)) == LOOK_AGAIN);
  WANT(of(bs_cancel(m, b, &told)) == GO_ON);
  DONE(bs_abort(m, b, &told));
  WANT(of(bs_commit(m, b, &told)) == LEAVE);
  DONE(bs_commit(m, a, &told));
}

static void of_rows(bs_manager *m, const struct shop *s) {
  bs_node rows = DONE(bs_add_row_file(m, &s->tables, 1)).node;
  bs_node by_day = DONE(bs_add_index(m, &s->indexes, 1, rows, NULL, 0)).node, record;
  bs_txn a = begin(m), b = begin(m);
  uint64_t day = 20, other = 30;
  WANT(of(bs_insert(m, a, rows, &day, 1)) == MEND);
  WANT(of(bs_lock_row(m, a, s->orders, 7, &day, 1, BS_X, &told)) == MEND);
  WANT(of(bs_lock_row(m, a, rows, 7, &day, 1, BS_X, &told)) == LOOK_AGAIN);
  DONE(bs_lock_path(m, a, rows, BS_IX, &told));
  DONE(bs_lock_path(m, a, bs_interval(m, by_day, 0).node, BS_IX, &told));
  DONE(bs_lock_path(m, b, rows, BS_IS, &told));
  WANT(of(bs_lock_row(m, a, rows, 7, &day, 1, BS_X, &told)) == GO_ON);
  WANT(of(bs_lock_row(m, b, rows, 7, &other, 1, BS_S, &told)) == SLEEP);
  DONE(bs_commit(m, a, &told));
  WANT(of_notice(0, b) == GO_ON);
  WANT(of(bs_lock_row(m, b, rows, 7, &other, 1, BS_S, &told)) == LOOK_AGAIN);
  WANT(of(bs_unlock_row(m, b, rows, 7, &told)) == GO_ON);
  record = DONE(bs_adopt(m, s->orders, &day, 1)).node;
  DONE(bs_lock_path(m, b, record, BS_S, &told));
  WANT(of(bs_forget(m, record)) == ASK_LATER);
  DONE(bs_commit(m, b, &told));
}

static void of_deadlocks(bs_manager *m, const struct shop *s) {
  bs_txn a = begin(m), b = begin(m);
  DONE(bs_lock(m, a, s->db, BS_S, &told));
  DONE(bs_lock(m, b, s->db, BS_S, &told));
  WANT(of(bs_lock(m, b, s->db, BS_X, &told)) == SLEEP);
  WANT(of(bs_lock(m, a, s->db, BS_X, &told)) == SLEEP);
  WANT(of_notice(0, b) == ROLL_BACK);
  WANT(of(bs_commit(m, b, &told)) == ROLL_BACK);
  DONE(bs_abort(m, b, &told));
  WANT(of_notice(0, a) == GO_ON);
  DONE(bs_commit(m, a, &told));
}

static void of_limits(bs_manager *m) {
  size_t i;
  for (i = 0; i < BS_SLOTS; i++) begin(m);
  WANT(of(bs_begin(m)) == MAKE_ROOM);
}

void what_each_answer_asks(void) {
  bs_manager m;
  struct shop s;
  open_manager(&m, BS_AT_BLOCK, BS_YOUNGEST);
  s = make_shop(&m);
  of_locks(&m, &s);
  of_rows(&m, &s);
  of_deadlocks(&m, &s);
  of_limits(&m);
  DONE(bs_end(&m));
  WANT(of(bs_begin(&m)) == MEND);
}
