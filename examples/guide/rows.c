/*
 * Rows that are nodes only while they are locked.
 */
#include "guide.h"

enum { ROWS = 1000 };

/* The engine's rows, by their numbers. The day of each is its key, by which the table has an index. */
struct rows {
  bs_node db, orders, by_day;
  bool is_there[ROWS];
  uint64_t days[ROWS];
};

static void make_rows(bs_manager *m, struct rows *r) {
  static const uint64_t bounds[] = { 100, 200 };
  uint32_t row;
  open_manager(m, BS_AT_BLOCK, BS_YOUNGEST);
  r->db = DONE(bs_add_inner(m, NULL, 0)).node;
  r->orders = DONE(bs_add_row_file(m, &r->db, 1)).node;
  r->by_day = DONE(bs_add_index(m, &r->db, 1, r->orders, bounds, 2)).node;
  for (row = 0; row < ROWS; row++) {
    r->days[row] = row % 300;
    r->is_there[row] = true;
  }
}

static bs_node interval_at(bs_manager *m, const struct rows *r, uint64_t day) {
  return DONE(bs_interval_of(m, r->by_day, day)).node;
}

static bool has_node(bs_manager *m, const struct rows *r, uint32_t row) {
  return bs_row_node(m, r->orders, row).status == BS_DONE;
}

/* What is held above a row of this day. */
static bs_reply lock_above(bs_manager *m, const struct rows *r, bs_txn t, uint64_t day) {
  bs_reply reply = bs_lock_path(m, t, r->orders, BS_IX, &told);
  return reply.status == BS_DONE ? bs_lock_path(m, t, interval_at(m, r, day), BS_IX, &told) : reply;
}

/* Asks for a row by a day. Its node may have another one: what is wanting above that is locked too. */
static bs_reply ask_by(bs_manager *m, const struct rows *r, bs_txn t, uint32_t row, uint64_t day, bs_mode mode) {
  bs_reply reply = lock_above(m, r, t, day);
  while (reply.status == BS_DONE) {
    reply = bs_lock_row(m, t, r->orders, row, &day, 1, mode, &told);
    if (reply.status != BS_NEED_PARENTS) break;
    reply = bs_lock_path(m, t, reply.node, BS_IX, &told);
  }
  return reply;
}

/* Locks a row by its number, with what is above the day that it has. Behind each grant the row is looked at again, and
 * given back where its day is another than was said. Behind a wait the caller asks again. */
static bs_reply lock_row(bs_manager *m, const struct rows *r, bs_txn t, uint32_t row, bs_mode mode) {
  for (;;) {
    uint64_t day = r->days[row];
    bs_reply reply = ask_by(m, r, t, row, day, mode);
    if (reply.status != BS_DONE && reply.status != BS_OTHER_KEYS) return reply;
    if (r->days[row] == day) return reply;
    DONE(bs_unlock_row(m, t, r->orders, row, &told));
  }
}

/* Of a thousand rows two are locked, and two have nodes. */
void rows_while_they_are_locked(void) {
  static struct rows r;
  bs_manager m;
  bs_txn a, b;
  make_rows(&m, &r);
  a = begin(&m), b = begin(&m);
  DONE(lock_row(&m, &r, a, 7, BS_X));
  DONE(lock_row(&m, &r, a, 8, BS_X));
  WANT(lock_row(&m, &r, b, 7, BS_S).status == BS_WAITING);
  DONE(bs_commit(&m, a, &told));
  WANT(is_told(0, b, BS_TOLD_GRANTED) && has_node(&m, &r, 7) && !has_node(&m, &r, 8));
  DONE(lock_row(&m, &r, b, 7, BS_S));
  DONE(bs_commit(&m, b, &told));
  WANT(!has_node(&m, &r, 7) && bs_has_records(&m, r.orders).count == 0);
  DONE(bs_end(&m));
}

/* A row that moves is rekeyed, and the engine's row with it. */
static void move_row(bs_manager *m, struct rows *r, bs_txn t, uint32_t row, uint64_t day) {
  DONE(lock_row(m, r, t, row, BS_X));
  DONE(bs_lock_path(m, t, interval_at(m, r, day), BS_IX, &told));
  DONE(bs_rekey_row(m, t, r->orders, row, r->by_day, day, &told));
  r->days[row] = day;
}

/* Who reads the interval to which a row moves waits for it, and finds the row there. */
void a_locked_row_is_rekeyed(void) {
  static struct rows r;
  bs_manager m;
  bs_txn writer, reader;
  bs_node interval;
  make_rows(&m, &r);
  interval = interval_at(&m, &r, 250);
  writer = begin(&m), reader = begin(&m);
  move_row(&m, &r, writer, 7, 250);
  WANT(bs_lock_path(&m, reader, interval, BS_S, &told).status == BS_WAITING);
  DONE(bs_commit(&m, writer, &told));
  WANT(is_told(0, reader, BS_TOLD_GRANTED) && !has_node(&m, &r, 7));
  DONE(bs_lock_path(&m, reader, r.orders, BS_IS, &told));
  WANT(same_node(bs_parent(&m, DONE(bs_lock_row(&m, reader, r.orders, 7, &r.days[7], 1, BS_S, &told)).node, 1).node,
                 interval));
  DONE(bs_end(&m));
}

/* A row moves between the reading of its day and its lock. The lock is granted at once, below an interval in which the
 * row is no more; to look again is to find that, and then the writer meets the reader. */
void a_row_moved_unseen(void) {
  static struct rows r;
  bs_manager m;
  bs_txn writer, mover, reader;
  uint64_t day;
  make_rows(&m, &r);
  writer = begin(&m), mover = begin(&m), reader = begin(&m);
  day = r.days[50];
  move_row(&m, &r, mover, 50, 150);
  DONE(bs_commit(&m, mover, &told));
  DONE(bs_lock_path(&m, reader, interval_at(&m, &r, 150), BS_S, &told));
  DONE(ask_by(&m, &r, writer, 50, day, BS_X));
  WANT(r.days[50] != day);
  DONE(bs_unlock_row(&m, writer, r.orders, 50, &told));
  WANT(lock_row(&m, &r, writer, 50, BS_X).status == BS_WAITING);
  WANT(same_node(bs_doing(&m, writer).node, interval_at(&m, &r, 150)));
  DONE(bs_commit(&m, reader, &told));
  DONE(lock_row(&m, &r, writer, 50, BS_X));
  DONE(bs_end(&m));
}

/* A row is read between its rekey and the writing of its day. Its reader waits, and is told behind the grant that the
 * day which it read is the row's no more. */
void a_row_moves_meanwhile(void) {
  static struct rows r;
  bs_manager m;
  bs_txn mover, other;
  uint64_t day = 50;
  make_rows(&m, &r);
  mover = begin(&m), other = begin(&m);
  DONE(lock_row(&m, &r, mover, 50, BS_X));
  DONE(lock_above(&m, &r, mover, 150));
  DONE(bs_rekey_row(&m, mover, r.orders, 50, r.by_day, 150, &told));
  WANT(ask_by(&m, &r, other, 50, day, BS_X).status == BS_WAITING);
  r.days[50] = 150;
  DONE(bs_commit(&m, mover, &told));
  WANT(is_told(0, other, BS_TOLD_GRANTED));
  WANT(ask_by(&m, &r, other, 50, day, BS_X).status == BS_OTHER_KEYS);
  DONE(bs_unlock_row(&m, other, r.orders, 50, &told));
  DONE(lock_row(&m, &r, other, 50, BS_X));
  DONE(bs_end(&m));
}

/* A reader that finds no row locks its number, and who inserts the row waits. A row that is deleted is locked until the
 * commit, so that nobody gets its number before. */
void rows_come_and_go(void) {
  static struct rows r;
  bs_manager m;
  bs_txn reader, writer, next;
  make_rows(&m, &r);
  r.is_there[9] = false;
  reader = begin(&m), writer = begin(&m), next = begin(&m);
  DONE(bs_lock_path(&m, reader, r.orders, BS_IS, &told));
  DONE(bs_lock_row(&m, reader, r.orders, 9, &r.days[9], 1, BS_S, &told));
  WANT(!r.is_there[9]);
  WANT(lock_row(&m, &r, writer, 9, BS_X).status == BS_WAITING);
  DONE(bs_commit(&m, reader, &told));
  DONE(lock_row(&m, &r, writer, 9, BS_X));
  r.is_there[9] = true; /* It is inserted at once. */
  DONE(lock_row(&m, &r, writer, 10, BS_X));
  r.is_there[10] = false; /* It is deleted at once. */
  WANT(lock_row(&m, &r, next, 10, BS_X).status == BS_WAITING);
  r.is_there[9] = false, r.is_there[10] = true; /* The writer rolls back. */
  DONE(bs_abort(&m, writer, &told));
  WANT(is_told(0, next, BS_TOLD_GRANTED) && !has_node(&m, &r, 9));
  DONE(lock_row(&m, &r, next, 10, BS_X));
  WANT(r.is_there[10]);
  DONE(bs_end(&m));
}
