/*
 * The works through a shared table of this repository: every answer is checked.
 */
#include "threads.h"
#include "ours.h"

#include "burlapslate_rows.h"
#include "burlapslate_session.h"

static bs_table *table;
static bs_node path[INNER_NODES];
static bs_node records[MOST_TOGETHER]; /* of each thread its own, or the same for all */
static bs_command lists[MOST_TOGETHER][SHORT];
static bs_session sessions[MOST_TOGETHER];
static bs_node interval;               /* of the only index of the rows' file */
static bs_node rows[ROWS];

/* ------------------------------------------------------------------------------------------------
 * The scene.
 */

/* All of a short transaction in one critical section: a list that is made again and again. */
static void fill_list(bs_command *list, bs_node record) {
  size_t i;
  list[0] = bs_do(BS_DO_BEGIN, bs_begun());
  for (i = 0; i < INNER_NODES; i++) list[1 + i] = bs_do_at(BS_DO_LOCK, bs_begun(), path[i], BS_IX);
  list[SHORT - 2] = bs_do_at(BS_DO_LOCK, bs_begun(), record, BS_X);
  list[SHORT - 1] = bs_do(BS_DO_COMMIT, bs_begun());
}

static void make_records(bool is_hot) {
  bs_txn txn = DONE(bs_table_begin(table)).txn;
  size_t i;
  DONE(bs_table_lock_path(table, txn, path[2], BS_IX, NULL));
  for (i = 0; i < MOST_TOGETHER; i++) {
    records[i] = is_hot && i > 0 ? records[0] : DONE(bs_table_insert(table, txn, path[2], NULL, 0)).node;
    fill_list(lists[i], records[i]);
  }
  DONE(bs_table_commit(table, txn, NULL));
}

static void make_index(void) {
  bs_node index = DONE(bs_table_add_index(table, path, 1, path[2], NULL, 0)).node;
  interval = DONE(bs_interval_of(bs_table_hold(table), index, 0)).node;
  DONE(bs_table_let_go(table));
}

/* A hundred rows in a transaction. */
static void make_rows(void) {
  uint64_t row = 0;
  while (row < ROWS) {
    bs_txn txn = DONE(bs_table_begin(table)).txn;
    DONE(bs_table_lock_path(table, txn, path[2], BS_IX, NULL));
    DONE(bs_table_lock_path(table, txn, interval, BS_IX, NULL));
    do {
      rows[row] = DONE(bs_table_insert(table, txn, path[2], &row, 1)).node;
    } while (++row % 100 != 0);
    DONE(bs_table_commit(table, txn, NULL));
  }
}

static void set_up(const struct scene *scene) {
  bool by_numbers = scene->work == NUMBERS;
  size_t i;
  DONE(bs_table_make(&table, NULL));
  path[0] = DONE(bs_table_add_inner(table, NULL, 0)).node;
  path[1] = DONE(bs_table_add_inner(table, &path[0], 1)).node;
  path[2] = DONE((by_numbers ? bs_table_add_row_file : bs_table_add_file)(table, &path[1], 1)).node;
  for (i = 0; i < MOST_TOGETHER; i++) sessions[i] = bs_session_of(table, 16);
  if (scene->work == OWN || scene->work == HOT) {
    make_records(scene->work == HOT);
  } else {
    make_index();
    if (!by_numbers) make_rows();
  }
}

static void tear_down(void) {
  size_t i;
  for (i = 0; i < MOST_TOGETHER; i++) DONE(bs_session_end(&sessions[i]));
  WANT(bs_group(bs_table_hold(table), path[0]).mode == BS_NL);
  DONE(bs_table_let_go(table));
  DONE(bs_table_end(table));
  DONE(bs_table_free(&table));
}

/* ------------------------------------------------------------------------------------------------
 * Short transactions.
 */

static bool short_by_calls(struct worker *worker, const struct touch *touches) {
  bs_txn txn = DONE(bs_table_begin(table)).txn;
  size_t i;
  (void)touches;
  for (i = 0; i < INNER_NODES; i++) DONE(bs_table_lock(table, txn, path[i], BS_IX, NULL));
  DONE(bs_table_lock(table, txn, records[worker->number], BS_X, NULL));
  DONE(bs_table_commit(table, txn, NULL));
  worker->commands += SHORT;
  return true;
}

static bool short_in_session(struct worker *worker, const struct touch *touches) {
  bs_command list[2];
  (void)touches;
  list[0] = bs_do_at(BS_DO_LOCK_PATH, bs_begun(), records[worker->number], BS_X);
  list[1] = bs_do(BS_DO_COMMIT, bs_begun());
  WANT(bs_session_run(&sessions[worker->number], list, 2) == 2);
  worker->commands += SHORT;
  return true;
}

/* For a list that is made and stops at its lock of a record, which waits: awaits that, and makes the rest. */
static void make_rest(const bs_command *list) {
  bs_command rest[2];
  const bs_reply *waits = &list[SHORT - 2].reply;
  bs_txn txn = list[0].reply.txn;
  WANT(waits->status == BS_WAITING);
  DONE(bs_table_await(table, txn, waits->node, waits->mode, NULL));
  rest[0] = bs_do_at(BS_DO_LOCK, txn, waits->node, waits->mode);
  rest[1] = bs_do(BS_DO_COMMIT, txn);
  WANT(bs_table_run(table, rest, 2) == 2);
}

static bool short_in_list(struct worker *worker, const struct touch *touches) {
  bs_command *list = lists[worker->number];
  size_t done = bs_table_run(table, list, SHORT);
  (void)touches;
  worker->commands += SHORT;
  if (done == SHORT) return true;
  make_rest(list);
  worker->commands++;
  return true;
}

/* ------------------------------------------------------------------------------------------------
 * Rows that are read and written.
 */

/* Ends a transaction that was chosen as victim after so many rows. */
static bool ended_as_victim(struct worker *worker, bs_txn txn, const struct touch *touches, size_t count) {
  undo_rows(touches, count);
  DONE(bs_table_abort(table, txn, NULL));
  worker->commands++;
  return false;
}

static bool committed(struct worker *worker, bs_txn txn) {
  DONE(bs_table_commit(table, txn, NULL));
  worker->commands++;
  return true;
}

/* Whether a lock was granted; otherwise its requester was chosen as victim. */
static bool is_granted(bs_reply reply) {
  if (reply.status != BS_VICTIM) DONE(reply);
  return reply.status == BS_DONE;
}

static bs_mode mode_of(const struct touch *touch) {
  return touch->writes ? BS_X : BS_S;
}

static bs_mode intention_of(const struct touch *touch) {
  return touch->writes ? BS_IX : BS_IS;
}

static bool lock_node(struct worker *worker, bs_txn txn, const struct touch *touch) {
  worker->commands++;
  return is_granted(bs_table_lock_path(table, txn, rows[touch->row], mode_of(touch), NULL));
}

/* Whether all rows were touched; otherwise the transaction was a victim, and has ended. */
static bool touched_nodes(struct worker *worker, bs_txn txn, const struct touch *touches) {
  size_t i;
  worker->commands++;
  for (i = 0; i < TOUCHES; i++) {
    if (!lock_node(worker, txn, &touches[i])) return ended_as_victim(worker, txn, touches, i);
    touch_row(&touches[i]);
  }
  return true;
}

static bool nodes_by_calls(struct worker *worker, const struct touch *touches) {
  bs_txn txn = DONE(bs_table_begin(table)).txn;
  return touched_nodes(worker, txn, touches) && committed(worker, txn);
}

static bool nodes_in_session(struct worker *worker, const struct touch *touches) {
  bs_session *session = &sessions[worker->number];
  if (!touched_nodes(worker, DONE(bs_session_begin(session, NULL)).txn, touches)) return false;
  DONE(bs_session_commit(session, NULL));
  worker->commands++;
  return true;
}

/* Makes a list of a transaction to its end, and answers whether that was not chosen as victim: a wait is awaited, and
 * the list continues from there. If its first command begins the transaction, all others are of that one, and it is
 * written. */
static bool run_through(struct worker *worker, bs_command *list, size_t count, bs_txn *txn) {
  size_t done = 0, i;
  for (;;) {
    bs_command *next;
    size_t more = bs_table_run(table, list + done, count - done);
    if (done == 0 && more > 0 && list[0].kind == BS_DO_BEGIN) *txn = list[0].reply.txn;
    done += more;
    worker->commands += more;
    if (done == count) return true;
    next = &list[done];
    worker->commands++;
    if (next->reply.status != BS_WAITING) return is_granted(next->reply);
    if (!is_granted(bs_table_await(table, *txn, next->reply.node, next->reply.mode, NULL))) return false;
    for (i = done; i < count; i++) list[i].txn = *txn;
  }
}

static bool nodes_in_lists(struct worker *worker, const struct touch *touches) {
  bs_command list[2];
  bs_txn txn = bs_begun();
  size_t i;
  list[0] = bs_do(BS_DO_BEGIN, txn);
  list[1] = bs_do_at(BS_DO_LOCK_PATH, txn, rows[touches[0].row], mode_of(&touches[0]));
  for (i = 0; i < TOUCHES; i++) {
    bool is_done = i == 0 ? run_through(worker, list, 2, &txn) : lock_node(worker, txn, &touches[i]);
    if (!is_done) return ended_as_victim(worker, txn, touches, i);
    touch_row(&touches[i]);
  }
  return committed(worker, txn);
}

/* A row with what must be held above it: after the first row of its kind that is held already, so the row is all. */
static bool lock_number(struct worker *worker, bs_txn txn, const struct touch *touch) {
  uint64_t row = touch->row;
  worker->commands++;
  return is_granted(bs_table_lock_row_path(table, txn, path[2], row, &row, 1, mode_of(touch), NULL));
}

/* Whether all rows from this one on were touched; otherwise the transaction was a victim, and has ended. */
static bool touched_numbers(struct worker *worker, bs_txn txn, const struct touch *touches, size_t from) {
  size_t i;
  for (i = from; i < TOUCHES; i++) {
    if (!lock_number(worker, txn, &touches[i])) return ended_as_victim(worker, txn, touches, i);
    touch_row(&touches[i]);
  }
  return true;
}

static bool numbers_by_calls(struct worker *worker, const struct touch *touches) {
  bs_txn txn = DONE(bs_table_begin(table)).txn;
  worker->commands += 2;
  if (!is_granted(bs_table_lock_path(table, txn, path[2], intention_of(&touches[0]), NULL))) {
    return ended_as_victim(worker, txn, touches, 0);
  }
  return touched_numbers(worker, txn, touches, 0) && committed(worker, txn);
}

/* The begin, the path to the file and the first row in one list. */
static bool numbers_in_lists(struct worker *worker, const struct touch *touches) {
  const struct touch *first = &touches[0];
  uint64_t row = first->row;
  bs_txn txn = bs_begun();
  bs_command list[3] = {
    { .kind = BS_DO_BEGIN },
    { .kind = BS_DO_LOCK_PATH, .txn = txn, .node = path[2], .mode = intention_of(first) },
    { .kind = BS_DO_LOCK_ROW_PATH, .txn = txn, .file = path[2], .number = row, .keys = &row, .key_count = 1,
      .mode = mode_of(first) },
  };
  if (!run_through(worker, list, 3, &txn)) return ended_as_victim(worker, txn, touches, 0);
  touch_row(first);
  return touched_numbers(worker, txn, touches, 1) && committed(worker, txn);
}

static try_one *play(const struct scene *scene) {
  if (scene->in_sessions) return scene->work == NODES ? nodes_in_session : short_in_session;
  switch (scene->work) {
    case NODES: return scene->in_lists ? nodes_in_lists : nodes_by_calls;
    case NUMBERS: return scene->in_lists ? numbers_in_lists : numbers_by_calls;
    default: return scene->in_lists ? short_in_list : short_by_calls;
  }
}

const struct side ours = { set_up, play, tear_down };
