/*
 * A schema that changes while threads work: an index gets finer bounds, and a table is dropped and made again. An index
 * is made beside records.
 */
#include "guide.h"

#include "burlapslate_splits.h"

#include <pthread.h>

enum { WORKERS = 16, ORDERS = 64, ROUNDS = 100, FEWEST_BOUNDS = 2, MOST_BOUNDS = 9 };

/* What the engine calls a table and its index: their nodes of now. */
struct names {
  bs_node orders, by_day;
};

static bs_table *table;
static bs_node db;
static pthread_mutex_t catalog = PTHREAD_MUTEX_INITIALIZER;
static struct names names; /* with the catalog's latch */

/* The engine's rows, by their numbers: what each has, by who holds it in BS_X; and what rows had that went. */
static long amounts[ORDERS], gone;

/* The first two put most rows into the last interval. */
static const uint64_t bounds[MOST_BOUNDS] = { 50, 100, 200, 300, 400, 500, 600, 700, 800 };

static uint64_t day_of(uint64_t row) { return 15 * row; }

static struct names look_up(void) {
  struct names now;
  pthread_mutex_lock(&catalog);
  now = names;
  pthread_mutex_unlock(&catalog);
  return now;
}

static bs_node index_of(bs_node orders) {
  bs_reply index = bs_index(bs_table_hold(table), orders, 0);
  bs_table_let_go(table);
  return DONE(index).node;
}

static bs_reply interval_for(bs_node index, uint64_t day) {
  bs_reply interval = bs_interval_of(bs_table_hold(table), index, day);
  bs_table_let_go(table);
  return interval;
}

/* Locks a row. While the table is locked no index of it comes or goes. */
static bs_reply lock_order(bs_txn t, uint64_t row) {
  bs_node orders = look_up().orders;
  uint64_t day = day_of(row);
  bs_reply reply = bs_table_lock_path(table, t, orders, BS_IX, NULL);
  if (reply.status == BS_DONE) reply = interval_for(index_of(orders), day);
  if (reply.status == BS_DONE) reply = bs_table_lock_path(table, t, reply.node, BS_IX, NULL);
  if (reply.status == BS_DONE) reply = bs_table_lock_row(table, t, orders, row, &day, 1, BS_X, NULL);
  return reply;
}

/* Locks the days of an interval to read them, by the index alone. */
static bs_reply lock_days(bs_txn t, uint64_t day) {
  bs_reply reply = interval_for(look_up().by_day, day);
  return reply.status == BS_DONE ? bs_table_lock_path(table, t, reply.node, BS_S, NULL) : reply;
}

/* Whether a node went while it was waited for, or before it was asked for: then the names are looked up again. */
static bool is_gone(bs_reply reply) {
  return reply.status == BS_GONE || reply.status == BS_NO_SUCH_NODE;
}

static void write_order(uint64_t row) {
  bs_txn t = DONE(bs_table_begin(table)).txn;
  bs_reply reply = lock_order(t, row);
  while (is_gone(reply)) reply = lock_order(t, row);
  DONE(reply);
  amounts[row]++;
  DONE(bs_table_commit(table, t, NULL));
}

/* Nobody writes the row while its day is read. */
static void read_order(uint64_t row) {
  bs_txn t = DONE(bs_table_begin(table)).txn;
  bs_reply reply = lock_days(t, day_of(row));
  long amount;
  while (is_gone(reply)) reply = lock_days(t, day_of(row));
  DONE(reply);
  amount = amounts[row];
  sched_yield();
  WANT(amounts[row] == amount);
  DONE(bs_table_commit(table, t, NULL));
}

static void *work(void *arg) {
  uint64_t *dice = arg, i;
  for (i = 0; i < ROUNDS; i++) {
    write_order(roll(dice) % ORDERS);
    if (i % 4 == 0) read_order(roll(dice) % ORDERS);
  }
  return NULL;
}

/* Locks the table whole: its file and each of its indexes, so that nobody comes to a row by any way. */
static bs_status lock_whole(bs_txn t, bs_node orders) {
  bs_status status = bs_table_lock_path(table, t, orders, BS_X, NULL).status;
  size_t place;
  for (place = 0; status == BS_DONE; place++) {
    bs_reply index = bs_index(bs_table_hold(table), orders, place);
    bs_table_let_go(table);
    if (index.status == BS_NO_PLACE) break;
    status = bs_table_lock_path(table, t, index.node, BS_X, NULL).status;
  }
  return status;
}

/* Gives the index so many bounds. Where the new one cannot be made nothing has changed. */
static bs_status make_finer(size_t count) {
  bs_node orders = look_up().orders;
  bs_txn t = DONE(bs_table_begin(table)).txn;
  bs_status status = lock_whole(t, orders);
  if (status == BS_DONE) {
    bs_command list[3];
    list[0] = (bs_command){ .kind = BS_DO_INDEX_BY, .txn = t, .parents = &db, .parent_count = 1, .file = orders,
                            .bounds = bounds, .bound_count = count };
    list[1] = (bs_command){ .kind = BS_DO_DROP, .txn = t, .node = index_of(orders) };
    list[2] = bs_do(BS_DO_COMMIT, t);
    pthread_mutex_lock(&catalog);
    if (bs_table_run(table, list, 3) == 3) names.by_day = list[0].reply.node;
    pthread_mutex_unlock(&catalog);
    status = list[0].reply.status;
  }
  if (status != BS_DONE) DONE(bs_table_abort(table, t, NULL));
  return status;
}

static struct names make_table(size_t count) {
  struct names made;
  made.orders = DONE(bs_table_add_row_file(table, &db, 1)).node;
  made.by_day = DONE(bs_table_add_index(table, &db, 1, made.orders, bounds, count)).node;
  return made;
}

static void close_table(void) {
  DONE(bs_table_end(table));
  DONE(bs_table_free(&table));
}

/* The rows of the table go, whose locks nobody has. */
static void empty_rows(void) {
  size_t row;
  for (row = 0; row < ORDERS; row++) {
    gone += amounts[row];
    amounts[row] = 0;
  }
}

/* Drops the table, and makes it again with so many bounds and no row. */
static bs_status make_anew(size_t count) {
  bs_node orders = look_up().orders;
  bs_txn t = DONE(bs_table_begin(table)).txn;
  bs_status status = lock_whole(t, orders);
  if (status == BS_DONE) {
    struct names made = make_table(count);
    bs_command list[3];
    empty_rows();
    list[0] = (bs_command){ .kind = BS_DO_DROP, .txn = t, .node = index_of(orders) };
    list[1] = (bs_command){ .kind = BS_DO_DROP, .txn = t, .node = orders };
    list[2] = bs_do(BS_DO_COMMIT, t);
    pthread_mutex_lock(&catalog);
    WANT(bs_table_run(table, list, 3) == 3);
    names = made;
    pthread_mutex_unlock(&catalog);
  } else {
    DONE(bs_table_abort(table, t, NULL));
  }
  return status;
}

/* Sixteen threads write and read rows while the schema changes, again and again. Nothing is lost, and nothing is left:
 * there are a root, a file, an index and its intervals. */
static void change_at_work(bs_status (*change)(size_t count)) {
  static uint64_t dice[WORKERS];
  pthread_t threads[WORKERS];
  size_t i;
  DONE(bs_table_make(&table, NULL));
  db = DONE(bs_table_add_inner(table, NULL, 0)).node;
  names = make_table(FEWEST_BOUNDS);
  empty_rows();
  gone = 0;
  for (i = 0; i < WORKERS; i++) {
    dice[i] = i + 1;
    WANT(pthread_create(&threads[i], NULL, work, &dice[i]) == 0);
  }
  for (i = FEWEST_BOUNDS; i <= MOST_BOUNDS; i++) WANT(change(i) == BS_DONE);
  for (i = 0; i < WORKERS; i++) WANT(pthread_join(threads[i], NULL) == 0);
  empty_rows();
  WANT(gone == WORKERS * ROUNDS && bs_len(bs_table_hold(table)).count == 4 + MOST_BOUNDS);
  DONE(bs_table_let_go(table));
}

/* A reader of some days and a writer of others met in the last interval, and do so no more. */
void an_index_gets_finer_bounds(void) {
  bs_txn reader, writer;
  bs_node last;
  change_at_work(make_finer);
  reader = DONE(bs_table_begin(table)).txn, writer = DONE(bs_table_begin(table)).txn;
  DONE(lock_days(reader, 850));
  DONE(lock_order(writer, 30));
  last = DONE(interval_for(names.by_day, 850)).node;
  WANT(bs_place(bs_table_hold(table), last).count == MOST_BOUNDS);
  DONE(bs_table_let_go(table));
  close_table();
}

void a_table_is_dropped_and_made_again(void) {
  change_at_work(make_anew);
  close_table();
}

/* Records that stand are in the way of a drop, and so are the rows of the transaction itself. */
void what_is_in_the_way(void) {
  static const uint64_t day = 150;
  bs_manager m;
  struct shop s;
  bs_node order, rows;
  bs_txn t;
  open_manager(&m, BS_AT_BLOCK, BS_YOUNGEST);
  s = make_shop(&m);
  order = add_order(&m, &s, day);
  t = begin(&m);
  DONE(bs_lock_path(&m, t, s.by_day, BS_X, &told));
  WANT(bs_drop(&m, t, s.by_day, &told).status == BS_NEED_EXCLUSIVE);
  DONE(bs_lock_path(&m, t, s.orders, BS_X, &told));
  WANT(bs_drop(&m, t, s.by_day, &told).status == BS_FILE_IN_USE);
  DONE(bs_lock_path(&m, t, order, BS_X, &told));
  DONE(bs_delete(&m, t, order, &told));
  WANT(bs_drop(&m, t, s.orders, &told).status == BS_FILE_IN_USE);
  DONE(bs_drop(&m, t, s.by_day, &told));
  DONE(bs_drop(&m, t, s.orders, &told));
  rows = DONE(bs_add_row_file(&m, &s.tables, 1)).node;
  DONE(bs_lock_path(&m, t, rows, BS_X, &told));
  DONE(bs_lock_row(&m, t, rows, 7, NULL, 0, BS_X, &told));
  WANT(bs_index_by(&m, t, &s.indexes, 1, rows, &day, 1).status == BS_FILE_IN_USE);
  DONE(bs_unlock_row(&m, t, rows, 7, &told));
  DONE(bs_index_by(&m, t, &s.indexes, 1, rows, &day, 1));
  DONE(bs_lock_path(&m, t, s.tables, BS_X, &told));
  WANT(bs_drop(&m, t, s.tables, &told).status == BS_HAS_CHILDREN);
  DONE(bs_end(&m));
}

/* An index by customer is made beside three orders: the engine names all, in the order of their inserts, with the
 * customer of each. From then on a reader of some customers keeps writers away from their orders alone. */
void an_index_is_made_beside_records(void) {
  static const uint64_t days[3] = { 150, 20, 270 }, customers[3] = { 7, 2, 9 }, bound = 5;
  bs_manager m;
  struct shop s;
  bs_node orders[3], by_customer, some;
  bs_txn t, reader;
  size_t i;
  open_manager(&m, BS_AT_BLOCK, BS_YOUNGEST);
  s = make_shop(&m);
  for (i = 0; i < 3; i++) orders[i] = add_order(&m, &s, days[i]);
  t = begin(&m);
  DONE(bs_lock_path(&m, t, s.orders, BS_X, &told));
  DONE(bs_lock_path(&m, t, s.by_day, BS_X, &told));
  WANT(bs_index_by(&m, t, &s.indexes, 1, s.orders, &bound, 1).status == BS_FILE_IN_USE);
  by_customer = DONE(bs_index_records(&m, t, &s.indexes, 1, s.orders, &bound, 1, orders, customers, 3)).node;
  DONE(bs_commit(&m, t, &told));
  some = DONE(bs_interval_of(&m, by_customer, 6)).node;
  reader = begin(&m), t = begin(&m);
  DONE(bs_lock_path(&m, reader, some, BS_S, &told));
  DONE(bs_lock_path(&m, t, orders[1], BS_X, &told));
  WANT(same_node(bs_lock_path(&m, t, orders[0], BS_X, &told).node, some));
  DONE(bs_end(&m));
}
