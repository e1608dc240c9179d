/*
 * A shared table: sessions in threads, several commands in one hold, a thread that ends deadlocks, and more clients than
 * slots.
 */
#include "guide.h"

#include "burlapslate_shared.h"

#include <pthread.h>

static bs_table *table;
static struct { bs_node db, orders, rows[2]; } shop;
static uint64_t amounts[2];

static void open_table(uint32_t detect, uint32_t slots) {
  bs_options options = { 0 };
  bs_txn t;
  size_t i;
  options.detect = detect;
  options.transactions = slots;
  DONE(bs_table_make(&table, &options));
  if (detect == BS_BY_WATCHER) DONE(bs_table_watch_thread(table, 1000000)); /* It rests a millisecond between looks. */
  shop.db = DONE(bs_table_add_inner(table, NULL, 0)).node;
  shop.orders = DONE(bs_table_add_file(table, &shop.db, 1)).node;
  t = DONE(bs_table_begin(table)).txn;
  DONE(bs_table_lock_path(table, t, shop.orders, BS_IX, NULL));
  for (i = 0; i < 2; i++) shop.rows[i] = DONE(bs_table_insert(table, t, shop.orders, NULL, 0)).node;
  DONE(bs_table_commit(table, t, NULL));
}

static void close_table(void) {
  DONE(bs_table_end(table));
  DONE(bs_table_free(&table));
}

/* Moves one from a row to another, work that wants to be done since a begin: BS_DONE, or why it was rolled back. */
static bs_status move_one(size_t from, size_t to, uint64_t *since) {
  bs_txn t = DONE(bs_table_begin_again(table, *since)).txn;
  bs_status status = bs_table_lock_path(table, t, shop.rows[from], BS_X, NULL).status;
  if (status == BS_DONE) status = bs_table_lock_path(table, t, shop.rows[to], BS_X, NULL).status;
  if (status == BS_DONE) {
    amounts[from]--;
    amounts[to]++;
    DONE(bs_table_commit(table, t, NULL));
  } else {
    DONE(bs_table_abort(table, t, NULL));
  }
  if (*since > t.age) *since = t.age; /* Its first begin. */
  return status;
}

/* A victim begins again with the number of its first begin, so that it does not fall for work that came later. */
static void *move_many(void *arg) {
  size_t *from = arg, i;
  for (i = 0; i < 200; i++) {
    uint64_t since = UINT64_MAX;
    while (move_one(*from, 1 - *from, &since) == BS_VICTIM) continue;
  }
  return NULL;
}

/* They lock the rows in opposite orders, and so meet in deadlocks. */
static void move_to_and_fro(uint32_t detect) {
  size_t from[2] = { 0, 1 }, i;
  pthread_t threads[2];
  open_table(detect, BS_SLOTS);
  for (i = 0; i < 2; i++) WANT(pthread_create(&threads[i], NULL, move_many, &from[i]) == 0);
  for (i = 0; i < 2; i++) WANT(pthread_join(threads[i], NULL) == 0);
  WANT(amounts[0] == 0 && amounts[1] == 0);
  close_table();
}

void sessions_in_threads(void) {
  move_to_and_fro(BS_AT_BLOCK);
  move_to_and_fro(BS_BY_WATCHER);
}

/* All but the begin is done in one hold of the latch. Where somebody has a row it is awaited, and the list goes on. */
void several_in_one_section(void) {
  bs_command list[3];
  bs_txn t, other;
  open_table(BS_AT_BLOCK, BS_SLOTS);
  t = DONE(bs_table_begin(table)).txn;
  list[0] = bs_do_at(BS_DO_LOCK_PATH, t, shop.rows[0], BS_X);
  list[1] = bs_do_at(BS_DO_LOCK, t, shop.rows[1], BS_X);
  list[2] = bs_do(BS_DO_COMMIT, t);
  WANT(bs_table_run(table, list, 3) == 3);
  WANT(list[1].reply.mode == BS_X);
  other = DONE(bs_table_begin(table)).txn;
  DONE(bs_table_lock_path(table, other, shop.rows[1], BS_S, NULL));
  t = DONE(bs_table_begin(table)).txn;
  list[0].txn = list[1].txn = list[2].txn = t;
  WANT(bs_table_run(table, list, 3) == 1 && list[1].reply.status == BS_WAITING);
  DONE(bs_table_commit(table, other, NULL));
  DONE(bs_table_await(table, t, list[1].reply.node, list[1].reply.mode, NULL));
  WANT(bs_table_run(table, list + 1, 2) == 2);
  close_table();
}

enum { CLIENTS = 40, FEW_SLOTS = 4 };

/* A client of a server. It has a transaction from its first lock on. */
struct client {
  bool has_begun;
  bs_txn txn;
  pthread_t thread;
};

static bs_status client_locks(struct client *c, bs_node node, bs_mode mode, const struct timespec *until) {
  if (!c->has_begun) {
    bs_reply begun = bs_table_begin_in_turn(table, until);
    if (begun.status != BS_DONE) return begun.status;
    c->txn = begun.txn;
    c->has_begun = true;
  }
  return bs_table_lock_path(table, c->txn, node, mode, until).status;
}

static void *serve_client(void *arg) {
  struct client *c = arg;
  WANT(client_locks(c, shop.rows[0], BS_X, NULL) == BS_DONE);
  amounts[0]++;
  WANT(client_locks(c, shop.rows[1], BS_X, NULL) == BS_DONE);
  amounts[1]++;
  DONE(bs_table_commit(table, c->txn, NULL));
  c->has_begun = false;
  return NULL;
}

void more_clients_than_slots(void) {
  static struct client clients[CLIENTS];
  size_t i;
  amounts[0] = amounts[1] = 0;
  open_table(BS_AT_BLOCK, FEW_SLOTS);
  for (i = 0; i < CLIENTS; i++) WANT(pthread_create(&clients[i].thread, NULL, serve_client, &clients[i]) == 0);
  for (i = 0; i < CLIENTS; i++) WANT(pthread_join(clients[i].thread, NULL) == 0);
  WANT(amounts[0] == CLIENTS && amounts[1] == CLIENTS);
  close_table();
}
