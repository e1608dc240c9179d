/*
 * An event loop: one thread serves all clients, and never sleeps for a slot or a lock. Each client begins, locks an
 * order, adds to it and commits. Where its begin or its lock waits the loop goes on with others, until it hears of the
 * end.
 */
#include "guide.h"

#include "burlapslate_session.h"

#include <poll.h>
#include <pthread.h>
#include <unistd.h>

enum { CLIENTS = 40, SLOTS = 8, ORDERS = 2 };

struct client {
  bs_txn txn; /* its age is 0 before it has begun */
  size_t order;
  bs_reply end;
  struct client *next;
};

static bs_table *table;
static bs_node orders[ORDERS];
static unsigned amounts[ORDERS];

/* What the loop has heard and has not served yet, and a pipe that wakes it; on Linux an eventfd does the same. */
static pthread_mutex_t heard_latch = PTHREAD_MUTEX_INITIALIZER;
static struct client *heard;
static int bell[2];

/* The table's function: any thread may come here, so it notes the end, wakes the loop, and does no more. */
static void on_end(void *context, bs_txn txn, bs_reply end, void *word) {
  struct client *client = word;
  (void)context, (void)txn; /* A begin's transaction is in its end too. */
  pthread_mutex_lock(&heard_latch);
  client->end = end;
  client->next = heard;
  heard = client;
  pthread_mutex_unlock(&heard_latch);
  WANT(write(bell[1], "", 1) == 1);
}

static struct client *next_heard(void) {
  struct client *client;
  pthread_mutex_lock(&heard_latch);
  client = heard;
  if (client != NULL) heard = client->next;
  pthread_mutex_unlock(&heard_latch);
  return client;
}

/* Milliseconds up to the next time of an ask, as poll takes them; -1, where none has one. */
static int time_left(void) {
  struct timespec next, now;
  if (DONE(bs_table_expire(table, &next)).count == 0) return -1;
  clock_gettime(CLOCK_MONOTONIC, &now);
  return (int)((next.tv_sec - now.tv_sec) * 1000 + (next.tv_nsec - now.tv_nsec) / 1000000 + 1);
}

/* Asks, for half a minute at most. The client is all that on_end needs, and is whole before. */
static bs_reply ask(struct client *client) {
  struct timespec until = bs_after(30000);
  return bs_table_ask_path(table, client->txn, orders[client->order], BS_X, &until, client);
}

/* Serves a client that was answered so: whether it is done. */
static bool serve(struct client *client, bs_reply reply) {
  if (reply.status == BS_WAITING) return false; /* The loop hears of it. */
  DONE(reply);
  if (client->txn.age == 0) {
    client->txn = reply.txn;
    return serve(client, ask(client));
  }
  amounts[client->order]++;
  DONE(bs_table_commit(table, client->txn, NULL));
  return true;
}

static void open_table(void) {
  bs_options options = { BS_AT_BLOCK, BS_YOUNGEST, SLOTS, 0, 0, 1 };
  bs_node db, file;
  bs_txn t;
  DONE(bs_table_make(&table, &options));
  DONE(bs_table_on_end(table, on_end, NULL));
  db = DONE(bs_table_add_inner(table, NULL, 0)).node;
  file = DONE(bs_table_add_file(table, &db, 1)).node;
  t = DONE(bs_table_begin(table)).txn;
  DONE(bs_table_lock_path(table, t, file, BS_IX, NULL));
  orders[0] = DONE(bs_table_insert(table, t, file, NULL, 0)).node;
  orders[1] = DONE(bs_table_insert(table, t, file, NULL, 0)).node;
  DONE(bs_table_commit(table, t, NULL));
}

/* Waits for the bell, or for the next time, and serves who was heard of: how many are done. */
static size_t turn(void) {
  struct pollfd bells = { bell[0], POLLIN, 0 };
  struct client *client;
  size_t served = 0;
  char rung;
  if (poll(&bells, 1, time_left()) == 1) WANT(read(bell[0], &rung, 1) == 1);
  while ((client = next_heard()) != NULL) served += serve(client, client->end);
  return served;
}

void an_event_loop(void) {
  static struct client clients[CLIENTS];
  size_t i, served = 0;
  bs_txn other;
  WANT(pipe(bell) == 0);
  open_table();
  other = DONE(bs_table_begin(table)).txn;
  DONE(bs_table_lock_path(table, other, orders[0], BS_X, NULL));
  for (i = 0; i < CLIENTS; i++) {
    clients[i].order = i % ORDERS;
    served += serve(&clients[i], bs_table_ask_begin(table, NULL, &clients[i]));
  }
  WANT(served < CLIENTS / 2);
  DONE(bs_table_commit(table, other, NULL)); /* It tells the first who waits, whose commit tells the next. */
  while (served < CLIENTS) served += turn();
  WANT(amounts[0] == CLIENTS / 2 && amounts[1] == CLIENTS / 2);
  DONE(bs_table_end(table));
  DONE(bs_table_free(&table));
  WANT(close(bell[0]) == 0 && close(bell[1]) == 0);
}
