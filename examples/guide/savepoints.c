/*
 * Savepoints, sessions and locks for an instant, over a shared table: a statement that fails within a transaction, a
 * thread whose next transaction keeps intentions, and a key that is inserted before another, as engines do that lock
 * keys in place of intervals.
 */
#include "guide.h"

#include "burlapslate_session.h"

#include <pthread.h>

static bs_table *table;
static bs_node db, keys, ten, twenty;

static void open_table(void) {
  bs_txn t;
  DONE(bs_table_make(&table, NULL));
  db = DONE(bs_table_add_inner(table, NULL, 0)).node;
  keys = DONE(bs_table_add_file(table, &db, 1)).node;
  t = DONE(bs_table_begin(table)).txn;
  DONE(bs_table_lock_path(table, t, keys, BS_IX, NULL));
  ten = DONE(bs_table_insert(table, t, keys, NULL, 0)).node;
  twenty = DONE(bs_table_insert(table, t, keys, NULL, 0)).node;
  DONE(bs_table_commit(table, t, NULL));
}

static void close_table(void) {
  DONE(bs_table_end(table));
  DONE(bs_table_free(&table));
}

static bs_mode held(bs_txn t, bs_node node) {
  bs_mode mode = bs_held(bs_table_hold(table), t, node).mode;
  DONE(bs_table_let_go(table));
  return mode;
}

/* The engine's own log, of which a statement that fails is undone. */
static void undo_writes(bs_txn t) {
  (void)t;
}

/* Runs a statement of a transaction: whether it is done. Of one that is not, nothing is left. */
static bool run_statement(bs_txn t, bool (*statement)(bs_txn t)) {
  uint64_t savepoint = DONE(bs_table_mark(table, t)).count;
  if (statement(t)) return true;
  undo_writes(t); /* While its locks keep others away. */
  DONE(bs_table_release_since(table, t, savepoint, NULL));
  return false;
}

static bool reads_ten(bs_txn t) {
  DONE(bs_table_lock_path(table, t, ten, BS_S, NULL));
  return true;
}

static bool writes_twenty_and_fails(bs_txn t) {
  DONE(bs_table_lock_path(table, t, twenty, BS_X, NULL));
  return false;
}

void savepoints(void) {
  bs_txn t;
  open_table();
  t = DONE(bs_table_begin(table)).txn;
  WANT(run_statement(t, reads_ten));
  WANT(!run_statement(t, writes_twenty_and_fails));
  WANT(held(t, ten) == BS_S && held(t, twenty) == BS_NL);
  WANT(held(t, keys) == BS_IX); /* It was raised, and stays so. */
  close_table();
}

/* A short transaction of a thread. Its session keeps what is above the key for the next one. */
static void write_key(bs_session *session, bs_node key) {
  bs_txn t = DONE(bs_session_begin(session, NULL)).txn;
  DONE(bs_table_lock_path(table, t, key, BS_X, NULL));
  DONE(bs_session_commit(session, NULL));
}

void transactions_of_a_session(void) {
  bs_session session;
  bs_txn t, reader;
  open_table();
  session = bs_session_of(table, 16);
  write_key(&session, ten);
  t = DONE(bs_session_begin(&session, NULL)).txn;
  WANT(held(t, keys) == BS_IX && held(t, ten) == BS_NL);
  DONE(bs_session_commit(&session, NULL));
  reader = DONE(bs_table_begin(table)).txn;
  DONE(bs_table_lock_path(table, reader, keys, BS_S, NULL)); /* It does not wait: the session rests. */
  DONE(bs_table_commit(table, reader, NULL));
  write_key(&session, twenty);
  DONE(bs_session_end(&session));
  close_table();
}

/* Inserts a key ahead of another: nobody reads on from there to the next one by then. */
static bs_node insert_before(bs_txn t, bs_node next) {
  DONE(bs_table_lock_path(table, t, next, BS_X | BS_INSTANT, NULL));
  return DONE(bs_table_insert(table, t, keys, NULL, 0)).node;
}

static bs_node fifteen;

static void *insert_fifteen(void *arg) {
  bs_txn t = DONE(bs_table_begin(table)).txn;
  fifteen = insert_before(t, twenty);
  WANT(held(t, twenty) == BS_NL && held(t, fifteen) == BS_X);
  DONE(bs_table_commit(table, t, NULL));
  return arg;
}

/* A reader has two keys, and so all between them: nothing comes there before it ends. */
void locks_for_an_instant(void) {
  pthread_t writer;
  bs_txn t;
  open_table();
  t = DONE(bs_table_begin(table)).txn;
  DONE(bs_table_lock_path(table, t, ten, BS_S, NULL));
  DONE(bs_table_lock_path(table, t, twenty, BS_S, NULL));
  WANT(pthread_create(&writer, NULL, insert_fifteen, NULL) == 0);
  while (bs_queue_len(bs_table_hold(table), twenty).count == 0) DONE(bs_table_let_go(table));
  DONE(bs_table_let_go(table));
  WANT(fifteen.birth == 0);
  DONE(bs_table_commit(table, t, NULL));
  WANT(pthread_join(writer, NULL) == 0);
  WANT(fifteen.birth != 0);
  close_table();
}
