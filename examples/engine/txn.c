#include "txn.h"

#include "check.h"

/* ------------------------------------------------------------------------------------------------
 * Locks.
 */

/* The session of this thread, if it has one. */
static __thread bs_session session;

void txn_begin_session(struct bank *b) {
  session = bs_session_of(b->locks, MOST_KEPT);
}

void txn_end_session(void) {
  MUST(bs_session_end(&session));
  session.table = NULL;
}

/* Locks a node, with the intentions above it. */
static bs_status lock(struct txn *t, bs_node node, bs_mode mode) {
  struct timespec until = bs_after(t->patience);
  const struct timespec *limit = t->patience == FOR_EVER ? NULL : &until;
  bs_reply reply = bs_table_lock_path(t->bank->locks, t->name, node, mode, limit);
  switch (reply.status) {
    case BS_VICTIM: bank_count(t->bank, &t->bank->counts.victims); return BS_VICTIM;
    case BS_GONE: return BS_GONE;
    case BS_NO_SUCH_NODE: return BS_GONE; /* It went before it was asked for. */
    case BS_TIMED_OUT: bank_count(t->bank, &t->bank->counts.given_up); return BS_TIMED_OUT;
    default: return must(reply, "bs_table_lock_path").status;
  }
}

bs_status txn_lock_account(struct txn *t, bs_node account, bs_mode mode) {
  return lock(t, account, mode);
}

bs_status txn_lock_interval(struct txn *t, const struct table *table, size_t place) {
  return lock(t, bank_interval_at(t->bank, table, place), BS_S);
}

bs_status txn_lock_all(struct txn *t) {
  return lock(t, t->bank->root, BS_S);
}

/* Trades locks on accounts for one on the table: at once, or after a wait for those who write there. */
bs_status txn_lock_table(struct txn *t, const struct table *table) {
  bs_table *locks = t->bank->locks;
  bs_status status = lock(t, table->file, BS_IS);
  bs_reply reply;
  if (status != BS_DONE) return status;
  reply = bs_table_escalate(locks, t->name, table->file, NULL);
  if (reply.status == BS_WOULD_BLOCK) {
    status = lock(t, table->file, BS_S);
    if (status != BS_DONE) return status;
    reply = bs_table_escalate(locks, t->name, table->file, NULL);
  }
  return must(reply, "bs_table_escalate").status;
}

/* ------------------------------------------------------------------------------------------------
 * Rows.
 */

uint64_t txn_read(struct txn *t, bs_node account) {
  uint64_t balance;
  pthread_mutex_lock(&t->bank->mutex);
  balance = bank_locked_row(t->bank, account)->balance;
  pthread_mutex_unlock(&t->bank->mutex);
  return balance;
}

static void set_balance(struct bank *b, bs_node account, uint64_t balance) {
  pthread_mutex_lock(&b->mutex);
  bank_locked_row(b, account)->balance = balance;
  pthread_mutex_unlock(&b->mutex);
}

void txn_write(struct txn *t, bs_node account, uint64_t balance) {
  if (t->writes == MOST_WRITES) fail("a transaction writes too much");
  t->undo[t->writes].account = account;
  t->undo[t->writes].balance = txn_read(t, account);
  t->writes++;
  set_balance(t->bank, account, balance);
}

/* ------------------------------------------------------------------------------------------------
 * Commits and roll-backs.
 */

/* A record needs an intention to write on the interval to which it comes. */
static bs_status lock_new_intervals(struct txn *t) {
  struct bank *b = t->bank;
  bs_status status = BS_DONE;
  size_t i;
  for (i = 0; i < t->writes && status == BS_DONE; i++) {
    bs_node account = t->undo[i].account;
    status = lock(t, bank_interval_for(b, bank_table_of(b, account), txn_read(t, account)), BS_IX);
  }
  if (t->opens && status == BS_DONE) status = lock(t, t->table->file, BS_IX);
  if (t->opens && status == BS_DONE) status = lock(t, bank_interval_for(b, t->table, t->deposit), BS_IX);
  return status;
}

/* The record comes before the row, so that each row has its record. */
static void insert_opened(struct txn *t) {
  struct bank *b = t->bank;
  bs_node account = MUST(bs_table_insert(b->locks, t->name, t->table->file, &t->deposit, 1)).node;
  struct row *row;
  pthread_mutex_lock(&b->mutex);
  row = bank_free_row(b);
  row->account = account;
  row->table = t->table;
  row->number = ++b->numbers;
  row->balance = t->deposit;
  row->is_open = true;
  pthread_mutex_unlock(&b->mutex);
}

/* The row goes before the record. Whoever waits for the record is told that it is gone. */
static void delete_closed(struct txn *t) {
  struct bank *b = t->bank;
  if (txn_read(t, t->closed) != 0) fail("an account that has money is closed");
  pthread_mutex_lock(&b->mutex);
  bank_locked_row(b, t->closed)->is_open = false;
  pthread_mutex_unlock(&b->mutex);
  MUST(bs_table_delete(b->locks, t->name, t->closed, NULL));
}

/* A record moves where its balance has come to belong to another interval. Whoever waits for it with an
 * intention on the old interval alone asks again. */
static void rekey_written(struct txn *t) {
  struct bank *b = t->bank;
  size_t i;
  for (i = 0; i < t->writes; i++) {
    bs_node account = t->undo[i].account;
    const struct table *table;
    uint64_t balance;
    if (t->closes && same_node(account, t->closed)) continue;
    table = bank_table_of(b, account);
    balance = txn_read(t, account);
    if (same_node(bank_interval_for(b, table, balance), bank_interval_of(b, account))) continue;
    MUST(bs_table_rekey(b->locks, t->name, account, table->by_balance, balance, NULL));
    bank_count(b, &b->counts.rekeyed);
  }
}

/* Behind the last lock nothing is waited for, so nobody condemns the transaction any more. */
static bs_status commit(struct txn *t) {
  bs_status status = lock_new_intervals(t);
  if (status != BS_DONE) return status;
  if (t->opens) insert_opened(t);
  if (t->closes) delete_closed(t);
  rekey_written(t);
  if (t->in_session) return MUST(bs_session_commit(&session, NULL)).status;
  return MUST(bs_table_commit(t->bank->locks, t->name, NULL)).status;
}

/* Takes back what was written, the last first, while the locks still keep others away; then releases. */
static void roll_back(struct txn *t) {
  while (t->writes > 0) {
    const struct undo *last = &t->undo[--t->writes];
    set_balance(t->bank, last->account, last->balance);
  }
  MUST(bs_table_abort(t->bank->locks, t->name, NULL));
}

/* If all slots are taken it sleeps. */
static bs_reply begin(struct bank *b, uint64_t since) {
  if (session.table != NULL) {
    return since != 0 ? bs_session_begin_again(&session, since, NULL) : bs_session_begin(&session, NULL);
  }
  return since != 0 ? bs_table_begin_again_in_turn(b->locks, since, NULL) : bs_table_begin_in_turn(b->locks, NULL);
}

struct txn txn_begin(struct bank *b, uint64_t *since, unsigned patience) {
  struct txn t = { .bank = b, .in_session = session.table != NULL, .patience = patience };
  bool is_again = since != NULL && *since != 0;
  t.name = MUST(begin(b, is_again ? *since : 0)).txn;
  if (since != NULL && !is_again) *since = t.name.age;
  return t;
}

bs_status txn_end(struct txn *t, bs_status status) {
  if (status == BS_DONE) status = commit(t);
  if (status != BS_DONE) roll_back(t);
  return status;
}
