#include "work.h"

#include "check.h"

#include <inttypes.h>
#include <sched.h>

/* How many accounts a reader of all locks one by one before it asks for the table. */
enum { LOCKS_BEFORE_ESCALATION = 4 };

void let_others_run(void *unused) {
  (void)unused;
  sched_yield();
}

/* Ends a transaction, and counts it where it is committed. */
static bs_status finish(struct txn *t, bs_status status, uint64_t *counter) {
  status = txn_end(t, status);
  if (status == BS_DONE) bank_count(t->bank, counter);
  return status;
}

/* ------------------------------------------------------------------------------------------------
 * Writers.
 */

bs_status move_money(struct txn *t, const struct order *o) {
  uint64_t balance, amount;
  bs_status status = txn_lock_account(t, o->from, BS_X);
  if (status != BS_DONE) return status;
  balance = txn_read(t, o->from);
  amount = o->amount < balance ? o->amount : balance;
  txn_write(t, o->from, balance - amount);
  if (!o->skips_lock) status = txn_lock_account(t, o->to, BS_X);
  if (status != BS_DONE) return status;
  balance = txn_read(t, o->to);
  o->between(o->arg);
  txn_write(t, o->to, balance + amount);
  return BS_DONE;
}

bs_status transfer(struct bank *b, uint64_t *since, const struct order *o) {
  struct txn t = txn_begin(b, since, FOR_EVER);
  bs_status status = finish(&t, move_money(&t, o), &b->counts.transfers);
  if (status == BS_GONE) bank_count(b, &b->counts.no_account);
  return status;
}

void found_account(struct bank *b, const struct table *table, uint64_t balance) {
  struct txn t = txn_begin(b, NULL, FOR_EVER);
  t.opens = true;
  t.table = table;
  t.deposit = balance;
  if (txn_end(&t, BS_DONE) != BS_DONE) fail("an account was not founded");
}

bs_status open_account(struct bank *b, uint64_t *since, const struct opening *o, unsigned patience) {
  struct txn t = txn_begin(b, since, patience);
  bs_status status = txn_lock_account(&t, o->donor, BS_X);
  if (status == BS_DONE) {
    uint64_t balance = txn_read(&t, o->donor);
    t.opens = true;
    t.table = o->table;
    t.deposit = o->deposit < balance ? o->deposit : balance;
    txn_write(&t, o->donor, balance - t.deposit);
  }
  return finish(&t, status, &b->counts.opened);
}

bs_status close_account(struct bank *b, uint64_t *since, bs_node account, bs_node heir, unsigned patience) {
  struct order all = { account, heir, UINT64_MAX, let_others_run, NULL, false };
  struct txn t = txn_begin(b, since, patience);
  t.closes = true;
  t.closed = account;
  return finish(&t, move_money(&t, &all), &b->counts.closed);
}

/* ------------------------------------------------------------------------------------------------
 * Readers.
 */

static void read_one(struct txn *t, bs_node account, struct totals *totals) {
  totals->count++;
  totals->sum += txn_read(t, account);
}

/* Reads the first few accounts of a table under a lock on each, up to this number. */
static bs_status read_few(struct txn *t, const struct table *table, uint64_t *number, struct totals *totals) {
  size_t locks = 0;
  bs_node account;
  while (locks < LOCKS_BEFORE_ESCALATION && bank_next_account(t->bank, table, number, &account)) {
    bs_status status = txn_lock_account(t, account, BS_S);
    if (status == BS_GONE) continue; /* It was closed meanwhile. */
    if (status != BS_DONE) return status;
    read_one(t, account, totals);
    locks++;
  }
  return BS_DONE;
}

/* Reads the accounts by their numbers, the first few under a lock on each, the rest under one on the table. New numbers
 * are the highest, so before it has that lock no account is opened that the reader has passed. */
static bs_status read_table(struct txn *t, const struct table *table, bool skips_lock, struct totals *totals) {
  uint64_t number = 0;
  bs_node account;
  bs_status status = BS_DONE;
  if (!skips_lock) status = read_few(t, table, &number, totals);
  if (!skips_lock && status == BS_DONE) status = txn_lock_table(t, table);
  if (status != BS_DONE) return status;
  while (bank_next_account(t->bank, table, &number, &account)) read_one(t, account, totals);
  return BS_DONE;
}

static bs_status read_tables(struct txn *t, const struct reading *r, struct totals *totals) {
  bs_status status = read_table(t, &t->bank->tables[0], false, totals);
  size_t i;
  for (i = 1; i < TABLES && status == BS_DONE; i++) {
    r->between(r->arg);
    status = read_table(t, &t->bank->tables[i], r->skips_lock, totals);
  }
  return status;
}

/* What a transaction has read it must read again. */
static void want_same(const char *what, struct totals first, struct totals again) {
  if (first.count == again.count && first.sum == again.sum) return;
  fail("phantom: %s had %" PRIu64 " accounts with %" PRIu64 ", and then %" PRIu64 " with %" PRIu64, what,
       first.count, first.sum, again.count, again.sum);
}

/* The same of all accounts, which have this sum. */
static void want_all(struct bank *b, struct totals totals, uint64_t sum) {
  if (totals.sum != sum) fail("wrong sum: read %" PRIu64 " in place of %" PRIu64, totals.sum, sum);
  let_others_run(NULL);
  want_same("the whole", totals, bank_total(b));
}

bs_status audit_tables(struct bank *b, uint64_t *since, const struct reading *r) {
  struct txn t = txn_begin(b, since, FOR_EVER);
  struct totals totals = { 0, 0 };
  bs_status status = read_tables(&t, r, &totals);
  if (status == BS_DONE) want_all(b, totals, r->sum);
  return finish(&t, status, &b->counts.audits);
}

/* It has locked a few accounts before it waits for all, so that it may be on a cycle of waits. */
bs_status audit_all(struct bank *b, uint64_t *since, uint64_t sum) {
  struct txn t = txn_begin(b, since, FOR_EVER);
  struct totals few = { 0, 0 };
  uint64_t number = 0;
  bs_status status = read_few(&t, &b->tables[0], &number, &few);
  if (status == BS_DONE) status = txn_lock_all(&t);
  if (status == BS_DONE) want_all(b, bank_total(b), sum);
  return finish(&t, status, &b->counts.whole_audits);
}

bs_status list_interval(struct bank *b, uint64_t *since, const struct table *table, size_t place) {
  struct txn t = txn_begin(b, since, FOR_EVER);
  bs_status status = txn_lock_interval(&t, table, place);
  if (status == BS_DONE) {
    struct totals totals = bank_total_of_interval(b, table, place);
    let_others_run(NULL);
    want_same("an interval", totals, bank_total_of_interval(b, table, place));
  }
  return finish(&t, status, &b->counts.lists);
}
