#include "bank.h"

#include "burlapslate_running.h"
#include "check.h"

#include <inttypes.h>

/* Where a record has its interval among its parents: behind the table. */
enum { PLACE_OF_INTERVAL = 1 };

/* Below the data base and above the records: the tables, their indexes and the intervals of these. */
enum { NODES_BETWEEN = TABLES * (2 + INTERVALS) };

/* For so many nanoseconds the thread that watches rests after each look. */
enum { PACE = 200000 };

static const uint64_t bounds[INTERVALS - 1] = { 50, 150, 300 };

bool same_node(bs_node a, bs_node b) {
  return a.key == b.key && a.birth == b.birth;
}

static void make_locks(struct bank *b, uint32_t parts, bool has_watch) {
  bs_options options = { 0 };
  options.parts = parts;
  options.detect = has_watch ? BS_BY_WATCHER : BS_AT_BLOCK;
  b->locks = NULL;
  MUST(bs_table_make(&b->locks, &options));
  b->group = bs_table_group_of(b->locks);
  b->managers = b->group == NULL ? 1 : parts + 1;
  if (has_watch) MUST(bs_table_watch_thread(b->locks, PACE));
}

void bank_open(struct bank *b, uint32_t parts, bool has_watch) {
  size_t i;
  pthread_mutex_init(&b->mutex, NULL);
  make_locks(b, parts, has_watch);
  b->root = MUST(bs_table_add_inner(b->locks, NULL, 0)).node;
  for (i = 0; i < TABLES; i++) {
    struct table *t = &b->tables[i];
    t->file = MUST(bs_table_add_file(b->locks, &b->root, 1)).node;
    t->by_balance = MUST(bs_table_add_index(b->locks, &b->root, 1, t->file, bounds, INTERVALS - 1)).node;
  }
}

void bank_close(struct bank *b) {
  MUST(bs_table_end(b->locks));
  MUST(bs_table_free(&b->locks));
  pthread_mutex_destroy(&b->mutex);
}

struct row *bank_row(struct bank *b, bs_node account) {
  size_t i;
  for (i = 0; i < MOST_ACCOUNTS; i++) {
    if (b->rows[i].is_open && same_node(b->rows[i].account, account)) return &b->rows[i];
  }
  return NULL;
}

struct row *bank_locked_row(struct bank *b, bs_node account) {
  struct row *row = bank_row(b, account);
  if (row == NULL) fail("an account that is locked has no row");
  return row;
}

struct row *bank_free_row(struct bank *b) {
  size_t i = 0;
  while (i < MOST_ACCOUNTS && b->rows[i].is_open) i++;
  if (i == MOST_ACCOUNTS) fail("no room for another account");
  return &b->rows[i];
}

/* ------------------------------------------------------------------------------------------------
 * Questions of the locks. A table without parts lends its manager. One with parts lends a manager of each part and a
 * main one, which is the first: each has its own names of nodes.
 */

static const bs_manager *hold(struct bank *b, uint32_t part) {
  return b->group == NULL ? bs_table_hold(b->locks) : bs_group_hold(b->group, part);
}

static void let_go(struct bank *b, uint32_t part) {
  if (b->group == NULL) MUST(bs_table_let_go(b->locks));
  else MUST(bs_group_let_go(b->group, part));
}

/* The part of a node that is no data base. */
static uint32_t part_of(struct bank *b, bs_node node) {
  return b->group == NULL ? 0 : bs_group_table(node);
}

static bs_node name_in(struct bank *b, bs_node node, uint32_t part) {
  return b->group == NULL ? node : MUST(bs_group_name_in(b->group, node, part)).node;
}

/* Gives the manager back after it has named a node. */
static bs_node named(struct bank *b, bs_reply answer, uint32_t part) {
  bs_node node = MUST(answer).node;
  if (b->group != NULL) node = MUST(bs_group_name_of(b->group, node, part)).node;
  let_go(b, part);
  return node;
}

bs_node bank_interval_at(struct bank *b, const struct table *table, size_t place) {
  uint32_t part = part_of(b, table->by_balance);
  const bs_manager *m = hold(b, part);
  return named(b, bs_interval(m, name_in(b, table->by_balance, part), place), part);
}

bs_node bank_interval_for(struct bank *b, const struct table *table, uint64_t balance) {
  uint32_t part = part_of(b, table->by_balance);
  const bs_manager *m = hold(b, part);
  return named(b, bs_interval_of(m, name_in(b, table->by_balance, part), balance), part);
}

bs_node bank_interval_of(struct bank *b, bs_node account) {
  uint32_t part = part_of(b, account);
  const bs_manager *m = hold(b, part);
  return named(b, bs_parent(m, name_in(b, account, part), PLACE_OF_INTERVAL), part);
}

bool bank_is_waiting(struct bank *b, bs_txn txn) {
  return bs_table_waited(b->locks, txn).status == BS_DONE;
}

bs_counts bank_lock_counts(struct bank *b) {
  bs_counts counts = { 0 };
  if (b->group != NULL) {
    MUST(bs_group_counters(b->group, &counts));
  } else {
    MUST(bs_counters(hold(b, 0), &counts));
    let_go(b, 0);
  }
  return counts;
}

/* ------------------------------------------------------------------------------------------------
 * Accounts.
 */

const struct table *bank_table_of(struct bank *b, bs_node account) {
  const struct table *table;
  pthread_mutex_lock(&b->mutex);
  table = bank_locked_row(b, account)->table;
  pthread_mutex_unlock(&b->mutex);
  return table;
}

bs_node bank_account_from(struct bank *b, size_t place) {
  bs_node account;
  pthread_mutex_lock(&b->mutex);
  while (!b->rows[place].is_open) place = (place + 1) % MOST_ACCOUNTS;
  account = b->rows[place].account;
  pthread_mutex_unlock(&b->mutex);
  return account;
}

bool bank_next_account(struct bank *b, const struct table *table, uint64_t *number, bs_node *account) {
  const struct row *next = NULL;
  size_t i;
  pthread_mutex_lock(&b->mutex);
  for (i = 0; i < MOST_ACCOUNTS; i++) {
    const struct row *row = &b->rows[i];
    if (!row->is_open || row->table != table || row->number <= *number) continue;
    if (next == NULL || row->number < next->number) next = row;
  }
  if (next != NULL) {
    *number = next->number;
    *account = next->account;
  }
  pthread_mutex_unlock(&b->mutex);
  return next != NULL;
}

bs_node bank_account(struct bank *b, uint64_t number) {
  bs_node account;
  size_t i = 0;
  pthread_mutex_lock(&b->mutex);
  while (i < MOST_ACCOUNTS && !(b->rows[i].is_open && b->rows[i].number == number)) i++;
  if (i == MOST_ACCOUNTS) fail("no account has the number %" PRIu64, number);
  account = b->rows[i].account;
  pthread_mutex_unlock(&b->mutex);
  return account;
}

static void add_up(struct totals *totals, const struct row *row) {
  totals->count++;
  totals->sum += row->balance;
}

struct totals bank_total(struct bank *b) {
  struct totals totals = { 0, 0 };
  size_t i;
  pthread_mutex_lock(&b->mutex);
  for (i = 0; i < MOST_ACCOUNTS; i++) {
    if (b->rows[i].is_open) add_up(&totals, &b->rows[i]);
  }
  pthread_mutex_unlock(&b->mutex);
  return totals;
}

struct totals bank_total_of_interval(struct bank *b, const struct table *table, size_t place) {
  struct totals totals = { 0, 0 };
  bs_node interval = bank_interval_at(b, table, place);
  size_t i;
  pthread_mutex_lock(&b->mutex);
  for (i = 0; i < MOST_ACCOUNTS; i++) {
    const struct row *row = &b->rows[i];
    if (!row->is_open || row->table != table) continue;
    if (same_node(bank_interval_of(b, row->account), interval)) add_up(&totals, row);
  }
  pthread_mutex_unlock(&b->mutex);
  return totals;
}

void bank_count(struct bank *b, uint64_t *counter) {
  pthread_mutex_lock(&b->mutex);
  ++*counter;
  pthread_mutex_unlock(&b->mutex);
}

/* ------------------------------------------------------------------------------------------------
 * The last checks.
 */

static void check_intervals(struct bank *b) {
  size_t i;
  pthread_mutex_lock(&b->mutex);
  for (i = 0; i < MOST_ACCOUNTS; i++) {
    const struct row *row = &b->rows[i];
    if (!row->is_open) continue;
    if (same_node(bank_interval_for(b, row->table, row->balance), bank_interval_of(b, row->account))) continue;
    fail("an account with %" PRIu64 " is in another interval", row->balance);
  }
  pthread_mutex_unlock(&b->mutex);
}

/* How many nodes a manager has beside the data base, which each has. */
static uint64_t check_locks_in(struct bank *b, uint32_t part) {
  const bs_manager *m = hold(b, part);
  uint64_t nodes = MUST(bs_len(m)).count - 1;
  if (MUST(bs_group(m, name_in(b, b->root, part))).mode != BS_NL) fail("somebody still holds a lock");
  let_go(b, part);
  return nodes;
}

/* What a session has kept rests in the parts after its end too. */
static void check_locks(struct bank *b, uint64_t accounts) {
  uint64_t nodes = 0;
  uint32_t part;
  if (b->group != NULL) MUST(bs_group_keep(b->group, 0));
  for (part = 0; part < b->managers; part++) nodes += check_locks_in(b, part);
  if (nodes != NODES_BETWEEN + accounts) fail("there are records without rows");
}

/* Each victim was told. The tables of parts do not count one of a cycle over several. */
static void check_victims(struct bank *b) {
  uint64_t condemned = bank_lock_counts(b).condemned;
  if (b->group == NULL ? condemned == b->counts.victims : condemned <= b->counts.victims) return;
  fail("%" PRIu64 " victims were condemned, and %" PRIu64 " told", condemned, b->counts.victims);
}

void bank_check(struct bank *b, uint64_t sum) {
  struct totals totals = bank_total(b);
  if (totals.sum != sum) fail("wrong sum: at the end %" PRIu64 " in place of %" PRIu64, totals.sum, sum);
  check_intervals(b);
  check_locks(b, totals.count);
  check_victims(b);
}
