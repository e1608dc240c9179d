#include "led.h"

#include "check.h"
#include "work.h"

#include <inttypes.h>

static void start(pthread_t *thread, void *(*run)(void *), void *arg) {
  if (pthread_create(thread, NULL, run, arg) != 0) fail("no thread for a story");
}

static void want(const char *story, bs_status status, bs_status wanted) {
  if (status != wanted) fail("%s: %s in place of %s", story, bs_text(status), bs_text(wanted));
}

static void rest(void) {
  static const struct timespec moment = { 0, 100000 };
  nanosleep(&moment, NULL);
}

/* ------------------------------------------------------------------------------------------------
 * Waits and their ends. A leader locks an account; a follower in a thread of its own locks another, and
 * then waits for the leader's. Accounts with odd numbers are in one table, those with even ones in the other.
 */

/* The `since` of work that is older than all other. In parts, of two transactions the first to begin may be the
 * younger. */
enum { OLDEST = 1 };

struct follower {
  const char *story;
  struct bank *bank;
  bs_node first, wanted;
  unsigned patience;
  struct txn txn;
  bs_status status;
  bs_counts before; /* what had been done by then */
  uint64_t victims, given_up;
  pthread_t thread;
};

static void *run_follower(void *arg) {
  struct follower *f = arg;
  bs_status status = txn_lock_account(&f->txn, f->first, BS_X);
  if (status == BS_DONE) status = txn_lock_account(&f->txn, f->wanted, BS_X);
  f->status = txn_end(&f->txn, status);
  return NULL;
}

static void lead(struct follower *f, struct txn *leader) {
  uint64_t since = OLDEST;
  *leader = txn_begin(f->bank, &since, FOR_EVER);
  want(f->story, txn_lock_account(leader, f->wanted, BS_X), BS_DONE);
  f->txn = txn_begin(f->bank, NULL, f->patience);
  f->victims = f->bank->counts.victims;
  f->given_up = f->bank->counts.given_up;
  f->before = bank_lock_counts(f->bank);
  start(&f->thread, run_follower, f);
}

static void await_wait(struct follower *f) {
  while (!bank_is_waiting(f->bank, f->txn.name)) rest();
}

/* How many waits have ended so since the follower began. */
static uint64_t ended(struct follower *f, bs_status of_wait) {
  bs_counts now = bank_lock_counts(f->bank);
  switch (of_wait) {
    case BS_DONE: return now.granted_later - f->before.granted_later;
    case BS_VICTIM: return f->bank->counts.victims - f->victims;
    case BS_MOVED: return now.moved - f->before.moved;
    case BS_GONE: return now.gone - f->before.gone;
    default: return f->bank->counts.given_up - f->given_up;
  }
}

/* The follower's wait must have ended so, and then its transaction so. */
static void join(struct follower *f, bs_status of_wait, bs_status of_txn) {
  uint64_t count;
  pthread_join(f->thread, NULL);
  count = ended(f, of_wait);
  if (count != 1) fail("%s: %" PRIu64 " waits ended so: %s", f->story, count, bs_text(of_wait));
  want(f->story, f->status, of_txn);
}

/* A commit lets the follower have the lock. */
static void a_wait_is_granted(struct bank *b) {
  struct follower f = { .story = "granted", .bank = b, .first = bank_account(b, 1), .wanted = bank_account(b, 2) };
  struct txn leader;
  lead(&f, &leader);
  await_wait(&f);
  want(f.story, txn_end(&leader, BS_DONE), BS_DONE);
  join(&f, BS_DONE, BS_DONE);
}

/* The leader closes a cycle of waits, and the follower is the younger. */
static void a_wait_ends_as_a_victims(struct bank *b, const char *story, uint64_t first, uint64_t wanted) {
  struct follower f = { .story = story, .bank = b };
  struct txn leader;
  f.first = bank_account(b, first);
  f.wanted = bank_account(b, wanted);
  lead(&f, &leader);
  await_wait(&f);
  want(f.story, txn_lock_account(&leader, f.first, BS_X), BS_DONE);
  want(f.story, txn_end(&leader, BS_DONE), BS_DONE);
  join(&f, BS_VICTIM, BS_VICTIM);
}

/* The account comes to lie in another interval. The follower asks again, and has it. */
static void a_wait_is_moved(struct bank *b) {
  struct follower f = { .story = "moved", .bank = b, .first = bank_account(b, 3), .wanted = bank_account(b, 2) };
  struct order most = { f.wanted, bank_account(b, 1), 60, let_others_run, NULL, false };
  struct txn leader;
  lead(&f, &leader);
  await_wait(&f);
  want(f.story, txn_end(&leader, move_money(&leader, &most)), BS_DONE);
  join(&f, BS_MOVED, BS_DONE);
}

/* The account is closed, and the follower has nothing to do any more. */
static void a_wait_for_what_goes(struct bank *b) {
  struct follower f = { .story = "gone", .bank = b, .first = bank_account(b, 3), .wanted = bank_account(b, 2) };
  struct order all = { f.wanted, bank_account(b, 1), UINT64_MAX, let_others_run, NULL, false };
  struct txn leader;
  lead(&f, &leader);
  await_wait(&f);
  leader.closes = true;
  leader.closed = f.wanted;
  want(f.story, txn_end(&leader, move_money(&leader, &all)), BS_DONE);
  join(&f, BS_GONE, BS_GONE);
}

/* The leader keeps its lock until the follower has lost patience. */
static void a_wait_takes_too_long(struct bank *b) {
  struct follower f = { .story = "gave up", .bank = b, .first = bank_account(b, 1), .wanted = bank_account(b, 3) };
  struct txn leader;
  f.patience = 1;
  lead(&f, &leader);
  join(&f, BS_TIMED_OUT, BS_TIMED_OUT);
  want(f.story, txn_end(&leader, BS_DONE), BS_DONE);
}

void led_waits(struct bank *b) {
  a_wait_is_granted(b);
  a_wait_ends_as_a_victims(b, "victim in one table", 1, 3);
  a_wait_ends_as_a_victims(b, "victim over two", 1, 2);
  a_wait_is_moved(b);
  a_wait_for_what_goes(b);
  a_wait_takes_too_long(b);
}

/* ------------------------------------------------------------------------------------------------
 * Two payments to one account.
 */

struct payment {
  struct bank *bank;
  struct order order;
  struct payment *other;
  struct txn txn;
  bool has_read; /* under the mutex of the bank */
  pthread_t thread;
};

static bool has_read(struct payment *p) {
  bool has;
  pthread_mutex_lock(&p->bank->mutex);
  has = p->has_read;
  pthread_mutex_unlock(&p->bank->mutex);
  return has;
}

/* Between its reading and its writing a payment lets the other come as far as it can: until that has read
 * too, or waits for a lock. */
static void let_the_other_read(void *arg) {
  struct payment *p = arg;
  pthread_mutex_lock(&p->bank->mutex);
  p->has_read = true;
  pthread_mutex_unlock(&p->bank->mutex);
  while (!has_read(p->other) && !bank_is_waiting(p->bank, p->other->txn.name)) rest();
}

static void *pay(void *arg) {
  struct payment *p = arg;
  want("payment", txn_end(&p->txn, move_money(&p->txn, &p->order)), BS_DONE);
  return NULL;
}

static uint64_t balance_of(struct bank *b, bs_node account) {
  struct txn t = txn_begin(b, NULL, FOR_EVER);
  uint64_t balance;
  want("balance", txn_lock_account(&t, account, BS_S), BS_DONE);
  balance = txn_read(&t, account);
  want("balance", txn_end(&t, BS_DONE), BS_DONE);
  return balance;
}

void led_payments(struct bank *b, bool skips_lock) {
  bs_node to = bank_account(b, 6);
  struct order first = { bank_account(b, 4), to, 10, let_the_other_read, NULL, skips_lock };
  struct order second = { bank_account(b, 5), to, 10, let_the_other_read, NULL, skips_lock };
  struct payment payments[2] = { { .bank = b, .order = first }, { .bank = b, .order = second } };
  uint64_t before = balance_of(b, to), after;
  size_t i;
  for (i = 0; i < 2; i++) {
    payments[i].other = &payments[1 - i];
    payments[i].order.arg = &payments[i];
    payments[i].txn = txn_begin(b, NULL, FOR_EVER);
  }
  for (i = 0; i < 2; i++) start(&payments[i].thread, pay, &payments[i]);
  for (i = 0; i < 2; i++) pthread_join(payments[i].thread, NULL);
  after = balance_of(b, to);
  if (after == before + 20) return;
  fail("lost update: two payments of 10 made %" PRIu64 " of %" PRIu64, after, before);
}

/* ------------------------------------------------------------------------------------------------
 * An audit, and a payment of another table to one that it has read.
 */

struct passer {
  struct bank *bank;
  struct order order;
  struct txn txn;
  bs_status status;
  pthread_t thread;
};

static void *run_passer(void *arg) {
  struct passer *p = arg;
  p->status = txn_end(&p->txn, move_money(&p->txn, &p->order));
  return NULL;
}

/* The payment takes its money, and waits for the table that was read: the audit must not see what it took. */
static void let_it_pass(void *arg) {
  struct passer *p = arg;
  start(&p->thread, run_passer, p);
  while (!bank_is_waiting(p->bank, p->txn.name)) rest();
}

void led_audit(struct bank *b, uint64_t sum, bool skips_lock) {
  struct passer p = { .bank = b };
  struct order order = { bank_account(b, 8), bank_account(b, 7), 10, let_others_run, NULL, false };
  struct reading reading = { sum, let_it_pass, &p, skips_lock };
  uint64_t since = OLDEST;
  p.order = order;
  p.txn = txn_begin(b, NULL, FOR_EVER);
  want("audit", audit_tables(b, &since, &reading), BS_DONE);
  pthread_join(p.thread, NULL);
  want("a payment during an audit", p.status, BS_VICTIM);
}
