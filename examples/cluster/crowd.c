#include "fail.h"
#include "work.h"

#include <inttypes.h>
#include <time.h>

enum { CLIENTS = 6, ROUNDS = 50, MOST_MOVED = 20 };

/* Each so many rounds of a client read all accounts. */
enum { AUDIT_EACH = 10 };

struct teller {
  struct office *office;
  struct client client;
  uint64_t dice;
  pthread_t thread;
};

/* From 0 to below `sides`. */
static unsigned roll(struct teller *t, unsigned sides) {
  t->dice ^= t->dice << 13;
  t->dice ^= t->dice >> 7;
  t->dice ^= t->dice << 17;
  return (unsigned)((t->dice >> 16) % sides);
}

static void rest(unsigned milliseconds) {
  const struct timespec time = { 0, (long)milliseconds * 1000000 };
  nanosleep(&time, NULL);
}

static void add_one(struct office *o, uint64_t *counter) {
  pthread_mutex_lock(&o->mutex);
  ++*counter;
  pthread_mutex_unlock(&o->mutex);
}

/* Two different accounts, in whatever order: so some of these wait in a circle. */
static void transfer(struct teller *t, struct txn *txn) {
  unsigned from = roll(t, ACCOUNTS), to = (from + 1 + roll(t, ACCOUNTS - 1)) % ACCOUNTS;
  int64_t amount = 1 + roll(t, MOST_MOVED), left, right;
  if (!txn_take(txn, from, &left) || !txn_take(txn, to, &right)) return;
  txn_write(txn, from, left - amount);
  txn_write(txn, to, right + amount);
}

/* All money is there, wherever it moves: but only what is committed is a fact. */
static void audit(struct txn *txn, int64_t *sum) {
  unsigned account;
  *sum = 0;
  for (account = 0; account < ACCOUNTS; account++) {
    int64_t balance = 0;
    if (!txn_read(txn, account, &balance)) return;
    *sum += balance;
  }
}

/* One transaction, to its end. One that fell begins again as another, a little later. */
static enum ending try_round(struct teller *t, bool is_audit) {
  struct txn txn = txn_begin(&t->client);
  int64_t sum = 0;
  enum ending ending;
  if (is_audit) audit(&txn, &sum);
  else transfer(t, &txn);
  ending = txn_end(&txn, &t->office->decisions);
  if (ending != COMMITTED) return ending;
  if (is_audit && sum != (int64_t)ACCOUNTS * FIRST_BALANCE) fail("%" PRIu64 " read a sum of %" PRId64, txn.number, sum);
  office_acknowledge(t->office, &txn);
  return ending;
}

static void *run_teller(void *arg) {
  struct teller *t = arg;
  struct office *o = t->office;
  unsigned i;
  for (i = 1; i <= ROUNDS; i++) {
    bool is_audit = i % AUDIT_EACH == 0;
    enum ending ending;
    while ((ending = try_round(t, is_audit)) == ABORTED) {
      add_one(o, &o->again);
      rest(1 + roll(t, 10));
    }
    if (ending == UNKNOWN) add_one(o, &o->unknown);
    else add_one(o, is_audit ? &o->audits : &o->transfers);
  }
  client_end(&t->client);
  return NULL;
}

void crowd(struct office *o, uint64_t seed) {
  struct teller tellers[CLIENTS];
  unsigned i;
  for (i = 0; i < CLIENTS; i++) {
    struct teller *t = &tellers[i];
    t->office = o;
    client_make(&t->client, UNTIL_IT_IS_THERE);
    t->dice = UINT64_C(0x9e3779b97f4a7c15) * (seed * CLIENTS + i + 1);
    if (pthread_create(&t->thread, NULL, run_teller, t) != 0) fail("no thread for a teller");
  }
  for (i = 0; i < CLIENTS; i++) pthread_join(tellers[i].thread, NULL);
}
