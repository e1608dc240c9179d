/*
 * A small storage engine over the lock manager: threads that move money between accounts, open and close
 * accounts, and read many at once, all under granular locks. README.md says what is where.
 *
 *   engine [--parts N] [--watch] [--sessions] [--skip-lock] [--skip-table]
 *
 * --parts N     the table of locks has N parts, from 1 to 63, and each table of accounts is in one of them.
 * --watch       deadlocks are ended by a thread that watches, and not when a transaction begins to wait; with parts
 *               it ends those over several.
 * --sessions    the transactions of each worker are those of one session, which keeps its intentions.
 * --skip-lock   a planted fault: two payments skip their lock. The program must find the lost update.
 * --skip-table  a planted fault: an audit skips its lock on a table. The program must find the wrong sum.
 *
 * Status 0: all was as it must be; 1: something was not, and standard error says what; 2: wrong words.
 */
#include "check.h"
#include "led.h"
#include "work.h"

#include <inttypes.h>
#include <stdio.h>
#include <stdlib.h>
#include <string.h>

enum { FOUNDERS = 24, FIRST_BALANCE = 100, MOST_MOVED = 80, SUM = FOUNDERS * FIRST_BALANCE };
enum { TELLERS = 6, TRANSFERS = 500, CHANGES = 300, AUDITS = 150, LISTS = 300 };

/* How many milliseconds the branch waits for a lock before it lets others go first. */
enum { PATIENCE = 2 };

struct words {
  bool watch, sessions, skip_lock, skip_table;
  uint32_t parts;
};

static bool read_parts(const char *word, uint32_t *parts) {
  char *end;
  unsigned long number = word == NULL ? 0 : strtoul(word, &end, 10);
  if (number == 0 || number > BS_MOST_PARTS || *end != '\0') return false;
  *parts = (uint32_t)number;
  return true;
}

/* The last of the words is null. */
static bool read_words(char **word, struct words *words) {
  while (*++word != NULL) {
    if (strcmp(*word, "--watch") == 0) words->watch = true;
    else if (strcmp(*word, "--sessions") == 0) words->sessions = true;
    else if (strcmp(*word, "--skip-lock") == 0) words->skip_lock = true;
    else if (strcmp(*word, "--skip-table") == 0) words->skip_table = true;
    else if (strcmp(*word, "--parts") != 0 || !read_parts(*++word, &words->parts)) return false;
  }
  return true;
}

/* ------------------------------------------------------------------------------------------------
 * Workers: threads, each with small random numbers of its own.
 */

struct worker {
  struct bank *bank;
  void *(*run)(void *);
  bool in_session;
  uint64_t dice;
  pthread_t thread;
};

/* From 0 to below `sides`. */
static uint64_t roll(struct worker *w, uint64_t sides) {
  w->dice ^= w->dice << 13;
  w->dice ^= w->dice >> 7;
  w->dice ^= w->dice << 17;
  return (w->dice >> 16) % sides;
}

static bs_node any_account(struct worker *w) {
  return bank_account_from(w->bank, roll(w, MOST_ACCOUNTS));
}

static const struct table *any_table(struct worker *w) {
  return &w->bank->tables[roll(w, TABLES)];
}

/* Whether the work of a transaction that was rolled back is to begin again. */
static bool is_to_repeat(bs_status status) {
  return status == BS_VICTIM || status == BS_TIMED_OUT;
}

static struct order any_order(struct worker *w) {
  struct order o = { .between = let_others_run };
  o.from = any_account(w);
  o.to = any_account(w);
  o.amount = 1 + roll(w, MOST_MOVED);
  return o;
}

/* Where one of the two accounts has been closed meanwhile, no money is moved. */
static void *run_teller(void *arg) {
  struct worker *w = arg;
  size_t i;
  for (i = 0; i < TRANSFERS; i++) {
    struct order o = any_order(w);
    uint64_t since = 0;
    while (is_to_repeat(transfer(w->bank, &since, &o))) continue;
  }
  return NULL;
}

/* Opens some accounts, closes some, and so on. Each first try has little patience. */
static void *run_branch(void *arg) {
  struct worker *w = arg;
  size_t i;
  for (i = 0; i < CHANGES; i++) {
    struct order o = any_order(w);
    struct opening opening = { any_table(w), o.from, o.amount };
    unsigned patience = PATIENCE;
    uint64_t since = 0;
    bs_status status = BS_TIMED_OUT;
    while (same_node(o.from, o.to)) o.to = any_account(w);
    for (; is_to_repeat(status); patience = FOR_EVER) {
      if (i % 8 < 4) status = open_account(w->bank, &since, &opening, patience);
      else status = close_account(w->bank, &since, o.from, o.to, patience);
    }
  }
  return NULL;
}

/* Audits by a lock on each table and by one on all, in turn. */
static void *run_auditor(void *arg) {
  const struct reading reading = { SUM, let_others_run, NULL, false };
  struct worker *w = arg;
  size_t i;
  for (i = 0; i < AUDITS; i++) {
    uint64_t since = 0;
    while (is_to_repeat(audit_tables(w->bank, &since, &reading))) continue;
    since = 0;
    while (is_to_repeat(audit_all(w->bank, &since, SUM))) continue;
  }
  return NULL;
}

static void *run_lister(void *arg) {
  struct worker *w = arg;
  size_t i;
  for (i = 0; i < LISTS; i++) {
    const struct table *table = any_table(w);
    size_t place = (size_t)roll(w, INTERVALS);
    uint64_t since = 0;
    while (is_to_repeat(list_interval(w->bank, &since, table, place))) continue;
  }
  return NULL;
}

static void *run_worker(void *arg) {
  struct worker *w = arg;
  if (w->in_session) txn_begin_session(w->bank);
  w->run(w);
  if (w->in_session) txn_end_session();
  return NULL;
}

static void run_crowd(struct bank *b, bool in_sessions) {
  static void *(*const others[])(void *) = { run_branch, run_auditor, run_lister };
  enum { OTHERS = sizeof others / sizeof others[0], ALL = TELLERS + OTHERS };
  struct worker workers[ALL];
  size_t i;
  for (i = 0; i < ALL; i++) {
    struct worker *w = &workers[i];
    w->bank = b;
    w->in_session = in_sessions;
    w->dice = 0x9e3779b97f4a7c15u * (i + 1);
    w->run = i < TELLERS ? run_teller : others[i - TELLERS];
    if (pthread_create(&w->thread, NULL, run_worker, w) != 0) fail("no thread for a worker");
  }
  for (i = 0; i < ALL; i++) pthread_join(workers[i].thread, NULL);
}

/* ------------------------------------------------------------------------------------------------
 * The whole program.
 */

static void found_accounts(struct bank *b) {
  size_t i;
  for (i = 0; i < FOUNDERS; i++) found_account(b, &b->tables[i % TABLES], FIRST_BALANCE);
}

struct item {
  const char *name;
  uint64_t count;
};

static void print_line(const struct item *items, size_t count) {
  size_t i;
  for (i = 0; i < count; i++) printf("%s%s %" PRIu64, i == 0 ? "" : ", ", items[i].name, items[i].count);
  putchar('\n');
}

static void print_summary(struct bank *b) {
  const struct counts *c = &b->counts;
  const bs_counts locks = bank_lock_counts(b);
  const struct item writes[] = {
    { "transfers", c->transfers }, { "of a closed account", c->no_account }, { "opened", c->opened },
    { "closed", c->closed }, { "rekeyed", c->rekeyed }
  };
  const struct item reads[] = {
    { "reads of each table", c->audits }, { "escalations", locks.escalations },
    { "locks released by them", locks.released_children }, { "reads of the whole", c->whole_audits },
    { "reads of an interval", c->lists }
  };
  const struct item waits[] = {
    { "waits", locks.waited }, { "granted", locks.granted_later }, { "victims", c->victims },
    { "moved", locks.moved }, { "gone", locks.gone }, { "given up", c->given_up },
    { "the longest queue", locks.longest_queue }
  };
  print_line(writes, sizeof writes / sizeof writes[0]);
  print_line(reads, sizeof reads / sizeof reads[0]);
  print_line(waits, sizeof waits / sizeof waits[0]);
}

int main(int count, char **word) {
  static struct bank bank;
  struct words words = { .parts = 1 };
  if (count == 0 || !read_words(word, &words)) {
    fputs("usage: engine [--parts N] [--watch] [--sessions] [--skip-lock] [--skip-table]\n", stderr);
    return 2;
  }
  bank_open(&bank, words.parts, words.watch);
  found_accounts(&bank);
  led_waits(&bank);
  led_payments(&bank, words.skip_lock);
  led_audit(&bank, SUM, words.skip_table);
  run_crowd(&bank, words.sessions);
  bank_check(&bank, SUM);
  print_summary(&bank);
  bank_close(&bank);
  return 0;
}
