#include "fail.h"
#include "work.h"

#include <inttypes.h>
#include <signal.h>
#include <stdlib.h>
#include <string.h>
#include <time.h>

/* An account of each of the first two shards. */
enum { LEFT = 0, RIGHT = ACCOUNTS_EACH };

/* How many milliseconds a cycle stands at most. */
enum { SOON = 1000 };

static int64_t milliseconds(void) {
  struct timespec now;
  clock_gettime(CLOCK_MONOTONIC, &now);
  return (int64_t)now.tv_sec * 1000 + now.tv_nsec / 1000000;
}

/* ------------------------------------------------------------------------------------------------
 * Two transactions each hold an account of one shard, and wait for that of the other.
 */

struct party {
  struct office *office;
  struct client client;
  struct txn txn;
  unsigned wanted;
  bool is_granted;
  int64_t ended;
  pthread_t thread;
};

static void *want(void *arg) {
  struct party *p = arg;
  int64_t balance;
  p->is_granted = txn_take(&p->txn, p->wanted, &balance);
  p->ended = milliseconds();
  if (txn_end(&p->txn, &p->office->decisions) == COMMITTED) office_acknowledge(p->office, &p->txn);
  return NULL;
}

static void take_first(struct party *p, struct office *o, unsigned has, unsigned wants) {
  int64_t balance;
  p->office = o;
  p->wanted = wants;
  client_make(&p->client, UNTIL_IT_IS_THERE);
  p->txn = txn_begin(&p->client);
  if (!txn_take(&p->txn, has, &balance)) fail("an account that is free is not granted");
}

static void close_cycle(struct office *o, unsigned left, unsigned right) {
  struct party older, younger;
  int64_t begun;
  take_first(&older, o, left, right);
  take_first(&younger, o, right, left);
  begun = milliseconds();
  if (pthread_create(&older.thread, NULL, want, &older) != 0) fail("no thread");
  if (pthread_create(&younger.thread, NULL, want, &younger) != 0) fail("no thread");
  pthread_join(older.thread, NULL);
  pthread_join(younger.thread, NULL);
  client_end(&older.client);
  client_end(&younger.client);
  if (!older.is_granted || younger.is_granted) fail("of two on a cycle the younger is to fall");
  if (older.ended - begun > SOON) fail("a cycle stood for %" PRId64 " ms", older.ended - begun);
  printf("a cycle over two shards stood for %" PRId64 " ms\n", older.ended - begun);
}

/* Either way round, so that the younger does not fall for its place. */
void story_of_cycles(struct office *o) {
  close_cycle(o, LEFT, RIGHT);
  close_cycle(o, RIGHT, LEFT);
}

/* ------------------------------------------------------------------------------------------------
 * Between the two phases the coordinator goes, or a shard is killed.
 */

/* A transaction that both shards have voted for, and that moves seven from the left account to the right. The word is
 * written, or not. What the right account had is in `before`. */
static struct txn leave_in_doubt(struct office *o, struct client *c, bool is_decided, int64_t *before) {
  struct txn t = txn_begin(c);
  int64_t left;
  if (!txn_take(&t, LEFT, &left) || !txn_take(&t, RIGHT, before)) fail("accounts that are free are not granted");
  txn_write(&t, LEFT, left - 7);
  txn_write(&t, RIGHT, *before + 7);
  if (!txn_prepare(&t)) fail("a vote is refused");
  if (is_decided && !decide(&o->decisions, t.number, true)) fail("another word stands");
  return t;
}

/* Another transaction reads the right account: it waits for the locks that are held in doubt. */
static int64_t read_behind(struct office *o, struct client *c) {
  struct txn t = txn_begin(c);
  int64_t balance;
  if (!txn_read(&t, RIGHT, &balance)) fail("an account is not read");
  if (txn_end(&t, &o->decisions) != COMMITTED) fail("a reader is not committed");
  office_acknowledge(o, &t);
  return balance;
}

/* Both shards hear the connection end, and ask for the word. */
static void the_coordinator_goes(struct office *o, struct client *c, bool is_decided) {
  struct client gone;
  struct txn t;
  int64_t before;
  client_make(&gone, UNTIL_IT_IS_THERE);
  t = leave_in_doubt(o, &gone, is_decided, &before);
  client_end(&gone);
  if (read_behind(o, c) != before + (is_decided ? 7 : 0)) fail("the shards did not go by the word");
  if (is_decided) office_acknowledge(o, &t);
}

void stories_of_one_who_goes(struct office *o) {
  struct client c;
  client_make(&c, UNTIL_IT_IS_THERE);
  the_coordinator_goes(o, &c, true);
  the_coordinator_goes(o, &c, false);
  client_end(&c);
  puts("a coordinator that went: what was decided is committed, and what was not is aborted");
}

static void kill_shard(struct client *c, unsigned shard) {
  char reply[LINE];
  long pid;
  if (!ask(c, shard, reply, "pid") || sscanf(reply, "%ld", &pid) != 1) fail("shard %u has no number", shard);
  if (kill((pid_t)pid, SIGKILL) != 0) fail("shard %u is not killed", shard);
  while (ask(c, shard, reply, "pid") && strtol(reply, NULL, 10) == pid) continue;
}

/* The shard that comes back finds the word, and commits with nobody telling it. */
static void decided_before_the_kill(struct office *o, struct client *c) {
  int64_t before;
  struct txn t = leave_in_doubt(o, c, true, &before);
  kill_shard(c, shard_of(RIGHT));
  if (read_behind(o, c) != before + 7) fail("what was decided is lost");
  if (txn_second_phase(&t, &o->decisions, true) != COMMITTED) fail("another word stands");
  office_acknowledge(o, &t);
  puts("decided before the kill: committed by the shard that came back");
}

/* The shard that comes back finds none, and writes abort; the coordinator comes too late with its own. */
static void undecided_at_the_kill(struct office *o, struct client *c) {
  int64_t before;
  struct txn t = leave_in_doubt(o, c, false, &before);
  kill_shard(c, shard_of(RIGHT));
  if (read_behind(o, c) != before) fail("what was not decided is done");
  if (txn_second_phase(&t, &o->decisions, true) != ABORTED) fail("both words stand");
  puts("undecided at the kill: aborted by the shard that came back, and the coordinator heard so");
}

/* A reader whose shard was killed has lost its lock there: the account may be another's since. */
static void a_reader_at_the_kill(struct office *o, struct client *c) {
  struct txn t = txn_begin(c);
  int64_t balance;
  if (!txn_read(&t, RIGHT, &balance)) fail("an account is not read");
  kill_shard(c, shard_of(RIGHT));
  if (!txn_read(&t, LEFT, &balance)) fail("an account is not read");
  if (txn_end(&t, &o->decisions) != ABORTED) fail("a reader is committed without its lock");
  puts("a reader at the kill: its vote is refused");
}

void stories_of_kills(struct office *o) {
  struct client c;
  client_make(&c, UNTIL_IT_IS_THERE);
  decided_before_the_kill(o, &c);
  undecided_at_the_kill(o, &c);
  a_reader_at_the_kill(o, &c);
  client_end(&c);
}
