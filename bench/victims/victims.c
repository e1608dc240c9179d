/*
 * What the choice of victims does in a random mix, and what the block costs that closes a large cycle. Every answer
 * is checked, as a caller must.
 */
#include "ours.h"

#include <stdio.h>
#include <stdlib.h>
#include <string.h>

enum { NODES = 48, COMMIT_ONE_OF = 4 };

static bs_notices told;

static const char *name_of(uint32_t choice) {
  return choice == BS_YOUNGEST ? "youngest" : "fewest";
}

static bs_node made_root(bs_manager *m) {
  return DONE(bs_add_inner(m, NULL, 0)).node;
}

static bs_txn begun(bs_manager *m) {
  return DONE(bs_begin(m)).txn;
}

/* ------------------------------------------------------------------------------------------------
 * The mix.
 */

struct locker {
  bs_txn txn;
  bool waits;
  uint64_t since; /* the first begin of its work */
  long times_victim; /* how often it was chosen as victim since then */
};

struct mix {
  bs_manager manager;
  bs_node nodes[NODES];
  struct locker lockers[BS_SLOTS]; /* by slot */
  uint64_t state;
  bool keeps_turns; /* a victim's work begins again with its first number */
  long deadlocks, victims, worst, aborts, commits, most_times_victim;
};

/* The next random number (xorshift). */
static uint32_t chance(struct mix *x, uint32_t below) {
  x->state ^= x->state << 13;
  x->state ^= x->state >> 7;
  x->state ^= x->state << 17;
  return (uint32_t)((x->state >> 16) % below);
}

/* Ends waits as told, and answers the number of victims. These must still be aborted. */
static long take_notices(struct mix *x, bool is_victim[BS_SLOTS]) {
  long victims = 0;
  size_t i;
  for (i = 0; i < told.count; i++) {
    uint32_t slot = told.at[i].txn.slot;
    x->lockers[slot].waits = false;
    if (told.at[i].kind != BS_TOLD_VICTIM) continue;
    is_victim[slot] = true;
    victims++;
  }
  return victims;
}

static void begin_work(struct mix *x, size_t slot) {
  struct locker *l = &x->lockers[slot];
  l->txn = begun(&x->manager);
  l->since = l->txn.age;
  l->times_victim = 0;
  WANT(l->txn.slot == slot);
}

static void abort_and_begin(struct mix *x, size_t slot) {
  struct locker *l = &x->lockers[slot];
  bool none[BS_SLOTS] = { false };
  DONE(bs_abort(&x->manager, l->txn, &told));
  WANT(take_notices(x, none) == 0);
  x->aborts++;
  l->times_victim++;
  if (l->times_victim > x->most_times_victim) x->most_times_victim = l->times_victim;
  l->txn = x->keeps_turns ? DONE(bs_begin_again(&x->manager, l->since)).txn : begun(&x->manager);
  WANT(l->txn.slot == slot);
}

static void ask(struct mix *x, size_t slot) {
  static const bs_mode modes[] = { BS_IS, BS_IX, BS_S, BS_SIX, BS_X };
  bool is_victim[BS_SLOTS] = { false };
  bs_node node = x->nodes[chance(x, NODES)];
  bs_status status = bs_lock(&x->manager, x->lockers[slot].txn, node, modes[chance(x, 5)], &told).status;
  long victims = take_notices(x, is_victim);
  size_t i;
  WANT(status == BS_DONE || status == BS_WAITING || status == BS_VICTIM);
  x->lockers[slot].waits = status == BS_WAITING;
  if (status == BS_VICTIM) {
    is_victim[slot] = true;
    victims++;
  }
  x->deadlocks += victims > 0;
  x->victims += victims;
  if (victims > x->worst) x->worst = victims;
  for (i = 0; i < BS_SLOTS; i++) {
    if (is_victim[i]) abort_and_begin(x, i);
  }
}

static void commit_and_begin(struct mix *x, size_t slot) {
  bool none[BS_SLOTS] = { false };
  DONE(bs_commit(&x->manager, x->lockers[slot].txn, &told));
  WANT(take_notices(x, none) == 0);
  x->commits++;
  begin_work(x, slot);
}

/* A locker that does not wait: there always is one, as nobody waits in a cycle. */
static size_t active(struct mix *x, uint32_t lockers) {
  size_t slot = chance(x, lockers);
  while (x->lockers[slot].waits) slot = chance(x, lockers);
  return slot;
}

static void play(uint32_t choice, bool keeps_turns, size_t lockers, long steps) {
  bs_options options = { 0 };
  static const bs_manager none = BS_NO_MANAGER_HERE;
  static struct mix x;
  size_t i;
  memset(&x, 0, sizeof x);
  x.manager = none;
  x.state = 88172645463325252u;
  x.keeps_turns = keeps_turns;
  options.victims = choice;
  DONE(bs_make(&x.manager, &options));
  for (i = 0; i < NODES; i++) x.nodes[i] = made_root(&x.manager);
  for (i = 0; i < lockers; i++) begin_work(&x, i);
  while (steps-- > 0) {
    size_t slot = active(&x, (uint32_t)lockers);
    if (chance(&x, COMMIT_ONE_OF) == 0) {
      commit_and_begin(&x, slot);
    } else {
      ask(&x, slot);
    }
  }
  printf("%3zu lockers, %-8s, %-14s: %5ld deadlocks, %5ld victims, %3ld at worst, %.2f aborts a commit, %5ld commits, "
         "one work fell %ld times\n",
         lockers, name_of(choice), keeps_turns ? "turns are kept" : "begins anew", x.deadlocks, x.victims, x.worst,
         x.commits == 0 ? 0.0 : (double)x.aborts / (double)x.commits, x.commits, x.most_times_victim);
  DONE(bs_end(&x.manager));
}

static void play_all(long steps) {
  static const size_t crowds[] = { 16, 32, 64, 128 };
  size_t i;
  for (i = 0; i < sizeof crowds / sizeof crowds[0]; i++) {
    play(BS_YOUNGEST, false, crowds[i], steps);
    play(BS_YOUNGEST, true, crowds[i], steps);
    play(BS_FEWEST, false, crowds[i], steps);
    play(BS_FEWEST, true, crowds[i], steps);
  }
}

/* ------------------------------------------------------------------------------------------------
 * The block that closes a cycle of 128.
 */

enum shape { RING, QUEUE };

struct cycle {
  bs_manager manager;
  bs_txn requester;
  bs_node node;
};

static void waits(struct cycle *c, bs_txn txn, bs_node node) {
  WANT(bs_lock(&c->manager, txn, node, BS_X, &told).status == BS_WAITING);
  WANT(told.count == 0);
}

/* Each holds a node, and waits for that of the next; the last will request that of the first. */
static void lay_ring(struct cycle *c) {
  bs_txn txns[BS_SLOTS];
  bs_node nodes[BS_SLOTS];
  size_t i;
  for (i = 0; i < BS_SLOTS; i++) {
    txns[i] = begun(&c->manager);
    nodes[i] = made_root(&c->manager);
    DONE(bs_lock(&c->manager, txns[i], nodes[i], BS_X, &told));
  }
  for (i = 0; i + 1 < BS_SLOTS; i++) waits(c, txns[i], nodes[i + 1]);
  c->requester = txns[BS_SLOTS - 1];
  c->node = nodes[0];
}

/* The first holds a node for which all others queue; it will request what the last of them holds. */
static void lay_queue(struct cycle *c) {
  bs_node queued = made_root(&c->manager);
  bs_txn txn;
  size_t i;
  c->requester = begun(&c->manager);
  c->node = made_root(&c->manager);
  DONE(bs_lock(&c->manager, c->requester, queued, BS_X, &told));
  for (i = 1; i < BS_SLOTS; i++) {
    txn = begun(&c->manager);
    if (i + 1 == BS_SLOTS) DONE(bs_lock(&c->manager, txn, c->node, BS_X, &told));
    waits(c, txn, queued);
  }
}

static MEASURED bs_status measured_lock(struct cycle *c) {
  return bs_lock(&c->manager, c->requester, c->node, BS_X, &told).status;
}

/* The nanoseconds of one closing block. */
static uint64_t close_cycle(enum shape shape, uint32_t choice) {
  struct cycle c = { BS_NO_MANAGER_HERE, { 0, 0 }, { 0, 0 } };
  bs_options options = { 0 };
  uint64_t start, taken;
  bs_status status;
  options.victims = choice;
  DONE(bs_make(&c.manager, &options));
  if (shape == RING) {
    lay_ring(&c);
  } else {
    lay_queue(&c);
  }
  start = now();
  status = measured_lock(&c);
  taken = now() - start;
  WANT(status == BS_VICTIM || (status == BS_WAITING && told.count > 0));
  DONE(bs_end(&c.manager));
  return taken;
}

/* The choices run by turns. */
static void time_all(void) {
  uint64_t times[BS_FEWEST + 1][TURNS];
  enum shape shape;
  uint32_t choice;
  int turn;
  for (shape = RING; shape <= QUEUE; shape++) {
    for (turn = 0; turn < TURNS; turn++) {
      for (choice = BS_YOUNGEST; choice <= BS_FEWEST; choice++) times[choice][turn] = close_cycle(shape, choice);
    }
    printf("%s: youngest %.0f ns, fewest %.0f ns\n", shape == RING ? "ring" : "queue",
           of_round(times[BS_YOUNGEST], BEST, 1), of_round(times[BS_FEWEST], BEST, 1));
  }
}

int main(int count, char **words) {
  if (count == 3 && strcmp(words[1], "mix") == 0) {
    play_all(atol(words[2]));
  } else if (count == 2 && strcmp(words[1], "times") == 0) {
    time_all();
  } else if (count == 4 && strcmp(words[1], "once") == 0) {
    close_cycle(strcmp(words[2], "ring") == 0 ? RING : QUEUE, strcmp(words[3], "youngest") == 0 ? BS_YOUNGEST : BS_FEWEST);
  } else {
    return 2;
  }
  return 0;
}
