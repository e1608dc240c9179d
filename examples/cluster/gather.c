#include "gather.h"

#include "fail.h"

#include <inttypes.h>
#include <string.h>
#include <time.h>

/* Nanoseconds between two looks. */
enum { REST = 20000000 };

/* The slot of a transaction, which gets one where it has none. BS_SLOTS: there is none left for it in this look. */
static size_t slot_of(struct gatherer *g, uint64_t number) {
  size_t slot = 0;
  while (slot < g->count && g->board.ages[slot] != number) slot++;
  if (slot == g->count && slot < BS_SLOTS) g->board.ages[g->count++] = number;
  return slot;
}

static void add_wait(struct gatherer *g, uint64_t waiter, uint64_t holder) {
  size_t from = slot_of(g, waiter), to = slot_of(g, holder);
  if (from == BS_SLOTS || to == BS_SLOTS) return;
  g->board.rows[from].words[to / 64] |= UINT64_C(1) << to % 64;
}

void gather_begin(struct gatherer *g) {
  memset(&g->board, 0, sizeof g->board);
  g->count = 0;
}

void gather_shard(struct gatherer *g, unsigned shard) {
  char line[LINE], *rest = NULL, *word;
  if (!ask(&g->client, shard, line, "board")) return;
  for (word = strtok_r(line, " ", &rest); word != NULL; word = strtok_r(NULL, " ", &rest)) {
    uint64_t waiter, holder;
    if (sscanf(word, "%" SCNu64 ">%" SCNu64, &waiter, &holder) != 2) fail("a board that is none: %s", word);
    add_wait(g, waiter, holder);
  }
}

/* Its wait is taken back where it waits; it is told there, and its coordinator aborts it. */
static void condemn(struct gatherer *g, uint32_t slot) {
  static const bs_slots none = { { 0 } };
  char reply[LINE];
  unsigned shard;
  bool waited = false;
  for (shard = 0; shard < SHARDS; shard++) {
    bool heard = ask(&g->client, shard, reply, "cancel %" PRIu64, g->board.ages[slot]);
    waited = waited || (heard && strcmp(reply, "ok") == 0);
  }
  if (waited) g->victims++;
  g->board.rows[slot] = none;
}

/* Whoever is told waits no more, so what is left shows the cycles that stand. */
void gather_end_cycles(struct gatherer *g) {
  for (;;) {
    bs_slots suspects = bs_suspects(&g->board).slots;
    uint32_t slot = 0;
    while (slot < BS_SLOTS && !bs_has(suspects, slot)) slot++;
    if (slot == BS_SLOTS) return;
    condemn(g, (uint32_t)bs_youngest(&g->board, bs_on_cycle(&g->board, slot).slots).count);
  }
}

static bool is_ending(struct gatherer *g) {
  bool is;
  pthread_mutex_lock(&g->mutex);
  is = g->is_ending;
  pthread_mutex_unlock(&g->mutex);
  return is;
}

static void *run(void *arg) {
  const struct timespec rest = { 0, REST };
  struct gatherer *g = arg;
  while (!is_ending(g)) {
    unsigned shard;
    gather_begin(g);
    for (shard = 0; shard < SHARDS; shard++) gather_shard(g, shard);
    gather_end_cycles(g);
    nanosleep(&rest, NULL);
  }
  return NULL;
}

void gather_start(struct gatherer *g) {
  memset(g, 0, sizeof *g);
  client_make(&g->client, 1);
  pthread_mutex_init(&g->mutex, NULL);
  if (pthread_create(&g->thread, NULL, run, g) != 0) fail("no thread for the gatherer");
}

void gather_stop(struct gatherer *g) {
  pthread_mutex_lock(&g->mutex);
  g->is_ending = true;
  pthread_mutex_unlock(&g->mutex);
  pthread_join(g->thread, NULL);
  client_end(&g->client);
}
