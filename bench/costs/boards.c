/*
 * Snapshots of all slots, and what is read of them. Every answer is compared with what it should be.
 */
#include "costs.h"

static bs_board board;

/* No slot, and all. */
static bs_slots none, all;

static bs_slots slot_set(size_t slot) {
  bs_slots set = none;
  set.words[slot / 64] = (uint64_t)1 << slot % 64;
  return set;
}

/* The slots below this one. */
static bs_slots below(size_t slot) {
  bs_slots set = none;
  memset(set.words, 0xff, slot / 64 * sizeof set.words[0]);
  set.words[slot / 64] = slot_set(slot).words[slot / 64] - 1;
  return set;
}

static bs_slots row_of(enum shapes shape, size_t slot) {
  bool is_last = slot + 1 == BS_SLOTS;
  switch (shape) {
    case CHAIN: return is_last ? none : slot_set(slot + 1);
    case RING: return slot_set(is_last ? 0 : slot + 1);
    case QUEUE: return below(slot);
    case CLOSED_QUEUE: return slot == 0 ? slot_set(BS_SLOTS - 1) : below(slot);
    default: return none;
  }
}

/* The higher the slot, the younger. Answers the slots on a cycle: all, or none. */
static bs_slots lay(enum shapes shape) {
  size_t slot;
  memset(&all, 0xff, sizeof all);
  for (slot = 0; slot < BS_SLOTS; slot++) {
    board.ages[slot] = slot + 1;
    board.rows[slot] = row_of(shape, slot);
  }
  return shape == RING || shape == CLOSED_QUEUE ? all : none;
}

static void finds(bs_found found, bs_slots wanted) {
  WANT(found.status == BS_DONE && memcmp(&found.slots, &wanted, sizeof wanted) == 0);
}

static MEASURED void measured_cycles(bs_slots wanted, long rounds) {
  while (rounds-- > 0) finds(bs_on_cycle(&board, 0), wanted);
}

static MEASURED void measured_victims(long rounds) {
  while (rounds-- > 0) WANT(DONE(bs_youngest(&board, bs_on_cycle(&board, 0).slots)).count == BS_SLOTS - 1);
}

static MEASURED void measured_suspects(bs_slots wanted, long rounds) {
  while (rounds-- > 0) finds(bs_suspects(&board), wanted);
}

/* The slots on a cycle with the first slot. */
uint64_t cycles(size_t number, long rounds) {
  bs_slots wanted = lay((enum shapes)number);
  uint64_t start = now();
  measured_cycles(wanted, rounds);
  return now() - start;
}

/* The youngest of these, in a snapshot that has a cycle. */
uint64_t victims(size_t number, long rounds) {
  uint64_t start;
  lay((enum shapes)number);
  start = now();
  measured_victims(rounds);
  return now() - start;
}

/* The slots on any cycle. */
uint64_t suspects(size_t number, long rounds) {
  bs_slots wanted = lay((enum shapes)number);
  uint64_t start = now();
  measured_suspects(wanted, rounds);
  return now() - start;
}
