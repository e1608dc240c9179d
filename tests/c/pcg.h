/*
 * pcg.h: random numbers for the scenarios: PCG32, as O'Neill's reference code makes them from a state and a stream.
 */
#ifndef PCG_H
#define PCG_H

#include <stdbool.h>
#include <stddef.h>
#include <stdint.h>

typedef struct pcg {
  uint64_t state, increment;
} pcg;

static inline void pcg_step(pcg *rng) {
  rng->state = rng->state * UINT64_C(6364136223846793005) + rng->increment;
}

static inline pcg pcg_new(uint64_t state, uint64_t stream) {
  pcg rng;
  rng.increment = stream << 1 | 1;
  rng.state = state + rng.increment;
  pcg_step(&rng);
  return rng;
}

/* The next word. */
static inline uint32_t pcg_word(pcg *rng) {
  uint32_t turn = (uint32_t)(rng->state >> 59);
  uint32_t word = (uint32_t)((rng->state >> 18 ^ rng->state) >> 27);
  pcg_step(rng);
  return word >> turn | word << (-turn & 31);
}

/* A number below this one, which is not 0. */
static inline size_t pcg_below(pcg *rng, size_t below) {
  return pcg_word(rng) % below;
}

#endif
