/*
 * scale WAY SIDE RECORDS: runs all steps of a side, over so many records, in order or at random, and prints a line
 * for each: its function, its title, and the nanoseconds for a record. Ends with status 1 at the first answer that
 * is not as it should be.
 */
#include "scale.h"

#include <stdio.h>
#include <stdlib.h>
#include <string.h>

/* A permutation, the same in each run. */
static void shuffle(uint32_t *order, uint32_t count) {
  uint64_t state = 88172645463325252u;
  uint32_t at;
  for (at = count; at > 1; at--) {
    uint32_t other, kept = order[at - 1];
    state ^= state << 13;
    state ^= state >> 7;
    state ^= state << 17;
    other = (uint32_t)(state % at);
    order[at - 1] = order[other];
    order[other] = kept;
  }
}

int main(int count, char **words) {
  struct work work;
  uint32_t *order, at;
  size_t step;
  const struct side *side = &ours;
  if (count != 4) return 2;
#ifdef HAVE_DB
  if (strcmp(words[2], "theirs") == 0) side = &theirs;
#endif
  work.records = (uint32_t)strtoul(words[3], NULL, 10);
  order = malloc(work.records * sizeof *order);
  if (order == NULL) fail("no memory", __FILE__, __LINE__);
  for (at = 0; at < work.records; at++) order[at] = at;
  if (strcmp(words[1], "random") == 0) shuffle(order, work.records);
  work.order = order;
  side->set_up(&work);
  for (step = 0; step < side->count; step++) {
    uint64_t begun = now();
    side->steps[step].run(&work);
    printf("%.1f\t%s\n", (double)(now() - begun) / work.records, side->steps[step].title);
  }
  side->tear_down();
  free(order);
  return 0;
}
