/*
 * The coordinator of transactions over the shards, as one process with a thread for each client:
 *
 *   coordinator DECISIONS SEED [--kills]
 *
 * It leads the stories, then a crowd, and ends the shards. It writes `acknowledged`, a line for each transaction that
 * a client was told is committed, and `balances`, what the shards say at the end. With --kills it kills shards in its
 * stories, and somebody has to start them again.
 *
 * Status 0: all was as it must be; 1: something was not, and standard error says what; 2: wrong words.
 */
#include "fail.h"
#include "gather.h"
#include "work.h"

#include <inttypes.h>
#include <stdlib.h>
#include <string.h>

void office_acknowledge(struct office *o, const struct txn *t) {
  pthread_mutex_lock(&o->mutex);
  fprintf(o->acknowledged, "%" PRIu64 " %u\n", t->number, txn_parts(t));
  pthread_mutex_unlock(&o->mutex);
}

/* Asks a shard, and again where it was killed before it had answered. */
static void insist(struct client *c, unsigned shard, char *reply, const char *word) {
  unsigned tries = 0;
  while (!ask(c, shard, reply, "%s", word)) {
    if (++tries == 3) fail("shard %u does not answer: %s", shard, word);
  }
}

/* What each shard says that it has; then it is ended. */
static void close_shards(void) {
  struct client c;
  char reply[LINE];
  unsigned shard;
  FILE *balances = fopen("balances", "w");
  if (balances == NULL) fail("balances does not open");
  client_make(&c, UNTIL_IT_IS_THERE);
  for (shard = 0; shard < SHARDS; shard++) {
    insist(&c, shard, reply, "list");
    fprintf(balances, "%s\n", reply);
    insist(&c, shard, reply, "end");
  }
  client_end(&c);
  fclose(balances);
}

static void print_summary(const struct office *o, const struct gatherer *g) {
  printf("transfers %" PRIu64 ", reads of all accounts %" PRIu64 ", begun again %" PRIu64 ", unknown %" PRIu64 "\n",
         o->transfers, o->audits, o->again, o->unknown);
  printf("victims of gathered boards %" PRIu64 ", rounds of the log of decisions %" PRIu64 "\n", g->victims,
         o->decisions.rounds);
}

int main(int count, char **word) {
  static struct office office = { .mutex = PTHREAD_MUTEX_INITIALIZER };
  static struct gatherer gatherer;
  bool kills = count == 4 && strcmp(word[3], "--kills") == 0;
  if (count != 3 && !kills) {
    fputs("usage: coordinator DECISIONS SEED [--kills]\n", stderr);
    return 2;
  }
  setvbuf(stdout, NULL, _IOLBF, 0);
  decisions_open(&office.decisions, word[1]);
  office.acknowledged = fopen("acknowledged", "w");
  if (office.acknowledged == NULL) fail("acknowledged does not open");
  stories_of_phantoms(&office);
  gather_start(&gatherer);
  story_of_cycles(&office);
  stories_of_one_who_goes(&office);
  if (kills) stories_of_kills(&office);
  puts("the crowd begins");
  crowd(&office, strtoull(word[2], NULL, 10));
  gather_stop(&gatherer);
  close_shards();
  fclose(office.acknowledged);
  print_summary(&office, &gatherer);
  return 0;
}
