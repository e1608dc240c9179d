#include "fail.h"
#include "gather.h"
#include "work.h"

#include <inttypes.h>
#include <string.h>

/* An account of each of the first two shards. */
enum { LEFT = 0, RIGHT = ACCOUNTS_EACH };

/* One who holds an account, and wants another. */
struct wanting {
  struct client client;
  struct txn txn;
  unsigned wanted;
  bool is_granted;
  pthread_t thread;
};

static void hold(struct wanting *w, unsigned has) {
  int64_t balance;
  client_make(&w->client, UNTIL_IT_IS_THERE);
  w->txn = txn_begin(&w->client);
  if (!txn_take(&w->txn, has, &balance)) fail("an account that is free is not granted");
}

static void *take(void *arg) {
  struct wanting *w = arg;
  int64_t balance;
  w->is_granted = txn_take(&w->txn, w->wanted, &balance);
  return NULL;
}

/* Begins to wait, until the board of that shard shows it. */
static void want(struct wanting *w, unsigned wanted, struct gatherer *looking) {
  w->wanted = wanted;
  if (pthread_create(&w->thread, NULL, take, w) != 0) fail("no thread");
  do {
    gather_begin(looking);
    gather_shard(looking, shard_of(wanted));
  } while (looking->count == 0);
}

static enum ending end(struct wanting *w, struct office *o) {
  enum ending ending = txn_end(&w->txn, &o->decisions);
  if (ending == COMMITTED) office_acknowledge(o, &w->txn);
  client_end(&w->client);
  return ending;
}

/* The first wait is taken back as by a limit, and its transaction goes on: it has what it had. */
static void give_up(struct wanting *w, struct gatherer *g) {
  char reply[LINE];
  if (!ask(&g->client, shard_of(w->wanted), reply, "cancel %" PRIu64, w->txn.number)) fail("nobody hears");
  pthread_join(w->thread, NULL);
  if (w->is_granted) fail("a wait that is taken back is granted");
  w->txn.has_failed = false;
}

/* `first` waits for `second` in the one shard, and no more when that one begins to wait for it in the other. The board
 * has both waits. Answers how many fell by it. */
static uint64_t show_phantom(struct wanting *first, struct wanting *second) {
  static struct gatherer g, looking;
  memset(&g, 0, sizeof g);
  client_make(&g.client, UNTIL_IT_IS_THERE);
  client_make(&looking.client, UNTIL_IT_IS_THERE);
  want(first, LEFT, &looking);
  gather_begin(&g);
  gather_shard(&g, shard_of(LEFT));
  give_up(first, &g);
  want(second, RIGHT, &looking);
  gather_shard(&g, shard_of(RIGHT));
  if (g.count != 2 || bs_suspects(&g.board).slots.words[0] != 3) fail("no phantom is shown");
  gather_end_cycles(&g);
  client_end(&g.client);
  client_end(&looking.client);
  return g.victims;
}

/* The younger is the second, which waits: it falls for nothing, and nothing is lost by that. */
static void the_victim_waits(struct office *o) {
  struct wanting first, second;
  hold(&first, RIGHT);
  hold(&second, LEFT);
  if (show_phantom(&first, &second) != 1) fail("the younger does not fall");
  pthread_join(second.thread, NULL);
  if (second.is_granted || end(&second, o) != ABORTED) fail("the younger is not aborted");
  if (end(&first, o) != COMMITTED) fail("the older is not committed");
}

/* The younger is the first, which waits no more: nobody falls. */
static void the_victim_waits_no_more(struct office *o) {
  struct wanting first, second;
  hold(&second, LEFT);
  hold(&first, RIGHT);
  if (show_phantom(&first, &second) != 0) fail("one that does not wait falls");
  if (end(&first, o) != COMMITTED) fail("the younger is not committed");
  pthread_join(second.thread, NULL);
  if (!second.is_granted || end(&second, o) != COMMITTED) fail("the older is not committed");
}

void stories_of_phantoms(struct office *o) {
  the_victim_waits(o);
  the_victim_waits_no_more(o);
  puts("a cycle that never was: one falls for nothing, and none where the victim waits no more");
}
