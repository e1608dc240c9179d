#include "remote.h"

#include "fail.h"

#include <inttypes.h>
#include <stdarg.h>
#include <string.h>
#include <time.h>

void client_make(struct client *c, unsigned tries) {
  unsigned shard;
  for (shard = 0; shard < SHARDS; shard++) wire_make(&c->wires[shard], -1);
  c->tries = tries;
}

void client_end(struct client *c) {
  unsigned shard;
  for (shard = 0; shard < SHARDS; shard++) wire_close(&c->wires[shard]);
}

/* A connection to a shard that answers: that of one which is being killed may still be made, and breaks at once. */
static bool connect_shard(struct wire *w, unsigned shard) {
  char name[NAME], reply[LINE];
  shard_file(name, shard, "socket");
  if (!wire_connect(w, name)) return false;
  if (wire_say(w, "pid") && wire_hear(w, reply, sizeof reply)) return true;
  wire_close(w);
  return false;
}

static bool is_connected(struct client *c, unsigned shard) {
  const struct timespec rest = { 0, 10000000 };
  unsigned i;
  for (i = 0; i < c->tries && c->wires[shard].fd < 0; i++) {
    if (!connect_shard(&c->wires[shard], shard)) nanosleep(&rest, NULL);
  }
  return c->wires[shard].fd >= 0;
}

bool ask(struct client *c, unsigned shard, char *reply, const char *format, ...) {
  char line[LINE];
  va_list args;
  va_start(args, format);
  vsnprintf(line, sizeof line, format, args);
  va_end(args);
  if (!is_connected(c, shard)) return false;
  if (wire_say(&c->wires[shard], line) && wire_hear(&c->wires[shard], reply, LINE)) return true;
  wire_close(&c->wires[shard]);
  return false;
}

/* Whether a shard says ok. */
static bool is_done(struct client *c, unsigned shard, const char *word, uint64_t number) {
  char reply[LINE];
  return ask(c, shard, reply, "%s %" PRIu64, word, number) && strcmp(reply, "ok") == 0;
}

struct txn txn_begin(struct client *c) {
  static pthread_mutex_t mutex = PTHREAD_MUTEX_INITIALIZER;
  static uint64_t last = 0;
  struct txn t = { .client = c };
  pthread_mutex_lock(&mutex);
  t.number = ++last;
  pthread_mutex_unlock(&mutex);
  return t;
}

/* It begins in each shard once: a shard that was killed since does not know it, and refuses it. */
static bool lock(struct txn *t, const char *word, unsigned account, int64_t *balance) {
  unsigned shard = shard_of(account);
  char reply[LINE];
  if (t->has_failed) return false;
  if (!t->is_part[shard]) {
    t->is_part[shard] = true;
    t->has_failed = !is_done(t->client, shard, "begin", t->number);
  }
  if (t->has_failed || !ask(t->client, shard, reply, "%s %" PRIu64 " %u", word, t->number, account) ||
      sscanf(reply, "ok %" SCNd64, balance) != 1) {
    t->has_failed = true;
  }
  return !t->has_failed;
}

bool txn_read(struct txn *t, unsigned account, int64_t *balance) {
  return lock(t, "read", account, balance);
}

bool txn_take(struct txn *t, unsigned account, int64_t *balance) {
  return lock(t, "take", account, balance);
}

void txn_write(struct txn *t, unsigned account, int64_t balance) {
  char reply[LINE];
  bool heard;
  if (t->has_failed) return;
  heard = ask(t->client, shard_of(account), reply, "write %" PRIu64 " %u %" PRId64, t->number, account, balance);
  if (!heard || strcmp(reply, "ok") != 0) t->has_failed = true;
}

unsigned txn_parts(const struct txn *t) {
  unsigned shard, count = 0;
  for (shard = 0; shard < SHARDS; shard++) count += t->is_part[shard];
  return count;
}

/* A reader votes too: a shard that was killed has lost its locks, and says no. */
bool txn_prepare(struct txn *t) {
  unsigned shard;
  for (shard = 0; shard < SHARDS && !t->has_failed; shard++) {
    if (t->is_part[shard]) t->has_failed = !is_done(t->client, shard, "prepare", t->number);
  }
  return !t->has_failed;
}

/* A commit is said until it is heard. An abort is said once: a shard that has gone has nothing of the transaction, or
 * is in doubt when it starts again, and asks. */
static void carry_out(struct txn *t, bool commits) {
  unsigned shard;
  for (shard = 0; shard < SHARDS; shard++) {
    bool is_heard = !t->is_part[shard];
    unsigned i;
    for (i = 0; i < (commits ? 3 : 1) && !is_heard; i++) {
      is_heard = is_done(t->client, shard, commits ? "commit" : "abort", t->number);
    }
    if (commits && !is_heard) fail("shard %u does not come back", shard);
  }
}

static enum ending finish(struct txn *t) {
  unsigned shard = 0;
  char reply[LINE];
  while (!t->is_part[shard]) shard++;
  if (!ask(t->client, shard, reply, "finish %" PRIu64, t->number)) return UNKNOWN;
  return strcmp(reply, "ok") == 0 ? COMMITTED : ABORTED;
}

enum ending txn_second_phase(struct txn *t, struct decisions *d, bool has_votes) {
  bool commits = has_votes && decide(d, t->number, true);
  carry_out(t, commits);
  return commits ? COMMITTED : ABORTED;
}

enum ending txn_end(struct txn *t, struct decisions *d) {
  if (!t->has_failed && txn_parts(t) == 1) return finish(t);
  return txn_second_phase(t, d, txn_prepare(t));
}
