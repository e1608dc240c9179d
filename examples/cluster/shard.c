/*
 * An engine that keeps some of the accounts, as one process:
 *
 *   shard NUMBER DECISIONS
 *
 * It listens at shard-NUMBER.socket in the working folder, and keeps shard-NUMBER.log there. Each connection has a
 * thread. A request is a line, WORD [TRANSACTION [ACCOUNT [BALANCE]]], and so is its answer:
 *
 *   begin T       ok                  commit T, abort T   ok
 *   read T A      ok BALANCE, or no   finish T            ok, or no: it was at work here alone
 *   take T A      the same, to write  board               who waits for whom: 7>9 9>7
 *   write T A B   ok, or no           cancel T            ok, or no: it does not wait
 *   prepare T     ok, or no           list, pid, end
 *
 * It ends with status 0 by `end`.
 */
#include "decide.h"
#include "fail.h"
#include "store.h"
#include "wire.h"

#include <errno.h>
#include <inttypes.h>
#include <stdlib.h>
#include <sys/socket.h>
#include <unistd.h>

static struct store store;
static struct decisions decisions;

/* ------------------------------------------------------------------------------------------------
 * Those in doubt.
 */

/* Asks for the word of each who is in doubt, and carries it out. An undecided one is aborted by that. */
static void resolve(void) {
  uint64_t numbers[BS_SLOTS];
  size_t i, count = store_in_doubt(&store, numbers);
  for (i = 0; i < count; i++) {
    bool commits = decide(&decisions, numbers[i], false);
    store_decided(&store, numbers[i], commits);
    printf("shard %u: %" PRIu64 " was in doubt: %s\n", store.shard, numbers[i], commits ? "commit" : "abort");
    fflush(stdout);
  }
}

static void *resolve_once(void *unused) {
  (void)unused;
  resolve();
  return NULL;
}

/* ------------------------------------------------------------------------------------------------
 * Requests.
 */

struct request {
  char word[16];
  uint64_t number;
  unsigned account;
  int64_t balance;
  uint64_t owner;
};

static const char *ok_if(bool is_done) {
  return is_done ? "ok" : "no";
}

static void answer_read(const struct request *r, bs_mode mode, char *reply) {
  struct account seen;
  if (!store_read(&store, r->number, r->account, mode, &seen)) strcpy(reply, "no");
  else snprintf(reply, LINE, "ok %" PRId64, seen.balance);
}

/* The end of a transaction by the word of its coordinator. */
static const char *decided(const struct request *r, bool commits) {
  store_decided(&store, r->number, commits);
  return "ok";
}

static void answer(const struct request *r, char *reply) {
  const char *w = r->word;
  if (strcmp(w, "begin") == 0) strcpy(reply, ok_if(store_begin(&store, r->number, r->owner)));
  else if (strcmp(w, "read") == 0) answer_read(r, BS_S, reply);
  else if (strcmp(w, "take") == 0) answer_read(r, BS_X, reply);
  else if (strcmp(w, "write") == 0) strcpy(reply, ok_if(store_write(&store, r->number, r->account, r->balance)));
  else if (strcmp(w, "prepare") == 0) strcpy(reply, ok_if(store_prepare(&store, r->number)));
  else if (strcmp(w, "commit") == 0) strcpy(reply, decided(r, true));
  else if (strcmp(w, "abort") == 0) strcpy(reply, decided(r, false));
  else if (strcmp(w, "finish") == 0) strcpy(reply, ok_if(store_finish(&store, r->number)));
  else if (strcmp(w, "board") == 0) store_board(&store, reply);
  else if (strcmp(w, "cancel") == 0) strcpy(reply, ok_if(store_cancel(&store, r->number)));
  else if (strcmp(w, "list") == 0) store_list(&store, reply);
  else if (strcmp(w, "pid") == 0) snprintf(reply, LINE, "%ld", (long)getpid());
  else fail("a request that is none: %s", w);
}

static void end_process(struct wire *w) {
  wire_say(w, "ok");
  fflush(stdout);
  _exit(0); /* The log has all that is to be kept. */
}

struct visit {
  struct wire wire;
  uint64_t owner;
};

static void *serve(void *arg) {
  struct visit *v = arg;
  char line[LINE], reply[LINE];
  while (wire_hear(&v->wire, line, sizeof line)) {
    struct request r = { .owner = v->owner };
    sscanf(line, "%15s %" SCNu64 " %u %" SCNd64, r.word, &r.number, &r.account, &r.balance);
    if (strcmp(r.word, "end") == 0) end_process(&v->wire);
    answer(&r, reply);
    if (!wire_say(&v->wire, reply)) break;
  }
  store_lose(&store, v->owner);
  resolve();
  wire_close(&v->wire);
  free(v);
  return NULL;
}

/* ------------------------------------------------------------------------------------------------
 * The whole program.
 */

static void start(void *(*run)(void *), void *arg) {
  pthread_t thread;
  if (pthread_create(&thread, NULL, run, arg) != 0 || pthread_detach(thread) != 0) fail("no thread");
}

int main(int count, char **word) {
  char socket_name[NAME];
  uint64_t owner;
  int listening;
  if (count != 3 || word[1][0] < '0' || word[1][0] >= '0' + SHARDS || word[1][1] != '\0') {
    fputs("usage: shard NUMBER DECISIONS\n", stderr);
    return 2;
  }
  decisions_open(&decisions, word[2]);
  store_open(&store, (unsigned)(word[1][0] - '0'));
  shard_file(socket_name, store.shard, "socket");
  listening = wire_listen(socket_name);
  start(resolve_once, NULL);
  for (owner = 1;; owner++) {
    struct visit *v = malloc(sizeof *v);
    int fd = accept(listening, NULL, NULL);
    if (v == NULL || (fd < 0 && errno != EINTR)) fail("no visit: %s", strerror(errno));
    wire_make(&v->wire, fd);
    v->owner = owner;
    start(serve, v);
  }
}
