#include "decide.h"

#include "cluster.h"
#include "fail.h"

#include <errno.h>
#include <fcntl.h>
#include <inttypes.h>
#include <stdlib.h>
#include <string.h>
#include <sys/file.h>
#include <time.h>
#include <unistd.h>

/* At most so many words are written at once: etcd takes 128 operations in one transaction. */
enum { MOST_AT_ONCE = 32 };

/* How often etcd is asked again where it did not answer, as while it chooses a leader. */
enum { TRIES = 50 };

static const char *word_of(bool commits) {
  return commits ? "commit" : "abort";
}

void decisions_open(struct decisions *d, const char *where) {
  memset(d, 0, sizeof *d);
  pthread_mutex_init(&d->mutex, NULL);
  pthread_cond_init(&d->written, NULL);
  if (strncmp(where, "file:", 5) == 0) d->file = where + 5;
  else if (strncmp(where, "etcd:", 5) == 0) d->endpoints = where + 5;
  else fail("no log of decisions: %s", where);
}

/* ------------------------------------------------------------------------------------------------
 * A file of lines, each a number and its word. The lock on the file keeps a look and a write together.
 */

/* Whether the file has a word for the number; then it is in `commits`. */
static bool find_word(FILE *file, uint64_t number, bool *commits) {
  uint64_t each;
  char word[16];
  rewind(file);
  while (fscanf(file, "%" SCNu64 " %15s", &each, word) == 2) {
    if (each != number) continue;
    *commits = strcmp(word, "commit") == 0;
    return true;
  }
  return false;
}

static void write_to_file(struct decisions *d, struct wish *wishes) {
  FILE *file = fopen(d->file, "a+e");
  struct wish *w;
  if (file == NULL || flock(fileno(file), LOCK_EX) != 0) fail("%s: %s", d->file, strerror(errno));
  for (w = wishes; w != NULL; w = w->next) {
    if (find_word(file, w->number, &w->commits)) continue;
    fprintf(file, "%" PRIu64 " %s\n", w->number, word_of(w->commits));
    fflush(file);
  }
  if (fdatasync(fileno(file)) != 0) fail("%s: %s", d->file, strerror(errno));
  fclose(file);
}

/* ------------------------------------------------------------------------------------------------
 * Keys in etcd, each written by a transaction that finds it absent.
 */

/* The command that writes all these words where none of the keys is there, and else says those that are. It is the
 * caller's to free. */
static char *etcd_command(const struct decisions *d, const struct wish *wishes) {
  const struct wish *w;
  char *text = NULL;
  size_t size;
  FILE *out = open_memstream(&text, &size);
  if (out == NULL) fail("no memory for a command");
  fprintf(out, "exec 2>/dev/null; printf '");
  for (w = wishes; w != NULL; w = w->next) fprintf(out, "version(\"decision/%" PRIu64 "\") = \"0\"\\n", w->number);
  fprintf(out, "\\n");
  for (w = wishes; w != NULL; w = w->next) {
    fprintf(out, "put decision/%" PRIu64 " %s\\n", w->number, word_of(w->commits));
  }
  fprintf(out, "\\n");
  for (w = wishes; w != NULL; w = w->next) fprintf(out, "get decision/%" PRIu64 "\\n", w->number);
  fprintf(out, "\\n' | ETCDCTL_API=3 timeout -s KILL 3 etcdctl --endpoints=%s txn", d->endpoints);
  fclose(out);
  return text;
}

/* Runs the command: whether all words were written, by 1, or one of the keys was there, by 0, and then the last word
 * that was said is in `commits`. -1: etcd gave no answer, and nobody knows whether it wrote. */
static int run_etcd(const char *command, bool *commits) {
  char line[LINE];
  int answer = -1;
  FILE *out = popen(command, "r");
  if (out == NULL) return -1;
  while (fgets(line, sizeof line, out) != NULL) {
    if (strcmp(line, "SUCCESS\n") == 0) answer = 1;
    else if (strcmp(line, "FAILURE\n") == 0) answer = 0;
    else if (strcmp(line, "commit\n") == 0) *commits = true;
    else if (strcmp(line, "abort\n") == 0) *commits = false;
  }
  return pclose(out) == 0 ? answer : -1;
}

/* To ask again does no harm: where the first try wrote, the second finds its own word. */
static int ask_etcd(struct decisions *d, const struct wish *wishes, bool *commits) {
  const struct timespec rest = { 0, 100000000 };
  char *command = etcd_command(d, wishes);
  int i, answer = -1;
  for (i = 0; i < TRIES && answer < 0; i++) {
    answer = run_etcd(command, commits);
    if (answer < 0) nanosleep(&rest, NULL);
  }
  free(command);
  if (answer < 0) fail("etcd does not answer at %s", d->endpoints);
  return answer;
}

/* All at once; where a key was there, each alone. */
static void write_to_etcd(struct decisions *d, struct wish *wishes) {
  bool said = false;
  struct wish *w;
  if (ask_etcd(d, wishes, &said) == 1) return;
  for (w = wishes; w != NULL; w = w->next) {
    struct wish alone = *w;
    alone.next = NULL;
    if (ask_etcd(d, &alone, &said) == 0) w->commits = said;
  }
}

/* ------------------------------------------------------------------------------------------------
 * One writes at a time, and writes what all have come to wish meanwhile.
 */

static struct wish *take_wishes(struct decisions *d) {
  struct wish *taken = d->wishes, *last = taken;
  int i;
  for (i = 1; i < MOST_AT_ONCE && last->next != NULL; i++) last = last->next;
  d->wishes = last->next;
  last->next = NULL;
  return taken;
}

/* With the mutex held before and behind it, and free while it writes. A wish that is done is its owner's again, who
 * may be gone at once: so the next one is looked up before. */
static void write_wishes(struct decisions *d) {
  struct wish *wishes = take_wishes(d), *next;
  d->is_busy = true;
  d->rounds++;
  pthread_mutex_unlock(&d->mutex);
  if (d->file != NULL) write_to_file(d, wishes);
  else write_to_etcd(d, wishes);
  pthread_mutex_lock(&d->mutex);
  d->is_busy = false;
  for (; wishes != NULL; wishes = next) {
    next = wishes->next;
    wishes->is_done = true;
  }
  pthread_cond_broadcast(&d->written);
}

bool decide(struct decisions *d, uint64_t number, bool commits) {
  struct wish wish = { number, commits, false, NULL };
  pthread_mutex_lock(&d->mutex);
  wish.next = d->wishes;
  d->wishes = &wish;
  while (!wish.is_done) {
    if (d->is_busy) pthread_cond_wait(&d->written, &d->mutex);
    else write_wishes(d);
  }
  pthread_mutex_unlock(&d->mutex);
  return wish.commits;
}
