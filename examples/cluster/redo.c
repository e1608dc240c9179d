#include "redo.h"

#include "fail.h"

#include <fcntl.h>
#include <inttypes.h>
#include <unistd.h>

void redo_apply(struct store *s, const struct work *w) {
  size_t i;
  for (i = 0; i < w->count; i++) {
    const struct item *item = &w->items[i];
    struct account *a = &s->accounts[item->account % ACCOUNTS_EACH];
    if (!item->writes) continue;
    if (a->version != item->version) fail("%" PRIu64 " writes upon a version that is not the last", w->number);
    a->balance = item->balance;
    a->version++;
  }
}

void redo_note(struct store *s, enum redo_kind kind, const struct work *w) {
  char line[LINE];
  bool has_items = kind == REDO_PREPARED || kind == REDO_ONE;
  size_t i, length = (size_t)snprintf(line, sizeof line, "%c %" PRIu64, (char)kind, w->number);
  for (i = 0; has_items && i < w->count; i++) {
    const struct item *item = &w->items[i];
    length += (size_t)snprintf(line + length, LINE - length, " %u:%" PRIu64, item->account, item->version);
    if (item->writes) length += (size_t)snprintf(line + length, LINE - length, ":%" PRId64, item->balance);
  }
  line[length++] = '\n';
  if (write(s->log, line, length) != (ssize_t)length) fail("the log of shard %u takes no line", s->shard);
  if (has_items && fdatasync(s->log) != 0) fail("the log of shard %u is not kept", s->shard);
}

/* ------------------------------------------------------------------------------------------------
 * The log is played.
 */

char redo_parse(char *line, struct work *w) {
  char *rest = NULL, *word = strtok_r(line, " \n", &rest);
  char kind = word == NULL ? 0 : word[0];
  memset(w, 0, sizeof *w);
  word = strtok_r(NULL, " \n", &rest);
  if (word == NULL || sscanf(word, "%" SCNu64, &w->number) != 1) return 0;
  while ((word = strtok_r(NULL, " \n", &rest)) != NULL && w->count < ACCOUNTS_EACH) {
    struct item *item = &w->items[w->count++];
    int fields = sscanf(word, "%u:%" SCNu64 ":%" SCNd64, &item->account, &item->version, &item->balance);
    if (fields < 2) return 0;
    item->writes = fields == 3;
  }
  return kind;
}

/* Those who are prepared, in the order of their votes. */
static void leave(struct work *left, size_t *count, size_t place) {
  memmove(&left[place], &left[place + 1], (*count - place - 1) * sizeof left[0]);
  --*count;
}

static void play(struct store *s, char kind, const struct work *w, struct work *left, size_t *count) {
  size_t place = 0;
  while (place < *count && left[place].number != w->number) place++;
  if (kind == REDO_ONE) redo_apply(s, w);
  else if (kind == REDO_PREPARED && *count < BS_SLOTS) {
    left[*count] = *w;
    left[(*count)++].is_prepared = true;
  } else if (place < *count) {
    if (kind == REDO_COMMITTED) redo_apply(s, &left[place]);
    leave(left, count, place);
  } else fail("the log of shard %u ends what it has not begun", s->shard);
}

/* A last line that is not whole was never answered for: it is cut off. */
size_t redo_replay(struct store *s, struct work *left) {
  char name[NAME], line[LINE];
  size_t count = 0;
  off_t whole = 0;
  FILE *in;
  shard_file(name, s->shard, "log");
  s->log = open(name, O_RDWR | O_CREAT | O_APPEND | O_CLOEXEC, 0666);
  in = fopen(name, "re");
  if (s->log < 0 || in == NULL) fail("%s does not open", name);
  while (fgets(line, sizeof line, in) != NULL && strchr(line, '\n') != NULL) {
    struct work w;
    char kind = redo_parse(line, &w);
    whole = (off_t)ftell(in);
    if (kind == 0) fail("%s: a line that is none", name);
    play(s, kind, &w, left, &count);
  }
  fclose(in);
  if (ftruncate(s->log, whole) != 0) fail("%s: its end is not cut off", name);
  return count;
}
