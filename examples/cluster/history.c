/*
 * The checker of histories, as a program of its own over the files of a run that has ended, in the working folder:
 *
 *   history
 *
 * It reads the log of each shard, `acknowledged`, `balances`, and `decided`, the words of the log of decisions. It
 * looks whether
 *
 *   - nobody is in doubt any more, and each transaction is committed in all of its shards or in none;
 *   - one that is committed over several shards was decided so, and no other was;
 *   - each that a client was told is committed is, in as many shards as took part;
 *   - the versions of each account are one chain, and each that was read was written;
 *   - no transaction makes or takes money, and each shard has at the end what its log comes to;
 *   - the graph of transactions has no cycle: who wrote a version comes before who read it, and both come before who
 *     wrote the next.
 *
 * Status 0: all is so; 1: something is not, and standard error says what.
 */
#include "fail.h"
#include "redo.h"

#include <inttypes.h>

enum { MOST_TXNS = 4096, MOST_VERSIONS = 4096, MOST_ITEMS = ACCOUNTS };

/* One transaction, by what all shards say of it. */
struct deed {
  uint64_t number;
  unsigned prepared, committed, aborted; /* in how many shards */
  size_t count;
  struct item items[MOST_ITEMS];
  bool is_decided;
  enum { NEW, ON_THE_PATH, CLEARED } mark; /* of the search for cycles */
};

static struct deed deeds[MOST_TXNS];
static size_t deed_count;

/* By account and version: who wrote it, and what. The first version was written by nobody. */
static struct deed *writers[ACCOUNTS][MOST_VERSIONS];
static int64_t balances[ACCOUNTS][MOST_VERSIONS];
static uint64_t last_version[ACCOUNTS];

static struct deed *deed_of(uint64_t number) {
  size_t i = 0;
  while (i < deed_count && deeds[i].number != number) i++;
  if (i == MOST_TXNS) fail("too many transactions");
  if (i == deed_count) deeds[deed_count++].number = number;
  return &deeds[i];
}

static bool is_committed(const struct deed *d) {
  return d->committed > 0;
}

/* ------------------------------------------------------------------------------------------------
 * The logs are read.
 */

static void add_items(struct deed *d, unsigned shard, const struct work *w) {
  size_t i;
  for (i = 0; i < w->count; i++) {
    const struct item *item = &w->items[i];
    if (item->account >= ACCOUNTS) fail("no account %u", item->account);
    if (shard_of(item->account) != shard) fail("account %u in shard %u", item->account, shard);
    if (item->version + 1 >= MOST_VERSIONS) fail("too many versions");
    if (d->count == MOST_ITEMS) fail("%" PRIu64 " has too many items", d->number);
    d->items[d->count++] = *item;
  }
}

static void read_log(unsigned shard) {
  char name[NAME], line[LINE];
  FILE *in;
  shard_file(name, shard, "log");
  in = fopen(name, "r");
  if (in == NULL) fail("%s does not open", name);
  while (fgets(line, sizeof line, in) != NULL) {
    struct work w;
    char kind = redo_parse(line, &w);
    struct deed *d = deed_of(w.number);
    add_items(d, shard, &w);
    if (kind == REDO_PREPARED) d->prepared++;
    if (kind == REDO_COMMITTED || kind == REDO_ONE) d->committed++;
    if (kind == REDO_ABORTED) d->aborted++;
  }
  fclose(in);
}

/* ------------------------------------------------------------------------------------------------
 * Each transaction is whole.
 */

static void check_ends(void) {
  size_t i;
  for (i = 0; i < deed_count; i++) {
    const struct deed *d = &deeds[i];
    if (is_committed(d) && d->aborted > 0) fail("split: %" PRIu64 " is committed here and aborted there", d->number);
    if (d->prepared > 0 && d->prepared != d->committed + d->aborted) fail("in doubt: %" PRIu64, d->number);
  }
}

static void check_decisions(void) {
  FILE *in = fopen("decided", "r");
  uint64_t number;
  char word[16];
  size_t i;
  if (in == NULL) fail("decided does not open");
  while (fscanf(in, "%" SCNu64 " %15s", &number, word) == 2) {
    bool commits = strcmp(word, "commit") == 0;
    if (commits != is_committed(deed_of(number))) fail("%" PRIu64 " was decided otherwise: %s", number, word);
    deed_of(number)->is_decided = commits;
  }
  fclose(in);
  for (i = 0; i < deed_count; i++) {
    const struct deed *d = &deeds[i];
    if (d->prepared > 0 && is_committed(d) && !d->is_decided) fail("undecided: %" PRIu64, d->number);
  }
}

static size_t check_acknowledged(void) {
  FILE *in = fopen("acknowledged", "r");
  uint64_t number;
  unsigned parts;
  size_t count = 0;
  if (in == NULL) fail("acknowledged does not open");
  for (; fscanf(in, "%" SCNu64 " %u", &number, &parts) == 2; count++) {
    if (deed_of(number)->committed != parts) fail("lost: %" PRIu64 " was acknowledged", number);
  }
  fclose(in);
  return count;
}

/* ------------------------------------------------------------------------------------------------
 * The versions are chains.
 */

static void note_writes(struct deed *d) {
  size_t i;
  for (i = 0; i < d->count; i++) {
    const struct item *item = &d->items[i];
    uint64_t next = item->version + 1;
    if (!item->writes) continue;
    if (writers[item->account][next] != NULL) {
      fail("lost update: %" PRIu64 " and %" PRIu64 " wrote account %u upon the same version",
           writers[item->account][next]->number, d->number, item->account);
    }
    writers[item->account][next] = d;
    balances[item->account][next] = item->balance;
    if (next > last_version[item->account]) last_version[item->account] = next;
  }
}

static void check_chains(void) {
  unsigned account;
  size_t i;
  for (account = 0; account < ACCOUNTS; account++) balances[account][0] = FIRST_BALANCE;
  for (i = 0; i < deed_count; i++) {
    if (is_committed(&deeds[i])) note_writes(&deeds[i]);
  }
  for (account = 0; account < ACCOUNTS; account++) {
    uint64_t version;
    for (version = 1; version <= last_version[account]; version++) {
      if (writers[account][version] == NULL) fail("a gap: version %" PRIu64 " of account %u", version, account);
    }
  }
}

/* What it read was there, and what it wrote comes to as much as what it wrote upon. */
static void check_money(const struct deed *d) {
  int64_t more = 0;
  size_t i;
  for (i = 0; i < d->count; i++) {
    const struct item *item = &d->items[i];
    if (item->version > last_version[item->account]) fail("%" PRIu64 " read what nobody wrote", d->number);
    if (item->writes) more += item->balance - balances[item->account][item->version];
  }
  if (more != 0) fail("%" PRIu64 " made %" PRId64 " of money", d->number, more);
}

static void check_balances(void) {
  FILE *in = fopen("balances", "r");
  unsigned account;
  int64_t balance, sum = 0;
  uint64_t version;
  if (in == NULL) fail("balances does not open");
  for (account = 0; account < ACCOUNTS; account++, sum += balance) {
    if (fscanf(in, "%" SCNd64 " %" SCNu64, &balance, &version) != 2) fail("balances ends early");
    if (version != last_version[account] || balance != balances[account][version]) {
      fail("account %u has %" PRId64 " in version %" PRIu64 ", and not by its log", account, balance, version);
    }
  }
  fclose(in);
  if (sum != (int64_t)ACCOUNTS * FIRST_BALANCE) fail("wrong sum: %" PRId64, sum);
}

/* ------------------------------------------------------------------------------------------------
 * The graph of transactions.
 */

/* Whom each transaction comes after: who wrote what it read; and of what it wrote upon, all who read that. */
static void visit(struct deed *d);

static void visit_readers(const struct deed *writer, const struct item *item) {
  size_t i, k;
  for (i = 0; i < deed_count; i++) {
    struct deed *d = &deeds[i];
    for (k = 0; k < d->count && d != writer && is_committed(d); k++) {
      if (d->items[k].account == item->account && d->items[k].version == item->version) visit(d);
    }
  }
}

static void visit(struct deed *d) {
  size_t i;
  if (d->mark == ON_THE_PATH) fail("a cycle of transactions: %" PRIu64 " is on it", d->number);
  if (d->mark == CLEARED) return;
  d->mark = ON_THE_PATH;
  for (i = 0; i < d->count; i++) {
    const struct item *item = &d->items[i];
    if (item->version > 0) visit(writers[item->account][item->version]);
    if (item->writes) visit_readers(d, item);
  }
  d->mark = CLEARED;
}

int main(void) {
  size_t i, committed = 0, acknowledged;
  unsigned shard;
  for (shard = 0; shard < SHARDS; shard++) read_log(shard);
  check_ends();
  check_decisions();
  acknowledged = check_acknowledged();
  check_chains();
  for (i = 0; i < deed_count; i++) {
    if (is_committed(&deeds[i])) check_money(&deeds[i]);
  }
  for (i = 0; i < deed_count; i++) {
    if (!is_committed(&deeds[i])) continue;
    visit(&deeds[i]);
    committed++;
  }
  check_balances();
  printf("history: %zu transactions are committed, %zu of them acknowledged, and in one order\n", committed,
         acknowledged);
  return 0;
}
