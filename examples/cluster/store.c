#include "store.h"

#include "fail.h"
#include "redo.h"

#include <inttypes.h>

/* How many milliseconds a wait lasts at most. It is for waits on those who do not wait for locks, and ends no deadlock. */
enum { PATIENCE = 10000 };

/* The owner of what the log has left. */
enum { NOBODY = 0 };

static bs_reply must(bs_reply reply, const char *call) {
  if (reply.status != BS_DONE) fail("%s: %s", call, bs_text(reply.status));
  return reply;
}

#define MUST(call) must((call), #call)

/* With the mutex held. Null: it is unknown. */
static struct work *find(struct store *s, uint64_t number) {
  size_t slot;
  for (slot = 0; slot < BS_SLOTS && number != 0; slot++) {
    if (s->works[slot].number == number) return &s->works[slot];
  }
  return NULL;
}

static struct item *find_item(struct work *w, unsigned account) {
  size_t i;
  for (i = 0; i < w->count; i++) {
    if (w->items[i].account == account) return &w->items[i];
  }
  return NULL;
}

static struct account *account_of(struct store *s, unsigned account) {
  return &s->accounts[account % ACCOUNTS_EACH];
}

/* ------------------------------------------------------------------------------------------------
 * A shard starts.
 */

static void make_locks(struct store *s) {
  static const bs_watcher blind = BS_NO_WATCHER_HERE;
  bs_node root, file;
  size_t i;
  s->eye = blind;
  MUST(bs_table_make(&s->locks, NULL));
  root = MUST(bs_table_add_inner(s->locks, NULL, 0)).node;
  file = MUST(bs_table_add_file(s->locks, &root, 1)).node;
  for (i = 0; i < ACCOUNTS_EACH; i++) s->records[i] = MUST(bs_table_adopt(s->locks, file, NULL, 0)).node;
  MUST(bs_table_watch(s->locks, &s->eye));
}

/* Before anybody else is let in: so each lock is granted at once, as all these went together before. */
static void lock_again(struct store *s, const struct work *left) {
  bs_txn name = MUST(bs_table_begin(s->locks)).txn;
  struct work *w = &s->works[name.slot];
  size_t i;
  *w = *left;
  w->name = name;
  w->owner = NOBODY;
  for (i = 0; i < w->count; i++) {
    bs_node record = s->records[w->items[i].account % ACCOUNTS_EACH];
    struct timespec now = { 0, 0 };
    MUST(bs_table_lock_path(s->locks, name, record, w->items[i].writes ? BS_X : BS_S, &now));
  }
}

void store_open(struct store *s, unsigned shard) {
  struct work left[BS_SLOTS];
  size_t i, count;
  memset(s, 0, sizeof *s);
  s->shard = shard;
  pthread_mutex_init(&s->mutex, NULL);
  make_locks(s);
  for (i = 0; i < ACCOUNTS_EACH; i++) s->accounts[i].balance = FIRST_BALANCE;
  count = redo_replay(s, left);
  for (i = 0; i < count; i++) lock_again(s, &left[i]);
}

/* ------------------------------------------------------------------------------------------------
 * A transaction at work.
 */

bool store_begin(struct store *s, uint64_t number, uint64_t owner) {
  bs_txn name = MUST(bs_table_begin_in_turn(s->locks, NULL)).txn;
  struct work w = { .number = number, .owner = owner, .name = name };
  pthread_mutex_lock(&s->mutex);
  s->works[name.slot] = w;
  pthread_mutex_unlock(&s->mutex);
  return true;
}

/* The name of a transaction that is at work and not prepared. */
static bool name_of(struct store *s, uint64_t number, bs_txn *name) {
  const struct work *w;
  bool is_at_work;
  pthread_mutex_lock(&s->mutex);
  w = find(s, number);
  is_at_work = w != NULL && !w->is_prepared;
  if (is_at_work) *name = w->name;
  pthread_mutex_unlock(&s->mutex);
  return is_at_work;
}

static bool lock(struct store *s, bs_txn name, unsigned account, bs_mode mode) {
  bs_node record = s->records[account % ACCOUNTS_EACH];
  struct timespec until = bs_after(PATIENCE);
  bs_status status = bs_table_lock_path(s->locks, name, record, mode, &until).status;
  switch (status) {
    case BS_DONE: return true;
    case BS_VICTIM: case BS_TIMED_OUT: case BS_NOT_WAITING: case BS_NO_SUCH_TXN: return false;
    default: fail("bs_table_lock_path: %s", bs_text(status));
  }
}

bool store_read(struct store *s, uint64_t number, unsigned account, bs_mode mode, struct account *seen) {
  struct work *w;
  struct item *item;
  bs_txn name;
  if (shard_of(account) != s->shard || !name_of(s, number, &name) || !lock(s, name, account, mode)) return false;
  pthread_mutex_lock(&s->mutex);
  *seen = *account_of(s, account);
  w = find(s, number);
  item = w == NULL ? NULL : find_item(w, account);
  if (item != NULL && item->writes) seen->balance = item->balance;
  if (w != NULL && item == NULL) {
    struct item read = { .account = account, .version = seen->version };
    w->items[w->count++] = read;
  }
  pthread_mutex_unlock(&s->mutex);
  return w != NULL;
}

/* In which mode a transaction holds a record. */
static bs_mode held(struct store *s, bs_txn name, bs_node record) {
  bs_mode mode = bs_held(bs_table_hold(s->locks), name, record).mode;
  bs_table_let_go(s->locks);
  return mode;
}

bool store_write(struct store *s, uint64_t number, unsigned account, int64_t balance) {
  bs_txn name;
  struct item *item = NULL;
  if (!name_of(s, number, &name)) return false;
  if (held(s, name, s->records[account % ACCOUNTS_EACH]) != BS_X) return false;
  pthread_mutex_lock(&s->mutex);
  if (find(s, number) != NULL) item = find_item(find(s, number), account);
  if (item != NULL) {
    item->writes = true;
    item->balance = balance;
  }
  pthread_mutex_unlock(&s->mutex);
  return item != NULL;
}

/* ------------------------------------------------------------------------------------------------
 * Its end.
 */

/* With the mutex held. The writes are made, and the place is free, before the locks are let go. */
static void end(struct store *s, struct work *w, bool commits) {
  bs_txn name = w->name;
  if (commits) redo_apply(s, w);
  w->number = 0;
  if (commits) MUST(bs_table_commit(s->locks, name, NULL));
  else MUST(bs_table_abort(s->locks, name, NULL));
}

bool store_prepare(struct store *s, uint64_t number) {
  struct work *w;
  pthread_mutex_lock(&s->mutex);
  w = find(s, number);
  if (w != NULL) {
    redo_note(s, REDO_PREPARED, w);
    w->is_prepared = true;
  }
  pthread_mutex_unlock(&s->mutex);
  return w != NULL;
}

void store_decided(struct store *s, uint64_t number, bool commits) {
  struct work *w;
  pthread_mutex_lock(&s->mutex);
  w = find(s, number);
  if (w != NULL && commits && !w->is_prepared) fail("%" PRIu64 " is to commit, and has not voted", number);
  if (w != NULL) {
    if (w->is_prepared) redo_note(s, commits ? REDO_COMMITTED : REDO_ABORTED, w);
    end(s, w, commits);
  }
  pthread_mutex_unlock(&s->mutex);
}

bool store_finish(struct store *s, uint64_t number) {
  struct work *w;
  pthread_mutex_lock(&s->mutex);
  w = find(s, number);
  if (w != NULL) {
    redo_note(s, REDO_ONE, w);
    end(s, w, true);
  }
  pthread_mutex_unlock(&s->mutex);
  return w != NULL;
}

size_t store_in_doubt(struct store *s, uint64_t *numbers) {
  size_t slot, count = 0;
  pthread_mutex_lock(&s->mutex);
  for (slot = 0; slot < BS_SLOTS; slot++) {
    const struct work *w = &s->works[slot];
    if (w->number != 0 && w->is_prepared && w->owner == NOBODY) numbers[count++] = w->number;
  }
  pthread_mutex_unlock(&s->mutex);
  return count;
}

void store_lose(struct store *s, uint64_t owner) {
  size_t slot;
  pthread_mutex_lock(&s->mutex);
  for (slot = 0; slot < BS_SLOTS; slot++) {
    struct work *w = &s->works[slot];
    if (w->number == 0 || w->owner != owner) continue;
    if (w->is_prepared) w->owner = NOBODY;
    else end(s, w, false);
  }
  pthread_mutex_unlock(&s->mutex);
}

/* ------------------------------------------------------------------------------------------------
 * Who waits for whom, and what there is.
 */

bool store_cancel(struct store *s, uint64_t number) {
  bs_txn name;
  return name_of(s, number, &name) && bs_table_cancel(s->locks, name, NULL).status == BS_DONE;
}

/* The number of the transaction that a board shows in a slot; 0: it has ended since. */
static uint64_t number_at(const struct store *s, const bs_board *board, uint32_t slot) {
  const struct work *w = &s->works[slot];
  return w->name.age == board->ages[slot] ? w->number : 0;
}

/* A wait that finds no room on the line is told another time. */
static void add_row(const struct store *s, const bs_board *board, uint32_t slot, char *line) {
  uint64_t waiter = number_at(s, board, slot);
  uint32_t other;
  for (other = 0; other < BS_SLOTS && waiter != 0; other++) {
    uint64_t holder = bs_has(board->rows[slot], other) ? number_at(s, board, other) : 0;
    size_t length = strlen(line);
    if (holder == 0 || length + 48 > LINE) continue;
    snprintf(line + length, LINE - length, "%s%" PRIu64 ">%" PRIu64, length == 0 ? "" : " ", waiter, holder);
  }
}

void store_board(struct store *s, char *line) {
  bs_board board;
  uint32_t slot;
  line[0] = '\0';
  pthread_mutex_lock(&s->mutex);
  MUST(bs_look(&s->eye, &board));
  for (slot = 0; slot < BS_SLOTS; slot++) add_row(s, &board, slot, line);
  pthread_mutex_unlock(&s->mutex);
}

void store_list(struct store *s, char *line) {
  size_t i, length = 0;
  pthread_mutex_lock(&s->mutex);
  for (i = 0; i < ACCOUNTS_EACH; i++) {
    const struct account *a = &s->accounts[i];
    length += (size_t)snprintf(line + length, LINE - length, "%s%" PRId64 " %" PRIu64, i == 0 ? "" : " ", a->balance,
                               a->version);
  }
  pthread_mutex_unlock(&s->mutex);
}
