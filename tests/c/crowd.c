/*
 * A crowd over one shared table: 128 threads, or 1,000 if there are slots for them, make random commands of every kind,
 * with both ways of detection and both choices of victims, and over fewer slots than there are threads.
 *
 *   crowd [ROUNDS [SECONDS [FOLDER]]]   how many transactions each thread begins, 4 if none is given; the time that a
 *                                       setting may take before it is said to hang, 20 if none is given; and a folder
 *                                       for traces
 *
 * Each call that the table makes with its manager is logged with its answer, under the latch. In the end a manager of
 * one thread is asked the same in the same order, and must answer the same. The answer of each thread must be the
 * logged one, or, if it slept or asked, the end of its wait. A transaction that holds BS_X on an account, or on a row
 * that it inserts or deletes, adds to it; only the lock protects that, and no addition may be lost. Listings of one
 * moment agree with each other.
 *
 * With a folder each table is traced, for traces.sh. Its calls are then made by the trace, and not logged.
 */
#include "served.h"

#include <sched.h>

/* ------------------------------------------------------------------------------------------------
 * What was served.
 */

enum { MOST_QUEUED = 2048 };

struct served {
  struct call call;
  bs_reply reply;
  size_t told_count;
  uint64_t told_sum; /* of all fields of the notices */
  uint64_t accepted; /* after it */
  bool has_slept;    /* a lock that was left waiting, and the answer to its thread then */
  bs_reply came;
};

/* Protected by the latch of the table. */
static struct served *log_of_calls;
static size_t log_count, log_room;

/* The last call that was served for this thread. */
static __thread size_t my_last;

/* By slot, the last call for a request that may sleep; and the last lock of a row. */
static size_t last_of[BS_SLOTS];
static struct call row_of[BS_SLOTS];

static bs_reply write_down(bs_manager *m, const struct call *call, bs_reply reply, const bs_notices *told) {
  struct served *s;
  if (log_count == log_room) {
    log_room = log_room == 0 ? 4096 : 2 * log_room;
    log_of_calls = (struct served *)realloc(log_of_calls, log_room * sizeof *log_of_calls);
    if (log_of_calls == NULL) abort();
  }
  my_last = log_count++;
  s = &log_of_calls[my_last];
  memset(s, 0, sizeof *s);
  s->call = *call;
  s->reply = reply;
  s->told_count = told == NULL ? 0 : told->count;
  s->told_sum = told == NULL ? 0 : sum_of(told);
  s->accepted = accepted_by(m);
  return reply;
}

/* The calls that the header makes in place of those of burlapslate.h. */

/* Gives the begins that the library has handed on to their threads. */
static void take_handed_on(void);

/* A call hands on begins as its last act: each is logged after it, and is not this thread's. */
static void write_down_handed_on(bs_manager *m) {
  size_t last = my_last, i;
  uint64_t accepted = accepted_by(m);
  take_handed_on();
  my_last = last;
  for (i = log_count - 1; i > last; i--) {
    log_of_calls[i].accepted = accepted;
    if (log_of_calls[i].reply.status == BS_DONE) accepted--;
  }
  log_of_calls[last].accepted = accepted;
}

static bs_reply serve(bs_manager *m, struct call call, bs_notices *told) {
  static bs_notices none; /* protected by the latch too */
  bs_reply reply = made(m, &call, told == NULL ? &none : told);
  write_down(m, &call, reply, told);
  write_down_handed_on(m);
  return reply;
}

/* The call that was just logged is the last for the request of its transaction. */
static void note_request(size_t at) {
  const struct served *s = &log_of_calls[at];
  if (s->reply.status == BS_NO_SUCH_TXN) return;
  last_of[s->call.txn.slot] = at;
  if (s->call.kind == LOCK_ROW) row_of[s->call.txn.slot] = s->call;
}

static bs_reply serve_request(bs_manager *m, struct call call, bs_notices *told) {
  bs_reply reply = serve(m, call, told);
  note_request(my_last);
  return reply;
}

/* Logs a call that the library makes for a request: it is not this thread's. */
static void write_down_for(bs_manager *m, const struct call *call, bs_reply reply, const bs_notices *told) {
  size_t last = my_last;
  write_down(m, call, reply, told);
  note_request(my_last);
  my_last = last;
}

/* What bs_call_next_waiter says of a waiter that a command continues; 0 says that its request has ended. */
enum { GIVES_BACK = 1, LOCKS_ON = 2, LOCKS_AGAIN = 3, LOCKS_ROW = 4 };

/* The command by which a waiter is continued. */
static struct call call_of_next(bs_reply next) {
  struct call call = call_of(next.count == GIVES_BACK ? UNLOCK : LOCK_PATH, next.txn, next.node);
  if (next.count == LOCKS_AGAIN || next.count == LOCKS_ROW) return row_of[next.txn.slot];
  call.mode = next.count == LOCKS_ON ? next.mode : BS_NL;
  return call;
}

static bs_reply served_go_on(bs_manager *m, bs_notices *told) {
  bs_reply next = bs_call_next_waiter(m), came = bs_call_go_on(m, told), plain = came;
  struct call call;
  if (next.status != BS_DONE || next.count == 0) return came;
  call = call_of_next(next);
  if (call.kind == UNLOCK) memset(&plain, 0, sizeof plain);
  if (came.status == BS_WAITING || came.status == BS_ON_THE_WAY) plain.mode = BS_NL;
  if (came.status == BS_ON_THE_WAY && next.count == LOCKS_ROW) plain.status = BS_NEED_PARENTS;
  if (came.status == BS_ON_THE_WAY && call.kind == LOCK_PATH && same_node(came.node, next.node)) {
    memset(&plain, 0, sizeof plain);
    plain.mode = came.mode;
  }
  plain.txn = nobody;
  plain.count = 0;
  write_down_for(m, &call, plain, told);
  return came;
}

static bs_reply served_time_out(bs_manager *m, bs_txn txn, bs_notices *told) {
  bs_reply end = bs_call_time_out(m, txn, told), done;
  struct call call = call_of(CANCEL, txn, (bs_node){ 0, 0 });
  memset(&done, 0, sizeof done);
  if (end.status == BS_TIMED_OUT) write_down_for(m, &call, done, told);
  return end;
}

/* Since when the work of each begin that waits for a slot was tried, by the begin's name. */
static struct { uint64_t name, since; } queued[MOST_QUEUED];

static size_t place_of_queued(uint64_t name) {
  size_t i = 0;
  while (i < MOST_QUEUED && queued[i].name != 0 && queued[i].name != name) i++;
  if (i == MOST_QUEUED) abort();
  return i;
}

static void write_down_begin(bs_manager *m, uint64_t since, bs_reply reply) {
  struct call call = adding(since == UINT64_MAX ? BEGIN : BEGIN_AGAIN, NULL, 0);
  call.key = since == UINT64_MAX ? 0 : since;
  write_down(m, &call, reply, NULL);
}

static bs_reply served_begin_in_turn(bs_manager *m, uint64_t since, uint64_t name, uint64_t until) {
  bs_reply reply = bs_call_begin_in_turn(m, since, name, until);
  size_t place = place_of_queued(name);
  if (reply.status == BS_WAITING) queued[place].name = name, queued[place].since = since;
  else write_down_begin(m, since, reply);
  return reply;
}

static bs_reply served_begun(bs_manager *m) {
  bs_reply begun = bs_call_take_begun(m), reply = begun;
  reply.count = 0;
  if (begun.count != 0) write_down_begin(m, queued[place_of_queued(begun.count)].since, reply);
  return begun;
}

#define bs_call_begin_in_turn(m, since, name, until) served_begin_in_turn(m, since, name, until)
#define bs_call_take_begun(m) served_begun(m)
#define bs_call_go_on(m, told) served_go_on(m, told)
#define bs_call_time_out(m, txn, told) served_time_out(m, txn, told)

#include "burlapslate_rows.h"
#include "burlapslate_shared.c"
#include "threads.h"

/* ------------------------------------------------------------------------------------------------
 * The nodes: a root, two areas, four files of records with an index of three intervals each, six records in each at
 * first, and eight accounts; and four files of rows with such an index, ten rows in each, which have nodes while they
 * are locked.
 */

enum { AREAS = 2, FILES = 4, INTERVALS = 3, RECORDS = 24, ROWS = 10, ACCOUNTS = 8, WATCHERS = 2, FEW_SLOTS = 16,
       THREADS = BS_SLOTS > 1000 ? 1000 : 128 };

static bs_table *table;

/* Where traces are written; null if the tables are not traced. */
static const char *folder;

static void take_handed_on(void) {
  if (table != NULL) table_hand_on(table);
}

static bs_node root, areas[AREAS], files[FILES], indexes[FILES], intervals[FILES][INTERVALS], accounts[ACCOUNTS];
static bs_node records[RECORDS];
static bs_node row_files[FILES], row_indexes[FILES], row_intervals[FILES][INTERVALS];
/* Protects records, the indexes of rows and their intervals, and the transactions that anybody may end. */
static pthread_mutex_t names = PTHREAD_MUTEX_INITIALIZER;
static bs_txn free_game[THREADS];
static long added[ACCOUNTS];      /* by the holder of the account in X */
static long changed[FILES][ROWS]; /* the same of rows, each inserted or not */
static bool is_over;              /* for the watchers, protected by `names` */

static const uint64_t bounds[INTERVALS - 1] = { 100, 200 };

/* From now on this is the index of a file of rows. */
static void name_row_index(size_t i, bs_node index) {
  size_t j;
  pthread_mutex_lock(&names);
  row_indexes[i] = index;
  for (j = 0; j < INTERVALS; j++) row_intervals[i][j] = DONE(ASK(table, bs_interval, index, j)).node;
  pthread_mutex_unlock(&names);
}

static bs_node row_index(size_t i) {
  bs_node index;
  pthread_mutex_lock(&names);
  index = row_indexes[i];
  pthread_mutex_unlock(&names);
  return index;
}

static bs_node row_interval(size_t i, size_t place) {
  bs_node interval;
  pthread_mutex_lock(&names);
  interval = row_intervals[i][place];
  pthread_mutex_unlock(&names);
  return interval;
}

static void make_row_file(size_t i) {
  bs_node area = areas[i % AREAS];
  row_files[i] = DONE(bs_table_add_row_file(table, &area, 1)).node;
  name_row_index(i, DONE(bs_table_add_index(table, &area, 1, row_files[i], bounds, INTERVALS - 1)).node);
}

static void make_file(size_t i) {
  bs_node area = areas[i % AREAS];
  bs_txn t = DONE(bs_table_begin(table)).txn;
  size_t j;
  files[i] = DONE(bs_table_add_file(table, &area, 1)).node;
  indexes[i] = DONE(bs_table_add_index(table, &area, 1, files[i], bounds, INTERVALS - 1)).node;
  for (j = 0; j < INTERVALS; j++) {
    intervals[i][j] = DONE(ASK(table, bs_interval, indexes[i], j)).node;
    DONE(bs_table_lock_path(table, t, intervals[i][j], BS_IX, NULL));
  }
  DONE(bs_table_lock_path(table, t, files[i], BS_IX, NULL));
  for (j = i; j < RECORDS; j += FILES) {
    uint64_t key = j * 11;
    records[j] = DONE(bs_table_insert(table, t, files[i], &key, 1)).node;
  }
  DONE(bs_table_commit(table, t, NULL));
}

static void begin_trace(void) {
  char name[300];
  FILE *file;
  snprintf(name, sizeof name, "%s/%s.script", folder, story);
  file = fopen(name, "w");
  WANT(file != NULL);
  DONE(bs_table_trace(table, fileno(file)));
  fclose(file);
}

/* A begin that was asked for, whose thread waits for its end without the table. */
struct asked_begin {
  pthread_mutex_t latch;
  pthread_cond_t came;
  bool has_come;
  bs_reply end;
};

static void hear_begin(void *context, bs_txn txn, bs_reply end, void *word) {
  struct asked_begin *own = (struct asked_begin *)word;
  WANT(context == NULL && same_txn(txn, end.txn));
  pthread_mutex_lock(&own->latch);
  WANT(!own->has_come);
  own->has_come = true;
  own->end = end;
  pthread_cond_signal(&own->came);
  pthread_mutex_unlock(&own->latch);
}

static bs_reply ask_begin(uint64_t since) {
  struct asked_begin own;
  bs_reply reply;
  pthread_mutex_init(&own.latch, NULL);
  pthread_cond_init(&own.came, NULL);
  own.has_come = false;
  reply = bs_table_ask_begin_again(table, since, NULL, &own);
  pthread_mutex_lock(&own.latch);
  WANT(reply.status == BS_WAITING || !own.has_come);
  while (reply.status == BS_WAITING && !own.has_come) pthread_cond_wait(&own.came, &own.latch);
  if (own.has_come) reply = own.end;
  pthread_mutex_unlock(&own.latch);
  pthread_cond_destroy(&own.came);
  pthread_mutex_destroy(&own.latch);
  return reply;
}

static void set_up(uint32_t detect, uint32_t victims, uint32_t most) {
  size_t i;
  log_count = 0;
  memset(added, 0, sizeof added);
  memset(changed, 0, sizeof changed);
  memset(free_game, 0, sizeof free_game);
  is_over = false;
  DONE(make_table(&table, detect, victims, most));
  DONE(bs_table_on_end(table, hear_begin, NULL));
  if (folder != NULL) begin_trace();
  root = DONE(bs_table_add_inner(table, NULL, 0)).node;
  for (i = 0; i < AREAS; i++) areas[i] = DONE(bs_table_add_inner(table, &root, 1)).node;
  for (i = 0; i < FILES; i++) make_file(i);
  for (i = 0; i < FILES; i++) make_row_file(i);
  for (i = 0; i < ACCOUNTS; i++) accounts[i] = DONE(bs_table_add_inner(table, &root, 1)).node;
  if (detect == BS_BY_WATCHER) DONE(bs_table_watch_thread(table, 0));
}

/* ------------------------------------------------------------------------------------------------
 * A session.
 */

struct session {
  size_t number;
  uint64_t dice;
  bs_txn txn;
  uint64_t since; /* of work whose transaction was a victim, its first begin; else 0 */
  bool is_game;   /* anybody may end its transaction */
  long adds[ACCOUNTS], changes[FILES][ROWS], victims, slept, late, others, indexes;
  pthread_t thread;
};

static size_t pick(struct session *s, size_t sides) {
  return (size_t)roll(&s->dice, sides);
}

static bs_node any_record(struct session *s) {
  bs_node record;
  pthread_mutex_lock(&names);
  record = records[pick(s, RECORDS)];
  pthread_mutex_unlock(&names);
  return record;
}

static bs_node any_node(struct session *s) {
  size_t i = pick(s, FILES);
  switch (pick(s, 8)) {
    case 0: return root;
    case 1: return areas[i % AREAS];
    case 2: return pick(s, 2) == 0 ? files[i] : row_files[i];
    case 3: return indexes[i];
    case 4: return intervals[i][pick(s, INTERVALS)];
    case 5: return accounts[pick(s, ACCOUNTS)];
    default: return any_record(s);
  }
}

/* The answer of a call that cannot sleep is the logged one. */
static bs_reply as_served(bs_reply reply) {
  if (folder != NULL) return reply;
  pthread_mutex_lock(&table->latch);
  WANT(same_reply(reply, log_of_calls[my_last].reply));
  pthread_mutex_unlock(&table->latch);
  return reply;
}

static bool is_begin(const struct call *call) {
  return call->kind == BEGIN || call->kind == BEGIN_AGAIN;
}

/* A begin may have been served in another thread. */
static bs_reply as_begun(bs_reply reply) {
  size_t i;
  if (folder != NULL) return reply;
  pthread_mutex_lock(&table->latch);
  i = log_count;
  while (i > 0 && !(is_begin(&log_of_calls[i - 1].call) && same_reply(reply, log_of_calls[i - 1].reply))) i--;
  WANT(i > 0);
  pthread_mutex_unlock(&table->latch);
  return reply;
}

/* The same of a request; if it slept, or the library went on with it, by the last call for it. If that left it waiting,
 * its end is noted; if its time was over, that is a cancel. Another may have ended its transaction meanwhile, and the slot
 * has begun a next one. */
static bs_reply as_slept(struct session *s, bs_reply reply) {
  struct served *last;
  if (folder != NULL) return reply;
  pthread_mutex_lock(&table->latch);
  last = &log_of_calls[my_last];
  s->slept += last->reply.status == BS_WAITING;
  if (last->reply.status == BS_WAITING || last->reply.status == BS_NEED_PARENTS) {
    last = &log_of_calls[last_of[s->txn.slot]];
  }
  if (!same_txn(last->call.txn, s->txn)) WANT(s->is_game);
  else if (last->call.kind == CANCEL) WANT(reply.status == BS_TIMED_OUT);
  else if (last->reply.status == BS_WAITING) last->has_slept = true, last->came = reply;
  else WANT(same_reply(reply, last->reply));
  if (reply.status == BS_TIMED_OUT) s->late++;
  pthread_mutex_unlock(&table->latch);
  return reply;
}

static bs_reply ask(struct session *s, bs_node node, bs_mode mode) {
  struct timespec until = moment_in(200 + (long)pick(s, 2000));
  return as_slept(s, bs_table_lock(table, s->txn, node, mode, pick(s, 4) == 0 ? &until : NULL));
}

static bs_reply ask_path(struct session *s, bs_node node, bs_mode mode) {
  struct timespec until = moment_in(200 + (long)pick(s, 4000));
  return as_slept(s, bs_table_lock_path(table, s->txn, node, mode, pick(s, 4) == 0 ? &until : NULL));
}

/* Locks what is needed above a row with this key, and then the row; if its node has another key, also what is missing
 * above that. It makes one call for all, or one for each. */
static bs_reply ask_row_by(struct session *s, size_t i, uint64_t row, uint64_t key, bs_mode mode) {
  struct timespec until = moment_in(200 + (long)pick(s, 2000));
  const struct timespec *limit = pick(s, 4) == 0 ? &until : NULL;
  size_t place = key / 100 < INTERVALS ? key / 100 : INTERVALS - 1;
  bs_reply reply;
  if (pick(s, 2) == 0) return as_slept(s, bs_table_lock_row_path(table, s->txn, row_files[i], row, &key, 1, mode, limit));
  reply = ask_path(s, row_interval(i, place), BS_IX);
  if (reply.status == BS_DONE) reply = ask_path(s, row_files[i], BS_IX);
  while (reply.status == BS_DONE) {
    reply = as_slept(s, bs_table_lock_row(table, s->txn, row_files[i], row, &key, 1, mode, limit));
    if (reply.status != BS_NEED_PARENTS) return reply;
    reply = ask_path(s, reply.node, BS_IX);
  }
  return reply;
}

/* A row that is held in X is inserted, or deleted, unless others may end the transaction meanwhile. */
static void change(struct session *s, size_t i, uint64_t row) {
  long before;
  if (s->is_game) return;
  before = changed[i][row];
  sched_yield();
  changed[i][row] = before + 1;
  s->changes[i][row]++;
}

/* Locks a row by its number, with one of two keys. If its node has the other one the row is rekeyed, or released if it
 * is held to read. */
static bs_reply ask_row(struct session *s, bs_mode mode) {
  size_t i = pick(s, FILES);
  uint64_t row = pick(s, ROWS), key = row * 29 + (pick(s, 3) == 0 ? 100 : 0);
  bs_reply reply = ask_row_by(s, i, row, key, mode);
  if ((reply.status == BS_DONE || reply.status == BS_OTHER_KEYS) && reply.mode == BS_X) change(s, i, row);
  if (reply.status != BS_OTHER_KEYS) return reply;
  s->others++;
  if (reply.mode == BS_S) return as_served(bs_table_unlock_row(table, s->txn, row_files[i], row, NULL));
  return as_served(bs_table_rekey_row(table, s->txn, row_files[i], row, row_index(i), key, NULL));
}

static bs_mode any_mode(struct session *s) {
  static const bs_mode modes[] = { BS_IS, BS_IS, BS_IX, BS_IX, BS_S, BS_S, BS_SIX, BS_X };
  return modes[pick(s, 8)];
}

/* Adds to an account under X, unless others may end the transaction meanwhile. */
static bs_reply add(struct session *s) {
  size_t i = pick(s, ACCOUNTS);
  bs_reply reply = ask_path(s, accounts[i], BS_X);
  if (reply.status == BS_DONE && !s->is_game) {
    long before = added[i];
    sched_yield();
    added[i] = before + 1;
    s->adds[i]++;
  }
  return reply;
}

/* A new record replaces another in the list of names, which may live on. */
static bs_reply insert(struct session *s) {
  size_t i = pick(s, FILES), place = pick(s, INTERVALS);
  uint64_t key = place * 100 + pick(s, 100);
  bs_reply reply = ask_path(s, intervals[i][place], BS_IX);
  if (reply.status == BS_DONE) reply = ask_path(s, files[i], BS_IX);
  if (reply.status != BS_DONE) return reply;
  reply = as_served(bs_table_insert(table, s->txn, files[i], &key, 1));
  if (reply.status != BS_DONE) return reply;
  pthread_mutex_lock(&names);
  records[pick(s, RECORDS)] = reply.node;
  pthread_mutex_unlock(&names);
  return reply;
}

static bs_reply remove_record(struct session *s) {
  bs_node record = any_record(s);
  bs_reply reply = ask_path(s, record, BS_X);
  return reply.status == BS_DONE ? as_served(bs_table_delete(table, s->txn, record, NULL)) : reply;
}

static bs_reply rekey(struct session *s) {
  size_t i = pick(s, FILES), place = pick(s, INTERVALS);
  bs_node record = any_record(s);
  bs_reply reply = ask_path(s, record, BS_X);
  if (reply.status == BS_DONE) reply = ask_path(s, intervals[i][place], BS_IX);
  if (reply.status != BS_DONE) return reply;
  return as_served(bs_table_rekey(table, s->txn, record, indexes[i], place * 100, NULL));
}

static bs_reply move(struct session *s) {
  bs_node file = files[pick(s, FILES)], area = areas[pick(s, AREAS)];
  bs_reply reply = ask_path(s, file, BS_X);
  if (reply.status == BS_DONE) reply = ask_path(s, area, BS_IX);
  return reply.status == BS_DONE ? as_served(bs_table_move(table, s->txn, file, &area, 1, NULL)) : reply;
}

/* Drops the index of a file of rows and makes another, if no row has a node. */
static bs_reply change_index(struct session *s) {
  size_t i = pick(s, FILES), count;
  bs_node area = areas[i % AREAS], index = row_index(i);
  bs_command list[2];
  bs_reply reply = ask_path(s, index, BS_X);
  if (reply.status == BS_DONE) reply = ask_path(s, row_files[i], BS_X);
  if (reply.status != BS_DONE) return reply;
  list[0] = (bs_command){ .kind = BS_DO_INDEX_BY, .txn = s->txn, .parents = &area, .parent_count = 1,
                          .file = row_files[i], .bounds = bounds, .bound_count = INTERVALS - 1 };
  list[1] = bs_do_at(BS_DO_DROP, s->txn, index, BS_NL);
  count = bs_table_run(table, list, 2);
  if (count < 2) return as_served(list[count].reply);
  reply = as_served(list[1].reply);
  s->indexes++;
  name_row_index(i, list[0].reply.node);
  return reply;
}

/* Ends or cancels a transaction that anybody may end. */
static bs_reply meddle(struct session *s) {
  bs_txn whom;
  pthread_mutex_lock(&names);
  whom = free_game[pick(s, THREADS)];
  pthread_mutex_unlock(&names);
  switch (pick(s, 6)) {
    case 0: case 1: return as_served(bs_table_abort(table, whom, NULL));
    default: return as_served(bs_table_cancel(table, whom, NULL));
  }
}

/* Several commands in one critical section; one that waits is awaited, unless that ends within the section. */
static bs_reply run_list(struct session *s) {
  bs_command list[3];
  size_t i, count;
  for (i = 0; i < 3; i++) list[i] = bs_do_at(BS_DO_LOCK, s->txn, i == 0 ? root : areas[i - 1], i == 2 ? BS_IX : BS_IS);
  if (pick(s, 2) == 0) list[2] = bs_do(BS_DO_SETTLE, s->txn);
  count = bs_table_run(table, list, 3);
  if (count == 3) return as_slept(s, list[2].reply);
  if (list[count].reply.status != BS_WAITING) return as_slept(s, list[count].reply);
  return as_slept(s, bs_table_await(table, s->txn, list[count].node, list[count].mode, NULL));
}

/* A path and a row in one critical section; what waits is awaited, and the list continues. */
static bs_reply run_rows(struct session *s) {
  size_t i = pick(s, FILES), done = 0;
  uint64_t row = pick(s, ROWS), key = row * 29;
  bs_mode mode = pick(s, 2) == 0 ? BS_X : BS_S;
  bs_command list[3];
  bs_reply reply;
  list[0] = bs_do_at(BS_DO_LOCK_PATH, s->txn, row_interval(i, key / 100), BS_IX);
  list[1] = bs_do_at(BS_DO_LOCK_PATH, s->txn, row_files[i], BS_IX);
  list[2] = bs_do(BS_DO_LOCK_ROW, s->txn);
  list[2].file = row_files[i];
  list[2].number = row;
  list[2].keys = &key;
  list[2].key_count = 1;
  list[2].mode = mode;
  for (;;) {
    done += bs_table_run(table, list + done, 3 - done);
    reply = list[done < 3 ? done : 2].reply;
    if (reply.status != BS_WAITING) break;
    reply = as_slept(s, bs_table_await(table, s->txn, reply.node, reply.mode, NULL));
    if (reply.status != BS_DONE) return reply;
  }
  as_slept(s, reply);
  if (done >= 2 && (reply.status == BS_DONE || reply.status == BS_OTHER_KEYS) && reply.mode == BS_X) change(s, i, row);
  return reply;
}

/* A try never waits, and makes no victim. */
static bs_reply as_tried(bs_reply reply) {
  WANT(reply.status != BS_WAITING && reply.status != BS_VICTIM && reply.status != BS_ON_THE_WAY);
  return as_served(reply);
}

static bs_reply try_path(struct session *s) {
  bs_node node = pick(s, 2) == 0 ? any_record(s) : any_node(s);
  bs_mode mode = pick(s, 2) == 0 ? BS_X : any_mode(s);
  return as_tried(bs_table_try_path(table, s->txn, node, mode, (uint32_t)pick(s, 2)));
}

/* The first free row of three, in one file. */
static bs_reply skip_rows(struct session *s) {
  size_t i = pick(s, FILES), place;
  uint64_t keys[3], key = pick(s, 100);
  bs_command list[3];
  bool is_path = pick(s, 2) == 0;
  bs_reply reply;
  memset(&reply, 0, sizeof reply);
  if (!is_path) reply = ask_path(s, row_interval(i, 0), BS_IX);
  if (!is_path && reply.status == BS_DONE) reply = ask_path(s, row_files[i], BS_IX);
  if (reply.status != BS_DONE) return reply;
  for (place = 0; place < 3; place++) {
    keys[place] = key;
    list[place] = bs_do(is_path ? BS_DO_TRY_ROW_PATH : BS_DO_TRY_ROW, s->txn);
    list[place].keep = BS_KEEP_WAY;
    list[place].file = row_files[i];
    list[place].number = pick(s, ROWS);
    list[place].keys = &keys[place];
    list[place].key_count = 1;
    list[place].mode = BS_X;
  }
  place = bs_table_try_first(table, list, 3);
  if (place == 3) return as_tried(list[2].reply);
  reply = as_tried(list[place].reply);
  if (reply.status == BS_DONE || reply.status == BS_OTHER_KEYS) change(s, i, list[place].number);
  return reply;
}

/* How often a transaction is in a queue. */
static size_t times_in_queue(const bs_manager *m, bs_txn txn, bs_node node) {
  bs_reply waiter;
  size_t place, times = 0;
  for (place = 0; (waiter = bs_queue_at(m, node, place)).status == BS_DONE; place++) {
    if (same_txn(waiter.txn, txn)) times++;
  }
  WANT(place == bs_queue_len(m, node).count);
  return times;
}

/* The listings of one transaction agree with each other. */
static void audit_one(const bs_manager *m, bs_txn txn, const bs_board *board) {
  bs_reply doing = DONE(bs_doing(m, txn)), row;
  bs_slots behind = bs_waits_for(m, txn).slots;
  size_t place;
  for (place = 0; (row = bs_lock_at(m, txn, place)).status == BS_DONE; place++) {
    bool waits = doing.count == BS_WAITS && same_node(doing.node, row.node);
    WANT(bs_held(m, txn, row.node).mode == row.mode && (row.mode != BS_NL || waits));
    WANT(row.wanted == (waits ? doing.mode : BS_NL));
    WANT(bs_has(bs_holders(m, row.node).slots, txn.slot) == (row.mode != BS_NL));
    WANT(row.mode == BS_NL || bs_children(m, txn, row.node).count == row.count);
    WANT(times_in_queue(m, txn, row.node) == (waits ? 1 : 0));
  }
  WANT(bs_lock_count(m, txn).count == place);
  WANT(same_slots(behind, board->rows[txn.slot]));
}

/* All listings, of one moment. */
static bs_reply audit(void) {
  static bs_board board; /* with the latch held */
  const bs_manager *m = bs_table_hold(table);
  bs_reply reply = DONE(bs_read_board(m, &board));
  uint32_t slot;
  for (slot = 0; slot < BS_SLOTS; slot++) {
    bs_reply living = bs_living(m, slot);
    WANT((living.status == BS_DONE ? living.txn.age : 0) == board.ages[slot]);
    if (living.status == BS_DONE) audit_one(m, living.txn, &board);
  }
  bs_table_let_go(table);
  return reply;
}

static bs_reply any_command(struct session *s) {
  switch (pick(s, 32)) {
    case 0: return ask(s, any_node(s), any_mode(s));
    case 1: return as_served(bs_table_try(table, s->txn, any_node(s), any_mode(s)));
    case 2: return as_served(bs_table_unlock(table, s->txn, any_node(s), NULL));
    case 3: return as_served(bs_table_escalate(table, s->txn, any_node(s), NULL));
    case 4: return as_served(bs_table_settle(table, s->txn, NULL));
    case 5: case 6: return insert(s);
    case 7: return remove_record(s);
    case 8: return rekey(s);
    case 9: return move(s);
    case 10: return meddle(s);
    case 11: return run_list(s);
    case 12: case 13: case 14: return ask_path(s, any_record(s), BS_S);
    case 15: case 16: return ask_path(s, any_record(s), BS_X);
    case 17: return ask_path(s, any_node(s), any_mode(s));
    case 18: return pick(s, 4) == 0 ? audit() : add(s);
    case 19: case 20: return ask_row(s, BS_X);
    case 21: case 22: return ask_row(s, BS_S);
    case 23: return as_served(bs_table_unlock_row(table, s->txn, row_files[pick(s, FILES)], pick(s, ROWS), NULL));
    case 24: return run_rows(s);
    case 25: return change_index(s);
    case 26: return try_path(s);
    case 27: case 28: return skip_rows(s);
    default: return add(s);
  }
}

static void name_game(struct session *s, bool is_game) {
  pthread_mutex_lock(&names);
  free_game[s->number] = is_game ? s->txn : nobody;
  pthread_mutex_unlock(&names);
}

/* Work whose transaction was a victim begins again, and keeps its turn. Some ask for their begins. */
static bs_txn begin_work(struct session *s) {
  if (pick(s, 3) == 0) return as_begun(DONE(ask_begin(s->since == 0 ? UINT64_MAX : s->since))).txn;
  if (s->since == 0) return as_begun(DONE(bs_table_begin_in_turn(table, NULL))).txn;
  return as_begun(DONE(bs_table_begin_again_in_turn(table, s->since, NULL))).txn;
}

static void one_transaction(struct session *s) {
  bs_status status = BS_DONE;
  size_t i, count = 1 + pick(s, 6);
  s->txn = begin_work(s);
  s->is_game = pick(s, 6) == 0;
  name_game(s, s->is_game);
  for (i = 0; i < count && status != BS_VICTIM && status != BS_TXN_CONDEMNED; i++) status = any_command(s).status;
  if (status == BS_VICTIM) s->victims++;
  if (status != BS_VICTIM) s->since = 0;
  else if (s->since == 0) s->since = s->txn.age;
  name_game(s, false);
  if (status == BS_VICTIM || pick(s, 8) == 0) status = as_served(bs_table_abort(table, s->txn, NULL)).status;
  else status = as_served(bs_table_commit(table, s->txn, NULL)).status;
  if (status == BS_TXN_CONDEMNED) status = as_served(bs_table_abort(table, s->txn, NULL)).status;
  WANT(status == BS_DONE || (status == BS_NO_SUCH_TXN && s->is_game));
}

static long rounds = 4;

static void *run_session(void *arg) {
  struct session *s = (struct session *)arg;
  long i;
  for (i = 0; i < rounds; i++) one_transaction(s);
  return NULL;
}

/* ------------------------------------------------------------------------------------------------
 * Watchers.
 */

struct looker {
  bool is_at_block;
  long looks;
  pthread_t thread;
};

static bool goes_on(void) {
  bool on;
  pthread_mutex_lock(&names);
  on = !is_over;
  pthread_mutex_unlock(&names);
  return on;
}

static bool is_sound(const bs_board *board) {
  uint32_t slot, other;
  for (slot = 0; slot < BS_SLOTS; slot++) {
    for (other = 0; other < BS_SLOTS; other++) {
      if (!bs_has(board->rows[slot], other)) continue;
      if (slot == other || board->ages[slot] == 0 || board->ages[other] == 0) return false;
    }
  }
  return true;
}

static void *look_on(void *arg) {
  struct looker *l = (struct looker *)arg;
  bs_watcher watcher = BS_NO_WATCHER_HERE;
  bs_board board;
  uint64_t epoch = 0;
  memset(&board, 0, sizeof board);
  DONE(bs_table_watch(table, &watcher));
  while (goes_on()) {
    static const bs_slots none = { { 0 } };
    bs_slots suspects;
    DONE(bs_look(&watcher, &board));
    WANT(board.epoch >= epoch && is_sound(&board));
    epoch = board.epoch;
    suspects = bs_suspects(&board).slots;
    WANT(!l->is_at_block || same_slots(suspects, none));
    l->looks++;
  }
  DONE(bs_watch_end(&watcher));
  return NULL;
}

/* ------------------------------------------------------------------------------------------------
 * The replay.
 */

/* By slot, the lock that waits. */
static size_t waiting_at[BS_SLOTS];

/* The node for which a lock waits: for a path and a row the reply names it. */
static bs_node awaited(const struct served *s) {
  return s->call.kind == LOCK_PATH || s->call.kind == LOCK_ROW ? s->reply.node : s->call.node;
}

/* Compares the end of a lock with its notice; or its transaction was ended before its thread looked. */
static void compare_end(const bs_notice *n) {
  static const bs_status ends[] = { BS_DONE, BS_DONE, BS_VICTIM, BS_MOVED, BS_GONE };
  const struct served *s = &log_of_calls[waiting_at[n->txn.slot]];
  if (!s->has_slept) return; /* A path that began again, or a wait that was cancelled later. */
  if (s->came.status == BS_NO_SUCH_TXN) return;
  WANT(s->came.status == ends[n->kind]);
  if (n->kind == BS_TOLD_GRANTED) WANT(s->came.mode == n->mode && same_node(awaited(s), n->node));
}

static void compare_named(const struct call *call) {
  const struct served *s = &log_of_calls[waiting_at[call->txn.slot]];
  bool is_cancel = call->kind == CANCEL;
  if (!s->has_slept || !same_txn(s->call.txn, call->txn)) return;
  WANT(s->came.status == BS_NO_SUCH_TXN || (is_cancel && s->came.status == BS_NOT_WAITING));
}

static void replay_one(bs_manager *m, size_t at, bs_notices *told) {
  const struct served *s = &log_of_calls[at];
  bool is_by_txn = s->call.kind <= INDEX_BY && !is_begin(&s->call);
  bool was_waiting = is_by_txn && wait_of(m, s->call.txn).status == BS_WAITING;
  bs_reply reply = made(m, &s->call, told);
  size_t i;
  WANT(same_reply(reply, s->reply));
  WANT(told->count == s->told_count && (told->count == 0 || sum_of(told) == s->told_sum));
  WANT(accepted_by(m) == s->accepted);
  if (reply.status == BS_WAITING) waiting_at[s->call.txn.slot] = at;
  for (i = 0; i < told->count; i++) compare_end(&told->at[i]);
  if (reply.status != BS_DONE || !was_waiting) return;
  if (s->call.kind >= CANCEL && s->call.kind <= ABORT) compare_named(&s->call);
}

/* After all sessions: a manager of one thread, asked the same, is the same. */
static void replay(uint32_t detect, uint32_t victims, uint32_t most) {
  static bs_notices told;
  static bs_board ours, theirs;
  bs_manager m = BS_NO_MANAGER_HERE;
  bs_counts counts, their_counts;
  bs_options options;
  size_t i;
  memset(&counts, 0, sizeof counts);
  memset(&their_counts, 0, sizeof their_counts);
  options = options_of(detect, victims, most);
  DONE(bs_make(&m, &options));
  for (i = 0; i < log_count; i++) replay_one(&m, i, &told);
  DONE(ASK(table, bs_read_board, &ours));
  DONE(bs_read_board(&m, &theirs));
  WANT(memcmp(&ours, &theirs, sizeof ours) == 0);
  DONE(ASK(table, bs_counters, &counts));
  DONE(bs_counters(&m, &their_counts));
  WANT(memcmp(&counts, &their_counts, sizeof counts) == 0);
  for (i = 0; i < BS_SLOTS; i++) WANT(ours.ages[i] == 0);
  DONE(bs_end(&m));
}

/* No addition may be lost. */
static void compare_additions(const struct session *sessions) {
  size_t i, j, row;
  for (i = 0; i < ACCOUNTS; i++) {
    long sum = 0;
    for (j = 0; j < THREADS; j++) sum += sessions[j].adds[i];
    WANT(sum == added[i]);
  }
  for (i = 0; i < FILES; i++) {
    for (row = 0; row < ROWS; row++) {
      long sum = 0;
      for (j = 0; j < THREADS; j++) sum += sessions[j].changes[i][row];
      WANT(sum == changed[i][row]);
    }
  }
}

static void crowd(const char *name, uint32_t detect, uint32_t victims, uint32_t most, unsigned patience) {
  static struct session sessions[THREADS];
  struct looker lookers[WATCHERS];
  long times_victim = 0, slept = 0, late = 0, others = 0, changed_indexes = 0, looks = 0;
  size_t i;
  story = name;
  feed(patience);
  set_up(detect, victims, most);
  memset(sessions, 0, sizeof sessions);
  memset(lookers, 0, sizeof lookers);
  for (i = 0; i < WATCHERS; i++) {
    lookers[i].is_at_block = detect == BS_AT_BLOCK;
    start(&lookers[i].thread, look_on, &lookers[i]);
  }
  for (i = 0; i < THREADS; i++) {
    sessions[i].number = i;
    sessions[i].dice = UINT64_C(0x9e3779b97f4a7c15) * (i + 1);
    start(&sessions[i].thread, run_session, &sessions[i]);
  }
  for (i = 0; i < THREADS; i++) join(sessions[i].thread);
  pthread_mutex_lock(&names);
  is_over = true;
  pthread_mutex_unlock(&names);
  for (i = 0; i < WATCHERS; i++) join(lookers[i].thread);
  for (i = 0; i < WATCHERS; i++) looks += lookers[i].looks;
  for (i = 0; i < THREADS; i++) {
    times_victim += sessions[i].victims;
    slept += sessions[i].slept;
    late += sessions[i].late;
    others += sessions[i].others;
    changed_indexes += sessions[i].indexes;
  }
  if (folder == NULL) replay(detect, victims, most);
  compare_additions(sessions);
  if (folder != NULL) WANT(DONE(bs_table_trace_end(table)).count == 0);
  DONE(bs_table_end(table));
  DONE(bs_table_free(&table));
  fprintf(stderr, "%s: %lu calls, %ld sleeps, %ld too late, %ld victims, %ld other keys, %ld new indexes, %ld looks\n",
          name, (unsigned long)log_count, slept, late, times_victim, others, changed_indexes, looks);
  printf("%s\n", name);
}

int main(int count, char **words) {
  unsigned patience = count > 2 ? (unsigned)atoi(words[2]) : 20;
  setvbuf(stdout, NULL, _IONBF, 0);
  if (count > 1) rounds = atol(words[1]);
  if (count > 3) folder = words[3];
  crowd("a_crowd_at_block_the_youngest", BS_AT_BLOCK, BS_YOUNGEST, BS_SLOTS, patience);
  crowd("a_crowd_at_block_the_fewest", BS_AT_BLOCK, BS_FEWEST, BS_SLOTS, patience);
  crowd("a_crowd_by_watcher_the_youngest", BS_BY_WATCHER, BS_YOUNGEST, BS_SLOTS, patience);
  crowd("a_crowd_by_watcher_the_fewest", BS_BY_WATCHER, BS_FEWEST, BS_SLOTS, patience);
  crowd("a_crowd_over_fewer_slots", BS_AT_BLOCK, BS_YOUNGEST, FEW_SLOTS, patience);
  free(log_of_calls);
  return 0;
}
