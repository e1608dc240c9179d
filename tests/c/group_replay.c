/*
 * A crowd over a group of tables: 128 threads make random commands of every kind that a group has, over 1, 4 and 16
 * parts. What they did is replayed on managers of one thread, one for each table.
 *
 *   group_replay [ROUNDS [SECONDS [SEED]]]   how many transactions each thread begins, 15 if none is given; the time
 *                                            that a setting may take before it is said to hang, 60 if none is given;
 *                                            and another seed than 1
 *
 * Each call that any table makes with its manager is logged with its answer (group_served.h). In the end the managers
 * of one thread are asked the same in the order of all calls, and must answer the same: so each command of a part is a
 * step that its manager makes alone, and nothing outside its latch had influence. After each call the laws of the whole
 * are checked (group_laws.h). The replayed managers are the same as those of the tables in the end.
 *
 * The nodes are few, so that most transactions conflict.
 */
#include "group_laws.h"

#include "pcg.h"

#include <sched.h>

/* ------------------------------------------------------------------------------------------------
 * The nodes: a base, two areas, and four files: of records in one area; of rows with an index, which is in the other
 * area; of records in both areas, which gets indexes beside its records; and a spread file. The threads make a few more
 * inner nodes, and other files, most of which they drop.
 */

enum { FEW_AREAS = 2, EACH = 8, BOUNDS = 2, MOST_INDEXES = 2, MOST_INTERVALS = 6, THREADS = 128 };
enum { PLAIN = 0, ROWS_BY_KEY = 1, CROSSED = 2, SPREAD = 3, FILES = 4 };

/* Protects the names that change. */
static pthread_mutex_t names = PTHREAD_MUTEX_INITIALIZER;
static bs_node few_files[FILES], few_records[FILES][EACH];
static bs_node row_index, crossed_indexes[MOST_INDEXES], intervals[MOST_INTERVALS];
static size_t crossed_count, interval_count, inner_count;

static const uint64_t few_bounds[BOUNDS] = { 100, 200 };

static uint32_t part_of(uint32_t file) {
  return file == SPREAD ? 0 : 1 + file % group->parts;
}

static bs_node named(const bs_node *node) {
  bs_node name;
  pthread_mutex_lock(&names);
  name = *node;
  pthread_mutex_unlock(&names);
  return name;
}

static void rename_to(bs_node *node, bs_node name) {
  pthread_mutex_lock(&names);
  *node = name;
  pthread_mutex_unlock(&names);
}

/* The names of an index's intervals, as they are now. */
static size_t read_intervals(bs_node index, bs_node *found) {
  uint32_t part = bs_group_table(index);
  bs_node there = DONE(bs_group_name_in(group, index, part)).node;
  const bs_manager *m = bs_group_hold(group, part);
  bs_reply reply;
  size_t count = 0;
  WANT(m != NULL);
  while (count < MOST_INTERVALS && (reply = bs_interval(m, there, count)).status == BS_DONE) {
    found[count++] = DONE(bs_group_name_of(group, reply.node, part)).node;
  }
  DONE(bs_group_let_go(group, part));
  return count;
}

/* From now on these are the names of the index of rows and of its intervals. */
static void name_index(bs_node index) {
  bs_node read[MOST_INTERVALS];
  size_t count = read_intervals(index, read);
  pthread_mutex_lock(&names);
  row_index = index;
  if (count > 0) memcpy(intervals, read, count * sizeof *read);
  if (count > 0) interval_count = count;
  pthread_mutex_unlock(&names);
}

static void make_records(uint32_t file) {
  bs_txn txn = note_begin(DONE(bs_group_begin(group)).txn, UINT64_MAX);
  size_t i;
  for (i = 0; i < EACH; i++) few_records[file][i] = DONE(bs_group_insert(group, txn, few_files[file], NULL, 0)).node;
  DONE(bs_group_commit(group, txn));
}

static void make_few(void) {
  size_t i;
  base = DONE(bs_group_add_inner(group, NULL, 0)).node;
  for (i = 0; i < FEW_AREAS; i++) areas[i] = DONE(bs_group_add_inner(group, &base, 1)).node;
  few_files[PLAIN] = DONE(bs_group_add_file(group, part_of(PLAIN), &areas[0], 1)).node;
  few_files[ROWS_BY_KEY] = DONE(bs_group_add_row_file(group, part_of(ROWS_BY_KEY), &areas[0], 1)).node;
  few_files[CROSSED] = DONE(bs_group_add_file(group, part_of(CROSSED), areas, 2)).node;
  few_files[SPREAD] = DONE(bs_group_add_spread_file(group, &areas[1], 1)).node;
  name_index(DONE(bs_group_add_index(group, &areas[1], 1, few_files[ROWS_BY_KEY], few_bounds, BOUNDS)).node);
  make_records(PLAIN);
  make_records(CROSSED);
  crossed_count = inner_count = 0;
}

/* ------------------------------------------------------------------------------------------------
 * A thread.
 */

struct session {
  pcg dice;
  bs_txn txn;
  uint64_t since;    /* of work whose transaction was a victim, its first begin; else UINT64_MAX */
  bs_group_savepoint savepoint;
  bool has_savepoint;
  bs_reply end;      /* of its ask */
  bool is_told;      /* atomic */
  uint64_t named_slot, named_age; /* atomic: its transaction */
  long late, asks, commits, inner, indexes, moves;
  pthread_t thread;
};

static struct session sessions[THREADS];
static bool is_over; /* atomic */

static size_t pick(struct session *s, size_t sides) {
  return pcg_below(&s->dice, sides);
}

static bs_mode any_mode(struct session *s) {
  static const bs_mode modes[] = { BS_IS, BS_IS, BS_IX, BS_IX, BS_S, BS_S, BS_SIX, BS_X };
  return modes[pick(s, 8)];
}

static bs_node any_record(struct session *s) {
  return named(&few_records[pick(s, 2) == 0 ? PLAIN : CROSSED][pick(s, EACH)]);
}

static bs_node any_interval(struct session *s) {
  bs_node interval;
  pthread_mutex_lock(&names);
  interval = intervals[pick(s, interval_count)];
  pthread_mutex_unlock(&names);
  return interval;
}

static bs_node any_part_of_spread(struct session *s) {
  return DONE(bs_group_file_of_row(group, few_files[SPREAD], pick(s, 2 * EACH))).node;
}

static bs_node any_below(struct session *s) {
  switch (pick(s, 6)) {
    case 0: return few_files[pick(s, 2) == 0 ? ROWS_BY_KEY : pick(s, SPREAD)];
    case 1: return any_part_of_spread(s);
    case 2: return pick(s, 2) == 0 ? named(&row_index) : any_interval(s);
    default: return any_record(s);
  }
}

static bs_node any_inner(struct session *s) {
  switch (pick(s, 6)) {
    case 0: return base;
    case 1: case 2: return few_files[SPREAD];
    default: return areas[pick(s, FEW_AREAS)];
  }
}

static const struct timespec *some_time(struct session *s, struct timespec *time) {
  if (pick(s, 3) == 0) return NULL;
  *time = moment_in(100 + (long)pick(s, 4000));
  return time;
}

/* The callback of the group. */
static void hear(void *context, bs_txn txn, bs_reply end, void *word) {
  struct session *s = (struct session *)word;
  WANT(context == sessions && same_txn(txn, s->txn));
  s->end = end;
  __atomic_store_n(&s->is_told, true, __ATOMIC_RELEASE);
}

static bs_reply hear_of_ask(struct session *s, bs_reply reply) {
  if (reply.status != BS_WAITING) return reply;
  s->asks++;
  while (!__atomic_load_n(&s->is_told, __ATOMIC_ACQUIRE)) nap();
  return s->end;
}

/* Runs a list, and awaits each lock that it leaves waiting. */
static bs_reply run_list(struct session *s, bs_command *list, size_t count) {
  size_t done = 0;
  bs_reply reply = bs_call_only(BS_DONE);
  struct timespec time;
  while (done < count && reply.status == BS_DONE) {
    done += bs_group_run(group, list + done, count - done);
    if (done == count) return list[count - 1].reply;
    reply = list[done].reply;
    if (reply.status != BS_WAITING) return reply;
    reply = bs_group_await(group, s->txn, some_time(s, &time));
    done++;
  }
  return reply;
}

/* Locks a node: the thread sleeps in the call, or it asks, or it runs a list. */
static bs_reply lock_node(struct session *s, bs_node node, bs_mode mode) {
  bs_command list = bs_do_at(BS_DO_LOCK_PATH, s->txn, node, mode);
  struct timespec time;
  const struct timespec *until = some_time(s, &time);
  __atomic_store_n(&s->is_told, false, __ATOMIC_RELAXED);
  switch (pick(s, 6)) {
    case 0: return bs_group_try_path(group, s->txn, node, mode & ~(bs_mode)BS_INSTANT, (uint32_t)pick(s, 2));
    case 1: return hear_of_ask(s, bs_group_ask_path(group, s->txn, node, mode, until, s));
    case 2: return run_list(s, &list, 1);
    default: return bs_group_lock_path(group, s->txn, node, mode, until);
  }
}

/* The same of a node that is no inner one, sometimes for an instant. */
static bs_reply touch_node(struct session *s, bs_node node, bs_mode mode) {
  return lock_node(s, node, pick(s, 6) == 0 ? mode | BS_INSTANT : mode);
}

/* A file of rows; or the spread file's file in a part, which names no row. */
static bs_node any_row_file(struct session *s) {
  if (pick(s, 12) == 0) return any_part_of_spread(s);
  return few_files[pick(s, 2) == 0 ? SPREAD : ROWS_BY_KEY];
}

static bs_command row_command(struct session *s, uint32_t kind, bs_node file, const uint64_t *key, bs_mode mode) {
  bs_command c = bs_do(kind, s->txn);
  c.file = file;
  c.number = pick(s, EACH);
  c.keys = key;
  c.key_count = same_node(file, few_files[ROWS_BY_KEY]) ? 1 : 0;
  c.mode = mode;
  c.keep = (uint32_t)pick(s, 2);
  return c;
}

/* Locks a row in one of these ways. If it has another key, it is rekeyed, or released if it is held to read. */
static bs_reply lock_row(struct session *s) {
  bs_node file = any_row_file(s);
  uint64_t key = pick(s, 300);
  bs_mode mode = pick(s, 2) == 0 ? BS_S : BS_X;
  bs_command c = row_command(s, BS_DO_LOCK_ROW_PATH, file, &key, mode);
  struct timespec time;
  const struct timespec *until = some_time(s, &time);
  bs_reply reply;
  __atomic_store_n(&s->is_told, false, __ATOMIC_RELAXED);
  switch (pick(s, 6)) {
    case 0: reply = bs_group_try_row_path(group, s->txn, file, c.number, &key, c.key_count, mode, c.keep); break;
    case 1:
      reply = hear_of_ask(s, bs_group_ask_row_path(group, s->txn, file, c.number, &key, c.key_count, mode, until, s));
      break;
    case 2: reply = run_list(s, &c, 1); break;
    default: reply = bs_group_lock_row_path(group, s->txn, file, c.number, &key, c.key_count, mode, until);
  }
  if (same_node(file, few_files[SPREAD])) WANT(reply.status != BS_NOT_ROWS && reply.status != BS_NO_SUCH_NODE);
  if (reply.status != BS_OTHER_KEYS) return reply;
  if (reply.mode == BS_S) return bs_group_unlock_row(group, s->txn, file, c.number);
  return bs_group_rekey_row(group, s->txn, file, c.number, named(&row_index), key);
}

/* The first row of three that can be had at once. */
static bs_reply skip_rows(struct session *s) {
  uint64_t keys[3] = { 0, 100, 200 };
  bs_command list[3];
  size_t i;
  for (i = 0; i < 3; i++) {
    list[i] = row_command(s, pick(s, 2) == 0 ? BS_DO_TRY_ROW : BS_DO_TRY_ROW_PATH, any_row_file(s), &keys[i], BS_X);
  }
  i = bs_group_try_first(group, list, 3);
  return list[i < 3 ? i : 2].reply;
}

/* Two records, in two parts, and a savepoint between. */
static bs_reply run_some(struct session *s) {
  bs_command list[3];
  list[0] = bs_do_at(BS_DO_LOCK_PATH, s->txn, any_record(s), BS_S);
  list[1] = pick(s, 2) == 0 ? bs_do(BS_DO_MARK, s->txn) : bs_do_at(BS_DO_TRY_PATH, s->txn, any_below(s), any_mode(s));
  list[2] = bs_do_at(BS_DO_LOCK, s->txn, any_below(s), any_mode(s));
  return run_list(s, list, 3);
}

/* An inserted record replaces another name. */
static bs_reply insert(struct session *s) {
  uint32_t file = pick(s, 2) == 0 ? PLAIN : CROSSED;
  const uint64_t keys[MOST_INDEXES] = { 0, 150 };
  size_t count;
  bs_reply reply;
  pthread_mutex_lock(&names);
  count = file == PLAIN ? 0 : crossed_count;
  pthread_mutex_unlock(&names);
  reply = bs_group_insert(group, s->txn, few_files[file], keys, count);
  if (reply.status != BS_DONE) return reply;
  if (file == CROSSED || pick(s, 2) == 0) return bs_group_delete(group, s->txn, reply.node);
  rename_to(&few_records[file][pick(s, EACH)], reply.node);
  return reply;
}

/* Puts another record in the place of one. */
static bs_reply replace_record(struct session *s) {
  bs_node *place = &few_records[PLAIN][pick(s, EACH)], record = named(place);
  bs_reply reply = lock_node(s, record, BS_X);
  if (reply.status == BS_DONE) reply = bs_group_delete(group, s->txn, record);
  if (reply.status == BS_DONE) reply = bs_group_insert(group, s->txn, few_files[PLAIN], NULL, 0);
  if (reply.status == BS_DONE) rename_to(place, reply.node);
  return reply;
}

static bs_reply rekey(struct session *s) {
  bs_node record = named(&few_records[CROSSED][pick(s, EACH)]), index = named(&crossed_indexes[0]);
  bs_reply reply = lock_node(s, record, BS_X);
  if (reply.status != BS_DONE) return reply;
  return bs_group_rekey(group, s->txn, record, index, pick(s, 300));
}

/* Puts another index in the place of that of the file of rows. */
static bs_reply change_index(struct session *s) {
  bs_node index = named(&row_index), area = areas[pick(s, FEW_AREAS)];
  bs_reply reply = lock_node(s, index, BS_X);
  if (reply.status == BS_DONE) reply = lock_node(s, few_files[ROWS_BY_KEY], BS_X);
  if (reply.status != BS_DONE) return reply;
  reply = bs_group_index_by(group, s->txn, &area, 1, few_files[ROWS_BY_KEY], few_bounds, BOUNDS);
  if (reply.status != BS_DONE) return reply;
  name_index(reply.node);
  s->indexes++;
  return bs_group_drop(group, s->txn, index);
}

/* Makes an index of the file in both areas, beside its records. */
static bs_reply index_records(struct session *s) {
  const uint64_t keys[EACH] = { 0, 50, 100, 150, 200, 250, 300, 350 };
  bs_node area = areas[pick(s, FEW_AREAS)], records[EACH];
  size_t count, i;
  bs_reply reply = lock_node(s, few_files[CROSSED], BS_X);
  pthread_mutex_lock(&names);
  count = crossed_count;
  memcpy(records, few_records[CROSSED], sizeof records);
  pthread_mutex_unlock(&names);
  for (i = 0; i < count && reply.status == BS_DONE; i++) reply = lock_node(s, named(&crossed_indexes[i]), BS_X);
  if (reply.status != BS_DONE || count == MOST_INDEXES) return reply;
  reply = bs_group_index_records(group, s->txn, &area, 1, few_files[CROSSED], few_bounds, BOUNDS, records, keys, EACH);
  if (reply.status != BS_DONE) return reply;
  pthread_mutex_lock(&names);
  if (crossed_count < MOST_INDEXES) crossed_indexes[crossed_count++] = reply.node;
  pthread_mutex_unlock(&names);
  s->indexes++;
  return reply;
}

/* Splits an interval, or merges two. */
static bs_reply split_or_merge(struct session *s) {
  bs_node interval = any_interval(s);
  bs_reply reply = lock_node(s, interval, BS_X);
  if (reply.status != BS_DONE) return reply;
  if (pick(s, 2) == 0) {
    reply = bs_group_split(group, s->txn, interval, 1 + pick(s, 300));
  } else {
    reply = lock_node(s, any_interval(s), BS_X);
    if (reply.status == BS_DONE) reply = bs_group_merge(group, s->txn, interval);
  }
  return reply;
}

/* Makes a file, or a spread file or an inner node, which are few; a file is mostly dropped. */
static bs_reply make_node(struct session *s) {
  bs_node area = areas[pick(s, FEW_AREAS)], file;
  bs_reply reply;
  if (pick(s, 20) == 0 && __atomic_fetch_add(&inner_count, 1, __ATOMIC_RELAXED) < 2) {
    return pick(s, 2) == 0 ? bs_group_add_inner(group, &area, 1) : bs_group_add_spread_file(group, &area, 1);
  }
  reply = pick(s, 2) == 0 ? bs_group_add_file(group, 0, &area, 1) : bs_group_add_row_file(group, 0, &area, 1);
  file = DONE(reply).node;
  if (pick(s, 2) == 0) DONE(bs_group_add_index(group, &area, 1, file, few_bounds, BOUNDS));
  reply = lock_node(s, file, BS_X);
  return reply.status == BS_DONE ? bs_group_drop(group, s->txn, file) : reply;
}

/* Moves a file or an index below one area or two, by a lock of it or, at times, of all areas. */
static bs_reply move_below(struct session *s) {
  bs_node file = few_files[pick(s, SPREAD)], index = named(pick(s, 2) == 0 ? &row_index : &crossed_indexes[0]);
  bs_node node = pick(s, 2) == 0 ? file : index;
  size_t first = pick(s, FEW_AREAS), i;
  bs_reply reply;
  if (pick(s, 20) != 0) {
    reply = lock_node(s, node, BS_X);
  } else {
    reply = lock_node(s, areas[0], BS_X);
    for (i = 1; i < FEW_AREAS && reply.status == BS_DONE; i++) reply = lock_node(s, areas[i], BS_X);
  }
  if (reply.status != BS_DONE) return reply;
  reply = bs_group_move(group, s->txn, node, areas + first, 1 + pick(s, FEW_AREAS - first));
  if (reply.status == BS_DONE) s->moves++;
  return reply;
}

static bs_reply escalate(struct session *s) {
  size_t file = pick(s, FILES);
  return bs_group_escalate(group, s->txn, file == SPREAD ? any_part_of_spread(s) : few_files[file]);
}

static bs_reply use_savepoint(struct session *s) {
  if (!s->has_savepoint || pick(s, 2) == 0) {
    s->has_savepoint = true;
    return bs_group_mark(group, s->txn, &s->savepoint);
  }
  return bs_group_release_since(group, s->txn, &s->savepoint);
}

/* Cancels the wait of another transaction, if it has one. */
static bs_reply meddle(struct session *s) {
  const struct session *other = &sessions[pick(s, THREADS)];
  bs_txn txn;
  txn.slot = (uint32_t)__atomic_load_n(&other->named_slot, __ATOMIC_RELAXED);
  txn.age = __atomic_load_n(&other->named_age, __ATOMIC_RELAXED);
  if (other != s) bs_group_cancel(group, txn);
  return bs_call_only(BS_DONE);
}

static bs_reply limit(struct session *s) {
  struct timespec time;
  return bs_group_deadline(group, s->txn, some_time(s, &time));
}

static bs_reply adopt_and_forget(void) {
  bs_reply reply = bs_group_adopt(group, few_files[PLAIN], NULL, 0);
  return reply.status == BS_DONE ? bs_group_forget(group, reply.node) : reply;
}

static bs_reply any_command(struct session *s) {
  switch (pick(s, 40)) {
    case 0: s->inner++; return lock_node(s, any_inner(s), any_mode(s));
    case 1: case 2: return bs_group_unlock(group, s->txn, any_below(s));
    case 3: return bs_group_unlock_row(group, s->txn, few_files[pick(s, FILES)], pick(s, EACH));
    case 4: return escalate(s);
    case 5: case 6: return insert(s);
    case 7: return replace_record(s);
    case 8: return rekey(s);
    case 9: return change_index(s);
    case 10: return index_records(s);
    case 11: return split_or_merge(s);
    case 12: return pick(s, 2) == 0 ? make_node(s) : move_below(s);
    case 13: return meddle(s);
    case 14: return run_some(s);
    case 15: case 16: return skip_rows(s);
    case 17: case 18: case 19: return use_savepoint(s);
    case 20: return adopt_and_forget();
    case 21: return pick(s, 4) == 0 ? bs_group_keep(group, 4 * (uint32_t)pick(s, 4)) : limit(s);
    case 22: case 23: case 24: case 25: return touch_node(s, any_below(s), any_mode(s));
    case 26: case 27: case 28: case 29: return touch_node(s, any_record(s), pick(s, 2) == 0 ? BS_S : BS_X);
    default: return lock_row(s);
  }
}

/* ------------------------------------------------------------------------------------------------
 * Transactions.
 */

/* Work whose transaction was a victim begins again, and keeps its turn. */
static void begin_work(struct session *s) {
  bs_reply reply = bs_group_begin_again(group, s->since);
  struct timespec time;
  while (reply.status == BS_TOO_MANY_TXNS || reply.status == BS_TIMED_OUT) {
    time = moment_in(100 + (long)pick(s, 4000));
    reply = bs_group_begin_again_in_turn(group, s->since, pick(s, 4) == 0 ? &time : NULL);
  }
  s->txn = note_begin(DONE(reply).txn, s->since);
}

static void name_work(struct session *s) {
  __atomic_store_n(&s->named_slot, s->txn.slot, __ATOMIC_RELAXED);
  __atomic_store_n(&s->named_age, s->txn.age, __ATOMIC_RELAXED);
  if (s->since == UINT64_MAX) s->since = s->txn.age;
  s->has_savepoint = false;
}

/* Makes some commands; whether the transaction was chosen as a victim. */
static bool work(struct session *s) {
  bs_status status = BS_DONE;
  size_t left = 1 + pick(s, 6);
  while (left-- > 0 && status != BS_VICTIM) {
    status = any_command(s).status;
    WANT(status != BS_NO_SUCH_TXN && status != BS_MOVED && status != BS_ON_THE_WAY && status != BS_WAITING);
    if (status == BS_TIMED_OUT) s->late++;
    if (pick(s, 30) == 0) sched_yield();
  }
  return status == BS_VICTIM;
}

static void one_transaction(struct session *s, bool is_begun) {
  bool fell;
  if (!is_begun) begin_work(s);
  name_work(s);
  fell = work(s);
  if (!fell) s->since = UINT64_MAX;
  if (fell || pick(s, 8) == 0) {
    DONE(bs_group_abort(group, s->txn));
    return;
  }
  s->commits++;
  if (is_begun || pick(s, 4) > 0) {
    DONE(bs_group_commit(group, s->txn));
    return;
  }
  s->txn = note_begin(DONE(bs_group_renew(group, s->txn, UINT64_MAX)).txn, UINT64_MAX);
  one_transaction(s, true);
}

static long rounds = 15;

static void *run_session(void *arg) {
  struct session *s = (struct session *)arg;
  long i;
  s->since = UINT64_MAX;
  for (i = 0; i < rounds; i++) one_transaction(s, false);
  return NULL;
}

/* Ends asks whose time is over, and cycles of which no thread sleeps. */
static void *run_clock(void *arg) {
  const struct timespec pause = { 0, 500000 };
  while (!__atomic_load_n(&is_over, __ATOMIC_ACQUIRE)) {
    DONE(bs_group_expire((bs_table_group *)arg, NULL));
    nanosleep(&pause, NULL);
  }
  return NULL;
}

/* ------------------------------------------------------------------------------------------------
 * The replay.
 */

static void replay_one(const struct served *s, bs_notices *told) {
  bool is_in_group = s->table <= group->parts;
  bs_manager *m;
  bs_reply reply;
  if (s->call.kind == (enum kind)BEGAN) {
    note_began(&s->call);
    return;
  }
  m = &managers[s->table];
  if (is_in_group) expect_victims(s);
  reply = made_of_any(m, &s->call, told);
  WANT(same_reply(reply, s->reply));
  WANT(told->count == s->told_count && (told->count == 0 || sum_of(told) == s->told_sum));
  WANT(accepted_by(m) == s->accepted);
  if (!is_in_group) return;
  want_no_phantom(s, reply, told);
  want_ages(s, reply);
  want_one_part(s);
  want_laws(s, reply, told);
}

/* The next call of all. */
static const struct served *next_served(size_t *at) {
  const struct served *next = NULL;
  uint32_t table;
  for (table = 0; table < MOST_LOGS; table++) {
    const struct served *s = &logs[table].at[at[table]];
    if (at[table] == logs[table].count) continue;
    if (next == NULL || s->number < next->number) next = s;
  }
  if (next != NULL) at[next->table]++;
  return next;
}

static void make_managers(const bs_options *options) {
  uint32_t table;
  memset(managers, 0, sizeof managers);
  for (table = 0; table <= group->parts; table++) DONE(bs_make(&managers[table], options));
  DONE(bs_make(&managers[group->parts + 1], NULL));
  place_count = held_count = 0;
  memset(buckets, 0, sizeof buckets);
  memset(holdings, 0, sizeof holdings);
  memset(held_inner, 0, sizeof held_inner);
  memset(woken, 0, sizeof woken);
  memset(tables_of_rows, 0, sizeof tables_of_rows);
  checks = condemned = fallen = 0;
}

/* A manager of one thread is the same as that of its table, and is ended. */
static void want_same(uint32_t table) {
  static bs_board ours, theirs;
  const bs_manager *m = group->tables[table].manager;
  bs_counts counts, their_counts;
  memset(&counts, 0, sizeof counts);
  memset(&their_counts, 0, sizeof their_counts);
  DONE(bs_read_board(m, &ours));
  DONE(bs_read_board(&managers[table], &theirs));
  WANT(memcmp(&ours, &theirs, sizeof ours) == 0);
  DONE(bs_counters(m, &counts));
  DONE(bs_counters(&managers[table], &their_counts));
  WANT(memcmp(&counts, &their_counts, sizeof counts) == 0);
  DONE(bs_end(&managers[table]));
}

static void replay(const bs_options *options) {
  static bs_notices told;
  size_t at[MOST_LOGS] = { 0 };
  uint64_t number = 0;
  const struct served *s;
  uint32_t table;
  make_managers(options);
  while ((s = next_served(at)) != NULL) {
    WANT(s->number == number++);
    replay_one(s, &told);
  }
  WANT(held_count == 0);
  for (table = 0; table <= group->parts; table++) want_same(table);
  DONE(bs_end(&managers[group->parts + 1]));
}

/* ------------------------------------------------------------------------------------------------
 * The program.
 */

static void begin_log(void) {
  uint32_t table;
  for (table = 0; table < MOST_LOGS; table++) logs[table].count = 0;
  calls = 0;
  is_logging = true;
}

static void run_all(uint64_t seed) {
  pthread_t clock;
  size_t i;
  memset(sessions, 0, sizeof sessions);
  __atomic_store_n(&is_over, false, __ATOMIC_RELEASE);
  start(&clock, run_clock, group);
  for (i = 0; i < THREADS; i++) {
    sessions[i].dice = pcg_new(seed, i);
    start(&sessions[i].thread, run_session, &sessions[i]);
  }
  for (i = 0; i < THREADS; i++) join(sessions[i].thread);
  __atomic_store_n(&is_over, true, __ATOMIC_RELEASE);
  join(clock);
}

static void say(const char *name, uint64_t crowd, uint64_t replayed) {
  long late = 0, asks = 0, commits = 0, inner = 0, indexes = 0, moves = 0;
  size_t i;
  for (i = 0; i < THREADS; i++) {
    late += sessions[i].late;
    asks += sessions[i].asks;
    commits += sessions[i].commits;
    inner += sessions[i].inner;
    indexes += sessions[i].indexes;
    moves += sessions[i].moves;
  }
  fprintf(stderr, "%s: %lu calls, %ld commits, %lu condemned in a table, %lu fell over tables, ", name,
          (unsigned long)calls, commits, (unsigned long)condemned, (unsigned long)fallen);
  fprintf(stderr, "%ld too late, %ld asks waited, %ld inner, %ld indexes, %ld moves, %lu ms, replayed in %lu ms\n", late, asks,
          inner, indexes, moves, (unsigned long)(crowd / 1000000), (unsigned long)(replayed / 1000000));
  printf("%s\n", name);
}

static void crowd(const char *name, uint32_t parts, unsigned patience, uint64_t seed) {
  uint64_t began = bs_call_now(), over;
  bs_options options;
  memset(&options, 0, sizeof options);
  options.transactions = SLOTS;
  story = name;
  feed(patience);
  begin_log();
  DONE(bs_group_make(&group, &options, parts));
  DONE(bs_group_on_end(group, hear, sessions));
  DONE(bs_group_keep(group, 8));
  if (parts > 4) DONE(bs_group_watch_thread(group, 1000000));
  make_few();
  run_all(seed);
  want_rest(group);
  is_logging = false;
  over = bs_call_now();
  replay(&options);
  say(name, over - began, bs_call_now() - over);
  DONE(bs_group_end(group));
  DONE(bs_group_free(&group));
}

static void free_all(void) {
  uint32_t table;
  for (table = 0; table < MOST_LOGS; table++) free(logs[table].at);
  free(places);
  free(held_places);
}

int main(int count, char **words) {
  unsigned patience = count > 2 ? (unsigned)atoi(words[2]) : 60;
  uint64_t seed = count > 3 ? (uint64_t)atol(words[3]) : 1;
  setvbuf(stdout, NULL, _IONBF, 0);
  if (count > 1) rounds = atol(words[1]);
  crowd("a_crowd_over_one_part", 1, patience, seed);
  crowd("a_crowd_over_four_parts", 4, patience, seed);
  crowd("a_crowd_over_sixteen_parts", 16, patience, seed);
  free_all();
  WANT(blocks_out() == 0);
  return 0;
}
