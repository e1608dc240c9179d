/*
 * parts.c: stories of a table with parts, by the calls of a table alone; some are played with a table of one part too.
 */
#include "burlapslate_dump.h"
#include "burlapslate_group.h"
#include "burlapslate_running.h"
#include "burlapslate_rows.h"
#include "burlapslate_session.h"
#include "burlapslate_splits.h"

#include "memory.h"
#include "pcg.h"
#include "threads.h"

enum { PARTS = 5, FILES = 4, RECORDS = 5 };

/* A table, with a data base, files in parts by turns, and a file of rows with an index. */
typedef struct world {
  bs_table *table;
  bs_node base, files[FILES], records[FILES][RECORDS], rows, index;
} world;

enum { FEW = 3 }; /* the slots of a table in stories of begins */

static bs_options options_with(uint32_t parts) {
  bs_options options;
  memset(&options, 0, sizeof options);
  options.parts = parts;
  return options;
}

static void make_world_by(world *w, bs_options options) {
  const uint64_t bound = 100;
  bs_txn txn;
  size_t i, j;
  memset(w, 0, sizeof *w);
  DONE(bs_table_make(&w->table, &options));
  WANT((bs_table_group_of(w->table) != NULL) == (options.parts > 1));
  w->base = DONE(bs_table_add_inner(w->table, NULL, 0)).node;
  for (i = 0; i < FILES; i++) w->files[i] = DONE(bs_table_add_file(w->table, &w->base, 1)).node;
  w->rows = DONE(bs_table_add_row_file(w->table, &w->base, 1)).node;
  w->index = DONE(bs_table_add_index(w->table, &w->base, 1, w->rows, &bound, 1)).node;
  txn = DONE(bs_table_begin(w->table)).txn;
  for (i = 0; i < FILES; i++) {
    for (j = 0; j < RECORDS; j++) {
      w->records[i][j] = DONE(bs_table_insert_path(w->table, txn, w->files[i], NULL, 0, BS_KEEP_NOTHING)).node;
    }
  }
  DONE(bs_table_commit(w->table, txn, NULL));
}

static void make_world(world *w, uint32_t parts) {
  make_world_by(w, options_with(parts));
}

static void end_world(world *w) {
  ANSWERS(BS_IN_USE, bs_table_free(&w->table));
  DONE(bs_table_end(w->table));
  ANSWERS(BS_NO_MANAGER, bs_table_begin(w->table));
  DONE(bs_table_free(&w->table));
  WANT(w->table == NULL);
}

/* The mode in which a transaction holds a node, in a table of either kind. */
static bs_mode held(world *w, bs_txn txn, bs_node node) {
  bs_table_group *group = bs_table_group_of(w->table);
  if (group != NULL) return DONE(bs_group_held(group, txn, node)).mode;
  return DONE(ASK(w->table, bs_held, txn, node)).mode;
}

static bs_txn begun(world *w) {
  return DONE(bs_table_begin(w->table)).txn;
}

static void commit(world *w, bs_txn txn) {
  DONE(bs_table_commit(w->table, txn, NULL));
}

/* ------------------------------------------------------------------------------------------------
 * Stories.
 */

static void options_say_how_many(void) {
  bs_manager manager = BS_NO_MANAGER_HERE;
  bs_table *table = NULL;
  bs_options options = options_with(1), limits;
  DONE(bs_table_make(&table, &options));
  WANT(bs_table_group_of(table) == NULL && bs_table_group_of(NULL) == NULL);
  DONE(bs_limits(bs_table_hold(table), &limits));
  WANT(limits.parts == 1);
  DONE(bs_table_let_go(table));
  DONE(bs_table_end(table));
  DONE(bs_table_free(&table));
  options.parts = BS_MOST_PARTS + 1;
  ANSWERS(BS_BAD_NUMBER, bs_table_make(&table, &options));
  options.parts = 2;
  ANSWERS(BS_BAD_NUMBER, bs_make(&manager, &options));
  options.detect = BS_BY_WATCHER + 1;
  ANSWERS(BS_BAD_NUMBER, bs_table_make(&table, &options));
  options.detect = BS_BY_WATCHER;
  options.transactions = 3;
  DONE(bs_table_make(&table, &options));
  ANSWERS(BS_IN_USE, bs_table_make(&table, &options));
  DONE(bs_table_end(table));
  DONE(bs_table_free(&table));
}

static void hears_nothing(void *context, const bs_long_wait *wait, const bs_deadlock *deadlock) {
  (void)context;
  (void)wait;
  (void)deadlock;
}

/* What a table with parts has not is refused so, and changes nothing. */
static void what_parts_have_not_is_refused(world *w) {
  bs_txn txn = begun(w);
  WANT(bs_table_hold(w->table) == NULL);
  ANSWERS(BS_NOT_HELD, bs_table_let_go(w->table));
  ANSWERS(BS_IN_PARTS, bs_table_on_long_wait(w->table, 1, hears_nothing, NULL));
  ANSWERS(BS_IN_PARTS, bs_table_trace(w->table, 1));
  ANSWERS(BS_IN_PARTS, bs_table_trace_end(w->table));
  WANT(strcmp(bs_text(BS_IN_PARTS), "InParts") == 0);
  commit(w, txn);
}

static bs_node first_interval(bs_table_group *group, bs_node index) {
  uint32_t part = bs_group_table(index);
  const bs_manager *m = bs_group_hold(group, part);
  bs_node there = DONE(bs_group_name_in(group, index, part)).node;
  bs_node interval = DONE(bs_group_name_of(group, DONE(bs_interval(m, there, 0)).node, part)).node;
  DONE(bs_group_let_go(group, part));
  return interval;
}

/* Each call of a table that has parts. */
static void calls_are_those_of_a_table(world *w) {
  const uint64_t key = 50, other_key = 150, middle = 50;
  bs_txn txn = begun(w), next;
  bs_node record, split;
  bs_notices told;
  DONE(bs_table_deadline(w->table, txn, NULL));
  WANT(DONE(bs_table_lock_path(w->table, txn, w->files[0], BS_IX, NULL)).mode == BS_IX);
  DONE(bs_table_lock(w->table, txn, w->records[0][0], BS_X, NULL));
  DONE(bs_table_try(w->table, txn, w->records[0][1], BS_S));
  DONE(bs_table_try_path(w->table, txn, w->records[1][1], BS_S, BS_KEEP_WAY));
  ANSWERS(BS_BAD_NUMBER, bs_table_try_path(w->table, txn, w->records[1][1], BS_S, 2));
  DONE(bs_table_unlock(w->table, txn, w->records[0][1], &told));
  WANT(told.count == 0 && held(w, txn, w->records[0][1]) == BS_NL);
  WANT(DONE(bs_table_escalate(w->table, txn, w->files[0], &told)).mode == BS_X);
  DONE(bs_table_lock_row_path(w->table, txn, w->rows, 7, &key, 1, BS_X, NULL));
  DONE(bs_table_lock_row(w->table, txn, w->rows, 8, &key, 1, BS_X, NULL));
  DONE(bs_table_try_row(w->table, txn, w->rows, 9, &key, 1, BS_S));
  DONE(bs_table_try_row_path(w->table, txn, w->rows, 10, &key, 1, BS_S, BS_KEEP_WAY));
  DONE(bs_table_unlock_row(w->table, txn, w->rows, 9, &told));
  DONE(bs_table_lock_row_path(w->table, txn, w->rows, 11, &other_key, 1, BS_X, NULL));
  DONE(bs_table_rekey_row(w->table, txn, w->rows, 7, w->index, other_key, &told));
  ANSWERS(BS_BAD_NUMBER, bs_table_insert_path(w->table, txn, w->files[2], NULL, 0, 2));
  record = DONE(bs_table_insert(w->table, txn, w->files[2], NULL, 0)).node;
  DONE(bs_table_delete(w->table, txn, record, &told));
  next = DONE(bs_table_renew(w->table, txn, txn.age)).txn;
  WANT(next.slot == txn.slot);
  ANSWERS(BS_NO_SUCH_TXN, bs_table_commit(w->table, txn, &told));
  ANSWERS(BS_NOT_WAITING, bs_table_cancel(w->table, next, &told));
  record = DONE(bs_table_adopt(w->table, w->files[3], NULL, 0)).node;
  DONE(bs_table_forget(w->table, record));
  DONE(bs_table_lock_path(w->table, next, w->rows, BS_X, NULL));
  DONE(bs_table_lock_path(w->table, next, w->index, BS_X, NULL));
  split = DONE(bs_table_index_by(w->table, next, &w->base, 1, w->rows, &other_key, 1)).node;
  DONE(bs_table_drop(w->table, next, w->index, &told));
  w->index = split;
  DONE(bs_table_index_records(w->table, next, &w->base, 1, w->rows, &key, 1, NULL, NULL, 0));
  DONE(bs_table_abort(w->table, next, &told));
  next = begun(w);
  split = first_interval(bs_table_group_of(w->table), w->index);
  DONE(bs_table_lock_path(w->table, next, split, BS_X, NULL));
  record = DONE(bs_table_split(w->table, next, split, middle, &told)).node;
  DONE(bs_table_merge(w->table, next, split, &told));
  commit(w, next);
}

/* Whether something rests for the next transaction of this one's slot in the part of a file. */
static bool rests(world *w, bs_txn txn, bs_node file) {
  bs_table_group *group = bs_table_group_of(w->table);
  const bs_manager *m = bs_group_hold(group, bs_group_table(file));
  bool is_there = bs_living(m, txn.slot).status == BS_DONE;
  DONE(bs_group_let_go(group, bs_group_table(file)));
  return is_there;
}

/* A session's transaction waits, for work that began before that of the other one, which closes a cycle. */
static void old_work_is_no_victim(world *w, bs_session *session, bs_txn other) {
  bs_command list = bs_do_at(BS_DO_LOCK, bs_begun(), w->records[0][1], BS_X);
  DONE(bs_table_lock_path(w->table, session->txn, w->records[0][0], BS_X, NULL));
  DONE(bs_table_lock_path(w->table, other, w->records[0][1], BS_X, NULL));
  WANT(bs_session_run(session, &list, 1) == 0 && list.reply.status == BS_WAITING);
  ANSWERS(BS_VICTIM, bs_table_lock_path(w->table, other, w->records[0][0], BS_X, NULL));
  DONE(bs_table_cancel(w->table, session->txn, NULL));
}

static void lists_and_sessions_are_run(world *w) {
  bs_session session = bs_session_of(w->table, 16);
  bs_command list[4];
  bs_txn holder = begun(w), other;
  bs_notices told;
  size_t places;
  ANSWERS(BS_NO_SUCH_TXN, bs_session_commit(&session, &told));
  DONE(bs_session_begin(&session, NULL));
  ANSWERS(BS_IN_USE, bs_session_begin(&session, NULL));
  ANSWERS(BS_IN_USE, bs_session_begin_again(&session, 1, NULL));
  ANSWERS(BS_IN_USE, bs_session_end(&session));
  DONE(bs_table_lock_path(w->table, session.txn, w->records[0][0], BS_X, NULL));
  told.count = 2;
  other = session.txn;
  DONE(bs_session_commit(&session, &told));
  WANT(told.count == 0 && session.txn.age == 0 && rests(w, other, w->files[0]));
  DONE(bs_session_end(&session));
  WANT(!rests(w, other, w->files[0]));
  DONE(bs_session_begin(&session, NULL));
  DONE(bs_table_lock_path(w->table, session.txn, w->records[0][0], BS_X, NULL));
  other = session.txn;
  DONE(bs_session_commit(&session, &told));
  WANT(rests(w, other, w->files[0]));
  list[0] = bs_do_at(BS_DO_LOCK_PATH, bs_begun(), w->records[0][1], BS_X);
  list[1] = bs_do(BS_DO_MARK, bs_begun());
  list[2] = bs_do(BS_DO_RENEW, bs_begun());
  list[2].number = UINT64_MAX;
  list[3] = bs_do(BS_DO_COMMIT, bs_begun());
  list[3].told = &told;
  WANT(bs_session_run(&session, list, 4) == 4 && session.txn.age == 0 && list[1].reply.count == 3);
  DONE(bs_table_lock_path(w->table, holder, w->records[1][0], BS_X, NULL));
  list[0] = bs_do_at(BS_DO_LOCK, bs_begun(), w->records[1][0], BS_S);
  WANT(bs_session_run(&session, list, 4) == 0 && list[0].reply.status == BS_WAITING);
  WANT(list[1].reply.status == BS_NOT_MADE && session.txn.age != 0);
  ANSWERS(BS_TIMED_OUT, bs_table_await(w->table, session.txn, list[0].reply.node, BS_S, &(struct timespec){ 0, 0 }));
  DONE(bs_table_abort(w->table, session.txn, NULL));
  list[0] = bs_do_at(BS_DO_TRY, holder, w->records[1][0], BS_S);
  list[1] = bs_do_at(BS_DO_LOCK, holder, w->records[1][1], BS_S);
  WANT(bs_table_try_first(w->table, list, 1) == 0 && bs_table_run(w->table, list, 2) == 2);
  other = begun(w);
  DONE(bs_session_begin_again(&session, 1, NULL));
  old_work_is_no_victim(w, &session, other);
  DONE(bs_table_abort(w->table, other, NULL));
  other = begun(w);
  list[0] = bs_do(BS_DO_COMMIT, other);
  WANT(bs_session_run(&session, list, 1) == 1);
  commit(w, session.txn);
  DONE(bs_session_end(&session));
  places = 0;
  while (bs_table_begin(w->table).status == BS_DONE) places++;
  told.count = 2;
  list[0].told = &told;
  WANT(bs_session_run(&session, list, 1) == 0 && list[0].reply.status == BS_TOO_MANY_TXNS && told.count == 0);
  WANT(places > 0);
}

/* What an ask waits for comes by a callback. */
static uint64_t ends; /* of asks that were granted */

static void count_end(void *context, bs_txn txn, bs_reply end, void *word) {
  (void)context;
  WANT(txn.age != 0 && word == &ends && end.status == BS_DONE);
  ends++;
}

static void asks_are_told(world *w) {
  const uint64_t key = 5;
  bs_txn holder = begun(w), one = begun(w), other = begun(w);
  struct timespec next;
  ends = 0;
  DONE(bs_table_on_end(w->table, count_end, NULL));
  DONE(bs_table_lock_path(w->table, holder, w->records[0][0], BS_X, NULL));
  DONE(bs_table_lock_row_path(w->table, holder, w->rows, 1, &key, 1, BS_X, NULL));
  ANSWERS(BS_WAITING, bs_table_ask_path(w->table, one, w->records[0][0], BS_S, NULL, &ends));
  ANSWERS(BS_WAITING, bs_table_ask_row_path(w->table, other, w->rows, 1, &key, 1, BS_S, NULL, &ends));
  WANT(DONE(bs_table_expire(w->table, &next)).count == 0);
  commit(w, holder);
  WANT(ends == 2);
  DONE(bs_table_ask(w->table, one, w->records[0][1], BS_S, NULL, &ends));
  DONE(bs_table_ask_row(w->table, one, w->rows, 2, &key, 1, BS_S, NULL, &ends));
  DONE(bs_table_watch_thread(w->table, 1000000));
  commit(w, one);
  commit(w, other);
}

/* Waits are counted and timed in their parts. */
static void waits_are_timed(world *w) {
  bs_txn holder = begun(w), txn = begun(w);
  bs_command list = bs_do_at(BS_DO_LOCK, txn, w->records[2][0], BS_S);
  bs_reply reply;
  bs_waits waits;
  ANSWERS(BS_NULL_POINTER, bs_table_waits(w->table, NULL));
  DONE(bs_table_lock_path(w->table, holder, w->records[2][0], BS_X, NULL));
  WANT(bs_table_run(w->table, &list, 1) == 0);
  nap();
  DONE(bs_table_waits(w->table, &waits));
  WANT(waits.waiting == 1 && waits.longest > 0 && waits.ended[BS_END_GRANTED].nanoseconds == 0);
  reply = DONE(bs_table_waited(w->table, txn));
  WANT(reply.count >= waits.longest && reply.mode == BS_S);
  WANT(reply.node.key == w->records[2][0].key && reply.node.birth == w->records[2][0].birth);
  ANSWERS(BS_NOT_WAITING, bs_table_waited(w->table, holder));
  commit(w, holder);
  DONE(bs_table_waits(w->table, &waits));
  WANT(waits.waiting == 0 && waits.longest == 0 && waits.ended[BS_END_GRANTED].nanoseconds > 0);
  ANSWERS(BS_NO_SUCH_TXN, bs_table_waited(w->table, holder));
  DONE(bs_table_await(w->table, txn, w->records[2][0], BS_S, NULL));
  commit(w, txn);
}

/* ------------------------------------------------------------------------------------------------
 * Ends that a callback is told, by the word of each ask. These stories are played with one part and with several.
 */

enum { WORDS = 200 }; /* more than wait for their turn at once */

static pthread_mutex_t ends_latch = PTHREAD_MUTEX_INITIALIZER;
static char words[WORDS];
static bs_reply ends_told[WORDS];
static size_t times_told[WORDS], told_in_all;
static bool is_within;                      /* the callback is running, in stories of one thread */
static void (*then_does)(bs_txn txn, bs_reply end); /* what the callback does beside, if it is not null */

static void note_end(void *context, bs_txn txn, bs_reply end, void *word) {
  size_t place = (size_t)((char *)word - words);
  WANT(context == words && place < WORDS);
  if (end.status == BS_DONE && end.txn.age != 0) WANT(end.txn.slot == txn.slot && end.txn.age == txn.age);
  pthread_mutex_lock(&ends_latch);
  ends_told[place] = end;
  times_told[place]++;
  told_in_all++;
  pthread_mutex_unlock(&ends_latch);
  if (then_does == NULL) return;
  WANT(!is_within);
  is_within = true;
  then_does(txn, end);
  is_within = false;
}

static void listen(world *w) {
  memset(times_told, 0, sizeof times_told);
  told_in_all = 0;
  then_does = NULL;
  DONE(bs_table_on_end(w->table, note_end, words));
}

/* The one end that was told since the last such call is that of this word. */
static bs_reply was_told(size_t word, bs_status status) {
  WANT(told_in_all == 1 && times_told[word] == 1);
  told_in_all = 0;
  times_told[word] = 0;
  return ANSWERS(status, ends_told[word]);
}

static bs_reply ask_begin(world *w, size_t word, const struct timespec *until) {
  return bs_table_ask_begin(w->table, until, &words[word]);
}

static bs_reply cancel_begin(world *w, size_t word) {
  return bs_table_cancel_begin(w->table, &words[word]);
}

static const struct timespec long_ago = { 0, 0 }, some_day = { INT32_MAX, 0 };

static void begins_are_asked_for(world *w) {
  const struct timespec bad = { 0, -1 };
  bs_txn own[FEW], next;
  size_t i;
  ANSWERS(BS_NULL_POINTER, ask_begin(w, 0, NULL));
  listen(w);
  ANSWERS(BS_BAD_NUMBER, ask_begin(w, 0, &bad));
  ANSWERS(BS_NULL_POINTER, bs_table_ask_begin(NULL, NULL, words));
  ANSWERS(BS_NULL_POINTER, bs_table_cancel_begin(NULL, words));
  own[0] = DONE(ask_begin(w, 0, &long_ago)).txn;
  for (i = 1; i < FEW; i++) own[i] = begun(w);
  ANSWERS(BS_NOT_WAITING, cancel_begin(w, 0));
  for (i = 0; i < 5; i++) ANSWERS(BS_WAITING, ask_begin(w, i, NULL));
  ANSWERS(BS_WAITING, ask_begin(w, 2, NULL));
  ANSWERS(BS_TOO_MANY_TXNS, bs_table_begin(w->table));
  WANT(told_in_all == 0);
  commit(w, own[0]);
  next = was_told(0, BS_DONE).txn;
  DONE(cancel_begin(w, 2));
  was_told(2, BS_NOT_WAITING);
  DONE(cancel_begin(w, 1));
  was_told(1, BS_NOT_WAITING);
  ANSWERS(BS_TOO_MANY_TXNS, bs_table_begin(w->table));
  commit(w, next);
  next = was_told(3, BS_DONE).txn;
  DONE(bs_table_abort(w->table, own[1], NULL));
  own[1] = was_told(4, BS_DONE).txn;
  commit(w, next);
  next = was_told(2, BS_DONE).txn;
  WANT(held(w, next, w->base) == BS_NL);
  commit(w, next);
  next = begun(w);
  ANSWERS(BS_WAITING, ask_begin(w, 0, NULL));
  commit(w, own[1]);
  was_told(0, BS_DONE);
  ANSWERS(BS_WAITING, ask_begin(w, 1, NULL));
  ANSWERS(BS_WAITING, ask_begin(w, 2, NULL));
  DONE(bs_table_end(w->table));
  WANT(told_in_all == 2 && ends_told[1].status == BS_NO_MANAGER && ends_told[2].status == BS_NO_MANAGER);
  ANSWERS(BS_NO_MANAGER, ask_begin(w, 1, NULL));
  ANSWERS(BS_NO_MANAGER, cancel_begin(w, 1));
}

static void take_all_slots(world *w, bs_txn *own) {
  size_t i;
  for (i = 0; i < FEW; i++) own[i] = begun(w);
}

static void asked_begins_end_at_their_times(world *w) {
  struct timespec next;
  bs_txn own[FEW];
  listen(w);
  take_all_slots(w, own);
  ANSWERS(BS_WAITING, ask_begin(w, 0, NULL));
  ANSWERS(BS_WAITING, ask_begin(w, 1, &long_ago));
  ANSWERS(BS_WAITING, ask_begin(w, 2, &some_day));
  WANT(told_in_all == 0 && DONE(bs_table_expire(w->table, &next)).count == 1);
  WANT(next.tv_sec == some_day.tv_sec && next.tv_nsec == 0);
  was_told(1, BS_TIMED_OUT);
  commit(w, own[0]);
  own[0] = was_told(0, BS_DONE).txn;
  ANSWERS(BS_WAITING, ask_begin(w, 3, &long_ago));
  DONE(cancel_begin(w, 2));
  was_told(2, BS_NOT_WAITING);
  WANT(DONE(bs_table_expire(w->table, NULL)).count == 0);
  was_told(3, BS_TIMED_OUT);
  commit(w, own[0]);
  WANT(told_in_all == 0);
  commit(w, begun(w));
}

static world *told_world;

/* Each begin that is told ends at once. */
static void commits_at_once(bs_txn txn, bs_reply end) {
  ANSWERS(BS_DONE, end);
  ANSWERS(BS_IN_USE, bs_table_begin_in_turn(told_world->table, NULL));
  commit(told_world, txn);
}

/* Many begins that are asked for come one after the other in one call, and no callback is called within itself. */
static void callbacks_end_what_has_begun(world *w) {
  bs_txn own[FEW];
  size_t i;
  listen(w);
  told_world = w;
  take_all_slots(w, own);
  for (i = 0; i < WORDS; i++) ANSWERS(BS_WAITING, ask_begin(w, i, NULL));
  DONE(cancel_begin(w, WORDS - 1));
  was_told(WORDS - 1, BS_NOT_WAITING);
  then_does = commits_at_once;
  commit(w, own[1]);
  WANT(told_in_all == WORDS - 1);
  for (i = 0; i + 1 < WORDS; i++) WANT(times_told[i] == 1);
  then_does = NULL;
  commit(w, begun(w));
}

/* Work that was tried before is the older one, so its transaction does not fall. */
static void old_work_is_asked_for(world *w) {
  bs_txn own[FEW], old, young;
  bs_command list;
  listen(w);
  take_all_slots(w, own);
  ANSWERS(BS_WAITING, bs_table_ask_begin_again(w->table, 1, NULL, &words[0]));
  commit(w, own[FEW - 1]);
  old = was_told(0, BS_DONE).txn;
  young = own[0];
  WANT(old.age > young.age);
  DONE(bs_table_lock_path(w->table, old, w->records[0][0], BS_X, NULL));
  DONE(bs_table_lock_path(w->table, young, w->records[1][0], BS_X, NULL));
  list = bs_do_at(BS_DO_LOCK_PATH, young, w->records[0][0], BS_X);
  WANT(bs_table_run(w->table, &list, 1) == 0 && list.reply.status == BS_WAITING);
  list = bs_do_at(BS_DO_LOCK_PATH, old, w->records[1][0], BS_X);
  WANT(bs_table_run(w->table, &list, 1) == 0 && list.reply.status == BS_WAITING);
  DONE(bs_table_settle(w->table, old, NULL));
  ANSWERS(BS_TXN_CONDEMNED, bs_table_commit(w->table, young, NULL));
  DONE(bs_table_abort(w->table, young, NULL));
  commit(w, own[1]);
}

/* Text that a function of the library wrote. */
static char written[65536];
static size_t written_length;

static bool writes(void *context, const char *text, size_t length) {
  WANT(context == written && written_length + length < sizeof written);
  memcpy(written + written_length, text, length);
  written_length += length;
  written[written_length] = 0;
  return true;
}

/* Waits until so many begins wait for a slot, and a little longer: until their threads sleep. */
static void await_begins(world *w, const char *count) {
  char line[64];
  size_t i;
  snprintf(line, sizeof line, "burlapslate_begins_waiting %s\n", count);
  do {
    nap();
    written_length = 0;
    DONE(bs_table_metrics(w->table, writes, written));
  } while (strstr(written, line) == NULL);
  for (i = 0; i < 20; i++) nap();
}

/* A thread that sleeps for a slot, and then ends its transaction. */
static void *sleep_for_a_slot(void *place) {
  world *w = (world *)place;
  commit(w, DONE(bs_table_begin_in_turn(w->table, NULL)).txn);
  return NULL;
}

/* Threads that sleep and begins that are asked for are in one queue. */
static void asks_and_sleepers_take_turns(world *w) {
  bs_txn own[FEW];
  pthread_t sleeper;
  listen(w);
  take_all_slots(w, own);
  ANSWERS(BS_WAITING, ask_begin(w, 0, NULL));
  start(&sleeper, sleep_for_a_slot, w);
  await_begins(w, "2");
  ANSWERS(BS_WAITING, ask_begin(w, 1, NULL));
  commit(w, own[0]);
  own[0] = was_told(0, BS_DONE).txn;
  nap();
  WANT(told_in_all == 0);
  commit(w, own[0]);
  join(sleeper);
  own[0] = was_told(1, BS_DONE).txn;
  commit(w, own[0]);
}

/* A thread that asks for begins, and is told; some are cancelled, and some have little time. */
typedef struct asker {
  pthread_t thread;
  size_t word;
  pcg dice;
  size_t begun, cancelled, late;
} asker;

static world *asked_world;

static bool is_told(size_t word) {
  bool is;
  pthread_mutex_lock(&ends_latch);
  is = times_told[word] != 0;
  pthread_mutex_unlock(&ends_latch);
  return is;
}

/* The end of a begin that was left waiting. */
static bs_reply await_told(asker *own) {
  bs_reply end;
  bool is_cancelled = false;
  if (pcg_below(&own->dice, 4) == 0) is_cancelled = cancel_begin(asked_world, own->word).status == BS_DONE;
  while (!is_told(own->word)) {
    if (pcg_below(&own->dice, 3) == 0) DONE(bs_table_expire(asked_world->table, NULL));
    nap();
  }
  pthread_mutex_lock(&ends_latch);
  WANT(times_told[own->word] == 1);
  times_told[own->word] = 0;
  end = ends_told[own->word];
  pthread_mutex_unlock(&ends_latch);
  if (is_cancelled) ANSWERS(BS_NOT_WAITING, end);
  return end;
}

static void *ask_often(void *place) {
  asker *own = (asker *)place;
  size_t i;
  for (i = 0; i < 60; i++) {
    bs_reply reply = ask_begin(asked_world, own->word, pcg_below(&own->dice, 3) == 0 ? &long_ago : NULL);
    if (reply.status == BS_WAITING) reply = await_told(own);
    own->cancelled += reply.status == BS_NOT_WAITING;
    own->late += reply.status == BS_TIMED_OUT;
    if (reply.status == BS_NOT_WAITING || reply.status == BS_TIMED_OUT) continue;
    own->begun++;
    DONE(reply);
    if (pcg_below(&own->dice, 2) == 0) sched_yield();
    if (pcg_below(&own->dice, 2) == 0) commit(asked_world, reply.txn);
    else DONE(bs_table_abort(asked_world->table, reply.txn, NULL));
  }
  return NULL;
}

static void threads_ask_for_begins(world *w) {
  enum { ASKERS = 8 };
  asker all[ASKERS];
  bs_txn own[FEW];
  size_t i, count = 0;
  listen(w);
  asked_world = w;
  for (i = 0; i < ASKERS; i++) {
    memset(&all[i], 0, sizeof all[i]);
    all[i].word = i;
    all[i].dice = pcg_new(i, 9);
    start(&all[i].thread, ask_often, &all[i]);
  }
  for (i = 0; i < ASKERS; i++) {
    join(all[i].thread);
    count += all[i].begun + all[i].cancelled + all[i].late;
  }
  WANT(count == 60 * ASKERS);
  take_all_slots(w, own);
  for (i = 0; i < FEW; i++) commit(w, own[i]);
}

/* ------------------------------------------------------------------------------------------------
 * What lists have left waiting, and deadlocks, without a thread that sleeps.
 */

/* A list's lock of a record waits for this holder. */
static bs_command list_waits(world *w, bs_txn txn, bs_node record) {
  bs_command list = bs_do_at(BS_DO_LOCK_PATH, txn, record, BS_S);
  WANT(bs_table_run(w->table, &list, 1) == 0 && list.reply.status == BS_WAITING);
  return list;
}

static bs_reply ask_await(world *w, const bs_command *list, const struct timespec *until, size_t word) {
  return bs_table_ask_await(w->table, list->txn, list->reply.node, BS_S, until, &words[word]);
}

static void ends_of_lists_are_asked_for(world *w) {
  bs_txn holder = begun(w), txn = begun(w);
  struct timespec next;
  bs_command list;
  DONE(bs_table_lock_path(w->table, holder, w->records[0][0], BS_X, NULL));
  list = list_waits(w, txn, w->records[0][0]);
  ANSWERS(BS_NULL_POINTER, ask_await(w, &list, NULL, 0));
  listen(w);
  ANSWERS(BS_NOT_WAITING, bs_table_ask_await(w->table, holder, w->records[1][0], BS_S, NULL, words));
  ANSWERS(BS_WAITING, ask_await(w, &list, &some_day, 0));
  ANSWERS(BS_IN_USE, ask_await(w, &list, NULL, 1));
  ANSWERS(BS_IN_USE, bs_table_await(w->table, txn, list.reply.node, BS_S, &long_ago));
  WANT(DONE(bs_table_expire(w->table, &next)).count == 1 && next.tv_sec == some_day.tv_sec);
  commit(w, holder);
  was_told(0, BS_DONE);
  WANT(held(w, txn, w->records[0][0]) == BS_S);
  holder = begun(w);
  DONE(bs_table_lock_path(w->table, holder, w->records[1][0], BS_X, NULL));
  list = list_waits(w, txn, w->records[1][0]);
  ANSWERS(BS_WAITING, ask_await(w, &list, &long_ago, 1));
  WANT(told_in_all == 0 && DONE(bs_table_expire(w->table, NULL)).count == 0);
  was_told(1, BS_TIMED_OUT);
  list = list_waits(w, txn, w->records[1][0]);
  commit(w, holder);
  DONE(ask_await(w, &list, NULL, 2));
  WANT(told_in_all == 0);
  holder = begun(w);
  DONE(bs_table_lock_path(w->table, holder, w->records[2][0], BS_X, NULL));
  list = list_waits(w, txn, w->records[2][0]);
  ANSWERS(BS_WAITING, ask_await(w, &list, NULL, 3));
  DONE(bs_table_cancel(w->table, txn, NULL));
  was_told(3, BS_NOT_WAITING);
  commit(w, txn);
  commit(w, holder);
}

static void deadlocks_are_settled(world *w) {
  bs_txn old = begun(w), young = begun(w), nobody = { 1, 77777 };
  bs_command settle = bs_do(BS_DO_SETTLE, old);
  bs_notices told;
  bs_counts counts;
  if (bs_table_group_of(w->table) != NULL && old.age > young.age) {
    bs_txn other = old;
    old = young;
    young = other;
  }
  listen(w);
  DONE(bs_table_lock_path(w->table, old, w->records[0][0], BS_X, NULL));
  DONE(bs_table_lock_path(w->table, young, w->records[1][0], BS_X, NULL));
  ANSWERS(BS_WAITING, bs_table_ask_path(w->table, old, w->records[1][0], BS_S, NULL, &words[0]));
  DONE(bs_table_settle(w->table, old, &told));
  WANT(told.count == 0 && told_in_all == 0);
  ANSWERS(BS_NO_SUCH_TXN, bs_table_settle(w->table, nobody, &told));
  ANSWERS(BS_WAITING, bs_table_ask_path(w->table, young, w->records[0][0], BS_S, NULL, &words[1]));
  WANT(told_in_all == 0);
  WANT(bs_table_run(w->table, &settle, 1) == 1);
  was_told(1, BS_VICTIM);
  if (bs_table_group_of(w->table) != NULL) {
    WANT(settle.reply.count == 1);
    DONE(bs_group_counters(bs_table_group_of(w->table), &counts));
    WANT(counts.condemned == 1);
  }
  ANSWERS(BS_TXN_CONDEMNED, bs_table_commit(w->table, young, NULL));
  DONE(bs_table_abort(w->table, young, NULL));
  was_told(0, BS_DONE);
  commit(w, old);
}

/* A file is moved by who has it in BS_X and writes below its new parents. Whoever waits for it does so after that too. */
static void files_are_moved(world *w) {
  bs_node area = DONE(bs_table_add_inner(w->table, &w->base, 1)).node;
  bs_txn txn = begun(w), waiter = begun(w);
  bs_notices told;
  listen(w);
  told.count = 3;
  ANSWERS(BS_NEED_EXCLUSIVE, bs_table_move(w->table, txn, w->files[0], &area, 1, &told));
  WANT(told.count == 0);
  DONE(bs_table_lock_path(w->table, txn, w->files[0], BS_X, NULL));
  DONE(bs_table_lock_path(w->table, txn, area, BS_IX, NULL));
  ANSWERS(BS_WAITING, bs_table_ask_path(w->table, waiter, w->records[0][0], BS_X, NULL, &words[0]));
  DONE(bs_table_move(w->table, txn, w->files[0], &area, 1, &told));
  WANT(told_in_all == 0);
  commit(w, txn);
  was_told(0, BS_DONE);
  WANT(held(w, waiter, area) == BS_IX && held(w, waiter, w->records[0][0]) == BS_X);
  commit(w, waiter);
}

/* ------------------------------------------------------------------------------------------------
 * Watchers.
 */

static bool is_shown(const bs_board *board, bs_txn one, bs_txn other) {
  return bs_has(board->rows[one.slot], other.slot) && board->ages[one.slot] == one.age &&
         board->ages[other.slot] == other.age;
}

static size_t shown_waits(const bs_board *board) {
  size_t i, j, count = 0;
  for (i = 0; i < BS_SLOTS; i++) {
    for (j = 0; j < BS_SLOTS; j++) count += bs_has(board->rows[i], (uint32_t)j);
  }
  return count;
}

/* A watcher shows each present wait, by the names that the table has given; and a settle ends the cycle that it shows. */
static void watchers_show_cycles(world *w) {
  static bs_board board;
  bs_watcher watcher = BS_NO_WATCHER_HERE;
  bs_txn old = begun(w), young = begun(w), third = begun(w);
  bs_txn suspect;
  uint64_t seen;
  if (old.age > young.age) {
    suspect = old;
    old = young;
    young = suspect;
  }
  listen(w);
  ANSWERS(BS_NULL_POINTER, bs_table_watch(NULL, &watcher));
  ANSWERS(BS_NULL_POINTER, bs_table_watch(w->table, NULL));
  DONE(bs_table_watch(w->table, &watcher));
  ANSWERS(BS_IN_USE, bs_table_watch(w->table, &watcher));
  DONE(bs_look(&watcher, &board));
  WANT(shown_waits(&board) == 0);
  seen = board.epoch;
  DONE(bs_table_lock_path(w->table, old, w->records[0][0], BS_X, NULL));
  DONE(bs_table_lock_path(w->table, young, w->records[1][0], BS_X, NULL));
  ANSWERS(BS_WAITING, bs_table_ask_path(w->table, old, w->records[1][0], BS_S, NULL, &words[0]));
  DONE(bs_look(&watcher, &board));
  WANT(is_shown(&board, old, young) && shown_waits(&board) == 1 && board.epoch > seen);
  ANSWERS(BS_NO_PLACE, bs_youngest(&board, bs_suspects(&board).slots));
  ANSWERS(BS_WAITING, bs_table_ask_path(w->table, young, w->records[0][0], BS_S, NULL, &words[1]));
  DONE(bs_look(&watcher, &board));
  WANT(is_shown(&board, old, young) && is_shown(&board, young, old) && shown_waits(&board) == 2);
  suspect.slot = (uint32_t)DONE(bs_youngest(&board, bs_suspects(&board).slots)).count;
  suspect.age = board.ages[suspect.slot];
  WANT(suspect.slot == young.slot && suspect.age == young.age);
  DONE(bs_table_settle(w->table, suspect, NULL));
  was_told(1, BS_VICTIM);
  DONE(bs_look(&watcher, &board));
  WANT(is_shown(&board, old, young) && shown_waits(&board) == 1);
  DONE(bs_table_abort(w->table, young, NULL));
  was_told(0, BS_DONE);
  DONE(bs_look(&watcher, &board));
  WANT(shown_waits(&board) == 0 && board.ages[young.slot] == 0 && board.ages[old.slot] == old.age);
  ANSWERS(BS_WAITING, bs_table_ask_path(w->table, third, w->records[0][0], BS_S, NULL, &words[2]));
  commit(w, old);
  was_told(2, BS_DONE);
  DONE(bs_watch_end(&watcher));
  ANSWERS(BS_NO_WATCHER, bs_look(&watcher, &board));
  ANSWERS(BS_NO_WATCHER, bs_watch_end(&watcher));
  DONE(bs_table_watch(w->table, &watcher));
  DONE(bs_look(&watcher, &board));
  WANT(board.ages[third.slot] == third.age && board.ages[old.slot] == 0);
  DONE(bs_watch_end(&watcher));
  commit(w, third);
}

/* A board that could not be shown, for lack of memory, has a wait of a transaction that has ended. With parts that one is
 * taken off; else the next command shows the board. */
static void ended_waits_are_taken_off(world *w) {
  static bs_board board;
  bs_watcher watcher = BS_NO_WATCHER_HERE;
  bs_txn holder = begun(w), waiter = begun(w);
  bs_command list = bs_do_at(BS_DO_LOCK_PATH, waiter, w->records[0][0], BS_S);
  DONE(bs_table_watch(w->table, &watcher));
  DONE(bs_table_lock_path(w->table, holder, w->records[0][0], BS_X, NULL));
  WANT(bs_table_run(w->table, &list, 1) == 0);
  DONE(bs_look(&watcher, &board));
  WANT(is_shown(&board, waiter, holder));
  refuse_thread(pthread_self());
  DONE(bs_table_abort(w->table, waiter, NULL));
  refuse_no_thread();
  if (bs_table_group_of(w->table) == NULL) commit(w, begun(w));
  DONE(bs_look(&watcher, &board));
  WANT(shown_waits(&board) == 0 && board.ages[waiter.slot] != waiter.age && board.ages[holder.slot] == holder.age);
  DONE(bs_watch_end(&watcher));
  commit(w, holder);
}

static void watchers_are_counted(world *w) {
  static const bs_watcher none = BS_NO_WATCHER_HERE;
  bs_watcher all[BS_MOST_WATCHERS + 1];
  size_t i;
  for (i = 0; i <= BS_MOST_WATCHERS; i++) all[i] = none;
  for (i = 0; i < BS_MOST_WATCHERS; i++) DONE(bs_table_watch(w->table, &all[i]));
  ANSWERS(BS_TOO_MANY_WATCHERS, bs_table_watch(w->table, &all[BS_MOST_WATCHERS]));
  DONE(bs_watch_end(&all[3]));
  DONE(bs_table_watch(w->table, &all[BS_MOST_WATCHERS]));
  DONE(bs_table_end(w->table));
  ANSWERS(BS_NO_MANAGER, bs_table_watch(w->table, &all[3]));
  for (i = 0; i <= BS_MOST_WATCHERS; i++) ANSWERS(i == 3 ? BS_NO_WATCHER : BS_DONE, bs_watch_end(&all[i]));
}

/* After its table was freed a watcher shows the last board, and one more may be looked at until it ends. */
static void watchers_outlive_their_table(uint32_t parts) {
  static bs_board board;
  bs_watcher one = BS_NO_WATCHER_HERE, other = BS_NO_WATCHER_HERE;
  bs_txn holder, waiter;
  bs_command list;
  world w;
  make_world(&w, parts);
  DONE(bs_table_watch(w.table, &one));
  DONE(bs_table_watch(w.table, &other));
  holder = begun(&w);
  waiter = begun(&w);
  DONE(bs_table_lock_path(w.table, holder, w.records[0][0], BS_X, NULL));
  list = bs_do_at(BS_DO_LOCK_PATH, waiter, w.records[0][0], BS_X);
  WANT(bs_table_run(w.table, &list, 1) == 0);
  DONE(bs_table_end(w.table));
  DONE(bs_look(&one, &board));
  DONE(bs_table_free(&w.table));
  DONE(bs_watch_end(&one));
  DONE(bs_look(&other, &board));
  WANT(is_shown(&board, waiter, holder));
  DONE(bs_watch_end(&other));
}

static void refused_memory_makes_no_watcher(uint32_t parts) {
  bs_watcher watcher = BS_NO_WATCHER_HERE;
  bs_reply reply = bs_call_only(BS_NO_MEMORY);
  world w;
  long next;
  make_world(&w, parts);
  for (next = 1; reply.status == BS_NO_MEMORY; next++) {
    refused_allocation = next;
    reply = bs_table_watch(w.table, &watcher);
    refused_allocation = 0;
  }
  WANT(next > (long)parts);
  DONE(reply);
  DONE(bs_watch_end(&watcher));
  end_world(&w);
}

/* A table whose threads a watcher of theirs keeps from waiting for each other. */
typedef struct watched_crowd {
  world w;
  bool is_over; /* atomic */
  uint64_t fell, done; /* atomic */
} watched_crowd;

/* Locks two records of files in different parts, in any order. */
static void *takes_two(void *place) {
  watched_crowd *crowd = (watched_crowd *)place;
  pcg dice = pcg_new((uint64_t)(uintptr_t)&dice, 3);
  size_t round;
  for (round = 0; round < 200; round++) {
    bs_txn txn = begun(&crowd->w);
    size_t first = pcg_below(&dice, 2);
    bs_reply reply = bs_table_lock_path(crowd->w.table, txn, crowd->w.records[first][0], BS_X, NULL);
    if (reply.status == BS_DONE) {
      reply = bs_table_lock_path(crowd->w.table, txn, crowd->w.records[1 - first][0], BS_X, NULL);
    }
    if (reply.status == BS_DONE) commit(&crowd->w, txn);
    else DONE(bs_table_abort(crowd->w.table, txn, NULL));
    if (reply.status != BS_DONE) ANSWERS(BS_VICTIM, reply);
    __atomic_fetch_add(reply.status == BS_DONE ? &crowd->done : &crowd->fell, 1, __ATOMIC_RELAXED);
  }
  return NULL;
}

static void *watches(void *place) {
  watched_crowd *crowd = (watched_crowd *)place;
  bs_watcher watcher = BS_NO_WATCHER_HERE;
  static bs_board board;
  DONE(bs_table_watch(crowd->w.table, &watcher));
  while (!__atomic_load_n(&crowd->is_over, __ATOMIC_ACQUIRE)) {
    bs_reply youngest;
    bs_txn suspect;
    DONE(bs_look(&watcher, &board));
    youngest = bs_youngest(&board, bs_suspects(&board).slots);
    if (youngest.status != BS_DONE) continue;
    suspect.slot = (uint32_t)youngest.count;
    suspect.age = board.ages[suspect.slot];
    bs_table_settle(crowd->w.table, suspect, NULL);
  }
  DONE(bs_watch_end(&watcher));
  return NULL;
}

/* Threads that lock records of two files in any order, with a watcher of their own that settles what it suspects: so none
 * waits for ever. */
static void threads_are_watched(uint32_t parts) {
  enum { THREADS = 4 };
  watched_crowd crowd;
  pthread_t threads[THREADS], watcher;
  bs_options options = options_with(parts);
  size_t i;
  memset(&crowd, 0, sizeof crowd);
  options.detect = BS_BY_WATCHER;
  make_world_by(&crowd.w, options);
  start(&watcher, watches, &crowd);
  for (i = 0; i < THREADS; i++) start(&threads[i], takes_two, &crowd);
  for (i = 0; i < THREADS; i++) join(threads[i]);
  __atomic_store_n(&crowd.is_over, true, __ATOMIC_RELEASE);
  join(watcher);
  WANT(crowd.done + crowd.fell == THREADS * 200 && crowd.done > 0);
  end_world(&crowd.w);
}

/* ------------------------------------------------------------------------------------------------
 * What is told of a table as it runs.
 */

static bool dislikes_text(void *context, const char *text, size_t length) {
  (void)context;
  (void)text;
  (void)length;
  return false;
}

static void numbers_are_written(world *w) {
  bool has_parts = bs_table_group_of(w->table) != NULL;
  bs_txn txn = begun(w), other = begun(w);
  char nodes[64];
  ANSWERS(BS_NULL_POINTER, bs_table_metrics(w->table, NULL, NULL));
  ANSWERS(BS_NOT_WRITTEN, bs_table_metrics(w->table, dislikes_text, NULL));
  DONE(bs_table_lock_path(w->table, txn, w->records[0][0], BS_X, NULL));
  list_waits(w, other, w->records[0][0]);
  written_length = 0;
  DONE(bs_table_metrics(w->table, writes, written));
  WANT(strstr(written, "burlapslate_waiting 1\n") != NULL && strstr(written, "burlapslate_transactions 2\n") != NULL);
  WANT(strstr(written, "burlapslate_transactions_limit 128\n") != NULL || BS_SLOTS != 128);
  WANT(strstr(written, "burlapslate_begins_waiting 0\n") != NULL);
  WANT(strstr(written, "burlapslate_locks_waited_total 1\n") != NULL);
  snprintf(nodes, sizeof nodes, "burlapslate_nodes %d\n",
           FILES * (RECORDS + 1) + 4 + (has_parts ? PARTS + 1 : 1));
  WANT(strstr(written, nodes) != NULL && strstr(written, "# EOF\n") != NULL);
  commit(w, txn);
  commit(w, other);
}

/* A wait for a record, which a commit ends after so many naps. */
static void waits_a_while(world *w, bs_node record, size_t naps) {
  bs_txn holder = begun(w), txn = begun(w);
  DONE(bs_table_lock_path(w->table, holder, record, BS_X, NULL));
  list_waits(w, txn, record);
  while (naps-- > 0) nap();
  commit(w, holder);
  commit(w, txn);
}

/* How long all waits took that have ended. */
static uint64_t time_of_all(world *w) {
  uint64_t sum = 0;
  bs_waits waits;
  size_t end;
  DONE(bs_table_waits(w->table, &waits));
  for (end = 0; end < BS_WAIT_ENDS; end++) sum += waits.ended[end].nanoseconds;
  return sum;
}

/* A node that was awaited is a record of the table, by its name there. */
static void want_record(const world *w, const bs_awaited_node *at) {
  size_t i, j;
  bool is_one = false;
  for (i = 0; i < FILES; i++) {
    for (j = 0; j < RECORDS; j++) {
      is_one |= at->node.key == w->records[i][j].key && at->node.birth == w->records[i][j].birth;
    }
  }
  WANT(is_one && at->error == 0 && at->waits == 1);
}

static void the_longest_waits_are_known(world *w) {
  bs_awaited awaited;
  uint64_t sum = 0;
  size_t i;
  ANSWERS(BS_NULL_POINTER, bs_table_awaited(w->table, NULL, true));
  for (i = 0; i < FILES; i++) waits_a_while(w, w->records[i][i], 3 * (FILES - i));
  DONE(bs_table_awaited(w->table, &awaited, false));
  WANT(awaited.count == FILES && awaited.nanoseconds == time_of_all(w) && awaited.since >= awaited.nanoseconds);
  for (i = 0; i < awaited.count; i++) {
    want_record(w, &awaited.at[i]);
    sum += awaited.at[i].nanoseconds;
    if (i > 0) WANT(awaited.at[i].nanoseconds <= awaited.at[i - 1].nanoseconds);
  }
  WANT(sum == awaited.nanoseconds);
  for (i = 0; i < FILES; i++) waits_a_while(w, w->records[i][4], i);
  waits_a_while(w, w->records[0][3], 0);
  DONE(bs_table_awaited(w->table, &awaited, true));
  WANT(awaited.count == BS_MOST_AWAITED && awaited.nanoseconds == time_of_all(w));
  for (i = 0; i < awaited.count; i++) want_record(w, &awaited.at[i]);
  DONE(bs_table_awaited(w->table, &awaited, false));
  WANT(awaited.count == 0 && awaited.nanoseconds == 0);
}

/* Whether a file has this text in a line. */
static bool has_text(FILE *file, const char *wanted) {
  char text[256];
  rewind(file);
  while (fgets(text, sizeof text, file) != NULL) {
    if (strstr(text, wanted) != NULL) return true;
  }
  return false;
}

static void names_node(void *context, bs_node node, char *text, size_t room) {
  const world *w = (const world *)context;
  if (node.key == w->base.key && node.birth == w->base.birth) snprintf(text, room, "bank");
  if (node.key == w->files[1].key && node.birth == w->files[1].birth) snprintf(text, room, "orders");
}

static void nodes_are_named(world *w) {
  bs_txn txn = begun(w);
  FILE *file = tmpfile(), *later = tmpfile();
  WANT(file != NULL && later != NULL);
  DONE(bs_table_name_nodes(w->table, names_node, w));
  DONE(bs_table_lock_path(w->table, txn, w->records[1][0], BS_X, NULL));
  DONE(bs_table_lock_path(w->table, txn, w->files[0], BS_S, NULL));
  DONE(bs_table_dump(w->table, file));
  WANT(has_text(file, " bank\n") && has_text(file, " orders\n"));
  DONE(bs_table_name_nodes(w->table, NULL, NULL));
  DONE(bs_table_dump(w->table, later));
  WANT(!has_text(later, " bank\n") && !has_text(later, " orders\n"));
  fclose(file);
  fclose(later);
  commit(w, txn);
}

/* Whether a file has a line. */
static bool has_line(FILE *file, const char *line) {
  char text[256];
  rewind(file);
  while (fgets(text, sizeof text, file) != NULL) {
    if (strncmp(text, line, strlen(line)) == 0) return true;
  }
  return false;
}

/* A thread that holds the main table until it is told. */
typedef struct main_holder {
  pthread_t thread;
  bs_table_group *group;
  bool holds, is_over; /* atomic */
} main_holder;

static void *hold_main(void *place) {
  main_holder *own = (main_holder *)place;
  WANT(bs_group_hold(own->group, 0) != NULL);
  __atomic_store_n(&own->holds, true, __ATOMIC_RELEASE);
  while (!__atomic_load_n(&own->is_over, __ATOMIC_ACQUIRE)) nap();
  DONE(bs_group_let_go(own->group, 0));
  return NULL;
}

/* A thread that holds a part waits for no other latch. */
static void holders_are_refused(world *w, bs_table_group *group, bs_txn txn, FILE *file) {
  main_holder other = { 0, group, false, false };
  bs_awaited awaited;
  bs_waits waits;
  start(&other.thread, hold_main, &other);
  while (!__atomic_load_n(&other.holds, __ATOMIC_ACQUIRE)) nap();
  WANT(bs_group_hold(group, PARTS) != NULL);
  ANSWERS(BS_IN_USE, bs_table_dump(w->table, file));
  ANSWERS(BS_IN_USE, bs_table_waits(w->table, &waits));
  ANSWERS(BS_IN_USE, bs_table_waited(w->table, txn));
  ANSWERS(BS_IN_USE, bs_table_awaited(w->table, &awaited, true));
  ANSWERS(BS_IN_USE, bs_table_metrics(w->table, writes, written));
  ANSWERS(BS_IN_USE, bs_table_settle(w->table, txn, NULL));
  ANSWERS(BS_IN_USE, bs_table_ask_begin(w->table, NULL, words));
  ANSWERS(BS_IN_USE, bs_table_cancel_begin(w->table, words));
  ANSWERS(BS_IN_USE, bs_table_name_nodes(w->table, names_node, w));
  DONE(bs_group_let_go(group, PARTS));
  __atomic_store_n(&other.is_over, true, __ATOMIC_RELEASE);
  join(other.thread);
}

static void each_part_is_dumped(world *w) {
  bs_table_group *group = bs_table_group_of(w->table);
  bs_txn txn = begun(w);
  FILE *file = tmpfile();
  WANT(file != NULL);
  DONE(bs_table_lock_path(w->table, txn, w->records[0][0], BS_X, NULL));
  ANSWERS(BS_NULL_POINTER, bs_table_dump(w->table, NULL));
  DONE(bs_table_dump(w->table, file));
  WANT(has_line(file, "Main table:") && has_line(file, "Part 1:") && has_line(file, "Part 5:"));
  WANT(!has_line(file, "Part 6:") && has_line(file, "Locks by transaction:"));
  DONE(bs_table_name_nodes(w->table, names_node, w));
  holders_are_refused(w, group, txn, file);
  fclose(file);
  commit(w, txn);
}

/* ------------------------------------------------------------------------------------------------
 * Savepoints by a number: the same commands in a table of one part and in one of several.
 */

enum { MOST_MARKS = 6, STEPS = 400 };

/* On an inner node the second may have less: what was raised in one part stays, but what is new in another is released. */
static void want_same_locks(world *one, world *other, bs_txn a, bs_txn b) {
  size_t i, j;
  WANT(held(one, a, one->base) >= held(other, b, other->base));
  for (i = 0; i < FILES; i++) {
    WANT(held(one, a, one->files[i]) == held(other, b, other->files[i]));
    for (j = 0; j < RECORDS; j++) WANT(held(one, a, one->records[i][j]) == held(other, b, other->records[i][j]));
  }
}

static void roll_back_twins(world *one, world *other, pcg *dice) {
  uint64_t marks[2][MOST_MARKS];
  bs_txn a = begun(one), b = begun(other);
  size_t step, count = 0, at;
  for (step = 0; step < STEPS; step++) {
    size_t file = pcg_below(dice, FILES), record = pcg_below(dice, RECORDS);
    bs_mode mode = pcg_below(dice, 2) == 0 ? BS_S : BS_X;
    uint64_t drawn = pcg_below(dice, 10);
    if (drawn < 6) {
      DONE(bs_table_lock_path(one->table, a, one->records[file][record], mode, NULL));
      DONE(bs_table_lock_path(other->table, b, other->records[file][record], mode, NULL));
    } else if (drawn < 8 && count < MOST_MARKS) {
      marks[0][count] = DONE(bs_table_mark(one->table, a)).count;
      marks[1][count++] = DONE(bs_table_mark(other->table, b)).count;
    } else if (count > 0) {
      at = pcg_below(dice, count);
      DONE(bs_table_release_since(one->table, a, marks[0][at], NULL));
      DONE(bs_table_release_since(other->table, b, marks[1][at], NULL));
      count = at + pcg_below(dice, 2); /* it may be used again */
    } else {
      DONE(bs_table_release_since(one->table, a, 0, NULL));
      DONE(bs_table_release_since(other->table, b, 0, NULL));
    }
    want_same_locks(one, other, a, b);
  }
  commit(one, a);
  commit(other, b);
}

/* A number that no savepoint has releases no more than the next one that has more locks. */
static void numbers_release_nothing_older(world *w) {
  bs_txn txn = begun(w);
  uint64_t mark;
  bs_notices told;
  WANT(DONE(bs_table_mark(w->table, txn)).count == 0);
  DONE(bs_table_lock_path(w->table, txn, w->records[0][0], BS_X, NULL));
  mark = DONE(bs_table_mark(w->table, txn)).count;
  WANT(mark == 3);
  DONE(bs_table_lock_path(w->table, txn, w->records[1][0], BS_X, NULL));
  WANT(DONE(bs_table_release_since(w->table, txn, mark + 1, &told)).count == 0 && told.count == 0);
  WANT(DONE(bs_table_release_since(w->table, txn, mark - 1, NULL)).count == 3);
  WANT(held(w, txn, w->records[0][0]) == BS_X && held(w, txn, w->records[1][0]) == BS_NL);
  DONE(bs_table_unlock(w->table, txn, w->records[0][0], NULL));
  WANT(DONE(bs_table_mark(w->table, txn)).count == 2);
  DONE(bs_table_lock_path(w->table, txn, w->records[2][0], BS_X, NULL));
  WANT(DONE(bs_table_release_since(w->table, txn, 2, NULL)).count == 3);
  WANT(held(w, txn, w->files[0]) == BS_IX);
  commit(w, txn);
  /* The next transaction of the slot has no savepoint. */
  txn = begun(w);
  DONE(bs_table_lock_path(w->table, txn, w->records[1][0], BS_X, NULL));
  WANT(DONE(bs_table_release_since(w->table, txn, 1, NULL)).count == 0);
  commit(w, txn);
}

/* ------------------------------------------------------------------------------------------------
 * Threads that move money between rows of several files, by the same calls with one part and with several.
 */

enum { MOVERS = 4, ACCOUNTS = 16, MOVES = 300, FIRST = 100 };

static world bank;
static uint64_t balances[FILES][ACCOUNTS]; /* each read and written with its row */
static bs_node ledgers[FILES];

typedef struct mover {
  pthread_t thread;
  pcg dice;
} mover;

static bool has_row(bs_txn txn, size_t file, size_t account, bs_mode mode) {
  bs_reply reply = bs_table_lock_row_path(bank.table, txn, ledgers[file], account, NULL, 0, mode, NULL);
  WANT(reply.status == BS_DONE || reply.status == BS_VICTIM);
  return reply.status == BS_DONE;
}

/* Moves money between two rows; false if the transaction fell. */
static bool moves(mover *own, bs_txn txn) {
  size_t from = pcg_below(&own->dice, FILES), to = pcg_below(&own->dice, FILES);
  size_t a = pcg_below(&own->dice, ACCOUNTS), b = pcg_below(&own->dice, ACCOUNTS);
  uint64_t amount = pcg_below(&own->dice, 5);
  if (!has_row(txn, from, a, BS_X) || !has_row(txn, to, b, BS_X)) return false;
  if (balances[from][a] < amount || (from == to && a == b)) return true;
  balances[from][a] -= amount;
  nap();
  balances[to][b] += amount;
  return true;
}

/* Reads all, with S on the data base. */
static bool adds_up(bs_txn txn) {
  uint64_t sum = 0;
  size_t i, j;
  bs_reply reply = bs_table_lock_path(bank.table, txn, bank.base, BS_S, NULL);
  if (reply.status == BS_VICTIM) return false;
  DONE(reply);
  for (i = 0; i < FILES; i++) {
    for (j = 0; j < ACCOUNTS; j++) sum += balances[i][j];
  }
  WANT(sum == FILES * ACCOUNTS * FIRST);
  return true;
}

static void *move_often(void *place) {
  mover *own = (mover *)place;
  bs_session session = bs_session_of(bank.table, 16);
  size_t i;
  for (i = 0; i < MOVES; i++) {
    bs_txn txn = DONE(bs_session_begin(&session, NULL)).txn;
    uint64_t since = txn.age;
    while (!(i % 50 == 49 ? adds_up(txn) : moves(own, txn))) {
      DONE(bs_table_abort(bank.table, txn, NULL));
      txn = DONE(bs_session_begin_again(&session, since, NULL)).txn;
    }
    DONE(bs_session_commit(&session, NULL));
  }
  DONE(bs_session_end(&session));
  return NULL;
}

static void threads_move_money(uint32_t parts) {
  mover all[MOVERS];
  bs_txn txn;
  size_t i, j;
  make_world(&bank, parts);
  for (i = 0; i < FILES; i++) ledgers[i] = DONE(bs_table_add_row_file(bank.table, &bank.base, 1)).node;
  for (i = 0; i < FILES; i++) {
    for (j = 0; j < ACCOUNTS; j++) balances[i][j] = FIRST;
  }
  for (i = 0; i < MOVERS; i++) {
    all[i].dice = pcg_new(parts, i);
    start(&all[i].thread, move_often, &all[i]);
  }
  for (i = 0; i < MOVERS; i++) join(all[i].thread);
  txn = begun(&bank);
  WANT(adds_up(txn));
  commit(&bank, txn);
  end_world(&bank);
}

/* ------------------------------------------------------------------------------------------------
 * Memory.
 */

static void refused_memory_makes_no_table(void) {
  const bs_options options = options_with(2);
  bs_table *table = NULL;
  bs_reply reply;
  uint64_t next;
  long before = blocks_out();
  for (next = 1, reply.status = BS_NO_MEMORY; reply.status == BS_NO_MEMORY; next++) {
    refused_allocation = next;
    reply = bs_table_make(&table, &options);
    refused_allocation = 0;
    if (reply.status == BS_NO_MEMORY) WANT(table == NULL && blocks_out() == before);
  }
  DONE(reply);
  DONE(bs_table_end(table));
  DONE(bs_table_free(&table));
}

static void refused_memory_sets_no_savepoint(world *w) {
  bs_txn txn = begun(w);
  DONE(bs_table_lock_path(w->table, txn, w->records[0][0], BS_X, NULL));
  refused_allocation = 1;
  ANSWERS(BS_NO_MEMORY, bs_table_mark(w->table, txn));
  refused_allocation = 0;
  DONE(bs_table_mark(w->table, txn));
  commit(w, txn);
}

/* ------------------------------------------------------------------------------------------------
 * The program.
 */

/* Plays a story with a table of so many parts. A story may end its table. */
static void play_with(bs_options options, void (*of)(world *w)) {
  world w;
  make_world_by(&w, options);
  of(&w);
  if (bs_table_expire(w.table, NULL).status == BS_NO_MANAGER) DONE(bs_table_free(&w.table));
  else end_world(&w);
}

static void play(const char *name, void (*of)(world *w)) {
  story = name;
  feed(20);
  play_with(options_with(PARTS), of);
  printf("%s\n", name);
}

/* The same with one part too, with so many slots, and with deadlocks that a settle ends. */
static void play_both(const char *name, uint32_t slots, void (*of)(world *w)) {
  bs_options options = options_with(1);
  options.transactions = slots;
  options.detect = BS_BY_WATCHER;
  story = name;
  feed(20);
  play_with(options, of);
  options.parts = PARTS;
  play_with(options, of);
  printf("%s\n", name);
}

#define PLAY(name) play(#name, name)
#define PLAY_BOTH(name) play_both(#name, 0, name)
#define PLAY_FEW(name) play_both(#name, FEW, name)

static void play_twins(void) {
  world one, other;
  pcg dice = pcg_new(7, 1);
  size_t i;
  story = "roll_back_twins";
  feed(20);
  make_world(&one, 1);
  make_world(&other, PARTS);
  for (i = 0; i < 5; i++) roll_back_twins(&one, &other, &dice);
  end_world(&one);
  end_world(&other);
  printf("%s\n", story);
}

int main(void) {
  setvbuf(stdout, NULL, _IOLBF, 0);
  feed(20);
  story = "options_say_how_many";
  options_say_how_many();
  printf("%s\n", story);
  PLAY(what_parts_have_not_is_refused);
  PLAY(calls_are_those_of_a_table);
  PLAY(lists_and_sessions_are_run);
  PLAY(asks_are_told);
  PLAY_FEW(begins_are_asked_for);
  PLAY_FEW(asked_begins_end_at_their_times);
  PLAY_FEW(callbacks_end_what_has_begun);
  PLAY_FEW(old_work_is_asked_for);
  PLAY_FEW(asks_and_sleepers_take_turns);
  PLAY_FEW(threads_ask_for_begins);
  PLAY_BOTH(ends_of_lists_are_asked_for);
  PLAY_BOTH(deadlocks_are_settled);
  PLAY_BOTH(watchers_show_cycles);
  PLAY_BOTH(ended_waits_are_taken_off);
  PLAY_BOTH(watchers_are_counted);
  PLAY_BOTH(files_are_moved);
  PLAY_BOTH(numbers_are_written);
  PLAY_BOTH(the_longest_waits_are_known);
  PLAY_BOTH(nodes_are_named);
  PLAY(each_part_is_dumped);
  PLAY(waits_are_timed);
  play_twins();
  PLAY(numbers_release_nothing_older);
  story = "threads_move_money";
  feed(20);
  threads_move_money(1);
  threads_move_money(PARTS);
  threads_move_money(16);
  printf("%s\n", story);
  PLAY(refused_memory_sets_no_savepoint);
  story = "watchers_outlive_their_table";
  watchers_outlive_their_table(1);
  watchers_outlive_their_table(PARTS);
  printf("%s\n", story);
  story = "threads_are_watched";
  threads_are_watched(1);
  threads_are_watched(PARTS);
  printf("%s\n", story);
  story = "refused_memory_makes_no_watcher";
  refused_memory_makes_no_watcher(1);
  refused_memory_makes_no_watcher(PARTS);
  printf("%s\n", story);
  story = "refused_memory_makes_no_table";
  refused_memory_makes_no_table();
  printf("%s\n", story);
  story = "all memory is given back";
  WANT(blocks_out() == 0);
  return 0;
}
