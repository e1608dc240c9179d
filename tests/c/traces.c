/*
 * Stories of a table's trace. Each is a function that ends the program with status 1 at the first thing that is not as
 * wanted, and else prints its name. A whole trace must say what the manager has counted: how many commands it accepted,
 * how many locks were granted, waited and made victims, and how many waits ended in which way.
 *
 *   traces [SECONDS [FOLDER]]   the time that a story may take before it is said to hang, 20 if none is given; and a
 *                               folder where each trace that can be played stays, for traces.sh
 *
 * It is linked with the calls for memory of memory.h.
 */
#include "burlapslate.h"
#include "memory.h"

#include <stdio.h>
#include <time.h>

#include "burlapslate_session.h"
#include "burlapslate_splits.h"

static int noted_create(pthread_t *thread, const pthread_attr_t *attributes, void *(*run)(void *), void *arg);

#define pthread_create noted_create

#include "burlapslate_shared.c"
#include "burlapslate_trace.c"

#undef pthread_create

#include "waiters.h"

/* This many threads are not started. */
static int refused_threads;

static int noted_create(pthread_t *thread, const pthread_attr_t *attributes, void *(*run)(void *), void *arg) {
  if (refused_threads == 0) return pthread_create(thread, attributes, run, arg);
  refused_threads--;
  return EAGAIN;
}

/* ------------------------------------------------------------------------------------------------
 * What a trace says.
 */

static const char *folder;
static FILE *written;

/* The trace is written into a new file. */
static void open_file(void) {
  char name[300];
  snprintf(name, sizeof name, "%s/%s.script", folder == NULL ? "" : folder, story);
  written = folder == NULL ? tmpfile() : fopen(name, "w+");
  WANT(written != NULL);
  traced_into = fileno(written);
}

static void close_file(void) {
  fclose(written);
  traced_into = -1;
}

/* What the lines say, in the counts of the manager. */
struct said {
  bs_counts counts;
  uint64_t lines, dropped; /* answers and notices, also those of comments */
  bool is_cut, has_ended;
};

static bool begins_with(const char *text, const char *with) {
  return strncmp(text, with, strlen(with)) == 0;
}

static void count_told(struct said *said, const char *told) {
  const char *how = strchr(told + 5, ' ');
  WANT(how != NULL);
  if (begins_with(how, " granted ")) said->counts.granted_later++;
  else if (begins_with(how, " victim\n")) said->counts.condemned++;
  else if (begins_with(how, " moved\n")) said->counts.moved++;
  else if (begins_with(how, " gone\n")) said->counts.gone++;
  else WANT(!"it tells in another way");
}

/* Counts a command, as it was answered. */
static void count_command(struct said *said, const char *command, const char *answer) {
  bool is_request = begins_with(command, "lock ") || begins_with(command, "try ");
  said->counts.accepted += begins_with(command, "release ") ? strtoull(answer + 3, NULL, 10) : 1;
  if (is_request && begins_with(answer, "ok ")) said->counts.granted++;
  if (begins_with(answer, "wait\n")) said->counts.waited++;
  if (begins_with(answer, "victim\n")) said->counts.condemned++;
  if (begins_with(command, "escalate ")) said->counts.escalations++;
}

static bool is_digit(char one) {
  return one >= '0' && one <= '9';
}

/* Counts a comment: an answer of the last command, a notice, or what the trace says of itself. */
static void count_comment(struct said *said, char *command, const char *line) {
  const char *text = strchr(line + 2, ' ');
  if (begins_with(line, "# ") && is_digit(line[2]) && strchr(line, '.') == NULL) return;
  if (begins_with(line, "#- ") && is_digit(line[3])) said->lines++;
  if (begins_with(line, "# ") && is_digit(line[2])) {
    WANT(text != NULL);
    said->lines++;
    if (begins_with(text + 1, "told ")) {
      count_told(said, text + 1);
      return;
    }
    WANT(command[0] != 0); /* each command has one answer */
    if (!begins_with(command, "granular ")) count_command(said, command, text + 1);
    command[0] = 0;
  }
  said->is_cut |= strstr(line, ": no line from here on can be played\n") != NULL;
  said->has_ended = sscanf(line, "# The trace has ended: %lu lines were dropped", &said->dropped) == 1;
}

static struct said read_from(FILE *file) {
  static char line[TRACE_LINE], command[TRACE_LINE];
  struct said said;
  memset(&said, 0, sizeof said);
  command[0] = 0;
  rewind(file);
  while (fgets(line, sizeof line, file) != NULL) {
    if (line[0] == '#') {
      count_comment(&said, command, line);
      continue;
    }
    WANT(!said.is_cut && command[0] == 0);
    strcpy(command, line);
  }
  WANT(said.has_ended && command[0] == 0);
  return said;
}

/* The trace has an end, and says what the manager has counted. */
static void says(const bs_counts *counts) {
  struct said said = read_from(written);
  WANT(said.dropped == 0 && !said.is_cut);
  WANT(said.counts.accepted == counts->accepted);
  WANT(said.counts.granted == counts->granted);
  WANT(said.counts.waited == counts->waited);
  WANT(said.counts.granted_later == counts->granted_later);
  WANT(said.counts.condemned == counts->condemned);
  WANT(said.counts.moved == counts->moved);
  WANT(said.counts.gone == counts->gone);
  WANT(said.counts.escalations == counts->escalations);
}

static bs_counts counts_by_now(void) {
  bs_counts counts;
  DONE(bs_counters(bs_table_hold(table), &counts));
  DONE(bs_table_let_go(table));
  return counts;
}

/* Whether the trace has these lines one after the other, without what it says of itself. A `= ` is in place of the time
 * of an answer and a notice. */
static bool has_lines(const char *lines) {
  static char line[TRACE_LINE], all[1 << 16];
  size_t length = 0;
  rewind(written);
  while (fgets(line, sizeof line, written) != NULL && length + 2 * sizeof line < sizeof all) {
    bool is_answer = begins_with(line, "# ") && is_digit(line[2]) && strchr(line, '.') != NULL;
    const char *text = is_answer ? strchr(line + 2, ' ') + 1 : line;
    if (line[0] == '#' && !is_answer) continue;
    length += (size_t)sprintf(all + length, "%s%s", is_answer ? "= " : "", text);
  }
  return strstr(all, lines) != NULL;
}

/* A table with the store, which is traced. */
static void begin_trace(uint32_t detect) {
  open_file();
  set_up(detect);
}

/* Ends the table, and so its trace, which has these lines. */
static void end_trace_with(const char *lines) {
  bs_counts counts = counts_by_now();
  close_table();
  says(&counts);
  WANT(has_lines(lines));
  close_file();
}

static void end_trace(void) {
  end_trace_with("");
}

/* ------------------------------------------------------------------------------------------------
 * Traces of calls.
 */

static void waits_and_a_deadlock(void) {
  struct heard a, b;
  bs_txn one, two;
  begin_trace(BS_AT_BLOCK);
  one = begin_writer(), two = begin_writer();
  DONE(bs_table_lock(table, one, low, BS_X, NULL));
  DONE(bs_table_lock(table, two, high, BS_X, NULL));
  WAITS(ask(&a, one, high, BS_X));
  ANSWERS(BS_VICTIM, bs_table_ask(table, two, low, BS_X, NULL, &b));
  DONE(bs_table_abort(table, two, NULL));
  HEARD(&a, BS_DONE);
  ANSWERS(BS_NEED_PARENTS, bs_table_lock(table, begin(), low, BS_S, NULL)); /* refused: no line */
  ANSWERS(BS_NO_SUCH_TXN, bs_table_commit(table, two, NULL));
  DONE(bs_table_unlock(table, one, high, &told));
  DONE(bs_table_commit(table, one, NULL));
  end_trace_with("lock t0 X n11\n= wait\nlock t1 X n10\n= victim\nabort t1\n= ok\n= told t0 granted X n11\n");
}

/* A victim that waits, settled by a thread that watches, and one that is settled by its name. */
static void watched_deadlocks(void) {
  struct heard a, b;
  bs_txn one, two;
  begin_trace(BS_BY_WATCHER);
  one = begin_writer(), two = begin_writer();
  DONE(bs_table_lock(table, one, low, BS_X, NULL));
  DONE(bs_table_lock(table, two, high, BS_X, NULL));
  WAITS(ask(&a, one, high, BS_X));
  WAITS(ask(&b, two, low, BS_X));
  DONE(bs_table_settle(table, one, &told));
  HEARD(&b, BS_VICTIM);
  DONE(bs_table_abort(table, two, NULL));
  HEARD(&a, BS_DONE);
  DONE(bs_table_unlock(table, one, high, NULL));
  DONE(bs_table_watch_thread(table, 0));
  two = begin_writer();
  DONE(bs_table_lock(table, two, high, BS_X, NULL));
  WAITS(ask(&b, two, low, BS_X));
  ask(&a, one, high, BS_X);
  HEARD(&b, BS_VICTIM);
  DONE(bs_table_abort(table, two, NULL));
  HEARD(&a, BS_DONE);
  end_trace_with("= told t1 victim\nabort t1\n= ok\n= told t0 granted X n11\n");
}

/* Each lock of a path has its line, to write and to read, with one that waits above, and one for an instant. */
static void paths(void) {
  struct heard h;
  bs_txn holder, other, reader;
  begin_trace(BS_AT_BLOCK);
  holder = begin(), other = begin(), reader = begin();
  DONE(bs_table_lock_path(table, holder, file, BS_X, NULL));
  WAITS(ask_path(&h, other, low, BS_X));
  DONE(bs_table_commit(table, holder, NULL));
  HEARD(&h, BS_DONE);
  DONE(bs_table_lock_path(table, reader, high, BS_S, NULL));
  DONE(bs_table_lock_path(table, reader, above, BS_IS, NULL));
  ANSWERS(BS_TIMED_OUT, bs_table_lock_path(table, reader, low, BS_S, &(struct timespec){ 1, 0 }));
  DONE(bs_table_lock_path(table, reader, rows_below, BS_X | BS_INSTANT, NULL));
  WAITS(ask(&h, reader, low, BS_S | BS_INSTANT));
  DONE(bs_table_commit(table, other, &told));
  HEARD(&h, BS_DONE);
  DONE(bs_table_commit(table, reader, NULL));
  end_trace_with("lock t1 IX n1\n= ok IX\nlock t1 IX n2\n= wait\ncommit t0\n= ok\n= told t1 granted IX n2\n"
                 "lock t1 IX n3\n= ok IX\nlock t1 IX n3.0\n= ok IX\nlock t1 X n10\n= ok X\n"
                 "lock t2 IS n1\n= ok IS\nlock t2 IS n2\n= ok IS\nlock t2 S n11\n= ok S\n"
                 "lock t2 IS n3\n= ok IS\nlock t2 IS n3.1\n= ok IS\nlock t2 S n10\n= wait\ncancel t2\n= ok\n"
                 "lock t2 IX n1\n= ok IX\nlock t2 IX n7\n= ok IX\nlock t2 X n7.0\n= ok X\nunlock t2 n7.0\n= ok\n"
                 "lock t2 S n10\n= wait\ncommit t1\n= ok\n= told t2 granted S n10\nunlock t2 n10\n= ok\n");
}

/* Tries of paths, which keep their way, or give it back. */
static void tries(void) {
  bs_txn holder, other;
  begin_trace(BS_AT_BLOCK);
  holder = begin(), other = begin();
  DONE(bs_table_lock_path(table, holder, low, BS_X, NULL));
  ANSWERS(BS_WOULD_BLOCK, bs_table_try_path(table, other, low, BS_X, BS_KEEP_NOTHING));
  WANT(ASK(table, bs_lock_count, other).count == 0);
  ANSWERS(BS_WOULD_BLOCK, bs_table_try_path(table, other, low, BS_X, BS_KEEP_WAY));
  WANT(ASK(table, bs_lock_count, other).count == 4);
  DONE(bs_table_try_path(table, other, high, BS_S, BS_KEEP_NOTHING));
  DONE(bs_table_try(table, other, above, BS_X | BS_INSTANT));
  ANSWERS(BS_WOULD_BLOCK, bs_table_try(table, other, below, BS_S));
  DONE(bs_table_release_since(table, other, 2, NULL));
  DONE(bs_table_release_since(table, other, 9, NULL));
  DONE(bs_table_escalate(table, holder, below, NULL));
  DONE(bs_table_commit(table, holder, NULL));
  DONE(bs_table_commit(table, other, NULL));
  end_trace();
}

/* A row has a node while it is locked: it is adopted and forgotten, by whichever call. */
static void rows_come_and_go(void) {
  struct heard h;
  uint64_t key = LOW_KEY, other_key = HIGH_KEY;
  bs_txn one, two;
  bs_node node;
  begin_trace(BS_AT_BLOCK);
  one = begin_writer(), two = begin_writer();
  DONE(lock_row(one, LOW_KEY, BS_X, NULL));
  ANSWERS(BS_OTHER_KEYS, lock_row(one, HIGH_KEY, BS_X, NULL));
  WAITS(ask_row(&h, two, LOW_KEY, BS_S));
  DONE(bs_table_rekey_row(table, one, rows, ROW, by_row_key, HIGH_KEY, NULL));
  DONE(bs_table_unlock_row(table, one, rows, ROW, NULL));
  HEARD(&h, BS_OTHER_KEYS);
  ANSWERS(BS_WOULD_BLOCK, bs_table_try_row(table, one, rows, ROW, &key, 1, BS_X));
  ANSWERS(BS_OTHER_KEYS, bs_table_try_row(table, one, rows, ROW, &key, 1, BS_S));
  DONE(bs_table_try_row(table, one, rows, ROW + 1, &key, 1, BS_X));
  node = DONE(ASK(table, bs_row_node, rows, ROW + 1)).node;
  DONE(bs_table_unlock(table, one, node, NULL)); /* the row keeps its node */
  DONE(bs_table_try_row(table, two, rows, ROW + 1, &other_key, 1, BS_X)); /* and gets another */
  begin_asking(&h, one, NULL);
  WAITS(bs_table_ask_row(table, one, rows, ROW + 1, &key, 1, BS_S, NULL, &h));
  asking = NULL;
  DONE(bs_table_cancel(table, one, NULL));
  HEARD(&h, BS_NOT_WAITING);
  DONE(bs_table_commit(table, two, NULL));
  ANSWERS(BS_OTHER_KEYS, lock_row(one, LOW_KEY, BS_S, NULL));
  DONE(bs_table_escalate(table, one, rows_above, NULL));
  DONE(bs_table_commit(table, one, NULL));
  WANT(!ASK(table, bs_has_records, rows).count);
  end_trace();
}

/* A row that is locked with what is above it, at once and after waits above it and for it: it is adopted as its waiter
 * goes on. */
static void rows_with_what_is_above_them(void) {
  static const uint64_t key = LOW_KEY;
  struct heard h;
  bs_txn holder, other;
  begin_trace(BS_AT_BLOCK);
  holder = begin(), other = begin();
  DONE(lock_row_path(other, LOW_KEY, BS_S, NULL));
  DONE(bs_table_commit(table, other, NULL));
  other = begin();
  DONE(bs_table_lock_path(table, holder, rows_below, BS_X, NULL));
  WAITS(ask_row_path(&h, other, LOW_KEY, BS_X, NULL));
  DONE(bs_table_commit(table, holder, NULL));
  HEARD(&h, BS_DONE);
  holder = begin();
  WAITS(ask_row_path(&h, holder, LOW_KEY, BS_X, NULL));
  DONE(bs_table_lock_path(table, other, rows_above, BS_IX, NULL));
  DONE(bs_table_rekey_row(table, other, rows, ROW, by_row_key, HIGH_KEY, NULL));
  DONE(bs_table_commit(table, other, NULL));
  HEARD(&h, BS_OTHER_KEYS);
  other = begin();
  ANSWERS(BS_WOULD_BLOCK, bs_table_try_row_path(table, other, rows, ROW, &key, 1, BS_X, BS_KEEP_NOTHING));
  DONE(bs_table_try_row_path(table, other, rows, ROW + 1, &key, 1, BS_X, BS_KEEP_NOTHING));
  DONE(bs_table_commit(table, holder, NULL));
  DONE(bs_table_commit(table, other, NULL));
  end_trace();
}

/* Records and the schema change under waiters. */
static void nodes_change(void) {
  static const uint64_t bounds[2] = { 10, 20 };
  struct heard h;
  bs_txn one, two;
  bs_node archive, added, index;
  begin_trace(BS_AT_BLOCK);
  archive = add_root();
  one = begin_writer(), two = begin_writer();
  added = DONE(bs_table_insert(table, one, file, &bounds[0], 1)).node;
  DONE(bs_table_rekey(table, one, added, by_key, 150, NULL));
  WAITS(ask(&h, two, added, BS_S));
  DONE(bs_table_delete(table, one, added, NULL));
  HEARD(&h, BS_GONE);
  DONE(bs_table_commit(table, two, NULL));
  DONE(bs_table_lock(table, one, archive, BS_X, NULL));
  DONE(bs_table_lock(table, one, rows, BS_X, NULL));
  DONE(bs_table_lock(table, one, by_row_key, BS_X, NULL));
  DONE(bs_table_drop(table, one, by_row_key, NULL));
  index = DONE(bs_table_index_by(table, one, &archive, 1, rows, bounds, 2)).node;
  DONE(bs_table_move(table, one, rows, &archive, 1, NULL));
  DONE(bs_table_drop(table, one, index, NULL));
  DONE(bs_table_drop(table, one, rows, NULL));
  DONE(bs_table_lock(table, one, root, BS_X, NULL));
  DONE(bs_table_move(table, one, root, &archive, 1, NULL));
  DONE(bs_table_move(table, one, root, NULL, 0, NULL));
  added = DONE(bs_table_adopt(table, file, &bounds[0], 1)).node;
  DONE(bs_table_forget(table, added));
  DONE(bs_table_add_index(table, &archive, 1, DONE(bs_table_add_file(table, &archive, 1)).node, NULL, 0));
  DONE(bs_table_commit(table, one, NULL));
  end_trace();
}

/* Intervals are split and merged under waiters. They are named by their places, which shift. */
static void intervals_change(void) {
  struct heard reader, other;
  bs_command list[3];
  bs_txn one, two, three;
  bs_node part;
  begin_trace(BS_AT_BLOCK);
  one = begin(), two = begin(), three = begin();
  DONE(bs_table_lock_path(table, one, below, BS_X, NULL));
  DONE(bs_table_lock_path(table, one, above, BS_X, NULL));
  DONE(bs_table_lock_path(table, two, by_key, BS_IS, NULL));
  WAITS(ask_path(&reader, three, below, BS_S));
  WAITS(ask(&other, two, above, BS_S));
  ANSWERS(BS_BAD_KEYS, bs_table_split(table, one, below, 100, &told)); /* refused: no line */
  part = DONE(bs_table_split(table, one, below, 60, &told)).node;
  DONE(bs_table_split(table, one, above, UINT64_MAX, &told));
  HEARD(&other, BS_MOVED);
  WAITS(ask(&other, two, above, BS_S));
  list[0] = bs_do_at(BS_DO_MERGE, one, part, BS_NL);
  list[1] = bs_do_at(BS_DO_SPLIT, one, part, BS_NL), list[1].key = 80;
  list[2] = bs_do(BS_DO_COMMIT, one);
  WANT(bs_table_run(table, list, 3) == 3);
  HEARD(&other, BS_GONE);
  HEARD(&reader, BS_DONE);
  DONE(bs_table_lock_path(table, two, part, BS_S, NULL));
  DONE(bs_table_commit(table, two, NULL));
  DONE(bs_table_commit(table, three, NULL));
  end_trace_with("split t0 n3.0 at 60\n= ok\n= told t2 moved\n");
}

/* A trace has no line for an index beside records: there is none while it lasts. One of a file without records has. */
static void indexes_beside_records(void) {
  static const uint64_t bound = 10, key = 150;
  bs_node top, books, added;
  bs_txn one;
  begin_trace(BS_AT_BLOCK);
  top = add_root();
  books = DONE(bs_table_add_file(table, &top, 1)).node;
  one = begin();
  DONE(bs_table_lock_path(table, one, books, BS_X, NULL));
  added = DONE(bs_table_insert(table, one, books, NULL, 0)).node;
  DONE(bs_table_unlock(table, one, added, NULL));
  ANSWERS(BS_NOT_WRITTEN, bs_table_index_records(table, one, &top, 1, books, &bound, 1, &added, &key, 1));
  ANSWERS(BS_NOT_WRITTEN, bs_table_index_records(table, one, NULL, 1, books, &bound, 1, NULL, NULL, 1));
  WANT(ASK(table, bs_index, books, 0).status == BS_NO_PLACE);
  DONE(bs_table_forget(table, added));
  DONE(bs_table_index_records(table, one, &top, 1, books, &bound, 1, NULL, NULL, 0));
  DONE(bs_table_commit(table, one, NULL));
  end_trace();
}

/* A whole transaction is one list, with a wait that is awaited. */
static void lists(void) {
  bs_command list[6];
  bs_txn one;
  uint64_t key = HIGH_KEY;
  begin_trace(BS_AT_BLOCK);
  one = begin_writer();
  list[0] = bs_do(BS_DO_BEGIN, bs_begun());
  list[1] = bs_do_at(BS_DO_LOCK_PATH, bs_begun(), rows_above, BS_IX);
  list[2] = bs_do_at(BS_DO_LOCK, bs_begun(), rows, BS_IX);
  list[3] = bs_do(BS_DO_LOCK_ROW, bs_begun());
  list[3].file = rows, list[3].number = ROW, list[3].keys = &key, list[3].key_count = 1, list[3].mode = BS_X;
  list[4] = bs_do(BS_DO_RELEASE_SINCE, bs_begun());
  list[4].number = 4;
  list[5] = bs_do(BS_DO_RENEW, bs_begun());
  list[5].number = UINT64_MAX;
  WANT(bs_table_run(table, list, 6) == 6);
  DONE(bs_table_commit(table, list[5].reply.txn, NULL));
  list[0] = bs_do(BS_DO_BEGIN_AGAIN, bs_begun());
  list[0].number = one.age;
  list[1] = bs_do_at(BS_DO_LOCK_PATH, bs_begun(), above, BS_IS);
  list[2] = bs_do_at(BS_DO_TRY, bs_begun(), above, BS_IS);
  list[3] = bs_do_at(BS_DO_LOCK, bs_begun(), high, BS_S | BS_INSTANT);
  list[4] = bs_do_at(BS_DO_UNLOCK, bs_begun(), above, BS_NL);
  list[5] = bs_do(BS_DO_COMMIT, bs_begun());
  WANT(bs_table_run(table, list, 6) == 6);
  DONE(bs_table_commit(table, one, NULL));
  end_trace();
}

static void *begin_in_turn_again(void *arg) {
  struct sleeper *s = (struct sleeper *)arg;
  s->reply = bs_table_begin_again_in_turn(table, 1, NULL);
  return NULL;
}

/* More threads and asks than slots: each begins in its turn, within the call that frees a slot, before the list
 * continues. */
static void begins_in_turn(void) {
  struct sleeper s[2];
  struct heard h[2];
  bs_txn txns[BS_SLOTS];
  bs_command list[3];
  size_t i;
  open_file();
  DONE(make_table(&table, BS_AT_BLOCK, BS_YOUNGEST, 4));
  DONE(bs_table_on_end(table, hear, &context_word));
  DONE(bs_table_trace(table, traced_into));
  for (i = 0; i < 4; i++) txns[i] = begin();
  for (i = 0; i < 2; i++) {
    s[i] = sleeper_of(BY_BEGIN, txns[0], root, BS_NL);
    start(&s[i].thread, i == 0 ? fall_asleep : begin_in_turn_again, &s[i]);
    await_sleepers(i + 1);
  }
  for (i = 0; i < 2; i++) {
    begin_asking(&h[i], bs_call_only(BS_DONE).txn, NULL);
    h[i].begins = true;
    WAITS(i == 0 ? bs_table_ask_begin(table, NULL, &h[i]) : bs_table_ask_begin_again(table, 2, NULL, &h[i]));
  }
  asking = NULL;
  list[0] = bs_do(BS_DO_COMMIT, txns[3]);
  list[1] = bs_do(BS_DO_ADD_INNER, bs_begun());
  list[2] = bs_do(BS_DO_ABORT, txns[1]);
  WANT(bs_table_run(table, list, 3) == 3);
  for (i = 0; i < 2; i++) WANT(BACK(&s[i], BS_DONE).txn.age == 5 + i);
  WANT(s[0].reply.txn.slot == 3 && s[1].reply.txn.slot == 1);
  DONE(bs_table_commit(table, txns[0], NULL));
  DONE(bs_table_abort(table, txns[2], NULL));
  for (i = 0; i < 2; i++) WANT(HEARD_BY_NOW(&h[i], BS_DONE).txn.age == 7 + i);
  end_trace_with("commit t3\n= ok\nbegin t3\n= ok\ninner n1\n= ok\nabort t1\n= ok\nbegin t1 again 1\n= ok\n"
                 "commit t0\n= ok\nbegin t0\n= ok\nabort t2\n= ok\nbegin t2 again 2\n= ok\n");
}

/* What was told and written is what the calls answered: threads jostle for a few nodes. */
enum { CROWD = 8, CROWD_NODES = 3 };

static bs_node crowd_nodes[CROWD_NODES];

static void *jostle(void *arg) {
  uint64_t dice = 88172645463325252u + (uint64_t)(uintptr_t)arg;
  size_t i, j;
  for (i = 0; i < 100; i++) {
    bs_txn txn = DONE(bs_table_begin_in_turn(table, NULL)).txn;
    bs_status last = BS_DONE;
    for (j = 0; j < 4 && last != BS_VICTIM; j++) {
      struct timespec until = moment_in(200);
      uint64_t key = roll(&dice, 2) * 150;
      bs_node interval = key < 100 ? rows_below : rows_above;
      if (roll(&dice, 4) != 0) {
        bs_mode mode = roll(&dice, 2) == 0 ? BS_S : BS_X;
        last = bs_table_lock(table, txn, crowd_nodes[roll(&dice, CROWD_NODES)], mode, &until).status;
        continue;
      }
      if (roll(&dice, 2) == 0) {
        last = bs_table_lock_row_path(table, txn, rows, roll(&dice, 3), &key, 1, BS_X, &until).status;
        continue;
      }
      last = bs_table_lock_path(table, txn, rows, BS_IX, &until).status;
      if (last == BS_DONE) last = bs_table_lock_path(table, txn, interval, BS_IX, &until).status;
      if (last == BS_DONE) last = bs_table_lock_row(table, txn, rows, roll(&dice, 3), &key, 1, BS_X, &until).status;
    }
    DONE(bs_table_abort(table, txn, NULL));
  }
  return NULL;
}

static void a_crowd(void) {
  pthread_t threads[CROWD];
  size_t i;
  begin_trace(BS_AT_BLOCK);
  for (i = 0; i < CROWD_NODES; i++) crowd_nodes[i] = add_root();
  for (i = 0; i < CROWD; i++) start(&threads[i], jostle, (void *)i);
  for (i = 0; i < CROWD; i++) join(threads[i]);
  end_trace();
}

enum { SESSIONS = 128, OF_A_SESSION = 12 };

/* A node is made below the root, and dropped. */
static bs_status change_schema(bs_txn txn, const struct timespec *until) {
  bs_node node = DONE(bs_table_add_inner(table, &root, 1)).node;
  bs_status last = bs_table_lock_path(table, txn, node, BS_X, until).status;
  if (last == BS_DONE) DONE(bs_table_drop(table, txn, node, NULL));
  return last;
}

/* Mostly a record is written; a tenth reads more, one in a hundred all, and one in fifty changes the schema. */
static bs_status work_in_session(bs_txn txn, uint64_t *dice) {
  struct timespec until = moment_in(200);
  bool reads = roll(dice, 10) == 0, is_low = roll(dice, 2) == 0;
  bs_node node = reads ? (is_low ? file : above) : (is_low ? low : high);
  if (roll(dice, 50) == 0) return change_schema(txn, &until);
  if (roll(dice, 100) == 0) return bs_table_lock_path(table, txn, root, BS_S, &until).status;
  return bs_table_lock_path(table, txn, node, reads ? BS_S : BS_X, &until).status;
}

/* A session of a thread: its renewals are in the trace, and who is ended since it was in somebody's way. */
static void *jostle_in_a_session(void *arg) {
  uint64_t dice = 88172645463325252u + (uint64_t)(uintptr_t)arg * 7919u;
  bs_session own = bs_session_of(table, 4);
  size_t i;
  for (i = 0; i < OF_A_SESSION; i++) {
    bs_txn txn = DONE(bs_session_begin(&own, NULL)).txn;
    if (work_in_session(txn, &dice) == BS_VICTIM) DONE(bs_table_abort(table, txn, NULL));
    else DONE(bs_session_commit(&own, NULL));
  }
  return NULL;
}

static void a_crowd_of_sessions(void) {
  pthread_t threads[SESSIONS];
  bs_waits waits;
  size_t i;
  begin_trace(BS_AT_BLOCK);
  for (i = 0; i < SESSIONS; i++) start(&threads[i], jostle_in_a_session, (void *)i);
  for (i = 0; i < SESSIONS; i++) join(threads[i]);
  DONE(bs_table_waits(table, &waits));
  WANT(waits.waiting == 0);
  end_trace();
}

/* ------------------------------------------------------------------------------------------------
 * What cannot be played.
 */

/* An index with too many bounds for a line, made before the trace began or after. */
static void a_line_is_too_long(void) {
  uint64_t bounds[200];
  size_t i, count;
  for (i = 0; i < 200; i++) bounds[i] = UINT64_MAX - 200 + i;
  for (count = 20; count <= 200; count += 180) {
    struct said said;
    written = tmpfile();
    DONE(bs_table_make(&table, NULL));
    root = add_root();
    file = DONE(bs_table_add_file(table, &root, 1)).node;
    if (count == 20) DONE(bs_table_add_index(table, &root, 1, file, bounds, count));
    DONE(bs_table_trace(table, fileno(written)));
    if (count != 20) DONE(bs_table_add_index(table, &root, 1, file, bounds, count));
    DONE(bs_table_commit(table, begin(), NULL));
    DONE(bs_table_trace_end(table));
    said = read_from(written);
    WANT(said.is_cut && said.dropped == 0 && said.counts.accepted == 2 && said.lines == 6);
    fclose(written);
    close_table();
  }
}

/* The bounds of an index that was there before are found. */
static void bounds_are_found(void) {
  static const uint64_t bounds[3] = { 1, 77, UINT64_MAX };
  char text[400];
  size_t length;
  written = tmpfile();
  DONE(bs_table_make(&table, NULL));
  root = add_root();
  file = DONE(bs_table_add_file(table, &root, 1)).node;
  DONE(bs_table_add_index(table, &root, 1, file, bounds, 3));
  DONE(bs_table_add_index(table, &root, 1, file, NULL, 0));
  DONE(bs_table_trace(table, fileno(written)));
  close_table();
  rewind(written);
  length = fread(text, 1, sizeof text - 1, written);
  text[length] = 0;
  WANT(strstr(text, "\nindex n3 : n1 on n2 at 1 77 18446744073709551615\n# ") != NULL);
  WANT(strstr(text, "\nindex n8 : n1 on n2 at\n# ") != NULL);
  fclose(written);
}

/* Reads a pipe to its end into a file. */
static void *drain(void *arg) {
  int from = *(int *)arg;
  char text[4096];
  ssize_t length;
  written = tmpfile();
  while ((length = read(from, text, sizeof text)) > 0) WANT(fwrite(text, 1, (size_t)length, written) == (size_t)length);
  return NULL;
}

/* Whether the thread that writes has taken all lines. */
static bool is_ring_empty(void) {
  const bs_trace *trace = table->trace;
  return __atomic_load_n(&trace->tail, __ATOMIC_ACQUIRE) == __atomic_load_n(&trace->head, __ATOMIC_ACQUIRE);
}

static uint64_t notices_heard;

static void count_notice(void *context, bs_txn txn, bs_reply end, void *word) {
  (void)context, (void)txn, (void)end, (void)word;
  notices_heard++;
}

/* A wait that is granted: six answers and a notice. */
static void wait_once(bs_node node) {
  bs_txn one = begin(), two = begin();
  DONE(bs_table_lock(table, one, node, BS_X, NULL));
  WAITS(bs_table_ask(table, two, node, BS_X, NULL, NULL));
  DONE(bs_table_commit(table, one, NULL));
  DONE(bs_table_commit(table, two, NULL));
}

/* Nobody reads for a while: no call waits, and what was dropped is counted. */
static void a_slow_reader_loses_lines(void) {
  uint64_t lines = 2, lost;
  pthread_t thread;
  struct said said;
  int ends[2];
  size_t i;
  WANT(pipe(ends) == 0);
  DONE(bs_table_make(&table, NULL));
  DONE(bs_table_on_end(table, count_notice, NULL));
  DONE(bs_table_trace(table, ends[1]));
  WANT(close(ends[1]) == 0);
  root = add_root();
  for (i = 0; i < 120000; i++, lines += 2) DONE(bs_table_commit(table, begin(), NULL));
  for (i = 0; i < 10; i++, lines += 7) wait_once(root);
  WANT(notices_heard == 10);
  start(&thread, drain, &ends[0]);
  while (!is_ring_empty()) nap();
  for (i = 0; i < 1000; i++, lines += 2) DONE(bs_table_commit(table, begin(), NULL));
  lost = DONE(bs_table_trace_end(table)).count;
  join(thread);
  said = read_from(written);
  WANT(lost > 0 && said.is_cut && said.dropped == lost);
  WANT(said.lines + lost == lines);
  fclose(written);
  close(ends[0]);
  close_table();
}

/* A write fails: the trace says so when it ends, with how many lines were not written. No signal is raised. */
static void a_write_fails(void) {
  int ends[2], full = open("/dev/full", O_WRONLY);
  size_t i;
  WANT(full >= 0 && pipe(ends) == 0);
  close(ends[0]);
  for (i = 0; i < 2; i++) {
    DONE(bs_table_make(&table, NULL));
    DONE(bs_table_trace(table, i == 0 ? full : ends[1]));
    DONE(bs_table_commit(table, begin(), NULL));
    while (!is_ring_empty()) nap();
    DONE(bs_table_commit(table, begin(), NULL));
    WANT(ANSWERS(BS_NOT_WRITTEN, bs_table_trace_end(table)).count == 4);
    ANSWERS(BS_NO_TRACE, bs_table_trace_end(table));
    close_table();
  }
  close(full);
  close(ends[1]);
}

/* Whether a pipe takes no more. */
static bool is_full(int end) {
  struct pollfd ready = { 0, POLLOUT, 0 };
  ready.fd = end;
  return poll(&ready, 1, 0) == 0;
}

/* A pipe that would make a writer wait is waited for. */
static void a_pipe_does_not_block(void) {
  bs_counts counts;
  pthread_t thread;
  int ends[2];
  size_t i;
  WANT(pipe(ends) == 0 && fcntl(ends[1], F_SETFL, O_NONBLOCK) == 0);
  DONE(bs_table_make(&table, NULL));
  DONE(bs_table_trace(table, ends[1]));
  for (i = 0; i < 5000; i++) DONE(bs_table_commit(table, begin(), NULL));
  counts = counts_by_now();
  while (!is_full(ends[1])) nap();
  nap(); /* the writer has tried again */
  close(ends[1]);
  start(&thread, drain, &ends[0]);
  close_table();
  join(thread);
  says(&counts);
  fclose(written);
  close(ends[0]);
}

/* The end of a row that could not be noted is not said, and so nothing after it can be played. */
static void a_row_that_is_not_noted(void) {
  struct said said;
  bs_txn one;
  open_file();
  set_up(BS_AT_BLOCK);
  one = begin_writer();
  DONE(lock_row(one, LOW_KEY, BS_X, NULL));
  free(table->trace->rows.at);
  memset(&table->trace->rows, 0, sizeof table->trace->rows); /* as if there had been no memory */
  DONE(bs_table_commit(table, one, NULL));
  DONE(bs_table_commit(table, begin(), NULL));
  close_table();
  said = read_from(written);
  WANT(said.is_cut && said.dropped == 0);
  close_file();
}

/* A script has 128 transactions at once. */
static void there_are_too_many(void) {
  size_t i;
  written = tmpfile();
  DONE(bs_table_make(&table, NULL));
  DONE(bs_table_trace(table, fileno(written)));
  for (i = 0; i < BS_SLOTS; i++) begin();
  close_table();
  WANT(read_from(written).is_cut == (BS_SLOTS > 128));
  fclose(written);
}

/* ------------------------------------------------------------------------------------------------
 * Traces that are refused, and that end.
 */

static void it_is_too_late(void) {
  static const uint64_t key = 5;
  bs_node record;
  int null = open("/dev/null", O_WRONLY);
  DONE(bs_table_make(&table, NULL));
  root = add_root();
  file = DONE(bs_table_add_file(table, &root, 1)).node;
  by_key = DONE(bs_table_add_index(table, &root, 1, file, &key, 1)).node;
  DONE(bs_table_trace(table, null));
  ANSWERS(BS_IN_USE, bs_table_trace(table, null));
  DONE(bs_table_trace_end(table));
  DONE(bs_table_trace(table, null)); /* still early enough */
  DONE(bs_table_trace_end(table));
  record = DONE(bs_table_adopt(table, file, &key, 1)).node;
  ANSWERS(BS_TOO_LATE, bs_table_trace(table, null));
  DONE(bs_table_forget(table, record));
  ANSWERS(BS_TOO_LATE, bs_table_trace(table, null));
  close_table();
  DONE(bs_table_make(&table, NULL));
  DONE(bs_table_commit(table, begin(), NULL));
  ANSWERS(BS_TOO_LATE, bs_table_trace(table, null));
  close_table();
  close(null);
}

static void end_it_within(struct heard *h) {
  (void)h;
  ANSWERS(BS_IN_USE, bs_table_trace_end(table));
}

static void misuse_is_refused(void) {
  struct heard h;
  bs_txn one, two;
  int reads = open("/dev/null", O_RDONLY), null = open("/dev/null", O_WRONLY);
  ANSWERS(BS_NULL_POINTER, bs_table_trace(NULL, null));
  ANSWERS(BS_NULL_POINTER, bs_table_trace_end(NULL));
  DONE(bs_table_make(&table, NULL));
  ANSWERS(BS_NO_TRACE, bs_table_trace_end(table));
  ANSWERS(BS_BAD_NUMBER, bs_table_trace(table, -1));
  ANSWERS(BS_BAD_NUMBER, bs_table_trace(table, reads));
  close(reads);
  ANSWERS(BS_BAD_NUMBER, bs_table_trace(table, reads));
  bs_table_hold(table);
  ANSWERS(BS_IN_USE, bs_table_trace(table, null));
  ANSWERS(BS_IN_USE, bs_table_trace_end(table));
  DONE(bs_table_let_go(table));
  DONE(bs_table_end(table));
  ANSWERS(BS_NO_MANAGER, bs_table_trace(table, null));
  ANSWERS(BS_NO_MANAGER, bs_table_trace_end(table));
  DONE(bs_table_free(&table));
  traced_into = null;
  set_up(BS_AT_BLOCK);
  one = begin(), two = begin();
  DONE(bs_table_lock(table, one, root, BS_X, NULL));
  begin_asking(&h, two, end_it_within);
  asking = NULL;
  WAITS(bs_table_ask(table, two, root, BS_X, NULL, &h));
  DONE(bs_table_commit(table, one, NULL));
  HEARD(&h, BS_DONE);
  close_table();
  close(null);
  traced_into = -1;
}

/* A trace ends before its table: what comes after it is not in it. */
static void a_trace_ends_first(void) {
  bs_counts counts;
  open_file();
  set_up(BS_AT_BLOCK);
  DONE(bs_table_commit(table, begin_writer(), NULL));
  counts = counts_by_now();
  WANT(DONE(bs_table_trace_end(table)).count == 0);
  DONE(bs_table_commit(table, begin_writer(), NULL));
  says(&counts);
  close_table();
  says(&counts);
  close_file();
}

/* A trace that could not begin leaves nothing. */
static void there_is_no_memory(void) {
  int null = open("/dev/null", O_WRONLY);
  long before;
  DONE(bs_table_make(&table, NULL));
  before = blocks_out();
  for (refused_allocation = 1; refused_allocation <= 3;) {
    long place = refused_allocation;
    ANSWERS(BS_NO_MEMORY, bs_table_trace(table, null));
    WANT(blocks_out() == before);
    refused_allocation = place + 1;
  }
  refused_allocation = 0;
  refused_threads = 1;
  ANSWERS(BS_NO_MEMORY, bs_table_trace(table, null));
  WANT(refused_threads == 0 && blocks_out() == before);
  ANSWERS(BS_NO_TRACE, bs_table_trace_end(table));
  DONE(bs_table_trace(table, null));
  close_table();
  close(null);
}

int main(int count, char **words) {
  setvbuf(stdout, NULL, _IONBF, 0);
  if (count > 1) patience = (unsigned)atoi(words[1]);
  if (count > 2) folder = words[2];
  TELL(waits_and_a_deadlock);
  TELL(watched_deadlocks);
  TELL(paths);
  TELL(tries);
  TELL(rows_come_and_go);
  TELL(rows_with_what_is_above_them);
  TELL(nodes_change);
  TELL(indexes_beside_records);
  TELL(intervals_change);
  TELL(lists);
  TELL(begins_in_turn);
  TELL(a_crowd);
  TELL(a_crowd_of_sessions);
  TELL(a_line_is_too_long);
  TELL(bounds_are_found);
  TELL(a_slow_reader_loses_lines);
  TELL(a_write_fails);
  TELL(a_pipe_does_not_block);
  TELL(a_row_that_is_not_noted);
  TELL(there_are_too_many);
  TELL(it_is_too_late);
  TELL(misuse_is_refused);
  TELL(a_trace_ends_first);
  TELL(there_is_no_memory);
  return 0;
}
