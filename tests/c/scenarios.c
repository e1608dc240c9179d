/*
 * Random calls of a shared table, made by one thread so that their order is fixed, and compared with a model of the
 * table. Every kind of call is made that does not sleep: asks for nodes, paths and rows, with and without BS_INSTANT
 * and times, lists of commands, tries, savepoints, changes of the graph, times that are over, and tables that end. The
 * callback hears each end of an ask and makes calls itself, so that ends cause ends, three deep.
 *
 *   scenarios [CALLS [SEED]]   how many calls are made, 100,000 if none is given; and the seed of the first scenario, 1
 *                              if none is given. A scenario has 1,000 calls. Its seed determines them, and how its
 *                              table is made.
 *
 * The rules of the model are at the head of scenario_model.h. Each answer, each told list and each told end is
 * compared, and after each call the whole state: the transactions, what they hold, where and for whom they wait, and
 * the graph. At the end of a scenario the waits that the table has timed are those that the manager has counted, also
 * by their ends. At the first difference the program prints the seed, the number of the call, what came and what was
 * wanted, and the last calls with the answers that were wanted, and ends with status 1.
 */
#include "burlapslate_running.h"
#include "scenario_draws.h"

#include <signal.h>
#include <unistd.h>

enum { CALLS_OF_SCENARIO = 1000 };

static void make_drawn(void) {
  call c;
  draw_call(&c);
  make(&c);
  remember(&c);
}

/* Makes one command of the graph, below a parent and for a file if these are no no_node, or a begin. */
static void make_one(uint32_t kind, bs_node parent, bs_node file) {
  call c;
  memset(&c, 0, sizeof c);
  c.kind = COMMAND;
  add_bare(&c, kind, no_txn);
  c.list[0].c.file = file;
  c.list[0].parents[0] = parent;
  c.list[0].c.parent_count = parent.birth == 0 ? 0 : 1;
  c.list[0].bounds[0] = KEYS / 2;
  c.list[0].c.bound_count = file.birth == 0 ? 0 : 1;
  make(&c);
}

static bs_node last_node(void) {
  return n.nodes[n.node_count - 1].name;
}

/* ------------------------------------------------------------------------------------------------
 * Knots: calls in an order in which cycles of waits close, and waits end within the call that sets that off.
 */

/* Locks a node by an ask or in a list, which is left waiting or continues. */
static void make_lock_by(call_kind kind, bs_txn txn, bs_node node, bs_mode mode) {
  const naive_node *found = naive_find(&n, node);
  bool is_root = found != NULL && found->parent_count == 0;
  call c;
  if (!is_free(txn)) return;
  memset(&c, 0, sizeof c);
  c.kind = kind;
  if (c.kind == RUN && one_in(3)) add_bare(&c, BS_DO_SETTLE, some_living());
  add_lock(&c, !is_root || one_in(4) ? BS_DO_LOCK_PATH : BS_DO_LOCK, txn, node, mode);
  if (c.kind == RUN && one_in(2)) add_drawn(&c, BS_DO_LOCK, txn);
  make(&c);
  remember(&c);
}

static void make_lock(bs_txn txn, bs_node node, bs_mode mode) {
  make_lock_by(one_in(3) ? RUN : ASK, txn, node, mode);
}

/* Locks what a transaction needs above a row. */
static void make_paths(bs_txn txn, const drawn *row) {
  drawn own = *row;
  call c;
  if (!is_free(txn)) return;
  memset(&c, 0, sizeof c);
  c.kind = RUN;
  own.c.txn = txn;
  add_paths_above(&c, &own);
  make(&c);
  remember(&c);
}

/* Locks a row by an ask or in a list, with what it needs above it. */
static void make_row(bs_txn txn, const drawn *row, bs_mode mode) {
  drawn own = *row;
  call c;
  make_paths(txn, row);
  if (!is_free(txn)) return;
  memset(&c, 0, sizeof c);
  c.kind = one_in(3) ? RUN : ASK;
  own.c.txn = txn;
  own.c.mode = mode;
  add(&c, own);
  make(&c);
  remember(&c);
}

/* A root that no transaction holds or waits for; a new one if there is room. */
static bs_node make_idle_root(void) {
  size_t i;
  for (i = 0; i < n.node_count; i++) {
    if (n.nodes[i].parent_count == 0 && is_idle(n.nodes[i].name.birth)) return n.nodes[i].name;
  }
  if (n.node_count > MOST_NODES - 4) return some_root();
  make_one(BS_DO_ADD_INNER, no_node, no_node);
  return last_node();
}

/* A child of a root; a new one if there is room, or else the root. */
static bs_node make_child(bs_node root) {
  size_t i;
  for (i = 0; i < n.node_count; i++) {
    if (n.nodes[i].parent_count > 0 && n.nodes[i].parents[0] == root.birth) return n.nodes[i].name;
  }
  if (n.node_count > MOST_NODES - 4) return root;
  make_one(BS_DO_ADD_INNER, root, no_node);
  return last_node();
}

/* Chooses the members of a knot. All but the first few are mostly ordered by falling age, so that the youngest is the
 * victim. Returns whether there are as many. */
static bool make_members(bs_txn *members, size_t count, size_t first) {
  size_t i;
  for (i = 0; i < count; i++) make_one(BS_DO_BEGIN, no_node, no_node);
  if (some_free(members, count) < count) return false;
  for (i = first + 1; i < count && !one_in(8); i++) {
    bs_txn youngest = members[first];
    if (n.txns[members[i].slot].since <= n.txns[youngest.slot].since) continue;
    members[first] = members[i];
    members[i] = youngest;
  }
  return true;
}

/* Mostly ends the members of a knot, so that its nodes are idle for the next one. */
static void make_ends(const bs_txn *members, size_t count) {
  size_t i;
  for (i = 0; i < count; i++) {
    call c;
    if (one_in(20)) continue;
    memset(&c, 0, sizeof c);
    draw_command(&c, members[i], is_free(members[i]) && !one_in(3) ? BS_DO_COMMIT : BS_DO_ABORT);
    make(&c);
    remember(&c);
  }
}

/* The mode of a member that joins a queue: of the first one mostly so that it blocks all others. */
static bs_mode mode_in_queue(bool is_first) {
  static const bs_mode any[] = { BS_IS, BS_IX, BS_IX, BS_S, BS_S, BS_SIX, BS_X };
  bs_mode mode = is_first && !one_in(4) ? BS_X : any[draw(7)];
  return mode | (one_in(3) ? 0 : BS_INSTANT);
}

/* Two transactions hold a root each. The first requests the root of the second. Others request the first root, or its
 * child, so that queues form there which have locks for an instant. Then the second requests that too, and closes
 * cycles through the queues. */
static void make_knot(void) {
  static const bs_mode weak[] = { BS_IS, BS_IS, BS_IX, BS_S };
  bs_node at[2], other;
  bs_txn members[4];
  if (!make_members(members, 4, 2)) return;
  at[0] = make_idle_root();
  at[1] = one_in(2) ? make_child(at[0]) : at[0];
  make_lock(members[0], at[draw(2)], weak[draw(4)]);
  other = make_idle_root();
  make_lock(members[1], other, BS_X);
  if (one_in(3)) make_lock(members[2], at[1], weak[draw(4)]);
  make_lock(members[0], other, BS_S);
  make_lock(members[2], at[draw(2)], mode_in_queue(true));
  make_lock(members[3], at[draw(2)], mode_in_queue(false));
  make_lock_by(one_in(2) ? RUN : ASK, members[1], at[draw(2)], mode_in_queue(false));
  make_ends(members, 4);
}

/* The same through the queue of a row. The second transaction names other keys than the row's own, now and then. */
static void make_knot_of_row(void) {
  bs_node other;
  bs_txn members[4];
  drawn row;
  if (!make_members(members, 4, 2)) return;
  row = filled(BS_DO_LOCK_ROW, members[0]);
  other = make_idle_root();
  make_row(members[0], &row, BS_S);
  make_lock(members[1], other, BS_X);
  make_lock(members[0], other, BS_S);
  make_row(members[2], &row, BS_X);
  make_row(members[3], &row, BS_S);
  row.keys[0] += one_in(2) ? 1 : 0;
  make_row(members[1], &row, one_in(3) ? BS_X : BS_S);
  make_ends(members, 4);
}

/* A list: a commit, and a lock of a node or a row by another transaction. */
static void make_late_list(bs_txn commits, bs_txn txn, bs_node node, const drawn *row) {
  call c;
  if (!is_free(commits) || !is_free(txn)) return;
  memset(&c, 0, sizeof c);
  c.kind = RUN;
  add_bare(&c, BS_DO_COMMIT, commits);
  if (row == NULL) add_lock(&c, BS_DO_LOCK, txn, node, one_in(2) ? BS_S : BS_IS);
  else add(&c, *row);
  c.list[1].c.txn = txn;
  if (one_in(2)) add_drawn(&c, BS_DO_LOCK, txn);
  make(&c);
  remember(&c);
}

/* A list ends the wait of a path, and is itself left waiting for a node or a row. So the path continues in the middle
 * of the list, closes a cycle, and the victim is a transaction that blocks the list. */
static void make_late_knot(void) {
  enum { PATH, VICTIM, HOLDER, BLOCKER, LAST };
  bs_node root, child, own, last;
  bs_txn members[5];
  drawn row;
  bool is_of_row = one_in(2);
  if (!make_members(members, 5, VICTIM)) return;
  row = filled(BS_DO_LOCK_ROW, members[HOLDER]);
  row.c.mode = BS_S;
  root = make_idle_root();
  child = make_child(root);
  make_lock(members[BLOCKER], root, BS_S);
  own = make_idle_root();
  make_lock(members[PATH], own, BS_X);
  make_lock(members[VICTIM], child, BS_S);
  last = make_idle_root();
  if (is_of_row) make_row(members[HOLDER], &row, BS_S);
  else make_lock(members[HOLDER], last, BS_S);
  if (is_of_row) make_paths(members[LAST], &row);
  make_lock(members[HOLDER], own, BS_S);
  if (is_of_row) make_row(members[VICTIM], &row, BS_X);
  else make_lock(members[VICTIM], last, BS_X);
  make_lock(members[PATH], child, BS_X);
  make_late_list(members[BLOCKER], members[LAST], last, is_of_row ? &row : NULL);
  make_ends(members, 5);
}

/* An ask with a time, or the deadline of a transaction. */
static void make_timed(call_kind kind, bs_txn txn, bs_node node, bs_mode mode, moment limit) {
  call c;
  if (kind == ASK && !is_free(txn)) return;
  memset(&c, 0, sizeof c);
  c.kind = kind;
  c.limit = limit;
  add_lock(&c, BS_DO_LOCK_PATH, txn, node, mode);
  make(&c);
}

/* A path waits after a lock whose time is over, and its transaction gets a deadline that is over. So an expire cancels
 * the lock; by that the path continues, waits for its node, and is late itself. */
static void make_late_path(void) {
  bs_node root, child;
  bs_txn members[3];
  call c;
  if (!make_members(members, 3, 2)) return;
  root = make_idle_root();
  child = make_child(root);
  make_lock(members[0], child, BS_S);
  make_timed(ASK, members[1], root, BS_X, FIRST_PAST);
  make_timed(ASK, members[2], child, BS_X, one_in(2) ? NO_TIME : FIRST_FAR);
  make_timed(DEADLINE, members[2], no_node, BS_NL, FIRST_PAST);
  memset(&c, 0, sizeof c);
  c.kind = EXPIRE;
  make(&c);
  make_ends(members, 3);
}

/* ------------------------------------------------------------------------------------------------
 * Changes of what others wait for.
 */

/* A row that others wait for is unlocked, or gets another key. */
static void make_change_of_row(const bs_txn *members, size_t count) {
  drawn row = filled(BS_DO_LOCK_ROW, members[0]);
  call c;
  size_t i;
  for (i = 0; i < count; i++) make_row(members[i], &row, one_in(3) ? BS_S : BS_X);
  if (!is_free(members[0])) return;
  memset(&c, 0, sizeof c);
  c.kind = RUN;
  if (one_in(2)) add_lock(&c, BS_DO_LOCK_PATH, members[0], interval_of(row.c.index, row.c.key), BS_IX);
  row.c.kind = c.count == 0 ? BS_DO_UNLOCK_ROW : BS_DO_REKEY_ROW;
  add(&c, row);
  make(&c);
  remember(&c);
}

/* A node that others wait for is deleted or dropped, or moves. */
static void make_change_of_node(const bs_txn *members, size_t count) {
  static const weight kinds[] = { { BS_DO_DELETE, 2 }, { BS_DO_REKEY, 3 }, { BS_DO_DROP, 2 }, { BS_DO_MOVE, 3 } };
  uint32_t kind = WEIGHED(kinds);
  bool is_of_record = kind == BS_DO_DELETE || kind == BS_DO_REKEY;
  bs_node node = some(is_of_record ? BS_RECORD : some_movable_kind());
  call c;
  size_t i;
  make_lock(members[0], node, BS_X);
  for (i = 1; i < count; i++) make_lock(members[i], node, one_in(2) ? BS_S : BS_X);
  if (!is_free(members[0])) return;
  memset(&c, 0, sizeof c);
  c.kind = RUN;
  list_of_a_change(&c, members[0], kind, node);
  make(&c);
  remember(&c);
}

/* An interval is split, or merged with another one; others wait for the first or the second. */
static void make_change_of_interval(const bs_txn *members, size_t count) {
  bs_node interval = some(BS_INTERVAL), next = next_interval(interval);
  uint32_t kind = same_node(next, interval) || one_in(2) ? BS_DO_SPLIT : BS_DO_MERGE;
  call c;
  size_t i;
  make_lock(members[0], interval, BS_X);
  if (kind == BS_DO_MERGE) make_lock(members[0], next, BS_X);
  for (i = 1; i < count; i++) make_lock(members[i], one_in(2) ? interval : next, one_in(2) ? BS_S : BS_X);
  if (!is_free(members[0])) return;
  memset(&c, 0, sizeof c);
  c.kind = RUN;
  list_of_intervals(&c, members[0], kind, interval);
  make(&c);
  remember(&c);
}

static void make_change_under_waits(void) {
  bs_txn members[4];
  size_t count = some_free(members, 4);
  uint32_t change = (uint32_t)draw(5);
  if (count < 2) return;
  if (change == 0) make_change_of_interval(members, count);
  else if (change < 3) make_change_of_row(members, count);
  else make_change_of_node(members, count);
}

/* ------------------------------------------------------------------------------------------------
 * The callback.
 */

static int context_word;
static bool is_hearing;

/* A call that the callback makes. A table that it leaves held is released when it returns. */
static void make_within(unsigned within) {
  unsigned outer = depth;
  is_hearing = true;
  depth = within;
  make_drawn();
  if (one_in(16)) bs_table_hold(table);
  depth = outer;
  is_hearing = false;
}

/* Hears an end, and makes a call after some of them. */
static void hear(void *context, bs_txn txn, bs_reply reply, void *word) {
  size_t place = place_of_end(txn, (uintptr_t)word);
  end told;
  trace_line();
  trace("  told");
  trace_txn(txn);
  trace_reply(reply);
  must(context == &context_word ? NULL : "the function has another context", txn);
  must(!is_hearing ? NULL : "the function is called within itself", txn);
  must(place < end_count ? NULL : "an end is told that is none, or was told", txn);
  if (is_aside_held) must(same_number("let_go within", bs_table_let_go(aside).status, BS_IN_USE), txn);
  told = take_end(place);
  must(same_reply(reply, told.reply), txn);
  must(told_in_order(&told), txn);
  end_tally[reply.status]++;
  if (told.depth <= DEEP && one_in(2)) make_within(told.depth);
}

/* ------------------------------------------------------------------------------------------------
 * Scenarios.
 */

/* Roots, and below two of them a file of records and one of rows, with indexes. */
static void make_graph(void) {
  bs_node db, area, file, rows;
  size_t i;
  make_one(BS_DO_ADD_INNER, no_node, no_node);
  db = last_node();
  for (i = habits.is_hot ? 3 : 1; i > 0; i--) make_one(BS_DO_ADD_INNER, no_node, no_node);
  make_one(BS_DO_ADD_INNER, db, no_node);
  area = last_node();
  make_one(BS_DO_ADD_FILE, db, no_node);
  file = last_node();
  make_one(BS_DO_ADD_INDEX, area, file);
  make_one(BS_DO_ADD_ROW_FILE, area, no_node);
  rows = last_node();
  if (one_in(2)) make_one(BS_DO_ADD_INDEX, area, rows);
}

/* Begins so many transactions that the next ones have slots beyond the first word of a set of slots. */
static void make_many(void) {
  size_t i;
  for (i = 0; i < 64; i++) make_one(BS_DO_BEGIN, no_node, no_node);
}

static bs_options options_of_seed(void) {
  static const uint32_t slots[] = { 4, 10, 32, 128 };
  bs_options options = { 0, 0, 0, MOST_NODES, MOST_BOUNDS, 0 };
  options.detect = seed % 2 == 0 ? BS_AT_BLOCK : BS_BY_WATCHER;
  options.victims = seed / 2 % 2 == 0 ? BS_YOUNGEST : BS_FEWEST;
  options.transactions = slots[seed / 4 % 4];
  return options;
}

/* A table takes asks once it has a callback, and has one for good. */
static void open_table(void) {
  bs_options options = options_of_seed();
  must(same_number("make", bs_table_make(&table, &options).status, BS_DONE), no_txn);
  must(same_number("ask", bs_table_ask(table, no_txn, no_node, BS_X, NULL, NULL).status, BS_NULL_POINTER), no_txn);
  must(same_number("on_end", bs_table_on_end(table, hear, &context_word).status, BS_DONE), no_txn);
  must(same_number("on_end again", bs_table_on_end(table, hear, NULL).status, BS_IN_USE), no_txn);
  must(same_number("make", bs_table_make(&aside, &options).status, BS_DONE), no_txn);
  naive_open(&n, &options);
}

static uint64_t timed_waits(const bs_histogram *ended) {
  uint64_t count = 0;
  size_t i;
  for (i = 0; i < BS_WAIT_BUCKETS; i++) count += ended->buckets[i];
  return count;
}

/* Each wait was timed once, and each is one of the manager's. */
static void compare_times(void) {
  uint64_t ended = 0, waiting = 0;
  const bs_manager *m;
  bs_waits waits;
  bs_counts counts;
  uint32_t slot;
  must(same_number("waits", bs_table_waits(table, &waits).status, BS_DONE), no_txn);
  m = bs_table_hold(table);
  bs_counters(m, &counts);
  for (slot = 0; slot < BS_SLOTS; slot++) waiting += bs_doing(m, bs_living(m, slot).txn).count == BS_WAITS;
  bs_table_let_go(table);
  for (slot = 0; slot < BS_WAIT_ENDS; slot++) ended += timed_waits(&waits.ended[slot]);
  must(same_number("waiting", waits.waiting, waiting), no_txn);
  must(same_number("waits that have ended", ended, counts.waited - waiting), no_txn);
  must(same_number("granted", timed_waits(&waits.ended[BS_END_GRANTED]), counts.granted_later), no_txn);
  must(same_number("moved", timed_waits(&waits.ended[BS_END_MOVED]), counts.moved), no_txn);
  must(same_number("gone", timed_waits(&waits.ended[BS_END_GONE]), counts.gone), no_txn);
}

static void close_table(void) {
  compare_times();
  trace_line();
  trace("end");
  model_end();
  must(same_number("end", bs_table_end(table).status, BS_DONE), no_txn);
  must(same_number("ends that are not told", end_count, 0), no_txn);
  must(same_number("free", bs_table_free(&table).status, BS_DONE), no_txn);
  must(same_number("end", bs_table_end(aside).status, BS_DONE), no_txn);
  must(same_number("free", bs_table_free(&aside).status, BS_DONE), no_txn);
}

static void make_some(void) {
  if (one_in(habits.knots)) {
    size_t knot = draw(8);
    if (knot == 0) make_knot_of_row();
    else if (knot == 1) make_late_knot();
    else if (knot == 2) make_late_path();
    else make_knot();
  }
  if (one_in(60)) make_change_under_waits();
  make_drawn();
}

static void run_scenario(unsigned long most) {
  forget_all();
  memset(left_waits, 0, sizeof left_waits);
  ended_txn = no_txn;
  line_count = 0;
  calls_of_scenario = 0;
  rng = pcg_new(seed, 54);
  open_table();
  draw_habits();
  make_graph();
  if (n.limits.transactions > 64 && one_in(2)) make_many();
  while (calls_of_scenario < CALLS_OF_SCENARIO && calls_made < most) make_some();
  close_table();
}

/* Each command that is drawn was done and refused at least this often. */
static void commands_came(unsigned long least) {
  uint32_t kind;
  for (kind = BS_DO_BEGIN; kind < COMMANDS; kind++) {
    unsigned long refused = 0;
    bs_status status;
    if (kind > BS_DO_RELEASE_SINCE && kind < BS_DO_SPLIT) continue;
    for (status = 1; status < STATUSES; status++) refused += tally[kind][status];
    if (tally[kind][BS_DONE] < least) must(say("%s: %lu were done", command_names[kind], tally[kind][BS_DONE]), no_txn);
    if (refused < least) must(say("%s: %lu were refused", command_names[kind], refused), no_txn);
  }
}

/* Asks had each end, calls were made at each depth, and asks answered ends of their own waits. */
static void ends_came(unsigned long least) {
  static const bs_status told[] = { BS_DONE, BS_VICTIM, BS_MOVED, BS_GONE, BS_TIMED_OUT, BS_NOT_WAITING, BS_NO_SUCH_TXN,
                                    BS_NO_MANAGER, BS_NO_SUCH_NODE };
  size_t i;
  for (i = 0; i < sizeof told / sizeof told[0]; i++) {
    if (end_tally[told[i]] < least) must(say("%lu ends were %s", end_tally[told[i]], bs_text(told[i])), no_txn);
  }
  for (i = 0; i <= DEEP; i++) {
    if (depth_tally[i] < least) must(say("%lu calls were made at depth %lu", depth_tally[i], (unsigned long)i), no_txn);
  }
  if (own_ends < least) must(say("%lu asks answered ends of their own", own_ends), no_txn);
  if (ask_tally[BS_WAITING] < least || ask_tally[BS_VICTIM] < least) must("few asks waited or were victims", no_txn);
}

/* A call that hangs ends the program. */
static void bark(int number) {
  static const char text[] = "scenarios.c: hangs\n";
  ssize_t written = write(2, text, sizeof text - 1);
  (void)number;
  _exit(written > 0 ? 1 : 2);
}

int main(int argc, char **argv) {
  unsigned long most = argc > 1 ? strtoul(argv[1], NULL, 10) : 100000, told = 0;
  size_t i;
  signal(SIGALRM, bark);
  for (seed = argc > 2 ? strtoul(argv[2], NULL, 10) : 1; calls_made < most; seed++) {
    alarm(60);
    run_scenario(most);
  }
  if (most >= 100000) {
    commands_came(10);
    ends_came(2);
  }
  for (i = 0; i < STATUSES; i++) told += end_tally[i];
  printf("random_calls_of_a_table: %lu calls, %lu ends told\n", calls_made, told);
  return 0;
}
