/*
 * Twins: two managers do the same random work of four transactions, on the rows of a file with two indexes. In the one
 * each row is locked by its number, and has a node only while it is locked. In the other each row is a record that
 * exists from the start. They give the same answers and notices, except for the names of rows' nodes. After each step
 * the transaction holds each row in the same mode in both, and has the same effective mode on it. Now and then a
 * transaction names keys that are not the row's own: the row is locked by the node that it has, and the answer says so.
 *
 *   twins [STEPS]   how many steps each scenario has, 6000 if none is given
 *
 * The scenarios have both ways of detection and both choices of victims. By their end each kind of work has occurred.
 */
#include "burlapslate.h"
#include "pcg.h"
#include "same.h"

#include <stdio.h>
#include <stdlib.h>

/* How many rows there are, how many of them are used, the limit of the keys, and how many transactions live at once. No
 * row has a node while there are this many: a root, the file, two indexes and their five intervals. */
enum { ROWS = 20, SOUGHT = 6, KEYS = 30, TXNS = 4, SITE_NODES = 9 };

/* The nodes that exist in both managers. */
typedef struct site {
  bs_node db, file, first, second;
} site;

/* The keys of a row, one for each index. */
typedef struct row_keys {
  uint64_t of[2];
} row_keys;

/* A row, by its number, and the keys that are named for it. */
typedef struct line {
  size_t place;
  row_keys keys;
} line;

/* What a transaction does, to a row or to a node that exists in both. */
typedef enum act_kind { LOCK, UNLOCK, REKEY, RELEASE, ESCALATE, SETTLE, CANCEL, COMMIT, ABORT } act_kind;

typedef struct act {
  act_kind kind;
  line row;
  bs_mode mode;
  bs_node node; /* also the index of a rekey */
  uint64_t key;
} act;

/* What occurs in each scenario. */
typedef enum sight {
  A_WAIT, KEYS_OF_ANOTHER, A_REKEY, AN_ESCALATION, A_HELD_CHILD, A_LATER_GRANT, A_VICTIM, A_MOVE, SIGHTS
} sight;

static bs_manager named = BS_NO_MANAGER_HERE, standing = BS_NO_MANAGER_HERE;
static site at;
static bs_node records[ROWS];
static row_keys own_keys[ROWS];
static bs_txn txns[TXNS];
static bs_notices told, heard;
static bool seen[SIGHTS];
static pcg rng;
static unsigned long steps, seed;

static void wanted(bool holds, const char *what, int line) {
  if (holds) return;
  fprintf(stderr, "twins.c:%d: seed %lu, step %lu: not so: %s\n", line, seed, steps, what);
  exit(1);
}

#define WANT(condition) wanted((condition), #condition, __LINE__)

static bs_reply done(bs_reply reply, int line) {
  wanted(reply.status == BS_DONE, bs_text(reply.status), line);
  return reply;
}

#define DONE(call) done((call), __LINE__)

/* ------------------------------------------------------------------------------------------------
 * The site.
 */

static site make_site(bs_manager *m, bool has_rows) {
  static const uint64_t bounds[] = { 10, 20, 15 };
  site s;
  s.db = DONE(bs_add_inner(m, NULL, 0)).node;
  s.file = DONE(has_rows ? bs_add_row_file(m, &s.db, 1) : bs_add_file(m, &s.db, 1)).node;
  s.first = DONE(bs_add_index(m, &s.db, 1, s.file, bounds, 2)).node;
  s.second = DONE(bs_add_index(m, &s.db, 1, s.file, bounds + 2, 1)).node;
  return s;
}

static bs_node interval(bs_node index, uint64_t key) {
  return DONE(bs_interval_of(&named, index, key)).node;
}

/* The parents of a row with these keys. */
static void parents_of(row_keys keys, bs_node parents[3]) {
  parents[0] = at.file;
  parents[1] = interval(at.first, keys.of[0]);
  parents[2] = interval(at.second, keys.of[1]);
}

static row_keys with_key(row_keys keys, bool in_second, uint64_t key) {
  keys.of[in_second ? 1 : 0] = key;
  return keys;
}

static line own_line(size_t place) {
  line row;
  row.place = place;
  row.keys = own_keys[place];
  return row;
}

/* Inserts all rows by one transaction, which holds intentions to write on all that can be above a row. */
static void fill(void) {
  bs_txn txn = DONE(bs_begin(&standing)).txn;
  size_t i;
  for (i = 0; i < ROWS; i++) {
    bs_node parents[3];
    size_t j;
    own_keys[i].of[0] = i % KEYS;
    own_keys[i].of[1] = i * 7 % KEYS;
    parents_of(own_keys[i], parents);
    for (j = 0; j < 3; j++) DONE(bs_lock_path(&standing, txn, parents[j], BS_IX, &told));
    records[i] = DONE(bs_insert(&standing, txn, at.file, own_keys[i].of, 2)).node;
  }
  DONE(bs_commit(&standing, txn, &told));
}

/* Makes both managers, and begins as many transactions in each. */
static void open_twins(uint32_t detect, uint32_t victims) {
  bs_options options = options_of(detect, victims, TXNS);
  site other;
  DONE(bs_make(&named, &options));
  DONE(bs_make(&standing, &options));
  at = make_site(&named, true);
  other = make_site(&standing, false);
  WANT(memcmp(&at, &other, sizeof at) == 0);
  fill();
  DONE(bs_commit(&named, DONE(bs_begin(&named)).txn, &told));
}

/* The node of a row that is locked by its number; if it has none, the name that names nothing. */
static bs_node node_of(size_t place) {
  return bs_row_node(&named, at.file, place).node;
}

static bool has_node(size_t place) {
  return bs_row_node(&named, at.file, place).status == BS_DONE;
}

/* The row of a node among these; ROWS if it has none. */
static size_t place_by_number(bs_node node) {
  size_t place = 0;
  while (place < ROWS && !(has_node(place) && same_node(node_of(place), node))) place++;
  return place;
}

static size_t place_of_record(bs_node node) {
  size_t place = 0;
  while (place < ROWS && !same_node(records[place], node)) place++;
  return place;
}

/* ------------------------------------------------------------------------------------------------
 * Both get each command, and must answer alike.
 */

/* What was told in one manager is told in the other; a grant names the same row, or the same node. */
static void hears_one(const bs_notice *came, const bs_notice *wants) {
  size_t place = place_by_number(came->node);
  WANT(same_txn(came->txn, wants->txn));
  WANT(came->kind == wants->kind && came->mode == wants->mode);
  if (came->kind == BS_TOLD_VICTIM) seen[A_VICTIM] = true;
  if (came->kind == BS_TOLD_MOVED) seen[A_MOVE] = true;
  if (came->kind != BS_TOLD_GRANTED) return;
  seen[A_LATER_GRANT] = true;
  WANT(place == place_of_record(wants->node));
  WANT(place < ROWS || same_node(came->node, wants->node));
}

static void hears(void) {
  size_t i;
  WANT(told.count == heard.count);
  for (i = 0; i < told.count; i++) hears_one(&told.at[i], &heard.at[i]);
}

/* Begins a transaction in both, by one name. */
static bs_txn begin(void) {
  bs_txn came = DONE(bs_begin(&named)).txn;
  WANT(same_txn(came, DONE(bs_begin(&standing)).txn));
  return came;
}

/* Locks along the path to a node that exists in both. Returns whether it was granted. */
static bool reaches(bs_txn txn, bs_node node, bs_mode mode) {
  bs_reply came = bs_lock_path(&named, txn, node, mode, &told);
  bs_reply wants = bs_lock_path(&standing, txn, node, mode, &heard);
  WANT(came.status == wants.status && came.mode == wants.mode && same_node(came.node, wants.node));
  hears();
  return came.status == BS_DONE;
}

/* Makes the call with the manager whose rows have numbers. For a lock it notes whether the named keys are the node's
 * own. */
static bs_reply answer_by_number(bs_txn txn, const act *a) {
  bool has_others = has_node(a->row.place) && (bs_key(&named, node_of(a->row.place), 0).count != a->row.keys.of[0] ||
                                               bs_key(&named, node_of(a->row.place), 1).count != a->row.keys.of[1]);
  bs_reply reply;
  if (a->kind == UNLOCK) return bs_unlock_row(&named, txn, at.file, a->row.place, &told);
  if (a->kind == REKEY) return bs_rekey_row(&named, txn, at.file, a->row.place, a->node, a->key, &told);
  reply = bs_lock_row(&named, txn, at.file, a->row.place, a->row.keys.of, 2, a->mode, &told);
  WANT(reply.status != BS_DONE || !has_others);
  WANT(reply.status != BS_OTHER_KEYS || has_others);
  if (reply.status == BS_OTHER_KEYS) reply.status = BS_DONE;
  return reply;
}

/* Makes the call with the manager whose rows all exist. */
static bs_reply answer_by_record(bs_txn txn, const act *a) {
  bs_node record = records[a->row.place];
  if (a->kind == UNLOCK) return bs_unlock(&standing, txn, record, &heard);
  if (a->kind == REKEY) return bs_rekey(&standing, txn, record, a->node, a->key, &heard);
  return bs_lock(&standing, txn, record, a->mode, &heard);
}

/* Makes a call that is about no row. */
static bs_reply answer_of_nodes(bs_manager *m, bs_txn txn, const act *a, bs_notices *list) {
  switch (a->kind) {
    case RELEASE: return bs_unlock(m, txn, a->node, list);
    case ESCALATE: return bs_escalate(m, txn, a->node, list);
    case SETTLE: return bs_settle(m, txn, list);
    case CANCEL: return bs_cancel(m, txn, list);
    case COMMIT: return bs_commit(m, txn, list);
    default: return bs_abort(m, txn, list);
  }
}

/* Whether a reply names the node of a row: that of a lock that is not refused, and a held child. */
static bool names_row(const act *a, bs_reply reply) {
  return reply.status == BS_HELD_CHILD || (a->kind == LOCK && reply.status != BS_NEED_PARENTS);
}

static void answers_alike(const act *a, bs_reply came, bs_reply wants) {
  WANT(came.status == wants.status);
  WANT(came.mode == wants.mode && came.released == wants.released && came.kept == wants.kept);
  WANT(names_row(a, wants) || same_node(came.node, wants.node));
}

static void sees(const act *a, bs_reply reply) {
  if (reply.status == BS_WAITING) seen[A_WAIT] = true;
  if (reply.status == BS_VICTIM) seen[A_VICTIM] = true;
  if (reply.status == BS_HELD_CHILD) seen[A_HELD_CHILD] = true;
  if (a->kind == REKEY && reply.status == BS_DONE) seen[A_REKEY] = true;
  if (a->kind == ESCALATE && reply.released > 0) seen[AN_ESCALATION] = true;
}

/* Makes the call with both, and answers as the one whose rows all exist. A row without a node is held by nobody: to
 * unlock it is to unlock a node that is gone. */
static bs_status does(bs_txn txn, act a) {
  bool is_of_row = a.kind == LOCK || a.kind == UNLOCK || a.kind == REKEY;
  bool is_unnamed = a.kind == UNLOCK && !has_node(a.row.place);
  bs_reply wants = is_of_row ? answer_by_record(txn, &a) : answer_of_nodes(&standing, txn, &a, &heard);
  bs_reply came = is_of_row ? answer_by_number(txn, &a) : answer_of_nodes(&named, txn, &a, &told);
  bs_status answered = wants.status;
  if (is_unnamed && wants.status == BS_NOT_HELD) wants.status = BS_NO_SUCH_NODE;
  answers_alike(&a, came, wants);
  hears();
  sees(&a, wants);
  return answered;
}

static act act_of(act_kind kind) {
  act a;
  memset(&a, 0, sizeof a);
  a.kind = kind;
  return a;
}

static act act_at(act_kind kind, bs_node node) {
  act a = act_of(kind);
  a.node = node;
  return a;
}

static act act_on(act_kind kind, line row, bs_mode mode) {
  act a = act_of(kind);
  a.row = row;
  a.mode = mode;
  return a;
}

static bool same_keys(row_keys one, row_keys other) {
  return one.of[0] == other.of[0] && one.of[1] == other.of[1];
}

/* Locks a row by some keys. If it has a node, both lock that, whatever the keys. Returns whether it was granted. */
static bool locks(bs_txn txn, line row, bs_mode mode) {
  line own = own_line(row.place);
  bool is_granted;
  if (!has_node(row.place)) return does(txn, act_on(LOCK, own, mode)) == BS_DONE;
  is_granted = does(txn, act_on(LOCK, row, mode)) == BS_DONE;
  if (is_granted && !same_keys(row.keys, own.keys)) seen[KEYS_OF_ANOTHER] = true;
  return is_granted;
}

/* Gives a row another key for the first or the second index. If it has no node, its engine makes no call. */
static void rekeys_to(bs_txn txn, size_t place, bool in_second, uint64_t key) {
  act a = act_on(REKEY, own_line(place), BS_NL);
  bs_status answered;
  a.node = in_second ? at.second : at.first;
  a.key = key;
  if (has_node(place)) {
    answered = does(txn, a);
  } else {
    answered = answer_by_record(txn, &a).status;
    WANT(heard.count == 0);
  }
  if (answered == BS_DONE) own_keys[place] = with_key(own_keys[place], in_second, key);
}

/* The transaction holds each row in the same mode in both, with the same effective mode. */
static void holds_alike(bs_txn txn) {
  size_t place;
  for (place = 0; place < ROWS; place++) {
    bs_reply came = bs_held(&named, txn, node_of(place)), wants = bs_held(&standing, txn, records[place]);
    WANT(came.mode == wants.mode);
    came = bs_effective(&named, txn, node_of(place));
    wants = bs_effective(&standing, txn, records[place]);
    WANT(came.status == BS_NO_SUCH_NODE || (came.status == wants.status && came.mode == wants.mode));
  }
}

/* ------------------------------------------------------------------------------------------------
 * Random work.
 */

static size_t draw(size_t below) {
  return pcg_below(&rng, below);
}

/* A node that exists in both. */
static bs_node some_node(void) {
  size_t drawn = draw(16);
  if (drawn == 0) return at.db;
  if (drawn < 4) return at.file;
  if (drawn == 4) return at.first;
  return drawn == 5 ? at.second : DONE(bs_interval(&named, at.first, drawn % 3)).node;
}

/* The row with the keys that are named for it: now and then others than its own. */
static line said_of(line row) {
  uint64_t key;
  if (draw(4) != 0) return row;
  key = draw(KEYS);
  row.keys = with_key(row.keys, draw(2) == 0, key);
  return row;
}

/* Reads a row by one of its parents, which it returns. */
static bs_node reads(bs_txn txn, size_t place) {
  line row = own_line(place);
  bs_node parents[3], above;
  parents_of(row.keys, parents);
  above = parents[draw(3)];
  if (reaches(txn, above, BS_IS)) locks(txn, said_of(row), BS_S);
  return above;
}

/* Locks all that is above a row with these keys in BS_IX. Returns whether it was granted. */
static bool may_write(bs_txn txn, row_keys keys) {
  bs_node parents[3];
  size_t i = 0;
  parents_of(keys, parents);
  while (i < 3 && reaches(txn, parents[i], BS_IX)) i++;
  return i == 3;
}

/* Writes a row. Returns whether it was granted. */
static bool writes(bs_txn txn, size_t place) {
  line row = own_line(place), said = said_of(row);
  return may_write(txn, row.keys) && locks(txn, said, BS_X);
}

/* Gives a row another key, mostly in a transaction that writes it and both places. */
static void rekeys(bs_txn txn, size_t place) {
  uint64_t key = draw(KEYS);
  bool in_second = draw(2) == 0;
  row_keys keys = with_key(own_keys[place], in_second, key);
  if (draw(8) == 0 || (writes(txn, place) && may_write(txn, keys))) rekeys_to(txn, place, in_second, key);
}

/* Ends a transaction, and begins another. */
static void ends(size_t who, act_kind kind) {
  if (does(txns[who], act_of(kind)) == BS_DONE) txns[who] = begin();
}

/* Calls that need no locks above. */
static void asks_one(bs_txn txn, size_t place) {
  bs_node node = some_node();
  switch (draw(6)) {
    case 0:
    case 1: does(txn, act_on(UNLOCK, own_line(place), BS_NL)); break;
    case 2: does(txn, act_at(RELEASE, node)); break;
    case 3: does(txn, act_of(CANCEL)); break;
    case 4: does(txn, act_of(SETTLE)); break;
    default: does(txn, act_at(ESCALATE, reads(txn, place)));
  }
}

static void reaches_some(bs_txn txn) {
  static const bs_mode modes[] = { BS_IS, BS_IX, BS_S, BS_SIX, BS_X };
  bs_node node = some_node();
  reaches(txn, node, modes[draw(5)]);
}

static void goes_on(void) {
  size_t who = draw(TXNS), place, drawn;
  bs_txn txn = txns[who];
  place = draw(SOUGHT);
  if (bs_doing(&named, txn).count == BS_CONDEMNED) {
    ends(who, ABORT);
    return;
  }
  drawn = draw(16);
  if (drawn == 0) ends(who, ABORT);
  else if (drawn == 1) ends(who, COMMIT);
  else if (drawn < 5) rekeys(txn, place);
  else if (drawn == 5) reaches_some(txn);
  else if (drawn < 10) asks_one(txn, place);
  else if (draw(2) == 0) reads(txn, place);
  else writes(txn, place);
  holds_alike(txn);
}

/* In the end no row has a node. */
static void ends_all(void) {
  size_t i;
  for (i = 0; i < TXNS; i++) {
    holds_alike(txns[i]);
    does(txns[i], act_of(ABORT));
  }
  for (i = 0; i < ROWS; i++) WANT(!has_node(i));
  WANT(bs_len(&named).count == SITE_NODES);
  DONE(bs_end(&named));
  DONE(bs_end(&standing));
}

/* This many steps, in which all has occurred. */
static void run_scenario(uint32_t detect, uint32_t victims, unsigned long of, unsigned long count) {
  size_t i;
  seed = of;
  rng = pcg_new(seed, 54);
  memset(seen, 0, sizeof seen);
  open_twins(detect, victims);
  for (i = 0; i < TXNS; i++) txns[i] = begin();
  for (steps = 0; steps < count; steps++) goes_on();
  ends_all();
  for (i = 0; i < SIGHTS; i++) WANT(seen[i]);
}

int main(int argc, char **argv) {
  unsigned long count = argc > 1 ? strtoul(argv[1], NULL, 10) : 6000;
  uint32_t victims;
  for (victims = BS_YOUNGEST; victims <= BS_FEWEST; victims++) {
    run_scenario(BS_AT_BLOCK, victims, 1, count);
    run_scenario(BS_AT_BLOCK, victims, 2, count);
    run_scenario(BS_BY_WATCHER, victims, 3, count);
    run_scenario(BS_BY_WATCHER, victims, 4, count);
  }
  printf("engines_answer_alike: 8 times %lu steps\n", count);
  return 0;
}
