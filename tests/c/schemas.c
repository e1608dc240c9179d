/*
 * Random schemas over a manager of the library, compared with the manager of plain lists of naive.h: tables, indexes,
 * records and rows are made, changed and removed, indexes made beside records, and intervals split and merged. Both
 * get every command, and must answer and tell the same. After each command the transactions, their locks and the queues
 * must be the same; after each change of the schema also every node, with its parents, keys, indexes and intervals.
 * Neither knows a removed node. By the end each kind of command was accepted and refused, and every answer to a drop,
 * to an index by a transaction, with and without records, to a split and to a merge has occurred.
 *
 *   schemas [DRAWS]   how many times each scenario draws its work, 6000 if none is given
 *
 * The scenarios have both ways of detection and both choices of victims. Half of them also draw rows, paths,
 * savepoints, escalations, rekeys, cancels, settles and verdicts (`goes_further`). In the last two an allocation of
 * each command is refused, if it has enough of them: nothing has changed then, and the command is repeated.
 *
 * It is linked with the calls for memory of memory.h.
 */
#include "beside.h"
#include "memory.h"
#include "pcg.h"

#include <stdlib.h>

enum { TXNS = 3, MOST_NODES = 36, MOST_BOUNDS = 3, KEYS = 30, ROWS = 4 };

/* How many kinds of commands and how many statuses there are. */
enum { KINDS = BS_DO_MERGE + 1, STATUSES = 75 };

/* A scenario: how the manager is made, the seed for its work, and whether it has all kinds of work. */
typedef struct setting {
  uint32_t detect, victims;
  uint64_t seed;
  bool is_wide, is_refused; /* whether allocations are refused */
} setting;

static const setting settings[] = {
  { BS_AT_BLOCK, BS_YOUNGEST, 1, false, false }, { BS_AT_BLOCK, BS_YOUNGEST, 2, false, false },
  { BS_AT_BLOCK, BS_FEWEST, 3, false, false },   { BS_BY_WATCHER, BS_YOUNGEST, 4, true, false },
  { BS_AT_BLOCK, BS_YOUNGEST, 5, true, false },  { BS_AT_BLOCK, BS_FEWEST, 6, true, false },
  { BS_BY_WATCHER, BS_FEWEST, 7, true, false },  { BS_AT_BLOCK, BS_YOUNGEST, 8, true, false },
  { BS_AT_BLOCK, BS_YOUNGEST, 9, true, true },   { BS_BY_WATCHER, BS_FEWEST, 10, true, true }
};

/* How many draws a manager lives if memory is refused: an older one rarely allocates. */
enum { FEW_DRAWS = 60 };

static const setting *scenario;
static bs_manager m = BS_NO_MANAGER_HERE;
static naive n;
static bs_notices told;
static bs_txn txns[TXNS], ended;
static pcg rng;
static unsigned long asked;

/* How often each kind of command had each answer; and how many were told that a dropped node is gone, that an interval
 * was split, and that one was merged. */
static unsigned long tally[KINDS][STATUSES];
static unsigned long told_gone, told_split, told_merged;

/* How often each kind of command was refused memory. */
static unsigned long refusals[KINDS];

/* How often an index beside records had each answer, and was refused memory. */
static unsigned long beside_records[STATUSES], refusals_beside_records;

/* Ends the program at a difference. */
static void wanted(const char *differs, const bs_command *c) {
  if (differs == NULL) return;
  fprintf(stderr, "schemas.c: seed %lu, command %lu, of kind %u by slot %u: %s\n", (unsigned long)scenario->seed, asked,
          c == NULL ? 0 : c->kind, c == NULL ? 0 : c->txn.slot, differs);
  exit(1);
}

/* ------------------------------------------------------------------------------------------------
 * Asking, and comparing.
 */

/* Makes a command of a list that changes the graph or records. */
static bs_reply made_of_nodes(const bs_command *c) {
  switch (c->kind) {
    case BS_DO_ADD_INNER: return bs_add_inner(&m, c->parents, c->parent_count);
    case BS_DO_ADD_FILE: return bs_add_file(&m, c->parents, c->parent_count);
    case BS_DO_ADD_ROW_FILE: return bs_add_row_file(&m, c->parents, c->parent_count);
    case BS_DO_ADD_INDEX: return bs_add_index(&m, c->parents, c->parent_count, c->file, c->bounds, c->bound_count);
    case BS_DO_INDEX_BY:
      return c->key_count == 0 ? bs_index_by(&m, c->txn, c->parents, c->parent_count, c->file, c->bounds, c->bound_count)
                               : bs_index_records(&m, c->txn, c->parents, c->parent_count, c->file, c->bounds,
                                                  c->bound_count, n.records, c->keys, c->key_count);
    case BS_DO_INSERT: return bs_insert(&m, c->txn, c->file, c->keys, c->key_count);
    case BS_DO_ADOPT: return bs_adopt(&m, c->file, c->keys, c->key_count);
    case BS_DO_DELETE: return bs_delete(&m, c->txn, c->node, &told);
    case BS_DO_FORGET: return bs_forget(&m, c->node);
    case BS_DO_REKEY: return bs_rekey(&m, c->txn, c->node, c->index, c->key, &told);
    case BS_DO_MOVE: return bs_move(&m, c->txn, c->node, c->parents, c->parent_count, &told);
    case BS_DO_DROP: return bs_drop(&m, c->txn, c->node, &told);
    case BS_DO_SPLIT: return bs_split(&m, c->txn, c->node, c->key, &told);
    case BS_DO_MERGE: return bs_merge(&m, c->txn, c->node, &told);
    default: return bs_call_only(BS_BAD_NUMBER);
  }
}

/* Makes any command with the manager. */
static bs_reply made(const bs_command *c) {
  told.count = 0;
  switch (c->kind) {
    case BS_DO_BEGIN: return bs_begin(&m);
    case BS_DO_BEGIN_AGAIN: return bs_begin_again(&m, c->number);
    case BS_DO_LOCK: return bs_lock(&m, c->txn, c->node, c->mode, &told);
    case BS_DO_LOCK_PATH: return bs_lock_path(&m, c->txn, c->node, c->mode, &told);
    case BS_DO_TRY: return bs_try(&m, c->txn, c->node, c->mode);
    case BS_DO_UNLOCK: return bs_unlock(&m, c->txn, c->node, &told);
    case BS_DO_RELEASE_SINCE: return bs_release_since(&m, c->txn, c->number, &told);
    case BS_DO_ESCALATE: return bs_escalate(&m, c->txn, c->node, &told);
    case BS_DO_CANCEL: return bs_cancel(&m, c->txn, &told);
    case BS_DO_COMMIT: return bs_commit(&m, c->txn, &told);
    case BS_DO_RENEW: return bs_renew(&m, c->txn, c->number);
    case BS_DO_ABORT: return bs_abort(&m, c->txn, &told);
    case BS_DO_SETTLE: return bs_settle(&m, c->txn, &told);
    case BS_DO_LOCK_ROW: return bs_lock_row(&m, c->txn, c->file, c->number, c->keys, c->key_count, c->mode, &told);
    case BS_DO_UNLOCK_ROW: return bs_unlock_row(&m, c->txn, c->file, c->number, &told);
    case BS_DO_REKEY_ROW: return bs_rekey_row(&m, c->txn, c->file, c->number, c->index, c->key, &told);
    default: return made_of_nodes(c);
  }
}

/* Whether an accepted command of this kind changes which nodes there are, or their parents and keys. */
static bool changes_schema(const bs_command *c) {
  switch (c->kind) {
    case BS_DO_ADD_INNER:
    case BS_DO_ADD_FILE:
    case BS_DO_ADD_ROW_FILE:
    case BS_DO_ADD_INDEX:
    case BS_DO_INDEX_BY:
    case BS_DO_INSERT:
    case BS_DO_DELETE:
    case BS_DO_ADOPT:
    case BS_DO_FORGET:
    case BS_DO_DROP:
    case BS_DO_SPLIT:
    case BS_DO_MERGE:
    case BS_DO_REKEY:
    case BS_DO_REKEY_ROW:
    case BS_DO_MOVE: return true;
    default: return false;
  }
}

static size_t draw(size_t below) {
  return pcg_below(&rng, below);
}

/* One of the last nodes that were removed. */
static bs_node some_gone(void) {
  static const bs_node none = { 0, 0 };
  size_t back = draw(8) + 1;
  if (n.gone_count == 0) return none;
  return n.gone[n.gone_count >= back ? n.gone_count - back : 0];
}

/* The manager knows nothing of a node that is gone. */
static const char *looks_for(bs_node gone) {
  size_t i;
  SAME(same_number("kind of a node that is gone", bs_kind(&m, gone).status, BS_NO_SUCH_NODE));
  SAME(same_number("parent of a node that is gone", bs_parent(&m, gone, 0).status, BS_NO_SUCH_NODE));
  for (i = 0; i < TXNS; i++) {
    SAME(same_number("mode on a node that is gone", bs_held(&m, txns[i], gone).status, BS_NO_SUCH_NODE));
  }
  return NULL;
}

/* What both know of all nodes, and of some that are gone. */
static const char *looks(void) {
  int i;
  SAME(same_graph(&m, &n));
  for (i = 0; i < 4; i++) SAME(looks_for(some_gone()));
  return NULL;
}

static void count(const bs_command *c, bs_reply reply) {
  size_t i;
  tally[c->kind][reply.status]++;
  if (c->kind == BS_DO_INDEX_BY && c->key_count > 0) beside_records[reply.status]++;
  for (i = 0; i < told.count; i++) {
    if (c->kind == BS_DO_DROP && told.at[i].kind == BS_TOLD_GONE) told_gone++;
    if (c->kind == BS_DO_SPLIT && told.at[i].kind == BS_TOLD_MOVED) told_split++;
    if (c->kind == BS_DO_MERGE && told.at[i].kind == BS_TOLD_GONE) told_merged++;
  }
}

/* Whether a command never takes memory: it begins, releases, or moves what exists. */
static bool takes_no_memory(const bs_command *c) {
  switch (c->kind) {
    case BS_DO_BEGIN:
    case BS_DO_BEGIN_AGAIN:
    case BS_DO_UNLOCK:
    case BS_DO_RELEASE_SINCE:
    case BS_DO_ESCALATE:
    case BS_DO_CANCEL:
    case BS_DO_COMMIT:
    case BS_DO_RENEW:
    case BS_DO_ABORT:
    case BS_DO_SETTLE:
    case BS_DO_DELETE:
    case BS_DO_FORGET:
    case BS_DO_DROP:
    case BS_DO_REKEY:
    case BS_DO_UNLOCK_ROW:
    case BS_DO_REKEY_ROW: return true;
    default: return false;
  }
}

/* Makes a command with the manager. In a scenario that refuses memory the first, second or third allocation of the call
 * is refused: then nothing has changed, and the command is repeated. */
static bs_reply made_in_spite(const bs_command *c) {
  uint64_t accepted = accepted_by(&m);
  bs_reply came;
  refused_allocation = scenario->is_refused ? (long)(asked % 3 + 1) : 0;
  came = made(c);
  refused_allocation = 0;
  if (came.status != BS_NO_MEMORY) return came;
  refusals[c->kind]++;
  if (c->kind == BS_DO_INDEX_BY && c->key_count > 0) refusals_beside_records++;
  wanted(takes_no_memory(c) ? "a command that takes no memory is refused it" : NULL, c);
  wanted(same_number("how many are told in spite of a refusal", told.count, 0), c);
  if (c->kind == BS_DO_LOCK_PATH) return made(c); /* What was locked on the way stays. */
  wanted(same_number("how many commands are accepted", accepted_by(&m), accepted), c);
  wanted(same_state(&m, &n), c);
  wanted(same_graph(&m, &n), c);
  return made(c);
}

/* Makes the command with both, which must answer and tell the same. Rows are made and removed by other commands too. */
static bs_reply asks(bs_command c) {
  uint64_t births = n.births;
  size_t nodes = n.node_count;
  bs_reply came = made_in_spite(&c), wants = naive_make(&n, &c);
  asked++;
  wanted(same_reply(came, wants), &c);
  wanted(same_told(&told, &n.told), &c);
  wanted(same_state(&m, &n), &c);
  if (n.births != births || n.node_count != nodes) wanted(same_graph(&m, &n), &c);
  if (changes_schema(&c) && came.status == BS_DONE) wanted(looks(), &c);
  count(&c, came);
  return came;
}

/* ------------------------------------------------------------------------------------------------
 * Drawing.
 */

/* True in one case of this many. */
static bool seldom(size_t cases) {
  return draw(cases) == 0;
}

static bs_node first_node(void) {
  static const bs_node none = { 0, 0 };
  return n.node_count == 0 ? none : n.nodes[0].name;
}

/* A node of this kind; if there is none, the one that was born first. */
static bs_node some(uint32_t kind) {
  bs_node found[NAIVE_NODES];
  size_t i, all = 0;
  for (i = 0; i < n.node_count; i++) {
    if (n.nodes[i].kind == kind) found[all++] = n.nodes[i].name;
  }
  return all == 0 ? first_node() : found[draw(all)];
}

static bs_node some_node(void) {
  switch (draw(16)) {
    case 0: case 1: return some_gone();
    case 2: return some(BS_INTERVAL);
    case 3: return some(BS_RECORD);
    case 4: case 5: case 6: return some(BS_INNER);
    case 7: case 8: case 9: case 10: return some(BS_FILE);
    default: return some(BS_INDEX);
  }
}

/* A file; now and then any node. */
static bs_node some_file(void) {
  return seldom(12) ? some_node() : some(BS_FILE);
}

/* An inner node; now and then any node. */
static bs_node some_parent(void) {
  switch (draw(24)) {
    case 0: return some_gone();
    case 1: return some_node();
    default: return some(BS_INNER);
  }
}

/* The lists of a command, while it is made. */
static bs_node parents[2], records[NAIVE_NODES + 1];
static uint64_t bounds[MOST_BOUNDS + 1], keys[NAIVE_NODES + 1];

/* Mostly one inner node, or two, which may be one. */
static void some_parents(bs_command *c) {
  size_t drawn = draw(16), i;
  c->parent_count = drawn == 0 ? 0 : drawn < 4 ? 2 : 1;
  for (i = 0; i < c->parent_count; i++) parents[i] = some_parent();
  c->parents = parents;
}

/* Mostly few bounds that rise. */
static void some_bounds(bs_command *c) {
  size_t drawn = draw(16), i;
  uint64_t last = 0;
  c->bound_count = drawn == 0 ? MOST_BOUNDS + 1 : drawn < 3 ? 2 : drawn < 8 ? 0 : 1;
  for (i = 0; i < c->bound_count; i++) bounds[i] = last += draw(12);
  c->bounds = bounds;
}

/* A key for each index of a file; seldom one more. */
static void some_keys(bs_command *c) {
  size_t i;
  c->key_count = 0;
  for (i = 0; i < n.node_count; i++) {
    if (n.nodes[i].kind == BS_INDEX && n.nodes[i].file == c->file.birth) keys[c->key_count++] = draw(KEYS);
  }
  if (seldom(24)) keys[c->key_count++] = 1;
  c->keys = keys;
}

/* The records of a file by rising births, up to some, and their number. */
static size_t records_of(bs_node file, bs_node *all) {
  size_t i, count = 0;
  for (i = 0; i < n.node_count; i++) {
    if (n.nodes[i].kind == BS_RECORD && n.nodes[i].file == file.birth) all[count++] = n.nodes[i].name;
  }
  return count;
}

/* Mostly all records of a file, with a key for each; else one is missing, named twice or out of place, or another node
 * is named. */
static void some_records(bs_command *c) {
  size_t count = records_of(c->file, records), drawn = count == 0 ? 12 : draw(12), at = draw(count + 1), i;
  bs_node last = records[count == 0 ? 0 : count - 1];
  if (drawn == 0) count--;
  if (drawn == 1) records[count++] = last;
  if (drawn == 2) records[count - 1] = records[0], records[0] = last;
  if (drawn == 3) records[at < count ? at : 0] = some_node();
  for (i = 0; i < count; i++) keys[i] = draw(KEYS);
  n.records = records;
  c->keys = keys;
  c->key_count = count;
}

/* Mostly this one; else a transaction that has ended. */
static bs_txn name(bs_txn txn) {
  return seldom(16) ? ended : txn;
}

/* ------------------------------------------------------------------------------------------------
 * Work of one transaction.
 */

/* Begins, for new work or for that of the transaction that ended last. */
static bs_txn begins(void) {
  static const bs_txn none = { 0, 0 };
  bs_command c = bs_do(BS_DO_BEGIN, none);
  if (seldom(2)) {
    c.kind = BS_DO_BEGIN_AGAIN;
    c.number = ended.age;
  }
  return asks(c).txn;
}

/* Ends a transaction, and begins another. */
static void ends(size_t who, uint32_t kind) {
  if (asks(bs_do(kind, txns[who])).status != BS_DONE) return;
  ended = txns[who];
  txns[who] = begins();
}

/* Renews a transaction, for new work or for that of the transaction that ended last. */
static void renews(size_t who) {
  bs_command c = bs_do(BS_DO_RENEW, name(txns[who]));
  bs_reply reply;
  c.number = seldom(2) ? ended.age : UINT64_MAX;
  reply = asks(c);
  if (reply.status != BS_DONE) return;
  ended = txns[who];
  txns[who] = reply.txn;
}

/* The mode that is needed above a lock. */
static bs_mode above(bs_mode mode) {
  return mode == BS_IX || mode == BS_SIX || mode == BS_X ? BS_IX : BS_IS;
}

/* Requests one lock, mostly so that it does not wait. */
static bs_reply locks(bs_txn txn, bs_node node, bs_mode mode) {
  return asks(bs_do_at(seldom(3) ? BS_DO_LOCK : BS_DO_TRY, txn, node, mode));
}

/* Locks a node, after what is missing above it. Returns whether it was granted. */
static bool reaches(bs_txn txn, bs_node node, bs_mode mode) {
  bs_node next = node;
  bs_mode next_mode = mode;
  int i;
  for (i = 0; i < 24; i++) {
    bs_reply reply = locks(txn, next, next_mode);
    if (reply.status == BS_DONE && same_node(next, node)) return true;
    if (reply.status != BS_DONE && reply.status != BS_NEED_PARENTS) return false;
    next_mode = reply.status == BS_DONE ? mode : above(next_mode);
    next = reply.status == BS_DONE ? node : reply.node;
  }
  return false;
}

/* Locks what a child below these needs. */
static void reaches_all(bs_txn txn, const bs_command *c) {
  bs_node all[2];
  size_t i;
  for (i = 0; i < c->parent_count; i++) all[i] = c->parents[i];
  for (i = 0; i < c->parent_count; i++) reaches(txn, all[i], BS_IX);
}

/* Deletes the records of a file, as far as their locks are granted. */
static void empties(bs_txn txn, bs_node file) {
  bs_node its[NAIVE_NODES];
  size_t i, all = records_of(file, its);
  for (i = 0; i < all && reaches(txn, its[i], BS_X); i++) asks(bs_do_at(BS_DO_DELETE, txn, its[i], BS_NL));
}

/* Locks what a drop of a node needs. */
static void takes(bs_txn txn, bs_node node) {
  const naive_node *found;
  bs_node file;
  reaches(txn, node, BS_X);
  found = naive_find(&n, node);
  if (found == NULL || found->kind != BS_INDEX) return;
  file = naive_born(&n, found->file)->name;
  if (!seldom(8)) reaches(txn, file, BS_X);
  if (seldom(2)) empties(txn, file);
}

/* Requests to read below a node, and waits if another transaction holds it in BS_X. */
static void comes(bs_txn txn, bs_node node) {
  int i;
  for (i = 0; i < 2; i++) {
    bs_reply reply = asks(bs_do_at(BS_DO_LOCK, txn, node, BS_IS));
    if (reply.status != BS_NEED_PARENTS) return;
    reaches(txn, reply.node, BS_IS);
  }
}

/* Drops a node, which may have a waiter. */
static void drops(bs_txn txn) {
  bs_node node = some_node();
  if (!seldom(6)) takes(txn, node);
  if (seldom(2)) comes(txns[draw(TXNS)], node);
  asks(bs_do_at(BS_DO_DROP, name(txn), node, BS_NL));
}

static void makes(bs_txn txn) {
  bs_command c = bs_do(BS_DO_ADD_FILE, txn);
  some_parents(&c);
  if (seldom(3)) c.kind = BS_DO_ADD_INNER;
  asks(c);
}

static void indexes(bs_txn txn) {
  bs_command c = bs_do(BS_DO_ADD_INDEX, txn);
  c.file = some_file();
  some_parents(&c);
  some_bounds(&c);
  asks(c);
}

/* Locks the indexes of a file, and mostly releases what is held of its records, for an index beside them. */
static void clears(bs_txn txn, bs_node file) {
  bs_node its[NAIVE_NODES];
  size_t i, all = 0;
  for (i = 0; i < n.node_count; i++) {
    if (n.nodes[i].kind == BS_INDEX && n.nodes[i].file == file.birth) its[all++] = n.nodes[i].name;
  }
  for (i = 0; i < all && !seldom(12); i++) reaches(txn, its[i], BS_X);
  all = records_of(file, its);
  if (all > 0 && seldom(4)) reaches(txn, its[draw(all)], BS_S);
  for (i = 0; i < all && !seldom(12); i++) {
    if (naive_held(&n, txn.slot, its[i].birth) != BS_NL) asks(bs_do_at(BS_DO_UNLOCK, txn, its[i], BS_NL));
  }
}

static void indexes_by(bs_txn txn) {
  bs_command c = bs_do(BS_DO_INDEX_BY, txn);
  const naive_node *record = naive_find(&n, some(BS_RECORD));
  c.file = some_file();
  if (record != NULL && record->kind == BS_RECORD && !seldom(3)) c.file = naive_born(&n, record->file)->name;
  some_parents(&c);
  some_bounds(&c);
  if (!seldom(6)) reaches(txn, c.file, BS_X);
  if (!seldom(3)) reaches_all(txn, &c);
  if (seldom(3)) {
    empties(txn, c.file);
  } else if (!seldom(4)) {
    clears(txn, c.file);
    some_records(&c);
  }
  c.txn = name(txn);
  asks(c);
}

/* Makes a command that needs locks above, and acquires those that are missing. */
static void asks_with_parents(bs_command c, bs_mode mode) {
  int i;
  for (i = 0; i < 4; i++) {
    bs_reply reply = asks(c);
    if (reply.status != BS_NEED_PARENTS) return;
    reaches(c.txn, reply.node, mode);
  }
}

static void inserts(bs_txn txn) {
  bs_command c = bs_do(BS_DO_INSERT, txn);
  c.file = some_file();
  some_keys(&c);
  asks_with_parents(c, BS_IX);
}

static void adopts(bs_txn txn) {
  bs_command c = bs_do(BS_DO_ADOPT, txn);
  c.file = some_file();
  some_keys(&c);
  asks(c);
}

/* Removes a record, by its holder or as one that nobody holds. */
static void deletes(bs_txn txn) {
  bs_node record = seldom(16) ? some_node() : some(BS_RECORD);
  if (seldom(4)) {
    asks(bs_do_at(BS_DO_FORGET, txn, record, BS_NL));
    return;
  }
  if (!seldom(6)) reaches(txn, record, BS_X);
  asks(bs_do_at(BS_DO_DELETE, txn, record, BS_NL));
}

static void moves(bs_txn txn) {
  bs_command c = bs_do(BS_DO_MOVE, txn);
  c.node = some_node();
  some_parents(&c);
  if (!seldom(6)) {
    reaches(txn, c.node, BS_X);
    reaches_all(txn, &c);
  }
  asks(c);
}

/* An interval; now and then any node. */
static bs_node some_interval(void) {
  return seldom(12) ? some_node() : some(BS_INTERVAL);
}

/* Splits an interval, for which others may wait. */
static void splits(bs_txn txn) {
  bs_command c = bs_do_at(BS_DO_SPLIT, txn, some_interval(), BS_NL);
  if (!seldom(6)) reaches(txn, c.node, BS_X);
  if (seldom(2)) comes(txns[draw(TXNS)], c.node);
  c.txn = name(txn);
  c.key = draw(KEYS);
  asks(c);
}

/* Merges an interval with the next one. Others may wait for either. */
static void merges(bs_txn txn) {
  bs_command c = bs_do_at(BS_DO_MERGE, txn, some_interval(), BS_NL);
  const naive_node *found = naive_find(&n, c.node);
  bs_node next = c.node;
  if (found != NULL && found->kind == BS_INTERVAL && !found->is_last) {
    next = naive_interval(&n, found->index, found->to)->name;
  }
  if (!seldom(6)) reaches(txn, c.node, BS_X);
  if (!seldom(6)) reaches(txn, next, BS_X);
  if (seldom(2)) comes(txns[draw(TXNS)], seldom(2) ? c.node : next);
  c.txn = name(txn);
  asks(c);
}

/* A node that a transaction holds, if it holds any. */
static bs_node some_held(bs_txn txn) {
  static const bs_node none = { 0, 0 };
  const naive_txn *t = naive_txn_of(&n, txn);
  if (t == NULL || t->hold_count == 0) return none;
  return naive_born(&n, t->holds[draw(t->hold_count)].node)->name;
}

static void unlocks(bs_txn txn) {
  asks(bs_do_at(BS_DO_UNLOCK, txn, some_held(txn), BS_NL));
}

static bs_mode some_mode(void) {
  static const bs_mode modes[] = { BS_IS, BS_IX, BS_IX, BS_S, BS_SIX, BS_X, BS_X };
  return modes[draw(7)];
}

static void locks_one(bs_txn txn) {
  bs_node node = some_node();
  bs_mode mode = some_mode();
  if (seldom(4)) locks(txn, node, mode);
  else reaches(txn, node, mode);
}

/* Two transactions that may read a node request to write it, so that one is the victim. */
static void clash(bs_txn txn) {
  bs_node node = some_node();
  bs_txn other = txns[draw(TXNS)];
  if (!reaches(txn, node, BS_S) || !reaches(other, node, BS_S)) return;
  asks(bs_do_at(BS_DO_LOCK, txn, node, BS_X));
  asks(bs_do_at(BS_DO_LOCK, other, node, BS_X));
}

/* ------------------------------------------------------------------------------------------------
 * All work.
 */

/* A transaction that waits or is condemned makes calls in vain, or ends. */
static void gives_up(size_t who) {
  switch (draw(8)) {
    case 0: drops(txns[who]); break;
    case 1: indexes_by(txns[who]); break;
    case 2: ends(who, BS_DO_COMMIT); break;
    case 3: if (seldom(2)) splits(txns[who]); else merges(txns[who]); break;
    default: ends(who, BS_DO_ABORT);
  }
}

/* Work of an active transaction. */
static void works(size_t who) {
  bs_txn txn = txns[who];
  size_t drawn = draw(63);
  if (drawn >= 57) splits(txn);
  else if (drawn >= 51) merges(txn);
  else if (drawn >= 49) renews(who);
  else if (drawn >= 48) adopts(txn);
  else if (drawn < 4) makes(txn);
  else if (drawn < 6) indexes(txn);
  else if (drawn < 12) indexes_by(txn);
  else if (drawn < 18) inserts(txn);
  else if (drawn < 21) deletes(txn);
  else if (drawn < 22) adopts(txn);
  else if (drawn < 24) moves(txn);
  else if (drawn < 26) unlocks(txn);
  else if (drawn < 29) locks_one(txn);
  else if (drawn < 30) asks(bs_do(BS_DO_BEGIN, txn)); /* one more than may live */
  else if (drawn < 35) ends(who, BS_DO_COMMIT);
  else if (drawn < 38) clash(txn);
  else if (drawn < 39) ends(who, BS_DO_ABORT);
  else drops(txn);
}

static void goes_on(void) {
  size_t who;
  bool is_waiting;
  if (n.node_count == 0) asks(bs_do(BS_DO_ADD_INNER, ended));
  who = draw(TXNS);
  is_waiting = naive_wait_of(&n, txns[who]) != NULL;
  if (is_waiting && seldom(2)) return;
  if (is_waiting || n.txns[txns[who].slot].is_condemned) gives_up(who);
  else works(who);
}

/* An index of a file; now and then any index. */
static bs_node some_index_of(uint64_t file) {
  bs_node index = some(BS_INDEX);
  size_t i;
  for (i = 0; i < n.node_count; i++) {
    if (n.nodes[i].kind == BS_INDEX && n.nodes[i].file == file && !seldom(8)) index = n.nodes[i].name;
  }
  return index;
}

/* A row of a file of rows, if there is one; now and then of any file. */
static bs_command some_row(uint32_t kind, bs_txn txn, bs_mode mode) {
  bs_command c = bs_do_at(kind, txn, first_node(), mode);
  size_t i;
  c.file = some_file();
  for (i = 0; i < n.node_count; i++) {
    if (n.nodes[i].has_rows && !seldom(8)) c.file = n.nodes[i].name;
  }
  c.index = some_index_of(c.file.birth);
  c.number = draw(ROWS);
  c.key = draw(KEYS);
  some_keys(&c);
  return c;
}

static void locks_row(bs_txn txn) {
  bs_command c = some_row(BS_DO_LOCK_ROW, txn, seldom(8) ? BS_IX : seldom(2) ? BS_S : BS_X);
  asks_with_parents(c, above(c.mode));
}

/* A row gets another key, mostly by a transaction that writes it. */
static void rekeys_row(bs_txn txn) {
  bs_command c = some_row(BS_DO_LOCK_ROW, txn, BS_X);
  if (!seldom(4)) asks_with_parents(c, BS_IX);
  c.kind = BS_DO_REKEY_ROW;
  asks_with_parents(c, BS_IX);
}

static void makes_rows(bs_txn txn) {
  bs_command c = bs_do(BS_DO_ADD_ROW_FILE, txn);
  some_parents(&c);
  asks(c);
}


/* A record gets another key, mostly by a transaction that writes it. */
static void rekeys(bs_txn txn) {
  bs_command c = bs_do_at(BS_DO_REKEY, txn, some(BS_RECORD), BS_NL);
  const naive_node *record = naive_find(&n, c.node);
  c.index = some_index_of(record == NULL ? 0 : record->file);
  c.key = draw(KEYS);
  if (!seldom(4)) reaches(txn, c.node, BS_X);
  asks_with_parents(c, BS_IX);
}

/* A savepoint, and a rollback to one that is good, or to none at all. */
static void goes_back(bs_txn txn) {
  bs_command c = bs_do(BS_DO_RELEASE_SINCE, txn);
  const naive_txn *t = naive_txn_of(&n, txn);
  if (seldom(2)) {
    bs_reply wants = naive_mark(&n, txn);
    wanted(same_reply(bs_mark(&m, txn), wants), &c);
    return;
  }
  if (t != NULL && t->mark_count > 0) c.number = t->marks[draw(t->mark_count)];
  asks(c);
}

/* What became of a wait, which may never have existed. */
static void asks_for_a_verdict(bs_txn txn) {
  bs_command c = bs_do_at(0, txn, some_node(), some_mode());
  const naive_txn *t = naive_txn_of(&n, txn);
  if (t != NULL && t->box.kind == BS_TOLD_GRANTED && !seldom(3)) c.node = t->box.node;
  wanted(same_reply(bs_verdict(&m, txn, c.node, c.mode), naive_verdict(&n, txn, c.node, c.mode)), &c);
}

/* Work of kinds that the scenarios of seeds 1 to 3 do not have. */
static void goes_further(void) {
  bs_txn txn = name(txns[draw(TXNS)]);
  switch (draw(24)) {
    case 0: makes_rows(txn); break;
    case 1: case 2: case 3: case 4: locks_row(txn); break;
    case 5: case 6: asks(some_row(BS_DO_UNLOCK_ROW, txn, BS_NL)); break;
    case 7: case 8: rekeys_row(txn); break;
    case 9: case 10: case 11: rekeys(txn); break;
    case 12: case 13: asks(bs_do_at(BS_DO_ESCALATE, txn, seldom(4) ? some_node() : some_held(txn), BS_NL)); break;
    case 14: case 15: asks(bs_do(BS_DO_CANCEL, txn)); break;
    case 16: case 17: asks(bs_do(BS_DO_SETTLE, txn)); break;
    case 18: case 19: goes_back(txn); break;
    case 20: asks_for_a_verdict(txn); break;
    case 21: asks(bs_do(BS_DO_ABORT, ended)); break;
    default: asks(bs_do_at(BS_DO_LOCK_PATH, txn, some_node(), some_mode()));
  }
}

/* ------------------------------------------------------------------------------------------------
 * The scenarios.
 */

/* Opens both, and draws from this stream from now on. */
static void opens(uint64_t stream) {
  static const bs_txn nobody = { 0, 0 };
  bs_options options = { 0, 0, TXNS, MOST_NODES, MOST_BOUNDS, 0 };
  size_t i;
  ended = nobody;
  options.detect = scenario->detect;
  options.victims = scenario->victims;
  wanted(same_number("make", bs_make(&m, &options).status, BS_DONE), NULL);
  naive_open(&n, &options);
  rng = pcg_new(scenario->seed, stream);
  for (i = 0; i < TXNS; i++) txns[i] = begins();
  asks(bs_do(BS_DO_ADD_INNER, ended));
}

static void run_scenario(unsigned long draws, uint64_t stream) {
  unsigned long i;
  opens(stream);
  for (i = 0; i < draws; i++) {
    goes_on();
    if (scenario->is_wide && seldom(2)) goes_further();
  }
  wanted(same_number("end", bs_end(&m).status, BS_DONE), NULL);
  wanted(same_number("how many blocks of memory are left", (uint64_t)blocks_out(), 0), NULL);
}

/* Plays with one manager, or with many if memory is refused. */
static void run_scenarios(unsigned long draws) {
  unsigned long rest = draws;
  for (; scenario->is_refused && rest > FEW_DRAWS; rest -= FEW_DRAWS) run_scenario(FEW_DRAWS, 54 + rest);
  run_scenario(rest, 54);
}

/* What must be answered to a drop, to an index by a transaction, to a split and to a merge, at least once. */
static const bs_status of_drops[] = { BS_DONE, BS_NO_SUCH_TXN, BS_TXN_WAITING, BS_TXN_CONDEMNED, BS_NO_SUCH_NODE,
                                      BS_BAD_PARENTS, BS_NEED_EXCLUSIVE, BS_HAS_CHILDREN, BS_FILE_IN_USE };
static const bs_status of_indexes[] = { BS_DONE, BS_NO_SUCH_TXN, BS_TXN_WAITING, BS_TXN_CONDEMNED, BS_NO_SUCH_NODE,
                                        BS_BAD_PARENTS, BS_NEED_EXCLUSIVE, BS_NEED_PARENTS, BS_FILE_IN_USE, BS_BAD_KEYS,
                                        BS_TOO_MANY_NODES };
static const bs_status of_splits[] = { BS_DONE, BS_NO_SUCH_TXN, BS_TXN_WAITING, BS_TXN_CONDEMNED, BS_NO_SUCH_NODE,
                                       BS_BAD_PARENTS, BS_NEED_EXCLUSIVE, BS_BAD_KEYS, BS_TOO_MANY_NODES };
static const bs_status of_merges[] = { BS_DONE, BS_NO_SUCH_TXN, BS_TXN_WAITING, BS_TXN_CONDEMNED, BS_NO_SUCH_NODE,
                                       BS_BAD_PARENTS, BS_NEED_EXCLUSIVE };

static void all_came(uint32_t kind, const bs_status *statuses, size_t all) {
  size_t i;
  for (i = 0; i < all; i++) {
    bool has_come = tally[kind][statuses[i]] > 0;
    if (!has_come) wanted(say("command %u was never answered %s", kind, bs_text(statuses[i])), NULL);
  }
}

/* The same of an index beside records. */
static void all_came_beside_records(void) {
  size_t i;
  for (i = 0; i < sizeof of_indexes / sizeof of_indexes[0]; i++) {
    bool has_come = beside_records[of_indexes[i]] > 0;
    if (!has_come) wanted(say("an index beside records was never answered %s", bs_text(of_indexes[i])), NULL);
  }
  if (refusals_beside_records == 0) wanted("an index beside records was never refused memory", NULL);
}

/* Whether only a table has commands of this kind. */
static bool is_of_tables(uint32_t kind) {
  return kind == BS_DO_TRY_PATH || kind == BS_DO_TRY_ROW || (kind > BS_DO_RENEW && kind < BS_DO_SPLIT);
}

/* Each kind of command was accepted and refused. A begin can be refused in only one way. */
static void all_kinds_came(void) {
  uint32_t kind;
  for (kind = BS_DO_BEGIN; kind < KINDS; kind++) {
    unsigned long refused = 0;
    bs_status status;
    if (is_of_tables(kind)) continue;
    for (status = 1; status < STATUSES; status++) refused += tally[kind][status];
    if (tally[kind][BS_DONE] < 5) wanted(say("command %u was accepted %lu times", kind, tally[kind][BS_DONE]), NULL);
    if (kind != BS_DO_BEGIN_AGAIN && refused < 5) wanted(say("command %u was refused %lu times", kind, refused), NULL);
  }
}

/* Each kind of command that makes something or locks was refused memory. */
static void all_refusals_came(void) {
  static const uint32_t growing[] = { BS_DO_LOCK, BS_DO_LOCK_PATH, BS_DO_TRY, BS_DO_LOCK_ROW, BS_DO_INSERT, BS_DO_ADOPT,
                                      BS_DO_ADD_INNER, BS_DO_ADD_FILE, BS_DO_ADD_ROW_FILE, BS_DO_ADD_INDEX,
                                      BS_DO_INDEX_BY, BS_DO_MOVE, BS_DO_SPLIT };
  size_t i;
  for (i = 0; i < sizeof growing / sizeof growing[0]; i++) {
    if (refusals[growing[i]] == 0) wanted(say("command %u was never refused memory", growing[i]), NULL);
  }
}

static void tally_is_full(void) {
  all_came(BS_DO_DROP, of_drops, sizeof of_drops / sizeof of_drops[0]);
  all_came(BS_DO_INDEX_BY, of_indexes, sizeof of_indexes / sizeof of_indexes[0]);
  all_came_beside_records();
  all_came(BS_DO_SPLIT, of_splits, sizeof of_splits / sizeof of_splits[0]);
  all_came(BS_DO_MERGE, of_merges, sizeof of_merges / sizeof of_merges[0]);
  if (told_gone == 0) wanted("nobody was told that a dropped node is gone", NULL);
  if (told_split == 0 || told_merged == 0) wanted("nobody was told of a split, or of a merge", NULL);
  all_kinds_came();
  all_refusals_came();
}

int main(int argc, char **argv) {
  unsigned long draws = argc > 1 ? strtoul(argv[1], NULL, 10) : 6000;
  pcg reference = pcg_new(42, 54);
  size_t i;
  scenario = &settings[0];
  wanted(same_number("first word of the reference", pcg_word(&reference), 0xa15c02b7), NULL);
  for (i = 0; i < sizeof settings / sizeof settings[0]; i++) {
    scenario = &settings[i];
    run_scenarios(draws);
  }
  tally_is_full();
  printf("random_schemas_come_and_go: %lu commands\n", asked);
  return 0;
}
