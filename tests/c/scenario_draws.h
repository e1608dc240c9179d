/*
 * scenario_draws.h: random calls. Most are likely to be done in the state of the model, some are refused.
 */
#ifndef SCENARIO_DRAWS_H
#define SCENARIO_DRAWS_H

#include "pcg.h"
#include "scenario_table.h"

/* Keys of records and rows, and numbers of rows, are below these. */
enum { KEYS = 30, ROWS = 3 };

static pcg rng;

static size_t draw(size_t below) {
  return pcg_below(&rng, below);
}

/* True in one case of this many. */
static bool one_in(size_t cases) {
  return draw(cases) == 0;
}

typedef struct weight {
  uint32_t kind;
  size_t weight;
} weight;

/* One of some kinds, by their weights. */
static uint32_t weighed(const weight *kinds, size_t count) {
  size_t all = 0, i, drawn_weight;
  for (i = 0; i < count; i++) all += kinds[i].weight;
  drawn_weight = draw(all);
  for (i = 0; drawn_weight >= kinds[i].weight; i++) drawn_weight -= kinds[i].weight;
  return kinds[i].kind;
}

#define WEIGHED(kinds) weighed(kinds, sizeof kinds / sizeof kinds[0])

/* How a scenario is drawn: how often each mode is requested; one in how many locks is for an instant; whether most
 * calls are asks for roots; and one in how many calls is a knot. */
static struct {
  weight modes[5];
  size_t instants;
  bool is_hot;
  size_t knots;
} habits;

static void draw_habits(void) {
  uint32_t mode;
  for (mode = BS_IS; mode <= BS_X; mode++) {
    habits.modes[mode - 1].kind = mode;
    habits.modes[mode - 1].weight = 1 + draw(6);
  }
  habits.instants = 2 + draw(4);
  habits.is_hot = one_in(2);
  habits.knots = !habits.is_hot ? 100 : n.limits.detect == BS_AT_BLOCK ? 4 : 20;
}

/* ------------------------------------------------------------------------------------------------
 * Transactions.
 */

/* A wait that a list left. */
typedef struct left_wait {
  bs_txn txn;
  bs_node node;
  bs_mode mode;
} left_wait;

/* A transaction that has ended, and by slot the last two waits that lists left. */
static bs_txn ended_txn;
static left_wait left_waits[NAIVE_TXNS][2];

/* Whether an ask of a transaction waits, or has an end that is not told yet: other calls leave it alone. */
static bool is_busy(bs_txn txn) {
  size_t i;
  if (asks[txn.slot].waits || (is_asking && same_txn(asking, txn))) return true;
  for (i = 0; i < end_count; i++) {
    if (same_txn(ends[i].txn, txn)) return true;
  }
  return false;
}

/* Whether a transaction can request locks. */
static bool is_free(bs_txn txn) {
  const naive_txn *t = naive_txn_of(&n, txn);
  return t != NULL && !t->is_condemned && naive_wait_of(&n, txn) == NULL && !is_busy(txn);
}

/* A transaction that lives, mostly a free one; no_txn if none lives. */
static bs_txn some_living(void) {
  bs_txn free_ones[NAIVE_TXNS], others[NAIVE_TXNS];
  size_t free_count = 0, other_count = 0;
  uint32_t slot;
  for (slot = 0; slot < n.limits.transactions; slot++) {
    bs_txn txn = naive_txn_in(&n, slot);
    if (!n.txns[slot].lives) continue;
    if (is_free(txn)) free_ones[free_count++] = txn;
    else others[other_count++] = txn;
  }
  if (free_count > 0 && (other_count == 0 || !one_in(6))) return free_ones[draw(free_count)];
  return other_count == 0 ? no_txn : others[draw(other_count)];
}

/* Chooses up to this many different free transactions; how many there are. */
static size_t some_free(bs_txn *txns, size_t most) {
  bs_txn all[NAIVE_TXNS];
  size_t count = 0, taken = 0;
  uint32_t slot;
  for (slot = 0; slot < n.limits.transactions; slot++) {
    if (is_free(naive_txn_in(&n, slot))) all[count++] = naive_txn_in(&n, slot);
  }
  while (taken < most && count > 0) {
    size_t place = draw(count);
    txns[taken++] = all[place];
    all[place] = all[--count];
  }
  return taken;
}

/* A name that names no transaction. */
static bs_txn nobody(void) {
  bs_txn txn = some_living();
  switch (draw(5)) {
    case 0: return ended_txn;
    case 1: txn.slot += BS_SLOTS; return txn;
    case 2: txn.slot = bs_begun().slot; return txn;
    case 3: txn.age = 0; return txn;
    default: txn.age += 1000; return txn;
  }
}

static bs_txn some_txn(void) {
  return one_in(40) ? nobody() : some_living();
}

/* A transaction for which the one in a slot waits; no_txn if it does not wait. */
static bs_txn some_blocker(uint32_t slot) {
  bool waits[NAIVE_TXNS];
  bs_txn blocker = no_txn;
  uint32_t other;
  naive_waits_for(&n, slot, waits);
  for (other = 0; other < n.limits.transactions; other++) {
    if (waits[other] && (blocker.age == 0 || one_in(2))) blocker = naive_txn_in(&n, other);
  }
  return blocker;
}

/* ------------------------------------------------------------------------------------------------
 * Nodes.
 */

/* A root, or no_node. */
static bs_node some_root(void) {
  bs_node roots[NAIVE_NODES];
  size_t i, count = 0;
  for (i = 0; i < n.node_count; i++) {
    if (n.nodes[i].parent_count == 0) roots[count++] = n.nodes[i].name;
  }
  return count == 0 ? no_node : roots[draw(count)];
}

/* A node, often a root; seldom a name that names none. */
static bs_node some_node(void) {
  bs_node node;
  if (n.node_count == 0) return no_node;
  if (one_in(40) && n.gone_count > 0) return n.gone[draw(n.gone_count)];
  node = one_in(3) ? some_root() : n.nodes[draw(n.node_count)].name;
  if (one_in(100)) node.birth += 1000;
  if (one_in(100)) node.key++;
  return node;
}

/* A node of this kind; seldom another one. */
static bs_node some(uint32_t kind) {
  bs_node found[NAIVE_NODES];
  size_t i, count = 0;
  for (i = 0; i < n.node_count; i++) {
    if (n.nodes[i].kind == kind) found[count++] = n.nodes[i].name;
  }
  return count == 0 || one_in(30) ? some_node() : found[draw(count)];
}

static uint32_t some_movable_kind(void) {
  static const weight kinds[] = { { BS_INNER, 2 }, { BS_FILE, 1 }, { BS_INDEX, 1 } };
  return WEIGHED(kinds);
}

/* A file of rows, or of records; seldom another node. */
static bs_node some_file(bool has_rows) {
  bs_node file = some(BS_FILE);
  size_t i;
  for (i = 0; i < n.node_count; i++) {
    if (n.nodes[i].kind == BS_FILE && n.nodes[i].has_rows == has_rows && !one_in(8)) file = n.nodes[i].name;
  }
  return file;
}

/* An index of a file; now and then another node. */
static bs_node some_index_of(bs_node file) {
  bs_node index = some(BS_INDEX);
  size_t i;
  for (i = 0; i < n.node_count; i++) {
    if (n.nodes[i].kind == BS_INDEX && n.nodes[i].file == file.birth && !one_in(4)) index = n.nodes[i].name;
  }
  return index;
}

/* The interval of an index that has a key, or no_node. */
static bs_node interval_of(bs_node index, uint64_t key) {
  const naive_node *interval = naive_interval(&n, index.birth, key);
  return interval == NULL ? no_node : interval->name;
}

/* The interval after a node, if that is an interval and not the last of its index; else the node. */
static bs_node next_interval(bs_node node) {
  const naive_node *found = naive_find(&n, node);
  if (found == NULL || found->kind != BS_INTERVAL || found->is_last) return node;
  return naive_interval(&n, found->index, found->to)->name;
}

/* The interval before one, or itself if that is the first. */
static bs_node interval_before(bs_node interval) {
  const naive_node *found = naive_find(&n, interval);
  return found->from == 0 ? interval : naive_interval(&n, found->index, found->from - 1)->name;
}

/* A node that a transaction holds; now and then another one. */
static bs_node some_held(bs_txn txn) {
  const naive_txn *t = naive_txn_of(&n, txn);
  if (t == NULL || t->hold_count == 0 || one_in(12)) return some_node();
  return naive_born(&n, t->holds[draw(t->hold_count)].node)->name;
}

/* A child of a node that a transaction holds; now and then another node. */
static bs_node some_child_of_held(bs_txn txn) {
  bs_node node = some_node();
  size_t i, j;
  for (i = 0; naive_txn_of(&n, txn) != NULL && i < n.node_count; i++) {
    for (j = 0; j < n.nodes[i].parent_count; j++) {
      if (naive_held(&n, txn.slot, n.nodes[i].parents[j]) != BS_NL && one_in(3)) node = n.nodes[i].name;
    }
  }
  return node;
}

/* A node of this kind that a transaction holds in BS_X; now and then another one. */
static bs_node some_exclusive(bs_txn txn, uint32_t kind) {
  const naive_txn *t = naive_txn_of(&n, txn);
  bs_node node = some(kind);
  size_t i;
  for (i = 0; t != NULL && i < t->hold_count; i++) {
    const naive_node *held = naive_born(&n, t->holds[i].node);
    if (held->kind == kind && t->holds[i].mode == BS_X && !one_in(4)) node = held->name;
  }
  return node;
}

static bool is_awaited(uint64_t node) {
  size_t i = 0;
  while (i < n.wait_count && n.waits[i].node != node) i++;
  return i < n.wait_count;
}

/* Whether no transaction holds a node or waits for it. */
static bool is_idle(uint64_t node) {
  uint32_t slot = 0;
  while (slot < n.limits.transactions && naive_held(&n, slot, node) == BS_NL) slot++;
  return slot == n.limits.transactions && !is_awaited(node);
}

/* A node that is held by a transaction which waits for this one, so that a wait for the node would close a cycle; or
 * no_node. */
static bs_node some_node_on_a_cycle(bs_txn txn) {
  bs_node node = no_node;
  size_t i, j;
  for (i = 0; i < n.wait_count; i++) {
    const naive_txn *other = &n.txns[n.waits[i].slot];
    bool waits[NAIVE_TXNS];
    naive_waits_for(&n, n.waits[i].slot, waits);
    for (j = 0; waits[txn.slot] && j < other->hold_count; j++) {
      uint64_t held = other->holds[j].node;
      if (node.birth == 0 || one_in(is_awaited(held) ? 2 : 6)) node = naive_born(&n, held)->name;
    }
  }
  return node;
}

/* ------------------------------------------------------------------------------------------------
 * What commands are made with.
 */

static bs_mode some_mode(bs_node node) {
  const naive_node *found = naive_find(&n, node);
  if (one_in(100)) return one_in(2) ? BS_NL : BS_X + 1;
  if (found != NULL && found->kind == BS_RECORD && !one_in(8)) return one_in(2) ? BS_S : BS_X;
  return WEIGHED(habits.modes);
}

/* A transaction that holds few nodes mostly requests intentions, so that it acquires some before it waits. */
static bs_mode some_lock_mode(bs_txn txn, bs_node node) {
  const naive_txn *t = naive_txn_of(&n, txn);
  if (t != NULL && t->hold_count < 2 && !one_in(3)) return one_in(2) ? BS_IS : BS_IX;
  return some_mode(node) | (one_in(habits.instants) ? BS_INSTANT : 0);
}

/* A key for each index of the command's file. Those of a row follow from its number; now and then they are others, and
 * seldom there are too many. */
static void some_keys(drawn *d) {
  size_t i, count = 0;
  bool is_own = d->c.kind == BS_DO_INSERT || d->c.kind == BS_DO_ADOPT || !one_in(8);
  for (i = 0; i < n.node_count; i++) {
    if (n.nodes[i].kind != BS_INDEX || n.nodes[i].file != d->c.file.birth) continue;
    d->keys[count] = is_own ? (d->c.number * 7 + count * 3) % KEYS : draw(KEYS);
    count++;
  }
  if (one_in(60)) d->keys[count++] = 1;
  d->c.key_count = one_in(100) ? MOST_KEYS : count;
}

/* Mostly one inner node; seldom none, two, or more than a node can have. */
static void some_parents(drawn *d) {
  size_t drawn_count = draw(60), i;
  d->c.parent_count = drawn_count == 0 ? BS_MOST_PARENTS + 1 : drawn_count < 5 ? 0 : drawn_count < 15 ? 2 : 1;
  for (i = 0; i < d->c.parent_count; i++) d->parents[i] = some(BS_INNER);
}

static void some_bounds(drawn *d) {
  uint64_t last = 0;
  size_t i;
  d->c.bound_count = one_in(12) ? MOST_BOUNDS + 1 : draw(MOST_BOUNDS + 1);
  for (i = 0; i < d->c.bound_count; i++) d->bounds[i] = last += draw(12);
}

/* The number of a row, mostly of one that has a node. */
static uint64_t some_number(bs_node file) {
  uint64_t number = draw(ROWS);
  if (naive_row(&n, file, number) == NULL) number = draw(ROWS);
  return naive_row(&n, file, number) == NULL ? draw(ROWS) : number;
}

static void some_row(drawn *d) {
  d->c.file = some_file(true);
  d->c.number = some_number(d->c.file);
  d->c.index = some_index_of(d->c.file);
  d->c.key = draw(KEYS);
  d->c.mode = one_in(40) ? BS_IX : one_in(60) ? BS_X | BS_INSTANT : one_in(2) ? BS_S : BS_X;
  some_keys(d);
}

static void some_record(drawn *d) {
  const naive_node *record;
  d->c.node = some_exclusive(d->c.txn, BS_RECORD);
  record = naive_find(&n, d->c.node);
  d->c.index = some_node();
  if (record != NULL && record->kind == BS_RECORD) d->c.index = some_index_of(naive_born(&n, record->file)->name);
  d->c.key = draw(KEYS);
}

/* A savepoint of a transaction that is good. */
static uint64_t some_savepoint(bs_txn txn) {
  const naive_txn *t = naive_txn_of(&n, txn);
  if (t == NULL || one_in(6)) return one_in(2) ? 0 : 1000;
  return t->mark_count == 0 ? t->hold_count : t->marks[draw(t->mark_count)];
}

/* Draws what a command of the graph or of records is made with. */
static void fill_of_nodes(drawn *d) {
  switch (d->c.kind) {
    case BS_DO_ADD_INDEX:
    case BS_DO_INDEX_BY: d->c.file = some_file(one_in(2)); some_bounds(d); some_parents(d); break;
    case BS_DO_ADD_INNER:
    case BS_DO_ADD_FILE:
    case BS_DO_ADD_ROW_FILE: some_parents(d); break;
    case BS_DO_MOVE: d->c.node = some_exclusive(d->c.txn, some_movable_kind()); some_parents(d); break;
    case BS_DO_DROP: d->c.node = some_exclusive(d->c.txn, some_movable_kind()); break;
    case BS_DO_SPLIT:
    case BS_DO_MERGE: d->c.node = some_exclusive(d->c.txn, BS_INTERVAL); d->c.key = draw(KEYS); break;
    case BS_DO_INSERT:
    case BS_DO_ADOPT: d->c.file = some_file(one_in(12)); d->c.number = draw(KEYS); some_keys(d); break;
    case BS_DO_DELETE:
    case BS_DO_FORGET:
    case BS_DO_REKEY: some_record(d); break;
    default: break;
  }
}

/* Draws what a command is made with, by its kind and transaction. */
static void fill(drawn *d) {
  switch (d->c.kind) {
    case BS_DO_LOCK:
    case BS_DO_LOCK_PATH:
    case BS_DO_TRY:
      d->c.node = d->c.kind != BS_DO_LOCK_PATH && !one_in(4) ? some_root() : some_node();
      d->c.mode = some_lock_mode(d->c.txn, d->c.node);
      break;
    case BS_DO_TRY_PATH:
      d->c.node = one_in(3) ? some_child_of_held(d->c.txn) : some_node();
      d->c.mode = some_mode(d->c.node) | (one_in(40) ? BS_INSTANT : 0);
      d->c.keep = one_in(30) ? 2 : (uint32_t)draw(2);
      break;
    case BS_DO_UNLOCK:
    case BS_DO_ESCALATE: d->c.node = some_held(d->c.txn); break;
    case BS_DO_RELEASE_SINCE: d->c.number = some_savepoint(d->c.txn); break;
    case BS_DO_BEGIN_AGAIN: d->c.number = draw(n.begins + 2); break;
    case BS_DO_LOCK_ROW:
    case BS_DO_TRY_ROW:
    case BS_DO_UNLOCK_ROW:
    case BS_DO_REKEY_ROW: some_row(d); break;
    default: fill_of_nodes(d);
  }
}

static drawn filled(uint32_t kind, bs_txn txn) {
  drawn d;
  memset(&d, 0, sizeof d);
  d.c = bs_do(kind, txn);
  fill(&d);
  return d;
}

/* Adds a command to a call. */
static void add(call *c, drawn d) {
  c->has_told[c->count] = one_in(2);
  c->list[c->count++] = d;
}

/* Adds a command that needs no more than its transaction. */
static void add_bare(call *c, uint32_t kind, bs_txn txn) {
  drawn d;
  memset(&d, 0, sizeof d);
  d.c = bs_do(kind, txn);
  add(c, d);
}

/* Adds a command that is drawn now. A savepoint may be spoilt by the commands before it, unless it is 0. */
static void add_drawn(call *c, uint32_t kind, bs_txn txn) {
  drawn d = filled(kind, txn);
  if (kind == BS_DO_RELEASE_SINCE && c->count > 0) d.c.number = 0;
  add(c, d);
}

/* Adds a lock of this node. */
static void add_lock(call *c, uint32_t kind, bs_txn txn, bs_node node, bs_mode mode) {
  drawn d;
  memset(&d, 0, sizeof d);
  d.c = bs_do_at(kind, txn, node, mode);
  add(c, d);
}

/* ------------------------------------------------------------------------------------------------
 * Lists.
 */

/* Adds the paths that a writer needs above a row or a record, as far as there is room for two commands more. */
static void add_paths_above(call *c, const drawn *d) {
  size_t i, place = 0;
  add_lock(c, BS_DO_LOCK_PATH, d->c.txn, d->c.file, BS_IX);
  for (i = 0; i < n.node_count && place < d->c.key_count && c->count < LIST - 2; i++) {
    if (n.nodes[i].kind != BS_INDEX || n.nodes[i].file != d->c.file.birth) continue;
    add_lock(c, BS_DO_LOCK_PATH, d->c.txn, interval_of(n.nodes[i].name, d->keys[place++]), BS_IX);
  }
}

/* Inserts a record, or locks a row, with the locks that it needs. */
static void list_of_one_more(call *c, bs_txn txn, uint32_t kind) {
  drawn d = filled(kind, txn);
  add_paths_above(c, &d);
  add(c, d);
}

/* Changes a node, or any node if it is no_node, with the locks that the change needs. */
static void list_of_a_change(call *c, bs_txn txn, uint32_t kind, bs_node node) {
  drawn d = filled(kind, txn);
  const naive_node *found;
  if (kind == BS_DO_DROP) d.c.node = some(some_movable_kind());
  if (node.birth != 0) d.c.node = node;
  found = naive_find(&n, d.c.node);
  if (kind == BS_DO_REKEY) add_lock(c, BS_DO_LOCK_PATH, txn, interval_of(d.c.index, d.c.key), BS_IX);
  if (d.c.parent_count > 0) add_lock(c, BS_DO_LOCK_PATH, txn, d.parents[0], BS_IX);
  add_lock(c, BS_DO_LOCK_PATH, txn, kind == BS_DO_INDEX_BY ? d.c.file : d.c.node, BS_X);
  if (kind == BS_DO_DROP && found != NULL && found->kind == BS_INDEX) {
    add_lock(c, BS_DO_LOCK_PATH, txn, naive_born(&n, found->file)->name, BS_X);
  }
  add(c, d);
}

/* Splits an interval, or merges it with the next one, with the locks that this needs. */
static void list_of_intervals(call *c, bs_txn txn, uint32_t kind, bs_node interval) {
  drawn d = filled(kind, txn);
  bs_node next = next_interval(interval);
  d.c.node = interval;
  add_lock(c, BS_DO_LOCK_PATH, txn, interval, BS_X);
  if (kind == BS_DO_MERGE && !same_node(next, interval)) add_lock(c, BS_DO_LOCK_PATH, txn, next, BS_X);
  add(c, d);
}

/* Locks a row and gives it another key, with the locks that both need. */
static void list_of_a_rekey(call *c, bs_txn txn) {
  drawn d = filled(BS_DO_LOCK_ROW, txn);
  d.c.mode = BS_X;
  add_paths_above(c, &d);
  if (c->count < LIST - 2) add_lock(c, BS_DO_LOCK_PATH, txn, interval_of(d.c.index, d.c.key), BS_IX);
  add(c, d);
  d.c.kind = BS_DO_REKEY_ROW;
  add(c, d);
}

/* A whole short transaction. */
static void list_of_a_transaction(call *c) {
  add_drawn(c, one_in(3) ? BS_DO_BEGIN_AGAIN : BS_DO_BEGIN, no_txn);
  add_drawn(c, BS_DO_LOCK_PATH, bs_begun());
  if (one_in(2)) add_drawn(c, one_in(2) ? BS_DO_LOCK : BS_DO_TRY_PATH, one_in(10) ? nobody() : bs_begun());
  if (one_in(2)) add_bare(c, one_in(3) ? BS_DO_ABORT : BS_DO_COMMIT, bs_begun());
}

/* What other transactions may do to one that waits, or whose end is not told yet. */
static const weight kinds_of_others[] = { { BS_DO_CANCEL, 2 }, { BS_DO_ABORT, 2 }, { BS_DO_SETTLE, 3 } };

/* Commands of several transactions. */
static void list_of_any(call *c) {
  static const weight kinds[] = {
    { BS_DO_LOCK, 20 }, { BS_DO_LOCK_PATH, 20 }, { BS_DO_LOCK_ROW, 8 }, { BS_DO_TRY, 4 }, { BS_DO_TRY_PATH, 4 },
    { BS_DO_TRY_ROW, 4 }, { BS_DO_UNLOCK, 8 }, { BS_DO_UNLOCK_ROW, 4 }, { BS_DO_ESCALATE, 4 },
    { BS_DO_RELEASE_SINCE, 4 }, { BS_DO_CANCEL, 2 }, { BS_DO_COMMIT, 8 }, { BS_DO_ABORT, 3 }, { BS_DO_SETTLE, 2 },
    { BS_DO_INSERT, 2 }, { BS_DO_DELETE, 2 }, { BS_DO_ADOPT, 1 }, { BS_DO_FORGET, 1 }, { BS_DO_REKEY, 2 },
    { BS_DO_MOVE, 2 }, { BS_DO_DROP, 2 }, { BS_DO_INDEX_BY, 1 }, { BS_DO_REKEY_ROW, 2 }, { BS_DO_ADD_INNER, 1 },
    { BS_DO_ADD_FILE, 1 }, { BS_DO_ADD_ROW_FILE, 1 }, { BS_DO_ADD_INDEX, 1 }, { BS_DO_BEGIN, 2 }, { BS_DO_SPLIT, 1 },
    { BS_DO_MERGE, 1 }
  };
  size_t count = 1 + draw(4);
  while (c->count < count) {
    bs_txn txn = some_txn();
    bool is_others = naive_txn_of(&n, txn) != NULL && is_busy(txn);
    add_drawn(c, is_others ? WEIGHED(kinds_of_others) : WEIGHED(kinds), txn);
  }
}

static void draw_list(call *c, bs_txn txn) {
  static const weight changes[] = { { BS_DO_DELETE, 3 }, { BS_DO_REKEY, 4 }, { BS_DO_MOVE, 4 }, { BS_DO_DROP, 4 },
                                    { BS_DO_INDEX_BY, 4 } };
  c->kind = RUN;
  switch (draw(14)) {
    case 0: list_of_one_more(c, txn, BS_DO_INSERT); break;
    case 1: case 2: list_of_one_more(c, txn, BS_DO_LOCK_ROW); break;
    case 3: case 4: list_of_a_change(c, txn, WEIGHED(changes), no_node); break;
    case 5: list_of_a_rekey(c, txn); break;
    case 6: case 7: list_of_a_transaction(c); break;
    case 8: list_of_intervals(c, txn, BS_DO_SPLIT, some(BS_INTERVAL)); break;
    case 9: list_of_intervals(c, txn, BS_DO_MERGE, some(BS_INTERVAL)); break;
    default: list_of_any(c);
  }
}

static void draw_tries(call *c, bs_txn txn) {
  static const weight kinds[] = { { BS_DO_TRY, 4 }, { BS_DO_TRY_PATH, 4 }, { BS_DO_TRY_ROW, 4 }, { BS_DO_LOCK, 1 } };
  size_t count = 1 + draw(4);
  c->kind = TRY_FIRST;
  while (c->count < count) add_drawn(c, WEIGHED(kinds), txn);
}

/* ------------------------------------------------------------------------------------------------
 * Calls.
 */

/* The `until` of a call: mostly null, else over or far ahead, seldom no time. */
static void draw_limit(call *c) {
  if (one_in(60)) c->no_time = &no_times[draw(2)];
  else if (one_in(3)) c->limit = 1 + draw(MOMENTS - 1);
}

/* An ask; mostly for the file of a row, if the transaction does not hold that. */
static void draw_ask(call *c, bs_txn txn) {
  static const weight kinds[] = { { BS_DO_LOCK, 5 }, { BS_DO_LOCK_PATH, 6 }, { BS_DO_LOCK_ROW, 2 } };
  drawn d = filled(habits.is_hot && !one_in(4) ? BS_DO_LOCK : WEIGHED(kinds), txn);
  c->kind = ASK;
  if (d.c.kind == BS_DO_LOCK_ROW && held_by(txn, d.c.file) == BS_NL && !one_in(4)) {
    add_lock(c, BS_DO_LOCK_PATH, txn, d.c.file, one_in(3) ? BS_IS : BS_IX);
  } else add(c, d);
  draw_limit(c);
}

/* An ask that closes a cycle of waits, if it waits and there is such a one. */
static void draw_closing_ask(call *c, bs_txn txn) {
  bs_node node = some_node_on_a_cycle(txn);
  draw_ask(c, txn);
  if (node.birth == 0 || c->list[0].c.kind == BS_DO_LOCK_ROW) return;
  c->list[0].c.node = node;
  c->list[0].c.mode = some_lock_mode(txn, node);
}

/* Awaits the lock that a list left waiting; now and then another one. */
static void draw_await(call *c, bs_txn txn) {
  const naive_wait *wait = naive_wait_of(&n, txn);
  bs_node node = some_node();
  bs_mode mode = some_mode(node);
  if (wait != NULL && !one_in(10)) {
    node = naive_born(&n, wait->node)->name;
    mode = wait->mode;
  } else if (naive_txn_of(&n, txn) != NULL) {
    const left_wait *left = &left_waits[txn.slot][one_in(3) ? 1 : 0];
    if (same_txn(left->txn, txn)) node = left->node;
    if (same_txn(left->txn, txn)) mode = left->mode;
  }
  c->kind = AWAIT;
  add_lock(c, BS_DO_LOCK, txn, node, mode);
  draw_limit(c);
}

static void draw_command(call *c, bs_txn txn, uint32_t kind) {
  c->kind = COMMAND;
  add_drawn(c, kind, txn);
}

static void draw_mark(call *c, bs_txn txn) {
  c->kind = MARK;
  add_bare(c, BS_DO_RELEASE_SINCE, txn);
}

static void draw_deadline(call *c, bs_txn txn) {
  c->kind = DEADLINE;
  add_bare(c, BS_DO_BEGIN, txn);
  if (one_in(30)) c->no_time = &no_times[draw(2)];
  else if (!one_in(4)) c->limit = 1 + draw(MOMENTS - 1);
}

/* A holder of an awaited node changes it. */
static void draw_change_of(call *c, bs_txn txn, bs_node node) {
  static const weight kinds[] = { { BS_DO_DROP, 1 }, { BS_DO_MOVE, 2 } };
  static const weight of_records[] = { { BS_DO_DELETE, 1 }, { BS_DO_REKEY, 2 } };
  static const weight of_intervals[] = { { BS_DO_SPLIT, 2 }, { BS_DO_MERGE, 1 } };
  uint32_t kind = naive_find(&n, node)->kind;
  bool is_record = kind == BS_RECORD, is_interval = kind == BS_INTERVAL;
  draw_command(c, txn, is_record ? WEIGHED(of_records) : is_interval ? WEIGHED(of_intervals) : WEIGHED(kinds));
  c->list[0].c.node = node;
  if (c->list[0].c.kind == BS_DO_MERGE && one_in(2)) c->list[0].c.node = interval_before(node);
}

/* Mostly ends a wait: its blocker releases something or changes the node. A blocker that waits itself is settled. */
static void draw_way_out(call *c) {
  static const weight kinds[] = { { BS_DO_COMMIT, 4 }, { BS_DO_RELEASE_SINCE, 2 }, { BS_DO_UNLOCK, 2 } };
  naive_wait wait = n.waits[draw(n.wait_count)];
  bs_txn blocker;
  if (is_asking && naive_wait_of(&n, asking) != NULL && one_in(2)) wait = *naive_wait_of(&n, asking);
  blocker = some_blocker(wait.slot);
  if (!is_free(blocker) && n.txns[blocker.slot].is_condemned) draw_command(c, blocker, BS_DO_ABORT);
  else if (!is_free(blocker)) draw_command(c, naive_txn_in(&n, wait.slot), BS_DO_SETTLE);
  else if (naive_held(&n, blocker.slot, wait.node) == BS_X && one_in(3)) {
    draw_change_of(c, blocker, naive_born(&n, wait.node)->name);
  } else draw_command(c, blocker, WEIGHED(kinds));
}

static const weight single_kinds[] = {
  { BS_DO_TRY, 4 }, { BS_DO_TRY_PATH, 4 }, { BS_DO_TRY_ROW, 4 }, { BS_DO_UNLOCK, 8 }, { BS_DO_UNLOCK_ROW, 4 },
  { BS_DO_ESCALATE, 4 }, { BS_DO_RELEASE_SINCE, 5 }, { BS_DO_CANCEL, 1 }, { BS_DO_COMMIT, 14 }, { BS_DO_ABORT, 3 },
  { BS_DO_SETTLE, 1 }, { BS_DO_INSERT, 2 }, { BS_DO_DELETE, 3 }, { BS_DO_REKEY, 2 }, { BS_DO_MOVE, 2 },
  { BS_DO_DROP, 3 }, { BS_DO_INDEX_BY, 1 }, { BS_DO_REKEY_ROW, 2 }, { BS_DO_SPLIT, 2 }, { BS_DO_MERGE, 2 }
};

/* A call of a free transaction. */
static void draw_work(call *c, bs_txn txn) {
  size_t work = draw(100);
  if (habits.is_hot && !one_in(3)) work = draw(60);
  if (work < 28) draw_ask(c, txn);
  else if (work < 40) draw_closing_ask(c, txn);
  else if (work < 58) draw_list(c, txn);
  else if (work < 62) draw_tries(c, txn);
  else if (work < 64) draw_deadline(c, txn);
  else if (work < 66) draw_await(c, txn);
  else if (work < 71) draw_mark(c, txn);
  else draw_command(c, txn, WEIGHED(single_kinds));
}

/* A call of a transaction that waits, that is a victim or that does not live: most are refused. */
static void draw_refused(call *c, bs_txn txn) {
  static const weight kinds[] = { { ASK, 3 }, { COMMAND, 4 }, { AWAIT, 2 }, { DEADLINE, 2 } };
  uint32_t kind = WEIGHED(kinds);
  if (kind == ASK) draw_ask(c, txn);
  else if (kind == AWAIT) draw_await(c, txn);
  else if (kind == DEADLINE) draw_deadline(c, txn);
  else draw_command(c, txn, WEIGHED(single_kinds));
}

/* A call about a transaction that is not free. */
static void draw_for_others(call *c, bs_txn txn) {
  const naive_txn *t = naive_txn_of(&n, txn);
  bool waits = naive_wait_of(&n, txn) != NULL;
  if (waits && one_in(8)) draw_deadline(c, txn);
  else if (t != NULL && is_busy(txn) && !waits) draw_command(c, txn, WEIGHED(kinds_of_others));
  else if (t != NULL && t->is_condemned && !one_in(3)) draw_command(c, txn, BS_DO_ABORT);
  else if (waits && !is_busy(txn) && one_in(2)) draw_await(c, txn);
  else if (waits && one_in(3)) draw_way_out(c);
  else if (one_in(2)) draw_refused(c, txn);
  else draw_command(c, txn, WEIGHED(kinds_of_others));
}

/* A call that is of no transaction. */
static void draw_of_nobody(call *c) {
  static const weight begins[] = { { BS_DO_BEGIN, 2 }, { BS_DO_BEGIN_AGAIN, 1 } };
  static const weight changes[] = { { BS_DO_ADD_INNER, 2 }, { BS_DO_ADD_FILE, 2 }, { BS_DO_ADD_ROW_FILE, 1 },
                                    { BS_DO_ADD_INDEX, 3 }, { BS_DO_ADOPT, 3 }, { BS_DO_FORGET, 4 } };
  if (one_in(6)) c->kind = EXPIRE;
  else if (one_in(n.node_count < MOST_NODES / 2 ? 4 : 16)) draw_command(c, no_txn, WEIGHED(changes));
  else draw_command(c, no_txn, WEIGHED(begins));
}

static void draw_sleep(call *c) {
  c->kind = SLEEP;
  add_lock(c, BS_DO_LOCK, some_living(), some_node(), BS_X);
  c->list[0].c.number = draw(6);
}

static void draw_call(call *c) {
  bs_txn txn = is_asking && one_in(4) ? asking : some_txn();
  memset(c, 0, sizeof *c);
  c->is_held = !is_over && one_in(80);
  c->is_aside = depth == 0 && one_in(40);
  if ((depth > 0 || c->is_held || c->is_aside) && one_in(6)) draw_sleep(c);
  else if (naive_txn_of(&n, txn) == NULL && !one_in(3)) draw_command(c, no_txn, BS_DO_BEGIN);
  else if (one_in(6)) draw_of_nobody(c);
  else if (n.wait_count > 0 && one_in(depth > 0 ? 2 : 12)) draw_way_out(c);
  else if (naive_txn_of(&n, txn) != NULL && is_free(txn)) draw_work(c, txn);
  else draw_for_others(c, txn);
}

/* Remembers a wait that a list left. */
static void remember_wait(bs_txn txn) {
  const naive_wait *wait = naive_wait_of(&n, txn);
  left_wait *left = left_waits[txn.slot], now;
  if (wait == NULL || asks[txn.slot].waits) return;
  now.txn = txn;
  now.node = naive_born(&n, wait->node)->name;
  now.mode = wait->mode;
  if (same_txn(left[0].txn, txn) && same_node(left[0].node, now.node)) return;
  left[1] = left[0];
  left[0] = now;
}

/* Remembers a transaction that has ended, and the waits that a list left. */
static void remember(const call *c) {
  bs_txn txn = c->list[0].c.txn;
  uint32_t slot;
  if (c->kind == COMMAND && naive_txn_of(&n, txn) == NULL && txn.slot < BS_SLOTS) ended_txn = txn;
  for (slot = 0; c->kind == RUN && slot < n.limits.transactions; slot++) remember_wait(naive_txn_in(&n, slot));
}

#endif
