/*
 * group_laws.h: the laws of a group as a whole, checked after each call of a replay by plain code over questions to
 * the managers: one of one thread for each table.
 *
 * A flat map says who holds what in the whole: for each node and each slot the supremum of the modes in all tables.
 * An inner node is one node there, whatever its names in the tables are. A slot is one holder: a transaction that
 * rests for it counts, and so does what a transaction still holds in the tables that it has not yet left at its end.
 * So the laws hold after each call:
 *   - NO CONFLICT. The effective modes of two slots on a node are compatible. A slot's effective mode is the least
 *     that covers what it holds there and what that above implies: BS_S if it has BS_S, BS_SIX or BS_X on a
 *     parent, and BS_X if it has BS_X on all. So an intention in a part and a strong mode of another in the main
 *     table never conflict.
 *   - COPIES. While a slot holds an inner node in the main table in more than an intention, or waits there for
 *     that, each slot holds there at least what it holds of the node in the parts. A slot that waits in the main
 *     table does so for each inner node.
 *   - THE RULE OF THE GRAPH. A slot that holds a node to write holds all parents in BS_IX at least; one that holds
 *     it to read holds one parent in BS_IS at least.
 *   - ONE TRANSACTION. When a transaction begins, its slot is free in each table, or a transaction rests there.
 *   - ONE AGE. All joins of a transaction name the `since` with which it began in the group. A transaction that
 *     rests is younger than the earlier ones of its slot, and no younger than the one that takes it up, which is
 *     new work.
 *   - ONE PART. A row of a spread file is named in one table alone.
 *   - NO PHANTOM. A victim that a table chooses is on a cycle of the waits in that table, with the request that
 *     closes the cycle. A victim that the group chooses is on a cycle of the waits in all tables, and has the
 *     latest `since` of all transactions on cycles.
 */
#ifndef GROUP_LAWS_H
#define GROUP_LAWS_H

#include "group_served.h"

enum { SLOTS = 120, MOST_INNER = 8, MOST_HELD = 128, MOST_BUCKETS = 4096, CHECK_ALL = 16 };

static bs_manager managers[MOST_TABLES + 1];

/* A node that somebody has held, or one above it. */
struct place {
  uint32_t table;  /* 0: an inner node, with its name in the main table */
  bs_node name;
  uint32_t inner;  /* its number among the inner nodes */
  uint32_t next;   /* in its bucket, plus 1 */
  uint32_t at;     /* in the list of those that are held */
  uint32_t holders;
  bool is_record, is_gone;
  uint8_t held[SLOTS];
  uint64_t known;  /* the check for which these are known */
  uint8_t effective[SLOTS];
  uint64_t graph;  /* the graph of its table of which these are its parents */
  size_t parent_count;
  uint32_t parents[BS_MOST_PARENTS];
};

static struct place *places;
static uint32_t place_count, place_room;
static uint32_t buckets[MOST_BUCKETS]; /* by a hash of the name: places, each plus 1 */
static uint32_t *held_places;          /* those that somebody holds */
static uint32_t held_count;

/* What a slot holds in a table. */
struct holding {
  uint32_t count;
  struct { uint32_t place; bs_mode mode; } at[MOST_HELD];
};

static struct holding holdings[MOST_TABLES][SLOTS];
static uint8_t held_inner[MOST_INNER][SLOTS][MOST_TABLES];
static uint64_t graphs[MOST_TABLES]; /* counted up as the parents of nodes change */
static uint64_t checks;

/* ------------------------------------------------------------------------------------------------
 * Modes.
 */

static bool compatible(bs_mode one, bs_mode other) {
  bs_mode low = one < other ? one : other, high = one < other ? other : one;
  if (low == BS_NL) return true;
  if (low == BS_IS) return high != BS_X;
  return high == low && (low == BS_IX || low == BS_S);
}

/* The least mode that covers both. */
static bs_mode supremum(bs_mode one, bs_mode other) {
  bs_mode low = one < other ? one : other, high = one < other ? other : one;
  return low == BS_IX && high == BS_S ? BS_SIX : high;
}

static bool may_write(bs_mode mode) {
  return mode == BS_IX || mode == BS_SIX || mode == BS_X;
}

/* ------------------------------------------------------------------------------------------------
 * Places.
 */

static uint32_t bucket_of(uint32_t table, bs_node name) {
  uint64_t hash = mixed(mixed(mixed(UINT64_C(0xcbf29ce484222325), name.key), name.birth), table);
  return (uint32_t)(hash >> 20) % MOST_BUCKETS;
}

static void make_places(void) {
  place_room = place_room == 0 ? 1024 : 2 * place_room;
  places = (struct place *)realloc(places, place_room * sizeof *places);
  held_places = (uint32_t *)realloc(held_places, place_room * sizeof *held_places);
  if (places == NULL || held_places == NULL) abort();
}

static uint32_t new_place(uint32_t table, bs_node name, uint32_t inner) {
  uint32_t bucket = bucket_of(table, name);
  struct place *p;
  if (place_count == place_room) make_places();
  p = &places[place_count];
  memset(p, 0, sizeof *p);
  p->table = table;
  p->name = name;
  p->inner = inner;
  p->graph = UINT64_MAX;
  p->is_record = bs_kind(&managers[table], name).count == BS_RECORD;
  p->next = buckets[bucket];
  buckets[bucket] = ++place_count;
  return place_count - 1;
}

/* The place of a node of a table. */
static uint32_t place_of(uint32_t table, bs_node name) {
  const group_inner *inner = group_inner_of(&group->tables[table], name);
  uint32_t at;
  if (inner != NULL) {
    WANT(inner->number < MOST_INNER);
    name = group->tables[0].at[inner->number].node;
    table = 0;
  }
  for (at = buckets[bucket_of(table, name)]; at != 0; at = places[at - 1].next) {
    if (places[at - 1].table == table && same_node(places[at - 1].name, name)) return at - 1;
  }
  return new_place(table, name, inner == NULL ? 0 : inner->number);
}

/* Reads the parents of a place, if they may have changed. */
static void read_parents(uint32_t at) {
  uint32_t table = places[at].table;
  uint32_t above;
  bs_reply parent;
  size_t i;
  if (places[at].graph == graphs[table]) return;
  places[at].graph = graphs[table];
  for (i = 0; (parent = bs_parent(&managers[table], places[at].name, i)).status == BS_DONE; i++) {
    above = place_of(table, parent.node); /* which may move the places */
    places[at].parents[i] = above;
  }
  places[at].parent_count = i;
}

/* The supremum of what a slot holds of an inner node in all tables. */
static bs_mode held_in_all(uint32_t inner, uint32_t slot) {
  bs_mode mode = BS_NL;
  uint32_t table;
  for (table = 0; table <= group->parts; table++) mode = supremum(mode, held_inner[inner][slot][table]);
  return mode;
}

/* The first or the last slot holds a place. */
static void list_place(uint32_t at, bool is_held) {
  if (is_held) {
    places[at].at = held_count;
    held_places[held_count++] = at;
  } else {
    uint32_t last = held_places[--held_count];
    held_places[places[at].at] = last;
    places[last].at = places[at].at;
  }
}

/* A slot holds a place so in a table from now on. */
static void hold(uint32_t at, uint32_t table, uint32_t slot, bs_mode mode) {
  struct place *p = &places[at];
  bool was_held = p->holders > 0;
  if (p->table == 0) {
    held_inner[p->inner][slot][table] = (uint8_t)mode;
    mode = held_in_all(p->inner, slot);
  }
  p->holders += (mode != BS_NL) - (p->held[slot] != BS_NL);
  p->held[slot] = (uint8_t)mode;
  if (was_held != (p->holders > 0)) list_place(at, !was_held);
}

/* Reads what a slot holds in a table. */
static void read_holding(uint32_t table, uint32_t slot, struct holding *holding) {
  bs_reply living = bs_living(&managers[table], slot), lock;
  size_t place;
  holding->count = 0;
  if (living.status != BS_DONE) return;
  for (place = 0; (lock = bs_lock_at(&managers[table], living.txn, place)).status == BS_DONE; place++) {
    if (lock.mode == BS_NL) continue;
    WANT(holding->count < MOST_HELD);
    holding->at[holding->count].place = place_of(table, lock.node);
    holding->at[holding->count++].mode = lock.mode;
  }
}

static bool same_holding(const struct holding *one, const struct holding *other) {
  uint32_t i;
  if (one->count != other->count) return false;
  for (i = 0; i < one->count; i++) {
    if (one->at[i].place != other->at[i].place || one->at[i].mode != other->at[i].mode) return false;
  }
  return true;
}

static void hold_all(uint32_t table, uint32_t slot, const struct holding *holding, bool is_held) {
  uint32_t i;
  for (i = 0; i < holding->count; i++) {
    hold(holding->at[i].place, table, slot, is_held ? holding->at[i].mode : BS_NL);
  }
}

/* Reads anew what a slot holds in a table; whether that has changed. */
static bool read_slot(uint32_t table, uint32_t slot) {
  static struct holding now;
  struct holding *before = &holdings[table][slot];
  read_holding(table, slot, &now);
  if (same_holding(&now, before)) return false;
  hold_all(table, slot, before, false);
  hold_all(table, slot, &now, true);
  before->count = now.count;
  memcpy(before->at, now.at, now.count * sizeof now.at[0]);
  return true;
}

/* ------------------------------------------------------------------------------------------------
 * The laws of modes.
 */

static void imply(const struct place *above, uint8_t *some, uint8_t *all) {
  uint32_t slot;
  for (slot = 0; slot < SLOTS; slot++) {
    some[slot] |= above->effective[slot] >= BS_S;
    all[slot] &= above->effective[slot] == BS_X;
  }
}

/* Finds the effective modes of all slots on a place. */
static void find_effective(uint32_t at) {
  uint8_t some[SLOTS], all[SLOTS];
  uint32_t slot;
  size_t i;
  if (places[at].known == checks) return;
  read_parents(at);
  memset(some, 0, sizeof some);
  memset(all, places[at].parent_count > 0, sizeof all);
  for (i = 0; i < places[at].parent_count; i++) {
    find_effective(places[at].parents[i]);
    imply(&places[places[at].parents[i]], some, all);
  }
  places[at].known = checks;
  for (slot = 0; slot < SLOTS; slot++) {
    bs_mode implied = all[slot] ? BS_X : some[slot] ? BS_S : BS_NL;
    places[at].effective[slot] = (uint8_t)supremum(places[at].held[slot], implied);
  }
}

/* No two slots conflict on a place. */
static void want_no_conflict(uint32_t at) {
  uint32_t count[BS_X + 1] = { 0 }, slot;
  bs_mode one, other;
  find_effective(at);
  for (slot = 0; slot < SLOTS; slot++) count[places[at].effective[slot]]++;
  for (one = BS_IS; one <= BS_X; one++) {
    for (other = one; other <= BS_X && count[one] > 0; other++) {
      bool are_two = one == other ? count[one] > 1 : count[other] > 0;
      WANT(!are_two || compatible(one, other));
    }
  }
}

/* A slot that holds a place has the intentions above. */
static void want_intentions(uint32_t at, uint32_t slot) {
  bs_mode mode = places[at].held[slot];
  size_t i, held = 0, written = 0;
  read_parents(at);
  for (i = 0; i < places[at].parent_count; i++) {
    bs_mode above = places[places[at].parents[i]].held[slot];
    held += above != BS_NL;
    written += may_write(above);
  }
  WANT(may_write(mode) ? written == places[at].parent_count : held > 0 || places[at].parent_count == 0);
}

/* A slot has the intentions above all that it holds in a table, and conflicts with nobody there; whether it holds
 * more than an intention on a node that has nodes below. */
static bool want_slot(uint32_t table, uint32_t slot) {
  const struct holding *own = &holdings[table][slot];
  bool is_strong = false;
  uint32_t i;
  for (i = 0; i < own->count; i++) {
    want_intentions(own->at[i].place, slot);
    want_no_conflict(own->at[i].place);
    is_strong |= own->at[i].mode > BS_IX && !places[own->at[i].place].is_record;
  }
  return is_strong;
}

/* A slot holds an inner node in the main table at least as in the parts. */
static void want_copied(uint32_t inner, uint32_t slot) {
  const uint8_t *held = held_inner[inner][slot];
  uint32_t table;
  for (table = 1; table <= group->parts; table++) WANT(supremum(held[0], held[table]) == held[0]);
}

/* Whether an inner node is held in the main table in more than an intention, or requested so. */
static bool is_strong_in_main(uint32_t inner) {
  bs_node node = group->tables[0].at[inner].node;
  bs_reply waits = bs_call_only(BS_DONE);
  uint32_t slot;
  size_t place;
  for (slot = 0; slot < SLOTS; slot++) {
    if (held_inner[inner][slot][0] > BS_IX) return true;
  }
  for (place = 0; waits.status == BS_DONE; place++) {
    waits = bs_queue_at(&managers[0], node, place);
    if (waits.status == BS_DONE && waits.mode > BS_IX) return true;
  }
  return false;
}

/* The copies of an inner node that a call in a table may have made wrong, of these slots. */
static void want_copies_of(uint32_t inner, uint32_t table, bs_slots slots) {
  uint32_t slot;
  if (!is_strong_in_main(inner)) return;
  for (slot = 0; slot < SLOTS; slot++) {
    if (table == 0 || bs_has(slots, slot)) want_copied(inner, slot);
  }
}

/* After a call that has changed what these slots hold, or left its transaction waiting. */
static void want_copies(const struct served *s, bs_reply reply, bs_slots slots) {
  bool waits = s->table == 0 && s->call.kind == LOCK_PATH && reply.status == BS_WAITING;
  uint32_t inner;
  for (inner = 0; inner < group->tables[0].count; inner++) {
    want_copies_of(inner, s->table, slots);
    if (waits) want_copied(inner, s->call.txn.slot);
  }
}

static void want_no_conflicts(void) {
  uint32_t i;
  for (i = 0; i < held_count; i++) want_no_conflict(held_places[i]);
}

/* Nobody conflicts on any node that still lives, whether it is held or not. */
static void want_no_conflict_anywhere(void) {
  uint32_t at, count = place_count;
  for (at = 0; at < count; at++) {
    struct place *p = &places[at];
    if (!p->is_gone) p->is_gone = bs_kind(&managers[p->table], p->name).status != BS_DONE;
    if (!p->is_gone) want_no_conflict(at);
  }
}

/* Whether a call may have given nodes other parents, or taken a node from between others. */
static bool changes_graph(const struct call *call) {
  switch ((uint32_t)call->kind) {
    case REKEY: case REKEY_ROW: case MOVE: case DROP: case INDEX_BY: case INDEX_RECORDS: case ADD_INDEX: case SPLIT: case MERGE:
      return true;
    default: return false;
  }
}

/* Each slot holds in each table what the map says. */
static void want_map(void) {
  uint32_t table, slot;
  for (table = 0; table <= group->parts; table++) {
    for (slot = 0; slot < SLOTS; slot++) WANT(!read_slot(table, slot));
  }
}

/* The slots of which a call may have changed what they hold: its own and those that it told. */
static bs_slots touched_by(const struct served *s, bs_reply reply, const bs_notices *told) {
  bs_slots slots;
  size_t i;
  bool is_any = s->call.kind == (enum kind)CLEAR_WAY || s->call.kind == (enum kind)CLEAR_NODE ||
                s->call.kind == (enum kind)MAKE_ROOM;
  memset(&slots, is_any ? 0xff : 0, sizeof slots);
  slots.words[s->call.txn.slot / 64] |= (uint64_t)1 << s->call.txn.slot % 64;
  slots.words[reply.txn.slot / 64] |= (uint64_t)1 << reply.txn.slot % 64;
  for (i = 0; i < told->count; i++) {
    slots.words[told->at[i].txn.slot / 64] |= (uint64_t)1 << told->at[i].txn.slot % 64;
  }
  return slots;
}

/* Reads anew what these slots hold in a table, and leaves those of them for which that has changed; whether any has. */
static bool read_slots(uint32_t table, bs_slots *slots) {
  bool any = false;
  uint32_t slot;
  for (slot = 0; slot < SLOTS; slot++) {
    if (!bs_has(*slots, slot)) continue;
    if (read_slot(table, slot)) any = true;
    else slots->words[slot / 64] &= ~((uint64_t)1 << slot % 64);
  }
  return any;
}

/* After a call: reads what it has changed, and checks that. */
static void want_laws(const struct served *s, bs_reply reply, const bs_notices *told) {
  bs_slots touched = touched_by(s, reply, told);
  bool is_strong = changes_graph(&s->call), is_changed = is_strong;
  uint32_t slot;
  if (is_changed) graphs[s->table]++;
  checks++;
  is_changed |= read_slots(s->table, &touched);
  for (slot = 0; slot < SLOTS; slot++) {
    if (bs_has(touched, slot)) is_strong |= want_slot(s->table, slot);
  }
  if (is_strong) want_no_conflicts();
  if (is_changed || reply.status == BS_WAITING) want_copies(s, reply, touched);
  if (!is_changed || checks % CHECK_ALL != 0) return;
  want_map();
  want_no_conflict_anywhere();
}

/* ------------------------------------------------------------------------------------------------
 * Ages.
 */

static uint64_t began_age[SLOTS], began_since[SLOTS]; /* in the group */
static uint64_t rests_since[MOST_TABLES][SLOTS];
static bs_txn woken[MOST_TABLES]; /* by the last call of a table; age 0 if that was no such call */

/* A transaction begins in the group. */
static void note_began(const struct call *call) {
  uint32_t slot = call->txn.slot, table;
  for (table = 0; table <= group->parts; table++) {
    if (bs_living(&managers[table], slot).status != BS_DONE) continue;
    WANT(bs_has(bs_call_resting(&managers[table]).slots, slot));
  }
  began_age[slot] = call->txn.age;
  began_since[slot] = call->key;
}

/* A transaction that was woken ends at once, or a transaction takes it up that is as old or younger, and has not begun
 * again. */
static void want_taken_up(const struct call *call, uint32_t table) {
  bs_txn txn = woken[table];
  bool is_end = call->kind == COMMIT || call->kind == ABORT || call->kind == (enum kind)COMMIT_AND_REST;
  woken[table].age = 0;
  if (txn.age == 0 || (is_end && same_txn(call->txn, txn))) return;
  WANT(began_since[txn.slot] == began_age[txn.slot]);
  WANT(rests_since[table][txn.slot] <= began_age[txn.slot]);
}

static void want_ages(const struct served *s, bs_reply reply) {
  const struct call *call = &s->call;
  uint32_t slot = call->txn.slot;
  want_taken_up(call, s->table);
  if (reply.status != BS_DONE) return;
  switch ((uint32_t)call->kind) {
    case JOIN:
      WANT(call->key == began_since[slot]);
      break;
    case COMMIT_AND_REST:
      WANT(call->key > began_age[slot]);
      if (reply.txn.age != 0) rests_since[s->table][slot] = call->key < reply.txn.age ? call->key : reply.txn.age;
      break;
    case WAKE:
      woken[s->table] = call->txn;
      break;
    default: break;
  }
}

/* ------------------------------------------------------------------------------------------------
 * Rows of spread files.
 */

enum { MOST_ROWS = 16 };

static uint32_t tables_of_rows[MOST_INNER][MOST_ROWS]; /* by spread file and number; 0 if none has named the row */

static void want_one_part(const struct served *s) {
  const struct call *call = &s->call;
  const group_inner *inner;
  uint32_t *table;
  bool is_lock = call->kind == LOCK_ROW || call->kind == TRY_ROW;
  if (!is_lock && call->kind != UNLOCK_ROW && call->kind != REKEY_ROW) return;
  inner = group_inner_of(&group->tables[s->table], bs_parent(&managers[s->table], call->node, 0).node);
  if (inner == NULL || group_files_at(group, inner->number) == NULL) return;
  WANT(inner->number < MOST_INNER && call->row < MOST_ROWS);
  table = &tables_of_rows[inner->number][call->row];
  WANT(*table == 0 || *table == s->table);
  *table = s->table;
}

/* ------------------------------------------------------------------------------------------------
 * Deadlocks.
 */

static bs_board waits; /* who waits for whom, before the present call */
static struct { bs_node node; bs_mode mode; } awaited[SLOTS]; /* what the slots wait for in its table, before it */
static bool has_fallen; /* the transaction of its request was condemned before */
static uint64_t condemned, fallen; /* how many victims the tables have chosen, and the group */

/* Reads who waits for whom in a table, and for what. */
static void read_waits(uint32_t table) {
  const bs_manager *m = &managers[table];
  uint32_t slot;
  DONE(bs_read_board(m, &waits));
  for (slot = 0; slot < SLOTS; slot++) {
    bs_reply doing = bs_doing(m, bs_living(m, slot).txn);
    bool is_waiting = doing.status == BS_DONE && doing.count == BS_WAITS;
    awaited[slot].mode = is_waiting ? doing.mode : BS_NL;
    awaited[slot].node = doing.node;
  }
}

/* Reads who waits for whom in all tables. */
static void read_all_waits(void) {
  static bs_board one;
  uint32_t table, slot;
  size_t word;
  memset(&waits, 0, sizeof waits);
  for (table = 0; table <= group->parts; table++) {
    DONE(bs_read_board(&managers[table], &one));
    for (slot = 0; slot < SLOTS; slot++) {
      for (word = 0; word < BS_SLOTS / 64; word++) waits.rows[slot].words[word] |= one.rows[slot].words[word];
    }
  }
}

/* Adds to the slots that were reached those for which they wait; whether there are more now. */
static bool reach_more(bool *reached) {
  bool more = false;
  uint32_t slot, other;
  for (slot = 0; slot < SLOTS; slot++) {
    for (other = 0; reached[slot] && other < SLOTS; other++) {
      if (reached[other] || !bs_has(waits.rows[slot], other)) continue;
      more = reached[other] = true;
    }
  }
  return more;
}

/* Whether a slot waits for itself, over others. */
static bool is_on_cycle(uint32_t slot) {
  bool reached[SLOTS];
  uint32_t other;
  for (other = 0; other < SLOTS; other++) reached[other] = bs_has(waits.rows[slot], other);
  while (reach_more(reached)) continue;
  return reached[slot];
}

/* The group has chosen this victim. */
static void want_youngest_on_cycles(uint32_t victim) {
  uint32_t slot;
  fallen++;
  WANT(is_on_cycle(victim));
  for (slot = 0; slot < SLOTS; slot++) {
    if (began_since[slot] > began_since[victim]) WANT(!is_on_cycle(slot));
  }
}

static void wait_for(uint32_t slot, uint32_t other) {
  if (slot != other) waits.rows[slot].words[other / 64] |= (uint64_t)1 << other % 64;
}

/* A request waits for those that hold its node in a mode that is not compatible, and for those in its queue. Who holds
 * the node already waits there for those alone that do so too, and all others wait for it. */
static void add_request(const bs_manager *m, bs_txn txn, bs_node node, bs_mode mode) {
  bs_mode own = bs_held(m, txn, node).mode;
  bs_slots holders = bs_holders(m, node).slots;
  bs_reply other;
  size_t place;
  uint32_t slot;
  mode = supremum(own, mode);
  for (slot = 0; slot < SLOTS; slot++) {
    if (!bs_has(holders, slot) || compatible(mode, bs_held(m, bs_living(m, slot).txn, node).mode)) continue;
    wait_for(txn.slot, slot);
  }
  for (place = 0; (other = bs_queue_at(m, node, place)).status == BS_DONE; place++) {
    if (own == BS_NL || bs_held(m, other.txn, node).mode != BS_NL) wait_for(txn.slot, other.txn.slot);
    else wait_for(other.txn.slot, txn.slot);
  }
}

/* A request may have acquired modes on its way: the slots wait for it that want such a node in a mode that is not
 * compatible. */
static void add_waits_for(const bs_manager *m, uint32_t own) {
  bs_txn txn = bs_living(m, own).txn;
  uint32_t slot;
  for (slot = 0; slot < SLOTS; slot++) {
    if (awaited[slot].mode == BS_NL) continue;
    if (!compatible(awaited[slot].mode, bs_held(m, txn, awaited[slot].node).mode)) wait_for(slot, own);
  }
}

/* The request of a call that has condemned somebody: its transaction, its node, and the wanted mode. */
struct closing {
  bs_txn txn;
  bs_node node;
  bs_mode mode;
};

/* The request that a waiter makes as it goes on, by slot: the target of its path or row, and the mode. */
static struct { bs_node node; bs_mode mode; } paths[MOST_TABLES][SLOTS];

static void note_path(const struct served *s) {
  const struct call *call = &s->call;
  uint32_t kind = (uint32_t)call->kind;
  if (kind != AWAIT_NODE && kind != AWAIT_PATH && kind != AWAIT_ROW && kind != AWAIT_ROW_PATH && kind != CLIMB_TO_ROW) {
    return;
  }
  paths[s->table][call->txn.slot].node = kind == AWAIT_NODE || kind == AWAIT_PATH ? call->node : nothing;
  paths[s->table][call->txn.slot].mode = call->mode;
}

/* Whether a node is the target of a path or a row itself. On a node above the target a request wants an intention. */
static bool is_target(const bs_manager *m, bs_node node, bs_node target) {
  if (target.birth != 0) return same_node(node, target);
  return bs_kind(m, node).count == BS_RECORD;
}

static struct closing closing_of(const struct served *s) {
  const bs_manager *m = &managers[s->table];
  struct closing closing = { s->call.txn, s->reply.node, s->call.mode };
  bs_node target = s->call.kind == LOCK_ROW ? nothing : s->call.node;
  if (s->call.kind == LOCK) closing.node = s->call.node;
  if (s->call.kind == (enum kind)GO_ON) {
    closing.txn = s->reply.txn;
    closing.mode = paths[s->table][closing.txn.slot].mode;
    target = paths[s->table][closing.txn.slot].node;
  }
  if (closing.node.birth == 0) closing.node = target;
  if (!is_target(m, closing.node, target)) closing.mode = may_write(closing.mode) ? BS_IX : BS_IS;
  return closing;
}

/* Before a call that condemns somebody, as the log says: reads who waits for whom, the request of the call too. */
static void expect_victims(const struct served *s) {
  struct closing closing;
  note_path(s);
  if (s->call.kind == (enum kind)TIME_OUT && s->cut == BS_VICTIM) {
    read_all_waits();
    want_youngest_on_cycles(s->call.txn.slot);
  }
  if (s->victims == 0) return;
  read_waits(s->table);
  closing = closing_of(s);
  has_fallen = bs_doing(&managers[s->table], closing.txn).count == BS_CONDEMNED;
  add_request(&managers[s->table], closing.txn, closing.node, closing.mode);
}

/* After it. */
static void want_no_phantom(const struct served *s, bs_reply reply, const bs_notices *told) {
  uint32_t own = s->call.kind == (enum kind)GO_ON ? reply.txn.slot : s->call.txn.slot;
  size_t i;
  if (s->victims == 0) return;
  add_waits_for(&managers[s->table], own);
  condemned += s->victims - (reply.status == BS_VICTIM && has_fallen);
  if (reply.status == BS_VICTIM) WANT(has_fallen || is_on_cycle(own));
  for (i = 0; i < told->count; i++) {
    if (told->at[i].kind == BS_TOLD_VICTIM) WANT(is_on_cycle(told->at[i].txn.slot));
  }
}

#endif
