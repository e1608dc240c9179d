/*
 * group_world.h: what the tests of a group of tables have in common: a look into it, a world, and threads that sleep in
 * that. It includes the group's source.
 */
#ifndef GROUP_WORLD_H
#define GROUP_WORLD_H

#include "burlapslate_group.c"
#include "burlapslate_rows.h"

#include "memory.h"
#include "threads.h"

enum { PARTS = 4, MOST_PARTS = 16, AREAS = 3 };

static uint32_t world_parts = PARTS; /* how many parts the group has */

/* ------------------------------------------------------------------------------------------------
 * A look into a group, under all latches.
 */

/* What holds of an inner node in a part, whatever happens. */
static inline void want_rules_of(const bs_table_group *group, const group_table *t, uint32_t number) {
  const group_table *main_table = &group->tables[0];
  bs_node node = t->at[number].node, in_main = main_table->at[number].node;
  const bs_marked mark = { in_main, node };
  bs_slots holders = bs_holders(t->manager, node).slots;
  uint32_t slot;
  for (slot = 0; slot < BS_SLOTS; slot++) {
    if (!bs_has(holders, slot)) continue;
    WANT(bs_held(t->manager, bs_living(t->manager, slot).txn, node).mode <= BS_IX);
  }
  WANT(bs_queue_len(t->manager, node).count == 0);
  if (!group_is_marked(t, number)) {
    WANT(bs_is_clear(main_table->manager, in_main).count == 1);
    WANT(main_table->at[number].inner->in_progress == 0);
    return;
  }
  WANT(bs_next_copy(main_table->manager, in_main, t->manager, node).status == BS_NO_PLACE);
  for (slot = 0; slot < group->most; slot++) {
    bs_target target = group_slot_at(group, slot)->target;
    if (!bs_inside_sleeps(t->table, slot)) continue;
    WANT(bs_path_lacks(main_table->manager, t->manager, slot, target, &mark, 1).status == BS_NO_PLACE);
  }
}

/* Whether one rests for a slot in a table; its latch is held. */
static inline bool rests_there(const group_table *t, uint32_t slot) {
  return bs_has(bs_call_resting(t->manager).slots, slot);
}

/* Of one that rests: it is in a part without marks, its slot knows it, it waits for nothing, and has intentions alone. */
static inline void want_rules_of_resting(const group_table *t, const group_slot *own) {
  bs_txn rests = bs_living(t->manager, own->number).txn;
  uint64_t locks = bs_lock_count(t->manager, rests).count, place;
  WANT(t->number != 0 && t->marks == 0 && t->keep != 0);
  WANT((own->resting >> t->number & 1) != 0 && own->kept[t->number].age == rests.age);
  WANT(bs_doing(t->manager, rests).count == BS_ACTIVE && locks > 0);
  for (place = 0; place < locks; place++) WANT(bs_lock_at(t->manager, rests, (size_t)place).mode <= BS_IX);
}

/* Who is in the main table knows it, and nobody is in a table without a slot, but those who rest. */
static inline void want_rules_of_slot(const bs_table_group *group, uint32_t slot) {
  const group_slot *own = group_slot_at(group, slot);
  uint32_t number, tables = 0;
  for (number = 0; number <= group->parts; number++) {
    const group_table *t = &group->tables[number];
    if (rests_there(t, slot)) want_rules_of_resting(t, own);
    else tables += bs_living(t->manager, slot).status == BS_DONE;
  }
  if (bs_living(group->tables[0].manager, slot).status == BS_DONE) {
    WANT(__atomic_load_n(&own->is_in_main, __ATOMIC_RELAXED));
  }
  if (tables > 0) WANT(__atomic_load_n(&own->is_taken, __ATOMIC_RELAXED));
  if (tables > 1) WANT(__atomic_load_n(&own->is_spread, __ATOMIC_RELAXED));
}

static inline void want_rules(bs_table_group *group) {
  uint32_t part, number, slot;
  group_take_all(group);
  WANT(group->faults == 0);
  for (part = 1; part <= group->parts; part++) {
    const group_table *t = &group->tables[part];
    uint32_t marks = 0;
    WANT(t->count == group->tables[0].count);
    for (number = 0; number < t->count; number++) {
      want_rules_of(group, t, number);
      marks += group_is_marked(t, number);
    }
    WANT(marks == t->marks);
  }
  for (slot = 0; slot < group->most; slot++) want_rules_of_slot(group, slot);
  group_release_all(group);
}

/* How many inner nodes a part is marked for. */
static inline uint32_t marks_left_in(bs_table_group *group, uint32_t part) {
  uint32_t marks;
  bs_inside_take(group->tables[part].table);
  marks = group->tables[part].marks;
  bs_inside_release(group->tables[part].table);
  return marks;
}

/* The same after all were cleared that may be. */
static inline uint32_t marks_in(bs_table_group *group, uint32_t part) {
  if (part != 0) group_clear(group, &group->tables[part]);
  return marks_left_in(group, part);
}

static uint32_t world_keeps; /* how many intentions the group keeps */

/* Nobody has a slot, holds anything or is in any table, after what rests was ended; and nothing is marked. */
static inline void want_rest(bs_table_group *group) {
  uint32_t table, number, slot;
  want_rules(group);
  DONE(bs_group_keep(group, 0));
  for (table = 0; table <= group->parts; table++) {
    const group_table *t = &group->tables[table];
    WANT(marks_in(group, table) == 0);
    bs_inside_take(t->table);
    for (number = 0; number < t->count; number++) WANT(bs_group(t->manager, t->at[number].node).mode == BS_NL);
    for (slot = 0; slot < BS_SLOTS; slot++) WANT(bs_living(t->manager, slot).status == BS_NO_PLACE);
    bs_inside_release(t->table);
  }
  for (slot = 0; slot < group->most; slot++) WANT(!group_slot_at(group, slot)->is_taken);
  WANT(group_count_spread(group) == 0);
  DONE(bs_group_keep(group, world_keeps));
}

/* The mode in which a transaction holds an inner node in one table. */
static inline bs_mode held_in(bs_table_group *group, uint32_t table, bs_txn txn, bs_node node) {
  bs_node there = DONE(bs_group_name_in(group, node, table)).node;
  const bs_manager *m = bs_group_hold(group, table);
  bs_reply there_txn = bs_living(m, txn.slot);
  bs_mode mode = there_txn.status == BS_DONE ? DONE(bs_held(m, there_txn.txn, there)).mode : BS_NL;
  DONE(bs_group_let_go(group, table));
  return mode;
}

/* ------------------------------------------------------------------------------------------------
 * A world: a data base with areas, which have a quarter each; for each part a file of records in an area, and a file of
 * rows in its quarter, with an index in the next area.
 */

enum { RECORDS = 4, BOUND = 100 };

static bs_table_group *group;
static bs_node base, areas[AREAS], quarters[AREAS];
static bs_node files[MOST_PARTS + 1], row_files[MOST_PARTS + 1]; /* by part; area (part - 1) % AREAS */
static bs_node indexes[MOST_PARTS + 1];
static uint32_t index_areas[MOST_PARTS + 1]; /* the area of the index, changed by who has the file of rows in X */
static bs_node records[MOST_PARTS + 1][RECORDS];

static inline bs_txn begun(void) {
  return DONE(bs_group_begin(group)).txn;
}

static inline void commit(bs_txn txn) {
  DONE(bs_group_commit(group, txn));
}

static inline bs_node area_of(uint32_t part) {
  return areas[(part - 1) % AREAS];
}

static inline void make_part(uint32_t part) {
  const uint64_t bound = BOUND;
  bs_node area = area_of(part);
  bs_txn txn;
  size_t i;
  files[part] = DONE(bs_group_add_file(group, part, &area, 1)).node;
  row_files[part] = DONE(bs_group_add_row_file(group, part, &quarters[(part - 1) % AREAS], 1)).node;
  index_areas[part] = part % AREAS;
  indexes[part] = DONE(bs_group_add_index(group, &areas[part % AREAS], 1, row_files[part], &bound, 1)).node;
  WANT(bs_group_table(files[part]) == part && bs_group_table(indexes[part]) == part);
  txn = begun();
  for (i = 0; i < RECORDS; i++) records[part][i] = DONE(bs_group_insert(group, txn, files[part], NULL, 0)).node;
  commit(txn);
}

static inline void make_world(uint32_t transactions) {
  bs_options options;
  uint32_t i;
  memset(&options, 0, sizeof options);
  options.transactions = transactions;
  DONE(bs_group_make(&group, &options, world_parts));
  DONE(bs_group_keep(group, world_keeps));
  base = DONE(bs_group_add_inner(group, NULL, 0)).node;
  for (i = 0; i < AREAS; i++) areas[i] = DONE(bs_group_add_inner(group, &base, 1)).node;
  for (i = 0; i < AREAS; i++) quarters[i] = DONE(bs_group_add_inner(group, &areas[i], 1)).node;
  for (i = 1; i <= world_parts; i++) make_part(i);
  want_rest(group);
}

static inline void end_world(void) {
  want_rest(group);
  DONE(bs_group_end(group));
  DONE(bs_group_free(&group));
  WANT(group == NULL);
}

static const struct timespec at_once __attribute__((unused)) = { 0, 0 };

static inline bs_reply lock_path(bs_txn txn, bs_node node, bs_mode mode) {
  return bs_group_lock_path(group, txn, node, mode, NULL);
}

static inline bs_reply lock_for(bs_txn txn, bs_node node, bs_mode mode, uint64_t milliseconds) {
  struct timespec until = bs_after(milliseconds);
  return bs_group_lock_path(group, txn, node, mode, &until);
}

/* ------------------------------------------------------------------------------------------------
 * Threads that sleep in it.
 */

/* A thread that requests one lock. */
typedef struct sleeper {
  pthread_t thread;
  bs_txn txn;
  bs_node node;
  bs_mode mode;
  uint64_t milliseconds; /* 0: it sleeps until the end */
  bool is_row;
  uint64_t number, key;
  bs_reply reply;
  bool is_over; /* atomic */
} sleeper;

static inline void *sleep_for_it(void *place) {
  sleeper *own = (sleeper *)place;
  struct timespec time = bs_after(own->milliseconds), *until = own->milliseconds == 0 ? NULL : &time;
  if (own->is_row) {
    size_t count = bs_group_table(own->node) == 0 ? 0 : 1; /* a spread file has no index */
    own->reply = bs_group_lock_row_path(group, own->txn, own->node, own->number, &own->key, count, own->mode, until);
  } else {
    own->reply = bs_group_lock_path(group, own->txn, own->node, own->mode, until);
  }
  __atomic_store_n(&own->is_over, true, __ATOMIC_RELEASE);
  return NULL;
}

static inline bool sleeps_in(uint32_t table, bs_txn txn) {
  bool sleeps;
  bs_inside_take(group->tables[table].table);
  sleeps = bs_inside_sleeps(group->tables[table].table, txn.slot);
  bs_inside_release(group->tables[table].table);
  return sleeps;
}

/* Starts a thread that requests a lock, and waits until it sleeps in this table. */
static inline void sleep_in(sleeper *own, uint32_t table, bs_txn txn, bs_node node, bs_mode mode) {
  memset(own, 0, sizeof *own);
  own->txn = txn;
  own->node = node;
  own->mode = mode;
  start(&own->thread, sleep_for_it, own);
  while (!sleeps_in(table, txn)) nap();
  want_rules(group);
}

static inline void wakes_with(sleeper *own, bs_status status) {
  join(own->thread);
  ANSWERS(status, own->reply);
  want_rules(group);
}

#endif
