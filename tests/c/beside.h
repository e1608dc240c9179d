/*
 * beside.h: a manager of the library compared with a naive one: whether two replies, two told lists and the whole
 * states are the same. A difference is described as a text; null means that nothing differs.
 */
#ifndef BESIDE_H
#define BESIDE_H

#include "naive.h"
#include "same.h"

#include <stdarg.h>
#include <stdio.h>

/* The first difference, as a text. */
static char difference[400];

static inline const char *say(const char *format, ...) {
  va_list rest;
  va_start(rest, format);
  vsnprintf(difference, sizeof difference, format, rest);
  va_end(rest);
  return difference;
}

/* Ends a comparison at its first difference. */
#define SAME(check)                                \
  do {                                             \
    const char *differs = (check);                 \
    if (differs != NULL) return differs;           \
  } while (0)

static inline const char *same_number(const char *what, uint64_t came, uint64_t wanted) {
  if (came == wanted) return NULL;
  return say("%s: came %llu, wanted %llu", what, (unsigned long long)came, (unsigned long long)wanted);
}

static inline const char *same_name(const char *what, bs_node came, bs_node wanted) {
  if (same_node(came, wanted)) return NULL;
  return say("%s: came node %lu.%lu, wanted %lu.%lu", what, (unsigned long)came.key, (unsigned long)came.birth,
             (unsigned long)wanted.key, (unsigned long)wanted.birth);
}

/* ------------------------------------------------------------------------------------------------
 * Replies and notices.
 */

static inline const char *same_reply(bs_reply came, bs_reply wanted) {
  if (came.status != wanted.status) {
    return say("status: came %s, wanted %s", bs_text(came.status), bs_text(wanted.status));
  }
  SAME(same_number("mode", came.mode, wanted.mode));
  SAME(same_name("node", came.node, wanted.node));
  SAME(same_number("slot", came.txn.slot, wanted.txn.slot));
  SAME(same_number("age", came.txn.age, wanted.txn.age));
  SAME(same_number("released", came.released, wanted.released));
  SAME(same_number("kept", came.kept, wanted.kept));
  SAME(same_number("count", came.count, wanted.count));
  return same_number("wanted mode", came.wanted, wanted.wanted);
}

static inline const char *same_notice(const bs_notice *came, const bs_notice *wanted) {
  SAME(same_number("told slot", came->txn.slot, wanted->txn.slot));
  SAME(same_number("told age", came->txn.age, wanted->txn.age));
  SAME(same_number("told kind", came->kind, wanted->kind));
  SAME(same_name("told node", came->node, wanted->node));
  return same_number("told mode", came->mode, wanted->mode);
}

static inline const char *same_told(const bs_notices *came, const bs_notices *wanted) {
  size_t i;
  SAME(same_number("how many are told", came->count, wanted->count));
  for (i = 0; i < came->count; i++) SAME(same_notice(&came->at[i], &wanted->at[i]));
  return NULL;
}

/* ------------------------------------------------------------------------------------------------
 * Transactions and what they hold.
 */

/* What a transaction is doing. */
static inline const char *same_doing(const bs_manager *m, const naive *n, bs_txn txn) {
  const naive_wait *wait = naive_wait_of(n, txn);
  bs_reply doing = bs_doing(m, txn);
  uint64_t wanted = wait != NULL ? BS_WAITS : n->txns[txn.slot].is_condemned ? BS_CONDEMNED : BS_ACTIVE;
  SAME(same_number("slot is doing", doing.count, wanted));
  if (wait == NULL) return NULL;
  SAME(same_name("waits for", doing.node, naive_born(n, wait->node)->name));
  return same_number("wanted mode of a wait", doing.mode, wait->mode);
}

/* One row of the list of a transaction's locks. */
static inline const char *same_lock(const naive *n, uint32_t slot, bs_reply row) {
  const naive_node *node = naive_find(n, row.node);
  const naive_wait *wait = naive_wait_of(n, naive_txn_in(n, slot));
  bool is_awaited = node != NULL && wait != NULL && wait->node == node->name.birth;
  if (node == NULL) return say("slot %u holds a node that is gone, of birth %lu", slot, (unsigned long)row.node.birth);
  SAME(same_number("held mode", row.mode, naive_held(n, slot, node->name.birth)));
  SAME(same_number("wanted mode", row.wanted, is_awaited ? wait->mode : BS_NL));
  return same_number("held children", row.count, naive_held_children(n, slot, node->name.birth));
}

/* All locks of a transaction: as many different nodes as the naive one has, and each as that has it. */
static inline const char *same_locks(const bs_manager *m, const naive *n, bs_txn txn) {
  const naive_txn *t = &n->txns[txn.slot];
  const naive_wait *wait = naive_wait_of(n, txn);
  bool is_new = wait != NULL && naive_held(n, txn.slot, wait->node) == BS_NL;
  uint64_t seen[NAIVE_NODES + 1];
  size_t i, j, count = t->hold_count + (is_new ? 1 : 0);
  SAME(same_number("how many locks a slot has", bs_lock_count(m, txn).count, count));
  for (i = 0; i < count; i++) {
    bs_reply row = bs_lock_at(m, txn, i);
    SAME(same_lock(n, txn.slot, row));
    seen[i] = row.node.birth;
    for (j = 0; j < i; j++) {
      if (seen[j] == seen[i]) return say("slot %u lists node %lu twice", txn.slot, (unsigned long)seen[i]);
    }
  }
  return NULL;
}

static inline const char *same_txn_in(const bs_manager *m, const naive *n, uint32_t slot) {
  bs_reply living = bs_living(m, slot);
  bs_txn txn = naive_txn_in(n, slot);
  if (!n->txns[slot].lives) return same_number("a free slot's answer", living.status, BS_NO_PLACE);
  SAME(same_number("a slot's answer", living.status, BS_DONE));
  SAME(same_number("age in a slot", living.txn.age, txn.age));
  SAME(same_doing(m, n, txn));
  return same_locks(m, n, txn);
}

/* The transactions for which a transaction waits. */
static inline const char *same_waits_for(const bs_manager *m, const naive *n, uint32_t slot) {
  bool waits[NAIVE_TXNS];
  bs_slots came;
  uint32_t other;
  if (naive_wait_of(n, naive_txn_in(n, slot)) == NULL) return NULL;
  naive_waits_for(n, slot, waits);
  came = bs_waits_for(m, naive_txn_in(n, slot)).slots;
  for (other = 0; other < n->limits.transactions; other++) {
    if (bs_has(came, other) != waits[other]) return say("whether slot %u waits for slot %u", slot, other);
  }
  return NULL;
}

/* ------------------------------------------------------------------------------------------------
 * Nodes, with their holders and their queues.
 */

static inline const char *same_holders(const bs_manager *m, const naive *n, const naive_node *node) {
  bs_slots came = bs_holders(m, node->name).slots;
  uint32_t slot;
  for (slot = 0; slot < n->limits.transactions; slot++) {
    unsigned long birth = (unsigned long)node->name.birth;
    bool holds = naive_held(n, slot, birth) != BS_NL;
    if (bs_has(came, slot) != holds) return say("whether slot %u holds node %lu", slot, birth);
  }
  return NULL;
}

/* The queue of a node, in its order. */
static inline const char *same_queue(const bs_manager *m, const naive *n, const naive_node *node) {
  size_t i, place = 0;
  for (i = 0; i < n->wait_count; i++) {
    const naive_wait *wait = &n->waits[i];
    bs_reply came;
    if (wait->node != node->name.birth) continue;
    came = bs_queue_at(m, node->name, place++);
    SAME(same_number("a waiter's answer", came.status, BS_DONE));
    SAME(same_number("a waiter's slot", came.txn.slot, wait->slot));
    SAME(same_number("a waiter's mode", came.mode, wait->mode));
  }
  return same_number("how many wait for a node", bs_queue_len(m, node->name).count, place);
}

static inline const char *same_parents(const bs_manager *m, const naive *n, const naive_node *node) {
  size_t i;
  for (i = 0; i < node->parent_count; i++) {
    SAME(same_name("parent", bs_parent(m, node->name, i).node, naive_born(n, node->parents[i])->name));
  }
  return same_number("the answer to one parent more", bs_parent(m, node->name, i).status, BS_NO_PLACE);
}

static inline const char *same_keys(const bs_manager *m, const naive_node *record) {
  size_t i;
  for (i = 0; i < record->key_count; i++) SAME(same_number("key", bs_key(m, record->name, i).count, record->keys[i]));
  return same_number("the answer to one key more", bs_key(m, record->name, i).status, BS_NO_PLACE);
}

/* The indexes of a file, by rising births. */
static inline const char *same_indexes(const bs_manager *m, const naive *n, const naive_node *file) {
  size_t i, place = 0;
  for (i = 0; i < n->node_count; i++) {
    const naive_node *other = &n->nodes[i];
    if (other->kind != BS_INDEX || other->file != file->name.birth) continue;
    SAME(same_name("index", bs_index(m, file->name, place++).node, other->name));
  }
  return same_number("the answer to one index more", bs_index(m, file->name, place).status, BS_NO_PLACE);
}

/* The intervals of an index, by rising keys. */
static inline const char *same_intervals(const bs_manager *m, const naive *n, const naive_node *index) {
  const naive_node *next = naive_interval(n, index->name.birth, 0);
  size_t place = 0;
  for (; next != NULL; next = next->is_last ? NULL : naive_interval(n, index->name.birth, next->to)) {
    SAME(same_name("interval", bs_interval(m, index->name, place).node, next->name));
    SAME(same_name("interval of a key", bs_interval_of(m, index->name, next->from).node, next->name));
    SAME(same_number("place of an interval", bs_place(m, next->name).count, place++));
  }
  return same_number("the answer to one interval more", bs_interval(m, index->name, place).status, BS_NO_PLACE);
}

static inline bool naive_has_records(const naive *n, const naive_node *file) {
  size_t i;
  for (i = 0; i < n->node_count; i++) {
    if (n->nodes[i].kind == BS_RECORD && n->nodes[i].file == file->name.birth) return true;
  }
  return false;
}

static inline const char *same_node_in(const bs_manager *m, const naive *n, const naive_node *node) {
  SAME(same_number("kind", bs_kind(m, node->name).count, node->kind));
  SAME(same_parents(m, n, node));
  switch (node->kind) {
    case BS_RECORD: return same_keys(m, node);
    case BS_INDEX: return same_intervals(m, n, node);
    case BS_FILE:
      SAME(same_number("has records", bs_has_records(m, node->name).count, naive_has_records(n, node)));
      return same_indexes(m, n, node);
    default: return NULL;
  }
}

/* ------------------------------------------------------------------------------------------------
 * All of it.
 */

/* The nodes that there are, and what each is. */
static inline const char *same_graph(const bs_manager *m, const naive *n) {
  size_t i;
  SAME(same_number("how many nodes there are", bs_len(m).count, n->node_count));
  for (i = 0; i < n->node_count; i++) SAME(same_node_in(m, n, &n->nodes[i]));
  return NULL;
}

/* The transactions, what each holds, and which wait where, for what and for whom. */
static inline const char *same_state(const bs_manager *m, const naive *n) {
  uint32_t slot;
  size_t i;
  for (slot = 0; slot < n->limits.transactions; slot++) {
    SAME(same_txn_in(m, n, slot));
    SAME(same_waits_for(m, n, slot));
  }
  for (i = 0; i < n->node_count; i++) {
    SAME(same_holders(m, n, &n->nodes[i]));
    SAME(same_queue(m, n, &n->nodes[i]));
  }
  return NULL;
}

#endif
