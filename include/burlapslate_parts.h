/*
 * burlapslate_parts.h: several managers that work as one, for C and C++. Each has a part of what is locked, a
 * transaction has one slot in all that it uses, and whoever calls them sees to the rest. What burlapslate.h requires of
 * callers holds here too.
 */
#ifndef BURLAPSLATE_PARTS_H
#define BURLAPSLATE_PARTS_H

#include "burlapslate.h"

/* Begins a transaction in the slot of this number, in `txn`, for work that began in another manager: so a transaction has
 * one slot in several managers that work as one, and one `since`, by which each of them chooses the same victims. The
 * `since` is as in bs_begin_again, but is kept also if it is above the next age. Then it is the transaction's age too,
 * and the next transaction that begins has the age after it. Slots are numbered from 0, and there are as many as
 * transactions may live at once, by the options of bs_make. Refused with BS_WORN_OUT also if UINT64_MAX was given as an
 * age, and then with BS_TOO_MANY_TXNS if the slot is taken, or there is no such slot. Takes no memory. */
static inline bs_reply bs_join(bs_manager *manager, uint32_t slot, uint64_t since) {
  return manager == NULL ? bs_call_null() : bs_call_join(manager, slot, since);
}

/* A node for which a part is marked, by its names in the main manager and in the part. */
typedef struct bs_marked {
  bs_node node;
  bs_node in_part;
} bs_marked;

/* What a path in a part leads to: a node; or, if `rows` is 1, a row or a record of the file `node`, whose own node may
 * not be there. */
typedef struct bs_target {
  bs_node node;
  bs_mode mode;
  uint32_t rows;
} bs_target;

/* ------------------------------------------------------------------------------------------------
 * Visits. One manager is the main one, and has each node that is in several. More than an intention on such a node is
 * requested there alone, and before that each part that has the node is visited: what is held on the node in the part is
 * copied to the main manager, that on its parents first. From then on an intention on it is requested in the main
 * manager before it is requested in the part, until the node is clear: the part is marked for it. These are questions.
 */

/* What is to be copied next of a node, which is `node` in the main manager and `in_part` in the part: of the
 * transactions whose mode in the part is not covered by their mode in the main manager, the lowest slot, in `count`, and
 * its mode in the part, in `mode`. A transaction that has not joined holds nothing. Refused with BS_IN_USE if both are
 * one manager, with BS_NO_SUCH_NODE if the node is not in both, and with BS_NO_PLACE if nothing is left to copy. Costs
 * two look-ups for each holder of the node in the part. */
static inline bs_reply bs_next_copy(const bs_manager *manager, bs_node node, const bs_manager *part, bs_node in_part) {
  if (manager == NULL || part == NULL) return bs_call_null();
  if (!manager->is_open || !part->is_open) return bs_call_only(BS_NO_MANAGER);
  return manager == part ? bs_call_only(BS_IN_USE) : bs_call_next_copy(manager, node, part, in_part);
}

/* Whether a node is clear, in `count`: 1 if nobody holds more than an intention on it or waits there for more, else 0.
 * Refused with BS_NO_SUCH_NODE. Costs a look-up for each holder of the node, and a step for each that waits for it. */
static inline bs_reply bs_is_clear(const bs_manager *manager, bs_node node) {
  return bs_call_can_ask(manager) ? bs_call_is_clear(manager, node) : bs_call_unasked(manager);
}

/* Whether the marks of all parts for a node may be cleared, in `count`: 1 if it is clear and no request for more than an
 * intention on it is in progress, of so many, else 0. Such a request may wait for a node above it. Refused as
 * bs_is_clear, with its costs. */
static inline bs_reply bs_may_clear(const bs_manager *manager, bs_node node, uint64_t in_progress) {
  return bs_call_can_ask(manager) ? bs_call_may_clear(manager, node, in_progress) : bs_call_unasked(manager);
}

/* What the transaction of a slot has to copy of its own of a node: its mode in the part, in `mode`, if its mode in the
 * main manager does not cover that; else BS_NO_PLACE. Before it waits in the main manager all is copied. Refused with
 * BS_IN_USE if both are one manager, with BS_NO_SUCH_NODE if the node is not in both, and with BS_BAD_NUMBER if there is
 * no such slot. */
static inline bs_reply bs_own_copy(const bs_manager *manager, bs_node node, const bs_manager *part, bs_node in_part,
                                   uint32_t slot) {
  if (manager == NULL || part == NULL) return bs_call_null();
  if (!manager->is_open || !part->is_open) return bs_call_only(BS_NO_MANAGER);
  return manager == part ? bs_call_only(BS_IN_USE) : bs_call_own_copy(manager, node, part, in_part, slot);
}

/* What the transaction of a slot lacks in the main manager for a path in a part that is marked for these nodes: of the
 * marks the first whose node a path to the target passes, where the transaction holds the intention neither in the part
 * nor in the main manager. Its name in the main manager, in `node`, and the intention, in `mode`. BS_NO_PLACE: it lacks
 * nothing, and each request of a path to the target may be made in the part. A path to write passes all nodes above its
 * own, and one to read the first parents. If `manager` is null, what the transaction holds there is not looked at.
 *
 * Refused with BS_IN_USE if both are one manager, and with BS_BAD_NUMBER if there is no such slot or mode. Costs two
 * look-ups for each mark; and unless all are held, one for each node that such paths pass, which takes memory if there
 * are more than 32. */
static inline bs_reply bs_path_lacks(const bs_manager *manager, const bs_manager *part, uint32_t slot, bs_target target,
                                     const bs_marked *marks, size_t count) {
  static const bs_marked none = { { 0, 0 }, { 0, 0 } };
  if (part == NULL || (marks == NULL && count != 0)) return bs_call_null();
  if (!part->is_open || (manager != NULL && !manager->is_open)) return bs_call_only(BS_NO_MANAGER);
  if (marks == NULL) marks = &none;
  if (manager == NULL) return bs_call_path_lacks_there(part, slot, &target, marks, count);
  return manager == part ? bs_call_only(BS_IN_USE) : bs_call_path_lacks(manager, part, slot, &target, marks, count);
}

/* What becomes of a wait in a part, for this target, after an index of the file was made there. BS_DONE: its path passes
 * what it passed before, so let it wait on. BS_MOVED: a path to write a record of the file now passes the index, and what
 * is above it, so end the wait, and begin the path anew. BS_BAD_KEYS: a call that waits for a row of the file has no key
 * for the index, so end it with this status. Refused with BS_BAD_NUMBER if there is no such mode. */
static inline bs_reply bs_after_index(const bs_manager *part, bs_target target, bs_node file) {
  return bs_call_can_ask(part) ? bs_call_after_index(part, &target, file) : bs_call_unasked(part);
}

/* What becomes of a wait in a part, for this target, if this node is moved there to other parents; asked before the
 * move or after it. BS_DONE: no path to the target passes the node, so each passes what it passed before, and waits on.
 * BS_MOVED: one does, and may lack something in the main manager after the move, so end the wait, and begin the path
 * anew. Refused with BS_BAD_NUMBER if there is no such mode. Takes memory if such paths pass more than 32 nodes. */
static inline bs_reply bs_after_move(const bs_manager *part, bs_target target, bs_node node) {
  return bs_call_can_ask(part) ? bs_call_after_move(part, &target, node) : bs_call_unasked(part);
}

/* Whether a transaction that ends in a part may leave locks there that rest for the next transaction of its slot, at most
 * so many, if the part is marked for these nodes: it commits, some are to be kept, and there is no mark. What rests
 * belongs to no transaction of the main manager; and on a node for which a part is marked every transaction holds there
 * what it holds in the part. So release all that rests in a part before you mark it. */
static inline bool bs_may_rest(bool commits, uint64_t most, const bs_marked *marks, size_t count) {
  static const bs_marked none = { { 0, 0 }, { 0, 0 } };
  if (marks == NULL && count != 0) return false;
  return bs_call_may_rest(commits, most, marks == NULL ? &none : marks, count) != 0;
}

/* Whether a transaction takes up what rests for its slot, by its own age and `since`: if its work began with it. What is
 * to rest is given the next age of its slot as its `since`, and has its age in the part if that is smaller. So it is at
 * most the `since` of the transaction that takes it up; and a transaction that was in the part, with a `since` below that
 * age, is never the victim in its place. */
static inline bool bs_takes_up(uint64_t age, uint64_t since) {
  return bs_call_takes_up(age, since) != 0;
}

/* Adds to a board who waits for whom on another: then a slot waits for another if it did before, or does on the added
 * board. The ages stay, and the epoch. */
static inline void bs_join_board(bs_board *joined, const bs_board *added) {
  if (joined != NULL && added != NULL && joined != added) bs_call_join_board(joined, added);
}

#endif
