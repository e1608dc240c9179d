/*
 * scenario_table.h: the calls of a scenario are made with a shared table, and what they answer is compared with the
 * model.
 */
#ifndef SCENARIO_TABLE_H
#define SCENARIO_TABLE_H

#include "scenario_model.h"

/* The table that is played, and one that the thread holds while it makes some calls. */
static bs_table *table, *aside;
static bool is_aside_held;

/* ------------------------------------------------------------------------------------------------
 * Calls of the table.
 */

static const struct timespec *limit_of(const call *c) {
  if (c->no_time != NULL) return c->no_time;
  return c->limit == NO_TIME ? NULL : &moments[c->limit];
}

/* Whether the call of a command takes a told list. */
static bool takes_told(uint32_t kind) {
  switch (kind) {
    case BS_DO_UNLOCK:
    case BS_DO_UNLOCK_ROW:
    case BS_DO_REKEY_ROW:
    case BS_DO_RELEASE_SINCE:
    case BS_DO_ESCALATE:
    case BS_DO_CANCEL:
    case BS_DO_COMMIT:
    case BS_DO_ABORT:
    case BS_DO_SETTLE:
    case BS_DO_DELETE:
    case BS_DO_REKEY:
    case BS_DO_MOVE:
    case BS_DO_DROP:
    case BS_DO_SPLIT:
    case BS_DO_MERGE: return true;
    default: return false;
  }
}

/* A command that changes the graph or records. */
static bs_reply table_command_of_nodes(const bs_command *c, bs_notices *told) {
  switch (c->kind) {
    case BS_DO_ADD_INNER: return bs_table_add_inner(table, c->parents, c->parent_count);
    case BS_DO_ADD_FILE: return bs_table_add_file(table, c->parents, c->parent_count);
    case BS_DO_ADD_ROW_FILE: return bs_table_add_row_file(table, c->parents, c->parent_count);
    case BS_DO_ADD_INDEX:
      return bs_table_add_index(table, c->parents, c->parent_count, c->file, c->bounds, c->bound_count);
    case BS_DO_INDEX_BY:
      return bs_table_index_by(table, c->txn, c->parents, c->parent_count, c->file, c->bounds, c->bound_count);
    case BS_DO_INSERT: return bs_table_insert(table, c->txn, c->file, c->keys, c->key_count);
    case BS_DO_ADOPT: return bs_table_adopt(table, c->file, c->keys, c->key_count);
    case BS_DO_DELETE: return bs_table_delete(table, c->txn, c->node, told);
    case BS_DO_FORGET: return bs_table_forget(table, c->node);
    case BS_DO_REKEY: return bs_table_rekey(table, c->txn, c->node, c->index, c->key, told);
    case BS_DO_MOVE: return bs_table_move(table, c->txn, c->node, c->parents, c->parent_count, told);
    case BS_DO_SPLIT: return bs_table_split(table, c->txn, c->node, c->key, told);
    case BS_DO_MERGE: return bs_table_merge(table, c->txn, c->node, told);
    default: return bs_table_drop(table, c->txn, c->node, told);
  }
}

static bs_reply table_command(const bs_command *c, bs_notices *told) {
  switch (c->kind) {
    case BS_DO_BEGIN: return bs_table_begin(table);
    case BS_DO_BEGIN_AGAIN: return bs_table_begin_again(table, c->number);
    case BS_DO_TRY: return bs_table_try(table, c->txn, c->node, c->mode);
    case BS_DO_TRY_PATH: return bs_table_try_path(table, c->txn, c->node, c->mode, c->keep);
    case BS_DO_TRY_ROW:
      return bs_table_try_row(table, c->txn, c->file, c->number, c->keys, c->key_count, c->mode);
    case BS_DO_UNLOCK: return bs_table_unlock(table, c->txn, c->node, told);
    case BS_DO_UNLOCK_ROW: return bs_table_unlock_row(table, c->txn, c->file, c->number, told);
    case BS_DO_REKEY_ROW: return bs_table_rekey_row(table, c->txn, c->file, c->number, c->index, c->key, told);
    case BS_DO_RELEASE_SINCE: return bs_table_release_since(table, c->txn, c->number, told);
    case BS_DO_ESCALATE: return bs_table_escalate(table, c->txn, c->node, told);
    case BS_DO_CANCEL: return bs_table_cancel(table, c->txn, told);
    case BS_DO_COMMIT: return bs_table_commit(table, c->txn, told);
    case BS_DO_ABORT: return bs_table_abort(table, c->txn, told);
    case BS_DO_SETTLE: return bs_table_settle(table, c->txn, told);
    default: return table_command_of_nodes(c, told);
  }
}

/* The keys of a row are the caller's, which overwrites them after the ask. */
static bs_reply table_ask_row_once(const bs_command *c, const struct timespec *until) {
  uint64_t keys[MOST_KEYS];
  bs_reply reply;
  memcpy(keys, c->keys, sizeof keys);
  reply = bs_table_ask_row(table, c->txn, c->file, c->number, keys, c->key_count, c->mode, until, (void *)words);
  memset(keys, 0xff, sizeof keys);
  return reply;
}

static bs_reply table_ask_so(const bs_command *c, const struct timespec *until) {
  void *word = (void *)words;
  switch (c->kind) {
    case BS_DO_LOCK: return bs_table_ask(table, c->txn, c->node, c->mode, until, word);
    case BS_DO_LOCK_PATH: return bs_table_ask_path(table, c->txn, c->node, c->mode, until, word);
    default: return table_ask_row_once(c, until);
  }
}

/* A call that could sleep, by the number of the command. The thread may not sleep: it is in the callback, or holds a
 * table. */
static bs_reply table_sleep_so(const bs_command *c) {
  switch (c->number) {
    case 0: return bs_table_lock(table, c->txn, c->node, c->mode, NULL);
    case 1: return bs_table_lock_path(table, c->txn, c->node, c->mode, NULL);
    case 2: return bs_table_lock_row(table, c->txn, c->file, c->number, c->keys, c->key_count, c->mode, NULL);
    case 3: return bs_table_await(table, c->txn, c->node, c->mode, NULL);
    case 4: return bs_table_begin_in_turn(table, NULL);
    default: return bs_table_end(table);
  }
}

static bs_reply table_expire_so(outcome *came) {
  struct timespec next = { 0, 0 };
  bs_reply reply = bs_table_expire(table, &next);
  came->next = 0;
  while (came->next < MOMENTS && memcmp(&next, &moments[came->next], sizeof next) != 0) came->next++;
  return reply;
}

/* A list of commands, or of tries. */
static void table_list(const call *c, outcome *came) {
  bs_command list[LIST];
  size_t i;
  for (i = 0; i < c->count; i++) {
    list[i] = command_of(&c->list[i]);
    list[i].reply = only(STATUSES);
    if (c->has_told[i]) list[i].told = &came->told[i];
  }
  came->count = c->kind == RUN ? bs_table_run(table, list, c->count) : bs_table_try_first(table, list, c->count);
  for (i = 0; i < c->count; i++) came->replies[i] = list[i].reply;
}

static void table_call(const call *c, outcome *came) {
  bs_command first = command_of(&c->list[0]);
  bs_notices *told = c->has_told[0] ? &came->told[0] : NULL;
  bs_reply *reply = &came->replies[0];
  if (c->kind == COMMAND && !takes_told(first.kind)) came->told[0].count = 0;
  switch (c->kind) {
    case COMMAND: *reply = table_command(&first, told); break;
    case ASK: *reply = table_ask_so(&first, limit_of(c)); break;
    case AWAIT:
      *reply = bs_table_ask_await(table, first.txn, first.node, first.mode, limit_of(c), (void *)words);
      break;
    case EXPIRE: *reply = table_expire_so(came); break;
    case MARK: *reply = bs_table_mark(table, first.txn); break;
    case DEADLINE: *reply = bs_table_deadline(table, first.txn, limit_of(c)); break;
    case SLEEP: *reply = table_sleep_so(&first); break;
    default: table_list(c, came);
  }
}

/* Makes the call while the thread holds a table, which it gives back after that. */
static void table_call_holding(const call *c, outcome *came, bs_table *held) {
  const bs_manager *lent = bs_table_hold(held);
  is_aside_held = held == aside;
  table_call(c, came);
  is_aside_held = false;
  must(lent != NULL ? NULL : "a table is not lent", c->list[0].c.txn);
  must(same_number("let_go", bs_table_let_go(held).status, BS_DONE), c->list[0].c.txn);
  must(same_number("let_go again", bs_table_let_go(held).status, BS_NOT_HELD), c->list[0].c.txn);
}

static void table_call_so(const call *c, outcome *came) {
  if (c->is_held) table_call_holding(c, came, table);
  else if (c->is_aside) table_call_holding(c, came, aside);
  else table_call(c, came);
}

/* ------------------------------------------------------------------------------------------------
 * Comparing, and counting what has come up.
 */

/* How often commands of lists and single commands, asks and ends were answered so; how many calls were made at each
 * depth; and how many asks answered an end of their own wait. */
enum { DEEP = 3 };
static unsigned long tally[COMMANDS][STATUSES], ask_tally[STATUSES], end_tally[STATUSES], depth_tally[DEEP + 1];
static unsigned long own_ends;

/* Whether a command of a call was made, and has a told list. */
static bool has_told(const call *c, const outcome *wants, size_t place) {
  bool is_command = c->kind == COMMAND || c->kind == RUN || c->kind == TRY_FIRST;
  return is_command && c->has_told[place] && wants->replies[place].status != BS_NOT_MADE;
}

static const char *same_outcome(const call *c, const outcome *came, const outcome *wants) {
  size_t i;
  if (c->kind == EXPIRE) SAME(same_number("next time", came->next, wants->next));
  if (c->kind == RUN || c->kind == TRY_FIRST) SAME(same_number("place in the list", came->count, wants->count));
  for (i = 0; i < c->count || i == 0; i++) {
    SAME(same_reply(came->replies[i], wants->replies[i]));
    if (has_told(c, wants, i)) SAME(same_told(&came->told[i], &wants->told[i]));
  }
  return NULL;
}

static void count_call(const call *c, const outcome *wants) {
  size_t i;
  depth_tally[depth]++;
  if (c->kind == ASK) ask_tally[wants->replies[0].status]++;
  if (c->kind != COMMAND && c->kind != RUN && c->kind != TRY_FIRST) return;
  for (i = 0; i < c->count; i++) tally[c->list[i].c.kind][wants->replies[i].status]++;
}

/* The table's manager has the state of the naive one. */
static void same_states(bs_txn about) {
  const bs_manager *lent = bs_table_hold(table);
  const char *differs;
  if (is_over) {
    must(lent == NULL ? NULL : "an ended table is lent", about);
    return;
  }
  differs = same_state(lent, &n);
  if (differs == NULL) differs = same_graph(lent, &n);
  bs_table_let_go(table);
  must(differs, about);
}

/* The transaction of the outermost call, if that is an ask. */
static bool is_asking;
static bs_txn asking;

/* Makes the call of the table, and compares its answer. While the outermost ask tells ends its own may come. */
static void make_beside(const call *c, outcome *wants, requester *by) {
  static outcome came_at[DEEP + 1];
  outcome *came = &came_at[depth];
  bs_txn about = c->list[0].c.txn;
  bool is_ask = c->kind == ASK || c->kind == AWAIT;
  bool is_outermost = is_ask && depth == 0;
  bool is_left_waiting = is_ask && wants->replies[0].status == BS_WAITING;
  memset(came, 0xff, sizeof *came);
  if (is_outermost) asking = about;
  is_asking = is_asking || is_outermost;
  if (!is_outermost && is_left_waiting) asks[about.slot].by = NULL;
  table_call_so(c, came);
  if (is_outermost) is_asking = false;
  if (is_outermost && is_left_waiting) wants->replies[0] = outermost_answer(c, wants->replies[0], by);
  must(same_outcome(c, came, wants), about);
}

/* Makes a call in the model and with the table. */
static void make(const call *c) {
  static outcome wants_at[DEEP + 1];
  static const requester none = { false, { 0, 0, { 0, 0 }, { 0, 0 }, 0, 0, 0, 0 } };
  outcome *wants = &wants_at[depth];
  requester by = none;
  memset(wants, 0, sizeof *wants);
  calls_made++;
  calls_of_scenario++;
  words++;
  model_call(c, wants, &by);
  trace_call(c, wants);
  count_call(c, wants);
  make_beside(c, wants, &by);
  own_ends += by.has_ended ? 1 : 0;
  same_states(c->list[0].c.txn);
  if (depth == 0 && end_count > 0) must(say("%lu ends are not told", (unsigned long)end_count), ends[0].txn);
}

#endif
