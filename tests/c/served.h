/*
 * served.h: the calls that a table makes with its manager, for the crowds: each with all its arguments, so that it can
 * be logged, and made again with a manager of one thread. A program defines how it serves a call, and then includes the
 * table's source, whose calls are served.
 */
#ifndef SERVED_H
#define SERVED_H

#include "burlapslate_splits.h"
#include "same.h"

#include <stdlib.h>
#include <string.h>

/* ------------------------------------------------------------------------------------------------
 * Calls.
 */

enum kind {
  BEGIN, LOCK, LOCK_PATH, LOCK_ROW, TRY, TRY_PATH, TRY_ROW, UNLOCK, UNLOCK_ROW, ESCALATE, CANCEL, COMMIT, ABORT, SETTLE,
  INSERT, DELETE, REKEY, REKEY_ROW, MOVE, DROP, INDEX_BY, ADD_INNER, ADD_FILE, ADD_ROW_FILE, ADD_INDEX, BEGIN_AGAIN,
  KINDS /* a program may have more */
};

enum { MOST_NUMBERS = 3, MOST_PARENTS = 2, MOST_RECORDS = 8 };

/* A call, with all its arguments. The last ones are of calls that no crowd over one table logs. */
struct call {
  enum kind kind;
  bs_txn txn;
  bs_node node;
  uint64_t row;
  bs_mode mode;
  bs_node other;
  uint64_t key;
  bs_node parents[MOST_PARENTS];
  size_t parent_count;
  uint64_t numbers[MOST_NUMBERS];
  size_t number_count;
  bs_mode wanted;
  bool is_instant;
  uint64_t until;
  size_t record_count;
  bs_node records[MOST_RECORDS];
  uint64_t keys[MOST_RECORDS];
};

static uint64_t mixed(uint64_t sum, uint64_t more) {
  return (sum ^ more) * UINT64_C(0x100000001b3);
}

static uint64_t sum_of(const bs_notices *told) {
  uint64_t sum = UINT64_C(0xcbf29ce484222325);
  size_t i;
  for (i = 0; i < told->count; i++) {
    const bs_notice *n = &told->at[i];
    sum = mixed(mixed(mixed(sum, n->txn.slot), n->txn.age), n->kind);
    sum = mixed(mixed(mixed(sum, n->node.key), n->node.birth), n->mode);
  }
  return sum;
}

/* Makes a call with a manager of one thread. */
static bs_reply made(bs_manager *m, const struct call *c, bs_notices *told) {
  told->count = 0;
  switch (c->kind) {
    case BEGIN: return bs_begin(m);
    case BEGIN_AGAIN: return bs_begin_again(m, c->key);
    case LOCK: return bs_lock(m, c->txn, c->node, c->mode, told);
    case LOCK_PATH: return bs_lock_path(m, c->txn, c->node, c->mode, told);
    case LOCK_ROW: return bs_lock_row(m, c->txn, c->node, c->row, c->numbers, c->number_count, c->mode, told);
    case TRY: return bs_try(m, c->txn, c->node, c->mode);
    case TRY_PATH: return bs_call_try_path(m, c->txn, c->node, c->mode, (uint32_t)c->key, told);
    case TRY_ROW: return bs_call_try_row(m, c->txn, c->node, c->row, c->numbers, c->number_count, c->mode, told);
    case UNLOCK: return bs_unlock(m, c->txn, c->node, told);
    case UNLOCK_ROW: return bs_unlock_row(m, c->txn, c->node, c->row, told);
    case ESCALATE: return bs_escalate(m, c->txn, c->node, told);
    case CANCEL: return bs_cancel(m, c->txn, told);
    case COMMIT: return bs_commit(m, c->txn, told);
    case ABORT: return bs_abort(m, c->txn, told);
    case SETTLE: return bs_settle(m, c->txn, told);
    case INSERT: return bs_insert(m, c->txn, c->node, c->numbers, c->number_count);
    case DELETE: return bs_delete(m, c->txn, c->node, told);
    case REKEY: return bs_rekey(m, c->txn, c->node, c->other, c->key, told);
    case REKEY_ROW: return bs_rekey_row(m, c->txn, c->node, c->row, c->other, c->key, told);
    case MOVE: return bs_move(m, c->txn, c->node, c->parents, c->parent_count, told);
    case DROP: return bs_drop(m, c->txn, c->node, told);
    case INDEX_BY:
      return bs_index_by(m, c->txn, c->parents, c->parent_count, c->other, c->numbers, c->number_count);
    case ADD_INNER: return bs_add_inner(m, c->parents, c->parent_count);
    case ADD_FILE: return bs_add_file(m, c->parents, c->parent_count);
    case ADD_ROW_FILE: return bs_add_row_file(m, c->parents, c->parent_count);
    default: return bs_add_index(m, c->parents, c->parent_count, c->other, c->numbers, c->number_count);
  }
}

static struct call call_of(enum kind kind, bs_txn txn, bs_node node) {
  struct call call;
  memset(&call, 0, sizeof call);
  call.kind = kind;
  call.txn = txn;
  call.node = node;
  return call;
}

static const bs_txn nobody = { 0, 0 };

static struct call adding(enum kind kind, const bs_node *parents, size_t count) {
  bs_node none = { 0, 0 };
  struct call call = call_of(kind, nobody, none);
  if (count > MOST_PARENTS) abort();
  if (count > 0) memcpy(call.parents, parents, count * sizeof *parents);
  call.parent_count = count;
  return call;
}

static void give_numbers(struct call *call, const uint64_t *numbers, size_t count) {
  if (count > MOST_NUMBERS) abort();
  if (count > 0) memcpy(call->numbers, numbers, count * sizeof *numbers);
  call->number_count = count;
}

static bool same_reply(bs_reply a, bs_reply b) {
  return a.status == b.status && a.mode == b.mode && same_node(a.node, b.node) && same_txn(a.txn, b.txn) &&
         a.released == b.released && a.kept == b.kept && a.count == b.count;
}

/* ------------------------------------------------------------------------------------------------
 * The calls that are made in place of those of the library's headers.
 */

/* Makes a call, and logs it; the second is of a request that may sleep. The program defines both. */
static bs_reply serve(bs_manager *m, struct call call, bs_notices *told);
static bs_reply serve_request(bs_manager *m, struct call call, bs_notices *told);

static bs_reply served_begin(bs_manager *m, enum kind kind, uint64_t since) {
  struct call call = adding(kind, NULL, 0);
  call.key = since;
  return serve(m, call, NULL);
}

static bs_reply served_lock(bs_manager *m, enum kind kind, bs_txn txn, bs_node node, bs_mode mode, bs_notices *told) {
  struct call call = call_of(kind, txn, node);
  call.mode = mode;
  return serve_request(m, call, told);
}

static bs_reply served_row(bs_manager *m, enum kind kind, bs_txn txn, bs_node file, uint64_t number,
                           const uint64_t *keys, size_t count, bs_mode mode, bs_notices *told) {
  struct call call = call_of(kind, txn, file);
  call.row = number;
  call.mode = mode;
  give_numbers(&call, keys, count);
  return kind == LOCK_ROW ? serve_request(m, call, told) : serve(m, call, told);
}

static bs_reply served_unlock_row(bs_manager *m, bs_txn txn, bs_node file, uint64_t number, bs_notices *told) {
  struct call call = call_of(UNLOCK_ROW, txn, file);
  call.row = number;
  return serve(m, call, told);
}

static bs_reply served_rekey_row(bs_manager *m, bs_txn txn, bs_node file, uint64_t number, bs_node index, uint64_t key,
                                 bs_notices *told) {
  struct call call = call_of(REKEY_ROW, txn, file);
  call.row = number;
  call.other = index;
  call.key = key;
  return serve(m, call, told);
}

static bs_reply served_try(bs_manager *m, bs_txn txn, bs_node node, bs_mode mode) {
  struct call call = call_of(TRY, txn, node);
  call.mode = mode;
  return serve(m, call, NULL);
}

static bs_reply served_try_path(bs_manager *m, bs_txn txn, bs_node node, bs_mode mode, uint32_t keep,
                                bs_notices *told) {
  struct call call = call_of(TRY_PATH, txn, node);
  call.mode = mode;
  call.key = keep;
  return serve(m, call, told);
}

static bs_reply served_unlock(bs_manager *m, bs_txn txn, bs_node node, bs_notices *told) {
  return serve(m, call_of(UNLOCK, txn, node), told);
}

static bs_reply served_escalate(bs_manager *m, enum kind kind, bs_txn txn, bs_node node, bs_notices *told) {
  return serve(m, call_of(kind, txn, node), told);
}

static bs_reply served_end(bs_manager *m, enum kind kind, bs_txn txn, bs_notices *told) {
  bs_node none = { 0, 0 };
  return serve(m, call_of(kind, txn, none), told);
}

static bs_reply served_insert(bs_manager *m, bs_txn txn, bs_node file, const uint64_t *keys, size_t count) {
  struct call call = call_of(INSERT, txn, file);
  give_numbers(&call, keys, count);
  return serve(m, call, NULL);
}

static bs_reply served_delete(bs_manager *m, bs_txn txn, bs_node record, bs_notices *told) {
  return serve(m, call_of(DELETE, txn, record), told);
}

static bs_reply served_rekey(bs_manager *m, bs_txn txn, bs_node record, bs_node index, uint64_t key, bs_notices *told) {
  struct call call = call_of(REKEY, txn, record);
  call.other = index;
  call.key = key;
  return serve(m, call, told);
}

static bs_reply served_move(bs_manager *m, bs_txn txn, bs_node node, const bs_node *parents, size_t count,
                            bs_notices *told) {
  struct call call = adding(MOVE, parents, count);
  call.txn = txn;
  call.node = node;
  return serve(m, call, told);
}

static bs_reply served_drop(bs_manager *m, bs_txn txn, bs_node node, bs_notices *told) {
  return serve(m, call_of(DROP, txn, node), told);
}

static bs_reply served_add(bs_manager *m, enum kind kind, const bs_node *parents, size_t count) {
  return serve(m, adding(kind, parents, count), NULL);
}

static bs_reply served_index(bs_manager *m, enum kind kind, bs_txn txn, const bs_node *parents, size_t count,
                             bs_node file, const uint64_t *bounds, size_t bound_count) {
  struct call call = adding(kind, parents, count);
  call.txn = txn;
  call.other = file;
  give_numbers(&call, bounds, bound_count);
  return serve(m, call, NULL);
}

#define bs_begin(m) served_begin(m, BEGIN, 0)
#define bs_begin_again(m, since) served_begin(m, BEGIN_AGAIN, since)
#define bs_lock(m, txn, node, mode, told) served_lock(m, LOCK, txn, node, mode, told)
#define bs_lock_path(m, txn, node, mode, told) served_lock(m, LOCK_PATH, txn, node, mode, told)
#define bs_try(m, txn, node, mode) served_try(m, txn, node, mode)
#define bs_unlock(m, txn, node, told) served_unlock(m, txn, node, told)
#define bs_escalate(m, txn, node, told) served_escalate(m, ESCALATE, txn, node, told)
#define bs_cancel(m, txn, told) served_end(m, CANCEL, txn, told)
#define bs_commit(m, txn, told) served_end(m, COMMIT, txn, told)
#define bs_abort(m, txn, told) served_end(m, ABORT, txn, told)
#define bs_lock_row(m, txn, file, row, keys, count, mode, told) \
  served_row(m, LOCK_ROW, txn, file, row, keys, count, mode, told)
#define bs_call_try_path(m, txn, node, mode, keep, told) served_try_path(m, txn, node, mode, keep, told)
#define bs_call_try_row(m, txn, file, row, keys, count, mode, told) \
  served_row(m, TRY_ROW, txn, file, row, keys, count, mode, told)
#define bs_unlock_row(m, txn, file, row, told) served_unlock_row(m, txn, file, row, told)
#define bs_rekey_row(m, txn, file, row, index, key, told) served_rekey_row(m, txn, file, row, index, key, told)
#define bs_settle(m, txn, told) served_end(m, SETTLE, txn, told)
#define bs_insert(m, txn, file, keys, count) served_insert(m, txn, file, keys, count)
#define bs_delete(m, txn, record, told) served_delete(m, txn, record, told)
#define bs_rekey(m, txn, record, index, key, told) served_rekey(m, txn, record, index, key, told)
#define bs_move(m, txn, node, parents, count, told) served_move(m, txn, node, parents, count, told)
#define bs_drop(m, txn, node, told) served_drop(m, txn, node, told)
#define bs_index_by(m, txn, parents, count, file, bounds, most) \
  served_index(m, INDEX_BY, txn, parents, count, file, bounds, most)
#define bs_add_inner(m, parents, count) served_add(m, ADD_INNER, parents, count)
#define bs_add_file(m, parents, count) served_add(m, ADD_FILE, parents, count)
#define bs_add_row_file(m, parents, count) served_add(m, ADD_ROW_FILE, parents, count)
#define bs_add_index(m, parents, count, file, bounds, most) \
  served_index(m, ADD_INDEX, nobody, parents, count, file, bounds, most)

#endif
