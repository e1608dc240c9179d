/*
 * scenario_model.h: the model of a shared table, over the lock manager of plain lists of naive.h. For each transaction
 * it has at most one ask that waits, and at most one lock for an instant that waits. These are its rules.
 *
 *   1. A call is one critical section: its command, or the commands of its list, and all that they set off.
 *   2. After each command, each waiter whose wait is over goes on, the lowest slot first, one command at a time, until no
 *      wait is over. An ask is a waiter, and so is a lock for an instant that a list left waiting. A path requests its
 *      next locks, which may wait again, choose victims and grant others. A row is requested again, to learn whether its
 *      keys are its node's own. A lock for an instant that was granted is released, except that a node which the
 *      transaction held before is raised and stays held, and so does a node of which it holds a child. Any other ask has
 *      ended. What this tells is told with the command. A lock for an instant that is granted at once is released after
 *      that, and then others go on again.
 *   3. An ask that waits is a waiter before anybody goes on: its own wait may be over by then.
 *   4. The answer of a call is taken after all that. If the wait of an ask has ended by then, the ask answers that end,
 *      and it does so too if its wait ends while it tells others their ends. If the wait of a command of a list has
 *      ended, the command answers that end: a path continues first, a row is requested again, and after a grant the
 *      list continues.
 *   5. Every other ask whose wait has ended is told exactly once, with the reply that a sleeper would get: if it was not
 *      granted, with the node for which it waited. An ask that waits is never told. The ends that one command caused are
 *      told by rising slots; between those of several commands the order is open.
 *   6. A wait of an ask ends at the earlier of the times of its call and of its transaction, both as they were when the
 *      call began to wait. bs_table_expire cancels the waits whose time is over, the lowest slot first, each with all
 *      that this sets off, until there is none.
 */
#ifndef SCENARIO_MODEL_H
#define SCENARIO_MODEL_H

#include "scenario_calls.h"

enum { MOST_ENDS = 1024 };

/* The call of an ask, until it returns: whether the wait has ended within it, and how. */
typedef struct requester {
  bool has_ended;
  bs_reply end;
} requester;

/* The ask of the transaction in a slot. */
typedef struct ask {
  bool waits;
  drawn asked;
  bool is_instant; /* it is for an instant, and its transaction did not hold the node */
  bool holds;     /* it was granted a node, and goes on with the next command */
  bs_node at;     /* the node for which it waits now, or that it holds, and its mode */
  bs_mode wanted;
  moment limit;   /* the time of its call, and the time at which its wait ends */
  moment time;
  uintptr_t word;
  requester *by;  /* null after its call has returned */
} ask;

/* The lock for an instant of the transaction in a slot that a list requested: whether it waits, or what it was granted as
 * since the last wait. */
typedef struct instant {
  bool waits, was_granted;
  bs_txn txn;
  bs_node node;
  bs_mode mode;
} instant;

/* The deadline of the transaction of this age, in a slot. */
typedef struct deadline {
  uint64_t age;
  moment time;
} deadline;

/* An end that is to be told. */
typedef struct end {
  bs_txn txn;
  bs_reply reply;
  uintptr_t word;
  uint64_t command; /* the number of the command that ended the wait */
  unsigned depth;   /* of the calls that the callback makes when it is told */
} end;

static naive n;
static ask asks[NAIVE_TXNS];
static instant instants[NAIVE_TXNS];
static deadline deadlines[NAIVE_TXNS];
static end ends[MOST_ENDS];
static size_t end_count;
static uint64_t commands, ended_by[NAIVE_TXNS]; /* how many commands were made, and by slot which ended its last wait */
static uintptr_t words;                         /* the word of the next ask */
static bool is_over;                            /* the table has been ended */
static const call *requested;                      /* the ask whose command is being made, or null; and its requester */
static requester *requested_by;

static void forget_all(void) {
  memset(asks, 0, sizeof asks);
  memset(instants, 0, sizeof instants);
  memset(deadlines, 0, sizeof deadlines);
  end_count = 0;
  is_over = false;
}

/* ------------------------------------------------------------------------------------------------
 * Commands, and the locks for an instant that they grant.
 */

static bs_mode plain(bs_mode mode) {
  return mode & ~(bs_mode)BS_INSTANT;
}

/* Adds notices to a told list, which has one for each transaction, by rising slots: the last one. */
static void tell(bs_notices *told, const bs_notices *more) {
  size_t i, place;
  for (i = 0; told != NULL && i < more->count; i++) {
    uint32_t slot = more->at[i].txn.slot;
    for (place = 0; place < told->count && told->at[place].txn.slot < slot; place++) continue;
    if (place == told->count || told->at[place].txn.slot != slot) {
      memmove(&told->at[place + 1], &told->at[place], (told->count - place) * sizeof told->at[0]);
      told->count++;
    }
    told->at[place] = more->at[i];
  }
}

/* Makes one command of the manager, and notes whose waits it has ended. */
static bs_reply command(const bs_command *c, bs_notices *told) {
  bs_reply reply = naive_make(&n, c);
  size_t i;
  commands++;
  for (i = 0; i < n.told.count; i++) ended_by[n.told.at[i].txn.slot] = commands;
  if ((c->kind == BS_DO_CANCEL || c->kind == BS_DO_ABORT) && reply.status == BS_DONE) ended_by[c->txn.slot] = commands;
  tell(told, &n.told);
  return reply;
}

static bs_mode held_by(bs_txn txn, bs_node node) {
  return naive_txn_of(&n, txn) == NULL ? BS_NL : naive_held(&n, txn.slot, node.birth);
}

/* Whether a lock is for an instant: its transaction does not hold the node. */
static bool is_instant(const bs_command *c) {
  return (c->mode & BS_INSTANT) != 0 && held_by(c->txn, c->node) == BS_NL;
}

static void release(bs_txn txn, bs_node node, bs_notices *told) {
  bs_command unlock = bs_do_at(BS_DO_UNLOCK, txn, node, BS_NL);
  command(&unlock, told);
}

/* The wait of a lock for an instant has ended. If the lock was granted, it is released. */
static void end_instant(instant *own, bs_notices *told) {
  own->waits = false;
  own->mode = held_by(own->txn, own->node);
  if (own->mode == BS_NL) return;
  own->was_granted = true;
  release(own->txn, own->node, told);
}

static void settle(bs_notices *told);
static void register_ask(const call *c, bs_node at, bs_mode wanted, requester *by);

/* A transaction begins to wait: for the ask that is being made, or else for a list, for an instant or not. */
static void register_wait(const bs_command *c, bs_reply reply, bool for_an_instant) {
  instant *own = &instants[c->txn.slot];
  own->was_granted = false;
  own->waits = requested == NULL && for_an_instant && same_node(reply.node, c->node);
  own->txn = c->txn;
  own->node = c->node;
  if (requested == NULL) return;
  register_ask(requested, reply.node, reply.mode, requested_by);
  asks[c->txn.slot].is_instant = for_an_instant;
}

/* After a lock that was answered so: others go on, and it is released if it is for an instant. */
static void release_after(const bs_command *c, bool for_an_instant, bs_reply reply, bs_notices *told) {
  settle(told);
  if (!for_an_instant || reply.status != BS_DONE) return;
  release(c->txn, c->node, told);
  settle(told);
}

/* A lock. If it waits, the reply says for which node and mode. */
static bs_reply lock_node(const bs_command *c, bs_notices *told) {
  bs_command one = *c;
  bool for_an_instant = is_instant(c);
  bs_reply reply;
  one.mode = plain(c->mode);
  reply = command(&one, told);
  if (reply.status == BS_WAITING) {
    reply.node = c->node;
    reply.mode = one.mode;
    register_wait(c, reply, for_an_instant);
  }
  release_after(c, for_an_instant, reply, told);
  return reply;
}

/* The locks of a path, up to one that waits or that told others. If it waits, the reply says for which node and mode.
 * */
static bs_reply lock_path_in_part(const bs_command *c, bs_notices *told) {
  bs_command path = *c;
  bool for_an_instant = is_instant(c);
  bs_reply reply;
  path.mode = plain(c->mode);
  reply = command(&path, told);
  if (reply.status == BS_WAITING) {
    reply.mode = naive_wait_of(&n, c->txn)->mode;
    register_wait(c, reply, for_an_instant);
  }
  release_after(c, for_an_instant, reply, told);
  return reply;
}

static bs_reply lock_path(const bs_command *c, bs_notices *told) {
  bs_reply reply;
  do reply = lock_path_in_part(c, told);
  while (reply.status == BS_ON_THE_WAY);
  return reply;
}

/* A row. If it waits, the reply says for which node and mode. */
static bs_reply lock_row(const bs_command *c, bs_notices *told) {
  bs_reply reply = command(c, told);
  if (reply.status == BS_WAITING) {
    reply.mode = c->mode;
    register_wait(c, reply, false);
  }
  settle(told);
  return reply;
}

/* A row whose wait was granted so is requested again. */
static bs_reply lock_row_again(const bs_command *c, bs_node node, bs_reply granted) {
  granted.node = node;
  if (lock_row(c, NULL).status != BS_DONE) granted.status = BS_OTHER_KEYS;
  return granted;
}

/* What became of a wait. The table alone knows of a lock for an instant that was granted. */
static bs_reply verdict_of(bs_txn txn, bs_node node, bs_mode mode) {
  bs_reply reply = naive_verdict(&n, txn, node, mode);
  const instant *own;
  if (reply.status != BS_NOT_WAITING) return reply;
  own = &instants[txn.slot];
  if (!own->was_granted || !same_txn(own->txn, txn) || !same_node(own->node, node)) return reply;
  reply = only(BS_DONE);
  reply.mode = own->mode;
  return reply;
}

/* ------------------------------------------------------------------------------------------------
 * Asks.
 */

/* The earlier of two times, of which either may be none. */
static moment earlier(moment one, moment other) {
  if (one == NO_TIME || other == NO_TIME) return one + other;
  return one < other ? one : other;
}

/* Registers an ask that is left waiting for this. */
static void register_ask(const call *c, bs_node at, bs_mode wanted, requester *by) {
  bs_txn txn = c->list[0].c.txn;
  const deadline *last = &deadlines[txn.slot];
  ask *own = &asks[txn.slot];
  own->asked = c->list[0];
  own->limit = c->limit;
  own->time = earlier(own->limit, last->age == txn.age ? last->time : NO_TIME);
  own->word = words;
  own->by = by;
  own->waits = true;
  own->is_instant = own->holds = false;
  own->at = at;
  own->wanted = wanted;
}

/* Rules 4 and 5: the call of the ask answers the end, or the end is to be told. */
static void end_ask(ask *own, bs_reply reply, uint64_t by) {
  own->waits = false;
  if (own->by != NULL) {
    own->by->has_ended = true;
    own->by->end = reply;
    return;
  }
  must(end_count < MOST_ENDS ? NULL : "the model has too many ends to tell", own->asked.c.txn);
  ends[end_count].txn = own->asked.c.txn;
  ends[end_count].reply = reply;
  ends[end_count].word = own->word;
  ends[end_count].command = by;
  ends[end_count++].depth = depth + 1;
}

/* An ask holds this node, and goes on with the next command. */
static void hold(ask *own, bs_node at, bs_mode mode) {
  own->holds = true;
  own->at = at;
  own->wanted = mode;
}

/* A path requests its next locks. */
static void go_down(ask *own, const bs_command *c, bs_notices *told) {
  bs_command path = *c;
  bs_reply reply;
  path.mode = plain(c->mode);
  reply = command(&path, told);
  if (reply.status == BS_WAITING) {
    own->at = reply.node;
    own->wanted = naive_wait_of(&n, c->txn)->mode;
  } else if (reply.status == BS_ON_THE_WAY) {
    hold(own, reply.node, BS_NL);
  } else if (reply.status == BS_DONE && own->is_instant) {
    hold(own, c->node, reply.mode);
  } else {
    end_ask(own, reply, commands);
  }
}

/* What became of the wait of an ask: with the node, if it was not granted. */
static bs_reply became(ask *own, bs_txn txn) {
  bs_reply reply = own->holds ? only(BS_DONE) : naive_verdict(&n, txn, own->at, own->wanted);
  if (own->holds) reply.mode = own->wanted;
  own->holds = false;
  if (reply.status == BS_VICTIM || reply.status == BS_MOVED || reply.status == BS_GONE) reply.node = own->at;
  return reply;
}

/* Rule 2, of one ask. */
static void continue_ask(ask *own, bs_notices *told) {
  bs_command c = command_of(&own->asked);
  uint64_t by = ended_by[c.txn.slot];
  bs_reply reply = became(own, c.txn);
  bool is_on_the_way = reply.status == BS_MOVED || (reply.status == BS_DONE && !same_node(own->at, c.node));
  if (c.kind == BS_DO_LOCK_PATH && is_on_the_way) {
    go_down(own, &c, told);
    return;
  }
  if (c.kind == BS_DO_LOCK_ROW && reply.status == BS_DONE) {
    reply.node = own->at;
    if (command(&c, told).status != BS_DONE) reply.status = BS_OTHER_KEYS;
  } else if (own->is_instant && reply.status == BS_DONE) {
    release(c.txn, c.node, told);
  }
  end_ask(own, reply, by);
}

/* Rule 2, of one slot; whether it had a waiter that goes on. */
static bool goes_on(uint32_t slot, bs_notices *told) {
  ask *own = &asks[slot];
  if (own->waits && (own->holds || naive_wait_of(&n, own->asked.c.txn) == NULL)) {
    continue_ask(own, told);
    return true;
  }
  if (!instants[slot].waits || naive_wait_of(&n, instants[slot].txn) != NULL) return false;
  end_instant(&instants[slot], told);
  return true;
}

/* Rule 2. */
static void settle(bs_notices *told) {
  uint32_t slot = 0;
  while (slot < n.limits.transactions) {
    if (goes_on(slot++, told)) slot = 0;
  }
}

/* ------------------------------------------------------------------------------------------------
 * Tries.
 */

static bs_reply try_node(const bs_command *c) {
  bs_command one = *c;
  bool for_an_instant = is_instant(c);
  bs_reply reply;
  one.mode = plain(c->mode);
  reply = command(&one, NULL);
  if (for_an_instant && reply.status == BS_DONE) release(c->txn, c->node, NULL);
  settle(NULL);
  return reply;
}

/* Tries the first lock of a path that no missing parent refuses; `next` says which that is. */
static bs_reply try_first_of_path(const bs_command *c, bs_command *next) {
  bs_reply reply;
  *next = bs_do_at(BS_DO_TRY, c->txn, c->node, c->mode);
  reply = command(next, NULL);
  while (reply.status == BS_NEED_PARENTS) {
    bool writes = c->mode == BS_IX || c->mode == BS_SIX || c->mode == BS_X;
    *next = bs_do_at(BS_DO_TRY, c->txn, reply.node, writes ? BS_IX : BS_IS);
    reply = command(next, NULL);
  }
  return reply;
}

/* A path whose locks are tried. If it is not done, it keeps what it acquired anew, or releases that, the last first. */
static bs_reply try_path(const bs_command *c) {
  static naive before;
  bs_node taken[MOST_NODES];
  size_t count = 0;
  bs_command next;
  bs_reply reply;
  if (c->keep > BS_KEEP_WAY) return only(BS_BAD_NUMBER);
  for (;;) {
    before = n;
    reply = try_first_of_path(c, &next);
    if (reply.status != BS_DONE) break;
    if (same_node(next.node, c->node)) return reply;
    if (naive_held(&before, c->txn.slot, next.node.birth) == BS_NL) taken[count++] = next.node;
  }
  while (c->keep == BS_KEEP_NOTHING && count > 0) release(c->txn, taken[--count], NULL);
  if (reply.status == BS_WOULD_BLOCK) reply.node = next.node;
  return reply;
}

/* A row that is tried: it is locked if that is granted at once, which tells nobody, and else nothing has changed. */
static bs_reply try_row(const bs_command *c) {
  static naive before;
  bs_command row = *c;
  bs_reply reply;
  before = n;
  row.kind = BS_DO_LOCK_ROW;
  reply = naive_make(&n, &row);
  if ((reply.status == BS_DONE || reply.status == BS_OTHER_KEYS) && n.told.count == 0) return reply;
  n = before;
  if (reply.status != BS_DONE && reply.status != BS_OTHER_KEYS && reply.status != BS_WAITING &&
      reply.status != BS_VICTIM) {
    return reply;
  }
  reply.status = BS_WOULD_BLOCK;
  reply.mode = BS_NL;
  return reply;
}

/* ------------------------------------------------------------------------------------------------
 * Calls.
 */

/* Makes a command of any kind, after which others go on. */
static bs_reply make_command(const bs_command *c, bs_notices *told) {
  bs_reply reply;
  switch (c->kind) {
    case BS_DO_LOCK: return lock_node(c, told);
    case BS_DO_LOCK_PATH: return lock_path(c, told);
    case BS_DO_LOCK_ROW: return lock_row(c, told);
    case BS_DO_TRY: return try_node(c);
    case BS_DO_TRY_PATH: reply = try_path(c); break;
    case BS_DO_TRY_ROW: reply = try_row(c); break;
    default: reply = command(c, told); break;
  }
  settle(told);
  return reply;
}

/* The outcome for a command of a list that waited for a node, and whose wait has ended so. A victim has that node. */
static bs_reply continue_command(const bs_command *c, bs_node at, bs_notices *told, bs_reply ended) {
  bool is_on_the_way = ended.status == BS_MOVED || (ended.status == BS_DONE && !same_node(at, c->node));
  if (c->kind == BS_DO_LOCK_ROW && ended.status == BS_DONE) return lock_row_again(c, at, ended);
  if (ended.status == BS_VICTIM) ended.node = at;
  return c->kind == BS_DO_LOCK_PATH && is_on_the_way ? lock_path(c, told) : ended;
}

/* Takes the notice of a transaction off a told list: its command answers what that says. */
static void tell_all_but(bs_notices *told, uint32_t slot) {
  size_t i, kept = 0;
  for (i = 0; i < told->count; i++) {
    if (told->at[i].txn.slot != slot) told->at[kept++] = told->at[i];
  }
  told->count = kept;
}

/* Makes a command of a list: rule 4. */
static bs_reply run_next(const bs_command *c, bs_notices *told) {
  bs_reply reply = make_command(c, told);
  while (reply.status == BS_WAITING) {
    bs_reply ended = verdict_of(c->txn, reply.node, reply.mode);
    if (ended.status == BS_WAITING) break;
    reply = continue_command(c, reply.node, told, ended);
    tell_all_but(told, c->txn.slot);
  }
  return reply;
}

static void run_list(const call *c, outcome *wants) {
  bs_txn begun = bs_begun();
  for (; wants->count < c->count; wants->count++) {
    bs_command next = command_of(&c->list[wants->count]);
    bs_reply *reply = &wants->replies[wants->count];
    if (same_txn(next.txn, bs_begun())) next.txn = begun;
    *reply = run_next(&next, &wants->told[wants->count]);
    if (reply->status != BS_DONE) return;
    if (next.kind == BS_DO_BEGIN || next.kind == BS_DO_BEGIN_AGAIN) begun = reply->txn;
  }
}

static bool is_try(uint32_t kind) {
  return kind == BS_DO_TRY || kind == BS_DO_TRY_PATH || kind == BS_DO_TRY_ROW;
}

/* Whether a try that was answered so is passed over. */
static bool is_passed(bs_status status) {
  return status == BS_WOULD_BLOCK || status == BS_NEED_PARENTS || status == BS_NO_SUCH_NODE;
}

static void try_first(const call *c, outcome *wants) {
  for (; wants->count < c->count; wants->count++) {
    bs_command next = command_of(&c->list[wants->count]);
    bs_reply *reply = &wants->replies[wants->count];
    *reply = is_try(next.kind) ? make_command(&next, NULL) : only(BS_BAD_NUMBER);
    if (!is_passed(reply->status)) return;
  }
}

/* What an ask answers that is left waiting: a path and a row say for which node. */
static bs_reply waiting_reply(const bs_command *c) {
  bs_reply reply = only(BS_WAITING);
  if (c->kind != BS_DO_LOCK) reply.node = asks[c->txn.slot].at;
  return reply;
}

static bs_reply model_ask(const call *c, requester *by) {
  bs_command asked = command_of(&c->list[0]);
  bs_reply reply;
  requested = c;
  requested_by = by;
  reply = make_command(&asked, NULL);
  requested = NULL;
  if (by->has_ended) return by->end;
  return reply.status == BS_WAITING ? waiting_reply(&asked) : reply;
}

static bs_reply model_await(const call *c, requester *by) {
  const bs_command *asked = &c->list[0].c;
  bs_reply reply = verdict_of(asked->txn, asked->node, asked->mode);
  if (reply.status != BS_WAITING) return reply;
  if (asks[asked->txn.slot].waits) return only(BS_IN_USE);
  register_ask(c, asked->node, asked->mode, by);
  asks[asked->txn.slot].is_instant = instants[asked->txn.slot].waits;
  instants[asked->txn.slot].waits = false;
  return reply;
}

/* Cancels the wait of the ask of the lowest slot whose time is over; whether there is one. */
static bool cancel_late_wait(void) {
  uint32_t slot;
  for (slot = 0; slot < n.limits.transactions; slot++) {
    ask *own = &asks[slot];
    bs_command cancel = bs_do(BS_DO_CANCEL, own->asked.c.txn);
    bs_reply end = only(BS_TIMED_OUT);
    if (!own->waits || own->time < FIRST_PAST || own->time >= FIRST_FAR) continue;
    end.node = own->at;
    command(&cancel, NULL);
    end_ask(own, end, ++commands);
    settle(NULL);
    return true;
  }
  return false;
}

/* Rule 6. */
static bs_reply model_expire(outcome *wants) {
  bs_reply reply = only(BS_DONE);
  uint32_t slot;
  while (cancel_late_wait()) continue;
  for (slot = 0; slot < n.limits.transactions; slot++) {
    if (!asks[slot].waits || asks[slot].time == NO_TIME) continue;
    wants->next = earlier(wants->next, asks[slot].time);
    reply.count++;
  }
  return reply;
}

static bs_reply model_deadline(const call *c) {
  bs_txn txn = c->list[0].c.txn;
  if (naive_txn_of(&n, txn) == NULL) return only(BS_NO_SUCH_TXN);
  deadlines[txn.slot].age = c->limit == NO_TIME ? 0 : txn.age;
  deadlines[txn.slot].time = c->limit;
  return only(BS_DONE);
}

/* Makes a call that the table does not refuse. */
static void model_open_call(const call *c, outcome *wants, requester *by) {
  bs_command first = command_of(&c->list[0]);
  bs_reply *reply = &wants->replies[0];
  switch (c->kind) {
    case COMMAND: *reply = make_command(&first, &wants->told[0]); break;
    case ASK: *reply = model_ask(c, by); break;
    case AWAIT: *reply = model_await(c, by); break;
    case EXPIRE: *reply = model_expire(wants); break;
    case MARK: *reply = naive_mark(&n, first.txn); break;
    case DEADLINE: *reply = model_deadline(c); break;
    case RUN: run_list(c, wants); break;
    default: try_first(c, wants);
  }
}

/* Makes a call in the model. */
static void model_call(const call *c, outcome *wants, requester *by) {
  size_t i;
  for (i = 0; i < LIST; i++) wants->replies[i] = only(BS_NOT_MADE);
  if (c->kind == SLEEP || c->is_held) wants->replies[0] = only(BS_IN_USE);
  else if (is_over) wants->replies[0] = only(BS_NO_MANAGER);
  else if (c->no_time != NULL) wants->replies[0] = only(BS_BAD_NUMBER);
  else model_open_call(c, wants, by);
}

/* The table ends, and so does each ask that waits. */
static void model_end(void) {
  uint32_t slot;
  is_over = true;
  commands++;
  for (slot = 0; slot < n.limits.transactions; slot++) {
    if (asks[slot].waits) end_ask(&asks[slot], only(BS_NO_MANAGER), commands);
  }
}

/* What the outermost ask answers that its critical section left waiting so, after all ends were told. */
static bs_reply outermost_answer(const call *c, bs_reply answer, const requester *by) {
  ask *own = &asks[c->list[0].c.txn.slot];
  if (by->has_ended) return by->end;
  own->by = NULL;
  if (c->list[0].c.kind == BS_DO_LOCK_PATH) answer.node = own->at;
  return answer;
}

/* The place of an end that is to be told; their count if there is none. */
static size_t place_of_end(bs_txn txn, uintptr_t word) {
  size_t place = 0;
  while (place < end_count && !(same_txn(ends[place].txn, txn) && ends[place].word == word)) place++;
  return place;
}

static end take_end(size_t place) {
  end told = ends[place];
  end_count--;
  memmove(&ends[place], &ends[place + 1], (end_count - place) * sizeof ends[0]);
  return told;
}

/* Rule 5: of the ends that one command caused, the lowest slot is told first. */
static const char *told_in_order(const end *told) {
  size_t i;
  for (i = 0; i < end_count; i++) {
    if (ends[i].command == told->command && ends[i].txn.slot < told->txn.slot) {
      return say("slot %u is told before slot %u", told->txn.slot, ends[i].txn.slot);
    }
  }
  return NULL;
}

#endif
