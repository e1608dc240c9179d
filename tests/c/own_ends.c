/*
 * Stories of a call whose own wait ends within it: by a lock for an instant of another transaction that is released, by
 * a path that continues, or by what the callback does for another's end. The call answers that end, and has no call of
 * the callback. Each story is a function that ends the program with status 1 at the first wrong answer, and else prints
 * its name.
 *
 *   own_ends [SECONDS]   the time that a story may take before it is said to hang, 20 if none is given
 *
 * It is linked with the calls for memory of memory.h.
 */
#include "burlapslate.h"
#include "memory.h"

#include "burlapslate_shared.c"

#include "waiters.h"

#include <sched.h>

/* ------------------------------------------------------------------------------------------------
 * The calls that may wait.
 */

/* A call of the caller: what it locks, in which mode, and whether it sleeps or asks. */
struct way {
  enum sleep_call by;
  bs_mode mode;
  bool asks;
};

static const struct way ways[] = {
  { BY_LOCK, BS_X, false }, { BY_LOCK, BS_X | BS_INSTANT, false }, { BY_PATH, BS_X, false },
  { BY_PATH, BS_X | BS_INSTANT, false }, { BY_ROW, BS_X, false },
  { BY_LOCK, BS_X, true }, { BY_LOCK, BS_X | BS_INSTANT, true }, { BY_PATH, BS_X, true },
  { BY_PATH, BS_X | BS_INSTANT, true }, { BY_ROW, BS_X, true },
};

enum { WAYS = sizeof ways / sizeof *ways };

static bs_txn caller;
static struct heard own;
static uint64_t own_key; /* by which the caller asks for the row */

static bool is_instant(const struct way *way) {
  return (way->mode & BS_INSTANT) != 0;
}

/* The caller makes its call for a node, or for the row. */
static bs_reply make(const struct way *way, bs_node node, const struct timespec *until) {
  struct sleeper s;
  if (!way->asks) {
    s = sleeper_of(way->by, caller, node, way->mode);
    s.key = own_key;
    s.until = until;
    return sleep_by(&s);
  }
  switch (way->by) {
    case BY_LOCK: return ask_until(&own, caller, node, way->mode, until);
    case BY_PATH: return ask_path_until(&own, caller, node, way->mode, until);
    default: return ask_row_until(&own, caller, own_key, way->mode, until);
  }
}

/* The same as a command of a list. */
static bs_command command_of(const struct way *way, bs_node node) {
  bs_command command = bs_do_at(BS_DO_LOCK, caller, node, way->mode);
  if (way->by == BY_PATH) command.kind = BS_DO_LOCK_PATH;
  if (way->by != BY_ROW) return command;
  command.kind = BS_DO_LOCK_ROW;
  command.file = rows;
  command.number = ROW;
  command.keys = &own_key;
  command.key_count = 1;
  return command;
}

/* The caller's wait is over, and nobody was called for it. */
static void has_no_wait_and_no_call(void) {
  WANT(wait_in(table, caller).status == BS_NOT_WAITING);
  WANT(own.calls == 0);
}

/* ------------------------------------------------------------------------------------------------
 * What the callback does for another's end.
 */

static bs_txn holder, loser;
static struct heard holders, losers;
static bs_node callers_node, losers_node;
static uint64_t mark; /* of the holder, from before it held the record and the row */
static void (*act)(void);

/* The loser was chosen as victim by the caller's call. It ends, the holder has what it waited for, and does this. */
static void loses(struct heard *h) {
  WANT(h->end.status == BS_VICTIM);
  DONE(bs_table_abort(table, loser, NULL));
  WANT(doing_of(holder) == BS_ACTIVE);
  act();
}

/* The holder has the record and the row in X, and waits for the loser, which waits for the caller. So a call of the
 * caller for the record, or for the row, closes a cycle, and the loser is its youngest. The caller may write in the
 * lower intervals, and in the upper ones too if it is wide. */
static void set_up_cycle(void (*does)(void), bool is_wide) {
  set_up(BS_AT_BLOCK);
  memset(&own, 0, sizeof own);
  own_key = LOW_KEY;
  act = does;
  callers_node = add_root(), losers_node = add_root();
  holder = begin_writer(), caller = begin(), loser = begin();
  intend(caller, file, below, is_wide ? above : below);
  intend(caller, rows, rows_below, is_wide ? rows_above : rows_below);
  DONE(bs_table_lock(table, caller, callers_node, BS_X, NULL));
  DONE(bs_table_lock(table, loser, losers_node, BS_X, NULL));
  mark = DONE(bs_table_mark(table, holder)).count;
  DONE(bs_table_lock(table, holder, low, BS_X, NULL));
  DONE(lock_row(holder, LOW_KEY, BS_X, NULL));
  WAITS(ask(&holders, holder, losers_node, BS_X));
  WAITS(ask(&losers, loser, callers_node, BS_X));
  losers.does = loses;
}

static void commits(void) {
  DONE(bs_table_commit(table, holder, NULL));
}

static void aborts(void) {
  DONE(bs_table_abort(table, holder, NULL));
}

static void unlocks(void) {
  DONE(bs_table_unlock(table, holder, low, NULL));
  DONE(bs_table_unlock_row(table, holder, rows, ROW, NULL));
}

static void releases(void) {
  DONE(bs_table_release_since(table, holder, mark, NULL));
}

static void runs_a_commit(void) {
  bs_command command = bs_do(BS_DO_COMMIT, holder);
  WANT(bs_table_run(table, &command, 1) == 1);
}

static void cancels(void) {
  DONE(bs_table_cancel(table, caller, NULL));
}

static void runs_a_cancel(void) {
  bs_command command = bs_do(BS_DO_CANCEL, caller);
  WANT(bs_table_run(table, &command, 1) == 1);
}

static void aborts_the_caller(void) {
  DONE(bs_table_abort(table, caller, NULL));
}

static void rekeys(void) {
  DONE(bs_table_rekey(table, holder, low, by_key, HIGH_KEY, NULL));
  DONE(bs_table_rekey_row(table, holder, rows, ROW, by_row_key, HIGH_KEY, NULL));
}

static void rekeys_and_commits(void) {
  rekeys();
  commits();
}

static void deletes(void) {
  DONE(bs_table_delete(table, holder, low, NULL));
}

/* The holder closes a cycle with the caller, which is younger. */
static void condemns(void) {
  static struct heard again;
  WAITS(ask(&again, holder, callers_node, BS_S));
}

static void expires(void) {
  WANT(DONE(bs_table_expire(table, NULL)).count == 0);
}

/* The caller is answered so, and all others whose waits ended were told. */
static bs_reply is_answered(const struct way *way, bs_status status, const struct timespec *until) {
  bs_reply reply = ANSWERS(status, make(way, low, until));
  has_no_wait_and_no_call();
  WANT(calls == 2);
  HEARD_BY_NOW(&losers, BS_VICTIM);
  HEARD_BY_NOW(&holders, BS_DONE);
  return reply;
}

/* The callback grants what the caller waits for, whether or not the time of the call is over by then. */
static void is_granted(const struct way *way, void (*does)(void), const struct timespec *until) {
  bs_node row;
  bs_reply reply;
  set_up_cycle(does, false);
  row = ASK(table, bs_row_node, rows, ROW).node;
  reply = is_answered(way, BS_DONE, until);
  WANT(reply.mode == BS_X && (way->by != BY_ROW || same_node(reply.node, row)));
  holds(caller, way->by == BY_ROW ? row : low, is_instant(way) ? BS_NL : BS_X);
  close_table();
}

static void a_function_grants_the_caller(void) {
  static void (*const acts[])(void) = { commits, aborts, unlocks, releases, runs_a_commit };
  struct timespec past = moment_in(0);
  size_t i, w;
  for (i = 0; i < sizeof acts / sizeof *acts; i++) {
    for (w = 0; w < WAYS; w++) is_granted(&ways[w], acts[i], w % 2 == 0 ? NULL : &past);
  }
}

/* The callback ends the wait in another way. The caller is active then, unless it was chosen as victim. */
static void is_ended(const struct way *way, void (*does)(void), bs_status status) {
  set_up_cycle(does, false);
  is_answered(way, status, NULL);
  if (status == BS_NO_SUCH_TXN) ANSWERS(BS_NO_SUCH_TXN, ASK(table, bs_doing, caller));
  else WANT(doing_of(caller) == (status == BS_VICTIM ? BS_CONDEMNED : BS_ACTIVE));
  close_table();
}

static void a_function_ends_the_callers_wait(void) {
  size_t w;
  for (w = 0; w < WAYS; w++) {
    is_ended(&ways[w], cancels, BS_NOT_WAITING);
    is_ended(&ways[w], runs_a_cancel, BS_NOT_WAITING);
    is_ended(&ways[w], aborts_the_caller, BS_NO_SUCH_TXN);
    is_ended(&ways[w], condemns, BS_VICTIM);
    if (ways[w].by != BY_PATH) is_ended(&ways[w], rekeys, BS_MOVED);
    if (ways[w].by != BY_ROW) is_ended(&ways[w], deletes, BS_GONE);
  }
}

/* The record and the row move. A path begins again; a wait that still meets the rule of the graph continues: then the
 * row is requested again, by other keys. */
static void is_granted_elsewhere(const struct way *way) {
  bool is_row = way->by == BY_ROW;
  bs_node row;
  set_up_cycle(rekeys_and_commits, way->by != BY_PATH);
  row = ASK(table, bs_row_node, rows, ROW).node;
  is_answered(way, is_row ? BS_OTHER_KEYS : BS_DONE, NULL);
  holds(caller, is_row ? row : low, is_instant(way) ? BS_NL : BS_X);
  holds(caller, above, BS_IX);
  close_table();
}

static void a_function_moves_what_the_caller_waits_for(void) {
  size_t w;
  for (w = 0; w < WAYS; w++) is_granted_elsewhere(&ways[w]);
}

/* The time of the caller's ask is over, and the callback makes the call that ends such waits. */
static void a_function_expires_the_callers_ask(void) {
  struct timespec past = moment_in(0);
  size_t w;
  for (w = 0; w < WAYS; w++) {
    if (!ways[w].asks) continue;
    set_up_cycle(expires, false);
    is_answered(&ways[w], BS_TIMED_OUT, &past);
    WANT(doing_of(caller) == BS_ACTIVE);
    close_table();
    set_up_cycle(expires, false);
    DONE(bs_table_deadline(table, caller, &past));
    is_answered(&ways[w], BS_TIMED_OUT, NULL);
    close_table();
  }
}

/* The callback does nothing to the caller's wait: that continues, and its end is told later. */
static void a_function_leaves_the_caller_waiting(void) {
  static void (*const acts[])(void) = { commits, deletes };
  size_t w, i;
  for (w = 0; w < WAYS; w++) {
    for (i = 0; ways[w].asks && i < 2; i++) {
      if (ways[w].by == BY_ROW && acts[i] == deletes) continue;
      set_up_cycle(expires, false);
      WAITS(make(&ways[w], low, NULL));
      WANT(calls == 2 && own.calls == 0);
      acts[i]();
      HEARD_BY_NOW(&own, acts[i] == commits ? BS_DONE : BS_GONE);
      WANT(calls == 3);
      close_table();
    }
  }
}

/* ------------------------------------------------------------------------------------------------
 * Lists: the callbacks run after all of the list, so an await hears at once what they end.
 */

/* The list leaves the caller waiting, the callback ends that wait, and an await answers it, whether it could sleep or
 * asks. */
static void is_awaited(const struct way *way, void (*does)(void), bs_status status, bool asks) {
  bs_command list[2];
  bs_reply reply;
  set_up_cycle(does, false);
  list[0] = command_of(way, low), list[1] = bs_do_at(BS_DO_LOCK, caller, add_root(), BS_X);
  WANT(bs_table_run(table, list, 2) == 0);
  ANSWERS(BS_WAITING, list[0].reply), ANSWERS(BS_NOT_MADE, list[1].reply);
  WANT(calls == 2 && list[0].reply.mode == BS_X);
  if (asks) reply = ask_await_until(&own, caller, list[0].reply.node, BS_X, NULL);
  else reply = bs_table_await(table, caller, list[0].reply.node, BS_X, NULL);
  ANSWERS(status, reply);
  has_no_wait_and_no_call();
  WANT(calls == 2);
  if (status == BS_DONE) WANT(reply.mode == BS_X && bs_table_run(table, list, 2) == 2);
  close_table();
}

static void an_await_answers_what_a_function_ended(void) {
  size_t w;
  for (w = 0; w < WAYS; w++) {
    const struct way *way = &ways[w];
    is_awaited(way, commits, BS_DONE, way->asks);
    is_awaited(way, cancels, BS_NOT_WAITING, way->asks);
    is_awaited(way, aborts_the_caller, BS_NO_SUCH_TXN, way->asks);
    is_awaited(way, condemns, BS_VICTIM, way->asks);
    is_awaited(way, rekeys, BS_MOVED, way->asks);
    if (way->by != BY_ROW) is_awaited(way, deletes, BS_GONE, way->asks);
  }
}

/* ------------------------------------------------------------------------------------------------
 * A lock for an instant that another releases.
 */

static bs_node n, n2, child; /* the child is under both */
static bs_txn passer;
static struct heard passers;
static struct sleeper sleeping[3];

static void add_places(void) {
  bs_node parents[2];
  callers_node = add_root(), n = add_root(), n2 = add_root();
  parents[0] = n, parents[1] = n2;
  child = DONE(bs_table_add_inner(table, parents, 2)).node;
}

/* They wait by asks, or in threads. */
static void has_wait(struct sleeper *s, struct heard *h, bs_txn txn, bs_node node, bs_mode mode, bool sleeps) {
  if (sleeps) send(s, BY_LOCK, txn, node, mode);
  else WAITS(ask(h, txn, node, mode));
}

/* The holder has n in IS and waits for the caller. In the queue of n the loser wants X, and the passer after it a mode
 * for an instant, which is compatible with IS. A call of the caller that joins the queue closes a cycle; the loser is
 * its youngest, so the passer is granted, and releases what kept the caller waiting. */
static void set_up_passer(bs_mode passing, bool sleeps) {
  set_up(BS_AT_BLOCK);
  memset(&own, 0, sizeof own);
  own_key = LOW_KEY;
  add_places();
  caller = begin(), passer = begin(), holder = begin(), loser = begin();
  DONE(bs_table_lock(table, caller, callers_node, BS_X, NULL));
  DONE(bs_table_lock(table, holder, n, BS_IS, NULL));
  has_wait(&sleeping[0], &holders, holder, callers_node, BS_X, sleeps);
  has_wait(&sleeping[1], &losers, loser, n, BS_X, sleeps);
  has_wait(&sleeping[2], &passers, passer, n, passing | BS_INSTANT, sleeps);
}

/* The loser and the passer have had their ends, and the holder waits on. */
static void others_have_ended(bool sleeps) {
  if (sleeps) {
    BACK(&sleeping[1], BS_VICTIM);
    BACK(&sleeping[2], BS_DONE);
  } else {
    WANT(calls == 2);
    HEARD_BY_NOW(&losers, BS_VICTIM);
    HEARD_BY_NOW(&passers, BS_DONE);
  }
  WANT(waits_for(holder, callers_node));
  holds(passer, n, BS_NL);
}

static void close_passer(bool sleeps) {
  DONE(bs_table_end(table));
  if (sleeps) BACK(&sleeping[0], BS_NO_MANAGER);
  DONE(bs_table_free(&table));
}

/* What the caller asks for while the passer is in the queue: n itself, or the child with an intention on n. */
struct passing {
  bs_mode passing;
  enum sleep_call by;
  bool is_child;
  bs_mode mode;
};

static const struct passing passings[] = {
  { BS_IX, BY_LOCK, false, BS_S }, { BS_IX, BY_LOCK, false, BS_S | BS_INSTANT }, { BS_S, BY_LOCK, false, BS_IX },
  { BS_IX, BY_PATH, false, BS_S }, { BS_IX, BY_PATH, false, BS_S | BS_INSTANT },
  { BS_SIX, BY_PATH, true, BS_X }, { BS_S, BY_PATH, true, BS_X | BS_INSTANT }, { BS_S, BY_PATH, true, BS_SIX },
};

enum { PASSINGS = sizeof passings / sizeof *passings };

/* What the caller holds after its call for that. */
static void has_passed(const struct passing *p) {
  bs_mode mode = p->mode & ~(bs_mode)BS_INSTANT;
  holds(caller, p->is_child ? child : n, (p->mode & BS_INSTANT) != 0 ? BS_NL : mode);
  if (p->is_child) holds(caller, n, BS_IX);
}

static bs_mode mode_of(const struct way *way) {
  return way->mode & ~(bs_mode)BS_INSTANT;
}

/* The call is answered with the grant, whatever its time. */
static void passes(const struct passing *p, bool asks, bool sleeps, const struct timespec *until) {
  struct way way;
  way.by = p->by, way.mode = p->mode, way.asks = asks;
  set_up_passer(p->passing, sleeps);
  WANT(DONE(make(&way, p->is_child ? child : n, until)).mode == mode_of(&way));
  has_no_wait_and_no_call();
  has_passed(p);
  others_have_ended(sleeps);
  close_passer(sleeps);
}

static void an_instant_given_back_grants_the_caller(void) {
  struct timespec past = moment_in(0);
  size_t i;
  int kind;
  for (i = 0; i < PASSINGS; i++) {
    for (kind = 0; kind < 8; kind++) passes(&passings[i], kind & 1, kind & 2, (kind & 4) != 0 ? &past : NULL);
  }
}

/* Two calls are answered alike, in all fields. */
static bool same_reply(bs_reply a, bs_reply b) {
  return a.status == b.status && a.mode == b.mode && same_node(a.node, b.node) && same_txn(a.txn, b.txn) &&
         a.released == b.released && a.kept == b.kept && a.count == b.count && a.wanted == b.wanted;
}

/* What the call is answered if nobody is in its way. */
static bs_reply answer_of(const struct passing *p, bool asks, bool is_listed) {
  struct way way;
  bs_reply reply;
  bs_command command;
  way.by = p->by, way.mode = p->mode, way.asks = asks;
  set_up_passer(p->passing, false);
  DONE(bs_table_abort(table, passer, NULL));
  DONE(bs_table_abort(table, loser, NULL));
  command = command_of(&way, p->is_child ? child : n);
  if (is_listed) WANT(bs_table_run(table, &command, 1) == 1), reply = command.reply;
  else reply = make(&way, p->is_child ? child : n, NULL);
  close_table();
  return DONE(reply);
}

/* The call is answered as one that is granted at once, in all fields of the reply. */
static void a_grant_within_the_call_is_answered_as_any(void) {
  size_t i;
  int kind;
  for (i = 0; i < PASSINGS; i++) {
    const struct passing *p = &passings[i];
    for (kind = 0; kind < 3; kind++) {
      bs_reply at_once = answer_of(p, kind == 1, kind == 2), reply;
      struct way way;
      bs_command command;
      way.by = p->by, way.mode = p->mode, way.asks = kind == 1;
      set_up_passer(p->passing, false);
      command = command_of(&way, p->is_child ? child : n);
      if (kind == 2) WANT(bs_table_run(table, &command, 1) == 1), reply = command.reply;
      else reply = make(&way, p->is_child ? child : n, NULL);
      WANT(same_reply(reply, at_once));
      close_table();
    }
  }
}

/* The callback for the loser runs after the caller's wait has ended: what it does then does not change the answer. */
static void ends_the_caller(struct heard *h) {
  if (h->end.status == BS_VICTIM) DONE(bs_table_abort(table, caller, NULL));
}

static void a_function_comes_after_the_callers_end(void) {
  size_t i;
  int asks;
  for (i = 0; i < PASSINGS; i++) {
    for (asks = 0; asks < 2; asks++) {
      struct way way;
      way.by = passings[i].by, way.mode = passings[i].mode, way.asks = asks;
      set_up_passer(passings[i].passing, false);
      losers.does = ends_the_caller;
      WANT(DONE(make(&way, passings[i].is_child ? child : n, NULL)).mode == mode_of(&way));
      HEARD_BY_NOW(&losers, BS_VICTIM);
      WANT(own.calls == 0);
      ANSWERS(BS_NO_SUCH_TXN, ASK(table, bs_doing, caller));
      close_table();
    }
  }
}

/* The end of the caller's lock is not told later, and its next wait is one like any other. */
static void what_was_granted_so_has_no_later_end(bool is_instant) {
  struct heard again;
  bs_node other;
  bs_txn keeper;
  set_up_passer(BS_IX, false);
  DONE(ask(&own, caller, n, is_instant ? BS_S | BS_INSTANT : BS_S));
  other = add_root(), keeper = begin();
  DONE(bs_table_lock(table, keeper, other, BS_X, NULL));
  WAITS(ask(&again, caller, other, BS_S));
  DONE(bs_table_abort(table, loser, NULL));
  DONE(bs_table_commit(table, passer, NULL));
  WANT(calls == 2 && waits_for(caller, other));
  DONE(bs_table_commit(table, keeper, NULL));
  HEARD_BY_NOW(&again, BS_DONE);
  holds(caller, n, is_instant ? BS_NL : BS_S);
  holds(caller, other, BS_S);
  WANT(own.calls == 0 && calls == 3);
  close_table();
}

static void a_lock_that_an_instant_granted_is_like_any(void) {
  what_was_granted_so_has_no_later_end(false);
  what_was_granted_so_has_no_later_end(true);
}

/* A list whose lock is granted so continues with its next command, if there is one. */
static void list_passes(const struct passing *p, bool sleeps, size_t count) {
  struct way way;
  bs_command list[3];
  way.by = p->by, way.mode = p->mode, way.asks = false;
  set_up_passer(p->passing, sleeps);
  list[0] = bs_do_at(BS_DO_LOCK, caller, add_root(), BS_X);
  list[1] = command_of(&way, p->is_child ? child : n);
  list[2] = bs_do_at(BS_DO_LOCK, caller, add_root(), BS_X);
  WANT(bs_table_run(table, list, count) == count);
  WANT(DONE(list[1].reply).mode == mode_of(&way));
  if (count == 3) WANT(DONE(list[2].reply).mode == BS_X);
  has_no_wait_and_no_call();
  has_passed(p);
  others_have_ended(sleeps);
  close_passer(sleeps);
}

static void a_list_continues_after_an_instant(void) {
  size_t i, count;
  for (i = 0; i < PASSINGS; i++) {
    for (count = 2; count <= 3; count++) {
      list_passes(&passings[i], false, count);
      list_passes(&passings[i], true, count);
    }
  }
}

/* The caller has its answer, so its list of notices has the loser and the passer alone. */
static void a_caller_is_not_told_of_itself(void) {
  size_t i;
  for (i = 0; i < PASSINGS; i++) {
    struct way way;
    bs_command command;
    way.by = passings[i].by, way.mode = passings[i].mode, way.asks = false;
    set_up_passer(passings[i].passing, false);
    command = command_of(&way, passings[i].is_child ? child : n);
    command.told = &told;
    WANT(bs_table_run(table, &command, 1) == 1);
    WANT(told.count == 2 && same_txn(told.at[0].txn, passer) && same_txn(told.at[1].txn, loser));
    WANT(told.at[0].kind == BS_TOLD_GRANTED && told.at[1].kind == BS_TOLD_VICTIM);
    close_table();
  }
}

/* A reader holds the child: the path that the passer has let by waits there, and ends there. */
static bs_txn set_up_keeper(void) {
  bs_txn keeper;
  set_up_passer(BS_S, false);
  keeper = begin();
  DONE(bs_table_lock(table, keeper, n2, BS_IS, NULL));
  DONE(bs_table_lock(table, keeper, child, BS_S, NULL));
  return keeper;
}

/* It is waited for still, with all that is above it. */
static void waits_for_the_child(void) {
  WANT(waits_for(caller, child));
  holds(caller, n, BS_IX), holds(caller, n2, BS_IX);
}

static void a_path_waits_after_it_was_let_by(bool is_cancelled) {
  bs_status status = is_cancelled ? BS_NOT_WAITING : BS_DONE;
  struct sleeper s;
  bs_command list[2];
  bs_txn keeper = set_up_keeper();
  send(&s, BY_PATH, caller, child, BS_X);
  while (!waits_for(caller, child)) nap();
  waits_for_the_child();
  DONE(is_cancelled ? bs_table_cancel(table, caller, NULL) : bs_table_commit(table, keeper, NULL));
  BACK(&s, status);
  HEARD(&losers, BS_VICTIM), HEARD(&passers, BS_DONE);
  WANT(pthread_equal(losers.by, s.thread) && pthread_equal(passers.by, s.thread));
  close_table();
  keeper = set_up_keeper();
  WANT(same_node(WAITS(ask_path(&own, caller, child, BS_X)).node, child));
  waits_for_the_child();
  DONE(is_cancelled ? bs_table_cancel(table, caller, NULL) : bs_table_commit(table, keeper, NULL));
  HEARD_BY_NOW(&own, status);
  close_table();
  keeper = set_up_keeper();
  list[0] = bs_do_at(BS_DO_LOCK_PATH, caller, child, BS_X), list[1] = bs_do_at(BS_DO_LOCK, caller, add_root(), BS_X);
  WANT(bs_table_run(table, list, 2) == 0 && list[0].reply.status == BS_WAITING);
  WANT(list[0].reply.mode == BS_X && same_node(list[0].reply.node, child));
  waits_for_the_child();
  DONE(is_cancelled ? bs_table_cancel(table, caller, NULL) : bs_table_commit(table, keeper, NULL));
  ANSWERS(status, bs_table_await(table, caller, child, BS_X, NULL));
  if (!is_cancelled) WANT(bs_table_run(table, list, 2) == 2);
  close_table();
}

static void a_path_continues_to_another_wait(void) {
  a_path_waits_after_it_was_let_by(false);
  a_path_waits_after_it_was_let_by(true);
}

/* A passer in the queue of each parent of the child: a path to the child is let by twice in its call. */
static void set_up_two_passers(struct heard *more) {
  bs_txn t[3];
  set_up_passer(BS_S, false);
  t[0] = begin(), t[2] = begin(), t[1] = begin();
  DONE(bs_table_lock(table, t[0], n2, BS_IS, NULL));
  WAITS(ask(&more[0], t[0], callers_node, BS_X));
  WAITS(ask(&more[1], t[1], n2, BS_X));
  WAITS(ask(&more[2], t[2], n2, BS_S | BS_INSTANT));
}

static void a_path_is_let_by_twice(void) {
  struct heard more[3];
  int kind;
  for (kind = 0; kind < 6; kind++) {
    struct way way;
    bs_command list[2];
    way.by = BY_PATH, way.mode = kind % 2 == 0 ? BS_X : BS_X | BS_INSTANT, way.asks = kind / 2 == 1;
    set_up_two_passers(more);
    list[0] = command_of(&way, child), list[1] = bs_do_at(BS_DO_LOCK, caller, add_root(), BS_X);
    list[0].told = &told;
    if (kind / 2 == 2) WANT(bs_table_run(table, list, 2) == 2 && told.count == 4);
    else DONE(make(&way, child, NULL));
    has_no_wait_and_no_call();
    holds(caller, n, BS_IX), holds(caller, n2, BS_IX), holds(caller, child, kind % 2 == 0 ? BS_X : BS_NL);
    WANT(calls == 4);
    HEARD_BY_NOW(&losers, BS_VICTIM), HEARD_BY_NOW(&more[1], BS_VICTIM);
    HEARD_BY_NOW(&passers, BS_DONE), HEARD_BY_NOW(&more[2], BS_DONE);
    close_table();
  }
}

/* ------------------------------------------------------------------------------------------------
 * A path that continues.
 */

static bs_txn goer, blocker, reader, second, keeper;
static struct heard goers, blockers, readers, seconds, keepers;
static bs_node start_node, side_node, goal, goers_node; /* the goal is under the first two */

/* A path to the goal waits at its start for the loser, and that for the blocker, which waits for the caller. When
 * the loser is a victim the path continues, and waits for the transaction that reads the goal. */
static void set_up_path(bs_txn at_goal) {
  WANT(same_txn(at_goal, caller) || same_txn(at_goal, second));
  DONE(bs_table_lock(table, caller, callers_node, BS_X, NULL));
  DONE(bs_table_lock(table, blocker, start_node, BS_IS, NULL));
  DONE(bs_table_lock(table, at_goal, side_node, BS_IS, NULL));
  DONE(bs_table_lock(table, at_goal, goal, BS_S, NULL));
  DONE(bs_table_lock(table, goer, goers_node, BS_X, NULL));
  WAITS(ask(&blockers, blocker, callers_node, BS_X));
  WAITS(ask(&losers, loser, start_node, BS_X));
  WAITS(ask_path(&goers, goer, goal, BS_X));
  WANT(waits_for(goer, start_node));
}

static void add_more_places(void) {
  bs_node parents[2];
  add_places();
  start_node = add_root(), side_node = add_root(), goers_node = add_root();
  parents[0] = start_node, parents[1] = side_node;
  goal = DONE(bs_table_add_inner(table, parents, 2)).node;
}

/* What the caller asks for, while the second waits ahead of it in X, or the keeper holds it so. */
struct target {
  enum sleep_call by;
  bool is_child;
  bs_mode mode;
};

static const struct target targets[] = {
  { BY_LOCK, false, BS_S }, { BY_LOCK, false, BS_S | BS_INSTANT }, { BY_LOCK, false, BS_IX | BS_INSTANT },
  { BY_PATH, false, BS_S }, { BY_PATH, false, BS_S | BS_INSTANT }, { BY_PATH, true, BS_X },
  { BY_PATH, true, BS_X | BS_INSTANT }, { BY_PATH, true, BS_S }, { BY_ROW, false, BS_S },
};

enum { TARGETS = sizeof targets / sizeof *targets };

static struct way way_to(const struct target *t, bool asks) {
  struct way way;
  way.by = t->by, way.mode = t->mode, way.asks = asks;
  return way;
}

/* The second waits for n, or for the row, for its reader, which waits for the path's transaction: so the path closes a
 * cycle as it continues, of which the second is the youngest. When that is a victim the caller is granted. */
static void set_up_second(const struct target *t) {
  set_up(BS_AT_BLOCK);
  memset(&own, 0, sizeof own);
  own_key = LOW_KEY;
  add_more_places();
  goer = begin(), blocker = begin(), reader = begin_writer(), caller = begin_writer(), second = begin_writer();
  loser = begin();
  set_up_path(second);
  DONE(bs_table_lock(table, reader, n, BS_IS, NULL));
  DONE(lock_row(reader, LOW_KEY, BS_S, NULL));
  WAITS(ask(&readers, reader, goers_node, BS_X));
  WAITS(t->by == BY_ROW ? ask_row(&seconds, second, LOW_KEY, BS_X) : ask(&seconds, second, n, BS_X));
}

/* The keeper has n and the row in X, and waits for the path's transaction: so the path closes a cycle as it continues,
 * of which the caller is the youngest. */
static void set_up_keeper_of_all(void) {
  set_up(BS_AT_BLOCK);
  memset(&own, 0, sizeof own);
  own_key = LOW_KEY;
  add_more_places();
  goer = begin(), blocker = begin(), keeper = begin_writer(), caller = begin_writer(), loser = begin();
  set_up_path(caller);
  DONE(bs_table_lock(table, keeper, n, BS_X, NULL));
  DONE(lock_row(keeper, LOW_KEY, BS_X, NULL));
  WAITS(ask(&keepers, keeper, goers_node, BS_X));
}

/* The path waits for its goal now, and the loser has heard its end; so has the second, if it is a victim too. */
static void the_path_has_continued(bool second_is_victim) {
  WANT(waits_for(goer, goal));
  holds(goer, start_node, BS_IX);
  HEARD_BY_NOW(&losers, BS_VICTIM);
  if (second_is_victim) HEARD_BY_NOW(&seconds, BS_VICTIM);
  WANT(calls == (second_is_victim ? 2 : 1));
}

/* The caller has it, as the reply says; that of a row names its node. */
static void has_target(const struct target *t, bs_reply reply) {
  bs_node of = t->by == BY_ROW ? ASK(table, bs_row_node, rows, ROW).node : t->is_child ? child : n;
  WANT(reply.mode == (t->mode & ~(bs_mode)BS_INSTANT) && (t->by != BY_ROW || same_node(reply.node, of)));
  holds(caller, of, (t->mode & BS_INSTANT) != 0 ? BS_NL : t->mode);
}

static void a_path_that_continues_grants_the_caller(void) {
  size_t i;
  int asks;
  for (i = 0; i < TARGETS; i++) {
    for (asks = 0; asks < 2; asks++) {
      struct way way = way_to(&targets[i], asks);
      bs_reply reply;
      set_up_second(&targets[i]);
      reply = DONE(make(&way, targets[i].is_child ? child : n, NULL));
      has_no_wait_and_no_call();
      has_target(&targets[i], reply);
      the_path_has_continued(true);
      close_table();
    }
  }
}

static void a_path_that_continues_makes_the_caller_a_victim(void) {
  size_t i;
  int asks;
  for (i = 0; i < TARGETS; i++) {
    for (asks = 0; asks < 2; asks++) {
      struct way way = way_to(&targets[i], asks);
      set_up_keeper_of_all();
      ANSWERS(BS_VICTIM, make(&way, targets[i].is_child ? child : n, NULL));
      has_no_wait_and_no_call();
      WANT(doing_of(caller) == BS_CONDEMNED);
      the_path_has_continued(false);
      close_table();
    }
  }
}

/* A list of three: the one between waits, and its wait ends before the list does. */
static size_t run_three(const struct target *t, bs_command *list) {
  struct way way = way_to(t, false);
  list[0] = bs_do_at(BS_DO_LOCK, caller, add_root(), BS_X);
  list[1] = command_of(&way, t->is_child ? child : n);
  list[2] = bs_do_at(BS_DO_LOCK, caller, add_root(), BS_X);
  return bs_table_run(table, list, 3);
}

static void a_list_continues_after_a_path(void) {
  bs_command list[3];
  size_t i;
  for (i = 0; i < TARGETS; i++) {
    set_up_second(&targets[i]);
    WANT(run_three(&targets[i], list) == 3);
    has_no_wait_and_no_call();
    has_target(&targets[i], list[1].reply);
    the_path_has_continued(true);
    close_table();
  }
}

/* A row that is granted so is asked for again there, and its keys may be others than was said. */
static void a_row_is_asked_for_again_in_its_call(void) {
  static const struct target t = { BY_ROW, false, BS_S };
  bs_command list[3];
  int kind;
  for (kind = 0; kind < 3; kind++) {
    struct way way = way_to(&t, kind == 1);
    bs_reply reply;
    set_up_second(&t);
    own_key = HIGH_KEY;
    if (kind < 2) reply = make(&way, n, NULL);
    else WANT(run_three(&t, list) == 1), ANSWERS(BS_NOT_MADE, list[2].reply), reply = list[1].reply;
    ANSWERS(BS_OTHER_KEYS, reply);
    has_no_wait_and_no_call();
    has_target(&t, reply);
    the_path_has_continued(true);
    close_table();
  }
}

static void a_list_ends_where_its_caller_is_a_victim(void) {
  bs_command list[3];
  size_t i;
  for (i = 0; i < TARGETS; i++) {
    set_up_keeper_of_all();
    WANT(run_three(&targets[i], list) == 1);
    ANSWERS(BS_VICTIM, list[1].reply), ANSWERS(BS_NOT_MADE, list[2].reply);
    has_no_wait_and_no_call();
    WANT(doing_of(caller) == BS_CONDEMNED);
    the_path_has_continued(false);
    close_table();
  }
}

/* A victim in a list is told the node for which it waited. */
static void a_victim_in_a_list_is_told_where(void) {
  bs_command list[3];
  size_t i;
  for (i = 0; i < TARGETS; i++) {
    bs_node at;
    set_up_keeper_of_all();
    at = targets[i].by == BY_ROW ? ASK(table, bs_row_node, rows, ROW).node : n;
    WANT(run_three(&targets[i], list) == 1);
    WANT(same_node(ANSWERS(BS_VICTIM, list[1].reply).node, at));
    close_table();
  }
}

/* ------------------------------------------------------------------------------------------------
 * A path that continues in another's call, and whose next wait ends there.
 */

static bs_txn one, other;
static struct heard ones, others, holders_wait;

/* The other reads the record and waits for the one, whose path to the record waits for the lower interval: for a holder
 * that reads it, or that waits for it in X ahead of the path, to a time that is over. */
static void set_up_way(bool is_held, bool is_younger) {
  struct timespec past = moment_in(0);
  bs_node node;
  bs_txn first, last;
  set_up(BS_AT_BLOCK);
  node = add_root();
  holder = begin(), first = begin(), last = begin(), second = begin();
  one = is_younger ? last : first, other = is_younger ? first : last;
  DONE(bs_table_lock_path(table, second, below, BS_IS, NULL));
  DONE(bs_table_lock_path(table, holder, by_key, BS_IX, NULL));
  mark = DONE(bs_table_mark(table, holder)).count;
  if (is_held) DONE(bs_table_lock(table, holder, below, BS_S, NULL));
  else WAITS(ask_until(&holders_wait, holder, below, BS_X, &past));
  DONE(bs_table_lock(table, one, node, BS_X, NULL));
  DONE(bs_table_lock_path(table, other, low, BS_S, NULL));
  WAITS(ask_path(&ones, one, low, BS_X));
  WANT(waits_for(one, below));
  WAITS(ask(&others, other, node, BS_X));
}

static void aborts_a_victim(struct heard *h) {
  if (h->end.status == BS_VICTIM) DONE(bs_table_abort(table, h->txn, NULL));
}

/* The call of the holder, or for it, lets the path continue. The younger of the two is a victim then: the one by its
 * own lock, or the other, whose locks the callback releases; and the one is granted then. */
static void continues_in(bool is_held, void (*does)(void), int more_calls) {
  int is_younger;
  for (is_younger = 0; is_younger < 2; is_younger++) {
    set_up_way(is_held, is_younger);
    others.does = aborts_a_victim;
    does();
    WANT(calls == (is_younger ? 1 : 2) + more_calls);
    HEARD_BY_NOW(&ones, is_younger ? BS_VICTIM : BS_DONE);
    if (!is_younger) HEARD_BY_NOW(&others, BS_VICTIM);
    holds(one, below, BS_IX), holds(one, low, is_younger ? BS_NL : BS_X);
    close_table();
  }
}

static void unlocks_the_interval(void) {
  DONE(bs_table_unlock(table, holder, below, NULL));
}

static void runs_an_unlock(void) {
  bs_command command = bs_do_at(BS_DO_UNLOCK, holder, below, BS_NL);
  WANT(bs_table_run(table, &command, 1) == 1);
}

static void cancels_the_holder(void) {
  DONE(bs_table_cancel(table, holder, NULL));
}

static void a_path_ends_in_the_call_that_lets_it_continue(void) {
  continues_in(true, commits, 0);
  continues_in(true, aborts, 0);
  continues_in(true, releases, 0);
  continues_in(true, unlocks_the_interval, 0);
  continues_in(true, runs_an_unlock, 0);
  continues_in(true, runs_a_commit, 0);
  continues_in(false, cancels_the_holder, 1);
  continues_in(false, aborts, 1);
  continues_in(false, expires, 1);
}

/* A path for an instant continues, and waits for its node after the second. Another path continues in the same call,
 * and makes the second a victim: the first is granted, released, and told once. */
static void two_paths_continue(bool is_first) {
  struct heard aheads;
  bs_command list[2];
  bs_node upper;
  bs_txn first, ahead;
  set_up(BS_AT_BLOCK);
  memset(&own, 0, sizeof own);
  add_more_places();
  upper = add_root();
  n = DONE(bs_table_add_inner(table, &upper, 1)).node;
  holder = begin(), ahead = begin(), first = begin(), goer = begin(), reader = begin(), second = begin();
  caller = is_first ? first : begin();
  DONE(bs_table_lock_path(table, reader, n, BS_IS, NULL));
  DONE(bs_table_lock_path(table, second, goal, BS_IS, NULL));
  DONE(bs_table_lock(table, second, goal, BS_S, NULL));
  DONE(bs_table_lock(table, second, upper, BS_IX, NULL));
  DONE(bs_table_lock(table, holder, side_node, BS_S, NULL));
  DONE(bs_table_lock(table, goer, goers_node, BS_X, NULL));
  WAITS(ask_path(&goers, goer, goal, BS_X));
  WANT(waits_for(goer, side_node));
  WAITS(ask(&readers, reader, goers_node, BS_X));
  WAITS(ask(&seconds, second, n, BS_X));
  WAITS(ask(&aheads, ahead, upper, BS_X));
  WAITS(ask_path(&own, caller, n, BS_S | BS_INSTANT));
  WANT(waits_for(caller, upper));
  list[0] = bs_do(BS_DO_CANCEL, ahead), list[1] = bs_do(BS_DO_COMMIT, holder);
  WANT(bs_table_run(table, list, 2) == 2);
  HEARD_BY_NOW(&aheads, BS_NOT_WAITING);
  HEARD_BY_NOW(&seconds, BS_VICTIM);
  WANT(HEARD_BY_NOW(&own, BS_DONE).mode == BS_S && calls == 3);
  holds(caller, upper, BS_IS), holds(caller, n, BS_NL);
  WANT(waits_for(goer, goal));
  close_table();
}

static void a_path_for_an_instant_ends_as_another_continues(void) {
  two_paths_continue(true);
  two_paths_continue(false);
}

/* ------------------------------------------------------------------------------------------------
 * Calls within the callback, and tables that end.
 */

static struct heard outer;
static bool is_passed;

/* An ask that the callback makes, for n: the passer lets it by, and the callback hears that at once. */
static void asks_within(struct heard *h) {
  (void)h;
  WANT(DONE(ask(&own, caller, n, BS_S | (is_passed ? BS_INSTANT : 0))).mode == BS_S);
  has_no_wait_and_no_call();
  WANT(calls == 1);
  holds(caller, n, is_passed ? BS_NL : BS_S);
}

/* The ends of others that the ask has set off are told after the callback. */
static void an_ask_within_the_function_is_granted(void) {
  int kind;
  for (kind = 0; kind < 2; kind++) {
    bs_node node;
    bs_txn first;
    is_passed = kind == 1;
    set_up_passer(BS_IX, false);
    node = add_root(), first = begin();
    DONE(bs_table_lock(table, first, node, BS_X, NULL));
    WAITS(ask(&outer, begin(), node, BS_S));
    outer.does = asks_within;
    DONE(bs_table_commit(table, first, NULL));
    WANT(calls == 3 && own.calls == 0 && outer.place == 0);
    HEARD_BY_NOW(&losers, BS_VICTIM), HEARD_BY_NOW(&passers, BS_DONE), HEARD_BY_NOW(&outer, BS_DONE);
    close_table();
  }
}

/* An ask that the callback makes is left waiting: what the callbacks for others do comes after it, and is told. */
static void asks_and_waits_within(struct heard *h) {
  (void)h;
  WAITS(ask(&own, caller, low, BS_X));
  WANT(calls == 1 && own.calls == 0);
}

static void an_ask_within_the_function_waits(void) {
  bs_node node;
  bs_txn first;
  set_up_cycle(commits, false);
  node = add_root(), first = begin();
  DONE(bs_table_lock(table, first, node, BS_X, NULL));
  WAITS(ask(&outer, begin(), node, BS_S));
  outer.does = asks_and_waits_within;
  DONE(bs_table_commit(table, first, NULL));
  WANT(calls == 4);
  HEARD_BY_NOW(&outer, BS_DONE), HEARD_BY_NOW(&losers, BS_VICTIM), HEARD_BY_NOW(&holders, BS_DONE);
  WANT(HEARD_BY_NOW(&own, BS_DONE).mode == BS_X);
  holds(caller, low, BS_X);
  close_table();
}

static bool is_within;

static bool is_within_now(void) {
  bool is;
  pthread_mutex_lock(&ear);
  is = is_within;
  pthread_mutex_unlock(&ear);
  return is;
}

/* The callback stays until another thread ends the table. */
static void stays_until_the_end(void) {
  pthread_mutex_lock(&ear);
  is_within = is_ending = true;
  pthread_mutex_unlock(&ear);
  while (bs_call_table_shut(table) == BS_DONE) nap();
}

static void *ends_the_table(void *arg) {
  while (!is_within_now()) nap();
  DONE(bs_table_end(table));
  return arg;
}

static void the_table_ends_within(const struct way *way, bool is_listed) {
  bs_command command;
  pthread_t ender;
  set_up_cycle(stays_until_the_end, false);
  is_within = false;
  start(&ender, ends_the_table, NULL);
  if (is_listed) {
    command = command_of(way, low);
    leave_waiting(&command);
    ANSWERS(BS_NO_MANAGER, bs_table_await(table, caller, low, BS_X, NULL));
    ANSWERS(BS_NO_MANAGER, ask_await_until(&own, caller, low, BS_X, NULL));
  } else {
    ANSWERS(BS_NO_MANAGER, make(way, low, NULL));
  }
  join(ender);
  WANT(own.calls == 0 && calls == 2);
  is_ending = false;
  DONE(bs_table_free(&table));
}

static void a_table_ends_within_a_call(void) {
  size_t w;
  for (w = 0; w < WAYS; w++) the_table_ends_within(&ways[w], false), the_table_ends_within(&ways[w], true);
}

/* The caller waits for X on the root in one of these ways, to a time that is over. */
enum { LATE_WAYS = 3 };

static bs_reply ask_late(int way, const struct timespec *until) {
  bs_command command = bs_do_at(BS_DO_LOCK, caller, root, BS_X);
  if (way == 0) return ask_until(&own, caller, root, BS_X, until);
  if (way == 1) return ask_path_until(&own, caller, root, BS_X, until);
  leave_waiting(&command);
  return ask_await_until(&own, caller, root, BS_X, until);
}

/* The time of an ask is over. Those after it in the queue are granted in the call that looks at it: one for an instant,
 * and one that the first lets by. */
static void a_time_that_comes_lets_others_pass(void) {
  struct timespec past = moment_in(0);
  int way;
  for (way = 0; way < LATE_WAYS; way++) {
    set_up(BS_AT_BLOCK);
    caller = begin(), holder = begin(), passer = begin(), second = begin();
    DONE(bs_table_lock(table, holder, root, BS_IS, NULL));
    WAITS(ask_late(way, &past));
    WAITS(ask(&passers, passer, root, BS_SIX | BS_INSTANT));
    WAITS(ask(&seconds, second, root, BS_IX));
    WANT(DONE(bs_table_expire(table, NULL)).count == 0 && calls == 3);
    HEARD_BY_NOW(&own, BS_TIMED_OUT), HEARD_BY_NOW(&passers, BS_DONE), HEARD_BY_NOW(&seconds, BS_DONE);
    holds(passer, root, BS_NL), holds(second, root, BS_IX);
    close_table();
  }
}

/* The same of an await that sleeps to a time that is over: those after it in the queue are granted within it. */
static void an_await_that_is_late_lets_others_pass(void) {
  struct timespec past = moment_in(0);
  bs_command command;
  set_up(BS_AT_BLOCK);
  caller = begin(), holder = begin(), passer = begin(), second = begin();
  DONE(bs_table_lock(table, holder, root, BS_IS, NULL));
  command = bs_do_at(BS_DO_LOCK, caller, root, BS_X);
  leave_waiting(&command);
  WAITS(ask(&passers, passer, root, BS_SIX | BS_INSTANT));
  WAITS(ask(&seconds, second, root, BS_IX));
  ANSWERS(BS_TIMED_OUT, bs_table_await(table, caller, root, BS_X, &past));
  WANT(calls == 2);
  HEARD_BY_NOW(&passers, BS_DONE), HEARD_BY_NOW(&seconds, BS_DONE);
  holds(passer, root, BS_NL), holds(second, root, BS_IX);
  close_table();
}

/* ------------------------------------------------------------------------------------------------
 * A crowd of locks for an instant.
 */

enum { MEMBERS = 16, ROUNDS = 50, LOCKS = 3, CROWDED = 4 };

/* A transaction at a time, in a thread that sleeps for its locks, or that asks for them and sleeps by itself. */
struct member {
  bool asks;
  uint64_t dice;
  bs_txn txn;
  bool is_asked; /* the ear guards this, and those below */
  bs_reply end;
  pthread_cond_t ended;
  pthread_t thread;
};

static bs_node crowded[CROWDED]; /* the last is under the first two */
static uint64_t wanted_nodes;    /* this many of these are used */
static pthread_barrier_t crowd_gate;

static void member_hears(void *context, bs_txn txn, bs_reply end, void *word) {
  struct member *m = (struct member *)word;
  (void)context;
  pthread_mutex_lock(&ear);
  WANT(m->is_asked && same_txn(m->txn, txn));
  m->is_asked = false;
  m->end = end;
  pthread_cond_signal(&m->ended);
  pthread_mutex_unlock(&ear);
}

/* An ask, and its end: by its answer, or by the one call of the callback. */
static bs_reply member_asks(struct member *m, bs_node node, bs_mode mode) {
  bs_reply reply;
  pthread_mutex_lock(&ear);
  m->is_asked = true;
  pthread_mutex_unlock(&ear);
  reply = bs_table_ask_path(table, m->txn, node, mode, NULL, m);
  pthread_mutex_lock(&ear);
  if (reply.status != BS_WAITING) WANT(m->is_asked);
  while (reply.status == BS_WAITING && m->is_asked) pthread_cond_wait(&m->ended, &ear);
  if (reply.status == BS_WAITING) reply = m->end;
  m->is_asked = false;
  pthread_mutex_unlock(&ear);
  return reply;
}

/* Whether a lock for an instant on this node is released again: it is not held, nor is a child of it. */
static bool is_released(bs_txn txn, bs_node node) {
  bool is_parent = same_node(node, crowded[0]) || same_node(node, crowded[1]);
  bool has_child = ASK(table, bs_held, txn, crowded[CROWDED - 1]).mode != BS_NL;
  return ASK(table, bs_held, txn, node).mode == BS_NL && !(is_parent && has_child);
}

/* Locks one of the nodes, which all others want too; not, if it was chosen as victim. One that was locked for an
 * instant is not held after that. */
static bool member_locks(struct member *m) {
  static const bs_mode modes[] = { BS_IS, BS_IX, BS_S, BS_SIX, BS_X };
  bs_node node = crowded[roll(&m->dice, wanted_nodes)];
  bs_mode mode = modes[roll(&m->dice, 5)], held;
  bool for_instant = roll(&m->dice, 2) == 0, is_back = for_instant && is_released(m->txn, node);
  bs_reply reply;
  if (for_instant) mode |= BS_INSTANT;
  reply = m->asks ? member_asks(m, node, mode) : bs_table_lock_path(table, m->txn, node, mode, NULL);
  if (reply.status == BS_VICTIM) return false;
  DONE(reply);
  held = ASK(table, bs_held, m->txn, node).mode;
  WANT(held == (is_back ? BS_NL : reply.mode));
  return true;
}

static void *crowds(void *arg) {
  struct member *m = (struct member *)arg;
  int round, lock;
  pthread_barrier_wait(&crowd_gate);
  for (round = 0; round < ROUNDS; round++) {
    bool is_victim = false;
    m->txn = begin();
    for (lock = 0; lock < LOCKS && !is_victim; lock++) is_victim = !member_locks(m), sched_yield();
    DONE(is_victim ? bs_table_abort(table, m->txn, NULL) : bs_table_commit(table, m->txn, NULL));
  }
  return NULL;
}

/* Each call has its end, and no lock stays. */
static void a_crowd(uint32_t detect, size_t requesters) {
  static struct member all[MEMBERS];
  size_t i;
  DONE(make_table(&table, detect, BS_YOUNGEST, BS_SLOTS));
  DONE(bs_table_on_end(table, member_hears, NULL));
  for (i = 0; i < CROWDED - 1; i++) crowded[i] = add_root();
  crowded[CROWDED - 1] = DONE(bs_table_add_inner(table, crowded, 2)).node;
  if (detect == BS_BY_WATCHER) DONE(bs_table_watch_thread(table, 0));
  WANT(pthread_barrier_init(&crowd_gate, NULL, MEMBERS) == 0);
  for (i = 0; i < MEMBERS; i++) {
    memset(&all[i], 0, sizeof all[i]);
    all[i].asks = i < requesters;
    all[i].dice = 88172645463325252u + i;
    WANT(pthread_cond_init(&all[i].ended, NULL) == 0);
    start(&all[i].thread, crowds, &all[i]);
  }
  for (i = 0; i < MEMBERS; i++) join(all[i].thread), pthread_cond_destroy(&all[i].ended);
  WANT(pthread_barrier_destroy(&crowd_gate) == 0);
  for (i = 0; i < CROWDED; i++) WANT(ASK(table, bs_group, crowded[i]).mode == BS_NL);
  close_table();
}

static void a_crowd_of_instants(void) {
  size_t requesters;
  for (wanted_nodes = CROWDED - 1; wanted_nodes <= CROWDED; wanted_nodes++) {
    for (requesters = 0; requesters <= MEMBERS; requesters += MEMBERS / 2) {
      a_crowd(BS_AT_BLOCK, requesters);
      a_crowd(BS_BY_WATCHER, requesters);
    }
  }
}

/* ------------------------------------------------------------------------------------------------
 * The whole.
 */

int main(int count, char **words) {
  setvbuf(stdout, NULL, _IONBF, 0);
  if (count > 1) patience = (unsigned)atoi(words[1]);
  TELL(a_function_grants_the_caller);
  TELL(a_function_ends_the_callers_wait);
  TELL(a_function_moves_what_the_caller_waits_for);
  TELL(a_function_expires_the_callers_ask);
  TELL(a_function_leaves_the_caller_waiting);
  TELL(an_await_answers_what_a_function_ended);
  TELL(an_instant_given_back_grants_the_caller);
  TELL(a_grant_within_the_call_is_answered_as_any);
  TELL(a_function_comes_after_the_callers_end);
  TELL(a_lock_that_an_instant_granted_is_like_any);
  TELL(a_list_continues_after_an_instant);
  TELL(a_caller_is_not_told_of_itself);
  TELL(a_path_continues_to_another_wait);
  TELL(a_path_is_let_by_twice);
  TELL(a_path_that_continues_grants_the_caller);
  TELL(a_path_that_continues_makes_the_caller_a_victim);
  TELL(a_list_continues_after_a_path);
  TELL(a_row_is_asked_for_again_in_its_call);
  TELL(a_list_ends_where_its_caller_is_a_victim);
  TELL(a_victim_in_a_list_is_told_where);
  TELL(a_path_ends_in_the_call_that_lets_it_continue);
  TELL(a_path_for_an_instant_ends_as_another_continues);
  TELL(an_ask_within_the_function_is_granted);
  TELL(an_ask_within_the_function_waits);
  TELL(a_table_ends_within_a_call);
  TELL(a_time_that_comes_lets_others_pass);
  TELL(an_await_that_is_late_lets_others_pass);
  TELL(a_crowd_of_instants);
  return 0;
}
