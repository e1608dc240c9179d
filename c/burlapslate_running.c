/*
 * burlapslate_running.c: what burlapslate_running.h declares: the times of waits, the nodes that were waited for
 * longest, the thread that tells of long waits and deadlocks, and the metrics. Nothing here is proved.
 *
 * burlapslate_shared.c tells of each wait as it begins and as it ends (burlapslate_inside.h): running_end is the one
 * place where a wait ends.
 */
#include "burlapslate_inside.h"

#include <inttypes.h>
#include <stdio.h>
#include <stdlib.h>

/* Probes, if the header is there. Each has the table, then slot, age, node (key and birth) and mode of the waiter; at
 * an end also the nanoseconds of the wait, before the mode, since bpftrace reads only six arguments. */
#if defined(__has_include)
#if __has_include(<sys/sdt.h>)
#include <sys/sdt.h>
#define RUNNING_PROBE_BEGIN(running, txn, node, mode) \
  DTRACE_PROBE6(burlapslate, wait, (running)->table, (txn).slot, (txn).age, (node).key, (node).birth, mode)
#define RUNNING_PROBE_END(name, running, txn, node, mode, nanoseconds) \
  DTRACE_PROBE7(burlapslate, name, (running)->table, (txn).slot, (txn).age, (node).key, (node).birth, nanoseconds, \
                mode)
#endif
#endif
#ifndef RUNNING_PROBE_BEGIN
#define RUNNING_PROBE_BEGIN(running, txn, node, mode) ((void)(running), (void)(txn), (void)(node), (void)(mode))
#define RUNNING_PROBE_END(name, running, txn, node, mode, nanoseconds) \
  ((void)(running), (void)(txn), (void)(node), (void)(mode), (void)(nanoseconds))
#endif

/* How many deadlocks may await the function, and how many transactions on their cycles together. */
enum { RUNNING_DEADLOCKS = 16, RUNNING_STUCK = 2 * BS_SLOTS };

/* A deadlock that awaits the function: its transactions are in the list of all. */
typedef struct running_deadlock {
  bs_txn victim;
  size_t count;
} running_deadlock;

/* The thread that tells, and what it tells. The latch guards all but `wait` and `cycle`, which are the thread's own. */
typedef struct bs_teller {
  void (*function)(void *context, const bs_long_wait *wait, const bs_deadlock *deadlock); /* null: nothing is told */
  void *context;
  uint64_t limit;           /* the nanoseconds from which on a wait is long */
  pthread_t thread;
  bool is_idle;             /* the thread sleeps until it is woken */
  bool is_telling;          /* the function is being called */
  uint64_t calls;           /* how many calls of the function have returned */
  pthread_cond_t due;       /* there may be something to tell, or another time to wake; or the table ends */
  pthread_cond_t returned;  /* a call of the function has returned */
  size_t deadlock_count, stuck_count;
  running_deadlock deadlocks[RUNNING_DEADLOCKS];
  bs_stuck stuck[RUNNING_STUCK];
  bs_deadlock last;         /* of the manager, before it joins the list */
  bs_long_wait wait;
  bs_deadlock cycle;
} bs_teller;

/* ------------------------------------------------------------------------------------------------
 * Times and sums.
 */

enum { RUNNING_SECOND = 1000000000 };

uint64_t bs_call_now(void) {
  struct timespec now;
  clock_gettime(CLOCK_MONOTONIC, &now);
  return (uint64_t)now.tv_sec * RUNNING_SECOND + (uint64_t)now.tv_nsec;
}

/* A sum that stops at the greatest number. */
static uint64_t running_sum(uint64_t one, uint64_t other) {
  return one > UINT64_MAX - other ? UINT64_MAX : one + other;
}

/* From one time to another, which may have been read earlier. */
static uint64_t running_from(uint64_t since, uint64_t now) {
  return now > since ? now - since : 0;
}

static uint64_t running_later(uint64_t one, uint64_t other) {
  return one > other ? one : other;
}

/* The bucket of a wait: the least power of two of microseconds that is not less. */
static size_t running_bucket(uint64_t nanoseconds) {
  uint64_t microseconds = nanoseconds / 1000 + (nanoseconds % 1000 != 0);
  size_t bucket;
  if (microseconds <= 1) return 0;
  bucket = 64 - (size_t)__builtin_clzll(microseconds - 1);
  return bucket < BS_WAIT_BUCKETS ? bucket : BS_WAIT_BUCKETS - 1;
}

/* ------------------------------------------------------------------------------------------------
 * The sketch.
 */

static bool running_is_same_node(bs_node one, bs_node other) {
  return one.birth == other.birth && one.key == other.key;
}

/* The place of a node; `count` if it has none. */
static size_t running_place_of(const bs_sketch *sketch, bs_node node) {
  size_t place = 0;
  while (place < sketch->count && !running_is_same_node(sketch->at[place].node, node)) place++;
  return place;
}

/* The place of the node with the least. */
static size_t running_least(const bs_sketch *sketch) {
  size_t place, least = 0;
  for (place = 1; place < sketch->count; place++) {
    if (sketch->at[place].nanoseconds < sketch->at[least].nanoseconds) least = place;
  }
  return least;
}

/* Counts a wait for a node. A node without a place takes a free one, or else that of the node with the least, with what
 * that one had: at most so much may have been counted for it before. */
static void running_count(bs_sketch *sketch, bs_node node, uint64_t nanoseconds) {
  size_t place = running_place_of(sketch, node);
  bs_awaited_node *at;
  sketch->nanoseconds = running_sum(sketch->nanoseconds, nanoseconds);
  if (place == sketch->count) {
    if (sketch->count < BS_COUNTED_NODES) sketch->at[sketch->count++].nanoseconds = 0;
    else place = running_least(sketch);
    sketch->at[place].node = node;
    sketch->at[place].error = sketch->at[place].nanoseconds;
    sketch->at[place].waits = 0;
  }
  at = &sketch->at[place];
  at->nanoseconds = running_sum(at->nanoseconds, nanoseconds);
  at->waits++;
}

/* ------------------------------------------------------------------------------------------------
 * Waits that begin and end.
 */

void bs_call_run(bs_running *running, const bs_table *table, const bs_manager *manager, pthread_mutex_t *latch) {
  running->table = table;
  running->manager = manager;
  running->latch = latch;
  running->reset = bs_call_now();
}

static bool running_waits(const bs_running *running, uint32_t slot) {
  return bs_has(running->waiting, slot);
}

bool bs_call_waits_since(const bs_running *running, uint32_t slot, uint64_t *since) {
  if (!running_waits(running, slot)) return false;
  *since = running->waits[slot].since;
  return true;
}

/* The thread that tells needs no sign while it awaits an earlier wait: that one is long before this one. */
void bs_call_wait_began(bs_running *running, bs_txn txn) {
  bs_timed *wait = &running->waits[txn.slot];
  bs_reply doing = bs_call_doing(running->manager, txn);
  wait->since = bs_call_now();
  wait->node = doing.node;
  wait->mode = doing.mode;
  wait->is_told = false;
  running->waiting.words[txn.slot / 64] |= (uint64_t)1 << txn.slot % 64;
  RUNNING_PROBE_BEGIN(running, txn, wait->node, wait->mode);
  if (running->teller != NULL && running->teller->is_idle) {
    running->teller->is_idle = false;
    pthread_cond_signal(&running->teller->due);
  }
}

/* Fires the probe of an end, if it has one. */
static void running_probe(const bs_running *running, bs_txn txn, const bs_timed *wait, enum bs_wait_ends end,
                          uint64_t nanoseconds) {
  switch (end) {
    case BS_END_GRANTED: RUNNING_PROBE_END(grant, running, txn, wait->node, wait->mode, nanoseconds); break;
    case BS_END_VICTIM: RUNNING_PROBE_END(victim, running, txn, wait->node, wait->mode, nanoseconds); break;
    case BS_END_TIMED_OUT: RUNNING_PROBE_END(timeout, running, txn, wait->node, wait->mode, nanoseconds); break;
    default: break;
  }
}

/* The wait of a slot has ended so. */
static void running_end(bs_running *running, bs_txn txn, enum bs_wait_ends end, uint64_t now) {
  const bs_timed *wait = &running->waits[txn.slot];
  bs_histogram *histogram = &running->ended[end];
  uint64_t nanoseconds = running_from(wait->since, now);
  running->waiting.words[txn.slot / 64] &= ~((uint64_t)1 << txn.slot % 64);
  histogram->buckets[running_bucket(nanoseconds)]++;
  histogram->nanoseconds = running_sum(histogram->nanoseconds, nanoseconds);
  running_count(&running->nodes, wait->node, running_from(running_later(wait->since, running->reset), now));
  running_probe(running, txn, wait, end, nanoseconds);
}

/* How a wait ended whose transaction was told so. */
static enum bs_wait_ends running_end_of(uint32_t kind) {
  switch (kind) {
    case BS_TOLD_GRANTED: return BS_END_GRANTED;
    case BS_TOLD_VICTIM: return BS_END_VICTIM;
    case BS_TOLD_MOVED: return BS_END_MOVED;
    default: return BS_END_GONE;
  }
}

static void running_note_deadlock(bs_running *running);

/* Of these slots, only those are looked at that still wait: a list may tell of an end a second time. */
static uint64_t running_keep_waiting(const bs_running *running, bs_slots *slots) {
  uint64_t some = 0;
  size_t i;
  for (i = 0; i < BS_SLOTS / 64; i++) some |= slots->words[i] &= running->waiting.words[i];
  return some;
}

/* The waits of these slots were ended by their names. */
static void running_cancelled(bs_running *running, const bs_slots *slots, uint64_t now) {
  size_t i;
  for (i = 0; i < BS_SLOTS / 64; i++) {
    uint64_t word = slots->words[i];
    for (; word != 0; word &= word - 1) {
      bs_txn txn = { (uint32_t)i * 64 + (uint32_t)__builtin_ctzll(word), 0 };
      running_end(running, txn, BS_END_CANCELLED, now);
    }
  }
}

void bs_call_waits_ended(bs_running *running, const bs_slots *ended, const bs_notices *told) {
  bs_slots left = *ended;
  bool has_victims = false;
  uint64_t now;
  size_t i;
  if (running_keep_waiting(running, &left) == 0) return;
  now = bs_call_now();
  for (i = 0; i < told->count; i++) {
    const bs_notice *notice = &told->at[i];
    if (!bs_has(left, notice->txn.slot)) continue;
    left.words[notice->txn.slot / 64] &= ~((uint64_t)1 << notice->txn.slot % 64);
    running_end(running, notice->txn, running_end_of(notice->kind), now);
    has_victims |= notice->kind == BS_TOLD_VICTIM;
  }
  running_cancelled(running, &left, now);
  if (has_victims) running_note_deadlock(running);
}

void bs_call_wait_cut(bs_running *running, uint32_t slot, enum bs_wait_ends end) {
  if (!running_waits(running, slot)) return;
  running_end(running, bs_call_living(running->manager, slot).txn, end, bs_call_now());
}

/* Fires the probe of a victim that did not wait: it is the last one of all. */
static void running_probe_last(const bs_running *running) {
#ifdef DTRACE_PROBE7
  bs_deadlock last;
  size_t i;
  if (bs_call_last_deadlock(running->manager, &last).status != BS_DONE) return;
  for (i = 0; i < last.count; i++) {
    const bs_stuck *stuck = &last.at[i];
    if (stuck->txn.slot != last.victim.slot) continue;
    RUNNING_PROBE_END(victim, running, stuck->txn, stuck->node, stuck->mode, 0);
  }
#else
  (void)running;
#endif
}

/* A list may tell of it a second time, with no command in between. */
void bs_call_condemned(bs_running *running) {
  uint64_t accepted = bs_call_accepted(running->manager).count;
  if (accepted == running->refused) return;
  running->refused = accepted;
  running_probe_last(running);
  running_note_deadlock(running);
}

/* ------------------------------------------------------------------------------------------------
 * Questions.
 */

/* Why a table does not lend its manager. */
static bs_reply running_refused(bs_table *table) {
  return bs_call_only(bs_call_table_shut(table));
}

/* For how long the longest wait of the present has lasted, at a time; and how many there are. */
static uint64_t running_longest(const bs_running *running, uint64_t now, uint64_t *waiting) {
  uint64_t longest = 0;
  uint32_t slot;
  *waiting = 0;
  for (slot = 0; slot < BS_SLOTS; slot++) {
    if (!running_waits(running, slot)) continue;
    longest = running_later(longest, running_from(running->waits[slot].since, now));
    ++*waiting;
  }
  return longest;
}

static void running_copy_waits(const bs_running *running, bs_waits *waits) {
  memcpy(waits->ended, running->ended, sizeof waits->ended);
  waits->longest = running_longest(running, bs_call_now(), &waits->waiting);
}

/* Adds the waits of one part to those of others. */
static void running_add_waits(bs_waits *all, const bs_waits *one) {
  size_t end, bucket;
  for (end = 0; end < BS_WAIT_ENDS; end++) {
    bs_histogram *to = &all->ended[end];
    for (bucket = 0; bucket < BS_WAIT_BUCKETS; bucket++) to->buckets[bucket] += one->ended[end].buckets[bucket];
    to->nanoseconds = running_sum(to->nanoseconds, one->ended[end].nanoseconds);
  }
  all->waiting += one->waiting;
  all->longest = running_later(all->longest, one->longest);
}

/* The waits of all parts, each of its own moment. */
static bs_reply running_waits_of_parts(bs_table_group *group, bs_waits *waits) {
  bs_table *part = bs_inside_table_of(group, 0);
  bs_reply reply = bs_inside_open(group);
  bs_waits all, one;
  uint32_t number = 0;
  memset(&all, 0, sizeof all);
  for (; part != NULL && reply.status == BS_DONE; part = bs_inside_table_of(group, ++number)) {
    reply = bs_table_waits(part, &one);
    if (reply.status == BS_DONE) running_add_waits(&all, &one);
  }
  if (reply.status == BS_DONE) *waits = all;
  return reply;
}

bs_reply bs_table_waits(bs_table *table, bs_waits *waits) {
  bs_table_group *group = bs_table_group_of(table);
  const bs_manager *m = waits == NULL ? NULL : bs_table_hold(table);
  if (group != NULL && waits != NULL) return running_waits_of_parts(group, waits);
  if (m == NULL) return waits == NULL ? bs_call_null() : running_refused(table);
  running_copy_waits(bs_call_running(m), waits);
  bs_table_let_go(table);
  return bs_call_only(BS_DONE);
}

/* For how long a transaction has waited in a manager that this thread holds. */
static bs_reply running_waited_here(const bs_manager *m, bs_txn txn) {
  bs_reply reply = bs_call_doing(m, txn);
  if (reply.status == BS_DONE && reply.count != BS_WAITS) reply = bs_call_only(BS_NOT_WAITING);
  if (reply.status == BS_DONE) reply.count = running_from(bs_call_running(m)->waits[txn.slot].since, bs_call_now());
  return reply;
}

/* The same in the part where a transaction of a group waits, with the name of the node in the group. */
static bs_reply running_waited_in_parts(bs_table_group *group, bs_txn txn) {
  bs_reply reply = bs_inside_lives(group, txn);
  uint32_t number;
  for (number = 0; reply.status == BS_DONE; number++) {
    bs_table *part = bs_inside_table_of(group, number);
    const bs_manager *m = part == NULL ? NULL : bs_table_hold(part);
    if (part == NULL) return bs_call_only(BS_NOT_WAITING);
    if (m == NULL) return running_refused(part);
    reply = running_waited_here(m, bs_living(m, txn.slot).txn);
    if (reply.status == BS_DONE) reply.node = bs_group_name_of(group, reply.node, number).node;
    bs_table_let_go(part);
    if (reply.status == BS_DONE) return reply;
    reply.status = BS_DONE;
  }
  return reply;
}

bs_reply bs_table_waited(bs_table *table, bs_txn txn) {
  bs_table_group *group = bs_table_group_of(table);
  const bs_manager *m = bs_table_hold(table);
  bs_reply reply;
  if (group != NULL) return running_waited_in_parts(group, txn);
  if (m == NULL) return running_refused(table);
  reply = running_waited_here(m, txn);
  bs_table_let_go(table);
  return reply;
}

/* Counts the waits that have not ended, up to now. */
static void running_count_present(const bs_running *running, bs_sketch *sketch, uint64_t now) {
  uint32_t slot;
  for (slot = 0; slot < BS_SLOTS; slot++) {
    const bs_timed *wait = &running->waits[slot];
    if (!running_waits(running, slot)) continue;
    running_count(sketch, wait->node, running_from(running_later(wait->since, running->reset), now));
  }
}

/* Takes the node with the most out of a sketch. */
static bs_awaited_node running_take_most(bs_sketch *sketch) {
  size_t place, most = 0;
  bs_awaited_node taken;
  for (place = 1; place < sketch->count; place++) {
    if (sketch->at[place].nanoseconds > sketch->at[most].nanoseconds) most = place;
  }
  taken = sketch->at[most];
  sketch->at[most] = sketch->at[--sketch->count];
  return taken;
}

/* Puts a node in its place among those of all parts. Of more than there is room for the last is left out. */
static void running_put_awaited(bs_awaited *all, bs_awaited_node node) {
  size_t place = all->count < BS_MOST_AWAITED ? all->count++ : BS_MOST_AWAITED;
  for (; place > 0 && all->at[place - 1].nanoseconds < node.nanoseconds; place--) {
    if (place < BS_MOST_AWAITED) all->at[place] = all->at[place - 1];
  }
  if (place < BS_MOST_AWAITED) all->at[place] = node;
}

/* Adds what was awaited in one part, by the names of the group. No node is awaited in two: an inner one in the main
 * table alone. */
static void running_add_awaited(bs_table_group *group, uint32_t number, bs_awaited *all, const bs_awaited *one) {
  size_t place;
  for (place = 0; place < one->count; place++) {
    bs_awaited_node node = one->at[place];
    node.node = bs_group_name_of(group, node.node, number).node;
    running_put_awaited(all, node);
  }
  all->nanoseconds = running_sum(all->nanoseconds, one->nanoseconds);
  all->since = running_later(all->since, one->since);
}

/* The nodes that were awaited longest in all parts, each of its own moment. */
static bs_reply running_awaited_in_parts(bs_table_group *group, bs_awaited *awaited, bool reset) {
  bs_table *part = bs_inside_table_of(group, 0);
  bs_reply reply = bs_inside_open(group);
  bs_awaited all, one;
  uint32_t number = 0;
  memset(&all, 0, sizeof all);
  while (part != NULL && reply.status == BS_DONE) {
    reply = bs_table_awaited(part, &one, reset);
    if (reply.status == BS_DONE) running_add_awaited(group, number, &all, &one);
    part = bs_inside_table_of(group, ++number);
  }
  if (reply.status == BS_DONE) *awaited = all;
  return reply;
}

bs_reply bs_table_awaited(bs_table *table, bs_awaited *awaited, bool reset) {
  bs_table_group *group = bs_table_group_of(table);
  const bs_manager *m = awaited == NULL ? NULL : bs_table_hold(table);
  bs_running *running;
  bs_sketch sketch;
  uint64_t now;
  if (group != NULL && awaited != NULL) return running_awaited_in_parts(group, awaited, reset);
  if (m == NULL) return awaited == NULL ? bs_call_null() : running_refused(table);
  running = bs_call_running(m);
  now = bs_call_now();
  sketch = running->nodes;
  running_count_present(running, &sketch, now);
  memset(awaited, 0, sizeof *awaited);
  awaited->since = running_from(running->reset, now);
  if (reset) {
    memset(&running->nodes, 0, sizeof running->nodes);
    running->reset = now;
  }
  bs_table_let_go(table);
  awaited->nanoseconds = sketch.nanoseconds;
  while (awaited->count < BS_MOST_AWAITED && sketch.count > 0) {
    awaited->at[awaited->count++] = running_take_most(&sketch);
  }
  return bs_call_only(BS_DONE);
}

/* ------------------------------------------------------------------------------------------------
 * The thread that tells.
 */

/* Joins the last deadlock to those that await the function; false if there is no room. */
static bool running_join_deadlock(bs_teller *teller) {
  const bs_deadlock *last = &teller->last;
  running_deadlock *next = &teller->deadlocks[teller->deadlock_count];
  if (teller->deadlock_count == RUNNING_DEADLOCKS || last->count > RUNNING_STUCK - teller->stuck_count) return false;
  next->victim = last->victim;
  next->count = last->count;
  memcpy(&teller->stuck[teller->stuck_count], last->at, last->count * sizeof last->at[0]);
  teller->stuck_count += last->count;
  teller->deadlock_count++;
  return true;
}

/* How many transactions were condemned since the table was made. */
static uint64_t running_condemned(const bs_running *running) {
  bs_counts counts;
  return bs_call_counters(running->manager, &counts).status == BS_DONE ? counts.condemned : 0;
}

/* After a command that has condemned somebody: if it was not noted yet, and there is a function, the deadlock is to be
 * told. */
static void running_note_deadlock(bs_running *running) {
  bs_teller *teller = running->teller;
  uint64_t condemned;
  if (teller == NULL || teller->function == NULL) return;
  condemned = running_condemned(running);
  if (condemned == running->condemned) return;
  running->condemned = condemned;
  if (bs_call_last_deadlock(running->manager, &teller->last).status != BS_DONE) return;
  if (!running_join_deadlock(teller)) running->lost_deadlocks++;
  teller->is_idle = false;
  pthread_cond_signal(&teller->due);
}

/* Takes the first deadlock that awaits the function, to tell it. */
static bool running_take_deadlock(bs_teller *teller) {
  bs_deadlock *cycle = &teller->cycle;
  if (teller->deadlock_count == 0) return false;
  cycle->victim = teller->deadlocks[0].victim;
  cycle->count = teller->deadlocks[0].count;
  memcpy(cycle->at, teller->stuck, cycle->count * sizeof cycle->at[0]);
  teller->deadlock_count--;
  teller->stuck_count -= cycle->count;
  memmove(teller->deadlocks, teller->deadlocks + 1, teller->deadlock_count * sizeof teller->deadlocks[0]);
  memmove(teller->stuck, teller->stuck + cycle->count, teller->stuck_count * sizeof teller->stuck[0]);
  return true;
}

/* The slot whose wait is the first of those that were not told; BS_SLOTS if there is none. */
static uint32_t running_first_untold(const bs_running *running) {
  uint32_t slot, first = BS_SLOTS;
  for (slot = 0; slot < BS_SLOTS; slot++) {
    if (!running_waits(running, slot) || running->waits[slot].is_told) continue;
    if (first == BS_SLOTS || running->waits[slot].since < running->waits[first].since) first = slot;
  }
  return first;
}

/* Notes a transaction that is in the way of a wait. */
static void running_note_blocker(const bs_manager *m, bs_long_wait *wait, uint32_t slot) {
  bs_blocker *blocker = &wait->at[wait->count++];
  bs_reply doing;
  blocker->txn = bs_call_living(m, slot).txn;
  blocker->held = bs_call_held(m, blocker->txn, wait->node).mode;
  doing = bs_call_doing(m, blocker->txn);
  blocker->doing = (uint32_t)doing.count;
  blocker->wanted = BS_NL;
  if (doing.count == BS_WAITS && running_is_same_node(doing.node, wait->node)) blocker->wanted = doing.mode;
}

/* Takes the wait of a slot, to tell it. */
static void running_take_wait(bs_running *running, uint32_t slot, uint64_t nanoseconds) {
  const bs_manager *m = running->manager;
  bs_long_wait *wait = &running->teller->wait;
  bs_slots in_the_way;
  uint32_t other;
  running->waits[slot].is_told = true;
  wait->txn = bs_call_living(m, slot).txn;
  wait->node = running->waits[slot].node;
  wait->mode = running->waits[slot].mode;
  wait->nanoseconds = nanoseconds;
  wait->count = 0;
  in_the_way = bs_call_waits_for(m, wait->txn).slots;
  for (other = 0; other < BS_SLOTS; other++) {
    if (bs_has(in_the_way, other)) running_note_blocker(m, wait, other);
  }
}

/* One call of the function. */
typedef struct running_call {
  void (*function)(void *context, const bs_long_wait *wait, const bs_deadlock *deadlock);
  void *context;
  const bs_long_wait *wait;
  const bs_deadlock *deadlock;
} running_call;

static void running_make_call(void *place) {
  const running_call *call = (const running_call *)place;
  call->function(call->context, call->wait, call->deadlock);
}

/* Tells what was taken, without the latch, which is held before and after. */
static void running_tell(bs_running *running, bool is_deadlock) {
  bs_teller *teller = running->teller;
  running_call call;
  call.function = teller->function;
  call.context = teller->context;
  call.wait = is_deadlock ? NULL : &teller->wait;
  call.deadlock = is_deadlock ? &teller->cycle : NULL;
  if (is_deadlock) running->told_deadlocks++;
  else running->told_waits++;
  teller->is_telling = true;
  pthread_mutex_unlock(running->latch);
  bs_call_engine(running_make_call, &call);
  pthread_mutex_lock(running->latch);
  teller->is_telling = false;
  teller->calls++;
  pthread_cond_broadcast(&teller->returned);
}

/* Sleeps until something may be due: at a time, or if that is the greatest number, until there is a sign. */
static void running_rest(bs_running *running, uint64_t until) {
  bs_teller *teller = running->teller;
  struct timespec time;
  teller->is_idle = until == UINT64_MAX;
  if (teller->is_idle) {
    pthread_cond_wait(&teller->due, running->latch);
    return;
  }
  time.tv_sec = (time_t)(until / RUNNING_SECOND);
  time.tv_nsec = (long)(until % RUNNING_SECOND);
  pthread_cond_timedwait(&teller->due, running->latch, &time);
}

/* Tells what is due, or rests until something may be. */
static void running_tell_next(bs_running *running) {
  bs_teller *teller = running->teller;
  uint32_t slot = teller->function == NULL ? BS_SLOTS : running_first_untold(running);
  uint64_t now = bs_call_now(), waited;
  if (running_take_deadlock(teller)) {
    running_tell(running, true);
    return;
  }
  waited = slot == BS_SLOTS ? 0 : running_from(running->waits[slot].since, now);
  if (slot != BS_SLOTS && waited >= teller->limit) {
    running_take_wait(running, slot, waited);
    running_tell(running, false);
    return;
  }
  running_rest(running, slot == BS_SLOTS ? UINT64_MAX : running_sum(running->waits[slot].since, teller->limit));
}

/* The thread that tells. It cannot be cancelled: only the function could do that, which must return. */
static void *running_tell_over(void *place) {
  bs_running *running = (bs_running *)place;
  int state;
  pthread_setcancelstate(PTHREAD_CANCEL_DISABLE, &state);
  pthread_mutex_lock(running->latch);
  while (!running->is_ending) running_tell_next(running);
  pthread_mutex_unlock(running->latch);
  return NULL;
}

static void running_free_teller(bs_teller *teller) {
  pthread_cond_destroy(&teller->due);
  pthread_cond_destroy(&teller->returned);
  free(teller);
}

/* Starts the thread, if there is none yet; false if memory or the thread is refused. */
static bool running_start(bs_running *running) {
  bs_teller *teller;
  if (running->teller != NULL) return true;
  teller = (bs_teller *)malloc(sizeof *teller);
  if (teller == NULL) return false;
  memset(teller, 0, sizeof *teller);
  bs_call_make_steady(&teller->due);
  bs_call_make_steady(&teller->returned);
  running->teller = teller;
  if (bs_call_start(&teller->thread, running_tell_over, running)) return true;
  running->teller = NULL;
  running_free_teller(teller);
  return false;
}

/* Whether this thread is the one that tells of a table. */
static bool running_is_own(const bs_running *running) {
  return running->teller != NULL && pthread_equal(pthread_self(), running->teller->thread);
}

/* Sleeps until the call of the function that is being made has returned, with the latch held before and after. */
static void running_await_return(bs_running *running) {
  bs_teller *teller = running->teller;
  uint64_t calls = teller->calls;
  int state;
  pthread_setcancelstate(PTHREAD_CANCEL_DISABLE, &state);
  while (teller->is_telling && teller->calls == calls) pthread_cond_wait(&teller->returned, running->latch);
  pthread_setcancelstate(state, &state);
}

/* Milliseconds as nanoseconds, which stop at the greatest number. */
static uint64_t running_limit(uint64_t milliseconds) {
  return milliseconds > UINT64_MAX / 1000000 ? UINT64_MAX : milliseconds * 1000000;
}

/* Puts a function in the place of the one before, with the latch held. */
static void running_give(bs_running *running, uint64_t milliseconds,
                         void (*function)(void *context, const bs_long_wait *wait, const bs_deadlock *deadlock),
                         void *context) {
  bs_teller *teller = running->teller;
  teller->function = function;
  teller->context = context;
  teller->limit = running_limit(milliseconds);
  if (function == NULL) teller->deadlock_count = teller->stuck_count = 0;
  teller->is_idle = false;
  pthread_cond_signal(&teller->due);
  if (!running_is_own(running)) running_await_return(running);
}

bs_reply bs_table_on_long_wait(bs_table *table, uint64_t milliseconds,
                               void (*function)(void *context, const bs_long_wait *wait, const bs_deadlock *deadlock),
                               void *context) {
  bool may_sleep = bs_call_may_sleep();
  const bs_manager *m = bs_table_hold(table);
  bs_running *running;
  bs_status status = BS_DONE;
  if (m == NULL) return running_refused(table);
  running = bs_call_running(m);
  if (!may_sleep && !running_is_own(running)) status = BS_IN_USE;
  else if (function != NULL && milliseconds == 0) status = BS_BAD_NUMBER;
  else if (function != NULL && !running_start(running)) status = BS_NO_MEMORY;
  else if (running->teller != NULL) running_give(running, milliseconds, function, context);
  bs_table_let_go(table);
  return bs_call_only(status);
}

void bs_call_run_out(bs_running *running) {
  running->is_ending = true;
  if (running->teller != NULL) pthread_cond_signal(&running->teller->due);
}

void bs_call_run_join(bs_running *running) {
  if (running->teller != NULL) pthread_join(running->teller->thread, NULL);
}

void bs_call_run_free(bs_running *running) {
  if (running->teller != NULL) running_free_teller(running->teller);
}

/* ------------------------------------------------------------------------------------------------
 * Metrics.
 */

/* All that is written, of one moment. */
typedef struct metrics_copy {
  bs_counts counts;
  bs_waits waits;
  uint64_t nodes, most_nodes, living, most, queued;
  uint64_t told_waits, told_deadlocks, lost_deadlocks;
} metrics_copy;

/* The text, which is written in parts. */
typedef struct metrics_text {
  bool (*write)(void *context, const char *text, size_t length);
  void *context;
  bool has_failed;
  size_t length;
  char text[2048];
} metrics_text;

/* The most bytes of one line. */
enum { METRICS_LINE = 256 };

static void metrics_flush(metrics_text *to) {
  if (!to->has_failed && to->length > 0) to->has_failed = !to->write(to->context, to->text, to->length);
  to->length = 0;
}

/* Appends one or two lines, each shorter than METRICS_LINE. No number has a decimal point, which the locale may
 * change. */
#define METRICS_PUT(to, ...)                                                                  \
  do {                                                                                        \
    if ((to)->length > sizeof(to)->text - 2 * METRICS_LINE) metrics_flush(to);                \
    (to)->length += (size_t)snprintf((to)->text + (to)->length, 2 * METRICS_LINE, __VA_ARGS__); \
  } while (0)

/* A counter or a gauge: its name, its help, and the place of its number in the copy. */
typedef struct metrics_kind {
  const char *name;
  const char *help;
  size_t place;
  bool is_gauge;
} metrics_kind;

#define METRICS_COUNTER(name, field, help) { name, help, offsetof(metrics_copy, field), false }
#define METRICS_GAUGE(name, field, help) { name, help, offsetof(metrics_copy, field), true }

static const metrics_kind metrics_kinds[] = {
  METRICS_COUNTER("commands", counts.accepted, "Commands that were neither refused nor questions."),
  METRICS_COUNTER("locks_granted", counts.granted, "Requests that were granted at once."),
  METRICS_COUNTER("locks_waited", counts.waited, "Requests that were left waiting."),
  METRICS_COUNTER("conversions", counts.conversions, "Requests for a node that the transaction already held."),
  METRICS_COUNTER("conversions_passed", counts.passed, "Modes that were raised at once while others waited."),
  METRICS_COUNTER("waits_granted", counts.granted_later, "Waits that ended with a grant."),
  METRICS_COUNTER("waits_moved", counts.moved, "Waits that ended because the node moved."),
  METRICS_COUNTER("waits_gone", counts.gone, "Waits that ended because the node is gone."),
  METRICS_COUNTER("victims", counts.condemned, "Transactions that were condemned to end a deadlock."),
  METRICS_COUNTER("escalations", counts.escalations, "Escalations that were done."),
  METRICS_COUNTER("escalated_locks", counts.released_children, "Locks that escalations released."),
  METRICS_GAUGE("most_waiting", counts.most_waiting, "The most transactions that waited at once."),
  METRICS_GAUGE("longest_queue", counts.longest_queue, "The most transactions that waited for one node at once."),
  METRICS_GAUGE("waiting", waits.waiting, "Transactions that wait now."),
  METRICS_GAUGE("transactions", living, "Transactions that live now."),
  METRICS_GAUGE("transactions_limit", most, "Transactions that may live at once."),
  METRICS_GAUGE("begins_waiting", queued, "Begins that wait for a slot now."),
  METRICS_GAUGE("nodes", nodes, "Nodes that live now."),
  METRICS_GAUGE("nodes_limit", most_nodes, "Nodes that may live at once."),
  METRICS_COUNTER("long_waits_told", told_waits, "Long waits of which the engine's function was told."),
  METRICS_COUNTER("deadlocks_told", told_deadlocks, "Deadlocks of which the engine's function was told."),
  METRICS_COUNTER("deadlocks_lost", lost_deadlocks, "Deadlocks that were not told, since too many were to be.")
};

static void metrics_put_kind(metrics_text *to, const metrics_copy *copy, const metrics_kind *kind) {
  uint64_t number;
  memcpy(&number, (const char *)copy + kind->place, sizeof number);
  METRICS_PUT(to, "# TYPE burlapslate_%s %s\n", kind->name, kind->is_gauge ? "gauge" : "counter");
  METRICS_PUT(to, "# HELP burlapslate_%s %s\n", kind->name, kind->help);
  METRICS_PUT(to, "burlapslate_%s%s %" PRIu64 "\n", kind->name, kind->is_gauge ? "" : "_total", number);
}

/* A line of a time, in seconds. */
static void metrics_put_time(metrics_text *to, const char *line, uint64_t nanoseconds) {
  METRICS_PUT(to, "%s %" PRIu64 ".%09u\n", line, nanoseconds / RUNNING_SECOND,
              (unsigned)(nanoseconds % RUNNING_SECOND));
}

/* The waits that ended in one way. Each bucket counts those below it too. */
static void metrics_put_histogram(metrics_text *to, const char *end, const bs_histogram *histogram) {
  char line[METRICS_LINE];
  uint64_t count = 0;
  size_t i;
  for (i = 0; i + 1 < BS_WAIT_BUCKETS; i++) {
    unsigned long bound = 1ul << i;
    count += histogram->buckets[i];
    METRICS_PUT(to, "burlapslate_wait_seconds_bucket{end=\"%s\",le=\"%lu.%06lu\"} %" PRIu64 "\n", end, bound / 1000000,
                bound % 1000000, count);
  }
  count += histogram->buckets[i];
  METRICS_PUT(to, "burlapslate_wait_seconds_bucket{end=\"%s\",le=\"+Inf\"} %" PRIu64 "\n", end, count);
  METRICS_PUT(to, "burlapslate_wait_seconds_count{end=\"%s\"} %" PRIu64 "\n", end, count);
  snprintf(line, sizeof line, "burlapslate_wait_seconds_sum{end=\"%s\"}", end);
  metrics_put_time(to, line, histogram->nanoseconds);
}

static void metrics_put_waits(metrics_text *to, const bs_waits *waits) {
  static const char *const ends[BS_WAIT_ENDS] = { "granted", "victim", "timed_out", "cancelled", "moved", "gone" };
  size_t end;
  METRICS_PUT(to, "# TYPE burlapslate_longest_wait_seconds gauge\n# UNIT burlapslate_longest_wait_seconds seconds\n");
  METRICS_PUT(to, "# HELP burlapslate_longest_wait_seconds For how long the longest wait of the present has lasted.\n");
  metrics_put_time(to, "burlapslate_longest_wait_seconds", waits->longest);
  METRICS_PUT(to, "# TYPE burlapslate_wait_seconds histogram\n# UNIT burlapslate_wait_seconds seconds\n");
  METRICS_PUT(to, "# HELP burlapslate_wait_seconds Waits for locks by how they ended.\n");
  for (end = 0; end < BS_WAIT_ENDS; end++) metrics_put_histogram(to, ends[end], &waits->ended[end]);
}

/* Copies all numbers, with the latch held. */
static void metrics_copy_all(const bs_manager *m, metrics_copy *copy) {
  const bs_running *running = bs_call_running(m);
  uint32_t slot;
  memset(copy, 0, sizeof *copy);
  bs_call_counters(m, &copy->counts);
  running_copy_waits(running, &copy->waits);
  copy->nodes = bs_call_len(m).count;
  copy->most_nodes = bs_call_most_nodes(m).count;
  copy->most = bs_call_most(m).count;
  for (slot = 0; slot < BS_SLOTS; slot++) copy->living += bs_call_living(m, slot).status == BS_DONE;
  copy->queued = bs_call_queued(m);
  copy->told_waits = running->told_waits;
  copy->told_deadlocks = running->told_deadlocks;
  copy->lost_deadlocks = running->lost_deadlocks;
}

/* Adds what is counted of a part of its own: the nodes and the limits. The group has the rest. */
static bs_reply metrics_add_part(bs_table *part, metrics_copy *copy) {
  const bs_manager *m = bs_table_hold(part);
  if (m == NULL) return running_refused(part);
  copy->nodes += bs_call_len(m).count;
  copy->most_nodes = running_sum(copy->most_nodes, bs_call_most_nodes(m).count);
  copy->most = bs_call_most(m).count;
  bs_table_let_go(part);
  return bs_call_only(BS_DONE);
}

/* Copies all numbers of a table with parts. Each part counts the inner nodes. */
static bs_reply metrics_copy_parts(bs_table_group *group, metrics_copy *copy) {
  bs_table *part = bs_inside_table_of(group, 0);
  bs_reply reply;
  uint32_t number = 0;
  memset(copy, 0, sizeof *copy);
  reply = bs_group_counters(group, &copy->counts);
  if (reply.status == BS_DONE) reply = running_waits_of_parts(group, &copy->waits);
  while (part != NULL && reply.status == BS_DONE) {
    reply = metrics_add_part(part, copy);
    part = bs_inside_table_of(group, ++number);
  }
  bs_inside_count_txns(group, &copy->living, &copy->queued);
  return reply;
}

/* Copies all numbers of a table. */
static bs_reply metrics_copy_of(bs_table *table, metrics_copy *copy) {
  bs_table_group *group = bs_table_group_of(table);
  const bs_manager *m = bs_table_hold(table);
  if (group != NULL) return metrics_copy_parts(group, copy);
  if (m == NULL) return running_refused(table);
  metrics_copy_all(m, copy);
  bs_table_let_go(table);
  return bs_call_only(BS_DONE);
}

/* Holds off the thread's cancellation: a call of the table is not ended half way. */
bs_reply bs_table_metrics(bs_table *table, bool (*write)(void *context, const char *text, size_t length),
                          void *context) {
  metrics_text to = { write, context, false, 0, { 0 } };
  metrics_copy copy;
  bs_reply reply = write == NULL ? bs_call_null() : metrics_copy_of(table, &copy);
  size_t i;
  int state;
  if (reply.status != BS_DONE) return reply;
  pthread_setcancelstate(PTHREAD_CANCEL_DISABLE, &state);
  for (i = 0; i < sizeof metrics_kinds / sizeof metrics_kinds[0]; i++) metrics_put_kind(&to, &copy, &metrics_kinds[i]);
  metrics_put_waits(&to, &copy.waits);
  METRICS_PUT(&to, "# EOF\n");
  metrics_flush(&to);
  pthread_setcancelstate(state, &state);
  return bs_call_only(to.has_failed ? BS_NOT_WRITTEN : BS_DONE);
}
