/*
 * burlapslate_shared.c: the table of burlapslate_shared.h: a manager with one mutex, its latch, and a condition
 * variable for each slot.
 *
 * WHAT IS PROVED, AND WHAT IS NOT. The library is proved: what each command does and whom it tells, that a look gives a
 * whole board and never an older one, and who waits for what: which wait is over, how a request goes on by that (the
 * rest of a path, a row again, what a row lacks above it, a lock for an instant that is given back), and how it ends. So
 * are begins that wait for a slot: their order, and that each call hands on those that can begin by it. Written in C
 * here, and tested: the mutex and the condition variables. They are in table_enter and table_release, around each call;
 * table_wake, after each command, which continues by table_go_on those whose wait is over; table_hand_on, after what may
 * have ended a transaction; table_sleep, when a lock waits; table_sleep_in_begin_queue, when a begin does; bs_table_end;
 * and table_watch_over, the thread that watches. So are the ends of asks, told by a callback: table_tell, after each
 * critical section that has some, and which asked begin has a word; sessions: those who rest are ended after a request
 * that waits for them, and one of them before a begin that finds no slot, and the library says who they are; and tries
 * with what is above a row or a record. All else here makes calls of the library between these.
 * burlapslate_running.c times the waits: table_register, table_note_ended, table_gone_on and table_time_out tell it of
 * them.
 * burlapslate_trace.c makes the commands of a traced table: table_make_* ask it.
 */
#include "burlapslate_dump.h"
#include "burlapslate_group.h"
#include "burlapslate_inside.h"
#include "burlapslate_rows.h"
#include "burlapslate_session.h"
#include "burlapslate_splits.h"

#include <errno.h>
#include <pthread.h>
#include <signal.h>
#include <stddef.h>
#include <stdlib.h>
#include <unistd.h>

/* A begin that waits for a slot: of a thread that sleeps, or of an ask. Its address is its name. */
typedef struct table_queued_begin {
  struct table_asked *ask; /* null: a thread sleeps */
  uint64_t since;          /* the age since which its work was tried, or TABLE_NEW_WORK */
} table_queued_begin;

/* A thread that sleeps for a slot, in its call's frame. */
typedef struct table_beginner {
  table_queued_begin queued;
  bs_reply begun;      /* what it was answered; BS_WAITING: its turn has not come */
  pthread_cond_t came;
} table_beginner;

/* What a call was left waiting for. */
typedef struct table_wait {
  bs_node node;
  bs_mode mode;
} table_wait;

/* A lock for an instant that a list left waiting; and what it was granted as, once it was. */
typedef struct table_instant {
  bs_txn txn;
  bs_node node;
  bs_mode came; /* BS_NL: it was not granted yet */
} table_instant;

/* The latest time at which each wait of a transaction ends; with age 0 there is none. */
typedef struct table_deadline {
  uint64_t age, time;
} table_deadline;

/* A row as a call names it. */
typedef struct table_row {
  bs_node file;
  uint64_t number;
  const uint64_t *keys;
  size_t count;
} table_row;

/* What a call requests that may wait. */
typedef enum table_kind { TABLE_NODE, TABLE_PATH, TABLE_ROW, TABLE_ROW_PATH } table_kind;

typedef struct table_request {
  table_kind kind;
  bs_txn txn;
  bs_node node;    /* of a row, none */
  bs_mode mode;
  bool is_instant; /* it is requested for an instant, and was not held */
  table_row row;   /* of a row */
} table_request;

/* A call, in its frame, or an ask: it awaits the end of a request. */
typedef struct table_waiter {
  struct table_asked *ask;      /* null: a call */
  const struct timespec *until; /* the time of its call, read within that alone */
  bool is_list;                 /* it is of a list, which leaves it waiting */
  bool sleeps;                  /* its thread sleeps */
  bool has_ended;
  bs_reply end;
} table_waiter;

/* An ask: it waits, its end must be told, or it is a spare one. */
typedef struct table_asked table_asked;
struct table_asked {
  struct table_asked *next; /* in its list */
  bs_table *table;
  bs_txn txn;               /* of a begin, none before it has begun */
  void *word;
  table_waiter waiter;
  bool has_time;            /* its wait has a time at which it ends */
  bool is_inside;           /* its call has not returned: so that answers its end */
  table_queued_begin begin; /* of a begin alone, as all after it */
  uint64_t begin_time;      /* that time */
};

/* Asks in order. */
typedef bs_inside_asks table_asked_list;

/* The asks of a table whose engine has given a callback. */
typedef struct table_asks {
  void (*on_end)(void *context, bs_txn txn, bs_reply end, void *word);
  void *context;
  table_asked_list over;     /* those whose wait ended in this hold */
  table_asked_list begins;   /* those that wait for a slot */
  table_asked *spare;
} table_asks;

/* A table is ending as soon as it must wake all sleepers, and ended when its manager is gone. */
typedef enum table_stage { TABLE_OPEN = 0, TABLE_ENDING, TABLE_ENDED } table_stage;

/* All fields but the latch, `group` and `looks` are read and written with the latch held. The latch is in a cache line
 * with what no call writes: who retries it takes that line from its holder, and not the next one, which has what each call
 * writes, up to the count of `told`. */
struct bs_table {
  pthread_mutex_t latch;
  bs_table_group *group;          /* null; of a table with parts its group, and then nothing else is used. No latch is
                                   * needed: it stays as long as the table does */
  bs_manager manager;
  table_stage stage __attribute__((aligned(BS_LINE)));
  bool is_due;                    /* this hold has ended waits: waiters are woken or told as it ends */
  bool is_traced;                 /* it has a trace */
  bool has_rested;                /* a transaction of a session has rested: one may rest still */
  size_t queued;                  /* how many begins wait for a slot */
  bs_notices told;                /* by the last command whose caller wanted no list */
  table_asks *asks;               /* null if nobody can ask without a sleep */
  size_t sleepers;                /* how many threads sleep, for a lock or for a slot */
  uint64_t waited;                /* how many commands had been accepted when the last lock was left waiting; 1 if no
                                   * thread watched then: the first board of one that starts later has all waits */
  bs_slots to_wake;               /* the slots whose sleepers must be woken after this hold */
  bs_table *held_before;          /* if bs_table_hold holds this one: what its holder held before */
  void *block;                    /* what malloc gave */
  uint32_t looks, pauses;         /* how often a thread that finds the latch held retries before it sleeps, and how often
                                   * it pauses before each retry */
  pthread_cond_t ended[BS_SLOTS]; /* by slot: a wait is over */
  table_waiter *waiters[BS_SLOTS]; /* by slot: who awaits its end */
  table_deadline deadlines[BS_SLOTS]; /* by slot: of the transaction of this age, and of no later one */
  table_instant instants[BS_SLOTS]; /* by slot: for which lock it waited that a list requested, up to its next wait */
  size_t to_tell;                 /* how many ends of asks must be told, and asks that tell others' before they end */
  pthread_cond_t left;            /* the last sleeper has left an ending table, or the last end was told */
  bool is_watched;                /* there is a thread that watches, and it looks by `eye` */
  pthread_t watch;
  bs_watcher eye;
  uint64_t pace;
  pthread_cond_t began;           /* a lock was left waiting, or the table ends */
  pthread_cond_t over;            /* the table ends */
  bs_call_namer namer;            /* how the engine names nodes, in dumps */
  bs_running running;             /* the times of its waits */
  bs_trace *trace;                /* null if it has none */
  bs_inside_look *look;           /* null, or what each sleeper calls now and then */
  void *look_context;
};

/* Rare code is not inlined, so that the path of each call is short. What each caller gives another constant is: so a
 * lock that stays pays nothing for those for an instant. */
#define TABLE_APART __attribute__((noinline))
#define TABLE_IN_LINE inline __attribute__((always_inline))

/* Of those who rest, a call ends all who are to be ended, and not one alone. */
#define TABLE_ALL 0

/* Each command of the manager is made by a function table_make_*: by the manager's call of that name, or, of a traced
 * table, by that of the trace, which makes the call and says it. */
#define TABLE_MAKES(call, parameters, ...)                                                          \
  static inline bs_reply table_make_##call parameters {                                             \
    if (__builtin_expect(table->is_traced, 0)) return bs_traced_##call(table->trace, __VA_ARGS__);  \
    return bs_##call(&table->manager, __VA_ARGS__);                                                 \
  }

TABLE_MAKES(add_inner, (bs_table *table, const bs_node *parents, size_t count), parents, count)
TABLE_MAKES(add_file, (bs_table *table, const bs_node *parents, size_t count), parents, count)
TABLE_MAKES(add_row_file, (bs_table *table, const bs_node *parents, size_t count), parents, count)
TABLE_MAKES(add_index, (bs_table *table, const bs_node *parents, size_t count, bs_node file, const uint64_t *bounds,
            size_t bound_count), parents, count, file, bounds, bound_count)
TABLE_MAKES(index_by, (bs_table *table, bs_txn txn, const bs_node *parents, size_t count, bs_node file,
            const uint64_t *bounds, size_t bound_count), txn, parents, count, file, bounds, bound_count)
TABLE_MAKES(begin_again, (bs_table *table, uint64_t since), since)
TABLE_MAKES(call_begin_in_turn, (bs_table *table, uint64_t since, uint64_t word, uint64_t until), since, word, until)
TABLE_MAKES(renew, (bs_table *table, bs_txn txn, uint64_t since), txn, since)
TABLE_MAKES(lock, (bs_table *table, bs_txn txn, bs_node node, bs_mode mode, bs_notices *told), txn, node, mode, told)
TABLE_MAKES(lock_path, (bs_table *table, bs_txn txn, bs_node node, bs_mode mode, bs_notices *told),
            txn, node, mode, told)
TABLE_MAKES(try, (bs_table *table, bs_txn txn, bs_node node, bs_mode mode), txn, node, mode)
TABLE_MAKES(call_try_path, (bs_table *table, bs_txn txn, bs_node node, bs_mode mode, uint32_t keep, bs_notices *told),
            txn, node, mode, keep, told)
TABLE_MAKES(unlock, (bs_table *table, bs_txn txn, bs_node node, bs_notices *told), txn, node, told)
TABLE_MAKES(release_since, (bs_table *table, bs_txn txn, uint64_t savepoint, bs_notices *told), txn, savepoint, told)
TABLE_MAKES(escalate, (bs_table *table, bs_txn txn, bs_node node, bs_notices *told), txn, node, told)
TABLE_MAKES(cancel, (bs_table *table, bs_txn txn, bs_notices *told), txn, told)
TABLE_MAKES(commit, (bs_table *table, bs_txn txn, bs_notices *told), txn, told)
TABLE_MAKES(abort, (bs_table *table, bs_txn txn, bs_notices *told), txn, told)
TABLE_MAKES(settle, (bs_table *table, bs_txn txn, bs_notices *told), txn, told)
TABLE_MAKES(insert, (bs_table *table, bs_txn txn, bs_node file, const uint64_t *keys, size_t count),
            txn, file, keys, count)
TABLE_MAKES(delete, (bs_table *table, bs_txn txn, bs_node record, bs_notices *told), txn, record, told)
TABLE_MAKES(adopt, (bs_table *table, bs_node file, const uint64_t *keys, size_t count), file, keys, count)
TABLE_MAKES(forget, (bs_table *table, bs_node record), record)
TABLE_MAKES(rekey, (bs_table *table, bs_txn txn, bs_node record, bs_node index, uint64_t key, bs_notices *told),
            txn, record, index, key, told)
TABLE_MAKES(move, (bs_table *table, bs_txn txn, bs_node node, const bs_node *parents, size_t count, bs_notices *told),
            txn, node, parents, count, told)
TABLE_MAKES(drop, (bs_table *table, bs_txn txn, bs_node node, bs_notices *told), txn, node, told)
TABLE_MAKES(split, (bs_table *table, bs_txn txn, bs_node interval, uint64_t at, bs_notices *told), txn, interval, at, told)
TABLE_MAKES(merge, (bs_table *table, bs_txn txn, bs_node interval, bs_notices *told), txn, interval, told)
TABLE_MAKES(lock_row, (bs_table *table, bs_txn txn, bs_node file, uint64_t number, const uint64_t *keys, size_t count,
            bs_mode mode, bs_notices *told), txn, file, number, keys, count, mode, told)
TABLE_MAKES(call_try_row, (bs_table *table, bs_txn txn, bs_node file, uint64_t number, const uint64_t *keys,
            size_t count, bs_mode mode, bs_notices *told), txn, file, number, keys, count, mode, told)
TABLE_MAKES(call_clear_way, (bs_table *table, bs_notices *told), TABLE_ALL, told)
TABLE_MAKES(call_clear_node, (bs_table *table, bs_node node, bs_mode mode, bs_notices *told), node, mode, TABLE_ALL, told)
TABLE_MAKES(call_make_room, (bs_table *table, bs_notices *told), told)
TABLE_MAKES(call_go_on, (bs_table *table, bs_notices *told), told)
TABLE_MAKES(call_time_out, (bs_table *table, bs_txn txn, bs_notices *told), txn, told)
TABLE_MAKES(unlock_row, (bs_table *table, bs_txn txn, bs_node file, uint64_t number, bs_notices *told),
            txn, file, number, told)
TABLE_MAKES(rekey_row, (bs_table *table, bs_txn txn, bs_node file, uint64_t number, bs_node index, uint64_t key,
            bs_notices *told), txn, file, number, index, key, told)

static inline bs_reply table_make_begin(bs_table *table) {
  return __builtin_expect(table->is_traced, 0) ? bs_traced_begin(table->trace) : bs_begin(&table->manager);
}

/* ------------------------------------------------------------------------------------------------
 * The latch and the wake-ups.
 */

/* A thread that finds the latch held retries so often before it sleeps, and pauses so many times before each retry. A
 * hold is mostly over by the first retry, and to sleep and be woken takes longer than all. With more retries each would
 * get the latch sooner, but all together would do less: between two retries a thread makes several calls, and what they
 * write stays in its own cache. With one processor no thread releases the latch meanwhile, and none retries. A thread of a
 * group uses several parts, and so finds them in other caches in any case: there it pauses for a shorter time. */
enum { TABLE_LOOKS = 10, TABLE_PAUSES = 400, TABLE_PAUSES_IN_GROUP = 20 };

static inline void table_pause(void) {
#if defined(__x86_64__)
  __builtin_ia32_pause();
#endif
}

static TABLE_APART void table_take_held(bs_table *table) {
  uint32_t look, pause;
  for (look = 0; look < table->looks; look++) {
    for (pause = 0; pause < table->pauses; pause++) table_pause();
    if (pthread_mutex_trylock(&table->latch) == 0) return;
  }
  pthread_mutex_lock(&table->latch);
}

/* Acquires the latch. */
static inline void table_take(bs_table *table) {
  if (pthread_mutex_trylock(&table->latch) != 0) table_take_held(table);
}

/* The tables that this thread holds by bs_table_hold, the last first. */
static __thread __attribute__((tls_model("initial-exec"))) bs_table *table_held;

/* Whether a table is one of these, which were held one after the other. */
static TABLE_APART bool table_is_among(const bs_table *table, const bs_table *held) {
  while (held != NULL && held != table) held = held->held_before;
  return held != NULL;
}

/* What this thread held when the callback was called, which the callback does not give back; null outside a
 * callback. */
static __thread __attribute__((tls_model("initial-exec"))) bs_table *table_held_outside;

/* Whether this thread holds the table. */
static inline bool table_holds(const bs_table *table) {
  return table_held != NULL && table_is_among(table, table_held);
}

/* The ends that this thread tells; null outside a callback. */
static __thread __attribute__((tls_model("initial-exec"))) table_asked_list *table_telling;

static TABLE_APART void table_release_and_tell(bs_table *table);

/* Releases the latch, with all that its critical section has set off. */
static inline void table_release(bs_table *table) {
  if (table->is_due) table_release_and_tell(table);
  else pthread_mutex_unlock(&table->latch);
}

static TABLE_APART bool table_turned_away(bs_table *table) {
  pthread_mutex_unlock(&table->latch);
  return false;
}

/* Whether a table has parts; then its calls are those of its group. */
static inline bool table_has_parts(const bs_table *table) {
  return table != NULL && __builtin_expect(table->group != NULL, 0);
}

/* In the body of a call: makes this one in its place if the table has parts. The second empties the list of a caller. */
#define TABLE_BY_GROUP(table, call) \
  if (table_has_parts(table)) return call

#define TABLE_TELL_BY_GROUP(table, told, call) \
  if (table_has_parts(table)) return table_told_nobody(told), call

static TABLE_APART void table_told_nobody(bs_notices *told) {
  if (told != NULL) told->count = 0;
}

/* Acquires the latch of a table, and answers whether the table is open; if it is not, the latch is not held. */
static inline bool table_enter(bs_table *table) {
  if (table == NULL || table->group != NULL || table_holds(table)) return false;
  table_take(table);
  return table->stage == TABLE_OPEN || table_turned_away(table);
}

static bs_reply table_leave(bs_table *table, bs_reply reply) {
  table_release(table);
  return reply;
}

/* Why a table was not entered. */
static bs_status table_shut(bs_table *table) {
  if (table == NULL) return BS_NULL_POINTER;
  if (table->group != NULL) return BS_IN_PARTS;
  return table_holds(table) ? BS_IN_USE : BS_NO_MANAGER;
}

static TABLE_APART bs_reply table_no_table(bs_table *table) {
  return bs_call_only(table_shut(table));
}

bs_status bs_call_table_shut(bs_table *table) {
  if (!table_enter(table)) return table_shut(table);
  pthread_mutex_unlock(&table->latch);
  return BS_DONE;
}

/* Adds what a later command told, by rising slots. A transaction that was told before has the later notice alone. */
static void table_tell_too(bs_notices *told, const bs_notices *more) {
  size_t i;
  for (i = 0; i < more->count; i++) {
    const bs_notice *next = &more->at[i];
    size_t place = told->count, from;
    while (place > 0 && told->at[place - 1].txn.slot >= next->txn.slot) place--;
    if (place == told->count || told->at[place].txn.slot != next->txn.slot) {
      for (from = told->count++; from > place; from--) told->at[from] = told->at[from - 1];
    }
    told->at[place] = *next;
  }
}

/* Tells the times of waits that the last command has ended the waits that bs_ended says. */
static void table_note_ended(bs_table *table, const bs_notices *told) {
  bs_slots ended = bs_call_ended(&table->manager).slots;
  bs_call_waits_ended(&table->running, &ended, told);
}

static bool table_is_same_node(bs_node one, bs_node other) {
  return one.key == other.key && one.birth == other.birth;
}

static inline void table_append(table_asked_list *list, table_asked *ask) {
  ask->next = NULL;
  if (list->first == NULL) list->first = ask;
  else list->last->next = ask;
  list->last = ask;
}

/* The end of this ask must be told. */
static inline void table_has_to_tell(bs_table *table, table_asked *ask) {
  table_append(&table->asks->over, ask);
  table->to_tell++;
  table->is_due = true;
}

/* The request of this waiter has ended: wakes its thread as the hold ends, if that sleeps; an ask is answered by its
 * call, or else its end must be told. */
static void table_end(bs_table *table, table_waiter *waiter, uint32_t slot, bs_reply end) {
  table_asked *ask = waiter->ask;
  table->waiters[slot] = NULL;
  waiter->end = end;
  waiter->end.txn = bs_call_only(BS_DONE).txn;
  waiter->end.count = 0;
  waiter->has_ended = true;
  if (waiter->sleeps) {
    table->to_wake.words[slot / 64] |= (uint64_t)1 << slot % 64;
    table->is_due = true;
  } else if (ask != NULL && !ask->is_inside) {
    table_has_to_tell(table, ask);
  }
}

/* A lock for an instant that a list left waiting has ended so. */
static void table_end_instant(bs_table *table, bs_reply end) {
  table_instant *own = &table->instants[end.txn.slot];
  if (own->txn.age == end.txn.age && end.status == BS_DONE) own->came = end.mode;
}

/* After a command that is not done: if a wait began, wakes the thread that watches. If the requester was condemned,
 * none began, but there was a deadlock. */
static TABLE_APART void table_blocked(bs_table *table, bs_status status) {
  if (status == BS_VICTIM) bs_call_condemned(&table->running);
  if (status != BS_WAITING) return;
  if (!table->is_watched) {
    table->waited = 1;
    return;
  }
  table->waited = bs_call_accepted(&table->manager).count;
  pthread_cond_signal(&table->began);
}

/* A waiter has gone on, and its request came to this. */
static void table_gone_on(bs_table *table, bs_reply came) {
  table_waiter *waiter = table->waiters[came.txn.slot];
  if (came.status == BS_WAITING) bs_call_wait_began(&table->running, came.txn);
  table_blocked(table, came.status);
  if (came.status == BS_WAITING || came.status == BS_ON_THE_WAY) return;
  if (waiter == NULL) table_end_instant(table, came);
  else table_end(table, waiter, came.txn.slot, came);
}

/* Whether a call has ended some who rested. Adds what that told. */
static TABLE_APART bool table_ended_resting(bs_table *table, bs_reply reply, const bs_notices *more, bs_notices *told) {
  if (reply.status != BS_DONE) return false;
  table_note_ended(table, more);
  table_tell_too(told, more);
  return true;
}

/* Ends those who rest and for whom somebody waits; whether there were any. The library says who. A call of it ends all,
 * or all up to one whose end tells somebody. */
static TABLE_APART bool table_clear_all(bs_table *table, bs_notices *told) {
  bs_notices more;
  bool any = false;
  while (table_ended_resting(table, table_make_call_clear_way(table, &more), &more, told)) any = true;
  return any;
}

/* Continues each waiter whose wait is over, by rising slots, until none is: the library says which, and how, and whether
 * one is after that. Adds what that tells. */
static TABLE_APART void table_go_on(bs_table *table, bs_notices *told) {
  bs_notices more;
  bs_reply came;
  bool is_over;
  do {
    came = table_make_call_go_on(table, &more);
    if (came.status == BS_NO_PLACE) return;
    if (more.count > 0) {
      table_note_ended(table, &more);
      table_tell_too(told, &more);
    }
    table_gone_on(table, came);
    is_over = came.count != 0;
    if (table->has_rested && came.status == BS_WAITING) is_over |= table_clear_all(table, told);
  } while (is_over);
}

/* After a request that was left waiting: ends those who rest and are in its way, and continues whose wait that ends. One
 * for a row is in nobody's way who rests: a record is held in S or X alone. */
static TABLE_APART void table_clear_way(bs_table *table, bs_notices *told) {
  if (table_clear_all(table, told)) table_go_on(table, told);
}

/* Continues those whose wait the last accepted command has ended. */
static TABLE_APART void table_wake_told(bs_table *table, bs_notices *told) {
  table_note_ended(table, told);
  table_go_on(table, told);
}

/* The same after a command that was answered so, unless that was refused. */
static TABLE_APART void table_wake_ended(bs_table *table, bs_status status, bs_notices *told) {
  bool is_accepted = status == BS_DONE || status == BS_WAITING || status == BS_VICTIM || status == BS_ON_THE_WAY ||
                     status == BS_OTHER_KEYS;
  if (is_accepted) table_wake_told(table, told);
}

/* After a command that was answered so: continues those whose wait it has ended. It does not ask for them if there are
 * none: if the command told nobody, and ends no wait by name. A cancel and an abort end one by name. */
static inline void table_wake(bs_table *table, bs_status status, bs_notices *told, bool by_name) {
  if (by_name || told->count > 0) table_wake_ended(table, status, told);
  if (__builtin_expect(status != BS_DONE, 0)) table_blocked(table, status);
}

/* Nanoseconds by CLOCK_MONOTONIC; the greatest number says that there is no time. */
#define TABLE_NO_TIME UINT64_MAX

static uint64_t table_time_of(const struct timespec *until) {
  const uint64_t second = 1000000000u;
  if (until == NULL) return TABLE_NO_TIME;
  if (until->tv_sec < 0) return 0;
  if ((uint64_t)until->tv_sec >= TABLE_NO_TIME / second) return TABLE_NO_TIME - 1;
  return (uint64_t)until->tv_sec * second + (uint64_t)until->tv_nsec;
}

static struct timespec table_timespec_of(uint64_t time) {
  struct timespec until;
  until.tv_sec = (time_t)(time / 1000000000u);
  until.tv_nsec = (long)(time % 1000000000u);
  return until;
}

/* The latest time at which a wait that begins now ends: the earlier of the call's and the transaction's. */
static uint64_t table_earlier(const bs_table *table, bs_txn txn, const struct timespec *until) {
  const table_deadline *own = &table->deadlines[txn.slot];
  uint64_t time = table_time_of(until);
  return own->age == txn.age && own->time < time ? own->time : time;
}

/* Registers with the library a request that waits so, unless its wait is over or has a waiter: answers BS_WAITING if it
 * was registered. */
static bs_reply table_await(bs_table *table, const table_request *request, table_wait wait, uint64_t until) {
  const table_row *row = &request->row;
  bs_manager *m = &table->manager;
  bs_txn txn = request->txn;
  bs_mode mode = request->mode;
  switch (request->kind) {
    case TABLE_PATH:
      return bs_call_await_path(m, txn, request->node, mode, request->is_instant, wait.node, wait.mode, until);
    case TABLE_ROW:
      return bs_call_await_row(m, txn, row->file, row->number, bs_call_numbers(row->keys), row->count, mode, wait.node,
                               until);
    case TABLE_ROW_PATH:
      return bs_call_await_row_path(m, txn, row->file, row->number, bs_call_numbers(row->keys), row->count, mode,
                                    wait.node, until);
    default: return bs_call_await_node(m, txn, request->node, mode, request->is_instant, until);
  }
}

/* A request was just left waiting so. An earlier grant for an instant says nothing of it. */
static void table_note_wait(bs_table *table, bs_txn txn) {
  table->instants[txn.slot].came = BS_NL;
  bs_call_wait_began(&table->running, txn);
}

/* A waiter begins to wait. Answers the time that the library needs to know: an ask's. A thread that sleeps looks at the
 * clock itself. */
static uint64_t table_begin_wait(const bs_table *table, bs_txn txn, table_waiter *waiter) {
  uint64_t time;
  waiter->sleeps = false;
  waiter->has_ended = false;
  if (waiter->ask == NULL) return TABLE_NO_TIME;
  time = table_earlier(table, txn, waiter->until);
  waiter->ask->has_time = time != TABLE_NO_TIME;
  return time;
}

/* This waiter awaits the end of a wait from now on, unless that is over or has a waiter: answers BS_WAITING if it awaits
 * it. */
static bs_reply table_enlist(bs_table *table, const table_request *request, table_wait wait, table_waiter *waiter) {
  bs_reply reply = table_await(table, request, wait, table_begin_wait(table, request->txn, waiter));
  if (reply.status == BS_WAITING) table->waiters[request->txn.slot] = waiter;
  return reply;
}

/* Registers the wait of a request that was just left waiting, before anybody goes on: what is set off then may end this
 * wait too. If it has told nobody, and nobody rests, nobody goes on: so that of a list needs no waiter. */
static TABLE_APART void table_register(bs_table *table, const table_request *request, table_wait wait,
                                       table_waiter *waiter, const bs_notices *told) {
  table_note_wait(table, request->txn);
  if (waiter->is_list && told->count == 0 && !table->has_rested) return;
  table_enlist(table, request, wait, waiter);
}

/* Leaves the wait of a list's request, which nobody awaits any more. One for an instant is released when it is granted,
 * whoever awaits it. */
static TABLE_APART void table_leave_waiting(bs_table *table, bs_txn txn, table_wait wait, bool is_instant) {
  table_instant *own = &table->instants[txn.slot];
  if (table->waiters[txn.slot] != NULL) {
    table->waiters[txn.slot] = NULL;
    bs_call_withdraw_waiter(&table->manager, txn);
  }
  if (is_instant) {
    own->txn = txn;
    own->node = wait.node;
    bs_call_await_node(&table->manager, txn, wait.node, wait.mode, true, TABLE_NO_TIME);
  }
}

/* Sleeps on a condition variable, with the latch held before and after, at most until a time if that is not null.
 * Answers ETIMEDOUT if that time is over. The sleeper must have nobody left to wake or tell. Holds off the thread's
 * cancellation, which would keep the latch. */
static int table_doze(bs_table *table, pthread_cond_t *on, const struct timespec *until) {
  int state, late;
  pthread_setcancelstate(PTHREAD_CANCEL_DISABLE, &state);
  late = until == NULL ? pthread_cond_wait(on, &table->latch) : pthread_cond_timedwait(on, &table->latch, until);
  pthread_setcancelstate(state, &state);
  return late;
}

/* A sleeper has the latch again, and leaves. */
static void table_woken(bs_table *table) {
  table->sleepers--;
  if (table->stage == TABLE_ENDING && table->sleepers == 0) pthread_cond_signal(&table->left);
}

/* Cancels the wait of this waiter, whose time is over. It waits on if no command can be counted any more. */
static bs_reply table_time_out(bs_table *table, bs_txn txn, table_waiter *waiter) {
  bs_reply end = table_make_call_time_out(table, txn, &table->told);
  if (end.status != BS_TIMED_OUT) return bs_call_only(BS_WORN_OUT);
  bs_call_wait_cut(&table->running, txn.slot, BS_END_TIMED_OUT);
  table_end(table, waiter, txn.slot, end);
  table_wake_told(table, &table->told);
  return end;
}

/* The same for a thread that sleeps: if its transaction waits on, nobody awaits that. */
static void table_give_up(bs_table *table, bs_txn txn, table_waiter *own) {
  own->end = table_time_out(table, txn, own);
  if (own->end.status == BS_TIMED_OUT) return;
  table->waiters[txn.slot] = NULL;
  bs_call_withdraw_waiter(&table->manager, txn);
}

/* Within a call that continues: wakes and tells those to whom this critical section has brought something, with the
 * latch held before and after. Others use the table meanwhile. */
static TABLE_APART void table_tell_between(bs_table *table) {
  if (!table->is_due) return;
  table_release(table);
  table_take(table);
}

/* What became of a lock that was left waiting. The manager knows nothing of one released when granted. */
static bs_reply table_became(bs_table *table, bs_txn txn, bs_node node, bs_mode mode) {
  bs_reply reply = bs_call_verdict(&table->manager, txn, node, mode);
  const table_instant *own;
  if (reply.status != BS_NOT_WAITING) return reply;
  own = &table->instants[txn.slot];
  if (own->came == BS_NL || own->txn.age != txn.age || !table_is_same_node(own->node, node)) return reply;
  reply = bs_call_only(BS_DONE);
  reply.mode = own->came;
  return reply;
}

/* A sleeper of a table of a group looks first after 2 ms, and then after twice as long each time, up to 256 ms. */
enum { TABLE_FIRST_LOOK = 2000000, TABLE_LAST_LOOK = 256000000 };

/* Sleeps on in a table of a group, until the wait has ended, and looks now and then: that may end this wait or another.
 * The latch is free during a look, and those whose wait it has ended are woken after it. Answers ETIMEDOUT if this time
 * is over first. */
static TABLE_APART int table_doze_and_look(bs_table *table, bs_txn txn, const table_waiter *own, uint64_t time) {
  uint64_t pause = TABLE_FIRST_LOOK;
  while (!own->has_ended) {
    uint64_t now = bs_call_now(), look_at = now + pause;
    struct timespec until = table_timespec_of(time < look_at ? time : look_at);
    int late = 0;
    while (!own->has_ended && late != ETIMEDOUT) late = table_doze(table, &table->ended[txn.slot], &until);
    if (own->has_ended) return 0;
    if (time < look_at) return ETIMEDOUT;
    table->look(table->look_context, table, now);
    table_tell_between(table);
    if (pause < TABLE_LAST_LOOK) pause *= 2;
  }
  return 0;
}

/* For a request that was answered BS_WAITING: sleeps, with the latch held before and after, until it has ended, or the
 * time is over, or the table ends. It asks for the end before it looks at the clock. It computes the time once: a
 * deadline that another thread sets meanwhile is for later calls. It wakes or tells those whose wait it has ended before
 * it sleeps. */
static TABLE_APART bs_reply table_sleep(bs_table *table, bs_txn txn, table_waiter *own) {
  uint64_t time = table_earlier(table, txn, own->until);
  struct timespec until = table_timespec_of(time);
  int late = 0;
  table->sleepers++;
  own->sleeps = true;
  if (!own->has_ended) table_tell_between(table);
  if (table->look != NULL) late = table_doze_and_look(table, txn, own, time);
  while (!own->has_ended && late != ETIMEDOUT) {
    late = table_doze(table, &table->ended[txn.slot], time == TABLE_NO_TIME ? NULL : &until);
  }
  if (!own->has_ended) table_give_up(table, txn, own);
  table_woken(table);
  return own->end;
}

/* ------------------------------------------------------------------------------------------------
 * The begin queue: the threads that sleep for a slot, and the asks that wait for one.
 */

/* Of a begin for new work, which no earlier begin has tried. */
#define TABLE_NEW_WORK UINT64_MAX

/* The name of a begin, and the begin of a name. */
static inline uint64_t table_name_of(const table_queued_begin *begin) {
  return (uint64_t)(uintptr_t)begin;
}

static table_queued_begin *table_begin_named(uint64_t name) {
  return (table_queued_begin *)(uintptr_t)name;
}

/* Takes an ask out of the list that it is in. */
static void table_unlist(table_asked_list *list, table_asked *ask) {
  table_asked *before = NULL, **at = &list->first;
  while (*at != ask) {
    before = *at;
    at = &before->next;
  }
  *at = ask->next;
  if (list->last == ask) list->last = before;
}

/* The begin of an ask has left the begin queue, and came to this. */
static void table_end_asked_begin(bs_table *table, table_asked *ask, bs_reply came) {
  table_unlist(&table->asks->begins, ask);
  ask->txn = came.txn;
  ask->waiter.end = came;
  table_has_to_tell(table, ask);
}

/* A begin has left the begin queue, and came to this: wakes its thread, or has its end told. */
static void table_end_begin(bs_table *table, table_queued_begin *begin, bs_reply came) {
  table_beginner *own = (table_beginner *)(void *)begin;
  table->queued--;
  if (begin->ask != NULL) {
    table_end_asked_begin(table, begin->ask, came);
    return;
  }
  own->begun = came;
  pthread_cond_signal(&own->came);
}

/* Gives the begins that the library has handed on to the threads that sleep for them, and to the asks. So no critical
 * section leaves one untaken. No turn can be lost: a begin whose time is over has begun by then, or is still in the
 * queue. */
static TABLE_APART void table_take_all_begun(bs_table *table) {
  bs_reply begun = bs_call_take_begun(&table->manager);
  for (; begun.count != 0; begun = bs_call_take_begun(&table->manager)) {
    table_queued_begin *next = table_begin_named(begun.count);
    begun.count = 0;
    if (table->is_traced) bs_traced_begun(table->trace, begun, next->since);
    table_end_begin(table, next, begun);
  }
}

/* After what may have ended a transaction. */
static inline void table_hand_on(bs_table *table) {
  if (table->queued > 0) table_take_all_begun(table);
}

/* Ends each begin of the queue whose time is over by now, with this status. A thread that sleeps has no time there. */
static void table_end_late_begins(bs_table *table, uint64_t now, bs_status status) {
  bs_reply late;
  if (table->queued == 0) return;
  late = bs_call_take_late_begin(&table->manager, now);
  for (; late.count != 0; late = bs_call_take_late_begin(&table->manager, now)) {
    table_end_begin(table, table_begin_named(late.count), bs_call_only(status));
  }
}

/* Sleeps for a slot, with the latch held before and after, until the library has begun for this thread, or the time is
 * over, or the table ends. It asks whether it has begun before it looks at the clock. */
static TABLE_APART bs_reply table_sleep_in_begin_queue(bs_table *table, table_beginner *own, uint64_t since,
                                                       const struct timespec *until) {
  int late = 0;
  own->queued.ask = NULL;
  own->queued.since = since;
  own->begun = bs_call_only(BS_WAITING);
  bs_call_make_steady(&own->came);
  table->sleepers++;
  while (own->begun.status == BS_WAITING && late != ETIMEDOUT) {
    late = table_doze(table, &own->came, until);
  }
  if (own->begun.status == BS_WAITING) {
    bs_call_withdraw_begin(&table->manager, table_name_of(&own->queued));
    table->queued--;
    own->begun.status = BS_TIMED_OUT;
  }
  if (table->stage == TABLE_ENDING) own->begun = table_no_table(table);
  table_woken(table);
  pthread_cond_destroy(&own->came);
  return own->begun;
}

/* Ends the transaction that has rested longest; whether there was one. It tells nobody, since nobody waits for it. */
static TABLE_APART bool table_end_longest(bs_table *table) {
  bs_notices more;
  return table_ended_resting(table, table_make_call_make_room(table, &more), &more, &table->told);
}

/* Whether a begin that was answered so is to be made again: no slot was free, and one who rested has given up its. */
static inline bool table_makes_room(bs_table *table, bs_reply reply) {
  return __builtin_expect(reply.status == BS_TOO_MANY_TXNS, 0) && table->has_rested && table_end_longest(table);
}

/* Makes the call bs_begin with the latch held. */
static inline bs_reply table_begin_now(bs_table *table) {
  bs_reply reply = table_make_begin(table);
  return table_makes_room(table, reply) ? table_make_begin(table) : reply;
}

static bs_reply table_begin_again_now(bs_table *table, uint64_t since) {
  bs_reply reply = table_make_begin_again(table, since);
  return table_makes_room(table, reply) ? table_make_begin_again(table, since) : reply;
}

/* The time by CLOCK_MONOTONIC that is so far from now. */
static struct timespec table_ahead(uint64_t seconds, uint32_t nanoseconds) {
  struct timespec time;
  clock_gettime(CLOCK_MONOTONIC, &time);
  time.tv_sec += (time_t)seconds;
  time.tv_nsec += (long)nanoseconds;
  if (time.tv_nsec >= 1000000000L) {
    time.tv_sec++;
    time.tv_nsec -= 1000000000L;
  }
  return time;
}

struct timespec bs_after(uint64_t milliseconds) {
  return table_ahead(milliseconds / 1000u, (uint32_t)(milliseconds % 1000u) * 1000000u);
}

/* Whether this is a valid time: null, or with nanoseconds below a second. */
static bool table_is_time(const struct timespec *until) {
  return until == NULL || (until->tv_nsec >= 0 && until->tv_nsec < 1000000000L);
}

/* The list that a command fills: the caller's, or else the table's own. */
static bs_notices *table_list_of(bs_table *table, bs_notices *told) {
  return told == NULL ? &table->told : told;
}

/* If there is no table, nobody is told. */
static TABLE_APART bs_reply table_tell_none(bs_table *table, bs_notices *told) {
  if (told != NULL) told->count = 0;
  return table_no_table(table);
}

/* The body of a function that makes one call of the manager, and of one whose call tells somebody. */
#define TABLE_ASK(table, call)                           \
  bs_reply reply;                                        \
  if (!table_enter(table)) return table_no_table(table); \
  reply = call;                                          \
  table_release(table);                                  \
  return reply

#define TABLE_TELL(table, told, by_name, call)                  \
  bs_notices *list;                                             \
  bs_reply reply;                                               \
  if (!table_enter(table)) return table_tell_none(table, told); \
  list = table_list_of(table, told);                            \
  reply = call;                                                 \
  table_wake(table, reply.status, list, by_name);               \
  table_hand_on(table);                                         \
  table_release(table);                                         \
  return reply

/* As table_enter, for a call with a time; and why it was not entered. */
static inline bool table_enter_until(bs_table *table, const struct timespec *until) {
  if (!table_enter(table)) return false;
  return table_is_time(until) || table_turned_away(table);
}

static TABLE_APART bs_reply table_no_entry(bs_table *table) {
  bs_status shut = bs_call_table_shut(table);
  return bs_call_only(shut == BS_DONE ? BS_BAD_NUMBER : shut);
}

/* Whether this thread may sleep: it is in no callback, where it is another's, and holds no table by bs_table_hold,
 * whose latch it would keep. */
static inline bool table_may_sleep(void) {
  return table_telling == NULL && table_held == NULL;
}

/* As table_enter_until, for a call that may sleep; and why it was not entered. */
static inline bool table_enter_to_sleep(bs_table *table, const struct timespec *until) {
  return table_may_sleep() && table_enter_until(table, until);
}

static TABLE_APART bs_reply table_no_sleep(bs_table *table) {
  return table != NULL && !table_may_sleep() ? bs_call_only(BS_IN_USE) : table_no_entry(table);
}

/* ------------------------------------------------------------------------------------------------
 * Tables.
 */

void *bs_call_lines(size_t size, void **block) {
  *block = malloc(size + BS_LINE);
  if (*block == NULL) return NULL;
  memset(*block, 0, size + BS_LINE);
  return (void *)(((uintptr_t)*block + BS_LINE - 1) & ~(uintptr_t)(BS_LINE - 1));
}

/* A place for a table, whose fields are zero; null if memory is refused. */
static bs_table *table_new_place(void) {
  void *block;
  bs_table *table = (bs_table *)bs_call_lines(sizeof(bs_table), &block);
  if (table != NULL) table->block = block;
  return table;
}

/* A new table, with no manager yet; null if memory is refused. */
static bs_table *table_new_table(void) {
  bs_table *table = table_new_place();
  size_t slot;
  if (table == NULL) return NULL;
  pthread_mutex_init(&table->latch, NULL);
  table->looks = sysconf(_SC_NPROCESSORS_ONLN) > 1 ? TABLE_LOOKS : 0;
  table->pauses = TABLE_PAUSES;
  for (slot = 0; slot < BS_SLOTS; slot++) bs_call_make_steady(&table->ended[slot]);
  bs_call_make_steady(&table->left);
  bs_call_make_steady(&table->began);
  bs_call_make_steady(&table->over);
  bs_call_run(&table->running, table, &table->manager, &table->latch);
  return table;
}

static void table_free_table(bs_table *table) {
  size_t slot;
  bs_call_run_free(&table->running);
  for (slot = 0; slot < BS_SLOTS; slot++) pthread_cond_destroy(&table->ended[slot]);
  pthread_cond_destroy(&table->left);
  pthread_cond_destroy(&table->began);
  pthread_cond_destroy(&table->over);
  pthread_mutex_destroy(&table->latch);
  while (table->asks != NULL && table->asks->spare != NULL) {
    table_asked *spare = table->asks->spare;
    table->asks->spare = spare->next;
    free(spare);
  }
  free(table->asks);
  free(table->block);
}

/* Makes a table with parts. */
static bs_reply table_make_parts(bs_table **table, const bs_options *options) {
  bs_table *made = table_new_place();
  bs_reply reply;
  if (made == NULL) return bs_call_only(BS_NO_MEMORY);
  reply = bs_group_make(&made->group, options, options->parts);
  if (reply.status == BS_DONE) *table = made;
  else free(made->block);
  return reply;
}

/* Frees one whose group was ended. */
static bs_reply table_free_parts(bs_table **table) {
  bs_reply reply = bs_group_free(&(*table)->group);
  if (reply.status != BS_DONE) return reply;
  free((*table)->block);
  *table = NULL;
  return reply;
}

bs_table_group *bs_table_group_of(bs_table *table) {
  return table == NULL ? NULL : table->group;
}

bs_reply bs_call_table_make(bs_table **table, const bs_options *options, size_t size) {
  bs_options chosen = bs_call_chosen(options, size);
  bs_table *made;
  bs_reply reply;
  if (*table != NULL) return bs_call_only(BS_IN_USE);
  if (chosen.parts > 1) return table_make_parts(table, &chosen);
  made = table_new_table();
  if (made == NULL) return bs_call_only(BS_NO_MEMORY);
  reply = bs_make(&made->manager, &chosen);
  if (reply.status == BS_DONE) *table = made;
  else table_free_table(made);
  return reply;
}

/* Wakes the threads of a table that ends. */
static void table_wake_all(bs_table *table) {
  pthread_cond_broadcast(&table->began);
  pthread_cond_broadcast(&table->over);
  bs_call_run_out(&table->running);
}

/* Ends each wait that is awaited in a table that ends, and each begin that waits for a slot. */
static void table_end_waits(bs_table *table) {
  uint32_t slot;
  for (slot = 0; slot < BS_SLOTS; slot++) {
    if (table->waiters[slot] != NULL) table_end(table, table->waiters[slot], slot, bs_call_only(BS_NO_MANAGER));
  }
  table_end_late_begins(table, UINT64_MAX, BS_NO_MANAGER);
}

/* Takes the trace from a table; null if it has none. */
static bs_trace *table_take_trace(bs_table *table) {
  bs_trace *trace = table->trace;
  table->trace = NULL;
  table->is_traced = false;
  return trace;
}

bs_reply bs_table_end(bs_table *table) {
  TABLE_BY_GROUP(table, bs_group_end(table->group));
  bs_trace *trace;
  bs_reply reply;
  int state;
  if (table != NULL && !table_may_sleep()) return bs_call_only(BS_IN_USE);
  if (!table_enter(table)) return table_no_table(table);
  pthread_setcancelstate(PTHREAD_CANCEL_DISABLE, &state);
  table->stage = TABLE_ENDING;
  table_wake_all(table);
  table_end_waits(table);
  table_release(table);
  if (table->is_watched) pthread_join(table->watch, NULL);
  bs_call_run_join(&table->running);
  table_take(table);
  while (table->sleepers + table->to_tell > 0) table_doze(table, &table->left, NULL);
  trace = table_take_trace(table);
  reply = bs_end(&table->manager);
  table->stage = TABLE_ENDED;
  pthread_mutex_unlock(&table->latch);
  if (trace != NULL) bs_call_trace_end(trace);
  pthread_setcancelstate(state, &state);
  return reply;
}

bs_reply bs_table_free(bs_table **table) {
  bool is_ended;
  if (table == NULL || *table == NULL) return bs_call_null();
  if (table_has_parts(*table)) return table_free_parts(table);
  if (table_holds(*table)) return bs_call_only(BS_IN_USE);
  table_take(*table);
  is_ended = (*table)->stage == TABLE_ENDED;
  pthread_mutex_unlock(&(*table)->latch);
  if (!is_ended) return bs_call_only(BS_IN_USE);
  table_free_table(*table);
  *table = NULL;
  return bs_call_only(BS_DONE);
}

/* ------------------------------------------------------------------------------------------------
 * The graph.
 */

bs_reply bs_table_add_inner(bs_table *table, const bs_node *parents, size_t count) {
  TABLE_BY_GROUP(table, bs_group_add_inner(table->group, parents, count));
  TABLE_ASK(table, table_make_add_inner(table, parents, count));
}

bs_reply bs_table_add_file(bs_table *table, const bs_node *parents, size_t count) {
  TABLE_BY_GROUP(table, bs_group_add_file(table->group, 0, parents, count));
  TABLE_ASK(table, table_make_add_file(table, parents, count));
}

bs_reply bs_table_add_row_file(bs_table *table, const bs_node *parents, size_t count) {
  TABLE_BY_GROUP(table, bs_group_add_row_file(table->group, 0, parents, count));
  TABLE_ASK(table, table_make_add_row_file(table, parents, count));
}

bs_reply bs_table_add_index(bs_table *table, const bs_node *parents, size_t count, bs_node file, const uint64_t *bounds,
                            size_t bound_count) {
  TABLE_BY_GROUP(table, bs_group_add_index(table->group, parents, count, file, bounds, bound_count));
  TABLE_ASK(table, table_make_add_index(table, parents, count, file, bounds, bound_count));
}

/* ------------------------------------------------------------------------------------------------
 * Transactions and locks.
 */

bs_reply bs_table_begin(bs_table *table) {
  TABLE_BY_GROUP(table, bs_group_begin(table->group));
  TABLE_ASK(table, table_begin_now(table));
}

bs_reply bs_table_begin_again(bs_table *table, uint64_t since) {
  TABLE_BY_GROUP(table, bs_group_begin_again(table->group, since));
  TABLE_ASK(table, table_begin_again_now(table, since));
}

/* Begins, or enters the begin queue, with the latch held. Nobody waits for a slot while somebody rests. */
static TABLE_IN_LINE bs_reply table_begin_or_wait(bs_table *table, uint64_t since, const table_queued_begin *own,
                                                  uint64_t until) {
  bs_reply reply;
  if (table->has_rested) {
    reply = table_begin_again_now(table, since);
    if (reply.status != BS_TOO_MANY_TXNS) return reply;
  }
  reply = table_make_call_begin_in_turn(table, since, table_name_of(own), until);
  if (reply.status == BS_WAITING) table->queued++;
  return reply;
}

/* Begins, or sleeps for a slot, with the latch held before and after. The thread looks at the clock itself. */
static bs_reply table_begin_or_sleep(bs_table *table, uint64_t since, const struct timespec *until) {
  table_beginner own;
  bs_reply reply = table_begin_or_wait(table, since, &own.queued, TABLE_NO_TIME);
  return reply.status == BS_WAITING ? table_sleep_in_begin_queue(table, &own, since, until) : reply;
}

bs_reply bs_table_begin_again_in_turn(bs_table *table, uint64_t since, const struct timespec *until) {
  TABLE_BY_GROUP(table, bs_group_begin_again_in_turn(table->group, since, until));
  bs_reply reply;
  if (!table_enter_to_sleep(table, until)) return table_no_sleep(table);
  reply = table_begin_or_sleep(table, since, until);
  table_release(table);
  return reply;
}

bs_reply bs_table_begin_in_turn(bs_table *table, const struct timespec *until) {
  return bs_table_begin_again_in_turn(table, TABLE_NEW_WORK, until);
}

bs_reply bs_table_deadline(bs_table *table, bs_txn txn, const struct timespec *until) {
  TABLE_BY_GROUP(table, bs_group_deadline(table->group, txn, until));
  bs_reply reply;
  if (!table_enter_until(table, until)) return table_no_entry(table);
  reply = bs_call_doing(&table->manager, txn);
  if (reply.status != BS_DONE) return table_leave(table, reply);
  bs_inside_deadline(table, txn, until);
  return table_leave(table, bs_call_only(BS_DONE));
}

/* Releases a lock that was granted at once, for an instant. Transactions that this grants are told with the lock: if a
 * victim was chosen for it, others may wait after it. */
static TABLE_APART void table_give_back_at_once(bs_table *table, bs_txn txn, bs_node node, bs_notices *told) {
  bs_notices more;
  bs_reply reply = table_make_unlock(table, txn, node, &more);
  table_wake(table, reply.status, &more, false);
  table_tell_too(told, &more);
}

/* The mode of a request, without what else it says. */
static inline bs_mode table_mode_of(bs_mode asked) {
  return asked & ~(bs_mode)BS_INSTANT;
}

/* Whether a node is requested for an instant, and not held: so it is released as soon as it is granted. */
static inline bool table_is_instant(const bs_table *table, bs_txn txn, bs_node node, bs_mode asked) {
  return (asked & BS_INSTANT) != 0 && bs_held(&table->manager, txn, node).mode == BS_NL;
}

static inline table_request table_request_of(table_kind kind, bs_txn txn, bs_node node, bs_mode mode,
                                             bool is_instant) {
  table_request request;
  request.kind = kind;
  request.txn = txn;
  request.node = node;
  request.mode = mode;
  request.is_instant = is_instant;
  return request;
}

/* The waiter of a call, up to this time. */
static inline void table_sleeper(table_waiter *waiter, const struct timespec *until) {
  waiter->ask = NULL;
  waiter->until = until;
  waiter->is_list = false;
}

/* Makes the call bs_lock with the latch held, for this waiter. */
static TABLE_IN_LINE bs_reply table_lock_by(bs_table *table, bs_txn txn, bs_node node, bs_mode mode, bool is_instant,
                                            table_waiter *waiter, bs_notices *told) {
  bs_reply reply = table_make_lock(table, txn, node, mode, told);
  if (reply.status == BS_WAITING) {
    table_request request = table_request_of(TABLE_NODE, txn, node, mode, is_instant);
    table_wait wait = { node, mode };
    table_register(table, &request, wait, waiter, told);
  }
  table_wake(table, reply.status, told, false);
  if (reply.status == BS_WAITING && table->has_rested) table_clear_way(table, told);
  if (is_instant && reply.status == BS_DONE) table_give_back_at_once(table, txn, node, told);
  return reply;
}

static TABLE_APART bs_reply table_lock_instantly(bs_table *table, bs_txn txn, bs_node node, bs_mode asked,
                                                 table_waiter *waiter, bs_notices *told) {
  bool is_instant = table_is_instant(table, txn, node, asked);
  return table_lock_by(table, txn, node, table_mode_of(asked), is_instant, waiter, told);
}

/* The same, of a mode as it was requested. */
static TABLE_IN_LINE bs_reply table_lock_now(bs_table *table, bs_txn txn, bs_node node, bs_mode asked,
                                             table_waiter *waiter, bs_notices *told) {
  if ((asked & BS_INSTANT) != 0) return table_lock_instantly(table, txn, node, asked, waiter, told);
  return table_lock_by(table, txn, node, asked, false, waiter, told);
}

/* Makes the call bs_lock_path with the latch held. */
static TABLE_IN_LINE bs_reply table_path_by(bs_table *table, bs_txn txn, bs_node node, bs_mode mode, bool is_instant,
                                            table_waiter *waiter, bs_notices *told) {
  bs_reply reply = table_make_lock_path(table, txn, node, mode, told);
  if (reply.status == BS_WAITING) {
    table_request request = table_request_of(TABLE_PATH, txn, node, mode, is_instant);
    table_wait wait;
    wait.node = reply.node;
    wait.mode = bs_call_doing(&table->manager, txn).mode;
    table_register(table, &request, wait, waiter, told);
  }
  table_wake(table, reply.status, told, false);
  if (reply.status == BS_WAITING && table->has_rested) table_clear_way(table, told);
  if (is_instant && reply.status == BS_DONE) table_give_back_at_once(table, txn, node, told);
  return reply;
}

static TABLE_APART bs_reply table_path_instantly(bs_table *table, bs_txn txn, bs_node node, bs_mode asked,
                                                 table_waiter *waiter, bs_notices *told) {
  bool is_instant = table_is_instant(table, txn, node, asked);
  return table_path_by(table, txn, node, table_mode_of(asked), is_instant, waiter, told);
}

/* The same, of a mode as it was requested. */
static inline bs_reply table_path_now(bs_table *table, bs_txn txn, bs_node node, bs_mode asked, table_waiter *waiter,
                                      bs_notices *told) {
  if ((asked & BS_INSTANT) != 0) return table_path_instantly(table, txn, node, asked, waiter, told);
  return table_path_by(table, txn, node, asked, false, waiter, told);
}

/* Requests the locks of a path up to its end, or to one that waits. Continues if others became victims for one above.
 * Adds the notices of all its locks to a list that is not the table's own. */
static inline bs_reply table_path_through(bs_table *table, bs_txn txn, bs_node node, bs_mode asked,
                                          table_waiter *waiter, bs_notices *told) {
  bs_reply reply;
  do {
    reply = table_path_now(table, txn, node, asked, waiter, &table->told);
    if (told != &table->told) table_tell_too(told, &table->told);
  } while (reply.status == BS_ON_THE_WAY);
  return reply;
}

/* After a request of a node in this mode that was refused since it would block: ends those who rest and keep it from
 * that; whether it has ended any. Then the request is made again. Nobody waits for one who rests, so that ends no wait. */
static TABLE_APART bool table_clears_node(bs_table *table, bs_node node, bs_mode mode) {
  bs_notices more, *told = &table->told;
  bool any = false;
  told->count = 0;
  while (table_ended_resting(table, table_make_call_clear_node(table, node, mode, &more), &more, told)) any = true;
  return any;
}

static inline bool table_may_clear(const bs_table *table, bs_reply reply) {
  return __builtin_expect(reply.status == BS_WOULD_BLOCK, 0) && table->has_rested;
}

/* Makes the call bs_try with the latch held. */
static inline bs_reply table_try_now(bs_table *table, bs_txn txn, bs_node node, bs_mode asked) {
  bool is_instant = table_is_instant(table, txn, node, asked);
  bs_mode mode = table_mode_of(asked);
  bs_reply reply = table_make_try(table, txn, node, mode);
  if (table_may_clear(table, reply) && table_clears_node(table, node, mode)) {
    reply = table_make_try(table, txn, node, mode);
  }
  if (is_instant && reply.status == BS_DONE) table_give_back_at_once(table, txn, node, &table->told);
  return reply;
}

bs_reply bs_table_lock(bs_table *table, bs_txn txn, bs_node node, bs_mode mode, const struct timespec *until) {
  TABLE_BY_GROUP(table, bs_group_lock_path(table->group, txn, node, mode, until));
  table_waiter own;
  bs_reply reply;
  if (!table_enter_to_sleep(table, until)) return table_no_sleep(table);
  table_sleeper(&own, until);
  reply = table_lock_now(table, txn, node, mode, &own, &table->told);
  if (reply.status == BS_WAITING) reply = table_sleep(table, txn, &own);
  table_release(table);
  return reply;
}

/* Awaits a wait that a list began. Answers what became of it; BS_WAITING if it still waits, and is awaited. It asks for
 * that only if it can neither await the wait nor has its grant: the library has a waiter already if another awaits it, or
 * if a list requested it for an instant. */
static bs_reply table_await_left(bs_table *table, bs_txn txn, bs_node node, bs_mode mode, table_waiter *waiter) {
  table_request request = table_request_of(TABLE_NODE, txn, node, mode, false);
  table_wait wait = { node, mode };
  bs_reply reply = bs_call_only(BS_NO_SUCH_TXN);
  if (txn.slot < BS_SLOTS) reply = table_enlist(table, &request, wait, waiter);
  if (reply.status == BS_WAITING) return bs_call_only(BS_WAITING);
  if (reply.status == BS_DONE) return reply;
  reply = table_became(table, txn, node, mode);
  if (reply.status != BS_WAITING) return reply;
  if (table->waiters[txn.slot] != NULL) return bs_call_only(BS_IN_USE);
  request.is_instant = bs_call_withdraw_waiter(&table->manager, txn).status == BS_DONE;
  table_enlist(table, &request, wait, waiter);
  return reply;
}

bs_reply bs_table_await(bs_table *table, bs_txn txn, bs_node node, bs_mode mode, const struct timespec *until) {
  TABLE_BY_GROUP(table, bs_group_await(table->group, txn, until));
  table_waiter own;
  bs_reply reply;
  if (!table_enter_to_sleep(table, until)) return table_no_sleep(table);
  table_sleeper(&own, until);
  reply = table_await_left(table, txn, node, mode, &own);
  if (reply.status == BS_WAITING) reply = table_sleep(table, txn, &own);
  table_release(table);
  return reply;
}

bs_reply bs_table_try(bs_table *table, bs_txn txn, bs_node node, bs_mode mode) {
  TABLE_BY_GROUP(table, bs_group_try_path(table->group, txn, node, mode, BS_KEEP_NOTHING));
  TABLE_ASK(table, table_try_now(table, txn, node, mode));
}

bs_reply bs_table_mark(bs_table *table, bs_txn txn) {
  TABLE_BY_GROUP(table, bs_inside_mark(table->group, txn));
  TABLE_ASK(table, bs_mark(&table->manager, txn));
}

bs_reply bs_table_release_since(bs_table *table, bs_txn txn, uint64_t savepoint, bs_notices *told) {
  TABLE_TELL_BY_GROUP(table, told, bs_inside_release_to(table->group, txn, savepoint));
  TABLE_TELL(table, told, false, table_make_release_since(table, txn, savepoint, list));
}

bs_reply bs_table_unlock(bs_table *table, bs_txn txn, bs_node node, bs_notices *told) {
  TABLE_TELL_BY_GROUP(table, told, bs_group_unlock(table->group, txn, node));
  TABLE_TELL(table, told, false, table_make_unlock(table, txn, node, list));
}

bs_reply bs_table_cancel(bs_table *table, bs_txn txn, bs_notices *told) {
  TABLE_TELL_BY_GROUP(table, told, bs_group_cancel(table->group, txn));
  TABLE_TELL(table, told, true, table_make_cancel(table, txn, list));
}

bs_reply bs_table_commit(bs_table *table, bs_txn txn, bs_notices *told) {
  TABLE_TELL_BY_GROUP(table, told, bs_group_commit(table->group, txn));
  TABLE_TELL(table, told, false, table_make_commit(table, txn, list));
}

bs_reply bs_table_renew(bs_table *table, bs_txn txn, uint64_t since) {
  TABLE_BY_GROUP(table, bs_group_renew(table->group, txn, since));
  TABLE_ASK(table, table_make_renew(table, txn, since));
}

bs_reply bs_table_abort(bs_table *table, bs_txn txn, bs_notices *told) {
  TABLE_TELL_BY_GROUP(table, told, bs_group_abort(table->group, txn));
  TABLE_TELL(table, told, true, table_make_abort(table, txn, list));
}

bs_reply bs_table_settle(bs_table *table, bs_txn txn, bs_notices *told) {
  TABLE_TELL_BY_GROUP(table, told, bs_group_settle(table->group, txn));
  TABLE_TELL(table, told, false, table_make_settle(table, txn, list));
}

/* Makes the call bs_escalate with the latch held. */
static bs_reply table_do_escalate(bs_table *table, bs_txn txn, bs_node node, bs_notices *told) {
  bs_reply reply = table_make_escalate(table, txn, node, told);
  if (!table_may_clear(table, reply) || !table_clears_node(table, node, BS_X)) return reply;
  return table_make_escalate(table, txn, node, told);
}

bs_reply bs_table_escalate(bs_table *table, bs_txn txn, bs_node node, bs_notices *told) {
  TABLE_TELL_BY_GROUP(table, told, bs_group_escalate(table->group, txn, node));
  TABLE_TELL(table, told, false, table_do_escalate(table, txn, node, list));
}

bs_reply bs_table_lock_path(bs_table *table, bs_txn txn, bs_node node, bs_mode mode, const struct timespec *until) {
  TABLE_BY_GROUP(table, bs_group_lock_path(table->group, txn, node, mode, until));
  table_waiter own;
  bs_reply reply;
  if (!table_enter_to_sleep(table, until)) return table_no_sleep(table);
  table_sleeper(&own, until);
  reply = table_path_through(table, txn, node, mode, &own, &table->told);
  if (reply.status == BS_WAITING) reply = table_sleep(table, txn, &own);
  table_release(table);
  return reply;
}

/* After a try: continues those whose wait it has ended. A try that is refused may have released what it acquired. */
static inline bs_reply table_tried(bs_table *table, bs_reply reply) {
  if (table->told.count > 0) table_wake_told(table, &table->told);
  return reply;
}

/* Tries a path with the latch held. */
static TABLE_APART bs_reply table_path_tried(bs_table *table, bs_txn txn, bs_node node, bs_mode mode, uint32_t keep) {
  bs_reply reply = table_tried(table, table_make_call_try_path(table, txn, node, mode, keep, &table->told));
  if (!table_may_clear(table, reply) || !table_clears_node(table, node, mode)) return reply;
  return table_tried(table, table_make_call_try_path(table, txn, node, mode, keep, &table->told));
}

bs_reply bs_table_try_path(bs_table *table, bs_txn txn, bs_node node, bs_mode mode, uint32_t keep) {
  TABLE_BY_GROUP(table, bs_group_try_path(table->group, txn, node, mode, keep));
  TABLE_ASK(table, table_path_tried(table, txn, node, mode, keep));
}

/* ------------------------------------------------------------------------------------------------
 * Records, nodes that move, and what a schema changes.
 */

bs_reply bs_table_insert(bs_table *table, bs_txn txn, bs_node file, const uint64_t *keys, size_t count) {
  TABLE_BY_GROUP(table, bs_group_insert(table->group, txn, file, keys, count));
  TABLE_ASK(table, table_make_insert(table, txn, file, keys, count));
}

bs_reply bs_table_delete(bs_table *table, bs_txn txn, bs_node record, bs_notices *told) {
  TABLE_TELL_BY_GROUP(table, told, bs_group_delete(table->group, txn, record));
  TABLE_TELL(table, told, false, table_make_delete(table, txn, record, list));
}

bs_reply bs_table_adopt(bs_table *table, bs_node file, const uint64_t *keys, size_t count) {
  TABLE_BY_GROUP(table, bs_group_adopt(table->group, file, keys, count));
  TABLE_ASK(table, table_make_adopt(table, file, keys, count));
}

bs_reply bs_table_forget(bs_table *table, bs_node record) {
  TABLE_BY_GROUP(table, bs_group_forget(table->group, record));
  TABLE_ASK(table, table_make_forget(table, record));
}

bs_reply bs_table_rekey(bs_table *table, bs_txn txn, bs_node record, bs_node index, uint64_t key, bs_notices *told) {
  TABLE_TELL_BY_GROUP(table, told, bs_group_rekey(table->group, txn, record, index, key));
  TABLE_TELL(table, told, false, table_make_rekey(table, txn, record, index, key, list));
}

bs_reply bs_table_move(bs_table *table, bs_txn txn, bs_node node, const bs_node *parents, size_t count,
                       bs_notices *told) {
  TABLE_TELL_BY_GROUP(table, told, bs_group_move(table->group, txn, node, parents, count));
  TABLE_TELL(table, told, false, table_make_move(table, txn, node, parents, count, list));
}

bs_reply bs_table_drop(bs_table *table, bs_txn txn, bs_node node, bs_notices *told) {
  TABLE_TELL_BY_GROUP(table, told, bs_group_drop(table->group, txn, node));
  TABLE_TELL(table, told, false, table_make_drop(table, txn, node, list));
}

bs_reply bs_table_split(bs_table *table, bs_txn txn, bs_node interval, uint64_t at, bs_notices *told) {
  TABLE_TELL_BY_GROUP(table, told, bs_group_split(table->group, txn, interval, at));
  TABLE_TELL(table, told, false, table_make_split(table, txn, interval, at, list));
}

bs_reply bs_table_merge(bs_table *table, bs_txn txn, bs_node interval, bs_notices *told) {
  TABLE_TELL_BY_GROUP(table, told, bs_group_merge(table->group, txn, interval));
  TABLE_TELL(table, told, false, table_make_merge(table, txn, interval, list));
}

bs_reply bs_table_index_by(bs_table *table, bs_txn txn, const bs_node *parents, size_t count, bs_node file,
                           const uint64_t *bounds, size_t bound_count) {
  TABLE_BY_GROUP(table, bs_group_index_by(table->group, txn, parents, count, file, bounds, bound_count));
  TABLE_ASK(table, table_make_index_by(table, txn, parents, count, file, bounds, bound_count));
}

/* An index beside records, with the latch held. A trace has no line for one. */
static bs_reply table_index_records_now(bs_table *table, bs_txn txn, const bs_node *parents, size_t count, bs_node file,
                                        const uint64_t *bounds, size_t bound_count, const bs_node *records,
                                        const uint64_t *keys, size_t record_count) {
  if (record_count == 0) return table_make_index_by(table, txn, parents, count, file, bounds, bound_count);
  if (table->is_traced) return bs_call_only(BS_NOT_WRITTEN);
  return bs_index_records(&table->manager, txn, parents, count, file, bounds, bound_count, records, keys, record_count);
}

bs_reply bs_table_index_records(bs_table *table, bs_txn txn, const bs_node *parents, size_t count, bs_node file,
                                const uint64_t *bounds, size_t bound_count, const bs_node *records,
                                const uint64_t *keys, size_t record_count) {
  TABLE_BY_GROUP(table, bs_group_index_records(table->group, txn, parents, count, file, bounds, bound_count, records, keys,
                                               record_count));
  TABLE_ASK(table, table_index_records_now(table, txn, parents, count, file, bounds, bound_count, records, keys,
                                           record_count));
}

/* ------------------------------------------------------------------------------------------------
 * Rows by the engine's own numbers.
 */

/* Requests a row with the latch held, for this waiter. */
static bs_reply table_row_now(bs_table *table, const table_request *request, table_waiter *waiter, bs_notices *told) {
  const table_row *row = &request->row;
  bs_reply reply = table_make_lock_row(table, request->txn, row->file, row->number, row->keys, row->count,
                                       request->mode, told);
  if (reply.status == BS_WAITING) {
    table_wait wait = { reply.node, request->mode };
    table_register(table, request, wait, waiter, told);
  }
  table_wake(table, reply.status, told, false);
  return reply;
}

/* Goes on with a row that lacks this node above it: the library locks that, and then the row again, until the row is
 * locked or something waits. The request is answered as one that waits, whose wait may be over. */
static TABLE_APART bs_reply table_climb(bs_table *table, const table_request *request, bs_reply lacks,
                                        table_waiter *waiter, bs_notices *told) {
  const table_row *row = &request->row;
  uint64_t time = table_begin_wait(table, request->txn, waiter);
  bs_reply reply = bs_call_climb_to_row(&table->manager, request->txn, row->file, row->number,
                                        bs_call_numbers(row->keys), row->count, request->mode, lacks.node, time);
  if (reply.status != BS_DONE) return lacks;
  table->waiters[request->txn.slot] = waiter;
  table_go_on(table, told);
  reply = bs_call_only(BS_WAITING);
  reply.node = lacks.node;
  return reply;
}

/* The same, with what must be held above it if the request says so. */
static inline bs_reply table_row_by(bs_table *table, const table_request *request, table_waiter *waiter,
                                    bs_notices *told) {
  bs_reply reply = table_row_now(table, request, waiter, told);
  if (reply.status != BS_NEED_PARENTS || request->kind != TABLE_ROW_PATH) return reply;
  return table_climb(table, request, reply, waiter, told);
}

static table_row table_row_of(bs_node file, uint64_t number, const uint64_t *keys, size_t count) {
  table_row row;
  row.file = file;
  row.number = number;
  row.keys = keys;
  row.count = count;
  return row;
}

/* A request for a row. It names no node. */
static table_request table_row_request(table_kind kind, bs_txn txn, table_row row, bs_mode mode) {
  table_request request = table_request_of(kind, txn, row.file, mode, false);
  request.row = row;
  return request;
}

/* Requests a row, and sleeps if it waits. */
static bs_reply table_row_or_sleep(bs_table *table, const table_request *request, const struct timespec *until) {
  table_waiter own;
  bs_reply reply;
  if (!table_enter_to_sleep(table, until)) return table_no_sleep(table);
  table_sleeper(&own, until);
  reply = table_row_by(table, request, &own, &table->told);
  if (reply.status == BS_WAITING) reply = table_sleep(table, request->txn, &own);
  table_release(table);
  return reply;
}

bs_reply bs_table_lock_row(bs_table *table, bs_txn txn, bs_node file, uint64_t number, const uint64_t *keys,
                           size_t count, bs_mode mode, const struct timespec *until) {
  TABLE_BY_GROUP(table, bs_group_lock_row_path(table->group, txn, file, number, keys, count, mode, until));
  table_request request = table_row_request(TABLE_ROW, txn, table_row_of(file, number, keys, count), mode);
  return table_row_or_sleep(table, &request, until);
}

bs_reply bs_table_lock_row_path(bs_table *table, bs_txn txn, bs_node file, uint64_t number, const uint64_t *keys,
                                size_t count, bs_mode mode, const struct timespec *until) {
  TABLE_BY_GROUP(table, bs_group_lock_row_path(table->group, txn, file, number, keys, count, mode, until));
  table_request request = table_row_request(TABLE_ROW_PATH, txn, table_row_of(file, number, keys, count), mode);
  return table_row_or_sleep(table, &request, until);
}

/* Tries a row with the latch held. */
static TABLE_APART bs_reply table_row_tried(bs_table *table, bs_txn txn, const table_row *row, bs_mode mode) {
  const uint64_t *keys = bs_call_numbers(row->keys);
  if (row->keys == NULL && row->count != 0) return bs_call_null();
  return table_tried(table, table_make_call_try_row(table, txn, row->file, row->number, keys, row->count, mode,
                                            &table->told));
}

bs_reply bs_table_try_row(bs_table *table, bs_txn txn, bs_node file, uint64_t number, const uint64_t *keys,
                          size_t count, bs_mode mode) {
  TABLE_BY_GROUP(table, bs_group_try_row_path(table->group, txn, file, number, keys, count, mode, BS_KEEP_NOTHING));
  table_row row = table_row_of(file, number, keys, count);
  TABLE_ASK(table, table_row_tried(table, txn, &row, mode));
}

/* Releases what a transaction has acquired since a mark. */
static TABLE_APART void table_give_back(bs_table *table, bs_txn txn, uint64_t mark) {
  bs_reply reply;
  if (bs_mark(&table->manager, txn).count == mark) return;
  reply = table_make_release_since(table, txn, mark, &table->told);
  table_wake(table, reply.status, &table->told, false);
}

/* Whether a call that was answered so lacks a node above, and a try has acquired that. If the try was refused, that is
 * the answer. */
static bool table_got_above(bs_table *table, bs_txn txn, bs_mode intention, bs_reply *reply) {
  bs_reply above;
  if (reply->status != BS_NEED_PARENTS) return false;
  above = table_path_tried(table, txn, reply->node, intention, BS_KEEP_WAY);
  if (above.status != BS_DONE) *reply = above;
  return above.status == BS_DONE;
}

/* Tries a row with what must be held above it, with the latch held: each node that it lacks is tried as it is named. */
static TABLE_APART bs_reply table_row_path_tried(bs_table *table, bs_txn txn, const table_row *row, bs_mode mode,
                                                 uint32_t keep) {
  uint64_t mark = bs_mark(&table->manager, txn).count;
  bs_reply reply;
  if (keep > BS_KEEP_WAY) return bs_call_only(BS_BAD_NUMBER);
  reply = table_row_tried(table, txn, row, mode);
  while (table_got_above(table, txn, mode == BS_S ? BS_IS : BS_IX, &reply)) {
    reply = table_row_tried(table, txn, row, mode);
  }
  if (keep == BS_KEEP_NOTHING && reply.status != BS_DONE && reply.status != BS_OTHER_KEYS) {
    table_give_back(table, txn, mark);
  }
  return reply;
}

bs_reply bs_table_try_row_path(bs_table *table, bs_txn txn, bs_node file, uint64_t number, const uint64_t *keys,
                               size_t count, bs_mode mode, uint32_t keep) {
  TABLE_BY_GROUP(table, bs_group_try_row_path(table->group, txn, file, number, keys, count, mode, keep));
  table_row row = table_row_of(file, number, keys, count);
  TABLE_ASK(table, table_row_path_tried(table, txn, &row, mode, keep));
}

/* Inserts a record with what must be held above it, in the same way. */
static TABLE_APART bs_reply table_inserted_by_path(bs_table *table, bs_txn txn, bs_node file, const uint64_t *keys,
                                                   size_t count, uint32_t keep) {
  uint64_t mark = bs_mark(&table->manager, txn).count;
  bs_reply reply;
  table->told.count = 0;
  if (keep > BS_KEEP_WAY) return bs_call_only(BS_BAD_NUMBER);
  reply = table_make_insert(table, txn, file, keys, count);
  while (table_got_above(table, txn, BS_IX, &reply)) reply = table_make_insert(table, txn, file, keys, count);
  if (keep == BS_KEEP_NOTHING && reply.status != BS_DONE) table_give_back(table, txn, mark);
  return reply;
}

bs_reply bs_table_insert_path(bs_table *table, bs_txn txn, bs_node file, const uint64_t *keys, size_t count,
                              uint32_t keep) {
  TABLE_BY_GROUP(table, keep > BS_KEEP_WAY ? bs_call_only(BS_BAD_NUMBER)
                                           : bs_group_insert(table->group, txn, file, keys, count));
  TABLE_ASK(table, table_inserted_by_path(table, txn, file, keys, count, keep));
}

bs_reply bs_table_unlock_row(bs_table *table, bs_txn txn, bs_node file, uint64_t number, bs_notices *told) {
  TABLE_TELL_BY_GROUP(table, told, bs_group_unlock_row(table->group, txn, file, number));
  TABLE_TELL(table, told, false, table_make_unlock_row(table, txn, file, number, list));
}

bs_reply bs_table_rekey_row(bs_table *table, bs_txn txn, bs_node file, uint64_t number, bs_node index, uint64_t key,
                            bs_notices *told) {
  TABLE_TELL_BY_GROUP(table, told, bs_group_rekey_row(table->group, txn, file, number, index, key));
  TABLE_TELL(table, told, false, table_make_rekey_row(table, txn, file, number, index, key, list));
}

/* ------------------------------------------------------------------------------------------------
 * Asks, which do not sleep: their ends come by callbacks.
 */

static void table_spare(bs_table *table, table_asked *ask) {
  ask->next = table->asks->spare;
  table->asks->spare = ask;
}

/* An end was told, or an ask has told others'. */
static void table_was_told(bs_table *table) {
  table->to_tell--;
  if (table->stage == TABLE_ENDING && table->to_tell == 0) pthread_cond_signal(&table->left);
}

/* Calls the callback for an ask that has ended, without the latch. Then gives back what the callback still holds by
 * bs_table_hold. */
static void table_tell_one(table_asked *ask) {
  bs_table *table = ask->table;
  table_held_outside = table_held;
  table->asks->on_end(table->asks->context, ask->txn, ask->waiter.end, ask->word);
  while (table_held != table_held_outside) bs_table_let_go(table_held);
  table_held_outside = NULL;
  table_take(table);
  table_spare(table, ask);
  table_was_told(table);
  pthread_mutex_unlock(&table->latch);
}

/* Calls the callback for these, and for those that its calls of a table end: if this thread is in a callback already,
 * they are told after it. Holds off the thread's cancellation. */
static void table_tell(table_asked_list *over) {
  int state;
  if (table_telling != NULL) {
    if (table_telling->first == NULL) table_telling->first = over->first;
    else table_telling->last->next = over->first;
    table_telling->last = over->last;
    return;
  }
  pthread_setcancelstate(PTHREAD_CANCEL_DISABLE, &state);
  table_telling = over;
  while (over->first != NULL) {
    table_asked *next = over->first;
    over->first = next->next;
    table_tell_one(next);
  }
  table_telling = NULL;
  pthread_setcancelstate(state, &state);
}

/* Takes the asks whose wait has ended, to tell their ends. */
static table_asked_list table_take_over(bs_table *table) {
  table_asked_list over = { NULL, NULL };
  if (table->asks == NULL) return over;
  over = table->asks->over;
  table->asks->over.first = NULL;
  return over;
}

/* Sleepers are woken after the critical section, since a woken thread acquires the latch: a table's memory is there as
 * long as any thread is in a call with it. */
static void table_wake_sleepers(bs_table *table, const bs_slots *slots) {
  size_t i;
  for (i = 0; i < BS_SLOTS / 64; i++) {
    uint64_t word = slots->words[i];
    for (; word != 0; word &= word - 1) pthread_cond_broadcast(&table->ended[i * 64 + (size_t)__builtin_ctzll(word)]);
  }
}

static TABLE_APART void table_release_and_tell(bs_table *table) {
  table_asked_list over = table_take_over(table);
  bs_slots to_wake = table->to_wake;
  memset(&table->to_wake, 0, sizeof table->to_wake);
  table->is_due = false;
  pthread_mutex_unlock(&table->latch);
  table_wake_sleepers(table, &to_wake);
  if (over.first != NULL) table_tell(&over);
}

bs_reply bs_table_on_end(bs_table *table, void (*function)(void *context, bs_txn txn, bs_reply end, void *word),
                         void *context) {
  TABLE_BY_GROUP(table, bs_group_on_end(table->group, function, context));
  if (table == NULL || function == NULL) return bs_call_null();
  if (!table_enter(table)) return table_no_table(table);
  if (table->asks != NULL) return table_leave(table, bs_call_only(BS_IN_USE));
  table->asks = (table_asks *)malloc(sizeof *table->asks);
  if (table->asks == NULL) return table_leave(table, bs_call_only(BS_NO_MEMORY));
  memset(table->asks, 0, sizeof *table->asks);
  table->asks->on_end = function;
  table->asks->context = context;
  return table_leave(table, bs_call_only(BS_DONE));
}

/* A place for an ask; null if memory is refused. */
static table_asked *table_place(bs_table *table) {
  table_asked *place = table->asks->spare;
  if (place == NULL) return (table_asked *)malloc(sizeof *place);
  table->asks->spare = place->next;
  return place;
}

/* An ask of a table whose engine has given a callback; null if memory is refused. */
static table_asked *table_new_ask(bs_table *table, bs_txn txn, const struct timespec *until, void *word) {
  table_asked *own = table_place(table);
  if (own == NULL) return NULL;
  memset(own, 0, offsetof(table_asked, begin));
  own->table = table;
  own->txn = txn;
  own->word = word;
  own->is_inside = true;
  table_sleeper(&own->waiter, until);
  own->waiter.ask = own;
  return own;
}

/* Enters a table for an ask, with a place for it; null if that is refused, as `why` says then. */
static table_asked *table_enter_to_ask(bs_table *table, bs_txn txn, const struct timespec *until, void *word,
                                       bs_reply *why) {
  table_asked *own;
  if (!table_enter_until(table, until)) {
    *why = table_no_entry(table);
    return NULL;
  }
  own = table->asks == NULL ? NULL : table_new_ask(table, txn, until, word);
  if (own == NULL) *why = table_leave(table, table->asks == NULL ? bs_call_null() : bs_call_only(BS_NO_MEMORY));
  return own;
}

/* Before an ask that waits returns: wakes and tells those whose wait it has ended. Its own may end meanwhile. */
static TABLE_APART void table_ask_and_tell(bs_table *table) {
  table->to_tell++;
  table_release_and_tell(table);
  table_take(table);
  table_was_told(table);
}

/* The answer of an ask whose request was answered so, with the latch held before and after. If it waited, and its wait
 * has ended by now, that end is its answer. A reply that names a node names the one for which it waits by now: a path
 * may have gone on. */
static bs_reply table_asked_now(bs_table *table, table_asked *own, bs_reply reply) {
  bool waits = reply.status == BS_WAITING;
  if (waits && !own->waiter.has_ended && table->is_due) table_ask_and_tell(table);
  own->is_inside = false;
  if (waits && own->waiter.has_ended) reply = own->waiter.end;
  else if (waits && reply.node.birth != 0) reply.node = bs_call_doing(&table->manager, own->txn).node;
  if (!waits || own->waiter.has_ended) table_spare(table, own);
  return reply;
}

/* Leaves after an ask whose request was answered so. */
static bs_reply table_leave_asked(bs_table *table, table_asked *own, bs_reply reply) {
  bool waits = reply.status == BS_WAITING;
  reply = table_asked_now(table, own, reply);
  if (!waits || table->stage == TABLE_OPEN) return table_leave(table, reply);
  pthread_mutex_unlock(&table->latch);
  return reply;
}

bs_reply bs_table_ask(bs_table *table, bs_txn txn, bs_node node, bs_mode mode, const struct timespec *until,
                      void *word) {
  TABLE_BY_GROUP(table, bs_group_ask_path(table->group, txn, node, mode, until, word));
  bs_reply reply;
  table_asked *own = table_enter_to_ask(table, txn, until, word, &reply);
  if (own == NULL) return reply;
  return table_leave_asked(table, own, table_lock_now(table, txn, node, mode, &own->waiter, &table->told));
}

bs_reply bs_table_ask_await(bs_table *table, bs_txn txn, bs_node node, bs_mode mode, const struct timespec *until,
                            void *word) {
  TABLE_BY_GROUP(table, bs_group_ask_await(table->group, txn, until, word));
  bs_reply reply;
  table_asked *own = table_enter_to_ask(table, txn, until, word, &reply);
  if (own == NULL) return reply;
  return table_leave_asked(table, own, table_await_left(table, txn, node, mode, &own->waiter));
}

bs_reply bs_table_ask_path(bs_table *table, bs_txn txn, bs_node node, bs_mode mode, const struct timespec *until,
                           void *word) {
  TABLE_BY_GROUP(table, bs_group_ask_path(table->group, txn, node, mode, until, word));
  bs_reply reply;
  table_asked *own = table_enter_to_ask(table, txn, until, word, &reply);
  if (own == NULL) return reply;
  reply = table_path_through(table, txn, node, mode, &own->waiter, &table->told);
  return table_leave_asked(table, own, reply);
}

static bs_reply table_ask_for_row(bs_table *table, const table_request *request, const struct timespec *until,
                                  void *word) {
  bs_reply reply;
  table_asked *own = table_enter_to_ask(table, request->txn, until, word, &reply);
  if (own == NULL) return reply;
  return table_leave_asked(table, own, table_row_by(table, request, &own->waiter, &table->told));
}

bs_reply bs_table_ask_row(bs_table *table, bs_txn txn, bs_node file, uint64_t number, const uint64_t *keys,
                          size_t count, bs_mode mode, const struct timespec *until, void *word) {
  TABLE_BY_GROUP(table, bs_group_ask_row_path(table->group, txn, file, number, keys, count, mode, until, word));
  table_request request = table_row_request(TABLE_ROW, txn, table_row_of(file, number, keys, count), mode);
  return table_ask_for_row(table, &request, until, word);
}

bs_reply bs_table_ask_row_path(bs_table *table, bs_txn txn, bs_node file, uint64_t number, const uint64_t *keys,
                               size_t count, bs_mode mode, const struct timespec *until, void *word) {
  TABLE_BY_GROUP(table, bs_group_ask_row_path(table->group, txn, file, number, keys, count, mode, until, word));
  table_request request = table_row_request(TABLE_ROW_PATH, txn, table_row_of(file, number, keys, count), mode);
  return table_ask_for_row(table, &request, until, word);
}

/* Makes the ask of a begin, which waits behind all that wait for a slot already. */
bs_reply bs_table_ask_begin_again(bs_table *table, uint64_t since, const struct timespec *until, void *word) {
  TABLE_BY_GROUP(table, bs_group_ask_begin_again(table->group, since, until, word));
  bs_reply reply;
  table_asked *own = table_enter_to_ask(table, bs_call_only(BS_DONE).txn, until, word, &reply);
  if (own == NULL) return reply;
  own->begin.ask = own;
  own->begin.since = since;
  own->begin_time = table_time_of(until);
  reply = table_begin_or_wait(table, since, &own->begin, own->begin_time);
  if (reply.status == BS_WAITING) table_append(&table->asks->begins, own);
  return table_leave_asked(table, own, reply);
}

bs_reply bs_table_ask_begin(bs_table *table, const struct timespec *until, void *word) {
  return bs_table_ask_begin_again(table, TABLE_NEW_WORK, until, word);
}

/* The first begin that was asked for with this word and waits for a slot; null if there is none. */
static table_asked *table_asked_by(const bs_table *table, const void *word) {
  table_asked *ask = table->asks == NULL ? NULL : table->asks->begins.first;
  while (ask != NULL && ask->word != word) ask = ask->next;
  return ask;
}

bs_reply bs_table_cancel_begin(bs_table *table, const void *word) {
  TABLE_BY_GROUP(table, bs_group_cancel_begin(table->group, word));
  table_asked *ask;
  if (!table_enter(table)) return table_no_table(table);
  ask = table_asked_by(table, word);
  if (ask == NULL) return table_leave(table, bs_call_only(BS_NOT_WAITING));
  bs_call_withdraw_begin(&table->manager, table_name_of(&ask->begin));
  table_end_begin(table, &ask->begin, bs_call_only(BS_NOT_WAITING));
  return table_leave(table, bs_call_only(BS_DONE));
}

/* Cancels the wait of each ask whose time is over. What one of them grants to others is theirs, before the call looks
 * whether their time is over. */
static void table_end_late(bs_table *table, uint64_t now) {
  bs_reply late = bs_call_first_late(&table->manager, now);
  while (late.status == BS_DONE) {
    table_waiter *waiter = table->waiters[late.txn.slot];
    if (waiter == NULL || table_time_out(table, late.txn, waiter).status != BS_TIMED_OUT) return;
    late = bs_call_first_late(&table->manager, now);
  }
}

/* How many asks wait for a lock to a time. */
static uint64_t table_count_timed(const bs_table *table) {
  uint64_t count = 0;
  uint32_t slot;
  for (slot = 0; slot < BS_SLOTS; slot++) {
    const table_waiter *waiter = table->waiters[slot];
    count += waiter != NULL && waiter->ask != NULL && waiter->ask->has_time;
  }
  return count;
}

/* How many asks wait for a slot to a time. */
static uint64_t table_count_timed_begins(const bs_table *table) {
  const table_asked *ask = table->asks == NULL ? NULL : table->asks->begins.first;
  uint64_t count = 0;
  for (; ask != NULL; ask = ask->next) count += ask->begin_time != TABLE_NO_TIME;
  return count;
}

bs_reply bs_table_expire(bs_table *table, struct timespec *next) {
  TABLE_BY_GROUP(table, bs_group_expire(table->group, next));
  bs_reply reply = bs_call_only(BS_DONE), earliest;
  struct timespec now;
  if (!table_enter(table)) return table_no_table(table);
  now = table_ahead(0, 0);
  table_end_late(table, table_time_of(&now));
  table_end_late_begins(table, table_time_of(&now), BS_TIMED_OUT);
  reply.count = table_count_timed(table) + table_count_timed_begins(table);
  earliest = bs_call_earliest_time(&table->manager);
  if (earliest.status == BS_DONE && next != NULL) *next = table_timespec_of(earliest.count);
  return table_leave(table, reply);
}

/* ------------------------------------------------------------------------------------------------
 * Sessions.
 */

static bool table_lives(const bs_table *table, bs_txn txn) {
  return txn.age != 0 && bs_call_doing(&table->manager, txn).status == BS_DONE;
}

/* A session takes a transaction up, or has none. None rests then. */
static bs_reply table_session_has(bs_session *session, bs_reply begun) {
  const bs_txn none = bs_call_only(BS_DONE).txn;
  session->txn = begun.status == BS_DONE ? begun.txn : none;
  session->rests = none;
  session->kept = 0;
  return begun;
}

/* Whether a transaction of a session rests: if so, it works again. */
static bool table_session_wakes(bs_table *table, const bs_session *session) {
  return session->rests.age != 0 && bs_call_wake(&table->manager, session->rests).status == BS_DONE;
}

/* The transaction that rested is the session's next one. */
static bs_reply table_session_takes_up(bs_session *session) {
  bs_reply reply = bs_call_only(BS_DONE);
  session->txn = session->rests;
  session->rests = reply.txn;
  reply.txn = session->txn;
  return reply;
}

/* Begins the next transaction of a session: the one that rests is it, unless it was aborted by name. */
static bs_reply table_session_begin(bs_table *table, bs_session *session, const struct timespec *until) {
  if (table_lives(table, session->txn)) return bs_call_only(BS_IN_USE);
  if (table_session_wakes(table, session)) return table_session_takes_up(session);
  return table_session_has(session, table_begin_or_sleep(table, TABLE_NEW_WORK, until));
}

bs_reply bs_session_begin(bs_session *session, const struct timespec *until) {
  bs_reply reply;
  if (session == NULL) return bs_call_null();
  TABLE_BY_GROUP(session->table, bs_inside_session_begin(session, UINT64_MAX, until));
  if (!table_enter_to_sleep(session->table, until)) return table_no_sleep(session->table);
  reply = table_session_begin(session->table, session, until);
  table_release(session->table);
  return reply;
}

/* Ends the one that rests, if there is one. It tells nobody, since nobody waits for it. */
static void table_session_rests_no_more(bs_table *table, bs_session *session) {
  if (table_session_wakes(table, session)) table_make_commit(table, session->rests, &table->told);
}

bs_reply bs_session_begin_again(bs_session *session, uint64_t since, const struct timespec *until) {
  bs_reply reply;
  if (session == NULL) return bs_call_null();
  TABLE_BY_GROUP(session->table, bs_inside_session_begin(session, since, until));
  if (!table_enter_to_sleep(session->table, until)) return table_no_sleep(session->table);
  table_session_rests_no_more(session->table, session);
  if (table_lives(session->table, session->txn)) return table_leave(session->table, bs_call_only(BS_IN_USE));
  reply = table_session_has(session, table_begin_or_sleep(session->table, since, until));
  table_release(session->table);
  return reply;
}

/* Commits a transaction by commands that are lines of a trace each, so that the next one keeps its first intentions. */
static TABLE_APART bs_reply table_rest_in_lines(bs_table *table, bs_txn txn, size_t known, size_t most,
                                                bs_notices *told) {
  size_t keep = (size_t)bs_call_first_intentions(&table->manager, txn, known, most).count;
  bs_notices more;
  bs_reply reply;
  if (keep == 0) return bs_call_only(BS_NO_PLACE);
  reply = table_make_release_since(table, txn, keep, told);
  if (reply.status != BS_DONE) return reply;
  if (told->count > 0) table_note_ended(table, told);
  reply = bs_traced_call_commit_and_rest(table->trace, txn, keep, TABLE_NEW_WORK, &more);
  table_tell_too(told, &more);
  return reply;
}

/* Commits a transaction, and lets the next one rest, which keeps its first intentions: BS_NO_PLACE if there are none. */
static inline bs_reply table_let_rest(bs_table *table, bs_txn txn, size_t known, size_t most, bs_notices *told) {
  if (__builtin_expect(table->is_traced, 0)) return table_rest_in_lines(table, txn, known, most, told);
  return bs_call_commit_and_rest(&table->manager, txn, known, most, TABLE_NEW_WORK, told);
}

/* Commits a session's transaction, and lets the next one rest. While others wait for a slot nobody rests. The locks that
 * were kept at the last commit are the first still. */
static bs_reply table_commit_and_rest(bs_table *table, bs_session *session, bs_notices *told) {
  bs_reply reply;
  reply.status = BS_NO_PLACE;
  if (table->queued == 0) reply = table_let_rest(table, session->txn, session->kept, session->most, told);
  if (reply.status == BS_NO_PLACE) {
    reply = table_make_commit(table, session->txn, told);
  } else if (reply.status == BS_DONE && reply.txn.age != 0) {
    session->rests = reply.txn;
    session->kept = (uint32_t)reply.count;
    table->has_rested = true;
    reply.txn = bs_call_only(BS_DONE).txn;
    session->txn = reply.txn;
  }
  return reply;
}

/* The same, and those whose wait it has ended go on. */
static bs_reply table_session_commit(bs_table *table, bs_session *session, bs_notices *told) {
  bs_reply reply;
  told->count = 0;
  reply = table_commit_and_rest(table, session, told);
  table_wake(table, reply.status, told, false);
  return reply;
}

bs_reply bs_session_commit(bs_session *session, bs_notices *told) {
  bs_table *table = session == NULL ? NULL : session->table;
  bs_reply reply;
  TABLE_TELL_BY_GROUP(table, told, bs_inside_session_commit(session));
  if (!table_enter(table)) return table_tell_none(table, told);
  reply = table_session_commit(table, session, table_list_of(table, told));
  table_hand_on(table);
  table_release(table);
  return reply;
}

bs_reply bs_session_end(bs_session *session) {
  bs_table *table = session == NULL ? NULL : session->table;
  TABLE_BY_GROUP(table, bs_inside_session_end(session));
  if (!table_enter(table)) return table_no_table(table);
  table_session_rests_no_more(table, session);
  if (table_lives(table, session->txn)) return table_leave(table, bs_call_only(BS_IN_USE));
  table_session_has(session, bs_call_only(BS_NO_SUCH_TXN));
  table_hand_on(table);
  return table_leave(table, bs_call_only(BS_DONE));
}

/* ------------------------------------------------------------------------------------------------
 * Several commands in one critical section.
 */

/* Takes the notice of a transaction off a list: its answer says the same, or where it waits by then. */
static void table_tell_all_but(bs_notices *told, bs_txn txn) {
  size_t i, kept = 0;
  for (i = 0; i < told->count; i++) {
    if (told->at[i].txn.slot != txn.slot) told->at[kept++] = told->at[i];
  }
  told->count = kept;
}

/* For which node, in which mode, a request of a list waits that was left waiting. */
static table_wait table_wait_of(const bs_table *table, const bs_command *c, bs_txn txn) {
  table_wait wait = { c->node, table_mode_of(c->mode) };
  if (c->kind != BS_DO_LOCK) {
    bs_reply doing = bs_call_doing(&table->manager, txn);
    wait.node = doing.node;
    if (c->kind != BS_DO_LOCK_ROW) wait.mode = doing.mode;
  }
  return wait;
}

/* After a request of a list was left waiting, and after those whose wait it has ended have gone on. If its own wait has
 * ended by that, that end is its answer; else nobody awaits it any more, and the answer says for what it waits. */
static TABLE_APART bs_reply table_made_waiting(bs_table *table, const bs_command *c, bs_txn txn, table_waiter *own,
                                               bs_notices *told) {
  bs_reply reply;
  table_wait wait;
  bool is_last;
  table_tell_all_but(told, txn);
  if (own->has_ended) return own->end;
  wait = table_wait_of(table, c, txn);
  is_last = table_is_same_node(wait.node, c->node);
  table_leave_waiting(table, txn, wait, is_last && table_is_instant(table, txn, c->node, c->mode));
  reply = bs_call_only(BS_WAITING);
  reply.node = wait.node;
  reply.mode = wait.mode;
  return reply;
}

/* The waiter of a list's request. */
static inline void table_lister(table_waiter *waiter) {
  waiter->ask = NULL;
  waiter->is_list = true;
  waiter->has_ended = false;
}

/* A lock in a list. */
static TABLE_IN_LINE bs_reply table_lock_made(bs_table *table, const bs_command *c, bs_txn txn, bs_notices *told) {
  table_waiter own;
  bs_reply reply;
  table_lister(&own);
  reply = table_lock_now(table, txn, c->node, c->mode, &own, told);
  if (reply.status == BS_WAITING) reply = table_made_waiting(table, c, txn, &own, told);
  return reply;
}

/* A path in a list. */
static TABLE_APART bs_reply table_path_made(bs_table *table, const bs_command *c, bs_txn txn, bs_notices *told) {
  table_waiter own;
  bs_reply reply;
  table_lister(&own);
  reply = table_path_through(table, txn, c->node, c->mode, &own, told);
  if (reply.status == BS_WAITING) reply = table_made_waiting(table, c, txn, &own, told);
  return reply;
}

/* A row in a list. */
static TABLE_APART bs_reply table_row_made(bs_table *table, const bs_command *c, bs_txn txn, bs_notices *told) {
  table_kind kind = c->kind == BS_DO_LOCK_ROW ? TABLE_ROW : TABLE_ROW_PATH;
  table_row row = table_row_of(c->file, c->number, c->keys, c->key_count);
  table_request request = table_row_request(kind, txn, row, c->mode);
  table_waiter own;
  bs_reply reply;
  table_lister(&own);
  reply = table_row_by(table, &request, &own, told);
  if (reply.status == BS_WAITING) reply = table_made_waiting(table, c, txn, &own, told);
  return reply;
}

/* A tried row in a list. */
static bs_reply table_tried_row_made(bs_table *table, const bs_command *c, bs_txn txn) {
  table_row row = table_row_of(c->file, c->number, c->keys, c->key_count);
  if (c->kind == BS_DO_TRY_ROW) return table_row_tried(table, txn, &row, c->mode);
  return table_row_path_tried(table, txn, &row, c->mode, c->keep);
}

/* Makes a command that begins, that tries or releases locks, or that cuts intervals, except the most frequent. */
static TABLE_APART bs_reply table_other_made(bs_table *table, const bs_command *c, bs_txn txn, bs_notices *told) {
  switch (c->kind) {
    case BS_DO_TRY: return table_try_now(table, txn, c->node, c->mode);
    case BS_DO_RELEASE_SINCE: return table_make_release_since(table, txn, c->number, told);
    case BS_DO_UNLOCK: return table_make_unlock(table, txn, c->node, told);
    case BS_DO_ESCALATE: return table_do_escalate(table, txn, c->node, told);
    case BS_DO_CANCEL: return table_make_cancel(table, txn, told);
    case BS_DO_ABORT: return table_make_abort(table, txn, told);
    case BS_DO_SETTLE: return table_make_settle(table, txn, told);
    case BS_DO_RENEW: return table_make_renew(table, txn, c->number);
    case BS_DO_SPLIT: return table_make_split(table, txn, c->node, c->key, told);
    case BS_DO_MERGE: return table_make_merge(table, txn, c->node, told);
    case BS_DO_UNLOCK_ROW: return table_make_unlock_row(table, txn, c->file, c->number, told);
    case BS_DO_TRY_PATH: return table_path_tried(table, txn, c->node, c->mode, c->keep);
    case BS_DO_TRY_ROW: return table_tried_row_made(table, c, txn);
    case BS_DO_TRY_ROW_PATH: return table_tried_row_made(table, c, txn);
    case BS_DO_MARK: return bs_mark(&table->manager, txn);
    case BS_DO_INSERT_PATH: return table_inserted_by_path(table, txn, c->file, c->keys, c->key_count, c->keep);
    case BS_DO_BEGIN_AGAIN: return table_begin_again_now(table, c->number);
    default: return bs_call_only(BS_BAD_NUMBER);
  }
}

/* Makes a command that is no request that may wait. */
static inline bs_reply table_made(bs_table *table, const bs_command *c, bs_txn txn, bs_notices *told) {
  switch (c->kind) {
    case BS_DO_BEGIN: return table_begin_now(table);
    case BS_DO_COMMIT: return table_make_commit(table, txn, told);
    case BS_DO_INSERT: return table_make_insert(table, txn, c->file, c->keys, c->key_count);
    case BS_DO_DELETE: return table_make_delete(table, txn, c->node, told);
    case BS_DO_ADOPT: return table_make_adopt(table, c->file, c->keys, c->key_count);
    case BS_DO_FORGET: return table_make_forget(table, c->node);
    case BS_DO_REKEY: return table_make_rekey(table, txn, c->node, c->index, c->key, told);
    case BS_DO_REKEY_ROW: return table_make_rekey_row(table, txn, c->file, c->number, c->index, c->key, told);
    case BS_DO_MOVE: return table_make_move(table, txn, c->node, c->parents, c->parent_count, told);
    case BS_DO_DROP: return table_make_drop(table, txn, c->node, told);
    case BS_DO_ADD_INNER: return table_make_add_inner(table, c->parents, c->parent_count);
    case BS_DO_ADD_FILE: return table_make_add_file(table, c->parents, c->parent_count);
    case BS_DO_ADD_ROW_FILE: return table_make_add_row_file(table, c->parents, c->parent_count);
    case BS_DO_ADD_INDEX:
      return table_make_add_index(table, c->parents, c->parent_count, c->file, c->bounds, c->bound_count);
    case BS_DO_INDEX_BY:
      return table_make_index_by(table, txn, c->parents, c->parent_count, c->file, c->bounds, c->bound_count);
    default: return table_other_made(table, c, txn, told);
  }
}

/* Makes a command whose nodes are named, and answers its reply. Those whose wait it has ended go on after it. */
static TABLE_IN_LINE bs_reply table_make_one(bs_table *table, const bs_command *c, bs_txn txn) {
  bs_notices *told = table_list_of(table, c->told);
  bs_reply reply;
  told->count = 0;
  if (c->kind == BS_DO_LOCK) return table_lock_made(table, c, txn, told);
  if (c->kind == BS_DO_LOCK_PATH) return table_path_made(table, c, txn, told);
  if (c->kind == BS_DO_LOCK_ROW || c->kind == BS_DO_LOCK_ROW_PATH) return table_row_made(table, c, txn, told);
  reply = table_made(table, c, txn, told);
  table_wake(table, reply.status, told, c->kind == BS_DO_CANCEL || c->kind == BS_DO_ABORT);
  return reply;
}

/* Whether a command was refused since a name is no node's, or no file's of rows. */
static inline bool table_names_none(bs_status status) {
  return status == BS_NO_SUCH_NODE || status == BS_NOT_ROWS;
}

static bool table_names_made(const bs_command *c) {
  size_t i;
  bool any = bs_inside_is_made(c->node) || bs_inside_is_made(c->file) || bs_inside_is_made(c->index);
  if (c->parents == NULL || c->parent_count > BS_MOST_PARENTS) return any;
  for (i = 0; i < c->parent_count; i++) any |= bs_inside_is_made(c->parents[i]);
  return any;
}

/* Makes a command again that was refused, since it names nodes so, and such a name is no node's. */
static TABLE_APART bs_reply table_make_named(bs_table *table, const bs_command *commands, size_t place, bs_txn txn) {
  bs_node parents[BS_MOST_PARENTS];
  bs_command named;
  if (!table_names_made(&commands[place])) return commands[place].reply;
  named = bs_inside_named(commands, place, parents);
  return table_make_one(table, &named, txn);
}

/* Makes the command at this place of a list, and writes its reply. It is inlined in each loop: a call for each command
 * of a list costs a twentieth of it. */
static TABLE_IN_LINE bs_status table_run_next(bs_table *table, bs_command *commands, size_t place, bs_txn begun) {
  bs_command *next = &commands[place];
  bs_txn txn = bs_inside_is_own(next) ? begun : next->txn;
  next->reply = table_make_one(table, next, txn);
  if (__builtin_expect(next->reply.status == BS_DONE, 1)) return BS_DONE;
  if (table_names_none(next->reply.status)) next->reply = table_make_named(table, commands, place, txn);
  return next->reply.status;
}

/* For a list whose table was not entered: the first command is refused so. */
static TABLE_APART size_t table_none_made(bs_table *table, bs_command *commands, size_t count) {
  commands[0].reply = table_tell_none(table, commands[0].told);
  bs_inside_not_made(commands + 1, count - 1);
  return 0;
}

/* Leaves after a list of which so many commands are done. */
static size_t table_leave_list(bs_table *table, bs_command *commands, size_t done, size_t count) {
  table_hand_on(table);
  table_release(table);
  if (done < count) bs_inside_not_made(commands + done + 1, count - done - 1);
  return done;
}

size_t bs_table_run(bs_table *table, bs_command *commands, size_t count) {
  TABLE_BY_GROUP(table, bs_group_run(table->group, commands, count));
  bs_txn begun = bs_begun();
  size_t done = 0;
  if (commands == NULL || count == 0) return 0;
  if (!table_enter(table)) return table_none_made(table, commands, count);
  while (done < count) {
    if (table_run_next(table, commands, done, begun) != BS_DONE) break;
    if (bs_inside_begins(commands[done].kind)) begun = commands[done].reply.txn;
    done++;
  }
  return table_leave_list(table, commands, done, count);
}

/* The transaction of a session that has one, or its next one, if that can begin at once. */
static bs_reply table_session_goes_on(bs_table *table, bs_session *session) {
  bs_reply reply = bs_call_only(BS_DONE);
  if (table_session_wakes(table, session)) return table_session_takes_up(session);
  if (!table_lives(table, session->txn)) return table_session_has(session, table_begin_now(table));
  reply.txn = session->txn;
  return reply;
}

/* Makes the commands of a list for a session, up to the first that is not done; how many are. */
static size_t table_run_in_session(bs_table *table, bs_session *session, bs_command *commands, size_t count) {
  size_t done = 0;
  for (; done < count; done++) {
    bs_command *next = &commands[done];
    bool is_own = bs_inside_is_own(next);
    if (is_own && next->kind == BS_DO_COMMIT) {
      next->reply = table_session_commit(table, session, table_list_of(table, next->told));
    } else {
      table_run_next(table, commands, done, session->txn);
    }
    if (next->reply.status != BS_DONE) break;
    if (is_own && next->kind == BS_DO_RENEW) session->txn = next->reply.txn;
  }
  return done;
}

size_t bs_session_run(bs_session *session, bs_command *commands, size_t count) {
  bs_table *table = session == NULL ? NULL : session->table;
  bs_reply begun;
  size_t done = 0;
  if (commands != NULL && table_has_parts(table)) return bs_inside_session_run(session, commands, count);
  if (commands == NULL || count == 0) return 0;
  if (!table_enter(table)) return table_none_made(table, commands, count);
  begun = table_session_goes_on(table, session);
  if (begun.status == BS_DONE) {
    done = table_run_in_session(table, session, commands, count);
  } else {
    table_list_of(table, commands[0].told)->count = 0;
    commands[0].reply = begun;
  }
  return table_leave_list(table, commands, done, count);
}

/* Makes the next try of a list, and writes its reply. What is no try is refused. */
static TABLE_APART bs_status table_try_one(bs_table *table, bs_command *next) {
  if (bs_inside_is_try(next->kind)) {
    next->reply = table_make_one(table, next, next->txn);
    return next->reply.status;
  }
  if (next->told != NULL) next->told->count = 0;
  next->reply = bs_call_only(BS_BAD_NUMBER);
  return BS_BAD_NUMBER;
}

size_t bs_table_try_first(bs_table *table, bs_command *commands, size_t count) {
  TABLE_BY_GROUP(table, bs_group_try_first(table->group, commands, count));
  size_t place = 0;
  if (commands == NULL || count == 0) return count;
  if (!table_enter(table)) return table_none_made(table, commands, count);
  while (place < count && bs_inside_is_passed(table_try_one(table, &commands[place]))) place++;
  table_release(table);
  if (place < count) bs_inside_not_made(commands + place + 1, count - place - 1);
  return place;
}

/* ------------------------------------------------------------------------------------------------
 * Questions.
 */

const bs_manager *bs_table_hold(bs_table *table) {
  if (!table_enter(table)) return NULL;
  table->held_before = table_held;
  table_held = table;
  return &table->manager;
}

bs_reply bs_table_let_go(bs_table *table) {
  bs_table **at = &table_held;
  if (table == NULL) return bs_call_null();
  if (!table_holds(table)) return bs_call_only(BS_NOT_HELD);
  if (table_is_among(table, table_held_outside)) return bs_call_only(BS_IN_USE);
  while (*at != table) at = &(*at)->held_before;
  *at = table->held_before;
  table_hand_on(table);
  return table_leave(table, bs_call_only(BS_DONE));
}

/* The main table of a group keeps the function. */
static bs_reply table_name_nodes_of_group(bs_table_group *group,
                                          void (*function)(void *context, bs_node node, char *text, size_t room),
                                          void *context) {
  bs_reply reply = bs_inside_open(group);
  return reply.status == BS_DONE ? bs_table_name_nodes(bs_inside_table_of(group, 0), function, context) : reply;
}

bs_reply bs_table_name_nodes(bs_table *table,
                             void (*function)(void *context, bs_node node, char *text, size_t room), void *context) {
  TABLE_BY_GROUP(table, table_name_nodes_of_group(table->group, function, context));
  if (!table_enter(table)) return table_no_table(table);
  table->namer.function = function;
  table->namer.context = context;
  return table_leave(table, bs_call_only(BS_DONE));
}

bs_call_namer bs_call_table_namer(bs_table *table, const bs_manager *manager) {
  bs_call_namer namer = { NULL, NULL };
  const bs_table *held = table_held;
  if (table == NULL) {
    while (held != NULL && &held->manager != manager) held = held->held_before;
    return held == NULL ? namer : held->namer;
  }
  if (!table_enter(table)) return namer;
  namer = table->namer;
  table_release(table);
  return namer;
}

/* ------------------------------------------------------------------------------------------------
 * Watchers: the waits-for graph, without the latch.
 */

bs_reply bs_call_table_watch(bs_table *table, bs_watcher *watcher) {
  TABLE_BY_GROUP(table, bs_call_group_watch(table->group, watcher));
  TABLE_ASK(table, bs_watch(&table->manager, watcher));
}

/* Sleeps for some nanoseconds, but no longer than the table lives. The latch is held before and after. */
static void table_rest(bs_table *table, uint64_t nanoseconds) {
  struct timespec until;
  if (nanoseconds == 0) return;
  until = table_ahead(nanoseconds / 1000000000u, (uint32_t)(nanoseconds % 1000000000u));
  while (table->stage == TABLE_OPEN && pthread_cond_timedwait(&table->over, &table->latch, &until) != ETIMEDOUT) {
    continue;
  }
}

/* Settles a suspect of a board. It, and each transaction that this tells, is taken off the board: so none is settled
 * whose cycles are open by then. */
static void table_settle_one(bs_table *table, bs_board *board, uint32_t slot) {
  static const bs_slots none = { { 0 } };
  bs_txn suspect;
  size_t i;
  suspect.slot = slot;
  suspect.age = board->ages[slot];
  table_wake(table, table_make_settle(table, suspect, &table->told).status, &table->told, false);
  board->rows[slot] = none;
  for (i = 0; i < table->told.count; i++) board->rows[table->told.at[i].txn.slot] = none;
}

/* Settles every suspect of a board, the youngest first, while the table is open. The latch is held before and after,
 * and is free between two of them: each searches the whole waits-for graph. */
static void table_settle_all(bs_table *table, bs_board *board) {
  bs_reply youngest = bs_youngest(board, bs_suspects(board).slots);
  while (youngest.status == BS_DONE && table->stage == TABLE_OPEN) {
    table_settle_one(table, board, (uint32_t)youngest.count);
    table_release(table);
    youngest = bs_youngest(board, bs_suspects(board).slots);
    table_take(table);
  }
}

/* The thread that watches. Only a lock that is left waiting closes a cycle of waits: so the thread sleeps until there
 * was one since the last board that it settled. A board older than the last such lock could not be shown, for lack of
 * memory: then it is read with the latch held, which takes no memory. */
static void *table_watch_over(void *place) {
  bs_table *table = (bs_table *)place;
  bs_board board;
  uint64_t seen = 0; /* it never falls: all waits up to this count of commands are settled */
  memset(&board, 0, sizeof board);
  table_take(table);
  while (table->stage == TABLE_OPEN) {
    if (table->waited <= seen) {
      pthread_cond_wait(&table->began, &table->latch);
      continue;
    }
    seen = table->waited;
    pthread_mutex_unlock(&table->latch);
    bs_look(&table->eye, &board);
    table_take(table);
    if (table->stage != TABLE_OPEN) break;
    if (board.epoch < seen) bs_read_board(&table->manager, &board);
    seen = board.epoch;
    table_settle_all(table, &board);
    table_rest(table, table->pace);
  }
  pthread_mutex_unlock(&table->latch);
  bs_watch_end(&table->eye);
  return NULL;
}

/* The thread takes no signals that are the process's, except those that a fault of its own raises: these cannot
 * wait. */
bool bs_call_start(pthread_t *thread, void *(*run)(void *), void *place) {
  static const int faults[] = { SIGSEGV, SIGBUS, SIGFPE, SIGILL, SIGTRAP };
  sigset_t blocked, before;
  size_t i;
  bool is_started;
  sigfillset(&blocked);
  for (i = 0; i < sizeof faults / sizeof faults[0]; i++) sigdelset(&blocked, faults[i]);
  pthread_sigmask(SIG_SETMASK, &blocked, &before);
  is_started = pthread_create(thread, NULL, run, place) == 0;
  pthread_sigmask(SIG_SETMASK, &before, NULL);
  return is_started;
}

/* While the thread looks, its watcher is not in its place, so a second one is refused by the table. */
bs_reply bs_table_watch_thread(bs_table *table, uint64_t pace) {
  TABLE_BY_GROUP(table, bs_group_watch_thread(table->group, pace));
  bs_reply reply;
  if (!table_enter(table)) return table_no_table(table);
  if (table->is_watched) return table_leave(table, bs_call_only(BS_IN_USE));
  reply = bs_watch(&table->manager, &table->eye);
  if (reply.status != BS_DONE) return table_leave(table, reply);
  table->pace = pace;
  table->is_watched = bs_call_start(&table->watch, table_watch_over, table);
  if (!table->is_watched) {
    bs_watch_end(&table->eye);
    reply.status = BS_NO_MEMORY;
  }
  return table_leave(table, reply);
}

/* ------------------------------------------------------------------------------------------------
 * What burlapslate_running.c and burlapslate_trace.c need.
 */

/* The table that this thread holds with this manager; null if it is no table's. */
static bs_table *table_held_with(const bs_manager *manager) {
  bs_table *held = table_held;
  while (held != NULL && &held->manager != manager) held = held->held_before;
  return held;
}

bs_running *bs_call_running(const bs_manager *manager) {
  bs_table *held = table_held_with(manager);
  return held == NULL ? NULL : &held->running;
}

uint64_t bs_call_queued(const bs_manager *manager) {
  const bs_table *held = table_held_with(manager);
  return held == NULL ? 0 : held->queued;
}

bool bs_call_may_sleep(void) {
  return table_may_sleep();
}

void bs_call_engine(void (*function)(void *place), void *place) {
  table_asked_list over = { NULL, NULL };
  table_telling = &over;
  function(place);
  while (table_held != NULL) bs_table_let_go(table_held);
  table_telling = NULL;
  if (over.first != NULL) table_tell(&over);
}

void bs_call_hand_on(bs_table *table) {
  table_hand_on(table);
}

void bs_call_make_steady(pthread_cond_t *cond) {
  pthread_condattr_t steady;
  pthread_condattr_init(&steady);
  pthread_condattr_setclock(&steady, CLOCK_MONOTONIC);
  pthread_cond_init(cond, &steady);
  pthread_condattr_destroy(&steady);
}

/* ------------------------------------------------------------------------------------------------
 * A trace.
 */

bs_reply bs_table_trace(bs_table *table, int file) {
  bs_reply reply;
  if (!table_enter(table)) return table_no_table(table);
  if (table->is_traced) return table_leave(table, bs_call_only(BS_IN_USE));
  reply = bs_call_trace(table, &table->manager, file, &table->trace);
  table->is_traced = reply.status == BS_DONE;
  return table_leave(table, reply);
}

bs_reply bs_table_trace_end(bs_table *table) {
  bs_trace *trace;
  if (!table_enter_to_sleep(table, NULL)) return table_no_sleep(table);
  trace = table_take_trace(table);
  table_release(table);
  return bs_call_trace_end(trace);
}

/* ------------------------------------------------------------------------------------------------
 * What burlapslate_group.c needs.
 */

bool bs_inside_is_time(const struct timespec *until) {
  return table_is_time(until);
}

bool bs_inside_holds_none(void) {
  return table_held == NULL;
}

void bs_inside_keep_ends(bs_inside_asks *ends) {
  ends->first = NULL;
  if (table_telling == NULL) table_telling = ends;
}

void bs_inside_tell_ends(bs_inside_asks *ends) {
  if (table_telling != ends) return;
  table_telling = NULL;
  if (ends->first != NULL) table_tell(ends);
}

void bs_inside_deadline(bs_table *table, bs_txn txn, const struct timespec *until) {
  table->deadlines[txn.slot].age = until == NULL ? 0 : txn.age;
  table->deadlines[txn.slot].time = table_time_of(until);
}

bool bs_inside_enter(bs_table *table) {
  table_take(table);
  return __builtin_expect(table->stage == TABLE_OPEN, 1) || table_turned_away(table);
}

void bs_inside_take(bs_table *table) {
  table_take(table);
}

void bs_inside_release(bs_table *table) {
  table_release(table);
}

void bs_inside_tell(bs_table *table) {
  table_tell_between(table);
}

bool bs_inside_holds(const bs_table *table) {
  return table_holds(table);
}

bs_manager *bs_inside_manager(bs_table *table) {
  return &table->manager;
}

void bs_inside_look_by(bs_table *table, bs_inside_look *look, void *context) {
  table->look = look;
  table->look_context = context;
  table->looks *= TABLE_PAUSES / TABLE_PAUSES_IN_GROUP;
  table->pauses = TABLE_PAUSES_IN_GROUP;
}

bool bs_inside_sleeps(const bs_table *table, uint32_t slot) {
  return table->waiters[slot] != NULL;
}

bool bs_inside_any_waits(const bs_table *table) {
  size_t i;
  uint64_t any = 0;
  for (i = 0; i < BS_SLOTS / 64; i++) any |= table->running.waiting.words[i];
  return any != 0;
}

/* How a wait counts that its group has ended with this status. */
static enum bs_wait_ends table_counts_as(bs_status status) {
  if (status == BS_VICTIM) return BS_END_VICTIM;
  return status == BS_TIMED_OUT ? BS_END_TIMED_OUT : BS_END_CANCELLED;
}

/* The wait is cancelled as one whose time is over, which wakes others in the same way. */
bool bs_inside_end_sleep(bs_table *table, uint32_t slot, bs_status status) {
  table_waiter *waiter = table->waiters[slot];
  bs_reply end;
  if (waiter == NULL) return false;
  end = table_make_call_time_out(table, bs_call_living(&table->manager, slot).txn, &table->told);
  if (end.status != BS_TIMED_OUT) return false;
  end.status = status;
  bs_call_wait_cut(&table->running, slot, table_counts_as(status));
  table_end(table, waiter, slot, end);
  table_wake_told(table, &table->told);
  return true;
}

bs_reply bs_inside_path(bs_table *table, bs_txn txn, bs_node node, bs_mode mode, const struct timespec *until) {
  table_waiter own;
  bs_reply reply;
  table_sleeper(&own, until);
  reply = table_path_through(table, txn, node, mode, &own, &table->told);
  return reply.status == BS_WAITING ? table_sleep(table, txn, &own) : reply;
}

bs_reply bs_inside_row_path(bs_table *table, bs_txn txn, bs_node file, uint64_t number, const uint64_t *keys,
                            size_t count, bs_mode mode, const struct timespec *until) {
  table_request request = table_row_request(TABLE_ROW_PATH, txn, table_row_of(file, number, keys, count), mode);
  table_waiter own;
  bs_reply reply;
  table_sleeper(&own, until);
  reply = table_row_by(table, &request, &own, &table->told);
  return reply.status == BS_WAITING ? table_sleep(table, txn, &own) : reply;
}

bs_reply bs_inside_ask_path(bs_table *table, bs_txn txn, bs_node node, bs_mode mode, const struct timespec *until,
                            void *word) {
  table_asked *own = table_new_ask(table, txn, until, word);
  if (own == NULL) return bs_call_only(BS_NO_MEMORY);
  return table_asked_now(table, own, table_path_through(table, txn, node, mode, &own->waiter, &table->told));
}

bs_reply bs_inside_ask_row_path(bs_table *table, bs_txn txn, bs_node file, uint64_t number, const uint64_t *keys,
                                size_t count, bs_mode mode, const struct timespec *until, void *word) {
  table_request request = table_row_request(TABLE_ROW_PATH, txn, table_row_of(file, number, keys, count), mode);
  table_asked *own = table_new_ask(table, txn, until, word);
  if (own == NULL) return bs_call_only(BS_NO_MEMORY);
  return table_asked_now(table, own, table_row_by(table, &request, &own->waiter, &table->told));
}

bs_reply bs_inside_try_path(bs_table *table, bs_txn txn, bs_node node, bs_mode mode, uint32_t keep) {
  return table_path_tried(table, txn, node, mode, keep);
}

bs_reply bs_inside_try_row_path(bs_table *table, bs_txn txn, bs_node file, uint64_t number, const uint64_t *keys,
                                size_t count, bs_mode mode, uint32_t keep) {
  table_row row = table_row_of(file, number, keys, count);
  return table_row_path_tried(table, txn, &row, mode, keep);
}

bs_reply bs_inside_insert(bs_table *table, bs_txn txn, bs_node file, const uint64_t *keys, size_t count) {
  return table_inserted_by_path(table, txn, file, keys, count, BS_KEEP_NOTHING);
}

/* After a command of a table of a group. */
static bs_reply table_wake_after(bs_table *table, bs_reply reply, bool by_name) {
  table_wake(table, reply.status, &table->told, by_name);
  return reply;
}

bs_reply bs_inside_delete(bs_table *table, bs_txn txn, bs_node record) {
  return table_wake_after(table, table_make_delete(table, txn, record, &table->told), false);
}

bs_reply bs_inside_rekey(bs_table *table, bs_txn txn, bs_node record, bs_node index, uint64_t key) {
  return table_wake_after(table, table_make_rekey(table, txn, record, index, key, &table->told), false);
}

bs_reply bs_inside_unlock(bs_table *table, bs_txn txn, bs_node node) {
  return table_wake_after(table, table_make_unlock(table, txn, node, &table->told), false);
}

bs_reply bs_inside_release_since(bs_table *table, bs_txn txn, uint64_t savepoint) {
  return table_wake_after(table, table_make_release_since(table, txn, savepoint, &table->told), false);
}

bs_reply bs_inside_drop(bs_table *table, bs_txn txn, bs_node node) {
  return table_wake_after(table, table_make_drop(table, txn, node, &table->told), false);
}

/* From now on nobody continues the requests of these slots. */
static void table_withdraw_all(bs_table *table, const bs_slots *slots) {
  uint32_t slot;
  for (slot = 0; slot < BS_SLOTS; slot++) {
    if (!bs_has(*slots, slot)) continue;
    bs_call_withdraw_waiter(&table->manager, bs_call_living(&table->manager, slot).txn);
  }
}

/* Ends the request of a slot with BS_MOVED, which nobody continues. A move may have ended its wait. */
static void table_end_moved(bs_table *table, uint32_t slot) {
  bs_txn txn = bs_call_living(&table->manager, slot).txn;
  bs_notices more;
  if (table_make_cancel(table, txn, &more).status == BS_DONE) {
    bs_call_wait_cut(&table->running, slot, BS_END_MOVED);
    table_note_ended(table, &more);
  }
  table_end(table, table->waiters[slot], slot, bs_call_only(BS_MOVED));
}

/* Nobody continues before all of them have ended: they would pass what they may lack in another table. */
bs_reply bs_inside_move(bs_table *table, bs_txn txn, bs_node node, const bs_node *parents, size_t count,
                        const bs_slots *passers) {
  bs_reply reply = table_make_move(table, txn, node, parents, count, &table->told);
  uint32_t slot;
  if (reply.status != BS_DONE) return reply;
  table_note_ended(table, &table->told);
  table_withdraw_all(table, passers);
  for (slot = 0; slot < BS_SLOTS; slot++) {
    if (bs_has(*passers, slot)) table_end_moved(table, slot);
  }
  table_go_on(table, &table->told);
  return reply;
}

bs_reply bs_inside_split(bs_table *table, bs_txn txn, bs_node interval, uint64_t at) {
  return table_wake_after(table, table_make_split(table, txn, interval, at, &table->told), false);
}

bs_reply bs_inside_merge(bs_table *table, bs_txn txn, bs_node interval) {
  return table_wake_after(table, table_make_merge(table, txn, interval, &table->told), false);
}

/* It tells nobody. */
bs_reply bs_inside_index_records(bs_table *table, bs_txn txn, const bs_node *parents, size_t count, bs_node file,
                                 const uint64_t *bounds, size_t bound_count, const bs_node *records,
                                 const uint64_t *keys, size_t record_count) {
  return table_index_records_now(table, txn, parents, count, file, bounds, bound_count, records, keys, record_count);
}

bs_reply bs_inside_unlock_row(bs_table *table, bs_txn txn, bs_node file, uint64_t number) {
  return table_wake_after(table, table_make_unlock_row(table, txn, file, number, &table->told), false);
}

bs_reply bs_inside_rekey_row(bs_table *table, bs_txn txn, bs_node file, uint64_t number, bs_node index, uint64_t key) {
  return table_wake_after(table, table_make_rekey_row(table, txn, file, number, index, key, &table->told), false);
}

bs_reply bs_inside_escalate(bs_table *table, bs_txn txn, bs_node node) {
  return table_wake_after(table, table_do_escalate(table, txn, node, &table->told), false);
}

bs_reply bs_inside_commit(bs_table *table, bs_txn txn) {
  return table_wake_after(table, table_make_commit(table, txn, &table->told), false);
}

bs_reply bs_inside_abort(bs_table *table, bs_txn txn) {
  return table_wake_after(table, table_make_abort(table, txn, &table->told), true);
}

bs_reply bs_inside_commit_and_rest(bs_table *table, bs_txn txn, size_t known, size_t most, uint64_t since) {
  bs_reply reply = bs_call_commit_and_rest(&table->manager, txn, known, most, since, &table->told);
  if (reply.status == BS_NO_PLACE) return bs_inside_commit(table, txn);
  if (reply.txn.age != 0) table->has_rested = true;
  return table_wake_after(table, reply, false);
}

/* It tells nobody, since nobody waits for a resting transaction. */
bs_status bs_inside_end_resting(bs_table *table) {
  bs_reply reply;
  if (!table->has_rested) return BS_DONE;
  do {
    reply = table_make_call_make_room(table, &table->told);
  } while (reply.status == BS_DONE);
  table->has_rested = reply.status != BS_NO_PLACE;
  return table->has_rested ? reply.status : BS_DONE;
}

/* ------------------------------------------------------------------------------------------------
 * The version.
 */

uint32_t bs_version(void) {
  return BS_CALL_VERSION;
}
