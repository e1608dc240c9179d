/*
 * The scenarios through the lock manager of this repository. Every answer and every list of notices is checked, as a
 * caller must.
 */
#include "race.h"
#include "ours.h"

#include <pthread.h>

/* A caller: a thread with a transaction. All but `notices` is read under the latch only. */
struct session {
  bs_txn txn;
  uint32_t told; /* the kind of the notice that ended its wait; 0: there was none yet */
  pthread_cond_t woken;
  bs_notices notices;
};

static bs_manager manager = BS_NO_MANAGER_HERE;
static bs_node inner[INNER_NODES];
static bs_node records[MOST_RECORDS];
static bs_node other_root;
static size_t record_count;

/* The mutex that a program holds during each call, if it has threads. */
static pthread_mutex_t latch = PTHREAD_MUTEX_INITIALIZER;
static struct session sessions[CREW];
static struct session *by_slot[BS_SLOTS];
static long rounds_each;

/* A call that must be done at once, and tell nobody. */
static inline void quiet(bs_reply reply, const bs_notices *told) {
  DONE(reply);
  WANT(told->count == 0);
}

static inline bs_txn begun(void) {
  return DONE(bs_begin(&manager)).txn;
}

static void lock_path(bs_txn txn, bs_mode mode, bs_notices *told) {
  size_t i;
  for (i = 0; i < INNER_NODES; i++) quiet(bs_lock(&manager, txn, inner[i], mode, told), told);
}

static void make_records(size_t count) {
  bs_notices *told = &sessions[0].notices;
  bs_txn txn = begun();
  size_t i;
  WANT(count <= MOST_RECORDS);
  lock_path(txn, BS_IX, told);
  for (i = 0; i < count; i++) records[i] = DONE(bs_insert(&manager, txn, inner[2], NULL, 0)).node;
  quiet(bs_commit(&manager, txn, told), told);
  record_count = count;
}

static void set_up(const struct scene *scene) {
  size_t i;
  DONE(bs_make(&manager, NULL));
  inner[0] = DONE(bs_add_inner(&manager, NULL, 0)).node;
  inner[1] = DONE(bs_add_inner(&manager, &inner[0], 1)).node;
  inner[2] = DONE(bs_add_file(&manager, &inner[1], 1)).node;
  other_root = DONE(bs_add_inner(&manager, NULL, 0)).node;
  make_records(scene->records);
  for (i = 0; i < scene->others; i++) lock_path(begun(), BS_IX, &sessions[0].notices);
  WANT(bs_group(&manager, inner[2]).mode == (scene->others == 0 ? BS_NL : BS_IX));
  for (i = 0; i < CREW; i++) WANT(pthread_cond_init(&sessions[i].woken, NULL) == 0);
}

static void tear_down(void) {
  size_t i;
  for (i = 0; i < record_count; i++) WANT(bs_group(&manager, records[i]).mode == BS_NL);
  for (i = 0; i < CREW; i++) WANT(pthread_cond_destroy(&sessions[i].woken) == 0);
  DONE(bs_end(&manager));
}

const struct side ours = { set_up, tear_down };

/* ------------------------------------------------------------------------------------------------
 * Short transactions.
 */

static void short_transaction(bs_mode intention, bs_mode mode) {
  bs_notices *told = &sessions[0].notices;
  bs_txn txn = begun();
  lock_path(txn, intention, told);
  quiet(bs_lock(&manager, txn, records[0], mode, told), told);
  quiet(bs_commit(&manager, txn, told), told);
}

uint64_t ours_write(long rounds) {
  uint64_t start = now();
  while (rounds-- > 0) short_transaction(BS_IX, BS_X);
  return now() - start;
}

/* The same with its four locks in one call. */
static void short_path(void) {
  bs_notices *told = &sessions[0].notices;
  bs_txn txn = begun();
  quiet(bs_lock_path(&manager, txn, records[0], BS_X, told), told);
  quiet(bs_commit(&manager, txn, told), told);
}

uint64_t ours_write_path(long rounds) {
  uint64_t start = now();
  while (rounds-- > 0) short_path();
  return now() - start;
}

uint64_t ours_read(long rounds) {
  uint64_t start = now();
  while (rounds-- > 0) short_transaction(BS_IS, BS_S);
  return now() - start;
}

static MEASURED void measured_commit(bs_txn txn, bs_notices *told) {
  quiet(bs_commit(&manager, txn, told), told);
}

/* A transaction with all records and the path to them, and a savepoint between these. */
static bs_txn with_all_records(bs_notices *told, uint64_t *savepoint) {
  bs_txn txn = begun();
  size_t i;
  lock_path(txn, BS_IX, told);
  *savepoint = DONE(bs_mark(&manager, txn)).count;
  for (i = 0; i < record_count; i++) quiet(bs_lock(&manager, txn, records[i], BS_X, told), told);
  WANT(bs_children(&manager, txn, inner[2]).count == record_count);
  return txn;
}

uint64_t ours_commit(long rounds) {
  bs_notices *told = &sessions[0].notices;
  uint64_t taken = 0;
  while (rounds-- > 0) {
    uint64_t savepoint;
    bs_txn txn = with_all_records(told, &savepoint);
    uint64_t start = now();
    measured_commit(txn, told);
    taken += now() - start;
  }
  return taken;
}

static MEASURED void measured_back(bs_txn txn, uint64_t savepoint, bs_notices *told) {
  quiet(bs_release_since(&manager, txn, savepoint, told), told);
}

uint64_t ours_back(long rounds) {
  bs_notices *told = &sessions[0].notices;
  uint64_t taken = 0;
  while (rounds-- > 0) {
    uint64_t savepoint;
    bs_txn txn = with_all_records(told, &savepoint);
    uint64_t start = now();
    measured_back(txn, savepoint, told);
    taken += now() - start;
    WANT(bs_children(&manager, txn, inner[2]).count == 0);
    quiet(bs_commit(&manager, txn, told), told);
  }
  return taken;
}

/* ------------------------------------------------------------------------------------------------
 * Waits and deadlocks in one thread, where no call waits.
 */

static bool is_told(const bs_notices *told, bs_txn txn, uint32_t kind) {
  return told->count == 1 && told->at[0].txn.age == txn.age && told->at[0].kind == kind;
}

uint64_t ours_wait(long rounds) {
  bs_notices *told = &sessions[0].notices;
  bs_txn holder = begun();
  uint64_t start;
  quiet(bs_lock(&manager, holder, other_root, BS_X, told), told);
  start = now();
  while (rounds-- > 0) {
    bs_txn waiter = begun();
    WANT(bs_lock(&manager, waiter, other_root, BS_X, told).status == BS_WAITING && told->count == 0);
    DONE(bs_commit(&manager, holder, told));
    WANT(is_told(told, waiter, BS_TOLD_GRANTED));
    holder = waiter;
  }
  start = now() - start;
  quiet(bs_commit(&manager, holder, told), told);
  return start;
}

static void deadlock(void) {
  bs_notices *told = &sessions[0].notices;
  bs_txn older = begun(), younger = begun();
  quiet(bs_lock(&manager, older, inner[0], BS_X, told), told);
  quiet(bs_lock(&manager, younger, other_root, BS_X, told), told);
  WANT(bs_lock(&manager, older, other_root, BS_X, told).status == BS_WAITING && told->count == 0);
  WANT(bs_lock(&manager, younger, inner[0], BS_X, told).status == BS_VICTIM && told->count == 0);
  DONE(bs_abort(&manager, younger, told));
  WANT(is_told(told, older, BS_TOLD_GRANTED));
  quiet(bs_commit(&manager, older, told), told);
}

uint64_t ours_deadlock(long rounds) {
  uint64_t start = now();
  while (rounds-- > 0) deadlock();
  return now() - start;
}

/* ------------------------------------------------------------------------------------------------
 * The same in two threads: whose lock waits sleeps until another's call tells it the end.
 */

static void latch_on(void) {
  WANT(pthread_mutex_lock(&latch) == 0);
}

static void latch_off(void) {
  WANT(pthread_mutex_unlock(&latch) == 0);
}

static void begin(struct session *me) {
  me->txn = begun();
  me->told = 0;
  by_slot[me->txn.slot] = me;
}

/* Wakes the transactions that a call told something. */
static void wake(const bs_notices *told) {
  size_t i;
  for (i = 0; i < told->count; i++) {
    struct session *session = by_slot[told->at[i].txn.slot];
    session->told = told->at[i].kind;
    WANT(pthread_cond_signal(&session->woken) == 0);
  }
}

static void commit(struct session *me) {
  DONE(bs_commit(&manager, me->txn, &me->notices));
  wake(&me->notices);
}

/* Requests X on a node and sleeps while it waits. Answers whether it was granted; otherwise it is the victim. */
static bool lock_or_be_victim(struct session *me, bs_node node) {
  bs_reply reply = bs_lock(&manager, me->txn, node, BS_X, &me->notices);
  wake(&me->notices);
  if (reply.status == BS_VICTIM) return false;
  WANT(reply.status == BS_WAITING);
  while (me->told == 0) WANT(pthread_cond_wait(&me->woken, &latch) == 0);
  return me->told == BS_TOLD_GRANTED;
}

static void take_turns(size_t number) {
  struct session *me = &sessions[number];
  long left = rounds_each;
  latch_on();
  while (number == 1 && me->told == 0) WANT(pthread_cond_wait(&me->woken, &latch) == 0);
  while (left-- > 0) {
    commit(me);
    begin(me);
    WANT(lock_or_be_victim(me, inner[0]));
  }
  commit(me);
  latch_off();
}

uint64_t ours_wait_paired(long rounds) {
  bs_notices *told = &sessions[0].notices;
  rounds_each = rounds / 2;
  begin(&sessions[0]);
  begin(&sessions[1]);
  quiet(bs_lock(&manager, sessions[0].txn, inner[0], BS_X, told), told);
  WANT(bs_lock(&manager, sessions[1].txn, inner[0], BS_X, told).status == BS_WAITING && told->count == 0);
  return together(2, take_turns);
}

static void close_a_cycle(size_t number) {
  struct session *me = &sessions[number], *other = &sessions[1 - number];
  bs_node first = number == 0 ? inner[0] : other_root;
  bs_node second = number == 0 ? other_root : inner[0];
  long left = rounds_each;
  while (left-- > 0) {
    latch_on();
    begin(me);
    quiet(bs_lock(&manager, me->txn, first, BS_X, &me->notices), &me->notices);
    latch_off();
    meet();
    latch_on();
    if (lock_or_be_victim(me, second)) {
      WANT(me->txn.age < other->txn.age);
      commit(me);
    } else {
      WANT(me->txn.age > other->txn.age);
      DONE(bs_abort(&manager, me->txn, &me->notices));
      WANT(is_told(&me->notices, other->txn, BS_TOLD_GRANTED));
      wake(&me->notices);
    }
    latch_off();
    meet();
  }
}

uint64_t ours_deadlock_paired(long rounds) {
  rounds_each = rounds;
  return together(2, close_a_cycle);
}

/* ------------------------------------------------------------------------------------------------
 * The crew: the latch is held round each call, and not longer.
 */

static void latched_lock(struct session *me, bs_node node, bs_mode mode) {
  bs_reply reply;
  latch_on();
  reply = bs_lock(&manager, me->txn, node, mode, &me->notices);
  latch_off();
  quiet(reply, &me->notices);
}

static void work(size_t number) {
  struct session *me = &sessions[number];
  long left = rounds_each;
  while (left-- > 0) {
    bs_reply reply;
    size_t i;
    latch_on();
    reply = bs_begin(&manager);
    latch_off();
    DONE(reply);
    me->txn = reply.txn;
    for (i = 0; i < INNER_NODES; i++) latched_lock(me, inner[i], BS_IX);
    latched_lock(me, records[number], BS_X);
    latch_on();
    reply = bs_commit(&manager, me->txn, &me->notices);
    latch_off();
    quiet(reply, &me->notices);
  }
}

uint64_t ours_crew(long rounds) {
  rounds_each = rounds / CREW;
  return together(CREW, work);
}
