/*
 * The scenarios through the lock subsystem of Berkeley DB 5.3, by its public calls. It is used in the way that was
 * found to be its fastest: an environment of this process alone, one partition, and names in the form of its own
 * access methods (DB_LOCK_ILOCK), which it hashes in fewer steps than others.
 */
#include "race.h"

#include <db.h>
#include <pthread.h>
#include <stdlib.h>
#include <string.h>
#include <unistd.h>

enum {
  OTHER_ROOT = INNER_NODES,
  FIRST_RECORD,
  NAMES = FIRST_RECORD + MOST_RECORDS
};

static DB_ENV *env;
static DB_LOCK_ILOCK names[NAMES];
static DBT objects[NAMES];
static u_int32_t lockers[MOST_CREW];
static size_t record_count;
static unsigned way;
static long rounds_each;
static pthread_mutex_t latch = PTHREAD_MUTEX_INITIALIZER;

static void done(int answer) {
  if (answer != 0) fail(db_strerror(answer), __FILE__, __LINE__);
}

static u_int32_t new_locker(void) {
  u_int32_t locker;
  done(env->lock_id(env, &locker));
  return locker;
}

static void get(u_int32_t locker, size_t object, db_lockmode_t mode) {
  DB_LOCK lock;
  done(env->lock_get(env, locker, 0, &objects[object], mode, &lock));
}

static void put_all(u_int32_t locker) {
  DB_LOCKREQ request;
  request.op = DB_LOCK_PUT_ALL;
  request.obj = NULL;
  done(env->lock_vec(env, locker, 0, &request, 1, NULL));
}

static void get_path(u_int32_t locker, db_lockmode_t mode) {
  size_t i;
  for (i = 0; i < INNER_NODES; i++) get(locker, i, mode);
}

static void make_names(void) {
  size_t i;
  memset(names, 0, sizeof names);
  memset(objects, 0, sizeof objects);
  for (i = 0; i < NAMES; i++) {
    names[i].pgno = (db_pgno_t)i;
    names[i].type = i < FIRST_RECORD ? DB_PAGE_LOCK : DB_RECORD_LOCK;
    objects[i].data = &names[i];
    objects[i].size = sizeof names[i];
  }
}

static void set_up(const struct scene *scene) {
  u_int32_t flags = DB_INIT_LOCK | DB_PRIVATE | DB_CREATE;
  size_t i;
  way = scene->way;
  record_count = scene->records;
  make_names();
  done(db_env_create(&env, 0));
  done(env->set_lk_detect(env, DB_LOCK_YOUNGEST));
  done(env->set_lk_max_locks(env, (u_int32_t)(2 * MOST_RECORDS + INNER_NODES * scene->others)));
  done(env->set_lk_max_lockers(env, (u_int32_t)(MOST_RECORDS + scene->others)));
  done(env->set_lk_max_objects(env, 2 * MOST_RECORDS));
  if (!(way & PARTITIONED)) done(env->set_lk_partitions(env, 1));
  if (way & THREADED) flags |= DB_THREAD;
  done(env->open(env, NULL, flags, 0));
  for (i = 0; i < scene->others; i++) get_path(new_locker(), DB_LOCK_IWRITE);
  for (i = 0; i < MOST_CREW; i++) lockers[i] = new_locker();
}

static DB_LOCK_STAT statistics(void) {
  DB_LOCK_STAT *statistics, copy;
  done(env->lock_stat(env, &statistics, 0));
  copy = *statistics;
  free(statistics);
  return copy;
}

static void tear_down(void) {
  done(env->close(env, 0));
}

const struct side theirs = { set_up, tear_down };

/* ------------------------------------------------------------------------------------------------
 * Short transactions.
 */

static u_int32_t begin(size_t number) {
  return way & FRESH ? new_locker() : lockers[number];
}

static void commit(u_int32_t locker) {
  put_all(locker);
  if (way & FRESH) done(env->lock_id_free(env, locker));
}

static void get_at_once(u_int32_t locker, size_t record, db_lockmode_t intention, db_lockmode_t mode) {
  DB_LOCKREQ requests[INNER_NODES + 1];
  size_t i;
  for (i = 0; i <= INNER_NODES; i++) {
    requests[i].op = DB_LOCK_GET;
    requests[i].obj = &objects[i < INNER_NODES ? i : record];
    requests[i].mode = i < INNER_NODES ? intention : mode;
  }
  done(env->lock_vec(env, locker, 0, requests, INNER_NODES + 1, NULL));
}

static void short_transaction(size_t number, db_lockmode_t intention, db_lockmode_t mode) {
  u_int32_t locker = begin(number);
  if (way & AT_ONCE) {
    get_at_once(locker, FIRST_RECORD + number, intention, mode);
  } else {
    get_path(locker, intention);
    get(locker, FIRST_RECORD + number, mode);
  }
  commit(locker);
}

uint64_t theirs_write(long rounds) {
  uint64_t start = now();
  while (rounds-- > 0) short_transaction(0, DB_LOCK_IWRITE, DB_LOCK_WRITE);
  start = now() - start;
  WANT(statistics().st_lock_wait == 0);
  return start;
}

uint64_t theirs_read(long rounds) {
  uint64_t start = now();
  while (rounds-- > 0) short_transaction(0, DB_LOCK_IREAD, DB_LOCK_READ);
  start = now() - start;
  WANT(statistics().st_lock_wait == 0);
  return start;
}

static MEASURED void measured_commit(u_int32_t locker) {
  commit(locker);
}

uint64_t theirs_commit(long rounds) {
  uint64_t taken = 0;
  while (rounds-- > 0) {
    u_int32_t locker = begin(0);
    uint64_t start;
    size_t i;
    get_path(locker, DB_LOCK_IWRITE);
    for (i = 0; i < record_count; i++) get(locker, FIRST_RECORD + i, DB_LOCK_WRITE);
    start = now();
    measured_commit(locker);
    taken += now() - start;
  }
  WANT(statistics().st_nlocks == 0 && statistics().st_maxnlocks == record_count + INNER_NODES);
  return taken;
}

/* ------------------------------------------------------------------------------------------------
 * Waits and deadlocks. A call that waits blocks its thread, so these take two.
 */

/* Releases and requests in one call. With one partition the call holds the latch from the release until it waits, so
 * the other thread, which is granted the lock, cannot give it back before: each round waits once. */
static void hand_over(u_int32_t locker) {
  DB_LOCKREQ requests[2];
  requests[0].op = DB_LOCK_PUT_ALL;
  requests[0].obj = NULL;
  requests[1].op = DB_LOCK_GET;
  requests[1].obj = &objects[0];
  requests[1].mode = DB_LOCK_WRITE;
  done(env->lock_vec(env, locker, 0, requests, 2, NULL));
}

static void take_turns(size_t number) {
  long left = rounds_each;
  if (number == 1) get(lockers[1], 0, DB_LOCK_WRITE);
  while (number == 0 && statistics().st_lock_wait == 0) usleep(1000);
  while (left-- > 0) hand_over(lockers[number]);
  put_all(lockers[number]);
}

uint64_t theirs_wait_paired(long rounds) {
  uint64_t taken;
  rounds_each = rounds / 2;
  get(lockers[0], 0, DB_LOCK_WRITE);
  taken = together(2, take_turns);
  WANT(statistics().st_lock_wait == 2 * (uintmax_t)rounds_each + 1);
  return taken;
}

/* The second has the greater locker id, and so is the younger. */
static void close_a_cycle(size_t number) {
  size_t first = number == 0 ? 0 : OTHER_ROOT, second = number == 0 ? OTHER_ROOT : 0;
  u_int32_t locker = lockers[number];
  long left = rounds_each;
  DB_LOCK lock;
  while (left-- > 0) {
    int answer;
    get(locker, first, DB_LOCK_WRITE);
    meet();
    answer = env->lock_get(env, locker, 0, &objects[second], DB_LOCK_WRITE, &lock);
    WANT(answer == (number == 0 ? 0 : DB_LOCK_DEADLOCK));
    put_all(locker);
    meet();
  }
}

uint64_t theirs_deadlock_paired(long rounds) {
  uint64_t taken;
  WANT(lockers[0] < lockers[1]);
  rounds_each = rounds;
  taken = together(2, close_a_cycle);
  WANT(statistics().st_ndeadlocks == (uintmax_t)rounds);
  return taken;
}

/* ------------------------------------------------------------------------------------------------
 * The crew: with its own latches, or with one mutex round each call.
 */

static void latch_on(void) {
  if (!(way & THREADED)) WANT(pthread_mutex_lock(&latch) == 0);
}

static void latch_off(void) {
  if (!(way & THREADED)) WANT(pthread_mutex_unlock(&latch) == 0);
}

static void latched_get(u_int32_t locker, size_t object, db_lockmode_t mode) {
  latch_on();
  get(locker, object, mode);
  latch_off();
}

static void work(size_t number) {
  long left = rounds_each;
  while (left-- > 0) {
    u_int32_t locker;
    size_t i;
    if (way & FRESH) latch_on();
    locker = begin(number);
    if (way & FRESH) latch_off();
    if (way & AT_ONCE) {
      get_at_once(locker, FIRST_RECORD + number, DB_LOCK_IWRITE, DB_LOCK_WRITE);
    } else {
      for (i = 0; i < INNER_NODES; i++) latched_get(locker, i, DB_LOCK_IWRITE);
      latched_get(locker, FIRST_RECORD + number, DB_LOCK_WRITE);
    }
    latch_on();
    commit(locker);
    latch_off();
  }
}

static uint64_t crew_of(size_t count, long rounds) {
  uint64_t taken;
  rounds_each = rounds / (long)count;
  taken = together(count, work);
  WANT(statistics().st_lock_wait == 0);
  return taken;
}

uint64_t theirs_crew(long rounds) {
  return crew_of(CREW, rounds);
}

uint64_t theirs_crew_1(long rounds) {
  return crew_of(1, rounds);
}

uint64_t theirs_crew_16(long rounds) {
  return crew_of(MOST_CREW, rounds);
}
