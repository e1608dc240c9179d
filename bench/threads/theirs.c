/*
 * The works through the lock subsystem of Berkeley DB 5.3, by its public calls: an environment of this process alone
 * with DB_THREAD, a locker that is kept for each thread, and names in the form of its own access methods.
 */
#include "threads.h"

#include <db.h>
#include <stdlib.h>
#include <string.h>

/* Rows are on pages of so many, and a row is locked with three requests: its file, its page, itself. */
enum { ON_A_PAGE = 100, PAGES = ROWS / ON_A_PAGE, REQUESTS = 3 };

/* Where the names of the objects above begin: the path of short transactions, of which the last is the rows' file;
 * the pages; and the records, of each thread its own or of each row. */
enum {
  FILE_NAME = INNER_NODES - 1,
  FIRST_PAGE = INNER_NODES,
  FIRST_RECORD = FIRST_PAGE + PAGES,
  NAMES = FIRST_RECORD + ROWS
};

static DB_ENV *env;
static DB_LOCK_ILOCK names[NAMES];
static DBT objects[NAMES];
static u_int32_t lockers[MOST_TOGETHER];
static bool is_hot;

static void done(int answer) {
  if (answer != 0) fail(db_strerror(answer), __FILE__, __LINE__);
}

/* ------------------------------------------------------------------------------------------------
 * The scene.
 */

static void make_names(void) {
  size_t i;
  memset(names, 0, sizeof names);
  memset(objects, 0, sizeof objects);
  for (i = 0; i < NAMES; i++) {
    names[i].pgno = (db_pgno_t)i;
    names[i].type = i < FIRST_RECORD ? DB_PAGE_LOCK : DB_RECORD_LOCK;
    objects[i].data = &names[i];
    objects[i].size = sizeof names[i];
  }
}

static void set_up(const struct scene *scene) {
  size_t i;
  is_hot = scene->work == HOT;
  make_names();
  done(db_env_create(&env, 0));
  done(env->set_lk_detect(env, DB_LOCK_YOUNGEST));
  done(env->set_lk_max_locks(env, 2 * NAMES));
  done(env->set_lk_max_lockers(env, 1000));
  done(env->set_lk_max_objects(env, 2 * NAMES));
  if (!scene->is_partitioned) done(env->set_lk_partitions(env, 1));
  done(env->open(env, NULL, DB_INIT_LOCK | DB_PRIVATE | DB_CREATE | DB_THREAD, 0));
  for (i = 0; i < MOST_TOGETHER; i++) done(env->lock_id(env, &lockers[i]));
}

static void tear_down(void) {
  DB_LOCK_STAT *statistics;
  done(env->lock_stat(env, &statistics, 0));
  WANT(statistics->st_nlocks == 0);
  free(statistics);
  done(env->close(env, 0));
}

/* ------------------------------------------------------------------------------------------------
 * Calls.
 */

static void put_all(u_int32_t locker) {
  DB_LOCKREQ request;
  request.op = DB_LOCK_PUT_ALL;
  request.obj = NULL;
  done(env->lock_vec(env, locker, 0, &request, 1, NULL));
}

/* Whether a lock was granted; otherwise its requester was chosen as victim. */
static bool is_granted(int answer) {
  if (answer != DB_LOCK_DEADLOCK) done(answer);
  return answer == 0;
}

static bool get(u_int32_t locker, size_t object, db_lockmode_t mode) {
  DB_LOCK lock;
  return is_granted(env->lock_get(env, locker, 0, &objects[object], mode, &lock));
}

static DB_LOCKREQ request_of(size_t object, db_lockmode_t mode) {
  DB_LOCKREQ request;
  memset(&request, 0, sizeof request);
  request.op = DB_LOCK_GET;
  request.obj = &objects[object];
  request.mode = mode;
  return request;
}

/* ------------------------------------------------------------------------------------------------
 * Short transactions.
 */

static size_t record_of(const struct worker *worker) {
  return FIRST_RECORD + (is_hot ? 0 : worker->number);
}

static bool short_by_calls(struct worker *worker, const struct touch *touches) {
  u_int32_t locker = lockers[worker->number];
  size_t i;
  (void)touches;
  for (i = 0; i < INNER_NODES; i++) WANT(get(locker, i, DB_LOCK_IWRITE));
  WANT(get(locker, record_of(worker), DB_LOCK_WRITE));
  put_all(locker);
  worker->commands += SHORT;
  return true;
}

static bool short_in_list(struct worker *worker, const struct touch *touches) {
  u_int32_t locker = lockers[worker->number];
  DB_LOCKREQ requests[INNER_NODES + 1];
  size_t i;
  (void)touches;
  for (i = 0; i < INNER_NODES; i++) requests[i] = request_of(i, DB_LOCK_IWRITE);
  requests[INNER_NODES] = request_of(record_of(worker), DB_LOCK_WRITE);
  done(env->lock_vec(env, locker, 0, requests, INNER_NODES + 1, NULL));
  put_all(locker);
  worker->commands += SHORT;
  return true;
}

/* ------------------------------------------------------------------------------------------------
 * Rows that are read and written.
 */

static bool lock_by_calls(u_int32_t locker, const struct touch *touch) {
  db_lockmode_t above = touch->writes ? DB_LOCK_IWRITE : DB_LOCK_IREAD;
  return get(locker, FILE_NAME, above) && get(locker, FIRST_PAGE + touch->row / ON_A_PAGE, above) &&
         get(locker, FIRST_RECORD + touch->row, touch->writes ? DB_LOCK_WRITE : DB_LOCK_READ);
}

static bool lock_in_list(u_int32_t locker, const struct touch *touch) {
  db_lockmode_t above = touch->writes ? DB_LOCK_IWRITE : DB_LOCK_IREAD;
  DB_LOCKREQ requests[REQUESTS];
  requests[0] = request_of(FILE_NAME, above);
  requests[1] = request_of(FIRST_PAGE + touch->row / ON_A_PAGE, above);
  requests[2] = request_of(FIRST_RECORD + touch->row, touch->writes ? DB_LOCK_WRITE : DB_LOCK_READ);
  return is_granted(env->lock_vec(env, locker, 0, requests, REQUESTS, NULL));
}

/* Its begin is counted as a command, though it has no call. */
static bool mix(struct worker *worker, const struct touch *touches, bool (*lock)(u_int32_t, const struct touch *)) {
  u_int32_t locker = lockers[worker->number];
  size_t i;
  for (i = 0; i < TOUCHES; i++) {
    worker->commands += REQUESTS;
    if (!lock(locker, &touches[i])) break;
    touch_row(&touches[i]);
  }
  if (i < TOUCHES) undo_rows(touches, i);
  put_all(locker);
  worker->commands += 2;
  return i == TOUCHES;
}

static bool mix_by_calls(struct worker *worker, const struct touch *touches) {
  return mix(worker, touches, lock_by_calls);
}

static bool mix_in_lists(struct worker *worker, const struct touch *touches) {
  return mix(worker, touches, lock_in_list);
}

static try_one *play(const struct scene *scene) {
  switch (scene->work) {
    case NODES: case NUMBERS: return scene->in_lists ? mix_in_lists : mix_by_calls;
    default: return scene->in_lists ? short_in_list : short_by_calls;
  }
}

const struct side theirs = { set_up, play, tear_down };
