/*
 * The steps through the lock subsystem of Berkeley DB 5.3, which stores nothing of an unlocked record: there is
 * nothing to insert and nothing to delete.
 */
#include "scale.h"

#include <db.h>
#include <string.h>

enum { ABOVE = 4 };

static DB_ENV *env;
static u_int32_t locker;

static void done(int answer) {
  if (answer != 0) fail(db_strerror(answer), __FILE__, __LINE__);
}

static void set_up(const struct work *work) {
  done(db_env_create(&env, 0));
  done(env->set_lk_detect(env, DB_LOCK_YOUNGEST));
  done(env->set_lk_max_locks(env, work->records + 1000));
  done(env->set_lk_max_objects(env, work->records + 1000));
  done(env->set_lk_partitions(env, 1));
  done(env->open(env, NULL, DB_INIT_LOCK | DB_PRIVATE | DB_CREATE, 0));
  done(env->lock_id(env, &locker));
}

static void tear_down(void) {
  done(env->close(env, 0));
}

static void get(uint32_t number, u_int32_t type, db_lockmode_t mode) {
  DB_LOCK_ILOCK name;
  DBT object;
  DB_LOCK lock;
  memset(&name, 0, sizeof name);
  memset(&object, 0, sizeof object);
  name.pgno = number;
  name.type = type;
  object.data = &name;
  object.size = sizeof name;
  done(env->lock_get(env, locker, 0, &object, mode, &lock));
}

static void begin(void) {
  uint32_t at;
  for (at = 0; at < ABOVE; at++) get(at, DB_PAGE_LOCK, DB_LOCK_IWRITE);
}

static void commit(void) {
  DB_LOCKREQ request;
  request.op = DB_LOCK_PUT_ALL;
  request.obj = NULL;
  done(env->lock_vec(env, locker, 0, &request, 1, NULL));
}

static __attribute__((noinline)) void step_lock(const struct work *work) {
  uint32_t at;
  begin();
  for (at = 0; at < work->records; at++) {
    get(work->order[at], DB_RECORD_LOCK, DB_LOCK_WRITE);
    if (at % PER_TRANSACTION != PER_TRANSACTION - 1) continue;
    commit();
    begin();
  }
  commit();
}

static __attribute__((noinline)) void step_lock_all(const struct work *work) {
  uint32_t at;
  begin();
  for (at = 0; at < work->records; at++) get(work->order[at], DB_RECORD_LOCK, DB_LOCK_WRITE);
  commit();
}

static const struct step steps[] = {
  { "lock, a hundred in a transaction\tstep_lock", step_lock },
  { "lock, all in one transaction\tstep_lock_all", step_lock_all },
};

const struct side theirs = { set_up, steps, sizeof steps / sizeof *steps, tear_down };
