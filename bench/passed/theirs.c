/*
 * The side of Berkeley DB's lock subsystem: readers lock the object to read, the writer to write.
 */
#include "passed.h"

#include <db.h>
#include <string.h>

static DB_ENV *env;
static DB_LOCK_ILOCK name;
static DBT object;
static u_int32_t lockers[READERS + 1];
static DB_LOCK locks[READERS + 1];

static void done(int answer) {
  if (answer != 0) fail(db_strerror(answer), __FILE__, __LINE__);
}

static void set_up(void) {
  size_t i;
  memset(&name, 0, sizeof name);
  memset(&object, 0, sizeof object);
  name.type = DB_PAGE_LOCK;
  object.data = &name;
  object.size = sizeof name;
  done(db_env_create(&env, 0));
  done(env->set_lk_detect(env, DB_LOCK_YOUNGEST));
  done(env->open(env, NULL, DB_INIT_LOCK | DB_PRIVATE | DB_CREATE | DB_THREAD, 0));
  for (i = 0; i <= READERS; i++) done(env->lock_id(env, &lockers[i]));
}

static void take(size_t number) {
  done(env->lock_get(env, lockers[number], 0, &object, number == READERS ? DB_LOCK_WRITE : DB_LOCK_READ, &locks[number]));
}

static void give_back(size_t number) {
  done(env->lock_put(env, &locks[number]));
}

static void tear_down(void) {
  done(env->close(env, 0));
}

const struct side theirs = { set_up, take, give_back, tear_down };
