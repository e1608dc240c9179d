/*
 * The scene: the paths of the rounds, and the others beside them. It is made by commands, so that a manager and a
 * table get the same.
 */
#include "costs.h"

struct path paths[MOST_TOGETHER];
bs_manager manager = BS_NO_MANAGER_HERE;
bs_notices told;
bs_table *table;
bs_watcher watcher = BS_NO_WATCHER_HERE;

/* ------------------------------------------------------------------------------------------------
 * The doors.
 */

static void open_manager(void) { DONE(bs_make(&manager, NULL)); }
static void close_manager(void) { DONE(bs_end(&manager)); }

/* The commands that make a scene. */
static bs_reply served_by_manager(bs_command c) {
  switch (c.kind) {
    case BS_DO_BEGIN: return bs_begin(&manager);
    case BS_DO_LOCK: return bs_lock(&manager, c.txn, c.node, c.mode, &told);
    case BS_DO_COMMIT: return bs_commit(&manager, c.txn, &told);
    case BS_DO_INSERT: return bs_insert(&manager, c.txn, c.file, c.keys, c.key_count);
    case BS_DO_ADD_INNER: return bs_add_inner(&manager, c.parents, c.parent_count);
    case BS_DO_ADD_FILE: return bs_add_file(&manager, c.parents, c.parent_count);
    default: return bs_add_index(&manager, c.parents, c.parent_count, c.file, c.bounds, c.bound_count);
  }
}

static bs_reply interval_by_manager(bs_node index, size_t place) { return bs_interval(&manager, index, place); }

const struct door by_manager = { open_manager, served_by_manager, interval_by_manager, close_manager };

static void open_table(void) { DONE(bs_table_make(&table, NULL)); }

static void close_table(void) {
  DONE(bs_table_end(table));
  DONE(bs_table_free(&table));
}

static bs_reply interval_by_table(bs_node index, size_t place) {
  bs_reply interval = bs_interval(bs_table_hold(table), index, place);
  DONE(bs_table_let_go(table));
  return interval;
}

/* A lock that waits is left waiting: no thread sleeps. */
static bs_reply served_by_table(bs_command c) {
  bs_table_run(table, &c, 1);
  return c.reply;
}

const struct door by_table = { open_table, served_by_table, interval_by_table, close_table };

/* ------------------------------------------------------------------------------------------------
 * The scene.
 */

static bs_node made(const struct door *door, bs_command command) { return DONE(door->serve(command)).node; }

static bs_txn begun_by(const struct door *door) { return DONE(door->serve(bs_do(BS_DO_BEGIN, bs_begun()))).txn; }

static void lock(const struct door *door, bs_txn txn, bs_node node, bs_mode mode) {
  DONE(door->serve(bs_do_at(BS_DO_LOCK, txn, node, mode)));
}

static void lock_above(const struct door *door, bs_txn txn, const struct path *path) {
  size_t i;
  for (i = 0; i < ABOVE; i++) lock(door, txn, path->above[i], BS_IX);
}

/* Makes the nodes of a path, and holds none of them. The index has two intervals. */
static void make_path(const struct door *door, struct path *path) {
  static const uint64_t bound = 100, key = 50;
  bs_node *above = path->above;
  bs_txn txn = begun_by(door);
  above[0] = made(door, (bs_command){ .kind = BS_DO_ADD_INNER });
  above[1] = made(door, (bs_command){ .kind = BS_DO_ADD_FILE, .parents = &above[0], .parent_count = 1 });
  above[2] = made(door, (bs_command){ .kind = BS_DO_ADD_INDEX, .parents = &above[0], .parent_count = 1,
                                      .file = above[1], .bounds = &bound, .bound_count = 1 });
  above[3] = DONE(door->interval(above[2], 0)).node;
  lock_above(door, txn, path);
  path->record = made(door, (bs_command){ .kind = BS_DO_INSERT, .txn = txn, .file = above[1], .keys = &key,
                                         .key_count = 1 });
  DONE(door->serve(bs_do(BS_DO_COMMIT, txn)));
}

/* One transaction that holds a new root, and so many that wait for it. */
static void queue_up(const struct door *door, size_t waiters) {
  bs_node root = made(door, (bs_command){ .kind = BS_DO_ADD_INNER });
  lock(door, begun_by(door), root, BS_X);
  while (waiters-- > 0) waits(door->serve(bs_do_at(BS_DO_LOCK, begun_by(door), root, BS_X)));
}

static void join(const struct scene *scene) {
  size_t i;
  switch (scene->crowd) {
    case ON_THE_PATH:
      for (i = 0; i < scene->others; i++) lock_above(scene->door, begun_by(scene->door), &paths[0]);
      break;
    case ELSEWHERE:
      for (i = 0; i < scene->others; i += 2) queue_up(scene->door, 1);
      break;
    case QUEUED:
      queue_up(scene->door, scene->others);
      break;
  }
}

void open_scene(const struct scene *scene) {
  size_t i;
  if (scene->door == NULL) return;
  scene->door->open();
  for (i = 0; i < MOST_TOGETHER; i++) make_path(scene->door, &paths[i]);
  join(scene);
  if (scene->is_watched) DONE(bs_table_watch(table, &watcher));
}

void close_scene(const struct scene *scene) {
  if (scene->is_watched) DONE(bs_watch_end(&watcher));
  if (scene->door != NULL) scene->door->close();
}
