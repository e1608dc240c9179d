/*
 * burlapslate_group.c: the group of burlapslate_group.h: a main table and parts, each a table of burlapslate_shared.h.
 *
 * WHAT IS PROVED, AND WHAT IS NOT. The library is proved, and so are the laws of managers that work as one (gl_parts):
 * if the main manager leads the parts, no two transactions conflict on any node of the whole; and each step that is
 * allowed leaves it so. What is decided of a group is the library's too, and proved: what a path lacks in the main table
 * (bs_path_lacks), where each request of a path that lacks nothing is such a step; what a visit copies (bs_next_copy),
 * and what a transaction copies of its own (bs_own_copy); when marks may be cleared (bs_may_clear); who waits for whom
 * in all tables (bs_join_board), and who falls (bs_suspects, bs_youngest); which waits a new index or a move ends
 * (bs_after_index, bs_after_move); where something may rest, and who takes it up (bs_may_rest, bs_takes_up); and the
 * order of begins that sleep for a slot, since they are in the queue of a node of a table. This source keeps the latches,
 * the sleeps, the marks and the counts of requests in progress, and asks all that at its time. That is written in C, and
 * tested.
 *
 * LATCHES are acquired by rising number: nobody acquires the main table's while holding a part's.
 *
 * MARKS. Each part has marks, a set of inner nodes. They are read with the part's latch or the main table's, and are
 * changed with both. For each inner node and each part:
 *   - in the part it is requested in BS_IS or BS_IX alone;
 *   - if it is not marked, nobody has more than an intention on it in the main table, nobody waits there for more, and
 *     no request for more is in progress, which may wait for a node above it;
 *   - if it is marked, who holds it in the part holds at least that in the main table, and who waits in the part for
 *     something below it has there the intention that its path needs.
 * group_reach, before a request in a part, and group_visit, before a request for more in the main table, see to that. In a
 * part that is not used marks stay until the next path there clears them: so the next request for more does not visit it.
 *
 * VISITORS act in the main table for others, with the latch of a part where these hold something or sleep: they join it
 * for them and copy their locks. A transaction looks at its end whether it is in the main table, after it has left its
 * parts: no visitor finds it any more.
 *
 * SPREAD FILES. A spread file is an inner node with a file of rows in each part. A call about a row replaces its name by
 * that of the row's file in a part, and then does what it does for any file: to the laws this is a graph like another.
 * It finds that name without a latch in the roll of spread files, where nothing changes and nothing is freed before the
 * group is. No other node is made below a spread file, so a node below it in a part is its file there. Such a file gets
 * no index, is not dropped, and is not taken as the file of a row: so a row has one node.
 *
 * NEW INDEXES. A path to write a row or a record passes each node above the indexes of its file. So a path that waits in
 * a part passes more after an index is made, and may lack that in the main table. Its wait ends as the index is made, with
 * the latch held: that for a row with BS_BAD_KEYS, since it has no key for it. Otherwise it would go on if another index
 * was dropped meanwhile, so that the file has as many as before. A path to write a record by its node begins anew, and
 * so requests what it lacks by now. No other call makes a path that waits pass more.
 *
 * MOVES. A file or an index that moves in its part has other nodes above it. So each wait in the part whose path passes it
 * ends as it moves, with the latch held, and its path begins anew. None of them goes on before all have ended.
 *
 * BEFORE A SLEEP in the main table all that a transaction holds in its parts on inner nodes is copied there, since
 * nobody can copy it while it waits.
 *
 * WHAT RESTS. If the group keeps intentions, a commit in a part begins a transaction that rests there, by the rules of a
 * session (burlapslate_session.h); the next transaction of the slot takes it up in place of a join. Until then it is in
 * no transaction of the group: its slot may be free, or taken by one that has not come to the part. None rests in a
 * part that has a mark: a commit there keeps nothing, and a visitor first ends all that rest there. So no visitor joins
 * the main table for a transaction that does not exist. None rests in the main table.
 *
 * The `since` of one that rests is the next age of its slot at the commit, or its age in the part if that is smaller. So
 * it is at most the age of the transaction that takes it up. It is above each `since` below that next age of those that
 * were in the part before: so a victim that begins again is the older one beside all that began to rest after it came.
 */
#include "burlapslate_group.h"
#include "burlapslate_inside.h"
#include "burlapslate_parts.h"

#include <errno.h>
#include <pthread.h>
#include <sched.h>
#include <stdlib.h>

/* Rare code is not inlined. What is used by calls and by asks is inlined in both, so that a call pays nothing for asks. */
#define GROUP_APART __attribute__((noinline))
#define GROUP_IN_LINE inline __attribute__((always_inline))

enum { GROUP_AGES = 64, GROUP_FIRST_ROOM = 16 };

/* An inner node. Its number is its place in each table, and rises from parents to children. It never changes, but for
 * `in_progress`, which is read and written with the main table's latch. */
typedef struct group_inner {
  uint64_t birth;       /* of its name in the group: that of its name in the main table */
  uint32_t number;
  uint32_t in_progress; /* how many requests for more than an intention on it have not ended */
  uint32_t above_count;
  uint32_t above[];     /* all nodes above it, by rising number */
} group_inner;

/* The names in the group of a spread file and of its files. They never change. */
typedef struct group_files {
  bs_node node;
  bs_node in[]; /* by part; there is none in part 0 */
} group_files;

/* The spread files, by the number of their inner nodes. If there is no place for a number, a longer roll with the same
 * files replaces it. Threads may still read the old one, which stays. */
typedef struct group_roll {
  struct group_roll *before;
  uint32_t room;
  group_files *at[]; /* atomic; null if the inner node is no spread file */
} group_roll;

/* An inner node in a table. */
typedef struct group_place {
  bs_node node;
  group_inner *inner;
} group_place;

/* A table of a group. `at`, `numbers`, `keep`, `cleared`, `accepted` and `dealt` are read and written with its latch. */
typedef struct group_table {
  bs_table *table;
  bs_manager *manager;
  group_place *at;      /* the inner nodes by number */
  uint32_t *numbers;    /* a hash by the keys of the names in the table: numbers, each plus 1, in twice as many places
                         * as there is room */
  uint64_t *marked;     /* the bits of the marks, by number */
  bs_marked *marks_at;  /* the names of those that are marked, in any order */
  uint32_t marks;       /* how many they are */
  uint32_t keep;        /* how many intentions a commit keeps at most */
  uint32_t count, room; /* of inner nodes; the room is a power of two */
  uint32_t number;
  uint64_t cleared;     /* what `over` of the group was as the marks were last cleared */
  uint64_t accepted;    /* how many commands had been accepted as a visitor last came */
  bool is_used;         /* some were since the visit before; read and written with the main table's latch */
  uint64_t dealt;       /* bit b: a spread file has a file here whose key has the remainder b by 64 */
} __attribute__((aligned(BS_LINE))) group_table;

/* What rests in a part for the next transaction of a slot. */
typedef struct group_kept {
  uint64_t age;   /* of its name in the part, whose slot is the group's */
  uint32_t count; /* how many first locks the last commit in the part has kept; 0 after a join */
} group_kept;

/* Why a transaction may request nothing: it fell, to end a deadlock; it waits by an ask or a list. */
enum group_bars { GROUP_FALLEN = 1, GROUP_WAITS = 2 };

/* A transaction, by slot. Its thread alone uses it, and as long as it waits by an ask, the thread that ends that wait.
 * Others read `since` and `target` with the latch of a part where it holds something or sleeps: its thread wrote them
 * before it acquired that latch, or with it. A look also reads the `since` of a slot for which something rests, which no
 * cycle has. */
typedef struct group_slot {
  bool is_taken;               /* atomic */
  bool is_in_main, is_spread;  /* atomic: it has joined the main table; it has joined two tables */
  uint32_t barred;             /* atomic, of enum group_bars: why it may request nothing */
  uint32_t number;
  uint64_t age;                /* atomic; 0: there is none */
  uint64_t since;              /* atomic */
  uint64_t next_age, end_age;  /* the ages that the slot may give */
  uint64_t used;               /* bit p: it has joined part p */
  uint64_t resting;            /* bit p: something rests for it in part p, unless others have ended that */
  bool has_deadline;           /* with the main table's latch, as the next: its waits end at a time */
  struct timespec deadline;    /* that time */
  group_kept *kept;            /* by part: what rests there */
  struct group_ask *ask;       /* atomic; null before the slot's first ask */
  uint64_t *savepoints;        /* by rising numbers of locks, each with its numbers in all tables */
  uint32_t savepoint_count, savepoint_room;
  bs_target target;            /* what it requests in a part, by the part's names */
  bs_txn in[];                 /* its name in each part, by number; with age 0 it has not joined */
} group_slot;

/* What a transaction has asked for, or a list has requested for it. It is used as the slot is, except that the end of
 * what a list requested, and who awaits that, are read and written with `latch`, as is `word`. */
typedef struct group_ask {
  bs_table_group *group;
  group_slot *own;
  const group_table *at;  /* the table in which it waits */
  group_inner *inner;     /* not null: it is in progress there, as a request for more than an intention */
  uint64_t cancelled;     /* atomic: the age of the transaction whose ask is to end as cancelled before it waits again */
  void *word;
  uint64_t age;           /* of its transaction */
  struct timespec until;
  bool has_time;
  bool is_list, is_row;
  bs_node node;           /* of a row, its file; each by the group's name */
  bs_mode mode, instant;  /* `instant` is BS_INSTANT or 0 */
  uint64_t number;        /* of a row, with its keys */
  uint64_t *keys;
  size_t count, room;
  bool has_ended;         /* it is a list's, and came to this end */
  bs_reply end;
  bool is_told;           /* it is a list's, whose end the callback is told or was, since it was asked for */
  bool is_limited;        /* it still waits, and its wait ends at a time, if bs_group_expire is called then */
  struct timespec limit;
  pthread_mutex_t latch;
  pthread_cond_t ended;
} group_ask;

/* A begin that was asked for, until it ends. What is written after it is in the list is used with the list's latch. */
typedef struct group_asked_begin {
  struct group_asked_begin *next, *before;
  void *word;
  uint64_t since;
  struct timespec until;
  bool has_time;
  bool is_cancelled;
  bs_txn turn;           /* its transaction in the table of turns; all zero before it has one */
} group_asked_begin;

/* The queue of begins that wait for a slot: each locks `node` of a table in X, and who has the lock is the next. If that
 * was asked for, it waits for `gate`, which another transaction has, and a slot that is freed ends that wait. The table's
 * pointer and the nodes are used with the latch until the table is made, and all else of it with the latch. */
typedef struct group_turns {
  pthread_mutex_t latch;
  pthread_cond_t freed;  /* a slot is free, or the group ends; or the last that waits has left one that ends */
  bs_table *table;       /* null before the first that waits */
  bs_node node, gate;
  bs_txn at_gate;        /* the transaction that waits there or is about to; all zero if there is none */
  group_asked_begin *first, *last; /* the begins that were asked for */
  uint64_t cancelled;    /* how many of these are cancelled */
} group_turns;

/* The thread that watches. All is used with the latch. */
typedef struct group_watch {
  pthread_mutex_t latch;
  pthread_cond_t over;   /* the group ends */
  pthread_t thread;
  bool is_there, is_over;
  uint64_t pace;
} group_watch;

typedef enum group_stage { GROUP_OPEN = 0, GROUP_ENDING, GROUP_ENDED } group_stage;

/* What is before the slots in memory. They are freed by the last that uses them: the group, or a watcher of it. */
typedef struct group_users {
  void *block;    /* what malloc gave */
  uint64_t count; /* atomic */
} group_users;

struct bs_table_group {
  void *block;              /* what malloc gave */
  uint32_t parts, most;     /* how many parts there are, and slots */
  uint32_t stage;           /* atomic, of enum group_stage */
  uint32_t most_kept;       /* atomic: how many intentions a commit keeps at most */
  uint64_t queued;          /* atomic: how many begins wait for a slot */
  size_t stride;            /* from a slot to the next */
  unsigned char *slots;
  group_roll *roll;         /* atomic; null if there is no spread file. It is changed with all latches */
  group_users *users;
  void (*on_end)(void *context, bs_txn txn, bs_reply end, void *word); /* atomic; null before it is given */
  void *context;            /* written before it */
  uint64_t over;            /* atomic, and written with the main table's latch: how often marks may have become clear */
  uint64_t *seen;           /* with the main table's latch, as up to `faults`: bits by number, none between two uses */
  uint64_t faults;          /* how many copies were not granted at once: by the laws there is none */
  bs_board joined, one;     /* with all latches: of a look */
  uint64_t condemned;       /* atomic: how many fell to end deadlocks over several tables */
  group_turns turns;
  group_watch watch;
  uint64_t ages __attribute__((aligned(BS_LINE)));   /* atomic: the next ages for a slot */
  uint64_t next_part;                                   /* atomic: for the next file by turns */
  uint64_t looked __attribute__((aligned(BS_LINE))); /* atomic: the time of the last look */
  group_table tables[];
};

/* The slot that this thread had last. */
static __thread __attribute__((tls_model("initial-exec"))) struct {
  const bs_table_group *group;
  uint32_t slot;
} group_last;

static inline group_slot *group_slot_at(const bs_table_group *group, uint32_t slot) {
  return (group_slot *)(void *)(group->slots + slot * group->stride);
}

static inline bs_reply group_only(bs_status status) {
  return bs_call_only(status);
}

/* ------------------------------------------------------------------------------------------------
 * Inner nodes in a table, and names.
 */

static inline size_t group_hash(const group_table *t, size_t key) {
  return (size_t)((uint64_t)key * UINT64_C(0x9E3779B97F4A7C15) >> 32) & (2 * (size_t)t->room - 1);
}

static inline bool group_is_node(bs_node one, bs_node other) {
  return one.key == other.key && one.birth == other.birth;
}

/* The files of the inner node that has this number; null if it is no spread file. */
static inline group_files *group_files_at(const bs_table_group *group, size_t number) {
  const group_roll *roll = __atomic_load_n(&group->roll, __ATOMIC_ACQUIRE);
  if (roll == NULL || number >= roll->room) return NULL;
  return __atomic_load_n(&roll->at[number], __ATOMIC_ACQUIRE);
}

/* The files of the spread file that has this name; null if none has. */
static inline const group_files *group_files_named(const bs_table_group *group, bs_node node) {
  const group_files *files = group_files_at(group, node.key);
  return files != NULL && group_is_node(files->node, node) ? files : NULL;
}

/* The part of a row of a spread file: the numbers are multiplied by an odd one, and each part has an equal range of the
 * upper halves of the products. So it has an even share of numbers that follow each other, or that have equal steps. */
static inline uint32_t group_part_of_row(uint64_t number, uint32_t parts) {
  uint64_t half = number * UINT64_C(0x9E3779B97F4A7C15) >> 32;
  return (uint32_t)(half * parts >> 32) + 1;
}

/* The file that has a row: of a spread file the one in the row's part, else the file that is named. */
static inline bs_node group_file_of(const bs_table_group *group, bs_node file, uint64_t number) {
  const group_files *files = bs_group_table(file) == 0 ? group_files_named(group, file) : NULL;
  return files == NULL ? file : files->in[group_part_of_row(number, group->parts)];
}

/* The inner node that has this name in the table; null if none has. */
static group_inner *group_inner_of(const group_table *t, bs_node node) {
  size_t place;
  if (t->room == 0) return NULL;
  for (place = group_hash(t, node.key); t->numbers[place] != 0; place = (place + 1) & (2 * (size_t)t->room - 1)) {
    const group_place *at = &t->at[t->numbers[place] - 1];
    if (group_is_node(at->node, node)) return at->inner;
  }
  return NULL;
}

/* The inner node that has this name in the group, if the table has it; else null. */
static group_inner *group_inner_named(const group_table *t, bs_node node) {
  if (node.key >= t->count || t->at[node.key].inner->birth != node.birth) return NULL;
  return t->at[node.key].inner;
}

/* The name in a table of a node of the group; all zero, which names nothing, if it is not there. */
static bs_node group_name_there(const group_table *t, bs_node node) {
  bs_node name = { 0, 0 };
  uint32_t of = bs_group_table(node);
  if (of == 0 && group_inner_named(t, node) != NULL) return t->at[node.key].node;
  if (of == 0 || of != t->number) return name;
  name.key = (uint32_t)node.key;
  name.birth = node.birth;
  return name;
}

/* The name in the group of a node of a table; all zero if it has none. */
static bs_node group_name_here(const group_table *t, bs_node node) {
  const group_inner *inner = group_inner_of(t, node);
  bs_node name = { 0, 0 };
  if (node.birth == 0 || (inner == NULL && t->number == 0)) return name;
  name.key = inner != NULL ? inner->number : (size_t)t->number << 32 | node.key;
  name.birth = inner != NULL ? inner->birth : node.birth;
  return name;
}

/* Whether a node of a table, whose latch is held, is the file there of a spread file. */
static GROUP_APART bool group_finds_dealt(const bs_table_group *group, const group_table *t, bs_node there) {
  const group_inner *above = group_inner_of(t, bs_parent(t->manager, there, 0).node);
  return above != NULL && group_files_at(group, above->number) != NULL;
}

static inline bool group_is_dealt(const bs_table_group *group, const group_table *t, bs_node there) {
  return (t->dealt >> there.key % 64 & 1) != 0 && group_finds_dealt(group, t, there);
}

/* Releases the latch of a table after a call that was answered so, whose node gets its name in the group. */
static inline bs_reply group_leave(const group_table *t, bs_reply reply) {
  if (reply.node.birth != 0) reply.node = group_name_here(t, reply.node);
  bs_inside_release(t->table);
  return reply;
}

static inline bool group_is_marked(const group_table *t, uint32_t number) {
  return (t->marked[number / 64] >> number % 64 & 1) != 0;
}

/* Marks a part for an inner node, or clears that mark. */
static void group_mark(bs_table_group *group, group_table *t, uint32_t number, bool is_marked) {
  bs_node node = t->at[number].node;
  uint32_t place = 0;
  if (group_is_marked(t, number) == is_marked) return;
  t->marked[number / 64] ^= (uint64_t)1 << number % 64;
  if (is_marked) {
    t->marks_at[t->marks].node = group->tables[0].at[number].node;
    t->marks_at[t->marks++].in_part = node;
    return;
  }
  while (!group_is_node(t->marks_at[place].in_part, node)) place++;
  t->marks_at[place] = t->marks_at[--t->marks];
}

/* Writes an inner node into the hash. */
static void group_enlist(group_table *t, uint32_t number) {
  size_t place = group_hash(t, t->at[number].node.key);
  while (t->numbers[place] != 0) place = (place + 1) & (2 * (size_t)t->room - 1);
  t->numbers[place] = number + 1;
}

/* Memory that is zero; null if it is refused. */
static void *group_zero(size_t size) {
  void *block = malloc(size);
  if (block != NULL) memset(block, 0, size);
  return block;
}

/* Frees what a table has by number. */
static void group_free_places(group_table *t) {
  free(t->at);
  free(t->numbers);
  free(t->marked);
  free(t->marks_at);
}

/* Makes room in a table for one more inner node; false if memory is refused. */
static bool group_make_room(group_table *t) {
  uint32_t room = t->room == 0 ? GROUP_FIRST_ROOM : 2 * t->room, number;
  group_place *at;
  uint32_t *numbers;
  uint64_t *marked;
  bs_marked *marks_at;
  if (t->count < t->room) return true;
  at = (group_place *)group_zero(room * sizeof *at);
  numbers = (uint32_t *)group_zero(2 * (size_t)room * sizeof *numbers);
  marked = (uint64_t *)group_zero((room + 63) / 64 * sizeof *marked);
  marks_at = (bs_marked *)group_zero(room * sizeof *marks_at);
  if (at == NULL || numbers == NULL || marked == NULL || marks_at == NULL) {
    free(at);
    free(numbers);
    free(marked);
    free(marks_at);
    return false;
  }
  if (t->count > 0) {
    memcpy(at, t->at, t->count * sizeof *at);
    memcpy(marked, t->marked, (t->room + 63) / 64 * sizeof *marked);
    memcpy(marks_at, t->marks_at, t->marks * sizeof *marks_at);
  }
  group_free_places(t);
  t->at = at;
  t->numbers = numbers;
  t->marked = marked;
  t->marks_at = marks_at;
  t->room = room;
  for (number = 0; number < t->count; number++) group_enlist(t, number);
  return true;
}

/* ------------------------------------------------------------------------------------------------
 * Groups.
 */

static bs_inside_look group_look;
static void group_ask_ended(void *context, bs_txn txn, bs_reply end, void *word);

/* A size in whole cache lines. */
static size_t group_lines_of(size_t size) {
  return (size + BS_LINE - 1) / BS_LINE * BS_LINE;
}

/* Makes the slots of a group; false if memory is refused. */
static bool group_make_slots(bs_table_group *group) {
  size_t names = (group->parts + 1) * sizeof(bs_txn);
  void *block;
  uint32_t slot;
  group->stride = group_lines_of(sizeof(group_slot) + names + (group->parts + 1) * sizeof(group_kept));
  group->users = (group_users *)bs_call_lines(BS_LINE + group->most * group->stride, &block);
  if (group->users == NULL) return false;
  group->users->block = block;
  group->users->count = 1;
  group->slots = (unsigned char *)group->users + BS_LINE;
  for (slot = 0; slot < group->most; slot++) {
    group_slot *own = group_slot_at(group, slot);
    own->number = slot;
    own->kept = (group_kept *)(void *)((unsigned char *)own->in + names);
  }
  return true;
}

/* One of those that use them does so no more. */
static void group_leave_slots(group_users *users) {
  if (__atomic_sub_fetch(&users->count, 1, __ATOMIC_ACQ_REL) == 0) free(users->block);
}

/* A group without tables; null if memory is refused. */
static bs_table_group *group_new(uint32_t parts, uint32_t most) {
  void *block;
  bs_table_group *group = (bs_table_group *)bs_call_lines(sizeof *group + (parts + 1) * sizeof(group_table), &block);
  if (group == NULL) return NULL;
  group->block = block;
  group->parts = parts;
  group->most = most;
  group->ages = 1;
  if (!group_make_slots(group)) {
    free(block);
    return NULL;
  }
  pthread_mutex_init(&group->turns.latch, NULL);
  bs_call_make_steady(&group->turns.freed);
  pthread_mutex_init(&group->watch.latch, NULL);
  bs_call_make_steady(&group->watch.over);
  return group;
}

/* Frees the roll of spread files, and those that it has replaced. */
static void group_free_rolls(bs_table_group *group) {
  group_roll *roll = group->roll;
  while (roll != NULL) {
    group_roll *before = roll->before;
    free(roll);
    roll = before;
  }
}

/* Frees what slots have for their asks and savepoints. */
static void group_free_places_of_slots(bs_table_group *group) {
  uint32_t slot;
  for (slot = 0; slot < group->most; slot++) {
    group_ask *ask = group_slot_at(group, slot)->ask;
    free(group_slot_at(group, slot)->savepoints);
    if (ask == NULL) continue;
    pthread_cond_destroy(&ask->ended);
    pthread_mutex_destroy(&ask->latch);
    free(ask->keys);
    free(ask);
  }
}

/* Frees a group whose tables were ended, or were not made. */
static void group_free_group(bs_table_group *group) {
  group_table *main = &group->tables[0];
  uint32_t number;
  for (number = 0; number < main->count; number++) {
    free(group_files_at(group, number));
    free(main->at[number].inner);
  }
  for (number = 0; number <= group->parts; number++) {
    group_table *t = &group->tables[number];
    if (t->table != NULL) bs_table_free(&t->table);
    group_free_places(t);
  }
  if (group->turns.table != NULL) bs_table_free(&group->turns.table);
  pthread_cond_destroy(&group->watch.over);
  pthread_mutex_destroy(&group->watch.latch);
  pthread_cond_destroy(&group->turns.freed);
  pthread_mutex_destroy(&group->turns.latch);
  group_free_rolls(group);
  group_free_places_of_slots(group);
  free(group->seen);
  group_leave_slots(group->users);
  free(group->block);
}

/* Makes the tables of a group, up to the first that is refused. */
static bs_reply group_make_tables(bs_table_group *group, const bs_options *options) {
  bs_reply reply = group_only(BS_DONE);
  uint32_t number;
  for (number = 0; number <= group->parts && reply.status == BS_DONE; number++) {
    group_table *t = &group->tables[number];
    t->number = number;
    reply = bs_table_make(&t->table, options);
    if (reply.status != BS_DONE) return reply;
    t->manager = bs_inside_manager(t->table);
    bs_inside_look_by(t->table, group_look, group);
    reply = bs_table_on_end(t->table, group_ask_ended, group);
  }
  return reply;
}

static void group_end_tables(bs_table_group *group) {
  uint32_t number;
  for (number = 0; number <= group->parts; number++) bs_table_end(group->tables[number].table);
}

/* Ends all begins that wait for a slot of a group that ends. */
static void group_end_turns(bs_table_group *group) {
  group_turns *turns = &group->turns;
  pthread_mutex_lock(&turns->latch);
  pthread_cond_broadcast(&turns->freed);
  pthread_mutex_unlock(&turns->latch);
  if (turns->table != NULL) bs_table_end(turns->table);
  pthread_mutex_lock(&turns->latch);
  while (__atomic_load_n(&group->queued, __ATOMIC_ACQUIRE) != 0) pthread_cond_wait(&turns->freed, &turns->latch);
  pthread_mutex_unlock(&turns->latch);
}

/* Ends the thread that watches. */
static void group_end_watch(group_watch *watch) {
  bool is_there;
  pthread_mutex_lock(&watch->latch);
  watch->is_over = true;
  is_there = watch->is_there;
  pthread_cond_signal(&watch->over);
  pthread_mutex_unlock(&watch->latch);
  if (is_there) pthread_join(watch->thread, NULL);
}

bs_reply bs_call_group_make(bs_table_group **group, const bs_options *options, size_t size, uint32_t parts) {
  bs_options chosen = bs_call_chosen(options, size);
  bs_table_group *made;
  bs_reply reply;
  if (*group != NULL) return group_only(BS_IN_USE);
  if (parts == 0 || parts > BS_MOST_PARTS || chosen.detect > BS_BY_WATCHER) return group_only(BS_BAD_NUMBER);
  chosen.parts = 1;
  chosen.detect = BS_AT_BLOCK;
  if (chosen.transactions > BS_SLOTS) return group_only(BS_BAD_NUMBER);
  made = group_new(parts, chosen.transactions);
  if (made == NULL) return group_only(BS_NO_MEMORY);
  reply = group_make_tables(made, &chosen);
  if (reply.status == BS_DONE) {
    *group = made;
  } else {
    group_end_tables(made);
    group_free_group(made);
  }
  return reply;
}

/* Why this thread may not call a group; BS_DONE if it may. The second is of a call that may sleep. */
static inline bs_status group_closed(const bs_table_group *group) {
  return __atomic_load_n(&group->stage, __ATOMIC_ACQUIRE) == GROUP_OPEN ? BS_DONE : BS_NO_MANAGER;
}

static inline bs_status group_shut(const bs_table_group *group) {
  if (group == NULL) return BS_NULL_POINTER;
  return bs_inside_holds_none() ? group_closed(group) : BS_IN_USE;
}

static inline bs_status group_shut_to_sleep(const bs_table_group *group) {
  if (group == NULL) return BS_NULL_POINTER;
  return bs_call_may_sleep() ? group_closed(group) : BS_IN_USE;
}

bs_reply bs_group_end(bs_table_group *group) {
  bs_status status = group_shut_to_sleep(group);
  int state;
  if (status != BS_DONE) return group_only(status);
  if (__atomic_exchange_n(&group->stage, GROUP_ENDING, __ATOMIC_SEQ_CST) != GROUP_OPEN) {
    return group_only(BS_NO_MANAGER);
  }
  pthread_setcancelstate(PTHREAD_CANCEL_DISABLE, &state);
  group_end_watch(&group->watch);
  group_end_turns(group);
  group_end_tables(group);
  __atomic_store_n(&group->stage, GROUP_ENDED, __ATOMIC_RELEASE);
  pthread_setcancelstate(state, &state);
  return group_only(BS_DONE);
}

bs_reply bs_group_free(bs_table_group **group) {
  if (group == NULL || *group == NULL) return bs_call_null();
  if (__atomic_load_n(&(*group)->stage, __ATOMIC_ACQUIRE) != GROUP_ENDED) return group_only(BS_IN_USE);
  group_free_group(*group);
  *group = NULL;
  return group_only(BS_DONE);
}

/* Acquires the latches of all tables, whether these are open or not; and releases them. */
static void group_take_all(bs_table_group *group) {
  uint32_t number;
  for (number = 0; number <= group->parts; number++) bs_inside_take(group->tables[number].table);
}

static void group_release_all(bs_table_group *group) {
  uint32_t number;
  for (number = 0; number <= group->parts; number++) bs_inside_release(group->tables[number].table);
}

/* ------------------------------------------------------------------------------------------------
 * The graph.
 */

/* The names in a table of parents, of which there are BS_MOST_PARENTS at most. */
static void group_parents_there(const group_table *t, const bs_node *parents, size_t count, bs_node *there) {
  size_t i;
  for (i = 0; i < count; i++) there[i] = group_name_there(t, parents[i]);
}

/* Why no list of parents can be this one. */
static bs_status group_bad_parents(const bs_node *parents, size_t count) {
  if (parents == NULL && count != 0) return BS_NULL_POINTER;
  return count > BS_MOST_PARENTS ? BS_BAD_NUMBER : BS_DONE;
}

/* Sets the bits of these nodes and of all above them in `seen`, and answers how many are set. Parents that are none are
 * left out: the table refuses them. */
static uint32_t group_see_above(bs_table_group *group, const bs_node *parents, size_t count) {
  const group_table *main = &group->tables[0];
  uint32_t bits = 0, above;
  size_t i;
  for (i = 0; i < count; i++) {
    const group_inner *inner = bs_group_table(parents[i]) == 0 ? group_inner_named(main, parents[i]) : NULL;
    for (above = 0; inner != NULL && above < inner->above_count; above++) {
      group->seen[inner->above[above] / 64] |= (uint64_t)1 << inner->above[above] % 64;
    }
    if (inner != NULL) group->seen[inner->number / 64] |= (uint64_t)1 << inner->number % 64;
  }
  for (i = 0; i < (main->count + 63) / 64; i++) bits += (uint32_t)__builtin_popcountll(group->seen[i]);
  return bits;
}

/* Takes the lowest number off the bits of `seen`, from this word on, which it raises; false if there is none. */
static bool group_take_seen(bs_table_group *group, uint32_t *word, uint32_t *number) {
  uint32_t words = (group->tables[0].count + 63) / 64;
  while (*word < words && group->seen[*word] == 0) ++*word;
  if (*word == words) return false;
  *number = *word * 64 + (uint32_t)__builtin_ctzll(group->seen[*word]);
  group->seen[*word] &= group->seen[*word] - 1;
  return true;
}

/* A new inner node below these, with the next number; null if memory is refused. */
static group_inner *group_new_inner(bs_table_group *group, const bs_node *parents, size_t count) {
  group_table *main = &group->tables[0];
  uint32_t above = group_see_above(group, parents, count), word = 0, number;
  group_inner *inner = (group_inner *)group_zero(sizeof *inner + above * sizeof inner->above[0]);
  while (group_take_seen(group, &word, &number)) {
    if (inner != NULL) inner->above[inner->above_count++] = number;
  }
  if (inner == NULL) return NULL;
  inner->number = main->count;
  return inner;
}

/* Makes what is by number longer before the main table gets more room; false if memory is refused. */
static bool group_make_scratch(bs_table_group *group) {
  const group_table *main = &group->tables[0];
  uint32_t room = main->room == 0 ? GROUP_FIRST_ROOM : 2 * main->room;
  uint64_t *seen;
  if (main->count < main->room) return true;
  seen = (uint64_t *)group_zero((room + 63) / 64 * sizeof *seen);
  if (seen == NULL) return false;
  free(group->seen);
  group->seen = seen;
  return true;
}

/* Why there cannot be one more inner node, which takes so many nodes in each part, with all latches held; makes room for
 * it in all tables. */
static bs_status group_no_room(bs_table_group *group, uint64_t nodes) {
  uint32_t number;
  for (number = 0; number <= group->parts; number++) {
    if (!group->tables[number].manager->is_open) return BS_NO_MANAGER;
  }
  for (number = 0; number <= group->parts; number++) {
    const bs_manager *m = group->tables[number].manager;
    if (number > 0 && bs_len(m).count + nodes > bs_call_most_nodes(m).count) return BS_TOO_MANY_NODES;
  }
  if (!group_make_scratch(group)) return BS_NO_MEMORY;
  for (number = 0; number <= group->parts; number++) {
    if (!group_make_room(&group->tables[number])) return BS_NO_MEMORY;
  }
  return BS_DONE;
}

/* Makes a roll that has a place for the next inner node; false if memory is refused. */
static bool group_make_roll(bs_table_group *group) {
  const group_table *main = &group->tables[0];
  group_roll *old = group->roll, *roll;
  if (old != NULL && main->count < old->room) return true;
  roll = (group_roll *)group_zero(sizeof *roll + main->room * sizeof roll->at[0]);
  if (roll == NULL) return false;
  if (old != NULL) memcpy(roll->at, old->at, old->room * sizeof roll->at[0]);
  roll->before = old;
  roll->room = main->room;
  __atomic_store_n(&group->roll, roll, __ATOMIC_RELEASE);
  return true;
}

/* What the next inner node needs to be a spread file, with a place for it; null if memory is refused. */
static group_files *group_new_files(bs_table_group *group) {
  if (!group_make_roll(group)) return NULL;
  return (group_files *)group_zero(sizeof(group_files) + (group->parts + 1) * sizeof(bs_node));
}

/* Makes an inner node in a table, and its file there if it is a spread file; else `files` is null. */
static bs_reply group_add_there(group_table *t, const bs_node *parents, size_t count, group_files *files) {
  bs_node there[BS_MOST_PARENTS];
  bs_reply reply, file;
  group_parents_there(t, parents, count, there);
  reply = bs_add_inner(t->manager, there, count);
  if (reply.status != BS_DONE || files == NULL || t->number == 0) return reply;
  file = bs_add_row_file(t->manager, &reply.node, 1);
  files->in[t->number] = group_name_here(t, file.node);
  t->dealt |= (uint64_t)1 << file.node.key % 64;
  return file.status == BS_DONE ? reply : file;
}

/* Makes an inner node in all tables, up to the first that refuses it, with all latches held. */
static bs_reply group_add_in_all(bs_table_group *group, group_inner *inner, const bs_node *parents, size_t count,
                                 group_files *files) {
  bs_node nodes[BS_MOST_PARTS + 1];
  bs_reply reply = group_only(BS_DONE);
  uint32_t number;
  for (number = 0; number <= group->parts; number++) {
    reply = group_add_there(&group->tables[number], parents, count, files);
    if (reply.status != BS_DONE) return reply;
    nodes[number] = reply.node;
  }
  inner->birth = nodes[0].birth;
  for (number = 0; number <= group->parts; number++) {
    group_table *t = &group->tables[number];
    t->at[t->count].node = nodes[number];
    t->at[t->count].inner = inner;
    group_enlist(t, t->count++);
  }
  reply.node = group_name_here(&group->tables[0], nodes[0]);
  if (files == NULL) return reply;
  files->node = reply.node;
  __atomic_store_n(&group->roll->at[inner->number], files, __ATOMIC_RELEASE);
  return reply;
}

/* Makes an inner node for which there is room. */
static bs_reply group_make_inner(bs_table_group *group, const bs_node *parents, size_t count, bool is_spread) {
  group_files *files = is_spread ? group_new_files(group) : NULL;
  group_inner *inner = group_new_inner(group, parents, count);
  bs_reply reply = group_only(BS_NO_MEMORY);
  if (inner != NULL && (files != NULL || !is_spread)) reply = group_add_in_all(group, inner, parents, count, files);
  if (reply.status == BS_DONE) return reply;
  free(inner);
  free(files);
  return reply;
}

/* Whether one of these parents is a spread file, below which nobody makes a node. */
static bool group_any_is_spread(const bs_table_group *group, const bs_node *parents, size_t count) {
  size_t i;
  for (i = 0; i < count; i++) {
    if (group_files_named(group, parents[i]) != NULL) return true;
  }
  return false;
}

/* Makes an inner node, which is a spread file or not. */
static bs_reply group_add_inner_by(bs_table_group *group, const bs_node *parents, size_t count, bool is_spread) {
  bs_status status = group_bad_parents(parents, count), shut = group_shut(group);
  bs_reply reply;
  if (shut == BS_NULL_POINTER || status == BS_NULL_POINTER) return bs_call_null();
  if (status == BS_DONE) status = shut;
  if (status == BS_DONE && group_any_is_spread(group, parents, count)) status = BS_BAD_PARENTS;
  if (status == BS_DONE && is_spread && count == 0) status = BS_BAD_PARENTS;
  if (status != BS_DONE) return group_only(status);
  group_take_all(group);
  reply = group_only(group_no_room(group, is_spread ? 2 : 1));
  if (reply.status == BS_DONE) reply = group_make_inner(group, parents, count, is_spread);
  group_release_all(group);
  return reply;
}

bs_reply bs_group_add_inner(bs_table_group *group, const bs_node *parents, size_t count) {
  return group_add_inner_by(group, parents, count, false);
}

bs_reply bs_group_add_spread_file(bs_table_group *group, const bs_node *parents, size_t count) {
  return group_add_inner_by(group, parents, count, true);
}

/* The next part by turns. */
static uint32_t group_next_part(bs_table_group *group) {
  return (uint32_t)(__atomic_fetch_add(&group->next_part, 1, __ATOMIC_RELAXED) % group->parts) + 1;
}

/* Makes a file in a part. */
static bs_reply group_add_file_by(bs_reply (*add)(bs_manager *manager, const bs_node *parents, size_t count),
                                  bs_table_group *group, uint32_t part, const bs_node *parents, size_t count) {
  bs_status status = group_bad_parents(parents, count), shut = group_shut(group);
  bs_node there[BS_MOST_PARENTS];
  group_table *t;
  if (shut == BS_NULL_POINTER || status == BS_NULL_POINTER) return bs_call_null();
  if (status == BS_DONE && part > group->parts) status = BS_BAD_NUMBER;
  if (status == BS_DONE) status = shut;
  if (status == BS_DONE && group_any_is_spread(group, parents, count)) status = BS_BAD_PARENTS;
  if (status != BS_DONE) return group_only(status);
  t = &group->tables[part == 0 ? group_next_part(group) : part];
  if (!bs_inside_enter(t->table)) return group_only(BS_NO_MANAGER);
  group_parents_there(t, parents, count, there);
  return group_leave(t, add(t->manager, there, count));
}

bs_reply bs_group_add_file(bs_table_group *group, uint32_t part, const bs_node *parents, size_t count) {
  return group_add_file_by(bs_add_file, group, part, parents, count);
}

bs_reply bs_group_add_row_file(bs_table_group *group, uint32_t part, const bs_node *parents, size_t count) {
  return group_add_file_by(bs_add_row_file, group, part, parents, count);
}

/* Whether the group has this inner node. */
static bs_status group_knows(bs_table_group *group, bs_node node) {
  bs_status status;
  group_table *main = &group->tables[0];
  if (!bs_inside_enter(main->table)) return BS_NO_MANAGER;
  status = group_inner_named(main, node) != NULL ? BS_DONE : BS_NO_SUCH_NODE;
  bs_inside_release(main->table);
  return status;
}

/* The part of a node of the group, which an inner node has not: that is refused so. */
static bs_status group_part_of(bs_table_group *group, bs_node node, bs_status inner, group_table **t) {
  uint32_t number = bs_group_table(node);
  bs_status status;
  if (number > 0 && number <= group->parts) {
    *t = &group->tables[number];
    return BS_DONE;
  }
  if (inner == BS_NOT_ROWS) return BS_NOT_ROWS;
  status = number == 0 ? group_knows(group, node) : BS_NO_SUCH_NODE;
  return status == BS_DONE ? inner : status;
}

/* Leaves a part after a call for an index of a file that was answered so. If it was made, each sleep ends whose path
 * would pass more since then. */
static bs_reply group_indexed(bs_table_group *group, const group_table *t, bs_node file, bs_reply reply) {
  uint32_t slot;
  for (slot = 0; reply.status == BS_DONE && slot < group->most; slot++) {
    bs_status end;
    if (!bs_inside_sleeps(t->table, slot)) continue;
    end = bs_after_index(t->manager, group_slot_at(group, slot)->target, file).status;
    if (end != BS_DONE) bs_inside_end_sleep(t->table, slot, end);
  }
  return group_leave(t, reply);
}

/* Why no index can have these parents and bounds, of those reasons that come before the group's own. */
static bs_status group_bad_index(const bs_node *parents, size_t count, const uint64_t *bounds, size_t bound_count) {
  if (bounds == NULL && bound_count != 0) return BS_NULL_POINTER;
  return group_bad_parents(parents, count);
}

bs_reply bs_group_add_index(bs_table_group *group, const bs_node *parents, size_t count, bs_node file,
                            const uint64_t *bounds, size_t bound_count) {
  bs_status status = group_bad_index(parents, count, bounds, bound_count), shut = group_shut(group);
  bs_node there[BS_MOST_PARENTS], name;
  group_table *t;
  if (shut == BS_NULL_POINTER || status == BS_NULL_POINTER) return bs_call_null();
  if (status == BS_DONE) status = shut;
  if (status == BS_DONE) status = group_part_of(group, file, BS_BAD_PARENTS, &t);
  if (status == BS_DONE && group_any_is_spread(group, parents, count)) status = BS_BAD_PARENTS;
  if (status != BS_DONE) return group_only(status);
  if (!bs_inside_enter(t->table)) return group_only(BS_NO_MANAGER);
  name = group_name_there(t, file);
  if (group_is_dealt(group, t, name)) return group_leave(t, group_only(BS_BAD_PARENTS));
  group_parents_there(t, parents, count, there);
  return group_indexed(group, t, name, bs_add_index(t->manager, there, count, name, bounds, bound_count));
}

/* ------------------------------------------------------------------------------------------------
 * Transactions.
 */

/* Takes a slot if it is free. */
static bool group_takes(const bs_table_group *group, uint32_t number) {
  group_slot *own = group_slot_at(group, number);
  return !__atomic_load_n(&own->is_taken, __ATOMIC_RELAXED) &&
         !__atomic_exchange_n(&own->is_taken, true, __ATOMIC_ACQUIRE);
}

/* Takes a free slot: the one that this thread had last, or the next one after it; null if there is none. */
static group_slot *group_take_slot(const bs_table_group *group) {
  uint32_t first, tried;
  if (group_last.group != group) group_last.slot = (uint32_t)((uintptr_t)&group_last >> 6);
  first = group_last.slot % group->most;
  for (tried = 0; tried < group->most; tried++) {
    uint32_t number = (first + tried) % group->most;
    if (!group_takes(group, number)) continue;
    group_last.group = group;
    group_last.slot = number;
    return group_slot_at(group, number);
  }
  return NULL;
}

/* The age of the next transaction of a slot. */
static inline uint64_t group_next_age(bs_table_group *group, group_slot *own) {
  if (own->next_age == own->end_age) {
    own->next_age = __atomic_fetch_add(&group->ages, GROUP_AGES, __ATOMIC_RELAXED);
    own->end_age = own->next_age + GROUP_AGES;
  }
  return own->next_age;
}

/* Begins the next transaction of a slot. */
static inline bs_reply group_begin_in(bs_table_group *group, group_slot *own, uint64_t since) {
  uint64_t age = group_next_age(group, own);
  bs_reply reply = group_only(BS_DONE);
  own->next_age++;
  __atomic_store_n(&own->since, since < age ? since : age, __ATOMIC_RELAXED);
  __atomic_store_n(&own->age, age, __ATOMIC_RELAXED);
  reply.txn.slot = own->number;
  reply.txn.age = age;
  return reply;
}

static inline bs_reply group_begin_now(bs_table_group *group, uint64_t since) {
  group_slot *own = group_take_slot(group);
  return own == NULL ? group_only(BS_TOO_MANY_TXNS) : group_begin_in(group, own, since);
}

bs_reply bs_group_begin_again(bs_table_group *group, uint64_t since) {
  bs_status shut = group_shut(group);
  if (shut != BS_DONE) return group_only(shut);
  if (__builtin_expect(__atomic_load_n(&group->queued, __ATOMIC_RELAXED) != 0, 0)) return group_only(BS_TOO_MANY_TXNS);
  return group_begin_now(group, since);
}

bs_reply bs_group_begin(bs_table_group *group) {
  return bs_group_begin_again(group, UINT64_MAX);
}

/* The transaction of this name; null if it names none. */
static inline group_slot *group_named(const bs_table_group *group, bs_txn txn) {
  group_slot *own;
  if (txn.slot >= group->most || txn.age == 0) return NULL;
  own = group_slot_at(group, txn.slot);
  return __atomic_load_n(&own->age, __ATOMIC_RELAXED) == txn.age ? own : NULL;
}

/* Finds the transaction of a call to which the group is open or shut so; BS_DONE if it may request something. */
static inline bs_status group_finds_if(const bs_table_group *group, bs_status shut, bs_txn txn, group_slot **own) {
  uint32_t barred;
  if (shut != BS_DONE) return shut;
  *own = group_named(group, txn);
  if (*own == NULL) return BS_NO_SUCH_TXN;
  barred = __atomic_load_n(&(*own)->barred, __ATOMIC_ACQUIRE);
  if (__builtin_expect(barred == 0, 1)) return BS_DONE;
  return (barred & GROUP_WAITS) != 0 ? BS_TXN_WAITING : BS_TXN_CONDEMNED;
}

static inline bs_status group_finds(const bs_table_group *group, bs_txn txn, group_slot **own) {
  return group_finds_if(group, group_shut(group), txn, own);
}

/* The transaction has fallen. */
static GROUP_APART void group_falls(group_slot *own) {
  __atomic_fetch_or(&own->barred, GROUP_FALLEN, __ATOMIC_RELAXED);
}

/* How many transactions are in two tables or more. Each slot says it of its own: a count would be written by all. */
static uint32_t group_count_spread(const bs_table_group *group) {
  uint32_t slot, count = 0;
  for (slot = 0; slot < group->most; slot++) {
    count += __atomic_load_n(&group_slot_at(group, slot)->is_spread, __ATOMIC_RELAXED);
  }
  return count;
}

/* Sets in a table, whose latch is held, when the waits of a transaction end. */
static GROUP_APART void group_limit(const group_slot *own, const group_table *t, bs_txn there) {
  bs_inside_deadline(t->table, there, own->has_deadline ? &own->deadline : NULL);
}

/* Takes up what rests for a transaction in a part, or ends it if the transaction began again. Answers BS_NO_PLACE if
 * nothing was taken up. */
static bs_reply group_take_up(group_slot *own, group_table *t) {
  bs_reply reply;
  bs_txn rests;
  rests.slot = own->number;
  rests.age = own->kept[t->number].age;
  own->resting &= ~((uint64_t)1 << t->number);
  reply = bs_call_wake(t->manager, rests);
  if (reply.status != BS_DONE) return group_only(BS_NO_PLACE);
  if (bs_takes_up(own->age, own->since)) {
    reply.txn = rests;
    return reply;
  }
  bs_inside_commit(t->table, rests);
  return group_only(BS_NO_PLACE);
}

/* Joins a part, whose latch is held, if the transaction has not done so, or takes up what rests for it there. */
static inline bs_status group_join(group_slot *own, group_table *t) {
  bs_reply reply;
  if (own->in[t->number].age != 0) return BS_DONE;
  reply.status = BS_NO_PLACE;
  if ((own->resting >> t->number & 1) != 0) reply = group_take_up(own, t);
  if (reply.status != BS_DONE) {
    reply = bs_call_join(t->manager, own->number, own->since);
    if (reply.status != BS_DONE) return reply.status;
    own->kept[t->number].count = 0;
  }
  if (own->used != 0 || __atomic_load_n(&own->is_in_main, __ATOMIC_RELAXED)) {
    __atomic_store_n(&own->is_spread, true, __ATOMIC_RELAXED);
  }
  own->in[t->number] = reply.txn;
  own->used |= (uint64_t)1 << t->number;
  if (__builtin_expect(own->has_deadline, 0)) group_limit(own, t, reply.txn);
  return BS_DONE;
}

/* Joins the main table for a transaction that has not, with its latch held; its name there in `txn`. If the caller is a
 * visitor, it holds the latch of a part where the transaction is. */
static bs_status group_join_main(bs_table_group *group, group_slot *own, bool is_visitor, bs_txn *txn) {
  group_table *main = &group->tables[0];
  bs_reply reply = bs_living(main->manager, own->number);
  if (reply.status == BS_NO_PLACE) {
    reply = bs_call_join(main->manager, own->number, own->since);
    if (reply.status != BS_DONE) return reply.status;
    __atomic_store_n(&own->is_in_main, true, __ATOMIC_RELAXED);
    if (is_visitor || own->used != 0) __atomic_store_n(&own->is_spread, true, __ATOMIC_RELAXED);
    if (own->has_deadline) group_limit(own, main, reply.txn);
  }
  *txn = reply.txn;
  return reply.status;
}

/* ------------------------------------------------------------------------------------------------
 * Requests in a part that is marked.
 */

/* How a request is made: it may wait until this time, for which its thread sleeps, or is an ask; or it is a try, and
 * keeps this of what it acquired if it is refused. */
typedef struct group_manner {
  const struct timespec *until;
  bool may_wait;
  uint32_t keep;
  bs_mode instant; /* BS_INSTANT if it is a lock for an instant, else 0 */
  group_ask *ask;  /* null if its thread sleeps */
} group_manner;

/* A request in a part, while it is found out what it lacks in the main table. */
typedef struct group_way {
  bs_table_group *group;
  group_slot *own;
  group_table *part;
  const bs_target *target;
  group_manner manner;
  bool in_main;   /* the main table's latch is held, and the transaction has joined it, by this name */
  bs_txn main_txn;
} group_way;

/* What the request lacks in the main table, as bs_path_lacks answers: the intention on an inner node for which the part
 * is marked, if the transaction holds it neither in the part nor, as far as that is known, in the main table. The latch
 * of the part is held. */
static GROUP_APART bs_reply group_lacks(const group_way *way) {
  const group_table *t = way->part;
  const bs_manager *main = way->in_main ? way->group->tables[0].manager : NULL;
  return bs_path_lacks(main, t->manager, way->own->number, *way->target, t->marks_at, t->marks);
}

static bs_status group_copy_own(bs_table_group *group, group_slot *own, bs_txn main_txn);

/* Before an ask in a table, whose latch is held: notes where it waits, and answers whether it was cancelled. */
static bool group_is_cancelled(const group_table *t, group_ask *ask) {
  uint64_t age = ask->own->age;
  ask->at = t;
  return __atomic_compare_exchange_n(&ask->cancelled, &age, 0, false, __ATOMIC_RELAXED, __ATOMIC_RELAXED);
}

/* Asks for a node of a table. */
static GROUP_APART bs_reply group_request_by_ask(const group_table *t, bs_txn txn, bs_node node, bs_mode mode,
                                                 const group_manner *manner) {
  if (group_is_cancelled(t, manner->ask)) return group_only(BS_NOT_WAITING);
  return bs_inside_ask_path(t->table, txn, node, mode | manner->instant, manner->until, manner->ask);
}

/* Requests a node of a table in this manner, with the latch held before and after. */
static bs_reply group_request(const group_table *t, bs_txn txn, bs_node node, bs_mode mode, const group_manner *manner) {
  if (!manner->may_wait) return bs_inside_try_path(t->table, txn, node, mode, manner->keep);
  if (__builtin_expect(manner->ask != NULL, 0)) return group_request_by_ask(t, txn, node, mode, manner);
  return bs_inside_path(t->table, txn, node, mode | manner->instant, manner->until);
}

/* Acquires in the main table, whose latch is held before and after, what the request lacks there, which stays. */
static bs_reply group_acquire(const group_way *way, bs_reply lacks) {
  group_manner manner = way->manner;
  manner.keep = BS_KEEP_WAY;
  manner.instant = 0;
  return group_request(&way->group->tables[0], way->main_txn, lacks.node, lacks.mode, &manner);
}

/* Joins the main table for a request that lacks something there, with the main table's latch held. */
static bs_status group_way_by_main(group_way *way) {
  bs_status status = group_join_main(way->group, way->own, false, &way->main_txn);
  if (status == BS_DONE && way->manner.may_wait) status = group_copy_own(way->group, way->own, way->main_txn);
  way->in_main = status == BS_DONE;
  return status;
}

/* Whether the transaction of a request that has joined the main table has not ended: a callback may have ended it. */
static bool group_still_lives(const group_way *way) {
  return bs_living(way->group->tables[0].manager, way->own->number).txn.age == way->main_txn.age;
}

/* Acquires all that a request lacks in the main table. If that is done, the part's latch is held, and it lacks nothing;
 * else no latch is. The part may get marks while the main table's latch is free. What the main table has to tell is told
 * before the part's latch is acquired, since callbacks may acquire any latch. */
static GROUP_APART bs_reply group_reach_by_main(group_way *way) {
  group_table *main = &way->group->tables[0];
  bs_reply reply;
  if (!bs_inside_enter(main->table)) return group_only(BS_NO_MANAGER);
  reply = group_only(group_way_by_main(way));
  while (reply.status == BS_DONE) {
    bs_reply lacks;
    if (!bs_inside_enter(way->part->table)) {
      reply = group_only(BS_NO_MANAGER);
      break;
    }
    lacks = group_lacks(way);
    if (lacks.status == BS_NO_PLACE) {
      bs_inside_release(main->table);
      return reply;
    }
    bs_inside_release(way->part->table);
    reply = lacks.status == BS_DONE ? group_acquire(way, lacks) : lacks;
    bs_inside_tell(main->table);
    if (reply.status == BS_DONE && !group_still_lives(way)) reply.status = BS_NO_SUCH_TXN;
  }
  if (reply.status == BS_VICTIM) group_falls(way->own);
  return group_leave(main, reply);
}

/* Clears the marks of a part that may be cleared, with the main table's latch held. */
static void group_clear_in(bs_table_group *group, group_table *t) {
  const group_table *main = &group->tables[0];
  uint32_t place = 0;
  bs_inside_take(t->table);
  t->cleared = group->over;
  while (place < t->marks) {
    bs_node node = t->marks_at[place].node;
    const group_inner *inner = group_inner_of(main, node);
    if (bs_may_clear(main->manager, node, inner->in_progress).count == 0) place++;
    else group_mark(group, t, inner->number, false);
  }
  bs_inside_release(t->table);
}

/* The same with no latch held. */
static GROUP_APART void group_clear(bs_table_group *group, group_table *t) {
  bs_table *main = group->tables[0].table;
  bs_inside_take(main);
  group_clear_in(group, t);
  bs_inside_release(main);
}

/* As group_reach, up to the join, in a part that has marks, whose latch is held: first clears those that may be cleared,
 * if there may be such. */
static GROUP_APART bool group_reach_marked(group_way *way, bs_reply *why) {
  group_table *t = way->part;
  if (t->cleared != __atomic_load_n(&way->group->over, __ATOMIC_RELAXED)) {
    bs_inside_release(t->table);
    group_clear(way->group, t);
    *why = group_only(BS_NO_MANAGER);
    if (!bs_inside_enter(t->table)) return false;
  }
  if (t->marks == 0 || group_lacks(way).status == BS_NO_PLACE) return true;
  bs_inside_release(t->table);
  *why = group_reach_by_main(way);
  return why->status == BS_DONE;
}

/* Before a request in a part: acquires in the main table what it needs there, and joins the part. If that is done, the
 * part's latch is held; else no latch is, and the answer is in `why`. */
static inline bool group_reach(group_way *way, bs_reply *why) {
  group_table *t = way->part;
  bs_status status;
  if (!bs_inside_enter(t->table)) {
    *why = group_only(BS_NO_MANAGER);
    return false;
  }
  if (__builtin_expect(t->marks != 0, 0) && !group_reach_marked(way, why)) return false;
  way->own->target = *way->target;
  status = group_join(way->own, t);
  if (status != BS_DONE) *why = group_leave(t, group_only(status));
  return status == BS_DONE;
}

/* ------------------------------------------------------------------------------------------------
 * Copies and visits. The main table's latch is held.
 */

/* Counts a copy that is refused for another reason than that memory or numbers are used up. By the laws none is. */
static void group_note_fault(bs_table_group *group, bs_status status) {
  if (status != BS_DONE && status != BS_NO_MEMORY && status != BS_WORN_OUT) group->faults++;
}

/* Copies to the main table a mode that a transaction has on an inner node in a part. It is granted at once. */
static bs_status group_copy(bs_table_group *group, bs_txn main_txn, uint32_t number, bs_mode mode) {
  const group_table *main = &group->tables[0];
  bs_reply reply = bs_try(main->manager, main_txn, main->at[number].node, mode);
  group_note_fault(group, reply.status);
  return reply.status;
}

/* Sets in `seen` the inner nodes that a transaction holds in a part. */
static void group_see_own(bs_table_group *group, const group_table *t, bs_txn txn) {
  uint64_t locks = bs_lock_count(t->manager, txn).count, place;
  uint32_t number;
  for (place = 0; locks < t->count && place < locks; place++) {
    const group_inner *inner = group_inner_of(t, bs_lock_at(t->manager, txn, (size_t)place).node);
    if (inner != NULL) group->seen[inner->number / 64] |= (uint64_t)1 << inner->number % 64;
  }
  for (number = 0; locks >= t->count && number < t->count; number++) {
    if (bs_held(t->manager, txn, t->at[number].node).mode == BS_NL) continue;
    group->seen[number / 64] |= (uint64_t)1 << number % 64;
  }
}

/* Copies all that a transaction holds in a part on inner nodes, parents first. */
static bs_status group_copy_own_in(bs_table_group *group, const group_table *t, bs_txn txn, bs_txn main_txn) {
  const group_table *main = &group->tables[0];
  bs_status status = BS_DONE;
  uint32_t word = 0, number;
  group_see_own(group, t, txn);
  while (group_take_seen(group, &word, &number)) {
    bs_reply own = bs_own_copy(main->manager, main->at[number].node, t->manager, t->at[number].node, txn.slot);
    if (status != BS_DONE || own.status == BS_NO_PLACE) continue;
    status = own.status == BS_DONE ? group_copy(group, main_txn, number, own.mode) : own.status;
  }
  return status;
}

/* The same in all its parts. */
static bs_status group_copy_own(bs_table_group *group, group_slot *own, bs_txn main_txn) {
  uint64_t left;
  for (left = own->used; left != 0; left &= left - 1) {
    const group_table *t = &group->tables[__builtin_ctzll(left)];
    bs_status status;
    if (!bs_inside_enter(t->table)) return BS_NO_MANAGER;
    status = group_copy_own_in(group, t, own->in[t->number], main_txn);
    bs_inside_release(t->table);
    if (status != BS_DONE) return status;
  }
  return BS_DONE;
}

/* Copies what anybody holds on an inner node in a part, whose latch is held too. That on its parents was copied. */
static bs_status group_copy_holders(bs_table_group *group, const group_table *t, uint32_t number) {
  const group_table *main = &group->tables[0];
  for (;;) {
    bs_reply next = bs_next_copy(main->manager, main->at[number].node, t->manager, t->at[number].node);
    bs_status status;
    bs_txn main_txn;
    if (next.status != BS_DONE) return next.status == BS_NO_PLACE ? BS_DONE : next.status;
    status = group_join_main(group, group_slot_at(group, (uint32_t)next.count), true, &main_txn);
    if (status == BS_DONE) status = group_copy(group, main_txn, number, next.mode);
    if (status != BS_DONE) return status;
  }
}

/* Acquires for a transaction that sleeps in a part, whose latch is held too, what it lacks on an inner node. It is
 * granted at once, with what that needs above. */
static bs_status group_copy_sleeper(bs_table_group *group, const group_table *t, group_slot *other, uint32_t number) {
  const group_table *main = &group->tables[0];
  bs_marked mark;
  bs_reply lacks;
  bs_status status;
  bs_txn main_txn;
  mark.node = main->at[number].node;
  mark.in_part = t->at[number].node;
  lacks = bs_path_lacks(main->manager, t->manager, other->number, other->target, &mark, 1);
  if (lacks.status != BS_DONE) return lacks.status == BS_NO_PLACE ? BS_DONE : lacks.status;
  status = group_join_main(group, other, true, &main_txn);
  if (status != BS_DONE) return status;
  status = bs_inside_try_path(main->table, main_txn, lacks.node, lacks.mode, BS_KEEP_WAY).status;
  group_note_fault(group, status);
  return status;
}

/* The same for all that sleep there. */
static bs_status group_copy_sleepers(bs_table_group *group, const group_table *t, uint32_t number) {
  bs_status status = BS_DONE;
  uint32_t slot;
  if (!bs_inside_any_waits(t->table)) return BS_DONE;
  for (slot = 0; slot < group->most && status == BS_DONE; slot++) {
    if (!bs_inside_sleeps(t->table, slot)) continue;
    status = group_copy_sleeper(group, t, group_slot_at(group, slot), number);
  }
  return status;
}

/* Marks an inner node in a part, whose latch is held too, after all that others have there was copied. From then on no
 * transaction rests there. */
static bs_status group_visit(bs_table_group *group, group_table *t, const group_inner *inner) {
  uint64_t accepted = bs_call_accepted(t->manager).count;
  bs_status status = bs_inside_end_resting(t->table);
  uint32_t above;
  t->is_used = accepted != t->accepted;
  t->accepted = accepted;
  for (above = 0; above < inner->above_count && status == BS_DONE; above++) {
    if (!group_is_marked(t, inner->above[above])) status = group_copy_holders(group, t, inner->above[above]);
  }
  if (status == BS_DONE) status = group_copy_holders(group, t, inner->number);
  if (status == BS_DONE) status = group_copy_sleepers(group, t, inner->number);
  if (status == BS_DONE) group_mark(group, t, inner->number, true);
  return status;
}

/* Visits each part that is not marked for an inner node. */
static bs_status group_visit_all(bs_table_group *group, const group_inner *inner) {
  uint32_t part;
  for (part = 1; part <= group->parts; part++) {
    group_table *t = &group->tables[part];
    bs_status status;
    if (group_is_marked(t, inner->number)) continue;
    if (!bs_inside_enter(t->table)) return BS_NO_MANAGER;
    status = group_visit(group, t, inner);
    bs_inside_release(t->table);
    if (status != BS_DONE) return status;
  }
  return BS_DONE;
}

/* A lock or a request of more than an intention is over: clears marks of the parts that are used. In the others the next
 * path does that. */
static void group_more_is_over(bs_table_group *group) {
  uint32_t part;
  __atomic_store_n(&group->over, group->over + 1, __ATOMIC_RELAXED);
  for (part = 1; part <= group->parts; part++) {
    if (group->tables[part].is_used) group_clear_in(group, &group->tables[part]);
  }
}

/* ------------------------------------------------------------------------------------------------
 * Locks of inner nodes.
 */

/* A request for more than an intention on an inner node has ended so. */
static void group_more_ended(bs_table_group *group, group_inner *inner, bs_status status) {
  inner->in_progress--;
  if (status != BS_DONE) group_more_is_over(group);
}

/* Requests more than an intention on an inner node. One that waits by an ask stays in progress. */
static bs_reply group_lock_more(bs_table_group *group, bs_txn main_txn, group_inner *inner, bs_mode mode,
                                const group_manner *manner) {
  const group_table *main = &group->tables[0];
  uint32_t number = inner->number;
  bs_reply reply;
  inner->in_progress++;
  reply = group_only(group_visit_all(group, inner));
  if (reply.status == BS_DONE) reply = group_request(main, main_txn, main->at[number].node, mode, manner);
  if (reply.status == BS_WAITING) manner->ask->inner = inner;
  else group_more_ended(group, inner, reply.status);
  return reply;
}

/* Locks an inner node in the main table. */
static bs_reply group_lock_inner(bs_table_group *group, group_slot *own, bs_node node, bs_mode mode,
                                 const group_manner *manner) {
  group_table *main = &group->tables[0];
  group_inner *inner;
  bs_txn main_txn;
  bs_reply reply;
  if (!bs_inside_enter(main->table)) return group_only(BS_NO_MANAGER);
  inner = group_inner_named(main, node);
  reply = group_only(inner == NULL ? BS_NO_SUCH_NODE : mode == BS_NL ? BS_BAD_MODE : BS_DONE);
  if (reply.status == BS_DONE) reply.status = group_join_main(group, own, false, &main_txn);
  if (reply.status == BS_DONE) reply.status = group_copy_own(group, own, main_txn);
  if (reply.status != BS_DONE) return group_leave(main, reply);
  if (mode > BS_IX) reply = group_lock_more(group, main_txn, inner, mode, manner);
  else reply = group_request(main, main_txn, main->at[inner->number].node, mode, manner);
  if (reply.status == BS_VICTIM) group_falls(own);
  return group_leave(main, reply);
}

/* ------------------------------------------------------------------------------------------------
 * The ends of transactions.
 */

/* Whether a transaction has more than an intention on an inner node in the main table. */
static bool group_has_more(const group_table *main, bs_txn main_txn) {
  uint64_t locks = bs_lock_count(main->manager, main_txn).count, place = 0;
  while (place < locks && bs_lock_at(main->manager, main_txn, (size_t)place).mode <= BS_IX) place++;
  return place < locks;
}

/* Ends a transaction in the main table, after it has ended in all parts. */
static GROUP_APART bs_status group_end_in_main(bs_table_group *group, group_slot *own, bool commits) {
  group_table *main = &group->tables[0];
  bool has_more;
  bs_reply reply;
  if (!bs_inside_enter(main->table)) return BS_NO_MANAGER;
  reply = bs_living(main->manager, own->number);
  has_more = group_has_more(main, reply.txn);
  reply = (commits ? bs_inside_commit : bs_inside_abort)(main->table, reply.txn);
  if (has_more) group_more_is_over(group);
  bs_inside_release(main->table);
  return reply.status;
}

/* Commits it in a part, and lets the next one of its slot rest there. */
static bs_reply group_let_rest(bs_table_group *group, group_slot *own, const group_table *t) {
  group_kept *kept = &own->kept[t->number];
  uint64_t since = group_next_age(group, own);
  bs_reply reply = bs_inside_commit_and_rest(t->table, own->in[t->number], kept->count, t->keep, since);
  if (reply.status != BS_DONE || reply.txn.age == 0) return reply;
  own->resting |= (uint64_t)1 << t->number;
  kept->age = reply.txn.age;
  kept->count = (uint32_t)reply.count;
  return reply;
}

/* Ends it in a part, whose latch is held. */
static bs_reply group_end_in(bs_table_group *group, group_slot *own, const group_table *t, bool commits) {
  if (bs_may_rest(commits, t->keep, t->marks_at, t->marks)) return group_let_rest(group, own, t);
  return (commits ? bs_inside_commit : bs_inside_abort)(t->table, own->in[t->number]);
}

/* Ends it in all parts. */
static bs_status group_end_in_parts(bs_table_group *group, group_slot *own, bool commits) {
  bs_status status = BS_DONE;
  for (; own->used != 0; own->used &= own->used - 1) {
    const group_table *t = &group->tables[__builtin_ctzll(own->used)];
    bs_reply reply;
    if (!bs_inside_enter(t->table)) return BS_NO_MANAGER;
    reply = group_end_in(group, own, t, commits);
    bs_inside_release(t->table);
    own->in[t->number].age = 0;
    if (reply.status != BS_DONE) status = reply.status;
  }
  return status;
}

/* Ends a transaction, whose slot stays taken. */
static bs_status group_end_in_all(bs_table_group *group, group_slot *own, bool commits) {
  bs_status status = group_end_in_parts(group, own, commits);
  if (status == BS_NO_MANAGER) return status;
  if (__atomic_load_n(&own->is_in_main, __ATOMIC_RELAXED)) {
    bs_status in_main = group_end_in_main(group, own, commits);
    if (in_main != BS_DONE) status = in_main;
    __atomic_store_n(&own->is_in_main, false, __ATOMIC_RELAXED);
  }
  __atomic_store_n(&own->is_spread, false, __ATOMIC_RELAXED);
  __atomic_store_n(&own->barred, 0, __ATOMIC_RELAXED);
  own->has_deadline = false;
  own->savepoint_count = 0;
  __atomic_store_n(&own->age, 0, __ATOMIC_RELAXED);
  return status;
}

/* Ends the wait at the gate of this transaction of the table of turns, if it waits there: it tries to begin again. */
static void group_open_gate(const group_turns *turns, bs_txn at_gate) {
  bs_inside_take(turns->table);
  if (bs_living(bs_inside_manager(turns->table), at_gate.slot).txn.age == at_gate.age) {
    bs_inside_end_sleep(turns->table, at_gate.slot, BS_MOVED);
  }
  bs_inside_release(turns->table);
}

/* A slot was freed: wakes the begin that is the next to have one. */
static GROUP_APART void group_wake_turn(bs_table_group *group) {
  group_turns *turns = &group->turns;
  bs_txn at_gate;
  pthread_mutex_lock(&turns->latch);
  at_gate = turns->at_gate;
  pthread_cond_broadcast(&turns->freed);
  pthread_mutex_unlock(&turns->latch);
  if (at_gate.age != 0) group_open_gate(turns, at_gate);
}

/* Frees a slot. A begin that waits is counted before it looks for a free slot, and this looks for such a begin after it
 * has freed the slot: so one of them finds the other. */
static inline void group_free_slot(bs_table_group *group, group_slot *own) {
  __atomic_store_n(&own->is_taken, false, __ATOMIC_SEQ_CST);
  if (__builtin_expect(__atomic_load_n(&group->queued, __ATOMIC_SEQ_CST) != 0, 0)) group_wake_turn(group);
}

/* Ends a transaction, and frees its slot. */
static bs_reply group_end_txn(bs_table_group *group, group_slot *own, bool commits) {
  bs_status status = group_end_in_all(group, own, commits);
  if (status != BS_NO_MANAGER) group_free_slot(group, own);
  return group_only(status);
}

bs_reply bs_group_commit(bs_table_group *group, bs_txn txn) {
  group_slot *own;
  bs_status status = group_finds(group, txn, &own);
  return status == BS_DONE ? group_end_txn(group, own, true) : group_only(status);
}

bs_reply bs_group_renew(bs_table_group *group, bs_txn txn, uint64_t since) {
  group_slot *own;
  bs_status status = group_finds(group, txn, &own);
  if (status != BS_DONE) return group_only(status);
  status = group_end_in_all(group, own, true);
  if (status == BS_DONE) return group_begin_in(group, own, since);
  if (status != BS_NO_MANAGER) group_free_slot(group, own);
  return group_only(status);
}

static inline bool group_asks(const group_slot *own) {
  return (__atomic_load_n(&own->barred, __ATOMIC_ACQUIRE) & GROUP_WAITS) != 0;
}

/* Has the ask of a transaction of this age end before it waits again. The later transactions of a slot have the greater
 * ages: so a cancel that comes late takes no later one's place. */
static void group_cancel_ask(group_ask *ask, uint64_t age) {
  uint64_t *at = &ask->cancelled, was = __atomic_load_n(at, __ATOMIC_RELAXED);
  while (was < age && !__atomic_compare_exchange_n(at, &was, age, false, __ATOMIC_RELAXED, __ATOMIC_RELAXED)) continue;
}

/* Whether the ask of a transaction, which was found in no table, ends by its cancel: it was between two tables. Else the
 * cancel is taken back. */
static bool group_ends_by_cancel(group_slot *own, uint64_t age) {
  uint64_t was = age;
  if (__atomic_load_n(&own->ask->cancelled, __ATOMIC_RELAXED) != age || group_asks(own)) return true;
  return !__atomic_compare_exchange_n(&own->ask->cancelled, &was, 0, false, __ATOMIC_RELAXED, __ATOMIC_RELAXED);
}

/* Cancels the wait of a transaction. */
static bs_status group_cancel_wait(bs_table_group *group, group_slot *own, uint64_t age) {
  bool asks = group_asks(own);
  uint32_t number;
  if (asks) group_cancel_ask(own->ask, age);
  for (number = 0; number <= group->parts; number++) {
    const group_table *t = &group->tables[number];
    bool found;
    if (!bs_inside_enter(t->table)) return BS_NO_MANAGER;
    found = __atomic_load_n(&own->age, __ATOMIC_RELAXED) == age &&
            bs_inside_end_sleep(t->table, own->number, BS_NOT_WAITING);
    bs_inside_release(t->table);
    if (found) return BS_DONE;
  }
  return asks && group_ends_by_cancel(own, age) ? BS_DONE : BS_NOT_WAITING;
}

bs_reply bs_group_cancel(bs_table_group *group, bs_txn txn) {
  bs_status shut = group_shut(group);
  group_slot *own;
  if (shut != BS_DONE) return group_only(shut);
  own = group_named(group, txn);
  return group_only(own == NULL ? BS_NO_SUCH_TXN : group_cancel_wait(group, own, txn.age));
}

/* Ends the ask of a transaction that waits by it. Another thread may have to tell that end, which is over soon; in a
 * callback it may be this thread. */
static GROUP_APART bs_status group_end_wait(bs_table_group *group, group_slot *own) {
  bs_status status = group_cancel_wait(group, own, own->age);
  while (group_asks(own)) {
    if (!bs_call_may_sleep()) return BS_TXN_WAITING;
    sched_yield();
  }
  return status == BS_NOT_WAITING ? BS_DONE : status;
}

bs_reply bs_group_abort(bs_table_group *group, bs_txn txn) {
  group_slot *own;
  bs_status status = group_finds(group, txn, &own);
  if (status == BS_TXN_WAITING) status = group_end_wait(group, own);
  if (status != BS_DONE && status != BS_TXN_CONDEMNED) return group_only(status);
  return group_end_txn(group, own, false);
}

bs_reply bs_group_keep(bs_table_group *group, uint32_t most) {
  bs_status status = group_shut(group);
  uint32_t part;
  if (status == BS_DONE) __atomic_store_n(&group->most_kept, most, __ATOMIC_RELAXED);
  for (part = 1; status == BS_DONE && part <= group->parts; part++) {
    group_table *t = &group->tables[part];
    if (!bs_inside_enter(t->table)) return group_only(BS_NO_MANAGER);
    t->keep = most;
    if (most == 0) status = bs_inside_end_resting(t->table);
    bs_inside_release(t->table);
  }
  return group_only(status);
}

/* ------------------------------------------------------------------------------------------------
 * Locks and records in a part.
 */

/* A request in a part. */
static inline group_way group_way_to(bs_table_group *group, group_slot *own, group_table *t, const bs_target *target,
                                     const group_manner *manner) {
  group_way way;
  way.group = group;
  way.own = own;
  way.part = t;
  way.target = target;
  way.manner = *manner;
  way.in_main = false;
  return way;
}

/* The manner of a request that may sleep until this time; and of a try. */
static inline group_manner group_until(const struct timespec *until) {
  group_manner manner = { NULL, true, BS_KEEP_WAY, 0, NULL };
  manner.until = until;
  return manner;
}

static inline group_manner group_tries(uint32_t keep) {
  group_manner manner = { NULL, false, BS_KEEP_NOTHING, 0, NULL };
  manner.keep = keep;
  return manner;
}

/* Leaves a part after a request that was answered so. */
static inline bs_reply group_requested(group_slot *own, const group_table *t, bs_reply reply) {
  if (__builtin_expect(reply.status == BS_VICTIM, 0)) group_falls(own);
  return group_leave(t, reply);
}

/* Why no call can have this mode, and be made in this manner. */
static inline bs_status group_bad_call(const bs_table_group *group, bs_mode mode, const group_manner *manner) {
  if (group == NULL) return BS_NULL_POINTER;
  if (mode > BS_X || manner->keep > BS_KEEP_WAY) return BS_BAD_NUMBER;
  return bs_inside_is_time(manner->until) ? BS_DONE : BS_BAD_NUMBER;
}

/* Finds the transaction of a request that is made in this manner. */
static inline bs_status group_finds_by(const bs_table_group *group, bs_txn txn, const group_manner *manner,
                                       group_slot **own) {
  bool sleeps = manner->may_wait && manner->ask == NULL;
  return group_finds_if(group, sleeps ? group_shut_to_sleep(group) : group_shut(group), txn, own);
}

/* Locks a node with what must be held above it, for a transaction that may request it. */
static GROUP_IN_LINE bs_reply group_path_of(bs_table_group *group, group_slot *own, bs_node node, bs_mode mode,
                                            const group_manner *manner) {
  uint32_t part = bs_group_table(node);
  bs_target target;
  group_table *t;
  group_way way;
  bs_reply reply;
  if (part > group->parts) return group_only(BS_NO_SUCH_NODE);
  if (part == 0) return group_lock_inner(group, own, node, mode, manner);
  t = &group->tables[part];
  target.node = group_name_there(t, node);
  target.rows = 0;
  target.mode = mode;
  way = group_way_to(group, own, t, &target, manner);
  if (!group_reach(&way, &reply)) return reply;
  return group_requested(own, t, group_request(t, own->in[part], target.node, mode, manner));
}

/* The same for the transaction of a call. */
static inline bs_reply group_path(bs_table_group *group, bs_txn txn, bs_node node, bs_mode mode,
                                  const group_manner *manner) {
  bs_status status = group_bad_call(group, mode, manner);
  group_slot *own;
  if (status == BS_DONE && bs_group_table(node) == 0 && manner->instant != 0) status = BS_BAD_NUMBER;
  if (status == BS_DONE) status = group_finds_by(group, txn, manner, &own);
  return status == BS_DONE ? group_path_of(group, own, node, mode, manner) : group_only(status);
}

bs_reply bs_group_lock_path(bs_table_group *group, bs_txn txn, bs_node node, bs_mode mode,
                            const struct timespec *until) {
  group_manner manner = group_until(until);
  bs_reply reply;
  manner.instant = mode & BS_INSTANT;
  do {
    reply = group_path(group, txn, node, mode & ~(bs_mode)BS_INSTANT, &manner);
  } while (__builtin_expect(reply.status == BS_MOVED, 0));
  return reply;
}

bs_reply bs_group_try_path(bs_table_group *group, bs_txn txn, bs_node node, bs_mode mode, uint32_t keep) {
  group_manner manner = group_tries(keep);
  return group_path(group, txn, node, mode, &manner);
}

/* Finds the transaction of a call, and the part of a node, which an inner node has not: that is refused so. */
static bs_status group_finds_both(bs_table_group *group, bs_txn txn, bs_node node, bs_status inner, group_slot **own,
                                  group_table **t) {
  bs_status status = group_finds(group, txn, own);
  return status == BS_DONE ? group_part_of(group, node, inner, t) : status;
}

/* The target of a request of a record or a row of a file, whose node may not be there. */
static bs_target group_in_file(const group_table *t, bs_node file, bs_mode mode) {
  bs_target target;
  target.node = group_name_there(t, file);
  target.mode = mode;
  target.rows = 1;
  return target;
}

/* A call of a transaction in a part. */
typedef struct group_call {
  group_slot *own;
  group_table *at;
  bs_table *table;
  bs_txn txn; /* its name in the part */
} group_call;

/* Reaches the part of a file for a request of a record or a row of it; an inner node is refused so. If that is done, the
 * part's latch is held, and the request lacks nothing in the main table; else the answer is in `why`. */
static inline bool group_reach_in(bs_table_group *group, group_slot *own, bs_node file, bs_status inner, bs_mode mode,
                                  const group_manner *manner, group_call *call, bs_reply *why) {
  bs_target target;
  group_way way;
  call->own = own;
  *why = group_only(group_part_of(group, file, inner, &call->at));
  if (why->status != BS_DONE) return false;
  target = group_in_file(call->at, file, mode);
  way = group_way_to(group, call->own, call->at, &target, manner);
  if (!group_reach(&way, why)) return false;
  call->table = call->at->table;
  call->txn = call->own->in[call->at->number];
  return true;
}

/* Whether this was given as the file of a row, by this name in the part, and is the file there of a spread file, whose
 * own name must be given. */
static inline bool group_is_misnamed(const bs_table_group *group, const group_call *call, bs_node file, bs_node there) {
  return bs_group_table(file) != 0 && group_is_dealt(group, call->at, there);
}

/* Asks for a row. */
static GROUP_APART bs_reply group_request_row_by_ask(const group_call *call, bs_node file, uint64_t number,
                                                     const uint64_t *keys, size_t count, bs_mode mode,
                                                     const group_manner *manner) {
  if (group_is_cancelled(call->at, manner->ask)) return group_only(BS_NOT_WAITING);
  return bs_inside_ask_row_path(call->table, call->txn, file, number, keys, count, mode, manner->until, manner->ask);
}

/* Requests a row of a file of a part in this manner, with the latch held before and after. */
static inline bs_reply group_request_row(const group_call *call, bs_node file, uint64_t number, const uint64_t *keys,
                                         size_t count, bs_mode mode, const group_manner *manner) {
  if (!manner->may_wait) {
    return bs_inside_try_row_path(call->table, call->txn, file, number, keys, count, mode, manner->keep);
  }
  if (__builtin_expect(manner->ask != NULL, 0)) {
    return group_request_row_by_ask(call, file, number, keys, count, mode, manner);
  }
  return bs_inside_row_path(call->table, call->txn, file, number, keys, count, mode, manner->until);
}

/* Locks a row with what must be held above it, for a transaction that may request it. */
static GROUP_IN_LINE bs_reply group_row_path_of(bs_table_group *group, group_slot *own, bs_node file, uint64_t number,
                                                const uint64_t *keys, size_t count, bs_mode mode,
                                                const group_manner *manner) {
  bs_node of = group_file_of(group, file, number), there;
  group_call call;
  bs_reply reply;
  if (!group_reach_in(group, own, of, BS_NOT_ROWS, mode, manner, &call, &reply)) return reply;
  there = group_name_there(call.at, of);
  if (group_is_misnamed(group, &call, file, there)) return group_leave(call.at, group_only(BS_NOT_ROWS));
  return group_requested(own, call.at, group_request_row(&call, there, number, keys, count, mode, manner));
}

/* The same for the transaction of a call. */
static inline bs_reply group_row_path(bs_table_group *group, bs_txn txn, bs_node file, uint64_t number,
                                      const uint64_t *keys, size_t count, bs_mode mode, const group_manner *manner) {
  bs_status status = group_bad_call(group, mode, manner);
  group_slot *own;
  if (keys == NULL && count != 0) status = BS_NULL_POINTER;
  if (status == BS_DONE) status = group_finds_by(group, txn, manner, &own);
  return status == BS_DONE ? group_row_path_of(group, own, file, number, keys, count, mode, manner) : group_only(status);
}

bs_reply bs_group_lock_row_path(bs_table_group *group, bs_txn txn, bs_node file, uint64_t number, const uint64_t *keys,
                                size_t count, bs_mode mode, const struct timespec *until) {
  group_manner manner = group_until(until);
  bs_reply reply;
  do {
    reply = group_row_path(group, txn, file, number, keys, count, mode, &manner);
  } while (__builtin_expect(reply.status == BS_MOVED, 0));
  return reply;
}

bs_reply bs_group_try_row_path(bs_table_group *group, bs_txn txn, bs_node file, uint64_t number, const uint64_t *keys,
                               size_t count, bs_mode mode, uint32_t keep) {
  group_manner manner = group_tries(keep);
  return group_row_path(group, txn, file, number, keys, count, mode, &manner);
}

/* Why an inner node has no records. */
static bs_status group_no_records(const bs_table_group *group, bs_node node) {
  return group != NULL && group_files_named(group, node) != NULL ? BS_ROWS_BY_NUMBER : BS_BAD_PARENTS;
}

bs_reply bs_group_insert(bs_table_group *group, bs_txn txn, bs_node file, const uint64_t *keys, size_t count) {
  group_manner manner = group_tries(BS_KEEP_NOTHING);
  bs_status status = group_bad_call(group, BS_X, &manner), inner = group_no_records(group, file);
  group_call call;
  group_slot *own;
  bs_reply reply;
  if (keys == NULL && count != 0) status = BS_NULL_POINTER;
  if (status == BS_DONE) status = group_finds(group, txn, &own);
  if (status != BS_DONE) return group_only(status);
  if (!group_reach_in(group, own, file, inner, BS_X, &manner, &call, &reply)) return reply;
  return group_leave(call.at, bs_inside_insert(call.table, call.txn, group_name_there(call.at, file), keys, count));
}

/* Enters the part of a node for a call that requests nothing on an inner node; such a node is refused so. The part's
 * latch is held if that is done. */
static bs_status group_enter(bs_table_group *group, bs_txn txn, bs_node node, bs_status inner, group_call *call) {
  bs_status status = group_finds_both(group, txn, node, inner, &call->own, &call->at);
  if (status != BS_DONE) return status;
  call->table = call->at->table;
  if (!bs_inside_enter(call->table)) return BS_NO_MANAGER;
  status = group_join(call->own, call->at);
  if (status != BS_DONE) bs_inside_release(call->table);
  call->txn = call->own->in[call->at->number];
  return status;
}

/* Leaves it after a call that may have released any lock, and was answered so: then the first locks may be others than
 * those that were kept. */
static bs_reply group_released(const group_call *call, bs_reply reply) {
  call->own->kept[call->at->number].count = 0;
  return group_leave(call->at, reply);
}

bs_reply bs_group_unlock(bs_table_group *group, bs_txn txn, bs_node node) {
  group_call call;
  bs_status status = group_enter(group, txn, node, BS_BAD_PARENTS, &call);
  if (status != BS_DONE) return group_only(status);
  return group_released(&call, bs_inside_unlock(call.table, call.txn, group_name_there(call.at, node)));
}

/* The same for a call about a row; the name of its file in the part in `there`. */
static bs_status group_enter_row(bs_table_group *group, bs_txn txn, bs_node file, uint64_t number, group_call *call,
                                 bs_node *there) {
  bs_node of = group == NULL ? file : group_file_of(group, file, number);
  bs_status status = group_enter(group, txn, of, BS_NOT_ROWS, call);
  if (status != BS_DONE) return status;
  *there = group_name_there(call->at, of);
  if (!group_is_misnamed(group, call, file, *there)) return BS_DONE;
  bs_inside_release(call->table);
  return BS_NOT_ROWS;
}

bs_reply bs_group_unlock_row(bs_table_group *group, bs_txn txn, bs_node file, uint64_t number) {
  group_call call;
  bs_node there;
  bs_status status = group_enter_row(group, txn, file, number, &call, &there);
  if (status != BS_DONE) return group_only(status);
  return group_leave(call.at, bs_inside_unlock_row(call.table, call.txn, there, number));
}

bs_reply bs_group_escalate(bs_table_group *group, bs_txn txn, bs_node node) {
  group_call call;
  bs_status status = group_enter(group, txn, node, BS_BAD_PARENTS, &call);
  if (status != BS_DONE) return group_only(status);
  return group_released(&call, bs_inside_escalate(call.table, call.txn, group_name_there(call.at, node)));
}

bs_reply bs_group_delete(bs_table_group *group, bs_txn txn, bs_node record) {
  group_call call;
  bs_status status = group_enter(group, txn, record, BS_BAD_PARENTS, &call);
  if (status != BS_DONE) return group_only(status);
  return group_leave(call.at, bs_inside_delete(call.table, call.txn, group_name_there(call.at, record)));
}

bs_reply bs_group_rekey(bs_table_group *group, bs_txn txn, bs_node record, bs_node index, uint64_t key) {
  group_call call;
  bs_status status = group_enter(group, txn, record, BS_BAD_PARENTS, &call);
  bs_node there;
  if (status != BS_DONE) return group_only(status);
  there = group_name_there(call.at, record);
  return group_leave(call.at, bs_inside_rekey(call.table, call.txn, there, group_name_there(call.at, index), key));
}

bs_reply bs_group_rekey_row(bs_table_group *group, bs_txn txn, bs_node file, uint64_t number, bs_node index,
                            uint64_t key) {
  group_call call;
  bs_node there, by;
  bs_status status = group_enter_row(group, txn, file, number, &call, &there);
  if (status != BS_DONE) return group_only(status);
  by = group_name_there(call.at, index);
  return group_leave(call.at, bs_inside_rekey_row(call.table, call.txn, there, number, by, key));
}

/* Enters the part of a node for a call of no transaction; an inner node is refused so. */
static bs_status group_enter_part(bs_table_group *group, bs_node node, bs_status inner, group_table **t) {
  bs_status status = group_shut(group);
  if (status == BS_DONE) status = group_part_of(group, node, inner, t);
  if (status == BS_DONE && !bs_inside_enter((*t)->table)) status = BS_NO_MANAGER;
  return status;
}

bs_reply bs_group_adopt(bs_table_group *group, bs_node file, const uint64_t *keys, size_t count) {
  group_table *t;
  bs_status status = keys == NULL && count != 0 ? BS_NULL_POINTER : BS_DONE;
  if (status == BS_DONE) status = group_enter_part(group, file, group_no_records(group, file), &t);
  if (status != BS_DONE) return group_only(status);
  return group_leave(t, bs_adopt(t->manager, group_name_there(t, file), keys, count));
}

bs_reply bs_group_forget(bs_table_group *group, bs_node record) {
  group_table *t;
  bs_status status = group_enter_part(group, record, BS_BAD_PARENTS, &t);
  if (status != BS_DONE) return group_only(status);
  return group_leave(t, bs_forget(t->manager, group_name_there(t, record)));
}

/* ------------------------------------------------------------------------------------------------
 * What a schema changes in a part, and intervals.
 */

bs_reply bs_group_drop(bs_table_group *group, bs_txn txn, bs_node node) {
  group_call call;
  bs_status status = group_enter(group, txn, node, BS_BAD_PARENTS, &call);
  bs_node there;
  if (status != BS_DONE) return group_only(status);
  there = group_name_there(call.at, node);
  if (group_is_dealt(group, call.at, there)) return group_leave(call.at, group_only(BS_BAD_PARENTS));
  return group_released(&call, bs_inside_drop(call.table, call.txn, there));
}

bs_reply bs_group_split(bs_table_group *group, bs_txn txn, bs_node interval, uint64_t at) {
  group_call call;
  bs_status status = group_enter(group, txn, interval, BS_BAD_PARENTS, &call);
  if (status != BS_DONE) return group_only(status);
  return group_leave(call.at, bs_inside_split(call.table, call.txn, group_name_there(call.at, interval), at));
}

bs_reply bs_group_merge(bs_table_group *group, bs_txn txn, bs_node interval) {
  group_call call;
  bs_status status = group_enter(group, txn, interval, BS_BAD_PARENTS, &call);
  if (status != BS_DONE) return group_only(status);
  return group_released(&call, bs_inside_merge(call.table, call.txn, group_name_there(call.at, interval)));
}

/* Tries an intention to write on an inner node in a part, after what it needs in the main table. By the laws it is
 * granted in the part. */
static bs_reply group_intend(bs_table_group *group, const group_call *call, bs_node inner) {
  group_manner manner = group_tries(BS_KEEP_WAY);
  bs_target target;
  group_way way;
  bs_reply reply;
  target.node = group_name_there(call->at, inner);
  target.mode = BS_IX;
  target.rows = 0;
  way = group_way_to(group, call->own, call->at, &target, &manner);
  if (!group_reach(&way, &reply)) return reply;
  return group_leave(call->at, group_request(call->at, call->txn, target.node, BS_IX, &manner));
}

/* The slots whose requests wait in a part and pass a node. One also counts if memory is refused to find that out. */
static bs_slots group_passers(const bs_table_group *group, const group_table *t, bs_node there) {
  bs_slots passers;
  uint32_t slot;
  memset(&passers, 0, sizeof passers);
  for (slot = 0; slot < group->most; slot++) {
    if (!bs_inside_sleeps(t->table, slot)) continue;
    if (bs_after_move(t->manager, group_slot_at(group, slot)->target, there).status == BS_DONE) continue;
    passers.words[slot / 64] |= (uint64_t)1 << slot % 64;
  }
  return passers;
}

/* Parents of a node, by their names in the group. */
typedef struct group_parents {
  bs_node at[BS_MOST_PARENTS];
  size_t count;
} group_parents;

/* Those that a node of a part has. */
static group_parents group_parents_of(const group_table *t, bs_node there) {
  group_parents above;
  bs_reply next = bs_parent(t->manager, there, 0);
  above.count = 0;
  while (next.status == BS_DONE && above.count < BS_MOST_PARENTS) {
    above.at[above.count++] = group_name_here(t, next.node);
    next = bs_parent(t->manager, there, above.count);
  }
  return above;
}

/* Moves a node of a part with what the transaction holds there: BS_NEED_PARENTS names an inner node that it lacks in the
 * part. The parents that the node has had are in `above`. */
static bs_reply group_move_once(bs_table_group *group, const group_call *call, bs_node node, const bs_node *parents,
                                size_t count, group_parents *above) {
  bs_node there[BS_MOST_PARENTS], name = group_name_there(call->at, node);
  bs_slots passers;
  if (group_any_is_spread(group, parents, count) || group_is_dealt(group, call->at, name)) {
    return group_leave(call->at, group_only(BS_BAD_PARENTS));
  }
  *above = group_parents_of(call->at, name);
  group_parents_there(call->at, parents, count, there);
  passers = group_passers(group, call->at, name);
  return group_leave(call->at, bs_inside_move(call->table, call->txn, name, there, count, &passers));
}

/* What a transaction holds on a node in a table; BS_NL if it has not joined. */
static bs_reply group_held_in(const group_table *t, bs_txn txn, bs_node node) {
  bs_node there = group_name_there(t, node);
  bs_reply reply = bs_kind(t->manager, there);
  reply.count = 0;
  if (reply.status == BS_DONE && txn.age != 0) reply = bs_held(t->manager, txn, there);
  return reply;
}

/* Whether a transaction has BS_X in the main table on each of these inner nodes, and there are any. */
static bool group_has_exclusive(bs_table_group *group, const group_slot *own, const bs_node *nodes, size_t count) {
  const group_table *main = &group->tables[0];
  bs_txn main_txn;
  size_t i = 0;
  if (!bs_inside_enter(main->table)) return false;
  main_txn = bs_living(main->manager, own->number).txn;
  while (i < count && group_held_in(main, main_txn, nodes[i]).mode == BS_X) i++;
  bs_inside_release(main->table);
  return count > 0 && i == count;
}

/* Acquires BS_X on a node of a part that was refused so, if the transaction has it on all parents that the node has and
 * will have: nobody else has a lock there then, so that this is granted at once. */
static bs_reply group_exclude(bs_table_group *group, const group_call *call, bs_node node, const group_parents *above,
                              const bs_node *parents, size_t count, bs_reply refused) {
  group_manner manner = group_tries(BS_KEEP_WAY);
  if (!group_has_exclusive(group, call->own, above->at, above->count)) return refused;
  if (!group_has_exclusive(group, call->own, parents, count)) return refused;
  return group_path_of(group, call->own, node, BS_X, &manner);
}

bs_reply bs_group_move(bs_table_group *group, bs_txn txn, bs_node node, const bs_node *parents, size_t count) {
  bs_status status = group == NULL ? BS_NULL_POINTER : group_bad_parents(parents, count);
  bs_reply reply = group_only(status);
  while (status == BS_DONE) {
    group_call call;
    group_parents above;
    status = group_enter(group, txn, node, BS_BAD_PARENTS, &call);
    if (status != BS_DONE) return group_only(status);
    reply = group_move_once(group, &call, node, parents, count, &above);
    if (reply.status == BS_NEED_PARENTS) reply = group_intend(group, &call, reply.node);
    else if (reply.status != BS_NEED_EXCLUSIVE) return reply;
    else reply = group_exclude(group, &call, node, &above, parents, count, reply);
    status = reply.status;
  }
  return reply;
}

/* An index of a file that is to be made, beside these records; `there` has room for their names in the part. */
typedef struct group_index {
  const bs_node *parents;
  size_t count;
  bs_node file;
  const uint64_t *bounds;
  size_t bound_count;
  const bs_node *records;
  const uint64_t *keys;
  size_t record_count;
  bs_node *there;
} group_index;

/* Makes an index with what the transaction holds: BS_NEED_PARENTS names an inner node that it lacks in the part. */
static bs_reply group_index_once(bs_table_group *group, const group_call *call, const group_index *index) {
  bs_node above[BS_MOST_PARENTS], file = group_name_there(call->at, index->file);
  bs_reply reply = group_only(BS_BAD_PARENTS);
  size_t i;
  if (group_any_is_spread(group, index->parents, index->count)) return group_leave(call->at, reply);
  if (group_is_dealt(group, call->at, file)) return group_leave(call->at, reply);
  group_parents_there(call->at, index->parents, index->count, above);
  for (i = 0; i < index->record_count; i++) index->there[i] = group_name_there(call->at, index->records[i]);
  reply = bs_inside_index_records(call->table, call->txn, above, index->count, file, index->bounds, index->bound_count,
                                  index->there, index->keys, index->record_count);
  return group_indexed(group, call->at, file, reply);
}

static bs_reply group_make_index(bs_table_group *group, bs_txn txn, const group_index *index) {
  group_call call;
  bs_reply reply;
  for (;;) {
    bs_status status = group_enter(group, txn, index->file, BS_BAD_PARENTS, &call);
    if (status != BS_DONE) return group_only(status);
    reply = group_index_once(group, &call, index);
    if (reply.status != BS_NEED_PARENTS) return reply;
    reply = group_intend(group, &call, reply.node);
    if (reply.status != BS_DONE) return reply;
  }
}

/* Room for so many names; null if memory is refused. */
static bs_node *group_room_for_names(size_t count) {
  return count > SIZE_MAX / sizeof(bs_node) ? NULL : (bs_node *)malloc(count * sizeof(bs_node));
}

bs_reply bs_group_index_records(bs_table_group *group, bs_txn txn, const bs_node *parents, size_t count, bs_node file,
                                const uint64_t *bounds, size_t bound_count, const bs_node *records,
                                const uint64_t *keys, size_t record_count) {
  group_index index = { parents, count, file, bounds, bound_count, records, keys, record_count, NULL };
  bs_status status = group_bad_index(parents, count, bounds, bound_count);
  bs_reply reply;
  if (group == NULL || ((records == NULL || keys == NULL) && record_count != 0)) status = BS_NULL_POINTER;
  if (status == BS_DONE && record_count != 0) {
    index.there = group_room_for_names(record_count);
    if (index.there == NULL) status = BS_NO_MEMORY;
  }
  if (status != BS_DONE) return group_only(status);
  reply = group_make_index(group, txn, &index);
  free(index.there);
  return reply;
}

bs_reply bs_group_index_by(bs_table_group *group, bs_txn txn, const bs_node *parents, size_t count, bs_node file,
                           const uint64_t *bounds, size_t bound_count) {
  return bs_group_index_records(group, txn, parents, count, file, bounds, bound_count, NULL, NULL, 0);
}

/* ------------------------------------------------------------------------------------------------
 * Savepoints.
 */

bs_reply bs_group_mark(bs_table_group *group, bs_txn txn, bs_group_savepoint *savepoint) {
  bs_status status = savepoint == NULL ? BS_NULL_POINTER : BS_DONE;
  group_slot *own;
  uint64_t left;
  if (status == BS_DONE) status = group_finds(group, txn, &own);
  if (status != BS_DONE) return group_only(status);
  memset(savepoint, 0, sizeof *savepoint);
  for (left = own->used; left != 0; left &= left - 1) {
    const group_table *t = &group->tables[__builtin_ctzll(left)];
    if (!bs_inside_enter(t->table)) return group_only(BS_NO_MANAGER);
    savepoint->at[t->number] = bs_mark(t->manager, own->in[t->number]).count;
    bs_inside_release(t->table);
  }
  return group_only(BS_DONE);
}

/* Releases in a part, whose latch is held, what a transaction has acquired since it had so many locks there. */
static bs_reply group_release_in(group_slot *own, const group_table *t, uint64_t savepoint) {
  group_kept *kept = &own->kept[t->number];
  if (kept->count > savepoint) kept->count = (uint32_t)savepoint;
  return bs_inside_release_since(t->table, own->in[t->number], savepoint);
}

bs_reply bs_group_release_since(bs_table_group *group, bs_txn txn, const bs_group_savepoint *savepoint) {
  bs_status status = savepoint == NULL ? BS_NULL_POINTER : BS_DONE;
  bs_reply all = group_only(BS_DONE);
  group_slot *own;
  uint64_t left;
  if (status == BS_DONE) status = group_finds(group, txn, &own);
  if (status != BS_DONE) return group_only(status);
  for (left = own->used; left != 0; left &= left - 1) {
    const group_table *t = &group->tables[__builtin_ctzll(left)];
    bs_reply reply;
    if (!bs_inside_enter(t->table)) return group_only(BS_NO_MANAGER);
    reply = group_release_in(own, t, savepoint->at[t->number]);
    bs_inside_release(t->table);
    if (reply.status != BS_DONE) all.status = reply.status;
    else all.count += reply.count;
  }
  return all;
}

/* ------------------------------------------------------------------------------------------------
 * Questions.
 */

bs_reply bs_group_file_of_row(bs_table_group *group, bs_node file, uint64_t number) {
  bs_reply reply = group_only(group_shut(group));
  if (reply.status != BS_DONE) return reply;
  if (group_files_named(group, file) == NULL) return group_only(BS_NOT_ROWS);
  reply.node = group_file_of(group, file, number);
  return reply;
}

/* The least mode that covers both. */
static bs_mode group_join_modes(bs_mode one, bs_mode other) {
  bs_mode low = one < other ? one : other, high = one < other ? other : one;
  return low == BS_IX && high == BS_S ? BS_SIX : high;
}

/* The same of an inner node in all tables. */
static bs_reply group_held_in_all(bs_table_group *group, const group_slot *own, bs_node node) {
  group_table *main = &group->tables[0];
  bs_reply reply, in_part;
  uint64_t left;
  if (!bs_inside_enter(main->table)) return group_only(BS_NO_MANAGER);
  reply = group_held_in(main, bs_living(main->manager, own->number).txn, node);
  reply.node = group_only(BS_DONE).node;
  bs_inside_release(main->table);
  for (left = own->used; left != 0 && reply.status == BS_DONE; left &= left - 1) {
    const group_table *t = &group->tables[__builtin_ctzll(left)];
    if (!bs_inside_enter(t->table)) return group_only(BS_NO_MANAGER);
    in_part = group_held_in(t, own->in[t->number], node);
    bs_inside_release(t->table);
    reply.mode = group_join_modes(reply.mode, in_part.mode);
  }
  return reply;
}

bs_reply bs_group_held(bs_table_group *group, bs_txn txn, bs_node node) {
  group_slot *own;
  bs_status status = group_finds(group, txn, &own);
  uint32_t part = bs_group_table(node);
  const group_table *t;
  if (status != BS_DONE && status != BS_TXN_CONDEMNED) return group_only(status);
  if (part > group->parts) return group_only(BS_NO_SUCH_NODE);
  if (part == 0) return group_held_in_all(group, own, node);
  t = &group->tables[part];
  if (!bs_inside_enter(t->table)) return group_only(BS_NO_MANAGER);
  return group_leave(t, group_held_in(t, own->in[part], node));
}

static uint64_t group_sum(uint64_t one, uint64_t other) {
  return one + other < one ? UINT64_MAX : one + other;
}

/* Adds the counts of a table to those of others. */
static void group_add_counts(bs_counts *all, const bs_counts *one) {
  all->accepted = group_sum(all->accepted, one->accepted);
  all->granted = group_sum(all->granted, one->granted);
  all->waited = group_sum(all->waited, one->waited);
  all->conversions = group_sum(all->conversions, one->conversions);
  all->granted_later = group_sum(all->granted_later, one->granted_later);
  all->condemned = group_sum(all->condemned, one->condemned);
  all->moved = group_sum(all->moved, one->moved);
  all->gone = group_sum(all->gone, one->gone);
  all->escalations = group_sum(all->escalations, one->escalations);
  all->released_children = group_sum(all->released_children, one->released_children);
  if (all->most_waiting < one->most_waiting) all->most_waiting = one->most_waiting;
  if (all->longest_queue < one->longest_queue) all->longest_queue = one->longest_queue;
  all->passed = group_sum(all->passed, one->passed);
}

bs_reply bs_group_counters(bs_table_group *group, bs_counts *counts) {
  bs_status status = counts == NULL ? BS_NULL_POINTER : group_shut(group);
  bs_counts all, one;
  uint32_t number;
  if (status != BS_DONE) return group_only(status);
  memset(&all, 0, sizeof all);
  for (number = 0; number <= group->parts; number++) {
    const group_table *t = &group->tables[number];
    if (!bs_inside_enter(t->table)) return group_only(BS_NO_MANAGER);
    bs_counters(t->manager, &one);
    bs_inside_release(t->table);
    group_add_counts(&all, &one);
  }
  all.condemned = group_sum(all.condemned, __atomic_load_n(&group->condemned, __ATOMIC_RELAXED));
  *counts = all;
  return group_only(BS_DONE);
}

const bs_manager *bs_group_hold(bs_table_group *group, uint32_t table) {
  if (group_shut(group) != BS_DONE || table > group->parts) return NULL;
  return bs_table_hold(group->tables[table].table);
}

bs_reply bs_group_let_go(bs_table_group *group, uint32_t table) {
  if (group == NULL) return bs_call_null();
  if (table > group->parts) return group_only(BS_BAD_NUMBER);
  return bs_table_let_go(group->tables[table].table);
}

/* Translates a name, by the table's latch. */
static bs_reply group_translate(bs_table_group *group, uint32_t table, bs_node node,
                                bs_node (*name)(const group_table *t, bs_node node)) {
  const group_table *t;
  bs_reply reply = group_only(BS_DONE);
  bool is_held;
  if (group == NULL) return bs_call_null();
  if (table > group->parts) return group_only(BS_BAD_NUMBER);
  t = &group->tables[table];
  is_held = bs_inside_holds(t->table);
  if (!is_held) reply.status = group_shut(group);
  if (!is_held && reply.status == BS_DONE && !bs_inside_enter(t->table)) reply.status = BS_NO_MANAGER;
  if (reply.status != BS_DONE) return reply;
  reply.node = name(t, node);
  if (reply.node.birth == 0) reply = group_only(BS_NO_SUCH_NODE);
  if (!is_held) bs_inside_release(t->table);
  return reply;
}

bs_reply bs_group_name_in(bs_table_group *group, bs_node node, uint32_t table) {
  return group_translate(group, table, node, group_name_there);
}

bs_reply bs_group_name_of(bs_table_group *group, bs_node node, uint32_t table) {
  return group_translate(group, table, node, group_name_here);
}

/* ------------------------------------------------------------------------------------------------
 * Deadlocks over several tables. All latches are held.
 */

/* Adds a board of a table to that of all tables. Each transaction counts there by its `since`. */
static void group_add_board(bs_table_group *group) {
  uint32_t slot;
  for (slot = 0; slot < group->most; slot++) {
    if (group->one.ages[slot] == 0) continue;
    group->joined.ages[slot] = __atomic_load_n(&group_slot_at(group, slot)->since, __ATOMIC_RELAXED);
  }
  bs_join_board(&group->joined, &group->one);
}

/* Lets the youngest fall of those that are on a cycle of waits over all tables; false if there is none. */
static bool group_settle_one(bs_table_group *group) {
  bs_reply youngest;
  uint32_t table;
  memset(&group->joined, 0, sizeof group->joined);
  for (table = 0; table <= group->parts; table++) {
    const group_table *t = &group->tables[table];
    if (!bs_inside_any_waits(t->table) || bs_read_board(t->manager, &group->one).status != BS_DONE) continue;
    group_add_board(group);
  }
  youngest = bs_youngest(&group->joined, bs_suspects(&group->joined).slots);
  for (table = 0; youngest.status == BS_DONE && table <= group->parts; table++) {
    if (!bs_inside_end_sleep(group->tables[table].table, (uint32_t)youngest.count, BS_VICTIM)) continue;
    __atomic_fetch_add(&group->condemned, 1, __ATOMIC_RELAXED);
    return true;
  }
  return false;
}

/* Ends all cycles of waits over several tables: after each victim the boards are read again, since its end may have opened
 * other cycles. Answers how many fell. No latch is held before and after: ends of asks are told after all were released. */
static uint64_t group_settle_all(bs_table_group *group) {
  bs_inside_asks ends;
  uint64_t victims = 0;
  bs_inside_keep_ends(&ends);
  group_take_all(group);
  __atomic_store_n(&group->looked, bs_call_now(), __ATOMIC_RELAXED);
  while (group_settle_one(group)) victims++;
  group_release_all(group);
  bs_inside_tell_ends(&ends);
  return victims;
}

bs_reply bs_group_settle(bs_table_group *group, bs_txn txn) {
  bs_reply reply = group_only(group_shut(group));
  if (reply.status == BS_DONE && group_named(group, txn) == NULL) reply.status = BS_NO_SUCH_TXN;
  if (reply.status == BS_DONE) reply.count = group_settle_all(group);
  return reply;
}

/* A thread that sleeps in a table of the group looks for cycles over several tables: its own latch is held before and
 * after. If another has looked since it fell asleep, or since its own last look, that one has seen its wait. */
static void group_look(void *context, bs_table *table, uint64_t since) {
  bs_table_group *group = (bs_table_group *)context;
  if (__atomic_load_n(&group->looked, __ATOMIC_RELAXED) > since) return;
  if (group_count_spread(group) == 0) return;
  bs_inside_release(table);
  group_settle_all(group);
  bs_inside_take(table);
}

/* ------------------------------------------------------------------------------------------------
 * Asks. An ask is made in one table after the other: the thread that ends its wait in the main table makes it in the
 * part. What a list leaves waiting is an ask whose end is kept for who awaits it.
 */

bs_reply bs_group_on_end(bs_table_group *group, void (*function)(void *context, bs_txn txn, bs_reply end, void *word),
                         void *context) {
  bs_reply reply = group_only(function == NULL ? BS_NULL_POINTER : group_shut(group));
  group_table *main;
  if (reply.status != BS_DONE) return reply;
  main = &group->tables[0];
  if (!bs_inside_enter(main->table)) return group_only(BS_NO_MANAGER);
  if (group->on_end != NULL) return group_leave(main, group_only(BS_IN_USE));
  group->context = context;
  __atomic_store_n(&group->on_end, function, __ATOMIC_RELEASE);
  return group_leave(main, reply);
}

/* The place of a slot for its asks, which it keeps; null if memory is refused. */
static group_ask *group_ask_of(bs_table_group *group, group_slot *own) {
  group_ask *ask = own->ask;
  if (ask != NULL) return ask;
  ask = (group_ask *)group_zero(sizeof *ask);
  if (ask == NULL) return NULL;
  ask->group = group;
  ask->own = own;
  pthread_mutex_init(&ask->latch, NULL);
  bs_call_make_steady(&ask->ended);
  __atomic_store_n(&own->ask, ask, __ATOMIC_RELEASE);
  return ask;
}

/* Copies the keys of a row; false if memory is refused. */
static bool group_copy_keys(group_ask *ask, const uint64_t *keys, size_t count) {
  if (count > ask->room) {
    uint64_t *more = count > SIZE_MAX / sizeof *more ? NULL : (uint64_t *)realloc(ask->keys, count * sizeof *more);
    if (more == NULL) return false;
    ask->keys = more;
    ask->room = count;
  }
  if (count > 0) memcpy(ask->keys, keys, count * sizeof *keys);
  ask->count = count;
  return true;
}

/* Whether a command requests a row. */
static inline bool group_is_of_row(const bs_command *c) {
  return c->kind == BS_DO_LOCK_ROW || c->kind == BS_DO_LOCK_ROW_PATH;
}

/* Why no transaction can ask for this. */
static bs_status group_bad_ask(const bs_table_group *group, const bs_command *c, const struct timespec *until) {
  bs_mode instant = c->mode & BS_INSTANT;
  if (group == NULL || (group_is_of_row(c) && c->keys == NULL && c->key_count != 0)) return BS_NULL_POINTER;
  if ((c->mode & ~(bs_mode)BS_INSTANT) > BS_X || !bs_inside_is_time(until)) return BS_BAD_NUMBER;
  return instant != 0 && (group_is_of_row(c) || bs_group_table(c->node) == 0) ? BS_BAD_NUMBER : BS_DONE;
}

/* Writes what a transaction asks for; false if memory is refused. */
static bool group_write_ask(bs_table_group *group, group_slot *own, const bs_command *c, void *word, bool is_list) {
  group_ask *ask = group_ask_of(group, own);
  if (ask == NULL || !group_copy_keys(ask, c->keys, group_is_of_row(c) ? c->key_count : 0)) return false;
  ask->age = own->age;
  ask->inner = NULL;
  __atomic_store_n(&ask->cancelled, 0, __ATOMIC_RELAXED);
  ask->is_row = group_is_of_row(c);
  ask->node = ask->is_row ? c->file : c->node;
  ask->mode = c->mode & ~(bs_mode)BS_INSTANT;
  ask->instant = c->mode & BS_INSTANT;
  ask->number = c->number;
  pthread_mutex_lock(&ask->latch);
  ask->word = word;
  ask->is_list = is_list;
  ask->has_ended = false;
  ask->is_told = false;
  ask->is_limited = false;
  pthread_mutex_unlock(&ask->latch);
  return true;
}

/* Requests what an ask is for, in the first table where it lacks something. */
static bs_reply group_ask_once(group_ask *ask) {
  group_manner manner = group_until(ask->has_time ? &ask->until : NULL);
  manner.ask = ask;
  manner.instant = ask->instant;
  if (!ask->is_row) return group_path_of(ask->group, ask->own, ask->node, ask->mode, &manner);
  return group_row_path_of(ask->group, ask->own, ask->node, ask->number, ask->keys, ask->count, ask->mode, &manner);
}

/* The same, and again if its wait has ended already, and must begin anew. */
static bs_reply group_ask_goes(group_ask *ask) {
  bs_reply reply = group_ask_once(ask);
  while (reply.status == BS_MOVED) reply = group_ask_once(ask);
  return reply;
}

/* Asks for what a command requests. As long as it waits, its transaction may request nothing, and this thread uses
 * nothing of it. */
static bs_reply group_ask_for(bs_table_group *group, bs_txn txn, const bs_command *c, const struct timespec *until,
                              void *word, bool is_list) {
  bs_status status = group_bad_ask(group, c, until);
  group_slot *own;
  bs_reply reply;
  if (status == BS_DONE) status = group_finds(group, txn, &own);
  if (status == BS_DONE && !group_write_ask(group, own, c, word, is_list)) status = BS_NO_MEMORY;
  if (status != BS_DONE) return group_only(status);
  own->ask->has_time = until != NULL;
  if (until != NULL) own->ask->until = *until;
  __atomic_fetch_or(&own->barred, GROUP_WAITS, __ATOMIC_RELEASE);
  reply = group_ask_goes(own->ask);
  if (reply.status != BS_WAITING) __atomic_fetch_and(&own->barred, ~(uint32_t)GROUP_WAITS, __ATOMIC_RELEASE);
  return reply;
}

/* The name in the group of the node with which a wait in a table has ended. */
static bs_reply group_ended_at(const group_table *t, bs_reply end) {
  if (end.node.birth == 0) return end;
  if (!bs_inside_enter(t->table)) {
    end.node = group_only(BS_DONE).node;
    return end;
  }
  end.node = group_name_here(t, end.node);
  bs_inside_release(t->table);
  return end;
}

/* An ask for more than an intention on an inner node is no more in progress. */
static void group_ask_leaves(group_ask *ask, bs_status status) {
  bs_table *main = ask->group->tables[0].table;
  bs_inside_take(main);
  group_more_ended(ask->group, ask->inner, status);
  bs_inside_release(main);
}

/* The wait of an ask has ended so in a table. It goes on if that was in the main table, on its way to a part, or if it
 * must begin anew. Answers BS_WAITING if it waits again, else its end. */
static bs_reply group_ask_goes_on(group_ask *ask, bs_reply end) {
  bool is_on_the_way = ask->at->number == 0 && (ask->is_row || bs_group_table(ask->node) != 0);
  if (end.status == (is_on_the_way ? BS_DONE : BS_MOVED)) return group_ask_goes(ask);
  if (ask->inner != NULL) group_ask_leaves(ask, end.status);
  return group_ended_at(ask->at, end);
}

/* Ends what a list left waiting: who awaits it is woken. The latch is held. */
static void group_end_list(group_ask *ask, bs_reply end) {
  ask->end = end;
  ask->has_ended = true;
  __atomic_fetch_and(&ask->own->barred, ~(uint32_t)GROUP_WAITS, __ATOMIC_RELEASE);
  pthread_cond_broadcast(&ask->ended);
}

/* A wait has come to this end. Whether the callback is told it, with this word; else it is kept for who awaits it. */
static bool group_is_told(group_ask *ask, bs_reply end, void **word) {
  bool is_told;
  pthread_mutex_lock(&ask->latch);
  is_told = ask->is_told || !ask->is_list;
  *word = ask->word;
  if (!is_told) group_end_list(ask, end);
  ask->is_limited = false;
  pthread_mutex_unlock(&ask->latch);
  return is_told;
}

/* The callback of each table: `word` is the ask. */
static void group_ask_ended(void *context, bs_txn txn, bs_reply end, void *word) {
  bs_table_group *group = (bs_table_group *)context;
  group_ask *ask = (group_ask *)word;
  void *own_word;
  end = group_ask_goes_on(ask, end);
  if (end.status == BS_WAITING) return;
  if (end.status == BS_VICTIM) group_falls(ask->own);
  if (!group_is_told(ask, end, &own_word)) return;
  txn.age = ask->age;
  __atomic_fetch_and(&ask->own->barred, ~(uint32_t)GROUP_WAITS, __ATOMIC_RELEASE);
  __atomic_load_n(&group->on_end, __ATOMIC_ACQUIRE)(group->context, txn, end, own_word);
}

/* Asks, for an engine that has given a callback. */
static bs_reply group_ask_and_tell(bs_table_group *group, bs_txn txn, const bs_command *c, const struct timespec *until,
                                   void *word) {
  if (group == NULL || __atomic_load_n(&group->on_end, __ATOMIC_ACQUIRE) == NULL) return bs_call_null();
  return group_ask_for(group, txn, c, until, word, false);
}

bs_reply bs_group_ask_path(bs_table_group *group, bs_txn txn, bs_node node, bs_mode mode, const struct timespec *until,
                           void *word) {
  bs_command wanted = bs_do_at(BS_DO_LOCK_PATH, txn, node, mode);
  return group_ask_and_tell(group, txn, &wanted, until, word);
}

bs_reply bs_group_ask_row_path(bs_table_group *group, bs_txn txn, bs_node file, uint64_t number, const uint64_t *keys,
                               size_t count, bs_mode mode, const struct timespec *until, void *word) {
  bs_command wanted = bs_do_at(BS_DO_LOCK_ROW_PATH, txn, file, mode);
  wanted.file = file;
  wanted.number = number;
  wanted.keys = keys;
  wanted.key_count = count;
  return group_ask_and_tell(group, txn, &wanted, until, word);
}

/* Asks for the end of what a list left waiting, which has not ended. */
static void group_ask_for_end(group_ask *ask, const struct timespec *until, void *word) {
  ask->word = word;
  ask->is_told = true;
  ask->is_limited = until != NULL;
  if (until != NULL) ask->limit = *until;
}

bs_reply bs_group_ask_await(bs_table_group *group, bs_txn txn, const struct timespec *until, void *word) {
  bs_status status = group != NULL && !bs_inside_is_time(until) ? BS_BAD_NUMBER : group_shut(group);
  bs_reply reply = group_only(status);
  group_slot *own;
  group_ask *ask;
  if (status != BS_DONE) return reply;
  if (__atomic_load_n(&group->on_end, __ATOMIC_ACQUIRE) == NULL) return bs_call_null();
  own = group_named(group, txn);
  if (own == NULL) return group_only(BS_NO_SUCH_TXN);
  ask = own->ask;
  if (ask == NULL || ask->age != txn.age) return group_only(BS_NOT_WAITING);
  pthread_mutex_lock(&ask->latch);
  if (ask->has_ended) reply = ask->end;
  else if (!group_asks(own)) reply.status = BS_NOT_WAITING;
  else reply.status = ask->is_list && !ask->is_told ? BS_WAITING : BS_IN_USE;
  if (reply.status == BS_WAITING) group_ask_for_end(ask, until, word);
  pthread_mutex_unlock(&ask->latch);
  return reply;
}

/* Whether one time is before another. */
static bool group_is_before(const struct timespec *one, const struct timespec *other) {
  return one->tv_sec < other->tv_sec || (one->tv_sec == other->tv_sec && one->tv_nsec < other->tv_nsec);
}

/* The time that is so many nanoseconds from now, or the last one that there is. */
static struct timespec group_ahead(uint64_t nanoseconds) {
  uint64_t now = bs_call_now(), time = nanoseconds < INT64_MAX - now ? now + nanoseconds : INT64_MAX;
  struct timespec until;
  until.tv_sec = (time_t)(time / 1000000000u);
  until.tv_nsec = (long)(time % 1000000000u);
  return until;
}

/* How long nobody need look again for cycles over several tables, in nanoseconds. */
enum { GROUP_REST = 2000000 };

/* Looks for cycles over several tables, unless somebody did just now. No latch is held. */
static void group_look_again(bs_table_group *group) {
  if (__atomic_load_n(&group->looked, __ATOMIC_RELAXED) + GROUP_REST > bs_call_now()) return;
  if (group_count_spread(group) == 0) return;
  group_settle_all(group);
}

/* The table of turns; null if there is none yet. */
static bs_table *group_turns_of(bs_table_group *group) {
  bs_table *table;
  pthread_mutex_lock(&group->turns.latch);
  table = group->turns.table;
  pthread_mutex_unlock(&group->turns.latch);
  return table;
}

/* Ends the waits of a table whose time is over. How many wait to a time counts with that of other tables in `all`. */
static bs_status group_expire_in(bs_table *table, bs_reply *all, struct timespec *earliest) {
  struct timespec time;
  bs_reply one = bs_table_expire(table, &time);
  if (one.count != 0 && (all->count == 0 || group_is_before(&time, earliest))) *earliest = time;
  all->count += one.count;
  return one.status;
}

/* Whether what a list left waiting still waits, and its end was asked for up to a time, which is written into `limit`. */
static bool group_is_limited(group_ask *ask, struct timespec *limit) {
  bool is_limited;
  pthread_mutex_lock(&ask->latch);
  is_limited = ask->is_limited;
  if (is_limited) *limit = ask->limit;
  pthread_mutex_unlock(&ask->latch);
  return is_limited;
}

/* Ends such a wait, whose time is over by now; false if it is between two tables. With the latch of the table where it
 * waits it is looked at again: another wait of the slot may have come in its place. */
static bool group_end_late_list(bs_table_group *group, const group_slot *own, group_ask *ask, const struct timespec *now) {
  uint32_t number;
  for (number = 0; number <= group->parts; number++) {
    const group_table *t = &group->tables[number];
    struct timespec limit;
    bool has_ended;
    if (!bs_inside_enter(t->table)) return true;
    has_ended = !group_is_limited(ask, &limit) || group_is_before(now, &limit) ||
                bs_inside_end_sleep(t->table, own->number, BS_TIMED_OUT);
    bs_inside_release(t->table);
    if (has_ended) return true;
  }
  return false;
}

/* Ends all such waits whose time is over. How many others there are counts with those of tables in `all`. */
static void group_end_late_lists(bs_table_group *group, bs_reply *all, struct timespec *earliest) {
  struct timespec now = group_ahead(0), limit;
  uint32_t slot;
  for (slot = 0; slot < group->most; slot++) {
    const group_slot *own = group_slot_at(group, slot);
    group_ask *ask = __atomic_load_n(&own->ask, __ATOMIC_ACQUIRE);
    if (ask == NULL || !group_is_limited(ask, &limit)) continue;
    if (!group_is_before(&now, &limit) && group_end_late_list(group, own, ask, &now)) continue;
    if (all->count == 0 || group_is_before(&limit, earliest)) *earliest = limit;
    all->count++;
  }
}

bs_reply bs_group_expire(bs_table_group *group, struct timespec *next) {
  bs_reply all = group_only(group_shut(group));
  bs_table *turns = all.status == BS_DONE ? group_turns_of(group) : NULL;
  struct timespec earliest;
  uint32_t number;
  for (number = 0; all.status == BS_DONE && number <= group->parts; number++) {
    all.status = group_expire_in(group->tables[number].table, &all, &earliest);
  }
  if (all.status == BS_DONE && turns != NULL) all.status = group_expire_in(turns, &all, &earliest);
  if (all.status != BS_DONE) return group_only(all.status);
  group_end_late_lists(group, &all, &earliest);
  group_look_again(group);
  if (all.count != 0 && next != NULL) *next = earliest;
  return all;
}

bs_reply bs_group_deadline(bs_table_group *group, bs_txn txn, const struct timespec *until) {
  bs_status status = group != NULL && !bs_inside_is_time(until) ? BS_BAD_NUMBER : group_shut(group);
  group_slot *own;
  group_table *main;
  uint64_t left;
  status = group_finds_if(group, status, txn, &own);
  if (status != BS_DONE) return group_only(status);
  main = &group->tables[0];
  if (!bs_inside_enter(main->table)) return group_only(BS_NO_MANAGER);
  own->has_deadline = until != NULL;
  if (until != NULL) own->deadline = *until;
  if (__atomic_load_n(&own->is_in_main, __ATOMIC_RELAXED)) {
    group_limit(own, main, bs_living(main->manager, own->number).txn);
  }
  bs_inside_release(main->table);
  for (left = own->used; left != 0; left &= left - 1) {
    const group_table *t = &group->tables[__builtin_ctzll(left)];
    if (!bs_inside_enter(t->table)) return group_only(BS_NO_MANAGER);
    group_limit(own, t, own->in[t->number]);
    bs_inside_release(t->table);
  }
  return group_only(BS_DONE);
}

/* ------------------------------------------------------------------------------------------------
 * Lists.
 */

/* A command that requests, tries or releases locks, or ends its transaction. */
static bs_reply group_lock_made(bs_table_group *group, const bs_command *c, bs_txn txn) {
  switch (c->kind) {
    case BS_DO_LOCK: case BS_DO_LOCK_PATH: case BS_DO_LOCK_ROW: case BS_DO_LOCK_ROW_PATH:
      return group_ask_for(group, txn, c, NULL, NULL, true);
    case BS_DO_TRY: return bs_group_try_path(group, txn, c->node, c->mode, BS_KEEP_NOTHING);
    case BS_DO_TRY_PATH: return bs_group_try_path(group, txn, c->node, c->mode, c->keep);
    case BS_DO_TRY_ROW:
      return bs_group_try_row_path(group, txn, c->file, c->number, c->keys, c->key_count, c->mode, BS_KEEP_NOTHING);
    case BS_DO_TRY_ROW_PATH:
      return bs_group_try_row_path(group, txn, c->file, c->number, c->keys, c->key_count, c->mode, c->keep);
    case BS_DO_UNLOCK: return bs_group_unlock(group, txn, c->node);
    case BS_DO_UNLOCK_ROW: return bs_group_unlock_row(group, txn, c->file, c->number);
    case BS_DO_ESCALATE: return bs_group_escalate(group, txn, c->node);
    case BS_DO_CANCEL: return bs_group_cancel(group, txn);
    case BS_DO_SETTLE: return bs_group_settle(group, txn);
    case BS_DO_COMMIT: return bs_group_commit(group, txn);
    case BS_DO_ABORT: return bs_group_abort(group, txn);
    case BS_DO_RENEW: return bs_group_renew(group, txn, c->number);
    case BS_DO_MARK: return bs_inside_mark(group, txn);
    case BS_DO_RELEASE_SINCE: return bs_inside_release_to(group, txn, c->number);
    case BS_DO_BEGIN: return bs_group_begin(group);
    case BS_DO_BEGIN_AGAIN: return bs_group_begin_again(group, c->number);
    default: return group_only(BS_BAD_NUMBER);
  }
}

/* Any command that a group has. */
static bs_reply group_made(bs_table_group *group, const bs_command *c, bs_txn txn) {
  switch (c->kind) {
    case BS_DO_INSERT: case BS_DO_INSERT_PATH: return bs_group_insert(group, txn, c->file, c->keys, c->key_count);
    case BS_DO_DELETE: return bs_group_delete(group, txn, c->node);
    case BS_DO_ADOPT: return bs_group_adopt(group, c->file, c->keys, c->key_count);
    case BS_DO_FORGET: return bs_group_forget(group, c->node);
    case BS_DO_REKEY: return bs_group_rekey(group, txn, c->node, c->index, c->key);
    case BS_DO_REKEY_ROW: return bs_group_rekey_row(group, txn, c->file, c->number, c->index, c->key);
    case BS_DO_MOVE: return bs_group_move(group, txn, c->node, c->parents, c->parent_count);
    case BS_DO_DROP: return bs_group_drop(group, txn, c->node);
    case BS_DO_SPLIT: return bs_group_split(group, txn, c->node, c->key);
    case BS_DO_MERGE: return bs_group_merge(group, txn, c->node);
    case BS_DO_ADD_INNER: return bs_group_add_inner(group, c->parents, c->parent_count);
    case BS_DO_ADD_FILE: return bs_group_add_file(group, 0, c->parents, c->parent_count);
    case BS_DO_ADD_ROW_FILE: return bs_group_add_row_file(group, 0, c->parents, c->parent_count);
    case BS_DO_ADD_INDEX:
      return bs_group_add_index(group, c->parents, c->parent_count, c->file, c->bounds, c->bound_count);
    case BS_DO_INDEX_BY:
      return bs_group_index_by(group, txn, c->parents, c->parent_count, c->file, c->bounds, c->bound_count);
    default: return group_lock_made(group, c, txn);
  }
}

/* Empties the list of notices of a command. */
static inline void group_tell_nobody(const bs_command *c) {
  if (c->told != NULL) c->told->count = 0;
}

/* Makes the command at this place of a list, after the nodes of earlier ones were named, and writes its reply. */
static bs_status group_run_next(bs_table_group *group, bs_command *commands, size_t place, bs_txn begun) {
  bs_node parents[BS_MOST_PARENTS];
  bs_command named = bs_inside_named(commands, place, parents);
  group_tell_nobody(&named);
  commands[place].reply = group_made(group, &named, bs_inside_is_own(&named) ? begun : named.txn);
  return commands[place].reply.status;
}

size_t bs_group_run(bs_table_group *group, bs_command *commands, size_t count) {
  bs_txn begun = bs_begun();
  size_t done = 0;
  if (commands == NULL) return 0;
  while (done < count && group_run_next(group, commands, done, begun) == BS_DONE) {
    if (bs_inside_begins(commands[done].kind)) begun = commands[done].reply.txn;
    done++;
  }
  if (done < count) bs_inside_not_made(commands + done + 1, count - done - 1);
  return done;
}

/* Makes the next try of a list. What is no try is refused. */
static bs_status group_try_next(bs_table_group *group, bs_command *next) {
  group_tell_nobody(next);
  next->reply = bs_inside_is_try(next->kind) ? group_lock_made(group, next, next->txn) : group_only(BS_BAD_NUMBER);
  return next->reply.status;
}

size_t bs_group_try_first(bs_table_group *group, bs_command *commands, size_t count) {
  size_t place;
  if (commands == NULL) return count;
  for (place = 0; place < count && bs_inside_is_passed(group_try_next(group, &commands[place])); place++) continue;
  if (place < count) bs_inside_not_made(commands + place + 1, count - place - 1);
  return place;
}

/* Sleeps until a list's request has ended, with the ask's latch held before and after, or until this time; looks for
 * cycles meanwhile. Whether it has ended. */
static bool group_doze(group_ask *ask, const struct timespec *until) {
  uint64_t pause = GROUP_REST;
  while (!ask->has_ended) {
    struct timespec look = group_ahead(pause);
    bool is_last = until != NULL && group_is_before(until, &look);
    int late = pthread_cond_timedwait(&ask->ended, &ask->latch, is_last ? until : &look);
    if (late != ETIMEDOUT || ask->has_ended) continue;
    if (is_last) return false;
    pthread_mutex_unlock(&ask->latch);
    group_look_again(ask->group);
    pthread_mutex_lock(&ask->latch);
    if (pause < 128 * (uint64_t)GROUP_REST) pause *= 2;
  }
  return true;
}

/* Sleeps until a list's request has ended. If the time is over, its wait is cancelled. */
static bs_reply group_await_end(group_ask *ask, const struct timespec *until) {
  bool in_time;
  bs_reply end;
  int state;
  pthread_setcancelstate(PTHREAD_CANCEL_DISABLE, &state);
  pthread_mutex_lock(&ask->latch);
  in_time = group_doze(ask, until);
  if (!in_time) {
    pthread_mutex_unlock(&ask->latch);
    group_cancel_wait(ask->group, ask->own, ask->age);
    pthread_mutex_lock(&ask->latch);
    group_doze(ask, NULL);
  }
  end = ask->end;
  pthread_mutex_unlock(&ask->latch);
  pthread_setcancelstate(state, &state);
  if (!in_time && end.status == BS_NOT_WAITING) end.status = BS_TIMED_OUT;
  return end;
}

bs_reply bs_group_await(bs_table_group *group, bs_txn txn, const struct timespec *until) {
  bs_status status = group != NULL && !bs_inside_is_time(until) ? BS_BAD_NUMBER : group_shut_to_sleep(group);
  group_slot *own;
  bool waits, is_limited;
  if (status != BS_DONE) return group_only(status);
  own = group_named(group, txn);
  if (own == NULL) return group_only(BS_NO_SUCH_TXN);
  if (own->ask == NULL || !own->ask->is_list || own->ask->age != txn.age) return group_only(BS_NOT_WAITING);
  waits = group_asks(own);
  if (!waits && !own->ask->has_ended) return group_only(BS_NOT_WAITING);
  if (waits && own->ask->is_told) return group_only(BS_IN_USE);
  is_limited = own->has_deadline && (until == NULL || group_is_before(&own->deadline, until));
  return group_await_end(own->ask, is_limited ? &own->deadline : until);
}

bs_reply bs_inside_open(const bs_table_group *group) {
  return group_only(group_shut(group));
}

bs_reply bs_inside_lives(bs_table_group *group, bs_txn txn) {
  bs_status shut = group_shut(group);
  if (shut != BS_DONE) return group_only(shut);
  return group_only(group_named(group, txn) == NULL ? BS_NO_SUCH_TXN : BS_DONE);
}

bs_table *bs_inside_table_of(bs_table_group *group, uint32_t number) {
  return number <= group->parts ? group->tables[number].table : NULL;
}

void bs_inside_count_txns(const bs_table_group *group, uint64_t *living, uint64_t *queued) {
  uint32_t slot;
  *living = 0;
  for (slot = 0; slot < group->most; slot++) {
    *living += __atomic_load_n(&group_slot_at(group, slot)->age, __ATOMIC_RELAXED) != 0;
  }
  *queued = __atomic_load_n(&group->queued, __ATOMIC_RELAXED);
}

/* ------------------------------------------------------------------------------------------------
 * Savepoints by a number, and sessions.
 */

/* The words of a savepoint: how many locks there are in all, and then in each table by number. */
static inline size_t group_savepoint_words(const bs_table_group *group) {
  return group->parts + 2;
}

static inline uint64_t *group_savepoint_at(const bs_table_group *group, const group_slot *own, size_t place) {
  return own->savepoints + place * group_savepoint_words(group);
}

/* A place for one savepoint more, after those with fewer locks; null if memory is refused. Those with as many are the
 * same as the new one, or, as those with more, are older than an unlock of what they had. */
static uint64_t *group_new_savepoint(const bs_table_group *group, group_slot *own, uint64_t locks) {
  uint32_t room = own->savepoint_room == 0 ? 4 : 2 * own->savepoint_room;
  while (own->savepoint_count > 0 && group_savepoint_at(group, own, own->savepoint_count - 1)[0] >= locks) {
    own->savepoint_count--;
  }
  if (own->savepoint_count == own->savepoint_room) {
    size_t size = room * group_savepoint_words(group) * sizeof(uint64_t);
    uint64_t *more = (uint64_t *)realloc(own->savepoints, size);
    if (more == NULL) return NULL;
    own->savepoints = more;
    own->savepoint_room = room;
  }
  return group_savepoint_at(group, own, own->savepoint_count++);
}

bs_reply bs_inside_mark(bs_table_group *group, bs_txn txn) {
  bs_group_savepoint savepoint;
  bs_reply reply = bs_group_mark(group, txn, &savepoint);
  uint64_t *place;
  uint32_t number;
  if (reply.status != BS_DONE) return reply;
  for (number = 0; number <= group->parts; number++) reply.count += savepoint.at[number];
  if (reply.count == 0) return reply;
  place = group_new_savepoint(group, group_named(group, txn), reply.count);
  if (place == NULL) return group_only(BS_NO_MEMORY);
  place[0] = reply.count;
  memcpy(place + 1, savepoint.at, (group->parts + 1) * sizeof savepoint.at[0]);
  return reply;
}

bs_reply bs_inside_release_to(bs_table_group *group, bs_txn txn, uint64_t locks) {
  bs_group_savepoint savepoint;
  group_slot *own;
  bs_status status = group_finds(group, txn, &own);
  uint32_t place = 0;
  if (status != BS_DONE) return group_only(status);
  memset(&savepoint, 0, sizeof savepoint);
  if (locks == 0) return bs_group_release_since(group, txn, &savepoint);
  while (place < own->savepoint_count && group_savepoint_at(group, own, place)[0] < locks) place++;
  if (place == own->savepoint_count) return group_only(BS_DONE);
  memcpy(savepoint.at, group_savepoint_at(group, own, place) + 1, (group->parts + 1) * sizeof savepoint.at[0]);
  return bs_group_release_since(group, txn, &savepoint);
}

/* A session has no transaction. What the one of this name has kept rests for its slot. */
static void group_session_has_none(bs_session *session, bs_txn rests) {
  session->txn = group_only(BS_DONE).txn;
  session->rests = rests;
}

/* Begins a session's transaction so. */
static bs_reply group_session_has(bs_session *session, bs_reply begun) {
  if (begun.status == BS_DONE) session->txn = begun.txn;
  return begun;
}

bs_reply bs_inside_session_begin(bs_session *session, uint64_t since, const struct timespec *until) {
  bs_table_group *group = bs_table_group_of(session->table);
  if (group_named(group, session->txn) != NULL) return group_only(BS_IN_USE);
  return group_session_has(session, bs_group_begin_again_in_turn(group, since, until));
}

bs_reply bs_inside_session_commit(bs_session *session) {
  bs_table_group *group = bs_table_group_of(session->table);
  bs_reply reply;
  if (__atomic_load_n(&group->most_kept, __ATOMIC_RELAXED) < session->most) bs_group_keep(group, session->most);
  reply = bs_group_commit(group, session->txn);
  if (reply.status == BS_DONE) group_session_has_none(session, session->txn);
  return reply;
}

/* Ends what rests for a slot, whoever has it by now: others may do so at any time. */
static void group_end_rests(bs_table_group *group, uint32_t slot) {
  uint32_t part;
  for (part = 1; part <= group->parts; part++) {
    const group_table *t = &group->tables[part];
    if (!bs_inside_enter(t->table)) return;
    if (bs_has(bs_call_resting(t->manager).slots, slot)) {
      bs_txn rests = bs_living(t->manager, slot).txn;
      if (bs_call_wake(t->manager, rests).status == BS_DONE) bs_inside_commit(t->table, rests);
    }
    bs_inside_release(t->table);
  }
}

bs_reply bs_inside_session_end(bs_session *session) {
  bs_table_group *group = bs_table_group_of(session->table);
  bs_status shut = group_shut(group);
  if (shut != BS_DONE) return group_only(shut);
  if (group_named(group, session->txn) != NULL) return group_only(BS_IN_USE);
  if (session->rests.age != 0) group_end_rests(group, session->rests.slot);
  group_session_has_none(session, group_only(BS_DONE).txn);
  return group_only(BS_DONE);
}

size_t bs_inside_session_run(bs_session *session, bs_command *commands, size_t count) {
  bs_table_group *group = bs_table_group_of(session->table);
  bs_reply begun = group_only(BS_DONE);
  size_t done = 0;
  if (count == 0) return 0;
  if (group_named(group, session->txn) == NULL) begun = group_session_has(session, bs_group_begin(group));
  for (; begun.status == BS_DONE && done < count; done++) {
    bs_command *next = &commands[done];
    bool is_own = bs_inside_is_own(next);
    group_tell_nobody(next);
    if (is_own && next->kind == BS_DO_COMMIT) next->reply = bs_inside_session_commit(session);
    else group_run_next(group, commands, done, session->txn);
    if (next->reply.status != BS_DONE) break;
    if (is_own && next->kind == BS_DO_RENEW) session->txn = next->reply.txn;
  }
  if (begun.status != BS_DONE) {
    group_tell_nobody(commands);
    commands[0].reply = begun;
  }
  if (done < count) bs_inside_not_made(commands + done + 1, count - done - 1);
  return done;
}

/* ------------------------------------------------------------------------------------------------
 * Begins in turn.
 */

static void group_turn_ended(void *context, bs_txn txn, bs_reply end, void *word);

/* Makes the nodes of a table of turns, and has a transaction of its own lock the gate. */
static bs_reply group_fill_turns(bs_table_group *group, bs_table *made) {
  group_turns *turns = &group->turns;
  bs_reply reply = bs_table_add_inner(made, NULL, 0);
  turns->node = reply.node;
  if (reply.status == BS_DONE) reply = bs_table_add_inner(made, NULL, 0);
  turns->gate = reply.node;
  if (reply.status == BS_DONE) reply = bs_table_begin(made);
  if (reply.status == BS_DONE) reply = bs_table_try(made, reply.txn, turns->gate, BS_X);
  if (reply.status == BS_DONE) reply = bs_table_on_end(made, group_turn_ended, group);
  return reply;
}

/* A table of turns; null if memory is refused. */
static bs_table *group_new_turns(bs_table_group *group) {
  bs_options options = bs_call_chosen(NULL, 0);
  bs_table *made = NULL;
  bs_reply reply = bs_table_make(&made, &options);
  if (reply.status != BS_DONE) return NULL;
  if (group_fill_turns(group, made).status == BS_DONE) return made;
  bs_table_end(made);
  bs_table_free(&made);
  return NULL;
}

/* Makes the table whose queue the begins are in, if it is not there. */
static bs_status group_make_turns(bs_table_group *group) {
  group_turns *turns = &group->turns;
  bs_status status;
  pthread_mutex_lock(&turns->latch);
  status = group_closed(group);
  if (status == BS_DONE && turns->table == NULL) {
    turns->table = group_new_turns(group);
    if (turns->table == NULL) status = BS_NO_MEMORY;
  }
  pthread_mutex_unlock(&turns->latch);
  return status;
}

/* Begins as soon as a slot is free: this thread is the next that has one. */
static bs_reply group_begin_as_next(bs_table_group *group, uint64_t since, const struct timespec *until) {
  group_turns *turns = &group->turns;
  bs_reply reply;
  int late = 0;
  pthread_mutex_lock(&turns->latch);
  for (;;) {
    reply = group_begin_now(group, since);
    if (reply.status != BS_TOO_MANY_TXNS) break;
    if (group_closed(group) != BS_DONE) reply.status = BS_NO_MANAGER;
    else if (late == ETIMEDOUT) reply.status = BS_TIMED_OUT;
    if (reply.status != BS_TOO_MANY_TXNS) break;
    late = until == NULL ? pthread_cond_wait(&turns->freed, &turns->latch)
                         : pthread_cond_timedwait(&turns->freed, &turns->latch, until);
  }
  pthread_mutex_unlock(&turns->latch);
  return reply;
}

/* Begins in its turn. */
static bs_reply group_begin_by_turn(bs_table_group *group, uint64_t since, const struct timespec *until) {
  group_turns *turns = &group->turns;
  bs_reply reply = group_only(group_make_turns(group));
  bs_txn turn;
  if (reply.status != BS_DONE) return reply;
  reply = bs_table_begin_in_turn(turns->table, until);
  if (reply.status != BS_DONE) return reply;
  turn = reply.txn;
  reply = bs_table_lock(turns->table, turn, turns->node, BS_X, until);
  if (reply.status == BS_DONE) reply = group_begin_as_next(group, since, until);
  bs_table_abort(turns->table, turn, NULL);
  return reply;
}

/* A begin has left the queue. */
static void group_leave_queue(bs_table_group *group) {
  __atomic_fetch_sub(&group->queued, 1, __ATOMIC_SEQ_CST);
  if (group_closed(group) != BS_DONE) group_wake_turn(group);
}

bs_reply bs_group_begin_again_in_turn(bs_table_group *group, uint64_t since, const struct timespec *until) {
  bs_status status = group != NULL && !bs_inside_is_time(until) ? BS_BAD_NUMBER : group_shut_to_sleep(group);
  bs_reply reply = group_only(status);
  int state;
  if (status != BS_DONE) return reply;
  if (__atomic_load_n(&group->queued, __ATOMIC_RELAXED) == 0) {
    reply = group_begin_now(group, since);
    if (reply.status != BS_TOO_MANY_TXNS) return reply;
  }
  pthread_setcancelstate(PTHREAD_CANCEL_DISABLE, &state);
  __atomic_fetch_add(&group->queued, 1, __ATOMIC_SEQ_CST);
  reply = group_begin_by_turn(group, since, until);
  group_leave_queue(group);
  pthread_setcancelstate(state, &state);
  return reply;
}

bs_reply bs_group_begin_in_turn(bs_table_group *group, const struct timespec *until) {
  return bs_group_begin_again_in_turn(group, UINT64_MAX, until);
}

/* Puts a begin that was asked for into the list, and takes it out. */
static void group_enlist_begin(group_turns *turns, group_asked_begin *begin) {
  pthread_mutex_lock(&turns->latch);
  begin->before = turns->last;
  if (turns->last == NULL) turns->first = begin;
  else turns->last->next = begin;
  turns->last = begin;
  pthread_mutex_unlock(&turns->latch);
}

static void group_delist_begin(group_turns *turns, group_asked_begin *begin) {
  if (begin->before == NULL) turns->first = begin->next;
  else begin->before->next = begin->next;
  if (begin->next == NULL) turns->last = begin->before;
  else begin->next->before = begin->before;
  turns->cancelled -= begin->is_cancelled;
  if (turns->at_gate.age == begin->turn.age) turns->at_gate.age = 0;
}

/* Cancels the wait of a cancelled begin, wherever it waits, with the latch of the list held. */
static void group_cut_begin(const group_turns *turns, const group_asked_begin *begin) {
  if (begin->turn.age == 0) bs_table_cancel_begin(turns->table, begin);
  else bs_table_cancel(turns->table, begin->turn, NULL);
}

/* Cancels the wait of the begin of this name, if it is in the list and cancelled. */
static void group_cut_if_cancelled(group_turns *turns, const void *name) {
  const group_asked_begin *begin = NULL;
  bs_inside_asks ends;
  bs_inside_keep_ends(&ends);
  pthread_mutex_lock(&turns->latch);
  if (turns->cancelled > 0) begin = turns->first;
  while (begin != NULL && (begin != name || !begin->is_cancelled)) begin = begin->next;
  if (begin != NULL) group_cut_begin(turns, begin);
  pthread_mutex_unlock(&turns->latch);
  bs_inside_tell_ends(&ends);
}

/* Whether a slot is free. */
static bool group_any_is_free(const bs_table_group *group) {
  uint32_t slot = 0;
  while (slot < group->most && __atomic_load_n(&group_slot_at(group, slot)->is_taken, __ATOMIC_SEQ_CST)) slot++;
  return slot < group->most;
}

/* After a begin, by this name, was left waiting: another thread may have ended it by now. What came between its last look
 * and its wait is done: a cancel, or the end of a transaction that freed a slot. */
static bs_reply group_begin_waits(bs_table_group *group, const void *name, bs_reply reply) {
  group_cut_if_cancelled(&group->turns, name);
  if (group_any_is_free(group)) group_wake_turn(group);
  return reply;
}

/* Tries to begin for the one that is the next, unless it is cancelled. */
static bs_reply group_begin_at_gate(bs_table_group *group, const group_asked_begin *begin) {
  group_turns *turns = &group->turns;
  bool is_cancelled;
  pthread_mutex_lock(&turns->latch);
  turns->at_gate = begin->turn;
  is_cancelled = begin->is_cancelled;
  pthread_mutex_unlock(&turns->latch);
  return is_cancelled ? group_only(BS_NOT_WAITING) : group_begin_now(group, begin->since);
}

static inline const struct timespec *group_time_of(const group_asked_begin *begin) {
  return begin->has_time ? &begin->until : NULL;
}

/* Begins for the one that is the next, or has it wait at the gate. */
static bs_reply group_begin_gated(bs_table_group *group, group_asked_begin *begin) {
  group_turns *turns = &group->turns;
  bs_reply reply;
  do {
    reply = group_begin_at_gate(group, begin);
    if (reply.status != BS_TOO_MANY_TXNS) return reply;
    reply = bs_table_ask(turns->table, begin->turn, turns->gate, BS_X, group_time_of(begin), begin);
  } while (reply.status == BS_MOVED);
  return reply.status == BS_WAITING ? group_begin_waits(group, begin, reply) : reply;
}

/* A begin has a transaction in the table of turns, and waits for its turn. */
static bs_reply group_begin_has(bs_table_group *group, group_asked_begin *begin, bs_txn turn) {
  group_turns *turns = &group->turns;
  bs_reply reply;
  pthread_mutex_lock(&turns->latch);
  begin->turn = turn;
  pthread_mutex_unlock(&turns->latch);
  reply = bs_table_ask(turns->table, turn, turns->node, BS_X, group_time_of(begin), begin);
  if (reply.status == BS_DONE) return group_begin_gated(group, begin);
  return reply.status == BS_WAITING ? group_begin_waits(group, begin, reply) : reply;
}

/* Ends a begin that was asked for, and has come to this. If it was cancelled, it ends so. */
static bs_reply group_end_begin(bs_table_group *group, group_asked_begin *begin, bs_reply end) {
  group_turns *turns = &group->turns;
  bs_txn turn = begin->turn;
  bool is_cancelled;
  pthread_mutex_lock(&turns->latch);
  is_cancelled = begin->is_cancelled;
  group_delist_begin(turns, begin);
  pthread_mutex_unlock(&turns->latch);
  free(begin);
  if (is_cancelled && end.status == BS_DONE) bs_group_abort(group, end.txn);
  if (is_cancelled) end = group_only(BS_NOT_WAITING);
  if (turn.age != 0) bs_table_abort(turns->table, turn, NULL);
  group_leave_queue(group);
  return end;
}

/* The callback of the table of turns: `word` is the begin. */
static void group_turn_ended(void *context, bs_txn txn, bs_reply end, void *word) {
  bs_table_group *group = (bs_table_group *)context;
  group_asked_begin *begin = (group_asked_begin *)word;
  void *own_word = begin->word;
  if (end.status == BS_DONE && begin->turn.age == 0) end = group_begin_has(group, begin, txn);
  else if (end.status == BS_DONE || end.status == BS_MOVED) end = group_begin_gated(group, begin);
  if (end.status == BS_WAITING) return;
  end = group_end_begin(group, begin, end);
  __atomic_load_n(&group->on_end, __ATOMIC_ACQUIRE)(group->context, end.txn, end, own_word);
}

/* A begin that is asked for; null if memory is refused. */
static group_asked_begin *group_new_begin(uint64_t since, const struct timespec *until, void *word) {
  group_asked_begin *begin = (group_asked_begin *)group_zero(sizeof *begin);
  if (begin == NULL) return NULL;
  begin->word = word;
  begin->since = since;
  begin->has_time = until != NULL;
  if (until != NULL) begin->until = *until;
  return begin;
}

/* Asks for a begin in its turn. */
static bs_reply group_ask_in_turn(bs_table_group *group, uint64_t since, const struct timespec *until, void *word) {
  group_asked_begin *begin = group_new_begin(since, until, word);
  bs_reply reply = group_only(begin == NULL ? BS_NO_MEMORY : group_make_turns(group));
  if (reply.status != BS_DONE) {
    free(begin);
    group_leave_queue(group);
    return reply;
  }
  group_enlist_begin(&group->turns, begin);
  reply = bs_table_ask_begin(group->turns.table, until, begin);
  if (reply.status == BS_DONE) reply = group_begin_has(group, begin, reply.txn);
  else if (reply.status == BS_WAITING) return group_begin_waits(group, begin, reply);
  return reply.status == BS_WAITING ? reply : group_end_begin(group, begin, reply);
}

bs_reply bs_group_ask_begin_again(bs_table_group *group, uint64_t since, const struct timespec *until, void *word) {
  bs_status status = group != NULL && !bs_inside_is_time(until) ? BS_BAD_NUMBER : group_shut(group);
  bs_reply reply = group_only(status);
  if (status != BS_DONE) return reply;
  if (__atomic_load_n(&group->on_end, __ATOMIC_ACQUIRE) == NULL) return bs_call_null();
  if (__atomic_load_n(&group->queued, __ATOMIC_RELAXED) == 0) {
    reply = group_begin_now(group, since);
    if (reply.status != BS_TOO_MANY_TXNS) return reply;
  }
  __atomic_fetch_add(&group->queued, 1, __ATOMIC_SEQ_CST);
  return group_ask_in_turn(group, since, until, word);
}

bs_reply bs_group_ask_begin(bs_table_group *group, const struct timespec *until, void *word) {
  return bs_group_ask_begin_again(group, UINT64_MAX, until, word);
}

bs_reply bs_group_cancel_begin(bs_table_group *group, const void *word) {
  bs_status shut = group_shut(group);
  group_asked_begin *begin;
  bs_inside_asks ends;
  if (shut != BS_DONE) return group_only(shut);
  bs_inside_keep_ends(&ends);
  pthread_mutex_lock(&group->turns.latch);
  begin = group->turns.first;
  while (begin != NULL && (begin->word != word || begin->is_cancelled)) begin = begin->next;
  if (begin != NULL) {
    begin->is_cancelled = true;
    group->turns.cancelled++;
    group_cut_begin(&group->turns, begin);
  }
  pthread_mutex_unlock(&group->turns.latch);
  bs_inside_tell_ends(&ends);
  return group_only(begin == NULL ? BS_NOT_WAITING : BS_DONE);
}

/* ------------------------------------------------------------------------------------------------
 * The thread that watches.
 */

static void *group_watch_over(void *place) {
  bs_table_group *group = (bs_table_group *)place;
  group_watch *watch = &group->watch;
  pthread_mutex_lock(&watch->latch);
  while (!watch->is_over) {
    struct timespec until = group_ahead(watch->pace);
    if (pthread_cond_timedwait(&watch->over, &watch->latch, &until) != ETIMEDOUT) continue;
    pthread_mutex_unlock(&watch->latch);
    if (group_count_spread(group) != 0) group_settle_all(group);
    pthread_mutex_lock(&watch->latch);
  }
  pthread_mutex_unlock(&watch->latch);
  return NULL;
}

bs_reply bs_group_watch_thread(bs_table_group *group, uint64_t pace) {
  bs_reply reply = group_only(group_shut(group));
  group_watch *watch;
  if (reply.status != BS_DONE) return reply;
  watch = &group->watch;
  pthread_mutex_lock(&watch->latch);
  if (watch->is_over) reply.status = BS_NO_MANAGER;
  else if (watch->is_there) reply.status = BS_IN_USE;
  if (reply.status == BS_DONE) {
    watch->pace = pace == 0 ? GROUP_REST : pace;
    watch->is_there = bs_call_start(&watch->thread, group_watch_over, group);
    if (!watch->is_there) reply.status = BS_NO_MEMORY;
  }
  pthread_mutex_unlock(&watch->latch);
  return reply;
}

/* ------------------------------------------------------------------------------------------------
 * Watchers: who waits for whom in all tables, without a latch.
 */

/* A watcher of a group: one of each table. It may be looked at after the group was freed. */
struct bs_watched {
  group_users *users;
  const unsigned char *slots; /* of the group, as long as it is a user */
  size_t stride;
  uint32_t most, count;       /* how many slots and tables there are */
  bs_board one;               /* that of a table, while it is joined with the others */
  bs_watcher in[];
};

/* Ends the watchers of tables that were made. */
static void group_end_eyes(struct bs_watched *eye) {
  while (eye->count > 0) bs_watch_end(&eye->in[--eye->count]);
}

/* Makes a watcher of each table. */
static bs_status group_open_eyes(bs_table_group *group, struct bs_watched *eye) {
  bs_status status = BS_DONE;
  while (eye->count <= group->parts && status == BS_DONE) {
    const group_table *t = &group->tables[eye->count];
    if (!bs_inside_enter(t->table)) return BS_NO_MANAGER;
    status = bs_watch(t->manager, &eye->in[eye->count]).status;
    bs_inside_release(t->table);
    if (status == BS_DONE) eye->count++;
  }
  return status;
}

/* A watcher uses the slots of its group from now on. */
static void group_share_slots(bs_table_group *group, struct bs_watched *eye) {
  __atomic_fetch_add(&group->users->count, 1, __ATOMIC_RELAXED);
  eye->users = group->users;
  eye->slots = group->slots;
  eye->stride = group->stride;
  eye->most = group->most;
}

bs_reply bs_call_group_watch(bs_table_group *group, bs_watcher *watcher) {
  bs_status status = group_shut(group);
  struct bs_watched *eye;
  if (status == BS_DONE && watcher->is_open) status = BS_IN_USE;
  if (status != BS_DONE) return group_only(status);
  eye = (struct bs_watched *)group_zero(sizeof *eye + (group->parts + 1) * sizeof eye->in[0]);
  if (eye == NULL) return group_only(BS_NO_MEMORY);
  status = group_open_eyes(group, eye);
  if (status != BS_DONE) {
    group_end_eyes(eye);
    free(eye);
    return group_only(status);
  }
  group_share_slots(group, eye);
  watcher->is_open = true;
  watcher->parts = eye;
  return group_only(BS_DONE);
}

/* The age by which the transaction in a slot is named in the group; 0 if there is none. */
static uint64_t group_age_in(const struct bs_watched *eye, uint32_t slot) {
  const group_slot *own = (const group_slot *)(const void *)(eye->slots + slot * eye->stride);
  return __atomic_load_n(&own->age, __ATOMIC_RELAXED);
}

/* Takes a transaction off a board that has ended meanwhile: it waits for nobody, and nobody for it. */
static void group_take_off(bs_board *board, uint32_t slot) {
  static const bs_slots none = { { 0 } };
  uint32_t other;
  board->rows[slot] = none;
  for (other = 0; other < BS_SLOTS; other++) board->rows[other].words[slot / 64] &= ~((uint64_t)1 << slot % 64);
}

/* Names the transactions on a board as the group does. */
static void group_name_waiters(const struct bs_watched *eye, bs_board *board) {
  uint32_t slot;
  for (slot = 0; slot < eye->most; slot++) {
    bool was_there = board->ages[slot] != 0;
    board->ages[slot] = group_age_in(eye, slot);
    if (was_there && board->ages[slot] == 0) group_take_off(board, slot);
  }
}

/* Adds the board of a table to that of those before it. */
static void group_join_board(bs_board *all, const bs_board *one) {
  uint32_t slot;
  all->epoch = group_sum(all->epoch, one->epoch);
  for (slot = 0; slot < BS_SLOTS; slot++) all->ages[slot] |= one->ages[slot];
  bs_join_board(all, one);
}

bs_reply bs_call_group_look(bs_watcher *watcher, bs_board *board) {
  struct bs_watched *eye = watcher->parts;
  uint32_t table;
  memset(board, 0, sizeof *board);
  for (table = 0; table < eye->count; table++) {
    bs_look(&eye->in[table], &eye->one);
    group_join_board(board, &eye->one);
  }
  group_name_waiters(eye, board);
  return group_only(BS_DONE);
}

bs_reply bs_call_group_watch_end(bs_watcher *watcher) {
  struct bs_watched *eye = watcher->parts;
  group_end_eyes(eye);
  group_leave_slots(eye->users);
  free(eye);
  watcher->is_open = false;
  watcher->parts = NULL;
  return group_only(BS_DONE);
}
