/*
 * burlapslate_dump.c: what burlapslate_dump.h declares.
 */
#include "burlapslate_dump.h"
#include "burlapslate_inside.h"

#include <pthread.h>
#include <stdlib.h>

enum { DUMP_PART = 256, DUMP_NAME = 80 };

/* A transaction in a dump; the node and the transactions that it waits for. */
typedef struct dump_txn {
  bs_txn txn;
  bs_reply doing;
  uint64_t kind; /* of the node that it waits for; 0: it is gone */
  bs_slots waits_for;
  bool is_timed;   /* it waits since then, and is not written yet */
  uint64_t since;
} dump_txn;

/* What is dumped: a manager that the caller holds, or that of a table. */
typedef struct dump_source {
  const bs_manager *manager; /* null if it is a table's */
  bs_table *table;
  bs_call_namer namer;       /* the engine's own names of nodes */
  bs_table_group *group;     /* null, or the table is that of a group by this number, and the names are of its nodes */
  uint32_t number;
} dump_source;

/* What a dump has copied, a part at a time; the latch of a table is held for each part. */
typedef struct dump_copy {
  dump_source of;
  bs_counts counts; /* these are of one moment, with the last deadlock */
  uint64_t nodes, most;
  size_t txn_count;
  dump_txn txns[BS_SLOTS];
  bool has_times;   /* it is a table's, which times waits */
  uint64_t now;
  bool has_deadlock;
  bs_deadlock last;
  uint64_t last_kinds[BS_SLOTS];
  size_t lock_count; /* some locks of a transaction */
  bs_reply locks[DUMP_PART];
  uint64_t lock_kinds[DUMP_PART];
  bs_slots holders; /* the holders of a node, their modes, and its queue */
  bs_mode held[BS_SLOTS];
  size_t waiter_count;
  bs_reply waiters[BS_SLOTS];
} dump_copy;

/* The manager, for a part; null if the table was ended. */
static const bs_manager *dump_hold(dump_copy *copy) {
  return copy->of.manager != NULL ? copy->of.manager : bs_table_hold(copy->of.table);
}

static void dump_let_go(dump_copy *copy) {
  if (copy->of.manager == NULL) bs_table_let_go(copy->of.table);
}

/* What a node is; 0: it is gone. */
static uint64_t dump_kind_or_gone(const bs_manager *m, bs_node node) {
  bs_reply kind = bs_kind(m, node);
  return kind.status == BS_DONE ? kind.count : 0;
}

static void dump_copy_txns(const bs_manager *m, dump_copy *copy) {
  uint32_t slot;
  copy->txn_count = 0;
  for (slot = 0; slot < BS_SLOTS; slot++) {
    bs_reply living = bs_living(m, slot);
    dump_txn *to = &copy->txns[copy->txn_count];
    if (living.status != BS_DONE) continue;
    to->txn = living.txn;
    to->doing = bs_doing(m, to->txn);
    to->kind = dump_kind_or_gone(m, to->doing.node);
    to->waits_for = bs_waits_for(m, to->txn).slots;
    copy->txn_count++;
  }
}

/* Since when they wait. A manager that is no table's knows no time. */
static void dump_copy_times(const bs_manager *m, dump_copy *copy) {
  const bs_running *running = bs_call_running(m);
  size_t i;
  copy->has_times = running != NULL;
  if (!copy->has_times) return;
  copy->now = bs_call_now();
  for (i = 0; i < copy->txn_count; i++) {
    dump_txn *to = &copy->txns[i];
    to->is_timed = bs_call_waits_since(running, to->txn.slot, &to->since);
  }
}

/* The part that is of one moment. */
static void dump_copy_first(const bs_manager *m, dump_copy *copy) {
  bs_options limits = { 0, 0, 0, 0, 0, 0 };
  size_t i;
  bs_counters(m, &copy->counts);
  copy->nodes = bs_len(m).count;
  bs_limits(m, &limits);
  copy->most = limits.transactions;
  dump_copy_txns(m, copy);
  dump_copy_times(m, copy);
  copy->has_deadlock = bs_last_deadlock(m, &copy->last).status == BS_DONE;
  if (!copy->has_deadlock) return;
  for (i = 0; i < copy->last.count; i++) copy->last_kinds[i] = dump_kind_or_gone(m, copy->last.at[i].node);
}

/* Some locks of a transaction, from a place on. */
static void dump_copy_locks(const bs_manager *m, bs_txn txn, size_t place, dump_copy *copy) {
  size_t i;
  for (i = 0; i < DUMP_PART; i++) {
    copy->locks[i] = bs_lock_at(m, txn, place + i);
    if (copy->locks[i].status != BS_DONE) break;
    copy->lock_kinds[i] = dump_kind_or_gone(m, copy->locks[i].node);
  }
  copy->lock_count = i;
}

/* The queue in which a transaction is the first; none if it waits in none, or after others. */
static void dump_copy_queue(const bs_manager *m, dump_txn *of, dump_copy *copy) {
  uint32_t slot;
  copy->waiter_count = 0;
  of->doing = bs_doing(m, of->txn);
  if (of->doing.status != BS_DONE || of->doing.count != BS_WAITS) return;
  if (bs_queue_at(m, of->doing.node, 0).txn.slot != of->txn.slot) return;
  of->kind = dump_kind_or_gone(m, of->doing.node);
  copy->holders = bs_holders(m, of->doing.node).slots;
  for (slot = 0; slot < BS_SLOTS; slot++) copy->held[slot] = bs_held(m, bs_living(m, slot).txn, of->doing.node).mode;
  while (copy->waiter_count < BS_SLOTS) {
    bs_reply waiter = bs_queue_at(m, of->doing.node, copy->waiter_count);
    if (waiter.status != BS_DONE) break;
    copy->waiters[copy->waiter_count++] = waiter;
  }
}

/* The engine's own name of a node, after a blank. */
static void dump_put_name(const dump_source *of, bs_node node, FILE *out) {
  char text[DUMP_NAME];
  size_t i;
  if (of->group != NULL) node = bs_group_name_of(of->group, node, of->number).node;
  text[0] = 0;
  of->namer.function(of->namer.context, node, text, sizeof text);
  text[sizeof text - 1] = 0;
  if (text[0] != 0) fputc(' ', out);
  for (i = 0; text[i] != 0; i++) fputc((unsigned char)text[i] < ' ' ? '?' : text[i], out);
}

/* A node: what it is, and its name, as KEY/BIRTH. */
static void dump_put_node(const dump_copy *copy, bs_node node, uint64_t kind, FILE *out) {
  fprintf(out, "%s %llu/%llu", kind == 0 ? "gone" : bs_kind_text(kind), (unsigned long long)node.key,
          (unsigned long long)node.birth);
  if (copy->of.namer.function != NULL) dump_put_name(&copy->of, node, out);
}

static void dump_put_slots(bs_slots slots, FILE *out) {
  uint32_t slot;
  for (slot = 0; slot < BS_SLOTS; slot++) {
    if (bs_has(slots, slot)) fprintf(out, " %lu", (unsigned long)slot);
  }
}

static void dump_put_count(uint64_t count, const char *what, FILE *out) {
  fprintf(out, "%-12llu %s\n", (unsigned long long)count, what);
}

static void dump_put_counters(const dump_copy *copy, FILE *out) {
  const bs_counts *counts = &copy->counts;
  fprintf(out, "Counters, since the table was made:\n");
  dump_put_count(counts->accepted, "commands were accepted", out);
  dump_put_count(counts->granted, "locks were granted at once", out);
  dump_put_count(counts->waited, "locks were left waiting", out);
  dump_put_count(counts->conversions, "locks were of a node that was held already", out);
  dump_put_count(counts->granted_later, "waits ended with a grant", out);
  dump_put_count(counts->condemned, "transactions were condemned to end a deadlock", out);
  dump_put_count(counts->moved, "waits ended since the node moved", out);
  dump_put_count(counts->gone, "waits ended since the node was gone", out);
  dump_put_count(counts->escalations, "escalations were done", out);
  dump_put_count(counts->released_children, "locks were released by them", out);
  dump_put_count(counts->most_waiting, "transactions waited at once, at most", out);
  dump_put_count(counts->longest_queue, "waited for one node at once, at most", out);
  dump_put_count(counts->passed, "locks were raised while somebody waited for their node", out);
  dump_put_count(copy->nodes, "nodes live", out);
  dump_put_count(copy->most, "transactions may live at once", out);
}

/* The name of what a transaction does, of enum bs_doings. */
static const char *dump_doing_text(uint64_t doing) {
  static const char *const texts[] = { "?", "active", "waits", "condemned" };
  return doing <= BS_CONDEMNED ? texts[doing] : "?";
}

static void dump_put_txn(const dump_txn *of, const dump_copy *copy, FILE *out) {
  fprintf(out, "%4u %12llu %s", (unsigned)of->txn.slot, (unsigned long long)of->txn.age,
          dump_doing_text(of->doing.count));
  if (of->doing.count == BS_WAITS) {
    fprintf(out, "     %-4s ", bs_mode_text(of->doing.mode));
    dump_put_node(copy, of->doing.node, of->kind, out);
    fprintf(out, ", behind");
    dump_put_slots(of->waits_for, out);
  }
  fprintf(out, "\n");
}

/* The wait that began first of those that are not written yet; null if there is none. */
static dump_txn *dump_next_wait(dump_copy *copy) {
  dump_txn *first = NULL;
  size_t i;
  for (i = 0; i < copy->txn_count; i++) {
    dump_txn *next = &copy->txns[i];
    if (next->is_timed && (first == NULL || next->since < first->since)) first = next;
  }
  return first;
}

static void dump_put_waits(dump_copy *copy, FILE *out) {
  dump_txn *next = dump_next_wait(copy);
  fprintf(out, "\nWaits, the longest first:\n     seconds slot          age wants node\n");
  for (; next != NULL; next = dump_next_wait(copy)) {
    uint64_t microseconds = copy->now > next->since ? (copy->now - next->since) / 1000 : 0;
    next->is_timed = false;
    fprintf(out, "%5llu.%06llu %4u %12llu %-5s ", (unsigned long long)(microseconds / 1000000),
            (unsigned long long)(microseconds % 1000000), (unsigned)next->txn.slot, (unsigned long long)next->txn.age,
            bs_mode_text(next->doing.mode));
    dump_put_node(copy, next->doing.node, next->kind, out);
    fprintf(out, "\n");
  }
}

/* Locks of a transaction: what it holds, and in the next column what it waits for. */
static void dump_put_some_locks(bs_txn txn, const dump_copy *copy, FILE *out) {
  size_t i;
  for (i = 0; i < copy->lock_count; i++) {
    const bs_reply *lock = &copy->locks[i];
    fprintf(out, "%4u %12llu %-4s %-5s %8llu ", (unsigned)txn.slot, (unsigned long long)txn.age,
            bs_mode_text(lock->mode), lock->wanted == BS_NL ? "-" : bs_mode_text(lock->wanted),
            (unsigned long long)lock->count);
    dump_put_node(copy, lock->node, copy->lock_kinds[i], out);
    fprintf(out, "\n");
  }
}

/* A queue: the holders of its node, and its waiters. */
static void dump_put_one_queue(const dump_txn *first, const dump_copy *copy, FILE *out) {
  uint32_t slot;
  size_t place;
  if (copy->waiter_count == 0) return;
  dump_put_node(copy, first->doing.node, first->kind, out);
  fprintf(out, "\n");
  for (slot = 0; slot < BS_SLOTS; slot++) {
    if (!bs_has(copy->holders, slot)) continue;
    fprintf(out, "    held %9lu %s\n", (unsigned long)slot, bs_mode_text(copy->held[slot]));
  }
  for (place = 0; place < copy->waiter_count; place++) {
    const bs_reply *waiter = &copy->waiters[place];
    fprintf(out, "%8lu. %8u %s\n", (unsigned long)place + 1, (unsigned)waiter->txn.slot, bs_mode_text(waiter->mode));
  }
}

static void dump_put_deadlock(const dump_copy *copy, FILE *out) {
  const bs_deadlock *last = &copy->last;
  size_t i;
  fprintf(out, "\nLast deadlock:\n");
  if (!copy->has_deadlock) {
    fprintf(out, "none\n");
    return;
  }
  fprintf(out, "victim: slot %u, age %llu\nslot          age wants waits for\n", (unsigned)last->victim.slot,
          (unsigned long long)last->victim.age);
  for (i = 0; i < last->count; i++) {
    fprintf(out, "%4u %12llu %-5s ", (unsigned)last->at[i].txn.slot, (unsigned long long)last->at[i].txn.age,
            bs_mode_text(last->at[i].mode));
    dump_put_node(copy, last->at[i].node, copy->last_kinds[i], out);
    fprintf(out, ", behind");
    dump_put_slots(last->at[i].waits_for, out);
    fprintf(out, "\n");
  }
}

/* The locks of a transaction, a part at a time. False: the table was ended. */
static bool dump_locks(bs_txn txn, dump_copy *copy, FILE *out) {
  size_t place = 0;
  do {
    const bs_manager *m = dump_hold(copy);
    if (m == NULL) return false;
    dump_copy_locks(m, txn, place, copy);
    dump_let_go(copy);
    dump_put_some_locks(txn, copy, out);
    place += copy->lock_count;
  } while (copy->lock_count == DUMP_PART);
  return true;
}

static bool dump_queue(dump_txn *first, dump_copy *copy, FILE *out) {
  const bs_manager *m = dump_hold(copy);
  if (m == NULL) return false;
  dump_copy_queue(m, first, copy);
  dump_let_go(copy);
  dump_put_one_queue(first, copy, out);
  return true;
}

/* Copies each part, and then writes it. False: the table was ended. */
static bool dump_parts(dump_copy *copy, FILE *out) {
  const bs_manager *m = dump_hold(copy);
  size_t i;
  if (m == NULL) return false;
  dump_copy_first(m, copy);
  dump_let_go(copy);
  dump_put_counters(copy, out);
  fprintf(out, "\nTransactions:\nslot          age doing     waits for\n");
  for (i = 0; i < copy->txn_count; i++) dump_put_txn(&copy->txns[i], copy, out);
  if (copy->has_times) dump_put_waits(copy, out);
  fprintf(out, "\nLocks by transaction:\nslot          age mode wants children node\n");
  for (i = 0; i < copy->txn_count; i++) {
    if (!dump_locks(copy->txns[i].txn, copy, out)) return false;
  }
  fprintf(out, "\nQueues:\n   place     slot mode\n");
  for (i = 0; i < copy->txn_count; i++) {
    if (!dump_queue(&copy->txns[i], copy, out)) return false;
  }
  dump_put_deadlock(copy, out);
  return true;
}

/* Holds off the thread's cancellation: to write may be a point of it, which would keep the copy and a lent latch. */
static bs_reply dump_of(const dump_source *of, FILE *out) {
  dump_copy *copy = (dump_copy *)malloc(sizeof *copy);
  bool is_whole;
  int state;
  if (copy == NULL) return bs_call_only(BS_NO_MEMORY);
  copy->of = *of;
  pthread_setcancelstate(PTHREAD_CANCEL_DISABLE, &state);
  is_whole = dump_parts(copy, out);
  pthread_setcancelstate(state, &state);
  free(copy);
  return bs_call_only(is_whole ? BS_DONE : BS_NO_MANAGER);
}

/* Dumps a table or a manager that is not of a group. */
static bs_reply dump_alone(const bs_manager *held, bs_table *table, FILE *out) {
  dump_source of = { held, table, bs_call_table_namer(table, held), NULL, 0 };
  return dump_of(&of, out);
}

/* Dumps each table of one with parts, up to the first that refuses it. The main table keeps the engine's names. */
static bs_reply dump_of_group(bs_table_group *group, FILE *out) {
  bs_table *main = bs_inside_table_of(group, 0);
  dump_source of = { NULL, main, { NULL, NULL }, group, 0 };
  bs_reply reply = bs_inside_open(group);
  if (reply.status == BS_DONE) of.namer = bs_call_table_namer(main, NULL);
  while (of.table != NULL && reply.status == BS_DONE) {
    if (of.number == 0) fprintf(out, "Main table:\n");
    else fprintf(out, "\nPart %u:\n", of.number);
    reply = bs_call_only(bs_call_table_shut(of.table));
    if (reply.status == BS_DONE) reply = dump_of(&of, out);
    of.table = bs_inside_table_of(group, ++of.number);
  }
  return reply;
}

bs_reply bs_table_dump(bs_table *table, FILE *file) {
  bs_table_group *group = bs_table_group_of(table);
  bs_status shut = bs_call_table_shut(table);
  if (file == NULL) return bs_call_null();
  if (group != NULL) return dump_of_group(group, file);
  return shut == BS_DONE ? dump_alone(NULL, table, file) : bs_call_only(shut);
}

bs_reply bs_dump(const bs_manager *manager, FILE *file) {
  bs_reply asked = bs_len(manager);
  if (file == NULL) return bs_call_null();
  return asked.status == BS_DONE ? dump_alone(manager, NULL, file) : asked;
}
