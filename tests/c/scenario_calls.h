/*
 * scenario_calls.h: the calls of a scenario: what each is made with and answers, and the trace that is printed when a
 * scenario fails.
 */
#ifndef SCENARIO_CALLS_H
#define SCENARIO_CALLS_H

#include "beside.h"

#include <stdlib.h>

enum {
  MOST_NODES = 26,                  /* how many nodes a table can have */
  MOST_BOUNDS = 2,                  /* how many bounds an index can have */
  MOST_KEYS = BS_MOST_PARENTS + 2,  /* how many keys a caller names for a row at most: more than any row has */
  LIST = 6,                         /* how many commands a list has at most */
  COMMANDS = BS_DO_MERGE + 1,
  STATUSES = 75
};

/* Times in rising order: none, some that are over, and some that never come. */
typedef size_t moment;
enum { NO_TIME = 0, FIRST_PAST = 1, FIRST_FAR = 4, MOMENTS = 7 };

static const struct timespec moments[MOMENTS] = {
  { 0, 0 }, { 0, 1 }, { 0, 2 }, { 0, 3 }, { 4000000000, 0 }, { 4000000000, 1 }, { 4000000001, 0 }
};

/* What is no time. */
static const struct timespec no_times[] = { { 0, 1000000000 }, { 5, -1 } };

/* The kinds of calls. The kind of its command says whether an ask is for a node, a path or a row. A sleep is a call
 * that could sleep, made only if it is refused. */
typedef enum call_kind { COMMAND, ASK, AWAIT, EXPIRE, RUN, TRY_FIRST, MARK, DEADLINE, SLEEP } call_kind;

/* A command with the lists that it is made with. */
typedef struct drawn {
  bs_command c;
  bs_node parents[BS_MOST_PARENTS + 1];
  uint64_t keys[MOST_KEYS];
  uint64_t bounds[MOST_BOUNDS + 1];
} drawn;

/* A call. All kinds but EXPIRE have one command at least, if only for its transaction. */
typedef struct call {
  call_kind kind;
  size_t count; /* of its commands */
  drawn list[LIST];
  bool has_told[LIST];            /* the caller passes a told list with the command */
  moment limit;                   /* its `until` */
  const struct timespec *no_time; /* passed in place of the limit, if not null */
  bool is_held;                   /* the thread holds the table during the call */
  bool is_aside;                  /* the thread holds another table during the call */
} call;

/* What a call answers. */
typedef struct outcome {
  size_t count; /* of a list: how many commands were done, or the place of the try that was taken */
  bs_reply replies[LIST];
  bs_notices told[LIST];
  moment next; /* of an expire: the earliest time that an ask waits to */
} outcome;

static bs_command command_of(const drawn *d) {
  bs_command c = d->c;
  c.parents = d->parents;
  c.keys = d->keys;
  c.bounds = d->bounds;
  return c;
}

static bs_reply only(bs_status status) {
  bs_reply reply;
  memset(&reply, 0, sizeof reply);
  reply.status = status;
  return reply;
}

static const bs_node no_node = { 0, 0 };
static const bs_txn no_txn = { 0, 0 };

/* The seed of the scenario, how many calls it and all scenarios have made, and the depth of the call that is made now:
 * 0, or how many ends of asks led to it. */
static unsigned long seed, calls_of_scenario, calls_made;
static unsigned depth;

/* ------------------------------------------------------------------------------------------------
 * The trace: the last calls as text.
 */

enum { LINES = 4000, SHOWN = 20, WIDTH = 200 };

static char lines[LINES][WIDTH];
static size_t line_count;

static const char *const command_names[COMMANDS] = {
  "?", "begin", "lock", "lock_path", "try", "unlock", "escalate", "cancel", "commit", "abort", "settle", "insert",
  "delete", "adopt", "forget", "rekey", "move", "drop", "add_inner", "add_file", "add_row_file", "add_index",
  "index_by", "lock_row", "unlock_row", "rekey_row", "try_path", "try_row", "begin_again", "release_since",
  "renew", "lock_row_path", "try_row_path", "mark", "insert_path", "split", "merge"
};
static const char *const call_names[] = { "", "ask ", "ask_await ", "expire ", "run ", "try_first ", "mark ",
                                          "deadline ", "sleep " };

/* Adds to the last line of the trace. */
static void trace(const char *format, ...) {
  char *line = lines[line_count % LINES];
  size_t length = strlen(line);
  va_list rest;
  va_start(rest, format);
  vsnprintf(line + length, WIDTH - length, format, rest);
  va_end(rest);
}

static void trace_line(void) {
  line_count++;
  lines[line_count % LINES][0] = '\0';
  trace("%5lu %*s", calls_of_scenario, (int)depth * 2, "");
}

static void trace_mode(bs_mode mode) {
  trace(" %s%s", bs_mode_text(mode & ~(bs_mode)BS_INSTANT), (mode & BS_INSTANT) != 0 ? "|INSTANT" : "");
}

static void trace_txn(bs_txn txn) {
  if (same_txn(txn, bs_begun())) trace(" t-begun");
  else if (txn.age != 0) trace(" t%u.%lu", txn.slot, (unsigned long)txn.age);
}

static void trace_node(const char *before, bs_node node) {
  if (node.birth != 0) trace("%sn%lu", before, (unsigned long)node.birth);
}

static void trace_command(const bs_command *c) {
  size_t i;
  trace(" %s", command_names[c->kind]);
  trace_txn(c->txn);
  trace_node(" ", c->node);
  trace_node(" file ", c->file);
  trace_node(" index ", c->index);
  for (i = 0; i < c->parent_count; i++) trace_node(i == 0 ? " under " : ",", c->parents[i]);
  for (i = 0; i < c->key_count; i++) trace("%s%lu", i == 0 ? " keys " : ",", (unsigned long)c->keys[i]);
  if (c->number != 0) trace(" number %lu", (unsigned long)c->number);
  if (c->kind == BS_DO_SPLIT) trace(" at %lu", (unsigned long)c->key);
  if (c->mode != BS_NL) trace_mode(c->mode);
}

static void trace_reply(bs_reply reply) {
  trace(" -> %s", bs_text(reply.status));
  if (reply.mode != BS_NL) trace_mode(reply.mode);
  trace_node(" ", reply.node);
  trace_txn(reply.txn);
}

/* A line for each command, with the reply that is wanted. */
static void trace_call(const call *c, const outcome *wants) {
  size_t i;
  for (i = 0; i < c->count || i == 0; i++) {
    bs_command each = command_of(&c->list[i]);
    trace_line();
    trace("%s%s", c->is_held ? "held " : c->is_aside ? "aside " : "", i == 0 ? call_names[c->kind] : "  and ");
    if (c->count > 0) trace_command(&each);
    if (c->limit != NO_TIME) trace(c->limit < FIRST_FAR ? " until over" : " until far");
    trace_reply(wants->replies[i]);
  }
}

/* Prints the last lines that contain a text. */
static void print_lines(const char *text) {
  size_t shown = 0, first = line_count < LINES ? 1 : line_count - LINES + 1, i = line_count + 1;
  while (i > first && shown < SHOWN) {
    if (strstr(lines[--i % LINES], text) != NULL) shown++;
  }
  for (; i <= line_count; i++) {
    if (strstr(lines[i % LINES], text) != NULL) fprintf(stderr, "%s\n", lines[i % LINES]);
  }
}

/* Ends the program at a difference about a transaction: with the seed, the call, and the last calls of the transaction
 * and of all. */
static void must(const char *differs, bs_txn about) {
  char name[40];
  if (differs == NULL) return;
  fprintf(stderr, "scenarios.c: seed %lu, call %lu: %s\n", seed, calls_of_scenario, differs);
  if (about.age != 0) {
    sprintf(name, " t%u.%lu ", about.slot, (unsigned long)about.age);
    fprintf(stderr, "calls of%s:\n", name);
    print_lines(name);
  }
  fprintf(stderr, "last calls:\n");
  print_lines("");
  exit(1);
}

#endif
