/*
 * What single pieces of work cost through the library for C. It is run by bench/costs.sh, which prints a group.
 *
 *   costs lines GROUP         for each piece of the group its word, a few rounds and many for a count of instructions,
 *                             and its title, parted by tabs
 *   costs times GROUP ROUNDS  for each piece its word, and the nanoseconds of a round
 *   costs play WORD ROUNDS    runs so many rounds, for a count of instructions
 */
#include "costs.h"

#include <stdio.h>
#include <stdlib.h>
#include <string.h>

struct line {
  const char *group;
  const char *word;
  const char *title;
  piece *piece;
  size_t number;
  struct scene scene;
  long share; /* one in so many of the requested rounds is run */
  enum turns turn;
};

/* A round beside so many others, by calls of the manager with one list of notices, and by a list of commands. */
#define ROUND(door, piece, word, title, crowd, others) \
  { "locks", word, title, piece, 0, { &door, crowd, others, false }, 1, BEST }

#define ROUNDS(door, piece, word, title)                                  \
  ROUND(door, piece, word, title ", alone", ON_THE_PATH, 0),              \
  ROUND(door, piece, word "-8", title ", beside 8", ON_THE_PATH, 8),      \
  ROUND(door, piece, word "-32", title ", beside 32", ON_THE_PATH, 32),   \
  ROUND(door, piece, word "-64", title ", beside 64", ON_THE_PATH, 64),   \
  ROUND(door, piece, word "-127", title ", beside 127", ON_THE_PATH, 127), \
  ROUND(door, piece, word "-elsewhere", title ", 100 elsewhere", ELSEWHERE, 100)

/* A piece that makes what it needs. */
#define ITSELF { NULL, ON_THE_PATH, 0, false }
#define BY_ITSELF(group, word, title, piece, number, share) \
  { group, word, title, piece, number, ITSELF, share, BEST }
#define RELEASE(word, title, piece, number) BY_ITSELF("locks", word, title, piece, number, 1000)
#define READING(word, title, piece, shape) BY_ITSELF("waits", word, title, piece, shape, 1)

/* A piece beside each crowd. */
#define CROWD(door, piece, word, title, crowd, others, is_watched) \
  { "sessions", word, title, piece, 0, { &door, crowd, others, is_watched }, 1, BEST }

#define CROWDS(door, piece, word, title, is_watched)                                          \
  CROWD(door, piece, word, title ", alone", ON_THE_PATH, 0, is_watched),                      \
  CROWD(door, piece, word "-elsewhere", title ", 100 elsewhere", ELSEWHERE, 100, is_watched), \
  CROWD(door, piece, word "-queued", title ", 126 in a queue", QUEUED, 126, is_watched)

#define THREADS(word, title, count) \
  { "sessions", word, title, rounds_in_threads, count, { &by_table, ON_THE_PATH, 0, false }, 1, MEDIAN }

static const struct line lines[] = {
  ROUNDS(by_manager, rounds_by_manager, "round", "round, one list"),
  ROUNDS(by_table, rounds_by_lists, "commands", "round, a list of commands"),
  BY_ITSELF("locks", "insert", "insert and its delete", inserts_and_deletes, 0, 1),
  BY_ITSELF("locks", "wait", "wait and its grant", waits_and_grants, 0, 1),
  RELEASE("release-none", "release that grants none of 63", vain_releases, 64),
  RELEASE("release-1", "release that grants 1 of 127", releases, 1),
  RELEASE("release-2", "release that grants 2 of 127", releases, 2),
  RELEASE("release-8", "release that grants 8 of 127", releases, 8),
  RELEASE("release-32", "release that grants 32 of 127", releases, 32),
  RELEASE("release-64", "release that grants 64 of 127", releases, 64),
  RELEASE("release-127", "release that grants 127 of 127", releases, 127),

  CROWDS(by_manager, rounds_by_manager, "manager", "manager", false),
  CROWDS(by_table, rounds_by_calls, "calls", "calls", false),
  CROWDS(by_table, rounds_by_calls, "calls-watched", "calls, watched", true),
  CROWDS(by_table, rounds_by_lists, "lists", "lists", false),
  CROWDS(by_table, rounds_by_lists, "lists-watched", "lists, watched", true),
  CROWDS(by_table, boards, "boards", "boards", false),
  CROWDS(by_table, questions, "questions", "questions", false),
  CROWDS(by_table, looks, "looks", "looks", true),
  THREADS("threads-1", "calls, 1 thread", 1),
  THREADS("threads-4", "calls, 4 threads", 4),
  THREADS("threads-16", "calls, 16 threads", 16),

  READING("suspects-idle", "suspects, nobody waits", suspects, IDLE),
  READING("cycle-chain", "on_cycle, a chain of 128", cycles, CHAIN),
  READING("cycle-ring", "on_cycle, a ring of 128", cycles, RING),
  READING("cycle-closed", "on_cycle, a closed queue of 128", cycles, CLOSED_QUEUE),
  READING("victim-ring", "on_cycle and youngest, a ring", victims, RING),
  READING("victim-closed", "on_cycle and youngest, a closed queue", victims, CLOSED_QUEUE),
  READING("suspects-chain", "suspects, a chain of 128", suspects, CHAIN),
  READING("suspects-ring", "suspects, a ring of 128", suspects, RING),
  READING("suspects-queue", "suspects, a queue of 128", suspects, QUEUE),
  READING("suspects-closed", "suspects, a closed queue of 128", suspects, CLOSED_QUEUE),
};

enum { LINES = sizeof lines / sizeof lines[0] };

static uint64_t played(const struct line *line, long rounds) {
  uint64_t taken;
  open_scene(&line->scene);
  taken = line->piece(line->number, rounds);
  close_scene(&line->scene);
  return taken;
}

static void print_line(const struct line *line, long rounds) {
  (void)rounds;
  printf("%s\t%s\t%s\n", line->word, line->share == 1 ? "80\t880" : "1\t11", line->title);
}

static void print_time(const struct line *line, long asked) {
  long rounds = asked < MOST_TOGETHER * line->share ? MOST_TOGETHER : asked / line->share;
  uint64_t times[TURNS];
  size_t turn;
  for (turn = 0; turn < TURNS; turn++) times[turn] = played(line, rounds);
  printf("%s\t%.0f\n", line->word, of_round(times, line->turn, rounds));
}

static void each_of(const char *group, void (*print)(const struct line *line, long rounds), long rounds) {
  size_t i;
  for (i = 0; i < LINES; i++)
    if (strcmp(lines[i].group, group) == 0) print(&lines[i], rounds);
}

static void play_named(const char *word, long rounds) {
  size_t i = 0;
  while (i < LINES && strcmp(lines[i].word, word) != 0) i++;
  if (i == LINES) fail(word, __FILE__, __LINE__);
  played(&lines[i], rounds);
}

int main(int count, char **words) {
  long rounds = count == 4 ? atol(words[3]) : 0;
  if (count == 3 && strcmp(words[1], "lines") == 0) {
    each_of(words[2], print_line, 0);
  } else if (rounds > 0 && strcmp(words[1], "times") == 0) {
    each_of(words[2], print_time, rounds);
  } else if (rounds > 0 && strcmp(words[1], "play") == 0) {
    play_named(words[2], rounds);
  } else {
    fprintf(stderr, "usage: costs lines GROUP | costs times GROUP ROUNDS | costs play WORD ROUNDS\n");
    return 2;
  }
  return 0;
}
