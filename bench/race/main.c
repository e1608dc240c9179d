/*
 * A race of the lock manager of this repository and the lock subsystem of Berkeley DB: the same work through
 * both. It is run by bench/race.sh.
 *
 *   race lines                 for each line of the table its word, in how many ways Berkeley DB runs it,
 *                              and its title, parted by tabs
 *   race times ROUNDS          for each line its word, and the nanoseconds of a round by ours and by theirs;
 *                              "-" for a side that does not run
 *   race play WORD WAY ROUNDS  runs so many rounds, for a count of instructions: by `ours`, or by theirs in
 *                              the way of this number, from 0 on
 */
#include "race.h"

#include "burlapslate.h"

#include <inttypes.h>
#include <stdio.h>
#include <stdlib.h>
#include <string.h>

#ifdef HAVE_DB
#define THEIRS(play) play
#else
#define THEIRS(play) NULL
#endif

enum { MOST_WAYS = 4 };

/* A line of the table. */
struct line {
  const char *word;
  const char *title;
  size_t others;
  size_t records;
  long share; /* one in so many of the requested rounds is run */
  enum turns turn;
  play *ours;
  play *theirs;
  size_t way_count;
  unsigned ways[MOST_WAYS];
};

static const struct line lines[] = {
  { "write", "short transaction, writes, alone", 0, 1, 1, BEST,
    ours_write, THEIRS(theirs_write), 2, { KEPT, FRESH } },
  { "read", "short transaction, reads, alone", 0, 1, 1, BEST,
    ours_read, THEIRS(theirs_read), 2, { KEPT, FRESH } },
  { "write-8", "short transaction, writes, beside 8", 8, 1, 1, BEST,
    ours_write, THEIRS(theirs_write), 2, { KEPT, FRESH } },
  { "write-32", "short transaction, writes, beside 32", 32, 1, 1, BEST,
    ours_write, THEIRS(theirs_write), 2, { KEPT, FRESH } },
  { "write-127", "short transaction, writes, beside 127", 127, 1, 1, BEST,
    ours_write, THEIRS(theirs_write), 2, { KEPT, FRESH } },
#if BS_SLOTS > 1000
  { "write-1000", "short transaction, writes, beside 1,000", 1000, 1, 1, BEST,
    ours_write, THEIRS(theirs_write), 2, { KEPT, FRESH } },
  { "wait-1000", "wait and grant, beside 1,000", 1000, 1, 4, MEDIAN, ours_wait, NULL, 0, { 0 } },
#endif
  { "at-once", "writes, alone, all four in one call", 0, 1, 1, BEST,
    ours_write_path, THEIRS(theirs_write), 2, { KEPT | AT_ONCE, FRESH | AT_ONCE } },
  { "wait", "wait and grant, ours in one thread", 0, 1, 4, MEDIAN,
    ours_wait, THEIRS(theirs_wait_paired), 1, { THREADED } },
  { "wait-paired", "wait and grant, both in two threads", 0, 1, 4, MEDIAN,
    ours_wait_paired, THEIRS(theirs_wait_paired), 1, { THREADED } },
  { "deadlock", "deadlock of two, ours in one thread", 0, 1, 10, MEDIAN,
    ours_deadlock, THEIRS(theirs_deadlock_paired), 1, { THREADED } },
  { "deadlock-paired", "deadlock of two, both in two threads", 0, 1, 10, MEDIAN,
    ours_deadlock_paired, THEIRS(theirs_deadlock_paired), 1, { THREADED } },
  { "commit", "commit of 1,000 records and their path", 0, MOST_RECORDS, 200, BEST,
    ours_commit, THEIRS(theirs_commit), 2, { KEPT, FRESH } },
  { "back", "back to a savepoint ahead of 1,000 records", 0, MOST_RECORDS, 200, BEST, ours_back, NULL, 0, { 0 } },
  { "crew", "four threads, one mutex on either side", 0, CREW, 1, MEDIAN,
    ours_crew, THEIRS(theirs_crew), 2, { KEPT, FRESH } },
  { "crew-own", "four threads, theirs with DB_THREAD", 0, CREW, 1, MEDIAN,
    ours_crew, THEIRS(theirs_crew), 3,
    { KEPT | THREADED, FRESH | THREADED, KEPT | THREADED | PARTITIONED } },
  { "table", "bs_table: a short transaction, writes", 0, 1, 1, BEST,
    table_write, THEIRS(theirs_write), 2, { KEPT | THREADED, FRESH | THREADED } },
  { "table-session", "bs_table: the same in a session", 0, 1, 1, BEST,
    table_session, THEIRS(theirs_write), 2, { KEPT | THREADED | AT_ONCE, FRESH | THREADED | AT_ONCE } },
  { "table-session-list", "bs_table: the same in a session, in one list", 0, 1, 1, BEST,
    table_session_list, THEIRS(theirs_write), 2, { KEPT | THREADED | AT_ONCE, FRESH | THREADED | AT_ONCE } },
  { "table-watched", "bs_table: a short one beside who looks", 0, 1, 1, BEST,
    table_watched, THEIRS(theirs_write), 2, { KEPT | THREADED, FRESH | THREADED } },
  { "table-resting", "bs_table: S on a root that 126 hold and rest", 0, 1, 200, BEST, table_resting, NULL, 0, { 0 } },
  { "table-wait", "bs_table: wait and grant, two threads", 0, 1, 4, MEDIAN,
    table_wait, THEIRS(theirs_wait_paired), 1, { THREADED } },
  { "table-1", "bs_table: one thread, DB_THREAD", 0, CREW, 1, MEDIAN,
    table_crew_1, THEIRS(theirs_crew_1), 3,
    { KEPT | THREADED, FRESH | THREADED, KEPT | THREADED | PARTITIONED } },
  { "table-4", "bs_table: four threads, DB_THREAD", 0, CREW, 1, MEDIAN,
    table_crew_4, THEIRS(theirs_crew), 3,
    { KEPT | THREADED, FRESH | THREADED, KEPT | THREADED | PARTITIONED } },
  { "table-16", "bs_table: sixteen threads, DB_THREAD", 0, MOST_CREW, 1, MEDIAN,
    table_crew_16, THEIRS(theirs_crew_16), 3,
    { KEPT | THREADED, FRESH | THREADED, KEPT | THREADED | PARTITIONED } },
  { "table-run-4", "bs_table_run: four threads, lock_vec", 0, CREW, 1, MEDIAN,
    table_once_4, THEIRS(theirs_crew), 3,
    { KEPT | THREADED | AT_ONCE, FRESH | THREADED | AT_ONCE, KEPT | THREADED | PARTITIONED | AT_ONCE } },
  { "table-run-16", "bs_table_run: sixteen threads, lock_vec", 0, MOST_CREW, 1, MEDIAN,
    table_once_16, THEIRS(theirs_crew_16), 3,
    { KEPT | THREADED | AT_ONCE, FRESH | THREADED | AT_ONCE, KEPT | THREADED | PARTITIONED | AT_ONCE } },
};

enum { LINES = sizeof lines / sizeof lines[0] };

/* The time of so many rounds. */
static uint64_t played(const struct line *line, const struct side *side, play *play, unsigned way,
                       long rounds) {
  struct scene scene;
  uint64_t taken;
  scene.others = line->others;
  scene.records = line->records;
  scene.way = way;
  side->set_up(&scene);
  taken = play(rounds);
  side->tear_down();
  return taken;
}

static uint64_t ours_played(const struct line *line, long rounds) {
  return played(line, &ours, line->ours, KEPT, rounds);
}

static uint64_t theirs_played(const struct line *line, size_t way, long rounds) {
#ifdef HAVE_DB
  return played(line, &theirs, line->theirs, line->ways[way], rounds);
#else
  (void)line, (void)way, (void)rounds;
  fail("Berkeley DB is there", __FILE__, __LINE__);
  return 0;
#endif
}

/* The sides run by turns, so that other work of the machine affects both. */
static void time_line(const struct line *line, long asked) {
  long rounds = asked / line->share < 2 * MOST_CREW ? 2 * MOST_CREW : asked / line->share;
  size_t turn, way, ways = line->theirs == NULL ? 0 : line->way_count;
  uint64_t times[TURNS], their_times[MOST_WAYS][TURNS];
  double best = 0;
  for (turn = 0; turn < TURNS; turn++) {
    times[turn] = ours_played(line, rounds);
    for (way = 0; way < ways; way++) their_times[way][turn] = theirs_played(line, way, rounds);
  }
  for (way = 0; way < ways; way++) {
    double time = of_round(their_times[way], line->turn, rounds);
    if (way == 0 || time < best) best = time;
  }
  printf("%s\t%.0f\t", line->word, of_round(times, line->turn, rounds));
  if (ways == 0) printf("-\n");
  else printf("%.0f\n", best);
}

static const struct line *named(const char *word) {
  size_t i;
  for (i = 0; i < LINES; i++)
    if (strcmp(lines[i].word, word) == 0) return &lines[i];
  fail(word, __FILE__, __LINE__);
  return NULL;
}

static void print_line(const struct line *line) {
  printf("%s\t%d\t%s\n", line->word, line->theirs == NULL ? 0 : (int)line->way_count, line->title);
}

static int misused(void) {
  fprintf(stderr, "usage: race lines | race times ROUNDS | race play WORD ours|WAY ROUNDS\n");
  return 2;
}

int main(int count, char **words) {
  long rounds = count > 2 ? atol(words[count - 1]) : 0;
  size_t i;
  setvbuf(stdout, NULL, _IOLBF, 0);
  if (count == 2 && strcmp(words[1], "lines") == 0) {
    for (i = 0; i < LINES; i++) print_line(&lines[i]);
    return 0;
  }
  if (rounds <= 0) return misused();
  if (count == 3 && strcmp(words[1], "times") == 0) {
    for (i = 0; i < LINES; i++) time_line(&lines[i], rounds);
    return 0;
  }
  if (count != 5 || strcmp(words[1], "play") != 0) return misused();
  if (strcmp(words[3], "ours") == 0) ours_played(named(words[2]), rounds);
  else theirs_played(named(words[2]), (size_t)atol(words[3]), rounds);
  return 0;
}
