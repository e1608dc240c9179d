/*
 * What threads do with a shared table of this repository and with the lock subsystem of Berkeley DB. It is run by
 * bench/threads.sh.
 *
 *   threads lines                             for each line its word and its title, parted by a tab
 *   threads times SECONDS WORD                runs a line with each number of threads by both sides, by turns, each
 *                                             turn as long as this, and prints for each number and side a row
 *   threads play SECONDS WORD SIDE THREADS    runs one turn by `ours`, `one` or `many`, and prints its row
 *
 * A row is the threads, the side, transactions and commands a second, nanoseconds of a transaction at the median and at
 * the 99th of a hundred, and the victims of a thousand transactions, parted by tabs. `one` and `many` are Berkeley DB
 * with one partition and with its default number.
 */
#include "threads.h"

#include <inttypes.h>
#include <stdio.h>
#include <stdlib.h>
#include <string.h>

enum { REPEATS = 5, COUNTS = 5, FIGURES = 5 };

static const size_t counts[COUNTS] = { 1, 2, 4, 16, 64 };

static const struct line {
  const char *word;
  const char *title;
  enum works work;
  bool in_lists, in_sessions;
} lines[] = {
  { "own", "own record, by calls", OWN, false, false },
  { "own-list", "own record, in one list", OWN, true, false },
  { "own-session", "own record, in a session", OWN, true, true },
  { "hot", "one record for all, by calls", HOT, false, false },
  { "hot-list", "one record for all, in one list", HOT, true, false },
  { "nodes", "mix by nodes, by calls", NODES, false, false },
  { "nodes-list", "mix by nodes, in lists", NODES, true, false },
  { "nodes-session", "mix by nodes, in a session", NODES, true, true },
  { "numbers", "mix by numbers, by calls", NUMBERS, false, false },
  { "numbers-list", "mix by numbers, in lists", NUMBERS, true, false },
};

enum { LINES = sizeof lines / sizeof lines[0] };

/* The sides by their words. */
static const struct player {
  const char *word;
  const struct side *side;
  bool is_partitioned;
} players[] = {
  { "ours", &ours, false },
#ifdef HAVE_DB
  { "one", &theirs, false },
  { "many", &theirs, true },
#endif
};

enum { SIDES = sizeof players / sizeof players[0] };

/* The figures of a turn, in the order in which they are printed. */
enum figures { TRANSACTIONS, COMMANDS, MEDIAN_TIME, LATE_TIME, VICTIMS };
struct turn {
  double of[FIGURES];
};

static struct worker workers[MOST_TOGETHER];
static uint64_t values[ROWS];
static try_one *play_one;
static uint64_t turn_length, turn_end; /* 0: no thread has begun */

/* ------------------------------------------------------------------------------------------------
 * The engine's rows.
 */

void touch_row(const struct touch *touch) {
  volatile uint64_t *value = &values[touch->row];
  uint64_t seen = *value;
  if (touch->writes) *value = seen + 1;
}

void undo_rows(const struct touch *touches, size_t count) {
  while (count-- > 0)
    if (touches[count].writes) values[touches[count].row]--;
}

/* ------------------------------------------------------------------------------------------------
 * Times in buckets.
 */

static size_t bucket_of(uint64_t time) {
  size_t power = time < 16 ? 4 : 63 - (size_t)__builtin_clzll(time);
  return time < 16 ? (size_t)time : (power - 3) * 16 + (size_t)(time >> (power - 4)) % 16;
}

/* The middle of a bucket. */
static double time_in(size_t bucket) {
  double width = bucket < 32 ? 1 : (double)((uint64_t)1 << (bucket / 16 - 1));
  return bucket < 32 ? (double)bucket : ((double)(bucket % 16) + 16.5) * width;
}

/* The time within which so many of a hundred transactions are done. */
static double time_at(size_t threads, uint64_t transactions, uint64_t hundredths) {
  uint64_t rank = (transactions * hundredths + 99) / 100, passed = 0;
  size_t bucket, i;
  for (bucket = 0; bucket < BUCKETS; bucket++) {
    for (i = 0; i < threads; i++) passed += workers[i].times[bucket];
    if (passed >= rank) break;
  }
  return time_in(bucket);
}

/* ------------------------------------------------------------------------------------------------
 * A turn.
 */

/* Small random numbers (xorshift). */
static uint64_t roll(uint64_t *dice) {
  *dice ^= *dice << 13;
  *dice ^= *dice >> 7;
  *dice ^= *dice << 17;
  return *dice >> 16;
}

static void draw(struct worker *worker, struct touch *touches) {
  size_t i;
  for (i = 0; i < TOUCHES; i++) {
    uint64_t number = roll(&worker->dice);
    touches[i].row = (uint32_t)(number % ROWS);
    touches[i].writes = number / ROWS % 2 == 1;
  }
}

static void note(struct worker *worker, const struct touch *touches, uint64_t time) {
  size_t i;
  for (i = 0; i < TOUCHES; i++) worker->writes += touches[i].writes;
  worker->times[bucket_of(time)]++;
  worker->transactions++;
}

/* When the turn is over: so long after the begin of the first thread. */
static uint64_t end_of_turn(uint64_t begun) {
  uint64_t end = 0;
  __atomic_compare_exchange_n(&turn_end, &end, begun + turn_length, false, __ATOMIC_RELAXED, __ATOMIC_RELAXED);
  return end == 0 ? begun + turn_length : end;
}

/* Makes transactions until the turn is over. Each begins when the one before ended. */
static void work(size_t number) {
  struct worker *worker = &workers[number];
  struct touch touches[TOUCHES];
  uint64_t begun = now(), end = end_of_turn(begun), ended;
  for (; begun < end; begun = ended) {
    draw(worker, touches);
    while (!play_one(worker, touches)) worker->victims++;
    ended = now();
    note(worker, touches, ended - begun);
  }
}

static void clear_workers(size_t threads) {
  size_t i;
  memset(workers, 0, sizeof workers);
  memset(values, 0, sizeof values);
  for (i = 0; i < threads; i++) {
    workers[i].number = i;
    workers[i].dice = 88172645463325252u + i * 0x9e3779b97f4a7c15u;
  }
}

/* No write was lost: so no two threads were in a row at once of which one wrote. */
static void want_rows(const struct scene *scene, size_t threads) {
  uint64_t written = 0, left = 0;
  size_t i;
  for (i = 0; i < threads; i++) written += workers[i].writes;
  for (i = 0; i < ROWS; i++) left += values[i];
  WANT(scene->work <= HOT || written == left);
}

/* The figures of a turn of this length. */
static struct turn figures_of(size_t threads, uint64_t taken) {
  uint64_t transactions = 0, commands = 0, victims = 0;
  double seconds = (double)taken / 1e9;
  struct turn turn;
  size_t i;
  for (i = 0; i < threads; i++) {
    transactions += workers[i].transactions;
    commands += workers[i].commands;
    victims += workers[i].victims;
  }
  WANT(transactions > 0);
  turn.of[TRANSACTIONS] = (double)transactions / seconds;
  turn.of[COMMANDS] = (double)commands / seconds;
  turn.of[MEDIAN_TIME] = time_at(threads, transactions, 50);
  turn.of[LATE_TIME] = time_at(threads, transactions, 99);
  turn.of[VICTIMS] = 1000 * (double)victims / (double)transactions;
  return turn;
}

static struct turn played(const struct line *line, const struct player *player, size_t threads, double seconds) {
  struct scene scene;
  struct turn turn;
  scene.work = line->work;
  scene.in_lists = line->in_lists;
  scene.in_sessions = line->in_sessions;
  scene.is_partitioned = player->is_partitioned;
  clear_workers(threads);
  player->side->set_up(&scene);
  play_one = player->side->play(&scene);
  turn_length = (uint64_t)(seconds * 1e9);
  turn_end = 0;
  turn = figures_of(threads, together(threads, work));
  want_rows(&scene, threads);
  player->side->tear_down();
  return turn;
}

/* ------------------------------------------------------------------------------------------------
 * Lines.
 */

static int by_size(const void *a, const void *b) {
  const double *first = a, *second = b;
  return (*first > *second) - (*first < *second);
}

/* The median of each figure over all turns. */
static struct turn middle_of(const struct turn turns[REPEATS]) {
  struct turn middle;
  double sorted[REPEATS];
  size_t figure, i;
  for (figure = 0; figure < FIGURES; figure++) {
    for (i = 0; i < REPEATS; i++) sorted[i] = turns[i].of[figure];
    qsort(sorted, REPEATS, sizeof sorted[0], by_size);
    middle.of[figure] = sorted[REPEATS / 2];
  }
  return middle;
}

static void print_turn(size_t threads, const char *side, const struct turn *turn) {
  printf("%zu\t%s\t%.0f\t%.0f\t%.0f\t%.0f\t%.1f\n", threads, side, turn->of[TRANSACTIONS], turn->of[COMMANDS],
         turn->of[MEDIAN_TIME], turn->of[LATE_TIME], turn->of[VICTIMS]);
}

/* The sides run by turns, so that other work of the machine affects all. The faster of Berkeley DB's two ways is
 * printed. */
static void time_line(const struct line *line, size_t threads, double seconds) {
  struct turn turns[SIDES][REPEATS], middles[SIDES];
  size_t turn, i, best = 0;
  for (turn = 0; turn < REPEATS; turn++)
    for (i = 0; i < SIDES; i++) turns[i][turn] = played(line, &players[i], threads, seconds);
  for (i = 0; i < SIDES; i++) {
    middles[i] = middle_of(turns[i]);
    if (i == 1 || (i > 1 && middles[i].of[TRANSACTIONS] > middles[best].of[TRANSACTIONS])) best = i;
  }
  print_turn(threads, players[0].word, &middles[0]);
  if (best > 0) print_turn(threads, players[best].word, &middles[best]);
}

static const struct line *line_named(const char *word) {
  size_t i;
  for (i = 0; i < LINES; i++)
    if (strcmp(lines[i].word, word) == 0) return &lines[i];
  fail(word, __FILE__, __LINE__);
  return NULL;
}

static const struct player *player_named(const char *word) {
  size_t i;
  for (i = 0; i < SIDES; i++)
    if (strcmp(players[i].word, word) == 0) return &players[i];
  fail(word, __FILE__, __LINE__);
  return NULL;
}

static int misused(void) {
  fprintf(stderr, "usage: threads lines | threads times SECONDS WORD | threads play SECONDS WORD SIDE THREADS\n");
  return 2;
}

int main(int count, char **words) {
  double seconds = count > 2 ? atof(words[2]) : 0;
  size_t i, threads = count == 6 ? (size_t)atol(words[5]) : 1;
  struct turn turn;
  setvbuf(stdout, NULL, _IOLBF, 0);
  if (count == 2 && strcmp(words[1], "lines") == 0) {
    for (i = 0; i < LINES; i++) printf("%s\t%s\n", lines[i].word, lines[i].title);
    return 0;
  }
  if (!(seconds > 0) || threads < 1 || threads > MOST_TOGETHER) return misused();
  if (count == 4 && strcmp(words[1], "times") == 0) {
    for (i = 0; i < COUNTS; i++) time_line(line_named(words[3]), counts[i], seconds);
    return 0;
  }
  if (count != 6 || strcmp(words[1], "play") != 0) return misused();
  turn = played(line_named(words[3]), player_named(words[4]), threads, seconds);
  print_turn(threads, words[4], &turn);
  return 0;
}
