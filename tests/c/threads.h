/*
 * threads.h: what the tests of a shared table have in common: a watchdog, and threads that sleep for a lock.
 */
#ifndef THREADS_H
#define THREADS_H

#include "burlapslate_shared.h"
#include "checks.h"
#include "same.h"

#include <signal.h>
#include <stdio.h>
#include <unistd.h>

/* A program that hangs ends with status 1 and the name of the story. */
static void bark(int number) {
  static const char text[] = ": hangs\n";
  ssize_t written = write(2, story, strlen(story)) + write(2, text, sizeof text - 1);
  (void)number;
  _Exit(written > 0 ? 1 : 2);
}

/* The watchdog barks if it is not fed for this many seconds. */
static void feed(unsigned seconds) {
  signal(SIGALRM, bark);
  alarm(seconds);
}

/* Asks a question of the manager that a table lends. Its arguments must not be such a question. */
static __thread __attribute__((unused)) bs_reply asked;
static __thread __attribute__((unused)) bs_found found;

#define ASK0(table, question) (asked = question(bs_table_hold(table)), bs_table_let_go(table), asked)
#define ASK(table, question, ...) (asked = question(bs_table_hold(table), __VA_ARGS__), bs_table_let_go(table), asked)
#define FIND(table, question, ...) (found = question(bs_table_hold(table), __VA_ARGS__), bs_table_let_go(table), found)

static inline bs_reply wait_in(bs_table *table, bs_txn txn) {
  return ASK(table, wait_of, txn);
}

static inline uint64_t accepted_in(bs_table *table) {
  uint64_t count = accepted_by(bs_table_hold(table));
  bs_table_let_go(table);
  return count;
}

static inline bs_reply make_table(bs_table **table, uint32_t detect, uint32_t victims, uint32_t most) {
  bs_options options = options_of(detect, victims, most);
  return bs_table_make(table, &options);
}

static inline void nap(void) {
  struct timespec time = { 0, 50000 };
  nanosleep(&time, NULL);
}

/* The time in this many microseconds; before now if they are negative. */
static inline struct timespec moment_in(long microseconds) {
  struct timespec moment;
  clock_gettime(CLOCK_MONOTONIC, &moment);
  moment.tv_sec += microseconds / 1000000;
  moment.tv_nsec += microseconds % 1000000 * 1000;
  if (moment.tv_nsec >= 1000000000) {
    moment.tv_sec++;
    moment.tv_nsec -= 1000000000;
  }
  if (moment.tv_nsec < 0) {
    moment.tv_sec--;
    moment.tv_nsec += 1000000000;
  }
  return moment;
}

static void start(pthread_t *thread, void *(*run)(void *), void *arg) {
  WANT(pthread_create(thread, NULL, run, arg) == 0);
}

static void join(pthread_t thread) {
  WANT(pthread_join(thread, NULL) == 0);
}

/* Small random numbers, by Marsaglia's xorshift: from 0 to below `sides`. */
static inline uint64_t roll(uint64_t *dice, uint64_t sides) {
  *dice ^= *dice << 13;
  *dice ^= *dice >> 7;
  *dice ^= *dice << 17;
  return (*dice >> 16) % sides;
}

#endif
