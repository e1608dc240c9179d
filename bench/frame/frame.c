#include "frame.h"

#include <pthread.h>
#include <stdio.h>
#include <stdlib.h>
#include <time.h>

struct member {
  pthread_t thread;
  size_t number;
  void (*body)(size_t number);
};

static pthread_barrier_t all, both;

void fail(const char *what, const char *file, int line) {
  fprintf(stderr, "%s:%d: not as it should be: %s\n", file, line, what);
  exit(1);
}

uint64_t now(void) {
  struct timespec time;
  WANT(clock_gettime(CLOCK_MONOTONIC, &time) == 0);
  return (uint64_t)time.tv_sec * 1000000000u + (uint64_t)time.tv_nsec;
}

static int by_size(const void *a, const void *b) {
  const uint64_t *first = a, *second = b;
  return (*first > *second) - (*first < *second);
}

double of_round(uint64_t times[TURNS], enum turns turn, long rounds) {
  qsort(times, TURNS, sizeof times[0], by_size);
  return (double)times[turn] / (double)rounds;
}

static void come_to(pthread_barrier_t *barrier) {
  int answer = pthread_barrier_wait(barrier);
  WANT(answer == 0 || answer == PTHREAD_BARRIER_SERIAL_THREAD);
}

static void *run(void *argument) {
  struct member *member = argument;
  come_to(&all);
  member->body(member->number);
  return NULL;
}

uint64_t together(size_t count, void (*body)(size_t number)) {
  struct member members[MOST_TOGETHER];
  uint64_t start;
  size_t i;
  WANT(count <= MOST_TOGETHER);
  WANT(pthread_barrier_init(&all, NULL, (unsigned)count + 1) == 0);
  WANT(pthread_barrier_init(&both, NULL, 2) == 0);
  for (i = 0; i < count; i++) {
    members[i].number = i;
    members[i].body = body;
    WANT(pthread_create(&members[i].thread, NULL, run, &members[i]) == 0);
  }
  come_to(&all);
  start = now();
  for (i = 0; i < count; i++) WANT(pthread_join(members[i].thread, NULL) == 0);
  start = now() - start;
  WANT(pthread_barrier_destroy(&all) == 0);
  WANT(pthread_barrier_destroy(&both) == 0);
  return start;
}

void meet(void) {
  come_to(&both);
}
