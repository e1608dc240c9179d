/*
 * Shared by the programs of this folder: how an answer that is not as it should be ends a program, the clock, turns,
 * and threads.
 */
#ifndef FRAME_H
#define FRAME_H

#include <stddef.h>
#include <stdint.h>

/* The most threads at once. */
enum { MOST_TOGETHER = 64 };

/* How many turns are timed, and which of them counts, from the shortest on. Other work of the machine only adds to
 * the time of one thread, so its best turn counts; several threads have lucky turns, in which they run one after the
 * other. */
enum turns { BEST = 0, TURNS = 9, MEDIAN = TURNS / 2 };

/* A function that callgrind sees. If a count is not of everything, it is of the functions whose names begin with
 * `measured`. */
#define MEASURED __attribute__((noinline))

/* Ends the program with status 1. */
void fail(const char *what, const char *file, int line);

#define WANT(condition) ((condition) ? (void)0 : fail(#condition, __FILE__, __LINE__))

/* The time, in nanoseconds from some moment on. */
uint64_t now(void);

/* The time of a round in the turn that counts, of so many rounds each turn. */
double of_round(uint64_t times[TURNS], enum turns turn, long rounds);

/* Runs a body in so many threads, each with its number, and answers the time from when all are at the start until all
 * have ended. */
uint64_t together(size_t count, void (*body)(size_t number));

/* Waits until two threads are here. */
void meet(void);

#endif
