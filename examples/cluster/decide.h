/*
 * decide.h: the log of decisions. Of each transaction over several shards it has one word, commit or abort, and the
 * first that is written stands for good. A transaction without a word is undecided: whoever is in doubt about it
 * writes abort, and learns which word stands.
 *
 * The log is a file, or keys in etcd. Several threads and processes use it at once.
 */
#ifndef DECIDE_H
#define DECIDE_H

#include <pthread.h>
#include <stdbool.h>
#include <stdint.h>

/* One who waits for a word to be written, in the frame of its own call. */
struct wish {
  uint64_t number;
  bool commits; /* the word that it would write; then the one that stands */
  bool is_done;
  struct wish *next;
};

struct decisions {
  const char *file;      /* the file's name, or null */
  const char *endpoints; /* of etcd */
  pthread_mutex_t mutex;
  pthread_cond_t written;
  struct wish *wishes; /* of those whose word is to be written next */
  bool is_busy;        /* somebody writes */
  uint64_t rounds;     /* how many times the log was asked to write */
};

/* `where` is file:NAME or etcd:ENDPOINTS. Ends the program where it is neither. */
void decisions_open(struct decisions *d, const char *where);

/* Writes the word where there is none yet. Answers whether the word that stands is commit. */
bool decide(struct decisions *d, uint64_t number, bool commits);

#endif
