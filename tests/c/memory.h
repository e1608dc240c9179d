/*
 * The calls for memory of a program of tests, which is linked with them (run.sh): an allocation can be refused, to see
 * that it changes nothing; and the blocks in use are counted with their bytes, to see that all are freed.
 */
#ifndef MEMORY_H
#define MEMORY_H

#include <malloc.h>
#include <pthread.h>
#include <stdbool.h>
#include <stddef.h>

/* Which allocation of this thread is refused, counted from now on, 0 for none; and how many blocks and bytes are in
 * use. */
static __thread long refused_allocation;
static long blocks, bytes;
static pthread_mutex_t count_latch = PTHREAD_MUTEX_INITIALIZER;

/* One thread may be refused all memory. */
static bool has_refused_thread;
static pthread_t refused_thread;

void *__real_malloc(size_t size);
void *__real_realloc(void *old, size_t size);
void __real_free(void *block);
void *__wrap_malloc(size_t size);
void *__wrap_realloc(void *old, size_t size);
void __wrap_free(void *block);

static bool is_refused(void) {
  bool all;
  pthread_mutex_lock(&count_latch);
  all = has_refused_thread && pthread_equal(pthread_self(), refused_thread);
  pthread_mutex_unlock(&count_latch);
  return all || (refused_allocation > 0 && --refused_allocation == 0);
}

static __attribute__((unused)) void refuse_thread(pthread_t thread) {
  pthread_mutex_lock(&count_latch);
  has_refused_thread = true;
  refused_thread = thread;
  pthread_mutex_unlock(&count_latch);
}

static __attribute__((unused)) void refuse_no_thread(void) {
  pthread_mutex_lock(&count_latch);
  has_refused_thread = false;
  pthread_mutex_unlock(&count_latch);
}

static void count_out(long more_blocks, long more_bytes) {
  pthread_mutex_lock(&count_latch);
  blocks += more_blocks;
  bytes += more_bytes;
  pthread_mutex_unlock(&count_latch);
}

static long out_of(const long *kept) {
  long out;
  pthread_mutex_lock(&count_latch);
  out = *kept;
  pthread_mutex_unlock(&count_latch);
  return out;
}

static long blocks_out(void) {
  return out_of(&blocks);
}

static __attribute__((unused)) long bytes_out(void) {
  return out_of(&bytes);
}

static long size_of(void *block) {
  return (long)malloc_usable_size(block);
}

void *__wrap_malloc(size_t size) {
  void *block = is_refused() ? NULL : __real_malloc(size);
  if (block != NULL) count_out(1, size_of(block));
  return block;
}

void *__wrap_realloc(void *old, size_t size) {
  long before;
  void *block;
  if (old == NULL) return __wrap_malloc(size);
  before = size_of(old);
  block = is_refused() ? NULL : __real_realloc(old, size);
  if (block != NULL) count_out(0, size_of(block) - before);
  return block;
}

void __wrap_free(void *block) {
  if (block != NULL) count_out(-1, -size_of(block));
  __real_free(block);
}

#endif
