/*
 * streams.c: loaded before the C library by LD_PRELOAD, it gives a program its standard input in pieces, and can let
 * each read or each write fail in turn.
 *
 *   STREAM_READ    the most bytes that a read of standard input gives; unset: as many as there are
 *   STREAM_WRITE   the most bytes that a write to standard output takes; unset: all
 *   STREAM_FAULTS  'reads' or 'writes': before each read of standard input, or each write to standard output, the
 *                  process is forked, and the call fails in the child. The parent waits for the child to end, and
 *                  continues; unset: none fails
 *   STREAM_ERROR   the number of the error; 0: a write takes nothing
 *   STREAM_LOG     the descriptor to which the parent writes a record of each child: struct record and its texts
 *
 * A child writes nothing: its standard output and its standard error are kept for the record. The program has one
 * thread when it reads or writes.
 */
#define _GNU_SOURCE
#include <errno.h>
#include <stdbool.h>
#include <stdint.h>
#include <stdlib.h>
#include <string.h>
#include <sys/mman.h>
#include <sys/syscall.h>
#include <sys/wait.h>
#include <unistd.h>

enum faults { NO_FAULTS, READ_FAULTS, WRITE_FAULTS };

/* What has gone through the streams of a process. */
struct flow {
  uint64_t given;   /* bytes of standard input */
  uint64_t written; /* bytes of standard output */
  uint64_t said;    /* bytes of standard error */
  char output[1 << 16];
  char errors[256];
};

/* What the runner reads of a child; its output and its errors follow. */
struct record {
  uint64_t at_input, at_output; /* bytes given and written when the call failed */
  uint64_t status;              /* as waitpid gives it */
  uint64_t given, written, said;
};

static enum faults faults;
static size_t most_read = SIZE_MAX, most_written = SIZE_MAX;
static int error_number, log_to = -1;
static struct flow own, *flow = &own, *of_child;
static bool is_child;

static size_t number_of(const char *name, size_t usual) {
  const char *text = getenv(name);
  return text == NULL ? usual : (size_t)strtoull(text, NULL, 10);
}

__attribute__((constructor)) static void begin(void) {
  const char *which = getenv("STREAM_FAULTS");
  most_read = number_of("STREAM_READ", SIZE_MAX);
  most_written = number_of("STREAM_WRITE", SIZE_MAX);
  error_number = (int)number_of("STREAM_ERROR", EIO);
  log_to = (int)number_of("STREAM_LOG", 0);
  if (which == NULL) return;
  faults = strcmp(which, "reads") == 0 ? READ_FAULTS : WRITE_FAULTS;
  of_child = mmap(NULL, sizeof *of_child, PROT_READ | PROT_WRITE, MAP_SHARED | MAP_ANONYMOUS, -1, 0);
  if (of_child == MAP_FAILED) _exit(99);
}

static void log_bytes(const void *bytes, size_t count) {
  if (syscall(SYS_write, log_to, bytes, count) != (long)count) _exit(99);
}

static void copy_flow(void) {
  of_child->given = own.given;
  of_child->written = own.written;
  of_child->said = own.said;
  memcpy(of_child->output, own.output, own.written);
}

/* Has a child meet the fault. It is the child, to which this answers true. */
static bool meets_fault(void) {
  struct record record;
  int status = 0;
  pid_t child;
  copy_flow();
  child = fork();
  if (child < 0) _exit(99);
  if (child == 0) {
    is_child = true;
    flow = of_child;
    return true;
  }
  if (waitpid(child, &status, 0) != child) _exit(99);
  record.at_input = own.given;
  record.at_output = own.written;
  record.status = (uint64_t)status;
  record.given = of_child->given;
  record.written = of_child->written;
  record.said = of_child->said;
  log_bytes(&record, sizeof record);
  log_bytes(of_child->output, record.written);
  log_bytes(of_child->errors, record.said);
  return false;
}

static ssize_t fails(void) {
  errno = error_number;
  return error_number == 0 ? 0 : -1;
}

/* Keeps bytes in a text of the flow, and answers their number. */
static ssize_t keep(char *text, size_t room, uint64_t *length, const void *bytes, size_t count) {
  if (*length + count > room) _exit(98);
  memcpy(text + *length, bytes, count);
  *length += count;
  return (ssize_t)count;
}

ssize_t read(int file, void *bytes, size_t count) {
  ssize_t given;
  if (file == 0 && faults == READ_FAULTS && !is_child && meets_fault()) return fails();
  given = syscall(SYS_read, file, bytes, file == 0 && count > most_read ? most_read : count);
  if (file == 0 && given > 0) flow->given += (uint64_t)given;
  return given;
}

ssize_t write(int file, const void *bytes, size_t count) {
  if (file == 1 && count > most_written) count = most_written;
  if (file == 1 && faults == WRITE_FAULTS && !is_child && meets_fault()) return fails();
  if (is_child && file == 2) return keep(flow->errors, sizeof flow->errors, &flow->said, bytes, count);
  if (file == 1 && faults != NO_FAULTS) keep(flow->output, sizeof flow->output, &flow->written, bytes, count);
  return is_child ? (ssize_t)count : syscall(SYS_write, file, bytes, count);
}
