/*
 * checks.h: the checks of a story, which end the program.
 */
#ifndef CHECKS_H
#define CHECKS_H

#include "burlapslate.h"

#include <stdio.h>
#include <stdlib.h>

/* The story that is played, for messages. */
static const char *story = "";

/* Other threads may still run: it prints one line, and ends the program at once. */
static void wanted(bool holds, const char *what, const char *file, int line) {
  if (holds) return;
  fprintf(stderr, "%s:%d: %s: not so: %s\n", file, line, story, what);
  _Exit(1);
}

#define WANT(condition) wanted((condition), #condition, __FILE__, __LINE__)

static bs_reply answered(bs_reply reply, bs_status status, const char *call, const char *file, int line) {
  if (reply.status != status) fprintf(stderr, "answered: %s\n", bs_text(reply.status));
  wanted(reply.status == status, call, file, line);
  return reply;
}

#define ANSWERS(status, call) answered((call), (status), #call, __FILE__, __LINE__)
#define DONE(call) ANSWERS(BS_DONE, call)

#endif
