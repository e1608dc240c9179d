/*
 * The check of an answer of the library that must be BS_DONE.
 */
#ifndef OURS_H
#define OURS_H

#include "frame.h"

#include "burlapslate.h"

static inline bs_reply done_at(bs_reply reply, const char *file, int line) {
  if (reply.status != BS_DONE) fail(bs_text(reply.status), file, line);
  return reply;
}

#define DONE(call) done_at((call), __FILE__, __LINE__)

#endif
