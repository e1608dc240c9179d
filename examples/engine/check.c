#include "check.h"

#include <stdarg.h>
#include <stdio.h>
#include <stdlib.h>

/* Other threads still run, and may fail too: one line each, and no end of the program but at once. */
void fail(const char *format, ...) {
  char why[200];
  va_list rest;
  va_start(rest, format);
  vsnprintf(why, sizeof why, format, rest);
  va_end(rest);
  fprintf(stderr, "engine: %s\n", why);
  _Exit(1);
}

bs_reply must(bs_reply reply, const char *call) {
  if (reply.status != BS_DONE) fail("%s answered %s", call, bs_text(reply.status));
  return reply;
}
