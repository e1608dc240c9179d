/*
 * check.h: how the program ends where something is not as it must be: loudly, with status 1.
 */
#ifndef CHECK_H
#define CHECK_H

#include "burlapslate.h"

/* Says why on standard error, and ends the program with status 1. */
void fail(const char *format, ...);

/* A call that nothing can stand against: any answer but BS_DONE is a fault of this program. */
bs_reply must(bs_reply reply, const char *call);

#define MUST(call) must((call), #call)

#endif
