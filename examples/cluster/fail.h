/*
 * fail.h: how a program ends where something is not as it must be: loudly, with status 1.
 */
#ifndef FAIL_H
#define FAIL_H

/* Says why on standard error, and ends the program with status 1. */
_Noreturn void fail(const char *format, ...);

#endif
