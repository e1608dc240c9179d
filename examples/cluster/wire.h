/*
 * wire.h: lines over sockets of this machine. A request is a line, and so is its answer.
 */
#ifndef WIRE_H
#define WIRE_H

#include <stdbool.h>
#include <stddef.h>

/* An end of a connection; closed where `fd` is negative. */
struct wire {
  int fd;
  size_t count; /* bytes that were read and are not taken yet */
  char bytes[4096];
};

/* Ends the program where it cannot. */
int wire_listen(const char *path);

void wire_make(struct wire *w, int fd);
bool wire_connect(struct wire *w, const char *path);
void wire_close(struct wire *w);

/* Says a line; hears one, without its end. False: the other side is gone. */
bool wire_say(struct wire *w, const char *line);
bool wire_hear(struct wire *w, char *line, size_t size);

#endif
