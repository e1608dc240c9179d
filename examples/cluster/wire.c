#include "wire.h"

#include "fail.h"

#include <errno.h>
#include <fcntl.h>
#include <stdio.h>
#include <string.h>
#include <sys/socket.h>
#include <sys/un.h>
#include <unistd.h>

/* The programs that a process starts are not to keep its connections open. */
static int new_socket(void) {
  int fd = socket(AF_UNIX, SOCK_STREAM | SOCK_CLOEXEC, 0);
  if (fd < 0) fail("no socket: %s", strerror(errno));
  return fd;
}

static struct sockaddr_un address_of(const char *path) {
  struct sockaddr_un address;
  memset(&address, 0, sizeof address);
  address.sun_family = AF_UNIX;
  snprintf(address.sun_path, sizeof address.sun_path, "%s", path);
  return address;
}

int wire_listen(const char *path) {
  struct sockaddr_un address = address_of(path);
  int fd = new_socket();
  unlink(path); /* That of a process that was killed. */
  if (bind(fd, (struct sockaddr *)&address, sizeof address) != 0) fail("%s: %s", path, strerror(errno));
  if (listen(fd, 64) != 0) fail("%s: %s", path, strerror(errno));
  return fd;
}

void wire_make(struct wire *w, int fd) {
  w->fd = fd;
  w->count = 0;
  if (fd >= 0) fcntl(fd, F_SETFD, FD_CLOEXEC);
}

bool wire_connect(struct wire *w, const char *path) {
  struct sockaddr_un address = address_of(path);
  wire_make(w, new_socket());
  if (connect(w->fd, (struct sockaddr *)&address, sizeof address) == 0) return true;
  wire_close(w);
  return false;
}

void wire_close(struct wire *w) {
  if (w->fd >= 0) close(w->fd);
  wire_make(w, -1);
}

static bool send_all(int fd, const char *bytes, size_t count) {
  while (count > 0) {
    ssize_t sent = send(fd, bytes, count, MSG_NOSIGNAL);
    if (sent < 0 && errno == EINTR) continue;
    if (sent <= 0) return false;
    bytes += sent;
    count -= (size_t)sent;
  }
  return true;
}

bool wire_say(struct wire *w, const char *line) {
  return send_all(w->fd, line, strlen(line)) && send_all(w->fd, "\n", 1);
}

/* Takes the first line out of what was read. */
static bool take_line(struct wire *w, char *line, size_t size) {
  char *end = memchr(w->bytes, '\n', w->count);
  size_t length;
  if (end == NULL) return false;
  length = (size_t)(end - w->bytes);
  snprintf(line, size, "%.*s", (int)length, w->bytes);
  w->count -= length + 1;
  memmove(w->bytes, end + 1, w->count);
  return true;
}

bool wire_hear(struct wire *w, char *line, size_t size) {
  while (!take_line(w, line, size)) {
    ssize_t got;
    if (w->count == sizeof w->bytes) return false; /* Too long for a line of ours. */
    got = read(w->fd, w->bytes + w->count, sizeof w->bytes - w->count);
    if (got < 0 && errno == EINTR) continue;
    if (got <= 0) return false;
    w->count += (size_t)got;
  }
  return true;
}
