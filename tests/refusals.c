/* Refuses some memory requests of the program that loads it by LD_PRELOAD, and records them by lines of input.
   tests/refusals builds it, and sets these variables of the environment:
     FIRST  the number of the first refused request, from 1; by default none is refused
     STEP   the distance from one refused request to the next; 0 refuses only the first
     UNTIL  the number of bytes of input after which no request is refused; by default there is no end
     SCRIPT the file of the lines; by default standard input
     RECORD the file to which the record is written when the program ends.
   A call to read returns at most one line, so requests and output between two calls belong to the line of the first call. A line of the
   record has the state at one call, and the last line the state at the end: the bytes of input that were returned, the requests, the
   refused requests, and the bytes written to standard output. */
#define _GNU_SOURCE
#include <errno.h>
#include <fcntl.h>
#include <limits.h>
#include <stdarg.h>
#include <stdio.h>
#include <stdlib.h>
#include <string.h>
#include <sys/syscall.h>
#include <unistd.h>

extern void *__libc_malloc(size_t size);
extern void *__libc_calloc(size_t count, size_t size);
extern void *__libc_realloc(void *old, size_t size);
extern void *__libc_memalign(size_t alignment, size_t size);

struct state {
  unsigned long given, requests, refused, written;
};

static unsigned long first = ULONG_MAX, step, until = ULONG_MAX;
static struct state now, calls[1 << 16];
static size_t count;
static int script; /* the file of the lines */

static unsigned long number(const char *name, unsigned long absent) {
  const char *text = getenv(name);
  return text ? strtoul(text, NULL, 10) : absent;
}

__attribute__((constructor)) static void begin(void) {
  first = number("FIRST", ULONG_MAX);
  step = number("STEP", 0);
  script = getenv("SCRIPT") ? -1 : 0;
  until = number("UNTIL", ULONG_MAX);
  memset(&now, 0, sizeof now);
}

/* Counts a request; returns whether it is refused. */
static int refuses(void) {
  unsigned long past = ++now.requests - first;
  int refused = now.requests >= first && now.given < until && (past == 0 || (step && past % step == 0));
  now.refused += refused;
  if (refused) errno = ENOMEM;
  return refused;
}

void *malloc(size_t size) { return refuses() ? NULL : __libc_malloc(size); }

void *calloc(size_t items, size_t size) { return refuses() ? NULL : __libc_calloc(items, size); }

void *realloc(void *old, size_t size) { return refuses() ? NULL : __libc_realloc(old, size); }

void *memalign(size_t alignment, size_t size) { return refuses() ? NULL : __libc_memalign(alignment, size); }

void *aligned_alloc(size_t alignment, size_t size) { return memalign(alignment, size); }

int posix_memalign(void **into, size_t alignment, size_t size) {
  void *made = memalign(alignment, size);
  if (!made) return ENOMEM;
  *into = made;
  return 0;
}

/* Lines read ahead. */
static char ahead[1 << 16];
static size_t begins, ends;

int open(const char *name, int flags, ...) {
  va_list rest;
  va_start(rest, flags);
  int made = syscall(SYS_openat, AT_FDCWD, name, flags, flags & O_CREAT ? va_arg(rest, mode_t) : 0);
  va_end(rest);
  const char *lines = getenv("SCRIPT");
  if (made >= 0 && lines && strcmp(lines, name) == 0) script = made;
  return made;
}

static ssize_t next_line(char *into, size_t room) {
  if (begins == ends) {
    ssize_t got = syscall(SYS_read, script, ahead, sizeof ahead);
    if (got <= 0) return got;
    begins = 0;
    ends = got;
  }
  size_t length = ends - begins < room ? ends - begins : room;
  char *end = memchr(ahead + begins, '\n', length);
  if (end) length = end + 1 - (ahead + begins);
  memcpy(into, ahead + begins, length);
  begins += length;
  now.given += length;
  return length;
}

ssize_t read(int from, void *into, size_t room) {
  if (from != script) return syscall(SYS_read, from, into, room);
  if (count < sizeof calls / sizeof *calls) calls[count++] = now;
  return next_line(into, room);
}

ssize_t write(int to, const void *bytes, size_t length) {
  ssize_t taken = syscall(SYS_write, to, bytes, length);
  if (to == 1 && taken > 0) now.written += taken;
  return taken;
}

ssize_t __write(int to, const void *bytes, size_t length) { return write(to, bytes, length); }

static void tell(int to, const struct state *state) {
  dprintf(to, "%lu %lu %lu %lu\n", state->given, state->requests, state->refused, state->written);
}

__attribute__((destructor)) static void end(void) {
  struct state last = now;
  const char *name = getenv("RECORD");
  int file = name ? open(name, O_WRONLY | O_CREAT | O_TRUNC, 0600) : -1;
  if (file < 0) return;
  first = ULONG_MAX;
  for (size_t at = 0; at < count; at++) tell(file, &calls[at]);
  tell(file, &last);
  close(file);
}
