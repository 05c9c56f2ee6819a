// Loaded before the C library, it refuses one request of the program: the REFUSE_AT-th of the kind REFUSE_WHAT, which is
// memory, thread, write or read. Where it refused, a byte is written to the descriptor REFUSE_TELL.
#define _GNU_SOURCE
#include <dlfcn.h>
#include <errno.h>
#include <pthread.h>
#include <stdatomic.h>
#include <stdlib.h>
#include <string.h>
#include <unistd.h>

static void *(*next_malloc)(size_t);
static void *(*next_realloc)(void *, size_t);
static int (*next_create)(pthread_t *, const pthread_attr_t *, void *(*)(void *), void *);
static ssize_t (*next_write)(int, const void *, size_t);
static ssize_t (*next_read)(int, void *, size_t);

static const char *what = "";
static long at;
static int tell;
static atomic_long asked;

__attribute__((constructor)) static void begin(void) {
  next_malloc = dlsym(RTLD_NEXT, "malloc");
  next_realloc = dlsym(RTLD_NEXT, "realloc");
  next_create = dlsym(RTLD_NEXT, "pthread_create");
  next_write = dlsym(RTLD_NEXT, "write");
  next_read = dlsym(RTLD_NEXT, "read");
  const char *kind = getenv("REFUSE_WHAT"), *number = getenv("REFUSE_AT"), *descriptor = getenv("REFUSE_TELL");
  at = number ? atol(number) : 0;
  tell = descriptor ? atoi(descriptor) : -1;
  what = kind && at ? kind : "";
}

static int refuses(const char *kind) {
  if (strcmp(what, kind) != 0 || atomic_fetch_add(&asked, 1) + 1 != at) return 0;
  next_write(tell, "!", 1);
  return 1;
}

void *malloc(size_t size) {
  if (!next_malloc) begin();
  return refuses("memory") ? NULL : next_malloc(size);
}

void *realloc(void *old, size_t size) {
  if (!next_realloc) begin();
  return refuses("memory") ? NULL : next_realloc(old, size);
}

int pthread_create(pthread_t *thread, const pthread_attr_t *attributes, void *(*start)(void *), void *given) {
  return refuses("thread") ? EAGAIN : next_create(thread, attributes, start, given);
}

ssize_t write(int file, const void *bytes, size_t count) {
  if (file != 2 && file != tell && refuses("write")) return errno = EIO, -1;
  return next_write(file, bytes, count);
}

ssize_t read(int file, void *bytes, size_t count) {
  if (refuses("read")) return errno = EIO, -1;
  return next_read(file, bytes, count);
}
