/* Loaded before the C library, it lets the allocation of number FAIL_AT fail, counted from 1. With FAIL_COUNT set it
   tells on standard error how many there were. A realloc that fits the block wants no memory, as that of a list which
   gives back what it does not use, and is not counted. The repository's own checks run the program over it. */
#define _GNU_SOURCE
#include <dlfcn.h>
#include <errno.h>
#include <malloc.h>
#include <stdio.h>
#include <stdlib.h>

static long calls;

static int fails(void) {
  const char *at = getenv("FAIL_AT");
  calls++;
  return at != NULL && calls == atol(at);
}

void *malloc(size_t size) {
  static void *(*real)(size_t);
  if (real == NULL) real = (void *(*)(size_t))dlsym(RTLD_NEXT, "malloc");
  if (!fails()) return real(size);
  errno = ENOMEM;
  return NULL;
}

void *realloc(void *old, size_t size) {
  static void *(*real)(void *, size_t);
  if (real == NULL) real = (void *(*)(void *, size_t))dlsym(RTLD_NEXT, "realloc");
  if (size <= malloc_usable_size(old) || !fails()) return real(old, size);
  errno = ENOMEM;
  return NULL;
}

int posix_memalign(void **out, size_t align, size_t size) {
  static int (*real)(void **, size_t, size_t);
  if (real == NULL) real = (int (*)(void **, size_t, size_t))dlsym(RTLD_NEXT, "posix_memalign");
  return fails() ? ENOMEM : real(out, align, size);
}

void *aligned_alloc(size_t align, size_t size) {
  static void *(*real)(size_t, size_t);
  if (real == NULL) real = (void *(*)(size_t, size_t))dlsym(RTLD_NEXT, "aligned_alloc");
  if (!fails()) return real(align, size);
  errno = ENOMEM;
  return NULL;
}

__attribute__((destructor)) static void tell(void) {
  if (getenv("FAIL_COUNT") != NULL) dprintf(2, "allocations %ld\n", calls);
}
