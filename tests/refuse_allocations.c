/* Loaded before the program: refuses its allocation number REFUSED_ALLOCATION, counted from 1,
   and writes how many allocations there were into the file ALLOCATION_COUNT. */
#define _GNU_SOURCE
#include <errno.h>
#include <stdio.h>
#include <stdlib.h>
#include <sys/syscall.h>
#include <unistd.h>

extern void *__libc_malloc(size_t);
extern void *__libc_calloc(size_t, size_t);
extern void *__libc_realloc(void *, size_t);
extern void *__libc_memalign(size_t, size_t);

static long asked = 0;

static int refused(void) {
  const char *number = getenv("REFUSED_ALLOCATION");
  long count = __atomic_add_fetch(&asked, 1, __ATOMIC_SEQ_CST);
  if (number == NULL || count != atol(number)) return 0;
  errno = ENOMEM;
  return 1;
}

void *malloc(size_t size) { return refused() ? NULL : __libc_malloc(size); }

void *calloc(size_t count, size_t size) { return refused() ? NULL : __libc_calloc(count, size); }

void *realloc(void *old, size_t size) { return refused() ? NULL : __libc_realloc(old, size); }

void *aligned_alloc(size_t alignment, size_t size) {
  return refused() ? NULL : __libc_memalign(alignment, size);
}

int posix_memalign(void **place, size_t alignment, size_t size) {
  if (refused()) return ENOMEM;
  *place = __libc_memalign(alignment, size);
  return *place == NULL ? ENOMEM : 0;
}

__attribute__((destructor)) static void tell(void) {
  const char *name = getenv("ALLOCATION_COUNT");
  FILE *file = name == NULL ? NULL : fopen(name, "w");
  if (file == NULL) return;
  fprintf(file, "%ld\n", asked);
  fclose(file);
}

/* A program with threads ends by _exit, which runs no destructor. */
void _exit(int status) {
  tell();
  syscall(SYS_exit_group, status);
  __builtin_unreachable();
}
