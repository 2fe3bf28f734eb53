/* Counts how often the program that it is loaded into asks for memory, and writes the count to the file that ALLOCATIONS names when the
   program ends. bench/program/cells builds it and loads it by LD_PRELOAD. */
#include <stdio.h>
#include <stdlib.h>

extern void *__libc_malloc(size_t size);
extern void *__libc_calloc(size_t count, size_t size);
extern void *__libc_realloc(void *old, size_t size);

static unsigned long count;

void *malloc(size_t size) {
  count++;
  return __libc_malloc(size);
}

void *calloc(size_t items, size_t size) {
  count++;
  return __libc_calloc(items, size);
}

void *realloc(void *old, size_t size) {
  count++;
  return __libc_realloc(old, size);
}

__attribute__((destructor)) static void tell(void) {
  unsigned long counted = count;
  const char *name = getenv("ALLOCATIONS");
  FILE *file = name ? fopen(name, "w") : NULL;
  if (file) {
    fprintf(file, "%lu\n", counted);
    fclose(file);
  }
}
