/* Stands before the C library's malloc and realloc, counts how often the program asks for memory from
 * the start of its main on, and refuses it once: the time that REFUSE_AT has, counted from 1. At the end
 * the count goes to the file that REFUSE_COUNT_TO names. tests/checks/failing runs the program so once for
 * each time. A program that brings its own malloc isn't counted. */
#define _GNU_SOURCE
#include <dlfcn.h>
#include <errno.h>
#include <stdio.h>
#include <stdlib.h>

extern void *__libc_malloc(size_t size);
extern void *__libc_realloc(void *old, size_t size);

static long count, refuse_at;
static int begun;

static int refuses(void) {
  if (!begun || ++count != refuse_at) return 0;
  errno = ENOMEM;
  return 1;
}

void *malloc(size_t size) { return refuses() ? NULL : __libc_malloc(size); }
void *realloc(void *old, size_t size) { return refuses() ? NULL : __libc_realloc(old, size); }

static int (*program)(int, char **, char **);

static int from_main(int words, char **given, char **environment) {
  const char *at = getenv("REFUSE_AT");
  refuse_at = at ? atol(at) : 0;
  begun = 1;
  return program(words, given, environment);
}

int __libc_start_main(int (*main)(int, char **, char **), int words, char **given, void (*init)(void), void (*fini)(void),
                      void (*loader)(void), void *stack) {
  program = main;
  int (*real)(int (*)(int, char **, char **), int, char **, void (*)(void), void (*)(void), void (*)(void), void *) =
      dlsym(RTLD_NEXT, "__libc_start_main");
  return real(from_main, words, given, init, fini, loader, stack);
}

__attribute__((destructor)) static void tell(void) {
  const char *to = getenv("REFUSE_COUNT_TO");
  long all = count;
  begun = 0;
  FILE *out = to ? fopen(to, "w") : NULL;
  if (!out) return;
  fprintf(out, "%ld\n", all);
  fclose(out);
}
