/* Stands before the C library, counts the calls that the program makes on the system from the start of
 * its main on, and fails one of them with EIO: the one whose number FAIL_AT has, counted from 1. With
 * FAIL_EVERY=N each Nth call of each name fails with EINTR instead. With neither none fails. Where
 * FAIL_COUNT_TO names a file, the names of all calls go there at the end, one a line.
 * tests/checks/failing runs the program once for each call, tests/checks/odd with every other one. */
#define _GNU_SOURCE
#include <dirent.h>
#include <dlfcn.h>
#include <errno.h>
#include <fcntl.h>
#include <stdarg.h>
#include <stdlib.h>
#include <string.h>
#include <sys/file.h>
#include <sys/stat.h>
#include <sys/uio.h>
#include <unistd.h>

enum { MOST = 1 << 16 };
static const char *called[MOST];
static int count, begun;
static long fail_at, fail_every;

/* Whether this call is to fail; `own` is how many there were of its name. */
static int fails(const char *name, long *own) {
  if (!begun) return 0;
  if (count < MOST) called[count] = name;
  count++;
  (*own)++;
  if (count == fail_at) {
    errno = EIO;
    return 1;
  }
  if (fail_every && *own % fail_every == 0) {
    errno = EINTR;
    return 1;
  }
  return 0;
}

#define REAL(name) ((__typeof__(&name))dlsym(RTLD_NEXT, #name))
#define CALL(type, name, parameters, ...)                        \
  type name parameters {                                         \
    static long own;                                             \
    if (fails(#name, &own)) return (type)-1;                     \
    return REAL(name)(__VA_ARGS__);                              \
  }
#define CALL_OF_NONE(type, name, parameters, ...)                \
  type name parameters {                                         \
    static long own;                                             \
    if (fails(#name, &own)) return 0;                            \
    return REAL(name)(__VA_ARGS__);                              \
  }
#define MODE(flags)                                              \
  static long own;                                               \
  mode_t mode = 0;                                               \
  if ((flags) & (O_CREAT | O_TMPFILE)) {                         \
    va_list more;                                                \
    va_start(more, flags);                                       \
    mode = va_arg(more, mode_t);                                 \
    va_end(more);                                                \
  }

int open(const char *path, int flags, ...) { MODE(flags) return fails("open", &own) ? -1 : REAL(open)(path, flags, mode); }
int open64(const char *path, int flags, ...) { MODE(flags) return fails("open64", &own) ? -1 : REAL(open64)(path, flags, mode); }
int openat(int at, const char *path, int flags, ...) { MODE(flags) return fails("openat", &own) ? -1 : REAL(openat)(at, path, flags, mode); }
int openat64(int at, const char *path, int flags, ...) { MODE(flags) return fails("openat64", &own) ? -1 : REAL(openat64)(at, path, flags, mode); }

CALL(int, stat, (const char *path, struct stat *found), path, found)
CALL(int, lstat, (const char *path, struct stat *found), path, found)
CALL(int, fstat, (int fd, struct stat *found), fd, found)
CALL(int, fstatat, (int at, const char *path, struct stat *found, int flags), at, path, found, flags)
CALL(int, stat64, (const char *path, struct stat64 *found), path, found)
CALL(int, lstat64, (const char *path, struct stat64 *found), path, found)
CALL(int, fstat64, (int fd, struct stat64 *found), fd, found)
CALL(int, statx, (int at, const char *path, int flags, unsigned mask, struct statx *found), at, path, flags, mask, found)
CALL(ssize_t, read, (int fd, void *to, size_t size), fd, to, size)
CALL(ssize_t, readv, (int fd, const struct iovec *to, int parts), fd, to, parts)
CALL(ssize_t, pread, (int fd, void *to, size_t size, off_t at), fd, to, size, at)
CALL(ssize_t, pread64, (int fd, void *to, size_t size, off64_t at), fd, to, size, at)
CALL(ssize_t, write, (int fd, const void *from, size_t size), fd, from, size)
CALL(ssize_t, writev, (int fd, const struct iovec *from, int parts), fd, from, parts)
CALL(ssize_t, pwrite, (int fd, const void *from, size_t size, off_t at), fd, from, size, at)
CALL(ssize_t, pwrite64, (int fd, const void *from, size_t size, off64_t at), fd, from, size, at)
CALL(off_t, lseek, (int fd, off_t at, int from), fd, at, from)
CALL(off64_t, lseek64, (int fd, off64_t at, int from), fd, at, from)
CALL(int, fsync, (int fd), fd)
CALL(int, fdatasync, (int fd), fd)
CALL(int, ftruncate, (int fd, off_t size), fd, size)
CALL(int, ftruncate64, (int fd, off64_t size), fd, size)
CALL(int, mkdir, (const char *path, mode_t mode), path, mode)
CALL(int, mkdirat, (int at, const char *path, mode_t mode), at, path, mode)
CALL(int, flock, (int fd, int how), fd, how)
CALL(ssize_t, getdents64, (int fd, void *to, size_t size), fd, to, size)
CALL_OF_NONE(DIR *, opendir, (const char *path), path)
CALL_OF_NONE(DIR *, fdopendir, (int fd), fd)
CALL_OF_NONE(struct dirent *, readdir, (DIR *folder), folder)
CALL_OF_NONE(struct dirent64 *, readdir64, (DIR *folder), folder)
CALL_OF_NONE(char *, getcwd, (char *to, size_t size), to, size)

static int (*program)(int, char **, char **);

static int from_main(int words, char **given, char **environment) {
  const char *at = getenv("FAIL_AT"), *every = getenv("FAIL_EVERY");
  fail_at = at ? atol(at) : 0;
  fail_every = every ? atol(every) : 0;
  begun = 1;
  return program(words, given, environment);
}

int __libc_start_main(int (*main)(int, char **, char **), int words, char **given, void (*init)(void), void (*fini)(void),
                      void (*loader)(void), void *stack) {
  program = main;
  int (*real)(int (*)(int, char **, char **), int, char **, void (*)(void), void (*)(void), void (*)(void), void *) =
      dlsym(RTLD_NEXT, "__libc_start_main");
  return real(from_main, words, given, init, fini, loader, stack);
}

__attribute__((destructor)) static void tell(void) {
  const char *to = getenv("FAIL_COUNT_TO");
  int all = count < MOST ? count : MOST;
  begun = 0;
  int out = to ? open(to, O_WRONLY | O_CREAT | O_TRUNC, 0666) : -1;
  if (out < 0) return;
  for (int at = 0; at < all; at++) {
    if (write(out, called[at], strlen(called[at])) < 0 || write(out, "\n", 1) < 0) break;
  }
  close(out);
}
