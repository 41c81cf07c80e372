/* Stands before the C library's fsync, and keeps what a disk would have: a file's bytes as they were
 * at its last sync, and of a folder the names that it had at its last one. tests/checks/lose makes a crash of
 * it. LOSE_FROM is the folder that is watched, LOSE_TO where the copies go; with LOSE_LIE set, a sync
 * does nothing and says that it did; LOSE_STOP_AT=N ends the program in front of its Nth sync there. */
#define _GNU_SOURCE
#include <dirent.h>
#include <dlfcn.h>
#include <fcntl.h>
#include <stdio.h>
#include <stdlib.h>
#include <string.h>
#include <sys/stat.h>
#include <unistd.h>

enum { STOPPED = 99 };

static void make_folders(char *path) {
  for (char *at = path + 1; *at; at++)
    if (*at == '/') {
      *at = 0;
      mkdir(path, 0777);
      *at = '/';
    }
}

static void copy(const char *from, FILE *out) {
  FILE *in = fopen(from, "rb");
  if (!in) return;
  char buffer[65536];
  for (size_t n; (n = fread(buffer, 1, sizeof buffer, in)) > 0;) fwrite(buffer, 1, n, out);
  fclose(in);
}

static void list(const char *from, FILE *out) {
  DIR *folder = opendir(from);
  if (!folder) return;
  for (struct dirent *entry; (entry = readdir(folder));) fprintf(out, "%s\n", entry->d_name);
  closedir(folder);
}

int fsync(int fd) {
  int (*real)(int) = dlsym(RTLD_NEXT, "fsync");
  const char *from = getenv("LOSE_FROM"), *to = getenv("LOSE_TO");
  char link[64], path[4096], kept[8192], half[8200];
  snprintf(link, sizeof link, "/proc/self/fd/%d", fd);
  ssize_t n = readlink(link, path, sizeof path - 1);
  struct stat found;
  if (!from || !to || n < 0 || fstat(fd, &found) < 0) return real(fd);
  path[n] = 0;
  if (strncmp(path, from, strlen(from)) != 0) return real(fd);
  static long count;
  const char *stop = getenv("LOSE_STOP_AT");
  if (stop && ++count == atol(stop)) _exit(STOPPED);
  if (getenv("LOSE_LIE")) return 0;
  int is_folder = S_ISDIR(found.st_mode);
  snprintf(kept, sizeof kept, "%s%s%s", to, path + strlen(from), is_folder ? "/.names" : "");
  snprintf(half, sizeof half, "%s.half", kept);
  make_folders(half);
  FILE *out = fopen(half, "wb");
  if (!out) return real(fd);
  if (is_folder) list(path, out);
  else copy(path, out);
  fclose(out);
  rename(half, kept);
  return 0;
}
