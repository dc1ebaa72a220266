#define _POSIX_C_SOURCE 200809L
#include "stored.h"

#include <errno.h>
#include <fcntl.h>
#include <stdio.h>
#include <stdlib.h>
#include <string.h>
#include <sys/mman.h>
#include <unistd.h>

enum { LONGEST = 4096 };

void fail(const char *what, const char *why) {
  fprintf(stderr, "%s: %s\n", what, why);
  exit(1);
}

const char *beside(const char *path, const char *ending) {
  static char made[LONGEST];
  if (snprintf(made, LONGEST, "%s%s", path, ending) >= LONGEST)
    fail(path, "too long a path");
  return made;
}

void write_synced(const char *path, const void *bytes, size_t length) {
  int fd = open(path, O_WRONLY | O_CREAT | O_TRUNC, 0644);
  const char *rest = (const char *)bytes;
  while (fd >= 0 && length > 0) {
    ssize_t written = write(fd, rest, length);
    if (written < 0)
      fail(path, strerror(errno));
    rest += written;
    length -= (size_t)written;
  }
  if (fd < 0 || fsync(fd) != 0 || close(fd) != 0)
    fail(path, strerror(errno));
}

/* Waits until the disk knows the names in the file's folder as they are now. */
static void sync_folder(const char *path) {
  char folder[LONGEST] = ".";
  const char *slash = strrchr(path, '/');
  if (slash != NULL && (slash - path) + 1 < LONGEST)
    snprintf(folder, LONGEST, "%.*s", (int)(slash - path) + 1, path);
  int fd = open(folder, O_RDONLY);
  if (fd < 0 || fsync(fd) != 0 || close(fd) != 0)
    fail(folder, strerror(errno));
}

void put_in_place(const char *path, const uint32_t *words, size_t count) {
  const char *copy = beside(path, ".new");
  write_synced(copy, words, count * sizeof *words);
  if (rename(copy, path) != 0)
    fail(path, strerror(errno));
  sync_folder(path);
}

uint32_t *map_words(const char *path, size_t count) {
  int fd = open(path, O_RDONLY);
  off_t bytes = fd < 0 ? -1 : lseek(fd, 0, SEEK_END);
  if (bytes < 0)
    fail(path, strerror(errno));
  if ((uintmax_t)bytes != count * sizeof(uint32_t))
    fail(path, "not of the size that its parameters give");
  void *words = mmap(NULL, count * sizeof(uint32_t), PROT_READ | PROT_WRITE, MAP_PRIVATE, fd, 0);
  if (words == MAP_FAILED || close(fd) != 0)
    fail(path, strerror(errno));
  return (uint32_t *)words;
}
