/* Notes the calls of a program's files, in their order, in the file that CALLS names. Where CALLS_MAKES is set, the name of
 * an old log that is looked for is there: another one made it in the last moment. */
#define _GNU_SOURCE
#include <dlfcn.h>
#include <fcntl.h>
#include <stdarg.h>
#include <stdio.h>
#include <stdlib.h>
#include <string.h>
#include <sys/stat.h>
#include <sys/types.h>
#include <unistd.h>
static char names[256][256];
static int notes = -1;
static void note(const char *call, const char *first, const char *second) {
  static int (*real_open)(const char *, int, ...);
  static ssize_t (*real_write)(int, const void *, size_t);
  char line[600];
  if (!real_open) real_open = dlsym(RTLD_NEXT, "open");
  if (!real_write) real_write = dlsym(RTLD_NEXT, "write");
  if (notes < 0) notes = real_open(getenv("CALLS"), O_WRONLY | O_CREAT | O_APPEND | O_CLOEXEC, 0644);
  int length = snprintf(line, sizeof line, "%s %s%s%s\n", call, first, *second ? " " : "", second);
  real_write(notes, line, length);
}
static const char *name(int fd) { return fd >= 0 && fd < 256 ? names[fd] : ""; }
int open(const char *path, int flags, ...) {
  static int (*real)(const char *, int, ...);
  va_list rest;
  va_start(rest, flags);
  int mode = va_arg(rest, int);
  va_end(rest);
  if (!real) real = dlsym(RTLD_NEXT, "open");
  int fd = real(path, flags, mode);
  if (fd >= 0 && fd < 256) snprintf(names[fd], sizeof names[fd], "%s", path);
  if (fd >= 0 && (flags & (O_WRONLY | O_RDWR))) note(flags & O_TRUNC ? "empty" : "open", path, "");
  return fd;
}
ssize_t write(int fd, const void *bytes, size_t count) {
  static ssize_t (*real)(int, const void *, size_t);
  if (!real) real = dlsym(RTLD_NEXT, "write");
  if (fd > 2) note("write", name(fd), "");
  return real(fd, bytes, count);
}
int statx(int folder, const char *restrict path, int flags, unsigned mask, struct statx *restrict found) {
  static int (*real)(int, const char *, int, unsigned, struct statx *);
  static int (*real_open)(const char *, int, ...);
  static ssize_t (*real_write)(int, const void *, size_t);
  if (!real) real = dlsym(RTLD_NEXT, "statx");
  if (!real_open) real_open = dlsym(RTLD_NEXT, "open");
  if (!real_write) real_write = dlsym(RTLD_NEXT, "write");
  if (getenv("CALLS_MAKES") && strstr(path, "/@")) {
    int fd = real_open(path, O_WRONLY | O_CREAT | O_EXCL | O_CLOEXEC, 0644);
    if (fd >= 0) {
      real_write(fd, "kept", 4);
      close(fd);
    }
  }
  return real(folder, path, flags, mask, found);
}
int fsync(int fd) {
  static int (*real)(int);
  if (!real) real = dlsym(RTLD_NEXT, "fsync");
  note("sync", name(fd), "");
  return real(fd);
}
int fdatasync(int fd) {
  static int (*real)(int);
  if (!real) real = dlsym(RTLD_NEXT, "fdatasync");
  note("sync", name(fd), "");
  return real(fd);
}
int unlink(const char *path) {
  static int (*real)(const char *);
  if (!real) real = dlsym(RTLD_NEXT, "unlink");
  note("remove", path, "");
  return real(path);
}
int rename(const char *from, const char *to) {
  static int (*real)(const char *, const char *);
  if (!real) real = dlsym(RTLD_NEXT, "rename");
  note(access(to, F_OK) == 0 ? "rename over" : "rename", from, to);
  return real(from, to);
}
