/* What the devices of a program give: at most READ_MOST bytes a read, at most WRITE_MOST a write, and of the time always the
   beginning of second CLOCK. The write whose number WRITE_STOPS gives, and each later one, takes nothing, and fails where
   WRITE_ERROR is an error number. Of writes are meant those to files, or where WRITE_TO is set those to the device of that
   number alone. With INTERRUPTED each of them, and each read of the input, is interrupted once before it is made. With
   CLOCK_COUNTS the clock gives a second for each read of the input, 100 for each of these writes, and 10000 for each time that
   it was looked at before. With CLOCK_OPENS second CLOCK is 1000 seconds later for each file that was opened whose path ends
   so. What is not set is as it is. */
#define _GNU_SOURCE
#include <dlfcn.h>
#include <errno.h>
#include <fcntl.h>
#include <stdarg.h>
#include <stdlib.h>
#include <string.h>
#include <time.h>
#include <unistd.h>
#define REAL(function) \
  static __typeof__(function) *real; \
  if (!real) real = (__typeof__(function) *)dlsym(RTLD_NEXT, #function)
static long number_in(const char *name) {
  const char *text = getenv(name);
  return text ? atol(text) : 0;
}
static size_t at_most(size_t count, long most) { return most > 0 && count > (size_t)most ? (size_t)most : count; }
/* Whether this call is one that is to be interrupted: each other one. */
static int is_interrupted(int *other) {
  if (!getenv("INTERRUPTED") || !(*other = !*other)) return 0;
  errno = EINTR;
  return 1;
}
static int is_meant(int fd) { return getenv("WRITE_TO") ? fd == number_in("WRITE_TO") : fd > 2; }
static long reads, writes, looks, opens;
int open(const char *path, int flags, ...) {
  const char *end = getenv("CLOCK_OPENS");
  va_list rest;
  va_start(rest, flags);
  int mode = va_arg(rest, int);
  va_end(rest);
  REAL(open);
  opens += end && strlen(path) >= strlen(end) && !strcmp(path + strlen(path) - strlen(end), end);
  return real(path, flags, mode);
}
ssize_t read(int fd, void *to, size_t count) {
  static int other;
  REAL(read);
  if (fd == 0 && is_interrupted(&other)) return -1;
  reads += fd == 0;
  return real(fd, to, at_most(count, number_in("READ_MOST")));
}
ssize_t write(int fd, const void *from, size_t count) {
  static int other;
  REAL(write);
  if (!is_meant(fd)) return real(fd, from, count);
  if (is_interrupted(&other)) return -1;
  if (++writes >= number_in("WRITE_STOPS") && number_in("WRITE_STOPS")) {
    errno = number_in("WRITE_ERROR");
    return errno ? -1 : 0;
  }
  return real(fd, from, at_most(count, number_in("WRITE_MOST")));
}
int clock_gettime(clockid_t which, struct timespec *time) {
  REAL(clock_gettime);
  if (which != CLOCK_REALTIME || !(getenv("CLOCK") || getenv("CLOCK_COUNTS"))) return real(which, time);
  time->tv_sec = getenv("CLOCK") ? number_in("CLOCK") + 1000 * opens : reads + 100 * writes + 10000 * looks++;
  time->tv_nsec = 0;
  return 0;
}
