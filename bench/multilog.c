/* What bench/multilog.sh measures with; it compiles this itself.
 *
 * run PROGRAM ARG..: runs a program over the standard input; prints its nanoseconds and its peak memory in KB.
 *
 * least PER OUT FILE KEEP: only the system calls of `dtools multilog ./log`, and none of its work: of what they hold
 * nothing is looked at. Reads blocks of 32768 bytes, reads the clock once a block, and writes OUT bytes for each PER that
 * came, in pieces of at most 32768, into log/current; where FILE is more than 0, each FILE bytes become an old file, of
 * which there are KEEP - 1: fsync, lstat, rename, close, open, and unlink of the oldest.
 *
 * wait COUNT PROGRAM ARG..: runs a program over a pipe, puts COUNT lines into it, each once the program rests, and
 * prints the median of the nanoseconds until the line stands in log/current. */
#define _GNU_SOURCE
#include <fcntl.h>
#include <stdio.h>
#include <stdlib.h>
#include <string.h>
#include <sys/resource.h>
#include <sys/stat.h>
#include <sys/wait.h>
#include <time.h>
#include <unistd.h>

#define BLOCK 32768

static long long now(void) {
  struct timespec t;
  clock_gettime(CLOCK_MONOTONIC, &t);
  return t.tv_sec * 1000000000LL + t.tv_nsec;
}

static void fail(const char *what) {
  perror(what);
  exit(111);
}

static int run(char **words) {
  long long begin = now();
  pid_t child = vfork();
  if (child < 0) fail("vfork");
  if (child == 0) {
    execvp(words[0], words);
    _exit(111);
  }
  int status;
  struct rusage used;
  if (wait4(child, &status, 0, &used) < 0) fail("wait4");
  printf("%lld %ld\n", now() - begin, used.ru_maxrss);
  return status != 0;
}

static char block[BLOCK];
static char old[64], oldest[64];
static long long made;

static int begin_current(void) {
  int fd = open("log/current", O_WRONLY | O_APPEND | O_CREAT | O_CLOEXEC, 0644);
  if (fd < 0) fail("open");
  return fd;
}

/* The names of the old files rise; those that were there before have smaller ones. */
static int finish(int fd, long long keep) {
  struct stat found;
  made++;
  snprintf(old, sizeof old, "log/@4%023llx.s", made);
  fsync(fd);
  lstat(old, &found);
  if (rename("log/current", old) < 0) fail("rename");
  close(fd);
  fd = begin_current();
  if (made >= keep) {
    snprintf(oldest, sizeof oldest, "log/@4%023llx.s", made - keep + 1);
    if (unlink(oldest) < 0) fail("unlink");
  }
  return fd;
}

static int least(long long per, long long out, long long file, long long keep) {
  long long room = file, left = 0;
  struct timespec reading;
  mkdir("log", 0755);
  /* Those that are there already: their names are those of the first ones. */
  for (made = 0;; made++) {
    struct stat found;
    snprintf(old, sizeof old, "log/@4%023llx.s", made + 1);
    if (lstat(old, &found) < 0) break;
  }
  int fd = begin_current();
  for (;;) {
    ssize_t count = read(0, block, BLOCK);
    if (count < 0) fail("read");
    if (count == 0) break;
    clock_gettime(CLOCK_REALTIME, &reading);
    left += count * out;
    long long wanted = left / per;
    left -= wanted * per;
    while (wanted > 0) {
      long long piece = wanted < BLOCK ? wanted : BLOCK;
      if (file && piece > room) piece = room;
      if (write(fd, block, piece) != piece) fail("write");
      wanted -= piece;
      if (file && (room -= piece) == 0) {
        fd = finish(fd, keep);
        room = file;
      }
    }
  }
  return 0;
}

static int by_size(const void *a, const void *b) {
  long long x = *(const long long *)a, y = *(const long long *)b;
  return (x > y) - (x < y);
}

static off_t size_of(const char *path) {
  struct stat found;
  return stat(path, &found) < 0 ? -1 : found.st_size;
}

static int wait_for_lines(int count, char **words) {
  int ends[2];
  long long *took = calloc(count, sizeof *took);
  if (!took || pipe(ends) < 0) fail("pipe");
  fcntl(ends[1], F_SETFD, FD_CLOEXEC);
  pid_t child = fork();
  if (child < 0) fail("fork");
  if (child == 0) {
    dup2(ends[0], 0);
    close(ends[0]);
    execvp(words[0], words);
    _exit(111);
  }
  close(ends[0]);
  for (int i = 0; i < count + 10; i++) {
    char line[32];
    int len = snprintf(line, sizeof line, "line %d\n", i);
    struct timespec rest = {0, i ? 300000 : 200000000};
    nanosleep(&rest, NULL);
    off_t before = size_of("log/current");
    long long begin = now(), limit = begin + 5000000000LL;
    if (write(ends[1], line, len) != len) fail("write");
    while (size_of("log/current") == before || (before < 0 && size_of("log/current") == 0))
      if (now() > limit) {
        fprintf(stderr, "no line came\n");
        return 1;
      }
    if (i >= 10) took[i - 10] = now() - begin;
  }
  close(ends[1]);
  waitpid(child, NULL, 0);
  qsort(took, count, sizeof *took, by_size);
  printf("%lld\n", took[count / 2]);
  return 0;
}

int main(int argc, char **argv) {
  if (argc > 2 && !strcmp(argv[1], "run")) return run(argv + 2);
  if (argc == 6 && !strcmp(argv[1], "least"))
    return least(atoll(argv[2]), atoll(argv[3]), atoll(argv[4]), atoll(argv[5]));
  if (argc > 3 && !strcmp(argv[1], "wait")) return wait_for_lines(atoi(argv[2]), argv + 3);
  return 100;
}
