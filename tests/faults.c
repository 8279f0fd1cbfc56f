/* Makes one call of a program fail. FAULT is CALL:N:ERRNO: the N-th call of this name, counted from 1 over all threads, fails
   with this error number; with CALL:N:ERRNO:on so do all later ones. A call that failed so makes the file FAULT_MET. */
#define _GNU_SOURCE
#include <dirent.h>
#include <dlfcn.h>
#include <errno.h>
#include <fcntl.h>
#include <poll.h>
#include <pthread.h>
#include <signal.h>
#include <spawn.h>
#include <stdarg.h>
#include <stdatomic.h>
#include <stdlib.h>
#include <string.h>
#include <sys/epoll.h>
#include <sys/file.h>
#include <sys/socket.h>
#include <sys/stat.h>
#include <sys/syscall.h>
#include <sys/wait.h>
#include <unistd.h>
static char call[32];
static int at, number, later, armed;
static const char *met;
static atomic_int calls;
__attribute__((constructor)) static void arm(void) {
  const char *fault = getenv("FAULT");
  met = getenv("FAULT_MET");
  if (!fault || !met) return;
  const char *colon = strchr(fault, ':');
  memcpy(call, fault, colon - fault);
  char *rest;
  at = strtol(colon + 1, &rest, 10);
  number = strtol(rest + 1, &rest, 10);
  later = *rest == ':';
  armed = 1;
  unsetenv("LD_PRELOAD");
}
/* Whether this call is one that is to fail. */
static int fails(const char *name) {
  if (!armed || strcmp(name, call)) return 0;
  int count = ++calls;
  if (count != at && !(later && count > at)) return 0;
  int fd = syscall(SYS_open, met, O_WRONLY | O_CREAT | O_CLOEXEC, 0644);
  if (fd >= 0) syscall(SYS_close, fd);
  errno = number;
  return 1;
}
#define REAL(function) \
  static __typeof__(function) *real; \
  if (!real) real = (__typeof__(function) *)dlsym(RTLD_NEXT, #function)
void *__libc_malloc(size_t), *__libc_realloc(void *, size_t);
void *malloc(size_t size) { return fails("malloc") ? NULL : __libc_malloc(size); }
void *realloc(void *old, size_t size) { return fails("malloc") ? NULL : __libc_realloc(old, size); }
ssize_t read(int fd, void *to, size_t count) { REAL(read); return fails("read") ? -1 : real(fd, to, count); }
ssize_t write(int fd, const void *from, size_t count) { REAL(write); return fails("write") ? -1 : real(fd, from, count); }
int open(const char *path, int flags, ...) {
  va_list rest;
  va_start(rest, flags);
  int mode = va_arg(rest, int);
  va_end(rest);
  REAL(open);
  return fails("open") ? -1 : real(path, flags, mode);
}
int openat(int folder, const char *path, int flags, ...) {
  va_list rest;
  va_start(rest, flags);
  int mode = va_arg(rest, int);
  va_end(rest);
  REAL(openat);
  return fails("open") ? -1 : real(folder, path, flags, mode);
}
int fsync(int fd) { REAL(fsync); return fails("fsync") ? -1 : real(fd); }
int fdatasync(int fd) { REAL(fdatasync); return fails("fsync") ? -1 : real(fd); }
int rename(const char *from, const char *to) { REAL(rename); return fails("rename") ? -1 : real(from, to); }
int unlink(const char *path) { REAL(unlink); return fails("unlink") ? -1 : real(path); }
int mkdir(const char *path, mode_t mode) { REAL(mkdir); return fails("mkdir") ? -1 : real(path, mode); }
int ftruncate(int fd, off_t size) { REAL(ftruncate); return fails("ftruncate") ? -1 : real(fd, size); }
int fchmod(int fd, mode_t mode) { REAL(fchmod); return fails("fchmod") ? -1 : real(fd, mode); }
int flock(int fd, int how) { REAL(flock); return fails("flock") ? -1 : real(fd, how); }
int fcntl(int fd, int how, ...) {
  va_list rest;
  va_start(rest, how);
  long value = va_arg(rest, long);
  va_end(rest);
  REAL(fcntl);
  return fails("fcntl") ? -1 : real(fd, how, value);
}
int accept4(int fd, struct sockaddr *from, socklen_t *size, int flags) { REAL(accept4); return fails("accept") ? -1 : real(fd, from, size, flags); }
int socket(int domain, int kind, int protocol) { REAL(socket); return fails("socket") ? -1 : real(domain, kind, protocol); }
int bind(int fd, const struct sockaddr *to, socklen_t size) { REAL(bind); return fails("bind") ? -1 : real(fd, to, size); }
int listen(int fd, int queue) { REAL(listen); return fails("listen") ? -1 : real(fd, queue); }
int connect(int fd, const struct sockaddr *to, socklen_t size) { REAL(connect); return fails("connect") ? -1 : real(fd, to, size); }
ssize_t send(int fd, const void *from, size_t count, int flags) { REAL(send); return fails("send") ? -1 : real(fd, from, count, flags); }
ssize_t recv(int fd, void *to, size_t count, int flags) { REAL(recv); return fails("recv") ? -1 : real(fd, to, count, flags); }
int pipe2(int ends[2], int flags) { REAL(pipe2); return fails("pipe") ? -1 : real(ends, flags); }
int eventfd(unsigned first, int flags) { REAL(eventfd); return fails("eventfd") ? -1 : real(first, flags); }
int poll(struct pollfd *asked, nfds_t count, int limit) { REAL(poll); return fails("poll") ? -1 : real(asked, count, limit); }
int epoll_create1(int flags) { REAL(epoll_create1); return fails("epoll_create") ? -1 : real(flags); }
int epoll_ctl(int fd, int how, int which, struct epoll_event *event) { REAL(epoll_ctl); return fails("epoll_ctl") ? -1 : real(fd, how, which, event); }
int kill(pid_t pid, int signal) { REAL(kill); return fails("kill") ? -1 : real(pid, signal); }
ssize_t getdents64(int fd, void *to, size_t count) { REAL(getdents64); return fails("getdents") ? -1 : real(fd, to, count); }
int posix_spawn(pid_t *pid, const char *path, const posix_spawn_file_actions_t *actions, const posix_spawnattr_t *how, char *const words[], char *const around[]) {
  REAL(posix_spawn);
  return fails("spawn") ? number : real(pid, path, actions, how, words, around);
}
int pthread_create(pthread_t *thread, const pthread_attr_t *how, void *(*run)(void *), void *with) {
  REAL(pthread_create);
  return fails("thread") ? number : real(thread, how, run, with);
}
