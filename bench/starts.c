/* What bench/svscan.sh sets beside the suites; it compiles this itself. It begins 1,000 services or pairs as one process
 * can.
 *
 * starts each FOLDER: holds for each service in FOLDER what svscan holds, 4 descriptors: the folder, the lock and two
 * sockets; for a pair 12: the same of its logger, the FIFO twice, and the pipe between them. Four threads begin
 * the children by posix_spawn, as the library does that svscan is written with, each child with all descriptors closed. It
 * does no other work: no machine, no record, no trace, no relay.
 *
 * starts apart FOLDER: the same, but each of the four threads left the process's table of descriptors (unshare) while that
 * was empty, and opens what a child needs by its path. So no child begins with a copy of the long table.
 *
 * starts whole FOLDER: the same as each, but each service has two threads, as svscan gives it: one that writes the record
 * before the start, begins the child, and writes which process it is, how often it was started, and the record; and one
 * that waits for the child. As svscan does, it makes the sockets once all services were given to their threads. It has no
 * machine, no trace, and keeps nothing. After a TERM it ends each child, and writes what svscan writes of an end: the place
 * once, the record three times, how the child ended, how often, and a trace. Then the sockets and both threads go. */
#define _GNU_SOURCE
#include <dirent.h>
#include <errno.h>
#include <fcntl.h>
#include <pthread.h>
#include <sched.h>
#include <signal.h>
#include <spawn.h>
#include <stdio.h>
#include <stdlib.h>
#include <string.h>
#include <sys/file.h>
#include <sys/resource.h>
#include <sys/socket.h>
#include <sys/stat.h>
#include <sys/un.h>
#include <sys/wait.h>
#include <unistd.h>

enum { THREADS = 4, MOST = 20000, COPIES = 1 };

struct part {
	char path[300];
	int input, output, folder;
	int is_dead;
	pid_t child;
	pthread_mutex_t lock;
	pthread_cond_t begun;
};

static struct part *parts;
static int made, taken, apart, whole, ends_all, ended;
static pthread_barrier_t ready;
static pthread_mutex_t lock = PTHREAD_MUTEX_INITIALIZER;
static pthread_cond_t more = PTHREAD_COND_INITIALIZER, end = PTHREAD_COND_INITIALIZER, last = PTHREAD_COND_INITIALIZER;
extern char **environ;

static int must(int answer, const char *what) {
	if (answer < 0) {
		perror(what);
		exit(111);
	}
	return answer;
}

static const char *path(char *room, const char *folder, const char *name) {
	snprintf(room, 400, "%s/%s", folder, name);
	return room;
}

static void listen_at(const char *folder, const char *name) {
	char room[400];
	struct sockaddr_un at = {.sun_family = AF_UNIX};
	int listener = must(socket(AF_UNIX, SOCK_STREAM | SOCK_CLOEXEC | SOCK_NONBLOCK, 0), "socket");
	path(room, folder, name);
	if (strlen(room) >= sizeof at.sun_path) exit(111);
	strcpy(at.sun_path, room);
	unlink(room);
	must(bind(listener, (struct sockaddr *)&at, sizeof at), room);
	must(listen(listener, 128), room);
}

/* The folder and the lock of a part. */
static int hold(const char *folder) {
	char room[400];
	int home = must(open(folder, O_RDONLY | O_CLOEXEC), folder);
	if (mkdir(path(room, folder, "supervise"), 0700) && errno != EEXIST) must(-1, room);
	int held = must(open(path(room, folder, "supervise/lock"), O_WRONLY | O_CREAT | O_APPEND | O_CLOEXEC, 0600), room);
	must(flock(held, LOCK_EX | LOCK_NB), room);
	return home;
}

/* Its sockets. */
static void listen_in(const char *folder) {
	listen_at(folder, "supervise/control");
	listen_at(folder, "supervise/ok");
}

static void *serve(void *part);
static void *reap(void *part);

static void start(void *(*work)(void *), struct part *part) {
	pthread_attr_t how;
	pthread_t thread;
	pthread_attr_init(&how);
	pthread_attr_setstacksize(&how, 131072);
	errno = pthread_create(&thread, &how, work, part);
	if (errno) must(-1, "thread");
}

/* Hands a part to the threads that begin children, or to two of its own. */
static void give(int home, const char *folder, int input, int output) {
	pthread_mutex_lock(&lock);
	struct part *part = &parts[made++];
	snprintf(part->path, sizeof part->path, "%s", folder);
	part->folder = home;
	part->input = input;
	part->output = output;
	pthread_cond_signal(&more);
	pthread_mutex_unlock(&lock);
	if (!whole) return;
	pthread_mutex_init(&part->lock, NULL);
	pthread_cond_init(&part->begun, NULL);
	start(reap, part);
	start(serve, part);
}

/* A descriptor of the first thread's table in that of this one. */
static int own(int descriptor, int flags) {
	char room[400];
	if (!apart || descriptor < 3) return descriptor;
	snprintf(room, sizeof room, "/proc/%d/fd/%d", (int)getpid(), descriptor);
	return must(open(room, flags | O_CLOEXEC), room);
}

static pid_t begin(const struct part *part) {
	posix_spawn_file_actions_t actions;
	posix_spawnattr_t how;
	sigset_t all, none;
	pid_t pid;
	char *words[] = {"./run", NULL};
	int input = own(part->input, O_RDONLY), output = own(part->output, O_RDWR);
	posix_spawn_file_actions_init(&actions);
	posix_spawn_file_actions_adddup2(&actions, input, 0);
	posix_spawn_file_actions_adddup2(&actions, output, 1);
	posix_spawn_file_actions_addchdir_np(&actions, part->path);
	posix_spawn_file_actions_addclosefrom_np(&actions, 3);
	posix_spawnattr_init(&how);
	sigfillset(&all);
	sigemptyset(&none);
	posix_spawnattr_setsigdefault(&how, &all);
	posix_spawnattr_setsigmask(&how, &none);
	posix_spawnattr_setflags(&how, POSIX_SPAWN_SETSIGDEF | POSIX_SPAWN_SETSIGMASK);
	errno = posix_spawn(&pid, "./run", &actions, &how, words, environ);
	if (errno) must(-1, part->path);
	posix_spawn_file_actions_destroy(&actions);
	if (apart && input > 2) close(input);
	if (apart && output > 2) close(output);
	return pid;
}

/* Writes a file of a part: beside its place, and then into it. */
static void put(const struct part *part, const char *name, const char *bytes, size_t count) {
	char beside[100], place[100];
	snprintf(beside, sizeof beside, "/proc/self/fd/%d/supervise/%s.new", part->folder, name);
	snprintf(place, sizeof place, "/proc/self/fd/%d/supervise/%s", part->folder, name);
	int file = must(open(beside, O_WRONLY | O_CREAT | O_TRUNC | O_CLOEXEC, 0600), beside);
	must(fchmod(file, 0600), beside);
	must(write(file, bytes, count), beside);
	close(file);
	must(rename(beside, place), place);
}

/* The place of a part is written over. */
static void write_place(const struct part *part) {
	char room[400], line[64] = {0};
	int place = must(open(path(room, part->path, "supervise/place"), O_RDWR | O_CREAT | O_CLOEXEC, 0600), room);
	must(pwrite(place, line, sizeof line, 0), "place");
	close(place);
}

/* The end of a part: TERM to its child, and once that is dead, what is written of it. */
static void end_of(struct part *part, const char *status) {
	char room[400], trace[500] = {0};
	write_place(part);
	put(part, "status", status, 20);
	kill(part->child, SIGTERM);
	pthread_mutex_lock(&part->lock);
	while (!part->is_dead) pthread_cond_wait(&part->begun, &part->lock);
	pthread_mutex_unlock(&part->lock);
	put(part, "exit", trace, 60);
	put(part, "counts", "1 1\n", 4);
	put(part, "status", status, 20);
	put(part, "status", status, 20);
	put(part, "trace", trace, sizeof trace);
	unlink(path(room, part->path, "supervise/control"));
	unlink(path(room, part->path, "supervise/ok"));
}

/* What the thread of a part does: the record, the child, which process it is, how often it was started, the record. Then it
 * waits for the end of all. */
static void *serve(void *given) {
	struct part *part = given;
	char status[20] = {0}, line[600];
	put(part, "status", status, sizeof status);
	pid_t child = begin(part);
	pthread_mutex_lock(&part->lock);
	part->child = child;
	pthread_cond_signal(&part->begun);
	pthread_mutex_unlock(&part->lock);
	snprintf(line, sizeof line, "/proc/%d/stat", (int)child);
	int stat = must(open(line, O_RDONLY | O_CLOEXEC), line);
	must(read(stat, line, 512), "stat");
	close(stat);
	put(part, "process", line, 48);
	put(part, "counts", "1 0\n", 4);
	put(part, "status", status, sizeof status);
	sleep(1);
	put(part, "status", status, sizeof status);
	pthread_mutex_lock(&lock);
	while (!ends_all) pthread_cond_wait(&end, &lock);
	pthread_mutex_unlock(&lock);
	end_of(part, status);
	pthread_mutex_lock(&lock);
	ended++;
	pthread_cond_signal(&last);
	pthread_mutex_unlock(&lock);
	return given;
}

/* What waits for the child of a part. */
static void *reap(void *given) {
	struct part *part = given;
	pthread_mutex_lock(&part->lock);
	while (!part->child) pthread_cond_wait(&part->begun, &part->lock);
	pthread_mutex_unlock(&part->lock);
	waitpid(part->child, NULL, 0);
	pthread_mutex_lock(&part->lock);
	part->is_dead = 1;
	pthread_cond_signal(&part->begun);
	pthread_mutex_unlock(&part->lock);
	return given;
}

static void *begin_all(void *none) {
	if (apart) must(unshare(CLONE_FILES), "unshare");
	pthread_barrier_wait(&ready);
	for (;;) {
		pthread_mutex_lock(&lock);
		while (taken == made) pthread_cond_wait(&more, &lock);
		struct part *part = &parts[taken++];
		pthread_mutex_unlock(&lock);
		begin(part);
	}
	return none;
}

static int is_service(const struct dirent *entry) { return entry->d_name[0] != '.'; }

int main(int count, char **words) {
	struct rlimit most;
	struct dirent **services;
	pthread_t thread;
	char room[400], log[400];
	int ends[2];
	sigset_t term;
	if (count != 3) return 100;
	sigemptyset(&term);
	sigaddset(&term, SIGTERM);
	pthread_sigmask(SIG_BLOCK, &term, NULL);
	apart = !strcmp(words[1], "apart");
	whole = !strcmp(words[1], "whole");
	getrlimit(RLIMIT_NOFILE, &most);
	most.rlim_cur = most.rlim_max;
	setrlimit(RLIMIT_NOFILE, &most);
	must(chdir(words[2]), words[2]);
	parts = calloc(MOST, sizeof *parts);
	pthread_barrier_init(&ready, NULL, THREADS + 1);
	for (int i = 0; i < THREADS && !whole; i++) pthread_create(&thread, NULL, begin_all, NULL);
	if (!whole) pthread_barrier_wait(&ready);
	int found = must(scandir(".", &services, is_service, alphasort), words[2]);
	for (int i = 0; i < found && i < MOST / 2; i++) {
		const char *service = services[i]->d_name;
		path(log, service, "log");
		int home = hold(service);
		if (!whole) listen_in(service);
		if (access(log, F_OK)) {
			give(home, service, 0, 1);
			continue;
		}
		int log_home = hold(log);
		if (!whole) listen_in(log);
		if (mkfifo(path(room, service, "supervise/out"), 0600) && errno != EEXIST) must(-1, room);
		int output = must(open(room, O_RDWR | O_CLOEXEC), room);
		must(pipe2(ends, O_CLOEXEC), "pipe");
		for (int j = 0; j < COPIES; j++) must(fcntl(output, F_DUPFD_CLOEXEC, 3), room);
		give(home, service, 0, output);
		give(log_home, log, ends[0], 1);
	}
	for (int i = 0; whole && i < found && i < MOST / 2; i++) {
		path(log, services[i]->d_name, "log");
		listen_in(services[i]->d_name);
		if (!access(log, F_OK)) listen_in(log);
	}
	int sign;
	sigwait(&term, &sign);
	if (!whole) return 0;
	pthread_mutex_lock(&lock);
	ends_all = 1;
	pthread_cond_broadcast(&end);
	while (ended < made) pthread_cond_wait(&last, &lock);
	pthread_mutex_unlock(&lock);
	return 0;
}
