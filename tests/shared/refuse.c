/* Preloaded to a program: refuses one of its calls to the system, and counts how many there were. REFUSED_PROGRAM is the name of the
   program, REFUSED_CALL the kind of call (memory, open, read, write, clock, look, mode, lock, cut, sync, rename, remove, rmdir), REFUSED_NUMBER
   which of these is refused, from 1 on, or 0 for none, and CALL_COUNT the file that gets the count. Where KILLED is `before` or `after`, the call
   isn't refused: the program is killed before it, or behind it, but never behind a call for memory, a read or a look at the clock. Where
   SLOWLY_STARTED is a number, what the program starts waits so many seconds before it becomes another program; where STARTS_LATE is one, the
   program waits so many milliseconds before it starts another. Where STARTS_REFUSED is a number, so many of its first starts are refused, by
   the fault with the number START_FAULT. Where CLOCK_RATE is a number, the program's monotonic clock runs so many times as fast, from the
   first look at it on. Where CLOCK_BACK is a number, its wall clock is set back by so many seconds, a second behind the program's start. Where
   SLEEPS is a path, the program doesn't sleep, and for how many seconds it would stands in that file. */
#define _GNU_SOURCE
#include <dlfcn.h>
#include <errno.h>
#include <signal.h>
#include <spawn.h>
#include <stdarg.h>
#include <stdio.h>
#include <stdlib.h>
#include <string.h>
#include <sys/file.h>
#include <sys/stat.h>
#include <sys/types.h>
#include <time.h>
#include <unistd.h>

static long made;
static __thread int is_last;
static long long start;

#define SECOND 1000000000LL

/* Whether this is the program itself, and none that it has started. */
static int is_program(void) {
    const char *program = getenv("REFUSED_PROGRAM");
    return program && strcmp(program_invocation_short_name, program) == 0;
}

/* Says how many calls there were. */
static void tell(void) {
    long calls = made;
    if (is_program()) {
        FILE *file = fopen(getenv("CALL_COUNT"), "w");
        if (file) { fprintf(file, "%ld\n", calls); fclose(file); }
    }
}

/* A program with threads ends by this call, and one without by its return. */
void _exit(int status) {
    static void (*real)(int) __attribute__((noreturn));
    tell();
    real = dlsym(RTLD_NEXT, "_exit");
    real(status);
}

__attribute__((destructor)) static void at_return(void) { tell(); }

/* Whether this call is the one to be refused. Behind the last call that is made, `ended` is called. */
static int is_refused(const char *call) {
    const char *which = getenv("REFUSED_CALL");
    const char *number = getenv("REFUSED_NUMBER");
    const char *killed = getenv("KILLED");
    is_last = which && number && is_program() && strcmp(which, call) == 0 && __atomic_add_fetch(&made, 1, __ATOMIC_SEQ_CST) == atol(number);
    if (is_last && killed && strcmp(killed, "before") == 0) kill(getpid(), SIGKILL);
    return is_last && !killed;
}

static void ended(void) {
    if (is_last) kill(getpid(), SIGKILL);
}

void *malloc(size_t size) {
    static void *(*real)(size_t);
    if (!real) real = dlsym(RTLD_NEXT, "malloc");
    if (is_refused("memory")) { errno = ENOMEM; return NULL; }
    return real(size);
}

void *realloc(void *old, size_t size) {
    static void *(*real)(void *, size_t);
    if (!real) real = dlsym(RTLD_NEXT, "realloc");
    if (is_refused("memory")) { errno = ENOMEM; return NULL; }
    return real(old, size);
}

int open(const char *path, int flags, ...) {
    static int (*real)(const char *, int, ...);
    va_list rest;
    va_start(rest, flags);
    int mode = va_arg(rest, int);
    va_end(rest);
    if (!real) real = dlsym(RTLD_NEXT, "open");
    if (is_refused("open")) { errno = EACCES; return -1; }
    int file = real(path, flags, mode);
    ended();
    return file;
}

ssize_t read(int file, void *to, size_t size) {
    static ssize_t (*real)(int, void *, size_t);
    if (!real) real = dlsym(RTLD_NEXT, "read");
    if (is_refused("read")) { errno = EIO; return -1; }
    return real(file, to, size);
}

ssize_t write(int file, const void *from, size_t size) {
    static ssize_t (*real)(int, const void *, size_t);
    if (!real) real = dlsym(RTLD_NEXT, "write");
    if (is_refused("write")) { errno = EIO; return -1; }
    ssize_t written = real(file, from, size);
    ended();
    return written;
}

int fsync(int file) {
    static int (*real)(int);
    if (!real) real = dlsym(RTLD_NEXT, "fsync");
    if (is_refused("sync")) { errno = EIO; return -1; }
    int status = real(file);
    ended();
    return status;
}

int fdatasync(int file) {
    static int (*real)(int);
    if (!real) real = dlsym(RTLD_NEXT, "fdatasync");
    if (is_refused("sync")) { errno = EIO; return -1; }
    int status = real(file);
    ended();
    return status;
}

int flock(int file, int operation) {
    static int (*real)(int, int);
    if (!real) real = dlsym(RTLD_NEXT, "flock");
    if (is_refused("lock")) { errno = ENOLCK; return -1; }
    int status = real(file, operation);
    ended();
    return status;
}

int ftruncate(int file, off_t size) {
    static int (*real)(int, off_t);
    if (!real) real = dlsym(RTLD_NEXT, "ftruncate");
    if (is_refused("cut")) { errno = EIO; return -1; }
    int status = real(file, size);
    ended();
    return status;
}

int fchmod(int file, mode_t mode) {
    static int (*real)(int, mode_t);
    if (!real) real = dlsym(RTLD_NEXT, "fchmod");
    if (is_refused("mode")) { errno = EPERM; return -1; }
    int status = real(file, mode);
    ended();
    return status;
}

int rename(const char *from, const char *to) {
    static int (*real)(const char *, const char *);
    if (!real) real = dlsym(RTLD_NEXT, "rename");
    if (is_refused("rename")) { errno = EACCES; return -1; }
    int status = real(from, to);
    ended();
    return status;
}

int unlink(const char *path) {
    static int (*real)(const char *);
    if (!real) real = dlsym(RTLD_NEXT, "unlink");
    if (is_refused("remove")) { errno = EACCES; return -1; }
    int status = real(path);
    ended();
    return status;
}

int rmdir(const char *path) {
    static int (*real)(const char *);
    if (!real) real = dlsym(RTLD_NEXT, "rmdir");
    if (is_refused("rmdir")) { errno = EACCES; return -1; }
    int status = real(path);
    ended();
    return status;
}

int statx(int folder, const char *path, int flags, unsigned mask, struct statx *to) {
    static int (*real)(int, const char *, int, unsigned, struct statx *);
    if (!real) real = dlsym(RTLD_NEXT, "statx");
    if (is_refused("look")) { errno = EACCES; return -1; }
    int status = real(folder, path, flags, mask, to);
    ended();
    return status;
}

static int look(clockid_t clock, struct timespec *to) {
    static int (*real)(clockid_t, struct timespec *);
    if (!real) real = dlsym(RTLD_NEXT, "clock_gettime");
    return real(clock, to);
}

static long long monotonic(void) {
    struct timespec now;
    look(CLOCK_MONOTONIC, &now);
    return now.tv_sec * SECOND + now.tv_nsec;
}

__attribute__((constructor)) static void at_start(void) { start = monotonic(); }

int clock_gettime(clockid_t clock, struct timespec *to) {
    static long long first;
    const char *rate = getenv("CLOCK_RATE");
    const char *back = getenv("CLOCK_BACK");
    long long none = 0, now;
    int status;
    if (is_refused("clock")) { errno = EINVAL; return -1; }
    status = look(clock, to);
    if (status != 0 || !is_program()) return status;
    if (clock == CLOCK_REALTIME && back && monotonic() - start >= SECOND) to->tv_sec -= atoll(back);
    if (clock != CLOCK_MONOTONIC || !rate) return status;
    now = to->tv_sec * SECOND + to->tv_nsec;
    __atomic_compare_exchange_n(&first, &none, now, 0, __ATOMIC_SEQ_CST, __ATOMIC_SEQ_CST);
    now = first + (now - first) * atoll(rate);
    to->tv_sec = now / SECOND;
    to->tv_nsec = now % SECOND;
    return status;
}

int nanosleep(const struct timespec *asked, struct timespec *left) {
    static int (*real)(const struct timespec *, struct timespec *);
    const char *sleeps = getenv("SLEEPS");
    FILE *file;
    if (!real) real = dlsym(RTLD_NEXT, "nanosleep");
    if (!sleeps || !is_program()) return real(asked, left);
    file = fopen(sleeps, "a");
    if (file) { fprintf(file, "%ld\n", (long)asked->tv_sec); fclose(file); }
    return 0;
}

int posix_spawn(pid_t *child, const char *path, const posix_spawn_file_actions_t *actions, const posix_spawnattr_t *attributes,
                char *const words[], char *const variables[]) {
    static int (*real)(pid_t *, const char *, const posix_spawn_file_actions_t *, const posix_spawnattr_t *, char *const[], char *const[]);
    const char *seconds = getenv("SLOWLY_STARTED");
    const char *milliseconds = getenv("STARTS_LATE");
    const char *refused = getenv("STARTS_REFUSED");
    static long starts;
    if (!real) real = dlsym(RTLD_NEXT, "posix_spawn");
    if (milliseconds && is_program()) usleep((useconds_t)atoi(milliseconds) * 1000);
    if (refused && is_program() && __atomic_add_fetch(&starts, 1, __ATOMIC_SEQ_CST) <= atol(refused)) return atoi(getenv("START_FAULT"));
    if (!seconds || !is_program()) return real(child, path, actions, attributes, words, variables);
    *child = fork();
    if (*child == 0) {
        sleep(atoi(seconds));
        execve(path, words, variables);
        abort();
    }
    return *child < 0 ? errno : 0;
}
