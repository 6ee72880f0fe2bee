/* Starts `true` so many times, layer after layer, on so many threads: each start has its standard output in a pipe that is read to
 * its end, and is waited for. This is what `backfill run` can't do without. Words: THREADS LAYERS WIDTH [handed]. A thread takes its
 * next program by itself; `handed`, it is handed each by the main thread, which then sleeps until one has ended, as a scheduler does. */
#define _GNU_SOURCE
#include <fcntl.h>
#include <linux/futex.h>
#include <pthread.h>
#include <spawn.h>
#include <stdatomic.h>
#include <stdio.h>
#include <stdlib.h>
#include <sys/syscall.h>
#include <sys/wait.h>
#include <unistd.h>

extern char **environ;

enum { EMPTY, PARKED, NOTIFIED };
enum { NOTHING, RUN, STOP };

/* A thread sleeps on one until another wakes it. */
typedef atomic_uint parker;

typedef struct {
    parker called;
    atomic_int job, ended;
    int is_busy;
    pthread_t worker;
} __attribute__((aligned(128))) lane;

static atomic_int left;
static parker answered;
static lane lanes[64];

static void park(parker *at) {
    unsigned empty = EMPTY;
    atomic_compare_exchange_strong(at, &empty, PARKED);
    for (unsigned notified = NOTIFIED; !atomic_compare_exchange_strong(at, &notified, EMPTY); notified = NOTIFIED)
        syscall(SYS_futex, at, FUTEX_WAIT_PRIVATE, PARKED, NULL, NULL, 0);
}

static void unpark(parker *at) {
    if (atomic_exchange(at, NOTIFIED) == PARKED) syscall(SYS_futex, at, FUTEX_WAKE_PRIVATE, 1, NULL, NULL, 0);
}

static void start(void) {
    int pipe_ends[2], status;
    char room[8192], *words[] = {"true", NULL};
    pid_t child;
    posix_spawn_file_actions_t actions;
    if (pipe2(pipe_ends, O_CLOEXEC) != 0) exit(1);
    posix_spawn_file_actions_init(&actions);
    posix_spawn_file_actions_addopen(&actions, 0, "/dev/null", O_RDONLY, 0);
    posix_spawn_file_actions_adddup2(&actions, pipe_ends[1], 1);
    if (posix_spawnp(&child, "true", &actions, NULL, words, environ) != 0) exit(1);
    posix_spawn_file_actions_destroy(&actions);
    close(pipe_ends[1]);
    while (read(pipe_ends[0], room, sizeof room) > 0) {}
    close(pipe_ends[0]);
    if (waitpid(child, &status, 0) != child || status != 0) exit(1);
}

static void *take(void *unused) {
    while (atomic_fetch_sub(&left, 1) > 0) start();
    return unused;
}

static void *serve(void *at) {
    lane *own = at;
    for (;;) {
        switch (atomic_exchange(&own->job, NOTHING)) {
        case NOTHING: park(&own->called); break;
        case STOP: return NULL;
        default:
            start();
            atomic_store(&own->ended, 1);
            unpark(&answered);
        }
    }
}

static void hand(lane *to, int job) {
    atomic_store(&to->job, job);
    unpark(&to->called);
}

/* The lane of a program that has ended. */
static lane *gather(int threads) {
    for (;; park(&answered))
        for (lane *at = lanes; at < lanes + threads; at++)
            if (atomic_exchange(&at->ended, 0)) return at;
}

static void hand_out(int threads, int width) {
    int running = 0;
    while (width > 0 || running > 0) {
        for (lane *at = lanes; at < lanes + threads && width > 0; at++) {
            if (at->is_busy) continue;
            at->is_busy = 1;
            hand(at, RUN);
            width--;
            running++;
        }
        gather(threads)->is_busy = 0;
        running--;
    }
}

int main(int count, char **words) {
    if (count != 4 && count != 5) return 2;
    int threads = atoi(words[1]), layers = atoi(words[2]), width = atoi(words[3]), handed = count == 5;
    for (int i = 0; i < threads && handed; i++) if (pthread_create(&lanes[i].worker, NULL, serve, &lanes[i]) != 0) return 1;
    for (int layer = 0; layer < layers; layer++) {
        if (handed) {
            hand_out(threads, width);
            continue;
        }
        atomic_store(&left, width);
        for (int i = 0; i < threads; i++) if (pthread_create(&lanes[i].worker, NULL, take, NULL) != 0) return 1;
        for (int i = 0; i < threads; i++) pthread_join(lanes[i].worker, NULL);
    }
    for (int i = 0; i < threads && handed; i++) {
        hand(&lanes[i], STOP);
        pthread_join(lanes[i].worker, NULL);
    }
    return 0;
}
