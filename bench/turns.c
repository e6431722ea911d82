/* Measures a run on threads of its own, through the library for C: how long a tick takes with no work.
 *
 * usage: turns PLAN [ROUNDS]
 *
 * A thread for each core, pinned to a processor of its own, looks again at once while it isn't let
 * in. Prints the least and the median of the rounds, in nanoseconds for each tick. */
#define _GNU_SOURCE
#include "msrp.h"
#include <inttypes.h>
#include <pthread.h>
#include <sched.h>
#include <stdio.h>
#include <stdlib.h>
#include <time.h>

enum { MOST_CORES = 8, MOST_ROUNDS = 1000, LIMIT = 1 << 24 };

struct worker {
    struct msrp_core core;
    pthread_t thread;
    int64_t first, last; /* the times of the first turn and of the last arrival */
    uint32_t ticks;
};

static int64_t now_ns(void) {
    struct timespec now;
    clock_gettime(CLOCK_MONOTONIC, &now);
    return now.tv_sec * INT64_C(1000000000) + now.tv_nsec;
}

static void *drive(void *at) {
    struct worker *worker = at;
    struct msrp_row row;
    uint32_t place, status;
    for (;;) {
        while ((status = msrp_core_turn(&worker->core, &row, &place)) == MSRP_WAIT)
            __builtin_ia32_pause();
        if (status != MSRP_GOOD)
            break;
        if (worker->ticks++ == 0)
            worker->first = now_ns();
        msrp_core_arrive(&worker->core);
    }
    worker->last = now_ns();
    return NULL;
}

static void expect(int holds, const char *what) {
    if (holds)
        return;
    fprintf(stderr, "turns: %s\n", what);
    exit(1);
}

static void begin(struct worker *worker, int processor) {
    pthread_attr_t attributes;
    cpu_set_t own;
    CPU_ZERO(&own);
    CPU_SET(processor, &own);
    pthread_attr_init(&attributes);
    pthread_attr_setaffinity_np(&attributes, sizeof own, &own);
    expect(pthread_create(&worker->thread, &attributes, drive, worker) == 0, "a core has no processor of its own");
    pthread_attr_destroy(&attributes);
}

/* The nanoseconds of a tick in one run. */
static double period(const uint8_t *plan, size_t length) {
    static struct worker workers[MOST_CORES];
    struct msrp_run run = {NULL};
    struct msrp_found found;
    int cores = 0;
    expect(msrp_run_new(plan, length, &run, &found) == MSRP_GOOD, "no run of this plan");
    for (int at = 0; at < MOST_CORES; at++)
        workers[at] = (struct worker){0};
    while (cores < MOST_CORES && msrp_run_core(&run, &workers[cores].core) == MSRP_GOOD)
        cores++;
    for (int core = 0; core < cores; core++)
        begin(&workers[core], core);
    for (int core = 0; core < cores; core++) {
        pthread_join(workers[core].thread, NULL);
        expect(msrp_run_join(&run, &workers[core].core) == MSRP_GOOD, "a core isn't joined");
    }
    msrp_run_free(&run);
    return (double)(workers[0].last - workers[0].first) / workers[0].ticks;
}

static int by_size(const void *a, const void *b) {
    double x = *(const double *)a, y = *(const double *)b;
    return (x > y) - (x < y);
}

int main(int count, char **words) {
    static double periods[MOST_ROUNDS];
    int rounds = count > 2 ? atoi(words[2]) : 25;
    FILE *file = count > 1 ? fopen(words[1], "rb") : NULL;
    uint8_t *plan = malloc(LIMIT);
    expect(file && plan && rounds > 0 && rounds <= MOST_ROUNDS, "usage: turns PLAN [ROUNDS]");
    size_t length = fread(plan, 1, LIMIT, file);
    for (int round = 0; round < rounds; round++)
        periods[round] = period(plan, length);
    qsort(periods, (size_t)rounds, sizeof *periods, by_size);
    printf("ns for each tick: least %.1f, median %.1f\n", periods[0], periods[rounds / 2]);
    return 0;
}
