/* A cyclic executive: it runs a plan under the policy with one thread for each core, tick by tick of
 * CLOCK_MONOTONIC. A monitor on another thread audits the rows while they are made.
 *
 * usage: executive [--tick-us N] PLAN > TRACE
 *
 * Each thread is pinned to a processor and has SCHED_FIFO if the system permits it. Standard error
 * gets the overruns and the verdict. To run a plan of your own, change the table TASKS. */
#define _GNU_SOURCE
#include "msrp.h"
#include <assert.h>
#include <inttypes.h>
#include <pthread.h>
#include <sched.h>
#include <stdatomic.h>
#include <stdio.h>
#include <stdlib.h>
#include <string.h>
#include <sys/mman.h>
#include <time.h>

enum { MOST_CORES = 8, MOST_TASKS = 64, NAME = 16, ROOM = 1024, PRIORITY = 50, STACK = 1 << 18 };

/* ---- The work: a function for each task, which does one unit of it. `held` is the number of the
 * shared resource that the job holds (in the order of the plan), or MSRP_NONE. */
typedef void work(uint32_t job, uint32_t held);

enum { STATE }; /* the resources of flight.csv */
static struct {
    int32_t angle, position;
} state;                          /* touched only by the job that holds STATE */
static int32_t rate;              /* touched only by core 0 */
static int32_t estimate, written; /* touched only by core 1 */

static void gyro(uint32_t job, uint32_t held) {
    (void)held;
    rate = (int32_t)(job * 3 % 17) - 8;
}

static void attitude(uint32_t job, uint32_t held) {
    (void)job;
    if (held == STATE)
        state.angle += rate;
}

static void position(uint32_t job, uint32_t held) {
    (void)job;
    if (held == STATE)
        state.position += state.angle;
    else
        estimate = estimate * 3 / 4;
}

static void radio(uint32_t job, uint32_t held) {
    (void)job;
    if (held == STATE)
        estimate = state.position;
}

static void record(uint32_t job, uint32_t held) {
    (void)held;
    written = estimate ^ (int32_t)job;
}

static const struct {
    const char *name;
    work *work;
} TASKS[] = {{"gyro", gyro}, {"attitude", attitude}, {"position", position}, {"radio", radio}, {"log", record}};

/* ---- A ring of turns, from the thread of a core to the monitor. */
struct turn {
    struct msrp_row row;
    uint32_t place;
};

struct ring {
    struct turn turns[ROOM];
    atomic_size_t put, taken;
};

/* The thread of a core never waits for the monitor: if the ring is full, the turn is lost to it. */
static bool put(struct ring *ring, const struct turn *turn) {
    size_t at = atomic_load(&ring->put);
    if (at - atomic_load(&ring->taken) == ROOM)
        return false;
    ring->turns[at % ROOM] = *turn;
    atomic_store(&ring->put, at + 1);
    return true;
}

static bool take(struct ring *ring, struct turn *turn) {
    size_t at = atomic_load(&ring->taken);
    if (at == atomic_load(&ring->put))
        return false;
    *turn = ring->turns[at % ROOM];
    atomic_store(&ring->taken, at + 1);
    return true;
}

/* ---- The cores. */
struct worker {
    struct msrp_core core;
    struct ring ring;
    pthread_t thread;
    atomic_bool has_ended;
    bool is_fifo;
    int processor;
    uint32_t held, ticks, overruns, lost;
    int64_t latest_start, latest_end; /* in nanoseconds after the start of the tick */
};

static struct worker workers[MOST_CORES];
static work *work_of[MOST_TASKS];
static uint32_t cores;
static int64_t tick_ns = 1000000, start_ns;
static pthread_barrier_t ready; /* passed twice: all threads are there; start_ns is set */

static int64_t now_ns(void) {
    struct timespec now;
    clock_gettime(CLOCK_MONOTONIC, &now);
    return now.tv_sec * INT64_C(1000000000) + now.tv_nsec;
}

static void sleep_until(int64_t ns) {
    struct timespec until = {.tv_sec = ns / 1000000000, .tv_nsec = ns % 1000000000};
    while (clock_nanosleep(CLOCK_MONOTONIC, TIMER_ABSTIME, &until, NULL))
        ;
}

/* Waits for the start of a tick and for the cores that are late, and answers whether there is a turn. */
static bool await_turn(struct msrp_core *core, int64_t start, struct turn *turn) {
    uint32_t status;
    sleep_until(start);
    while ((status = msrp_core_turn(core, &turn->row, &turn->place)) == MSRP_WAIT)
        sched_yield();
    return status == MSRP_GOOD;
}

/* Does what the row says. A job that takes a shared resource, or is granted one, holds it until it
 * releases it; the core runs no other job before. */
static void do_work(struct worker *worker, const struct msrp_row *row) {
    if (row->kind == MSRP_TAKE || row->kind == MSRP_GRANT)
        worker->held = row->resource;
    else if (row->kind == MSRP_RELEASE) {
        assert(worker->held == row->resource);
        worker->held = MSRP_NONE;
    } else if (row->kind == MSRP_RUN)
        work_of[row->task](row->job, worker->held);
}

static int64_t later(int64_t a, int64_t b) { return a > b ? a : b; }

static void *drive(void *at) {
    struct worker *worker = at;
    struct turn turn;
    pthread_barrier_wait(&ready);
    pthread_barrier_wait(&ready);
    for (int64_t start = start_ns; await_turn(&worker->core, start, &turn); start += tick_ns) {
        worker->latest_start = later(worker->latest_start, now_ns() - start);
        do_work(worker, &turn.row);
        worker->lost += !put(&worker->ring, &turn);
        msrp_core_arrive(&worker->core);
        int64_t end = now_ns() - start;
        worker->latest_end = later(worker->latest_end, end);
        worker->overruns += end > tick_ns;
        worker->ticks++;
    }
    atomic_store(&worker->has_ended, true);
    return NULL;
}

/* ---- The monitor. */
static struct msrp_auditor auditor;
static struct msrp_found found;
static uint32_t verdict;

static bool is_poll(const struct msrp_row *row) { return row->kind == MSRP_SPIN || row->kind == MSRP_GRANT; }

static uint64_t rank(const struct turn *turn) { return (uint64_t)turn->place * 2 + !is_poll(&turn->row); }

/* The order of a tick's rows: by resource, then by place, a poll before the step of the same place. */
static int by_place(const void *a, const void *b) {
    const struct turn *x = a, *y = b;
    if (x->row.resource != y->row.resource)
        return x->row.resource < y->row.resource ? -1 : 1;
    return (rank(x) > rank(y)) - (rank(x) < rank(y));
}

/* The next turn of a core; false if it has none left. */
static bool await(struct worker *worker, struct turn *turn) {
    while (!take(&worker->ring, turn)) {
        if (atomic_load(&worker->has_ended))
            return take(&worker->ring, turn);
        sleep_until(now_ns() + 100000);
    }
    return true;
}

static void *watch(void *unused) {
    struct turn turns[MOST_CORES];
    for (;;) {
        for (uint32_t core = 0; core < cores; core++)
            if (!await(&workers[core], &turns[core]))
                return unused;
        qsort(turns, cores, sizeof *turns, by_place);
        for (uint32_t at = 0; at < cores; at++)
            verdict = msrp_auditor_feed(&auditor, &turns[at].row, &found);
    }
}

/* ---- The executive. */
static void stop(int status, const char *what, const char *why) {
    fprintf(stderr, "executive: %s: %s\n", what, why);
    exit(status);
}

static void expect_good(uint32_t status, const char *what) {
    if (status == MSRP_GOOD)
        return;
    fprintf(stderr, "executive: %s: status %" PRIu32 "\n", what, status);
    exit((int)status);
}

/* Says why a plan is refused. */
static void explain(const char *plan, size_t length) {
    uint8_t words[4096];
    size_t needed;
    if (msrp_why_plan((const uint8_t *)plan, length, words, sizeof words, &needed, &found) == MSRP_REFUSED)
        fwrite(words, 1, needed, stderr);
}

/* The text of a file, with a 0 after it. */
static char *text_of(const char *path, size_t *length) {
    enum { LIMIT = 1 << 24 };
    FILE *file = fopen(path, "rb");
    char *text = calloc(LIMIT + 1, 1);
    if (!file || !text)
        stop(5, path, "cannot read it");
    *length = fread(text, 1, LIMIT, file);
    fclose(file);
    return text;
}

static work *function_of(const char *task) {
    for (size_t at = 0; at < sizeof TASKS / sizeof *TASKS; at++)
        if (!strcmp(TASKS[at].name, task))
            return TASKS[at].work;
    stop(2, task, "TASKS has no function for this task");
    return NULL;
}

/* Finds the function of each task. Tasks are numbered in the order of the plan. */
static void bind_tasks(const char *plan) {
    uint32_t task = 0;
    for (const char *record = plan; record; record = strchr(record, '\n')) {
        char name[NAME + 1];
        record += *record == '\n';
        if (sscanf(record, "task,%16[^,]", name) == 1 || sscanf(record, "listed,%16[^,]", name) == 1)
            work_of[task++] = function_of(name);
    }
}

/* Makes the run, its cores and the auditor. */
static void load(struct msrp_run *run, const char *path) {
    size_t length;
    char *plan = text_of(path, &length);
    explain(plan, length);
    expect_good(msrp_run_new((uint8_t *)plan, length, run, &found), path);
    expect_good(msrp_auditor_new((uint8_t *)plan, length, &auditor, &found), path);
    bind_tasks(plan);
    free(plan);
    while (cores < MOST_CORES && msrp_run_core(run, &workers[cores].core) == MSRP_GOOD)
        workers[cores++].held = MSRP_NONE;
}

/* The processor for a core, of those that the process may use. */
static int processor_of(uint32_t core) {
    cpu_set_t allowed;
    if (sched_getaffinity(0, sizeof allowed, &allowed))
        return 0;
    int left = (int)core % CPU_COUNT(&allowed), processor = 0;
    while (!CPU_ISSET(processor, &allowed) || left-- > 0)
        processor++;
    return processor;
}

/* Starts the thread of a core: with SCHED_FIFO, or without it if that isn't permitted. */
static void begin(struct worker *worker, uint32_t core) {
    pthread_attr_t attributes;
    cpu_set_t own;
    CPU_ZERO(&own);
    worker->processor = processor_of(core);
    CPU_SET(worker->processor, &own);
    pthread_attr_init(&attributes);
    pthread_attr_setstacksize(&attributes, STACK);
    pthread_attr_setaffinity_np(&attributes, sizeof own, &own);
    pthread_attr_setinheritsched(&attributes, PTHREAD_EXPLICIT_SCHED);
    pthread_attr_setschedpolicy(&attributes, SCHED_FIFO);
    pthread_attr_setschedparam(&attributes, &(struct sched_param){.sched_priority = PRIORITY});
    worker->is_fifo = pthread_create(&worker->thread, &attributes, drive, worker) == 0;
    if (!worker->is_fifo) {
        pthread_attr_setinheritsched(&attributes, PTHREAD_INHERIT_SCHED);
        if (pthread_create(&worker->thread, &attributes, drive, worker))
            stop(4, "thread", "not started");
    }
    pthread_attr_destroy(&attributes);
}

static void report_core(uint32_t core, const struct worker *worker) {
    const char *how = worker->is_fifo ? "SCHED_FIFO" : "SCHED_FIFO is not permitted";
    fprintf(stderr, "core %" PRIu32 " on processor %d (%s): ", core, worker->processor, how);
    fprintf(stderr, "%" PRIu32 " ticks of %" PRId64 " us, ", worker->ticks, tick_ns / 1000);
    fprintf(stderr, "latest start %" PRId64 " us, ", worker->latest_start / 1000);
    fprintf(stderr, "latest end %" PRId64 " us, ", worker->latest_end / 1000);
    fprintf(stderr, "%" PRIu32 " overruns\n", worker->overruns);
}

/* The row with the fault, and its cause in words. */
static void report_fault(void) {
    uint8_t words[2048];
    size_t length;
    fprintf(stderr, "audit: row %" PRIu32 " violates A%" PRIu32 "\n", found.row, found.rule);
    if (msrp_auditor_why(&auditor, words, sizeof words, &length, &found) == MSRP_FAULT)
        fwrite(words, 1, length, stderr);
}

static void report(void) {
    uint32_t lost = 0;
    for (uint32_t core = 0; core < cores; core++) {
        report_core(core, &workers[core]);
        lost += workers[core].lost;
    }
    if (lost)
        fprintf(stderr, "audit: incomplete, since the monitor was too slow for %" PRIu32 " rows\n", lost);
    else if (verdict == MSRP_GOOD)
        fprintf(stderr, "audit: good\n");
    else
        report_fault();
}

/* Writes the trace of a run whose cores were joined. */
static void write_trace(struct msrp_run *run) {
    size_t length;
    msrp_run_text(run, 2, NULL, 0, &length);
    uint8_t *trace = malloc(length);
    if (!trace)
        stop(4, "trace", "out of memory");
    expect_good(msrp_run_text(run, 2, trace, length, &length), "trace");
    fwrite(trace, 1, length, stdout);
    free(trace);
}

/* Runs the plan on the cores' threads, to its end. */
static void execute(struct msrp_run *run) {
    pthread_t monitor;
    if (pthread_create(&monitor, NULL, watch, NULL) || pthread_barrier_init(&ready, NULL, cores + 1))
        stop(4, "thread", "not started");
    for (uint32_t core = 0; core < cores; core++)
        begin(&workers[core], core);
    pthread_barrier_wait(&ready);
    if (mlockall(MCL_CURRENT | MCL_FUTURE))
        fprintf(stderr, "memory is not locked: not permitted\n");
    start_ns = now_ns() + 1000000;
    pthread_barrier_wait(&ready);
    for (uint32_t core = 0; core < cores; core++) {
        pthread_join(workers[core].thread, NULL);
        expect_good(msrp_run_join(run, &workers[core].core), "join");
    }
    pthread_join(monitor, NULL);
    munlockall();
}

int main(int argc, char **argv) {
    struct msrp_run run = {NULL};
    const bool has_tick = argc == 4 && !strcmp(argv[1], "--tick-us");
    if (has_tick)
        tick_ns = strtoll(argv[2], NULL, 10) * 1000;
    if ((argc != 2 && !has_tick) || tick_ns <= 0 || msrp_version() != MSRP_VERSION)
        stop(3, "usage", "executive [--tick-us N] PLAN > TRACE");
    load(&run, argv[argc - 1]);
    execute(&run);
    verdict = msrp_auditor_end(&auditor, &found);
    report();
    write_trace(&run);
    msrp_auditor_free(&auditor);
    msrp_run_free(&run);
    return (int)verdict;
}
