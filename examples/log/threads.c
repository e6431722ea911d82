/* Threads as cores: a small executive that schedules by the Multiprocessor Stack Resource Policy, and
 * records its events with msrp_events.h. It writes the system and the log that msrp_log judges.
 *
 * usage: threads SYSTEM LOG [MILLISECONDS]
 *
 * Each core is a thread, pinned to a processor, under SCHED_FIFO where that is allowed. A job is a
 * call on the thread's stack: under the policy a job ends before the one that it preempted goes on.
 * While a job works, it looks every few microseconds whether another one must preempt it. */
#define _GNU_SOURCE
#include <pthread.h>
#include <sched.h>
#include <stdint.h>
#include <stdio.h>
#include <stdlib.h>
#include <time.h>
#include <unistd.h>

static uint64_t now(void)
{
    struct timespec time;
    clock_gettime(CLOCK_MONOTONIC, &time);
    return (uint64_t)time.tv_sec * 1000000000u + (uint64_t)time.tv_nsec;
}

#define MSRP_NOW() now()
#define MSRP_EVENTS_STDIO
#include "msrp_events.h"

enum { CORES = 2, TASKS = 5, RESOURCES = 2, ROOM = 4096, US = 1000 };
enum { BUS, BUFFER };

/* A job works, and then locks each of its resources, works, and unlocks it. Times are in us. While
 * the diagnosis holds its buffer, a job of the filter is released whose level is the ceiling. */
static const struct task {
    uint32_t core, period, deadline, work;
    struct { int resource; uint32_t work; } sections[3]; /* up to a work of 0 */
} TASK[TASKS] = {
    {0, 1000, 800, 50, {{BUS, 60}}},
    {0, 2500, 2400, 80, {{BUFFER, 150}}},
    {0, 10000, 9000, 300, {{BUFFER, 2200}, {BUS, 200}, {BUFFER, 50}}},
    {1, 700, 600, 40, {{BUS, 50}}},
    {1, 8000, 7000, 500, {{BUS, 300}, {BUS, 100}}},
};
static const char *const TASK_NAMES[TASKS] = {"control", "filter", "diagnosis", "radio", "logger"};
static const char *const RESOURCE_NAMES[RESOURCES] = {"bus", "buffer"};
static const bool IS_GLOBAL[RESOURCES] = {true, false};

MSRP_EVENTS(events, CORES, ROOM, TASK_NAMES, RESOURCE_NAMES);

/* A first-in-first-out spin lock: a ticket for each request, served in their order. */
static struct fifo_lock {
    _Atomic uint32_t next, serving;
} locks[RESOURCES];

static struct core {
    uint32_t number, ceiling; /* the ceiling is the highest level that may not start */
    struct msrp_job running;
    uint32_t released[TASKS], started[TASKS]; /* how many jobs of each task */
} cores[CORES];

static uint64_t begin, end;
static pthread_barrier_t all_ready;
static _Atomic int without_fifo;

/* ---- the policy */

static uint64_t release_of(struct msrp_job job)
{
    return begin + (uint64_t)job.number * TASK[job.task].period * US;
}

static uint64_t deadline_of(struct msrp_job job)
{
    return release_of(job) + (uint64_t)TASK[job.task].deadline * US;
}

/* The number of tasks with a longer deadline, and one more. No two tasks have the same deadline. */
static uint32_t level_of(uint16_t task)
{
    uint32_t level = 1;
    for (int other = 0; other < TASKS; other++)
        level += TASK[other].deadline > TASK[task].deadline;
    return level;
}

static bool uses(const struct task *task, int resource)
{
    for (int i = 0; i < 3; i++)
        if (task->sections[i].work && task->sections[i].resource == resource)
            return true;
    return false;
}

static uint32_t ceiling_of(int resource)
{
    uint32_t ceiling = 0;
    for (uint16_t task = 0; task < TASKS; task++)
        if (uses(&TASK[task], resource) && level_of(task) > ceiling)
            ceiling = level_of(task);
    return ceiling;
}

static bool is_before(struct msrp_job job, struct msrp_job other)
{
    if (deadline_of(job) != deadline_of(other))
        return deadline_of(job) < deadline_of(other);
    return release_of(job) != release_of(other) ? release_of(job) < release_of(other) : job.task < other.task;
}

/* The released job that must preempt the running one, or none. */
static struct msrp_job preempting(const struct core *core)
{
    struct msrp_job first = MSRP_NO_JOB;
    for (uint16_t task = 0; task < TASKS; task++) {
        const struct msrp_job job = {task, core->started[task]};
        if (job.number < core->released[task] && (first.task == MSRP_NO_NAME || is_before(job, first)))
            first = job;
    }
    if (first.task == MSRP_NO_NAME || level_of(first.task) <= core->ceiling)
        return MSRP_NO_JOB;
    return core->running.task == MSRP_NO_NAME || is_before(first, core->running) ? first : MSRP_NO_JOB;
}

static void release_jobs(struct core *core)
{
    const uint64_t time = now();
    for (uint16_t task = 0; task < TASKS; task++)
        for (;;) {
            const struct msrp_job job = {task, core->released[task]};
            if (TASK[task].core != core->number || release_of(job) > time || release_of(job) >= end)
                break;
            msrp_event_release(&events, core->number, job, deadline_of(job));
            core->released[task]++;
        }
}

static void execute(struct core *core, struct msrp_job job);

/* Runs the jobs that must preempt the running one, and returns to it. */
static void schedule(struct core *core)
{
    const struct msrp_job preempted = core->running;
    struct msrp_job job = preempting(core);
    if (job.task == MSRP_NO_NAME)
        return;
    for (; job.task != MSRP_NO_NAME; job = preempting(core)) {
        execute(core, job);
        core->running = preempted;
    }
    msrp_event_switch(&events, core->number, preempted);
}

/* ---- jobs */

/* Works for some time. Jobs are released meanwhile, and may preempt this one unless it holds a global
 * resource. */
static void work(struct core *core, uint32_t us, bool may_be_preempted)
{
    for (uint32_t done = 0; done < us; done += 5) {
        release_jobs(core);
        if (may_be_preempted)
            schedule(core);
        for (const uint64_t until = now() + 5 * US; now() < until;)
            ;
    }
}

static void global_section(struct core *core, struct msrp_job job, uint16_t resource, uint32_t us)
{
    struct fifo_lock *lock = &locks[resource];
    const uint32_t ticket = atomic_fetch_add_explicit(&lock->next, 1, memory_order_relaxed);
    msrp_event_request(&events, core->number, job, resource, ticket);
    while (atomic_load_explicit(&lock->serving, memory_order_acquire) != ticket)
        release_jobs(core);
    msrp_event_acquire(&events, core->number, job, resource);
    work(core, us, false);
    msrp_event_freed(&events, core->number, job, resource);
    atomic_store_explicit(&lock->serving, ticket + 1, memory_order_release);
}

static void local_section(struct core *core, struct msrp_job job, uint16_t resource, uint32_t us)
{
    const uint32_t ceiling = core->ceiling;
    if (ceiling_of(resource) > ceiling)
        core->ceiling = ceiling_of(resource);
    msrp_event_lock(&events, core->number, job, resource);
    work(core, us, true);
    msrp_event_unlock(&events, core->number, job, resource);
    core->ceiling = ceiling;
}

static void execute(struct core *core, struct msrp_job job)
{
    const struct task *task = &TASK[job.task];
    core->running = job;
    core->started[job.task]++;
    msrp_event_switch(&events, core->number, job);
    work(core, task->work, true);
    for (int i = 0; i < 3 && task->sections[i].work; i++) {
        const uint16_t resource = (uint16_t)task->sections[i].resource;
        (IS_GLOBAL[resource] ? global_section : local_section)(core, job, resource, task->sections[i].work);
        schedule(core);
    }
    msrp_event_end(&events, core->number, job);
}

/* ---- cores */

static void take_processor(uint32_t number)
{
    const struct sched_param priority = {.sched_priority = 10};
    cpu_set_t processors;
    CPU_ZERO(&processors);
    CPU_SET(number % (uint32_t)sysconf(_SC_NPROCESSORS_ONLN), &processors);
    pthread_setaffinity_np(pthread_self(), sizeof processors, &processors);
    if (pthread_setschedparam(pthread_self(), SCHED_FIFO, &priority))
        without_fifo = 1;
}

static void *run_core(void *argument)
{
    struct core *core = argument;
    take_processor(core->number);
    pthread_barrier_wait(&all_ready);
    pthread_barrier_wait(&all_ready);
    msrp_event_boot(&events, core->number);
    msrp_event_switch(&events, core->number, MSRP_NO_JOB);
    do {
        release_jobs(core);
        schedule(core);
    } while (now() < end);
    msrp_event_stop(&events, core->number);
    return NULL;
}

/* ---- the texts */

static void write_system(FILE *file)
{
    fprintf(file, "msrp-system,1\ncores,%d\n", CORES);
    for (int resource = 0; resource < RESOURCES; resource++)
        fprintf(file, "resource,%s\n", RESOURCE_NAMES[resource]);
    for (int task = 0; task < TASKS; task++) {
        fprintf(file, "task,%s,%u,%u000\n", TASK_NAMES[task], TASK[task].core, TASK[task].deadline);
        for (int i = 0; i < 3 && TASK[task].sections[i].work; i++) {
            const char *resource = RESOURCE_NAMES[TASK[task].sections[i].resource];
            fprintf(file, "op,lock,%s\nop,unlock,%s\n", resource, resource);
        }
    }
}

/* Writes the log while the cores run, and the rest of it once they have ended. */
static bool write_log(FILE *file, pthread_t *threads)
{
    const struct timespec pause = {0, 1000000};
    bool is_good = true;
    for (; now() < end; nanosleep(&pause, NULL))
        is_good = msrp_events_print(&events, false, file) && is_good;
    for (uint32_t core = 0; core < CORES; core++)
        pthread_join(threads[core], NULL);
    return msrp_events_print(&events, true, file) && is_good;
}

int main(int count, char **words)
{
    pthread_t threads[CORES];
    FILE *system = count > 2 ? fopen(words[1], "w") : NULL, *log = count > 2 ? fopen(words[2], "w") : NULL;
    if (!system || !log) {
        fputs("usage: threads SYSTEM LOG [MILLISECONDS]\n", stderr);
        return 3;
    }
    write_system(system);
    pthread_barrier_init(&all_ready, NULL, CORES + 1);
    for (uint32_t core = 0; core < CORES; core++) {
        cores[core] = (struct core){.number = core, .running = MSRP_NO_JOB};
        if (pthread_create(&threads[core], NULL, run_core, &cores[core]))
            return 4;
    }
    pthread_barrier_wait(&all_ready);
    begin = now() + 1000 * US;
    end = begin + (uint64_t)(count > 3 ? atoi(words[3]) : 100) * 1000 * US;
    pthread_barrier_wait(&all_ready);
    const bool is_good = write_log(log, threads);
    if (without_fifo)
        fputs("threads: SCHED_FIFO isn't allowed here, so other threads may delay the cores\n", stderr);
    return fclose(system) || fclose(log) || !is_good ? 5 : 0;
}
