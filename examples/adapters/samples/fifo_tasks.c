/* Tasks as threads of Linux: a log of its tracer shows how SCHED_FIFO schedules them.
 *
 * usage: fifo_tasks [--slow] MARKER [MILLISECONDS]
 *
 * Two processors, 2 and 3, have two tasks each, with priorities in the order of their deadlines. A
 * mutex with the protocol PRIO_PROTECT guards what two tasks of one processor share. What both
 * processors share has a first-in-first-out spin lock, and who asks for it has the highest priority.
 * Each operation on a resource is a mark in the log, written to the file MARKER, trace_marker of
 * tracefs; each wake-up is a release. With --slow, reports take longer: they are still running when
 * the next control is released, whose deadline is later. */
#define _GNU_SOURCE
#include <fcntl.h>
#include <pthread.h>
#include <sched.h>
#include <stdatomic.h>
#include <stdint.h>
#include <stdio.h>
#include <stdlib.h>
#include <string.h>
#include <time.h>
#include <unistd.h>

enum { TASKS = 4, TOP = 50, US = 1000 };

struct task {
    const char *name;
    int processor, priority;
    uint32_t period, work, in_buffer, in_bus; /* in us */
};
static struct task tasks[TASKS] = {
    {"control", 2, 40, 5000, 300, 200, 150},
    {"report", 2, 30, 15000, 1500, 600, 400},
    {"radio", 3, 40, 4000, 200, 0, 300},
    {"store", 3, 30, 20000, 3000, 0, 900},
};
static pthread_mutex_t buffer;
static _Atomic uint32_t next_ticket, serving;
static uint64_t begin;
static int marker;

static uint64_t now(void)
{
    struct timespec time;
    clock_gettime(CLOCK_MONOTONIC, &time);
    return (uint64_t)time.tv_sec * 1000000000u + (uint64_t)time.tv_nsec;
}

/* Not inlined, so that a tracer can also find it by its name. */
__attribute__((noinline)) void msrp_mark(const char *text)
{
    if (write(marker, text, strlen(text)) < 0)
        _exit(5);
}

static void mark_ticket(const char *event, uint32_t ticket)
{
    char text[40];
    snprintf(text, sizeof text, "msrp:%s bus %u", event, ticket);
    msrp_mark(text);
}

static void work(uint32_t us)
{
    for (uint32_t done = 0; done < us; done += 10)
        for (const uint64_t until = now() + 10 * US; now() < until;)
            ;
}

static void lock_bus(void)
{
    pthread_setschedprio(pthread_self(), TOP);
    const uint32_t ticket = atomic_fetch_add(&next_ticket, 1);
    mark_ticket("request", ticket);
    while (atomic_load(&serving) != ticket)
        ;
    mark_ticket("acquire", ticket);
}

static void unlock_bus(int priority)
{
    msrp_mark("msrp:freed bus");
    atomic_fetch_add(&serving, 1);
    pthread_setschedprio(pthread_self(), priority);
}

static void job(const struct task *task)
{
    work(task->work);
    if (task->in_buffer) {
        pthread_mutex_lock(&buffer);
        msrp_mark("msrp:lock buffer");
        work(task->in_buffer);
        msrp_mark("msrp:unlock buffer");
        pthread_mutex_unlock(&buffer);
    }
    lock_bus();
    work(task->in_bus);
    unlock_bus(task->priority);
}

static void *run_task(void *argument)
{
    const struct task *task = argument;
    pthread_setname_np(pthread_self(), task->name);
    for (uint64_t release = begin;; release += (uint64_t)task->period * US) {
        const struct timespec at = {(time_t)(release / 1000000000u), (long)(release % 1000000000u)};
        clock_nanosleep(CLOCK_MONOTONIC, TIMER_ABSTIME, &at, NULL);
        job(task);
    }
    return NULL;
}

static void refuse(void)
{
    fputs("fifo_tasks: SCHED_FIFO isn't allowed, or processor 2 or 3 isn't there\n", stderr);
    exit(1);
}

static void start(struct task *task)
{
    const struct sched_param priority = {.sched_priority = task->priority};
    pthread_attr_t how;
    pthread_t thread;
    cpu_set_t processor;
    CPU_ZERO(&processor);
    CPU_SET(task->processor, &processor);
    pthread_attr_init(&how);
    pthread_attr_setinheritsched(&how, PTHREAD_EXPLICIT_SCHED);
    pthread_attr_setschedpolicy(&how, SCHED_FIFO);
    pthread_attr_setschedparam(&how, &priority);
    pthread_attr_setaffinity_np(&how, sizeof processor, &processor);
    if (pthread_create(&thread, &how, run_task, task))
        refuse();
}

int main(int count, char **words)
{
    const int slow = count > 1 && !strcmp(words[1], "--slow");
    const struct sched_param above_all = {.sched_priority = TOP + 1};
    pthread_mutexattr_t how;
    if (count < 2 + slow || (marker = open(words[1 + slow], O_WRONLY)) < 0) {
        fputs("usage: fifo_tasks [--slow] MARKER [MILLISECONDS]\n", stderr);
        return 3;
    }
    if (slow)
        tasks[1].work = 8600;
    pthread_mutexattr_init(&how);
    pthread_mutexattr_setprotocol(&how, PTHREAD_PRIO_PROTECT);
    pthread_mutexattr_setprioceiling(&how, tasks[0].priority);
    pthread_mutex_init(&buffer, &how);
    if (pthread_setschedparam(pthread_self(), SCHED_FIFO, &above_all))
        refuse();
    begin = now() + 20000 * US;
    for (int task = 0; task < TASKS; task++)
        start(&tasks[task]);
    usleep(10000);
    msrp_mark("msrp:boot");
    usleep(10000 + 1000 * (useconds_t)(count > 2 + slow ? atoi(words[2 + slow]) : 40));
    msrp_mark("msrp:stop");
    return 0;
}
