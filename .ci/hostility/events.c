/* Tries msrp_events.h: the order of records, losses, parts of a text, and a reader that runs while two
 * cores do. It compiles as C11 and as C++17. */
#include <pthread.h>
#include <stdint.h>
#include <stdio.h>
#include <stdlib.h>
#include <string.h>

#ifdef __cplusplus
static thread_local uint64_t clock_ns;
#else
static _Thread_local uint64_t clock_ns;
#endif
#define MSRP_NOW() (clock_ns)
#define MSRP_EVENTS_STDIO
#include "msrp.h"
#include "msrp_events.h"

enum { BUS, CAL, A = 0, B = 1, COUNT = 20000 };
static const char *const tasks[] = {"a", "b"};
static const char *const resources[] = {"bus"};
static const struct msrp_job a = {A, 0}, b = {B, 7};

static void check(bool holds, const char *what)
{
    if (!holds) {
        fprintf(stderr, "events: %s\n", what);
        exit(1);
    }
}

/* The text of a log, in parts of this size. */
static const char *text_of(struct msrp_events *log, bool is_end, size_t part)
{
    static char text[4096];
    size_t used = 0, size;
    while ((size = msrp_events_text(log, is_end, text + used, part)) > 0)
        used += size;
    text[used] = 0;
    return text;
}

static void check_text(struct msrp_events *log, bool is_end, const char *expected, const char *what)
{
    const char *text = text_of(log, is_end, MSRP_LONGEST_RECORD);
    if (strcmp(text, expected))
        fprintf(stderr, "%s", text);
    check(!strcmp(text, expected), what);
}

/* Core 1 requests first, and is late with its event: the tickets decide, and not the times. At the same time, the
 * resource is freed first. */
static void tickets(void)
{
    MSRP_EVENTS(log, 2, 8, tasks, resources);
    clock_ns = 10;
    msrp_event_request(&log, 0, a, BUS, 1);
    clock_ns = 12;
    msrp_event_request(&log, 1, b, BUS, 0);
    msrp_event_acquire(&log, 1, b, BUS);
    clock_ns = 18;
    msrp_event_freed(&log, 1, b, BUS);
    msrp_event_acquire(&log, 0, a, BUS);
    check_text(&log, true,
               "msrp-log,1,2\n12,1,request,b,7,bus,0,1\n10,0,request,a,0,bus,1,1\n12,1,acquire,b,7,bus,,2\n"
               "18,1,freed,b,7,bus,,3\n18,0,acquire,a,0,bus,,2\n",
               "tickets");
}

/* The ring of four records is full, is read, and is full again until the end. */
static void losses(void)
{
    MSRP_EVENTS(log, 1, 4, tasks, resources);
    for (clock_ns = 1; clock_ns <= 6; clock_ns++)
        msrp_event_switch(&log, 0, a);
    check_text(&log, false,
               "msrp-log,1,1\n1,0,switch,a,0,,,1\n2,0,switch,a,0,,,2\n3,0,switch,a,0,,,3\n4,0,switch,a,0,,,4\n",
               "a full ring");
    for (clock_ns = 7; clock_ns <= 11; clock_ns++)
        msrp_event_end(&log, 0, a);
    check_text(&log, true,
               "7,0,lost,,,,2,5\n7,0,end,a,0,,,7\n8,0,end,a,0,,,8\n9,0,end,a,0,,,9\n10,0,end,a,0,,,10\n"
               "10,0,lost,,,,1,11\n",
               "losses");
    check_text(&log, true, "", "nothing is left");
}

/* A request whose predecessor was lost doesn't wait for ever; without tickets the times decide. */
static void without_predecessor(void)
{
    MSRP_EVENTS(log, 2, 4, tasks, resources);
    clock_ns = 5;
    msrp_event_request(&log, 0, a, BUS, 3);
    check_text(&log, false, "msrp-log,1,2\n", "a core without a record");
    clock_ns = 4;
    msrp_event_request(&log, 1, b, BUS, MSRP_NO_TICKET);
    check_text(&log, true, "4,1,request,b,7,bus,,1\n5,0,request,a,0,bus,3,1\n", "without a predecessor");
}

static const char *const both[] = {"bus", "cal"};

/* Each event, with the fields that it has. */
static void every_event(void)
{
    MSRP_EVENTS(log, 3, 16, tasks, both);
    for (uint32_t core = 0; core < 3; core++) {
        clock_ns = 1 + core;
        msrp_event_boot(&log, core);
    }
    clock_ns = 4;
    msrp_event_release(&log, 1, b, 99);
    clock_ns = 5;
    msrp_event_switch(&log, 2, b);
    clock_ns = 6;
    msrp_event_lock(&log, 2, b, CAL);
    clock_ns = 7;
    msrp_event_unlock(&log, 2, b, CAL);
    clock_ns = 8;
    msrp_event_request(&log, 2, b, BUS, 0);
    clock_ns = 9;
    msrp_event_acquire(&log, 2, b, BUS);
    clock_ns = 10;
    msrp_event_freed(&log, 2, b, BUS);
    clock_ns = 11;
    msrp_event_end(&log, 2, b);
    clock_ns = 12;
    msrp_event_switch(&log, 2, MSRP_NO_JOB);
    clock_ns = 13;
    msrp_event_stop(&log, 2);
    check_text(&log, true,
               "msrp-log,1,3\n1,0,boot,,,,,1\n2,1,boot,,,,,1\n3,2,boot,,,,,1\n4,1,release,b,7,,99,2\n5,2,switch,b,7,,,2\n"
               "6,2,lock,b,7,cal,,3\n7,2,unlock,b,7,cal,,4\n8,2,request,b,7,bus,0,5\n9,2,acquire,b,7,bus,,6\n"
               "10,2,freed,b,7,bus,,7\n11,2,end,b,7,,,8\n12,2,switch,,,,,9\n13,2,stop,,,,,10\n",
               "each event");
}

/* The ticket after the next one waits, too. */
static void third_ticket(void)
{
    MSRP_EVENTS(log, 2, 4, tasks, resources);
    clock_ns = 10;
    msrp_event_request(&log, 0, a, BUS, 0);
    clock_ns = 20;
    msrp_event_request(&log, 0, a, BUS, 2);
    clock_ns = 21;
    msrp_event_request(&log, 1, b, BUS, 1);
    check_text(&log, true,
               "msrp-log,1,2\n10,0,request,a,0,bus,0,1\n21,1,request,b,7,bus,1,1\n20,0,request,a,0,bus,2,2\n",
               "a third ticket");
}

/* Once a request may be lost, the next one doesn't wait for it. */
static void after_a_loss(void)
{
    MSRP_EVENTS(log, 2, 2, tasks, resources);
    for (clock_ns = 1; clock_ns <= 2; clock_ns++)
        msrp_event_switch(&log, 0, a);
    msrp_event_request(&log, 0, a, BUS, 0);
    clock_ns = 4;
    msrp_event_switch(&log, 1, b);
    check_text(&log, false, "msrp-log,1,2\n1,0,switch,a,0,,,1\n2,0,switch,a,0,,,2\n", "before a loss");
    clock_ns = 5;
    msrp_event_end(&log, 0, a);
    check_text(&log, false, "4,1,switch,b,7,,,1\n", "the other core before a loss");
    clock_ns = 6;
    msrp_event_switch(&log, 1, b);
    check_text(&log, false, "5,0,lost,,,,1,3\n5,0,end,a,0,,,4\n", "a loss");
    clock_ns = 7;
    msrp_event_request(&log, 1, b, BUS, 1);
    clock_ns = 8;
    msrp_event_switch(&log, 0, MSRP_NO_JOB);
    check_text(&log, true, "6,1,switch,b,7,,,2\n7,1,request,b,7,bus,1,3\n8,0,switch,,,,,5\n", "a request after a loss");
}

/* Each resource has tickets of its own. */
static void two_resources(void)
{
    MSRP_EVENTS(log, 2, 4, tasks, both);
    clock_ns = 10;
    msrp_event_request(&log, 0, a, CAL, 1);
    clock_ns = 11;
    msrp_event_request(&log, 1, b, BUS, 0);
    clock_ns = 12;
    msrp_event_request(&log, 1, b, CAL, 0);
    check_text(&log, true,
               "msrp-log,1,2\n11,1,request,b,7,bus,0,1\n12,1,request,b,7,cal,0,2\n10,0,request,a,0,cal,1,1\n",
               "two resources");
}

/* Until each core has an event, the reader waits, and then takes those before the last one of a core. */
static void waiting(void)
{
    MSRP_EVENTS(log, 2, 4, tasks, resources);
    clock_ns = 3;
    msrp_event_switch(&log, 0, a);
    clock_ns = 8;
    msrp_event_end(&log, 0, a);
    check_text(&log, false, "msrp-log,1,2\n", "no event of core 1");
    clock_ns = 5;
    msrp_event_switch(&log, 1, b);
    check_text(&log, false, "3,0,switch,a,0,,,1\n5,1,switch,b,7,,,1\n", "the events of two cores");
    check_text(&log, true, "8,0,end,a,0,,,2\n", "the rest");
}

/* The numbers of a core go on past 32 bits, and so do those of lost events. */
static void beyond_32_bits(void)
{
    MSRP_EVENTS(log, 1, 2, tasks, resources);
    MSRP_STORE(log.rings->emitted, UINT32_MAX - 1, relaxed);
    MSRP_STORE(log.rings->stored, UINT32_MAX - 1, relaxed);
    MSRP_STORE(log.rings->taken, UINT32_MAX - 1, relaxed);
    log.rings->written = UINT32_MAX - 1;
    for (clock_ns = 1; clock_ns <= 5; clock_ns++)
        msrp_event_switch(&log, 0, a);
    check_text(&log, false, "msrp-log,1,1\n1,0,switch,a,0,,,4294967295\n2,0,switch,a,0,,,4294967296\n", "32 bits");
    msrp_event_end(&log, 0, a);
    check_text(&log, true, "6,0,lost,,,,3,4294967297\n6,0,end,a,0,,,4294967300\n", "a loss past 32 bits");
}

/* The longest record, with a loss before it, fits into MSRP_LONGEST_RECORD bytes, and nothing behind them is written. */
static void longest(void)
{
    static char name[65], text[MSRP_LONGEST_RECORD + 1];
    static const char *const names[] = {name};
    static const struct msrp_job last = {0, UINT32_MAX};
    memset(name, 'n', 64);
    MSRP_EVENTS(log, 1, 1, names, names);
    clock_ns = UINT64_MAX;
    MSRP_STORE(log.rings->emitted, UINT32_MAX - 1, relaxed);
    msrp_event_request(&log, 0, last, 0, UINT64_MAX - 1);
    text[MSRP_LONGEST_RECORD] = '#';
    check(!msrp_events_text(&log, true, text, MSRP_LONGEST_RECORD - 1) || log.has_begun, "a short buffer");
    const size_t size = msrp_events_text(&log, true, text, MSRP_LONGEST_RECORD);
    static char expected[600];
    snprintf(expected, sizeof expected, "%s,0,lost,,,,4294967294,1\n%s,0,request,%s,4294967295,%s,18446744073709551614,4294967295\n",
             "18446744073709551615", "18446744073709551615", name, name);
    check(size == strlen(expected) && !memcmp(text, expected, size) && text[MSRP_LONGEST_RECORD] == '#', "the longest record");
}

/* A file has the text. What it doesn't take is told. */
static void files(void)
{
    static const char expected[] = "msrp-log,1,1\n13,0,boot,,,,,1\n";
    static char text[sizeof expected + 1];
    MSRP_EVENTS(log, 1, 4, tasks, resources);
    MSRP_EVENTS(other, 1, 4, tasks, resources);
    FILE *file = tmpfile();
    clock_ns = 13;
    msrp_event_boot(&other, 0);
    check(file && msrp_events_print(&other, true, file), "a file");
    rewind(file);
    check(fread(text, 1, sizeof text, file) == sizeof expected - 1 && !strcmp(text, expected), "the text of a file");
    fclose(file);
    FILE *full = fopen("/dev/full", "w"), *null = fopen("/dev/null", "w");
    check(full && null && !setvbuf(full, NULL, _IONBF, 0), "the files");
    msrp_event_boot(&log, 0);
    check(!msrp_events_print(&log, false, full) && msrp_events_print(&log, true, null), "a full file");
    fclose(full);
    fclose(null);
}

MSRP_EVENTS(shared, 2, 16, tasks, resources);

static void *emit(void *core)
{
    for (clock_ns = 1; clock_ns <= COUNT; clock_ns++)
        msrp_event_release(&shared, *(uint32_t *)core, a, clock_ns);
    return NULL;
}

/* Reads one line: each core's numbers must go on, with as many left out as were lost. */
static void read_line(char *line, uint64_t *numbers, uint64_t *read)
{
    unsigned long long ns, core, number, num;
    if (sscanf(line, "%llu,%llu,lost,,,,%llu,%llu", &ns, &core, &num, &number) == 4)
        numbers[core] += num - 1;
    else
        check(sscanf(line, "%llu,%llu,release,a,0,,%llu,%llu", &ns, &core, &num, &number) == 4 && ns == num && ++*read,
              line);
    check(number == ++numbers[core] || strstr(line, "lost"), line);
}

static void meanwhile(void)
{
    uint32_t cores[2] = {0, 1};
    pthread_t threads[2];
    static char text[2 * MSRP_LONGEST_RECORD + 1];
    uint64_t numbers[2] = {0, 0}, read = 0;
    for (int core = 0; core < 2; core++)
        check(!pthread_create(&threads[core], NULL, emit, &cores[core]), "a thread");
    for (int part = 0, is_end = 0; part < 2000 || !is_end; part++) {
        if (part == 2000) {
            for (int core = 0; core < 2; core++)
                pthread_join(threads[core], NULL);
            is_end = 1;
        }
        for (size_t size; (size = msrp_events_text(&shared, is_end, text, sizeof text - 1)) > 0;) {
            text[size] = 0;
            for (char *line = strtok(text, "\n"); line; line = strtok(NULL, "\n"))
                if (strcmp(line, "msrp-log,1,2"))
                    read_line(line, numbers, &read);
        }
    }
    check(numbers[0] == COUNT && numbers[1] == COUNT && read >= 32, "each event was read, or was lost");
}

/* The kinds have the numbers that msrp.h gives them. */
static void kinds(void)
{
    const int own[] = {MSRP_EVENT_BOOT, MSRP_EVENT_RELEASE, MSRP_EVENT_SWITCH, MSRP_EVENT_LOCK, MSRP_EVENT_UNLOCK, MSRP_EVENT_REQUEST,
                       MSRP_EVENT_ACQUIRE, MSRP_EVENT_FREED, MSRP_EVENT_END, MSRP_EVENT_STOP, MSRP_EVENT_LOST};
    const int of_logs[] = {MSRP_LOG_BOOT, MSRP_LOG_RELEASE, MSRP_LOG_SWITCH, MSRP_LOG_LOCK, MSRP_LOG_UNLOCK, MSRP_LOG_REQUEST,
                           MSRP_LOG_ACQUIRE, MSRP_LOG_FREED, MSRP_LOG_END, MSRP_LOG_STOP, MSRP_LOG_LOST};
    check(!memcmp(own, of_logs, sizeof own), "the numbers of kinds");
}

int main(void)
{
    kinds();
    tickets();
    losses();
    without_predecessor();
    every_event();
    third_ticket();
    after_a_loss();
    two_resources();
    waiting();
    beyond_32_bits();
    longest();
    files();
    meanwhile();
    return 0;
}
