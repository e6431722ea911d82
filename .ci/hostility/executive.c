/* Tries the parts of examples/embedding/executive.c that its trace doesn't show: what a function is
 * told, the ring, the order of rows for the monitor, the functions of tasks, the processors, and
 * what is said of each core and of the audit. */
#define main run_executive
#include "../../examples/embedding/executive.c"
#undef main
#include <unistd.h>

#define NO MSRP_NONE

static void check(bool holds, const char *what) {
    if (!holds) {
        printf("executive: %s\n", what); // standard error is a file, later on
        exit(1);
    }
}

/* ---- functions */

static uint32_t told[8][2], calls;

static void hear(uint32_t job, uint32_t held) {
    told[calls][0] = job;
    told[calls++][1] = held;
}

/* A function is called for each unit of work, with its job and with the shared resource that is held: from the take or
 * the grant on until the release. */
static void functions(void) {
    static const struct msrp_row rows[] = {
        {0, 0, MSRP_RUN, 2, 5, NO, NO},   {1, 0, MSRP_TAKE, 2, 5, 3, NO},    {2, 0, MSRP_RUN, 2, 5, NO, NO},
        {3, 0, MSRP_RELEASE, 2, 5, 3, NO}, {4, 0, MSRP_RUN, 2, 5, NO, NO},    {5, 0, MSRP_QUEUE, 2, 6, 1, 1},
        {6, 0, MSRP_SPIN, 2, 6, 1, NO},   {7, 0, MSRP_GRANT, 2, 6, 1, NO},   {8, 0, MSRP_RUN, 2, 6, NO, NO},
        {9, 0, MSRP_RELEASE, 2, 6, 1, NO}, {10, 0, MSRP_LOCK, 2, 7, 4, NO},   {11, 0, MSRP_RUN, 2, 7, NO, NO},
        {12, 0, MSRP_UNLOCK, 2, 7, 4, NO}, {13, 0, MSRP_IDLE, NO, NO, NO, NO},
    };
    static const uint32_t due[][2] = {{5, NO}, {5, 3}, {5, NO}, {6, 1}, {7, NO}};
    workers[0].held = NO;
    work_of[2] = hear;
    for (size_t at = 0; at < sizeof rows / sizeof *rows; at++)
        do_work(&workers[0], &rows[at]);
    check(calls == 5 && !memcmp(told, due, sizeof due), "what a function is told");
}

/* Two jobs of gyro on one core: each unit of work calls its function, and the monitor gets each row. */
static void whole_run(void) {
    struct msrp_run run = {NULL};
    char path[] = "/tmp/executive-XXXXXX";
    const int made = mkstemp(path);
    FILE *file = made < 0 ? NULL : fdopen(made, "w");
    check(file && fputs("msrp,1\ncores,1\nticks,4\ntask,gyro,0,2,2,0\nop,run,1\n", file) >= 0, "a plan");
    check(!fclose(file), "a file");
    load(&run, path);
    remove(path);
    execute(&run);
    check(rate == 3 - 8, "the function of the last job");
    check(cores == 1 && workers[0].ticks == 4 && !workers[0].lost, "the ticks of a run");
    check(verdict == MSRP_GOOD && msrp_auditor_end(&auditor, &found) == MSRP_GOOD, "the audit of a run");
    msrp_auditor_free(&auditor);
    msrp_run_free(&run);
}

static void names(void) {
    check(MOST_CORES == 8 && MOST_TASKS == 64 && NAME == 16, "the limits of a plan");
    bind_tasks("msrp,2\ncores,2\nticks,9\nresource,task\n"
               "listed,radio,1,5\nrelease,3\nop,run,1\ntask,gyro,0,9,9,0\nop,run,1\n");
    check(work_of[0] == radio && work_of[1] == gyro, "the functions of a plan");
    check(function_of("attitude") == attitude && function_of("position") == position, "names");
    check(function_of("log") == record, "a name that differs from its function's");
}

/* The functions of flight.csv: the state is touched only while it is held. */
static void flight(void) {
    gyro(7, NO);
    state.angle = state.position = estimate = 0;
    attitude(0, NO);
    check(rate == 21 % 17 - 8 && state.angle == 0, "the rate");
    attitude(0, STATE);
    position(0, STATE);
    position(0, NO);
    check(state.angle == -4 && state.position == -4 && estimate == 0, "the position");
    radio(0, NO);
    check(estimate == 0, "no radio");
    radio(0, STATE);
    check(estimate == -4, "the radio");
    position(0, NO);
    record(6, NO);
    check(estimate == -3 && written == (-3 ^ 6), "the log");
}

/* ---- the monitor */

/* A ring keeps the order of its turns over its end, and takes none if it is full. */
static void rings(void) {
    static struct worker worker;
    struct turn turn = {.place = 0};
    check(!take(&worker.ring, &turn), "an empty ring");
    for (uint32_t first = 0; first < 3 * ROOM; first += ROOM - 1) {
        for (uint32_t at = 0; at < ROOM; at++) {
            turn.place = first + at;
            check(put(&worker.ring, &turn), "room");
        }
        check(!put(&worker.ring, &turn), "a full ring");
        for (uint32_t at = 0; at < ROOM; at++)
            check(await(&worker, &turn) && turn.place == first + at, "the order of a ring");
        put(&worker.ring, &turn);
        check(take(&worker.ring, &turn) && !take(&worker.ring, &turn), "a ring is empty again");
    }
    put(&worker.ring, &turn);
    atomic_store(&worker.has_ended, true);
    check(await(&worker, &turn) && !await(&worker, &turn), "a core that has ended");
}

/* By resource, then by place; a poll before the step of its place, and rows on no global resource last. */
static void orders(void) {
    static const uint32_t due[][3] = {{0, 0, MSRP_RELEASE}, {0, 1, MSRP_SPIN}, {0, 1, MSRP_QUEUE}, {0, 2, MSRP_GRANT},
                                      {0, 2, MSRP_TAKE},    {1, 0, MSRP_QUEUE}, {NO, NO, MSRP_RUN}};
    enum { COUNT = sizeof due / sizeof *due };
    struct turn turns[COUNT] = {0};
    for (uint32_t turned = 0; turned < COUNT; turned++) {
        for (uint32_t at = 0; at < COUNT; at++) {
            const uint32_t *of = due[(COUNT - 1 - at + turned) % COUNT];
            turns[at] = (struct turn){.row = {.resource = of[0], .kind = of[2]}, .place = of[1]};
        }
        qsort(turns, COUNT, sizeof *turns, by_place);
        for (uint32_t at = 0; at < COUNT; at++)
            check(turns[at].row.kind == due[at][2] && turns[at].place == due[at][1], "the order of rows");
    }
}

/* ---- processors, times, and what is said */

static void processors(void) {
    cpu_set_t allowed;
    check(!sched_getaffinity(0, sizeof allowed, &allowed), "processors");
    uint32_t count = 0;
    for (int processor = 0; processor < CPU_SETSIZE; processor++)
        if (CPU_ISSET(processor, &allowed))
            check(processor_of(count++) == processor, "each processor in turn");
    check(processor_of(count) == processor_of(0), "and again");
    check(processor_of(2 * count - 1) == processor_of(count - 1), "and again");
}

static void times(void) {
    check(later(3, 5) == 5 && later(5, 3) == 5 && later(-2, 0) == 0, "the later time");
    const int64_t until = now_ns() + 3000000;
    sleep_until(until);
    check(now_ns() >= until && now_ns() < until + INT64_C(5000000000), "a sleep");
}

/* What is said on standard error: this, and more if it isn't the whole. */
static void said(const char *due, bool is_whole) {
    static char text[2048];
    fflush(stderr);
    const ssize_t size = pread(fileno(stderr), text, sizeof text - 1, 0);
    text[size > 0 ? size : 0] = 0;
    if (strncmp(text, due, strlen(due)) || is_whole == (text[strlen(due)] != 0)) {
        printf("%s", text);
        check(false, due);
    }
    rewind(stderr);
    check(!ftruncate(fileno(stderr), 0), "standard error");
}

#define COUNTS "7 ticks of 1000 us, latest start 12 us, latest end 34 us, 2 overruns\n"
#define OF_CORE "core 0 on processor 3 (SCHED_FIFO): " COUNTS

static void reports(void) {
    static const char PLAN[] = "msrp,1\ncores,1\nticks,2\ntask,a,0,2,2,0\nop,run,1\n";
    static const struct msrp_row idle = {0, 0, MSRP_IDLE, NO, NO, NO, NO};
    char path[] = "/tmp/executive-XXXXXX";
    const int made = mkstemp(path);
    check(made >= 0 && freopen(path, "w+", stderr), "standard error");
    remove(path);
    cores = 1;
    auditor = (struct msrp_auditor){NULL};
    workers[0] = (struct worker){.processor = 3, .is_fifo = true, .ticks = 7, .overruns = 2};
    workers[0].latest_start = 12900;
    workers[0].latest_end = 34999;
    verdict = MSRP_GOOD;
    report();
    said(OF_CORE "audit: good\n", true);
    workers[0].lost = 5;
    report();
    said(OF_CORE "audit: incomplete, since the monitor was too slow for 5 rows\n", true);
    workers[0].lost = 0;
    workers[0].is_fifo = false;
    report_core(0, &workers[0]);
    said("core 0 on processor 3 (SCHED_FIFO is not permitted): " COUNTS, true);
    workers[0].is_fifo = true;
    check(msrp_auditor_new((const uint8_t *)PLAN, sizeof PLAN - 1, &auditor, &found) == MSRP_GOOD, "an auditor");
    verdict = msrp_auditor_feed(&auditor, &idle, &found);
    report();
    said(OF_CORE "audit: row 1 violates A3\nfault,1,A3\nrow 1: 0,0,idle,-,-,-,-\nrule A3: ", false);
}

int main(void) {
    whole_run();
    functions();
    names();
    flight();
    rings();
    orders();
    processors();
    times();
    reports();
    return 0;
}
