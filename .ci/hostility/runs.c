/* Calls on a run from C: threads that wait and yield at random, wrong use, and each allocation
 * refused in turn. With PLAIN defined malloc is the system's, and nothing is refused.
 *
 * usage: runs              the worked calls
 *        runs PLAN SEED    the trace of a plan's run, on standard output */
#ifndef _GNU_SOURCE
#define _GNU_SOURCE
#endif
#include "msrp.h"
#include "refusing.h"
#include <pthread.h>
#include <sched.h>
#include <stdatomic.h>
#include <time.h>

#define MOST_CORES 8
#define MOST_RESOURCES 32
#define LONGEST ((size_t)1 << 20)
#if defined(__SANITIZE_ADDRESS__) || defined(__SANITIZE_THREAD__)
#define STACK ((size_t)1 << 20)
#else
#define STACK ((size_t)1 << 16) /* enough for a core's turns */
#endif

static const char *const PLAN = "msrp,1\ncores,2\nticks,6\nresource,g\n"
                                "task,a,0,20,8,0\nop,lock,g\nop,run,1\nop,unlock,g\n"
                                "task,b,1,20,8,0\nop,lock,g\nop,run,1\nop,unlock,g\n";
/* The trace where core 0 comes first in each tick, and the places of its rows. */
static const char *const TRACE = "msrp-trace,1,2,6\n0,0,take,a,0,g\n0,1,queue,b,0,g\n1,0,run,a,0,-\n1,1,spin,b,0,g\n"
                                 "2,0,release,a,0,g\n2,1,grant,b,0,g\n3,0,idle,-,-,-\n3,1,run,b,0,-\n"
                                 "4,0,idle,-,-,-\n4,1,release,b,0,g\n5,0,idle,-,-,-\n5,1,idle,-,-,-\n";
#define NO MSRP_NONE
static const uint32_t PLACES[6][2] = {{0, 1}, {NO, 2}, {2, 3}, {NO, NO}, {NO, 3}, {NO, NO}};

static struct msrp_found found;

/* ---- Threads that wait at random. */
struct driven {
    struct msrp_core core;
    pthread_t thread;
    uint64_t chance;
    uint32_t held;
};

static struct driven all[MOST_CORES];
static atomic_uint inside[MOST_RESOURCES]; /* how many jobs work with a resource now */

static uint64_t next(uint64_t *chance) {
    *chance ^= *chance << 13;
    *chance ^= *chance >> 7;
    return *chance ^= *chance << 17;
}

static void waits(uint64_t *chance) {
    uint64_t what = next(chance) % 16;
    struct timespec pause = {0, (long)(next(chance) % 50000)};
    if (what == 0)
        nanosleep(&pause, NULL);
    else if (what < 5)
        sched_yield();
    else
        for (volatile uint64_t spin = next(chance) % 500; spin > 0; spin--)
            ;
}

/* A job that takes a resource or is granted it holds it until it releases it. */
static void notes(struct driven *driven, const struct msrp_row *row) {
    if (row->kind == MSRP_TAKE || row->kind == MSRP_GRANT)
        driven->held = row->resource;
    else if (row->kind == MSRP_RELEASE)
        driven->held = NO;
}

/* The work of a turn: nobody else works with the resource that the job holds. */
static void works(struct driven *driven, const struct msrp_row *row) {
    bool is_inside = row->kind == MSRP_RUN && driven->held != NO;
    if (is_inside)
        EXPECT(atomic_fetch_add(&inside[driven->held], 1) == 0);
    waits(&driven->chance);
    if (is_inside)
        atomic_fetch_sub(&inside[driven->held], 1);
}

static void *drive(void *at) {
    struct driven *driven = (struct driven *)at;
    struct msrp_row row, same;
    uint32_t status, place;
    for (;;) {
        while ((status = msrp_core_turn(&driven->core, &row, &place)) == MSRP_WAIT)
            waits(&driven->chance);
        if (status != MSRP_GOOD)
            break;
        notes(driven, &row);
        same = row;
        EXPECT(msrp_core_turn(&driven->core, &row, &place) == MSRP_USAGE && !memcmp(&row, &same, sizeof row));
        works(driven, &row);
        EXPECT(msrp_core_arrive(&driven->core) == MSRP_GOOD);
    }
    EXPECT(status == MSRP_DONE && msrp_core_arrive(&driven->core) == MSRP_USAGE);
    return NULL;
}

/* Hands out all cores, and answers how many there are. */
static uint32_t hands_out(struct msrp_run *run, uint64_t seed) {
    uint32_t cores = 0;
    struct msrp_core none = {NULL};
    memset(all, 0, sizeof all);
    while (cores < MOST_CORES && msrp_run_core(run, &all[cores].core) == MSRP_GOOD) {
        all[cores].chance = seed * MOST_CORES + cores + 1;
        all[cores++].held = NO;
    }
    EXPECT(msrp_run_core(run, &none) == MSRP_DONE && none.at == NULL);
    return cores;
}

static void drives(uint32_t cores) {
    pthread_attr_t how;
    EXPECT(pthread_attr_init(&how) == 0 && pthread_attr_setstacksize(&how, STACK) == 0);
    for (uint32_t core = 0; core < cores; core++)
        EXPECT(pthread_create(&all[core].thread, &how, drive, &all[core]) == 0);
    pthread_attr_destroy(&how);
    for (uint32_t core = 0; core < cores; core++)
        EXPECT(pthread_join(all[core].thread, NULL) == 0);
}

/* Joins the cores, which goes in their order alone. */
static void joins(struct msrp_run *run, uint32_t cores) {
    size_t needed;
    for (uint32_t core = 0; core < cores; core++) {
        EXPECT(core + 1 == cores || msrp_run_join(run, &all[core + 1].core) == MSRP_USAGE);
        EXPECT(msrp_run_text(run, 2, NULL, 0, &needed) == MSRP_USAGE && needed == 0);
        EXPECT(msrp_run_join(run, &all[core].core) == MSRP_GOOD && all[core].core.at == NULL);
        EXPECT(msrp_run_join(run, &all[core].core) == MSRP_USAGE);
    }
}

/* Runs a plan on threads, and answers its trace, of this length. */
static uint8_t *trace_of(const uint8_t *plan, size_t plan_len, uint64_t seed, size_t *needed) {
    struct msrp_run run = {NULL};
    EXPECT(msrp_run_new(plan, plan_len, &run, &found) == MSRP_GOOD);
    uint32_t cores = hands_out(&run, seed);
    drives(cores);
    joins(&run, cores);
    EXPECT(msrp_run_text(&run, 2, NULL, 0, needed) == MSRP_ROOM);
    uint8_t *text = (uint8_t *)malloc(*needed);
    EXPECT(text && msrp_run_text(&run, 2, text, *needed, needed) == MSRP_GOOD);
    msrp_run_free(&run);
    EXPECT(run.at == NULL);
    return text;
}

/* ---- Wrong use: it is answered by 3, and the run is the same as without it. */
static void refuses_null_handles(void) {
    struct msrp_run run = {NULL};
    struct msrp_core core = {NULL};
    struct msrp_row row;
    uint32_t place;
    size_t needed;
    EXPECT(msrp_run_core(&run, &core) == MSRP_USAGE && msrp_run_join(&run, &core) == MSRP_USAGE);
    EXPECT(msrp_core_turn(&core, &row, &place) == MSRP_USAGE && msrp_core_arrive(&core) == MSRP_USAGE);
    EXPECT(msrp_run_text(&run, 1, NULL, 0, &needed) == MSRP_USAGE && needed == 0);
    msrp_core_free(&core);
    msrp_run_free(&run);
    EXPECT(run.at == NULL && core.at == NULL);
    EXPECT(msrp_run_new(BYTES("msrp,9\n"), &run, &found) == MSRP_REFUSED && found.plan_code == 1 && run.at == NULL);
}

/* A handle of something else, which nobody has at that time as what it is. */
static void refuses_another_handle(struct msrp_run *run, struct msrp_core *core) {
    struct msrp_core as_core = {run->at};
    struct msrp_run as_run = {core->at};
    struct msrp_core none = {NULL};
    struct msrp_row row;
    uint32_t place;
    EXPECT(msrp_core_turn(&as_core, &row, &place) == MSRP_USAGE && msrp_core_arrive(&as_core) == MSRP_USAGE);
    EXPECT(msrp_run_core(&as_run, &none) == MSRP_USAGE && none.at == NULL);
    EXPECT(as_core.at == run->at && as_run.at == core->at);
}

/* What can't be done to a run whose cores haven't ended. */
static void refuses_early_calls(struct msrp_run *run, struct msrp_core *core) {
    void *at = core->at;
    size_t needed;
    EXPECT(msrp_run_new(BYTES(PLAN), run, &found) == MSRP_USAGE);
    EXPECT(msrp_run_core(run, core) == MSRP_USAGE && msrp_run_join(run, core) == MSRP_USAGE && core->at == at);
    EXPECT(msrp_run_text(run, 1, NULL, 0, &needed) == MSRP_USAGE && needed == 0);
    refuses_another_handle(run, core);
}

/* A core has its turn of a tick, and neither the next one nor the same twice. */
static void has_turn(struct msrp_run *run, struct msrp_core *core, uint32_t tick, uint32_t number) {
    struct msrp_row row, same;
    uint32_t place;
    EXPECT(msrp_core_arrive(core) == MSRP_USAGE);
    EXPECT(msrp_core_turn(core, &row, &place) == MSRP_GOOD && row.tick == tick && row.core == number);
    EXPECT(place == PLACES[tick][number]);
    same = row;
    refuses_early_calls(run, core);
    EXPECT(msrp_core_turn(core, &row, &place) == MSRP_USAGE);
    EXPECT(msrp_core_arrive(core) == MSRP_GOOD && msrp_core_arrive(core) == MSRP_USAGE);
    if (number == 0)
        EXPECT(msrp_core_turn(core, &row, &place) == (tick < 5 ? MSRP_WAIT : MSRP_DONE));
    EXPECT(!memcmp(&row, &same, sizeof row));
}

static void expects_trace(struct msrp_run *run) {
    uint8_t text[512];
    size_t needed, length = strlen(TRACE);
    EXPECT(msrp_run_text(run, 3, text, sizeof text, &needed) == MSRP_USAGE && needed == 0);
    EXPECT(msrp_run_text(run, 1, text, length - 1, &needed) == MSRP_ROOM && needed == length);
    EXPECT(msrp_run_text(run, 1, text, length, &needed) == MSRP_GOOD && needed == length);
    EXPECT(!memcmp(text, TRACE, length));
}

/* A run on one thread, with each wrong use on the way. */
static void misuses(void) {
    struct msrp_run run = {NULL};
    struct msrp_core cores[2] = {{NULL}, {NULL}};
    struct msrp_row row;
    uint32_t place;
    EXPECT(msrp_run_new(BYTES(PLAN), &run, &found) == MSRP_GOOD && msrp_run_core(&run, &cores[0]) == MSRP_GOOD);
    EXPECT(msrp_core_turn(&cores[0], &row, &place) == MSRP_WAIT); /* not all cores are out */
    refuses_early_calls(&run, &cores[0]);
    EXPECT(msrp_run_core(&run, &cores[1]) == MSRP_GOOD && msrp_core_turn(&cores[0], &row, &place) == MSRP_GOOD);
    EXPECT(msrp_core_arrive(&cores[0]) == MSRP_GOOD && msrp_core_turn(&cores[1], &row, &place) == MSRP_GOOD);
    EXPECT(msrp_core_arrive(&cores[1]) == MSRP_GOOD);
    for (uint32_t tick = 1; tick < 6; tick++)
        for (uint32_t core = 0; core < 2; core++)
            has_turn(&run, &cores[core], tick, core);
    EXPECT(msrp_run_join(&run, &cores[1]) == MSRP_USAGE && cores[1].at != NULL);
    for (uint32_t core = 0; core < 2; core++) {
        EXPECT(msrp_core_turn(&cores[core], &row, &place) == MSRP_DONE);
        EXPECT(msrp_run_join(&run, &cores[core]) == MSRP_GOOD && cores[core].at == NULL);
    }
    EXPECT(msrp_run_core(&run, &cores[0]) == MSRP_DONE && cores[0].at == NULL);
    expects_trace(&run);
    expects_trace(&run);
    msrp_run_free(&run);
}

/* A core that is given up leaves its run without a trace, and frees in any order. */
static void gives_up(void) {
    struct msrp_run run = {NULL};
    struct msrp_core cores[2] = {{NULL}, {NULL}};
    size_t needed;
    EXPECT(msrp_run_new(BYTES(PLAN), &run, &found) == MSRP_GOOD && msrp_run_core(&run, &cores[0]) == MSRP_GOOD);
    EXPECT(msrp_run_core(&run, &cores[1]) == MSRP_GOOD);
    msrp_core_free(&cores[0]);
    EXPECT(cores[0].at == NULL && msrp_run_join(&run, &cores[1]) == MSRP_USAGE);
    EXPECT(msrp_run_text(&run, 1, NULL, 0, &needed) == MSRP_USAGE);
    msrp_run_free(&run);
    msrp_core_free(&cores[1]);
    EXPECT(cores[1].at == NULL);
}

#ifndef PLAIN
/* ---- Memory. */
/* Whether the run was made with this allocation refused, if there is one. */
static int is_made(struct msrp_run *run, long refused) {
    left = refused;
    uint32_t status = msrp_run_new(BYTES(PLAN), run, &found);
    int is_reached = left < 0;
    left = NEVER;
    EXPECT(status == (is_reached ? MSRP_MEMORY : MSRP_GOOD) && is_reached == (run->at == NULL));
    return !is_reached;
}

/* From its first core to its last join the run takes no memory. */
static void runs_without_memory(struct msrp_run *run) {
    struct msrp_core cores[2] = {{NULL}, {NULL}};
    struct msrp_row row;
    uint32_t place;
    left = 0;
    EXPECT(msrp_run_core(run, &cores[0]) == MSRP_GOOD && msrp_run_core(run, &cores[1]) == MSRP_GOOD);
    for (int turn = 0; turn < 12; turn++) {
        EXPECT(msrp_core_turn(&cores[turn % 2], &row, &place) == MSRP_GOOD);
        EXPECT(msrp_core_arrive(&cores[turn % 2]) == MSRP_GOOD);
    }
    EXPECT(msrp_run_join(run, &cores[0]) == MSRP_GOOD && msrp_run_join(run, &cores[1]) == MSRP_GOOD);
    EXPECT(left == 0);
    left = NEVER;
}

/* Each allocation of the text is refused in turn, and the run still has its text. */
static long refuses_texts(struct msrp_run *run) {
    long number = 0;
    for (int is_reached = 1; is_reached; number++) {
        size_t needed;
        left = number;
        uint32_t status = msrp_run_text(run, 1, NULL, 0, &needed);
        is_reached = left < 0;
        left = NEVER;
        EXPECT(status == (is_reached ? MSRP_MEMORY : MSRP_ROOM) && (needed == 0) == is_reached);
    }
    expects_trace(run);
    return number - 1;
}

/* How many allocations are refused: those of new, and those of text. */
static long refuses(void) {
    struct msrp_run run = {NULL};
    long number = 0;
    while (!is_made(&run, number))
        number++;
    runs_without_memory(&run);
    number += refuses_texts(&run);
    msrp_run_free(&run);
    return number;
}

/* How many blocks stay of a run that is freed. */
static long stays(void) {
    struct msrp_run run = {NULL};
    size_t needed;
    long before = held;
    EXPECT(msrp_run_new(BYTES(PLAN), &run, &found) == MSRP_GOOD);
    runs_without_memory(&run);
    EXPECT(msrp_run_text(&run, 1, NULL, 0, &needed) == MSRP_ROOM);
    msrp_run_free(&run);
    return held - before;
}
#endif

static void runs_worked(void) {
    refuses_null_handles();
    misuses();
    gives_up();
    for (uint64_t seed = 0; seed < 20; seed++) {
        size_t needed;
        free(trace_of(BYTES(PLAN), seed, &needed));
    }
#ifndef PLAIN
    long stay = stays();
    EXPECT(stay > 0 && stays() == stay);
    printf("%ld allocations of a run refused, one by one; %ld blocks stay, of its plan\n", refuses(), stay);
#endif
}

/* Writes the trace of a run of the plan in a file. */
static void runs_plan(const char *path, uint64_t seed) {
    uint8_t *plan = (uint8_t *)malloc(LONGEST);
    FILE *file = fopen(path, "rb");
    EXPECT(plan && file);
    size_t needed, length = fread(plan, 1, LONGEST, file);
    uint8_t *text = trace_of(plan, length, seed, &needed);
    EXPECT(fwrite(text, 1, needed, stdout) == needed && fclose(file) == 0);
    free(text);
    free(plan);
}

int main(int count, char **words) {
    if (count == 3)
        runs_plan(words[1], strtoull(words[2], NULL, 10));
    else
        runs_worked();
    return 0;
}
