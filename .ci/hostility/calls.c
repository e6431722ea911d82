/* Calls of the library from C: each call, with each answer; each allocation refused in turn; eight threads at once; and the stack that is touched.
 * With PLAIN defined malloc is the system's, and nothing is refused. */
#ifndef _GNU_SOURCE
#define _GNU_SOURCE
#endif
#include "msrp.h"
#include "refusing.h"
#include <pthread.h>
#include <sys/mman.h>

#define ROOM 65536
#define THREADS 8
#define TURNS 2000
#define STACK ((size_t)8 << 20)
#define PAINT 0xA5

static const char *const PLAN = "msrp,1\ncores,2\nticks,6\nresource,g\ntask,a,0,20,8,0\nop,lock,g\nop,run,1\nop,unlock,g\ntask,b,1,20,8,0\nop,lock,g\nop,run,1\nop,unlock,g\n";
static const char *const GOOD = "msrp-trace,1,2,6\n0,0,take,a,0,g\n0,1,queue,b,0,g\n1,0,run,a,0,-\n1,1,spin,b,0,g\n2,0,release,a,0,g\n2,1,grant,b,0,g\n3,0,idle,-,-,-\n3,1,run,b,0,-\n4,0,idle,-,-,-\n4,1,release,b,0,g\n5,0,idle,-,-,-\n5,1,idle,-,-,-\n";
static const char *const FAULTY = "msrp-trace,1,2,6\n0,0,take,a,0,g\n0,1,queue,b,0,g\n1,0,run,a,0,-\n1,1,grant,b,0,g\n";
static const uint32_t CORES[] = {0, 1, 1, 0, 0, 1, 1, 0, 0, 1, 1, 0};
static const struct msrp_row ROWS[] = {
    {0, 0, MSRP_TAKE, 0, 0, 0, MSRP_NONE}, {0, 1, MSRP_QUEUE, 1, 0, 0, 1}, {1, 0, MSRP_RUN, 0, 0, MSRP_NONE, MSRP_NONE}, {1, 1, MSRP_GRANT, 1, 0, 0, MSRP_NONE}};

struct answer {
    uint32_t status;
    struct msrp_found found;
    size_t needed;
    uint8_t text[ROOM];
};

/* One of the calls, by its number. */
#define CALLS 20
static void call(int which, struct answer *to) {
    uint8_t *text = to->text;
    size_t *needed = &to->needed;
    struct msrp_found *found = &to->found;
    uint32_t number = 0;
    memset(to, 0x55, sizeof *to);
    to->needed = 0;
    switch (which) {
    case 0: to->status = msrp_audit(BYTES(PLAN), BYTES(GOOD), found); break;
    case 1: to->status = msrp_audit(BYTES(PLAN), BYTES(FAULTY), found); break;
    case 2: to->status = msrp_report(BYTES(PLAN), BYTES(GOOD), text, ROOM, needed, found); break;
    case 3: to->status = msrp_report(BYTES(PLAN), BYTES(FAULTY), text, ROOM, needed, found); break;
    case 4: to->status = msrp_sim(BYTES(PLAN), MSRP_LIST, CORES, 12, 1, text, ROOM, needed, found); break;
    case 5: to->status = msrp_check(BYTES(PLAN), text, ROOM, needed, found); break;
    case 6: to->status = msrp_plan_text(BYTES(PLAN), text, ROOM, needed, found); break;
    case 7: to->status = msrp_view(BYTES(PLAN), BYTES(GOOD), MSRP_TEXT, 0, 0, text, ROOM, needed, found); break;
    case 8: to->status = msrp_view(BYTES(PLAN), BYTES(FAULTY), MSRP_SVG, 0, 4, text, ROOM, needed, found); break;
    case 9: to->status = msrp_audit_rows(BYTES(PLAN), ROWS, 3, true, found); break;
    case 10: to->status = msrp_audit_rows(BYTES(PLAN), ROWS, 4, true, found); break;
    case 11: to->status = msrp_audit_rows(BYTES(PLAN), NULL, 0, false, found); break;
    case 12: to->status = msrp_why(BYTES(PLAN), BYTES(GOOD), text, ROOM, needed, found); break;
    case 13: to->status = msrp_why(BYTES(PLAN), BYTES(FAULTY), text, ROOM, needed, found); break;
    case 14: to->status = msrp_why_plan(BYTES(PLAN), text, ROOM, needed, found); break;
    case 15: to->status = msrp_why_plan(BYTES("msrp,1\ncores,9\n"), text, ROOM, needed, found); break;
    case 16: to->status = msrp_task_number(BYTES(PLAN), BYTES("b"), &number, found); break;
    case 17: to->status = msrp_resource_number(BYTES(PLAN), BYTES("b"), &number, found); break;
    case 18: to->status = msrp_why_rows(BYTES(PLAN), ROWS, 4, text, ROOM, needed, found); break;
    default: to->status = msrp_audit(NULL, 0, BYTES(GOOD), found); break;
    }
    if (number)
        to->needed = number;
}

static const uint32_t DUE[CALLS] = {0, 1, 0, 1, 0, 0, 0, 0, 1, 0, 1, 1, 0, 1, 0, 2, 0, 3, 1, 2};

static void fail(const char *what, int which) {
    printf("%s: call %d\n", what, which);
    exit(1);
}

/* Whether a line of a text, counted from 0, begins like this. */
static bool begins(const uint8_t *text, int line, const char *expected) {
    for (; line > 0; text++)
        line -= *text == '\n';
    return memcmp(text, expected, strlen(expected)) == 0;
}

/* The names of the header have the numbers that the library knows: kinds of local rows, orders and styles. */
static void names(void) {
    static const char *const local = "msrp,1\ncores,1\nticks,3\nresource,g\ntask,a,0,9,9,0\nop,lock,g\nop,run,1\nop,unlock,g\n";
    static const struct msrp_row rows[] = {
        {0, 0, MSRP_LOCK, 0, 0, 0, MSRP_NONE}, {1, 0, MSRP_RUN, 0, 0, MSRP_NONE, MSRP_NONE}, {2, 0, MSRP_UNLOCK, 0, 0, 0, MSRP_NONE}};
    static const struct { uint32_t order; const char *first, *third; } orders[] = {{MSRP_ASC, "0,0,take", "1,0,"}, {MSRP_DESC, "0,1,take", "1,1,"}, {MSRP_ROT, "0,0,take", "1,1,"}};
    static struct answer answer;
    struct msrp_found *found = &answer.found;
    if (msrp_audit_rows(BYTES(local), rows, 3, false, found) != MSRP_GOOD)
        fail("kinds of local rows", 0);
    for (int at = 0; at < 3; at++)
        if (msrp_sim(BYTES(PLAN), orders[at].order, NULL, 0, 1, answer.text, ROOM, &answer.needed, found) != MSRP_GOOD ||
            !begins(answer.text, 1, orders[at].first) || !begins(answer.text, 3, orders[at].third))
            fail("another order", at);
    call(8, &answer);
    bool is_svg = begins(answer.text, 0, "<svg");
    call(7, &answer);
    if (!is_svg || begins(answer.text, 0, "<svg"))
        fail("another style", is_svg);
}

#ifndef PLAIN
/* Each allocation of a call refused in turn: memory is the answer, nothing is written, and nothing is held. */
static long refused(int which) {
    static struct answer answer, none;
    memset(none.text, 0x55, ROOM);
    for (long number = 0;; number++) {
        left = number;
        call(which, &answer);
        int is_reached = left < 0;
        left = NEVER;
        if (held != 0)
            fail("memory is held", which);
        if (!is_reached)
            return number;
        if (answer.status != MSRP_MEMORY || answer.needed != 0 || memcmp(&answer.found, &none.found, sizeof answer.found) != 0 || memcmp(answer.text, none.text, ROOM) != 0)
            fail("a refused allocation", which);
    }
}
#endif

static struct answer first[CALLS];

static void *turns(void *from) {
    struct answer *answer = (struct answer *)malloc(sizeof *answer);
    for (int turn = 0; turn < TURNS; turn++) {
        int which = (turn + *(int *)from) % CALLS;
        call(which, answer);
        if (memcmp(answer, &first[which], sizeof *answer) != 0)
            fail("another answer in a thread", which);
    }
    free(answer);
    return NULL;
}

static void threads(void) {
    pthread_t made[THREADS];
    int from[THREADS];
    for (int at = 0; at < THREADS; at++) {
        from[at] = at;
        if (pthread_create(&made[at], NULL, turns, &from[at]) != 0)
            fail("no thread", at);
    }
    for (int at = 0; at < THREADS; at++)
        pthread_join(made[at], NULL);
}

static struct answer painted;

static void *painting(void *which) {
    call(*(int *)which, &painted);
    return NULL;
}

/* How many bytes of a thread's stack a call touches. */
static size_t touched(int which) {
    uint8_t *stack = (uint8_t *)mmap(NULL, STACK, PROT_READ | PROT_WRITE, MAP_PRIVATE | MAP_ANONYMOUS, -1, 0);
    memset(stack, PAINT, STACK);
    pthread_attr_t how;
    pthread_attr_init(&how);
    pthread_attr_setstack(&how, stack, STACK);
    pthread_t made;
    pthread_create(&made, &how, painting, &which);
    pthread_join(made, NULL);
    pthread_attr_destroy(&how);
    size_t at = 0;
    while (at < STACK && stack[at] == PAINT)
        at++;
    munmap(stack, STACK);
    return STACK - at;
}

int main(int count, char **words) {
    for (int which = 0; which < CALLS; which++) {
        call(which, &first[which]);
        if (first[which].status != DUE[which])
            fail("another status", which);
    }
    names();
    if (count > 1 && strcmp(words[1], "once") == 0)
        return 0;
    threads();
    long allocations = 0;
    size_t most = 0;
#ifndef PLAIN
    for (int which = 0; which < CALLS; which++)
        allocations += refused(which);
#endif
    for (int which = 0; which < CALLS; which++) {
        size_t here = touched(which);
        most = here > most ? here : most;
    }
    printf("%d calls, the same in %d threads; %ld refused allocations, each answered memory; at most %zu KiB of stack\n", CALLS, THREADS, allocations, most / 1024);
    return 0;
}
