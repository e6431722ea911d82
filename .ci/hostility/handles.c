/* Calls on an auditor from C: rows one by one, wrong use, and each allocation refused in turn.
 * With PLAIN defined malloc is the system's, and nothing is refused. */
#include "msrp.h"
#include "refusing.h"

#define NO MSRP_NONE

static const char *const PLAN = "msrp,1\ncores,2\nticks,4\nresource,g\n"
                                "task,a,0,20,8,0\nop,lock,g\nop,run,1\nop,unlock,g\n"
                                "task,b,1,20,8,0\nop,lock,g\nop,run,1\nop,unlock,g\n";
static const struct msrp_row ROWS[] = {
    {0, 0, MSRP_TAKE, 0, 0, 0, NO},    {0, 1, MSRP_QUEUE, 1, 0, 0, 1},    {1, 0, MSRP_RUN, 0, 0, NO, NO},
    {1, 1, MSRP_SPIN, 1, 0, 0, NO},    {2, 0, MSRP_RELEASE, 0, 0, 0, NO}, {2, 1, MSRP_GRANT, 1, 0, 0, NO},
    {3, 0, MSRP_IDLE, NO, NO, NO, NO}, {3, 1, MSRP_RUN, 1, 0, NO, NO}};
#define COUNT (sizeof ROWS / sizeof *ROWS)

static struct msrp_found found;
static uint8_t words[1024];
static size_t needed;

/* The row that is due of a core is this one; of the other core's turn in the tick nothing is asked. */
static void is_due(struct msrp_auditor *auditor, const struct msrp_row *expected) {
    struct msrp_row row;
    EXPECT(msrp_auditor_due(auditor, expected->core, &row) == MSRP_GOOD && !memcmp(&row, expected, sizeof row));
}

/* No row is due of a core, with this answer, and the row is as before. */
static void none_is_due(struct msrp_auditor *auditor, uint32_t core, uint32_t status) {
    struct msrp_row row = ROWS[0];
    EXPECT(msrp_auditor_due(auditor, core, &row) == status && !memcmp(&row, &ROWS[0], sizeof row));
}

static void says(struct msrp_auditor *auditor, uint32_t status, const char *expected) {
    size_t length = strlen(expected);
    EXPECT(msrp_auditor_why(auditor, words, sizeof words, &needed, &found) == status);
    EXPECT(needed == length && !memcmp(words, expected, length));
    EXPECT(msrp_auditor_why(auditor, words, 0, &needed, &found) == (length ? MSRP_ROOM : status) && needed == length);
}

static void feeds_a_run(struct msrp_auditor *auditor) {
    for (size_t at = 0; at < COUNT; at++) {
        is_due(auditor, &ROWS[at]);
        if (at % 2)
            none_is_due(auditor, 0, MSRP_USAGE);
        none_is_due(auditor, 2, MSRP_USAGE);
        says(auditor, MSRP_GOOD, "");
        EXPECT(msrp_auditor_end(auditor, &found) == MSRP_FAULT && found.row == at + 1 && found.rule == 6);
        EXPECT(msrp_auditor_feed(auditor, &ROWS[at], &found) == MSRP_GOOD && found.row == 0);
    }
    EXPECT(msrp_auditor_end(auditor, &found) == MSRP_GOOD);
    none_is_due(auditor, 0, MSRP_DONE);
}

static void keeps_a_fault(struct msrp_auditor *auditor) {
    struct msrp_row row = ROWS[3];
    row.kind = MSRP_GRANT;
    for (size_t at = 0; at < 3; at++)
        EXPECT(msrp_auditor_feed(auditor, &ROWS[at], &found) == MSRP_GOOD);
    EXPECT(msrp_auditor_feed(auditor, &row, &found) == MSRP_FAULT && found.row == 4 && found.rule == 5);
    EXPECT(msrp_auditor_feed(auditor, &ROWS[3], &found) == MSRP_FAULT && found.row == 4 && found.rule == 5);
    EXPECT(msrp_auditor_end(auditor, &found) == MSRP_FAULT && found.row == 4);
    none_is_due(auditor, 0, MSRP_USAGE);
    says(auditor, MSRP_FAULT,
         "fault,4,A5\nrow 4: 1,1,grant,b,0,g,-\n"
         "rule A5: wrong lock outcome; the first-in-first-out queue gives a different result\n"
         "expected: 1,1,spin,b,0,g,-\n");
    EXPECT(msrp_auditor_again(auditor) == MSRP_GOOD);
}

static void says_who_is_scheduled(struct msrp_auditor *auditor) {
    EXPECT(msrp_auditor_feed(auditor, &(struct msrp_row){0, 0, MSRP_IDLE, NO, NO, NO, NO}, &found) == MSRP_FAULT);
    says(auditor, MSRP_FAULT,
         "fault,1,A3\nrow 1: 0,0,idle,-,-,-,-\nrule A3: wrong job scheduled\nexpected: 0,0,take,a,0,g,-\nfound: core 0 idle\n"
         "scheduled: a,0 (preemption level 1, released at tick 0, absolute deadline 8)\n");
    EXPECT(msrp_auditor_again(auditor) == MSRP_GOOD);
}

static void says_why_it_refuses(struct msrp_auditor *auditor, struct msrp_row row, const char *expected) {
    EXPECT(msrp_auditor_feed(auditor, ROWS, &found) == MSRP_GOOD);
    EXPECT(msrp_auditor_feed(auditor, &row, &found) == MSRP_REFUSED && found.number == 2);
    says(auditor, MSRP_REFUSED, expected);
    EXPECT(msrp_auditor_again(auditor) == MSRP_GOOD);
}

static void keeps_a_refusal(struct msrp_auditor *auditor) {
    struct msrp_row row = ROWS[0];
    row.kind = 9;
    EXPECT(msrp_auditor_feed(auditor, &row, &found) == MSRP_REFUSED && found.trace_code == 4 && found.number == 1);
    EXPECT(msrp_auditor_feed(auditor, ROWS, &found) == MSRP_REFUSED && found.trace_code == 4 && found.number == 1);
    none_is_due(auditor, 0, MSRP_USAGE);
    says(auditor, MSRP_REFUSED, "row 1: error R4: unknown kind; must be 0 to 8\n");
    EXPECT(msrp_auditor_again(auditor) == MSRP_GOOD);
}

static void refuses_a_null_handle(void) {
    struct msrp_auditor none = {NULL};
    EXPECT(msrp_auditor_feed(&none, ROWS, &found) == MSRP_USAGE && msrp_auditor_end(&none, &found) == MSRP_USAGE);
    EXPECT(msrp_auditor_again(&none) == MSRP_USAGE);
    none_is_due(&none, 0, MSRP_USAGE);
    says(&none, MSRP_USAGE, "");
    msrp_auditor_free(&none);
    EXPECT(msrp_auditor_new(BYTES("msrp,9\n"), &none, &found) == MSRP_REFUSED && found.plan_code == 1);
    EXPECT(none.at == NULL);
}

static void audits(void) {
    struct msrp_auditor auditor = {NULL};
    EXPECT(msrp_auditor_new(BYTES(PLAN), &auditor, &found) == MSRP_GOOD && auditor.at != NULL);
    void *at = auditor.at;
    EXPECT(msrp_auditor_new(BYTES(PLAN), &auditor, &found) == MSRP_USAGE && auditor.at == at);
    keeps_a_fault(&auditor);
    keeps_a_refusal(&auditor);
    says_who_is_scheduled(&auditor);
    says_why_it_refuses(&auditor, (struct msrp_row){0, 1, MSRP_QUEUE, 1, 0, 7, 1}, "row 2: error R5: the plan has no such task or resource\n");
    says_why_it_refuses(&auditor, (struct msrp_row){0, 1, MSRP_RUN, 1, 0, 0, NO}, "row 2: error R6: a row of this kind has another job, resource or queue length\n");
    feeds_a_run(&auditor);
    msrp_auditor_free(&auditor);
    EXPECT(auditor.at == NULL);
}

#ifndef PLAIN
/* Whether the auditor was made with this allocation refused, if there is one. */
static int is_made(struct msrp_auditor *auditor, long refused) {
    left = refused;
    uint32_t status = msrp_auditor_new(BYTES(PLAN), auditor, &found);
    int is_reached = left < 0;
    left = NEVER;
    EXPECT(status == (is_reached ? MSRP_MEMORY : MSRP_GOOD) && is_reached == (auditor->at == NULL));
    return !is_reached;
}

/* Each allocation of due is refused in turn, which changes nothing. What it takes it gives back. */
static long refuses_due(struct msrp_auditor *auditor) {
    struct msrp_row row = ROWS[7];
    long number = 0, before = held;
    for (left = 0; msrp_auditor_due(auditor, 0, &row) == MSRP_MEMORY; left = ++number)
        EXPECT(left < 0 && held == before && !memcmp(&row, &ROWS[7], sizeof row));
    left = NEVER;
    EXPECT(number && held == before && !memcmp(&row, &ROWS[0], sizeof row));
    return number;
}

/* And of why. */
static long refuses_why(struct msrp_auditor *auditor) {
    long number = 0, before = held;
    for (left = 0; msrp_auditor_why(auditor, words, sizeof words, &needed, &found) == MSRP_MEMORY; left = ++number)
        EXPECT(left < 0 && held == before && needed == 0);
    left = NEVER;
    EXPECT(number && held == before && needed && !memcmp(words, "fault,1,A5\n", 11));
    return number;
}

/* Each allocation of new is refused in turn. Then feed and end take none, and again takes one. */
static long refuses(void) {
    struct msrp_auditor auditor = {NULL};
    long number = 0;
    while (!is_made(&auditor, number))
        number++;
    left = 0;
    for (size_t at = 0; at < COUNT; at++)
        EXPECT(msrp_auditor_feed(&auditor, &ROWS[at], &found) == MSRP_GOOD);
    EXPECT(msrp_auditor_end(&auditor, &found) == MSRP_GOOD && left == 0);
    EXPECT(msrp_auditor_again(&auditor) == MSRP_MEMORY && left < 0);
    EXPECT(msrp_auditor_end(&auditor, &found) == MSRP_GOOD);
    left = NEVER;
    EXPECT(msrp_auditor_again(&auditor) == MSRP_GOOD);
    number += refuses_due(&auditor);
    EXPECT(msrp_auditor_feed(&auditor, &ROWS[1], &found) == MSRP_FAULT);
    number += refuses_why(&auditor);
    msrp_auditor_free(&auditor);
    return number;
}

/* How many allocations stay of an auditor that is freed, after it has begun again so many times. */
static long stays(int times) {
    struct msrp_auditor auditor = {NULL};
    long before = held;
    EXPECT(msrp_auditor_new(BYTES(PLAN), &auditor, &found) == MSRP_GOOD);
    long all = held - before;
    for (int time = 0; time < times; time++)
        EXPECT(msrp_auditor_again(&auditor) == MSRP_GOOD && held - before == all);
    msrp_auditor_free(&auditor);
    EXPECT(held - before < all);
    return held - before;
}
#endif

int main(void) {
    refuses_a_null_handle();
    audits();
#ifndef PLAIN
    EXPECT(stays(0) == stays(3));
    printf("%ld allocations of an auditor refused, one by one\n", refuses());
#endif
    return 0;
}
