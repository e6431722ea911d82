/* Calls on the auditor of a kernel's log from C: the log of two cores in examples/log event by event,
 * a fault, what a log may lack, refused systems, wrong use, and each allocation refused in turn.
 * With PLAIN defined malloc is the system's, and nothing is refused. */
#include "../../examples/embedding/two_cores.h"
#include "refusing.h"

static struct msrp_found found;

static int is_found(uint32_t rule, uint32_t plan_code, uint32_t missing, uint32_t number) {
    const struct msrp_found due = {0, rule, plan_code, missing, number};
    return !memcmp(&found, &due, sizeof due);
}

static struct msrp_log new_log(void) {
    struct msrp_log log = {NULL};
    EXPECT(msrp_log_new(BYTES(SYSTEM), &TOLERANCES, &log, &found) == MSRP_GOOD && log.at != NULL && is_found(0, 0, 0, 0));
    return log;
}

/* Feeds the first events of the log, which show nothing. */
static void feeds(struct msrp_log *log, size_t count) {
    for (size_t at = 0; at < count; at++) {
        EXPECT(msrp_log_feed(log, &EVENTS[at], &found) == MSRP_GOOD && is_found(0, 0, 0, 0));
        EXPECT(msrp_log_end(log, &found) == MSRP_GOOD && is_found(0, 0, 0, 0));
    }
}

/* After so many events of the log this one shows a rule, or that something is missing; and so does
 * what follows. */
static void shows(size_t count, struct msrp_log_event event, uint32_t rule, uint32_t missing) {
    const uint32_t status = rule ? MSRP_FAULT : MSRP_REFUSED;
    struct msrp_log log = new_log();
    feeds(&log, count);
    EXPECT(msrp_log_feed(&log, &event, &found) == status && is_found(rule, 0, missing, 0));
    EXPECT(msrp_log_feed(&log, &EVENTS[count], &found) == status && is_found(rule, 0, missing, 0));
    EXPECT(msrp_log_end(&log, &found) == status && is_found(rule, 0, missing, 0));
    msrp_log_free(&log);
    EXPECT(log.at == NULL);
}

/* Numbers that are no event change nothing. */
static void refuses_numbers(void) {
    const struct msrp_log_event wrong[] = {
        {14, 0, MSRP_NO_SEQ, 0, 12, 0, 0, 0},
        {14, 0, MSRP_NO_SEQ, 0, MSRP_NONE, 0, 0, 0},
        {14, 64, MSRP_NO_SEQ, 0, MSRP_LOG_RELEASE, MSRP_NONE, MSRP_NONE, 0},
        {14, 64, MSRP_NO_SEQ, 0, MSRP_LOG_RELEASE, 0, MSRP_NONE, 0},
        {14, 0, MSRP_NO_SEQ, 0, MSRP_LOG_SWITCH, MSRP_NONE, 0, 0},
        {14, 0, MSRP_NO_SEQ, 0, MSRP_LOG_END, MSRP_NONE, MSRP_NONE, 0},
        {14, 0, MSRP_NO_SEQ, 0, MSRP_LOG_LOCK, 1, 0, MSRP_NONE},
    };
    struct msrp_log log = new_log();
    feeds(&log, 7);
    for (size_t at = 0; at < sizeof wrong / sizeof *wrong; at++) {
        EXPECT(msrp_log_feed(&log, &wrong[at], &found) == MSRP_USAGE && is_found(0, 0, 0, 0));
        EXPECT(msrp_log_end(&log, &found) == MSRP_GOOD);
    }
    for (size_t at = 7; at < COUNT; at++)
        EXPECT(msrp_log_feed(&log, &EVENTS[at], &found) == MSRP_GOOD);
    msrp_log_free(&log);
}

static void refuses_systems(void) {
    static const struct { const char *text; uint32_t code, number; } systems[] = {
        {"", MSRP_SYSTEM_HEAD, 1}, {"msrp,1\n", MSRP_SYSTEM_HEAD, 1}, {"msrp-system,1\nticks,4\n", MSRP_SYSTEM_RECORD, 2},
        {"msrp-system,1\ncores,0\n", MSRP_SYSTEM_NUMBER, 2}, {"msrp-system,1\ncores,1\nresource,a b\n", MSRP_SYSTEM_NAME, 3},
        {"msrp-system,1\ncores,1\nresource,a\nresource,a\n", MSRP_SYSTEM_TWICE, 4}, {"msrp-system,1\ncores,1\ntask,a,1,9\n", MSRP_SYSTEM_CORE, 3},
        {"msrp-system,1\ncores,1\ntask,a,0,9\nop,lock,b\n", MSRP_SYSTEM_RESOURCE, 4},
        {"msrp-system,1\ncores,1\nresource,b\ntask,a,0,9\nop,lock,b\n", MSRP_SYSTEM_UNMATCHED, 6}};
    struct msrp_log log = {NULL};
    for (size_t at = 0; at < sizeof systems / sizeof *systems; at++) {
        EXPECT(msrp_log_new(BYTES(systems[at].text), &TOLERANCES, &log, &found) == MSRP_REFUSED);
        EXPECT(log.at == NULL && is_found(0, systems[at].code, 0, systems[at].number));
    }
}

/* A resource more than a system may have. */
static void refuses_many_resources(void) {
    static char text[32 * 1024];
    size_t used = (size_t)sprintf(text, "msrp-system,1\ncores,1\n");
    struct msrp_log log = {NULL};
    for (int resource = 0; resource < 1025; resource++)
        used += (size_t)sprintf(text + used, "resource,r%d\n", resource);
    EXPECT(msrp_log_new(BYTES(text), &TOLERANCES, &log, &found) == MSRP_REFUSED && log.at == NULL && is_found(0, MSRP_SYSTEM_LIMIT, 0, 1027));
}

static void refuses_long_text(void) {
    const size_t size = 1 << 24;
    uint8_t *text = malloc(size);
    struct msrp_log log = {NULL};
    EXPECT(text != NULL);
    memset(text, '#', size);
    EXPECT(msrp_log_new(text, size, &TOLERANCES, &log, &found) == MSRP_TOO_LONG && log.at == NULL);
    free(text);
}

static void refuses_handles(void) {
    struct msrp_log none = {NULL}, log = new_log();
    void *at = log.at;
    EXPECT(msrp_log_new(BYTES(SYSTEM), &TOLERANCES, &log, &found) == MSRP_USAGE && log.at == at && is_found(0, 0, 0, 0));
    msrp_log_free(&log);
    EXPECT(msrp_log_feed(&none, EVENTS, &found) == MSRP_USAGE && msrp_log_end(&none, &found) == MSRP_USAGE);
    msrp_log_free(&none);
    EXPECT(none.at == NULL);
}

/* The handle of another kind is left as it is. */
static void refuses_an_auditor(void) {
    static const char *const plan = "msrp,1\ncores,1\nticks,1\n";
    static const struct msrp_row idle = {0, 0, MSRP_IDLE, MSRP_NONE, MSRP_NONE, MSRP_NONE, MSRP_NONE};
    struct msrp_auditor auditor = {NULL};
    struct msrp_log log = new_log();
    EXPECT(msrp_auditor_new(BYTES(plan), &auditor, &found) == MSRP_GOOD);
    struct msrp_log other = {auditor.at};
    struct msrp_auditor another = {log.at};
    EXPECT(msrp_log_feed(&other, EVENTS, &found) == MSRP_USAGE && msrp_log_end(&other, &found) == MSRP_USAGE);
    EXPECT(msrp_auditor_feed(&another, &idle, &found) == MSRP_USAGE && msrp_auditor_end(&another, &found) == MSRP_USAGE);
    EXPECT(other.at == auditor.at && another.at == log.at);
    EXPECT(msrp_auditor_feed(&auditor, &idle, &found) == MSRP_GOOD && msrp_log_feed(&log, EVENTS, &found) == MSRP_GOOD);
    msrp_auditor_free(&auditor);
    msrp_log_free(&log);
}

static void audits(void) {
    struct msrp_log log = new_log();
    feeds(&log, COUNT);
    msrp_log_free(&log);
    /* E1 to E10, and what a log lacks */
    static const struct { size_t count; struct msrp_log_event event; } faults[] = {
        {7, {19, 0, MSRP_NO_SEQ, 0, MSRP_LOG_REQUEST, 1, 0, 0}}, {19, {30, 0, MSRP_NO_SEQ, 1, MSRP_LOG_ACQUIRE, 2, 0, 0}},
        {6, {14, 99, MSRP_NO_SEQ, 0, MSRP_LOG_RELEASE, 3, 0, 0}}, {6, {14, 0, MSRP_NO_SEQ, 1, MSRP_LOG_SWITCH, 1, 0, NO}},
        {6, {14, 0, MSRP_NO_SEQ, 1, MSRP_LOG_SWITCH, 2, 0, NO}}, {13, {23, 0, MSRP_NO_SEQ, 0, MSRP_LOG_SWITCH, 0, 0, NO}},
        {6, {14, 64, MSRP_NO_SEQ, 0, MSRP_LOG_RELEASE, 0, 0, NO}}, {6, {14, 0, MSRP_NO_SEQ, 0, MSRP_LOG_SWITCH, 0, 0, NO}},
        {6, {14, 0, MSRP_NO_SEQ, 0, MSRP_LOG_REQUEST, 1, 0, 0}}, {17, {25, 0, MSRP_NO_SEQ, 1, MSRP_LOG_ACQUIRE, 2, 0, 0}}};
    for (uint32_t at = 0; at < 10; at++)
        shows(faults[at].count, faults[at].event, at + 1, 0);
    shows(0, (struct msrp_log_event){0, 0, MSRP_NO_SEQ, 2, MSRP_LOG_BOOT, NO, NO, NO}, 0, MSRP_LACKS_CORE);
    shows(1, (struct msrp_log_event){5, 105, MSRP_NO_SEQ, 1, MSRP_LOG_RELEASE, 2, 0, NO}, 0, MSRP_LACKS_START);
    shows(6, (struct msrp_log_event){14, 0, MSRP_NO_SEQ, 0, MSRP_LOG_BOOT, NO, NO, NO}, 0, MSRP_LACKS_RESTART);
    shows(6, (struct msrp_log_event){14, 0, MSRP_NO_SEQ, 0, MSRP_LOG_LOST, 0, 0, 0}, 0, MSRP_LACKS_RECORDS);
    shows(6, (struct msrp_log_event){11, 0, MSRP_NO_SEQ, 0, MSRP_LOG_UNLOCK, 1, 0, 1}, 0, MSRP_LACKS_CLOCK);
    shows(6, (struct msrp_log_event){14, 164, MSRP_NO_SEQ, 0, MSRP_LOG_RELEASE, 0, 2, NO}, 0, MSRP_LACKS_RELEASE);
    shows(8, (struct msrp_log_event){17, 0, MSRP_NO_SEQ, 0, MSRP_LOG_ACQUIRE, 0, 0, 1}, 0, MSRP_LACKS_REQUEST);
}

/* Each tolerance counts: lo runs on for 4 ns after an operation that takes 1 ns, with a slack of 2 ns. */
static uint32_t late_by(struct msrp_tolerances tolerances) {
    const struct msrp_log_event late = {19, 0, MSRP_NO_SEQ, 0, MSRP_LOG_REQUEST, 1, 0, 0};
    struct msrp_log log = {NULL};
    EXPECT(msrp_log_new(BYTES(SYSTEM), &tolerances, &log, &found) == MSRP_GOOD);
    feeds(&log, 7);
    const uint32_t status = msrp_log_feed(&log, &late, &found);
    msrp_log_free(&log);
    return status;
}

static void tolerates(void) {
    const struct msrp_log_event third = {14, 114, MSRP_NO_SEQ, 1, MSRP_LOG_RELEASE, 2, 0, NO};
    struct msrp_log log = {NULL};
    EXPECT(late_by((struct msrp_tolerances){1, 2, 0, 8}) == MSRP_FAULT && late_by((struct msrp_tolerances){3, 2, 0, 8}) == MSRP_GOOD);
    EXPECT(late_by((struct msrp_tolerances){1, 4, 0, 8}) == MSRP_GOOD && late_by((struct msrp_tolerances){1, 2, 2, 8}) == MSRP_GOOD);
    EXPECT(msrp_log_new(BYTES(SYSTEM), &(struct msrp_tolerances){1, 2, 0, 2}, &log, &found) == MSRP_GOOD);
    feeds(&log, 6);
    EXPECT(msrp_log_feed(&log, &third, &found) == MSRP_REFUSED && is_found(0, 0, MSRP_LACKS_ROOM, 0));
    msrp_log_free(&log);
}

#ifndef PLAIN
/* Each allocation of new is refused in turn. Then feed and end take none. */
static long refuses(void) {
    struct msrp_log log = {NULL};
    long number = 0;
    for (left = 0; msrp_log_new(BYTES(SYSTEM), &TOLERANCES, &log, &found) == MSRP_MEMORY; left = ++number)
        EXPECT(left < 0 && log.at == NULL && is_found(0, 0, 0, 0));
    EXPECT(number && log.at != NULL);
    left = 0;
    feeds(&log, COUNT);
    EXPECT(left == 0);
    left = NEVER;
    msrp_log_free(&log);
    return number;
}
#endif

int main(void) {
    audits();
    tolerates();
    refuses_numbers();
    refuses_systems();
    refuses_many_resources();
    refuses_long_text();
    refuses_handles();
    refuses_an_auditor();
#ifndef PLAIN
    printf("%ld allocations of an auditor of logs refused, one by one\n", refuses());
#endif
    return 0;
}
