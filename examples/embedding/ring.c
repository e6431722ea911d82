/* A toy kernel with two cores that stores its rows in a ring buffer, and a monitor that audits
 * them: after each tick the rows so far, and in the end the whole run. The second run of the
 * kernel has a bug: it grants a resource that is still held. The monitor then says why this is
 * wrong. */
#include "msrp.h"
#include <inttypes.h>
#include <stdio.h>

#define CORES 2
#define TICKS 6
#define ROOM 16 /* rows in the ring: all rows of a run, since the monitor reads from the first on */

static const char PLAN[] = "msrp,1\ncores,2\nticks,6\nresource,g\n"
                           "task,a,0,20,8,0\nop,lock,g\nop,run,1\nop,unlock,g\n"
                           "task,b,1,20,8,0\nop,lock,g\nop,run,1\nop,unlock,g\n";

struct ring {
    struct msrp_row rows[ROOM];
    size_t count;
};

/* The row of a core in a tick. Each core has one task, with the number of the core, and one job.
 * Both tasks use the same resource. */
static struct msrp_row row_of(uint32_t tick, uint32_t core, uint32_t kind) {
    struct msrp_row row = {tick, core, kind, MSRP_NONE, MSRP_NONE, MSRP_NONE, MSRP_NONE};
    if (kind != MSRP_IDLE) {
        row.task = core;
        row.job = 0;
    }
    if (kind != MSRP_IDLE && kind != MSRP_RUN)
        row.resource = 0;
    return row;
}

/* One tick of the kernel: each core notes what it does. */
static void tick(struct ring *ring, uint32_t now, bool is_broken) {
    static const uint32_t KINDS[TICKS][CORES] = {{MSRP_TAKE, MSRP_QUEUE},    {MSRP_RUN, MSRP_SPIN},     {MSRP_RELEASE, MSRP_GRANT},
                                                 {MSRP_IDLE, MSRP_RUN}, {MSRP_IDLE, MSRP_RELEASE}, {MSRP_IDLE, MSRP_IDLE}};
    for (uint32_t core = 0; core < CORES; core++) {
        uint32_t kind = KINDS[now][core];
        ring->rows[ring->count++ % ROOM] = row_of(now, core, is_broken && kind == MSRP_SPIN ? MSRP_GRANT : kind);
    }
}

static uint32_t audit(const struct ring *ring, bool so_far, struct msrp_found *found) {
    return msrp_audit_rows((const uint8_t *)PLAN, sizeof PLAN - 1, ring->rows, ring->count, so_far, found);
}

/* Runs the kernel with the monitor beside it, up to the first fault. */
static uint32_t run(struct ring *ring, bool is_broken, struct msrp_found *found) {
    ring->count = 0;
    for (uint32_t now = 0; now < TICKS; now++) {
        tick(ring, now, is_broken);
        uint32_t status = audit(ring, true, found);
        if (status != MSRP_GOOD)
            return status;
    }
    return audit(ring, false, found);
}

/* Prints the words on the rows, which are written as the text of a trace first. */
static void explain(const struct ring *ring) {
    static const char *const KINDS[] = {"idle", "run", "lock", "unlock", "take", "queue", "spin", "grant", "release"};
    char trace[1024], words[4096];
    size_t length = (size_t)snprintf(trace, sizeof trace, "msrp-trace,1,%d,%d\n", CORES, TICKS), needed;
    for (size_t at = 0; at < ring->count; at++) {
        const struct msrp_row *row = &ring->rows[at % ROOM];
        const char *task = row->task == 0 ? "a" : row->task == 1 ? "b" : "-", *job = row->task == MSRP_NONE ? "-" : "0";
        length += (size_t)snprintf(trace + length, sizeof trace - length, "%" PRIu32 ",%" PRIu32 ",%s,%s,%s,%s\n", row->tick, row->core, KINDS[row->kind], task, job, row->resource == 0 ? "g" : "-");
    }
    struct msrp_found found;
    if (msrp_why((const uint8_t *)PLAN, sizeof PLAN - 1, (const uint8_t *)trace, length, (uint8_t *)words, sizeof words, &needed, &found) == MSRP_FAULT)
        fwrite(words, 1, needed, stdout);
}

int main(void) {
    struct ring ring;
    struct msrp_found found;
    if (msrp_version() != MSRP_VERSION)
        return 1;
    printf("the run: status %" PRIu32 "\n", run(&ring, false, &found));
    uint32_t status = run(&ring, true, &found);
    printf("the broken run: status %" PRIu32 ", row %" PRIu32 " breaks A%" PRIu32 "\n", status, found.row, found.rule);
    explain(&ring);
    return 0;
}
