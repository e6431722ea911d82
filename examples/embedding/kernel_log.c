/* Audits the log of a kernel event by event, as a monitor would, and then a faulty one. */
#include "two_cores.h"

#include <inttypes.h>
#include <stdio.h>
#include <string.h>

/* Feeds an event, and says what the events so far show with it, if they show anything. */
static uint32_t feed(struct msrp_log *log, const struct msrp_log_event *event)
{
    struct msrp_found found;
    const uint32_t status = msrp_log_feed(log, event, &found);
    if (status == MSRP_FAULT)
        printf("at %" PRIu64 ": E%" PRIu32 "\n", event->ns, found.rule);
    if (status == MSRP_REFUSED)
        printf("at %" PRIu64 ": the log lacks something, number %" PRIu32 "\n", event->ns, found.trace_code);
    return status;
}

/* Audits the log with another event at one place, or the log itself. */
static int audit(const struct msrp_log_event *other, size_t place)
{
    struct msrp_log log = {NULL};
    struct msrp_found found;
    uint32_t status = msrp_log_new((const uint8_t *)SYSTEM, strlen(SYSTEM), &TOLERANCES, &log, &found);
    for (size_t at = 0; at < COUNT && status == MSRP_GOOD; at++)
        status = feed(&log, other && at == place ? other : &EVENTS[at]);
    if (status == MSRP_GOOD)
        printf("good, %zu events\n", COUNT);
    msrp_log_free(&log);
    return status;
}

int main(void)
{
    /* lo unlocks cal at 15, so hi should run by 18; but lo still runs, and requests bus at 19. */
    const struct msrp_log_event late = {19, 0, MSRP_NO_SEQ, 0, MSRP_LOG_REQUEST, 1, 0, 0};
    return audit(NULL, 0) == MSRP_GOOD && audit(&late, 7) == MSRP_FAULT ? 0 : 1;
}
