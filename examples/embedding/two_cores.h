/* The system and the log of examples/log as the library for C takes them. */
#include "msrp.h"

#define NO MSRP_NONE

/* Tasks: hi is 0, lo 1, far 2. Resources: bus is 0, cal 1. */
static const char *const SYSTEM = "msrp-system,1\ncores,2\nresource,bus\nresource,cal\n"
                                  "task,hi,0,50\nop,lock,cal\nop,unlock,cal\n"
                                  "task,lo,0,200\nop,lock,cal\nop,unlock,cal\nop,lock,bus\nop,unlock,bus\n"
                                  "task,far,1,100\nop,lock,bus\nop,unlock,bus\n";
static const struct msrp_tolerances TOLERANCES = {.operation = 1, .slack = 2, .skew = 0, .backlog = 8};

/* ns, deadline, seq, core, kind, task, job, resource */
static const struct msrp_log_event EVENTS[] = {
    {0, 0, MSRP_NO_SEQ, 0, MSRP_LOG_BOOT, NO, NO, NO},
    {1, 0, MSRP_NO_SEQ, 1, MSRP_LOG_BOOT, NO, NO, NO},
    {10, 210, MSRP_NO_SEQ, 0, MSRP_LOG_RELEASE, 1, 0, NO},
    {10, 0, MSRP_NO_SEQ, 0, MSRP_LOG_SWITCH, 1, 0, NO},
    {12, 0, MSRP_NO_SEQ, 0, MSRP_LOG_LOCK, 1, 0, 1},
    {13, 63, MSRP_NO_SEQ, 0, MSRP_LOG_RELEASE, 0, 0, NO},
    {15, 0, MSRP_NO_SEQ, 0, MSRP_LOG_UNLOCK, 1, 0, 1},
    {16, 0, MSRP_NO_SEQ, 0, MSRP_LOG_SWITCH, 0, 0, NO},
    {18, 0, MSRP_NO_SEQ, 0, MSRP_LOG_LOCK, 0, 0, 1},
    {19, 0, MSRP_NO_SEQ, 0, MSRP_LOG_UNLOCK, 0, 0, 1},
    {20, 0, MSRP_NO_SEQ, 0, MSRP_LOG_END, 0, 0, NO},
    {21, 0, MSRP_NO_SEQ, 0, MSRP_LOG_SWITCH, 1, 0, NO},
    {22, 0, MSRP_NO_SEQ, 0, MSRP_LOG_REQUEST, 1, 0, 0},
    {22, 0, MSRP_NO_SEQ, 0, MSRP_LOG_ACQUIRE, 1, 0, 0},
    {23, 123, MSRP_NO_SEQ, 1, MSRP_LOG_RELEASE, 2, 0, NO},
    {23, 0, MSRP_NO_SEQ, 1, MSRP_LOG_SWITCH, 2, 0, NO},
    {24, 0, MSRP_NO_SEQ, 1, MSRP_LOG_REQUEST, 2, 0, 0},
    {25, 0, MSRP_NO_SEQ, 1, MSRP_LOG_POLL, 2, 0, 0},
    {26, 0, MSRP_NO_SEQ, 0, MSRP_LOG_FREED, 1, 0, 0},
    {26, 0, MSRP_NO_SEQ, 1, MSRP_LOG_ACQUIRE, 2, 0, 0},
    {27, 0, MSRP_NO_SEQ, 0, MSRP_LOG_END, 1, 0, NO},
    {28, 0, MSRP_NO_SEQ, 1, MSRP_LOG_FREED, 2, 0, 0},
    {29, 0, MSRP_NO_SEQ, 1, MSRP_LOG_END, 2, 0, NO},
    {29, 0, MSRP_NO_SEQ, 1, MSRP_LOG_SWITCH, NO, NO, NO},
    {30, 0, MSRP_NO_SEQ, 0, MSRP_LOG_STOP, NO, NO, NO},
};
#define COUNT (sizeof EVENTS / sizeof *EVENTS)
