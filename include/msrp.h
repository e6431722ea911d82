/* msrp: simulates, audits, reports and draws runs of real-time plans under the Multiprocessor
 * Stack Resource Policy.
 *
 * The functions with these names are proved. This header is written by hand, and nothing checks
 * that a caller meets these conditions:
 *
 * - A text is a pointer and a length in bytes. A list is a pointer and the number of its elements.
 *   If the length is 0 the pointer may be null; it isn't read through.
 * - `needed` and `found` are never null. The bytes of `text` are writable, and need no values
 *   before.
 * - What a call writes (text, needed, found) overlaps no other argument, and no other thread
 *   touches it during the call. What a call only reads may be shared by several threads.
 * - The calling thread has 512 KiB of stack left. So no call is made from a signal handler.
 * - No call is made in the forked child of a process with threads.
 * - The library is built for Linux on x86-64, for processors of the level x86-64-v2.
 *
 * No call prints, ends the process, starts a thread or waits for one. Memory comes from malloc.
 *
 * A call keeps nothing, except in a handle: it frees its memory before it returns, and several
 * threads may call at once. What a handle holds lasts from call to call. */
#ifndef MSRP_H
#define MSRP_H

#include <stdbool.h>
#include <stddef.h>
#include <stdint.h>

#ifdef __cplusplus
extern "C" {
#endif

/* The version of these calls. msrp_version() returns the version of the linked library. */
#define MSRP_VERSION 1

/* What a call returns. 0 to 5 are the exit statuses of the program msrp. */
enum msrp_status {
    MSRP_GOOD = 0,     /* the call succeeded; a judged trace is a legal run */
    MSRP_FAULT = 1,    /* the trace isn't a legal run: see row, rule */
    MSRP_REFUSED = 2,  /* plan or trace is refused: see plan_code or trace_code, and number */
    MSRP_USAGE = 3,    /* wrong use, such as a number not listed here or ticks beyond the plan's */
    MSRP_MEMORY = 4,   /* an allocation failed */
    MSRP_TOO_LONG = 5, /* a text has 16 MiB or more, whatever else is wrong */
    MSRP_ROOM = 6,     /* the buffer is too short and unchanged; needed has the text's length */
    MSRP_WAIT = 7,     /* not yet: nothing has changed */
    MSRP_DONE = 8      /* nothing is left */
};

/* What was found. A field that doesn't apply is 0. With MSRP_ROOM the fields are those that a
 * longer buffer would give. The calls on a kernel's log use rule, plan_code, trace_code and number:
 * see there. */
struct msrp_found {
    uint32_t row;        /* the first row that violates a rule, counted from 1 */
    uint32_t rule;       /* the number after A of the lowest rule that it violates, 1 to 7 */
    uint32_t plan_code;  /* the number after P of the plan's refusal, 1 to 16 */
    uint32_t trace_code; /* the number after R of the trace's refusal, 1 to 8 */
    uint32_t number;     /* the refused record, or for rows as numbers the refused row, from 1 */
};

/* A row as numbers: one turn of one core. Tasks and resources are numbered from 0 in the order of
 * their declaration, and jobs from 0 within their task. A field that a row doesn't have is
 * MSRP_NONE. */
struct msrp_row {
    uint32_t tick, core;
    uint32_t kind;      /* enum msrp_kind */
    uint32_t task, job; /* of every row that isn't idle */
    uint32_t resource;  /* of every row that is neither idle nor run */
    uint32_t ahead;     /* on a queue row: the jobs in the queue before this one, if known */
};

#define MSRP_NONE UINT32_MAX

enum msrp_kind { MSRP_IDLE = 0, MSRP_RUN = 1, MSRP_LOCK = 2, MSRP_UNLOCK = 3, MSRP_TAKE = 4, MSRP_QUEUE = 5, MSRP_SPIN = 6, MSRP_GRANT = 7, MSRP_RELEASE = 8 };

/* The order of the cores within each tick. */
enum msrp_order {
    MSRP_ASC = 0,  /* ascending */
    MSRP_DESC = 1, /* descending */
    MSRP_ROT = 2,  /* rotating: tick t begins with core t mod m, on m cores */
    MSRP_LIST = 3  /* from a list: one core for each turn, tick after tick */
};

/* How a picture is drawn. */
enum msrp_style { MSRP_TEXT = 0, MSRP_SVG = 1 };

uint32_t msrp_version(void);

/* The verdict on a trace of a plan, both as texts: MSRP_GOOD for a legal run, otherwise the first
 * row that violates a rule. If a faulty row precedes a refused record, the fault is reported and
 * not the refusal. A refused plan is reported whatever the trace is. */
uint32_t msrp_audit(const uint8_t *plan, size_t plan_len, const uint8_t *trace, size_t trace_len, struct msrp_found *found);

/* The verdict on rows that are numbers. Without so_far the rows are a whole trace. With so_far
 * more rows may follow, and MSRP_GOOD means that the rows are the start of a legal run. A row is
 * refused if its number names no kind (R4), if it lacks a field of its kind or has one too many
 * (R6), or if the plan has no such task or resource (R5), in this order. No memory is allocated
 * for a row. */
uint32_t msrp_audit_rows(const uint8_t *plan, size_t plan_len, const struct msrp_row *rows, size_t rows_len, bool so_far, struct msrp_found *found);

/* Each of the following calls makes a text. If the text fits, it is written to the beginning of
 * the buffer, and the rest is unchanged. If it doesn't fit, the call returns MSRP_ROOM, and the
 * whole buffer is unchanged. In both cases needed is the length of the text. If there is no text,
 * needed is 0. */

/* The report of a trace. If the trace isn't a legal run there is no text, and found has the first
 * fault. */
uint32_t msrp_report(const uint8_t *plan, size_t plan_len, const uint8_t *trace, size_t trace_len, uint8_t *text, size_t text_len, size_t *needed, struct msrp_found *found);

/* The trace of a simulation of the plan, in version 1 or 2 of the text. cores is read only for
 * MSRP_LIST. The call returns MSRP_USAGE if the list doesn't give each core of the plan one turn
 * in each tick. */
uint32_t msrp_sim(const uint8_t *plan, size_t plan_len, uint32_t order, const uint32_t *cores, size_t cores_len, uint32_t version, uint8_t *text, size_t text_len, size_t *needed, struct msrp_found *found);

/* The levels and ceilings of a plan. */
uint32_t msrp_check(const uint8_t *plan, size_t plan_len, uint8_t *text, size_t text_len, size_t *needed, struct msrp_found *found);

/* The plan's own text, in its shortest form, which is read as the same plan. */
uint32_t msrp_plan_text(const uint8_t *plan, size_t plan_len, uint8_t *text, size_t text_len, size_t *needed, struct msrp_found *found);

/* The picture of a trace, of the ticks from `from` up to `to`, exclusive. If to is 0, it ends with
 * the plan, after at most 200 ticks. If a row violates a rule, the rows up to it are drawn, and
 * the call returns MSRP_FAULT. */
uint32_t msrp_view(const uint8_t *plan, size_t plan_len, const uint8_t *trace, size_t trace_len, uint32_t style, uint32_t from, uint32_t to, uint8_t *text, size_t text_len, size_t *needed, struct msrp_found *found);

/* The verdict on a trace, and then its reason in plain sentences: for a fault the row, the rule
 * and the expected row; for a legal run what it exercised. A refused plan or trace has no text. */
uint32_t msrp_why(const uint8_t *plan, size_t plan_len, const uint8_t *trace, size_t trace_len, uint8_t *text, size_t text_len, size_t *needed, struct msrp_found *found);

/* Why a plan is refused, or what is odd in it. A refused plan has a text too, and the call returns
 * MSRP_REFUSED. */
uint32_t msrp_why_plan(const uint8_t *plan, size_t plan_len, uint8_t *text, size_t text_len, size_t *needed, struct msrp_found *found);

/* The verdict on rows that are numbers, as msrp_audit_rows gives it with so_far, and its cause in
 * words, as msrp_auditor_why gives it. While nothing is wrong there is no text. */
uint32_t msrp_why_rows(const uint8_t *plan, size_t plan_len, const struct msrp_row *rows, size_t rows_len, uint8_t *text, size_t text_len, size_t *needed, struct msrp_found *found);

/* The number that stands for the plan's task or resource of this name in rows. If the plan has no
 * such name the call returns MSRP_USAGE. number is written only with MSRP_GOOD. */
uint32_t msrp_task_number(const uint8_t *plan, size_t plan_len, const uint8_t *name, size_t name_len, uint32_t *number, struct msrp_found *found);
uint32_t msrp_resource_number(const uint8_t *plan, size_t plan_len, const uint8_t *name, size_t name_len, uint32_t *number, struct msrp_found *found);

/* A handle is one pointer, which only these calls follow: to an auditor of rows or of a log, a run,
 * or a core of a run.
 *
 * - It is {NULL} before the call that makes its contents, and after the call that frees them.
 * - One call at a time uses it. It may go to another thread if a lock, the start or join of a
 *   thread, or a sequentially consistent atomic orders the calls. A copy may only replace the
 *   handle.
 * - Calls with a null handle, or one of another kind, answer MSRP_USAGE and change nothing.
 * - The plan, or the system of a log, stays in memory until the process ends, even after the handle
 *   is freed. */

/* ---- An auditor that is fed row by row. */
struct msrp_auditor {
    void *at;
};

/* Makes an auditor of a plan, and allocates all memory that feed and end need. If the answer isn't
 * MSRP_GOOD the handle stays null. If the handle isn't null the answer is MSRP_USAGE, and the
 * handle is unchanged. */
uint32_t msrp_auditor_new(const uint8_t *plan, size_t plan_len, struct msrp_auditor *auditor, struct msrp_found *found);

/* Takes the next row, and returns the verdict on all rows so far, which is that of msrp_audit_rows
 * with so_far. After a fault or a refusal the answer stays the same. */
uint32_t msrp_auditor_feed(struct msrp_auditor *auditor, const struct msrp_row *row, struct msrp_found *found);

/* The verdict on the rows so far as a whole trace. More rows may be fed afterwards. */
uint32_t msrp_auditor_end(struct msrp_auditor *auditor, struct msrp_found *found);

/* The row that is expected of a core: if it is fed next it has no fault, and every other row of the
 * core has one, except that ahead may be left out. The auditor is unchanged. MSRP_DONE after the
 * last row. MSRP_USAGE after a fault or a refusal, for a core that the plan doesn't have, and for
 * one that already has its row in this tick. If the answer isn't MSRP_GOOD row is unchanged. The
 * call allocates memory, and frees it: on MSRP_MEMORY nothing changes. */
uint32_t msrp_auditor_due(struct msrp_auditor *auditor, uint32_t core, struct msrp_row *row);

/* The verdict on all rows so far, as msrp_auditor_feed returns it, and its cause in words: the
 * record of the verdict, the row that was fed, the rule, and the row that was expected. While
 * nothing is wrong the text is empty, and the answer is MSRP_GOOD. The buffer is used as by the
 * calls above. The call allocates memory: on MSRP_MEMORY nothing changes. */
uint32_t msrp_auditor_why(struct msrp_auditor *auditor, uint8_t *text, size_t text_len, size_t *needed, struct msrp_found *found);

/* Begins another trace of the same plan. It allocates memory: on MSRP_MEMORY nothing changes. */
uint32_t msrp_auditor_again(struct msrp_auditor *auditor);

/* Frees the auditor, except for the plan. A null handle is unchanged. */
void msrp_auditor_free(struct msrp_auditor *auditor);

/* ---- An auditor of a kernel's log, which is fed event by event. docs/LOG.md describes the events,
 * the rules and the text of a system.
 *
 * If the cores number their records, a fault isn't certain at once: see docs/C.md. */
struct msrp_log {
    void *at;
};

/* How exact the times of a log are, in ns, and how many jobs may be released and not ended. */
struct msrp_tolerances {
    uint32_t operation; /* how long an operation on a resource takes */
    uint32_t slack;     /* how long the kernel may take to react */
    uint32_t skew;      /* by how much the clocks of two cores may differ */
    uint32_t backlog;   /* the most jobs that may be released and not ended; 4096 in msrp_log */
};

/* The numbers up to MSRP_LOG_LOST are also those of enum msrp_event_kind in msrp_events.h. */
enum msrp_log_kind { MSRP_LOG_BOOT = 0, MSRP_LOG_RELEASE = 1, MSRP_LOG_SWITCH = 2, MSRP_LOG_LOCK = 3, MSRP_LOG_UNLOCK = 4, MSRP_LOG_REQUEST = 5, MSRP_LOG_ACQUIRE = 6, MSRP_LOG_FREED = 7, MSRP_LOG_END = 8, MSRP_LOG_STOP = 9, MSRP_LOG_LOST = 10, MSRP_LOG_POLL = 11 };

#define MSRP_NO_SEQ UINT64_MAX

/* An event. Tasks and resources are numbered from 0 in the order of their declaration. A field that
 * an event of the kind doesn't have isn't read. */
struct msrp_log_event {
    uint64_t ns;        /* the time by the core's clock */
    uint64_t deadline;  /* of a release: the absolute deadline in ns */
    uint64_t seq;       /* the number among the core's records, or MSRP_NO_SEQ */
    uint32_t core;
    uint32_t kind;      /* enum msrp_log_kind */
    uint32_t task, job; /* of all but boot, stop and lost; both MSRP_NONE for a switch to none */
    uint32_t resource;  /* from lock to freed, and of a poll */
};

/* What a log lacks. */
enum msrp_missing { MSRP_LACKS_CORE = 1, MSRP_LACKS_START = 2, MSRP_LACKS_RESTART = 3, MSRP_LACKS_RECORDS = 4, MSRP_LACKS_CLOCK = 5, MSRP_LACKS_RELEASE = 6, MSRP_LACKS_REQUEST = 7, MSRP_LACKS_ROOM = 8 };

/* Why a system is refused, in found->plan_code; found->number is the record, counted from 1. */
enum msrp_system_refusal { MSRP_SYSTEM_HEAD = 1, MSRP_SYSTEM_RECORD = 2, MSRP_SYSTEM_NUMBER = 3, MSRP_SYSTEM_NAME = 4, MSRP_SYSTEM_TWICE = 5, MSRP_SYSTEM_CORE = 6, MSRP_SYSTEM_RESOURCE = 7, MSRP_SYSTEM_UNMATCHED = 8, MSRP_SYSTEM_LIMIT = 9, MSRP_SYSTEM_NESTED = 10 };

/* Makes an auditor of a log of a system, and allocates all memory that feed and end need. If the
 * answer isn't MSRP_GOOD the handle stays null. If the handle isn't null the answer is MSRP_USAGE,
 * and the handle is unchanged. */
uint32_t msrp_log_new(const uint8_t *system, size_t system_len, const struct msrp_tolerances *tolerances, struct msrp_log *log, struct msrp_found *found);

/* Takes the next event, and returns what the events so far show first. MSRP_GOOD: they are the
 * start of a legal log. MSRP_FAULT: an event violates a rule; found->rule is its number after E, 1
 * to 10. MSRP_REFUSED: something is missing; found->trace_code is an enum msrp_missing. Once
 * something is found, the answer stays the same. MSRP_USAGE if there is no such kind, or if the
 * event lacks a field of its kind: then nothing changes. */
uint32_t msrp_log_feed(struct msrp_log *log, const struct msrp_log_event *event, struct msrp_found *found);

/* What the events so far show first, as msrp_log_feed returns it. More events may be fed later. */
uint32_t msrp_log_end(struct msrp_log *log, struct msrp_found *found);

/* Frees the auditor, except for the system. A null handle is unchanged. */
void msrp_log_free(struct msrp_log *log);

/* ---- A run of a plan on the caller's own threads, with their priorities, processors and stacks.
 *
 * The run hands out a core for each thread. The thread drives its core in a loop: it calls
 * msrp_core_turn, does the work of the row's job, and calls msrp_core_arrive. When all threads
 * have ended, the caller joins the cores and asks for the trace.
 *
 * No call waits or takes a lock. If a core may not enter its tick yet, the call returns MSRP_WAIT:
 * the caller spins, yields or sleeps, and calls once more. msrp_run_new allocates all memory,
 * except for that of msrp_run_text. */
struct msrp_run {
    void *at;
};

struct msrp_core {
    void *at;
};

/* Makes a run of a plan in a null handle. If the answer isn't MSRP_GOOD the handle stays null. If
 * the handle isn't null the answer is MSRP_USAGE, and the handle is unchanged. */
uint32_t msrp_run_new(const uint8_t *plan, size_t plan_len, struct msrp_run *run, struct msrp_found *found);

/* Hands out the next core, in ascending order, into a null handle; MSRP_DONE if all are handed out.
 * Handing out the last core lets all cores into tick 0. */
uint32_t msrp_run_core(struct msrp_run *run, struct msrp_core *core);

/* The core's turn in its tick. A core may enter a tick when every core has called msrp_core_arrive
 * for the previous tick. MSRP_GOOD: the core is in its turn until it arrives, and row says what it
 * does. MSRP_WAIT: it may not enter the tick yet. MSRP_DONE: it has no tick left. MSRP_USAGE: it
 * is already in a turn. If the call doesn't return MSRP_GOOD, row and place are unchanged.
 *
 * place orders the steps on a global resource. Feed an auditor the rows of a tick by resource and
 * place; a MSRP_SPIN or MSRP_GRANT precedes the request or release of the same place. place is
 * MSRP_NONE for rows of other kinds, which may be fed in any order. */
uint32_t msrp_core_turn(struct msrp_core *core, struct msrp_row *row, uint32_t *place);

/* Ends the core's turn. MSRP_USAGE if it is in none. */
uint32_t msrp_core_arrive(struct msrp_core *core);

/* Gives a core back to its run; join the cores in ascending order. The handle is null then.
 * MSRP_USAGE, and nothing changes, if a core isn't handed out yet, or if this core isn't the next
 * one or has a tick left. The caller must not give a core of another run. */
uint32_t msrp_run_join(struct msrp_run *run, struct msrp_core *core);

/* The text of the run's trace, in version 1 or 2: a legal run of the plan, in which the rows of
 * each core are those of its turns. MSRP_USAGE before all cores are joined. The buffer is used as
 * by the calls above that make a text. The call allocates memory: on MSRP_MEMORY the run is
 * unchanged. */
uint32_t msrp_run_text(struct msrp_run *run, uint32_t version, uint8_t *text, size_t text_len, size_t *needed);

/* Gives up a core that won't be joined: its run then has no trace. A null handle is unchanged. */
void msrp_core_free(struct msrp_core *core);

/* Frees the run, except for the plan. A null handle is unchanged. */
void msrp_run_free(struct msrp_run *run);

#ifdef __cplusplus
}
#endif

#endif
