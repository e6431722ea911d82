/* Tries the parts of examples/log/threads.c that few runs reach: levels and ceilings, which job
 * comes first, when one preempts another, and the text of the system. All values are worked out by
 * hand. */
#define main run_threads
#include "../../examples/log/threads.c"
#undef main
#include <string.h>

enum { CONTROL, FILTER, DIAGNOSIS, RADIO, LOGGER };

static void check(bool holds, const char *what)
{
    if (!holds) {
        fprintf(stderr, "threads: %s\n", what);
        exit(1);
    }
}

static struct msrp_job job_of(uint16_t task, uint32_t number)
{
    const struct msrp_job job = {task, number};
    return job;
}

/* The deadlines are 800, 2400, 9000, 600 and 7000 us. */
static void levels(void)
{
    static const uint32_t due[TASKS] = {4, 3, 1, 5, 2};
    for (uint16_t task = 0; task < TASKS; task++)
        check(level_of(task) == due[task], "levels");
    check(ceiling_of(BUS) == 5 && ceiling_of(BUFFER) == 3, "ceilings");
    check(uses(&TASK[DIAGNOSIS], BUS) && uses(&TASK[DIAGNOSIS], BUFFER) && !uses(&TASK[FILTER], BUS), "resources");
    check(!uses(&TASK[CONTROL], BUFFER) && uses(&TASK[LOGGER], BUS), "resources");
}

/* Job 32 of radio is released at 22,400 us, and job 2 of logger at 16,000 us. Both have 23,000 us as their absolute
 * deadline. */
static void keys(void)
{
    const struct msrp_job late = job_of(RADIO, 32), early = job_of(LOGGER, 2);
    begin = 5000;
    check(release_of(late) == 22405000 && deadline_of(late) == 23005000 && deadline_of(early) == 23005000, "times");
    check(is_before(early, late) && !is_before(late, early), "equal deadlines");
    check(is_before(job_of(CONTROL, 1), job_of(FILTER, 0)), "keys");
    check(!is_before(job_of(CONTROL, 2), job_of(FILTER, 0)), "keys");
    check(!is_before(early, early), "a job before itself");
}

static bool preempts(struct core *core, uint32_t ceiling, struct msrp_job running, struct msrp_job due)
{
    core->ceiling = ceiling;
    core->running = running;
    const struct msrp_job found = preempting(core);
    return found.task == due.task && found.number == due.number;
}

/* Released and not started are job 3 of control, with 3,800 us as its absolute deadline, and job 1 of filter, with
 * 4,900 us. */
static void preemption(void)
{
    struct core core = {.number = 0, .released = {4, 2, 1}, .started = {3, 1, 1}};
    const struct msrp_job control = job_of(CONTROL, 3), diagnosis = job_of(DIAGNOSIS, 0);
    check(preempts(&core, 0, MSRP_NO_JOB, control), "an idle core");
    check(preempts(&core, 3, diagnosis, control) && preempts(&core, 4, diagnosis, MSRP_NO_JOB), "the ceiling");
    check(preempts(&core, 0, job_of(FILTER, 0), MSRP_NO_JOB), "an earlier job");
    core.started[CONTROL]++;
    check(preempts(&core, 0, diagnosis, job_of(FILTER, 1)), "the next one");
    check(preempts(&core, 3, diagnosis, MSRP_NO_JOB), "the next one's ceiling");
    core.started[FILTER]++;
    check(preempts(&core, 0, diagnosis, MSRP_NO_JOB) && preempts(&core, 0, MSRP_NO_JOB, MSRP_NO_JOB), "none");
}

/* At 2,500 us after the beginning, which ends at 3,000 us, the jobs of core 0 that began by then are released. */
static void releases(void)
{
    struct core core = {.number = 0, .running = MSRP_NO_JOB};
    begin = now() - 2500 * US;
    end = begin + 3000 * US;
    release_jobs(&core);
    check(core.released[CONTROL] >= 3 && core.released[FILTER] >= 1 && core.released[DIAGNOSIS] == 1, "releases");
    while (now() < begin + 6000 * US)
        ;
    release_jobs(&core);
    check(core.released[CONTROL] == 3 && core.released[FILTER] == 2, "releases before the end");
    check(!core.released[RADIO], "releases of the other core");
}

static void system_text(void)
{
    static const char due[] = "msrp-system,1\ncores,2\nresource,bus\nresource,buffer\n"
                              "task,control,0,800000\nop,lock,bus\nop,unlock,bus\n"
                              "task,filter,0,2400000\nop,lock,buffer\nop,unlock,buffer\n"
                              "task,diagnosis,0,9000000\nop,lock,buffer\nop,unlock,buffer\nop,lock,bus\nop,unlock,bus\n"
                              "op,lock,buffer\nop,unlock,buffer\n"
                              "task,radio,1,600000\nop,lock,bus\nop,unlock,bus\n"
                              "task,logger,1,7000000\nop,lock,bus\nop,unlock,bus\nop,lock,bus\nop,unlock,bus\n";
    static char text[sizeof due];
    FILE *file = tmpfile();
    check(file, "a file");
    write_system(file);
    rewind(file);
    check(fread(text, 1, sizeof text, file) == sizeof due - 1 && !strcmp(text, due), "the system");
    fclose(file);
}

int main(void)
{
    levels();
    keys();
    preemption();
    releases();
    system_text();
    return 0;
}
