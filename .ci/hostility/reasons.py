"""What msrp_log says of logs of three cores, by hand: reasons, reports, options and limits.

In each case the numbers and names differ from those that a wrong answer would have: cores, jobs, resources, times, records
and their numbers on a core."""

# Tasks p, q, and s, t, u are of cores 0, 1 and 2; their levels are 2, 3, 5, 4, 1. Resource d is local, with ceiling 4; b and c are global.
SYSTEM = """msrp-system,1
cores,3
resource,d
resource,b
resource,c
task,p,0,400
op,lock,b
op,unlock,b
task,q,1,300
op,lock,c
op,unlock,c
op,lock,b
op,unlock,b
task,s,2,100
task,t,2,200
op,lock,d
op,unlock,d
task,u,2,500
op,lock,d
op,lock,c
op,unlock,c
op,unlock,d
op,lock,b
op,unlock,b
"""
# Cores 1 and 2 number their records. At the end u holds d and awaits c, which q holds; jobs 1 of s and t are released.
LOG = """msrp-log,1,3 0,0,boot,,,,, 0,1,boot,,,,,40 0,2,boot,,,,,7 10,2,release,s,0,,110,8 11,2,switch,s,0,,,9 12,2,end,s,0,,,10
13,2,release,t,0,,213,11 14,2,switch,t,0,,,12 15,2,lock,t,0,d,,13 16,2,unlock,t,0,d,,14 17,2,end,t,0,,,15 18,1,release,u,0,,518,41
19,2,switch,u,0,,,16 20,2,lock,u,0,d,,17 21,0,release,q,0,,321, 22,1,switch,q,0,,,42 23,1,request,q,0,c,,43 24,1,acquire,q,0,c,,44
25,2,request,u,0,c,,18 26,2,release,t,1,,226,19 27,2,release,s,1,,127,20""".split()
TOLERANCES = ["--op", "3", "--slack", "20", "--skew", "7", "--backlog", "4"]
U_WAITS = ["core 2 runs: u,0", "core 2 should run: u,0", "last operation of core 2: at 25",
           "first job that has started: u,0 (preemption level 1, absolute deadline 518)",
           "first job that has not: s,1 (preemption level 5, absolute deadline 127)", "ceiling of core 2: 5",
           "u,0 holds d: raises it to 4", "u,0 awaits c: raises it to 5"]
T_1 = "18,2,release,t,1,,218,16 19,2,switch,t,1,,,17"
T_1_RUNS = ["core 2 runs: t,1", "core 2 should run: t,1", "last operation of core 2: at {}",
            "first job that has started: t,1 (preemption level 4, absolute deadline 218)", "first job that has not: none"]
S_1_SHOULD = ["core 2 runs: none", "core 2 should run: s,1", "core 2 has not run the job it should since: {}", "last operation of core 2: at 16", "first job that has started: none",
              "first job that has not: s,1 (preemption level 5, absolute deadline {})", "ceiling of core 2: 0"]
FREED = "30,1,freed,q,0,c,,45 31,1,request,q,0,b,,46"
STOPS = "62,1,stop,,,,,47 62,2,stop,,,,,21"
P_HOLDS_B = ("18,0,release,p,0,,418, 19,0,switch,p,0,,, 20,0,request,p,0,b,, 21,0,acquire,p,0,b,, 22,0,release,q,0,,322, 23,1,switch,q,0,,,41"
             " 24,1,request,q,0,c,,42 25,1,acquire,q,0,c,,43 26,1,freed,q,0,c,,44 27,1,request,q,0,b,,45")
# What follows this many records of the log; the verdict; the record that decides, with its rule; and the rest of the reason.
REASONS = [
    (22, "28,2,end,u,0,,,21 29,1,stop,,,,,45", "fault,23,E9", 23, "E9", ["expected: acquire of c by u,0", *U_WAITS]),
    (22, "28,2,switch,s,1,,,21 29,1,stop,,,,,45", "fault,23,E8", 23, "E8", ["expected: no switch", *U_WAITS]),
    (22, "28,2,end,t,1,,,21 29,1,stop,,,,,45", "fault,23,E8", 23, "E8", ["expected: an event of u,0, which runs", *U_WAITS]),
    (12, "18,2,release,s,1,,118,16 19,2,end,s,1,,,17 20,1,stop,,,,,41", "fault,14,E8", 14, "E8",
     ["expected: switch to s,1 before", *(line.format(18 if "since" in line else 118) for line in S_1_SHOULD)]),
    (12, "18,2,switch,,,,,16 19,2,release,s,1,,119,17 20,2,release,t,1,,120,18 21,2,switch,t,1,,,19 22,1,stop,,,,,41", "fault,16,E8", 16, "E8",
     ["expected: switch to s,1", *(line.format(19 if "since" in line else 119) for line in S_1_SHOULD)]),
    (12, f"{T_1} 20,2,lock,t,1,d,,18 21,2,end,t,1,,,19 22,1,stop,,,,,41", "fault,16,E9", 16, "E9",
     ["expected: unlock of d by t,1", *(line.format(20) for line in T_1_RUNS), "ceiling of core 2: 4", "t,1 holds d: raises it to 4"]),
    (12, f"{T_1} 21,2,end,t,1,,,18 22,1,stop,,,,,41", "fault,15,E9", 15, "E9",
     ["expected: lock of d by t,1", *(line.format(16) for line in T_1_RUNS), "ceiling of core 2: 0"]),
    (12, f"{T_1} 20,2,lock,t,1,d,,18 21,2,unlock,t,1,d,,19 22,2,lock,t,1,d,,20 23,1,stop,,,,,41", "fault,17,E9", 17, "E9",
     ["expected: end of t,1", *(line.format(21) for line in T_1_RUNS), "ceiling of core 2: 0"]),
    (22, f"{FREED} 61,0,stop,,,,, {STOPS}", "fault,25,E2", 25, "E2",
     ["expected: u,0 acquires c by 60", "holder of c: none, since 30", "queue of c, first to last:", "  u,0"]),
    (22, f"{FREED} 62,0,stop,,,,, {STOPS}", "fault,25,E2", 25, "E2",
     ["expected: q,0 acquires b by 61", "holder of b: none, since 31", "queue of b, first to last:", "  q,0"]),
    (12, f"{P_HOLDS_B} 28,1,acquire,q,0,b,,46 29,2,stop,,,,,16", "fault,23,E10", 23, "E10",
     ["expected: p,0 gives up b before", "holder of b: p,0", "queue of b, first to last:", "  q,0"]),
    (12, f"18,2,release,t,1,,218,16 {P_HOLDS_B} 28,1,acquire,q,0,b,,46 29,2,stop,,,,,17", "fault,24,E10", 24, "E10",
     ["expected: p,0 gives up b before", "holder of b: p,0", "queue of b, first to last:", "  q,0"]),
    (12, f"{P_HOLDS_B} 28,0,freed,p,0,b,, 29,1,poll,q,0,b,,46 30,2,stop,,,,,16", "fault,24,E10", 24, "E10",
     ["expected: acquire of b by q,0", "holder of b: none, since 28", "queue of b, first to last:", "  q,0"]),
    (22, "28,1,switch,u,0,,,45 29,2,stop,,,,,21", "fault,23,E4", 23, "E4", ["expected: core 2"]),
    (22, "28,2,switch,t,3,,,21 29,1,stop,,,,,45", "fault,23,E5", 23, "E5", ["expected: release of t,2"]),
    (12, "18,2,release,s,1,,118,16 19,2,switch,s,1,,,17 20,2,end,s,1,,,18 21,2,switch,s,1,,,19 22,1,stop,,,,,41", "fault,16,E6", 16, "E6",
     ["expected: no event of s,1 after its end"]),
    (22, "28,1,release,t,1,,300,45 29,2,stop,,,,,21", "fault,23,E7", 23, "E7", ["expected: release of t,2"]),
    (22, "28,1,release,t,4,,300,45", "incomplete,23,release", 23, "", ["missing: release of t,2"]),
    (22, "28,2,acquire,u,0,b,,21", "incomplete,23,request", 23, "", ["missing: request by u,0"]),
    (12, f"{T_1} 21,2,acquire,t,1,d,,18", "incomplete,15,request", 15, "", ["missing: request by t,1"]),
    (22, "28,5,stop,,,,,", "incomplete,23,core", 23, "", ["missing: core 5; the system has 3"]),
    (22, "28,2,boot,,,,,21", "incomplete,23,restart", 23, "", ["missing: the end of the log that core 2 began before"]),
    (22, "28,1,stop,,,,,46", "incomplete,23,records", 23, "", ["missing: records of core 1 after its number 44"]),
    (22, "28,1,lost,,,,,", "incomplete,23,records", 23, "", ["missing: records of core 1"]),
    (3, "5,2,release,s,0,,105,8", "incomplete,4,start", 4, "", ["missing: boot of core 2"]),
    (22, "26,2,poll,u,0,c,,21", "incomplete,23,clock", 23, "", ["missing: a time from 27 on, that of the last record of core 2"]),
    (22, "28,0,release,p,0,,428,", "incomplete,23,room", 23, "", ["missing: room; 4 jobs have not ended (see --backlog)"]),
    (22, "28,2,end,u,0,,,21", "unconfirmed,23,E9", 23, "E9",
     ["expected: acquire of c by u,0", *U_WAITS, "note: the log ends before each other core shows that no record is missing"]),
    (22, "28,2,end,u,0,,,21 29,0,stop,,,,, 30,2,stop,,,,,23 31,1,stop,,,,,49", "incomplete,26,records", 23, "E9",
     ["expected: acquire of c by u,0", *U_WAITS, "note: record 26 shows that others are missing, so this fault is not certain"]),
]
# The state after FREED: c is free since 30, and u awaits it; b is free since 31, and q awaits it.
BOTH_FREE = ["msrp-log-state,1,3", ",,next,q,,,1,", ",,next,s,,,2,", ",,next,t,,,2,", ",,next,u,,,1,", ",,waiting,u,0,c,518,1", ",,ready,t,1,,226,0", ",,ready,s,1,,127,0",
             ",,waiting,q,0,b,321,2", "21,0,core,,,,,", "31,1,core,q,0,31,,46", "27,2,core,u,0,25,,20", "31,,free,,,b,,", "30,,free,,,c,,"]
# A record whose bytes aren't all printable, and how it is shown.
UNPRINTABLE = '28,2,release,"a b\tc\x7f,d",0,,9,21', "record 23: 28,2,release,a b?c?,d,0,,9,21"
# Options, and by when q must acquire b, which is free since 31.
LIMITS = {"--slack 1": 32, "--slack 1 --op 7": 39, "--slack 1 --op 9ns": 41, "--slack 2us": 2_031, "--skew 3ms": 3_000_031, "--slack 4s": 4_000_000_031,
          "--slack 1 --op 4294967295": 4_294_967_327, "--op 1 --slack 10 --skew 100": 142, "--skew 4s --op 2us --slack 3ms": 4_003_002_031}
# Words that make no time or no number.
WRONG = ["--op 5m", "--op -1", "--slack 1.5us", "--slack 1,000", "--skew 0x5", "--skew 5US", "--op 5us5", "--tick 0us", "--backlog +5", "--backlog 1us", "--backlog", "--op",
         "--slack 4294968us", "--skew 4295ms", "--order asc", "--op 5 --op"]

# A report: events in the order of their times, and what is counted of them. An operation takes 1, and the slack is 1000.
EVENTS = """0,0,boot 0,1,boot 0,2,boot 10,2,release,u,0,,510 12,2,switch,u,0 14,2,lock,u,0,d 15,2,release,t,0,,215 16,2,release,s,0,,116
19,2,switch,s,0 25,2,end,s,0 27,2,switch,u,0 28,2,request,u,0,c 29,2,acquire,u,0,c 30,1,release,q,0,,330 31,1,switch,q,0 32,1,request,q,0,c
40,2,freed,u,0,c 41,2,unlock,u,0,d 45,1,acquire,q,0,c 46,2,switch,t,0 46,1,freed,q,0,c 47,2,lock,t,0,d 47,1,request,q,0,b 48,2,unlock,t,0,d
49,1,acquire,q,0,b 50,1,freed,q,0,b 60,1,end,q,0 300,2,end,t,0 301,2,switch,u,0 302,2,request,u,0,b 303,2,acquire,u,0,b
304,2,release,t,1,,504 305,2,freed,u,0,b 308,2,switch,t,1 309,2,lock,t,1,d 310,2,unlock,t,1,d 320,2,end,t,1 322,2,switch,u,0 510,2,end,u,0
520,2,release,s,1,,620 521,2,switch,s,1 525,2,end,s,1 600,0,release,p,0,,1000 610,0,stop 611,1,release,q,1,,911""".split()
REPORT = """good
msrp-log-report,1
core,0,3,0
core,1,11,0
core,2,31,0
task,p,1,0,0,0,0,0
task,q,1,1,0,30,13,0
task,s,2,2,0,9,0,3
task,t,2,2,1,285,0,23
task,u,1,1,0,500,1,0
resource,d,3,0,0
resource,b,2,0,0
resource,c,2,1,1
seen,reaction,9,4
seen,handover,4,5
seen,preemption,3,0
seen,kept by the ceiling,2,0
seen,level equals the ceiling,1,0
seen,nested sections,1,0
seen,end at the deadline,1,0"""

# Two tasks of a plan, with deadlines of 3 and 4 ticks. If the absolute deadlines of their jobs are the same, b's job was released earlier and comes first;
# but not if the deadline is at most 3 ticks, since no time is below 0: then a's job does, which is the first task.
PLAN = "msrp,1\ncores,1\nticks,9\ntask,a,0,9,3,0\nop,run,1\ntask,b,0,9,4,0\nop,run,1\n"
TICKS = {"7": 7, "250ns": 250, "10us": 10_000, "2ms": 2_000_000, "3s": 3_000_000_000, "4294967295": 4_294_967_295}


def log_of_plan(deadline):
    """Both jobs with this absolute deadline, and a switch to b's."""
    return ["msrp-log,1,1", "0,0,boot,,,,,", f"5,0,release,a,0,,{deadline},", f"5,0,release,b,0,,{deadline},", "5,0,switch,b,0,,,"]


# The largest system, and one with each letter that a name may have; and a log that uses what is last in it.
LARGEST = "\n".join(["msrp-system,1", "cores,64", *(f"resource,r{n}" for n in range(1024)), *(f"task,t{n},{n % 64},{n + 1}" for n in range(1023)),
                     "task,last,63,9999999999999999999", *(f"op,{what},r{n % 1024}" for n in range(1, 2049) for what in ("lock", "unlock"))])
NAMES = "\r\n".join(["msrp-system,1", "", '"cores",1', "resource,Az-09_.x", f"resource,{64 * 'r'}", f"task,{63 * 't'}Z,0,7", "op,lock,Az-09_.x", "op,unlock,Az-09_.x"])


def log_of_system(cores, core, task, resource):
    """A job of a task locks a resource, and unlocks it."""
    steps = (f"release,{task},0,,99,", f"switch,{task},0,,,", f"lock,{task},0,{resource},,", f"unlock,{task},0,{resource},,")
    return [f"msrp-log,1,{cores}", f"0,{core},boot,,,,,", *(f"5,{core},{step}" for step in steps)]
