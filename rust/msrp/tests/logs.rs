//! A kernel's log, event by event.

use msrp::LogAction::{self, Acquire, Boot, End, Freed, Lock, Lost, Poll, Release, Request, Stop, Switch, Unlock};
use msrp::{Error, Job, LogAuditor, LogError, LogEvent, Missing, Tolerances};

const SYSTEM: &str = "msrp-system,1\ncores,2\nresource,bus\nresource,cal\n\
                      task,hi,0,50\nop,lock,cal\nop,unlock,cal\n\
                      task,lo,0,200\nop,lock,cal\nop,unlock,cal\nop,lock,bus\nop,unlock,bus\n\
                      task,far,1,100\nop,lock,bus\nop,unlock,bus\n";
const TOLERANCES: Tolerances = Tolerances { operation: 1, slack: 2, skew: 0, backlog: 4 };
const HI: Job = Job { task: 0, number: 0 };
const LO: Job = Job { task: 1, number: 0 };
const FAR: Job = Job { task: 2, number: 0 };
const BUS: u32 = 0;
const CAL: u32 = 1;
/// The log of `examples/log`.
const EVENTS: [(u64, u32, LogAction); 25] = [
    (0, 0, Boot),
    (1, 1, Boot),
    (10, 0, Release(LO, 210)),
    (10, 0, Switch(Some(LO))),
    (12, 0, Lock(LO, CAL)),
    (13, 0, Release(HI, 63)),
    (15, 0, Unlock(LO, CAL)),
    (16, 0, Switch(Some(HI))),
    (18, 0, Lock(HI, CAL)),
    (19, 0, Unlock(HI, CAL)),
    (20, 0, End(HI)),
    (21, 0, Switch(Some(LO))),
    (22, 0, Request(LO, BUS)),
    (22, 0, Acquire(LO, BUS)),
    (23, 1, Release(FAR, 123)),
    (23, 1, Switch(Some(FAR))),
    (24, 1, Request(FAR, BUS)),
    (25, 1, Poll(FAR, BUS)),
    (26, 0, Freed(LO, BUS)),
    (26, 1, Acquire(FAR, BUS)),
    (27, 0, End(LO)),
    (28, 1, Freed(FAR, BUS)),
    (29, 1, End(FAR)),
    (29, 1, Switch(None)),
    (30, 0, Stop),
];

fn event((ns, core, action): (u64, u32, LogAction)) -> LogEvent {
    LogEvent { ns, core, seq: None, action }
}

/// What an event shows after so many events of the log. The answers after it are the same.
fn shown_within(tolerances: Tolerances, count: usize, next: (u64, u32, LogAction)) -> Result<(), LogError> {
    let mut auditor = LogAuditor::new(SYSTEM.as_bytes(), tolerances)?;
    for before in EVENTS.into_iter().take(count) {
        assert_eq!((auditor.feed(&event(before)), auditor.end()), (Ok(()), Ok(())), "{before:?}");
    }
    let shown = auditor.feed(&event(next));
    assert_eq!(auditor.end(), shown);
    assert!(shown.is_ok() || auditor.feed(&event((99, 0, Stop))) == shown);
    shown
}

fn shown(count: usize, next: (u64, u32, LogAction)) -> Result<(), LogError> {
    shown_within(TOLERANCES, count, next)
}

#[test]
fn a_legal_log_shows_nothing() {
    assert_eq!(shown(EVENTS.len(), (90, 1, Switch(Some(HI)))), Ok(()), "nothing after a stop is judged");
}

#[test]
fn each_rule_has_its_number() {
    let other = Job { task: 3, number: 0 };
    let faults = [
        (7, (19, 0, Request(LO, BUS))),
        (19, (30, 1, Acquire(FAR, BUS))),
        (6, (14, 0, Release(other, 99))),
        (6, (14, 1, Switch(Some(LO)))),
        (6, (14, 1, Switch(Some(FAR)))),
        (13, (23, 0, Switch(Some(HI)))),
        (6, (14, 0, Release(HI, 64))),
        (6, (14, 0, Switch(Some(HI)))),
        (6, (14, 0, Request(LO, BUS))),
        (17, (25, 1, Acquire(FAR, BUS))),
    ];
    for (rule, (count, next)) in (1..).zip(faults) {
        assert_eq!(shown(count, next), Err(LogError::Fault(rule)), "{next:?}");
    }
}

#[test]
fn a_log_may_lack_each_thing() {
    let lacks = [
        (0, (0, 2, Boot), Missing::Core),
        (1, (5, 1, Release(FAR, 105)), Missing::Start),
        (6, (14, 0, Boot), Missing::Restart),
        (6, (14, 0, Lost), Missing::Records),
        (6, (11, 0, Unlock(LO, CAL)), Missing::Clock),
        (6, (14, 0, Release(Job { number: 2, ..HI }, 164)), Missing::Release),
        (8, (17, 0, Acquire(HI, CAL)), Missing::Request),
    ];
    for (count, next, missing) in lacks {
        assert_eq!(shown(count, next), Err(LogError::Incomplete(missing)), "{next:?}");
    }
    let full = Tolerances { backlog: 2, ..TOLERANCES };
    let room = shown_within(full, 6, (14, 1, Release(FAR, 114)));
    assert_eq!(room, Err(LogError::Incomplete(Missing::Room)));
}

#[test]
fn records_may_have_numbers() {
    let numbered = |second| {
        let mut auditor = LogAuditor::new(SYSTEM.as_bytes(), TOLERANCES)?;
        auditor.feed(&LogEvent { seq: Some(7), ..event((0, 0, Boot)) })?;
        auditor.feed(&LogEvent { seq: second, ..event((5, 0, Switch(None))) })
    };
    assert_eq!((numbered(Some(8)), numbered(None)), (Ok(()), Ok(())));
    assert_eq!(numbered(Some(9)), Err(LogError::Incomplete(Missing::Records)));
}

#[test]
fn each_tolerance_counts() {
    let late = |tolerances| shown_within(tolerances, 7, (19, 0, Request(LO, BUS)));
    assert_eq!(late(Tolerances { slack: 4, ..TOLERANCES }), Ok(()));
    assert_eq!(late(Tolerances { operation: 3, ..TOLERANCES }), Ok(()));
    assert_eq!(late(Tolerances { skew: 2, ..TOLERANCES }), Ok(()));
    assert_eq!(late(Tolerances { backlog: 2, ..TOLERANCES }), Err(LogError::Fault(1)));
    assert_eq!(Tolerances::default(), Tolerances { operation: 0, slack: 0, skew: 0, backlog: 4096 });
}

#[test]
fn what_is_no_system_or_no_event_is_refused() {
    let refused = |system: &[u8]| LogAuditor::new(system, TOLERANCES).err();
    let second = LogError::System { code: 3, record: 2 };
    assert_eq!(refused(b"msrp-system,1\ncores,0\n"), Some(second.clone()));
    assert_eq!(refused(b"msrp-system,1\ncores,1\ntask,a,1,9\n"), Some(LogError::System { code: 6, record: 3 }));
    assert_eq!(refused(&vec![b'#'; 1 << 24]), Some(LogError::Call(Error::TooLong)));
    let mut auditor = LogAuditor::new(SYSTEM.as_bytes(), TOLERANCES).expect("the system is accepted");
    let no_number = event((0, 0, End(Job { number: u32::MAX, ..HI })));
    assert_eq!((auditor.feed(&no_number), auditor.end()), (Err(LogError::Call(Error::Usage)), Ok(())));

    let texts = [second, LogError::Fault(9), LogError::Incomplete(Missing::Clock), LogError::Call(Error::TooLong)];
    let words = texts.map(|error| error.to_string());
    let clock = "the log lacks something: Clock";
    assert_eq!(
        words,
        ["system: refusal 3 at record 2", "the event violates rule E9", clock, "a text has 16 MiB or more"]
    );
}
