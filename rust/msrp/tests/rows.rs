//! Rows as numbers, at once and one by one.

use msrp::{audit_rows, why_rows, Auditor, Error, Extent, Job, Plan, Row, Step};
use std::thread;

fn plan() -> Plan {
    Plan::new(
        "msrp,1\ncores,2\nticks,6\nresource,g\ntask,a,0,20,8,0\nop,lock,g\nop,run,1\nop,unlock,g\n\
         task,b,1,20,8,0\nop,lock,g\nop,run,1\nop,unlock,g\n",
    )
    .expect("the plan is accepted")
}

const A: Job = Job { task: 0, number: 0 };
const B: Job = Job { task: 1, number: 0 };

fn row(tick: u32, core: u32, step: Step) -> Row {
    Row { tick, core, step }
}

/// The run in which core 0 comes first in each tick.
fn rows() -> Vec<Row> {
    let core_0 = [Step::Take(A, 0), Step::Run(A), Step::Release(A, 0), Step::Idle, Step::Idle, Step::Idle];
    let core_1 = [
        Step::Queue(B, 0, Some(1)),
        Step::Spin(B, 0),
        Step::Grant(B, 0),
        Step::Run(B),
        Step::Release(B, 0),
        Step::Idle,
    ];
    let ticks = (0..).zip(core_0.into_iter().zip(core_1));
    ticks.flat_map(|(tick, (first, second))| [row(tick, 0, first), row(tick, 1, second)]).collect()
}

fn auditor() -> Auditor {
    Auditor::new(&plan()).expect("memory suffices")
}

fn fault(row: u32, rule: u32) -> Result<(), Error> {
    Err(Error::Fault { row, rule, line: None })
}

fn refusal(code: u32, record: u32) -> Result<(), Error> {
    Err(Error::Trace { code, record, line: None })
}

#[test]
fn rows_are_judged_at_once() {
    let (plan, mut rows) = (plan(), rows());
    assert_eq!(audit_rows(&plan, &rows, Extent::Whole), Ok(()));
    assert_eq!(audit_rows(&plan, &rows[..5], Extent::SoFar), Ok(()));
    assert_eq!(audit_rows(&plan, &rows[..5], Extent::Whole), fault(6, 6));
    assert_eq!(why_rows(&plan, &rows).as_deref(), Ok(""));
    rows[5].step = Step::Spin(B, 0);
    assert_eq!(audit_rows(&plan, &rows, Extent::Whole), fault(6, 5));
    assert!(why_rows(&plan, &rows).map_or(false, |why| why.contains("\nexpected: 2,1,grant,b,0,g,-\n")));
    assert_eq!(audit_rows(&plan, &[], Extent::SoFar), Ok(()));
}

#[test]
fn rows_without_sense_are_refused() {
    let plan = plan();
    let refused = |step| audit_rows(&plan, &[row(0, 0, step)], Extent::SoFar);
    assert_eq!(refused(Step::Run(Job { task: 2, number: 0 })), refusal(5, 1));
    assert_eq!(refused(Step::Take(A, 1)), refusal(5, 1));
    assert_eq!(refused(Step::Run(Job { task: 0, number: u32::MAX })), refusal(6, 1));
    assert!(why_rows(&plan, &[row(0, 0, Step::Take(A, 1))]).map_or(false, |why| !why.is_empty()));
}

#[test]
fn an_auditor_expects_the_rows_of_the_run() {
    let mut auditor = auditor();
    for row in rows() {
        assert_eq!(auditor.due(row.core), Ok(Some(row)));
        assert_eq!(auditor.feed(&row), Ok(()));
    }
    assert_eq!((auditor.due(0), auditor.end(), auditor.why().as_deref()), (Ok(None), Ok(()), Ok("")));
}

#[test]
fn a_local_resource_is_locked_and_unlocked() {
    let text = "msrp,1\ncores,1\nticks,3\nresource,h\nresource,g\ntask,a,0,9,9,0\nop,lock,g\nop,run,1\nop,unlock,g\n";
    let mut auditor = Auditor::new(&Plan::new(text).expect("the plan is accepted")).expect("memory suffices");
    for (tick, step) in (0..).zip([Step::Lock(A, 1), Step::Run(A), Step::Unlock(A, 1)]) {
        assert_eq!(auditor.due(0), Ok(Some(row(tick, 0, step))));
        assert_eq!(auditor.feed(&row(tick, 0, step)), Ok(()));
    }
    assert_eq!(auditor.end(), Ok(()));
}

#[test]
fn a_step_has_its_job_and_its_resource() {
    let steps = [
        Step::Lock(B, 3),
        Step::Unlock(B, 3),
        Step::Take(B, 3),
        Step::Queue(B, 3, Some(7)),
        Step::Spin(B, 3),
        Step::Grant(B, 3),
        Step::Release(B, 3),
    ];
    assert!(steps.into_iter().all(|step| (step.job(), step.resource()) == (Some(B), Some(3))));
    assert_eq!((Step::Run(B).job(), Step::Run(B).resource()), (Some(B), None));
    assert_eq!((Step::Idle.job(), Step::Idle.resource()), (None, None));
}

#[test]
fn rows_are_sorted_by_tick_resource_and_place() {
    let rows = [
        (row(3, 2, Step::Idle), None),
        (row(3, 1, Step::Release(A, 0)), Some(0)),
        (row(3, 0, Step::Spin(B, 0)), Some(1)),
        (row(3, 4, Step::Queue(A, 0, Some(1))), Some(1)),
        (row(3, 5, Step::Grant(B, 0)), Some(2)),
        (row(3, 6, Step::Take(A, 0)), Some(2)),
        (row(3, 3, Step::Release(B, 1)), Some(0)),
        (row(4, 0, Step::Idle), None),
    ];
    let mut sorted = rows;
    sorted.reverse();
    sorted.sort_by_key(|(row, place)| row.rank(*place));
    assert_eq!(sorted, rows);
}

#[test]
fn an_auditor_keeps_its_first_fault() {
    let mut auditor = auditor();
    assert_eq!((auditor.feed(&rows()[0]), auditor.end()), (Ok(()), fault(2, 6)));
    assert_eq!(auditor.due(0), Err(Error::Usage), "core 0 has had its row of this tick");
    assert_eq!(auditor.due(2), Err(Error::Usage), "the plan has no core 2");
    assert_eq!(auditor.feed(&row(0, 1, Step::Take(B, 0))), fault(2, 5));
    assert_eq!(auditor.feed(&rows()[1]), fault(2, 5));
    assert!(auditor.why().map_or(false, |why| why.starts_with("fault,2,A5\n")));
    assert_eq!(auditor.due(1), Err(Error::Usage));
    assert_eq!((auditor.again(), auditor.feed(&rows()[0])), (Ok(()), Ok(())));
}

#[test]
fn an_auditor_goes_to_another_thread() {
    let mut auditor = auditor();
    let monitor = thread::spawn(move || {
        let judged = rows().iter().try_for_each(|row| auditor.feed(row));
        judged.and_then(|()| auditor.end())
    });
    assert_eq!(monitor.join().ok(), Some(Ok(())));
}
