//! Plans and traces as texts.

use msrp::{audit, check, report, simulate, view, why, why_plan, Error, Levels, Order, Plan, Style, TextVersion};

const HANDOVER: &str = "msrp,1\ncores,2\nticks,6\nresource,g\n\
                        task,a,0,20,8,0\nop,lock,g\nop,run,1\nop,unlock,g\n\
                        task,b,1,20,8,0\nop,lock,g\nop,run,1\nop,unlock,g\n";
const TRACE: &str = "msrp-trace,1,2,6\n0,0,take,a,0,g\n0,1,queue,b,0,g\n1,0,run,a,0,-\n1,1,spin,b,0,g\n\
                     2,0,release,a,0,g\n2,1,grant,b,0,g\n3,0,idle,-,-,-\n3,1,run,b,0,-\n\
                     4,0,idle,-,-,-\n4,1,release,b,0,g\n5,0,idle,-,-,-\n5,1,idle,-,-,-\n";
const LIMIT: usize = 1 << 24;

fn handover() -> Plan {
    Plan::new(HANDOVER).expect("the plan is accepted")
}

fn fault(row: u32, rule: u32, line: Option<u32>) -> Result<(), Error> {
    Err(Error::Fault { row, rule, line })
}

/// The code, record, line and words of a refused plan.
fn refused(plan: &str) -> Option<(u32, u32, Option<u32>, String)> {
    match Plan::new(plan) {
        Err(Error::Plan { code, record, line, words }) => Some((code, record, line, words)),
        _ => None,
    }
}

#[test]
fn a_plan_has_its_facts() {
    let spaced = HANDOVER.replace('\n', "\r\n\r\n").replace(",g", ",\"g\"");
    let plan = Plan::new(spaced).expect("the plan is accepted");
    assert_eq!((plan.text(), &plan), (HANDOVER, &handover()));
    assert_eq!(plan.to_string(), HANDOVER);
    assert_ne!(plan, Plan::new(HANDOVER.replace("20,8", "20,7")).expect("the plan is accepted"));
    assert_eq!((plan.cores(), plan.ticks()), (2, 6));
    assert_eq!((plan.tasks(), plan.resources()), (&["a".to_owned(), "b".to_owned()][..], &["g".to_owned()][..]));
    let listed = "msrp,2\ncores,1\nticks,9\nlisted,press,0,9\nrelease,4\nop,run,1\n";
    assert_eq!(Plan::new(listed).expect("the plan is accepted").tasks(), ["press"]);
}

#[test]
fn names_have_numbers() {
    let plan = handover();
    assert_eq!((plan.task_number("b"), plan.resource_number("g")), (Ok(1), Ok(0)));
    assert_eq!((plan.task_number("g"), plan.resource_number("")), (Err(Error::Usage), Err(Error::Usage)));
}

#[test]
fn a_refused_plan_says_where_and_why() {
    let words = "ticks is 0; must be 1 to 20,000".to_owned();
    assert_eq!(refused("msrp,1\n\ncores,1\n\nticks,0\n"), Some((7, 3, Some(5), words)));
    let held = "msrp,1\ncores,1\nticks,9\nresource,g\ntask,a,0,9,9,0\nop,lock,g\nop,run,1\n";
    assert_eq!(refused(held), Some((10, 8, None, "task a ends while it holds g; add op,unlock,g".to_owned())));
    assert!(why_plan(held).map_or(false, |why| why.contains("note: g is locked here")));
    assert_eq!(refused("").map(|(code, record, ..)| (code, record)), Some((1, 1)));
}

#[test]
fn a_simulation_has_the_order_that_is_asked_for() {
    let plan = handover();
    assert_eq!(simulate(&plan, Order::Ascending, TextVersion::One).as_deref(), Ok(TRACE));
    let second = |order| {
        let trace = simulate(&plan, order, TextVersion::Two).unwrap_or_default();
        trace.lines().nth(2).map(str::to_owned)
    };
    assert_eq!(second(Order::Rotating).as_deref(), Some("0,1,queue,b,0,g,1"));
    let rotating = simulate(&plan, Order::Rotating, TextVersion::One).unwrap_or_default();
    assert_eq!(rotating.lines().nth(3), Some("1,1,spin,b,0,g"), "tick 1 begins with core 1");
    assert_eq!(second(Order::Descending).as_deref(), Some("0,0,queue,a,0,g,1"));
    assert_eq!(second(Order::Listed(&[1, 0].repeat(6))), second(Order::Descending));
    assert_eq!(simulate(&plan, Order::Listed(&[0, 0]), TextVersion::One), Err(Error::Usage));
}

#[test]
fn a_long_trace_fits() {
    let plan = Plan::new("msrp,1\ncores,8\nticks,2000\n").expect("the plan is accepted");
    let trace = simulate(&plan, Order::Ascending, TextVersion::Two).expect("the plan runs");
    assert_eq!((trace.lines().count(), audit(&plan, &trace)), (16_001, Ok(())));
}

#[test]
fn a_fault_has_its_line_however_lines_end() {
    let (plan, faulty) = (handover(), TRACE.replace("2,1,grant", "2,1,spin"));
    assert_eq!(audit(&plan, TRACE), Ok(()));
    assert_eq!(audit(&plan, &faulty), fault(6, 5, Some(7)));
    assert_eq!(audit(&plan, faulty.replace('\n', "\n\n")), fault(6, 5, Some(13)));
    assert_eq!(audit(&plan, faulty.replace('\n', "\r\n")), fault(6, 5, Some(7)));
    assert_eq!(audit(&plan, faulty.replace('\n', "\r")), fault(6, 5, Some(7)));
    assert_eq!(audit(&plan, faulty.replace("0,0,take", "0,0,\"take\"")), fault(6, 5, None));
    assert_eq!(audit(&plan, "msrp-trace,1,2,6\n0,0,take,a,0,g\n"), fault(2, 6, None));
}

#[test]
fn a_refused_trace_says_where() {
    let refused = audit(&handover(), "\nmsrp-trace,1,2,6\n0,0,idle\n").expect_err("a row has three fields");
    assert_eq!(refused, Error::Trace { code: 2, record: 2, line: Some(3) });
    assert_eq!(refused.to_string(), "trace: R2 at record 2, line 3: wrong number of fields");
    assert_eq!(why(&handover(), [0xFF]), Err(Error::Trace { code: 1, record: 1, line: Some(1) }));
}

#[test]
fn an_error_says_what_it_is() {
    let plan = handover();
    let said = |head: &str, row: &str| audit(&plan, format!("{head}\n{row}\n")).unwrap_err().to_string();
    let row = |row| said("msrp-trace,1,2,6", row);
    assert_eq!(
        said("msrp-trace,1,2,7", ""),
        "trace: R1 at record 1, line 1: the first record isn't that of a trace of this plan"
    );
    let no_number = "tick or core isn't a number, or job or ahead is neither a number nor '-'";
    assert_eq!(row("x,0,idle,-,-,-"), format!("trace: R3 at record 2, line 2: {no_number}"));
    assert_eq!(row("0,0,wait,a,0,g"), "trace: R4 at record 2, line 2: unknown kind of row");
    assert_eq!(row("0,0,take,z,0,g"), "trace: R5 at record 2, line 2: the plan has no such task or resource");
    assert_eq!(row("0,0,idle,a,0,-"), "trace: R6 at record 2, line 2: the fields don't fit the kind of row");
    assert_eq!(row("0,0,\"wait\",a,0,g"), "trace: R4 at record 2: unknown kind of row");
    assert_eq!(row("0,0,take,a,0,g"), "row 2 violates rule A6");
    assert_eq!(row("\n0,0,idle,-,-,-"), "row 1, line 3 violates rule A3");
    let others = [Error::Usage, Error::Memory, Error::TooLong, Error::Unknown].map(|error| error.to_string());
    assert_eq!(
        others,
        [
            "wrong use: no such name, core, ticks or order, or a call out of turn",
            "out of memory",
            "a text has 16 MiB or more",
            "the linked library has another version than this crate"
        ]
    );
}

#[test]
fn only_a_legal_run_has_a_report() {
    let (plan, faulty) = (handover(), TRACE.replace("2,1,grant", "2,1,spin"));
    let tasks = report(&plan, TRACE).expect("the run is legal");
    let b = &tasks[1];
    assert_eq!((b.name.as_str(), b.core, b.jobs, b.finished, b.late), ("b", 1, 1, 1, 0));
    assert_eq!((b.worst_response, b.spin, b.worst_spin, b.spin_bound), (5, 1, 1, 3));
    assert_eq!((b.blocked, b.worst_blocked, b.blocked_bound), (0, 0, 0));
    assert_eq!(report(&plan, &faulty), Err(Error::Fault { row: 6, rule: 5, line: Some(7) }));
}

/// Any two columns differ in some task.
#[test]
fn each_number_of_a_report_has_its_name() {
    let plan = Plan::new(
        "msrp,1\ncores,2\nticks,50\nresource,g\nresource,h\n\
         task,far,0,9,9,0\nop,lock,g\nop,run,3\nop,unlock,g\n\
         task,hi,1,9,5,2\nop,lock,g\nop,run,1\nop,unlock,g\nop,lock,h\nop,unlock,h\n\
         task,lo,1,15,15,0\nop,lock,h\nop,run,3\nop,unlock,h\n",
    )
    .expect("the plan is accepted");
    let trace = simulate(&plan, Order::Ascending, TextVersion::One).expect("the plan runs");
    let tasks = report(&plan, trace).expect("the run is legal");
    let jobs: Vec<_> =
        tasks.iter().map(|it| (it.name.as_str(), it.core, it.jobs, it.finished, it.late, it.worst_response)).collect();
    assert_eq!(jobs, [("far", 0, 6, 6, 0, 5), ("hi", 1, 6, 5, 5, 8), ("lo", 1, 4, 3, 0, 11)]);
    let waits: Vec<_> = tasks.iter().map(|it| (it.spin, it.worst_spin, it.blocked, it.worst_blocked)).collect();
    assert_eq!(waits, [(0, 0, 0, 0), (2, 1, 12, 3), (0, 0, 0, 0)]);
    let bounds: Vec<_> = tasks.iter().map(|it| (it.spin_bound, it.blocked_bound)).collect();
    assert_eq!(bounds, [(3, 0), (5, 4), (0, 0)]);
}

#[test]
fn a_plan_has_levels_and_ceilings() {
    let levels = |levels, ceilings, tops| Ok(Levels { levels, ceilings, tops });
    assert_eq!(check(&handover()), levels(vec![1, 1], vec![None], vec![1, 1]));
    let local = "msrp,1\ncores,1\nticks,9\nresource,g\ntask,a,0,9,9,0\nop,run,1\n\
                 task,b,0,4,4,0\nop,lock,g\nop,run,1\nop,unlock,g\n";
    assert_eq!(check(&Plan::new(local).expect("the plan is accepted")), levels(vec![1, 2], vec![Some(2)], vec![2]));
    for name in ["global", "global_tmp", "local", "a_global", "level"] {
        let named = local.replace("resource,g", &format!("resource,{name}")).replace("lock,g", &format!("lock,{name}"));
        assert_eq!(check(&Plan::new(named).expect("the plan is accepted")), levels(vec![1, 2], vec![Some(2)], vec![2]));
    }
}

#[test]
fn a_fault_is_explained_and_drawn() {
    let (plan, faulty) = (handover(), TRACE.replace("2,1,grant", "2,1,spin"));
    assert!(why(&plan, &faulty).map_or(false, |why| why.contains("\nexpected: 2,1,grant,b,0,g\n")));
    assert!(why(&plan, TRACE).map_or(false, |why| why.starts_with("good\n")));
    assert!(view(&plan, &faulty, Style::Text, 0..0).map_or(false, |picture| picture.starts_with("fault,6,A5\n")));
    assert!(view(&plan, TRACE, Style::Svg, 2..4).map_or(false, |picture| picture.starts_with("<svg")));
    let some = view(&plan, TRACE, Style::Text, 2..4).unwrap_or_default();
    assert_eq!(some.lines().nth(1), Some("ticks 2 to 3 of 6"));
    assert_eq!(view(&plan, TRACE, Style::Text, 4..4), Err(Error::Usage));
}

#[test]
fn a_text_that_is_too_long_is_refused() {
    let long = " ".repeat(LIMIT);
    assert_eq!(Plan::new(&long), Err(Error::TooLong));
    assert_eq!(audit(&handover(), &long), Err(Error::TooLong));
}
