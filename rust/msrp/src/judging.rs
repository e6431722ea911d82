use crate::error::{answer, Error};
use crate::ffi::{self, Found, Numbers};
use crate::plan::Plan;
use crate::row::Row;
use crate::texts::text_of;
use std::ops::Range;

/// The order of the cores within each tick.
#[derive(Clone, Copy, Debug, PartialEq, Eq)]
pub enum Order<'a> {
    /// Ascending.
    Ascending,
    /// Descending.
    Descending,
    /// Rotating: tick t begins with core t mod m, on m cores.
    Rotating,
    /// One core for each row, tick after tick.
    Listed(&'a [u32]),
}

/// The version of a trace's text.
#[derive(Clone, Copy, Debug, PartialEq, Eq)]
pub enum TextVersion {
    /// Six fields a row.
    One = 1,
    /// A seventh field: the number of jobs ahead of a request that joins a queue.
    Two = 2,
}

/// Which rows of a trace are given.
#[derive(Clone, Copy, Debug, PartialEq, Eq)]
pub enum Extent {
    /// All: a missing row is a fault.
    Whole,
    /// The first ones: more may follow.
    SoFar,
}

/// How a picture is drawn.
#[derive(Clone, Copy, Debug, PartialEq, Eq)]
pub enum Style {
    /// In plain text.
    Text = 0,
    /// In SVG.
    Svg = 1,
}

/// The trace of the plan's only legal run in which the cores act in this order.
///
/// ```
/// use msrp::{Order, Plan, TextVersion};
/// let plan = Plan::new("msrp,1\ncores,1\nticks,2\ntask,a,0,2,2,0\nop,run,1\n")?;
/// let trace = msrp::simulate(&plan, Order::Ascending, TextVersion::One)?;
/// assert_eq!(trace, "msrp-trace,1,1,2\n0,0,run,a,0,-\n1,0,idle,-,-,-\n");
/// # Ok::<(), msrp::Error>(())
/// ```
pub fn simulate(plan: &Plan, order: Order<'_>, version: TextVersion) -> Result<String, Error> {
    let (order, cores): (u32, &[u32]) = match order {
        Order::Ascending => (0, &[]),
        Order::Descending => (1, &[]),
        Order::Rotating => (2, &[]),
        Order::Listed(cores) => (3, cores),
    };
    let (plan, version) = (plan.text().as_bytes(), version as u32);
    text_of(plan, |text, needed, found| {
        let (text, text_len) = (text.as_mut_ptr(), text.len());
        // SAFETY: plan, cores and buffer are slices, and what the call writes is borrowed for it alone.
        unsafe {
            ffi::msrp_sim(
                plan.as_ptr(),
                plan.len(),
                order,
                cores.as_ptr(),
                cores.len(),
                version,
                text,
                text_len,
                needed,
                found,
            )
        }
    })
}

/// Whether a trace is a legal run of the plan; if not, the first row that violates a rule.
///
/// ```
/// use msrp::{audit, Error, Plan};
/// let plan = Plan::new("msrp,1\ncores,1\nticks,2\ntask,a,0,2,2,0\nop,run,1\n")?;
/// let trace = "msrp-trace,1,1,2\n0,0,run,a,0,-\n1,0,run,a,0,-\n";
/// assert_eq!(audit(&plan, trace), Err(Error::Fault { row: 2, rule: 3, line: Some(3) }));
/// # Ok::<(), Error>(())
/// ```
pub fn audit(plan: &Plan, trace: impl AsRef<[u8]>) -> Result<(), Error> {
    let (plan, trace, mut found) = (plan.text().as_bytes(), trace.as_ref(), Found::default());
    // SAFETY: both texts are slices, and what the call writes is borrowed for it alone.
    let status = unsafe { ffi::msrp_audit(plan.as_ptr(), plan.len(), trace.as_ptr(), trace.len(), &mut found) };
    answer(status, found, trace)
}

/// Whether rows are a legal run of the plan, or the beginning of one.
///
/// ```
/// use msrp::{audit_rows, Error, Extent, Job, Plan, Row, Step};
/// let plan = Plan::new("msrp,1\ncores,1\nticks,2\ntask,a,0,2,2,0\nop,run,1\n")?;
/// let run = Step::Run(Job { task: plan.task_number("a")?, number: 0 });
/// let rows = [Row { tick: 0, core: 0, step: run }];
/// audit_rows(&plan, &rows, Extent::SoFar)?;
/// assert_eq!(audit_rows(&plan, &rows, Extent::Whole), Err(Error::Fault { row: 2, rule: 6, line: None }));
/// # Ok::<(), Error>(())
/// ```
pub fn audit_rows(plan: &Plan, rows: &[Row], extent: Extent) -> Result<(), Error> {
    let rows: Vec<Numbers> = rows.iter().map(Row::numbers).collect();
    let (plan, so_far, mut found) = (plan.text().as_bytes(), extent == Extent::SoFar, Found::default());
    // SAFETY: plan and rows are slices, and what the call writes is borrowed for it alone.
    let status =
        unsafe { ffi::msrp_audit_rows(plan.as_ptr(), plan.len(), rows.as_ptr(), rows.len(), so_far, &mut found) };
    answer(status, found, &[])
}

/// The picture of these ticks of a trace. If the range ends with 0, the picture ends with the plan,
/// after at most 200 ticks. If a row violates a rule, the rows up to it are drawn.
///
/// ```
/// use msrp::{Order, Plan, Style, TextVersion};
/// let plan = Plan::new("msrp,1\ncores,1\nticks,2\ntask,a,0,2,2,0\nop,run,1\n")?;
/// let trace = msrp::simulate(&plan, Order::Ascending, TextVersion::Two)?;
/// assert!(msrp::view(&plan, &trace, Style::Svg, 0..0)?.starts_with("<svg"));
/// # Ok::<(), msrp::Error>(())
/// ```
pub fn view(plan: &Plan, trace: impl AsRef<[u8]>, style: Style, ticks: Range<u32>) -> Result<String, Error> {
    let (plan, trace, style) = (plan.text().as_bytes(), trace.as_ref(), style as u32);
    text_of(trace, |text, needed, found| {
        let (text, text_len) = (text.as_mut_ptr(), text.len());
        // SAFETY: both texts and the buffer are slices, and what the call writes is borrowed for it alone.
        unsafe {
            ffi::msrp_view(
                plan.as_ptr(),
                plan.len(),
                trace.as_ptr(),
                trace.len(),
                style,
                ticks.start,
                ticks.end,
                text,
                text_len,
                needed,
                found,
            )
        }
    })
}

/// The verdict on a trace and its reason in words: for a fault the row, the rule and the expected
/// row; for a legal run what it exercised.
///
/// ```
/// let plan = msrp::Plan::new("msrp,1\ncores,1\nticks,2\ntask,a,0,2,2,0\nop,run,1\n")?;
/// let why = msrp::why(&plan, "msrp-trace,1,1,2\n0,0,run,a,0,-\n1,0,run,a,0,-\n")?;
/// assert_eq!(why.lines().nth(3), Some("expected: 1,0,idle,-,-,-"));
/// # Ok::<(), msrp::Error>(())
/// ```
pub fn why(plan: &Plan, trace: impl AsRef<[u8]>) -> Result<String, Error> {
    let (plan, trace) = (plan.text().as_bytes(), trace.as_ref());
    text_of(trace, |text, needed, found| {
        let (text, text_len) = (text.as_mut_ptr(), text.len());
        // SAFETY: both texts and the buffer are slices, and what the call writes is borrowed for it alone.
        unsafe { ffi::msrp_why(plan.as_ptr(), plan.len(), trace.as_ptr(), trace.len(), text, text_len, needed, found) }
    })
}

/// Why the text of a plan is refused; or `good`, and then what is odd in the plan.
///
/// ```
/// let why = msrp::why_plan("msrp,1\ncores,1\nticks,9\ntask,a,0,9,2,0\nop,run,3\n")?;
/// assert_eq!(why.lines().nth(1), Some("warning: task a can't meet its deadline: needs 3 ticks, has 2"));
/// # Ok::<(), msrp::Error>(())
/// ```
pub fn why_plan(plan: impl AsRef<[u8]>) -> Result<String, Error> {
    let plan = plan.as_ref();
    text_of(plan, |text, needed, found| {
        // SAFETY: the plan and the buffer are slices, and what the call writes is borrowed for it alone.
        unsafe { ffi::msrp_why_plan(plan.as_ptr(), plan.len(), text.as_mut_ptr(), text.len(), needed, found) }
    })
}

/// Why rows aren't the beginning of a legal run; empty while nothing is wrong. It explains a
/// refused row, too.
///
/// ```
/// use msrp::{why_rows, Plan, Row, Step};
/// let plan = Plan::new("msrp,1\ncores,1\nticks,2\ntask,a,0,2,2,0\nop,run,1\n")?;
/// let why = why_rows(&plan, &[Row { tick: 0, core: 0, step: Step::Idle }])?;
/// assert_eq!(why.lines().nth(3), Some("expected: 0,0,run,a,0,-,-"));
/// # Ok::<(), msrp::Error>(())
/// ```
pub fn why_rows(plan: &Plan, rows: &[Row]) -> Result<String, Error> {
    let rows: Vec<Numbers> = rows.iter().map(Row::numbers).collect();
    let plan = plan.text().as_bytes();
    text_of(&[], |text, needed, found| {
        let (text, text_len) = (text.as_mut_ptr(), text.len());
        // SAFETY: plan, rows and buffer are slices, and what the call writes is borrowed for it alone.
        unsafe {
            ffi::msrp_why_rows(plan.as_ptr(), plan.len(), rows.as_ptr(), rows.len(), text, text_len, needed, found)
        }
    })
}

/// The version of the linked library's calls. This crate is made for version 1.
///
/// ```
/// assert_eq!(msrp::version(), 1);
/// ```
pub fn version() -> u32 {
    // SAFETY: the call takes nothing and writes nothing.
    unsafe { ffi::msrp_version() }
}
