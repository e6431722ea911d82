use crate::error::Error;
use crate::ffi;
use crate::plan::Plan;
use crate::texts::text_of;

/// What happened to a task in a legal run, and bounds that hold in every run, in ticks.
/// `docs/REPORT.md` explains the fields.
#[derive(Clone, Debug, PartialEq, Eq)]
pub struct TaskReport {
    /// The name of the task.
    pub name: String,
    /// Its core.
    pub core: u32,
    /// The jobs that are released.
    pub jobs: u32,
    /// The jobs that finished.
    pub finished: u32,
    /// The jobs that missed their deadline.
    pub late: u32,
    /// The longest time from a release to the end of the job.
    pub worst_response: u32,
    /// How long all jobs spun.
    pub spin: u32,
    /// The longest spin of one request.
    pub worst_spin: u32,
    /// How long all jobs were blocked.
    pub blocked: u32,
    /// The longest blocking of one job.
    pub worst_blocked: u32,
    /// A bound on `worst_spin`.
    pub spin_bound: u32,
    /// A bound on `worst_blocked`.
    pub blocked_bound: u32,
}

/// Preemption levels and ceilings, each in the order of the plan.
#[derive(Clone, Debug, Default, PartialEq, Eq)]
pub struct Levels {
    /// The level of each task.
    pub levels: Vec<u32>,
    /// The ceiling of each resource; `None` for a global one.
    pub ceilings: Vec<Option<u32>>,
    /// The highest level of the tasks of each core; 0 if it has none.
    pub tops: Vec<u32>,
}

/// The report of a legal run: an item for each task, in the order of the plan.
///
/// ```
/// use msrp::{Order, Plan, TextVersion};
/// let plan = Plan::new("msrp,1\ncores,1\nticks,2\ntask,a,0,2,2,0\nop,run,1\n")?;
/// let trace = msrp::simulate(&plan, Order::Ascending, TextVersion::Two)?;
/// let tasks = msrp::report(&plan, trace)?;
/// assert_eq!((tasks[0].name.as_str(), tasks[0].late, tasks[0].worst_response), ("a", 0, 1));
/// # Ok::<(), msrp::Error>(())
/// ```
pub fn report(plan: &Plan, trace: impl AsRef<[u8]>) -> Result<Vec<TaskReport>, Error> {
    let (plan, trace) = (plan.text().as_bytes(), trace.as_ref());
    let text = text_of(trace, |text, needed, found| {
        let (text, text_len) = (text.as_mut_ptr(), text.len());
        // SAFETY: both texts and the buffer are slices, and what the call writes is borrowed for it alone.
        unsafe {
            ffi::msrp_report(plan.as_ptr(), plan.len(), trace.as_ptr(), trace.len(), text, text_len, needed, found)
        }
    })?;
    let tasks: Option<Vec<_>> = text.lines().skip(1).map(task_report).collect();
    tasks.ok_or(Error::Unknown)
}

/// The task of a record: its name and eleven numbers.
fn task_report(record: &str) -> Option<TaskReport> {
    let (name, numbers) = record.split_once(',')?;
    let numbers: Result<Vec<u32>, _> = numbers.split(',').map(str::parse).collect();
    let [core, jobs, finished, late, worst_response, spin, worst_spin, blocked, worst_blocked, spin_bound, blocked_bound] =
        <[u32; 11]>::try_from(numbers.ok()?).ok()?;
    Some(TaskReport {
        name: name.to_owned(),
        core,
        jobs,
        finished,
        late,
        worst_response,
        spin,
        worst_spin,
        blocked,
        worst_blocked,
        spin_bound,
        blocked_bound,
    })
}

/// The preemption levels and ceilings of a plan.
///
/// ```
/// let plan = msrp::Plan::new("msrp,1\ncores,1\nticks,2\ntask,a,0,2,2,0\nop,run,1\n")?;
/// assert_eq!(msrp::check(&plan)?.levels, [1]);
/// # Ok::<(), msrp::Error>(())
/// ```
pub fn check(plan: &Plan) -> Result<Levels, Error> {
    let plan = plan.text().as_bytes();
    let text = text_of(plan, |text, needed, found| {
        // SAFETY: the plan and the buffer are slices, and what the call writes is borrowed for it alone.
        unsafe { ffi::msrp_check(plan.as_ptr(), plan.len(), text.as_mut_ptr(), text.len(), needed, found) }
    })?;
    let mut made = Levels::default();
    text.lines().try_for_each(|record| add(&mut made, record)).ok_or(Error::Unknown)?;
    Ok(made)
}

/// Adds a record `level,NAME,LEVEL`, `ceiling,NAME,local,LEVEL`, `ceiling,NAME,global,-` or
/// `top,CORE,LEVEL`.
fn add(made: &mut Levels, record: &str) -> Option<()> {
    let (kind, _) = record.split_once(',')?;
    let (rest, level) = record.rsplit_once(',')?;
    match kind {
        "level" => made.levels.push(level.parse().ok()?),
        "ceiling" if rest.ends_with(",global") => made.ceilings.push(None),
        "ceiling" => made.ceilings.push(Some(level.parse().ok()?)),
        "top" => made.tops.push(level.parse().ok()?),
        _ => return None,
    }
    Some(())
}
