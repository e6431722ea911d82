use crate::ffi::{Numbers, NONE};

/// A job: the number of its task in the plan, and its number within the task. Both begin with 0.
#[derive(Clone, Copy, Debug, PartialEq, Eq, Hash)]
pub struct Job {
    /// The task.
    pub task: u32,
    /// The job of the task.
    pub number: u32,
}

/// What a core does in a tick. A resource is its number in the plan, beginning with 0.
#[derive(Clone, Copy, Debug, PartialEq, Eq, Hash)]
pub enum Step {
    /// No job runs.
    Idle,
    /// The job does one unit of its work.
    Run(Job),
    /// The job locks a local resource.
    Lock(Job, u32),
    /// The job unlocks a local resource.
    Unlock(Job, u32),
    /// The job requests a global resource, and gets it at once.
    Take(Job, u32),
    /// The job requests a global resource, and joins its queue. The last field is the number of
    /// jobs ahead of it, if known.
    Queue(Job, u32, Option<u32>),
    /// The job waits for a global resource.
    Spin(Job, u32),
    /// The job gets the global resource that it has waited for.
    Grant(Job, u32),
    /// The job releases a global resource.
    Release(Job, u32),
}

/// A row of a trace: what a core does in a tick.
///
/// ```
/// use msrp::{Job, Row, Step};
/// let job = Job { task: 0, number: 0 };
/// let row = Row { tick: 4, core: 1, step: Step::Take(job, 2) };
/// assert_eq!((row.step.job(), row.step.resource()), (Some(job), Some(2)));
/// ```
#[derive(Clone, Copy, Debug, PartialEq, Eq, Hash)]
pub struct Row {
    /// The tick.
    pub tick: u32,
    /// The core.
    pub core: u32,
    /// What it does.
    pub step: Step,
}

impl Step {
    /// The fields of the step as the header has them: kind, job, resource, jobs ahead.
    fn fields(self) -> (u32, Option<Job>, Option<u32>, Option<u32>) {
        match self {
            Step::Idle => (0, None, None, None),
            Step::Run(job) => (1, Some(job), None, None),
            Step::Lock(job, resource) => (2, Some(job), Some(resource), None),
            Step::Unlock(job, resource) => (3, Some(job), Some(resource), None),
            Step::Take(job, resource) => (4, Some(job), Some(resource), None),
            Step::Queue(job, resource, ahead) => (5, Some(job), Some(resource), ahead),
            Step::Spin(job, resource) => (6, Some(job), Some(resource), None),
            Step::Grant(job, resource) => (7, Some(job), Some(resource), None),
            Step::Release(job, resource) => (8, Some(job), Some(resource), None),
        }
    }

    /// The job of each step but `Idle`.
    pub fn job(self) -> Option<Job> {
        self.fields().1
    }

    /// The resource of each step but `Idle` and `Run`.
    pub fn resource(self) -> Option<u32> {
        self.fields().2
    }
}

impl Row {
    /// The key to sort the rows of cores by before an auditor is fed them: tick, resource and the
    /// place of the [`Turn`](crate::Turn). At the same place, a `Spin` or `Grant` comes first.
    pub fn rank(&self, place: Option<u32>) -> impl Ord {
        let is_counted = !matches!(self.step, Step::Spin(..) | Step::Grant(..));
        (self.tick, self.step.resource(), place, is_counted)
    }

    pub(crate) fn numbers(&self) -> Numbers {
        let (kind, job, resource, ahead) = self.step.fields();
        Numbers {
            tick: self.tick,
            core: self.core,
            kind,
            task: job.map_or(NONE, |job| job.task),
            job: job.map_or(NONE, |job| job.number),
            resource: resource.unwrap_or(NONE),
            ahead: ahead.unwrap_or(NONE),
        }
    }

    /// The row of numbers that the library gave, unless it has a kind that the header doesn't have.
    pub(crate) fn of(row: &Numbers) -> Option<Row> {
        let (resource, job) = (row.resource, Job { task: row.task, number: row.job });
        let step = match row.kind {
            0 => Step::Idle,
            1 => Step::Run(job),
            2 => Step::Lock(job, resource),
            3 => Step::Unlock(job, resource),
            4 => Step::Take(job, resource),
            5 => Step::Queue(job, resource, known(row.ahead)),
            6 => Step::Spin(job, resource),
            7 => Step::Grant(job, resource),
            8 => Step::Release(job, resource),
            _ => return None,
        };
        Some(Row { tick: row.tick, core: row.core, step })
    }
}

/// A number, unless it means that there is none.
pub(crate) fn known(number: u32) -> Option<u32> {
    Some(number).filter(|number| *number != NONE)
}
