use crate::error::Error;
use crate::ffi::{self, Found, Handle, LogNumbers, Tolerated, NONE, NO_SEQ};
use crate::row::Job;
use std::fmt::{self, Display, Formatter};

/// What an event of a kernel's log reports. A resource is its number in the system, from 0.
#[derive(Clone, Copy, Debug, PartialEq, Eq, Hash)]
pub enum LogAction {
    /// The core's part of the log begins.
    Boot,
    /// A job is released, with its absolute deadline in ns.
    Release(Job, u64),
    /// The core switches to a job, or to none.
    Switch(Option<Job>),
    /// The job locks a local resource.
    Lock(Job, u32),
    /// The job unlocks a local resource.
    Unlock(Job, u32),
    /// The job requests a global resource.
    Request(Job, u32),
    /// The job acquires the global resource that it requested.
    Acquire(Job, u32),
    /// The job frees a global resource.
    Freed(Job, u32),
    /// The job finds that it can't acquire the resource yet.
    Poll(Job, u32),
    /// The job ends.
    End(Job),
    /// The log ends here on purpose.
    Stop,
    /// The tracer lost records of the core.
    Lost,
}

impl LogAction {
    /// Its kind, job and resource, and the deadline of a release.
    fn parts(self) -> (u32, Option<Job>, Option<u32>, u64) {
        match self {
            LogAction::Boot => (0, None, None, 0),
            LogAction::Release(job, deadline) => (1, Some(job), None, deadline),
            LogAction::Switch(job) => (2, job, None, 0),
            LogAction::Lock(job, resource) => (3, Some(job), Some(resource), 0),
            LogAction::Unlock(job, resource) => (4, Some(job), Some(resource), 0),
            LogAction::Request(job, resource) => (5, Some(job), Some(resource), 0),
            LogAction::Acquire(job, resource) => (6, Some(job), Some(resource), 0),
            LogAction::Freed(job, resource) => (7, Some(job), Some(resource), 0),
            LogAction::End(job) => (8, Some(job), None, 0),
            LogAction::Stop => (9, None, None, 0),
            LogAction::Lost => (10, None, None, 0),
            LogAction::Poll(job, resource) => (11, Some(job), Some(resource), 0),
        }
    }
}

/// An event of a kernel's log.
#[derive(Clone, Copy, Debug, PartialEq, Eq, Hash)]
pub struct LogEvent {
    /// The time in ns by the core's clock.
    pub ns: u64,
    /// The core.
    pub core: u32,
    /// The number among the core's records, if they are numbered.
    pub seq: Option<u64>,
    /// What it reports.
    pub action: LogAction,
}

impl LogEvent {
    fn numbers(&self) -> LogNumbers {
        let (kind, job, resource, deadline) = self.action.parts();
        let seq = self.seq.unwrap_or(NO_SEQ);
        let (task, job) = job.map_or((NONE, NONE), |job| (job.task, job.number));
        LogNumbers { ns: self.ns, deadline, seq, core: self.core, kind, task, job, resource: resource.unwrap_or(NONE) }
    }
}

/// How exact the times of a log are, in ns, and how many jobs may be released and not ended.
#[derive(Clone, Copy, Debug, PartialEq, Eq)]
pub struct Tolerances {
    /// How long an operation on a resource takes.
    pub operation: u32,
    /// How long the kernel may take to react.
    pub slack: u32,
    /// By how much the clocks of two cores may differ.
    pub skew: u32,
    /// The most jobs that may be released and not ended.
    pub backlog: u32,
}

impl Default for Tolerances {
    /// No tolerance of time, and 4,096 jobs: the defaults of `msrp_log`.
    fn default() -> Tolerances {
        Tolerances { operation: 0, slack: 0, skew: 0, backlog: 4096 }
    }
}

/// What is missing in a log.
#[derive(Clone, Copy, Debug, PartialEq, Eq, Hash)]
pub enum Missing {
    /// The core isn't one of the system.
    Core,
    /// The core has not booted.
    Start,
    /// The core boots a second time.
    Restart,
    /// Records of the core were lost.
    Records,
    /// The clock of the core ran backwards.
    Clock,
    /// The release of an earlier job of the task.
    Release,
    /// The request of the resource that is acquired.
    Request,
    /// Room for one more job: see [`Tolerances::backlog`].
    Room,
}

/// In the order of their numbers, from 1.
const MISSING: [Missing; 8] = [
    Missing::Core,
    Missing::Start,
    Missing::Restart,
    Missing::Records,
    Missing::Clock,
    Missing::Release,
    Missing::Request,
    Missing::Room,
];

/// Why a kernel's log isn't the start of a legal one, or isn't judged.
#[derive(Clone, Debug, PartialEq, Eq)]
#[non_exhaustive]
pub enum LogError {
    /// The scheduler violates the rule with this number: 1 for E1.
    Fault(u32),
    /// Something is missing in the log.
    Incomplete(Missing),
    /// The system is refused at this record; the code is that of `enum msrp_system_refusal`.
    System {
        /// The number of the refusal.
        code: u32,
        /// The refused record, from 1.
        record: u32,
    },
    /// The call failed for another reason.
    Call(Error),
}

impl LogError {
    fn of(status: u32, found: Found) -> LogError {
        let missing = found.trace_code.checked_sub(1).and_then(|at| MISSING.get(at as usize));
        match (status, missing) {
            (ffi::FAULT, _) => LogError::Fault(found.rule),
            (ffi::REFUSED, Some(missing)) => LogError::Incomplete(*missing),
            (ffi::REFUSED, None) => LogError::System { code: found.plan_code, record: found.number },
            _ => LogError::Call(Error::of(status, found, &[])),
        }
    }
}

impl Display for LogError {
    fn fmt(&self, f: &mut Formatter<'_>) -> fmt::Result {
        match self {
            LogError::Fault(rule) => write!(f, "the event violates rule E{rule}"),
            LogError::Incomplete(missing) => write!(f, "the log lacks something: {missing:?}"),
            LogError::System { code, record } => write!(f, "system: refusal {code} at record {record}"),
            LogError::Call(error) => error.fmt(f),
        }
    }
}

impl std::error::Error for LogError {}

fn answer(status: u32, found: Found) -> Result<(), LogError> {
    match status {
        ffi::GOOD => Ok(()),
        _ => Err(LogError::of(status, found)),
    }
}

/// An auditor of a kernel's log that is fed event by event. `docs/LOG.md` has the text of a system,
/// the events and the rules.
///
/// If the cores number their records, a fault is certain once each other core has shown one more
/// record, without a gap. The library keeps the system in memory until the process ends.
///
/// ```
/// use msrp::{Job, LogAction, LogAuditor, LogError, LogEvent, Tolerances};
/// let system = "msrp-system,1\ncores,1\ntask,a,0,50\ntask,b,0,90\n";
/// let mut auditor = LogAuditor::new(system.as_bytes(), Tolerances { slack: 2, ..Tolerances::default() })?;
/// let (a, b) = (Job { task: 0, number: 0 }, Job { task: 1, number: 0 });
/// let event = |ns, action| LogEvent { ns, core: 0, seq: None, action };
/// auditor.feed(&event(0, LogAction::Boot))?;
/// auditor.feed(&event(5, LogAction::Release(b, 95)))?;
/// auditor.feed(&event(6, LogAction::Switch(Some(b))))?;
/// auditor.feed(&event(9, LogAction::Release(a, 59)))?;
/// assert_eq!(auditor.feed(&event(15, LogAction::End(b))), Err(LogError::Fault(1)));
/// # Ok::<(), LogError>(())
/// ```
#[derive(Debug)]
pub struct LogAuditor(Handle);

impl LogAuditor {
    /// An auditor of the logs of a system, with all memory that `feed` and `end` need.
    pub fn new(system: &[u8], tolerances: Tolerances) -> Result<LogAuditor, LogError> {
        let Tolerances { operation, slack, skew, backlog } = tolerances;
        let tolerated = Tolerated { operation, slack, skew, backlog };
        let (mut auditor, mut found) = (LogAuditor(Handle::null()), Found::default());
        // SAFETY: the system is a slice, and the null handle is borrowed for this call alone.
        let status =
            unsafe { ffi::msrp_log_new(system.as_ptr(), system.len(), &tolerated, &mut auditor.0, &mut found) };
        answer(status, found).map(|()| auditor)
    }

    /// Takes the next event. The error is what the events so far show first; it then stays.
    pub fn feed(&mut self, event: &LogEvent) -> Result<(), LogError> {
        let mut found = Found::default();
        // SAFETY: `&mut self` gives the handle to one call at a time.
        let status = unsafe { ffi::msrp_log_feed(&mut self.0, &event.numbers(), &mut found) };
        answer(status, found)
    }

    /// What the events so far show first. More events may be fed afterwards.
    pub fn end(&mut self) -> Result<(), LogError> {
        let mut found = Found::default();
        // SAFETY: `&mut self` gives the handle to one call at a time.
        let status = unsafe { ffi::msrp_log_end(&mut self.0, &mut found) };
        answer(status, found)
    }
}

impl Drop for LogAuditor {
    fn drop(&mut self) {
        // SAFETY: `&mut self` gives the handle to one call at a time, and this is the last one.
        unsafe { ffi::msrp_log_free(&mut self.0) }
    }
}
