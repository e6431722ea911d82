use crate::error::{answer, Error};
use crate::ffi::{self, Found, Handle, Numbers};
use crate::judging::TextVersion;
use crate::plan::Plan;
use crate::row::{known, Row};
use crate::texts::text_of;
use std::iter::from_fn;
use std::sync::atomic::{AtomicUsize, Ordering};

/// A run of a plan on your own threads, one for each core.
///
/// Each thread drives a [`Core`] until its last tick. Then the run joins the cores in their order,
/// and has a trace. No call waits. The library keeps the plan in memory until the process ends.
///
/// ```
/// use msrp::{Core, Error, Order, Plan, Run, Step, Turn, TextVersion};
/// use std::thread;
///
/// fn drive(mut core: Core) -> Result<Core, Error> {
///     loop {
///         match core.turn()? {
///             Turn::Row { row, .. } => {
///                 if let Step::Run(_job) = row.step {
///                     // one unit of the job's work
///                 }
///                 core.arrive()?;
///             }
///             Turn::Wait => thread::yield_now(), // or spin, or sleep until the next tick
///             Turn::Done => return Ok(core),
///         }
///     }
/// }
///
/// let plan = Plan::new("msrp,1\ncores,2\nticks,4\ntask,a,0,2,2,0\nop,run,1\ntask,b,1,4,4,0\nop,run,3\n")?;
/// let mut run = Run::new(&plan)?;
/// let threads: Vec<_> = run.cores()?.into_iter().map(|core| thread::spawn(move || drive(core))).collect();
/// for thread in threads {
///     let mut core = thread.join().expect("no thread panics")?;
///     run.join(&mut core)?;
/// }
/// assert_eq!(run.trace(TextVersion::Two), msrp::simulate(&plan, Order::Ascending, TextVersion::Two));
/// # Ok::<(), Error>(())
/// ```
#[derive(Debug)]
pub struct Run(Handle, usize);

/// A core of a run, for one thread at a time. A core that is dropped leaves its run without a trace.
#[derive(Debug)]
pub struct Core(Handle, usize);

/// What a core does next.
#[derive(Clone, Copy, Debug, PartialEq, Eq)]
pub enum Turn {
    /// The core is in its turn until it arrives.
    Row {
        /// What the core does.
        row: Row,
        /// How many requests and releases of the resource came before this step; `None` for a row on
        /// no global resource. To feed an auditor, sort the rows of a tick by [`Row::rank`].
        place: Option<u32>,
    },
    /// The core may not enter its tick yet: some core hasn't arrived in the previous one.
    Wait,
    /// The core has no tick left.
    Done,
}

impl Run {
    /// A run of a plan. It allocates all memory but that of the trace.
    pub fn new(plan: &Plan) -> Result<Run, Error> {
        static RUNS: AtomicUsize = AtomicUsize::new(0);
        let (plan, mut found) = (plan.text().as_bytes(), Found::default());
        let mut run = Run(Handle::null(), RUNS.fetch_add(1, Ordering::Relaxed));
        // SAFETY: the plan is a slice, and the null handle is borrowed for this call alone.
        let status = unsafe { ffi::msrp_run_new(plan.as_ptr(), plan.len(), &mut run.0, &mut found) };
        answer(status, found, plan).map(|()| run)
    }

    /// The next core, in ascending order; `None` if all are handed out. The last one lets all cores
    /// into tick 0.
    pub fn next_core(&mut self) -> Result<Option<Core>, Error> {
        let mut core = Core(Handle::null(), self.1);
        // SAFETY: `&mut self` gives the handle to one call at a time, and the other one is null.
        match unsafe { ffi::msrp_run_core(&mut self.0, &mut core.0) } {
            ffi::GOOD => Ok(Some(core)),
            ffi::DONE => Ok(None),
            status => Err(Error::of(status, Found::default(), &[])),
        }
    }

    /// The cores that aren't handed out yet.
    pub fn cores(&mut self) -> Result<Vec<Core>, Error> {
        from_fn(|| self.next_core().transpose()).collect()
    }

    /// Takes a core back; join the cores in ascending order. [`Error::Usage`], and nothing changes,
    /// if some core isn't handed out yet, or if this one isn't the next, has a tick left or is of
    /// another run.
    pub fn join(&mut self, core: &mut Core) -> Result<(), Error> {
        if core.1 != self.1 {
            return Err(Error::Usage);
        }
        // SAFETY: the core is of this run, and each handle is given to one call at a time.
        let status = unsafe { ffi::msrp_run_join(&mut self.0, &mut core.0) };
        answer(status, Found::default(), &[])
    }

    /// The trace: a legal run, in which the rows of each core are those of its turns.
    /// [`Error::Usage`] before all cores are joined.
    pub fn trace(&mut self, version: TextVersion) -> Result<String, Error> {
        text_of(&[], |text, needed, _| {
            // SAFETY: the buffer is a slice, and `&mut self` gives the handle to one call at a time.
            unsafe { ffi::msrp_run_text(&mut self.0, version as u32, text.as_mut_ptr(), text.len(), needed) }
        })
    }
}

impl Core {
    /// The core's turn in its tick. [`Error::Usage`] if it is already in one, or was joined.
    pub fn turn(&mut self) -> Result<Turn, Error> {
        let (mut row, mut place) = (Numbers::default(), 0);
        // SAFETY: `&mut self` gives the handle to one call at a time.
        match unsafe { ffi::msrp_core_turn(&mut self.0, &mut row, &mut place) } {
            ffi::GOOD => {
                let row = Row::of(&row).ok_or(Error::Unknown)?;
                Ok(Turn::Row { row, place: known(place) })
            }
            ffi::WAIT => Ok(Turn::Wait),
            ffi::DONE => Ok(Turn::Done),
            status => Err(Error::of(status, Found::default(), &[])),
        }
    }

    /// Ends the core's turn. [`Error::Usage`] if it is in none.
    pub fn arrive(&mut self) -> Result<(), Error> {
        // SAFETY: `&mut self` gives the handle to one call at a time.
        let status = unsafe { ffi::msrp_core_arrive(&mut self.0) };
        answer(status, Found::default(), &[])
    }
}

impl Drop for Run {
    fn drop(&mut self) {
        // SAFETY: `&mut self` gives the handle to one call at a time, and this is the last one.
        unsafe { ffi::msrp_run_free(&mut self.0) }
    }
}

impl Drop for Core {
    fn drop(&mut self) {
        // SAFETY: `&mut self` gives the handle to one call at a time, and this is the last one.
        unsafe { ffi::msrp_core_free(&mut self.0) }
    }
}
