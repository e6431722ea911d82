use crate::error::{answer, Error};
use crate::ffi::{self, Found, Handle, Numbers};
use crate::plan::Plan;
use crate::row::Row;
use crate::texts::text_of;

/// An auditor that is fed row by row.
///
/// The library keeps the plan in memory until the process ends. So for many traces of one plan make
/// one auditor, and call [`again`](Auditor::again).
///
/// ```
/// use msrp::{Auditor, Error, Plan, Row, Step};
/// let plan = Plan::new("msrp,1\ncores,1\nticks,2\ntask,a,0,2,2,0\nop,run,1\n")?;
/// let mut auditor = Auditor::new(&plan)?;
/// while let Some(row) = auditor.due(0)? {
///     auditor.feed(&row)?;
/// }
/// auditor.end()?;
///
/// auditor.again()?;
/// let idle = Row { tick: 0, core: 0, step: Step::Idle };
/// assert_eq!(auditor.feed(&idle), Err(Error::Fault { row: 1, rule: 3, line: None }));
/// assert_eq!(auditor.why()?.lines().nth(3), Some("expected: 0,0,run,a,0,-,-"));
/// # Ok::<(), Error>(())
/// ```
#[derive(Debug)]
pub struct Auditor(Handle);

impl Auditor {
    /// An auditor of a plan, with all memory that `feed` and `end` need.
    pub fn new(plan: &Plan) -> Result<Auditor, Error> {
        let (plan, mut auditor, mut found) = (plan.text().as_bytes(), Auditor(Handle::null()), Found::default());
        // SAFETY: the plan is a slice, and the null handle is borrowed for this call alone.
        let status = unsafe { ffi::msrp_auditor_new(plan.as_ptr(), plan.len(), &mut auditor.0, &mut found) };
        answer(status, found, plan).map(|()| auditor)
    }

    /// Judges the next row, after all rows so far. A fault or a refusal is repeated from then on.
    pub fn feed(&mut self, row: &Row) -> Result<(), Error> {
        let mut found = Found::default();
        // SAFETY: `&mut self` gives the handle to one call at a time.
        let status = unsafe { ffi::msrp_auditor_feed(&mut self.0, &row.numbers(), &mut found) };
        answer(status, found, &[])
    }

    /// Judges the rows so far as a whole trace. More rows may be fed afterwards.
    pub fn end(&mut self) -> Result<(), Error> {
        let mut found = Found::default();
        // SAFETY: `&mut self` gives the handle to one call at a time.
        let status = unsafe { ffi::msrp_auditor_end(&mut self.0, &mut found) };
        answer(status, found, &[])
    }

    /// The row that is expected of a core next; `None` after the last row. [`Error::Usage`] if none
    /// is expected: after a fault, or because the core has had its row of this tick.
    pub fn due(&mut self, core: u32) -> Result<Option<Row>, Error> {
        let mut row = Numbers::default();
        // SAFETY: `&mut self` gives the handle to one call at a time.
        let status = unsafe { ffi::msrp_auditor_due(&mut self.0, core, &mut row) };
        match status {
            ffi::GOOD => Row::of(&row).map(Some).ok_or(Error::Unknown),
            ffi::DONE => Ok(None),
            status => Err(Error::of(status, Found::default(), &[])),
        }
    }

    /// The verdict on all rows so far, and its cause in words; empty while nothing is wrong.
    pub fn why(&mut self) -> Result<String, Error> {
        text_of(&[], |text, needed, found| {
            // SAFETY: the buffer is a slice, and `&mut self` gives the handle to one call at a time.
            unsafe { ffi::msrp_auditor_why(&mut self.0, text.as_mut_ptr(), text.len(), needed, found) }
        })
    }

    /// Begins another trace of the same plan.
    pub fn again(&mut self) -> Result<(), Error> {
        // SAFETY: `&mut self` gives the handle to one call at a time.
        let status = unsafe { ffi::msrp_auditor_again(&mut self.0) };
        answer(status, Found::default(), &[])
    }
}

impl Drop for Auditor {
    fn drop(&mut self) {
        // SAFETY: `&mut self` gives the handle to one call at a time, and this is the last one.
        unsafe { ffi::msrp_auditor_free(&mut self.0) }
    }
}
