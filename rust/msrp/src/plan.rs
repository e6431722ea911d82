use crate::error::{answer, Error};
use crate::ffi::{self, Found};
use crate::texts::text_of;
use std::fmt::{self, Display, Formatter};

/// A plan that the library accepts: its text in the shortest form, and its facts.
///
/// ```
/// let plan = msrp::Plan::new("msrp,1\ncores,1\nticks,2\n\ntask,a,0,2,2,0\nop,run,1\n")?;
/// assert_eq!((plan.cores(), plan.ticks(), plan.tasks()), (1, 2, &["a".to_owned()][..]));
/// # Ok::<(), msrp::Error>(())
/// ```
#[derive(Clone, Debug, PartialEq, Eq, Hash)]
pub struct Plan {
    text: String,
    cores: u32,
    ticks: u32,
    tasks: Vec<String>,
    resources: Vec<String>,
}

impl Plan {
    /// The plan of a text, or the reason why it is refused.
    pub fn new(text: impl AsRef<[u8]>) -> Result<Plan, Error> {
        let given = text.as_ref();
        let text = text_of(given, |text, needed, found| {
            // SAFETY: the text and the buffer are slices, and what the call writes is borrowed for it alone.
            unsafe { ffi::msrp_plan_text(given.as_ptr(), given.len(), text.as_mut_ptr(), text.len(), needed, found) }
        })?;
        Ok(Plan {
            cores: size(&text, "cores"),
            ticks: size(&text, "ticks"),
            tasks: values(&text, &["task", "listed"]).map(str::to_owned).collect(),
            resources: values(&text, &["resource"]).map(str::to_owned).collect(),
            text,
        })
    }

    /// The text of the plan, which is read as the same plan.
    pub fn text(&self) -> &str {
        &self.text
    }

    /// The number of cores.
    pub fn cores(&self) -> u32 {
        self.cores
    }

    /// The number of ticks.
    pub fn ticks(&self) -> u32 {
        self.ticks
    }

    /// The names of the tasks. Task 0 of a [`Row`](crate::Row) is the first one.
    pub fn tasks(&self) -> &[String] {
        &self.tasks
    }

    /// The names of the resources. Resource 0 of a [`Row`](crate::Row) is the first one.
    pub fn resources(&self) -> &[String] {
        &self.resources
    }

    /// The number of the task with this name, as rows have it; [`Error::Usage`] if there is none.
    pub fn task_number(&self, name: &str) -> Result<u32, Error> {
        let (plan, mut number, mut found) = (self.text.as_bytes(), 0, Found::default());
        // SAFETY: plan and name are slices, and what the call writes is borrowed for it alone.
        let status = unsafe {
            ffi::msrp_task_number(plan.as_ptr(), plan.len(), name.as_ptr(), name.len(), &mut number, &mut found)
        };
        answer(status, found, plan).map(|()| number)
    }

    /// The number of the resource with this name, as rows have it; [`Error::Usage`] if there is
    /// none.
    pub fn resource_number(&self, name: &str) -> Result<u32, Error> {
        let (plan, mut number, mut found) = (self.text.as_bytes(), 0, Found::default());
        // SAFETY: plan and name are slices, and what the call writes is borrowed for it alone.
        let status = unsafe {
            ffi::msrp_resource_number(plan.as_ptr(), plan.len(), name.as_ptr(), name.len(), &mut number, &mut found)
        };
        answer(status, found, plan).map(|()| number)
    }
}

/// The first value of each record of these kinds. The shortest form has no quotes.
fn values<'a>(text: &'a str, kinds: &'a [&'a str]) -> impl Iterator<Item = &'a str> {
    let records = text.lines().filter_map(|record| record.split_once(','));
    let wanted = records.filter(|(kind, _)| kinds.contains(kind));
    wanted.map(|(_, rest)| rest.split_once(',').map_or(rest, |(first, _)| first))
}

/// The number of the record of this kind.
fn size(text: &str, kind: &str) -> u32 {
    let number = values(text, &[kind]).next().and_then(|value| value.parse().ok());
    number.unwrap_or_default()
}

impl Display for Plan {
    fn fmt(&self, f: &mut Formatter<'_>) -> fmt::Result {
        f.write_str(&self.text)
    }
}
