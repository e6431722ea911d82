use crate::ffi::{self, Found};
use std::fmt::{self, Display, Formatter};

/// Why a call has no result, or why a trace isn't a legal run.
///
/// Rows, records and lines are counted from 1. An empty line isn't a record, so a line can have a
/// greater number than its record. The line is `None` if it isn't known: for rows as numbers, at
/// the end of a text, and where a quoted field may contain a line end.
///
/// ```
/// let error = msrp::Plan::new("msrp,1\n\ncores,9\nticks,6\n").unwrap_err();
/// assert_eq!(error.to_string(), "plan: P7 at record 2, line 3: cores is 9; must be 1 to 8");
/// ```
#[derive(Clone, Debug, PartialEq, Eq)]
#[non_exhaustive]
pub enum Error {
    /// A row violates a rule, or a row is missing at the end.
    Fault {
        /// The first faulty row.
        row: u32,
        /// The number of the lowest rule that it violates: 5 for A5.
        rule: u32,
        /// The line of the row in the trace.
        line: Option<u32>,
    },
    /// The plan is refused.
    Plan {
        /// The number of the refusal: 7 for P7.
        code: u32,
        /// The refused record.
        record: u32,
        /// The line of the record in the plan.
        line: Option<u32>,
        /// What is wrong, and what is expected.
        words: String,
    },
    /// The trace can't be read, or a row as numbers is refused.
    Trace {
        /// The number of the refusal: 2 for R2.
        code: u32,
        /// The refused record; the refused row if rows are numbers.
        record: u32,
        /// The line of the record in the trace.
        line: Option<u32>,
    },
    /// The plan has no such name, core, ticks or order, or the call is out of turn.
    Usage,
    /// An allocation failed.
    Memory,
    /// A text has 16 MiB or more.
    TooLong,
    /// The linked library has another version, and gave an answer that this one doesn't have.
    Unknown,
}

impl Error {
    /// The error of a status. `source` is the text that was judged, as the caller gave it.
    pub(crate) fn of(status: u32, found: Found, source: &[u8]) -> Error {
        let record = found.number;
        match status {
            ffi::FAULT => {
                Error::Fault { row: found.row, rule: found.rule, line: line_of(source, found.row.saturating_add(1)) }
            }
            ffi::REFUSED if found.plan_code > 0 => refused_plan(found.plan_code, record, source),
            ffi::REFUSED => Error::Trace { code: found.trace_code, record, line: line_of(source, record) },
            ffi::USAGE => Error::Usage,
            ffi::MEMORY => Error::Memory,
            ffi::TOO_LONG => Error::TooLong,
            _ => Error::Unknown,
        }
    }
}

/// `Ok` for a good status, and otherwise its error.
pub(crate) fn answer(status: u32, found: Found, source: &[u8]) -> Result<(), Error> {
    match status {
        ffi::GOOD => Ok(()),
        _ => Err(Error::of(status, found, source)),
    }
}

/// A refusal, with the line and the words of `plan:3: error P7: cores is 9; must be 1 to 8`.
fn refused_plan(code: u32, record: u32, plan: &[u8]) -> Error {
    let why = crate::why_plan(plan).unwrap_or_default();
    let first = why.lines().next().unwrap_or_default();
    let (place, reason) = first.split_once(": error ").unwrap_or_default();
    let line = place.split_once(':').and_then(|(_, line)| line.parse().ok());
    let words = reason.split_once(": ").map_or(reason, |(_, words)| words).to_owned();
    Error::Plan { code, record, line, words }
}

/// The line of a record. Lines end with LF, CR, or both.
fn line_of(text: &[u8], record: u32) -> Option<u32> {
    if text.contains(&b'"') {
        return None;
    }
    let lines = text.split(|byte| *byte == b'\n').flat_map(|line| {
        let line = line.strip_suffix(b"\r").unwrap_or(line);
        line.split(|byte| *byte == b'\r')
    });
    let mut filled = (1..).zip(lines).filter(|(_, line)| !line.is_empty());
    filled.nth(record.checked_sub(1)? as usize).map(|(number, _)| number)
}

/// What is wrong with a refused trace.
fn trace_words(code: u32) -> &'static str {
    match code {
        1 => "the first record isn't that of a trace of this plan",
        2 => "wrong number of fields",
        3 => "tick or core isn't a number, or job or ahead is neither a number nor '-'",
        4 => "unknown kind of row",
        5 => "the plan has no such task or resource",
        6 => "the fields don't fit the kind of row",
        _ => "refused",
    }
}

/// A place as `record 2, line 3`.
struct Place(&'static str, u32, Option<u32>);

impl Display for Place {
    fn fmt(&self, f: &mut Formatter<'_>) -> fmt::Result {
        let Place(what, number, line) = self;
        write!(f, "{what} {number}")?;
        line.map_or(Ok(()), |line| write!(f, ", line {line}"))
    }
}

impl Display for Error {
    fn fmt(&self, f: &mut Formatter<'_>) -> fmt::Result {
        match self {
            Error::Fault { row, rule, line } => write!(f, "{} violates rule A{rule}", Place("row", *row, *line)),
            Error::Plan { code, record, line, words } => {
                write!(f, "plan: P{code} at {}: {words}", Place("record", *record, *line))
            }
            Error::Trace { code, record, line } => {
                write!(f, "trace: R{code} at {}: {}", Place("record", *record, *line), trace_words(*code))
            }
            Error::Usage => f.write_str("wrong use: no such name, core, ticks or order, or a call out of turn"),
            Error::Memory => f.write_str("out of memory"),
            Error::TooLong => f.write_str("a text has 16 MiB or more"),
            Error::Unknown => f.write_str("the linked library has another version than this crate"),
        }
    }
}

impl std::error::Error for Error {}
