//! Simulates, audits, reports and draws runs of real-time plans under the Multiprocessor Stack
//! Resource Policy, and runs plans on your own threads.
//!
//! All answers come from the proved library for C. This crate gives its calls Rust's types: a text
//! is a slice, a handle is freed when it is dropped, and a refusal is an [`Error`]. `docs/C.md`
//! says what is proved of each call, and `docs/FAULTS.md` explains the codes.
//!
//! ```
//! use msrp::{audit, simulate, Error, Order, Plan, TextVersion};
//!
//! let plan = Plan::new(
//!     "msrp,1\ncores,2\nticks,6\nresource,g\n\
//!      task,a,0,20,8,0\nop,lock,g\nop,run,1\nop,unlock,g\n\
//!      task,b,1,20,8,0\nop,lock,g\nop,run,1\nop,unlock,g\n",
//! )?;
//! let trace = simulate(&plan, Order::Ascending, TextVersion::Two)?;
//! audit(&plan, &trace)?;
//!
//! let faulty = trace.replace("2,1,grant,", "2,1,spin,");
//! assert_eq!(audit(&plan, &faulty), Err(Error::Fault { row: 6, rule: 5, line: Some(7) }));
//! println!("{}", msrp::why(&plan, &faulty)?);
//! # Ok::<(), Error>(())
//! ```
//!
//! # What types can't say
//!
//! - A thread that calls has 512 KiB of stack left: 64 KiB if it only drives a [`Core`]. Rust gives
//!   a thread 2 MiB, unless you set another size.
//! - There is no call from a signal handler, and none in the forked child of a process with
//!   threads.
//! - A plan stays in memory until the process ends if an [`Auditor`] or a [`Run`] was made of it,
//!   and so does the system of a [`LogAuditor`].
#![deny(missing_docs, clippy::undocumented_unsafe_blocks)]
#![deny(clippy::expect_used, clippy::indexing_slicing, clippy::panic, clippy::unwrap_used)]

#[cfg(not(all(target_os = "linux", target_arch = "x86_64")))]
compile_error!("the library is built for Linux on x86-64");

mod auditor;
mod error;
mod ffi;
mod judging;
mod log;
mod plan;
mod reports;
mod row;
mod run;
mod texts;

pub use auditor::Auditor;
pub use error::Error;
pub use judging::{
    audit, audit_rows, simulate, version, view, why, why_plan, why_rows, Extent, Order, Style, TextVersion,
};
pub use log::{LogAction, LogAuditor, LogError, LogEvent, Missing, Tolerances};
pub use plan::Plan;
pub use reports::{check, report, Levels, TaskReport};
pub use row::{Job, Row, Step};
pub use run::{Core, Run, Turn};
