//! The declarations of `include/msrp.h`.

use std::ffi::c_void;
use std::ptr::null_mut;

pub(crate) const GOOD: u32 = 0;
pub(crate) const FAULT: u32 = 1;
pub(crate) const REFUSED: u32 = 2;
pub(crate) const USAGE: u32 = 3;
pub(crate) const MEMORY: u32 = 4;
pub(crate) const TOO_LONG: u32 = 5;
pub(crate) const ROOM: u32 = 6;
pub(crate) const WAIT: u32 = 7;
pub(crate) const DONE: u32 = 8;

/// The value of a field that a row doesn't have.
pub(crate) const NONE: u32 = u32::MAX;

/// `struct msrp_found`.
#[repr(C)]
#[derive(Clone, Copy, Debug, Default)]
pub(crate) struct Found {
    pub(crate) row: u32,
    pub(crate) rule: u32,
    pub(crate) plan_code: u32,
    pub(crate) trace_code: u32,
    pub(crate) number: u32,
}

/// `struct msrp_row`.
#[repr(C)]
#[derive(Clone, Copy, Debug, Default)]
pub(crate) struct Numbers {
    pub(crate) tick: u32,
    pub(crate) core: u32,
    pub(crate) kind: u32,
    pub(crate) task: u32,
    pub(crate) job: u32,
    pub(crate) resource: u32,
    pub(crate) ahead: u32,
}

/// The number of an event whose record has none.
pub(crate) const NO_SEQ: u64 = u64::MAX;

/// `struct msrp_log_event`.
#[repr(C)]
#[derive(Clone, Copy, Debug)]
pub(crate) struct LogNumbers {
    pub(crate) ns: u64,
    pub(crate) deadline: u64,
    pub(crate) seq: u64,
    pub(crate) core: u32,
    pub(crate) kind: u32,
    pub(crate) task: u32,
    pub(crate) job: u32,
    pub(crate) resource: u32,
}

/// `struct msrp_tolerances`.
#[repr(C)]
#[derive(Clone, Copy, Debug)]
pub(crate) struct Tolerated {
    pub(crate) operation: u32,
    pub(crate) slack: u32,
    pub(crate) skew: u32,
    pub(crate) backlog: u32,
}

/// `struct msrp_auditor`, `struct msrp_log`, `struct msrp_run` or `struct msrp_core`. It is never copied.
#[repr(C)]
#[derive(Debug)]
pub(crate) struct Handle(*mut c_void);

// SAFETY: the header lets a handle go to another thread if the calls are ordered, and what a program without unsafe
// code moves between threads is ordered.
unsafe impl Send for Handle {}

impl Handle {
    /// The handle before the call that makes its contents.
    pub(crate) const fn null() -> Handle {
        Handle(null_mut())
    }
}

type Text = *const u8;
type Buffer = *mut u8;

#[rustfmt::skip] // a line for each function, as in the header
extern "C" {
    pub(crate) fn msrp_version() -> u32;
    pub(crate) fn msrp_audit(plan: Text, plan_len: usize, trace: Text, trace_len: usize, found: &mut Found) -> u32;
    pub(crate) fn msrp_audit_rows(plan: Text, plan_len: usize, rows: *const Numbers, rows_len: usize, so_far: bool, found: &mut Found) -> u32;
    pub(crate) fn msrp_report(plan: Text, plan_len: usize, trace: Text, trace_len: usize, text: Buffer, text_len: usize, needed: &mut usize, found: &mut Found) -> u32;
    pub(crate) fn msrp_sim(plan: Text, plan_len: usize, order: u32, cores: *const u32, cores_len: usize, version: u32, text: Buffer, text_len: usize, needed: &mut usize, found: &mut Found) -> u32;
    pub(crate) fn msrp_check(plan: Text, plan_len: usize, text: Buffer, text_len: usize, needed: &mut usize, found: &mut Found) -> u32;
    pub(crate) fn msrp_plan_text(plan: Text, plan_len: usize, text: Buffer, text_len: usize, needed: &mut usize, found: &mut Found) -> u32;
    pub(crate) fn msrp_view(plan: Text, plan_len: usize, trace: Text, trace_len: usize, style: u32, from: u32, to: u32, text: Buffer, text_len: usize, needed: &mut usize, found: &mut Found) -> u32;
    pub(crate) fn msrp_why(plan: Text, plan_len: usize, trace: Text, trace_len: usize, text: Buffer, text_len: usize, needed: &mut usize, found: &mut Found) -> u32;
    pub(crate) fn msrp_why_plan(plan: Text, plan_len: usize, text: Buffer, text_len: usize, needed: &mut usize, found: &mut Found) -> u32;
    pub(crate) fn msrp_why_rows(plan: Text, plan_len: usize, rows: *const Numbers, rows_len: usize, text: Buffer, text_len: usize, needed: &mut usize, found: &mut Found) -> u32;
    pub(crate) fn msrp_task_number(plan: Text, plan_len: usize, name: Text, name_len: usize, number: &mut u32, found: &mut Found) -> u32;
    pub(crate) fn msrp_resource_number(plan: Text, plan_len: usize, name: Text, name_len: usize, number: &mut u32, found: &mut Found) -> u32;
    pub(crate) fn msrp_auditor_new(plan: Text, plan_len: usize, auditor: &mut Handle, found: &mut Found) -> u32;
    pub(crate) fn msrp_auditor_feed(auditor: &mut Handle, row: &Numbers, found: &mut Found) -> u32;
    pub(crate) fn msrp_auditor_end(auditor: &mut Handle, found: &mut Found) -> u32;
    pub(crate) fn msrp_auditor_due(auditor: &mut Handle, core: u32, row: &mut Numbers) -> u32;
    pub(crate) fn msrp_auditor_why(auditor: &mut Handle, text: Buffer, text_len: usize, needed: &mut usize, found: &mut Found) -> u32;
    pub(crate) fn msrp_auditor_again(auditor: &mut Handle) -> u32;
    pub(crate) fn msrp_auditor_free(auditor: &mut Handle);
    pub(crate) fn msrp_log_new(system: Text, system_len: usize, tolerances: &Tolerated, log: &mut Handle, found: &mut Found) -> u32;
    pub(crate) fn msrp_log_feed(log: &mut Handle, event: &LogNumbers, found: &mut Found) -> u32;
    pub(crate) fn msrp_log_end(log: &mut Handle, found: &mut Found) -> u32;
    pub(crate) fn msrp_log_free(log: &mut Handle);
    pub(crate) fn msrp_run_new(plan: Text, plan_len: usize, run: &mut Handle, found: &mut Found) -> u32;
    pub(crate) fn msrp_run_core(run: &mut Handle, core: &mut Handle) -> u32;
    pub(crate) fn msrp_core_turn(core: &mut Handle, row: &mut Numbers, place: &mut u32) -> u32;
    pub(crate) fn msrp_core_arrive(core: &mut Handle) -> u32;
    pub(crate) fn msrp_run_join(run: &mut Handle, core: &mut Handle) -> u32;
    pub(crate) fn msrp_run_text(run: &mut Handle, version: u32, text: Buffer, text_len: usize, needed: &mut usize) -> u32;
    pub(crate) fn msrp_core_free(core: &mut Handle);
    pub(crate) fn msrp_run_free(run: &mut Handle);
}
