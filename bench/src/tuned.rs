//! The baseline of `tuned.c`: all declarations, and safe calls.

use crate::library::{FrameAdded, FrameOutcome, FrameRecord, FrameReplay, FrameSchedule, FrameSpan, Histogram};

#[repr(C)]
#[derive(Clone, Copy, Debug, PartialEq, Eq)]
pub struct Refusal {
    pub number: usize,
    pub position: usize,
}

mod c {
    use super::{FrameAdded, FrameOutcome, FrameRecord, FrameReplay, FrameSchedule, FrameSpan, Histogram, Refusal};

    extern "C" {
        pub fn tuned_record(
            tree: *const u8,
            tree_len: usize,
            policy: u8,
            workers: u8,
            events: *const u8,
            events_len: usize,
            log: *mut u8,
            log_len: usize,
            trace: *mut u8,
            trace_len: usize,
        ) -> FrameRecord;
        pub fn tuned_replay(
            tree: *const u8,
            tree_len: usize,
            policy: u8,
            workers: u8,
            trace: *const u8,
            trace_len: usize,
            list: *mut u8,
            list_len: usize,
        ) -> FrameReplay;
        pub fn tuned_histogram_add(
            histogram: Histogram,
            tree: *const u8,
            tree_len: usize,
            policy: u8,
            workers: u8,
            trace: *const u8,
            trace_len: usize,
            list: *mut u8,
            list_len: usize,
        ) -> FrameAdded;
        pub fn tuned_schedule(
            tree: *const u8,
            tree_len: usize,
            policy: u8,
            workers: u8,
            seed: u32,
            events: *mut u8,
            events_len: usize,
        ) -> FrameSchedule;
        pub fn tuned_span(tree: *const u8, tree_len: usize, chain: *mut u8, chain_len: usize) -> FrameSpan;
        pub fn tuned_state_bytes() -> usize;
        pub fn tuned_start(state: *mut u64, tree: *const u8, tree_len: usize, policy: u8, workers: u8) -> Refusal;
        pub fn tuned_restart(state: *mut u64);
        pub fn tuned_event(state: *mut u64, tree: *const u8, first: u8, second: u8) -> FrameOutcome;
    }
}

pub fn record(tree: &[u8], policy: u8, workers: u8, events: &[u8], log: &mut [u8], trace: &mut [u8]) -> FrameRecord {
    unsafe {
        c::tuned_record(
            tree.as_ptr(),
            tree.len(),
            policy,
            workers,
            events.as_ptr(),
            events.len(),
            log.as_mut_ptr(),
            log.len(),
            trace.as_mut_ptr(),
            trace.len(),
        )
    }
}

pub fn replay(tree: &[u8], policy: u8, workers: u8, trace: &[u8], list: &mut [u8]) -> FrameReplay {
    unsafe {
        c::tuned_replay(
            tree.as_ptr(),
            tree.len(),
            policy,
            workers,
            trace.as_ptr(),
            trace.len(),
            list.as_mut_ptr(),
            list.len(),
        )
    }
}

pub fn histogram_add(histogram: Histogram, tree: &[u8], policy: u8, workers: u8, trace: &[u8], list: &mut [u8]) -> FrameAdded {
    unsafe {
        c::tuned_histogram_add(
            histogram,
            tree.as_ptr(),
            tree.len(),
            policy,
            workers,
            trace.as_ptr(),
            trace.len(),
            list.as_mut_ptr(),
            list.len(),
        )
    }
}

pub fn schedule(tree: &[u8], policy: u8, workers: u8, seed: u32, events: &mut [u8]) -> FrameSchedule {
    unsafe { c::tuned_schedule(tree.as_ptr(), tree.len(), policy, workers, seed, events.as_mut_ptr(), events.len()) }
}

pub fn span(tree: &[u8], chain: &mut [u8]) -> FrameSpan {
    unsafe { c::tuned_span(tree.as_ptr(), tree.len(), chain.as_mut_ptr(), chain.len()) }
}

/// A run by single events, with the tree that it began with.
pub struct Run<'a> {
    tree: &'a [u8],
    /// It has pointers into itself, so it is never moved.
    state: Box<[u64]>,
}

impl<'a> Run<'a> {
    pub fn start(tree: &'a [u8], policy: u8, workers: u8) -> Result<Run<'a>, Refusal> {
        let mut state = vec![0; unsafe { c::tuned_state_bytes() }.div_ceil(8)].into_boxed_slice();
        let refusal = unsafe { c::tuned_start(state.as_mut_ptr(), tree.as_ptr(), tree.len(), policy, workers) };
        if refusal.number == 0 {
            Ok(Run { tree, state })
        } else {
            Err(refusal)
        }
    }

    /// Back to the start.
    pub fn restart(&mut self) {
        unsafe { c::tuned_restart(self.state.as_mut_ptr()) }
    }

    pub fn event(&mut self, first: u8, second: u8) -> FrameOutcome {
        unsafe { c::tuned_event(self.state.as_mut_ptr(), self.tree.as_ptr(), first, second) }
    }
}
