//! The proved library over its C interface: all declarations, and safe calls. The prover sees none of them, so they stand in this
//! one file, which `header.rs` holds to the library's source and to the C header.

// A test program need not use them all.
#![allow(dead_code)]

use frame_tests::{Added, RecordAnswer, ReplayAnswer, ScheduleAnswer, SpanAnswer};

#[repr(C)]
#[derive(Clone, Copy, Debug, PartialEq, Eq)]
pub struct FrameTree {
    pub number: usize,
    pub position: usize,
    pub steps: usize,
}

#[repr(C)]
#[derive(Clone, Copy, Debug, PartialEq, Eq)]
pub struct FrameTask {
    pub first: usize,
    pub ordinal: usize,
}

#[repr(C)]
#[derive(Clone, Copy, Debug, PartialEq, Eq)]
pub struct FrameRunning {
    pub opens: usize,
    pub hold: usize,
    pub push: usize,
}

/// What a worker that holds no step has for one.
pub const NO_STEP: u16 = 65_535;
/// The place of a step that has run and whose pushed step, if any, is in no deque.
pub const RUN: u8 = 16;
/// The place of a step that has not run.
pub const NOT_RUN: u8 = 17;

#[repr(C)]
#[derive(Clone, Copy, PartialEq, Eq)]
pub struct RunState {
    pub place: [u8; 4095],
    pub policy: u8,
    pub held: [u16; 16],
    pub phase: [u16; 16],
    pub low: [u16; 16],
    pub base: [u16; 16],
    pub steals: u16,
    pub workers: u16,
}

#[repr(C)]
#[derive(Clone, Copy, PartialEq, Eq)]
pub struct FrameStart {
    pub number: usize,
    pub position: usize,
    pub state: RunState,
}

#[repr(C)]
#[derive(Clone, Copy, Debug, PartialEq, Eq)]
pub struct FrameOutcome {
    pub number: usize,
    pub position: usize,
    pub what: usize,
    pub phase: usize,
    pub step: usize,
    pub trace: usize,
}

#[repr(C)]
#[derive(Clone, Copy, PartialEq, Eq)]
pub struct FrameEvent {
    pub outcome: FrameOutcome,
    pub state: RunState,
}

#[repr(C)]
#[derive(Clone, Copy, Debug, PartialEq, Eq)]
pub struct FrameIdle {
    pub set: usize,
    pub count: usize,
    pub lowest: usize,
}

#[repr(C)]
#[derive(Clone, Copy, Debug, PartialEq, Eq)]
pub struct FrameRecord {
    pub number: usize,
    pub position: usize,
    pub logs: usize,
    pub steals: usize,
    /// 1 if every step has run, else 0.
    pub finished: usize,
    pub loads: [u64; 16],
    pub heaviest: usize,
    pub class_loads: [u64; 16],
}

/// The simulator's answer as the library gives it.
impl From<RecordAnswer> for FrameRecord {
    fn from(answer: RecordAnswer) -> FrameRecord {
        FrameRecord {
            number: answer.number as usize,
            position: answer.position,
            logs: answer.log_count,
            steals: answer.trace_count,
            finished: answer.finished.into(),
            loads: answer.loads,
            heaviest: answer.heaviest,
            class_loads: answer.class_loads,
        }
    }
}

#[repr(C)]
#[derive(Clone, Copy, Debug, PartialEq, Eq)]
pub struct FrameReplay {
    pub number: usize,
    pub position: usize,
    pub phases: usize,
    pub loads: [u64; 16],
    pub heaviest: usize,
    pub class_loads: [u64; 16],
}

/// The simulator's answer as the library gives it.
impl From<ReplayAnswer> for FrameReplay {
    fn from(answer: ReplayAnswer) -> FrameReplay {
        FrameReplay {
            number: answer.number as usize,
            position: answer.position,
            phases: answer.phases,
            loads: answer.loads,
            heaviest: answer.heaviest,
            class_loads: answer.class_loads,
        }
    }
}

#[repr(C)]
#[derive(Clone, Copy, Debug, PartialEq, Eq)]
pub struct FrameSchedule {
    pub number: usize,
    pub position: usize,
    pub events: usize,
}

/// The simulator's answer as the library gives it.
impl From<ScheduleAnswer> for FrameSchedule {
    fn from(answer: ScheduleAnswer) -> FrameSchedule {
        FrameSchedule { number: answer.number as usize, position: answer.position, events: answer.events }
    }
}

#[repr(C)]
#[derive(Clone, Copy, Debug, PartialEq, Eq)]
pub struct FrameSpan {
    pub number: usize,
    pub position: usize,
    pub work: u64,
    pub span: u64,
    pub length: usize,
}

/// The simulator's answer as the library gives it.
impl From<SpanAnswer> for FrameSpan {
    fn from(answer: SpanAnswer) -> FrameSpan {
        FrameSpan {
            number: answer.number as usize,
            position: answer.position,
            work: answer.work,
            span: answer.span,
            length: answer.length,
        }
    }
}

#[repr(C)]
#[derive(Clone, Copy, Debug, PartialEq, Eq)]
pub struct Histogram {
    pub traces: u32,
    pub counts: [u32; 177],
}

/// The simulator's histogram as the library has it.
impl From<frame_tests::Histogram> for Histogram {
    fn from(histogram: frame_tests::Histogram) -> Histogram {
        Histogram { traces: histogram.traces, counts: histogram.counts }
    }
}

/// The library's histogram as the simulator has it.
impl From<Histogram> for frame_tests::Histogram {
    fn from(histogram: Histogram) -> frame_tests::Histogram {
        frame_tests::Histogram { traces: histogram.traces, counts: histogram.counts }
    }
}

#[repr(C)]
#[derive(Clone, Copy, Debug, PartialEq, Eq)]
pub struct FrameAdded {
    pub replay: FrameReplay,
    pub histogram: Histogram,
}

/// The simulator's answer as the library gives it.
impl From<Added> for FrameAdded {
    fn from(answer: Added) -> FrameAdded {
        FrameAdded { replay: answer.replay.into(), histogram: answer.histogram.into() }
    }
}

mod c {
    use super::{
        FrameAdded, FrameEvent, FrameIdle, FrameOutcome, FrameRecord, FrameReplay, FrameRunning, FrameSchedule, FrameSpan,
        FrameStart, FrameTask, FrameTree, Histogram, RunState,
    };

    extern "C" {
        pub fn frame_tree(tree: *const u8, len: usize) -> FrameTree;
        pub fn frame_kind(tree: *const u8, len: usize, step: usize) -> u8;
        pub fn frame_class(tree: *const u8, len: usize, step: usize) -> u8;
        pub fn frame_weight(tree: *const u8, len: usize, step: usize) -> u32;
        pub fn frame_cont(tree: *const u8, len: usize, step: usize) -> usize;
        pub fn frame_task(tree: *const u8, len: usize, step: usize) -> FrameTask;
        pub fn frame_finish_before(tree: *const u8, len: usize, step: usize) -> usize;
        pub fn frame_running(tree: *const u8, len: usize, policy: u8, step: usize) -> FrameRunning;
        pub fn frame_start(tree: *const u8, len: usize, policy: u8, workers: u8) -> FrameStart;
        pub fn frame_event(state: RunState, tree: *const u8, len: usize, first: u8, second: u8) -> FrameEvent;
        pub fn frame_event_in_place(state: *mut RunState, tree: *const u8, len: usize, first: u8, second: u8) -> FrameOutcome;
        pub fn frame_idle(state: RunState) -> FrameIdle;
        pub fn frame_record(
            tree: *const u8,
            tree_len: usize,
            policy: u8,
            workers: u8,
            events: *const u8,
            events_len: usize,
            log: *mut u8,
            log_len: usize,
            trace: *mut u8,
            trace_len: usize,
        ) -> FrameRecord;
        pub fn frame_replay(
            tree: *const u8,
            tree_len: usize,
            policy: u8,
            workers: u8,
            trace: *const u8,
            trace_len: usize,
            list: *mut u8,
            list_len: usize,
        ) -> FrameReplay;
        pub fn frame_schedule(
            tree: *const u8,
            tree_len: usize,
            policy: u8,
            workers: u8,
            seed: u32,
            events: *mut u8,
            events_len: usize,
        ) -> FrameSchedule;
        pub fn frame_span(tree: *const u8, tree_len: usize, chain: *mut u8, chain_len: usize) -> FrameSpan;
        pub fn frame_histogram_start() -> Histogram;
        pub fn frame_histogram_add(
            histogram: Histogram,
            tree: *const u8,
            tree_len: usize,
            policy: u8,
            workers: u8,
            trace: *const u8,
            trace_len: usize,
            list: *mut u8,
            list_len: usize,
        ) -> FrameAdded;
    }
}

// Every function of the library takes any bytes and any numbers, so each call is safe with a slice's pointer and length.

pub fn tree(tree: &[u8]) -> FrameTree {
    unsafe { c::frame_tree(tree.as_ptr(), tree.len()) }
}

pub fn kind(tree: &[u8], step: usize) -> u8 {
    unsafe { c::frame_kind(tree.as_ptr(), tree.len(), step) }
}

pub fn class(tree: &[u8], step: usize) -> u8 {
    unsafe { c::frame_class(tree.as_ptr(), tree.len(), step) }
}

pub fn weight(tree: &[u8], step: usize) -> u32 {
    unsafe { c::frame_weight(tree.as_ptr(), tree.len(), step) }
}

pub fn cont(tree: &[u8], step: usize) -> usize {
    unsafe { c::frame_cont(tree.as_ptr(), tree.len(), step) }
}

pub fn task(tree: &[u8], step: usize) -> FrameTask {
    unsafe { c::frame_task(tree.as_ptr(), tree.len(), step) }
}

pub fn finish_before(tree: &[u8], step: usize) -> usize {
    unsafe { c::frame_finish_before(tree.as_ptr(), tree.len(), step) }
}

pub fn running(tree: &[u8], policy: u8, step: usize) -> FrameRunning {
    unsafe { c::frame_running(tree.as_ptr(), tree.len(), policy, step) }
}

pub fn start(tree: &[u8], policy: u8, workers: u8) -> FrameStart {
    unsafe { c::frame_start(tree.as_ptr(), tree.len(), policy, workers) }
}

pub fn event(state: RunState, tree: &[u8], first: u8, second: u8) -> FrameEvent {
    unsafe { c::frame_event(state, tree.as_ptr(), tree.len(), first, second) }
}

pub fn event_in_place(state: &mut RunState, tree: &[u8], first: u8, second: u8) -> FrameOutcome {
    unsafe { c::frame_event_in_place(state, tree.as_ptr(), tree.len(), first, second) }
}

pub fn idle(state: RunState) -> FrameIdle {
    unsafe { c::frame_idle(state) }
}

pub fn record(tree: &[u8], policy: u8, workers: u8, events: &[u8], log: &mut [u8], trace: &mut [u8]) -> FrameRecord {
    unsafe {
        c::frame_record(
            tree.as_ptr(),
            tree.len(),
            policy,
            workers,
            events.as_ptr(),
            events.len(),
            log.as_mut_ptr(),
            log.len(),
            trace.as_mut_ptr(),
            trace.len(),
        )
    }
}

pub fn replay(tree: &[u8], policy: u8, workers: u8, trace: &[u8], list: &mut [u8]) -> FrameReplay {
    unsafe {
        c::frame_replay(
            tree.as_ptr(),
            tree.len(),
            policy,
            workers,
            trace.as_ptr(),
            trace.len(),
            list.as_mut_ptr(),
            list.len(),
        )
    }
}

pub fn schedule(tree: &[u8], policy: u8, workers: u8, seed: u32, events: &mut [u8]) -> FrameSchedule {
    unsafe { c::frame_schedule(tree.as_ptr(), tree.len(), policy, workers, seed, events.as_mut_ptr(), events.len()) }
}

pub fn span(tree: &[u8], chain: &mut [u8]) -> FrameSpan {
    unsafe { c::frame_span(tree.as_ptr(), tree.len(), chain.as_mut_ptr(), chain.len()) }
}

pub fn histogram_start() -> Histogram {
    unsafe { c::frame_histogram_start() }
}

pub fn histogram_add(histogram: Histogram, tree: &[u8], policy: u8, workers: u8, trace: &[u8], list: &mut [u8]) -> FrameAdded {
    unsafe {
        c::frame_histogram_add(
            histogram,
            tree.as_ptr(),
            tree.len(),
            policy,
            workers,
            trace.as_ptr(),
            trace.len(),
            list.as_mut_ptr(),
            list.len(),
        )
    }
}
