//! A whole record call.

use crate::cover::{class_loads, covered_steps, heaviest, loads, WORKERS};
use crate::run::Run;
use crate::tree::{Refusal, CLASSES};

pub const EVENT_BYTES: usize = 2;
pub const MAX_EVENTS: usize = 8_192;

/// All results of a record call. Number 0 says accepted.
#[derive(Clone, Copy, Debug, PartialEq, Eq, Default)]
pub struct RecordAnswer {
    pub number: u32,
    pub position: usize,
    pub log_count: usize,
    pub trace_count: usize,
    pub finished: bool,
    pub loads: [u64; WORKERS],
    pub heaviest: usize,
    pub class_loads: [u64; CLASSES],
}

/// Writes two bytes, little-endian.
pub fn put_u16(buffer: &mut [u8], at: usize, value: usize) {
    let value = u16::try_from(value).expect("the value fits two bytes");
    buffer[at..at + 2].copy_from_slice(&value.to_le_bytes());
}

fn judge_and_run(
    policy: u8,
    workers: u8,
    tree: &[u8],
    events: &[u8],
    log_bytes: usize,
    trace_bytes: usize,
) -> Result<Run, Refusal> {
    let mut run = Run::start(policy, workers, tree)?;
    if events.len() % EVENT_BYTES != 0 || events.len() > EVENT_BYTES * MAX_EVENTS {
        return Err(Refusal::new(6, 0));
    }
    // Reading: the room is asked for the whole tree, however few the events.
    let n = run.tree.count();
    if log_bytes < 4 * n || trace_bytes < 2 * (n - 1) {
        return Err(Refusal::new(7, 0));
    }
    for (position, event) in events.chunks(EVENT_BYTES).enumerate() {
        run.event(event[0], event[1])
            .map_err(|refusal| Refusal::new(refusal.number, position))?;
    }
    Ok(run)
}

/// Runs the tree under the events and writes log and trace.
// Reading: the records stand at the front of each buffer; the bytes behind
// the last record keep what they held.
pub fn record(
    policy: u8,
    workers: u8,
    tree: &[u8],
    events: &[u8],
    log: &mut [u8],
    trace: &mut [u8],
) -> RecordAnswer {
    let run = match judge_and_run(policy, workers, tree, events, log.len(), trace.len()) {
        Err(refusal) => {
            return RecordAnswer {
                number: refusal.number,
                position: refusal.position,
                ..RecordAnswer::default()
            }
        }
        Ok(run) => run,
    };
    for (k, record) in run.log.iter().enumerate() {
        put_u16(log, 4 * k, record.phase);
        put_u16(log, 4 * k + 2, record.step);
    }
    for (k, record) in run.trace.iter().enumerate() {
        trace[4 * k] = record.thief as u8;
        trace[4 * k + 1] = record.victim as u8;
        put_u16(trace, 4 * k + 2, record.number);
    }
    let covered = covered_steps(&run.tree, &run.phases);
    let loads = loads(&run.tree, &covered);
    RecordAnswer {
        number: 0,
        position: 0,
        log_count: run.log.len(),
        trace_count: run.trace.len(),
        finished: run.finished(),
        loads,
        heaviest: heaviest(&loads),
        class_loads: class_loads(&run.tree, &covered),
    }
}

/// A record call with ample buffers; hands back only the written records.
pub fn record_to_vecs(
    policy: u8,
    workers: u8,
    tree: &[u8],
    events: &[u8],
) -> (RecordAnswer, Vec<u8>, Vec<u8>) {
    let mut log = vec![0; 4 * 4_095];
    let mut trace = vec![0; 4 * 2_047];
    let answer = record(policy, workers, tree, events, &mut log, &mut trace);
    log.truncate(4 * answer.log_count);
    trace.truncate(4 * answer.trace_count);
    (answer, log, trace)
}
