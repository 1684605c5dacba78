//! A whole replay call.

use std::collections::HashSet;

use crate::cover::{class_loads, covered_steps, heaviest, loads, Phase, WORKERS};
use crate::record::put_u16;
use crate::run::{worker_count, Policy};
use crate::tree::{Refusal, Tree, CLASSES};

pub const TRACE_BYTES: usize = 4;
pub const MAX_TRACE: usize = 2_047;

/// All results of a replay call. Number 0 says accepted.
#[derive(Clone, Copy, Debug, PartialEq, Eq, Default)]
pub struct ReplayAnswer {
    pub number: u32,
    pub position: usize,
    pub phases: usize,
    pub loads: [u64; WORKERS],
    pub heaviest: usize,
    pub class_loads: [u64; CLASSES],
}

impl ReplayAnswer {
    /// A refused call's answer: all other results are 0.
    pub fn refused(refusal: Refusal) -> ReplayAnswer {
        ReplayAnswer {
            number: refusal.number,
            position: refusal.position,
            ..ReplayAnswer::default()
        }
    }
}

/// The phases as the trace read so far leaves them.
#[derive(Clone, Debug)]
pub struct Replay {
    pub tree: Tree,
    pub policy: Policy,
    pub phases: Vec<Phase>,
    /// For each worker of the run its latest phase.
    pub latest: Vec<Option<usize>>,
}

impl Replay {
    /// Before the first record there is phase 0, worker 0's, from step 0.
    pub fn new(policy: Policy, workers: usize, tree: Tree) -> Replay {
        let mut latest = vec![None; workers];
        latest[0] = Some(0);
        Replay { tree, policy, phases: vec![Phase::new(0, 0)], latest }
    }

    /// Work-first: the frontier task of a phase.
    pub fn frontier(&self, phase: usize) -> usize {
        let phase = &self.phases[phase];
        match phase.stolen.last() {
            None => self.tree.task_of(phase.first),
            Some(&step) => self
                .tree
                .child_ended_before(step)
                .expect("a step of ordinal 1 or more follows a child"),
        }
    }

    /// The step that the number names in this phase; none if it breaks the
    /// rule (15).
    pub fn named_step(&self, phase: usize, number: usize) -> Option<usize> {
        match self.policy {
            Policy::WorkFirst => self.named_by_ordinal(phase, number),
            Policy::HelpFirst => self.named_by_serial(phase, number),
        }
    }

    fn named_by_ordinal(&self, phase: usize, ordinal: usize) -> Option<usize> {
        let task = self.frontier(phase);
        let phase = &self.phases[phase];
        if ordinal < 1 || ordinal > self.tree.child_count(task) {
            return None;
        }
        if phase.stolen.is_empty() && ordinal <= self.tree.ordinal(phase.first) {
            return None;
        }
        self.tree.step_of_ordinal(task, ordinal)
    }

    fn named_by_serial(&self, phase: usize, step: usize) -> Option<usize> {
        let phase = &self.phases[phase];
        // Reading: a number that is no step of the tree breaks the rule.
        if step >= self.tree.count() {
            return None;
        }
        if !self.tree.first_of_async_child(step) && self.tree.finish_child_before(step).is_none() {
            return None;
        }
        if step == phase.first {
            return None;
        }
        let covered = phase.covers(&self.tree);
        if self.tree.to_end_of_task(step).all(|s| covered[s]) {
            Some(step)
        } else {
            None
        }
    }

    /// One trace record, or the number of its refusal. A refused record
    /// changes nothing.
    pub fn steal(&mut self, thief: u8, victim: u8, number: u16) -> Result<usize, u32> {
        let (thief, victim) = (usize::from(thief), usize::from(victim));
        if thief >= self.latest.len() || victim >= self.latest.len() {
            return Err(8);
        }
        if thief == victim {
            return Err(13);
        }
        let from = match self.latest[victim] {
            None => return Err(14),
            Some(phase) => phase,
        };
        let step = match self.named_step(from, usize::from(number)) {
            None => return Err(15),
            Some(step) => step,
        };
        // Reading: the thief may have a phase that would still be running;
        // whether a schedule could do this is not judged.
        self.phases[from].stolen.push(step);
        self.latest[thief] = Some(self.phases.len());
        self.phases.push(Phase::new(thief, step));
        Ok(step)
    }

    /// The phase's steps in the order of running it alone: each stolen step
    /// dropped when pushed, no step waiting for a finish child.
    pub fn running_order(&self, phase: usize) -> Vec<usize> {
        let phase = &self.phases[phase];
        let stolen: HashSet<usize> = phase.stolen.iter().copied().collect();
        let mut order = Vec::new();
        let mut deque: Vec<usize> = Vec::new();
        let mut held = Some(phase.first);
        while let Some(step) = held {
            order.push(step);
            held = match self.policy.push_and_hold(&self.tree, step) {
                Some((pushed, next)) => {
                    if !stolen.contains(&pushed) {
                        deque.push(pushed);
                    }
                    Some(next)
                }
                None => deque.pop(),
            };
        }
        order
    }

    /// Writes the run list of a trace read to its end, and answers.
    pub fn write_and_answer(&self, run_list: &mut [u8]) -> ReplayAnswer {
        let mut at = 0;
        for phase in 0..self.phases.len() {
            for step in self.running_order(phase) {
                put_u16(run_list, at, phase);
                put_u16(run_list, at + 2, step);
                at += 4;
            }
        }
        let covered = covered_steps(&self.tree, &self.phases);
        let loads = loads(&self.tree, &covered);
        ReplayAnswer {
            number: 0,
            position: 0,
            phases: self.phases.len(),
            loads,
            heaviest: heaviest(&loads),
            class_loads: class_loads(&self.tree, &covered),
        }
    }
}

/// Reads a whole trace; `list_bytes` is the length of the lent run list.
pub fn judge_and_replay(
    policy: u8,
    workers: u8,
    tree: &[u8],
    trace: &[u8],
    list_bytes: usize,
) -> Result<Replay, Refusal> {
    let policy = Policy::parse(policy)?;
    let workers = worker_count(workers)?;
    let tree = Tree::parse(tree)?;
    if trace.len() % TRACE_BYTES != 0 || trace.len() > TRACE_BYTES * MAX_TRACE {
        return Err(Refusal::new(6, 0));
    }
    if list_bytes < 4 * tree.count() {
        return Err(Refusal::new(7, 0));
    }
    let mut replay = Replay::new(policy, workers, tree);
    for (position, record) in trace.chunks(TRACE_BYTES).enumerate() {
        let number = u16::from_le_bytes([record[2], record[3]]);
        replay
            .steal(record[0], record[1], number)
            .map_err(|refused| Refusal::new(refused, position))?;
    }
    Ok(replay)
}

/// Replays a trace and writes the run list.
pub fn replay(
    policy: u8,
    workers: u8,
    tree: &[u8],
    trace: &[u8],
    run_list: &mut [u8],
) -> ReplayAnswer {
    match judge_and_replay(policy, workers, tree, trace, run_list.len()) {
        Err(refusal) => ReplayAnswer::refused(refusal),
        Ok(replay) => replay.write_and_answer(run_list),
    }
}

/// A replay call with an ample buffer; hands back the steps of each phase,
/// as they stand in the written run list.
pub fn replay_to_vecs(
    policy: u8,
    workers: u8,
    tree: &[u8],
    trace: &[u8],
) -> (ReplayAnswer, Vec<Vec<usize>>) {
    let mut list = vec![0; 4 * 4_095];
    let answer = replay(policy, workers, tree, trace, &mut list);
    let mut phases = vec![Vec::new(); answer.phases];
    if answer.number == 0 {
        for record in list[..tree.len() / 2].chunks(4) {
            let phase = usize::from(u16::from_le_bytes([record[0], record[1]]));
            let step = usize::from(u16::from_le_bytes([record[2], record[3]]));
            phases[phase].push(step);
        }
    }
    (answer, phases)
}
