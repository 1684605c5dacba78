//! Phases, what they cover, and the loads.

use crate::tree::{Tree, CLASSES};

/// The most workers of a run.
pub const WORKERS: usize = 16;

/// One phase: whose it is, where it begins, what was stolen from it.
#[derive(Clone, Debug, PartialEq, Eq)]
pub struct Phase {
    pub worker: usize,
    pub first: usize,
    /// The steps stolen from this phase, in order of the steals.
    pub stolen: Vec<usize>,
}

impl Phase {
    pub fn new(worker: usize, first: usize) -> Phase {
        Phase { worker, first, stolen: Vec::new() }
    }

    /// For each step of the tree whether the phase covers it: its first step
    /// up to the end of that step's task, less what was stolen.
    // Reading: a steal takes away from the victim's phase what the thief's
    // phase covers at its start, the stolen step up to the end of its task.
    pub fn covers(&self, tree: &Tree) -> Vec<bool> {
        let mut covered = vec![false; tree.count()];
        for step in tree.to_end_of_task(self.first) {
            covered[step] = true;
        }
        for &stolen in &self.stolen {
            for step in tree.to_end_of_task(stolen) {
                covered[step] = false;
            }
        }
        covered
    }

    /// The phase's own load: the sum of weights of all steps it covers.
    pub fn load(&self, tree: &Tree) -> u64 {
        let covered = self.covers(tree);
        let steps = (0..tree.count()).filter(|&step| covered[step]);
        steps.map(|step| u64::from(tree.weight(step))).sum()
    }
}

/// All steps that phases cover, each with the phase's worker.
pub fn covered_steps(tree: &Tree, phases: &[Phase]) -> Vec<(usize, usize)> {
    let mut steps = Vec::new();
    for phase in phases {
        let covered = phase.covers(tree);
        for step in 0..tree.count() {
            if covered[step] {
                steps.push((phase.worker, step));
            }
        }
    }
    steps
}

/// For each worker the sum of weights of all steps its phases cover: `covered`
/// are these steps, each with its worker.
// Reading: sixteen loads, however few workers the run has; the others have no
// phase, so their loads are 0.
// Reading: in a live run too the covered steps count, also those that have
// not run yet; so the loads always add up to the weight of the whole tree.
pub fn loads(tree: &Tree, covered: &[(usize, usize)]) -> [u64; WORKERS] {
    let mut loads = [0u64; WORKERS];
    for &(worker, step) in covered {
        loads[worker] += u64::from(tree.weight(step));
    }
    loads
}

/// The worker with the greatest load, the lowest numbered among equals.
pub fn heaviest(loads: &[u64; WORKERS]) -> usize {
    let mut best = 0;
    for worker in 1..WORKERS {
        if loads[worker] > loads[best] {
            best = worker;
        }
    }
    best
}

/// For each class the sum of weights of all its steps that phases cover,
/// whichever worker's they are.
// Reading: "the class loads add up to the worker loads": the same steps count
// for both, so the two sums are equal.
pub fn class_loads(tree: &Tree, covered: &[(usize, usize)]) -> [u64; CLASSES] {
    let mut loads = [0u64; CLASSES];
    for &(_, step) in covered {
        loads[usize::from(tree.class(step))] += u64::from(tree.weight(step));
    }
    loads
}
