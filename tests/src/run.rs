//! The live run: its workers, their held steps, deques and phases.

use std::collections::VecDeque;

use crate::cover::{Phase, WORKERS};
use crate::tree::{Kind, Refusal, Tree};

#[derive(Clone, Copy, Debug, PartialEq, Eq)]
pub enum Policy {
    WorkFirst,
    HelpFirst,
}

impl Policy {
    /// Reads the policy byte, or refuses it with 1.
    pub fn parse(byte: u8) -> Result<Policy, Refusal> {
        match byte {
            1 => Ok(Policy::WorkFirst),
            2 => Ok(Policy::HelpFirst),
            _ => Err(Refusal::new(1, 0)),
        }
    }

    /// What running an opening step does: the step pushed, the step held.
    /// None if the step ends a task.
    pub fn push_and_hold(self, tree: &Tree, step: usize) -> Option<(usize, usize)> {
        let child = tree.child_opened_by(step)?;
        let after = tree.step_after(child);
        if self == Policy::HelpFirst && tree.kind(step) == Kind::OpenAsync {
            Some((step + 1, after))
        } else {
            Some((after, step + 1))
        }
    }

    /// The number that a trace record gives to a stolen step.
    pub fn trace_number(self, tree: &Tree, step: usize) -> usize {
        match self {
            Policy::WorkFirst => tree.ordinal(step),
            Policy::HelpFirst => step,
        }
    }
}

/// Reads the byte that says how many workers a run has, or refuses it with 16.
pub fn worker_count(byte: u8) -> Result<usize, Refusal> {
    let count = usize::from(byte);
    if (1..=WORKERS).contains(&count) {
        Ok(count)
    } else {
        Err(Refusal::new(16, 0))
    }
}

#[derive(Clone, Debug, PartialEq, Eq)]
pub struct Worker {
    /// The step it holds; none if it is idle.
    pub held: Option<usize>,
    /// Oldest step at the front, newest at the back.
    pub deque: VecDeque<usize>,
    /// Its latest phase.
    pub phase: Option<usize>,
}

/// A log record.
#[derive(Clone, Copy, Debug, PartialEq, Eq)]
pub struct LogRecord {
    pub phase: usize,
    pub step: usize,
}

/// A trace record.
#[derive(Clone, Copy, Debug, PartialEq, Eq)]
pub struct TraceRecord {
    pub thief: usize,
    pub victim: usize,
    pub number: usize,
}

/// The state of a live run.
#[derive(Clone, Debug)]
pub struct Run {
    pub tree: Tree,
    pub policy: Policy,
    /// As many as the run has.
    pub workers: Vec<Worker>,
    pub phases: Vec<Phase>,
    /// For each step whether it has run.
    pub ran: Vec<bool>,
    pub log: Vec<LogRecord>,
    pub trace: Vec<TraceRecord>,
}

impl Run {
    /// The start of a run from the policy byte, the count of workers and the
    /// tree file (1, 16, then 2 to 5).
    pub fn start(policy: u8, workers: u8, tree: &[u8]) -> Result<Run, Refusal> {
        let policy = Policy::parse(policy)?;
        let workers = worker_count(workers)?;
        let tree = Tree::parse(tree)?;
        Ok(Run::new(policy, workers, tree))
    }

    /// Worker 0 holds step 0 and that begins phase 0; the others are idle.
    pub fn new(policy: Policy, workers: usize, tree: Tree) -> Run {
        let idle = Worker { held: None, deque: VecDeque::new(), phase: None };
        let mut workers = vec![idle; workers];
        workers[0].held = Some(0);
        workers[0].phase = Some(0);
        let ran = vec![false; tree.count()];
        Run {
            tree,
            policy,
            workers,
            phases: vec![Phase::new(0, 0)],
            ran,
            log: Vec::new(),
            trace: Vec::new(),
        }
    }

    /// Whether all steps of the task and its descendants have run.
    fn all_have_run(&self, task: usize) -> bool {
        let task = &self.tree.tasks()[task];
        task.steps.iter().all(|&step| self.ran[step])
            && task.children.iter().all(|&child| self.all_have_run(child))
    }

    /// Whether the worker holds no step.
    pub fn is_idle(&self, worker: usize) -> bool {
        self.workers[worker].held.is_none()
    }

    /// Whether the worker holds a step that may not run yet.
    pub fn waits(&self, worker: usize) -> bool {
        match self.workers[worker].held {
            None => false,
            Some(step) => match self.tree.finish_child_before(step) {
                None => false,
                Some(child) => !self.all_have_run(child),
            },
        }
    }

    /// The highest step of the task and its descendants that has not run.
    fn highest_unrun(&self, task: usize) -> Option<usize> {
        let task = &self.tree.tasks()[task];
        let own = task.steps.iter().copied().filter(|&step| !self.ran[step]).max();
        let inside = task.children.iter().filter_map(|&child| self.highest_unrun(child)).max();
        own.max(inside)
    }

    /// What a holder of this step waits for, whether there is one or not: the
    /// highest step that has not run of the finish child before it and of that
    /// child's descendants.
    // Reading: a step that follows no finish child waits for nothing.
    pub fn awaited_before(&self, step: usize) -> Option<usize> {
        self.highest_unrun(self.tree.finish_child_before(step)?)
    }

    /// The step that the worker waits for; none if it may run what it holds or
    /// is idle.
    pub fn awaited(&self, worker: usize) -> Option<usize> {
        self.awaited_before(self.workers[worker].held?)
    }

    /// The number with which this event would be refused now; 0 if none.
    pub fn judge(&self, first: u8, second: u8) -> u32 {
        let (a, b) = (usize::from(first), usize::from(second));
        if a >= self.workers.len() || b >= self.workers.len() {
            return 8;
        }
        if a == b {
            if self.is_idle(a) {
                return 9;
            }
            if self.waits(a) {
                return 10;
            }
        } else {
            if !self.is_idle(a) {
                return 11;
            }
            if self.workers[b].deque.is_empty() {
                return 12;
            }
        }
        0
    }

    /// One event. A refused event changes nothing; its position is 0.
    pub fn event(&mut self, first: u8, second: u8) -> Result<(), Refusal> {
        let number = self.judge(first, second);
        if number != 0 {
            return Err(Refusal::new(number, 0));
        }
        if first == second {
            self.run_step(usize::from(first));
        } else {
            self.steal(usize::from(first), usize::from(second));
        }
        Ok(())
    }

    fn run_step(&mut self, worker: usize) {
        let me = &mut self.workers[worker];
        let step = me.held.expect("the worker holds a step");
        let phase = me.phase.expect("a holder has a phase");
        match self.policy.push_and_hold(&self.tree, step) {
            Some((pushed, held)) => {
                me.deque.push_back(pushed);
                me.held = Some(held);
            }
            None => me.held = me.deque.pop_back(),
        }
        self.ran[step] = true;
        self.log.push(LogRecord { phase, step });
    }

    fn steal(&mut self, thief: usize, victim: usize) {
        let step = self.workers[victim].deque.pop_front().expect("the deque holds a step");
        let from = self.workers[victim].phase.expect("a victim has a phase");
        self.phases[from].stolen.push(step);
        self.workers[thief].held = Some(step);
        self.workers[thief].phase = Some(self.phases.len());
        self.phases.push(Phase::new(thief, step));
        let number = self.policy.trace_number(&self.tree, step);
        self.trace.push(TraceRecord { thief, victim, number });
    }

    /// Whether every step has run.
    pub fn finished(&self) -> bool {
        self.ran.iter().all(|&ran| ran)
    }

    /// The set of idle workers; worker w is bit w.
    pub fn idle_set(&self) -> u16 {
        let mut set = 0;
        for worker in 0..self.workers.len() {
            if self.is_idle(worker) {
                set |= 1 << worker;
            }
        }
        set
    }

    /// How many workers are idle.
    pub fn idle_count(&self) -> usize {
        (0..self.workers.len()).filter(|&worker| self.is_idle(worker)).count()
    }

    /// The lowest idle worker; 16 if there is none, however many the run has.
    pub fn lowest_idle(&self) -> usize {
        (0..self.workers.len()).find(|&worker| self.is_idle(worker)).unwrap_or(16)
    }

    /// The steps that a phase has run so far, in order.
    pub fn steps_run_in(&self, phase: usize) -> Vec<usize> {
        self.log.iter().filter(|r| r.phase == phase).map(|r| r.step).collect()
    }
}
