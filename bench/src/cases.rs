//! The trees and the schedules that are measured.

use frame_tests::random::{accepted_bytes, drive, set_classes, set_weights, tree_of_kinds, Classes, Plan, Rng, Weights};
use frame_tests::record::MAX_EVENTS;
use frame_tests::tree::{CLASSES, MAX_OPEN, TREE_RECORD};
use frame_tests::{Run, Tree};

pub const POLICIES: [(&str, u8); 2] = [("work-first", 1), ("help-first", 2)];
/// How many workers take part in a schedule.
pub const WORKERS: [usize; 3] = [1, 4, 16];
/// The count that every call but the schedule maker's is given: whoever takes part, the run has so many.
pub const RUN_WORKERS: u8 = 16;
pub const COUNTS: [usize; 4] = [63, 255, 1_023, 4_095];
pub const LARGEST: usize = COUNTS[COUNTS.len() - 1];
pub const SHAPES: [Shape; 4] = [("balanced", balanced), ("flat", flat), ("deep", deep), RANDOM];
const RANDOM: Shape = ("random", random);
/// Of the largest count only: trees with large finish children, where thieves have to wait.
pub const WAITING_SHAPES: [Shape; 2] = [PILE, ("nested", nested)];
pub const PILE: Shape = ("pile", pile);
pub const WAYS: [Way; 2] = [("by step", by_step), ("by task", by_task)];
/// What the steps weigh where that counts.
pub const WEIGHTS: [Way; 2] = [("any", any_weights), ("sparse", sparse_weights)];

/// A case has so many inputs, which take turns: a processor foresees the branches of a single one that is repeated.
pub const SEEDS: std::ops::Range<u64> = 1..9;

/// In so many of a hundred cases an idle worker steals where it can, before anybody runs a step.
const STEALS: usize = 30;

// ---- Trees ----

/// A name, and what makes the kinds.
pub type Shape = (&'static str, fn(&mut Kinds, &mut Rng));

pub const ASYNC: u8 = 1;
pub const FINISH: u8 = 2;
const END: u8 = 3;

/// The kinds of a tree's records so far, and how many tasks are to be spawned yet.
pub struct Kinds {
    kinds: Vec<u8>,
    spawned: usize,
    left: usize,
}

impl Kinds {
    fn open_as(&mut self, kind: u8) {
        self.spawned += 1;
        self.left -= 1;
        self.kinds.push(kind);
    }

    /// Every third spawned task in serial order is a finish child, the others are async children.
    fn open(&mut self) {
        self.open_as(if self.spawned % 3 == 2 { FINISH } else { ASYNC });
    }

    fn end(&mut self) {
        self.kinds.push(END);
    }

    /// So many async children, single ends.
    fn leaves(&mut self, count: usize) {
        for _ in 0..count {
            self.open_as(ASYNC);
            self.end();
        }
    }
}

/// Each task has two children of the same size, or the first has one task more.
fn balanced(out: &mut Kinds, _: &mut Rng) {
    fn children(out: &mut Kinds, tasks: usize) {
        for part in [tasks.div_ceil(2), tasks / 2] {
            if part > 0 {
                out.open();
                children(out, part - 1);
                out.end();
            }
        }
    }
    children(out, out.left);
}

/// The root opens all tasks, single ends.
fn flat(out: &mut Kinds, _: &mut Rng) {
    while out.left > 0 {
        out.open();
        out.end();
    }
}

/// The root opens chains, each down to the most open tasks; the last chain may be shorter.
fn deep(out: &mut Kinds, _: &mut Rng) {
    while out.left > 0 {
        let chain = out.left.min(MAX_OPEN - 1);
        (0..chain).for_each(|_| out.open());
        (0..chain).for_each(|_| out.end());
    }
}

/// Opens and ends in random order, somewhat more opens while tasks are left.
fn random(out: &mut Kinds, rng: &mut Rng) {
    let mut open = 1;
    while out.left > 0 {
        if open < MAX_OPEN && (open == 1 || rng.percent(55)) {
            out.open();
            open += 1;
        } else {
            out.end();
            open -= 1;
        }
    }
    (1..open).for_each(|_| out.end());
}

/// The root opens a finish child, and that all other tasks, async leaves.
fn pile(out: &mut Kinds, _: &mut Rng) {
    out.open_as(FINISH);
    out.leaves(out.left);
    out.end();
}

/// Finish children one in another, down to the most open tasks, so that there is no room in the innermost. Each of the others
/// opens the same count of async leaves. They stand behind the finish child: under help-first a deque would have those before
/// it below its continuation, which would be stolen later.
fn nested(out: &mut Kinds, _: &mut Rng) {
    let outer = MAX_OPEN - 2;
    let leaves = (out.left - outer - 1) / outer;
    (0..=outer).for_each(|_| out.open_as(FINISH));
    out.end();
    for _ in 0..outer {
        out.leaves(leaves);
        out.end();
    }
}

/// A tree of exactly n records, all weights 1 and all classes 0. Only random trees differ by the seed.
pub fn tree((_, build): Shape, n: usize, seed: u64) -> Vec<u8> {
    let mut out = Kinds { kinds: Vec::new(), spawned: 0, left: (n - 1) / 2 };
    build(&mut out, &mut Rng::new(seed));
    out.end();
    let bytes = tree_of_kinds(&out.kinds);
    assert_eq!(Tree::parse(&bytes).expect("the tree is accepted").count(), n);
    bytes
}

/// The same where all children are of this kind.
pub fn tree_of_one_kind(shape: Shape, n: usize, seed: u64, kind: u8) -> Vec<u8> {
    let mut bytes = tree(shape, n, seed);
    bytes.chunks_exact_mut(TREE_RECORD).filter(|record| record[0] != END).for_each(|record| record[0] = kind);
    bytes
}

// ---- Classes and weights ----

/// A name, and what gives the steps of a tree their classes or their weights.
pub type Way = (&'static str, fn(&mut [u8], &mut Rng));

/// Each step has any class.
fn by_step(tree: &mut [u8], rng: &mut Rng) {
    set_classes(rng, tree, Classes::Any);
}

/// All steps of a task have one class: mostly its parent's, and in one task of ten any.
fn by_task(tree: &mut [u8], rng: &mut Rng) {
    let parsed = Tree::parse(tree).expect("the tree is accepted");
    let mut classes: Vec<u8> = Vec::new();
    for task in parsed.tasks() {
        let class = task.parent.filter(|_| !rng.percent(10)).map(|parent| classes[parent]);
        classes.push(class.unwrap_or_else(|| rng.below(CLASSES) as u8));
    }
    for (step, record) in tree.chunks_exact_mut(TREE_RECORD).enumerate() {
        record[1] = classes[parsed.task_of(step)];
    }
}

/// A random tree of the largest count whose steps have classes.
pub fn tree_with_classes((_, give): Way, seed: u64) -> Vec<u8> {
    let mut bytes = tree(RANDOM, LARGEST, seed);
    give(&mut bytes, &mut Rng::new(!seed));
    bytes
}

/// Each step has any weight.
fn any_weights(tree: &mut [u8], rng: &mut Rng) {
    for record in tree.chunks_exact_mut(TREE_RECORD) {
        record[4..].copy_from_slice(&(rng.next() as u32).to_le_bytes());
    }
}

/// Nine of ten steps have no weight and the others 1 or 2, so that many chains weigh the same.
fn sparse_weights(tree: &mut [u8], rng: &mut Rng) {
    set_weights(rng, tree, Weights::Sparse);
}

/// The tree with weights.
pub fn weighed((_, give): Way, mut tree: Vec<u8>, seed: u64) -> Vec<u8> {
    give(&mut tree, &mut Rng::new(!seed));
    tree
}

// ---- Schedules ----

/// The schedule maker's seed for an input. A draw reads the top bits, so that seeds near each other mostly make the same lists.
pub fn maker_seed(seed: u64) -> u32 {
    Rng::new(seed).next() as u32
}

/// Events by so many workers, all accepted, that finish the run from this start.
pub fn schedule(start: &Run, workers: usize, seed: u64) -> Vec<u8> {
    let plan = Plan { workers, events: MAX_EVENTS, bad: 0, steals: STEALS };
    let mut run = start.clone();
    let tried = drive(&mut Rng::new(seed), &mut run, &plan);
    assert!(run.finished(), "the run is finished");
    accepted_bytes(&tried)
}
