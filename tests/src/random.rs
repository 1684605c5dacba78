//! A small generator of numbers and, from it, trees, events and traces.

use crate::cover::WORKERS;
use crate::record::MAX_EVENTS;
use crate::replay::{Replay, MAX_TRACE};
use crate::run::{Policy, Run, TraceRecord};
use crate::tree::{Tree, CLASSES, MAX_OPEN, TREE_RECORD};

/// splitmix64.
#[derive(Clone, Debug)]
pub struct Rng(u64);

impl Rng {
    pub fn new(seed: u64) -> Rng {
        Rng(seed)
    }

    pub fn next(&mut self) -> u64 {
        self.0 = self.0.wrapping_add(0x9E37_79B9_7F4A_7C15);
        let mut z = self.0;
        z = (z ^ (z >> 30)).wrapping_mul(0xBF58_476D_1CE4_E5B9);
        z = (z ^ (z >> 27)).wrapping_mul(0x94D0_49BB_1331_11EB);
        z ^ (z >> 31)
    }

    /// A number below `limit`, which is not 0.
    pub fn below(&mut self, limit: usize) -> usize {
        (self.next() % limit as u64) as usize
    }

    /// A number from `low` to `high`, both included.
    pub fn between(&mut self, low: usize, high: usize) -> usize {
        low + self.below(high - low + 1)
    }

    /// True in so many of a hundred cases.
    pub fn percent(&mut self, chance: usize) -> bool {
        self.below(100) < chance
    }

    /// One of the items.
    pub fn pick<T: Copy>(&mut self, items: &[T]) -> T {
        items[self.below(items.len())]
    }

    /// So many bytes.
    pub fn bytes(&mut self, count: usize) -> Vec<u8> {
        let words = count.div_ceil(8);
        let mut bytes: Vec<u8> = (0..words).flat_map(|_| self.next().to_le_bytes()).collect();
        bytes.truncate(count);
        bytes
    }
}

// ---- Worker counts ----

/// A count of workers from 0 to 18, mostly one that a run may have.
pub fn any_count(rng: &mut Rng) -> u8 {
    match rng.below(20) {
        0 => rng.pick(&[0, 17, 18]),
        1..=5 => WORKERS as u8,
        _ => rng.between(1, WORKERS) as u8,
    }
}

/// The count, or where no run may have it the nearest one: so events and
/// traces for a call that refuses the count are good or bad as others are.
pub fn nearest_count(count: u8) -> usize {
    usize::from(count).clamp(1, WORKERS)
}

/// A worker near the end of those that a run of so many has, or near the end
/// of those that any run can have.
pub fn worker_at_the_edge(rng: &mut Rng, count: usize) -> u8 {
    let count = count as u8;
    rng.pick(&[count - 1, count, count + 1, 15, 16, 255])
}

// ---- Seeds ----

/// A seed of the schedule maker: any, or one whose first draws are at an edge.
/// From 1,640,531,527 the sum is 2 to the power 32.
pub fn any_seed(rng: &mut Rng) -> u32 {
    let edges = [0, 1, 1_640_531_526, 1_640_531_527, 1_640_531_528, 1 << 31, u32::MAX];
    if rng.percent(30) {
        rng.pick(&edges)
    } else {
        rng.next() as u32
    }
}

// ---- Trees ----

#[derive(Clone, Copy, Debug, PartialEq, Eq)]
pub enum Shape {
    /// Each task has two children of about the same size.
    Balanced,
    /// All spawned tasks are children of the root.
    Flat,
    /// Long chains, down to 64 open tasks.
    Deep,
    /// Opens and ends in random order.
    Random,
}

pub const SHAPES: [Shape; 4] = [Shape::Balanced, Shape::Flat, Shape::Deep, Shape::Random];

/// How the weights are chosen.
#[derive(Clone, Copy, Debug, PartialEq, Eq)]
pub enum Weights {
    One,
    Zero,
    Max,
    Small,
    Mixed,
    /// 0 to 2, so that many chains weigh the same.
    Tied,
    /// 0 for nearly all steps.
    Sparse,
    /// The greatest or a few less.
    NearMax,
}

pub const WEIGHTS: [Weights; 8] = [
    Weights::One,
    Weights::Zero,
    Weights::Max,
    Weights::Small,
    Weights::Mixed,
    Weights::Tied,
    Weights::Sparse,
    Weights::NearMax,
];

/// How the classes are chosen.
#[derive(Clone, Copy, Debug, PartialEq, Eq)]
pub enum Classes {
    /// 0 for all steps, as in trees from before there were classes.
    Zero,
    /// One for all steps.
    One,
    /// Any for each step.
    Any,
    /// The same for some steps in a row.
    Rows,
}

/// One tree record of class 0.
pub fn tree_record(kind: u8, weight: u32) -> [u8; TREE_RECORD] {
    let w = weight.to_le_bytes();
    [kind, 0, 0, 0, w[0], w[1], w[2], w[3]]
}

/// A tree file of these kinds, all weights 1 and all classes 0.
pub fn tree_of_kinds(kinds: &[u8]) -> Vec<u8> {
    kinds.iter().flat_map(|&kind| tree_record(kind, 1)).collect()
}

/// A tree whose root opens so many async children, each of one step; all
/// weights 1.
pub fn flat_tree(children: usize) -> Vec<u8> {
    let mut kinds = [1, 3].repeat(children);
    kinds.push(3);
    tree_of_kinds(&kinds)
}

/// A tree whose root opens one finish child and then ends. The child's records
/// are these, which have at most 63 tasks open together.
pub fn pile(child: &[u8]) -> Vec<u8> {
    [&tree_record(2, 1), child, &tree_record(3, 1)].concat()
}

/// The tree of these kinds with these weights, all classes 0.
pub fn tree_of_weights(kinds: &[u8], weights: &[u32]) -> Vec<u8> {
    assert_eq!(kinds.len(), weights.len());
    kinds.iter().zip(weights).flat_map(|(&kind, &weight)| tree_record(kind, weight)).collect()
}

/// A tree of so many finish children, one in the other; all weights 1.
pub fn nested_finishes(depth: usize) -> Vec<u8> {
    tree_of_kinds(&[vec![2; depth], vec![3; depth + 1]].concat())
}

fn weight(rng: &mut Rng, weights: Weights) -> u32 {
    match weights {
        Weights::One => 1,
        Weights::Zero => 0,
        Weights::Max => u32::MAX,
        Weights::Small => rng.below(5) as u32,
        Weights::Mixed => match rng.below(5) {
            0 => 0,
            1 => u32::MAX,
            2 => rng.below(10) as u32,
            _ => rng.next() as u32,
        },
        Weights::Tied => rng.below(3) as u32,
        Weights::Sparse if rng.percent(90) => 0,
        Weights::Sparse => rng.between(1, 2) as u32,
        Weights::NearMax => u32::MAX - rng.below(3) as u32,
    }
}

/// Gives each whole record a weight.
pub fn set_weights(rng: &mut Rng, tree: &mut [u8], weights: Weights) {
    for record in tree.chunks_exact_mut(TREE_RECORD) {
        record[4..].copy_from_slice(&weight(rng, weights).to_le_bytes());
    }
}

/// Gives each record a class.
pub fn set_classes(rng: &mut Rng, tree: &mut [u8], classes: Classes) {
    let mut class = if classes == Classes::Zero { 0 } else { rng.below(CLASSES) };
    for record in tree.chunks_exact_mut(TREE_RECORD) {
        record[1] = class as u8;
        if classes == Classes::Any || (classes == Classes::Rows && rng.percent(20)) {
            class = rng.below(CLASSES);
        }
    }
}

/// The tree with all classes 0.
pub fn without_classes(tree: &[u8]) -> Vec<u8> {
    let mut bytes = tree.to_vec();
    bytes.chunks_exact_mut(TREE_RECORD).for_each(|record| record[1] = 0);
    bytes
}

/// true opens a child, false ends the innermost task; the root's end is left
/// out.
fn balanced(tasks: usize, out: &mut Vec<bool>) {
    if tasks == 0 {
        return;
    }
    let left = (tasks + 1) / 2;
    for part in [left, tasks - left] {
        if part > 0 {
            out.push(true);
            balanced(part - 1, out);
            out.push(false);
        }
    }
}

fn flat(tasks: usize) -> Vec<bool> {
    let mut out = Vec::new();
    for _ in 0..tasks {
        out.push(true);
        out.push(false);
    }
    out
}

fn deep(rng: &mut Rng, mut tasks: usize) -> Vec<bool> {
    let mut out = Vec::new();
    let mut open = 1;
    while tasks > 0 {
        // Down to a deep place, often the deepest, then some way up.
        let bottom = if rng.percent(60) { MAX_OPEN } else { rng.between(2, MAX_OPEN) };
        while open < bottom && tasks > 0 {
            out.push(true);
            open += 1;
            tasks -= 1;
        }
        let top = if rng.percent(30) { 1 } else { rng.between(1, open) };
        while open > top {
            out.push(false);
            open -= 1;
        }
    }
    while open > 1 {
        out.push(false);
        open -= 1;
    }
    out
}

fn wild(rng: &mut Rng, mut tasks: usize) -> Vec<bool> {
    let mut out = Vec::new();
    let mut open = 1;
    let chance = rng.between(30, 70);
    while tasks > 0 || open > 1 {
        let may_open = tasks > 0 && open < MAX_OPEN;
        if open == 1 || (may_open && rng.percent(chance)) {
            out.push(true);
            open += 1;
            tasks -= 1;
        } else {
            out.push(false);
            open -= 1;
        }
    }
    out
}

/// An accepted tree with so many spawned tasks, 0 to 2,047, hence with
/// 2 * tasks + 1 records. `finish` of a hundred children are finish children.
/// The classes are chosen in any way.
pub fn tree_with(
    rng: &mut Rng,
    shape: Shape,
    tasks: usize,
    finish: usize,
    weights: Weights,
) -> Vec<u8> {
    let mut opens = match shape {
        Shape::Balanced => {
            let mut out = Vec::new();
            balanced(tasks, &mut out);
            out
        }
        Shape::Flat => flat(tasks),
        Shape::Deep => deep(rng, tasks),
        Shape::Random => wild(rng, tasks),
    };
    opens.push(false);
    let mut bytes = Vec::new();
    for open in opens {
        let kind = if !open {
            3
        } else if rng.percent(finish) {
            2
        } else {
            1
        };
        let weight = weight(rng, weights);
        bytes.extend_from_slice(&tree_record(kind, weight));
    }
    let classes = rng.pick(&[Classes::Zero, Classes::One, Classes::Any, Classes::Rows]);
    set_classes(rng, &mut bytes, classes);
    bytes
}

/// An accepted tree of any shape with so many spawned tasks.
pub fn tree(rng: &mut Rng, tasks: usize) -> Vec<u8> {
    let shape = rng.pick(&SHAPES);
    let finish = rng.pick(&[0, 20, 50, 80, 100]);
    let weights = rng.pick(&[
        Weights::One,
        Weights::Zero,
        Weights::Max,
        Weights::Small,
        Weights::Mixed,
        Weights::Mixed,
    ]);
    tree_with(rng, shape, tasks, finish, weights)
}

/// An accepted tree of any shape with so many spawned tasks, and with weights of
/// any kind, often such that many chains weigh the same.
pub fn weighed_tree(rng: &mut Rng, tasks: usize) -> Vec<u8> {
    let shape = rng.pick(&SHAPES);
    let finish = rng.pick(&[0, 20, 50, 80, 100]);
    let weights = if rng.percent(40) { Weights::Tied } else { rng.pick(&WEIGHTS) };
    tree_with(rng, shape, tasks, finish, weights)
}

/// An accepted tree of so many spawned tasks or a few less, many of them finish
/// children: of any shape, with one around all others, or one in the other.
pub fn finish_tree(rng: &mut Rng, tasks: usize) -> Vec<u8> {
    let finish = rng.pick(&[20, 50, 80, 100]);
    let any = rng.pick(&SHAPES);
    match rng.below(10) {
        0 => nested_finishes(tasks.min(MAX_OPEN - 1)),
        1..=4 if tasks > 0 => {
            // Not too deep for the task around it.
            let flat = rng.pick(&[Shape::Balanced, Shape::Flat]);
            let shape = if tasks < MAX_OPEN { any } else { flat };
            let finish = rng.pick(&[0, finish]);
            pile(&tree_with(rng, shape, tasks - 1, finish, Weights::One))
        }
        _ => tree_with(rng, any, tasks, finish, Weights::One),
    }
}

/// A tree file with one to three damages. It may still be accepted.
pub fn damaged_tree(rng: &mut Rng, tasks: usize) -> Vec<u8> {
    let mut bytes = tree(rng, tasks);
    for _ in 0..rng.between(1, 3) {
        damage(rng, &mut bytes);
    }
    bytes
}

fn damage(rng: &mut Rng, bytes: &mut Vec<u8>) {
    let records = bytes.len() / TREE_RECORD;
    // The start of a random record, also just behind the last one.
    let any = TREE_RECORD * rng.between(0, records);
    match rng.below(12) {
        // Flip bits of one byte.
        0 => {
            if !bytes.is_empty() {
                let at = rng.below(bytes.len());
                bytes[at] ^= rng.between(1, 255) as u8;
            }
        }
        // Cut at any byte.
        1 => {
            let keep = rng.between(0, bytes.len());
            bytes.truncate(keep);
        }
        // Cut whole records.
        2 => bytes.truncate(any),
        // Append stray bytes.
        3 => {
            for _ in 0..rng.between(1, 20) {
                bytes.push(rng.next() as u8);
            }
        }
        // Append whole records.
        4 => {
            for _ in 0..rng.between(1, 4) {
                let kind = rng.pick(&[1, 2, 3, 3, 0, 4, 255]);
                bytes.extend_from_slice(&tree_record(kind, rng.next() as u32));
            }
        }
        // A wrong or another kind.
        5 => {
            if any < bytes.len() {
                bytes[any] = rng.pick(&[0, 1, 2, 3, 4, 5, 128, 255]);
            }
        }
        // A class that is none, or a non-zero byte 2 or 3.
        6 => {
            let byte = rng.between(1, 3);
            let least = if byte == 1 { CLASSES } else { 1 };
            let value = if rng.percent(30) { least } else { rng.between(least, 255) };
            if any + byte < bytes.len() {
                bytes[any + byte] = value as u8;
            }
        }
        // An extra end.
        7 => {
            let extra = tree_record(3, 7);
            bytes.splice(any..any, extra);
        }
        // A missing record.
        8 => {
            if any + TREE_RECORD <= bytes.len() {
                bytes.drain(any..any + TREE_RECORD);
            }
        }
        // A chain of 60 to 70 opened tasks, ended or not.
        9 => {
            let depth = rng.between(60, 70);
            let ended = rng.percent(50);
            let mut chain = Vec::new();
            for _ in 0..depth {
                chain.extend_from_slice(&tree_record(rng.pick(&[1, 2]), 1));
            }
            if ended {
                for _ in 0..depth {
                    chain.extend_from_slice(&tree_record(3, 1));
                }
            }
            bytes.splice(any..any, chain);
        }
        // A second tree behind it.
        10 => {
            let more = tree_record(3, 1);
            bytes.extend_from_slice(&more);
        }
        // Around the longest length, or nothing at all.
        _ => {
            if rng.percent(50) {
                let length = TREE_RECORD * rng.between(4_093, 4_098);
                while bytes.len() < length {
                    bytes.push(0);
                }
            } else {
                bytes.clear();
            }
        }
    }
}

// ---- Events ----

/// An event that was tried and the number it was refused with, 0 if none.
#[derive(Clone, Copy, Debug, PartialEq, Eq)]
pub struct Tried {
    pub event: [u8; 2],
    pub refused: u32,
}

/// How a random schedule is made.
#[derive(Clone, Copy, Debug)]
pub struct Plan {
    /// Workers 0 to workers - 1 take part.
    pub workers: usize,
    /// So many events at most.
    pub events: usize,
    /// So many of a hundred events are taken at random, good or bad.
    pub bad: usize,
    /// In so many of a hundred cases a steal is tried first.
    pub steals: usize,
}

impl Plan {
    /// For a run of so many workers, of which often all take part.
    pub fn any(rng: &mut Rng, count: usize) -> Plan {
        Plan {
            workers: if rng.percent(60) { count } else { rng.between(1, count) },
            events: MAX_EVENTS,
            bad: 0,
            steals: rng.pick(&[5, 30, 60, 95]),
        }
    }
}

/// Any event in a run of `count` workers, mostly of those that take part.
pub fn any_event(rng: &mut Rng, workers: usize, count: usize) -> [u8; 2] {
    let one = |rng: &mut Rng| match rng.below(20) {
        0 => rng.next() as u8,
        1 | 2 => worker_at_the_edge(rng, count),
        _ => rng.below(workers) as u8,
    };
    let first = one(rng);
    if rng.percent(40) {
        [first, first]
    } else {
        [first, one(rng)]
    }
}

/// An event that is accepted now, if one is found.
fn good_event(rng: &mut Rng, run: &Run, plan: &Plan) -> Option<[u8; 2]> {
    let idle: Vec<usize> = (0..plan.workers).filter(|&w| run.is_idle(w)).collect();
    let victims: Vec<usize> =
        (0..plan.workers).filter(|&w| !run.workers[w].deque.is_empty()).collect();
    if !idle.is_empty() && !victims.is_empty() && rng.percent(plan.steals) {
        return Some([rng.pick(&idle) as u8, rng.pick(&victims) as u8]);
    }
    // The first worker from a random place on that can run its step.
    let from = rng.below(plan.workers);
    for k in 0..plan.workers {
        let worker = ((from + k) % plan.workers) as u8;
        if run.judge(worker, worker) == 0 {
            return Some([worker, worker]);
        }
    }
    None
}

/// Drives the run by random events until it is finished or the plan's count
/// of events is reached. Hands back all tried events in order.
pub fn drive(rng: &mut Rng, run: &mut Run, plan: &Plan) -> Vec<Tried> {
    let mut tried = Vec::new();
    while tried.len() < plan.events && run.log.len() < run.tree.count() {
        let good = if rng.percent(plan.bad) { None } else { good_event(rng, run, plan) };
        let event = good.unwrap_or_else(|| any_event(rng, plan.workers, run.workers.len()));
        let refused = match run.event(event[0], event[1]) {
            Ok(()) => 0,
            Err(refusal) => refusal.number,
        };
        tried.push(Tried { event, refused });
    }
    tried
}

/// The bytes of all tried events.
pub fn event_bytes(tried: &[Tried]) -> Vec<u8> {
    tried.iter().flat_map(|t| t.event).collect()
}

/// The bytes of the accepted events only.
pub fn accepted_bytes(tried: &[Tried]) -> Vec<u8> {
    tried.iter().filter(|t| t.refused == 0).flat_map(|t| t.event).collect()
}

/// An event that the run refuses now, with any of 8 to 12 that one can have.
pub fn refused_event(rng: &mut Rng, run: &Run) -> [u8; 2] {
    let number = rng.between(8, 12) as u32;
    let workers = || (0..=run.workers.len() as u8 + 1).chain([15, 16, 255]);
    let all = workers().flat_map(|first| workers().map(move |second| [first, second]));
    let refused: Vec<[u8; 2]> =
        all.filter(|&[first, second]| run.judge(first, second) == number).collect();
    if refused.is_empty() {
        [16, 16]
    } else {
        rng.pick(&refused)
    }
}

/// Accepted events to the end of a run, or such a list cut short or with
/// something bad in it.
pub fn events_to_record(rng: &mut Rng, policy: Policy, count: usize, tree: &Tree) -> Vec<u8> {
    let start = Run::new(policy, count, tree.clone());
    let plan = Plan::any(rng, count);
    let tried = drive(rng, &mut start.clone(), &plan);
    let accepted = tried.iter().filter(|tried| tried.refused == 0);
    let mut list: Vec<[u8; 2]> = accepted.map(|tried| tried.event).collect();
    // Any event's place, or the one behind the last event.
    let at = rng.between(0, list.len());
    match rng.below(12) {
        0..=3 => {}
        4 | 5 => list.truncate(at),
        // An event that is refused here.
        6 | 7 => {
            let mut run = start;
            for &[first, second] in &list[..at] {
                run.event(first, second).expect("the event was accepted");
            }
            list.insert(at, refused_event(rng, &run));
        }
        // Any event more, or in place of one, or one less.
        8 => list.insert(at, any_event(rng, count, count)),
        9 if at < list.len() => list[at] = any_event(rng, count, count),
        10 if at < list.len() => {
            list.remove(at);
        }
        // Any events, or any bytes, from here on.
        _ => {
            list.truncate(at);
            let bytes = rng.percent(30);
            for _ in 0..rng.between(1, 20) {
                let any = [rng.next() as u8, rng.next() as u8];
                list.push(if bytes { any } else { any_event(rng, count, count) });
            }
        }
    }
    list.concat()
}

/// Accepted events that run a flat tree of so many children to its end, with
/// as many steals.
pub fn all_stolen(policy: Policy, children: usize) -> Vec<[u8; 2]> {
    let mut events = Vec::new();
    let mut last = 0;
    for _ in 0..children {
        if policy == Policy::WorkFirst {
            // The one opens a child, the other takes what follows it.
            let other = 1 - last;
            events.extend([[last, last], [other, last], [last, last]]);
            last = other;
        } else {
            events.extend([[0, 0], [1, 0], [1, 1]]);
        }
    }
    events.push([last, last]);
    events
}

/// Runs all that can run while these steps do not, by rounds in which every
/// idle worker steals if it can. Hands back the events.
pub fn run_all_but(run: &mut Run, kept: &[usize]) -> Vec<[u8; 2]> {
    let mut events = Vec::new();
    loop {
        let before = events.len();
        for worker in 0..run.workers.len() {
            let other = match run.workers[worker].held {
                Some(step) if kept.contains(&step) => continue,
                Some(_) => worker,
                None => run.workers.iter().position(|w| !w.deque.is_empty()).unwrap_or(worker),
            };
            let event = [worker as u8, other as u8];
            if run.event(event[0], event[1]).is_ok() {
                events.push(event);
            }
        }
        if events.len() == before {
            return events;
        }
    }
}

/// A whole event list for this tree: mostly acceptable events, some bad.
pub fn events(
    rng: &mut Rng,
    policy: Policy,
    count: usize,
    tree: &Tree,
    plan: &Plan,
) -> Vec<u8> {
    let mut run = Run::new(policy, count, tree.clone());
    event_bytes(&drive(rng, &mut run, plan))
}

// ---- Traces ----

/// The bytes of one trace record.
pub fn trace_record(thief: u8, victim: u8, number: u16) -> [u8; 4] {
    let number = number.to_le_bytes();
    [thief, victim, number[0], number[1]]
}

/// A trace of up to `most` records. Each is chosen to be accepted where a few
/// tries find such a record, and `bad` of a hundred are any record. With
/// `bad` = 0 the whole trace is accepted; one worker alone has none to steal from.
pub fn trace(
    rng: &mut Rng,
    policy: Policy,
    count: usize,
    tree: &Tree,
    most: usize,
    bad: usize,
) -> Vec<u8> {
    let mut replay = Replay::new(policy, count, tree.clone());
    let mut bytes = Vec::new();
    let workers = rng.between(2.min(count), count);
    for _ in 0..most.min(MAX_TRACE) {
        if rng.percent(bad) {
            let [thief, victim] = any_event(rng, workers, count);
            let number = match rng.below(4) {
                0 => rng.next() as u16,
                1 => rng.below(4) as u16,
                _ => rng.between(0, tree.count() + 1) as u16,
            };
            // Accepted or not, the record goes into the trace.
            let _ = replay.steal(thief, victim, number);
            bytes.extend_from_slice(&trace_record(thief, victim, number));
            continue;
        }
        let tries = if workers == 1 { 0 } else { 12 };
        for _ in 0..tries {
            let victims: Vec<usize> =
                (0..workers).filter(|&w| replay.latest[w].is_some()).collect();
            let victim = rng.pick(&victims);
            let thief = (victim + rng.between(1, workers - 1)) % workers;
            let phase = replay.latest[victim].expect("the victim has had a phase");
            let number = match policy {
                Policy::WorkFirst => rng.between(0, tree.child_count(replay.frontier(phase))),
                Policy::HelpFirst => {
                    // A step of the phase's stretch, or a near one after it.
                    let first = replay.phases[phase].first;
                    let end = tree.end_of(tree.task_of(first));
                    rng.between(first, end)
                }
            } as u16;
            if replay.steal(thief as u8, victim as u8, number).is_ok() {
                bytes.extend_from_slice(&trace_record(thief as u8, victim as u8, number));
                break;
            }
        }
    }
    bytes
}

/// Help-first: the steps behind the phase's first one that could be stolen if
/// they were alone, each with how many steps of its range are in the phase no
/// more.
fn ranges(replay: &Replay, phase: usize) -> Vec<(usize, usize)> {
    let tree = &replay.tree;
    let from = &replay.phases[phase];
    // For each step how many of those before it are not in the phase.
    let mut gone = vec![0];
    for (step, covered) in from.covers(tree).into_iter().enumerate() {
        gone.push(gone[step] + usize::from(!covered));
    }
    let may =
        |&step: &usize| tree.first_of_async_child(step) || tree.finish_child_before(step).is_some();
    let steps = tree.to_end_of_task(from.first).skip(1).filter(may);
    steps.map(|step| (step, gone[tree.end_of(tree.task_of(step)) + 1] - gone[step])).collect()
}

/// The numbers that a steal from this phase may have now.
pub fn numbers_left(replay: &Replay, phase: usize) -> Vec<u16> {
    let tree = &replay.tree;
    let from = &replay.phases[phase];
    let numbers: Vec<usize> = match replay.policy {
        Policy::WorkFirst => {
            let above = if from.stolen.is_empty() { tree.ordinal(from.first) } else { 0 };
            (above + 1..=tree.child_count(replay.frontier(phase))).collect()
        }
        Policy::HelpFirst => {
            let whole = ranges(replay, phase).into_iter().filter(|&(_, gone)| gone == 0);
            whole.map(|(step, _)| step).collect()
        }
    };
    numbers.into_iter().map(|number| number as u16).collect()
}

/// How an accepted trace is made.
#[derive(Clone, Copy, Debug)]
pub struct Steals {
    /// Workers 0 to workers - 1 take part.
    pub workers: usize,
    /// So many records at most.
    pub most: usize,
    /// In so many of a hundred cases the victim is one that has the least left
    /// to steal, and so is the thief, whose latest phase is out of reach from
    /// then on: so there are many steals.
    pub careful: usize,
    /// In so many of a hundred cases the number is the lowest there is,
    /// under help-first often the longest range.
    pub lowest: usize,
}

impl Steals {
    /// For a run of so many workers, of which often all take part.
    pub fn any(rng: &mut Rng, count: usize) -> Steals {
        Steals {
            workers: if rng.percent(60) { count } else { rng.between(2.min(count), count) },
            most: MAX_TRACE,
            careful: rng.pick(&[0, 50, 90, 100]),
            lowest: rng.pick(&[0, 50, 90, 100]),
        }
    }
}

/// An accepted trace that goes on until nothing is left to steal or the
/// plan's count of records is reached. Hardly any scheduler makes it: thieves
/// may be busy, and any number that is accepted is taken. It is accepted for
/// every count from the plan's workers on.
pub fn accepted_trace(rng: &mut Rng, policy: Policy, tree: &Tree, plan: &Steals) -> Vec<u8> {
    let mut replay = Replay::new(policy, plan.workers, tree.clone());
    // For each worker the numbers that a steal from it may have.
    let mut left = vec![Vec::new(); plan.workers];
    left[0] = numbers_left(&replay, 0);
    let mut bytes = Vec::new();
    for _ in 0..plan.most.min(MAX_TRACE) {
        let careful = rng.percent(plan.careful);
        let pick = |rng: &mut Rng, mut workers: Vec<usize>| {
            let least = workers.iter().map(|&w| left[w].len()).min()?;
            workers.retain(|&w| !careful || left[w].len() == least);
            Some(rng.pick(&workers))
        };
        let victims = (0..plan.workers).filter(|&w| !left[w].is_empty()).collect();
        let Some(victim) = pick(rng, victims) else {
            break;
        };
        let thieves = (0..plan.workers).filter(|&w| w != victim).collect();
        let Some(thief) = pick(rng, thieves) else {
            break;
        };
        let number =
            if rng.percent(plan.lowest) { left[victim][0] } else { rng.pick(&left[victim]) };
        replay.steal(thief as u8, victim as u8, number).expect("the number is left");
        bytes.extend_from_slice(&trace_record(thief as u8, victim as u8, number));
        for worker in [thief, victim] {
            let phase = replay.latest[worker].expect("both have had a phase");
            left[worker] = numbers_left(&replay, phase);
        }
    }
    bytes
}

/// The trace that a random run of the tree leaves, finished or not.
pub fn recorded_trace(rng: &mut Rng, policy: Policy, count: usize, tree: &Tree) -> Vec<u8> {
    let mut run = Run::new(policy, count, tree.clone());
    let some = rng.below(2 * tree.count());
    let plan = Plan { events: rng.pick(&[MAX_EVENTS, some]), ..Plan::any(rng, count) };
    drive(rng, &mut run, &plan);
    let record = |r: &TraceRecord| trace_record(r.thief as u8, r.victim as u8, r.number as u16);
    run.trace.iter().flat_map(record).collect()
}

/// A record that may stand behind these accepted ones or not: thief and
/// victim are in order where the run has two workers, and the number is one of
/// those that are refused for this or that reason.
pub fn doubtful_record(
    rng: &mut Rng,
    policy: Policy,
    count: usize,
    tree: &Tree,
    before: &[[u8; 4]],
) -> [u8; 4] {
    let mut replay = Replay::new(policy, count, tree.clone());
    for record in before {
        let number = u16::from_le_bytes([record[2], record[3]]);
        replay.steal(record[0], record[1], number).expect("the record is accepted");
    }
    let victims: Vec<usize> = (0..count).filter(|&w| replay.latest[w].is_some()).collect();
    let victim = rng.pick(&victims);
    let workers = count.max(2);
    let thief = (victim + rng.between(1, workers - 1)) % workers;
    let phase = replay.latest[victim].expect("the victim has had a phase");
    let from = &replay.phases[phase];
    let number = match (policy, rng.below(8)) {
        (_, 0) => rng.pick(&[0, 1, 2, 255, 256, 4_094, 4_095, 4_096, 65_534, 65_535]),
        (Policy::WorkFirst, 1) => tree.ordinal(from.first),
        (Policy::WorkFirst, 2) => tree.child_count(replay.frontier(phase)) + 1,
        (Policy::WorkFirst, _) => rng.between(0, tree.child_count(replay.frontier(phase)) + 2),
        (Policy::HelpFirst, 1) => from.first,
        (Policy::HelpFirst, 2) => tree.count() + rng.below(2),
        // A range of which something is gone, if there is one.
        (Policy::HelpFirst, 3 | 4) => {
            let parts: Vec<(usize, usize)> =
                ranges(&replay, phase).into_iter().filter(|&(_, gone)| gone > 0).collect();
            if parts.is_empty() {
                from.first
            } else {
                rng.pick(&parts).0
            }
        }
        // A step of the phase's stretch, gone or not, then any step.
        (Policy::HelpFirst, 5 | 6) => {
            rng.between(from.first, tree.end_of(tree.task_of(from.first)))
        }
        (Policy::HelpFirst, _) => rng.below(tree.count()),
    };
    trace_record(thief as u8, victim as u8, number as u16)
}

/// The record with one thing about it changed; `before` are those that stand
/// before it.
fn damaged_record(
    rng: &mut Rng,
    count: usize,
    before: &[[u8; 4]],
    record: [u8; 4],
) -> [u8; 4] {
    let [mut thief, mut victim, ..] = record;
    let mut number = u16::from_le_bytes([record[2], record[3]]);
    match rng.below(5) {
        // Bits of one byte.
        0 => {
            let mut flipped = record;
            flipped[rng.below(4)] ^= rng.between(1, 255) as u8;
            return flipped;
        }
        // The number before or behind.
        1 => number = if rng.percent(50) { number.wrapping_add(1) } else { number.wrapping_sub(1) },
        // No worker, as thief, as victim or as both.
        2 => {
            let count = count as u8;
            let high = rng.pick(&[count, count, count + 1, 16, 17, 31, 32, 128, 255]);
            let both = rng.percent(30);
            if both || rng.percent(50) {
                thief = high;
            }
            if both || thief != high {
                victim = high;
            }
        }
        // Equal workers, which the run may have or not.
        3 => {
            let edge = worker_at_the_edge(rng, count);
            thief = if rng.percent(20) { edge } else { rng.below(count) as u8 };
            victim = thief;
        }
        // A victim that has had no phase, if there is one.
        _ => {
            let had = |w: u8| w == 0 || w == thief || before.iter().any(|record| record[0] == w);
            let others: Vec<u8> = (0..count as u8).filter(|&w| !had(w)).collect();
            if !others.is_empty() {
                victim = rng.pick(&others);
            }
        }
    }
    trace_record(thief, victim, number)
}

/// An accepted trace, one of a run or one that no scheduler makes; or such a
/// trace cut short or with something bad in it.
pub fn trace_to_replay(rng: &mut Rng, policy: Policy, count: usize, tree: &Tree) -> Vec<u8> {
    let accepted = if rng.percent(30) {
        recorded_trace(rng, policy, count, tree)
    } else {
        let plan = Steals::any(rng, count);
        accepted_trace(rng, policy, tree, &plan)
    };
    let mut list: Vec<[u8; 4]> = accepted.chunks(4).map(|r| [r[0], r[1], r[2], r[3]]).collect();
    // Any record's place, or the one behind the last record.
    let at = rng.between(0, list.len());
    match rng.below(20) {
        0..=3 => {}
        4 => list.truncate(at),
        // A cut in a record.
        5 => {
            let mut bytes = list.concat();
            bytes.truncate(rng.between(0, bytes.len()));
            return bytes;
        }
        // A record that may be refused, in between or at the end.
        6..=9 => {
            let doubtful = doubtful_record(rng, policy, count, tree, &list[..at]);
            list.insert(at, doubtful);
        }
        // A damaged record, which may stand behind all others.
        10..=14 => {
            if at == list.len() {
                list.push(doubtful_record(rng, policy, count, tree, &list));
            }
            list[at] = damaged_record(rng, count, &list[..at], list[at]);
        }
        // Two records exchanged.
        15 | 16 if list.len() > 1 => {
            let (a, b) = (rng.below(list.len()), rng.below(list.len()));
            list.swap(a, b);
        }
        // A record twice, or one less.
        17 if at < list.len() => list.insert(at, list[at]),
        18 if at < list.len() => {
            list.remove(at);
        }
        // Any records, or any bytes, from here on.
        _ => {
            list.truncate(at);
            let bytes = rng.percent(30);
            for _ in 0..rng.between(1, 12) {
                let [thief, victim] = any_event(rng, count, count);
                let near = trace_record(thief, victim, rng.between(0, tree.count() + 1) as u16);
                list.push(if bytes { (rng.next() as u32).to_le_bytes() } else { near });
            }
        }
    }
    list.concat()
}

/// A tree of 2 * (spine + children) + 1 records and an accepted trace of
/// spine + children steals, most of them of long ranges. So many tasks stand
/// one in another; the innermost one, or the root, opens so many children of
/// one step, and each thief is robbed in turn of all but its first child.
pub fn robbed_in_turn(policy: Policy, spine: usize, children: usize) -> (Vec<u8>, Vec<u8>) {
    // What is stolen is the rest of a task behind a child, under help-first
    // behind a finish child.
    let child = if policy == Policy::WorkFirst { 1 } else { 2 };
    let kinds = [vec![1; spine], [child, 3].repeat(children), vec![3; spine + 1]].concat();
    let mut trace = Vec::new();
    let mut last = 0;
    for k in 1..=spine + children {
        let next = (last + 1) % WORKERS as u8;
        let (thief, number) = match policy {
            // Down the spine worker 0 loses the last step of each task and
            // keeps the rest.
            Policy::WorkFirst if k <= spine => (15, 1),
            Policy::WorkFirst => (next, k - spine),
            // Down the spine each thief takes the task in the last one's.
            Policy::HelpFirst if k <= spine => (next, k),
            Policy::HelpFirst => (next, spine + 2 * (k - spine)),
        };
        trace.extend_from_slice(&trace_record(thief, last, number as u16));
        if policy == Policy::HelpFirst || k > spine {
            last = thief;
        }
    }
    (tree_of_kinds(&kinds), trace)
}

// ---- All small trees ----

/// All trees with so many spawned tasks, all weights 1 and all classes 0.
pub fn all_trees(tasks: usize) -> Vec<Vec<u8>> {
    fn go(left: usize, open: usize, kinds: &mut Vec<u8>, out: &mut Vec<Vec<u8>>) {
        if left == 0 && open == 1 {
            let mut whole = kinds.clone();
            whole.push(3);
            out.push(tree_of_kinds(&whole));
            return;
        }
        if left > 0 {
            for kind in [1, 2] {
                kinds.push(kind);
                go(left - 1, open + 1, kinds, out);
                kinds.pop();
            }
        }
        if open > 1 {
            kinds.push(3);
            go(left, open - 1, kinds, out);
            kinds.pop();
        }
    }
    let mut out = Vec::new();
    go(tasks, 1, &mut Vec::new(), &mut out);
    out
}
