//! A whole span call: what must precede each step, when each step ends, and the
//! chain of steps that weighs as much as the span.

use crate::record::put_u16;
use crate::tree::{Refusal, TaskKind, Tree};

/// Bytes of one step of the chain.
pub const CHAIN_BYTES: usize = 2;

/// All results of a span call. Number 0 says accepted.
#[derive(Clone, Copy, Debug, PartialEq, Eq, Default)]
pub struct SpanAnswer {
    pub number: u32,
    pub position: usize,
    /// The sum of all weights.
    pub work: u64,
    /// The latest end of a step.
    pub span: u64,
    /// How many steps the chain has.
    pub length: usize,
}

/// A set of steps, one bit for each.
#[derive(Clone, Debug, PartialEq, Eq)]
pub struct Steps {
    words: Vec<u64>,
}

impl Steps {
    /// The empty set, for a tree of so many steps.
    fn none(count: usize) -> Steps {
        Steps { words: vec![0; count.div_ceil(64)] }
    }

    fn add(&mut self, step: usize) {
        self.words[step / 64] |= 1 << (step % 64);
    }

    fn add_all(&mut self, others: &Steps) {
        for (word, other) in self.words.iter_mut().zip(&others.words) {
            *word |= other;
        }
    }

    pub fn has(&self, step: usize) -> bool {
        self.words[step / 64] >> (step % 64) & 1 == 1
    }

    /// The steps in rising order.
    pub fn list(&self) -> Vec<usize> {
        (0..64 * self.words.len()).filter(|&step| self.has(step)).collect()
    }
}

/// For each task its own steps and those of all its descendants.
fn whole_tasks(tree: &Tree) -> Vec<Steps> {
    let mut whole = vec![Steps::none(tree.count()); tree.tasks().len()];
    // A child opens after its parent, so it has the higher number.
    for (number, task) in tree.tasks().iter().enumerate().rev() {
        let mut steps = Steps::none(tree.count());
        task.steps.iter().for_each(|&step| steps.add(step));
        task.children.iter().for_each(|&child| steps.add_all(&whole[child]));
        whole[number] = steps;
    }
    whole
}

/// The step whose record opens the task; none for the root.
fn spawning_step(tree: &Tree, task: usize) -> Option<usize> {
    let parent = &tree.tasks()[tree.tasks()[task].parent?];
    parent.steps.iter().copied().find(|&step| tree.child_opened_by(step) == Some(task))
}

/// For each step those that precede it over one link: the spawning step of its
/// task, the earlier steps of the task, and every finish child that one of
/// these opened, with all its descendants.
// Reading: what follows a finish child in the task that opened it are the
// later steps of that task. The children they open follow over more links.
pub fn links(tree: &Tree) -> Vec<Steps> {
    let whole = whole_tasks(tree);
    let mut links = vec![Steps::none(tree.count()); tree.count()];
    for (number, task) in tree.tasks().iter().enumerate() {
        let mut before = Steps::none(tree.count());
        if let Some(spawning) = spawning_step(tree, number) {
            before.add(spawning);
        }
        for &step in &task.steps {
            links[step] = before.clone();
            before.add(step);
            if let Some(child) = tree.child_opened_by(step) {
                if tree.tasks()[child].kind == TaskKind::Finish {
                    before.add_all(&whole[child]);
                }
            }
        }
    }
    links
}

/// For each step all those that must precede it, over any number of links.
pub fn all_before(links: &[Steps]) -> Vec<Steps> {
    let mut all: Vec<Steps> = Vec::new();
    for linked in links {
        let mut before = linked.clone();
        // Only lower steps are linked, and theirs are known.
        for step in linked.list() {
            before.add_all(&all[step]);
        }
        all.push(before);
    }
    all
}

/// For each step when it ends: it starts when every step before it has ended,
/// and lasts its weight.
pub fn ends(tree: &Tree, before: &[Steps]) -> Vec<u64> {
    let mut ends: Vec<u64> = Vec::new();
    for step in 0..tree.count() {
        let start = before[step].list().iter().map(|&earlier| ends[earlier]).max().unwrap_or(0);
        ends.push(start + u64::from(tree.weight(step)));
    }
    ends
}

/// Steps of which each must precede the next, and the sum of their weights.
#[derive(Clone, Debug, PartialEq, Eq, Default)]
pub struct Chain {
    pub weight: u64,
    pub steps: Vec<u16>,
}

impl Chain {
    /// Whether it is taken rather than the other one: it is heavier, or as
    /// heavy and goes before it.
    // The order of lists is document 02's: the lower step at the first
    // difference, and the start of a list before the list.
    fn wins(&self, other: &Chain) -> bool {
        self.weight > other.weight || (self.weight == other.weight && self.steps < other.steps)
    }
}

/// The heaviest chain, and of equal ones the first.
pub fn heaviest_chain(tree: &Tree, before: &[Steps]) -> Chain {
    let none = Chain::default();
    // For each step the chain to take of all that begin with it: the step alone
    // or, behind it, the one to take of those that may follow.
    let mut from = vec![none.clone(); tree.count()];
    for first in (0..tree.count()).rev() {
        let mut rest = &none;
        for next in first + 1..tree.count() {
            if before[next].has(first) && from[next].wins(rest) {
                rest = &from[next];
            }
        }
        let weight = u64::from(tree.weight(first)) + rest.weight;
        from[first] = Chain { weight, steps: [&[first as u16], &rest.steps[..]].concat() };
    }
    let mut best = 0;
    for first in 1..tree.count() {
        if from[first].wins(&from[best]) {
            best = first;
        }
    }
    from.swap_remove(best)
}

fn judge(tree: &[u8], chain_bytes: usize) -> Result<Tree, Refusal> {
    let tree = Tree::parse(tree)?;
    // Reading: the room is asked for all steps, however few the chain has.
    if chain_bytes < CHAIN_BYTES * tree.count() {
        return Err(Refusal::new(7, 0));
    }
    Ok(tree)
}

/// Answers work and span, and writes the chain.
// Reading: the chain stands at the front of the buffer, its first step first;
// the bytes behind it keep what they held.
pub fn span(tree: &[u8], chain: &mut [u8]) -> SpanAnswer {
    let tree = match judge(tree, chain.len()) {
        Err(refusal) => {
            return SpanAnswer {
                number: refusal.number,
                position: refusal.position,
                ..SpanAnswer::default()
            }
        }
        Ok(tree) => tree,
    };
    let before = all_before(&links(&tree));
    let heaviest = heaviest_chain(&tree, &before);
    for (k, &step) in heaviest.steps.iter().enumerate() {
        put_u16(chain, CHAIN_BYTES * k, step.into());
    }
    SpanAnswer {
        number: 0,
        position: 0,
        work: tree.total_weight(),
        span: ends(&tree, &before).into_iter().max().expect("an accepted tree has a step"),
        length: heaviest.steps.len(),
    }
}

/// A span call with an ample buffer; hands back only the chain.
pub fn span_to_vec(tree: &[u8]) -> (SpanAnswer, Vec<u16>) {
    let mut chain = vec![0; CHAIN_BYTES * 4_095];
    let answer = span(tree, &mut chain);
    chain.truncate(CHAIN_BYTES * answer.length);
    (answer, chain.chunks(CHAIN_BYTES).map(|step| u16::from_le_bytes([step[0], step[1]])).collect())
}
