//! Work, span and chain: whole calls, on trees whose steps have weights.

use std::hint::black_box;
use std::ops::Range;

use frame_bench::cases::{
    tree, tree_of_one_kind, weighed, Shape, Way, ASYNC, COUNTS, FINISH, LARGEST, SEEDS, SHAPES, WEIGHTS,
};
use frame_bench::library::{self, FrameSpan};
use frame_bench::times::turn_by;
use frame_bench::tuned;
use frame_tests::span::{span, CHAIN_BYTES};
use frame_tests::tree::TREE_RECORD;

use crate::{instructions, measured_call, times_of, Growth, Table, CONTESTANTS};

struct SpanCase {
    tree: Vec<u8>,
    /// What the chain is written to.
    chain: Vec<u8>,
}

impl SpanCase {
    fn new(tree: Vec<u8>) -> SpanCase {
        let chain = vec![0; CHAIN_BYTES * (tree.len() / TREE_RECORD)];
        SpanCase { tree, chain }
    }

    fn steps(&self) -> usize {
        self.tree.len() / TREE_RECORD
    }

    fn tuned(&mut self) -> FrameSpan {
        tuned::span(black_box(&self.tree), &mut self.chain)
    }

    fn library(&mut self) -> FrameSpan {
        library::span(black_box(&self.tree), &mut self.chain)
    }

    fn simulator(&mut self) -> FrameSpan {
        span(black_box(&self.tree), &mut self.chain).into()
    }

    /// All three give the same answer and the same chain, and leave the bytes behind it. Gives its length.
    fn check(&mut self) -> usize {
        self.chain.fill(255);
        let want = (self.simulator(), self.chain.clone());
        for call in [SpanCase::tuned, SpanCase::library] {
            self.chain.fill(255);
            assert_eq!((call(self), &self.chain), (want.0, &want.1));
        }
        assert_eq!(want.0.number, 0);
        want.0.length
    }

    /// The mean length of the chains, and the times. The simulator has a single turn, because it takes long.
    fn times(inputs: &mut [SpanCase]) -> (usize, [f64; CONTESTANTS.len()]) {
        let length = inputs.iter_mut().map(SpanCase::check).sum::<usize>() / inputs.len();
        let units = inputs.iter().map(SpanCase::steps).sum();
        let [tuned, library] = times_of(inputs, units, [SpanCase::tuned, SpanCase::library]);
        let simulator = turn_by(1, inputs, units, |_| (), |case, ()| _ = black_box(case.simulator()));
        (length, [tuned, library, simulator])
    }
}

/// At every size so many inputs that they have as many steps in all: of few small trees a processor would learn every branch, and
/// larger ones would seem to take longer by step.
fn seeds(n: usize) -> Range<u64> {
    let largest = SEEDS.count() * LARGEST;
    SEEDS.start..SEEDS.start + (largest / n) as u64
}

fn label(shape: &str, n: usize, weights: &str, length: usize) -> String {
    format!("{shape:9}{n:>5}  {weights:10}{length:>24}")
}

fn heading(what: &str) -> Table<{ CONTESTANTS.len() }> {
    let label = format!("{:9}{:>5}  {:10}{:>24}", "shape", "n", "weights", "steps of the chain");
    Table::labelled(what, &label, CONTESTANTS)
}

pub fn table() {
    let mut table = heading("span, ns, by steps");
    let mut growth = SHAPES.map(|shape| (shape, Growth::new()));
    for n in COUNTS {
        for (shape, growth) in &mut growth {
            for weights in WEIGHTS {
                let case = |seed| SpanCase::new(weighed(weights, tree(*shape, n, seed), seed));
                let (length, times) = SpanCase::times(&mut seeds(n).map(case).collect::<Vec<_>>());
                table.labelled_line(n, &label(shape.0, n, weights.0, length), times);
                growth.add(n, times);
            }
        }
    }
    table.summary();
    for ((shape, _), growth) in growth {
        growth.print(&format!("in {shape} trees"));
    }
    println!("\nspan where all children are async children, or all finish children (any weights)");
    for (name, kind) in [("async", ASYNC), ("finish", FINISH)] {
        for shape in SHAPES {
            let case = |seed| SpanCase::new(weighed(WEIGHTS[0], tree_of_one_kind(shape, LARGEST, seed, kind), seed));
            let (length, times) = SpanCase::times(&mut SEEDS.map(case).collect::<Vec<_>>());
            table.print_labelled(&label(shape.0, LARGEST, name, length), times);
        }
    }
    println!();
}

// ---- Instructions ----

fn counted_case(shape: Shape, weights: Way) -> SpanCase {
    let seed = SEEDS.start;
    SpanCase::new(weighed(weights, tree(shape, LARGEST, seed), seed))
}

/// Makes one call on a tree of the largest count.
pub fn make_call(words: &[&str]) {
    let [contestant, shape, weights] = words else { panic!("three words, not {words:?}") };
    let shape = SHAPES.into_iter().find(|(name, _)| name == shape).expect("a shape");
    let weights = WEIGHTS.into_iter().find(|(name, _)| name == weights).expect("weights");
    let contestant = CONTESTANTS.iter().position(|name| name == contestant).expect("a contestant");
    let call = [SpanCase::tuned, SpanCase::library, SpanCase::simulator][contestant];
    let mut case = counted_case(shape, weights);
    measured_call(&mut || _ = black_box(call(&mut case)));
}

pub fn instructions_table() {
    let mut table = heading("span, instructions of a call, by steps");
    for shape in SHAPES {
        for weights in WEIGHTS {
            let length = counted_case(shape, weights).check();
            let count = |contestant| instructions(&["span", contestant, shape.0, weights.0]) / LARGEST as f64;
            table.labelled_line(LARGEST, &label(shape.0, LARGEST, weights.0, length), CONTESTANTS.map(count));
        }
    }
    table.summary();
}
