//! Work, span and chain over the C interface: against the simulator, every answer and every byte of the buffer, which holds random
//! bytes when it is lent; and against all chains of all small trees. Each slice lies before or behind a guard page. A failure
//! names its seed.

#[path = "library/chains.rs"]
mod chains;
#[path = "library/classes.rs"]
mod classes;
#[path = "library/guarded.rs"]
mod guarded;
#[path = "library/lent.rs"]
mod lent;
mod library;
#[path = "library/spans.rs"]
mod spans;
#[path = "library/stack.rs"]
mod stack;
#[path = "library/trees.rs"]
mod trees;

use std::fmt;

use chains::{all_chains, first_heaviest};
use frame_tests::random::{
    all_trees, damaged_tree, finish_tree, set_weights, tree_of_kinds, tree_of_weights, tree_with, weighed_tree, without_classes,
    Rng, Weights, SHAPES, WEIGHTS,
};
use frame_tests::span;
use guarded::Guarded;
use lent::{about_to_call, put, same_bytes};
use library::FrameSpan;
use trees::trees;

/// What a span call is given.
struct Call {
    tree: Vec<u8>,
    /// The buffer for the chain as it is lent.
    chain: Vec<u8>,
    /// For each of the two slices whether the guard page follows it.
    ends: [bool; 2],
}

impl Call {
    /// A call with a buffer of this length.
    fn new(rng: &mut Rng, tree: &[u8], length: usize) -> Call {
        Call { tree: tree.to_vec(), chain: rng.bytes(length), ends: [(); 2].map(|()| rng.percent(50)) }
    }
}

/// The bytes that a tree asks for: 2 for each step.
fn needed(tree: &[u8]) -> usize {
    2 * (tree.len() / 8)
}

/// A length that is mostly enough: exact, longer, and some short.
fn length(rng: &mut Rng, tree: &[u8]) -> usize {
    let need = needed(tree);
    match rng.below(20) {
        0 => rng.between(0, need),
        1 => need.saturating_sub(rng.between(1, 3)),
        2..=10 => need,
        _ => need + rng.between(1, 50),
    }
}

/// The steps that the bytes are.
fn steps_of(bytes: &[u8]) -> Vec<u16> {
    bytes.chunks(2).map(|step| u16::from_le_bytes([step[0], step[1]])).collect()
}

fn weights_of(tree: &[u8]) -> Vec<u64> {
    tree.chunks(8).map(|record| u32::from_le_bytes([record[4], record[5], record[6], record[7]]).into()).collect()
}

/// What holds of every accepted call, found from the answer, the chain and the weights alone.
fn sound(tree: &[u8], got: FrameSpan, chain: &[u16], case: fmt::Arguments) {
    let weights = weights_of(tree);
    assert_eq!((got.number, got.position), (0, 0), "{case}");
    assert_eq!(got.work, weights.iter().sum::<u64>(), "{case}");
    assert!(got.span <= got.work && got.work <= weights.len() as u64 * got.span, "{case}: {got:?}");
    assert_eq!(chain.iter().map(|&step| weights[usize::from(step)]).sum::<u64>(), got.span, "{case}");
    assert!(chain.windows(2).all(|pair| pair[0] < pair[1]), "{case}: {chain:?}");
    // Step 0 precedes all others, and where no weight is left the chain ends.
    assert_eq!(chain[0], 0, "{case}");
    assert!(chain.len() == 1 || weights[usize::from(chain[chain.len() - 1])] > 0, "{case}: {chain:?}");
}

/// How often the calls met each case.
#[derive(Default, Debug)]
struct Seen {
    /// By number; 0 is accepted.
    numbers: [usize; 8],
    /// Chains with a step of weight 0.
    with_zero: usize,
    /// Chains behind which steps were left that the last one precedes.
    stopped: usize,
}

/// The library beside the simulator.
struct Both {
    rooms: [Guarded; 2],
    seen: Seen,
}

impl Both {
    fn new() -> Both {
        Both { rooms: [(); 2].map(|()| Guarded::new(45_000)), seen: Seen::default() }
    }

    /// Both sides give the same answer and leave the same bytes.
    fn same(&mut self, call: &Call, case: fmt::Arguments) -> FrameSpan {
        let mut chain = call.chain.clone();
        let want = FrameSpan::from(span(&call.tree, &mut chain));
        let [a, b] = &mut self.rooms;
        let lent_tree = put(a, &call.tree, call.ends[0]);
        let lent_chain = put(b, &call.chain, call.ends[1]);
        about_to_call(case);
        let got = library::span(lent_tree, lent_chain);
        assert_eq!(got, want, "{case}");
        same_bytes(lent_chain, &chain, "chain", case);
        same_bytes(lent_tree, &call.tree, "tree", case);
        self.seen.numbers[got.number] += 1;
        if got.number == 0 {
            let chain = steps_of(&lent_chain[..2 * got.length]);
            sound(&call.tree, got, &chain, case);
            self.count(&call.tree, &chain);
        }
        got
    }

    fn count(&mut self, tree: &[u8], chain: &[u16]) {
        let last = usize::from(chain[chain.len() - 1]);
        let zero = |&step: &u16| tree[8 * usize::from(step) + 4..][..4] == [0; 4];
        self.seen.with_zero += usize::from(chain.iter().any(zero));
        // A step that opens a child precedes the child's first.
        self.seen.stopped += usize::from(tree[8 * last] != 3);
    }

    /// As above, with this number and position.
    fn numbered(&mut self, call: &Call, want: (usize, usize), case: fmt::Arguments) {
        let got = self.same(call, case);
        assert_eq!((got.number, got.position), want, "{case}");
    }
}

/// The library's answer and chain, with a buffer of the length asked for.
fn chain_of(tree: &[u8]) -> (FrameSpan, Vec<u16>) {
    let mut chain = vec![0; needed(tree)];
    let got = library::span(tree, &mut chain);
    (got, steps_of(&chain[..2 * got.length]))
}

// ---- Random calls ----

#[test]
fn small_calls() {
    let mut both = Both::new();
    for seed in 0..40_000 {
        let mut rng = Rng::new(seed);
        let tasks = if rng.percent(3) { rng.below(120) } else { rng.below(25) };
        let bytes = weighed_tree(&mut rng, tasks);
        let length = length(&mut rng, &bytes);
        let call = Call::new(&mut rng, &bytes, length);
        both.same(&call, format_args!("seed {seed}"));
    }
    let seen = both.seen;
    assert!(seen.numbers[0] > 30_000 && seen.numbers[7] > 2_000, "{seen:?}");
    assert!(seen.with_zero > 10_000 && seen.stopped > 1_000, "{seen:?}");
}

/// Every kind of weights for the longest tree of every shape, and for some shorter ones.
#[test]
fn large_trees() {
    let mut both = Both::new();
    for seed in 0..32 {
        let mut rng = Rng::new(seed);
        let (shape, weights) = (SHAPES[seed as usize % 4], WEIGHTS[seed as usize / 4]);
        let tasks = if rng.percent(50) { 2_047 } else { rng.between(100, 2_047) };
        let finish = rng.pick(&[0, 20, 50, 80, 100]);
        let bytes = tree_with(&mut rng, shape, tasks, finish, weights);
        let length = needed(&bytes) + rng.pick(&[0, 0, 1, 100]);
        let call = Call::new(&mut rng, &bytes, length);
        both.numbered(&call, (0, 0), format_args!("seed {seed}"));
    }
}

/// Many finish children, with one around all others, or one in the other.
#[test]
fn piles_and_nested_finishes() {
    let mut both = Both::new();
    for seed in 0..10_000 {
        let mut rng = Rng::new(seed);
        let tasks = if rng.percent(5) { rng.below(120) } else { rng.below(20) };
        let mut bytes = finish_tree(&mut rng, tasks);
        let weights = rng.pick(&[Weights::One, Weights::Tied, Weights::Sparse, Weights::Mixed]);
        set_weights(&mut rng, &mut bytes, weights);
        let length = needed(&bytes);
        let call = Call::new(&mut rng, &bytes, length);
        both.numbered(&call, (0, 0), format_args!("seed {seed}"));
    }
}

#[test]
fn damaged_trees_and_odd_lengths() {
    let mut both = Both::new();
    for seed in 0..60_000 {
        let mut rng = Rng::new(seed);
        let tasks = rng.below(20);
        let bytes = match rng.below(10) {
            0..=7 => damaged_tree(&mut rng, tasks),
            8 => weighed_tree(&mut rng, tasks),
            _ => {
                let len = rng.below(200);
                rng.bytes(len)
            }
        };
        let length = length(&mut rng, &bytes);
        let call = Call::new(&mut rng, &bytes, length);
        let got = both.same(&call, format_args!("seed {seed}"));
        // The tree alone is refused with 2 to 5 alike, and with nothing else.
        let alone = library::tree(&bytes);
        let want = if got.number == 7 { (0, 0) } else { (got.number, got.position) };
        assert_eq!((alone.number, alone.position), want, "seed {seed}");
    }
    let seen = both.seen;
    assert!([0, 2, 3, 4, 5, 7].iter().all(|&number| seen.numbers[number] > 500), "{seen:?}");
}

/// Byte 1 is a class from 0 to 15, bytes 2 and 3 are 0.
#[test]
fn every_class_byte() {
    let mut both = Both::new();
    for seed in 0..20 {
        let mut rng = Rng::new(seed);
        let tasks = rng.below(12);
        let bytes = weighed_tree(&mut rng, tasks);
        for (k, (bytes, want)) in classes::every_byte(&mut rng, &bytes).into_iter().enumerate() {
            let call = Call::new(&mut rng, &bytes, needed(&bytes));
            both.numbered(&call, want, format_args!("seed {seed}, tree {k}"));
        }
    }
    for (tree, want) in classes::trees() {
        let call = Call::new(&mut Rng::new(0), &tree, needed(&tree));
        both.numbered(&call, want, format_args!("{tree:?}"));
    }
}

/// Neither work nor span nor the chain depends on the classes.
#[test]
fn classes_change_nothing() {
    let mut changed = 0;
    for seed in 0..20_000 {
        let mut rng = Rng::new(seed);
        let tasks = if rng.percent(1) { rng.below(2_048) } else { rng.below(25) };
        let bytes = weighed_tree(&mut rng, tasks);
        let old = without_classes(&bytes);
        assert!(chain_of(&bytes) == chain_of(&old), "seed {seed}: another answer");
        changed += usize::from(bytes != old);
    }
    assert!(changed > 10_000, "{changed}");
}

// ---- Lengths ----

/// Every length for a small tree, and those near the one asked for and near the chain's own for a large one.
#[test]
fn buffers_of_all_lengths() {
    let mut both = Both::new();
    for seed in 0..300 {
        let mut rng = Rng::new(seed);
        let large = seed < 4;
        let tasks = if large { 2_000 + rng.below(48) } else { rng.below(16) };
        let bytes = weighed_tree(&mut rng, tasks);
        let need = needed(&bytes);
        let lengths: Vec<usize> = if large {
            let own = 2 * chain_of(&bytes).0.length;
            vec![0, 1, own - 1, own, need - 2, need - 1, need, need + 1, need + 1_000]
        } else {
            (0..need + 6).collect()
        };
        for length in lengths {
            let call = Call::new(&mut rng, &bytes, length);
            let number = if length < need { 7 } else { 0 };
            both.numbered(&call, (number, 0), format_args!("seed {seed}, buffer of {length} bytes"));
        }
    }
}

// ---- Which refusal wins ----

/// All these trees and lengths together: 2, 3 to 5, 7, the first of them.
#[test]
fn the_first_refusal_wins() {
    let mut both = Both::new();
    let mut rng = Rng::new(0);
    for (t, (tree, of_tree)) in trees().iter().enumerate() {
        // Those that are accepted ask for 14 bytes. Each other one gets its own length too, short and not.
        let own = needed(tree);
        for length in [14, 15, 28, 13, 12, 10, 1, 0, own, own + 1, own.saturating_sub(1)] {
            let want = if of_tree.0 == 0 && length < 14 { (7, 0) } else { *of_tree };
            let call = Call::new(&mut rng, tree, length);
            both.numbered(&call, want, format_args!("tree {t}, buffer of {length} bytes"));
        }
    }
    let seen = both.seen.numbers;
    assert!([0, 2, 3, 4, 5, 7].iter().all(|&number| seen[number] > 0), "{seen:?}");
}

// ---- The same call again ----

/// An answer depends on nothing but the tree: not on the bytes that were lent, on the buffer's length or on the calls before.
#[test]
fn the_same_call_twice() {
    let trees: Vec<_> = (0..2_000)
        .map(|seed| {
            let mut rng = Rng::new(seed);
            let tasks = if rng.percent(2) { rng.below(2_048) } else { rng.below(40) };
            weighed_tree(&mut rng, tasks)
        })
        .collect();
    let found = |fill: u8, more: usize, tree: &Vec<u8>| {
        let mut chain = vec![fill; needed(tree) + more];
        let got = library::span(tree, &mut chain);
        assert!(chain[2 * got.length..].iter().all(|&byte| byte == fill), "{got:?}");
        chain.truncate(2 * got.length);
        (got, chain)
    };
    let first: Vec<_> = trees.iter().map(|tree| found(0, 0, tree)).collect();
    let again: Vec<_> = trees.iter().rev().map(|tree| found(0xFF, 7, tree)).collect();
    for (seed, (one, other)) in first.iter().zip(again.iter().rev()).enumerate() {
        assert!(one == other, "seed {seed}: another answer");
    }
}

// ---- The greatest trees ----

const MOST: u64 = u32::MAX as u64;

/// Names and kinds of trees, each with its chain where all weights are equal.
fn greatest_trees() -> Vec<(&'static str, Vec<u8>, Vec<u16>)> {
    let flat = |kind| [[kind, 3].repeat(2_047), vec![3]].concat();
    let deep = |kind: u8| [vec![kind; 63], vec![3; 64]].concat();
    // 63 tasks one in another, and in the last of them children of one step; the tree has 4,095 steps.
    let deep_and_flat = |kind: u8, child: u8| [vec![kind; 62], [child, 3].repeat(1_985), vec![3; 63]].concat();
    let all = |steps: u16| (0..steps).collect::<Vec<u16>>();
    vec![
        // The last child ends when the root does, and its step is the lower.
        ("async children", flat(1), [(0..=4_092).step_by(2).collect(), vec![4_093]].concat()),
        ("finish children", flat(2), all(4_095)),
        // Down to the innermost task, which no step waits for.
        ("async children one in another", deep(1), all(64)),
        ("finish children one in another", deep(2), all(127)),
        ("deep, async children", deep_and_flat(1, 1), [all(62), (62..=4_030).step_by(2).collect(), vec![4_031]].concat()),
        ("deep, finish children", deep_and_flat(1, 2), all(4_033)),
        // Each finish child around them waits for the last child, or as long for its own end.
        (
            "finish children around async children",
            deep_and_flat(2, 1),
            [all(62), (62..=4_030).step_by(2).collect(), vec![4_031], (4_033..4_095).collect()].concat(),
        ),
        ("all finish children", deep_and_flat(2, 2), all(4_095)),
    ]
}

#[test]
fn the_greatest_sums() {
    let mut both = Both::new();
    for (name, kinds, chain) in greatest_trees() {
        let n = kinds.len();
        for weight in [1, u32::MAX - 1, u32::MAX] {
            let tree = tree_of_weights(&kinds, &vec![weight; n]);
            let want = FrameSpan {
                number: 0,
                position: 0,
                work: n as u64 * u64::from(weight),
                span: chain.len() as u64 * u64::from(weight),
                length: chain.len(),
            };
            assert!(chain_of(&tree) == (want, chain.clone()), "{name}, weight {weight}");
        }
        let call = Call::new(&mut Rng::new(0), &tree_of_weights(&kinds, &vec![u32::MAX; n]), 2 * n);
        both.numbered(&call, (0, 0), format_args!("{name}"));
    }
    assert_eq!(greatest_trees().iter().filter(|(_, kinds, _)| kinds.len() == 4_095).count(), 6);
    // All weights in one chain: the greatest work and the greatest span that a tree can have.
    let (_, kinds, _) = &greatest_trees()[1];
    let got = chain_of(&tree_of_weights(kinds, &[u32::MAX; 4_095])).0;
    assert_eq!((got.work, got.span), (4_095 * MOST, 4_095 * MOST));
}

/// One step alone has a weight: the chain ends with it.
#[test]
fn one_heavy_step() {
    let mut both = Both::new();
    for seed in 0..3_000 {
        let mut rng = Rng::new(seed);
        let tasks = rng.below(30);
        let mut bytes = weighed_tree(&mut rng, tasks);
        set_weights(&mut rng, &mut bytes, Weights::Zero);
        let heavy = rng.below(bytes.len() / 8);
        bytes[8 * heavy + 4..][..4].copy_from_slice(&[255; 4]);
        let call = Call::new(&mut rng, &bytes, needed(&bytes));
        let got = both.same(&call, format_args!("seed {seed}"));
        assert_eq!((got.work, got.span), (MOST, MOST), "seed {seed}");
        assert_eq!(chain_of(&bytes).1.last(), Some(&(heavy as u16)), "seed {seed}");
    }
}

// ---- All chains of all small trees ----

/// The trees of so many spawned tasks, as kinds, each with all its chains.
fn trees_and_chains(tasks: usize) -> Vec<(Vec<u8>, Vec<Vec<u16>>)> {
    let kinds = |tree: &Vec<u8>| tree.chunks(8).map(|record| record[0]).collect();
    let trees: Vec<Vec<u8>> = all_trees(tasks).iter().map(kinds).collect();
    // As many as there are ways to open and end so many tasks, times 2 kinds of each.
    assert_eq!(trees.len(), [1, 2, 8, 40, 224, 1_344][tasks]);
    let with_chains = |kinds: Vec<u8>| {
        let chains = all_chains(&kinds);
        (kinds, chains)
    };
    trees.into_iter().map(with_chains).collect()
}

/// The library's answer on these weights is the first of the heaviest chains.
fn same_as_all_chains(kinds: &[u8], chains: &[Vec<u16>], weights: &[u32]) {
    let tree = tree_of_weights(kinds, weights);
    let (span, chain) = first_heaviest(chains, weights);
    let work = weights.iter().map(|&weight| u64::from(weight)).sum();
    let want = FrameSpan { number: 0, position: 0, work, span, length: chain.len() };
    let (got, found) = chain_of(&tree);
    assert!(got == want && found == chain, "{kinds:?} {weights:?}: {got:?} {found:?}, not {want:?} {chain:?}");
    let n = kinds.len() as u64;
    assert!(got.span <= got.work && got.work <= n * got.span, "{kinds:?} {weights:?}: {got:?}");
}

/// Every weight vector of this length with weights below `limit`.
fn all_weights(length: usize, limit: u32) -> impl Iterator<Item = Vec<u32>> {
    (0..limit.pow(length as u32)).map(move |k| (0..length as u32).map(|at| k / limit.pow(at) % limit).collect())
}

#[test]
fn all_trees_and_weights_to_seven_steps() {
    for tasks in 0..=3 {
        for (kinds, chains) in trees_and_chains(tasks) {
            for weights in all_weights(kinds.len(), 3) {
                same_as_all_chains(&kinds, &chains, &weights);
            }
        }
    }
}

#[test]
fn all_trees_and_weights_of_nine_steps() {
    for (kinds, chains) in trees_and_chains(4) {
        for weights in all_weights(kinds.len(), 3) {
            same_as_all_chains(&kinds, &chains, &weights);
        }
    }
}

/// With some weights: up to 2, up to 9, and around the greatest.
#[test]
fn all_trees_of_eleven_steps() {
    let mut rng = Rng::new(0);
    for (kinds, chains) in trees_and_chains(5) {
        for k in 0..60 {
            let least = [0, 0, u32::MAX - 2][k % 3];
            let most = [2, 9, 2][k % 3];
            let weights: Vec<u32> = kinds.iter().map(|_| least + rng.between(0, most) as u32).collect();
            same_as_all_chains(&kinds, &chains, &weights);
        }
    }
}

// ---- Worked cases ----

#[test]
fn worked_cases_of_work_and_span() {
    for (kinds, weights, work, span, chain) in spans::CASES {
        let case = format!("{kinds:?}, weights {weights:?}");
        let mut lent = vec![0xEE; 2 * kinds.len() + 3];
        let got = library::span(&tree_of_weights(kinds, weights), &mut lent);
        assert_eq!(got, FrameSpan { number: 0, position: 0, work, span, length: chain.len() }, "{case}");
        assert_eq!(steps_of(&lent[..2 * chain.len()]), chain, "{case}");
        assert!(lent[2 * chain.len()..].iter().all(|&byte| byte == 0xEE), "{case}");
    }
    for (kinds, room, want) in spans::ROOM {
        let case = format!("{kinds:?}, {room} bytes");
        let mut lent = vec![0xEE; room];
        let got = library::span(&tree_of_kinds(kinds), &mut lent);
        assert_eq!((got.number, got.position), want, "{case}");
        let refused = FrameSpan { number: want.0, position: want.1, work: 0, span: 0, length: 0 };
        assert!(got.number == 0 || got == refused && lent == vec![0xEE; room], "{case}: {got:?}");
    }
}

/// Two bytes for a step above 255, the low one first.
#[test]
fn bytes_of_a_high_step() {
    // Only step 4,093, the last child, has a weight; the root's steps before it are even.
    let mut weights = vec![0; 4_095];
    weights[4_093] = 1;
    let tree = tree_of_weights(&[[1, 3].repeat(2_047), vec![3]].concat(), &weights);
    let mut lent = vec![0xEE; 2 * 4_095];
    let got = library::span(&tree, &mut lent);
    assert_eq!(got, FrameSpan { number: 0, position: 0, work: 1, span: 1, length: 2_048 });
    // Steps 256 and 4,093.
    assert_eq!(lent[2 * 128..][..2], [0x00, 0x01]);
    assert_eq!(lent[2 * 2_047..][..3], [0xFD, 0x0F, 0xEE]);
}

#[test]
fn empty_slices() {
    let refused = |number| FrameSpan { number, position: 0, work: 0, span: 0, length: 0 };
    assert_eq!(library::span(&[], &mut []), refused(2));
    assert_eq!(library::span(&[], &mut [0xEE; 2]), refused(2));
    assert_eq!(library::span(&tree_of_kinds(&[3]), &mut []), refused(7));
}

// ---- Stack ----

/// The most stack that a call may use.
const MOST_STACK: usize = 96 * 1_024;

fn stack_of(tree: &[u8]) -> usize {
    let mut chain = vec![0; needed(tree)];
    let mut number = usize::MAX;
    let used = stack::used_by(&mut || number = library::span(tree, &mut chain).number);
    assert_eq!(number, 0);
    used
}

#[test]
fn stack_of_a_call() {
    for (name, kinds, _) in greatest_trees() {
        let used = stack_of(&tree_of_kinds(&kinds));
        assert!(used <= MOST_STACK, "{name}: {used} bytes");
    }
    for seed in 0..16 {
        let mut rng = Rng::new(seed);
        let finish = rng.pick(&[0, 30, 70, 100]);
        let bytes = tree_with(&mut rng, SHAPES[seed as usize % 4], 2_047, finish, Weights::Mixed);
        let used = stack_of(&bytes);
        assert!(used <= MOST_STACK, "seed {seed}: {used} bytes");
    }
}

/// The stack grows with the tasks that are open together, at most 64, and not with the children of a task: a function that called
/// itself for the next child would be 2,047 deep in a flat tree.
#[test]
fn stack_by_open_tasks() {
    let one = stack_of(&tree_of_kinds(&[3]));
    for kind in [1, 2] {
        let flat = stack_of(&tree_of_kinds(&[[kind, 3].repeat(2_047), vec![3]].concat()));
        assert!(flat <= one + 512, "flat {flat}, one step {one}");
        let deep = stack_of(&tree_of_kinds(&[vec![kind; 63], vec![3; 64]].concat()));
        assert!(deep > flat && deep <= one + 64 * 160, "deep {deep}, one step {one}");
    }
}
