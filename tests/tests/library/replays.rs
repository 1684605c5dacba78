//! Calls of replay, and of those that do what replay does, for the tests against the simulator: random ones, large ones, and those
//! that tell which refusal wins; and what holds of every accepted call.

// A test program need not use them all.
#![allow(dead_code)]

use std::fmt;

use frame_tests::random::{
    all_stolen, any_count, any_event, damaged_tree, flat_tree, nearest_count, robbed_in_turn, trace_to_replay, tree, tree_with,
    Rng, Weights, SHAPES,
};
use frame_tests::record::record_to_vecs;
use frame_tests::replay::{MAX_TRACE, TRACE_BYTES};
use frame_tests::run::Policy;
use frame_tests::tree::{Tree, TREE_RECORD};

use crate::guarded::Guarded;
use crate::lent::put;
use crate::library::FrameReplay;
use crate::trees::trees;

/// What a replay call is given.
pub struct Call {
    pub tree: Vec<u8>,
    pub policy: u8,
    pub workers: u8,
    pub trace: Vec<u8>,
    /// The list as it is lent.
    pub list: Vec<u8>,
    /// What stands beside the list, where there is no guard page.
    pub beside: Vec<u8>,
    /// For each of the three slices whether the guard page follows it.
    pub ends: [bool; 3],
}

impl Call {
    /// A call with a list of this length.
    pub fn new(rng: &mut Rng, tree: &[u8], policy: u8, workers: u8, trace: &[u8], length: usize) -> Call {
        Call {
            tree: tree.to_vec(),
            policy,
            workers,
            trace: trace.to_vec(),
            list: rng.bytes(length),
            beside: rng.bytes(8),
            ends: [(); 3].map(|()| rng.percent(50)),
        }
    }
}

/// The bytes of list that a tree asks for.
pub fn needed(tree: &[u8]) -> usize {
    4 * (tree.len() / TREE_RECORD)
}

/// A length that is mostly enough: exact, longer, and some short.
pub fn length(rng: &mut Rng, tree: &[u8]) -> usize {
    let need = needed(tree);
    match rng.below(20) {
        0 => rng.between(0, need),
        1..=9 => need,
        _ => need + rng.between(1, 50),
    }
}

/// Two bytes as they stand in a record.
pub fn number(bytes: &[u8]) -> usize {
    usize::from(u16::from_le_bytes([bytes[0], bytes[1]]))
}

/// The list at a guard page, and what stands beside it on the other side.
pub fn lend_list<'a>(room: &'a mut Guarded, call: &Call) -> (&'a mut [u8], &'a mut [u8]) {
    if call.ends[2] {
        let lent = put(room, &[&call.beside[..], &call.list].concat(), true);
        let (beside, list) = lent.split_at_mut(call.beside.len());
        (list, beside)
    } else {
        put(room, &[&call.list[..], &call.beside].concat(), false).split_at_mut(call.list.len())
    }
}

/// The simulator's reading of a policy that is one.
pub fn policy_of(byte: u8) -> Policy {
    Policy::parse(byte).expect("the policy is one")
}

pub fn read(tree: &[u8]) -> Tree {
    Tree::parse(tree).expect("the tree is accepted")
}

// ---- What holds of an accepted call, whatever the simulator says ----

/// The phases' records follow one another, every step stands once, and the loads, by worker and by class, are those of the steps.
pub fn sound(call: &Call, got: &FrameReplay, list: &[u8], case: fmt::Arguments) {
    assert_eq!(got.phases, call.trace.len() / TRACE_BYTES + 1, "{case}");
    let weights: Vec<u64> =
        call.tree.chunks(TREE_RECORD).map(|r| u32::from_le_bytes([r[4], r[5], r[6], r[7]]).into()).collect();
    let mut stands = vec![false; weights.len()];
    let [mut loads, mut class_loads] = [[0; 16]; 2];
    let mut latest = 0;
    for (k, record) in list[..needed(&call.tree)].chunks(4).enumerate() {
        let (phase, step) = (number(record), number(&record[2..]));
        // The first is of phase 0, and no phase is empty.
        assert!(phase == latest || (k > 0 && phase == latest + 1), "{case}: phase {phase} follows phase {latest}");
        latest = phase;
        assert!(!std::mem::replace(&mut stands[step], true), "{case}: step {step} stands twice");
        let worker = if phase == 0 { 0 } else { call.trace[TRACE_BYTES * (phase - 1)] };
        loads[usize::from(worker)] += weights[step];
        class_loads[usize::from(call.tree[TREE_RECORD * step + 1])] += weights[step];
    }
    assert_eq!(latest + 1, got.phases, "{case}");
    assert!(stands.iter().all(|&stands| stands), "{case}: a step is missing");
    assert_eq!((got.loads, got.class_loads), (loads, class_loads), "{case}");
    assert_eq!(got.loads.iter().sum::<u64>(), weights.iter().sum(), "{case}");
    let heaviest = (0..16).find(|&w| loads.iter().all(|&load| load <= loads[w]));
    assert_eq!(Some(got.heaviest), heaviest, "{case}");
}

// ---- Random calls ----

/// A small tree and a trace for it, which may be refused.
pub fn small_call(rng: &mut Rng) -> Call {
    let tasks = if rng.percent(5) { rng.below(120) } else { rng.below(25) };
    let bytes = tree(rng, tasks);
    let (policy, workers) = (rng.between(1, 2) as u8, any_count(rng));
    let trace = trace_to_replay(rng, policy_of(policy), nearest_count(workers), &read(&bytes));
    let length = length(rng, &bytes);
    Call::new(rng, &bytes, policy, workers, &trace, length)
}

/// A tree that is often damaged, and a trace for it or any records, whole or not.
pub fn damaged_call(rng: &mut Rng) -> Call {
    let tasks = rng.below(20);
    let bytes = match rng.below(10) {
        0..=6 => damaged_tree(rng, tasks),
        7 => tree(rng, tasks),
        _ => {
            let len = rng.below(200);
            rng.bytes(len)
        }
    };
    let policy = rng.pick(&[1, 1, 1, 1, 2, 2, 2, 2, 0, 3, 255]);
    let workers = any_count(rng);
    let count = nearest_count(workers);
    let mut trace = match (Policy::parse(policy), Tree::parse(&bytes)) {
        (Ok(policy), Ok(tree)) => trace_to_replay(rng, policy, count, &tree),
        _ => (0..2 * rng.below(10)).flat_map(|_| any_event(rng, count, count)).collect(),
    };
    for _ in 0..rng.pick(&[0, 0, 0, 0, 1, 2, 3]) {
        trace.push(rng.next() as u8);
    }
    let length = length(rng, &bytes);
    Call::new(rng, &bytes, policy, workers, &trace, length)
}

/// A large tree of each shape in turn, under each policy in turn.
pub fn large_tree(rng: &mut Rng, seed: u64) -> (Vec<u8>, u8) {
    let shape = SHAPES[seed as usize % 4];
    let policy = 1 + (seed / 4 % 2) as u8;
    let tasks = if seed / 8 % 2 == 0 { 2_047 } else { rng.between(100, 2_047) };
    let finish = rng.pick(&[0, 20, 50, 80, 100]);
    let weights = rng.pick(&[Weights::Mixed, Weights::Mixed, Weights::Max, Weights::One]);
    (tree_with(rng, shape, tasks, finish, weights), policy)
}

/// A count of workers of whom one can steal, often the most.
pub fn some_count(rng: &mut Rng) -> u8 {
    if rng.percent(30) {
        16
    } else {
        rng.between(2, 16) as u8
    }
}

/// Flat trees with every spawned task stolen, by a run and by thieves that are robbed in turn; and the latter at the bottom of
/// a tree that is as deep as can be.
pub fn longest_traces(policy: u8) -> Vec<(Vec<u8>, Vec<u8>)> {
    let flat = flat_tree(2_047);
    let (_, _, trace) = record_to_vecs(policy, 16, &flat, &all_stolen(policy_of(policy), 2_047).concat());
    let policy = policy_of(policy);
    vec![(flat, trace), robbed_in_turn(policy, 0, 2_047), robbed_in_turn(policy, 62, 1_985)]
}

// ---- Which refusal wins ----

/// The start of a trace of S, then records that are refused with 8 and 13 to 15 there. Most have something of a higher number
/// as well. The run has six workers or more; the one that is none is at its count.
fn walked(policy: u8, none: u8) -> (Vec<[u8; 4]>, Vec<([u8; 4], usize)>) {
    let start = if policy == 2 { vec![[1, 0, 1, 0], [2, 0, 6, 0]] } else { vec![[1, 0, 1, 0], [2, 1, 2, 0]] };
    let refused = vec![
        ([none, 0, 4, 0], 8),
        ([0, none, 1, 0], 8),
        ([none, none, 1, 0], 8),
        ([200, 200, 1, 0], 8),
        ([none, 5, 1, 0], 8),
        ([255, 0, 9, 9], 8),
        ([1, 1, 1, 0], 13),
        ([5, 5, 1, 0], 13),
        ([0, 0, 9, 9], 13),
        ([5, 5, 9, 9], 13),
        ([0, 3, 1, 0], 14),
        ([3, none - 1, 9, 9], 14),
        ([3, 0, 9, 9], 15),
        ([3, 2, 6, 0], 15),
        ([3, 1, 0, 0], 15),
    ];
    (start, refused)
}

/// Traces of S with the number and the position of their refusal: whole or not, and with every two of 8 and 13 to 15, in one
/// record or in two.
fn lists(policy: u8, none: u8) -> Vec<(Vec<u8>, (usize, usize))> {
    let (start, refused) = walked(policy, none);
    let place = start.len();
    let mut lists = vec![
        (vec![], (0, 0)),
        (start.concat(), (0, 0)),
        (vec![16], (6, 0)),
        (vec![16, 16, 1], (6, 0)),
        ([start.concat(), vec![0]].concat(), (6, 0)),
        ([16; TRACE_BYTES * (MAX_TRACE + 1)].to_vec(), (6, 0)),
        ([0; TRACE_BYTES * (MAX_TRACE + 1)].to_vec(), (6, 0)),
    ];
    for &(first, number) in &refused {
        lists.push((first.to_vec(), (early(first, number), 0)));
        lists.push(([start.concat(), first.to_vec(), vec![0, 1]].concat(), (6, 0)));
        for &(second, _) in &refused {
            lists.push(([start.concat(), first.to_vec(), second.to_vec()].concat(), (number, place)));
        }
    }
    lists
}

/// The number of such a record as the first of a trace: only worker 0 has had a phase.
fn early([_, victim, ..]: [u8; 4], number: usize) -> usize {
    if number == 15 && victim != 0 {
        14
    } else {
        number
    }
}

/// All these policies, counts, trees, traces and lengths together, each with the number and the position that replay gives: the
/// first refusal in rising order, with 16 directly after 1.
pub fn each_with_its_refusal(mut each: impl FnMut(&Call, (usize, usize), fmt::Arguments)) {
    let trees = trees();
    let mut rng = Rng::new(0);
    let counts = [16, 6, 0, 17];
    for (policy, workers) in [1, 2, 0, 3, 255].into_iter().flat_map(|policy| counts.map(|workers| (policy, workers))) {
        let lists = lists(policy, if workers == 6 { 6 } else { 16 });
        for (t, (tree, of_tree)) in trees.iter().enumerate() {
            for (l, (trace, of_list)) in lists.iter().enumerate() {
                for length in [28, 40, 27, 0] {
                    let want = if ![1, 2].contains(&policy) {
                        (1, 0)
                    } else if ![6, 16].contains(&workers) {
                        (16, 0)
                    } else if of_tree.0 != 0 {
                        *of_tree
                    } else if length < 28 && of_list.0 != 6 {
                        (7, 0)
                    } else {
                        *of_list
                    };
                    let call = Call::new(&mut rng, tree, policy, workers, trace, length);
                    let case = format_args!("policy {policy}, {workers} workers, tree {t}, list {l}, {length} bytes");
                    each(&call, want, case);
                }
            }
        }
    }
}
