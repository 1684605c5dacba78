//! Schedules over the C interface against the simulator: every answer and every byte of the list, which holds random bytes when
//! it is lent. Each list that is made is then recorded and replayed by the library. Each slice lies before or behind a guard
//! page. A failure names its seed.

#[path = "library/classes.rs"]
mod classes;
#[path = "library/guarded.rs"]
mod guarded;
#[path = "library/lent.rs"]
mod lent;
mod library;
#[path = "library/schedules.rs"]
mod schedules;
#[path = "library/stack.rs"]
mod stack;
#[path = "library/trees.rs"]
mod trees;

use std::fmt;

use frame_tests::random::{
    all_trees, any_count, any_seed, damaged_tree, finish_tree, flat_tree, nested_finishes, pile, tree, tree_of_kinds, tree_with,
    without_classes, Rng, Shape, Weights, SHAPES,
};
use frame_tests::run::Run;
use frame_tests::schedule::Maker;
use frame_tests::{record, replay, schedule};
use guarded::Guarded;
use lent::{about_to_call, put, same_bytes};
use library::{FrameRecord, FrameReplay, FrameSchedule};
use trees::trees;

/// What a schedule call is given.
struct Call {
    tree: Vec<u8>,
    policy: u8,
    workers: u8,
    seed: u32,
    /// The list as it is lent.
    events: Vec<u8>,
    /// For each of the two slices whether the guard page follows it.
    ends: [bool; 2],
}

impl Call {
    /// A call with a list of this length.
    fn new(rng: &mut Rng, tree: &[u8], policy: u8, workers: u8, seed: u32, length: usize) -> Call {
        Call {
            tree: tree.to_vec(),
            policy,
            workers,
            seed,
            events: rng.bytes(length),
            ends: [(); 2].map(|()| rng.percent(50)),
        }
    }
}

/// The bytes of events that a tree asks for: 2 for each of n + (n - 1) / 2.
fn needed(tree: &[u8]) -> usize {
    (3 * (tree.len() / 8)).saturating_sub(1)
}

/// A length that is mostly enough: exact, longer, and some short.
fn length(rng: &mut Rng, tree: &[u8]) -> usize {
    let need = needed(tree);
    match rng.below(20) {
        0 => rng.between(0, need),
        1 => need.saturating_sub(rng.between(1, 3)),
        2..=10 => need,
        _ => need + rng.between(1, 50),
    }
}

/// How often the calls met each case.
#[derive(Default, Debug)]
struct Seen {
    /// By number; 0 is accepted.
    numbers: [usize; 17],
    steals: usize,
    /// Lists in which every spawned task is stolen.
    full: usize,
}

/// The library beside the simulator.
struct Both {
    rooms: [Guarded; 2],
    seen: Seen,
}

impl Both {
    fn new() -> Both {
        Both { rooms: [(); 2].map(|()| Guarded::new(45_000)), seen: Seen::default() }
    }

    /// Both sides give the same answer and leave the same bytes; a list that is made runs the tree to its end.
    fn same(&mut self, call: &Call, case: fmt::Arguments) -> FrameSchedule {
        let mut events = call.events.clone();
        let want = FrameSchedule::from(schedule(call.policy, call.workers, &call.tree, call.seed, &mut events));
        let [a, b] = &mut self.rooms;
        let lent_tree = put(a, &call.tree, call.ends[0]);
        let lent_events = put(b, &call.events, call.ends[1]);
        about_to_call(case);
        let got = library::schedule(lent_tree, call.policy, call.workers, call.seed, lent_events);
        assert_eq!(got, want, "{case}");
        same_bytes(lent_events, &events, "events", case);
        same_bytes(lent_tree, &call.tree, "tree", case);
        self.seen.numbers[got.number] += 1;
        if got.number == 0 {
            let steals = runs_to_the_end(call, &lent_events[..2 * got.events], case);
            self.seen.steals += steals;
            self.seen.full += usize::from(steals > 0 && 2 * got.events == needed(&call.tree));
        }
        got
    }

    /// As above, with this number and position.
    fn numbered(&mut self, call: &Call, want: (usize, usize), case: fmt::Arguments) {
        let got = self.same(call, case);
        assert_eq!((got.number, got.position), want, "{case}");
    }
}

/// The library records and replays the list: both calls are accepted, the run has finished, and the phases are the simulator's
/// and the same in both. Gives the count of steals.
fn runs_to_the_end(call: &Call, events: &[u8], case: fmt::Arguments) -> usize {
    let Call { ref tree, policy, workers, .. } = *call;
    let n = tree.len() / 8;
    let (mut log, mut trace, mut list) = (vec![0; 4 * n], vec![0; 2 * (n - 1)], vec![0; 4 * n]);
    let (mut want_log, mut want_trace, mut want_list) = (log.clone(), trace.clone(), list.clone());

    let recorded = library::record(tree, policy, workers, events, &mut log, &mut trace);
    let want = FrameRecord::from(record(policy, workers, tree, events, &mut want_log, &mut want_trace));
    assert_eq!(recorded, want, "{case}");
    assert_eq!((recorded.number, recorded.finished, recorded.logs), (0, 1, n), "{case}");
    assert_eq!(events.len() / 2, n + recorded.steals, "{case}");
    same_bytes(&log, &want_log, "log", case);
    same_bytes(&trace, &want_trace, "trace", case);

    let trace = &trace[..4 * recorded.steals];
    let replayed = library::replay(tree, policy, workers, trace, &mut list);
    let want = FrameReplay::from(replay(policy, workers, tree, trace, &mut want_list));
    assert_eq!(replayed, want, "{case}");
    assert_eq!((replayed.number, replayed.phases), (0, recorded.steals + 1), "{case}");
    same_bytes(&list, &want_list, "run list", case);
    // The log's records, phase by phase.
    let mut log: Vec<&[u8]> = log.chunks(4).collect();
    log.sort_by_key(|record| u16::from_le_bytes([record[0], record[1]]));
    same_bytes(&list, &log.concat(), "run list beside the log", case);
    recorded.steals
}

/// A count from 0 to 18, or 255.
fn any_count_byte(rng: &mut Rng) -> u8 {
    if rng.percent(2) {
        255
    } else {
        any_count(rng)
    }
}

// ---- Random calls ----

#[test]
fn small_calls() {
    let mut both = Both::new();
    for seed in 0..90_000 {
        let mut rng = Rng::new(seed);
        let tasks = if rng.percent(5) { rng.below(120) } else { rng.below(25) };
        let bytes = tree(&mut rng, tasks);
        let policy = rng.pick(&[1, 1, 1, 1, 1, 2, 2, 2, 2, 2, 0, 3]);
        let (workers, start) = (any_count_byte(&mut rng), any_seed(&mut rng));
        let length = length(&mut rng, &bytes);
        let call = Call::new(&mut rng, &bytes, policy, workers, start, length);
        both.same(&call, format_args!("seed {seed}"));
    }
    let seen = both.seen;
    assert!(seen.numbers[0] > 50_000 && seen.steals > 400_000 && seen.full > 2_000, "{seen:?}");
    assert!([1, 7, 16].iter().all(|&number| seen.numbers[number] > 2_000), "{seen:?}");
}

#[test]
fn large_schedules() {
    let mut both = Both::new();
    for seed in 0..160 {
        let mut rng = Rng::new(seed);
        let shape = SHAPES[seed as usize % 4];
        let policy = 1 + (seed / 4 % 2) as u8;
        let tasks = if seed / 8 % 2 == 0 { 2_047 } else { rng.between(100, 2_047) };
        let finish = rng.pick(&[0, 20, 50, 80, 100]);
        let bytes = tree_with(&mut rng, shape, tasks, finish, Weights::Mixed);
        let workers = if rng.percent(30) { 16 } else { rng.between(1, 16) as u8 };
        let length = needed(&bytes) + rng.pick(&[0, 0, 1, 100]);
        let start = any_seed(&mut rng);
        let call = Call::new(&mut rng, &bytes, policy, workers, start, length);
        both.numbered(&call, (0, 0), format_args!("seed {seed}"));
    }
    assert!(both.seen.steals > 20_000, "{:?}", both.seen);
}

/// How many wait at the end of each round, added up.
fn waited(call: &Call) -> usize {
    let run = Run::start(call.policy, call.workers, &call.tree).expect("the tree is accepted");
    let mut maker = Maker::new(run, call.seed);
    let mut waited = 0;
    while !maker.run.finished() {
        maker.round();
        waited += (0..maker.run.workers.len()).filter(|&worker| maker.run.waits(worker)).count();
    }
    waited
}

/// Where many wait, and long: one finish child around all other tasks, finish children in one another, and random ones.
#[test]
fn piles_and_nested_finishes() {
    let mut both = Both::new();
    let mut rng = Rng::new(0);
    let balanced = tree_with(&mut rng, Shape::Balanced, 2_046, 0, Weights::One);
    // Each but the innermost opens an async child first.
    let beside = tree_of_kinds(&[[1, 3, 2].repeat(63), vec![3; 64]].concat());
    let mut trees = vec![pile(&flat_tree(2_046)), pile(&flat_tree(31)), pile(&balanced), nested_finishes(63), beside];
    trees.extend((1..=20).map(|k| finish_tree(&mut rng, 15 * k)));
    let mut all = 0;
    for (t, bytes) in trees.iter().enumerate() {
        for (policy, workers) in [1, 2].into_iter().flat_map(|policy| [2, 3, 7, 15, 16].map(|workers| (policy, workers))) {
            let start = any_seed(&mut rng);
            let call = Call::new(&mut rng, bytes, policy, workers, start, needed(bytes));
            both.numbered(&call, (0, 0), format_args!("tree {t}, policy {policy}, {workers} workers from {start}"));
            all += waited(&call);
        }
    }
    assert!(all > 100_000, "{all}");
}

#[test]
fn all_trees_of_a_few_tasks() {
    let mut both = Both::new();
    let mut rng = Rng::new(0);
    for tasks in 0..=4 {
        for (t, bytes) in all_trees(tasks).iter().enumerate() {
            for (policy, workers) in [1, 2].into_iter().flat_map(|policy| (1..=16).map(move |workers| (policy, workers))) {
                let start = any_seed(&mut rng);
                let call = Call::new(&mut rng, bytes, policy, workers, start, needed(bytes));
                let case = format_args!("{tasks} tasks, tree {t}, policy {policy}, {workers} workers, seed {start}");
                both.numbered(&call, (0, 0), case);
            }
        }
    }
}

/// Seeds around those whose sum is 2 to the power 32, or whose draw is one victim or the next.
#[test]
fn seeds_at_the_edge() {
    let mut both = Both::new();
    for seed in 0..60 {
        let mut rng = Rng::new(seed);
        let tasks = rng.between(3, 20);
        let bytes = tree(&mut rng, tasks);
        for draws in 1..=16 {
            let before = 2_654_435_769_u32.wrapping_mul(draws);
            let victim = rng.below(16) as u32;
            for wanted in [0, 1, u32::MAX, victim << 28, (victim << 28).wrapping_sub(1)] {
                let (policy, workers) = (rng.between(1, 2) as u8, rng.between(2, 16) as u8);
                // After so many draws the seed is the one wanted.
                let start = wanted.wrapping_sub(before);
                let call = Call::new(&mut rng, &bytes, policy, workers, start, needed(&bytes));
                both.numbered(&call, (0, 0), format_args!("seed {seed}, policy {policy}, {workers} workers from {start}"));
            }
        }
    }
}

#[test]
fn damaged_trees_and_odd_lengths() {
    let mut both = Both::new();
    for seed in 0..60_000 {
        let mut rng = Rng::new(seed);
        let tasks = rng.below(20);
        let bytes = match rng.below(10) {
            0..=6 => damaged_tree(&mut rng, tasks),
            7 => tree(&mut rng, tasks),
            _ => {
                let len = rng.below(200);
                rng.bytes(len)
            }
        };
        let policy = rng.pick(&[1, 1, 1, 1, 2, 2, 2, 2, 0, 3, 255]);
        let (workers, start) = (any_count_byte(&mut rng), any_seed(&mut rng));
        let length = length(&mut rng, &bytes);
        let call = Call::new(&mut rng, &bytes, policy, workers, start, length);
        let got = both.same(&call, format_args!("seed {seed}"));
        // A start refuses the same with 1 to 5 and 16, and nothing else.
        let started = library::start(&bytes, policy, workers);
        let want = if got.number == 7 { (0, 0) } else { (got.number, got.position) };
        assert_eq!((started.number, started.position), want, "seed {seed}");
    }
    let seen = both.seen;
    assert!([0, 1, 2, 3, 4, 5, 7, 16].iter().all(|&number| seen.numbers[number] > 300), "{seen:?}");
}

/// Only 1 and 2 are policies, and only 1 to 16 are counts.
#[test]
fn every_policy_and_count_byte() {
    let mut both = Both::new();
    for seed in 0..20 {
        let mut rng = Rng::new(seed);
        let tasks = rng.below(12);
        let bytes = tree(&mut rng, tasks);
        for byte in 0..=255 {
            for (policy, workers) in [(1, byte), (2, byte), (byte, 1), (byte, 16), (byte, 0), (byte, byte)] {
                let start = any_seed(&mut rng);
                let call = Call::new(&mut rng, &bytes, policy, workers, start, needed(&bytes));
                let want = if ![1, 2].contains(&policy) {
                    (1, 0)
                } else if !(1..=16).contains(&workers) {
                    (16, 0)
                } else {
                    (0, 0)
                };
                both.numbered(&call, want, format_args!("seed {seed}, policy {policy}, {workers} workers"));
            }
        }
    }
}

/// Byte 1 is a class from 0 to 15, bytes 2 and 3 are 0.
#[test]
fn every_class_byte() {
    let mut both = Both::new();
    for seed in 0..20 {
        let mut rng = Rng::new(seed);
        let tasks = rng.below(12);
        let bytes = tree(&mut rng, tasks);
        for (k, (bytes, want)) in classes::every_byte(&mut rng, &bytes).into_iter().enumerate() {
            let (policy, workers) = (rng.between(1, 2) as u8, rng.between(1, 16) as u8);
            let start = any_seed(&mut rng);
            let call = Call::new(&mut rng, &bytes, policy, workers, start, needed(&bytes));
            both.numbered(&call, want, format_args!("seed {seed}, tree {k}"));
        }
    }
    for (tree, want) in classes::trees() {
        let call = Call::new(&mut Rng::new(0), &tree, 1, 16, 0, needed(&tree));
        both.numbered(&call, want, format_args!("{tree:?}"));
    }
}

/// The maker does not see the classes.
#[test]
fn classes_change_no_list() {
    for seed in 0..20_000 {
        let mut rng = Rng::new(seed);
        let tasks = if rng.percent(1) { rng.below(2_048) } else { rng.below(25) };
        let bytes = tree(&mut rng, tasks);
        let (policy, workers) = (rng.between(1, 2) as u8, rng.between(1, 16) as u8);
        let start = any_seed(&mut rng);
        let lent = rng.bytes(needed(&bytes));
        let made = |tree: &[u8]| {
            let mut events = lent.clone();
            (library::schedule(tree, policy, workers, start, &mut events), events)
        };
        assert!(made(&bytes) == made(&without_classes(&bytes)), "seed {seed}: another list");
    }
}

// ---- Lengths ----

/// Every length for a small tree, and those near the one asked for and near the list's own for a large one.
#[test]
fn lists_of_all_lengths() {
    let mut both = Both::new();
    for seed in 0..300 {
        let mut rng = Rng::new(seed);
        let tasks = if seed < 10 { 2_000 + rng.below(48) } else { rng.below(16) };
        let bytes = tree(&mut rng, tasks);
        let (policy, workers) = (rng.between(1, 2) as u8, rng.between(1, 16) as u8);
        let (start, need) = (any_seed(&mut rng), needed(&bytes));
        let lengths: Vec<usize> = if seed < 10 {
            let made = library::schedule(&bytes, policy, workers, start, &mut vec![0; need]);
            let [steps, list] = [bytes.len() / 4, 2 * made.events];
            [vec![0, 1, steps - 1, steps, list - 1, list], (need - 3..need + 4).collect()].concat()
        } else {
            (0..need + 6).collect()
        };
        for length in lengths {
            let call = Call::new(&mut rng, &bytes, policy, workers, start, length);
            let number = if length < need { 7 } else { 0 };
            both.numbered(&call, (number, 0), format_args!("seed {seed}, list of {length} bytes"));
        }
    }
}

// ---- Which refusal wins ----

/// All these policies, counts, trees and lengths together: 1, 16, 2, 3 to 5, 7, the first of them.
#[test]
fn the_first_refusal_wins() {
    let mut both = Both::new();
    let mut rng = Rng::new(0);
    for policy in [1, 2, 0, 3, 255] {
        for workers in [16, 4, 1, 0, 17, 255] {
            for (t, (tree, of_tree)) in trees().iter().enumerate() {
                // S asks for 20 bytes.
                for length in [20, 21, 40, 19, 14, 1, 0] {
                    let want = if ![1, 2].contains(&policy) {
                        (1, 0)
                    } else if ![16, 4, 1].contains(&workers) {
                        (16, 0)
                    } else if of_tree.0 == 0 && length < 20 {
                        (7, 0)
                    } else {
                        *of_tree
                    };
                    let start = any_seed(&mut rng);
                    let call = Call::new(&mut rng, tree, policy, workers, start, length);
                    let case = format_args!("policy {policy}, {workers} workers, tree {t}, list of {length} bytes");
                    both.numbered(&call, want, case);
                }
            }
        }
    }
    let seen = both.seen.numbers;
    assert!([0, 1, 2, 3, 4, 5, 7, 16].iter().all(|&number| seen[number] > 0), "{seen:?}");
}

// ---- The same call again ----

/// A list depends on nothing but the call: not on the bytes that were lent, on the list's length or on the calls before.
#[test]
fn the_same_call_twice() {
    let calls: Vec<_> = (0..2_000)
        .map(|seed| {
            let mut rng = Rng::new(seed);
            let tasks = if rng.percent(2) { rng.below(2_048) } else { rng.below(40) };
            let bytes = tree(&mut rng, tasks);
            (bytes, rng.between(1, 2) as u8, rng.between(1, 16) as u8, any_seed(&mut rng))
        })
        .collect();
    let made = |fill: u8, more: usize, (bytes, policy, workers, start): &(Vec<u8>, u8, u8, u32)| {
        let mut events = vec![fill; needed(bytes) + more];
        let got = library::schedule(bytes, *policy, *workers, *start, &mut events);
        assert!(events[2 * got.events..].iter().all(|&byte| byte == fill), "policy {policy}, {workers} workers, seed {start}");
        events.truncate(2 * got.events);
        (got, events)
    };
    let first: Vec<_> = calls.iter().map(|call| made(0, 0, call)).collect();
    let again: Vec<_> = calls.iter().rev().map(|call| made(0xFF, 7, call)).collect();
    for (seed, (one, other)) in first.iter().zip(again.iter().rev()).enumerate() {
        assert!(one == other, "seed {seed}: another list");
    }
}

// ---- Worked cases ----

#[test]
fn worked_cases_of_the_maker() {
    for (policy, workers, kinds, seed, list) in schedules::LISTS {
        let case = format!("policy {policy}, {workers} workers, {kinds:?}, seed {seed}");
        let mut events = vec![0xEE; 3 * kinds.len() + 2];
        let got = library::schedule(&tree_of_kinds(kinds), policy, workers, seed, &mut events);
        assert_eq!(got, FrameSchedule { number: 0, position: 0, events: list.len() / 2 }, "{case}");
        assert_eq!(events[..list.len()], *list, "{case}");
        assert!(events[list.len()..].iter().all(|&byte| byte == 0xEE), "{case}");
    }
    for (policy, workers, kinds, room, want) in schedules::ROOM {
        let case = format!("policy {policy}, {workers} workers, {kinds:?}, {room} bytes");
        let mut events = vec![0xEE; room];
        let got = library::schedule(&tree_of_kinds(kinds), policy, workers, 0, &mut events);
        assert_eq!((got.number, got.position), want, "{case}");
        assert!(got.number == 0 || got.events == 0 && events == vec![0xEE; room], "{case}: {got:?}");
    }
}

#[test]
fn empty_slices() {
    let refused = |number| FrameSchedule { number, position: 0, events: 0 };
    assert_eq!(library::schedule(&[], 0, 0, 0, &mut []), refused(1));
    assert_eq!(library::schedule(&[], 1, 0, 0, &mut []), refused(16));
    assert_eq!(library::schedule(&[], 1, 16, 0, &mut []), refused(2));
    assert_eq!(library::schedule(&tree_of_kinds(&[3]), 1, 16, 0, &mut []), refused(7));
}

// ---- Stack ----

/// The most stack that a call may use.
const MOST_STACK: usize = 96 * 1_024;

#[test]
fn stack_of_a_call() {
    for seed in 0..16 {
        let mut rng = Rng::new(seed);
        let policy = 1 + (seed / 4 % 2) as u8;
        let bytes = tree_with(&mut rng, SHAPES[seed as usize % 4], 2_047, 30, Weights::Mixed);
        let mut events = vec![0; needed(&bytes)];
        let mut answer = FrameSchedule { number: 0, position: 0, events: 0 };
        let used = stack::used_by(&mut || answer = library::schedule(&bytes, policy, 16, seed as u32, &mut events));
        assert!(answer.number == 0 && answer.events >= 4_095, "seed {seed}: {answer:?}");
        assert!(used <= MOST_STACK, "seed {seed}: {used} bytes");
    }
}
