//! Whole replays over the C interface against the simulator: every answer and every byte of the run list, which holds random
//! bytes when it is lent. Each slice lies before or behind a guard page. A failure names its seed.

#[path = "library/classes.rs"]
mod classes;
#[path = "library/counts.rs"]
mod counts;
#[path = "library/guarded.rs"]
mod guarded;
#[path = "library/lent.rs"]
mod lent;
mod library;
#[path = "library/replays.rs"]
mod replays;
#[path = "library/stack.rs"]
mod stack;
#[path = "library/trees.rs"]
mod trees;

use std::collections::BTreeMap;
use std::fmt;
use std::io::Write;

use frame_tests::random::{
    accepted_trace, all_trees, doubtful_record, nearest_count, recorded_trace, trace_record, trace_to_replay, tree, tree_of_kinds,
    tree_with, without_classes, Rng, Steals, Weights, SHAPES,
};
use frame_tests::replay::{judge_and_replay, replay, MAX_TRACE, TRACE_BYTES};
use frame_tests::run::Policy;
use frame_tests::tree::{CLASSES, TREE_RECORD};
use guarded::Guarded;
use lent::{about_to_call, put, same_bytes};
use library::FrameReplay;
use replays::{
    damaged_call, each_with_its_refusal, large_tree, lend_list, length, longest_traces, needed, number, policy_of, read,
    small_call, some_count, sound, Call,
};
use trees::S;

// ---- The simulator ----

/// Why the record at this position, which is refused with 15, is.
fn why(call: &Call, position: usize) -> &'static str {
    let (before, record) = call.trace.split_at(TRACE_BYTES * position);
    let read = judge_and_replay(call.policy, call.workers, &call.tree, before, usize::MAX);
    let read = read.expect("what stands before is accepted");
    let tree = &read.tree;
    let number = number(&record[2..]);
    let phase = read.latest[usize::from(record[1])].expect("the victim has had a phase");
    let from = &read.phases[phase];
    if read.policy == Policy::WorkFirst {
        let children = tree.child_count(read.frontier(phase));
        return match number {
            0 => "0",
            _ if children == 0 => "a frontier without children",
            _ if number > children => "above the children",
            _ if number == tree.ordinal(from.first) => "the first step's ordinal",
            _ => "below the first step's ordinal",
        };
    }
    if number >= tree.count() {
        return "no step";
    }
    if !tree.first_of_async_child(number) && tree.finish_child_before(number).is_none() {
        return "not to be stolen";
    }
    let covered = from.covers(tree);
    match number {
        _ if number == from.first => "the first step",
        _ if !tree.to_end_of_task(from.first).contains(&number) => "outside the phase",
        _ if covered[number] => "partly stolen",
        _ => "stolen",
    }
}

/// How often the calls met each case.
#[derive(Default, Debug)]
struct Seen {
    /// By number; 0 is accepted.
    numbers: [usize; 17],
    /// By reason, where the number is 15 and the tree is small.
    why: BTreeMap<&'static str, usize>,
    /// Of accepted calls.
    steals: usize,
    /// Refused by a record that is not the first.
    later: usize,
    /// Accepted, and worker 0 is not the heaviest.
    other_heaviest: usize,
    /// Accepted, and the heaviest worker has an equal.
    equals: usize,
    /// Accepted, and another class than 0 has a load.
    other_classes: usize,
    /// Accepted, and class 0 has all the load, which is not 0.
    class_0_alone: usize,
}

/// The library beside the simulator.
struct Both {
    rooms: [Guarded; 3],
    seen: Seen,
}

impl Both {
    fn new() -> Both {
        Both { rooms: [(); 3].map(|()| Guarded::new(45_000)), seen: Seen::default() }
    }

    /// Both sides give the same answer and leave the same bytes.
    fn same(&mut self, call: &Call, case: fmt::Arguments) -> FrameReplay {
        let mut list = call.list.clone();
        let want = FrameReplay::from(replay(call.policy, call.workers, &call.tree, &call.trace, &mut list));
        let [a, b, c] = &mut self.rooms;
        let lent_tree = put(a, &call.tree, call.ends[0]);
        let lent_trace = put(b, &call.trace, call.ends[1]);
        let (lent_list, beside) = lend_list(c, call);
        about_to_call(case);
        let got = library::replay(lent_tree, call.policy, call.workers, lent_trace, lent_list);
        assert_eq!(got, want, "{case}");
        assert_eq!(got.class_loads.iter().sum::<u64>(), got.loads.iter().sum(), "{case}");
        same_bytes(lent_list, &list, "list", case);
        same_bytes(beside, &call.beside, "room beside the list", case);
        same_bytes(lent_tree, &call.tree, "tree", case);
        same_bytes(lent_trace, &call.trace, "trace", case);
        if got.number == 0 {
            sound(call, &got, lent_list, case);
        }
        self.count(call, &got);
        got
    }

    /// As above, with this number and position.
    fn numbered(&mut self, call: &Call, want: (usize, usize), case: fmt::Arguments) {
        let got = self.same(call, case);
        assert_eq!((got.number, got.position), want, "{case}");
    }

    fn count(&mut self, call: &Call, got: &FrameReplay) {
        let seen = &mut self.seen;
        seen.numbers[got.number] += 1;
        seen.later += usize::from((8..16).contains(&got.number) && got.position > 0);
        if got.number == 15 && call.tree.len() < 1_000 {
            *seen.why.entry(why(call, got.position)).or_default() += 1;
        }
        if got.number == 0 {
            seen.steals += got.phases - 1;
            seen.other_heaviest += usize::from(got.heaviest != 0);
            let most = got.loads[got.heaviest];
            seen.equals += usize::from(got.loads.iter().filter(|&&load| load == most).count() > 1);
            let others = got.class_loads[1..].iter().any(|&load| load > 0);
            seen.other_classes += usize::from(others);
            seen.class_0_alone += usize::from(!others && got.class_loads[0] > 0);
        }
    }
}

// ---- Random calls ----

#[test]
fn small_calls() {
    let mut both = Both::new();
    for seed in 0..150_000 {
        let mut rng = Rng::new(seed);
        let call = small_call(&mut rng);
        both.same(&call, format_args!("seed {seed}"));
    }
    let seen = both.seen;
    assert!(seen.numbers[0] > 30_000 && seen.steals > 200_000, "{seen:?}");
    assert!([6, 7, 8, 13, 14, 15, 16].iter().all(|&number| seen.numbers[number] > 1_000), "{seen:?}");
    all_reasons(&seen, 300);
    assert!(seen.later > 10_000 && seen.other_heaviest > 5_000 && seen.equals > 5_000, "{seen:?}");
    assert!(seen.other_classes > 15_000 && seen.class_0_alone > 5_000, "{seen:?}");
}

/// All records between so many workers and one more, which the run does not have, with every number up to n and one that is too
/// large for a tree. Where thief and victim are equal two numbers are enough, and one where there is no such worker.
fn all_records(workers: u8, n: usize) -> Vec<[u8; 4]> {
    let mut records = Vec::new();
    for thief in 0..=workers {
        for victim in 0..=workers {
            let numbers = match thief.max(victim) {
                none if none == workers => vec![1],
                _ if thief == victim => vec![0, 1],
                _ => (0..=n as u16).chain([65_535]).collect(),
            };
            records.extend(numbers.into_iter().map(|number| trace_record(thief, victim, number)));
        }
    }
    records
}

/// Weights that tell which steps a load has, and for each step a class of its own.
fn told_apart(tree: &[u8]) -> Vec<u8> {
    let mut bytes = tree.to_vec();
    for (step, record) in bytes.chunks_mut(TREE_RECORD).enumerate() {
        record[1] = (CLASSES - 1 - step) as u8;
        record[4..].copy_from_slice(&(1_u32 << step).to_le_bytes());
    }
    bytes
}

/// Every trace of a run of so many workers on all trees with so many spawned tasks, up to its first record that is refused. A
/// worker is named only when all below it have been: others' names would make the same phases.
fn all_traces(both: &mut Both, tasks: usize, workers: u8) {
    let mut rng = Rng::new(0);
    for (t, tree) in all_trees(tasks).iter().enumerate() {
        let told = told_apart(tree);
        let records = all_records(workers, 2 * tasks + 1);
        for policy in [1, 2] {
            let mut open = vec![Vec::new()];
            while let Some(trace) = open.pop() {
                let bytes = if rng.percent(50) { tree } else { &told };
                let length = needed(bytes) + rng.below(3);
                let call = Call::new(&mut rng, bytes, policy, workers, &trace, length);
                let got = both.same(&call, format_args!("{tasks} tasks, tree {t}, policy {policy}, trace {trace:?}"));
                if got.number == 0 {
                    // A trace has at most as many records as there are spawned tasks.
                    assert!(trace.len() / TRACE_BYTES <= tasks);
                    let named = trace.chunks(TRACE_BYTES).map(|record| record[0].max(record[1])).max().unwrap_or(0);
                    let next = records.iter().filter(|record| record[0].max(record[1]) <= named + 1);
                    open.extend(next.map(|record| [&trace[..], record].concat()));
                }
            }
        }
    }
}

/// All reasons for 15 are met: five work-first and six help-first.
fn all_reasons(seen: &Seen, least: usize) {
    assert!(seen.why.len() == 11 && seen.why.values().all(|&times| times > least), "{seen:?}");
}

#[test]
fn all_traces_of_small_trees() {
    let mut both = Both::new();
    for tasks in 0..=3 {
        all_traces(&mut both, tasks, 4);
    }
    all_reasons(&both.seen, 300);
}

#[test]
fn all_traces_of_trees_with_four_tasks() {
    let mut both = Both::new();
    all_traces(&mut both, 4, 3);
    all_reasons(&both.seen, 10_000);
}

/// An accepted trace whole, cut short, and with a record in between that is refused or read in another way.
fn with_its_parts(both: &mut Both, rng: &mut Rng, bytes: &[u8], policy: u8, workers: u8, trace: &[u8], seed: u64) {
    let length = needed(bytes) + rng.pick(&[0, 0, 1, 100]);
    let call = Call::new(rng, bytes, policy, workers, trace, length);
    both.numbered(&call, (0, 0), format_args!("seed {seed}"));
    let any_place = |rng: &mut Rng| rng.below(trace.len() / TRACE_BYTES + 1);
    let at = any_place(rng);
    let call = Call::new(rng, bytes, policy, workers, &trace[..TRACE_BYTES * at], length);
    both.numbered(&call, (0, 0), format_args!("seed {seed}, {at} records"));
    if trace.len() == TRACE_BYTES * MAX_TRACE {
        return;
    }
    let with = |at: usize, more: [u8; 4]| {
        let (before, behind) = trace.split_at(TRACE_BYTES * at);
        [before, &more, behind].concat()
    };
    let call = Call::new(rng, bytes, policy, workers, &with(at, [workers / 2, workers, 1, 0]), length);
    both.numbered(&call, (8, at), format_args!("seed {seed}, refused at {at}"));
    let records: Vec<[u8; 4]> = trace.chunks(4).map(|r| [r[0], r[1], r[2], r[3]]).collect();
    for _ in 0..4 {
        let at = any_place(rng);
        let doubtful = doubtful_record(rng, policy_of(policy), workers.into(), &read(bytes), &records[..at]);
        let call = Call::new(rng, bytes, policy, workers, &with(at, doubtful), length);
        both.same(&call, format_args!("seed {seed}, {doubtful:?} at {at}"));
    }
}

#[test]
fn large_traces_that_no_scheduler_makes() {
    let mut both = Both::new();
    for seed in 0..192 {
        let mut rng = Rng::new(seed);
        let (bytes, policy) = large_tree(&mut rng, seed);
        let workers = some_count(&mut rng);
        let mut plan = Steals::any(&mut rng, workers.into());
        // In every other round as many steals as can be had.
        if seed / 16 % 2 == 0 {
            plan = Steals { careful: 100, lowest: rng.pick(&[98, 100]), ..plan };
        }
        let trace = accepted_trace(&mut rng, policy_of(policy), &read(&bytes), &plan);
        with_its_parts(&mut both, &mut rng, &bytes, policy, workers, &trace, seed);
    }
    let seen = both.seen;
    assert!(seen.steals > 30_000 && seen.other_heaviest > 50, "{seen:?}");
}

#[test]
fn large_traces_of_runs() {
    let mut both = Both::new();
    for seed in 0..128 {
        let mut rng = Rng::new(seed);
        let (bytes, policy) = large_tree(&mut rng, seed);
        let workers = some_count(&mut rng);
        let trace = recorded_trace(&mut rng, policy_of(policy), workers.into(), &read(&bytes));
        with_its_parts(&mut both, &mut rng, &bytes, policy, workers, &trace, seed);
    }
    let seen = both.seen;
    assert!(seen.steals > 20_000 && seen.other_heaviest > 30, "{seen:?}");
}

/// The last phase is 2,047, and the list is full.
#[test]
fn as_many_steals_as_a_trace_can_have() {
    let mut both = Both::new();
    for policy in [1, 2] {
        for (k, (bytes, trace)) in longest_traces(policy).into_iter().enumerate() {
            let call = Call::new(&mut Rng::new(policy.into()), &bytes, policy, 16, &trace, 16_380);
            let got = both.same(&call, format_args!("policy {policy}, trace {k}"));
            assert_eq!((got.number, got.phases), (0, 2_048), "policy {policy}, trace {k}");
        }
    }
}

#[test]
fn damaged_trees_and_odd_lengths() {
    let mut both = Both::new();
    for seed in 0..90_000 {
        let mut rng = Rng::new(seed);
        let call = damaged_call(&mut rng);
        let got = both.same(&call, format_args!("seed {seed}"));
        // A start refuses the same with 1 to 5 and 16, and nothing else.
        let started = library::start(&call.tree, call.policy, call.workers);
        let want = if got.number <= 5 || got.number == 16 { (got.number, got.position) } else { (0, 0) };
        assert_eq!((started.number, started.position), want, "seed {seed}");
    }
    let seen = both.seen;
    assert!((0..9).chain([16]).all(|number| seen.numbers[number] > 100), "{seen:?}");
}

/// Only 1 and 2 are policies, and only 1 to 16 are counts.
#[test]
fn every_policy_and_every_count_byte() {
    let mut both = Both::new();
    for seed in 0..20 {
        let mut rng = Rng::new(seed);
        let tasks = rng.below(12);
        let bytes = tree(&mut rng, tasks);
        for policy in 0..=255 {
            let reading = Policy::parse(policy).unwrap_or(Policy::HelpFirst);
            let trace = accepted_trace(&mut rng, reading, &read(&bytes), &Steals::any(&mut Rng::new(seed), 16));
            let call = Call::new(&mut rng, &bytes, policy, 16, &trace, needed(&bytes));
            let want = if [1, 2].contains(&policy) { (0, 0) } else { (1, 0) };
            both.numbered(&call, want, format_args!("seed {seed}, policy {policy}"));
        }
        for workers in 0..=255 {
            let policy = rng.between(1, 2) as u8;
            let plan = Steals::any(&mut rng, nearest_count(workers));
            let trace = accepted_trace(&mut rng, policy_of(policy), &read(&bytes), &plan);
            let call = Call::new(&mut rng, &bytes, policy, workers, &trace, needed(&bytes));
            let want = if (1..=16).contains(&workers) { (0, 0) } else { (16, 0) };
            both.numbered(&call, want, format_args!("seed {seed}, {workers} workers"));
        }
    }
}

/// Byte 1 is a class from 0 to 15, bytes 2 and 3 are 0, and the same trace is accepted on every such tree.
#[test]
fn every_class_byte() {
    let mut both = Both::new();
    for seed in 0..20 {
        let mut rng = Rng::new(seed);
        let tasks = rng.below(12);
        let bytes = tree(&mut rng, tasks);
        let (policy, workers) = (rng.between(1, 2) as u8, some_count(&mut rng));
        let plan = Steals::any(&mut rng, workers.into());
        let trace = accepted_trace(&mut rng, policy_of(policy), &read(&bytes), &plan);
        for (k, (bytes, want)) in classes::every_byte(&mut rng, &bytes).into_iter().enumerate() {
            let call = Call::new(&mut rng, &bytes, policy, workers, &trace, needed(&bytes));
            both.numbered(&call, want, format_args!("seed {seed}, tree {k}"));
        }
    }
}

/// Without its classes a tree gives the same answers and bytes, but that class 0 has all the load.
#[test]
fn classes_change_nothing_else() {
    let mut changed = 0;
    for seed in 0..20_000 {
        let mut rng = Rng::new(seed);
        let tasks = if rng.percent(1) { rng.below(2_048) } else { rng.below(25) };
        let bytes = tree(&mut rng, tasks);
        let (policy, workers) = (rng.between(1, 2) as u8, rng.between(1, 16) as u8);
        let trace = trace_to_replay(&mut rng, policy_of(policy), workers.into(), &read(&bytes));
        let length = length(&mut rng, &bytes);
        let lent = rng.bytes(length);
        let replayed = |tree: &[u8]| {
            let mut list = lent.clone();
            let got = library::replay(tree, policy, workers, &trace, &mut list);
            (got, list)
        };
        let (got, list) = replayed(&bytes);
        let (old, old_list) = replayed(&without_classes(&bytes));
        let mut class_loads = [0; 16];
        class_loads[0] = got.loads.iter().sum();
        assert_eq!(old, FrameReplay { class_loads, ..got }, "seed {seed}");
        assert!(old_list == list, "seed {seed}: another list");
        changed += usize::from(got.class_loads != class_loads);
    }
    assert!(changed > 2_500, "{changed}");
}

// ---- Lengths ----

#[test]
fn lists_of_all_lengths() {
    let mut both = Both::new();
    for seed in 0..3_000 {
        let mut rng = Rng::new(seed);
        let tasks = if seed < 10 { 2_000 + rng.below(48) } else { rng.below(12) };
        let bytes = tree(&mut rng, tasks);
        let (policy, workers) = (rng.between(1, 2) as u8, rng.between(1, 16) as u8);
        // The room is asked for the whole tree, however few the records.
        let plan = Steals { most: rng.pick(&[0, 1, MAX_TRACE]), ..Steals::any(&mut rng, workers.into()) };
        let trace = accepted_trace(&mut rng, policy_of(policy), &read(&bytes), &plan);
        let need = needed(&bytes);
        let lengths = [0, rng.below(need), need - 4, need - 1, need, need + 1, need + 4, need + rng.between(2, 200)];
        for length in lengths {
            let call = Call::new(&mut rng, &bytes, policy, workers, &trace, length);
            let number = if length < need { 7 } else { 0 };
            both.numbered(&call, (number, 0), format_args!("seed {seed}, list of {length} bytes"));
        }
    }
}

/// A trace may have 2,047 records. The first one that is refused is named, and one more is refused by its count.
#[test]
fn as_many_records_as_a_trace_may_have() {
    let mut both = Both::new();
    for policy in [1, 2] {
        let (bytes, trace) = longest_traces(policy).swap_remove(0);
        let trace: Vec<&[u8]> = trace.chunks(TRACE_BYTES).collect();
        assert_eq!(trace.len(), MAX_TRACE);
        // So many records of the trace, then one that is refused there, again and again.
        let cases = [
            (0, [0, 255, 1, 0], 8),
            (0, [0, 0, 1, 0], 13),
            (0, [0, 1, 1, 0], 14),
            (0, [1, 0, 0, 0], 15),
            (5, [16, 16, 0, 0], 8),
            (300, [1, 0, 0, 0], 15),
            (2_046, [3, 3, 0, 0], 13),
            (2_046, [0, 2, 0, 0], 14),
            (2_046, [0, 1, 255, 255], 15),
            (2_047, [0, 1, 255, 255], 15),
        ];
        for (accepted, more, number) in cases {
            for count in [accepted, accepted + 1, MAX_TRACE - 1, MAX_TRACE, MAX_TRACE + 1, 2_500] {
                let mut records = trace[..accepted.min(count)].to_vec();
                records.resize(count, &more);
                let mut trace = records.concat();
                let want = if count > MAX_TRACE {
                    (6, 0)
                } else if count > accepted {
                    (number, accepted)
                } else {
                    (0, 0)
                };
                let case = format!("policy {policy}, {count} records, from {accepted} on {more:?}");
                let rng = &mut Rng::new(count as u64);
                let call = Call::new(rng, &bytes, policy, 16, &trace, 16_380);
                both.numbered(&call, want, format_args!("{case}"));
                trace.resize(trace.len() + rng.between(1, 3), 0);
                let call = Call::new(rng, &bytes, policy, 16, &trace, 16_380);
                both.numbered(&call, (6, 0), format_args!("{case}, and some bytes"));
            }
        }
    }
}

// ---- Which refusal wins ----

#[test]
fn the_lower_number_wins() {
    let mut both = Both::new();
    each_with_its_refusal(|call, want, case| both.numbered(call, want, case));
    let seen = both.seen.numbers;
    assert!([0, 1, 2, 3, 4, 5, 6, 7, 8, 13, 14, 15, 16].iter().all(|&number| seen[number] > 0), "{seen:?}");
}

// ---- Document 01's cases ----

/// A call with plain slices, the list longer than the tree asks for. Gives the steps of each phase; the rest of the list must
/// keep its bytes, and all of it if the call is refused.
fn replayed(kinds: &[u8], policy: u8, workers: u8, trace: &[u8]) -> (FrameReplay, Vec<Vec<usize>>) {
    let bytes = tree_of_kinds(kinds);
    let mut list = vec![0xEE; needed(&bytes) + 3];
    let got = library::replay(&bytes, policy, workers, trace, &mut list);
    let written = if got.number == 0 { needed(&bytes) } else { 0 };
    assert!(list[written..].iter().all(|&byte| byte == 0xEE), "{trace:?}");
    let mut phases = vec![vec![]; got.phases];
    for record in list[..written].chunks(4) {
        phases[number(record)].push(number(&record[2..]));
    }
    (got, phases)
}

/// An accepted call's answer; the loads of the workers beyond these are 0. All steps are class 0.
fn accepted(phases: usize, first: [u64; 3], heaviest: usize) -> FrameReplay {
    let [mut loads, mut class_loads] = [[0; 16]; 2];
    loads[..3].copy_from_slice(&first);
    class_loads[0] = first.iter().sum();
    FrameReplay { number: 0, position: 0, phases, loads, heaviest, class_loads }
}

fn refused(number: usize, position: usize) -> FrameReplay {
    FrameReplay { number, position, phases: 0, loads: [0; 16], heaviest: 0, class_loads: [0; 16] }
}

const P1_TRACE: [u8; 12] = [1, 0, 1, 0, 2, 1, 2, 0, 0, 1, 1, 0];

#[rustfmt::skip]
const P1_LIST: [u8; 28] = [
    0, 0, 0, 0,
    0, 0, 1, 0,
    1, 0, 2, 0,
    1, 0, 3, 0,
    1, 0, 4, 0,
    2, 0, 6, 0,
    3, 0, 5, 0,
];

#[test]
fn p1_and_its_parts() {
    let s = tree_of_kinds(&S);
    let mut list = [0xEE; 28];
    for workers in 3..=16 {
        list.fill(0xEE);
        assert_eq!(library::replay(&s, 1, workers, &P1_TRACE, &mut list), accepted(4, [3, 3, 1], 0), "{workers} workers");
        assert_eq!(list, P1_LIST, "{workers} workers");
    }
    let parts = [
        (accepted(1, [7, 0, 0], 0), vec![vec![0, 1, 2, 3, 4, 5, 6]]),
        (accepted(2, [2, 5, 0], 1), vec![vec![0, 1], vec![2, 3, 4, 5, 6]]),
        (accepted(3, [2, 4, 1], 1), vec![vec![0, 1], vec![2, 3, 4, 5], vec![6]]),
        (accepted(4, [3, 3, 1], 0), vec![vec![0, 1], vec![2, 3, 4], vec![6], vec![5]]),
    ];
    for (count, want) in parts.into_iter().enumerate() {
        assert_eq!(replayed(&S, 1, 16, &P1_TRACE[..TRACE_BYTES * count]), want, "{count} records");
    }
}

#[test]
fn p3_p4_p8_p9_and_p12() {
    assert_eq!(replayed(&S, 2, 16, &[]), (accepted(1, [7, 0, 0], 0), vec![vec![0, 2, 3, 5, 4, 6, 1]]));
    let p4 = vec![vec![0, 2, 3, 5, 4], vec![1], vec![6]];
    assert_eq!(replayed(&S, 2, 16, &[1, 0, 1, 0, 2, 0, 6, 0]), (accepted(3, [5, 1, 1], 0), p4));
    assert_eq!(replayed(&S, 1, 16, &[1, 0, 1, 0, 2, 1, 1, 0]), (refused(15, 1), vec![]));
    assert_eq!(replayed(&S, 2, 16, &[1, 0, 3, 0]), (refused(15, 0), vec![]));
    for policy in [1, 2] {
        assert_eq!(replayed(&S, policy, 16, &[0, 1, 1, 0]), (refused(14, 0), vec![]));
    }
}

#[test]
fn worked_cases_of_the_count() {
    for (policy, workers, kinds, trace, want) in counts::REPLAYS {
        let (got, _) = replayed(kinds, policy, workers, trace);
        let case = format!("policy {policy}, {workers} workers, {kinds:?}, trace {trace:?}");
        assert_eq!((got.number, got.position), want, "{case}");
        assert!(got.number == 0 || got == refused(want.0, want.1), "{case}: {got:?}");
    }
}

#[test]
fn worked_cases_of_the_classes() {
    let mut list = [0xEE; 28];
    for (policy, trace, loads, heaviest) in classes::REPLAYS {
        let got = library::replay(&classes::C, policy, 16, trace, &mut list);
        let want = accepted(trace.len() / TRACE_BYTES + 1, loads, heaviest);
        assert_eq!(got, FrameReplay { class_loads: classes::LOADS, ..want }, "policy {policy}, trace {trace:?}");
    }
    for (tree, want) in classes::trees() {
        let mut list = vec![0xEE; needed(&tree)];
        let got = library::replay(&tree, 2, 16, &[], &mut list);
        assert_eq!((got.number, got.position), want, "{tree:?}");
        assert!(got.number == 0 || got == refused(want.0, want.1), "{tree:?}: {got:?}");
        assert!(got.number == 0 || list.iter().all(|&byte| byte == 0xEE), "{tree:?}");
    }
}

/// A steal is read against the victim's latest phase.
#[test]
fn the_latest_phase() {
    // Three children of the root, whose steps are 0, 2, 4, 6. Worker 0 has phase 0 and, from step 4 on, phase 2.
    let kinds = [1, 3, 1, 3, 1, 3, 3];
    let phases = vec![vec![0, 1], vec![2, 3], vec![4, 5], vec![6]];
    assert_eq!(replayed(&kinds, 1, 16, &[1, 0, 1, 0, 0, 1, 2, 0, 2, 0, 3, 0]), (accepted(4, [4, 2, 1], 0), phases));
    // Phase 0 still has step 3, which is the first child's, or step 5, which is the second's first. Worker 0's latest has
    // neither.
    let kinds = [1, 1, 3, 3, 1, 3, 3];
    assert_eq!(replayed(&kinds, 1, 16, &[1, 0, 1, 0, 0, 1, 2, 0, 2, 0, 1, 0]), (refused(15, 2), vec![]));
    assert_eq!(replayed(&kinds, 2, 16, &[1, 0, 1, 0, 0, 1, 2, 0, 2, 0, 5, 0]), (refused(15, 2), vec![]));
}

/// Help-first: all steps from the named one to the end of its own task must be in the phase still.
#[test]
fn a_partly_stolen_range() {
    // An async child with steps 1 and 3, in which another has step 2.
    let kinds = [1, 1, 3, 3, 3];
    assert_eq!(replayed(&kinds, 2, 16, &[1, 0, 2, 0]), (accepted(2, [4, 1, 0], 0), vec![vec![0, 4, 1, 3], vec![2]]));
    assert_eq!(replayed(&kinds, 2, 16, &[1, 0, 2, 0, 2, 0, 1, 0]), (refused(15, 1), vec![]));
    let phases = vec![vec![0, 4], vec![1, 3], vec![2]];
    assert_eq!(replayed(&kinds, 2, 16, &[1, 0, 1, 0, 2, 1, 2, 0]), (accepted(3, [2, 2, 1], 0), phases));
    // Behind a finish child the range goes to the end of the root; what is stolen inside the child is not in it.
    let kinds = [2, 1, 3, 3, 1, 3, 3];
    assert_eq!(replayed(&kinds, 2, 16, &[1, 0, 5, 0, 2, 0, 4, 0]), (refused(15, 1), vec![]));
    let phases = vec![vec![0, 1, 3], vec![2], vec![4, 6, 5]];
    assert_eq!(replayed(&kinds, 2, 16, &[1, 0, 2, 0, 2, 0, 4, 0]), (accepted(3, [3, 1, 3], 0), phases));
}

/// Replay waits for no finish child, and any order of steals is read.
#[test]
fn what_no_scheduler_makes() {
    // Worker 0 keeps what follows the finish child though its inside is another's.
    assert_eq!(replayed(&[2, 1, 3, 3, 3], 2, 16, &[1, 0, 2, 0]), (accepted(2, [4, 1, 0], 0), vec![vec![0, 1, 3, 4], vec![2]]));
    // The newest first.
    let phases = vec![vec![0, 2, 3, 5], vec![6], vec![4], vec![1]];
    assert_eq!(replayed(&S, 2, 16, &[1, 0, 6, 0, 2, 0, 4, 0, 1, 0, 1, 0]), (accepted(4, [4, 2, 1], 0), phases));
    // Worker 1 steals twice, and what its phase 1 has is never run by phase 2.
    let phases = vec![vec![0, 1, 2, 3, 4], vec![6], vec![5]];
    assert_eq!(replayed(&S, 1, 16, &[1, 0, 2, 0, 1, 0, 1, 0]), (accepted(3, [5, 2, 0], 0), phases));
}

/// Sums above four bytes, and the lowest numbered of equal workers.
#[test]
fn loads_and_heaviest() {
    let mut bytes = tree_of_kinds(&S);
    let mut list = [0; 28];
    for step in 0..7 {
        bytes[8 * step + 4..8 * step + 8].copy_from_slice(&[255; 4]);
    }
    let most = u64::from(u32::MAX);
    assert_eq!(library::replay(&bytes, 1, 16, &P1_TRACE, &mut list), accepted(4, [3 * most, 3 * most, most], 0));
    for step in 0..7 {
        let weight = u8::from(step == 1 || step == 4);
        bytes[8 * step + 4..8 * step + 8].copy_from_slice(&[weight, 0, 0, 0]);
    }
    let got = library::replay(&bytes, 2, 16, &[9, 0, 4, 0, 3, 0, 1, 0], &mut list);
    assert_eq!((got.loads[0], got.loads[3], got.loads[9], got.heaviest), (0, 1, 1, 3));
    bytes.chunks_mut(8).for_each(|record| record[4] = 0);
    assert_eq!(library::replay(&bytes, 2, 16, &[9, 0, 4, 0, 3, 0, 1, 0], &mut list), accepted(3, [0; 3], 0));
}

/// The tree of one end has nothing to steal.
#[test]
fn empty_slices() {
    let one = tree_of_kinds(&[3]);
    let mut list = [0xEE; 4];
    for policy in [1, 2] {
        assert_eq!(library::replay(&one, policy, 16, &[], &mut list), accepted(1, [1, 0, 0], 0));
        assert_eq!(list, [0; 4]);
        for number in [0, 1, 255] {
            assert_eq!(library::replay(&one, policy, 16, &[1, 0, number, 0], &mut list), refused(15, 0));
        }
        assert_eq!(library::replay(&one, policy, 16, &[], &mut []), refused(7, 0));
        assert_eq!(library::replay(&[], policy, 16, &[], &mut []), refused(2, 0));
    }
    assert_eq!(library::replay(&[], 0, 16, &[], &mut []), refused(1, 0));
}

// ---- Stack ----

/// The most stack that a call may use.
const MOST_STACK: usize = 96 * 1_024;

#[test]
fn stack_of_a_call() {
    let mut most = 0;
    for seed in 0..24 {
        let mut rng = Rng::new(seed);
        let policy = 1 + (seed / 4 % 2) as u8;
        let (bytes, trace) = if seed < 16 {
            let bytes = tree_with(&mut rng, SHAPES[seed as usize % 4], 2_047, 30, Weights::Mixed);
            let plan = Steals::any(&mut rng, 16);
            let trace = accepted_trace(&mut rng, policy_of(policy), &read(&bytes), &plan);
            (bytes, trace)
        } else {
            longest_traces(policy).swap_remove(seed as usize % 3)
        };
        let mut list = vec![0; needed(&bytes)];
        let mut answer = refused(0, 0);
        let used = stack::used_by(&mut || answer = library::replay(&bytes, policy, 16, &trace, &mut list));
        assert_eq!((answer.number, answer.phases), (0, trace.len() / 4 + 1), "seed {seed}");
        assert!(used <= MOST_STACK, "seed {seed}: {used} bytes");
        most = most.max(used);
    }
    // Not by a macro, whose line the test runner would keep to itself.
    writeln!(std::io::stderr(), "stack of a replay, the most: {most} bytes of {MOST_STACK}").expect("a line can be written");
}
