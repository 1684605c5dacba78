//! Histograms over the C interface against the simulator: every answer, every count and every byte of the run list, which holds
//! random bytes when it is lent; and beside what replay itself answers and writes. Each slice lies before or behind a guard page.
//! A failure names its seed.

#[path = "library/guarded.rs"]
mod guarded;
#[path = "library/histograms.rs"]
mod histograms;
#[path = "library/lent.rs"]
mod lent;
mod library;
#[path = "library/replays.rs"]
mod replays;
#[path = "library/stack.rs"]
mod stack;
#[path = "library/trees.rs"]
mod trees;

use std::fmt;
use std::io::Write;

use frame_tests::add;
use frame_tests::histogram::{bucket, limits, BUCKETS, LIMITS, MAX_TRACES};
use frame_tests::random::{
    accepted_trace, all_stolen, recorded_trace, set_weights, tree, tree_of_kinds, tree_of_weights, tree_with, without_classes,
    Rng, Steals, Weights, SHAPES,
};
use frame_tests::record::record_to_vecs;
use frame_tests::replay::{MAX_TRACE, TRACE_BYTES};
use frame_tests::tree::{MAX_TREE_BYTES, TREE_RECORD};
use guarded::Guarded;
use histograms::{counts, GREATEST_LOAD};
use lent::{about_to_call, put, same_bytes};
use library::{FrameAdded, FrameReplay, Histogram};
use replays::{
    damaged_call, each_with_its_refusal, large_tree, lend_list, longest_traces, needed, number, policy_of, read, small_call,
    some_count, sound, Call,
};

// ---- What holds of every call, whatever the simulator says ----

fn refused(number: usize, position: usize) -> FrameReplay {
    FrameReplay { number, position, phases: 0, loads: [0; 16], heaviest: 0, class_loads: [0; 16] }
}

/// The sum of the counts.
fn phases_of(histogram: &Histogram) -> u64 {
    histogram.counts.iter().map(|&count| u64::from(count)).sum()
}

/// The loads of the phases by the run list of an accepted call.
fn listed_loads(tree: &[u8], list: &[u8], phases: usize) -> Vec<u64> {
    let mut loads = vec![0; phases];
    for record in list[..needed(tree)].chunks(4) {
        let at = TREE_RECORD * number(&record[2..]) + 4;
        loads[number(record)] += u64::from(u32::from_le_bytes([tree[at], tree[at + 1], tree[at + 2], tree[at + 3]]));
    }
    loads
}

/// What replay itself answers and writes, and the histogram by the list written: the one given after a refusal, else one more
/// trace and each phase in the bucket of its load.
fn by_replay(before: &Histogram, call: &Call, got: &FrameAdded, list: &[u8], case: fmt::Arguments) {
    let mut own = call.list.clone();
    let replayed = library::replay(&call.tree, call.policy, call.workers, &call.trace, &mut own);
    if replayed.number == 0 && before.traces >= MAX_TRACES {
        assert_eq!(got.replay, refused(17, 0), "{case}");
        same_bytes(list, &call.list, "list", case);
    } else {
        assert_eq!(got.replay, replayed, "{case}");
        same_bytes(list, &own, "list", case);
    }
    let mut next = *before;
    if got.replay.number == 0 {
        sound(call, &got.replay, list, case);
        next.traces += 1;
        for load in listed_loads(&call.tree, list, got.replay.phases) {
            // As many limits as do not exceed it, and they rise.
            let bucket = limits().partition_point(|&limit| limit <= load);
            next.counts[bucket] = next.counts[bucket].wrapping_add(1);
        }
    }
    same_histogram(&got.histogram, &next, case);
}

fn same_histogram(got: &Histogram, want: &Histogram, case: fmt::Arguments) {
    assert_eq!(got.traces, want.traces, "{case}: traces");
    for k in 0..BUCKETS {
        assert_eq!(got.counts[k], want.counts[k], "{case}: bucket {k}");
    }
}

// ---- The simulator ----

/// How often the calls met each case.
#[derive(Debug)]
struct Seen {
    /// By number; 0 is accepted.
    numbers: [usize; 18],
    /// By bucket, the phases of accepted calls.
    buckets: [usize; BUCKETS],
}

/// The library beside the simulator.
struct Both {
    rooms: [Guarded; 3],
    seen: Seen,
}

impl Both {
    fn new() -> Both {
        Both { rooms: [(); 3].map(|()| Guarded::new(45_000)), seen: Seen { numbers: [0; 18], buckets: [0; BUCKETS] } }
    }

    /// Both sides give the same answer and histogram and leave the same bytes.
    fn same(&mut self, histogram: Histogram, call: &Call, case: fmt::Arguments) -> FrameAdded {
        let mut list = call.list.clone();
        let want = FrameAdded::from(add(&histogram.into(), call.policy, call.workers, &call.tree, &call.trace, &mut list));
        let [a, b, c] = &mut self.rooms;
        let lent_tree = put(a, &call.tree, call.ends[0]);
        let lent_trace = put(b, &call.trace, call.ends[1]);
        let (lent_list, beside) = lend_list(c, call);
        about_to_call(case);
        let got = library::histogram_add(histogram, lent_tree, call.policy, call.workers, lent_trace, lent_list);
        assert_eq!(got.replay, want.replay, "{case}");
        same_histogram(&got.histogram, &want.histogram, case);
        same_bytes(lent_list, &list, "list", case);
        same_bytes(beside, &call.beside, "room beside the list", case);
        same_bytes(lent_tree, &call.tree, "tree", case);
        same_bytes(lent_trace, &call.trace, "trace", case);
        by_replay(&histogram, call, &got, lent_list, case);
        self.seen.numbers[got.replay.number] += 1;
        for (k, seen) in self.seen.buckets.iter_mut().enumerate() {
            *seen += got.histogram.counts[k].wrapping_sub(histogram.counts[k]) as usize;
        }
        got
    }

    /// As above, with this number and position.
    fn numbered(&mut self, histogram: Histogram, call: &Call, want: (usize, usize), case: fmt::Arguments) -> FrameAdded {
        let got = self.same(histogram, call, case);
        assert_eq!((got.replay.number, got.replay.position), want, "{case}");
        got
    }
}

/// A histogram to which the tree of one end, of weight 1, was added so many times.
fn of_traces(traces: u32) -> Histogram {
    Histogram { traces, counts: counts(&[(Some(3), traces)]) }
}

#[test]
fn a_start_is_empty() {
    let start = library::histogram_start();
    assert_eq!(start, Histogram { traces: 0, counts: [0; BUCKETS] });
    assert_eq!(start, of_traces(0));
}

// ---- Buckets ----

/// A flat tree that weighs so much in all, of as few steps as can be.
fn tree_of_load(mut load: u64) -> Vec<u8> {
    let most = u64::from(u32::MAX);
    // An odd count of steps.
    let steps = load.div_ceil(most).max(1) as usize | 1;
    let mut weights = Vec::new();
    for _ in 0..steps {
        weights.push(load.min(most) as u32);
        load -= load.min(most);
    }
    assert_eq!(load, 0);
    tree_of_weights(&[[1, 3].repeat(steps / 2), vec![3]].concat(), &weights)
}

/// Where the library puts the one phase of such a tree.
fn bucket_of(load: u64) -> usize {
    let bytes = tree_of_load(load);
    let mut list = vec![0; needed(&bytes)];
    let got = library::histogram_add(library::histogram_start(), &bytes, 1, 16, &[], &mut list);
    assert_eq!((got.replay.number, got.replay.phases, got.replay.loads[0]), (0, 1, load));
    assert_eq!((got.histogram.traces, phases_of(&got.histogram)), (1, 1), "load {load}");
    got.histogram.counts.iter().position(|&count| count == 1).expect("one count is 1")
}

#[test]
fn each_limit_and_its_neighbours() {
    for (k, &limit) in limits().iter().enumerate() {
        for load in [limit - 1, limit, limit + 1] {
            let got = bucket_of(load);
            assert_eq!(got, bucket(load), "limit {k}, load {load}");
            // The highest limit that does not exceed the load.
            assert!(got == 0 || limits()[got - 1] <= load, "limit {k}, load {load}: bucket {got}");
            assert!(got == LIMITS || limits()[got] > load, "limit {k}, load {load}: bucket {got}");
        }
    }
}

#[test]
fn worked_buckets() {
    for (load, limit) in histograms::BUCKETS_OF_LOADS {
        assert_eq!(bucket_of(load), limit.map_or(0, |k| k + 1), "load {load}");
    }
    assert_eq!(GREATEST_LOAD, (MAX_TREE_BYTES / TREE_RECORD) as u64 * u64::from(u32::MAX));
}

/// Powers of two and their neighbours, and any loads up to the greatest.
#[test]
fn loads_of_all_sizes() {
    let mut rng = Rng::new(0);
    let mut loads: Vec<u64> = (0..44).flat_map(|bit| [(1 << bit) - 1, 1 << bit, (1 << bit) + 1]).collect();
    loads.extend((0..4_000).map(|_| rng.next() >> rng.between(20, 63)));
    for load in loads.into_iter().filter(|&load| load <= GREATEST_LOAD) {
        assert_eq!(bucket_of(load), bucket(load), "load {load}");
    }
}

/// A flat tree and a trace in which every child, of these weights, is a phase of its own.
fn phase_for_each(weights: &[u32]) -> (Vec<u8>, Vec<u8>) {
    let kinds = [[1, 3].repeat(weights.len()), vec![3]].concat();
    let of_steps: Vec<u32> = weights.iter().flat_map(|&weight| [0, weight]).chain([0]).collect();
    let bytes = tree_of_weights(&kinds, &of_steps);
    let (_, _, trace) = record_to_vecs(2, 16, &bytes, &all_stolen(policy_of(2), weights.len()).concat());
    (bytes, trace)
}

/// Each load below 204,700, as the load of a phase among 2,048; then each limit below 2 to the power 32 and its neighbours.
#[test]
fn many_phases_of_known_loads() {
    let mut all: Vec<Vec<u32>> = (0..100).map(|k| (MAX_TRACE as u32 * k..MAX_TRACE as u32 * (k + 1)).collect()).collect();
    let near = limits()[..128].iter().flat_map(|&limit| [limit - 1, limit, limit + 1]);
    all.push(near.filter_map(|load| u32::try_from(load).ok()).collect());
    let mut histogram = library::histogram_start();
    let mut want = [0; BUCKETS];
    for weights in all {
        let (bytes, trace) = phase_for_each(&weights);
        let mut list = vec![0; needed(&bytes)];
        let got = library::histogram_add(histogram, &bytes, 2, 16, &trace, &mut list);
        assert_eq!((got.replay.number, got.replay.phases), (0, weights.len() + 1));
        // Phase 0 has the root's steps, of weight 0.
        want[0] += 1;
        weights.iter().for_each(|&load| want[bucket(load.into())] += 1);
        histogram = got.histogram;
        assert_eq!(histogram.counts, want, "from weight {} on", weights[0]);
    }
    assert_eq!(histogram.traces, 101);
}

// ---- Lists of calls ----

/// A small call, damaged or not. Half of them have weights of all sizes, so that their loads reach many buckets.
fn any_call(rng: &mut Rng) -> Call {
    let mut call = if rng.percent(80) { small_call(rng) } else { damaged_call(rng) };
    if rng.percent(50) {
        for record in call.tree.chunks_exact_mut(TREE_RECORD) {
            let weight = rng.next() as u32 >> rng.below(32);
            record[4..].copy_from_slice(&weight.to_le_bytes());
        }
    }
    call
}

/// One histogram goes through a list of calls, some refused. The counts add up to the phases answered, and the traces are those
/// accepted since the start.
#[test]
fn lists_of_calls() {
    let mut both = Both::new();
    for seed in 0..2_500 {
        let mut rng = Rng::new(seed);
        let mut histogram = library::histogram_start();
        let (mut traces, mut phases) = (0, 0);
        for k in 0..rng.between(1, 50) {
            let call = any_call(&mut rng);
            let got = both.same(histogram, &call, format_args!("seed {seed}, call {k}"));
            histogram = got.histogram;
            traces += u32::from(got.replay.number == 0);
            phases += got.replay.phases as u64;
            assert_eq!((histogram.traces, phases_of(&histogram)), (traces, phases), "seed {seed}, call {k}");
        }
    }
    let seen = both.seen;
    assert!((0..9).chain(13..17).all(|number| seen.numbers[number] > 100), "{seen:?}");
    let filled = seen.buckets.iter().filter(|&&times| times > 0).count();
    assert!(seen.numbers[0] > 15_000 && filled > 140, "{filled} buckets: {seen:?}");
}

/// A list of calls that fills the histogram: from then on 17, where replay refuses nothing.
#[test]
fn lists_of_calls_until_full() {
    let mut both = Both::new();
    for seed in 0..1_000 {
        let mut rng = Rng::new(seed);
        let mut histogram = of_traces(MAX_TRACES - rng.between(1, 6) as u32);
        for k in 0..rng.between(10, 40) {
            let call = any_call(&mut rng);
            histogram = both.same(histogram, &call, format_args!("seed {seed}, call {k}")).histogram;
        }
    }
    let seen = both.seen.numbers;
    assert!((0..9).chain(13..18).all(|number| seen[number] > 50) && seen[17] > 3_000, "{seen:?}");
}

#[test]
fn large_traces() {
    let mut both = Both::new();
    let mut histogram = library::histogram_start();
    let mut phases = 0;
    for seed in 0..64 {
        let mut rng = Rng::new(seed);
        let (bytes, policy) = large_tree(&mut rng, seed);
        let workers = some_count(&mut rng);
        let trace = if seed % 3 == 0 {
            recorded_trace(&mut rng, policy_of(policy), workers.into(), &read(&bytes))
        } else {
            let plan = Steals { careful: 100, lowest: rng.pick(&[98, 100]), ..Steals::any(&mut rng, workers.into()) };
            accepted_trace(&mut rng, policy_of(policy), &read(&bytes), &plan)
        };
        let length = needed(&bytes) + rng.pick(&[0, 0, 1, 100]);
        let call = Call::new(&mut rng, &bytes, policy, workers, &trace, length);
        let got = both.numbered(histogram, &call, (0, 0), format_args!("seed {seed}"));
        histogram = got.histogram;
        phases += got.replay.phases as u64;
    }
    assert_eq!((histogram.traces, phases_of(&histogram)), (64, phases));
    assert!(phases > 10_000, "{phases}");
}

/// The last phase is 2,047, and the list is full.
#[test]
fn as_many_phases_as_a_trace_can_have() {
    let mut both = Both::new();
    let mut rng = Rng::new(0);
    let mut histogram = library::histogram_start();
    for policy in [1, 2] {
        for (k, (mut bytes, trace)) in longest_traces(policy).into_iter().enumerate() {
            let weights = [Weights::Mixed, Weights::Small, Weights::NearMax][k];
            set_weights(&mut rng, &mut bytes, weights);
            let call = Call::new(&mut rng, &bytes, policy, 16, &trace, 16_380);
            let got = both.numbered(histogram, &call, (0, 0), format_args!("policy {policy}, trace {k}"));
            histogram = got.histogram;
        }
    }
    assert_eq!((histogram.traces, phases_of(&histogram)), (6, 6 * 2_048));
}

/// Every list length around the one asked for.
#[test]
fn lists_of_all_lengths() {
    let mut both = Both::new();
    for seed in 0..400 {
        let mut rng = Rng::new(seed);
        let tasks = if seed < 4 { 2_000 + rng.below(48) } else { rng.below(12) };
        let bytes = tree(&mut rng, tasks);
        let (policy, workers) = (rng.between(1, 2) as u8, rng.between(1, 16) as u8);
        let plan = Steals::any(&mut rng, workers.into());
        let trace = accepted_trace(&mut rng, policy_of(policy), &read(&bytes), &plan);
        let need = needed(&bytes);
        let near = (need - 4..=need + 4).chain([0, rng.below(need), need + rng.between(5, 200)]);
        for length in near {
            let call = Call::new(&mut rng, &bytes, policy, workers, &trace, length);
            let number = if length < need { 7 } else { 0 };
            let case = format_args!("seed {seed}, list of {length} bytes");
            both.numbered(library::histogram_start(), &call, (number, 0), case);
            let number = if length < need { 7 } else { 17 };
            both.numbered(of_traces(MAX_TRACES), &call, (number, 0), case);
        }
    }
}

/// Adding the same traces in another order gives the same histogram.
#[test]
fn the_order_of_traces() {
    for seed in 0..200 {
        let mut rng = Rng::new(seed);
        let mut calls: Vec<Call> = (0..rng.between(2, 30)).map(|_| small_call(&mut rng)).collect();
        let all = |calls: &[Call]| {
            calls.iter().fold(library::histogram_start(), |histogram, call| {
                let mut list = call.list.clone();
                library::histogram_add(histogram, &call.tree, call.policy, call.workers, &call.trace, &mut list).histogram
            })
        };
        let first = all(&calls);
        calls.reverse();
        assert_eq!(all(&calls), first, "seed {seed}");
    }
}

/// The classes of the steps do not count: the same trace of a tree without them adds the same.
#[test]
fn classes_change_no_count() {
    let mut changed = 0;
    for seed in 0..5_000 {
        let mut rng = Rng::new(seed);
        let call = small_call(&mut rng);
        let added = |tree: &[u8]| {
            let mut list = call.list.clone();
            library::histogram_add(library::histogram_start(), tree, call.policy, call.workers, &call.trace, &mut list)
        };
        let (got, old) = (added(&call.tree), added(&without_classes(&call.tree)));
        assert_eq!(got.histogram, old.histogram, "seed {seed}");
        changed += usize::from(got.replay.class_loads != old.replay.class_loads);
    }
    assert!(changed > 500, "{changed}");
}

// ---- A full histogram, and which refusal wins ----

/// The tree of one end as often as may be, then 17, again and again.
#[test]
fn a_full_histogram() {
    let one = tree_of_kinds(&[3]);
    let mut histogram = library::histogram_start();
    let mut list = [0xEE; 4];
    for traces in 1..=MAX_TRACES {
        let got = library::histogram_add(histogram, &one, 1, 16, &[], &mut list);
        assert_eq!((got.replay.number, got.replay.phases), (0, 1), "trace {traces}");
        histogram = got.histogram;
        assert_eq!((histogram.traces, histogram.counts[4]), (traces, traces), "trace {traces}");
        if traces % 1_000 == 0 {
            // A refused trace does not count.
            let got = library::histogram_add(histogram, &one, 1, 16, &[0], &mut list);
            assert_eq!(got, FrameAdded { replay: refused(6, 0), histogram }, "trace {traces}");
        }
    }
    assert_eq!(histogram, of_traces(MAX_TRACES));
    list.fill(0xEE);
    for _ in 0..3 {
        let got = library::histogram_add(histogram, &one, 1, 16, &[], &mut list);
        assert_eq!(got, FrameAdded { replay: refused(17, 0), histogram });
        assert_eq!(list, [0xEE; 4]);
    }
}

/// 17 comes after every refusal of the replay itself, with list and histogram kept.
#[test]
fn the_lower_number_wins() {
    let mut both = Both::new();
    let mut full = false;
    each_with_its_refusal(|call, want, case| {
        // Accepted ones are given both; of the many that are refused, one here and the next there.
        full = !full;
        for traces in [of_traces(MAX_TRACES), of_traces(MAX_TRACES - 1)] {
            if want.0 == 0 || full == (traces.traces == MAX_TRACES) {
                let want = if want.0 == 0 && traces.traces == MAX_TRACES { (17, 0) } else { want };
                both.numbered(traces, call, want, case);
            }
        }
    });
    let seen = both.seen.numbers;
    assert!([0, 1, 2, 3, 4, 5, 6, 7, 8, 13, 14, 15, 16, 17].iter().all(|&number| seen[number] > 0), "{seen:?}");
}

/// Every number of traces near 65,535 and near the ends of its bytes.
#[test]
fn every_count_of_traces() {
    let mut both = Both::new();
    let near = [0, 1, 255, 256, 65_533, 65_534, 65_535, 65_536, 65_537, 131_071, 131_072, 1 << 24, 1 << 31, u32::MAX];
    for traces in near {
        let s = tree_of_kinds(&trees::S);
        let call = Call::new(&mut Rng::new(traces.into()), &s, 1, 16, &[1, 0, 1, 0], 28);
        let want = if traces < 65_535 { (0, 0) } else { (17, 0) };
        both.numbered(Histogram { traces, ..library::histogram_start() }, &call, want, format_args!("{traces} traces"));
    }
}

// ---- Damaged histograms ----

/// Any 712 bytes as a histogram.
fn any_histogram(rng: &mut Rng) -> Histogram {
    let mut word = || rng.next() as u32;
    Histogram { traces: word(), counts: [(); BUCKETS].map(|()| word()) }
}

/// Whatever the bytes of a histogram, a call ends within its memory. A count of 4,294,967,295 goes round to 0, and a count of
/// traces of 65,535 or more is full.
#[test]
fn damaged_histograms() {
    let mut both = Both::new();
    for seed in 0..20_000 {
        let mut rng = Rng::new(seed);
        let mut histogram = match rng.below(4) {
            0 => Histogram { traces: u32::MAX, counts: [u32::MAX; BUCKETS] },
            1 => Histogram { traces: 0, counts: [u32::MAX - rng.below(3) as u32; BUCKETS] },
            2 => any_histogram(&mut rng),
            _ => Histogram { traces: rng.below(1 << 16) as u32, ..any_histogram(&mut rng) },
        };
        for k in 0..rng.between(1, 4) {
            let call = any_call(&mut rng);
            histogram = both.same(histogram, &call, format_args!("seed {seed}, call {k}")).histogram;
        }
    }
    let seen = both.seen.numbers;
    assert!((0..9).chain(13..18).all(|number| seen[number] > 100), "{seen:?}");
}

/// The greatest trees and traces, on histograms of the greatest counts.
#[test]
fn large_traces_on_damaged_histograms() {
    let mut both = Both::new();
    for seed in 0..16 {
        let mut rng = Rng::new(seed);
        let policy = 1 + (seed % 2) as u8;
        let (bytes, trace) = longest_traces(policy).swap_remove(seed as usize % 3);
        let call = Call::new(&mut rng, &bytes, policy, 16, &trace, 16_380);
        let traces = rng.pick(&[0, 65_534]);
        both.numbered(Histogram { traces, counts: [u32::MAX; BUCKETS] }, &call, (0, 0), format_args!("seed {seed}"));
        let full = Histogram { traces: u32::MAX, counts: [u32::MAX; BUCKETS] };
        both.numbered(full, &call, (17, 0), format_args!("seed {seed}, full"));
    }
}

// ---- The same call again ----

/// An answer depends on nothing but the histogram and the inputs: not on the bytes lent, on the list's length or on other calls.
#[test]
fn the_same_call_twice() {
    let calls: Vec<(Histogram, Call)> = (0..2_000)
        .map(|seed| {
            let mut rng = Rng::new(seed);
            (any_histogram(&mut rng), small_call(&mut rng))
        })
        .map(|(histogram, call)| (Histogram { traces: histogram.traces % 65_540, ..histogram }, call))
        .collect();
    let found = |fill: u8, more: usize, (histogram, call): &(Histogram, Call)| {
        let need = needed(&call.tree);
        let mut list = vec![fill; need + more];
        let got = library::histogram_add(*histogram, &call.tree, call.policy, call.workers, &call.trace, &mut list);
        let written = if got.replay.number == 0 { need } else { 0 };
        assert!(list[written..].iter().all(|&byte| byte == fill), "{got:?}");
        list.truncate(written);
        (got, list)
    };
    let first: Vec<_> = calls.iter().map(|call| found(0, 0, call)).collect();
    let again: Vec<_> = calls.iter().rev().map(|call| found(0xFF, 7, call)).collect();
    for (seed, (one, other)) in first.iter().zip(again.iter().rev()).enumerate() {
        assert!(one == other, "seed {seed}: another answer");
    }
}

// ---- Worked cases ----

/// A worked case on this histogram: the library's answer, with all that the case says of it but the histogram.
fn worked(histogram: Histogram, case: histograms::Case) -> FrameAdded {
    let (policy, kinds, weights, trace, room, want, loads, _) = case;
    let bytes = tree_of_weights(kinds, weights);
    let mut list = vec![0xEE; room];
    let got = library::histogram_add(histogram, &bytes, policy, 16, trace, &mut list);
    assert_eq!((got.replay.number, got.replay.position), want, "{case:?}");
    assert_eq!(got.replay.phases, loads.len(), "{case:?}");
    if got.replay.number == 0 {
        assert_eq!(listed_loads(&bytes, &list, loads.len()), loads, "{case:?}");
    } else {
        assert_eq!(got.replay, refused(want.0, want.1), "{case:?}");
        assert_eq!(list, vec![0xEE; room], "{case:?}");
    }
    got
}

#[test]
fn worked_cases_of_the_histogram() {
    let mut histogram = library::histogram_start();
    let mut traces = 0;
    for case in histograms::IN_TURN {
        histogram = worked(histogram, case).histogram;
        traces += u32::from(case.5 .0 == 0);
        assert_eq!(histogram, Histogram { traces, counts: counts(case.7) }, "{case:?}");
    }
    assert_eq!(traces, 5);
    for case in histograms::WHERE_FULL {
        let full = of_traces(MAX_TRACES);
        assert_eq!(full.counts, counts(case.7));
        assert_eq!(worked(full, case).histogram, full, "{case:?}");
    }
}

#[test]
fn the_greatest_load() {
    let kinds = [[1, 3].repeat(2_047), vec![3]].concat();
    let bytes = tree_of_weights(&kinds, &[u32::MAX; 4_095]);
    let mut list = vec![0; 16_380];
    for policy in [1, 2] {
        let got = library::histogram_add(library::histogram_start(), &bytes, policy, 1, &[], &mut list);
        assert_eq!((got.replay.number, got.replay.phases, got.replay.loads[0]), (0, 1, GREATEST_LOAD));
        assert_eq!(got.histogram, Histogram { traces: 1, counts: counts(&[(Some(175), 1)]) });
    }
}

#[test]
fn empty_slices() {
    let histogram = of_traces(MAX_TRACES);
    let one = tree_of_kinds(&[3]);
    let refused_with = |tree: &[u8], policy, number| {
        let got = library::histogram_add(histogram, tree, policy, 16, &[], &mut []);
        assert_eq!(got, FrameAdded { replay: refused(number, 0), histogram });
    };
    refused_with(&[], 0, 1);
    refused_with(&[], 1, 2);
    refused_with(&one, 2, 7);
}

// ---- Stack ----

/// The most stack that a call may use.
const MOST_STACK: usize = 96 * 1_024;

#[test]
fn stack_of_a_call() {
    let mut most = 0;
    for seed in 0..24 {
        let mut rng = Rng::new(seed);
        let policy = 1 + (seed / 4 % 2) as u8;
        let (bytes, trace) = if seed < 16 {
            let bytes = tree_with(&mut rng, SHAPES[seed as usize % 4], 2_047, 30, Weights::Mixed);
            let plan = Steals::any(&mut rng, 16);
            let trace = accepted_trace(&mut rng, policy_of(policy), &read(&bytes), &plan);
            (bytes, trace)
        } else {
            longest_traces(policy).swap_remove(seed as usize % 3)
        };
        let mut list = vec![0; needed(&bytes)];
        let histogram = library::histogram_start();
        let mut answer = refused(0, 0);
        let used =
            stack::used_by(&mut || answer = library::histogram_add(histogram, &bytes, policy, 16, &trace, &mut list).replay);
        assert_eq!((answer.number, answer.phases), (0, trace.len() / TRACE_BYTES + 1), "seed {seed}");
        assert!(used <= MOST_STACK, "seed {seed}: {used} bytes");
        most = most.max(used);
    }
    // Not by a macro, whose line the test runner would keep to itself.
    writeln!(std::io::stderr(), "stack of an addition, the most: {most} bytes of {MOST_STACK}").expect("a line can be written");
}
