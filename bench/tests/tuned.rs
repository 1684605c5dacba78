//! The tuned baseline against the simulator, so that what the benchmarks compare with does the same work. Where the simulator takes
//! long, the baseline is held against the library.

use frame_bench::library::{self, FrameAdded, FrameRecord, FrameReplay, FrameSchedule, FrameSpan, Histogram};
use frame_bench::live::expected;
use frame_bench::tuned;
use frame_tests::histogram::{add, limits, BUCKETS};
use frame_tests::random::{
    self, any_count, any_event, any_seed, events_to_record, nearest_count, robbed_in_turn, trace_to_replay, Rng, Weights,
};
use frame_tests::record::{record, EVENT_BYTES};
use frame_tests::replay::{replay, MAX_TRACE};
use frame_tests::schedule::{most_events, schedule};
use frame_tests::span::{span, CHAIN_BYTES};
use frame_tests::tree::TREE_RECORD;
use frame_tests::{Policy, Run, Tree};

/// How many random calls a test makes; `BENCH_CHECKS` asks for another count.
fn checks() -> u64 {
    std::env::var("BENCH_CHECKS").map_or(6_000, |count| count.parse().expect("BENCH_CHECKS is a count"))
}

/// A tree, sometimes a damaged one, and now and then as large as can be.
fn tree(rng: &mut Rng) -> Vec<u8> {
    let most = rng.pick(&[3, 20, 20, 100, 100, 2_047]);
    let tasks = rng.between(0, most);
    if rng.percent(10) {
        random::damaged_tree(rng, tasks)
    } else {
        random::tree(rng, tasks)
    }
}

fn policy(rng: &mut Rng) -> u8 {
    if rng.percent(3) {
        rng.next() as u8
    } else {
        rng.between(1, 2) as u8
    }
}

/// Counts an accepted call by whether one class or several have a load.
fn count_classes(counts: &mut [usize; 2], class_loads: &[u64]) {
    match class_loads.iter().filter(|&&load| load > 0).count() {
        0 => (),
        1 => counts[0] += 1,
        _ => counts[1] += 1,
    }
}

/// A buffer of so many bytes or, rarely, a few less or more; no byte of it is 0.
fn buffer(rng: &mut Rng, bytes: usize) -> Vec<u8> {
    let bytes = match rng.below(20) {
        0 => bytes.saturating_sub(rng.between(1, 5)),
        1 | 2 => bytes + rng.between(1, 9),
        _ => bytes,
    };
    rng.bytes(bytes).into_iter().map(|byte| byte | 1).collect()
}

/// A list for a policy, a count of workers and a tree, or any bytes where policy or tree is refused.
fn list(
    rng: &mut Rng,
    policy: u8,
    workers: u8,
    tree: &[u8],
    make: fn(&mut Rng, Policy, usize, &Tree) -> Vec<u8>,
) -> Vec<u8> {
    match (Policy::parse(policy), Tree::parse(tree)) {
        (Ok(policy), Ok(tree)) => {
            let mut list = make(rng, policy, nearest_count(workers), &tree);
            if rng.percent(3) {
                let bytes = rng.pick(&[1, 2, 3, 8_190, 20_000]);
                list.extend(rng.bytes(bytes));
            }
            list
        }
        _ => rng.bytes(8),
    }
}

#[test]
fn recording() {
    let (mut refusals, mut classes) = ([0; 17], [0; 2]);
    for seed in 0..checks() {
        let rng = &mut Rng::new(seed);
        let (policy, workers, tree) = (policy(rng), any_count(rng), tree(rng));
        let events = list(rng, policy, workers, &tree, events_to_record);
        let n = tree.len() / 8;
        let (log, trace) = (buffer(rng, 4 * n), buffer(rng, 2 * n.max(1) - 2));
        let (mut got, mut want) = ((log.clone(), trace.clone()), (log, trace));
        let answer = tuned::record(&tree, policy, workers, &events, &mut got.0, &mut got.1);
        let expected: FrameRecord = record(policy, workers, &tree, &events, &mut want.0, &mut want.1).into();
        assert_eq!(answer, expected, "seed {seed}");
        assert!(got == want, "seed {seed}: log or trace");
        refusals[answer.number] += 1;
        count_classes(&mut classes, &answer.class_loads);
    }
    assert!(classes.iter().all(|&count| count > 0), "calls of one class and of several: {classes:?}");
    assert!((0..=12).chain([16]).all(|number| refusals[number] > 0), "numbers seen: {refusals:?}");
}

#[test]
fn replaying() {
    let (mut refusals, mut classes) = ([0; 17], [0; 2]);
    for seed in 0..checks() {
        let rng = &mut Rng::new(seed);
        let (policy, workers, tree) = (policy(rng), any_count(rng), tree(rng));
        let trace = list(rng, policy, workers, &tree, trace_to_replay);
        let list = buffer(rng, 4 * (tree.len() / 8));
        let (mut got, mut want) = (list.clone(), list);
        let answer = tuned::replay(&tree, policy, workers, &trace, &mut got);
        let expected: FrameReplay = replay(policy, workers, &tree, &trace, &mut want).into();
        assert_eq!(answer, expected, "seed {seed}");
        assert!(got == want, "seed {seed}: the run list");
        refusals[answer.number] += 1;
        count_classes(&mut classes, &answer.class_loads);
    }
    assert!(classes.iter().all(|&count| count > 0), "calls of one class and of several: {classes:?}");
    assert!([0, 1, 2, 3, 4, 5, 6, 7, 8, 13, 14, 15, 16].iter().all(|&number| refusals[number] > 0), "numbers seen: {refusals:?}");
}

#[test]
fn adding_to_histograms() {
    let mut refusals = [0; 18];
    for seed in 0..checks() {
        let rng = &mut Rng::new(seed);
        let (policy, workers, mut tree) = (policy(rng), any_count(rng), tree(rng));
        let trace = list(rng, policy, workers, &tree, trace_to_replay);
        for record in tree.chunks_exact_mut(TREE_RECORD).filter(|_| seed % 2 == 0) {
            record[4..].copy_from_slice(&(rng.next() as u32 >> rng.below(32)).to_le_bytes());
        }
        let list = buffer(rng, 4 * (tree.len() / 8));
        let (mut got, mut want) = (list.clone(), list);
        let traces = rng.pick(&[0, 1, 65_534, 65_534, 65_535, 65_536, u32::MAX]);
        let histogram = Histogram { traces, counts: [(); BUCKETS].map(|()| rng.next() as u32) };
        let answer = tuned::histogram_add(histogram, &tree, policy, workers, &trace, &mut got);
        let expected: FrameAdded = add(&histogram.into(), policy, workers, &tree, &trace, &mut want).into();
        assert_eq!(answer, expected, "seed {seed}");
        assert!(got == want, "seed {seed}: the run list");
        refusals[answer.replay.number] += 1;
    }
    assert!((0..9).chain(13..18).all(|number| refusals[number] > 0), "numbers seen: {refusals:?}");
}

/// Each limit, one below and one above, as the load of a single phase.
#[test]
fn buckets_at_every_limit() {
    let most = u64::from(u32::MAX);
    for load in limits().iter().flat_map(|&limit| [limit - 1, limit, limit + 1]) {
        let steps = load.div_ceil(most) as usize | 1;
        let mut tree = random::flat_tree(steps / 2);
        for (step, record) in tree.chunks_mut(TREE_RECORD).enumerate() {
            let weight = load.saturating_sub(step as u64 * most).min(most) as u32;
            record[4..].copy_from_slice(&weight.to_le_bytes());
        }
        let mut list = vec![0; 4 * steps];
        let start = Histogram { traces: 0, counts: [0; BUCKETS] };
        let expected: FrameAdded = add(&start.into(), 1, 16, &tree, &[], &mut list).into();
        assert_eq!(tuned::histogram_add(start, &tree, 1, 16, &[], &mut list), expected, "load {load}");
        assert_eq!(expected.replay.loads[0], load);
    }
}

/// Each value of the first four bytes of each record: kind, class and two zeros.
#[test]
fn every_byte_of_a_record() {
    let mut refusals = [0; 17];
    let good = random::tree(&mut Rng::new(0), 3);
    for at in (0..good.len()).filter(|at| at % 8 < 4) {
        for value in 0..=255 {
            let mut tree = good.clone();
            tree[at] = value;
            for policy in [1, 2] {
                let want = Run::start(policy, 16, &tree).map_or_else(|no| (no.number as usize, no.position), |_| (0, 0));
                let recorded = tuned::record(&tree, policy, 16, &[], &mut [0; 28], &mut [0; 12]);
                let replayed = tuned::replay(&tree, policy, 16, &[], &mut [0; 28]);
                let made = tuned::schedule(&tree, policy, 16, 0, &mut [0; 20]);
                let spanned = tuned::span(&tree, &mut [0; 14]);
                let started = tuned::Run::start(&tree, policy, 16).map_or_else(|no| (no.number, no.position), |_| (0, 0));
                assert_eq!((recorded.number, recorded.position), want, "byte {at} is {value}");
                assert_eq!((replayed.number, replayed.position), want, "byte {at} is {value}");
                assert_eq!((made.number, made.position), want, "byte {at} is {value}");
                assert_eq!((spanned.number, spanned.position), want, "byte {at} is {value}");
                assert_eq!(started, want, "byte {at} is {value}");
                refusals[want.0] += 1;
            }
        }
    }
    assert!([0, 3, 5].iter().all(|&number| refusals[number] > 0), "numbers seen: {refusals:?}");
}

#[test]
fn replaying_long_ranges() {
    for policy in [Policy::WorkFirst, Policy::HelpFirst] {
        for spine in [0, 1, 62] {
            let (tree, trace) = robbed_in_turn(policy, spine, MAX_TRACE - spine);
            let byte = if policy == Policy::WorkFirst { 1 } else { 2 };
            let (mut got, mut want) = (vec![0; tree.len() / 2], vec![0; tree.len() / 2]);
            let answer = tuned::replay(&tree, byte, 16, &trace, &mut got);
            assert_eq!(answer, replay(byte, 16, &tree, &trace, &mut want).into(), "{policy:?}, spine {spine}");
            assert!(got == want, "{policy:?}, spine {spine}: the run list");
            assert_eq!(answer.phases, MAX_TRACE + 1);
        }
    }
}

/// All steps are of one class but one, which may be any: what looks for a second class must not miss it.
#[test]
fn a_step_of_another_class() {
    let rng = &mut Rng::new(0);
    for tasks in [0, 1, 14, 15, 16, 17, 31, 32, 49, 2_047] {
        let mut tree = random::tree(rng, tasks);
        random::set_classes(rng, &mut tree, random::Classes::One);
        let n = tree.len() / 8;
        let (most, least) = (tree[1], (tree[1] + rng.between(1, 15) as u8) % 16);
        // In the largest tree its first and its last steps.
        for step in (0..n).filter(|&step| step < 100 || step + 100 >= n) {
            tree[8 * step + 1] = least;
            let (mut got, mut want) = (vec![0; 4 * n], vec![0; 4 * n]);
            let (mut got_trace, mut want_trace) = (vec![0; 2 * n - 2], vec![0; 2 * n - 2]);
            let recorded = tuned::record(&tree, 1, 16, &[0, 0], &mut got, &mut got_trace);
            let expected: FrameRecord = record(1, 16, &tree, &[0, 0], &mut want, &mut want_trace).into();
            assert_eq!(recorded, expected, "{n} steps, step {step}");
            let replayed = tuned::replay(&tree, 2, 16, &[], &mut got);
            let expected: FrameReplay = replay(2, 16, &tree, &[], &mut want).into();
            assert_eq!(replayed, expected, "{n} steps, step {step}");
            tree[8 * step + 1] = most;
        }
    }
}

#[test]
fn making_schedules() {
    let mut refusals = [0; 17];
    for seed in 0..checks() {
        let rng = &mut Rng::new(seed);
        let (policy, workers, tree, drawn) = (policy(rng), any_count(rng), tree(rng), any_seed(rng));
        let events = buffer(rng, EVENT_BYTES * most_events((tree.len() / 8).max(1)));
        let (mut got, mut want) = (events.clone(), events);
        let answer = tuned::schedule(&tree, policy, workers, drawn, &mut got);
        let expected: FrameSchedule = schedule(policy, workers, &tree, drawn, &mut want).into();
        assert_eq!(answer, expected, "seed {seed}");
        assert!(got == want, "seed {seed}: the events");
        refusals[answer.number] += 1;
    }
    assert!([0, 1, 2, 3, 4, 5, 7, 16].iter().all(|&number| refusals[number] > 0), "numbers seen: {refusals:?}");
}

/// A tree with weights, often such that many chains weigh the same, sometimes a damaged tree.
fn weighed_tree(rng: &mut Rng) -> Vec<u8> {
    let most = rng.pick(&[3, 20, 20, 100, 100, 2_047]);
    let tasks = rng.between(0, most);
    match rng.below(10) {
        0 => {
            let mut tree = random::damaged_tree(rng, tasks);
            random::set_weights(rng, &mut tree, Weights::Tied);
            tree
        }
        1 | 2 => {
            let mut tree = random::finish_tree(rng, tasks);
            let weights = rng.pick(&random::WEIGHTS);
            random::set_weights(rng, &mut tree, weights);
            tree
        }
        _ => random::weighed_tree(rng, tasks),
    }
}

/// How many steps a tree has at most for which the simulator is asked.
const SIMULATED: usize = 401;

#[test]
fn work_and_span() {
    let (mut refusals, mut with_zero, mut simulated) = ([0; 17], 0, 0);
    for seed in 0..checks() {
        let rng = &mut Rng::new(seed);
        let tree = weighed_tree(rng);
        let chain = buffer(rng, CHAIN_BYTES * (tree.len() / TREE_RECORD));
        let (mut got, mut want) = (chain.clone(), chain.clone());
        let answer = tuned::span(&tree, &mut got);
        assert_eq!(answer, library::span(&tree, &mut want), "seed {seed}");
        assert!(got == want, "seed {seed}: the chain");
        if tree.len() <= TREE_RECORD * SIMULATED {
            want = chain;
            assert_eq!(answer, span(&tree, &mut want).into(), "seed {seed}");
            assert!(got == want, "seed {seed}: the chain");
            simulated += 1;
        }
        refusals[answer.number] += 1;
        let steps = got[..CHAIN_BYTES * answer.length].chunks(CHAIN_BYTES).map(|step| u16::from_le_bytes([step[0], step[1]]));
        with_zero += usize::from(steps.into_iter().any(|step| tree[TREE_RECORD * usize::from(step) + 4..][..4] == [0; 4]));
    }
    assert!(with_zero > 0 && simulated > 0, "with a step of no weight: {with_zero}, simulated: {simulated}");
    assert!([0, 2, 3, 4, 5, 7].iter().all(|&number| refusals[number] > 0), "numbers seen: {refusals:?}");
}

/// All trees of up to seven steps with all weights up to 2.
#[test]
fn work_and_span_of_small_trees() {
    for mut tree in (0..=3).flat_map(random::all_trees) {
        let n = tree.len() / TREE_RECORD;
        for weights in 0..3_usize.pow(n as u32) {
            let mut left = weights;
            for record in tree.chunks_mut(TREE_RECORD) {
                record[4] = (left % 3) as u8;
                left /= 3;
            }
            let (mut got, mut want) = ([255; 14], [255; 14]);
            let expected: FrameSpan = span(&tree, &mut want).into();
            assert_eq!(tuned::span(&tree, &mut got), expected, "{tree:?}");
            assert_eq!(got, want, "{tree:?}");
        }
    }
}

/// Single events, refused ones among them, each with the answer of the simulator.
#[test]
fn single_events() {
    let mut refusals = [0; 17];
    for seed in 0..checks() {
        let rng = &mut Rng::new(seed);
        let (policy, workers, tree) = (policy(rng), any_count(rng), tree(rng));
        let started = Run::start(policy, workers, &tree);
        let tuned = tuned::Run::start(&tree, policy, workers);
        let (mut run, mut tuned) = match (started, tuned) {
            (Ok(run), Ok(tuned)) => (run, tuned),
            (Err(want), Err(got)) => {
                assert_eq!((got.number, got.position), (want.number as usize, want.position), "seed {seed}");
                refusals[got.number] += 1;
                continue;
            }
            _ => panic!("seed {seed}: one start is refused, the other is not"),
        };
        let count = run.workers.len();
        let taking_part = rng.between(1, count);
        for at in 0..3 * run.tree.count() {
            let [first, second] = any_event(rng, taking_part, count);
            let got = tuned.event(first, second);
            assert_eq!(got, expected(&mut run, first, second), "seed {seed}, event {at}");
            refusals[got.number] += 1;
        }
    }
    assert!([0, 1, 2, 3, 4, 5, 8, 9, 10, 11, 12, 16].iter().all(|&number| refusals[number] > 0), "numbers seen: {refusals:?}");
}
