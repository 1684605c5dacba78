//! Whole recordings over the C interface against the simulator: every answer and every byte of both outputs, which hold
//! random bytes when they are lent. Each slice lies before or behind a guard page. A failure names its seed.

#[path = "library/classes.rs"]
mod classes;
#[path = "library/counts.rs"]
mod counts;
#[path = "library/guarded.rs"]
mod guarded;
#[path = "library/lent.rs"]
mod lent;
mod library;
#[path = "library/piles.rs"]
mod piles;
#[path = "library/stack.rs"]
mod stack;
#[path = "library/trees.rs"]
mod trees;

use std::fmt;

use frame_tests::random::{
    accepted_bytes, all_stolen, any_count, any_event, damaged_tree, drive, events_to_record, finish_tree, flat_tree,
    nearest_count, run_all_but, tree, tree_of_kinds, tree_with, without_classes, Plan, Rng, Weights, SHAPES,
};
use frame_tests::record::{record, MAX_EVENTS};
use frame_tests::run::{Policy, Run};
use frame_tests::tree::Tree;
use guarded::Guarded;
use lent::{about_to_call, put, same_bytes};
use library::{FrameRecord, RUN};
use piles::{piles, Pile};
use trees::{trees, S};

/// What a record call is given.
struct Call {
    tree: Vec<u8>,
    policy: u8,
    workers: u8,
    events: Vec<u8>,
    /// The outputs as they are lent.
    log: Vec<u8>,
    trace: Vec<u8>,
    /// For each of the four slices whether the guard page follows it.
    ends: [bool; 4],
}

impl Call {
    /// A call with outputs of these lengths.
    fn new(rng: &mut Rng, tree: &[u8], policy: u8, workers: u8, events: &[u8], lengths: [usize; 2]) -> Call {
        Call {
            tree: tree.to_vec(),
            policy,
            workers,
            events: events.to_vec(),
            log: rng.bytes(lengths[0]),
            trace: rng.bytes(lengths[1]),
            ends: [(); 4].map(|()| rng.percent(50)),
        }
    }
}

/// The bytes of log and trace that a tree asks for.
fn needed(tree: &[u8]) -> [usize; 2] {
    let n = tree.len() / 8;
    [4 * n, 2 * n.saturating_sub(1)]
}

/// Lengths that are mostly enough: exact, longer, and some short.
fn lengths(rng: &mut Rng, tree: &[u8]) -> [usize; 2] {
    needed(tree).map(|need| match rng.below(20) {
        0 => rng.between(0, need),
        1..=9 => need,
        _ => need + rng.between(1, 50),
    })
}

/// How often the calls met each case.
#[derive(Default, Debug)]
struct Seen {
    /// By number; 0 is accepted.
    numbers: [usize; 17],
    finished: usize,
    steals: usize,
    /// Accepted, and worker 0 is not the heaviest.
    other_heaviest: usize,
    /// Accepted, and the heaviest worker has an equal.
    equals: usize,
    /// Accepted, and another class than 0 has a load.
    other_classes: usize,
    /// Accepted, and class 0 has all the load, which is not 0.
    class_0_alone: usize,
}

/// The library beside the simulator.
struct Both {
    rooms: [Guarded; 4],
    seen: Seen,
}

impl Both {
    fn new() -> Both {
        Both { rooms: [(); 4].map(|()| Guarded::new(45_000)), seen: Seen::default() }
    }

    /// Both sides give the same answer and leave the same bytes.
    fn same(&mut self, call: &Call, case: fmt::Arguments) -> FrameRecord {
        let (mut log, mut trace) = (call.log.clone(), call.trace.clone());
        let want = FrameRecord::from(record(call.policy, call.workers, &call.tree, &call.events, &mut log, &mut trace));
        let [a, b, c, d] = &mut self.rooms;
        let lent_tree = put(a, &call.tree, call.ends[0]);
        let lent_events = put(b, &call.events, call.ends[1]);
        let lent_log = put(c, &call.log, call.ends[2]);
        let lent_trace = put(d, &call.trace, call.ends[3]);
        about_to_call(case);
        let got = library::record(lent_tree, call.policy, call.workers, lent_events, lent_log, lent_trace);
        assert_eq!(got, want, "{case}");
        assert_eq!(got.class_loads.iter().sum::<u64>(), got.loads.iter().sum(), "{case}");
        same_bytes(lent_log, &log, "log", case);
        same_bytes(lent_trace, &trace, "trace", case);
        same_bytes(lent_tree, &call.tree, "tree", case);
        same_bytes(lent_events, &call.events, "events", case);
        self.count(&got);
        got
    }

    /// As above, with this number and position.
    fn numbered(&mut self, call: &Call, want: (usize, usize), case: fmt::Arguments) {
        let got = self.same(call, case);
        assert_eq!((got.number, got.position), want, "{case}");
    }

    fn count(&mut self, got: &FrameRecord) {
        let seen = &mut self.seen;
        seen.numbers[got.number] += 1;
        if got.number == 0 {
            seen.finished += got.finished;
            seen.steals += got.steals;
            seen.other_heaviest += usize::from(got.heaviest != 0);
            let most = got.loads[got.heaviest];
            seen.equals += usize::from(got.loads.iter().filter(|&&load| load == most).count() > 1);
            let others = got.class_loads[1..].iter().any(|&load| load > 0);
            seen.other_classes += usize::from(others);
            seen.class_0_alone += usize::from(!others && got.class_loads[0] > 0);
        }
    }
}

/// The simulator's reading of a policy that is one.
fn policy_of(byte: u8) -> Policy {
    Policy::parse(byte).expect("the policy is one")
}

fn byte_of(policy: Policy) -> u8 {
    match policy {
        Policy::WorkFirst => 1,
        Policy::HelpFirst => 2,
    }
}

// ---- Random calls ----

#[test]
fn small_calls() {
    let mut both = Both::new();
    for seed in 0..90_000 {
        let mut rng = Rng::new(seed);
        let tasks = if rng.percent(5) { rng.below(120) } else { rng.below(25) };
        let bytes = tree(&mut rng, tasks);
        let (policy, workers) = (rng.between(1, 2) as u8, any_count(&mut rng));
        let read = Tree::parse(&bytes).expect("the tree is accepted");
        let events = events_to_record(&mut rng, policy_of(policy), nearest_count(workers), &read);
        let lengths = lengths(&mut rng, &bytes);
        let call = Call::new(&mut rng, &bytes, policy, workers, &events, lengths);
        both.same(&call, format_args!("seed {seed}"));
    }
    let seen = both.seen;
    assert!(seen.numbers[0] > 30_000 && seen.finished > 20_000 && seen.steals > 100_000, "{seen:?}");
    assert!([7, 8, 9, 10, 11, 12, 16].iter().all(|&number| seen.numbers[number] > 1_000), "{seen:?}");
    assert!(seen.other_heaviest > 8_000 && seen.equals > 5_000, "{seen:?}");
    assert!(seen.other_classes > 10_000 && seen.class_0_alone > 5_000, "{seen:?}");
}

/// A run of a tree to its end.
fn whole_run(rng: &mut Rng, tree: &[u8], policy: u8, workers: u8) -> Vec<u8> {
    let mut run = Run::start(policy, workers, tree).expect("the tree is accepted");
    let plan = Plan::any(rng, workers.into());
    let tried = drive(rng, &mut run, &plan);
    assert!(run.finished(), "the run is finished");
    accepted_bytes(&tried)
}

#[test]
fn large_runs() {
    let mut both = Both::new();
    for seed in 0..160 {
        let mut rng = Rng::new(seed);
        let shape = SHAPES[seed as usize % 4];
        let policy = 1 + (seed / 4 % 2) as u8;
        let tasks = if seed / 8 % 2 == 0 { 2_047 } else { rng.between(100, 2_047) };
        let finish = rng.pick(&[0, 20, 50, 80, 100]);
        let weights = rng.pick(&[Weights::Mixed, Weights::Mixed, Weights::Max, Weights::One]);
        let bytes = tree_with(&mut rng, shape, tasks, finish, weights);
        let workers = if rng.percent(30) { 16 } else { rng.between(1, 16) as u8 };
        let events = whole_run(&mut rng, &bytes, policy, workers);
        let more = rng.pick(&[0, 0, 1, 100]);
        let lengths = needed(&bytes).map(|need| need + more);
        let call = Call::new(&mut rng, &bytes, policy, workers, &events, lengths);
        let got = both.same(&call, format_args!("seed {seed}"));
        assert_eq!((got.number, got.logs, got.finished), (0, 2 * tasks + 1, 1), "seed {seed}");
        // Cut short, and with an event in between that is refused.
        let at = rng.below(events.len() / 2);
        let (before, behind) = events.split_at(2 * at);
        let call = Call::new(&mut rng, &bytes, policy, workers, before, lengths);
        both.numbered(&call, (0, 0), format_args!("seed {seed}, {at} events"));
        let refused = [before, &[workers / 2, workers], behind].concat();
        let call = Call::new(&mut rng, &bytes, policy, workers, &refused, lengths);
        both.numbered(&call, (8, at), format_args!("seed {seed}, refused at {at}"));
    }
    let seen = both.seen;
    assert!(seen.finished == 160 && seen.steals > 40_000 && seen.other_heaviest > 100, "{seen:?}");
}

/// Every spawned task is stolen: both outputs are full, and the last phase is 2,047. Two workers are enough.
#[test]
fn as_many_steals_as_a_run_can_have() {
    let mut both = Both::new();
    let bytes = flat_tree(2_047);
    for (policy, workers) in [(1, 16), (2, 16), (1, 2), (2, 2)] {
        let case = format!("policy {policy}, {workers} workers");
        let events = all_stolen(policy_of(policy), 2_047).concat();
        let call = Call::new(&mut Rng::new(policy.into()), &bytes, policy, workers, &events, [16_380, 8_188]);
        let got = both.same(&call, format_args!("{case}"));
        assert_eq!((got.number, got.logs, got.steals, got.finished), (0, 4_095, 2_047, 1), "{case}");
    }
}

#[test]
fn damaged_trees_and_odd_lengths() {
    let mut both = Both::new();
    for seed in 0..90_000 {
        let mut rng = Rng::new(seed);
        let tasks = rng.below(20);
        let bytes = match rng.below(10) {
            0..=6 => damaged_tree(&mut rng, tasks),
            7 => tree(&mut rng, tasks),
            _ => {
                let len = rng.below(200);
                rng.bytes(len)
            }
        };
        let policy = rng.pick(&[1, 1, 1, 1, 2, 2, 2, 2, 0, 3, 255]);
        let workers = any_count(&mut rng);
        let count = nearest_count(workers);
        let mut events = match (Policy::parse(policy), Tree::parse(&bytes)) {
            (Ok(policy), Ok(tree)) => events_to_record(&mut rng, policy, count, &tree),
            _ => (0..rng.below(20)).flat_map(|_| any_event(&mut rng, count, count)).collect(),
        };
        if rng.percent(20) {
            events.push(rng.next() as u8);
        }
        let lengths = lengths(&mut rng, &bytes);
        let call = Call::new(&mut rng, &bytes, policy, workers, &events, lengths);
        let got = both.same(&call, format_args!("seed {seed}"));
        // A start refuses the same with 1 to 5 and 16, and nothing else.
        let started = library::start(&bytes, policy, workers);
        let want = if got.number <= 5 || got.number == 16 { (got.number, got.position) } else { (0, 0) };
        assert_eq!((started.number, started.position), want, "seed {seed}");
    }
    let seen = both.seen;
    assert!([0, 1, 2, 3, 4, 5, 6, 7, 16].iter().all(|&number| seen.numbers[number] > 400), "{seen:?}");
}

/// Only 1 to 16 are counts. Worker 0 runs everything, so any of them is enough.
#[test]
fn every_count_byte() {
    let mut both = Both::new();
    for seed in 0..20 {
        let mut rng = Rng::new(seed);
        let tasks = rng.below(12);
        let bytes = tree(&mut rng, tasks);
        let policy = rng.between(1, 2) as u8;
        let events = whole_run(&mut rng, &bytes, policy, 1);
        for workers in 0..=255 {
            let call = Call::new(&mut rng, &bytes, policy, workers, &events, needed(&bytes));
            let want = if (1..=16).contains(&workers) { (0, 0) } else { (16, 0) };
            both.numbered(&call, want, format_args!("seed {seed}, {workers} workers"));
        }
    }
}

/// Byte 1 is a class from 0 to 15, bytes 2 and 3 are 0, and the same events are accepted on every such tree.
#[test]
fn every_class_byte() {
    let mut both = Both::new();
    for seed in 0..20 {
        let mut rng = Rng::new(seed);
        let tasks = rng.below(12);
        let bytes = tree(&mut rng, tasks);
        let (policy, workers) = (rng.between(1, 2) as u8, rng.between(1, 16) as u8);
        let events = whole_run(&mut rng, &bytes, policy, workers);
        for (k, (bytes, want)) in classes::every_byte(&mut rng, &bytes).into_iter().enumerate() {
            let call = Call::new(&mut rng, &bytes, policy, workers, &events, needed(&bytes));
            both.numbered(&call, want, format_args!("seed {seed}, tree {k}"));
        }
    }
}

/// Without its classes a tree gives the same answers and bytes, but that class 0 has all the load.
#[test]
fn classes_change_nothing_else() {
    let mut changed = 0;
    for seed in 0..20_000 {
        let mut rng = Rng::new(seed);
        let tasks = if rng.percent(1) { rng.below(2_048) } else { rng.below(25) };
        let bytes = tree(&mut rng, tasks);
        let (policy, workers) = (rng.between(1, 2) as u8, rng.between(1, 16) as u8);
        let read = Tree::parse(&bytes).expect("the tree is accepted");
        let events = events_to_record(&mut rng, policy_of(policy), workers.into(), &read);
        let lent = lengths(&mut rng, &bytes).map(|length| rng.bytes(length));
        let recorded = |tree: &[u8]| {
            let [mut log, mut trace] = lent.clone();
            let got = library::record(tree, policy, workers, &events, &mut log, &mut trace);
            (got, log, trace)
        };
        let (got, log, trace) = recorded(&bytes);
        let (old, old_log, old_trace) = recorded(&without_classes(&bytes));
        let mut class_loads = [0; 16];
        class_loads[0] = got.loads.iter().sum();
        assert_eq!(old, FrameRecord { class_loads, ..got }, "seed {seed}");
        assert!((old_log, old_trace) == (log, trace), "seed {seed}: another log or trace");
        changed += usize::from(got.class_loads != class_loads);
    }
    assert!(changed > 4_000, "{changed}");
}

// ---- Lengths ----

#[test]
fn outputs_of_all_lengths() {
    let mut both = Both::new();
    for seed in 0..1_500 {
        let mut rng = Rng::new(seed);
        let tasks = if seed < 10 { 2_000 + rng.below(48) } else { rng.below(12) };
        let bytes = tree(&mut rng, tasks);
        let (policy, workers) = (rng.between(1, 2) as u8, rng.between(1, 16) as u8);
        let mut events = whole_run(&mut rng, &bytes, policy, workers);
        // The room is asked for the whole tree, however few the events.
        let kept = if rng.percent(50) { events.len() } else { 2 * rng.between(0, events.len() / 2) };
        events.truncate(kept);
        let [log, trace] = needed(&bytes).map(|need| {
            let below = if need == 0 { vec![] } else { vec![0, rng.below(need), need - 1] };
            [below, vec![need, need + 1, need + rng.between(2, 100)]].concat()
        });
        let needed = needed(&bytes);
        for &log in &log {
            for &trace in &trace {
                let call = Call::new(&mut rng, &bytes, policy, workers, &events, [log, trace]);
                let number = if log < needed[0] || trace < needed[1] { 7 } else { 0 };
                both.numbered(&call, (number, 0), format_args!("seed {seed}, log of {log}, trace of {trace} bytes"));
            }
        }
    }
}

/// A list may have 8,192 events, which is more than any run accepts: then the first one that is refused is named.
#[test]
fn as_many_events_as_a_list_may_have() {
    let mut both = Both::new();
    let bytes = flat_tree(2_047);
    for policy in [1, 2] {
        let run = all_stolen(policy_of(policy), 2_047);
        assert_eq!(run.len(), 6_142);
        // So many events of the run, then one that is refused there, again and again.
        let cases = [
            (0, [0, 255], 8),
            (0, [1, 1], 9),
            (0, [0, 1], 11),
            (5, [16, 16], 8),
            (6_142, [16, 0], 8),
            (6_142, [0, 0], 9),
            (6_142, [1, 0], 12),
        ];
        for (accepted, more, number) in cases {
            for count in [accepted, accepted + 1, MAX_EVENTS - 1, MAX_EVENTS, MAX_EVENTS + 1, 9_000] {
                let mut events = run[..accepted].to_vec();
                events.resize(count, more);
                let mut events = events.concat();
                let want = if count > MAX_EVENTS {
                    (6, 0)
                } else if count > accepted {
                    (number, accepted)
                } else {
                    (0, 0)
                };
                let case = format!("policy {policy}, {count} events, from {accepted} on {more:?}");
                let rng = &mut Rng::new(count as u64);
                let call = Call::new(rng, &bytes, policy, 16, &events, [16_380, 8_188]);
                both.numbered(&call, want, format_args!("{case}"));
                events.push(0);
                let call = Call::new(rng, &bytes, policy, 16, &events, [16_380, 8_188]);
                both.numbered(&call, (6, 0), format_args!("{case}, and a byte"));
            }
        }
    }
}

// ---- Which refusal wins ----

/// A start of a run of S after which one worker is idle, one waits and one can run its step with an empty deque; then events
/// that are refused with 8 to 12 there. The run has four workers or more; the one that is none is at its count.
fn walked(policy: u8, none: u8) -> (Vec<[u8; 2]>, Vec<([u8; 2], usize)>) {
    if policy == 2 {
        let start = vec![[0, 0], [0, 0], [1, 0], [2, 0]];
        (start, vec![([none, none], 8), ([3, 3], 9), ([2, 2], 10), ([2, 0], 11), ([3, 0], 12)])
    } else {
        let start = vec![[0, 0], [1, 0], [1, 1], [2, 1], [1, 1], [0, 0], [0, 1], [1, 1]];
        (start, vec![([none, none], 8), ([1, 1], 9), ([2, 2], 10), ([2, 0], 11), ([1, 0], 12)])
    }
}

/// Lists of events for S with the number and the position of their refusal: whole or not, and with every two of 8 to 12, in
/// one event or in two.
fn lists(policy: u8, none: u8) -> Vec<(Vec<u8>, (usize, usize))> {
    let (start, refused) = walked(policy, none);
    let place = start.len();
    let mut lists = vec![
        (vec![], (0, 0)),
        (start.concat(), (0, 0)),
        (vec![16], (6, 0)),
        ([start.concat(), vec![0]].concat(), (6, 0)),
        ([16; 2 * (MAX_EVENTS + 1)].to_vec(), (6, 0)),
        ([0; 2 * (MAX_EVENTS + 1)].to_vec(), (6, 0)),
        // 8 with 11, 8 with 12, 11 with 12.
        (vec![0, none], (8, 0)),
        (vec![1, none], (8, 0)),
        (vec![none, 0], (8, 0)),
        (vec![0, 1], (11, 0)),
    ];
    for &(first, number) in &refused {
        lists.push(([start.concat(), first.to_vec(), vec![0]].concat(), (6, 0)));
        for &(second, _) in &refused {
            lists.push(([start.concat(), first.to_vec(), second.to_vec()].concat(), (number, place)));
        }
    }
    lists
}

/// All these policies, counts, trees, lists and lengths together: the first refusal in rising order is given, with 16 directly
/// after 1.
#[test]
fn the_lower_number_wins() {
    let mut both = Both::new();
    let trees = trees();
    let outputs = [[28, 12], [40, 20], [27, 12], [28, 11], [27, 11], [0, 12], [28, 0], [0, 0]];
    let mut rng = Rng::new(0);
    let counts = [16, 4, 0, 17];
    for (policy, workers) in [1, 2, 0, 3, 255].into_iter().flat_map(|policy| counts.map(|workers| (policy, workers))) {
        let lists = lists(policy, if workers == 4 { 4 } else { 16 });
        for (t, (tree, of_tree)) in trees.iter().enumerate() {
            for (l, (events, of_list)) in lists.iter().enumerate() {
                for lengths in outputs {
                    let short = lengths[0] < 28 || lengths[1] < 12;
                    let want = if ![1, 2].contains(&policy) {
                        (1, 0)
                    } else if ![4, 16].contains(&workers) {
                        (16, 0)
                    } else if of_tree.0 != 0 {
                        *of_tree
                    } else if short && of_list.0 != 6 {
                        (7, 0)
                    } else {
                        *of_list
                    };
                    let call = Call::new(&mut rng, tree, policy, workers, events, lengths);
                    let case = format_args!("policy {policy}, {workers} workers, tree {t}, list {l}, {lengths:?}");
                    both.numbered(&call, want, case);
                }
            }
        }
    }
    let seen = both.seen.numbers;
    assert!((0..=12).chain([16]).all(|number| seen[number] > 0), "{seen:?}");
}

// ---- Single events ----

/// Recording the accepted events gives what the single events gave, and an event is refused alone exactly as it is behind
/// the accepted events before it.
#[test]
fn as_single_events() {
    let mut refused = [0; 13];
    let mut finished = 0;
    for seed in 0..6_000 {
        let mut rng = Rng::new(seed);
        let tasks = if rng.percent(2) { rng.below(300) } else { rng.below(25) };
        let bytes = tree(&mut rng, tasks);
        let (policy, workers) = (rng.between(1, 2) as u8, rng.between(1, 16) as u8);
        let mut run = Run::start(policy, workers, &bytes).expect("the tree is accepted");
        let any = Plan::any(&mut rng, workers.into());
        let plan = Plan { bad: rng.pick(&[0, 5, 30]), events: rng.pick(&[10, 100, MAX_EVENTS]), ..any };
        let tried = drive(&mut rng, &mut run, &plan);

        let mut state = library::start(&bytes, policy, workers).state;
        let (mut events, mut log, mut trace) = (vec![], vec![], vec![]);
        let [log_bytes, trace_bytes] = needed(&bytes);
        let [empty_log, empty_trace] = [rng.bytes(log_bytes), rng.bytes(trace_bytes)];
        let recorded = |events: &[u8]| {
            let (mut log, mut trace) = (empty_log.clone(), empty_trace.clone());
            let got = library::record(&bytes, policy, workers, events, &mut log, &mut trace);
            (got, log, trace)
        };
        for (k, tried) in tried.iter().enumerate() {
            let [first, second] = tried.event;
            let single = library::event_in_place(&mut state, &bytes, first, second);
            let place = events.len() / 2;
            events.extend(tried.event);
            match single.what {
                1 => log.extend([single.phase as u16, single.step as u16].map(u16::to_le_bytes).concat()),
                2 => trace.extend([[first, second], (single.trace as u16).to_le_bytes()].concat()),
                _ => {
                    let (got, ..) = recorded(&events);
                    assert_eq!((got.number, got.position), (single.number, place), "seed {seed}, event {k}");
                    events.truncate(2 * place);
                    refused[got.number] += 1;
                }
            }
        }
        let (got, got_log, got_trace) = recorded(&events);
        assert_eq!((got.number, got.position), (0, 0), "seed {seed}");
        assert_eq!((got.logs, got.steals), (log.len() / 4, trace.len() / 4), "seed {seed}");
        log.extend_from_slice(&empty_log[log.len()..]);
        trace.extend_from_slice(&empty_trace[trace.len()..]);
        assert!((got_log, got_trace) == (log, trace), "seed {seed}: another log or trace");
        let all = state.place[..bytes.len() / 8].iter().all(|&place| place == RUN);
        assert_eq!(got.finished, usize::from(all), "seed {seed}");
        finished += got.finished;
    }
    assert!(refused[8..].iter().all(|&times| times > 500), "{refused:?}");
    assert!(finished > 1_000 && finished < 5_000, "{finished}");
}

// ---- Polls of those who wait ----

/// The run's workers that wait for a step.
fn waiting(run: &Run) -> Vec<u8> {
    (0..run.workers.len()).filter(|&worker| run.awaited(worker).is_some()).map(|worker| worker as u8).collect()
}

impl Both {
    /// The events that led to this run, then a poll of each worker that waits, and anything behind it: 10 at the poll. Gives the
    /// count of those who wait.
    fn polled(&mut self, rng: &mut Rng, tree: &[u8], run: &Run, events: &[u8], case: fmt::Arguments) -> usize {
        let waiting = waiting(run);
        for &worker in &waiting {
            let more = 2 * rng.below(3);
            let list = [events, &[worker, worker], &rng.bytes(more)].concat();
            let call = Call::new(rng, tree, byte_of(run.policy), run.workers.len() as u8, &list, needed(tree));
            self.numbered(&call, (10, events.len() / 2), format_args!("{case}, worker {worker}"));
        }
        waiting.len()
    }
}

/// After some events of any run, and after all that can be had while some steps do not run.
#[test]
fn lists_with_a_poll() {
    let mut both = Both::new();
    let mut polls = 0;
    for seed in 0..3_000 {
        let mut rng = Rng::new(seed);
        let tasks = if rng.percent(2) { rng.between(150, 2_047) } else { rng.below(60) };
        let bytes = finish_tree(&mut rng, tasks);
        let (policy, workers) = (rng.between(1, 2) as u8, rng.between(2, 16));
        let mut run = Run::start(policy, workers as u8, &bytes).expect("the tree is accepted");
        let plan = Plan { events: rng.below(4 * (tasks + 1)), steals: 95, ..Plan::any(&mut rng, workers) };
        let mut events = accepted_bytes(&drive(&mut rng, &mut run, &plan));
        polls += both.polled(&mut rng, &bytes, &run, &events, format_args!("seed {seed}"));
        let kept: Vec<usize> = (0..rng.between(1, 5)).map(|_| rng.below(bytes.len() / 8)).collect();
        events.extend(run_all_but(&mut run, &kept).concat());
        polls += both.polled(&mut rng, &bytes, &run, &events, format_args!("seed {seed}, all but {kept:?}"));
    }
    assert!(polls > 5_000, "{polls}");
}

/// One end in a finish child is left for last: a poll before it is refused, and one behind it ends the run.
#[test]
fn a_poll_before_the_last_step_of_a_finish_child() {
    let mut both = Both::new();
    let large = [1_023, 4_093].map(|steps| Pile { steps, singles: 1 });
    for (seed, pile) in piles().chain(large).enumerate() {
        let mut rng = Rng::new(seed as u64);
        let bytes = pile.tree();
        let every = if pile.steps < 500 { 1 } else { 97 };
        for left in pile.ends().into_iter().step_by(every) {
            let (policy, workers) = (rng.between(1, 2) as u8, rng.between(3, 8) as u8);
            let case = format!("seed {seed}, {pile:?}, policy {policy}, {workers} workers, step {left}");
            let mut run = Run::start(policy, workers, &bytes).expect("the tree is accepted");
            let mut events = run_all_but(&mut run, &[left]).concat();
            assert_eq!(both.polled(&mut rng, &bytes, &run, &events, format_args!("{case}")), 1, "{case}");
            events.extend(run_all_but(&mut run, &[pile.behind()]).concat());
            assert!(waiting(&run).is_empty(), "{case}");
            events.extend(run_all_but(&mut run, &[]).concat());
            let call = Call::new(&mut rng, &bytes, policy, workers, &events, needed(&bytes));
            let got = both.same(&call, format_args!("{case}"));
            assert_eq!((got.number, got.finished), (0, 1), "{case}");
        }
    }
}

// ---- Document 01's cases ----

/// A call with plain slices, the outputs longer than the tree asks for. Gives what stands at their front; the rest must keep
/// its bytes.
fn recorded(kinds: &[u8], policy: u8, workers: u8, events: &[u8]) -> (FrameRecord, Vec<u8>, Vec<u8>) {
    let bytes = tree_of_kinds(kinds);
    let [mut log, mut trace] = needed(&bytes).map(|need| vec![0xEE; need + 3]);
    let got = library::record(&bytes, policy, workers, events, &mut log, &mut trace);
    for (output, count) in [(&mut log, got.logs), (&mut trace, got.steals)] {
        assert!(output[4 * count..].iter().all(|&byte| byte == 0xEE), "{events:?}");
        output.truncate(4 * count);
    }
    (got, log, trace)
}

/// An accepted call's answer; the loads of the workers beyond these are 0. All steps are class 0.
fn accepted(logs: usize, steals: usize, finished: usize, first: [u64; 3], heaviest: usize) -> FrameRecord {
    let [mut loads, mut class_loads] = [[0; 16]; 2];
    loads[..3].copy_from_slice(&first);
    class_loads[0] = first.iter().sum();
    FrameRecord { number: 0, position: 0, logs, steals, finished, loads, heaviest, class_loads }
}

fn refused(number: usize, position: usize) -> FrameRecord {
    let none = [0; 16];
    FrameRecord { number, position, logs: 0, steals: 0, finished: 0, loads: none, heaviest: 0, class_loads: none }
}

const P1: [u8; 20] = [0, 0, 1, 0, 1, 1, 2, 1, 1, 1, 0, 0, 0, 1, 0, 0, 1, 1, 2, 2];

#[rustfmt::skip]
const P1_LOG: [u8; 28] = [
    0, 0, 0, 0,
    1, 0, 2, 0,
    1, 0, 3, 0,
    0, 0, 1, 0,
    3, 0, 5, 0,
    1, 0, 4, 0,
    2, 0, 6, 0,
];

const P1_TRACE: [u8; 12] = [1, 0, 1, 0, 2, 1, 2, 0, 0, 1, 1, 0];

#[test]
fn p1_and_its_parts() {
    let want = (accepted(7, 3, 1, [3, 3, 1], 0), P1_LOG.to_vec(), P1_TRACE.to_vec());
    for workers in 3..=16 {
        assert_eq!(recorded(&S, 1, workers, &P1), want, "{workers} workers");
    }
    // After so many events: steps run, steals, loads of all that the phases cover, the heaviest.
    let parts: [(usize, usize, [u64; 3], usize); 10] = [
        (0, 0, [7, 0, 0], 0),
        (1, 0, [7, 0, 0], 0),
        (1, 1, [2, 5, 0], 1),
        (2, 1, [2, 5, 0], 1),
        (2, 2, [2, 4, 1], 1),
        (3, 2, [2, 4, 1], 1),
        (4, 2, [2, 4, 1], 1),
        (4, 3, [3, 3, 1], 0),
        (5, 3, [3, 3, 1], 0),
        (6, 3, [3, 3, 1], 0),
    ];
    for (count, (logs, steals, loads, heaviest)) in parts.into_iter().enumerate() {
        let answer = accepted(logs, steals, 0, loads, heaviest);
        let want = (answer, P1_LOG[..4 * logs].to_vec(), P1_TRACE[..4 * steals].to_vec());
        assert_eq!(recorded(&S, 1, 16, &P1[..2 * count]), want, "{count} events");
    }
}

#[test]
fn p2_p5_p6_p7_p10_and_p11() {
    let none = Vec::new;
    let p2 = [&P1[..14], &[1, 1, 2, 2]].concat();
    assert_eq!(recorded(&S, 1, 16, &p2), (refused(10, 8), none(), none()));
    for policy in [1, 2] {
        let p5 = (accepted(1, 0, 1, [1, 0, 0], 0), vec![0; 4], none());
        assert_eq!(recorded(&[3], policy, 16, &[0, 0]), p5);
        assert_eq!(recorded(&[3], policy, 16, &[0, 0, 0, 0]), (refused(9, 1), none(), none()));
        assert_eq!(recorded(&S, policy, 16, &[]), (accepted(0, 0, 0, [7, 0, 0], 0), none(), none()));
        assert_eq!(recorded(&S, policy, 16, &[1, 0]), (refused(12, 0), none(), none()));
        assert_eq!(recorded(&S, policy, 16, &[16, 0]), (refused(8, 0), none(), none()));
    }
}

/// The worked cases of the count, and a whole run of one worker.
#[test]
fn worked_cases_of_the_count() {
    for (policy, workers, kinds, events, want) in counts::RECORDINGS {
        let (got, ..) = recorded(kinds, policy, workers, events);
        let case = format!("policy {policy}, {workers} workers, {kinds:?}, events {events:?}");
        assert_eq!((got.number, got.position), want, "{case}");
        assert!(got.number == 0 || got == refused(want.0, want.1), "{case}: {got:?}");
    }
    let (got, log, trace) = recorded(&S, 2, 1, &[0; 14]);
    assert_eq!(got, accepted(7, 0, 1, [7, 0, 0], 0));
    assert_eq!(log.chunks(4).map(|record| record[2]).collect::<Vec<_>>(), [0, 2, 3, 5, 4, 6, 1]);
    assert!(trace.is_empty());
}

#[test]
fn worked_cases_of_the_classes() {
    let recorded = |tree: &[u8], policy, events: &[u8]| {
        let [mut log, mut trace] = needed(tree).map(|need| vec![0xEE; need]);
        let got = library::record(tree, policy, 16, events, &mut log, &mut trace);
        assert!(got.number == 0 || log.iter().chain(&trace).all(|&byte| byte == 0xEE), "{tree:?}, events {events:?}");
        got
    };
    for (policy, events, loads, heaviest) in classes::RECORDINGS {
        let logs = events.chunks(2).filter(|event| event[0] == event[1]).count();
        let want = accepted(logs, events.len() / 2 - logs, usize::from(logs == 7), loads, heaviest);
        let want = FrameRecord { class_loads: classes::LOADS, ..want };
        assert_eq!(recorded(&classes::C, policy, events), want, "policy {policy}, events {events:?}");
    }
    assert_eq!(recorded(&classes::C, 1, &classes::REFUSED), refused(9, 0));
    for (tree, want) in classes::trees() {
        let got = recorded(&tree, 1, &[]);
        assert_eq!((got.number, got.position), want, "{tree:?}");
        assert!(got.number == 0 || got == refused(want.0, want.1), "{tree:?}: {got:?}");
    }
}

/// P5 with outputs of exactly the bytes it asks for: a trace of none.
#[test]
fn empty_slices() {
    let one = tree_of_kinds(&[3]);
    let mut log = [0xEE; 4];
    assert_eq!(library::record(&one, 1, 16, &[0, 0], &mut log, &mut []), accepted(1, 0, 1, [1, 0, 0], 0));
    assert_eq!(log, [0; 4]);
    assert_eq!(library::record(&one, 1, 16, &[], &mut log, &mut []), accepted(0, 0, 0, [1, 0, 0], 0));
    assert_eq!(library::record(&one, 1, 16, &[], &mut [], &mut []), refused(7, 0));
    assert_eq!(library::record(&[], 1, 16, &[], &mut [], &mut []), refused(2, 0));
    assert_eq!(library::record(&[], 0, 16, &[], &mut [], &mut []), refused(1, 0));
}

// ---- Stack ----

/// The most stack that a call may use.
const MOST_STACK: usize = 96 * 1_024;

#[test]
fn stack_of_a_call() {
    for seed in 0..16 {
        let mut rng = Rng::new(seed);
        let policy = 1 + (seed / 4 % 2) as u8;
        let bytes = tree_with(&mut rng, SHAPES[seed as usize % 4], 2_047, 30, Weights::Mixed);
        let events = whole_run(&mut rng, &bytes, policy, 16);
        let [mut log, mut trace] = needed(&bytes).map(|need| vec![0; need]);
        let mut answer = refused(0, 0);
        let used = stack::used_by(&mut || answer = library::record(&bytes, policy, 16, &events, &mut log, &mut trace));
        assert_eq!((answer.number, answer.finished), (0, 1), "seed {seed}");
        assert!(used <= MOST_STACK, "seed {seed}: {used} bytes");
    }
}
