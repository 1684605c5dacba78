//! Properties over random and over all small trees and schedules.

#[path = "library/chains.rs"]
mod chains;

use std::collections::{HashMap, HashSet};

use frame_tests::cover::{class_loads, covered_steps, loads, Phase};
use frame_tests::histogram::{add, bucket, limits, Big, Histogram, LIMITS};
use frame_tests::phases::phases;
use frame_tests::random::{self, Classes, Plan, Rng, Shape, Weights, SHAPES};
use frame_tests::record::{record, record_to_vecs, RecordAnswer, MAX_EVENTS};
use frame_tests::replay::{replay, replay_to_vecs, Replay, ReplayAnswer};
use frame_tests::run::{Policy, Run};
use frame_tests::schedule::{most_events, schedule, schedule_to_vec, Maker, ScheduleAnswer};
use frame_tests::span::{
    all_before, ends, heaviest_chain, links, span, span_to_vec, SpanAnswer, Steps,
};
use frame_tests::tree::{Kind, TaskKind, Tree};

/// Names the seed if the test fails while this lives.
struct Seed(u64);

impl Drop for Seed {
    fn drop(&mut self) {
        if std::thread::panicking() {
            eprintln!("failed with seed {}", self.0);
        }
    }
}

/// Runs the check for many seeds.
fn for_seeds(seeds: std::ops::Range<u64>, mut check: impl FnMut(u64)) {
    for seed in seeds {
        let _named = Seed(seed);
        check(seed);
    }
}

fn policy_of(byte: u8) -> Policy {
    Policy::parse(byte).unwrap()
}

/// A tree's own weights by class, whoever runs the steps.
fn by_class(tree: &[u8]) -> [u64; 16] {
    let mut sums = [0; 16];
    for r in tree.chunks(8) {
        sums[usize::from(r[1])] += u64::from(u32::from_le_bytes([r[4], r[5], r[6], r[7]]));
    }
    sums
}

/// The live run of these accepted events against the replay of its trace.
fn same_phases(policy: u8, tree: &[u8], run: &Run, events: &[u8]) {
    let workers = run.workers.len() as u8;
    let n = run.tree.count();
    let total = run.tree.total_weight();
    let (recorded, log, trace) = record_to_vecs(policy, workers, tree, events);
    assert_eq!((recorded.number, recorded.position), (0, 0));
    assert_eq!(recorded.log_count, run.log.len());
    assert_eq!(recorded.trace_count, run.trace.len());
    assert_eq!(recorded.finished, run.log.len() == n);
    assert_eq!(recorded.finished, run.finished());
    assert_eq!(recorded.loads.iter().sum::<u64>(), total);

    let (replayed, phases) = replay_to_vecs(policy, workers, tree, &trace);
    assert_eq!((replayed.number, replayed.position), (0, 0));
    // As many phases, the same worker and first step.
    assert_eq!(replayed.phases, recorded.trace_count + 1);
    assert_eq!(replayed.phases, run.phases.len());
    for (k, phase) in run.phases.iter().enumerate() {
        let worker = if k == 0 { 0 } else { usize::from(trace[4 * (k - 1)]) };
        assert_eq!(phase.worker, worker);
        assert_eq!(phases[k][0], phase.first);
    }
    // What each phase ran live leads its replayed steps.
    let mut live = vec![Vec::new(); replayed.phases];
    for r in log.chunks(4) {
        let phase = usize::from(u16::from_le_bytes([r[0], r[1]]));
        live[phase].push(usize::from(u16::from_le_bytes([r[2], r[3]])));
    }
    for k in 0..replayed.phases {
        assert!(phases[k].starts_with(&live[k]), "phase {}", k);
        if recorded.finished {
            assert_eq!(phases[k], live[k], "phase {}", k);
        }
    }
    // The run list holds every step exactly once.
    let mut all: Vec<usize> = phases.concat();
    all.sort_unstable();
    assert_eq!(all, (0..n).collect::<Vec<_>>());
    // The same loads, and they are those of the replayed steps.
    assert_eq!(recorded.loads, replayed.loads);
    assert_eq!(recorded.heaviest, replayed.heaviest);
    assert_eq!(recorded.class_loads, replayed.class_loads);
    assert_eq!(recorded.class_loads, by_class(tree));
    let mut sums = [0u64; 16];
    for (k, steps) in phases.iter().enumerate() {
        for &step in steps {
            sums[run.phases[k].worker] += u64::from(run.tree.weight(step));
        }
    }
    assert_eq!(recorded.loads, sums);
    let most = *sums.iter().max().unwrap();
    assert_eq!(recorded.heaviest, sums.iter().position(|&sum| sum == most).unwrap());
}

/// Facts about a state that only accepted events led to.
fn sound_state(run: &Run) {
    let mut can_go_on = false;
    for worker in 0..run.workers.len() {
        let me = &run.workers[worker];
        assert_eq!(run.is_idle(worker), run.idle_set() >> worker & 1 == 1);
        if run.is_idle(worker) {
            assert!(me.deque.is_empty());
        } else if run.waits(worker) {
            // Only a thief waits, at the first step of its phase.
            assert!(me.deque.is_empty());
            assert_eq!(me.held, Some(run.phases[me.phase.unwrap()].first));
        } else {
            can_go_on = true;
        }
    }
    assert_eq!(run.idle_count(), run.idle_set().count_ones() as usize);
    assert_eq!(run.lowest_idle(), run.idle_set().trailing_zeros() as usize);
    // Somebody can run until all is done; then all are idle.
    assert_eq!(can_go_on, !run.finished());
    assert_eq!(run.finished(), run.idle_count() == run.workers.len());
    // No bit from the count on.
    assert_eq!(u32::from(run.idle_set()) >> run.workers.len(), 0);
}

/// What each step would wait for now is, of the finish child's steps and its
/// descendants' that the log does not have, the highest.
fn sound_waiting(run: &Run) {
    let ran: HashSet<usize> = run.log.iter().map(|record| record.step).collect();
    for step in 0..run.tree.count() {
        let child = run.tree.finish_child_before(step);
        let mut left = child.map_or(vec![], |child| run.tree.steps_with_descendants(child));
        left.retain(|inside| !ran.contains(inside));
        match run.awaited_before(step) {
            None => assert!(left.is_empty()),
            Some(awaited) => {
                assert!(left.contains(&awaited));
                assert!(left.iter().all(|&inside| inside <= awaited));
                // A task's end runs behind all its other steps.
                assert_eq!(run.tree.kind(awaited), Kind::End);
            }
        }
    }
    for (worker, me) in run.workers.iter().enumerate() {
        let awaited = run.awaited(worker);
        assert_eq!(awaited, me.held.and_then(|step| run.awaited_before(step)));
        assert_eq!(awaited.is_some(), run.waits(worker));
        assert_eq!(awaited.is_some(), run.judge(worker as u8, worker as u8) == 10);
    }
}

fn random_schedule(seed: u64, most_tasks: usize) {
    let mut rng = Rng::new(seed);
    let tasks = rng.between(0, most_tasks);
    let tree = random::tree(&mut rng, tasks);
    for policy in [1, 2] {
        let workers = rng.between(1, 16);
        let mut plan = Plan::any(&mut rng, workers);
        plan.bad = rng.pick(&[0, 0, 10, 40]);
        if rng.percent(40) {
            plan.events = rng.between(0, 3 * tasks + 2);
        }
        let mut run = Run::start(policy, workers as u8, &tree).unwrap();
        let tried = random::drive(&mut rng, &mut run, &plan);
        sound_state(&run);
        if plan.events == MAX_EVENTS && plan.bad == 0 {
            assert!(run.finished());
        }
        same_phases(policy, &tree, &run, &random::accepted_bytes(&tried));

        // All tried events in one call: refused at the first bad one.
        let events = random::event_bytes(&tried);
        let (answer, _, _) = record_to_vecs(policy, workers as u8, &tree, &events);
        match tried.iter().position(|t| t.refused != 0) {
            None => assert_eq!(answer.number, 0),
            Some(at) => assert_eq!((answer.number, answer.position), (tried[at].refused, at)),
        }
    }
}

#[test]
fn random_small_schedules() {
    for_seeds(0..4_000, |seed| random_schedule(seed, 12));
}

#[test]
fn random_middle_schedules() {
    for_seeds(10_000..10_400, |seed| random_schedule(seed, 150));
}

#[test]
fn random_large_schedules() {
    for_seeds(20_000..20_016, |seed| random_schedule(seed, 2_047));
}

/// Full trees of every shape, with as many steals as can be had.
#[test]
fn longest_trees() {
    for_seeds(30_000..30_001, |seed| {
        let mut rng = Rng::new(seed);
        for shape in SHAPES {
            for finish in [0, 50, 100] {
                let tree = random::tree_with(&mut rng, shape, 2_047, finish, Weights::Mixed);
                assert_eq!(tree.len(), 32_760);
                for policy in [1, 2] {
                    let plan = Plan { workers: 16, events: MAX_EVENTS, bad: 0, steals: 100 };
                    let mut run = Run::start(policy, 16, &tree).unwrap();
                    let tried = random::drive(&mut rng, &mut run, &plan);
                    assert!(run.finished());
                    same_phases(policy, &tree, &run, &random::accepted_bytes(&tried));
                }
            }
        }
    });
}

/// Each tried event is refused live exactly as recording refuses the
/// accepted events before it followed by this one.
#[test]
fn single_events_against_record() {
    for_seeds(40_000..40_200, |seed| {
        let mut rng = Rng::new(seed);
        let tasks = rng.between(0, 10);
        let tree = random::tree(&mut rng, tasks);
        for policy in [1, 2] {
            let workers = rng.between(1, 5);
            let plan = Plan { workers, events: 60, bad: 50, steals: 50 };
            let count = (workers + rng.below(3)) as u8;
            let mut run = Run::start(policy, count, &tree).unwrap();
            let tried = random::drive(&mut rng, &mut run, &plan);
            let mut before: Vec<u8> = Vec::new();
            for t in tried {
                let position = before.len() / 2;
                before.extend_from_slice(&t.event);
                let (answer, _, _) = record_to_vecs(policy, count, &tree, &before);
                assert_eq!(answer.number, t.refused);
                if t.refused != 0 {
                    assert_eq!(answer.position, position);
                    before.truncate(2 * position);
                }
            }
        }
    });
}

/// Bytes behind the written records keep what they held.
#[test]
fn bytes_behind_the_records() {
    for_seeds(50_000..50_300, |seed| {
        let mut rng = Rng::new(seed);
        let tasks = rng.between(0, 20);
        let tree = random::tree(&mut rng, tasks);
        let n = 2 * tasks + 1;
        for policy in [1, 2] {
            let plan = Plan {
                workers: 4,
                events: rng.between(0, 3 * n),
                bad: rng.pick(&[0, 2]),
                steals: 50,
            };
            let parsed = Tree::parse(&tree).unwrap();
            let events = random::events(&mut rng, policy_of(policy), 4, &parsed, &plan);
            let mut log = vec![0xC3; 4 * n + rng.below(9)];
            let mut trace = vec![0xC3; 4 * tasks + rng.below(9)];
            let answer = record(policy, 4, &tree, &events, &mut log, &mut trace);
            assert!(log[4 * answer.log_count..].iter().all(|&b| b == 0xC3));
            assert!(trace[4 * answer.trace_count..].iter().all(|&b| b == 0xC3));
            let (same, written_log, written_trace) = record_to_vecs(policy, 4, &tree, &events);
            assert_eq!(answer, same);
            assert_eq!(log[..4 * answer.log_count], written_log);
            assert_eq!(trace[..4 * answer.trace_count], written_trace);
        }
    });
}

/// An accepted trace, one that a schedule could give or not: every step
/// stands once in the run list, and each phase runs what it covers.
fn check_trace(policy: u8, workers: u8, tree: &[u8], trace: &[u8]) -> u32 {
    let (answer, phases) = replay_to_vecs(policy, workers, tree, trace);
    if answer.number != 0 {
        assert!(answer.position < trace.len() / 4);
        return answer.number;
    }
    let parsed = Tree::parse(tree).unwrap();
    assert_eq!(answer.phases, trace.len() / 4 + 1);
    let mut all = phases.concat();
    all.sort_unstable();
    assert_eq!(all, (0..parsed.count()).collect::<Vec<_>>());
    assert_eq!(answer.loads.iter().sum::<u64>(), parsed.total_weight());
    assert_eq!(answer.class_loads, by_class(tree));

    let mut replay = Replay::new(policy_of(policy), workers.into(), parsed);
    for r in trace.chunks(4) {
        replay.steal(r[0], r[1], u16::from_le_bytes([r[2], r[3]])).unwrap();
    }
    for (k, phase) in replay.phases.iter().enumerate() {
        let mut steps = phases[k].clone();
        steps.sort_unstable();
        let covered = phase.covers(&replay.tree);
        let covered: Vec<usize> = (0..covered.len()).filter(|&s| covered[s]).collect();
        assert_eq!(steps, covered);
        assert_eq!(phases[k][0], phase.first);
    }
    0
}

#[test]
fn random_traces() {
    let mut seen = HashSet::new();
    for_seeds(60_000..62_000, |seed| {
        let mut rng = Rng::new(seed);
        let tasks = rng.between(0, 30);
        let tree = random::tree(&mut rng, tasks);
        let parsed = Tree::parse(&tree).unwrap();
        for policy in [1, 2] {
            let workers = rng.between(1, 16);
            let bad = rng.pick(&[0, 0, 3, 50]);
            let trace = random::trace(&mut rng, policy_of(policy), workers, &parsed, tasks + 3, bad);
            let number = check_trace(policy, workers as u8, &tree, &trace);
            assert!(bad != 0 || number == 0);
            seen.insert((policy, number));
        }
    });
    for policy in [1, 2] {
        for number in [0, 8, 13, 14, 15] {
            assert!(seen.contains(&(policy, number)), "{} {}", policy, number);
        }
    }
}

#[test]
fn random_large_traces() {
    for_seeds(70_000..70_006, |seed| {
        let mut rng = Rng::new(seed);
        let tree = random::tree(&mut rng, 2_047);
        let parsed = Tree::parse(&tree).unwrap();
        for policy in [1, 2] {
            let trace = random::trace(&mut rng, policy_of(policy), 16, &parsed, 2_047, 0);
            assert_eq!(check_trace(policy, 16, &tree, &trace), 0);
        }
    });
}

/// The maker of accepted traces knows all numbers that the simulator accepts,
/// and goes on while there is one.
#[test]
fn numbers_left_are_those_accepted() {
    for_seeds(75_000..76_500, |seed| {
        let mut rng = Rng::new(seed);
        let tasks = rng.between(0, 15);
        let tree = Tree::parse(&random::tree(&mut rng, tasks)).unwrap();
        let n = tree.count();
        for policy in [Policy::WorkFirst, Policy::HelpFirst] {
            // One worker alone has nobody to steal from.
            let workers = rng.between(2, 16);
            let plan = random::Steals::any(&mut rng, workers);
            let trace = random::accepted_trace(&mut rng, policy, &tree, &plan);
            let mut replay = Replay::new(policy, workers, tree.clone());
            for at in 0..=trace.len() / 4 {
                for &phase in replay.latest.iter().flatten() {
                    let named = |&number: &usize| replay.named_step(phase, number).is_some();
                    let accepted: Vec<usize> =
                        (0..n + 2).chain([4_096, 65_535]).filter(named).collect();
                    let left = random::numbers_left(&replay, phase);
                    assert_eq!(left, accepted.iter().map(|&k| k as u16).collect::<Vec<_>>());
                    assert!(at < trace.len() / 4 || left.is_empty());
                }
                if let Some(r) = trace[4 * at..].chunks(4).next() {
                    replay.steal(r[0], r[1], u16::from_le_bytes([r[2], r[3]])).unwrap();
                }
            }
        }
    });
}

/// The most steals: a flat tree, each phase taking all but one child.
#[test]
fn most_steals() {
    let mut rng = Rng::new(1);
    let tree = random::tree_with(&mut rng, Shape::Flat, 2_047, 0, Weights::Max);
    let mut trace = Vec::new();
    for k in 1..=2_047u16 {
        let victim = (k - 1) % 16;
        trace.extend_from_slice(&random::trace_record((k % 16) as u8, victim as u8, k));
    }
    assert_eq!(check_trace(1, 16, &tree, &trace), 0);
    // Help-first: worker 1 takes every child from worker 0.
    let mut trace = Vec::new();
    for k in 0..2_047u16 {
        trace.extend_from_slice(&random::trace_record(1, 0, 2 * k + 1));
    }
    assert_eq!(check_trace(2, 2, &tree, &trace), 0);
}

/// All schedules of three workers on all trees with up to four spawned
/// tasks. States that differ only in the order of the log between phases
/// are taken once.
#[test]
fn all_small_schedules() {
    assert_eq!(random::all_trees(3).len(), 40);
    let mut states = 0;
    for tasks in 0..=4 {
        for tree in random::all_trees(tasks) {
            for policy in [1, 2] {
                states += all_schedules(policy, &tree);
            }
        }
    }
    assert!(states > 100_000, "{} states", states);
}

fn all_schedules(policy: u8, tree: &[u8]) -> usize {
    let mut seen = HashSet::new();
    let mut open = vec![(Run::start(policy, 3, tree).unwrap(), Vec::new())];
    while let Some((run, events)) = open.pop() {
        let logs: Vec<_> = (0..run.phases.len()).map(|k| run.steps_run_in(k)).collect();
        if !seen.insert(format!("{:?} {:?} {:?}", run.workers, run.trace, logs)) {
            continue;
        }
        sound_state(&run);
        sound_waiting(&run);
        same_phases(policy, tree, &run, &events);
        for first in 0..3 {
            for second in 0..3 {
                let mut next = run.clone();
                if next.event(first, second).is_ok() {
                    let mut more = events.clone();
                    more.extend_from_slice(&[first, second]);
                    open.push((next, more));
                }
            }
        }
    }
    seen.len()
}

/// Event by event: the awaited step stays until it runs itself; then it is a
/// lower one, or none.
#[test]
fn awaited_steps() {
    let all = |run: &Run| -> Vec<Option<usize>> {
        (0..run.tree.count()).map(|step| run.awaited_before(step)).collect()
    };
    // Workers that wait, those of them whose finish child has ended, and
    // awaited steps that ran and left another one to wait for.
    let (mut waiting, mut ended, mut lower) = (0, 0, 0);
    for_seeds(160_000..160_500, |seed| {
        let mut rng = Rng::new(seed);
        let tasks = if rng.percent(5) { rng.between(20, 80) } else { rng.between(1, 20) };
        let tree = random::finish_tree(&mut rng, tasks);
        for policy in [1, 2] {
            let workers = rng.between(1, 16);
            let bad = rng.pick(&[0, 20]);
            let plan = Plan { events: 1, bad, ..Plan::any(&mut rng, workers) };
            let mut run = Run::start(policy, workers as u8, &tree).unwrap();
            while !run.finished() {
                let (before, logged) = (all(&run), run.log.len());
                random::drive(&mut rng, &mut run, &plan);
                sound_waiting(&run);
                let ran = run.log[logged..].first().map(|record| record.step);
                for (old, new) in before.into_iter().zip(all(&run)) {
                    if old.is_some() && old == ran {
                        assert!(new < old);
                        lower += usize::from(new.is_some());
                    } else {
                        assert_eq!(new, old);
                    }
                }
                for worker in (0..workers).filter(|&worker| run.waits(worker)) {
                    let before_held = run.workers[worker].held.map(|step| step - 1);
                    waiting += 1;
                    ended += usize::from(run.awaited(worker) != before_held);
                }
            }
        }
    });
    assert!(waiting > 10_000 && ended > 500 && lower > 500, "{waiting} {ended} {lower}");
}

/// Any steps that end a task can be left for last, and then the highest of
/// them is awaited.
#[test]
fn ends_left_for_last() {
    for_seeds(165_000..165_500, |seed| {
        let mut rng = Rng::new(seed);
        let tasks = rng.between(1, 62);
        let shape = rng.pick(&SHAPES);
        let tree = random::pile(&random::tree_with(&mut rng, shape, tasks, 0, Weights::One));
        for policy in [1, 2] {
            let mut run = Run::start(policy, 8, &tree).unwrap();
            let held = run.tree.count() - 1;
            let is_end = |&step: &usize| run.tree.kind(step) == Kind::End;
            let ends: Vec<usize> = (1..held).filter(is_end).collect();
            let mut kept: Vec<usize> = (0..rng.below(5)).map(|_| rng.pick(&ends)).collect();
            let highest = kept.iter().copied().max();
            kept.push(held);
            random::run_all_but(&mut run, &kept);
            assert!((0..=held).all(|step| run.ran[step] != kept.contains(&step)));
            assert_eq!(run.awaited_before(held), highest);
            random::run_all_but(&mut run, &[]);
            assert!(run.finished());
        }
    });
}

/// All traces of up to three records between three workers.
#[test]
fn all_small_traces() {
    for tasks in 0..=2 {
        for tree in random::all_trees(tasks) {
            let n = tree.len() / 8;
            let mut records = Vec::new();
            for thief in 0..3 {
                for victim in 0..3 {
                    for number in 0..=n {
                        records.push(random::trace_record(thief, victim, number as u16));
                    }
                }
            }
            for policy in [1, 2] {
                let mut open = vec![Vec::new()];
                while let Some(trace) = open.pop() {
                    if check_trace(policy, 3, &tree, &trace) != 0 {
                        continue;
                    }
                    // A trace never has more records than spawned tasks.
                    assert!(trace.len() / 4 <= tasks);
                    for r in &records {
                        let mut more = trace.clone();
                        more.extend_from_slice(r);
                        open.push(more);
                    }
                }
            }
        }
    }
}

/// The answers about an accepted tree, found again in another way.
#[test]
fn tree_answers() {
    for_seeds(80_000..80_300, |seed| {
        let mut rng = Rng::new(seed);
        let tasks = rng.between(0, 120);
        let bytes = random::tree(&mut rng, tasks);
        let tree = Tree::parse(&bytes).unwrap();
        let n = tree.count();
        assert_eq!(n, 2 * tasks + 1);
        assert_eq!(tree.tasks().len(), tasks + 1);
        let mut deepest = 0;
        for step in 0..n {
            assert_eq!(tree.kind(step) as u8 + 1, bytes[8 * step]);
            assert_eq!(tree.class(step), bytes[8 * step + 1]);
            // The end of the child that a record opens: opens and ends even out.
            if tree.kind(step) != Kind::End {
                let mut open = 1;
                let mut at = step;
                while open > 0 {
                    at += 1;
                    if tree.kind(at) == Kind::End {
                        open -= 1;
                    } else {
                        open += 1;
                    }
                }
                let child = tree.child_opened_by(step).unwrap();
                assert_eq!(tree.end_of(child), at);
                assert_eq!(tree.step_after(child), at + 1);
                assert_eq!(tree.task_of(step), tree.task_of(at + 1));
                assert_eq!(tree.ordinal(step) + 1, tree.ordinal(at + 1));
                assert_eq!(tree.child_ended_before(at + 1), Some(child));
                assert_eq!(
                    tree.finish_child_before(at + 1),
                    Some(child).filter(|_| tree.kind(step) == Kind::OpenFinish)
                );
                let inside: Vec<usize> = (step + 1..=at).collect();
                assert_eq!(tree.steps_with_descendants(child), inside);
                assert_eq!(tree.first_of_async_child(step + 1), tree.kind(step) == Kind::OpenAsync);
                assert_eq!(tree.finish_child_before(step + 1), None);
            }
            let task = tree.task_of(step);
            assert_eq!(tree.step_of_ordinal(task, tree.ordinal(step)), Some(step));
            let mut depth = 1;
            let mut up = task;
            while let Some(parent) = tree.tasks()[up].parent {
                up = parent;
                depth += 1;
            }
            deepest = deepest.max(depth);
        }
        assert!(deepest <= 64);
        let covered = covered_steps(&tree, &[Phase::new(7, 0)]);
        assert_eq!(loads(&tree, &covered)[7], tree.total_weight());
        assert_eq!(class_loads(&tree, &covered), by_class(&bytes));
    });
}

/// The deep shape does reach 64 open tasks.
#[test]
fn deep_trees_are_deep() {
    let mut rng = Rng::new(5);
    let bytes = random::tree_with(&mut rng, Shape::Deep, 2_047, 50, Weights::One);
    let (mut open, mut deepest) = (1, 1);
    for record in bytes.chunks(8) {
        if record[0] == 3 {
            open -= 1;
        } else {
            open += 1;
        }
        deepest = deepest.max(open);
    }
    assert_eq!((open, deepest), (0, 64));
}

/// Every choice of classes is met, and every class.
#[test]
fn classes_of_random_trees() {
    let mut seen = [0; 16];
    let (mut zero, mut one, mut rows, mut many) = (0, 0, 0, 0);
    for_seeds(85_000..86_000, |seed| {
        let bytes = random::tree(&mut Rng::new(seed), 50);
        let classes: Vec<u8> = bytes.chunks(8).map(|r| r[1]).collect();
        classes.iter().for_each(|&class| seen[usize::from(class)] += 1);
        match classes.windows(2).filter(|pair| pair[0] != pair[1]).count() {
            0 if classes[0] == 0 => zero += 1,
            0 => one += 1,
            1..=40 => rows += 1,
            _ => many += 1,
        }
    });
    assert!([zero, one, rows, many].iter().all(|&times| times > 150), "{zero} {one} {rows} {many}");
    assert!(seen.iter().all(|&times| times > 2_000), "{:?}", seen);
}

/// What makes this record one that is refused with 3.
fn reasons_for_3(record: &[u8]) -> Vec<&'static str> {
    let reasons = [
        ("kind", !(1..=3).contains(&record[0])),
        ("class", record[1] > 15),
        ("byte 2", record[2] != 0),
        ("byte 3", record[3] != 0),
    ];
    reasons.into_iter().filter(|reason| reason.1).map(|reason| reason.0).collect()
}

/// A damaged tree is refused by its first bad record; what stands behind it
/// does not matter.
#[test]
fn damaged_trees() {
    let mut seen = HashSet::new();
    // Refused with 3 for one reason alone.
    let mut alone = HashMap::new();
    for_seeds(90_000..94_000, |seed| {
        let mut rng = Rng::new(seed);
        let tasks = rng.between(0, 40);
        let mut bytes = random::damaged_tree(&mut rng, tasks);
        let n = bytes.len() / 8;
        let refusal = match Tree::parse(&bytes) {
            Ok(tree) => {
                assert_eq!(tree.count(), n);
                assert_eq!(n % 2, 1);
                seen.insert(0);
                return;
            }
            Err(refusal) => refusal,
        };
        seen.insert(refusal.number);
        if refusal.number == 3 {
            let reasons = reasons_for_3(&bytes[8 * refusal.position..][..8]);
            assert!(!reasons.is_empty());
            if let [reason] = reasons[..] {
                *alone.entry(reason).or_insert(0) += 1;
            }
        }
        match refusal.number {
            2 => assert!(n == 0 || bytes.len() % 8 != 0 || n > 4_095),
            5 if refusal.position == n => {
                // Ends are missing; with them the tree is accepted.
                let open = bytes.chunks(8).fold(1, |o, r| if r[0] == 3 { o - 1 } else { o + 1 });
                for _ in 0..open {
                    bytes.extend_from_slice(&random::tree_record(3, 0));
                }
                if bytes.len() <= 32_760 {
                    assert!(Tree::parse(&bytes).is_ok());
                }
            }
            3..=5 => {
                assert!(refusal.position < n);
                for byte in &mut bytes[8 * (refusal.position + 1)..] {
                    *byte = rng.next() as u8;
                }
                assert_eq!(Tree::parse(&bytes).unwrap_err(), refusal);
                // Without that record there is no such refusal yet.
                bytes.truncate(8 * refusal.position);
                if let Err(shorter) = Tree::parse(&bytes) {
                    let end = if bytes.is_empty() { (2, 0) } else { (5, refusal.position) };
                    assert_eq!((shorter.number, shorter.position), end);
                }
            }
            other => panic!("refusal {}", other),
        }
    });
    for number in [0, 2, 3, 4, 5] {
        assert!(seen.contains(&number), "{}", number);
    }
    assert!(alone.len() == 4 && alone.values().all(|&times| times > 60), "{:?}", alone);
}

/// The event maker reaches every refusal of the event walk.
#[test]
fn events_reach_every_refusal() {
    let mut seen = HashSet::new();
    for_seeds(100_000..100_300, |seed| {
        let mut rng = Rng::new(seed);
        let tasks = rng.between(1, 40);
        let tree = random::tree(&mut rng, tasks);
        for policy in [1, 2] {
            let workers = rng.between(1, 16);
            let mut plan = Plan::any(&mut rng, workers);
            plan.bad = 20;
            let mut run = Run::start(policy, workers as u8, &tree).unwrap();
            for t in random::drive(&mut rng, &mut run, &plan) {
                seen.insert((policy, t.refused));
            }
        }
    });
    for policy in [1, 2] {
        for number in [0, 8, 9, 10, 11, 12] {
            assert!(seen.contains(&(policy, number)), "{} {}", policy, number);
        }
    }
}

/// The count matters only by the workers that a call names: with one that is
/// above them all the answer is that of 16, with a lower one the first event or
/// record that names too high a worker is refused, unless another one was before.
#[test]
fn counts_beside_16() {
    for_seeds(110_000..113_000, |seed| {
        let mut rng = Rng::new(seed);
        let tasks = rng.between(0, 20);
        let tree = random::tree(&mut rng, tasks);
        let parsed = Tree::parse(&tree).unwrap();
        for policy in [1, 2] {
            let events = random::events_to_record(&mut rng, policy_of(policy), 16, &parsed);
            let trace = random::trace_to_replay(&mut rng, policy_of(policy), 16, &parsed);
            let recorded = record_to_vecs(policy, 16, &tree, &events);
            let replayed = replay_to_vecs(policy, 16, &tree, &trace);
            for workers in 1..16 {
                let high = |record: &[u8]| record[0] >= workers || record[1] >= workers;
                let answer = record_to_vecs(policy, workers, &tree, &events);
                match events.chunks(2).position(high) {
                    Some(at) if recorded.0.number == 0 || recorded.0.position >= at => {
                        assert_eq!((answer.0.number, answer.0.position), (8, at));
                    }
                    _ => assert_eq!(answer, recorded),
                }
                let answer = replay_to_vecs(policy, workers, &tree, &trace);
                match trace.chunks_exact(4).position(high) {
                    Some(at) if replayed.0.number == 0 || replayed.0.position >= at => {
                        let want = if replayed.0.number == 6 { (6, 0) } else { (8, at) };
                        assert_eq!((answer.0.number, answer.0.position), want);
                    }
                    _ => assert_eq!(answer, replayed),
                }
            }
        }
    });
}

/// One turn of the maker, in document 02's words.
fn one_turn(maker: &mut Maker, worker: usize) {
    let before = maker.clone();
    maker.turn(worker as u8);
    let written = &maker.events[before.events.len()..];
    let mut seed = before.seed;
    let mut event = None;
    if before.run.is_idle(worker) {
        seed = (seed + 2_654_435_769) % 4_294_967_296;
        let victim = (seed / 268_435_456) as usize;
        let victims = &before.run.workers;
        if victim != worker && victim < victims.len() && !victims[victim].deque.is_empty() {
            event = Some([worker as u8, victim as u8]);
        }
    } else if !before.run.waits(worker) {
        event = Some([worker as u8, worker as u8]);
    }
    assert_eq!(maker.seed, seed);
    assert_eq!(written, event.as_slice());
    if event.is_none() {
        let (run, same) = (&maker.run, &before.run);
        assert_eq!((&run.workers, &run.phases), (&same.workers, &same.phases));
        assert_eq!((&run.log, &run.trace), (&same.log, &same.trace));
    }
}

/// A schedule made round by round; the rounds end, and the call writes the
/// same list, which is accepted, finishes, is short enough and replays. Hands
/// back the count of steals.
fn made_schedule(policy: u8, workers: u8, tree: &[u8], seed: u32, mut turns: bool) -> usize {
    let mut maker = Maker::new(Run::start(policy, workers, tree).unwrap(), seed);
    let n = maker.run.tree.count();
    let mut rounds = 0;
    while !maker.run.finished() {
        let ran = maker.run.log.len();
        if turns {
            (0..workers.into()).for_each(|worker| one_turn(&mut maker, worker));
        } else {
            maker.round();
        }
        // Somebody has run a step, so the rounds end.
        assert!(maker.run.log.len() > ran);
        sound_state(&maker.run);
        rounds += 1;
        // The whole view of a large run is taken in its first rounds alone.
        turns = turns && (n < 100 || rounds < 5);
    }
    assert!(rounds <= n);
    let events = maker.events.concat();
    assert!(maker.events.len() <= most_events(n));
    assert_eq!(maker.events.len(), n + maker.run.trace.len());
    same_phases(policy, tree, &maker.run, &events);
    let (answer, list) = schedule_to_vec(policy, workers, tree, seed);
    assert_eq!(answer, ScheduleAnswer { number: 0, position: 0, events: maker.events.len() });
    assert_eq!(list, events);
    // Behind the last step nothing more is written.
    maker.round();
    assert_eq!(maker.events.concat(), events);
    maker.run.trace.len()
}

#[test]
fn made_small_schedules() {
    let mut full = 0;
    for_seeds(120_000..121_500, |seed| {
        let mut rng = Rng::new(seed);
        let tasks = rng.between(0, 25);
        let tree = random::tree(&mut rng, tasks);
        for policy in [1, 2] {
            let (workers, seed) = (rng.between(1, 16) as u8, random::any_seed(&mut rng));
            let steals = made_schedule(policy, workers, &tree, seed, true);
            assert!(workers > 1 || steals == 0);
            full += usize::from(tasks > 0 && steals == tasks);
        }
    });
    // Lists as long as they can be.
    assert!(full > 100, "{} full lists", full);
}

/// Full trees of every shape, and smaller ones.
#[test]
fn made_large_schedules() {
    for_seeds(125_000..125_024, |seed| {
        let mut rng = Rng::new(seed);
        let shape = SHAPES[seed as usize % 4];
        let tasks = if seed % 8 < 4 { 2_047 } else { rng.between(100, 2_047) };
        let finish = rng.pick(&[0, 20, 50, 100]);
        let tree = random::tree_with(&mut rng, shape, tasks, finish, Weights::Mixed);
        for policy in [1, 2] {
            let workers = rng.pick(&[1, 2, 3, 8, 15, 16]);
            made_schedule(policy, workers, &tree, random::any_seed(&mut rng), true);
        }
    });
}

/// All trees with up to four spawned tasks.
#[test]
fn all_small_trees_are_scheduled() {
    let mut rng = Rng::new(126_000);
    for tasks in 0..=4 {
        for tree in random::all_trees(tasks) {
            for (policy, workers) in [(1, 2), (2, 2), (1, 3), (2, 5), (1, 16), (2, 16)] {
                made_schedule(policy, workers, &tree, random::any_seed(&mut rng), true);
            }
        }
    }
}

/// Nobody is there to steal from, so the seed does not matter.
#[test]
fn schedules_of_one_worker() {
    for_seeds(127_000..127_100, |seed| {
        let mut rng = Rng::new(seed);
        let tasks = rng.between(0, 40);
        let tree = random::tree(&mut rng, tasks);
        for policy in [1, 2] {
            let (answer, list) = schedule_to_vec(policy, 1, &tree, random::any_seed(&mut rng));
            assert_eq!(answer.events, 2 * tasks + 1);
            assert!(list.iter().all(|&worker| worker == 0));
        }
    });
}

/// One scene has many schedules, and one seed makes one of them.
#[test]
fn seeds_make_many_schedules() {
    let mut rng = Rng::new(128_000);
    let tree = random::tree_with(&mut rng, Shape::Balanced, 100, 30, Weights::One);
    for policy in [1, 2] {
        let mut seen = HashSet::new();
        for _ in 0..1_000 {
            let seed = rng.next() as u32;
            let made = schedule_to_vec(policy, 8, &tree, seed);
            assert_eq!(schedule_to_vec(policy, 8, &tree, seed), made);
            seen.insert(made.1);
        }
        assert!(seen.len() > 300, "{} lists", seen.len());
    }
}

/// Every length of the lent list: short ones keep their bytes, and so do the
/// bytes behind the list.
#[test]
fn rooms_for_schedules() {
    for_seeds(129_000..129_200, |seed| {
        let mut rng = Rng::new(seed);
        let tasks = rng.between(0, 12);
        let tree = random::tree(&mut rng, tasks);
        for policy in [1, 2] {
            let (workers, seed) = (rng.between(1, 16) as u8, random::any_seed(&mut rng));
            let (made, events) = schedule_to_vec(policy, workers, &tree, seed);
            let needed = 2 * most_events(2 * tasks + 1);
            assert_eq!(needed, 3 * (2 * tasks + 1) - 1);
            for room in 0..needed + 4 {
                let lent = rng.bytes(room);
                let mut list = lent.clone();
                let answer = schedule(policy, workers, &tree, seed, &mut list);
                if room < needed {
                    assert_eq!(answer, ScheduleAnswer { number: 7, position: 0, events: 0 });
                    assert_eq!(list, lent);
                } else {
                    assert_eq!(answer, made);
                    assert_eq!(list, [&events[..], &lent[events.len()..]].concat());
                }
            }
        }
    });
}

/// A tree, sometimes a damaged one, with a policy and a count that are mostly
/// good, and events and a trace for them that are good or bad.
fn any_call(rng: &mut Rng) -> (u8, u8, Vec<u8>, Vec<u8>, Vec<u8>) {
    let tasks = rng.between(0, 25);
    let damaged = rng.percent(20);
    let tree =
        if damaged { random::damaged_tree(rng, tasks) } else { random::tree(rng, tasks) };
    let policy = rng.pick(&[1, 1, 1, 1, 2, 2, 2, 2, 0, 3]);
    let workers = random::any_count(rng);
    let (Ok(read), Ok(parsed)) = (Policy::parse(policy), Tree::parse(&tree)) else {
        return (policy, workers, tree, vec![0, 0], vec![]);
    };
    let count = random::nearest_count(workers);
    let events = random::events_to_record(rng, read, count, &parsed);
    let trace = random::trace_to_replay(rng, read, count, &parsed);
    (policy, workers, tree, events, trace)
}

/// In every call the loads of the workers and those of the classes have one
/// sum: the weight of the tree or, where it is refused, 0.
#[test]
fn class_loads_add_up_to_worker_loads() {
    let mut seen = HashSet::new();
    for_seeds(130_000..136_000, |seed| {
        let mut rng = Rng::new(seed);
        let (policy, workers, tree, events, trace) = any_call(&mut rng);
        let sums = |number: u32, loads: [u64; 16], class_loads: [u64; 16]| {
            let want = if number == 0 { Tree::parse(&tree).unwrap().total_weight() } else { 0 };
            assert_eq!(loads.iter().sum::<u64>(), want);
            assert_eq!(class_loads.iter().sum::<u64>(), want);
        };
        // A byte less than is asked for, now and then.
        let room = tree.len() / 2 - usize::from(rng.percent(5) && tree.len() > 1);
        let (mut log, mut list) = (vec![0; room], vec![0; room]);
        let mut written = vec![0; tree.len() / 4];
        let recorded = record(policy, workers, &tree, &events, &mut log, &mut written);
        sums(recorded.number, recorded.loads, recorded.class_loads);
        let replayed = replay(policy, workers, &tree, &trace, &mut list);
        sums(replayed.number, replayed.loads, replayed.class_loads);
        seen.extend([recorded.number, replayed.number]);
    });
    assert_eq!(seen.len(), 17, "{:?}", seen);
}

/// Replay's class loads are the tree's own weights by class, whatever the
/// trace, and so are record's, whatever the events.
#[test]
fn class_loads_are_the_trees_own() {
    for_seeds(140_000..141_000, |seed| {
        let mut rng = Rng::new(seed);
        let tasks = rng.between(0, 40);
        let mut tree = random::tree(&mut rng, tasks);
        random::set_classes(&mut rng, &mut tree, Classes::Any);
        let parsed = Tree::parse(&tree).unwrap();
        for policy in [1, 2] {
            for _ in 0..5 {
                let workers = rng.between(1, 16);
                let plan = random::Steals::any(&mut rng, workers);
                let trace = random::accepted_trace(&mut rng, policy_of(policy), &parsed, &plan);
                let (answer, _) = replay_to_vecs(policy, workers as u8, &tree, &trace);
                assert_eq!((answer.number, answer.class_loads), (0, by_class(&tree)));
                let plan = Plan { events: rng.below(80), ..Plan::any(&mut rng, workers) };
                let events = random::events(&mut rng, policy_of(policy), workers, &parsed, &plan);
                let (answer, _, _) = record_to_vecs(policy, workers as u8, &tree, &events);
                assert_eq!((answer.number, answer.class_loads), (0, by_class(&tree)));
            }
        }
    });
}

/// Without its classes a tree gives the same answers and bytes, but that
/// class 0 has all the load.
#[test]
fn classes_change_nothing_else() {
    let mut changed = 0;
    for_seeds(150_000..156_000, |seed| {
        let mut rng = Rng::new(seed);
        let (policy, workers, tree, events, trace) = any_call(&mut rng);
        // A class above 15 would be repaired.
        if tree.chunks_exact(8).any(|record| record[1] > 15) {
            return;
        }
        let old = random::without_classes(&tree);
        let all_in_0 = |loads: [u64; 16]| {
            let mut class_loads = [0; 16];
            class_loads[0] = loads.iter().sum();
            class_loads
        };
        let (with, log, steals) = record_to_vecs(policy, workers, &tree, &events);
        let class_loads = all_in_0(with.loads);
        changed += usize::from(with.class_loads != class_loads);
        let want = (RecordAnswer { class_loads, ..with }, log, steals);
        assert_eq!(record_to_vecs(policy, workers, &old, &events), want);

        let (with, steps) = replay_to_vecs(policy, workers, &tree, &trace);
        let want = ReplayAnswer { class_loads: all_in_0(with.loads), ..with };
        assert_eq!(replay_to_vecs(policy, workers, &old, &trace), (want, steps));

        let seed = random::any_seed(&mut rng);
        let made = schedule_to_vec(policy, workers, &tree, seed);
        assert_eq!(schedule_to_vec(policy, workers, &old, seed), made);

        assert_eq!(span_to_vec(&old), span_to_vec(&tree));

        let count = ((tree.len() / 8) as u16).to_le_bytes();
        let input = |tree: &[u8]| [&[policy], &count[..], tree, &trace].concat();
        assert_eq!(phases(&input(&old)), phases(&input(&tree)));
    });
    assert!(changed > 1_000, "{} calls", changed);
}

fn what_precedes(tree: &Tree) -> Vec<Steps> {
    all_before(&links(tree))
}

/// In terms of tasks alone: the first step is the lower, and the second is in its
/// task or a descendant of that, or the outermost task that has the first and not
/// the second is a finish child.
fn precedes_by_tasks(tree: &Tree, first: usize, second: usize) -> bool {
    let has = |task: usize, step: usize| {
        (tree.tasks()[task].steps[0]..=tree.end_of(task)).contains(&step)
    };
    let mut task = tree.task_of(first);
    if first >= second || has(task, second) {
        return first < second;
    }
    while let Some(parent) = tree.tasks()[task].parent.filter(|&parent| !has(parent, second)) {
        task = parent;
    }
    tree.tasks()[task].kind == TaskKind::Finish
}

#[test]
fn what_precedes_by_tasks() {
    let mut both = [0; 2];
    for_seeds(170_000..170_200, |seed| {
        let mut rng = Rng::new(seed);
        let tasks = if rng.percent(2) { 2_047 } else { rng.between(0, 80) };
        let tree = Tree::parse(&random::weighed_tree(&mut rng, tasks)).unwrap();
        let before = what_precedes(&tree);
        let mut check = |first: usize, second: usize| {
            let precedes = before[second].has(first);
            assert_eq!(precedes, precedes_by_tasks(&tree, first, second), "{first} {second}");
            both[usize::from(precedes)] += 1;
        };
        let n = tree.count();
        if tasks < 100 {
            (0..n).for_each(|first| (0..n).for_each(|second| check(first, second)));
        } else {
            (0..100_000).for_each(|_| check(rng.below(n), rng.below(n)));
        }
    });
    assert!(both.iter().all(|&pairs| pairs > 100_000), "{both:?}");
}

/// For each two steps whether the second has run in some state without the first,
/// by all schedules of so many workers.
fn overtaken(policy: u8, workers: u8, tree: &[u8]) -> Vec<Vec<bool>> {
    let n = tree.len() / 8;
    let mut overtaken = vec![vec![false; n]; n];
    let mut seen = HashSet::new();
    let mut open = vec![Run::start(policy, workers, tree).unwrap()];
    while let Some(run) = open.pop() {
        // Which of the workers it is does not matter.
        let mut held: Vec<_> = run.workers.iter().map(|w| (w.held, w.deque.clone())).collect();
        held.sort();
        if !seen.insert((held, run.ran.clone())) {
            continue;
        }
        for first in (0..n).filter(|&first| !run.ran[first]) {
            for second in (0..n).filter(|&second| run.ran[second]) {
                overtaken[first][second] = true;
            }
        }
        for first in 0..workers {
            for second in 0..workers {
                let mut next = run.clone();
                if next.event(first, second).is_ok() {
                    open.push(next);
                }
            }
        }
    }
    overtaken
}

/// A step must precede another exactly where no schedule, with a worker for each
/// task, runs the other without it: so says the scheduling of document 01.
#[test]
fn what_precedes_in_all_schedules() {
    for tasks in 0..=4 {
        for tree in random::all_trees(tasks) {
            let before = what_precedes(&Tree::parse(&tree).unwrap());
            for policy in [1, 2] {
                let overtaken = overtaken(policy, tasks as u8 + 1, &tree);
                for (second, before) in before.iter().enumerate() {
                    let runs_first = |&first: &usize| first != second && !overtaken[first][second];
                    let always: Vec<usize> = (0..tree.len() / 8).filter(runs_first).collect();
                    assert_eq!(before.list(), always, "policy {policy}, step {second}, {tree:?}");
                }
            }
        }
    }
}

/// No log has a step before one that must precede it.
#[test]
fn logs_keep_what_precedes() {
    for_seeds(172_000..172_500, |seed| {
        let mut rng = Rng::new(seed);
        let tasks = rng.between(0, 40);
        let tree = random::weighed_tree(&mut rng, tasks);
        let workers = rng.between(1, 16);
        let mut run = Run::start(rng.pick(&[1, 2]), workers as u8, &tree).unwrap();
        let plan = Plan::any(&mut rng, workers);
        random::drive(&mut rng, &mut run, &plan);
        assert!(run.finished());
        let before = what_precedes(&run.tree);
        for (at, record) in run.log.iter().enumerate() {
            assert!(run.log[at..].iter().all(|later| !before[record.step].has(later.step)));
        }
    });
}

/// A task that starts then: its end, and the end of all that it spawned without
/// waiting for it. The two are found through each other.
fn ends_of_task(tree: &Tree, task: usize, start: u64) -> (u64, u64) {
    let (mut end, mut spawned) = (start, start);
    for &step in &tree.tasks()[task].steps {
        end += u64::from(tree.weight(step));
        if let Some(child) = tree.child_opened_by(step) {
            let (of_child, beyond) = ends_of_task(tree, child, end);
            let whole = of_child.max(beyond);
            if tree.tasks()[child].kind == TaskKind::Finish {
                end = whole;
            } else {
                spawned = spawned.max(whole);
            }
        }
    }
    (end, spawned)
}

/// What document 02 says of the chain: each step precedes the next, they weigh as
/// much as the span, and no chain weighs more. No start of the chain weighs as
/// much, and none that has the same start and then a lower step.
fn sound_chain(tree: &Tree, before: &[Steps], latest: u64, chain: &[u16]) {
    let n = tree.count();
    let weight = |step: usize| u64::from(tree.weight(step));
    // The greatest weight of what begins with each step.
    let mut from = vec![0; n];
    for first in (0..n).rev() {
        let behind = (first + 1..n).filter(|&next| before[next].has(first));
        from[first] = weight(first) + behind.map(|next| from[next]).max().unwrap_or(0);
    }
    // No chain weighs more.
    assert_eq!(from.iter().max(), Some(&latest));
    let mut sum = 0;
    let mut last: Option<usize> = None;
    for &step in chain {
        let step = usize::from(step);
        let may_follow = |next: usize| last.is_none_or(|last| before[next].has(last));
        assert!(may_follow(step));
        assert!(last.is_none() || sum < latest);
        for lower in (0..step).filter(|&lower| may_follow(lower)) {
            assert!(sum + from[lower] < latest);
        }
        sum += weight(step);
        last = Some(step);
    }
    assert!(last.is_some());
    assert_eq!(sum, latest);
}

/// Work, span and chain of a tree, found again in other ways.
fn sound_span(bytes: &[u8]) {
    let tree = Tree::parse(bytes).unwrap();
    let (answer, chain) = span_to_vec(bytes);
    assert_eq!((answer.number, answer.position, answer.length), (0, 0, chain.len()));
    assert_eq!(answer.work, by_class(bytes).iter().sum::<u64>());
    assert!(answer.span <= answer.work);
    assert!(answer.work <= tree.count() as u64 * answer.span);
    let (end, spawned) = ends_of_task(&tree, 0, 0);
    assert_eq!(answer.span, end.max(spawned));
    let before = what_precedes(&tree);
    let found = heaviest_chain(&tree, &before);
    assert_eq!((found.weight, &found.steps), (answer.span, &chain));
    sound_chain(&tree, &before, answer.span, &chain);
    // The root's end is that of its last step.
    assert_eq!(ends(&tree, &before)[tree.count() - 1], end);
}

#[test]
fn spans_of_random_trees() {
    for_seeds(174_000..178_000, |seed| {
        let mut rng = Rng::new(seed);
        let tasks = rng.between(0, 40);
        sound_span(&random::weighed_tree(&mut rng, tasks));
    });
}

#[test]
fn spans_of_large_trees() {
    for_seeds(178_000..178_008, |seed| {
        let mut rng = Rng::new(seed);
        let weights = rng.pick(&[Weights::Tied, Weights::Sparse, Weights::NearMax, Weights::Max]);
        let finish = rng.pick(&[0, 30, 70, 100]);
        let tree = random::tree_with(&mut rng, SHAPES[seed as usize % 4], 2_047, finish, weights);
        sound_span(&tree);
    });
}

/// All trees with up to four spawned tasks: what precedes, and with some weights
/// the first of all heaviest chains, tried out one by one.
#[test]
fn spans_of_all_small_trees() {
    let mut rng = Rng::new(179_000);
    let some = [Weights::Tied, Weights::Tied, Weights::Sparse, Weights::Mixed];
    for tasks in 0..=4 {
        for mut bytes in random::all_trees(tasks) {
            let kinds: Vec<u8> = bytes.chunks(8).map(|record| record[0]).collect();
            let before = what_precedes(&Tree::parse(&bytes).unwrap());
            let precedes = chains::precedence(&kinds);
            for (second, before) in before.iter().enumerate() {
                let lower = (0..kinds.len()).filter(|&first| precedes[first][second]);
                assert_eq!(before.list(), lower.collect::<Vec<_>>(), "{kinds:?} {second}");
            }
            let all = chains::all_chains(&kinds);
            for _ in 0..100 {
                let weights = rng.pick(&some);
                random::set_weights(&mut rng, &mut bytes, weights);
                let tree = Tree::parse(&bytes).unwrap();
                let weights: Vec<u32> = (0..tree.count()).map(|step| tree.weight(step)).collect();
                let (heaviest, chain) = chains::first_heaviest(&all, &weights);
                let (answer, found) = span_to_vec(&bytes);
                assert_eq!((answer.span, &found[..]), (heaviest, chain), "{kinds:?} {weights:?}");
            }
        }
    }
}

/// Every length of the lent buffer: short ones keep their bytes, and so do the
/// bytes behind the chain.
#[test]
fn rooms_for_chains() {
    for_seeds(180_000..180_200, |seed| {
        let mut rng = Rng::new(seed);
        let tasks = rng.between(0, 12);
        let tree = random::weighed_tree(&mut rng, tasks);
        let (found, steps) = span_to_vec(&tree);
        let bytes: Vec<u8> = steps.iter().flat_map(|step| step.to_le_bytes()).collect();
        let needed = 2 * (2 * tasks + 1);
        for room in 0..needed + 4 {
            let lent = rng.bytes(room);
            let mut chain = lent.clone();
            let answer = span(&tree, &mut chain);
            if room < needed {
                assert_eq!(answer, SpanAnswer { number: 7, ..SpanAnswer::default() });
                assert_eq!(chain, lent);
            } else {
                assert_eq!(answer, found);
                assert_eq!(chain, [&bytes[..], &lent[bytes.len()..]].concat());
            }
        }
    });
}

/// The fourth powers of a limit and of one more stand around the power of two:
/// in 128 bits where they fit, and by the simulator's own numbers everywhere.
#[test]
fn limits_are_fourth_roots() {
    for (k, &limit) in limits().iter().enumerate() {
        let (limit, next) = (Big::new(limit), Big::new(limit + 1));
        let power = Big::power_of_two(k);
        assert!(limit.fourth_power().at_most(power), "limit {k}");
        assert!(!next.fourth_power().at_most(power), "limit {k}");
    }
    for (k, &limit) in limits().iter().enumerate().take(124) {
        let (limit, power) = (u128::from(limit), 1_u128 << k);
        assert!(limit.pow(4) <= power && power < (limit + 1).pow(4), "limit {k}");
    }
    // A power of two every four limits; else twice the one four before, or one more.
    for k in 0..LIMITS {
        let limit = limits()[k];
        assert!(k % 4 > 0 || limit == 1 << (k / 4), "limit {k}");
        assert!(k < 4 || limit / 2 == limits()[k - 4], "limit {k}");
        assert!(k == 0 || limits()[k - 1] <= limit, "limit {k}");
    }
}

/// The simulator's long numbers against those of 128 bits.
#[test]
fn products_of_long_numbers() {
    for_seeds(150_000..160_000, |seed| {
        let mut rng = Rng::new(seed);
        let numbers = [(); 4].map(|()| rng.next() >> rng.below(64));
        let [a, b, c, d] = numbers.map(Big::new);
        let [ab, cd] = [0, 2].map(|k| u128::from(numbers[k]) * u128::from(numbers[k + 1]));
        assert_eq!(a.times(b), b.times(a));
        assert_eq!(a.times(b).at_most(c.times(d)), ab <= cd);
        assert_eq!(a.times(b).times(c), a.times(b.times(c)));
        let exponent = rng.below(128);
        assert_eq!(a.times(b).at_most(Big::power_of_two(exponent)), ab <= 1 << exponent);
    });
}

/// The highest limit that does not exceed a load.
#[test]
fn buckets_of_loads() {
    for_seeds(160_000..170_000, |seed| {
        let mut rng = Rng::new(seed);
        let near = rng.pick(limits()) + rng.below(3) as u64 - 1;
        let load = if rng.percent(50) { near } else { rng.next() >> rng.below(64) };
        match bucket(load) {
            0 => assert_eq!(load, 0),
            LIMITS => assert!(limits()[LIMITS - 1] <= load),
            after => assert!(limits()[after - 1] <= load && load < limits()[after]),
        }
    });
}

/// Over a list of calls: what replay answers, and the counts add up to the phases
/// answered. Each load is that of the phase's steps in the run list.
#[test]
fn histograms_of_lists_of_calls() {
    let mut seen = HashSet::new();
    for_seeds(170_000..171_000, |seed| {
        let mut rng = Rng::new(seed);
        let mut histogram = Histogram::start();
        let mut want = histogram;
        let mut phases = 0;
        for _ in 0..rng.between(1, 12) {
            let (policy, workers, tree, _, trace) = any_call(&mut rng);
            let mut list = vec![0; tree.len() / 2];
            let added = add(&histogram, policy, workers, &tree, &trace, &mut list);
            let (replayed, steps) = replay_to_vecs(policy, workers, &tree, &trace);
            assert_eq!(added.replay, replayed);
            want.traces += u32::from(replayed.number == 0);
            for steps in &steps {
                let parsed = Tree::parse(&tree).unwrap();
                let weights = steps.iter().map(|&step| u64::from(parsed.weight(step)));
                want.counts[bucket(weights.sum())] += 1;
            }
            assert_eq!(added.histogram, want);
            histogram = added.histogram;
            phases += replayed.phases as u32;
            assert_eq!(histogram.counts.iter().sum::<u32>(), phases);
            seen.insert(added.replay.number);
        }
    });
    assert!(seen.len() >= 12, "{:?}", seen);
}
