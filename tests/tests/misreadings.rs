//! Each misreading named in document 01, and those that a run's own worker
//! count, the schedule maker, the classes, the awaited step, work and span, and
//! the histogram invite, each with a case it would fail.

#[path = "library/awaited.rs"]
mod awaited;
#[path = "library/histograms.rs"]
mod histograms;
#[path = "library/schedules.rs"]
mod schedules;
#[path = "library/spans.rs"]
mod spans;

use std::cmp::Ordering;
use std::collections::BTreeMap;

use frame_tests::histogram::{bucket, limits, BUCKETS, LIMITS};
use frame_tests::random::{tree_of_kinds, tree_of_weights, tree_record};
use frame_tests::record::record_to_vecs;
use frame_tests::replay::{judge_and_replay, replay_to_vecs, Replay};
use frame_tests::run::Run;
use frame_tests::schedule::{schedule, schedule_to_vec};
use frame_tests::span::{span, span_to_vec};
use frame_tests::tree::{Refusal, TaskKind, Tree};

fn s() -> Vec<u8> {
    tree_of_kinds(&[1, 3, 2, 1, 3, 3, 3])
}

/// A steal takes the oldest step, not the newest.
#[test]
fn steal_from_the_oldest_end() {
    // After steps 0 to 3 worker 0's deque holds 6 and, newer, 5.
    let events = [0, 0, 0, 0, 0, 0, 0, 0, 1, 0, 2, 0];
    let (answer, _, trace) = record_to_vecs(1, 16, &s(), &events);
    assert_eq!(answer.number, 0);
    // First ordinal 2 of the root (step 6), then ordinal 1 of the finish
    // child (step 5). From the newest end it would be 1, then 2.
    assert_eq!(trace, [1, 0, 2, 0, 2, 0, 1, 0]);
    let run = {
        let mut run = Run::start(1, 16, &s()).unwrap();
        for event in events.chunks(2) {
            run.event(event[0], event[1]).unwrap();
        }
        run
    };
    assert_eq!(run.workers[1].held, Some(6));
    assert_eq!(run.workers[2].held, Some(5));

    // Help-first: after steps 0, 2, 3 the deque holds 1, 6, 4.
    let events = [0, 0, 0, 0, 0, 0, 1, 0, 2, 0, 3, 0];
    let (answer, _, trace) = record_to_vecs(2, 16, &s(), &events);
    assert_eq!(answer.number, 0);
    assert_eq!(trace, [1, 0, 1, 0, 2, 0, 6, 0, 3, 0, 4, 0]);
}

/// An end pops the newest step, not the oldest.
#[test]
fn end_pops_the_newest() {
    let (answer, phases) = replay_to_vecs(1, 16, &s(), &[]);
    assert_eq!(answer.phases, 1);
    assert_eq!(phases, [vec![0, 1, 2, 3, 4, 5, 6]]);
    // Live too, with worker 0 alone.
    for (policy, steps) in [(1, [0, 1, 2, 3, 4, 5, 6]), (2, [0, 2, 3, 5, 4, 6, 1])] {
        let mut run = Run::start(policy, 16, &s()).unwrap();
        for _ in 0..7 {
            run.event(0, 0).unwrap();
        }
        assert_eq!(run.steps_run_in(0), steps);
        assert!(run.finished());
    }
}

/// A thief goes on with the ordinals of the stolen step's task.
#[test]
fn ordinal_is_not_reset_for_a_thief() {
    // Four children of the root; its steps are 0, 2, 4, 6, 8.
    let tree = tree_of_kinds(&[1, 3, 1, 3, 1, 3, 1, 3, 3]);
    let events = [0, 0, 1, 0, 1, 1, 2, 1, 2, 2, 3, 2];
    let (answer, _, trace) = record_to_vecs(1, 16, &tree, &events);
    assert_eq!(answer.number, 0);
    assert_eq!(trace, [1, 0, 1, 0, 2, 1, 2, 0, 3, 2, 3, 0]);
    // Reset ordinals would read 1, 1, 1; that is refused.
    let (answer, _) = replay_to_vecs(1, 16, &tree, &[1, 0, 1, 0, 2, 1, 1, 0]);
    assert_eq!((answer.number, answer.position), (15, 1));
}

/// Help-first phases are not one run of serial numbers.
#[test]
fn help_first_order() {
    let (_, phases) = replay_to_vecs(2, 16, &s(), &[]);
    assert_eq!(phases, [vec![0, 2, 3, 5, 4, 6, 1]]);
    // A phase with a hole: the two outer children stay, the middle one goes.
    let tree = tree_of_kinds(&[1, 3, 1, 3, 1, 3, 3]);
    let (_, phases) = replay_to_vecs(2, 16, &tree, &[1, 0, 3, 0]);
    assert_eq!(phases, [vec![0, 2, 4, 6, 5, 1], vec![3]]);
}

/// A finish continuation waits for all steps inside, also for those that
/// others took from the victim, and for those of deeper tasks.
#[test]
fn wait_includes_what_others_stole() {
    // The finish child (steps 1, 5) opens a (2, 4), which opens b (3).
    let tree = tree_of_kinds(&[2, 1, 1, 3, 3, 3, 3]);
    let mut run = Run::start(1, 16, &tree).unwrap();
    for event in [[0, 0], [0, 0], [0, 0], [1, 0], [2, 0], [3, 0]] {
        run.event(event[0], event[1]).unwrap();
    }
    let held: Vec<_> = (0..4).map(|w| run.workers[w].held).collect();
    assert_eq!(held, [Some(3), Some(6), Some(5), Some(4)]);
    let waits = Err(Refusal::new(10, 0));
    assert_eq!(run.event(1, 1), waits);
    // The victim's part is done.
    run.event(0, 0).unwrap();
    assert!(run.is_idle(0));
    assert_eq!(run.event(1, 1), waits);
    // The finish child itself has ended, its descendant a has not.
    run.event(2, 2).unwrap();
    assert_eq!(run.event(1, 1), waits);
    assert!(!run.is_idle(1));
    run.event(3, 3).unwrap();
    assert_eq!(run.event(1, 1), Ok(()));
    assert!(run.finished());
}

/// The same under help-first: the holder waits with its own deque empty.
#[test]
fn wait_includes_a_stolen_async_child() {
    // The finish child (1, 3) opens an async child (2).
    let tree = tree_of_kinds(&[2, 1, 3, 3, 3]);
    let mut run = Run::start(2, 16, &tree).unwrap();
    // Deque after steps 0 and 1: 4, then 2. Step 4 is the oldest.
    for event in [[0, 0], [0, 0], [1, 0], [2, 0], [0, 0]] {
        run.event(event[0], event[1]).unwrap();
    }
    assert_eq!(run.workers[1].held, Some(4));
    assert_eq!(run.workers[2].held, Some(2));
    assert!(run.is_idle(0));
    assert_eq!(run.event(1, 1), Err(Refusal::new(10, 0)));
    run.event(2, 2).unwrap();
    assert_eq!(run.event(1, 1), Ok(()));
    assert!(run.finished());
}

/// Only a finish child is waited for, not an async child.
#[test]
fn no_wait_behind_an_async_child() {
    let tree = tree_of_kinds(&[1, 3, 3]);
    let mut run = Run::start(1, 16, &tree).unwrap();
    for event in [[0, 0], [1, 0], [1, 1], [0, 0]] {
        assert_eq!(run.event(event[0], event[1]), Ok(()));
    }
    assert!(run.finished());
}

/// One who waits is not idle, and has nothing that can be stolen: what is
/// older than its step was stolen before it.
#[test]
fn one_who_waits() {
    // Root: async a (1, 5) with finish f (2, 4) with async g (3).
    let tree = tree_of_kinds(&[1, 2, 1, 3, 3, 3, 3]);
    let mut run = Run::start(1, 16, &tree).unwrap();
    for event in [[0, 0], [0, 0], [0, 0], [1, 0], [2, 0]] {
        run.event(event[0], event[1]).unwrap();
    }
    // Worker 1 holds 6 and may run, worker 2 holds 5 and waits.
    assert!(!run.waits(1));
    assert!(run.waits(2));
    assert_eq!(run.idle_set(), 0xFFF8);
    assert_eq!(run.event(2, 2), Err(Refusal::new(10, 0)));
    assert_eq!(run.event(2, 0), Err(Refusal::new(11, 0)));
    assert_eq!(run.event(3, 2), Err(Refusal::new(12, 0)));

    // Help-first: finish f (5, 7) with async h (6) behind two async children.
    let tree = tree_of_kinds(&[1, 3, 1, 3, 2, 1, 3, 3, 3]);
    let mut run = Run::start(2, 16, &tree).unwrap();
    for _ in 0..4 {
        run.event(0, 0).unwrap();
    }
    assert_eq!(run.workers[0].deque, [1, 3, 8, 6]);
    for thief in 1..5 {
        run.event(thief, 0).unwrap();
    }
    run.event(0, 0).unwrap();
    assert!(run.is_idle(0));
    // Worker 3 holds 8 and waits for step 6, which worker 4 holds.
    assert_eq!(run.event(3, 3), Err(Refusal::new(10, 0)));
    assert_eq!(run.event(0, 3), Err(Refusal::new(12, 0)));
    run.event(4, 4).unwrap();
    run.event(3, 3).unwrap();
}

/// A steal is read against the victim's latest phase.
#[test]
fn replay_reads_the_latest_phase() {
    // Three children of the root, its steps 0, 2, 4, 6.
    let tree = tree_of_kinds(&[1, 3, 1, 3, 1, 3, 3]);
    // Worker 0 has phases 0 (from 0) and 2 (from 4).
    let trace = [1, 0, 1, 0, 0, 1, 2, 0, 2, 0, 3, 0];
    let (answer, phases) = replay_to_vecs(1, 16, &tree, &trace);
    // Against phase 0 ordinal 3 would be refused: its frontier has no child.
    assert_eq!((answer.number, answer.phases), (0, 4));
    assert_eq!(phases, [vec![0, 1], vec![2, 3], vec![4, 5], vec![6]]);

    // Here phase 0 would still have something, the latest phase has not.
    let tree = tree_of_kinds(&[1, 1, 3, 3, 1, 3, 3]);
    // Root steps 0, 4, 6; child steps 1, 3. Worker 1 takes 4, worker 0 takes
    // 6 from it, and worker 2 cannot take step 3 (ordinal 1) from phase 2.
    let trace = [1, 0, 1, 0, 0, 1, 2, 0, 2, 0, 1, 0];
    let (answer, _) = replay_to_vecs(1, 16, &tree, &trace);
    assert_eq!((answer.number, answer.position), (15, 2));

    // Help-first: step 5 is still in phase 0, but worker 0's latest phase is
    // that of step 2, taken from worker 1's phase.
    let tree = tree_of_kinds(&[1, 1, 3, 3, 1, 3, 3]);
    let trace = [1, 0, 1, 0, 0, 1, 2, 0, 2, 0, 5, 0];
    let (answer, _) = replay_to_vecs(2, 16, &tree, &trace);
    assert_eq!((answer.number, answer.position), (15, 2));
    // From worker 1 the step is not in its phase either.
    let trace = [1, 0, 1, 0, 0, 1, 2, 0, 2, 1, 5, 0];
    let (answer, _) = replay_to_vecs(2, 16, &tree, &trace);
    assert_eq!((answer.number, answer.position), (15, 2));
}

/// Live, a worker's second phase is its own: its steals count from there.
#[test]
fn live_second_phase() {
    let tree = tree_of_kinds(&[1, 3, 1, 3, 1, 3, 3]);
    let events = [0, 0, 1, 0, 1, 1, 0, 0, 0, 1, 0, 0, 2, 0];
    let (answer, log, trace) = record_to_vecs(1, 16, &tree, &events);
    assert_eq!(answer.number, 0);
    assert_eq!(trace, [1, 0, 1, 0, 0, 1, 2, 0, 2, 0, 3, 0]);
    assert_eq!(log, [0, 0, 0, 0, 1, 0, 2, 0, 0, 0, 1, 0, 2, 0, 4, 0]);
    // The phases cover 0 1 | 2 3 | 4 5 | 6.
    assert_eq!(answer.loads[..4], [4, 2, 1, 0]);
}

/// Help-first: all steps from the named one to the end of its task must
/// still be in the phase; a partly stolen range is refused.
#[test]
fn partly_stolen_range() {
    // Async a (1, 3) with async b (2) inside.
    let tree = tree_of_kinds(&[1, 1, 3, 3, 3]);
    let (answer, phases) = replay_to_vecs(2, 16, &tree, &[1, 0, 2, 0]);
    assert_eq!(answer.number, 0);
    assert_eq!(phases, [vec![0, 4, 1, 3], vec![2]]);
    let (answer, _) = replay_to_vecs(2, 16, &tree, &[1, 0, 2, 0, 2, 0, 1, 0]);
    assert_eq!((answer.number, answer.position), (15, 1));
    // The other way round the range is whole, and b goes from the thief.
    let (answer, phases) = replay_to_vecs(2, 16, &tree, &[1, 0, 1, 0, 2, 1, 2, 0]);
    assert_eq!(answer.number, 0);
    assert_eq!(phases, [vec![0, 4], vec![1, 3], vec![2]]);

    // The step after a finish child: its range runs to the end of its own
    // task, so an async child taken from behind it breaks it.
    // Root: finish f (0 -> 1), then step 2 opens async c (3), root ends 4.
    let tree = tree_of_kinds(&[2, 3, 1, 3, 3]);
    let (answer, _) = replay_to_vecs(2, 16, &tree, &[1, 0, 3, 0, 2, 0, 2, 0]);
    assert_eq!((answer.number, answer.position), (15, 1));
    let (answer, phases) = replay_to_vecs(2, 16, &tree, &[1, 0, 2, 0, 2, 1, 3, 0]);
    assert_eq!(answer.number, 0);
    assert_eq!(phases, [vec![0, 1], vec![2, 4], vec![3]]);
    // But a step taken inside the finish child does not touch it.
    let tree = s();
    let (answer, phases) = replay_to_vecs(2, 16, &tree, &[1, 0, 4, 0, 2, 0, 6, 0]);
    assert_eq!(answer.number, 0);
    assert_eq!(phases, [vec![0, 2, 3, 5, 1], vec![4], vec![6]]);
}

/// Replay does not wait for a finish child.
#[test]
fn replay_does_not_wait() {
    // The inside is stolen; the continuation stays in phase 0 all the same.
    let tree = tree_of_kinds(&[2, 1, 3, 3, 3]);
    let (answer, phases) = replay_to_vecs(2, 16, &tree, &[1, 0, 2, 0]);
    assert_eq!(answer.number, 0);
    assert_eq!(phases, [vec![0, 1, 3, 4], vec![2]]);
}

/// Loads count covered steps, run or not, and the heaviest is the lowest
/// numbered among equals.
#[test]
fn loads_and_heaviest() {
    // Weights 1, 2, 4, ... name the steps in the sums.
    let mut tree = s();
    for step in 0..7 {
        tree[8 * step + 4] = 1 << step;
    }
    // Worker 1 takes step 2 and all behind it; only step 0 has run.
    let (answer, _, _) = record_to_vecs(1, 16, &tree, &[0, 0, 1, 0]);
    assert_eq!(answer.loads[..3], [0b11, 0b111_1100, 0]);
    assert_eq!(answer.heaviest, 1);
    // Help-first: worker 1 takes only step 1.
    let (answer, _, _) = record_to_vecs(2, 16, &tree, &[0, 0, 1, 0]);
    assert_eq!(answer.loads[..3], [0b111_1101, 0b10, 0]);
    assert_eq!(answer.heaviest, 0);
    // Equal loads: all weights 0 but those of steps 1 and 4.
    let mut tree = s();
    for step in 0..7 {
        tree[8 * step + 4] = u8::from(step == 1 || step == 4);
    }
    let (answer, phases) = replay_to_vecs(2, 16, &tree, &[9, 0, 4, 0, 3, 0, 1, 0]);
    assert_eq!(phases, [vec![0, 2, 3, 5, 6], vec![4], vec![1]]);
    assert_eq!((answer.loads[0], answer.loads[9], answer.loads[3]), (0, 1, 1));
    assert_eq!(answer.heaviest, 3);
    // All weights 0: worker 0.
    for step in 0..7 {
        tree[8 * step + 4] = 0;
    }
    let (answer, _) = replay_to_vecs(2, 16, &tree, &[9, 0, 4, 0, 3, 0, 1, 0]);
    assert_eq!(answer.heaviest, 0);
    // Sums above four bytes.
    let mut tree = s();
    for step in 0..7 {
        tree[8 * step + 4..8 * step + 8].copy_from_slice(&[255; 4]);
    }
    let (answer, _) = replay_to_vecs(1, 16, &tree, &[]);
    assert_eq!(answer.loads[0], 7 * 0xFFFF_FFFF);
}

/// The count says which workers there are, not how many of them may be busy or
/// have a phase.
#[test]
fn count_is_a_bound_on_names() {
    // Two workers in all, but worker 5 is not one of four.
    assert_eq!(record_to_vecs(1, 4, &s(), &[0, 0, 5, 0]).0.number, 8);
    assert_eq!(replay_to_vecs(1, 4, &s(), &[5, 0, 1, 0]).0.number, 8);
    assert_eq!(record_to_vecs(1, 6, &s(), &[0, 0, 5, 0]).0.number, 0);
    assert_eq!(replay_to_vecs(1, 6, &s(), &[5, 0, 1, 0]).0.number, 0);
}

/// Idle workers are looked for below the count, and the lowest of none is 16
/// and not the count.
#[test]
fn idle_below_the_count() {
    for workers in 1..=16u8 {
        let mut run = Run::start(1, workers, &s()).unwrap();
        let all = (1u32 << workers) - 1;
        let idle = |run: &Run| (u32::from(run.idle_set()), run.idle_count(), run.lowest_idle());
        let lowest = if workers == 1 { 16 } else { 1 };
        assert_eq!(idle(&run), (all - 1, usize::from(workers) - 1, lowest));
        for _ in 0..7 {
            run.event(0, 0).unwrap();
        }
        assert_eq!(idle(&run), (all, workers.into(), 0));
    }
}

/// There are sixteen loads, whatever the count, and a refused call has none.
#[test]
fn loads_beyond_the_count() {
    for workers in 2..=16 {
        let (answer, _, _) = record_to_vecs(1, workers, &s(), &[0, 0, 1, 0]);
        assert_eq!(answer.loads, [2, 5, 0, 0, 0, 0, 0, 0, 0, 0, 0, 0, 0, 0, 0, 0]);
        let (answer, _) = replay_to_vecs(1, workers, &s(), &[1, 0, 1, 0]);
        assert_eq!(answer.loads, [2, 5, 0, 0, 0, 0, 0, 0, 0, 0, 0, 0, 0, 0, 0, 0]);
    }
    assert_eq!(record_to_vecs(1, 1, &s(), &[0, 0, 1, 0]).0.loads, [0; 16]);
}

/// The count changes nothing else: a call that it allows answers as with 16.
#[test]
fn a_count_that_is_high_enough() {
    let events = [0, 0, 1, 0, 1, 1, 2, 1, 1, 1, 0, 0, 0, 1, 0, 0, 1, 1, 2, 2];
    let recorded = record_to_vecs(1, 16, &s(), &events);
    let replayed = replay_to_vecs(1, 16, &s(), &recorded.2);
    assert_eq!((recorded.0.number, replayed.0.number), (0, 0));
    for workers in 3..16 {
        assert_eq!(record_to_vecs(1, workers, &s(), &events), recorded);
        assert_eq!(replay_to_vecs(1, workers, &s(), &recorded.2), replayed);
    }
}

/// A way to read the schedule maker's rule.
#[derive(Clone, Copy)]
struct Reading {
    /// So many rounds for a tree of so many steps.
    rounds: fn(usize) -> usize,
    /// Whose turn it is, at which place of a round of how many workers.
    worker: fn(u8, u8) -> u8,
    /// Whether the worker draws in its turn.
    draws: fn(&Run, usize) -> bool,
    /// Which seed a worker has.
    seed_of: fn(u8) -> usize,
    /// The next seed.
    next: fn(u64) -> u64,
    /// The victim named by the seed before the draw and the one after it, with
    /// the count of workers.
    victim: fn(u64, u64, u8) -> u64,
    /// The seed that stays where there is no steal, of the same two.
    missed: fn(u64, u64) -> u64,
    /// A turn draws so often at most.
    draws_of_a_turn: usize,
    /// A worker that holds a step runs so often at most.
    runs_of_a_turn: usize,
    /// Whether a thief goes on to run its step.
    thief_runs: bool,
}

const RIGHT: Reading = Reading {
    rounds: |steps| steps,
    worker: |place, _| place,
    draws: |run, worker| run.is_idle(worker),
    seed_of: |_| 0,
    next: |seed| (seed + 2_654_435_769) % (1 << 32),
    victim: |_, seed, _| seed >> 28,
    missed: |_, seed| seed,
    draws_of_a_turn: 1,
    runs_of_a_turn: 1,
    thief_runs: false,
};

/// The list for a worked case, read so.
fn list_by(reading: Reading, (policy, workers, kinds, seed, _): schedules::Case) -> Vec<u8> {
    let mut run = Run::start(policy, workers, &tree_of_kinds(kinds)).unwrap();
    let mut seeds = vec![u64::from(seed); workers.into()];
    let mut list = Vec::new();
    // What the run refuses is not written.
    let mut write = |run: &mut Run, worker: u8, other: u8| {
        let accepted = run.event(worker, other).is_ok();
        if accepted {
            list.extend([worker, other]);
        }
        accepted
    };
    for place in (0..(reading.rounds)(kinds.len())).flat_map(|_| 0..workers) {
        let worker = (reading.worker)(place, workers);
        let idle = run.is_idle(worker.into());
        let draws = if (reading.draws)(&run, worker.into()) { reading.draws_of_a_turn } else { 0 };
        for _ in 0..draws {
            let seed = &mut seeds[(reading.seed_of)(worker)];
            let old = std::mem::replace(seed, (reading.next)(*seed));
            let victim = (reading.victim)(old, *seed, workers).min(255) as u8;
            if idle && write(&mut run, worker, victim) {
                break;
            }
            *seed = (reading.missed)(old, *seed);
        }
        let runs = if idle { usize::from(reading.thief_runs) } else { reading.runs_of_a_turn };
        for _ in 0..runs {
            write(&mut run, worker, worker);
        }
    }
    list
}

/// Each misreading of the maker, with a worked case for which it makes another
/// list.
#[test]
fn misread_schedules() {
    for case in schedules::LISTS {
        assert_eq!(list_by(RIGHT, case), case.4, "{:?}", case);
    }
    let modulo: fn(u64, u64, u8) -> u64 = |_, seed, count| (seed >> 28) % u64::from(count);
    let other_sum: fn(u64) -> u64 = |seed| (seed + 2_654_435_768) % (1 << 32);
    let waiting: fn(&Run, usize) -> bool = |run, worker| run.is_idle(worker) || run.waits(worker);
    let misreadings = [
        ("the seed before the addition", 0, Reading { victim: |old, _, _| old >> 28, ..RIGHT }),
        ("another number is added", 0, Reading { next: other_sum, ..RIGHT }),
        ("no modulo", 0, Reading { next: |seed| seed + 2_654_435_769, ..RIGHT }),
        ("the low four bits", 0, Reading { victim: |_, seed, _| seed % 16, ..RIGHT }),
        ("the draw modulo the count", 1, Reading { victim: modulo, ..RIGHT }),
        ("a seed for each worker", 2, Reading { seed_of: usize::from, ..RIGHT }),
        ("a miss leaves the seed", 3, Reading { missed: |old, _| old, ..RIGHT }),
        ("another draw after a miss", 3, Reading { draws_of_a_turn: 2, ..RIGHT }),
        ("one who waits draws", 5, Reading { draws: waiting, ..RIGHT }),
        ("everybody draws", 4, Reading { draws: |_, _| true, ..RIGHT }),
        ("a thief runs at once", 0, Reading { thief_runs: true, ..RIGHT }),
        ("a turn runs on", 4, Reading { runs_of_a_turn: 7, ..RIGHT }),
        ("from worker 1 on", 0, Reading { worker: |place, n| (place + 1) % n, ..RIGHT }),
        ("in falling order", 1, Reading { worker: |place, n| n - 1 - place, ..RIGHT }),
        ("a round fewer than steps", 6, Reading { rounds: |steps| steps - 1, ..RIGHT }),
    ];
    for (misread, case, reading) in misreadings {
        let case = schedules::LISTS[case];
        assert_ne!(list_by(reading, case), case.4, "{}", misread);
    }
}

/// The answer counts events and not bytes. The room is asked for the most
/// events that a list can have, not for the steps alone and not for this list.
#[test]
fn count_and_room_of_a_schedule() {
    let (answer, list) = schedule_to_vec(1, 16, &s(), 1_640_531_527);
    assert_eq!((answer.events, list.len()), (10, 20));
    // One worker makes a list of 14 bytes.
    for (room, number) in [(14, 7), (19, 7), (20, 0)] {
        assert_eq!(schedule(1, 1, &s(), 0, &mut vec![0; room]).number, number);
    }
}

/// A tree of these kinds, classes and weights.
fn tree_of(steps: &[(u8, u8, u32)]) -> Vec<u8> {
    let record = |&(kind, class, weight): &(u8, u8, u32)| {
        let mut bytes = tree_record(kind, weight);
        bytes[1] = class;
        bytes
    };
    steps.iter().flat_map(record).collect()
}

/// Sixteen loads, all 0 but these.
fn loads_of(some: &[(usize, u64)]) -> [u64; 16] {
    let mut loads = [0; 16];
    some.iter().for_each(|&(class, load)| loads[class] = load);
    loads
}

/// The class is the whole byte: 16 is none, and not class 0 again.
#[test]
fn class_is_the_whole_byte() {
    for (class, refused) in [(0, false), (15, false), (16, true), (31, true), (240, true)] {
        let tree = tree_of(&[(1, 0, 1), (3, class, 1), (3, 0, 1)]);
        let want = if refused { Some(Refusal::new(3, 1)) } else { None };
        assert_eq!(Tree::parse(&tree).err(), want, "{}", class);
    }
}

/// A step has the class of its own record, not that of its task's first step
/// or of the record that opened the task.
#[test]
fn class_is_the_steps_own() {
    let tree = tree_of(&[(1, 5, 1), (2, 0, 2), (3, 7, 4), (3, 15, 8), (3, 9, 16)]);
    let want = loads_of(&[(5, 1), (0, 2), (7, 4), (15, 8), (9, 16)]);
    for policy in [1, 2] {
        assert_eq!(replay_to_vecs(policy, 16, &tree, &[]).0.class_loads, want);
        assert_eq!(record_to_vecs(policy, 16, &tree, &[]).0.class_loads, want);
    }
}

/// A class is no worker: its load is that of all workers, and there are
/// sixteen however few workers the run has.
#[test]
fn classes_are_not_workers() {
    // Worker 1 has step 2 and class 1 step 1.
    let tree = tree_of(&[(1, 3, 1), (3, 1, 2), (3, 3, 4)]);
    for workers in 2..=16 {
        let (answer, _, _) = record_to_vecs(1, workers, &tree, &[0, 0, 1, 0]);
        assert_eq!(answer.loads, loads_of(&[(0, 3), (1, 4)]));
        assert_eq!(answer.class_loads, loads_of(&[(3, 5), (1, 2)]));
        // The heaviest worker, not the heaviest class.
        assert_eq!(answer.heaviest, 1);
    }
    let (answer, _, _) = record_to_vecs(1, 1, &tree, &[]);
    assert_eq!((answer.loads, answer.heaviest), (loads_of(&[(0, 7)]), 0));
    assert_eq!(answer.class_loads, loads_of(&[(3, 5), (1, 2)]));
}

/// As for workers, the covered steps count, run or not, and their weights and
/// not how many they are.
#[test]
fn class_loads_are_weights_of_covered_steps() {
    let most = u32::MAX;
    let tree = tree_of(&[(1, 2, 0), (3, 2, most), (1, 2, most), (3, 4, 0), (3, 0, 6)]);
    let want = loads_of(&[(2, 2 * u64::from(most)), (0, 6)]);
    // The run goes on to its end; a second worker takes what follows a child.
    let events = [0, 0, 1, 0, 1, 1, 0, 0, 0, 1, 0, 0, 1, 1];
    for count in 0..=7 {
        let (answer, _, _) = record_to_vecs(1, 2, &tree, &events[..2 * count]);
        assert_eq!((answer.number, answer.finished), (0, count == 7), "{} events", count);
        assert_eq!(answer.class_loads, want, "{} events", count);
    }
}

/// A reading of document 02's words about the awaited step.
#[derive(Clone, Copy)]
struct Waiting {
    /// Whether a child of this kind is waited for.
    child: fn(TaskKind) -> bool,
    /// Whether a step counts that belongs to the child itself, or does not.
    counts: fn(bool) -> bool,
    /// What this step waits for if those before it, rising, have not run.
    awaited: fn(usize, &[usize]) -> Option<usize>,
}

const HIGHEST: Waiting = Waiting {
    child: |kind| kind == TaskKind::Finish,
    counts: |_| true,
    awaited: |_, unrun| unrun.last().copied(),
};

/// The steps of a worked case that wait, read so, each with the awaited one.
fn awaited_by(reading: Waiting, (policy, kinds, events, ..): awaited::Case) -> Vec<(usize, usize)> {
    let mut run = Run::start(policy, 4, &tree_of_kinds(kinds)).unwrap();
    for event in events {
        run.event(event[0], event[1]).unwrap();
    }
    let tree = &run.tree;
    let awaited = |step| {
        let child = tree.child_ended_before(step)?;
        let mut unrun = tree.steps_with_descendants(child);
        unrun.retain(|&inside| !run.ran[inside] && (reading.counts)(tree.task_of(inside) == child));
        let waits = (reading.child)(tree.tasks()[child].kind);
        (reading.awaited)(step, &unrun).filter(|_| waits).map(|awaited| (step, awaited))
    };
    (0..kinds.len()).filter_map(awaited).collect()
}

/// Each misreading of the awaited step, with a worked case for which it answers
/// otherwise.
#[test]
fn misread_awaited_steps() {
    for case in awaited::CASES {
        assert_eq!(awaited_by(HIGHEST, case), case.4, "{:?}", case);
    }
    let end: fn(usize, &[usize]) -> Option<usize> = |step, unrun| unrun.first().map(|_| step - 1);
    let misreadings = [
        ("the lowest", 0, Waiting { awaited: |_, unrun| unrun.first().copied(), ..HIGHEST }),
        ("the child's end until all have run", 5, Waiting { awaited: end, ..HIGHEST }),
        ("the child's own steps alone", 5, Waiting { counts: |own| own, ..HIGHEST }),
        ("the descendants' steps alone", 7, Waiting { counts: |own| !own, ..HIGHEST }),
        ("an async child too", 0, Waiting { child: |_| true, ..HIGHEST }),
    ];
    for (misread, case, reading) in misreadings {
        let case = awaited::CASES[case];
        assert_ne!(awaited_by(reading, case), case.4, "{}", misread);
    }
}

/// A reading of document 02's words about work and span.
#[derive(Clone, Copy)]
struct Spanning {
    /// Whether the spawning step precedes the child's steps.
    spawning: bool,
    /// Whether the earlier steps of a task precede the later ones.
    earlier: bool,
    /// Whether a child of this kind precedes what follows it in its parent.
    child: fn(TaskKind) -> bool,
    /// Whether a step of such a child precedes it that is the child's own or
    /// not, and the child's last or not.
    counts: fn(bool, bool) -> bool,
    /// Whether a chain counts, by its weights.
    may: fn(&[u32]) -> bool,
    /// Whether a chain that ends with the root, or does not, counts.
    ends: fn(bool) -> bool,
    /// Which of two equal chains goes before.
    order: fn(&[u16], &[u16]) -> Ordering,
}

const SPANNING: Spanning = Spanning {
    spawning: true,
    earlier: true,
    child: |kind| kind == TaskKind::Finish,
    counts: |_, _| true,
    may: |_| true,
    ends: |_| true,
    order: |one, other| one.cmp(other),
};

/// Whether the first step precedes the second over one link, read so.
fn linked(reading: Spanning, tree: &Tree, first: usize, second: usize) -> bool {
    let task = tree.task_of(second);
    // A child that ended before the second step and has the first one.
    let inside = |&child: &usize| {
        tree.end_of(child) < second && tree.steps_with_descendants(child).contains(&first)
    };
    let counts = |&child: &usize| {
        let (own, last) = (tree.task_of(first) == child, tree.end_of(child) == first);
        (reading.child)(tree.tasks()[child].kind) && (reading.counts)(own, last)
    };
    (reading.spawning && tree.child_opened_by(first) == Some(task))
        || (reading.earlier && tree.task_of(first) == task && first < second)
        || tree.tasks()[task].children.iter().any(|child| inside(child) && counts(child))
}

/// Span and chain of a worked case, read so: the first of the heaviest of all
/// chains.
fn span_by(reading: Spanning, (kinds, weights, ..): spans::Case) -> (u64, Vec<u16>) {
    let tree = Tree::parse(&tree_of_weights(kinds, weights)).unwrap();
    let n = tree.count();
    let mut before = vec![vec![false; n]; n];
    for first in (0..n).rev() {
        for last in first + 1..n {
            before[first][last] = linked(reading, &tree, first, last)
                || (first + 1..last).any(|k| linked(reading, &tree, first, k) && before[k][last]);
        }
    }
    let mut best: Option<(u64, Vec<u16>)> = None;
    for set in 1..1_u32 << n {
        let steps: Vec<usize> = (0..n).filter(|step| set >> step & 1 == 1).collect();
        let own: Vec<u32> = steps.iter().map(|&step| weights[step]).collect();
        let is_chain = steps.windows(2).all(|pair| before[pair[0]][pair[1]]);
        if !is_chain || !(reading.may)(&own) || !(reading.ends)(steps.last() == Some(&(n - 1))) {
            continue;
        }
        let weight = own.iter().map(|&weight| u64::from(weight)).sum();
        let chain: Vec<u16> = steps.iter().map(|&step| step as u16).collect();
        let taken = best.as_ref().is_none_or(|(most, first)| {
            weight > *most || (weight == *most && (reading.order)(&chain, first).is_lt())
        });
        if taken {
            best = Some((weight, chain));
        }
    }
    best.unwrap()
}

/// Each misreading of work and span, with worked cases for which it answers
/// otherwise.
#[test]
fn misread_spans() {
    for case in spans::CASES {
        assert_eq!(span_by(SPANNING, case), (case.3, case.4.to_vec()), "{:?}", case);
    }
    let no_zeros: fn(&[u32]) -> bool = |own| own.len() == 1 || own.iter().all(|&weight| weight > 0);
    // At the first difference, with the start of a chain before the chain.
    let highest: fn(&[u16], &[u16]) -> Ordering =
        |one, other| match one.iter().zip(other).find(|(a, b)| a != b) {
            Some((a, b)) => b.cmp(a),
            None => one.len().cmp(&other.len()),
        };
    let whole_first: fn(&[u16], &[u16]) -> Ordering =
        |one, other| match one.iter().zip(other).find(|(a, b)| a != b) {
            Some((a, b)) => a.cmp(b),
            None => other.len().cmp(&one.len()),
        };
    let shortest: fn(&[u16], &[u16]) -> Ordering =
        |one, other| (one.len(), one).cmp(&(other.len(), other));
    let longest: fn(&[u16], &[u16]) -> Ordering =
        |one, other| (other.len(), one).cmp(&(one.len(), other));
    let from_behind: fn(&[u16], &[u16]) -> Ordering =
        |one, other| one.iter().rev().cmp(other.iter().rev());
    let misreadings = [
        ("an async child too", Spanning { child: |_| true, ..SPANNING }),
        ("no child", Spanning { child: |_| false, ..SPANNING }),
        ("the finish child's own steps alone", Spanning { counts: |own, _| own, ..SPANNING }),
        ("its descendants' alone", Spanning { counts: |own, _| !own, ..SPANNING }),
        ("its end alone", Spanning { counts: |_, last| last, ..SPANNING }),
        ("a child begins with the run", Spanning { spawning: false, ..SPANNING }),
        ("the steps of a task overlap", Spanning { earlier: false, ..SPANNING }),
        ("the span is the root's end", Spanning { ends: |root| root, ..SPANNING }),
        ("no step of weight 0", Spanning { may: no_zeros, ..SPANNING }),
        ("the higher step", Spanning { order: highest, ..SPANNING }),
        ("on through steps of weight 0", Spanning { order: whole_first, ..SPANNING }),
        ("the shortest", Spanning { order: shortest, ..SPANNING }),
        ("the longest", Spanning { order: longest, ..SPANNING }),
        ("the last difference", Spanning { order: from_behind, ..SPANNING }),
    ];
    for (misread, reading) in misreadings {
        let other = |case: &spans::Case| span_by(reading, *case) != (case.3, case.4.to_vec());
        let others = spans::CASES.iter().filter(|case| other(case)).count();
        assert!(others > 0, "{}", misread);
    }
}

/// The answer counts steps and not bytes. The room is asked for all steps, not
/// for those of the chain. Work is that of all steps, not of the chain.
#[test]
fn length_and_room_of_a_chain() {
    let (answer, chain) = span_to_vec(&s());
    assert_eq!((answer.length, chain.len()), (5, 5));
    assert_eq!((answer.work, answer.span), (7, 5));
    for (room, number) in [(10, 7), (13, 7), (14, 0)] {
        assert_eq!(span(&s(), &mut vec![0; room]).number, number);
    }
}

/// A reading of document 02's words about the histogram.
#[derive(Clone, Copy)]
struct Counting {
    /// The loads that an accepted trace adds.
    loads: fn(&Replay) -> Vec<u64>,
    /// The bucket of a load.
    bucket: fn(u64) -> usize,
    /// Whether a trace with this refusal adds to the count of traces.
    counts: fn(usize) -> bool,
}

const COUNTING: Counting = Counting {
    loads: |replay| replay.phases.iter().map(|phase| phase.load(&replay.tree)).collect(),
    bucket,
    counts: |number| number == 0,
};

/// The count of traces and the counts after each of the worked cases, read so.
fn counted_by(reading: Counting) -> Vec<(u32, [u32; BUCKETS])> {
    let (mut traces, mut counts) = (0, [0; BUCKETS]);
    let mut after = Vec::new();
    for (policy, kinds, weights, trace, room, want, ..) in histograms::IN_TURN {
        traces += u32::from((reading.counts)(want.0));
        let tree = tree_of_weights(kinds, weights);
        if let Ok(replay) = judge_and_replay(policy, 16, &tree, trace, room) {
            for load in (reading.loads)(&replay) {
                counts[(reading.bucket)(load)] += 1;
            }
        }
        after.push((traces, counts));
    }
    after
}

/// Each misreading of the histogram, which the worked cases tell from it.
#[test]
fn misread_histograms() {
    let want: Vec<_> = histograms::IN_TURN
        .iter()
        .zip([1, 2, 3, 3, 4, 5])
        .map(|(case, traces)| (traces, histograms::counts(case.7)))
        .collect();
    assert_eq!(counted_by(COUNTING), want);
    // The first of the limits that equal this one.
    let lowest: fn(u64) -> usize = |load| match bucket(load) {
        0 => 0,
        after => limits().iter().position(|&limit| limit == limits()[after - 1]).unwrap() + 1,
    };
    let below: fn(u64) -> usize =
        |load| (0..LIMITS).rev().find(|&k| limits()[k] < load).map_or(0, |k| k + 1);
    let above: fn(u64) -> usize =
        |load| (0..LIMITS).find(|&k| limits()[k] >= load).map_or(0, |k| k + 1);
    // The first of the four limits that have the load's highest bit.
    let by_bit: fn(u64) -> usize =
        |load| load.checked_ilog2().map_or(0, |bit| 4 * bit as usize + 1);
    let by_worker: fn(&Replay) -> Vec<u64> = |replay| {
        let mut loads = BTreeMap::new();
        for (phase, load) in replay.phases.iter().zip((COUNTING.loads)(replay)) {
            *loads.entry(phase.worker).or_default() += load;
        }
        loads.into_values().collect()
    };
    let steps: fn(&Replay) -> Vec<u64> = |replay| {
        let covered = replay.phases.iter().map(|phase| phase.covers(&replay.tree));
        covered.map(|covered| covered.iter().filter(|&&step| step).count() as u64).collect()
    };
    let at_their_start: fn(&Replay) -> Vec<u64> = |replay| {
        let weight = |step| u64::from(replay.tree.weight(step));
        let ranges = replay.phases.iter().map(|phase| replay.tree.to_end_of_task(phase.first));
        ranges.map(|steps| steps.map(weight).sum()).collect()
    };
    let stolen: fn(&Replay) -> Vec<u64> = |replay| (COUNTING.loads)(replay).split_off(1);
    let heavy: fn(&Replay) -> Vec<u64> =
        |replay| (COUNTING.loads)(replay).into_iter().filter(|&load| load > 0).collect();
    let misreadings = [
        ("the lowest of equal limits", Counting { bucket: lowest, ..COUNTING }),
        ("a limit below the load", Counting { bucket: below, ..COUNTING }),
        ("the lowest limit that the load does not exceed", Counting { bucket: above, ..COUNTING }),
        ("load 0 to limit 0", Counting { bucket: |load| bucket(load).max(1), ..COUNTING }),
        ("by the highest bit alone", Counting { bucket: by_bit, ..COUNTING }),
        ("the loads of the workers", Counting { loads: by_worker, ..COUNTING }),
        ("the phases' counts of steps", Counting { loads: steps, ..COUNTING }),
        ("what a phase covers at its start", Counting { loads: at_their_start, ..COUNTING }),
        ("stolen phases alone", Counting { loads: stolen, ..COUNTING }),
        ("phases with a load alone", Counting { loads: heavy, ..COUNTING }),
        ("refused traces too", Counting { counts: |_| true, ..COUNTING }),
    ];
    for (misread, reading) in misreadings {
        assert_ne!(counted_by(reading), want, "{}", misread);
    }
}
