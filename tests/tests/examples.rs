//! The examples of document 01, and worked cases of a run's own worker count,
//! of the schedule maker, of the classes, of the awaited step, of work and span,
//! and of the histogram.

#[path = "library/awaited.rs"]
mod awaited;
#[path = "library/classes.rs"]
mod classes;
#[path = "library/counts.rs"]
mod counts;
#[path = "library/histograms.rs"]
mod histograms;
#[path = "library/schedules.rs"]
mod schedules;
#[path = "library/spans.rs"]
mod spans;

use frame_tests::histogram::{add, bucket, limits, Added, Histogram, MAX_TRACES};
use frame_tests::random::{tree_of_kinds, tree_of_weights};
use frame_tests::record::{record, record_to_vecs, RecordAnswer};
use frame_tests::replay::{judge_and_replay, replay, replay_to_vecs, ReplayAnswer};
use frame_tests::run::Run;
use frame_tests::schedule::{schedule, Maker, ScheduleAnswer};
use frame_tests::span::{all_before, ends, links, span, SpanAnswer, Steps};
use frame_tests::tree::{Kind, TaskKind, Tree};

/// Tree S.
fn s() -> Vec<u8> {
    tree_of_kinds(&[1, 3, 2, 1, 3, 3, 3])
}

const P1_EVENTS: [u8; 20] = [
    0, 0, 1, 0, 1, 1, 2, 1, 1, 1, 0, 0, 0, 1, 0, 0, 1, 1, 2, 2,
];
const P1_TRACE: [u8; 12] = [1, 0, 1, 0, 2, 1, 2, 0, 0, 1, 1, 0];

fn refused_record(number: u32, position: usize) -> RecordAnswer {
    RecordAnswer { number, position, ..RecordAnswer::default() }
}

fn refused_replay(number: u32, position: usize) -> ReplayAnswer {
    ReplayAnswer { number, position, ..ReplayAnswer::default() }
}

#[test]
fn bytes_of_tree_s() {
    let mut bytes = Vec::new();
    for kind in [1u8, 3, 2, 1, 3, 3, 3] {
        bytes.extend_from_slice(&[kind, 0, 0, 0, 1, 0, 0, 0]);
    }
    assert_eq!(s(), bytes);
}

#[test]
fn tasks_of_tree_s() {
    let tree = Tree::parse(&s()).unwrap();
    assert_eq!(tree.count(), 7);
    assert_eq!(tree.tasks().len(), 4);
    assert_eq!((0..7).map(|i| tree.task_of(i)).collect::<Vec<_>>(), [0, 1, 0, 2, 3, 2, 0]);
    assert_eq!((0..7).map(|i| tree.ordinal(i)).collect::<Vec<_>>(), [0, 0, 1, 0, 0, 1, 2]);
    assert_eq!((0..4).map(|t| tree.child_count(t)).collect::<Vec<_>>(), [2, 0, 1, 0]);
    assert_eq!((0..4).map(|t| tree.end_of(t)).collect::<Vec<_>>(), [6, 1, 5, 4]);
    assert_eq!(tree.step_after(1), 2);
    assert_eq!(tree.step_after(2), 6);
    assert_eq!(tree.step_after(3), 5);
    assert_eq!(tree.kind(0), Kind::OpenAsync);
    assert_eq!(tree.kind(2), Kind::OpenFinish);
    assert_eq!(tree.kind(6), Kind::End);
    assert_eq!(tree.tasks()[0].kind, TaskKind::Root);
    assert_eq!(tree.tasks()[2].kind, TaskKind::Finish);
    assert_eq!(tree.tasks()[3].parent, Some(2));
    assert_eq!(tree.child_ended_before(2), Some(1));
    assert_eq!(
        (0..7).map(|i| tree.finish_child_before(i)).collect::<Vec<_>>(),
        [None, None, None, None, None, None, Some(2)]
    );
    assert_eq!(tree.steps_with_descendants(0), [0, 1, 2, 3, 4, 5, 6]);
    assert_eq!(tree.steps_with_descendants(2), [3, 4, 5]);
    assert_eq!(tree.steps_with_descendants(3), [4]);
    assert_eq!(tree.total_weight(), 7);
}

#[test]
fn weights_are_little_endian() {
    let bytes = [3, 0, 0, 0, 0x01, 0x02, 0x03, 0x84];
    assert_eq!(Tree::parse(&bytes).unwrap().weight(0), 0x8403_0201);
}

#[test]
fn p1_record() {
    let mut log = [0xEE; 30];
    let mut trace = [0xEE; 14];
    let answer = record(1, 16, &s(), &P1_EVENTS, &mut log, &mut trace);
    let mut loads = [0; 16];
    loads[0] = 3; // steps 0 and 1 in phase 0, step 5 in phase 3
    loads[1] = 3; // steps 2, 3 and 4 in phase 1
    loads[2] = 1; // step 6 in phase 2
    let mut class_loads = [0; 16];
    class_loads[0] = 7; // an old tree: all steps are class 0
    assert_eq!(
        answer,
        RecordAnswer {
            number: 0,
            position: 0,
            log_count: 7,
            trace_count: 3,
            finished: true,
            loads,
            heaviest: 0,
            class_loads,
        }
    );
    assert_eq!(trace[..12], P1_TRACE);
    assert_eq!(trace[12..], [0xEE; 2]);
    #[rustfmt::skip]
    assert_eq!(log[..28], [
        0, 0, 0, 0,
        1, 0, 2, 0,
        1, 0, 3, 0,
        0, 0, 1, 0,
        3, 0, 5, 0,
        1, 0, 4, 0,
        2, 0, 6, 0,
    ]);
    assert_eq!(log[28..], [0xEE; 2]);
}

#[test]
fn p1_replay() {
    let mut list = [0xEE; 31];
    let answer = replay(1, 16, &s(), &P1_TRACE, &mut list);
    let mut loads = [0; 16];
    loads[0] = 3;
    loads[1] = 3;
    loads[2] = 1;
    let mut class_loads = [0; 16];
    class_loads[0] = 7;
    let want = ReplayAnswer { number: 0, position: 0, phases: 4, loads, heaviest: 0, class_loads };
    assert_eq!(answer, want);
    #[rustfmt::skip]
    assert_eq!(list[..28], [
        0, 0, 0, 0,
        0, 0, 1, 0,
        1, 0, 2, 0,
        1, 0, 3, 0,
        1, 0, 4, 0,
        2, 0, 6, 0,
        3, 0, 5, 0,
    ]);
    assert_eq!(list[28..], [0xEE; 3]);
}

#[test]
fn p1_events_one_by_one() {
    let mut run = Run::start(1, 16, &s()).unwrap();
    // After each event: idle set, how many, lowest, finished.
    let wanted = [
        (0xFFFE, 15, 1, false),
        (0xFFFC, 14, 2, false),
        (0xFFFC, 14, 2, false),
        (0xFFF8, 13, 3, false),
        (0xFFF8, 13, 3, false),
        (0xFFF9, 14, 0, false),
        (0xFFF8, 13, 3, false),
        (0xFFF9, 14, 0, false),
        (0xFFFB, 15, 0, false),
        (0xFFFF, 16, 0, true),
    ];
    for (event, wanted) in P1_EVENTS.chunks(2).zip(wanted) {
        assert_eq!(run.event(event[0], event[1]), Ok(()));
        let seen = (run.idle_set(), run.idle_count(), run.lowest_idle(), run.finished());
        assert_eq!(seen, wanted, "event {:?}", event);
    }
}

#[test]
fn p2() {
    let mut events = P1_EVENTS[..14].to_vec();
    events.extend_from_slice(&[1, 1, 2, 2]);
    let mut log = [0x55; 28];
    let mut trace = [0x55; 12];
    assert_eq!(record(1, 16, &s(), &events, &mut log, &mut trace), refused_record(10, 8));
    assert_eq!(log, [0x55; 28]);
    assert_eq!(trace, [0x55; 12]);
}

#[test]
fn p3() {
    let (answer, phases) = replay_to_vecs(2, 16, &s(), &[]);
    assert_eq!((answer.number, answer.position, answer.phases), (0, 0, 1));
    assert_eq!(phases, [vec![0, 2, 3, 5, 4, 6, 1]]);
    assert_eq!(answer.loads[0], 7);
    assert_eq!(answer.heaviest, 0);
}

#[test]
fn p4() {
    let (answer, phases) = replay_to_vecs(2, 16, &s(), &[1, 0, 1, 0, 2, 0, 6, 0]);
    assert_eq!((answer.number, answer.position, answer.phases), (0, 0, 3));
    assert_eq!(phases, [vec![0, 2, 3, 5, 4], vec![1], vec![6]]);
    assert_eq!(answer.loads[..4], [5, 1, 1, 0]);
}

#[test]
fn p5() {
    let (answer, log, trace) = record_to_vecs(1, 16, &[3, 0, 0, 0, 9, 0, 0, 0], &[0, 0]);
    assert_eq!((answer.number, answer.finished), (0, true));
    assert_eq!((answer.log_count, answer.trace_count), (1, 0));
    assert_eq!(log, [0, 0, 0, 0]);
    assert!(trace.is_empty());
    assert_eq!(answer.loads[0], 9);
    // A trace buffer of no bytes is long enough here.
    let mut log = [7; 4];
    let answer = record(2, 16, &tree_of_kinds(&[3]), &[0, 0], &mut log, &mut []);
    assert_eq!((answer.number, answer.finished), (0, true));
    assert_eq!(log, [0; 4]);
}

#[test]
fn p6() {
    for policy in [1, 2] {
        let (answer, _, _) = record_to_vecs(policy, 16, &tree_of_kinds(&[3]), &[0, 0, 0, 0]);
        assert_eq!(answer, refused_record(9, 1));
    }
}

#[test]
fn p7() {
    for policy in [1, 2] {
        let run = Run::start(policy, 16, &s()).unwrap();
        assert!(!run.finished());
        assert_eq!((run.idle_set(), run.idle_count(), run.lowest_idle()), (65_534, 15, 1));
        let (answer, log, trace) = record_to_vecs(policy, 16, &s(), &[]);
        assert_eq!((answer.number, answer.finished), (0, false));
        assert!(log.is_empty() && trace.is_empty());
        // Phase 0 covers all steps though none has run.
        assert_eq!(answer.loads[0], 7);
    }
}

#[test]
fn p8() {
    let trace = [1, 0, 1, 0, 2, 1, 1, 0];
    let mut list = [0x55; 28];
    assert_eq!(replay(1, 16, &s(), &trace, &mut list), refused_replay(15, 1));
    assert_eq!(list, [0x55; 28]);
}

#[test]
fn p9() {
    let (answer, _) = replay_to_vecs(2, 16, &s(), &[1, 0, 3, 0]);
    assert_eq!(answer, refused_replay(15, 0));
}

#[test]
fn p10_p11() {
    for policy in [1, 2] {
        assert_eq!(record_to_vecs(policy, 16, &s(), &[1, 0]).0, refused_record(12, 0));
        assert_eq!(record_to_vecs(policy, 16, &s(), &[0x10, 0]).0, refused_record(8, 0));
    }
}

#[test]
fn p12() {
    for policy in [1, 2] {
        let (answer, _) = replay_to_vecs(policy, 16, &s(), &[0, 1, 1, 0]);
        assert_eq!(answer, refused_replay(14, 0));
    }
}

#[test]
fn lowest_is_16_when_none_is_idle() {
    // A chain of 16 spawned tasks under work-first: worker 0 goes down, the
    // others steal the sixteen pushed steps from the oldest on.
    let mut kinds = vec![1; 16];
    kinds.extend(vec![3; 17]);
    let mut run = Run::start(1, 16, &tree_of_kinds(&kinds)).unwrap();
    for _ in 0..16 {
        run.event(0, 0).unwrap();
    }
    for thief in 1..16 {
        assert_eq!(run.lowest_idle(), usize::from(thief));
        run.event(thief, 0).unwrap();
    }
    assert_eq!((run.idle_set(), run.idle_count(), run.lowest_idle()), (0, 0, 16));
}

/// The refusal, or 0 with no position.
fn refusal(number: u32, position: usize) -> (usize, usize) {
    (number as usize, position)
}

#[test]
fn worked_cases_of_the_count() {
    for (policy, workers, kinds, events, want) in counts::RECORDINGS {
        let (answer, _, _) = record_to_vecs(policy, workers, &tree_of_kinds(kinds), events);
        let case = format!("policy {policy}, {workers} workers, {kinds:?}, events {events:?}");
        assert_eq!(refusal(answer.number, answer.position), want, "{case}");
    }
    for (policy, workers, kinds, trace, want) in counts::REPLAYS {
        let (answer, _) = replay_to_vecs(policy, workers, &tree_of_kinds(kinds), trace);
        let case = format!("policy {policy}, {workers} workers, {kinds:?}, trace {trace:?}");
        assert_eq!(refusal(answer.number, answer.position), want, "{case}");
    }
    for (workers, events, want) in counts::IDLE {
        let mut run = Run::start(1, workers, &s()).unwrap();
        for event in events {
            run.event(event[0], event[1]).unwrap();
        }
        let idle = [run.idle_set().into(), run.idle_count(), run.lowest_idle()];
        assert_eq!(idle, want, "{workers} workers, {events:?}");
    }
}

#[test]
fn p1_by_three_workers() {
    let (answer, _, trace) = record_to_vecs(1, 3, &s(), &P1_EVENTS);
    assert!(answer.finished);
    assert_eq!(trace, P1_TRACE);
    assert_eq!(answer.loads, [3, 3, 1, 0, 0, 0, 0, 0, 0, 0, 0, 0, 0, 0, 0, 0]);
    let (_, phases) = replay_to_vecs(1, 3, &s(), &P1_TRACE);
    assert_eq!(phases, [vec![0, 1], vec![2, 3, 4], vec![6], vec![5]]);
}

#[test]
fn help_first_by_one_worker() {
    let (answer, log, trace) = record_to_vecs(2, 1, &s(), &[0; 14]);
    assert!(answer.finished);
    assert_eq!(log.chunks(4).map(|r| r[2]).collect::<Vec<_>>(), [0, 2, 3, 5, 4, 6, 1]);
    assert!(trace.is_empty());
}

#[test]
fn worked_cases_of_the_maker() {
    for (policy, workers, kinds, seed, list) in schedules::LISTS {
        let tree = tree_of_kinds(kinds);
        let case = format!("policy {policy}, {workers} workers, {kinds:?}, seed {seed}");
        let mut events = vec![0xEE; 3 * kinds.len() + 2];
        let answer = schedule(policy, workers, &tree, seed, &mut events);
        let count = list.len() / 2;
        assert_eq!(answer, ScheduleAnswer { number: 0, position: 0, events: count }, "{case}");
        assert_eq!(events[..list.len()], *list, "{case}");
        assert!(events[list.len()..].iter().all(|&byte| byte == 0xEE), "{case}");
        let (recorded, _, _) = record_to_vecs(policy, workers, &tree, list);
        assert!(recorded.number == 0 && recorded.finished, "{case}");
    }
    for (policy, workers, kinds, room, want) in schedules::ROOM {
        for seed in [0, 1, 1_640_531_527, u32::MAX] {
            let mut events = vec![0xEE; room];
            let answer = schedule(policy, workers, &tree_of_kinds(kinds), seed, &mut events);
            let case = format!("policy {policy}, {workers} workers, {kinds:?}, {room} bytes");
            assert_eq!(refusal(answer.number, answer.position), want, "{case}");
            if answer.number != 0 {
                assert_eq!(answer.events, 0, "{case}");
                assert_eq!(events, vec![0xEE; room], "{case}");
            }
        }
    }
}

/// The lines that stand further in under a heading of docs/FORMAT.md.
fn shown_by_the_format(heading: &str) -> Vec<String> {
    let page = concat!(env!("CARGO_MANIFEST_DIR"), "/../docs/FORMAT.md");
    let page = std::fs::read_to_string(page).unwrap();
    let part = page.split_once(&format!("\n## {heading}\n")).unwrap().1;
    let part = part.split("\n## ").next().unwrap();
    part.lines().filter_map(|line| line.strip_prefix("    ").map(str::to_owned)).collect()
}

/// The list that docs/FORMAT.md decodes is the first worked case.
#[test]
fn the_schedule_of_the_format() {
    let events = shown_by_the_format("A schedule by hand");
    let bytes = events.iter().flat_map(|line| line.split(' ').take(2));
    let bytes: Vec<u8> = bytes.map(|byte| u8::from_str_radix(byte, 16).unwrap()).collect();
    assert_eq!(bytes, schedules::LISTS[0].4);
}

/// The chain that docs/FORMAT.md finds by hand is the simulator's.
#[test]
fn the_chain_of_the_format() {
    let lines = shown_by_the_format("A chain by hand");
    let bytes = lines.iter().flat_map(|line| line.split_whitespace());
    let bytes: Vec<u8> = bytes.map(|byte| u8::from_str_radix(byte, 16).unwrap()).collect();
    let mut chain = vec![0xEE; 14];
    let answer = span(&s(), &mut chain);
    assert_eq!((answer.number, answer.work, answer.span, answer.length), (0, 7, 5, 5));
    assert_eq!(chain, [&bytes[..], &[0xEE; 4]].concat());
}

/// The limits with which docs/FORMAT.md begins are the simulator's.
#[test]
fn the_first_limits_of_the_format() {
    let lines = shown_by_the_format("Histogram");
    let numbers = lines.iter().flat_map(|line| line.split_whitespace());
    let numbers: Vec<u64> = numbers.map(|number| number.parse().unwrap()).collect();
    assert_eq!(numbers, limits()[..12]);
}

/// The first worked case round by round.
#[test]
fn turns_of_sixteen_workers() {
    let mut maker = Maker::new(Run::start(1, 16, &s()).unwrap(), 1_640_531_527);
    // The first draw is 0 and names worker 0, which has just pushed step 2.
    maker.turn(0);
    maker.turn(1);
    assert_eq!((maker.seed, maker.run.workers[1].held), (0, Some(2)));
    for worker in 2..16 {
        maker.turn(worker);
    }
    assert_eq!((maker.seed, &maker.events[..]), (2_802_362_398, &[[0, 0], [1, 0]][..]));
    // The seed after each later round, and what the round writes. Worker 5
    // waits in two of them; in the last one it alone does not draw.
    let rounds: [(u64, &[[u8; 2]]); 4] = [
        (1_309_757_500, &[[0, 0], [1, 1], [5, 1]]),
        (4_112_119_898, &[[1, 1], [12, 1]]),
        (4_260_046_527, &[[1, 1], [12, 12]]),
        (1_126_910_102, &[[5, 5]]),
    ];
    for (seed, written) in rounds {
        let before = maker.events.len();
        maker.round();
        assert_eq!((maker.seed, &maker.events[before..]), (seed, written));
    }
    assert!(maker.run.finished());
}

#[test]
fn tree_c_and_tree_s() {
    let (c, s) = (Tree::parse(&classes::C).unwrap(), Tree::parse(&s()).unwrap());
    assert_eq!((0..7).map(|i| c.class(i)).collect::<Vec<_>>(), [0, 1, 2, 0, 15, 1, 2]);
    assert_eq!((0..7).map(|i| s.class(i)).collect::<Vec<_>>(), [0; 7]);
    assert_eq!((0..7).map(|i| c.weight(i)).collect::<Vec<_>>(), [1, 2, 4, 8, 16, 32, 64]);
    assert!((0..7).all(|i| c.kind(i) == s.kind(i)));
}

#[test]
fn worked_cases_of_the_classes() {
    // The loads of three workers, and the others'.
    let wanted = |first: [u64; 3]| [&first[..], &[0; 13]].concat();
    for (policy, events, loads, heaviest) in classes::RECORDINGS {
        let (answer, _, _) = record_to_vecs(policy, 16, &classes::C, events);
        let case = format!("policy {policy}, events {events:?}");
        assert_eq!((answer.number, answer.heaviest), (0, heaviest), "{case}");
        assert_eq!(answer.loads[..], wanted(loads), "{case}");
        assert_eq!(answer.class_loads, classes::LOADS, "{case}");
    }
    for (policy, trace, loads, heaviest) in classes::REPLAYS {
        let (answer, _) = replay_to_vecs(policy, 16, &classes::C, trace);
        let case = format!("policy {policy}, trace {trace:?}");
        assert_eq!((answer.number, answer.heaviest), (0, heaviest), "{case}");
        assert_eq!(answer.loads[..], wanted(loads), "{case}");
        assert_eq!(answer.class_loads, classes::LOADS, "{case}");
    }
    let (answer, _, _) = record_to_vecs(1, 16, &classes::C, &classes::REFUSED);
    assert_eq!(answer, refused_record(9, 0));
    assert_eq!(answer.class_loads, [0; 16]);
    for (tree, want) in classes::trees() {
        let (answer, _, _) = record_to_vecs(1, 16, &tree, &[]);
        assert_eq!(refusal(answer.number, answer.position), want, "{tree:?}");
        let (answer, _) = replay_to_vecs(2, 16, &tree, &[]);
        assert_eq!(refusal(answer.number, answer.position), want, "{tree:?}");
    }
}

#[test]
fn worked_cases_of_the_awaited_step() {
    for (policy, kinds, events, ran, awaited, waiting) in awaited::CASES {
        let case = format!("policy {policy}, {kinds:?}, events {events:?}");
        let mut run = Run::start(policy, 4, &tree_of_kinds(kinds)).unwrap();
        for event in events {
            run.event(event[0], event[1]).unwrap();
        }
        let steps = || 0..kinds.len();
        assert_eq!(steps().filter(|&step| run.ran[step]).collect::<Vec<_>>(), ran, "{case}");
        let found = steps().filter_map(|step| Some((step, run.awaited_before(step)?)));
        assert_eq!(found.collect::<Vec<_>>(), awaited, "{case}");
        for worker in 0..4 {
            let waits = waiting.contains(&worker);
            assert_eq!(run.judge(worker, worker) == 10, waits, "{case}, worker {worker}");
            assert_eq!(run.awaited(worker.into()).is_some(), waits, "{case}, worker {worker}");
        }
    }
}

#[test]
fn worked_cases_of_work_and_span() {
    for (kinds, weights, work, latest, chain) in spans::CASES {
        let case = format!("{kinds:?}, weights {weights:?}");
        let mut lent = vec![0xEE; 2 * kinds.len() + 3];
        let answer = span(&tree_of_weights(kinds, weights), &mut lent);
        let length = chain.len();
        let want = SpanAnswer { number: 0, position: 0, work, span: latest, length };
        assert_eq!(answer, want, "{case}");
        let bytes: Vec<u8> = chain.iter().flat_map(|step| step.to_le_bytes()).collect();
        assert_eq!(lent[..2 * length], bytes, "{case}");
        assert!(lent[2 * length..].iter().all(|&byte| byte == 0xEE), "{case}");
    }
    for (kinds, room, want) in spans::ROOM {
        let case = format!("{kinds:?}, {room} bytes");
        let mut lent = vec![0xEE; room];
        let answer = span(&tree_of_kinds(kinds), &mut lent);
        assert_eq!(refusal(answer.number, answer.position), want, "{case}");
        if answer.number != 0 {
            assert_eq!((answer.work, answer.span, answer.length), (0, 0, 0), "{case}");
            assert_eq!(lent, vec![0xEE; room], "{case}");
        }
    }
}

/// What precedes each step, written out by hand.
#[test]
fn worked_cases_of_what_precedes() {
    let lists = |sets: &[Steps]| sets.iter().map(Steps::list).collect::<Vec<_>>();
    for (kinds, want) in spans::BEFORE {
        let tree = Tree::parse(&tree_of_kinds(kinds)).unwrap();
        assert_eq!(lists(&all_before(&links(&tree))), want, "{kinds:?}");
    }
    for (kinds, want) in spans::LINKS {
        let tree = Tree::parse(&tree_of_kinds(kinds)).unwrap();
        assert_eq!(lists(&links(&tree)), want, "{kinds:?}");
    }
}

/// When each step of S ends: step 1 beside the others, 4 and 5 together.
#[test]
fn ends_of_tree_s() {
    let tree = Tree::parse(&s()).unwrap();
    assert_eq!(ends(&tree, &all_before(&links(&tree))), [1, 2, 2, 3, 4, 4, 5]);
}

#[test]
fn worked_limits_and_buckets() {
    for (k, limit) in histograms::LIMITS {
        assert_eq!(limits()[k], limit, "limit {k}");
    }
    for (load, limit) in histograms::BUCKETS_OF_LOADS {
        assert_eq!(bucket(load), limit.map_or(0, |k| k + 1), "load {load}");
    }
}

/// A worked case on this histogram, with all that the case says of the answer
/// but the histogram.
fn worked_addition(histogram: &Histogram, case: histograms::Case) -> Added {
    let (policy, kinds, weights, trace, room, want, loads, _) = case;
    let tree = tree_of_weights(kinds, weights);
    let mut list = vec![0xEE; room];
    let added = add(histogram, policy, 16, &tree, trace, &mut list);
    assert_eq!(refusal(added.replay.number, added.replay.position), want, "{case:?}");
    if added.replay.number != 0 {
        assert_eq!(added.replay, refused_replay(want.0 as u32, want.1), "{case:?}");
        assert_eq!(list, vec![0xEE; room], "{case:?}");
    } else {
        let mut own = vec![0xEE; room];
        assert_eq!(added.replay, replay(policy, 16, &tree, trace, &mut own), "{case:?}");
        assert_eq!(list, own, "{case:?}");
        let read = judge_and_replay(policy, 16, &tree, trace, room).unwrap();
        let found: Vec<u64> = read.phases.iter().map(|phase| phase.load(&read.tree)).collect();
        assert_eq!(found, loads, "{case:?}");
    }
    added
}

#[test]
fn worked_cases_of_the_histogram() {
    let mut histogram = Histogram::start();
    let mut traces = 0;
    for case in histograms::IN_TURN {
        histogram = worked_addition(&histogram, case).histogram;
        traces += u32::from(case.5 .0 == 0);
        let counts = histograms::counts(case.7);
        assert_eq!(histogram, Histogram { traces, counts }, "{case:?}");
    }
    for case in histograms::WHERE_FULL {
        let full = Histogram { traces: MAX_TRACES, counts: histograms::counts(case.7) };
        assert_eq!(worked_addition(&full, case).histogram, full, "{case:?}");
    }
}
