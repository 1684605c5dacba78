//! Each refusal at least twice with its position, and which one wins.

use frame_tests::histogram::{add, Added, Histogram, BUCKETS};
use frame_tests::random::tree_of_kinds;
use frame_tests::record::{record, RecordAnswer};
use frame_tests::replay::{replay, ReplayAnswer};
use frame_tests::run::Run;
use frame_tests::schedule::{schedule, ScheduleAnswer};
use frame_tests::span::{span, SpanAnswer};
use frame_tests::tree::{Refusal, Tree};

fn s() -> Vec<u8> {
    tree_of_kinds(&[1, 3, 2, 1, 3, 3, 3])
}

/// The refusal of a record call with 16 workers and ample buffers.
fn record_refusal(policy: u8, tree: &[u8], events: &[u8]) -> (u32, usize) {
    record_refusal_of(policy, 16, tree, events)
}

fn record_refusal_of(policy: u8, workers: u8, tree: &[u8], events: &[u8]) -> (u32, usize) {
    record_refusal_with(policy, workers, tree, events, 4 * 4_095, 4 * 2_047)
}

/// All other results are 0 and the buffers keep their bytes.
fn record_refusal_with(
    policy: u8,
    workers: u8,
    tree: &[u8],
    events: &[u8],
    log_bytes: usize,
    trace_bytes: usize,
) -> (u32, usize) {
    let mut log = vec![0xA5; log_bytes];
    let mut trace = vec![0xA5; trace_bytes];
    let answer = record(policy, workers, tree, events, &mut log, &mut trace);
    if answer.number != 0 {
        let (number, position) = (answer.number, answer.position);
        assert_eq!(answer, RecordAnswer { number, position, ..RecordAnswer::default() });
        assert!(log.iter().chain(&trace).all(|&byte| byte == 0xA5));
    }
    (answer.number, answer.position)
}

fn replay_refusal(policy: u8, tree: &[u8], trace: &[u8]) -> (u32, usize) {
    replay_refusal_of(policy, 16, tree, trace)
}

fn replay_refusal_of(policy: u8, workers: u8, tree: &[u8], trace: &[u8]) -> (u32, usize) {
    replay_refusal_with(policy, workers, tree, trace, 4 * 4_095)
}

fn replay_refusal_with(
    policy: u8,
    workers: u8,
    tree: &[u8],
    trace: &[u8],
    list_bytes: usize,
) -> (u32, usize) {
    let mut list = vec![0xA5; list_bytes];
    let answer = replay(policy, workers, tree, trace, &mut list);
    if answer.number != 0 {
        let (number, position) = (answer.number, answer.position);
        assert_eq!(answer, ReplayAnswer { number, position, ..ReplayAnswer::default() });
        assert!(list.iter().all(|&byte| byte == 0xA5));
    }
    for traces in [0, 65_534, 65_535] {
        let added = add_refusal_with(traces, policy, workers, tree, trace, list_bytes);
        let full = answer.number == 0 && traces == 65_535;
        assert_eq!(added, if full { (17, 0) } else { (answer.number, answer.position) });
    }
    (answer.number, answer.position)
}

/// The refusal of an addition to a histogram of so many traces. All other
/// results are 0, the histogram is the one given, and the list keeps its bytes.
fn add_refusal_with(
    traces: u32,
    policy: u8,
    workers: u8,
    tree: &[u8],
    trace: &[u8],
    list_bytes: usize,
) -> (u32, usize) {
    let histogram = Histogram { traces, counts: [7; BUCKETS] };
    let mut list = vec![0xA5; list_bytes];
    let added = add(&histogram, policy, workers, tree, trace, &mut list);
    let (number, position) = (added.replay.number, added.replay.position);
    if number != 0 {
        let replay = ReplayAnswer { number, position, ..ReplayAnswer::default() };
        assert_eq!(added, Added { replay, histogram });
        assert!(list.iter().all(|&byte| byte == 0xA5));
    }
    (number, position)
}

/// The refusal of a schedule call with any seed and an ample buffer.
fn schedule_refusal_of(policy: u8, workers: u8, tree: &[u8]) -> (u32, usize) {
    schedule_refusal_with(policy, workers, tree, 3 * 4_095 - 1)
}

/// All other results are 0 and the buffer keeps its bytes, whatever the seed.
fn schedule_refusal_with(policy: u8, workers: u8, tree: &[u8], room: usize) -> (u32, usize) {
    let refusals = [0, 1_640_531_527, u32::MAX].map(|seed| {
        let mut events = vec![0xA5; room];
        let answer = schedule(policy, workers, tree, seed, &mut events);
        if answer.number != 0 {
            let (number, position) = (answer.number, answer.position);
            assert_eq!(answer, ScheduleAnswer { number, position, events: 0 });
            assert!(events.iter().all(|&byte| byte == 0xA5));
        }
        (answer.number, answer.position)
    });
    assert!(refusals.iter().all(|&refusal| refusal == refusals[0]), "{:?}", refusals);
    refusals[0]
}

/// The refusal of a span call with an ample buffer.
fn span_refusal(tree: &[u8]) -> (u32, usize) {
    span_refusal_with(tree, 2 * 4_095)
}

/// All other results are 0 and the buffer keeps its bytes.
fn span_refusal_with(tree: &[u8], room: usize) -> (u32, usize) {
    let mut chain = vec![0xA5; room];
    let answer = span(tree, &mut chain);
    if answer.number != 0 {
        let (number, position) = (answer.number, answer.position);
        assert_eq!(answer, SpanAnswer { number, position, ..SpanAnswer::default() });
        assert!(chain.iter().all(|&byte| byte == 0xA5));
    }
    (answer.number, answer.position)
}

/// The refusal of a tree, the same from the start, record, replay, the schedule
/// maker and the span call.
fn tree_refusal(tree: &[u8]) -> (u32, usize) {
    let seen = match Tree::parse(tree) {
        Ok(_) => (0, 0),
        Err(refusal) => (refusal.number, refusal.position),
    };
    let start = match Run::start(2, 16, tree) {
        Ok(_) => (0, 0),
        Err(refusal) => (refusal.number, refusal.position),
    };
    assert_eq!(seen, start);
    assert_eq!(seen, record_refusal(1, tree, &[]));
    assert_eq!(seen, replay_refusal(2, tree, &[]));
    assert_eq!(seen, schedule_refusal_of(1, 16, tree));
    assert_eq!(seen, span_refusal(tree));
    seen
}

#[test]
fn refusal_1() {
    for policy in [0, 3, 4, 255] {
        assert_eq!(record_refusal(policy, &s(), &[]), (1, 0));
        assert_eq!(replay_refusal(policy, &s(), &[]), (1, 0));
        assert_eq!(schedule_refusal_of(policy, 16, &s()), (1, 0));
        assert_eq!(Run::start(policy, 16, &s()).unwrap_err(), Refusal::new(1, 0));
        // 1 before 2.
        assert_eq!(record_refusal(policy, &[], &[1]), (1, 0));
        assert_eq!(schedule_refusal_of(policy, 16, &[]), (1, 0));
    }
}

/// The refusal of a start, the same from record, replay and the schedule maker.
fn start_refusal(policy: u8, workers: u8, tree: &[u8]) -> (u32, usize) {
    let start = match Run::start(policy, workers, tree) {
        Ok(_) => (0, 0),
        Err(refusal) => (refusal.number, refusal.position),
    };
    assert_eq!(start, record_refusal_of(policy, workers, tree, &[]));
    assert_eq!(start, replay_refusal_of(policy, workers, tree, &[]));
    assert_eq!(start, schedule_refusal_of(policy, workers, tree));
    start
}

#[test]
fn refusal_16() {
    for policy in [1, 2] {
        for workers in 0..=255 {
            let refused = if (1..=16).contains(&workers) { (0, 0) } else { (16, 0) };
            assert_eq!(start_refusal(policy, workers, &s()), refused, "{}", workers);
        }
    }
    for workers in [0, 17, 255] {
        // 1 before 16.
        assert_eq!(start_refusal(3, workers, &s()), (1, 0));
        assert_eq!(start_refusal(0, workers, &[]), (1, 0));
        // 16 before 2 to 5.
        assert_eq!(start_refusal(1, workers, &[]), (16, 0));
        assert_eq!(start_refusal(1, workers, &[9; 8]), (16, 0));
        assert_eq!(start_refusal(2, workers, &chain(64, 1)), (16, 0));
        assert_eq!(start_refusal(2, workers, &s()[..48]), (16, 0));
        // 16 before 6, 7 and the walks.
        assert_eq!(record_refusal_with(1, workers, &s(), &[0], 0, 0), (16, 0));
        assert_eq!(record_refusal_with(1, workers, &s(), &[1, 1], 0, 0), (16, 0));
        assert_eq!(record_refusal_of(1, workers, &s(), &[255, 255]), (16, 0));
        assert_eq!(replay_refusal_with(1, workers, &s(), &[0], 0), (16, 0));
        assert_eq!(replay_refusal_with(1, workers, &s(), &[], 0), (16, 0));
        assert_eq!(replay_refusal_of(1, workers, &s(), &[255, 255, 1, 0]), (16, 0));
        assert_eq!(schedule_refusal_with(1, workers, &s(), 0), (16, 0));
    }
}

#[test]
fn refusal_2() {
    assert_eq!(tree_refusal(&[]), (2, 0));
    assert_eq!(tree_refusal(&s()[..55]), (2, 0));
    assert_eq!(tree_refusal(&[3]), (2, 0));
    // 2 before 3: the kind in these nine bytes is wrong as well.
    assert_eq!(tree_refusal(&[9; 9]), (2, 0));
    assert_eq!(tree_refusal(&[9; 8]), (3, 0));
}

/// A flat tree of so many records.
fn flat(records: usize) -> Vec<u8> {
    let mut kinds = Vec::new();
    for _ in 0..records / 2 {
        kinds.extend_from_slice(&[1, 3]);
    }
    kinds.push(3);
    tree_of_kinds(&kinds)
}

#[test]
fn longest_tree() {
    assert_eq!(flat(4_095).len(), 32_760);
    assert_eq!(tree_refusal(&flat(4_095)), (0, 0));
    assert_eq!(tree_refusal(&flat(4_097)), (2, 0));
    // 4,096 records are too long as well, whatever they hold.
    assert_eq!(tree_refusal(&tree_of_kinds(&vec![3; 4_096])), (2, 0));
    // 4,095 records pass the length check and are judged further.
    assert_eq!(tree_refusal(&tree_of_kinds(&vec![3; 4_095])), (5, 1));
}

#[test]
fn refusal_3() {
    for kind in [0, 4, 128, 255] {
        let mut tree = s();
        tree[8 * 4] = kind;
        assert_eq!(tree_refusal(&tree), (3, 4));
    }
    for (at, lowest) in [(1, 16), (2, 1), (3, 1)] {
        for value in [lowest, 255] {
            let mut tree = s();
            tree[8 * 6 + at] = value;
            assert_eq!(tree_refusal(&tree), (3, 6));
        }
    }
    // The first bad record is named.
    let mut tree = s();
    tree[8 * 5] = 0;
    tree[8 * 2 + 3] = 255;
    assert_eq!(tree_refusal(&tree), (3, 2));
    tree[8 + 1] = 16;
    assert_eq!(tree_refusal(&tree), (3, 1));
}

/// Each value of bytes 1 to 3 in each record: byte 1 is a class up to 15, the
/// others are 0.
#[test]
fn refusal_3_by_every_byte() {
    for position in 0..7 {
        for (at, highest) in [(1, 15), (2, 0), (3, 0)] {
            for value in 0..=255 {
                let mut tree = s();
                tree[8 * position + at] = value;
                let wanted = if value <= highest { (0, 0) } else { (3, position) };
                assert_eq!(tree_refusal(&tree), wanted, "byte {} of {}: {}", at, position, value);
            }
        }
    }
    // All classes in one tree, and a class does not make another byte good.
    let mut tree = flat(17);
    for class in 0..16 {
        tree[8 * class + 1] = class as u8;
    }
    assert_eq!(tree_refusal(&tree), (0, 0));
    for (at, value) in [(0, 0), (0, 4), (2, 1), (3, 1)] {
        let mut tree = tree.clone();
        tree[8 * 9 + at] = value;
        assert_eq!(tree_refusal(&tree), (3, 9));
    }
}

/// Opens so many children one in another, then ends them and the root.
fn chain(children: usize, kind: u8) -> Vec<u8> {
    let mut kinds = vec![kind; children];
    kinds.extend(vec![3; children + 1]);
    tree_of_kinds(&kinds)
}

#[test]
fn refusal_4() {
    for kind in [1, 2] {
        // The root and 63 children are 64 open tasks.
        assert_eq!(tree_refusal(&chain(63, kind)), (0, 0));
        assert_eq!(tree_refusal(&chain(64, kind)), (4, 63));
        assert_eq!(tree_refusal(&chain(100, kind)), (4, 63));
    }
    // One of the 64 ends, another opens: still 64. Then one too many.
    let mut kinds = vec![1; 63];
    kinds.extend_from_slice(&[3, 2]);
    let mut ended = kinds.clone();
    ended.extend(vec![3; 64]);
    assert_eq!(tree_refusal(&tree_of_kinds(&ended)), (0, 0));
    kinds.push(1);
    kinds.extend(vec![3; 65]);
    assert_eq!(tree_refusal(&tree_of_kinds(&kinds)), (4, 65));
}

#[test]
fn refusal_5() {
    // A record follows the root's end.
    assert_eq!(tree_refusal(&tree_of_kinds(&[3, 3])), (5, 1));
    assert_eq!(tree_refusal(&tree_of_kinds(&[1, 3, 3, 1, 3, 3])), (5, 3));
    assert_eq!(tree_refusal(&tree_of_kinds(&[3, 2])), (5, 1));
    // The root is still open.
    assert_eq!(tree_refusal(&tree_of_kinds(&[1])), (5, 1));
    assert_eq!(tree_refusal(&tree_of_kinds(&[1, 3])), (5, 2));
    assert_eq!(tree_refusal(&s()[..48]), (5, 6));
    assert_eq!(tree_refusal(&tree_of_kinds(&vec![1; 63])), (5, 63));
}

#[test]
fn tree_walk_order() {
    // 3 and 4 in one record: 3.
    let mut tree = chain(64, 1);
    tree[8 * 63 + 2] = 1;
    assert_eq!(tree_refusal(&tree), (3, 63));
    let mut tree = chain(64, 2);
    tree[8 * 63 + 1] = 16;
    assert_eq!(tree_refusal(&tree), (3, 63));
    // A class of 15 is no 3, so it is 4.
    tree[8 * 63 + 1] = 15;
    assert_eq!(tree_refusal(&tree), (4, 63));
    // 4 earlier, 3 later: 4.
    let mut tree = chain(64, 1);
    tree[8 * 64] = 9;
    assert_eq!(tree_refusal(&tree), (4, 63));
    let mut tree = chain(64, 1);
    tree[8 * 64 + 1] = 16;
    assert_eq!(tree_refusal(&tree), (4, 63));
    // 3 earlier, 4 later: 3.
    let mut tree = chain(64, 1);
    tree[8 * 62] = 9;
    assert_eq!(tree_refusal(&tree), (3, 62));
    let mut tree = chain(64, 1);
    tree[8 * 62 + 1] = 16;
    assert_eq!(tree_refusal(&tree), (3, 62));
    // 5 earlier, 3 later: 5.
    assert_eq!(tree_refusal(&tree_of_kinds(&[3, 3, 7])), (5, 1));
    // 3 and 5 in one record: 3.
    assert_eq!(tree_refusal(&tree_of_kinds(&[3, 7, 3])), (3, 1));
    let mut tree = tree_of_kinds(&[3, 3]);
    tree[8 + 1] = 16;
    assert_eq!(tree_refusal(&tree), (3, 1));
    tree[8 + 1] = 3;
    assert_eq!(tree_refusal(&tree), (5, 1));
    // 3 in the last record, and the root would still be open: 3.
    assert_eq!(tree_refusal(&tree_of_kinds(&[1, 0])), (3, 1));
    // 4, and the root would still be open: 4.
    assert_eq!(tree_refusal(&tree_of_kinds(&vec![1; 64])), (4, 63));
    // 5 earlier, a chain of 65 later: 5.
    let mut kinds = vec![3];
    kinds.extend(vec![1; 70]);
    assert_eq!(tree_refusal(&tree_of_kinds(&kinds)), (5, 1));
    // Between the two cases of 5 the record after the root's end is named.
    assert_eq!(tree_refusal(&tree_of_kinds(&[3, 1])), (5, 1));
}

#[test]
fn refusal_6_events() {
    assert_eq!(record_refusal(1, &s(), &[0]), (6, 0));
    assert_eq!(record_refusal(2, &s(), &[0, 0, 0]), (6, 0));
    assert_eq!(record_refusal(1, &s(), &vec![0; 2 * 8_193]), (6, 0));
    // 8,192 events are not too many.
    assert_eq!(record_refusal(1, &tree_of_kinds(&[3]), &vec![0; 2 * 8_192]), (9, 1));
    // 5 before 6.
    assert_eq!(record_refusal(1, &tree_of_kinds(&[1, 3]), &[0]), (5, 2));
}

#[test]
fn refusal_6_trace() {
    for cut in 1..4 {
        assert_eq!(replay_refusal(1, &s(), &vec![0; cut]), (6, 0));
        assert_eq!(replay_refusal(2, &s(), &vec![0; 4 + cut]), (6, 0));
    }
    assert_eq!(replay_refusal(1, &s(), &vec![0; 4 * 2_048]), (6, 0));
    // 2,047 records are not too many; here thief and victim are equal.
    assert_eq!(replay_refusal(1, &s(), &vec![0; 4 * 2_047]), (13, 0));
    // 4 before 6.
    assert_eq!(replay_refusal(1, &chain(64, 1), &[0]), (4, 63));
}

#[test]
fn refusal_7_record() {
    // S has 7 records: 28 bytes of log, 12 of trace.
    assert_eq!(record_refusal_with(1, 16, &s(), &[], 28, 12), (0, 0));
    assert_eq!(record_refusal_with(1, 16, &s(), &[], 27, 12), (7, 0));
    assert_eq!(record_refusal_with(1, 16, &s(), &[], 28, 11), (7, 0));
    assert_eq!(record_refusal_with(1, 16, &s(), &[], 0, 0), (7, 0));
    assert_eq!(record_refusal_with(2, 16, &tree_of_kinds(&[3]), &[], 4, 0), (0, 0));
    assert_eq!(record_refusal_with(2, 16, &tree_of_kinds(&[3]), &[], 3, 0), (7, 0));
    // 6 before 7, 7 before 8.
    assert_eq!(record_refusal_with(1, 16, &s(), &[0], 0, 0), (6, 0));
    assert_eq!(record_refusal_with(1, 16, &s(), &[16, 16], 0, 0), (7, 0));
    assert_eq!(record_refusal_with(1, 16, &s(), &[16, 16], 28, 12), (8, 0));
}

#[test]
fn refusal_7_replay() {
    assert_eq!(replay_refusal_with(1, 16, &s(), &[], 28), (0, 0));
    assert_eq!(replay_refusal_with(1, 16, &s(), &[], 27), (7, 0));
    assert_eq!(replay_refusal_with(2, 16, &s(), &[], 0), (7, 0));
    assert_eq!(replay_refusal_with(2, 16, &flat(4_095), &[], 4 * 4_095), (0, 0));
    assert_eq!(replay_refusal_with(2, 16, &flat(4_095), &[], 4 * 4_095 - 1), (7, 0));
    // 6 before 7, 7 before 8.
    assert_eq!(replay_refusal_with(1, 16, &s(), &[0; 5], 0), (6, 0));
    assert_eq!(replay_refusal_with(1, 16, &s(), &[16, 0, 1, 0], 27), (7, 0));
    assert_eq!(replay_refusal_with(1, 16, &s(), &[16, 0, 1, 0], 28), (8, 0));
}

#[test]
fn refusal_7_schedule() {
    for (policy, workers) in [(1, 16), (2, 16), (1, 1), (2, 5)] {
        let refusal = |tree: &[u8], room| schedule_refusal_with(policy, workers, tree, room);
        // S has 7 steps and 3 spawned tasks: 2 bytes for each of 10 events.
        assert_eq!(refusal(&s(), 20), (0, 0));
        assert_eq!(refusal(&s(), 21), (0, 0));
        for room in 0..20 {
            assert_eq!(refusal(&s(), room), (7, 0));
        }
        assert_eq!(refusal(&tree_of_kinds(&[3]), 2), (0, 0));
        assert_eq!(refusal(&tree_of_kinds(&[3]), 1), (7, 0));
        assert_eq!(refusal(&flat(4_095), 2 * 6_142), (0, 0));
        assert_eq!(refusal(&flat(4_095), 2 * 6_142 - 1), (7, 0));
        // 2 to 5 before 7.
        assert_eq!(refusal(&[], 0), (2, 0));
        assert_eq!(refusal(&[9; 8], 0), (3, 0));
        assert_eq!(refusal(&chain(64, 1), 0), (4, 63));
        assert_eq!(refusal(&s()[..48], 0), (5, 6));
    }
    // 1 and 16 before 7.
    assert_eq!(schedule_refusal_with(0, 16, &s(), 0), (1, 0));
    assert_eq!(schedule_refusal_with(3, 17, &s(), 0), (1, 0));
    assert_eq!(schedule_refusal_with(2, 17, &s(), 0), (16, 0));
}

#[test]
fn refusal_7_span() {
    // S has 7 steps of 2 bytes each, however few its chain has.
    assert_eq!(span_refusal_with(&s(), 14), (0, 0));
    assert_eq!(span_refusal_with(&s(), 15), (0, 0));
    for room in 0..14 {
        assert_eq!(span_refusal_with(&s(), room), (7, 0));
    }
    assert_eq!(span_refusal_with(&tree_of_kinds(&[3]), 2), (0, 0));
    assert_eq!(span_refusal_with(&tree_of_kinds(&[3]), 1), (7, 0));
    assert_eq!(span_refusal_with(&flat(4_095), 2 * 4_095), (0, 0));
    assert_eq!(span_refusal_with(&flat(4_095), 2 * 4_095 - 1), (7, 0));
    // 2 to 5 before 7.
    assert_eq!(span_refusal_with(&[], 0), (2, 0));
    assert_eq!(span_refusal_with(&[9; 8], 0), (3, 0));
    assert_eq!(span_refusal_with(&chain(64, 1), 0), (4, 63));
    assert_eq!(span_refusal_with(&s()[..48], 0), (5, 6));
    assert_eq!(span_refusal_with(&tree_of_kinds(&[3, 3]), 3), (5, 1));
}

#[test]
fn refusal_8_record() {
    assert_eq!(record_refusal(1, &s(), &[16, 0]), (8, 0));
    assert_eq!(record_refusal(1, &s(), &[0, 16]), (8, 0));
    assert_eq!(record_refusal(2, &s(), &[255, 255]), (8, 0));
    assert_eq!(record_refusal(2, &s(), &[0, 0, 1, 0, 1, 16]), (8, 2));
    // Worker 15 is the highest.
    assert_eq!(record_refusal(1, &s(), &[0, 0, 15, 0]), (0, 0));
    // 8 and 9, 8 and 11, 8 and 12 in one record: 8.
    assert_eq!(record_refusal(1, &s(), &[16, 16]), (8, 0));
    assert_eq!(record_refusal(1, &s(), &[0, 17]), (8, 0));
    assert_eq!(record_refusal(1, &s(), &[1, 17]), (8, 0));
    // 9 earlier, 8 later: 9.
    assert_eq!(record_refusal(1, &s(), &[1, 1, 16, 16]), (9, 0));
    // 12 earlier, 8 later: 12.
    assert_eq!(record_refusal(1, &s(), &[0, 0, 1, 2, 16, 16]), (12, 1));
}

/// For each count the highest worker of the run, and the one above it.
#[test]
fn refusal_8_by_the_count() {
    for workers in 1..=16 {
        let last = workers - 1;
        for policy in [1, 2] {
            let refusal = |events: &[u8]| record_refusal_of(policy, workers, &s(), events);
            for no_worker in [workers, workers + 1, 16, 255] {
                assert_eq!(refusal(&[no_worker, no_worker]), (8, 0));
                assert_eq!(refusal(&[no_worker, 0]), (8, 0));
                assert_eq!(refusal(&[0, 0, 0, no_worker]), (8, 1));
                assert_eq!(refusal(&[0, 0, last, no_worker]), (8, 1));
                let refusal = |trace: &[u8]| replay_refusal_of(policy, workers, &s(), trace);
                assert_eq!(refusal(&[no_worker, 0, 1, 0]), (8, 0));
                assert_eq!(refusal(&[0, no_worker, 1, 0]), (8, 0));
                assert_eq!(refusal(&[no_worker, no_worker, 1, 0]), (8, 0));
                assert_eq!(refusal(&[last, no_worker, 9, 9]), (8, 0));
            }
            // Worker 0 holds a step, all others are idle.
            assert_eq!(refusal(&[last, last]), if last == 0 { (0, 0) } else { (9, 0) });
            let steal = [0, 0, last, 0];
            assert_eq!(refusal(&steal), (0, 0));
            let read = replay_refusal_of(policy, workers, &s(), &[last, 0, 1, 0]);
            assert_eq!(read, if last == 0 { (13, 0) } else { (0, 0) });
        }
    }
}

#[test]
fn refusal_9() {
    assert_eq!(record_refusal(1, &s(), &[1, 1]), (9, 0));
    assert_eq!(record_refusal(2, &s(), &[0, 0, 15, 15]), (9, 1));
    // Worker 0 has run its part: its deque is empty, so it is idle.
    assert_eq!(record_refusal(1, &s(), &[0, 0, 1, 0, 0, 0, 0, 0]), (9, 3));
}

#[test]
fn refusal_10() {
    // Worker 1 takes step 6 behind the finish child and waits.
    let mut events = vec![0, 0, 0, 0, 0, 0, 1, 0, 1, 1];
    assert_eq!(record_refusal(1, &s(), &events), (10, 4));
    // Help-first: steps 0, 2; step 1 is the oldest, then step 6.
    assert_eq!(record_refusal(2, &s(), &[0, 0, 0, 0, 1, 0, 2, 0, 2, 2]), (10, 4));
    // Waiting is not idle: no steal by the one who waits.
    events[8] = 1;
    events[9] = 0;
    assert_eq!(record_refusal(1, &s(), &events), (11, 4));
    // The steps inside have run: the wait is over.
    let events = [0, 0, 0, 0, 0, 0, 1, 0, 0, 0, 0, 0, 0, 0, 1, 1];
    assert_eq!(record_refusal(1, &s(), &events), (0, 0));
}

#[test]
fn refusal_11() {
    assert_eq!(record_refusal(1, &s(), &[0, 0, 1, 0, 1, 0]), (11, 2));
    assert_eq!(record_refusal(2, &s(), &[0, 0, 0, 0, 1, 0, 1, 0]), (11, 3));
    // 11 before 12: worker 0 holds a step and worker 1's deque is empty.
    assert_eq!(record_refusal(1, &s(), &[0, 1]), (11, 0));
    assert_eq!(record_refusal(2, &s(), &[0, 0, 1, 0, 0, 1]), (11, 2));
}

#[test]
fn refusal_12() {
    assert_eq!(record_refusal(1, &s(), &[0, 0, 1, 2]), (12, 1));
    assert_eq!(record_refusal(2, &s(), &[0, 0, 1, 0, 2, 0]), (12, 2));
    // The step that the victim holds is not in its deque.
    assert_eq!(record_refusal(1, &s(), &[1, 0]), (12, 0));
}

#[test]
fn refused_single_events_change_nothing() {
    let mut run = Run::start(1, 16, &s()).unwrap();
    run.event(0, 0).unwrap();
    run.event(1, 0).unwrap();
    for (event, number) in
        [([16, 0], 8), ([0, 200], 8), ([2, 2], 9), ([0, 1], 11), ([2, 0], 12), ([2, 3], 12)]
    {
        let before = format!("{:?}", run);
        assert_eq!(run.event(event[0], event[1]), Err(Refusal::new(number, 0)));
        assert_eq!(format!("{:?}", run), before);
    }
    // Worker 1 runs steps 2 to 6.
    for _ in 0..5 {
        run.event(1, 1).unwrap();
    }
    assert_eq!(run.event(1, 1), Err(Refusal::new(9, 0)));
    run.event(0, 0).unwrap();
    assert!(run.finished());
}

#[test]
fn refusal_8_replay() {
    assert_eq!(replay_refusal(1, &s(), &[16, 0, 1, 0]), (8, 0));
    assert_eq!(replay_refusal(2, &s(), &[0, 16, 1, 0]), (8, 0));
    assert_eq!(replay_refusal(1, &s(), &[1, 0, 1, 0, 2, 255, 1, 0]), (8, 1));
    // 8 before 13.
    assert_eq!(replay_refusal(1, &s(), &[16, 16, 1, 0]), (8, 0));
    // 15 earlier, 8 later: 15.
    assert_eq!(replay_refusal(1, &s(), &[1, 0, 0, 0, 16, 0, 1, 0]), (15, 0));
}

#[test]
fn refusal_13() {
    assert_eq!(replay_refusal(1, &s(), &[0, 0, 1, 0]), (13, 0));
    assert_eq!(replay_refusal(2, &s(), &[1, 0, 1, 0, 1, 1, 1, 0]), (13, 1));
    // 13 before 14: worker 5 has had no phase.
    assert_eq!(replay_refusal(1, &s(), &[5, 5, 1, 0]), (13, 0));
    // 13 before 15.
    assert_eq!(replay_refusal(1, &s(), &[0, 0, 0, 0]), (13, 0));
    // 14 earlier, 13 later: 14.
    assert_eq!(replay_refusal(1, &s(), &[1, 2, 1, 0, 0, 0, 1, 0]), (14, 0));
}

#[test]
fn refusal_14() {
    assert_eq!(replay_refusal(1, &s(), &[0, 1, 1, 0]), (14, 0));
    assert_eq!(replay_refusal(2, &s(), &[1, 0, 1, 0, 0, 15, 6, 0]), (14, 1));
    // 14 before 15.
    assert_eq!(replay_refusal(2, &s(), &[0, 1, 255, 255]), (14, 0));
}

#[test]
fn refusal_15_work_first() {
    // Ordinals 1 and 2 are named in the root; 0 and 3 are not.
    assert_eq!(replay_refusal(1, &s(), &[1, 0, 0, 0]), (15, 0));
    assert_eq!(replay_refusal(1, &s(), &[1, 0, 1, 0]), (0, 0));
    assert_eq!(replay_refusal(1, &s(), &[1, 0, 2, 0]), (0, 0));
    assert_eq!(replay_refusal(1, &s(), &[1, 0, 3, 0]), (15, 0));
    // The high byte counts.
    assert_eq!(replay_refusal(1, &s(), &[1, 0, 1, 1]), (15, 0));
    // After step 2 the frontier is the first child, which has no children.
    assert_eq!(replay_refusal(1, &s(), &[1, 0, 1, 0, 2, 0, 1, 0]), (15, 1));
    // After step 6 the frontier is the finish child, which has one.
    assert_eq!(replay_refusal(1, &s(), &[1, 0, 2, 0, 2, 0, 1, 0]), (0, 0));
    assert_eq!(replay_refusal(1, &s(), &[1, 0, 2, 0, 2, 0, 2, 0]), (15, 1));
    assert_eq!(replay_refusal(1, &s(), &[1, 0, 2, 0, 2, 0, 0, 0]), (15, 1));
    // A phase's first steal is above the ordinal of its first step (P8) ...
    assert_eq!(replay_refusal(1, &s(), &[1, 0, 1, 0, 2, 1, 1, 0]), (15, 1));
    // ... a later one need not be.
    assert_eq!(replay_refusal(1, &s(), &[1, 0, 1, 0, 2, 1, 2, 0, 3, 1, 1, 0]), (0, 0));
    // The phase of the last step of the root has nothing to steal.
    assert_eq!(replay_refusal(1, &s(), &[1, 0, 2, 0, 2, 1, 2, 0]), (15, 1));
    // The tree of one end has nothing to steal.
    assert_eq!(replay_refusal(1, &tree_of_kinds(&[3]), &[1, 0, 1, 0]), (15, 0));
}

#[test]
fn refusal_15_help_first() {
    // In S only 1 and 4 (first steps of async children) and 6 (after the
    // finish child) are named.
    for number in 0..10 {
        let wanted = if [1, 4, 6].contains(&number) { (0, 0) } else { (15, 0) };
        assert_eq!(replay_refusal(2, &s(), &[1, 0, number, 0]), wanted, "{}", number);
    }
    assert_eq!(replay_refusal(2, &s(), &[1, 0, 1, 1]), (15, 0));
    assert_eq!(replay_refusal(2, &s(), &[1, 0, 255, 255]), (15, 0));
    // Not twice, not from a phase that does not cover it, not a first step.
    assert_eq!(replay_refusal(2, &s(), &[1, 0, 1, 0, 2, 0, 1, 0]), (15, 1));
    assert_eq!(replay_refusal(2, &s(), &[1, 0, 1, 0, 2, 1, 4, 0]), (15, 1));
    assert_eq!(replay_refusal(2, &s(), &[1, 0, 1, 0, 2, 1, 1, 0]), (15, 1));
    assert_eq!(replay_refusal(2, &s(), &[1, 0, 6, 0, 2, 1, 6, 0]), (15, 1));
    // Any order of the three is read; no schedule is asked for.
    assert_eq!(replay_refusal(2, &s(), &[1, 0, 6, 0, 2, 0, 4, 0, 3, 0, 1, 0]), (0, 0));
    // The tree of one end has nothing to steal.
    assert_eq!(replay_refusal(2, &tree_of_kinds(&[3]), &[1, 0, 0, 0]), (15, 0));
}

#[test]
fn refusal_17() {
    let one = tree_of_kinds(&[3]);
    for traces in [0, 1, 65_533, 65_534] {
        assert_eq!(add_refusal_with(traces, 1, 16, &s(), &[1, 0, 1, 0], 28), (0, 0));
        assert_eq!(add_refusal_with(traces, 2, 1, &one, &[], 4), (0, 0));
    }
    assert_eq!(add_refusal_with(65_535, 1, 16, &s(), &[1, 0, 1, 0], 28), (17, 0));
    assert_eq!(add_refusal_with(65_535, 2, 1, &one, &[], 4), (17, 0));
    // After every refusal of the replay itself; 16 is among them.
    assert_eq!(add_refusal_with(65_535, 1, 17, &s(), &[1, 0, 1, 0], 28), (16, 0));
    assert_eq!(add_refusal_with(65_535, 1, 16, &s(), &[1, 0, 1, 0], 27), (7, 0));
    assert_eq!(add_refusal_with(65_535, 1, 16, &s(), &[1, 0, 3, 0], 28), (15, 0));
    // Replay alone has no such refusal.
    assert_eq!(replay_refusal(1, &s(), &[1, 0, 1, 0]), (0, 0));
}
