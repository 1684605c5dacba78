//! Worked cases of the histogram, to which the simulator and the library are held.

// A test program need not use them all.
#![allow(dead_code)]

use frame_tests::histogram::{BUCKETS, MAX_TRACES};

/// Limits, each with its number.
pub const LIMITS: [(usize, u64); 17] = [
    (0, 1),
    (1, 1),
    (2, 1),
    (3, 1),
    (4, 2),
    (5, 2),
    (6, 2),
    (7, 3),
    (8, 4),
    (9, 4),
    (10, 5),
    (11, 6),
    (12, 8),
    (64, 65_536),
    (128, 4_294_967_296),
    (172, 8_796_093_022_208),
    (175, 14_793_206_181_225),
];

/// The greatest load: 4,095 steps of weight 4,294,967,295.
pub const GREATEST_LOAD: u64 = 17_587_891_073_025;

/// Loads, each with the limit that it goes to; load 0 goes to none.
pub const BUCKETS_OF_LOADS: [(u64, Option<usize>); 20] = [
    (0, None),
    (1, Some(3)),
    (2, Some(6)),
    (3, Some(7)),
    (4, Some(9)),
    (5, Some(10)),
    (6, Some(11)),
    (7, Some(11)),
    (8, Some(12)),
    (9, Some(13)),
    (10, Some(13)),
    (11, Some(14)),
    (13, Some(15)),
    (16, Some(16)),
    (100, Some(26)),
    (4_294_967_295, Some(127)),
    (4_294_967_296, Some(128)),
    (14_793_206_181_224, Some(174)),
    (14_793_206_181_225, Some(175)),
    (GREATEST_LOAD, Some(175)),
];

/// Policy, kinds and weights of the tree, trace, bytes of list lent; then number and position of the refusal (0 for none), the
/// load of each phase, and all counts of the histogram then: for no limit, that of load 0, or for a limit. The rest are 0.
pub type Case = (
    u8,
    &'static [u8],
    &'static [u32],
    &'static [u8],
    usize,
    (usize, usize),
    &'static [u64],
    &'static [(Option<usize>, u32)],
);

const S: &[u8] = &[1, 3, 2, 1, 3, 3, 3];
const ONES: &[u32] = &[1; 7];
const P1_TRACE: &[u8] = &[1, 0, 1, 0, 2, 1, 2, 0, 0, 1, 1, 0];
const P4_TRACE: &[u8] = &[1, 0, 1, 0, 2, 0, 6, 0];
const P8_TRACE: &[u8] = &[1, 0, 1, 0, 2, 1, 1, 0];

/// One histogram goes through these calls, from its start. Its count of traces is that of the accepted ones.
#[rustfmt::skip]
pub const IN_TURN: [Case; 6] = [
    (1, S, ONES, P1_TRACE, 28, (0, 0), &[2, 3, 1, 1], &[(Some(3), 2), (Some(6), 1), (Some(7), 1)]),
    (2, S, ONES, P4_TRACE, 28, (0, 0), &[5, 1, 1], &[(Some(3), 4), (Some(6), 1), (Some(7), 1), (Some(10), 1)]),
    // Phases of load 0 count too.
    (1, S, &[0; 7], &[1, 0, 1, 0], 28, (0, 0), &[0, 0],
        &[(None, 2), (Some(3), 4), (Some(6), 1), (Some(7), 1), (Some(10), 1)]),
    (1, S, ONES, P8_TRACE, 28, (15, 1), &[], &[(None, 2), (Some(3), 4), (Some(6), 1), (Some(7), 1), (Some(10), 1)]),
    (1, &[3], &[u32::MAX], &[], 4, (0, 0), &[4_294_967_295],
        &[(None, 2), (Some(3), 4), (Some(6), 1), (Some(7), 1), (Some(10), 1), (Some(127), 1)]),
    (1, S, &[5, 0, 7, 0, 11, 13, 0], P1_TRACE, 28, (0, 0), &[5, 18, 0, 13],
        &[(None, 3), (Some(3), 4), (Some(6), 1), (Some(7), 1), (Some(10), 2), (Some(15), 1), (Some(16), 1), (Some(127), 1)]),
];

/// Each of these calls gets the full histogram, and hands it back: 17 is judged after all refusals of the replay itself.
pub const WHERE_FULL: [Case; 13] = [
    (1, S, ONES, &[1, 0, 1, 0], 28, (17, 0), &[], &FULL_COUNTS),
    (1, S, ONES, P1_TRACE, 28, (17, 0), &[], &FULL_COUNTS),
    (2, &[3], &[0], &[], 4, (17, 0), &[], &FULL_COUNTS),
    (3, S, ONES, &[], 28, (1, 0), &[], &FULL_COUNTS),
    (1, &[], &[], &[], 28, (2, 0), &[], &FULL_COUNTS),
    (1, &[1, 7], &[1, 1], &[], 28, (3, 1), &[], &FULL_COUNTS),
    (2, &[3, 3], &[1, 1], &[], 28, (5, 1), &[], &FULL_COUNTS),
    (1, S, ONES, &[1, 0, 1], 28, (6, 0), &[], &FULL_COUNTS),
    (1, S, ONES, &[1, 0, 1, 0], 27, (7, 0), &[], &FULL_COUNTS),
    (1, S, ONES, &[1, 0, 1, 0, 16, 0, 1, 0], 28, (8, 1), &[], &FULL_COUNTS),
    (1, S, ONES, &[2, 2, 1, 0], 28, (13, 0), &[], &FULL_COUNTS),
    (1, S, ONES, &[0, 1, 1, 0], 28, (14, 0), &[], &FULL_COUNTS),
    (1, S, ONES, &[1, 0, 3, 0], 28, (15, 0), &[], &FULL_COUNTS),
];

/// The counts when the tree of one end, of weight 1, was added as often as may be.
const FULL_COUNTS: [(Option<usize>, u32); 1] = [(Some(3), MAX_TRACES)];

/// All 177 counts of those that are not 0.
pub fn counts(some: &[(Option<usize>, u32)]) -> [u32; BUCKETS] {
    let mut counts = [0; BUCKETS];
    for &(limit, count) in some {
        counts[limit.map_or(0, |k| k + 1)] = count;
    }
    counts
}
