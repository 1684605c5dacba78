//! Worked cases of the schedule maker, to which the simulator and the library are held.

// A test program need not use them all.
#![allow(dead_code)]

/// Policy, count of workers, kinds of the tree, seed, and the list that is made.
pub type Case = (u8, u8, &'static [u8], u32, &'static [u8]);

const S: &[u8] = &[1, 3, 2, 1, 3, 3, 3];
const ONE_END: &[u8] = &[3];
/// The finish child of step 0 opens two async children.
const INSIDE: &[u8] = &[2, 1, 3, 1, 3, 3, 3];

/// From this seed the first draw is 0: the sum is 2 to the power 32.
const TO_ZERO: u32 = 1_640_531_527;

#[rustfmt::skip]
pub const LISTS: [Case; 12] = [
    (1, 16, S, TO_ZERO, &[0, 0, 1, 0, 0, 0, 1, 1, 5, 1, 1, 1, 12, 1, 1, 1, 12, 12, 5, 5]),
    // Fewer workers draw less often, and from the same sixteen.
    (1, 4, S, TO_ZERO, &[0, 0, 1, 0, 0, 0, 1, 1, 0, 1, 1, 1, 1, 1, 1, 1, 0, 0]),
    (2, 8, S, TO_ZERO, &[0, 0, 1, 0, 0, 0, 1, 1, 0, 0, 1, 0, 0, 0, 0, 0, 1, 1]),
    (2, 16, S, 0, &[0, 0, 13, 0, 0, 0, 13, 13, 0, 0, 5, 0, 0, 0, 0, 0, 5, 5]),
    (1, 5, S, 1 << 31, &[0, 0, 0, 0, 0, 0, 1, 0, 0, 0, 0, 0, 0, 0, 1, 1]),
    // Worker 2 waits through four turns and does not draw.
    (2, 8, INSIDE, 3_517_576_335, &[0, 0, 2, 0, 0, 0, 0, 0, 0, 0, 5, 0, 0, 0, 5, 5, 2, 2]),
    // One worker has nobody to steal from, and one step nothing to steal.
    (1, 1, S, 0, &[0; 14]),
    (2, 1, S, TO_ZERO, &[0; 14]),
    (2, 1, INSIDE, u32::MAX, &[0; 14]),
    (1, 16, ONE_END, TO_ZERO, &[0; 2]),
    (2, 16, ONE_END, u32::MAX, &[0; 2]),
    (2, 1, ONE_END, 0, &[0; 2]),
];

/// Policy, count of workers, kinds of the tree, bytes lent, number and position of the refusal (0 for none), whatever the seed.
pub const ROOM: [(u8, u8, &[u8], usize, (usize, usize)); 14] = [
    // 7 steps run and 3 spawned tasks are stolen at most: 10 events of 2 bytes.
    (1, 16, S, 20, (0, 0)),
    (1, 16, S, 19, (7, 0)),
    (2, 1, S, 20, (0, 0)),
    // The list of one worker has 14 bytes, and yet 20 are asked for.
    (2, 1, S, 19, (7, 0)),
    (2, 1, S, 14, (7, 0)),
    (1, 4, ONE_END, 2, (0, 0)),
    (1, 4, ONE_END, 1, (7, 0)),
    (1, 4, ONE_END, 0, (7, 0)),
    // 1, 16, 2, 3 to 5, 7: the first of them.
    (3, 0, &[], 0, (1, 0)),
    (1, 0, &[], 0, (16, 0)),
    (1, 17, S, 0, (16, 0)),
    (1, 16, &[], 0, (2, 0)),
    (2, 16, &[1, 7], 0, (3, 1)),
    (2, 16, &[3, 3], 0, (5, 1)),
];
