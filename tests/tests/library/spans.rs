//! Worked cases of work and span, to which the simulator and the library are held.

// A test program need not use them all.
#![allow(dead_code)]

/// Kinds and weights of the tree, then its work, its span and the chain.
pub type Case = (&'static [u8], &'static [u32], u64, u64, &'static [u16]);

const ONE_END: &[u8] = &[3];
const ASYNC: &[u8] = &[1, 3, 3];
const FINISH: &[u8] = &[2, 3, 3];
/// The root has the steps 0, 2 and 6, its async child step 1, its finish child 3 and 5, and an async child of that step 4.
const S: &[u8] = &[1, 3, 2, 1, 3, 3, 3];
/// The root has 0 and 4, its finish child 1 and 3, and an async child of that 2.
const INSIDE: &[u8] = &[2, 1, 3, 3, 3];
/// The same tasks, with an async child around an async child.
const ASYNCS: &[u8] = &[1, 1, 3, 3, 3];
/// The same tasks, with a finish child around a finish child.
const FINISHES: &[u8] = &[2, 2, 3, 3, 3];
/// The root has 0, 4 and 6, its finish child 1 and 3, an async child of that 2, and the root's async child behind it 5.
const BEHIND: &[u8] = &[2, 1, 3, 3, 1, 3, 3];
/// The root has 0 and 6, its async child 1 and 5, a finish child of that 2 and 4, and an async child of that 3.
const BESIDE: &[u8] = &[1, 2, 1, 3, 3, 3, 3];
/// The root has 0 and 6, its finish child 1 and 5, an async child of that 2 and 4, and an async child of that 3.
const DEEP: &[u8] = &[2, 1, 1, 3, 3, 3, 3];
/// The root has 0, 2 and 6, its first async child 1, the second 3 and 5, and an async child of that 4.
const TWO: &[u8] = &[1, 3, 1, 1, 3, 3, 3];

const MOST: u32 = u32::MAX;
const MOST_64: u64 = 4_294_967_295;

/// Kinds of a tree, and for each step all those that must precede it.
pub const BEFORE: [(&[u8], &[&[usize]]); 5] = [
    (S, &[&[], &[0], &[0], &[0, 2], &[0, 2, 3], &[0, 2, 3], &[0, 2, 3, 4, 5]]),
    (BEHIND, &[&[], &[0], &[0, 1], &[0, 1], &[0, 1, 2, 3], &[0, 1, 2, 3, 4], &[0, 1, 2, 3, 4]]),
    (BESIDE, &[&[], &[0], &[0, 1], &[0, 1, 2], &[0, 1, 2], &[0, 1, 2, 3, 4], &[0]]),
    (DEEP, &[&[], &[0], &[0, 1], &[0, 1, 2], &[0, 1, 2], &[0, 1], &[0, 1, 2, 3, 4, 5]]),
    (ASYNCS, &[&[], &[0], &[0, 1], &[0, 1], &[0]]),
];

/// The first three of these trees, and for each step those that precede it over one link.
pub const LINKS: [(&[u8], &[&[usize]]); 3] = [
    (S, &[&[], &[0], &[0], &[2], &[3], &[2, 3], &[0, 2, 3, 4, 5]]),
    (BEHIND, &[&[], &[0], &[1], &[0, 1], &[0, 1, 2, 3], &[4], &[0, 1, 2, 3, 4]]),
    (BESIDE, &[&[], &[0], &[1], &[2], &[1, 2], &[0, 1, 2, 3, 4], &[0]]),
];

pub const CASES: [Case; 39] = [
    (ONE_END, &[0], 0, 0, &[0]),
    (ONE_END, &[1], 1, 1, &[0]),
    (ONE_END, &[MOST], MOST_64, MOST_64, &[0]),
    // Steps 1 and 2 may overlap. Of equal ends the lower step's is taken.
    (ASYNC, &[1, 1, 1], 3, 2, &[0, 1]),
    (ASYNC, &[1, 1, 2], 4, 3, &[0, 2]),
    (ASYNC, &[1, 2, 1], 4, 3, &[0, 1]),
    // Where no weight is left the chain ends, and before that a step of weight 0 may stand in it.
    (ASYNC, &[0, 0, 0], 0, 0, &[0]),
    (ASYNC, &[1, 0, 0], 1, 1, &[0]),
    (ASYNC, &[0, 1, 0], 1, 1, &[0, 1]),
    (ASYNC, &[0, 0, 1], 1, 1, &[0, 2]),
    (FINISH, &[0, 0, 1], 1, 1, &[0, 1, 2]),
    (FINISH, &[0, 1, 0], 1, 1, &[0, 1]),
    (FINISH, &[1, 0, 0], 1, 1, &[0]),
    (FINISH, &[1, 1, 1], 3, 3, &[0, 1, 2]),
    // The finish child's end is step 5, and step 4 is as late; step 6 follows both.
    (S, &[1, 1, 1, 1, 1, 1, 1], 7, 5, &[0, 2, 3, 4, 6]),
    (S, &[1, 1, 1, 1, 1, 2, 1], 8, 6, &[0, 2, 3, 5, 6]),
    (S, &[1, 1, 1, 1, 2, 1, 1], 8, 6, &[0, 2, 3, 4, 6]),
    // Nothing follows step 1, and it is as late as step 6, or later.
    (S, &[1, 4, 1, 1, 1, 1, 1], 10, 5, &[0, 1]),
    (S, &[1, 9, 1, 1, 1, 1, 1], 15, 10, &[0, 1]),
    (S, &[0, 0, 0, 0, 0, 0, 0], 0, 0, &[0]),
    (S, &[1, 0, 0, 0, 0, 0, 0], 1, 1, &[0]),
    (S, &[0, 0, 0, 0, 1, 0, 0], 1, 1, &[0, 2, 3, 4]),
    (S, &[0, 0, 0, 0, 0, 1, 0], 1, 1, &[0, 2, 3, 5]),
    (S, &[0, 0, 0, 0, 0, 0, 1], 1, 1, &[0, 2, 3, 4, 6]),
    (S, &[MOST; 7], 7 * MOST_64, 5 * MOST_64, &[0, 2, 3, 4, 6]),
    // The step behind a finish child waits for the descendants too, that behind an async child for nobody.
    (INSIDE, &[1, 1, 5, 1, 1], 9, 8, &[0, 1, 2, 4]),
    (INSIDE, &[1, 1, 1, 5, 1], 9, 8, &[0, 1, 3, 4]),
    (ASYNCS, &[1, 1, 5, 1, 1], 9, 7, &[0, 1, 2]),
    (ASYNCS, &[1, 1, 1, 1, 5], 9, 6, &[0, 4]),
    (FINISHES, &[1, 1, 1, 1, 1], 5, 5, &[0, 1, 2, 3, 4]),
    (FINISHES, &[0, 2, 0, 1, 0], 3, 3, &[0, 1, 2, 3]),
    (DEEP, &[1, 1, 1, 9, 1, 1, 1], 15, 13, &[0, 1, 2, 3, 6]),
    // A child that is opened behind a finish child waits for it, over two links.
    (BEHIND, &[1, 1, 8, 1, 1, 1, 1], 14, 12, &[0, 1, 2, 4, 5]),
    (BEHIND, &[1, 1, 1, 1, 1, 1, 1], 7, 5, &[0, 1, 2, 4, 5]),
    // A finish child in an async child holds up that child alone.
    (BESIDE, &[1, 1, 1, 1, 1, 1, 1], 7, 5, &[0, 1, 2, 3, 5]),
    (BESIDE, &[1, 1, 1, 1, 1, 1, 5], 11, 6, &[0, 6]),
    // Of equal chains 0 1 goes before 0 2 3, 0 1 2 before 0 4, and 0 1 before 0 1 2 and 0 4.
    (TWO, &[0, 2, 1, 1, 0, 0, 0], 4, 2, &[0, 1]),
    (ASYNCS, &[1, 1, 1, 0, 2], 5, 3, &[0, 1, 2]),
    (ASYNCS, &[1, 2, 0, 0, 2], 5, 3, &[0, 1]),
];

/// Kinds of the tree, bytes lent, number and position of the refusal (0 for none).
pub const ROOM: [(&[u8], usize, (usize, usize)); 13] = [
    // 2 bytes for each of 7 steps, though the chain has 5.
    (S, 14, (0, 0)),
    (S, 15, (0, 0)),
    (S, 13, (7, 0)),
    (S, 10, (7, 0)),
    (S, 0, (7, 0)),
    (ONE_END, 2, (0, 0)),
    (ONE_END, 1, (7, 0)),
    (ONE_END, 0, (7, 0)),
    // 2, 3 to 5, 7: the first of them.
    (&[], 0, (2, 0)),
    (&[1, 7], 0, (3, 1)),
    (&[1, 7], 4, (3, 1)),
    (&[3, 3], 0, (5, 1)),
    (&[1, 3], 3, (5, 2)),
];
