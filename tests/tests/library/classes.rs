//! Worked cases of the classes, to which the simulator and the library are held, and trees with every byte where the class stands.

// A test program need not use them all.
#![allow(dead_code)]

use frame_tests::random::Rng;
use frame_tests::tree::TREE_RECORD;

/// Tree C: the kinds of S, and weights of which every sum tells its steps.
#[rustfmt::skip]
pub const C: [u8; 56] = [
    1, 0, 0, 0, 1, 0, 0, 0,
    3, 1, 0, 0, 2, 0, 0, 0,
    2, 2, 0, 0, 4, 0, 0, 0,
    1, 0, 0, 0, 8, 0, 0, 0,
    3, 15, 0, 0, 16, 0, 0, 0,
    3, 1, 0, 0, 32, 0, 0, 0,
    3, 2, 0, 0, 64, 0, 0, 0,
];

/// The class loads of C in every accepted call: steps 0 and 3, steps 1 and 5, steps 2 and 6, and step 4.
pub const LOADS: [u64; 16] = [9, 34, 68, 0, 0, 0, 0, 0, 0, 0, 0, 0, 0, 0, 0, 16];

/// Policy, events or trace of C, the loads of the first three workers, beyond whom all are 0, and the heaviest.
pub type Case = (u8, &'static [u8], [u64; 3], usize);

const P1: &[u8] = &[0, 0, 1, 0, 1, 1, 2, 1, 1, 1, 0, 0, 0, 1, 0, 0, 1, 1, 2, 2];
const P1_TRACE: &[u8] = &[1, 0, 1, 0, 2, 1, 2, 0, 0, 1, 1, 0];

pub const RECORDINGS: [Case; 5] = [
    (1, P1, [35, 28, 64], 2),
    // Steps that have not run count too.
    (1, &[], [127, 0, 0], 0),
    (2, &[], [127, 0, 0], 0),
    (1, &[0, 0, 1, 0], [3, 124, 0], 1),
    (2, &[0, 0, 1, 0], [125, 2, 0], 0),
];

pub const REPLAYS: [Case; 5] = [
    (1, P1_TRACE, [35, 28, 64], 2),
    (1, &[], [127, 0, 0], 0),
    (2, &[], [127, 0, 0], 0),
    (1, &[1, 0, 1, 0], [3, 124, 0], 1),
    // P4: the steps 0 2 3 5 4, then 1, then 6.
    (2, &[1, 0, 1, 0, 2, 0, 6, 0], [61, 2, 64], 2),
];

/// A call of C that is refused, as its event is with 9 at 0: every class load is 0 then.
pub const REFUSED: [u8; 2] = [1, 1];

/// Records of weight 1: of each the kind, the class and the two bytes behind it.
fn tree_of_heads(heads: &[[u8; 4]]) -> Vec<u8> {
    heads.iter().flat_map(|head| [*head, [1, 0, 0, 0]].concat()).collect()
}

/// Trees with the number and the position of their refusal, 0 for none.
pub fn trees() -> Vec<(Vec<u8>, (usize, usize))> {
    // So many opens of class 0, then one of this class.
    let chain = |opens, class| tree_of_heads(&[vec![[2, 0, 0, 0]; opens], vec![[2, class, 0, 0]]].concat());
    vec![
        (C.to_vec(), (0, 0)),
        (tree_of_heads(&[[3, 15, 0, 0]]), (0, 0)),
        (tree_of_heads(&[[3, 16, 0, 0]]), (3, 0)),
        (tree_of_heads(&[[3, 0, 1, 0]]), (3, 0)),
        (tree_of_heads(&[[3, 0, 0, 1]]), (3, 0)),
        (tree_of_heads(&[[0, 1, 0, 0]]), (3, 0)),
        // 3 before 4 in one record, and 4 before 3 in two.
        (chain(63, 16), (3, 63)),
        (chain(63, 15), (4, 63)),
        (chain(64, 16), (4, 63)),
        // 3 before 5 in one record, and 5 before 3 in two.
        (tree_of_heads(&[[3, 0, 0, 0], [3, 16, 0, 0]]), (3, 1)),
        (tree_of_heads(&[[3, 0, 0, 0], [3, 3, 0, 0]]), (5, 1)),
        (tree_of_heads(&[[3, 0, 0, 0], [3, 3, 0, 0], [3, 16, 0, 0]]), (5, 1)),
        (tree_of_heads(&[[1, 15, 0, 0]]), (5, 1)),
    ]
}

/// An accepted tree with byte 1, 2 or 3 of any record set to each value, and the refusal: a class is at most 15, the others are 0.
pub fn every_byte(rng: &mut Rng, tree: &[u8]) -> Vec<(Vec<u8>, (usize, usize))> {
    let mut trees = Vec::new();
    for (byte, most) in [(1, 15), (2, 0), (3, 0)] {
        for value in 0..=255 {
            let position = rng.below(tree.len() / TREE_RECORD);
            let mut bytes = tree.to_vec();
            bytes[TREE_RECORD * position + byte] = value;
            trees.push((bytes, if value <= most { (0, 0) } else { (3, position) }));
        }
    }
    trees
}
