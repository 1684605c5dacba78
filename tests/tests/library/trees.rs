//! Trees that are refused, each with its refusal, for the tests of which refusal wins.

use frame_tests::random::{flat_tree, tree_of_kinds};
use frame_tests::tree::MAX_OPEN;

/// Tree S.
pub const S: [u8; 7] = [1, 3, 2, 1, 3, 3, 3];

/// The tree of these kinds, with a byte of a record changed.
fn changed(kinds: &[u8], position: usize, byte: usize, to: u8) -> Vec<u8> {
    let mut bytes = tree_of_kinds(kinds);
    bytes[8 * position + byte] = to;
    bytes
}

/// Trees with the number and the position of their refusal: S, with classes too, and every pair of 2 to 5 in one record or in two.
pub fn trees() -> Vec<(Vec<u8>, (usize, usize))> {
    // One child too many, one in the other.
    let mut chain = vec![1; MAX_OPEN];
    chain.extend([3; MAX_OPEN + 1]);
    let open = [1; 70];
    let s = tree_of_kinds(&S);
    vec![
        (s.clone(), (0, 0)),
        (changed(&S, 4, 1, 15), (0, 0)),
        // 2 alone, and where each of the others would follow.
        (vec![], (2, 0)),
        (s[..55].to_vec(), (2, 0)),
        (flat_tree(2_048), (2, 0)),
        (vec![9; 9], (2, 0)),
        ([tree_of_kinds(&chain), vec![3]].concat(), (2, 0)),
        (tree_of_kinds(&[3; 4_096]), (2, 0)),
        // 3, alone and before or with 4 and 5.
        (changed(&S, 0, 0, 0), (3, 0)),
        (changed(&S, 5, 1, 16), (3, 5)),
        (changed(&S, 6, 3, 1), (3, 6)),
        (changed(&chain, 62, 1, 16), (3, 62)),
        (changed(&chain, 63, 0, 4), (3, 63)),
        (changed(&chain, 63, 1, 255), (3, 63)),
        (changed(&chain, 63, 2, 255), (3, 63)),
        (tree_of_kinds(&[7, 3, 3]), (3, 0)),
        (tree_of_kinds(&[3, 7, 3]), (3, 1)),
        (changed(&[3, 3], 1, 1, 16), (3, 1)),
        (tree_of_kinds(&[1, 0]), (3, 1)),
        // 4, alone and before 3 and 5.
        (tree_of_kinds(&chain), (4, 63)),
        (changed(&chain, 63, 1, 15), (4, 63)),
        (changed(&chain, 64, 0, 9), (4, 63)),
        (tree_of_kinds(&open), (4, 63)),
        (tree_of_kinds(&[&chain[..], &[3]].concat()), (4, 63)),
        // 5, alone and before 3 and 4.
        (tree_of_kinds(&S[..6]), (5, 6)),
        (tree_of_kinds(&[3, 3]), (5, 1)),
        (changed(&[3, 3], 1, 1, 15), (5, 1)),
        (tree_of_kinds(&[3, 3, 7]), (5, 1)),
        (tree_of_kinds(&[&[3], &open[..]].concat()), (5, 1)),
    ]
}
