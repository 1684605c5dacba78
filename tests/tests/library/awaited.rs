//! Worked cases of the step that a worker waits for, to which the simulator and the library are held.

/// Policy, kinds of the tree and accepted events; then the steps that have run, each step that would have to wait, whoever holds
/// it, with the one that it would wait for, and the workers that do wait.
pub type Case = (u8, &'static [u8], &'static [[u8; 2]], &'static [usize], &'static [(usize, usize)], &'static [u8]);

/// The finish child before step 6 has the steps 3 to 5.
const S: &[u8] = &[1, 3, 2, 1, 3, 3, 3];
/// Steps 1 to 3 are before step 4, and of these step 2 is before step 3.
const NESTED: &[u8] = &[2, 2, 3, 3, 3];
/// An async child in an async child in the finish child before step 6.
const DEEP: &[u8] = &[2, 1, 1, 3, 3, 3, 3];

pub const CASES: [Case; 18] = [
    // Nothing has run, and nobody holds step 6. The steps that follow no finish child never wait.
    (1, S, &[], &[], &[(6, 5)], &[]),
    (2, S, &[], &[], &[(6, 5)], &[]),
    // Worker 1 runs the child to its end, and worker 2 holds step 6.
    (1, S, &[[0, 0], [1, 0], [1, 1], [2, 1], [1, 1]], &[0, 2, 3], &[(6, 5)], &[2]),
    (1, S, &[[0, 0], [1, 0], [1, 1], [2, 1], [1, 1], [1, 1]], &[0, 2, 3, 4], &[(6, 5)], &[2]),
    (1, S, &[[0, 0], [1, 0], [1, 1], [2, 1], [1, 1], [1, 1], [1, 1]], &[0, 2, 3, 4, 5], &[], &[]),
    // P1: the child's end has run, a descendant has not, then has.
    (1, S, &[[0, 0], [1, 0], [1, 1], [2, 1], [1, 1], [0, 0], [0, 1], [0, 0]], &[0, 1, 2, 3, 5], &[(6, 4)], &[2]),
    (1, S, &[[0, 0], [1, 0], [1, 1], [2, 1], [1, 1], [0, 0], [0, 1], [0, 0], [1, 1]], &[0, 1, 2, 3, 4, 5], &[], &[]),
    // P2: the other way round.
    (1, S, &[[0, 0], [1, 0], [1, 1], [2, 1], [1, 1], [0, 0], [0, 1], [1, 1]], &[0, 1, 2, 3, 4], &[(6, 5)], &[2]),
    // Help-first: worker 2 holds step 6, worker 3 step 4.
    (2, S, &[[0, 0], [0, 0], [0, 0], [1, 0], [2, 0], [3, 0], [0, 0]], &[0, 2, 3, 5], &[(6, 4)], &[2]),
    (2, S, &[[0, 0], [0, 0], [0, 0], [1, 0], [2, 0], [3, 0], [0, 0], [3, 3]], &[0, 2, 3, 4, 5], &[], &[]),
    // Worker 1 holds step 4, and step 3 is in a deque, then held by worker 2.
    (1, NESTED, &[[0, 0], [1, 0], [0, 0]], &[0, 1], &[(3, 2), (4, 3)], &[1]),
    (2, NESTED, &[[0, 0], [1, 0], [0, 0], [2, 0]], &[0, 1], &[(3, 2), (4, 3)], &[1, 2]),
    (1, NESTED, &[[0, 0], [1, 0], [0, 0], [2, 0], [0, 0]], &[0, 1, 2], &[(4, 3)], &[1]),
    (2, NESTED, &[[0, 0], [1, 0], [0, 0], [2, 0], [0, 0], [2, 2]], &[0, 1, 2, 3], &[], &[]),
    // The worker that opened the child pops what follows it, which may run then.
    (1, NESTED, &[[0, 0], [0, 0], [0, 0], [0, 0]], &[0, 1, 2, 3], &[], &[]),
    // The ends run from the outermost one on: each time the next one is awaited.
    (1, DEEP, &[[0, 0], [0, 0], [0, 0], [1, 0], [2, 0], [3, 0]], &[0, 1, 2], &[(6, 5)], &[1]),
    (1, DEEP, &[[0, 0], [0, 0], [0, 0], [1, 0], [2, 0], [3, 0], [2, 2]], &[0, 1, 2, 5], &[(6, 4)], &[1]),
    (1, DEEP, &[[0, 0], [0, 0], [0, 0], [1, 0], [2, 0], [3, 0], [2, 2], [3, 3]], &[0, 1, 2, 4, 5], &[(6, 3)], &[1]),
];
