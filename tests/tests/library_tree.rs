//! The proved tree functions against the simulator, over the C interface, on random and damaged trees. A failure names its
//! seed. On bytes that are no tree the functions still have an answer, which a plain walk gives here.

#[path = "library/classes.rs"]
mod classes;
#[path = "library/guarded.rs"]
mod guarded;
mod library;

use frame_tests::random::{damaged_tree, tree, tree_of_kinds, Rng};
use frame_tests::tree::{Kind, Tree};
use guarded::Guarded;
use library::{FrameRunning, FrameTask, FrameTree};

/// The library's answer on the tree is the simulator's.
fn same_acceptance(bytes: &[u8], seed: u64) -> Option<Tree> {
    let got = library::tree(bytes);
    match Tree::parse(bytes) {
        Ok(tree) => {
            let want = FrameTree { number: 0, position: 0, steps: tree.count() };
            assert_eq!(got, want, "seed {seed}");
            Some(tree)
        }
        Err(refusal) => {
            let want = FrameTree { number: refusal.number as usize, position: refusal.position, steps: 0 };
            assert_eq!(got, want, "seed {seed}");
            None
        }
    }
}

/// What running a step holds and pushes, in document 01's words.
fn running(tree: &Tree, policy: u8, step: usize) -> FrameRunning {
    match tree.child_opened_by(step) {
        None => FrameRunning { opens: 0, hold: 0, push: 0 },
        Some(child) => {
            let after = tree.step_after(child);
            if policy == 2 && tree.kind(step) == Kind::OpenAsync {
                FrameRunning { opens: 1, hold: after, push: step + 1 }
            } else {
                FrameRunning { opens: 1, hold: step + 1, push: after }
            }
        }
    }
}

/// Every answer on a step of an accepted tree is the simulator's.
fn same_step(bytes: &[u8], tree: &Tree, step: usize, seed: u64) {
    let first_of = |task: usize| tree.tasks()[task].steps[0];
    assert_eq!(library::kind(bytes, step), bytes[8 * step], "seed {seed}, step {step}");
    assert_eq!(library::class(bytes, step), tree.class(step), "seed {seed}, step {step}");
    assert_eq!(library::weight(bytes, step), tree.weight(step), "seed {seed}, step {step}");
    if let Some(child) = tree.child_opened_by(step) {
        assert_eq!(library::cont(bytes, step), tree.step_after(child), "seed {seed}, step {step}");
    }
    let task = FrameTask { first: first_of(tree.task_of(step)), ordinal: tree.ordinal(step) };
    assert_eq!(library::task(bytes, step), task, "seed {seed}, step {step}");
    let child = tree.finish_child_before(step).map_or(0, first_of);
    assert_eq!(library::finish_before(bytes, step), child, "seed {seed}, step {step}");
    for policy in [1, 2] {
        let want = running(tree, policy, step);
        assert_eq!(library::running(bytes, policy, step), want, "seed {seed}, step {step}, policy {policy}");
    }
}

#[test]
fn millions_of_trees() {
    for seed in 0..2_000_000 {
        let mut rng = Rng::new(seed);
        let tasks = rng.below(10);
        let bytes = if rng.percent(20) { tree(&mut rng, tasks) } else { damaged_tree(&mut rng, tasks) };
        if let Some(tree) = same_acceptance(&bytes, seed) {
            if seed % 8 == 0 {
                for step in 0..tree.count() {
                    same_step(&bytes, &tree, step, seed);
                }
            }
        }
    }
}

#[test]
fn large_trees() {
    for seed in 0..2_000 {
        let mut rng = Rng::new(seed);
        let tasks = if rng.percent(10) { 2_047 } else { rng.below(2_048) };
        let bytes = if rng.percent(50) { tree(&mut rng, tasks) } else { damaged_tree(&mut rng, tasks) };
        if let Some(tree) = same_acceptance(&bytes, seed) {
            for _ in 0..200 {
                same_step(&bytes, &tree, rng.below(tree.count()), seed);
            }
        }
    }
}

/// The answers on any kinds by one walk: the open tasks as (first step, children), the innermost last. Past the root's end
/// there is a root without children again.
struct Walk {
    kinds: Vec<u8>,
    tasks: Vec<(usize, usize)>,
}

impl Walk {
    fn new(bytes: &[u8]) -> Walk {
        let kinds: Vec<u8> = bytes.chunks_exact(8).map(|record| record[0]).collect();
        let mut open = vec![(0, 0)];
        let mut tasks = vec![(0, 0)];
        for (i, &kind) in kinds.iter().enumerate() {
            if kind == 3 {
                open.pop();
            } else {
                let (first, children) = open.pop().unwrap_or((0, 0));
                open.push((first, children + 1));
                open.push((i + 1, 0));
            }
            tasks.push(open.last().copied().unwrap_or((0, 0)));
        }
        Walk { kinds, tasks }
    }

    fn kind(&self, step: usize) -> u8 {
        self.kinds.get(step).copied().unwrap_or(0)
    }

    fn task(&self, step: usize) -> (usize, usize) {
        self.tasks[step.min(self.kinds.len())]
    }

    fn cont(&self, step: usize) -> usize {
        let n = self.kinds.len();
        let mut left = 1;
        for j in step.saturating_add(1)..n {
            if self.kinds[j] == 3 {
                left -= 1;
            } else {
                left += 1;
            }
            if left == 0 {
                return j + 1;
            }
        }
        n
    }

    fn finish_before(&self, step: usize) -> usize {
        if step == 0 || self.kind(step - 1) != 3 {
            return 0;
        }
        let (first, _) = self.task(step - 1);
        if first > 0 && self.kind(first - 1) == 2 {
            first
        } else {
            0
        }
    }

    fn running(&self, policy: u8, step: usize) -> FrameRunning {
        if step >= self.kinds.len() || self.kind(step) == 3 {
            return FrameRunning { opens: 0, hold: 0, push: 0 };
        }
        let (next, after) = (step + 1, self.cont(step));
        if policy == 2 && self.kind(step) == 1 {
            FrameRunning { opens: 1, hold: after, push: next }
        } else {
            FrameRunning { opens: 1, hold: next, push: after }
        }
    }
}

/// Bytes that are often no tree: any kinds, any classes, any length.
fn any_bytes(rng: &mut Rng) -> Vec<u8> {
    let mut bytes = Vec::new();
    let ends = rng.between(10, 90);
    // Byte 1 is 0, or a class, or any byte; bytes 2 and 3 are mostly 0.
    let most = rng.pick(&[0, 15, 255]);
    for _ in 0..rng.below(40) {
        let kind = if rng.percent(ends) { 3 } else { rng.pick(&[1, 2, 1, 2, 0, 7]) };
        let class = rng.between(0, most) as u8;
        let [two, three] = [(); 2].map(|()| if rng.percent(1) { rng.next() as u8 } else { 0 });
        bytes.extend_from_slice(&[kind, class, two, three, rng.below(256) as u8, 1, 2, 3]);
    }
    for _ in 0..rng.below(8) {
        bytes.push(rng.pick(&[0, 1, 2, 3, 255]));
    }
    bytes
}

#[test]
fn any_bytes_and_any_step() {
    let mut guarded = Guarded::new(4096);
    for seed in 0..300_000 {
        let mut rng = Rng::new(seed);
        let plain = any_bytes(&mut rng);
        let bytes: &[u8] = if rng.percent(50) { guarded.at_end(&plain) } else { guarded.at_start(&plain) };
        same_acceptance(bytes, seed);
        let walk = Walk::new(bytes);
        let n = bytes.len() / 8;
        for step in [rng.below(n + 1), n, n + 1, usize::MAX / 8, usize::MAX / 8 + 1, usize::MAX - 1, usize::MAX] {
            let class = if step < n { bytes[8 * step + 1] } else { 0 };
            let weight = if step < n { u32::from_le_bytes(bytes[8 * step + 4..8 * step + 8].try_into().unwrap()) } else { 0 };
            let (first, ordinal) = walk.task(step);
            assert_eq!(library::kind(bytes, step), walk.kind(step), "seed {seed}, step {step}");
            assert_eq!(library::class(bytes, step), class, "seed {seed}, step {step}");
            assert_eq!(library::weight(bytes, step), weight, "seed {seed}, step {step}");
            assert_eq!(library::cont(bytes, step), walk.cont(step), "seed {seed}, step {step}");
            assert_eq!(library::task(bytes, step), FrameTask { first, ordinal }, "seed {seed}, step {step}");
            assert_eq!(library::finish_before(bytes, step), walk.finish_before(step), "seed {seed}, step {step}");
            for policy in [0, 1, 2, 255] {
                let want = walk.running(policy, step);
                assert_eq!(library::running(bytes, policy, step), want, "seed {seed}, step {step}, policy {policy}");
            }
        }
    }
}

/// So many opens, one inside the other, and as many ends.
fn deep(opens: usize, ends: usize) -> Vec<u8> {
    let mut kinds = vec![1; opens];
    kinds.extend(vec![3; ends]);
    tree_of_kinds(&kinds)
}

#[test]
fn limits() {
    assert_eq!(library::tree(&deep(63, 64)), FrameTree { number: 0, position: 0, steps: 127 });
    assert_eq!(library::tree(&deep(64, 65)), FrameTree { number: 4, position: 63, steps: 0 });
    let mut kinds = [1, 3].repeat(2_047);
    kinds.push(3);
    assert_eq!(library::tree(&tree_of_kinds(&kinds)), FrameTree { number: 0, position: 0, steps: 4_095 });
    kinds.extend([3, 3]);
    assert_eq!(library::tree(&tree_of_kinds(&kinds)), FrameTree { number: 2, position: 0, steps: 0 });
    assert_eq!(library::tree(&[]), FrameTree { number: 2, position: 0, steps: 0 });
}

/// Byte 1 is a class from 0 to 15, bytes 2 and 3 are 0; else the tree is refused with 3. Each step's class is asked for all the
/// same, and all that is not the class stays as it was.
#[test]
fn every_class_byte() {
    for seed in 0..40 {
        let mut rng = Rng::new(seed);
        let tasks = rng.below(20);
        let plain = tree(&mut rng, tasks);
        for (bytes, (number, position)) in classes::every_byte(&mut rng, &plain) {
            let steps = bytes.len() / 8;
            let want = FrameTree { number, position, steps: if number == 0 { steps } else { 0 } };
            assert_eq!(library::tree(&bytes), want, "seed {seed}");
            same_acceptance(&bytes, seed);
            for step in 0..steps + 2 {
                let class = if step < steps { bytes[8 * step + 1] } else { 0 };
                assert_eq!(library::class(&bytes, step), class, "seed {seed}, step {step}");
                let others = |tree: &[u8]| {
                    let of_record = (library::kind(tree, step), library::weight(tree, step), library::cont(tree, step));
                    let running = [1, 2].map(|policy| library::running(tree, policy, step));
                    (of_record, library::task(tree, step), library::finish_before(tree, step), running)
                };
                assert_eq!(others(&bytes), others(&plain), "seed {seed}, step {step}");
            }
        }
    }
}

#[test]
fn worked_cases_of_the_classes() {
    let classes: Vec<u8> = (0..9).map(|step| library::class(&classes::C, step)).collect();
    assert_eq!(classes, [0, 1, 2, 0, 15, 1, 2, 0, 0]);
    assert_eq!(library::class(&[3, 16, 0, 0, 1, 0, 0, 0], 0), 16);
    // Of a record that is not whole nothing is read.
    assert_eq!(library::class(&[3, 16, 0, 0, 1, 0, 0], 0), 0);
    for (tree, (number, position)) in classes::trees() {
        let steps = if number == 0 { tree.len() / 8 } else { 0 };
        assert_eq!(library::tree(&tree), FrameTree { number, position, steps }, "{tree:?}");
    }
}
