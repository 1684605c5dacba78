//! Finish children of chosen lengths, two of each: all steps but the first end a task in the one or the other. So each can be left
//! for last, and the awaited step be at any distance from the step behind the child.

use frame_tests::random::{pile, tree_of_kinds};

/// A finish child of so many steps, which is always an odd count. It opens so many async children of one step, then async
/// children that open one themselves, for as long as there are steps.
#[derive(Clone, Copy, Debug)]
pub struct Pile {
    pub steps: usize,
    pub singles: usize,
}

impl Pile {
    /// The kinds of the child's records.
    pub fn kinds(self) -> Vec<u8> {
        let mut kinds = [1, 3].repeat(self.singles.min(self.steps / 2));
        let left = self.steps - 1 - kinds.len();
        kinds.extend([1, 1, 3, 3].repeat(left / 4));
        kinds.extend([1, 3].repeat(left % 4 / 2));
        kinds.push(3);
        kinds
    }

    /// The tree whose root opens this child alone.
    pub fn tree(self) -> Vec<u8> {
        pile(&tree_of_kinds(&self.kinds()))
    }

    /// The steps that end a task, in that tree.
    pub fn ends(self) -> Vec<usize> {
        let kinds = self.kinds();
        (1..=self.steps).filter(|step| kinds[step - 1] == 3).collect()
    }

    /// The step behind the child, in that tree.
    pub fn behind(self) -> usize {
        self.steps + 1
    }
}

/// All small lengths, and some around 128 and 256.
pub fn lengths() -> impl Iterator<Item = usize> {
    (1..72).chain(121..136).chain(251..262).filter(|steps| steps % 2 == 1)
}

/// For each of these lengths two children, whose ends are together all steps but the first.
pub fn piles() -> impl Iterator<Item = Pile> {
    lengths().flat_map(|steps| [0, 1].map(|singles| Pile { steps, singles }))
}
