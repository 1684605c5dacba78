//! The tree file: acceptance (refusals 2 to 5) and the explicit tree of tasks.

/// Bytes of one tree record.
pub const TREE_RECORD: usize = 8;
/// The longest tree: 4,095 records.
pub const MAX_TREE_BYTES: usize = 32_760;
/// So many tasks may be open together, the root counted.
pub const MAX_OPEN: usize = 64;
/// So many classes there are: 0 to 15.
pub const CLASSES: usize = 16;

/// A refusal: its number in document 01 and the position it names (else 0).
#[derive(Clone, Copy, Debug, PartialEq, Eq)]
pub struct Refusal {
    pub number: u32,
    pub position: usize,
}

impl Refusal {
    pub fn new(number: u32, position: usize) -> Refusal {
        Refusal { number, position }
    }
}

/// What a record does.
#[derive(Clone, Copy, Debug, PartialEq, Eq)]
pub enum Kind {
    OpenAsync,
    OpenFinish,
    End,
}

/// How a task came to be.
#[derive(Clone, Copy, Debug, PartialEq, Eq)]
pub enum TaskKind {
    Root,
    Async,
    Finish,
}

/// One task of the tree.
#[derive(Clone, Debug)]
pub struct Task {
    pub kind: TaskKind,
    /// The task that opened it; none for the root.
    pub parent: Option<usize>,
    /// The task's own steps in serial order. The last of them ends the task.
    pub steps: Vec<usize>,
    /// The tasks it opened, in order.
    pub children: Vec<usize>,
}

/// An accepted tree. Task 0 is the root; tasks are numbered as they open.
#[derive(Clone, Debug)]
pub struct Tree {
    kinds: Vec<Kind>,
    classes: Vec<u8>,
    weights: Vec<u32>,
    tasks: Vec<Task>,
    /// For each step its task.
    task_of: Vec<usize>,
    /// For each step its ordinal.
    ordinal_of: Vec<usize>,
    /// For each step the child its record opens.
    opens: Vec<Option<usize>>,
}

impl Tree {
    /// Reads a tree file, or refuses it with 2 to 5.
    pub fn parse(bytes: &[u8]) -> Result<Tree, Refusal> {
        if bytes.is_empty() || bytes.len() % TREE_RECORD != 0 || bytes.len() > MAX_TREE_BYTES {
            return Err(Refusal::new(2, 0));
        }
        let n = bytes.len() / TREE_RECORD;
        let mut tree = Tree {
            kinds: Vec::new(),
            classes: Vec::new(),
            weights: Vec::new(),
            tasks: vec![Task {
                kind: TaskKind::Root,
                parent: None,
                steps: Vec::new(),
                children: Vec::new(),
            }],
            task_of: Vec::new(),
            ordinal_of: Vec::new(),
            opens: Vec::new(),
        };
        // The open tasks, the innermost last. The root is open before the
        // first record.
        let mut open: Vec<usize> = vec![0];
        for (position, record) in bytes.chunks(TREE_RECORD).enumerate() {
            let kind = match record[0] {
                1 => Kind::OpenAsync,
                2 => Kind::OpenFinish,
                3 => Kind::End,
                _ => return Err(Refusal::new(3, position)),
            };
            let class = record[1];
            if usize::from(class) >= CLASSES || record[2] != 0 || record[3] != 0 {
                return Err(Refusal::new(3, position));
            }
            if kind != Kind::End && open.len() == MAX_OPEN {
                return Err(Refusal::new(4, position));
            }
            // Reading: the root's end leaves no task open, so a record after
            // it is never refused with 4, only with 3 or 5.
            let innermost = match open.last() {
                Some(&task) => task,
                None => return Err(Refusal::new(5, position)),
            };
            let weight = u32::from_le_bytes([record[4], record[5], record[6], record[7]]);
            tree.kinds.push(kind);
            tree.classes.push(class);
            tree.weights.push(weight);
            tree.task_of.push(innermost);
            tree.ordinal_of.push(tree.tasks[innermost].children.len());
            tree.tasks[innermost].steps.push(position);
            match kind {
                Kind::End => {
                    open.pop();
                    tree.opens.push(None);
                }
                Kind::OpenAsync | Kind::OpenFinish => {
                    let child = tree.tasks.len();
                    tree.tasks.push(Task {
                        kind: if kind == Kind::OpenAsync {
                            TaskKind::Async
                        } else {
                            TaskKind::Finish
                        },
                        parent: Some(innermost),
                        steps: Vec::new(),
                        children: Vec::new(),
                    });
                    tree.tasks[innermost].children.push(child);
                    open.push(child);
                    tree.opens.push(Some(child));
                }
            }
        }
        if !open.is_empty() {
            return Err(Refusal::new(5, n));
        }
        Ok(tree)
    }

    /// The count n of records, which is the count of steps.
    pub fn count(&self) -> usize {
        self.kinds.len()
    }

    pub fn tasks(&self) -> &[Task] {
        &self.tasks
    }

    pub fn kind(&self, step: usize) -> Kind {
        self.kinds[step]
    }

    /// The step's own class; a task has none.
    pub fn class(&self, step: usize) -> u8 {
        self.classes[step]
    }

    pub fn weight(&self, step: usize) -> u32 {
        self.weights[step]
    }

    pub fn total_weight(&self) -> u64 {
        self.weights.iter().map(|&w| u64::from(w)).sum()
    }

    /// The task a step belongs to.
    pub fn task_of(&self, step: usize) -> usize {
        self.task_of[step]
    }

    /// The number of children the step's task opened before it.
    pub fn ordinal(&self, step: usize) -> usize {
        self.ordinal_of[step]
    }

    /// The task's step of this ordinal, if it has one.
    pub fn step_of_ordinal(&self, task: usize, ordinal: usize) -> Option<usize> {
        self.tasks[task]
            .steps
            .iter()
            .copied()
            .find(|&step| self.ordinal_of[step] == ordinal)
    }

    /// The child that the step's record opens, if it opens one.
    pub fn child_opened_by(&self, step: usize) -> Option<usize> {
        self.opens[step]
    }

    /// The step that ends a task.
    pub fn end_of(&self, task: usize) -> usize {
        *self.tasks[task].steps.last().expect("an accepted task ends")
    }

    /// The step after a child's end.
    pub fn step_after(&self, child: usize) -> usize {
        self.end_of(child) + 1
    }

    pub fn child_count(&self, task: usize) -> usize {
        self.tasks[task].children.len()
    }

    /// The child whose end stands just before the step, if there is one.
    pub fn child_ended_before(&self, step: usize) -> Option<usize> {
        if step > 0 && self.kinds[step - 1] == Kind::End {
            Some(self.task_of[step - 1])
        } else {
            None
        }
    }

    /// The finish child whose end stands just before the step, if there is one.
    pub fn finish_child_before(&self, step: usize) -> Option<usize> {
        self.child_ended_before(step)
            .filter(|&child| self.tasks[child].kind == TaskKind::Finish)
    }

    /// Whether the step is the first step of an async child.
    pub fn first_of_async_child(&self, step: usize) -> bool {
        step > 0 && self.kinds[step - 1] == Kind::OpenAsync
    }

    /// All steps of a task and its descendants, in serial order.
    pub fn steps_with_descendants(&self, task: usize) -> Vec<usize> {
        let mut all = self.tasks[task].steps.clone();
        for &child in &self.tasks[task].children {
            all.extend(self.steps_with_descendants(child));
        }
        all.sort_unstable();
        all
    }

    /// The steps from this one to the end of its own task.
    pub fn to_end_of_task(&self, step: usize) -> std::ops::RangeInclusive<usize> {
        step..=self.end_of(self.task_of[step])
    }
}
