//! Additions to a histogram: whole calls, beside the library's own replay of the same inputs, on trees whose steps have weights.

use std::hint::black_box;

use frame_bench::cases::{tree, weighed, POLICIES, RUN_WORKERS, SEEDS, WEIGHTS};
use frame_bench::library::{self, FrameAdded, Histogram};
use frame_bench::times::{divided, geometric_mean};
use frame_bench::tuned;
use frame_tests::histogram::{add, BUCKETS};

use crate::{for_each_case, times_of, ReplayCase, Row, Table, CONTESTANTS, SPINES};

pub struct HistogramCase {
    replay: ReplayCase,
    /// What the trace is added to, again and again: it is never full.
    histogram: Histogram,
}

impl HistogramCase {
    /// The steps get any weights, so that the phases have loads of all sizes.
    pub fn new(mut replay: ReplayCase, seed: u64) -> HistogramCase {
        replay.tree = weighed(WEIGHTS[0], replay.tree, seed);
        HistogramCase { replay, histogram: Histogram { traces: 7, counts: [7; BUCKETS] } }
    }

    // An answer is looked at where it stands, so that no copy of it is timed.

    fn tuned_added(&mut self) -> FrameAdded {
        let ReplayCase { tree, policy, trace, list } = &mut self.replay;
        tuned::histogram_add(self.histogram, black_box(tree), *policy, RUN_WORKERS, trace, list)
    }

    fn library_added(&mut self) -> FrameAdded {
        let ReplayCase { tree, policy, trace, list } = &mut self.replay;
        library::histogram_add(self.histogram, black_box(tree), *policy, RUN_WORKERS, trace, list)
    }

    fn simulator_added(&mut self) -> FrameAdded {
        let ReplayCase { tree, policy, trace, list } = &mut self.replay;
        add(&self.histogram.into(), *policy, RUN_WORKERS, black_box(tree), trace, list).into()
    }

    pub fn tuned(&mut self) -> usize {
        black_box(&self.tuned_added()).replay.number
    }

    pub fn library(&mut self) -> usize {
        black_box(&self.library_added()).replay.number
    }

    pub fn simulator(&mut self) -> usize {
        black_box(&self.simulator_added()).replay.number
    }

    fn library_replay(&mut self) -> usize {
        black_box(&self.replay.library()).number
    }

    /// All three give the same answer, the same histogram and the same list, and replay the same but for the histogram.
    fn check(&mut self) {
        let want = (self.simulator_added(), self.replay.list.clone());
        for call in [HistogramCase::tuned_added, HistogramCase::library_added] {
            self.replay.list.fill(255);
            assert_eq!((call(self), &self.replay.list), (want.0, &want.1));
        }
        assert_eq!(self.replay.library(), want.0.replay);
        assert_eq!((want.0.replay.number, want.0.replay.phases), (0, self.replay.steals() + 1));
    }

    /// The sums of steps and of steals, the times of the addition, and that of the library's replay.
    fn times(inputs: &mut [HistogramCase]) -> (usize, usize, [f64; CONTESTANTS.len()], f64) {
        inputs.iter_mut().for_each(HistogramCase::check);
        let counts = inputs.iter().map(|case| (case.replay.steps(), case.replay.steals()));
        let (units, steals) = counts.fold((0, 0), |sum, case| (sum.0 + case.0, sum.1 + case.1));
        // In the same rounds, so that a busy machine slows both alike.
        let calls = [HistogramCase::tuned, HistogramCase::library, HistogramCase::simulator, HistogramCase::library_replay];
        let [tuned, library, simulator, replay] = times_of(inputs, units, calls);
        (units, steals, [tuned, library, simulator], replay)
    }
}

/// The library's times of replays and of additions, by case.
#[derive(Default)]
struct BesideReplay {
    labels: Vec<String>,
    replays: Vec<f64>,
    additions: Vec<f64>,
}

impl BesideReplay {
    fn headings() {
        println!("the library's addition beside its replay of the same inputs, ns by steps: means, and the case of the most");
        println!("{:>50}{:>11}{:>11}{:>20}", "n", "replay", "addition", "addition/replay");
    }

    fn add(&mut self, row: &Row, replay: f64, addition: f64) {
        self.labels.push(row.label());
        self.replays.push(replay);
        self.additions.push(addition);
    }

    fn print(&self, what: &str) {
        let ratios = divided(&self.additions, &self.replays);
        let worst = (0..ratios.len()).max_by(|&a, &b| ratios[a].total_cmp(&ratios[b])).expect("there is a case");
        let line = |label: &str, [replay, addition, ratio]: [f64; 3]| {
            println!("{label:>50}{replay:>11.2}{addition:>11.2}{ratio:>20.2}");
        };
        line(what, [&self.replays, &self.additions, &ratios].map(|times| geometric_mean(times)));
        line(&self.labels[worst], [self.replays[worst], self.additions[worst], ratios[worst]]);
    }
}

pub fn table() {
    let mut table = Table::new("histogram, ns", "steps", CONTESTANTS);
    let mut sizes: Vec<(usize, BesideReplay)> = Vec::new();
    for_each_case(|shape, n, (policy, byte), workers| {
        let case = |seed| HistogramCase::new(ReplayCase::of_run(tree(shape, n, seed), byte, workers, seed), seed);
        let (units, steals, times, replay) = HistogramCase::times(&mut SEEDS.map(case).collect::<Vec<_>>());
        let row = Row::new(shape.0, n, policy, workers, units, steals);
        table.line(&row, times);
        if sizes.last().is_none_or(|(size, _)| *size != n) {
            sizes.push((n, BesideReplay::default()));
        }
        sizes.last_mut().expect("a size was pushed").1.add(&row, replay, times[1]);
    });
    table.summary();
    println!("histogram where thieves are robbed in turn of all but their first child: the most phases (one input)");
    let mut robbed = BesideReplay::default();
    for (name, spine) in SPINES {
        for (policy, byte) in POLICIES {
            let case = HistogramCase::new(ReplayCase::of_thieves(byte, spine), 0);
            let (units, steals, times, replay) = HistogramCase::times(&mut [case]);
            let row = Row { shape: name, n: units, policy, workers: 16, units, steals };
            table.print(&row, times);
            robbed.add(&row, replay, times[1]);
        }
    }
    println!();
    BesideReplay::headings();
    for (n, beside) in sizes {
        beside.print(&n.to_string());
    }
    robbed.print("thieves that are robbed in turn");
    println!();
}
