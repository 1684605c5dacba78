//! The round trip over the C interface: single events live, recording of those that were accepted, replay of the recorded
//! trace. Each clause of document 01's demand 3 ("Contracts and proofs") is checked on the library's own answers; the
//! simulator only makes the events. A failure names its seed.

mod library;

use std::collections::HashSet;
use std::fmt;

use frame_tests::random::{all_stolen, all_trees, drive, flat_tree, tree, tree_with, Plan, Rng, Weights, SHAPES};
use frame_tests::record::MAX_EVENTS;
use frame_tests::run::{Policy, Run};
use library::{FrameRecord, FrameReplay, RunState};

/// Worker and first step of a phase.
type Phase = (usize, usize);

/// A list of events as it goes to the single event call, from an accepted start on.
#[derive(Clone)]
struct Live<'a> {
    tree: &'a [u8],
    policy: u8,
    workers: u8,
    state: RunState,
    /// The accepted events.
    events: Vec<u8>,
    /// For each accepted run event its phase and step.
    log: Vec<(usize, usize)>,
    phases: Vec<Phase>,
}

/// Two bytes as they stand in a record.
fn number(bytes: &[u8]) -> usize {
    usize::from(u16::from_le_bytes([bytes[0], bytes[1]]))
}

/// A log's or a run list's steps, for each phase in the order of the records.
fn steps_of(phases: usize, records: impl Iterator<Item = (usize, usize)>) -> Vec<Vec<usize>> {
    let mut steps = vec![Vec::new(); phases];
    for (phase, step) in records {
        steps[phase].push(step);
    }
    steps
}

fn records_of(bytes: &[u8]) -> Vec<(usize, usize)> {
    bytes.chunks(4).map(|record| (number(record), number(&record[2..]))).collect()
}

impl Live<'_> {
    fn start(tree: &[u8], policy: u8, workers: u8) -> Live<'_> {
        let started = library::start(tree, policy, workers);
        assert_eq!((started.number, started.position), (0, 0));
        // Phase 0 is worker 0's, from step 0.
        Live { tree, policy, workers, state: started.state, events: vec![], log: vec![], phases: vec![(0, 0)] }
    }

    fn steps(&self) -> usize {
        self.tree.len() / 8
    }

    /// The bytes of log, trace and run list that the tree asks for.
    fn needed(&self) -> [usize; 3] {
        let n = self.steps();
        [4 * n, 2 * (n - 1), 4 * n]
    }

    /// Recording with outputs of these lengths.
    fn recorded(&self, events: &[u8], [log, trace]: [usize; 2]) -> (FrameRecord, Vec<u8>, Vec<u8>) {
        let (mut log, mut trace) = (vec![0; log], vec![0; trace]);
        let got = library::record(self.tree, self.policy, self.workers, events, &mut log, &mut trace);
        log.truncate(4 * got.logs);
        trace.truncate(4 * got.steals);
        (got, log, trace)
    }

    /// Replay with a list of this length.
    fn replayed(&self, trace: &[u8], length: usize) -> (FrameReplay, Vec<u8>) {
        let mut list = vec![0; length];
        let got = library::replay(self.tree, self.policy, self.workers, trace, &mut list);
        (got, list)
    }

    /// One event. If `compared`, its number is the one that recording gives to the accepted events before it followed by this
    /// one. Gives the number.
    fn event(&mut self, [first, second]: [u8; 2], compared: bool, case: fmt::Arguments) -> usize {
        let got = library::event(self.state, self.tree, first, second);
        let outcome = got.outcome;
        let place = self.events.len() / 2;
        self.events.extend([first, second]);
        if compared {
            let [log, trace, _] = self.needed();
            let (recorded, ..) = self.recorded(&self.events, [log, trace]);
            assert_eq!(recorded.number, outcome.number, "{case}, {first} {second} behind {place} accepted events");
            let position = if outcome.number == 0 { 0 } else { place };
            assert_eq!(recorded.position, position, "{case}, {first} {second} behind {place} accepted events");
        }
        assert_eq!(outcome.position, 0, "{case}");
        assert_eq!(outcome.number == 0, outcome.what != 0, "{case}");
        match outcome.what {
            1 => self.log.push((outcome.phase, outcome.step)),
            // A later phase is the thief's, from the step taken.
            2 => self.phases.push((first.into(), got.state.held[usize::from(first)].into())),
            _ => {
                assert!(got.state == self.state, "{case}: a refused event changed the state");
                self.events.truncate(2 * place);
            }
        }
        self.state = got.state;
        outcome.number
    }

    /// Whether accepted run events have run all steps.
    fn finished(&self) -> bool {
        let run: HashSet<usize> = self.log.iter().map(|&(_, step)| step).collect();
        assert!(run.iter().all(|&step| step < self.steps()));
        run.len() == self.steps()
    }

    /// Recording the live run and replaying its trace: both are accepted, count and finish as the live run does, and have the
    /// same phases.
    fn round_trip(&self, case: fmt::Arguments) {
        let [log_bytes, trace_bytes, list_bytes] = self.needed();
        let (recorded, log, trace) = self.recorded(&self.events, [log_bytes, trace_bytes]);
        assert_eq!((recorded.number, recorded.position), (0, 0), "{case}");
        assert_eq!((recorded.logs, recorded.steals), (self.log.len(), self.phases.len() - 1), "{case}");
        assert_eq!(recorded.finished, usize::from(self.finished()), "{case}");
        assert!(records_of(&log) == self.log, "{case}: another log");

        let (replayed, list) = self.replayed(&trace, list_bytes);
        assert_eq!((replayed.number, replayed.position), (0, 0), "{case}");
        assert_eq!(replayed.phases, self.phases.len(), "{case}");
        let live = steps_of(replayed.phases, self.log.iter().copied());
        let again = steps_of(replayed.phases, records_of(&list).into_iter());
        assert!(same_phases(&self.phases, &trace, &again), "{case}: another worker or first step");
        let leads = live.iter().zip(&again).all(|(live, again)| again.starts_with(live));
        assert!(leads, "{case}: what a phase ran live is no leading part of its replayed steps");
        assert_eq!(live == again, self.finished(), "{case}");

        let mut all = again.concat();
        all.sort_unstable();
        assert!(all.into_iter().eq(0..self.steps()), "{case}: not every step once");
        // Not asked by demand 3, but both calls count what the phases cover at the end.
        assert_eq!((recorded.loads, recorded.heaviest), (replayed.loads, replayed.heaviest), "{case}");
        assert_eq!(recorded.class_loads, replayed.class_loads, "{case}");
    }

    /// Where a lent output is short both calls give 7, and otherwise, however long, they are accepted.
    fn lengths(&self, rng: &mut Rng, case: fmt::Arguments) {
        let [log, trace, list] = self.needed().map(|need| match rng.below(4) {
            0 => rng.below(need + 1),
            1 => need.saturating_sub(1),
            2 => need,
            _ => need + rng.between(1, 30),
        });
        let needed = self.needed();
        let (recorded, ..) = self.recorded(&self.events, [log, trace]);
        let number = if log < needed[0] || trace < needed[1] { 7 } else { 0 };
        assert_eq!((recorded.number, recorded.position), (number, 0), "{case}, log of {log}, trace of {trace} bytes");
        let (_, _, trace) = self.recorded(&self.events, [needed[0], needed[1]]);
        let (replayed, _) = self.replayed(&trace, list);
        let number = if list < needed[2] { 7 } else { 0 };
        assert_eq!((replayed.number, replayed.position), (number, 0), "{case}, list of {list} bytes");
    }
}

/// Phase 0 is worker 0's, a later phase k the thief's of the trace record at position k - 1; each starts with the step of its
/// first run-list record.
fn same_phases(live: &[Phase], trace: &[u8], replayed: &[Vec<usize>]) -> bool {
    let thieves = trace.chunks(4).map(|record| usize::from(record[0]));
    let workers = std::iter::once(0).chain(thieves);
    let firsts = replayed.iter().map(|steps| steps.first().copied());
    let phases: Vec<(usize, Option<usize>)> = workers.zip(firsts).collect();
    live.iter().map(|&(worker, first)| (worker, Some(first))).eq(phases)
}

/// How often the events met each case.
#[derive(Default, Debug)]
struct Seen {
    /// By number; 0 is accepted.
    numbers: [usize; 13],
    steals: usize,
    finished: usize,
    unfinished: usize,
    longest: usize,
}

impl Seen {
    fn count(&mut self, live: &Live) {
        self.steals += live.phases.len() - 1;
        self.finished += usize::from(live.finished());
        self.unfinished += usize::from(!live.finished());
    }
}

/// Events from the start on, refused ones among them. Some lists are cut, and some have none.
fn event_list(rng: &mut Rng, tree: &[u8], policy: u8, workers: u8, most: usize) -> Vec<[u8; 2]> {
    let mut run = Run::start(policy, workers, tree).expect("the tree is accepted");
    let events = if rng.percent(60) { most } else { rng.below(tree.len() / 8 * 3 + 1) };
    let plan = Plan { bad: rng.pick(&[0, 5, 30, 60]), events, ..Plan::any(rng, workers.into()) };
    drive(rng, &mut run, &plan).iter().map(|tried| tried.event).collect()
}

/// The events of a list, each of so many compared with recording, and the round trip at the end.
fn follow(live: &mut Live, events: &[[u8; 2]], every: usize, rng: &mut Rng, seed: u64, seen: &mut Seen) {
    for (k, &event) in events.iter().enumerate() {
        let compared = every == 1 || rng.below(every) == 0;
        seen.numbers[live.event(event, compared, format_args!("seed {seed}, event {k}"))] += 1;
    }
    live.round_trip(format_args!("seed {seed}"));
    live.lengths(rng, format_args!("seed {seed}"));
    seen.count(live);
    seen.longest = seen.longest.max(events.len());
}

/// A count that a run may have, often the most.
fn run_count(rng: &mut Rng) -> u8 {
    if rng.percent(30) {
        16
    } else {
        rng.between(1, 16) as u8
    }
}

#[test]
fn small_runs() {
    let mut seen = Seen::default();
    for seed in 0..25_000 {
        let mut rng = Rng::new(seed);
        let tasks = if rng.percent(5) { rng.below(120) } else { rng.below(25) };
        let bytes = tree(&mut rng, tasks);
        let (policy, workers) = (rng.between(1, 2) as u8, run_count(&mut rng));
        let events = event_list(&mut rng, &bytes, policy, workers, 12 * (tasks + 1));
        follow(&mut Live::start(&bytes, policy, workers), &events, 1, &mut rng, seed, &mut seen);
    }
    assert!(seen.numbers[0] > 400_000 && seen.steals > 100_000, "{seen:?}");
    assert!(seen.numbers[8..].iter().all(|&times| times > 10_000), "{seen:?}");
    assert!(seen.finished > 5_000 && seen.unfinished > 5_000, "{seen:?}");
}

#[test]
fn large_runs() {
    let mut seen = Seen::default();
    for seed in 0..160 {
        let mut rng = Rng::new(seed);
        let shape = SHAPES[seed as usize % 4];
        let policy = 1 + (seed / 4 % 2) as u8;
        let tasks = if seed / 8 % 2 == 0 { 2_047 } else { rng.between(100, 2_047) };
        let finish = rng.pick(&[0, 20, 50, 80, 100]);
        let bytes = tree_with(&mut rng, shape, tasks, finish, Weights::Mixed);
        let workers = run_count(&mut rng);
        let events = event_list(&mut rng, &bytes, policy, workers, 20_000);
        follow(&mut Live::start(&bytes, policy, workers), &events, 100, &mut rng, seed, &mut seen);
    }
    // A list of single events may be longer than one that is recorded.
    assert!(seen.longest > MAX_EVENTS, "{seen:?}");
    assert!(seen.numbers[0] > 300_000 && seen.steals > 20_000, "{seen:?}");
    assert!(seen.numbers[8..].iter().all(|&times| times > 10_000), "{seen:?}");
    assert!(seen.finished > 50 && seen.unfinished > 30, "{seen:?}");
}

/// Every spawned task is stolen by two workers, so that there are 2,048 phases; at the end, and on the way.
#[test]
fn as_many_phases_as_a_run_can_have() {
    let bytes = flat_tree(2_047);
    for (policy, reading) in [(1, Policy::WorkFirst), (2, Policy::HelpFirst)] {
        let mut live = Live::start(&bytes, policy, 2);
        for (k, event) in all_stolen(reading, 2_047).into_iter().enumerate() {
            if k % 1_000 == 0 {
                live.round_trip(format_args!("policy {policy}, {k} events"));
            }
            assert_eq!(live.event(event, k % 100 == 0, format_args!("policy {policy}, event {k}")), 0);
        }
        live.round_trip(format_args!("policy {policy}"));
        assert!(live.finished() && live.phases.len() == 2_048, "policy {policy}");
    }
}

/// What a later event can see of a run, and what its phases have run.
fn view(live: &Live) -> (Vec<u8>, Vec<u16>, Vec<Phase>, Vec<Vec<usize>>) {
    let state = &live.state;
    let tables = [&state.held[..4], &state.phase[..4], &state.low[..4], &state.base[..4], &[state.steals]].concat();
    let ran = steps_of(live.phases.len(), live.log.iter().copied());
    (state.place[..live.steps()].to_vec(), tables, live.phases.clone(), ran)
}

/// All lists of events of three workers from this start on, and behind each of them every event that names a fourth, which the
/// run does not have; runs that differ only in the order of the log between phases are taken once. Gives how many there are.
fn all_schedules(start: Live, case: fmt::Arguments) -> usize {
    let mut seen = HashSet::new();
    let mut open = vec![start];
    while let Some(live) = open.pop() {
        if !seen.insert(view(&live)) {
            continue;
        }
        live.round_trip(format_args!("{case}, events {:?}", live.events));
        for first in 0..=3 {
            for second in 0..=3 {
                let mut next = live.clone();
                if next.event([first, second], true, format_args!("{case}, events {:?}", live.events)) == 0 {
                    open.push(next);
                }
            }
        }
    }
    seen.len()
}

#[test]
fn all_small_schedules() {
    let mut runs = 0;
    for tasks in 0..=4 {
        for (t, bytes) in all_trees(tasks).iter().enumerate() {
            for policy in [1, 2] {
                let start = Live::start(bytes, policy, 3);
                runs += all_schedules(start, format_args!("{tasks} tasks, tree {t}, policy {policy}"));
            }
        }
    }
    assert!(runs > 100_000, "{runs} runs");
}
