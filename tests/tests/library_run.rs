//! Starts, single events (by value and in place) and idle answers over the C interface, event by event: against the simulator on
//! the runs that a start leads to, and against the contract on any state and any bytes. A failure names its seed and its event.

#[path = "library/awaited.rs"]
mod awaited;
#[path = "library/classes.rs"]
mod classes;
#[path = "library/counts.rs"]
mod counts;
#[path = "library/guarded.rs"]
mod guarded;
#[path = "library/lent.rs"]
mod lent;
mod library;
#[path = "library/piles.rs"]
mod piles;

use std::collections::BTreeSet;
use std::fmt;
use std::mem::transmute;

use frame_tests::cover::WORKERS;
use frame_tests::random::{
    all_stolen, any_count, damaged_tree, drive, finish_tree, flat_tree, run_all_but, tree, tree_of_kinds, tree_with,
    without_classes, worker_at_the_edge, Plan, Rng, Weights, SHAPES,
};
use frame_tests::run::{Policy, Run};
use guarded::Guarded;
use lent::{about_to_call, put, same_bytes};
use library::{FrameEvent, FrameIdle, FrameOutcome, RunState, NOT_RUN, NO_STEP, RUN};
use piles::{piles, Pile};

/// The most steps of a tree.
const MOST_STEPS: usize = 4_095;

/// Where a comparison stands: after which event of which seed.
#[derive(Clone, Copy)]
struct At {
    seed: u64,
    event: Option<usize>,
}

impl fmt::Display for At {
    fn fmt(&self, f: &mut fmt::Formatter) -> fmt::Result {
        match self.event {
            None => write!(f, "seed {}, start", self.seed),
            Some(k) => write!(f, "seed {}, event {k}", self.seed),
        }
    }
}

/// The state beside a refused start.
fn zeros() -> RunState {
    state_of_bytes([0; STATE_BYTES])
}

/// Worker 0 holds step 0 in phase 0, the others are idle, and no step has run.
fn first_state(policy: u8, workers: u8) -> RunState {
    let mut held = [NO_STEP; 16];
    held[0] = 0;
    RunState { place: [NOT_RUN; 4095], policy, held, workers: workers.into(), ..zeros() }
}

const STATE_BYTES: usize = 4_228;

/// A state's memory, which has no padding.
fn state_bytes(state: &RunState) -> [u8; STATE_BYTES] {
    unsafe { transmute(*state) }
}

fn state_of_bytes(bytes: [u8; STATE_BYTES]) -> RunState {
    unsafe { transmute(bytes) }
}

/// An event's outcome: number, what, phase, step, trace. The position is always 0.
fn numbers(outcome: &FrameOutcome) -> [usize; 5] {
    assert_eq!(outcome.position, 0);
    [outcome.number, outcome.what, outcome.phase, outcome.step, outcome.trace]
}

/// One event, by value and in place: the outcome is the same, and the lent state is the next one. A refused event leaves every
/// byte of it, and no event changes the count of workers. Gives the answer by value.
fn both_ways(lent: &mut RunState, tree: &[u8], first: u8, second: u8, at: impl fmt::Display) -> FrameEvent {
    let given = state_bytes(lent);
    let workers = lent.workers;
    let by_value = library::event(*lent, tree, first, second);
    let in_place = library::event_in_place(lent, tree, first, second);
    assert_eq!(in_place, by_value.outcome, "{at}: {first} {second}: another outcome in place");
    let next = state_bytes(lent);
    same_bytes(&next, &state_bytes(&by_value.state), "state in place", format_args!("{at}: {first} {second}"));
    if in_place.number != 0 {
        same_bytes(&next, &given, "state after a refusal", format_args!("{at}: {first} {second}"));
    }
    assert_eq!(lent.workers, workers, "{at}: {first} {second}: the count of workers was changed");
    by_value
}

/// Bytes around a lent state.
const AROUND: [u8; 64] = [0xb5; 64];

/// A state that is lent, and bytes around it that no event may touch.
#[repr(C)]
struct Lent {
    before: [u8; 64],
    state: RunState,
    behind: [u8; 64],
}

impl Lent {
    fn new(state: RunState) -> Lent {
        Lent { before: AROUND, state, behind: AROUND }
    }

    fn event(&mut self, tree: &[u8], first: u8, second: u8, at: impl fmt::Display) -> FrameEvent {
        let by_value = both_ways(&mut self.state, tree, first, second, &at);
        let around = self.before == AROUND && self.behind == AROUND;
        assert!(around, "{at}: {first} {second}: bytes around the lent state were changed");
        by_value
    }
}

// ---- The simulator ----

/// What each worker holds, its latest phase, and the idle workers are the simulator's, and so are the counts of steals and of
/// workers. Those that the run does not have are as they were at the start.
fn same_workers(state: &RunState, run: &Run, at: At) {
    assert_eq!(usize::from(state.workers), run.workers.len(), "{at}, workers");
    for w in run.workers.len()..WORKERS {
        let numbers = [state.held[w], state.phase[w], state.low[w], state.base[w]];
        assert_eq!(numbers, [NO_STEP, 0, 0, 0], "{at}, worker {w}, which the run does not have");
    }
    for (w, worker) in run.workers.iter().enumerate() {
        let held = worker.held.map_or(NO_STEP, |step| step as u16);
        assert_eq!(state.held[w], held, "{at}, held by worker {w}");
        if let Some(phase) = worker.phase {
            assert_eq!(usize::from(state.phase[w]), phase, "{at}, phase of worker {w}");
        }
        if worker.held.is_some() && run.policy == Policy::WorkFirst {
            let ordinal = run.tree.ordinal(usize::from(state.low[w]));
            assert_eq!(usize::from(state.base[w]), ordinal, "{at}, ordinal of worker {w}'s low");
        }
    }
    assert_eq!(usize::from(state.steals), run.trace.len(), "{at}, steals");
    let idle = FrameIdle { set: run.idle_set().into(), count: run.idle_count(), lowest: run.lowest_idle() };
    assert_eq!(library::idle(*state), idle, "{at}");
}

/// Which steps have run and what stands in the deques, as the places say it, are the simulator's.
fn same_places(state: &RunState, run: &Run, at: At) {
    let n = run.tree.count();
    let mut deques = vec![Vec::new(); WORKERS];
    for step in 0..n {
        let place = state.place[step];
        assert!(place <= NOT_RUN, "{at}, step {step} has place {place}");
        assert_eq!(place != NOT_RUN, run.ran[step], "{at}, whether step {step} has run");
        if place < RUN {
            let w = usize::from(place);
            assert!(usize::from(state.low[w]) <= step, "{at}, worker {w} has step {step} below its low");
            match run.policy.push_and_hold(&run.tree, step) {
                Some((pushed, _)) => deques[w].push(pushed),
                None => panic!("{at}, step {step} pushes nothing and is in the deque of worker {w}"),
            }
        }
    }
    for (w, worker) in run.workers.iter().enumerate() {
        let (got, want) = (&deques[w], &worker.deque);
        assert!(got.iter().eq(want), "{at}, deque of worker {w}: {got:?}, not {want:?}");
    }
    assert!(state.place[n..] == [NOT_RUN; MOST_STEPS][n..], "{at}, a place beyond the tree");
}

/// How often the events met each case.
#[derive(Default, Debug)]
struct Seen {
    runs: usize,
    steals: usize,
    /// By number.
    refused: [usize; 13],
    finished: usize,
    nobody_idle: usize,
}

impl Seen {
    fn count(&mut self, outcome: &FrameOutcome) {
        match outcome.what {
            1 => self.runs += 1,
            2 => self.steals += 1,
            _ => self.refused[outcome.number] += 1,
        }
    }
}

/// The library and the simulator on the same run.
struct Both<'a> {
    tree: &'a [u8],
    run: Run,
    lent: Lent,
    policy: u8,
    at: At,
}

impl Both<'_> {
    fn start(tree: &[u8], policy: u8, workers: u8, seed: u64) -> Both<'_> {
        let at = At { seed, event: None };
        let run = Run::start(policy, workers, tree).unwrap_or_else(|refusal| panic!("{at}: {refusal:?}"));
        let started = library::start(tree, policy, workers);
        assert_eq!((started.number, started.position), (0, 0), "{at}");
        let both = Both { tree, run, lent: Lent::new(started.state), policy, at };
        both.whole_view();
        both
    }

    fn whole_view(&self) {
        assert_eq!(self.lent.state.policy, self.policy, "{}", self.at);
        same_workers(&self.lent.state, &self.run, self.at);
        same_places(&self.lent.state, &self.run, self.at);
    }

    /// One event to both. The library's state is lent from event to event.
    fn event(&mut self, event: [u8; 2], seen: &mut Seen) {
        self.at.event = Some(self.at.event.map_or(0, |k| k + 1));
        let at = self.at;
        let [first, second] = event;
        let got = self.lent.event(self.tree, first, second, at);
        let want = match self.run.event(first, second) {
            Err(refusal) => [refusal.number as usize, 0, 0, 0, 0],
            Ok(()) if first == second => {
                let record = self.run.log.last().expect("a run event is logged");
                [0, 1, record.phase, record.step, 0]
            }
            Ok(()) => {
                let record = self.run.trace.last().expect("a steal is traced");
                [0, 2, 0, 0, record.number]
            }
        };
        assert_eq!(numbers(&got.outcome), want, "{at}: {first} {second}");
        same_workers(&self.lent.state, &self.run, at);
        seen.count(&got.outcome);
        seen.nobody_idle += usize::from(self.run.idle_set() == 0);
    }

    /// All events, with the whole view after every so many and at the end.
    fn events(&mut self, events: &[[u8; 2]], every: usize, seen: &mut Seen) {
        for (k, &event) in events.iter().enumerate() {
            self.event(event, seen);
            if k % every == 0 {
                self.whole_view();
            }
        }
        self.whole_view();
        seen.finished += usize::from(self.run.finished());
    }
}

/// Any two bytes, mostly workers of a run of so many, or near to them.
fn any_pair(rng: &mut Rng, count: usize) -> [u8; 2] {
    let limit = rng.pick(&[count, count, count, 20, 256]);
    let any = |rng: &mut Rng| if rng.percent(10) { worker_at_the_edge(rng, count) } else { rng.below(limit) as u8 };
    let first = any(rng);
    if rng.percent(40) {
        [first, first]
    } else {
        [first, any(rng)]
    }
}

/// At most so many events for a run from its start: good ones, bad ones and any bytes, in turns. Some go past the run's end.
fn event_list(rng: &mut Rng, mut run: Run, most: usize) -> Vec<[u8; 2]> {
    let mut list = Vec::new();
    if rng.percent(2) {
        return list;
    }
    let count = run.workers.len();
    let mut plan = Plan { bad: rng.pick(&[0, 0, 5, 30]), ..Plan::any(rng, count) };
    // So many of a hundred turns are of any bytes.
    let any = rng.pick(&[0, 0, 10, 40, 100]);
    if any > 0 {
        plan.workers = count;
    }
    let most = if rng.percent(20) { rng.below(most + 1) } else { most };
    while list.len() < most && !run.finished() {
        plan.events = rng.between(1, 40).min(most - list.len());
        if rng.percent(any) {
            for _ in 0..plan.events {
                let [first, second] = any_pair(rng, count);
                // Refused or not, the event goes into the list.
                let _ = run.event(first, second);
                list.push([first, second]);
            }
        } else {
            list.extend(drive(rng, &mut run, &plan).iter().map(|tried| tried.event));
        }
    }
    for _ in 0..rng.below(6) {
        list.push(any_pair(rng, count));
    }
    list
}

/// A count that a run may have, often the most.
fn run_count(rng: &mut Rng) -> u8 {
    if rng.percent(30) {
        WORKERS as u8
    } else {
        rng.between(1, WORKERS) as u8
    }
}

#[test]
fn starts() {
    let mut guarded = Guarded::new(40_000);
    let mut accepted = 0;
    let mut refused = [0; 17];
    for seed in 0..60_000 {
        let mut rng = Rng::new(seed);
        let tasks = if rng.percent(1) { rng.below(2_048) } else { rng.below(20) };
        let plain = match rng.below(20) {
            0..=8 => tree(&mut rng, tasks),
            9..=18 => damaged_tree(&mut rng, tasks),
            _ => {
                let len = if rng.percent(95) { rng.below(100) } else { rng.between(0, 40_000) };
                any_bytes(&mut rng, len)
            }
        };
        let bytes: &[u8] = if rng.percent(50) { guarded.at_end(&plain) } else { guarded.at_start(&plain) };
        let any = rng.next() as u8;
        let mut arguments: Vec<[u8; 2]> = [0, 1, 1, 2, 2, 3, any].map(|policy| [policy, any_count(&mut rng)]).to_vec();
        if seed % 200 == 0 {
            arguments.extend((0..=255).map(|byte| [byte, any_count(&mut rng)]));
            arguments.extend((0..=255).map(|byte| [rng.between(1, 2) as u8, byte]));
        }
        for [policy, workers] in arguments {
            let at = At { seed, event: None };
            let case = format!("{at}, policy {policy}, {workers} workers");
            about_to_call(format_args!("{case}"));
            let got = library::start(bytes, policy, workers);
            match Run::start(policy, workers, bytes) {
                Err(refusal) => {
                    let want = (refusal.number as usize, refusal.position);
                    assert_eq!((got.number, got.position), want, "{case}");
                    assert!(state_bytes(&got.state) == [0; STATE_BYTES], "{case}: a state beside a refusal");
                    refused[want.0] += 1;
                }
                Ok(run) => {
                    assert_eq!((got.number, got.position), (0, 0), "{case}");
                    assert!(got.state == first_state(policy, workers), "{case}: another first state");
                    same_workers(&got.state, &run, at);
                    same_places(&got.state, &run, at);
                    accepted += 1;
                }
            }
        }
    }
    assert!(accepted > 10_000 && [1, 2, 3, 4, 5, 16].iter().all(|&number| refused[number] > 100), "{accepted} {refused:?}");
}

/// Byte 1 is a class from 0 to 15, bytes 2 and 3 are 0, and the first state is the same for every such tree.
#[test]
fn every_class_byte() {
    for seed in 0..20 {
        let mut rng = Rng::new(seed);
        let tasks = rng.below(12);
        let bytes = tree(&mut rng, tasks);
        for (k, (bytes, want)) in classes::every_byte(&mut rng, &bytes).into_iter().enumerate() {
            let (policy, workers) = (rng.between(1, 2) as u8, run_count(&mut rng));
            let got = library::start(&bytes, policy, workers);
            assert_eq!((got.number, got.position), want, "seed {seed}, tree {k}");
            let state = if want.0 == 0 { first_state(policy, workers) } else { zeros() };
            assert!(got.state == state, "seed {seed}, tree {k}: another state");
        }
    }
    for (tree, want) in classes::trees() {
        let got = library::start(&tree, 1, 16);
        assert_eq!((got.number, got.position), want, "{tree:?}");
    }
}

/// An event does not see the classes: without them, or with any bytes in their place and behind them, outcomes and states are the
/// same.
#[test]
fn classes_change_no_event() {
    let mut seen = Seen::default();
    for seed in 0..10_000 {
        let mut rng = Rng::new(seed);
        let tasks = if rng.percent(5) { rng.below(120) } else { rng.below(25) };
        let bytes = tree(&mut rng, tasks);
        let (policy, workers) = (rng.between(1, 2) as u8, run_count(&mut rng));
        let mut damaged = bytes.clone();
        damaged.chunks_mut(8).for_each(|record| record[1..4].copy_from_slice(&rng.bytes(3)));
        let run = Run::start(policy, workers, &bytes).expect("the tree is accepted");
        let mut state = library::start(&bytes, policy, workers).state;
        for (k, [first, second]) in event_list(&mut rng, run, 4 * (tasks + 1)).into_iter().enumerate() {
            let got = library::event(state, &bytes, first, second);
            for other in [without_classes(&bytes), damaged.clone()] {
                let again = both_ways(&mut state.clone(), &other, first, second, At { seed, event: Some(k) });
                assert_eq!(again.outcome, got.outcome, "seed {seed}, event {k}");
                assert!(again.state == got.state, "seed {seed}, event {k}: another state");
            }
            seen.count(&got.outcome);
            state = got.state;
        }
    }
    assert!(seen.runs > 50_000 && seen.steals > 10_000, "{seen:?}");
    assert!(seen.refused[8..].iter().all(|&times| times > 1_000), "{seen:?}");
}

#[test]
fn small_runs() {
    let mut seen = Seen::default();
    for seed in 0..60_000 {
        let mut rng = Rng::new(seed);
        let tasks = if rng.percent(10) { rng.below(120) } else { rng.below(25) };
        let bytes = tree(&mut rng, tasks);
        let policy = rng.between(1, 2) as u8;
        let mut both = Both::start(&bytes, policy, run_count(&mut rng), seed);
        let list = event_list(&mut rng, both.run.clone(), 12 * (tasks + 1));
        both.events(&list, 1, &mut seen);
    }
    assert!(seen.runs > 500_000 && seen.steals > 100_000, "{seen:?}");
    assert!(seen.refused[8..].iter().all(|&times| times > 10_000), "{seen:?}");
    assert!(seen.finished > 10_000 && seen.nobody_idle > 10_000, "{seen:?}");
}

#[test]
fn large_runs() {
    let mut seen = Seen::default();
    let mut longest = 0;
    for seed in 0..240 {
        let mut rng = Rng::new(seed);
        let shape = SHAPES[seed as usize % 4];
        let policy = 1 + (seed / 4 % 2) as u8;
        let tasks = if seed / 8 % 3 == 0 { 2_047 } else { rng.between(100, 2_047) };
        let finish = rng.pick(&[0, 20, 50, 80, 100]);
        let bytes = tree_with(&mut rng, shape, tasks, finish, Weights::Mixed);
        let mut both = Both::start(&bytes, policy, run_count(&mut rng), seed);
        let list = event_list(&mut rng, both.run.clone(), 10_000);
        longest = longest.max(list.len());
        both.events(&list, 61, &mut seen);
    }
    // A list of single events may be longer than one that is recorded.
    assert!(longest > 8_192, "{longest}");
    assert!(seen.runs > 100_000 && seen.steals > 20_000, "{seen:?}");
    assert!(seen.refused[8..].iter().all(|&times| times > 10_000), "{seen:?}");
    assert!(seen.finished > 50 && seen.nobody_idle > 10_000, "{seen:?}");
}

/// Every spawned task is stolen: 2,047 steals, the last begins phase 2,047. Two workers are enough.
#[test]
fn as_many_steals_as_a_run_can_have() {
    let bytes = flat_tree(2_047);
    for (policy, workers, all) in [(1, 16, 65_535), (2, 16, 65_535), (1, 2, 3), (2, 2, 3)] {
        let case = format!("policy {policy}, {workers} workers");
        let mut seen = Seen::default();
        let mut both = Both::start(&bytes, policy, workers, policy.into());
        let events = all_stolen(both.run.policy, 2_047);
        both.events(&events, 61, &mut seen);
        assert_eq!((seen.runs, seen.steals, seen.finished), (4_095, 2_047, 1), "{case}");
        let state = both.lent.state;
        assert_eq!(state.steals, 2_047, "{case}");
        assert_eq!(state.phase[1], 2_047, "{case}");
        assert_eq!(library::idle(state).set, all, "{case}");
    }
}

// ---- Polls of those who wait ----

/// How often the polls met each case.
#[derive(Default, Debug)]
struct Polls {
    may_run: usize,
    waiting: usize,
    /// Of these: the finish child has ended, and a descendant has not.
    ended: usize,
    /// The steps of the finish child, and how far before the held step the awaited one stands.
    met: BTreeSet<(usize, usize)>,
}

impl Polls {
    fn count(&mut self, run: &Run, held: usize, awaited: usize) {
        let child = run.tree.finish_child_before(held).expect("only behind a finish child is one awaited");
        let first = run.tree.tasks()[child].steps[0];
        self.waiting += 1;
        self.ended += usize::from(awaited < held - 1);
        self.met.insert((held - first, held - awaited));
    }

    /// In how many ways the polls met children that are longer.
    fn longer_than(&self, steps: usize) -> usize {
        self.met.iter().filter(|(child, _)| *child > steps).count()
    }
}

impl Both<'_> {
    /// Every worker tries to run its step, and those who wait try again, as a host's may. Whoever waits for a step is refused
    /// with 10 and changes no byte; whoever holds another step may run, on a copy.
    fn poll(&mut self, polls: &mut Polls) {
        let at = self.at;
        let given = state_bytes(&self.lent.state);
        for w in 0..self.run.workers.len() as u8 {
            let held = self.run.workers[usize::from(w)].held;
            match (held, self.run.awaited(w.into())) {
                (Some(held), Some(awaited)) => {
                    for _ in 0..3 {
                        let got = self.lent.event(self.tree, w, w, at);
                        assert_eq!(numbers(&got.outcome), [10, 0, 0, 0, 0], "{at}: worker {w} at {held} waits for {awaited}");
                    }
                    polls.count(&self.run, held, awaited);
                }
                _ => {
                    let got = both_ways(&mut self.lent.state.clone(), self.tree, w, w, at);
                    assert_eq!(got.outcome.number, if held.is_some() { 0 } else { 9 }, "{at}: worker {w} at {held:?}");
                    polls.may_run += usize::from(held.is_some());
                }
            }
        }
        same_bytes(&state_bytes(&self.lent.state), &given, "state after polls", format_args!("{at}"));
    }

    /// One event to both that both accept.
    fn accept(&mut self, event: [u8; 2]) {
        let [first, second] = event;
        let got = library::event_in_place(&mut self.lent.state, self.tree, first, second);
        assert_eq!((got.number, self.run.judge(first, second)), (0, 0), "{}: {first} {second}", self.at);
        self.run.event(first, second).expect("the event is accepted");
    }

    /// All events that can be had while these steps do not run, then polls.
    fn all_but(&mut self, kept: &[usize], polls: &mut Polls) {
        for event in run_all_but(&mut self.run.clone(), kept) {
            self.accept(event);
        }
        self.whole_view();
        self.poll(polls);
    }
}

/// A random run of the tree to its end, with a poll of every worker after every event.
fn polled_run(rng: &mut Rng, bytes: &[u8], seed: u64, polls: &mut Polls) {
    let (policy, workers) = (rng.between(1, 2) as u8, run_count(rng));
    let mut both = Both::start(bytes, policy, workers, seed);
    let plan = Plan { steals: rng.pick(&[30, 60, 95]), ..Plan::any(rng, workers.into()) };
    for tried in drive(rng, &mut both.run.clone(), &plan) {
        both.event(tried.event, &mut Seen::default());
        both.poll(polls);
    }
    both.whole_view();
    assert!(both.run.finished(), "seed {seed}");
}

#[test]
fn polls_in_small_runs() {
    let mut polls = Polls::default();
    for seed in 0..1_500 {
        let mut rng = Rng::new(seed);
        let tasks = if rng.percent(10) { rng.below(150) } else { rng.below(25) };
        let bytes = finish_tree(&mut rng, tasks);
        polled_run(&mut rng, &bytes, seed, &mut polls);
    }
    assert!(polls.may_run > 80_000 && polls.waiting > 80_000 && polls.ended > 15_000, "{polls:?}");
    assert!(polls.longer_than(64) > 250 && polls.longer_than(128) > 150, "{polls:?}");
}

#[test]
fn polls_in_large_runs() {
    let mut polls = Polls::default();
    for seed in 0..20 {
        let mut rng = Rng::new(seed);
        let tasks = rng.between(150, 2_047);
        let bytes = finish_tree(&mut rng, tasks);
        polled_run(&mut rng, &bytes, seed, &mut polls);
    }
    assert!(polls.may_run > 100_000 && polls.waiting > 50_000 && polls.ended > 15_000, "{polls:?}");
    assert!(polls.longer_than(256) > 400, "{polls:?}");
}

/// Some steps stay behind for as long as can be, and then run one after the other.
#[test]
fn polls_with_steps_left_for_last() {
    let mut polls = Polls::default();
    for seed in 0..1_000 {
        let mut rng = Rng::new(seed);
        let tasks = if rng.percent(2) { rng.between(150, 2_047) } else { rng.below(150) };
        let bytes = finish_tree(&mut rng, tasks);
        let policy = rng.between(1, 2) as u8;
        let mut both = Both::start(&bytes, policy, run_count(&mut rng), seed);
        let mut kept: Vec<usize> = (0..rng.between(1, 6)).map(|_| rng.below(bytes.len() / 8)).collect();
        while !kept.is_empty() {
            both.all_but(&kept, &mut polls);
            kept.swap_remove(rng.below(kept.len()));
        }
        both.all_but(&[], &mut polls);
        assert!(both.run.finished(), "seed {seed}");
    }
    assert!(polls.waiting > 5_000 && polls.ended > 1_000, "{polls:?}");
    assert!(polls.longer_than(256) > 80, "{polls:?}");
}

/// These steps of the child run last. Until then whoever holds the step behind it waits for the highest of them.
fn left_for_last(seed: u64, policy: u8, pile: Pile, left: &[usize], polls: &mut Polls) {
    let bytes = pile.tree();
    let behind = pile.behind();
    // One waits, and one more than those that hold what is left can go on.
    let workers = Rng::new(seed).between(left.len() + 2, 8) as u8;
    let mut both = Both::start(&bytes, policy, workers, seed);
    both.all_but(left, polls);
    assert!((1..behind).all(|step| both.run.ran[step] != left.contains(&step)), "seed {seed}");
    assert_eq!(both.run.awaited_before(behind), left.iter().copied().max(), "seed {seed}");
    both.all_but(&[behind], polls);
    assert_eq!(both.run.awaited_before(behind), None, "seed {seed}");
    both.all_but(&[], polls);
    assert!(both.run.finished(), "seed {seed}");
}

/// Every end in a finish child is left for last: so the awaited step is met at every distance from the held one.
#[test]
fn one_step_left_for_last() {
    let mut polls = Polls::default();
    let mut seed = 0;
    for pile in piles() {
        for (policy, left) in [1, 2].into_iter().flat_map(|policy| pile.ends().into_iter().map(move |left| (policy, left))) {
            left_for_last(seed, policy, pile, &[left], &mut polls);
            seed += 1;
        }
    }
    // A child's first step is no end, unless it is all there is.
    let mut distances = piles::lengths().flat_map(|steps| (1..steps.max(2)).map(move |distance| (steps, distance)));
    assert!(distances.all(|met| polls.met.contains(&met)), "{polls:?}");
}

/// In large children, an end near a multiple of 64 steps from either end of the child, and some lower ones.
#[test]
fn steps_left_for_last_in_large_children() {
    let mut polls = Polls::default();
    for seed in 0..90 {
        let mut rng = Rng::new(seed);
        let steps = [511, 513, 1_023, 1_025, 2_047, 4_093][seed as usize % 6];
        let pile = Pile { steps, singles: rng.below(2) };
        let ends = pile.ends();
        let near = |&step: &usize| [0, 1, 63].iter().any(|&rest| step % 64 == rest || (pile.behind() - step) % 64 == rest);
        let near: Vec<usize> = ends.iter().copied().filter(near).collect();
        let highest = rng.pick(&near);
        let lower = (0..rng.below(4)).map(|_| rng.pick(&ends)).filter(|&step| step < highest);
        let left: Vec<usize> = lower.chain([highest]).collect();
        left_for_last(seed, rng.between(1, 2) as u8, pile, &left, &mut polls);
    }
    assert!(polls.longer_than(256) > 80, "{polls:?}");
}

/// The worked cases of the awaited step.
#[test]
fn worked_cases_of_the_awaited_step() {
    for (k, (policy, kinds, events, _, _, waiting)) in awaited::CASES.into_iter().enumerate() {
        let bytes = tree_of_kinds(kinds);
        let mut both = Both::start(&bytes, policy, 4, k as u64);
        both.events(events, 1, &mut Seen::default());
        both.poll(&mut Polls::default());
        for w in 0..4 {
            let number = library::event(both.lent.state, &bytes, w, w).outcome.number;
            assert_eq!(number == 10, waiting.contains(&w), "case {k}, worker {w}: {number}");
        }
    }
}

// ---- Document 01's cases ----

/// An event of tree S, what it answers, who is idle then, and the state: the seven steps' places, and the first three
/// workers' held step, phase, low and base.
struct Row {
    event: [u8; 2],
    answer: [usize; 5],
    idle: [usize; 3],
    place: [u8; 7],
    held: [u16; 3],
    phase: [u16; 3],
    low: [u16; 3],
    base: [u16; 3],
    steals: u16,
}

const S: [u8; 7] = [1, 3, 2, 1, 3, 3, 3];
const NO: u16 = NO_STEP;

const P1: [Row; 10] = [
    Row {
        event: [0, 0],
        answer: [0, 1, 0, 0, 0],
        idle: [65_534, 15, 1],
        place: [0, 17, 17, 17, 17, 17, 17],
        held: [1, NO, NO],
        phase: [0, 0, 0],
        low: [0, 0, 0],
        base: [0, 0, 0],
        steals: 0,
    },
    Row {
        event: [1, 0],
        answer: [0, 2, 0, 0, 1],
        idle: [65_532, 14, 2],
        place: [16, 17, 17, 17, 17, 17, 17],
        held: [1, 2, NO],
        phase: [0, 1, 0],
        low: [1, 2, 0],
        base: [0, 1, 0],
        steals: 1,
    },
    Row {
        event: [1, 1],
        answer: [0, 1, 1, 2, 0],
        idle: [65_532, 14, 2],
        place: [16, 17, 1, 17, 17, 17, 17],
        held: [1, 3, NO],
        phase: [0, 1, 0],
        low: [1, 2, 0],
        base: [0, 1, 0],
        steals: 1,
    },
    Row {
        event: [2, 1],
        answer: [0, 2, 0, 0, 2],
        idle: [65_528, 13, 3],
        place: [16, 17, 16, 17, 17, 17, 17],
        held: [1, 3, 6],
        phase: [0, 1, 2],
        low: [1, 3, 6],
        base: [0, 0, 2],
        steals: 2,
    },
    Row {
        event: [1, 1],
        answer: [0, 1, 1, 3, 0],
        idle: [65_528, 13, 3],
        place: [16, 17, 16, 1, 17, 17, 17],
        held: [1, 4, 6],
        phase: [0, 1, 2],
        low: [1, 3, 6],
        base: [0, 0, 2],
        steals: 2,
    },
    Row {
        event: [0, 0],
        answer: [0, 1, 0, 1, 0],
        idle: [65_529, 14, 0],
        place: [16, 16, 16, 1, 17, 17, 17],
        held: [NO, 4, 6],
        phase: [0, 1, 2],
        low: [1, 3, 6],
        base: [0, 0, 2],
        steals: 2,
    },
    Row {
        event: [0, 1],
        answer: [0, 2, 0, 0, 1],
        idle: [65_528, 13, 3],
        place: [16, 16, 16, 16, 17, 17, 17],
        held: [5, 4, 6],
        phase: [3, 1, 2],
        low: [5, 4, 6],
        base: [1, 0, 2],
        steals: 3,
    },
    Row {
        event: [0, 0],
        answer: [0, 1, 3, 5, 0],
        idle: [65_529, 14, 0],
        place: [16, 16, 16, 16, 17, 16, 17],
        held: [NO, 4, 6],
        phase: [3, 1, 2],
        low: [5, 4, 6],
        base: [1, 0, 2],
        steals: 3,
    },
    Row {
        event: [1, 1],
        answer: [0, 1, 1, 4, 0],
        idle: [65_531, 15, 0],
        place: [16, 16, 16, 16, 16, 16, 17],
        held: [NO, NO, 6],
        phase: [3, 1, 2],
        low: [5, 4, 6],
        base: [1, 0, 2],
        steals: 3,
    },
    Row {
        event: [2, 2],
        answer: [0, 1, 2, 6, 0],
        idle: [65_535, 16, 0],
        place: [16, 16, 16, 16, 16, 16, 16],
        held: [NO, NO, NO],
        phase: [3, 1, 2],
        low: [5, 4, 6],
        base: [1, 0, 2],
        steals: 3,
    },
];

/// P2's last two events: worker 1 ends its part, and worker 2 waits for worker 0's.
const P2_END: [Row; 2] = [
    Row {
        event: [1, 1],
        answer: [0, 1, 1, 4, 0],
        idle: [65_530, 14, 1],
        place: [16, 16, 16, 16, 16, 17, 17],
        held: [5, NO, 6],
        phase: [3, 1, 2],
        low: [5, 4, 6],
        base: [1, 0, 2],
        steals: 3,
    },
    Row {
        event: [2, 2],
        answer: [10, 0, 0, 0, 0],
        idle: [65_530, 14, 1],
        place: [16, 16, 16, 16, 16, 17, 17],
        held: [5, NO, 6],
        phase: [3, 1, 2],
        low: [5, 4, 6],
        base: [1, 0, 2],
        steals: 3,
    },
];

/// The start, with the row's numbers in it.
fn state_of(row: &Row) -> RunState {
    let mut state = first_state(1, 16);
    state.place[..7].copy_from_slice(&row.place);
    state.held[..3].copy_from_slice(&row.held);
    state.phase[..3].copy_from_slice(&row.phase);
    state.low[..3].copy_from_slice(&row.low);
    state.base[..3].copy_from_slice(&row.base);
    state.steals = row.steals;
    state
}

fn idle_numbers(state: RunState) -> [usize; 3] {
    let idle = library::idle(state);
    [idle.set, idle.count, idle.lowest]
}

fn follow<'a>(case: &str, rows: impl Iterator<Item = &'a Row>) {
    let bytes = tree_of_kinds(&S);
    let started = library::start(&bytes, 1, 16);
    assert_eq!((started.number, started.position), (0, 0), "{case}");
    assert!(started.state == first_state(1, 16), "{case}");
    let mut lent = Lent::new(started.state);
    for (k, row) in rows.enumerate() {
        let got = lent.event(&bytes, row.event[0], row.event[1], format_args!("{case}, event {k}"));
        assert_eq!(numbers(&got.outcome), row.answer, "{case}, event {k}");
        assert_eq!(idle_numbers(got.state), row.idle, "{case}, event {k}");
        assert!(got.state == state_of(row), "{case}, event {k}: another state");
    }
}

#[test]
fn p1_and_p2_event_by_event() {
    follow("P1", P1.iter());
    follow("P2", P1[..7].iter().chain(&P2_END));
}

#[test]
fn p5_to_p7_p10_and_p11() {
    // P5 and P6
    let one = tree_of_kinds(&[3]);
    for policy in [1, 2] {
        let first = library::start(&one, policy, 16).state;
        let ran = library::event(first, &one, 0, 0);
        assert_eq!(numbers(&ran.outcome), [0, 1, 0, 0, 0]);
        assert_eq!(idle_numbers(ran.state), [65_535, 16, 0]);
        assert_eq!(ran.state.place[..2], [16, 17]);
        let again = library::event(ran.state, &one, 0, 0);
        assert_eq!(numbers(&again.outcome), [9, 0, 0, 0, 0]);
        assert!(again.state == ran.state);
    }
    // P7, P10 and P11
    let s = tree_of_kinds(&S);
    for policy in [1, 2] {
        let first = library::start(&s, policy, 16).state;
        assert_eq!(idle_numbers(first), [65_534, 15, 1]);
        let refused = [([1, 0], 12), ([16, 0], 8), ([0, 16], 8), ([16, 16], 8), ([255, 0], 8), ([1, 1], 9), ([0, 1], 11)];
        for (event, number) in refused {
            let got = library::event(first, &s, event[0], event[1]);
            assert_eq!(numbers(&got.outcome), [number, 0, 0, 0, 0], "{event:?}");
            assert!(got.state == first, "{event:?}");
        }
    }
}

/// Gives the events, all accepted.
fn accept_all(mut state: RunState, tree: &[u8], events: &[[u8; 2]]) -> RunState {
    for (k, event) in events.iter().enumerate() {
        let got = library::event(state, tree, event[0], event[1]);
        assert_eq!(got.outcome.number, 0, "event {k}");
        state = got.state;
    }
    state
}

#[test]
fn nobody_idle_and_then_all() {
    for (policy, workers) in (1..=2).flat_map(|policy| (1..=16).map(move |workers| (policy, workers))) {
        let bytes = flat_tree(usize::from(workers) - 1);
        let case = format!("policy {policy}, {workers} workers");
        let mut state = library::start(&bytes, policy, workers).state;
        for thief in 1..workers {
            // Work-first, the latest thief opens the next child; help-first, always worker 0.
            let victim = if policy == 1 { thief - 1 } else { 0 };
            state = accept_all(state, &bytes, &[[victim, victim], [thief, victim]]);
        }
        assert_eq!(idle_numbers(state), [0, 0, 16], "{case}");
        for thief in 0..=workers {
            for victim in (0..=workers).filter(|&victim| victim != thief) {
                let got = library::event(state, &bytes, thief, victim);
                let number = if thief.max(victim) == workers { 8 } else { 11 };
                assert_eq!(numbers(&got.outcome), [number, 0, 0, 0, 0], "{case}, {thief} {victim}");
                assert!(got.state == state, "{case}, {thief} {victim}");
            }
        }
        // Every worker holds an end.
        for worker in (0..workers).rev() {
            state = accept_all(state, &bytes, &[[worker, worker]]);
            let set = (1 << workers) - (1 << worker);
            assert_eq!(idle_numbers(state), [set, (workers - worker).into(), worker.into()], "{case}");
        }
        assert!(state.place[..bytes.len() / 8].iter().all(|&place| place == RUN), "{case}");
        for worker in 0..=workers {
            let number = |small| if worker == workers { 8 } else { small };
            assert_eq!(library::event(state, &bytes, worker, worker).outcome.number, number(9), "{case}");
            if workers > 1 {
                let other = if worker == 0 { 1 } else { 0 };
                assert_eq!(library::event(state, &bytes, worker, other).outcome.number, number(12), "{case}");
            }
        }
    }
}

/// The worked cases of the count, and P1 by three workers, who are all that it names.
#[test]
fn worked_cases_of_the_count() {
    let s = tree_of_kinds(&S);
    for (workers, events, idle) in counts::IDLE {
        let first = library::start(&s, 1, workers).state;
        assert!(first == first_state(1, workers), "{workers} workers");
        assert_eq!(idle_numbers(accept_all(first, &s, events)), idle, "{workers} workers, {events:?}");
    }
    let (mut three, mut sixteen) = (library::start(&s, 1, 3).state, library::start(&s, 1, 16).state);
    for row in &P1 {
        let [first, second] = row.event;
        let outcome = library::event_in_place(&mut three, &s, first, second);
        assert_eq!(outcome, library::event_in_place(&mut sixteen, &s, first, second), "{:?}", row.event);
        assert!(RunState { workers: 16, ..three } == sixteen, "{:?}", row.event);
        assert_eq!(idle_numbers(three)[0], row.idle[0] & 7, "{:?}", row.event);
        for refused in [[3, 3], [3, 1], [1, 3], [16, 16], [0, 255]] {
            assert_eq!(library::event(three, &s, refused[0], refused[1]).outcome.number, 8, "{:?}, {refused:?}", row.event);
        }
    }
}

/// The root's finish child opens an async child, and what follows the finish child waits for both.
#[test]
fn a_waiting_worker() {
    let bytes = tree_of_kinds(&[2, 1, 3, 3, 3]);
    for policy in [1, 2] {
        // Worker 1 takes step 4, and worker 2 what worker 0 pushed inside.
        let first = library::start(&bytes, policy, 16).state;
        let mut state = accept_all(first, &bytes, &[[0, 0], [0, 0], [1, 0], [2, 0]]);
        let inside = if policy == 1 { [2, 3] } else { [3, 2] };
        assert_eq!(state.held[..3], [inside[0], 4, inside[1]], "policy {policy}");
        for (worker, idle) in [(0, [65_528, 13, 3]), (2, [65_529, 14, 0])] {
            // It waits: it is not idle, may not run, and may not steal.
            assert_eq!(idle_numbers(state), idle, "policy {policy}");
            for (event, number) in [([1, 1], 10), ([1, 0], 11), ([1, 3], 11)] {
                let got = library::event(state, &bytes, event[0], event[1]);
                assert_eq!(numbers(&got.outcome), [number, 0, 0, 0, 0], "policy {policy}, {event:?}");
                assert!(got.state == state, "policy {policy}, {event:?}");
            }
            state = accept_all(state, &bytes, &[[worker, worker]]);
        }
        assert_eq!(idle_numbers(state), [65_533, 15, 0], "policy {policy}");
        let got = library::event(state, &bytes, 1, 1);
        assert_eq!(numbers(&got.outcome), [0, 1, 1, 4, 0], "policy {policy}");
        assert_eq!(idle_numbers(got.state), [65_535, 16, 0], "policy {policy}");
    }
}

// ---- Any state and any bytes ----

/// All that an outcome does not answer is 0.
const NOTHING: FrameOutcome = FrameOutcome { number: 0, position: 0, what: 0, phase: 0, step: 0, trace: 0 };

/// The contract of crates/run_state/specs/Contract.antt, by crates/run_spec/specs/Moves.antt. What the tree's bytes say is asked
/// of the library, which is tested on any bytes elsewhere.
struct Contract<'a> {
    tree: &'a [u8],
    state: RunState,
}

impl Contract<'_> {
    fn steps(&self) -> usize {
        self.tree.len() / 8
    }

    /// A count above the most, which no start makes, acts as the most.
    fn workers(&self) -> usize {
        usize::from(self.state.workers).min(WORKERS)
    }

    fn pushes_child(&self, step: usize) -> bool {
        self.state.policy == 2 && library::kind(self.tree, step) == 1
    }

    fn holds(&self, step: usize) -> usize {
        if self.pushes_child(step) {
            library::cont(self.tree, step)
        } else {
            step + 1
        }
    }

    fn pushes(&self, step: usize) -> usize {
        if self.pushes_child(step) {
            step + 1
        } else {
            library::cont(self.tree, step)
        }
    }

    /// The steps from the worker's low to before `end` that are marked with it, ascending.
    fn marked(&self, worker: usize, end: usize) -> Vec<usize> {
        let low = usize::from(self.state.low[worker]);
        (low..end).filter(|&step| usize::from(self.state.place[step]) == worker).collect()
    }

    /// The children opened directly from one step to before another.
    fn children(&self, from: usize, to: usize) -> usize {
        let (mut depth, mut children) = (0_usize, 0);
        for step in from..to {
            if library::kind(self.tree, step) == 3 {
                depth = depth.saturating_sub(1);
            } else {
                children += usize::from(depth == 0);
                depth += 1;
            }
        }
        children
    }

    fn waits(&self, step: usize) -> bool {
        let first = library::finish_before(self.tree, step);
        first != 0 && self.state.place[first..step].contains(&NOT_RUN)
    }

    fn refused(&self, number: usize) -> FrameEvent {
        FrameEvent { outcome: FrameOutcome { number, ..NOTHING }, state: self.state }
    }

    fn run(&self, worker: usize) -> FrameEvent {
        if worker >= self.workers() {
            return self.refused(8);
        }
        if self.steps() > MOST_STEPS {
            return self.refused(2);
        }
        let step = usize::from(self.state.held[worker]);
        if step >= self.steps() {
            return self.refused(9);
        }
        if self.waits(step) {
            return self.refused(10);
        }
        let mut next = self.state;
        if library::kind(self.tree, step) == 3 {
            next.place[step] = RUN;
            match self.marked(worker, step).last() {
                Some(&newest) => {
                    next.place[newest] = RUN;
                    next.held[worker] = self.pushes(newest) as u16;
                }
                None => next.held[worker] = NO_STEP,
            }
        } else {
            next.place[step] = worker as u8;
            next.held[worker] = self.holds(step) as u16;
        }
        let phase = self.state.phase[worker].into();
        FrameEvent { outcome: FrameOutcome { what: 1, phase, step, ..NOTHING }, state: next }
    }

    fn steal(&self, thief: usize, victim: usize) -> FrameEvent {
        if thief >= self.workers() || victim >= self.workers() {
            return self.refused(8);
        }
        if self.steps() > MOST_STEPS {
            return self.refused(2);
        }
        if usize::from(self.state.held[thief]) < self.steps() {
            return self.refused(11);
        }
        let Some(&oldest) = self.marked(victim, self.steps()).first() else {
            return self.refused(12);
        };
        let taken = self.pushes(oldest);
        let phase = self.state.steals % 2_048 + 1;
        let mut next = self.state;
        next.place[oldest] = RUN;
        next.held[thief] = taken as u16;
        next.phase[thief] = phase;
        next.low[victim] = oldest as u16 + 1;
        next.low[thief] = taken as u16;
        next.base[victim] = 0;
        next.base[thief] = 0;
        next.steals = phase;
        let mut trace = taken;
        if self.state.policy == 1 {
            let low = usize::from(self.state.low[victim]);
            trace = usize::from(self.state.base[victim] % 4_096) + self.children(low, oldest) + 1;
            next.base[thief] = trace as u16;
        }
        FrameEvent { outcome: FrameOutcome { what: 2, trace, ..NOTHING }, state: next }
    }

    fn event(&self, first: u8, second: u8) -> FrameEvent {
        if first == second {
            self.run(first.into())
        } else {
            self.steal(first.into(), second.into())
        }
    }

    fn idle(&self) -> FrameIdle {
        let idle: Vec<usize> = (0..self.workers()).filter(|&w| usize::from(self.state.held[w]) >= MOST_STEPS).collect();
        FrameIdle {
            set: idle.iter().map(|&w| 1 << w).sum(),
            count: idle.len(),
            lowest: idle.first().copied().unwrap_or(16),
        }
    }
}

/// The bytes of a state's places; all others follow them.
const PLACE_BYTES: usize = 4_095;

/// Counts that no start makes; the low byte of some is a count.
const DAMAGED_COUNTS: [u16; 9] = [0, 17, 18, 200, 255, 256, 257, 272, 65_535];

fn damaged_count(rng: &mut Rng) -> u16 {
    if rng.percent(70) {
        rng.pick(&DAMAGED_COUNTS)
    } else {
        rng.next() as u16
    }
}

/// A state that a run of the tree leads to.
fn reached(rng: &mut Rng, tree: &[u8], most: usize) -> RunState {
    let (policy, workers) = (rng.between(1, 2) as u8, run_count(rng));
    let run = Run::start(policy, workers, tree).expect("the tree is accepted");
    let most = rng.below(most);
    let list = event_list(rng, run, most);
    let mut state = library::start(tree, policy, workers).state;
    for [first, second] in list {
        state = library::event(state, tree, first, second).state;
    }
    state
}

/// A reached state with so many bytes flipped, most of them where it says something of the tree, and sometimes another count.
fn damaged_state(rng: &mut Rng, state: &RunState, steps: usize, flips: usize) -> RunState {
    let mut bytes = state_bytes(state);
    for _ in 0..flips {
        let at = match rng.below(10) {
            0..=4 => rng.below(steps.clamp(1, PLACE_BYTES)),
            5 => rng.below(PLACE_BYTES),
            _ => rng.between(PLACE_BYTES, STATE_BYTES - 1),
        };
        bytes[at] ^= if rng.percent(50) { 1 << rng.below(8) } else { rng.between(1, 255) as u8 };
    }
    let mut state = state_of_bytes(bytes);
    if rng.percent(15) {
        state.workers = damaged_count(rng);
    }
    state
}

/// Wholly random bytes.
fn random_state(rng: &mut Rng) -> RunState {
    state_of_bytes(std::array::from_fn(|_| rng.next() as u8))
}

/// A step after the end of a finish child, if a few tries find one.
fn after_a_finish_child(rng: &mut Rng, tree: &[u8]) -> usize {
    let any = |rng: &mut Rng| rng.between(0, tree.len() / 8);
    let found = (0..10).map(|_| any(rng)).find(|&step| library::finish_before(tree, step) != 0);
    found.unwrap_or_else(|| any(rng))
}

/// Random numbers about as large as those of a run on these bytes.
fn likely_state(rng: &mut Rng, tree: &[u8]) -> RunState {
    let steps = tree.len() / 8;
    let (least, most) = rng.pick(&[(0, 1), (0, 15), (0, 16), (0, 17), (15, 17), (16, 16)]);
    let mut state = zeros();
    for place in &mut state.place {
        *place = rng.between(least, most) as u8;
    }
    for w in 0..WORKERS {
        state.held[w] = match rng.below(12) {
            0 => rng.next() as u16,
            1 => rng.between(4_090, 4_100) as u16,
            2..=4 => NO_STEP,
            5..=7 => after_a_finish_child(rng, tree) as u16,
            _ => rng.between(0, steps + 1) as u16,
        };
        state.phase[w] = rng.next() as u16;
        state.low[w] = match rng.below(8) {
            0 => rng.next() as u16,
            1 | 2 => 0,
            _ => rng.between(0, steps + 1) as u16,
        };
        state.base[w] = if rng.percent(20) { rng.next() as u16 } else { rng.below(4_100) as u16 };
    }
    state.steals = rng.pick(&[0, 1, 2_046, 2_047, 2_048, 2_049, 65_535, 77]);
    state.policy = rng.pick(&[0, 1, 1, 1, 2, 2, 2, 3, 255]);
    state.workers = if rng.percent(25) { damaged_count(rng) } else { run_count(rng).into() };
    state
}

/// Bytes that are often no tree, of this length.
fn any_bytes(rng: &mut Rng, len: usize) -> Vec<u8> {
    let mut bytes: Vec<u8> = (0..len).map(|_| rng.next() as u8).collect();
    if rng.percent(85) {
        let ends = rng.between(10, 90);
        for record in bytes.chunks_mut(8) {
            record[0] = if rng.percent(ends) { 3 } else { rng.pick(&[1, 2, 1, 2, 1, 2, 0, 7]) };
        }
    }
    bytes
}

/// An event that has a good chance to be accepted, or any.
fn likely_pair(rng: &mut Rng, tree: &[u8], state: &RunState) -> [u8; 2] {
    let steps = tree.len() / 8;
    let count = usize::from(state.workers).clamp(1, WORKERS);
    let pick = |rng: &mut Rng, holds: bool| {
        let holds_one = |&w: &u8| usize::from(state.held[usize::from(w)]) < steps;
        let workers: Vec<u8> = (0..count as u8).filter(|w| holds_one(w) == holds).collect();
        if workers.is_empty() {
            rng.below(count) as u8
        } else {
            rng.pick(&workers)
        }
    };
    match rng.below(10) {
        0..=3 => {
            let worker = pick(rng, true);
            [worker, worker]
        }
        4..=6 => {
            // From a worker that a step is marked with, if a few tries find one.
            let marks: Vec<u8> = (0..40).map(|_| state.place[rng.below(steps.clamp(1, MOST_STEPS))]).collect();
            let victim = marks.into_iter().find(|&mark| usize::from(mark) < count).unwrap_or(0);
            [pick(rng, false), victim]
        }
        _ => any_pair(rng, count),
    }
}

/// The state just before a guard page, or just behind one.
fn lend_state<'a>(room: &'a mut Guarded, state: &RunState, end: bool) -> &'a mut RunState {
    let lent = put(room, &state_bytes(state), end).as_mut_ptr().cast::<RunState>();
    assert!(lent.is_aligned());
    unsafe { &mut *lent }
}

/// Gives events to the state, each to the one that the last handed back, with the tree's bytes and the state before and behind a
/// guard page. Every answer is the contract's.
fn as_the_contract_says(rng: &mut Rng, rooms: &mut Rooms, tree: &[u8], mut state: RunState, seed: u64, seen: &mut Seen) {
    let [before, behind] = &mut rooms.trees;
    let trees: [&[u8]; 2] = [before.at_end(tree), behind.at_start(tree)];
    for k in 0..rng.between(1, 12) {
        let at = At { seed, event: Some(k) };
        let [first, second] = likely_pair(rng, tree, &state);
        let contract = Contract { tree, state };
        let want = contract.event(first, second);
        for (end, given) in [true, false].into_iter().zip(trees) {
            let lent = lend_state(&mut rooms.state, &state, end);
            about_to_call(format_args!("{at}: {first} {second}"));
            assert_eq!(library::idle(*lent), contract.idle(), "{at}");
            let got = both_ways(lent, given, first, second, at);
            assert_eq!(got.outcome, want.outcome, "{at}: {first} {second}");
            assert!(got.state == want.state, "{at}: {first} {second}: another state");
            assert!(given == tree, "{at}: {first} {second}: the tree was changed");
        }
        seen.count(&want.outcome);
        seen.nobody_idle += usize::from(contract.idle().set == 0);
        state = want.state;
    }
}

/// Rooms for a tree before a guard page and behind one, and for a state.
struct Rooms {
    trees: [Guarded; 2],
    state: Guarded,
}

fn rooms() -> Rooms {
    Rooms { trees: room(), state: Guarded::new(STATE_BYTES) }
}

fn room() -> [Guarded; 2] {
    [Guarded::new(45_000), Guarded::new(45_000)]
}

#[test]
fn any_state_with_small_trees() {
    let mut seen = Seen::default();
    let mut rooms = rooms();
    for seed in 0..90_000 {
        let mut rng = Rng::new(seed);
        let tasks = rng.below(30);
        let right = tree(&mut rng, tasks);
        let given = match rng.below(10) {
            0..=4 => right.clone(),
            5 => tree(&mut rng, tasks),
            6 => damaged_tree(&mut rng, tasks),
            7 => {
                // The right tree with a kind changed, or cut.
                let mut bytes = right.clone();
                let at = 8 * rng.below(bytes.len() / 8);
                bytes[at] = rng.pick(&[0, 1, 2, 3, 9]);
                bytes.truncate(rng.between(at, right.len()));
                bytes
            }
            _ => {
                let len = rng.below(400);
                any_bytes(&mut rng, len)
            }
        };
        let state = match rng.below(20) {
            0 => random_state(&mut rng),
            1..=3 => likely_state(&mut rng, &given),
            _ => {
                let state = reached(&mut rng, &right, 4 * (tasks + 1));
                let flips = if rng.percent(10) { 0 } else { rng.between(1, 40) };
                damaged_state(&mut rng, &state, right.len() / 8, flips)
            }
        };
        as_the_contract_says(&mut rng, &mut rooms, &given, state, seed, &mut seen);
    }
    assert!(seen.runs > 50_000 && seen.steals > 20_000, "{seen:?}");
    assert!([2, 8, 9, 10, 11, 12].iter().all(|&number| seen.refused[number] > 1_000), "{seen:?}");
}

#[test]
fn any_state_with_bytes_of_any_length() {
    let mut seen = Seen::default();
    let mut rooms = rooms();
    for seed in 0..12_000 {
        let mut rng = Rng::new(seed);
        let tasks = if rng.percent(40) { rng.below(2_048) } else { rng.below(100) };
        let right = tree(&mut rng, tasks);
        let given = match rng.below(10) {
            0 | 1 => right.clone(),
            2 => damaged_tree(&mut rng, tasks),
            // Around the longest tree.
            3 => {
                let len = rng.between(32_750, 32_780);
                any_bytes(&mut rng, len)
            }
            _ => {
                let len = rng.between(0, 40_000);
                any_bytes(&mut rng, len)
            }
        };
        let state = match rng.below(10) {
            0 => random_state(&mut rng),
            1..=4 => likely_state(&mut rng, &given),
            _ => {
                let state = reached(&mut rng, &right, 400);
                let flips = rng.between(1, 40);
                damaged_state(&mut rng, &state, right.len() / 8, flips)
            }
        };
        as_the_contract_says(&mut rng, &mut rooms, &given, state, seed, &mut seen);
    }
    assert!(seen.runs > 5_000 && seen.steals > 2_000, "{seen:?}");
    assert!([2, 8, 9, 10, 11, 12].iter().all(|&number| seen.refused[number] > 500), "{seen:?}");
}

/// Whoever holds the step behind a finish child waits exactly if one of the child's places is that of a step that has not run,
/// wherever it stands and whatever the others are. No run leads to most of these states.
#[test]
fn one_place_of_a_finish_child() {
    let mut room = Guarded::new(STATE_BYTES);
    let (mut waits, mut runs) = (0, 0);
    let large = [1_023, 4_093].map(|steps| Pile { steps, singles: 1 });
    for (seed, pile) in piles().chain(large).enumerate() {
        let mut rng = Rng::new(seed as u64);
        // Children before it and behind it, so that it begins and ends anywhere.
        let [before, behind] = [(); 2].map(|()| rng.below(40).min((MOST_STEPS - 2 - pile.steps) / 4));
        let kinds = [[1, 3].repeat(before), vec![2], pile.kinds(), [1, 3].repeat(behind), vec![3]].concat();
        let tree = tree_of_kinds(&kinds);
        let first = 2 * before + 1;
        let held = first + pile.steps;
        assert_eq!(library::finish_before(&tree, held), first, "seed {seed}");
        let worker = rng.below(WORKERS) as u8;
        // Some differ in one bit.
        let mixed = std::array::from_fn(|_| rng.pick(&[0, 1, 15, 16, 18, 19, 25, 49, 81, 145, 255]));
        let alike = [RUN, 0, 15, 18, 255].map(|place| [place; MOST_STEPS]);
        for others in alike.into_iter().chain([mixed]) {
            let mut state = RunState { place: others, ..first_state(rng.between(1, 2) as u8, 16) };
            state.held[usize::from(worker)] = held as u16;
            for at in 0..kinds.len() {
                state.place[at] = NOT_RUN;
                let case = format!("seed {seed}, places {}, {at}", others[0]);
                let inside = (first..held).contains(&at);
                let want = Contract { tree: &tree, state }.event(worker, worker);
                assert_eq!(want.outcome.number, if inside { 10 } else { 0 }, "{case}");
                about_to_call(format_args!("{case}"));
                let lent = lend_state(&mut room, &state, at % 2 == 0);
                let got = both_ways(lent, &tree, worker, worker, &case);
                assert!(got == want, "{case}: {:?}, not {:?}", got.outcome, want.outcome);
                state.place[at] = others[at];
                waits += usize::from(inside);
                runs += usize::from(!inside);
            }
        }
    }
    assert!(waits > 40_000 && runs > 10_000, "{waits} {runs}");
}

/// Every damaged count on states that runs lead to, with every pair of workers up to one that no run has: with 0 each event is
/// refused and nobody is idle, with any other the answers are those of 16 and the count is handed on as it is.
#[test]
fn damaged_counts() {
    let mut room = Guarded::new(STATE_BYTES);
    let mut seen = Seen::default();
    for seed in 0..600 {
        let mut rng = Rng::new(seed);
        let tasks = rng.below(20);
        let bytes = tree(&mut rng, tasks);
        let state = reached(&mut rng, &bytes, 4 * (tasks + 1));
        let any = rng.next() as u16;
        for workers in DAMAGED_COUNTS.into_iter().chain([any]) {
            let damaged = RunState { workers, ..state };
            let limit = workers.min(16);
            let acting = RunState { workers: limit, ..state };
            let end = rng.percent(50);
            let lent = lend_state(&mut room, &damaged, end);
            let want = if limit == 0 { FrameIdle { set: 0, count: 0, lowest: 16 } } else { library::idle(acting) };
            assert_eq!(library::idle(*lent), want, "seed {seed}, count {workers}");
            for first in 0..=17 {
                let [second, other] = [rng.below(18) as u8, worker_at_the_edge(&mut rng, 16)];
                for second in [first, second, other] {
                    let case = format!("seed {seed}, count {workers}");
                    about_to_call(format_args!("{case}: {first} {second}"));
                    let lent = lend_state(&mut room, &damaged, end);
                    let got = both_ways(lent, &bytes, first, second, &case);
                    let want = library::event(acting, &bytes, first, second);
                    if u16::from(first.max(second)) >= limit {
                        assert_eq!(numbers(&got.outcome), [8, 0, 0, 0, 0], "{case}: {first} {second}");
                    }
                    assert_eq!(got.outcome, want.outcome, "{case}: {first} {second}");
                    assert!(got.state == RunState { workers, ..want.state }, "{case}: {first} {second}: another state");
                    seen.count(&got.outcome);
                }
            }
        }
    }
    assert!(seen.runs > 1_000 && seen.steals > 1_000, "{seen:?}");
    assert!(seen.refused[8..].iter().all(|&times| times > 1_000), "{seen:?}");
}

/// Too many records: 2, but 8 comes first. One record less, or a few stray bytes, and it is not 2.
#[test]
fn too_many_records() {
    let mut guarded = room();
    let states = [first_state(1, 16), first_state(1, 4)];
    for (len, number) in [(32_760, 0), (32_767, 0), (32_768, 2), (32_775, 2), (40_000, 2)] {
        let plain = [1, 0, 0, 0, 0, 0, 0, 0].repeat(5_000)[..len].to_vec();
        let [before, behind] = &mut guarded;
        let trees: [&[u8]; 2] = [before.at_end(&plain), behind.at_start(&plain)];
        for (tree, state) in trees.into_iter().flat_map(|tree| states.map(|state| (tree, state))) {
            for (event, small) in [([0, 0], 0), ([1, 1], 9), ([0, 1], 11), ([1, 0], 12)] {
                let want = if number == 2 { 2 } else { small };
                let got = library::event(state, tree, event[0], event[1]);
                assert_eq!(got.outcome.number, want, "{len} bytes, {event:?}");
                assert!(want == 0 || got.state == state, "{len} bytes, {event:?}");
            }
            let none = state.workers as u8;
            for event in [[none, none], [none, 0], [0, none], [255, 0]] {
                let got = library::event(state, tree, event[0], event[1]);
                assert_eq!(numbers(&got.outcome), [8, 0, 0, 0, 0], "{len} bytes, {event:?}");
                assert!(got.state == state, "{len} bytes, {event:?}");
            }
        }
    }
}
