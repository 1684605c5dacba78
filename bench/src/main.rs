//! Prints the tables of the benchmarks. `bench/run` builds all that they need and runs this; its words go here:
//!
//! - `record`, `replay`, `histogram`, `event`, `schedule`, `waiting`, `span`: only these tables
//! - `--instructions`, alone or before such words: instructions of calls on the largest trees in place of times
//! - `--call WHAT CONTESTANT SHAPE POLICY WORKERS`, `--call poll CONTESTANT SITUATION POLICY`,
//!   `--call span CONTESTANT SHAPE WEIGHTS`: makes one such call

mod histogram;
mod span;
mod waiting;

use std::hint::black_box;
use std::process::Command;

use frame_bench::cases::{
    maker_seed, schedule, tree, tree_with_classes, Shape, Way, COUNTS, LARGEST, POLICIES, RUN_WORKERS, SEEDS, SHAPES,
    WAITING_SHAPES, WAYS, WORKERS,
};
use frame_bench::library::{self, FrameRecord, FrameReplay, FrameSchedule, RunState};
use frame_bench::live::Live;
use frame_bench::times::{divided, geometric_mean, least, medians, most, turn, Contestant};
use frame_bench::tuned;
use frame_tests::random::robbed_in_turn;
use frame_tests::record::{record, record_to_vecs, EVENT_BYTES};
use frame_tests::replay::{replay, MAX_TRACE, TRACE_BYTES};
use frame_tests::schedule::{self as maker, most_events};
use frame_tests::tree::{MAX_OPEN, TREE_RECORD};
use frame_tests::{Policy, Run};
use histogram::HistogramCase;

// ---- Tables ----

/// What tells cases of one table apart.
struct Row {
    /// Or the way in which the steps got their classes.
    shape: &'static str,
    n: usize,
    policy: &'static str,
    workers: usize,
    units: usize,
    steals: usize,
}

impl Row {
    /// Of a case by the sums over its inputs: a row has their means.
    fn new(shape: &'static str, n: usize, policy: &'static str, workers: usize, units: usize, steals: usize) -> Row {
        let inputs = SEEDS.count();
        Row { shape, n, policy, workers, units: units / inputs, steals: steals / inputs }
    }

    fn label(&self) -> String {
        let Row { shape, n, policy, workers, units, steals } = self;
        format!("{shape:9}{n:>5}  {policy:10}{workers:>8}{units:>8}{steals:>8}")
    }
}

/// The columns after the first, the tuned baseline, which all ratios of the library are taken to. The last is the simulator.
struct Table<const N: usize> {
    columns: [&'static str; N],
    /// For each size the times of its cases, by column.
    sizes: Vec<(usize, [Vec<f64>; N])>,
}

impl<const N: usize> Table<N> {
    /// Prints the heading. `units` is what a number is divided by.
    fn new(what: &str, units: &str, columns: [&'static str; N]) -> Table<N> {
        let label = format!("{:9}{:>5}  {:10}{:>8}{units:>8}{:>8}", "shape", "n", "policy", "workers", "steals");
        Table::labelled(&format!("{what}, by {units}"), &label, columns)
    }

    /// The same where other things tell the cases apart. A label has 50 letters.
    fn labelled(what: &str, label: &str, columns: [&'static str; N]) -> Table<N> {
        println!("{what}");
        print!("{label}");
        Table::<N>::headings(&columns);
        Table { columns, sizes: Vec::new() }
    }

    fn headings(columns: &[&'static str; N]) {
        columns.iter().for_each(|column| print!("{column:>11}"));
        columns[1..N - 1].iter().for_each(|column| print!("{:>20}", format!("{column}/tuned")));
        println!("{:>20}", format!("simulator/{}", columns[1]));
    }

    /// Ratios of the library's columns to the baseline, and of the simulator to the first of them.
    fn ratios(times: &[Vec<f64>; N]) -> Vec<Vec<f64>> {
        let to_tuned = times[1..N - 1].iter().map(|library| divided(library, &times[0]));
        to_tuned.chain([divided(&times[N - 1], &times[1])]).collect()
    }

    /// Prints a case's line.
    fn line(&mut self, row: &Row, times: [f64; N]) {
        self.labelled_line(row.n, &row.label(), times);
    }

    fn labelled_line(&mut self, n: usize, label: &str, times: [f64; N]) {
        self.print_labelled(label, times);
        if self.sizes.last().is_none_or(|(size, _)| *size != n) {
            self.sizes.push((n, [const { Vec::new() }; N]));
        }
        let (_, size) = self.sizes.last_mut().expect("a size was pushed");
        size.iter_mut().zip(times).for_each(|(times, time)| times.push(time));
    }

    /// The line alone: the case does not count in the means.
    fn print(&self, row: &Row, times: [f64; N]) {
        self.print_labelled(&row.label(), times);
    }

    fn print_labelled(&self, label: &str, times: [f64; N]) {
        print!("{label}");
        times.iter().for_each(|time| print!("{time:>11.2}"));
        let ratios = Table::ratios(&times.map(|time| vec![time]));
        ratios.iter().for_each(|ratio| print!("{:>20.2}", ratio[0]));
        println!();
    }

    /// Prints the means of each size.
    fn summary(&self) {
        println!("geometric means over the cases of each n; of the ratios also the least and the most:");
        print!("{:>50}", "n");
        Table::<N>::headings(&self.columns);
        for (n, times) in &self.sizes {
            print!("{n:>50}");
            times.iter().for_each(|times| print!("{:>11.2}", geometric_mean(times)));
            for ratio in Table::ratios(times) {
                let range = format!("({}..{})", rounded(least(&ratio), 1), rounded(most(&ratio), 1));
                print!("{:>20}", format!("{} {range}", rounded(geometric_mean(&ratio), 2)));
            }
            println!();
        }
        let ((least, first), (most, last)) = (&self.sizes[0], &self.sizes[self.sizes.len() - 1]);
        if most > least {
            print!("{:>50}", format!("growth from {least} to {most}"));
            for (last, first) in last.iter().zip(first) {
                print!("{:>11.2}", geometric_mean(&divided(last, first)));
            }
            println!();
        }
        println!();
    }
}

/// With so many places, or none where the number is long.
fn rounded(number: f64, places: usize) -> String {
    let places = if number < 1_000.0 { places } else { 0 };
    format!("{number:.places$}")
}

/// The columns where the library has one.
const CONTESTANTS: [&str; 3] = ["tuned", "library", "simulator"];

/// The sizes between which growth is taken.
const GROWTH: [usize; 2] = [COUNTS[1], LARGEST];

/// The times of cases of both sizes, by contestant.
struct Growth {
    sizes: [[Vec<f64>; CONTESTANTS.len()]; GROWTH.len()],
}

impl Growth {
    fn new() -> Growth {
        Growth { sizes: GROWTH.map(|_| [const { Vec::new() }; CONTESTANTS.len()]) }
    }

    /// A case of another size does not count.
    fn add(&mut self, n: usize, times: [f64; CONTESTANTS.len()]) {
        if let Some(size) = GROWTH.iter().position(|&size| size == n) {
            self.sizes[size].iter_mut().zip(times).for_each(|(times, time)| times.push(time));
        }
    }

    /// Prints the means, and the most of a case.
    fn print(&self, what: &str) {
        let [first, last] = &self.sizes;
        let growth: Vec<_> = last.iter().zip(first).map(|(last, first)| divided(last, first)).collect();
        print!("{:>50}", format!("growth from {} to {} {what}", GROWTH[0], GROWTH[1]));
        growth.iter().for_each(|growth| print!("{:>11.2}", geometric_mean(growth)));
        print!("\n{:>50}", "the most of a case");
        growth.iter().for_each(|growth| print!("{:>11.2}", most(growth)));
        println!();
    }
}

/// The times of calls on inputs that have so many units in all.
fn times_of<I, A, const N: usize>(inputs: &mut [I], units: usize, calls: [fn(&mut I) -> A; N]) -> [f64; N] {
    let turns = calls.map(|call| move |inputs: &mut [I]| turn(inputs, units, |_| (), |input, ()| _ = black_box(call(input))));
    medians(inputs, turns.each_ref().map(|turn| turn as Contestant<I>))
}

// ---- Recording ----

struct RecordCase {
    tree: Vec<u8>,
    policy: u8,
    events: Vec<u8>,
    log: Vec<u8>,
    trace: Vec<u8>,
}

impl RecordCase {
    /// The events are accepted and finish the run.
    fn new(tree: Vec<u8>, policy: u8, workers: usize, seed: u64) -> RecordCase {
        let start = Run::start(policy, RUN_WORKERS, &tree).expect("the tree is accepted");
        RecordCase::of_events(tree, policy, schedule(&start, workers, seed))
    }

    fn of_events(tree: Vec<u8>, policy: u8, events: Vec<u8>) -> RecordCase {
        let n = tree.len() / TREE_RECORD;
        RecordCase { tree, policy, events, log: vec![0; 4 * n], trace: vec![0; 2 * (n - 1)] }
    }

    fn events(&self) -> usize {
        self.events.len() / EVENT_BYTES
    }

    fn tuned(&mut self) -> FrameRecord {
        tuned::record(black_box(&self.tree), self.policy, RUN_WORKERS, &self.events, &mut self.log, &mut self.trace)
    }

    fn library(&mut self) -> FrameRecord {
        library::record(black_box(&self.tree), self.policy, RUN_WORKERS, &self.events, &mut self.log, &mut self.trace)
    }

    fn simulator(&mut self) -> FrameRecord {
        record(self.policy, RUN_WORKERS, black_box(&self.tree), &self.events, &mut self.log, &mut self.trace).into()
    }

    /// All three give the same answer and the same outputs, and all steps have run. Gives the count of steals.
    fn check(&mut self) -> usize {
        let want = (self.simulator(), self.log.clone(), self.trace.clone());
        for call in [RecordCase::tuned, RecordCase::library] {
            self.log.fill(255);
            self.trace.fill(255);
            assert_eq!((call(self), &self.log), (want.0, &want.1));
            assert_eq!(self.trace[..4 * want.0.steals], want.2[..4 * want.0.steals]);
        }
        assert_eq!((want.0.number, want.0.finished), (0, 1));
        want.0.steals
    }

    /// The sums of events and of steals, and the times.
    fn times(inputs: &mut [RecordCase]) -> (usize, usize, [f64; 3]) {
        let (units, steals) = inputs.iter_mut().fold((0, 0), |sum, case| (sum.0 + case.events(), sum.1 + case.check()));
        (units, steals, times_of(inputs, units, [RecordCase::tuned, RecordCase::library, RecordCase::simulator]))
    }
}

fn record_table() {
    let mut table = Table::new("record, ns", "events", CONTESTANTS);
    for_each_case(|shape, n, (policy, byte), workers| {
        let case = |seed| RecordCase::new(tree(shape, n, seed), byte, workers, seed);
        let (units, steals, times) = RecordCase::times(&mut SEEDS.map(case).collect::<Vec<_>>());
        table.line(&Row::new(shape.0, n, policy, workers, units, steals), times);
    });
    table.summary();
    println!("record of random trees with classes, {CLASS_WAYS}");
    for_each_way(|way, (policy, byte)| {
        let case = |seed| RecordCase::new(tree_with_classes(way, seed), byte, CLASS_WORKERS, seed);
        let (units, steals, times) = RecordCase::times(&mut SEEDS.map(case).collect::<Vec<_>>());
        table.print(&Row::new(way.0, LARGEST, policy, CLASS_WORKERS, units, steals), times);
    });
    println!();
}

// ---- Replay ----

struct ReplayCase {
    tree: Vec<u8>,
    policy: u8,
    /// Accepted.
    trace: Vec<u8>,
    list: Vec<u8>,
}

impl ReplayCase {
    fn new(tree: Vec<u8>, policy: u8, trace: Vec<u8>) -> ReplayCase {
        let list = vec![0; 4 * (tree.len() / TREE_RECORD)];
        ReplayCase { tree, policy, trace, list }
    }

    /// The trace of a run by so many workers.
    fn of_run(tree: Vec<u8>, policy: u8, workers: usize, seed: u64) -> ReplayCase {
        let start = Run::start(policy, RUN_WORKERS, &tree).expect("the tree is accepted");
        let (_, _, trace) = record_to_vecs(policy, RUN_WORKERS, &tree, &schedule(&start, workers, seed));
        ReplayCase::new(tree, policy, trace)
    }

    /// Every spawned task is stolen, and most ranges are long; so many tasks stand one in another.
    fn of_thieves(policy: u8, spine: usize) -> ReplayCase {
        let reading = Policy::parse(policy).expect("the policy is one");
        let (tree, trace) = robbed_in_turn(reading, spine, MAX_TRACE - spine);
        ReplayCase::new(tree, policy, trace)
    }

    fn steps(&self) -> usize {
        self.tree.len() / TREE_RECORD
    }

    fn tuned(&mut self) -> FrameReplay {
        tuned::replay(black_box(&self.tree), self.policy, RUN_WORKERS, &self.trace, &mut self.list)
    }

    fn library(&mut self) -> FrameReplay {
        library::replay(black_box(&self.tree), self.policy, RUN_WORKERS, &self.trace, &mut self.list)
    }

    fn simulator(&mut self) -> FrameReplay {
        replay(self.policy, RUN_WORKERS, black_box(&self.tree), &self.trace, &mut self.list).into()
    }

    /// All three give the same answer and the same list.
    fn check(&mut self) {
        let want = (self.simulator(), self.list.clone());
        for call in [ReplayCase::tuned, ReplayCase::library] {
            self.list.fill(255);
            assert_eq!((call(self), &self.list), (want.0, &want.1));
        }
        assert_eq!((want.0.number, want.0.phases), (0, self.trace.len() / TRACE_BYTES + 1));
    }

    fn steals(&self) -> usize {
        self.trace.len() / TRACE_BYTES
    }

    /// The sums of steps and of steals, and the times.
    fn times(inputs: &mut [ReplayCase]) -> (usize, usize, [f64; 3]) {
        inputs.iter_mut().for_each(ReplayCase::check);
        let (units, steals) = inputs.iter().fold((0, 0), |sum, case| (sum.0 + case.steps(), sum.1 + case.steals()));
        (units, steals, times_of(inputs, units, [ReplayCase::tuned, ReplayCase::library, ReplayCase::simulator]))
    }
}

/// How many tasks stand one in another where thieves are robbed in turn: none, and as many as leave room for one child more.
const SPINES: [(&str, usize); 2] = [("flat", 0), ("deep", MAX_OPEN - 2)];

fn replay_table() {
    let mut table = Table::new("replay, ns", "steps", CONTESTANTS);
    for_each_case(|shape, n, (policy, byte), workers| {
        let case = |seed| ReplayCase::of_run(tree(shape, n, seed), byte, workers, seed);
        let (units, steals, times) = ReplayCase::times(&mut SEEDS.map(case).collect::<Vec<_>>());
        table.line(&Row::new(shape.0, n, policy, workers, units, steals), times);
    });
    table.summary();
    println!(
        "replay where thieves are robbed in turn of all but their first child: the most steals, and long ranges (one input)"
    );
    for (name, spine) in SPINES {
        for (policy, byte) in POLICIES {
            let (units, steals, times) = ReplayCase::times(&mut [ReplayCase::of_thieves(byte, spine)]);
            table.print(&Row { shape: name, n: units, policy, workers: 16, units, steals }, times);
        }
    }
    println!("\nreplay of random trees with classes, {CLASS_WAYS}");
    for_each_way(|way, (policy, byte)| {
        let case = |seed| ReplayCase::of_run(tree_with_classes(way, seed), byte, CLASS_WORKERS, seed);
        let (units, steals, times) = ReplayCase::times(&mut SEEDS.map(case).collect::<Vec<_>>());
        table.print(&Row::new(way.0, LARGEST, policy, CLASS_WORKERS, units, steals), times);
    });
    println!();
}

// ---- Single events ----

struct EventCase {
    tree: Vec<u8>,
    policy: u8,
    state: RunState,
    run: Run,
    /// All accepted; they finish the run.
    events: Vec<[u8; EVENT_BYTES]>,
}

impl EventCase {
    fn new(tree: Vec<u8>, policy: u8, workers: usize, seed: u64) -> EventCase {
        let state = library::start(&tree, policy, RUN_WORKERS).state;
        let run = Run::start(policy, RUN_WORKERS, &tree).expect("the tree is accepted");
        let events = schedule(&run, workers, seed).chunks(EVENT_BYTES).map(|event| [event[0], event[1]]).collect();
        EventCase { tree, policy, state, run, events }
    }

    fn tuned_start(&self) -> tuned::Run<'_> {
        tuned::Run::start(&self.tree, self.policy, RUN_WORKERS).expect("the tree is accepted")
    }

    // The first three begin with a new state; the simulator's is made beforehand, because it takes long.

    fn tuned(&self, run: &mut tuned::Run) {
        run.restart();
        for &[first, second] in &self.events {
            black_box(&run.event(first, second));
        }
    }

    fn by_value(&self, state: &mut RunState) {
        *state = self.state;
        for &[first, second] in &self.events {
            let answer = library::event(*state, &self.tree, first, second);
            *state = answer.state;
        }
    }

    fn in_place(&self, state: &mut RunState) {
        *state = self.state;
        for &[first, second] in &self.events {
            black_box(&library::event_in_place(state, &self.tree, first, second));
        }
    }

    fn simulator(&self, run: &mut Run) {
        for &[first, second] in &self.events {
            black_box(run.event(first, second).is_ok());
        }
    }

    /// All give each event the same answer, no refusal, and in the end all steps have run. Gives the count of steals.
    fn check(&self) -> usize {
        let live = Live::after(&self.tree, self.policy, RUN_WORKERS, &self.events);
        assert!(live.run.finished());
        live.run.trace.len()
    }
}

fn event_table() {
    let mut table = Table::new("single event, ns", "events", ["tuned", "in place", "by value", "simulator"]);
    for_each_case(|shape, n, (policy, byte), workers| {
        let cases: Vec<_> = SEEDS.map(|seed| EventCase::new(tree(shape, n, seed), byte, workers, seed)).collect();
        let (units, steals) = cases.iter().fold((0, 0), |sum, case| (sum.0 + case.events.len(), sum.1 + case.check()));
        let inputs: &mut Vec<_> = &mut cases.iter().map(|case| (case, case.tuned_start(), case.state)).collect();
        let times = medians(
            inputs,
            [
                &|inputs| turn(inputs, units, |_| (), |(case, run, _), ()| case.tuned(run)),
                &|inputs| turn(inputs, units, |_| (), |(case, _, state), ()| case.in_place(state)),
                &|inputs| turn(inputs, units, |_| (), |(case, _, state), ()| case.by_value(state)),
                &|inputs| turn(inputs, units, |(case, ..)| case.run.clone(), |(case, ..), run| case.simulator(run)),
            ],
        );
        table.line(&Row::new(shape.0, n, policy, workers, units, steals), times);
    });
    table.summary();
}

// ---- Making schedules ----

struct ScheduleCase {
    tree: Vec<u8>,
    policy: u8,
    workers: u8,
    seed: u32,
    /// What the list is written to.
    events: Vec<u8>,
}

impl ScheduleCase {
    /// A run of so many workers, which all take part.
    fn new(tree: Vec<u8>, policy: u8, workers: usize, seed: u64) -> ScheduleCase {
        let events = vec![0; EVENT_BYTES * most_events(tree.len() / TREE_RECORD)];
        ScheduleCase { tree, policy, workers: workers as u8, seed: maker_seed(seed), events }
    }

    fn tuned(&mut self) -> FrameSchedule {
        tuned::schedule(black_box(&self.tree), self.policy, self.workers, self.seed, &mut self.events)
    }

    fn library(&mut self) -> FrameSchedule {
        library::schedule(black_box(&self.tree), self.policy, self.workers, self.seed, &mut self.events)
    }

    fn simulator(&mut self) -> FrameSchedule {
        maker::schedule(self.policy, self.workers, black_box(&self.tree), self.seed, &mut self.events).into()
    }

    /// All three give the same answer and the same list, and leave the bytes behind it. Gives the counts of events and of steals.
    fn check(&mut self) -> (usize, usize) {
        self.events.fill(255);
        let want = (self.simulator(), self.events.clone());
        for call in [ScheduleCase::tuned, ScheduleCase::library] {
            self.events.fill(255);
            assert_eq!((call(self), &self.events), (want.0, &want.1));
        }
        assert_eq!(want.0.number, 0);
        (want.0.events, want.0.events - self.tree.len() / TREE_RECORD)
    }

    /// The sums of events and of steals, and the times.
    fn times(inputs: &mut [ScheduleCase]) -> (usize, usize, [f64; 3]) {
        let counts = inputs.iter_mut().map(ScheduleCase::check);
        let (units, steals) = counts.fold((0, 0), |sum, counts| (sum.0 + counts.0, sum.1 + counts.1));
        (units, steals, times_of(inputs, units, [ScheduleCase::tuned, ScheduleCase::library, ScheduleCase::simulator]))
    }
}

fn schedule_table() {
    let mut table = Table::new("schedule, ns", "events", CONTESTANTS);
    // There most draws meet an empty deque, which must not be scanned.
    let mut flat = Growth::new();
    for_each_case(|shape, n, (policy, byte), workers| {
        let case = |seed| ScheduleCase::new(tree(shape, n, seed), byte, workers, seed);
        let (units, steals, times) = ScheduleCase::times(&mut SEEDS.map(case).collect::<Vec<_>>());
        table.line(&Row::new(shape.0, n, policy, workers, units, steals), times);
        if shape.0 == "flat" {
            flat.add(n, times);
        }
    });
    table.summary();
    flat.print("in flat trees");
    println!();
}

// ---- All cases ----

fn for_each_case(mut each: impl FnMut(Shape, usize, (&'static str, u8), usize)) {
    for n in COUNTS {
        for shape in SHAPES {
            for policy in POLICIES {
                for workers in WORKERS {
                    each(shape, n, policy, workers);
                }
            }
        }
    }
}

/// How many workers take part where steps have classes.
const CLASS_WORKERS: usize = 4;
const CLASS_WAYS: &str = "any for each step, or mostly one for a task and its children";

fn for_each_way(mut each: impl FnMut(Way, (&'static str, u8))) {
    for way in WAYS {
        for policy in POLICIES {
            each(way, policy);
        }
    }
}

// ---- Instructions ----

/// The name by which `valgrind` knows what it is to count.
#[no_mangle]
#[inline(never)]
fn measured_call(call: &mut dyn FnMut()) {
    call();
}

fn policy_byte(policy: &str) -> u8 {
    POLICIES.into_iter().find(|(name, _)| *name == policy).expect("a policy").1
}

/// Makes one call on a tree of the largest count.
fn make_call(words: &[&str]) {
    let [what, contestant, shape, policy, workers] = words else { panic!("five words, not {words:?}") };
    let shape = SHAPES.into_iter().chain(WAITING_SHAPES).find(|(name, _)| name == shape).expect("a shape");
    let policy = policy_byte(policy);
    let workers = workers.parse().expect("a count of workers");
    let contestant = CONTESTANTS.iter().position(|name| name == contestant).expect("a contestant");
    let seed = SEEDS.start;
    let tree = tree(shape, LARGEST, seed);
    match *what {
        "record" => {
            let mut case = RecordCase::new(tree, policy, workers, seed);
            let call = [RecordCase::tuned, RecordCase::library, RecordCase::simulator][contestant];
            measured_call(&mut || _ = black_box(call(&mut case)));
        }
        "replay" => {
            let mut case = ReplayCase::of_run(tree, policy, workers, seed);
            let call = [ReplayCase::tuned, ReplayCase::library, ReplayCase::simulator][contestant];
            measured_call(&mut || _ = black_box(call(&mut case)));
        }
        "histogram" => {
            let mut case = HistogramCase::new(ReplayCase::of_run(tree, policy, workers, seed), seed);
            let call = [HistogramCase::tuned, HistogramCase::library, HistogramCase::simulator][contestant];
            measured_call(&mut || _ = black_box(call(&mut case)));
        }
        "schedule" => {
            let mut case = ScheduleCase::new(tree, policy, workers, seed);
            let call = [ScheduleCase::tuned, ScheduleCase::library, ScheduleCase::simulator][contestant];
            measured_call(&mut || _ = black_box(call(&mut case)));
        }
        _ => panic!("record, replay, histogram or schedule, not {what}"),
    }
}

/// The instructions of one call, counted by `valgrind`.
fn instructions(words: &[&str]) -> f64 {
    let program = std::env::current_exe().expect("this program has a name");
    let output = Command::new("valgrind")
        .args(["--tool=callgrind", "--callgrind-out-file=/dev/null", "--toggle-collect=measured_call"])
        .arg(program)
        .arg("--call")
        .args(words)
        // Clearing and copying by vectors: an instruction with a repeat prefix would be counted once for each repeat.
        .env("GLIBC_TUNABLES", "glibc.cpu.x86_rep_stosb_threshold=1000000:glibc.cpu.x86_rep_movsb_threshold=1000000")
        .output()
        .expect("valgrind runs");
    let text = String::from_utf8_lossy(&output.stderr);
    let count = text.lines().find_map(|line| line.split_once("Collected :")).and_then(|(_, count)| count.trim().parse().ok());
    count.unwrap_or_else(|| panic!("valgrind counts nothing for {words:?}: {text}"))
}

/// Of these calls the units are steps, of the others events.
const STEP_BY_STEP: [&str; 2] = ["replay", "histogram"];

/// The row of a case, and the instructions of its calls by unit.
fn counted(what: &str, shape: Shape, (policy, byte): (&'static str, u8), workers: usize) -> (Row, [f64; 3]) {
    let seed = SEEDS.start;
    let tree = tree(shape, LARGEST, seed);
    let (events, steals) = if what == "schedule" {
        ScheduleCase::new(tree, byte, workers, seed).check()
    } else {
        let mut case = RecordCase::new(tree, byte, workers, seed);
        (case.events(), case.check())
    };
    let units = if STEP_BY_STEP.contains(&what) { LARGEST } else { events };
    let count = |contestant| instructions(&[what, contestant, shape.0, policy, &workers.to_string()]);
    let counts = CONTESTANTS.map(|contestant| count(contestant) / units as f64);
    (Row { shape: shape.0, n: LARGEST, policy, workers, units, steals }, counts)
}

fn instructions_table(what: &str) {
    let units = if STEP_BY_STEP.contains(&what) { "steps" } else { "events" };
    let mut table = Table::new(&format!("{what}, instructions of a call"), units, CONTESTANTS);
    for shape in SHAPES {
        for policy in POLICIES {
            for workers in WORKERS {
                let (row, counts) = counted(what, shape, policy, workers);
                table.line(&row, counts);
            }
        }
    }
    table.summary();
}

/// Prints the tables that are named, or all.
fn print_tables(tables: &[(&str, fn())], words: &[&str]) {
    for word in words {
        assert!(tables.iter().any(|(name, _)| name == word), "there is no table {word}");
    }
    for (name, table) in tables {
        if words.is_empty() || words.contains(name) {
            table();
        }
    }
}

const TIMES: [(&str, fn()); 7] = [
    ("record", record_table),
    ("replay", replay_table),
    ("histogram", histogram::table),
    ("event", event_table),
    ("schedule", schedule_table),
    ("waiting", waiting::tables),
    ("span", span::table),
];

const INSTRUCTIONS: [(&str, fn()); 6] = [
    ("record", || instructions_table("record")),
    ("replay", || instructions_table("replay")),
    ("histogram", || instructions_table("histogram")),
    ("schedule", || instructions_table("schedule")),
    ("waiting", waiting::instructions_tables),
    ("span", span::instructions_table),
];

fn main() {
    let words: Vec<String> = std::env::args().skip(1).collect();
    let words: Vec<&str> = words.iter().map(String::as_str).collect();
    match words[..] {
        ["--call", "poll", ref words @ ..] => waiting::make_poll(words),
        ["--call", "span", ref words @ ..] => span::make_call(words),
        ["--call", ref words @ ..] => make_call(words),
        ["--instructions", ref words @ ..] => print_tables(&INSTRUCTIONS, words),
        _ => print_tables(&TIMES, &words),
    }
}
