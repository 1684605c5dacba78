//! What it costs to ask whether a step waits: trees with large finish children, where the steps behind them are stolen.

use std::array::from_fn;
use std::hint::black_box;
use std::iter::repeat_n;

use frame_bench::cases::{tree, Shape, ASYNC, LARGEST, PILE, POLICIES, RUN_WORKERS, SEEDS, WAITING_SHAPES};
use frame_bench::library;
use frame_bench::live::Live;
use frame_bench::times::{median, rounds, turn_by, Contestant};
use frame_tests::record::EVENT_BYTES;
use frame_tests::Run;

use crate::{counted, instructions, measured_call, policy_byte, RecordCase, Row, ScheduleCase, Table, CONTESTANTS};

pub fn tables() {
    record_table();
    poll_table();
    schedule_table();
}

pub fn instructions_tables() {
    record_instructions_table();
    poll_instructions_table();
}

// ---- Recording, and making schedules ----

/// How many workers take part.
const WORKERS: [usize; 3] = [2, 4, 16];

fn for_each_case(mut each: impl FnMut(Shape, (&'static str, u8), usize)) {
    for shape in WAITING_SHAPES {
        for policy in POLICIES {
            for workers in WORKERS {
                each(shape, policy, workers);
            }
        }
    }
}

/// How many of the stolen steps stand behind a finish child.
fn stolen_behind_finish(case: &RecordCase) -> usize {
    let mut run = Run::start(case.policy, RUN_WORKERS, &case.tree).expect("the tree is accepted");
    for event in case.events.chunks(EVENT_BYTES) {
        run.event(event[0], event[1]).expect("the event is accepted");
    }
    run.phases[1..].iter().filter(|phase| run.tree.finish_child_before(phase.first).is_some()).count()
}

/// The most that there can be: of children one in another the outer ones are stolen first, and each thief waits for all inside.
fn most_behind_finish((shape, _): Shape, workers: usize) -> usize {
    if shape == PILE.0 {
        1
    } else {
        workers - 1
    }
}

fn record_table() {
    let table = Table::new("record where workers wait, ns", "events", CONTESTANTS);
    for_each_case(|shape, (policy, byte), workers| {
        let case = |seed| RecordCase::new(tree(shape, LARGEST, seed), byte, workers, seed);
        let inputs = &mut SEEDS.map(case).collect::<Vec<_>>();
        inputs.iter().for_each(|case| assert_eq!(stolen_behind_finish(case), most_behind_finish(shape, workers)));
        let (units, steals, times) = RecordCase::times(inputs);
        table.print(&Row::new(shape.0, LARGEST, policy, workers, units, steals), times);
    });
    println!();
}

fn record_instructions_table() {
    let table = Table::new("record where workers wait, instructions of a call", "events", CONTESTANTS);
    for_each_case(|shape, policy, workers| {
        let (row, counts) = counted("record", shape, policy, workers);
        table.print(&row, counts);
    });
    println!();
}

fn schedule_table() {
    let table = Table::new("schedule where workers wait, ns", "events", CONTESTANTS);
    for_each_case(|shape, (policy, byte), workers| {
        let case = |seed| ScheduleCase::new(tree(shape, LARGEST, seed), byte, workers, seed);
        let (units, steals, times) = ScheduleCase::times(&mut SEEDS.map(case).collect::<Vec<_>>());
        table.print(&Row::new(shape.0, LARGEST, policy, workers, units, steals), times);
    });
    println!();
}

// ---- The run that is polled ----

/// The steps of the pile's child, and how many of them are leaves: each is opened by another step, and one ends the child.
const CHILD: usize = LARGEST - 2;
const LEAVES: usize = (CHILD - 1) / 2;
/// The step behind the child. Worker 1 holds it, and its run is the poll.
const BEHIND: usize = LARGEST - 1;
const POLL: [u8; EVENT_BYTES] = [1, 1];
/// The run of a worker that is idle.
const IDLE: [u8; EVENT_BYTES] = [15, 15];
const WORK_FIRST: u8 = POLICIES[0].1;

type Events = Vec<[u8; EVENT_BYTES]>;

/// How the run stands at the poll.
struct Situation {
    name: &'static str,
    /// How many parts of the run are over.
    parts: usize,
    /// The parts depend on a leaf, one of the first so many.
    leaves: usize,
    /// What the poll is refused with, 0 for none.
    number: usize,
}

const SITUATIONS: [Situation; 4] = [
    Situation { name: "end not run", parts: 1, leaves: LEAVES, number: 10 },
    Situation { name: "end run, a leaf not", parts: 2, leaves: LEAVES, number: 10 },
    Situation { name: "end run, first leaf not", parts: 2, leaves: 1, number: 10 },
    Situation { name: "all run", parts: 3, leaves: LEAVES, number: 0 },
];

impl Situation {
    fn events(&self, policy: u8, leaf: usize) -> Events {
        let begun = vec![[0, 0], [1, 0]];
        [begun].into_iter().chain(parts(policy, leaf).into_iter().take(self.parts)).flatten().collect()
    }
}

/// The child's run in three parts: until worker 0 is to open the leaf, until all steps behind that leaf have run, and to the end.
/// Under work-first a thief has the rest of the child once the leaf is open; under help-first worker 0 runs the leaves last, the
/// newest first.
fn parts(policy: u8, leaf: usize) -> [Events; 3] {
    let runs = |worker, count| repeat_n([worker, worker], count);
    if policy == WORK_FIRST {
        let rest = [[0, 0], [2, 0]].into_iter().chain(runs(2, CHILD - 2 * (leaf + 1)));
        [runs(0, 2 * leaf).collect(), rest.collect(), runs(0, 1).collect()]
    } else {
        [leaf, CHILD - (2 * leaf + 1), leaf + 1].map(|count| runs(0, count).collect())
    }
}

/// The pile, and the same tree with an async child, for which nobody waits.
struct Trees {
    pile: Vec<u8>,
    unwaited: Vec<u8>,
}

impl Trees {
    fn new() -> Trees {
        let pile = tree(PILE, LARGEST, SEEDS.start);
        let mut unwaited = pile.clone();
        unwaited[0] = ASYNC;
        Trees { pile, unwaited }
    }
}

// ---- Polls ----

struct Polled<'a> {
    live: Live<'a>,
    /// A poll by value takes the same way here but for the test, and is accepted.
    unwaited: Live<'a>,
}

impl<'a> Polled<'a> {
    fn new(trees: &'a Trees, situation: &Situation, policy: u8, leaf: usize) -> Polled<'a> {
        let live = before_poll(&trees.pile, policy, &situation.events(policy, leaf), situation.number);
        // Under work-first an async child is run as a finish child is.
        let unwaited = before_poll(&trees.unwaited, WORK_FIRST, &situation.events(WORK_FIRST, leaf), 0);
        Polled { live, unwaited }
    }

    fn tuned(&mut self) {
        black_box(&self.live.tuned.event(POLL[0], POLL[1]));
    }

    fn in_place(&mut self) {
        black_box(&library::event_in_place(&mut self.live.state, self.live.tree, POLL[0], POLL[1]));
    }

    fn by_value(&mut self) {
        black_box(&library::event(self.live.state, self.live.tree, POLL[0], POLL[1]));
    }

    fn simulator(&mut self) {
        black_box(self.live.run.event(POLL[0], POLL[1]).is_ok());
    }

    /// Which child the step may have to wait for. A single event has to find it in the tree, too, but by other code: from run to
    /// run this differs by more than the test takes.
    fn finding(&mut self) {
        black_box(library::finish_before(self.live.tree, BEHIND));
    }

    fn untested(&mut self) {
        black_box(&library::event(self.unwaited.state, self.unwaited.tree, POLL[0], POLL[1]));
    }
}

/// The run after these events, where all contestants refuse the poll with this number, or with 0 accept it.
fn before_poll<'a>(tree: &'a [u8], policy: u8, events: &[[u8; EVENT_BYTES]], number: usize) -> Live<'a> {
    let after = || Live::after(tree, policy, RUN_WORKERS, events);
    let mut live = after();
    assert_eq!(live.event(POLL[0], POLL[1]), number);
    // An accepted poll has changed it.
    if number == 0 {
        after()
    } else {
        live
    }
}

/// A name, what is timed or counted, and whether an accepted one leaves the state as it is, so that it can be made again.
type Poll = (&'static str, fn(&mut Polled), bool);

const POLLS: [Poll; 6] = [
    ("tuned", |polled| polled.tuned(), false),
    ("simulator", |polled| polled.simulator(), false),
    ("finding", |polled| polled.finding(), true),
    ("in place", |polled| polled.in_place(), false),
    ("by value", |polled| polled.by_value(), true),
    ("untested", |polled| polled.untested(), true),
];
const BY_VALUE: usize = 4;
const UNTESTED: usize = 5;

/// The columns are the polls and these differences.
fn print_poll_heading(unit: &str, differences: &[&str]) {
    println!("poll of the worker that waits for the pile, {unit}");
    println!("(finding: frame_finish_before; untested: by value behind an async child; test: by value - untested)");
    print!("{:25}{:10}", "situation", "policy");
    POLLS.iter().map(|(name, ..)| name).chain(differences).for_each(|column| print!("{column:>13}"));
    println!();
}

/// Prints a line, with a dash for a number that could not be had.
fn print_poll(situation: &Situation, policy: &str, numbers: [f64; POLLS.len()], differences: &[f64]) {
    print!("{:25}{policy:10}", situation.name);
    for number in numbers.iter().chain(differences) {
        print!("{:>13}", if number.is_nan() { "-".to_string() } else { format!("{number:.1}") });
    }
    println!();
}

/// So many states, by leaves spread evenly, are polled in turn,
const STATES: usize = 64;
/// each so often in a row: who polls has mostly done so just before, and has the state near.
const IN_A_ROW: usize = 16;

fn poll_table() {
    let trees = Trees::new();
    print_poll_heading("ns", &["test"]);
    for situation in SITUATIONS {
        for (policy, byte) in POLICIES {
            let leaves = (0..STATES).map(|state| state * situation.leaves / STATES);
            let inputs = &mut leaves.map(|leaf| Polled::new(&trees, &situation, byte, leaf)).collect::<Vec<_>>();
            let turns = POLLS.map(|(_, poll, again)| {
                let can_be_had = again || situation.number != 0;
                let polls = move |polled: &mut Polled, (): &mut ()| (0..IN_A_ROW).for_each(|_| poll(polled));
                let turn = move |inputs: &mut [Polled]| turn_by(1, inputs, STATES * IN_A_ROW, |_| (), polls);
                move |inputs: &mut [Polled]| if can_be_had { turn(inputs) } else { f64::NAN }
            });
            let times = rounds(inputs, turns.each_ref().map(|turn| turn as Contestant<_>));
            // By rounds, because a busy machine slows both turns of a round.
            let test = from_fn(|round| times[BY_VALUE][round] - times[UNTESTED][round]);
            print_poll(&situation, policy, times.map(median), &[median(test)]);
        }
    }
    println!();
}

// ---- Instructions ----

/// Lists with these last events are refused, at the poll or at the last event. So recordings of the two, which have tables of the
/// tree, differ by the poll.
const LISTS: [(&str, &[[u8; EVENT_BYTES]]); 2] = [("recorded", &[POLL, IDLE]), ("not recorded", &[IDLE])];

fn list_case(trees: &Trees, situation: &Situation, policy: u8, list: &[[u8; EVENT_BYTES]]) -> RecordCase {
    let events = [&situation.events(policy, situation.leaves / 2), list].concat();
    RecordCase::of_events(trees.pile.clone(), policy, events.concat())
}

/// Makes one poll, or one recording of such a list.
pub fn make_poll(words: &[&str]) {
    let [contestant, situation, policy] = words else { panic!("three words, not {words:?}") };
    let situation = SITUATIONS.iter().find(|known| known.name == *situation).expect("a situation");
    let (trees, policy) = (Trees::new(), policy_byte(policy));
    if let Some((_, list)) = LISTS.into_iter().find(|(name, _)| name == contestant) {
        let mut case = list_case(&trees, situation, policy, list);
        measured_call(&mut || _ = black_box(case.library()));
    } else {
        let (_, poll, _) = POLLS.into_iter().find(|(name, ..)| name == contestant).expect("a contestant");
        let mut polled = Polled::new(&trees, situation, policy, situation.leaves / 2);
        measured_call(&mut || poll(&mut polled));
    }
}

fn poll_instructions_table() {
    let trees = Trees::new();
    print_poll_heading("instructions", &["test", "with tables"]);
    for situation in SITUATIONS {
        for (policy, byte) in POLICIES {
            let count = |contestant| instructions(&["poll", contestant, situation.name, policy]);
            let [polled, not] = LISTS.map(|(name, list)| {
                let mut case = list_case(&trees, &situation, byte, list);
                let answer = case.simulator();
                assert_eq!([case.tuned(), case.library()], [answer; 2]);
                assert_eq!(answer.number, if list[0] == POLL { situation.number.max(9) } else { 9 });
                count(name)
            });
            let counts = POLLS.map(|(name, ..)| count(name));
            print_poll(&situation, policy, counts, &[counts[BY_VALUE] - counts[UNTESTED], polled - not]);
        }
    }
    println!();
}
