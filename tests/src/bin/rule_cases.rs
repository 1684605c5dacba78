//! Writes random calls with the simulator's answers as a table of antt, so that the prover computes the rules' answers and
//! compares. The rules are what every proof rests on; nothing else tests them on cases that nobody chose.
//!
//! `rule_cases SEED THEOREMS` writes the page on runs, traces and schedules, `rule_cases dag SEED THEOREMS` that on work and span,
//! `rule_cases histogram SEED THEOREMS` that on histograms.

use std::fmt::Write;

use frame_tests::cover::WORKERS;
use frame_tests::histogram::{BUCKETS, MAX_TRACES};
use frame_tests::phases::phases;
use frame_tests::random::{
    accepted_bytes, any_count, any_seed, damaged_tree, drive, finish_tree, nearest_count, run_all_but, set_classes, set_weights, trace,
    tree, worker_at_the_edge, Classes, Plan, Rng, Weights,
};
use frame_tests::tree::TREE_RECORD;
use frame_tests::{add, record, replay, schedule, span, Histogram, Policy, ReplayAnswer, Run, Tree};

/// How many rows a theorem has. antt computes each theorem within a fixed count of steps.
const ROWS: u64 = 10;

/// A damaged tree is at most so long here: antt computes with lists of tens of records.
const LONGEST: usize = 600;

/// The rules' names of what program `phases` prints. `answer_with` of their table of cases has all others.
const PROGRAM: &str = "input_policy input_count input_tree input_trace digits decimal line heading phase_lines refused_line phases_text printed";

/// The rules' names of the schedule maker.
const MAKER: &str = "draw named begun write drawn robbable steal_turn turn round rounds made most_made schedule_verdict schedule_of \
     schedule_refused schedule_call";

/// The rules' names of what a step waits for, and the rows' own.
const WAITING: &str = "awaited highest find awaited_by";


/// Bytes as the rules' tables write them: a hexadecimal numeral.
fn bytes(list: &[u8]) -> String {
    if list.is_empty() {
        return "[]".to_string();
    }
    let digits: String = list.iter().map(|b| format!("{b:02x}")).collect();
    format!("(bytes {} 0x{digits})", list.len())
}

fn numbers(list: &[u64]) -> String {
    let items: String = list.iter().map(|x| format!("{x} ∷ ")).collect();
    format!("({items}[])")
}

/// A tree of so many tasks, sometimes damaged.
fn some_tree(rng: &mut Rng, tasks: usize) -> Vec<u8> {
    let damaged = damaged_tree(rng, tasks);
    if rng.percent(10) && damaged.len() < LONGEST {
        return damaged;
    }
    let mut tree = tree(rng, tasks);
    if rng.percent(50) {
        set_classes(rng, &mut tree, Classes::Any);
    }
    // A class, or a byte behind one, on either side of what is accepted.
    if rng.percent(15) {
        let record = rng.below(tree.len() / TREE_RECORD);
        tree[TREE_RECORD * record + rng.between(1, 3)] = rng.pick(&[0, 1, 15, 16, 17, 255]);
    }
    tree
}

/// A tree of a few tasks, sometimes damaged, and a policy, sometimes none.
fn scene(rng: &mut Rng) -> (u8, Vec<u8>) {
    let policy = if rng.percent(5) { rng.pick(&[0, 3, 255]) } else { rng.pick(&[1, 2]) };
    let tasks = rng.below(7);
    (policy, some_tree(rng, tasks))
}

/// A lent buffer: mostly as long as asked or longer, sometimes short.
fn lent(rng: &mut Rng, asked: usize) -> Vec<u8> {
    let len = if rng.percent(5) { asked.saturating_sub(1) } else { asked + rng.below(4) };
    (0..len).map(|_| rng.next() as u8).collect()
}

/// A few events of so many workers for the scene, some of them bad, sometimes cut in a record.
fn events(rng: &mut Rng, policy: u8, workers: usize, tree: &[u8]) -> Vec<u8> {
    let mut list = match Run::start(policy, workers as u8, tree) {
        Err(_) => vec![0, 0],
        Ok(mut run) => {
            let taking_part = rng.between(1, workers.min(5));
            let plan = Plan { workers: taking_part, events: rng.below(24), bad: 0, steals: rng.pick(&[20, 60, 90]) };
            let mut list = accepted_bytes(&drive(rng, &mut run, &plan));
            if rng.percent(30) {
                let mut any = || if rng.percent(50) { rng.below(18) as u8 } else { worker_at_the_edge(rng, workers) };
                list.extend([any(), any()]);
            }
            list
        }
    };
    if rng.percent(4) {
        list.push(0);
    }
    list
}

fn record_row(out: &mut String, seed: u64) {
    let mut rng = Rng::new(seed);
    let (policy, tree) = scene(&mut rng);
    let workers = any_count(&mut rng);
    let events = events(&mut rng, policy, nearest_count(workers), &tree);
    let n = tree.len() / 8;
    let mut log = lent(&mut rng, 4 * n);
    let mut trace = lent(&mut rng, 2 * n.saturating_sub(1));
    let call = format!("record_call {workers} {policy} {} {} {} {}", bytes(&tree), bytes(&events), bytes(&log), bytes(&trace));
    let answer = record(policy, workers, &tree, &events, &mut log, &mut trace);
    write!(
        out,
        "record {{ got = {call}; says = record {{ verdict = record {{ number = {}; position = {} }}; log_count = {}; \
         trace_count = {}; finished = {}; loads = {}; heaviest = {}; class_loads = {}; log = {}; trace = {} }} }} ∷ ",
        answer.number,
        answer.position,
        answer.log_count,
        answer.trace_count,
        answer.finished,
        numbers(&answer.loads),
        answer.heaviest,
        numbers(&answer.class_loads),
        bytes(&log),
        bytes(&trace)
    )
    .expect("a string takes all");
}

/// A few trace records between so many workers for the scene, some of them bad.
fn steals(rng: &mut Rng, policy: u8, workers: usize, tree: &[u8]) -> Vec<u8> {
    match (Policy::parse(policy), Tree::parse(tree)) {
        (Ok(policy), Ok(tree)) => {
            let (most, bad) = (rng.below(6), rng.pick(&[0, 0, 10, 40]));
            trace(rng, policy, workers, &tree, most, bad)
        }
        _ => vec![1, 0, 1, 0],
    }
}

fn replay_row(out: &mut String, seed: u64) {
    let mut rng = Rng::new(seed);
    let (policy, bytes_of_tree) = scene(&mut rng);
    let workers = any_count(&mut rng);
    let records = steals(&mut rng, policy, nearest_count(workers), &bytes_of_tree);
    let n = bytes_of_tree.len() / 8;
    let mut list = lent(&mut rng, 4 * n);
    let call = format!("replay_call {workers} {policy} {} {} {}", bytes(&bytes_of_tree), bytes(&records), bytes(&list));
    let answer = replay(policy, workers, &bytes_of_tree, &records, &mut list);
    write!(out, "record {{ got = {call}; says = {} }} ∷ ", replayed(&answer, &list)).expect("a string takes all");
}

/// What a replay answers and writes, as the rules' record.
fn replayed(answer: &ReplayAnswer, list: &[u8]) -> String {
    format!(
        "record {{ verdict = record {{ number = {}; position = {} }}; phase_count = {}; loads = {}; heaviest = {}; \
         class_loads = {}; list = {} }}",
        answer.number,
        answer.position,
        answer.phases,
        numbers(&answer.loads),
        answer.heaviest,
        numbers(&answer.class_loads),
        bytes(list)
    )
}

/// What program `phases` prints: mostly for a whole input, sometimes with another count of records, or cut anywhere.
fn print_row(out: &mut String, seed: u64) {
    let mut rng = Rng::new(seed);
    let (policy, tree) = scene(&mut rng);
    let n = if rng.percent(15) { rng.below(20) } else { tree.len() / 8 };
    let mut input = vec![policy];
    input.extend((n as u16).to_le_bytes());
    input.extend(&tree);
    input.extend(steals(&mut rng, policy, WORKERS, &tree));
    if rng.percent(15) {
        input.truncate(rng.below(input.len()));
    }
    write!(out, "record {{ got = printed {}; says = {} }} ∷ ", bytes(&input), bytes(&phases(&input))).expect("a string takes all");
}

/// A run of so many workers after some accepted events, fewer than `most`, and these.
fn run_for_a_while(rng: &mut Rng, policy: u8, workers: usize, tree: &[u8], most: usize) -> (Run, Vec<u8>) {
    let mut run = Run::start(policy, workers as u8, tree).expect("the tree is accepted");
    let plan = Plan { workers: rng.between(1, workers), events: rng.below(most), bad: 0, steals: rng.pick(&[20, 60, 90]) };
    let events = accepted_bytes(&drive(rng, &mut run, &plan));
    (run, events)
}

/// The idle workers after some accepted events, against the simulator's.
fn idle_row(out: &mut String, seed: u64) {
    let mut rng = Rng::new(seed);
    let policy = rng.pick(&[1, 2]);
    let tasks = rng.below(7);
    let tree = tree(&mut rng, tasks);
    let workers = rng.between(1, WORKERS);
    let (run, events) = run_for_a_while(&mut rng, policy, workers, &tree, 24);
    write!(
        out,
        "record {{ got = answer_with {workers} (idling {policy} {} {}); says = idle {} {} {} {} }} ∷ ",
        bytes(&tree),
        bytes(&events),
        run.finished(),
        run.idle_set(),
        run.idle_count(),
        run.lowest_idle()
    )
    .expect("a string takes all");
}

/// What each step would wait for after some accepted events, or after all that can be had while two steps do not run. The count
/// of steps stands for nothing.
fn awaited_row(out: &mut String, seed: u64) {
    let mut rng = Rng::new(seed);
    let policy = rng.pick(&[1, 2]);
    let tasks = rng.between(1, 6);
    let tree = finish_tree(&mut rng, tasks);
    let workers = rng.between(1, WORKERS);
    let (mut run, mut events) = run_for_a_while(&mut rng, policy, workers, &tree, 10);
    let steps = run.tree.count();
    if rng.percent(60) {
        let kept = [rng.below(steps), rng.below(steps)];
        events.extend(run_all_but(&mut run, &kept).concat());
    }
    let awaited: Vec<u64> = (0..steps).map(|step| run.awaited_before(step).unwrap_or(steps) as u64).collect();
    let call = format!("awaited_by {workers} {policy} {} {}", bytes(&tree), bytes(&events));
    write!(out, "record {{ got = {call}; says = {} }} ∷ ", numbers(&awaited)).expect("a string takes all");
}

/// What the schedule maker answers and writes, from any seed.
fn schedule_row(out: &mut String, seed: u64) {
    let mut rng = Rng::new(seed);
    let (policy, tree) = scene(&mut rng);
    let (workers, start) = (any_count(&mut rng), any_seed(&mut rng));
    let mut events = lent(&mut rng, (3 * (tree.len() / 8)).saturating_sub(1));
    let call = format!("schedule_call {workers} {policy} {} {start} {}", bytes(&tree), bytes(&events));
    let answer = schedule(policy, workers, &tree, start, &mut events);
    write!(
        out,
        "record {{ got = {call}; says = record {{ verdict = record {{ number = {}; position = {} }}; event_count = {}; \
         events = {} }} }} ∷ ",
        answer.number,
        answer.position,
        answer.events,
        bytes(&events)
    )
    .expect("a string takes all");
}

/// What the span call answers and writes: mostly with small weights, so that many chains weigh the same. The trees have at most seven
/// steps, since the rules ask of every two steps over all links whether one precedes the other.
fn span_row(out: &mut String, seed: u64) {
    let mut rng = Rng::new(seed);
    let tasks = rng.pick(&[0, 1, 2, 2, 3, 3, 3]);
    let mut tree = some_tree(&mut rng, tasks);
    if rng.percent(80) {
        let weights = rng.pick(&[Weights::Tied, Weights::Tied, Weights::Sparse, Weights::NearMax]);
        set_weights(&mut rng, &mut tree, weights);
    }
    let asked = 2 * (tree.len() / 8);
    let mut chain = lent(&mut rng, asked);
    if rng.percent(10) {
        chain.truncate(rng.between(0, asked));
    }
    let call = format!("answered {} {}", bytes(&tree), bytes(&chain));
    let answer = span(&tree, &mut chain);
    write!(
        out,
        "record {{ got = {call}; says = record {{ verdict = record {{ number = {}; position = {} }}; work = {}; span = {}; \
         chain_length = {}; chain = {} }} }} ∷ ",
        answer.number,
        answer.position,
        answer.work,
        answer.span,
        answer.length,
        bytes(&chain)
    )
    .expect("a string takes all");
}

/// A histogram with a few counts, mostly not full.
fn some_histogram(rng: &mut Rng) -> Histogram {
    let traces = rng.pick(&[0, 1, 300, MAX_TRACES - 2, MAX_TRACES - 1, MAX_TRACES, MAX_TRACES + 1]);
    let mut counts = [0; BUCKETS];
    for _ in 0..rng.below(6) {
        counts[rng.below(BUCKETS)] = rng.next() as u32 >> rng.between(1, 31);
    }
    Histogram { traces, counts }
}

/// A histogram as the rules' record.
fn histogram(histogram: &Histogram) -> String {
    let counts = histogram.counts.map(u64::from);
    format!("record {{ traces = {}; counts = {} }}", histogram.traces, numbers(&counts))
}

/// What an addition answers and writes, with loads of all sizes. The trees have at most seven steps.
fn histogram_row(out: &mut String, seed: u64) {
    let mut rng = Rng::new(seed);
    let policy = if rng.percent(5) { rng.pick(&[0, 3, 255]) } else { rng.pick(&[1, 2]) };
    let tasks = rng.pick(&[0, 1, 2, 2, 3, 3, 3]);
    let mut tree = some_tree(&mut rng, tasks);
    if rng.percent(60) {
        for record in tree.chunks_exact_mut(TREE_RECORD) {
            record[4..].copy_from_slice(&(rng.next() as u32 >> rng.below(32)).to_le_bytes());
        }
    }
    let workers = any_count(&mut rng);
    let records = steals(&mut rng, policy, nearest_count(workers), &tree);
    let mut list = lent(&mut rng, 4 * (tree.len() / 8));
    let given = some_histogram(&mut rng);
    let call = format!("added {workers} {policy} {} {} {} ({})", bytes(&tree), bytes(&records), bytes(&list), histogram(&given));
    let answer = add(&given, policy, workers, &tree, &records, &mut list);
    write!(
        out,
        "record {{ got = {call}; says = record {{ replayed = {}; histogram = {} }} }} ∷ ",
        replayed(&answer.replay, &list),
        histogram(&answer.histogram)
    )
    .expect("a string takes all");
}

/// Theorems over rows of this type; each unfolds these names.
fn tables(out: &mut String, name: &str, row: &str, names: &str, from: u64, theorems: u64, write_row: fn(&mut String, u64)) {
    for t in 0..theorems {
        let mut rows = String::new();
        for k in 0..ROWS {
            write_row(&mut rows, from + t * ROWS + k);
        }
        writeln!(out, "unfoldable {name}_{t} : List {row}\n{name}_{t} = {rows}[]\n").expect("a string takes all");
        writeln!(out, "{name}_{t}_holds : map (λ r. r.got) {name}_{t} ≡ map (λ r. r.says) {name}_{t}").expect("a string takes all");
        writeln!(out, "unfolding {names} {name}_{t}\n{name}_{t}_holds = refl\n").expect("a string takes all");
    }
}

/// The page on runs, traces and schedules.
fn rules_page(from: u64, theorems: u64) -> String {
    let [program, maker] = [PROGRAM, MAKER].map(|names| names.replace(' ', ", "));
    let mut out = String::from(
        "-- Random calls and the simulator's answers.\n\
         use Rattle.std.specs.Prelude.{ℕ, ◌≡◌, refl, true, false, List, [], ◌∷◌, map, length}\n\
         use Rattle.std.proofs.Math.Option.{none, some}\n\
         use Rattle.rules.specs.Bytes.{records, count, find, highest}\n\
         use Rattle.rules.specs.Tree.{kinds}\n\
         use Rattle.rules.specs.Scheduling.{awaited}\n\
         use Rattle.rules.specs.Calls.{record_walk, Recorded, record_call, Replayed, replay_call}\n\
         use Rattle.rules.specs.Program.{PROGRAM}\n\
         use Rattle.rules_schedule.specs.Schedules.{Scheduled, MAKER}\n\
         use Rattle.rules.specs.Cases.{idling, Answer, idle, answer_with, bytes}\n\n\
         record RecordRow : Type 0 where\n  got : Recorded\n  says : Recorded\n\n\
         record ReplayRow : Type 0 where\n  got : Replayed\n  says : Replayed\n\n\
         record ScheduleRow : Type 0 where\n  got : Scheduled\n  says : Scheduled\n\n\
         record IdleRow : Type 0 where\n  got : Answer\n  says : Answer\n\n\
         record NumbersRow : Type 0 where\n  got : List ℕ\n  says : List ℕ\n\n\
         unfoldable awaited_by : ℕ → ℕ → List ℕ → List ℕ → List ℕ\n\
         awaited_by w p tree events =\n    \
         let ks = kinds tree in\n    \
         let log = (record_walk w p ks (records 2 events)).state.log in\n    \
         map (λ i. elim (awaited ks log i) [ none ↦ length ks | some j ↦ j ]) (count 0 (length ks))\n\n",
    )
    .replace("PROGRAM", &program)
    .replace("MAKER", &maker);
    let names = format!("answer_with bytes {PROGRAM} {MAKER} {WAITING}");
    tables(&mut out, "recorded", "RecordRow", &names, from, theorems, record_row);
    tables(&mut out, "replayed", "ReplayRow", &names, from, theorems, replay_row);
    tables(&mut out, "scheduled", "ScheduleRow", &names, from, theorems, schedule_row);
    tables(&mut out, "idled", "IdleRow", &names, from, theorems, idle_row);
    tables(&mut out, "awaiting", "NumbersRow", &names, from, theorems, awaited_row);
    tables(&mut out, "listed", "NumbersRow", &names, from, theorems, print_row);
    out
}

/// The page on work and span. `answered` of their table of cases is the call, and has all the rules' names.
fn dag_page(from: u64, theorems: u64) -> String {
    let mut out = String::from(
        "-- Random calls of work and span, and the simulator's answers.\n\
         use Rattle.std.specs.Prelude.{◌≡◌, refl, List, [], ◌∷◌, map}\n\
         use Rattle.rules.specs.Cases.{bytes}\n\
         use Rattle.rules_dag.specs.Spans.{Spanned}\n\
         use Rattle.rules_dag.specs.Chains.{answered}\n\n\
         record SpanRow : Type 0 where\n  got : Spanned\n  says : Spanned\n\n",
    );
    tables(&mut out, "spanned", "SpanRow", "answered bytes", from, theorems, span_row);
    out
}

/// The page on histograms. `added` of their table of cases is the call, and has all the rules' names.
fn histogram_page(from: u64, theorems: u64) -> String {
    let mut out = String::from(
        "-- Random additions to histograms, and the simulator's answers.\n\
         use Rattle.std.specs.Prelude.{◌≡◌, refl, List, [], ◌∷◌, map}\n\
         use Rattle.rules.specs.Cases.{bytes}\n\
         use Rattle.rules_histogram.specs.Histograms.{Added}\n\
         use Rattle.rules_histogram.specs.Additions.{added}\n\n\
         record AddedRow : Type 0 where\n  got : Added\n  says : Added\n\n",
    );
    tables(&mut out, "additions", "AddedRow", "added bytes", from, theorems, histogram_row);
    out
}

fn main() {
    let mut args = std::env::args().skip(1).peekable();
    let page = if args.next_if_eq("dag").is_some() {
        dag_page
    } else if args.next_if_eq("histogram").is_some() {
        histogram_page
    } else {
        rules_page
    };
    let mut numbers = args.map(|a| a.parse::<u64>().expect("a number"));
    print!("{}", page(numbers.next().unwrap_or(0), numbers.next().unwrap_or(10)));
}
