//! The output of program `phases`: the proved program and the simulator's, on the stored examples of the folder
//! `examples/phases/` and on random bytes. A failure names its seed.

#[path = "library/classes.rs"]
mod classes;

use std::collections::BTreeSet;
use std::fs::{self, File};
use std::io::{ErrorKind, Seek, Write};
use std::os::fd::OwnedFd;
use std::os::unix::net::UnixStream;
use std::path::{Path, PathBuf};
use std::process::{Child, ChildStdin, Command, Output, Stdio};
use std::thread;
use std::time::{Duration, Instant};

use frame_tests::cover::WORKERS;
use frame_tests::phases::{phases, MAX_INPUT};
use frame_tests::random::{
    damaged_tree, flat_tree, robbed_in_turn, trace_to_replay, tree, tree_of_kinds, tree_record, tree_with, Rng, Weights,
    SHAPES,
};
use frame_tests::replay::MAX_TRACE;
use frame_tests::tree::{CLASSES, MAX_OPEN};
use frame_tests::{Policy, Tree};

// ---- Running a program ----

fn root() -> PathBuf {
    Path::new(env!("CARGO_MANIFEST_DIR")).join("..")
}

/// The proved program, which `bin/phases` makes, and the simulator's.
fn programs() -> [PathBuf; 2] {
    let proved = root().join("target/bin/phases");
    assert!(proved.exists(), "{} is missing: `bin/phases` makes it", proved.display());
    [proved, env!("CARGO_BIN_EXE_simulate_phases").into()]
}

fn start(program: &Path, stdin: Stdio) -> Child {
    Command::new(program).stdin(stdin).stdout(Stdio::piped()).stderr(Stdio::piped()).spawn().expect("the program starts")
}

/// What it prints, once it has ended well and with nothing on standard error.
fn printed(child: Child) -> Vec<u8> {
    let output = child.wait_with_output().expect("the program ends");
    assert!(output.status.success(), "{}", output.status);
    assert!(output.stderr.is_empty(), "{}", String::from_utf8_lossy(&output.stderr));
    output.stdout
}

/// A program that has read enough need not take the rest.
fn give(stdin: &mut ChildStdin, bytes: &[u8]) -> bool {
    match stdin.write_all(bytes) {
        Ok(()) => true,
        Err(error) => {
            assert_eq!(error.kind(), ErrorKind::BrokenPipe, "{error}");
            false
        }
    }
}

/// What it prints for this standard input, which comes through a pipe.
fn by_pipe(program: &Path, input: &[u8]) -> Vec<u8> {
    let mut child = start(program, Stdio::piped());
    let mut stdin = child.stdin.take().expect("it is piped");
    thread::scope(|scope| {
        scope.spawn(move || give(&mut stdin, input));
        printed(child)
    })
}

fn same_text(got: &[u8], want: &[u8], case: &str) {
    assert!(got == want, "{case}: it prints\n{}not\n{}", String::from_utf8_lossy(got), String::from_utf8_lossy(want));
}

/// Both programs, and the simulator asked directly, print this text.
fn print_this(input: &[u8], text: &[u8], case: &str) {
    same_text(&phases(input), text, &format!("{case}, the simulator"));
    for program in programs() {
        same_text(&by_pipe(&program, input), text, &format!("{case}, {}", program.display()));
    }
}

// ---- Inputs ----

const EXAMPLE: &str = "phase worker step\n0 0 0\n0 0 1\n1 1 2\n1 1 3\n1 1 4\n2 2 6\n3 0 5\n";

fn input(policy: u8, n: u16, tree: &[u8], trace: &[u8]) -> Vec<u8> {
    [&[policy], &n.to_le_bytes()[..], tree, trace].concat()
}

fn s() -> Vec<u8> {
    tree_of_kinds(&[1, 3, 2, 1, 3, 3, 3])
}

const P1_TRACE: [u8; 12] = [1, 0, 1, 0, 2, 1, 2, 0, 0, 1, 1, 0];
const P4_TRACE: [u8; 8] = [1, 0, 1, 0, 2, 0, 6, 0];

fn example_input() -> Vec<u8> {
    input(1, 7, &s(), &P1_TRACE)
}

/// A tree of 4,095 records and a trace of 2,047: no sound input is longer.
fn greatest_input(policy: u8) -> Vec<u8> {
    let (tree, trace) = robbed_in_turn(Policy::parse(policy).expect("the policy is one"), 0, MAX_TRACE);
    input(policy, 4_095, &tree, &trace)
}

// ---- The stored examples ----

/// Name, standard input and what is printed, written down from document 01.
type Stored = (&'static str, Vec<u8>, &'static str);

fn listings() -> Vec<Stored> {
    vec![
        // P1's trace, P4, an empty trace, P3.
        ("tree-s-work-first", example_input(), EXAMPLE),
        (
            "tree-s-help-first",
            input(2, 7, &s(), &P4_TRACE),
            "phase worker step\n0 0 0\n0 0 2\n0 0 3\n0 0 5\n0 0 4\n1 1 1\n2 2 6\n",
        ),
        (
            "tree-s-work-first-no-steal",
            input(1, 7, &s(), &[]),
            "phase worker step\n0 0 0\n0 0 1\n0 0 2\n0 0 3\n0 0 4\n0 0 5\n0 0 6\n",
        ),
        (
            "tree-s-help-first-no-steal",
            input(2, 7, &s(), &[]),
            "phase worker step\n0 0 0\n0 0 2\n0 0 3\n0 0 5\n0 0 4\n0 0 6\n0 0 1\n",
        ),
    ]
}

/// 7 is not among them: the program's own list is never short. Nor are 9 to 12, which are of events.
fn refusals() -> Vec<Stored> {
    let mut wrong_kind = s();
    wrong_kind[8 * 4] = 4;
    let too_deep = tree_of_kinds(&[vec![1; MAX_OPEN], vec![3; MAX_OPEN + 1]].concat());
    let traced = |policy, more: [u8; 4]| input(policy, 7, &s(), &[[1, 0, 1, 0], more].concat());
    vec![
        ("refused-1", input(3, 7, &s(), &P1_TRACE), "refused 1 0\n"),
        ("refused-2", input(1, 0, &s(), &P1_TRACE), "refused 2 0\n"),
        ("refused-3", input(1, 7, &wrong_kind, &P1_TRACE), "refused 3 4\n"),
        ("refused-4", input(2, 129, &too_deep, &[]), "refused 4 63\n"),
        ("refused-5", input(1, 8, &[s(), tree_of_kinds(&[3])].concat(), &P1_TRACE), "refused 5 7\n"),
        ("refused-6", input(1, 7, &s(), &P1_TRACE[..5]), "refused 6 0\n"),
        ("refused-8", traced(2, [16, 0, 6, 0]), "refused 8 1\n"),
        ("refused-13", traced(1, [1, 1, 2, 0]), "refused 13 1\n"),
        // P12, P8 and P9.
        ("refused-14", input(2, 7, &s(), &[0, 1, 1, 0]), "refused 14 0\n"),
        ("refused-15-work-first", traced(1, [2, 1, 1, 0]), "refused 15 1\n"),
        ("refused-15-help-first", input(2, 7, &s(), &[1, 0, 3, 0]), "refused 15 0\n"),
    ]
}

/// The first example cut in every field, and more than is read.
fn cuts() -> Vec<Stored> {
    let cut = |bytes: usize| example_input()[..bytes].to_vec();
    // Were it cut at its trace's end it would be accepted.
    let mut long = greatest_input(1);
    long.resize(MAX_INPUT + 8, 0);
    vec![
        ("empty", vec![], "refused 1 0\n"),
        ("cut-after-policy", cut(1), "refused 2 0\n"),
        ("cut-in-count", cut(2), "refused 2 0\n"),
        ("cut-after-count", cut(3), "refused 2 0\n"),
        ("cut-in-a-record-of-the-tree", cut(3 + 8 * 4 + 5), "refused 2 0\n"),
        ("cut-between-records-of-the-tree", cut(3 + 8 * 6), "refused 5 6\n"),
        ("cut-in-a-record-of-the-trace", cut(3 + 8 * 7 + 4 + 2), "refused 6 0\n"),
        (
            "cut-between-records-of-the-trace",
            cut(3 + 8 * 7 + 4),
            "phase worker step\n0 0 0\n0 0 1\n1 1 2\n1 1 3\n1 1 4\n1 1 5\n1 1 6\n",
        ),
        ("more-than-is-read", long, "refused 6 0\n"),
    ]
}

fn stored() -> Vec<Stored> {
    [listings(), refusals(), cuts()].concat()
}

/// The folder of the stored examples.
fn folder() -> PathBuf {
    root().join("examples/phases")
}

/// The folder holds these examples and no others, and both programs print what stands there.
#[test]
fn stored_examples() {
    let folder = folder();
    let mut names = BTreeSet::new();
    for (name, input, text) in stored() {
        let read = |end: &str| {
            let file = format!("{name}.{end}");
            let bytes = fs::read(folder.join(&file)).unwrap_or_else(|error| panic!("{file}: {error}"));
            names.insert(file);
            bytes
        };
        let [bin, txt] = ["bin", "txt"].map(read);
        assert!(bin == input, "{name}.bin has other bytes");
        same_text(&txt, text.as_bytes(), &format!("{name}.txt"));
        print_this(&bin, &txt, name);
    }
    let files = fs::read_dir(folder).expect("the folder can be read");
    let there = files.map(|file| file.expect("the folder can be read").file_name().into_string().expect("it is text"));
    assert_eq!(there.collect::<BTreeSet<_>>(), names);
}

/// Writes them: `cargo test --test program -- --ignored`.
#[test]
#[ignore = "writes the folder examples/phases/"]
fn write_stored_examples() {
    let folder = folder();
    for (name, input, text) in stored() {
        fs::write(folder.join(format!("{name}.bin")), input).expect("the file can be written");
        fs::write(folder.join(format!("{name}.txt")), text).expect("the file can be written");
    }
}

// ---- Other inputs by hand ----

#[test]
fn short_input() {
    // No count, or a count of 0: the tree is empty.
    for input in [&[1][..], &[1, 7], &[2, 0, 0], &[2, 1], &[2, 0, 1], &[1, 255, 255]] {
        print_this(input, b"refused 2 0\n", &format!("{input:?}"));
    }
    // Missing bytes are 0, and 0 is no policy.
    for input in [&[0][..], &[0, 7], &[3], &[255, 255, 255]] {
        print_this(input, b"refused 1 0\n", &format!("{input:?}"));
    }
    // Every cut of the examples.
    for (policy, trace) in [(1, &P1_TRACE[..]), (2, &P4_TRACE)] {
        let whole = input(policy, 7, &s(), trace);
        for cut in 0..whole.len() {
            let bytes = &whole[..cut];
            print_this(bytes, &phases(bytes), &format!("policy {policy}, {cut} bytes"));
        }
    }
}

#[test]
fn count_splits_tree_and_trace() {
    // The count says 1: the rest of S is read as trace, and the record is no tree.
    print_this(&input(1, 1, &s(), &[]), b"refused 5 1\n", "n = 1");
    // The tree of one end, and the next 8 bytes are two trace records.
    let bytes = input(1, 1, &tree_of_kinds(&[3]), &[1, 0, 1, 0, 0, 0, 0, 0]);
    print_this(&bytes, b"refused 15 0\n", "one end, two records");
    print_this(&bytes[..11], b"phase worker step\n0 0 0\n", "one end");
    // A count above what there is: all of it is the tree, however large the count.
    let listing = phases(&input(2, 7, &s(), &[]));
    for n in [8, 9, 0x0107, 4_095, 4_096, 6_144, 8_192, 8_193, 8_199, 32_768, 40_000, 65_535] {
        print_this(&input(2, n, &s(), &[]), &listing, &format!("n = {n}"));
        // What should be the trace is in the tree then.
        print_this(&input(2, n, &s(), &P4_TRACE), b"refused 3 7\n", &format!("n = {n}, with a trace"));
    }
    for n in 0..7 {
        let text = if n == 0 { "refused 2 0\n".to_string() } else { format!("refused 5 {n}\n") };
        print_this(&input(1, n, &s(), &P1_TRACE), text.as_bytes(), &format!("n = {n}"));
    }
}

/// A class is accepted and not printed.
#[test]
fn classes_are_not_printed() {
    print_this(&input(1, 7, &classes::C, &P1_TRACE), EXAMPLE.as_bytes(), "tree C");
    for (position, class) in (0..7).zip([16, 17, 31, 32, 128, 254, 255]) {
        let mut tree = classes::C;
        tree[8 * position + 1] = class;
        let text = format!("refused 3 {position}\n");
        print_this(&input(1, 7, &tree, &P1_TRACE), text.as_bytes(), &format!("class {class} at {position}"));
    }
    for class in 0..=255 {
        let mut tree = s();
        tree[8 * 4 + 1] = class;
        let text = if class < 16 { EXAMPLE } else { "refused 3 4\n" };
        print_this(&input(1, 7, &tree, &P1_TRACE), text.as_bytes(), &format!("class {class}"));
    }
    for (tree, (number, position)) in classes::trees().into_iter().filter(|(_, refusal)| refusal.0 != 0) {
        let text = format!("refused {number} {position}\n");
        print_this(&input(2, (tree.len() / 8) as u16, &tree, &[]), text.as_bytes(), &format!("{tree:?}"));
    }
}

/// The worker's number may have two digits, phase and step four.
#[test]
fn greatest_listings() {
    for policy in [1, 2] {
        let bytes = greatest_input(policy);
        assert_eq!(bytes.len(), 3 + 32_760 + 8_188);
        let text = phases(&bytes);
        assert!(text.ends_with(b"\n2047 15 4094\n"), "policy {policy}");
        print_this(&bytes, &text, &format!("policy {policy}"));
        // No steal: one phase of 4,095 steps.
        print_this(&bytes[..3 + 32_760], &phases(&bytes[..3 + 32_760]), &format!("policy {policy}, no steal"));
        // A record more is too many, and a record less is a phase less.
        let more = [&bytes[..], &[1, 0, 1, 0]].concat();
        print_this(&more, b"refused 6 0\n", &format!("policy {policy}, a record more"));
        let less = &bytes[..bytes.len() - 4];
        print_this(less, &phases(less), &format!("policy {policy}, a record less"));
    }
}

// ---- The first 49,152 bytes ----

/// Where it is cut cannot be told from what is printed, if it is behind the greatest sound input: what is longer has too
/// many trace records, or too long a tree.
fn long_inputs() -> Vec<(Vec<u8>, &'static str)> {
    let (sound, many) = (greatest_input(2), "refused 6 0\n");
    let ends = |count: usize| vec![tree_record(3, 1); count].concat();
    vec![
        (sound, many),
        (input(1, 1, &tree_of_kinds(&[3]), &[]), many),
        (input(1, 7, &s(), &P1_TRACE), many),
        // A tree that is as long as can be, a record longer, and one that is cut at the end of what is read.
        (input(1, 4_095, &flat_tree(2_047), &[]), many),
        (input(1, 4_097, &flat_tree(2_048), &[]), "refused 2 0\n"),
        (input(2, 6_144, &ends(6_144), &[]), "refused 2 0\n"),
        (input(2, 65_535, &ends(1), &[]), "refused 2 0\n"),
        (input(0, 7, &s(), &P1_TRACE), "refused 1 0\n"),
    ]
}

#[test]
fn long_input() {
    for (k, (start, text)) in long_inputs().into_iter().enumerate() {
        for length in [MAX_INPUT - 1, MAX_INPUT, MAX_INPUT + 1, MAX_INPUT + 3, 65_536, 200_000] {
            let mut bytes = start.clone();
            bytes.resize(length, 0);
            print_this(&bytes, text.as_bytes(), &format!("input {k}, {length} bytes"));
        }
    }
}

/// Waits for the program's end, though not for ever.
fn ends_soon(mut child: Child, case: &str) -> Vec<u8> {
    let began = Instant::now();
    while child.try_wait().expect("it can be asked").is_none() {
        if began.elapsed() > Duration::from_secs(20) {
            child.kill().expect("it can be ended");
            panic!("{case}: it reads on");
        }
        thread::sleep(Duration::from_millis(1));
    }
    printed(child)
}

/// After 49,152 bytes no more is asked for: the program ends while standard input is still open, or has no end.
#[test]
fn no_more_than_49152_bytes_are_read() {
    for program in programs() {
        for (k, (start_of, text)) in long_inputs().into_iter().enumerate() {
            let case = format!("input {k}, {}", program.display());
            let mut bytes = start_of;
            bytes.resize(MAX_INPUT, 0);
            // Open, with nothing to come.
            let mut child = start(&program, Stdio::piped());
            let mut stdin = child.stdin.take().expect("it is piped");
            assert!(give(&mut stdin, &bytes), "{case}");
            same_text(&ends_soon(child, &case), text.as_bytes(), &case);
            drop(stdin);
            // Without an end.
            let mut child = start(&program, Stdio::piped());
            let mut stdin = child.stdin.take().expect("it is piped");
            thread::scope(|scope| {
                let bytes = &bytes;
                scope.spawn(move || while give(&mut stdin, bytes) {});
                same_text(&ends_soon(child, &case), text.as_bytes(), &case);
            });
        }
    }
}

/// A file of its own for each caller, which is removed with it.
struct Held {
    path: PathBuf,
    file: File,
}

impl Held {
    fn new(name: &str, bytes: &[u8]) -> Held {
        let path = std::env::temp_dir().join(format!("phases-{}-{name}", std::process::id()));
        fs::write(&path, bytes).expect("the file can be written");
        let file = File::open(&path).expect("the file can be read");
        Held { path, file }
    }
}

impl Drop for Held {
    fn drop(&mut self) {
        // If it cannot be removed, it stays.
        let _ = fs::remove_file(&self.path);
    }
}

/// Standard input from a file: then it can be asked how much was read.
#[test]
fn from_a_file() {
    for program in programs() {
        for length in [0, 1, 2, 3, 59, 71, 49_151, 49_152, 49_153, 60_000] {
            let mut bytes = example_input();
            bytes.resize(length, 0);
            let mut held = Held::new("from-a-file", &bytes);
            let stdin = held.file.try_clone().expect("a second handle of the file");
            let case = format!("{length} bytes, {}", program.display());
            same_text(&printed(start(&program, stdin.into())), &phases(&bytes), &case);
            let read = held.file.stream_position().expect("the place is known");
            assert_eq!(read, length.min(MAX_INPUT) as u64, "{case}");
        }
    }
}

/// Bytes that come piece by piece are all waited for.
#[test]
fn in_pieces() {
    let [small, large] = [example_input(), greatest_input(2)];
    for program in programs() {
        for seed in 0..12 {
            let mut rng = Rng::new(seed);
            let bytes = if seed % 2 == 0 { &small } else { &large };
            let mut child = start(&program, Stdio::piped());
            let mut stdin = child.stdin.take().expect("it is piped");
            let mut left = &bytes[..];
            while !left.is_empty() {
                let piece = rng.between(1, bytes.len() / 3).min(left.len());
                assert!(give(&mut stdin, &left[..piece]), "seed {seed}");
                left = &left[piece..];
                thread::sleep(Duration::from_millis(5));
            }
            drop(stdin);
            same_text(&printed(child), &phases(bytes), &format!("seed {seed}, {}", program.display()));
        }
    }
}

// ---- Failures, and the stack ----

/// Runs the proved program by a shell's line, in which it is `$0` and the given path is `$1`. The environment is empty, since
/// what is in it takes room on the stack.
fn by_shell(line: &str, path: &Path) -> Output {
    let [proved, _] = programs();
    let shell = Command::new("/bin/sh").arg("-c").arg(line).arg(proved).arg(path).env_clear().output();
    shell.expect("there is a shell")
}

const NOT_READ: &str = "phases: standard input could not be read\n";
const NOT_WRITTEN: &str = "phases: standard output could not be written\n";

/// It ends well, as a program of this language always does, and prints these two texts.
fn says(output: &Output, text: &[u8], error: &str, case: &str) {
    same_text(&output.stdout, text, case);
    same_text(&output.stderr, error.as_bytes(), &format!("{case}, standard error"));
    assert_eq!(output.status.code(), Some(0), "{case}");
}

#[test]
fn input_that_cannot_be_read() {
    // Closed, a folder, open for writing only. Where nothing is printed, standard output is not tried.
    for line in ["\"$0\" <&-", "\"$0\" </", "\"$0\" 0>/dev/null", "\"$0\" <&- >&-", "\"$0\" </ >/dev/full"] {
        says(&by_shell(line, &root()), b"", NOT_READ, line);
    }
    says(&by_shell("\"$0\" <&- 2>&-", &root()), b"", "", "standard error is closed");
    // A read that fails behind others: the bytes that came, which are a sound input, are not taken for all.
    let [proved, _] = programs();
    let (mut ours, theirs) = UnixStream::pair().expect("a socket");
    theirs.set_nonblocking(true).expect("it does not wait");
    ours.write_all(&example_input()).expect("there is room");
    let child = start(&proved, OwnedFd::from(theirs).into());
    says(&child.wait_with_output().expect("the program ends"), b"", NOT_READ, "no more for now");
}

#[test]
fn output_that_cannot_be_written() {
    let held = Held::new("not-written", &example_input());
    // Full, closed, open for reading only; of a refusal too.
    for line in ["\"$0\" <\"$1\" >/dev/full", "\"$0\" <\"$1\" >&-", "\"$0\" <\"$1\" 1</dev/null", "\"$0\" </dev/null >/dev/full"] {
        says(&by_shell(line, &held.path), b"", NOT_WRITTEN, line);
    }
    says(&by_shell("\"$0\" <\"$1\" >&- 2>&-", &held.path), b"", "", "standard error is closed");
    // A file that may have a few blocks takes some of the text.
    let held = Held::new("in-part", &greatest_input(1));
    let file = Held::new("in-part-text", &[]);
    let line = format!("trap '' XFSZ; ulimit -f 8; \"$0\" <\"$1\" >'{}'", file.path.display());
    says(&by_shell(&line, &held.path), b"", NOT_WRITTEN, "a part");
    let (part, text) = (fs::read(&file.path).expect("the file can be read"), phases(&greatest_input(1)));
    assert!(!part.is_empty() && part.len() < text.len() && text.starts_with(&part), "{} bytes", part.len());
}

/// KB of stack that are enough for the program, as docs/FORMAT.md says.
const STACK: usize = 256;

#[test]
fn stack_of_the_program() {
    let document = fs::read_to_string(root().join("docs/FORMAT.md")).expect("the document can be read");
    assert!(document.contains(&format!("{STACK} KB of stack")), "the document names another stack");
    // Without a steal all 4,095 steps are one phase.
    let greatest = [1, 2].map(greatest_input);
    let alone = greatest.clone().map(|input| input[..3 + 32_760].to_vec());
    let inputs = stored().into_iter().map(|(_, input, _)| input).chain(greatest).chain(alone);
    for (k, input) in inputs.enumerate() {
        let held = Held::new("stack", &input);
        let output = by_shell(&format!("ulimit -s {STACK}; exec \"$0\" <\"$1\""), &held.path);
        says(&output, &phases(&input), "", &format!("input {k}"));
    }
}

// ---- Random input ----

/// A random tree with a trace that may be refused.
fn sound_input(rng: &mut Rng, tasks: usize) -> Vec<u8> {
    let policy = rng.between(1, 2) as u8;
    let bytes = if tasks < 100 {
        tree(rng, tasks)
    } else {
        let (shape, finish) = (rng.pick(&SHAPES), rng.pick(&[0, 30, 100]));
        tree_with(rng, shape, tasks, finish, Weights::One)
    };
    let read = Tree::parse(&bytes).expect("the tree is accepted");
    let trace = trace_to_replay(rng, Policy::parse(policy).expect("the policy is one"), WORKERS, &read);
    input(policy, 2 * tasks as u16 + 1, &bytes, &trace)
}

/// An input with a damaged tree, or with something of it changed, whatever field it stands in.
fn damaged_input(rng: &mut Rng, tasks: usize) -> Vec<u8> {
    if rng.percent(20) {
        let tree = damaged_tree(rng, tasks);
        return input(rng.between(1, 2) as u8, (tree.len() / 8) as u16, &tree, &P1_TRACE);
    }
    let mut bytes = sound_input(rng, tasks);
    for _ in 0..rng.between(1, 2) {
        let at = rng.below(bytes.len());
        match rng.below(7) {
            0 => bytes[at] ^= 1 << rng.below(8),
            1 => bytes[at] = rng.next() as u8,
            2 => bytes.truncate(at.max(1)),
            3 => bytes.insert(at, rng.below(4) as u8),
            4 if bytes.len() > 1 => {
                bytes.remove(at);
            }
            // Another count, near or far.
            5 if bytes.len() > 2 => bytes[1] = bytes[1].wrapping_add(rng.pick(&[1, 2, 254, 255])),
            6 if bytes.len() > 2 => bytes[2] = rng.next() as u8,
            _ => bytes.push(rng.next() as u8),
        }
    }
    bytes
}

/// Any bytes, mostly behind a policy and a small count.
fn noise(rng: &mut Rng) -> Vec<u8> {
    let length = if rng.percent(90) { rng.below(120) } else { rng.below(60_000) };
    let mut bytes = rng.bytes(length);
    if length > 2 && rng.percent(80) {
        bytes[..3].copy_from_slice(&[rng.between(1, 2) as u8, rng.below(8) as u8, 0]);
    }
    // Kinds and classes where a tree would have them.
    if rng.percent(60) {
        for record in bytes.iter_mut().skip(3).collect::<Vec<_>>().chunks_mut(8) {
            *record[0] = *record[0] % 3 + 1;
            record.iter_mut().skip(1).take(1).for_each(|class| **class %= CLASSES as u8);
            record.iter_mut().skip(2).take(2).for_each(|byte| **byte = 0);
        }
    }
    bytes
}

#[test]
fn random_inputs() {
    let mut listed = 0;
    let mut refused = BTreeSet::new();
    for seed in 0..2_000 {
        let mut rng = Rng::new(seed);
        let tasks = if rng.percent(6) { rng.below(2_048) } else { rng.below(20) };
        let mut bytes = match rng.below(10) {
            0..=3 => sound_input(&mut rng, tasks),
            4..=7 => damaged_input(&mut rng, tasks),
            _ => noise(&mut rng),
        };
        if rng.percent(5) {
            let length = rng.between(MAX_INPUT - 10, MAX_INPUT + 10);
            let more = rng.bytes(length);
            bytes.extend_from_slice(more.get(bytes.len()..).unwrap_or_default());
        }
        let text = phases(&bytes);
        match std::str::from_utf8(&text).expect("it is text").split(' ').collect::<Vec<_>>()[..] {
            ["refused", number, _] => {
                refused.insert(number.parse::<usize>().expect("it is a number"));
            }
            _ => listed += 1,
        }
        print_this(&bytes, &text, &format!("seed {seed}"));
    }
    assert!(listed > 200, "{listed}");
    assert_eq!(refused.into_iter().collect::<Vec<_>>(), [1, 2, 3, 4, 5, 6, 8, 13, 14, 15]);
}
