//! A support engineer's first commands, run as README.md prints them, and the scripts behind them: `bin/join`, which makes an
//! input of a tree file and a trace file, and `bin/phases`, which proves the program where it must and runs it.

use std::collections::BTreeMap;
use std::ffi::OsStr;
use std::fs::{self, File, Permissions};
use std::io::Write;
use std::os::unix::fs::{symlink, PermissionsExt};
use std::path::{Path, PathBuf};
use std::process::{Child, Command, Output, Stdio};
use std::time::SystemTime;

use frame_tests::cover::WORKERS;
use frame_tests::phases::{phases, MAX_INPUT};
use frame_tests::random::{trace_to_replay, tree, Rng};
use frame_tests::{Policy, Tree};

fn root() -> PathBuf {
    Path::new(env!("CARGO_MANIFEST_DIR")).join("..").canonicalize().expect("the repository is there")
}

fn read(name: &str) -> Vec<u8> {
    fs::read(root().join(name)).unwrap_or_else(|error| panic!("{name}: {error}"))
}

fn text(bytes: &[u8]) -> String {
    String::from_utf8(bytes.to_vec()).expect("it is text")
}

/// An empty folder of this name, for one test.
fn folder(name: &str) -> PathBuf {
    let folder = Path::new(env!("CARGO_TARGET_TMPDIR")).join("first_commands").join(name);
    if folder.exists() {
        fs::remove_dir_all(&folder).expect("the folder of the run before can be removed");
    }
    fs::create_dir_all(&folder).expect("the folder can be made");
    folder
}

/// Starts it with this standard input, which a pipe can hold.
fn start(command: &mut Command, input: &[u8]) -> Child {
    command.stdin(Stdio::piped()).stdout(Stdio::piped()).stderr(Stdio::piped());
    let mut child = command.spawn().expect("the command starts");
    child.stdin.take().expect("it is piped").write_all(input).expect("it takes the input");
    child
}

// ---- What README.md prints ----

/// The lines of its code, without their indentation.
fn code_of_readme() -> Vec<String> {
    text(&read("README.md")).lines().filter_map(|line| line.strip_prefix("    ")).map(str::to_owned).collect()
}

/// The commands on a tree file and a trace file, in README's order.
fn commands() -> Vec<String> {
    let starts = ["bin/phases", "bin/join", "awk "];
    code_of_readme().into_iter().filter(|line| starts.iter().any(|start| line.starts_with(start))).collect()
}

/// A listing's lines behind its heading: phase, worker and step.
fn rows(listing: &str) -> Vec<(&str, [usize; 3])> {
    let numbers = |line: &str| -> Vec<usize> { line.split(' ').map(|word| word.parse().expect("it is a number")).collect() };
    listing.lines().skip(1).map(|line| (line, numbers(line).try_into().expect("there are three numbers"))).collect()
}

fn lines<'a>(lines: impl Iterator<Item = &'a str>) -> String {
    lines.map(|line| line.to_owned() + "\n").collect()
}

/// Each command prints what is computed here from the simulator's listing.
#[test]
fn the_commands_of_the_readme() {
    let (example, refused) = ("examples/phases/tree-s-work-first.bin", "examples/phases/refused-15-work-first.bin");
    let listing = text(&phases(&read(example)));
    assert_eq!(listing, text(&read("examples/phases/tree-s-work-first.txt")));
    let rows = rows(&listing);
    let of_worker_1 = lines(rows.iter().filter(|(_, [_, worker, _])| *worker == 1).map(|row| row.0));
    let mut counts = BTreeMap::new();
    rows.iter().for_each(|(_, [_, worker, _])| *counts.entry(worker).or_insert(0) += 1);
    let counts: String = counts.into_iter().map(|(worker, count)| format!("{count:7} {worker}\n")).collect();
    let begins = |k: usize| k == 0 || rows[k - 1].1[0] != rows[k].1[0];
    let first_of_phases = lines((0..rows.len()).filter(|k| begins(*k)).map(|k| rows[k].0));

    let (kept, joins) = ("target/listing.txt", "bin/join work-first examples/tree-s.tree examples/tree-s-work-first.trace");
    let want = [
        (format!("bin/phases < {example}"), listing.clone()),
        (format!("{joins} | bin/phases > {kept}"), String::new()),
        (format!("awk '$2 == 1' {kept}"), of_worker_1),
        (format!("awk 'NR > 1 {{ print $2 }}' {kept} | sort -n | uniq -c"), counts),
        (format!("awk 'NR > 1 && !seen[$1]++' {kept}"), first_of_phases),
        (format!("bin/phases < {refused}"), text(&phases(&read(refused)))),
    ];
    let commands = commands();
    let bare = commands.iter().map(|command| command.split(" #").next().unwrap_or("").trim_end());
    assert_eq!(bare.collect::<Vec<_>>(), want.iter().map(|(command, _)| command.as_str()).collect::<Vec<_>>());
    for (command, (_, printed)) in commands.iter().zip(&want) {
        let output = Command::new("bash").arg("-c").arg(command).current_dir(root()).stdin(Stdio::null()).output();
        let output = output.expect("bash starts");
        assert!(output.status.success(), "{command}: {}, {}", output.status, text(&output.stderr));
        assert_eq!(text(&output.stdout), *printed, "{command}");
    }
    assert_eq!(text(&read(kept)), listing);

    // What README says that they print: the columns of its picture, and the refusal.
    let picture = code_of_readme();
    listing.lines().zip(&picture).for_each(|(line, drawn)| assert!(drawn.contains(line), "{drawn} is not {line}"));
    assert_eq!(want[5].1, "refused 15 1\n");
    assert!(text(&read("README.md")).contains("This prints `refused 15 1`: condition 15 of"));
    assert!(text(&read("docs/FORMAT.md")).contains("\n## Refusals\n"));
}

/// Where the program's input cannot be read or its output not be written, one line says so and the status is 1.
#[test]
fn a_failure_of_input_or_output() {
    let input = "examples/phases/tree-s-work-first.bin";
    for (command, line) in [
        ("bin/phases < .".to_owned(), "phases: standard input could not be read\n"),
        (format!("bin/phases < {input} > /dev/full"), "phases: standard output could not be written\n"),
        (format!("bin/phases < {input} >&-"), "bin/phases: standard output could not be written\n"),
    ] {
        let output = Command::new("bash").arg("-c").arg(&command).current_dir(root()).stdin(Stdio::null()).output();
        let output = output.expect("bash starts");
        assert_eq!((output.status.code(), text(&output.stderr), text(&output.stdout)), (Some(1), line.into(), "".into()), "{command}");
    }
}

// ---- bin/join ----

fn join(arguments: &[&OsStr]) -> Output {
    let mut command = Command::new(root().join("bin/join"));
    command.args(arguments).env("LC_ALL", "C").stdin(Stdio::null()).output().expect("bin/join starts")
}

/// Files of these bytes.
fn files(folder: &Path, tree: &[u8], trace: &[u8]) -> [PathBuf; 2] {
    let files = ["a tree", "a trace"].map(|name| folder.join(name));
    fs::write(&files[0], tree).expect("the file can be written");
    fs::write(&files[1], trace).expect("the file can be written");
    files
}

fn joined(folder: &Path, policy: &str, tree: &[u8], trace: &[u8], case: &str) -> Vec<u8> {
    let [tree, trace] = files(folder, tree, trace);
    let output = join(&[policy.as_ref(), tree.as_ref(), trace.as_ref()]);
    assert!(output.status.success() && output.stderr.is_empty(), "{case}: {}", text(&output.stderr));
    output.stdout
}

fn input(policy: u8, tree: &[u8], trace: &[u8]) -> Vec<u8> {
    let n = u16::try_from(tree.len() / 8).expect("the count has two bytes");
    [&[policy], &n.to_le_bytes()[..], tree, trace].concat()
}

const POLICIES: [(&str, u8); 4] = [("work-first", 1), ("1", 1), ("help-first", 2), ("2", 2)];

/// Any bytes are joined, none of them changed.
#[test]
fn any_tree_and_trace_are_joined() {
    let folder = folder("joined");
    for seed in 0..40 {
        let mut rng = Rng::new(seed);
        let (name, policy) = rng.pick(&POLICIES);
        let records = if rng.percent(70) { rng.below(9) } else { rng.below(6_144) };
        let tree = rng.bytes(8 * records);
        let room = MAX_INPUT - 3 - tree.len();
        let length = rng.below(room + 1);
        let length = rng.pick(&[0, length, room]);
        let trace = rng.bytes(length);
        let case = format!("seed {seed}");
        assert!(joined(&folder, name, &tree, &trace, &case) == input(policy, &tree, &trace), "{case}: other bytes");
    }
}

/// The program on what was joined lists what the simulator lists.
#[test]
fn joined_frames_are_listed() {
    let folder = folder("listed");
    for seed in 0..20 {
        let mut rng = Rng::new(seed);
        let (name, policy) = rng.pick(&POLICIES);
        let tasks = rng.below(60);
        let tree = tree(&mut rng, tasks);
        let parsed = Tree::parse(&tree).expect("the tree is accepted");
        let trace = trace_to_replay(&mut rng, Policy::parse(policy).expect("the policy is one"), WORKERS, &parsed);
        let case = format!("seed {seed}");
        let bytes = joined(&folder, name, &tree, &trace, &case);
        let child = start(&mut Command::new(root().join("bin/phases")), &bytes);
        let output = child.wait_with_output().expect("the program ends");
        assert!(output.status.success(), "{case}: {}", text(&output.stderr));
        assert_eq!(text(&output.stdout), text(&phases(&input(policy, &tree, &trace))), "{case}");
    }
}

/// Refused: one line, which has these words, status 2, and nothing joined.
fn join_refuses(arguments: &[&OsStr], words: &[&str]) {
    let output = join(arguments);
    let said = text(&output.stderr);
    assert_eq!(output.status.code(), Some(2), "{arguments:?}: {said}");
    assert!(output.stdout.is_empty(), "{arguments:?}");
    assert!(said.starts_with("bin/join: ") && said.ends_with('\n') && said.lines().count() == 1, "{arguments:?}: {said}");
    words.iter().for_each(|word| assert!(said.contains(word), "{arguments:?}: {said} does not say {word}"));
}

#[test]
fn what_cannot_be_joined_is_refused() {
    let folder = folder("refused");
    let [tree, trace] = files(&folder, &[3, 0, 0, 0, 1, 0, 0, 0], &[]);
    let [tree, trace] = [tree.as_os_str(), trace.as_os_str()];
    let one = OsStr::new("1");

    join_refuses(&[], &["usage"]);
    join_refuses(&[one, tree], &["usage"]);
    join_refuses(&[one, tree, trace, trace], &["usage"]);
    for policy in ["", "0", "3", "01", "11", "work", "Work-first", "work-first ", "*", "-h"] {
        join_refuses(&[policy.as_ref(), tree, trace], &["work-first", "help-first", &format!("'{policy}'")]);
    }
    let nothing = folder.join("nothing");
    join_refuses(&[one, nothing.as_ref(), trace], &["the tree", "nothing"]);
    join_refuses(&[one, tree, nothing.as_ref()], &["the trace", "nothing"]);
    join_refuses(&[one, folder.as_ref(), trace], &["the tree", "irectory"]);
    join_refuses(&[one, tree, folder.as_ref()], &["the trace", "irectory"]);
}

#[test]
fn lengths_that_cannot_be_joined_are_refused() {
    let folder = folder("lengths");
    let refuses = |tree: usize, trace: usize, words: &[&str]| {
        let [tree, trace] = files(&folder, &vec![3; tree], &vec![3; trace]);
        join_refuses(&["help-first".as_ref(), tree.as_ref(), trace.as_ref()], words);
    };
    for length in [1, 7, 9, 55, 57, 32_761] {
        refuses(length, 12, &["a tree", &format!("{length} bytes"), "whole records of 8"]);
    }
    for (tree, trace) in [(0, 49_150), (8, 49_142), (49_144, 6), (49_152, 0), (8 * 65_535, 0), (56, 1_000_000)] {
        refuses(tree, trace, &["a tree", "a trace", "too long", "49152"]);
    }
    for records in [65_536, 200_000] {
        refuses(8 * records, 0, &["a tree", "more than 65535 records"]);
    }
    // As long as can be: the program refuses these, and the script does not.
    for (tree, trace) in [(0, 49_149), (8, 49_141), (49_144, 5)] {
        let [tree, trace] = [vec![3; tree], vec![3; trace]];
        assert_eq!(joined(&folder, "2", &tree, &trace, "as long as can be"), input(2, &tree, &trace));
    }
}

// ---- bin/phases ----

/// A small repository in which `rt` and the program are scripts. Its sources are not named `*.rt`: the gate looks for lost ones.
struct Scene(PathBuf);

/// What `rt` does where all is well. It takes a moment, so that the next change has a later time.
const PROVES: &str = "sleep 0.05\nmkdir -p crates/phases/out\ncp tools/phases crates/phases/out/";

/// What `bin/phases` is given.
const INPUT: &str = "an input\n";

/// Status, standard output and standard error.
type Ended = (Option<i32>, String, String);

fn ended(child: Child) -> Ended {
    let output = child.wait_with_output().expect("the script ends");
    (output.status.code(), text(&output.stdout), text(&output.stderr))
}

impl Drop for Scene {
    fn drop(&mut self) {
        // If it cannot be removed, it stays.
        let _ = fs::remove_dir_all(&self.0);
    }
}

impl Scene {
    /// Outside of the checkout, below whose top the gate refuses another crates.txt and links.
    fn new(name: &str, rt: &str) -> Scene {
        let scene = Scene(std::env::temp_dir().join(format!("first_commands-{}-{name}", std::process::id())));
        for folder in ["bin", "tools", "crates/one/src", "crates/phases/src"] {
            fs::create_dir_all(scene.0.join(folder)).expect("the folder can be made");
        }
        fs::copy(root().join("bin/phases"), scene.0.join("bin/phases")).expect("the script can be copied");
        scene.write("crates.txt", "one:\n");
        scene.write("crates/one/src/lib", "mod more;\n");
        scene.write("crates/one/src/more", "\n");
        // A program with an output, a standard error and a status.
        scene.script("tools/phases", "cat\necho said >&2\nexit 7");
        scene.set_rt(rt);
        scene
    }

    fn write(&self, name: &str, text: &str) {
        fs::write(self.0.join(name), text).expect("the file can be written");
    }

    fn script(&self, name: &str, body: &str) {
        self.write(name, &format!("#!/bin/sh\n{body}\n"));
        fs::set_permissions(self.0.join(name), Permissions::from_mode(0o755)).expect("the file can be made a program");
    }

    /// `rt` does this, once it has noted what is asked and taken all of standard input.
    fn set_rt(&self, body: &str) {
        self.script("tools/rt", &format!("cd ../..\necho \"rt $*\" >>runs\ncat >>eaten\n{body}"));
    }

    /// `bin/phases`, which is found by its path from elsewhere.
    fn phases(&self) -> Command {
        let path = std::env::var("PATH").expect("there is a PATH");
        let mut command = Command::new("bash");
        command.arg(self.0.join("bin/phases")).env("PATH", format!("{}:{path}", self.0.join("tools").display()));
        command
    }

    fn run(&self) -> Ended {
        ended(start(&mut self.phases(), INPUT.as_bytes()))
    }

    /// The program alone has spoken. On a slow machine any proof may be long enough to be announced.
    fn spoke(&self, (status, printed, said): Ended, proved: bool, case: &str) {
        let said = if proved { said.replace(&self.announced(), "") } else { said };
        assert_eq!((status, printed.as_str(), said.as_str()), (Some(7), INPUT, "said\n"), "{case}");
    }

    /// `rt` is asked, and the program runs.
    fn proves(&self, case: &str) {
        let asked = self.asked();
        self.spoke(self.run(), true, case);
        assert_eq!(self.asked(), asked + 1, "{case}");
    }

    /// The program runs at once.
    fn runs(&self, case: &str) {
        let asked = self.asked();
        self.spoke(self.run(), false, case);
        assert_eq!(self.asked(), asked, "{case}");
    }

    /// How often `rt` was asked, which left the program's input alone.
    fn asked(&self) -> usize {
        let [runs, eaten] = ["runs", "eaten"].map(|name| text(&fs::read(self.0.join(name)).unwrap_or_default()));
        assert_eq!(eaten, "");
        runs.lines().for_each(|line| assert_eq!(line, "rt run"));
        runs.lines().count()
    }

    fn log(&self) -> PathBuf {
        self.0.join("target/phases.log")
    }

    fn announced(&self) -> String {
        let log = self.log();
        format!("bin/phases: proving the program first, which takes some minutes; see {}\n", log.display())
    }
}

/// A name for what happens, and what it does to the repository.
type Change = (&'static str, fn(&Path));

#[test]
fn what_has_changed_is_proved_first() {
    let scene = Scene::new("changes", PROVES);
    scene.proves("the first run");
    scene.runs("the second run");
    let changes: [Change; 6] = [
        ("another text", |folder| fs::write(folder.join("crates/one/src/lib"), "").expect("it can be written")),
        ("a file less", |folder| fs::remove_file(folder.join("crates/one/src/more")).expect("it can be removed")),
        ("a file more", |folder| fs::write(folder.join("crates/one/src/more"), "").expect("it can be written")),
        ("another map", |folder| fs::write(folder.join("crates.txt"), "").expect("it can be written")),
        ("an older date", |folder| {
            let file = File::options().write(true).open(folder.join("crates/one/src/lib")).expect("it can be opened");
            file.set_modified(SystemTime::UNIX_EPOCH).expect("it can be given a date");
        }),
        ("no program", |folder| fs::remove_file(folder.join("target/bin/phases")).expect("it can be removed")),
    ];
    for (case, change) in changes {
        change(&scene.0);
        scene.proves(case);
        scene.runs(case);
    }
}

#[test]
fn two_at_once_prove_once() {
    let scene = Scene::new("at-once", PROVES);
    let both = [(); 2].map(|()| start(&mut scene.phases(), INPUT.as_bytes()));
    both.into_iter().for_each(|child| scene.spoke(ended(child), true, "two at once"));
    assert_eq!(scene.asked(), 1);
}

#[test]
fn a_long_proof_is_announced() {
    let scene = Scene::new("long", &format!("sleep 3\n{PROVES}"));
    assert_eq!(scene.run(), (Some(7), INPUT.to_owned(), scene.announced() + "said\n"));
    scene.runs("the second run");
}

/// The end of what the prover said is shown, and the program of before is not run.
#[test]
fn a_failed_proof_is_shown() {
    let scene = Scene::new("failed", PROVES);
    scene.proves("the first run");
    scene.set_rt("seq 1 15\nseq 16 30 >&2\nexit 1");
    scene.write("crates/one/src/lib", "mod less;\n");
    let numbers = |first: usize| -> String { (first..=30).map(|number| format!("{number}\n")).collect() };
    let log = scene.log();
    let line = format!("bin/phases: the program is not proved; {} has all that the prover said\n", log.display());
    for asked in [2, 3] {
        let (status, printed, said) = scene.run();
        assert_eq!((status, printed), (Some(2), String::new()));
        assert_eq!(said.replace(&scene.announced(), ""), numbers(11) + &line);
        assert_eq!(text(&fs::read(&log).expect("it can be read")), numbers(1));
        assert_eq!(scene.asked(), asked);
    }
    scene.set_rt(PROVES);
    scene.proves("a proof after the failed ones");
}

#[test]
fn without_rt_or_with_an_argument_nothing_runs() {
    let scene = Scene::new("without", PROVES);
    let refused = |command: &mut Command, words: &str| {
        let (status, printed, said) = ended(start(command, b""));
        assert_eq!((status, printed.as_str(), said.lines().count()), (Some(2), "", 1), "{said}");
        assert!(said.starts_with("bin/phases: ") && said.contains(words), "{said}");
    };
    refused(scene.phases().arg("examples/tree-s.tree"), "usage: bin/phases < INPUT");
    // What the script uses up to there, and no rt.
    let few = scene.0.join("few");
    fs::create_dir(&few).expect("the folder can be made");
    for tool in ["bash", "dirname"] {
        let output = Command::new("bash").args(["-c", "type -P \"$0\"", tool]).output().expect("bash starts");
        symlink(text(&output.stdout).trim_end(), few.join(tool)).expect("the link can be made");
    }
    refused(scene.phases().env("PATH", few), "rt is not on the PATH");
    assert_eq!(scene.asked(), 0);
}
