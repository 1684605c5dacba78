//! The 176 limits of the histogram: what the proved program `limits` prints, the file that its output is held to, the library's
//! constant and the simulator's own fourth roots are the same numbers; and `bin/limits`, which proves the program and runs it.

use std::fs::{self, Permissions};
use std::os::unix::fs::PermissionsExt;
use std::path::{Path, PathBuf};
use std::process::Command;

use frame_tests::histogram::{limits, LIMITS};

/// What the program prints, as the gate has it.
const OUTPUT: &str = "crates/limits/stdout";
/// The proved program, which `bin/limits` makes.
const PROGRAM: &str = "target/bin/limits";
/// Where the constant stands, and how its declaration begins.
const SOURCE: &str = "crates/histogram_bucket/src/lib.rt";
const DECLARED: &str = "const LIMITS: [u64; 176] =";

fn path(name: &str) -> PathBuf {
    Path::new(env!("CARGO_MANIFEST_DIR")).join("..").join(name)
}

fn text(name: &str) -> String {
    fs::read_to_string(path(name)).unwrap_or_else(|error| panic!("{name}: {error}"))
}

/// The numbers of a text that has one on each line, in plain digits, and nothing else.
fn printed_numbers(text: &str) -> Option<Vec<u64>> {
    let plain = |line: &str| line.bytes().all(|byte| byte.is_ascii_digit()) && !line.starts_with('0');
    let lines = text.strip_suffix('\n')?.split('\n');
    lines.map(|line| line.parse().ok().filter(|_| plain(line))).collect()
}

/// The numbers between the brackets of the constant. A comment is none.
fn declared_numbers(source: &str) -> Option<Vec<u64>> {
    let code: String = source.lines().map(|line| line.split("//").next().unwrap_or("").to_owned() + "\n").collect();
    let mut after = code.split(DECLARED).skip(1);
    let list = after.next()?.trim_start().strip_prefix('[')?.split_once(']')?.0;
    // It is declared once.
    if after.next().is_some() {
        return None;
    }
    let list = list.trim_end();
    let numbers = list.strip_suffix(',').unwrap_or(list).split(',');
    numbers.map(|number| number.trim().replace('_', "").parse().ok()).collect()
}

/// All are limits, in their order.
fn same_limits(found: Option<Vec<u64>>, what: &str) {
    let found = found.unwrap_or_else(|| panic!("{what} is not a list of numbers"));
    assert_eq!(found.len(), LIMITS, "{what}");
    for (k, (found, want)) in found.into_iter().zip(limits()).enumerate() {
        assert_eq!(found, *want, "{what}: limit {k}");
    }
}

#[test]
fn the_output_of_the_program() {
    same_limits(printed_numbers(&text(OUTPUT)), OUTPUT);
    assert!(path(PROGRAM).exists(), "{PROGRAM} is missing: `bin/limits` makes it");
    let output = Command::new(path(PROGRAM)).output().expect("the program starts");
    assert!(output.status.success() && output.stderr.is_empty(), "{output:?}");
    assert!(output.stdout == text(OUTPUT).as_bytes(), "{PROGRAM} does not print {OUTPUT}");
}

#[test]
fn the_constant_of_the_library() {
    same_limits(declared_numbers(&text(SOURCE)), SOURCE);
}

/// What is compared above would show a number that is changed, missing or too many, at any place.
#[test]
fn a_changed_number_is_found() {
    let printed = |numbers: &[u64]| numbers.iter().map(|number| format!("{number}\n")).collect::<String>();
    let declared = |numbers: &[u64]| {
        let list: String = numbers.iter().map(|number| format!("    {number}, // a limit\n")).collect();
        format!("// The limits, as {DECLARED} [1, 2];\npub {DECLARED} [\n{list}];\n")
    };
    let both = |numbers: &[u64]| [printed_numbers(&printed(numbers)), declared_numbers(&declared(numbers))];
    for (found, what) in both(limits()).into_iter().zip(["printed", "declared"]) {
        same_limits(found, what);
    }
    for k in 0..LIMITS {
        let mut changed = limits().to_vec();
        changed[k] += 1;
        assert_eq!(both(&changed), [Some(changed.clone()), Some(changed.clone())], "limit {k}");
        changed.remove(k);
        assert_eq!(both(&changed).map(|found| found.map(|numbers| numbers.len())), [Some(LIMITS - 1); 2], "limit {k}");
    }
    for other in ["", "1", "1\n\n", "1\n 2\n", "1\r\n", "01\n", "+1\n", "1 2\n"] {
        assert_eq!(printed_numbers(other), None, "{other:?}");
    }
    for other in ["", "[1, 2]", "[1, x]", "[1,, 2]"] {
        assert_eq!(declared_numbers(&format!("{DECLARED}; {other}")), None, "{other:?}");
    }
    assert_eq!(declared_numbers(&[declared(limits()), declared(limits())].concat()), None);
}

// ---- bin/limits ----

fn script(file: &Path, body: &str) {
    fs::write(file, format!("#!/bin/sh\n{body}\n")).expect("the file can be written");
    fs::set_permissions(file, Permissions::from_mode(0o755)).expect("the file can be made a program");
}

/// `bin/limits` in a small repository of this name, where `rt` does this: status, standard output and standard error.
fn by_the_script(name: &str, rt: &str) -> (Option<i32>, String, String) {
    let scene = Path::new(env!("CARGO_TARGET_TMPDIR")).join("limits").join(name);
    if scene.exists() {
        fs::remove_dir_all(&scene).expect("the folder of the run before can be removed");
    }
    for folder in ["bin", "tools", "crates/limits/out"] {
        fs::create_dir_all(scene.join(folder)).expect("the folder can be made");
    }
    fs::copy(path("bin/limits"), scene.join("bin/limits")).expect("the script can be copied");
    script(&scene.join("tools/program"), "echo 1\necho 2");
    script(&scene.join("tools/rt"), &format!("[ \"$*\" = run ] && cd ../.. || exit 9\n{rt}"));
    let tools = format!("{}:{}", scene.join("tools").display(), std::env::var("PATH").expect("there is a PATH"));
    let output = Command::new(scene.join("bin/limits")).env("PATH", tools).output().expect("the script starts");
    let text = |bytes| String::from_utf8(bytes).expect("it is text");
    (output.status.code(), text(output.stdout), text(output.stderr))
}

#[test]
fn the_script_proves_and_runs_the_program() {
    let proves = "echo proved\ncp tools/program crates/limits/out/limits";
    assert_eq!(by_the_script("proved", proves), (Some(0), "1\n2\n".to_owned(), String::new()));
    let (status, printed, said) = by_the_script("failed", &format!("{proves}\necho why\nexit 1"));
    assert_eq!((status, printed.as_str()), (Some(2), ""));
    assert!(said.contains("why\n") && said.contains("bin/limits: the program is not proved"), "{said}");
}
