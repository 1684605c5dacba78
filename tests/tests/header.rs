//! The library's interface is declared three times: in its source, in the C header and, for the tests, in Rust. These tests hold
//! the three together, and the tables of docs/FORMAT.md with them: functions, structs, constants, refusals and versions. They
//! need `gcc`.

mod library;

use std::collections::{BTreeMap, BTreeSet};
use std::fs;
use std::mem::{offset_of, size_of};
use std::path::{Path, PathBuf};
use std::process::Command;

use frame_tests::cover::WORKERS;
use frame_tests::histogram::{BUCKETS, LIMITS, MAX_TRACES};
use frame_tests::record::{EVENT_BYTES, MAX_EVENTS};
use frame_tests::replay::{MAX_TRACE, TRACE_BYTES};
use frame_tests::schedule::most_events;
use frame_tests::tree::{CLASSES, MAX_OPEN, MAX_TREE_BYTES, TREE_RECORD};
use library::{
    FrameAdded, FrameEvent, FrameIdle, FrameOutcome, FrameRecord, FrameReplay, FrameRunning, FrameSchedule, FrameSpan, FrameStart,
    FrameTask, FrameTree, Histogram, RunState,
};

const HEADER: &str = "include/frame.h";
const RUST: &str = "tests/tests/library/mod.rs";
/// The refusals by name and number.
const REFUSALS: &str = "crates/refusals/src/lib.rt";
/// The crates whose functions the library exports.
const SOURCES: [&str; 6] = [
    "crates/frame_run/src/lib.rt",
    "crates/frame_traces/src/lib.rt",
    "crates/frame_histogram/src/lib.rt",
    "crates/frame_schedule/src/lib.rt",
    "crates/frame_tree/src/lib.rt",
    "crates/frame_dag/src/lib.rt",
];
/// The crate of the structs that `frame_run`, `frame_traces` and `frame_schedule` answer.
const SOURCE_OF_ANSWERS: &str = "crates/frame_answers/src/lib.rt";
/// The structs that C takes and gets by value, each with its crate.
const SOURCES_OF_STATES: [(&str, &str); 2] =
    [("RunState", "crates/run_state/src/lib.rt"), ("Histogram", "crates/histogram/src/lib.rt")];
/// The crates of the constants that are lengths of arrays in these structs.
const SOURCES_OF_LENGTHS: [&str; 3] =
    ["crates/policy/src/lib.rt", "crates/tree/src/lib.rt", "crates/histogram_bucket/src/lib.rt"];

fn path(name: &str) -> PathBuf {
    Path::new(env!("CARGO_MANIFEST_DIR")).join("..").join(name)
}

fn text(name: &str) -> String {
    fs::read_to_string(path(name)).unwrap_or_else(|error| panic!("{name}: {error}"))
}

/// Rust's or Rattle's text without comments.
fn rust_text(name: &str) -> String {
    text(name).lines().map(|line| line.split("//").next().unwrap_or("").to_owned() + "\n").collect()
}

/// The header's text without comments.
fn header_text() -> String {
    let whole = text(HEADER);
    let mut pieces = whole.split("/*");
    let mut plain = pieces.next().unwrap_or("").to_owned();
    for piece in pieces {
        plain += piece.split_once("*/").expect("every comment ends").1;
    }
    plain
}

/// The rows of a table of FORMAT.md.
fn format_rows(heading: &str) -> Vec<Vec<String>> {
    let whole = text("docs/FORMAT.md");
    let table = whole.split_once(&format!("\n{heading}\n")).unwrap_or_else(|| panic!("there is no table {heading}")).1;
    let rows = table.lines().skip(1).take_while(|row| row.starts_with('|'));
    rows.map(|row| row.trim_matches('|').split('|').map(|cell| cell.trim().to_owned()).collect()).collect()
}

// ---- Functions ----

/// The types of C that a parameter or a result of Rust or Rattle is.
fn c_types(rust: &str) -> &[&str] {
    match rust {
        "&[u8]" => &["const uint8_t *", "size_t"],
        "&mut [u8]" => &["uint8_t *", "size_t"],
        "*const u8" => &["const uint8_t *"],
        "*mut u8" => &["uint8_t *"],
        "&mut RunState" | "*mut RunState" => &["FrameState *"],
        "RunState" => &["FrameState"],
        "usize" => &["size_t"],
        "u8" => &["uint8_t"],
        "u32" => &["uint32_t"],
        "FrameTree" => &["FrameTree"],
        "FrameTask" => &["FrameTask"],
        "FrameRunning" => &["FrameRunning"],
        "FrameStart" => &["FrameStart"],
        "FrameOutcome" => &["FrameOutcome"],
        "FrameEvent" => &["FrameEvent"],
        "FrameIdle" => &["FrameIdle"],
        "FrameRecord" => &["FrameRecord"],
        "FrameReplay" => &["FrameReplay"],
        "FrameSchedule" => &["FrameSchedule"],
        "FrameSpan" => &["FrameSpan"],
        "Histogram" => &["FrameHistogram"],
        "FrameAdded" => &["FrameAdded"],
        _ => panic!("which type of C is {rust}?"),
    }
}

fn signature(result: &str, name: &str, parameters: &[&str]) -> String {
    format!("{result} {name}({})", parameters.join(", "))
}

/// The signature in C of `name(parameter: type, ..) -> type`, followed by anything.
fn rust_signature(function: &str) -> String {
    let (name, rest) = function.split_once('(').expect("a name stands before the parameters");
    let (parameters, rest) = rest.split_once(')').expect("the parameters end");
    let result = rest.trim_start().strip_prefix("->").expect("there is a result").split_whitespace().next();
    let types = parameters.split(',').filter(|parameter| !parameter.trim().is_empty()).flat_map(|parameter| {
        c_types(parameter.split_once(':').expect("a parameter has a type").1.trim())
    });
    signature(c_types(result.expect("a result has a type"))[0], name, &types.copied().collect::<Vec<_>>())
}

/// What the library exports.
fn exported_functions() -> BTreeSet<String> {
    let whole: String = SOURCES.map(rust_text).concat();
    whole.split("#[unsafe(no_mangle)]\npub extern \"C\" fn ").skip(1).map(rust_signature).collect()
}

/// What the Rust tests declare.
fn rust_functions() -> BTreeSet<String> {
    let whole = rust_text(RUST);
    let block = whole.split_once("extern \"C\" {").expect("there is a block of functions").1;
    let block = block.split_once('}').expect("the block ends").0;
    block.split(';').filter_map(|function| Some(rust_signature(function.split_once("pub fn ")?.1))).collect()
}

/// What the header declares.
fn header_functions() -> BTreeSet<String> {
    let whole = header_text();
    let declared: Vec<&str> = whole.lines().filter(|line| !line.starts_with('#')).collect();
    let mut functions = BTreeSet::new();
    for declaration in declared.join("\n").split(';') {
        let Some((before, after)) = declaration.split_once('(') else { continue };
        let (result, name) = before.trim().rsplit_once([' ', '\n']).unwrap_or(("", before.trim()));
        if name == "static_assert" {
            continue;
        }
        let parameters = after.trim_end().strip_suffix(')').expect("the parameters end").split(',');
        let of_a_name = |letter: char| letter.is_ascii_lowercase() || letter == '_';
        let types = parameters.map(|parameter| parameter.trim().trim_end_matches(of_a_name).trim_end());
        functions.insert(signature(result.trim(), name, &types.collect::<Vec<_>>()));
    }
    functions
}

#[test]
fn the_same_functions() {
    let exported = exported_functions();
    for name in ["kind", "class"] {
        let function = format!("uint8_t frame_{name}(const uint8_t *, size_t, size_t)");
        assert!(exported.contains(&function), "{exported:#?}");
    }
    assert_eq!(exported.len(), SOURCES.map(text).concat().matches("extern \"C\" fn").count());
    assert_eq!(header_functions(), exported);
    assert_eq!(rust_functions(), exported);
}

// ---- Structs ----

/// The `#[repr(C)]` structs of Rust's or Rattle's text: the fields and their types, in order.
fn rust_structs(name: &str) -> BTreeMap<String, Vec<String>> {
    let whole = rust_text(name);
    let mut structs = BTreeMap::new();
    for after in whole.split("#[repr(C)]").skip(1) {
        let declaration = after.split_once("pub struct ").expect("a struct follows").1;
        let (name, rest) = declaration.split_once(" {").expect("it has fields");
        let fields = rest.split_once('}').expect("they end").0.split(",\n").map(|field| field.trim().to_owned());
        structs.insert(name.to_owned(), fields.filter(|field| !field.is_empty()).collect());
    }
    structs
}

/// A field of Rattle's text, with the number for a constant that is the length of an array.
fn with_length(field: &str) -> String {
    let Some((before, name)) = field.strip_suffix(']').and_then(|array| array.split_once("; ")) else { return field.to_owned() };
    let constants = SOURCES_OF_LENGTHS.map(rust_text).concat();
    let value = constants.split_once(&format!("pub const {name}: usize = ")).unwrap_or_else(|| panic!("what is {name}?")).1;
    format!("{before}; {}]", value.split_once(';').expect("a constant ends").0)
}

#[test]
fn the_same_structs() {
    let sources = SOURCES.into_iter().chain([SOURCE_OF_ANSWERS]);
    let mut exported: BTreeMap<_, _> = sources.flat_map(rust_structs).collect();
    for (name, source) in SOURCES_OF_STATES {
        exported.extend([rust_structs(source).remove_entry(name).expect("it is a struct of C")]);
    }
    for fields in exported.values_mut() {
        *fields = fields.iter().map(|field| with_length(field)).collect();
    }
    assert_eq!(rust_structs(RUST), exported);
}

fn size_of_field<Whole, Field>(_: fn(&Whole) -> &Field) -> usize {
    size_of::<Field>()
}

/// Adds the lines of a struct to those that `tests/c/layout.c` should print. A field left out does not compile.
macro_rules! layout {
    ($lines:ident, $name:literal, $whole:ident { $($field:ident),* }) => {
        let _ = |whole: $whole| { let $whole { $($field: _),* } = whole; };
        $lines.insert($name.to_owned(), vec![size_of::<$whole>()]);
        $($lines.insert(
            format!("{}.{}", $name, stringify!($field)),
            vec![offset_of!($whole, $field), size_of_field(|whole: &$whole| &whole.$field)],
        );)*
    };
}

fn layout() -> BTreeMap<String, Vec<usize>> {
    let mut lines = BTreeMap::new();
    layout!(lines, "FrameState", RunState { place, policy, held, phase, low, base, steals, workers });
    layout!(lines, "FrameStart", FrameStart { number, position, state });
    layout!(lines, "FrameOutcome", FrameOutcome { number, position, what, phase, step, trace });
    layout!(lines, "FrameEvent", FrameEvent { outcome, state });
    layout!(lines, "FrameIdle", FrameIdle { set, count, lowest });
    layout!(lines, "FrameRecord", FrameRecord { number, position, logs, steals, finished, loads, heaviest, class_loads });
    layout!(lines, "FrameReplay", FrameReplay { number, position, phases, loads, heaviest, class_loads });
    layout!(lines, "FrameSchedule", FrameSchedule { number, position, events });
    layout!(lines, "FrameSpan", FrameSpan { number, position, work, span, length });
    layout!(lines, "FrameHistogram", Histogram { traces, counts });
    layout!(lines, "FrameAdded", FrameAdded { replay, histogram });
    layout!(lines, "FrameTree", FrameTree { number, position, steps });
    layout!(lines, "FrameTask", FrameTask { first, ordinal });
    layout!(lines, "FrameRunning", FrameRunning { opens, hold, push });
    lines
}

/// Offset and size of a struct's fields, in their order.
fn fields(name: &str) -> Vec<Vec<usize>> {
    let of_it = |(field, place): (String, Vec<usize>)| field.starts_with(&format!("{name}.")).then_some(place);
    let mut places: Vec<_> = layout().into_iter().filter_map(of_it).collect();
    places.sort();
    places
}

/// Offset and bytes in the columns of a table of FORMAT.md, where there is an offset.
fn format_fields(heading: &str, offset: usize, bytes: usize) -> Vec<Vec<usize>> {
    let factor = |word: &str| word.parse::<usize>().expect("it is a number");
    let number = |cell: &str| cell.replace(',', "").split(" × ").map(factor).product();
    let rows = format_rows(heading).into_iter().filter(|row| !row[offset].is_empty());
    rows.map(|row| vec![number(&row[offset]), number(&row[bytes])]).collect()
}

#[test]
fn the_layouts_of_the_format() {
    assert_eq!(format_fields("| offset | bytes | meaning |", 0, 1), fields("FrameState"));
    assert_eq!(format_fields("| offset in a histogram | bytes | meaning |", 0, 1), fields("FrameHistogram"));
    let answers = "| offset, record | offset, replay | offset, schedule | offset, span | bytes | meaning |";
    assert_eq!(format_fields(answers, 0, 4), fields("FrameRecord"));
    assert_eq!(format_fields(answers, 1, 4), fields("FrameReplay"));
    assert_eq!(format_fields(answers, 2, 4), fields("FrameSchedule"));
    assert_eq!(format_fields(answers, 3, 4), fields("FrameSpan"));
}

/// The fields of a state cover it from its first byte to its last.
#[test]
fn no_byte_of_a_state_is_padding() {
    let places = fields("FrameState");
    assert_eq!(places, [[0, 4_095], [4_095, 1], [4_096, 32], [4_128, 32], [4_160, 32], [4_192, 32], [4_224, 2], [4_226, 2]]);
    let end = places.iter().fold(0, |end, place| {
        assert_eq!(place[0], end, "{places:?}");
        end + place[1]
    });
    assert_eq!((end, size_of::<RunState>()), (4_228, 4_228));
}

/// A histogram is its counts and nothing else, and an addition's answer is replay's with the histogram behind it.
#[test]
fn no_byte_of_a_histogram_is_padding() {
    assert_eq!(fields("FrameHistogram"), [[0, 4], [4, 4 * 177]]);
    assert_eq!(size_of::<Histogram>(), 4 + 4 * 177);
    assert_eq!(fields("FrameAdded"), [[0, 288], [288, 712]]);
    assert_eq!(size_of::<FrameAdded>(), 288 + 712);
}

/// The class loads stand last, and all else where it was before there were classes.
#[test]
fn class_loads_stand_last() {
    let [recorded, replayed] = ["FrameRecord", "FrameReplay"].map(fields);
    assert_eq!(recorded, [[0, 8], [8, 8], [16, 8], [24, 8], [32, 8], [40, 128], [168, 8], [176, 128]]);
    assert_eq!(replayed, [[0, 8], [8, 8], [16, 8], [24, 128], [152, 8], [160, 128]]);
    assert_eq!((offset_of!(FrameRecord, class_loads), size_of::<FrameRecord>()), (176, 304));
    assert_eq!((offset_of!(FrameReplay, class_loads), size_of::<FrameReplay>()), (160, 288));
}

// ---- Constants ----

/// The versions of the header that FORMAT.md lists.
fn versions() -> Vec<usize> {
    let rows = format_rows("| version | what a caller sees |");
    rows.iter().map(|row| row[0].parse().expect("it is a number")).collect()
}

#[test]
fn the_versions_of_the_format() {
    assert_eq!(versions(), [1, 2, 3, 4, 5, 6]);
}

/// What a name of the header stands for, apart from the refusals.
fn constants() -> BTreeMap<String, Vec<usize>> {
    let steps = MAX_TREE_BYTES / TREE_RECORD;
    [
        ("FRAME_VERSION", *versions().last().expect("there is a version")),
        ("FRAME_MOST_STEPS", steps),
        ("FRAME_MOST_OPEN", MAX_OPEN),
        ("FRAME_WORKERS", WORKERS),
        ("FRAME_CLASSES", CLASSES),
        ("FRAME_MOST_EVENTS", MAX_EVENTS),
        ("FRAME_MOST_STEALS", MAX_TRACE),
        ("FRAME_LIMITS", LIMITS),
        ("FRAME_BUCKETS", BUCKETS),
        ("FRAME_MOST_TRACES", MAX_TRACES as usize),
        ("FRAME_STACK_BYTES", 96 * 1_024),
        ("FRAME_TREE_BYTES(4095)", MAX_TREE_BYTES),
        ("FRAME_LOG_BYTES(4095)", 4 * steps),
        // A byte more than is asked for.
        ("FRAME_TRACE_BYTES(4095)", TRACE_BYTES * MAX_TRACE + 1),
        ("FRAME_LIST_BYTES(4095)", 4 * steps),
        ("FRAME_EVENTS_BYTES(4095)", EVENT_BYTES * most_events(steps)),
        ("FRAME_CHAIN_BYTES(4095)", 2 * steps),
        // Never 0, which no array may have.
        ("FRAME_TRACE_BYTES(1)", 1),
        // An argument is taken whole.
        ("FRAME_TREE_BYTES(1|2)", 3 * TREE_RECORD),
        ("FRAME_LOG_BYTES(1|2)", 3 * 4),
        ("FRAME_TRACE_BYTES(1|2)", TRACE_BYTES + 1),
        ("FRAME_LIST_BYTES(1|2)", 3 * 4),
        ("FRAME_EVENTS_BYTES(1|2)", EVENT_BYTES * most_events(3)),
        ("FRAME_CHAIN_BYTES(1|2)", 3 * 2),
        ("FRAME_ASYNC", 1),
        ("FRAME_FINISH", 2),
        ("FRAME_END", 3),
        ("FRAME_WORK_FIRST", 1),
        ("FRAME_HELP_FIRST", 2),
        ("FRAME_ACCEPTED", 0),
        ("FRAME_RAN", 1),
        ("FRAME_STOLE", 2),
        ("FRAME_PLACE_RUN", library::RUN.into()),
        ("FRAME_PLACE_NOT_RUN", library::NOT_RUN.into()),
        ("FRAME_NO_STEP", library::NO_STEP.into()),
    ]
    .map(|(name, value)| (name.to_owned(), vec![value]))
    .into()
}

/// The refusals of the header: number, name and condition.
fn header_refusals() -> Vec<(usize, String, String)> {
    let refusal = |line: &str| {
        let (name, rest) = line.trim().split_once(" = ").expect("a name has a number");
        let (number, rest) = rest.split_once("/* ").expect("a refusal has a condition");
        let number = number.trim().trim_end_matches(',').parse().expect("it is a number");
        (number, name.to_owned(), rest.trim_end_matches(" */").to_owned())
    };
    text(HEADER).lines().filter(|line| line.trim_start().starts_with("FRAME_REFUSED_")).map(refusal).collect()
}

/// The refusals of the sources: number, name as the header would have it, and condition.
fn source_refusals() -> Vec<(usize, String, String)> {
    let whole = text(REFUSALS);
    let block = whole.split_once("pub enum Refusal {").expect("the refusals are there").1.split_once('}').expect("they end").0;
    let lines: Vec<&str> = block.lines().map(str::trim).filter(|line| !line.is_empty()).collect();
    let refusal = |pair: &[&str]| {
        let condition = pair[0].strip_prefix("// ").expect("a refusal has a condition");
        let (name, number) = pair[1].trim_end_matches(',').split_once(" = ").expect("a refusal has a number");
        let parts = name.chars().flat_map(|c| c.is_uppercase().then_some('_').into_iter().chain(c.to_uppercase()));
        let name: String = "FRAME_REFUSED".chars().chain(parts).collect();
        (number.parse().expect("it is a number"), name, condition.to_owned())
    };
    lines.chunks(2).map(refusal).collect()
}

#[test]
fn the_refusals_of_the_sources() {
    assert_eq!(source_refusals(), header_refusals());
}

#[test]
fn the_refusals_of_the_format() {
    let refusal = |row: Vec<String>| (row[0].parse().expect("it is a number"), row[1].clone());
    let rows: Vec<(usize, String)> = format_rows("| number | condition | position |").into_iter().map(refusal).collect();
    assert_eq!(rows.iter().map(|row| row.0).collect::<Vec<_>>(), (1..=17).collect::<Vec<_>>());
    let named = header_refusals().into_iter().map(|(number, _, condition)| (number, condition));
    assert_eq!(named.collect::<Vec<_>>(), rows);
}

/// The names of the header that stand for a number: all in capitals but the include guard.
fn header_names() -> BTreeSet<String> {
    let whole = header_text();
    let words = whole.split(|letter: char| !letter.is_ascii_alphanumeric() && letter != '_');
    words.filter(|word| word.starts_with("FRAME_") && *word != "FRAME_H").map(str::to_owned).collect()
}

/// What `tests/c/layout.c` prints: a name and its numbers on each line.
fn printed() -> BTreeMap<String, Vec<usize>> {
    let program = Path::new(env!("CARGO_TARGET_TMPDIR")).join("layout");
    let mut gcc = Command::new("gcc");
    gcc.args(["-std=c11", "-Wall", "-Wextra", "-Werror", "-pedantic"]).arg(path("tests/c/layout.c")).arg("-o").arg(&program);
    let compiled = gcc.output().expect("gcc starts");
    assert!(compiled.status.success(), "{}", String::from_utf8_lossy(&compiled.stderr));
    let output = Command::new(&program).output().expect("the program starts");
    assert!(output.status.success(), "{}", output.status);
    let line = |line: &str| {
        let mut words = line.split(' ');
        let name = words.next().expect("a line begins with a name").to_owned();
        (name, words.map(|word| word.parse().expect("it is a number")).collect())
    };
    String::from_utf8(output.stdout).expect("it is text").lines().map(line).collect()
}

#[test]
fn the_same_layout_and_constants() {
    let printed = printed();
    let mut want = layout();
    want.extend(constants());
    want.extend(header_refusals().into_iter().map(|(number, name, _)| (name, vec![number])));
    assert_eq!(printed, want);
    let names = printed.keys().filter(|name| name.starts_with("FRAME_"));
    let names = names.map(|name| name.split('(').next().unwrap_or("").to_owned());
    assert_eq!(names.collect::<BTreeSet<_>>(), header_names());
}
