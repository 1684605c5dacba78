//! Document 01: "Serial step, ordinal, phase number each a tuple struct, so the work-first number can't be used as a serial step."
//! The prover's type check refuses one for another where both have their types; this test holds the parameters to them. A table may
//! hold plain numbers, and C's functions take them.

use std::collections::BTreeMap;
use std::fs;
use std::path::{Path, PathBuf};

/// What a parameter of this name is, in any function but C's.
const TYPES: [(&str, &[&str]); 7] = [
    ("step", &["Step"]),
    ("pusher", &["Step"]),
    ("low", &["Step"]),
    ("base", &["Step", "Ordinal"]),
    ("ordinal", &["Ordinal"]),
    ("phase", &["Phase"]),
    ("begun", &["Phase", "Begun"]),
];

fn path(name: &str) -> PathBuf {
    Path::new(env!("CARGO_MANIFEST_DIR")).join("..").join(name)
}

/// The sources of all crates but those that C calls, without their comments.
fn sources() -> BTreeMap<String, String> {
    let mut found = BTreeMap::new();
    for place in fs::read_dir(path("crates")).expect("there are crates") {
        let name = place.expect("the folder can be read").file_name().into_string().expect("it is text");
        if name.starts_with("frame_") {
            continue;
        }
        for file in fs::read_dir(path(&format!("crates/{name}/src"))).expect("a crate has sources") {
            let file = file.expect("the folder can be read").path();
            let text = fs::read_to_string(&file).expect("it is text");
            let code = text.lines().map(|line| line.split("//").next().unwrap_or("").to_owned() + "\n").collect();
            found.insert(format!("{name}/{}", file.file_name().expect("it has a name").to_string_lossy()), code);
        }
    }
    found
}

/// The functions of a source, each with its parameters and their types.
fn functions(source: &str) -> Vec<(String, Vec<(String, String)>)> {
    let signature = |text: &str| {
        let (name, rest) = text.split_once('(').expect("a function has parameters");
        let list = &rest[..rest.find(')').expect("they end")];
        let parameters = list.split(',').filter_map(|part| part.split_once(':'));
        let parameters = parameters.map(|(name, kind)| (name.trim().to_owned(), kind.trim().to_owned())).collect();
        (name.trim().to_owned(), parameters)
    };
    source.split("fn ").skip(1).map(signature).collect()
}

#[test]
fn steps_ordinals_and_phases_have_their_types() {
    let (mut seen, mut wrong) = (0, vec![]);
    for (file, source) in sources() {
        for (function, parameters) in functions(&source) {
            for (name, kind) in parameters {
                let Some((_, kinds)) = TYPES.iter().find(|(known, _)| *known == name) else { continue };
                // A table, or a byte that is read or written.
                if kind.starts_with('&') || kind == "u8" {
                    continue;
                }
                seen += 1;
                if !kinds.contains(&kind.as_str()) {
                    wrong.push(format!("{file}: {function}({name}: {kind})"));
                }
            }
        }
    }
    assert!(wrong.is_empty(), "{wrong:#?}");
    assert!(seen > 30, "only {seen} such parameters were found");
}

#[test]
fn a_trace_records_number_is_told_by_the_policy_alone() {
    let named: Vec<String> = sources().into_iter().filter(|(_, code)| code.contains("RecordNumber(")).map(|(file, _)| file).collect();
    assert_eq!(named, ["trace/lib.rt", "trace/number.rt"], "these make or open a trace record's number");
}
