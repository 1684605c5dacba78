//! What must be believed, computed: the pages of definitions on which the library's promises rest. These are the pages that the
//! contracts of the entries name, those that the statements of the theorems name, and all that these import. docs/ARCHITECTURE.md
//! lists them between two marks, and this test holds that list to the sources.

use std::collections::{BTreeMap, BTreeSet};
use std::fs;
use std::path::{Path, PathBuf};

const DOCUMENT: &str = "docs/ARCHITECTURE.md";

/// The entries in Rattle, by source. Those for C are found by their mark.
const ENTRIES: [(&str, &[&str]); 13] = [
    ("crates/run_state/src/start.rt", &["start"]),
    ("crates/run_state/src/lib.rt", &["run", "steal", "event", "idle"]),
    ("crates/record/src/lib.rt", &["record"]),
    ("crates/replay/src/lib.rt", &["replay"]),
    ("crates/histogram/src/lib.rt", &["start", "add", "add_in_place"]),
    ("crates/schedule/src/lib.rt", &["schedule"]),
    ("crates/dag_span/src/lib.rt", &["span"]),
    ("crates/phases_text/src/lib.rt", &["list_phases"]),
    ("crates/tree/src/lib.rt", &["steps", "kind", "class", "weight"]),
    ("crates/tree/src/validation.rt", &["accept"]),
    ("crates/tree_scan/src/lib.rt", &["task_of"]),
    ("crates/tree_scan/src/children.rt", &["cont", "finish_before"]),
    ("crates/policy/src/lib.rt", &["running_of"]),
];
/// Before a function for C, and before its name.
const FOR_C: &str = "#[unsafe(no_mangle)]\npub extern \"C\" fn ";

fn path(name: &str) -> PathBuf {
    Path::new(env!("CARGO_MANIFEST_DIR")).join("..").join(name)
}

/// The language's libraries, as paths name them. What they define is the toolchain's.
const LIBRARIES: [&str; 2] = ["std", "core"];

/// The text of a file without its comments, which begin with these two signs.
fn text(name: &str, comment: &str) -> String {
    let whole = fs::read_to_string(path(name)).unwrap_or_else(|error| panic!("{name}: {error}"));
    whole.lines().map(|line| line.split(comment).next().unwrap_or("").to_owned() + "\n").collect()
}

/// All files below a folder, as paths from the root.
fn files(folder: &str) -> Vec<String> {
    let mut found = vec![];
    for file in fs::read_dir(path(folder)).unwrap_or_else(|error| panic!("{folder}: {error}")) {
        let file = file.expect("the folder can be read");
        let name = format!("{folder}/{}", file.file_name().into_string().expect("it is text"));
        if file.path().is_dir() {
            // What the prover keeps is no source.
            if file.file_name() != "out" {
                found.extend(files(&name));
            }
        } else {
            found.push(name);
        }
    }
    found
}

// ---- Imports ----

/// The page of `CRATE.specs.Page` or `CRATE.proofs.Page`. None for a type that is declared in code, and for what the language's library has.
fn page(import: &str) -> Option<String> {
    let (of, place) = import.split_once('.').unwrap_or_else(|| panic!("{import} has no page"));
    if LIBRARIES.contains(&of) {
        return None;
    }
    let kind = ["specs", "proofs"].into_iter().find(|kind| place.starts_with(&format!("{kind}.")));
    let kind = kind.unwrap_or_else(|| panic!("{import} is no page of definitions or proofs"));
    let place = &place[kind.len() + 1..];
    (!place.starts_with("declared.")).then(|| format!("crates/{of}/{kind}/{}.antt", place.replace('.', "/")))
}

/// The pages that a text imports, each with the names that it has from there.
fn imports(text: &str) -> Vec<(String, Vec<String>)> {
    let mut found = vec![];
    for (at, _) in text.match_indices("use Rattle.") {
        let rest = &text[at + "use Rattle.".len()..];
        let line = rest.lines().next().unwrap_or("").trim_end().trim_end_matches(';');
        let (place, names) = if let Some((place, _)) = line.split_once(".{") {
            let names = rest.split_once('{').and_then(|(_, names)| names.split_once('}')).expect("the names end").0;
            (place, names.split(',').map(str::to_owned).collect())
        } else {
            // A page under a name of its own, or by its last part.
            let (place, own) = line.split_once(" as ").unwrap_or((line, line.rsplit('.').next().unwrap_or("")));
            (place, vec![own.to_owned()])
        };
        let own = |name: &String| name.rsplit(" as ").next().unwrap_or("").trim().to_owned();
        found.extend(page(place).map(|page| (page, names.iter().map(own).filter(|name| !name.is_empty()).collect())));
    }
    found
}

/// The words of a contract or of a statement.
fn words(text: &str) -> BTreeSet<&str> {
    text.split(|letter: char| letter.is_whitespace() || "(){}[].,;".contains(letter)).collect()
}

/// The pages that a part of a text names, by the imports of the whole.
fn named(whole: &str, part: &str) -> BTreeSet<String> {
    let words = words(part);
    let uses = |name: &String| {
        if name.contains('◌') {
            // An operator, with its arguments left out.
            name.split('◌').filter(|sign| !sign.is_empty()).all(|sign| words.contains(sign))
        } else {
            words.contains(&name[..])
        }
    };
    imports(whole).into_iter().filter(|(_, names)| names.iter().any(uses)).map(|(page, _)| page).collect()
}

// ---- Entries and theorems ----

/// The `requires` and `ensures` of a function: what stands before the line of its opening brace.
fn contract(whole: &str, name: &str) -> String {
    let start = format!("fn {name}(");
    let mut starts = whole.match_indices(&start).map(|(at, _)| at);
    let at = starts.next().unwrap_or_else(|| panic!("there is no function {name}"));
    assert_eq!(starts.next(), None, "there are two functions {name}");
    let begins = |line: &str, word: &str| line.trim_start().starts_with(word);
    let head = whole[at..].lines().take_while(|line| line.trim() != "{");
    let clauses: Vec<&str> = head.skip_while(|line| !begins(line, "requires ") && !begins(line, "ensures ")).collect();
    assert!(clauses.iter().any(|line| begins(line, "ensures ")), "{name} promises nothing");
    clauses.join("\n")
}

/// The entries, by source: those of the list, and those for C.
fn entries() -> BTreeMap<String, Vec<String>> {
    let mut entries: BTreeMap<String, Vec<String>> =
        ENTRIES.iter().map(|(source, names)| (source.to_string(), names.iter().map(|name| name.to_string()).collect())).collect();
    for source in files("crates").into_iter().filter(|name| name.starts_with("crates/frame_") && name.ends_with(".rt")) {
        let whole = text(&source, "//");
        let names = whole.split(FOR_C).skip(1).map(|after| after.split('(').next().unwrap_or("").to_owned());
        let names: Vec<String> = names.collect();
        assert_eq!(names.len(), whole.matches("extern \"C\" fn").count(), "{source}");
        if !names.is_empty() {
            entries.insert(source, names);
        }
    }
    entries
}

/// The types of the theorems of a page: all that a `pub` line and the lines further in behind it say.
fn statements(whole: &str) -> Vec<String> {
    let mut found: Vec<String> = vec![];
    let mut inside = false;
    for line in whole.lines() {
        inside = line.starts_with("pub ") || inside && line.starts_with(' ');
        if line.starts_with("pub ") {
            found.push(line.split_once(" : ").unwrap_or_else(|| panic!("what does this say? {line}")).1.to_owned());
        } else if inside {
            *found.last_mut().expect("a theorem has begun") += &format!("\n{line}");
        }
    }
    found
}

// ---- Pages ----

/// The pages with several theorems: demand 3, the worker count and the classes; one addition to a histogram, and a list of them;
/// progress of a state with the invariant, and of one that events lead to. Every other has one.
const SEVERAL: [(&str, usize); 4] = [
    ("crates/agreement/proofs/Theorem.antt", 3),
    ("crates/histogram_invariant/proofs/Theorem.antt", 2),
    ("crates/run_progress/proofs/Theorem.antt", 2),
    ("crates/run_refinement/proofs/Theorem.antt", 2),
];

/// Every page to be believed, with what names it: an entry, a theorem or another page.
fn believed() -> BTreeMap<String, String> {
    let mut from = BTreeMap::new();
    for (source, names) in entries() {
        let whole = text(&source, "//");
        for name in names {
            let pages = named(&whole, &contract(&whole, &name));
            from.extend(pages.into_iter().map(|page| (page, format!("{source}, {name}"))));
        }
    }
    let theorems: Vec<String> = files("crates").into_iter().filter(|name| name.ends_with("/proofs/Theorem.antt")).collect();
    assert_eq!(theorems.len(), 10, "{theorems:#?}");
    for theorem in theorems {
        let whole = text(&theorem, "--");
        let statements = statements(&whole);
        let many = SEVERAL.iter().find(|(page, _)| *page == theorem).map_or(1, |(_, many)| *many);
        assert_eq!(statements.len(), many, "{theorem}");
        for statement in statements {
            from.extend(named(&whole, &statement).into_iter().map(|page| (page, theorem.clone())));
        }
    }
    let mut open: Vec<String> = from.keys().cloned().collect();
    while let Some(page) = open.pop() {
        for (next, _) in imports(&text(&page, "--")) {
            if !from.contains_key(&next) {
                from.insert(next.clone(), page.clone());
                open.push(next);
            }
        }
    }
    from
}

#[test]
fn the_list_of_the_document() {
    let whole = fs::read_to_string(path(DOCUMENT)).expect("the document can be read");
    let list = whole.split_once("<!-- believed -->").and_then(|(_, rest)| rest.split_once("<!-- /believed -->"));
    let list = list.expect("the document has the list between its marks").0;
    let listed: Vec<&str> = list.lines().map(|line| line.trim_matches([' ', '-', '`'])).filter(|line| !line.is_empty()).collect();
    let pages = believed();
    assert_eq!(listed, pages.keys().map(|page| &page[..]).collect::<Vec<_>>(), "what names each: {pages:#?}");
}

/// A page to be believed holds definitions alone, and says so by its name: laws and the words of inner contracts stand elsewhere,
/// and what is called a contract is part of one.
#[test]
fn believed_pages_by_name() {
    let pages = believed();
    for (page, from) in &pages {
        let name = page.rsplit('/').next().expect("a path ends");
        assert!(!page.contains("/Laws/") && !page.contains("/proofs/") && name != "Laws.antt" && name != "Terms.antt", "{page} is named by {from}");
    }
    for page in files("crates").into_iter().filter(|name| name.ends_with("/Contract.antt")) {
        assert!(pages.contains_key(&page), "no promise names {page}");
    }
}

/// What a proof is made of. A page that must be believed has none of it: a theorem's statement and its proof stand in two files.
const PROOF_WORDS: [&str; 12] =
    ["absurd", "ap", "cc", "grind", "omega", "refl", "rw", "search", "simp", "subst", "sym", "unfolding"];

#[test]
fn believed_pages_prove_nothing() {
    for page in believed().into_keys() {
        let whole = text(&page, "--");
        let found: Vec<&str> = words(&whole).into_iter().filter(|word| PROOF_WORDS.contains(word)).collect();
        assert!(found.is_empty(), "{page} has {found:?}");
    }
}

/// A contract, of an inner function too, is in the words of definitions: laws are for proofs.
#[test]
fn contracts_name_no_law() {
    let sources: Vec<String> = files("crates").into_iter().filter(|name| name.ends_with(".rt")).collect();
    assert!(sources.len() > 30, "{sources:#?}");
    for source in sources {
        for (page, names) in imports(&text(&source, "//")) {
            assert!(!page.contains("/Laws/") && !page.contains("/proofs/"), "{source} has {names:?} from {page}");
        }
    }
}

/// An entry takes any bytes: it asks nothing of its caller.
#[test]
fn entries_require_nothing() {
    for (source, names) in entries() {
        let whole = text(&source, "//");
        for name in names {
            assert!(!contract(&whole, &name).contains("requires "), "{name} of {source} has a requires");
        }
    }
}
