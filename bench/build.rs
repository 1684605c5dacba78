//! Compiles the tuned baseline, and links it with the proved library, `target/libframe.a`, which `bin/library` makes.

use std::path::Path;
use std::process::Command;

fn run(program: &str, words: &[&str]) {
    let status = Command::new(program).args(words).status().unwrap_or_else(|error| panic!("{program}: {error}"));
    assert!(status.success(), "{program} {words:?}: {status}");
}

fn main() {
    let here = std::env::var("CARGO_MANIFEST_DIR").expect("cargo names the package's folder");
    let out = std::env::var("OUT_DIR").expect("cargo names a folder for what is built");
    let source = Path::new(&here).join("tuned.c");
    let object = Path::new(&out).join("tuned.o");
    let tuned = Path::new(&out).join("libtuned.a");
    let [source, object, tuned] = [&source, &object, &tuned].map(|path| path.to_str().expect("a name in UTF-8"));
    // The library is for any x86-64, so this is too.
    let words = ["-std=c11", "-O3", "-march=x86-64", "-g", "-Wall", "-Wextra", "-Werror", "-c", source, "-o", object];
    run("gcc", &words);
    run("ar", &["rcs", tuned, object]);
    println!("cargo:rerun-if-changed={source}");
    println!("cargo:rustc-link-arg={tuned}");
    let archive = Path::new(&here).join("../target/libframe.a");
    println!("cargo:rerun-if-changed={}", archive.display());
    println!("cargo:rustc-link-arg={}", archive.display());
}
