//! Links the proved library, `target/libframe.a`, which `bin/library` makes, into the integration tests.

use std::path::Path;

fn main() {
    let here = std::env::var("CARGO_MANIFEST_DIR").expect("cargo names the package's folder");
    let archive = Path::new(&here).join("../target/libframe.a");
    println!("cargo:rerun-if-changed={}", archive.display());
    println!("cargo:rustc-link-arg-tests={}", archive.display());
}
