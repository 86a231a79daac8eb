//! Finds the oracle and says so to the code, as `cfg(oracle)`. It is what `oracle/build.sh` made in `target/oracle`, or
//! in `target/TARGET/oracle` where a target was named. Without it the programs say so, and compare by plain
//! conditions alone.

use std::env;
use std::path::{Path, PathBuf};

fn main() {
    println!("cargo::rustc-check-cfg=cfg(oracle)");
    println!("cargo::rerun-if-changed=build.rs");
    let here = PathBuf::from(env::var_os("CARGO_MANIFEST_DIR").expect("cargo says where the package is"));
    let target = env::var("TARGET").expect("cargo says what it builds for");
    let native = env::var("HOST").as_ref() == Ok(&target);
    let named = here.join("target").join(target).join("oracle");
    let folders = [native.then(|| here.join("target/oracle")), Some(named)];
    if let Some(oracle) = folders.into_iter().flatten().find(|folder| has_oracle(folder)) {
        println!("cargo::rustc-cfg=oracle");
        println!("cargo::rustc-link-search=all={}", oracle.display());
    }
}

fn has_oracle(folder: &Path) -> bool {
    ["liboracle_checked.rlib", "liboracle_optimised.rlib"].iter().all(|name| found(&folder.join(name)))
}

/// Whether a file is there; cargo asks again once that changes.
fn found(file: &Path) -> bool {
    println!("cargo::rerun-if-changed={}", file.display());
    file.is_file()
}
