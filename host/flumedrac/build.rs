//! Finds the archive `libflumedrac.a` and has it linked. Where that cannot be, the build ends here and says what to do:
//! without the archive nothing in this package works.
//!
//! The archive lies in the folder that the environment variable FLUMEDRAC_LIB names or, without it, in
//! `target/staticlib` of the project, where `host/archive.sh` writes it.

use std::env;
use std::fs;
use std::path::PathBuf;
use std::process;

fn main() {
    println!("cargo::rerun-if-changed=build.rs");
    println!("cargo::rerun-if-env-changed=FLUMEDRAC_LIB");
    match archive() {
        Ok(archive) => link(archive),
        Err(trouble) => {
            eprintln!("{trouble}");
            process::exit(1);
        }
    }
}

/// Where the archive is, or why there is none to link.
fn archive() -> Result<PathBuf, String> {
    let archive = folder()?.join("libflumedrac.a");
    // Cargo asks again once the file comes, goes or changes.
    println!("cargo::rerun-if-changed={}", archive.display());
    let processor = env::var("CARGO_CFG_TARGET_ARCH").expect("cargo says what it builds for");
    match fs::read(&archive).map(|bytes| made_for(&bytes)) {
        Ok(made_for) if made_for == processor => Ok(archive),
        Ok(made_for) => Err(format!(
            "Flumedrac's archive is for {made_for}, and this is built for {processor}. \
             host/cross.sh builds for x86-64 and runs under an emulator."
        )),
        Err(_) => Err(format!(
            "Flumedrac's archive is not there: {}\n\
             Make it by host/archive.sh in {}, which writes target/staticlib/libflumedrac.a.\n\
             Or have FLUMEDRAC_LIB name the folder that libflumedrac.a lies in.",
            archive.display(),
            project().display()
        )),
    }
}

/// The processor that an archive is for, as cargo calls it: the first object file in it has a number for that, two
/// bytes at place 18.
fn made_for(archive: &[u8]) -> &'static str {
    let object = archive.windows(4).position(|four| four == b"\x7fELF").map(|start| &archive[start..]);
    match object.and_then(|object| object.get(18..20)) {
        Some([62, 0]) => "x86_64",
        Some([183, 0]) => "aarch64",
        _ => "another processor",
    }
}

/// The project's folder: this package is its host/flumedrac.
fn project() -> PathBuf {
    let here = PathBuf::from(env::var_os("CARGO_MANIFEST_DIR").expect("cargo says where the package is"));
    here.ancestors().nth(2).expect("the package lies two folders deep").to_path_buf()
}

/// The folder that the archive is looked for in. A build script is not told where cargo was started, so a relative name
/// would be taken from this package's folder, which is hardly what was meant: it is refused.
fn folder() -> Result<PathBuf, String> {
    match env::var_os("FLUMEDRAC_LIB").map(PathBuf::from) {
        None => Ok(project().join("target/staticlib")),
        Some(named) if named.is_absolute() => Ok(named),
        Some(named) => Err(format!(
            "FLUMEDRAC_LIB is '{}'. It must be an absolute path, one that begins at the root: \
             FLUMEDRAC_LIB=\"$PWD/folder\", say.",
            named.display()
        )),
    }
}

fn link(archive: PathBuf) {
    let folder = archive.parent().expect("the archive lies in a folder");
    println!("cargo::rustc-env=FLUMEDRAC_ARCHIVE={}", archive.display());
    println!("cargo::rustc-link-search=native={}", folder.display());
    println!("cargo::rustc-link-lib=static=flumedrac");
}
