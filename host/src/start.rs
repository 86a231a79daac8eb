//! How the programs start: under a limit on memory, so that nothing that is tried can take all of it.

use std::env;
use std::os::unix::process::CommandExt;
use std::process::{Command, ExitCode};

/// Says that this program was started under the limit.
const MARK: &str = "FLUMEDRAC_LIMITED";

/// Starts this program anew under `ulimit -v`, unless that was done already.
pub fn limit_memory(megabytes: usize) {
    if env::var_os(MARK).is_some() {
        return;
    }
    let program = env::current_exe().expect("a program knows where it is");
    let script = format!("ulimit -v {} && exec \"$0\" \"$@\"", megabytes * 1024);
    let mut shell = Command::new("sh");
    shell.arg("-c").arg(script).arg(program).args(env::args_os().skip(1)).env(MARK, "1");
    panic!("the program could not be started under a memory limit: {}", shell.exec());
}

/// The end of a program whose words on the command line are wrong: says what is, and has the status 2.
pub fn misused(what: String) -> ExitCode {
    eprintln!("{what}");
    ExitCode::from(2)
}
