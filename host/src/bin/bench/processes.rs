//! How long whole processes take, from their start to their end: by the clock on the wall.

use std::io::{self, Write};
use std::path::Path;
use std::process::{Command, Stdio};
use std::time::Instant;

use flumedrac::Listing;
use flumedrac_trial::{cell_texts, cells, Kind};

use crate::times::Summary;

/// A process that is given a text: its time, and what it printed.
fn run(words: &[String], text: &[u8]) -> io::Result<(f64, Vec<u8>)> {
    let start = Instant::now();
    let mut command = Command::new(&words[0]);
    let mut process = command.args(&words[1..]).stdin(Stdio::piped()).stdout(Stdio::piped()).spawn()?;
    // A process that reads nothing may have ended already.
    let _ = process.stdin.take().expect("its standard input").write_all(text);
    let output = process.wait_with_output()?;
    Ok((start.elapsed().as_secs_f64(), output.stdout))
}

/// The times of `cellcheck` for the text of the box, and of a process that does nothing, in turn; or why there are none.
/// FLUMEDRAC_RUN has words to start the program by, such as an emulator.
pub fn measured(runs: usize) -> Result<[(String, Summary); 2], String> {
    let program = Path::new(env!("CARGO_MANIFEST_DIR")).join("../crates/cellcheck/out/cellcheck");
    if !program.is_file() {
        return Err("The program cellcheck was not made (rt check cellcheck)".into());
    }
    let start = std::env::var("FLUMEDRAC_RUN").unwrap_or_default();
    let first = start.split_whitespace().map(String::from);
    let words: Vec<String> = first.chain([program.to_string_lossy().into_owned()]).collect();
    let cell = cells::product(Kind::Duoprism, &cells::polygon(4), &Listing::dyad());
    let text = cell_texts::text(cell.slices());
    let (mut checks, mut nothings) = (vec![], vec![]);
    for _ in 0..runs {
        let (seconds, printed) = run(&words, &text).map_err(|trouble| format!("cellcheck does not run: {trouble}"))?;
        assert_eq!(printed, b"closed=0\n", "what cellcheck prints for the box");
        checks.push(seconds);
        nothings.push(run(&["/bin/true".into()], &text).map_err(|trouble| format!("/bin/true: {trouble}"))?.0);
    }
    let by = if start.is_empty() { "" } else { ", started by FLUMEDRAC_RUN" };
    Ok([
        (format!("cellcheck on the box's text{by}"), Summary::of(checks)),
        ("a process that does nothing (/bin/true)".into(), Summary::of(nothings)),
    ])
}
