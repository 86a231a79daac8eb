//! A partner: another `bench`, that measures its own rows when it is asked to. To hold an earlier archive beside ours
//! there are two of them, one with each archive, so that both are measured alike.
//!
//! A question is a line, the name of a row. The answer is a line too: the seconds of one measurement of that row, or a
//! dash if the partner has no row of that name.

use std::env;
use std::io::{self, BufRead, BufReader, Write};
use std::process::{ChildStdin, ChildStdout, Command, Stdio};

use crate::rows::Row;

const NO_ROW: &str = "-";

/// A partner that was started. It ends by itself, once nothing more can be asked.
struct Partner {
    program: String,
    questions: ChildStdin,
    answers: BufReader<ChildStdout>,
}

impl Partner {
    /// Starts a program, and waits until its rows are made: it is asked for a row without a name, which nothing has.
    fn start(program: &str) -> Result<Self, String> {
        let mut command = Command::new(program);
        let started = command.arg("--serve").stdin(Stdio::piped()).stdout(Stdio::piped()).spawn();
        let process = started.map_err(|trouble| format!("{program} could not be started: {trouble}"))?;
        let questions = process.stdin.expect("its standard input");
        let answers = BufReader::new(process.stdout.expect("its standard output"));
        let mut partner = Self { program: program.into(), questions, answers };
        partner.measure("")?;
        Ok(partner)
    }

    /// The seconds of one measurement of a row, if the partner has it.
    fn measure(&mut self, name: &str) -> Result<Option<f64>, String> {
        let program = &self.program;
        // A program that has ended takes no question, and gives no answer.
        let _ = self.questions.write_all(format!("{name}\n").as_bytes());
        let mut answer = String::new();
        let read = self.answers.read_line(&mut answer);
        read.map_err(|trouble| format!("the answer of {program} cannot be read: {trouble}"))?;
        match answer.strip_suffix('\n') {
            None => Err(format!("{program} ended before it answered")),
            Some(NO_ROW) => Ok(None),
            Some(text) => text.parse().map(Some).map_err(|_| format!("{program} answered {text:?}, which is no time")),
        }
    }
}

/// A partner with the earlier archive, and one with ours.
pub struct Pair {
    before: Partner,
    ours: Partner,
}

impl Pair {
    /// Starts the `bench` of the earlier archive, and this one once more.
    pub fn start(program: &str) -> Result<Self, String> {
        let own = env::current_exe().map_err(|trouble| format!("this program is not found: {trouble}"))?;
        Ok(Self { before: Partner::start(program)?, ours: Partner::start(&own.to_string_lossy())? })
    }

    /// The seconds of one measurement of a row by each, the earlier archive's first in the answer; who is asked first is
    /// for the caller to change. Nothing, if the earlier archive does not have the row.
    pub fn measure(&mut self, name: &str, ours_first: bool) -> Result<Option<(f64, f64)>, String> {
        let early = if ours_first { self.ours.measure(name)? } else { None };
        let before = self.before.measure(name)?;
        let ours = if ours_first { early } else { self.ours.measure(name)? };
        Ok(before.zip(ours))
    }
}

/// Answers what is asked on the standard input, until that ends.
fn answer(mut rows: Vec<Row<'_>>) -> io::Result<()> {
    let mut answers = io::stdout().lock();
    for name in io::stdin().lines() {
        let name = name?;
        let row = rows.iter_mut().find(|row| row.name == name);
        let answer = row.map_or(NO_ROW.into(), |row| row.ours_once().to_string());
        writeln!(answers, "{answer}")?;
        answers.flush()?;
    }
    Ok(())
}

/// Is a partner that has these rows.
pub fn serve(rows: Vec<Row<'_>>) -> Result<(), String> {
    answer(rows).map_err(|trouble| format!("the partner could not go on: {trouble}"))
}
