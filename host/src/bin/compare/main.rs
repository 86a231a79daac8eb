//! Compares the library with the Rust files, question by question.
//!
//!   compare [--guarded | --model | --break NAME | --breaks] [--seed N] [--rounds N] [--small] [--write-replay FILE]
//!
//! Without more, the archive is asked. --guarded asks it with every slice beside memory that must not be touched: an
//! access outside a slice then ends the program by a signal. --model asks the unproved model instead, to try this
//! program; --break gives the model one fault; --breaks tries every fault in turn and fails if one is not caught.
//! --rounds sets how many damaged and random listings and texts are tried, --small asks less of everything.
//! --write-replay writes the replay list.
//!
//! Status 0: no differences. 1: some. 2: no Rust files to compare with, or an option that is not known.

mod damage;
mod inputs;
mod judge;
mod oracle;
mod parts;
mod plain;
mod reading;
mod replay;
mod rounds;
mod run;
mod subject;
mod supply;
mod tally;
mod text_damage;
mod volumes;

use std::process::ExitCode;

use flumedrac_trial::{limit_memory, misused, Archive, Break, Guarded, Kind, Library, Model};

use inputs::Scale;
use replay::Replay;
use rounds::Rounds;
use run::Run;

struct Options {
    guarded: bool,
    model: bool,
    fault: Option<Break>,
    breaks: bool,
    seed: u64,
    scale: Scale,
    replay: Option<String>,
}

fn options() -> Result<Options, String> {
    let mut options =
        Options { guarded: false, model: false, fault: None, breaks: false, seed: 1, scale: Scale::FULL, replay: None };
    let mut words = std::env::args().skip(1);
    while let Some(word) = words.next() {
        let mut value = || words.next().ok_or(format!("{word} wants a value"));
        match word.as_str() {
            "--guarded" => options.guarded = true,
            "--model" => options.model = true,
            "--breaks" => options.breaks = true,
            "--small" => options.scale = Scale::SMALL,
            "--break" => {
                let name = value()?;
                let found = Break::ALL.iter().find(|fault| fault.name() == name);
                options.fault = Some(*found.ok_or(format!("there is no fault {name}"))?);
            }
            "--write-replay" => options.replay = Some(value()?),
            "--seed" => options.seed = value()?.parse().map_err(|_| "a seed is a number".to_string())?,
            "--rounds" => options.scale.rounds = value()?.parse().map_err(|_| "rounds are a number".to_string())?,
            _ => return Err(format!("{word} is not known")),
        }
    }
    Ok(options)
}

fn main() -> ExitCode {
    limit_memory(1000);
    options().map_or_else(misused, |options| ask(&options))
}

/// Asks whom the options name.
fn ask(options: &Options) -> ExitCode {
    if !oracle::PRESENT {
        println!("The Rust files are not built (host/oracle/build.sh FOLDER); only plain conditions are compared.");
    }
    println!("seed {}", options.seed);
    if options.breaks {
        return breaks(options.seed);
    }
    match (options.fault, options.model) {
        (Some(fault), _) => compare(&Model::broken(fault), &format!("the model with {}", fault.name()), options),
        (None, true) => compare(&Model::default(), "the model", options),
        (None, false) => archive(options),
    }
}

fn archive(options: &Options) -> ExitCode {
    match options.guarded {
        true => compare(&Guarded::default(), "the archive, its slices guarded", options),
        false => compare(&Archive, "the archive", options),
    }
}

fn compare(library: &dyn Library, name: &str, options: &Options) -> ExitCode {
    println!("asked: {name}");
    let mut run = Run::new(library, false);
    run.replay = options.replay.as_ref().map(|_| Replay::new(options.seed));
    let _ = inputs::all(&mut run, options.scale, options.seed);
    run.tally.print();
    if let (Some(file), Some(replay)) = (&options.replay, run.replay) {
        std::fs::write(file, replay.text(options.seed)).expect("the replay list can be written");
    }
    let Rounds { texts, read, closed_texts, listings, closed, over, duals, closed_duals, laws, held } = run.rounds;
    println!("\nround trips of texts: {texts}, of which {read} are read, {closed_texts} of these closed");
    println!("round trips of listings: {listings}, of which {closed} are closed, {over} of these with too long a text");
    println!("duals of duals: {duals}, of which {closed_duals} are of closed listings");
    let by_kind: Vec<String> =
        Kind::ALL.iter().zip(held).map(|(kind, held)| format!("{} {held}", kind.name())).collect();
    let both = held.iter().sum::<u64>();
    println!("duals of products: {laws}, of which {both} are answered on both sides: {}", by_kind.join(", "));
    println!("of them all, {} did not come back, or did not agree", run.tally.of_kinds(&run::ROUNDS));
    let (rust, plain) = run.tally.compared();
    let differences = run.tally.differences();
    println!("\n{rust} comparisons with the Rust, {plain} with plain conditions, {differences} differences");
    if run.tally.unjudged > 0 {
        println!("{} questions could not be judged without the Rust files", run.tally.unjudged);
    }
    for (kind, difference) in run.tally.smallest() {
        println!("\nThe smallest question to {kind} that was answered otherwise:");
        println!("  asked     {}", cut(&difference.question));
        println!("  expected  {}", cut(&difference.expected));
        println!("  answered  {}", cut(&difference.reply));
    }
    match (differences, oracle::PRESENT) {
        (0, true) => ExitCode::SUCCESS,
        (0, false) => ExitCode::from(2),
        _ => ExitCode::from(1),
    }
}

/// The beginning of a long line.
fn cut(line: &str) -> String {
    match line.get(..1000) {
        Some(start) => format!("{start} ..."),
        None => line.to_string(),
    }
}

/// Every fault in turn: each must be caught.
fn breaks(seed: u64) -> ExitCode {
    // A model with a fault may panic, which is a difference like any other.
    std::panic::set_hook(Box::new(|_| {}));
    println!("\n| fault | caught after | by |\n|---|---:|---|");
    let mut missed = 0;
    for &fault in Break::ALL {
        let model = Model::broken(fault);
        let mut run = Run::new(&model, true);
        let _ = inputs::all(&mut run, Scale::SMALL, seed);
        let (rust, plain) = run.tally.compared();
        match run.tally.smallest().first() {
            Some((kind, _)) => println!("| {} | {} | {kind} |", fault.name(), rust + plain),
            None => {
                missed += 1;
                println!("| {} | NOT CAUGHT | |", fault.name());
            }
        }
    }
    println!("\n{} faults, {missed} not caught", Break::ALL.len());
    if missed == 0 {
        ExitCode::SUCCESS
    } else {
        ExitCode::from(1)
    }
}
