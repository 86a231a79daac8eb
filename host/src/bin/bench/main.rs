//! Measures the library beside the Rust files and prints Markdown tables.
//!
//!   bench [--brief] [--runs N] [--model | --before PROGRAM]
//!   bench --serve
//!
//! Both sides are measured in turn, run after run, so that what else the machine does touches both. The time is the
//! processor's time for this thread: waiting for a processor that is busy elsewhere does not count. --brief prints one
//! table in place of the first five, with the ratios and our time alone and without changes and the cells that grow.
//! --model measures the unproved model instead of the archive, only to try this program.
//!
//! --before measures an earlier archive too, and the tables say how its time is to ours. PROGRAM is the `bench` of that
//! time, built in a copy of the project with its own archive. It is started with --serve and then is a partner: it
//! prints no tables, but reads the names of rows, a line each, and says how many seconds its own archive takes for that
//! row, or a dash if it has none of that name. This program is started so too, and the two are asked in turn: the same
//! code takes some hundredths more or less where it lies elsewhere in memory, or where the Rust ran before it. For the
//! same reason both are started anew after some runs.
//!
//! The Rust files have no texts: reading one is measured beside a plain parser in Rust, and writing one beside
//! `write!`, in a table of its own. Duals, which the Rust files have, are in a table of the same form. They have no test for one
//! body, and no volumes in what is built of them: both are measured beside our own search by every change from the same
//! flag, each in a table of its own. Where the program `cellcheck` was made, whole processes are measured too, by the
//! clock on the wall.

mod partner;
mod processes;
mod rows;
mod rust;
mod times;

use std::process::ExitCode;

use flumedrac_trial::{limit_memory, misused, Archive, Library, Model};

use partner::Pair;
use rows::{Measured, PairTimes, Row, Rows};
use times::{written, Summary};

/// After so many runs the earlier archive and ours are measured by new processes.
const RUNS_OF_A_PAIR: usize = 10;

struct Options {
    brief: bool,
    runs: usize,
    model: bool,
    before: Option<String>,
    serve: bool,
}

fn options() -> Result<Options, String> {
    let mut options = Options { brief: false, runs: 31, model: false, before: None, serve: false };
    let mut words = std::env::args().skip(1);
    while let Some(word) = words.next() {
        match word.as_str() {
            "--brief" => options.brief = true,
            "--model" => options.model = true,
            "--serve" => options.serve = true,
            "--before" => options.before = Some(words.next().ok_or("--before wants a program")?),
            "--runs" => {
                let runs = words.next().and_then(|number| number.parse().ok()).filter(|&runs| runs > 0);
                options.runs = runs.ok_or("--runs wants a number from 1")?;
            }
            _ => return Err(format!("{word} is not known")),
        }
    }
    if options.serve && std::env::args().len() > 2 {
        return Err("--serve goes with no other word".into());
    }
    if options.model && options.before.is_some() {
        return Err("--before does not go with --model".into());
    }
    Ok(options)
}

/// The rows of a group, measured in turn as often as there are runs; who comes first changes from run to run.
fn measured(mut rows: Vec<Row<'_>>, options: &Options) -> Result<Vec<(String, Measured)>, String> {
    let mut pair = None;
    for run in 0..options.runs {
        if run % RUNS_OF_A_PAIR == 0 {
            pair = options.before.as_deref().map(Pair::start).transpose()?;
        }
        rows.iter_mut().try_for_each(|row| row.measure(run % 2 == 0, &mut pair))?;
    }
    Ok(rows.into_iter().map(|row| (row.name.clone(), row.measured())).collect())
}

/// The columns of a table: those about an earlier archive come last, and only if there is one.
fn columns<'a>(always: &[&'a str], about_before: &[&'a str], options: &Options) -> Vec<&'a str> {
    let more = if options.before.is_some() { about_before } else { &[] };
    [always, more].concat()
}

/// The first lines of a table: what each column holds, and that all but the first hold numbers.
fn head(columns: &[&str]) {
    println!("| work | {} |", columns.join(" | "));
    println!("|---|{}", "---:|".repeat(columns.len()));
}

/// A line of a table: of its cells, as many as the table has columns.
fn line(name: &str, cells: &[String], columns: &[&str]) {
    println!("| {name} | {} |", cells[..columns.len()].join(" | "));
}

/// The ratios of another time to ours, of the medians and of the least: from 1 on, with so many digits after the point.
fn ratios(ours: Summary, other: Option<Summary>, digits: usize) -> [String; 2] {
    let ratio = |other: f64, ours: f64| match other / ours {
        slower if slower < 1.0 => format!("{slower:.2}"),
        faster => format!("{faster:.digits$}"),
    };
    other.map_or_else(Default::default, |other| [ratio(other.median, ours.median), ratio(other.least, ours.least)])
}

/// The ratios of an earlier archive's time to ours, both as a partner took them.
fn before_ratios(pair: Option<PairTimes>) -> [String; 2] {
    pair.map_or_else(Default::default, |pair| ratios(pair.ours, Some(pair.before), 2))
}

/// The cells of a row of the brief table.
fn brief_cells(measured: &Measured) -> [String; 5] {
    let [medians, least] = ratios(measured.ours, measured.rust, 1);
    let [before_medians, before_least] = before_ratios(measured.pair);
    [medians, least, written(measured.ours.median), before_medians, before_least]
}

/// The cells of a line of a full table.
fn full_cells(ours: Summary, rust: Option<Summary>, pair: Option<PairTimes>) -> Vec<String> {
    let both = |times: Summary| [written(times.median), written(times.least)];
    let before = pair.map(|pair| pair.before);
    let [rust_times, before_times] = [rust, before].map(|times| times.map(both).unwrap_or_default());
    [both(ours), rust_times, ratios(ours, rust, 1), before_times, before_ratios(pair)].concat()
}

/// A row of a full table: a search or a change also without the closed test that it begins with, which the Rust's has
/// not.
fn full_lines(name: &str, measured: &Measured, columns: &[&str]) {
    let Measured { ours, closed, rust, pair } = *measured;
    line(name, &full_cells(ours, rust, pair), columns);
    if let Some(closed) = closed {
        line("- of that, the closed test", &full_cells(closed, None, None), columns);
        line("- without the closed test", &full_cells(ours.without(closed), rust, None), columns);
    }
}

/// One table, with what counts most.
fn brief_table(rows: Rows<'_>, options: &Options) -> Result<(), String> {
    let always = ["ratio of medians", "ratio of least", "ours, median"];
    let columns = columns(&always, &["before / ours", "before / ours, least"], options);
    head(&columns);
    for group in [rows.usual(), rows.largest(), rows.texts()] {
        let measured = measured(group, options)?;
        measured.iter().for_each(|(name, measured)| line(name, &brief_cells(measured), &columns));
    }
    Ok(())
}

/// A table for each group, with all that was measured.
fn full_tables(rows: Rows<'_>, options: &Options) -> Result<(), String> {
    let groups = [
        ("Usual cells", rows.usual()),
        ("Largest", rows.largest()),
        ("Growth", rows.growth()),
        ("Changes", rows.changes()),
        ("Texts, the Rust being a plain parser (host/parser)", rows.texts()),
    ];
    let always = ["ours, median", "ours, least", "Rust, median", "Rust, least", "ratio of medians", "ratio of least"];
    let about_before = ["before, median", "before, least", "before / ours", "before / ours, least"];
    let columns = columns(&always, &about_before, options);
    for (title, group) in groups {
        println!("{title}:\n");
        head(&columns);
        let measured = measured(group, options)?;
        measured.iter().for_each(|(name, measured)| full_lines(name, measured, &columns));
        println!();
    }
    Ok(())
}

/// A table for work that contains a search: how many times as long as that it takes.
fn search_table(title: &str, rows: Vec<Row<'_>>, options: &Options) -> Result<(), String> {
    let always = ["times the search", "times the search, least", "ours, median", "the search, median"];
    let columns = columns(&always, &["before / ours", "before / ours, least"], options);
    println!("{title}, beside the search by every change from the same flag:\n");
    head(&columns);
    for (name, Measured { ours, rust: search, pair, .. }) in measured(rows, options)? {
        let search = search.expect("each is measured beside a search");
        let times = [ours.median / search.median, ours.least / search.least].map(|ratio| format!("{ratio:.2}"));
        let cells = [times, [written(ours.median), written(search.median)], before_ratios(pair)].concat();
        line(&name, &cells, &columns);
    }
    println!();
    Ok(())
}

/// What is written of closed cells: the title of the table, what it is measured beside, and what its time is shared out
/// over.
struct Writing {
    title: &'static str,
    other: &'static str,
    unit: &'static str,
}

const TEXTS: Writing = Writing {
    title: "Texts written, beside write! into a new Vec; or read and written, beside a plain parser and write!",
    other: "write!",
    unit: "a byte",
};

const DUALS: Writing = Writing { title: "Duals", other: "Rust", unit: "an incidence" };

/// A table for what is written of closed cells: the ratios of the other's time to ours, and to ours without the closed
/// test, which the other has not; and what a byte or an incidence takes.
fn writing_table(what: Writing, rows: Vec<(usize, Row<'_>)>, options: &Options) -> Result<(), String> {
    let Writing { title, other, unit } = what;
    let ratio_columns = ["ratio of medians", "ratio of least", "without the closed test", "without it, least"];
    let time_columns = ["ours, median", "of that, the closed test", &format!("{other}, median")];
    let each = ["ours", "without the closed test", other].map(|whose| format!("{whose}, ns {unit}"));
    let always = [&ratio_columns[..], &time_columns, &each.each_ref().map(String::as_str)].concat();
    let columns = columns(&always, &["before / ours", "before / ours, least"], options);
    println!("{title}:\n");
    head(&columns);
    let (lengths, rows): (Vec<usize>, Vec<Row<'_>>) = rows.into_iter().unzip();
    for (length, (name, Measured { ours, closed, rust, pair })) in lengths.iter().zip(measured(rows, options)?) {
        let closed = closed.expect("each is measured beside the closed test");
        let alone = ours.without(closed);
        let median = |times: Summary| written(times.median);
        let for_each = |times: Summary| format!("{:.2}", times.median * 1e9 / *length as f64);
        let cells = [
            &ratios(ours, rust, 1)[..],
            &ratios(alone, rust, 1),
            &[median(ours), median(closed), rust.map(median).unwrap_or_default()],
            &[for_each(ours), for_each(alone), rust.map(for_each).unwrap_or_default()],
            &before_ratios(pair),
        ];
        line(&name, &cells.concat(), &columns);
    }
    println!();
    Ok(())
}

/// A table for whole processes, if there is a program that runs.
fn process_table(runs: usize) {
    match processes::measured(runs) {
        Ok(processes) => {
            println!("Processes, from start to end:\n");
            head(&["median", "least"]);
            for (name, Summary { median, least }) in processes {
                println!("| {name} | {} | {} |", written(median), written(least));
            }
        }
        Err(trouble) => println!("{trouble}; no process is measured."),
    }
}

fn tables(library: &dyn Library, options: &Options) -> Result<(), String> {
    let rows = Rows(library);
    if options.brief {
        brief_table(rows, options)?;
        println!();
    } else {
        full_tables(rows, options)?;
    }
    search_table("One body", rows.bodies(), options)?;
    search_table("Volumes", rows.volumes(), options)?;
    writing_table(TEXTS, rows.writing(), options)?;
    writing_table(DUALS, rows.duals(), options)?;
    if !options.brief {
        process_table(options.runs);
    }
    Ok(())
}

fn bench(options: &Options) -> Result<(), String> {
    if !rust::PRESENT {
        println!("The Rust files are not built (host/oracle/build.sh FOLDER); only the library is measured.\n");
    }
    if options.model {
        println!("The unproved model, {} runs: these are not the library's times.\n", options.runs);
        tables(&Model::default(), options)
    } else {
        let before = if options.before.is_some() { ", and the earlier archive's and ours in turn besides" } else { "" };
        println!("{} runs of each, ours and the Rust's in turn{before}.\n", options.runs);
        tables(&Archive, options)
    }
}

fn main() -> ExitCode {
    limit_memory(2000);
    let done = options().and_then(|options| match options.serve {
        true => partner::serve(Rows(&Archive).all()),
        false => bench(&options),
    });
    done.map_or_else(misused, |()| ExitCode::SUCCESS)
}
