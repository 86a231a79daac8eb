//! Tests cells that are written as texts, whether they are closed and one body: the files that are named or, where none
//! is, standard input. Says of each the number of what refuses it, 0 for nothing, and a sentence. Ends with status 1
//! where something is refused.
//!
//!   cargo run --release --example check -- box.txt prism.txt

use std::fs::File;
use std::io::{self, Read};
use std::process::ExitCode;

use flumedrac::{Listing, Refusal, MAX_FLAGS, MAX_TEXT};

/// A text, as far as one is looked at: of one that is too long a single byte more than it may have.
fn text(from: impl Read) -> io::Result<Vec<u8>> {
    let mut text = vec![];
    from.take(MAX_TEXT as u64 + 1).read_to_end(&mut text)?;
    Ok(text)
}

/// What refuses the text, or the cell in it as closed, or as one body.
fn refused(text: &[u8]) -> Option<Refusal> {
    Listing::read_text(text).and_then(|cell| cell.one_body(MAX_FLAGS)).err()
}

/// Says what is found, and whether the cell is closed and one body.
fn check(name: &str, text: io::Result<Vec<u8>>) -> bool {
    let found = text.map(|text| refused(&text));
    match &found {
        Ok(None) => println!("{name}: 0, the cell is closed and one body"),
        Ok(Some(refusal @ (Refusal::MoreFlags | Refusal::SeveralParts))) => {
            println!("{name}: {}, the cell is closed, but {refusal}", refusal.number())
        }
        Ok(Some(refusal)) => println!("{name}: {}, {refusal}", refusal.number()),
        Err(trouble) => eprintln!("{name}: {trouble}"),
    }
    matches!(found, Ok(None))
}

fn main() -> ExitCode {
    let names: Vec<String> = std::env::args().skip(1).collect();
    let refused = match names.is_empty() {
        true => !check("standard input", text(io::stdin())),
        false => names.iter().filter(|name| !check(name, File::open(name).and_then(text))).count() > 0,
    };
    ExitCode::from(u8::from(refused))
}
