//! Builds a product of two cells that are written as texts in files, and prints the product's text. Where something is
//! refused it prints nothing, says on standard error what it is, and ends with status 1.
//!
//!   cargo run --release --example build -- duoprism square.txt dyad.txt > box.txt

use std::fs::File;
use std::io::{self, Read, Write};
use std::process::ExitCode;

use flumedrac::{duocomb, duoprism, duopyramid, duotegum, Listing, Refusal, MAX_TEXT};

type Product = fn(&Listing, &Listing) -> Result<Listing, Refusal>;

/// The product of that name.
fn product(name: &str) -> Result<Product, String> {
    match name {
        "duopyramid" => Ok(duopyramid),
        "duoprism" => Ok(duoprism),
        "duotegum" => Ok(duotegum),
        "duocomb" => Ok(duocomb),
        _ => Err(format!("{name} is not duopyramid, duoprism, duotegum or duocomb")),
    }
}

/// A text, as far as one is looked at: of one that is too long a single byte more than it may have.
fn text(file: &str) -> io::Result<Vec<u8>> {
    let mut text = vec![];
    File::open(file)?.take(MAX_TEXT as u64 + 1).read_to_end(&mut text)?;
    Ok(text)
}

/// The cell in a file, or the trouble with it.
fn cell(file: &str) -> Result<Listing, String> {
    let text = text(file).map_err(|trouble| format!("{file}: {trouble}"))?;
    Listing::read_text(&text).map_err(|refusal| format!("{file}: {refusal}"))
}

fn build(words: &[String]) -> Result<(), String> {
    let [name, left, right] = words else {
        return Err("build wants a product's name and two files".into());
    };
    let built = product(name)?(&cell(left)?, &cell(right)?).map_err(|refusal| format!("{name}: {refusal}"))?;
    let text = built.write_text().map_err(|refusal| format!("the {name} is built, but has no text: {refusal}"))?;
    io::stdout().write_all(text.as_bytes()).map_err(|trouble| format!("the text could not be printed: {trouble}"))
}

fn main() -> ExitCode {
    let words: Vec<String> = std::env::args().skip(1).collect();
    match build(&words) {
        Ok(()) => ExitCode::SUCCESS,
        Err(trouble) => {
            eprintln!("{trouble}");
            ExitCode::FAILURE
        }
    }
}
