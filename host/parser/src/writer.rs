//! A writer of texts as one would write it in Rust: `write!` into a new `Vec`, which grows as it goes. It asks nothing of
//! the listing but its shape.

use std::io::{self, Write};

use flumedrac::Slices;

/// The text of a listing of the right shape.
pub fn write(l: Slices<'_>) -> Vec<u8> {
    let mut text = Vec::new();
    put(&mut text, l).expect("a Vec takes all that is written");
    text
}

fn put(text: &mut Vec<u8>, l: Slices<'_>) -> io::Result<()> {
    writeln!(text, "rank={}", l.counts.len() - 1)?;
    let mut ends = l.ends.chunks_exact(2);
    let mut start = 0;
    for count in l.counts {
        writeln!(text, "count={count}")?;
        for two in ends.by_ref().take(usize::from(*count)) {
            write!(text, "subs=")?;
            for (i, sub) in l.inc[start..usize::from(two[0])].iter().enumerate() {
                if i > 0 {
                    write!(text, ",")?;
                }
                write!(text, "{sub}")?;
            }
            writeln!(text)?;
            start = two[1].into();
        }
    }
    Ok(())
}
