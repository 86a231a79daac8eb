//! Cells written as texts: a plain writer, and texts to try.

use flumedrac::{Slices, MAX_TEXT};

/// The text of a listing: its rank, and for each rank the count and the subs of each element.
pub fn text(l: Slices<'_>) -> Vec<u8> {
    let mut text = format!("rank={}\n", l.counts.len() - 1);
    let mut ends = l.ends.iter().map(|&end| usize::from(end));
    let mut start = 0;
    for &count in l.counts {
        text += &format!("count={count}\n");
        for _ in 0..count {
            let subs = &l.inc[start..ends.next().expect("an end of the subs")];
            let words: Vec<String> = subs.iter().map(u16::to_string).collect();
            text += &format!("subs={}\n", words.join(","));
            start = ends.next().expect("an end of the sups");
        }
    }
    text.into_bytes()
}

/// A text whose answers are known.
pub struct Known {
    pub text: Vec<u8>,
    /// The number that read_text answers where there is room.
    pub read: u16,
    /// The number that check_text answers.
    pub check: u16,
}

/// The point, with another last line.
pub fn point(last: &str) -> String {
    format!("rank=1\ncount=1\nsubs=\ncount=1\n{last}")
}

/// Texts to try, with their answers: those of the request, and others that have one thing about them.
pub fn to_try() -> Vec<Known> {
    // An element over the lowest one, which it lists so often.
    let often = |times: usize| point(&format!("subs={}\n", vec!["0"; times].join(",")));
    let read = [
        (point("subs=0\n"), 0),
        (point("subs=5\n"), 12),
        (point("subs=0,5\n"), 15),
        (point("subs=\n"), 12),
        (often(16_384), 19),
        ("rank=0\ncount=1\nsubs=\n".into(), 0),
        ("rank=0\ncount=1\nsubs=0\n".into(), 15),
        ("rank=0\ncount=0\n".into(), 10),
    ];
    let refused = [
        (point("subs=0"), 41),
        (point("subs=0\n\n"), 43),
        (point("subs=0\nz"), 43),
        (point(""), 40),
        (point("sub=0\n"), 40),
        (point("subs=0,\n"), 41),
        (point("subs=,0\n"), 41),
        (point("subs=0 \n"), 41),
        (point("subs=0\r\n"), 41),
        (point("subs=-0\n"), 41),
        (point("subs=00\n"), 41),
        (point("subs=65536\n"), 41),
        (often(16_385), 5),
        (String::new(), 40),
        ("rank=16\nx".into(), 2),
        ("rank=16".into(), 41),
        ("rank=01\n".into(), 41),
        ("rank=\n".into(), 41),
        ("rank=1,1\n".into(), 41),
        ("rank=65535\n".into(), 2),
        ("rank=65536\n".into(), 41),
        ("rank=0\ncount=65535\n".into(), 3),
        ("rank=0\ncount=4096\n".into(), 40),
        ("rank=0\ncount=4097\n".into(), 3),
        ("rank=1\ncount=4096\n".to_string() + &"subs=\n".repeat(4096) + "count=1\n", 3),
        ("x".repeat(MAX_TEXT), 40),
        ("x".repeat(MAX_TEXT + 1), 42),
    ];
    let read = read.into_iter().map(|(text, check)| Known { text: text.into(), read: 0, check });
    read.chain(refused.into_iter().map(|(text, no)| Known { text: text.into(), read: no, check: no })).collect()
}
