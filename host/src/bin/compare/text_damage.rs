//! Texts with one thing changed.

use std::ops::Range;

use flumedrac_trial::Random;

/// Bytes to put into a text: those that it is made of, those that look like them, and the ends of their range.
pub const BYTES: &[u8] = b"0159,=\n\r\t -+.rcs/:\0\x7f\x80\xb9\xff";

/// What to put in place of a number, parted by bars: nothing, numbers at the limits, numbers that 16, 32 or 64 bits
/// cannot hold, and what is no number, or more than one.
const NUMBERS: &str = "|0|1|2|3|7|14|15|16|17|4095|4096|4097|9999|10000|65534|65535|65536|65537|65546|66535|70000|\
    99999|100000|655350|655360|4294967295|4294967296|4294967297|18446744073709551615|18446744073709551616|\
    18446744073709551617|00|01|010|065535|000000000000000000000000001|-0|-1|+1| 1|1 |0x1|1e0|1.0|1_0|a|,|,1|1,|1,,1|\
    1,1|0,0,0";

pub fn numbers() -> Vec<&'static str> {
    NUMBERS.split('|').collect()
}

fn lines(text: &[u8]) -> Vec<&[u8]> {
    text.split_inclusive(|&byte| byte == b'\n').collect()
}

/// Where the numbers of a text stand; after a key there may be an empty one.
fn number_places(text: &[u8]) -> Vec<Range<usize>> {
    let mut places = vec![];
    let mut start = 0;
    for (at, byte) in text.iter().enumerate().filter(|(_, byte)| !byte.is_ascii_digit()) {
        if start < at || (*byte == b'\n' && text[..at].ends_with(b"=")) {
            places.push(start..at);
        }
        start = at + 1;
    }
    places
}

/// A text with bytes in place of some of its own.
fn replaced(text: &[u8], place: Range<usize>, bytes: &[u8]) -> Vec<u8> {
    [&text[..place.start], bytes, &text[place.end..]].concat()
}

/// A text that ends at a byte, or has that byte changed, left out or doubled, or another before it.
fn byte_changed(text: &[u8], at: usize) -> Vec<Vec<u8>> {
    let byte = text[at];
    let others = BYTES.iter().flat_map(|&other| [vec![other], vec![other, byte]]);
    let near = [byte ^ 1, byte ^ 0x20, byte ^ 0x80].map(|other| vec![other]);
    let instead = others.chain(near).chain([vec![], vec![byte, byte]]);
    [text[..at].to_vec()].into_iter().chain(instead.map(|bytes| replaced(text, at..at + 1, &bytes))).collect()
}

/// A text with a line left out, doubled, or exchanged with the next.
fn line_changed(text: &[u8], at: usize) -> Vec<Vec<u8>> {
    let lines = lines(text);
    let (before, line, after) = (lines[..at].concat(), lines[at], lines[at + 1..].concat());
    let next = lines.get(at + 1).copied().unwrap_or_default();
    vec![
        [before.as_slice(), &after].concat(),
        [before.as_slice(), line, line, &after].concat(),
        [before.as_slice(), next, line, &after[next.len()..]].concat(),
    ]
}

/// All that comes of a text by one change.
pub fn all_damaged(text: &[u8]) -> Vec<Vec<u8>> {
    let bytes = (0..text.len()).flat_map(|at| byte_changed(text, at));
    let lines = (0..lines(text).len()).flat_map(|at| line_changed(text, at));
    let number =
        |place: Range<usize>| numbers().into_iter().map(move |new| replaced(text, place.clone(), new.as_bytes()));
    let longer = BYTES.iter().map(|&byte| [text, &[byte]].concat());
    bytes.chain(lines).chain(number_places(text).into_iter().flat_map(number)).chain(longer).collect()
}

/// A text with a small edit, after which it can most often still be read: a number made one more or one less, or
/// another number of the text in its place, or the number twice; or a line exchanged with the next.
pub fn edited(text: &[u8], random: &mut Random) -> Vec<u8> {
    let places = number_places(text);
    if places.is_empty() || random.once_in(5) {
        let at = random.below(lines(text).len());
        return line_changed(text, at)[2].clone();
    }
    let (place, other) = (random.pick(&places).clone(), random.pick(&places).clone());
    let digits = &text[place.clone()];
    let number: u64 = std::str::from_utf8(digits).ok().and_then(|digits| digits.parse().ok()).unwrap_or(0);
    let new = match random.below(4) {
        0 => (number + 1).to_string().into_bytes(),
        1 => number.saturating_sub(1).to_string().into_bytes(),
        2 => text[other].to_vec(),
        _ => [digits, b",", digits].concat(),
    };
    replaced(text, place, &new)
}

/// A text with one thing changed in it.
pub fn damaged(text: &[u8], random: &mut Random) -> Vec<u8> {
    let places = number_places(text);
    match random.below(4) {
        0 | 1 if !places.is_empty() => replaced(text, random.pick(&places).clone(), random.pick(&numbers()).as_bytes()),
        2 if !text.is_empty() => {
            let at = random.below(lines(text).len());
            random.pick(&line_changed(text, at)).clone()
        }
        _ if !text.is_empty() => {
            let at = random.below(text.len());
            random.pick(&byte_changed(text, at)).clone()
        }
        _ => vec![*random.pick(BYTES)],
    }
}
