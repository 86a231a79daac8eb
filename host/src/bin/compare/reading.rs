//! What a text holds, said plainly and apart from the model: its listing, or the number of its refusal.

use flumedrac::{MAX_ELEMENTS, MAX_INCIDENCES, MAX_RANKS, MAX_TEXT};
use flumedrac_trial::duals::Lists;
use flumedrac_trial::Raw;

use crate::damage::written;

/// Something read, or the number of a refusal.
type Read<T> = Result<T, u16>;

/// The listing in a text, or the number of what refuses it before 36.
pub fn reading(text: &[u8]) -> Read<Raw> {
    within(text.len(), MAX_TEXT, 42)?;
    let mut lines = text.split_inclusive(|&byte| byte == b'\n');
    let mut line = |key: &str| numbers(lines.next().unwrap_or_default(), key);
    let rank = single(line("rank=")?)?;
    within(rank + 1, MAX_RANKS, 2)?;
    let mut lists: Lists = vec![];
    let (mut elements, mut incidences) = (0, 0);
    for r in 0..=rank {
        let count = single(line("count=")?)?;
        elements += count;
        within(elements, MAX_ELEMENTS, 3)?;
        lists.push(vec![]);
        for i in 0..count {
            let subs = line("subs=")?;
            incidences += subs.len();
            for &sub in &subs {
                if let Some([_, sups]) = r.checked_sub(1).and_then(|under| lists[under].get_mut(usize::from(sub))) {
                    sups.push(i as u16);
                    incidences += 1;
                }
            }
            within(incidences, MAX_INCIDENCES, 5)?;
            lists[r].push([subs, vec![]]);
        }
    }
    match lines.next() {
        Some(_) => Err(43),
        None => Ok(written(&lists)),
    }
}

fn within(number: usize, most: usize, no: u16) -> Read<()> {
    match number <= most {
        true => Ok(()),
        false => Err(no),
    }
}

/// The numbers in a line with this key; none where nothing follows it. A number stands as it would be printed.
fn numbers(line: &[u8], key: &str) -> Read<Vec<u16>> {
    let value = line.strip_prefix(key.as_bytes()).ok_or(40u16)?;
    let value = value.strip_suffix(b"\n").and_then(|value| std::str::from_utf8(value).ok()).ok_or(41u16)?;
    let number = |word: &str| word.parse().ok().filter(|number: &u16| number.to_string() == word).ok_or(41);
    match value {
        "" => Ok(vec![]),
        words => words.split(',').map(number).collect(),
    }
}

fn single(numbers: Vec<u16>) -> Read<usize> {
    match numbers[..] {
        [number] => Ok(number.into()),
        _ => Err(41),
    }
}
