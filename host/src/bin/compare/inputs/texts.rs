//! Texts: those to try, those of cells, those at the limits; changed in every place, damaged, and drawn at random.

use flumedrac::{Listing, MAX_TEXT};
use flumedrac_trial::cell_texts::{point, text, to_try};
use flumedrac_trial::{cells, Kind, Question, Random, Raw, ALL_ROOM};

use crate::plain;
use crate::reading::reading;
use crate::run::{Go, Run};
use crate::supply::{catalogue, special};
use crate::text_damage::{all_damaged, damaged, numbers, BYTES};

use super::rooms;

/// A text read into slices of all sorts of lengths, tested, and sent round.
fn ask(run: &mut Run<'_>, text: Vec<u8>) -> Go {
    let rooms = match reading(&text) {
        Ok(Raw { counts, ends, inc }) => rooms([counts.len(), ends.len(), inc.len()]),
        Err(_) => vec![[16, 40, 60], [0, 0, 0]],
    };
    for room in rooms {
        run.ask(Question::ReadText { text: text.clone(), room })?;
    }
    run.ask(Question::CheckText(text.clone()))?;
    run.text_round(&text)
}

/// The same, and with room for any listing.
fn ask_widely(run: &mut Run<'_>, text: Vec<u8>) -> Go {
    run.ask(Question::ReadText { text: text.clone(), room: ALL_ROOM })?;
    ask(run, text)
}

/// The texts to try, and all that comes of the short ones and of those of some small cells by one change.
pub(super) fn texts_to_try(run: &mut Run<'_>) -> Go {
    let cells =
        [Listing::dyad(), cells::polygon(2), cells::polygon(3), cells::cuboid(3)].map(|cell| text(cell.slices()));
    for text in to_try().into_iter().map(|known| known.text).chain(cells) {
        if text.len() < 400 {
            all_damaged(&text).into_iter().try_for_each(|damaged| ask(run, damaged))?;
        }
        ask_widely(run, text)?;
    }
    Ok(())
}

/// The listings whose texts are taken, products among them; sups as they follow from subs, or not.
pub(super) fn listings() -> Vec<Raw> {
    let catalogue = catalogue();
    let small = &catalogue[..14];
    let mut listings: Vec<Raw> = catalogue.iter().cloned().map(Raw::from).collect();
    listings.extend(special().into_iter().filter(|cell| plain::shape(cell) == 0));
    for (p, q) in small.iter().flat_map(|p| small.iter().map(move |q| (p, q))) {
        let built = Kind::ALL.iter().filter_map(|&kind| cells::try_product(kind, p, q));
        listings.extend(built.map(Raw::from));
    }
    listings
}

pub(super) fn cell_texts(run: &mut Run<'_>, random: &mut Random) -> Go {
    for cell in listings() {
        let text = text(cell.slices());
        for _ in 0..8 {
            ask(run, damaged(&text, random))?;
        }
        ask_widely(run, text)?;
    }
    Ok(())
}

/// A text of the right form, with small numbers.
pub(super) fn random_text(random: &mut Random) -> Vec<u8> {
    let rank = random.below(5);
    let mut text = format!("rank={rank}\n");
    for r in 0..=rank {
        let count = if r == 0 || random.once_in(3) { random.below(2) + 1 } else { random.below(5) };
        text += &format!("count={count}\n");
        for _ in 0..count {
            let length = if r == 0 && !random.once_in(4) { 0 } else { random.below(4) };
            let subs: Vec<String> = (0..length).map(|_| random.below(4).to_string()).collect();
            text += &format!("subs={}\n", subs.join(","));
        }
    }
    text.into_bytes()
}

/// Parts of texts one after another, as they come.
pub(super) fn random_parts(random: &mut Random) -> Vec<u8> {
    let parts = ["rank=", "count=", "subs=", "\n", ",", "0", "1", "2", "rank=0\n", "count=1\n", "count=0\n", "subs=\n"];
    let part = |random: &mut Random| match random.below(8) {
        0 => random.pick(&numbers()).as_bytes().to_vec(),
        1 => vec![*random.pick(BYTES)],
        _ => random.pick(&parts).as_bytes().to_vec(),
    };
    let first = if random.once_in(3) { "" } else { "rank=" };
    (0..random.below(12)).fold(first.into(), |text: Vec<u8>, _| [text, part(random)].concat())
}

pub(super) fn damaged_texts(run: &mut Run<'_>, random: &mut Random, rounds: usize) -> Go {
    let small = listings().into_iter().filter(|cell| cell.inc.len() < 100);
    let bases: Vec<Vec<u8>> = small.map(|cell| text(cell.slices())).collect();
    for _ in 0..rounds {
        let mut text = if random.once_in(3) { random_text(random) } else { random.pick(&bases).clone() };
        ask(run, text.clone())?;
        for _ in 0..=random.below(3) {
            text = damaged(&text, random);
        }
        ask(run, text)?;
        ask(run, random_parts(random))?;
    }
    Ok(())
}

/// A text that can be read and has exactly so many bytes, at least 30: the lowest element lists what does not exist.
fn filled(bytes: usize) -> String {
    let start = "rank=0\ncount=1\nsubs=";
    let rest = bytes - start.len() - 1;
    let odd = if rest % 2 == 0 { "10" } else { "0" };
    format!("{start}{odd}{}\n", ",0".repeat((rest - odd.len()) / 2))
}

/// A rank with so many elements that list nothing.
fn bare(count: usize) -> String {
    format!("count={count}\n{}", "subs=\n".repeat(count))
}

/// What may follow a line that passes a limit, or not: nothing, another line, and what is no line.
const AFTER: [&str; 5] = ["", "subs=\n", "count=0\n", "x", "subs="];

/// Texts of lengths around the limit.
fn long_texts() -> Vec<String> {
    let near = || MAX_TEXT - 2..=MAX_TEXT + 2;
    let mut texts: Vec<String> = near().map(filled).chain(near().map(|bytes| filled(bytes - 1) + "\n")).collect();
    texts.extend([100_000, 131_072, 200_000].map(|bytes| "x".repeat(bytes)));
    for (digit, length) in [("0", 20_000), ("0", 65_000), ("9", 20_000), ("9", 65_000)] {
        let number = digit.repeat(length);
        texts.extend([format!("rank={number}\n"), point(&format!("subs={number}\n"))]);
    }
    texts
}

/// Ranks around the limit, with as many counts as there would be, or not.
fn texts_with_ranks() -> Vec<String> {
    let mut texts = vec![];
    for rank in [14, 15, 16, 17, 255, 256, 65_534, 65_535, 65_536] {
        let counts = "count=0\n".repeat(rank.min(17));
        let rests = ["", "\n", "\ncount=0", "\nx"].map(String::from);
        let more = ["", "count=0\n", "count=0\nx"].map(|last| format!("\n{counts}{last}"));
        texts.extend(rests.into_iter().chain(more).map(|rest| format!("rank={rank}{rest}")));
    }
    texts
}

/// Elements around the limit: in one rank, in two, in 16, and where 16 bits would wrap.
fn texts_with_elements() -> Vec<String> {
    let mut texts = vec![];
    for count in [4094, 4095, 4096, 4097, 32_768, 65_535] {
        for after in AFTER {
            texts.push(format!("rank=0\ncount={count}\n{after}"));
            texts.push(format!("rank=1\n{}count={count}\n{after}", bare(1)));
            texts.push(format!("rank=2\n{}{}count={count}\n{after}", bare(0), bare(4000)));
        }
        texts.push(format!("rank=1\n{}count={count}", bare(1)));
    }
    for count in 4094..=4097 {
        texts.push(format!("rank=0\n{}", bare(count)));
        texts.push(format!("rank=1\n{}{}", bare(count), bare(0)));
        texts.push(format!("rank=1\n{}{}", bare(count - 1), bare(1)));
    }
    texts.extend([255, 256, 257].map(|last| format!("rank=15\n{}{}", bare(256).repeat(15), bare(last))));
    texts
}

/// Incidences around the limit: subs that exist, which make a sup each, and others that do not; in one line and in two.
fn texts_with_incidences() -> Vec<String> {
    let mut texts = vec![];
    for (there, missing) in [(16_384, 0), (16_383, 1), (16_383, 2), (16_383, 3), (16_380, 8), (16_380, 9), (16_385, 0)]
    {
        let subs = [vec!["0"; there], vec!["1"; missing]].concat();
        let (some, rest) = subs.split_at(there / 2);
        let (subs, some, rest) = (subs.join(","), some.join(","), rest.join(","));
        for after in AFTER {
            texts.push(point(&format!("subs={subs}\n{after}")));
            texts.push(format!("rank=1\n{}count=3\nsubs={some}\nsubs={rest}\n{after}", bare(1)));
            texts.push(format!("rank=2\n{}count=1\nsubs={some}\ncount=2\nsubs={rest}\n{after}", bare(1)));
        }
        texts.extend(["", ",", ",\n", "x\n", ",65536\n"].map(|end| point(&format!("subs={subs}{end}"))));
        texts.push(format!("rank=1\n{}count=2\nsubs={some}\nsubs={rest}\n", bare(1)));
    }
    texts
}

pub(super) fn text_limits(run: &mut Run<'_>) -> Go {
    let prism = |n, m| cells::product(Kind::Duoprism, &cells::polygon(n), &cells::polygon(m));
    let pyramid = cells::product(Kind::Duopyramid, &cells::polygon(31), &cells::polygon(31));
    let large = [prism(26, 26), prism(29, 29), prism(31, 32), pyramid, cells::polygon(2047), cells::digonal(15)];
    let texts = [long_texts(), texts_with_ranks(), texts_with_elements(), texts_with_incidences()].concat();
    for text in texts.into_iter().map(String::into_bytes).chain(large.map(|cell| text(cell.slices()))) {
        ask_widely(run, text)?;
    }
    Ok(())
}
