//! What a library has to reply: by the Rust files where they decide, by a plain condition where they do not.

use flumedrac::ffi::Answer;
use flumedrac::{MAX_ELEMENTS, MAX_FLAGS, MAX_INCIDENCES, MAX_RANKS, MAX_TEXT};
use flumedrac_trial::question::{answer_numbers, changed_numbers, wide, BYTE_FILL, FILL};
use flumedrac_trial::{cell_texts, Kind, Question, Raw, Reply, Test};

use crate::damage::turned_over;
use crate::oracle::{self, Cell, Event, Product};
use crate::plain;
use crate::reading::reading;
use crate::subject::{refusal, said, By, Doubt, Judged, Subject};
use crate::volumes;

/// What a library has to reply to a question.
pub fn judge(question: &Question<&Subject>) -> Judged<Reply> {
    match question {
        Question::Rank(counts) => count(counts, Cell::rank, |counts| counts.len() - 1),
        Question::ElCount(counts, rank) => {
            count(counts, |cell| cell.el_count(*rank), |counts| counts.get(*rank).map_or(0, |&n| n.into()))
        }
        Question::VertexCount(counts) => {
            count(counts, Cell::vertex_count, |counts| counts.get(1).map_or(0, |&n| n.into()))
        }
        Question::FacetCount(counts) => count(counts, Cell::facet_count, |counts| match counts {
            [.., facets, _] => (*facets).into(),
            _ => 0,
        }),
        Question::Class(no) => {
            let bands = [(1, 9), (10, 19), (20, 29), (30, 39)];
            let class = bands.iter().position(|&(from, to)| from <= *no && *no <= to).map_or(0, |band| band + 1);
            Ok((Reply::of(vec![class as i64]), By::Plain))
        }
        Question::Sign(byte) => {
            let odd = *byte != 0;
            match oracle::PRESENT && *byte < 2 {
                true => Ok((Reply::of(vec![oracle::sign(odd) as i64]), By::Rust)),
                false => Ok((Reply::of(vec![if odd { -1 } else { 1 }]), By::Plain)),
            }
        }
        Question::NextEvent(at, count, place) => Ok((next_event(*at, *count, *place), By::Plain)),
        Question::Test(test, cell) => {
            let (answer, by) = cell.test(*test)?;
            Ok((Reply::of(answer_numbers(answer)), by))
        }
        Question::Change { cell, flag, r } => change(cell, flag, *r),
        Question::Search { cell, first, mask, table, orientations } => {
            search(cell, first, *mask, *table, *orientations)
        }
        Question::OneBody { cell, table, orientations } => Ok((one_body(cell, *table, *orientations)?, By::Plain)),
        Question::SixVolume { cell, first, coordinates, table, orientations } => {
            Ok((six_volume(cell, first, coordinates, *table, *orientations)?, By::Plain))
        }
        Question::Events { cell, first, mask } => events(cell, first, *mask),
        Question::Product { kind, p, q, room } => product(*kind, p, q, *room),
        Question::Dual { cell, room } => dual(cell, *room),
        Question::ReadText { text, room } => Ok((read_text(text, *room), By::Plain)),
        Question::CheckText(text) => Ok((Reply::of(vec![check_text(text)?.into()]), By::Plain)),
        Question::WriteText { cell, room } => Ok((write_text(cell, *room)?, By::Plain)),
    }
}

/// A count: by the Rust where it can hold so many elements, else by the slice itself.
fn count(counts: &[u16], rust: impl Fn(&Cell) -> Option<usize>, plainly: impl Fn(&[u16]) -> usize) -> Judged<Reply> {
    if counts.is_empty() {
        return Ok((Reply::of(vec![1, 0]), By::Plain));
    }
    let elements: usize = counts.iter().map(|&count| usize::from(count)).sum();
    let (value, by) = match oracle::PRESENT && elements <= 2 * MAX_ELEMENTS {
        true => (said(rust(&Cell::bare(counts)))?, By::Rust),
        false => (plainly(counts), By::Plain),
    };
    Ok((Reply::of(vec![0, value as i64]), by))
}

/// The event at a number, and the cursor afterwards.
fn next_event(at: u32, count: u16, place: u16) -> Reply {
    let flags = |range: std::ops::Range<u16>| range.map(|flag| (1, i64::from(flag)));
    let events: Vec<(i64, i64)> = match place {
        1.. if place <= count => flags(0..place).chain([(2, 0)]).chain(flags(place..count)).collect(),
        _ => flags(0..count).collect(),
    };
    match events.get(at as usize) {
        Some((kind, flag)) => Reply::of(vec![*kind, *flag, i64::from(at) + 1]),
        None => Reply::of(vec![0, 0, at.into()]),
    }
}

/// What is taken out and put in are the numbers at rank r of the flag and of the Rust's new flag. They must be the two
/// elements between the flag's neighbours there.
fn change(cell: &Subject, flag: &[u16], r: u16) -> Judged<Reply> {
    let (answer, by) = cell.flag_refusal(flag, &[r.into()])?;
    let r = usize::from(r);
    let mut record = vec![0; 16];
    let (mut taken, mut put) = (0, 0);
    if answer.no == 0 {
        let old: Vec<usize> = flag.iter().map(|&x| x.into()).collect();
        let changed = said(cell.cell.as_ref().and_then(|cell| cell.change(&old, r)))?;
        for (number, index) in record.iter_mut().zip(changed) {
            *number = index as u16;
        }
        (taken, put) = (flag[r], record[r]);
        if plain::others_between(&cell.raw, flag, r) != [put] {
            return Err(Doubt::Oracle("the Rust's change does not put in the only other element between"));
        }
    }
    Ok((Reply { numbers: changed_numbers(answer, taken, put), slices: vec![record], spilled: false }, by))
}

fn search(cell: &Subject, first: &[u16], mask: u16, table: usize, orientations: usize) -> Judged<Reply> {
    let ranks = plain::ranks(mask);
    let (mut answer, mut by) = cell.flag_refusal(first, &ranks)?;
    let mut table = vec![FILL; table];
    let mut bytes = vec![u16::from(BYTE_FILL); orientations];
    let mut found = [0, 0, 0];
    if answer.no == 0 {
        let width = cell.rank() + 1;
        let room = plain::room(&cell.raw, table.len(), orientations);
        let (mut flags, mut place) = (0, 0);
        for event in cell.events(first, &ranks, room)? {
            match event {
                Event::NonOrientable => place = flags,
                Event::Flag(flag, odd) => {
                    if flags < room {
                        let flag: Vec<u16> = flag.iter().map(|&x| x as u16).collect();
                        table[flags * width..][..width].copy_from_slice(&flag);
                        bytes[flags] = odd.into();
                    }
                    flags += 1;
                }
            }
        }
        if flags > room {
            (answer, by) = (refusal(22), By::Plain);
        } else {
            found = [flags as i64, place as i64, (place == 0).into()];
        }
    }
    let numbers = [answer_numbers(answer), found.to_vec()].concat();
    Ok((Reply { numbers, slices: vec![table, bytes], spilled: false }, by))
}

/// What the closed test refuses; else the slices hold a search by the Rust, and all flags decide what is refused.
fn one_body(cell: &Subject, table: usize, orientations: usize) -> Result<Reply, Doubt> {
    if !cell.is_closed()?.0 {
        // A search that asks for nothing is refused as closed is.
        return Ok(search(cell, &[], 0, table, orientations)?.0);
    }
    let (first, mask) = (plain::first_sups(&cell.raw), plain::every_change(&cell.raw));
    let mut reply = search(cell, &first, mask, table, orientations)?.0;
    let room = plain::room(&cell.raw, table, orientations);
    let flags = cell.flags(room);
    let no = match flags > room {
        true => 22,
        false if cell.parts(room) > 1 => 25,
        false if reply.numbers[5] != flags as i64 => {
            return Err(Doubt::Oracle("the Rust's search does not find all flags of one part"))
        }
        false => return Ok(reply),
    };
    reply.numbers = [answer_numbers(refusal(no)), vec![0; 3]].concat();
    Ok(reply)
}

/// What the search by every change refuses; else the slices hold it, by the Rust, and its flags and the coordinates
/// decide.
fn six_volume(
    cell: &Subject,
    first: &[u16],
    coordinates: &[f64],
    table: usize,
    orientations: usize,
) -> Result<Reply, Doubt> {
    // What is not closed is refused as such with any mask.
    let mask = if cell.is_closed()?.0 { plain::every_change(&cell.raw) } else { 0 };
    let mut reply = search(cell, first, mask, table, orientations)?.0;
    reply.numbers = match (reply.numbers[0], reply.numbers[5], reply.numbers[7]) {
        (0, count, orientable) => {
            let odd = reply.slices[1].iter().map(|&byte| byte == 1);
            let flags = reply.slices[0].chunks(cell.rank() + 1).zip(odd).take(count as usize);
            match volumes::answered(&cell.raw, &flags.collect::<Vec<_>>(), orientable == 1, coordinates) {
                Ok(six) => vec![0, six as i64],
                Err(no) => vec![no, 0],
            }
        }
        (no, ..) => vec![no, 0],
    };
    Ok(reply)
}

fn events(cell: &Subject, first: &[u16], mask: u16) -> Judged<Reply> {
    let ranks = plain::ranks(mask);
    let (mut answer, mut by) = cell.flag_refusal(first, &ranks)?;
    let mut slices = vec![];
    if answer.no == 0 {
        for event in cell.events(first, &ranks, MAX_FLAGS)? {
            slices.push(match event {
                Event::NonOrientable => vec![],
                Event::Flag(flag, odd) => [usize::from(odd)].iter().chain(&flag).map(|&x| x as u16).collect(),
            });
        }
        if slices.iter().filter(|event| !event.is_empty()).count() > MAX_FLAGS {
            slices.clear();
            (answer, by) = (refusal(22), By::Plain);
        }
    }
    Ok((Reply { numbers: answer_numbers(answer), slices, spilled: false }, by))
}

/// What is left in slices of these lengths: a listing in front where there is room for it, which is else refused; or
/// nothing but another refusal.
fn left(built: Result<[Vec<u16>; 3], Answer>, room: [usize; 3]) -> Reply {
    let fits = |slices: &[Vec<u16>; 3]| slices.iter().zip(room).all(|(slice, length)| slice.len() <= length);
    let mut lent = room.map(|length| vec![FILL; length]);
    let (answer, slices) = match built {
        Ok(slices) if fits(&slices) => (Answer::default(), slices),
        Ok(_) => (refusal(36), Default::default()),
        Err(answer) => (answer, Default::default()),
    };
    for (slice, lent) in slices.iter().zip(&mut lent) {
        lent[..slice.len()].copy_from_slice(slice);
    }
    let lengths = slices.map(|slice| slice.len() as i64);
    let numbers = [answer_numbers(answer), lengths.to_vec()].concat();
    Reply { numbers, slices: lent.to_vec(), spilled: false }
}

/// The same of a listing that the Rust built: it decides what is written, and not whether there is room.
fn left_by_rust(built: [Vec<u16>; 3], room: [usize; 3]) -> (Reply, By) {
    let reply = left(Ok(built), room);
    let by = if reply.numbers[0] == 0 { By::Rust } else { By::Plain };
    (reply, by)
}

/// What the closed test refuses, since the Rust's dual asks nothing; else the Rust's dual, which must be the listing
/// with its ranks in the opposite order and the two lists of each element exchanged.
fn dual(cell: &Subject, room: [usize; 3]) -> Judged<Reply> {
    let (answer, _) = cell.test(Test::Closed)?;
    if answer.no != 0 {
        return Ok((left(Err(answer), room), By::Plain));
    }
    let built = said(cell.cell.as_ref().and_then(Cell::dual))?.slices();
    let Raw { counts, ends, inc } = turned_over(&cell.raw);
    match built == [counts, ends, inc] {
        true => Ok(left_by_rust(built, room)),
        false => Err(Doubt::Oracle("the Rust's dual is not the listing turned over")),
    }
}

fn read_text(text: &[u8], room: [usize; 3]) -> Reply {
    left(reading(text).map(|Raw { counts, ends, inc }| [counts, ends, inc]).map_err(refusal), room)
}

/// The number of what refuses the reading of a text, or of what the closed test answers for the listing in it.
fn check_text(text: &[u8]) -> Result<u16, Doubt> {
    match reading(text) {
        Ok(read) => Ok(Subject::from(read).test(Test::Closed)?.0.no),
        Err(no) => Ok(no),
    }
}

/// What the closed test refuses; else the text in front of the bytes, where it fits and is not too long.
fn write_text(cell: &Subject, room: usize) -> Result<Reply, Doubt> {
    let (mut answer, _) = cell.test(Test::Closed)?;
    let mut bytes = vec![BYTE_FILL; room];
    let mut length = 0;
    if answer.no == 0 {
        let text = cell_texts::text(cell.raw.slices());
        match text.len() {
            long if long > room => answer = refusal(44),
            long if long > MAX_TEXT => answer = refusal(42),
            fits => {
                bytes[..fits].copy_from_slice(&text);
                length = fits as i64;
            }
        }
    }
    let numbers = [answer_numbers(answer), vec![length]].concat();
    Ok(Reply { numbers, slices: vec![wide(&bytes)], spilled: false })
}

fn product(kind: Kind, p: &Subject, q: &Subject, room: [usize; 3]) -> Judged<Reply> {
    let refused = |no: u16| Ok((left(Err(refusal(no)), room), By::Plain));
    if !p.is_valid()?.0 {
        return refused(30);
    }
    if !q.is_valid()?.0 {
        return refused(31);
    }
    let ranks = [p.rank(), q.rank()];
    if kind == Kind::Duopyramid || !ranks.contains(&0) {
        if kind == Kind::Duocomb && ranks.contains(&1) {
            return refused(32);
        }
        if plain::product_rank(kind, &p.raw, &q.raw) >= MAX_RANKS {
            return refused(33);
        }
        let (elements, incidences) = plain::product_size(kind, &p.raw, &q.raw);
        if elements > MAX_ELEMENTS {
            return refused(34);
        }
        if incidences > MAX_INCIDENCES {
            return refused(35);
        }
    }
    let which = match kind {
        Kind::Duopyramid => Product::Duopyramid,
        Kind::Duoprism => Product::Duoprism,
        Kind::Duotegum => Product::Duotegum,
        Kind::Duocomb => Product::Duocomb,
    };
    let cells = p.cell.as_ref().zip(q.cell.as_ref());
    let built = said(cells.and_then(|(p, q)| Cell::product(which, p, q)))?.slices();
    if (kind == Kind::Duopyramid || !ranks.contains(&0))
        && (built[1].len() / 2, built[2].len()) != plain::product_size(kind, &p.raw, &q.raw)
    {
        return Err(Doubt::Oracle("the Rust's product has another size than its factors say"));
    }
    Ok(left_by_rust(built, room))
}
