//! The replay lists, asked of the model and of the archive. No Rust files are needed for it.

use flumedrac_trial::{reply_to, Archive, Library, Model};

const RUST: &str = include_str!("../replay.txt");
const RULES: &str = include_str!("../rules.txt");
const SHOWN: &str = include_str!("../shown.txt");

fn lines(list: &str) -> impl Iterator<Item = &str> {
    list.lines().filter(|line| !line.is_empty() && !line.starts_with('#'))
}

fn replay(library: &dyn Library) {
    for (list, least) in [(RUST, 300), (RULES, 300), (SHOWN, 40)] {
        for line in lines(list) {
            let (question, reply) = line.split_once(" = ").expect("a question and its reply");
            let said = reply_to(question, library).unwrap_or_else(|| panic!("no question: {line}"));
            assert_eq!(said.to_string(), reply, "{line}");
        }
        assert!(lines(list).count() >= least, "the list has too few cases");
    }
}

#[test]
fn model() {
    replay(&Model::default());
}

#[test]
fn archive() {
    replay(&Archive);
}

/// Under a heading '# NUMBER: ..' of the list by the rules, every answer is that refusal.
#[test]
fn headings() {
    let mut heading = None;
    let mut met = vec![];
    for line in RULES.lines() {
        if let Some(words) = line.strip_prefix("# ") {
            heading = words.split_once(':').and_then(|(number, _)| number.parse::<u16>().ok());
            met.extend(heading);
        } else if let (Some(number), Some((_, reply))) = (heading, line.split_once(" = ")) {
            assert_eq!(reply.split(' ').next(), Some(number.to_string().as_str()), "{line}");
        }
    }
    let all: Vec<u16> = (1..=6).chain(19..=22).chain([25]).chain(30..=36).chain(40..=44).chain(50..=53).collect();
    assert_eq!(met, all);
}

/// The program `replay` is given these lists.
#[test]
fn program() {
    let folder = concat!(env!("CARGO_MANIFEST_DIR"), "/../crates/replay/");
    let read = |name: &str| std::fs::read_to_string(folder.to_owned() + name).expect("the program's files are there");
    let asked: Vec<&str> = [RUST, RULES, SHOWN].iter().flat_map(|list| list.lines()).collect();
    assert_eq!(read("stdout").lines().collect::<Vec<_>>(), asked, "host/replay.sh makes it");
    let question = |line: &&str| match line.starts_with('#') {
        true => line.to_string(),
        false => line.split(" = ").next().unwrap_or_default().to_owned(),
    };
    let questions: Vec<String> = asked.iter().map(question).collect();
    assert_eq!(read("stdin").lines().collect::<Vec<_>>(), questions, "host/replay.sh makes it");
}
