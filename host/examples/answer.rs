//! Answers questions of the form of the replay list by the unproved model: a line each, on standard input. Lines that
//! are empty or begin with '#' come back as they are.

use flumedrac_trial::{reply_to, Model};

fn main() {
    for line in std::io::stdin().lines() {
        let line = line.expect("lines of text");
        match reply_to(&line, &Model::default()) {
            Some(reply) => println!("{line} = {reply}"),
            None if line.is_empty() || line.starts_with('#') => println!("{line}"),
            None => panic!("no question: {line}"),
        }
    }
}
