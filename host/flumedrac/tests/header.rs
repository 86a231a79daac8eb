//! The header compiles as C and as C++, says the same as `ffi`, `Refusal` and docs/REFUSALS.md, and works.
//!
//! The environment variables CC and CXX name other compilers; FLUMEDRAC_RUN has words to start a program by, such as an
//! emulator (see `host/cross.sh`).

use std::collections::HashSet;
use std::fs;
use std::mem::{align_of, offset_of, size_of};
use std::path::{Path, PathBuf};
use std::process::Command;

use flumedrac::ffi::*;
use flumedrac::{duoprism, Listing, Refusal};
use flumedrac::{MAX_ELEMENTS, MAX_FLAGS, MAX_INCIDENCES, MAX_METRES, MAX_RANKS, MAX_TEXT};

/// The languages that the header is for: the words that choose one, and the variable and usual name of its compiler.
const C99: Language = Language { standard: "-std=c99", kind: "c", variable: "CC", usual: "cc" };
const C11: Language = Language { standard: "-std=c11", ..C99 };
const CPP11: Language = Language { standard: "-std=c++11", kind: "c++", variable: "CXX", usual: "c++" };
const CPP17: Language = Language { standard: "-std=c++17", ..CPP11 };

struct Language {
    standard: &'static str,
    kind: &'static str,
    variable: &'static str,
    usual: &'static str,
}

/// A file of this package.
fn own(name: &str) -> PathBuf {
    Path::new(env!("CARGO_MANIFEST_DIR")).join(name)
}

/// A file of the project.
fn project(name: &str) -> PathBuf {
    own("../..").join(name)
}

fn read(file: PathBuf) -> String {
    fs::read_to_string(&file).unwrap_or_else(|trouble| panic!("{}: {trouble}", file.display()))
}

fn run(command: &mut Command) -> String {
    let output = command.output().expect("the program runs");
    assert!(output.status.success(), "{}", String::from_utf8_lossy(&output.stderr));
    String::from_utf8(output.stdout).expect("plain text")
}

impl Language {
    /// A strict compiler, for a file in this language.
    fn compiler(&self, file: &Path) -> Command {
        let mut command = Command::new(std::env::var(self.variable).unwrap_or(self.usual.to_string()));
        command.args([self.standard, "-Wall", "-Wextra", "-Werror", "-pedantic", "-I"]).arg(project("include"));
        command.args(["-x", self.kind]).arg(file).args(["-x", "none"]);
        command
    }

    /// What a program prints that is made of one file and the archive, or what stands in for it.
    fn prints(&self, file: &Path, library: &Path) -> String {
        let stem = |path: &Path| path.file_stem().expect("a name").to_string_lossy().into_owned();
        let name = format!("{}-{}{}", stem(file), stem(library), self.standard);
        let program = Path::new(env!("CARGO_TARGET_TMPDIR")).join(name);
        let mut compiler = self.compiler(file);
        if library.extension().is_some_and(|ending| ending == "c") {
            compiler.args(["-x", self.kind]);
        }
        run(compiler.arg(library).arg("-o").arg(&program));
        let start = std::env::var("FLUMEDRAC_RUN").unwrap_or_default();
        let mut words = start.split_whitespace().map(Into::into).chain([program.into_os_string()]);
        run(Command::new(words.next().expect("the program at least")).args(words))
    }
}

fn archive() -> &'static Path {
    Path::new(env!("FLUMEDRAC_ARCHIVE"))
}

/// The lines that a C program prints, made of statements.
fn printed(name: &str, statements: &str) -> Vec<String> {
    let source =
        format!("#include <stdio.h>\n#include \"flumedrac.h\"\nint main(void)\n{{\n{statements}\n    return 0;\n}}\n");
    let file = Path::new(env!("CARGO_TARGET_TMPDIR")).join(format!("{name}.c"));
    fs::write(&file, source).expect("a file can be written");
    C99.prints(&file, archive()).lines().map(str::to_owned).collect()
}

/// Every refusal that Rust knows: its number and its name in capitals, with FD before it.
fn refusals() -> Vec<(u16, String)> {
    let refusal = |no| Refusal::check(Answer { no, ..Answer::default() }).unwrap_err();
    let known = (1..=u16::MAX).map(|no| (no, refusal(no))).filter(|(_, r)| !matches!(r, Refusal::Unknown { .. }));
    let capitals = |refusal: Refusal| {
        let debug = format!("{refusal:?}");
        let letters = debug.split(' ').next().unwrap_or_default().chars();
        letters.fold(String::from("FD"), |name, letter| match letter.is_uppercase() {
            true => format!("{name}_{letter}"),
            false => format!("{name}{}", letter.to_ascii_uppercase()),
        })
    };
    known.map(|(no, refusal)| (no, capitals(refusal))).collect()
}

#[test]
fn header_is_clean_in_c_and_cpp() {
    for language in [C99, C11, CPP11, CPP17] {
        run(language.compiler(&project("include/flumedrac.h")).arg("-fsyntax-only"));
    }
}

/// Each line is a C expression and what Rust says to it.
fn expected() -> Vec<(String, usize)> {
    let mut lines: Vec<(String, usize)> = vec![];
    let mut say = |expression: &str, value: usize| lines.push((expression.to_string(), value));
    macro_rules! layout {
        ($c:literal $rust:ident $($field:ident)*) => {
            say(concat!("sizeof(", $c, ")"), size_of::<$rust>());
            say(concat!("offsetof(struct { char c; ", $c, " x; }, x)"), align_of::<$rust>());
            $(say(concat!("offsetof(", $c, ", ", stringify!($field), ")"), offset_of!($rust, $field));)*
        };
    }
    layout!("fd_answer" Answer no a b c d);
    layout!("fd_number" Number no value);
    layout!("fd_changed" Changed answer flag taken put);
    layout!("fd_searched" Searched answer count place orientable);
    layout!("fd_built" Built answer counts ends inc);
    layout!("fd_written" Written answer length);
    layout!("fd_volume" Volume no six);
    layout!("fd_cursor" Cursor at);
    layout!("fd_event" Event kind flag);
    say("FD_MAX_RANKS", MAX_RANKS);
    say("FD_MAX_ELEMENTS", MAX_ELEMENTS);
    say("FD_MAX_INCIDENCES", MAX_INCIDENCES);
    say("FD_MAX_FLAGS", MAX_FLAGS);
    say("FD_MAX_TEXT", MAX_TEXT);
    say("FD_MAX_METRES", MAX_METRES);
    refusals().iter().for_each(|(no, name)| say(name, (*no).into()));
    lines
}

#[test]
fn layouts_and_numbers_are_the_same() {
    let expected = expected();
    let print = |line: &(String, usize)| format!("    printf(\"%zu\\n\", (size_t)({}));", line.0);
    let lines = printed("layout", &expected.iter().map(print).collect::<Vec<_>>().join("\n"));
    assert_eq!(lines.len(), expected.len());
    for ((expression, value), line) in expected.iter().zip(lines) {
        assert_eq!(value.to_string(), line, "{expression}");
    }
}

/// What a change answers has the layout that was fixed: 23 numbers of two bytes, taken and put the last of them.
#[test]
fn changed_is_as_fixed() {
    let of_c = "sizeof(fd_changed), offsetof(fd_changed, taken), offsetof(fd_changed, put)";
    let lines = printed("changed", &format!("    printf(\"%zu %zu %zu\\n\", {of_c});"));
    assert_eq!(lines, ["46 42 44"]);
    assert_eq!([size_of::<Changed>(), offset_of!(Changed, taken), offset_of!(Changed, put)], [46, 42, 44]);
}

/// What is written of a text is answered as was fixed: 24 bytes, the length the last eight of them.
#[test]
#[cfg(target_pointer_width = "64")]
fn written_is_as_fixed() {
    let lines = printed("written", "    printf(\"%zu %zu\\n\", sizeof(fd_written), offsetof(fd_written, length));");
    assert_eq!(lines, ["24 16"]);
    assert_eq!([size_of::<Written>(), offset_of!(Written, length)], [24, 16]);
}

/// The header and this package are of one release.
#[test]
fn versions_agree() {
    let lines = printed(
        "version",
        "    printf(\"%d.%d.%d\\n\", FD_VERSION_MAJOR, FD_VERSION_MINOR, FD_VERSION_PATCH);\n    puts(FD_VERSION);",
    );
    assert_eq!(lines, [env!("CARGO_PKG_VERSION"); 2]);
}

/// Every refusal has a sentence of its own, and no other number has one.
#[test]
fn every_refusal_has_a_sentence() {
    let lines = printed("text", "    for (long no = 0; no < 65536; no++) puts(fd_refusal_text((uint16_t)no));");
    assert_eq!(lines.len(), 65_536);
    let known: HashSet<usize> = refusals().iter().map(|(no, _)| usize::from(*no)).chain([0]).collect();
    let mut sentences = HashSet::new();
    for (no, sentence) in lines.iter().enumerate() {
        assert_eq!(sentence != "unknown number", known.contains(&no), "{no}: {sentence}");
        sentences.insert(sentence);
    }
    assert_eq!(sentences.len(), known.len() + 1, "two numbers have the same sentence");
}

/// docs/REFUSALS.md has the same numbers under the same names: a row begins with both.
#[test]
fn paper_has_the_same_refusals() {
    let row = |line: &str| {
        let mut columns = line.strip_prefix("| ")?.split(" | ");
        let no = columns.next()?.parse().ok()?;
        Some((no, format!("FD_{}", columns.next()?.trim_matches('`'))))
    };
    let rows: Vec<(u16, String)> = read(project("docs/REFUSALS.md")).lines().filter_map(row).collect();
    assert_eq!(rows, refusals());
}

/// The numbers in a text.
fn numbers(text: &str) -> Vec<u16> {
    text.split_whitespace().filter_map(|word| word.parse().ok()).collect()
}

/// The triangle that the header works out is the triangle, its table says what the three slices hold, and it is closed.
#[test]
fn triangle_in_the_header() {
    let header = read(project("include/flumedrac.h"));
    let comment: Vec<&str> = header.lines().filter_map(|line| line.strip_prefix(" *   ")).collect();
    let slice = |name: &str| numbers(comment.iter().find_map(|line| line.strip_prefix(name)).expect("a slice"));
    let (counts, ends, inc) = (slice("counts:"), slice("ends:"), slice("inc:"));
    let rows: Vec<Vec<&str>> =
        comment.iter().map(|line| line.split('|').collect()).filter(|row: &Vec<_>| row.len() == 5).collect();
    let mut stretches = rows[1..].iter().flat_map(|row| &row[3..]);
    for (i, &end) in ends.iter().enumerate() {
        let start = if i == 0 { 0 } else { ends[i - 1] };
        let (entries, stretch) =
            stretches.next().and_then(|text| text.split_once(',')).expect("a stretch for each end");
        assert_eq!(numbers(stretch), [start, end]);
        assert_eq!(numbers(entries), inc[start.into()..end.into()]);
    }
    assert!(stretches.next().is_none(), "there are more stretches than ends");
    let places = rows[1..].iter().flat_map(|row| numbers(&row[..2].join(" ")));
    let elements = (0u16..).zip(&counts).flat_map(|(rank, &count)| (0..count).flat_map(move |index| [rank, index]));
    assert!(places.eq(elements), "the table has the elements in their order");

    let triangle = Listing::new(counts, ends, inc).expect("a listing");
    assert_eq!(triangle, Listing::polygon(3).expect("a small polygon"));
    assert_eq!(triangle.closed(), Ok(()));
}

/// The pointer of an empty slice may be null; the archive's own functions can be reached all the same. The archive is
/// never given a null pointer: what stands in for it would answer 99.
#[test]
fn empty_slices_from_c_and_cpp() {
    for language in [C99, C11, CPP11, CPP17] {
        let (calls, stubs) = (own("tests/empty.c"), own("tests/stubs.c"));
        let said = language.prints(&calls, archive());
        let numbers = "1 1 1 1\n1 0 1 0 1 0 1 0 1 0\n1 20 1 22 1 22 1 22\n36 36 30 0 1 2 0 1 36 0 1 2 0\n\
                       40 36 0 1 0 0 40 10\n1 44\n0 0\n";
        assert_eq!(said, numbers, "{}", language.standard);
        let given = language.prints(&calls, &stubs);
        assert!(given.split_whitespace().all(|number| number == "0"), "{}: {given}", language.standard);
    }
}

/// The cells that the header and host/README.md write as texts are the point and the triangle.
#[test]
fn texts_in_the_papers() {
    let written = |file: PathBuf, head: &str, margin: &str| {
        let paper = read(file);
        let (_, rest) = paper.split_once(head).expect("a text after these words");
        let lines = rest.lines().map_while(|line| line.strip_prefix(margin));
        Listing::read_text(lines.map(|line| format!("{line}\n")).collect::<String>().as_bytes())
    };
    assert_eq!(written(project("include/flumedrac.h"), "The point:\n *\n", " *   "), Ok(Listing::point()));
    assert_eq!(written(own("../README.md"), "The triangle:\n\n", "    "), Listing::polygon(3));
}

/// The C examples say what is wrong with their cells.
#[test]
fn examples_in_c() {
    assert_eq!(
        C99.prints(&own("examples/cell.c"), archive()),
        "a cell with 3 faces\n\
         is_valid: nothing is refused\n\
         closed: only one element lies between two that are two ranks apart (18: 2, 3, 4, 0)\n\
         edge 3 lies in only one face: the cell leaks there\n"
    );
    assert_eq!(
        C99.prints(&own("examples/text.c"), archive()),
        "check_text: 18, only one element lies between two that are two ranks apart\n\
         read_text: 5 ranks, 15 elements, 56 incidences\n\
         closed: edge 3 lies in only one face\n"
    );
    let prism = duoprism(&Listing::polygon(3).expect("a triangle"), &Listing::dyad()).expect("a prism");
    assert_eq!(
        C99.prints(&own("examples/write.c"), archive()),
        "duoprism: nothing is refused\n\
         write_text to 100 bytes: the byte slice is too short for the text (44)\n\
         write_text: 252 bytes\n"
            .to_owned()
            + &prism.write_text().expect("a closed cell has a text")
    );
    assert_eq!(
        C99.prints(&own("examples/dual.c"), archive()),
        "a box: 8 vertices, 12 edges, 6 faces\n\
         its dual: 6 vertices, 12 edges, 8 faces\n  \
         face 0 of the box has the edges 0 1 4 5\n  \
         vertex 0 of the dual lies on the edges 0 1 4 5\n\
         the dual of the dual: 8 vertices, 12 edges, 6 faces, the box itself\n\
         with one number less for inc: a slice to write the listing to is too short (36)\n"
    );
    assert_eq!(
        C99.prints(&own("examples/body.c"), archive()),
        "a duoprism: 4 vertices, 4 edges\n  closed: nothing is refused\n  one_body: nothing is refused, 8 flags\n\
         a duocomb: 6 vertices, 6 edges\n  closed: nothing is refused\n  \
         one_body: the flags are in several parts: the cell is not one body\n"
    );
    assert_eq!(
        C99.prints(&own("examples/volume.c"), archive()),
        "a prism: 60000 cubic metres\n\
         with one corner half a metre higher: \
         a coordinate is not a whole number of metres from -1,000 to 1,000 (53)\n"
    );
    assert_eq!(
        C99.prints(&own("examples/round.c"), archive()),
        "a closed grid: 8 cells, 19 faces, 19 edges\nround edge 0, from face 0 of cell 0:\n  \
         in cell 0 from face 0 to face 1\n  across face 1 from cell 0 to cell 2\n  \
         in cell 2 from face 1 to face 2\n  across face 2 from cell 2 to cell 3\n  \
         in cell 3 from face 2 to face 3\n  across face 3 from cell 3 to cell 4\n  \
         in cell 4 from face 3 to face 4\n  across face 4 from cell 4 to cell 5\n  \
         in cell 5 from face 4 to face 5\n  across face 5 from cell 5 to cell 1\n  \
         in cell 1 from face 5 to face 0\n  across face 0 from cell 1 to cell 0\n\
         back again after 6 faces and 6 cells\n"
    );
}
