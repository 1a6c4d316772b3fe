//! Files that the original reads otherwise: what ours says is the model's answer, and what the original says is counted by its
//! reason.
use super::cases::{letters, name, put_entry, put_line, usual, without_last_end, Kind};
use super::model::listed;
use super::said::{ask, Said};
use super::whole::hold_file;
use super::Shown;
use crate::digest::model::MOST_LETTERS;
use crate::digest_groups::model::NAME;
use crate::entry::{Against, Context, Tally};
use crate::rng::Rng;

/// What the original does with all files of a sort.
#[derive(PartialEq)]
enum Does {
    Reads,
    Panics,
    TakesNone,
}

/// A sort of files, and the reason why answers differ there.
struct Sort {
    make: fn(&mut Rng) -> Vec<u8>,
    many: usize,
    does: Does,
    reason: &'static str,
}

/// What is put between entries, of which there are at most so many before it and behind it.
fn among(
    rng: &mut Rng,
    before: usize,
    behind: usize,
    put: impl Fn(&mut Rng, &Kind, &mut Vec<u8>),
) -> Vec<u8> {
    let kind = usual(rng);
    let mut file = Vec::new();
    let entry = |rng: &mut Rng, file: &mut Vec<u8>| {
        let name = name(rng);
        put_entry(rng, &kind, file, &name);
    };
    (0..rng.below(before + 1)).for_each(|_| entry(rng, &mut file));
    put(rng, &kind, &mut file);
    (0..rng.below(behind + 1)).for_each(|_| entry(rng, &mut file));
    if rng.once_in(2) {
        without_last_end(&mut file);
    }
    file
}

/// Lines between entries.
fn with_lines(rng: &mut Rng, lines: &[&[u8]]) -> Vec<u8> {
    among(rng, 2, 2, |rng, kind, file| lines.iter().for_each(|line| put_line(rng, kind, file, line)))
}

fn blanks(rng: &mut Rng) -> Vec<u8> {
    (0..1 + rng.below(3)).map(|_| rng.pick(b" \t")).collect()
}

fn some_letters(rng: &mut Rng) -> Vec<u8> {
    let count = 1 + rng.below(12);
    letters(rng, count)
}

/// Blanks before letters, behind them, on both sides, or alone in a line.
fn blanks_around(rng: &mut Rng) -> Vec<u8> {
    let (before, behind, letters) = (blanks(rng), blanks(rng), some_letters(rng));
    let line = match rng.below(4) {
        0 => [&before[..], &letters].concat(),
        1 => [&letters[..], &behind].concat(),
        2 => [&before[..], &letters, &behind].concat(),
        _ => before,
    };
    with_lines(rng, &[b">x", b"AC", &line, b"K"])
}

fn blanks_before_header(rng: &mut Rng) -> Vec<u8> {
    let header = [&blanks(rng)[..], b">", &name(rng)].concat();
    let letters = some_letters(rng);
    with_lines(rng, &[&header, &letters])
}

fn blanks_before_name(rng: &mut Rng) -> Vec<u8> {
    let header = [b">", &blanks(rng)[..], &name(rng)].concat();
    let letters = some_letters(rng);
    with_lines(rng, &[&header, &letters])
}

fn no_letters(rng: &mut Rng) -> Vec<u8> {
    let header = [b">", &name(rng)[..]].concat();
    with_lines(rng, &[&header])
}

fn text_before(rng: &mut Rng) -> Vec<u8> {
    let text = rng.pick(&[&b"MAKCRDK"[..], b"x", b"; a comment", b"x>", b"*"]);
    among(rng, 0, 3, |rng, kind, file| put_line(rng, kind, file, text))
}

/// Headers without a name.
const NAMELESS: [&[u8]; 4] = [b">", b">", b"> ", b">\t "];

fn no_name(rng: &mut Rng) -> Vec<u8> {
    let (header, letters) = (rng.pick(&NAMELESS), some_letters(rng));
    with_lines(rng, &[header, &letters])
}

/// Without letters the original does not look at the name.
fn no_name_no_letters(rng: &mut Rng) -> Vec<u8> {
    let header = rng.pick(&NAMELESS);
    with_lines(rng, &[header])
}

fn last_cr(rng: &mut Rng) -> Vec<u8> {
    let mut file = among(rng, 1, 2, |rng, kind, file| put_entry(rng, kind, file, b"x"));
    without_last_end(&mut file);
    file.extend(b"\r".repeat(1 + rng.below(2)));
    file
}

/// A line of letters with a byte that is none, also with a CR that no LF follows and with `>`.
fn no_letter(rng: &mut Rng) -> Vec<u8> {
    let bad =
        rng.pick(&["*", "-", ".", "1", "@", "[", "`", "{", "\0", "\x7f", " ", "\t", "\r", "\r\r", ">", "é"]);
    let line = [&some_letters(rng)[..], bad.as_bytes(), &some_letters(rng)].concat();
    with_lines(rng, &[b">x", &line])
}

/// Too long, or with a byte that no name has; behind an FF or a CR the original ends a name.
fn bad_name(rng: &mut Rng) -> Vec<u8> {
    let name = match rng.below(3) {
        0 => vec![b'x'; NAME + 1 + rng.below(3)],
        _ => [
            &name(rng)[..],
            rng.pick(&["\0", "\x01", "\x0b", "\x0c", "\r", "\x7f", "é", "漢"]).as_bytes(),
            b"z",
        ]
        .concat(),
    };
    let letters = some_letters(rng);
    with_lines(rng, &[&[b">", &name[..]].concat(), &letters])
}

fn too_long(rng: &mut Rng) -> Vec<u8> {
    let count = MOST_LETTERS + 1 + rng.below(2);
    let letters = letters(rng, count);
    with_lines(rng, &[b">x", &letters])
}

/// Texts that are not UTF-8, as Latin-1 often is not.
const OTHER_TEXTS: [&[u8]; 4] = [b" \xff", b"\t\x80", b" \xc3>", b" \xe9t\xe9"];

fn not_utf8(rng: &mut Rng) -> Vec<u8> {
    let (name, text, letters) = (name(rng), rng.pick(&OTHER_TEXTS), some_letters(rng));
    let header = [b">", &name[..], text].concat();
    with_lines(rng, &[&header, &letters])
}

const SORTS: [Sort; 12] = [
    Sort {
        make: blanks_around,
        many: 10_000,
        does: Does::Reads,
        reason: "with blanks around letters (2 at the first, the Rust trims lines)",
    },
    Sort {
        make: blanks_before_header,
        many: 10_000,
        does: Does::Reads,
        reason: "with blanks before `>` (14, or 2 behind an entry, the Rust trims lines)",
    },
    Sort {
        make: blanks_before_name,
        many: 10_000,
        does: Does::Reads,
        reason: "with blanks before a name (12, the Rust skips them)",
    },
    Sort {
        make: no_letters,
        many: 10_000,
        does: Does::Reads,
        reason: "with an entry without letters (an entry, the Rust drops it)",
    },
    Sort {
        make: text_before,
        many: 5_000,
        does: Does::Panics,
        reason: "with text before the first `>` (14, the Rust panics)",
    },
    Sort { make: no_name, many: 5_000, does: Does::Panics, reason: "without a name (12, the Rust panics)" },
    Sort {
        make: no_name_no_letters,
        many: 5_000,
        does: Does::Reads,
        reason: "without name and letters (12, the Rust drops the entry)",
    },
    Sort {
        make: last_cr,
        many: 5_000,
        does: Does::Reads,
        reason: "with a CR at the end (2 at it, the Rust trims it)",
    },
    Sort {
        make: no_letter,
        many: 20_000,
        does: Does::Reads,
        reason: "with a byte that is no letter (2 at it, the Rust keeps it)",
    },
    Sort {
        make: bad_name,
        many: 20_000,
        does: Does::Reads,
        reason: "with a bad name (12, the Rust takes any, up to a blank, FF or CR)",
    },
    Sort {
        make: too_long,
        many: 20,
        does: Does::Reads,
        reason: "above the letters of a protein (1, the Rust has no such limit)",
    },
    Sort {
        make: not_utf8,
        many: 5_000,
        does: Does::TakesNone,
        reason: "that is no UTF-8 behind a name (read, the Rust takes no such text)",
    },
];

/// That the original does with a file what it does with its sort, and reads something else than ours.
fn differs(sort: &Sort, file: &[u8], said: &Said) -> bool {
    match said {
        Said::Reads(said) => sort.does == Does::Reads && *said != listed(file),
        Said::Panics => sort.does == Does::Panics,
        Said::NotUtf8 => sort.does == Does::TakesNone,
    }
}

pub fn beyond_the_rust(context: &Context) -> Tally {
    let mut tally = Tally::new("fasta: beyond the Rust", Against::Model);
    let rng = &mut context.rng("sequence files beyond the Rust");
    for sort in &SORTS {
        let files: Vec<Vec<u8>> = (0..sort.many).map(|_| (sort.make)(rng)).collect();
        for (file, said) in files.iter().zip(ask(&context.oracle, &files)) {
            match differs(sort, file, &said) {
                true => hold_file(&mut tally, rng, file, &listed(file)),
                false => tally.fail(&Shown(file), &format!("no file {}", sort.reason)),
            }
            tally.intended(sort.reason);
        }
    }
    tally
}
