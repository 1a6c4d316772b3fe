//! The sequence files that are tried.
use crate::digest_groups::{cases, model};
use crate::rng::Rng;
use crate::small_letters::make_small;

/// Line ends of one sort, or of both.
const ENDS: [&[&[u8]]; 3] = [&[b"\n"], &[b"\r\n"], &[b"\n", b"\r\n"]];

/// How the lines of a file are made.
pub struct Kind {
    ends: &'static [&'static [u8]],
    /// The lines of letters of an entry, and the letters of a line, are at most so many.
    lines: usize,
    letters: usize,
}

pub fn usual(rng: &mut Rng) -> Kind {
    Kind { ends: rng.pick(&ENDS), lines: 4, letters: rng.pick(&[2, 8, 30]) }
}

/// The bytes of a name that may be any, without the zeros behind it.
pub fn name(rng: &mut Rng) -> Vec<u8> {
    model::name(&cases::name(rng)).to_vec()
}

/// Pieces of what stands behind a name: nothing in them is an LF.
#[rustfmt::skip]
const PIECES: [&str; 20] = [
    " ", "\t", ">", " >", "x", "ACK", "OS=Homo sapiens", "\r", "\r\r", "\0", "\x0b", "\x0c", "\x7f", "\u{85}", "\u{a0}",
    "é", "ß>", "漢", "\u{2028}", "\u{1f9ec}",
];

/// What stands behind a name and is ignored: nothing, or a blank and any text.
fn rest(rng: &mut Rng) -> Vec<u8> {
    let mut rest = Vec::new();
    if rng.once_in(2) {
        rest.push(rng.pick(b" \t"));
        (0..rng.below(6)).for_each(|_| rest.extend(rng.pick(&PIECES).bytes()));
    }
    rest
}

pub fn letters(rng: &mut Rng, count: usize) -> Vec<u8> {
    let mut letters: Vec<u8> = (0..count).map(|_| b'A' + rng.below(26) as u8).collect();
    if rng.once_in(3) {
        make_small(rng, &mut letters);
    }
    letters
}

/// A line with its end, and at times empty ones behind it.
pub fn put_line(rng: &mut Rng, kind: &Kind, file: &mut Vec<u8>, text: &[u8]) {
    file.extend(text);
    file.extend(rng.pick(kind.ends));
    while rng.once_in(6) {
        file.extend(rng.pick(kind.ends));
    }
}

fn put_letters(rng: &mut Rng, kind: &Kind, file: &mut Vec<u8>) {
    for _ in 0..1 + rng.below(kind.lines) {
        let count = 1 + rng.below(kind.letters);
        let text = letters(rng, count);
        put_line(rng, kind, file, &text);
    }
}

pub fn put_entry(rng: &mut Rng, kind: &Kind, file: &mut Vec<u8>, name: &[u8]) {
    let header = [b">", name, &rest(rng)].concat();
    put_line(rng, kind, file, &header);
    put_letters(rng, kind, file);
}

fn put_entries(rng: &mut Rng, kind: &Kind, file: &mut Vec<u8>, count: usize) {
    for _ in 0..count {
        let name = name(rng);
        put_entry(rng, kind, file, &name);
    }
}

/// Takes the last line's end away, and those of empty lines before it.
pub fn without_last_end(file: &mut Vec<u8>) {
    while let Some(b'\n') = file.last() {
        file.pop();
        if let Some(b'\r') = file.last() {
            file.pop();
        }
    }
}

/// Entries in a file that begins with empty lines at times; its last line has an end or none.
fn of_kind(rng: &mut Rng, kind: &Kind, entries: usize) -> Vec<u8> {
    let mut file = Vec::new();
    if rng.once_in(5) {
        put_line(rng, kind, &mut file, b"");
    }
    put_entries(rng, kind, &mut file, entries);
    if rng.once_in(2) {
        without_last_end(&mut file);
    }
    file
}

/// A file that the original reads as ours does: without blanks around lines of letters and before names, and with letters in
/// each entry. What stands behind a name may be anything, blanks and CRs at its end too.
pub fn agreed(rng: &mut Rng) -> Vec<u8> {
    let kind = usual(rng);
    let entries = rng.below(5);
    of_kind(rng, &kind, entries)
}

pub fn longer(rng: &mut Rng) -> Vec<u8> {
    let kind = Kind { lines: 400, letters: 80, ..usual(rng) };
    let entries = 1 + rng.below(8);
    of_kind(rng, &kind, entries)
}

/// A file of few bytes, with entries without letters.
pub fn short(rng: &mut Rng) -> Vec<u8> {
    let kind = Kind { lines: 2, letters: 3, ..usual(rng) };
    let mut file = Vec::new();
    for _ in 0..1 + rng.below(3) {
        let len = 1 + rng.below(2);
        let mut header: Vec<u8> = [b">", &letters(rng, len)[..]].concat();
        header.extend(rng.pick(&[&b""[..], b"", b" ", b"\t>", b" z"]));
        put_line(rng, &kind, &mut file, &header);
        if !rng.once_in(4) {
            put_letters(rng, &kind, &mut file);
        }
    }
    if rng.once_in(2) {
        without_last_end(&mut file);
    }
    file
}

/// A file with another byte at a place.
pub fn with_byte(file: &[u8], place: usize, byte: u8) -> Vec<u8> {
    let mut changed = file.to_vec();
    changed[place] = byte;
    changed
}

/// What a byte of a file is changed to.
const OTHERS: [u8; 11] = *b">\n\r \tz*\0\x7f\x80\xff";

/// A file cut before each of its bytes, without each of them, and with each changed.
pub fn changes(file: &[u8]) -> Vec<Vec<u8>> {
    let mut changes = Vec::new();
    for place in 0..file.len() {
        changes.push(file[..place].to_vec());
        changes.push([&file[..place], &file[place + 1..]].concat());
        changes.extend(OTHERS.map(|byte| with_byte(file, place, byte)));
    }
    changes
}

/// Pieces of files, good and bad ones, of which some stand here more than once to be drawn more often.
#[rustfmt::skip]
const TOKENS: [&[u8]; 28] = [
    b">", b">", b"\n", b"\n", b"\n", b"\n>", b"\n>", b"\r\n", b"\r\n", b"\r\n>", b"\r", b"\r\r\n", b" ", b"\t",
    b">x\n", b">y z\n", b"\n>x\r\n", b"A", b"ck", b"MAKCRDK", b"MAKCRDK\n", b"acd\r\n", b"e", b"*", b"{", b"~", b"\x80", b"\0",
];

/// Any bytes in which lines and entries are likely.
pub fn any(rng: &mut Rng) -> Vec<u8> {
    let mut file = if rng.once_in(2) { b">x\n".to_vec() } else { vec![] };
    for _ in 0..rng.below(14) {
        match rng.once_in(30) {
            true => file.push(rng.byte()),
            false => file.extend(rng.pick(&TOKENS)),
        }
    }
    file
}

/// A place in a file, at its end and above it.
pub fn place(rng: &mut Rng, len: usize) -> usize {
    let within = rng.below(len + 1);
    let word = 1 << 32;
    let above =
        [len, len + 1, len + 2, word, len + word, 1 << 63, usize::MAX - len, usize::MAX - 1, usize::MAX];
    match rng.below(12) {
        0 => rng.pick(&above),
        1..=5 => within,
        _ => 0,
    }
}

/// Two entries, the first of so many letters in lines of one length.
pub fn exactly(rng: &mut Rng, count: usize) -> Vec<u8> {
    let kind = usual(rng);
    let mut file = Vec::new();
    let (header, width) = ([b">", &name(rng)[..]].concat(), rng.pick(&[1, 60, 1_000, count]));
    put_line(rng, &kind, &mut file, &header);
    for line in letters(rng, count).chunks(width) {
        put_line(rng, &kind, &mut file, line);
    }
    put_entries(rng, &kind, &mut file, 1);
    file
}
