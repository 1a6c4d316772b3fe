//! Entries at the limits of names and letters, and every byte at every place.
use super::cases::with_byte;
use super::{hold, hold_everywhere, hold_with_rooms};
use crate::digest::model::MOST_LETTERS;
use crate::digest_groups::model::NAME;
use crate::entry::{Against, Context, Tally};

/// How long lines are, and what ends them.
const LAYOUTS: [(usize, &[u8]); 4] = [(1, b"\n"), (60, b"\n"), (60, b"\r\n"), (usize::MAX, b"\n")];

/// What stands before an entry, from which byte of it a call reads, and what stands behind the entry.
const AROUND: [(&[u8], usize, &[u8]); 4] =
    [(b"", 0, b""), (b"\r\n\n", 1, b"\n"), (b">w\nK*\n\n", 6, b">y\nK*\n"), (b"z\n", 0, b"")];

/// A good name, none, and one that is too long.
const NAMES: [&[u8]; 3] = [b"x", b"", &[b'x'; NAME + 1]];

/// So many letters, every second one small, with a bad byte at a place if that is asked.
fn letters(count: usize, bad: Option<usize>) -> Vec<u8> {
    let mut letters: Vec<u8> = b"Qq".iter().copied().cycle().take(count).collect();
    if let Some(place) = bad {
        letters[place] = b'*';
    }
    letters
}

/// The lines of an entry.
pub fn entry(name: &[u8], letters: &[u8], (width, end): (usize, &[u8])) -> Vec<u8> {
    let mut entry = [b">", name, end].concat();
    for line in letters.chunks(width) {
        entry.extend(line);
        entry.extend(end);
    }
    entry
}

/// Holds a call with room for so many letters, exact, one short and one to spare, and the same of the name.
fn hold_in_rooms(tally: &mut Tally, bytes: &[u8], at: usize, count: usize) {
    let rooms =
        [(NAME, count), (NAME, count - 1), (NAME - 1, count), (NAME - 1, count - 1), (NAME + 1, count + 1)];
    for (name, letters) in rooms {
        hold(tally, bytes, at, &vec![0xee; name], &vec![0xee; letters]);
    }
}

/// Files with so many letters, without a bad byte and with one at either end, and the place to read each at.
fn files(count: usize, layout: (usize, &[u8])) -> Vec<(Vec<u8>, usize)> {
    let mut files = Vec::new();
    for bad in [None, Some(0), Some(count - 1)] {
        for name in NAMES {
            let entry = entry(name, &letters(count, bad), layout);
            files.extend(AROUND.map(|(before, at, behind)| ([before, &entry, behind].concat(), at)));
        }
    }
    files
}

/// Around the most letters, and twice as many: with bad bytes and bad names, which are refused later, or alone.
pub fn letter_counts(_: &Context) -> Tally {
    let mut tally = Tally::new("fasta: the most letters", Against::Model);
    for count in [MOST_LETTERS - 1, MOST_LETTERS, MOST_LETTERS + 1, 2 * MOST_LETTERS, 2 * MOST_LETTERS + 1] {
        for (file, at) in LAYOUTS.into_iter().flat_map(|layout| files(count, layout)) {
            hold_in_rooms(&mut tally, &file, at, count);
        }
    }
    tally
}

/// What stands behind a name.
const BEHIND_NAME: [&[u8]; 9] =
    [b"", b" ", b"\t", b"\n", b"\r\n", b"\r", b" z\nACK\n", b"\tz\r\nack", b"\r\rACK\n>z\nK"];

/// Names of every length up to some above the most, and of lengths that a byte or two cannot count.
pub fn name_lengths(context: &Context) -> Tally {
    let mut tally = Tally::new("fasta: lengths of names", Against::Model);
    let rng = &mut context.rng("lengths of names");
    for len in (0..NAME + 4).chain([128, 255, 256, 257, 319, 320, 321, 65_536, 65_537, 65_600]) {
        for behind in BEHIND_NAME {
            let file = [b">", &vec![b'x'; len][..], behind].concat();
            for _ in 0..8 {
                hold_with_rooms(&mut tally, rng, &file, 0);
            }
        }
    }
    tally
}

/// Every byte at every place of a file, read at every place, and in a name of 64 bytes.
pub fn every_byte(context: &Context) -> Tally {
    let mut tally = Tally::new("fasta: every byte", Against::Model);
    let rng = &mut context.rng("every byte of a sequence file");
    let file = b"\r\n>ab c\nAC\r\nd\n>e\nK\n";
    let longest = entry(&[b'x'; NAME], b"K", LAYOUTS[0]);
    for byte in 0..=255 {
        for place in 0..file.len() {
            hold_everywhere(&mut tally, rng, &with_byte(file, place, byte));
        }
        for place in [1, 2, 32, NAME - 1, NAME] {
            hold_with_rooms(&mut tally, rng, &with_byte(&longest, place, byte), 0);
        }
    }
    tally
}

/// A stretch before an entry, between its letters, and behind them.
fn around_letters(stretch: &[u8]) -> [Vec<u8>; 3] {
    let parts: [[&[u8]; 3]; 3] =
        [[stretch, b">x\nK", b""], [b">x\nA", stretch, b"C"], [b">x\nA", stretch, b"\n>y\nC"]];
    parts.map(|parts| parts.concat())
}

/// A stretch behind a name, in the place of letters, and as a line before all entries.
fn as_lines(stretch: &[u8]) -> [Vec<u8>; 3] {
    let parts: [[&[u8]; 3]; 3] =
        [[b">x ", stretch, b"\nAC"], [b">x\n", stretch, b"\n>y\n"], [b"\n", stretch, b"\n>x\n"]];
    parts.map(|parts| parts.concat())
}

/// Long stretches of line ends, of CRs that end no line, and of other bytes.
pub fn long_stretches(context: &Context) -> Tally {
    let mut tally = Tally::new("fasta: long stretches", Against::Model);
    let rng = &mut context.rng("long stretches");
    let ends: [&[u8]; 4] = [b"\n", b"\r\n", b"\r", b"\r\r\n"];
    let texts: [&[u8]; 4] = [b"z", b" >", b"\xff", b"\0\t"];
    for count in [65_535, 65_536, 65_537, 300_000] {
        let with_ends = ends.iter().flat_map(|end| around_letters(&end.repeat(count)));
        let with_texts = texts.iter().flat_map(|text| as_lines(&text.repeat(count)));
        for file in with_ends.chain(with_texts) {
            hold_with_rooms(&mut tally, rng, &file, 0);
        }
    }
    tally
}
