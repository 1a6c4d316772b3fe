//! The letters and records that are tried.
use crate::digest::model::{shown, DIGEST};
use crate::letters::NEAR_LETTERS;
use crate::rng::Rng;
use crate::small_letters::Lettered;
use std::fmt;
use std::ops::Range;

/// Letters that are printed as text.
pub struct Shown<'a>(pub &'a [u8]);

impl fmt::Debug for Shown<'_> {
    fn fmt(&self, f: &mut fmt::Formatter<'_>) -> fmt::Result {
        f.write_str(&shown(self.0))
    }
}

/// Letters and a record.
impl Lettered for (Vec<u8>, Vec<u8>) {
    fn letters(&mut self) -> &mut [u8] {
        &mut self.0
    }
}

pub fn exactly(rng: &mut Rng, len: usize) -> Vec<u8> {
    (0..len).map(|_| b'A' + rng.below(26) as u8).collect()
}

pub fn letters(rng: &mut Rng, most: usize) -> Vec<u8> {
    let len = rng.below(most + 1);
    exactly(rng, len)
}

pub fn record_of(rng: &mut Rng, range: Range<usize>, decoy: u8) -> Vec<u8> {
    let mut record = Vec::with_capacity(DIGEST);
    record.extend((range.start as u32).to_le_bytes());
    record.extend((range.end as u32).to_le_bytes());
    record.extend([rng.below(17) as u8, rng.below(2) as u8, rng.below(4) as u8, decoy]);
    // The protein's number, and how often the letters stand in it: any are taken.
    record.extend(rng.bytes(8));
    record
}

/// The bytes of a record before document 02, [7].
pub const FORMER: usize = 16;

/// A protein, and a good record of it; its position need not agree with its range.
pub fn with_record(rng: &mut Rng) -> (Vec<u8>, Vec<u8>) {
    let len = 1 + rng.below(40);
    let start = rng.below(len);
    let end = start + 1 + rng.below(len - start);
    let decoy = rng.below(2) as u8;
    (exactly(rng, len), record_of(rng, start..end, decoy))
}

/// The ends of what fields take, and what they are when bits are cut off.
const EDGES: [u8; 10] = [0, 1, 2, 3, 4, 15, 16, 17, 128, 255];

/// Any letters, records with other bytes in a few places, and ones that are too short or too long.
pub fn damaged(rng: &mut Rng) -> (Vec<u8>, Vec<u8>) {
    let (mut letters, mut record) = with_record(rng);
    for _ in 0..rng.below(3) {
        record[rng.below(12)] = rng.pick(&EDGES);
    }
    match rng.below(6) {
        0 => letters = with_other_byte(rng),
        1 => letters.truncate(rng.below(41)),
        2 => record.truncate(rng.below(DIGEST + 1)),
        3 => {
            let more = rng.pick(&[1, 2, FORMER, DIGEST, DIGEST + 1, 3 * DIGEST]);
            record.extend(rng.bytes(more));
        }
        4 if rng.once_in(2) => record.truncate(FORMER),
        _ => {}
    }
    if rng.once_in(2000) {
        letters = exactly(rng, 65_537);
    }
    (letters, record)
}

/// Good records with every value in every byte, and ranges around the longest protein.
pub fn single_fields(rng: &mut Rng) -> Vec<Vec<u8>> {
    let mut records = Vec::new();
    for place in 0..DIGEST {
        for value in 0..=255 {
            let mut record = record_of(rng, 3..9, value & 1);
            record[place] = value;
            records.push(record);
        }
    }
    for end in [0, 1, 2, 65_535, 65_536, 65_537, 1 << 24, 1 << 31, u32::MAX as usize] {
        for start in [0, 1, end.saturating_sub(1), end, end + 1] {
            records.push(record_of(rng, start..end, 0));
        }
    }
    records
}

/// Letters among which is a byte that is none, and that the line protocol takes.
pub fn with_other_byte(rng: &mut Rng) -> Vec<u8> {
    let len = 1 + rng.below(30);
    let mut letters = exactly(rng, len);
    letters[rng.below(len)] = rng.pick(b"@[`:}{*0 !~");
    letters
}

/// Letters, a bad byte among them half of the time.
pub fn any_bytes(rng: &mut Rng) -> Vec<u8> {
    let most = rng.pick(&[3, 10, 70]);
    let mut letters = letters(rng, most);
    if !letters.is_empty() && rng.once_in(2) {
        for _ in 0..1 + rng.below(2) {
            let place = rng.below(letters.len());
            letters[place] = rng.pick(&NEAR_LETTERS);
        }
    }
    letters
}

/// Exact for the record, or some bytes more or less, or none.
pub fn room(rng: &mut Rng, record: &[u8]) -> usize {
    let exact = match record.len() >= 8 {
        true => usize::from(record[4]).saturating_sub(record[0].into()),
        false => 5,
    };
    rng.pick(&[exact, exact, exact + 1, exact + 9, exact.saturating_sub(1), exact / 2, 0])
}
