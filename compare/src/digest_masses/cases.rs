//! The proteins and records that are weighed.
use super::model::Call;
use crate::digest::model::DIGEST;
use crate::letters::NEAR_LETTERS;
use crate::masses::cases::{any_table, rust_letters, rust_masses, rust_water, table, water};
use crate::masses::model::MASSES;
use crate::model::{put_word, word};
use crate::peptide_letters::{len, of_len};
use crate::refusals::Spoil;
use crate::reversal::cases::{exactly, record_of, FORMER};
use crate::rng::Rng;
use std::ops::Range;

/// A protein that has a range of so many letters: at its front, at its end, or inside.
fn around(rng: &mut Rng, size: usize) -> (usize, Range<usize>) {
    let before = rng.pick(&[0, 1, 7, 80]);
    let behind = rng.pick(&[0, 0, 1, 70]);
    (before + size + behind, before..before + size)
}

/// A table in which every letter has a mass.
fn full_table(rng: &mut Rng) -> Vec<u32> {
    let with_mass = |mass: u32| if mass << 1 == 0 { 1 } else { mass };
    table(rng).into_iter().map(with_mass).collect()
}

fn of_size(rng: &mut Rng, size: usize) -> Call {
    let (many, range) = around(rng, size);
    let decoy = rng.below(2) as u8;
    let record = record_of(rng, range, decoy);
    Call { letters: exactly(rng, many), record, masses: full_table(rng), water: water(rng) }
}

/// No reason for a refusal: any position, whatever the range.
pub fn good(rng: &mut Rng) -> Call {
    let size = len(rng);
    of_size(rng, size)
}

/// With the original's masses: letters outside the range need none.
pub fn of_the_rust(rng: &mut Rng) -> Call {
    let size = len(rng);
    let call = of_size(rng, size);
    let (start, end) = range_of(&call.record);
    let mut letters = call.letters;
    letters.splice(start..end, of_len(rng, size, &rust_letters()));
    Call { letters, record: call.record, masses: rust_masses(), water: rust_water() }
}

pub fn range_of(record: &[u8]) -> (usize, usize) {
    (word(record, 0) as usize, word(record, 4) as usize)
}

fn put_place(record: &mut [u8], at: usize, place: usize) {
    put_word(record, at, place as u32);
}

fn with_bad_size(rng: &mut Rng, call: &mut Call) {
    let (start, _) = range_of(&call.record);
    let size = rng.pick(&[65, 66, 128, 256, 320, 65_536, u32::MAX as usize - start]);
    put_place(&mut call.record, 4, start + size);
    if rng.once_in(500) {
        call.letters = exactly(rng, 65_537);
        *call = Call { record: record_of(rng, 0..3, 0), ..call.clone() };
    }
}

fn with_bad_length(rng: &mut Rng, call: &mut Call) {
    match rng.below(4) {
        0 => call.record.truncate(rng.below(DIGEST)),
        1 => call.record.extend(rng.bytes(1)),
        2 => call.record.truncate(FORMER),
        _ => call.masses.resize(rng.pick(&[0, 1, MASSES - 1, MASSES + 1]), 1),
    }
}

/// A byte that is none, or one letter without a mass: where that stands outside the range, nothing is wrong.
fn with_bad_letter(rng: &mut Rng, call: &mut Call) {
    let place = rng.below(call.letters.len());
    match rng.below(2) {
        0 => call.letters[place] = rng.pick(&NEAR_LETTERS),
        _ => {
            let letter = usize::from(call.letters[place].wrapping_sub(b'A'));
            if let Some(mass) = call.masses.get_mut(letter) {
                *mass = rng.pick(&[0, 1 << 31]);
            }
        }
    }
}

fn with_bad_field(rng: &mut Rng, call: &mut Call) {
    let (many, record) = (call.letters.len(), &mut call.record);
    if record.len() < DIGEST {
        return;
    }
    let (start, end) = range_of(record);
    match rng.below(6) {
        0 => record[8] = rng.pick(&[17, 128, 255]),
        1 => record[9] = rng.pick(&[2, 255]),
        2 => record[10] = rng.pick(&[4, 128, 255]),
        3 => record[11] = rng.pick(&[2, 129, 255]),
        4 => put_place(record, 0, rng.pick(&[end, end + 1, u32::MAX as usize])),
        _ => {
            let past = many + rng.pick(&[1, 2, 60]);
            put_place(record, 4, past);
            put_place(record, 0, start.max(past.saturating_sub(64)));
        }
    }
}

pub const SPOILS: [Spoil<Call>; 4] = [with_bad_size, with_bad_letter, with_bad_field, with_bad_length];

/// Any table, any bytes of a record, any end.
pub fn any(rng: &mut Rng) -> Call {
    let mut call = good(rng);
    if rng.once_in(3) {
        call.masses = any_table(rng);
    }
    for _ in 0..rng.below(3) {
        call.record[rng.below(12)] = rng.pick(&[0, 1, 2, 3, 4, 16, 17, 64, 65, 255]);
    }
    if rng.once_in(4) {
        call.letters.truncate(rng.below(call.letters.len() + 1));
    }
    call
}

/// The longest proteins, with ranges at both ends of them: of one letter, of the most, and of one more.
pub fn greatest(rng: &mut Rng) -> Vec<Call> {
    let mut calls = Vec::new();
    for many in [65_535, 65_536, 65_537] {
        for size in [1, 2, 63, 64, 65] {
            for start in [0, 1, many - size, many - size + 1] {
                for decoy in [0, 1] {
                    let record = record_of(rng, start..start + size, decoy);
                    let letters = exactly(rng, many);
                    calls.push(Call { letters, record, masses: full_table(rng), water: water(rng) });
                }
            }
        }
    }
    calls
}
