//! The letters of a peptide: how many there may be, and those that are tried.
use crate::letters::NEAR_LETTERS;
use crate::rng::Rng;

pub const MOST_LETTERS: usize = 64;

pub fn wrong_size(letters: &[u8]) -> bool {
    letters.is_empty() || letters.len() > MOST_LETTERS
}

/// Why document 01 refuses letters of a wrong size.
pub fn size_reason(letters: &[u8]) -> &'static str {
    match letters.is_empty() {
        true => "without letters (1, the Rust accepts)",
        false => "of more than 64 letters (1, the Rust accepts)",
    }
}

pub fn any_letter(rng: &mut Rng) -> u8 {
    b'A' + rng.below(26) as u8
}

pub fn of_len(rng: &mut Rng, len: usize, pool: &[u8]) -> Vec<u8> {
    (0..len).map(|_| rng.pick(pool)).collect()
}

/// From 1 to 64, small ones and the ends more often.
pub fn len(rng: &mut Rng) -> usize {
    match rng.below(8) {
        0 => rng.pick(&[1, 2, 3, 4, 63, 64]),
        1..=4 => 1 + rng.below(12),
        _ => 1 + rng.below(MOST_LETTERS),
    }
}

/// Letters that may be none: too few, too many, or with a byte that is none.
pub fn any_letters(rng: &mut Rng) -> Vec<u8> {
    let len = match rng.below(12) {
        0 => rng.pick(&[0, 64, 65, 66, 128, 256, 257, 320]),
        _ => len(rng),
    };
    let mut letters: Vec<u8> = (0..len).map(|_| any_letter(rng)).collect();
    if len > 0 && rng.once_in(4) {
        for _ in 0..1 + rng.below(2) {
            let place = rng.below(len);
            letters[place] = rng.pick(&NEAR_LETTERS);
        }
    }
    letters
}
