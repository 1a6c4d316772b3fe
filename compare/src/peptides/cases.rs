//! The peptides that are tried.
use super::model::Peptide;
use crate::letters::NEAR_LETTERS;
use crate::peptide_letters::{any_letter, len, MOST_LETTERS};
use crate::refusals::Spoil;
use crate::rng::Rng;

/// None, some or all are not 0.
pub fn ids(rng: &mut Rng, len: usize) -> Vec<u8> {
    let filled = rng.pick(&[0, 0, 1, 4, 8]);
    (0..len).map(|_| if rng.below(8) < filled { rng.byte() } else { 0 }).collect()
}

fn peptide(rng: &mut Rng, len: usize) -> Peptide {
    let letters = (0..len).map(|_| any_letter(rng)).collect();
    Peptide { letters, ids: ids(rng, len), decoy: rng.below(2) as u32 }
}

/// Peptides that are no reason for a refusal: every length, and more of the small ones.
pub fn good(rng: &mut Rng) -> Vec<Peptide> {
    let mut peptides = Vec::new();
    for len in 1..=MOST_LETTERS {
        peptides.extend((0..400).map(|_| peptide(rng, len)));
    }
    peptides.extend((0..20_000).map(|_| any_good(rng)));
    peptides
}

/// Those that the original takes and document 01 does not.
pub fn wrong_sizes(rng: &mut Rng) -> Vec<Peptide> {
    let lens = [0; 40].into_iter().chain(65..=130);
    lens.map(|len| peptide(rng, len)).collect()
}

/// One that is no reason for a refusal, of any length.
pub fn any_good(rng: &mut Rng) -> Peptide {
    let len = len(rng);
    peptide(rng, len)
}

fn bad_size(rng: &mut Rng, spoiled: &mut Peptide) {
    let len = rng.pick(&[0, 65, 66, 128, 256, 257, 320]);
    *spoiled = peptide(rng, len);
}

fn no_length(rng: &mut Rng, spoiled: &mut Peptide) {
    let len = spoiled.ids.len();
    let len = rng.pick(&[0, len.saturating_sub(1), len + 1, MOST_LETTERS, len + 256]);
    spoiled.ids.resize(len, 0);
}

fn bad_letter(rng: &mut Rng, spoiled: &mut Peptide) {
    if !spoiled.letters.is_empty() {
        let place = rng.below(spoiled.letters.len());
        spoiled.letters[place] = rng.pick(&NEAR_LETTERS);
    }
}

fn bad_decoy(rng: &mut Rng, spoiled: &mut Peptide) {
    spoiled.decoy = rng.pick(&[2, 3, 255, 256, 257, 1 << 31, u32::MAX]);
}

pub const SPOILS: [Spoil<Peptide>; 4] = [bad_size, no_length, bad_letter, bad_decoy];
