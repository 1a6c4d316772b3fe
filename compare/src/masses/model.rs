//! The base mass and the test of letters that are weighed, as document 01 says them. Masses are bit patterns.
use crate::answer::*;
use crate::model::{capital, is_letter};
use crate::peptide_letters::wrong_size;

pub const MASSES: usize = 26;

pub fn mass(masses: &[u32], letter: u8) -> f32 {
    f32::from_bits(masses[usize::from(capital(letter) - b'A')])
}

/// The first byte that is no letter, or a letter of mass zero: minus zero counts, and of a small letter its capital's mass.
pub fn first_without_mass(letters: &[u8], masses: &[u32]) -> Option<usize> {
    letters.iter().position(|letter| !is_letter(*letter) || mass(masses, *letter) == 0.0)
}

fn letters_test(letters: &[u8], masses: &[u32]) -> Answer<()> {
    if wrong_size(letters) {
        return refuse(SIZE, 0);
    }
    if masses.len() != MASSES {
        return refuse(LENGTH, 0);
    }
    match first_without_mass(letters, masses) {
        Some(place) => refuse(LETTER, place),
        None => Ok(()),
    }
}

pub fn peptide_test(letters: &[u8], masses: &[u32], position: u8) -> Answer<()> {
    letters_test(letters, masses)?;
    match position {
        0..=3 => Ok(()),
        _ => refuse(FIELD, 0),
    }
}

/// The answer is a bit pattern.
pub fn base_mass(letters: &[u8], masses: &[u32], water: u32) -> Answer<u32> {
    letters_test(letters, masses)?;
    let add = |sum: f32, letter: &u8| sum + mass(masses, *letter);
    Ok(letters.iter().fold(f32::from_bits(water), add).to_bits())
}
