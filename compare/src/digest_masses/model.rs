//! The base mass of a digest record, as document 01 says it. Masses are bit patterns.
use crate::answer::*;
use crate::digest::model::{DIGEST, MOST_LETTERS};
use crate::masses::model::{base_mass, mass, MASSES};
use crate::model::{is_letter, word};
use crate::peptide_letters::MOST_LETTERS as MOST_OF_PEPTIDE;
use crate::reversal::model::letters_of;
use crate::small_letters::Lettered;
use std::ops::Range;

/// What is weighed: a record of a protein, whose letters are lent.
#[derive(Clone)]
pub struct Call {
    pub letters: Vec<u8>,
    pub record: Vec<u8>,
    pub masses: Vec<u32>,
    pub water: u32,
}

impl Lettered for Call {
    fn letters(&mut self) -> &mut [u8] {
        &mut self.letters
    }
}

/// The range that a record names, whatever its fields are.
fn named(record: &[u8; DIGEST]) -> Range<usize> {
    word(record, 0) as usize..word(record, 4) as usize
}

/// The first byte of a protein that is no letter, or a letter of mass zero inside the range.
fn first_bad(letters: &[u8], inside: Range<usize>, masses: &[u32]) -> Option<usize> {
    let bad = |place: &usize| {
        let letter = letters[*place];
        !is_letter(letter) || inside.contains(place) && mass(masses, letter) == 0.0
    };
    (0..letters.len()).find(bad)
}

/// The answer is a bit pattern, and the position.
pub fn digest_mass(call: &Call) -> Answer<(u32, u32)> {
    let Call { letters, record, masses, water } = call;
    let whole: Option<&[u8; DIGEST]> = record[..].try_into().ok();
    if letters.len() > MOST_LETTERS || whole.is_some_and(|record| named(record).len() > MOST_OF_PEPTIDE) {
        return refuse(SIZE, 0);
    }
    let (Some(record), MASSES) = (whole, masses.len()) else {
        return refuse(LENGTH, 0);
    };
    if let Some(place) = first_bad(letters, named(record), masses) {
        return refuse(LETTER, place);
    }
    // What is left of these tests are the record's own fields.
    let mass = base_mass(&letters_of(letters, record)?, masses, *water)?;
    Ok((mass, record[10].into()))
}
