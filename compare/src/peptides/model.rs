//! A peptide by itself: its test and its reversal, as document 01 says them.
use crate::answer::*;
use crate::model::{capitals, letters_test};
use crate::peptide_letters::wrong_size;
use crate::small_letters::Lettered;

/// Without the ids of its ends, which no reversal is given.
#[derive(Clone, Debug, PartialEq)]
pub struct Peptide {
    pub letters: Vec<u8>,
    pub ids: Vec<u8>,
    pub decoy: u32,
}

impl Lettered for Peptide {
    fn letters(&mut self) -> &mut [u8] {
        &mut self.letters
    }
}

fn test(peptide: &Peptide) -> Answer<()> {
    if wrong_size(&peptide.letters) {
        return refuse(SIZE, 0);
    }
    if peptide.ids.len() != peptide.letters.len() {
        return refuse(LENGTH, 0);
    }
    letters_test(&peptide.letters)?;
    match peptide.decoy {
        0 | 1 => Ok(()),
        _ => refuse(FIELD, 0),
    }
}

/// All but the first and the last.
fn reverse_inner(bytes: &mut [u8]) {
    if let [_, inner @ .., _] = bytes {
        inner.reverse();
    }
}

/// The answer, and the peptide as it is afterwards: its letters are capitals then.
pub fn reverse(peptide: &Peptide) -> (Answer<()>, Peptide) {
    let answer = test(peptide);
    let mut after = peptide.clone();
    if answer.is_ok() {
        after.letters = capitals(&peptide.letters);
        reverse_inner(&mut after.letters);
        reverse_inner(&mut after.ids);
        after.decoy = 1 - after.decoy;
    }
    (answer, after)
}
