//! Sequence files: any call against the model, and whole files against the original.
pub mod beyond;
pub mod cases;
pub mod limits;
pub mod model;
pub mod said;
pub mod vectors;
pub mod whole;

use crate::calls;
use crate::digest::cases::all_proteins;
use crate::digest_groups::model::NAME;
use crate::entry::{Against, Context, Tally};
use crate::rng::Rng;
use crate::room;
use crate::shown::{common, part};
use model::{entry_at, reading, Reading};
use std::fmt;

/// A file as it is shown.
pub struct Shown<'a>(pub &'a [u8]);

impl fmt::Debug for Shown<'_> {
    fn fmt(&self, f: &mut fmt::Formatter<'_>) -> fmt::Result {
        let start = &self.0[..self.0.len().min(200)];
        write!(f, "\"{}\" of {} bytes", start.escape_ascii(), self.0.len())
    }
}

/// Some bytes of two buffers from the first that differs.
fn difference(ours: &[u8], wanted: &[u8]) -> (Vec<u8>, Vec<u8>) {
    let from = common(ours, wanted);
    (part(ours, from, 20), part(wanted, from, 20))
}

/// Both answers, and of the buffers what differs.
fn shown(ours: Reading, wanted: &Reading) -> (Reading, Reading) {
    let (name, wanted_name) = difference(&ours.name, &wanted.name);
    let (letters, wanted_letters) = difference(&ours.letters, &wanted.letters);
    let wanted = Reading { answer: wanted.answer, name: wanted_name, letters: wanted_letters };
    (Reading { answer: ours.answer, name, letters }, wanted)
}

/// Holds one call against the model.
fn hold(tally: &mut Tally, bytes: &[u8], at: usize, name: &[u8], letters: &[u8]) {
    let ours = calls::fasta::entry(bytes, at, name, letters);
    let wanted = reading(bytes, at, name, letters);
    tally.case_in_part(&(Shown(bytes), at, name.len(), letters.len()), ours, &wanted, shown);
}

/// The letters of the entry at a place; of one that is refused as many as it may have.
fn letters_at(bytes: &[u8], at: usize) -> usize {
    match entry_at(bytes, at) {
        Ok(Some((entry, _))) => entry.letters.len(),
        _ => bytes.len(),
    }
}

/// Holds a call with room and, once in four times, one without enough for the name, the letters or both.
fn hold_with_rooms(tally: &mut Tally, rng: &mut Rng, bytes: &[u8], at: usize) {
    let count = letters_at(bytes, at);
    for few in room::turns(rng, 4) {
        let (few_name, few_letters) = room::either(rng, *few);
        let (name, letters) = (room::bytes(rng, NAME, few_name), room::bytes(rng, count, few_letters));
        hold(tally, bytes, at, &name, &letters);
    }
}

/// At every place of a file, at its end and past it.
fn hold_everywhere(tally: &mut Tally, rng: &mut Rng, bytes: &[u8]) {
    for at in 0..=bytes.len() + 1 {
        hold_with_rooms(tally, rng, bytes, at);
    }
}

/// All files of up to 7 bytes over those by which files are divided, and a letter.
fn small() -> Vec<Vec<u8>> {
    all_proteins(b">A\n\r ", 7)
}

pub fn small_files(context: &Context) -> Tally {
    let mut tally = Tally::new("fasta: all small files", Against::Model);
    let rng = &mut context.rng("small sequence files");
    small().iter().for_each(|file| hold_everywhere(&mut tally, rng, file));
    tally
}

/// Good files cut and changed at each byte.
pub fn changed_files(context: &Context) -> Tally {
    let mut tally = Tally::new("fasta: changed files", Against::Model);
    let rng = &mut context.rng("changed sequence files");
    for _ in 0..150 {
        let file = cases::short(rng);
        hold_everywhere(&mut tally, rng, &file);
        cases::changes(&file).iter().for_each(|file| hold_everywhere(&mut tally, rng, file));
    }
    tally
}

/// Any bytes, place and room.
pub fn any_call(context: &Context) -> Tally {
    let mut tally = Tally::new("fasta: any call", Against::Model);
    let rng = &mut context.rng("calls of fasta_entry");
    for _ in 0..400_000 {
        let bytes = cases::any(rng);
        let at = cases::place(rng, bytes.len());
        let count = letters_at(&bytes, at);
        let name = rng.pick(&[NAME, NAME, NAME, 0, 1, NAME - 1, NAME + 1, 2 * NAME]);
        let letters = rng.pick(&[count, count, count + 1, count + 9, count.saturating_sub(1), count / 2, 0]);
        let (name, letters) = (rng.bytes(name), rng.bytes(letters));
        hold(&mut tally, &bytes, at, &name, &letters);
    }
    tally
}
