//! What is grouped: the tryptic digests of generated proteins and their decoys.
use crate::digest::cut;
use crate::proteins::{letters, name, protein};
use crate::records::{digest_bytes, range, NAME};
use crate::rng::Rng;
use oracle::enzyme::{Digest, Position};
use std::sync::Arc;

/// One list of digests, as each side takes it.
pub struct List {
    pub rust: Vec<Digest>,
    pub names: Vec<u8>,
    pub bounds: Vec<u32>,
    pub letters: Vec<u8>,
    pub digests: Vec<u8>,
}

const ABOUT: usize = 450;
/// Of a database many proteins are near others: an isoform has its protein's letters but for one in so many.
const CHANGED: usize = 100;

/// Every second protein is an isoform of one before.
fn another(rng: &mut Rng, before: &[String]) -> String {
    if before.is_empty() || rng.once_in(2) {
        return protein(rng, ABOUT);
    }
    let mut isoform = before[rng.below(before.len())].clone().into_bytes();
    for _ in 0..isoform.len() / CHANGED {
        let place = rng.below(isoform.len());
        isoform[place] = letters(rng, 1).as_bytes()[0];
    }
    String::from_utf8(isoform).expect("letters")
}

fn position(number: u8) -> Position {
    match number {
        0 => Position::Nterm,
        1 => Position::Cterm,
        2 => Position::Full,
        _ => Position::Internal,
    }
}

/// The digest of a record for the original.
fn digest(record: &[u8], protein: &str, name: &Arc<str>) -> Digest {
    Digest {
        decoy: false,
        semi_enzymatic: record[9] == 1,
        sequence: protein[range(record)].into(),
        protein: Arc::clone(name),
        missed_cleavages: record[8],
        position: position(record[10]),
    }
}

impl List {
    fn push(&mut self, protein: &str, name: &str, most: usize) {
        let number = self.bounds.len() as u32 - 1;
        let shared: Arc<str> = Arc::from(name);
        self.letters.extend(protein.as_bytes());
        self.bounds.push(self.letters.len() as u32);
        let mut padded = [0; NAME];
        padded[..name.len()].copy_from_slice(name.as_bytes());
        self.names.extend(padded);
        for record in cut(protein, number).chunks(digest_bytes()) {
            for decoy in [0, 1] {
                if self.rust.len() == most {
                    return;
                }
                let target = digest(record, protein, &shared);
                self.rust.push(if decoy == 1 { target.reverse() } else { target });
                self.digests.extend(record);
                let last = self.digests.len() - digest_bytes();
                self.digests[last + 11] = decoy;
            }
        }
    }
}

/// So many digests: of each protein with up to two missed cleavages, each with its decoy behind it.
pub fn list(rng: &mut Rng, digests: usize) -> List {
    let mut list = List { rust: vec![], names: vec![], bounds: vec![0], letters: vec![], digests: vec![] };
    let mut proteins = Vec::new();
    while list.rust.len() < digests {
        let protein = another(rng, &proteins);
        let name = name(rng, proteins.len());
        list.push(&protein, &name, digests);
        proteins.push(protein);
    }
    list
}
