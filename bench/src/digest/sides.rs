//! The two sides: each answers how many digests a protein has, after it has made all of them.
use super::rows::Cutting;
use crate::ffi::sendumaal_digest;
use crate::records::{digest_bytes, range};
use oracle::enzyme::{Digest, Enzyme, EnzymeParameters};
use std::hint::black_box;
use std::sync::Arc;

const SKIP: &str = "P";

pub struct Rust {
    parameters: EnzymeParameters,
    name: Arc<str>,
}

impl Rust {
    pub fn new(cutting: &Cutting) -> Rust {
        let parameters = EnzymeParameters {
            missed_cleavages: cutting.missed,
            min_len: cutting.minimum as usize,
            max_len: cutting.maximum as usize,
            enzyme: Enzyme::new(cutting.cleave, SKIP, true, cutting.semi),
        };
        Rust { parameters, name: Arc::from("P") }
    }

    pub fn digests(&self, protein: &str) -> Vec<Digest> {
        self.parameters.digest(black_box(protein), self.name.clone())
    }

    /// The list is freed here: it is part of the time.
    pub fn count(&self, protein: &str) -> usize {
        black_box(self.digests(protein)).len()
    }
}

const MOST_DIGESTS: usize = 1_048_576;
const ALL_LETTERS: u32 = 0x03ff_ffff;

/// Ours writes into one buffer, which is made once and not cleared between calls.
pub struct Ours {
    out: Vec<u8>,
}

pub fn set_of(letters: &str) -> u32 {
    letters.bytes().fold(0, |set, letter| set | 1 << (letter - b'A'))
}

impl Ours {
    /// Filled with ones: memory that is only reserved would have to be found in the time of the first call.
    pub fn new() -> Ours {
        Ours { out: vec![1; MOST_DIGESTS * digest_bytes()] }
    }

    pub fn count(&mut self, cutting: &Cutting, letters: &str) -> usize {
        self.cut(cutting, letters, 1)
    }

    /// The records of a protein that has a number.
    pub fn records(&mut self, cutting: &Cutting, letters: &str, protein: u32) -> Vec<u8> {
        let count = self.cut(cutting, letters, protein);
        self.out[..count * digest_bytes()].to_vec()
    }

    fn cut(&mut self, cutting: &Cutting, letters: &str, protein: u32) -> usize {
        let (mut count, mut place) = (0, 0);
        let kind = if cutting.cleave.is_empty() { 0 } else { 2 };
        let letters = black_box(letters);
        #[rustfmt::skip]
        let number = unsafe {
            sendumaal_digest(
                letters.as_ptr(), letters.len(), ALL_LETTERS, kind, set_of(cutting.cleave), set_of(SKIP), 0, cutting.semi.into(),
                cutting.missed.into(), cutting.minimum, cutting.maximum, protein,
                self.out.as_mut_ptr(), self.out.len(), &mut count, &mut place,
            )
        };
        assert_eq!(number, 0, "ours refuses");
        black_box(&self.out);
        count as usize
    }

    /// The letters of the digests that stand in the buffer.
    pub fn letters<'a>(&'a self, count: usize, letters: &'a str) -> impl Iterator<Item = &'a str> {
        let records = self.out[..count * digest_bytes()].chunks(digest_bytes());
        records.map(move |record| &letters[range(record)])
    }
}
