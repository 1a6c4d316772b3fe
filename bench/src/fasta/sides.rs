//! The two sides: each reads a whole file.
use super::files::File;
use crate::ffi::{sendumaal_fasta_entry, sendumaal_names_test};
use crate::records::NAME;
use oracle::fasta::Fasta;
use std::hint::black_box;

const MOST_NAMES: usize = 65_536;

/// `parse` takes its text.
pub fn parse(text: String) -> Fasta {
    Fasta::parse(black_box(text), "rev_", true)
}

/// Ours writes a catalogue, boundaries and letters into buffers that are made once and not cleared between calls.
pub struct Ours {
    names: Vec<u8>,
    bounds: Vec<u32>,
    letters: Vec<u8>,
}

/// How many entries were listed before there were no more, or before one was refused with a number.
#[derive(PartialEq, Debug)]
pub struct Ended {
    pub entries: usize,
    pub number: u32,
}

impl Ours {
    /// Room for what a file holds. Filled with ones: memory that is only reserved would have to be found in the time of the
    /// first call; the first boundary is 0.
    pub fn new(file: &File) -> Ours {
        let mut bounds = vec![1; file.entries + 1];
        bounds[0] = 0;
        Ours { names: vec![1; NAME * file.entries], bounds, letters: vec![1; file.text.len()] }
    }

    pub fn read(&mut self, bytes: &[u8]) -> Ended {
        let bytes = black_box(bytes);
        let (mut at, mut filled, mut entries) = (0, 0, 0);
        loop {
            let (name, letters) = (&mut self.names[NAME * entries..], &mut self.letters[filled..]);
            let (mut next, mut count, mut found, mut place) = (0, 0, 0, 0);
            #[rustfmt::skip]
            let number = unsafe {
                sendumaal_fasta_entry(
                    bytes.as_ptr(), bytes.len(), at, name.as_mut_ptr(), name.len(), letters.as_mut_ptr(), letters.len(),
                    &mut next, &mut count, &mut found, &mut place,
                )
            };
            if number != 0 || found == 0 {
                black_box((&self.names, &self.bounds, &self.letters));
                return Ended { entries, number };
            }
            (at, filled, entries) = (next, filled + count as usize, entries + 1);
            self.bounds[entries] = filled as u32;
        }
    }

    /// Reads a file, then tests its names as a catalogue, as many as one may have.
    pub fn read_and_test(&mut self, bytes: &[u8]) {
        let names = self.read(bytes).entries.min(MOST_NAMES);
        let mut place = 0;
        let number = unsafe { sendumaal_names_test(self.names.as_ptr(), NAME * names, &mut place) };
        assert_eq!(number, 0, "ours refuses the name at {place}");
    }

    /// Whether the original's entries stand in the buffers, as capitals; it has none without letters.
    pub fn holds(&self, fasta: &Fasta) -> bool {
        let letters = |bounds: &[u32]| &self.letters[bounds[0] as usize..bounds[1] as usize];
        let entries = self.names.chunks(NAME).zip(self.bounds.windows(2).map(letters));
        let mut targets = fasta.targets.iter();
        let same = entries.filter(|(_, letters)| !letters.is_empty()).all(|(record, letters)| {
            let bytes = record.iter().position(|byte| *byte == 0).unwrap_or(NAME);
            targets.next().is_some_and(|(name, text)| {
                *name.as_bytes() == record[..bytes] && *text.to_ascii_uppercase().as_bytes() == *letters
            })
        });
        same && targets.next().is_none()
    }
}
