//! Our side: lent buffers, which are made once and not cleared between calls.
use super::lists::List;
use crate::ffi::sendumaal_group_digests;
use crate::records::{digest_bytes, group_bytes, range, word, NAME};
use oracle::enzyme::DigestGroup;
use std::hint::black_box;

pub struct Ours {
    work: Vec<u32>,
    groups: Vec<u8>,
    proteins: Vec<u32>,
}

impl Ours {
    /// Room for the groups of a list. Filled with ones: memory that is only reserved would have to be found in the time of
    /// the first call.
    pub fn new(list: &List) -> Ours {
        let (names, digests) = (list.bounds.len() - 1, list.rust.len());
        Ours {
            work: vec![1; 4 * names + 6 * digests],
            groups: vec![1; group_bytes() * digests],
            proteins: vec![1; digests],
        }
    }

    /// How many groups there are.
    pub fn group(&mut self, list: &List) -> usize {
        let List { names, bounds, letters, digests, .. } = black_box(list);
        let (mut count, mut place) = (0, 0);
        #[rustfmt::skip]
        let number = unsafe {
            sendumaal_group_digests(
                names.as_ptr(), names.len(), bounds.as_ptr(), bounds.len(), letters.as_ptr(), letters.len(),
                digests.as_ptr(), digests.len(), self.work.as_mut_ptr(), self.work.len(),
                self.groups.as_mut_ptr(), self.groups.len(), self.proteins.as_mut_ptr(), self.proteins.len(),
                &mut count, &mut place,
            )
        };
        assert_eq!(number, 0, "ours refuses");
        black_box((&self.groups, &self.proteins));
        count as usize
    }

    /// Whether the original's groups stand in the buffers: their letters, and their proteins by name. The original does not
    /// sort those of its last group.
    pub fn holds(&self, list: &List, count: usize, groups: &[DigestGroup]) -> bool {
        let same = |(record, group): (&[u8], &DigestGroup)| {
            let mut names: Vec<&str> = group.proteins.iter().map(|name| &**name).collect();
            names.sort_unstable();
            let [first, count] = [0, 4].map(|at| word(record, digest_bytes() + at) as usize);
            let stretch = &self.proteins[first..first + count];
            list.letters_of(record) == group.reference.sequence.as_bytes()
                && stretch.iter().map(|protein| list.name(*protein)).eq(names)
        };
        count == groups.len() && self.groups.chunks(group_bytes()).zip(groups).all(same)
    }
}

impl List {
    fn name(&self, protein: u32) -> &str {
        let record = &self.names[protein as usize * NAME..][..NAME];
        std::str::from_utf8(record).expect("a name").trim_end_matches('\0')
    }

    fn letters_of(&self, record: &[u8]) -> Vec<u8> {
        let first = self.bounds[word(record, 12) as usize] as usize;
        let mut letters = self.letters[first..][range(record)].to_vec();
        if let ([_, inner @ .., _], 1) = (&mut letters[..], record[11]) {
            inner.reverse();
        }
        letters
    }
}
