//! Our side: lent buffers, which are made once and not cleared between calls.
use super::sets::Set;
use crate::ffi::{sendumaal_cover, sendumaal_group_proteins};
use crate::records::{word, EDGE, MEMBER, PAIR};
use oracle::protein_grouping::probe;
use std::collections::BTreeSet;
use std::hint::black_box;

#[derive(Clone, Copy, Default)]
pub struct Sizes {
    pub groups: u32,
    pub metas: u32,
    pub edges: u32,
    pub members: u32,
}

pub struct Ours {
    work: Vec<u32>,
    edges: Vec<u8>,
    members: Vec<u8>,
    marks: Vec<u8>,
}

impl Ours {
    fn words(set: &Set) -> usize {
        8 * set.proteins() + 4 * set.flags.len() + 6 * (set.pairs.len() / PAIR)
    }

    /// Room for the groups of a set. Filled with ones: memory that is only reserved would have to be found in the time of
    /// the first call.
    pub fn new(set: &Set) -> Ours {
        Ours {
            work: vec![1; Ours::words(set)],
            edges: vec![1; set.pairs.len() / PAIR * EDGE],
            members: vec![1; 2 * set.proteins() * MEMBER],
            marks: vec![1; 2 * set.proteins()],
        }
    }

    pub fn group(&mut self, set: &Set) -> Sizes {
        let Set { pairs, flags, .. } = black_box(set);
        let (mut sizes, mut place) = (Sizes::default(), 0);
        #[rustfmt::skip]
        let number = unsafe {
            sendumaal_group_proteins(
                pairs.as_ptr(), pairs.len(), flags.as_ptr(), flags.len(), flags.len() as u32, set.proteins() as u32,
                self.work.as_mut_ptr(), Ours::words(set), self.edges.as_mut_ptr(), self.edges.len(),
                self.members.as_mut_ptr(), self.members.len(), &mut sizes.groups, &mut sizes.metas, &mut sizes.edges,
                &mut sizes.members, &mut place,
            )
        };
        assert_eq!(number, 0, "ours refuses");
        black_box((&self.edges, &self.members));
        sizes
    }

    /// The marks of the groups that stand in the buffers.
    fn cover(&mut self, sizes: Sizes) -> &[u8] {
        let Sizes { groups, metas, edges, .. } = sizes;
        let words = 4 * groups as usize + 4 * metas as usize + 6 * edges as usize;
        let (mut count, mut place) = (0, 0);
        #[rustfmt::skip]
        let number = unsafe {
            sendumaal_cover(
                self.edges.as_ptr(), edges as usize * EDGE, groups, metas, self.work.as_mut_ptr(), words,
                self.marks.as_mut_ptr(), self.marks.len(), &mut count, &mut place,
            )
        };
        assert_eq!(number, 0, "ours refuses");
        black_box(&self.marks[..groups as usize])
    }

    pub fn marks(&mut self, set: &Set) -> &[u8] {
        let sizes = self.group(set);
        self.cover(sizes)
    }

    /// The members that stand in the buffers, and the marks of their groups.
    pub fn members_and_marks(&mut self, set: &Set) -> (Vec<u8>, Vec<u8>) {
        let sizes = self.group(set);
        let marks = self.cover(sizes).to_vec();
        (self.members[..sizes.members as usize * MEMBER].to_vec(), marks)
    }

    /// Whether the original's groups stand in the buffers: their edges, and their members in any order.
    pub fn holds(&self, set: &Set, sizes: Sizes) -> bool {
        let all: Vec<u32> = (0..set.flags.len() as u32).collect();
        let (edges, groups, metas) = probe::build(&set.rust, &all);
        let own_edges = self.edges.chunks(EDGE).map(|record| (word(record, 0), word(record, 4)));
        let members: BTreeSet<(u32, &str, bool)> = (0..)
            .zip(&groups)
            .flat_map(|(group, all)| all.iter().map(move |(_, name, decoy)| (group, &name[..], *decoy)))
            .collect();
        let own = |record| (word(record, 0), set.name_of(word(record, 4)), record[8] == 1);
        let own_members = self.members.chunks(MEMBER).take(sizes.members as usize).map(own);
        let same_counts = (sizes.groups as usize, sizes.metas as usize) == (groups.len(), metas);
        same_counts
            && own_edges.take(sizes.edges as usize).eq(edges)
            && own_members.collect::<BTreeSet<_>>() == members
    }
}

impl Set {
    fn name_of(&self, protein: u32) -> &str {
        let record = &self.names[protein as usize * 64..][..64];
        std::str::from_utf8(record).expect("a name").trim_end_matches('\0')
    }
}
