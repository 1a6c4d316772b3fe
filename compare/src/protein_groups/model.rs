//! Document 01's grouping of proteins as plain Rust, sentence by sentence.
use crate::answer::*;
use crate::cover::model::{bytes_of, read_edges, shown, Edge, EDGE, MOST_EDGES, MOST_GROUPS, MOST_METAS};
use crate::model::{put_word, word};
use crate::room;
use std::collections::{BTreeMap, BTreeSet, HashMap};
use std::fmt;

/// A pair has the shape of an edge: a peptide and a protein.
pub const PAIR: usize = EDGE;
pub const MOST_PAIRS: usize = 1_048_576;
pub const MOST_PEPTIDES: usize = MOST_METAS;
pub const MOST_PROTEINS: usize = 65_536;
/// The bytes of a member, and the most of them.
pub const MEMBER: usize = 12;
pub const MOST_MEMBERS: usize = MOST_GROUPS;

/// A call of `group_proteins` but for its two lists.
#[derive(Clone, PartialEq)]
pub struct Call {
    pub pairs: Vec<u8>,
    pub flags: Vec<u8>,
    pub peptides: usize,
    pub proteins: usize,
    pub work: Vec<u32>,
}

impl fmt::Debug for Call {
    fn fmt(&self, f: &mut fmt::Formatter<'_>) -> fmt::Result {
        let Call { pairs, flags, peptides, proteins, work } = self;
        let front = &flags[..flags.len().min(40)];
        write!(f, "{peptides} peptides, {proteins} proteins, pairs {}, ", shown(pairs))?;
        write!(f, "flags {front:?} of {}, {} words", flags.len(), work.len())
    }
}

/// A group, a protein by the caller's number, and whether it is a decoy.
#[derive(Clone, Copy, Debug, PartialEq)]
pub struct Member {
    pub group: u32,
    pub protein: u32,
    pub decoy: u8,
}

impl Member {
    pub fn bytes(&self) -> [u8; MEMBER] {
        let mut record = [0; MEMBER];
        put_word(&mut record, 0, self.group);
        put_word(&mut record, 4, self.protein);
        record[8] = self.decoy;
        record
    }

    pub fn of(record: &[u8]) -> Member {
        Member { group: word(record, 0), protein: word(record, 4), decoy: record[8] }
    }
}

#[derive(Clone, Copy, Debug, PartialEq)]
pub struct Sizes {
    pub groups: u32,
    pub metas: u32,
    pub edges: u32,
    pub members: u32,
}

/// The answer, whatever room there is.
#[derive(Clone, Debug, Default, PartialEq)]
pub struct Groups {
    pub edges: Vec<Edge>,
    pub members: Vec<Member>,
    pub groups: u32,
    pub metas: u32,
}

impl Groups {
    pub fn sizes(&self) -> Sizes {
        let [edges, members] = [self.edges.len(), self.members.len()].map(|count| count as u32);
        Sizes { groups: self.groups, metas: self.metas, edges, members }
    }
}

/// What a call says, and both lists as they are afterwards.
#[derive(Clone, Debug, PartialEq)]
pub struct Grouped {
    pub answer: Answer<Sizes>,
    pub edges: Vec<u8>,
    pub members: Vec<u8>,
}

/// "Each peptide's protein numbers, sorted with repeats, are its evidence": of those with a pair, ascending, and the proteins
/// with their flags by number.
fn evidences(pairs: &[Edge], flags: &[u8]) -> (Vec<Vec<usize>>, Vec<(u32, u8)>) {
    let mut of_peptide = vec![vec![]; flags.len()];
    for (peptide, protein) in pairs {
        of_peptide[*peptide as usize].push(*protein);
    }
    let (mut numbers, mut known) = (HashMap::new(), Vec::new());
    let mut evidence = |(proteins, flag): (Vec<u32>, &u8)| {
        let number = |protein: u32| {
            *numbers.entry((protein, *flag)).or_insert_with(|| {
                known.push((protein, *flag));
                known.len() - 1
            })
        };
        let mut evidence: Vec<usize> = proteins.into_iter().map(number).collect();
        evidence.sort_unstable();
        evidence
    };
    let all: Vec<Vec<usize>> = of_peptide.into_iter().zip(flags).map(&mut evidence).collect();
    (all.into_iter().filter(|evidence| !evidence.is_empty()).collect(), known)
}

pub fn groups(pairs: &[Edge], flags: &[u8]) -> Groups {
    let (evidences, known) = evidences(pairs, flags);
    let metas: BTreeSet<Vec<usize>> = evidences.into_iter().collect();
    let mut lists: Vec<Vec<u32>> = vec![vec![]; known.len()];
    for (meta, evidence) in (0..).zip(&metas) {
        for number in evidence {
            lists[*number].push(meta);
        }
    }
    let mut proteins_of: BTreeMap<Vec<u32>, Vec<(u32, u8)>> = BTreeMap::new();
    for (list, protein) in lists.into_iter().zip(known) {
        proteins_of.entry(list).or_default().push(protein);
    }
    let mut answer = Groups { metas: metas.len() as u32, ..Groups::default() };
    for (group, (list, proteins)) in (0..).zip(proteins_of) {
        answer.edges.extend(list.into_iter().map(|meta| (group, meta)));
        answer.members.extend(proteins.into_iter().map(|(protein, decoy)| Member { group, protein, decoy }));
        answer.groups += 1;
    }
    answer
}

/// The words of work memory that so many pairs need: left is twice the proteins, right the peptides.
pub fn work_for(peptides: usize, proteins: usize, pairs: usize) -> usize {
    8 * proteins + 4 * peptides + 6 * pairs
}

/// 1, 8, 10, then 9 in pairs and in flags.
pub fn test(call: &Call) -> Answer<()> {
    let Call { pairs, flags, peptides, proteins, work } = call;
    let count = pairs.len() / PAIR;
    if count > MOST_PAIRS || *peptides > MOST_PEPTIDES || *proteins > MOST_PROTEINS {
        return refuse(SIZE, 0);
    }
    if pairs.len() % PAIR != 0 || flags.len() != *peptides {
        return refuse(LENGTH, 0);
    }
    if work.len() < work_for(*peptides, *proteins, count) {
        return refuse(SHORT_WORK, 0);
    }
    let good = |(peptide, protein): &Edge| (*peptide as usize) < *peptides && (*protein as usize) < *proteins;
    if let Some(place) = read_edges(pairs).iter().position(|pair| !good(pair)) {
        return refuse(FIELD, place);
    }
    match flags.iter().position(|flag| *flag > 1) {
        Some(place) => refuse(FIELD, place),
        None => Ok(()),
    }
}

/// Both lists in their room.
pub fn filled(groups: &Groups, edges: &[u8], members: &[u8]) -> Grouped {
    let records = bytes_of(&groups.edges);
    let edges = room::filled(&records.chunks(EDGE).collect::<Vec<_>>(), EDGE, MOST_EDGES, edges);
    let records: Vec<[u8; MEMBER]> = groups.members.iter().map(Member::bytes).collect();
    let members = room::filled(&records, MEMBER, MOST_MEMBERS, members);
    let answer = edges.answer.and(members.answer).map(|_| groups.sizes());
    Grouped { answer, edges: edges.buffer, members: members.buffer }
}

pub fn group_proteins(call: &Call, edges: &[u8], members: &[u8]) -> Grouped {
    match test(call) {
        Ok(()) => filled(&groups(&read_edges(&call.pairs), &call.flags), edges, members),
        Err(refusal) => Grouped { answer: Err(refusal), edges: edges.to_vec(), members: members.to_vec() },
    }
}
