//! Document 01's cover as plain Rust, sentence by sentence: each choice walks all edges, so for few choices.
use crate::answer::*;
use crate::model::word;
use crate::room;
use std::fmt;

/// The bytes of an edge, and the most that a list has.
pub const EDGE: usize = 8;
pub const MOST_EDGES: usize = 1_048_576;
pub const MOST_GROUPS: usize = 131_072;
pub const MOST_METAS: usize = 262_144;

/// A group and a meta-peptide.
pub type Edge = (u32, u32);

/// A call of `cover` but for its marks.
#[derive(Clone, PartialEq)]
pub struct Call {
    pub edges: Vec<u8>,
    pub groups: usize,
    pub metas: usize,
    pub work: Vec<u32>,
}

impl fmt::Debug for Call {
    fn fmt(&self, f: &mut fmt::Formatter<'_>) -> fmt::Result {
        let Call { edges, groups, metas, work } = self;
        write!(f, "{groups} groups, {metas} meta-peptides, {}, {} words", shown(edges), work.len())
    }
}

/// The first edges as text.
pub fn shown(edges: &[u8]) -> String {
    let edge = |(group, meta): &Edge| format!("({group},{meta})");
    let front: Vec<String> = read_edges(edges).iter().take(40).map(edge).collect();
    format!("{} in {} bytes", front.join(""), edges.len())
}

pub fn bytes_of(edges: &[Edge]) -> Vec<u8> {
    edges.iter().flat_map(|(group, meta)| [group.to_le_bytes(), meta.to_le_bytes()]).flatten().collect()
}

/// The edges of whole records.
pub fn read_edges(bytes: &[u8]) -> Vec<Edge> {
    bytes.chunks_exact(EDGE).map(|record| (word(record, 0), word(record, 4))).collect()
}

/// How many edges each of so many has.
fn counts(count: usize, ends: impl Iterator<Item = u32>) -> Vec<u32> {
    let mut counts = vec![0; count];
    for end in ends {
        counts[end as usize] += 1;
    }
    counts
}

struct State {
    marked: Vec<bool>,
    covered: Vec<bool>,
    remaining: Vec<Edge>,
}

impl State {
    /// "Mark each group holding the only remaining edge of some meta-peptide; remove edges of marked groups, covering
    /// their meta-peptides; remove edges of covered meta-peptides."
    fn pass(&mut self) {
        let State { marked, covered, remaining } = self;
        let edges_of = counts(covered.len(), remaining.iter().map(|edge| edge.1));
        for (group, meta) in &*remaining {
            marked[*group as usize] |= edges_of[*meta as usize] == 1;
        }
        for (_, meta) in remaining.iter().filter(|(group, _)| marked[*group as usize]) {
            covered[*meta as usize] = true;
        }
        remaining.retain(|(group, _)| !marked[*group as usize]);
        remaining.retain(|(_, meta)| !covered[*meta as usize]);
    }

    /// "Passes repeat until one removes nothing."
    fn trim(&mut self) {
        loop {
            let before = self.remaining.len();
            self.pass();
            if self.remaining.len() == before {
                return;
            }
        }
    }

    /// "Marks the group with the greatest (remaining edges, original edges), at equality the highest number."
    fn choose(&mut self, original: &[u32]) {
        let remaining = counts(self.marked.len(), self.remaining.iter().map(|edge| edge.0));
        let greatest =
            (0..self.marked.len()).max_by_key(|group| (remaining[*group], original[*group], *group));
        self.marked[greatest.expect("a group")] = true;
    }
}

pub fn marks(edges: &[Edge], groups: usize, metas: usize) -> Vec<u8> {
    let original = counts(groups, edges.iter().map(|edge| edge.0));
    let mut state =
        State { marked: vec![false; groups], covered: vec![false; metas], remaining: edges.to_vec() };
    while !state.remaining.is_empty() {
        state.trim();
        if !state.remaining.is_empty() {
            state.choose(&original);
        }
    }
    state.marked.into_iter().map(u8::from).collect()
}

pub fn too_large(edges: &[u8], groups: usize, metas: usize) -> bool {
    edges.len() / EDGE > MOST_EDGES || groups > MOST_GROUPS || metas > MOST_METAS
}

/// The words of work memory that so many edges need.
pub fn work_for(groups: usize, metas: usize, edges: usize) -> usize {
    4 * groups + 4 * metas + 6 * edges
}

/// 9 at the first edge with a field that is not below its count.
pub fn edges_test(edges: &[u8], groups: usize, metas: usize) -> Answer<()> {
    let good = |(group, meta): &Edge| (*group as usize) < groups && (*meta as usize) < metas;
    match read_edges(edges).iter().position(|edge| !good(edge)) {
        Some(place) => refuse(FIELD, place),
        None => Ok(()),
    }
}

/// 1, 8, 10, 9.
fn test(call: &Call) -> Answer<()> {
    let Call { edges, groups, metas, work } = call;
    if too_large(edges, *groups, *metas) {
        return refuse(SIZE, 0);
    }
    if edges.len() % EDGE != 0 {
        return refuse(LENGTH, 0);
    }
    if work.len() < work_for(*groups, *metas, edges.len() / EDGE) {
        return refuse(SHORT_WORK, 0);
    }
    edges_test(edges, *groups, *metas)
}

/// Marks in their room.
pub fn filled(marks: &[u8], out: &[u8]) -> Filled<u32> {
    let records: Vec<[u8; 1]> = marks.iter().map(|mark| [*mark]).collect();
    room::filled(&records, 1, MOST_GROUPS, out)
}

/// The answer is the number of groups.
pub fn cover(call: &Call, out: &[u8]) -> Filled<u32> {
    match test(call) {
        Ok(()) => filled(&marks(&read_edges(&call.edges), call.groups, call.metas), out),
        Err(refusal) => Filled { answer: Err(refusal), buffer: out.to_vec() },
    }
}
