//! The update of marks as plain Rust: parts of the joined edges that are touched get the marks of the new cover.
use crate::answer::*;
use crate::cover::model::{self as cover, edges_test, filled, read_edges, shown, too_large, Edge, EDGE};
use std::collections::HashMap;
use std::fmt;

/// A call of `update` but for its marks.
#[derive(Clone, PartialEq)]
pub struct Call {
    pub old_edges: Vec<u8>,
    pub new_edges: Vec<u8>,
    pub groups: usize,
    pub metas: usize,
    pub given: Vec<u8>,
    pub work: Vec<u32>,
}

impl fmt::Debug for Call {
    fn fmt(&self, f: &mut fmt::Formatter<'_>) -> fmt::Result {
        let Call { old_edges, new_edges, groups, metas, given, work } = self;
        let front = &given[..given.len().min(40)];
        write!(
            f,
            "{groups} groups, {metas} meta-peptides, old {}, new {}, ",
            shown(old_edges),
            shown(new_edges)
        )?;
        write!(f, "marks {front:?} of {}, {} words", given.len(), work.len())
    }
}

/// The edges that stand another number of times in one list than in the other.
fn differing(old: &[Edge], new: &[Edge]) -> Vec<Edge> {
    let mut balance: HashMap<Edge, i64> = HashMap::new();
    for (edges, step) in [(old, -1), (new, 1)] {
        for edge in edges {
            *balance.entry(*edge).or_default() += step;
        }
    }
    balance.into_iter().filter(|(_, count)| *count != 0).map(|(edge, _)| edge).collect()
}

/// The part of each group: the lowest of the groups that the edges connect it to.
pub fn parts(edges: &[Edge], groups: usize, metas: usize) -> Vec<usize> {
    let (mut of_group, mut of_meta) = (vec![vec![]; groups], vec![vec![]; metas]);
    for (group, meta) in edges {
        of_group[*group as usize].push(*meta as usize);
        of_meta[*meta as usize].push(*group as usize);
    }
    let mut part = vec![usize::MAX; groups];
    for lowest in 0..groups {
        let mut reached = vec![lowest];
        while let Some(group) = reached.pop() {
            if part[group] == usize::MAX {
                part[group] = lowest;
                reached.extend(of_group[group].drain(..).flat_map(|meta| std::mem::take(&mut of_meta[meta])));
            }
        }
    }
    part
}

/// Whether each group is connected to an edge that differs, over old and new edges together.
pub fn touched(old: &[Edge], new: &[Edge], groups: usize, metas: usize) -> Vec<bool> {
    let part = parts(&[old, new].concat(), groups, metas);
    let mut touched_parts = vec![false; groups];
    for (group, _) in differing(old, new) {
        touched_parts[part[group as usize]] = true;
    }
    part.iter().map(|part| touched_parts[*part]).collect()
}

/// The marks of one cover for groups that are touched, and the given ones for others.
pub fn mixed(touched: &[bool], cover: &[u8], given: &[u8]) -> Vec<u8> {
    let mark = |(touched, (cover, given)): (&bool, (&u8, &u8))| if *touched { *cover } else { *given };
    touched.iter().zip(cover.iter().zip(given)).map(mark).collect()
}

pub fn marks(old: &[Edge], new: &[Edge], groups: usize, metas: usize, given: &[u8]) -> Vec<u8> {
    mixed(&touched(old, new, groups, metas), &cover::marks(new, groups, metas), given)
}

/// 1, 8, 10, then old edges, new edges and given marks.
fn test(call: &Call) -> Answer<()> {
    let Call { old_edges, new_edges, groups, metas, given, work } = call;
    if too_large(old_edges, *groups, *metas) || too_large(new_edges, *groups, *metas) {
        return refuse(SIZE, 0);
    }
    if old_edges.len() % EDGE != 0 || new_edges.len() % EDGE != 0 || given.len() != *groups {
        return refuse(LENGTH, 0);
    }
    if work.len() < cover::work_for(*groups, *metas, old_edges.len() / EDGE + new_edges.len() / EDGE) {
        return refuse(SHORT_WORK, 0);
    }
    edges_test(old_edges, *groups, *metas)?;
    edges_test(new_edges, *groups, *metas)?;
    match given.iter().position(|mark| *mark > 1) {
        Some(place) => refuse(FIELD, place),
        None => Ok(()),
    }
}

/// The answer is the number of groups.
pub fn update(call: &Call, out: &[u8]) -> Filled<u32> {
    let Call { old_edges, new_edges, groups, metas, given, .. } = call;
    match test(call) {
        Ok(()) => filled(&marks(&read_edges(old_edges), &read_edges(new_edges), *groups, *metas, given), out),
        Err(refusal) => Filled { answer: Err(refusal), buffer: out.to_vec() },
    }
}
