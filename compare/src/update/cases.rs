//! The old and new edges that are tried, with marks that are given.
use crate::cover::cases::{all_lists, edges, shuffle, some};
use crate::cover::model::{self as cover, Edge, MOST_GROUPS, MOST_METAS};
use crate::rng::Rng;

/// Old edges, new edges, how many groups and meta-peptides, and the marks that are given.
#[derive(Clone, Debug)]
pub struct Change {
    pub old: Vec<Edge>,
    pub new: Vec<Edge>,
    pub groups: usize,
    pub metas: usize,
    pub given: Vec<u8>,
}

/// All pairs of short lists over two groups and two meta-peptides, with all marks.
pub fn exhaustive() -> Vec<Change> {
    let lists = all_lists(2, 2, 3);
    let mut changes = Vec::new();
    for (old, new) in lists.iter().flat_map(|old| lists.iter().map(move |new| (old, new))) {
        for given in [[0, 0], [0, 1], [1, 0], [1, 1]] {
            let (old, new, given) = (old.clone(), new.clone(), given.to_vec());
            changes.push(Change { old, new, groups: 2, metas: 2, given });
        }
    }
    changes
}

/// An edge more, fewer, again or with another end.
fn edit(rng: &mut Rng, edges: &mut Vec<Edge>, groups: usize, metas: usize) {
    let edge = (rng.below(groups) as u32, rng.below(metas) as u32);
    if edges.is_empty() {
        return edges.push(edge);
    }
    let place = rng.below(edges.len());
    match rng.below(5) {
        0 | 1 => edges.insert(place, edge),
        2 => drop(edges.remove(place)),
        3 => edges.insert(place, edges[rng.below(edges.len())]),
        _ => edges[place].1 = edge.1,
    }
}

/// What becomes of old edges: a few edits, none, another order, or any other edges.
fn changed(rng: &mut Rng, old: &[Edge], groups: usize, metas: usize, most: usize) -> Vec<Edge> {
    if groups == 0 || metas == 0 {
        return vec![];
    }
    if rng.once_in(8) {
        return edges(rng, groups, metas, most);
    }
    let mut new = old.to_vec();
    for _ in 0..rng.pick(&[0, 1, 1, 1, 2, 3]) {
        edit(rng, &mut new, groups, metas);
    }
    if rng.once_in(3) {
        shuffle(rng, &mut new);
    }
    new
}

/// Marks of the old cover, or any: no update is asked to be of a cover.
fn given(rng: &mut Rng, old: &[Edge], groups: usize, metas: usize) -> Vec<u8> {
    match rng.once_in(3) {
        true => cover::marks(old, groups, metas),
        false => (0..groups).map(|_| rng.below(2) as u8).collect(),
    }
}

fn of_size(rng: &mut Rng, groups: usize, metas: usize, most: usize) -> Change {
    // Few edges leave many parts, of which most are not touched.
    let most = rng.pick(&[most / 3, most]);
    let old = edges(rng, groups, metas, most);
    let new = changed(rng, &old, groups, metas, most);
    let given = given(rng, &old, groups, metas);
    Change { old, new, groups, metas, given }
}

pub fn random(rng: &mut Rng) -> Change {
    let most = rng.pick(&[3, 5, 8, 12]);
    let (groups, metas) = (some(rng, most), some(rng, most));
    of_size(rng, groups, metas, 2 * most)
}

pub fn larger(rng: &mut Rng) -> Change {
    let most = rng.pick(&[30, 64, 200]);
    let (groups, metas) = (1 + rng.below(most), 1 + rng.below(most));
    of_size(rng, groups, metas, 2 * most)
}

/// The most groups and meta-peptides, along paths of so many groups. Every second group has a meta-peptide of its own, so
/// that the original chooses nothing; the new edges lack the second of the first path.
pub fn along_paths(rng: &mut Rng, length: usize) -> Change {
    let inside = |step: &usize| (step + 1) % length != 0 && step + 1 < MOST_GROUPS;
    let steps = (0..MOST_GROUPS).filter(inside).map(|step| step as u32);
    let own = (0..MOST_GROUPS as u32).step_by(2).map(|group| (group, (MOST_METAS / 2) as u32 + group));
    let mut old: Vec<Edge> = steps.flat_map(|step| [(step, step), (step + 1, step)]).chain(own).collect();
    let mut new = old.clone();
    new.remove(1);
    shuffle(rng, &mut old);
    shuffle(rng, &mut new);
    let given = (0..MOST_GROUPS).map(|_| rng.below(2) as u8).collect();
    Change { old, new, groups: MOST_GROUPS, metas: MOST_METAS, given }
}
