//! The edges that are tried.
use super::model::{work_for, Edge, MOST_EDGES, MOST_GROUPS, MOST_METAS};
use super::said::Graph;
use crate::rng::Rng;

/// All lists of at most so many edges over so many groups and meta-peptides.
pub fn all_lists(groups: u32, metas: u32, most: usize) -> Vec<Vec<Edge>> {
    let edges: Vec<Edge> = (0..groups).flat_map(|group| (0..metas).map(move |meta| (group, meta))).collect();
    let longer =
        |list: &Vec<Edge>| edges.iter().map(|last| [&list[..], &[*last]].concat()).collect::<Vec<_>>();
    let mut of_length: Vec<Vec<Edge>> = vec![vec![]];
    let mut all = of_length.clone();
    for _ in 0..most {
        of_length = of_length.iter().flat_map(longer).collect();
        all.extend(of_length.iter().cloned());
    }
    all
}

pub fn exhaustive() -> Vec<Graph> {
    let shapes = [(3, 2, 6), (2, 3, 6), (3, 3, 5), (4, 2, 5), (2, 2, 7)];
    let graphs = shapes.map(|(groups, metas, most)| {
        let graph = |list| (list, groups as usize, metas as usize);
        all_lists(groups, metas, most).into_iter().map(graph).collect::<Vec<_>>()
    });
    graphs.concat()
}

pub fn shuffle<T>(rng: &mut Rng, list: &mut [T]) {
    for last in (1..list.len()).rev() {
        list.swap(last, rng.below(last + 1));
    }
}

/// Numbers in no order.
fn permuted(rng: &mut Rng, count: usize) -> Vec<u32> {
    let mut numbers: Vec<u32> = (0..count as u32).collect();
    shuffle(rng, &mut numbers);
    numbers
}

fn any_edge(rng: &mut Rng, groups: usize, metas: usize) -> Edge {
    (rng.below(groups) as u32, rng.below(metas) as u32)
}

/// Groups along a path, neighbours of which share a meta-peptide.
fn path(groups: usize, metas: usize) -> Vec<Edge> {
    let steps = metas.min(groups.saturating_sub(1)) as u32;
    (0..steps).flat_map(|step| [(step, step), (step + 1, step)]).collect()
}

/// Equal parts of some groups that all have the same meta-peptides.
fn parts(rng: &mut Rng, groups: usize, metas: usize) -> Vec<Edge> {
    let (wide, high) = (1 + rng.below(3), 1 + rng.below(3));
    let whole = |part: usize| (part + 1) * wide <= groups && (part + 1) * high <= metas;
    let edges = |part: usize| {
        let pair = move |group| {
            (0..high).map(move |meta| ((part * wide + group) as u32, (part * high + meta) as u32))
        };
        (0..wide).flat_map(pair)
    };
    (0..).take_while(|part| whole(*part)).flat_map(edges).collect()
}

/// Each meta-peptide with at least two groups: nothing is to be trimmed.
fn shared(rng: &mut Rng, groups: usize, metas: usize) -> Vec<Edge> {
    let mut edges = Vec::new();
    for meta in 0..metas {
        edges.extend((0..2 + rng.below(2)).map(|_| (rng.below(groups) as u32, meta as u32)));
    }
    edges
}

/// Edges of one shape, some of them again, with groups and meta-peptides renumbered, in any order.
pub fn edges(rng: &mut Rng, groups: usize, metas: usize, most: usize) -> Vec<Edge> {
    if groups == 0 || metas == 0 {
        return vec![];
    }
    let many = 1 + rng.below(most);
    let mut edges: Vec<Edge> = match rng.below(8) {
        0 => path(groups, metas),
        1 => parts(rng, groups, metas),
        2 => shared(rng, groups, metas),
        3 => {
            let pool: Vec<Edge> = (0..1 + rng.below(6)).map(|_| any_edge(rng, groups, metas)).collect();
            (0..many).map(|_| rng.pick(&pool)).collect()
        }
        _ => (0..many).map(|_| any_edge(rng, groups, metas)).collect(),
    };
    if !edges.is_empty() && rng.once_in(2) {
        for _ in 0..rng.below(4) {
            edges.push(edges[rng.below(edges.len())]);
        }
    }
    let (names, numbers) = (permuted(rng, groups), permuted(rng, metas));
    for (group, meta) in &mut edges {
        (*group, *meta) = (names[*group as usize], numbers[*meta as usize]);
    }
    shuffle(rng, &mut edges);
    edges
}

/// So many at most, and seldom none.
pub fn some(rng: &mut Rng, most: usize) -> usize {
    match rng.once_in(40) {
        true => 0,
        false => 1 + rng.below(most),
    }
}

pub fn random(rng: &mut Rng) -> Graph {
    let most = rng.pick(&[3, 5, 8, 12]);
    let (groups, metas) = (some(rng, most), some(rng, most));
    (edges(rng, groups, metas, 3 * most), groups, metas)
}

pub fn larger(rng: &mut Rng) -> Graph {
    let most = rng.pick(&[30, 64, 200]);
    let (groups, metas) = (1 + rng.below(most), 1 + rng.below(most));
    (edges(rng, groups, metas, 3 * most), groups, metas)
}

/// Paths, equal parts and random edges, as long as the original is not slow with them.
pub fn long(rng: &mut Rng) -> Vec<Graph> {
    let mut graphs = Vec::new();
    for count in [255, 256, 257, 1000, 2000] {
        graphs.push((path(count, count), count, count));
        graphs.push((parts(rng, count, count), count, count));
        graphs.push((shared(rng, count, count), count, count));
        graphs.push((edges(rng, count, 2 * count, 8 * count), count, 2 * count));
    }
    graphs
}

/// The greatest counts, in shapes with which the original ends: every choice of it walks all that is left.
pub fn greatest(rng: &mut Rng) -> Vec<Graph> {
    let (most_groups, most_metas) = (MOST_GROUPS as u32, MOST_METAS as u32);
    let single = (0..most_metas).map(|meta| (meta % most_groups, meta)).collect();
    let few = (0..MOST_EDGES).map(|_| any_edge(rng, 60, MOST_METAS)).collect();
    let equal = vec![(most_groups - 1, most_metas - 1); MOST_EDGES];
    let star = (0..most_groups).flat_map(|group| [0, 1, 2, 3].map(|meta| (group, meta))).collect();
    let all = |edges: Vec<Edge>| (edges, MOST_GROUPS, MOST_METAS);
    let mut graphs = vec![all(single), all(few), all(equal), all(star), all(vec![])];
    graphs.push((vec![], MOST_GROUPS, 0));
    graphs.push((vec![], 0, MOST_METAS));
    graphs
}

/// Work memory that is just enough, or with some to spare, filled with anything.
pub fn work(rng: &mut Rng, groups: usize, metas: usize, edges: usize) -> Vec<u32> {
    let more = rng.pick(&[0, 0, 0, 1, 7, 100]);
    (0..work_for(groups, metas, edges) + more).map(|_| rng.word()).collect()
}
