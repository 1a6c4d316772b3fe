//! What is covered: random edges, equal parts, and a path.
use crate::records::EDGE;
use crate::rng::Rng;

pub struct Graph {
    pub name: String,
    pub edges: Vec<(u32, u32)>,
    /// The same edges as records.
    pub records: Vec<u8>,
    pub groups: usize,
    pub metas: usize,
}

fn graph(what: &str, edges: Vec<(u32, u32)>, groups: usize, metas: usize) -> Graph {
    let record = |(group, meta): &(u32, u32)| [group.to_le_bytes(), meta.to_le_bytes()].concat();
    let records = edges.iter().flat_map(record).collect();
    Graph { name: format!("{} {what}", edges.len()), edges, records, groups, metas }
}

impl Graph {
    pub fn without_last(&self) -> Graph {
        let Graph { name, edges, records, groups, metas } = self;
        Graph {
            name: name.clone(),
            edges: edges[..edges.len() - 1].to_vec(),
            records: records[..records.len() - EDGE].to_vec(),
            groups: *groups,
            metas: *metas,
        }
    }
}

fn shuffled(rng: &mut Rng, mut edges: Vec<(u32, u32)>) -> Vec<(u32, u32)> {
    for last in (1..edges.len()).rev() {
        edges.swap(last, rng.below(last + 1));
    }
    edges
}

/// Eight edges to a group and four to a meta-peptide, between any two.
fn random(rng: &mut Rng, count: usize) -> Graph {
    let (groups, metas) = (count / 8, count / 4);
    let edges = (0..count).map(|_| (rng.below(groups) as u32, rng.below(metas) as u32)).collect();
    graph("random", edges, groups, metas)
}

/// Parts of four groups that all have the same eight meta-peptides.
fn parts(rng: &mut Rng, count: usize) -> Graph {
    let parts = count / 32;
    let edge = |number: usize| ((number / 8) as u32, (number / 32 * 8 + number % 8) as u32);
    let edges = shuffled(rng, (0..32 * parts).map(edge).collect());
    graph("in equal parts", edges, 4 * parts, 8 * parts)
}

/// Neighbours along the path share a meta-peptide.
fn path(rng: &mut Rng, count: usize) -> Graph {
    let metas = count / 2;
    let edges = (0..metas as u32).flat_map(|step| [(step, step), (step + 1, step)]).collect();
    graph("along a path", shuffled(rng, edges), metas + 1, metas)
}

pub fn graphs(rng: &mut Rng) -> Vec<Graph> {
    let mut graphs: Vec<Graph> = [10_000, 100_000, 1_048_576].map(|count| random(rng, count)).into();
    graphs.extend([10_000, 100_000, 1_048_576].map(|count| parts(rng, count)));
    graphs.extend([10_000, 100_000, 262_142].map(|count| path(rng, count)));
    graphs
}
