//! Times the cover of the original Rust and `sendumaal_cover` on the same edges, and `sendumaal_update` where one edge is
//! added to them.
mod graphs;
mod sides;

use crate::clock::{least, seconds};
use crate::rng::Rng;
use crate::turns::{measure, Measured, Sides};
use graphs::{graphs, Graph};
use oracle::protein_grouping::probe;
use sides::Ours;
use std::hint::black_box;

struct Both {
    ours: Ours,
}

impl Sides for Both {
    type Item = Graph;

    /// How many groups are marked.
    fn agree(&mut self, graph: &Graph) -> usize {
        let marks = probe::cover(graph.edges.clone(), graph.groups, graph.metas);
        let same = self.ours.cover(graph).iter().map(|mark| *mark == 1).eq(marks.iter().copied());
        assert!(same, "the marks of {} differ", graph.name);
        marks.iter().filter(|mark| **mark).count()
    }

    /// The cover takes its edges, so there are some for each call, made before.
    fn rust(&mut self, block: &[Graph]) -> f64 {
        let lists: Vec<_> = block.iter().map(|graph| graph.edges.clone()).collect();
        seconds(|| {
            for (graph, edges) in block.iter().zip(lists) {
                black_box(probe::cover(black_box(edges), graph.groups, graph.metas));
            }
        })
    }

    fn ours(&mut self, block: &[Graph]) -> f64 {
        seconds(|| {
            for graph in block {
                black_box(self.ours.cover(graph));
            }
        })
    }
}

/// The least of five calls that add the last edge to the others, with the cover of these given.
fn update_time(ours: &mut Ours, graph: &Graph) -> f64 {
    let old = graph.without_last();
    let given = ours.cover(&old).to_vec();
    let updated = ours.update(&old, graph, &given).to_vec();
    assert!(updated == ours.cover(graph), "the update of {} is no cover", graph.name);
    least(5, || {
        black_box(ours.update(&old, graph, &given));
    })
}

pub fn print() {
    println!("| edges | groups | marked | Rust, ms | ours, ms | ours/Rust | ours, one edge more, ms |");
    println!("|---|--:|--:|--:|--:|--:|--:|");
    for graph in graphs(&mut Rng::new(crate::SEED, "benchmark of the cover")) {
        let (name, groups) = (graph.name.clone(), graph.groups);
        let update = update_time(&mut Ours::new(&graph), &graph) * 1e3;
        let Measured { count, rust, ours } = measure(Both { ours: Ours::new(&graph) }, &[vec![graph]]);
        let (rust, ours, ratio) = (rust * 1e3, ours * 1e3, ours / rust);
        println!("| {name} | {groups} | {count} | {rust:.2} | {ours:.2} | {ratio:.4} | {update:.2} |");
    }
}
