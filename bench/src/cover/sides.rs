//! Our side: lent buffers, which are made once and not cleared between calls.
use super::graphs::Graph;
use crate::ffi::{sendumaal_cover, sendumaal_update};
use std::hint::black_box;

pub struct Ours {
    work: Vec<u32>,
    marks: Vec<u8>,
}

impl Ours {
    /// Room for a graph and for its update. Filled with ones: memory that is only reserved would have to be found in the
    /// time of the first call.
    pub fn new(graph: &Graph) -> Ours {
        let words = 4 * graph.groups + 4 * graph.metas + 12 * graph.edges.len();
        Ours { work: vec![1; words], marks: vec![1; graph.groups] }
    }

    /// Lends as much work memory as is needed for so many edges.
    fn words(graph: &Graph, edges: usize) -> usize {
        4 * graph.groups + 4 * graph.metas + 6 * edges
    }

    /// The marks.
    pub fn cover(&mut self, graph: &Graph) -> &[u8] {
        let Graph { records, groups, metas, .. } = black_box(graph);
        let (mut count, mut place) = (0, 0);
        #[rustfmt::skip]
        let number = unsafe {
            sendumaal_cover(
                records.as_ptr(), records.len(), *groups as u32, *metas as u32,
                self.work.as_mut_ptr(), Ours::words(graph, graph.edges.len()),
                self.marks.as_mut_ptr(), self.marks.len(), &mut count, &mut place,
            )
        };
        assert_eq!(number, 0, "ours refuses");
        black_box(&self.marks)
    }

    /// The marks when old edges become those of a graph, and marks are given.
    pub fn update(&mut self, old: &Graph, graph: &Graph, given: &[u8]) -> &[u8] {
        let Graph { records, groups, metas, .. } = black_box(graph);
        let edges = old.edges.len() + graph.edges.len();
        let (mut count, mut place) = (0, 0);
        #[rustfmt::skip]
        let number = unsafe {
            sendumaal_update(
                old.records.as_ptr(), old.records.len(), records.as_ptr(), records.len(), *groups as u32, *metas as u32,
                given.as_ptr(), given.len(), self.work.as_mut_ptr(), Ours::words(graph, edges),
                self.marks.as_mut_ptr(), self.marks.len(), &mut count, &mut place,
            )
        };
        assert_eq!(number, 0, "ours refuses");
        black_box(&self.marks)
    }
}
