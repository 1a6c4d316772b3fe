//! What the original says of edges: the marks of their groups.
use super::model::Edge;
use crate::fields::edges_field;
use crate::oracle::{answered, Oracle};

/// Edges with the counts of groups and meta-peptides.
pub type Graph = (Vec<Edge>, usize, usize);

/// One answer for each list of edges.
pub fn ask<'a>(oracle: &Oracle, graphs: impl IntoIterator<Item = &'a Graph>) -> Vec<String> {
    let line = |(edges, groups, metas): &Graph| format!("COVER\t{groups}\t{metas}\t{}", edges_field(edges));
    oracle.ask(&graphs.into_iter().map(line).collect::<Vec<_>>())
}

pub fn read(answer: &str) -> Vec<u8> {
    answered(answer).bytes().filter(|byte| *byte != b'-').map(|byte| byte - b'0').collect()
}
