//! A sample of the original's covers.
use super::said::{ask, read, Graph};
use super::{cases, p8};
use crate::asked::with_larger;
use crate::entry::Context;
use crate::fields::{digits_field, edges_field};
use crate::sample::sample;

const GRAPHS: usize = 600;

pub fn lines(context: &Context) -> String {
    let mut graphs: Vec<Graph> = p8().map(|(graph, _)| graph).to_vec();
    graphs.extend(with_larger(context.rng("vectors: cover"), GRAPHS, 20, cases::larger, cases::random));
    let line = |((edges, groups, metas), answer): (&Graph, String)| {
        format!("{groups} {metas} {} {}\n", edges_field(edges), digits_field(&read(&answer)))
    };
    sample(graphs.iter().zip(ask(&context.oracle, &graphs)).map(line))
}
