//! The cover against the original's, mark for mark.
pub mod cases;
pub mod model;
pub mod refusals;
pub mod said;
pub mod vectors;

use crate::answer::*;
use crate::asked::{with_larger, Asked};
use crate::calls::cover as calls;
use crate::entry::{Against, Context, Tally};
use crate::rng::Rng;
use crate::room;
use crate::shown::from_difference;
use model::{bytes_of, filled, Call};
use said::{ask, read, Graph};
use std::fmt::Debug;

/// Counts a case of ours against what its answer and its marks have to be.
pub fn hold(tally: &mut Tally, input: &dyn Debug, ours: Checked<Filled<u32>>, wanted: &Filled<u32>) {
    tally.case_in_part(input, ours, wanted, |ours, wanted| from_difference(ours, wanted, 4));
}

pub fn call(rng: &mut Rng, (edges, groups, metas): &Graph) -> Call {
    let work = cases::work(rng, *groups, *metas, edges.len());
    Call { edges: bytes_of(edges), groups: *groups, metas: *metas, work }
}

/// Holds a call with room and, once in four times, one without enough.
fn hold_with_rooms(tally: &mut Tally, rng: &mut Rng, graph: &Graph, marks: &[u8]) {
    let call = call(rng, graph);
    for out in room::for_bytes(rng, call.groups, 4) {
        hold(tally, &(&call, out.len()), calls::cover(&call, &out), &filled(marks, &out));
    }
}

const GRAPHS: Asked<Graph> = Asked {
    ask: |context, graphs| ask(&context.oracle, graphs),
    hold: |tally, rng, graph, answer| hold_with_rooms(tally, rng, graph, &read(&answer)),
    rooms: "cover, rooms",
};

pub fn small_graphs(context: &Context) -> Tally {
    GRAPHS.entry(context, "cover: small graphs").made(|_| cases::exhaustive())
}

pub fn random_graphs(context: &Context) -> Tally {
    GRAPHS.entry(context, "cover: random graphs").drawn(250_000, cases::random)
}

pub fn larger_graphs(context: &Context) -> Tally {
    GRAPHS.entry(context, "cover: larger graphs").drawn(20_000, cases::larger)
}

pub fn long_graphs(context: &Context) -> Tally {
    GRAPHS.entry(context, "cover: long graphs").made(|mut rng| cases::long(&mut rng))
}

pub fn greatest_graphs(context: &Context) -> Tally {
    GRAPHS.entry(context, "cover: the most").one_by_one(|mut rng| cases::greatest(&mut rng))
}

pub fn model_marks(context: &Context) -> Tally {
    let graphs = |rng| {
        cases::exhaustive().into_iter().chain(with_larger(rng, 60_000, 30, cases::larger, cases::random))
    };
    GRAPHS.entry(context, "model: cover").model(graphs, |tally, graph, answer| {
        let (edges, groups, metas) = graph;
        tally.case(graph, &Ok(model::marks(edges, *groups, *metas)), &read(&answer));
    })
}

/// P8: edges (0,0),(1,0): group 1. With (0,0) twice: group 0.
fn p8() -> [(Graph, Vec<u8>); 2] {
    [((vec![(0, 0), (1, 0)], 2, 1), vec![0, 1]), ((vec![(0, 0), (0, 0), (1, 0)], 2, 1), vec![1, 0])]
}

/// The original, ours and document 01 say the same.
pub fn examples(context: &Context) -> Tally {
    let mut tally = Tally::new("cover: P8", Against::Rust);
    let rng = &mut context.rng("cover, P8");
    for (graph, marks) in p8() {
        let answer = ask(&context.oracle, [&graph]);
        tally.case(&graph, &Ok(read(&answer[0])), &marks);
        hold_with_rooms(&mut tally, rng, &graph, &marks);
    }
    tally
}
