//! Every refusal of cover, alone and with others: which one is given, and what it leaves of the memory.
use super::cases;
use super::model::{self, work_for, Call, EDGE, MOST_EDGES, MOST_GROUPS, MOST_METAS};
use super::said::{ask, Graph};
use super::{call, hold};
use crate::calls::cover as calls;
use crate::entry::{Against, Context, Tally};
use crate::model::put_word;
use crate::oracle::panicked;
use crate::refusals::{cut_within, spoil, Spoil, Turns};
use crate::rng::Rng;
use crate::room::{self, enough_bytes};

/// Edges with a number that is not below its count, also one that is when bits are cut off.
pub fn damage(rng: &mut Rng, edges: &mut [u8], groups: usize, metas: usize) {
    let count = edges.len() / EDGE;
    for _ in 0..(1 + rng.below(3)).min(count) {
        let (half, most) = rng.pick(&[(0, groups as u32), (4, metas as u32)]);
        let number = rng.pick(&[most, most, most + 1, most | 1 << 16, most | 1 << 24, u32::MAX]);
        let at = rng.below(count) * EDGE + half;
        put_word(edges, at, number);
    }
}

/// Counts one above their limits, and ones that are below when bits are cut off.
pub fn large_counts(rng: &mut Rng, groups: &mut usize, metas: &mut usize) {
    let (count, most) = if rng.once_in(2) { (groups, MOST_GROUPS) } else { (metas, MOST_METAS) };
    *count = rng.pick(&[most + 1, most + 2, *count | 1 << 20, *count | 1 << 31, u32::MAX as usize]);
}

/// One word fewer than needed, or than what groups and meta-peptides need alone, or any fewer.
pub fn short_work(rng: &mut Rng, work: &mut Vec<u32>, needed: usize, counts_only: usize) {
    let any = rng.below(needed.max(1));
    let less = needed.saturating_sub(1);
    work.truncate(rng.pick(&[less, less, counts_only.min(less), any, 0]));
}

fn bad_edges(rng: &mut Rng, call: &mut Call) {
    damage(rng, &mut call.edges, call.groups, call.metas);
}

fn little_work(rng: &mut Rng, call: &mut Call) {
    let needed = work_for(call.groups, call.metas, call.edges.len() / EDGE);
    short_work(rng, &mut call.work, needed, 4 * call.groups);
}

fn no_length(rng: &mut Rng, call: &mut Call) {
    cut_within(rng, &mut call.edges, EDGE);
}

fn many(rng: &mut Rng, call: &mut Call) {
    large_counts(rng, &mut call.groups, &mut call.metas);
}

/// Lists are cut within a record last, so that there are records to damage.
const SPOILS: [Spoil<Call>; 4] = [bad_edges, little_work, no_length, many];

fn hold_spoiled(tally: &mut Tally, rng: &mut Rng, reasons: &[Spoil<Call>], few: bool) {
    let graph = cases::random(rng);
    let mut call = call(rng, &graph);
    let out = room::bytes(rng, call.groups, few);
    spoil(rng, &mut call, reasons);
    hold(tally, &(&call, out.len()), calls::cover(&call, &out), &model::cover(&call, &out));
}

pub fn any_call(context: &Context) -> Tally {
    Turns::new(context, "cover: any call", "calls of cover", 120_000).every_choice(&SPOILS, hold_spoiled)
}

/// Lists at their limit and above it, with and without work memory.
pub fn large(context: &Context) -> Tally {
    let mut tally = Tally::new("cover: large calls", Against::Model);
    let rng = &mut context.rng("large calls of cover");
    for (edges, part) in [(0, 0), (0, 1), (1, 0), (1, 1), (2, 0)] {
        for words in [0, 1] {
            let (groups, metas) = (rng.pick(&[2, MOST_GROUPS]), rng.pick(&[2, MOST_METAS]));
            let bytes = vec![0; (MOST_EDGES + edges) * EDGE + part];
            let work = vec![5; words * work_for(groups, metas, MOST_EDGES + edges)];
            let (call, out) = (Call { edges: bytes, groups, metas, work }, enough_bytes(rng, groups));
            hold(&mut tally, &(&call, out.len()), calls::cover(&call, &out), &model::cover(&call, &out));
        }
    }
    tally
}

const OUTSIDE: &str = "with an edge out of range (9 at its index, the Rust panics)";
const UNUSED: &str = "with too many groups or meta-peptides (1, the Rust has no such limit)";

/// What the original does where document 01 refuses.
pub fn beyond_the_rust(context: &Context) -> Tally {
    let mut tally = Tally::new("cover: beyond the Rust", Against::Model);
    let rng = &mut context.rng("cover, beyond the Rust");
    let mut calls: Vec<Call> = Vec::new();
    for number in 0..5000 {
        let (edges, groups, metas) = cases::random(rng);
        if edges.is_empty() {
            continue;
        }
        let mut call = call(rng, &(edges, groups, metas));
        match number % 50 {
            0 => call.groups = MOST_GROUPS + 1,
            1 => call.metas = MOST_METAS + 1,
            _ => damage(rng, &mut call.edges, groups, metas),
        }
        calls.push(call);
    }
    let graphs: Vec<Graph> =
        calls.iter().map(|call| (model::read_edges(&call.edges), call.groups, call.metas)).collect();
    for (call, answer) in calls.iter().zip(ask(&context.oracle, &graphs)) {
        let out = enough_bytes(rng, 12);
        hold(&mut tally, call, calls::cover(call, &out), &model::cover(call, &out));
        let large = call.groups > MOST_GROUPS || call.metas > MOST_METAS;
        match (large, panicked(&answer)) {
            (false, true) => tally.intended(OUTSIDE),
            (true, false) => tally.intended(UNUSED),
            _ => tally.fail(call, &format!("the Rust says {answer}")),
        }
    }
    tally
}
