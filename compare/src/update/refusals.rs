//! Every refusal of update, alone and with others: which one is given, and what it leaves of the memory.
use super::cases;
use super::model::{self, Call};
use super::{call, hold};
use crate::calls::cover as calls;
use crate::cover::model::{work_for, EDGE, MOST_EDGES, MOST_GROUPS, MOST_METAS};
use crate::cover::refusals::{damage, large_counts, short_work};
use crate::entry::{Against, Context, Tally};
use crate::refusals::{spoil, Spoil, Turns};
use crate::rng::Rng;
use crate::room::{self, enough_bytes};

fn bad_given(rng: &mut Rng, call: &mut Call) {
    let given = &mut call.given[..];
    for _ in 0..(1 + rng.below(2)).min(given.len()) {
        given[rng.below(given.len())] = rng.pick(&[2, 3, 128, 129, 254, 255]);
    }
}

/// A list of edges that ends within a record, or marks that are not as many as groups.
fn no_length(rng: &mut Rng, call: &mut Call) {
    let tail = 1 + rng.below(EDGE - 1);
    match rng.below(3) {
        0 => call.old_edges.extend(rng.bytes(tail)),
        1 => call.new_edges.extend(rng.bytes(tail)),
        _ => call.given.resize(rng.pick(&[0, call.groups.saturating_sub(1), call.groups + 1]), 0),
    }
}

fn bad_old(rng: &mut Rng, call: &mut Call) {
    damage(rng, &mut call.old_edges, call.groups, call.metas);
}

fn bad_new(rng: &mut Rng, call: &mut Call) {
    damage(rng, &mut call.new_edges, call.groups, call.metas);
}

fn little_work(rng: &mut Rng, call: &mut Call) {
    let (old, new) = (call.old_edges.len() / EDGE, call.new_edges.len() / EDGE);
    let needed = work_for(call.groups, call.metas, old + new);
    short_work(rng, &mut call.work, needed, work_for(call.groups, call.metas, new));
}

fn many(rng: &mut Rng, call: &mut Call) {
    large_counts(rng, &mut call.groups, &mut call.metas);
}

/// Lists are cut within a record last, so that there are records to damage.
const SPOILS: [Spoil<Call>; 6] = [bad_old, bad_new, bad_given, little_work, no_length, many];

fn hold_spoiled(tally: &mut Tally, rng: &mut Rng, reasons: &[Spoil<Call>], few: bool) {
    let change = cases::random(rng);
    let mut call = call(rng, &change);
    let out = room::bytes(rng, call.groups, few);
    spoil(rng, &mut call, reasons);
    hold(tally, &(&call, out.len()), calls::update(&call, &out), &model::update(&call, &out));
}

pub fn any_call(context: &Context) -> Tally {
    Turns::new(context, "update: any call", "calls of update", 160_000).every_choice(&SPOILS, hold_spoiled)
}

/// Lists at their limit and above it, with and without work memory.
pub fn large(context: &Context) -> Tally {
    let mut tally = Tally::new("update: large calls", Against::Model);
    let rng = &mut context.rng("large calls of update");
    for (old, new, part) in [(0, 0, 0), (1, 0, 0), (0, 1, 0), (0, 0, 1), (1, 1, 1)] {
        for words in [0, 1] {
            let (groups, metas) = (rng.pick(&[2, MOST_GROUPS]), rng.pick(&[2, MOST_METAS]));
            let work = vec![5; words * work_for(groups, metas, 2 * MOST_EDGES + old + new)];
            let old_edges = vec![0; (MOST_EDGES + old) * EDGE];
            let new_edges = vec![0; (MOST_EDGES + new) * EDGE + part];
            let given = (0..groups).map(|_| rng.below(2) as u8).collect();
            let call = Call { old_edges, new_edges, groups, metas, given, work };
            let out = enough_bytes(rng, groups);
            hold(&mut tally, &(&call, out.len()), calls::update(&call, &out), &model::update(&call, &out));
        }
    }
    tally
}
