//! Every refusal of `group_proteins`, alone and with others: which one is given, and what it leaves of the memory.
use super::model::{self, work_for, Call, MOST_PAIRS, MOST_PEPTIDES, MOST_PROTEINS, PAIR};
use super::{call, cases, hold, rooms};
use crate::cover::refusals::{damage, short_work};
use crate::entry::{Against, Context, Tally};
use crate::refusals::{cut_within, scatter, spoil, Spoil, Turns};
use crate::rng::Rng;

fn bad_pairs(rng: &mut Rng, call: &mut Call) {
    let (peptides, proteins) = (call.peptides, call.proteins);
    damage(rng, &mut call.pairs, peptides, proteins);
}

fn bad_flags(rng: &mut Rng, call: &mut Call) {
    scatter(rng, &mut call.flags, &[2, 3, 128, 129, 255]);
}

fn little_work(rng: &mut Rng, call: &mut Call) {
    let needed = work_for(call.peptides, call.proteins, call.pairs.len() / PAIR);
    let one_side = 4 * call.proteins + 4 * call.peptides + 6 * (call.pairs.len() / PAIR);
    short_work(rng, &mut call.work, needed, one_side);
}

/// Pairs that end within a record, and flags that are not the peptides.
fn no_length(rng: &mut Rng, call: &mut Call) {
    if rng.once_in(2) {
        cut_within(rng, &mut call.pairs, PAIR);
    } else {
        let count = call.flags.len();
        let other = rng.pick(&[count + 1, count + 7, 2 * count + 1, count.saturating_sub(1), 0]);
        call.flags.resize(if other == count { count + 1 } else { other }, 0);
    }
}

/// Counts one above their limits, and ones that are below when bits are cut off.
fn large_counts(rng: &mut Rng, call: &mut Call) {
    let (count, most) = match rng.once_in(2) {
        true => (&mut call.peptides, MOST_PEPTIDES),
        false => (&mut call.proteins, MOST_PROTEINS),
    };
    *count = rng.pick(&[most + 1, most + 2, *count | 1 << 20, *count | 1 << 31, u32::MAX as usize]);
}

/// Lists are cut within a record last, so that there are records to damage.
const SPOILS: [Spoil<Call>; 5] = [bad_pairs, bad_flags, little_work, no_length, large_counts];

fn hold_spoiled(tally: &mut Tally, rng: &mut Rng, reasons: &[Spoil<Call>], short: bool) {
    let shown = cases::random(rng);
    let mut call = call(rng, &shown);
    let (edges, members) = rooms(rng, &model::groups(&shown.0, &shown.1), short);
    spoil(rng, &mut call, reasons);
    hold(tally, &call, &edges, &members, &model::group_proteins(&call, &edges, &members));
}

pub fn any_call(context: &Context) -> Tally {
    let turns = Turns::new(context, "protein groups: any call", "calls of group_proteins", 160_000);
    turns.every_choice(&SPOILS, hold_spoiled)
}

pub fn single_reasons(context: &Context) -> Tally {
    let stream = "single reasons of group_proteins";
    let turns = Turns::new(context, "protein groups: single reasons", stream, 90_000);
    turns.single_reasons(&SPOILS, hold_spoiled)
}

/// Counts at their limits and above, with and without work memory and flags.
pub fn large(context: &Context) -> Tally {
    let mut tally = Tally::new("protein groups: large calls", Against::Model);
    let rng = &mut context.rng("large calls of group_proteins");
    for [pairs, part, peptides, proteins] in
        [[0, 0, 0, 0], [0, 3, 0, 0], [1, 0, 0, 0], [1, 7, 0, 0], [0, 0, 1, 0], [0, 0, 0, 1], [0, 1, 1, 1]]
    {
        for (words, flags) in [(0, 0), (0, 1), (1, 0), (1, 1)] {
            let (peptides, proteins) = (MOST_PEPTIDES + peptides, MOST_PROTEINS + proteins);
            let needed = work_for(peptides, proteins, MOST_PAIRS + pairs);
            let call = Call {
                pairs: vec![0; (MOST_PAIRS + pairs) * PAIR + part],
                flags: vec![0; flags * peptides],
                peptides,
                proteins,
                work: vec![5; words * needed - words * rng.below(2)],
            };
            let (edges, members) = (rng.bytes(50), rng.bytes(50));
            hold(&mut tally, &call, &edges, &members, &model::group_proteins(&call, &edges, &members));
        }
    }
    tally
}
