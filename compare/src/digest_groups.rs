//! Groups of digests: against the original's `group_digests` with what document 01 puts right in it, and byte for byte
//! against the model.
pub mod cases;
pub mod model;
pub mod refusals;
pub mod said;
pub mod vectors;

use crate::answer::{Checked, Fault};
use crate::asked::{with_larger, Asked};
use crate::calls::digest_groups as calls;
use crate::entry::{Against, Context, Tally};
use crate::oracle::panicked;
use crate::rng::Rng;
use crate::room;
use crate::shown::{common, part};
use crate::small_letters::{at_times_small, make_half_small, with_small};
use cases::STABLE;
use model::{filled, Call, Grouped, Lists, GROUP};
use said::{ask, read, Read};

const UNSORTED: &str = "where the last group's proteins are sorted (the Rust leaves them)";
const UNSTABLE: &str = "where the reference is the first of equal digests (the Rust takes another)";
const EMPTY: &str = "without digests (no groups, the Rust panics)";

/// What is shown of two outcomes that differ: their answers, and the first group and the first protein in which they do.
fn shown(mut ours: Grouped, wanted: &Grouped) -> (Grouped, Grouped) {
    let mut wanted = wanted.clone();
    let group = common(ours.groups.chunks(GROUP), wanted.groups.chunks(GROUP));
    let protein = common(&ours.proteins, &wanted.proteins);
    for outcome in [&mut ours, &mut wanted] {
        outcome.groups = part(&outcome.groups, group * GROUP, GROUP);
        outcome.proteins = part(&outcome.proteins, protein, 4);
    }
    (ours, wanted)
}

/// Holds one call against what its answer and its lists have to be.
fn hold(tally: &mut Tally, call: &Call, groups: &[u8], proteins: &[u32], wanted: &Grouped) {
    let ours = calls::group_digests(call, groups, proteins);
    tally.case_in_part(&(call, groups.len(), proteins.len()), ours, wanted, shown);
}

/// Words for a list: enough, or too few for one that is not empty.
fn words(rng: &mut Rng, count: usize, few: bool) -> usize {
    match few {
        true => room::fewer(rng, count),
        false => count + rng.pick(&[0, 0, 1, 9]),
    }
}

/// Bytes for groups and words for proteins: enough, or too few of one or of both.
fn rooms(rng: &mut Rng, groups: usize, proteins: usize, short: bool) -> (Vec<u8>, Vec<u32>) {
    let (few_groups, few_proteins) = room::either(rng, short && groups > 0);
    let bytes = room::len(rng, groups, GROUP, few_groups);
    let words = words(rng, proteins, few_proteins);
    (rng.bytes(bytes), (0..words).map(|_| rng.word()).collect())
}

/// Holds a call with room and, once in three times, one without enough.
fn hold_with_rooms(tally: &mut Tally, rng: &mut Rng, call: &Call, lists: &Lists) {
    for short in room::turns(rng, 3) {
        let (groups, proteins) = rooms(rng, lists.groups.len(), lists.proteins.len(), *short);
        hold(tally, call, &groups, &proteins, &filled(lists, &groups, &proteins));
    }
}

/// Counts what document 01 puts right in the case just counted; the original sorts few digests stably.
fn count(tally: &mut Tally, call: &Call, read: &Read) {
    if read.unsorted {
        tally.intended(UNSORTED);
    }
    if read.unstable {
        tally.intended(UNSTABLE);
        if call.digests().count() <= STABLE {
            tally.fail(call, "the Rust sorts few digests unstably");
        }
    }
}

/// The original's lists; it has none for no digests.
fn lists_of(call: &Call, answer: &str) -> Checked<Read> {
    match (call.digests.is_empty(), panicked(answer)) {
        (true, true) => Ok(Read::default()),
        (false, false) => Ok(read(call, answer)),
        _ => Err(Fault(format!("the Rust says {answer}"))),
    }
}

fn hold_to_rust(tally: &mut Tally, rng: &mut Rng, call: &Call, answer: String) {
    match lists_of(call, &answer) {
        Ok(read) => {
            hold_with_rooms(tally, rng, call, &read.lists);
            count(tally, call, &read);
            if call.digests.is_empty() {
                tally.intended(EMPTY);
            }
        }
        Err(Fault(fault)) => tally.fail(call, &fault),
    }
}

const CALLS: Asked<Call> = Asked {
    ask: |context, calls| ask(&context.oracle, calls),
    hold: hold_to_rust,
    rooms: "digest groups, rooms",
};

pub fn small_lists(context: &Context) -> Tally {
    CALLS.entry(context, "digest groups: small lists").made(|mut rng| cases::exhaustive(&mut rng))
}

pub fn random_lists(context: &Context) -> Tally {
    CALLS.entry(context, "digest groups: random lists").drawn(240_000, cases::small)
}

pub fn long_lists(context: &Context) -> Tally {
    CALLS.entry(context, "digest groups: long lists").drawn(10_000, cases::long)
}

pub fn small_letters(context: &Context) -> Tally {
    let long = |rng: &mut Rng| with_small(rng, cases::long);
    let short = |rng: &mut Rng| with_small(rng, cases::small);
    let calls = |rng| with_larger(rng, 60_000, 30, long, short);
    CALLS.entry(context, "digest groups: small letters").made(calls)
}

pub fn model_lists(context: &Context) -> Tally {
    let short = |rng: &mut Rng| at_times_small(rng, cases::small);
    let calls = |rng| with_larger(rng, 60_000, 30, cases::long, short);
    CALLS.entry(context, "model: digest groups").model(calls, |tally, call, answer| {
        match lists_of(call, &answer) {
            Ok(read) => tally.case(call, &Ok(model::lists(call)), &read.lists),
            Err(Fault(fault)) => tally.fail(call, &fault),
        }
    })
}

/// The greatest sizes, with room exact and one short, at last with small letters: the lists stay the same.
pub fn greatest_lists(context: &Context) -> Tally {
    let mut tally = Tally::new("digest groups: the most", Against::Model);
    let rng = &mut context.rng("digest groups, the most");
    let mut call = cases::most(rng);
    let lists = model::lists(&call);
    for (fewer_groups, fewer_proteins, small) in [(0, 0, false), (1, 0, false), (0, 1, true)] {
        if small {
            make_half_small(rng, &mut call.letters);
        }
        let groups = vec![0xee; (lists.groups.len() - fewer_groups) * GROUP];
        let proteins = vec![7; lists.proteins.len() - fewer_proteins];
        hold(&mut tally, &call, &groups, &proteins, &filled(&lists, &groups, &proteins));
    }
    tally
}
