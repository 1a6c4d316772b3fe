//! Cutting a protein: against the original as far as it shows its digests, with how often their letters stand among its sites, and
//! byte for byte against the model.
pub mod beyond;
pub mod cases;
pub mod colliding;
pub mod counts;
pub mod model;
pub mod refusals;
pub mod said;
pub mod vectors;

use crate::answer::*;
use crate::asked::Asked;
use crate::calls;
use crate::entry::{Against, Context, Tally};
use crate::model::capitals;
use crate::oracle::in_batches;
use crate::rng::Rng;
use crate::room;
use crate::shown::common;
use crate::small_letters::all_with_small;
use cases::*;
use model::{Call, DIGEST};
use said::{ask_digests, ask_sites, read_digests, read_sites, Seen};

/// What can be told of a call where ranges are not known.
#[derive(Debug, PartialEq)]
struct Outcome<'a> {
    answer: Answer<u32>,
    digests: Vec<Seen<'a>>,
    /// The bytes behind the records.
    rest: Vec<u8>,
}

impl<'a> Outcome<'a> {
    /// Digests are shown by the capitals of the call.
    fn ours(call: &Call, capitals: &'a [u8], out: &[u8]) -> Checked<Outcome<'a>> {
        let Filled { answer, buffer } = calls::digest(call, out)?;
        let records = match answer {
            Ok(count) => count as usize,
            Err(Refusal { number: NO_ROOM, .. }) => model::room(out),
            Err(_) => 0,
        };
        let wrong = || Fault(format!("it wrote {records} records"));
        let (records, rest) = buffer.split_at_checked(records * DIGEST).ok_or_else(wrong)?;
        Ok(Outcome { answer, digests: Seen::all(records, capitals)?, rest: rest.to_vec() })
    }

    /// That all of these stand in the buffer, or those that fit.
    fn wanted(all: &[Seen<'a>], out: &[u8]) -> Outcome<'a> {
        let fitting = all.len().min(model::room(out));
        let answer = if fitting < all.len() { refuse(NO_ROOM, 0) } else { Ok(all.len() as u32) };
        Outcome { answer, digests: all[..fitting].to_vec(), rest: out[fitting * DIGEST..].to_vec() }
    }
}

/// Takes off what two lists have in common at their fronts, and what is more than can be read.
fn narrow<T: PartialEq>(ours: &mut Vec<T>, wanted: &mut Vec<T>) {
    let common = common(ours.iter(), wanted.iter());
    for list in [ours, wanted] {
        list.drain(..common);
        list.truncate(4);
    }
}

/// Holds one call against the digests that the original has; the records are also those of ours with capitals, as ranges cannot
/// be held against the original.
fn hold(tally: &mut Tally, call: &Call, all: &[Seen<'_>], out: &[u8]) {
    let capitals = Call { letters: capitals(&call.letters), ..call.clone() };
    if *call != capitals && calls::digest(call, out) != calls::digest(&capitals, out) {
        return tally.fail(&(call, out.len()), "other records than with capitals");
    }
    let mut wanted = Outcome::wanted(all, out);
    let mut ours = Outcome::ours(call, &capitals.letters, out);
    if let Ok(ours) = &mut ours {
        narrow(&mut ours.digests, &mut wanted.digests);
        narrow(&mut ours.rest, &mut wanted.rest);
    }
    tally.case(&(call, out.len()), &ours, &wanted);
}

/// Holds a call with room and, once in four times, one without enough.
fn hold_with_rooms(tally: &mut Tally, rng: &mut Rng, call: &Call, all: &[Seen<'_>]) {
    for out in room::for_records(rng, all.len(), DIGEST, 4) {
        hold(tally, call, all, &out);
    }
}

const PROTEINS: Asked<Call> = Asked {
    ask: |context, calls| ask_digests(&context.oracle, calls),
    hold: |tally, rng, call, answer| {
        hold_with_rooms(tally, rng, call, &read_digests(&answer, call.protein));
    },
    rooms: "digest, rooms",
};

pub fn small_proteins(context: &Context) -> Tally {
    let mut tally = Tally::new("digest: all small proteins", Against::Rust);
    let rng = &mut context.rng("small proteins");
    let enzymes = small_enzymes(rng);
    PROTEINS.hold_all(&mut tally, context, crossed(rng, &enzymes, &all_proteins(FEW_LETTERS, 7)));
    PROTEINS.hold_all(&mut tally, context, crossed(rng, &few_enzymes(), &all_proteins(FEW_LETTERS, 9)));
    tally
}

pub fn random_proteins(context: &Context) -> Tally {
    let mut tally = Tally::new("digest: random proteins", Against::Rust);
    PROTEINS.hold_all(&mut tally, context, random_calls(&mut context.rng("random proteins"), 8000, 40));
    tally
}

pub fn repetitive_proteins(context: &Context) -> Tally {
    let mut tally = Tally::new("digest: repetitive proteins", Against::Rust);
    for calls in repetitive_calls(&mut context.rng("repetitive proteins")).chunks(100) {
        PROTEINS.hold_all(&mut tally, context, calls.iter().cloned());
    }
    tally
}

pub fn long_proteins(context: &Context) -> Tally {
    let mut tally = Tally::new("digest: long proteins", Against::Rust);
    for call in long_calls(&mut context.rng("long proteins")) {
        PROTEINS.hold_all(&mut tally, context, [call]);
    }
    tally
}

pub fn hostile_proteins(context: &Context) -> Tally {
    let mut tally = Tally::new("digest: hostile proteins", Against::Rust);
    let rng = &mut context.rng("hostile proteins");
    let calls = [hostile_calls(rng), greatest_calls(rng)].concat();
    let rooms = &mut context.rng("hostile proteins, rooms");
    for call in calls {
        PROTEINS.hold_in(&mut tally, context, rooms, [call]);
    }
    tally
}

/// Small proteins in which letters stand both as capitals and small, and random ones.
pub fn small_letters(context: &Context) -> Tally {
    let mut tally = Tally::new("digest: small letters", Against::Rust);
    let rng = &mut context.rng("digest, small letters");
    let enzymes = small_enzymes(rng);
    PROTEINS.hold_all(&mut tally, context, crossed(rng, &enzymes, &all_proteins(b"AaKp", 4)));
    PROTEINS.hold_all(&mut tally, context, crossed(rng, &few_enzymes(), &all_proteins(b"AaKkPp", 5)));
    let calls = all_with_small(context.rng("digest, letters made small"), random_calls(rng, 1500, 40));
    PROTEINS.hold_all(&mut tally, context, calls);
    tally
}

/// Long, repetitive and hostile proteins with small letters.
pub fn long_small_letters(context: &Context) -> Tally {
    let mut tally = Tally::new("digest: small letters, long", Against::Rust);
    let rng = &mut context.rng("digest, long small letters");
    let calls = [repetitive_calls(rng), long_calls(rng), hostile_calls(rng), greatest_calls(rng)].concat();
    let rooms = &mut context.rng("digest, long small letters, rooms");
    for call in all_with_small(context.rng("digest, long letters made small"), calls) {
        PROTEINS.hold_in(&mut tally, context, rooms, [call]);
    }
    tally
}

/// Calls that the model is quick with.
fn model_calls(rng: &mut Rng) -> Vec<Call> {
    let enzymes = small_enzymes(rng);
    let mut calls: Vec<Call> = crossed(rng, &enzymes, &all_proteins(FEW_LETTERS, 5)).collect();
    calls.extend(random_calls(rng, 3000, 20));
    calls.extend(crossed(rng, &few_enzymes(), &all_proteins(b"AaKkP", 4)));
    calls
}

/// Records byte for byte.
pub fn ranges(context: &Context) -> Tally {
    let mut tally = Tally::new("digest: ranges", Against::Model);
    let rng = &mut context.rng("ranges");
    for call in model_calls(rng) {
        let len = room::enough(rng, model::kept(&call.letters, &call.enzyme).len(), DIGEST);
        let out = rng.bytes(len);
        tally.case(&(&call, len), &calls::digest(&call, &out), &model::digest(&call, &out));
    }
    tally
}

pub fn model_sites(context: &Context) -> Tally {
    let mut tally = Tally::new("model: digest, sites", Against::Rust);
    in_batches(model_calls(&mut context.rng("model of cutting")).into_iter(), |batch| {
        for (call, answer) in batch.iter().zip(ask_sites(&context.oracle, batch)) {
            let mut ours = model::sites(&call.letters, &call.enzyme);
            let mut wanted = read_sites(&answer, call.letters.len());
            narrow(&mut ours, &mut wanted);
            tally.case(call, &Ok(ours), &wanted);
        }
    });
    tally
}

pub fn model_digests(context: &Context) -> Tally {
    let mut tally = Tally::new("model: digest, what is kept", Against::Rust);
    in_batches(model_calls(&mut context.rng("model of cutting")).into_iter(), |batch| {
        for (call, answer) in batch.iter().zip(ask_digests(&context.oracle, batch)) {
            let wanted = read_digests(&answer, call.protein);
            let filled = model::digest(call, &vec![0; wanted.len() * DIGEST]);
            tally.case(call, &Seen::all(&filled.buffer, &capitals(&call.letters)), &wanted);
        }
    });
    tally
}
