//! Base masses of digest records, bit for bit: with the original's masses, and any call against the model.
pub mod cases;
pub mod model;

use crate::answer::*;
use crate::asked::drawn;
use crate::calls::peptides as calls;
use crate::entry::{Against, Context, Tally};
use crate::masses::{as_number, ask};
use crate::refusals::{spoil, Spoil, Turns};
use crate::reversal::cases::Shown;
use crate::reversal::model::letters_of;
use crate::rng::Rng;
use crate::small_letters::with_small;
use cases::*;
use model::Call;

fn as_numbers(answer: Answer<(u32, u32)>) -> Answer<(u32, u32)> {
    answer.map(|(mass, position)| (as_number(mass), position))
}

/// Holds masses together bit for bit, not-a-numbers as such.
fn hold(tally: &mut Tally, call: &Call, wanted: Answer<(u32, u32)>) {
    let Call { letters, record, masses, water } = call;
    let ours = calls::digest_mass(letters, record, masses, *water).map(as_numbers);
    tally.case(&(Shown(letters), record, masses, water), &ours, &as_numbers(wanted));
}

fn hold_to_model(tally: &mut Tally, call: &Call) {
    hold(tally, call, model::digest_mass(call));
}

/// The original weighs the letters of each record, a decoy's in their own order.
fn hold_to_rust(mut tally: Tally, context: &Context, calls: impl Iterator<Item = Call>) -> Tally {
    let calls: Vec<Call> = calls.collect();
    let spelled = |call: &Call| letters_of(&call.letters, &call.record).expect("a good record");
    let texts: Vec<Vec<u8>> = calls.iter().map(spelled).collect();
    for (call, said) in calls.iter().zip(ask(&context.oracle, &texts)) {
        let mass = said.expect("letters that have masses");
        hold(&mut tally, call, Ok((mass, call.record[10].into())));
    }
    tally
}

pub fn of_the_rust(context: &Context) -> Tally {
    let calls = drawn(context.rng("digest masses, the original's"), 60_000, cases::of_the_rust);
    hold_to_rust(Tally::new("digest masses: the original's", Against::Rust), context, calls)
}

pub fn small_letters(context: &Context) -> Tally {
    let draw = |rng: &mut Rng| with_small(rng, cases::of_the_rust);
    let calls = drawn(context.rng("digest masses, small letters"), 30_000, draw);
    hold_to_rust(Tally::new("digest masses: small letters", Against::Rust), context, calls)
}

fn hold_spoiled(tally: &mut Tally, rng: &mut Rng, reasons: &[Spoil<Call>], _: bool) {
    let mut call = good(rng);
    spoil(rng, &mut call, reasons);
    hold_to_model(tally, &call);
}

/// Every refusal, alone and with each other.
pub fn single_reasons(context: &Context) -> Tally {
    let turns = Turns::new(context, "digest masses: every reason", "digest masses, every reason", 80_000);
    turns.every_choice(&SPOILS, hold_spoiled)
}

pub fn any_small_letters(context: &Context) -> Tally {
    let stream = "digest masses, every reason, small letters";
    let turns = Turns::new(context, "digest masses: small letters, any call", stream, 40_000);
    turns.every_choice_small(&SPOILS, hold_spoiled)
}

pub fn any_call(context: &Context) -> Tally {
    let mut tally = Tally::new("digest masses: any call", Against::Model);
    let rng = &mut context.rng("calls of digest mass");
    for _ in 0..80_000 {
        hold_to_model(&mut tally, &any(rng));
    }
    tally
}

pub fn greatest(context: &Context) -> Tally {
    let mut tally = Tally::new("digest masses: greatest sizes", Against::Model);
    for call in cases::greatest(&mut context.rng("digest masses, greatest sizes")) {
        hold_to_model(&mut tally, &call);
    }
    tally
}
