//! Every refusal of forms, alone and with others: which one is given, and what it leaves of the memory.
use super::cases;
use super::hold;
use super::model::{self, Call, FORM};
use crate::entry::{Context, Tally};
use crate::letters::NEAR_LETTERS;
use crate::model::RECORD;
use crate::refusals::{scatter, spoil, Spoil, Turns};
use crate::rng::Rng;
use crate::room;
use crate::rule_records::damage;

fn too_large(rng: &mut Rng, call: &mut Call) {
    let rule = [0, b'M', 1, 0, 255, 255, 255, 255];
    match rng.below(4) {
        0 => {
            let len = rng.pick(&[0, 65, 66, 128, 256, 257, 320]);
            call.letters.resize(len, b'M');
            call.ids.resize(len, 0);
        }
        1 => call.variable = rule.repeat(rng.pick(&[17, 18, 32, 255, 256, 257])),
        2 => call.fixed = rule.repeat(rng.pick(&[33, 34, 64, 255, 256, 257])),
        _ => call.limit = rng.pick(&[9, 10, 256, 257, 264, 1 << 16 | 8, 1 << 31, u32::MAX]),
    }
}

/// Ids that are not as many as letters, or a list of rules that ends within a record.
fn no_length(rng: &mut Rng, call: &mut Call) {
    let tail = 1 + rng.below(RECORD - 1);
    match rng.below(3) {
        0 => {
            let len = call.letters.len();
            call.ids.resize(rng.pick(&[0, len.saturating_sub(1), len + 1, 64, len + 256]), 5);
        }
        1 => call.variable.extend(rng.bytes(tail)),
        _ => call.fixed.extend(rng.bytes(tail)),
    }
}

fn bad_letters(rng: &mut Rng, call: &mut Call) {
    scatter(rng, &mut call.letters, &NEAR_LETTERS);
}

fn bad_position(rng: &mut Rng, call: &mut Call) {
    call.position = 4 + rng.below(252) as u8;
}

fn damaged(rng: &mut Rng, rules: &mut Vec<u8>) {
    if rules.len() < RECORD {
        *rules = vec![0, b'M', 1, 0, 255, 255, 255, 255];
    }
    for _ in 0..1 + rng.below(2) {
        let at = rng.below(rules.len() / RECORD) * RECORD;
        damage(rng, &mut rules[at..at + RECORD]);
    }
}

fn bad_variable(rng: &mut Rng, call: &mut Call) {
    damaged(rng, &mut call.variable);
}

fn bad_fixed(rng: &mut Rng, call: &mut Call) {
    damaged(rng, &mut call.fixed);
}

/// Lists are cut within a record last, so that there are records to damage.
const SPOILS: [Spoil<Call>; 6] = [too_large, bad_letters, bad_position, bad_variable, bad_fixed, no_length];

fn hold_spoiled(tally: &mut Tally, rng: &mut Rng, reasons: &[Spoil<Call>], short: bool) {
    let mut call = cases::random(rng);
    let count = model::list(&call).len();
    spoil(rng, &mut call, reasons);
    let len = room::len(rng, count, FORM, short);
    let out = rng.bytes(len);
    hold(tally, &call, &out, &model::forms(&call, &out));
}

pub fn any_call(context: &Context) -> Tally {
    Turns::new(context, "forms: any call", "calls of forms", 128_000).every_choice(&SPOILS, hold_spoiled)
}

pub fn any_small_letters(context: &Context) -> Tally {
    let stream = "calls of forms, small letters";
    let turns = Turns::new(context, "forms: small letters, any call", stream, 64_000);
    turns.every_choice_small(&SPOILS, hold_spoiled)
}
