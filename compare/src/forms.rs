//! Forms against the original's `apply`, byte for byte.
pub mod beyond;
pub mod cases;
pub mod model;
pub mod refusals;
pub mod said;
pub mod vectors;

use crate::answer::*;
use crate::asked::{drawn, with_larger, Asked};
use crate::calls::peptides as calls;
use crate::entry::{Against, Context, Tally};
use crate::model::NO_LIMIT;
use crate::rng::Rng;
use crate::room;
use crate::shown::common;
use crate::small_letters::{at_times_small, with_small};
use model::{listed, Call, Form, FORM, NO_CAP};
use said::{ask, read};

/// What is shown of a call: its answer, and the first record of the buffer in which two calls differ.
#[derive(Debug, PartialEq)]
struct Shown {
    answer: Answer<u32>,
    number: usize,
    record: Vec<u8>,
}

fn shown(filled: &Filled<u32>, number: usize) -> Shown {
    let record = filled.buffer.chunks(FORM).nth(number).unwrap_or_default().to_vec();
    Shown { answer: filled.answer, number, record }
}

/// Holds one call against what its answer and its buffer have to be.
fn hold(tally: &mut Tally, call: &Call, out: &[u8], wanted: &Filled<u32>) {
    let ours = calls::forms(call, out);
    let number = ours.as_ref().map_or(0, |ours| common(ours.buffer.chunks(FORM), wanted.buffer.chunks(FORM)));
    tally.case(&(call, out.len()), &ours.map(|ours| shown(&ours, number)), &shown(wanted, number));
}

/// Holds a call with room and, once in four times, one without enough.
fn hold_with_rooms(tally: &mut Tally, rng: &mut Rng, call: &Call, forms: &[Form]) {
    for out in room::for_records(rng, forms.len(), FORM, 4) {
        hold(tally, call, &out, &listed(forms, &out));
    }
}

const PEPTIDES: Asked<Call> = Asked {
    ask: |context, calls| ask(&context.oracle, calls),
    hold: |tally, rng, call, answer| hold_with_rooms(tally, rng, call, &read(&answer)),
    rooms: "forms, rooms",
};

pub fn small_peptides(context: &Context) -> Tally {
    let mut tally = Tally::new("forms: small peptides", Against::Rust);
    let rng = &mut context.rng("forms, small peptides");
    PEPTIDES.hold_all(&mut tally, context, cases::single_rules(rng));
    PEPTIDES.hold_all(&mut tally, context, cases::pairs_of_rules(rng));
    tally
}

pub fn random_peptides(context: &Context) -> Tally {
    PEPTIDES.entry(context, "forms: random peptides").drawn(280_000, cases::random)
}

pub fn long_peptides(context: &Context) -> Tally {
    PEPTIDES.entry(context, "forms: long peptides").drawn(8000, cases::long)
}

pub fn small_letters(context: &Context) -> Tally {
    let long = |rng: &mut Rng| with_small(rng, cases::long);
    let random = |rng: &mut Rng| with_small(rng, cases::random);
    let calls = |rng| with_larger(rng, 80_000, 80, long, random);
    PEPTIDES.entry(context, "forms: small letters").made(calls)
}

pub fn model_forms(context: &Context) -> Tally {
    let calls = |rng| drawn(rng, 60_000, |rng| at_times_small(rng, cases::random));
    PEPTIDES.entry(context, "model: forms").model(calls, |tally, call, answer| {
        tally.case(call, &Ok(model::list(call)), &read(&answer));
    })
}

/// P6: MAM, variable M without limit, combination limit 2: four forms; cap 3: the first three; cap 0: one.
fn p6() -> Vec<(Call, Vec<Form>)> {
    let form = |residues: [u8; 3]| {
        let mut form = [0; FORM];
        form[2..5].copy_from_slice(&residues);
        form
    };
    let all = [[0, 0, 0], [1, 0, 0], [0, 0, 1], [1, 0, 1]].map(form);
    let call = cases::unmodified(b"MAM", cases::rules_on_m(&[NO_LIMIT]), 2);
    let case = |(cap, count): (u32, usize)| (Call { cap, ..call.clone() }, all[..count].to_vec());
    [(NO_CAP, 4), (3, 3), (0, 1)].map(case).to_vec()
}

/// The original, ours and document 01 say the same.
pub fn examples(context: &Context) -> Tally {
    let mut tally = Tally::new("forms: P6", Against::Rust);
    let (calls, forms): (Vec<Call>, Vec<Vec<Form>>) = p6().into_iter().unzip();
    for ((call, answer), forms) in calls.iter().zip(ask(&context.oracle, &calls)).zip(forms) {
        tally.case(call, &Ok(read(&answer)), &forms);
        let out = [0xee; 5 * FORM];
        for len in [5, 4, forms.len(), forms.len() - 1, 0] {
            hold(&mut tally, call, &out[..len * FORM], &listed(&forms, &out[..len * FORM]));
        }
    }
    tally
}
