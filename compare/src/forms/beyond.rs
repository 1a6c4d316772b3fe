//! Forms for which the original has no answer, or none within a lifetime.
use super::cases::{self, rules_on_m, unmodified, used_only, without_use};
use super::model::{self, Call, FORM, MOST_FORMS, NO_CAP};
use super::said::{accepted, ask, read};
use super::{hold, hold_with_rooms};
use crate::answer::*;
use crate::entry::{Against, Context, Tally};
use crate::model::NO_LIMIT;
use crate::peptide_letters::{any_letter, size_reason};

/// The sizes that only the original takes.
pub fn beyond_the_rust(context: &Context) -> Tally {
    let mut tally = Tally::new("forms: wrong sizes", Against::Rust);
    let rng = &mut context.rng("forms, wrong sizes");
    let variable = rules_on_m(&[NO_LIMIT]);
    let mut calls = Vec::new();
    for len in [0; 20].into_iter().chain(65..=130) {
        let letters = (0..len).map(|_| any_letter(rng)).collect();
        calls.push(Call { limit: 1, ..cases::of(rng, letters, variable.clone(), vec![]) });
    }
    for (call, answer) in calls.iter().zip(ask(&context.oracle, &calls)) {
        assert!(accepted(&answer), "the original takes every size");
        let out = [0xee; 4 * FORM];
        hold(&mut tally, call, &out, &Filled { answer: refuse(SIZE, 0), buffer: out.to_vec() });
        tally.intended(size_reason(&call.letters));
    }
    tally
}

/// A rule of limit 0 is never used: the forms are those without it, of which the original is asked. With it the original
/// would walk up to C(1024, 8) choices.
pub fn rules_without_use(context: &Context) -> Tally {
    let mut tally = Tally::new("forms: rules of limit 0", Against::Rust);
    let rng = &mut context.rng("forms, rules of limit 0");
    let mut calls = vec![unmodified(&[b'M'; 64], rules_on_m(&[0; 16]), 8)];
    calls.extend((0..4000).map(|_| without_use(rng)));
    let asked: Vec<Call> = calls.iter().map(used_only).collect();
    for (call, answer) in calls.iter().zip(ask(&context.oracle, &asked)) {
        hold_with_rooms(&mut tally, rng, call, &read(&answer));
    }
    tally
}

/// Holds a call with more forms than a list may hold: no room is enough for all, and the most that fit are a list's most.
fn hold_longest(tally: &mut Tally, call: &Call) {
    let forms = model::list(call);
    let most = MOST_FORMS as u32;
    for (cap, more) in [(most, 0), (most, 1), (most, -1), (most + 1, 1), (NO_CAP, 0), (NO_CAP, 2)] {
        let call = Call { cap, ..call.clone() };
        let out = vec![0xee; MOST_FORMS.saturating_add_signed(more) * FORM];
        let listed = &forms[..forms.len().min(cap as usize)];
        hold(tally, &call, &out, &model::listed(listed, &out));
    }
}

/// One rule without limit, and sixteen of limit 1, on 64 equal letters.
pub fn longest_lists(_: &Context) -> Tally {
    let mut tally = Tally::new("forms: the most", Against::Model);
    hold_longest(&mut tally, &unmodified(&[b'M'; 64], rules_on_m(&[NO_LIMIT]), 5));
    hold_longest(&mut tally, &unmodified(&[b'M'; 64], rules_on_m(&[1; 16]), 8));
    tally
}
