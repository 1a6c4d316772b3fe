//! A sample of the original's forms.
use super::model::{Call, Form};
use super::said::{ask, read};
use super::{cases, p6};
use crate::asked::drawn;
use crate::entry::Context;
use crate::fields::letters_field;
use crate::oracle::hex;
use crate::sample::{Limits, Sample};

const LINES: usize = 400;
const MOST_LETTERS: usize = 20;
const MOST_FORMS: usize = 24;
/// There are few lines with one form.
const LIMITS: Limits =
    Limits { lines: LINES, bytes: 60_000, longest: 500, of_the_sort: 60, long: 100, short: 140 };

fn line(call: &Call, forms: &[Form]) -> String {
    let letters = letters_field(&call.letters);
    let Call { nterm, cterm, position, limit, cap, .. } = call;
    let (ids, variable, fixed) = (hex(&call.ids), hex(&call.variable), hex(&call.fixed));
    let list: Vec<String> = forms.iter().map(|form| hex(&form[..2 + call.letters.len()])).collect();
    let given = format!("{letters} {ids} {nterm} {cterm} {position} {variable} {fixed} {limit} {cap}");
    format!("{given} {} {}\n", forms.len(), list.join(";"))
}

pub fn lines(context: &Context) -> String {
    let mut calls: Vec<Call> = p6().into_iter().map(|(call, _)| call).collect();
    calls.extend(drawn(context.rng("vectors: forms"), 10 * LINES, cases::random));
    let mut sample = Sample::new(LIMITS);
    for (call, answer) in calls.iter().zip(ask(&context.oracle, &calls)) {
        let forms = read(&answer);
        if call.letters.len() <= MOST_LETTERS && forms.len() <= MOST_FORMS {
            sample.add(&line(call, &forms), forms.len() == 1);
        }
    }
    sample.lines
}
