//! What the original says of forms.
use super::model::{records, Call, Form, FORM, NO_CAP};
use crate::fields::{capitals_field, list_field};
use crate::model::{Record, NO_LIMIT};
use crate::oracle::{hex, unhex, Oracle};

fn rules(bytes: &[u8]) -> String {
    let rule = |record: Record| {
        let limit = if record.limit == NO_LIMIT { "~".into() } else { record.limit.to_string() };
        format!("{}.{}.{}.{limit}", record.rule.kind, record.rule.letter, record.id)
    };
    list_field(records(bytes).into_iter().map(rule), ";")
}

fn line(call: &Call) -> String {
    let letters = capitals_field(&call.letters);
    let Call { nterm, cterm, position, limit, .. } = call;
    let cap = if call.cap == NO_CAP { "-".into() } else { call.cap.to_string() };
    let (ids, variable, fixed) = (hex(&call.ids), rules(&call.variable), rules(&call.fixed));
    format!("APPLY\t{letters}\t{position}\t{nterm}\t{cterm}\t{ids}\t{variable}\t{fixed}\t{limit}\t{cap}")
}

/// The original's forms end with their peptide; ours have zeros behind it.
fn form(field: &str) -> Form {
    let slots = unhex(field);
    let mut form = [0; FORM];
    form[..slots.len()].copy_from_slice(&slots);
    form
}

/// Each call's answer as it comes: `read` makes a list of it.
pub fn ask(oracle: &Oracle, calls: &[Call]) -> Vec<String> {
    oracle.ask(&calls.iter().map(line).collect::<Vec<_>>())
}

pub fn accepted(answer: &str) -> bool {
    !answer.starts_with("PANIC")
}

pub fn read(answer: &str) -> Vec<Form> {
    assert!(accepted(answer), "the oracle said {answer}");
    answer.split(';').map(form).collect()
}
