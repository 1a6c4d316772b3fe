//! The library's functions as safe ones: each call is guarded, and what it did to memory is checked.
pub mod cover;
pub mod digest_groups;
pub mod fasta;
pub mod peptides;
pub mod protein_groups;
pub mod report_lines;

use crate::answer::{Answer, Checked, Fault, Filled};
use crate::digest::model::{Call, Enzyme};
use crate::ffi;
use crate::guard::{answer, Element, Lent, May, Memory};
use crate::model::{Record, Rule};
use std::fmt::Debug;

/// An empty slice may have any pointer: where some are lent, the call is made again with null ones, to the same end.
fn also_with_null<T: PartialEq + Debug>(some_empty: bool, call: impl Fn(bool) -> Checked<T>) -> Checked<T> {
    let first = call(false)?;
    if some_empty {
        let second = call(true)?;
        if second != first {
            return Err(Fault(format!("{first:?}, but {second:?} with a null pointer")));
        }
    }
    Ok(first)
}

fn lend_all<E: Element, T: PartialEq + Debug, const N: usize>(
    contents: [&[E]; N],
    call: impl Fn([Lent<E>; N]) -> Checked<T>,
) -> Checked<T> {
    let some_empty = contents.iter().any(|slice| slice.is_empty());
    also_with_null(some_empty, |null| call(contents.map(|slice| Lent::or_null(slice, null))))
}

fn lend<E: Element, T: PartialEq + Debug>(
    contents: &[E],
    call: impl Fn(Lent<E>) -> Checked<T>,
) -> Checked<T> {
    lend_all([contents], |[slice]| call(slice))
}

pub fn set_insert(set: u32, letter: u8) -> u32 {
    unsafe { ffi::sendumaal_set_insert(set, letter) }
}

pub fn set_contains(set: u32, letter: u8) -> u32 {
    unsafe { ffi::sendumaal_set_contains(set, letter) }
}

/// A function that reads a slice and only accepts or refuses.
type Test = unsafe extern "C" fn(*const u8, usize, *mut usize) -> u32;

fn test(function: Test, contents: &[u8]) -> Checked<Answer<()>> {
    lend(contents, |mut slice| {
        let mut place = Lent::result();
        let number = unsafe { function(slice.pointer(), slice.len(), place.pointer()) };
        answer(number, &place, &[("the slice", &slice, May::Read)])
    })
}

pub fn letters_test(letters: &[u8]) -> Checked<Answer<()>> {
    test(ffi::sendumaal_letters_test, letters)
}

pub fn names_test(names: &[u8]) -> Checked<Answer<()>> {
    test(ffi::sendumaal_names_test, names)
}

pub fn variable_rules_test(rules: &[u8]) -> Checked<Answer<()>> {
    test(ffi::sendumaal_variable_rules_test, rules)
}

pub fn fixed_rules_test(rules: &[u8]) -> Checked<Answer<()>> {
    test(ffi::sendumaal_fixed_rules_test, rules)
}

pub fn rule_parse(text: &[u8], alphabet: u32) -> Checked<Answer<Rule>> {
    lend(text, |mut text| {
        let (mut kind, mut letter, mut place) = (Lent::result(), Lent::result(), Lent::result());
        let (text_at, text_len) = text.parts();
        let number = unsafe {
            let (kind, letter) = (kind.pointer(), letter.pointer());
            ffi::sendumaal_rule_parse(text_at, text_len, alphabet, kind, letter, place.pointer())
        };
        let lent: [(&str, &dyn Memory, May); 3] =
            [("text", &text, May::Read), ("kind", &kind, May::Answer), ("letter", &letter, May::Answer)];
        let said = answer(number, &place, &lent)?;
        Ok(said.map(|()| Rule { kind: kind.value(), letter: letter.value() }))
    })
}

/// The answer is the number of bytes.
pub fn rule_write(rule: Rule, out: &[u8]) -> Checked<Filled<u32>> {
    lend(out, |mut out| {
        let (mut count, mut place) = (Lent::result(), Lent::result());
        let (out_at, out_len) = out.parts();
        let number = unsafe {
            let Rule { kind, letter } = rule;
            ffi::sendumaal_rule_write(kind, letter, out_at, out_len, count.pointer(), place.pointer())
        };
        let said = answer(number, &place, &[("out", &out, May::Fill), ("count", &count, May::Answer)])?;
        Ok(Filled { answer: said.map(|()| count.value()), buffer: out.contents().to_vec() })
    })
}

pub fn rule_read(rules: &[u8], index: usize) -> Checked<Answer<Record>> {
    lend(rules, |mut rules| {
        let mut parts: [Lent<u32>; 4] = std::array::from_fn(|_| Lent::result());
        let mut place = Lent::result();
        let (rules_at, rules_len) = rules.parts();
        let [kind, letter, id, limit] = parts.each_mut().map(Lent::pointer);
        let number = unsafe {
            ffi::sendumaal_rule_read(rules_at, rules_len, index, kind, letter, id, limit, place.pointer())
        };
        let [kind, letter, id, limit] = &parts;
        let lent: [(&str, &dyn Memory, May); 5] = [
            ("rules", &rules, May::Read),
            ("kind", kind, May::Answer),
            ("letter", letter, May::Answer),
            ("id", id, May::Answer),
            ("limit", limit, May::Answer),
        ];
        let rule = Rule { kind: kind.value(), letter: letter.value() };
        let record = Record { rule, id: id.value(), limit: limit.value() };
        Ok(answer(number, &place, &lent)?.map(|()| record))
    })
}

pub fn rule_record(record: Record, out: &[u8]) -> Checked<Filled<()>> {
    lend(out, |mut out| {
        let mut place = Lent::result();
        let (out_at, out_len) = out.parts();
        let number = unsafe {
            let Record { rule: Rule { kind, letter }, id, limit } = record;
            ffi::sendumaal_rule_record(kind, letter, id, limit, out_at, out_len, place.pointer())
        };
        let said = answer(number, &place, &[("out", &out, May::Fill)])?;
        Ok(Filled { answer: said, buffer: out.contents().to_vec() })
    })
}

/// The answer is the id.
pub fn modification_id(table: &[u8], count: u32, mass_bits: u32, name: u32) -> Checked<Filled<u32>> {
    lend(table, |mut table| {
        let (mut id, mut place) = (Lent::result(), Lent::result());
        let (table_at, table_len) = table.parts();
        let number = unsafe {
            let (id, place) = (id.pointer(), place.pointer());
            ffi::sendumaal_modification_id(table_at, table_len, count, mass_bits, name, id, place)
        };
        let said = answer(number, &place, &[("table", &table, May::Fill), ("id", &id, May::Answer)])?;
        Ok(Filled { answer: said.map(|()| id.value()), buffer: table.contents().to_vec() })
    })
}

/// The answer is the number of records.
pub fn digest(call: &Call, out: &[u8]) -> Checked<Filled<u32>> {
    let Enzyme { kind, cleave, skip, side, semi, missed, minimum, maximum } = call.enzyme;
    let (alphabet, protein) = (call.alphabet, call.protein);
    lend(&call.letters, |mut letters| {
        let (letters_at, letters_len) = letters.parts();
        lend(out, |mut out| {
            let (mut count, mut place) = (Lent::result(), Lent::result());
            let (out_at, out_len) = out.parts();
            #[rustfmt::skip]
            let number = unsafe {
                ffi::sendumaal_digest(
                    letters_at, letters_len, alphabet, kind, cleave, skip, side, semi, missed, minimum, maximum, protein,
                    out_at, out_len, count.pointer(), place.pointer(),
                )
            };
            let lent: [(&str, &dyn Memory, May); 3] =
                [("letters", &letters, May::Read), ("out", &out, May::Fill), ("count", &count, May::Answer)];
            let said = answer(number, &place, &lent)?;
            Ok(Filled { answer: said.map(|()| count.value()), buffer: out.contents().to_vec() })
        })
    })
}

/// A function that changes a slice in place.
type Change = unsafe extern "C" fn(*mut u8, usize, *mut usize) -> u32;

fn change(function: Change, contents: &[u8]) -> Checked<Filled<()>> {
    lend(contents, |mut slice| {
        let mut place = Lent::result();
        let number = unsafe { function(slice.pointer(), slice.len(), place.pointer()) };
        let said = answer(number, &place, &[("the slice", &slice, May::Answer)])?;
        Ok(Filled { answer: said, buffer: slice.contents().to_vec() })
    })
}

pub fn letters_reverse(letters: &[u8]) -> Checked<Filled<()>> {
    change(ffi::sendumaal_letters_reverse, letters)
}

pub fn digest_reverse(record: &[u8]) -> Checked<Filled<()>> {
    change(ffi::sendumaal_digest_reverse, record)
}

/// The answer is the number of letters.
pub fn digest_letters(letters: &[u8], record: &[u8], out: &[u8]) -> Checked<Filled<u32>> {
    lend(letters, |mut letters| {
        let (letters_at, letters_len) = letters.parts();
        lend(record, |mut record| {
            let (record_at, record_len) = record.parts();
            lend(out, |mut out| {
                let (mut count, mut place) = (Lent::result(), Lent::result());
                let (out_at, out_len) = out.parts();
                #[rustfmt::skip]
                let number = unsafe {
                    ffi::sendumaal_digest_letters(
                        letters_at, letters_len, record_at, record_len, out_at, out_len,
                        count.pointer(), place.pointer(),
                    )
                };
                let lent: [(&str, &dyn Memory, May); 4] = [
                    ("letters", &letters, May::Read),
                    ("record", &record, May::Read),
                    ("out", &out, May::Fill),
                    ("count", &count, May::Answer),
                ];
                let said = answer(number, &place, &lent)?;
                Ok(Filled { answer: said.map(|()| count.value()), buffer: out.contents().to_vec() })
            })
        })
    })
}
