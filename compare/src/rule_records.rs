//! Rule records: the two tests, reading and writing.
use crate::answer::{Answer, Checked};
use crate::calls;
use crate::entry::{Against, Context, Tally};
use crate::model::{self, Record, Rule, NO_LIMIT, RECORD};
use crate::rng::Rng;
use crate::rule_texts::cases::field_values;

const LIMITS: [u32; 8] = [0, 1, 2, 255, 65_536, 1 << 31, NO_LIMIT - 1, NO_LIMIT];

fn good_record(rng: &mut Rng, fixed: bool) -> [u8; RECORD] {
    let letter = b'A' + rng.below(26) as u8;
    let kind = rng.below(5) as u32;
    let bare = kind > 0 && rng.once_in(3);
    let rule = Rule { kind, letter: if bare { 0 } else { letter.into() } };
    let limit = if fixed || rng.once_in(2) { NO_LIMIT } else { rng.pick(&LIMITS) };
    model::bytes_of(Record { rule, id: 1 + rng.below(255) as u32, limit })
}

/// Another value in one byte of a record, most often one at an end of what the field takes.
pub fn damage(rng: &mut Rng, record: &mut [u8]) {
    let value = rng.pick(&[0, 1, 4, 5, b'@', b'A', b'Z', b'[', b'a', 127, 128, 254, 255]);
    let value = if rng.once_in(4) { rng.byte() } else { value };
    record[rng.below(RECORD)] = value;
}

/// A list that is all good, or damaged in a few records, or cut within one.
fn list(rng: &mut Rng, records: usize, fixed: bool) -> Vec<u8> {
    let mut list: Vec<u8> = (0..records).flat_map(|_| good_record(rng, fixed)).collect();
    if records > 0 && rng.once_in(2) {
        for _ in 0..1 + rng.below(3) {
            let at = rng.below(records) * RECORD;
            damage(rng, &mut list[at..at + RECORD]);
        }
    }
    if rng.once_in(4) {
        let tail = 1 + rng.below(RECORD - 1);
        list.extend(rng.bytes(tail));
    }
    list
}

/// One record: every kind with every letter, every id, every value of the byte that is zero, the limits.
fn single_records() -> Vec<Vec<u8>> {
    let with = |kind: u8, letter: u8, id: u8, zero: u8, limit: u32| {
        [&[kind, letter, id, zero], &limit.to_le_bytes()[..]].concat()
    };
    let mut records = Vec::new();
    for a in 0..=255 {
        records.extend((0..=255).map(|b| with(a, b, 1, 0, NO_LIMIT)));
        records.push(with(1, b'M', a, 0, NO_LIMIT));
        records.push(with(1, b'M', 1, a, NO_LIMIT));
        records.extend((0..4).map(|byte| with(1, b'M', 1, 0, !(u32::from(a) << (8 * byte)))));
    }
    records.extend(LIMITS.map(|limit| with(0, b'C', 255, 0, limit)));
    records
}

/// Lists of every number of records to two above the most, and longer ones.
fn lists(rng: &mut Rng, most: usize, fixed: bool) -> Vec<Vec<u8>> {
    let mut lists = single_records();
    for records in (0..=most + 2).chain([255, 256, 300]) {
        lists.extend((0..400).map(|_| list(rng, records, fixed)));
    }
    lists
}

type Ours = fn(&[u8]) -> Checked<Answer<()>>;
type Wanted = fn(&[u8]) -> Answer<()>;

fn compare_tests(mut tally: Tally, lists: Vec<Vec<u8>>, ours: Ours, wanted: Wanted) -> Tally {
    for list in lists {
        tally.case(&list, &ours(&list), &wanted(&list));
    }
    tally
}

pub fn variable_test(context: &Context) -> Tally {
    let tally = Tally::new("rule records: test variable", Against::Model);
    let lists = lists(&mut context.rng("variable rules"), 16, false);
    compare_tests(tally, lists, calls::variable_rules_test, model::variable_rules_test)
}

pub fn fixed_test(context: &Context) -> Tally {
    let tally = Tally::new("rule records: test fixed", Against::Model);
    let lists = lists(&mut context.rng("fixed rules"), 32, true);
    compare_tests(tally, lists, calls::fixed_rules_test, model::fixed_rules_test)
}

/// Indices in and behind a list, and ones whose byte offset wraps around to the front.
fn indices(rng: &mut Rng, records: usize) -> Vec<usize> {
    let wrapping = (usize::MAX / RECORD + 1).wrapping_add(rng.below(records + 1));
    vec![0, rng.below(records + 1), records, records + 1, wrapping, usize::MAX / RECORD, usize::MAX]
}

pub fn read(context: &Context) -> Tally {
    let mut tally = Tally::new("rule records: read", Against::Model);
    for record in single_records() {
        tally.case(&record, &calls::rule_read(&record, 0), &model::rule_read(&record, 0));
    }
    let rng = &mut context.rng("rule records, read");
    for records in (0..=34).chain([255, 256]) {
        for _ in 0..100 {
            let list = list(rng, records, false);
            for index in indices(rng, records) {
                let wanted = model::rule_read(&list, index);
                tally.case(&(&list, index), &calls::rule_read(&list, index), &wanted);
            }
        }
    }
    tally
}

fn write_one(tally: &mut Tally, rng: &mut Rng, record: Record) {
    let room = if rng.once_in(2) { RECORD } else { rng.below(20) };
    let out = rng.bytes(room);
    tally.case(&(record, &out), &calls::rule_record(record, &out), &model::rule_record(record, &out));
}

pub fn write(context: &Context) -> Tally {
    let mut tally = Tally::new("rule records: write", Against::Model);
    let rng = &mut context.rng("rule records, write");
    for letter in field_values() {
        for kind in (0..=6).chain([256, 257, 65_536, u32::MAX]) {
            let (id, limit) = (1 + rng.below(255) as u32, rng.pick(&LIMITS));
            write_one(&mut tally, rng, Record { rule: Rule { kind, letter }, id, limit });
        }
    }
    for id in field_values() {
        for letter in [0, b'A'.into(), b'Z'.into(), b'a'.into()] {
            for limit in LIMITS {
                let kind = rng.below(6) as u32;
                write_one(&mut tally, rng, Record { rule: Rule { kind, letter }, id, limit });
            }
        }
    }
    tally
}
