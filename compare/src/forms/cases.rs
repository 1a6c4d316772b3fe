//! The peptides and rules whose forms are listed.
use super::model::{self, Call, NO_CAP};
use crate::model::{bytes_of, Record, Rule, NO_LIMIT, RECORD};
use crate::peptide_letters::{any_letter, of_len};
use crate::peptides::cases::ids;
use crate::rng::Rng;
use crate::rule_texts::cases::rules as all_rules;

const LIMITS: [u32; 10] = [0, 1, 1, 2, 2, 3, NO_LIMIT - 1, NO_LIMIT, NO_LIMIT, NO_LIMIT];

/// The fewer letters there are to pick from, the more of them a rule hits.
const POOLS: [&[u8]; 6] = [b"M", b"MA", b"MAC", b"MAC", b"MCKSTY", b"ABCDEFGHIJKLMNOPQRSTUVWXYZ"];

/// Small ones more often: the number of choices grows fast.
fn letters(rng: &mut Rng) -> Vec<u8> {
    let len = match rng.below(8) {
        0 => rng.pick(&[1, 1, 2, 2, 3]),
        1..=6 => 1 + rng.below(10),
        _ => 1 + rng.below(30),
    };
    let pool = rng.pick(&POOLS);
    of_len(rng, len, pool)
}

/// A letter that the rule hits more often than not.
fn rule_letter(rng: &mut Rng, kind: u32, letters: &[u8]) -> u8 {
    match rng.below(8) {
        0..=2 if kind > 0 => 0,
        0 => any_letter(rng),
        3 => letters[0],
        4 => letters[letters.len() - 1],
        _ => rng.pick(letters),
    }
}

fn record(rng: &mut Rng, letters: &[u8]) -> Record {
    let kind = rng.pick(&[0, 0, 0, 0, 1, 2, 3, 4]);
    let rule = Rule { kind, letter: rule_letter(rng, kind, letters).into() };
    Record { rule, id: 1 + rng.below(255) as u32, limit: rng.pick(&LIMITS) }
}

/// So many rules; once in four times one is an earlier one again, with its id or with another.
fn records(rng: &mut Rng, letters: &[u8], count: usize) -> Vec<Record> {
    let mut records: Vec<Record> = Vec::new();
    for _ in 0..count {
        let mut next = record(rng, letters);
        if !records.is_empty() && rng.once_in(4) {
            let earlier = rng.pick(&records);
            next = if rng.once_in(2) { earlier } else { Record { rule: earlier.rule, ..next } };
        }
        records.push(next);
    }
    records
}

pub fn bytes(records: &[Record]) -> Vec<u8> {
    records.iter().flat_map(|record| bytes_of(*record)).collect()
}

pub fn without_limit(records: Vec<Record>) -> Vec<Record> {
    records.into_iter().map(|record| Record { limit: NO_LIMIT, ..record }).collect()
}

fn count_of_rules(rng: &mut Rng, most: usize) -> usize {
    match rng.below(16) {
        0 => 0,
        1..=3 => 1,
        4..=13 => 2 + rng.below(3),
        14 => 5,
        _ => rng.below(most + 1),
    }
}

fn cap(rng: &mut Rng) -> u32 {
    match rng.below(8) {
        0..=4 => NO_CAP,
        5 => rng.pick(&[0, 1, 2, 3]),
        6 => rng.below(70) as u32,
        _ => rng.pick(&[NO_CAP - 1, 1 << 31, 65_536, 255, 256]),
    }
}

/// How many choices of at most so many sites there are: all of them are walked by the original.
fn choices(sites: usize, limit: u32) -> u128 {
    let mut of_size = 1;
    let mut sum = 1;
    for size in 0..limit as usize {
        of_size = of_size * sites.saturating_sub(size) as u128 / (size as u128 + 1);
        sum += of_size;
    }
    sum
}

/// The greatest combination limit up to one that is drawn for which there are no more choices than this.
fn limit(rng: &mut Rng, sites: usize, most: u128) -> u32 {
    let drawn = rng.below(9) as u32;
    (0..=drawn).rev().find(|limit| choices(sites, *limit) <= most).unwrap_or(0)
}

fn with_rules(rng: &mut Rng, letters: Vec<u8>, most: u128) -> Call {
    let (variable, fixed) = (count_of_rules(rng, 16), count_of_rules(rng, 32));
    let variable = bytes(&records(rng, &letters, variable));
    let fixed = bytes(&without_limit(records(rng, &letters, fixed)));
    let mut call = of(rng, letters, variable, fixed);
    call.limit = limit(rng, model::sites(&call, &call.variable).len(), most);
    call
}

/// Rules on M, their ids counted on from one.
pub fn rules_on_m(limits: &[u32]) -> Vec<u8> {
    let rule = Rule { kind: 0, letter: b'M'.into() };
    let record = |(at, limit): (usize, &u32)| Record { rule, id: at as u32 + 1, limit: *limit };
    bytes(&limits.iter().enumerate().map(record).collect::<Vec<_>>())
}

/// A whole protein without modifications, fixed rules and cap.
pub fn unmodified(letters: &[u8], variable: Vec<u8>, limit: u32) -> Call {
    let (letters, ids) = (letters.to_vec(), vec![0; letters.len()]);
    Call { letters, ids, nterm: 0, cterm: 0, position: 2, variable, fixed: vec![], limit, cap: NO_CAP }
}

/// With ids, ends, position and cap that are drawn, and a combination limit of 0.
pub fn of(rng: &mut Rng, letters: Vec<u8>, variable: Vec<u8>, fixed: Vec<u8>) -> Call {
    let ids = ids(rng, letters.len());
    let mut end = || if rng.once_in(4) { rng.byte() } else { 0 };
    let (nterm, cterm) = (end(), end());
    let (position, cap) = (rng.below(4) as u8, cap(rng));
    Call { letters, ids, nterm, cterm, position, variable, fixed, limit: 0, cap }
}

/// A call of few forms: most have fewer than 150, one in fifty may have 2,000.
pub fn random(rng: &mut Rng) -> Call {
    let letters = letters(rng);
    let most = if rng.once_in(50) { 2000 } else { 150 };
    with_rules(rng, letters, most)
}

/// Up to 64 letters, and up to some thousand forms.
pub fn long(rng: &mut Rng) -> Call {
    let len = if rng.once_in(3) { 64 } else { 25 + rng.below(40) };
    let pool = rng.pick(&POOLS);
    let letters = of_len(rng, len, pool);
    with_rules(rng, letters, 3000)
}

/// All texts of some letters up to a length.
fn texts(pool: &[u8], longest: usize) -> Vec<Vec<u8>> {
    let mut texts = vec![vec![]];
    let mut first = 0;
    for _ in 0..longest {
        let shorter = first..texts.len();
        first = texts.len();
        for text in shorter {
            texts.extend(
                pool.iter().map(|letter| [&texts[text][..], &[*letter]].concat()).collect::<Vec<_>>(),
            );
        }
    }
    texts.split_off(1)
}

/// Every rule on the letters M and A.
fn few_rules() -> Vec<Rule> {
    all_rules().into_iter().filter(|rule| [0, b'M'.into(), b'A'.into()].contains(&rule.letter)).collect()
}

/// Every peptide of M and A of up to four letters, at every position, with every rule, limits and combination limits to 2.
pub fn single_rules(rng: &mut Rng) -> Vec<Call> {
    let mut calls = Vec::new();
    for letters in texts(b"MA", 4) {
        for rule in few_rules() {
            for number in 0..4 * 4 * 3 {
                let limit = [0, 1, 2, NO_LIMIT][number / 4 % 4];
                let variable = bytes(&[Record { rule, id: 1 + rng.below(255) as u32, limit }]);
                let fixed = count_of_rules(rng, 4);
                let fixed = bytes(&without_limit(records(rng, &letters, fixed)));
                let call = of(rng, letters.clone(), variable, fixed);
                calls.push(Call { position: (number % 4) as u8, limit: (number / 16) as u32, ..call });
            }
        }
    }
    calls
}

/// Every two rules on some peptides of M and A, at every position.
pub fn pairs_of_rules(rng: &mut Rng) -> Vec<Call> {
    let rules = few_rules();
    let pairs: Vec<[Rule; 2]> =
        rules.iter().flat_map(|first| rules.iter().map(|second| [*first, *second])).collect();
    let mut calls = Vec::new();
    for letters in texts(b"MA", 2).into_iter().chain([b"MAM".to_vec(), b"AMMA".to_vec()]) {
        for number in 0..4 * pairs.len() {
            let variable = pairs[number / 4].map(|rule| Record { rule, ..record(rng, &letters) });
            let call = of(rng, letters.clone(), bytes(&variable), vec![]);
            calls.push(Call { position: (number % 4) as u8, limit: 1 + rng.below(8) as u32, ..call });
        }
    }
    calls
}

/// Rules of which some have limit 0, on letters that they all hit; the others hit an end or one letter.
pub fn without_use(rng: &mut Rng) -> Call {
    let len = rng.pick(&[1, 8, 30, 63, 64]);
    let mut letters = vec![b'M'; len];
    if rng.once_in(2) {
        let place = rng.below(len);
        letters[place] = b'C';
    }
    let count = 1 + rng.below(16);
    let mut rules = Vec::new();
    for _ in 0..count {
        let (kind, letter) =
            rng.pick(&[(0, b'M'), (0, b'M'), (0, b'M'), (0, b'C'), (1, 0), (2, 0), (1, b'M'), (4, 0)]);
        let limit = if (kind, letter) == (0, b'M') { 0 } else { rng.pick(&[0, 1, 2, NO_LIMIT]) };
        let rule = Rule { kind, letter: letter.into() };
        rules.push(Record { rule, id: 1 + rng.below(255) as u32, limit });
    }
    let call = of(rng, letters, bytes(&rules), vec![]);
    Call { limit: rng.below(9) as u32, ..call }
}

/// The call without its rules of limit 0, which are never used.
pub fn used_only(call: &Call) -> Call {
    let used = call.variable.chunks(RECORD).filter(|record| record[4..] != [0; 4]);
    Call { variable: used.flatten().copied().collect(), ..call.clone() }
}
