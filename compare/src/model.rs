//! Document 01's sentences as plain Rust, for what the original does not have, with what document 02 changes in them. Where
//! the original does have a counterpart, the model is itself held against it (the entries named `model: ...`).
use crate::answer::*;

/// A letter is 0 where there is none.
#[derive(Clone, Copy, Debug, PartialEq)]
pub struct Rule {
    pub kind: u32,
    pub letter: u32,
}

#[derive(Clone, Copy, Debug, PartialEq)]
pub struct Record {
    pub rule: Rule,
    pub id: u32,
    pub limit: u32,
}

pub const NO_NAME: u32 = u32::MAX;
pub const NO_LIMIT: u32 = u32::MAX;
/// The bytes of a rule record, and of a modification.
/// Letters of a book, and of any list of letters.
pub const MOST_BOOK: usize = 1 << 28;

pub const RECORD: usize = 8;
/// The marks of kinds 1 to 4.
pub const MARKS: [u8; 4] = *b"^$[]";

/// "Small letters now read as capitals everywhere" (document 02, [2]): the byte as which a byte is read.
pub fn capital(byte: u8) -> u8 {
    match byte {
        b'a'..=b'z' => byte - b'a' + b'A',
        _ => byte,
    }
}

pub fn capitals(letters: &[u8]) -> Vec<u8> {
    letters.iter().map(|byte| capital(*byte)).collect()
}

/// The letters of rules, which are always written with a capital.
pub fn is_capital(number: u32) -> bool {
    (b'A'.into()..=b'Z'.into()).contains(&number)
}

pub fn is_letter(byte: u8) -> bool {
    is_capital(capital(byte).into())
}

/// The bit of a letter in a set.
fn bit(letter: u8) -> u8 {
    capital(letter) - b'A'
}

pub fn insert(set: u32, letter: u8) -> u32 {
    match is_letter(letter) {
        true => set | 1 << bit(letter),
        false => set,
    }
}

pub fn contains(set: u32, letter: u8) -> bool {
    is_letter(letter) && set >> bit(letter) & 1 == 1
}

pub fn letters_test(letters: &[u8]) -> Answer<()> {
    match letters.iter().position(|byte| !is_letter(*byte)) {
        Some(place) => refuse(LETTER, place),
        None => Ok(()),
    }
}

/// Letters that are tested alone: no list of letters is longer than a book's.
pub fn letters_alone(letters: &[u8]) -> Answer<()> {
    match letters.len() <= MOST_BOOK {
        true => letters_test(letters),
        false => refuse(SIZE, 0),
    }
}

pub fn parse(text: &[u8], alphabet: u32) -> Answer<Rule> {
    if text.is_empty() {
        return refuse(EMPTY_TEXT, 0);
    }
    if let Some(place) = text.iter().position(|byte| *byte >= 128) {
        return refuse(LETTER, place);
    }
    let (kind, rest) = match MARKS.iter().position(|mark| *mark == text[0]) {
        Some(index) => (index as u32 + 1, &text[1..]),
        None => (0, text),
    };
    match rest {
        [] => Ok(Rule { kind, letter: 0 }),
        [letter] if contains(alphabet, *letter) => Ok(Rule { kind, letter: capital(*letter).into() }),
        [_] => refuse(OUTSIDE, text.len() - 1),
        _ => refuse(LONG_TEXT, 0),
    }
}

pub fn is_rule(rule: Rule) -> bool {
    match rule.kind {
        0 => is_capital(rule.letter),
        1..=4 => is_capital(rule.letter) || rule.letter == 0,
        _ => false,
    }
}

/// The text of what is a rule.
pub fn text(rule: Rule) -> Vec<u8> {
    let mark = (rule.kind > 0).then(|| MARKS[rule.kind as usize - 1]);
    let letter = (rule.letter > 0).then_some(rule.letter as u8);
    mark.into_iter().chain(letter).collect()
}

/// A record of a rule text is a byte.
pub fn write(rule: Rule, out: &[u8]) -> Filled<u32> {
    let mut buffer = out.to_vec();
    if !is_rule(rule) {
        return Filled { answer: refuse(FIELD, 0), buffer };
    }
    let text = text(rule);
    let fitting = text.len().min(out.len());
    buffer[..fitting].copy_from_slice(&text[..fitting]);
    let answer = match fitting == text.len() {
        true => Ok(text.len() as u32),
        false => refuse(NO_ROOM, 0),
    };
    Filled { answer, buffer }
}

pub fn word(bytes: &[u8], at: usize) -> u32 {
    u32::from_le_bytes(bytes[at..at + 4].try_into().expect("four bytes"))
}

pub fn put_word(bytes: &mut [u8], at: usize, word: u32) {
    bytes[at..at + 4].copy_from_slice(&word.to_le_bytes());
}

fn is_record(record: Record) -> bool {
    is_rule(record.rule) && (1..=255).contains(&record.id)
}

pub fn bytes_of(record: Record) -> [u8; RECORD] {
    let Record { rule, id, limit } = record;
    let [a, b, c, d] = limit.to_le_bytes();
    [rule.kind as u8, rule.letter as u8, id as u8, 0, a, b, c, d]
}

/// The record that 8 bytes are, if they are one.
pub fn record_of(bytes: &[u8]) -> Option<Record> {
    let rule = Rule { kind: bytes[0].into(), letter: bytes[1].into() };
    let record = Record { rule, id: bytes[2].into(), limit: word(bytes, 4) };
    (is_record(record) && bytes[3] == 0).then_some(record)
}

fn rules_test(rules: &[u8], most: usize, good: impl Fn(&[u8]) -> bool) -> Answer<()> {
    if rules.len() / RECORD > most {
        return refuse(SIZE, 0);
    }
    if !rules.chunks_exact(RECORD).remainder().is_empty() {
        return refuse(LENGTH, 0);
    }
    match rules.chunks(RECORD).position(|record| !good(record)) {
        Some(place) => refuse(FIELD, place),
        None => Ok(()),
    }
}

pub fn variable_rules_test(rules: &[u8]) -> Answer<()> {
    rules_test(rules, 16, |bytes| record_of(bytes).is_some())
}

pub fn fixed_rules_test(rules: &[u8]) -> Answer<()> {
    rules_test(rules, 32, |bytes| record_of(bytes).is_some_and(|record| record.limit == NO_LIMIT))
}

pub fn rule_read(rules: &[u8], index: usize) -> Answer<Record> {
    rules_test(rules, 32, |_| true)?;
    let record = rules.chunks_exact(RECORD).nth(index).and_then(record_of);
    record.ok_or(Refusal { number: FIELD, place: index })
}

pub fn rule_record(record: Record, out: &[u8]) -> Filled<()> {
    let mut buffer = out.to_vec();
    let answer = match (is_record(record), out.len() >= RECORD) {
        (false, _) => refuse(FIELD, 0),
        (true, false) => refuse(NO_ROOM, 0),
        (true, true) => {
            buffer[..RECORD].copy_from_slice(&bytes_of(record));
            Ok(())
        }
    };
    Filled { answer, buffer }
}

/// A modification: the bit pattern of its mass, and its name's number.
#[derive(Clone, Copy, Debug, PartialEq)]
pub struct Modification {
    pub mass_bits: u32,
    pub name: u32,
}

impl Modification {
    pub fn bytes(self) -> [u8; RECORD] {
        (u64::from(self.mass_bits) | u64::from(self.name) << 32).to_le_bytes()
    }

    fn of(bytes: &[u8]) -> Modification {
        Modification { mass_bits: word(bytes, 0), name: word(bytes, 4) }
    }

    fn equals(self, other: Modification) -> bool {
        f32::from_bits(self.mass_bits) == f32::from_bits(other.mass_bits) && self.name == other.name
    }
}

fn find_or_append(table: &[u8], count: usize, given: Modification) -> Answer<u32> {
    if count > 255 {
        return refuse(SIZE, 0);
    }
    if table.len() < count * RECORD {
        return refuse(LENGTH, 0);
    }
    let mut entries = table[..count * RECORD].chunks(RECORD).map(Modification::of);
    match entries.position(|entry| entry.equals(given)) {
        Some(index) => Ok(index as u32 + 1),
        None if count == 255 => refuse(TABLE_FULL, 0),
        None if table.len() < (count + 1) * RECORD => refuse(NO_ROOM, 0),
        None => Ok(count as u32 + 1),
    }
}

/// The answer is the id.
pub fn modification_id(table: &[u8], count: u32, given: Modification) -> Filled<u32> {
    let count = count as usize;
    let answer = find_or_append(table, count, given);
    let mut buffer = table.to_vec();
    if answer == Ok(count as u32 + 1) {
        buffer[count * RECORD..(count + 1) * RECORD].copy_from_slice(&given.bytes());
    }
    Filled { answer, buffer }
}
