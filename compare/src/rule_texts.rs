//! Rule texts: parse, write, and both round trips.
pub mod cases;

use crate::answer::*;
use crate::calls;
use crate::entry::{Against, Context, Tally};
use crate::letters;
use crate::model::{self, Rule, MARKS};
use crate::oracle::{hex, unhex, Oracle};
use cases::*;

/// What the original says of a text.
pub enum Said {
    Rule(Rule, Vec<u8>),
    Empty,
    InvalidResidue(u32),
    TooLong,
    NotUtf8,
}

impl Said {
    fn read(answer: &str) -> Said {
        let fields: Vec<&str> = answer.split(' ').collect();
        let number = |at: usize| fields[at].parse().unwrap_or_else(|_| panic!("the oracle said {answer}"));
        match fields[0] {
            "E4" => Said::Empty,
            "E5" => Said::InvalidResidue(number(1)),
            "E6" => Said::TooLong,
            "NOTUTF8" => Said::NotUtf8,
            _ => Said::Rule(Rule { kind: number(0), letter: number(1) }, unhex(fields[2])),
        }
    }

    /// Document 01's answer for a text of bytes below 128, of whose capitals the original was asked. It says which character
    /// is invalid and not where: it is the one behind the mark, or the only one.
    pub fn answer(&self, text: &[u8]) -> Answer<Rule> {
        match self {
            Said::Rule(rule, _) => Ok(*rule),
            Said::Empty => refuse(EMPTY_TEXT, 0),
            Said::TooLong => refuse(LONG_TEXT, 0),
            Said::InvalidResidue(character) => {
                let place = usize::from(MARKS.contains(&text[0]));
                let asked = u32::from(model::capital(text[place]));
                assert_eq!(*character, asked, "what the original says of {text:x?}");
                refuse(OUTSIDE, place)
            }
            Said::NotUtf8 => panic!("{text:x?} is UTF-8"),
        }
    }

    /// Why document 01 answers a text with a byte of 128 or more otherwise. There is no reason to accept one.
    fn reason(&self) -> Option<&'static str> {
        match self {
            Said::InvalidResidue(_) => {
                Some("with a byte of 128 or more (2 at its index, the Rust InvalidResidue)")
            }
            Said::TooLong => Some("with a byte of 128 or more (2 at its index, the Rust TooLong)"),
            Said::NotUtf8 => {
                Some("not UTF-8 (2 at the first byte of 128 or more, the Rust takes no such text)")
            }
            Said::Empty | Said::Rule(..) => None,
        }
    }
}

/// The original is asked about the texts with capitals.
pub fn ask(oracle: &Oracle, texts: &[Vec<u8>]) -> Vec<Said> {
    let line = |text: &Vec<u8>| format!("PARSE\t{}", hex(&model::capitals(text)));
    let lines: Vec<String> = texts.iter().map(line).collect();
    oracle.ask(&lines).iter().map(|answer| Said::read(answer)).collect()
}

fn first_high_byte(text: &[u8]) -> Option<usize> {
    text.iter().position(|byte| *byte >= 128)
}

fn compare_parse(mut tally: Tally, context: &Context, texts: &[Vec<u8>]) -> Tally {
    for (text, said) in texts.iter().zip(ask(&context.oracle, texts)) {
        let ours = calls::rule_parse(text, rust_alphabet());
        match (first_high_byte(text), said.reason()) {
            (None, _) => tally.case(text, &ours, &said.answer(text)),
            (Some(place), Some(reason)) => {
                tally.case(text, &ours, &refuse(LETTER, place));
                tally.intended(reason);
            }
            (Some(_), None) => tally.fail(text, "the Rust accepts a byte of 128 or more"),
        }
    }
    tally
}

pub fn parse(context: &Context) -> Tally {
    compare_parse(Tally::new("rule texts: parse", Against::Rust), context, &texts(context))
}

pub fn small_letters(context: &Context) -> Tally {
    compare_parse(Tally::new("rule texts: small letters", Against::Rust), context, &small_texts(context))
}

/// The model of parse, on what the original can be asked.
pub fn model_parse(context: &Context) -> Tally {
    let mut tally = Tally::new("model: rule texts, parse", Against::Rust);
    let mut texts = [texts(context), small_texts(context)].concat();
    texts.retain(|text| first_high_byte(text).is_none());
    for (text, said) in texts.iter().zip(ask(&context.oracle, &texts)) {
        tally.case(text, &Ok(model::parse(text, rust_alphabet())), &said.answer(text));
    }
    tally
}

pub fn parse_alphabets(context: &Context) -> Tally {
    let mut tally = Tally::new("rule texts: parse, any alphabet", Against::Model);
    let rng = &mut context.rng("alphabets");
    for alphabet in letters::sets(rng, 30) {
        for text in texts_for_alphabets(rng) {
            let ours = calls::rule_parse(&text, alphabet);
            tally.case(&(alphabet, &text), &ours, &model::parse(&text, alphabet));
        }
    }
    tally
}

/// Writing with room to spare, exact and short; the text is the original's.
pub fn write(context: &Context) -> Tally {
    let mut tally = Tally::new("rule texts: write", Against::Rust);
    let rng = &mut context.rng("rule texts, rooms");
    let lines: Vec<String> =
        rules().iter().map(|rule| format!("WRITE\t{}\t{}", rule.kind, rule.letter)).collect();
    for (rule, answer) in rules().into_iter().zip(context.oracle.ask(&lines)) {
        let text = unhex(&answer);
        for room in 0..=20 {
            let out = rng.bytes(room);
            let fitting = text.len().min(room);
            let buffer = [&text[..fitting], &out[fitting..]].concat();
            let answer = if room < text.len() { refuse(NO_ROOM, 0) } else { Ok(text.len() as u32) };
            tally.case(&(rule, &out), &calls::rule_write(rule, &out), &Filled { answer, buffer });
        }
    }
    tally
}

pub fn write_fields(context: &Context) -> Tally {
    let mut tally = Tally::new("rule texts: write, any fields", Against::Model);
    let rng = &mut context.rng("rule texts, fields");
    for letter in field_values() {
        for kind in (0..=9).chain(field_values().into_iter().skip(250)) {
            let rule = Rule { kind, letter };
            let room = rng.below(5);
            let out = rng.bytes(room);
            tally.case(&(rule, &out), &calls::rule_write(rule, &out), &model::write(rule, &out));
        }
    }
    tally
}

/// Our text of a rule, by a call with room.
fn written(rule: Rule) -> Checked<Answer<Vec<u8>>> {
    let Filled { answer, buffer } = calls::rule_write(rule, &[0xee; 3])?;
    match answer {
        Ok(count) if count as usize > buffer.len() => Err(Fault(format!("it wrote {count} bytes"))),
        answer => Ok(answer.map(|count| buffer[..count as usize].to_vec())),
    }
}

/// Text to rule to text: each accepted text comes back with capitals, as it does from the original.
pub fn text_round_trip(context: &Context) -> Tally {
    let mut tally = Tally::new("rule texts: text, rule, text", Against::Rust);
    let texts = distinct([accepted_texts(), accepted_small_texts()].concat());
    for (text, said) in texts.iter().zip(ask(&context.oracle, &texts)) {
        let Said::Rule(_, wanted) = said else {
            tally.fail(text, "the Rust refuses it");
            continue;
        };
        assert_eq!(wanted, model::capitals(text), "what the original writes for {text:x?}");
        match calls::rule_parse(text, rust_alphabet()) {
            Ok(Ok(rule)) => tally.case(text, &written(rule), &Ok(wanted)),
            other => tally.case(text, &other.map(|answer| answer.map(model::text)), &Ok(wanted)),
        }
    }
    tally
}

/// Rule to text to rule: each rule whose letter is in the alphabet comes back, for many alphabets.
pub fn rule_round_trip(context: &Context) -> Tally {
    let mut tally = Tally::new("rule texts: rule, text, rule", Against::Model);
    for alphabet in letters::sets(&mut context.rng("alphabets of round trips"), 100) {
        for rule in rules() {
            let known = rule.letter == 0 || model::contains(alphabet, rule.letter as u8);
            let wanted = if known { Ok(rule) } else { refuse(OUTSIDE, (rule.kind > 0).into()) };
            let back = match written(rule) {
                Ok(Ok(text)) => calls::rule_parse(&text, alphabet),
                other => other.map(|answer| answer.map(|_| rule)),
            };
            tally.case(&(alphabet, rule), &back, &wanted);
        }
    }
    tally
}
