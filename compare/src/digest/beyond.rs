//! Calls that document 01 answers otherwise than the original: what ours says is the model's answer, and what the
//! original says is counted by its reason.
use super::cases::{call, enzyme, protein, set_of, too_many, ALL_LETTERS};
use super::model::{self, Call, DIGEST, END, MOST_DIGESTS, MOST_LETTERS, SET};
use super::said::{ask_digests, read_digests};
use crate::calls;
use crate::entry::{Against, Context, Tally};
use crate::oracle::panicked;
use crate::rng::Rng;
use crate::rule_texts::cases::rust_alphabet;

/// A kind of calls, and the reasons why answers differ there: where the original panics, and where it digests. It never
/// does what has no reason.
struct Kind {
    make: fn(&mut Rng) -> Call,
    many: usize,
    panics: Option<&'static str>,
    digests: Option<&'static str>,
}

fn plain(rng: &mut Rng) -> Call {
    let enzyme = enzyme(rng);
    let len = 1 + rng.below(20);
    let letters = protein(rng, &enzyme, len);
    call(rng, letters, enzyme)
}

/// A byte that is no letter. The line protocol takes none above 127 and no TAB.
fn no_letter(rng: &mut Rng) -> Call {
    let mut call = plain(rng);
    let place = rng.below(call.letters.len());
    call.letters[place] = rng.pick(b"@[`:}{*0 !~");
    call
}

/// Puts a letter into one of the sets that count.
fn use_letter(rng: &mut Rng, call: &mut Call, letter: u32) {
    match rng.once_in(2) {
        true => call.enzyme.skip |= letter,
        false => {
            call.enzyme.kind = SET;
            call.enzyme.cleave = call.enzyme.cleave & rust_alphabet() | letter;
        }
    }
}

/// A letter that the original takes, in a set of the call and not in its alphabet.
fn small_alphabet(rng: &mut Rng) -> Call {
    let mut call = plain(rng);
    let letter = set_of(&[rng.pick(b"ACDEFGHIKLMNPQRSTVWYUO")]);
    use_letter(rng, &mut call, letter);
    call.alphabet &= !letter;
    call
}

/// A letter in a set that the original does not take.
fn other_letter(rng: &mut Rng) -> Call {
    let mut call = plain(rng);
    let letter = set_of(&[rng.pick(b"BJXZ")]);
    use_letter(rng, &mut call, letter);
    call
}

fn outside_both(rng: &mut Rng) -> Call {
    let mut call = other_letter(rng);
    call.alphabet = rust_alphabet();
    call
}

fn wide_alphabet(rng: &mut Rng) -> Call {
    let mut call = other_letter(rng);
    call.alphabet = ALL_LETTERS;
    call
}

fn high_bits(rng: &mut Rng) -> Call {
    let mut call = plain(rng);
    call.alphabet |= 1 << (26 + rng.below(6));
    call
}

/// The original cuts a protein that is too long with "end": with a set it may take more memory than there is.
fn too_large(rng: &mut Rng) -> Call {
    let mut call = plain(rng);
    match rng.below(12) {
        0 => {
            call.enzyme.kind = END;
            call.letters.resize(MOST_LETTERS + 1, b'A');
        }
        1..=5 => call.enzyme.missed = 17 + rng.below(100) as u32,
        6..=8 if !call.enzyme.is_none() => call.enzyme.maximum = 65_537 + rng.below(9) as u32,
        _ => call.enzyme.minimum = 65_537 + rng.below(9) as u32,
    }
    call
}

const KINDS: [Kind; 6] = [
    Kind {
        make: no_letter,
        many: 20_000,
        panics: Some("with a byte that is no letter (2 at its index, the Rust panics)"),
        digests: Some("with a byte that is no letter (2 at its index, the Rust does not look at it)"),
    },
    Kind {
        make: small_alphabet,
        many: 5_000,
        panics: None,
        digests: Some("with a letter of a set outside the alphabet (3, the Rust has another alphabet)"),
    },
    Kind {
        make: outside_both,
        many: 5_000,
        panics: Some("with a letter of a set outside the alphabet (3, the Rust panics)"),
        digests: None,
    },
    Kind {
        make: wide_alphabet,
        many: 5_000,
        panics: Some("with a letter of a set that only our alphabet has (the Rust panics)"),
        digests: None,
    },
    Kind {
        make: high_bits,
        many: 2_000,
        panics: None,
        digests: Some("with alphabet bits above 25 (3, the Rust lends no alphabet)"),
    },
    Kind {
        make: too_large,
        many: 2_000,
        panics: None,
        digests: Some("above a size of document 01 (1, the Rust has no such limit)"),
    },
];

fn count(tally: &mut Tally, call: &Call, answer: &str, kind: &Kind, out: &[u8]) {
    let reason = if panicked(answer) { kind.panics } else { kind.digests };
    match reason {
        Some(reason) => {
            tally.case(call, &calls::digest(call, out), &model::digest(call, out));
            tally.intended(reason);
        }
        None => tally.fail(call, &format!("the Rust says {answer}")),
    }
}

/// Ours keeps the first that a list holds, and the original all.
fn count_too_many(tally: &mut Tally, context: &Context, rng: &mut Rng) {
    let call = too_many(rng);
    let answers = ask_digests(&context.oracle, std::slice::from_ref(&call));
    let all = read_digests(&answers[0], call.protein);
    assert!(all.len() > MOST_DIGESTS, "not too many digests");
    let out = rng.bytes((MOST_DIGESTS + 2) * DIGEST);
    super::hold(tally, &call, &all, &out);
    tally.intended("with more digests than a list has (11, the Rust has no such limit)");
}

pub fn beyond_the_rust(context: &Context) -> Tally {
    let mut tally = Tally::new("digest: beyond the Rust", Against::Model);
    let rng = &mut context.rng("beyond the Rust");
    for kind in &KINDS {
        let calls: Vec<Call> = (0..kind.many).map(|_| (kind.make)(rng)).collect();
        for (call, answer) in calls.iter().zip(ask_digests(&context.oracle, &calls)) {
            let len = rng.below(40 * DIGEST);
            let out = rng.bytes(len);
            count(&mut tally, call, &answer, kind, &out);
        }
    }
    count_too_many(&mut tally, context, rng);
    tally
}
