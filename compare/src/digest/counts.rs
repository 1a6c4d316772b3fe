//! How often the letters of a digest stand in its protein (document 02, [7]): what is tried of it beyond the other entries, which
//! hold the number of every record against the original's own sites.
use super::cases::*;
use super::model::{self, Call, Enzyme, C_SIDE, DIGEST, END, MOST_LETTERS, NONE, N_SIDE, SET};
use super::said::{ask_digests, ask_sites, read_digests, read_sites, Seen};
use super::{hold, model_calls, Outcome};
use crate::answer::Checked;
use crate::asked::Asked;
use crate::entry::{Against, Context, Tally};
use crate::model::{capitals, word};
use crate::oracle::in_batches;
use crate::rng::Rng;
use std::collections::BTreeSet;

/// A protein and what it is cut with: a set that cuts behind K, and what is changed of it.
fn cut(letters: &[u8], change: impl Fn(&mut Enzyme)) -> Call {
    let (cleave, skip, side) = (set_of(b"K"), 0, C_SIDE);
    let mut enzyme =
        Enzyme { kind: SET, cleave, skip, side, semi: 0, missed: 0, minimum: 1, maximum: 65_536 };
    change(&mut enzyme);
    Call { letters: letters.to_vec(), alphabet: ALL_LETTERS, enzyme, protein: 9 }
}

/// Calls whose numbers are known: document 01's examples, and others.
fn known() -> Vec<(Call, &'static [u32])> {
    let p1 = cut(b"MAKCRDK", |enzyme| {
        (enzyme.cleave, enzyme.skip, enzyme.missed) = (set_of(b"KR"), set_of(b"P"), 1);
        (enzyme.minimum, enzyme.maximum) = (2, 50);
    });
    let p3 = |enzyme: &mut Enzyme| (enzyme.cleave, enzyme.side, enzyme.missed) = (set_of(b"D"), N_SIDE, 1);
    let none = |maximum| {
        move |enzyme: &mut Enzyme| (enzyme.kind, enzyme.minimum, enzyme.maximum) = (NONE, 1, maximum)
    };
    let semi = |enzyme: &mut Enzyme| enzyme.semi = 1;
    vec![
        (p1, &[1, 1, 1, 1, 1]),
        (cut(b"DADA", p3), &[2, 1]),
        (cut(b"dADa", p3), &[2, 1]),
        (cut(b"ACK", semi), &[1, 1, 1, 1, 1]),
        (cut(b"AAC", none(2)), &[2, 1, 1, 1]),
        (cut(b"AKAKAK", |enzyme| enzyme.missed = 1), &[3, 2]),
        (cut(b"ACKAC", semi), &[1, 2, 2, 1, 1, 1]),
        (cut(b"ACA", none(1)), &[2, 1]),
        (cut(b"KKKK", |enzyme| enzyme.kind = END), &[1]),
    ]
}

/// The numbers that stand, in room for so many records.
fn numbers(call: &Call, room: usize) -> Checked<Vec<u32>> {
    let capitals = capitals(&call.letters);
    let outcome = Outcome::ours(call, &capitals, &vec![0xee; room * DIGEST])?;
    Ok(outcome.digests.iter().map(|digest| digest.times).collect())
}

/// In every room, from none to the exact one.
pub fn examples(_: &Context) -> Tally {
    let mut tally = Tally::new("digest: counts that are known", Against::Model);
    for (call, wanted) in known() {
        let of_model: Vec<u32> = model::records(&call).iter().map(|record| word(record, 16)).collect();
        tally.case(&call, &Ok(&of_model[..]), &wanted);
        for room in 0..=wanted.len() {
            tally.case(&(&call, room), &numbers(&call, room), &wanted[..room].to_vec());
        }
    }
    tally
}

/// The numbers of our records, counted here on the list of sites that the original has.
pub fn on_its_sites(context: &Context) -> Tally {
    let mut tally = Tally::new("digest: counts on the Rust's sites", Against::Rust);
    let rng = &mut context.rng("counts on the sites of the original");
    in_batches(model_calls(rng).into_iter(), |batch| {
        for (call, answer) in batch.iter().zip(ask_sites(&context.oracle, batch)) {
            let capitals = capitals(&call.letters);
            let ranges = model::ranges(&read_sites(&answer, capitals.len()));
            let room = vec![0xee; (ranges.len() + 1) * DIGEST];
            let ours = Outcome::ours(call, &capitals, &room).map(|outcome| outcome.digests);
            let counted = |digest: &Seen<'_>| model::times(&capitals, &ranges, digest.letters);
            let wanted = match &ours {
                Ok(digests) => digests.iter().map(counted).collect(),
                Err(_) => vec![],
            };
            let ours = ours.map(|digests| digests.iter().map(|digest| digest.times).collect::<Vec<u32>>());
            tally.case(call, &ours, &wanted);
        }
    });
    tally
}

/// Exact room, one record short, one record and none: the records that stand have their full numbers.
fn hold_in_each_room(tally: &mut Tally, rng: &mut Rng, call: &Call, all: &[Seen<'_>]) {
    let rooms = BTreeSet::from([0, all.len().min(1), all.len().saturating_sub(1), all.len()]);
    for room in rooms {
        hold(tally, call, all, &rng.bytes(room * DIGEST));
    }
}

const ROOMS: Asked<Call> = Asked {
    ask: |context, calls| ask_digests(&context.oracle, calls),
    hold: |tally, rng, call, answer| {
        hold_in_each_room(tally, rng, call, &read_digests(&answer, call.protein));
    },
    rooms: "digest, each room",
};

pub fn in_each_room(context: &Context) -> Tally {
    let mut tally = Tally::new("digest: counts in each room", Against::Rust);
    let rng = &mut context.rng("counts in each room");
    let enzymes = small_enzymes(rng);
    ROOMS.hold_all(&mut tally, context, crossed(rng, &enzymes, &all_proteins(FEW_LETTERS, 5)));
    ROOMS.hold_all(&mut tally, context, crossed(rng, &few_enzymes(), &all_proteins(b"AK", 9)));
    ROOMS.hold_all(&mut tally, context, random_calls(rng, 1_000, 40));
    for calls in repetitive_calls(rng).chunks(100) {
        ROOMS.hold_all(&mut tally, context, calls.iter().cloned());
    }
    tally
}

/// The greatest number, which has 17 bits, and those next to it: of single letters that are cut out everywhere, of every range of
/// a length, and of the parts of one site.
pub fn greatest(context: &Context) -> Tally {
    let mut tally = Tally::new("digest: the greatest counts", Against::Rust);
    for letter in [b'A', b'K', b'k'] {
        for len in [MOST_LETTERS - 1, MOST_LETTERS] {
            let letters = vec![letter; len];
            let none = cut(&letters, |enzyme| {
                (enzyme.kind, enzyme.minimum, enzyme.maximum) = (NONE, 1, 3);
            });
            let windows = cut(&letters, |enzyme| enzyme.missed = 16);
            let before = cut(&letters, |enzyme| (enzyme.side, enzyme.missed) = (N_SIDE, 1));
            let semi = cut(&letters, |enzyme| (enzyme.semi, enzyme.maximum) = (1, 40));
            let both = cut(&letters, |enzyme| (enzyme.semi, enzyme.missed, enzyme.maximum) = (1, 2, 40));
            let end = cut(&letters, |enzyme| (enzyme.kind, enzyme.missed) = (END, 16));
            for call in [none, windows, before, semi, both, end] {
                ROOMS.hold_all(&mut tally, context, [call]);
            }
        }
    }
    tally
}
