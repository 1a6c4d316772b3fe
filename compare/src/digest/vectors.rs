//! A sample of the original's digests with their ranges: its sites, of which its digests say which are kept.
use super::cases::{call, enzyme, protein, set_of};
use super::model::{position, Call, Enzyme, Site, C_SIDE, END, NONE, N_SIDE, SET};
use super::said::{ask_digests, ask_sites, read_digests, read_sites, Seen};
use crate::asked::drawn;
use crate::entry::Context;
use crate::fields::{letters_field, list_field};
use crate::rng::Rng;
use crate::sample::{Limits, Sample};

const LINES: usize = 800;
const LONGEST_LETTERS: usize = 40;
/// There are few lines without digests.
const LIMITS: Limits =
    Limits { lines: LINES, bytes: 64_000, longest: 1150, of_the_sort: 100, long: 20, short: 150 };

fn example(letters: &[u8], kind: u32, cleave: &[u8], missed: u32, bounds: (u32, u32)) -> Call {
    let (minimum, maximum) = bounds;
    let (side, semi) = (C_SIDE, 0);
    let enzyme = Enzyme { kind, cleave: set_of(cleave), skip: 0, side, semi, missed, minimum, maximum };
    Call { letters: letters.to_vec(), alphabet: set_of(cleave), enzyme, protein: 0 }
}

/// Document 01's examples, two with repeats, and the empty protein with each kind.
fn examples() -> Vec<Call> {
    let mut p1 = example(b"MAKCRDK", SET, b"KR", 1, (2, 50));
    p1.enzyme.skip = set_of(b"P");
    let mut p3 = example(b"DADA", SET, b"D", 1, (1, 50));
    p3.enzyme.side = N_SIDE;
    let mut p4 = example(b"ACK", SET, b"KR", 0, (1, 50));
    p4.enzyme.semi = 1;
    let p5 = example(b"AAC", NONE, b"", 0, (1, 2));
    let windows = example(b"AKAKAK", SET, b"K", 1, (1, 50));
    let mut parts = example(b"ACKAC", SET, b"K", 0, (1, 50));
    parts.enzyme.semi = 1;
    let empty = [NONE, END, SET].map(|kind| example(b"", kind, b"K", 1, (0, 3)));
    [vec![p1, p3, p4, p5, windows, parts], empty.to_vec()].concat()
}

fn random(rng: &mut Rng) -> Call {
    let enzyme = enzyme(rng);
    let enzyme = Enzyme { minimum: enzyme.minimum / 2, ..enzyme };
    let longest = rng.pick(&[4, 8, 14, LONGEST_LETTERS]);
    let len = rng.below(longest + 1);
    let letters = protein(rng, &enzyme, len);
    let mut call = call(rng, letters, enzyme);
    // A set that means nothing is no part of the sample.
    if enzyme.kind != SET {
        call.enzyme.cleave = 0;
    }
    call
}

/// The site of each digest: the next one with its letters, as the first with these letters is the one that is kept.
fn kept(letters: &[u8], sites: &[Site], digests: &[Seen<'_>]) -> Vec<Site> {
    let mut sites = sites.iter();
    let mut site_of = |digest: &Seen<'_>| {
        let shows = |site: &&Site| {
            letters[site.start..site.end] == *digest.letters
                && (site.missed, site.semi) == (digest.missed, digest.semi)
                && position(site, letters.len()) == digest.position
        };
        *sites.find(shows).expect("the site of a digest")
    };
    digests.iter().map(&mut site_of).collect()
}

fn line(call: &Call, kept: &[Site], digests: &[Seen<'_>]) -> String {
    let Enzyme { kind, cleave, skip, side, semi, missed, minimum, maximum } = call.enzyme;
    let count = call.letters.len();
    let write = |(site, digest): (&Site, &Seen<'_>)| {
        let Site { start, end, missed, semi } = site;
        format!("{start}.{end}.{missed}.{semi}.{}.{}", position(site, count), digest.times)
    };
    let letters = letters_field(&call.letters);
    let enzyme = format!("{kind} {cleave:08x} {skip:08x} {side} {semi} {missed} {minimum} {maximum}");
    let written = list_field(kept.iter().zip(digests).map(write), ";");
    format!("{letters} {enzyme} {} {written}\n", kept.len())
}

pub fn lines(context: &Context) -> String {
    let mut calls = examples();
    calls.extend(drawn(context.rng("vectors: digests"), 4 * LINES, random));
    let mut sample = Sample::new(LIMITS);
    let (sites, digests) = (ask_sites(&context.oracle, &calls), ask_digests(&context.oracle, &calls));
    for ((call, sites), digests) in calls.iter().zip(sites).zip(digests) {
        let sites = read_sites(&sites, call.letters.len());
        let digests = read_digests(&digests, 0);
        let kept = kept(&call.letters, &sites, &digests);
        sample.add(&line(call, &kept, &digests), kept.is_empty());
    }
    sample.lines
}
