//! The catalogues, books and digests that are tried.
use super::model::{work_for, Call, Digest, MOST_NAMES, NAME};
use crate::digest::model::{MOST_DIGESTS, MOST_LETTERS, MOST_MISSED};
use crate::model::MOST_BOOK;
use crate::rng::Rng;
use std::collections::HashSet;

pub fn padded(name: &[u8]) -> [u8; NAME] {
    let mut record = [0; NAME];
    record[..name.len()].copy_from_slice(name);
    record
}

/// Short ones of which many begin alike, any bytes that a name may have, and the longest, alike up to their ends.
pub fn name(rng: &mut Rng) -> [u8; NAME] {
    let any = |rng: &mut Rng| 33 + rng.below(94) as u8;
    let len = 1 + rng.below(4);
    let name: Vec<u8> = match rng.below(6) {
        0 | 1 => (0..len).map(|_| rng.pick(b"AB")).collect(),
        2 => vec![any(rng)],
        3 => (0..len).map(|_| rng.pick(b"!~09AZaz")).collect(),
        4 => (0..1 + rng.below(NAME)).map(|_| any(rng)).collect(),
        _ => {
            let mut name = vec![b'x'; NAME - rng.below(3)];
            let last = name.len() - 1;
            name[last] = any(rng);
            name
        }
    };
    padded(&name)
}

/// Names that are all different, in no order.
pub fn names(rng: &mut Rng, count: usize) -> Vec<u8> {
    let mut known = HashSet::new();
    let mut names = Vec::new();
    while known.len() < count {
        let name = name(rng);
        if known.insert(name) {
            names.extend(name);
        }
    }
    names
}

/// Letters of proteins in a row, and their boundaries.
fn book(proteins: &[Vec<u8>]) -> (Vec<u8>, Vec<u32>) {
    let mut letters = Vec::new();
    let mut bounds = vec![0];
    for protein in proteins {
        letters.extend(protein);
        bounds.push(letters.len() as u32);
    }
    (letters, bounds)
}

/// How a list of digests is made: of few letters, lengths and positions many digests are equal.
struct Kind {
    letters: Vec<u8>,
    longest: usize,
    positions: Vec<u8>,
    decoys: Vec<u8>,
}

fn kind(rng: &mut Rng) -> Kind {
    let letters = (0..rng.pick(&[1, 1, 2, 2, 3])).map(|_| b'A' + rng.below(26) as u8).collect();
    let longest = rng.pick(&[1, 2, 3, 3, 4, 4, 6, 10, 20]);
    let positions = (0..rng.pick(&[1, 1, 2, 3])).map(|_| rng.below(4) as u8).collect();
    Kind { letters, longest, positions, decoys: rng.pick(&[&[0][..], &[1], &[0, 1], &[0, 1]]).to_vec() }
}

fn digest(rng: &mut Rng, kind: &Kind, bounds: &[u32]) -> Option<Digest> {
    let protein = rng.below(bounds.len() - 1);
    let length = (bounds[protein + 1] - bounds[protein]) as usize;
    if length == 0 {
        return None;
    }
    let start = rng.below(length);
    let end = start + 1 + rng.below(kind.longest.min(length - start));
    let missed = if rng.once_in(2) { 0 } else { rng.below(MOST_MISSED as usize + 1) as u8 };
    Some(Digest {
        start: start as u32,
        end: end as u32,
        missed,
        semi: rng.below(2) as u8,
        position: rng.pick(&kind.positions),
        decoy: rng.pick(&kind.decoys),
        protein: protein as u32,
        times: times(rng),
    })
}

/// Any number: of a group the first digest's is kept, whatever the others' are.
fn times(rng: &mut Rng) -> u32 {
    let any = rng.word();
    rng.pick(&[0, 1, 1, 2, 65_536, 65_537, any, any, any, u32::MAX])
}

/// Work memory that is just enough, or with some to spare, filled with anything.
pub fn work(rng: &mut Rng, names: usize, digests: usize) -> Vec<u32> {
    let more = rng.pick(&[0, 0, 0, 1, 7, 100]);
    (0..work_for(names, digests) + more).map(|_| rng.word()).collect()
}

/// At most so many digests of at most so many proteins, some of which have no letters.
pub fn random(rng: &mut Rng, proteins: usize, digests: usize) -> Call {
    let kind = kind(rng);
    let count = if rng.once_in(30) { 0 } else { 1 + rng.below(proteins) };
    let protein = |rng: &mut Rng| {
        let length = if rng.once_in(12) { 0 } else { 1 + rng.below(kind.longest + 3) };
        (0..length).map(|_| rng.pick(&kind.letters)).collect()
    };
    let proteins: Vec<Vec<u8>> = (0..count).map(|_| protein(rng)).collect();
    let (letters, bounds) = book(&proteins);
    let many = if count == 0 || rng.once_in(30) { 0 } else { 1 + rng.below(digests) };
    let digests: Vec<Digest> = (0..many).filter_map(|_| digest(rng, &kind, &bounds)).collect();
    of(rng, count, letters, bounds, &digests)
}

fn of(rng: &mut Rng, names: usize, letters: Vec<u8>, bounds: Vec<u32>, digests: &[Digest]) -> Call {
    let work = work(rng, names, digests.len());
    let digests = digests.iter().flat_map(Digest::bytes).collect();
    Call { names: self::names(rng, names), bounds, letters, digests, work }
}

/// As many as the original sorts stably.
pub const STABLE: usize = 20;

pub fn small(rng: &mut Rng) -> Call {
    let most = rng.pick(&[3, 8, STABLE]);
    random(rng, 6, most)
}

/// Digests of two proteins of four letters that are at most so long.
fn all_digests(positions: &[u8], longest: u32) -> Vec<Digest> {
    let mut digests = Vec::new();
    for protein in 0..2 {
        for (start, end) in (0..4).flat_map(|start| (start + 1..=4).map(move |end| (start, end))) {
            for position in positions {
                for decoy in 0..2 {
                    let (missed, semi, position) = (digests.len() as u8 % 17, 0, *position);
                    let times = digests.len() as u32 * 0x0102_0304;
                    digests.push(Digest { start, end, missed, semi, position, decoy, protein, times });
                }
            }
        }
    }
    digests.retain(|digest| digest.end - digest.start <= longest);
    digests
}

/// All lists of so many of some digests.
fn lists(of: &[Digest], many: usize) -> Vec<Vec<Digest>> {
    let mut lists = vec![vec![]];
    for _ in 0..many {
        let longer =
            |list: &Vec<Digest>| of.iter().map(|last| [&list[..], &[*last]].concat()).collect::<Vec<_>>();
        lists = lists.iter().flat_map(longer).collect();
    }
    lists
}

/// All lists of one and two digests of AABA and ABAA, and all of three shorter ones.
pub fn exhaustive(rng: &mut Rng) -> Vec<Call> {
    let all = all_digests(&[0, 3], 4);
    let short = all_digests(&[1], 2);
    let mut calls = Vec::new();
    for list in [lists(&all, 1), lists(&all, 2), lists(&short, 3)].concat() {
        let (letters, bounds) = book(&[b"AABA".to_vec(), b"ABAA".to_vec()]);
        calls.push(of(rng, 2, letters, bounds, &list));
    }
    calls
}

/// Sizes of lists that are sorted in several ways, among them powers of two and their neighbours.
pub fn long(rng: &mut Rng) -> Call {
    let size = rng.pick(&[21, 32, 33, 50, 51, 64, 65, 127, 128, 129, 255, 256, 257, 400]);
    random(rng, 40, size)
}

/// The most names, letters and digests that a call may have.
pub fn most(rng: &mut Rng) -> Call {
    let lengths: Vec<usize> =
        (0..MOST_NAMES).map(|place| if place % 16 == 5 { MOST_LETTERS } else { 0 }).collect();
    assert_eq!(lengths.iter().sum::<usize>(), MOST_BOOK, "not the most letters");
    let mut bounds = vec![0];
    for length in &lengths {
        bounds.push(bounds[bounds.len() - 1] + *length as u32);
    }
    let letters = (0..MOST_BOOK).map(|_| rng.pick(b"AAAK")).collect();
    let kind = Kind { letters: vec![], longest: 30, positions: vec![0, 3, 3, 3], decoys: vec![0, 1] };
    let mut digests = Vec::new();
    while digests.len() < MOST_DIGESTS {
        digests.extend(digest(rng, &kind, &bounds));
    }
    let names = (0..MOST_NAMES).flat_map(|place| padded(format!("{:x}", place * 40_503 % 65_536).as_bytes()));
    let names = names.collect();
    let work = work(rng, MOST_NAMES, MOST_DIGESTS);
    Call { names, bounds, letters, digests: digests.iter().flat_map(Digest::bytes).collect(), work }
}
