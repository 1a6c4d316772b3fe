//! Document 01's "Cutting" as plain Rust, sentence by sentence, and what document 02, [7], adds to it: quadratic, so for small
//! proteins.
use crate::answer::*;
use crate::model::{self, put_word};
use crate::room;
use crate::small_letters::Lettered;
use std::collections::BTreeSet;
use std::fmt;

pub const NONE: u32 = 0;
pub const END: u32 = 1;
pub const SET: u32 = 2;
pub const C_SIDE: u32 = 0;
pub const N_SIDE: u32 = 1;

/// The bytes of a digest record, and the most that a list has.
pub const DIGEST: usize = 20;
pub const MOST_DIGESTS: usize = 1_048_576;
/// The most letters of a protein, and the greatest minimum and maximum.
pub const MOST_LETTERS: usize = 65_536;
pub const MOST_MISSED: u32 = 16;

/// What a protein is cut with: numbers as the header has them.
#[derive(Clone, Copy, Debug, PartialEq)]
pub struct Enzyme {
    pub kind: u32,
    pub cleave: u32,
    pub skip: u32,
    pub side: u32,
    pub semi: u32,
    pub missed: u32,
    pub minimum: u32,
    pub maximum: u32,
}

impl Enzyme {
    /// "An empty set means none."
    pub fn is_none(&self) -> bool {
        self.kind == NONE || self.kind == SET && self.cleave == 0
    }

    /// The letters that have to be in the alphabet: of the cleave set for kind set, of the skip set for any kind.
    pub fn used(&self) -> u32 {
        if self.kind == SET {
            self.cleave | self.skip
        } else {
            self.skip
        }
    }
}

/// A call of digest but for its buffer.
#[derive(Clone, PartialEq)]
pub struct Call {
    pub letters: Vec<u8>,
    pub alphabet: u32,
    pub enzyme: Enzyme,
    pub protein: u32,
}

impl Lettered for Call {
    fn letters(&mut self) -> &mut [u8] {
        &mut self.letters
    }
}

/// Letters as text, and of long ones the front.
pub fn shown(letters: &[u8]) -> String {
    match letters.len() {
        0..=100 => letters.escape_ascii().to_string(),
        len => format!("{}... of {len} letters", letters[..100].escape_ascii()),
    }
}

impl fmt::Debug for Call {
    fn fmt(&self, f: &mut fmt::Formatter<'_>) -> fmt::Result {
        let Call { letters, alphabet, enzyme, protein } = self;
        write!(f, "{} {enzyme:x?} alphabet {alphabet:x} protein {protein:x}", shown(letters))
    }
}

#[derive(Clone, Copy, Debug, PartialEq)]
pub struct Site {
    pub start: usize,
    pub end: usize,
    pub missed: u8,
    pub semi: u8,
}

fn whole(start: usize, end: usize) -> Site {
    Site { start, end, missed: 0, semi: 0 }
}

fn set_sites(letters: &[u8], enzyme: &Enzyme) -> Vec<Site> {
    let mut sites = Vec::new();
    let mut left = 0;
    for place in (0..letters.len()).filter(|place| model::contains(enzyme.cleave, letters[*place])) {
        let cut = if enzyme.side == N_SIDE { place } else { place + 1 };
        if letters.get(cut).is_some_and(|letter| model::contains(enzyme.skip, *letter)) {
            continue;
        }
        sites.push(whole(left, cut));
        left = cut;
    }
    sites.push(whole(left, letters.len()));
    sites
}

/// All windows of 1 to missed + 1 neighbours.
fn windows(base: &[Site], missed: u32) -> Vec<Site> {
    let window = |window: &[Site]| Site {
        start: window[0].start,
        end: window[window.len() - 1].end,
        missed: window.len() as u8 - 1,
        semi: 0,
    };
    (1..=missed as usize + 1).flat_map(|size| base.windows(size).map(window)).collect()
}

fn halves(site: &Site) -> Vec<Site> {
    let Site { start, end, .. } = *site;
    let half = |start, end| Site { start, end, semi: 1, ..*site };
    (start..end).flat_map(|cut| [half(start, cut), half(cut, end)]).collect()
}

fn of_lengths(count: usize, enzyme: &Enzyme) -> Vec<Site> {
    let of_length = |length| (0..).map(move |start| whole(start, start + length));
    let within = |length| of_length(length).take_while(|site| site.end <= count);
    (enzyme.minimum as usize..=enzyme.maximum as usize).flat_map(within).collect()
}

/// Every site, in document 01's order.
pub fn sites(letters: &[u8], enzyme: &Enzyme) -> Vec<Site> {
    if enzyme.is_none() {
        return of_lengths(letters.len(), enzyme);
    }
    let mut sites = match enzyme.kind {
        END => vec![whole(0, letters.len()), whole(letters.len(), letters.len())],
        _ => set_sites(letters, enzyme),
    };
    if enzyme.missed > 0 {
        sites.extend(windows(&sites, enzyme.missed));
    }
    if enzyme.kind == SET && enzyme.semi == 1 {
        sites.extend(sites.iter().flat_map(halves).collect::<Vec<_>>());
    }
    sites
}

/// The sites whose letters become a digest. Two peptides have the same letters if their capitals are the same.
pub fn kept(letters: &[u8], enzyme: &Enzyme) -> Vec<Site> {
    let letters = model::capitals(letters);
    let peptide = |site: &Site| &letters[site.start..site.end];
    let bounds = enzyme.minimum.max(1) as usize..=enzyme.maximum as usize;
    let mut kept: Vec<Site> = Vec::new();
    for site in sites(&letters, enzyme) {
        let long = bounds.contains(&(site.end - site.start));
        if long && kept.iter().all(|earlier| peptide(earlier) != peptide(&site)) {
            kept.push(site);
        }
    }
    kept
}

/// Every range of some sites once, however many sites have it.
pub fn ranges(sites: &[Site]) -> BTreeSet<(usize, usize)> {
    sites.iter().map(|site| (site.start, site.end)).collect()
}

/// "The number of different ranges among the sites of that protein whose letters equal this peptide's" (document 02, [7]); the
/// letters are capitals here.
pub fn times(letters: &[u8], ranges: &BTreeSet<(usize, usize)>, peptide: &[u8]) -> u32 {
    ranges.iter().filter(|(start, end)| letters[*start..*end] == *peptide).count() as u32
}

pub fn position(site: &Site, count: usize) -> u8 {
    match (site.start == 0, site.end == count) {
        (true, false) => 0,
        (false, true) => 1,
        (true, true) => 2,
        (false, false) => 3,
    }
}

fn record(site: &Site, count: usize, protein: u32, times: u32) -> [u8; DIGEST] {
    let mut record = [0; DIGEST];
    put_word(&mut record, 0, site.start as u32);
    put_word(&mut record, 4, site.end as u32);
    record[8..12].copy_from_slice(&[site.missed, site.semi, position(site, count), 0]);
    put_word(&mut record, 12, protein);
    put_word(&mut record, 16, times);
    record
}

/// The records of a call that passes its tests, whatever room there is.
pub fn records(call: &Call) -> Vec<[u8; DIGEST]> {
    let letters = model::capitals(&call.letters);
    let ranges = ranges(&sites(&letters, &call.enzyme));
    let of = |site: &Site| {
        let times = times(&letters, &ranges, &letters[site.start..site.end]);
        record(site, letters.len(), call.protein, times)
    };
    kept(&letters, &call.enzyme).iter().map(of).collect()
}

pub fn room(out: &[u8]) -> usize {
    room::of(out, DIGEST, MOST_DIGESTS)
}

/// 1, 3, 2, 9, in this order.
fn test(call: &Call) -> Answer<()> {
    let Enzyme { kind, side, semi, missed, minimum, maximum, .. } = call.enzyme;
    let longest = MOST_LETTERS as u32;
    if call.letters.len() > MOST_LETTERS || missed > MOST_MISSED || minimum > longest || maximum > longest {
        return refuse(SIZE, 0);
    }
    if call.alphabet >> 26 != 0 || call.enzyme.used() & !call.alphabet != 0 {
        return refuse(ALPHABET, 0);
    }
    model::letters_test(&call.letters)?;
    match kind > SET || side > N_SIDE || semi > 1 {
        true => refuse(FIELD, 0),
        false => Ok(()),
    }
}

/// The answer is the number of records.
pub fn digest(call: &Call, out: &[u8]) -> Filled<u32> {
    if let Err(refusal) = test(call) {
        return Filled { answer: Err(refusal), buffer: out.to_vec() };
    }
    room::filled(&records(call), DIGEST, MOST_DIGESTS, out)
}
