//! What the original says of a protein: its digests, of which it keeps the letters and no range, and its sites, on which it is
//! counted how often the letters of a digest stand.
use super::model::{Call, Enzyme, Site, DIGEST, END, N_SIDE, SET};
use crate::answer::{Checked, Fault};
use crate::fields::capitals_field;
use crate::model::word;
use crate::oracle::{answered, or_dash, Oracle};

/// A digest as far as the original shows it.
#[derive(Clone, Copy, PartialEq)]
pub struct Seen<'a> {
    pub letters: &'a [u8],
    pub missed: u8,
    pub semi: u8,
    pub position: u8,
    pub decoy: u8,
    pub protein: u32,
    /// How often its letters stand: the original's own sites say it.
    pub times: u32,
}

impl std::fmt::Debug for Seen<'_> {
    fn fmt(&self, f: &mut std::fmt::Formatter<'_>) -> std::fmt::Result {
        let Seen { letters, missed, semi, position, decoy, protein, times } = self;
        let letters = super::model::shown(letters);
        write!(f, "{letters}.{missed}.{semi}.{position}.{decoy} of {protein:x}, {times} times")
    }
}

impl Seen<'_> {
    /// What a record of ours shows of the letters of its protein, which are capitals here.
    pub fn of<'a>(record: &[u8], letters: &'a [u8]) -> Checked<Seen<'a>> {
        let range = word(record, 0) as usize..word(record, 4) as usize;
        let letters = letters.get(range.clone()).ok_or(Fault(format!("it wrote the range {range:?}")))?;
        let [missed, semi, position, decoy] = std::array::from_fn(|field| record[8 + field]);
        let (protein, times) = (word(record, 12), word(record, 16));
        Ok(Seen { letters, missed, semi, position, decoy, protein, times })
    }

    pub fn all<'a>(records: &[u8], letters: &'a [u8]) -> Checked<Vec<Seen<'a>>> {
        records.chunks(DIGEST).map(|record| Seen::of(record, letters)).collect()
    }
}

fn letters_of(set: u32) -> String {
    let letters: String = ('A'..='Z').filter(|letter| set >> (*letter as u8 - b'A') & 1 == 1).collect();
    or_dash(letters)
}

fn enzyme_fields(enzyme: &Enzyme) -> String {
    let Enzyme { cleave, skip, semi, missed, minimum, maximum, .. } = *enzyme;
    let (kind, cleave) = match enzyme.kind {
        SET => ("set", letters_of(cleave)),
        END => ("end", "-".into()),
        _ => ("none", "-".into()),
    };
    let side = if enzyme.side == N_SIDE { 'N' } else { 'C' };
    format!("{kind}\t{cleave}\t{}\t{side}\t{semi}\t{missed}\t{minimum}\t{maximum}", letters_of(skip))
}

fn ask(oracle: &Oracle, word: &str, calls: &[Call]) -> Vec<String> {
    let line =
        |call: &Call| format!("{word}\t{}\t{}", capitals_field(&call.letters), enzyme_fields(&call.enzyme));
    oracle.ask(&calls.iter().map(line).collect::<Vec<_>>())
}

/// One answer for each call. Calls with one enzyme are answered fastest one after the other.
pub fn ask_digests(oracle: &Oracle, calls: &[Call]) -> Vec<String> {
    ask(oracle, "DIGEST", calls)
}

pub fn ask_sites(oracle: &Oracle, calls: &[Call]) -> Vec<String> {
    ask(oracle, "SITES", calls)
}

fn items(answer: &str) -> impl Iterator<Item = &str> {
    answered(answer).split(';').filter(|item| *item != "-")
}

fn number<T: std::str::FromStr>(field: Option<&str>) -> T {
    field.and_then(|field| field.parse().ok()).expect("a number of the oracle")
}

/// The original numbers no proteins: the number is the one that the call was given.
pub fn read_digests(answer: &str, protein: u32) -> Vec<Seen<'_>> {
    items(answer).map(|item| read_digest(item, protein)).collect()
}

fn read_digest(item: &str, protein: u32) -> Seen<'_> {
    let mut fields = item.split('.');
    let letters = fields.next().expect("letters").as_bytes();
    let [missed, semi, position, decoy] = std::array::from_fn(|_| number(fields.next()));
    Seen { letters, missed, semi, position, decoy, protein, times: number(fields.next()) }
}

/// The original walks also ranges that end past the letters, and keeps none of them: document 01 has no such sites.
pub fn read_sites(answer: &str, count: usize) -> Vec<Site> {
    let site = |item: &str| {
        let mut fields = item.split('.');
        let (start, end) = (number(fields.next()), number(fields.next()));
        Site { start, end, missed: number(fields.next()), semi: number(fields.next()) }
    };
    items(answer).map(site).filter(|site| site.end <= count).collect()
}
