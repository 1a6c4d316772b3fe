//! Document 01's "Grouping digests" as plain Rust, with what it says of catalogues, books and digests that are lent.
use crate::answer::*;
use crate::digest::model::{shown, DIGEST, MOST_DIGESTS, MOST_LETTERS, MOST_MISSED};
use crate::model::{self, put_word, word};
use crate::reversal::model::reversed;
use crate::room;
use crate::small_letters::Lettered;
use std::collections::{BTreeMap, HashSet};
use std::fmt;

/// The bytes of a name and of a group.
pub const NAME: usize = 64;
pub const GROUP: usize = 28;
pub const MOST_NAMES: usize = 65_536;

/// A call of `group_digests` but for its two lists.
#[derive(Clone, PartialEq)]
pub struct Call {
    pub names: Vec<u8>,
    pub bounds: Vec<u32>,
    pub letters: Vec<u8>,
    pub digests: Vec<u8>,
    pub work: Vec<u32>,
}

impl Lettered for Call {
    fn letters(&mut self) -> &mut [u8] {
        &mut self.letters
    }
}

/// The fields of a record.
#[derive(Clone, Copy, Debug, PartialEq)]
pub struct Digest {
    pub start: u32,
    pub end: u32,
    pub missed: u8,
    pub semi: u8,
    pub position: u8,
    pub decoy: u8,
    pub protein: u32,
    /// "As input any count passes" (document 02, [7]).
    pub times: u32,
}

impl Digest {
    fn of(record: &[u8]) -> Digest {
        let word = |at| word(record, at);
        let [missed, semi, position, decoy] = std::array::from_fn(|field| record[8 + field]);
        let (protein, times) = (word(12), word(16));
        Digest { start: word(0), end: word(4), missed, semi, position, decoy, protein, times }
    }

    pub fn bytes(&self) -> [u8; DIGEST] {
        let Digest { start, end, missed, semi, position, decoy, protein, times } = *self;
        let mut record = [0; DIGEST];
        put_word(&mut record, 0, start);
        put_word(&mut record, 4, end);
        record[8..12].copy_from_slice(&[missed, semi, position, decoy]);
        put_word(&mut record, 12, protein);
        put_word(&mut record, 16, times);
        record
    }
}

/// What the digests of a group have in common, and what groups are sorted by: position, decoy and letters as capitals.
pub type Key = (u8, u8, Vec<u8>);

impl Call {
    pub fn names(&self) -> impl Iterator<Item = &[u8]> {
        self.names.chunks(NAME).map(name)
    }

    pub fn name(&self, protein: u32) -> &[u8] {
        name(&self.names[protein as usize * NAME..][..NAME])
    }

    fn protein(&self, number: u32) -> &[u8] {
        let [start, end] = [0, 1].map(|more| self.bounds[number as usize + more] as usize);
        &self.letters[start..end]
    }

    pub fn digests(&self) -> impl Iterator<Item = Digest> + '_ {
        self.digests.chunks(DIGEST).map(Digest::of)
    }

    pub fn key(&self, digest: &Digest) -> Key {
        let range = digest.start as usize..digest.end as usize;
        let letters = model::capitals(&self.protein(digest.protein)[range]);
        let letters = if digest.decoy == 1 { reversed(&letters) } else { letters };
        (digest.position, digest.decoy, letters)
    }
}

impl fmt::Debug for Call {
    fn fmt(&self, f: &mut fmt::Formatter<'_>) -> fmt::Result {
        let bounds = &self.bounds[..self.bounds.len().min(20)];
        write!(f, "{}, ", shown_names(&self.names))?;
        write!(f, "boundaries {bounds:?} of {}, letters {}, ", self.bounds.len(), shown(&self.letters))?;
        for record in self.digests.chunks_exact(DIGEST).take(20) {
            let Digest { start, end, missed, semi, position, decoy, protein, times } = Digest::of(record);
            write!(f, "{start}.{end}.{missed}.{semi}.{position}.{decoy}.{protein}.{times:x} ")?;
        }
        write!(f, "of {} bytes, {} words", self.digests.len(), self.work.len())
    }
}

fn shown_name(record: &[u8]) -> String {
    name(record).escape_ascii().to_string()
}

/// The first names of a catalogue, and its length.
pub fn shown_names(names: &[u8]) -> String {
    let first: Vec<String> = names.chunks(NAME).take(20).map(shown_name).collect();
    format!("names {} of {} bytes", first.join(" "), names.len())
}

/// A record without the zeros behind its name.
pub fn name(record: &[u8]) -> &[u8] {
    let len = record.iter().rposition(|byte| *byte != 0).map_or(0, |last| last + 1);
    &record[..len]
}

/// "1 to 64 bytes from 33 to 126, then zeros."
fn is_name(record: &[u8]) -> bool {
    let name = name(record);
    !name.is_empty() && name.iter().all(|byte| (33..=126).contains(byte))
}

/// 12 and 13 at the lowest place.
pub fn names_test(names: &[u8]) -> Answer<()> {
    let mut earlier = HashSet::new();
    for (place, record) in names.chunks(NAME).enumerate() {
        if !is_name(record) {
            return refuse(BAD_NAME, place);
        }
        if !earlier.insert(record) {
            return refuse(REPEATED_NAME, place);
        }
    }
    Ok(())
}

/// "First 0, never falling, rising by at most 65,536, last the letter count."
fn bounds_test(bounds: &[u32], letters: usize) -> Answer<()> {
    let last = bounds.len() - 1;
    let begins = |place: usize| place > 0 || bounds[0] == 0;
    let rises = |place: usize| {
        let most = MOST_LETTERS as u32;
        place == 0 || bounds[place].checked_sub(bounds[place - 1]).is_some_and(|step| step <= most)
    };
    let ends = |place: usize| place < last || bounds[last] as usize == letters;
    match (0..=last).find(|place| !(begins(*place) && rises(*place) && ends(*place))) {
        Some(place) => refuse(FIELD, place),
        None => Ok(()),
    }
}

fn digests_test(call: &Call) -> Answer<()> {
    let good = |digest: Digest| {
        let Digest { start, end, missed, semi, position, decoy, protein, .. } = digest;
        let fields = u32::from(missed) <= MOST_MISSED && semi <= 1 && position <= 3 && decoy <= 1;
        let known = (protein as usize) < call.names.len() / NAME;
        fields && known && start < end && end as usize <= call.protein(protein).len()
    };
    match call.digests().position(|digest| !good(digest)) {
        Some(place) => refuse(FIELD, place),
        None => Ok(()),
    }
}

/// The words of work memory that digests of so many names need.
pub fn work_for(names: usize, digests: usize) -> usize {
    4 * names + 6 * digests
}

/// 1, 8, 10, then names, boundaries, letters and digests.
fn test(call: &Call) -> Answer<()> {
    let (names, digests) = (call.names.len() / NAME, call.digests.len() / DIGEST);
    if names > MOST_NAMES || call.letters.len() > model::MOST_BOOK || digests > MOST_DIGESTS {
        return refuse(SIZE, 0);
    }
    let whole = call.names.len() % NAME == 0 && call.digests.len() % DIGEST == 0;
    if !whole || call.bounds.len() != names + 1 {
        return refuse(LENGTH, 0);
    }
    if call.work.len() < work_for(names, digests) {
        return refuse(SHORT_WORK, 0);
    }
    names_test(&call.names)?;
    bounds_test(&call.bounds, call.letters.len())?;
    model::letters_test(&call.letters)?;
    digests_test(call)
}

/// Both lists, whatever room there is.
#[derive(Clone, Debug, Default, PartialEq)]
pub struct Lists {
    pub groups: Vec<[u8; GROUP]>,
    pub proteins: Vec<u32>,
}

impl Lists {
    /// A group more: its reference, and its proteins in order.
    pub fn push(&mut self, reference: &[u8; DIGEST], proteins: &[u32]) {
        let mut group = [0; GROUP];
        group[..DIGEST].copy_from_slice(reference);
        put_word(&mut group, DIGEST, self.proteins.len() as u32);
        put_word(&mut group, DIGEST + 4, proteins.len() as u32);
        self.groups.push(group);
        self.proteins.extend(proteins);
    }
}

/// What a call says, and both lists as they are afterwards.
#[derive(Clone, Debug, PartialEq)]
pub struct Grouped {
    pub answer: Answer<u32>,
    pub groups: Vec<u8>,
    pub proteins: Vec<u32>,
}

/// The groups of a call that passes its tests.
pub fn lists(call: &Call) -> Lists {
    let mut members: BTreeMap<Key, Vec<Digest>> = BTreeMap::new();
    for digest in call.digests() {
        members.entry(call.key(&digest)).or_default().push(digest);
    }
    let mut lists = Lists::default();
    for digests in members.values() {
        let mut proteins: Vec<u32> = digests.iter().map(|digest| digest.protein).collect();
        proteins.sort_by_key(|protein| call.name(*protein));
        lists.push(&digests[0].bytes(), &proteins);
    }
    lists
}

/// Both lists in their room.
pub fn filled(lists: &Lists, groups: &[u8], proteins: &[u32]) -> Grouped {
    let Filled { answer, buffer } = room::filled(&lists.groups, GROUP, MOST_DIGESTS, groups);
    let fitting = lists.proteins.len().min(proteins.len());
    let mut written = proteins.to_vec();
    written[..fitting].copy_from_slice(&lists.proteins[..fitting]);
    let answer = if fitting < lists.proteins.len() { refuse(NO_ROOM, 0) } else { answer };
    Grouped { answer, groups: buffer, proteins: written }
}

/// The answer is the number of groups.
pub fn group_digests(call: &Call, groups: &[u8], proteins: &[u32]) -> Grouped {
    match test(call) {
        Ok(()) => filled(&lists(call), groups, proteins),
        Err(refusal) => {
            Grouped { answer: Err(refusal), groups: groups.to_vec(), proteins: proteins.to_vec() }
        }
    }
}
