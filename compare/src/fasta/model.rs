//! Document 02's [1] as plain Rust: a file is split into lines, and lines are put together to entries.
use crate::answer::*;
use crate::digest::model::{shown, MOST_LETTERS};
use crate::digest_groups::cases::padded;
use crate::digest_groups::model::NAME;
use crate::model::{capital, is_letter};
use std::fmt;

/// A line that is not empty: where it starts in the file, and its bytes without its end.
struct Line<'a> {
    start: usize,
    text: &'a [u8],
}

impl Line<'_> {
    /// "A line starting with `>` opens an entry."
    fn opens(&self) -> bool {
        self.text[0] == b'>'
    }

    /// Its bytes, each with its place in the file.
    fn bytes(&self) -> impl Iterator<Item = (usize, u8)> + '_ {
        (self.start..).zip(self.text.iter().copied())
    }
}

/// "Line ends are LF or CR LF; a line without either ends at the file's end."
fn without_end(line: &[u8]) -> &[u8] {
    match line {
        [text @ .., b'\r', b'\n'] | [text @ .., b'\n'] => text,
        text => text,
    }
}

/// The lines of a file that begins at a place within. "Empty lines are skipped."
fn lines(bytes: &[u8], at: usize) -> Vec<Line<'_>> {
    let mut start = at;
    let mut lines = Vec::new();
    for line in bytes[at..].split_inclusive(|byte| *byte == b'\n') {
        let text = without_end(line);
        if !text.is_empty() {
            lines.push(Line { start, text });
        }
        start += line.len();
    }
    lines
}

/// From each line that opens an entry up to the next such; the first line may open none.
fn entries<'a, 'b>(lines: &'b [Line<'a>]) -> impl Iterator<Item = &'b [Line<'a>]> {
    lines.chunk_by(|_, next| !next.opens())
}

/// A good entry, its letters as capitals.
#[derive(Clone, PartialEq)]
pub struct Entry {
    pub name: Vec<u8>,
    pub letters: Vec<u8>,
}

impl fmt::Debug for Entry {
    fn fmt(&self, f: &mut fmt::Formatter<'_>) -> fmt::Result {
        write!(f, "{} {}", self.name.escape_ascii(), shown(&self.letters))
    }
}

/// "Up to the first blank or line end", of what stands behind `>`.
fn name_of(header: &[u8]) -> &[u8] {
    let len = header.iter().position(|byte| matches!(byte, b' ' | b'\t'));
    &header[..len.unwrap_or(header.len())]
}

fn is_name(name: &[u8]) -> bool {
    (1..=NAME).contains(&name.len()) && name.iter().all(|byte| (33..=126).contains(byte))
}

/// 14, then 1, 12 and 2 of the entry.
fn read(lines: &[Line<'_>]) -> Answer<Entry> {
    let (first, others) = lines.split_first().expect("lines of an entry");
    if !first.opens() {
        return refuse(STRAY, first.start);
    }
    let name = name_of(&first.text[1..]);
    let letters: Vec<(usize, u8)> = others.iter().flat_map(Line::bytes).collect();
    if letters.len() > MOST_LETTERS {
        return refuse(SIZE, first.start);
    }
    if !is_name(name) {
        return refuse(BAD_NAME, first.start + 1);
    }
    match letters.iter().find(|(_, byte)| !is_letter(*byte)) {
        Some((place, _)) => refuse(LETTER, *place),
        None => Ok(Entry {
            name: name.to_vec(),
            letters: letters.iter().map(|(_, byte)| capital(*byte)).collect(),
        }),
    }
}

/// The entry that a place is in front of, and where the next may stand.
pub fn entry_at(bytes: &[u8], at: usize) -> Answer<Option<(Entry, usize)>> {
    if at > bytes.len() {
        return refuse(FIELD, 0);
    }
    let lines = lines(bytes, at);
    let mut entries = entries(&lines);
    let Some(entry) = entries.next() else { return Ok(None) };
    let next = entries.next().map_or(bytes.len(), |next| next[0].start);
    Ok(Some((read(entry)?, next)))
}

/// Writes what fits of an entry: its name as a whole or not at all. The answer is the number of its letters.
fn put(entry: &Entry, name: &mut [u8], letters: &mut [u8]) -> Answer<u32> {
    if let Some(record) = name.get_mut(..NAME) {
        record.copy_from_slice(&padded(&entry.name));
    }
    let fitting = entry.letters.len().min(letters.len());
    letters[..fitting].copy_from_slice(&entry.letters[..fitting]);
    match name.len() < NAME || fitting < entry.letters.len() {
        true => refuse(NO_ROOM, 0),
        false => Ok(entry.letters.len() as u32),
    }
}

/// An entry that was found: where the next may stand, and the number of its letters.
#[derive(Clone, Copy, Debug, PartialEq)]
pub struct Found {
    pub next: usize,
    pub count: u32,
}

/// What a call says, and both buffers as they are afterwards.
#[derive(Clone, Debug, PartialEq)]
pub struct Reading {
    pub answer: Answer<Option<Found>>,
    pub name: Vec<u8>,
    pub letters: Vec<u8>,
}

pub fn reading(bytes: &[u8], at: usize, name: &[u8], letters: &[u8]) -> Reading {
    let (mut name, mut letters) = (name.to_vec(), letters.to_vec());
    let answer = match entry_at(bytes, at) {
        Ok(Some((entry, next))) => {
            put(&entry, &mut name, &mut letters).map(|count| Some(Found { next, count }))
        }
        Ok(None) => Ok(None),
        Err(refusal) => Err(refusal),
    };
    Reading { answer, name, letters }
}

/// The entries of a whole file up to the first refusal, if there is one.
#[derive(Clone, Debug, PartialEq)]
pub struct Listed {
    pub entries: Vec<Entry>,
    pub end: Answer<()>,
}

pub fn listed(bytes: &[u8]) -> Listed {
    let mut listed = Listed { entries: vec![], end: Ok(()) };
    for entry in entries(&lines(bytes, 0)) {
        match read(entry) {
            Ok(entry) => listed.entries.push(entry),
            Err(refusal) => return Listed { end: Err(refusal), ..listed },
        }
    }
    listed
}

/// What a host makes of a file: a catalogue and a book, each entry behind those before, and where each ends in the book.
#[derive(Clone, Debug, PartialEq)]
pub struct Database {
    pub names: Vec<u8>,
    pub letters: Vec<u8>,
    pub ends: Vec<usize>,
    pub end: Answer<()>,
}

impl Database {
    /// Without entries yet.
    pub fn new(names: &[u8], letters: &[u8]) -> Database {
        Database { names: names.to_vec(), letters: letters.to_vec(), ends: vec![], end: Ok(()) }
    }

    /// The bytes of names and of letters that stand there.
    pub fn used(&self) -> (usize, usize) {
        (NAME * self.ends.len(), self.ends.last().copied().unwrap_or(0))
    }

    /// What is left of both rooms.
    pub fn left(&mut self) -> (&mut [u8], &mut [u8]) {
        let (names, letters) = self.used();
        (&mut self.names[names..], &mut self.letters[letters..])
    }

    /// An entry more, which stands there already.
    pub fn add(&mut self, count: u32) {
        self.ends.push(self.used().1 + count as usize);
    }
}

pub fn database(listed: &Listed, names: &[u8], letters: &[u8]) -> Database {
    let mut database = Database::new(names, letters);
    for entry in &listed.entries {
        let (name, letters) = database.left();
        match put(entry, name, letters) {
            Ok(count) => database.add(count),
            Err(refusal) => return Database { end: Err(refusal), ..database },
        }
    }
    Database { end: listed.end, ..database }
}
