//! What is read: files of 50 MB as people send them, and such as someone may send who wants a reader to take long.
use crate::letters::masked;
use crate::proteins::{letters, name, protein};
use crate::rng::Rng;

pub struct File {
    pub name: &'static str,
    pub text: String,
    /// How many entries ours is to list, and the number that it ends with.
    pub entries: usize,
    pub answer: u32,
}

const BYTES: usize = 50_000_000;
const ABOUT: usize = 450;
/// So long that a catalogue has room for all names of a file.
const LONGER: usize = 700;
const WIDTH: usize = 60;
const REST: &str = "Protein of a generated database OS=None OX=0";

struct Entry {
    header: String,
    letters: String,
}

/// With about so many letters each; their file has about so many bytes.
fn entries(rng: &mut Rng, about: usize, bytes: usize) -> Vec<Entry> {
    let mut entries = Vec::new();
    let mut left = bytes;
    while left > 0 {
        let header = format!(">{} {REST}", name(rng, entries.len()));
        let letters = protein(rng, about);
        left = left.saturating_sub(header.len() + 1 + letters.len() + letters.len().div_ceil(WIDTH));
        entries.push(Entry { header, letters });
    }
    entries
}

fn push_lines(text: &mut String, letters: &str, width: usize, end: &str) {
    for line in letters.as_bytes().chunks(width) {
        text.push_str(std::str::from_utf8(line).expect("letters"));
        text.push_str(end);
    }
}

/// Entries with lines of a width.
fn written(name: &'static str, entries: &[Entry], width: usize, end: &str) -> File {
    let mut text = String::new();
    for Entry { header, letters } in entries {
        text.push_str(header);
        text.push_str(end);
        push_lines(&mut text, letters, width, end);
    }
    File { name, text, entries: entries.len(), answer: 0 }
}

pub fn usual(rng: &mut Rng) -> Vec<File> {
    let mut short = entries(rng, ABOUT, BYTES);
    let mut files = vec![
        written("about 450 letters, LF", &short, WIDTH, "\n"),
        written("about 450 letters, CR LF", &short, WIDTH, "\r\n"),
    ];
    for entry in &mut short {
        entry.letters = masked(&entry.letters);
    }
    files.push(written("about 450 letters, every second small, LF", &short, WIDTH, "\n"));
    files.push(written("about 700 letters, LF", &entries(rng, LONGER, BYTES), WIDTH, "\n"));
    files
}

/// Entries of one kind, each with its number.
fn numbered(name: &'static str, entry: impl Fn(usize) -> String) -> File {
    let mut text = String::new();
    let mut entries = 0;
    while text.len() < BYTES {
        text.push_str(&entry(entries));
        entries += 1;
    }
    File { name, text, entries, answer: 0 }
}

/// One text again and again; nothing is listed.
fn repeated(name: &'static str, front: &str, again: &str) -> File {
    let text = format!("{front}{}", again.repeat(BYTES / again.len()));
    File { name, text, entries: 0, answer: 0 }
}

/// One entry that has more letters than an entry may have.
fn endless(rng: &mut Rng) -> File {
    let mut text = String::from(">endless\n");
    push_lines(&mut text, &letters(rng, BYTES), WIDTH, "\n");
    File { name: "one entry, letters", text, entries: 0, answer: 1 }
}

/// Each is made when it is its turn: together they are large.
pub const HOSTILE: [fn(&mut Rng) -> File; 10] = [
    |_| numbered("entries without letters", |number| format!(">{number} {REST}\n")),
    |_| numbered("entries of one letter", |number| format!(">{number}\nA\n")),
    |rng| written("one letter a line", &entries(rng, ABOUT, BYTES / 2), 1, "\n"),
    |_| repeated("LF alone", "", "\n"),
    |_| repeated("CR LF alone", "", "\r\n"),
    |_| File { entries: 1, ..repeated("one entry, LF alone", ">name\n", "\n") },
    endless,
    |_| File { entries: 1, ..repeated("one header, blanks behind a name", ">name", " ") },
    |_| File { answer: 12, ..repeated("one header, a name alone", ">", "A") },
    |_| File { answer: 12, ..repeated("`>` LF", "", ">\n") },
];
