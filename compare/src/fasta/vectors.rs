//! A sample of the original's entries, of files that ours reads alike.
use super::cases::agreed;
use super::model::{Entry, Listed};
use super::said::ask_read;
use crate::asked::drawn;
use crate::entry::Context;
use crate::fields::{letters_field, list_field};
use crate::oracle::hex;
use crate::rule_texts::cases::distinct;
use crate::sample::{Limits, Sample};

const FILES: usize = 3_000;
/// There are few files without entries.
const LIMITS: Limits =
    Limits { lines: 600, bytes: 60_000, longest: 1_600, of_the_sort: 12, long: 12, short: 200 };

/// Files without entries, and such as stand in databases.
fn examples() -> Vec<Vec<u8>> {
    let texts: [&[u8]; 8] = [
        b"",
        b"\n",
        b"\r\n\n\r\n",
        b">P1\nMAKCRDK\n",
        b">P1\nMAKCRDK",
        b">P1 first\r\nMAK\r\nCRDK\r\n\r\n>P2\tsecond\r\nACK\r\n",
        b">sp|P02768|ALBU_HUMAN Albumin OS=Homo sapiens GN=ALB\nMKWVTFISLL\nFLFSSAYSRG\n",
        b">x>y >z\nacdeFGHI\n\nkl\n",
    ];
    texts.map(Vec::from).into()
}

fn line(file: &[u8], said: &Listed) -> String {
    let entry = |Entry { name, letters }: &Entry| format!("{}={}", hex(name), letters_field(letters));
    format!("{} {}\n", hex(file), list_field(said.entries.iter().map(entry), ";"))
}

pub fn lines(context: &Context) -> String {
    let mut files = examples();
    files.extend(drawn(context.rng("vectors: sequence files"), FILES, agreed));
    let files = distinct(files);
    let mut sample = Sample::new(LIMITS);
    for (file, said) in files.iter().zip(ask_read(&context.oracle, &files)) {
        sample.add(&line(file, &said), said.entries.is_empty());
    }
    sample.lines
}
