//! A sample of the original's answers for the gate to replay: plain lines of ASCII, nothing of ours in them.
//!
//! rules.txt: the text in hexadecimal (`-` if empty), the number of the answer, its place, kind and letter (0 unless
//! accepted). table.txt: `N` starts an empty table, `I` inserts: the mass's bit pattern and the name's number in hexadecimal,
//! and the id, 0 where the table is full. digest.txt: the letters (`-` if none), kind, cleave set and skip set in
//! hexadecimal, side, semi, missed, minimum, maximum as the header numbers them, the number of digests, and each as
//! `start.end.missed.semi.position.count`, divided by `;` (`-` if none); the alphabet is all letters, and the count is how
//! many different ranges of the original's sites have the digest's letters. masses.txt: letters, and the bit pattern of their
//! base mass in hexadecimal, by the original's own masses. forms.txt: the letters, their ids in hexadecimal, the ids of the
//! two ends, the position, the variable rules, then the fixed ones in hexadecimal (`-` if none), the combination limit, the
//! cap (4294967295 if none), the number of forms, and each in hexadecimal as the ids of the two ends and of the letters,
//! divided by `;`. fasta.txt: the file in hexadecimal (`-` if empty), and each entry as its name in hexadecimal, `=` and its
//! letters, divided by `;` (`-` if none).
//!
//! groups.txt: the names in hexadecimal without the zeros behind them, divided by `;`, the boundaries, divided by `.`, the
//! letters, the digest records in hexadecimal, one behind the other, the number of groups, each group as the number of its
//! reference in the list of digests, first and count, `reference.first.count`, divided by `;`, and the numbers of all proteins,
//! divided by `.`. cover.txt: the numbers of groups and of meta-peptides, the edges as `group.meta`, divided by `;` (`-` if
//! none), and the marks as digits (`-` if none). update.txt: the two numbers, the old edges, the new edges, the given marks
//! and the marks of the answer.
//!
//! proteins.txt: the flags of the peptides as digits, the number of proteins, the pairs as `peptide.protein`, divided by `;`, the
//! numbers of groups and of meta-peptides, the edges as `group.meta`, divided by `;`, and the members as `group.protein.decoy`,
//! divided by `;`, sorted by the original's numbers in each group. lines.txt: the names as in groups.txt, the members as in
//! proteins.txt, the marks as digits, the peptide's proteins, divided by `.`, its flag, the tag in hexadecimal, whether decoys
//! are generated, the number of groups, which is the `;` of the line plus one, without those in names, and the line in hexadecimal.
//! passes.txt: the names, the flags of the peptides, the pairs, the tag, whether decoys are generated, the lines of all peptides
//! in hexadecimal, divided by `;`, and their numbers of groups, divided by `.`. `-` stands for none.
//!
//! The original is asked about letters as capitals. A text of rules.txt keeps its small letters and has the answer for its
//! capitals. The original is asked about a file of fasta.txt as it stands, as names keep their small letters, and the letters
//! that it answers are written as capitals; the letters of all other files are capitals.
use crate::answer::Answer;
use crate::entry::Context;
use crate::model::{Modification, Rule, MARKS};
use crate::oracle::hex;
use crate::rng::Rng;
use crate::rule_texts::cases::{accepted_texts, distinct, near_miss};
use crate::table::cases::{filling, from_pool, special};
use crate::{
    cover, digest, digest_groups, fasta, forms, masses, passes, protein_groups, report_lines, rule_texts,
    table, update,
};
use std::{fs, io, path::Path};

/// About so many lines in each file.
const LINES: usize = 1500;

pub fn write(context: &Context, folder: &Path) -> io::Result<()> {
    fs::create_dir_all(folder)?;
    fs::write(folder.join("rules.txt"), rules(context))?;
    fs::write(folder.join("table.txt"), tables(context))?;
    fs::write(folder.join("fasta.txt"), fasta::vectors::lines(context))?;
    fs::write(folder.join("digest.txt"), digest::vectors::lines(context))?;
    fs::write(folder.join("masses.txt"), masses::vectors::lines(context))?;
    fs::write(folder.join("forms.txt"), forms::vectors::lines(context))?;
    fs::write(folder.join("groups.txt"), digest_groups::vectors::lines(context))?;
    fs::write(folder.join("cover.txt"), cover::vectors::lines(context))?;
    fs::write(folder.join("update.txt"), update::vectors::lines(context))?;
    fs::write(folder.join("proteins.txt"), protein_groups::vectors::lines(context))?;
    fs::write(folder.join("lines.txt"), report_lines::vectors::lines(context))?;
    fs::write(folder.join("passes.txt"), passes::vectors::lines(context))
}

fn random_text(rng: &mut Rng, accepted: &[Vec<u8>]) -> Vec<u8> {
    match rng.below(4) {
        0 => near_miss(rng, accepted),
        1 => vec![rng.pick(&MARKS), rng.byte()],
        2 => vec![rng.pick(&MARKS), b'A' + rng.below(26) as u8, rng.byte()],
        _ => (0..2 + rng.below(39)).map(|_| rng.byte()).collect(),
    }
}

/// All that are accepted, all of one byte, and a sample of longer ones, without bytes of 128 or more.
fn texts(rng: &mut Rng) -> Vec<Vec<u8>> {
    let accepted = accepted_texts();
    let mut texts = vec![vec![]];
    texts.extend(accepted.iter().cloned());
    texts.extend((0..128).map(|byte| vec![byte]));
    texts.extend((0..2 * LINES).map(|_| random_text(rng, &accepted)));
    texts.iter_mut().flatten().for_each(|byte| *byte &= 127);
    let mut texts = distinct(texts);
    texts.truncate(LINES);
    texts
}

fn rule_line(text: &[u8], answer: Answer<Rule>) -> String {
    let (number, place, rule) = match answer {
        Ok(rule) => (0, 0, rule),
        Err(refusal) => (refusal.number, refusal.place, Rule { kind: 0, letter: 0 }),
    };
    format!("{} {number} {place} {} {}\n", hex(text), rule.kind, rule.letter)
}

fn rules(context: &Context) -> String {
    let texts = texts(&mut context.rng("vectors: rule texts"));
    let said = rule_texts::ask(&context.oracle, &texts);
    texts.iter().zip(said).map(|(text, said)| rule_line(text, said.answer(text))).collect()
}

/// The special masses, one sequence that goes on past a full table, then short ones.
fn sequences(rng: &mut Rng) -> Vec<Vec<Modification>> {
    let mut sequences = vec![special(), filling(rng, 262, 60)];
    let mut lines: usize = sequences.iter().map(|sequence| sequence.len() + 1).sum();
    while lines < LINES {
        let (pool, len) = (1 + rng.below(40), rng.below(60));
        sequences.push(from_pool(rng, pool, len));
        lines += len + 1;
    }
    sequences
}

fn tables(context: &Context) -> String {
    let sequences = sequences(&mut context.rng("vectors: insertions"));
    let mut lines = String::new();
    for (sequence, said) in sequences.iter().zip(table::ask(&context.oracle, &sequences)) {
        lines += "N\n";
        for (given, id) in sequence.iter().zip(said.ids) {
            lines += &format!("I {:08x} {:08x} {}\n", given.mass_bits, given.name, id.unwrap_or(0));
        }
    }
    lines
}
