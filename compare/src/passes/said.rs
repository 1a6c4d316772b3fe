//! What the original says of a pass: the line of every peptide.
use super::cases::Pass;
use crate::cover::model::Edge;
use crate::fields::{digits_field, letters_field, list_field, text};
use crate::oracle::{answered, Oracle};
use crate::report_lines::model::Line;

/// The fields of flags and pairs.
fn database(pass: &Pass) -> String {
    let pair = |(peptide, protein): &Edge| format!("{peptide}.{}", text(pass.name(*protein)));
    format!("{}\t{}", digits_field(&pass.flags), list_field(pass.pairs.iter().map(pair), " "))
}

fn tag(pass: &Pass) -> String {
    format!("{}\t{}", letters_field(&pass.tag), pass.generated)
}

fn line(pass: &Pass) -> String {
    format!("LINES\t{}\t{}\t{}", database(pass), list_field(&pass.grouped, ","), tag(pass))
}

/// A row for each peptide: those that are not grouped have a label by which the original leaves them out.
fn rows(pass: &Pass) -> String {
    let row = |peptide: usize| {
        format!("{peptide}.{}.00000000", if pass.grouped.contains(&peptide) { 1 } else { -1 })
    };
    let rows = list_field((0..pass.flags.len()).map(row), ";");
    format!("ANNOT\t{}\t{rows}\t-\t{}\t1", database(pass), tag(pass))
}

/// One answer for each pass.
pub fn ask(oracle: &Oracle, passes: &[Pass]) -> Vec<String> {
    oracle.ask(&passes.iter().map(line).collect::<Vec<_>>())
}

/// No name is just `-` and no peptide has an empty line: `-` is a peptide without a line, and all of the answer where there are
/// no peptides. The original makes no count here: it is that of its formula, the `;` plus one.
pub fn read(answer: &str, peptides: usize) -> Vec<Line> {
    let line = |text: &str| match text {
        "-" => Line { text: vec![], groups: 0 },
        _ => Line { text: text.into(), groups: text.matches(';').count() as u32 + 1 },
    };
    answered(answer).split(' ').take(peptides).map(line).collect()
}

pub fn ask_of_rows(oracle: &Oracle, passes: &[Pass]) -> Vec<String> {
    oracle.ask(&passes.iter().map(rows).collect::<Vec<_>>())
}

/// The text and the count of each row, both the original's.
pub fn read_rows(answer: &str, peptides: usize) -> Vec<Line> {
    let row = |row: &str| {
        let (groups, text) = row.split_once(':').expect("a row of the oracle");
        Line { text: text.into(), groups: groups.parse().expect("a number of the oracle") }
    };
    answered(answer).split(' ').take(peptides).map(row).collect()
}
