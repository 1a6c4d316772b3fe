//! GROUPP, COVER, REPORT, LINES and ANNOT: protein_grouping.rs. FASTA: fasta.rs.
use crate::fields::*;
use oracle::database::{IndexedDatabase, PeptideIx};
use oracle::fasta::Fasta;
use oracle::peptide::Peptide;
use oracle::protein_grouping::{generate_protein_groups, probe};
use oracle::scoring::Feature;
use std::sync::Arc;

/// Peptides that have a decoy flag each, and the proteins of `peptide.protein` pairs in their order. No name holds a blank.
fn database(decoys: &str, pairs: &str, tag: &str, generate: bool) -> IndexedDatabase {
    let peptide = |c: u8| Peptide { decoy: c == b'1', ..Default::default() };
    let mut db = IndexedDatabase {
        peptides: text(decoys).bytes().map(peptide).collect(),
        decoy_tag: tag.into(),
        generate_decoys: generate,
        ..Default::default()
    };
    for (peptide, protein) in list(pairs, ' ').into_iter().map(two) {
        db.peptides[number::<usize>(peptide)].proteins.push(Arc::from(protein));
    }
    db
}

fn numbers(field: &str) -> Vec<u32> {
    list(field, ',').into_iter().map(number).collect()
}

fn write_members(group: &[probe::Member]) -> String {
    join(group.iter().map(|(ix, name, decoy)| format!("{ix}.{name}.{}", *decoy as u8)), ",")
}

pub fn group(f: &[&str]) -> String {
    let (edges, groups, metas) = probe::build(&database(f[0], f[1], "", false), &numbers(f[2]));
    let edges = or_dash(join(edges.iter().map(|(g, m)| format!("{g}.{m}")), ";"));
    let members = or_dash(join(groups.iter().map(|g| write_members(g)), ";"));
    format!("{edges} | {members} | {metas}")
}

pub fn cover(f: &[&str]) -> String {
    let edge = |item: &str| {
        let (group, meta) = two(item);
        (number(group), number(meta))
    };
    let edges = list(f[2], ';').into_iter().map(edge).collect();
    let marks = probe::cover(edges, number(f[0]), number(f[1]));
    or_dash(marks.iter().map(|mark| if *mark { '1' } else { '0' }).collect())
}

/// `group.decoy.name`: a name may hold dots.
fn read_member(item: &str) -> (u32, String, bool) {
    let f: Vec<&str> = item.splitn(3, '.').collect();
    (number(f[0]), f[2].to_string(), flag(f[1]))
}

/// The original makes a line here, no count: that is made of the line by the formula of `annotate_features`, which `annotate` runs.
pub fn report(f: &[&str]) -> String {
    let db = database("-", "-", text(f[4]), flag(f[5]));
    let members: Vec<_> = list(f[0], ' ').into_iter().map(read_member).collect();
    let marks: Vec<bool> = text(f[1]).bytes().map(|mark| mark == b'1').collect();
    let peptide = Peptide {
        decoy: flag(f[3]),
        proteins: list(f[2], ' ').into_iter().map(Arc::from).collect(),
        ..Default::default()
    };
    match probe::report(&db, &members, &marks, &peptide) {
        Some(line) => format!("{} {line}", line.matches(';').count() + 1),
        None => "0 -".into(),
    }
}

pub fn lines(f: &[&str]) -> String {
    let db = database(f[0], f[1], text(f[3]), flag(f[4]));
    let lines = probe::lines(&db, &numbers(f[2]));
    or_dash(join(lines.into_iter().map(|line| line.unwrap_or("-".into())), " "))
}

/// `peptide.label.qbits`
fn read_row(item: &str) -> Feature {
    let f = list(item, '.');
    Feature {
        peptide_idx: PeptideIx(number(f[0])),
        label: number(f[1]),
        peptide_q: float(f[2]),
        ..Default::default()
    }
}

pub fn annotate(f: &[&str]) -> String {
    let db = database(f[0], f[1], text(f[4]), flag(f[5]));
    let mut rows: Vec<Feature> = list(f[2], ';').into_iter().map(read_row).collect();
    let threshold = (f[3] != "-").then(|| float(f[3]));
    generate_protein_groups(&db, &mut rows, flag(f[6]), threshold);
    let written = rows.into_iter().map(|row| {
        let line = row.protein_groups.unwrap();
        format!("{}:{line}", row.num_protein_groups)
    });
    or_dash(join(written, " "))
}

pub fn fasta(f: &[&str]) -> String {
    let Ok(contents) = String::from_utf8(unhex(f[0])) else {
        return "NOTUTF8".into();
    };
    // No name holds this tag: no entry is taken for a decoy.
    let fasta = Fasta::parse(contents, "\u{1}", false);
    let written = fasta.targets.iter().map(|(name, s)| format!("{name}={}", hex(s.as_bytes())));
    or_dash(join(written, " "))
}
