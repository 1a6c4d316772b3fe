//! SITES, DIGEST, GROUPD and REVD: enzyme.rs.
use crate::fields::*;
use oracle::enzyme::{group_digests, probe, Digest, DigestGroup, Enzyme, EnzymeParameters};
use std::cell::RefCell;
use std::collections::HashMap;
use std::rc::Rc;
use std::sync::Arc;

/// The enzyme's fields: kind, cleave, skip, side, semi, missed, min, max.
fn read_parameters(f: &[&str]) -> EnzymeParameters {
    let cleave = match f[0] {
        "none" => "",
        "end" => "$",
        _ => text(f[1]),
    };
    EnzymeParameters {
        missed_cleavages: number(f[5]),
        min_len: number(f[6]),
        max_len: number(f[7]),
        enzyme: Enzyme::new(cleave, text(f[2]), f[3] == "C", flag(f[4])),
    }
}

/// The parameters of the fields. Those of the line before are kept: making a regular expression takes longer than most
/// digestions.
fn parameters(f: &[&str]) -> Rc<EnzymeParameters> {
    thread_local!(static LAST: RefCell<Option<(String, Rc<EnzymeParameters>)>> = const { RefCell::new(None) });
    let fields = f.join("\t");
    let known = |(last, parameters): &(String, Rc<_>)| (*last == fields).then(|| Rc::clone(parameters));
    if let Some(parameters) = LAST.with_borrow(|last| last.as_ref().and_then(known)) {
        return parameters;
    }
    let parameters = Rc::new(read_parameters(f));
    LAST.set(Some((fields, Rc::clone(&parameters))));
    parameters
}

pub fn sites(f: &[&str]) -> String {
    let sites = probe::all_sites(&parameters(&f[1..]), text(f[0]));
    let written = sites.iter().map(|s| {
        let (start, end) = (s.site.start, s.site.end);
        format!("{start}.{end}.{}.{}", s.missed_cleavages, s.semi_enzymatic as u8)
    });
    or_dash(join(written, ";"))
}

/// How many different ranges of the Rust's own sites have the letters of a digest. It keeps none that is shorter or longer than its
/// parameters allow, so such ranges are equal to no digest.
fn times<'a>(parameters: &EnzymeParameters, letters: &'a str) -> HashMap<&'a str, usize> {
    let lengths = parameters.min_len..=parameters.max_len;
    let sites = probe::all_sites(parameters, letters);
    let ranges = sites.iter().map(|s| (s.site.start, s.site.end));
    let mut ranges: Vec<_> = ranges.filter(|(start, end)| lengths.contains(&(end - start))).collect();
    ranges.sort_unstable();
    ranges.dedup();
    let mut times = HashMap::new();
    for peptide in ranges.iter().filter_map(|(start, end)| letters.get(*start..*end)) {
        *times.entry(peptide).or_default() += 1;
    }
    times
}

pub fn digest(f: &[&str]) -> String {
    let parameters = parameters(&f[1..]);
    let digests = parameters.digest(text(f[0]), Arc::from("p"));
    let times = times(&parameters, text(f[0]));
    let written = digests.iter().map(|d| {
        format!(
            "{}.{}.{}.{}.{}.{}",
            d.sequence,
            d.missed_cleavages,
            d.semi_enzymatic as u8,
            position_number(d.position),
            d.decoy as u8,
            times[&*d.sequence]
        )
    });
    or_dash(join(written, ";"))
}

/// `position.decoy.letters.name.missed.semi`, the name in hexadecimal.
fn read_digest(item: &str) -> Digest {
    let f = list(item, '.');
    let name = String::from_utf8(unhex(f[3])).unwrap();
    Digest {
        position: position(f[0]),
        decoy: flag(f[1]),
        sequence: f[2].into(),
        protein: Arc::from(name),
        missed_cleavages: number(f[4]),
        semi_enzymatic: flag(f[5]),
    }
}

fn write_group(group: &DigestGroup) -> String {
    let d = &group.reference;
    format!(
        "{}.{}.{}.{}.{}.{}:{}",
        position_number(d.position),
        d.decoy as u8,
        d.sequence,
        hex(d.protein.as_bytes()),
        d.missed_cleavages,
        d.semi_enzymatic as u8,
        join(group.proteins.iter().map(|name| hex(name.as_bytes())), ",")
    )
}

pub fn group(f: &[&str]) -> String {
    let digests = list(f[0], ';').into_iter().map(read_digest).collect();
    join(group_digests(digests).iter().map(write_group), ";")
}

pub fn reverse(f: &[&str]) -> String {
    let digest = Digest { sequence: text(f[0]).into(), decoy: flag(f[1]), ..Default::default() };
    let reversed = digest.reverse();
    format!("{} {}", or_dash(reversed.sequence), reversed.decoy as u8)
}
