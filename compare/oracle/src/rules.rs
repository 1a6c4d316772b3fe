//! PARSE, WRITE and MODS: modification.rs.
use crate::fields::*;
use oracle::modification::{
    InvalidModification, ModId, ModName, Modification, ModificationSpecificity, Modifications,
};

pub fn specificity(kind: u8, letter: u8) -> ModificationSpecificity {
    use ModificationSpecificity::*;
    let option = (letter != 0).then_some(letter);
    match kind {
        0 => Residue(letter),
        1 => PeptideN(option),
        2 => PeptideC(option),
        3 => ProteinN(option),
        4 => ProteinC(option),
        _ => panic!("kind {kind}"),
    }
}

fn kind_and_letter(specificity: ModificationSpecificity) -> (u8, u8) {
    use ModificationSpecificity::*;
    match specificity {
        Residue(letter) => (0, letter),
        PeptideN(option) => (1, option.unwrap_or(0)),
        PeptideC(option) => (2, option.unwrap_or(0)),
        ProteinN(option) => (3, option.unwrap_or(0)),
        ProteinC(option) => (4, option.unwrap_or(0)),
    }
}

pub fn parse(f: &[&str]) -> String {
    let Ok(text) = String::from_utf8(unhex(f[0])) else {
        return "NOTUTF8".into();
    };
    match text.parse::<ModificationSpecificity>() {
        Ok(rule) => {
            let (kind, letter) = kind_and_letter(rule);
            format!("{kind} {letter} {}", hex(rule.to_string().as_bytes()))
        }
        Err(InvalidModification::Empty) => "E4".into(),
        Err(InvalidModification::InvalidResidue(c)) => format!("E5 {}", c as u32),
        Err(InvalidModification::TooLong(_)) => "E6".into(),
    }
}

pub fn write(f: &[&str]) -> String {
    hex(specificity(number(f[0]), number(f[1])).to_string().as_bytes())
}

/// A modification is `massbits.name`; no name is `~`.
pub fn modification(item: &str) -> (f32, Option<ModName>) {
    let (mass, name) = two(item);
    (float(mass), (name != "~").then(|| name.parse().unwrap()))
}

fn write_modification(entry: &Modification) -> String {
    let name = entry.name.as_ref().map_or("~", ModName::as_str);
    format!("{}.{name}", bits(entry.mass))
}

/// An id's number is private; what it prints for debugging is not.
pub fn id_number(id: ModId) -> u8 {
    let shown = format!("{id:?}");
    number(shown.trim_start_matches("ModId(").trim_end_matches(')'))
}

pub fn insertions(f: &[&str]) -> String {
    let mut table = Modifications::default();
    let mut answers = Vec::new();
    for item in list(f[0], ';') {
        let (mass, name) = modification(item);
        answers.push(match table.insert(mass, name.as_ref()) {
            Ok(id) => id_number(id).to_string(),
            Err(_) => "E7".into(),
        });
    }
    let entries = join(table.iter().map(write_modification), ";");
    format!("{} {}", or_dash(answers.join(",")), or_dash(entries))
}
