//! MASS, SETMASS, APPLY, REVP and DISPLAY: peptide.rs.
use crate::fields::*;
use crate::rules::{id_number, modification, specificity};
use oracle::enzyme::{Digest, Position};
use oracle::modification::{ModId, ModificationSpecificity, Modifications};
use oracle::peptide::Peptide;
use std::sync::{Arc, OnceLock};

/// A table and its ids: `ids[k - 1]` is the id that the protocol calls k.
struct Registry {
    table: Modifications,
    ids: Vec<ModId>,
}

impl Registry {
    /// All 255 ids, for calls that ask for no name; made once, as filling it takes longer than most calls.
    fn full() -> &'static Registry {
        static FULL: OnceLock<Registry> = OnceLock::new();
        FULL.get_or_init(|| {
            let mut table = Modifications::default();
            let ids = (1..=255u8).map(|k| table.insert(k as f32, None).unwrap()).collect();
            Registry { table, ids }
        })
    }

    fn of(items: &[&str]) -> Registry {
        let mut table = Modifications::default();
        let insert = |item: &&str| {
            let (mass, name) = modification(item);
            table.insert(mass, name.as_ref()).unwrap()
        };
        let ids = items.iter().map(insert).collect();
        Registry { table, ids }
    }

    fn id(&self, number: u8) -> Option<ModId> {
        (number != 0).then(|| self.ids[number as usize - 1])
    }

    /// Of the fields letters, N-terminal id, C-terminal id, residue ids.
    fn peptide(&self, letters: &str, ids: &[&str], decoy: bool, position: Position) -> Peptide {
        let sequence = text(letters);
        let mut modifications: Vec<_> = unhex(ids[2]).iter().map(|&k| self.id(k)).collect();
        modifications.resize(sequence.len(), None);
        Peptide {
            decoy,
            sequence: Arc::from(sequence.as_bytes()),
            modifications: modifications.into_boxed_slice(),
            nterm: self.id(number(ids[0])),
            cterm: self.id(number(ids[1])),
            monoisotopic: 0.0,
            missed_cleavages: 0,
            semi_enzymatic: false,
            position,
            proteins: vec![],
        }
    }
}

/// The form as bytes: N-terminal id, C-terminal id, residue ids; 0 is none.
fn form(peptide: &Peptide) -> String {
    let slot = |id: &Option<ModId>| id.map_or(0, id_number);
    let mut bytes = vec![slot(&peptide.nterm), slot(&peptide.cterm)];
    bytes.extend(peptide.modifications.iter().map(slot));
    hex(&bytes)
}

#[cfg(feature = "altmass")]
pub fn set_masses(f: &[&str]) -> String {
    for (mass, item) in oracle::mass::MASSES.iter().zip(f[0].split(',')) {
        mass.store(float(item).to_bits(), std::sync::atomic::Ordering::Relaxed);
    }
    "ok".into()
}

pub fn mass(f: &[&str]) -> String {
    let digest = Digest { sequence: text(f[0]).into(), ..Default::default() };
    match Peptide::try_from(digest) {
        Ok(peptide) => bits(peptide.monoisotopic),
        Err(_) => "E2".into(),
    }
}

/// `kind.letter.id.limit`; no limit is `~`.
fn rule(item: &str, registry: &Registry) -> (ModificationSpecificity, ModId, Option<usize>) {
    let f = list(item, '.');
    let limit = (f[3] != "~").then(|| number(f[3]));
    (specificity(number(f[0]), number(f[1])), registry.id(number(f[2])).unwrap(), limit)
}

pub fn apply(f: &[&str]) -> String {
    let registry = Registry::full();
    let peptide = registry.peptide(f[0], &f[2..5], false, position(f[1]));
    let variable: Vec<_> = list(f[5], ';').iter().map(|item| rule(item, registry)).collect();
    let fixed: Vec<_> = list(f[6], ';')
        .iter()
        .map(|item| rule(item, registry))
        .map(|(specificity, id, _)| (specificity, id))
        .collect();
    let cap = (f[8] != "-").then(|| number(f[8]));
    let forms = peptide.apply(&variable, &fixed, &registry.table, number(f[7]), cap);
    join(forms.iter().map(form), ";")
}

pub fn reverse(f: &[&str]) -> String {
    let peptide = Registry::full().peptide(f[0], &f[2..5], flag(f[1]), Position::Full).reverse();
    let letters = String::from_utf8(peptide.sequence.to_vec()).unwrap();
    format!("{} {} {}", or_dash(letters), peptide.decoy as u8, form(&peptide))
}

pub fn display(f: &[&str]) -> String {
    let registry = Registry::of(&list(f[4], ';'));
    let peptide = registry.peptide(f[0], &f[1..4], false, Position::Full);
    peptide.display(&registry.table).to_string()
}
