//! The two sides: each lists all forms of a peptide.
use super::rows::{Rule, Rules, NO_LIMIT};
use crate::ffi::sendumaal_forms;
use oracle::enzyme::Position;
use oracle::modification::{ModId, ModificationSpecificity, Modifications};
use oracle::peptide::Peptide;
use std::hint::black_box;
use std::sync::Arc;

pub struct Rust {
    table: Modifications,
    /// `ids[k - 1]` is the id that ours calls k: the variable rules have the first ones, in order, then the fixed ones.
    ids: Vec<ModId>,
    variable: Vec<(ModificationSpecificity, ModId, Option<usize>)>,
    fixed: Vec<(ModificationSpecificity, ModId)>,
    limit: usize,
}

impl Rust {
    pub fn new(rules: &Rules) -> Rust {
        let mut table = Modifications::default();
        let count = rules.variable.len() + rules.fixed.len();
        let ids: Vec<ModId> =
            (0..count).map(|at| table.insert(16.0 + at as f32, None).expect("an id")).collect();
        let (first, second) = ids.split_at(rules.variable.len());
        let limit = |rule: &Rule| (rule.limit != NO_LIMIT).then_some(rule.limit as usize);
        let residue = ModificationSpecificity::Residue;
        let variable =
            rules.variable.iter().zip(first).map(|(rule, id)| (residue(rule.letter), *id, limit(rule)));
        let fixed = rules.fixed.iter().zip(second).map(|(letter, id)| (residue(*letter), *id));
        let (variable, fixed) = (variable.collect(), fixed.collect());
        Rust { table, ids, variable, fixed, limit: rules.limit as usize }
    }

    pub fn peptide(letters: &str) -> Peptide {
        Peptide {
            sequence: Arc::from(letters.as_bytes()),
            modifications: vec![None; letters.len()].into_boxed_slice(),
            position: Position::Internal,
            ..Default::default()
        }
    }

    pub fn forms(&self, peptide: Peptide) -> Vec<Peptide> {
        peptide.apply(&self.variable, &self.fixed, &self.table, self.limit, None)
    }

    /// Whether a form of the original is one of ours.
    pub fn is_form(&self, form: &Peptide, own: &[u8]) -> bool {
        let id = |byte: &u8| (*byte > 0).then(|| self.ids[usize::from(*byte) - 1]);
        let own: Vec<Option<ModId>> = own.iter().map(id).collect();
        let (residues, rest) = own[2..].split_at(form.modifications.len());
        own[..2] == [form.nterm, form.cterm]
            && *residues == *form.modifications
            && rest.iter().all(Option::is_none)
    }
}

const FORM: usize = 66;
const MOST_FORMS: usize = 1_048_576;
const NO_CAP: u32 = u32::MAX;
const INTERNAL: u8 = 3;
const RECORD: usize = 8;
const NO_ROOM: u32 = 11;

/// Ours writes into one buffer, which is made once and not cleared between calls.
pub struct Ours {
    out: Vec<u8>,
}

/// Rules on residues, their ids counted on from one.
fn records(rules: impl Iterator<Item = Rule>, first: usize) -> [[u8; RECORD]; 32] {
    let mut records = [[0; RECORD]; 32];
    for (at, (record, rule)) in records.iter_mut().zip(rules).enumerate() {
        let [a, b, c, d] = rule.limit.to_le_bytes();
        *record = [0, rule.letter, (first + at) as u8, 0, a, b, c, d];
    }
    records
}

impl Ours {
    /// Filled with ones: memory that is only reserved would have to be found in the time of the first call.
    pub fn new() -> Ours {
        Ours { out: vec![1; MOST_FORMS * FORM] }
    }

    /// The number of the answer, and how many forms stand in the buffer. Writing down the rules is part of the time.
    pub fn list(&mut self, rules: &Rules, letters: &str) -> (u32, usize) {
        let Rules { variable, fixed, limit } = rules;
        let (variable_len, fixed_len) = (variable.len() * RECORD, fixed.len() * RECORD);
        let on_letters = fixed.iter().map(|letter| Rule { letter: *letter, limit: NO_LIMIT });
        let fixed = records(on_letters, 1 + variable.len());
        let variable = records(variable.iter().copied(), 1);
        let (letters, ids) = (black_box(letters), [0; 64]);
        let (mut count, mut place) = (0, 0);
        #[rustfmt::skip]
        let number = unsafe {
            sendumaal_forms(
                letters.as_ptr(), letters.len(), ids.as_ptr(), letters.len(), 0, 0, INTERNAL,
                variable.as_ptr().cast(), variable_len, fixed.as_ptr().cast(), fixed_len,
                *limit, NO_CAP, self.out.as_mut_ptr(), self.out.len(), &mut count, &mut place,
            )
        };
        assert!([0, NO_ROOM].contains(&number), "ours refuses with {number}");
        black_box(&self.out);
        (number, if number == NO_ROOM { MOST_FORMS } else { count as usize })
    }

    /// What stands in the buffer.
    pub fn forms(&self) -> impl Iterator<Item = &[u8]> {
        self.out.chunks(FORM)
    }
}
