//! Document 01's "Peptides and their forms" as plain Rust. It walks every choice of sites, as the original does.
use crate::answer::*;
use crate::model::{self, Record, NO_LIMIT, RECORD};
use crate::peptide_letters::wrong_size;
use crate::room;
use crate::small_letters::Lettered;

/// The bytes of a form, and the most that a list has.
pub const FORM: usize = 66;
pub const MOST_FORMS: usize = 1_048_576;
pub const NO_CAP: u32 = u32::MAX;

const N_TERMINAL: u8 = 0;
const C_TERMINAL: u8 = 1;
const FULL: u8 = 2;

#[derive(Clone, Debug, PartialEq)]
pub struct Call {
    pub letters: Vec<u8>,
    pub ids: Vec<u8>,
    pub nterm: u8,
    pub cterm: u8,
    pub position: u8,
    pub variable: Vec<u8>,
    pub fixed: Vec<u8>,
    pub limit: u32,
    pub cap: u32,
}

impl Lettered for Call {
    fn letters(&mut self) -> &mut [u8] {
        &mut self.letters
    }
}

pub type Form = [u8; FORM];

/// A slot that a rule hits: 0 the N terminus, 1 the C terminus, then the residues.
#[derive(Clone, Copy, Debug)]
pub struct Site {
    slot: usize,
    rule: usize,
    id: u8,
}

pub fn records(rules: &[u8]) -> Vec<Record> {
    rules.chunks(RECORD).map(|bytes| model::record_of(bytes).expect("a rule record")).collect()
}

/// Whether a residue reads as the letter of a rule.
fn is_at(call: &Call, residue: usize, letter: u8) -> bool {
    model::capital(call.letters[residue]) == letter
}

fn terminal(letter: u8, bare: usize, residue: usize, call: &Call) -> Vec<usize> {
    match letter {
        0 => vec![bare],
        _ if is_at(call, residue, letter) => vec![2 + residue],
        _ => vec![],
    }
}

/// The slots that a rule hits, ascending.
fn hits(call: &Call, record: Record) -> Vec<usize> {
    let letter = record.rule.letter as u8;
    let first = || terminal(letter, 0, 0, call);
    let last = || terminal(letter, 1, call.letters.len() - 1, call);
    match record.rule.kind {
        0 => (0..call.letters.len()).filter(|at| is_at(call, *at, letter)).map(|at| 2 + at).collect(),
        1 => first(),
        2 => last(),
        3 if [N_TERMINAL, FULL].contains(&call.position) => first(),
        4 if [C_TERMINAL, FULL].contains(&call.position) => last(),
        _ => vec![],
    }
}

/// The sites of some rules of a call: rules in order, each rule's sites ascending.
pub fn sites(call: &Call, rules: &[u8]) -> Vec<Site> {
    let of = |(rule, record): (usize, Record)| {
        hits(call, record).into_iter().map(move |slot| Site { slot, rule, id: record.id as u8 })
    };
    records(rules).into_iter().enumerate().flat_map(of).collect()
}

/// No slot is used twice, and no rule more often than its own limit.
fn passes(choice: &[Site], rules: &[Record]) -> bool {
    choice.iter().enumerate().all(|(at, site)| {
        let limit = rules[site.rule].limit;
        let uses = choice.iter().filter(|other| other.rule == site.rule).count();
        choice[..at].iter().all(|other| other.slot != site.slot)
            && (limit == NO_LIMIT || uses <= limit as usize)
    })
}

/// Hands on each choice of so many more sites, in lexicographic order, until it is told to stop.
fn walk(
    sites: &[Site],
    more: usize,
    choice: &mut Vec<Site>,
    go_on: &mut impl FnMut(&[Site]) -> bool,
) -> bool {
    if more == 0 {
        return go_on(choice);
    }
    (0..sites.len()).all(|at| {
        choice.push(sites[at]);
        let on = walk(&sites[at + 1..], more - 1, choice, go_on);
        choice.pop();
        on
    })
}

/// A filled slot is never overwritten.
fn fill(form: &mut Form, sites: &[Site]) {
    for site in sites {
        if form[site.slot] == 0 {
            form[site.slot] = site.id;
        }
    }
}

fn unchanged(call: &Call) -> Form {
    let mut form = [0; FORM];
    form[0] = call.nterm;
    form[1] = call.cterm;
    form[2..2 + call.ids.len()].copy_from_slice(&call.ids);
    form
}

/// The forms of a call that is not refused; of a list that is longer than any may be, one more than that.
pub fn list(call: &Call) -> Vec<Form> {
    let (sites, fixed) = (sites(call, &call.variable), self::sites(call, &call.fixed));
    let rules = records(&call.variable);
    let bare = unchanged(call);
    let mut forms = vec![bare];
    let mut go_on = |choice: &[Site]| {
        if !passes(choice, &rules) {
            return true;
        }
        if call.cap != NO_CAP && forms.len() >= call.cap as usize || forms.len() > MOST_FORMS {
            return false;
        }
        let mut form = bare;
        fill(&mut form, choice);
        forms.push(form);
        true
    };
    let _ = (1..=call.limit as usize).all(|size| walk(&sites, size, &mut vec![], &mut go_on));
    forms.iter_mut().for_each(|form| fill(form, &fixed));
    forms
}

pub fn test(call: &Call) -> Answer<()> {
    let Call { letters, ids, variable, fixed, .. } = call;
    let many = |rules: &[u8], most: usize| rules.len() / RECORD > most;
    if wrong_size(letters) || many(variable, 16) || many(fixed, 32) || call.limit > 8 {
        return refuse(SIZE, 0);
    }
    if ids.len() != letters.len() || variable.len() % RECORD != 0 || fixed.len() % RECORD != 0 {
        return refuse(LENGTH, 0);
    }
    model::letters_test(letters)?;
    if call.position > 3 {
        return refuse(FIELD, 0);
    }
    model::variable_rules_test(variable)?;
    model::fixed_rules_test(fixed)
}

/// That these forms are the answer.
pub fn listed(forms: &[Form], out: &[u8]) -> Filled<u32> {
    room::filled(forms, FORM, MOST_FORMS, out)
}

/// The answer is the number of forms.
pub fn forms(call: &Call, out: &[u8]) -> Filled<u32> {
    match test(call) {
        Ok(()) => listed(&list(call), out),
        Err(refusal) => Filled { answer: Err(refusal), buffer: out.to_vec() },
    }
}
