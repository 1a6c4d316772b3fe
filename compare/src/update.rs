//! The update of marks: each part that is touched against the original's cover of that part alone, marks of other parts
//! against the given ones.
pub mod cases;
pub mod model;
pub mod refusals;
pub mod vectors;

use crate::asked::{with_larger, Asked};
use crate::calls::cover as calls;
use crate::cover::cases::work;
use crate::cover::hold;
use crate::cover::model::{bytes_of, filled, Edge, MOST_GROUPS};
use crate::cover::said::{ask, read, Graph};
use crate::entry::{Against, Context, Tally};
use crate::rng::Rng;
use crate::room;
use cases::Change;
use model::{mixed, parts, touched, Call};
use std::collections::BTreeSet;

/// What the original is asked of a change: the cover of the new edges, and that of each touched part alone.
fn graphs(change: &Change, touched: &[bool]) -> Vec<Graph> {
    let Change { old, new, groups, metas, .. } = change;
    let part = parts(&[&old[..], new].concat(), *groups, *metas);
    let touched_parts: BTreeSet<usize> =
        part.iter().zip(touched).filter(|(_, touched)| **touched).map(|(part, _)| *part).collect();
    let alone = |number: &usize| {
        let edges = new.iter().filter(|(group, _)| part[*group as usize] == *number).copied().collect();
        (edges, *groups, *metas)
    };
    std::iter::once((new.clone(), *groups, *metas)).chain(touched_parts.iter().map(alone)).collect()
}

/// The marks that are set in any of some covers of parts.
fn joined(groups: usize, covers: &[Vec<u8>]) -> Vec<u8> {
    (0..groups).map(|group| covers.iter().fold(0, |mark, cover| mark | cover[group])).collect()
}

/// The marks after each change: those of the touched parts by the original's cover of these alone, and by its cover of all
/// new edges.
fn marks_of(context: &Context, changes: &[Change]) -> Vec<[Vec<u8>; 2]> {
    let touched: Vec<Vec<bool>> = changes
        .iter()
        .map(|Change { old, new, groups, metas, .. }| touched(old, new, *groups, *metas))
        .collect();
    let asked: Vec<Vec<Graph>> =
        changes.iter().zip(&touched).map(|(change, touched)| graphs(change, touched)).collect();
    let mut answers = ask(&context.oracle, asked.iter().flatten()).into_iter();
    let mut of = |((change, touched), asked): ((&Change, &Vec<bool>), &Vec<Graph>)| {
        let covers: Vec<Vec<u8>> = answers.by_ref().take(asked.len()).map(|answer| read(&answer)).collect();
        let alone = joined(change.groups, &covers[1..]);
        [alone, covers[0].clone()].map(|cover| mixed(touched, &cover, &change.given))
    };
    changes.iter().zip(&touched).zip(&asked).map(&mut of).collect()
}

pub fn call(rng: &mut Rng, change: &Change) -> Call {
    let Change { old, new, groups, metas, given } = change;
    let work = work(rng, *groups, *metas, old.len() + new.len());
    let (old_edges, new_edges) = (bytes_of(old), bytes_of(new));
    Call { old_edges, new_edges, groups: *groups, metas: *metas, given: given.clone(), work }
}

/// Holds a call with room and, once in four times, one without enough.
fn hold_with_rooms(tally: &mut Tally, rng: &mut Rng, change: &Change, marks: &[u8]) {
    let call = call(rng, change);
    for out in room::for_bytes(rng, call.groups, 4) {
        hold(tally, &(&call, out.len()), calls::update(&call, &out), &filled(marks, &out));
    }
}

fn hold_to_rust(tally: &mut Tally, rng: &mut Rng, change: &Change, [alone, whole]: [Vec<u8>; 2]) {
    hold_with_rooms(tally, rng, change, &alone);
    if alone != whole {
        tally.fail(change, "the Rust covers a part alone otherwise than among all");
    }
}

const CHANGES: Asked<Change, [Vec<u8>; 2]> =
    Asked { ask: marks_of, hold: hold_to_rust, rooms: "update, rooms" };

pub fn small_changes(context: &Context) -> Tally {
    CHANGES.entry(context, "update: small changes").made(|_| cases::exhaustive())
}

pub fn random_changes(context: &Context) -> Tally {
    CHANGES.entry(context, "update: random changes").drawn(240_000, cases::random)
}

pub fn larger_changes(context: &Context) -> Tally {
    CHANGES.entry(context, "update: larger changes").drawn(15_000, cases::larger)
}

/// One path through all groups, and many paths of which one is touched.
pub fn greatest_changes(context: &Context) -> Tally {
    let lengths = [MOST_GROUPS, MOST_GROUPS / 2, 1000].into_iter();
    CHANGES
        .entry(context, "update: the most")
        .one_by_one(|mut rng| lengths.map(move |length| cases::along_paths(&mut rng, length)))
}

/// P11: old (0,0),(1,0),(2,1),(3,1), new adds (0,2). Marks 0101 become 1001; marks 0110 become 1010.
fn p11() -> [(Change, Vec<u8>); 2] {
    let old: Vec<Edge> = vec![(0, 0), (1, 0), (2, 1), (3, 1)];
    let new = [&old[..], &[(0, 2)]].concat();
    let case = |given: [u8; 4], marks: [u8; 4]| {
        let (old, new) = (old.clone(), new.clone());
        (Change { old, new, groups: 4, metas: 3, given: given.to_vec() }, marks.to_vec())
    };
    [case([0, 1, 0, 1], [1, 0, 0, 1]), case([0, 1, 1, 0], [1, 0, 1, 0])]
}

/// The original's covers, ours and document 01 say the same.
pub fn examples(context: &Context) -> Tally {
    let mut tally = Tally::new("update: P11", Against::Rust);
    let rng = &mut context.rng("update, P11");
    for (change, marks) in p11() {
        for said in &marks_of(context, std::slice::from_ref(&change))[0] {
            tally.case(&change, &Ok(said), &&marks);
        }
        hold_with_rooms(&mut tally, rng, &change, &marks);
    }
    tally
}

/// The model, of which the entries above take which groups are touched, holds on its own too.
pub fn model_marks(context: &Context) -> Tally {
    let changes = |rng| with_larger(rng, 60_000, 30, cases::larger, cases::random);
    CHANGES.entry(context, "model: update").model(changes, |tally, change, [alone, _]| {
        let Change { old, new, groups, metas, given } = change;
        tally.case(change, &Ok(model::marks(old, new, *groups, *metas, given)), &alone);
    })
}
