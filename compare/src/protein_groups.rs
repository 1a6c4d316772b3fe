//! Groups of proteins: edges and counts as the original's, members as its, sorted by their numbers.
pub mod cases;
pub mod model;
pub mod refusals;
pub mod said;
pub mod vectors;

use crate::asked::{with_larger, Asked};
use crate::calls::protein_groups as calls;
use crate::cover::model::{bytes_of, EDGE};
use crate::entry::{Against, Context, Tally};
use crate::rng::Rng;
use crate::room;
use crate::shown::{common, part};
use model::{filled, Call, Grouped, Groups, Member, MEMBER};
use said::{ask, ask_of_all, read, with_pairs, Read, Shown};

const UNSORTED: &str = "where members stand by their numbers (the Rust: in hash order)";
const PAIRLESS: &str = "with a peptide without a pair (no meta-peptide, the Rust makes one)";

/// What is shown of two outcomes that differ: their answers, and the first records in which they do.
fn shown(mut ours: Grouped, wanted: &Grouped) -> (Grouped, Grouped) {
    let mut wanted = wanted.clone();
    let edge = common(&ours.edges, &wanted.edges) / EDGE * EDGE;
    let member = common(&ours.members, &wanted.members) / MEMBER * MEMBER;
    for outcome in [&mut ours, &mut wanted] {
        outcome.edges = part(&outcome.edges, edge, 2 * EDGE);
        outcome.members = part(&outcome.members, member, 2 * MEMBER);
    }
    (ours, wanted)
}

/// Holds one call against what its answer and its lists have to be.
fn hold(tally: &mut Tally, call: &Call, edges: &[u8], members: &[u8], wanted: &Grouped) {
    let ours = calls::group_proteins(call, edges, members);
    tally.case_in_part(&(call, edges.len(), members.len()), ours, wanted, shown);
}

/// Bytes for edges and members: enough, or too few of one or of both.
fn rooms(rng: &mut Rng, groups: &Groups, short: bool) -> (Vec<u8>, Vec<u8>) {
    let (edges, members) = (groups.edges.len(), groups.members.len());
    let (few_edges, few_members) = room::either(rng, short && edges > 0);
    let edges = room::len(rng, edges, EDGE, few_edges);
    let members = room::len(rng, members, MEMBER, few_members);
    (rng.bytes(edges), rng.bytes(members))
}

pub fn call(rng: &mut Rng, (pairs, flags, proteins): &Shown) -> Call {
    let work = cases::work(rng, flags.len(), *proteins, pairs.len());
    let (pairs, peptides) = (bytes_of(pairs), flags.len());
    Call { pairs, flags: flags.clone(), peptides, proteins: *proteins, work }
}

/// Holds a call with room and, once in four times, one without enough.
fn hold_with_rooms(tally: &mut Tally, rng: &mut Rng, shown: &Shown, groups: &Groups) {
    let call = call(rng, shown);
    for short in room::turns(rng, 4) {
        let (edges, members) = rooms(rng, groups, *short);
        hold(tally, &call, &edges, &members, &filled(groups, &edges, &members));
    }
}

fn hold_to_rust(tally: &mut Tally, rng: &mut Rng, shown: &Shown, answer: String) {
    let Read { groups, unsorted } = read(&answer);
    hold_with_rooms(tally, rng, shown, &groups);
    if unsorted {
        tally.intended(UNSORTED);
    }
}

const LISTS: Asked<Shown> = Asked {
    ask: |context, lists| ask(&context.oracle, lists),
    hold: hold_to_rust,
    rooms: "protein groups, rooms",
};

pub fn small_lists(context: &Context) -> Tally {
    LISTS.entry(context, "protein groups: small lists").made(|_| cases::exhaustive())
}

pub fn random_lists(context: &Context) -> Tally {
    LISTS.entry(context, "protein groups: random lists").drawn(250_000, cases::random)
}

pub fn larger_lists(context: &Context) -> Tally {
    LISTS.entry(context, "protein groups: larger lists").drawn(15_000, cases::larger)
}

pub fn long_lists(context: &Context) -> Tally {
    LISTS.entry(context, "protein groups: long lists").made(|mut rng| cases::long(&mut rng))
}

pub fn greatest_lists(context: &Context) -> Tally {
    LISTS.entry(context, "protein groups: the most").one_by_one(|mut rng| cases::greatest(&mut rng))
}

pub fn model_lists(context: &Context) -> Tally {
    let lists = |rng| with_larger(rng, 60_000, 30, cases::larger, cases::random);
    LISTS.entry(context, "model: protein groups").model(lists, |tally, shown, answer| {
        let (pairs, flags, _) = shown;
        tally.case(shown, &Ok(model::groups(pairs, flags)), &read(&answer).groups);
    })
}

/// Where all peptides take part, the original's first meta-peptide is that of the peptides without a pair.
pub fn without_pairs(context: &Context) -> Tally {
    let mut tally = Tally::new("protein groups: without a pair", Against::Model);
    let rng = &mut context.rng("protein groups, without a pair");
    let pairless = |(pairs, flags, _): &Shown| with_pairs(pairs, flags).len() < flags.len();
    let all: Vec<Shown> = (0..10_000).map(|_| cases::random(rng)).filter(pairless).collect();
    for (shown, answer) in all.iter().zip(ask_of_all(&context.oracle, &all)) {
        let groups = model::groups(&shown.0, &shown.1);
        hold_with_rooms(&mut tally, rng, shown, &groups);
        tally.intended(PAIRLESS);
        let shifted = groups.edges.iter().map(|(group, meta)| (*group, meta + 1)).collect();
        let theirs = Groups { edges: shifted, metas: groups.metas + 1, ..groups };
        if read(&answer).groups != theirs {
            tally.fail(shown, &format!("the Rust says {answer}"));
        }
    }
    tally
}

/// P10: pairs (1,10),(1,11),(2,10),(2,11),(3,12),(3,10): groups {11},{10},{12}.
pub fn p10() -> (Shown, Groups) {
    let pairs = vec![(1, 10), (1, 11), (2, 10), (2, 11), (3, 12), (3, 10)];
    let member = |(group, protein)| Member { group, protein, decoy: 0 };
    let members = [(0, 11), (1, 10), (2, 12)].map(member).to_vec();
    let edges = vec![(0, 0), (1, 0), (1, 1), (2, 1)];
    ((pairs, vec![0; 4], 13), Groups { edges, members, groups: 3, metas: 2 })
}

/// The original, ours and document 01 say the same.
pub fn examples(context: &Context) -> Tally {
    let mut tally = Tally::new("protein groups: P10", Against::Rust);
    let (shown, groups) = p10();
    let answer = ask(&context.oracle, [&shown]);
    tally.case(&shown, &Ok(read(&answer[0]).groups), &groups);
    hold_with_rooms(&mut tally, &mut context.rng("protein groups, P10"), &shown, &groups);
    tally
}
