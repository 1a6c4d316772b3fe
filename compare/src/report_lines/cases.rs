//! The catalogues, members and protein lists that are tried.
use super::model::{Call, MOST_LIST, MOST_MARKS, MOST_TAG};
use crate::digest_groups::cases::{name, padded};
use crate::digest_groups::model::{self, MOST_NAMES, NAME};
use crate::protein_groups::model::{Member, MOST_MEMBERS};
use crate::rng::Rng;
use std::collections::HashSet;

pub fn any_visible(rng: &mut Rng, len: usize) -> Vec<u8> {
    (0..len).map(|_| 33 + rng.below(94) as u8).collect()
}

/// None, usual ones, single bytes around `/` and `;`, the longest.
pub fn tag(rng: &mut Rng) -> Vec<u8> {
    let single = rng.pick(b"!./0:;<A-~");
    match rng.below(8) {
        0 => vec![],
        1 | 2 => b"rev_".to_vec(),
        3 | 4 => vec![single],
        5 => b"A/".to_vec(),
        6 => any_visible(rng, MOST_TAG),
        _ => {
            let len = 1 + rng.below(MOST_TAG);
            any_visible(rng, len)
        }
    }
}

/// Bytes below and above the two that join, names that an earlier one begins or that begin with it, and such that are the tag and
/// an earlier one.
fn tricky_name(rng: &mut Rng, tag: &[u8], earlier: &[Vec<u8>]) -> Vec<u8> {
    let len = 1 + rng.below(4);
    if earlier.is_empty() || rng.once_in(3) {
        return match rng.below(4) {
            0 => (0..len).map(|_| rng.pick(b"AB")).collect(),
            1 => (0..len).map(|_| rng.pick(b"A/;")).collect(),
            2 => (0..len).map(|_| rng.pick(b"!.-,A/0:;<~")).collect(),
            _ => model::name(&name(rng)).to_vec(),
        };
    }
    let base = &earlier[rng.below(earlier.len())];
    let any = rng.pick(b"!./0;:AB~");
    match rng.below(3) {
        0 => [tag, base].concat(),
        1 => [&base[..], &[any]].concat(),
        _ => base[..1 + rng.below(base.len())].to_vec(),
    }
}

/// So many names, all different, in no order; none is just `-` where the original writes that for no line.
pub fn catalogue(rng: &mut Rng, count: usize, tag: &[u8], dash: bool) -> Vec<u8> {
    let mut known = HashSet::new();
    let mut names: Vec<Vec<u8>> = Vec::new();
    while names.len() < count {
        let name = tricky_name(rng, tag, &names);
        let wanted = name.len() <= NAME && (dash || name != b"-");
        if wanted && known.insert(name.clone()) {
            names.push(name);
        }
    }
    names.iter().flat_map(|name| padded(name)).collect()
}

fn bytes_of(members: &[Member]) -> Vec<u8> {
    members.iter().flat_map(Member::bytes).collect()
}

/// Members in any order: flags mixed or not, proteins in several groups or twice in one.
fn members(rng: &mut Rng, count: usize, groups: usize, names: usize) -> Vec<Member> {
    if groups == 0 || names == 0 {
        return vec![];
    }
    let flags: &[u8] = rng.pick(&[&[0][..], &[1], &[0, 1], &[0, 1], &[0, 0, 0, 1]]);
    let any = |rng: &mut Rng| {
        let (group, protein) = (rng.below(groups) as u32, rng.below(names) as u32);
        Member { group, protein, decoy: rng.pick(flags) }
    };
    let mut members: Vec<Member> = (0..count).map(|_| any(rng)).collect();
    if rng.once_in(2) {
        members.sort_by_key(|member| member.group);
    }
    if !members.is_empty() && rng.once_in(4) {
        members.push(members[rng.below(members.len())]);
    }
    members
}

/// A group's members behind another's, so that both have the same.
fn doubled(rng: &mut Rng, members: &mut Vec<Member>, groups: usize) {
    let [from, to] = [rng.below(groups) as u32, rng.below(groups) as u32];
    let of_one: Vec<Member> = members.iter().filter(|member| member.group == from).copied().collect();
    members.retain(|member| member.group != to || from == to);
    if from != to {
        members.extend(of_one.into_iter().map(|member| Member { group: to, ..member }));
    }
}

/// At most so many names, groups and members, and proteins of the list.
fn of_sizes(rng: &mut Rng, [names, groups, members, list]: [usize; 4]) -> Call {
    let tag = tag(rng);
    let mut all = self::members(rng, members, groups, names);
    if groups > 1 && rng.once_in(12) {
        doubled(rng, &mut all, groups);
    }
    let marks = match rng.below(3) {
        0 => vec![1; groups],
        _ => (0..groups).map(|_| rng.below(2) as u8).collect(),
    };
    let list = if names == 0 { 0 } else { list };
    Call {
        names: catalogue(rng, names, &tag, true),
        members: bytes_of(&all),
        marks,
        proteins: (0..list).map(|_| rng.below(names) as u32).collect(),
        decoy: rng.below(2) as u32,
        tag,
        generated: rng.below(2) as u32,
    }
}

pub fn random(rng: &mut Rng) -> Call {
    let most = rng.pick(&[2, 4, 6]);
    let some = |rng: &mut Rng, most: usize| if rng.once_in(30) { 0 } else { 1 + rng.below(most) };
    let sizes = [some(rng, most), some(rng, most), some(rng, 3 * most), some(rng, 4)];
    of_sizes(rng, sizes)
}

pub fn larger(rng: &mut Rng) -> Call {
    let sizes = [1 + rng.below(60), 1 + rng.below(60), rng.below(200), rng.below(30)];
    of_sizes(rng, sizes)
}

/// One of names, groups and members at a number around which more memory is taken, the others few.
pub fn around(rng: &mut Rng, most: usize) -> Call {
    let exact = most + rng.below(3) - 1;
    let mut sizes = [40, 30, 100, 30].map(|few| 1 + rng.below(few));
    sizes[rng.below(3)] = exact;
    sizes[0] = sizes[0].min(MOST_NAMES);
    of_sizes(rng, sizes)
}

/// All small ones: two names, of which one is the tag and the other, or which hold what joins; up to three members of two groups.
pub fn exhaustive() -> Vec<Call> {
    let of_bits = |bits: u32| Member { group: bits & 1, protein: bits >> 1 & 1, decoy: (bits >> 2) as u8 };
    let mut lists: Vec<Vec<Member>> = vec![vec![]];
    for many in 0..3 {
        let last: Vec<Vec<Member>> = lists.iter().filter(|list| list.len() == many).cloned().collect();
        for list in last {
            lists.extend((0..8).map(|bits| [&list[..], &[of_bits(bits)]].concat()));
        }
    }
    let mut calls = Vec::new();
    for ([first, second], tag) in [([&b"B"[..], b"AB"], &b"A"[..]), ([b"a;b", b"a"], b"a/")] {
        let names = [padded(first), padded(second)].concat();
        for members in &lists {
            for bits in 0..64_u32 {
                let proteins = (0..2).filter(|protein| bits >> protein & 1 == 1).collect();
                let marks = [2, 3].map(|bit| (bits >> bit & 1) as u8).to_vec();
                let (decoy, generated) = (bits >> 4 & 1, bits >> 5);
                let (names, members, tag) = (names.clone(), bytes_of(members), tag.to_vec());
                calls.push(Call { names, members, marks, proteins, decoy, tag, generated });
            }
        }
    }
    calls
}

/// The greatest counts: every member a group of its own, one group of all, and groups of four of which every second is marked.
pub fn greatest(rng: &mut Rng) -> Vec<Call> {
    let long = |place: usize| {
        let mut name = vec![b'x'; NAME];
        name[NAME - 5..].copy_from_slice(format!("{:05}", place * 40_503 % 65_536).as_bytes());
        padded(&name)
    };
    let names: Vec<u8> = (0..MOST_NAMES).flat_map(long).collect();
    let mut calls = Vec::new();
    for (size, step) in [(1, 1), (MOST_MEMBERS, 1), (4, 2)] {
        let member = |place: usize| {
            let (group, decoy) = ((place / size) as u32, (place % 2) as u8);
            Member { group, protein: (place / 2) as u32, decoy }
        };
        let members: Vec<Member> = (0..MOST_MEMBERS).map(member).collect();
        let marks = (0..MOST_MARKS).map(|group| u8::from(group % step == 0)).collect();
        let proteins = (0..MOST_LIST).map(|_| rng.below(MOST_NAMES) as u32).collect();
        let (members, tag) = (bytes_of(&members), b"0123456789abcdef".to_vec());
        calls.push(Call { names: names.clone(), members, marks, proteins, decoy: 1, tag, generated: 1 });
    }
    calls
}
