//! Document 01's report line, with document 02's count, as plain Rust.
use crate::answer::*;
use crate::digest_groups::model::{name, names_test, shown_names, MOST_NAMES, NAME};
use crate::protein_groups::model::{Member, MEMBER, MOST_MEMBERS};
use crate::room;
use std::fmt;

pub const MOST_MARKS: usize = 131_072;
pub const MOST_LIST: usize = 1_048_576;
pub const MOST_TAG: usize = 16;

/// A call of `report_line` but for the line.
#[derive(Clone, PartialEq)]
pub struct Call {
    pub names: Vec<u8>,
    pub members: Vec<u8>,
    pub marks: Vec<u8>,
    pub proteins: Vec<u32>,
    pub decoy: u32,
    pub tag: Vec<u8>,
    pub generated: u32,
}

impl Call {
    pub fn name(&self, protein: u32) -> &[u8] {
        name(&self.names[protein as usize * NAME..][..NAME])
    }

    pub fn members(&self) -> impl Iterator<Item = Member> + '_ {
        self.members.chunks_exact(MEMBER).map(Member::of)
    }
}

impl fmt::Debug for Call {
    fn fmt(&self, f: &mut fmt::Formatter<'_>) -> fmt::Result {
        let Call { names, members, marks, proteins, decoy, tag, generated } = self;
        write!(f, "{}, ", shown_names(names))?;
        for Member { group, protein, decoy } in self.members().take(20) {
            write!(f, "{group}.{protein}.{decoy} ")?;
        }
        write!(f, "of {} bytes, marks {:?} of {}, ", members.len(), front(marks), marks.len())?;
        write!(f, "proteins {:?} of {}, decoy {decoy}, ", front(proteins), proteins.len())?;
        write!(f, "tag {}, generated {generated}", tag.escape_ascii())
    }
}

fn front<T>(list: &[T]) -> &[T] {
    &list[..list.len().min(20)]
}

/// The length of a line, and its groups.
#[derive(Clone, Copy, Debug, PartialEq)]
pub struct Sizes {
    pub bytes: u32,
    pub groups: u32,
}

/// A line, whatever room there is, and its groups.
#[derive(Clone, Debug, PartialEq)]
pub struct Line {
    pub text: Vec<u8>,
    pub groups: u32,
}

/// The members of each group, in their order, if the group applies: it is marked and holds one of the peptide's proteins with its
/// flag.
pub fn applying(call: &Call) -> Vec<Vec<Member>> {
    let mut listed = vec![false; call.names.len() / NAME];
    for protein in &call.proteins {
        listed[*protein as usize] = true;
    }
    let mut members_of = vec![vec![]; call.marks.len()];
    for member in call.members() {
        members_of[member.group as usize].push(member);
    }
    let holds = |member: &Member| u32::from(member.decoy) == call.decoy && listed[member.protein as usize];
    let groups = members_of.into_iter().zip(&call.marks);
    groups
        .filter(|(members, mark)| **mark == 1 && members.iter().any(holds))
        .map(|(members, _)| members)
        .collect()
}

/// "Decoys get the tag where decoys are generated."
fn tagged(call: &Call, member: &Member) -> Vec<u8> {
    let tag: &[u8] = if member.decoy == 1 && call.generated == 1 { &call.tag } else { &[] };
    [tag, call.name(member.protein)].concat()
}

/// "Names in a group, tag included, sorted and joined by `/`, groups sorted and joined by `;`."
fn text(call: &Call, groups: &[Vec<Member>]) -> Vec<u8> {
    let group_text = |members: &Vec<Member>| {
        let mut names: Vec<Vec<u8>> = members.iter().map(|member| tagged(call, member)).collect();
        names.sort();
        names.join(&b'/')
    };
    let mut texts: Vec<Vec<u8>> = groups.iter().map(group_text).collect();
    texts.sort();
    texts.join(&b';')
}

/// Document 02, [3]: "the number of marked groups that hold a protein of the peptide with its decoy flag, whatever the names contain".
pub fn line_of(call: &Call, groups: &[Vec<Member>]) -> Line {
    Line { text: text(call, groups), groups: groups.len() as u32 }
}

/// How many `;` the names of groups hold, tag included. The original counts the `;` of the line, and so these too.
pub fn semicolons_in_names(call: &Call, groups: &[Vec<Member>]) -> u32 {
    let names = groups.iter().flatten().flat_map(|member| tagged(call, member));
    names.filter(|byte| *byte == b';').count() as u32
}

pub fn line(call: &Call) -> Line {
    line_of(call, &applying(call))
}

fn none_bad(good: impl Iterator<Item = bool>) -> Answer<()> {
    match { good }.position(|good| !good) {
        Some(place) => refuse(FIELD, place),
        None => Ok(()),
    }
}

/// Names, members, marks, protein list and tag, then the two flags.
fn contents_test(call: &Call) -> Answer<()> {
    names_test(&call.names)?;
    let count = call.names.len() / NAME;
    let good_member = |record: &[u8]| {
        let Member { group, protein, decoy } = Member::of(record);
        let known = (group as usize) < call.marks.len() && (protein as usize) < count;
        known && decoy <= 1 && record[9..] == [0, 0, 0]
    };
    none_bad(call.members.chunks(MEMBER).map(good_member))?;
    none_bad(call.marks.iter().map(|mark| *mark <= 1))?;
    none_bad(call.proteins.iter().map(|protein| (*protein as usize) < count))?;
    if call.tag.len() > MOST_TAG || call.tag.iter().any(|byte| !(33..=126).contains(byte)) {
        return refuse(BAD_NAME, 0);
    }
    if call.decoy > 1 || call.generated > 1 {
        return refuse(FIELD, 0);
    }
    Ok(())
}

/// 1, 8, then the contents.
pub fn test(call: &Call) -> Answer<()> {
    let Call { names, members, marks, proteins, .. } = call;
    let too_many_members = members.len() / MEMBER > MOST_MEMBERS || marks.len() > MOST_MARKS;
    if names.len() / NAME > MOST_NAMES || too_many_members || proteins.len() > MOST_LIST {
        return refuse(SIZE, 0);
    }
    if names.len() % NAME != 0 || members.len() % MEMBER != 0 {
        return refuse(LENGTH, 0);
    }
    contents_test(call)
}

/// A line in its room.
pub fn filled(line: &Line, out: &[u8]) -> Filled<Sizes> {
    let records: Vec<[u8; 1]> = line.text.iter().map(|byte| [*byte]).collect();
    let Filled { answer, buffer } = room::filled(&records, 1, usize::MAX, out);
    Filled { answer: answer.map(|bytes| Sizes { bytes, groups: line.groups }), buffer }
}

pub fn report_line(call: &Call, out: &[u8]) -> Filled<Sizes> {
    match test(call) {
        Ok(()) => filled(&line(call), out),
        Err(refusal) => Filled { answer: Err(refusal), buffer: out.to_vec() },
    }
}
