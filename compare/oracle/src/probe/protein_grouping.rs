use super::*;
use crate::peptide::Peptide;

/// A protein in a group: its number by first appearance, its name, whether it is a decoy.
pub type Member = (u32, String, bool);

/// The peptides that take part, as the original takes them.
pub type Peptides = FnvHashSet<PeptideIx>;

pub fn peptide_set(peptides: &[u32]) -> Peptides {
    peptides.iter().map(|&p| PeptideIx(p)).collect()
}

/// How many groups there are: nothing but the grouping.
pub fn group_count(db: &IndexedDatabase, peptides: Peptides) -> usize {
    ProteinGrouper::build(db, peptides).groups.len()
}

/// The marks of the groups: nothing but the grouping and the cover.
pub fn marks(db: &IndexedDatabase, peptides: Peptides) -> Vec<bool> {
    let grouper = ProteinGrouper::build(db, peptides);
    BipartiteGraph::new(grouper.edges, grouper.groups.len(), grouper.peptide_count).into_cover()
}

/// The edges, the members of each group, and the number of meta-peptides.
pub fn build(db: &IndexedDatabase, peptides: &[u32]) -> (Vec<(u32, u32)>, Vec<Vec<Member>>, usize) {
    let grouper = ProteinGrouper::build(db, peptide_set(peptides));
    let proteins: Vec<&(Arc<str>, bool)> =
        grouper.protein_index.iter().sorted_by_key(|(_, ix)| ix.0).map(|(key, _)| key).collect();
    let member = |ix: &ProteinIx| {
        let (name, decoy) = proteins[ix.0 as usize];
        (ix.0, name.to_string(), *decoy)
    };
    let groups = grouper.groups.iter().map(|g| g.0.iter().map(member).collect()).collect();
    (grouper.edges, groups, grouper.peptide_count)
}

pub fn cover(edges: Vec<(u32, u32)>, left: usize, right: usize) -> Vec<bool> {
    BipartiteGraph::new(edges, left, right).into_cover()
}

/// The report line of a peptide, for groups given as (group, name, decoy) and the marks of the groups.
pub fn report(
    db: &IndexedDatabase,
    members: &[(u32, String, bool)],
    marks: &[bool],
    peptide: &Peptide,
) -> Option<String> {
    let mut proteins: Vec<(Arc<str>, bool)> = Vec::new();
    let mut groups = vec![ProteinGroup::default(); marks.len()];
    for (group, name, decoy) in members {
        let key: (Arc<str>, bool) = (Arc::from(name.as_str()), *decoy);
        let ix = proteins.iter().position(|p| *p == key).unwrap_or_else(|| {
            proteins.push(key);
            proteins.len() - 1
        });
        groups[*group as usize].0.push(ProteinIx(ix as u32));
    }
    let mut protein_to_groups: FnvHashMap<(Arc<str>, bool), Vec<u32>> = FnvHashMap::default();
    for group in (0..marks.len()).filter(|&g| marks[g]) {
        for ix in &groups[group].0 {
            let key = proteins[ix.0 as usize].clone();
            protein_to_groups.entry(key).or_default().push(group as u32);
        }
    }
    let lookup = ProteinGroupLookup { groups, proteins, protein_to_groups };
    lookup.group_string(peptide, db)
}

/// The report line of every peptide, after grouping and cover of those that take part.
pub fn lines(db: &IndexedDatabase, peptides: &[u32]) -> Vec<Option<String>> {
    let lookup = ProteinGrouper::build(db, peptide_set(peptides)).into_group_map();
    db.peptides.iter().map(|p| lookup.group_string(p, db)).collect()
}

/// What the original looks lines up in, made once for all peptides.
pub struct Lookup(ProteinGroupLookup);

pub fn lookup(db: &IndexedDatabase, peptides: Peptides) -> Lookup {
    Lookup(ProteinGrouper::build(db, peptides).into_group_map())
}

pub fn line(db: &IndexedDatabase, lookup: &Lookup, peptide: u32) -> Option<String> {
    lookup.0.group_string(&db[PeptideIx(peptide)], db)
}
