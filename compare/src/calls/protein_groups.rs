//! The call that groups proteins.
use super::also_with_null;
use super::cover::number;
use crate::answer::Checked;
use crate::ffi;
use crate::guard::{answer, Lent, May, Memory};
use crate::protein_groups::model::{Call, Grouped, Sizes};

/// The answer is how many groups, meta-peptides, edges and members there are.
pub fn group_proteins(call: &Call, edges: &[u8], members: &[u8]) -> Checked<Grouped> {
    let (peptides, proteins) = (number(call.peptides), number(call.proteins));
    let bytes: [&[u8]; 4] = [&call.pairs, &call.flags, edges, members];
    let some_empty = call.work.is_empty() || bytes.iter().any(|slice| slice.is_empty());
    also_with_null(some_empty, |null| {
        let mut bytes = bytes.map(|slice| Lent::or_null(slice, null));
        let mut work = Lent::or_null(&call.work, null);
        let mut sizes: [Lent<u32>; 4] = std::array::from_fn(|_| Lent::result());
        let mut place = Lent::result();
        let [pairs, flags, edges, members] = bytes.each_mut().map(Lent::parts);
        let [groups, metas, edge_count, member_count] = sizes.each_mut().map(Lent::pointer);
        #[rustfmt::skip]
        let said = unsafe {
            ffi::sendumaal_group_proteins(
                pairs.0, pairs.1, flags.0, flags.1, peptides, proteins, work.pointer(), work.len(),
                edges.0, edges.1, members.0, members.1, groups, metas, edge_count, member_count, place.pointer(),
            )
        };
        let ([pairs, flags, edges, members], [groups, metas, edge_count, member_count]) = (&bytes, &sizes);
        let memory: [(&str, &dyn Memory, May); 9] = [
            ("pairs", pairs, May::Read),
            ("flags", flags, May::Read),
            ("work", &work, May::Work),
            ("edges", edges, May::Fill),
            ("members", members, May::Fill),
            ("the number of groups", groups, May::Answer),
            ("the number of meta-peptides", metas, May::Answer),
            ("the number of edges", edge_count, May::Answer),
            ("the number of members", member_count, May::Answer),
        ];
        let said = answer(said, &place, &memory)?;
        let [groups, metas, edge_count, member_count] = sizes.each_ref().map(Lent::value);
        let sizes = Sizes { groups, metas, edges: edge_count, members: member_count };
        let (edges, members) = (edges.contents().to_vec(), members.contents().to_vec());
        Ok(Grouped { answer: said.map(|()| sizes), edges, members })
    })
}
