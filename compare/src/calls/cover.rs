//! The calls that mark groups.
use super::also_with_null;
use crate::answer::{Checked, Filled};
use crate::cover::model as cover;
use crate::ffi;
use crate::guard::{answer, Lent, May, Memory};
use crate::update::model as update;

/// A count as C takes it.
pub fn number(count: usize) -> u32 {
    u32::try_from(count).expect("counts of calls are below 2^32")
}

/// The answer is the number of groups, the buffer their marks.
pub fn cover(call: &cover::Call, marks: &[u8]) -> Checked<Filled<u32>> {
    let cover::Call { edges, groups, metas, work } = call;
    let some_empty = edges.is_empty() || work.is_empty() || marks.is_empty();
    also_with_null(some_empty, |null| {
        let mut edges = Lent::or_null(edges, null);
        let mut work = Lent::or_null(work, null);
        let mut marks = Lent::or_null(marks, null);
        let (mut count, mut place) = (Lent::result(), Lent::result());
        #[rustfmt::skip]
        let said = unsafe {
            ffi::sendumaal_cover(
                edges.pointer(), edges.len(), number(*groups), number(*metas), work.pointer(), work.len(),
                marks.pointer(), marks.len(), count.pointer(), place.pointer(),
            )
        };
        let memory: [(&str, &dyn Memory, May); 4] = [
            ("edges", &edges, May::Read),
            ("work", &work, May::Work),
            ("marks", &marks, May::Fill),
            ("count", &count, May::Answer),
        ];
        let said = answer(said, &place, &memory)?;
        Ok(Filled { answer: said.map(|()| count.value()), buffer: marks.contents().to_vec() })
    })
}

/// As above.
pub fn update(call: &update::Call, marks: &[u8]) -> Checked<Filled<u32>> {
    let update::Call { old_edges, new_edges, groups, metas, given, work } = call;
    let slices: [&[u8]; 4] = [old_edges, new_edges, given, marks];
    let some_empty = work.is_empty() || slices.iter().any(|slice| slice.is_empty());
    also_with_null(some_empty, |null| {
        let mut slices = slices.map(|slice| Lent::or_null(slice, null));
        let mut work = Lent::or_null(work, null);
        let (mut count, mut place) = (Lent::result(), Lent::result());
        let [old_edges, new_edges, given, marks] = slices.each_mut().map(Lent::parts);
        #[rustfmt::skip]
        let said = unsafe {
            ffi::sendumaal_update(
                old_edges.0, old_edges.1, new_edges.0, new_edges.1, number(*groups), number(*metas),
                given.0, given.1, work.pointer(), work.len(),
                marks.0, marks.1, count.pointer(), place.pointer(),
            )
        };
        let [old_edges, new_edges, given, marks] = &slices;
        let memory: [(&str, &dyn Memory, May); 6] = [
            ("old edges", old_edges, May::Read),
            ("new edges", new_edges, May::Read),
            ("given marks", given, May::Read),
            ("work", &work, May::Work),
            ("marks", marks, May::Fill),
            ("count", &count, May::Answer),
        ];
        let said = answer(said, &place, &memory)?;
        Ok(Filled { answer: said.map(|()| count.value()), buffer: marks.contents().to_vec() })
    })
}
