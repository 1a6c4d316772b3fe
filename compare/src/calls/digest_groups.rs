//! The call that groups digests.
use super::also_with_null;
use crate::answer::Checked;
use crate::digest_groups::model::{Call, Grouped};
use crate::ffi;
use crate::guard::{answer, Lent, May, Memory};

/// The answer is the number of groups.
pub fn group_digests(call: &Call, groups: &[u8], proteins: &[u32]) -> Checked<Grouped> {
    let bytes: [&[u8]; 4] = [&call.names, &call.letters, &call.digests, groups];
    let words: [&[u32]; 3] = [&call.bounds, &call.work, proteins];
    let some_empty = bytes.iter().any(|slice| slice.is_empty()) || words.iter().any(|slice| slice.is_empty());
    also_with_null(some_empty, |null| {
        let mut bytes = bytes.map(|slice| Lent::or_null(slice, null));
        let mut words = words.map(|slice| Lent::or_null(slice, null));
        let (mut count, mut place) = (Lent::result(), Lent::result());
        let [names, letters, digests, groups] = bytes.each_mut().map(Lent::parts);
        let [bounds, work, proteins] = words.each_mut().map(Lent::parts);
        #[rustfmt::skip]
        let number = unsafe {
            ffi::sendumaal_group_digests(
                names.0, names.1, bounds.0, bounds.1, letters.0, letters.1, digests.0, digests.1,
                work.0, work.1, groups.0, groups.1, proteins.0, proteins.1, count.pointer(), place.pointer(),
            )
        };
        let ([names, letters, digests, groups], [bounds, work, proteins]) = (&bytes, &words);
        let memory: [(&str, &dyn Memory, May); 8] = [
            ("names", names, May::Read),
            ("boundaries", bounds, May::Read),
            ("letters", letters, May::Read),
            ("digests", digests, May::Read),
            ("work", work, May::Work),
            ("groups", groups, May::Fill),
            ("proteins", proteins, May::Fill),
            ("count", &count, May::Answer),
        ];
        let said = answer(number, &place, &memory)?;
        let (groups, proteins) = (groups.contents().to_vec(), proteins.contents().to_vec());
        Ok(Grouped { answer: said.map(|()| count.value()), groups, proteins })
    })
}
