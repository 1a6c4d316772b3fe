//! The call that writes a report line.
use super::also_with_null;
use crate::answer::{Checked, Filled};
use crate::ffi;
use crate::guard::{answer, Lent, May, Memory};
use crate::report_lines::model::{Call, Sizes};

/// The answer is the length of the line and the number of groups.
pub fn report_line(call: &Call, line: &[u8]) -> Checked<Filled<Sizes>> {
    let slices: [&[u8]; 5] = [&call.names, &call.members, &call.marks, &call.tag, line];
    let some_empty = call.proteins.is_empty() || slices.iter().any(|slice| slice.is_empty());
    also_with_null(some_empty, |null| {
        let mut slices = slices.map(|slice| Lent::or_null(slice, null));
        let mut proteins = Lent::or_null(&call.proteins, null);
        let (mut bytes, mut groups, mut place) = (Lent::result(), Lent::result(), Lent::result());
        let [names, members, marks, tag, line] = slices.each_mut().map(Lent::parts);
        #[rustfmt::skip]
        let number = unsafe {
            ffi::sendumaal_report_line(
                names.0, names.1, members.0, members.1, marks.0, marks.1, proteins.pointer(), proteins.len(),
                call.decoy, tag.0, tag.1, call.generated, line.0, line.1,
                bytes.pointer(), groups.pointer(), place.pointer(),
            )
        };
        let [names, members, marks, tag, line] = &slices;
        let memory: [(&str, &dyn Memory, May); 8] = [
            ("names", names, May::Read),
            ("members", members, May::Read),
            ("marks", marks, May::Read),
            ("proteins", &proteins, May::Read),
            ("tag", tag, May::Read),
            ("line", line, May::Fill),
            ("the length", &bytes, May::Answer),
            ("the number of groups", &groups, May::Answer),
        ];
        let said = answer(number, &place, &memory)?;
        let sizes = Sizes { bytes: bytes.value(), groups: groups.value() };
        Ok(Filled { answer: said.map(|()| sizes), buffer: line.contents().to_vec() })
    })
}
