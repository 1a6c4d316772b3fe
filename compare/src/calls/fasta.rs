//! The call that reads an entry of a sequence file.
use super::lend_all;
use crate::answer::{Checked, Fault};
use crate::fasta::model::{Found, Reading};
use crate::ffi;
use crate::guard::{answer, Lent, May, Memory};

/// What a call that accepts has answered. Where it finds nothing, it writes that and nothing else.
fn found_of(found: u32, next: &Lent<usize>, count: &Lent<u32>) -> Checked<Option<Found>> {
    match found {
        0 if !next.unchanged() => Err(Fault("it found nothing and changed next".into())),
        0 if !count.unchanged() => Err(Fault("it found nothing and changed count".into())),
        0 => Ok(None),
        1 => Ok(Some(Found { next: next.value(), count: count.value() })),
        other => Err(Fault(format!("it accepted with found {other}"))),
    }
}

pub fn entry(bytes: &[u8], at: usize, name: &[u8], letters: &[u8]) -> Checked<Reading> {
    lend_all([bytes, name, letters], |mut lent| {
        let (mut next, mut place) = (Lent::result(), Lent::result());
        let (mut count, mut found) = (Lent::result(), Lent::result());
        let [bytes, name, letters] = lent.each_mut().map(Lent::parts);
        #[rustfmt::skip]
        let number = unsafe {
            ffi::sendumaal_fasta_entry(
                bytes.0, bytes.1, at, name.0, name.1, letters.0, letters.1,
                next.pointer(), count.pointer(), found.pointer(), place.pointer(),
            )
        };
        let [bytes, name, letters] = &lent;
        let memory: [(&str, &dyn Memory, May); 6] = [
            ("bytes", bytes, May::Read),
            ("name", name, May::Fill),
            ("letters", letters, May::Fill),
            ("next", &next, May::Answer),
            ("count", &count, May::Answer),
            ("found", &found, May::Answer),
        ];
        let answer = match answer(number, &place, &memory)? {
            Ok(()) => Ok(found_of(found.value(), &next, &count)?),
            Err(refusal) => Err(refusal),
        };
        let (name, letters) = (name.contents().to_vec(), letters.contents().to_vec());
        Ok(Reading { answer, name, letters })
    })
}
