//! The calls on peptides. Masses pass as bit patterns here: two not-a-numbers are not equal as floats.
use super::{lend, lend_all};
use crate::answer::{Answer, Checked, Filled};
use crate::ffi;
use crate::forms::model::Call;
use crate::guard::{answer, Lent, May, Memory};
use crate::peptides::model::Peptide;

/// The answer is the bit pattern of the mass.
pub fn base_mass(letters: &[u8], masses: &[u32], water: u32) -> Checked<Answer<u32>> {
    lend(letters, |mut letters| {
        let (letters_at, letters_len) = letters.parts();
        lend(masses, |mut masses| {
            let (mut mass, mut place) = (Lent::<u32>::result(), Lent::result());
            let (masses_at, masses_len) = (masses.pointer().cast(), masses.len());
            #[rustfmt::skip]
            let number = unsafe {
                ffi::sendumaal_base_mass(
                    letters_at, letters_len, masses_at, masses_len, f32::from_bits(water),
                    mass.pointer().cast(), place.pointer(),
                )
            };
            let lent: [(&str, &dyn Memory, May); 3] = [
                ("letters", &letters, May::Read),
                ("masses", &masses, May::Read),
                ("mass", &mass, May::Answer),
            ];
            Ok(answer(number, &place, &lent)?.map(|()| mass.value()))
        })
    })
}

/// The answer is the bit pattern of the mass, and the position.
pub fn digest_mass(letters: &[u8], record: &[u8], masses: &[u32], water: u32) -> Checked<Answer<(u32, u32)>> {
    lend_all([letters, record], |[mut letters, mut record]| {
        let (letters_at, letters_len) = letters.parts();
        let (record_at, record_len) = record.parts();
        lend(masses, |mut masses| {
            let (mut mass, mut position) = (Lent::<u32>::result(), Lent::<u32>::result());
            let mut place = Lent::result();
            let (masses_at, masses_len) = (masses.pointer().cast(), masses.len());
            #[rustfmt::skip]
            let number = unsafe {
                ffi::sendumaal_digest_mass(
                    letters_at, letters_len, record_at, record_len, masses_at, masses_len, f32::from_bits(water),
                    mass.pointer().cast(), position.pointer(), place.pointer(),
                )
            };
            let lent: [(&str, &dyn Memory, May); 5] = [
                ("letters", &letters, May::Read),
                ("record", &record, May::Read),
                ("masses", &masses, May::Read),
                ("mass", &mass, May::Answer),
                ("position", &position, May::Answer),
            ];
            Ok(answer(number, &place, &lent)?.map(|()| (mass.value(), position.value())))
        })
    })
}

pub fn peptide_test(letters: &[u8], masses: &[u32], position: u8) -> Checked<Answer<()>> {
    lend(letters, |mut letters| {
        let (letters_at, letters_len) = letters.parts();
        lend(masses, |mut masses| {
            let mut place = Lent::result();
            let (masses_at, masses_len) = (masses.pointer().cast(), masses.len());
            #[rustfmt::skip]
            let number = unsafe {
                ffi::sendumaal_peptide_test(
                    letters_at, letters_len, masses_at, masses_len, position, place.pointer(),
                )
            };
            answer(number, &place, &[("letters", &letters, May::Read), ("masses", &masses, May::Read)])
        })
    })
}

/// The answer, and the peptide as it is afterwards.
pub fn peptide_reverse(peptide: &Peptide) -> Checked<(Answer<()>, Peptide)> {
    lend_all([&peptide.letters, &peptide.ids], |[mut letters, mut ids]| {
        let (mut decoy, mut place) = (Lent::new(&[peptide.decoy]), Lent::result());
        let ((letters_at, letters_len), (ids_at, ids_len)) = (letters.parts(), ids.parts());
        #[rustfmt::skip]
        let number = unsafe {
            ffi::sendumaal_peptide_reverse(
                letters_at, letters_len, ids_at, ids_len, decoy.pointer(), place.pointer(),
            )
        };
        let lent: [(&str, &dyn Memory, May); 3] =
            [("letters", &letters, May::Answer), ("ids", &ids, May::Answer), ("decoy", &decoy, May::Answer)];
        let said = answer(number, &place, &lent)?;
        let (letters, ids) = (letters.contents().to_vec(), ids.contents().to_vec());
        Ok((said, Peptide { letters, ids, decoy: decoy.value() }))
    })
}

/// The answer is the number of forms.
pub fn forms(call: &Call, out: &[u8]) -> Checked<Filled<u32>> {
    let Call { nterm, cterm, position, limit, cap, .. } = *call;
    let slices = [&call.letters, &call.ids, &call.variable, &call.fixed, out];
    lend_all(slices, |mut lent| {
        let (mut count, mut place) = (Lent::result(), Lent::result());
        let [letters, ids, variable, fixed, out] = lent.each_mut().map(Lent::parts);
        #[rustfmt::skip]
        let number = unsafe {
            ffi::sendumaal_forms(
                letters.0, letters.1, ids.0, ids.1, nterm, cterm, position, variable.0, variable.1,
                fixed.0, fixed.1, limit, cap, out.0, out.1, count.pointer(), place.pointer(),
            )
        };
        let [letters, ids, variable, fixed, out] = &lent;
        let memory: [(&str, &dyn Memory, May); 6] = [
            ("letters", letters, May::Read),
            ("ids", ids, May::Read),
            ("variable rules", variable, May::Read),
            ("fixed rules", fixed, May::Read),
            ("out", out, May::Fill),
            ("count", &count, May::Answer),
        ];
        let said = answer(number, &place, &memory)?;
        Ok(Filled { answer: said.map(|()| count.value()), buffer: out.contents().to_vec() })
    })
}
