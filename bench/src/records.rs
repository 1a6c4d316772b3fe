//! The records of the C face: how many bytes they have, and their words.
use crate::ffi::sendumaal_digest_reverse;
use std::ops::Range;
use std::sync::OnceLock;

pub const NAME: usize = 64;
pub const PAIR: usize = 8;
pub const EDGE: usize = 8;
pub const MEMBER: usize = 12;

/// Whether a digest record has so many bytes: any other length is refused.
fn is_digest(len: usize) -> bool {
    let mut record = vec![0; len];
    record[4] = 1;
    unsafe { sendumaal_digest_reverse(record.as_mut_ptr(), len, &mut 0) == 0 }
}

/// The bytes of a digest record: 20, or 16 in an archive from before document 02, [7], which `two` may time.
pub fn digest_bytes() -> usize {
    static BYTES: OnceLock<usize> = OnceLock::new();
    *BYTES
        .get_or_init(|| [20, 16].into_iter().find(|len| is_digest(*len)).expect("records of 20 bytes or 16"))
}

/// The bytes of a group: its reference, first and count.
pub fn group_bytes() -> usize {
    digest_bytes() + 8
}

pub fn word(record: &[u8], at: usize) -> u32 {
    u32::from_le_bytes(record[at..at + 4].try_into().expect("four bytes"))
}

/// What a digest's first two words name.
pub fn range(record: &[u8]) -> Range<usize> {
    word(record, 0) as usize..word(record, 4) as usize
}
