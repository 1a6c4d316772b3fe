//! What a call says: the answers of documents 01 and 02, and the faults that no answer excuses.

/// The numbers of document 01, and of document 02 from 14 on.
pub const SIZE: u32 = 1;
pub const LETTER: u32 = 2;
pub const ALPHABET: u32 = 3;
pub const EMPTY_TEXT: u32 = 4;
pub const OUTSIDE: u32 = 5;
pub const LONG_TEXT: u32 = 6;
pub const TABLE_FULL: u32 = 7;
pub const LENGTH: u32 = 8;
pub const FIELD: u32 = 9;
pub const SHORT_WORK: u32 = 10;
pub const NO_ROOM: u32 = 11;
pub const BAD_NAME: u32 = 12;
pub const REPEATED_NAME: u32 = 13;
pub const STRAY: u32 = 14;
pub const HIGHEST: u32 = 14;

#[derive(Clone, Copy, Debug, PartialEq)]
pub struct Refusal {
    pub number: u32,
    pub place: usize,
}

pub type Answer<T> = Result<T, Refusal>;

pub fn refuse<T>(number: u32, place: usize) -> Answer<T> {
    Err(Refusal { number, place })
}

/// An answer, and a lent buffer as it is afterwards.
#[derive(Clone, Debug, PartialEq)]
pub struct Filled<T> {
    pub answer: Answer<T>,
    pub buffer: Vec<u8>,
}

/// What a call did to memory that it may not touch, or said that is no answer.
#[derive(Clone, Debug, PartialEq)]
pub struct Fault(pub String);

pub type Checked<T> = Result<T, Fault>;
