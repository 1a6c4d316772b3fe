//! Memory that is lent to a call: guarded on both sides, remembered as it was, and checked afterwards.
use crate::answer::{Answer, Checked, Fault, Refusal, HIGHEST, NO_ROOM};

/// What can be lent. The pattern fills guards and results, so that a write shows, whatever it writes.
pub trait Element: Copy + PartialEq + Default {
    fn pattern(index: usize) -> Self;
}

impl Element for u8 {
    fn pattern(index: usize) -> u8 {
        (index as u8).wrapping_mul(29) ^ 0xa5
    }
}

impl Element for u32 {
    fn pattern(index: usize) -> u32 {
        u32::from_ne_bytes([0, 1, 2, 3].map(|part| u8::pattern(4 * index + part)))
    }
}

impl Element for usize {
    fn pattern(index: usize) -> usize {
        usize::from_ne_bytes(std::array::from_fn(|part| u8::pattern(8 * index + part)))
    }
}

/// The elements on each side of what is lent.
const GUARD: usize = 32;

pub struct Lent<T> {
    now: Vec<T>,
    was: Vec<T>,
    null: bool,
}

impl<T: Element> Lent<T> {
    pub fn new(contents: &[T]) -> Lent<T> {
        let mut now: Vec<T> = (0..GUARD).map(T::pattern).collect();
        now.extend_from_slice(contents);
        now.extend((GUARD..2 * GUARD).map(T::pattern));
        Lent { was: now.clone(), now, null: false }
    }

    /// One element for a result, filled with what no call answers.
    pub fn result() -> Lent<T> {
        Lent::new(&[T::pattern(GUARD)])
    }

    /// An empty slice without memory.
    pub fn null() -> Lent<T> {
        Lent { null: true, ..Lent::new(&[]) }
    }

    /// Contents, without memory where they are empty and a null pointer is wanted.
    pub fn or_null(contents: &[T], null: bool) -> Lent<T> {
        match null && contents.is_empty() {
            true => Lent::null(),
            false => Lent::new(contents),
        }
    }

    pub fn pointer(&mut self) -> *mut T {
        match self.null {
            true => std::ptr::null_mut(),
            false => self.now[GUARD..].as_mut_ptr(),
        }
    }

    pub fn len(&self) -> usize {
        self.now.len() - 2 * GUARD
    }

    /// A slice as C takes it.
    pub fn parts(&mut self) -> (*mut T, usize) {
        (self.pointer(), self.len())
    }

    pub fn contents(&self) -> &[T] {
        &self.now[GUARD..GUARD + self.len()]
    }

    pub fn value(&self) -> T {
        self.contents()[0]
    }
}

/// What a call can be asked about anything that it was lent.
pub trait Memory {
    fn guards_hold(&self) -> bool;
    fn unchanged(&self) -> bool;
    fn all_zero(&self) -> bool;
}

impl<T: Element> Memory for Lent<T> {
    fn guards_hold(&self) -> bool {
        let end = GUARD + self.len();
        self.now[..GUARD] == self.was[..GUARD] && self.now[end..] == self.was[end..]
    }

    fn unchanged(&self) -> bool {
        self.now == self.was
    }

    fn all_zero(&self) -> bool {
        self.contents().iter().all(|element| *element == T::default())
    }
}

/// What a call may do to a thing that it was lent.
#[derive(Clone, Copy, PartialEq)]
pub enum May {
    /// Nothing: an input.
    Read,
    /// Change it when it accepts, and where there is no room.
    Fill,
    /// Change it when it accepts.
    Answer,
    /// Use it when it accepts, and where there is no room: then it is all zero afterwards.
    Work,
}

impl May {
    fn change_at(self, number: u32) -> bool {
        match self {
            May::Read => false,
            May::Fill | May::Work => number == 0 || number == NO_ROOM,
            May::Answer => number == 0,
        }
    }
}

/// The answer of a call that returned `number`, if it kept to what it was lent.
pub fn answer(number: u32, place: &Lent<usize>, lent: &[(&str, &dyn Memory, May)]) -> Checked<Answer<()>> {
    if number > HIGHEST {
        return Err(Fault(format!("it returned {number}")));
    }
    if !place.guards_hold() {
        return Err(Fault("it wrote outside the place".into()));
    }
    for (name, memory, may) in lent {
        if !memory.guards_hold() {
            return Err(Fault(format!("it wrote outside {name}")));
        }
        if !memory.unchanged() && !may.change_at(number) {
            return Err(Fault(format!("it answered {number} and changed {name}")));
        }
        if *may == May::Work && may.change_at(number) && !memory.all_zero() {
            return Err(Fault(format!("it answered {number} and left {name} written")));
        }
    }
    match (number, place.value()) {
        (0, 0) => Ok(Ok(())),
        (0, place) => Err(Fault(format!("it accepted with place {place}"))),
        (number, place) => Ok(Err(Refusal { number, place })),
    }
}
