//! Room for a list of records: enough of it, too little, and what then stands in it.
use crate::answer::{refuse, Filled, NO_ROOM};
use crate::rng::Rng;

/// Bytes for so many records, or with some bytes or records to spare.
pub fn enough(rng: &mut Rng, count: usize, size: usize) -> usize {
    count * size + rng.pick(&[0, 0, 0, 1, size - 1, size, 3 * size + 5])
}

/// One byte short, one record, none at all, a single record, or any, for a list that is not empty.
pub fn short(rng: &mut Rng, count: usize, size: usize) -> usize {
    let fewer = (count - 1) * size;
    let any = rng.below(count * size);
    rng.pick(&[fewer, fewer + 1, fewer + size - 1, 0, size.min(fewer), any])
}

/// Bytes for so many records: too few if that is asked.
pub fn len(rng: &mut Rng, count: usize, size: usize, few: bool) -> usize {
    match few {
        true => short(rng, count, size),
        false => enough(rng, count, size),
    }
}

/// Room for so many records and, once in so many times, the front of it that is too short for a list that is not empty.
pub fn for_records(rng: &mut Rng, count: usize, size: usize, times: usize) -> Vec<Vec<u8>> {
    let len = enough(rng, count, size);
    let mut rooms = vec![rng.bytes(len)];
    if count > 0 && rng.once_in(times) {
        rooms.push(rooms[0][..short(rng, count, size)].to_vec());
    }
    rooms
}

/// One short, none, or any, of a count that is not 0.
pub fn fewer(rng: &mut Rng, count: usize) -> usize {
    let any = rng.below(count);
    rng.pick(&[count - 1, 0, any])
}

/// Room for a list of bytes: exact, or with some to spare, filled with anything.
pub fn enough_bytes(rng: &mut Rng, count: usize) -> Vec<u8> {
    let len = count + rng.pick(&[0, 0, 1, 20]);
    rng.bytes(len)
}

/// The same, or too few for a list that is not empty if that is asked.
pub fn bytes(rng: &mut Rng, count: usize, few: bool) -> Vec<u8> {
    if !few || count == 0 {
        return enough_bytes(rng, count);
    }
    let len = fewer(rng, count);
    rng.bytes(len)
}

/// Room for a list of bytes and, once in so many times, too little for one that is not empty.
pub fn for_bytes(rng: &mut Rng, count: usize, times: usize) -> Vec<Vec<u8>> {
    let mut rooms = vec![enough_bytes(rng, count)];
    if count > 0 && rng.once_in(times) {
        rooms.push(bytes(rng, count, true));
    }
    rooms
}

/// Which of two lists lack room, if that is asked: one of them or both.
pub fn either(rng: &mut Rng, few: bool) -> (bool, bool) {
    match few {
        true => rng.pick(&[(true, false), (false, true), (true, true)]),
        false => (false, false),
    }
}

/// Whether there is too little, turn by turn: once in so many times there is a second turn, without enough.
pub fn turns(rng: &mut Rng, times: usize) -> &'static [bool] {
    match rng.once_in(times) {
        true => &[false, true],
        false => &[false],
    }
}

/// Whole records, up to the list's limit.
pub fn of(out: &[u8], size: usize, most: usize) -> usize {
    most.min(out.len() / size)
}

/// The answer of a list, and its buffer: without room for all, the first records that fit stand there; bytes past them
/// stay.
pub fn filled<R: AsRef<[u8]>>(records: &[R], size: usize, most: usize, out: &[u8]) -> Filled<u32> {
    let fitting = records.len().min(of(out, size, most));
    let mut buffer = out.to_vec();
    for (place, record) in buffer.chunks_exact_mut(size).zip(&records[..fitting]) {
        place.copy_from_slice(record.as_ref());
    }
    let answer = if fitting < records.len() { refuse(NO_ROOM, 0) } else { Ok(records.len() as u32) };
    Filled { answer, buffer }
}
