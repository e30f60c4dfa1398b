//! Joining: the tablet puts a record together again from its notifications.
//!
//! The joining state has exactly 48 bytes: 0 phase, 1 next counter, 2 length, 3-47 the bytes.
//! All zero is the empty state; a caller restarts joining by zeroing it.

use crate::numbers::Numbers;
use crate::refusal::Refusal;

pub const JOINING_BYTES: usize = 48;
const BYTES_AT: usize = 3;

const EMPTY: u8 = 0;
const WHOLE: u8 = 1;
const INSIDE: u8 = 2;

/// What a segment that is taken does to the joining state.
struct Taken<'a> {
    /// Where its body goes; 0 on a first segment.
    at: usize,
    body: &'a [u8],
    is_last: bool,
    next_counter: u8,
}

/// Takes one notification. Answers 0 while more is to come, or the length of the whole record
/// that now stands in the state. Refuses 10, and then every byte lent becomes 0.
pub fn join(numbers: &Numbers, joining: &mut [u8], notification: &[u8]) -> Result<i32, Refusal> {
    match taken(numbers, joining, notification) {
        Some(taken) => Ok(put(joining, &taken)),
        None => {
            joining.fill(0);
            Err(Refusal::SegmentRefused)
        }
    }
}

fn taken<'a>(numbers: &Numbers, joining: &[u8], notification: &'a [u8]) -> Option<Taken<'a>> {
    if !in_its_ranges(numbers, joining) {
        return None;
    }
    let (phase, next_counter, length) = (joining[0], joining[1], usize::from(joining[2]));
    let (header, body) = notification.split_first()?;
    let counter = header >> 2;
    let is_first = header & numbers.first_bit != 0;
    let at = if phase == INSIDE { length } else { 0 };

    let follows = phase == EMPTY || counter == next_counter;
    let first_where_due = is_first == (phase != INSIDE);
    let fits = at + body.len() <= numbers.record_bytes;
    (!body.is_empty() && follows && first_where_due && fits).then(|| Taken {
        at,
        body,
        is_last: header & numbers.last_bit != 0,
        next_counter: numbers.counter_after(counter),
    })
}

/// Bytes past the length are not looked at.
fn in_its_ranges(numbers: &Numbers, joining: &[u8]) -> bool {
    if joining.len() != JOINING_BYTES {
        return false;
    }
    let (counter, length) = (joining[1], usize::from(joining[2]));
    match joining[0] {
        EMPTY => counter == 0 && length == 0,
        WHOLE | INSIDE => {
            counter < numbers.counters && (1..=numbers.record_bytes).contains(&length)
        }
        _ => false,
    }
}

/// A first segment clears all 45 bytes; a later one keeps what it doesn't write.
fn put(joining: &mut [u8], taken: &Taken) -> i32 {
    let bytes = &mut joining[BYTES_AT..];
    if taken.at == 0 {
        bytes.fill(0);
    }
    let length = taken.at + taken.body.len();
    bytes[taken.at..length].copy_from_slice(taken.body);
    joining[0] = if taken.is_last { WHOLE } else { INSIDE };
    joining[1] = taken.next_counter;
    joining[2] = length as u8;
    if taken.is_last {
        length as i32
    } else {
        0
    }
}
