//! Carrying a stamp over the time updates logged after it was taken.

use crate::numbers::Numbers;
use crate::record::{self, Record};
use crate::refusal::Refusal;
use crate::table::Log;

/// The stamp carried over every record from number q on. Refuses 1, 12, 13.
pub fn carry(numbers: &Numbers, stamp: u32, q: u16, table: &[u8]) -> Result<i64, Refusal> {
    let log = Log::open(numbers, table)?;
    let later = numbers.sequence_distance(q, log.shape.next) as usize;
    if later > log.shape.held {
        return Err(Refusal::LaterRecordNotHeld);
    }
    // It can't overflow: a table holds at most 1,023 records, and a stamp with so many differences
    // of 32-bit values stays below 2^42.
    let mut carried = i64::from(stamp);
    for age in log.shape.held - later..log.shape.held {
        carried += moved_by(numbers, log.record(age))?;
    }
    Ok(carried)
}

/// "Each Time_Update adds received minus old", a signed difference: clocks are set back too.
fn moved_by(numbers: &Numbers, bytes: &[u8]) -> Result<i64, Refusal> {
    match record::read(numbers, bytes) {
        Some(Record::Update(update)) => Ok(i64::from(update.base) - i64::from(update.old_base)),
        Some(Record::Fault(_)) => Err(Refusal::FaultAmongThem),
        None => Err(Refusal::TableNotSound),
    }
}
