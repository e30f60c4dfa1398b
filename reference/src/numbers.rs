//! The paper's numbers in one table.
//!
//! They are fields and not constants for one reason: a test spoils one number at a time and asks
//! whether the comparison of two readers notices. Everybody else uses `PAPER`. One step stands among
//! them to be spoiled alike: which records match.

use crate::access::{self, Filter};
use crate::table::Log;

#[derive(Clone, Debug)]
pub struct Numbers {
    /// 2020-01-01 in seconds since 2000-01-01.
    pub first_base_time: u32,
    /// The last second of 2099.
    pub last_base_time: u32,
    pub first_zone: i8,
    pub last_zone: i8,
    pub last_source: u8,
    /// Sources whose accuracy is logged and stored as 255 (Section 3.4.1.14).
    pub sources_without_accuracy: [u8; 2],
    /// Sources that can't vouch for the time zone: their times stop at grade 2 (change request E2).
    pub sources_without_zone: &'static [u8],
    /// The fault count stays here.
    pub last_fault_count: u16,
    /// A proposal further from a UTC-aligned clock than this is unrealistic.
    pub realistic_seconds: u32,
    pub most_slots: usize,
    /// Where the zeros after a held record end, counted from the slot's start.
    pub slot_end: usize,
    /// A record is at most this long.
    pub record_bytes: usize,
    /// Sequence numbers count modulo this.
    pub sequence_numbers: u32,
    pub smallest_output: usize,
    pub longest_write: usize,
    pub smallest_payload: u32,
    pub largest_payload: u32,
    /// The one RACP filter type we know: the sequence number.
    pub filter_type: u8,
    /// Does a filter take the held record of this age?
    pub matches: fn(&Numbers, &Log, Filter, usize) -> bool,
    /// Segment counters count modulo this.
    pub counters: u8,
    /// Header bit of a record's first segment.
    pub first_bit: u8,
    /// Header bit of a record's last segment.
    pub last_bit: u8,
    /// A season's figures are of at most so many tables.
    pub most_tables: u32,
    /// Two reads are one beast's within a window of at most so many seconds.
    pub widest_window: u32,
}

pub const PAPER: Numbers = Numbers {
    first_base_time: 631_152_000,
    last_base_time: 3_155_759_999,
    first_zone: -48,
    last_zone: 56,
    last_source: 7,
    sources_without_accuracy: [0, 4],
    sources_without_zone: &[0, 3, 4, 7],
    last_fault_count: 65_535,
    realistic_seconds: 86_400,
    most_slots: 1_023,
    slot_end: 64,
    record_bytes: 45,
    sequence_numbers: 65_536,
    smallest_output: 20,
    longest_write: 20,
    smallest_payload: 20,
    largest_payload: 244,
    filter_type: 1,
    matches: access::matches,
    counters: 64,
    first_bit: 0x01,
    last_bit: 0x02,
    most_tables: 65_535,
    widest_window: 60,
};

impl Numbers {
    /// Sequence numbers rise by 1 and roll over.
    pub fn sequence_after(&self, sequence: u16) -> u16 {
        self.sequence_plus(sequence, 1)
    }

    pub fn sequence_plus(&self, sequence: u16, steps: u32) -> u16 {
        ((u32::from(sequence) + steps) % self.sequence_numbers) as u16
    }

    /// How many numbers lie from `from` up to `to`, going forward.
    pub fn sequence_distance(&self, from: u16, to: u16) -> u32 {
        let ahead = u32::from(to) + self.sequence_numbers;
        ahead.saturating_sub(u32::from(from)) % self.sequence_numbers
    }

    /// "63 then 0".
    pub fn counter_after(&self, counter: u8) -> u8 {
        (counter + 1) % self.counters
    }
}
