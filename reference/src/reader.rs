//! All calls over byte slices, as the C boundary has them, and the reference behind them.

use crate::clock::Switches;
use crate::fetch::{self, Fetch, Request, Told};
use crate::numbers::{Numbers, PAPER};
use crate::ramp::{self, Part, Ramp, Refused, Side, Sightings, Tables};
use crate::record::{self, Fields};
use crate::refusal::{self, Refusal};
use crate::salvage::{self, Salvage};
use crate::{access, carry, clock, image, joining, keep, notify, update};

/// A reader as a C caller sees it. Answers of at least 0 mean done (bytes written), answers
/// below 0 are minus the paper's refusal number. A refusal leaves every buffer untouched, but
/// that a refused join zeroes the joining bytes, and that the ramp's two calls say whatever their
/// answer of which side it is. Every input has an answer.
pub trait Reader {
    /// Refuses 1 (size only), 2 (length of the state).
    fn start(&self, state: &mut [u8], table: &mut [u8]) -> i32;
    /// Refuses 2, 7.
    fn seconds(&self, state: &mut [u8], n: u32) -> i32;
    /// Any value but 0 is on. Refuses 2.
    fn switches(&self, state: &mut [u8], dtcp: u8, racp: u8, log: u8) -> i32;
    /// Refuses 2.
    fn disconnect(&self, state: &mut [u8]) -> i32;
    /// Refuses 1, 2, 3.
    fn fault(&self, state: &mut [u8], table: &mut [u8], out: &mut [u8]) -> i32;
    /// Refuses 1, 2, 3, 4, 5, 6.
    fn dtcp_write(&self, state: &mut [u8], table: &mut [u8], write: &[u8], out: &mut [u8]) -> i32;
    /// Refuses 1, 2, 3, 4, 5, 6.
    fn racp_write(&self, state: &mut [u8], table: &[u8], write: &[u8], out: &mut [u8]) -> i32;
    /// 256 more where the bytes close the report. Refuses 1, 2, 3, 8.
    fn notify(&self, state: &mut [u8], table: &[u8], p: u32, out: &mut [u8]) -> i32;
    /// 0 more to come, else the length of the whole record. Refuses 10.
    fn join(&self, joining: &mut [u8], notification: &[u8]) -> i32;
    /// Refuses 11.
    fn read(&self, bytes: &[u8], fields: &mut Fields) -> i32;
    /// Refuses 1, 11, 23.
    fn keep(&self, table: &mut [u8], bytes: &[u8]) -> i32;
    /// Refuses 1, 12, 13.
    fn carry(&self, stamp: u32, q: u16, table: &[u8], carried: &mut i64) -> i32;
    /// Refuses 1, 2, 3.
    fn device_time(&self, state: &[u8], table: &[u8], out: &mut [u8]) -> i32;
    /// Refuses 3.
    fn feature(&self, out: &mut [u8]) -> i32;
    /// Refuses 3.
    fn parameters(&self, out: &mut [u8]) -> i32;
    /// The ATT error of a positive refusal number, 0 where there is none.
    fn att_error(&self, number: u32) -> i32;
    /// The bytes written of the report; the table has as many as the input. Refuses 20, 21, 3; of
    /// a sound table 3 alone.
    fn salvage(&self, input: &[u8], table: &mut [u8], report: &mut [u8]) -> i32;
    /// 1 or 2 beasts, with side 0. Refuses 18 (side 0); of side 1, the left one, 1, 12, 13; then of
    /// side 2.
    fn one_beast(&self, tables: Tables, sightings: Sightings, window: u32, side: &mut u32) -> i32;
    /// The part has its side, where it begins in that table, and its length. Refuses 1 of side 1,
    /// 1 of side 2, 19 (side 0), with a part of length 0 at 0.
    fn newest_update(&self, tables: Tables, part: &mut Part) -> i32;
    /// Where `any` is 0 the reader holds nothing, else from the oldest number forward to the newest.
    /// Refuses 3.
    fn fetch_tell(
        &self,
        map: &mut [u64],
        told: &mut Told,
        any: u8,
        oldest: u16,
        newest: u16,
    ) -> i32;
    /// The bytes of the request for the first run that is missing, 7; or 0. Refuses 3.
    fn fetch_propose(&self, map: &[u64], told: &Told, request: &mut Request) -> i32;
    /// Refuses 3.
    fn fetch_take(&self, map: &mut [u64], told: &Told, number: u16) -> i32;
    /// How many records were received. Refuses 3.
    fn fetch_received(&self, map: &[u64]) -> i32;
}

/// The reference: the paper's rules over the paper's numbers.
pub struct Reference {
    pub numbers: Numbers,
    pub salvage: Salvage,
    pub ramp: Ramp,
    pub fetch: Fetch,
}

impl Reference {
    pub fn new() -> Reference {
        Reference {
            numbers: PAPER,
            salvage: salvage::PAPER,
            ramp: ramp::PAPER,
            fetch: fetch::PAPER,
        }
    }
}

impl Default for Reference {
    fn default() -> Reference {
        Reference::new()
    }
}

fn answer(outcome: Result<i32, Refusal>) -> i32 {
    outcome.unwrap_or_else(Refusal::answer)
}

impl Reader for Reference {
    fn start(&self, state: &mut [u8], table: &mut [u8]) -> i32 {
        answer(clock::start(&self.numbers, state, table))
    }

    fn seconds(&self, state: &mut [u8], n: u32) -> i32 {
        answer(clock::seconds(&self.numbers, state, n))
    }

    fn switches(&self, state: &mut [u8], dtcp: u8, racp: u8, log: u8) -> i32 {
        let to = Switches {
            dtcp_indications: dtcp != 0,
            racp_indications: racp != 0,
            log_notifications: log != 0,
        };
        answer(clock::switches(&self.numbers, state, to))
    }

    fn disconnect(&self, state: &mut [u8]) -> i32 {
        answer(clock::disconnect(&self.numbers, state))
    }

    fn fault(&self, state: &mut [u8], table: &mut [u8], out: &mut [u8]) -> i32 {
        answer(clock::fault(&self.numbers, state, table, out))
    }

    fn dtcp_write(&self, state: &mut [u8], table: &mut [u8], write: &[u8], out: &mut [u8]) -> i32 {
        answer(update::write(&self.numbers, state, table, write, out))
    }

    fn racp_write(&self, state: &mut [u8], table: &[u8], write: &[u8], out: &mut [u8]) -> i32 {
        answer(access::write(&self.numbers, state, table, write, out))
    }

    fn notify(&self, state: &mut [u8], table: &[u8], p: u32, out: &mut [u8]) -> i32 {
        answer(notify::notify(&self.numbers, state, table, p, out))
    }

    fn join(&self, joining: &mut [u8], notification: &[u8]) -> i32 {
        answer(joining::join(&self.numbers, joining, notification))
    }

    fn read(&self, bytes: &[u8], fields: &mut Fields) -> i32 {
        let Some(record) = record::read(&self.numbers, bytes) else {
            return Refusal::NotARecord.answer();
        };
        *fields = record::fields(&record);
        0
    }

    fn keep(&self, table: &mut [u8], bytes: &[u8]) -> i32 {
        answer(keep::keep(&self.numbers, table, bytes))
    }

    fn carry(&self, stamp: u32, q: u16, table: &[u8], carried: &mut i64) -> i32 {
        match carry::carry(&self.numbers, stamp, q, table) {
            Ok(result) => {
                *carried = result;
                0
            }
            Err(refusal) => refusal.answer(),
        }
    }

    fn device_time(&self, state: &[u8], table: &[u8], out: &mut [u8]) -> i32 {
        answer(image::device_time(&self.numbers, state, table, out))
    }

    fn feature(&self, out: &mut [u8]) -> i32 {
        answer(image::feature(&self.numbers, out))
    }

    fn parameters(&self, out: &mut [u8]) -> i32 {
        answer(image::parameters(&self.numbers, out))
    }

    fn att_error(&self, number: u32) -> i32 {
        refusal::att_error(number)
    }

    fn salvage(&self, input: &[u8], table: &mut [u8], report: &mut [u8]) -> i32 {
        answer(self.salvage.salvage(&self.numbers, input, table, report))
    }

    fn one_beast(&self, tables: Tables, sightings: Sightings, window: u32, side: &mut u32) -> i32 {
        let (of, answer) = match self.ramp.one_beast(&self.numbers, tables, sightings, window) {
            Ok(verdict) => (Side::Neither, verdict as i32),
            Err(Refused { side, refusal }) => (side, refusal.answer()),
        };
        *side = of as u32;
        answer
    }

    fn newest_update(&self, tables: Tables, part: &mut Part) -> i32 {
        let (found, answer) = match self.ramp.newest_update(&self.numbers, tables) {
            Ok(found) => (found, 0),
            Err(refused) => (refused.part(), refused.refusal.answer()),
        };
        *part = found;
        answer
    }

    fn fetch_tell(
        &self,
        map: &mut [u64],
        told: &mut Told,
        any: u8,
        oldest: u16,
        newest: u16,
    ) -> i32 {
        answer(self.fetch.tell(map, told, any, oldest, newest))
    }

    fn fetch_propose(&self, map: &[u64], told: &Told, request: &mut Request) -> i32 {
        answer(self.fetch.propose(map, told, request))
    }

    fn fetch_take(&self, map: &mut [u64], told: &Told, number: u16) -> i32 {
        answer(self.fetch.take(map, told, number))
    }

    fn fetch_received(&self, map: &[u64]) -> i32 {
        answer(self.fetch.received(map))
    }
}
