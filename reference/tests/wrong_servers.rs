//! The servers and tablets the paper shuts out: both the vectors and the comparison notice them.

use reference::fetch::{Request, Told};
use reference::octets::{put_u16, put_u32, u16_at, u32_at};
use reference::ramp::{Part, Sightings, Tables};
use reference::random::compare;
use reference::reader::{Reader, Reference};
use reference::vectors::play_all;

const CALLS: usize = 20_000;

#[derive(Clone, Copy, Debug, PartialEq, Eq)]
enum Wrong {
    RejectsEveryProposal,
    SaysSuccessToAll,
    NeverLogs,
    LogsACorrectedTime,
    RejectsWithTheFirstGroundOnly,
    SendsEmptySegmentsAfterTheFirst,
    RepeatsSegments,
    NumbersAllHeld,
    RefusesTurnedRanges,
    RefusesStatesWithTurnedRanges,
    GoesOnAfterAFault,
    CarriesNothing,
    AlwaysRefusesToCarry,
    SubtractsUnsigned,
    KeepsFrom0Only,
    KeepsAnyNumber,
    SalvagesBeforeItRefuses,
    NamesASideOnlyWhereItRefuses,
    LeavesThePartWhereItRefuses,
    TellsBeforeItRefuses,
    ClearsTheMapWhereItRefuses,
    TakesAnyNumberOfWords,
    CountsBitsFromTheHighest,
    ClearsTheRequestWhereNothingIsMissing,
}

const ALL: [Wrong; 24] = [
    Wrong::RejectsEveryProposal,
    Wrong::SaysSuccessToAll,
    Wrong::NeverLogs,
    Wrong::LogsACorrectedTime,
    Wrong::RejectsWithTheFirstGroundOnly,
    Wrong::SendsEmptySegmentsAfterTheFirst,
    Wrong::RepeatsSegments,
    Wrong::NumbersAllHeld,
    Wrong::RefusesTurnedRanges,
    Wrong::RefusesStatesWithTurnedRanges,
    Wrong::GoesOnAfterAFault,
    Wrong::CarriesNothing,
    Wrong::AlwaysRefusesToCarry,
    Wrong::SubtractsUnsigned,
    Wrong::KeepsFrom0Only,
    Wrong::KeepsAnyNumber,
    Wrong::SalvagesBeforeItRefuses,
    Wrong::NamesASideOnlyWhereItRefuses,
    Wrong::LeavesThePartWhereItRefuses,
    Wrong::TellsBeforeItRefuses,
    Wrong::ClearsTheMapWhereItRefuses,
    Wrong::TakesAnyNumberOfWords,
    Wrong::CountsBitsFromTheHighest,
    Wrong::ClearsTheRequestWhereNothingIsMissing,
];

/// The reference, with one call gone wrong.
struct WrongReader {
    right: Reference,
    wrong: Wrong,
}

fn wrong_reader(wrong: Wrong) -> WrongReader {
    WrongReader { right: Reference::new(), wrong }
}

/// Where the newest record stands in a table that has just been logged in.
fn newest_record(table: &[u8]) -> usize {
    let (slots, held) = (usize::from(u16_at(table, 0)), usize::from(u16_at(table, 2)));
    let oldest = (u32_at(table, 4) as usize - 16) / 64;
    17 + 64 * ((oldest + held + slots - 1) % slots)
}

fn u16_at_or_0(bytes: &[u8], at: usize) -> u16 {
    if bytes.len() < at + 2 {
        return 0;
    }
    u16_at(bytes, at)
}

/// A request for a range whose minimum is above its maximum, with nothing else wrong.
fn is_turned(write: &[u8]) -> bool {
    matches!(write, [1 | 4 | 7, 4, 1, _, _, _, _]) && u16_at(write, 3) > u16_at(write, 5)
}

/// A state whose report has such a range.
fn has_turned_range(state: &[u8]) -> bool {
    state.get(18) == Some(&4) && u16_at_or_0(state, 19) > u16_at_or_0(state, 21)
}

impl WrongReader {
    /// The map as this reader understands it.
    fn understood(&self, map: &[u64]) -> Vec<u64> {
        let mut words = map.to_vec();
        match self.wrong {
            Wrong::TakesAnyNumberOfWords => words.resize(1_024, 0),
            Wrong::CountsBitsFromTheHighest => {
                words.iter_mut().for_each(|word| *word = word.reverse_bits());
            }
            _ => {}
        }
        words
    }

    /// Does something to the map as this reader understands it.
    fn to_map(&self, map: &mut [u64], mut something: impl FnMut(&mut [u64]) -> i32) -> i32 {
        let mut words = self.understood(map);
        let answer = something(&mut words);
        if self.wrong == Wrong::CountsBitsFromTheHighest {
            words = self.understood(&words);
        }
        if self.wrong == Wrong::ClearsTheMapWhereItRefuses && answer < 0 {
            words.fill(0);
        }
        words.resize(map.len(), 0);
        map.copy_from_slice(&words);
        answer
    }
}

impl Reader for WrongReader {
    fn dtcp_write(&self, state: &mut [u8], table: &mut [u8], write: &[u8], out: &mut [u8]) -> i32 {
        let (old_state, old_table) = (state.to_vec(), table.to_vec());
        let answer = self.right.dtcp_write(state, table, write, out);
        let taken = answer == 3 && out[2] == 1;
        let rejected = answer == 5;
        match self.wrong {
            Wrong::RejectsEveryProposal if taken => {
                state.copy_from_slice(&old_state);
                table.copy_from_slice(&old_table);
                out[2..5].copy_from_slice(&[5, 4, 0]);
                return 5;
            }
            Wrong::SaysSuccessToAll if rejected => {
                out[2] = 1;
                return 3;
            }
            Wrong::NeverLogs if taken => table.copy_from_slice(&old_table),
            Wrong::LogsACorrectedTime if taken => {
                let at = newest_record(table) + 16;
                let later = u32_at(table, at) + 1;
                put_u32(table, at, later);
            }
            Wrong::RejectsWithTheFirstGroundOnly if rejected => {
                let grounds = u16_at(out, 3);
                put_u16(out, 3, 1 << grounds.trailing_zeros());
            }
            _ => {}
        }
        answer
    }

    fn notify(&self, state: &mut [u8], table: &[u8], p: u32, out: &mut [u8]) -> i32 {
        let (mut old_state, old_out) = (state.to_vec(), out.to_vec());
        let answer = self.right.notify(state, table, p, out);
        let inside = (1..256).contains(&answer) && out[0] & 1 == 0;
        match self.wrong {
            Wrong::SendsEmptySegmentsAfterTheFirst if inside => {
                out[1..].copy_from_slice(&old_out[1..]);
                1
            }
            // The record's first bytes once more, under the right header.
            Wrong::RepeatsSegments if inside => {
                let header = out[0];
                old_state[27] = 0;
                let length = self.right.notify(&mut old_state, table, p, out);
                out[0] = header;
                length
            }
            Wrong::RefusesStatesWithTurnedRanges if answer > 0 && has_turned_range(&old_state) => {
                state.copy_from_slice(&old_state);
                out.copy_from_slice(&old_out);
                -2
            }
            _ => answer,
        }
    }

    fn racp_write(&self, state: &mut [u8], table: &[u8], write: &[u8], out: &mut [u8]) -> i32 {
        let old_state = state.to_vec();
        let answer = self.right.racp_write(state, table, write, out);
        match self.wrong {
            Wrong::NumbersAllHeld if answer == 4 && out[0] == 5 => {
                put_u16(out, 2, u16_at(table, 2));
            }
            // 0x05, as it was before change request E1, also where the range has records.
            Wrong::RefusesTurnedRanges if answer >= 0 && is_turned(write) => {
                state.copy_from_slice(&old_state);
                out[..4].copy_from_slice(&[6, 0, write[0], 5]);
                return 4;
            }
            _ => {}
        }
        answer
    }

    fn fault(&self, state: &mut [u8], table: &mut [u8], out: &mut [u8]) -> i32 {
        let old_state = state.to_vec();
        let answer = self.right.fault(state, table, out);
        if self.wrong == Wrong::GoesOnAfterAFault && answer >= 0 {
            state[17..28].copy_from_slice(&old_state[17..28]);
        }
        answer
    }

    fn carry(&self, stamp: u32, q: u16, table: &[u8], carried: &mut i64) -> i32 {
        if self.wrong == Wrong::AlwaysRefusesToCarry {
            return -12;
        }
        let answer = self.right.carry(stamp, q, table, carried);
        match self.wrong {
            Wrong::CarriesNothing if answer == 0 => *carried = stamp.into(),
            Wrong::SubtractsUnsigned if answer == 0 => *carried = (*carried as u32).into(),
            _ => {}
        }
        answer
    }

    fn keep(&self, table: &mut [u8], bytes: &[u8]) -> i32 {
        let mut to = table.to_vec();
        match self.wrong {
            // As a table that is only logged in would take it.
            Wrong::KeepsFrom0Only
                if u16_at_or_0(table, 2) == 0 && u16_at_or_0(bytes, 0) != u16_at_or_0(table, 8) =>
            {
                let answer = self.right.keep(&mut to, bytes);
                return if answer == 0 { -23 } else { answer };
            }
            Wrong::KeepsAnyNumber if self.right.keep(&mut to, bytes) == -23 => {
                let mut numbered = bytes.to_vec();
                put_u16(&mut numbered, 0, u16_at(table, 8));
                return self.right.keep(table, &numbered);
            }
            _ => {}
        }
        self.right.keep(table, bytes)
    }

    fn salvage(&self, input: &[u8], table: &mut [u8], report: &mut [u8]) -> i32 {
        let answer = self.right.salvage(input, table, report);
        // The table is there before the report turns out not to fit.
        if self.wrong == Wrong::SalvagesBeforeItRefuses && answer == -3 {
            self.right.salvage(input, table, &mut [0; 16 * 1_027]);
        }
        answer
    }

    fn one_beast(&self, tables: Tables, sightings: Sightings, window: u32, side: &mut u32) -> i32 {
        let old_side = *side;
        let answer = self.right.one_beast(tables, sightings, window, side);
        if self.wrong == Wrong::NamesASideOnlyWhereItRefuses && answer > 0 {
            *side = old_side;
        }
        answer
    }

    fn newest_update(&self, tables: Tables, part: &mut Part) -> i32 {
        let old_part = *part;
        let answer = self.right.newest_update(tables, part);
        if self.wrong == Wrong::LeavesThePartWhereItRefuses && answer < 0 {
            *part = old_part;
        }
        answer
    }

    fn fetch_tell(
        &self,
        map: &mut [u64],
        told: &mut Told,
        any: u8,
        oldest: u16,
        newest: u16,
    ) -> i32 {
        let tell = |map: &mut [u64]| self.right.fetch_tell(map, told, any, oldest, newest);
        let answer = self.to_map(map, tell);
        if self.wrong == Wrong::TellsBeforeItRefuses && answer < 0 {
            self.right.fetch_tell(&mut [0; 1_024], told, any, oldest, newest);
        }
        answer
    }

    fn fetch_propose(&self, map: &[u64], told: &Told, request: &mut Request) -> i32 {
        let answer = self.right.fetch_propose(&self.understood(map), told, request);
        if self.wrong == Wrong::ClearsTheRequestWhereNothingIsMissing && answer == 0 {
            request.fill(0);
        }
        answer
    }

    fn fetch_take(&self, map: &mut [u64], told: &Told, number: u16) -> i32 {
        self.to_map(map, |map| self.right.fetch_take(map, told, number))
    }

    fn fetch_received(&self, map: &[u64]) -> i32 {
        self.right.fetch_received(&self.understood(map))
    }

    fn start(&self, state: &mut [u8], table: &mut [u8]) -> i32 {
        self.right.start(state, table)
    }
    fn seconds(&self, state: &mut [u8], n: u32) -> i32 {
        if self.wrong == Wrong::RefusesStatesWithTurnedRanges && has_turned_range(state) {
            return -2;
        }
        self.right.seconds(state, n)
    }
    fn switches(&self, state: &mut [u8], dtcp: u8, racp: u8, log: u8) -> i32 {
        self.right.switches(state, dtcp, racp, log)
    }
    fn disconnect(&self, state: &mut [u8]) -> i32 {
        self.right.disconnect(state)
    }
    fn join(&self, joining: &mut [u8], notification: &[u8]) -> i32 {
        self.right.join(joining, notification)
    }
    fn read(&self, bytes: &[u8], fields: &mut [u32; 11]) -> i32 {
        self.right.read(bytes, fields)
    }
    fn device_time(&self, state: &[u8], table: &[u8], out: &mut [u8]) -> i32 {
        self.right.device_time(state, table, out)
    }
    fn feature(&self, out: &mut [u8]) -> i32 {
        self.right.feature(out)
    }
    fn parameters(&self, out: &mut [u8]) -> i32 {
        self.right.parameters(out)
    }
    fn att_error(&self, number: u32) -> i32 {
        self.right.att_error(number)
    }
}

#[test]
fn the_comparison_notices_every_wrong_server() {
    for wrong in ALL {
        let outcome = compare(&Reference::new(), &wrong_reader(wrong), 3, CALLS);
        assert!(outcome.is_err(), "not noticed: {wrong:?}");
    }
}

#[test]
fn the_vectors_notice_every_wrong_server() {
    for wrong in ALL {
        assert!(!play_all(&wrong_reader(wrong)).failures.is_empty(), "not noticed: {wrong:?}");
    }
}
