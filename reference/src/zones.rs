//! Made tables with every zone and DST, and every month, and a calendar program compared with the
//! reference's on them and on any table.

use crate::calendar::{self, Calendar, Date};
use crate::concatenation::{entry_table, some_entry, sound_entry};
use crate::mutants::{wrong_with_dates, WRONG_CALENDARS};
use crate::numbers::PAPER;
use crate::program::{Program, Run, Runs};
use crate::random::{table_of, Random, ANY_UPDATE};
use crate::reader::Reference;
use crate::record::{dst_in_range, zone_in_range, Record, TimeFault, TimeUpdate};
use crate::table::Shape;

/// Base_Time's ends, both ends of 29 February 2024, and both sides of the New Year after it.
const SECONDS: [u32; 6] = [
    PAPER.first_base_time,
    PAPER.last_base_time,
    762_480_000,
    762_566_399,
    789_004_799,
    789_004_800,
];

/// What a line shows of a record. A fault has neither zone nor DST.
struct Shown {
    base: u32,
    zone_and_dst: Option<[u8; 2]>,
}

/// Every zone with every DST: an update at each of the seconds, and then a fault.
fn every_zone() -> Vec<Shown> {
    let bytes = || 0..=u8::MAX;
    let mut all = Vec::new();
    for zone in bytes().filter(|zone| zone_in_range(&PAPER, *zone)) {
        for dst in bytes().filter(|dst| dst_in_range(*dst)) {
            let ends = ends_of_2099(zone, dst);
            let bases = SECONDS.iter().chain(&ends);
            all.extend(bases.map(|base| Shown { base: *base, zone_and_dst: Some([zone, dst]) }));
            all.push(Shown { base: ends[0], zone_and_dst: None });
        }
    }
    all
}

/// Every month of Base_Time's years: its first second where that is still the month before, and the
/// second before it where that is already the month.
fn every_month() -> Vec<Shown> {
    let months = (2020..=2099).flat_map(|year| (1..=12).map(move |month| (year, month)));
    let firsts = months.filter_map(|(year, month)| {
        let first = Date { year, month, day: 1, hour: 0, minute: 0, second: 0 };
        calendar::PAPER.dates.seconds(&first)
    });
    let hour_east_or_west = |first: u32| {
        [(first, 0xFC), (PAPER.first_base_time.max(first - 1), 0x04)]
            .map(|(base, zone)| Shown { base, zone_and_dst: Some([zone, 0]) })
    };
    firsts.flat_map(hour_east_or_west).collect()
}

/// The last second that has its local time in 2099, and the next; the last of all where all have.
fn ends_of_2099(zone: u8, dst: u8) -> [u32; 2] {
    let ahead = calendar::QUARTER_SECONDS * (i32::from(zone as i8) + i32::from(dst));
    let last = PAPER.last_base_time;
    let shown = last.saturating_add_signed(-ahead).min(last);
    [shown, last.min(shown + 1)]
}

fn record(shown: &Shown, sequence: u16) -> Record {
    let base = shown.base;
    match shown.zone_and_dst {
        Some([zone, dst]) => Record::Update(TimeUpdate { sequence, zone, dst, base, ..ANY_UPDATE }),
        None => {
            let TimeUpdate { status, old_status, fault_count, old_base, .. } = ANY_UPDATE;
            Record::Fault(TimeFault { sequence, status, old_status, fault_count, base, old_base })
        }
    }
}

/// A full table, wrapped, whose numbers roll over where it is wrapped.
fn full_table(shown: &[Shown]) -> Vec<u8> {
    let slots = shown.len();
    let half = slots / 2;
    let mut left = shown.iter();
    let shape = Shape { slots, held: slots, oldest: slots - half, next: (slots - half) as u16 };
    table_of(shape, |sequence| record(left.next().expect("as many as slots"), sequence))
}

/// A calendar program beside the reference.
pub struct Comparison {
    pub program: Program<Calendar>,
}

impl Comparison {
    pub fn new(runs: Runs) -> Comparison {
        let with = |dates| Calendar { dates, ..calendar::PAPER };
        let wrong = wrong_with_dates(WRONG_CALENDARS, &calendar::PAPER, with);
        Comparison { program: Program::new(runs, lines, calendar::PAPER, wrong) }
    }

    /// The calendar of every zone and DST and every month, in full tables. Answers how many records
    /// there are.
    pub fn every_zone_and_month(&mut self) -> Result<usize, String> {
        let all: Vec<Shown> = every_zone().into_iter().chain(every_month()).collect();
        for (number, shown) in (1..).zip(all.chunks(PAPER.most_slots)) {
            let printed = self.program.printed(&full_table(shown));
            printed.map_err(|difference| {
                format!("a difference on table {number} of zones and months:\n{difference}")
            })?;
        }
        Ok(all.len())
    }

    /// The calendar of this many made tables, up to the first difference. Every other one is sound
    /// and of any number of slots; the rest are such as stand in concatenations, sound or not.
    pub fn made_tables(&mut self, seed: u64, runs: usize) -> Result<(), String> {
        let mut random = Random::new(seed);
        for run in 0..runs {
            let slots = 1 + random.below(PAPER.most_slots);
            let entry = match run % 2 {
                0 => sound_entry(&mut random, slots),
                _ => some_entry(&mut random),
            };
            let printed = self.program.printed(&entry_table(&entry));
            printed.map_err(|difference| {
                format!("a difference on this entry's table:\n  {entry:02X?}\n{difference}")
            })?;
        }
        Ok(())
    }
}

fn lines(calendar: &Calendar, table: &[u8]) -> Run {
    Run::without_complaint(calendar.lines(&Reference::new(), table))
}
