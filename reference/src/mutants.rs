//! Readers that are wrong in one number or one step each, those of a ramp and those that fetch among
//! them, and season, calendar, dates and salvage programs that are wrong in one: a comparison is worth
//! what it notices of these.

use crate::access::{matches, Filter, COMBINED_REPORT, NUMBER};
use crate::calendar::{
    self, days_before_month, days_before_year, known_dst, known_zone, Calendar, Dates,
};
use crate::dates::{is_cut, whole_numbers, Turning, NUMBER_BYTES};
use crate::fetch::{
    self, first_missing, if_inside, inside, is_received, oldest_to_newest, ones, receive,
    within_range, Fetch, Missing, Request, Told, MAP_WORDS, WORD_BITS,
};
use crate::numbers::{Numbers, PAPER};
use crate::octets::{all_zero, u16_at, u32_at};
use crate::ramp::{
    self, carried_of, log_of, updates, window_taken, Carried, Found, Newest, Ramp, Refused, Side,
    Sighting, Sightings, Tables, NO_UPDATE,
};
use crate::random::ANY_UPDATE;
use crate::reader::Reference;
use crate::record::{self, Record, TimeUpdate};
use crate::refusal::Refusal;
use crate::salvage::{
    all_fields, not_kept, once_round, record_of, room_for_both, sound_as_it_is, Entry as Reported,
    Lent, Run, Salvage, Salvaged, Slot, ENTRY_BYTES,
};
use crate::season::{Entry, Figures, Season};
use crate::table::{offset_of, slots_of_size, Log, HEADER_BYTES, SLOT_BYTES};
use std::collections::BTreeSet;
use std::slice;

/// A number or step of the paper, spoiled; or one thing of something else.
pub struct Mutant<T = Numbers> {
    pub name: &'static str,
    spoil: fn(&mut T),
}

pub const MUTANTS: &[Mutant] = &[
    Mutant { name: "86,401 seconds are realistic", spoil: |n| n.realistic_seconds = 86_401 },
    Mutant { name: "source 7 reaches grade 3", spoil: |n| n.sources_without_zone = &[0, 3, 4] },
    Mutant { name: "GPS stops at grade 2", spoil: |n| n.sources_without_zone = &[0, 2, 3, 4, 7] },
    Mutant { name: "filters compare plain numbers", spoil: |n| n.matches = plain_numbers },
    Mutant { name: "a range is cut to what is held", spoil: |n| n.matches = cut_range },
    Mutant { name: "the next number counts as held", spoil: |n| n.matches = next_as_newest },
    Mutant { name: "counter 62, then 0", spoil: |n| n.counters = 63 },
    Mutant { name: "fault count stays at 65,534", spoil: |n| n.last_fault_count = 65_534 },
    Mutant { name: "records of at most 44 bytes", spoil: |n| n.record_bytes = 44 },
    Mutant { name: "a slot's last byte isn't looked at", spoil: |n| n.slot_end = 63 },
    Mutant { name: "number 65,535 left out", spoil: |n| n.sequence_numbers = 65_535 },
    Mutant { name: "source 4 keeps its accuracy", spoil: |n| n.sources_without_accuracy = [0, 0] },
    Mutant { name: "P up to 245", spoil: |n| n.largest_payload = 245 },
    Mutant { name: "filter type 2", spoil: |n| n.filter_type = 2 },
    Mutant { name: "last bit never set", spoil: |n| n.last_bit = 0 },
    Mutant { name: "P from 19", spoil: |n| n.smallest_payload = 19 },
    Mutant { name: "2099 ends a second early", spoil: |n| n.last_base_time = 3_155_759_998 },
    Mutant { name: "2020 begins a second early", spoil: |n| n.first_base_time = 631_151_999 },
    Mutant { name: "zone up to 57", spoil: |n| n.last_zone = 57 },
    Mutant { name: "zone from -47", spoil: |n| n.first_zone = -47 },
    Mutant { name: "source up to 8", spoil: |n| n.last_source = 8 },
    Mutant {
        name: "source 8 stops at grade 2",
        spoil: |n| n.sources_without_zone = &[0, 3, 4, 7, 8],
    },
    Mutant { name: "N up to 1,022", spoil: |n| n.most_slots = 1_022 },
    Mutant { name: "output of 19 bytes", spoil: |n| n.smallest_output = 19 },
    Mutant { name: "writes of up to 21 bytes", spoil: |n| n.longest_write = 21 },
    Mutant { name: "first bit never set", spoil: |n| n.first_bit = 0 },
    Mutant { name: "at least v takes the record before it", spoil: |n| n.matches = one_older },
    Mutant { name: "at most v takes the record after it", spoil: |n| n.matches = one_newer },
    Mutant { name: "at least one before the oldest is all", spoil: |n| n.matches = before_as_all },
    Mutant { name: "a turned range is turned back", spoil: |n| n.matches = turned_back },
    Mutant { name: "windows of up to 61 seconds", spoil: |n| n.widest_window = 61 },
    Mutant { name: "windows of up to 59 seconds", spoil: |n| n.widest_window = 59 },
];

impl<T: Clone> Mutant<T> {
    fn of(&self, right: &T) -> T {
        let mut wrong = right.clone();
        (self.spoil)(&mut wrong);
        wrong
    }
}

/// Each of them made of what is right, with its name.
pub fn wrong<T: Clone>(mutants: &[Mutant<T>], right: &T) -> Vec<(&'static str, T)> {
    mutants.iter().map(|mutant| (mutant.name, mutant.of(right))).collect()
}

/// The wrong ones of a program that shows dates: its own, and those of the dates, put in by `with`.
pub fn wrong_with_dates<T: Clone>(
    own: &[Mutant<T>],
    right: &T,
    with: fn(Dates) -> T,
) -> Vec<(&'static str, T)> {
    let dates = wrong(WRONG_DATES, &calendar::PAPER.dates);
    let dates = dates.into_iter().map(|(name, dates)| (name, with(dates)));
    wrong(own, right).into_iter().chain(dates).collect()
}

/// The reference with that number or step spoiled.
pub fn spoiled(mutant: &Mutant) -> Reference {
    Reference { numbers: mutant.of(&PAPER), ..Reference::new() }
}

/// Each wrong ramp with the reference around it.
pub fn wrong_ramps() -> Vec<(&'static str, Reference)> {
    references(WRONG_RAMPS, &ramp::PAPER, |ramp| Reference { ramp, ..Reference::new() })
}

/// Each wrong fetch with the reference around it.
pub fn wrong_fetches() -> Vec<(&'static str, Reference)> {
    references(WRONG_FETCHES, &fetch::PAPER, |fetch| Reference { fetch, ..Reference::new() })
}

fn references<T: Clone>(
    mutants: &[Mutant<T>],
    right: &T,
    with: fn(T) -> Reference,
) -> Vec<(&'static str, Reference)> {
    wrong(mutants, right).into_iter().map(|(name, wrong)| (name, with(wrong))).collect()
}

/// The reference with this salvage.
pub fn salvaging(salvage: Salvage) -> Reference {
    Reference { salvage, ..Reference::new() }
}

/// The rule that change request E1 did away with.
fn plain_numbers(numbers: &Numbers, log: &Log, filter: Filter, age: usize) -> bool {
    let sequence = log.sequence(age);
    match filter {
        Filter::AtMost(maximum) => sequence <= maximum,
        Filter::AtLeast(minimum) => minimum <= sequence,
        Filter::Range(minimum, maximum) => (minimum..=maximum).contains(&sequence),
        _ => matches(numbers, log, filter, age),
    }
}

fn cut_range(numbers: &Numbers, log: &Log, filter: Filter, age: usize) -> bool {
    let Filter::Range(minimum, maximum) = filter else {
        return matches(numbers, log, filter, age);
    };
    log.age_of(numbers, minimum).is_none_or(|oldest| oldest <= age)
        && log.age_of(numbers, maximum).is_none_or(|newest| age <= newest)
}

fn next_as_newest(numbers: &Numbers, log: &Log, filter: Filter, age: usize) -> bool {
    let newest = log.sequence(log.shape.held - 1);
    let held = |maximum| if maximum == log.shape.next { newest } else { maximum };
    let filter = match filter {
        Filter::AtMost(maximum) => Filter::AtMost(held(maximum)),
        Filter::Range(minimum, maximum) => Filter::Range(minimum, held(maximum)),
        _ => filter,
    };
    matches(numbers, log, filter, age)
}

fn one_older(numbers: &Numbers, log: &Log, filter: Filter, age: usize) -> bool {
    let newer = age + usize::from(matches!(filter, Filter::AtLeast(_)));
    matches(numbers, log, filter, newer)
}

fn one_newer(numbers: &Numbers, log: &Log, filter: Filter, age: usize) -> bool {
    let older = age.saturating_sub(usize::from(matches!(filter, Filter::AtMost(_))));
    matches(numbers, log, filter, older)
}

fn before_as_all(numbers: &Numbers, log: &Log, filter: Filter, age: usize) -> bool {
    let before = |minimum| numbers.sequence_after(minimum) == log.sequence(0);
    matches!(filter, Filter::AtLeast(minimum) if before(minimum))
        || matches(numbers, log, filter, age)
}

fn turned_back(numbers: &Numbers, log: &Log, filter: Filter, age: usize) -> bool {
    let turned = match filter {
        Filter::Range(minimum, maximum) => Filter::Range(maximum, minimum),
        _ => filter,
    };
    matches(numbers, log, filter, age) || matches(numbers, log, turned, age)
}

pub const WRONG_SEASONS: &[Mutant<Season>] = &[
    Mutant { name: "positions from 0", spoil: |s| s.first_position = 0 },
    Mutant { name: "no position for a refused table", spoil: |s| s.refused_positions = 0 },
    Mutant { name: "a refused table's records in the totals", spoil: |s| s.add_refused = add_all },
    Mutant { name: "65,536 tables", spoil: |s| s.numbers.most_tables = 65_536 },
    Mutant { name: "65,534 tables", spoil: |s| s.numbers.most_tables = 65_534 },
    Mutant { name: "size 65,552 permitted", spoil: |s| s.numbers.most_slots = 1_024 },
    Mutant { name: "size 65,488 not permitted", spoil: |s| s.numbers.most_slots = 1_022 },
    Mutant { name: "a cut table ends like a whole one", spoil: |s| s.cut_table = Entry::Nothing },
    Mutant { name: "a fault's jump is a move", spoil: |s| s.add = add_faults_jump },
    Mutant { name: "an update by 0 is none", spoil: |s| s.add = add_moves_only },
    Mutant { name: "seconds back added to those forward", spoil: |s| s.add = add_back_forward },
    Mutant { name: "largest of the moves forward only", spoil: |s| s.add = add_largest_forward },
    Mutant { name: "seconds in 32 bits", spoil: |s| s.add = add_in_32_bits },
    Mutant { name: "the last table's largest in the totals", spoil: |s| s.add_table = add_last },
];

/// Adds every slot that has a record, whatever else is wrong with the table.
fn add_all(total: &mut Figures, table: &[u8]) {
    for slot in table[HEADER_BYTES..].chunks_exact(SLOT_BYTES) {
        let end = SLOT_BYTES.min(1 + usize::from(slot[0]));
        if let Some(record) = record::read(&PAPER, &slot[1..end]) {
            total.add(&record);
        }
    }
}

fn add_faults_jump(figures: &mut Figures, record: &Record) {
    figures.add(record);
    if let Record::Fault(fault) = record {
        figures.add_move(fault.base, fault.old_base);
    }
}

fn add_moves_only(figures: &mut Figures, record: &Record) {
    if !matches!(record, Record::Update(update) if update.base == update.old_base) {
        figures.add(record);
    }
}

fn add_back_forward(figures: &mut Figures, record: &Record) {
    figures.add(record);
    figures.forward += std::mem::take(&mut figures.back);
}

fn add_largest_forward(figures: &mut Figures, record: &Record) {
    let largest = figures.largest;
    figures.add(record);
    if matches!(record, Record::Update(update) if update.base < update.old_base) {
        figures.largest = largest;
    }
}

fn add_in_32_bits(figures: &mut Figures, record: &Record) {
    figures.add(record);
    figures.forward = u64::from(figures.forward as u32);
    figures.back = u64::from(figures.back as u32);
}

fn add_last(total: &mut Figures, table: &Figures) {
    total.add_table(table);
    total.largest = table.largest;
}

/// Seconds turned to dates wrongly, whoever prints them.
const WRONG_DATES: &[Mutant<Dates>] = &[
    Mutant { name: "2000 is no leap year", spoil: |d| d.days_before_year = without_2000 },
    Mutant { name: "2001 is a leap year", spoil: |d| d.days_before_year = with_2001 },
    Mutant { name: "2096 is no leap year", spoil: |d| d.days_before_year = without_2096 },
    Mutant { name: "31 September, for 31 August", spoil: |d| d.days_before_month = early_autumn },
    Mutant { name: "months from 0", spoil: |d| d.first_month = 0 },
    Mutant { name: "days from 0", spoil: |d| d.first_day = 0 },
    Mutant { name: "days of 86,401 seconds", spoil: |d| d.day_seconds = 86_401 },
    Mutant {
        name: "hours from 0 to 11",
        spoil: |d| d.time = |s| [s / 3_600 % 12, s / 60 % 60, s % 60],
    },
    Mutant {
        name: "minutes from the day's beginning",
        spoil: |d| d.time = |s| [s / 3_600, s / 60, s % 60],
    },
    Mutant {
        name: "seconds from 1 to 60",
        spoil: |d| d.time = |s| [s / 3_600, s / 60 % 60, 1 + s % 60],
    },
    Mutant { name: "2100 has dates", spoil: |d| d.years = 2000..=2100 },
    Mutant { name: "2099 has no dates", spoil: |d| d.years = 2000..=2098 },
    Mutant { name: "no dates before 2020", spoil: |d| d.years = 2020..=2099 },
];

/// Years count from 1 March 1600, so that year 400 begins on 1 March 2000.
fn without_2000(years: u32) -> u32 {
    days_before_year(years) - u32::from(years >= 400)
}

fn with_2001(years: u32) -> u32 {
    days_before_year(years) + u32::from(years >= 401)
}

fn without_2096(years: u32) -> u32 {
    days_before_year(years) - u32::from(years >= 496)
}

/// September is six months after March.
fn early_autumn(months: u32) -> u32 {
    days_before_month(months) - u32::from(months == 6)
}

/// What is not the calendar's: turning back, the numbers themselves, and the input's end.
pub const WRONG_TURNINGS: &[Mutant<Turning>] = &[
    Mutant {
        name: "back to the minute",
        spoil: |t| t.dates.second_of_day = |date| 3_600 * date.hour + 60 * date.minute,
    },
    Mutant {
        name: "back by 24 minutes for 24 hours",
        spoil: |t| t.dates.second_of_day = |date| 60 * (date.hour + date.minute) + date.second,
    },
    Mutant { name: "no line past 2099", spoil: |t| t.no_date = "" },
    Mutant { name: "an empty line past 2099", spoil: |t| t.no_date = "\n" },
    Mutant { name: "every number has a date", spoil: |t| t.dates.years = 2000..=u32::MAX },
    Mutant { name: "numbers of 31 bits", spoil: |t| t.numbers = in_31_bits },
    Mutant { name: "the highest byte first", spoil: |t| t.numbers = highest_byte_first },
    Mutant { name: "the last number has no line", spoil: |t| t.numbers = without_last },
    Mutant { name: "nothing is printed of cut input", spoil: |t| t.numbers = none_of_cut },
    Mutant { name: "a cut number is filled up with 0", spoil: |t| t.numbers = filled_up },
    Mutant { name: "cut input is not complained of", spoil: |t| t.complains = |_| false },
    Mutant { name: "empty input is complained of", spoil: |t| t.complains = empty_or_cut },
];

fn in_31_bits(input: &[u8]) -> Vec<u32> {
    whole_numbers(input).into_iter().map(|number| number & (u32::MAX >> 1)).collect()
}

fn highest_byte_first(input: &[u8]) -> Vec<u32> {
    whole_numbers(input).into_iter().map(u32::swap_bytes).collect()
}

fn without_last(input: &[u8]) -> Vec<u32> {
    let mut numbers = whole_numbers(input);
    numbers.pop();
    numbers
}

fn none_of_cut(input: &[u8]) -> Vec<u32> {
    if is_cut(input) {
        return Vec::new();
    }
    whole_numbers(input)
}

fn filled_up(input: &[u8]) -> Vec<u32> {
    let mut whole = input.to_vec();
    whole.resize(input.len().next_multiple_of(NUMBER_BYTES), 0);
    whole_numbers(&whole)
}

fn empty_or_cut(input: &[u8]) -> bool {
    input.is_empty() || is_cut(input)
}

pub const WRONG_CALENDARS: &[Mutant<Calendar>] = &[
    Mutant { name: "the old base is shown", spoil: |c| c.base = |[.., old_base]| *old_base },
    Mutant { name: "a fault has zone and DST 0", spoil: |c| c.has_zone = |_| true },
    Mutant { name: "zone left out", spoil: |c| c.zone = |zone| known_zone(zone).map(|_| 0) },
    Mutant {
        name: "zone taken away",
        spoil: |c| c.zone = |zone| known_zone(zone).map(|zone| -zone),
    },
    Mutant {
        name: "zone in hours",
        spoil: |c| c.zone = |zone| known_zone(zone).map(|zone| 4 * zone),
    },
    Mutant {
        name: "zone without sign",
        spoil: |c| c.zone = |zone| known_zone(zone).map(|_| zone as i32),
    },
    Mutant {
        name: "zone 0 is unknown",
        spoil: |c| c.zone = |zone| known_zone(zone).filter(|zone| *zone != 0),
    },
    Mutant { name: "unknown zone as 0", spoil: |c| c.zone = |zone| known_zone(zone).or(Some(0)) },
    Mutant {
        name: "unknown zone as -128",
        spoil: |c| c.zone = |zone| known_zone(zone).or(Some(-128)),
    },
    Mutant { name: "DST left out", spoil: |c| c.dst = |dst| known_dst(dst).map(|_| 0) },
    Mutant { name: "DST taken away", spoil: |c| c.dst = |dst| known_dst(dst).map(|dst| -dst) },
    Mutant {
        name: "DST in half hours",
        spoil: |c| c.dst = |dst| known_dst(dst).map(|dst| 2 * dst),
    },
    Mutant {
        name: "double DST as DST",
        spoil: |c| c.dst = |dst| known_dst(dst).map(|dst| dst.min(4)),
    },
    Mutant { name: "unknown DST as 0", spoil: |c| c.dst = |dst| known_dst(dst).or(Some(0)) },
    Mutant { name: "unknown DST as 255", spoil: |c| c.dst = |dst| Some(dst as i32) },
];

pub const WRONG_SALVAGES: &[Mutant<Salvage>] = &[
    Mutant {
        name: "the first of equal runs",
        spoil: |s| s.later = |a, b| (a.length, b.first).cmp(&(b.length, a.first)),
    },
    Mutant {
        name: "the last run, however long",
        spoil: |s| {
            s.later = |a, b| (a.first + a.length, a.length).cmp(&(b.first + b.length, b.length))
        },
    },
    Mutant { name: "a run goes on from the end", spoil: |s| s.runs = joined_runs },
    Mutant { name: "a run goes on over what doesn't count", spoil: |s| s.order = counting_only },
    Mutant { name: "H believed", spoil: |s| s.order = held_only },
    Mutant { name: "the header's N believed", spoil: |s| s.order = as_many_as_said },
    Mutant { name: "read from 16 always", spoil: |s| s.order = |_, slots| (0..slots).collect() },
    Mutant { name: "an offset inside a slot believed", spoil: |s| s.order = from_any_offset },
    Mutant { name: "the tail looked at", spoil: |s| s.record = with_zeros_after },
    Mutant { name: "the length byte not looked at", spoil: |s| s.record = as_long_as_its_type },
    Mutant { name: "a fault doesn't count", spoil: |s| s.record = updates_only },
    Mutant {
        name: "0 doesn't follow 65,535",
        spoil: |s| s.follows = |_, a, b| a < b && b - a == 1,
    },
    Mutant {
        name: "a number may be left out",
        spoil: |s| s.follows = |_, a, b| matches!(b.wrapping_sub(a), 1 | 2),
    },
    Mutant {
        name: "a number may come again",
        spoil: |s| s.follows = |_, a, b| b.wrapping_sub(a) <= 1,
    },
    Mutant { name: "next is the last number", spoil: |s| s.next = |_, last, _| last },
    Mutant { name: "the header's next believed", spoil: |s| s.next = |_, _, old| old },
    Mutant { name: "records where they stood", spoil: |s| s.place = |_, place| place },
    Mutant { name: "tails copied too", spoil: |s| s.kept = |slot| slot.bytes.to_vec() },
    Mutant { name: "unchanged fields reported too", spoil: |s| s.fields = all_fields },
    Mutant { name: "old and new exchanged", spoil: |s| s.fields = |old, new| changed(new, old) },
    Mutant { name: "the header's last field first", spoil: |s| s.fields = last_first },
    Mutant { name: "bytes 10-15 not reported", spoil: |s| s.fields = without_rest },
    Mutant { name: "empty slots not reported", spoil: |s| s.lost = without_empty },
    Mutant { name: "rubbish not reported", spoil: |s| s.lost = without_rubbish },
    Mutant { name: "slots in the order of reading", spoil: |s| s.lost = as_read },
    Mutant { name: "slots counted in the order of reading", spoil: |s| s.lost = counted_as_read },
    Mutant { name: "slots counted from 1", spoil: |s| s.lost = counted_from_1 },
    Mutant { name: "a slot's place in a byte", spoil: |s| s.lost = place_in_a_byte },
    Mutant {
        name: "the header after the slots",
        spoil: |s| s.report = |fields, slots| [slots, fields].concat(),
    },
    Mutant { name: "a sound table has a report", spoil: |s| s.comes_back = with_report },
    Mutant { name: "a sound table is written anew", spoil: |s| s.comes_back = |_, _| None },
    Mutant { name: "an empty table has nothing to keep", spoil: |s| s.comes_back = if_not_empty },
    Mutant { name: "any size, rounded down", spoil: |s| s.slots_of_size = rounded_down },
    Mutant { name: "at most 1,022 slots", spoil: |s| s.slots_of_size = fewer_slots },
    Mutant { name: "1,024 slots", spoil: |s| s.slots_of_size = more_slots },
];

fn joined_runs(salvage: &Salvage, numbers: &Numbers, read: &[Slot]) -> Vec<Run> {
    let (slots, twice) = (read.len(), [read, read].concat());
    let length = |first| salvage.length(numbers, &twice[first..first + slots]);
    let run = |first| Run { first, length: length(first) };
    (0..slots).map(run).filter(|run| run.length > 0).collect()
}

fn slot_of(input: &[u8], place: usize) -> &[u8] {
    &input[offset_of(place)..offset_of(place + 1)]
}

fn counting_only(input: &[u8], slots: usize) -> Vec<usize> {
    let mut order = once_round(input, slots);
    order.retain(|place| record_of(&PAPER, slot_of(input, *place)).is_some());
    order
}

fn held_only(input: &[u8], slots: usize) -> Vec<usize> {
    let mut order = once_round(input, slots);
    order.truncate(usize::from(u16_at(input, 2)));
    order
}

fn as_many_as_said(input: &[u8], slots: usize) -> Vec<usize> {
    once_round(input, slots.min(usize::from(u16_at(input, 0))))
}

fn from_any_offset(input: &[u8], slots: usize) -> Vec<usize> {
    let first = (u32_at(input, 4) as usize).saturating_sub(HEADER_BYTES) / SLOT_BYTES;
    (0..slots).map(|read| (first + read) % slots).collect()
}

fn with_zeros_after<'a>(numbers: &Numbers, slot: &'a [u8]) -> Option<&'a [u8]> {
    record_of(numbers, slot).filter(|record| all_zero(&slot[1 + record.len()..]))
}

fn as_long_as_its_type<'a>(numbers: &Numbers, slot: &'a [u8]) -> Option<&'a [u8]> {
    let lengths = [record::TIME_FAULT_BYTES, record::TIME_UPDATE_BYTES];
    let length = lengths.get(usize::from(slot[3]))?;
    let record = &slot[1..1 + length];
    record::well_formed(numbers, record).then_some(record)
}

fn updates_only<'a>(numbers: &Numbers, slot: &'a [u8]) -> Option<&'a [u8]> {
    record_of(numbers, slot).filter(|record| record[2] == record::TIME_UPDATE)
}

fn changed(old: &[u8], new: &[u8]) -> Vec<Reported> {
    (crate::salvage::PAPER.fields)(old, new)
}

fn last_first(old: &[u8], new: &[u8]) -> Vec<Reported> {
    changed(old, new).into_iter().rev().collect()
}

fn without_rest(old: &[u8], new: &[u8]) -> Vec<Reported> {
    changed(&[&old[..10], &new[10..]].concat(), new)
}

fn without_empty(all: &[Slot], kept: &[Slot]) -> Vec<usize> {
    let empty = |place| all.iter().any(|slot| slot.place == place && all_zero(slot.bytes));
    not_kept(all, kept).into_iter().filter(|place| !empty(*place)).collect()
}

fn without_rubbish(all: &[Slot], kept: &[Slot]) -> Vec<usize> {
    let rubbish = |slot: &Slot| slot.record.is_none() && !all_zero(slot.bytes);
    let rubbish = |place| all.iter().any(|slot| slot.place == place && rubbish(slot));
    not_kept(all, kept).into_iter().filter(|place| !rubbish(*place)).collect()
}

fn as_read(all: &[Slot], kept: &[Slot]) -> Vec<usize> {
    let lost = not_kept(all, kept);
    all.iter().map(|slot| slot.place).filter(|place| lost.contains(place)).collect()
}

fn counted_as_read(all: &[Slot], kept: &[Slot]) -> Vec<usize> {
    let lost = not_kept(all, kept);
    (0..all.len()).filter(|read| lost.contains(&all[*read].place)).collect()
}

fn counted_from_1(all: &[Slot], kept: &[Slot]) -> Vec<usize> {
    not_kept(all, kept).into_iter().map(|place| place + 1).collect()
}

fn place_in_a_byte(all: &[Slot], kept: &[Slot]) -> Vec<usize> {
    not_kept(all, kept).into_iter().map(|place| place % 256).collect()
}

/// The slots that aren't held.
fn with_report(numbers: &Numbers, input: &[u8]) -> Option<Salvaged> {
    let shape = Log::open(numbers, input).ok()?.shape;
    let not_held = shape.held..shape.slots;
    let report = not_held.map(|age| Reported::Slot((shape.oldest + age) % shape.slots)).collect();
    Some(Salvaged { table: input.to_vec(), report })
}

fn if_not_empty(numbers: &Numbers, input: &[u8]) -> Option<Salvaged> {
    let held = Log::open(numbers, input).ok()?.shape.held;
    sound_as_it_is(numbers, input).filter(|_| held > 0)
}

fn rounded_down(_: &Numbers, size: usize) -> Option<usize> {
    let slots = size.checked_sub(HEADER_BYTES)? / SLOT_BYTES;
    (1..=PAPER.most_slots).contains(&slots).then_some(slots)
}

fn fewer_slots(numbers: &Numbers, size: usize) -> Option<usize> {
    slots_of_size(numbers, size).filter(|slots| *slots < numbers.most_slots)
}

fn more_slots(numbers: &Numbers, size: usize) -> Option<usize> {
    slots_of_size(&Numbers { most_slots: numbers.most_slots + 1, ..numbers.clone() }, size)
}

/// What the program, which has room for everything, doesn't show: a caller's rooms.
pub const WRONG_ROOMS: &[Mutant<Salvage>] = &[
    Mutant { name: "3 before 20", spoil: |s| s.fits = room_before_size },
    Mutant { name: "3 before 21", spoil: |s| s.fits = room_before_records },
    Mutant { name: "a report is cut to its room", spoil: |s| s.fits = cut_report },
    Mutant { name: "no room left over", spoil: |s| s.fits = exact_rooms },
    Mutant { name: "a sound table needs room for a report", spoil: |s| s.fits = room_for_an_entry },
    Mutant { name: "the rest of a room is zeroed", spoil: |s| s.write = zeros_after },
];

fn room_before_size(found: Result<Salvaged, Refusal>, lent: Lent) -> Result<Salvaged, Refusal> {
    match found {
        Err(Refusal::SizeOfNoTable) if lent.table < lent.input => Err(Refusal::OutputTooShort),
        _ => room_for_both(found, lent),
    }
}

fn room_before_records(found: Result<Salvaged, Refusal>, lent: Lent) -> Result<Salvaged, Refusal> {
    match found {
        Err(Refusal::NoRecord) if lent.table < lent.input => Err(Refusal::OutputTooShort),
        _ => room_for_both(found, lent),
    }
}

fn cut_report(found: Result<Salvaged, Refusal>, lent: Lent) -> Result<Salvaged, Refusal> {
    let mut salvaged = found?;
    salvaged.report.truncate(lent.report / ENTRY_BYTES);
    room_for_both(Ok(salvaged), lent)
}

fn exact_rooms(found: Result<Salvaged, Refusal>, lent: Lent) -> Result<Salvaged, Refusal> {
    let salvaged = room_for_both(found, lent)?;
    let exact = salvaged.table.len() == lent.table;
    Some(salvaged).filter(|_| exact).ok_or(Refusal::OutputTooShort)
}

fn room_for_an_entry(found: Result<Salvaged, Refusal>, lent: Lent) -> Result<Salvaged, Refusal> {
    let salvaged = room_for_both(found, lent)?;
    Some(salvaged).filter(|_| lent.report >= ENTRY_BYTES).ok_or(Refusal::OutputTooShort)
}

fn zeros_after(room: &mut [u8], bytes: &[u8]) {
    room.fill(0);
    room[..bytes.len()].copy_from_slice(bytes);
}

pub const WRONG_RAMPS: &[Mutant<Ramp>] = &[
    Mutant { name: "ages stop at 0", spoil: |r| r.age = |s, carried| age(s, carried).max(0) },
    Mutant {
        name: "ages in 32 bits without sign",
        spoil: |r| r.age = |s, carried| i64::from(age(s, carried) as u32),
    },
    Mutant {
        name: "ages in 32 bits with sign",
        spoil: |r| r.age = |s, carried| i64::from(age(s, carried) as i32),
    },
    Mutant { name: "carried stamps instead of ages", spoil: |r| r.age = |_, carried| carried },
    Mutant { name: "stamps as they were noted", spoil: |r| r.age = |s, _| s.stamp.into() },
    Mutant {
        name: "ages of stamps as they were noted",
        spoil: |r| r.age = |s, _| age(s, s.stamp.into()),
    },
    Mutant {
        name: "less than the window",
        spoil: |r| r.is_one = |[left, right], window| left.abs_diff(right) < window.into(),
    },
    Mutant {
        name: "any time after the left read",
        spoil: |r| r.is_one = |[left, right], window| right - left <= window.into(),
    },
    Mutant {
        name: "any time after the right read",
        spoil: |r| r.is_one = |[left, right], window| left - right <= window.into(),
    },
    Mutant { name: "the right stamp first", spoil: |r| r.carried = right_stamp_first },
    Mutant { name: "the window last", spoil: |r| r.carried = window_last },
    Mutant { name: "both tables before a stamp", spoil: |r| r.carried = tables_before_stamps },
    Mutant {
        name: "both stamps over the left log",
        spoil: |r| {
            r.carried = |n, [left, _], reads, window| carried(n, [left, left], reads, window)
        },
    },
    Mutant {
        name: "each stamp over the other log",
        spoil: |r| {
            r.carried = |n, [left, right], reads, window| carried(n, [right, left], reads, window)
        },
    },
    Mutant { name: "a refusal names no side", spoil: |r| r.carried = of_no_side },
    Mutant { name: "the largest base of any update", spoil: |r| r.newest_of = largest_of_all },
    Mutant {
        name: "the oldest update",
        spoil: |r| r.newest_of = |numbers, log| updates(numbers, log).into_iter().next(),
    },
    Mutant { name: "a fault taken for an update", spoil: |r| r.newest_of = newest_of_any_type },
    Mutant { name: "the newest record or none", spoil: |r| r.newest_of = newest_if_update },
    Mutant { name: "slots counted by age", spoil: |r| r.newest_of = place_by_age },
    Mutant {
        name: "the right one of equal bases",
        spoil: |r| r.later = |newest| right_if(newest, |left, right| left.base <= right.base),
    },
    Mutant {
        name: "the smaller base",
        spoil: |r| r.later = |newest| right_if(newest, |left, right| right.base < left.base),
    },
    Mutant {
        name: "bases with a sign",
        spoil: |r| {
            r.later =
                |newest| right_if(newest, |left, right| (left.base as i32) < right.base as i32)
        },
    },
    Mutant {
        name: "the larger old base",
        spoil: |r| {
            r.later = |newest| right_if(newest, |left, right| left.old_base < right.old_base)
        },
    },
    Mutant {
        name: "the larger number",
        spoil: |r| {
            r.later = |newest| right_if(newest, |left, right| left.sequence < right.sequence)
        },
    },
    Mutant {
        name: "the left one if there is one",
        spoil: |r| r.later = |newest| right_if(newest, |_, _| false),
    },
    Mutant { name: "19 where one side has none", spoil: |r| r.later = only_of_two },
    Mutant { name: "19 before the tables", spoil: |r| r.newest = none_before_tables },
    Mutant { name: "the right table first", spoil: |r| r.newest = right_table_first },
    Mutant { name: "no update in an unsound table", spoil: |r| r.newest = none_if_unsound },
    Mutant {
        name: "the slot, not the record",
        spoil: |r| r.part = |side, found| [side as u32, found.bytes.start as u32 - 1, 64],
    },
    Mutant {
        name: "the length byte too",
        spoil: |r| r.part = |side, found| [side as u32, found.bytes.start as u32 - 1, 25],
    },
];

fn age(sighting: &Sighting, carried: i64) -> i64 {
    (ramp::PAPER.age)(sighting, carried)
}

fn carried(numbers: &Numbers, tables: Tables, sightings: Sightings, window: u32) -> Carried {
    (ramp::PAPER.carried)(numbers, tables, sightings, window)
}

fn right_stamp_first(
    numbers: &Numbers,
    [left, right]: Tables,
    [of_left, of_right]: Sightings,
    window: u32,
) -> Carried {
    window_taken(numbers, window)?;
    let right = carried_of(numbers, Side::Right, right, of_right)?;
    Ok([carried_of(numbers, Side::Left, left, of_left)?, right])
}

fn window_last(numbers: &Numbers, tables: Tables, sightings: Sightings, window: u32) -> Carried {
    let carried = carried(numbers, tables, sightings, 0)?;
    window_taken(numbers, window)?;
    Ok(carried)
}

fn tables_before_stamps(
    numbers: &Numbers,
    tables: Tables,
    sightings: Sightings,
    window: u32,
) -> Carried {
    window_taken(numbers, window)?;
    log_of(numbers, Side::Left, tables[0])?;
    log_of(numbers, Side::Right, tables[1])?;
    carried(numbers, tables, sightings, window)
}

fn of_no_side(numbers: &Numbers, tables: Tables, sightings: Sightings, window: u32) -> Carried {
    carried(numbers, tables, sightings, window)
        .map_err(|refused| Refused { side: Side::Neither, ..refused })
}

fn largest_of_all(numbers: &Numbers, log: &Log) -> Option<Found> {
    updates(numbers, log).into_iter().max_by_key(|found| found.update.base)
}

fn newest_of_any_type(numbers: &Numbers, log: &Log) -> Option<Found> {
    let age = log.shape.held.checked_sub(1)?;
    let update = match record::read(numbers, log.record(age))? {
        Record::Update(update) => update,
        Record::Fault(fault) => TimeUpdate { base: fault.base, ..ANY_UPDATE },
    };
    Some(Found { update, bytes: log.place(age) })
}

fn newest_if_update(numbers: &Numbers, log: &Log) -> Option<Found> {
    let newest = log.place(log.shape.held.checked_sub(1)?);
    updates(numbers, log).pop().filter(|found| found.bytes == newest)
}

/// As if the oldest record always stood in the first slot.
fn place_by_age(numbers: &Numbers, log: &Log) -> Option<Found> {
    let found = (ramp::PAPER.newest_of)(numbers, log)?;
    let at = offset_of(log.age_of(numbers, found.update.sequence)?) + 1;
    Some(Found { bytes: at..at + found.bytes.len(), ..found })
}

/// Of two the right one if this says so, else the left one.
fn right_if(newest: Newest, says: fn(&TimeUpdate, &TimeUpdate) -> bool) -> Option<(Side, Found)> {
    match newest {
        [Some(left), Some(right)] if says(&left.update, &right.update) => {
            Some((Side::Right, right))
        }
        [Some(left), Some(_)] => Some((Side::Left, left)),
        newest => (ramp::PAPER.later)(newest),
    }
}

fn only_of_two(newest: Newest) -> Option<(Side, Found)> {
    let both = newest.iter().all(Option::is_some);
    (ramp::PAPER.later)(newest).filter(|_| both)
}

fn none_before_tables(ramp: &Ramp, numbers: &Numbers, tables: Tables) -> Result<Newest, Refused> {
    let [left, right] = none_if_unsound(ramp, numbers, tables)?;
    if left.is_none() && right.is_none() {
        return Err(NO_UPDATE);
    }
    (ramp::PAPER.newest)(ramp, numbers, tables)
}

fn right_table_first(ramp: &Ramp, numbers: &Numbers, tables: Tables) -> Result<Newest, Refused> {
    log_of(numbers, Side::Right, tables[1])?;
    (ramp::PAPER.newest)(ramp, numbers, tables)
}

fn none_if_unsound(ramp: &Ramp, numbers: &Numbers, tables: Tables) -> Result<Newest, Refused> {
    let newest_of = |table| (ramp.newest_of)(numbers, &Log::open(numbers, table).ok()?);
    Ok(tables.map(newest_of))
}

pub const WRONG_FETCHES: &[Mutant<Fetch>] = &[
    Mutant { name: "1 for 3", spoil: |f| f.refusal = Refusal::TableNotSound },
    Mutant { name: "20 for 3", spoil: |f| f.refusal = Refusal::SizeOfNoTable },
    Mutant {
        name: "only 1 tells of any",
        spoil: |f| f.told = |any, oldest, newest| told(u8::from(any == 1), oldest, newest),
    },
    Mutant { name: "what tells of any is kept as it is", spoil: |f| f.told = any_as_it_is },
    Mutant {
        name: "told none, the numbers are kept",
        spoil: |f| f.told = |any, oldest, newest| [u16::from(any != 0), oldest, newest],
    },
    Mutant {
        name: "oldest and newest exchanged",
        spoil: |f| f.told = |any, oldest, newest| told(any, newest, oldest),
    },
    Mutant {
        name: "only 1 is a range",
        spoil: |f| f.numbers = |told| numbers_if(told, told[0] == 1),
    },
    Mutant {
        name: "a range by its lower byte",
        spoil: |f| f.numbers = |told| numbers_if(told, told[0] % 256 != 0),
    },
    Mutant { name: "none is a range too", spoil: |f| f.numbers = |told| numbers_if(told, true) },
    Mutant {
        name: "no range over the roll",
        spoil: |f| f.numbers = |&[any, oldest, newest]| plain(any, oldest, newest),
    },
    Mutant {
        name: "a range over the roll is turned",
        spoil: |f| {
            f.numbers = |&[any, one, other]| plain(any, one.min(other), one.max(other));
        },
    },
    Mutant {
        name: "all numbers are none",
        spoil: |f| f.numbers = |told| numbers_of(told, |all| &all[..all.len() % 65_536]),
    },
    Mutant {
        name: "the newest is not told",
        spoil: |f| f.numbers = |told| numbers_of(told, without_newest),
    },
    Mutant {
        name: "the oldest is not told",
        spoil: |f| f.numbers = |told| numbers_of(told, without_oldest),
    },
    Mutant {
        name: "what is told ends at 65,535",
        spoil: |f| f.numbers = |told| numbers_of(told, before_the_roll),
    },
    Mutant {
        name: "the oldest 1,023 are told",
        spoil: |f| f.numbers = |told| numbers_of(told, |all| &all[..all.len().min(1_023)]),
    },
    Mutant { name: "bits outside stay", spoil: |f| f.stays = |map, _| map.to_vec() },
    Mutant { name: "told none, bits stay", spoil: |f| f.stays = all_if_none },
    Mutant { name: "only whole words are cleared", spoil: |f| f.stays = words_with_any },
    Mutant { name: "bits before the oldest stay in its word", spoil: |f| f.stays = before_oldest },
    Mutant { name: "bits after the newest stay in its word", spoil: |f| f.stays = after_newest },
    Mutant {
        name: "the last word is not cleared",
        spoil: |f| f.stays = |map, told| besides(map, told, |number| number >= LAST_WORD),
    },
    Mutant { name: "every bit is cleared", spoil: |f| f.stays = |map, _| vec![0; map.len()] },
    Mutant { name: "what is told is received", spoil: |f| f.stays = all_told },
    Mutant { name: "a run ends at 65,535", spoil: |f| f.run = up_to_the_roll },
    Mutant { name: "a run ends with its word", spoil: |f| f.run = up_to_the_edge },
    Mutant {
        name: "one number at a time",
        spoil: |f| f.run = |map, told| first_missing(map, told).map(|(first, _)| (first, first)),
    },
    Mutant { name: "a run of two or more is one too short", spoil: |f| f.run = one_shorter },
    Mutant {
        name: "a run is one too long",
        spoil: |f| {
            f.run = |map, told| {
                first_missing(map, told).map(|(first, last)| (first, last.wrapping_add(1)))
            }
        },
    },
    Mutant {
        name: "a run goes on to the newest",
        spoil: |f| {
            f.run = |map, told| Some((first_missing(map, told)?.0, *told.last()?));
        },
    },
    Mutant { name: "a run goes on past the newest", spoil: |f| f.run = past_newest },
    Mutant {
        name: "the newest is never missing",
        spoil: |f| f.run = |map, told| first_missing(map, without_newest(told)),
    },
    Mutant {
        name: "the last word is never missing",
        spoil: |f| {
            f.run = |map, told| first_missing(&[&map[..MAP_WORDS - 1], &[u64::MAX]].concat(), told);
        },
    },
    Mutant { name: "looked for from number 0 on", spoil: |f| f.run = from_0_on },
    Mutant {
        name: "the last run",
        spoil: |f| f.run = |map, told| runs(map, told).into_iter().last(),
    },
    Mutant {
        name: "the longest run",
        spoil: |f| {
            f.run = |map, told| {
                runs(map, told).into_iter().max_by_key(|(first, last)| last.wrapping_sub(*first))
            }
        },
    },
    Mutant { name: "gaps are passed over", spoil: |f| f.run = after_newest_received },
    Mutant {
        name: "the highest byte first",
        spoil: |f| {
            f.request = |(first, last)| within_range((first.swap_bytes(), last.swap_bytes()));
        },
    },
    Mutant {
        name: "first and last exchanged",
        spoil: |f| f.request = |(first, last)| within_range((last, first)),
    },
    Mutant {
        name: "how many for the last",
        spoil: |f| {
            f.request =
                |(first, last)| within_range((first, last.wrapping_sub(first).wrapping_add(1)));
        },
    },
    Mutant {
        name: "a combined report is asked for",
        spoil: |f| f.request = |run| with_byte(run, 0, COMBINED_REPORT),
    },
    Mutant {
        name: "their number is asked for",
        spoil: |f| f.request = |run| with_byte(run, 0, NUMBER),
    },
    Mutant { name: "no filter type", spoil: |f| f.request = |run| with_byte(run, 2, 0) },
    Mutant {
        name: "taken in outside too",
        spoil: |f| f.take = |map, _, number| receive(map, number),
    },
    Mutant { name: "told none, all are taken in", spoil: |f| f.take = anything_if_none },
    Mutant {
        name: "the oldest is not taken in",
        spoil: |f| f.take = |map, told, number| if_inside(map, without_oldest(told), number),
    },
    Mutant {
        name: "the newest is not taken in",
        spoil: |f| f.take = |map, told, number| if_inside(map, without_newest(told), number),
    },
    Mutant { name: "taken in twice, not received", spoil: |f| f.take = turned },
    Mutant { name: "taken in with all before it", spoil: |f| f.take = up_to_it },
    Mutant {
        name: "the last word is not counted",
        spoil: |f| f.count = |map| ones(&map[..MAP_WORDS - 1]),
    },
    Mutant { name: "the first word is not counted", spoil: |f| f.count = |map| ones(&map[1..]) },
    Mutant { name: "counted in 16 bits", spoil: |f| f.count = |map| ones(map) % 65_536 },
    Mutant { name: "what is missing is counted", spoil: |f| f.count = |map| 65_536 - ones(map) },
    Mutant { name: "counted up to the first gap", spoil: |f| f.count = trailing_ones },
];

/// The first number of the last word.
const LAST_WORD: u16 = u16::MAX - (WORD_BITS - 1);

fn told(any: u8, oldest: u16, newest: u16) -> Told {
    (fetch::PAPER.told)(any, oldest, newest)
}

fn any_as_it_is(any: u8, oldest: u16, newest: u16) -> Told {
    let [_, oldest, newest] = told(any, oldest, newest);
    [any.into(), oldest, newest]
}

/// The numbers from the oldest to the newest, if there are any.
fn numbers_if(&[_, oldest, newest]: &Told, any: bool) -> Vec<u16> {
    oldest_to_newest(&[any.into(), oldest, newest])
}

/// As if numbers did not roll over.
fn plain(any: u16, oldest: u16, newest: u16) -> Vec<u16> {
    oldest_to_newest(&[any * u16::from(oldest <= newest), oldest, newest])
}

/// A part of the told numbers.
fn numbers_of(told: &Told, part: fn(&[u16]) -> &[u16]) -> Vec<u16> {
    part(&oldest_to_newest(told)).to_vec()
}

fn without_newest(told: &[u16]) -> &[u16] {
    told.split_last().map_or(&[], |(_, others)| others)
}

fn without_oldest(told: &[u16]) -> &[u16] {
    told.split_first().map_or(&[], |(_, others)| others)
}

fn before_the_roll(told: &[u16]) -> &[u16] {
    told.split_inclusive(|number| *number == u16::MAX).next().unwrap_or(&[])
}

fn all_if_none(map: &[u64], told: &[u16]) -> Vec<u64> {
    besides(map, told, |_| told.is_empty())
}

/// What stays, and such other numbers besides.
fn besides(map: &[u64], told: &[u16], such: impl Fn(u16) -> bool) -> Vec<u64> {
    let mut left = inside(map, told);
    for number in (0..=u16::MAX).filter(|number| such(*number) && is_received(map, *number)) {
        receive(&mut left, number);
    }
    left
}

fn words_with_any(map: &[u64], told: &[u16]) -> Vec<u64> {
    let words: BTreeSet<u16> = told.iter().map(|number| number / WORD_BITS).collect();
    besides(map, told, |number| words.contains(&(number / WORD_BITS)))
}

fn before_oldest(map: &[u64], told: &[u16]) -> Vec<u64> {
    let before = |oldest: u16, number| number / WORD_BITS == oldest / WORD_BITS && number < oldest;
    besides(map, told, |number| told.first().is_some_and(|oldest| before(*oldest, number)))
}

fn after_newest(map: &[u64], told: &[u16]) -> Vec<u64> {
    let after = |newest: u16, number| number / WORD_BITS == newest / WORD_BITS && number > newest;
    besides(map, told, |number| told.last().is_some_and(|newest| after(*newest, number)))
}

fn all_told(map: &[u64], told: &[u16]) -> Vec<u64> {
    let mut left = vec![0; map.len()];
    told.iter().for_each(|number| receive(&mut left, *number));
    left
}

fn up_to_the_roll(map: &[u64], told: &[u16]) -> Option<Missing> {
    let (first, last) = first_missing(map, told)?;
    Some((first, if last < first { u16::MAX } else { last }))
}

fn up_to_the_edge(map: &[u64], told: &[u16]) -> Option<Missing> {
    let (first, last) = first_missing(map, told)?;
    let to_edge = WORD_BITS - 1 - first % WORD_BITS;
    Some((first, first + to_edge.min(last.wrapping_sub(first))))
}

fn one_shorter(map: &[u64], told: &[u16]) -> Option<Missing> {
    let (first, last) = first_missing(map, told)?;
    Some((first, last.wrapping_sub(u16::from(first != last))))
}

/// As far as the map goes on.
fn past_newest(map: &[u64], told: &[u16]) -> Option<Missing> {
    let (first, _) = first_missing(map, told)?;
    first_missing(map, &oldest_to_newest(&[1, first, first.wrapping_sub(1)]))
}

fn from_0_on(map: &[u64], told: &[u16]) -> Option<Missing> {
    let mut rising = told.to_vec();
    rising.sort();
    first_missing(map, &rising)
}

/// All runs that are missing, in their order.
fn runs(map: &[u64], told: &[u16]) -> Vec<Missing> {
    let alike = |a: &u16, b: &u16| is_received(map, *a) == is_received(map, *b);
    told.chunk_by(alike).filter_map(|numbers| first_missing(map, numbers)).collect()
}

fn after_newest_received(map: &[u64], told: &[u16]) -> Option<Missing> {
    let received = told.iter().rposition(|number| is_received(map, *number));
    first_missing(map, &told[received.map_or(0, |at| at + 1)..])
}

fn with_byte(run: Missing, at: usize, byte: u8) -> Request {
    let mut request = within_range(run);
    request[at] = byte;
    request
}

fn anything_if_none(map: &mut [u64], told: &[u16], number: u16) {
    if_inside(map, if told.is_empty() { slice::from_ref(&number) } else { told }, number);
}

fn turned(map: &mut [u64], told: &[u16], number: u16) {
    if told.contains(&number) {
        map[usize::from(number / WORD_BITS)] ^= 1 << (number % WORD_BITS);
    }
}

fn up_to_it(map: &mut [u64], told: &[u16], number: u16) {
    let at = told.iter().position(|inside| *inside == number);
    let up_to = at.map_or(0, |at| at + 1);
    told[..up_to].iter().for_each(|number| receive(map, *number));
}

fn trailing_ones(map: &[u64]) -> u32 {
    let gap = (0..=u16::MAX).find(|number| !is_received(map, *number));
    gap.map_or(65_536, u32::from)
}
