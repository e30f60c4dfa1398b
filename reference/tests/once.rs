//! Every record once: the books find nothing wrong with the reference, whose histories reach every
//! way in which a report can end, and find with each of nine wrong readers what is wrong with it.

use reference::fetch::{Request, Told};
use reference::history::play;
use reference::mutants::{spoiled, MUTANTS};
use reference::octets::{u16_at, u32_at};
use reference::once::{Complaint, Course, Ending, Handed};
use reference::ramp::{Part, Sightings, Tables};
use reference::reader::{Reader, Reference};
use std::collections::{BTreeMap, BTreeSet};

const HISTORIES: u64 = 400;
/// The wrong ones are found out sooner.
const WRONG_HISTORIES: u64 = 100;

const CUT_SHORT: [Ending; 4] =
    [Ending::Aborted, Ending::Faulted, Ending::Disconnected, Ending::Restarted];

/// How far a report had come when it ended.
#[derive(Clone, Copy, Debug, PartialEq, Eq, PartialOrd, Ord)]
enum Place {
    BeforeTheFirstSegment,
    InsideARecord,
    BetweenRecords,
    AfterTheLastSegment,
}

const PLACES: [Place; 4] = [
    Place::BeforeTheFirstSegment,
    Place::InsideARecord,
    Place::BetweenRecords,
    Place::AfterTheLastSegment,
];

fn place(course: &Course, handed: &Handed) -> Place {
    if course.segments.is_empty() {
        Place::BeforeTheFirstSegment
    } else if !handed.unfinished.is_empty() {
        Place::InsideARecord
    } else if handed.whole.len() < course.list.len() {
        Place::BetweenRecords
    } else {
        Place::AfterTheLastSegment
    }
}

/// How often the histories came where they are meant to come.
#[derive(Default)]
struct Reach {
    /// Reports by how they ended and how far they had come.
    endings: BTreeMap<(Option<Ending>, Place), usize>,
    /// Closed ones by opcode and operator, and whether they have several records.
    closed: BTreeMap<(u8, u8, bool), usize>,
    /// P of segments.
    sizes: BTreeSet<u32>,
    events: BTreeMap<&'static str, usize>,
}

impl Reach {
    fn history(&mut self, courses: &[Course]) {
        courses.iter().for_each(|course| self.course(course));
        courses.windows(2).for_each(|two| self.two(&two[0], &two[1]));
    }

    fn course(&mut self, course: &Course) {
        let handed = course.handed().unwrap();
        *self.endings.entry((course.ending, place(course, &handed))).or_default() += 1;
        self.sizes.extend(&course.sizes);
        let inside = |k: &usize| course.segments[k - 1][0] & 2 == 0;
        let changed = |k: usize| course.sizes[k - 1] != course.sizes[k];
        let changes = (1..course.sizes.len()).filter(inside).any(changed);
        self.count("P changed inside a record", changes);
        if course.ending == Some(Ending::Closed) {
            self.closed(course, &handed.whole);
        }
    }

    fn closed(&mut self, course: &Course, records: &[Vec<u8>]) {
        let (opcode, operator) = (course.request[0], course.request[1]);
        *self.closed.entry((opcode, operator, records.len() > 1)).or_default() += 1;
        self.count("counter 0 after 63", course.segments.len() > 64);
        let rolls = |two: &[Vec<u8>]| u16_at(&two[0], 0) > u16_at(&two[1], 0);
        self.count("number 0 after 65,535", records.windows(2).any(rolls));
    }

    fn two(&mut self, one: &Course, next: &Course) {
        let aborted = one.ending == Some(Ending::Aborted);
        let inside = place(one, &one.handed().unwrap()) == Place::InsideARecord;
        let at_once = next.begun == one.ended + 1;
        self.count("begun right after an Abort inside a record", aborted && inside && at_once);
    }

    fn count(&mut self, event: &'static str, came: bool) {
        *self.events.entry(event).or_default() += usize::from(came);
    }
}

#[test]
fn a_report_hands_over_every_record_once() {
    let mut reach = Reach::default();
    for seed in 1..=HISTORIES {
        let books = play(&Reference::new(), seed);
        assert!(books.complaints.is_empty(), "seed {seed}: {:?}", books.complaints);
        reach.history(&books.over);
    }

    println!("endings: {:?}", reach.endings);
    for ending in CUT_SHORT {
        for place in PLACES {
            assert!(reach.endings.contains_key(&(Some(ending), place)), "{ending:?} {place:?}");
        }
    }
    println!("closed: {:?}", reach.closed);
    for opcode in [1, 7] {
        for operator in 1..=6 {
            let closed = |several| reach.closed.contains_key(&(opcode, operator, several));
            // First and Last have one record.
            let found = [closed(false), closed(true)];
            assert_eq!(found, [true, operator <= 4], "{opcode} {operator}");
        }
    }
    assert_eq!(reach.sizes, BTreeSet::from_iter(20..=244));
    println!("events: {:?}", reach.events);
    for (event, times) in reach.events {
        assert!(times > 0, "{event}");
    }
}

#[derive(Clone, Copy, Debug, PartialEq, Eq)]
enum Wrong {
    /// While no report runs, a notification is the first segment of the oldest record.
    RepeatsARecord,
    /// Closes in its place.
    LeavesOutTheNewest,
    /// A segment that isn't a record's last has the oldest held record's bytes.
    MixesInTheOldest,
    /// A new report is answered while one runs, and the one that runs stays.
    GoesOnInside,
    /// The call that ends it is answered, and the report stays.
    GoesOnAfter(Ending),
    /// Takes a time update while a report runs, and hands the new record over too.
    TakesIn,
    /// After the first segment no notification is answered any more.
    Stops,
}

/// Each with all that is found wrong with it, and no two with the same.
fn wrong_readers() -> [(Wrong, Vec<Complaint>); 9] {
    use Complaint::*;
    let after_any = [None, Some(Ending::Closed)].into_iter().chain(CUT_SHORT.map(Some));
    let goes_on = |ending| (Wrong::GoesOnAfter(ending), vec![WhileNoneRuns(Some(ending))]);
    [
        (Wrong::RepeatsARecord, after_any.map(WhileNoneRuns).collect()),
        (Wrong::LeavesOutTheNewest, vec![LeftOut]),
        (Wrong::MixesInTheOldest, vec![OtherBytes]),
        // The new report gets segments of the old one: under its counters, of its records, more or
        // fewer than its own.
        (Wrong::GoesOnInside, vec![BegunInside, Counter, OtherBytes, Beyond, LeftOut]),
        goes_on(Ending::Aborted),
        goes_on(Ending::Faulted),
        goes_on(Ending::Disconnected),
        // Where the new record overwrites the one being sent, nothing more comes.
        (Wrong::TakesIn, vec![Unanswered, Beyond]),
        (Wrong::Stops, vec![Unanswered]),
    ]
}

/// The reference, with one thing gone wrong.
struct WrongReader {
    right: Reference,
    wrong: Wrong,
}

/// Where a state has its report: all zero if none runs.
const REPORT: std::ops::Range<usize> = 17..28;
/// Of that, the counter of the next segment.
const COUNTER: usize = 23;
/// And the record that is left to send, and its number.
const LEFT: std::ops::Range<usize> = 24..28;
const LEFT_NUMBER: usize = 25;

fn is_running(state: &[u8]) -> bool {
    state[REPORT.start] != 0
}

fn newest_is_next(state: &[u8], table: &[u8]) -> bool {
    state[LEFT.start] == 1 && u16_at(state, LEFT_NUMBER).wrapping_add(1) == u16_at(table, 8)
}

impl WrongReader {
    /// Puts back a report that the ending took away.
    fn go_on_after(&self, ending: Ending, state: &mut [u8], report: &[u8]) {
        if self.wrong == Wrong::GoesOnAfter(ending) {
            state[REPORT].copy_from_slice(report);
        }
    }

    /// Of a report that nobody asked for and that isn't remembered.
    fn first_segment(&self, state: &[u8], table: &[u8], p: u32, out: &mut [u8]) -> i32 {
        let mut other = state.to_vec();
        self.right.switches(&mut other, 1, 1, 1);
        self.right.racp_write(&mut other, table, &[1, 1], &mut [0; 20]);
        self.right.notify(&mut other, table, p, out)
    }
}

impl Reader for WrongReader {
    fn notify(&self, state: &mut [u8], table: &[u8], p: u32, out: &mut [u8]) -> i32 {
        match self.wrong {
            Wrong::RepeatsARecord if !is_running(state) => self.first_segment(state, table, p, out),
            Wrong::LeavesOutTheNewest if newest_is_next(state, table) => {
                state[LEFT].fill(0);
                self.right.notify(state, table, p, out)
            }
            Wrong::MixesInTheOldest => {
                let answer = self.right.notify(state, table, p, out);
                if (1..256).contains(&answer) && out[0] & 2 == 0 {
                    let (body, oldest) = (answer as usize - 1, u32_at(table, 4) as usize + 1);
                    out[1..=body].copy_from_slice(&table[oldest..oldest + body]);
                }
                answer
            }
            Wrong::Stops if state[COUNTER] > 0 => -8,
            _ => self.right.notify(state, table, p, out),
        }
    }

    fn racp_write(&self, state: &mut [u8], table: &[u8], write: &[u8], out: &mut [u8]) -> i32 {
        let report = state[REPORT].to_vec();
        let inside = self.wrong == Wrong::GoesOnInside && is_running(state);
        if inside && matches!(write, [1 | 7, ..]) {
            state[REPORT].fill(0);
            let answer = self.right.racp_write(state, table, write, out);
            state[REPORT].copy_from_slice(&report);
            return answer;
        }
        let answer = self.right.racp_write(state, table, write, out);
        if *write == [3, 0] {
            self.go_on_after(Ending::Aborted, state, &report);
        }
        answer
    }

    fn fault(&self, state: &mut [u8], table: &mut [u8], out: &mut [u8]) -> i32 {
        let report = state[REPORT].to_vec();
        let answer = self.right.fault(state, table, out);
        self.go_on_after(Ending::Faulted, state, &report);
        answer
    }

    fn disconnect(&self, state: &mut [u8]) -> i32 {
        let report = state[REPORT].to_vec();
        let answer = self.right.disconnect(state);
        self.go_on_after(Ending::Disconnected, state, &report);
        answer
    }

    fn dtcp_write(&self, state: &mut [u8], table: &mut [u8], write: &[u8], out: &mut [u8]) -> i32 {
        if self.wrong != Wrong::TakesIn {
            return self.right.dtcp_write(state, table, write, out);
        }
        let report = state[REPORT].to_vec();
        state[REPORT].fill(0);
        let answer = self.right.dtcp_write(state, table, write, out);
        state[REPORT].copy_from_slice(&report);
        answer
    }

    fn start(&self, state: &mut [u8], table: &mut [u8]) -> i32 {
        self.right.start(state, table)
    }
    fn seconds(&self, state: &mut [u8], n: u32) -> i32 {
        self.right.seconds(state, n)
    }
    fn switches(&self, state: &mut [u8], dtcp: u8, racp: u8, log: u8) -> i32 {
        self.right.switches(state, dtcp, racp, log)
    }
    fn join(&self, joining: &mut [u8], notification: &[u8]) -> i32 {
        self.right.join(joining, notification)
    }
    fn read(&self, bytes: &[u8], fields: &mut [u32; 11]) -> i32 {
        self.right.read(bytes, fields)
    }
    fn keep(&self, table: &mut [u8], bytes: &[u8]) -> i32 {
        self.right.keep(table, bytes)
    }
    fn carry(&self, stamp: u32, q: u16, table: &[u8], carried: &mut i64) -> i32 {
        self.right.carry(stamp, q, table, carried)
    }
    fn device_time(&self, state: &[u8], table: &[u8], out: &mut [u8]) -> i32 {
        self.right.device_time(state, table, out)
    }
    fn feature(&self, out: &mut [u8]) -> i32 {
        self.right.feature(out)
    }
    fn parameters(&self, out: &mut [u8]) -> i32 {
        self.right.parameters(out)
    }
    fn att_error(&self, number: u32) -> i32 {
        self.right.att_error(number)
    }
    fn salvage(&self, input: &[u8], table: &mut [u8], report: &mut [u8]) -> i32 {
        self.right.salvage(input, table, report)
    }
    fn one_beast(&self, tables: Tables, sightings: Sightings, window: u32, side: &mut u32) -> i32 {
        self.right.one_beast(tables, sightings, window, side)
    }
    fn newest_update(&self, tables: Tables, part: &mut Part) -> i32 {
        self.right.newest_update(tables, part)
    }
    fn fetch_tell(
        &self,
        map: &mut [u64],
        told: &mut Told,
        any: u8,
        oldest: u16,
        newest: u16,
    ) -> i32 {
        self.right.fetch_tell(map, told, any, oldest, newest)
    }
    fn fetch_propose(&self, map: &[u64], told: &Told, request: &mut Request) -> i32 {
        self.right.fetch_propose(map, told, request)
    }
    fn fetch_take(&self, map: &mut [u64], told: &Told, number: u16) -> i32 {
        self.right.fetch_take(map, told, number)
    }
    fn fetch_received(&self, map: &[u64]) -> i32 {
        self.right.fetch_received(map)
    }
}

#[test]
fn every_wrong_reader_is_noticed_for_what_is_wrong_with_it() {
    for (wrong, expected) in wrong_readers() {
        let reader = WrongReader { right: Reference::new(), wrong };
        let complaints = (1..=WRONG_HISTORIES).flat_map(|seed| play(&reader, seed).complaints);
        let found: BTreeSet<Complaint> = complaints.collect();
        assert_eq!(found, BTreeSet::from_iter(expected), "{wrong:?}");
    }
}

/// Changed matching, counters and bits show in what is handed over.
#[test]
fn mutants_of_reports_are_noticed() {
    let names = [
        "filters compare plain numbers",
        "a range is cut to what is held",
        "the next number counts as held",
        "counter 62, then 0",
        "number 65,535 left out",
        "last bit never set",
        "first bit never set",
        "at least v takes the record before it",
        "at most v takes the record after it",
        "at least one before the oldest is all",
        "a turned range is turned back",
    ];
    for name in names {
        let mutant = spoiled(MUTANTS.iter().find(|mutant| mutant.name == name).unwrap());
        let noticed = |seed| !play(&mutant, seed).complaints.is_empty();
        assert!((1..=HISTORIES).any(noticed), "not noticed: {name}");
    }
}

/// A closed report of records with these numbers, at P = 20 throughout.
fn closed(numbers: &[u16], oldest: u16) -> Course {
    let record = |number: &u16| [&number.to_le_bytes()[..], &[*number as u8; 22]].concat();
    let list: Vec<_> = numbers.iter().map(record).collect();
    let mut segments = Vec::new();
    for record in &list {
        for (bits, body) in [(1, &record[..19]), (2, &record[19..])] {
            let header = (segments.len() as u8) << 2 | bits;
            segments.push([&[header], body].concat());
        }
    }
    Course { list, oldest, segments, ending: Some(Ending::Closed), ..Course::default() }
}

type Spoil = fn(&mut Course);

#[test]
fn a_report_spoiled_in_one_thing_is_told_by_it() {
    use Complaint::*;
    let spoils: [(Complaint, Spoil); 18] = [
        (Empty, |course| course.segments[3].clear()),
        (Empty, |course| course.segments[3].truncate(1)),
        (Counter, |course| course.segments[0][0] += 4),
        (Counter, |course| course.segments.swap(2, 4)),
        (FirstBit, |course| course.segments[2][0] &= !1),
        (FirstBit, |course| course.segments[3][0] |= 1),
        (FirstBit, |course| course.segments[3][0] &= !2),
        (FirstBit, |course| course.segments[4][0] |= 2),
        (OtherBytes, |course| course.segments[4][19] ^= 1),
        (OtherBytes, |course| course.segments[5].truncate(5)),
        (OtherBytes, |course| course.list.swap(0, 1)),
        (NoLastBit, |course| course.segments[5][0] &= !2),
        (Beyond, |course| course.list.truncate(2)),
        (LeftOut, |course| course.segments.truncate(4)),
        (LeftOut, |course| course.segments.truncate(5)),
        (LeftOut, |course| course.segments.clear()),
        // Of lists that no table gives.
        (NotOnce, |course| *course = closed(&[7, 7], 7)),
        (NotOnce, |course| *course = closed(&[8, 7], 7)),
    ];
    let right = closed(&[65_535, 0, 1], 65_535);
    assert_eq!(right.handed().map(|handed| handed.whole), Ok(right.list.clone()));
    for (k, (complaint, spoil)) in spoils.into_iter().enumerate() {
        let mut course = right.clone();
        spoil(&mut course);
        assert_eq!(course.handed(), Err(complaint), "spoil {k}");
    }
}
