//! One beast or two: what is promised of the ramp, on made histories and tables and without looking
//! into the reference; and the wrong ramps that the promises, the vectors and the calls notice.

use reference::mutants::wrong_ramps;
use reference::octets::{u16_at, u32_at};
use reference::once::held;
use reference::ramp::Sighting;
use reference::random::{planned_table, some_plan, some_slots, untold, Random};
use reference::reader::{Reader, Reference};
use reference::vectors::play_all;
use std::collections::BTreeMap;
use std::panic::{catch_unwind, AssertUnwindSafe};

const HISTORIES: u64 = 4_000;
const TABLES: u64 = 4_000;
/// Calls in which a wrong ramp must show.
const CALLS: usize = 60_000;
const SLOTS: [usize; 4] = [1, 2, 3, 8];
/// Seconds that pass at once for both.
const SECONDS: [u32; 8] = [0, 1, 2, 5, 29, 30, 60, 3_600];

/// What came of the asking, with its side: how often.
type Seen = BTreeMap<(i32, u32), usize>;

/// One of the ramp's readers, and what happened to it since it read the tag.
struct Antenna {
    state: [u8; 32],
    table: Vec<u8>,
    /// Its stamp and next number, and the seconds that had run by then.
    read: Option<(u32, u16, i64)>,
    logged: usize,
    faults: usize,
}

impl Antenna {
    fn new(reader: &dyn Reader, random: &mut Random) -> Antenna {
        let mut table = vec![0; 16 + 64 * random.pick(&SLOTS)];
        let mut state = [0; 32];
        assert_eq!(reader.start(&mut state, &mut table), 0);
        assert_eq!(reader.switches(&mut state, 1, 1, 1), 0);
        // An empty table may have any next number, so the roll is soon reached.
        let next: u16 = random.pick(&[0, 7, 65_533, 65_535]);
        table[8..10].copy_from_slice(&next.to_le_bytes());
        Antenna { state, table, read: None, logged: 0, faults: 0 }
    }

    /// What a client reads: Base_Time and the next number.
    fn device_time(&self, reader: &dyn Reader) -> (u32, u16) {
        let mut out = [0; 20];
        assert_eq!(reader.device_time(&self.state, &self.table, &mut out), 10);
        (u32_at(&out, 0), u16_at(&out, 8))
    }

    fn read_tag(&mut self, reader: &dyn Reader, ran: i64) {
        let (stamp, next) = self.device_time(reader);
        self.read = Some((stamp, next, ran));
        (self.logged, self.faults) = (0, 0);
    }

    /// The clock is set, by a little or by days, or loses its time.
    fn change(&mut self, reader: &dyn Reader, random: &mut Random) {
        let (state, table, out) = (&mut self.state, &mut self.table, &mut [0; 20]);
        if random.one_in(12) {
            assert_eq!(reader.fault(state, table, out), 0);
            self.logged += 1;
            self.faults += 1;
            return;
        }
        let by = random.pick(&[-600, 600, -5, 5, -86_400, 100_000_000]);
        let base = (i64::from(u32_at(state, 0)) + by) as u32;
        let mut write = vec![3, 0x43, 0];
        write.extend(base.to_le_bytes());
        write.extend([4, 0, 2, 1]);
        assert!(reader.dtcp_write(state, table, &write, out) > 0);
        self.logged += usize::from(out[2] == 1);
    }

    /// The refusal of a stamp that can't be carried.
    fn refusal(&self) -> Option<i32> {
        if self.logged > held(&self.table).len() {
            return Some(-12);
        }
        (self.faults > 0).then_some(-13)
    }

    fn sighting(&self, reader: &dyn Reader) -> (Sighting, i64) {
        let (stamp, next, ran) = self.read.expect("it has read the tag");
        (Sighting { base: self.device_time(reader).0, stamp, next }, ran)
    }
}

/// Two readers whose seconds pass together: the verdict is what the seconds say that ran between
/// the reads, or one side can't say, and the left one is named first.
fn holds_of_history(reader: &dyn Reader, seed: u64, seen: &mut Seen) {
    let mut random = Random::new(seed);
    let mut ramp = [0; 2].map(|_| Antenna::new(reader, &mut random));
    let first = random.below(2);
    let [to_first, to_second, to_now] = [6, 4, 8].map(|most| random.below(most));
    let mut ran = 0;
    for (events, reads) in [(to_first, Some(first)), (to_second, Some(1 - first)), (to_now, None)] {
        for _ in 0..events {
            ran += some_event(reader, &mut random, &mut ramp);
        }
        if let Some(side) = reads {
            ramp[side].read_tag(reader, ran);
        }
    }

    let [(left, left_ran), (right, right_ran)] = [0, 1].map(|side| ramp[side].sighting(reader));
    let window = match random.below(6) {
        0 => random.pick(&[61, 62, u32::MAX]),
        1 => left_ran.abs_diff(right_ran) as u32,
        2 => (left_ran.abs_diff(right_ran) as u32).saturating_sub(1),
        _ => random.below(61) as u32,
    };
    let expected = match ramp.each_ref().map(Antenna::refusal) {
        _ if window > 60 => (-18, 0),
        [Some(refusal), _] => (refusal, 1),
        [None, Some(refusal)] => (refusal, 2),
        [None, None] if left_ran.abs_diff(right_ran) <= window.into() => (1, 0),
        [None, None] => (2, 0),
    };
    let (mut side, tables) = (9, ramp.each_ref().map(|antenna| &antenna.table[..]));
    let answer = reader.one_beast(tables, [left, right], window, &mut side);
    assert_eq!((answer, side), expected, "seed {seed}");
    *seen.entry(expected).or_default() += 1;
}

/// Something happens at the ramp; the seconds that ran.
fn some_event(reader: &dyn Reader, random: &mut Random, ramp: &mut [Antenna; 2]) -> i64 {
    if random.one_in(2) {
        let side = random.below(2);
        ramp[side].change(reader, random);
        return 0;
    }
    let n = random.pick(&SECONDS);
    for antenna in ramp {
        assert_eq!(reader.seconds(&mut antenna.state, n), 0);
    }
    i64::from(n)
}

/// The newest update among a log's records, by what reading them says: its base and its bytes.
fn newest(reader: &dyn Reader, table: &[u8]) -> Option<(u32, Vec<u8>)> {
    let read = |record: Vec<u8>| {
        let mut fields = [0; 11];
        assert_eq!(reader.read(&record, &mut fields), 0);
        (fields[1] == 1).then_some((fields[9], record))
    };
    held(table).into_iter().rev().find_map(read)
}

/// The record that is handed back is in that table, and it is the one.
fn holds_of_tables(reader: &dyn Reader, seed: u64, seen: &mut Seen) {
    let mut random = Random::new(seed);
    let mut tables = [0; 2].map(|_| {
        let slots = some_slots(&mut random).min(40);
        planned_table(&some_plan(&mut random, slots))
    });
    // A length byte that no record has, if a record is held; else a table that is sound all the same.
    let damaged = [0; 2].map(|_| random.one_in(8));
    for (table, damaged) in tables.iter_mut().zip(damaged) {
        let slot = u32_at(table, 4) as usize;
        table[slot] = if damaged { 63 } else { table[slot] };
    }
    let refused = [0, 1].map(|side| damaged[side] && u16_at(&tables[side], 2) > 0);
    let mut part = [9; 3];
    let answer = reader.newest_update([&tables[0], &tables[1]], &mut part);
    *seen.entry((answer, part[0])).or_default() += 1;
    let found = match refused {
        [true, _] => return assert_eq!((answer, part), (-1, [1, 0, 0]), "seed {seed}"),
        [_, true] => return assert_eq!((answer, part), (-1, [2, 0, 0]), "seed {seed}"),
        _ => tables.each_ref().map(|table| newest(reader, table)),
    };
    let (side, record) = match found {
        [None, None] => return assert_eq!((answer, part), (-19, [0, 0, 0]), "seed {seed}"),
        [Some((_, record)), None] => (1, record),
        [None, Some((_, record))] => (2, record),
        [Some((left, record)), Some((right, _))] if left >= right => (1, record),
        [_, Some((_, record))] => (2, record),
    };
    assert_eq!((answer, part[0]), (0, side), "seed {seed}");
    let at = part[1] as usize;
    let bytes = &tables[side as usize - 1][at..at + part[2] as usize];
    assert_eq!(bytes, record, "seed {seed}");
}

/// The first seed with which something promised doesn't hold.
fn broken(seeds: u64, mut holds: impl FnMut(u64)) -> Option<u64> {
    (1..=seeds).find(|seed| catch_unwind(AssertUnwindSafe(|| holds(*seed))).is_err())
}

/// Each of these was reached often, and nothing else was.
fn reached(seen: &Seen, outcomes: &[(i32, u32)], least: usize) {
    println!("{seen:?}");
    let mut outcomes = outcomes.to_vec();
    outcomes.sort();
    assert!(seen.keys().eq(&outcomes));
    assert!(seen.values().all(|count| *count >= least));
}

#[test]
fn a_verdict_is_what_the_seconds_say() {
    let (reader, mut seen) = (Reference::new(), Seen::new());
    assert_eq!(broken(HISTORIES, |seed| holds_of_history(&reader, seed, &mut seen)), None);
    let refused = [(-18, 0), (-12, 1), (-13, 1), (-12, 2), (-13, 2)];
    reached(&seen, &[&[(1, 0), (2, 0)], &refused[..]].concat(), 80);
}

#[test]
fn the_part_is_the_later_update() {
    let (reader, mut seen) = (Reference::new(), Seen::new());
    assert_eq!(broken(TABLES, |seed| holds_of_tables(&reader, seed, &mut seen)), None);
    reached(&seen, &[(0, 1), (0, 2), (-1, 1), (-1, 2), (-19, 0)], 80);
}

/// There is no other ramp that keeps the promises, as far as the wrong ones go. But in histories an
/// age is the seconds that ran, neither below 0 nor past 32 bits, and no table is unsound: what is
/// wrong only there the vectors and the calls notice.
#[test]
fn what_is_promised_shuts_out_wrong_ramps() {
    let elsewhere = [
        "ages stop at 0",
        "ages in 32 bits without sign",
        "ages in 32 bits with sign",
        "both tables before a stamp",
    ];
    for (name, reader) in wrong_ramps() {
        let seen = &mut Seen::new();
        let broken = broken(HISTORIES, |seed| holds_of_history(&reader, seed, seen))
            .or_else(|| broken(TABLES, |seed| holds_of_tables(&reader, seed, seen)));
        println!("{name}: {broken:?}");
        assert_eq!(broken.is_none(), elsewhere.contains(&name), "{name}");
    }
}

#[test]
fn the_vectors_notice_every_wrong_ramp() {
    let passes = |reader: &Reference| play_all(reader).failures.is_empty();
    let missed = wrong_ramps().into_iter().filter(|(_, reader)| passes(reader));
    assert_eq!(missed.map(|(name, _)| name).collect::<Vec<_>>(), [""; 0]);
}

#[test]
fn the_calls_notice_every_wrong_ramp() {
    assert_eq!(untold(&Reference::new(), wrong_ramps(), 1, CALLS), [""; 0]);
}
