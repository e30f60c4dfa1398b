//! Three promises over many calls, checked without looking into the reference: what a finished
//! report hands over, what a copy kept of it is, and what a carried stamp tells.

use reference::octets::{u16_at, u32_at};
use reference::once::held;
use reference::random::{planned_table, Plan, Random};
use reference::reader::{Reader, Reference};

const SLOTS: [usize; 5] = [1, 2, 3, 5, 40];

/// A filter as RACP bytes, and the held records it means: those from one place to another, where
/// the place of a number is that of the record that has it.
fn some_filter(random: &mut Random, records: &[Vec<u8>]) -> (Vec<u8>, Vec<Vec<u8>>) {
    let numbers: Vec<u16> = records.iter().map(|record| u16_at(record, 0)).collect();
    let mut edge = || match numbers.is_empty() {
        true => random.number() as u16,
        false => random.pick(&numbers).wrapping_add(random.pick(&[0, 0, 1, 65_535])),
    };
    let (one, two) = (edge(), edge());
    let operator = 1 + random.below(6) as u8;
    let mut bytes = vec![operator];
    if matches!(operator, 2..=4) {
        bytes.push(1);
        bytes.extend(one.to_le_bytes());
    }
    if operator == 4 {
        bytes.extend(two.to_le_bytes());
    }
    let place = |value| numbers.iter().position(|number| *number == value);
    let newest = records.len().checked_sub(1);
    let (first, last) = match operator {
        1 => (Some(0), newest),
        2 => (Some(0), place(one)),
        3 => (place(one), newest),
        4 => (place(one), place(two)),
        5 => (Some(0), newest.and(Some(0))),
        _ => (newest, newest),
    };
    let matching = first.zip(last).and_then(|(first, last)| records.get(first..=last));
    (bytes, matching.unwrap_or_default().to_vec())
}

fn finished_report(reader: &dyn Reader, seed: u64) {
    let mut random = Random::new(seed);
    let slots = random.pick(&SLOTS);
    let plan = Plan {
        slots,
        held: random.below(slots + 1),
        oldest: random.below(slots),
        next: random.pick(&[0, 2, 20, 65_535, 40_000]),
        seed,
    };
    let (mut state, table) = ([0; 32], planned_table(&plan));
    let (mut joining, mut out) = ([0; 48], [0; 244]);
    reader.start(&mut state, &mut table.clone());
    reader.switches(&mut state, 1, 1, 1);
    let (filter, matching) = some_filter(&mut random, &held(&table));
    let opcode = random.pick(&[1, 7]);
    let write = [&[opcode][..], &filter].concat();
    let answer = reader.racp_write(&mut state, &table, &write, &mut out);
    if matching.is_empty() {
        assert_eq!((answer, &out[..4]), (4, &[6, 0, opcode, 6][..]), "seed {seed}");
        return;
    }
    assert_eq!(answer, 0, "seed {seed}");

    let fixed = random.one_in(2).then(|| 20 + random.below(8) as u32);
    let (mut handed_over, mut segments) = (Vec::new(), 0);
    let closing = loop {
        let p = fixed.unwrap_or(20 + random.below(225) as u32);
        let answer = reader.notify(&mut state, &table, p, &mut out);
        assert!(answer > 0, "seed {seed}: notify answers {answer}");
        if answer > 256 {
            break out[..answer as usize - 256].to_vec();
        }
        segments += 1;
        let joined = reader.join(&mut joining, &out[..answer as usize]);
        assert!(joined >= 0, "seed {seed}: join answers {joined}");
        if joined > 0 {
            handed_over.push(joining[3..3 + joined as usize].to_vec());
        }
    };
    assert_eq!(handed_over, matching, "seed {seed}");
    let count = (matching.len() as u16).to_le_bytes();
    let expected = if opcode == 1 { [6, 0, 1, 1] } else { [8, 0, count[0], count[1]] };
    assert_eq!(closing, expected, "seed {seed}");
    if let Some(p) = fixed {
        let of_record = |record: &Vec<u8>| record.len().div_ceil(p as usize - 1);
        assert_eq!(segments, matching.iter().map(of_record).sum::<usize>(), "seed {seed}");
    }
}

/// The records of a log of any numbers, kept one after the other in a copy of any size.
fn kept_copy(reader: &dyn Reader, seed: u64) {
    let mut random = Random::new(seed);
    let (slots, copied) = (random.pick(&SLOTS), random.pick(&SLOTS));
    let next = random.pick(&[0, 2, 20, 65_535, 40_000]);
    let (held_count, oldest) = (1 + random.below(slots), random.below(slots));
    let table = planned_table(&Plan { slots, held: held_count, oldest, next, seed });
    let mut copy = planned_table(&Plan { slots: copied, held: 0, oldest: 0, next: 7, seed });
    let records = held(&table);
    for record in &records {
        assert_eq!(reader.keep(&mut copy, record), 0, "seed {seed}");
    }
    let fit = records.len().min(copied);
    assert_eq!(held(&copy), records[records.len() - fit..], "seed {seed}");
    assert_eq!(u16_at(&copy, 8), next, "seed {seed}");

    // Stamps are carried by the copy as by the log, as far back as it reaches.
    for back in 0..=records.len() {
        let q = next.wrapping_sub(back as u16);
        let (mut by_log, mut by_copy) = (0, 0);
        let answer = reader.carry(800_000_000, q, &table, &mut by_log);
        let expected = if back <= fit { answer } else { -12 };
        let answer = reader.carry(800_000_000, q, &copy, &mut by_copy);
        assert_eq!(answer, expected, "seed {seed}, {back} back");
        assert!(answer < 0 || by_copy == by_log, "seed {seed}, {back} back");
    }
}

/// What happened to the clock since the stamp.
#[derive(Default)]
struct Since {
    ran: i64,
    logged: usize,
    faults: usize,
}

fn some_event(
    reader: &dyn Reader,
    random: &mut Random,
    state: &mut [u8],
    table: &mut [u8],
    since: &mut Since,
) {
    let mut out = [0; 20];
    match random.below(8) {
        0..=2 => {
            let n = random.pick(&[0, 1, 3_600, 1_000_000_000, u32::MAX]);
            if reader.seconds(state, n) == 0 {
                since.ran += i64::from(n);
            }
        }
        3 if random.one_in(3) => {
            assert_eq!(reader.fault(state, table, &mut out), 0);
            since.logged += 1;
            since.faults += 1;
        }
        _ => {
            let base = u32_at(state, 0).wrapping_add(random.below(200_001) as u32) - 100_000;
            let mut write = vec![random.pick(&[2, 3]), random.pick(&[0x43, 0x41, 0x40]), 0];
            write.extend(base.to_le_bytes());
            write.extend([4, 0, 2, 1]);
            assert!(reader.dtcp_write(state, table, &write, &mut out) > 0);
            since.logged += usize::from(out[2] == 1);
        }
    }
}

fn carried_stamp(reader: &dyn Reader, seed: u64) {
    let mut random = Random::new(seed);
    let slots = random.pick(&SLOTS);
    let (mut state, mut table) = ([0; 32], vec![0; 16 + 64 * slots]);
    reader.start(&mut state, &mut table);
    reader.switches(&mut state, 1, 1, 1);
    let before = random.below(6);
    for _ in 0..before {
        some_event(reader, &mut random, &mut state, &mut table, &mut Since::default());
    }
    let mut device_time = [0; 20];
    assert_eq!(reader.device_time(&state, &table, &mut device_time), 10);
    let (stamp, q) = (u32_at(&device_time, 0), u16_at(&device_time, 8));
    let mut since = Since::default();
    let after = random.below(2 * slots + 4);
    for _ in 0..after {
        some_event(reader, &mut random, &mut state, &mut table, &mut since);
    }
    let mut carried = 0;
    let answer = reader.carry(stamp, q, &table, &mut carried);
    if since.logged > held(&table).len() {
        assert_eq!(answer, -12, "seed {seed}");
    } else if since.faults > 0 {
        assert_eq!(answer, -13, "seed {seed}");
    } else {
        assert_eq!(answer, 0, "seed {seed}");
        assert_eq!(i64::from(u32_at(&state, 0)) - carried, since.ran, "seed {seed}");
    }
}

#[test]
fn a_finished_report_hands_over_exactly_the_matching_records() {
    (1..=2_000).for_each(|seed| finished_report(&Reference::new(), seed));
}

#[test]
fn a_copy_kept_of_a_log_is_its_newest_records() {
    (1..=2_000).for_each(|seed| kept_copy(&Reference::new(), seed));
}

#[test]
fn a_carried_stamp_tells_the_seconds_that_ran() {
    (1..=2_000).for_each(|seed| carried_stamp(&Reference::new(), seed));
}
