//! Salvage, worked by hand from the rules; what is promised of it, on made tables and without
//! looking into the reference; and the comparisons of a salvage program and of a reader, tried on
//! the reference's own and on wrong ones.

mod by_hand;

use by_hand::{full_table, FAULT, FIRST, LAST, UPDATE};
use reference::listing::is_sound;
use reference::mutants::{salvaging, wrong, WRONG_ROOMS, WRONG_SALVAGES};
use reference::octets::{put_u16, put_u32, u16_at, u32_at};
use reference::once::held;
use reference::program::{command, reporting_command, Run};
use reference::random::{differing, planned_table, Random};
use reference::reader::{Reader, Reference};
use reference::salvage::PAPER;
use reference::soaked::{made_calls, some_soaked, Comparison, Soaked};
use reference::vectors::play_all;
use std::panic::{catch_unwind, AssertUnwindSafe};

/// Made tables.
const TABLES: usize = 2_000;
/// Calls in which a wrong salvage must show.
const CALLS: usize = 200_000;

/// A table whose slots have these numbers, in the order in which they stand, faults and updates by
/// turns; rubbish where there is none. The header is right for a full table that begins at offset 16.
fn table(numbers: &[Option<u16>]) -> Vec<u8> {
    let kinds = [UPDATE, FAULT].into_iter().cycle().take(numbers.len());
    let records: Vec<_> = kinds.map(|kind| (kind, [4, 0], [LAST, FIRST])).collect();
    let mut bytes = full_table(&records);
    for (place, number) in numbers.iter().enumerate() {
        let slot = &mut bytes[16 + 64 * place..80 + 64 * place];
        match number {
            Some(number) => put_u16(slot, 1, *number),
            None => slot.fill(0xFF),
        }
    }
    if let Some(Some(last)) = numbers.last() {
        put_u16(&mut bytes, 8, last.wrapping_add(1));
    }
    bytes
}

/// What the program prints, and what it says besides.
fn run(input: &[u8]) -> (Vec<u8>, String) {
    let Run { printed, report, complaint } = PAPER.run(input);
    assert!(report.is_empty() || complaint.is_none());
    (printed, report + &complaint.unwrap_or_default())
}

/// The numbers that a table holds, oldest first.
fn numbers(table: &[u8]) -> Vec<u16> {
    held(table).iter().map(|record| u16_at(record, 0)).collect()
}

/// What is kept of a table with these numbers, and what is said of it.
fn kept(numbers_there: &[Option<u16>]) -> (Vec<u16>, String) {
    let (printed, said) = run(&table(numbers_there));
    assert!(is_sound(&Reference::new(), &printed));
    (numbers(&printed), said)
}

#[test]
fn nothing_is_said_of_a_sound_table() {
    let sound = table(&[Some(65_534), Some(65_535), Some(0), Some(1)]);
    assert_eq!(run(&sound), (sound, String::new()));
}

#[test]
fn a_gap_in_the_middle() {
    let (numbers, said) = kept(&[Some(5), Some(6), None, Some(8), Some(9), Some(10)]);
    assert_eq!(numbers, [8, 9, 10]);
    assert_eq!(said, "held 6 now 3\nslot 0 not kept\nslot 1 not kept\nslot 2 not kept\n");
}

#[test]
fn of_equal_runs_the_one_that_is_read_last() {
    let (numbers, said) = kept(&[Some(5), Some(6), None, Some(9), Some(10)]);
    assert_eq!(numbers, [9, 10]);
    assert_eq!(said, "held 5 now 2\nslot 0 not kept\nslot 1 not kept\nslot 2 not kept\n");
}

/// From offset 16 on, 7 is read first and 6 last.
#[test]
fn a_run_does_not_go_on_from_the_end() {
    let (numbers, said) = kept(&[Some(7), None, Some(6)]);
    assert_eq!(numbers, [6]);
    assert_eq!(said, "held 3 now 1\nslot 0 not kept\nslot 1 not kept\n");
}

/// 2, 3, then 65,535, 0, 1, then 9: three over the roll.
#[test]
fn the_longest_run_rolls_over() {
    let there = [2, 3, 65_535, 0, 1, 9].map(Some);
    let (numbers, said) = kept(&there);
    assert_eq!(numbers, [65_535, 0, 1]);
    let lost = "slot 0 not kept\nslot 1 not kept\nslot 5 not kept\n";
    assert_eq!(said, format!("held 6 now 3\nnext 10 now 2\n{lost}"));
}

/// The oldest record, 6, stands in slot 2; the one in slot 1, the newest, is lost.
#[test]
fn a_wrapped_table_is_read_from_its_offset() {
    let mut wrapped = table(&[Some(8), None, Some(6), Some(7)]);
    wrapped[4] = 144;
    wrapped[8] = 10;
    let (printed, said) = run(&wrapped);
    assert_eq!(numbers(&printed), [6, 7, 8]);
    assert_eq!(said, "held 4 now 3\noffset 144 now 16\nnext 10 now 9\nslot 1 not kept\n");
}

/// Of the same table with an offset inside a slot the records are read from slot 0 on.
#[test]
fn an_offset_that_names_no_slot_is_not_believed() {
    let mut wrapped = table(&[Some(8), Some(9), Some(6), Some(7)]);
    wrapped[4] = 145;
    wrapped[8] = 10;
    let (printed, said) = run(&wrapped);
    assert_eq!(numbers(&printed), [6, 7]);
    let lost = "slot 0 not kept\nslot 1 not kept\n";
    assert_eq!(said, format!("held 4 now 2\noffset 145 now 16\nnext 10 now 8\n{lost}"));
}

/// Header bytes 1 to 16 and a record with number 3: the values are little endian numbers.
#[test]
fn every_field_of_the_header_in_words() {
    let mut soaked = table(&[None, None, Some(3)]);
    soaked[..16].copy_from_slice(&[1, 2, 3, 4, 5, 6, 7, 8, 9, 10, 11, 12, 13, 14, 15, 16]);
    let expected = "slots 513 now 3\n\
                    held 1027 now 1\n\
                    offset 134678021 now 16\n\
                    next 2569 now 4\n\
                    rest 17656846289931 now 0\n\
                    slot 0 not kept\n\
                    slot 1 not kept\n";
    assert_eq!(run(&soaked).1, expected);
}

/// The byte after the record, the last of the slot; what the slot has besides isn't said.
#[test]
fn a_tail_is_left_behind() {
    let sound = table(&[Some(0), Some(1)]);
    for at in [41, 79, 101, 143] {
        let mut soaked = sound.clone();
        soaked[at] = 1;
        assert!(!is_sound(&Reference::new(), &soaked), "byte {at}");
        assert_eq!(run(&soaked), (sound.clone(), String::new()), "byte {at}");
    }
}

/// 16 + 64·N for N from 1 to 1,023, and nothing else.
#[test]
fn a_size_that_no_table_has_is_refused() {
    for size in [0, 15, 16, 17, 79, 81, 143, 65_487, 65_489, 65_552, 65_536, 65_537, 200_000] {
        assert_eq!(run(&vec![0; size]), (Vec::new(), "refused 20\n".to_string()), "{size}");
    }
    for size in [80, 144, 65_424, 65_488] {
        assert_eq!(run(&vec![0; size]), (Vec::new(), "refused 21\n".to_string()), "{size}");
    }
}

#[test]
fn a_table_without_a_record_is_refused() {
    assert_eq!(run(&table(&[None; 3])), (Vec::new(), "refused 21\n".to_string()));
}

/// The largest table, its header gone with its first slot, and its last record.
#[test]
fn the_largest_table() {
    let there: Vec<_> = (0..1_023).map(|place| Some(64_600u16.wrapping_add(place))).collect();
    let mut soaked = table(&there);
    soaked[..80].fill(0xFF);
    put_u16(&mut soaked, 16 + 64 * 1_022 + 4, 1);
    let (printed, said) = run(&soaked);
    assert_eq!(numbers(&printed), (64_601..=65_535).chain(0..86).collect::<Vec<u16>>());
    let expected = "slots 65535 now 1023\n\
                    held 65535 now 1021\n\
                    offset 4294967295 now 16\n\
                    next 65535 now 86\n\
                    rest 281474976710655 now 0\n\
                    slot 0 not kept\n\
                    slot 1022 not kept\n";
    assert_eq!(said, expected);
}

/// An answer with the bytes that were written, in rooms that are long enough.
fn salvaged(reader: &dyn Reader, input: &[u8]) -> (i32, Vec<u8>, Vec<u8>) {
    let (mut table, mut report) = (vec![0; input.len()], vec![0; 80 + input.len() / 4]);
    let answer = reader.salvage(input, &mut table, &mut report);
    report.truncate(answer.max(0) as usize);
    (answer, table, report)
}

/// The number of the record in a slot that counts.
fn number_of(reader: &dyn Reader, slot: &[u8]) -> Option<u16> {
    let length = usize::from(slot[0]);
    let mut fields = [0; 11];
    let read = length <= 45 && reader.read(&slot[1..1 + length], &mut fields) == 0;
    read.then_some(fields[0] as u16)
}

fn is_run(numbers: &[Option<u16>]) -> bool {
    let follow = |pair: &[Option<u16>]| pair[0].map(|number| number.wrapping_add(1)) == pair[1];
    numbers[0].is_some() && numbers.windows(2).all(follow)
}

/// The places of the slots in the order of reading.
fn order(input: &[u8]) -> Vec<usize> {
    let (slots, offset) = (input.len() / 64, u32_at(input, 4) as usize);
    let starts: Vec<usize> = (0..slots).map(|place| 16 + 64 * place).collect();
    let first = starts.iter().position(|start| *start == offset).unwrap_or(0);
    let mut order: Vec<usize> = (0..slots).collect();
    order.rotate_left(first);
    order
}

/// The report has the header's fields that are others now, in their order and with their values, and
/// then slots in the order of their places, which this gives.
fn lost(report: &[u8], input: &[u8], table: &[u8]) -> Vec<usize> {
    let mut expected = Vec::new();
    for (kind, bytes) in (1..).zip([0..2, 2..4, 4..8, 8..10, 10..16]) {
        let [old, new] = [input, table].map(|table| &table[bytes.clone()]);
        if old != new {
            let mut entry = [0; 16];
            entry[0] = kind;
            entry[4..4 + old.len()].copy_from_slice(old);
            entry[10..10 + new.len()].copy_from_slice(new);
            expected.extend(entry);
        }
    }
    let slots = report.strip_prefix(&expected[..]).expect("the header's entries");
    let places: Vec<usize> = slots.chunks(16).map(|entry| usize::from(u16_at(entry, 2))).collect();
    assert!(places.is_sorted_by(|one, other| one < other));
    for (entry, place) in slots.chunks(16).zip(&places) {
        let mut expected = [0; 16];
        put_u16(&mut expected, 2, *place as u16);
        assert_eq!(entry, expected);
    }
    places
}

/// What is promised of a table that isn't sound and of which something is kept.
fn holds_of_salvaged(reader: &dyn Reader, input: &[u8], table: &[u8], report: &[u8]) {
    let order = order(input);
    let slot = |place: usize| &input[16 + 64 * place..80 + 64 * place];
    let numbers: Vec<_> = order.iter().map(|place| number_of(reader, slot(*place))).collect();

    // Each slot is kept or in the report; those that are kept are read one after the other, and
    // their records stand in the table as they stood.
    let lost = lost(report, input, table);
    let kept: Vec<usize> = (0..order.len()).filter(|read| !lost.contains(&order[*read])).collect();
    let first = kept[0];
    assert_eq!(kept, (first..first + kept.len()).collect::<Vec<_>>());
    assert_eq!(kept.len() + lost.len(), order.len());
    let records = kept.iter().map(|read| slot(order[*read]));
    let records: Vec<&[u8]> = records.map(|slot| &slot[1..1 + usize::from(slot[0])]).collect();
    assert_eq!(held(table), records);

    // None is longer, and none that is read later is as long.
    let none_is_run = |from: usize, length: usize| {
        numbers[from..].windows(length).all(|stretch| !is_run(stretch))
    };
    assert!(is_run(&numbers[first..first + kept.len()]));
    assert!(none_is_run(0, kept.len() + 1));
    assert!(none_is_run(first + 1, kept.len()));

    // The table is the copy that a tablet keeps of these records, from none on.
    let mut copy = vec![0; input.len()];
    put_u16(&mut copy, 0, order.len() as u16);
    put_u32(&mut copy, 4, 16);
    records.iter().for_each(|record| assert_eq!(reader.keep(&mut copy, record), 0));
    assert_eq!(table, copy);
}

/// Is what is held the newest of what the reader had, and the next number the reader's?
fn is_newest_of(table: &[u8], dry: &[u8]) -> bool {
    held(dry).ends_with(&held(table)) && u16_at(table, 8) == u16_at(dry, 8)
}

/// As far back as records are held, carrying answers as over the table before it got wet.
fn carries_alike(reader: &dyn Reader, table: &[u8], dry: &[u8]) {
    let (there, before, next) = (held(table).len(), held(dry).len(), u16_at(table, 8));
    // Of a long log not every one, but both sides of where it ends.
    let some = (0..=before).step_by(1 + before / 50);
    for back in some.chain([there, before.min(there + 1), before]) {
        let q = next.wrapping_sub(back as u16);
        let carried = |table: &[u8]| {
            let mut carried = 0;
            (reader.carry(800_000_000, q, table, &mut carried), carried)
        };
        let expected = if back <= there { carried(dry) } else { (-12, 0) };
        assert_eq!(carried(table), expected, "{back} back");
    }
}

/// What came of the made tables.
#[derive(Default)]
struct Seen {
    sound: usize,
    salvaged: usize,
    no_size: usize,
    no_record: usize,
    /// Salvaged ones of which carrying says what it would have said, with all records and with fewer.
    whole: usize,
    newest: usize,
}

fn holds(reader: &dyn Reader, soaked: &Soaked, seen: &mut Seen) {
    let (input, dry) = (soaked.bytes(), planned_table(&soaked.dry));
    let (answer, table, report) = salvaged(reader, &input);
    let slots = input.len().saturating_sub(16) / 64;
    if input.len() != 16 + 64 * slots || !(1..=1_023).contains(&slots) {
        seen.no_size += 1;
        return assert_eq!(answer, -20);
    }
    if is_sound(reader, &input) {
        seen.sound += 1;
        return assert_eq!((answer, table, report), (0, input, Vec::new()));
    }
    if input[16..].chunks(64).all(|slot| number_of(reader, slot).is_none()) {
        seen.no_record += 1;
        return assert_eq!(answer, -21);
    }
    seen.salvaged += 1;
    assert_eq!(answer as usize, report.len());
    assert!(is_sound(reader, &table));
    assert_eq!(salvaged(reader, &table), (0, table.clone(), Vec::new()));
    holds_of_salvaged(reader, &input, &table, &report);
    if is_newest_of(&table, &dry) {
        carries_alike(reader, &table, &dry);
        match held(&table).len() == held(&dry).len() {
            true => seen.whole += 1,
            false => seen.newest += 1,
        }
    }
}

/// The first of the made tables of which something promised doesn't hold.
fn broken(reader: &dyn Reader, seen: &mut Seen) -> Option<Soaked> {
    let mut random = Random::new(1);
    let mut tables = (0..TABLES).map(|_| some_soaked(&mut random));
    tables.find(|soaked| catch_unwind(AssertUnwindSafe(|| holds(reader, soaked, seen))).is_err())
}

#[test]
fn what_is_promised_holds_of_made_tables() {
    let mut seen = Seen::default();
    let broken = broken(&Reference::new(), &mut seen);
    assert!(broken.is_none(), "{broken:02X?}");
    let Seen { sound, salvaged, no_size, no_record, whole, newest } = seen;
    println!("{sound} sound, {salvaged} salvaged, {no_size} refused 20, {no_record} refused 21");
    println!("{whole} with all that was held, {newest} with the newest of it");
    let least = [sound, salvaged, no_size, no_record, whole, newest].into_iter().min();
    assert!(least >= Some(TABLES / 30));
}

/// There is no other salvage that keeps the promises, as far as the wrong ones go.
#[test]
fn what_is_promised_shuts_out_every_wrong_salvage() {
    for (name, salvage) in wrong(WRONG_SALVAGES, &PAPER) {
        let broken = broken(&salvaging(salvage), &mut Seen::default());
        assert!(broken.is_some(), "not shut out: {name}");
    }
}

/// One thing changed of what the reference's own program does.
fn programs(change: fn(Run) -> Run) -> Comparison {
    Comparison::new(Box::new(move |input| Ok(change(PAPER.run(input)))))
}

#[test]
fn the_program_is_told_from_every_wrong_one() {
    let mut comparison = programs(|run| run);
    let kinds = comparison.made_tables(1, 300).unwrap();
    println!("{kinds}");
    assert_eq!(comparison.program.untold(), [""; 0]);
}

#[test]
fn the_reader_is_told_from_every_wrong_one() {
    let called = made_calls(&Reference::new(), 1, 1_000).unwrap();
    println!("{}", called.kinds);
    assert_eq!(called.wrong, WRONG_SALVAGES.len() + WRONG_ROOMS.len());
    assert_eq!(called.untold, [""; 0]);
    assert!(called.no_room > 100);
}

/// All the wrong ones, as readers.
fn wrong_readers() -> Vec<(&'static str, Reference)> {
    let all = [WRONG_SALVAGES, WRONG_ROOMS].map(|some| wrong(some, &PAPER));
    all.into_iter().flatten().map(|(name, salvage)| (name, salvaging(salvage))).collect()
}

#[test]
fn the_vectors_notice_every_wrong_salvage() {
    let passes = |reader: &Reference| play_all(reader).failures.is_empty();
    let missed = wrong_readers().into_iter().filter(|(_, reader)| passes(reader));
    assert_eq!(missed.map(|(name, _)| name).collect::<Vec<_>>(), [""; 0]);
}

#[test]
fn the_calls_notice_every_wrong_salvage() {
    let passes = |reader: &Reference| differing(&Reference::new(), reader, 1, CALLS).is_none();
    let missed = wrong_readers().into_iter().filter(|(_, reader)| passes(reader));
    assert_eq!(missed.map(|(name, _)| name).collect::<Vec<_>>(), [""; 0]);
}

/// What it says counts word for word, and a table counts only with status 0.
#[test]
fn a_program_that_says_something_else_is_noticed() {
    let changes: [fn(Run) -> Run; 6] = [
        |run| Run { report: String::new(), ..run },
        |run| Run { report: run.report.replace("held", "kept"), ..run },
        |run| Run { report: run.report.trim_end().to_string(), ..run },
        |run| Run { complaint: run.complaint.map(|_| "refused 20\n".to_string()), ..run },
        |run| Run { complaint: run.complaint.map(|words| words + "!"), ..run },
        |run| Run {
            complaint: Some(run.report.clone()).filter(|_| run.complaint.is_none()),
            ..run
        },
    ];
    for (number, change) in changes.into_iter().enumerate() {
        assert!(programs(change).made_tables(1, 60).is_err(), "change {number}");
    }
    let last_byte = |mut run: Run| {
        run.printed.pop();
        run
    };
    assert!(programs(last_byte).made_tables(1, 60).is_err());
}

/// Each of the wrong ones in the reader's place is noticed, and shown with its rooms.
#[test]
fn a_wrong_reader_is_noticed() {
    for (name, reader) in wrong_readers() {
        let shown = made_calls(&reader, 1, 1_000).err().unwrap_or_default();
        let lines: Vec<&str> = shown.lines().collect();
        assert_eq!(lines.first(), Some(&"a difference on this table:"), "{name}");
        assert!(lines[2].starts_with("rooms of "), "{name}: {shown}");
    }
}

/// A program that gives every table back and says nothing.
#[test]
fn a_difference_is_shown_shortly() {
    let cat = reporting_command(vec!["cat".to_string()]);
    let shown = Comparison::new(cat).made_tables(1, 60).unwrap_err();
    let lines: Vec<&str> = shown.lines().collect();
    assert_eq!((lines.len(), lines[0]), (3, "a difference on this table:"));
    assert_eq!(lines[1].matches("at: ").count(), 1, "{shown}");
}

/// A report counts with status 0, a complaint with status 1, and neither of them with another; who
/// isn't asked for a report mustn't give one.
#[test]
fn how_a_command_that_reports_ends() {
    let words = |script: &str| ["sh", "-c", script].map(str::to_string).to_vec();
    let ends =
        |script: &str| reporting_command(words(script))(&[]).map(|run| (run.report, run.complaint));
    assert_eq!(ends("exit 0"), Ok((String::new(), None)));
    assert_eq!(ends("echo so >&2"), Ok(("so\n".to_string(), None)));
    assert_eq!(ends("echo no >&2; exit 1"), Ok((String::new(), Some("no\n".to_string()))));
    for script in ["exit 1", "echo no >&2; exit 139", "kill -9 $$"] {
        assert!(ends(script).is_err(), "{script}");
    }
    assert!(command(words("echo so >&2"))(&[]).is_err());
}
