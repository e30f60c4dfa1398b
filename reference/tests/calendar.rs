//! The calendar, worked by hand from the papers' words; and the comparisons of the programs calendar
//! and dates, tried on the reference's own lines and on wrong ones.

mod by_hand;

use by_hand::{full_table, FAULT, FIRST, LAST, UPDATE};
use reference::calendar::{calendar, Date, PAPER};
use reference::dates::dates;
use reference::program::{command, Run};
use reference::reader::Reference;
use reference::{days, zones};

/// 2025-05-08 06:13:20.
const PAPERS: u32 = 800_000_000;
const DAY: u32 = 86_400;

/// A full table: type, new base, zone byte and DST of each record.
fn table(records: &[(u8, u32, u8, u8)]) -> Vec<u8> {
    let records =
        records.iter().map(|(kind, base, zone, dst)| (*kind, [*zone, *dst], [*base, FIRST]));
    full_table(&records.collect::<Vec<_>>())
}

fn lines(table: &[u8]) -> String {
    calendar(&Reference::new(), table)
}

/// What the line of an update shows: its date and its local date.
fn shown(base: u32, zone: u8, dst: u8) -> String {
    let lines = lines(&table(&[(UPDATE, base, zone, dst)]));
    lines.trim_end().strip_prefix("records 1 next 1\n0 1 ").unwrap().to_string()
}

fn date(seconds: u32) -> String {
    PAPER.dates.date(seconds).unwrap().to_string()
}

/// The seconds of a date; year, month, day, hour, minute, second.
fn seconds([year, month, day, hour, minute, second]: [u32; 6]) -> Option<u32> {
    PAPER.dates.seconds(&Date { year, month, day, hour, minute, second })
}

#[test]
fn the_papers_records() {
    let two = table(&[(UPDATE, PAPERS, 4, 0), (UPDATE, PAPERS + 70, 4, 0)]);
    let expected = "records 2 next 2\n\
                    0 1 2025-05-08 06:13:20 2025-05-08 07:13:20\n\
                    1 1 2025-05-08 06:14:30 2025-05-08 07:14:30\n";
    assert_eq!(lines(&two), expected);
}

/// It has neither zone nor DST.
#[test]
fn a_fault_has_no_local_time() {
    let expected = "records 1 next 1\n0 0 2025-05-08 06:13:20 ?\n";
    assert_eq!(lines(&table(&[(FAULT, PAPERS, 0, 0)])), expected);
}

#[test]
fn an_empty_table_has_its_first_line() {
    let mut empty = table(&[]);
    empty[0] = 1;
    empty.resize(80, 0);
    assert_eq!(lines(&empty), "records 0 next 0\n");
}

/// The slot's last byte isn't 0; a byte too few; no byte.
#[test]
fn an_unsound_table_is_refused() {
    let sound = table(&[(UPDATE, PAPERS, 4, 0)]);
    let mut unsound = sound.clone();
    unsound[79] = 1;
    for table in [&unsound[..], &sound[..79], &[]] {
        assert_eq!(lines(table), "refused 1\n");
    }
}

/// Full, its oldest record in the second slot, numbers 65,535 and 0.
#[test]
fn the_oldest_comes_first() {
    let mut rolled = table(&[(UPDATE, PAPERS + 1, 0, 0), (UPDATE, PAPERS, 0, 0)]);
    rolled[4] = 80;
    rolled[8] = 1;
    rolled[81..83].fill(0xFF);
    let expected = "records 2 next 1\n\
                    65535 1 2025-05-08 06:13:20 2025-05-08 06:13:20\n\
                    0 1 2025-05-08 06:13:21 2025-05-08 06:13:21\n";
    assert_eq!(lines(&rolled), expected);
}

/// Twelve hours back are 2019, which is shown; a quarter hour on is 2100, which isn't.
#[test]
fn local_time_at_both_ends_of_the_range() {
    assert_eq!(shown(FIRST, 0, 0), "2020-01-01 00:00:00 2020-01-01 00:00:00");
    assert_eq!(shown(FIRST, 0xD0, 0), "2020-01-01 00:00:00 2019-12-31 12:00:00");
    assert_eq!(shown(FIRST, 0x38, 8), "2020-01-01 00:00:00 2020-01-01 16:00:00");
    assert_eq!(shown(LAST, 0, 0), "2099-12-31 23:59:59 2099-12-31 23:59:59");
    assert_eq!(shown(LAST, 1, 0), "2099-12-31 23:59:59 ?");
    assert_eq!(shown(LAST, 0, 2), "2099-12-31 23:59:59 ?");
    assert_eq!(shown(LAST, 0xFF, 0), "2099-12-31 23:59:59 2099-12-31 23:44:59");
    assert_eq!(shown(LAST, 0xFE, 2), "2099-12-31 23:59:59 2099-12-31 23:59:59");
}

/// 56 and 8 quarter hours are 16 hours, 57,600 seconds.
#[test]
fn the_last_local_second_of_2099() {
    assert_eq!(shown(LAST - 57_600, 0x38, 8), "2099-12-31 07:59:59 2099-12-31 23:59:59");
    assert_eq!(shown(LAST - 57_599, 0x38, 8), "2099-12-31 08:00:00 ?");
}

#[test]
fn zones_and_dst() {
    let local = |zone, dst| shown(PAPERS, zone, dst).split_off("2025-05-08 06:13:20 ".len());
    assert_eq!(local(0x00, 0), "2025-05-08 06:13:20");
    assert_eq!(local(0x00, 2), "2025-05-08 06:43:20");
    assert_eq!(local(0x00, 4), "2025-05-08 07:13:20");
    assert_eq!(local(0x00, 8), "2025-05-08 08:13:20");
    assert_eq!(local(0x04, 4), "2025-05-08 08:13:20");
    assert_eq!(local(0x17, 0), "2025-05-08 11:58:20");
    assert_eq!(local(0x38, 0), "2025-05-08 20:13:20");
    assert_eq!(local(0x38, 8), "2025-05-08 22:13:20");
    assert_eq!(local(0xD0, 0), "2025-05-07 18:13:20");
    assert_eq!(local(0xD0, 8), "2025-05-07 20:13:20");
    assert_eq!(local(0xFF, 0), "2025-05-08 05:58:20");
    assert_eq!(local(0x80, 0), "?");
    assert_eq!(local(0x80, 255), "?");
    assert_eq!(local(0x04, 255), "?");
}

/// 59 days before 1 March of an ordinary year, 60 of a leap year; 366 days in 2000.
#[test]
fn leap_days() {
    assert_eq!(date(59 * DAY), "2000-02-29 00:00:00");
    assert_eq!(date(60 * DAY - 1), "2000-02-29 23:59:59");
    assert_eq!(date(60 * DAY), "2000-03-01 00:00:00");
    assert_eq!(date((366 + 59) * DAY - 1), "2001-02-28 23:59:59");
    assert_eq!(date((366 + 59) * DAY), "2001-03-01 00:00:00");
    assert_eq!(date((1_461 + 59) * DAY), "2004-02-29 00:00:00");
    assert_eq!(date((24 * 1_461 + 59) * DAY), "2096-02-29 00:00:00");
    assert_eq!(date((24 * 1_461 + 60) * DAY), "2096-03-01 00:00:00");
    assert_eq!(date((24 * 1_461 + 366 + 2 * 365 + 59) * DAY - 1), "2099-02-28 23:59:59");
    assert_eq!(date((24 * 1_461 + 366 + 2 * 365 + 59) * DAY), "2099-03-01 00:00:00");
}

#[test]
fn both_ends_of_the_years() {
    assert_eq!(date(0), "2000-01-01 00:00:00");
    assert_eq!(date(FIRST - 1), "2019-12-31 23:59:59");
    assert_eq!(date(LAST), "2099-12-31 23:59:59");
    assert_eq!(PAPER.dates.date(LAST + 1), None);
    assert_eq!(PAPER.dates.date(u32::MAX), None);
    assert_eq!(seconds([2000, 1, 1, 0, 0, 0]), Some(0));
    assert_eq!(seconds([2020, 1, 1, 0, 0, 0]), Some(FIRST));
    assert_eq!(seconds([2025, 5, 8, 6, 13, 20]), Some(PAPERS));
    assert_eq!(seconds([2099, 12, 31, 23, 59, 59]), Some(LAST));
}

#[test]
fn dates_that_do_not_exist() {
    let none = [
        [2001, 2, 29, 0, 0, 0],
        [2000, 2, 30, 0, 0, 0],
        [2099, 2, 29, 0, 0, 0],
        [2025, 4, 31, 0, 0, 0],
        [2025, 6, 31, 0, 0, 0],
        [2025, 9, 31, 0, 0, 0],
        [2025, 11, 31, 0, 0, 0],
        [2025, 0, 1, 0, 0, 0],
        [2025, 13, 1, 0, 0, 0],
        [2025, 1, 0, 0, 0, 0],
        [2025, 1, 32, 0, 0, 0],
        [2025, 12, 32, 0, 0, 0],
        [1999, 12, 31, 23, 59, 59],
        [2100, 1, 1, 0, 0, 0],
        [0, 1, 1, 0, 0, 0],
        [2025, 1, 1, 24, 0, 0],
        [2025, 1, 1, 0, 60, 0],
        [2025, 1, 1, 0, 0, 60],
        [u32::MAX; 6],
    ];
    for date in none {
        assert_eq!(seconds(date), None, "{date:?}");
    }
}

/// The second way: a day at a time, by the lengths of the months, from 1 January 2000 on.
fn days() -> Vec<[u32; 3]> {
    let mut days = Vec::new();
    for year in 2000..=2099 {
        let february = if year % 4 == 0 { 29 } else { 28 };
        let lengths = [31, february, 31, 30, 31, 30, 31, 31, 30, 31, 30, 31];
        for (month, length) in (1..).zip(lengths) {
            days.extend((1..=length).map(|day| [year, month, day]));
        }
    }
    days
}

#[test]
fn every_midnight_and_last_second_there_and_back() {
    let days = days();
    for (first, [year, month, day]) in (0..).step_by(DAY as usize).zip(&days) {
        let last = first + DAY - 1;
        assert_eq!(seconds([*year, *month, *day, 0, 0, 0]), Some(first));
        assert_eq!(seconds([*year, *month, *day, 23, 59, 59]), Some(last));
        let day = format!("{year}-{month:02}-{day:02}");
        assert_eq!(date(first), format!("{day} 00:00:00"));
        assert_eq!(date(last), format!("{day} 23:59:59"));
    }
    assert_eq!(days.len(), 36_525);
}

#[test]
fn every_second_of_a_day_there_and_back() {
    for second in 0..DAY {
        let [hour, minute, rest] = [second / 3_600, second % 3_600 / 60, second % 60];
        let there = PAPER.dates.date(PAPERS / DAY * DAY + second).unwrap();
        assert_eq!(there.to_string(), format!("2025-05-08 {hour:02}:{minute:02}:{rest:02}"));
        assert_eq!(PAPER.dates.seconds(&there), Some(PAPERS / DAY * DAY + second));
    }
}

/// The step is a prime, so that every second of a day comes up on some day.
#[test]
fn seconds_of_the_whole_range_there_and_back() {
    for there in (0..=LAST).step_by(9_973) {
        assert_eq!(PAPER.dates.seconds(&PAPER.dates.date(there).unwrap()), Some(there));
    }
}

/// Little endian: 800,000,000 is 0x2FAF0800, 631,152,000 is 0x259E9D80, 3,155,759,999 is 0xBC19137F.
const NUMBERS: [u8; 24] = [
    0x00, 0x08, 0xAF, 0x2F, 0x80, 0x9D, 0x9E, 0x25, 0x00, 0x00, 0x00, 0x00, 0x7F, 0x13, 0x19, 0xBC,
    0x80, 0x13, 0x19, 0xBC, 0xFF, 0xFF, 0xFF, 0xFF,
];

fn printed(run: Run) -> String {
    String::from_utf8(run.printed).unwrap()
}

#[test]
fn numbers_to_dates_and_back() {
    let run = dates(&NUMBERS);
    assert_eq!(run.complaint, None);
    let expected = "2025-05-08 06:13:20 800000000\n\
                    2020-01-01 00:00:00 631152000\n\
                    2000-01-01 00:00:00 0\n\
                    2099-12-31 23:59:59 3155759999\n\
                    ?\n\
                    ?\n";
    assert_eq!(printed(run), expected);
}

/// The whole numbers before it have their lines.
#[test]
fn input_that_stops_inside_a_number_is_complained_of() {
    for (bytes, complaint) in [(0, false), (1, true), (2, true), (3, true), (4, false), (7, true)] {
        let run = dates(&NUMBERS[..bytes]);
        assert_eq!(run.complaint.is_some(), complaint, "{bytes} bytes");
        let expected = if bytes < 4 { "" } else { "2025-05-08 06:13:20 800000000\n" };
        assert_eq!(printed(run), expected, "{bytes} bytes");
    }
}

/// The reference's own calendar, with one thing changed of what it prints.
fn calendars(change: fn(String) -> String) -> zones::Comparison {
    zones::Comparison::new(Box::new(move |table| Ok(Run::without_complaint(change(lines(table))))))
}

/// The reference's own dates, with one thing changed of a run.
fn dates_programs(change: fn(Run) -> Run) -> days::Comparison {
    days::Comparison::new(Box::new(move |input| Ok(change(dates(input)))))
}

#[test]
fn the_calendar_is_told_from_every_wrong_one() {
    let mut comparison = calendars(|lines| lines);
    assert_eq!(comparison.every_zone_and_month(), Ok(106 * 5 * 9 + 80 * 12 * 2));
    assert_eq!(comparison.program.untold(), [""; 0]);
    assert_eq!(comparison.made_tables(1, 60), Ok(()));
}

/// 201 seconds around the end of 2099, the last of 2099 and of 13,185 days after it, 101 up to
/// 4,294,967,295, 5,000 random ones.
#[test]
fn the_dates_program_is_told_from_every_wrong_one() {
    let mut comparison = dates_programs(|run| run);
    assert_eq!(comparison.every_day(1), Ok((36_525, 201 + 13_186 + 101 + 5_000)));
    assert_eq!(comparison.cut_and_empty(), Ok(3));
    assert_eq!(comparison.program.untold(), [""; 0]);
}

/// Each part notices by itself what it is there for.
#[test]
fn a_calendar_wrong_in_one_line_is_noticed() {
    let last_second = |lines: String| lines.replace(" 2099-12-31 23:59:59\n", " ?\n");
    assert!(calendars(last_second).every_zone_and_month().is_err());
    let refused = |lines: String| lines.replace("refused 1\n", "refused 2\n");
    assert!(calendars(refused).made_tables(1, 60).is_err());
    let rolled = |lines: String| lines.replace("\n0 1 ", "\n65536 1 ");
    assert!(calendars(rolled).made_tables(1, 60).is_err());
}

#[test]
fn a_dates_program_wrong_in_one_line_is_noticed() {
    let one_day =
        |run| Run::without_complaint(printed(run).replace("2096-02-29 23", "2096-03-01 23"));
    let line = "2096-02-29 23:59:59 3034713599";
    let wrong = line.replace("02-29", "03-01");
    let differs = format!("line 70248: expected Some({line:?}), printed Some({wrong:?})");
    let expected = format!("in the dates of every day, {differs}");
    assert_eq!(dates_programs(one_day).every_day(1), Err(expected));
    let shortened = |run| Run::without_complaint(printed(run).trim_end().to_string());
    assert!(dates_programs(shortened).every_day(1).is_err());
}

/// No complaint where one is due, one where none is, the lines lost with it.
#[test]
fn a_dates_program_wrong_at_the_end_is_noticed() {
    let silent = |run| Run { complaint: None, ..run };
    let found = dates_programs(silent).cut_and_empty();
    assert_eq!(found, Err("in the dates of 1 bytes, no complaint, and one is due".to_string()));
    let complaining = |run| Run { complaint: Some("!".to_string()), ..run };
    let found = dates_programs(complaining).cut_and_empty();
    assert_eq!(found, Err("in the dates of 0 bytes, a complaint: \"!\"".to_string()));
    let lost = |run: Run| match run.complaint {
        None => run,
        complaint => Run { complaint, ..Run::default() },
    };
    assert!(dates_programs(lost).cut_and_empty().is_err());
}

/// A complaint counts with status 1 alone, and status 1 with a complaint.
#[test]
fn how_a_command_ends() {
    let ends = |script: &str| {
        let words = ["sh", "-c", script].map(str::to_string);
        command(words.to_vec())(&[]).map(|run| run.complaint)
    };
    assert_eq!(ends("exit 0"), Ok(None));
    assert_eq!(ends("echo no >&2; exit 1"), Ok(Some("no\n".to_string())));
    for script in ["exit 1", "echo no >&2", "echo no >&2; exit 139", "kill -9 $$"] {
        assert!(ends(script).is_err(), "{script}");
    }
}
