//! The season's figures, worked by hand from the paper's words; and the comparison of a program
//! that prints them, tried on the reference's own.

mod by_hand;

use by_hand::{full_table, FAULT, FIRST, LAST, UPDATE};
use reference::concatenation::Comparison;
use reference::program::command;
use reference::season::{Failure, PAPER};
use std::io::{self, ErrorKind, Read};

/// A full table: type, new base and old base of each record.
fn table(records: &[(u8, u32, u32)]) -> Vec<u8> {
    let records = records.iter().map(|(kind, base, old_base)| (*kind, [4, 0], [*base, *old_base]));
    full_table(&records.collect::<Vec<_>>())
}

/// Set to 800,000,000, and after 100 seconds back to 800,000,070.
fn two_updates() -> Vec<u8> {
    table(&[(UPDATE, 800_000_000, FIRST), (UPDATE, 800_000_070, 800_000_100)])
}

/// The slot's last byte isn't 0.
fn unsound() -> Vec<u8> {
    let mut bytes = table(&[(UPDATE, 800_000_000, FIRST)]);
    bytes[79] = 1;
    bytes
}

fn entry(table: &[u8]) -> Vec<u8> {
    [&(table.len() as u32).to_le_bytes(), table].concat()
}

fn figures(input: &[u8]) -> String {
    let mut output = Vec::new();
    PAPER.run(input, &mut output).unwrap();
    String::from_utf8(output).unwrap()
}

fn figures_of(tables: &[Vec<u8>]) -> String {
    figures(&tables.iter().flat_map(|table| entry(table)).collect::<Vec<u8>>())
}

const NO_TOTAL: &str = "total updates 0 forward 0 back 0 faults 0 largest 0\n";

#[test]
fn two_updates_are_summed() {
    let expected = "1 updates 2 forward 168848000 back 30 faults 0 largest 168848000\n\
                    total updates 2 forward 168848000 back 30 faults 0 largest 168848000\n";
    assert_eq!(figures_of(&[two_updates()]), expected);
}

/// The fault's own jump, 40 seconds back, is no move.
#[test]
fn a_fault_is_counted_and_moves_nothing() {
    let faulty = table(&[
        (UPDATE, 800_000_000, FIRST),
        (UPDATE, 800_000_070, 800_000_100),
        (FAULT, 800_000_070, 800_000_110),
    ]);
    let expected = "1 updates 2 forward 168848000 back 30 faults 1 largest 168848000\n\
                    total updates 2 forward 168848000 back 30 faults 1 largest 168848000\n";
    assert_eq!(figures_of(&[faulty]), expected);
}

#[test]
fn empty_input_ends_normally() {
    assert_eq!(figures(&[]), NO_TOTAL);
}

#[test]
fn a_table_without_records_has_its_line() {
    let mut empty = table(&[]);
    empty[0] = 1;
    empty.resize(80, 0);
    let expected = "1 updates 0 forward 0 back 0 faults 0 largest 0\n".to_string() + NO_TOTAL;
    assert_eq!(figures_of(&[empty]), expected);
}

#[test]
fn an_update_by_0_is_an_update() {
    let expected = "1 updates 1 forward 0 back 0 faults 0 largest 0\n\
                    total updates 1 forward 0 back 0 faults 0 largest 0\n";
    assert_eq!(figures_of(&[table(&[(UPDATE, LAST, LAST)])]), expected);
}

/// 5 forward and 7 back, then 6 forward: the largest is a move back, and the total's is the first
/// table's.
#[test]
fn the_largest_move_may_be_one_back() {
    let tables = [
        table(&[(UPDATE, FIRST + 5, FIRST), (UPDATE, FIRST, FIRST + 7)]),
        table(&[(UPDATE, FIRST + 6, FIRST)]),
    ];
    let expected = "1 updates 2 forward 5 back 7 faults 0 largest 7\n\
                    2 updates 1 forward 6 back 0 faults 0 largest 6\n\
                    total updates 3 forward 11 back 7 faults 0 largest 7\n";
    assert_eq!(figures_of(&tables), expected);
}

/// Three times from end to end forward, more than 32 bits hold: 3 · 2,524,607,999; and once back.
#[test]
fn moves_over_the_whole_range_are_exact() {
    let forward = (UPDATE, LAST, FIRST);
    let expected = "1 updates 4 forward 7573823997 back 2524607999 faults 0 largest 2524607999\n\
                    2 updates 4 forward 7573823997 back 2524607999 faults 0 largest 2524607999\n\
                    total updates 8 forward 15147647994 back 5049215998 faults 0 largest 2524607999\n";
    let far = table(&[forward, forward, (UPDATE, FIRST, LAST), forward]);
    assert_eq!(figures_of(&[far.clone(), far]), expected);
}

/// The largest table, all of it moves from end to end: 1,023 · 2,524,607,999.
#[test]
fn the_largest_table_is_summed() {
    let figures = figures_of(&[table(&[(UPDATE, FIRST, LAST); 1_023])]);
    let line = "updates 1023 forward 0 back 2582673982977 faults 0 largest 2524607999\n";
    assert_eq!(figures, format!("1 {line}total {line}"));
}

#[test]
fn a_refused_table_is_passed_over() {
    let expected = "1 updates 2 forward 168848000 back 30 faults 0 largest 168848000\n\
                    2 refused 1\n\
                    3 updates 2 forward 168848000 back 30 faults 0 largest 168848000\n\
                    total updates 4 forward 337696000 back 60 faults 0 largest 168848000\n";
    assert_eq!(figures_of(&[two_updates(), unsound(), two_updates()]), expected);
}

#[test]
fn input_that_stops_inside_a_size_ends_the_run() {
    for size in [&[0x50, 0x00, 0x00][..], &[0x50, 0x00], &[0x50]] {
        assert_eq!(figures(size), "ended 1\n".to_string() + NO_TOTAL);
    }
}

#[test]
fn input_that_stops_inside_a_table_ends_the_run() {
    let whole = entry(&two_updates());
    let lines = figures(&whole);
    let (line, total) = lines.split_once('\n').unwrap();
    for there in [4, 5, 20, whole.len() - 1] {
        assert_eq!(figures(&whole[..there]), "ended 1\n".to_string() + NO_TOTAL);
        let again = [&whole, &whole[..there]].concat();
        assert_eq!(figures(&again), format!("{line}\nended 2\n{total}"));
    }
}

/// 16 + 64·N for N from 1 to 1,023 is permitted, and nothing else; what follows isn't looked at.
#[test]
fn a_size_that_is_not_permitted_ends_the_run() {
    for size in [0, 15, 16, 79, 0x51, 143, 65_487, 65_489, 65_552, 1 << 31, u32::MAX] {
        let mut input = size.to_le_bytes().to_vec();
        input.resize(4 + 65_552, 0);
        assert_eq!(figures(&input), "ended 1\n".to_string() + NO_TOTAL, "{size}");
    }
    for size in [80, 144, 65_424, 65_488u32] {
        let mut input = size.to_le_bytes().to_vec();
        input.resize(4 + size as usize, 0);
        assert_eq!(figures(&input), "1 refused 1\n".to_string() + NO_TOTAL, "{size}");
    }
}

/// Bytes, and then no more of them can be had.
struct Failing<'a>(&'a [u8]);

impl Read for Failing<'_> {
    fn read(&mut self, bytes: &mut [u8]) -> io::Result<usize> {
        match self.0.read(bytes)? {
            0 => Err(ErrorKind::Other.into()),
            count => Ok(count),
        }
    }
}

/// The figures of the table before it are there, and neither `ended` nor the totals.
#[test]
fn input_that_cannot_be_read_is_no_end() {
    for more in [0, 3, 4, 50] {
        let mut input = entry(&two_updates());
        input.extend_from_within(..more);
        let mut output = Vec::new();
        assert_eq!(PAPER.run(Failing(&input), &mut output), Err(Failure::Input));
        let line = b"1 updates 2 forward 168848000 back 30 faults 0 largest 168848000\n";
        assert_eq!(output, line);
    }
}

#[test]
fn output_that_cannot_be_written_is_told() {
    let mut no_room: &mut [u8] = &mut [0; 10];
    assert_eq!(PAPER.run(&entry(&two_updates())[..], &mut no_room), Err(Failure::Output));
}

#[test]
fn the_program_is_told_from_every_wrong_one() {
    let mut comparison = Comparison::new(command(vec![env!("CARGO_BIN_EXE_season").to_string()]));
    comparison.made_runs(1, 100).unwrap();
    comparison.long_runs().unwrap();
    let untold = comparison.program.untold();
    assert!(untold.is_empty(), "not noticed: {untold:?}");
}

/// A program that reads and prints nothing: shown with no more entries than it takes.
#[test]
fn a_difference_is_shown_shortly() {
    let shown = Comparison::new(command(vec!["true".to_string()])).made_runs(1, 1).unwrap_err();
    let total = NO_TOTAL.trim_end();
    let expected = format!("line 1: expected Some({total:?}), printed Some(\"\")");
    assert_eq!(shown, format!("a difference on these 0 entries:\n{expected}"));
}
