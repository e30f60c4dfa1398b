//! What a tablet makes of a report as it is heard, of stamps, of a ramp's two antennas and of its map
//! of what it has received, and what it gets that asks for records by number: lines of text with a
//! reader's answers, made with nothing but its public calls, so that those of any reader can be
//! compared with the samples. Of each line only what comes before its answer is looked at.

use crate::access::{NUMBER, REPORT};
use crate::fetch::{Told, MAP_WORDS};
use crate::joining::JOINING_BYTES;
use crate::numbers::PAPER;
use crate::octets::u16_at;
use crate::ramp::Sighting;
use crate::reader::Reader;
use crate::report::report;

/// Where the record's bytes begin in the joining state.
const RECORD_AT: usize = 3;

/// A notification a line in hexadecimal, `-` for one of no bytes, each with what joining and
/// reading answer; a line `closes` with the count of the records.
pub fn joined(reader: &dyn Reader, heard: &str) -> String {
    let (mut joining, mut lines, mut count) = ([0; JOINING_BYTES], String::new(), 0);
    for line in heard.lines() {
        let mut words = line.split(' ');
        let first = words.next().unwrap_or("");
        if first == "closes" {
            let response = words.next().unwrap_or("");
            lines += &format!("closes {response} joined {count}\n");
            continue;
        }
        let answer = match reader.join(&mut joining, &bytes_of(first)) {
            0 => "more".to_string(),
            length if length > 0 => read(reader, &joining[RECORD_AT..][..length as usize]),
            refusal => refused(refusal),
        };
        count += u32::from(answer.starts_with("record"));
        lines += &format!("{first} {answer}\n");
    }
    lines
}

/// A stamp and its number a line, each with what carrying it over the table answers.
pub fn carried(reader: &dyn Reader, table: &[u8], stamps: &str) -> String {
    let mut lines = String::new();
    for line in stamps.lines() {
        let numbers: Vec<u32> = line.split(' ').take(2).map(|word| word.parse().unwrap()).collect();
        let (stamp, q, mut result) = (numbers[0], numbers[1] as u16, 0);
        let answer = match reader.carry(stamp, q, table, &mut result) {
            0 => result.to_string(),
            refusal => refused(refusal),
        };
        lines += &format!("{stamp} {q} {answer}\n");
    }
    lines
}

/// Gives the table that a word names.
pub type Named<'a> = dyn Fn(&str) -> Vec<u8> + 'a;

/// Two reads and a window a line, each with what they are: of the left side its table, the clock, the
/// stamp and its number, and the same of the right side.
pub fn beasts(reader: &dyn Reader, named: &Named, reads: &str) -> String {
    let mut lines = String::new();
    for line in reads.lines() {
        let words: Vec<&str> = line.split(' ').take(9).collect();
        let [left, right] = [words[0], words[4]].map(named);
        let sightings = [&words[1..4], &words[5..8]].map(sighting);
        let mut side = 0;
        let window = words[8].parse().unwrap();
        let answer = match reader.one_beast([&left, &right], sightings, window, &mut side) {
            1 => "one".to_string(),
            2 => "two".to_string(),
            refusal => format!("{}{}", side_word(side), -refusal),
        };
        lines += &format!("{} {answer}\n", words.join(" "));
    }
    lines
}

fn sighting(words: &[&str]) -> Sighting {
    let number = |k: usize| words[k].parse::<u32>().unwrap();
    Sighting { base: number(0), stamp: number(1), next: number(2) as u16 }
}

/// Two tables a line, each with the part that is the later of their newest updates.
pub fn newest(reader: &dyn Reader, named: &Named, logs: &str) -> String {
    let mut lines = String::new();
    for line in logs.lines() {
        let words: Vec<&str> = line.split(' ').take(2).collect();
        let (left, right, mut part) = (named(words[0]), named(words[1]), [0; 3]);
        let answer = match reader.newest_update([&left, &right], &mut part) {
            0 => format!("{}{} {}", side_word(part[0]), part[1], part[2]),
            refusal => format!("refused {}{}", side_word(part[0]), -refusal),
        };
        lines += &format!("{} {answer}\n", words.join(" "));
    }
    lines
}

/// With the space after it; none where there is no side.
fn side_word(side: u32) -> &'static str {
    ["", "left ", "right "][side as usize]
}

/// A call on a tablet's map a line, each with its answer after ` = `; or `words` and a number, for a
/// new map of so many. Nothing is told at first.
pub fn fetched(reader: &dyn Reader, calls: &str) -> String {
    let (mut map, mut told, mut lines) = (vec![0; MAP_WORDS], [0; 3], String::new());
    for line in calls.lines() {
        let call = line.split(" = ").next().unwrap_or("");
        lines += call;
        match call.split(' ').collect::<Vec<_>>()[..] {
            ["words", words] => map = vec![0; words.parse().unwrap()],
            ["propose"] => lines += &format!(" = {}", proposed(reader, &map, &told)),
            ref words => lines += &format!(" = {}", on_map(reader, &mut map, &mut told, words)),
        }
        lines += "\n";
    }
    lines
}

/// A run's first number and its last.
fn proposed(reader: &dyn Reader, map: &[u64], told: &Told) -> String {
    let mut request = [0; 7];
    match reader.fetch_propose(map, told, &mut request) {
        0 => "nothing".to_string(),
        answer if answer > 0 => format!("{} {}", u16_at(&request, 3), u16_at(&request, 5)),
        refusal => refused(refusal),
    }
}

fn on_map(reader: &dyn Reader, map: &mut [u64], told: &mut Told, words: &[&str]) -> String {
    let number = |word: &str| word.parse().unwrap();
    let answer = match *words {
        ["tell", "none"] => reader.fetch_tell(map, told, 0, 0, 0),
        ["tell", oldest, newest] => reader.fetch_tell(map, told, 1, number(oldest), number(newest)),
        ["take", taken] => reader.fetch_take(map, told, number(taken)),
        ["received"] => reader.fetch_received(map),
        _ => panic!("no call on a map: {words:?}"),
    };
    if answer < 0 {
        return refused(answer);
    }
    answer.to_string()
}

/// An operator and its operand a line in hexadecimal, each with the response to their number and
/// the sequence numbers of the records that their report hands over.
pub fn asked(reader: &dyn Reader, table: &[u8], requests: &str) -> String {
    let mut lines = String::new();
    for line in requests.lines() {
        let first = line.split(' ').next().unwrap_or("");
        let answers = |opcode: u8| {
            let write = [&[opcode], &bytes_of(first)[..]].concat();
            report(reader, table, &write, &[PAPER.smallest_payload])
        };
        let number = answers(NUMBER);
        let number = number.trim_end().trim_start_matches("answers ");
        lines += &format!("{first} {number}{}\n", handed_over(reader, &answers(REPORT)));
    }
    lines
}

/// The numbers of a report's records, a space before each. Where nothing matches the report has
/// that one answer; what else might come shows as it is.
fn handed_over(reader: &dyn Reader, heard: &str) -> String {
    if heard == "answers 06000106\n" {
        return String::new();
    }
    let joined = joined(reader, heard);
    let numbers = joined.lines().filter_map(|line| match line.split(' ').collect::<Vec<_>>()[..] {
        [_, "record", number, ..] => Some(format!(" {number}")),
        [_, "more"] | ["closes", "06000101", ..] => None,
        _ => Some(format!(" {line}")),
    });
    numbers.collect()
}

fn read(reader: &dyn Reader, record: &[u8]) -> String {
    let mut fields = [0; 11];
    match reader.read(record, &mut fields) {
        0 => {
            let [sequence, kind, .., base, old_base] = fields;
            format!("record {sequence} {kind} {base} {old_base}")
        }
        refusal => refused(refusal),
    }
}

fn refused(answer: i32) -> String {
    format!("refused {}", -answer)
}

fn bytes_of(hex: &str) -> Vec<u8> {
    let digits: Vec<u32> = hex.chars().filter_map(|digit| digit.to_digit(16)).collect();
    digits.chunks_exact(2).map(|pair| (pair[0] * 16 + pair[1]) as u8).collect()
}
