//! The reference's times over the proved code's, in one run: `bench PROGRAM [BEFORE]`, where each
//! program is tests/c/bench.c and prints a name and nanoseconds a line. The second is of another
//! state of the code, and its times are divided too, as far as it has them. They take turns, and the
//! best turn of each counts. A proposal is set against one over a map of a byte a number, since the
//! reference is not written to be fast there.

#![forbid(unsafe_code)]

use reference::image::STATE_BYTES;
use reference::joining::JOINING_BYTES;
use reference::notify::CLOSING;
use reference::numbers::PAPER;
use reference::reader::{Reader, Reference};
use reference::table::{HEADER_BYTES, SLOT_BYTES};
use std::hint::black_box;
use std::process::Command;
use std::time::Instant;

const TURNS: usize = 3;
const ROUNDS: usize = 5;
/// Where the joined bytes begin in a joining state.
const RECORD_AT: usize = 3;
const FORCE: [u8; 11] = [0x03, 0x43, 0x00, 0x00, 0x08, 0xAF, 0x2F, 0x04, 0x00, 0x02, 0x01];

/// A reader with its buffers.
struct Bench {
    reader: Reference,
    state: [u8; STATE_BYTES],
    table: Vec<u8>,
    out: [u8; 244],
}

impl Bench {
    fn new(slots: usize) -> Bench {
        let table = vec![0; HEADER_BYTES + SLOT_BYTES * slots];
        let mut bench =
            Bench { reader: Reference::new(), state: [0; STATE_BYTES], table, out: [0; 244] };
        assert_eq!(bench.reader.start(&mut bench.state, &mut bench.table), 0);
        assert_eq!(bench.reader.switches(&mut bench.state, 1, 1, 1), 0);
        bench
    }

    fn update(&mut self) {
        let Bench { reader, state, table, out } = self;
        assert_eq!(reader.dtcp_write(state, table, black_box(&FORCE), out), 3);
    }

    fn carry(&self, q: usize) {
        let mut carried = 0;
        let table = black_box(&self.table);
        assert_eq!(self.reader.carry(800_000_000, q as u16, table, &mut carried), 0);
        black_box(carried);
    }

    fn begin(&mut self) {
        let Bench { reader, state, table, out } = self;
        assert_eq!(reader.racp_write(state, table, &[0x01, 0x01], out), 0);
    }

    fn next(&mut self) -> i32 {
        let Bench { reader, state, table, out } = self;
        reader.notify(state, black_box(table), PAPER.smallest_payload, out)
    }

    fn report(&mut self) {
        self.begin();
        while self.next() < CLOSING {}
    }

    /// The segments of the report, so that joining them can be timed alone.
    fn heard(&mut self) -> Vec<Vec<u8>> {
        self.begin();
        let segment = |_| {
            let length = self.next();
            (length < CLOSING).then(|| self.out[..length as usize].to_vec())
        };
        (0..).map_while(segment).collect()
    }

    fn joining(&self, heard: &[Vec<u8>]) {
        let (mut joining, mut fields) = ([0; JOINING_BYTES], [0; 11]);
        let mut records = 0;
        for segment in heard {
            let length = self.reader.join(&mut joining, black_box(segment));
            if length > 0 {
                let record = &joining[RECORD_AT..RECORD_AT + length as usize];
                assert_eq!(self.reader.read(record, &mut fields), 0);
                black_box(fields);
                records += 1;
            }
        }
        assert_eq!(records, PAPER.most_slots);
    }
}

/// A map of a byte for each number, all told and all received but the newest.
struct ByteMap {
    received: Box<[bool; 65_536]>,
    oldest: u16,
    newest: u16,
}

impl ByteMap {
    fn new(oldest: u16, newest: u16) -> ByteMap {
        let mut received = Box::new([true; 65_536]);
        received[usize::from(newest)] = false;
        ByteMap { received, oldest, newest }
    }

    /// The first run that is missing, looked for byte by byte.
    fn proposal(&self) {
        let ByteMap { received, oldest, newest } = black_box(self);
        let number = |place: u32| oldest.wrapping_add(place as u16);
        let is_received = |place: &u32| received[usize::from(number(*place))];
        let end = u32::from(newest.wrapping_sub(*oldest)) + 1;
        let first = (0..end).find(|place| !is_received(place)).expect("the newest is missing");
        let after = (first..end).find(is_received).unwrap_or(end);
        assert_eq!(number(first), *newest);
        black_box((number(first), number(after - 1)));
    }
}

/// Nanoseconds that one took, in the best of the rounds.
fn measure(times: usize, mut one: impl FnMut()) -> f64 {
    let round = |_| {
        let begin = Instant::now();
        (0..times).for_each(|_| one());
        begin.elapsed().as_nanos() as f64 / times as f64
    };
    (0..ROUNDS).map(round).fold(f64::INFINITY, f64::min)
}

/// What the proved code is set against.
fn other(name: &str) -> &'static str {
    if name.starts_with("proposal") {
        return "byte map";
    }
    "reference"
}

fn of_the_other(name: &str) -> f64 {
    match name {
        "dtcp_write" => {
            let mut small = Bench::new(4);
            measure(200_000, || small.update())
        }
        "proposal" => {
            let held = ByteMap::new(100, 1_122);
            measure(100_000, || held.proposal())
        }
        "proposal_all" => {
            let all = ByteMap::new(0, u16::MAX);
            measure(1_000, || all.proposal())
        }
        _ => of_a_full_table(name),
    }
}

fn of_a_full_table(name: &str) -> f64 {
    let slots = PAPER.most_slots;
    let mut large = Bench::new(slots);
    (0..slots).for_each(|_| large.update());
    match name {
        "soundness" => measure(1_000, || large.carry(slots)),
        "carrying" => measure(1_000, || large.carry(0)),
        "report" => measure(1, || large.report()),
        "joining" => {
            let heard = large.heard();
            measure(100, || large.joining(&heard))
        }
        "dtcp_write_full" => measure(1_000, || large.update()),
        other => panic!("no measure named {other}"),
    }
}

/// Names, each with its nanoseconds, in the order in which a program prints them.
type Times = Vec<(String, f64)>;

fn of_a_program(program: &str) -> Times {
    let output = Command::new(program).output().expect("the program runs");
    let lines = String::from_utf8_lossy(&output.stdout);
    assert!(output.status.success(), "{lines}");
    let time = |line: &str| {
        let (name, nanoseconds) = line.split_once(' ').expect("a name and nanoseconds");
        (name.to_string(), nanoseconds.parse().expect("a number"))
    };
    lines.lines().map(time).collect()
}

fn named(times: &Times, name: &str) -> Option<f64> {
    times.iter().find(|time| time.0 == name).map(|time| time.1)
}

/// Each program's times, and last the other's.
fn turn(programs: &[String]) -> Vec<Times> {
    let mut all: Vec<Times> = programs.iter().map(|program| of_a_program(program)).collect();
    all.push(all[0].iter().map(|(name, _)| (name.clone(), of_the_other(name))).collect());
    all
}

/// Of two turns the lower of all times.
fn lower(one: Vec<Times>, other: Vec<Times>) -> Vec<Times> {
    let lower_of = |(times, others): (Times, Times)| {
        let time = |(name, time): (String, f64)| {
            let other = named(&others, &name).expect("every turn has the same times");
            (name, time.min(other))
        };
        times.into_iter().map(time).collect()
    };
    one.into_iter().zip(other).map(lower_of).collect()
}

fn main() {
    let programs: Vec<String> = std::env::args().skip(1).collect();
    assert!(matches!(programs.len(), 1 | 2), "usage: bench PROGRAM [BEFORE]");
    let all = (0..TURNS).map(|_| turn(&programs)).reduce(lower).expect("a turn");
    let (before, others) = (&all[1..programs.len()], &all[programs.len()]);
    for (name, proved) in &all[0] {
        let against = |what: &str, times: &Times| {
            let time = named(times, name)?;
            Some(format!(", {what} {time:.0} ns, {what}/proved {:.2}", time / proved))
        };
        let other = against(other(name), others).expect("every time has its other");
        let before: String = before.iter().filter_map(|times| against("before", times)).collect();
        println!("{name}: proved {proved:.0} ns{other}{before}");
    }
}
