//! The proved season program's speed and the reference's, in one run: `season FILE REFERENCE
//! COMMAND..`. Writes full tables to the file, and has the reference's program and the command,
//! which runs the proved one, print their figures in turn.

#![forbid(unsafe_code)]

use reference::numbers::PAPER;
use reference::random::{planned_table, Plan};
use std::fs::{self, File};
use std::io::{self, BufWriter, Write};
use std::process::Command;
use std::slice;
use std::time::Instant;

const TABLES: usize = 1_000;
const ROUNDS: usize = 9;

/// Full tables, wrapped and with numbers that have rolled over; a fifth of the records are faults.
fn write_tables(file: &str) -> io::Result<()> {
    let mut file = BufWriter::new(File::create(file)?);
    let slots = PAPER.most_slots;
    for table in 0..TABLES {
        let oldest = table % slots;
        let plan = Plan { slots, held: slots, oldest, next: table as u16, seed: table as u64 };
        let table = planned_table(&plan);
        file.write_all(&(table.len() as u32).to_le_bytes())?;
        file.write_all(&table)?;
    }
    file.flush()
}

/// What the command prints of the file, and the seconds that it took.
fn timed(command: &[String], file: &str) -> (Vec<u8>, f64) {
    let (program, arguments) = command.split_first().expect("a command");
    let input = File::open(file).expect("the file was written");
    let begin = Instant::now();
    let output = Command::new(program).args(arguments).stdin(input).output();
    let seconds = begin.elapsed().as_secs_f64();
    let output = output.expect("the command runs");
    assert!(output.status.success(), "{}", String::from_utf8_lossy(&output.stderr));
    (output.stdout, seconds)
}

fn main() {
    let words: Vec<String> = std::env::args().skip(1).collect();
    let [file, reference, command @ ..] = &words[..] else {
        panic!("usage: season FILE REFERENCE COMMAND..");
    };
    write_tables(file).expect("the file can be written");
    let megabytes = fs::metadata(file).expect("the file was written").len() as f64 / 1e6;
    let mut best = [f64::INFINITY; 2];
    for _ in 0..ROUNDS {
        let (proved, proved_seconds) = timed(command, file);
        let (figures, seconds) = timed(slice::from_ref(reference), file);
        assert!(proved == figures, "the programs print different figures");
        best = [best[0].min(proved_seconds), best[1].min(seconds)];
    }
    let [proved, reference] = best.map(|seconds| megabytes / seconds);
    let ratio = proved / reference;
    println!("season: proved {proved:.0} MB/s, reference {reference:.0} MB/s, ratio {ratio:.2}");
}
