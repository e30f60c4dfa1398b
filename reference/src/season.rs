//! Season figures: what the clocks of all the readers were moved by.
//!
//! The input is a concatenation of tables, each preceded by its size in four bytes. A table that
//! isn't sound is named by its position, adds nothing and is passed over. A size that isn't
//! permitted, input that stops inside a size or a table, or anything after the 65,535th table
//! ends the run with its position. The totals come last, however the run ended.

use crate::numbers::{self, Numbers};
use crate::record::{self, Record};
use crate::refusal::Refusal;
use crate::table::{slots_of_size, Log};
use std::fmt;
use std::io::{self, BufRead, BufReader, BufWriter, ErrorKind, Read, Write};

/// A table's figures, or the totals. All are exact: 65,535 tables hold at most 67,042,305 records,
/// and one moves the clock by at most 2,524,607,999 seconds.
#[derive(Clone, Copy, Debug, Default, PartialEq, Eq)]
pub struct Figures {
    pub updates: u32,
    /// Seconds by which updates moved the clock forward, and back.
    pub forward: u64,
    pub back: u64,
    pub faults: u32,
    /// The largest move either way, as a size.
    pub largest: u32,
}

impl Figures {
    /// What a held record adds. A fault's own jump is no move.
    pub fn add(&mut self, record: &Record) {
        match record {
            Record::Fault(_) => self.faults += 1,
            Record::Update(update) => {
                self.updates += 1;
                self.add_move(update.base, update.old_base);
            }
        }
    }

    /// Forward or back; a move by 0 adds nothing.
    pub fn add_move(&mut self, base: u32, old_base: u32) {
        self.forward += u64::from(base.saturating_sub(old_base));
        self.back += u64::from(old_base.saturating_sub(base));
        self.largest = self.largest.max(base.abs_diff(old_base));
    }

    /// What a table adds to the totals.
    pub fn add_table(&mut self, table: &Figures) {
        self.updates += table.updates;
        self.forward += table.forward;
        self.back += table.back;
        self.faults += table.faults;
        self.largest = self.largest.max(table.largest);
    }
}

impl fmt::Display for Figures {
    fn fmt(&self, f: &mut fmt::Formatter) -> fmt::Result {
        let Figures { updates, forward, back, faults, largest } = self;
        write!(f, "updates {updates} forward {forward} back {back} ")?;
        write!(f, "faults {faults} largest {largest}")
    }
}

/// What stands at a position of the input.
#[derive(Clone, Copy, Debug, PartialEq, Eq)]
pub enum Entry {
    Table,
    /// Not a whole table of a permitted size, or one too many.
    Unreadable,
    /// The input has ended.
    Nothing,
}

/// Why a run wasn't finished.
#[derive(Clone, Copy, Debug, PartialEq, Eq)]
pub enum Failure {
    Input,
    Output,
}

impl fmt::Display for Failure {
    fn fmt(&self, f: &mut fmt::Formatter) -> fmt::Result {
        f.write_str(match self {
            Failure::Input => "the input could not be read",
            Failure::Output => "the figures could not be written",
        })
    }
}

/// The run, by its numbers and steps. They are fields for the reason that the numbers of `Numbers`
/// are: a wrong program has one of them otherwise. Everybody else uses `PAPER`.
#[derive(Clone, Debug)]
pub struct Season {
    pub numbers: Numbers,
    pub first_position: u32,
    /// By how many positions a refused table is passed over.
    pub refused_positions: u32,
    /// What a held record adds to its table's figures.
    pub add: fn(&mut Figures, &Record),
    /// What a table adds to the totals, and what a refused one does.
    pub add_table: fn(&mut Figures, &Figures),
    pub add_refused: fn(&mut Figures, &[u8]),
    /// What a table is that the input stops inside.
    pub cut_table: Entry,
}

pub const PAPER: Season = Season {
    numbers: numbers::PAPER,
    first_position: 1,
    refused_positions: 1,
    add: Figures::add,
    add_table: Figures::add_table,
    add_refused: |_, _| {},
    cut_table: Entry::Unreadable,
};

impl Season {
    /// Reads the tables and prints their figures and the totals. Input or output that fails ends
    /// it at once, without the lines that would be last.
    pub fn run(&self, input: impl Read, output: impl Write) -> Result<(), Failure> {
        let mut output = BufWriter::new(output);
        let ended = self.lines(BufReader::new(input), &mut output);
        // The figures of what was read before the input failed are printed all the same.
        output.flush().map_err(|_| Failure::Output).and(ended)
    }

    fn lines(&self, mut input: impl BufRead, output: &mut impl Write) -> Result<(), Failure> {
        let mut say = |line: fmt::Arguments| {
            let said = writeln!(output, "{line}");
            said.map_err(|_| Failure::Output)
        };
        let mut position = self.first_position;
        let mut total = Figures::default();
        let mut table = Vec::new();
        loop {
            match self.entry(position, &mut input, &mut table).map_err(|_| Failure::Input)? {
                Entry::Table => match self.figures(&table) {
                    Ok(figures) => {
                        say(format_args!("{position} {figures}"))?;
                        (self.add_table)(&mut total, &figures);
                        position += 1;
                    }
                    Err(refusal) => {
                        say(format_args!("{position} refused {}", refusal as u8))?;
                        (self.add_refused)(&mut total, &table);
                        position += self.refused_positions;
                    }
                },
                Entry::Unreadable => {
                    say(format_args!("ended {position}"))?;
                    break;
                }
                Entry::Nothing => break,
            }
        }
        say(format_args!("total {total}"))
    }

    /// Reads a size and the table behind it.
    fn entry(
        &self,
        position: u32,
        input: &mut impl BufRead,
        table: &mut Vec<u8>,
    ) -> io::Result<Entry> {
        if input.fill_buf()?.is_empty() {
            return Ok(Entry::Nothing);
        }
        let mut size = [0; 4];
        if position > self.numbers.most_tables || !filled(input, &mut size)? {
            return Ok(Entry::Unreadable);
        }
        let size = u32::from_le_bytes(size) as usize;
        if slots_of_size(&self.numbers, size).is_none() {
            return Ok(Entry::Unreadable);
        }
        table.resize(size, 0);
        Ok(if filled(input, table)? { Entry::Table } else { self.cut_table })
    }

    /// The figures of a table. Refuses 1.
    fn figures(&self, table: &[u8]) -> Result<Figures, Refusal> {
        let log = Log::open(&self.numbers, table)?;
        let mut figures = Figures::default();
        for age in 0..log.shape.held {
            let record = record::read(&self.numbers, log.record(age));
            (self.add)(&mut figures, &record.ok_or(Refusal::TableNotSound)?);
        }
        Ok(figures)
    }
}

/// Fills the bytes, if the input has as many.
fn filled(input: &mut impl Read, bytes: &mut [u8]) -> io::Result<bool> {
    match input.read_exact(bytes) {
        Err(error) if error.kind() == ErrorKind::UnexpectedEof => Ok(false),
        read => read.map(|()| true),
    }
}
