//! The program `dates` (change request E4): numbers as records hold a Base_Time, each turned to its
//! date and back.
//!
//! "Turning seconds to a date and back must lose nothing over the clock's whole range." A line shows
//! both ways for one number, so that any numbers can be compared, not those of a table only.

use crate::calendar::{self, Dates};
use crate::octets::u32_at;
use crate::program::Run;

/// A Base_Time in a record.
pub const NUMBER_BYTES: usize = 4;

/// What the program prints, by its steps.
#[derive(Clone, Debug)]
pub struct Turning {
    pub dates: Dates,
    /// The numbers that have a line.
    pub numbers: fn(&[u8]) -> Vec<u32>,
    /// The line of a number that has no date.
    pub no_date: &'static str,
    /// Is this input complained of?
    pub complains: fn(&[u8]) -> bool,
}

pub const PAPER: Turning = Turning {
    dates: calendar::PAPER.dates,
    numbers: whole_numbers,
    no_date: "?\n",
    complains: is_cut,
};

/// Little endian; without what is left of one that the input stops inside.
pub fn whole_numbers(input: &[u8]) -> Vec<u32> {
    input.chunks_exact(NUMBER_BYTES).map(|number| u32_at(number, 0)).collect()
}

/// Does the input stop inside a number?
pub fn is_cut(input: &[u8]) -> bool {
    !input.len().is_multiple_of(NUMBER_BYTES)
}

/// A line for each whole number: its date and time, and the seconds that these turn back to; `?` for
/// one past the end of 2099. Input that stops inside a number is complained of.
pub fn dates(input: &[u8]) -> Run {
    PAPER.run(input)
}

impl Turning {
    pub fn run(&self, input: &[u8]) -> Run {
        let lines = (self.numbers)(input).into_iter().map(|seconds| self.line(seconds));
        let complaint = (self.complains)(input).then(|| "the input stops inside a number".into());
        Run { complaint, ..Run::without_complaint(lines.collect()) }
    }

    fn line(&self, seconds: u32) -> String {
        let Some(date) = self.dates.date(seconds) else {
            return self.no_date.to_string();
        };
        // Of a wrong program's date there may be no way back.
        let back = self.dates.seconds(&date);
        format!("{date} {}\n", back.map_or("?".to_string(), |seconds| seconds.to_string()))
    }
}
