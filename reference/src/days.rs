//! Made seconds: both ends of every day and others, and a program `dates` compared with the
//! reference's on them.

use crate::calendar::DAY_SECONDS;
use crate::dates::{self, Turning};
use crate::mutants::{wrong_with_dates, WRONG_TURNINGS};
use crate::numbers::PAPER;
use crate::program::{Program, Runs};
use crate::random::Random;

/// Random numbers of 32 bits; three in four have a date.
const RANDOM_SECONDS: usize = 5_000;
/// So many seconds on both sides of the end of 2099, and before the last of all.
const BESIDE: u32 = 100;
/// How many bytes there are of an input that stops inside a number: of the first one, and of one
/// behind 4,096 and behind 65,536 bytes, where a program's own buffer or a pipe may end.
const CUT_BYTES: [usize; 3] = [1, 4_098, 65_539];

/// The first and the last second of every day of 2000 to 2099.
fn ends_of_days() -> Vec<u32> {
    let firsts = (0..=PAPER.last_base_time).step_by(DAY_SECONDS as usize);
    firsts.flat_map(|first| [first, first + (DAY_SECONDS - 1)]).collect()
}

/// Around the end of 2099, from day to day up to the last of all, and random ones.
fn other_seconds(seed: u64) -> Vec<u32> {
    let last = PAPER.last_base_time;
    let mut all: Vec<u32> = (last - BESIDE..=last + BESIDE).collect();
    all.extend((last..=u32::MAX).step_by(DAY_SECONDS as usize));
    all.extend(u32::MAX - BESIDE..=u32::MAX);
    let mut random = Random::new(seed);
    all.extend((0..RANDOM_SECONDS).map(|_| (random.number() >> 32) as u32));
    all
}

fn input(seconds: &[u32]) -> Vec<u8> {
    seconds.iter().flat_map(|number| number.to_le_bytes()).collect()
}

/// A program `dates` beside the reference.
pub struct Comparison {
    pub program: Program<Turning>,
}

impl Comparison {
    pub fn new(runs: Runs) -> Comparison {
        let with = |dates| Turning { dates, ..dates::PAPER };
        let wrong = wrong_with_dates(WRONG_TURNINGS, &dates::PAPER, with);
        Comparison { program: Program::new(runs, Turning::run, dates::PAPER, wrong) }
    }

    /// Both ends of every day, and other seconds, in one run. Answers how many days and how many
    /// others there are.
    pub fn every_day(&mut self, seed: u64) -> Result<(usize, usize), String> {
        let (ends, others) = (ends_of_days(), other_seconds(seed));
        let printed = self.program.printed(&input(&[&ends[..], &others].concat()));
        printed.map_err(|difference| format!("in the dates of every day, {difference}"))?;
        Ok((ends.len() / 2, others.len()))
    }

    /// Inputs that stop inside a number, and one without a number. Answers how many are cut.
    pub fn cut_and_empty(&mut self) -> Result<usize, String> {
        let whole = input(&ends_of_days());
        for bytes in CUT_BYTES.into_iter().chain([0]) {
            let printed = self.program.printed(&whole[..bytes]);
            printed.map_err(|difference| format!("in the dates of {bytes} bytes, {difference}"))?;
        }
        Ok(CUT_BYTES.len())
    }
}
