//! Fetching only what is missing (change request E10): the tablet's map of the records that it has
//! received, one bit for each sequence number, and the run of numbers that it asks for next.
//!
//! The told numbers are walked one by one, from the oldest forward, and of the map one bit is looked
//! at for each. What is done to whole words, by masks, can go wrong at their edges; here there are
//! none.

use crate::access::{Filter, REPORT};
use crate::numbers;
use crate::octets::put_u16;
use crate::refusal::Refusal;

/// "One bit for each of the 65,536 sequence numbers, 64 to a word."
pub const MAP_WORDS: usize = 1_024;
pub const WORD_BITS: u16 = 64;

/// What the reader holds: nothing where the first of these is 0, else the numbers from the second,
/// the oldest, forward to the third, the newest.
pub type Told = [u16; 3];
/// The write to the Record Access Control Point that asks for a run.
pub type Request = [u8; 7];
/// A run of missing numbers: the first and the last.
pub type Missing = (u16, u16);

/// Fetching by its steps. They are fields for the reason that salvage's are: a wrong fetch has one of
/// them otherwise. Everybody else uses `PAPER`.
#[derive(Clone, Debug)]
pub struct Fetch {
    /// The refusal of a map of another number of words.
    pub refusal: Refusal,
    /// What is told: whether there is any, the oldest and the newest.
    pub told: fn(u8, u16, u16) -> Told,
    /// The told numbers, from the oldest forward.
    pub numbers: fn(&Told) -> Vec<u16>,
    /// What of a map stays when these numbers are told.
    pub stays: fn(&[u64], &[u16]) -> Vec<u64>,
    /// The first run of told numbers that are missing.
    pub run: fn(&[u64], &[u16]) -> Option<Missing>,
    pub request: fn(Missing) -> Request,
    /// The record of a number is taken in.
    pub take: fn(&mut [u64], &[u16], u16),
    pub count: fn(&[u64]) -> u32,
}

pub const PAPER: Fetch = Fetch {
    refusal: Refusal::OutputTooShort,
    told: |any, oldest, newest| if any == 0 { [0; 3] } else { [1, oldest, newest] },
    numbers: oldest_to_newest,
    stays: inside,
    run: first_missing,
    request: within_range,
    take: if_inside,
    count: ones,
};

/// Bit b of word w, 0 the lowest, stands for the number 64·w + b.
fn place(number: u16) -> (usize, u64) {
    (usize::from(number / WORD_BITS), 1 << (number % WORD_BITS))
}

pub fn is_received(map: &[u64], number: u16) -> bool {
    let (word, bit) = place(number);
    map[word] & bit != 0
}

pub fn receive(map: &mut [u64], number: u16) {
    let (word, bit) = place(number);
    map[word] |= bit;
}

/// "The reader's oldest and newest held numbers, or none." From 65,535 it goes on to 0.
pub fn oldest_to_newest(&[any, oldest, newest]: &Told) -> Vec<u16> {
    if any == 0 {
        return Vec::new();
    }
    (0..=newest.wrapping_sub(oldest)).map(|ahead| oldest.wrapping_add(ahead)).collect()
}

/// "Clears every bit outside."
pub fn inside(map: &[u64], told: &[u16]) -> Vec<u64> {
    let mut left = vec![0; map.len()];
    for number in told.iter().filter(|number| is_received(map, **number)) {
        receive(&mut left, *number);
    }
    left
}

/// "The first run of held numbers not yet received", as long as it can be; or none, "exactly when
/// that is so".
pub fn first_missing(map: &[u64], told: &[u16]) -> Option<Missing> {
    let from_first = told.iter().skip_while(|number| is_received(map, **number));
    let run: Vec<&u16> = from_first.take_while(|number| !is_received(map, **number)).collect();
    Some((**run.first()?, **run.last()?))
}

/// Report Stored Records, within range of, by sequence number.
pub fn within_range((first, last): Missing) -> Request {
    let (operator, minimum, maximum) = Filter::Range(first, last).parts();
    let mut request = [REPORT, operator, numbers::PAPER.filter_type, 0, 0, 0, 0];
    put_u16(&mut request, 3, minimum);
    put_u16(&mut request, 5, maximum);
    request
}

/// "Taken in inside the told range"; "any other changes nothing".
pub fn if_inside(map: &mut [u64], told: &[u16], number: u16) {
    if told.contains(&number) {
        receive(map, number);
    }
}

/// "The number received is the count of ones."
pub fn ones(map: &[u64]) -> u32 {
    map.iter().map(|word| word.count_ones()).sum()
}

impl Fetch {
    fn is_map(&self, map: &[u64]) -> Result<(), Refusal> {
        if map.len() != MAP_WORDS {
            return Err(self.refusal);
        }
        Ok(())
    }

    /// "Before each fetch the tool is told." Refuses 3.
    pub fn tell(
        &self,
        map: &mut [u64],
        told: &mut Told,
        any: u8,
        oldest: u16,
        newest: u16,
    ) -> Result<i32, Refusal> {
        self.is_map(map)?;
        *told = (self.told)(any, oldest, newest);
        map.copy_from_slice(&(self.stays)(map, &(self.numbers)(told)));
        Ok(0)
    }

    /// "It then proposes": the bytes of the request, or 0. Refuses 3.
    pub fn propose(&self, map: &[u64], told: &Told, request: &mut Request) -> Result<i32, Refusal> {
        self.is_map(map)?;
        let Some(run) = (self.run)(map, &(self.numbers)(told)) else {
            return Ok(0);
        };
        *request = (self.request)(run);
        Ok(request.len() as i32)
    }

    /// Refuses 3.
    pub fn take(&self, map: &mut [u64], told: &Told, number: u16) -> Result<i32, Refusal> {
        self.is_map(map)?;
        (self.take)(map, &(self.numbers)(told), number);
        Ok(0)
    }

    /// Refuses 3.
    pub fn received(&self, map: &[u64]) -> Result<i32, Refusal> {
        self.is_map(map)?;
        Ok((self.count)(map) as i32)
    }
}
