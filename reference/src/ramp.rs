//! One beast or two (change request E5): what a ramp's two antennas make of two reads of one tag,
//! and the later of their two logs' newest Time_Updates.
//!
//! Of two the left side comes first.

use crate::carry;
use crate::numbers::Numbers;
use crate::record::{self, Record, TimeUpdate};
use crate::refusal::Refusal;
use crate::table::Log;
use std::ops::Range;

pub type Tables<'a> = [&'a [u8]; 2];

/// What is known of one antenna's read of the tag.
#[derive(Clone, Copy, Debug, PartialEq, Eq)]
pub struct Sighting {
    /// Its clock's Base_Time now, at one instant for both sides. A number, whatever it is: no clock
    /// state is tested.
    pub base: u32,
    pub stamp: u32,
    /// Its log's next number when the stamp was taken.
    pub next: u16,
}

pub type Sightings = [Sighting; 2];

#[derive(Clone, Copy, Debug, PartialEq, Eq)]
pub enum Side {
    Neither = 0,
    Left = 1,
    Right = 2,
}

#[derive(Clone, Copy, Debug, PartialEq, Eq)]
pub enum Verdict {
    One = 1,
    Two = 2,
}

/// A refusal and the side that it is of.
#[derive(Clone, Copy, Debug, PartialEq, Eq)]
pub struct Refused {
    pub side: Side,
    pub refusal: Refusal,
}

impl Refused {
    /// "On refusal an empty part."
    pub fn part(&self) -> Part {
        [self.side as u32, 0, 0]
    }
}

/// A part of one of the tables: its side, where it begins, and how long it is.
pub type Part = [u32; 3];

/// A Time_Update, and where its bytes stand in its table.
#[derive(Clone, Debug)]
pub struct Found {
    pub update: TimeUpdate,
    pub bytes: Range<usize>,
}

/// Both stamps carried.
pub type Carried = Result<[i64; 2], Refused>;
/// Each log's newest Time_Update.
pub type Newest = [Option<Found>; 2];

/// The ramp by its steps. They are fields for the reason that salvage's are: a wrong ramp has one of
/// them otherwise. Everybody else uses `PAPER`.
#[derive(Clone, Debug)]
pub struct Ramp {
    /// Both stamps carried, if nothing is refused: 18, then of the left side 1, 12, 13, then of the
    /// right side.
    pub carried: fn(&Numbers, Tables, Sightings, u32) -> Carried,
    /// A carried stamp's age.
    pub age: fn(&Sighting, i64) -> i64,
    /// Do ages tell of one beast, by this window?
    pub is_one: fn([i64; 2], u32) -> bool,
    /// Each log's newest update, if both tables are sound.
    pub newest: fn(&Ramp, &Numbers, Tables) -> Result<Newest, Refused>,
    /// A log's newest update.
    pub newest_of: fn(&Numbers, &Log) -> Option<Found>,
    /// The later of both, and its side.
    pub later: fn(Newest) -> Option<(Side, Found)>,
    /// The record's part of the table.
    pub part: fn(Side, &Found) -> Part,
}

pub const PAPER: Ramp = Ramp {
    carried: window_left_right,
    age: |sighting, carried| i64::from(sighting.base) - carried,
    is_one: |[left, right], window| left.abs_diff(right) <= u64::from(window),
    newest: left_then_right,
    newest_of: last_by_age,
    later: larger_base,
    part: |side, found| [side as u32, found.bytes.start as u32, found.bytes.len() as u32],
};

/// "18 window too wide, tested first"; a refusal is named "left side first".
fn window_left_right(
    numbers: &Numbers,
    [left, right]: Tables,
    [of_left, of_right]: Sightings,
    window: u32,
) -> Carried {
    window_taken(numbers, window)?;
    let left = carried_of(numbers, Side::Left, left, of_left)?;
    Ok([left, carried_of(numbers, Side::Right, right, of_right)?])
}

/// "A window of 0 to 60 seconds."
pub fn window_taken(numbers: &Numbers, window: u32) -> Result<(), Refused> {
    if window > numbers.widest_window {
        return Err(Refused { side: Side::Neither, refusal: Refusal::WindowTooWide });
    }
    Ok(())
}

/// One side's stamp, carried over its own log. Refuses 1, 12, 13.
pub fn carried_of(
    numbers: &Numbers,
    side: Side,
    table: &[u8],
    sighting: Sighting,
) -> Result<i64, Refused> {
    carry::carry(numbers, sighting.stamp, sighting.next, table)
        .map_err(|refusal| Refused { side, refusal })
}

/// One side's log. Refuses 1.
pub fn log_of<'a>(numbers: &Numbers, side: Side, table: &'a [u8]) -> Result<Log<'a>, Refused> {
    Log::open(numbers, table).map_err(|refusal| Refused { side, refusal })
}

/// Both tables are "found sound" before anything is looked for.
fn left_then_right(
    ramp: &Ramp,
    numbers: &Numbers,
    [left, right]: Tables,
) -> Result<Newest, Refused> {
    let left = log_of(numbers, Side::Left, left)?;
    let right = log_of(numbers, Side::Right, right)?;
    Ok([left, right].map(|log| (ramp.newest_of)(numbers, &log)))
}

/// A log's Time_Updates, oldest first.
pub fn updates(numbers: &Numbers, log: &Log) -> Vec<Found> {
    let found = |age| match record::read(numbers, log.record(age)) {
        Some(Record::Update(update)) => Some(Found { update, bytes: log.place(age) }),
        _ => None,
    };
    (0..log.shape.held).filter_map(found).collect()
}

/// "The newest Time_Update (by sequence)": numbers rise from the oldest on, over the roll too.
fn last_by_age(numbers: &Numbers, log: &Log) -> Option<Found> {
    updates(numbers, log).pop()
}

/// "Whichever has the larger new base, the left on equal, the only one where one side has none."
fn larger_base([left, right]: Newest) -> Option<(Side, Found)> {
    match (left, right) {
        (Some(left), Some(right)) if left.update.base < right.update.base => {
            Some((Side::Right, right))
        }
        (Some(left), _) => Some((Side::Left, left)),
        (None, right) => right.map(|right| (Side::Right, right)),
    }
}

pub const NO_UPDATE: Refused = Refused { side: Side::Neither, refusal: Refusal::NoUpdateHeld };

impl Ramp {
    /// Refuses 18, and of either side 1, 12, 13.
    pub fn one_beast(
        &self,
        numbers: &Numbers,
        tables: Tables,
        sightings: Sightings,
        window: u32,
    ) -> Result<Verdict, Refused> {
        let [left, right] = (self.carried)(numbers, tables, sightings, window)?;
        let ages = [(self.age)(&sightings[0], left), (self.age)(&sightings[1], right)];
        Ok(if (self.is_one)(ages, window) { Verdict::One } else { Verdict::Two })
    }

    /// Refuses 1 of either side, 19.
    pub fn newest_update(&self, numbers: &Numbers, tables: Tables) -> Result<Part, Refused> {
        let newest = (self.newest)(self, numbers, tables)?;
        let (side, found) = (self.later)(newest).ok_or(NO_UPDATE)?;
        Ok((self.part)(side, &found))
    }
}
