//! Made tables that got wet, and a program that salvages them, or a reader, compared with the
//! reference on them.
//!
//! What happened to a table is data, so that one that shows a difference is cut down to the damage
//! that it takes to show it.

use crate::listing::is_sound;
use crate::mutants::{salvaging, wrong, WRONG_ROOMS, WRONG_SALVAGES};
use crate::numbers::PAPER;
use crate::program::{Program, Runs};
use crate::random::{
    first_difference, planned_table, pushed_on, shortest, some_plan, table_damage, Plan, Random,
};
use crate::reader::{Reader, Reference};
use crate::refusal::Refusal;
use crate::salvage::{self, Salvage, ENTRY_BYTES, FIELDS};
use crate::table::{offset_of, HEADER_BYTES, SLOT_BYTES};
use crate::world::{Call, World, FILL};
use std::fmt;

/// Numbers of slots; the largest comes up less often, since it takes the longest.
const SLOTS: [usize; 12] = [1, 1, 2, 2, 3, 3, 3, 3, 30, 30, 30, PAPER.most_slots];
/// Nothing, a header alone, a byte too few for a slot; the two smallest tables; a slot too many for
/// the largest, twice; and a byte more than the program has room for.
const ODD_LENGTHS: [usize; 8] = [0, 16, 79, 80, 144, 65_552, 65_552, 65_537];

/// One thing that happened to a table. Past the table's end it happens to nothing.
#[derive(Clone, Debug)]
pub enum Damage {
    /// A bit is turned over.
    Bit {
        at: usize,
        bit: usize,
    },
    /// These bytes stand there.
    Bytes {
        at: usize,
        bytes: Vec<u8>,
    },
    Rubbish {
        at: usize,
        length: usize,
        seed: u64,
    },
    Zeros {
        at: usize,
        length: usize,
    },
    /// Of two slots, by their places, the second has the first one's bytes; or each the other's.
    Copied([usize; 2]),
    Swapped([usize; 2]),
    /// At this place a slot without a record gets in between; the last one is lost.
    PushedOn(usize),
    /// The table is cut, or bytes 0 come after its end.
    Length(usize),
}

/// A sound table, and what happened to it since.
#[derive(Clone, Debug)]
pub struct Soaked {
    pub dry: Plan,
    pub damage: Vec<Damage>,
}

impl Soaked {
    pub fn bytes(&self) -> Vec<u8> {
        let mut bytes = planned_table(&self.dry);
        self.damage.iter().for_each(|damage| damage.happen(&mut bytes));
        bytes
    }
}

impl Damage {
    fn happen(&self, table: &mut Vec<u8>) {
        if let Damage::Length(length) = self {
            table.resize(*length, 0);
        }
        for (at, bytes) in self.written(table) {
            put(table, at, &bytes);
        }
    }

    /// Where bytes stand now, and which.
    fn written(&self, table: &[u8]) -> Vec<(usize, Vec<u8>)> {
        match self {
            Damage::Bit { at, bit } => vec![(*at, vec![byte(table, *at) ^ 1 << bit])],
            Damage::Bytes { at, bytes } => vec![(*at, bytes.clone())],
            Damage::Rubbish { at, length, seed } => {
                vec![(*at, Random::new(*seed).bytes(*length))]
            }
            Damage::Zeros { at, length } => vec![(*at, vec![0; *length])],
            Damage::Copied([from, to]) => vec![(offset_of(*to), slot(table, *from))],
            Damage::Swapped([one, other]) => [(one, other), (other, one)]
                .map(|(to, from)| (offset_of(*to), slot(table, *from)))
                .to_vec(),
            Damage::PushedOn(place) => vec![pushed_on(table, *place)],
            Damage::Length(_) => Vec::new(),
        }
    }
}

/// What would lie past the table's end is dropped.
fn put(table: &mut [u8], at: usize, bytes: &[u8]) {
    for (place, byte) in table.iter_mut().skip(at).zip(bytes) {
        *place = *byte;
    }
}

fn byte(table: &[u8], at: usize) -> u8 {
    table.get(at).copied().unwrap_or(0)
}

fn slot(table: &[u8], place: usize) -> Vec<u8> {
    (offset_of(place)..offset_of(place + 1)).map(|at| byte(table, at)).collect()
}

/// A table as a reader leaves it that has logged some records, none up to four times as many as
/// there are slots: wrapped if they are more than these. Its numbers may roll over.
fn logged(random: &mut Random, slots: usize) -> Plan {
    let some = random.below(slots);
    let (few, many) = (slots.min(1 + some), 3 * slots + some);
    let records = random.pick(&[0, few, slots - 1, slots, slots, slots + 1, slots + few, many]);
    let held = records.min(slots);
    let oldest = if records > slots { records % slots } else { 0 };
    let (any, beside) = (random.number() as u16, random.below(held + 2) as u16);
    let next = random.pick(&[records as u16, beside, beside, any]);
    Plan { slots, held, oldest, next, seed: random.number() }
}

/// A table that got wet, or didn't. Damage of two kinds comes together as often as of one.
pub fn some_soaked(random: &mut Random) -> Soaked {
    let slots = random.pick(&SLOTS);
    let dry = match random.below(4) {
        0 => some_plan(random, slots),
        _ => logged(random, slots),
    };
    let mut damage = some_damage(random, &dry);
    if random.one_in(2) {
        damage.extend(some_damage(random, &dry));
    }
    Soaked { dry, damage }
}

fn some_damage(random: &mut Random, dry: &Plan) -> Vec<Damage> {
    let bytes = offset_of(dry.slots);
    let at = random.below(bytes);
    vec![match random.below(18) {
        0 => return Vec::new(),
        1 => some_bit(random, bytes),
        2 => return (0..2 + random.below(6)).map(|_| some_bit(random, bytes)).collect(),
        3 => Damage::Bytes { at, bytes: vec![random.byte()] },
        4 => rubbish(random, at, 8 * SLOT_BYTES),
        5 => rubbish(random, at, bytes),
        6..=9 => header_damage(random, dry.slots),
        10..=13 => slot_damage(random, dry.slots),
        14 | 15 => Damage::Length(some_length(random, bytes)),
        16 if random.one_in(2) => Damage::Rubbish { at: 0, length: bytes, seed: random.number() },
        16 => Damage::Zeros { at: at.min(HEADER_BYTES), length: bytes },
        _ => {
            let (at, bytes) = table_damage(random, &planned_table(dry)).expect("it has slots");
            Damage::Bytes { at, bytes }
        }
    }]
}

/// Its numbers, or any of its bytes and no other.
fn header_damage(random: &mut Random, slots: usize) -> Damage {
    match random.below(4) {
        0 => {
            let at = random.below(HEADER_BYTES);
            rubbish(random, at, HEADER_BYTES - at)
        }
        1 => Damage::Bytes { at: 4, bytes: some_offset(random, slots).to_le_bytes().to_vec() },
        _ => header_number(random, slots),
    }
}

/// Whole slots are others, or what a slot's first byte says of its record.
fn slot_damage(random: &mut Random, slots: usize) -> Damage {
    let [one, other] = [0; 2].map(|_| random.below(slots));
    match random.below(5) {
        0 => Damage::Copied([one, other]),
        1 => Damage::Swapped([one, other]),
        2 => Damage::PushedOn(one),
        3 => Damage::Zeros { at: offset_of(one), length: SLOT_BYTES * (1 + random.below(4)) },
        _ => {
            let length = random.pick(&[0, 20, 23, 24, 25, 45, 46, 63, 255]);
            Damage::Bytes { at: offset_of(one), bytes: vec![length] }
        }
    }
}

fn some_bit(random: &mut Random, bytes: usize) -> Damage {
    // Every third one falls into the header, which is small.
    let within = if random.one_in(3) { HEADER_BYTES } else { bytes };
    Damage::Bit { at: random.below(within), bit: random.below(8) }
}

fn rubbish(random: &mut Random, at: usize, most: usize) -> Damage {
    Damage::Rubbish { at, length: 1 + random.below(most), seed: random.number() }
}

/// A slot's start, in this table or past its end; beside one; or any number.
fn some_offset(random: &mut Random, slots: usize) -> u32 {
    let start = offset_of(random.below(slots)) as u32;
    let any = random.number() as u32;
    let past = [offset_of(slots) as u32, (1 << 16) + start, (1 << 31) + start];
    let past = random.pick(&past);
    random.pick(&[start, start, start + 1, start - 1, start + 32, 0, 1, past, past, u32::MAX, any])
}

/// N, H or the next number is another.
fn header_number(random: &mut Random, slots: usize) -> Damage {
    let (within, slots, any) = (random.below(slots) as u16, slots as u16, random.number() as u16);
    let number = random.pick(&[0, 1, within, slots - 1, slots, slots + 1, u16::MAX, any]);
    Damage::Bytes { at: random.pick(&[0, 2, 8]), bytes: number.to_le_bytes().to_vec() }
}

/// Cut, or lengthened, by some bytes or a slot.
fn some_length(random: &mut Random, bytes: usize) -> usize {
    let some = 1 + random.below(200);
    let odd = random.pick(&ODD_LENGTHS);
    let (fewer, more) = (bytes.saturating_sub(some), bytes + some);
    let slots = [bytes - SLOT_BYTES, bytes + SLOT_BYTES];
    random.pick(&[fewer, more, bytes - 1, bytes + 1, slots[0], slots[1], odd, odd, odd])
}

/// How many tables there were of each kind.
#[derive(Clone, Copy, Debug, Default, PartialEq, Eq)]
pub struct Kinds {
    pub sound: usize,
    pub salvaged: usize,
    /// 20, and 21.
    pub no_size: usize,
    pub no_record: usize,
}

impl Kinds {
    fn count(&mut self, input: &[u8]) {
        let mut rooms = rooms_for(input);
        let answer = rooms.call(&Reference::new(), &Call::Salvage);
        match answer {
            -20 => self.no_size += 1,
            -21 => self.no_record += 1,
            _ if is_sound(&Reference::new(), input) => self.sound += 1,
            _ => self.salvaged += 1,
        }
    }
}

impl fmt::Display for Kinds {
    fn fmt(&self, f: &mut fmt::Formatter) -> fmt::Result {
        let Kinds { sound, salvaged, no_size, no_record } = self;
        write!(f, "{sound} sound, {salvaged} salvaged, ")?;
        write!(f, "{no_size} refused 20, {no_record} refused 21")
    }
}

/// The input with rooms that are long enough whatever comes of it.
fn rooms_for(input: &[u8]) -> World {
    let slots = input.len() / SLOT_BYTES;
    lent(input, input.len(), ENTRY_BYTES * (FIELDS.len() + slots))
}

fn lent(input: &[u8], table: usize, report: usize) -> World {
    let [salvaged, findings] = [table, report].map(|length| vec![FILL; length]);
    World { table: input.to_vec(), salvaged, findings, ..World::new() }
}

/// A salvage program beside the reference.
pub struct Comparison {
    pub program: Program<Salvage>,
}

impl Comparison {
    pub fn new(runs: Runs) -> Comparison {
        let wrong = wrong(WRONG_SALVAGES, &salvage::PAPER);
        let program = Program::new(runs, Salvage::run, salvage::PAPER, wrong);
        Comparison { program: program.word_for_word() }
    }

    /// Gives the program this many made tables, and stops at the first difference, cut down to the
    /// least damage.
    pub fn made_tables(&mut self, seed: u64, runs: usize) -> Result<Kinds, String> {
        let mut random = Random::new(seed);
        let mut kinds = Kinds::default();
        for _ in 0..runs {
            let soaked = some_soaked(&mut random);
            let input = soaked.bytes();
            if self.program.printed(&input).is_err() {
                return Err(mismatch(soaked, |input| self.program.printed(input).err()));
            }
            kinds.count(&input);
        }
        Ok(kinds)
    }
}

fn mismatch(soaked: Soaked, mut difference: impl FnMut(&[u8]) -> Option<String>) -> String {
    let Soaked { dry, damage } = soaked;
    let damaged = |damage: &[Damage]| Soaked { dry: dry.clone(), damage: damage.to_vec() };
    let damage = shortest(damage, |fewer| difference(&damaged(fewer).bytes()).is_some());
    let soaked = damaged(&damage);
    let found = difference(&soaked.bytes()).unwrap_or_default();
    format!("a difference on this table:\n  {soaked:02X?}\n{found}")
}

/// What came of the calls on a reader.
pub struct Called {
    pub kinds: Kinds,
    /// How many tables had rooms that were too short.
    pub no_room: usize,
    /// How many wrong salvages there were, and those that the reader wasn't told from.
    pub wrong: usize,
    pub untold: Vec<&'static str>,
}

/// Calls the reader with this many made tables, in rooms of any length, and stops at the first
/// difference, cut down to the least damage.
pub fn made_calls(reader: &dyn Reader, seed: u64, calls: usize) -> Result<Called, String> {
    let (mut random, reference) = (Random::new(seed), Reference::new());
    let mut untold = wrong_readers();
    let wrong = untold.len();
    let (mut kinds, mut no_room) = (Kinds::default(), 0);
    for _ in 0..calls {
        let soaked = some_soaked(&mut random);
        let input = soaked.bytes();
        let rooms = some_rooms(&mut random, &input);
        let found = Outcome::of(reader, &input, rooms);
        if Outcome::of(&reference, &input, rooms) != found {
            let outcomes =
                |input: &[u8]| [&reference, reader].map(|r| Outcome::of(r, input, rooms));
            return Err(mismatch(soaked, |input| difference(outcomes(input))));
        }
        untold.retain(|(_, wrong)| Outcome::of(wrong, &input, rooms) == found);
        kinds.count(&input);
        no_room += usize::from(found.answer == Refusal::OutputTooShort.answer());
    }
    let untold = untold.into_iter().map(|(name, _)| name).collect();
    Ok(Called { kinds, no_room, wrong, untold })
}

fn wrong_readers() -> Vec<(&'static str, Reference)> {
    let wrong = [WRONG_SALVAGES, WRONG_ROOMS].map(|wrong_ones| wrong(wrong_ones, &salvage::PAPER));
    wrong.into_iter().flatten().map(|(name, salvage)| (name, salvaging(salvage))).collect()
}

/// Bytes for the table and for the report: as many as it takes, more, fewer, or none.
fn some_rooms(random: &mut Random, input: &[u8]) -> [usize; 2] {
    let report = rooms_for(input).call(&Reference::new(), &Call::Salvage).max(0) as usize;
    [input.len(), report].map(|needed| {
        let more = needed + 1 + random.below(100);
        random.pick(&[needed, needed, needed, more, more, needed.saturating_sub(1), 0])
    })
}

/// An answer, and what stands in the rooms then.
#[derive(PartialEq, Eq)]
struct Outcome {
    answer: i32,
    lent: World,
}

impl Outcome {
    fn of(reader: &dyn Reader, input: &[u8], [table, report]: [usize; 2]) -> Outcome {
        let mut lent = lent(input, table, report);
        Outcome { answer: lent.call(reader, &Call::Salvage), lent }
    }
}

fn difference([expected, found]: [Outcome; 2]) -> Option<String> {
    let [table, report] = [&found.lent.salvaged, &found.lent.findings].map(Vec::len);
    let rooms = format!("rooms of {table} and {report} bytes");
    if expected.answer != found.answer {
        return Some(format!("{rooms}: answers {} and {}", expected.answer, found.answer));
    }
    let place = first_difference(&expected.lent, &found.lent);
    (expected.lent != found.lent).then(|| format!("{rooms}: {place}"))
}
