//! Adversarial call sequences over two readers.
//!
//! A sequence is data: steps that call, lend or damage. The maker looks at the first reader's
//! world to choose steps that reach far (a proposal 86,401 seconds off, a filter at the edge of
//! what is held); both readers then play the same steps, and after each one the answers and all
//! buffers must be equal. A mismatch is cut down to a sequence from which no step can be left
//! out.

use crate::access::ABORT;
use crate::carry::carry;
use crate::fetch::{Told, MAP_WORDS, WORD_BITS};
use crate::numbers::PAPER;
use crate::octets::{put_u16, put_u32, u16_at, u32_at};
use crate::ramp::{updates, Sighting, Sightings};
use crate::reader::Reader;
use crate::record::{self, Record, TimeFault, TimeUpdate};
use crate::salvage::{ENTRY_BYTES, FIELDS};
use crate::table::{self, Log, Shape, HEADER_BYTES, SLOT_BYTES};
use crate::world::{Buffer, Call, World, FILL};
use std::cmp::Ordering;
use std::collections::VecDeque;
use std::fmt;

/// Steps after which a sequence ends and another reader is started.
const SEQUENCE_STEPS: usize = 300;
/// Refusals 1 and 2 in a row after which the maker sets up anew: it broke something for good.
const STUCK: usize = 8;

/// xorshift64*: small, and the same everywhere.
pub struct Random(u64);

impl Random {
    pub fn new(seed: u64) -> Random {
        // The state must not be 0, and near seeds should not give near sequences.
        let mut random = Random(seed.wrapping_mul(0x9E37_79B9_7F4A_7C15) | 1);
        random.number();
        random
    }

    pub fn number(&mut self) -> u64 {
        self.0 ^= self.0 >> 12;
        self.0 ^= self.0 << 25;
        self.0 ^= self.0 >> 27;
        self.0.wrapping_mul(0x2545_F491_4F6C_DD1D)
    }

    pub fn below(&mut self, bound: usize) -> usize {
        ((self.number() >> 32) % bound.max(1) as u64) as usize
    }

    pub fn one_in(&mut self, bound: usize) -> bool {
        self.below(bound) == 0
    }

    pub fn byte(&mut self) -> u8 {
        self.below(256) as u8
    }

    pub fn pick<T: Copy>(&mut self, from: &[T]) -> T {
        from[self.below(from.len())]
    }

    pub fn bytes(&mut self, length: usize) -> Vec<u8> {
        (0..length).map(|_| self.byte()).collect()
    }
}

/// A sound table, told in few numbers so that a mismatch prints shortly.
#[derive(Clone, Debug, PartialEq, Eq)]
pub struct Plan {
    pub slots: usize,
    pub held: usize,
    pub oldest: usize,
    pub next: u16,
    pub seed: u64,
}

/// A map, told in few numbers for the same reason: below a number its words are like one, from there
/// on like another, and then some numbers' bits are turned.
#[derive(Clone, Debug, PartialEq, Eq)]
pub struct Marks {
    pub words: usize,
    pub below: u64,
    pub from: u16,
    pub on: u64,
    pub turned: Vec<u16>,
}

#[derive(Clone, Debug, PartialEq, Eq)]
pub enum Step {
    Call(Call),
    /// The buffer becomes so many bytes 0xAA.
    Lend(Buffer, usize),
    /// The buffer is cut, or gets bytes 0 at its end.
    Length(Buffer, usize),
    Bytes(Buffer, usize, Vec<u8>),
    /// The buffer becomes this sound table.
    Table(Plan),
    /// The ramp's two readers change places.
    Exchange,
    /// The map becomes this one.
    Map(Marks),
    /// What is told becomes this.
    Told(Told),
}

pub struct Mismatch {
    pub steps: Vec<Step>,
    pub difference: String,
}

impl fmt::Display for Mismatch {
    fn fmt(&self, f: &mut fmt::Formatter) -> fmt::Result {
        writeln!(f, "the readers differ after these {} steps:", self.steps.len())?;
        for step in &self.steps {
            writeln!(f, "  {step:02X?}")?;
        }
        write!(f, "{}", self.difference)
    }
}

impl fmt::Debug for Mismatch {
    fn fmt(&self, f: &mut fmt::Formatter) -> fmt::Result {
        fmt::Display::fmt(self, f)
    }
}

/// Plays this many calls on both readers, and stops at the first difference, cut down to its
/// shortest sequence.
pub fn compare(a: &dyn Reader, b: &dyn Reader, seed: u64, calls: usize) -> Result<(), Mismatch> {
    let Some(steps) = differing(a, b, seed, calls) else {
        return Ok(());
    };
    let steps = shortest(steps, |fewer| differs(a, b, fewer).is_some());
    let difference = differs(a, b, &steps).unwrap_or_default();
    Err(Mismatch { steps, difference })
}

/// The first sequence after which the readers differ, as it was made.
pub fn differing(a: &dyn Reader, b: &dyn Reader, seed: u64, calls: usize) -> Option<Vec<Step>> {
    let mut random = Random::new(seed);
    let mut left = calls;
    while left > 0 {
        match sequence(a, b, random.number(), left) {
            Ok(played) => left -= played,
            Err(steps) => return Some(steps),
        }
    }
    None
}

/// One sequence, from a fresh world on. Answers the number of calls played, or the steps up to
/// a difference.
fn sequence(a: &dyn Reader, b: &dyn Reader, seed: u64, most: usize) -> Result<usize, Vec<Step>> {
    let mut maker = Maker::new(seed);
    let (mut world_a, mut world_b) = (World::new(), World::new());
    let mut steps = Vec::new();
    let mut calls = 0;
    while steps.len() < SEQUENCE_STEPS && calls < most {
        let step = maker.step(&world_a);
        steps.push(step.clone());
        let answer = play(a, &mut world_a, &step);
        let other = play(b, &mut world_b, &step);
        if answer != other || world_a != world_b {
            return Err(steps);
        }
        if let Some(answer) = answer {
            calls += 1;
            maker.heard(answer);
        }
    }
    Ok(calls)
}

/// Is shown a step, its answer if it was a call, and the worlds before and after.
pub type Watcher<'a> = dyn FnMut(&Step, Option<i32>, &World, &World) + 'a;

/// Plays this many calls on one reader and shows each step to a watcher.
pub fn watch(reader: &dyn Reader, seed: u64, calls: usize, watcher: &mut Watcher) {
    let mut random = Random::new(seed);
    let mut left = calls;
    while left > 0 {
        let mut maker = Maker::new(random.number());
        let mut world = World::new();
        for _ in 0..SEQUENCE_STEPS {
            let step = maker.step(&world);
            let before = world.clone();
            let answer = play(reader, &mut world, &step);
            watcher(&step, answer, &before, &world);
            if let Some(answer) = answer {
                left = left.saturating_sub(1);
                maker.heard(answer);
            }
        }
    }
}

/// Those of the others that answer and leave everything as the reader does, at each of this many
/// calls.
pub fn untold<R: Reader>(
    reader: &dyn Reader,
    mut others: Vec<(&'static str, R)>,
    seed: u64,
    calls: usize,
) -> Vec<&'static str> {
    watch(reader, seed, calls, &mut |step, answer, before, after| {
        if answer.is_some() {
            others.retain(|(_, other)| {
                let mut world = before.clone();
                play(other, &mut world, step) == answer && world == *after
            });
        }
    });
    others.into_iter().map(|(name, _)| name).collect()
}

/// Plays a step; the answer, if it was a call.
pub fn play(reader: &dyn Reader, world: &mut World, step: &Step) -> Option<i32> {
    match step {
        Step::Call(call) => return Some(world.call(reader, call)),
        Step::Lend(buffer, length) => *world.buffer(*buffer) = vec![FILL; *length],
        Step::Length(buffer, length) => world.buffer(*buffer).resize(*length, 0),
        Step::Bytes(buffer, at, bytes) => world.poke(*buffer, *at, bytes),
        Step::Table(plan) => world.table = planned_table(plan),
        Step::Exchange => world.exchange(),
        Step::Map(marks) => world.map = marked_map(marks),
        Step::Told(told) => world.told = *told,
    }
    None
}

/// Plays the steps on both; the first difference in words, if there is one.
pub fn differs(a: &dyn Reader, b: &dyn Reader, steps: &[Step]) -> Option<String> {
    let (mut world_a, mut world_b) = (World::new(), World::new());
    for (k, step) in steps.iter().enumerate() {
        let answer_a = play(a, &mut world_a, step);
        let answer_b = play(b, &mut world_b, step);
        if answer_a != answer_b {
            return Some(format!("step {}: answers {answer_a:?} and {answer_b:?}", k + 1));
        }
        if world_a != world_b {
            let place = first_difference(&world_a, &world_b);
            return Some(format!("step {}: both answer {answer_a:?}, {place}", k + 1));
        }
    }
    None
}

/// The first byte, or number, in which they differ, in words.
pub fn first_difference(a: &World, b: &World) -> String {
    let buffers = [
        ("state", &a.state, &b.state),
        ("table", &a.table, &b.table),
        ("joining", &a.joining, &b.joining),
        ("output", &a.out, &b.out),
        ("salvaged", &a.salvaged, &b.salvaged),
        ("findings", &a.findings, &b.findings),
        ("right state", &a.right_state, &b.right_state),
        ("right table", &a.right, &b.right),
    ];
    for (name, a, b) in buffers {
        if let Some(at) = (0..a.len().max(b.len())).find(|at| a.get(*at) != b.get(*at)) {
            return format!("{name} byte {at}: {:02X?} and {:02X?}", a.get(at), b.get(at));
        }
    }
    if let Some(at) = (0..a.map.len()).find(|at| a.map[*at] != b.map[*at]) {
        return format!("word {at} of the map: {:016X} and {:016X}", a.map[at], b.map[at]);
    }
    let numbers = |world: &World| {
        let World { fields, carried, side, part, told, request, .. } = world;
        let of_the_ramp = format!("side {side} part {part:?}");
        let of_the_fetch = format!("told {told:?} request {request:02X?}");
        format!("fields {fields:?} carried {carried} {of_the_ramp} {of_the_fetch}")
    };
    format!("{} and {}", numbers(a), numbers(b))
}

/// Leaves out ever smaller runs of steps, at last single ones, as long as the rest still shows
/// a difference.
pub fn shortest<T: Clone>(mut steps: Vec<T>, mut differ: impl FnMut(&[T]) -> bool) -> Vec<T> {
    let mut run = steps.len();
    while run > 0 {
        let mut dropped = false;
        let mut end = steps.len();
        while end > 0 {
            let start = end.saturating_sub(run);
            let mut fewer = steps[..start].to_vec();
            fewer.extend_from_slice(&steps[end..]);
            if differ(&fewer) {
                steps = fewer;
                dropped = true;
            }
            end = start;
        }
        // A run of one is tried again until no step can be left out.
        run = if run == 1 && dropped { 1 } else { run / 2 };
    }
    steps
}

/// A number of slots, the largest among them.
pub fn some_slots(random: &mut Random) -> usize {
    match random.below(24) {
        0 => PAPER.most_slots,
        1 => 40,
        2..=7 => 1,
        8..=13 => 2,
        14..=20 => 3,
        _ => 5,
    }
}

/// A sound table of so many slots: empty or full, wrapped or not, with numbers that roll over.
pub fn some_plan(random: &mut Random, slots: usize) -> Plan {
    let held = random.pick(&[0, 1, slots / 2, slots.saturating_sub(1), slots, slots]);
    let next = match random.below(5) {
        0 => held as u16,
        // The roll lies among the held numbers, or just beside them.
        1 | 2 => random.below(held + 2) as u16,
        3 => 65_535 - random.below(4) as u16,
        _ => random.number() as u16,
    };
    let oldest = random.below(slots);
    Plan { slots, held, oldest, next, seed: random.number() }
}

/// A sound table with records of both kinds.
pub fn planned_table(plan: &Plan) -> Vec<u8> {
    let mut random = Random::new(plan.seed);
    let Plan { slots, held, oldest, next, .. } = *plan;
    table_of(Shape { slots, held, oldest, next }, |sequence| some_record(&mut random, sequence))
}

/// The sound table of this shape, its records made one by one from their numbers, oldest first.
pub fn table_of(shape: Shape, mut record: impl FnMut(u16) -> Record) -> Vec<u8> {
    let mut bytes = vec![0; HEADER_BYTES + SLOT_BYTES * shape.slots];
    table::clear(&mut bytes, shape.slots);
    let oldest = if shape.held == 0 { 0 } else { shape.oldest };
    put_u32(&mut bytes, 4, (HEADER_BYTES + SLOT_BYTES * oldest) as u32);
    put_u16(&mut bytes, 8, shape.next.wrapping_sub(shape.held as u16));
    for held in 0..shape.held {
        let next = u16_at(&bytes, 8);
        let shape = Shape { slots: shape.slots, held, oldest, next };
        table::append(&PAPER, &mut bytes, shape, &record(next));
    }
    bytes
}

/// The map that is marked so. Bits past its words are nowhere.
pub fn marked_map(marks: &Marks) -> Vec<u64> {
    let from = usize::from(marks.from / WORD_BITS);
    let on = u64::MAX << (marks.from % WORD_BITS);
    let like = |word: usize| match word.cmp(&from) {
        Ordering::Less => marks.below,
        Ordering::Equal => marks.below & !on | marks.on & on,
        Ordering::Greater => marks.on,
    };
    let mut map: Vec<u64> = (0..marks.words).map(like).collect();
    for number in &marks.turned {
        if let Some(word) = map.get_mut(usize::from(number / WORD_BITS)) {
            *word ^= 1 << (number % WORD_BITS);
        }
    }
    map
}

/// An update like any other: a new reader is set. What matters of one is put over it.
pub const ANY_UPDATE: TimeUpdate = TimeUpdate {
    sequence: 0,
    status: 0x16,
    old_status: 0x19,
    fault_count: 0,
    zone: 0x04,
    dst: 0,
    source: 2,
    accuracy: 1,
    base: 800_000_000,
    old_base: 631_152_000,
};

fn some_record(random: &mut Random, sequence: u16) -> Record {
    let status = random.pick(&[0x10, 0x12, 0x16, 0x18, 0x1A, 0x1E, 0x19]);
    let old_status = random.pick(&[0x16, 0x12, 0x18, 0x19]);
    let fault_count = random.pick(&[0, 1, 255, 256, 65_535]);
    let (base, old_base) = (some_base(random), some_base(random));
    if random.one_in(5) {
        return Record::Fault(TimeFault {
            sequence,
            status,
            old_status,
            fault_count,
            base,
            old_base,
        });
    }
    Record::Update(TimeUpdate {
        sequence,
        status,
        old_status,
        fault_count,
        zone: random.pick(&[0x00, 0x04, 0x38, 0xD0, 0x80]),
        dst: random.pick(&[0, 2, 4, 8, 255]),
        source: random.below(8) as u8,
        accuracy: random.byte(),
        base,
        old_base,
    })
}

/// In range, its ends among them.
fn some_base(random: &mut Random) -> u32 {
    let span = (PAPER.last_base_time - PAPER.first_base_time) as usize + 1;
    match random.below(8) {
        0 => PAPER.first_base_time,
        1 => PAPER.last_base_time,
        2 => 800_000_000,
        _ => PAPER.first_base_time + random.below(span) as u32,
    }
}

const BASE_EDGES: [u32; 8] =
    [631_151_999, 631_152_000, 3_155_759_999, 3_155_760_000, 800_000_000, 0, u32::MAX, 1 << 31];
const ZONE_EDGES: [u8; 9] = [0x38, 0x39, 0xD0, 0xCF, 0x80, 0x81, 0x7F, 0x00, 0x04];
const DST_EDGES: [u8; 10] = [0, 1, 2, 3, 4, 5, 8, 16, 254, 255];
const SOURCE_EDGES: [u8; 6] = [0, 4, 6, 7, 8, 255];
const STATUS_EDGES: [u16; 12] = [
    0x0010, 0x0011, 0x0012, 0x0014, 0x0016, 0x0019, 0x001B, 0x001D, 0x001E, 0x0009, 0x0036, 0x8019,
];
const SENT_EDGES: [u8; 9] = [0, 1, 18, 19, 20, 23, 24, 25, 255];
const NUMBER_EDGES: [u16; 10] = [0, 1, 63, 64, 127, 32_767, 65_471, 65_472, 65_534, 65_535];

/// The paper's first case: from then on the clock is of the highest grade.
const FIRST_UPDATE: [u8; 11] = [2, 0x43, 0, 0x00, 0x08, 0xAF, 0x2F, 0x04, 0, 2, 1];
/// The same by force: it is logged wherever a record can be.
const FORCED_UPDATE: [u8; 11] = [3, 0x43, 0, 0x00, 0x08, 0xAF, 0x2F, 0x04, 0, 2, 1];

/// Bytes to put into the table: of its header, of a slot (held or not), a whole slot.
pub fn table_damage(random: &mut Random, table: &[u8]) -> Option<(usize, Vec<u8>)> {
    let slots = table.len().checked_sub(HEADER_BYTES)? / SLOT_BYTES;
    if slots == 0 {
        return None;
    }
    let slot = HEADER_BYTES + SLOT_BYTES * likely_slot(random, table, slots);
    Some(match random.below(8) {
        0 => (random.below(HEADER_BYTES), vec![random.byte()]),
        1 => header_number(random, table),
        2 => (slot + random.below(SLOT_BYTES), vec![random.byte()]),
        3 => (slot + random.pick(&[21, 24, 25, 26, 45, 46, 62, 63]), vec![1]),
        4 => (slot, random.bytes(SLOT_BYTES)),
        5 => {
            let other = HEADER_BYTES + SLOT_BYTES * random.below(slots);
            (slot, table[other..other + SLOT_BYTES].to_vec())
        }
        _ => record_field(random, slot, table[slot + 3]),
    })
}

/// Bytes to put into the table so that a slot without a record gets in between: those from there on
/// stand one place later, and the last of them is lost.
pub fn pushed_on(table: &[u8], place: usize) -> (usize, Vec<u8>) {
    let at = table.len().min(HEADER_BYTES + SLOT_BYTES * place);
    let bytes = [&[0; SLOT_BYTES], &table[at..]].concat();
    (at, bytes[..table.len() - at].to_vec())
}

/// The oldest slot, the newest, or any.
fn likely_slot(random: &mut Random, table: &[u8], slots: usize) -> usize {
    let oldest = (u32_at(table, 4) as usize).saturating_sub(HEADER_BYTES) / SLOT_BYTES;
    let held = usize::from(u16_at(table, 2));
    match random.below(3) {
        0 => oldest % slots,
        1 => (oldest + held + slots - 1) % slots,
        _ => random.below(slots),
    }
}

/// N, H, the offset or the next number moved by a little.
fn header_number(random: &mut Random, table: &[u8]) -> (usize, Vec<u8>) {
    let at = random.pick(&[0, 2, 4, 8]);
    let by = random.pick(&[1, u16::MAX, 64, 65_472, 2]);
    (at, u16_at(table, at).wrapping_add(by).to_le_bytes().to_vec())
}

/// A field of a slot's record with a value at an edge of its range.
fn record_field(random: &mut Random, slot: usize, kind: u8) -> (usize, Vec<u8>) {
    let start = slot + 1;
    let bases = if kind == record::TIME_UPDATE { 16 } else { 12 };
    match random.below(11) {
        0 => (slot, vec![random.pick(&[0, 16, 20, 23, 24, 25, 45, 46, 63, 64, 255])]),
        1 => (start, random.bytes(2)),
        2 => (start + 2, vec![random.pick(&[0, 1, 2, 3, 4, 255])]),
        3 => (start + 3 + random.below(3), vec![random.pick(&[1, 8, 128])]),
        4 => (start + 6, random.pick(&STATUS_EDGES).to_le_bytes().to_vec()),
        5 => (start + 8, random.pick(&STATUS_EDGES).to_le_bytes().to_vec()),
        6 => (start + bases, random.pick(&BASE_EDGES).to_le_bytes().to_vec()),
        7 => (start + bases + 4, random.pick(&BASE_EDGES).to_le_bytes().to_vec()),
        8 => (start + 12, vec![random.pick(&ZONE_EDGES)]),
        9 => (start + 13, vec![random.pick(&DST_EDGES)]),
        _ => (start + 14, vec![random.pick(&SOURCE_EDGES)]),
    }
}

/// Makes the steps of one sequence.
struct Maker {
    random: Random,
    queue: VecDeque<Step>,
    refused_in_a_row: usize,
    /// Of both readers a stamp and the next number, taken earlier.
    noted: Option<[(u32, u16); 2]>,
}

impl Maker {
    fn new(seed: u64) -> Maker {
        let mut maker = Maker {
            random: Random::new(seed),
            queue: VecDeque::new(),
            refused_in_a_row: 0,
            noted: None,
        };
        maker.set_up();
        maker
    }

    fn step(&mut self, world: &World) -> Step {
        if self.refused_in_a_row >= STUCK {
            self.queue.clear();
            self.set_up();
        }
        while self.queue.is_empty() {
            self.turn(world);
        }
        self.queue.pop_front().expect("a turn adds a step")
    }

    fn heard(&mut self, answer: i32) {
        let stuck = answer == -1 || answer == -2;
        self.refused_in_a_row = if stuck { self.refused_in_a_row + 1 } else { 0 };
    }

    fn add(&mut self, step: Step) {
        self.queue.push_back(step);
    }

    fn add_call(&mut self, call: Call) {
        self.queue.push_back(Step::Call(call));
    }

    /// Both readers of a ramp.
    fn set_up(&mut self) {
        self.refused_in_a_row = 0;
        self.noted = None;
        self.add(Step::Lend(Buffer::Output, 244));
        self.set_up_reader();
        self.add(Step::Exchange);
        self.set_up_reader();
    }

    /// A reader just started, or one over a table that already holds records; its clock is set or not.
    fn set_up_reader(&mut self) {
        let slots = some_slots(&mut self.random);
        self.add(Step::Lend(Buffer::State, 32));
        self.add(Step::Lend(Buffer::Table, HEADER_BYTES + SLOT_BYTES * slots));
        self.add_call(Call::Start);
        if !self.random.one_in(3) {
            let plan = some_plan(&mut self.random, slots);
            self.add(Step::Table(plan));
        }
        self.add_call(Call::Switches(1, 1, 1));
        if self.random.one_in(2) {
            self.add_call(Call::DtcpWrite(FIRST_UPDATE.to_vec()));
        }
    }

    /// One or more steps; none where only something is noted.
    fn turn(&mut self, world: &World) {
        match self.random.below(100) {
            0..=9 => self.damaged_table(world),
            10..=17 => self.damaged_state(world),
            18..=20 => self.changed_state(world),
            21..=23 => self.other_output(world),
            24..=27 => self.other_joining(world),
            28 => self.other_size(world),
            29..=31 => self.soaked_table(world),
            32..=36 => self.at_the_ramp(world),
            37 | 38 => self.note(world),
            39 | 40 => self.exchange(),
            41 => self.seconds_of_both(),
            42 if self.random.one_in(2) => self.fetching(),
            43 => self.odd_fetching(),
            _ => self.ordinary(world),
        }
    }

    /// A few calls in between damage and repair.
    fn some_calls(&mut self, world: &World) {
        for _ in 0..1 + self.random.below(3) {
            self.ordinary(world);
        }
    }

    fn damaged_table(&mut self, world: &World) {
        let Some((at, bytes)) = table_damage(&mut self.random, &world.table) else {
            return self.ordinary(world);
        };
        let end = world.table.len().min(at + bytes.len());
        let old = world.table[at.min(end)..end].to_vec();
        self.add(Step::Bytes(Buffer::Table, at, bytes));
        self.some_calls(world);
        self.add(Step::Bytes(Buffer::Table, at, old));
    }

    fn damaged_state(&mut self, world: &World) {
        let (at, bytes) = self.state_damage(world);
        let mut damaged = world.clone();
        damaged.poke(Buffer::State, at, &bytes);
        self.add(Step::Bytes(Buffer::State, at, bytes));
        self.some_calls(&damaged);
        self.put_back(Buffer::State, &world.state);
    }

    /// The buffer as it was, whatever became of it.
    fn put_back(&mut self, buffer: Buffer, bytes: &[u8]) {
        self.add(Step::Length(buffer, bytes.len()));
        self.add(Step::Bytes(buffer, 0, bytes.to_vec()));
    }

    /// A field of the state with a value at an edge of its range, or any byte of it.
    fn state_damage(&mut self, world: &World) -> (usize, Vec<u8>) {
        match self.random.below(26) {
            0 => (0, self.random.pick(&BASE_EDGES).to_le_bytes().to_vec()),
            1 => (4, vec![self.random.pick(&ZONE_EDGES)]),
            2 => (5, vec![self.random.pick(&DST_EDGES)]),
            3 => (6, vec![self.random.pick(&SOURCE_EDGES)]),
            4 => (8, self.random.pick(&STATUS_EDGES).to_le_bytes().to_vec()),
            5 => (10, self.random.pick(&[0, 65_534, 65_535u16]).to_le_bytes().to_vec()),
            6 => (12, self.random.pick(&BASE_EDGES).to_le_bytes().to_vec()),
            7 => (16, vec![self.random.pick(&[0, 1, 2, 3, 4, 5, 6, 7, 8, 15, 128])]),
            8 => (17, vec![self.random.pick(&[0, 1, 2, 3, 4, 7, 8, 255])]),
            9 => (18, vec![self.random.below(8) as u8]),
            10 => (19, self.likely_sequence(world).to_le_bytes().to_vec()),
            11 => (21, self.likely_sequence(world).to_le_bytes().to_vec()),
            12 => (23, vec![self.random.pick(&[0, 1, 61, 62, 63, 64, 255])]),
            13 => (24, vec![self.random.pick(&[0, 1, 2, 255])]),
            14 => (25, self.likely_sequence(world).to_le_bytes().to_vec()),
            15 => (27, vec![self.random.pick(&SENT_EDGES)]),
            16 => (28 + self.random.below(4), vec![1]),
            17..=23 => (17, self.some_report(world)),
            _ => (self.random.below(32), vec![self.random.byte()]),
        }
    }

    /// Bytes 17 to 27 of a state with a report, right or nearly right.
    fn some_report(&mut self, world: &World) -> Vec<u8> {
        let mut bytes = vec![0; 11];
        bytes[0] = self.random.pick(&[1, 1, 1, 7, 7, 7, 2]);
        bytes[1] = self.random.pick(&[1, 2, 2, 3, 3, 4, 4, 4, 5, 6]);
        let (minimum, maximum) = self.likely_range(world);
        if matches!(bytes[1], 3 | 4) || self.random.one_in(20) {
            put_u16(&mut bytes, 2, minimum);
        }
        if matches!(bytes[1], 2 | 4) || self.random.one_in(20) {
            put_u16(&mut bytes, 4, maximum);
        }
        bytes[6] = self.random.pick(&[0, 0, 0, 1, 30, 62, 63, 64]);
        if !self.random.one_in(4) {
            bytes[7] = 1;
            put_u16(&mut bytes, 8, self.likely_sequence(world));
            bytes[10] = if self.random.one_in(2) { 0 } else { self.random.pick(&SENT_EDGES) };
        }
        bytes
    }

    /// A change that stays: mostly within the rules, so that the clock goes on from there.
    fn changed_state(&mut self, world: &World) {
        let running = is_running(world);
        let (at, bytes) = match self.random.below(6) {
            0 => (0, some_base(&mut self.random).to_le_bytes().to_vec()),
            1 => (8, self.random.pick(&[0x10u16, 0x12, 0x16, 0x18, 0x1A]).to_le_bytes().to_vec()),
            2 => (10, self.random.pick(&[65_534, 65_535u16]).to_le_bytes().to_vec()),
            3 => (12, some_base(&mut self.random).to_le_bytes().to_vec()),
            _ if running => (23, vec![self.random.pick(&[61, 62, 63])]),
            _ => (16, vec![self.random.below(8) as u8]),
        };
        self.add(Step::Bytes(Buffer::State, at, bytes));
    }

    fn other_output(&mut self, world: &World) {
        let length = match self.random.below(6) {
            0 => self.random.below(26),
            1 => 300,
            2 => 20,
            3 => 19,
            _ => 244,
        };
        self.add(Step::Lend(Buffer::Output, length));
        self.some_calls(world);
        let length = self.random.pick(&[20, 244, 244, 300]);
        self.add(Step::Lend(Buffer::Output, length));
    }

    /// A joining state of rubbish, or one at the edges of its ranges.
    fn other_joining(&mut self, world: &World) {
        let length = if self.random.one_in(8) { self.random.pick(&[0, 1, 3, 47, 49]) } else { 48 };
        let mut bytes = self.random.bytes(length);
        if self.random.one_in(6) {
            bytes.fill(0);
        } else if length >= 3 && !self.random.one_in(6) {
            bytes[0] = self.random.below(4) as u8;
            bytes[1] = self.random.pick(&[0, 0, 1, 62, 63, 64]);
            bytes[2] = self.random.pick(&[0, 0, 1, 20, 43, 44, 45, 46]);
        }
        self.add(Step::Lend(Buffer::Joining, length));
        self.add(Step::Bytes(Buffer::Joining, 0, bytes.clone()));
        let mut lent = world.clone();
        lent.joining = bytes;
        let notification = self.notification(&lent);
        self.add_call(Call::Join(notification));
        self.add(Step::Length(Buffer::Joining, 48));
    }

    /// State or table lent with another length, then as before.
    fn other_size(&mut self, world: &World) {
        let buffer = self.random.pick(&[Buffer::State, Buffer::Table]);
        let whole = if buffer == Buffer::State { &world.state } else { &world.table };
        let length = self.other_length(whole.len());
        self.add(Step::Length(buffer, length));
        self.some_calls(world);
        if self.random.one_in(4) {
            self.add_call(Call::Start);
            self.add_call(Call::Fault);
        }
        let kept = length.min(whole.len());
        self.add(Step::Length(buffer, whole.len()));
        self.add(Step::Bytes(buffer, kept, whole[kept..].to_vec()));
    }

    fn other_length(&mut self, whole: usize) -> usize {
        match self.random.below(6) {
            0 => whole + 1,
            1 => whole.saturating_sub(1),
            2 => whole + SLOT_BYTES,
            3 => whole.saturating_sub(SLOT_BYTES),
            4 => self.random.below(HEADER_BYTES + 2),
            _ => 65_552,
        }
    }

    /// The table salvaged, mostly damaged or lent with another length; then as before.
    fn soaked_table(&mut self, world: &World) {
        self.soak(world);
        let whole = world.table.len();
        let length = match self.random.below(24) {
            0 => self.random.below(HEADER_BYTES + SLOT_BYTES),
            1 => whole.saturating_sub(1),
            2 => whole + 1,
            3 => whole.saturating_sub(SLOT_BYTES),
            4 if self.random.one_in(4) => 65_552,
            _ => whole,
        };
        self.add(Step::Length(Buffer::Table, length));
        self.lend_rooms(length);
        self.add_call(Call::Salvage);
        self.add(Step::Lend(Buffer::Salvaged, 0));
        self.add(Step::Lend(Buffer::Findings, 0));
        self.put_back(Buffer::Table, &world.table);
    }

    /// Damage in a few places, in none, or everywhere; or a slot in between.
    fn soak(&mut self, world: &World) {
        if self.random.one_in(8) {
            return self.add(Step::Lend(Buffer::Table, world.table.len()));
        }
        if self.random.one_in(8) {
            let (at, bytes) = pushed_on(&world.table, self.random.below(4));
            return self.add(Step::Bytes(Buffer::Table, at, bytes));
        }
        let mut soaked = world.clone();
        for _ in 0..self.random.pick(&[0, 1, 1, 1, 2, 3, 8]) {
            if let Some((at, bytes)) = table_damage(&mut self.random, &soaked.table) {
                soaked.poke(Buffer::Table, at, &bytes);
                self.add(Step::Bytes(Buffer::Table, at, bytes));
            }
        }
    }

    /// Rooms for what a table of this length gives: just so, longer, too short, or none.
    fn lend_rooms(&mut self, length: usize) {
        let slots = length.saturating_sub(HEADER_BYTES) / SLOT_BYTES;
        let most = ENTRY_BYTES * (FIELDS.len() + slots);
        let table = match self.random.below(12) {
            0 => 0,
            1 => length.saturating_sub(1),
            2..=4 => length + 9,
            _ => length,
        };
        let report = match self.random.below(6) {
            0 => self.random.below(most + 1),
            1 => ENTRY_BYTES * self.random.below(4),
            2 => most + 9,
            _ => most,
        };
        self.add(Step::Lend(Buffer::Salvaged, table));
        self.add(Step::Lend(Buffer::Findings, report));
    }

    /// The ramp asked about both readers: as they are; or with a table damaged or lent with another
    /// length, or with both so, and then as before.
    fn at_the_ramp(&mut self, world: &World) {
        let mut lent = world.clone();
        if self.random.one_in(4) {
            self.equal_bases(&mut lent);
        }
        for buffer in [Buffer::Table, Buffer::Right] {
            if self.random.one_in(4) {
                self.harm(&mut lent, buffer);
            }
        }
        for _ in 0..1 + self.random.below(3) {
            let call = self.ramp_call(&lent);
            self.add_call(call);
        }
        for (buffer, whole) in [(Buffer::Table, &world.table), (Buffer::Right, &world.right)] {
            if lent.buffer(buffer) != whole {
                self.put_back(buffer, whole);
            }
        }
    }

    /// The right log's newest update gets the base of the left one's, or one beside it.
    fn equal_bases(&mut self, lent: &mut World) {
        let newest = |table| updates(&PAPER, &Log::open(&PAPER, table).ok()?).pop();
        if let (Some(left), Some(right)) = (newest(&lent.table), newest(&lent.right)) {
            let base = left.update.base.wrapping_add(self.random.pick(&[0, 0, 1, u32::MAX]));
            let (at, bytes) = (right.bytes.start + 16, base.to_le_bytes().to_vec());
            lent.poke(Buffer::Right, at, &bytes);
            self.add(Step::Bytes(Buffer::Right, at, bytes));
        }
    }

    /// Damages a table of what is lent, empties it, or gives it another length.
    fn harm(&mut self, lent: &mut World, buffer: Buffer) {
        let table = lent.buffer(buffer);
        let (at, bytes) = match (self.random.below(4), table_damage(&mut self.random, table)) {
            (0, _) | (_, None) => {
                let length = self.other_length(table.len());
                table.resize(length, 0);
                return self.add(Step::Length(buffer, length));
            }
            // H 0 and the offset 16: sound, whatever its slots have.
            (1, _) => (2, vec![0, 0, HEADER_BYTES as u8, 0, 0, 0]),
            (_, Some(damage)) => damage,
        };
        lent.poke(buffer, at, &bytes);
        self.add(Step::Bytes(buffer, at, bytes));
    }

    fn ramp_call(&mut self, world: &World) -> Call {
        if self.random.one_in(3) {
            return Call::NewestUpdate;
        }
        let window = match self.random.below(8) {
            0 => self.random.pick(&[61, 62, 3_600, u32::MAX]),
            1 => 0,
            2 => PAPER.widest_window,
            _ => self.random.below(PAPER.widest_window as usize) as u32,
        };
        let sightings = match self.noted {
            _ if self.random.one_in(8) => {
                [&world.table, &world.right].map(|t| self.far_sighting(t))
            }
            Some(noted) if self.random.one_in(3) => self.noted_sightings(world, noted),
            _ => self.likely_sightings(world, window),
        };
        Call::OneBeast(sightings, window)
    }

    /// What was noted earlier, and the clocks now.
    fn noted_sightings(&self, world: &World, noted: [(u32, u16); 2]) -> Sightings {
        let [(left, left_next), (right, right_next)] = noted;
        [
            Sighting { base: base_of(&world.state), stamp: left, next: left_next },
            Sighting { base: base_of(&world.right_state), stamp: right, next: right_next },
        ]
    }

    /// Sightings whose ages, where both can be carried, are about the window apart.
    fn likely_sightings(&mut self, world: &World, window: u32) -> Sightings {
        let left = self.sighting(&world.state, &world.table);
        let carried = carry(&PAPER, left.stamp, left.next, &world.table).unwrap_or(0);
        let apart = i64::from(window) + self.random.pick(&[-1, 0, 0, 0, 1, 1, 1, 2, -90_000]);
        let age = i64::from(left.base) - carried + self.random.pick(&[-1, 1]) * apart;
        let right = self.sighting(&world.right_state, &world.right);
        let moved = carry(&PAPER, 0, right.next, &world.right).unwrap_or(0);
        let stamp = i64::from(right.base) - moved - age;
        [left, Sighting { stamp: u32::try_from(stamp).unwrap_or(right.stamp), ..right }]
    }

    /// A clock and a stamp at the ends of 32 bits, and nothing logged since.
    fn far_sighting(&mut self, table: &[u8]) -> Sighting {
        let mut end = || self.random.pick(&[0, 1, 30, u32::MAX - 30, u32::MAX]);
        Sighting { base: end(), stamp: end(), next: next_of(table) }
    }

    /// A read at one antenna, by its clock and its log; the clock is another number now and then.
    fn sighting(&mut self, state: &[u8], table: &[u8]) -> Sighting {
        let base = match self.random.below(6) {
            0 => self.random.pick(&BASE_EDGES),
            _ => base_of(state),
        };
        let since = self.random.below(200) as u32;
        let ago = base.saturating_sub(since);
        let stamp = self.random.pick(&[ago, ago, ago, base.saturating_add(since), 0, u32::MAX]);
        let next = match self.random.below(3) {
            0 => self.likely_number(table),
            _ => self.recent_number(table),
        };
        Sighting { base, stamp, next }
    }

    /// The next number, or one of the newest held: stamps are mostly carried over few records.
    fn recent_number(&mut self, table: &[u8]) -> u16 {
        if table.len() < HEADER_BYTES {
            return 0;
        }
        let held = usize::from(u16_at(table, 2));
        next_of(table).wrapping_sub(self.random.below(held.min(3) + 1) as u16)
    }

    /// Both readers have read a tag: one of them now, the other some seconds before it.
    fn note(&mut self, world: &World) {
        let before = self.random.below(70) as u32;
        self.noted = Some([
            (base_of(&world.state).saturating_sub(before), next_of(&world.table)),
            (base_of(&world.right_state), next_of(&world.right)),
        ]);
    }

    fn exchange(&mut self) {
        self.add(Step::Exchange);
        if let Some(noted) = &mut self.noted {
            noted.swap(0, 1);
        }
    }

    /// The same seconds pass for both.
    fn seconds_of_both(&mut self) {
        let n = self.random.below(100) as u32;
        for _ in 0..2 {
            self.add_call(Call::Seconds(n));
            self.add(Step::Exchange);
        }
    }

    /// The tablet fetches, and the log goes on, once or more often.
    fn fetching(&mut self) {
        for _ in 0..1 + self.random.below(3) {
            self.fetch();
            self.add_call(Call::RacpWrite(vec![ABORT, 0]));
            for _ in 0..self.random.below(3) {
                self.add_call(Call::DtcpWrite(FORCED_UPDATE.to_vec()));
            }
        }
    }

    /// It tells what the reader holds, asks for what is proposed, and takes in all of that or a part.
    /// Now and then the log has gone on when it asks, or it asks for what was proposed before.
    fn fetch(&mut self) {
        self.add_call(Call::FetchTellHeld);
        if !self.random.one_in(12) {
            self.add_call(Call::FetchPropose);
        }
        if self.random.one_in(6) {
            self.add_call(Call::DtcpWrite(FORCED_UPDATE.to_vec()));
        }
        self.add_call(Call::RacpWriteProposed);
        for _ in 0..self.random.pick(&[0, 1, 2, 5]) {
            let p = 20 + self.random.below(225) as u32;
            self.add_call(Call::Notify(p));
            self.add_call(Call::JoinSegment);
            self.add_call(Call::ReadJoined);
            self.add_call(Call::FetchTakeRead);
        }
        self.add_call(Call::FetchPropose);
        self.add_call(Call::FetchReceived);
    }

    /// The same calls on any map, with anything told; then the map is new.
    fn odd_fetching(&mut self) {
        let range = self.some_range();
        let marks = self.some_marks(range);
        self.add(Step::Map(marks));
        let any = self.random.pick(&[0, 1, 1, 1, 1, 2, 256, 65_535]);
        self.add(Step::Told([any, range.0, range.1]));
        for _ in 0..1 + self.random.below(4) {
            let call = self.fetch_call(range);
            self.add_call(call);
        }
        self.add(Step::Map(Marks { words: MAP_WORDS, below: 0, from: 0, on: 0, turned: vec![] }));
        self.add(Step::Told([0; 3]));
    }

    /// An oldest and a newest number: of one number, of all, of as many as a reader holds, or any.
    fn some_range(&mut self) -> (u16, u16) {
        let oldest = self.edge_number();
        let more = match self.random.below(7) {
            0 => 0,
            1 => 65_535,
            2 => 65_534,
            3 => self.edge_number(),
            _ => self.random.below(PAPER.most_slots) as u16,
        };
        (oldest, oldest.wrapping_add(more))
    }

    fn edge_number(&mut self) -> u16 {
        let any = self.random.number() as u16;
        let edge = self.random.pick(&NUMBER_EDGES);
        self.random.pick(&[any, edge])
    }

    /// One of a range's numbers, mostly: an end, or any of them, or one beside it.
    fn number_of(&mut self, (oldest, newest): (u16, u16)) -> u16 {
        let more = usize::from(newest.wrapping_sub(oldest));
        let any = oldest.wrapping_add(self.random.below(more + 1) as u16);
        let number = self.random.pick(&[oldest, newest, any, any]);
        number.wrapping_add(self.random.pick(&[0, 0, 1, u16::MAX]))
    }

    /// A map of which a range's bits are not all alike; now and then of another number of words.
    fn some_marks(&mut self, range: (u16, u16)) -> Marks {
        let words = match self.random.below(8) {
            0 => self.random.pick(&[0, 1, MAP_WORDS - 1, MAP_WORDS + 1]),
            _ => MAP_WORDS,
        };
        let some = self.random.number();
        let mut word = || self.random.pick(&[0, u64::MAX, u64::MAX, some]);
        let (below, on) = (word(), word());
        let from = self.number_of(range);
        let turned = self.random.pick(&[0, 0, 1, 3]);
        let turned = (0..turned).map(|_| self.number_of(range)).collect();
        Marks { words, below, from, on, turned }
    }

    fn fetch_call(&mut self, range: (u16, u16)) -> Call {
        match self.random.below(10) {
            0..=2 => Call::FetchPropose,
            3 | 4 => Call::FetchTake(self.number_of(range)),
            5 | 6 => Call::FetchReceived,
            7 | 8 => {
                let (oldest, newest) = self.some_range();
                Call::FetchTell(self.random.pick(&[0, 1, 2, 255]), oldest, newest)
            }
            _ => {
                let (oldest, newest) = (self.number_of(range), self.number_of(range));
                Call::FetchTell(1, oldest, newest)
            }
        }
    }

    /// One call, chosen by what the reader is doing.
    fn ordinary(&mut self, world: &World) {
        let switches = world.state.get(16).copied().unwrap_or(0);
        if switches != 7 && self.random.one_in(3) {
            return self.add_call(Call::Switches(1, 1, 1));
        }
        if is_running(world) && self.random.below(10) < 6 {
            let long = world.table.len() > HEADER_BYTES + SLOT_BYTES * 32 && self.random.one_in(4);
            let notifications = if long { 70 } else { 1 };
            return (0..notifications).for_each(|_| self.next_notification());
        }
        let call = match self.random.below(100) {
            0..=24 => Call::DtcpWrite(self.dtcp_write(world)),
            25..=55 => Call::RacpWrite(self.racp_write(world)),
            56 => self.ramp_call(world),
            57..=62 => Call::Seconds(self.some_seconds(world)),
            63..=67 => Call::Fault,
            68..=70 => self.some_switches(),
            71 => Call::Disconnect,
            72..=79 => self.some_carry(world),
            80..=84 => Call::Read(self.record_bytes(world)),
            85..=87 => Call::Keep(self.kept_bytes(world)),
            88..=91 => Call::Join(self.notification(world)),
            92..=93 => Call::DeviceTime,
            94 => Call::Feature,
            95 => Call::Parameters,
            96 => {
                Call::AttError(self.random.pick(&[0, 1, 3, 4, 5, 6, 7, 9, 10, 14, 255, u32::MAX]))
            }
            97 => Call::Notify(self.payload()),
            98 if self.random.one_in(3) => Call::Start,
            _ => Call::JoinSegment,
        };
        self.add_call(call);
    }

    /// A notification, mostly joined at the tablet at once.
    fn next_notification(&mut self) {
        let p = self.payload();
        self.add_call(Call::Notify(p));
        if !self.random.one_in(8) {
            self.add_call(Call::JoinSegment);
            self.add_call(Call::ReadJoined);
        }
    }

    fn payload(&mut self) -> u32 {
        match self.random.below(12) {
            0 => self.random.pick(&[0, 1, 18, 19]),
            1 => self.random.pick(&[243, 244, 245]),
            2 => self.random.pick(&[245, 256, 300, u32::MAX]),
            3..=6 => 20,
            _ => 20 + self.random.below(7) as u32,
        }
    }

    /// 0 mostly, to stay near; else the edges of what is left.
    fn some_seconds(&mut self, world: &World) -> u32 {
        let base = base_of(&world.state);
        let left = PAPER.last_base_time.saturating_sub(base);
        let near = self.random.below(90_000) as u32;
        self.random.pick(&[0, 1, near, near, left, left.wrapping_add(1), u32::MAX])
    }

    fn some_switches(&mut self) -> Call {
        let mut one = || self.random.pick(&[0, 1, 1, 2, 255]);
        Call::Switches(one(), one(), one())
    }

    fn some_carry(&mut self, world: &World) -> Call {
        let stamp = self.random.pick(&[0, 5, 800_000_050, u32::MAX]);
        Call::Carry(stamp, self.likely_sequence(world))
    }

    fn likely_sequence(&mut self, world: &World) -> u16 {
        self.likely_number(&world.table)
    }

    /// A number around those the table holds, or any.
    fn likely_number(&mut self, table: &[u8]) -> u16 {
        if table.len() < HEADER_BYTES || self.random.one_in(8) {
            return self.random.pick(&[0, 1, 65_534, 65_535]);
        }
        let held = u16_at(table, 2);
        let back = match self.random.below(4) {
            0 => held,
            1 => held.wrapping_add(1),
            2 => self.random.below(4) as u16,
            _ => self.random.below(usize::from(held) + 2) as u16,
        };
        u16_at(table, 8).wrapping_sub(back)
    }

    /// Two such numbers, three times in four the older one first, by age from the one before the
    /// oldest held.
    fn likely_range(&mut self, world: &World) -> (u16, u16) {
        let (one, two) = (self.likely_sequence(world), self.likely_sequence(world));
        let before = before_oldest(world);
        let turned = one.wrapping_sub(before) > two.wrapping_sub(before);
        if turned && self.random.one_in(2) {
            return (two, one);
        }
        (one, two)
    }

    /// An update with a field or more at an edge, or any bytes.
    fn dtcp_write(&mut self, world: &World) -> Vec<u8> {
        if self.random.one_in(4) {
            return self.any_write();
        }
        let mut write = vec![self.random.pick(&[2, 2, 3]); 1];
        let flags: u16 =
            self.random.pick(&[0x43, 0x43, 0x43, 0x41, 0x40, 0x42, 0x03, 0x00, 0xFFFF]);
        write.extend(flags.to_le_bytes());
        write.extend(self.proposed_base(world).to_le_bytes());
        write.push(if self.random.one_in(4) { self.random.pick(&ZONE_EDGES) } else { 4 });
        write.push(if self.random.one_in(4) { self.random.pick(&DST_EDGES) } else { 0 });
        write.push(if self.random.one_in(5) {
            self.random.pick(&SOURCE_EDGES)
        } else {
            self.random.below(8) as u8
        });
        write.push(self.random.byte());
        if self.random.one_in(10) {
            write.resize(1 + self.random.below(21), 0);
        }
        write
    }

    fn proposed_base(&mut self, world: &World) -> u32 {
        let base = base_of(&world.state);
        let by = self.random.pick(&[0, 1, 60, 86_399, 86_400, 86_401, 100_000]);
        match self.random.below(8) {
            0 => self.random.pick(&BASE_EDGES),
            1 => some_base(&mut self.random),
            2..=4 => base.wrapping_sub(by),
            _ => base.wrapping_add(by),
        }
    }

    /// A write of 0 to 21 bytes, with any opcode and operator, the defined ones more often.
    fn any_write(&mut self) -> Vec<u8> {
        let length = self.random.below(22);
        let mut write = self.random.bytes(length);
        if let Some(opcode) = write.first_mut().filter(|_| self.random.one_in(2)) {
            *opcode = self.random.below(12) as u8;
        }
        if let Some(operator) = write.get_mut(1).filter(|_| self.random.one_in(2)) {
            *operator = self.random.below(9) as u8;
        }
        write
    }

    /// A request with its operand, now and then with a wrong length or filter type.
    fn racp_write(&mut self, world: &World) -> Vec<u8> {
        if self.random.one_in(4) {
            return self.any_write();
        }
        if self.random.one_in(8) {
            return self
                .random
                .pick(&[&[3, 0][..], &[3, 0], &[3], &[3, 1], &[3, 0, 0], &[3, 7]])
                .to_vec();
        }
        let opcode = self.random.pick(&[1, 1, 4, 7, 7]);
        let unsupported = 7 + self.random.below(249) as u8;
        let operator = self.random.pick(&[1, 1, 2, 3, 3, 4, 4, 5, 6, 0, unsupported]);
        let mut write = vec![opcode, operator];
        if matches!(operator, 2..=4) {
            write.push(self.random.pick(&[1, 1, 1, 1, 1, 1, 0, 2]));
            let (minimum, maximum) = self.likely_range(world);
            let named = [minimum.to_le_bytes(), maximum.to_le_bytes()].concat();
            let values = match operator {
                2 => &named[2..],
                3 => &named[..2],
                _ => &named[..],
            };
            write.extend(values);
        }
        if self.random.one_in(12) {
            write.resize(1 + self.random.below(20), 0);
        }
        write
    }

    /// Bytes to read as a record: a held one, mostly with a field at an edge, or rubbish.
    fn record_bytes(&mut self, world: &World) -> Vec<u8> {
        let length = self.random.below(47);
        let slots = world.table.len().saturating_sub(HEADER_BYTES) / SLOT_BYTES;
        if slots == 0 || self.random.one_in(6) {
            return self.random.bytes(length);
        }
        let at = HEADER_BYTES + SLOT_BYTES * likely_slot(&mut self.random, &world.table, slots);
        let mut slot = world.table[at..at + SLOT_BYTES].to_vec();
        if !self.random.one_in(4) {
            let (at, bytes) = record_field(&mut self.random, 0, slot[3]);
            slot[at..at + bytes.len()].copy_from_slice(&bytes);
        }
        let end = (1 + usize::from(slot[0])).min(SLOT_BYTES);
        slot[1..end].to_vec()
    }

    /// Bytes to keep in the table: a record, mostly with the next number, or what else is read.
    fn kept_bytes(&mut self, world: &World) -> Vec<u8> {
        if world.table.len() < HEADER_BYTES || self.random.one_in(6) {
            return self.record_bytes(world);
        }
        let next = u16_at(&world.table, 8);
        let (before, after) = (next.wrapping_sub(1), next.wrapping_add(1));
        let number = self.random.pick(&[next, next, next, before, after, 0, 65_535]);
        let mut bytes = vec![0; SLOT_BYTES];
        let length = record::write(&some_record(&mut self.random, number), &mut bytes);
        bytes.truncate(length);
        bytes
    }

    /// A segment that follows what is joined so far, mostly.
    fn notification(&mut self, world: &World) -> Vec<u8> {
        if self.random.one_in(8) {
            let length = self.random.below(4);
            return self.random.bytes(length);
        }
        let joined = |at: usize| world.joining.get(at).copied().unwrap_or(0);
        let (phase, counter, length) = (joined(0), joined(1), usize::from(joined(2)));
        let first = (phase != 2) != self.random.one_in(10);
        let last = self.random.one_in(2);
        let counter = if self.random.one_in(8) { self.random.byte() } else { counter };
        let room = if phase == 2 { 45usize.saturating_sub(length) } else { 45 };
        let body = match self.random.below(6) {
            0 => room,
            1 => room + 1,
            2 => room.saturating_sub(1),
            3 => self.random.below(245),
            _ => self.random.below(room + 1),
        };
        let mut notification = vec![u8::from(first) | u8::from(last) << 1 | counter << 2];
        notification.extend(self.random.bytes(body));
        notification
    }
}

fn is_running(world: &World) -> bool {
    world.state.get(17).is_some_and(|opcode| *opcode != 0)
}

/// The number before the oldest held one.
fn before_oldest(world: &World) -> u16 {
    if world.table.len() < HEADER_BYTES {
        return 0;
    }
    let held = u16_at(&world.table, 2);
    u16_at(&world.table, 8).wrapping_sub(held).wrapping_sub(1)
}

/// The log's next number.
fn next_of(table: &[u8]) -> u16 {
    if table.len() < HEADER_BYTES {
        return 0;
    }
    u16_at(table, 8)
}

fn base_of(state: &[u8]) -> u32 {
    if state.len() < 4 {
        return PAPER.first_base_time;
    }
    u32_at(state, 0)
}
