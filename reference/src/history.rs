//! Made histories of one reader: calls as firmware and clients may make them, right and wrong, on
//! buffers that nobody damages, with the books of "Every record once" kept on them. What is called
//! next is chosen by what the books and the table's header say.

use crate::numbers::PAPER;
use crate::octets::{put_u16, u16_at};
use crate::once::Books;
use crate::random::Random;
use crate::reader::Reader;
use crate::table::{HEADER_BYTES, SLOT_BYTES};
use crate::world::{Call, World, FILL};

const CALLS: usize = 400;
/// With 60 a report can have more segments than there are counters: a record has at most two.
const SLOTS: [usize; 5] = [1, 2, 3, 30, 60];
/// An empty table may have any next number, so the roll is soon reached.
const NEXT_NUMBERS: [u16; 5] = [0, 0, 65_535, 65_530, 65_500];

/// Plays a history and answers its books.
pub fn play(reader: &dyn Reader, seed: u64) -> Books {
    let mut maker = Maker::new(seed);
    let (mut world, mut books) = (World::new(), Books::default());
    world.table = vec![FILL; HEADER_BYTES + SLOT_BYTES * maker.slots];
    let mut call = Call::Start;
    for _ in 0..CALLS {
        world.out = vec![FILL; maker.output()];
        let answer = world.call(reader, &call);
        books.enter(&call, answer, &world);
        if answer == 0 {
            maker.done(&call, &mut world.table);
        }
        call = maker.call(books.is_running(), &world.table);
    }
    books.close();
    books
}

struct Maker {
    random: Random,
    slots: usize,
    /// One call in so many ends the report that runs.
    hurry: usize,
    /// Are all switches on?
    on: bool,
    /// Records to log before anything else is done.
    to_log: usize,
    payload: u32,
}

impl Maker {
    fn new(seed: u64) -> Maker {
        let mut random = Random::new(seed);
        let (slots, hurry) = (random.pick(&SLOTS), random.pick(&[3, 10, 300]));
        Maker { random, slots, hurry, on: false, to_log: 0, payload: 0 }
    }

    /// Takes note of a call that was done.
    fn done(&mut self, call: &Call, table: &mut [u8]) {
        match call {
            Call::Start => {
                put_u16(table, 8, self.random.pick(&NEXT_NUMBERS));
                let slots = self.slots;
                let half = slots / 2;
                self.to_log = self.random.pick(&[0, 1, half, slots, slots + 1, slots + half]);
                self.on = false;
            }
            Call::Switches(dtcp, racp, log) => self.on = ![dtcp, racp, log].contains(&&0),
            Call::Disconnect => self.on = false,
            _ => {}
        }
    }

    fn call(&mut self, running: bool, table: &[u8]) -> Call {
        if !self.on && !self.random.one_in(4) {
            return Call::Switches(1, 1, 1);
        }
        if self.to_log > 0 {
            self.to_log -= 1;
            return self.logging();
        }
        if !running {
            return self.while_none_runs(table);
        }
        if self.random.one_in(self.hurry) {
            return self.ending();
        }
        self.while_one_runs(table)
    }

    fn logging(&mut self) -> Call {
        if self.random.one_in(5) {
            return Call::Fault;
        }
        Call::DtcpWrite(self.update())
    }

    fn while_none_runs(&mut self, table: &[u8]) -> Call {
        match self.random.below(24) {
            0..=10 => Call::RacpWrite(self.request(table)),
            11 => Call::RacpWrite(self.broken_request(table)),
            12 => Call::RacpWrite(self.broken_abort()),
            13 => self.ending(),
            14 | 15 => Call::Notify(self.payload()),
            16 => Call::Seconds(self.random.below(1_000) as u32),
            17 => self.some_switches(),
            _ => self.logging(),
        }
    }

    /// None of these ends it.
    fn while_one_runs(&mut self, table: &[u8]) -> Call {
        match self.random.below(24) {
            0 => Call::RacpWrite(self.request(table)),
            1 => Call::RacpWrite(self.broken_request(table)),
            2 => Call::RacpWrite(self.broken_abort()),
            3 => Call::DtcpWrite(self.update()),
            4 => Call::Seconds(self.random.below(1_000) as u32),
            5 => self.some_switches(),
            _ => Call::Notify(self.payload()),
        }
    }

    fn ending(&mut self) -> Call {
        match self.random.below(7) {
            0..=2 => Call::RacpWrite(vec![3, 0]),
            3 | 4 => Call::Fault,
            5 => Call::Disconnect,
            _ => Call::Start,
        }
    }

    fn some_switches(&mut self) -> Call {
        let mut one = || self.random.pick(&[0, 1, 1, 2]);
        Call::Switches(one(), one(), one())
    }

    /// Force, mostly with a time in range.
    fn update(&mut self) -> Vec<u8> {
        let span = (PAPER.last_base_time - PAPER.first_base_time) as usize;
        let base = PAPER.first_base_time + self.random.below(span) as u32;
        let flags = self.random.pick(&[0x40, 0x41, 0x43, 0x43, 0x43, 0x03]);
        let (zone, dst) = (self.random.pick(&[0x04, 0xF0, 0x80]), self.random.pick(&[0, 4, 255]));
        let mut write = vec![3, flags, 0];
        write.extend(base.to_le_bytes());
        write.extend([zone, dst, self.random.below(8) as u8, self.random.byte()]);
        write
    }

    /// A report, combined or not, or now and then a number, by any operator.
    fn request(&mut self, table: &[u8]) -> Vec<u8> {
        let operator = 1 + self.random.below(6) as u8;
        let mut write = vec![self.random.pick(&[1, 1, 1, 7, 7, 7, 4]), operator];
        if matches!(operator, 2..=4) {
            write.push(1);
            write.extend(self.number(table).to_le_bytes());
        }
        if operator == 4 {
            write.extend(self.number(table).to_le_bytes());
        }
        write
    }

    /// One that is held, or just beside those.
    fn number(&mut self, table: &[u8]) -> u16 {
        let (held, next) = (u16_at(table, 2), u16_at(table, 8));
        next.wrapping_add(1).wrapping_sub(self.random.below(usize::from(held) + 3) as u16)
    }

    /// With another length, or another opcode, operator or filter type.
    fn broken_request(&mut self, table: &[u8]) -> Vec<u8> {
        let mut write = self.request(table);
        if self.random.one_in(2) {
            write.resize(self.random.below(22), 0);
        } else {
            let at = self.random.below(write.len().min(3));
            write[at] = self.random.byte();
        }
        write
    }

    fn broken_abort(&mut self) -> Vec<u8> {
        self.random.pick(&[&[3][..], &[3, 1], &[3, 7], &[3, 0, 0]]).to_vec()
    }

    /// Another one at each asking. Below 25 it cuts records.
    fn payload(&mut self) -> u32 {
        let before = self.payload;
        while self.payload == before {
            self.payload = match self.random.below(20) {
                0 => 19,
                1 => 245,
                2..=11 => 20 + self.random.below(5) as u32,
                _ => 20 + self.random.below(225) as u32,
            };
        }
        self.payload
    }

    /// How long the output is: mostly enough for every call.
    fn output(&mut self) -> usize {
        match self.random.below(24) {
            0 => self.random.below(20),
            1 => 20 + self.random.below(224),
            _ => 244,
        }
    }
}
