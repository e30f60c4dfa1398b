//! The buffers a caller lends, together, so that two readers can be compared buffer by buffer.

use crate::fetch::{Request, Told, MAP_WORDS};
use crate::image::STATE_BYTES;
use crate::joining::JOINING_BYTES;
use crate::octets::u16_at;
use crate::ramp::{Part, Sightings};
use crate::reader::Reader;
use crate::record::Fields;
use crate::table::HEADER_BYTES;
use std::mem::swap;

/// What fresh buffers are filled with: a byte no call writes by chance everywhere.
pub const FILL: u8 = 0xAA;
/// What fresh numbers are.
const FILL_NUMBER: u32 = u32::from_le_bytes([FILL; 4]);

#[derive(Clone, Debug, PartialEq, Eq)]
pub struct World {
    pub state: Vec<u8>,
    pub table: Vec<u8>,
    pub joining: Vec<u8>,
    pub out: Vec<u8>,
    pub fields: Fields,
    pub carried: i64,
    /// The bytes of the last segment sent, as the radio would bring them to the tablet.
    pub segment: Vec<u8>,
    /// Salvage's room for a table, and its room for what it reports.
    pub salvaged: Vec<u8>,
    pub findings: Vec<u8>,
    /// The ramp's other reader, the right one: all calls but the ramp's are on the left one. The two
    /// change places by `exchange`.
    pub right_state: Vec<u8>,
    pub right: Vec<u8>,
    pub side: u32,
    pub part: Part,
    /// The tablet's map, what it was told last, and its room for what is proposed.
    pub map: Vec<u64>,
    pub told: Told,
    pub request: Request,
}

#[derive(Clone, Copy, Debug, PartialEq, Eq)]
pub enum Buffer {
    State,
    Table,
    Joining,
    Output,
    Salvaged,
    Findings,
    /// The right table.
    Right,
}

/// A public call with its numbers and the bytes it brings; the lent buffers are the world's.
#[derive(Clone, Debug, PartialEq, Eq)]
pub enum Call {
    Start,
    Seconds(u32),
    Switches(u8, u8, u8),
    Disconnect,
    Fault,
    DtcpWrite(Vec<u8>),
    RacpWrite(Vec<u8>),
    Notify(u32),
    Join(Vec<u8>),
    /// Joins the last segment sent.
    JoinSegment,
    Read(Vec<u8>),
    /// Reads the record that stands in the joining state.
    ReadJoined,
    Keep(Vec<u8>),
    Carry(u32, u16),
    DeviceTime,
    Feature,
    Parameters,
    AttError(u32),
    /// Salvages the table.
    Salvage,
    /// What is known of both reads, the left one first, and the window.
    OneBeast(Sightings, u32),
    NewestUpdate,
    /// Whether the reader holds any record, and the numbers of its oldest and newest.
    FetchTell(u8, u16, u16),
    /// Tells what the table's header says that it holds.
    FetchTellHeld,
    FetchPropose,
    /// Writes what was proposed last to the Record Access Control Point.
    RacpWriteProposed,
    FetchTake(u16),
    /// Takes in the record that was read last.
    FetchTakeRead,
    FetchReceived,
}

impl World {
    pub fn new() -> World {
        World {
            state: vec![FILL; STATE_BYTES],
            table: Vec::new(),
            joining: vec![0; JOINING_BYTES],
            out: vec![FILL; 20],
            fields: [0; 11],
            carried: 0,
            segment: Vec::new(),
            salvaged: Vec::new(),
            findings: Vec::new(),
            right_state: vec![FILL; STATE_BYTES],
            right: Vec::new(),
            side: FILL_NUMBER,
            part: [FILL_NUMBER; 3],
            map: vec![0; MAP_WORDS],
            told: [0; 3],
            request: [FILL; 7],
        }
    }

    /// The ramp's two readers change places.
    pub fn exchange(&mut self) {
        swap(&mut self.state, &mut self.right_state);
        swap(&mut self.table, &mut self.right);
    }

    pub fn buffer(&mut self, buffer: Buffer) -> &mut Vec<u8> {
        match buffer {
            Buffer::State => &mut self.state,
            Buffer::Table => &mut self.table,
            Buffer::Joining => &mut self.joining,
            Buffer::Output => &mut self.out,
            Buffer::Salvaged => &mut self.salvaged,
            Buffer::Findings => &mut self.findings,
            Buffer::Right => &mut self.right,
        }
    }

    /// Overwrites bytes; what would lie past the buffer's end is dropped.
    pub fn poke(&mut self, buffer: Buffer, at: usize, bytes: &[u8]) {
        for (place, byte) in self.buffer(buffer).iter_mut().skip(at).zip(bytes) {
            *place = *byte;
        }
    }

    pub fn call(&mut self, reader: &dyn Reader, call: &Call) -> i32 {
        let World { state, table, joining, out, fields, carried, map, told, request, .. } = self;
        match call {
            Call::Start => reader.start(state, table),
            Call::Seconds(n) => reader.seconds(state, *n),
            Call::Switches(dtcp, racp, log) => reader.switches(state, *dtcp, *racp, *log),
            Call::Disconnect => reader.disconnect(state),
            Call::Fault => reader.fault(state, table, out),
            Call::DtcpWrite(write) => reader.dtcp_write(state, table, write, out),
            Call::RacpWrite(write) => reader.racp_write(state, table, write, out),
            Call::Notify(p) => self.notify(reader, *p),
            Call::Join(notification) => reader.join(joining, notification),
            Call::JoinSegment => reader.join(joining, &self.segment),
            Call::Read(bytes) => reader.read(bytes, fields),
            Call::ReadJoined => {
                let length = joining.get(2).map_or(0, |length| usize::from(*length));
                reader.read(joining.get(3..3 + length).unwrap_or(&[]), fields)
            }
            Call::Keep(bytes) => reader.keep(table, bytes),
            Call::Carry(stamp, q) => reader.carry(*stamp, *q, table, carried),
            Call::DeviceTime => reader.device_time(state, table, out),
            Call::Feature => reader.feature(out),
            Call::Parameters => reader.parameters(out),
            Call::AttError(number) => reader.att_error(*number),
            Call::Salvage => reader.salvage(table, &mut self.salvaged, &mut self.findings),
            Call::OneBeast(sightings, window) => {
                reader.one_beast([table, &self.right], *sightings, *window, &mut self.side)
            }
            Call::NewestUpdate => reader.newest_update([table, &self.right], &mut self.part),
            Call::FetchTell(any, oldest, newest) => {
                reader.fetch_tell(map, told, *any, *oldest, *newest)
            }
            Call::FetchTellHeld => {
                let (any, oldest, newest) = held_numbers(table);
                reader.fetch_tell(map, told, any, oldest, newest)
            }
            Call::FetchPropose => reader.fetch_propose(map, told, request),
            Call::RacpWriteProposed => reader.racp_write(state, table, request, out),
            Call::FetchTake(number) => reader.fetch_take(map, told, *number),
            Call::FetchTakeRead => reader.fetch_take(map, told, fields[0] as u16),
            Call::FetchReceived => reader.fetch_received(map),
        }
    }

    fn notify(&mut self, reader: &dyn Reader, p: u32) -> i32 {
        let answer = reader.notify(&mut self.state, &self.table, p, &mut self.out);
        if (1..256).contains(&answer) {
            let length = self.out.len().min(answer as usize);
            self.segment = self.out[..length].to_vec();
        }
        answer
    }
}

/// What a tablet tells of a reader: whether it holds any record, its oldest and its newest number.
fn held_numbers(table: &[u8]) -> (u8, u16, u16) {
    if table.len() < HEADER_BYTES {
        return (0, 0, 0);
    }
    let (held, next) = (u16_at(table, 2), u16_at(table, 8));
    (u8::from(held > 0), next.wrapping_sub(held), next.wrapping_sub(1))
}

impl Default for World {
    fn default() -> World {
        World::new()
    }
}
