//! Test vectors kept as data, and the player that runs them on any reader.
//!
//! data/vectors.txt holds `fixture NAME` and `vector ID clause` blocks. Lines in a block:
//!
//! - `setup ...` a call, or an edit of a lent buffer (see `setup`); calls must be answered done;
//! - `call ...` the call under test (one per vector);
//! - `expect ...` one part of the outcome (see `expected`).
//!
//! Besides the parts it names, every vector is held to what goes for all calls: a refusal
//! leaves state, table and output as they were (10 empties the joining state instead), and
//! output past the bytes written keeps its old bytes. So do salvage's two rooms; what it salvages
//! is the table, and that stays as it is. The ramp's calls write a number or three, and nothing
//! else; `setup exchange` makes the reader that was set up so far the right one. Fetching changes the
//! map, what is told and the request, and each of its calls only what is its own.

use crate::fetch::Told;
use crate::listing::{is_sound, listing};
use crate::octets::{put_u16, put_u32, u16_at, u32_at};
use crate::ramp::Sighting;
use crate::reader::Reader;
use crate::table::{HEADER_BYTES, SLOT_BYTES};
use crate::world::{Buffer, Call, World, FILL};

const VECTORS: &str = include_str!("../data/vectors.txt");

pub struct Block {
    pub is_vector: bool,
    pub id: String,
    pub clause: String,
    pub lines: Vec<Line>,
}

pub struct Line {
    /// setup, call or expect.
    role: String,
    verb: String,
    words: Vec<String>,
}

pub struct Played {
    pub run: Vec<String>,
    pub failures: Vec<String>,
}

/// What the call under test was given and what it left.
struct Outcome {
    before: World,
    after: World,
    answer: i32,
    printed: String,
}

/// Plays every vector on a reader.
pub fn play_all(reader: &dyn Reader) -> Played {
    let blocks = blocks(VECTORS);
    let mut played = Played { run: Vec::new(), failures: Vec::new() };
    for vector in blocks.iter().filter(|block| block.is_vector) {
        played.run.push(vector.id.clone());
        if let Err(why) = play(reader, &blocks, vector) {
            played.failures.push(format!("{} ({}): {why}", vector.id, vector.clause));
        }
    }
    played
}

/// Cuts the text into its blocks. Lines that begin with `#` and empty lines are skipped.
pub fn blocks(text: &str) -> Vec<Block> {
    let mut blocks: Vec<Block> = Vec::new();
    for line in text.lines().map(str::trim) {
        let mut words = line.split_whitespace().map(str::to_string);
        let Some(role) = words.next().filter(|word| !word.starts_with('#')) else {
            continue;
        };
        let verb = words.next().unwrap_or_default();
        let words: Vec<String> = words.collect();
        if role == "fixture" || role == "vector" {
            let is_vector = role == "vector";
            blocks.push(Block { is_vector, id: verb, clause: words.join(" "), lines: Vec::new() });
        } else if let Some(block) = blocks.last_mut() {
            block.lines.push(Line { role, verb, words });
        }
    }
    blocks
}

fn play(reader: &dyn Reader, blocks: &[Block], vector: &Block) -> Result<(), String> {
    let mut world = World::new();
    set_up(reader, blocks, vector, &mut world)?;
    let call = only_call(vector)?;
    let before = world.clone();
    let (answer, printed) = match call.verb.as_str() {
        "listing" => (0, listing(reader, &world.table)),
        "look" => (0, String::new()),
        _ => (world.call(reader, &named_call(call)?), String::new()),
    };
    let outcome = Outcome { before, after: world, answer, printed };
    holds_for_all_calls(call, &outcome)?;
    let mut prints = String::new();
    for line in vector.lines.iter().filter(|line| line.role == "expect") {
        if line.verb == "prints" {
            prints += &format!("{}\n", line.words.join(" "));
        } else {
            expected(reader, line, &outcome)?;
        }
    }
    same("listing", &outcome.printed, &prints)
}

fn only_call(vector: &Block) -> Result<&Line, String> {
    let mut calls = vector.lines.iter().filter(|line| line.role == "call");
    match (calls.next(), calls.next()) {
        (Some(call), None) => Ok(call),
        _ => Err("a vector has one call".to_string()),
    }
}

fn set_up(
    reader: &dyn Reader,
    blocks: &[Block],
    block: &Block,
    world: &mut World,
) -> Result<(), String> {
    for line in block.lines.iter().filter(|line| line.role == "setup") {
        setup(reader, blocks, line, world)?;
    }
    Ok(())
}

/// One setup line: a fixture, an edit of a lent buffer, or a call.
fn setup(
    reader: &dyn Reader,
    blocks: &[Block],
    line: &Line,
    world: &mut World,
) -> Result<(), String> {
    let words = &line.words;
    match line.verb.as_str() {
        "use" => {
            let fixture = blocks.iter().find(|block| !block.is_vector && block.id == words[0]);
            set_up(reader, blocks, fixture.ok_or("no such fixture")?, world)?;
        }
        "buffer" => world.table = vec![FILL; number(&words[0])?],
        "length" => world.buffer(named_buffer(&words[0])?).resize(number(&words[1])?, 0),
        "out" => world.out = vec![FILL; number(&words[0])?],
        "rooms" => {
            world.salvaged = vec![FILL; number(&words[0])?];
            world.findings = vec![FILL; number(&words[1])?];
        }
        "exchange" => world.exchange(),
        "words" => world.map = vec![0; number(&words[0])?],
        "map" => put_words(&mut world.map, words)?,
        "told" => world.told = told(words)?,
        "bytes" => {
            let (buffer, at) = (named_buffer(&words[0])?, number(&words[1])?);
            world.poke(buffer, at, &hex(&words[2..])?);
        }
        "clock" => {
            for pair in words.chunks(2) {
                put_field(&mut world.state, &pair[0], &pair[1])?;
            }
        }
        "report" => world.state[17..28].copy_from_slice(&report_bytes(words)?),
        "joining" => {
            let mut bytes = hex(&words[3..])?;
            bytes.resize(45, 0);
            world.joining = vec![number(&words[0])?, number(&words[1])?, number(&words[2])?];
            world.joining.extend(bytes);
        }
        _ => {
            let answer = world.call(reader, &named_call(line)?);
            if answer < 0 {
                return Err(format!("setup {} {words:?} answered {answer}", line.verb));
            }
            // The output is lent anew for each call.
            world.out.fill(FILL);
        }
    }
    Ok(())
}

fn named_call(line: &Line) -> Result<Call, String> {
    let words = &line.words;
    Ok(match line.verb.as_str() {
        "start" => Call::Start,
        "seconds" => Call::Seconds(number(&words[0])?),
        "switches" => Call::Switches(number(&words[0])?, number(&words[1])?, number(&words[2])?),
        "disconnect" => Call::Disconnect,
        "fault" => Call::Fault,
        "dtcp" => Call::DtcpWrite(hex(words)?),
        "racp" => Call::RacpWrite(hex(words)?),
        "notify" => Call::Notify(number(&words[0])?),
        "join" => Call::Join(hex(words)?),
        "read" => Call::Read(hex(words)?),
        "keep" => Call::Keep(hex(words)?),
        "carry" => Call::Carry(number(&words[0])?, number(&words[1])?),
        "device_time" => Call::DeviceTime,
        "feature" => Call::Feature,
        "parameters" => Call::Parameters,
        "att_error" => Call::AttError(number(&words[0])?),
        "salvage" => Call::Salvage,
        "one_beast" => {
            Call::OneBeast([sighting(&words[..3])?, sighting(&words[3..6])?], number(&words[6])?)
        }
        "newest_update" => Call::NewestUpdate,
        "tell" => Call::FetchTell(number(&words[0])?, number(&words[1])?, number(&words[2])?),
        "propose" => Call::FetchPropose,
        "racp_proposed" => Call::RacpWriteProposed,
        "take" => Call::FetchTake(number(&words[0])?),
        "received" => Call::FetchReceived,
        other => return Err(format!("no call named {other}")),
    })
}

/// Base, stamp and next number.
fn sighting(words: &[String]) -> Result<Sighting, String> {
    Ok(Sighting { base: number(&words[0])?, stamp: number(&words[1])?, next: number(&words[2])? })
}

/// What goes for every call, named in the vector or not.
fn holds_for_all_calls(call: &Line, outcome: &Outcome) -> Result<(), String> {
    let Outcome { before, after, answer, .. } = outcome;
    match call.verb.as_str() {
        "salvage" if *answer >= 0 => return holds_for_salvage(outcome),
        "one_beast" | "newest_update" => return holds_for_ramp(&call.verb, outcome),
        "tell" | "propose" | "take" | "received" => return holds_for_fetch(&call.verb, outcome),
        _ => {}
    }
    if *answer >= 0 {
        let written = match call.verb.as_str() {
            "join" | "att_error" => 0,
            _ => (answer % 256) as usize,
        };
        let past = |world: &World| world.out.get(written..).map(<[u8]>::to_vec);
        return match past(before) {
            Some(old) => same("output past the bytes", &past(after), &Some(old)),
            None => Err(format!("answer {answer} is more than the output")),
        };
    }
    let mut untouched = before.clone();
    if *answer == -10 {
        untouched.joining.fill(0);
    }
    same("buffers after a refusal", after, &untouched)
}

/// It writes as many bytes as the table has, and as many of the report as it answers; all else it
/// leaves as it was.
fn holds_for_salvage(outcome: &Outcome) -> Result<(), String> {
    let Outcome { before, after, answer, .. } = outcome;
    let mut expected = before.clone();
    let rooms = [
        (&mut expected.salvaged, &after.salvaged, before.table.len()),
        (&mut expected.findings, &after.findings, *answer as usize),
    ];
    for (room, found, written) in rooms {
        let bytes = found.get(..written).ok_or("more was written than there is room for")?;
        room.get_mut(..written).ok_or("a room has another length")?.copy_from_slice(bytes);
    }
    same("buffers besides what salvage writes", after, &expected)
}

/// Whatever it answers, the one writes the side and the other the part.
fn holds_for_ramp(verb: &str, outcome: &Outcome) -> Result<(), String> {
    let Outcome { before, after, .. } = outcome;
    let mut expected = before.clone();
    match verb {
        "one_beast" => expected.side = after.side,
        _ => expected.part = after.part,
    }
    same("what the ramp leaves as it was", after, &expected)
}

/// Telling writes the map and what is told, taking in the map, proposing the request if it has one.
fn holds_for_fetch(verb: &str, outcome: &Outcome) -> Result<(), String> {
    let Outcome { before, after, answer, .. } = outcome;
    let mut expected = before.clone();
    match verb {
        _ if *answer < 0 => {}
        "tell" => (expected.map, expected.told) = (after.map.clone(), after.told),
        "take" => expected.map = after.map.clone(),
        "propose" if *answer > 0 => expected.request = after.request,
        _ => {}
    }
    same("what fetching leaves as it was", after, &expected)
}

/// One expected part of the outcome.
fn expected(reader: &dyn Reader, line: &Line, outcome: &Outcome) -> Result<(), String> {
    let Outcome { before, after, answer, .. } = outcome;
    let words = &line.words;
    let word = |k: usize| words.get(k).map_or("", String::as_str);
    match line.verb.as_str() {
        "number" => same("number", &(*answer).min(0), &-number::<i32>(word(0))?),
        "answer" => same("answer", answer, &number::<i32>(word(0))?),
        "att" => {
            let error = reader.att_error(answer.unsigned_abs());
            same("ATT error", &vec![error as u8], &hex(words)?)
        }
        "response" | "segment" => same("bytes", &written(outcome, 0)?, &hex(words)?),
        "closing" => same("closing bytes", &written(outcome, 256)?, &hex(words)?),
        "state" => same("state", &after.state, &before.state),
        "table" => same("table", &after.table, &before.table),
        "clock" => clock_fields(words, &after.state),
        "switches" => {
            let bits =
                number::<u8>(word(0))? | number::<u8>(word(1))? << 1 | number::<u8>(word(2))? << 2;
            same("switches", &after.state[16], &bits)
        }
        "report" => same("report", &after.state[17..28], &report_bytes(words)?[..]),
        "logs" => logs(before, after, &hex(words)?),
        "logged_at" => {
            let (at, bytes) = (number::<usize>(word(0))?, hex(&words[1..])?);
            let logged = newest(&after.table).and_then(|record| record.get(at..at + bytes.len()));
            same("logged bytes", &logged, &Some(&bytes[..]))
        }
        "bytes" => {
            let (at, bytes) = (number::<usize>(word(1))?, hex(&words[2..])?);
            let buffer = after.clone().buffer(named_buffer(word(0))?).clone();
            same("bytes", &buffer.get(at..at + bytes.len()), &Some(&bytes[..]))
        }
        "sound" => same("sound", &is_sound(reader, &after.table), &true),
        "joining" => same("joining", &after.joining[..3], &numbers(words)?[..]),
        "more" => same("more to come", answer, &0),
        "complete" => same("a whole record", answer, &i32::from(after.joining[2])),
        "carried" => same("carried", &after.carried, &number(word(0))?),
        "fields" => same("fields", &after.fields[..], &numbers(words)?[..]),
        "side" => same("side", &after.side, &number(word(0))?),
        "part" => same("part", &after.part[..], &numbers(words)?[..]),
        "map" => {
            let mut map = vec![0; after.map.len()];
            put_words(&mut map, words)?;
            same("map", &after.map, &map)
        }
        "told" => same("told", &after.told, &told(words)?),
        "request" => same("request", &after.request[..], &hex(words)?[..]),
        other => Err(format!("no expectation named {other}")),
    }
}

/// The bytes written to the output, where the answer is of this kind (256: closing).
fn written(outcome: &Outcome, kind: i32) -> Result<Vec<u8>, String> {
    let length = outcome.answer - kind;
    let bytes = outcome.after.out.get(..length.max(0) as usize);
    match bytes.filter(|_| (0..256).contains(&length)) {
        Some(bytes) => Ok(bytes.to_vec()),
        None => Err(format!("answer {}", outcome.answer)),
    }
}

/// The newest held record, by the header; nothing if the header can't be followed.
fn newest(table: &[u8]) -> Option<&[u8]> {
    let at = newest_slot(table)?;
    table.get(at + 1..at + 1 + usize::from(*table.get(at)?))
}

fn newest_slot(table: &[u8]) -> Option<usize> {
    let slots = usize::from(u16_at(table, 0));
    let held = usize::from(u16_at(table, 2));
    let oldest = (u32_at(table, 4) as usize).checked_sub(HEADER_BYTES)? / SLOT_BYTES;
    let newest = (oldest + held + slots).checked_sub(1)?.checked_rem(slots)?;
    Some(HEADER_BYTES + SLOT_BYTES * newest)
}

/// Exactly this record was logged: it is the newest, the header counts it, and nothing but the
/// header and its slot changed.
fn logs(before: &World, after: &World, record: &[u8]) -> Result<(), String> {
    let slots = u16_at(&before.table, 0);
    let held = u16_at(&before.table, 2);
    same("record logged", &newest(&after.table), &Some(record))?;
    same("held", &u16_at(&after.table, 2), &(held + 1).min(slots))?;
    same("next", &u16_at(&after.table, 8), &u16_at(&before.table, 8).wrapping_add(1))?;
    let mut expected = before.table.clone();
    let at = newest_slot(&after.table).ok_or("no newest slot")?;
    expected[..HEADER_BYTES].copy_from_slice(&after.table[..HEADER_BYTES]);
    expected[at..at + SLOT_BYTES].fill(0);
    expected[at] = record.len() as u8;
    expected[at + 1..at + 1 + record.len()].copy_from_slice(record);
    same("table after logging", &after.table, &expected)
}

/// Named clock fields: the state must be what putting these values into it gives.
fn clock_fields(words: &[String], state: &[u8]) -> Result<(), String> {
    let mut expected = state.to_vec();
    for pair in words.chunks(2) {
        put_field(&mut expected, &pair[0], &pair[1])?;
    }
    same("clock", state, &expected[..])
}

/// Zone and status are given in hexadecimal, the rest in decimal.
fn put_field(state: &mut [u8], name: &str, value: &str) -> Result<(), String> {
    let from_hex = |value: &str| u16::from_str_radix(value, 16).map_err(|why| why.to_string());
    match name {
        "base" => put_u32(state, 0, number(value)?),
        "zone" => state[4] = from_hex(value)? as u8,
        "dst" => state[5] = number(value)?,
        "source" => state[6] = number(value)?,
        "accuracy" => state[7] = number(value)?,
        "status" => put_u16(state, 8, from_hex(value)?),
        "faults" => put_u16(state, 10, number(value)?),
        "utc" => put_u32(state, 12, number(value)?),
        other => return Err(format!("no clock field named {other}")),
    }
    Ok(())
}

/// `none`, or opcode, operator, minimum, maximum, counter, then next and sent or `none`.
fn report_bytes(words: &[String]) -> Result<[u8; 11], String> {
    let mut bytes = [0; 11];
    if words[0] == "none" {
        return Ok(bytes);
    }
    bytes[0] = number(&words[0])?;
    bytes[1] = number(&words[1])?;
    put_u16(&mut bytes, 2, number(&words[2])?);
    put_u16(&mut bytes, 4, number(&words[3])?);
    bytes[6] = number(&words[4])?;
    if words[5] != "none" {
        bytes[7] = 1;
        put_u16(&mut bytes, 8, number(&words[5])?);
        bytes[10] = number(&words[6])?;
    }
    Ok(bytes)
}

/// Words of a map: `5:8001` is word 5 in hexadecimal, `5:8001*3` words 5 to 7, `none` no word.
fn put_words(map: &mut [u64], words: &[String]) -> Result<(), String> {
    for word in words.iter().filter(|word| *word != "none") {
        let (first, value) = word.split_once(':').ok_or(format!("not a word: {word:?}"))?;
        let (value, times) = value.split_once('*').unwrap_or((value, "1"));
        let value = u64::from_str_radix(value, 16).map_err(|why| format!("{word}: {why}"))?;
        let (first, times) = (number::<usize>(first)?, number::<usize>(times)?);
        map.get_mut(first..first + times).ok_or(format!("past the map: {word}"))?.fill(value);
    }
    Ok(())
}

/// Whether any is told, the oldest and the newest.
fn told(words: &[String]) -> Result<Told, String> {
    let numbers = numbers(words)?;
    numbers.try_into().map_err(|_| format!("not what is told: {words:?}"))
}

fn named_buffer(word: &str) -> Result<Buffer, String> {
    match word {
        "state" => Ok(Buffer::State),
        "table" => Ok(Buffer::Table),
        "joining" => Ok(Buffer::Joining),
        "out" => Ok(Buffer::Output),
        "salvaged" => Ok(Buffer::Salvaged),
        "findings" => Ok(Buffer::Findings),
        "right" => Ok(Buffer::Right),
        other => Err(format!("no buffer named {other}")),
    }
}

fn number<T: std::str::FromStr>(word: &str) -> Result<T, String> {
    word.parse().map_err(|_| format!("not a number here: {word:?}"))
}

fn numbers<T: std::str::FromStr>(words: &[String]) -> Result<Vec<T>, String> {
    words.iter().map(|word| number(word)).collect()
}

/// Hexadecimal bytes; `01*45` repeats one, `none` is no byte at all.
fn hex(words: &[String]) -> Result<Vec<u8>, String> {
    let mut bytes = Vec::new();
    for word in words.iter().filter(|word| *word != "none") {
        let (byte, times) = word.split_once('*').unwrap_or((word, "1"));
        let byte = u8::from_str_radix(byte, 16).map_err(|why| format!("{word}: {why}"))?;
        bytes.extend(vec![byte; number(times)?]);
    }
    Ok(bytes)
}

fn same<T: PartialEq + std::fmt::Debug + ?Sized>(
    what: &str,
    found: &T,
    expected: &T,
) -> Result<(), String> {
    if found == expected {
        return Ok(());
    }
    Err(format!("{what}: found {found:02X?}, expected {expected:02X?}"))
}
