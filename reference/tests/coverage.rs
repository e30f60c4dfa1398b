//! The made sequences reach what they are made for.

use reference::fetch::Told;
use reference::listing::is_sound;
use reference::octets::{u16_at, u32_at};
use reference::once::held;
use reference::ramp::{Sighting, Sightings};
use reference::random::{watch, Step};
use reference::reader::{Reader, Reference};
use reference::world::{Call, World};
use std::collections::{BTreeMap, BTreeSet};

const CALLS: usize = 200_000;
/// How often the ramp must come to each of its answers, of each side.
const OFTEN: usize = 200;
/// What fetching's calls can come to, writing what was proposed among them, and how often they must.
const FETCHED: [(&str, &[&str]); 5] = [
    (
        "fetch_tell",
        &[
            "refused",
            "none",
            "one number",
            "all numbers",
            "over the roll",
            "inside a word",
            "over words' edges",
        ],
    ),
    (
        "fetch_propose",
        &[
            "refused",
            "told none",
            "nothing missing",
            "all that is told",
            "a run to the newest",
            "a run over the roll",
            "a run inside a word",
            "a run over words' edges",
        ],
    ),
    (
        "fetch_take",
        &[
            "refused",
            "told none",
            "the oldest",
            "the newest",
            "another inside",
            "once more",
            "before the oldest",
            "after the newest",
            "outside",
        ],
    ),
    ("fetch_received", &["refused", "none", "as many as a reader holds", "more", "all"]),
    ("racp_write", &["refused", "a run is begun", "the run is not held", "no run was proposed"]),
];
const OFTEN_FETCHED: usize = 40;

#[derive(Default)]
struct Seen {
    /// How often each refusal number was answered, by call; 0 for done.
    numbers: BTreeMap<&'static str, BTreeMap<i32, usize>>,
    /// How often the ramp's calls came to each answer, with its side.
    ramp: BTreeMap<(&'static str, i32, u32), usize>,
    /// How often fetching's calls came to each kind of answer.
    fetch: BTreeMap<(&'static str, &'static str), usize>,
    /// Write lengths and first bytes, by point.
    lengths: BTreeMap<&'static str, BTreeSet<usize>>,
    opcodes: BTreeMap<&'static str, BTreeSet<u8>>,
    /// Operators of RACP writes that begin a report or ask for a number.
    operators: BTreeSet<u8>,
    dtcp_codes: BTreeSet<u8>,
    grounds: BTreeSet<u16>,
    racp_codes: BTreeSet<u8>,
    /// Header bits of segments, and their counters.
    segment_bits: BTreeSet<u8>,
    counters: BTreeSet<u8>,
    closings: BTreeSet<u8>,
    /// N of tables that a record was logged in.
    slots: BTreeSet<u16>,
    events: BTreeSet<&'static str>,
}

fn name(call: &Call) -> &'static str {
    match call {
        Call::Start => "start",
        Call::Seconds(_) => "seconds",
        Call::Switches(..) => "switches",
        Call::Disconnect => "disconnect",
        Call::Fault => "fault",
        Call::DtcpWrite(_) => "dtcp_write",
        Call::RacpWrite(_) | Call::RacpWriteProposed => "racp_write",
        Call::Notify(_) => "notify",
        Call::Join(_) | Call::JoinSegment => "join",
        Call::Read(_) | Call::ReadJoined => "read",
        Call::Keep(_) => "keep",
        Call::Carry(..) => "carry",
        Call::DeviceTime => "device_time",
        Call::Feature => "feature",
        Call::Parameters => "parameters",
        Call::AttError(_) => "att_error",
        Call::Salvage => "salvage",
        Call::OneBeast(..) => "one_beast",
        Call::NewestUpdate => "newest_update",
        Call::FetchTell(..) | Call::FetchTellHeld => "fetch_tell",
        Call::FetchPropose => "fetch_propose",
        Call::FetchTake(_) | Call::FetchTakeRead => "fetch_take",
        Call::FetchReceived => "fetch_received",
    }
}

/// How many numbers a value comes after the oldest held; from H on it isn't held.
fn place(table: &[u8], value: u16) -> usize {
    let oldest = u16_at(table, 8).wrapping_sub(u16_at(table, 2));
    usize::from(value.wrapping_sub(oldest))
}

/// What a range is, by the places of its ends, that doesn't run over the roll.
fn range_event(minimum: usize, maximum: usize, held: usize) -> &'static str {
    match (minimum < held, maximum < held) {
        (true, true) if minimum > maximum => "turned range",
        (true, true) => "range of held numbers",
        (true, false) => "range whose maximum isn't held",
        (false, true) => "range whose minimum isn't held",
        (false, false) => "range with no end held",
    }
}

/// A stamp's age; nothing if it can't be carried.
fn age(sighting: &Sighting, table: &[u8]) -> Option<i64> {
    let mut carried = 0;
    let answer = Reference::new().carry(sighting.stamp, sighting.next, table, &mut carried);
    (answer == 0).then_some(i64::from(sighting.base) - carried)
}

/// A sound log's records, oldest first: whether each is an update, and its new base.
fn bases(table: &[u8]) -> Vec<(bool, u32)> {
    let base = |record: Vec<u8>| match record[2] {
        1 => (true, u32_at(&record, 16)),
        _ => (false, u32_at(&record, 12)),
    };
    held(table).into_iter().map(base).collect()
}

/// The newest update's base.
fn newest_base(bases: &[(bool, u32)]) -> Option<u32> {
    bases.iter().rev().find(|(is_update, _)| *is_update).map(|(_, base)| *base)
}

/// How many numbers are told.
fn told_numbers([any, oldest, newest]: Told) -> usize {
    if any == 0 {
        return 0;
    }
    1 + usize::from(newest.wrapping_sub(oldest))
}

/// What is told now, by its numbers.
fn telling([any, oldest, newest]: Told) -> &'static str {
    match told_numbers([any, oldest, newest]) {
        0 => "none",
        1 => "one number",
        65_536 => "all numbers",
        _ if newest < oldest => "over the roll",
        _ if newest / 64 == oldest / 64 => "inside a word",
        _ => "over words' edges",
    }
}

/// What is proposed, by its ends.
fn proposal(told: Told, answer: i32, request: &[u8]) -> &'static str {
    let (first, last) = (u16_at(request, 3), u16_at(request, 5));
    let [_, oldest, newest] = told;
    match (first == oldest, last == newest) {
        _ if told_numbers(told) == 0 => "told none",
        _ if answer == 0 => "nothing missing",
        _ if last < first => "a run over the roll",
        (true, true) => "all that is told",
        (false, true) => "a run to the newest",
        (_, false) if first / 64 == last / 64 => "a run inside a word",
        (_, false) => "a run over words' edges",
    }
}

/// What became of a number, by its place from the oldest.
fn taking(before: &World, after: &World, number: u16) -> &'static str {
    let told = told_numbers(before.told);
    let place = usize::from(number.wrapping_sub(before.told[1]));
    match before.map == after.map {
        _ if told == 0 => "told none",
        false if place == 0 => "the oldest",
        false if place + 1 == told => "the newest",
        false => "another inside",
        true if place < told => "once more",
        true if place == told => "after the newest",
        true if place == 65_535 => "before the oldest",
        true => "outside",
    }
}

/// How many were received.
fn counted(answer: i32) -> &'static str {
    match answer {
        0 => "none",
        1..=1_023 => "as many as a reader holds",
        65_536 => "all",
        _ => "more",
    }
}

/// What the reader says to what was proposed.
fn asking(answer: i32, out: &[u8]) -> &'static str {
    match answer {
        0 => "a run is begun",
        _ if out[..4] == [6, 0, 1, 6] => "the run is not held",
        _ => "no run was proposed",
    }
}

impl Seen {
    fn call(&mut self, call: &Call, answer: i32, before: &World, after: &World) {
        *self.numbers.entry(name(call)).or_default().entry(-answer.min(0)).or_default() += 1;
        let running = before.state.get(17).is_some_and(|opcode| *opcode != 0);
        let out = &after.out;
        let lent = before.state.len() == 32 && before.table.len() >= 16;
        if running && lent && before.state[18] == 4 {
            self.range_running(call, answer, before);
        }
        match call {
            Call::DtcpWrite(write) => self.write("dtcp_write", write),
            Call::RacpWrite(write) => self.write("racp_write", write),
            Call::OneBeast(..) => self.at_the_ramp(call, answer, after.side),
            Call::NewestUpdate => self.at_the_ramp(call, answer, after.part[0]),
            Call::FetchTell(..) | Call::FetchTellHeld => {
                self.fetched(call, answer, telling(after.told));
            }
            Call::FetchPropose => {
                self.fetched(call, answer, proposal(before.told, answer, &after.request));
            }
            Call::FetchTake(number) => self.fetched(call, answer, taking(before, after, *number)),
            Call::FetchTakeRead => {
                self.fetched(call, answer, taking(before, after, before.fields[0] as u16));
            }
            Call::FetchReceived => self.fetched(call, answer, counted(answer)),
            _ => {}
        }
        if answer < 0 {
            return;
        }
        match call {
            Call::DtcpWrite(_) => {
                self.dtcp_codes.insert(out[2]);
                if out[2] == 5 {
                    self.grounds.insert(u16_at(out, 3));
                } else if out[2] == 1 {
                    self.logged(after);
                }
            }
            Call::RacpWrite(write) if answer == 0 => {
                self.events.insert("report begun");
                self.by_number(write, true, &before.table);
            }
            Call::RacpWrite(write) => {
                self.by_number(write, out[0] == 5 && out[2..4] != [0, 0], &before.table);
                self.racp_codes.insert(if out[0] == 6 { out[3] } else { 0 });
                if running && write[0] == 3 && out[3] == 1 {
                    self.events.insert("report aborted");
                }
            }
            Call::Fault => {
                self.logged(after);
                if answer == 4 {
                    self.events.insert("report ended by a fault");
                }
            }
            Call::Disconnect if running => drop(self.events.insert("report ended by a disconnect")),
            Call::Notify(p) if answer < 256 => {
                self.segment_bits.insert(out[0] & 3);
                self.counters.insert(out[0] >> 2);
                let first_of_record = before.state[27];
                if first_of_record > 0 && *p != u32::from(first_of_record) + 1 {
                    self.events.insert("P changed inside a record");
                }
            }
            Call::Notify(_) => drop(self.closings.insert(out[0])),
            Call::ReadJoined if answer == 0 => drop(self.events.insert("joined record read")),
            Call::Keep(bytes) => {
                let (slots, held) = (u16_at(&before.table, 0), u16_at(&before.table, 2));
                if held == 0 && u16_at(bytes, 0) != u16_at(&before.table, 8) {
                    self.events.insert("any number kept first");
                }
                if held == slots {
                    self.events.insert("oldest overwritten by a record kept");
                }
                if u16_at(&after.table, 8) == 0 {
                    self.events.insert("number 65,535 kept");
                }
            }
            Call::Carry(_, q) => {
                let next = u16_at(&before.table, 8);
                if next < *q {
                    self.events.insert("carried over the roll");
                }
                if after.carried < 0 {
                    self.events.insert("carried below 0");
                }
            }
            Call::Salvage => self.salvaged(answer, before, after),
            Call::OneBeast(sightings, window) => self.told(sightings, *window, before),
            Call::NewestUpdate => self.handed_back(before, after),
            Call::FetchTellHeld if before.map != after.map && after.map != [0; 1_024] => {
                self.events.insert("some received records stay held");
            }
            _ => {}
        }
    }

    fn at_the_ramp(&mut self, call: &Call, answer: i32, side: u32) {
        *self.ramp.entry((name(call), answer, side)).or_default() += 1;
    }

    fn fetched(&mut self, call: &Call, answer: i32, kind: &'static str) {
        let kind = if answer < 0 { "refused" } else { kind };
        *self.fetch.entry((name(call), kind)).or_default() += 1;
    }

    /// One beast or two, by ages at the window or beside it.
    fn told(&mut self, [left, right]: &Sightings, window: u32, before: &World) {
        let ages = age(left, &before.table).zip(age(right, &before.right));
        let (of_left, of_right) = ages.expect("both are carried");
        let (apart, window) = (of_left - of_right, i64::from(window));
        let event = match apart {
            0 => "equal ages",
            _ if apart == window => "left read just within the window",
            _ if apart == window + 1 => "left read just before the window",
            _ if apart == -window => "right read just within the window",
            _ if apart == -window - 1 => "right read just before the window",
            _ => "ages somewhere else",
        };
        self.events.insert(event);
        if of_left.min(of_right) < 0 {
            self.events.insert("an age below 0");
        }
        if of_left.max(of_right) > u32::MAX.into() {
            self.events.insert("an age past 32 bits");
        }
        let moved = |sighting: &Sighting, table| sighting.next != u16_at(table, 8);
        if moved(left, &before.table) && moved(right, &before.right) {
            self.events.insert("both stamps carried over records");
        }
    }

    /// An update, and what else the logs have.
    fn handed_back(&mut self, before: &World, after: &World) {
        let [left, right] = [&before.table, &before.right].map(|table| bases(table));
        match [&left, &right].map(|bases| newest_base(bases)) {
            [Some(left), Some(right)] if left == right => self.events.insert("equal bases"),
            [Some(_), Some(_)] => self.events.insert("other bases"),
            _ => self.events.insert("an update at one side only"),
        };
        let sides = [(&left, &before.table), (&right, &before.right)];
        let (bases, table) = sides[after.part[0] as usize - 1];
        if !bases.last().is_some_and(|(is_update, _)| *is_update) {
            self.events.insert("a fault newer than the update");
        }
        let largest = bases.iter().filter(|(is_update, _)| *is_update).map(|(_, base)| *base).max();
        if largest > newest_base(bases) {
            self.events.insert("an older update with a larger base");
        }
        if after.part[1] < u32_at(table, 4) {
            self.events.insert("the update before the oldest's slot");
        }
        if table.len() == 65_488 {
            self.events.insert("an update of the largest table");
        }
    }

    /// A table came back, or what was left of it.
    fn salvaged(&mut self, answer: i32, before: &World, after: &World) {
        let (table, salvaged) = (&before.table, &after.salvaged[..before.table.len()]);
        let [old, new] = [table, salvaged].map(|table| u16_at(table, 8));
        let event = match answer {
            _ if is_sound(&Reference::new(), table) => "sound table came back",
            0 => "nothing to report",
            _ if old != new => "another next number",
            _ if u16_at(table, 2) < u16_at(salvaged, 2) => "more salvaged than held",
            _ if new < u16_at(salvaged, 2) => "salvaged over the roll",
            _ if salvaged.len() == 65_488 => "largest table salvaged",
            _ => "others salvaged",
        };
        self.events.insert(event);
        if after.salvaged.len() > table.len() && after.findings.len() > answer as usize {
            self.events.insert("salvaged with room left over");
        }
    }

    fn write(&mut self, point: &'static str, write: &[u8]) {
        self.lengths.entry(point).or_default().insert(write.len());
        self.opcodes.entry(point).or_default().extend(write.first());
        if point == "racp_write" && matches!(write, [1 | 4 | 7, _, ..]) {
            self.operators.insert(write[1]);
        }
    }

    /// A request by number, and whether it found records.
    fn by_number(&mut self, write: &[u8], found: bool, table: &[u8]) {
        let held = usize::from(u16_at(table, 2));
        let by_number =
            matches!(write, [1 | 4 | 7, 2 | 3, 1, _, _] | [1 | 4 | 7, 4, 1, _, _, _, _]);
        if held == 0 || !by_number {
            return;
        }
        let (value, newest) = (u16_at(write, 3), u16_at(table, 8).wrapping_sub(1));
        let event = match write[1] {
            2 if place(table, value) == held => "at most the next number",
            2 if found && value > newest => "at most, before the roll",
            3 if place(table, value) == 65_535 => "at least one before the oldest",
            3 if found && value > newest => "at least, over the roll",
            4 if found && value > u16_at(write, 5) => "range over the roll",
            4 => range_event(place(table, value), place(table, u16_at(write, 5)), held),
            _ => return,
        };
        self.events.insert(event);
    }

    /// A call while the report of a range runs.
    fn range_running(&mut self, call: &Call, answer: i32, before: &World) {
        let (minimum, maximum) = (u16_at(&before.state, 19), u16_at(&before.state, 21));
        let turned = place(&before.table, minimum) > place(&before.table, maximum);
        let (above, left) = (minimum > maximum, before.state[24] == 1);
        let event = match call {
            Call::Seconds(_) | Call::Switches(..) | Call::Disconnect if answer == 0 && above => {
                "minimum above maximum in a state"
            }
            Call::Notify(_) if answer == -2 && turned && left => "next record of a turned range",
            Call::Notify(_) if answer > 256 && turned => "turned range closed",
            Call::Notify(_) if answer > 256 && above => "range over the roll closed",
            _ => return,
        };
        self.events.insert(event);
    }

    fn logged(&mut self, after: &World) {
        self.slots.insert(u16_at(&after.table, 0));
        if u16_at(&after.table, 8) == 0 {
            self.events.insert("number 65,535 logged");
        }
    }
}

#[test]
fn sequences_reach_everything() {
    let mut seen = Seen::default();
    watch(&Reference::new(), 1, CALLS, &mut |step, answer, before, after| {
        let proposed = Call::RacpWrite(before.request.to_vec());
        match (step, answer) {
            (Step::Call(call @ Call::RacpWriteProposed), Some(answer)) => {
                seen.fetched(call, answer, asking(answer, &after.out));
                seen.call(&proposed, answer, before, after);
            }
            (Step::Call(call), Some(answer)) => seen.call(call, answer, before, after),
            _ => {}
        }
    });

    let rows: [(&str, &[i32]); 23] = [
        ("start", &[0, 1, 2]),
        ("seconds", &[0, 2, 7]),
        ("switches", &[0, 2]),
        ("disconnect", &[0, 2]),
        ("fault", &[0, 1, 2, 3]),
        ("dtcp_write", &[0, 1, 2, 3, 4, 5, 6]),
        ("racp_write", &[0, 1, 2, 3, 4, 5, 6]),
        ("notify", &[0, 1, 2, 3, 8]),
        ("join", &[0, 10]),
        ("read", &[0, 11]),
        ("keep", &[0, 1, 11, 23]),
        ("carry", &[0, 1, 12, 13]),
        ("device_time", &[0, 1, 2, 3]),
        ("feature", &[0, 3]),
        ("parameters", &[0, 3]),
        ("att_error", &[0]),
        ("salvage", &[0, 3, 20, 21]),
        ("one_beast", &[0, 1, 12, 13, 18]),
        ("newest_update", &[0, 1, 19]),
        ("fetch_tell", &[0, 3]),
        ("fetch_propose", &[0, 3]),
        ("fetch_take", &[0, 3]),
        ("fetch_received", &[0, 3]),
    ];
    for (call, numbers) in rows {
        println!("{call}: {:?}", seen.numbers[call]);
        assert!(seen.numbers[call].keys().eq(numbers), "{call}");
    }
    println!("ramp: {:?}", seen.ramp);
    let verdicts =
        [(1, 0), (2, 0), (-18, 0), (-1, 1), (-12, 1), (-13, 1), (-1, 2), (-12, 2), (-13, 2)];
    let parts = [(0, 1), (0, 2), (-1, 1), (-1, 2), (-19, 0)];
    let verdicts = verdicts.map(|(answer, side)| ("one_beast", answer, side));
    let parts = parts.map(|(answer, side)| ("newest_update", answer, side));
    let answers: BTreeSet<_> = verdicts.into_iter().chain(parts).collect();
    assert!(seen.ramp.keys().eq(&answers));
    assert!(seen.ramp.values().all(|count| *count >= OFTEN));
    println!("fetch: {:?}", seen.fetch);
    let kinds = FETCHED.iter().flat_map(|(call, kinds)| kinds.iter().map(|kind| (*call, *kind)));
    assert!(seen.fetch.keys().eq(&BTreeSet::from_iter(kinds)));
    assert!(seen.fetch.values().all(|count| *count >= OFTEN_FETCHED));
    for point in ["dtcp_write", "racp_write"] {
        assert_eq!(seen.lengths[point], BTreeSet::from_iter(0..=21), "{point}");
        assert_eq!(seen.opcodes[point].len(), 256, "{point}");
    }
    assert_eq!(seen.operators.len(), 256);
    assert_eq!(seen.dtcp_codes, BTreeSet::from([1, 2, 3, 5]));
    // All but none of the four grounds, in every combination.
    let grounds = (1..16u16).map(|k| k & 1 | (k & 2) << 1 | (k & 4) << 3 | (k & 8) << 3);
    assert_eq!(seen.grounds, grounds.collect());
    assert_eq!(seen.racp_codes, BTreeSet::from([0, 1, 2, 3, 4, 5, 6, 7, 9]));
    assert_eq!(seen.segment_bits, BTreeSet::from([0, 1, 2, 3]));
    assert_eq!(seen.counters, BTreeSet::from_iter(0..64));
    assert_eq!(seen.closings, BTreeSet::from([6, 8]));
    // 4 and 6: a table of five slots that was lent with one less or one more, and started anew.
    assert_eq!(seen.slots, BTreeSet::from([1, 2, 3, 4, 5, 6, 40, 1_023]));
    assert_eq!(
        seen.events,
        BTreeSet::from([
            "report begun",
            "report aborted",
            "report ended by a fault",
            "report ended by a disconnect",
            "P changed inside a record",
            "joined record read",
            "carried over the roll",
            "carried below 0",
            "number 65,535 logged",
            "any number kept first",
            "oldest overwritten by a record kept",
            "number 65,535 kept",
            "at most the next number",
            "at most, before the roll",
            "at least one before the oldest",
            "at least, over the roll",
            "range over the roll",
            "range of held numbers",
            "turned range",
            "range whose maximum isn't held",
            "range whose minimum isn't held",
            "range with no end held",
            "minimum above maximum in a state",
            "next record of a turned range",
            "turned range closed",
            "range over the roll closed",
            "sound table came back",
            "nothing to report",
            "another next number",
            "more salvaged than held",
            "salvaged over the roll",
            "largest table salvaged",
            "others salvaged",
            "salvaged with room left over",
            "equal ages",
            "left read just within the window",
            "left read just before the window",
            "right read just within the window",
            "right read just before the window",
            "ages somewhere else",
            "an age below 0",
            "an age past 32 bits",
            "both stamps carried over records",
            "equal bases",
            "other bases",
            "an update at one side only",
            "a fault newer than the update",
            "an older update with a larger base",
            "the update before the oldest's slot",
            "an update of the largest table",
            "some received records stay held",
        ])
    );
}
