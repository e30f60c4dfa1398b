//! Fetching only what is missing: what is promised of it, on made histories of a reader and on any
//! map, without looking into the reference; a tablet that fetches over the air; and the wrong fetches
//! that the promises, the vectors and the calls notice.

use reference::fetch::Told;
use reference::mutants::wrong_fetches;
use reference::notify::CLOSING;
use reference::octets::{put_u16, u16_at};
use reference::random::{marked_map, untold, Marks, Random};
use reference::reader::{Reader, Reference};
use reference::vectors::play_all;
use std::collections::{BTreeMap, BTreeSet};
use std::fmt::Debug;
use std::ops::Range;

const HISTORIES: u64 = 2_000;
/// The wrong ones are found out sooner.
const WRONG_HISTORIES: u64 = 40;
const EVENTS: usize = 40;
const MAPS: u64 = 1_200;
const DAYS: u64 = 300;
/// Requests after which something should no longer be missing.
const REQUESTS: usize = 500;
/// Calls in which a wrong fetch must show.
const CALLS: usize = 60_000;

/// How often something came.
type Seen = BTreeMap<&'static str, usize>;
/// Or what is wrong.
type Holds = Result<(), String>;

fn same<T: PartialEq + Debug>(what: &str, found: T, expected: T) -> Holds {
    if found == expected {
        return Ok(());
    }
    Err(format!("{what}: found {found:?}, expected {expected:?}"))
}

fn bit(map: &[u64], number: u16) -> bool {
    map[usize::from(number / 64)] >> (number % 64) & 1 == 1
}

/// What a tablet has beside its copy, and the calls on it.
struct Tablet<'a> {
    reader: &'a dyn Reader,
    map: Vec<u64>,
    told: Told,
}

impl Tablet<'_> {
    fn new(reader: &dyn Reader) -> Tablet<'_> {
        Tablet { reader, map: vec![0; 1_024], told: [0; 3] }
    }

    fn tell(&mut self, ends: Option<(u16, u16)>) -> Holds {
        let (any, (oldest, newest)) = (u8::from(ends.is_some()), ends.unwrap_or((7, 9)));
        let answer = self.reader.fetch_tell(&mut self.map, &mut self.told, any, oldest, newest);
        same("answer to telling", answer, 0)
    }

    fn take(&mut self, number: u16) -> Holds {
        let answer = self.reader.fetch_take(&mut self.map, &self.told, number);
        same("answer to taking in", answer, 0)
    }

    /// The first and the last number of what is proposed; none where nothing is missing.
    fn proposal(&self) -> Result<Option<(u16, u16)>, String> {
        let mut request = [0xAA; 7];
        let answer = self.reader.fetch_propose(&self.map, &self.told, &mut request);
        if answer == 0 {
            same("request where nothing is missing", request, [0xAA; 7])?;
            return Ok(None);
        }
        same("bytes of a request", answer, 7)?;
        same("what is asked for", &request[..3], &[1, 4, 1])?;
        Ok(Some((u16_at(&request, 3), u16_at(&request, 5))))
    }

    fn received(&self) -> i32 {
        self.reader.fetch_received(&self.map)
    }
}

/// A reader's log, by records that are counted from the first it ever logged.
struct Log {
    slots: u64,
    held: u64,
    next: u64,
}

impl Log {
    fn records(&self) -> Range<u64> {
        self.next - self.held..self.next
    }

    fn goes_on(&mut self, new: u64) {
        self.next += new;
        self.held = self.slots.min(self.held + new);
    }
}

/// Records are numbered modulo 65,536.
fn number(record: u64) -> u16 {
    record as u16
}

/// A log, a tablet that fetches from it, and what the promise says of the two.
struct History<'a> {
    random: Random,
    log: Log,
    tablet: Tablet<'a>,
    told: Range<u64>,
    /// "Taken in inside the told range", and "stayed inside it since".
    taken: BTreeSet<u64>,
    /// New since the last telling.
    new: u64,
}

impl History<'_> {
    fn new(reader: &dyn Reader, seed: u64) -> History<'_> {
        let mut random = Random::new(seed);
        let slots = random.pick(&[1, 2, 3, 63, 64, 130, 1_023]);
        let next = random.pick(&[0, 65_000, 65_400, 65_530, 131_000, 200_000]);
        let log = Log { slots, held: 0, next };
        let (tablet, taken) = (Tablet::new(reader), BTreeSet::new());
        History { random, log, tablet, told: 0..0, taken, new: 0 }
    }

    fn event(&mut self) -> Holds {
        match self.random.below(8) {
            0 | 1 => self.goes_on(),
            2 | 3 => self.tell()?,
            4 => self.take_around()?,
            5 | 6 => self.take_proposed()?,
            _ => self.take_any()?,
        }
        Ok(())
    }

    /// "Fewer than 64,000 new records between two fetches." Now and then a log loses some, or all.
    fn goes_on(&mut self) {
        let slots = self.log.slots;
        let new = self.random.pick(&[1, 1, 2, 3, slots / 2, slots, 1_000, 63_999]);
        let new = new.min(63_999 - self.new);
        self.log.goes_on(new);
        self.new += new;
        if self.random.one_in(12) {
            self.log.held = self.random.pick(&[0, self.log.held / 2]);
        }
    }

    fn tell(&mut self) -> Holds {
        self.told = self.log.records();
        self.taken.retain(|record| self.told.contains(record));
        self.new = 0;
        let last = self.told.clone().next_back();
        self.tablet.tell(last.map(|last| (number(self.told.start), number(last))))
    }

    /// The told record of this number is taken in, if there is one.
    fn take(&mut self, taken: u16) -> Holds {
        let record = self.told.clone().find(|record| number(*record) == taken);
        self.taken.extend(record);
        self.tablet.take(taken)
    }

    /// Told records, and those before the oldest and after the newest.
    fn take_around(&mut self) -> Holds {
        let told = (self.told.end - self.told.start) as u16;
        for _ in 0..1 + self.random.below(8) {
            let any = self.random.below(usize::from(told) + 1) as u16;
            let back = self.random.pick(&[0, 1, any, any, told, told + 1]);
            self.take(number(self.told.end).wrapping_sub(back))?;
        }
        Ok(())
    }

    fn take_any(&mut self) -> Holds {
        let any = self.random.number() as u16;
        self.take(any)
    }

    /// What is proposed, or the first of it.
    fn take_proposed(&mut self) -> Holds {
        let Some((first, last)) = self.tablet.proposal()? else {
            return Ok(());
        };
        let all = 1 + usize::from(last.wrapping_sub(first));
        let some = 1 + self.random.below(all);
        let taken = self.random.pick(&[all, some]).min(1_023);
        (0..taken as u16).try_for_each(|ahead| self.take(first.wrapping_add(ahead)))
    }

    /// "A bit is set exactly when its record was taken in inside the told range and has stayed inside
    /// it since." "The number received is the count of ones."
    fn holds(&self, seen: &mut Seen) -> Holds {
        let mut map = vec![0; 1_024];
        for taken in self.taken.iter().map(|record| number(*record)) {
            map[usize::from(taken / 64)] |= 1 << (taken % 64);
        }
        same("map", &self.tablet.map, &map)?;
        same("received", self.tablet.received(), self.taken.len() as i32)?;
        self.proposal_holds(seen)
    }

    /// "It then proposes the first run of held numbers not yet received, or says that nothing is
    /// missing exactly when that is so."
    fn proposal_holds(&self, seen: &mut Seen) -> Holds {
        let proposal = self.tablet.proposal()?;
        let is_taken = |record: &u64| self.taken.contains(record);
        let Some(first) = self.told.clone().find(|record| !is_taken(record)) else {
            let event = if self.told.is_empty() { "told none" } else { "nothing missing" };
            *seen.entry(event).or_default() += 1;
            return same("proposal", proposal, None);
        };
        let end = (first..self.told.end).find(is_taken).unwrap_or(self.told.end);
        let event = match end == self.told.end {
            _ if number(end - 1) < number(first) => "run over the roll",
            true => "run to the newest",
            false => "run to a received one",
        };
        *seen.entry(event).or_default() += 1;
        same("proposal", proposal, Some((number(first), number(end - 1))))
    }
}

fn holds_of_history(reader: &dyn Reader, seed: u64, seen: &mut Seen) -> Holds {
    let mut history = History::new(reader, seed);
    for _ in 0..EVENTS {
        history.event()?;
        history.holds(seen)?;
    }
    Ok(())
}

/// Any map, and anything told of it: each call does what is said of every one of the 65,536 numbers.
fn holds_of_map(reader: &dyn Reader, seed: u64) -> Holds {
    let mut random = Random::new(seed);
    let (oldest, ahead) = (random.number() as u16, some_span(&mut random));
    let newest = oldest.wrapping_add(ahead);
    let told = [random.pick(&[0, 1, 1, 1, 2, 256, 65_535]), oldest, newest];
    let map = some_map(&mut random, oldest, ahead);
    let tablet = || Tablet { reader, map: map.clone(), told };
    if map.len() != 1_024 {
        return refused(tablet());
    }
    proposal_holds(&tablet())?;
    let ones = (0..=u16::MAX).filter(|number| bit(&map, *number)).count();
    same("received", tablet().received(), ones as i32)?;
    let beside = random.pick(&[0, 0, 1, u16::MAX]);
    let some = random.pick(&[oldest, newest, newest.wrapping_sub(ahead / 2)]);
    taking_holds(tablet(), some.wrapping_add(beside))?;
    let again = random.pick(&[0, 1, 2, 255]);
    let later = [oldest, newest].map(|end| end.wrapping_add(random.below(200) as u16));
    telling_holds(tablet(), again, later)
}

/// How many numbers lie between the oldest and the newest.
fn some_span(random: &mut Random) -> u16 {
    let (held, any) = (random.below(1_023) as u16, random.number() as u16);
    random.pick(&[0, 1, 63, 64, held, held, any, 65_534, 65_535])
}

/// All received up to a number, or from there on, or neither, with some numbers the other way.
fn some_map(random: &mut Random, oldest: u16, ahead: u16) -> Vec<u64> {
    let some = random.number();
    let mut word = || random.pick(&[0, u64::MAX, some]);
    let (below, on) = (word(), word());
    let mut number = || oldest.wrapping_add(random.below(usize::from(ahead) + 2) as u16);
    let (from, turned) = (number(), vec![number(), number(), oldest, oldest.wrapping_add(ahead)]);
    let words = random.pick(&[1_024, 1_024, 1_024, 1_024, 1_024, 1_024, 0, 1, 1_023, 1_025]);
    let turned = turned[random.below(4)..].to_vec();
    marked_map(&Marks { words, below, from, on, turned })
}

/// 3, and nothing changes.
fn refused(tablet: Tablet) -> Holds {
    let Tablet { reader, map, told } = tablet;
    let (mut to_map, mut to_told, mut request) = (map.clone(), told, [0xAA; 7]);
    let answers = [
        reader.fetch_tell(&mut to_map, &mut to_told, 1, 5, 6),
        reader.fetch_propose(&map, &told, &mut request),
        reader.fetch_take(&mut to_map, &to_told, 5),
        reader.fetch_received(&map),
    ];
    same("answers", answers, [-3; 4])?;
    same("what a refusal leaves", (to_map, to_told, request), (map, told, [0xAA; 7]))
}

/// Is a number among what is told?
fn is_told([any, oldest, newest]: Told, number: u16) -> bool {
    any != 0 && number.wrapping_sub(oldest) <= newest.wrapping_sub(oldest)
}

/// The proposed run is told and not received, none before it is missing, and it can't be longer. A
/// place is how far a number lies from the oldest.
fn proposal_holds(tablet: &Tablet) -> Holds {
    let [_, oldest, _] = tablet.told;
    let is_missing = |place: &u16| {
        let number = oldest.wrapping_add(*place);
        is_told(tablet.told, number) && !bit(&tablet.map, number)
    };
    let Some((first, last)) = tablet.proposal()? else {
        return same("missing where nothing is", (0..=u16::MAX).find(is_missing), None);
    };
    let [first, last] = [first, last].map(|number| number.wrapping_sub(oldest));
    same("the first missing", (0..=u16::MAX).find(is_missing), Some(first))?;
    same("a run of missing ones", first <= last && (first..=last).all(|k| is_missing(&k)), true)?;
    same("missing after the run", last.checked_add(1).filter(is_missing), None)
}

fn taking_holds(mut tablet: Tablet, taken: u16) -> Holds {
    let before = tablet.map.clone();
    tablet.take(taken)?;
    let is_set = |number| bit(&before, number) || number == taken && is_told(tablet.told, number);
    same_bits("taken in", &tablet.map, is_set)
}

fn telling_holds(mut tablet: Tablet, any: u8, [oldest, newest]: [u16; 2]) -> Holds {
    let before = tablet.map.clone();
    let Tablet { reader, map, told } = &mut tablet;
    same("answer to telling", reader.fetch_tell(map, told, any, oldest, newest), 0)?;
    same("told", *told, if any == 0 { [0; 3] } else { [1, oldest, newest] })?;
    same_bits("told", map, |number| bit(&before, number) && is_told(*told, number))
}

fn same_bits(what: &str, map: &[u64], is_set: impl Fn(u16) -> bool) -> Holds {
    let other = (0..=u16::MAX).find(|number| bit(map, *number) != is_set(*number));
    same(what, other, None)
}

/// A reader, and a tablet that fetches from it over the air.
struct Air<'a> {
    random: Random,
    state: [u8; 32],
    table: Vec<u8>,
    tablet: Tablet<'a>,
    /// The numbers of the records that the reader handed over whole, in this order.
    handed: Vec<u16>,
}

impl Air<'_> {
    fn new(reader: &dyn Reader, seed: u64, slots: usize, next: u16) -> Air<'_> {
        let (mut state, mut table) = ([0; 32], vec![0; 16 + 64 * slots]);
        assert_eq!(reader.start(&mut state, &mut table), 0);
        // An empty table may have any next number.
        put_u16(&mut table, 8, next);
        let (random, tablet) = (Random::new(seed), Tablet::new(reader));
        let mut air = Air { random, state, table, tablet, handed: Vec::new() };
        air.connect();
        air
    }

    fn connect(&mut self) {
        let reader = self.tablet.reader;
        assert_eq!(reader.disconnect(&mut self.state), 0);
        assert_eq!(reader.switches(&mut self.state, 1, 1, 1), 0);
    }

    /// The clock is set so many times.
    fn log(&mut self, records: usize) {
        let write = [3, 0x43, 0, 0x00, 0x08, 0xAF, 0x2F, 4, 0, 2, 1];
        for _ in 0..records {
            let (state, table) = (&mut self.state, &mut self.table);
            assert_eq!(self.tablet.reader.dtcp_write(state, table, &write, &mut [0; 20]), 3);
        }
    }

    /// The next number comes from Device Time, how many are held from the Number of all records.
    fn tell(&mut self) -> Holds {
        let (reader, mut out) = (self.tablet.reader, [0; 20]);
        assert_eq!(reader.device_time(&self.state, &self.table, &mut out), 10);
        let next = u16_at(&out, 8);
        assert_eq!(reader.racp_write(&mut self.state, &self.table, &[4, 1], &mut out), 4);
        assert_eq!(out[..2], [5, 0]);
        let count = u16_at(&out, 2);
        let ends = (next.wrapping_sub(count), next.wrapping_sub(1));
        self.tablet.tell((count > 0).then_some(ends))
    }

    /// Asks for the run and takes in what comes of it, until the radio is lost after so many
    /// notifications. Where its first record is no longer held the reader finds none, and is asked
    /// anew what it holds.
    fn ask(&mut self, (first, last): (u16, u16), notifications: usize) -> Holds {
        let request = [&[1, 4, 1][..], &first.to_le_bytes(), &last.to_le_bytes()].concat();
        let (reader, mut out, mut joining) = (self.tablet.reader, [0; 244], [0; 48]);
        if reader.racp_write(&mut self.state, &self.table, &request, &mut out) != 0 {
            same("response", &out[..4], &[6, 0, 1, 6])?;
            return self.tell();
        }
        for _ in 0..notifications {
            let answer = reader.notify(&mut self.state, &self.table, 20, &mut out);
            if answer >= CLOSING {
                break;
            }
            let length = reader.join(&mut joining, &out[..answer as usize]);
            if length > 0 {
                self.come(&joining[3..3 + length as usize])?;
            }
        }
        self.connect();
        Ok(())
    }

    fn come(&mut self, record: &[u8]) -> Holds {
        let mut fields = [0; 11];
        assert_eq!(self.tablet.reader.read(record, &mut fields), 0);
        let number = fields[0] as u16;
        self.handed.push(number);
        self.tablet.take(number)
    }

    /// Fetches what is missing, with a radio that is lost after so many notifications or some more.
    fn fetch(&mut self, notifications: usize) -> Holds {
        self.tell()?;
        for _ in 0..REQUESTS {
            let Some(run) = self.tablet.proposal()? else {
                return Ok(());
            };
            if self.random.one_in(8) {
                self.log(1);
            }
            let more = self.random.below(8);
            self.ask(run, notifications + more)?;
        }
        Err("something is always missing".to_string())
    }
}

/// Whatever happens to the radio and to the log, no record comes twice in a day; and when nothing is
/// missing, those told have all come.
fn holds_of_day(reader: &dyn Reader, seed: u64, seen: &mut Seen) -> Holds {
    let mut random = Random::new(seed);
    let (slots, next) = (random.pick(&[1, 2, 3, 20, 70]), random.pick(&[0, 65_535, 65_500, 60]));
    let mut air = Air::new(reader, seed, slots, next);
    for _ in 0..4 {
        air.log(random.pick(&[0, 0, 1, 2, slots / 2, slots, slots + 1]));
        let lost = random.pick(&[2, 3, 7, 1_000]);
        let before = air.handed.len();
        air.fetch(lost)?;
        let came: BTreeSet<u16> = air.handed.iter().copied().collect();
        same("records that came", came.len(), air.handed.len())?;
        let told = (0..=u16::MAX).filter(|number| is_told(air.tablet.told, *number));
        same("told, and did not come", told.filter(|number| !came.contains(number)).count(), 0)?;
        let fetched = if before == air.handed.len() { "nothing came" } else { "records came" };
        *seen.entry(fetched).or_default() += 1;
    }
    Ok(())
}

/// Each of these came often, and nothing else did.
fn came(seen: &Seen, events: &[&'static str], least: usize) {
    println!("{seen:?}");
    assert_eq!(BTreeSet::from_iter(seen.keys()), BTreeSet::from_iter(events));
    assert!(seen.values().all(|count| *count >= least));
}

/// The first seed with which a promise does not hold, and why.
fn broken(seeds: u64, mut holds: impl FnMut(u64) -> Holds) -> Option<(u64, String)> {
    (1..=seeds).find_map(|seed| holds(seed).err().map(|why| (seed, why)))
}

#[test]
fn a_bit_is_set_exactly_when_its_record_was_taken_in_and_stayed() {
    let (reader, mut seen) = (Reference::new(), Seen::new());
    assert_eq!(broken(HISTORIES, |seed| holds_of_history(&reader, seed, &mut seen)), None);
    let runs = ["run over the roll", "run to the newest", "run to a received one"];
    came(&seen, &[&["told none", "nothing missing"][..], &runs].concat(), 400);
}

#[test]
fn every_number_of_any_map_is_treated_as_told() {
    assert_eq!(broken(MAPS, |seed| holds_of_map(&Reference::new(), seed)), None);
}

#[test]
fn no_record_comes_twice_in_a_day() {
    let (reader, mut seen) = (Reference::new(), Seen::new());
    assert_eq!(broken(DAYS, |seed| holds_of_day(&reader, seed, &mut seen)), None);
    came(&seen, &["nothing came", "records came"], 200);
}

/// Two fetches, by hand: of four slots the first has records 65,534 to 0, the second 65,535 to 2.
#[test]
fn the_second_fetch_asks_for_what_is_new() {
    let reader = Reference::new();
    let mut air = Air::new(&reader, 1, 4, 65_534);
    air.log(3);
    air.tell().unwrap();
    assert_eq!(air.tablet.proposal(), Ok(Some((65_534, 0))));
    air.ask((65_534, 0), 1_000).unwrap();
    assert_eq!(air.tablet.proposal(), Ok(None));
    air.log(2);
    air.tell().unwrap();
    assert_eq!(air.tablet.received(), 2);
    assert_eq!(air.tablet.proposal(), Ok(Some((1, 2))));
    air.ask((1, 2), 1_000).unwrap();
    assert_eq!(air.tablet.proposal(), Ok(None));
    assert_eq!(air.handed, [65_534, 65_535, 0, 1, 2]);
    assert_eq!(air.tablet.received(), 4);
}

/// A tablet that has received records 0 to 1,022, all that were held.
fn with_1_023(reader: &dyn Reader) -> Tablet<'_> {
    let mut tablet = Tablet::new(reader);
    tablet.tell(Some((0, 1_022))).unwrap();
    (0..1_023).for_each(|number| tablet.take(number).unwrap());
    assert_eq!(tablet.proposal(), Ok(None));
    tablet
}

/// Why fewer than 64,000, and how near that is. After 64,513 new records 64,513 to 65,535 are held. One
/// more, and it has the number of the oldest that was held before: record 65,536 counts as received.
#[test]
fn a_number_is_used_again_after_64_514_new_records() {
    let reader = Reference::new();
    let mut tablet = with_1_023(&reader);
    tablet.tell(Some((64_513, 65_535))).unwrap();
    assert_eq!(tablet.proposal(), Ok(Some((64_513, 65_535))));
    assert_eq!(tablet.received(), 0);
    let mut tablet = with_1_023(&reader);
    tablet.tell(Some((64_514, 0))).unwrap();
    assert_eq!(tablet.proposal(), Ok(Some((64_514, 65_535))));
    assert_eq!(tablet.received(), 1);
}

/// There is no other fetch that keeps the promises, as far as the wrong ones go. Histories have ranges
/// of 1,023 numbers at most, whose newest never goes back, told by 1 or 0: what is wrong only elsewhere
/// shows on any map.
#[test]
fn what_is_promised_shuts_out_wrong_fetches() {
    let elsewhere = [
        "1 for 3",
        "20 for 3",
        "only 1 tells of any",
        "what tells of any is kept as it is",
        "told none, the numbers are kept",
        "only 1 is a range",
        "a range by its lower byte",
        "all numbers are none",
        "the oldest 1,023 are told",
        "bits after the newest stay in its word",
        "counted in 16 bits",
    ];
    for (name, reader) in wrong_fetches() {
        let seen = &mut Seen::new();
        let broken_history = broken(WRONG_HISTORIES, |seed| holds_of_history(&reader, seed, seen));
        let broken_map = broken(MAPS, |seed| holds_of_map(&reader, seed));
        println!("{name}: {broken_history:?} {broken_map:?}");
        assert_eq!(broken_history.is_none(), elsewhere.contains(&name), "{name}");
        assert!(broken_map.is_some(), "{name}");
    }
}

#[test]
fn the_vectors_notice_every_wrong_fetch() {
    let passes = |reader: &Reference| play_all(reader).failures.is_empty();
    let missed = wrong_fetches().into_iter().filter(|(_, reader)| passes(reader));
    assert_eq!(missed.map(|(name, _)| name).collect::<Vec<_>>(), [""; 0]);
}

#[test]
fn the_calls_notice_every_wrong_fetch() {
    assert_eq!(untold(&Reference::new(), wrong_fetches(), 1, CALLS), [""; 0]);
}
