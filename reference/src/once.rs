//! "Every record once" (change request E11), seen from outside: the books of somebody who hears a
//! reader's answers and knows the table that was lent to it. They are written from the words, so
//! matching and joining are their own here.
//!
//! "A report left to finish hands over every matching held record exactly once, oldest first, and
//! nothing else. One ended by an abort, a fault or a disconnect handed over whole records that are
//! the first so many of that list, with at most one unfinished record after them."

use crate::notify::CLOSING;
use crate::numbers::PAPER;
use crate::octets::{u16_at, u32_at};
use crate::world::{Call, World};

/// The response to an Abort that ends a report.
const ABORTED: [u8; 4] = [6, 0, 3, 1];

#[derive(Clone, Copy, Debug, PartialEq, Eq, PartialOrd, Ord)]
pub enum Ending {
    Closed,
    Aborted,
    Faulted,
    Disconnected,
    /// The start call made a new reader of the buffers.
    Restarted,
}

/// What is wrong with what was heard.
#[derive(Clone, Copy, Debug, PartialEq, Eq, PartialOrd, Ord)]
pub enum Complaint {
    /// A segment or a closing response comes while no report runs; how the last one ended.
    WhileNoneRuns(Option<Ending>),
    /// A report begins while another one runs.
    BegunInside,
    /// A report runs, and a notification rightly asked for doesn't come: it would never finish.
    Unanswered,
    /// A segment has no body.
    Empty,
    /// A counter isn't the one before plus 1, or the first one isn't 0.
    Counter,
    /// A first bit inside a record, or none where one begins.
    FirstBit,
    /// Bytes that the record which is next in the list doesn't have there.
    OtherBytes,
    /// All of a record came, but no last bit.
    NoLastBit,
    /// More came than the list has.
    Beyond,
    /// The report closed, and not all of the list had come.
    LeftOut,
    /// A number came twice, or after a younger one.
    NotOnce,
}

/// A report from its request to its ending.
#[derive(Clone, Debug, Default)]
pub struct Course {
    pub request: Vec<u8>,
    /// The matching held records when it began, oldest first.
    pub list: Vec<Vec<u8>>,
    /// The number of the oldest held record then: ages are counted from it.
    pub oldest: u16,
    /// The segments that came while it ran, and P of each.
    pub segments: Vec<Vec<u8>>,
    pub sizes: Vec<u32>,
    /// None while it runs.
    pub ending: Option<Ending>,
    /// Which calls of its history began and ended it.
    pub begun: usize,
    pub ended: usize,
}

/// What segments amount to.
#[derive(Clone, Debug, Default, PartialEq, Eq)]
pub struct Handed {
    pub whole: Vec<Vec<u8>>,
    /// The bytes of a record whose last segment hasn't come; mostly none.
    pub unfinished: Vec<u8>,
}

/// Of one history.
#[derive(Default)]
pub struct Books {
    /// The reports that are over.
    pub over: Vec<Course>,
    pub complaints: Vec<Complaint>,
    running: Option<Course>,
    calls: usize,
}

impl Books {
    pub fn is_running(&self) -> bool {
        self.running.is_some()
    }

    /// Enters a call by its answer; the world is the one it left. No request changes the table,
    /// so that is the one it was asked of.
    pub fn enter(&mut self, call: &Call, answer: i32, after: &World) {
        self.calls += 1;
        match call {
            Call::RacpWrite(write) if answer == 0 && matches!(write[..], [1 | 7, ..]) => {
                self.begin(write, &after.table);
            }
            Call::RacpWrite(_) if answer == 4 && after.out.starts_with(&ABORTED) => {
                self.end(Some(Ending::Aborted));
            }
            Call::Fault if answer >= 0 => self.end(Some(Ending::Faulted)),
            Call::Disconnect if answer == 0 => self.end(Some(Ending::Disconnected)),
            Call::Start if answer == 0 => self.end(Some(Ending::Restarted)),
            Call::Notify(p) => self.notified(*p, answer, after),
            _ => {}
        }
    }

    /// The history is over; a report may still run.
    pub fn close(&mut self) {
        self.end(None);
    }

    fn begin(&mut self, request: &[u8], table: &[u8]) {
        if self.is_running() {
            self.complaints.push(Complaint::BegunInside);
            self.end(None);
        }
        let held = held(table);
        let oldest = held.first().map_or(0, |record| number(record));
        self.running = Some(Course {
            request: request.to_vec(),
            list: matching(request, &held, oldest),
            oldest,
            begun: self.calls,
            ..Course::default()
        });
    }

    fn notified(&mut self, p: u32, answer: i32, after: &World) {
        let Some(running) = &mut self.running else {
            if answer > 0 {
                let last = self.over.last().and_then(|course| course.ending);
                self.complaints.push(Complaint::WhileNoneRuns(last));
            }
            return;
        };
        if answer >= CLOSING {
            self.end(Some(Ending::Closed));
        } else if answer > 0 {
            running.segments.push(after.segment.clone());
            running.sizes.push(p);
        } else if (PAPER.smallest_payload..=PAPER.largest_payload).contains(&p)
            && after.out.len() >= p as usize
        {
            self.complaints.push(Complaint::Unanswered);
        }
    }

    /// What ends a report may come where none runs: then it ends nothing.
    fn end(&mut self, ending: Option<Ending>) {
        let Some(running) = self.running.take() else {
            return;
        };
        let course = Course { ending, ended: self.calls, ..running };
        self.complaints.extend(course.handed().err());
        self.over.push(course);
    }
}

impl Course {
    /// What it handed over, or what is wrong with that.
    pub fn handed(&self) -> Result<Handed, Complaint> {
        let handed = joined(&self.segments)?;
        self.first_of_the_list(&handed)?;
        if self.ending == Some(Ending::Closed) && handed.whole.len() < self.list.len() {
            return Err(Complaint::LeftOut);
        }
        if !self.ages_rise(&handed.whole) {
            return Err(Complaint::NotOnce);
        }
        Ok(handed)
    }

    /// "Whole records that are the first so many of that list, with at most one unfinished record
    /// after them": that one is the next, and not all of it came. So none is unfinished after the
    /// last of the list.
    fn first_of_the_list(&self, handed: &Handed) -> Result<(), Complaint> {
        let Handed { whole, unfinished } = handed;
        if !self.list.starts_with(whole) {
            let more = whole.starts_with(&self.list);
            return Err(if more { Complaint::Beyond } else { Complaint::OtherBytes });
        }
        match self.list.get(whole.len()) {
            _ if unfinished.is_empty() => Ok(()),
            None => Err(Complaint::Beyond),
            Some(next) if next == unfinished => Err(Complaint::NoLastBit),
            Some(next) if next.starts_with(unfinished) => Ok(()),
            Some(_) => Err(Complaint::OtherBytes),
        }
    }

    /// "Exactly once, oldest first", by the numbers alone.
    fn ages_rise(&self, whole: &[Vec<u8>]) -> bool {
        let age = |record| number(record).wrapping_sub(self.oldest);
        whole.windows(2).all(|two| age(&two[0]) < age(&two[1]))
    }
}

/// Each begins with its number.
fn number(record: &[u8]) -> u16 {
    u16_at(record, 0)
}

/// The held records, oldest first.
pub fn held(table: &[u8]) -> Vec<Vec<u8>> {
    let slots = usize::from(u16_at(table, 0));
    let oldest = (u32_at(table, 4) as usize - 16) / 64;
    let slot = |age: usize| &table[16 + 64 * ((oldest + age) % slots)..][..64];
    let record = |age: usize| slot(age)[1..1 + usize::from(slot(age)[0])].to_vec();
    (0..usize::from(u16_at(table, 2))).map(record).collect()
}

/// Those of them that a request takes. "A value stands for a place by age: (value - oldest number)
/// mod 65,536. It is held where that is below H. A value that isn't held matches nothing, and
/// nothing lies between a v and an older w."
fn matching(request: &[u8], held: &[Vec<u8>], oldest: u16) -> Vec<Vec<u8>> {
    let place = |low: u8, high: u8| {
        let place = u16::from_le_bytes([low, high]).wrapping_sub(oldest);
        (usize::from(place) < held.len()).then_some(usize::from(place))
    };
    let newest = held.len().checked_sub(1);
    let (first, last) = match *request {
        [_, 1] => (Some(0), newest),
        [_, 2, 1, low, high] => (Some(0), place(low, high)),
        [_, 3, 1, low, high] => (place(low, high), newest),
        [_, 4, 1, low, high, to_low, to_high] => (place(low, high), place(to_low, to_high)),
        [_, 5] => (Some(0), Some(0)),
        [_, 6] => (newest, newest),
        _ => (None, None),
    };
    let taken = first.zip(last).and_then(|(first, last)| held.get(first..=last));
    taken.unwrap_or_default().to_vec()
}

/// By first and last bits alone: what a record is, is not asked here.
fn joined(segments: &[Vec<u8>]) -> Result<Handed, Complaint> {
    let Handed { mut whole, mut unfinished } = Handed::default();
    for (sent, segment) in segments.iter().enumerate() {
        let [header, body @ ..] = &segment[..] else {
            return Err(Complaint::Empty);
        };
        let (first, last, counter) = (header & 1 != 0, header & 2 != 0, usize::from(header >> 2));
        if body.is_empty() {
            return Err(Complaint::Empty);
        }
        if counter != sent % 64 {
            return Err(Complaint::Counter);
        }
        if first != unfinished.is_empty() {
            return Err(Complaint::FirstBit);
        }
        unfinished.extend(body);
        if last {
            whole.push(std::mem::take(&mut unfinished));
        }
    }
    Ok(Handed { whole, unfinished })
}
