//! The proved archive as a reader. It is code for another processor than this one may be, so it
//! runs in a program of its own, tests/c/pipe.c, and calls go to it through a
//! pipe: every lent buffer there and back, so that nothing of a call is left to that program.

use crate::fetch::{Request, Told};
use crate::ramp::{Part, Sightings, Tables};
use crate::reader::Reader;
use crate::record::Fields;
use std::cell::RefCell;
use std::io::{self, BufReader, Read, Write};
use std::process::{Child, ChildStdin, ChildStdout, Command, Stdio};

/// Answers that no reader gives: the program ended in the call, or a buffer that the call may
/// only read has changed. The comparison shows them as any other difference.
pub const ENDED: i32 = i32::MIN;
pub const CHANGED_WHAT_IT_READS: i32 = i32::MIN + 1;

/// A function's place in pipe.c's list.
#[derive(Clone, Copy)]
enum Function {
    Start,
    Seconds,
    Switches,
    Disconnect,
    Fault,
    DtcpWrite,
    RacpWrite,
    Notify,
    Join,
    Read,
    Keep,
    Carry,
    DeviceTime,
    Feature,
    Parameters,
    AttError,
    Salvage,
    OneBeast,
    NewestUpdate,
    FetchTell,
    FetchPropose,
    FetchTake,
    FetchReceived,
}

enum Argument<'a> {
    Number(u32),
    Shown(&'a [u8]),
    Lent(&'a mut [u8]),
}

pub struct Archive {
    command: Vec<String>,
    link: RefCell<Link>,
}

struct Link {
    child: Child,
    to: Option<ChildStdin>,
    from: BufReader<ChildStdout>,
}

impl Link {
    fn new(command: &[String]) -> io::Result<Link> {
        let (program, arguments) = command.split_first().ok_or(io::ErrorKind::InvalidInput)?;
        let mut child = Command::new(program)
            .args(arguments)
            .stdin(Stdio::piped())
            .stdout(Stdio::piped())
            .spawn()?;
        let to = child.stdin.take();
        let from = BufReader::new(child.stdout.take().ok_or(io::ErrorKind::BrokenPipe)?);
        Ok(Link { child, to, from })
    }

    fn exchange(&mut self, function: Function, arguments: &mut [Argument]) -> io::Result<i32> {
        let to = self.to.as_mut().ok_or(io::ErrorKind::BrokenPipe)?;
        to.write_all(&request(function, arguments))?;
        let mut answer = i32::from_le_bytes(self.bytes()?);
        for argument in arguments {
            match argument {
                Argument::Number(_) => {}
                Argument::Lent(bytes) => drop(self.take_back(bytes)?),
                Argument::Shown(bytes) => {
                    if self.take_back(&mut bytes.to_vec())? {
                        answer = CHANGED_WHAT_IT_READS;
                    }
                }
            }
        }
        Ok(answer)
    }

    /// What stands in a buffer after the call; whether it is something else than before.
    fn take_back(&mut self, bytes: &mut [u8]) -> io::Result<bool> {
        let changed = self.bytes()? != [0];
        if changed {
            self.from.read_exact(bytes)?;
        }
        Ok(changed)
    }

    fn bytes<const LENGTH: usize>(&mut self) -> io::Result<[u8; LENGTH]> {
        let mut bytes = [0; LENGTH];
        self.from.read_exact(&mut bytes)?;
        Ok(bytes)
    }
}

/// The program ends with its input.
impl Drop for Link {
    fn drop(&mut self) {
        drop(self.to.take());
        let _ = self.child.wait();
    }
}

fn request(function: Function, arguments: &[Argument]) -> Vec<u8> {
    let mut request = vec![function as u8];
    for argument in arguments {
        let bytes: &[u8] = match argument {
            Argument::Number(number) => {
                request.extend(number.to_le_bytes());
                continue;
            }
            Argument::Shown(bytes) => bytes,
            Argument::Lent(bytes) => bytes,
        };
        request.extend((bytes.len() as u32).to_le_bytes());
        request.extend(bytes);
    }
    request
}

impl Archive {
    /// Starts the program: its path, then its arguments.
    pub fn new(command: Vec<String>) -> io::Result<Archive> {
        let link = RefCell::new(Link::new(&command)?);
        Ok(Archive { command, link })
    }

    /// A program that has ended is started anew, so that a sequence can be cut down further.
    fn call(&self, function: Function, arguments: &mut [Argument]) -> i32 {
        let answer = self.link.borrow_mut().exchange(function, arguments);
        answer.unwrap_or_else(|_| {
            let link = Link::new(&self.command).expect("the program was started before");
            *self.link.borrow_mut() = link;
            ENDED
        })
    }
}

use Argument::{Lent, Number, Shown};

impl Reader for Archive {
    fn start(&self, state: &mut [u8], table: &mut [u8]) -> i32 {
        self.call(Function::Start, &mut [Lent(state), Lent(table)])
    }

    fn seconds(&self, state: &mut [u8], n: u32) -> i32 {
        self.call(Function::Seconds, &mut [Lent(state), Number(n)])
    }

    fn switches(&self, state: &mut [u8], dtcp: u8, racp: u8, log: u8) -> i32 {
        let [dtcp, racp, log] = [dtcp, racp, log].map(|switch| Number(switch.into()));
        self.call(Function::Switches, &mut [Lent(state), dtcp, racp, log])
    }

    fn disconnect(&self, state: &mut [u8]) -> i32 {
        self.call(Function::Disconnect, &mut [Lent(state)])
    }

    fn fault(&self, state: &mut [u8], table: &mut [u8], out: &mut [u8]) -> i32 {
        self.call(Function::Fault, &mut [Lent(state), Lent(table), Lent(out)])
    }

    fn dtcp_write(&self, state: &mut [u8], table: &mut [u8], write: &[u8], out: &mut [u8]) -> i32 {
        let arguments = &mut [Lent(state), Lent(table), Shown(write), Lent(out)];
        self.call(Function::DtcpWrite, arguments)
    }

    fn racp_write(&self, state: &mut [u8], table: &[u8], write: &[u8], out: &mut [u8]) -> i32 {
        let arguments = &mut [Lent(state), Shown(table), Shown(write), Lent(out)];
        self.call(Function::RacpWrite, arguments)
    }

    fn notify(&self, state: &mut [u8], table: &[u8], p: u32, out: &mut [u8]) -> i32 {
        self.call(Function::Notify, &mut [Lent(state), Shown(table), Number(p), Lent(out)])
    }

    fn join(&self, joining: &mut [u8], notification: &[u8]) -> i32 {
        self.call(Function::Join, &mut [Lent(joining), Shown(notification)])
    }

    fn read(&self, bytes: &[u8], fields: &mut Fields) -> i32 {
        let mut lent = lent_numbers(fields);
        let answer = self.call(Function::Read, &mut [Shown(bytes), Lent(&mut lent)]);
        take_numbers(fields, &lent);
        answer
    }

    fn keep(&self, table: &mut [u8], bytes: &[u8]) -> i32 {
        self.call(Function::Keep, &mut [Lent(table), Shown(bytes)])
    }

    fn carry(&self, stamp: u32, q: u16, table: &[u8], carried: &mut i64) -> i32 {
        let mut lent = carried.to_le_bytes();
        let arguments = &mut [Number(stamp), Number(q.into()), Shown(table), Lent(&mut lent)];
        let answer = self.call(Function::Carry, arguments);
        *carried = i64::from_le_bytes(lent);
        answer
    }

    fn device_time(&self, state: &[u8], table: &[u8], out: &mut [u8]) -> i32 {
        self.call(Function::DeviceTime, &mut [Shown(state), Shown(table), Lent(out)])
    }

    fn feature(&self, out: &mut [u8]) -> i32 {
        self.call(Function::Feature, &mut [Lent(out)])
    }

    fn parameters(&self, out: &mut [u8]) -> i32 {
        self.call(Function::Parameters, &mut [Lent(out)])
    }

    fn att_error(&self, number: u32) -> i32 {
        self.call(Function::AttError, &mut [Number(number)])
    }

    fn salvage(&self, input: &[u8], table: &mut [u8], report: &mut [u8]) -> i32 {
        self.call(Function::Salvage, &mut [Shown(input), Lent(table), Lent(report)])
    }

    fn one_beast(
        &self,
        [left, right]: Tables,
        sightings: Sightings,
        window: u32,
        side: &mut u32,
    ) -> i32 {
        let [of_left, of_right] = sightings.map(|s| [s.base, s.stamp, s.next.into()].map(Number));
        let mut lent = side.to_le_bytes();
        let mut arguments: Vec<Argument> = vec![Shown(left)];
        arguments.extend(of_left);
        arguments.push(Shown(right));
        arguments.extend(of_right);
        arguments.extend([Number(window), Lent(&mut lent)]);
        let answer = self.call(Function::OneBeast, &mut arguments);
        *side = u32::from_le_bytes(lent);
        answer
    }

    fn newest_update(&self, [left, right]: Tables, part: &mut Part) -> i32 {
        let mut lent = lent_numbers(part);
        let arguments = &mut [Shown(left), Shown(right), Lent(&mut lent)];
        let answer = self.call(Function::NewestUpdate, arguments);
        take_numbers(part, &lent);
        answer
    }

    fn fetch_tell(
        &self,
        map: &mut [u64],
        told: &mut Told,
        any: u8,
        oldest: u16,
        newest: u16,
    ) -> i32 {
        let (mut words, mut range) = (lent_numbers(map), lent_numbers(told));
        let mut arguments = vec![Lent(&mut words), Lent(&mut range)];
        arguments.extend([any.into(), oldest, newest].map(|number| Number(number.into())));
        let answer = self.call(Function::FetchTell, &mut arguments);
        take_numbers(map, &words);
        take_numbers(told, &range);
        answer
    }

    fn fetch_propose(&self, map: &[u64], told: &Told, request: &mut Request) -> i32 {
        let (words, range) = (lent_numbers(map), lent_numbers(told));
        self.call(Function::FetchPropose, &mut [Shown(&words), Shown(&range), Lent(request)])
    }

    fn fetch_take(&self, map: &mut [u64], told: &Told, number: u16) -> i32 {
        let (mut words, range) = (lent_numbers(map), lent_numbers(told));
        let arguments = &mut [Lent(&mut words), Shown(&range), Number(number.into())];
        let answer = self.call(Function::FetchTake, arguments);
        take_numbers(map, &words);
        answer
    }

    fn fetch_received(&self, map: &[u64]) -> i32 {
        self.call(Function::FetchReceived, &mut [Shown(&lent_numbers(map))])
    }
}

/// Numbers as the bytes that are lent, of each as many as its type has.
fn lent_numbers<N: Copy + Into<u64>>(numbers: &[N]) -> Vec<u8> {
    let bytes = |number: &N| (*number).into().to_le_bytes().into_iter().take(size_of::<N>());
    numbers.iter().flat_map(bytes).collect()
}

fn take_numbers<N: TryFrom<u64>>(numbers: &mut [N], lent: &[u8]) {
    for (number, bytes) in numbers.iter_mut().zip(lent.chunks_exact(size_of::<N>())) {
        let value = bytes.iter().rev().fold(0, |value, byte| value << 8 | u64::from(*byte));
        *number = N::try_from(value).ok().expect("as many bytes as it has");
    }
}
