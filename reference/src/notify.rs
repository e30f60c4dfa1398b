//! Notifications: one segment of the running report, or its closing response.

use crate::access;
use crate::clock::{Clock, Left, Report};
use crate::image;
use crate::numbers::Numbers;
use crate::refusal::Refusal;
use crate::table::Log;

/// Added to the answer where the bytes close the report: by their bytes alone, `06 00 01 01`
/// and a segment with header 06 can't be told apart.
pub const CLOSING: i32 = 256;

/// The next notification of a running report. Refuses 1, 2 (whole), 3, 8. Switches don't
/// matter: a report goes on without them.
pub fn notify(
    numbers: &Numbers,
    state: &mut [u8],
    table: &[u8],
    p: u32,
    out: &mut [u8],
) -> Result<i32, Refusal> {
    let (clock, log) = image::clock_and_log(numbers, state, table)?;
    let payload = payload(numbers, p, out)?;
    let report = clock.report.ok_or(Refusal::NoReport)?;
    let (after, answer) = match report.left {
        None => (None, CLOSING + access::respond(out, &closing(numbers, &log, &report))),
        Some(left) => {
            let (after, length) = send(numbers, &log, &report, left, &mut out[..payload]);
            (Some(after), length as i32)
        }
    };
    image::put_clock(state, &Clock { report: after, ..clock });
    Ok(answer)
}

/// Row 3, also where only a closing response is due.
fn payload(numbers: &Numbers, p: u32, out: &[u8]) -> Result<usize, Refusal> {
    let payload = p as usize;
    if !(numbers.smallest_payload..=numbers.largest_payload).contains(&p) || out.len() < payload {
        return Err(Refusal::OutputTooShort);
    }
    Ok(payload)
}

fn closing(numbers: &Numbers, log: &Log, report: &Report) -> [u8; 4] {
    if report.opcode == access::COMBINED_REPORT {
        access::combined_response(access::count(numbers, log, report.filter))
    } else {
        access::response(report.opcode, access::SUCCESS)
    }
}

/// Writes header and body, and says what the report is afterwards and how many bytes were
/// written. The body is what is unsent, up to P - 1 bytes: never empty, since row 2 asks for
/// bytes unsent.
fn send(
    numbers: &Numbers,
    log: &Log,
    report: &Report,
    left: Left,
    payload: &mut [u8],
) -> (Report, usize) {
    let age = log.age_of(numbers, left.sequence).expect("row 2: the next record is held");
    let unsent = &log.record(age)[usize::from(left.sent)..];
    let body = &unsent[..unsent.len().min(payload.len() - 1)];
    let is_last = body.len() == unsent.len();

    payload[0] = header(numbers, left.sent == 0, is_last, report.counter);
    payload[1..1 + body.len()].copy_from_slice(body);

    let after = Report {
        counter: numbers.counter_after(report.counter),
        left: if is_last {
            access::left_from(numbers, log, report.filter, age + 1)
        } else {
            Some(Left { sent: left.sent + body.len() as u8, ..left })
        },
        ..*report
    };
    (after, 1 + body.len())
}

/// "Bit 0 first, bit 1 last, bits 2-7 a counter."
fn header(numbers: &Numbers, is_first: bool, is_last: bool, counter: u8) -> u8 {
    let bit = |set: bool, bit: u8| if set { bit } else { 0 };
    bit(is_first, numbers.first_bit) | bit(is_last, numbers.last_bit) | counter << 2
}
