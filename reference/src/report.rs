//! The lines of a whole report as it goes over the air, made with nothing but a reader's public
//! calls, so that the report of any reader can be compared with the samples.

use crate::image::STATE_BYTES;
use crate::notify::CLOSING;
use crate::numbers::PAPER;
use crate::reader::Reader;
use crate::table::{HEADER_BYTES, SLOT_BYTES};

/// All records, as a report and as a combined one.
pub const ALL_RECORDS: [u8; 2] = [0x01, 0x01];
pub const COMBINED: [u8; 2] = [0x07, 0x01];

/// One notification a line in hexadecimal, at last `closes` and the closing response. The sizes
/// are those of the notifications in turn, the last one's of all that follow. Where nothing is
/// held no report runs: `answers` and the response to the request. A refusal ends it.
pub fn report(reader: &dyn Reader, table: &[u8], request: &[u8], sizes: &[u32]) -> String {
    let (mut state, mut out) = (started(reader), [0; PAPER.largest_payload as usize]);
    let answer = reader.racp_write(&mut state, table, request, &mut out);
    if answer != 0 {
        return line("answers ", answer, &out);
    }
    let mut lines = String::new();
    let mut asked = 0;
    loop {
        let p = sizes[asked.min(sizes.len() - 1)];
        asked += 1;
        let answer = reader.notify(&mut state, table, p, &mut out);
        if !(1..CLOSING).contains(&answer) {
            return lines + &line("closes ", answer % CLOSING, &out);
        }
        lines += &line("", answer, &out);
    }
}

/// The state of a new reader with all switches on. Its own table is put aside.
fn started(reader: &dyn Reader) -> [u8; STATE_BYTES] {
    let mut state = [0; STATE_BYTES];
    reader.start(&mut state, &mut [0; HEADER_BYTES + SLOT_BYTES]);
    reader.switches(&mut state, 1, 1, 1);
    state
}

/// The word and so many bytes, or the refusal.
fn line(word: &str, answer: i32, out: &[u8]) -> String {
    if answer < 0 {
        return format!("refused {}\n", -answer);
    }
    let bytes = out.iter().take(answer as usize);
    format!("{word}{}\n", bytes.map(|byte| format!("{byte:02x}")).collect::<String>())
}
