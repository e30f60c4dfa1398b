//! Tables put together byte by byte, for cases worked by hand.

pub const FAULT: u8 = 0;
pub const UPDATE: u8 = 1;
/// The ends of Base_Time's range, 2,524,607,999 seconds apart.
pub const FIRST: u32 = 631_152_000;
pub const LAST: u32 = 3_155_759_999;

/// A full table: type, zone byte and DST, new base and old base of each record.
pub fn full_table(records: &[(u8, [u8; 2], [u32; 2])]) -> Vec<u8> {
    let count = (records.len() as u16).to_le_bytes();
    let mut bytes = [count, count, [16, 0], [0, 0], count].concat();
    bytes.resize(16, 0);
    for (number, (kind, [zone, dst], bases)) in (0u16..).zip(records) {
        let [low, high] = number.to_le_bytes();
        let mut slot = vec![20, low, high, *kind, 0, 0, 0, 0x16, 0, 0x16, 0, 0, 0];
        if *kind == UPDATE {
            slot[0] = 24;
            slot.extend([*zone, *dst, 0x02, 0x01]);
        }
        slot.extend(bases.map(u32::to_le_bytes).concat());
        slot.resize(64, 0);
        bytes.extend(slot);
    }
    bytes
}
