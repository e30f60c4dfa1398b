//! "Refusal numbers, tested in this order."

#[derive(Clone, Copy, Debug, PartialEq, Eq)]
pub enum Refusal {
    TableNotSound = 1,
    ClockBreaksARule = 2,
    /// Of change request E10 too, a map of another number of words.
    OutputTooShort = 3,
    WriteLength = 4,
    SwitchedOff = 5,
    ReportRunning = 6,
    PastLastBaseTime = 7,
    NoReport = 8,
    // There is no 9.
    SegmentRefused = 10,
    NotARecord = 11,
    LaterRecordNotHeld = 12,
    FaultAmongThem = 13,
    // Of change request E5, the ramp.
    WindowTooWide = 18,
    NoUpdateHeld = 19,
    // Of change request E9, salvage.
    SizeOfNoTable = 20,
    NoRecord = 21,
    // Not the paper's, but of the call that it leaves to us: keeping.
    DoesNotFollow = 23,
}

impl Refusal {
    /// The C boundary answers minus the paper's number.
    pub fn answer(self) -> i32 {
        -(self as i32)
    }
}

/// The ATT error that goes with a (positive) refusal number, 0 if none does.
pub fn att_error(number: u32) -> i32 {
    match number {
        4 => 0x0D,
        5 => 0xFD,
        6 => 0xFE,
        _ => 0,
    }
}
