//! The codes of 01's table under "Numbered delivery", as request 6 amends it, and that of request 8.

/// Why a call is refused. Each case has its paper's number, and its words.
#[derive(Debug, Clone, Copy, PartialEq, Eq)]
pub enum Refusal {
    /// "number below last, or number 0". Request 6: below last it is the one "older" than the window.
    OldNumber = 1,
    /// "number = last, at least 1, other command or value". Request 6: any "number in that window with
    /// other values".
    ReusedNumber = 2,
    /// "number above last + 1"
    NumberAhead = 3,
    /// "pv outside ±1,000,000"
    Temperature = 4,
    /// "put outside lo..hi"
    PutOutside = 5,
    /// "put while automatic"
    PutWhileAutomatic = 6,
    /// "target outside ±1,000,000"
    Target = 7,
    /// "rate outside 1..2,000,000"
    Rate = 8,
    /// "no such gain set"
    NoSuchSet = 9,
    /// "the loop record breaks a state rule"
    BrokenRecord = 10,
    /// "a settings record has a value outside its own range"
    SettingOutside = 11,
    /// "replay: output list shorter than samples"
    OutputsShort = 12,
    /// "replay: more samples than numbers left"
    NumbersUsedUp = 13,
    /// "text: line of wrong form, with its line"
    LineForm = 14,
    /// "text: value outside its range, with its line"
    LineValue = 15,
    /// "lo not below hi, or out outside lo..hi"
    Limits = 16,
    /// "text: bytes after the last line"
    BytesAfter = 17,
    /// "writer: buffer too short"
    BufferShort = 18,
    /// Request 8: "a sample further than *jump* from the last kept raw temperature"
    WildReading = 19,
}

impl Refusal {
    /// 01's number for this refusal.
    pub fn code(self) -> i32 {
        self as i32
    }
}

/// The code of an outcome: 0 when it is done, else the refusal's.
pub fn code(outcome: Result<(), Refusal>) -> i32 {
    outcome.map_or_else(Refusal::code, |()| 0)
}
