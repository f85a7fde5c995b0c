//! 01, "Settings text", in the six forms of requests 5, 7 and 8: the reader and the writer.

use crate::decimal;
use crate::refusal::{code, Refusal};
use crate::settings::{lines_with, places, Place, Row, Settings, JUMP, LINES, MEAN};

/// How many gain sets a text of 01 names: with request 5 it is the short form, which "is still
/// read".
pub const SHORT_SETS: usize = 4;

/// How many lines the short form has, those of the mean and of the jump among them.
pub const SHORT_LINES: usize = lines_with(SHORT_SETS);

/// "a text whose line after rate begins with kp0 is read as mean 1"
pub const MEAN_LEFT_OUT: i32 = 1;

/// "a text may have neither line, mean alone, or both, and one without jump means 2,000,000"
pub const JUMP_LEFT_OUT: i32 = 2_000_000;

/// What the reader answers.
#[derive(Debug, Clone, Copy, PartialEq, Eq)]
pub struct Reading {
    /// 0, or 01's code of the refusal.
    pub code: i32,
    /// The refused line, from 1. "Codes other than 14 and 15 report line 0."
    pub line: usize,
    /// The settings, blank on a refusal.
    pub settings: Settings,
}

/// What the writer answers.
#[derive(Debug, Clone, Copy, PartialEq, Eq)]
pub struct Writing {
    /// 0, or 01's code of the refusal.
    pub code: i32,
    /// The length of the text, "0 on refusal".
    pub length: usize,
}

/// Reads a settings text.
pub fn read(text: &[u8]) -> Reading {
    match parse(text) {
        Ok(settings) => Reading { code: 0, line: 0, settings },
        Err((refusal, line)) => {
            Reading { code: refusal.code(), line, settings: Settings::default() }
        }
    }
}

/// "Lines count from 1 and are tested in order, 14 before 15 in each. [..] Then 17, then 16." They
/// are counted as they stand: one that the text leaves out has no number.
///
/// "26 or 86 lines are good, nothing between": any byte after the short form "is tested as line 27
/// is, 14 before 15, and on to line 86; 17 comes only after the last line". With the line of the mean
/// these numbers are one more, and with that of the jump two.
fn parse(text: &[u8]) -> Result<Settings, (Refusal, usize)> {
    let mut lines = text.split_inclusive(|&byte| byte == b'\n').peekable();
    let mut values = [0; LINES];
    let mut number = 0;
    for (index, place) in places().enumerate() {
        if index == SHORT_LINES && lines.peek().is_none() {
            return accepted(short(&values));
        }
        let at_kp0 = lines.peek().map_or(false, |line| line.starts_with(b"kp0"));
        if let (Some(meant), true) = (left_out(&place.row), at_kp0) {
            values[index] = meant;
            continue;
        }
        number += 1;
        let line = lines.next().unwrap_or(b"");
        values[index] = value(line, &place).map_err(|refusal| (refusal, number))?;
    }
    if lines.next().is_some() {
        return Err((Refusal::BytesAfter, 0));
    }
    accepted(Settings::from_values(&values))
}

/// What a text means that goes on with kp0 instead of the line of this row, if it may.
fn left_out(row: &Row) -> Option<i32> {
    match *row {
        MEAN => Some(MEAN_LEFT_OUT),
        JUMP => Some(JUMP_LEFT_OUT),
        _ => None,
    }
}

/// "A text that ends after 26 lines is still read, with sets 4 to 15 equal to set 0."
fn short(values: &[i32; LINES]) -> Settings {
    let mut settings = Settings::from_values(values);
    let [first, ..] = settings.sets;
    settings.sets[SHORT_SETS..].fill(first);
    settings
}

/// The settings of a text whose every line is good, if their limits are in order.
fn accepted(settings: Settings) -> Result<Settings, (Refusal, usize)> {
    settings.check().map_err(|refusal| (refusal, 0))?;
    Ok(settings)
}

/// The value of a line that comes with its line feed, if it has one.
fn value(line: &[u8], place: &Place) -> Result<i32, Refusal> {
    let value = well_formed(line, &place.key()).ok_or(Refusal::LineForm)?;
    if place.row.allows(value) {
        Ok(value)
    } else {
        Err(Refusal::LineValue)
    }
}

/// "each key, `=`, value, one line feed (byte 10)"
fn well_formed(line: &[u8], key: &str) -> Option<i32> {
    let after_key = line.strip_prefix(key.as_bytes())?;
    let written = after_key.strip_prefix(b"=")?.strip_suffix(b"\n")?;
    decimal::setting(written)
}

/// "The writer tests 11, 16, 18, writes from the buffer's first byte, leaves bytes after the text,
/// and answers the length, 0 on refusal."
pub fn write(settings: &Settings, buffer: &mut [u8]) -> Writing {
    let outcome = settings.check().and_then(|()| fill(settings, buffer));
    Writing { code: code(outcome.map(|_| ())), length: outcome.unwrap_or(0) }
}

/// Puts the text at the front of the buffer and gives its length.
fn fill(settings: &Settings, buffer: &mut [u8]) -> Result<usize, Refusal> {
    let text = lines_of(settings);
    let front = buffer.get_mut(..text.len()).ok_or(Refusal::BufferShort)?;
    front.copy_from_slice(text.as_bytes());
    Ok(text.len())
}

/// The lines of any settings record, in range or not. "Writing always gives 86 lines", and with
/// requests 7 and 8 two more: "The writer always gives it", and "The writer always gives jump".
pub fn lines_of(settings: &Settings) -> String {
    let line = |(place, value): (Place, i32)| format!("{}={value}\n", place.key());
    places().zip(settings.values()).map(line).collect()
}
