//! What both programs do alike: they start from a settings text, answer a file line by line, and
//! stop at a line of wrong form.

use crate::law::Loop;
use crate::text;

/// The fresh loop of a settings text, or the whole output of a run whose settings are refused.
pub fn start(settings: &[u8]) -> Result<Loop, String> {
    let reading = text::read(settings);
    if reading.code != 0 {
        return Err(refused(reading.code, reading.line));
    }
    let (_, record) = Loop::make(&reading.settings);
    Ok(record)
}

/// "it writes `refused`, the code and the line, one space between, and a line feed"
pub fn refused(code: i32, line: usize) -> String {
    format!("refused {code} {line}\n")
}

/// The lines of a file, each with its number from 1 and without its line feed; a last one that has
/// no line feed is `None`. An empty file has no line.
pub fn lines(file: &[u8]) -> impl Iterator<Item = (usize, Option<&[u8]>)> + '_ {
    let pieces = file.split_inclusive(|&byte| byte == b'\n');
    (1..).zip(pieces.map(|piece| piece.strip_suffix(b"\n")))
}
