//! 01, "Numbered delivery": the queue "delivers at least once", so that "every command carries a
//! number, and a second delivery of it must write nothing". Request 6: it "may redeliver up to 32
//! commands late".

use crate::law::{Command, Loop};
use crate::refusal::Refusal;

/// A command under its number, as the queue hands it over.
#[derive(Debug, Clone, Copy, PartialEq, Eq)]
pub struct Delivery {
    /// Its number.
    pub number: u32,
    /// The command.
    pub command: Command,
}

/// "An answer is a code, the output in force and the last number in force, both read after the
/// call." But a repeat "gets its first answer again: code 0, that output and its own number".
#[derive(Debug, Clone, Copy, PartialEq, Eq)]
pub struct Answer {
    /// 0, or 01's code of the refusal.
    pub code: i32,
    /// The output in force, or that of the first answer.
    pub output: i32,
    /// The last number in force, or the repeat's own.
    pub last: u32,
}

/// Delivers a command under a number. Order: "10; then 1, 2, 3; then content".
///
/// "A record breaking the state rules gets code 10, output 0 and number 0."
pub fn deliver(record: &mut Loop, number: u32, command: Command) -> Answer {
    if let Err(broken) = record.check() {
        return Answer { code: broken.code(), output: 0, last: 0 };
    }
    receive(record, number, command).unwrap_or_else(|refusal| Answer {
        code: refusal.code(),
        output: record.u,
        last: record.last,
    })
}

/// Judges the number and, at last + 1, tries the law: "accepted, the number and command are
/// remembered; refused, nothing is, and the number stays free".
fn receive(record: &mut Loop, number: u32, command: Command) -> Result<Answer, Refusal> {
    if number <= record.last {
        return repeat(record, number, command);
    }
    if number - record.last > 1 {
        return Err(Refusal::NumberAhead);
    }
    record.content(command)?;
    record.keep(command);
    Ok(Answer { code: 0, output: record.u, last: record.last })
}

/// Request 6: "A repeat of any of them, same number and values, gets its first answer again: code 0,
/// that output and its own number. A number in that window with other values is 2; older is 1", and so
/// is number 0.
fn repeat(record: &Loop, number: u32, command: Command) -> Result<Answer, Refusal> {
    let kept = record.memory.kept_under(number, record.last).ok_or(Refusal::OldNumber)?;
    if kept.command == Some(command) {
        Ok(Answer { code: 0, output: kept.output, last: number })
    } else {
        Err(Refusal::ReusedNumber)
    }
}
