//! Request 3, "Mirrored ovens disagree by one": the two mirrors, and what becomes in each of
//! settings, commands, records and answers.

use crate::decimal;
use crate::delivery::{Answer, Delivery};
use crate::journal::{delivery_line, parse};
use crate::law::{Command, Loop};
use crate::memory::{Entry, Memory};
use crate::settings::Settings;

/// One of the request's two mirrors. In both, codes and numbers stay the same.
#[derive(Debug, Clone, Copy, PartialEq, Eq)]
pub enum Mirror {
    /// "Flip only the action, the limits (to -hi..-lo), out and puts: every output and the integral
    /// change sign, w and y do not."
    OfAction,
    /// "Keep the action and flip limits, out, puts, temperatures, sp and targets: outputs,
    /// integral, w and y all change sign."
    OfTemperatures,
}

impl Mirror {
    /// The "two things" that the request wants shown.
    pub const BOTH: [Mirror; 2] = [Mirror::OfAction, Mirror::OfTemperatures];

    /// "the limits (to -hi..-lo), out", and the action or sp.
    pub fn settings(self, settings: &Settings) -> Settings {
        Settings {
            action: self.action(settings.action),
            lo: opposite(settings.hi),
            hi: opposite(settings.lo),
            out: opposite(settings.out),
            sp: self.temperature(settings.sp),
            ..*settings
        }
    }

    /// "puts", or "puts, temperatures [..] and targets". None where a value that is flipped is the
    /// least of its type, since that "has no opposite".
    pub fn command(self, command: Command) -> Option<Command> {
        Some(match (self, command) {
            (_, Command::Put(x)) => Command::Put(x.checked_neg()?),
            (_, Command::Sample(pv)) => Command::Sample(self.sample(pv)?),
            (Mirror::OfTemperatures, Command::Target { target, rate }) => {
                Command::Target { target: target.checked_neg()?, rate }
            }
            (_, unflipped) => unflipped,
        })
    }

    /// The temperature of a sample, or none where the sample has no mirror.
    pub fn sample(self, pv: i32) -> Option<i32> {
        match self {
            Mirror::OfAction => Some(pv),
            Mirror::OfTemperatures => pv.checked_neg(),
        }
    }

    /// Those of a list of samples that have a mirror.
    pub fn samples(self, samples: &[i32]) -> Vec<i32> {
        samples.iter().filter_map(|&pv| self.sample(pv)).collect()
    }

    /// The command's mirror under "same numbers".
    pub fn delivery(self, delivery: &Delivery) -> Option<Delivery> {
        Some(Delivery { command: self.command(delivery.command)?, ..*delivery })
    }

    /// "outputs and integral with the other sign; w, y as the request says. Last commands are
    /// mirrored too." The temperatures of the window and the last raw one are flipped where
    /// "temperatures" are. None where a remembered command has no mirror.
    pub fn record(self, record: &Loop) -> Option<Loop> {
        Some(Loop {
            settings: self.settings(&record.settings),
            w: self.temperature(record.w),
            target: self.temperature(record.target),
            u: opposite(record.u),
            integral: record.integral.saturating_neg(),
            y: self.filter(record.y),
            window: record.window.map(|raw| self.temperature(raw)),
            last_raw: self.temperature(record.last_raw),
            memory: self.memory(&record.memory)?,
            ..*record
        })
    }

    /// Each command that is remembered, and the output that it was answered.
    fn memory(self, memory: &Memory) -> Option<Memory> {
        let mut mirrored = Memory::BLANK;
        for (place, entry) in mirrored.0.iter_mut().zip(&memory.0) {
            let command = match entry.command {
                Some(command) => Some(self.command(command)?),
                None => None,
            };
            *place = Entry { command, output: opposite(entry.output) };
        }
        Some(mirrored)
    }

    /// "Flip [..] the action", or "Keep the action". A bad one is no action to flip, and stays bad.
    fn action(self, action: i32) -> i32 {
        match (self, action) {
            (Mirror::OfAction, 0) => 1,
            (Mirror::OfAction, 1) => 0,
            (_, kept) => kept,
        }
    }

    /// sp, w, the target, the window's temperatures and the last raw one that the record holds.
    fn temperature(self, number: i32) -> i32 {
        match self {
            Mirror::OfAction => number,
            Mirror::OfTemperatures => opposite(number),
        }
    }

    /// The filter, "temperature times F".
    fn filter(self, y: i64) -> i64 {
        match self {
            Mirror::OfAction => y,
            Mirror::OfTemperatures => y.saturating_neg(),
        }
    }

    /// A line that `journal` writes for a delivery, without its line feed. None where it is none,
    /// or where the delivery has no mirror.
    pub fn journal_line(self, line: &str) -> Option<String> {
        let (delivered, answered) = line.split_once(" code=")?;
        let (code, answered) = answered.split_once(" output=")?;
        let (output, last) = answered.split_once(" last=")?;
        let delivered = delivery_line(&self.delivery(&parse(delivered.as_bytes())?)?);
        let output = oven_line(output)?;
        Some(format!("{delivered} code={code} output={output} last={last}"))
    }
}

/// "same codes, same numbers, outputs [..] with the other sign"
pub fn answer(answer: &Answer) -> Answer {
    Answer { output: -answer.output, ..*answer }
}

/// The outputs of a replay, "with the other sign".
pub fn outputs(outputs: &[i32]) -> Vec<i32> {
    outputs.iter().map(|output| -output).collect()
}

/// A line that `oven` writes for a sample, without its line feed: an output, which changes sign.
/// None where it is none.
pub fn oven_line(line: &str) -> Option<String> {
    let output = decimal::signed(line.as_bytes())?;
    Some(output.checked_neg()?.to_string())
}

/// The opposite of a number that settings or a record hold. No rule lets the least of its type
/// stand there, nor the most, which is its mirror here: "Other bad values are in the statement".
fn opposite(number: i32) -> i32 {
    number.saturating_neg()
}
