//! 01's program: "a small program that reads a settings file and a file of samples, one decimal per
//! line, and writes the outputs".

use crate::decimal;
use crate::delivery::deliver;
use crate::law::{Command, Loop};
use crate::program::{lines, refused, start};
use crate::refusal::Refusal;

/// The whole standard output for the bytes of a settings file and of a sample file.
///
/// "It makes the loop, delivers automatic as number 1 and the samples from number 2 on, and writes
/// each output as a decimal and a line feed."
pub fn run(settings: &[u8], samples: &[u8]) -> String {
    match start(settings) {
        Ok(mut record) => {
            deliver(&mut record, 1, Command::Automatic);
            serve(&mut record, samples)
        }
        Err(output) => output,
    }
}

/// Answers a sample file from a loop that is under way. "The first refusal ends it".
pub fn serve(record: &mut Loop, samples: &[u8]) -> String {
    let mut output = String::new();
    for (number, line) in lines(samples) {
        match sample(record, line) {
            Ok(power) => output.push_str(&format!("{power}\n")),
            Err(code) => {
                output.push_str(&refused(code, number));
                break;
            }
        }
    }
    output
}

/// The output after one line, or the code of its refusal: "A malformed sample line, or a last one
/// without its line feed, is 14; else a sample past the last number is 13, and one out of range 4."
/// A wild one is 19.
fn sample(record: &mut Loop, line: Option<&[u8]>) -> Result<i32, i32> {
    let pv = line.and_then(decimal::setting).ok_or_else(|| Refusal::LineForm.code())?;
    if record.last == u32::MAX {
        return Err(Refusal::NumbersUsedUp.code());
    }
    let answer = deliver(record, record.last + 1, Command::Sample(pv));
    if answer.code == 0 {
        Ok(answer.output)
    } else {
        Err(answer.code)
    }
}
