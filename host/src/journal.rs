//! The journal program: a settings file and a file of deliveries in, one journal line for each
//! delivery out.
//!
//! A delivery is the line `number=N command=WORD value=V second=S`; its answer is the same line
//! grown by `code=C output=U last=L`, "in that order, one space between, one line feed at the end,
//! unused values 0". L is the number in the answer, which is a late repeat's own.

use crate::decimal;
use crate::delivery::{deliver, Answer, Delivery};
use crate::law::Command;
use crate::program::{lines, refused, start};
use crate::refusal::Refusal;

/// The whole standard output for the bytes of a settings file and of a deliveries file.
///
/// A delivery that the loop refuses is answered with its code, and the run goes on; a line that is
/// not well formed ends it.
pub fn run(settings: &[u8], deliveries: &[u8]) -> String {
    let mut record = match start(settings) {
        Ok(record) => record,
        Err(output) => return output,
    };
    let mut output = String::new();
    for (number, line) in lines(deliveries) {
        match line.and_then(parse) {
            Some(delivery) => {
                let answer = deliver(&mut record, delivery.number, delivery.command);
                output.push_str(&journal_line(&delivery, &answer));
            }
            None => {
                output.push_str(&refused(Refusal::LineForm.code(), number));
                break;
            }
        }
    }
    output
}

/// The delivery of a line without its line feed, if it is well formed.
pub fn parse(line: &[u8]) -> Option<Delivery> {
    let mut fields = line.split(|&byte| byte == b' ');
    let mut field = |key: &[u8]| fields.next()?.strip_prefix(key);
    let number = decimal::unsigned(field(b"number=")?)?;
    let word = field(b"command=")?;
    let value = decimal::signed(field(b"value=")?)?;
    let second = decimal::signed(field(b"second=")?)?;
    if fields.next().is_some() {
        return None;
    }
    let command = command(word, value, second)?;
    Some(Delivery { number, command })
}

/// The line of a delivery, without its line feed.
pub fn delivery_line(delivery: &Delivery) -> String {
    let (word, value, second) = words(delivery.command);
    let number = delivery.number;
    format!("number={number} command={word} value={value} second={second}")
}

/// The journal line of a delivery and its answer, with its line feed.
fn journal_line(delivery: &Delivery, answer: &Answer) -> String {
    let delivered = delivery_line(delivery);
    let Answer { code, output, last } = answer;
    format!("{delivered} code={code} output={output} last={last}\n")
}

/// "Commands are the words sample, hold, put, automatic, target and set"; "unused values 0".
fn command(word: &[u8], value: i32, second: i32) -> Option<Command> {
    match (word, value, second) {
        (b"sample", pv, 0) => Some(Command::Sample(pv)),
        (b"hold", 0, 0) => Some(Command::Hold),
        (b"put", x, 0) => Some(Command::Put(x)),
        (b"automatic", 0, 0) => Some(Command::Automatic),
        (b"target", target, rate) => Some(Command::Target { target, rate }),
        (b"set", k, 0) => Some(Command::Set(k)),
        _ => None,
    }
}

/// The word of a command and its two values.
fn words(command: Command) -> (&'static str, i32, i32) {
    match command {
        Command::Sample(pv) => ("sample", pv, 0),
        Command::Hold => ("hold", 0, 0),
        Command::Put(x) => ("put", x, 0),
        Command::Automatic => ("automatic", 0, 0),
        Command::Target { target, rate } => ("target", target, rate),
        Command::Set(k) => ("set", k, 0),
    }
}
