//! Late repeats at every distance, with what request 6 answers to each.

use host::delivery::{deliver, Answer, Delivery};
use host::example;
use host::journal::delivery_line;
use host::law::Command;
use Command::{Automatic, Hold, Put, Sample, Set};

/// A delivery and its answer.
pub type Answered = (Delivery, Answer);

/// Commands of every kind that a fresh loop from C accepts, some of no effect, each under the number of
/// its place from 1 on. After eleven of them the kinds come again, with other values.
pub fn every_kind(count: usize) -> Vec<Command> {
    let of_round = |round: i32| {
        [
            Put(10 * round),
            Put(10 * round + 5),
            Sample(480 + round),
            Automatic,
            Sample(480 - round),
            Sample(470 - round),
            Command::Target { target: 500 + round, rate: 50 - round },
            Sample(460),
            Set(round % 16),
            Hold,
            Hold,
        ]
    };
    (1..).flat_map(of_round).take(count).collect()
}

/// After each of the commands, every number from the latest to 40 back: with the command that was kept
/// under it, with another value and with another word. "A repeat of any of them, same number and values,
/// gets its first answer again [..]. A number in that window with other values is 2; older is 1."
pub fn probed(commands: &[Command]) -> Vec<Answered> {
    let mut record = example::fresh();
    let mut first: Vec<Answered> = vec![];
    let mut list = vec![];
    for (number, &command) in (1..).zip(commands) {
        let answer = deliver(&mut record, number, command);
        assert_eq!((answer.code, answer.last), (0, number), "{command:?} is kept");
        first.push((Delivery { number, command }, answer));
        list.push((Delivery { number, command }, answer));
        for (distance, &(kept, its_answer)) in first.iter().rev().enumerate().take(41) {
            let in_window = distance <= 31;
            let refused = |code| Answer { code, ..answer };
            let again = if in_window { its_answer } else { refused(1) };
            let reused = refused(if in_window { 2 } else { 1 });
            list.push((kept, again));
            let others = [other_value(kept.command), other_word(kept.command)];
            list.extend(others.map(|command| (Delivery { command, ..kept }, reused)));
        }
    }
    list
}

/// A command with the same word and another value, where it has one.
pub fn other_value(command: Command) -> Command {
    match command {
        Sample(pv) => Sample(pv + 1),
        Put(x) => Put(x - 1),
        Set(k) => Set(k + 1),
        Command::Target { target, rate } => Command::Target { target, rate: rate + 1 },
        Hold => Automatic,
        Automatic => Hold,
    }
}

/// Another command, with the same value where it has one.
pub fn other_word(command: Command) -> Command {
    match command {
        Sample(pv) => Put(pv),
        Put(x) => Sample(x),
        Set(k) => Sample(k),
        Command::Target { target, .. } => Sample(target),
        Hold | Automatic => Set(0),
    }
}

/// The line that `journal` writes of it, with its line feed.
pub fn line((delivery, Answer { code, output, last }): &Answered) -> String {
    format!("{} code={code} output={output} last={last}\n", delivery_line(delivery))
}
