//! Demand 3's walk over a list of deliveries, as request 6 amends it. It knows the plain law and every
//! answer that a kept command has ever got, and nothing of what a loop remembers.

use host::delivery::{Answer, Delivery};
use host::law::{obey, Command, Loop};
use host::memory::{Entry, Memory};
use host::refusal::code;
use host::settings::Settings;

/// "Walk the list, keeping a delivery when its number is one more than the count kept so far and the
/// law accepts its content in the state reached."
pub struct Walk {
    /// The law's state "after the kept commands, each given once".
    reached: Loop,
    /// The kept commands with the answer to each, from number 1 on.
    pub kept: Vec<(Command, Answer)>,
}

impl Walk {
    /// "Start a loop from accepted settings".
    pub fn new(settings: &Settings) -> Walk {
        Walk { reached: Loop::make(settings).1, kept: vec![] }
    }

    /// "A kept delivery gets the law's output"; "an exact repeat of any of the last 32 kept ones gets
    /// its first answer"; "every other gets its named refusal".
    pub fn answer(&mut self, delivery: &Delivery) -> Answer {
        let count = self.kept.len() as u32;
        if delivery.number == count + 1 {
            return self.try_the_law(delivery.command);
        }
        match self.distance(delivery.number) {
            None if delivery.number > count => self.refused(3),
            None | Some(32..) => self.refused(1),
            Some(_) if self.repeated(delivery).is_none() => self.refused(2),
            Some(distance) => self.kept[self.kept.len() - 1 - distance].1,
        }
    }

    fn try_the_law(&mut self, command: Command) -> Answer {
        let code = code(obey(&mut self.reached, command));
        if code != 0 {
            return self.refused(code);
        }
        let answer = Answer { code, output: self.reached.u, last: self.kept.len() as u32 + 1 };
        self.kept.push((command, answer));
        answer
    }

    fn refused(&self, code: i32) -> Answer {
        Answer { code, output: self.reached.u, last: self.kept.len() as u32 }
    }

    /// How far back the command kept under this number lies: the latest lies 0 back.
    fn distance(&self, number: u32) -> Option<usize> {
        let back = self.kept.len().checked_sub(number as usize)?;
        (number > 0).then_some(back)
    }

    /// How far back the command lies that this is an exact repeat of, whether it is served or not.
    pub fn repeated(&self, delivery: &Delivery) -> Option<usize> {
        let distance = self.distance(delivery.number)?;
        let (command, _) = self.kept[self.kept.len() - 1 - distance];
        (command == delivery.command).then_some(distance)
    }

    /// "The end state is the law's after the kept commands", with the last 32 of them, newest first.
    pub fn end(&self) -> Loop {
        let mut memory = Memory::BLANK;
        for (place, (command, answer)) in memory.0.iter_mut().zip(self.kept.iter().rev()) {
            *place = Entry { command: Some(*command), output: answer.output };
        }
        Loop { last: self.kept.len() as u32, memory, ..self.reached }
    }
}

/// How many exact repeats a test has met at each distance from 0 to 40.
#[derive(Debug)]
pub struct Repeats([usize; 41]);

impl Repeats {
    /// As a test starts.
    pub const NONE: Repeats = Repeats([0; 41]);

    /// Counts this delivery, if it is such a repeat, before the walk answers it; gives how far back it
    /// lies.
    pub fn add(&mut self, walk: &Walk, delivery: &Delivery) -> Option<usize> {
        let distance = walk.repeated(delivery)?;
        *self.0.get_mut(distance)? += 1;
        Some(distance)
    }

    /// Adds what another part of the test has met.
    pub fn join(&mut self, other: &Repeats) {
        for (count, more) in self.0.iter_mut().zip(other.0) {
            *count += more;
        }
    }

    /// All of them together.
    pub fn sum(&self) -> usize {
        self.0.iter().sum()
    }

    /// The count of the distance that has the fewest.
    pub fn fewest(&self) -> usize {
        self.0.into_iter().fold(usize::MAX, usize::min)
    }
}
