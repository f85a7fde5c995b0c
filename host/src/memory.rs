//! Request 6, "Longer memory for retries": "The new queue may redeliver up to 32 commands late."

use crate::law::Command;
use std::ops::RangeInclusive;

/// "Keep the last 32 kept commands with the output each was answered."
pub const REMEMBERED: usize = 32;

/// One of the places: a kept command and its output, or the blank.
#[derive(Debug, Clone, Copy, PartialEq, Eq)]
pub struct Entry {
    /// The command, with its values; none where the place is unused.
    pub command: Option<Command>,
    /// "the output [it] was answered"
    pub output: i32,
}

impl Entry {
    /// What an unused place holds.
    pub const BLANK: Entry = Entry { command: None, output: 0 };
}

/// The last kept commands, "newest first": the newest is 01's last command. The number of an entry is
/// the last number less its place, so that "their numbers run up to the last" whatever stands there.
#[derive(Debug, Clone, Copy, PartialEq, Eq)]
pub struct Memory(pub [Entry; REMEMBERED]);

impl Memory {
    /// That of a loop which has kept none.
    pub const BLANK: Memory = Memory([Entry::BLANK; REMEMBERED]);

    /// Takes the newest, and the oldest leaves it.
    pub(crate) fn take(&mut self, command: Command, output: i32) {
        self.0.rotate_right(1);
        self.0[0] = Entry { command: Some(command), output };
    }

    /// What was kept under a number, where the last number is this one; none where that is older than
    /// the window, or no command's.
    pub fn kept_under(&self, number: u32, last: u32) -> Option<Entry> {
        let place = last.checked_sub(number)?;
        self.0.get(place as usize).copied().filter(|_| number > 0)
    }

    /// "it holds as many entries as the smaller of 32 and the last number, their numbers run up to the
    /// last, their outputs lie in lo..hi, and unused places are blank". The values inside a command are
    /// not tested, nor that the newest output is u.
    pub(crate) fn in_order(&self, last: u32, limits: &RangeInclusive<i32>) -> bool {
        let (entries, unused) = self.0.split_at(REMEMBERED.min(last as usize));
        entries.iter().all(|entry| entry.command.is_some() && limits.contains(&entry.output))
            && unused.iter().all(|place| *place == Entry::BLANK)
    }
}

/// What is remembered of these kept commands, each with the output that it was answered, oldest first.
impl FromIterator<(Command, i32)> for Memory {
    fn from_iter<T: IntoIterator<Item = (Command, i32)>>(kept: T) -> Memory {
        let mut memory = Memory::BLANK;
        for (command, output) in kept {
            memory.take(command, output);
        }
        memory
    }
}
