//! The six forms of the settings text. Request 5: "A text that ends after 26 lines is still read".
//! Request 8: "a text may have neither line, mean alone, or both".

use crate::settings::{Row, Settings, JUMP, LINES, MEAN};
use crate::text::{lines_of, JUMP_LEFT_OUT, MEAN_LEFT_OUT, SHORT_LINES, SHORT_SETS};

/// Which of the lines that may be left out stand between rate and kp0.
#[derive(Debug, Clone, Copy, PartialEq, Eq)]
pub enum AfterRate {
    /// "neither line"
    Neither,
    /// "mean alone"
    Mean,
    /// "or both"
    Both,
}

impl AfterRate {
    /// The rows whose lines are left out.
    fn without(self) -> &'static [Row] {
        match self {
            AfterRate::Neither => &[MEAN, JUMP],
            AfterRate::Mean => &[JUMP],
            AfterRate::Both => &[],
        }
    }
}

/// Which of the lines a text has.
#[derive(Debug, Clone, Copy, PartialEq, Eq)]
pub struct Form {
    /// Which of the lines of the mean and of the jump are among them.
    pub after_rate: AfterRate,
    /// Whether they end after set 3.
    pub short: bool,
}

impl Form {
    /// All six; the writer gives the last.
    pub const ALL: [Form; 6] = [
        Form { after_rate: AfterRate::Neither, short: true },
        Form { after_rate: AfterRate::Mean, short: true },
        Form { after_rate: AfterRate::Both, short: true },
        Form { after_rate: AfterRate::Neither, short: false },
        Form { after_rate: AfterRate::Mean, short: false },
        Form { after_rate: AfterRate::Both, short: false },
    ];

    /// The text of any settings record in this form, whatever that leaves out.
    pub fn text(self, settings: &Settings) -> Vec<u8> {
        let count = if self.short { SHORT_LINES } else { LINES };
        let without = self.after_rate.without();
        let stays = |line: &&str| !without.iter().any(|row| line.starts_with(row.letters));
        let text = lines_of(settings);
        let lines: String = text.split_inclusive('\n').take(count).filter(stays).collect();
        lines.into_bytes()
    }

    /// What is read in a text of these settings: "sets 4 to 15 equal to set 0" where it ends after
    /// set 3, "mean 1" where it has no line of the mean, and "one without jump means 2,000,000".
    pub fn says(self, settings: &Settings) -> Settings {
        let mut said = *settings;
        let without = self.after_rate.without();
        if self.short {
            said.sets[SHORT_SETS..].fill(settings.sets[0]);
        }
        if without.contains(&MEAN) {
            said.mean = MEAN_LEFT_OUT;
        }
        if without.contains(&JUMP) {
            said.jump = JUMP_LEFT_OUT;
        }
        said
    }
}
