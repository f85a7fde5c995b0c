//! 01, "Units": the settings, with the sixteen gain sets of request 5, the mean of request 7 and the
//! jump of request 8, and the one table of their ranges.

use crate::refusal::Refusal;

/// How many gain sets a loop has. Request 5: "Raise four to sixteen".
pub const SETS: usize = 16;

/// How many temperatures a loop keeps, and so the most that a mean is over. Request 7: "m from 1 to
/// 128, kept in a window of 128 places".
pub const WINDOW: usize = 128;

/// How many rows of the table stand once, before those of the gain sets.
const ONCE: usize = 8;

/// How many rows of the table stand in each gain set.
const GAINS: usize = 5;

/// How many lines a text has that names the mean, the jump and so many gain sets.
pub const fn lines_with(sets: usize) -> usize {
    ONCE + GAINS * sets
}

/// How many values the settings have: one for each line of the text.
pub const LINES: usize = lines_with(SETS);

/// One of the gain sets.
#[derive(Debug, Clone, Copy, PartialEq, Eq, Default)]
pub struct GainSet {
    /// Proportional gain times F.
    pub kp: i32,
    /// Integral gain times F, per sample.
    pub ki: i32,
    /// Derivative gain times F, per sample.
    pub kd: i32,
    /// "filter share times F"
    pub alpha: i32,
    /// "0: clamping; else back-calculation times F"
    pub kt: i32,
}

/// The settings of a loop. The default is blank: "every number zero".
#[derive(Debug, Clone, Copy, PartialEq, Eq, Default)]
pub struct Settings {
    /// "0 heats (s = 1), 1 cools (s = -1)"
    pub action: i32,
    /// Lower output limit.
    pub lo: i32,
    /// Upper output limit, above the lower one.
    pub hi: i32,
    /// "starting output"
    pub out: i32,
    /// "starting setpoint and target"
    pub sp: i32,
    /// "most the setpoint moves in one sample"
    pub rate: i32,
    /// Of how many temperatures the law reads the mean: "the last m".
    pub mean: i32,
    /// How far a sample in automatic may lie from the one kept before it.
    pub jump: i32,
    /// The gain sets, from 0 on.
    pub sets: [GainSet; SETS],
}

/// The range of one setting.
#[derive(Debug, Clone, Copy, PartialEq, Eq)]
pub struct Row {
    /// The letters of its key.
    pub letters: &'static str,
    /// The least value.
    pub least: i32,
    /// The most.
    pub most: i32,
}

impl Row {
    /// Whether the value lies in this row's range.
    pub fn allows(&self, value: i32) -> bool {
        self.least <= value && value <= self.most
    }
}

const fn row(letters: &'static str, least: i32, most: i32) -> Row {
    Row { letters, least, most }
}

/// The row of the mean, whose line a text may leave out. Request 7: "One settings line, mean, follows
/// rate".
pub const MEAN: Row = row("mean", 1, WINDOW as i32);

/// The row of the jump, whose line a text may leave out, too. Request 8: "jump is 1 to 2,000,000, a
/// settings line after mean".
pub const JUMP: Row = row("jump", 1, 2_000_000);

/// "The ranges of the settings are one constant table of rows, which reader, writer and maker all
/// consult."
///
/// The rows stand in the order of the settings text, those of a gain set last and once for all
/// sets. "For out, codes 11 and 15 use ±1,000,000; its place between lo and hi is code 16's
/// matter."
pub const ROWS: [Row; ONCE + GAINS] = [
    row("action", 0, 1),
    row("lo", -1_000_000, 1_000_000),
    row("hi", -1_000_000, 1_000_000),
    row("out", -1_000_000, 1_000_000),
    row("sp", -1_000_000, 1_000_000),
    row("rate", 1, 2_000_000),
    MEAN,
    JUMP,
    row("kp", 0, 4_194_304),
    row("ki", 0, 4_194_304),
    row("kd", 0, 4_194_304),
    row("alpha", 1, 65_536),
    row("kt", 0, 65_536),
];

/// Where a value stands: in a row of the table, and in a gain set if the row is one of those.
#[derive(Debug, Clone, Copy, PartialEq, Eq)]
pub struct Place {
    /// The row.
    pub row: Row,
    /// The number of the gain set.
    pub set: Option<usize>,
}

impl Place {
    /// The key as the text spells it: the letters, and after them the number of the gain set.
    pub fn key(&self) -> String {
        match self.set {
            Some(k) => format!("{}{k}", self.row.letters),
            None => self.row.letters.to_string(),
        }
    }
}

/// The place of every value, in the order of the text: "action, lo, hi, out, sp, rate", mean, jump,
/// "then kp0 ki0 kd0 alpha0 kt0, then the same" for each other set.
pub fn places() -> impl Iterator<Item = Place> {
    let once = ROWS.into_iter().take(ONCE).map(|row| Place { row, set: None });
    let gains = |k| ROWS.into_iter().skip(ONCE).map(move |row| Place { row, set: Some(k) });
    once.chain((0..SETS).flat_map(gains))
}

impl Settings {
    /// The values in the order of [`places`].
    pub fn values(&self) -> [i32; LINES] {
        let mut values = [0; LINES];
        let (once, gains) = values.split_at_mut(ONCE);
        let Settings { action, lo, hi, out, sp, rate, mean, jump, .. } = *self;
        once.copy_from_slice(&[action, lo, hi, out, sp, rate, mean, jump]);
        for (place, set) in gains.chunks_exact_mut(GAINS).zip(&self.sets) {
            place.copy_from_slice(&[set.kp, set.ki, set.kd, set.alpha, set.kt]);
        }
        values
    }

    /// The settings that have these values, in the order of [`places`].
    pub fn from_values(values: &[i32; LINES]) -> Settings {
        let (once, gains) = values.split_at(ONCE);
        let mut settings = Settings {
            action: once[0],
            lo: once[1],
            hi: once[2],
            out: once[3],
            sp: once[4],
            rate: once[5],
            mean: once[6],
            jump: once[7],
            ..Settings::default()
        };
        for (set, gains) in settings.sets.iter_mut().zip(gains.chunks_exact(GAINS)) {
            set.kp = gains[0];
            set.ki = gains[1];
            set.kd = gains[2];
            set.alpha = gains[3];
            set.kt = gains[4];
        }
        settings
    }

    /// "Making a loop from settings tests 11, then 16."
    pub fn check(&self) -> Result<(), Refusal> {
        if !self.within_ranges() {
            return Err(Refusal::SettingOutside);
        }
        if !self.limits_in_order() {
            return Err(Refusal::Limits);
        }
        Ok(())
    }

    /// Every value lies in its own row's range.
    fn within_ranges(&self) -> bool {
        places().zip(self.values()).all(|(place, value)| place.row.allows(value))
    }

    /// Code 16 is "lo not below hi, or out outside lo..hi".
    fn limits_in_order(&self) -> bool {
        self.lo < self.hi && self.lo <= self.out && self.out <= self.hi
    }
}
