//! The amounts of one sample taken by hand: a second way from 01's words to the same numbers, with
//! a rounding of its own. Tests compare the two, and count the roundings that land on a half.

use crate::delivery::{deliver, Delivery};
use crate::law::{Command, Loop, Mode};
use crate::settings::Settings;
use std::cmp::Ordering;

/// What a sample works with: the temperature that it reads, and then fine amounts, before anything
/// is divided by F.
#[derive(Debug, Clone, Copy, PartialEq, Eq)]
pub struct Amounts {
    /// The sum of the temperatures that the mean is over, and how many they are.
    pub mean: (i64, i64),
    /// (pv × F - y) × alpha, of which the filter's step is made; 0 while not primed.
    pub filter: i64,
    /// kd × s × (y - y'), of which D is made; 0 while not primed.
    pub derivative: i64,
    /// "g = ki × e"
    pub g: i64,
    /// "v = P + I + g + D"
    pub v: i64,
    /// "U = v limited to lo × F..hi × F", of which the output is made.
    pub limited: i64,
    /// kt × (U - v), of which the share of kt is made.
    pub share: i64,
}

/// The amounts of a sample for this record, as far as they are those of an ordinary one.
pub fn amounts(before: &Loop, raw: i32) -> Amounts {
    let (sum, count) = newest(before, raw);
    let pv = nearest_over(sum, count);
    let gains = before.settings.sets[before.set as usize];
    let s = 1 - 2 * i64::from(before.settings.action);
    let ahead = i64::from(before.target - before.w);
    let rate = i64::from(before.rate);
    let w = i64::from(before.w) + ahead.clamp(-rate, rate);
    let e = s * (w - pv);
    let behind = if before.primed { (pv << 16) - before.y } else { 0 };
    let filter = behind * i64::from(gains.alpha);
    let derivative = -i64::from(gains.kd) * s * nearest(filter);
    let g = i64::from(gains.ki) * e;
    let v = i64::from(gains.kp) * e + before.integral + g + nearest(derivative);
    let (lo, hi) = (i64::from(before.settings.lo), i64::from(before.settings.hi));
    let limited = v.clamp(lo << 16, hi << 16);
    let share = i64::from(gains.kt) * (limited - v);
    Amounts { mean: (sum, count), filter, derivative, g, v, limited, share }
}

/// The sum of this temperature and of those before it that the mean is over, and how many they are.
fn newest(before: &Loop, raw: i32) -> (i64, i64) {
    let mut sum = i64::from(raw);
    let mut count = 1;
    for &earlier in &before.window[..before.seen] {
        if count < i64::from(before.settings.mean) {
            sum += i64::from(earlier);
            count += 1;
        }
    }
    (sum, count)
}

/// The whole number nearest to a fine amount over F.
pub fn nearest(fine: i64) -> i64 {
    nearest_over(fine, Loop::F)
}

/// The whole number nearest to an amount over a number, of the two between which it lies; half way
/// the one "away from zero".
pub fn nearest_over(amount: i64, number: i64) -> i64 {
    let below = amount.div_euclid(number);
    let up = match (2 * amount.rem_euclid(number)).cmp(&number) {
        Ordering::Less => false,
        Ordering::Equal => amount > 0,
        Ordering::Greater => true,
    };
    below + i64::from(up)
}

/// The places that round: "the filter's step, D, the output, the share of kt", and the mean.
pub const PLACES: usize = 5;

/// How many roundings landed on a half at each of the places.
#[derive(Debug, Clone, Copy, PartialEq, Eq, Default)]
pub struct Halves {
    /// Those of amounts above zero.
    pub above: [usize; PLACES],
    /// Those of amounts below zero.
    pub below: [usize; PLACES],
}

impl Halves {
    /// Adds those of a command that this record accepts.
    pub fn add(&mut self, before: &Loop, command: Command) {
        if let Command::Sample(raw) = command {
            for (place, (amount, number)) in rounded(before, raw).into_iter().enumerate() {
                if 2 * amount.rem_euclid(number) == number {
                    let side = if amount > 0 { &mut self.above } else { &mut self.below };
                    side[place] += 1;
                }
            }
        }
    }

    /// Adds those of a list that is delivered to a fresh loop of these settings.
    pub fn add_list(&mut self, settings: &Settings, list: &[Delivery]) {
        let (_, mut record) = Loop::make(settings);
        for next in list {
            let before = record;
            deliver(&mut record, next.number, next.command);
            if record.last != before.last {
                self.add(&before, next.command);
            }
        }
    }

    /// The count of the place and sign that has the fewest.
    pub fn fewest(&self) -> usize {
        self.above.into_iter().chain(self.below).fold(usize::MAX, usize::min)
    }
}

/// What the sample rounds, each an amount over a number; where it rounds none stands 0, which is no
/// half.
fn rounded(before: &Loop, raw: i32) -> [(i64, i64); PLACES] {
    let Amounts { mean, filter, derivative, limited, share, .. } = amounts(before, raw);
    let ordinary = before.mode == Mode::Automatic && !before.pending;
    let [limited, share] = if ordinary { [limited, share] } else { [0, 0] };
    let over_f = |fine| (fine, Loop::F);
    [over_f(filter), over_f(derivative), over_f(limited), over_f(share), mean]
}
