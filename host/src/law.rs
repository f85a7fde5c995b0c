//! 01, "What a loop remembers" and "The law, one command at a time", with the mean of request 7
//! "ahead of the filter", the refusal of a wild reading, request 8, and the memory of request 6.

use crate::memory::Memory;
use crate::refusal::Refusal;
use crate::settings::{self, GainSet, Settings, WINDOW};
use std::cmp::Ordering;
use std::ops::RangeInclusive;

/// Who moves the output: the operator or the law.
#[derive(Debug, Clone, Copy, PartialEq, Eq)]
pub enum Mode {
    /// The output stays as it is held or put.
    Manual,
    /// Samples move the output.
    Automatic,
}

/// A command with its values. Two are the same when their values are, too.
#[derive(Debug, Clone, Copy, PartialEq, Eq)]
pub enum Command {
    /// A temperature, the raw one: "code 4 tests the raw one", and so does code 19.
    Sample(i32),
    /// "Manual, not pending; u stays."
    Hold,
    /// "Manual only: u = x."
    Put(i32),
    /// "From manual: automatic, pending."
    Automatic,
    /// "Both are taken; w stays until the next sample."
    Target {
        /// Where the setpoint shall go.
        target: i32,
        /// The most it moves in one sample.
        rate: i32,
    },
    /// "The set in force: no effect. Another: it comes into force"
    Set(i32),
}

/// All that a loop remembers.
#[derive(Debug, Clone, Copy, PartialEq, Eq)]
pub struct Loop {
    /// The settings it was made from.
    pub settings: Settings,
    /// Manual or automatic.
    pub mode: Mode,
    /// "the next sample is a transfer sample"
    pub pending: bool,
    /// The gain set in force.
    pub set: i32,
    /// The working setpoint.
    pub w: i32,
    /// Where the working setpoint goes.
    pub target: i32,
    /// The most it moves in one sample.
    pub rate: i32,
    /// The output.
    pub u: i32,
    /// The integral I, a fine amount.
    pub integral: i64,
    /// Whether the filter has seen a temperature.
    pub primed: bool,
    /// The filter, "temperature times F".
    pub y: i64,
    /// The raw temperatures of the last kept samples: "a window of 128 places that starts filled
    /// with zeros, newest first".
    pub window: [i32; WINDOW],
    /// How many of its places are filled: the kept samples, so long as they are at most 128.
    pub seen: usize,
    /// The last kept raw temperature, from which a sample in automatic may not lie too far: a field
    /// of its own, "0 while not primed".
    pub last_raw: i32,
    /// The last number kept, 0 before the first.
    pub last: u32,
    /// "the last 32 kept commands with the output each was answered", of which the newest has that
    /// number.
    pub memory: Memory,
}

/// round(x / F), to the nearest whole number. Request 3: "Halves shall go away from zero,
/// everywhere that 01 rounds: fine -32,768 now gives -1, and -32,767 gives 0."
pub fn round(x: i64) -> i64 {
    round_over(x, Loop::F)
}

/// round(x / n) in the same way, for n at least 1. An odd n has no halves, and the floor of its own
/// half is as good.
pub fn round_over(x: i64, n: i64) -> i64 {
    let size = (x.abs() + n / 2) / n;
    if x < 0 {
        -size
    } else {
        size
    }
}

/// The plain law, which "knows no numbers": state rules, then content, then the command is carried
/// out.
///
/// "Every refusal hands back the record that came in."
pub fn obey(record: &mut Loop, command: Command) -> Result<(), Refusal> {
    record.check()?;
    record.content(command)?;
    record.step(command);
    Ok(())
}

/// The plain law without the rule of request 8, for tests that compare the two: no reading is wild,
/// and all else is as in [`obey`].
pub fn obey_any_reading(record: &mut Loop, command: Command) -> Result<(), Refusal> {
    record.check()?;
    record.content_after(None, command)?;
    record.step(command);
    Ok(())
}

/// "Fresh loops and the constants above belong to the loop's type."
impl Loop {
    /// "A *fine* amount is an output amount times F."
    pub const F: i64 = 65_536;
    /// The bound B of the integral.
    pub const B: i64 = 16_842_752_000_000;
    /// The bound of the filter.
    pub const Y: i64 = 65_536_000_000;
    /// "A temperature pv lies within ±1,000,000." Working setpoint and target do, too.
    pub const TEMPERATURES: RangeInclusive<i32> = -1_000_000..=1_000_000;
    /// The range of the rate.
    pub const RATES: RangeInclusive<i32> = 1..=2_000_000;
    /// The gain sets. Request 5: "code 9 starts at 16", and negative numbers are no sets either.
    pub const SETS: RangeInclusive<i32> = 0..=settings::SETS as i32 - 1;

    /// "every number zero, manual, every flag no, no last command. The blank breaks the state
    /// rules"
    pub fn blank() -> Loop {
        Loop {
            settings: Settings::default(),
            mode: Mode::Manual,
            pending: false,
            set: 0,
            w: 0,
            target: 0,
            rate: 0,
            u: 0,
            integral: 0,
            primed: false,
            y: 0,
            window: [0; WINDOW],
            seen: 0,
            last_raw: 0,
            last: 0,
            memory: Memory::BLANK,
        }
    }

    /// A code and the fresh loop: "Where making a loop or reading settings is refused, what stands
    /// beside the code is the blank".
    pub fn make(settings: &Settings) -> (i32, Loop) {
        match settings.check() {
            Ok(()) => (0, Loop::fresh(settings)),
            Err(refusal) => (refusal.code(), Loop::blank()),
        }
    }

    /// "manual, not pending, set 0, w = target = sp, rate and u as set, I = 0, not primed, y = 0,
    /// last number 0"
    fn fresh(settings: &Settings) -> Loop {
        Loop {
            settings: *settings,
            w: settings.sp,
            target: settings.sp,
            rate: settings.rate,
            u: settings.out,
            ..Loop::blank()
        }
    }
}

/// The state rules, and the refusals of a command's content.
impl Loop {
    /// The state rules. "Every loop the software makes keeps them; some records that keep them are
    /// never reached, and are served all the same."
    pub fn check(&self) -> Result<(), Refusal> {
        let kept = self.settings.check().is_ok()
            && Self::TEMPERATURES.contains(&self.w)
            && Self::TEMPERATURES.contains(&self.target)
            && Self::RATES.contains(&self.rate)
            && Self::SETS.contains(&self.set)
            && self.limits().contains(&self.u)
            && (-Self::B..=Self::B).contains(&self.integral)
            && self.filter_in_order()
            && self.window_in_order()
            && self.last_raw_in_order()
            && !(self.pending && self.mode == Mode::Manual)
            && self.memory.in_order(self.last, &self.limits());
        if kept {
            Ok(())
        } else {
            Err(Refusal::BrokenRecord)
        }
    }

    /// "|y| at most 65,536,000,000, and y = 0 while not primed"
    fn filter_in_order(&self) -> bool {
        (-Self::Y..=Self::Y).contains(&self.y) && (self.primed || self.y == 0)
    }

    /// Request 7: "the window's temperatures lie in range, at most 128 are seen, unfilled places are
    /// zero". That m lies in range is "settings within the table".
    fn window_in_order(&self) -> bool {
        self.window.iter().all(|raw| Self::TEMPERATURES.contains(raw))
            && self.seen <= WINDOW
            && self.window[self.seen..].iter().all(|&raw| raw == 0)
    }

    /// Request 8: "The last kept raw temperature joins the record, within ±1,000,000, and 0 while not
    /// primed."
    fn last_raw_in_order(&self) -> bool {
        Self::TEMPERATURES.contains(&self.last_raw) && (self.primed || self.last_raw == 0)
    }

    /// The output limits lo..hi.
    fn limits(&self) -> RangeInclusive<i32> {
        self.settings.lo..=self.settings.hi
    }

    /// The content of a command that comes next.
    pub(crate) fn content(&self, command: Command) -> Result<(), Refusal> {
        self.content_after(self.kept_before(), command)
    }

    /// The raw temperature that the next sample is compared with. "the first sample [is] exempt": it
    /// is the one that finds the loop not primed.
    pub(crate) fn kept_before(&self) -> Option<i32> {
        self.primed.then_some(self.last_raw)
    }

    /// "then content, with 6 before 5 and 7 before 8", of a command that comes after a sample of this
    /// raw temperature, or after none.
    fn content_after(&self, before: Option<i32>, command: Command) -> Result<(), Refusal> {
        match command {
            Command::Sample(raw) => self.reading(before, raw),
            Command::Put(_) if self.mode == Mode::Automatic => Err(Refusal::PutWhileAutomatic),
            Command::Put(x) if !self.limits().contains(&x) => Err(Refusal::PutOutside),
            Command::Target { target, .. } if !Self::TEMPERATURES.contains(&target) => {
                Err(Refusal::Target)
            }
            Command::Target { rate, .. } if !Self::RATES.contains(&rate) => Err(Refusal::Rate),
            Command::Set(k) if !Self::SETS.contains(&k) => Err(Refusal::NoSuchSet),
            _ => Ok(()),
        }
    }

    /// "In automatic, a sample further than *jump* from the last kept raw temperature is refused, code
    /// 19, tested after 4. Manual mode and the first sample are exempt."
    pub(crate) fn reading(&self, before: Option<i32>, raw: i32) -> Result<(), Refusal> {
        if !Self::TEMPERATURES.contains(&raw) {
            return Err(Refusal::Temperature);
        }
        match before {
            Some(before)
                if self.mode == Mode::Automatic && (raw - before).abs() > self.settings.jump =>
            {
                Err(Refusal::WildReading)
            }
            _ => Ok(()),
        }
    }
}

/// The law itself, for a record that keeps the state rules and a command whose content is accepted.
impl Loop {
    /// Carries the command out.
    fn step(&mut self, command: Command) {
        match command {
            Command::Sample(raw) => self.sample(raw),
            Command::Hold => self.hold(),
            Command::Put(x) => self.u = x,
            Command::Automatic => self.automatic(),
            Command::Target { target, rate } => {
                self.target = target;
                self.rate = rate;
            }
            Command::Set(k) => self.choose(k),
        }
    }

    /// Carries it out under the next number: "accepted, the number and command are remembered", and
    /// with them "the output [it] was answered", which is the one in force after it.
    pub(crate) fn keep(&mut self, command: Command) {
        self.step(command);
        self.last += 1;
        self.memory.take(command, self.u);
    }

    /// "Manual, not pending; u stays."
    fn hold(&mut self) {
        self.mode = Mode::Manual;
        self.pending = false;
    }

    /// "From manual: automatic, pending. Already automatic: no effect."
    fn automatic(&mut self) {
        if self.mode == Mode::Manual {
            self.mode = Mode::Automatic;
            self.pending = true;
        }
    }

    /// "The set in force: no effect. Another: it comes into force, and in automatic the loop
    /// becomes pending. I and y stay."
    fn choose(&mut self, k: i32) {
        if k != self.set {
            self.set = k;
            if self.mode == Mode::Automatic {
                self.pending = true;
            }
        }
    }

    /// A sample, in the law's six steps. Request 7: "The law then reads the mean wherever 01 writes
    /// pv".
    fn sample(&mut self, raw: i32) {
        self.take(raw);
        let pv = self.mean();
        self.ramp();
        let d = self.filter(pv);
        let e = self.sign() * i64::from(self.w - pv);
        let p = i64::from(self.gains().kp) * e;
        match (self.mode, self.pending) {
            (Mode::Manual, _) => {}
            (Mode::Automatic, true) => self.transfer(p, d),
            (Mode::Automatic, false) => self.ordinary(e, p, d),
        }
    }

    /// "The window takes every kept sample, in manual too", and the oldest leaves it. The last kept raw
    /// temperature "follows manual samples too".
    fn take(&mut self, raw: i32) {
        self.window.rotate_right(1);
        self.window[0] = raw;
        self.seen = WINDOW.min(self.seen + 1);
        self.last_raw = raw;
    }

    /// "mean over the last m temperatures [..]. Until m are seen, it is over those seen. The sum is
    /// exact, the mean rounded as in request 3."
    fn mean(&self) -> i32 {
        let last = &self.window[..self.seen.min(self.settings.mean as usize)];
        let sum = last.iter().map(|&raw| i64::from(raw)).sum();
        let mean = round_over(sum, last.len() as i64);
        i32::try_from(mean).expect("a mean lies between the least and the most of its temperatures")
    }

    /// Step 1: "w moves toward the target by the smaller of rate and the distance."
    fn ramp(&mut self) {
        let distance = (self.target - self.w).abs();
        let move_by = distance.min(self.rate);
        if self.w < self.target {
            self.w += move_by;
        } else {
            self.w -= move_by;
        }
    }

    /// Step 2, which gives D: "Not primed: y becomes pv × F, primed, D = 0. Primed: the new y is
    /// y' = y + round((pv × F - y) × alpha / F), and D = round(kd × s × (y - y') / F)."
    fn filter(&mut self, pv: i32) -> i64 {
        let measured = i64::from(pv) * Self::F;
        if !self.primed {
            self.primed = true;
            self.y = measured;
            return 0;
        }
        let gains = self.gains();
        let before = self.y;
        self.y = before + round((measured - before) * i64::from(gains.alpha));
        round(i64::from(gains.kd) * self.sign() * (before - self.y))
    }

    /// Step 5: "I = u × F - P - D, u stays, pending ends."
    fn transfer(&mut self, p: i64, d: i64) {
        self.integral = i64::from(self.u) * Self::F - p - d;
        self.pending = false;
    }

    /// Step 6: "g = ki × e, v = P + I + g + D, U = v limited to lo × F..hi × F,
    /// new u = round(U / F)."
    fn ordinary(&mut self, e: i64, p: i64, d: i64) {
        let gains = self.gains();
        let low = i64::from(self.settings.lo) * Self::F;
        let high = i64::from(self.settings.hi) * Self::F;
        let g = i64::from(gains.ki) * e;
        let v = p + self.integral + g + d;
        let limited = v.clamp(low, high);
        self.u = i32::try_from(round(limited)).expect("a rounded U lies in lo..hi");
        self.integral = if gains.kt == 0 {
            clamped(self.integral, g, low - p - d, high - p - d)
        } else {
            back_calculated(self.integral, g, i64::from(gains.kt), limited - v)
        };
    }

    /// "0 heats (s = 1), 1 cools (s = -1)"
    fn sign(&self) -> i64 {
        if self.settings.action == 0 {
            1
        } else {
            -1
        }
    }

    /// The gain set in force, which the state rules keep among those that there are.
    fn gains(&self) -> GainSet {
        self.settings.sets[self.set as usize]
    }
}

/// "With kt = 0: for g > 0 the new I is the larger of I and the smaller of I + g and
/// hi × F - P - D; for g < 0 the smaller of I and the larger of I + g and lo × F - P - D;
/// for g = 0, I stays."
fn clamped(integral: i64, g: i64, bottom: i64, top: i64) -> i64 {
    match g.cmp(&0) {
        Ordering::Greater => integral.max((integral + g).min(top)),
        Ordering::Less => integral.min((integral + g).max(bottom)),
        Ordering::Equal => integral,
    }
}

/// "With kt > 0: I + g + round(kt × (U - v) / F), then limited to ±B."
fn back_calculated(integral: i64, g: i64, kt: i64, excess: i64) -> i64 {
    let moved = integral + g + round(kt * excess);
    moved.clamp(-Loop::B, Loop::B)
}
