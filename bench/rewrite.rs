//! A replay as an engineer would write it in ordinary Rust: the record by `&mut`, one pass for the samples that are refused, one
//! for the law; the mean by a running sum and a division; the window and the kept commands written once, at the end. Numbers are 64
//! bits wide within the record, which is the faster of the two ways, but for raw temperatures. It is what the proved replay is measured
//! against, and stays as it is.

pub const F: i64 = 65_536;
pub const B: i64 = 16_842_752_000_000;

/// The gain sets of a loop, the values before them in the text, and those of each.
pub const SETS: usize = 16;
pub const ONCE: usize = 8;
pub const GAINS: usize = 5;
pub const VALUES: usize = ONCE + GAINS * SETS;

/// Where the mean and the jump stand among the values, and the temperatures that a loop keeps for the mean.
pub const MEAN: usize = 6;
pub const JUMP: usize = 7;
pub const WINDOW: usize = 128;

/// The kept commands that a loop remembers.
pub const REMEMBERED: usize = 32;

/// Temperatures lie in -REACH..=REACH.
const REACH: i32 = 1_000_000;

/// What no two of them are apart by more than.
const FURTHEST: u32 = 2_000_000;

#[derive(Clone, Copy)]
pub struct Gains {
    pub kp: i64,
    pub ki: i64,
    pub kd: i64,
    pub alpha: i64,
    pub kt: i64,
}

#[derive(Clone, Copy)]
pub struct Settings {
    pub action: i64,
    pub lo: i64,
    pub hi: i64,
    pub out: i64,
    pub sp: i64,
    pub rate: i64,
    pub mean: usize,
    pub jump: u32,
    pub gains: [Gains; SETS],
}

#[allow(dead_code)]
#[derive(Clone, Copy)]
pub enum Command {
    Sample(i32),
    Hold,
    Put(i32),
    Automatic,
    Target(i32, i32),
    Set(i32),
}

/// A kept command with the output that it was answered.
#[allow(dead_code)]
#[derive(Clone, Copy)]
pub struct Kept {
    pub command: Command,
    pub output: i32,
}

#[allow(dead_code)]
#[derive(Clone, Copy)]
pub struct Loop {
    pub settings: Settings,
    pub automatic: bool,
    pub pending: bool,
    pub set: usize,
    pub w: i64,
    pub target: i64,
    pub rate: i64,
    pub u: i64,
    pub integral: i64,
    pub primed: bool,
    pub y: i64,
    pub window: [i32; WINDOW],
    pub seen: usize,
    pub raw: i32,
    pub number: u32,
    pub kept: [Option<Kept>; REMEMBERED],
}

/// The earliest sample that is refused: 4 out of range, 19 further than the jump from the one before.
#[derive(Debug, PartialEq, Eq)]
pub struct Refused {
    pub code: i32,
    pub place: usize,
}

/// To the nearest, halves away from zero.
fn round(x: i64) -> i64 {
    (x + 32_768 + (x >> 63)) >> 16
}

/// The sum over the count, to the nearest, halves away from zero.
fn mean(sum: i32, count: i32) -> i32 {
    let half = count / 2;
    (if sum < 0 { sum - half } else { sum + half }) / count
}

impl Settings {
    fn new(values: &[i32; VALUES]) -> Settings {
        let value = |i: usize| i64::from(values[i]);
        let gains = |k: usize| {
            let first = ONCE + GAINS * k;
            Gains {
                kp: value(first),
                ki: value(first + 1),
                kd: value(first + 2),
                alpha: value(first + 3),
                kt: value(first + 4),
            }
        };
        Settings {
            action: value(0),
            lo: value(1),
            hi: value(2),
            out: value(3),
            sp: value(4),
            rate: value(5),
            mean: values[MEAN] as usize,
            jump: values[JUMP] as u32,
            gains: std::array::from_fn(gains),
        }
    }
}

impl Loop {
    /// A fresh loop of settings whose values stand in the order of the text, automatic, with a gain set and a target.
    pub fn new(values: &[i32; VALUES], set: usize, target: i32) -> Loop {
        let settings = Settings::new(values);
        let mut kept = [None; REMEMBERED];
        let commands = [Command::Target(target, values[5]), Command::Set(set as i32), Command::Automatic];
        for (place, command) in kept.iter_mut().zip(commands) {
            *place = Some(Kept { command, output: values[3] });
        }
        Loop {
            settings,
            automatic: true,
            pending: true,
            set,
            w: settings.sp,
            target: i64::from(target),
            rate: settings.rate,
            u: settings.out,
            integral: 0,
            primed: false,
            y: 0,
            window: [0; WINDOW],
            seen: 0,
            raw: 0,
            number: 3,
            kept,
        }
    }

    fn sample(&mut self, pv: i32) -> i32 {
        let gains = self.settings.gains[self.set];
        let sign = if self.settings.action == 0 { 1 } else { -1 };
        let pv = i64::from(pv);
        self.w += (self.target - self.w).clamp(-self.rate, self.rate);
        let d = if self.primed {
            let y = self.y + round((pv * F - self.y) * gains.alpha);
            let d = round(gains.kd * sign * (self.y - y));
            self.y = y;
            d
        } else {
            self.y = pv * F;
            self.primed = true;
            0
        };
        let e = sign * (self.w - pv);
        let p = gains.kp * e;
        if self.automatic {
            if self.pending {
                self.integral = self.u * F - p - d;
                self.pending = false;
            } else {
                self.ordinary(gains, e, p, d);
            }
        }
        self.u as i32
    }

    fn ordinary(&mut self, gains: Gains, e: i64, p: i64, d: i64) {
        let g = gains.ki * e;
        let v = p + self.integral + g + d;
        let lo = self.settings.lo * F;
        let hi = self.settings.hi * F;
        let limited = v.max(lo).min(hi);
        self.u = round(limited);
        self.integral = if gains.kt > 0 {
            (self.integral + g + round(gains.kt * (limited - v))).clamp(-B, B)
        } else if g > 0 {
            self.integral.max((self.integral + g).min(hi - p - d))
        } else if g < 0 {
            self.integral.min((self.integral + g).max(lo - p - d))
        } else {
            self.integral
        };
    }

    /// The memory has the last kept samples with their outputs, newest first.
    fn remember(&mut self, samples: &[i32], out: &[i32]) {
        let taken = samples.len().min(REMEMBERED);
        self.kept.copy_within(..REMEMBERED - taken, taken);
        let newest_first = samples.iter().zip(&out[..samples.len()]).rev();
        for (place, (pv, u)) in self.kept.iter_mut().zip(newest_first) {
            *place = Some(Kept { command: Command::Sample(*pv), output: *u });
        }
        self.number += samples.len() as u32;
    }

    /// The window holds the last samples, newest first.
    fn keep(&mut self, samples: &[i32]) {
        let taken = samples.len().min(WINDOW);
        self.window.copy_within(..WINDOW - taken, taken);
        for (place, pv) in self.window.iter_mut().zip(samples.iter().rev()) {
            *place = *pv;
        }
        self.seen = WINDOW.min(self.seen + samples.len());
    }

    /// In manual no sample is too far, and the first sample of all is held against itself.
    fn first_bad(&self, samples: &[i32]) -> Option<Refused> {
        let jump = if self.automatic { self.settings.jump } else { FURTHEST };
        let mut before = if self.primed { self.raw } else { *samples.first()? };
        samples.iter().enumerate().find_map(|(place, &pv)| {
            if !(-REACH..=REACH).contains(&pv) {
                return Some(Refused { code: 4, place });
            }
            if pv.abs_diff(before) > jump {
                return Some(Refused { code: 19, place });
            }
            before = pv;
            None
        })
    }

    /// Nothing is changed where a sample is refused. The sum runs: what leaves it is one of the record's temperatures, and then one
    /// of the samples.
    #[inline(never)]
    pub fn replay(&mut self, samples: &[i32], out: &mut [i32]) -> Result<(), Refused> {
        if let Some(refused) = self.first_bad(samples) {
            return Err(refused);
        }
        let most = self.settings.mean;
        let window = self.window;
        let mut count = self.seen.min(most);
        let mut sum: i32 = window[..most].iter().sum();
        for (i, (pv, u)) in samples.iter().zip(out.iter_mut()).enumerate() {
            sum += pv - if i < most { window[most - 1 - i] } else { samples[i - most] };
            count += usize::from(count < most);
            *u = self.sample(mean(sum, count as i32));
        }
        self.keep(samples);
        self.remember(samples, out);
        if let Some(pv) = samples.last() {
            self.raw = *pv;
        }
        Ok(())
    }
}
