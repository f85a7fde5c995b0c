//! 01's own example: settings C, and the loop that its bench log starts from. For request 3, ovens
//! whose outputs show a half at each place that rounds.

use crate::by_hand::PLACES;
use crate::law::{Command, Loop};
use crate::memory::REMEMBERED;
use crate::settings::{GainSet, Settings, SETS};

/// "Settings C, whole": with requests 5, 7 and 8 it is a text of the shortest form.
pub const C: &str = "\
action=0
lo=0
hi=1000
out=100
sp=500
rate=50
kp0=65536
ki0=16384
kd0=0
alpha0=65536
kt0=0
kp1=131072
ki1=16384
kd1=65536
alpha1=32768
kt1=0
kp2=65536
ki2=16384
kd2=0
alpha2=65536
kt2=32768
kp3=32768
ki3=0
kd3=0
alpha3=65536
kt3=0
";

/// Settings C as a record, "with sets 4 to 15 equal to set 0", "read as mean 1", and without a line
/// of the jump, which "means 2,000,000".
pub fn settings() -> Settings {
    let set = |kp, ki, kd, alpha, kt| GainSet { kp, ki, kd, alpha, kt };
    let mut sets = [set(65_536, 16_384, 0, 65_536, 0); SETS];
    sets[1] = set(131_072, 16_384, 65_536, 32_768, 0);
    sets[2] = set(65_536, 16_384, 0, 65_536, 32_768);
    sets[3] = set(32_768, 0, 0, 65_536, 0);
    Settings {
        action: 0,
        lo: 0,
        hi: 1_000,
        out: 100,
        sp: 500,
        rate: 50,
        mean: 1,
        jump: 2_000_000,
        sets,
    }
}

/// "A fresh loop from C".
pub fn fresh() -> Loop {
    Loop::make(&settings()).1
}

/// The same at another last number, which few loops reach: all that it remembers is this command, with
/// the output in force.
pub fn at_number(last: u32, command: Command) -> Loop {
    let fresh = fresh();
    let entries = REMEMBERED.min(last as usize);
    let memory = (0..entries).map(|_| (command, fresh.u)).collect();
    Loop { last, memory, ..fresh }
}

/// An oven with its samples and its outputs, worked out by hand, which would be others, were a half
/// below zero rounded up.
#[derive(Debug, Clone, PartialEq, Eq)]
pub struct HalfOven {
    /// Its settings; sp is 0, so that e = -pv.
    pub settings: Settings,
    /// Its temperatures. The first is 0 on a transfer sample, which leaves I = out × F.
    pub samples: Vec<i32>,
    /// The outputs.
    pub outputs: Vec<i32>,
}

/// A half at each place that rounds: "the filter's step, D, the output, the share of kt", and the
/// mean, which is "rounded as in request 3".
pub fn half_ovens() -> [HalfOven; PLACES] {
    [
        half_in_the_filter(),
        half_in_d(),
        half_in_the_output(),
        half_in_the_share(),
        half_in_the_mean(),
    ]
}

/// alpha = 1/2, kd = 1, kp = 1/2, out = -1, and pv = -1 for 17 samples: P + I = -F/2.
///
/// y starts at 0, F above pv, and goes down by F/2, F/4, .. 1: D = F/2, F/4, .. 1, and
/// v = -F/2 + D gives 0 sixteen times. Then pv × F - y = -1, and the step of -0.5 becomes -1:
/// D = 1, v = -32,767 gives 0. With a step of 0 it would be -32,768, which gives -1.
fn half_in_the_filter() -> HalfOven {
    let gains = GainSet { kp: 32_768, ki: 0, kd: 65_536, alpha: 32_768, kt: 0 };
    let samples = [vec![0], vec![-1; 17]].concat();
    let outputs = [vec![-1], vec![0; 17]].concat();
    HalfOven { settings: half_settings(-1, gains), samples, outputs }
}

/// alpha = 1/F, kd = 1/2, kp = 1/2, out = 1, and pv = 1: y goes from 0 to 1, and D of -0.5 becomes
/// -1. P + I = F/2, so that v = 32,767 gives 0. With D = 0 it would be 32,768, which gives 1.
fn half_in_d() -> HalfOven {
    let gains = GainSet { kp: 32_768, ki: 0, kd: 32_768, alpha: 1, kt: 0 };
    HalfOven { settings: half_settings(1, gains), samples: vec![0, 1], outputs: vec![1, 0] }
}

/// kp = 1/2, out = 0, and pv = 1: v = P = -32,768, and the output of -0.5 becomes -1.
fn half_in_the_output() -> HalfOven {
    let gains = GainSet { kp: 32_768, ki: 0, kd: 0, alpha: 65_536, kt: 0 };
    HalfOven { settings: half_settings(0, gains), samples: vec![0, 1], outputs: vec![0, -1] }
}

/// kt = 1/2, kp = 1/F, out = hi = 1, and pv = -1: v = F + 1 is one fine unit past the limit, and
/// the share of -0.5 becomes -1: I = F - 1. Then pv = 32,768 gives P = -32,768 and v = 32,767,
/// which gives 0. With a share of 0 it would be 32,768, which gives 1.
fn half_in_the_share() -> HalfOven {
    let gains = GainSet { kp: 1, ki: 0, kd: 0, alpha: 65_536, kt: 32_768 };
    let settings = Settings { hi: 1, ..half_settings(1, gains) };
    HalfOven { settings, samples: vec![0, -1, 32_768], outputs: vec![1, 1, 0] }
}

/// mean = 2, kp = 1, out = 0, and pv = -1 after 0: the mean of -0.5 becomes -1, and u = P = 1. With a
/// mean of 0 it would be 0.
fn half_in_the_mean() -> HalfOven {
    let gains = GainSet { kp: 65_536, ki: 0, kd: 0, alpha: 65_536, kt: 0 };
    let settings = Settings { mean: 2, ..half_settings(0, gains) };
    HalfOven { settings, samples: vec![0, -1], outputs: vec![0, 1] }
}

fn half_settings(out: i32, gains: GainSet) -> Settings {
    Settings { lo: -10, hi: 10, out, sp: 0, rate: 1, sets: [gains; SETS], ..settings() }
}
