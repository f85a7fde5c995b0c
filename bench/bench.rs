//! The proved replay against the rewrite in ordinary Rust, in one x86-64 process: equal input, equal outputs, instructions
//! a sample and time. It fails where the proved side takes more than one and a half times as much.
mod count;
mod rewrite;

use rewrite::{Loop, Refused, GAINS, JUMP, MEAN, ONCE, SETS, VALUES};
use std::arch::asm;
use std::time::Instant;

const SAMPLES: usize = 864_000;
const TURNS: usize = 31;
const MOST: f64 = 1.5;
const TARGET: i32 = 800;

/// The sets of settings C that document 01 lists.
const LISTED: usize = 4;

/// A jump that refuses nothing, and the one that is just enough for the smooth series.
const ANY: i32 = 2_000_000;
const ENOUGH: i32 = 3;

/// Settings C of document 01 with mean 1 and a jump that refuses nothing, in the order of the text.
const SHORT: [i32; ONCE + GAINS * LISTED] = [
    0, 0, 1000, 100, 500, 50, 1, ANY, //
    65536, 16384, 0, 65536, 0, //
    131072, 16384, 65536, 32768, 0, //
    65536, 16384, 0, 65536, 32768, //
    32768, 0, 0, 65536, 0,
];

/// The same with every other set equal to set 0.
const C: [i32; VALUES] = {
    let mut values = [0; VALUES];
    let mut i = 0;
    while i < VALUES {
        values[i] = SHORT[if i < SHORT.len() { i } else { ONCE + (i - ONCE) % GAINS }];
        i += 1;
    }
    values
};

extern "C" {
    fn port_replay(
        values: *const i32,
        values_len: usize,
        set: i32,
        target: i32,
        before: i32,
        held: i32,
        first: u32,
        samples: *const i32,
        samples_len: usize,
        out: *mut i32,
        out_len: usize,
        place: *mut usize,
    ) -> i32;
}

/// Keeps the optimiser from knowing a value.
fn hidden<T>(x: T) -> T {
    unsafe {
        asm!("/* {0} */", in(reg) &x, options(nostack, preserves_flags));
    }
    x
}

/// A loop of settings C with this mean, jump and gain set.
#[derive(Clone, Copy)]
struct Case {
    mean: i32,
    jump: i32,
    set: usize,
}

impl Case {
    fn values(self) -> [i32; VALUES] {
        let mut values = C;
        values[MEAN] = self.mean;
        values[JUMP] = self.jump;
        values
    }
}

type Replay = fn(Case, &[i32], &mut [i32]) -> Result<(), Refused>;

/// The sample before the replay is refused, so that the replay's first is the first of all; it has number 4.
fn proved(case: Case, samples: &[i32], out: &mut [i32]) -> Result<(), Refused> {
    let values = case.values();
    let (set, before, held, first) = (case.set as i32, i32::MAX, 0, 4);
    let mut place = 0;
    let code = unsafe {
        port_replay(
            values.as_ptr(),
            values.len(),
            set,
            TARGET,
            before,
            held,
            first,
            samples.as_ptr(),
            samples.len(),
            out.as_mut_ptr(),
            out.len(),
            &mut place,
        )
    };
    match code {
        0 => Ok(()),
        _ => Err(Refused { code, place }),
    }
}

fn rust(case: Case, samples: &[i32], out: &mut [i32]) -> Result<(), Refused> {
    Loop::new(hidden(&case.values()), case.set, TARGET).replay(samples, out)
}

fn run(replay: Replay, case: Case, samples: &[i32], out: &mut [i32]) {
    let done = hidden(replay(hidden(case), hidden(samples), out));
    assert_eq!(done, Ok(()), "the replay is refused");
}

/// Exact: what 1,000 more samples add.
fn instructions(replay: Replay, case: Case, samples: &[i32]) -> f64 {
    let mut out = vec![0; 1256];
    let few = count::count(|| run(replay, case, &samples[..256], &mut out[..256]));
    let many = count::count(|| run(replay, case, &samples[..1256], &mut out));
    (many - few) as f64 / 1000.0
}

fn seconds(replay: Replay, case: Case, samples: &[i32], out: &mut [i32]) -> f64 {
    let start = Instant::now();
    run(replay, case, samples, out);
    start.elapsed().as_secs_f64()
}

fn median(mut times: Vec<f64>) -> f64 {
    times.sort_by(|a, b| a.partial_cmp(b).unwrap());
    times[times.len() / 2]
}

/// An oven's drift by a few units a sample, or temperatures anywhere in the range.
fn series(wild: bool) -> Vec<i32> {
    let mut state: u64 = 12_345;
    let mut drift: i64 = 480;
    let mut next = || {
        state = state.wrapping_mul(6_364_136_223_846_793_005).wrapping_add(1_442_695_040_888_963_407);
        let bits = (state >> 33) as i64;
        if wild {
            return (bits % 2_000_001 - 1_000_000) as i32;
        }
        drift = (drift + bits % 7 - 3).clamp(300, 900);
        drift as i32
    };
    (0..SAMPLES).map(|_| next()).collect()
}

/// The earliest sample further than a jump one less than enough is refused by both.
fn refused_alike() {
    let case = Case { mean: 1, jump: ENOUGH - 1, set: 0 };
    let samples = series(false);
    let mut out = vec![0; SAMPLES];
    let place = (1..SAMPLES).find(|&i| (samples[i] - samples[i - 1]).abs() == ENOUGH).expect("the series is smooth");
    for replay in [proved, rust] {
        assert_eq!(replay(case, &samples, &mut out), Err(Refused { code: 19, place }));
    }
}

/// One line of the report, and whether both ratios are within bounds.
fn compare(case: Case, wild: bool, emulated: bool) -> bool {
    let samples = series(wild);
    let (mut ours, mut theirs) = (vec![0; SAMPLES], vec![1; SAMPLES]);
    let (mut a, mut b) = (vec![], vec![]);
    for _ in 0..TURNS {
        // by turns, so that what disturbs one disturbs the other
        a.push(seconds(proved, case, &samples, &mut ours));
        b.push(seconds(rust, case, &samples, &mut theirs));
    }
    assert!(ours == theirs, "the outputs differ");
    let (steps, rust_steps) = (instructions(proved, case, &samples), instructions(rust, case, &samples));
    let (time, rust_time) = (median(a), median(b));
    let name = if wild { "wild" } else { "smooth" };
    let Case { mean, jump, set } = case;
    println!(
        "mean {mean:3} set {set:2} {name:6} jump {jump:7}  instructions a sample {steps:6.2} to {rust_steps:6.2}, ratio {:.3}  time {:6.2} ms to {:6.2} ms, ratio {:.3}{}",
        steps / rust_steps,
        time * 1e3,
        rust_time * 1e3,
        time / rust_time,
        if emulated { " (emulated: says nothing)" } else { "" },
    );
    steps / rust_steps <= MOST && (emulated || time / rust_time <= MOST)
}

/// With mean 1 the sets that differ, and the last; with a mean over few and over all that the window holds, two of them.
fn cases() -> impl Iterator<Item = Case> {
    let each = (0..LISTED).chain([SETS - 1]).map(|set| Case { mean: 1, jump: ANY, set });
    let means = [7, 128].into_iter().flat_map(|mean| [0, 1].map(|set| Case { mean, jump: ANY, set }));
    each.chain(means)
}

fn main() {
    let emulated = std::env::var("X86_EMULATED").is_ok();
    println!("a replay of {SAMPLES} samples, proved to ordinary Rust");
    let mut within = true;
    refused_alike();
    for case in cases() {
        for (wild, jump) in [(false, ENOUGH), (false, ANY), (true, ANY)] {
            within &= compare(Case { jump, ..case }, wild, emulated);
        }
    }
    println!("{}", if within { "every ratio within 1.5" } else { "A RATIO ABOVE 1.5" });
    std::process::exit(i32::from(!within));
}
