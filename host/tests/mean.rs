//! Request 7, "Moving mean ahead of the filter".

// What the papers say of the settings text is the matter of other tests.
#[allow(dead_code)]
mod papers;

use host::by_hand::{amounts, nearest, nearest_over, Halves};
use host::delivery::{deliver, Answer};
use host::example;
use host::gen;
use host::law::{obey, Command, Loop, Mode};
use host::refusal::Refusal;
use host::replay::{replay, Replayed};
use host::rng::{for_each_seed, Rng};
use host::settings::Settings;
use papers::MEANS;
use Command::{Automatic, Hold, Put, Sample, Set};

/// A fresh loop from C with this mean. In its set 0 alpha is one, so that y is what the law reads.
fn fresh(mean: i32) -> Loop {
    Loop::make(&Settings { mean, ..example::settings() }).1
}

/// Gives the loop a command that it has to accept.
fn accept(record: &mut Loop, command: Command) {
    assert_eq!(obey(record, command), Ok(()), "{command:?}");
}

/// The temperatures that the law reads of these samples, one after the other.
fn read(record: &mut Loop, samples: &[i32]) -> Vec<i64> {
    let mut read = |&raw: &i32| {
        accept(record, Sample(raw));
        assert_eq!(record.y % Loop::F, 0);
        record.y / Loop::F
    };
    samples.iter().map(&mut read).collect()
}

/// Temperatures of either sign, the ends of the range among them.
fn temperatures(rng: &mut Rng, count: usize) -> Vec<i32> {
    (0..count).map(|_| gen::within(rng, -1_000_000, 1_000_000) as i32).collect()
}

/// The window of a loop that has kept these samples: "128 places that starts filled with zeros,
/// newest first".
fn window_of(samples: &[i32]) -> [i32; 128] {
    let mut window = [0; 128];
    for (place, &raw) in window.iter_mut().zip(samples.iter().rev()) {
        *place = raw;
    }
    window
}

/// "Halves of sum / m go away from zero: 480, 481 gives 481; -480, -481 gives -481."
#[test]
fn halves_go_away_from_zero() {
    let pairs = [(480, 481, 481), (480, 479, 480), (0, 1, 1), (3, -2, 1), (2, -2, 0), (5, 7, 6)];
    for (one, other, mean) in pairs {
        for s in [1, -1] {
            let samples = [s * one, s * other];
            assert_eq!(read(&mut fresh(2), &samples)[1], i64::from(s * mean), "{samples:?}");
        }
    }
    // Of four: 0.25, 0.5, 0.75 and 1.25 above 7.
    for (sum, mean) in [(29, 7), (30, 8), (31, 8), (33, 8)] {
        for s in [1, -1] {
            let samples = [s, s, s, s * (sum - 3)];
            assert_eq!(read(&mut fresh(4), &samples)[3], i64::from(s * mean), "{samples:?}");
        }
    }
}

/// "mean over the last m temperatures [..]. Until m are seen, it is over those seen. The sum is
/// exact", for each m, over more samples than two windows hold.
#[test]
fn the_mean_is_over_the_last_m_or_those_seen() {
    let mut rng = Rng::new(7);
    for mean in 1..=128 {
        let samples = temperatures(&mut rng, 300);
        let reads = read(&mut fresh(mean), &samples);
        for (place, read) in reads.into_iter().enumerate() {
            let seen = &samples[..=place];
            let last = &seen[seen.len().saturating_sub(mean as usize)..];
            let sum = last.iter().map(|&raw| i64::from(raw)).sum();
            assert_eq!(read, nearest_over(sum, last.len() as i64), "mean {mean}, sample {place}");
        }
    }
}

/// "Zeros that fill the window are in no mean."
#[test]
fn a_steady_temperature_is_its_own_mean_from_the_first_sample() {
    for mean in 1..=128 {
        for raw in [1_000_000, 480, 1, -1, -1_000_000] {
            assert_eq!(read(&mut fresh(mean), &[raw; 130]), [i64::from(raw); 130], "mean {mean}");
        }
    }
}

/// "The window holds the last 128 whatever m is."
#[test]
fn the_window_holds_the_last_128_newest_first() {
    let mut rng = Rng::new(128);
    for mean in MEANS {
        let samples = temperatures(&mut rng, 300);
        let mut record = fresh(mean);
        for count in 0..=samples.len() {
            assert_eq!(record.window, window_of(&samples[..count]), "{count} samples");
            assert_eq!(record.seen, count.min(128));
            if let Some(&raw) = samples.get(count) {
                accept(&mut record, Sample(raw));
            }
        }
    }
}

/// "Nothing but a kept sample touches it": no other command, no repeat and no refusal.
#[test]
fn the_window_takes_every_kept_sample_and_nothing_else() {
    let (mut kept, mut refused, mut full) = (0, 0, 0);
    for_each_seed(200, |rng| {
        let settings = gen::settings(rng);
        let mut record = Loop::make(&settings).1;
        let mut samples = vec![];
        for next in gen::deliveries(rng, &settings, 600) {
            let last = record.last;
            let answer = deliver(&mut record, next.number, next.command);
            match next.command {
                Sample(raw) if record.last != last => samples.push(raw),
                Sample(_) => refused += usize::from(answer.code != 0),
                _ => {}
            }
            assert_eq!(record.window, window_of(&samples), "{next:?}");
            assert_eq!(record.seen, samples.len().min(128));
        }
        kept += samples.len();
        full += usize::from(samples.len() > 128);
    });
    assert!(kept > 30_000 && refused > 5_000 && full > 150, "{kept} {refused} {full}");
}

/// "The window takes every kept sample, in manual too": the transfer sample 470 reads 475, so that
/// e = 25 and I = 100 - 25.
#[test]
fn manual_samples_enter_the_window() {
    let mut record = fresh(2);
    for command in [Sample(400), Sample(480), Put(100), Set(2), Set(0), Automatic, Sample(470)] {
        accept(&mut record, command);
    }
    assert_eq!((record.u, record.integral), (100, 75 * Loop::F));
    assert_eq!((record.window, record.seen), (window_of(&[400, 480, 470]), 3));
    // Hold and what follows it leave the window, too; the next is of 470 and 460.
    for command in [Hold, Put(90), Automatic, Sample(460)] {
        accept(&mut record, command);
    }
    assert_eq!((record.u, record.integral), (90, 55 * Loop::F));
}

/// "code 4 tests the raw one": were it the mean, 1,000,001 among zeros would be taken.
#[test]
fn code_4_tests_the_raw_temperature() {
    let mut record = fresh(128);
    read(&mut record, &[0; 200]);
    for raw in [1_000_001, -1_000_001, i32::MAX, i32::MIN] {
        let before = record;
        assert_eq!(obey(&mut record, Sample(raw)), Err(Refusal::Temperature), "{raw}");
        assert_eq!(deliver(&mut record, 1, Sample(raw)).code, 4, "{raw}");
        let mut outputs = [-7; 3];
        let replayed = replay(&mut record, 1, &[0, raw, raw], &mut outputs);
        assert_eq!(replayed, Replayed { code: 4, place: 1, count: 0 });
        assert_eq!((record, outputs), (before, [-7; 3]));
    }
    // 1,000,000 / 128 = 7,812.5
    assert_eq!(read(&mut record.clone(), &[1_000_000]), [7_813]);
    assert_eq!(read(&mut record, &[-1_000_000]), [-7_813]);
}

/// The remembered command is the raw one: the sample 470 is read as 475, and 475 is another.
#[test]
fn a_repeat_needs_the_raw_temperature() {
    let mut record = fresh(2);
    for (number, command) in (1..).zip([Automatic, Sample(480), Sample(470)]) {
        assert_eq!(deliver(&mut record, number, command).code, 0);
    }
    let before = record;
    assert_eq!(record.memory.0[0].command, Some(Sample(470)));
    let answer = |code| Answer { code, output: record.u, last: 3 };
    assert_eq!(deliver(&mut record.clone(), 3, Sample(470)), answer(0));
    assert_eq!(deliver(&mut record.clone(), 3, Sample(475)), answer(2));
    assert_eq!(deliver(&mut record.clone(), 2, Sample(475)), answer(2), "nor the one before it");
    deliver(&mut record, 3, Sample(470));
    assert_eq!(record, before, "a repeat does not enter the window");
}

/// "primed with none seen, and not primed with some seen, are served"
#[test]
fn nothing_ties_the_seen_to_the_primed() {
    let primed = Loop { primed: true, y: 480 * Loop::F, ..fresh(2) };
    assert_eq!(read(&mut primed.clone(), &[470]), [470]);
    let unprimed = Loop { window: window_of(&[400, 480]), seen: 2, ..fresh(2) };
    assert_eq!(read(&mut unprimed.clone(), &[470]), [475]);
}

/// 01's law of a sample as it stood before the request, and with the halves of request 3: all that
/// changes of the record, which has no window.
fn sample_of_01(before: &Loop, pv: i32) -> Loop {
    let mut after = *before;
    let gains = before.settings.sets[before.set as usize];
    let [kp, ki, kd, alpha] = [gains.kp, gains.ki, gains.kd, gains.alpha].map(i64::from);
    let [low, high] = [before.settings.lo, before.settings.hi].map(|u| i64::from(u) * Loop::F);
    let s = if before.settings.action == 0 { 1 } else { -1 };
    let distance = before.target - before.w;
    after.w += distance.signum() * distance.abs().min(before.rate);
    let mut d = 0;
    after.y = i64::from(pv) * Loop::F;
    if before.primed {
        after.y = before.y + nearest((after.y - before.y) * alpha);
        d = nearest(kd * s * (before.y - after.y));
    }
    after.primed = true;
    let e = s * i64::from(after.w - pv);
    let (p, g) = (kp * e, ki * e);
    if before.pending {
        after.pending = false;
        after.integral = i64::from(before.u) * Loop::F - p - d;
    } else if before.mode == Mode::Automatic {
        let i = before.integral;
        let v = p + i + g + d;
        let limited = v.clamp(low, high);
        after.u = nearest(limited) as i32;
        after.integral = match (gains.kt, g.signum()) {
            (0, 1) => i.max((i + g).min(high - p - d)),
            (0, -1) => i.min((i + g).max(low - p - d)),
            (0, _) => i,
            (kt, _) => i + g + nearest(i64::from(kt) * (limited - v)),
        };
        after.integral = after.integral.clamp(-Loop::B, Loop::B);
    }
    after
}

/// Samples from any record that keeps the state rules, reached or not: the record before each, its
/// raw temperature, and the record after it but for the window and the last raw temperature, which the
/// law of 01 does not know.
fn for_each_sample(settle: impl Fn(&mut Loop), mut show: impl FnMut(&Loop, i32, Loop)) {
    for_each_seed(1_500, |rng| {
        let mut record = gen::record(rng);
        settle(&mut record);
        for _ in 0..40 {
            let before = record;
            let command = gen::command(rng, &record);
            let kept = obey(&mut record, command).is_ok();
            let Loop { window, seen, last_raw, .. } = before;
            match command {
                Sample(raw) if kept => {
                    show(&before, raw, Loop { window, seen, last_raw, ..record });
                }
                _ => assert_eq!((record.window, record.seen), (window, seen), "{command:?}"),
            }
        }
    });
}

/// "With m = 1 the law is 01's."
#[test]
fn with_mean_1_the_law_is_that_of_01() {
    let mut samples = 0;
    let settle = |record: &mut Loop| record.settings.mean = 1;
    for_each_sample(settle, |before, raw, after| {
        samples += 1;
        assert_eq!(after, sample_of_01(before, raw), "{raw} on {before:?}");
    });
    assert!(samples > 20_000, "{samples} samples");
}

/// "The law then reads the mean wherever 01 writes pv".
#[test]
fn the_law_is_that_of_01_with_the_mean_for_pv() {
    let (mut samples, mut others, mut halves) = (0, 0, Halves::default());
    for_each_sample(
        |_| {},
        |before, raw, after| {
            let (sum, count) = amounts(before, raw).mean;
            let pv = nearest_over(sum, count) as i32;
            assert_eq!(after, sample_of_01(before, pv), "{raw} on {before:?}");
            samples += 1;
            others += usize::from(pv != raw);
            halves.add(before, Sample(raw));
        },
    );
    assert!(samples > 20_000 && others > 5_000, "{others} of {samples} read as others");
    assert!(halves.fewest() > 0, "{halves:?}");
}
