//! Late repeats in the proved code, as it is exported for calls from C, against the peer's: at any last
//! number, across a replay, and of memories that keep the state rules or break them.

#![cfg(target_arch = "x86_64")]

use host::delivery::{deliver, Answer};
use host::law::{Command, Loop};
use host::replay::replay;
use host::rng::{for_each_seed, Rng};
use host::settings::Settings;
use host::{example, gen};

#[link(name = "port", kind = "static")]
extern "C" {
    fn port_late(
        values: *const i32,
        values_len: usize,
        last: u32,
        earlier: *const i32,
        earlier_len: usize,
        answered: *const i32,
        answered_len: usize,
        first: u32,
        samples: *const i32,
        samples_len: usize,
        out: *mut i32,
        out_len: usize,
        number: u32,
        value: i32,
        output: *mut i32,
        told: *mut u32,
    ) -> i32;
}

/// What the exported function is given: settings, what the loop remembers, a replay, and a sample that is
/// delivered after it.
#[derive(Debug, Clone)]
struct Call {
    /// The values of the settings, in the order of the text.
    values: Vec<i32>,
    last: u32,
    /// The samples that are remembered, oldest first.
    earlier: Vec<i32>,
    /// The output that each of them was answered.
    answered: Vec<i32>,
    first: u32,
    samples: Vec<i32>,
    outputs: Vec<i32>,
    number: u32,
    value: i32,
}

/// The answer to the sample, and the whole list after the call.
type Outcome = (Answer, Vec<i32>);

impl Call {
    /// What the proved code makes of it. Output and number are always written, so what stood there is gone.
    fn proved(&self) -> Outcome {
        let mut outputs = self.outputs.clone();
        let (mut output, mut told) = (i32::MIN, u32::MAX / 2);
        // SAFETY: each pointer comes with its own length, and all of them outlive the call.
        let code = unsafe {
            port_late(
                self.values.as_ptr(),
                self.values.len(),
                self.last,
                self.earlier.as_ptr(),
                self.earlier.len(),
                self.answered.as_ptr(),
                self.answered.len(),
                self.first,
                self.samples.as_ptr(),
                self.samples.len(),
                outputs.as_mut_ptr(),
                outputs.len(),
                self.number,
                self.value,
                &mut output,
                &mut told,
            )
        };
        (Answer { code, output, last: told }, outputs)
    }

    /// What the peer makes of it.
    fn expected(&self) -> Outcome {
        match self.replayed() {
            None => (Answer { code: 11, output: 0, last: 0 }, self.outputs.clone()),
            Some((mut record, outputs)) => {
                (deliver(&mut record, self.number, Command::Sample(self.value)), outputs)
            }
        }
    }

    /// The peer's loop and list after the replay, whatever became of it; none where the settings have
    /// another length.
    fn replayed(&self) -> Option<(Loop, Vec<i32>)> {
        let values: [i32; 88] = self.values.as_slice().try_into().ok()?;
        let mut outputs = self.outputs.clone();
        let mut record = self.loop_before(&Settings::from_values(&values));
        replay(&mut record, self.first, &self.samples, &mut outputs);
        Some((record, outputs))
    }

    /// The loop of these settings after automatic, with what it remembers replaced.
    fn loop_before(&self, settings: &Settings) -> Loop {
        let mut record = Loop::make(settings).1;
        deliver(&mut record, 1, Command::Automatic);
        let commands = self.earlier.iter().map(|&raw| Command::Sample(raw));
        let memory = commands.zip(self.answered.iter().copied()).collect();
        Loop { last: self.last, memory, ..record }
    }

    /// Both answer alike; gives the outcome.
    fn agrees(&self) -> Outcome {
        let expected = self.expected();
        assert_eq!(self.proved(), expected, "{self:?}");
        expected
    }

    /// The same, and the papers' answer.
    fn answers(&self, code: i32, output: i32, last: u32) {
        assert_eq!(self.agrees().0, Answer { code, output, last }, "{self:?}");
    }

    /// The same call with another sample after the replay.
    fn then(&self, number: u32, value: i32) -> Call {
        Call { number, value, ..self.clone() }
    }
}

/// Settings C at this last number, with as many samples remembered as that asks for: under number n the
/// sample n mod 1,000, which was answered 1 more. Nothing is replayed.
fn remembering(last: u32) -> Call {
    let numbers = last - last.min(32)..last;
    let earlier: Vec<i32> = numbers.map(|before| ((before + 1) % 1_000) as i32).collect();
    Call {
        values: example::settings().values().to_vec(),
        last,
        answered: earlier.iter().map(|raw| raw + 1).collect(),
        earlier,
        first: last.wrapping_add(1),
        samples: vec![],
        outputs: vec![-7; 100],
        number: 0,
        value: 0,
    }
}

/// The same and then a replay of the samples 400, 401 and so on.
fn replaying(last: u32, count: usize) -> Call {
    Call { samples: (400..).take(count).collect(), ..remembering(last) }
}

/// Every number of this call from its latest to 40 back or 1, with its own sample and with others: "same
/// number and values, gets its first answer again: code 0, that output and its own number. A number in
/// that window with other values is 2; older is 1." The replay is kept whole.
fn every_distance(call: &Call) {
    let (_, outputs) = call.agrees();
    let count = call.samples.len() as u32;
    let last = call.last + count;
    let in_force = if count > 0 { outputs[call.samples.len() - 1] } else { 100 };
    for distance in 0..41.min(last) {
        let number = last - distance;
        let (value, output) = if number > call.last {
            let place = (number - call.last - 1) as usize;
            (call.samples[place], outputs[place])
        } else {
            ((number % 1_000) as i32, (number % 1_000) as i32 + 1)
        };
        let in_window = distance <= 31;
        if in_window {
            call.then(number, value).answers(0, output, number);
        } else {
            call.then(number, value).answers(1, in_force, last);
        }
        for other in [value + 1, value - 1, i32::MIN, i32::MAX] {
            let code = if in_window { 2 } else { 1 };
            call.then(number, other).answers(code, in_force, last);
        }
    }
    call.then(0, 0).answers(1, in_force, last);
    if let Some(ahead) = last.checked_add(2) {
        call.then(ahead, 480).answers(3, in_force, last);
    }
}

/// "that output and its own number": three are remembered, and the output in force is 100.
#[test]
fn the_first_answer_is_given_again() {
    let call = Call { earlier: vec![480, 481, 482], answered: vec![7, 0, 1_000], ..remembering(3) };
    for (number, value, answer) in [
        (1, 480, (0, 7, 1)),
        (2, 481, (0, 0, 2)),
        (3, 482, (0, 1_000, 3)),
        (1, 481, (2, 100, 3)),
        (2, 482, (2, 100, 3)),
        (3, 480, (2, 100, 3)),
        (3, i32::MAX, (2, 100, 3)),
        (0, 480, (1, 100, 3)),
        (5, 480, (3, 100, 3)),
        (u32::MAX, 480, (3, 100, 3)),
        (4, 1_000_001, (4, 100, 3)),
        (4, 480, (0, 100, 4)),
    ] {
        let (code, output, last) = answer;
        call.then(number, value).answers(code, output, last);
    }
}

/// Numbers before the replay, within it, and older than the window: as many samples as leave some of those
/// before it in the window, or none.
#[test]
fn late_repeats_are_served_across_a_replay() {
    for last in [32, 33, 50, 1_000] {
        for count in [0, 1, 2, 15, 30, 31, 32, 33, 40, 64] {
            every_distance(&replaying(last, count));
        }
    }
}

/// "it holds as many entries as the smaller of 32 and the last number"
#[test]
fn late_repeats_are_served_below_number_32() {
    for last in 0..=33 {
        for count in [0, 1, 31, 32, 33] {
            every_distance(&replaying(last, count));
        }
    }
}

/// "After number 4,294,967,295 the last 32 are served; every replay is 1." A replay may use up the numbers,
/// and one of a sample more is 13, which changes nothing.
#[test]
fn late_repeats_are_served_up_to_the_last_number() {
    for last in 4_294_967_200..=u32::MAX {
        let left = (u32::MAX - last) as usize;
        for count in [0, 1, 32, left] {
            if count <= left {
                every_distance(&replaying(last, count));
            }
        }
        let one_more = replaying(last, left + 1);
        let (_, outputs) = one_more.agrees();
        assert_eq!(outputs, vec![-7; 100], "{left} left");
        one_more.then(last, (last % 1_000) as i32).answers(0, (last % 1_000) as i32 + 1, last);
        one_more.then(last - 31, 1).answers(2, 100, last);
        one_more.then(last - 32, 1).answers(1, 100, last);
    }
    let used_up = replaying(u32::MAX - 2, 2);
    used_up.then(u32::MAX, 401).answers(0, used_up.agrees().1[1], u32::MAX);
    for first in [0, 1, u32::MAX - 31, u32::MAX] {
        let again = Call { first, samples: vec![480], ..remembering(u32::MAX) };
        assert_eq!(again.agrees().1, vec![-7; 100]);
    }
}

/// "A record breaking the state rules gets code 10, output 0 and number 0", before every other code, and a
/// replay into it writes nothing.
#[test]
fn broken_memories_get_10() {
    let broken = |call: &Call| {
        for (number, value) in [(call.last, 480), (0, 0), (1, 1), (call.last.wrapping_add(1), 480)]
        {
            call.then(number, value).answers(10, 0, 0);
        }
        assert_eq!(call.agrees().1, call.outputs);
    };
    for last in [1, 2, 7, 31, 32, 33, 1_000, u32::MAX - 1, u32::MAX] {
        for entries in 0..=40 {
            let call = replaying(last, 3);
            let list: Vec<i32> = (0..entries).map(|place| 400 + place).collect();
            let call = Call { earlier: list.clone(), answered: list, ..call };
            let enough = entries == last.min(32) as i32 || (last >= 32 && entries >= 32);
            if enough {
                assert_ne!(call.agrees().0.code, 10, "{entries} entries at {last}");
            } else {
                broken(&call);
            }
        }
        for place in 0..last.min(32) as usize {
            for outside in [-1, 1_001, i32::MIN, i32::MAX] {
                let mut call = replaying(last, 3);
                call.answered[place] = outside;
                broken(&call);
            }
            for within in [0, 1_000] {
                let mut call = replaying(last, 0);
                call.answered[place] = within;
                let number = last - last.min(32) + 1 + place as u32;
                let value = call.earlier[place];
                call.then(number, value).answers(0, within, number);
            }
        }
    }
    broken(&Call { last: 0, ..replaying(1, 1) });
}

/// Only as many are remembered as the shorter of the two lists has; and settings of another length, or that
/// make no loop, come before all.
#[test]
fn what_comes_before_the_memory() {
    let good = replaying(20, 3).then(20, 20);
    good.answers(0, 21, 20);
    for longer in [1, 2, 40] {
        let mut call = good.clone();
        call.earlier.extend(vec![480; longer]);
        call.answers(0, 21, 20);
        call = good.clone();
        call.answered.extend(vec![-1; longer]);
        call.answers(0, 21, 20);
    }
    for count in [0, 1, 26, 86, 87, 89, 176] {
        let call = Call { values: vec![1; count], ..good.clone() };
        call.answers(11, 0, 0);
        assert_eq!(call.proved().1, good.outputs);
    }
    for (place, bad) in [(0, 2), (1, 1_000), (2, 0), (3, -1), (6, 0), (7, 0), (87, 65_537)] {
        let mut call = good.clone();
        call.values[place] = bad;
        call.answers(10, 0, 0);
        assert_eq!(call.proved().1, good.outputs);
    }
}

/// A last number: few, about as many as are remembered, the most or some before, or any.
fn last_number(rng: &mut Rng) -> u32 {
    match rng.below(4) {
        0 => rng.below(45) as u32,
        1 => u32::MAX - rng.below(45) as u32,
        2 => rng.pick(&[0, 1, 31, 32, 33, u32::MAX]),
        _ => rng.bits() as u32,
    }
}

/// A random call, whose memory and replay are good in most cases.
fn call(rng: &mut Rng) -> Call {
    let settings = if rng.one_in(20) { gen::doubtful_settings(rng) } else { gen::settings(rng) };
    let last = last_number(rng);
    // Those before the last 32 are told, and are not remembered.
    let told = if last > 32 { 32 + rng.below(9) } else { last as usize };
    let entries = if rng.one_in(16) { rng.below(50) } else { told };
    let temperature = |rng: &mut Rng| gen::within(rng, -1_000_001, 1_000_001) as i32;
    let (lo, hi) = (i64::from(settings.lo.min(settings.hi)), i64::from(settings.hi));
    let mut call = Call {
        values: settings.values().to_vec(),
        last,
        earlier: (0..entries).map(|_| temperature(rng)).collect(),
        answered: (0..entries).map(|_| gen::within(rng, lo, hi) as i32).collect(),
        first: last.wrapping_add(1),
        samples: vec![],
        outputs: vec![],
        number: 0,
        value: 0,
    };
    if rng.one_in(20) && entries > 0 {
        let place = rng.below(entries);
        call.answered[place] = rng.pick(&[settings.lo.saturating_sub(1), i32::MAX]);
    }
    with_a_replay(rng, &mut call, &settings);
    with_a_sample(rng, &mut call);
    if rng.one_in(100) {
        call.values.truncate(rng.below(88));
    }
    call
}

/// Gives it a replay of up to 50 samples, in most cases one that is kept.
fn with_a_replay(rng: &mut Rng, call: &mut Call, settings: &Settings) {
    let record = call.loop_before(settings);
    let most = rng.pick(&[1, 5, 50]);
    let count = rng.below(most);
    call.samples = if rng.one_in(6) {
        gen::doubtful_samples(rng, &record, count)
    } else {
        gen::samples_for(rng, &record, count)
    };
    if rng.one_in(12) {
        let other = rng.bits() as u32;
        call.first = rng.pick(&[0, call.last, call.last.wrapping_sub(20), other]);
    }
    let places = if rng.one_in(20) { rng.below(count + 1) } else { count + rng.below(4) };
    call.outputs = (0..places).map(|_| rng.between(-9, 9) as i32).collect();
}

/// Gives it a sample after the replay: a late one that was kept, as far as 40 back, another under such a
/// number, the next, or anything.
fn with_a_sample(rng: &mut Rng, call: &mut Call) {
    let (record, _) = call.replayed().expect("88 values");
    let distance = rng.below(41) as u32;
    call.number = record.last.saturating_sub(distance);
    call.value = sample_of(call, call.number).unwrap_or(480);
    match rng.below(12) {
        0..=5 => {}
        6 => call.value = call.value.wrapping_add(rng.pick(&[1, -1])),
        7 => call.value = rng.bits() as i32,
        8 => call.number = rng.pick(&[0, record.last.saturating_add(2), u32::MAX]),
        _ => {
            call.number = record.last.saturating_add(1);
            call.value = gen::doubtful_samples(rng, &record, 1)[0];
        }
    }
}

/// The sample that the call tells of this number: of the replay, if it was kept, or of those before it.
fn sample_of(call: &Call, number: u32) -> Option<i32> {
    let (record, _) = call.replayed()?;
    let kept = (record.last - call.last) as usize;
    let told = call.earlier.iter().chain(&call.samples[..kept]);
    told.rev().nth(record.last.checked_sub(number)? as usize).copied()
}

/// Repeats at each distance from 0 to 40, of which those of the last 32 are served; and every code that a
/// sample can get.
#[test]
fn random_calls_are_answered_alike() {
    let (mut codes, mut kept, mut repeats) = ([0; 20], 0, [[0; 41]; 2]);
    for_each_seed(40_000, |rng| {
        let call = call(rng);
        let (Answer { code, .. }, _) = call.agrees();
        let last = call.replayed().map_or(0, |(record, _)| record.last);
        let next = u64::from(call.number) > u64::from(last);
        codes[code as usize] += 1;
        kept += usize::from(code == 0 && next);
        if sample_of(&call, call.number) == Some(call.value) && !next && call.number > 0 && code < 2
        {
            repeats[code as usize][(last - call.number) as usize] += 1;
        }
    });
    assert!([1, 2, 3, 4, 10, 11, 19].iter().all(|&code| codes[code] > 100), "{codes:?}");
    assert!(kept > 2_000, "{kept} kept");
    let [served, old] = repeats;
    assert!(served[..32].iter().all(|&count| count > 100), "{served:?}");
    assert!(old[32..].iter().all(|&count| count > 50), "{old:?}");
    assert_eq!((served[32..].iter().sum::<i32>(), old[..32].iter().sum::<i32>()), (0, 0));
}
