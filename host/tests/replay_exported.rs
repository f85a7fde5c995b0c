//! The proved replay, as it is exported for calls from C, against the peer's: code, place and every
//! number of the list.

#![cfg(target_arch = "x86_64")]

use host::delivery::deliver;
use host::law::{Command, Loop};
use host::replay::replay;
use host::rng::{for_each_seed, Rng};
use host::settings::Settings;
use host::{example, gen};

#[link(name = "port", kind = "static")]
extern "C" {
    fn port_replay(
        values: *const i32,
        values_len: usize,
        set: i32,
        target: i32,
        before: i32,
        held: i32,
        first: u32,
        samples: *const i32,
        samples_len: usize,
        out: *mut i32,
        out_len: usize,
        place: *mut usize,
    ) -> i32;
}

/// What the exported function is given: settings, what is delivered before the replay, and the replay.
#[derive(Debug, Clone)]
struct Call {
    /// The values of the settings, in the order of the text.
    values: Vec<i32>,
    set: i32,
    target: i32,
    /// The sample before the replay; where it is refused, the loop is not primed.
    before: i32,
    /// Whether a hold follows it: where this is not 0.
    held: i32,
    first: u32,
    samples: Vec<i32>,
    outputs: Vec<i32>,
}

/// The code, the place and the whole list after a call.
type Outcome = (i32, usize, Vec<i32>);

impl Call {
    /// What the proved replay makes of it. The place is always written, so what stood there is gone.
    fn proved(&self) -> Outcome {
        let mut outputs = self.outputs.clone();
        let mut place = usize::MAX;
        // SAFETY: each pointer comes with its own length, and all of them outlive the call.
        let code = unsafe {
            port_replay(
                self.values.as_ptr(),
                self.values.len(),
                self.set,
                self.target,
                self.before,
                self.held,
                self.first,
                self.samples.as_ptr(),
                self.samples.len(),
                outputs.as_mut_ptr(),
                outputs.len(),
                &mut place,
            )
        };
        (code, place, outputs)
    }

    /// What the peer makes of it.
    fn expected(&self) -> Outcome {
        let mut outputs = self.outputs.clone();
        let values: [i32; 88] = match self.values.as_slice().try_into() {
            Ok(values) => values,
            Err(_) => return (11, 0, outputs),
        };
        let settings = Settings::from_values(&values);
        let mut record = self.loop_before(&settings);
        let answer = replay(&mut record, self.first, &self.samples, &mut outputs);
        (answer.code, answer.place, outputs)
    }

    /// The loop of these settings after the five deliveries, whatever becomes of each.
    fn loop_before(&self, settings: &Settings) -> Loop {
        let mut record = Loop::make(settings).1;
        let aim = Command::Target { target: self.target, rate: settings.rate };
        let before =
            [Command::Automatic, Command::Set(self.set), aim, Command::Sample(self.before)];
        let hold = (self.held != 0).then_some(Command::Hold);
        for (number, command) in (1..).zip(before.into_iter().chain(hold)) {
            deliver(&mut record, number, command);
        }
        record
    }

    /// Both answer alike; gives the code.
    fn agrees(&self) -> i32 {
        let expected = self.expected();
        assert_eq!(self.proved(), expected, "{self:?}");
        let (code, _, outputs) = expected;
        assert!(code == 0 || outputs == self.outputs, "refused, and yet the list has changed");
        code
    }

    /// The same, and the papers' code and place.
    fn answers(&self, code: i32, place: usize) {
        assert_eq!(self.agrees(), code, "{self:?}");
        assert_eq!(self.proved().1, place, "{self:?}");
    }

    fn with(&self, samples: &[i32]) -> Call {
        Call { samples: samples.to_vec(), ..self.clone() }
    }
}

/// Settings C with jump=10 in automatic, the sample before 480 under number 4, and a list of four places.
fn tight() -> Call {
    let settings = Settings { jump: 10, ..example::settings() };
    Call {
        values: settings.values().to_vec(),
        set: 0,
        target: 500,
        before: 480,
        held: 0,
        first: 5,
        samples: vec![],
        outputs: vec![-7; 4],
    }
}

/// The sample before is the transfer sample with I = 80; then 490 gives 10 + 80 + 2.5, 480 gives
/// 20 + 82.5 + 5, 470 gives 30 + 87.5 + 7.5 and 480 gives 20 + 95 + 5.
#[test]
fn samples_within_the_jump_are_taken_and_later_places_stay() {
    let outputs = |samples: &[i32]| tight().with(samples).proved();
    assert_eq!(outputs(&[490, 480, 470]), (0, 0, vec![93, 108, 125, -7]));
    assert_eq!(outputs(&[490, 480, 470, 480]), (0, 0, vec![93, 108, 125, 120]));
    assert_eq!(outputs(&[]), (0, 0, vec![-7; 4]));
    for samples in [&[490, 480, 470][..], &[490, 480, 470, 480], &[]] {
        tight().with(samples).answers(0, 0);
    }
}

/// "jump=10, last kept 480: [490, 479] is 19 at 1; [490, 501, 1000001] is 19 at 1; [490, 1000001, 5] is
/// 4 at 1." Exactly jump away is taken, up and down, at the first place and at a later one.
#[test]
fn the_earliest_bad_sample_is_told_with_its_code() {
    let cases: [(&[i32], i32, usize); 17] = [
        (&[490, 479], 19, 1),
        (&[490, 501, 1_000_001], 19, 1),
        (&[490, 1_000_001, 5], 4, 1),
        (&[490], 0, 0),
        (&[491], 19, 0),
        (&[470], 0, 0),
        (&[469], 19, 0),
        (&[480, 490, 500, 510], 0, 0),
        (&[480, 490, 500, 511], 19, 3),
        (&[480, 470, 460, 450], 0, 0),
        (&[480, 470, 460, 449], 19, 3),
        (&[491, 1_000_001], 19, 0),
        (&[1_000_001, 491], 4, 0),
        (&[i32::MIN, i32::MAX], 4, 0),
        (&[480, i32::MAX, 480], 4, 1),
        (&[480, 400, 480, 400], 19, 1),
        (&[480, 480, -1_000_001, 480], 4, 2),
    ];
    for (samples, code, place) in cases {
        tight().with(samples).answers(code, place);
    }
}

/// "Not primed, automatic: [1000000, -1000000] is 19 at 1"; in manual nothing is wild.
#[test]
fn the_first_sample_and_manual_mode_are_exempt() {
    let leap = tight().with(&[1_000_000, -1_000_000]);
    // The sample before is refused, and with it nothing is kept: the next number is 4.
    let unprimed = Call { before: i32::MAX, first: 4, ..leap.clone() };
    unprimed.answers(19, 1);
    unprimed.with(&[1_000_000, 999_990, 999_979]).answers(19, 2);
    unprimed.with(&[1_000_000, 999_990, 999_980]).answers(0, 0);
    for held in [1, 2, -1, i32::MIN, i32::MAX] {
        Call { held, ..unprimed.clone() }.answers(19, 1);
        let held = Call { held, first: 6, ..leap.clone() };
        held.answers(0, 0);
        held.with(&[0, 1_000_001, 0]).answers(4, 1);
    }
    leap.answers(19, 0);
    for (jump, code, place) in [(1_999_999, 19, 1), (2_000_000, 0, 0)] {
        let mut wide = unprimed.clone();
        wide.values[7] = jump;
        wide.answers(code, place);
    }
}

/// "first number 0 or at most last: 1; above last + 1: 3; 12; 13; then 4", and 19; a settings record of
/// another length, or one that makes no loop, comes before all.
#[test]
fn what_comes_before_the_samples() {
    let wild = tight().with(&[491, 1_000_001]);
    for (first, code) in [(0, 1), (1, 1), (4, 1), (5, 19), (6, 3), (u32::MAX, 3)] {
        Call { first, ..wild.clone() }.answers(code, 0);
    }
    for (places, code) in [(0, 12), (1, 12), (2, 19), (3, 19)] {
        Call { outputs: vec![-7; places], ..wild.clone() }.answers(code, 0);
    }
    for count in [0, 1, 26, 86, 87, 89, 176] {
        Call { values: vec![1; count], ..wild.clone() }.answers(11, 0);
    }
    for (place, bad) in
        [(0, 2), (1, 1_000), (2, 0), (3, -1), (6, 0), (6, 129), (7, 0), (7, 2_000_001)]
    {
        let mut broken = wild.clone();
        broken.values[place] = bad;
        broken.answers(10, 0);
    }
}

/// The test uses the raw sample before: neither its mean nor the filter.
#[test]
fn neither_the_mean_nor_the_filter_is_compared() {
    for set in [0, 1] {
        for mean in [1, 4, 128] {
            let mut call = Call { set, ..tight().with(&[490, 500, 510, 520]) };
            call.values[6] = mean;
            call.answers(0, 0);
            call.with(&[490, 500, 489]).answers(19, 2);
            call.with(&[490, 480, 491]).answers(19, 2);
        }
    }
}

/// A random call: in most cases all that is delivered before the replay is kept.
fn call(rng: &mut Rng) -> Call {
    let settings = if rng.one_in(12) { gen::doubtful_settings(rng) } else { gen::settings(rng) };
    let mut call = Call {
        values: settings.values().to_vec(),
        set: if rng.one_in(10) { rng.pick(&[16, -1]) } else { rng.below(16) as i32 },
        target: around(rng, 1_000_001),
        before: around(rng, 1_000_001),
        held: rng.pick(&[0, 0, 0, 0, 0, 0, 1, -2]),
        first: 0,
        samples: vec![],
        outputs: vec![],
    };
    if rng.one_in(6) {
        call.before = i32::MAX;
    }
    let record = call.loop_before(&settings);
    let most = if rng.one_in(20) { 400 } else { 30 };
    let count = rng.below(most);
    call.samples = gen::doubtful_samples(rng, &record, count);
    call.first = next_number(rng, &record);
    let places = if rng.one_in(12) { rng.below(count + 1) } else { count + rng.below(4) };
    call.outputs = (0..places).map(|_| rng.between(-9, 9) as i32).collect();
    if rng.one_in(50) {
        call.values.truncate(rng.below(88));
    }
    call
}

/// A number of this size at most, often at an end or near zero.
fn around(rng: &mut Rng, most: i64) -> i32 {
    gen::within(rng, -most, most) as i32
}

/// The next number of this record, or now and then another.
fn next_number(rng: &mut Rng, record: &Loop) -> u32 {
    let next = record.last + 1;
    let other = rng.bits() as u32;
    match rng.below(12) {
        0 => rng.pick(&[0, next - 1, next + 1, u32::MAX, other]),
        _ => next,
    }
}

#[test]
fn random_replays_are_answered_alike() {
    let mut codes = [0; 20];
    let (mut later, mut kept) = (0, 0);
    for_each_seed(40_000, |rng| {
        let call = call(rng);
        let code = call.agrees();
        codes[code as usize] += 1;
        later += usize::from(code == 19 && call.expected().1 > 0);
        kept += if code == 0 { call.samples.len() } else { 0 };
    });
    assert!([0, 1, 3, 4, 10, 11, 12, 19].iter().all(|&code| codes[code] > 200), "{codes:?}");
    assert!(later > 500 && kept > 100_000, "{later} 19 at a later place, {kept} kept");
}

/// Lists of a window and more, of each kind of gain set, which nothing refuses, and the same with one
/// wild reading in them: all or nothing is written.
#[test]
fn long_replays_are_answered_alike() {
    let mut places = [0; 2];
    for_each_seed(300, |rng| {
        let mut call = call(rng);
        call.values = gen::settings(rng).values().to_vec();
        call.values[7] = rng.pick(&[1, 50, 3_000]);
        let settings =
            Settings::from_values(&call.values.as_slice().try_into().expect("88 values"));
        let (set, target, before) = (rng.below(16) as i32, settings.sp, settings.sp);
        call = Call { set, target, before, held: 0, first: 5, ..call };
        let count = 1_000 + rng.below(1_000);
        call.samples = gen::samples_for(rng, &call.loop_before(&settings), count);
        call.outputs = vec![-7; count + 2];
        assert_eq!(call.agrees(), 0, "{settings:?}");
        let place = rng.below(count);
        let earlier = if place == 0 { before } else { call.samples[place - 1] };
        let away = if earlier > 0 { -settings.jump - 1 } else { settings.jump + 1 };
        call.samples[place] = earlier + away;
        call.answers(19, place);
        places[usize::from(place > 128)] += 1;
    });
    assert!(places[0] > 10 && places[1] > 100, "{places:?}");
}
