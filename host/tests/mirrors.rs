//! Request 3, "Mirrored ovens disagree by one": "show two things", of random and hostile inputs.

use host::by_hand::{amounts, Halves};
use host::delivery::{deliver, Delivery};
use host::law::{obey, Command, Loop, Mode};
use host::mirror::{self, Mirror};
use host::oven;
use host::replay::replay;
use host::rng::{for_each_seed, Rng};
use host::settings::Settings;
use host::text::{self, lines_of};
use host::{example, gen};
use Command::{Automatic, Hold, Put, Sample, Set};
use Mirror::{OfAction, OfTemperatures};

/// Runs a test in both mirrors on the streams of the seeds from 0 on.
fn in_both_mirrors(count: u64, mut test: impl FnMut(Mirror, &mut Rng)) {
    for mirror in Mirror::BOTH {
        for_each_seed(count, |rng| test(mirror, rng));
    }
}

/// Two records "that mirror each other", and the halves that the first has met.
struct Pair<'a> {
    mirror: Mirror,
    one: Loop,
    other: Loop,
    halves: &'a mut Halves,
}

impl Pair<'_> {
    /// The record and its mirror; none where a command that it remembers has no mirror.
    fn new(mirror: Mirror, one: Loop, halves: &mut Halves) -> Option<Pair<'_>> {
        Some(Pair { mirror, one, other: mirror.record(&one)?, halves })
    }

    /// Every field of one record is the mirror of the other's.
    fn mirrors(&self) {
        assert_eq!(Some(self.other), self.mirror.record(&self.one), "{:?}", self.mirror);
    }

    /// Both answer alike, and mirror each other still. A delivery without a mirror is left out.
    fn deliver(&mut self, next: &Delivery) -> Option<i32> {
        let mirrored = self.mirror.delivery(next)?;
        let before = self.one;
        let answer = deliver(&mut self.one, next.number, next.command);
        let answered = deliver(&mut self.other, mirrored.number, mirrored.command);
        assert_eq!(answered, mirror::answer(&answer), "{next:?} on {before:?}");
        self.mirrors();
        if self.one.last != before.last {
            self.halves.add(&before, next.command);
        }
        Some(answer.code)
    }

    /// The same of the plain law.
    fn obey(&mut self, command: Command) -> Option<i32> {
        let mirrored = self.mirror.command(command)?;
        let before = self.one;
        let outcome = obey(&mut self.one, command);
        assert_eq!(obey(&mut self.other, mirrored), outcome, "{command:?} on {before:?}");
        self.mirrors();
        if outcome.is_ok() {
            self.halves.add(&before, command);
        }
        Some(host::refusal::code(outcome))
    }

    /// The same of a replay: code, place and count are the same, and the whole lists are mirrored.
    /// A sample without a mirror is left out.
    fn replay(&mut self, Replay { first, mut samples, mut outputs }: Replay) -> i32 {
        samples.retain(|&pv| self.mirror.sample(pv).is_some());
        let mirrored = self.mirror.samples(&samples);
        let mut others = mirror::outputs(&outputs);
        let mut walk = self.one;
        let replayed = replay(&mut self.one, first, &samples, &mut outputs);
        assert_eq!(replay(&mut self.other, first, &mirrored, &mut others), replayed);
        assert_eq!(others, mirror::outputs(&outputs));
        self.mirrors();
        for &pv in &samples[..replayed.count] {
            self.halves.add(&walk, Sample(pv));
            assert_eq!(obey(&mut walk, Sample(pv)), Ok(()));
        }
        replayed.code
    }
}

/// What a replay is given beside the record.
struct Replay {
    first: u32,
    samples: Vec<i32>,
    outputs: Vec<i32>,
}

/// A replay for this record, in five cases of nine with a wrong number, a bad sample, doubtful ones or
/// too few places.
fn replay_for(rng: &mut Rng, record: &Loop) -> Replay {
    let count = rng.below(60);
    let mut first = record.last.wrapping_add(1);
    let mut samples = gen::samples_for(rng, record, count);
    let mut places = count + rng.below(4);
    match rng.below(9) {
        0 => first = rng.pick(&[0, record.last, record.last.saturating_add(2)]),
        1 => {
            let bad = rng.pick(&[1_000_001, -1_000_001, i32::MAX, i32::MIN]);
            samples.insert(rng.below(count + 1), bad);
        }
        2 => places = rng.below(count + 1),
        3 | 4 => samples = gen::doubtful_samples(rng, record, count),
        _ => {}
    }
    let outputs = (0..places).map(|_| rng.between(-9, 9) as i32).collect();
    Replay { first, samples, outputs }
}

/// A record from C in which all that a mirror flips is far from zero.
fn a_record() -> Loop {
    let mut window = [0; 128];
    window[..3].copy_from_slice(&[480, -3, 1_000_000]);
    Loop {
        mode: Mode::Automatic,
        set: 2,
        w: 470,
        target: 400,
        rate: 30,
        u: 113,
        integral: 5_930_000,
        primed: true,
        y: 31_457_281,
        window,
        seen: 3,
        last_raw: 481,
        last: 3,
        memory: [(Put(-7), -7), (Sample(480), 70), (Put(113), 113)].into_iter().collect(),
        settings: Settings { jump: 77, ..example::settings() },
        ..example::fresh()
    }
}

/// "Flip only the action, the limits (to -hi..-lo), out and puts: every output and the integral
/// change sign, w and y do not."
#[test]
fn the_mirror_of_the_action_flips_what_the_request_names() {
    let record = a_record();
    let settings = Settings { action: 1, lo: -1_000, hi: 0, out: -100, ..record.settings };
    assert_eq!(OfAction.settings(&record.settings), settings);
    let memory = [(Put(7), 7), (Sample(480), -70), (Put(-113), -113)].into_iter().collect();
    let mirrored = Loop { settings, u: -113, integral: -5_930_000, memory, ..record };
    assert_eq!(OfAction.record(&record), Some(mirrored));
    assert_eq!(OfAction.command(Put(-5)), Some(Put(5)));
    let aim = Command::Target { target: 800, rate: 50 };
    for same in [Sample(480), Hold, Automatic, aim, Set(3), Set(15), Sample(i32::MIN)] {
        assert_eq!(OfAction.command(same), Some(same));
    }
}

/// "Keep the action and flip limits, out, puts, temperatures, sp and targets: outputs, integral, w
/// and y all change sign."
#[test]
fn the_mirror_of_the_temperatures_flips_what_the_request_names() {
    let record = a_record();
    let settings = Settings { lo: -1_000, hi: 0, out: -100, sp: -500, ..record.settings };
    assert_eq!(OfTemperatures.settings(&record.settings), settings);
    let mut window = [0; 128];
    window[..3].copy_from_slice(&[-480, 3, -1_000_000]);
    let mirrored = Loop {
        settings,
        w: -470,
        target: -400,
        u: -113,
        integral: -5_930_000,
        y: -31_457_281,
        window,
        last_raw: -481,
        memory: [(Put(7), 7), (Sample(-480), -70), (Put(-113), -113)].into_iter().collect(),
        ..record
    };
    assert_eq!(OfTemperatures.record(&record), Some(mirrored));
    let aim = |target| Command::Target { target, rate: 50 };
    for (command, flipped) in
        [(Put(-5), Put(5)), (Sample(480), Sample(-480)), (aim(800), aim(-800))]
    {
        assert_eq!(OfTemperatures.command(command), Some(flipped));
    }
    for same in [Hold, Automatic, Set(3), Set(15), Set(16), Set(-1)] {
        assert_eq!(OfTemperatures.command(same), Some(same));
    }
}

/// "no value being the least of its type": of a command it matters where the value is flipped.
#[test]
fn only_a_flipped_value_at_the_least_of_its_type_has_no_mirror() {
    let aim = |target, rate| Command::Target { target, rate };
    for mirror in Mirror::BOTH {
        assert_eq!(mirror.command(Put(i32::MIN)), None);
        for place in 0..3 {
            let mut record = a_record();
            record.memory.0[place].command = Some(Put(i32::MIN));
            assert_eq!(mirror.record(&record), None, "{place}");
        }
        let delivery = Delivery { number: 8, command: Put(i32::MIN) };
        assert_eq!(mirror.delivery(&delivery), None);
        for unflipped in [aim(0, i32::MIN), Set(i32::MIN)] {
            assert_eq!(mirror.command(unflipped), Some(unflipped));
        }
    }
    assert_eq!(OfTemperatures.command(Sample(i32::MIN)), None);
    assert_eq!(OfTemperatures.command(aim(i32::MIN, 1)), None);
}

#[test]
fn a_mirror_in_a_mirror_is_the_first_again() {
    in_both_mirrors(1_000, |mirror, rng| {
        let record = gen::record(rng);
        let settings = record.settings;
        assert_eq!(mirror.settings(&mirror.settings(&settings)), settings);
        if let Some(mirrored) = mirror.record(&record) {
            assert_eq!(mirror.record(&mirrored), Some(record));
        }
    });
}

/// "every output [..] change[s] sign" in what a program writes, too.
#[test]
fn a_line_is_mirrored_with_its_delivery() {
    let line = "number=3 command=sample value=480 second=0 code=0 output=100 last=3";
    let flipped = "number=3 command=sample value=-480 second=0 code=0 output=-100 last=3";
    let turned = "number=3 command=sample value=480 second=0 code=0 output=-100 last=3";
    assert_eq!(OfAction.journal_line(line).as_deref(), Some(turned));
    assert_eq!(OfTemperatures.journal_line(line).as_deref(), Some(flipped));
    assert_eq!(OfTemperatures.journal_line("refused 14 3"), None);
    for (output, other) in [("0", "0"), ("7", "-7"), ("-1000000", "1000000")] {
        assert_eq!(mirror::oven_line(output).as_deref(), Some(other));
    }
    assert_eq!(mirror::oven_line("refused 4 2"), None);
}

/// Mirrored settings get the same code; from accepted ones come loops that mirror each other.
#[test]
fn mirrored_settings_make_mirrored_loops_or_are_refused_alike() {
    let mut codes = [0; 17];
    in_both_mirrors(3_000, |mirror, rng| {
        let settings = gen::doubtful_settings(rng);
        let mirrored = mirror.settings(&settings);
        let (code, one) = Loop::make(&settings);
        let (same, other) = Loop::make(&mirrored);
        assert_eq!(same, code, "{settings:?}");
        if code == 0 {
            assert_eq!(mirror.record(&one), Some(other));
        } else {
            assert_eq!((one, other), (Loop::blank(), Loop::blank()));
        }
        codes[code as usize] += 1;
        for settings in [settings, mirrored] {
            let reading = text::read(&gen::settings_text(rng, &settings));
            assert_eq!(reading.code == 0, code == 0, "as texts");
        }
    });
    assert!(codes[0] > 1_000 && codes[11] > 1_000 && codes[16] > 100, "{codes:?}");
}

/// From any record that keeps the state rules, reached or not.
#[test]
fn the_plain_law_mirrors() {
    let mut halves = Halves::default();
    let mut codes = [0; 20];
    in_both_mirrors(1_000, |mirror, rng| {
        if let Some(mut pair) = Pair::new(mirror, gen::record(rng), &mut halves) {
            for _ in 0..60 {
                let command = gen::command(rng, &pair.one);
                if let Some(code) = pair.obey(command) {
                    codes[code as usize] += 1;
                }
            }
        }
    });
    assert!(halves.fewest() > 0, "{halves:?}");
    assert!([0, 4, 5, 6, 7, 8, 9, 19].iter().all(|&code| codes[code] > 30), "{codes:?}");
}

/// Whole lists with repeats, old numbers, gaps, reused numbers and bad values, from fresh loops.
#[test]
fn lists_of_deliveries_mirror_from_a_fresh_loop() {
    let mut halves = Halves::default();
    let mut codes = [0; 20];
    in_both_mirrors(400, |mirror, rng| {
        let settings = gen::settings(rng);
        let fresh = Loop::make(&settings).1;
        let mut pair = Pair::new(mirror, fresh, &mut halves).expect("nothing is remembered yet");
        assert_eq!(pair.other, Loop::make(&mirror.settings(&settings)).1);
        for next in gen::deliveries(rng, &settings, 300) {
            if let Some(code) = pair.deliver(&next) {
                codes[code as usize] += 1;
            }
        }
    });
    assert!(halves.fewest() > 0, "{halves:?}");
    assert!((0..10).chain([19]).all(|code| codes[code] > 30), "{codes:?}");
}

/// "The mirrors hold of any two records that mirror each other".
#[test]
fn lists_of_deliveries_mirror_from_any_record() {
    let mut halves = Halves::default();
    in_both_mirrors(1_500, |mirror, rng| {
        if let Some(mut pair) = Pair::new(mirror, gen::record(rng), &mut halves) {
            for _ in 0..40 {
                let next = gen::delivery(rng, &pair.one);
                pair.deliver(&next);
            }
        }
    });
    assert!(halves.fewest() > 0, "{halves:?}");
}

/// From records that no loop reaches, and from the end of a list.
#[test]
fn replays_mirror() {
    let mut halves = Halves::default();
    let mut codes = [0; 20];
    in_both_mirrors(2_000, |mirror, rng| {
        let mut start = gen::record(rng);
        if rng.one_in(2) {
            start = Loop::make(&start.settings).1;
            for next in gen::deliveries(rng, &start.settings, 20) {
                deliver(&mut start, next.number, next.command);
            }
        }
        if let Some(mut pair) = Pair::new(mirror, start, &mut halves) {
            let code = pair.replay(replay_for(rng, &start));
            codes[code as usize] += 1;
        }
    });
    assert!(halves.fewest() > 0, "{halves:?}");
    assert!([0, 1, 3, 4, 12, 13, 19].iter().all(|&code| codes[code] > 30), "{codes:?}");
}

/// "Other bad values are in the statement: both loops refuse them with the same code."
#[test]
fn records_that_break_a_rule_are_refused_alike() {
    let mut halves = Halves::default();
    let mut broken = 0;
    in_both_mirrors(3_000, |mirror, rng| {
        let sound = gen::record(rng);
        let doubtful = gen::doubtful(rng, &sound);
        let refused = doubtful.check().is_err();
        broken += i32::from(refused);
        if let Some(mut pair) = Pair::new(mirror, doubtful, &mut halves) {
            let command = gen::command(rng, &sound);
            let next = gen::delivery(rng, &sound);
            let codes = [pair.obey(command), pair.deliver(&next)];
            let code = pair.replay(replay_for(rng, &sound));
            let mut each = codes.into_iter().flatten().chain([code]);
            assert!(each.all(|code| (code == 10) == refused), "{doubtful:?}");
        }
    });
    assert!(broken > 4_000 && broken < 5_900, "{broken} broken");
}

/// 01's rule before the request: "round(x / F) is the floor of (x + 32,768) / F, for negative x
/// too."
fn old_rule(x: i64) -> i64 {
    (x + 32_768).div_euclid(Loop::F)
}

/// The oven of [`example::half_ovens`] with a half in its output, and the cooler in the mirror of
/// the action: kp = 1/2, no other gain, limits -10..10, out = sp = 0. Both get the temperatures 0
/// and 1; w = 0 throughout.
///
/// | | oven, s = 1 | cooler, s = -1 |
/// |---|---|---|
/// | 0, transfer: e, I = u × F - P - D, u | 0, 0, 0 | 0, 0, 0 |
/// | 1: e = s × (0 - 1) | -1 | 1 |
/// | P = 32,768 × e, and v = U = P | -32,768 | 32,768 |
/// | old u, the floor of (U + 32,768) / F | 0 / F = 0 | 65,536 / F = 1 |
/// | new u, "away from zero" | -1 | 1 |
#[test]
fn an_oven_and_its_cooler_differ_by_one_under_the_old_rule_and_agree_under_the_new() {
    let [_, _, half_in_the_output, ..] = example::half_ovens();
    let oven = half_in_the_output.settings;
    let cooler = OfAction.settings(&oven);
    assert_eq!(cooler, Settings { action: 1, ..oven });

    let limited = |settings: &Settings| {
        let mut record = Loop::make(settings).1;
        for command in [Automatic, Sample(0)] {
            assert_eq!(obey(&mut record, command), Ok(()));
        }
        amounts(&record, 1).limited
    };
    assert_eq!((limited(&oven), limited(&cooler)), (-32_768, 32_768));
    assert_eq!((old_rule(limited(&oven)), old_rule(limited(&cooler))), (0, 1));

    let written = |settings: &Settings| oven::run(lines_of(settings).as_bytes(), b"0\n1\n");
    assert_eq!((written(&oven), written(&cooler)), ("0\n-1\n".into(), "0\n1\n".into()));
}

/// Each of the ovens meets one half at its place, below zero, and its mirror of the temperatures one
/// above.
#[test]
fn a_half_at_each_place_shows_in_the_outputs_of_an_oven_and_its_mirrors() {
    let written = |settings: &Settings, samples: &[i32]| {
        oven::run(lines_of(settings).as_bytes(), &gen::sample_file(samples)).into_bytes()
    };
    for (place, oven) in example::half_ovens().iter().enumerate() {
        assert_eq!(written(&oven.settings, &oven.samples), gen::sample_file(&oven.outputs));
        let mut halves = Halves::default();
        halves.add_list(&oven.settings, &gen::sample_deliveries(&oven.samples));
        assert_eq!((halves.below[place], halves.above[place]), (1, 0), "{place}");
        for mirror in Mirror::BOTH {
            let settings = mirror.settings(&oven.settings);
            let samples = mirror.samples(&oven.samples);
            let outputs = mirror::outputs(&oven.outputs);
            assert_eq!(written(&settings, &samples), gen::sample_file(&outputs), "{place}");
            if mirror == OfTemperatures {
                halves.add_list(&settings, &gen::sample_deliveries(&samples));
            }
        }
        assert_eq!((halves.below[place], halves.above[place]), (1, 1), "{place}");
    }
}
