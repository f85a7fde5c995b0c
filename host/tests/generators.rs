//! The generators give what the other tests need of them: nothing that matters stays unreached.

// Where a walk ends is the matter of other tests.
#[allow(dead_code)]
mod walk;

use host::by_hand::{amounts, Halves};
use host::delivery::{deliver, Delivery};
use host::form::{AfterRate, Form};
use host::gen;
use host::law::{obey, Command, Loop, Mode};
use host::memory::Entry;
use host::replay::replay;
use host::rng::{for_each_seed, Rng};
use host::settings::{places, Settings};
use host::text;
use walk::{Repeats, Walk};

#[test]
fn a_seed_names_its_stream() {
    let draw = |seed| {
        let mut rng = Rng::new(seed);
        [rng.bits(), rng.bits(), rng.bits()]
    };
    assert_eq!(draw(7), draw(7));
    assert_ne!(draw(7), draw(8));
    // The published first numbers of SplitMix64 for the seed 1234567.
    let published =
        [6_457_827_717_110_365_317, 3_203_168_211_198_807_973, 9_817_491_932_198_370_423];
    assert_eq!(draw(1_234_567), published);
}

/// The ends of each range; since lo < hi, lo never has its most and hi never its least.
fn ends() -> impl Iterator<Item = (i32, i32)> {
    places().map(|place| match place.row.letters {
        "lo" => (place.row.least, place.row.most - 1),
        "hi" => (place.row.least + 1, place.row.most),
        _ => (place.row.least, place.row.most),
    })
}

#[test]
fn settings_are_valid_and_reach_both_ends_of_every_range() {
    let mut reached = [(0, 0); 88];
    let mut forms = [0; 2];
    for_each_seed(2_000, |rng| {
        let settings = gen::settings(rng);
        assert_eq!(settings.check(), Ok(()));
        let placed = settings.values().into_iter().zip(ends());
        for (count, (value, (least, most))) in reached.iter_mut().zip(placed) {
            count.0 += i32::from(value == least);
            count.1 += i32::from(value == most);
        }
        forms[usize::from(settings.sets[0].kt == 0)] += 1;
    });
    for (place, count) in places().zip(reached) {
        assert!(count.0 > 20 && count.1 > 20, "{}: {count:?}", place.key());
    }
    assert!(forms[0] > 500 && forms[1] > 500, "back-calculation and clamping {forms:?}");
}

/// The form of a text that is well formed.
fn form_of(text: &[u8]) -> Form {
    let lines: Vec<&[u8]> = text.split_inclusive(|&byte| byte == b'\n').collect();
    let has = |line: usize, key: &[u8]| lines[line - 1].starts_with(key);
    let (after_rate, optional) = match (has(7, b"mean="), has(8, b"jump=")) {
        (false, _) => (AfterRate::Neither, 0),
        (true, false) => (AfterRate::Mean, 1),
        (true, true) => (AfterRate::Both, 2),
    };
    match lines.len() - optional {
        26 => Form { after_rate, short: true },
        86 => Form { after_rate, short: false },
        others => panic!("{others} lines"),
    }
}

/// Counts a text of this form.
fn count(counts: &mut [i32; 6], form: Form) {
    counts[Form::ALL.iter().position(|&other| other == form).expect("one of the six")] += 1;
}

/// Texts of 26, 27, 28, 86, 87 and 88 lines, each of settings that it says whole.
#[test]
fn texts_are_of_each_form_and_say_their_settings() {
    let [mut forms, mut drawn] = [[0; 6]; 2];
    for_each_seed(2_000, |rng| {
        let settings = gen::settings(rng);
        let said = gen::settings_text(rng, &settings);
        assert_eq!(text::read(&said).settings, settings);
        count(&mut forms, form_of(&said));
        let any = gen::any_form(rng, &settings);
        let Settings { mean, jump, sets, .. } = text::read(&any).settings;
        let form = form_of(&any);
        let [has_mean, has_jump] =
            [form.after_rate != AfterRate::Neither, form.after_rate == AfterRate::Both];
        assert_eq!(mean, if has_mean { settings.mean } else { 1 });
        assert_eq!(jump, if has_jump { settings.jump } else { 2_000_000 });
        assert_eq!(sets[4], settings.sets[if form.short { 0 } else { 4 }]);
        count(&mut drawn, form);
    });
    assert!(forms.iter().all(|&count| count > 100), "{forms:?}");
    assert!(drawn.iter().all(|&count| count > 200), "{drawn:?}");
}

/// Jumps of every size, the ends more often than others, and in about half of the settings the one that
/// refuses nothing.
#[test]
fn settings_have_jumps_of_every_size() {
    let mut sizes = [0; 7];
    let (mut least, mut most) = (0, 0);
    for_each_seed(10_000, |rng| {
        let jump = gen::settings(rng).jump;
        sizes[(jump.to_string().len() - 1).min(6)] += 1;
        least += i32::from(jump == 1);
        most += i32::from(jump == 2_000_000);
    });
    assert!(sizes.iter().all(|&count| count > 100), "{sizes:?}");
    assert!(least > 300 && (4_000..6_000).contains(&most), "{least} {most}");
}

/// Every mean from 1 to 128, and the ends more often than the others.
#[test]
fn settings_have_every_mean() {
    let mut means = [0; 129];
    for_each_seed(10_000, |rng| means[gen::settings(rng).mean as usize] += 1);
    assert_eq!(means[0], 0);
    assert!(means[1..].iter().all(|&count| count > 0), "{means:?}");
    assert!([1, 2, 127, 128].iter().all(|&mean| means[mean] > 200), "{means:?}");
}

/// A delivery of a generated list: the record before it, its command, its code and the record after.
struct Delivered {
    before: Loop,
    command: Command,
    code: i32,
    after: Loop,
}

/// Shows every delivery of 300 generated lists.
fn for_each_delivery(mut show: impl FnMut(Delivered)) {
    for_each_seed(300, |rng| {
        let settings = gen::settings(rng);
        let mut record = Loop::make(&settings).1;
        for Delivery { number, command } in gen::deliveries(rng, &settings, 200) {
            let before = record;
            let code = deliver(&mut record, number, command).code;
            show(Delivered { before, command, code, after: record });
        }
    });
}

/// Samples that find the window empty, with too few temperatures for the mean, with enough, and full;
/// and means of each kind: over all that are seen, over fewer, over all that the window holds.
#[test]
fn deliveries_reach_every_state_of_the_window() {
    let mut windows = [0; 4];
    let mut other_means = 0;
    for_each_seed(100, |rng| {
        let settings = gen::settings(rng);
        let mut record = Loop::make(&settings).1;
        for Delivery { number, command } in gen::deliveries(rng, &settings, 600) {
            let before = record;
            deliver(&mut record, number, command);
            if let (Command::Sample(raw), true) = (command, record.last != before.last) {
                let enough = before.seen >= settings.mean as usize;
                windows[match before.seen {
                    0 => 0,
                    128 => 3,
                    _ => 1 + usize::from(enough),
                }] += 1;
                let (sum, count) = amounts(&before, raw).mean;
                other_means += i32::from(sum != count * i64::from(raw));
            }
        }
    });
    assert!(windows.iter().all(|&count| count >= 100), "empty, too few, enough, full {windows:?}");
    assert!(other_means > 5_000, "{other_means} means that are not the temperature");
}

/// Ordinary samples in each of the sixteen sets, and commands for each set and past both ends.
#[test]
fn deliveries_reach_every_set_and_numbers_beyond() {
    let (mut samples, mut chosen) = ([0; 16], [0; 16]);
    let mut beyond = [0; 4];
    for_each_delivery(|Delivered { before, command, code, after }| {
        let kept = after.last != before.last;
        match command {
            Command::Sample(_) if kept && before.mode == Mode::Automatic => {
                samples[before.set as usize] += i32::from(!before.pending);
            }
            Command::Set(k) if kept => chosen[k as usize] += 1,
            Command::Set(k) if code == 9 => {
                let numbers = [k == -1, k == 16, k < -1, k > 16];
                beyond[numbers.iter().position(|&is| is).expect("no such set")] += 1;
            }
            _ => {}
        }
    });
    assert!(samples.iter().all(|&count| count > 100), "ordinary samples {samples:?}");
    assert!(chosen.iter().all(|&count| count > 30), "kept commands {chosen:?}");
    assert!(beyond.iter().all(|&count| count > 5), "-1, 16, below, above {beyond:?}");
}

#[test]
fn deliveries_reach_every_command_code_and_kind_of_sample() {
    let mut codes = [0; 20];
    let mut kept = [0; 6];
    let mut samples = [0; 3];
    let mut at_limits = [0; 3];
    let mut repeats = 0;
    for_each_delivery(|Delivered { before, command, code, after }| {
        codes[code as usize] += 1;
        repeats += i32::from(code == 0 && after.last == before.last);
        if after.last != before.last {
            let (word, kind) = match (command, before.mode, before.pending) {
                (Command::Sample(_), Mode::Manual, _) => (0, Some(0)),
                (Command::Sample(_), _, true) => (0, Some(1)),
                (Command::Sample(_), _, false) => (0, Some(2)),
                (Command::Hold, ..) => (1, None),
                (Command::Put(_), ..) => (2, None),
                (Command::Automatic, ..) => (3, None),
                (Command::Target { .. }, ..) => (4, None),
                (Command::Set(_), ..) => (5, None),
            };
            kept[word] += 1;
            if let Some(kind) = kind {
                samples[kind] += 1;
            }
            if kind == Some(2) {
                let low = after.u == after.settings.lo;
                let high = after.u == after.settings.hi;
                at_limits[usize::from(low) + 2 * usize::from(high)] += 1;
            }
        }
    });
    assert!((0..10).chain([19]).all(|code| codes[code] > 30), "codes {codes:?}");
    assert!(kept.iter().all(|&count| count > 500), "kept commands {kept:?}");
    assert!(samples.iter().all(|&count| count > 500), "manual, transfer, ordinary {samples:?}");
    assert!(at_limits.iter().all(|&count| count > 500), "between, low, high {at_limits:?}");
    assert!(repeats > 500, "{repeats} repeats");
}

/// What a list has of repeats: all deliveries, the exact repeats of each distance, and the numbers in the
/// window and older ones that come with another command.
struct Retried {
    count: usize,
    repeats: Repeats,
    reused: [usize; 2],
}

/// Counts these in 300 lists.
fn retried(draw: fn(&mut Rng, &Settings, usize) -> Vec<Delivery>) -> Retried {
    let mut retried = Retried { count: 0, repeats: Repeats::NONE, reused: [0; 2] };
    for_each_seed(300, |rng| {
        let settings = gen::settings(rng);
        let mut walk = Walk::new(&settings);
        for next in draw(rng, &settings, 400) {
            retried.count += 1;
            let repeated = retried.repeats.add(&walk, &next);
            match (walk.answer(&next).code, repeated) {
                (2, _) => retried.reused[0] += 1,
                (1, None) if next.number > 0 => retried.reused[1] += 1,
                _ => {}
            }
        }
    });
    retried
}

/// Repeats of the latest command and late ones at every distance up to 40, in every list some and in a
/// list of retries half of it.
#[test]
fn deliveries_are_repeated_at_every_distance_and_half_of_all_retries_are() {
    for (draw, share, least) in [
        (gen::deliveries as fn(&mut Rng, &Settings, usize) -> Vec<Delivery>, 10, 100),
        (gen::retries, 2, 500),
    ] {
        let Retried { count, repeats, reused } = retried(draw);
        assert!(repeats.sum() * share > count, "{} of {count}", repeats.sum());
        assert!(repeats.fewest() > least, "{repeats:?}");
        assert!(reused.iter().all(|&count| count > 1_000), "in the window, older {reused:?}");
    }
}

/// In automatic, after the first: samples exactly a jump away on either side, one more, and far past it;
/// and in manual, and as the first, such as would be refused otherwise.
#[test]
fn samples_reach_the_edges_of_the_jump() {
    let mut distances = [0; 6];
    let mut exempt = [0; 2];
    for_each_delivery(|Delivered { before, command, code, after }| {
        let jump = before.settings.jump;
        if let (Command::Sample(raw), true) = (command, code == 19 || after.last != before.last) {
            let away = raw - before.last_raw;
            match (before.mode, before.primed) {
                (Mode::Automatic, true) => {
                    let edges = [away == jump, away == -jump, away == jump + 1, away == -jump - 1];
                    let past = [away > jump + 1, away < -jump - 1];
                    for (count, reached) in distances.iter_mut().zip([&edges[..], &past].concat()) {
                        *count += i32::from(reached);
                    }
                }
                (Mode::Manual, true) => exempt[0] += i32::from(away.abs() > jump),
                (_, false) => exempt[1] += i32::from(away.abs() > jump),
            }
        }
    });
    assert!(distances.iter().all(|&count| count > 100), "{distances:?}");
    assert!(exempt.iter().all(|&count| count > 50), "manual, first {exempt:?}");
}

/// Doubtful lists are taken, or refused 4 or 19 at their first place or at a later one, and the code
/// that the last bad place would have is not always that of the first.
#[test]
fn doubtful_samples_are_refused_4_and_19_at_the_first_place_and_later() {
    let mut counts = [[0; 2]; 3];
    for_each_seed(5_000, |rng| {
        let record = gen::record_at(rng, 7);
        let count = rng.below(20);
        let samples = gen::doubtful_samples(rng, &record, count);
        assert_eq!(samples.len(), count);
        let replayed = replay(&mut record.clone(), 8, &samples, &mut vec![0; count]);
        let code = [0, 4, 19].iter().position(|&code| code == replayed.code).expect("one of these");
        counts[code][usize::from(replayed.place > 0)] += 1;
    });
    let [[taken, 0], refused @ ..] = counts else { panic!("a place without a refusal") };
    assert!(taken > 1_000, "{counts:?}");
    assert!(refused.concat().iter().all(|&count| count > 50), "{counts:?}");
}

/// Whether the law would refuse this remembered command, whatever the state.
fn refuses(record: &Loop, entry: &Entry) -> bool {
    let mut manual = Loop { mode: Mode::Manual, pending: false, ..*record };
    entry.command.map_or(false, |command| obey(&mut manual, command).is_err())
}

#[test]
fn records_are_valid_and_of_every_kind() {
    let mut kinds = [0; 23];
    for_each_seed(3_000, |rng| {
        let record = gen::record(rng);
        assert_eq!(record.check(), Ok(()));
        let marks = [
            record.mode == Mode::Automatic,
            record.pending,
            record.primed,
            record.last == 0,
            record.last == u32::MAX,
            record.integral.abs() == Loop::B,
            record.y.abs() == Loop::Y,
            record.settings.action == 1,
            record.seen == 0 && record.primed,
            record.seen > 0 && !record.primed,
            record.seen + 1 < record.settings.mean as usize,
            record.seen == 127,
            record.seen == 128,
            record.settings.jump < 2_000_000,
            record.primed && record.last_raw == 0,
            record.last_raw.abs() == 1_000_000,
            record.seen > 0 && record.primed && record.last_raw != record.window[0],
            (2..31).contains(&record.last),
            record.last == 31,
            record.last == 32,
            record.last == 33,
            record.last > 0 && record.memory.0[0].output != record.u,
            record.memory.0.iter().any(|entry| refuses(&record, entry)),
        ];
        for (kind, mark) in kinds.iter_mut().zip(marks) {
            *kind += i32::from(mark);
        }
    });
    assert!(kinds.iter().all(|&count| count > 100), "{kinds:?}");
}

#[test]
fn deliveries_and_samples_land_on_halves_of_either_sign_at_every_place() {
    let [mut delivered, mut sampled] = [Halves::default(); 2];
    for_each_seed(100, |rng| {
        let settings = gen::settings(rng);
        delivered.add_list(&settings, &gen::deliveries(rng, &settings, 300));
        let samples = gen::samples(rng, &settings, 300);
        sampled.add_list(&settings, &gen::sample_deliveries(&samples));
    });
    assert!(delivered.fewest() > 5 && sampled.fewest() > 5, "{delivered:?} {sampled:?}");
}

#[test]
fn doubtful_records_break_every_rule_and_some_keep_them() {
    let mut kept = 0;
    let mut broken = [0; 20];
    for_each_seed(5_000, |rng| {
        let sound = gen::record(rng);
        let record = gen::doubtful(rng, &sound);
        let Settings { lo, hi, .. } = record.settings;
        let (held, unused) = record.memory.0.split_at(record.last.min(32) as usize);
        let rules = [
            record.settings.check().is_ok(),
            Loop::TEMPERATURES.contains(&record.w) && Loop::TEMPERATURES.contains(&record.target),
            Loop::RATES.contains(&record.rate),
            Loop::SETS.contains(&record.set),
            (lo..=hi).contains(&record.u),
            record.integral.checked_abs().map_or(false, |size| size <= Loop::B),
            record.y.checked_abs().map_or(false, |size| size <= Loop::Y),
            record.primed || record.y == 0,
            record.mode == Mode::Automatic || !record.pending,
            (1..=128).contains(&record.settings.mean),
            record.window.iter().all(|raw| Loop::TEMPERATURES.contains(raw)),
            record.seen <= 128,
            record.window.iter().skip(record.seen).all(|&raw| raw == 0),
            (1..=2_000_000).contains(&record.settings.jump),
            Loop::TEMPERATURES.contains(&record.last_raw),
            record.primed || record.last_raw == 0,
            held.iter().all(|entry| entry.command.is_some()),
            held.iter().all(|Entry { output, .. }| (lo..=hi).contains(output)),
            unused.iter().all(|entry| entry.command.is_none()),
            unused.iter().all(|entry| entry.output == 0),
        ];
        for (count, rule) in broken.iter_mut().zip(rules) {
            *count += i32::from(!rule);
        }
        kept += i32::from(record.check().is_ok());
    });
    assert!(broken.iter().all(|&count| count > 100) && kept > 100, "{broken:?} {kept}");
}
