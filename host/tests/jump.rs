//! Request 8, "Refuse a wild reading".

use host::delivery::{deliver, Answer, Delivery};
use host::example;
use host::gen;
use host::law::{obey, obey_any_reading, Command, Loop, Mode};
use host::refusal::{code, Refusal};
use host::replay::{replay, Replayed};
use host::rng::for_each_seed;
use host::settings::{GainSet, Settings};
use Command::{Automatic, Hold, Put, Sample, Set};

/// A fresh loop from C with this jump.
fn fresh(jump: i32) -> Loop {
    Loop::make(&Settings { jump, ..example::settings() }).1
}

/// A loop from C with this jump, in automatic, that has kept this temperature as number 2 on its
/// transfer sample.
fn running(jump: i32, kept: i32) -> Loop {
    let mut record = fresh(jump);
    keep(&mut record, &[Automatic, Sample(kept)]);
    record
}

/// Delivers commands under the next numbers, each of which has to be kept.
fn keep(record: &mut Loop, commands: &[Command]) {
    for &command in commands {
        let number = record.last + 1;
        let answer = deliver(record, number, command);
        assert_eq!((answer.code, answer.last), (0, number), "{command:?}");
    }
}

/// The code of a sample under the next number, by the law, by delivery and as a replay of one, which
/// are the same; a refusal hands back "the record that came in".
fn code_of(record: &Loop, raw: i32) -> i32 {
    let (mut obeyed, mut delivered, mut replayed) = (*record, *record, *record);
    let code = code(obey(&mut obeyed, Sample(raw)));
    let number = record.last + 1;
    assert_eq!(deliver(&mut delivered, number, Sample(raw)).code, code, "{raw}");
    let answer = replay(&mut replayed, number, &[raw], &mut [0]);
    assert_eq!(answer, Replayed { code, place: 0, count: usize::from(code == 0) }, "{raw}");
    assert_eq!(replayed, delivered);
    assert!(code == 0 || [obeyed, delivered] == [*record; 2], "refused {code}, yet changed");
    code
}

/// The temperatures at a distance from this one, up and down, each with the code of the distance.
fn both_ways(kept: i32) -> impl Fn((i32, i32)) -> [(i32, i32); 2] {
    move |(distance, code)| [(kept + distance, code), (kept - distance, code)]
}

/// "a sample further than *jump* from the last kept raw temperature is refused": "exactly jump away is
/// taken", up and down.
#[test]
fn exactly_jump_away_is_taken_and_one_more_refused() {
    let mut edges = 0;
    for jump in [1, 2, 10, 65_536, 999_999, 1_000_000] {
        let distances = [(0, 0), (1, 0), (jump - 1, 0), (jump, 0), (jump + 1, 19)];
        for kept in [-1_000_000, -999_998, -1, 0, 7, 999_999 - jump, 1_000_000 - jump] {
            let record = running(jump, kept);
            for (raw, code) in distances.into_iter().flat_map(both_ways(kept)) {
                let code = if raw.abs() > 1_000_000 { 4 } else { code };
                assert_eq!(code_of(&record, raw), code, "{raw} after {kept}, jump {jump}");
                edges += usize::from(code == 19);
            }
        }
    }
    assert!(edges > 40, "{edges} just past the jump");
    // From one end of the range to the other.
    for end in [1_000_000, -1_000_000] {
        assert_eq!(code_of(&running(1_999_999, end), -end), 19);
        assert_eq!(code_of(&running(1_999_999, end), -end + end.signum()), 0);
    }
}

/// "2,000,000 refuses nothing."
#[test]
fn a_jump_of_2_000_000_takes_every_temperature() {
    let mut record = fresh(2_000_000);
    let ends = [1_000_000, -1_000_000].map(Sample);
    keep(&mut record, &[Automatic, ends[0], ends[1], ends[0], Set(1), ends[1], ends[0]]);
    assert_eq!(record.last_raw, 1_000_000);
}

/// "tested after 4", at every distance.
#[test]
fn out_of_range_is_4_and_not_19() {
    for jump in [1, 10, 1_999_999, 2_000_000] {
        for kept in [-1_000_000, 0, 1_000_000] {
            for raw in [1_000_001, -1_000_001, i32::MAX, i32::MIN] {
                assert_eq!(code_of(&running(jump, kept), raw), 4, "{raw} after {kept}");
            }
        }
    }
}

/// "Manual mode and the first sample are exempt." "'The first sample' is the one that finds the loop
/// not primed."
#[test]
fn manual_mode_and_the_first_sample_are_exempt() {
    for raw in [1_000_000, 11, 2, 0, -2, -11, -1_000_000] {
        for jump in [1, 10] {
            let mut record = fresh(jump);
            assert_eq!(code_of(&record, raw), 0, "manual, and the first");
            keep(&mut record, &[Automatic]);
            assert_eq!(code_of(&record, raw), 0, "automatic, and the first");
            keep(&mut record, &[Hold, Sample(-raw)]);
            assert_eq!(code_of(&record, raw), 0, "manual");
        }
    }
    // A record that is not primed, though it has seen temperatures, is never reached, and served.
    let mut seen = Loop { mode: Mode::Automatic, seen: 2, ..fresh(10) };
    seen.window[..2].fill(480);
    assert_eq!(code_of(&seen, 1_000_000), 0);
}

/// "Transfer samples are tested too": after automatic, and after another gain set.
#[test]
fn transfer_samples_are_tested() {
    let mut started = fresh(10);
    keep(&mut started, &[Sample(480), Automatic]);
    let mut chosen = running(10, 480);
    keep(&mut chosen, &[Set(1)]);
    for record in [started, chosen] {
        assert!(record.pending);
        let codes = [469, 470, 480, 490, 491].map(|raw| code_of(&record, raw));
        assert_eq!(codes, [19, 0, 0, 0, 19]);
    }
}

/// "A wild reading in manual is kept", and after automatic the tests go on from it.
#[test]
fn after_a_hold_the_tests_go_on_from_the_manual_sample() {
    let mut record = running(10, 480);
    keep(&mut record, &[Hold, Sample(-700), Sample(700), Automatic]);
    let codes = [480, 689, 690, 700, 710, 711].map(|raw| code_of(&record, raw));
    assert_eq!(codes, [19, 19, 0, 0, 0, 19]);
    // A hold by itself changes nothing of what they go on from.
    let mut held = running(10, 480);
    keep(&mut held, &[Hold, Put(70), Automatic]);
    assert_eq!([469, 470, 490, 491].map(|raw| code_of(&held, raw)), [19, 0, 0, 19]);
}

/// "after a real step larger than jump every sample is 19 until hold, a sample, automatic"
#[test]
fn the_way_out_after_a_real_step_is_hold_a_sample_automatic() {
    let mut record = running(10, 480);
    for raw in [600, 601, 599, 600, 600] {
        assert_eq!(code_of(&record, raw), 19);
        assert_eq!(deliver(&mut record, 3, Sample(raw)), Answer { code: 19, output: 100, last: 2 });
    }
    keep(&mut record, &[Hold, Sample(600), Automatic, Sample(601), Sample(591), Sample(600)]);
    assert_eq!((record.last, record.last_raw), (8, 600));
}

/// "a refused sample, 4 or 19, is not what the next is compared with": of 491 and of 1,000,001 nothing
/// is remembered, and the number stays free.
#[test]
fn a_refused_sample_is_not_what_the_next_is_compared_with() {
    let mut record = running(10, 480);
    let before = record;
    for (raw, code) in [(491, 19), (500, 19), (1_000_001, 4), (1_000_000, 19), (469, 19), (460, 19)]
    {
        let answer = deliver(&mut record, 3, Sample(raw));
        assert_eq!(answer, Answer { code, output: 100, last: 2 });
        assert_eq!(record, before, "record, window and last raw temperature stand");
    }
    let answer = deliver(&mut record, 3, Sample(490));
    assert_eq!(answer, Answer { code: 0, output: 93, last: 3 }, "10 + 80 + 2.5, and no reuse");
    assert_eq!([479, 480, 500, 501].map(|raw| code_of(&record, raw)), [19, 0, 0, 19]);
}

/// "compared with the last kept raw temperature": neither with the mean that the law reads, nor with the
/// filter y. After 480, 480, 480 and 490 the mean of four is 483 (482.5), and y has hardly moved.
#[test]
fn the_raw_temperature_is_compared_and_neither_the_mean_nor_the_filter() {
    let mut settings = Settings { mean: 4, jump: 10, ..example::settings() };
    settings.sets = [GainSet { alpha: 1, ..settings.sets[0] }; 16];
    let mut record = Loop::make(&settings).1;
    let samples = [480, 480, 480, 490].map(Sample);
    keep(&mut record, &[&[Automatic][..], &samples].concat());
    assert_eq!((record.last_raw, record.y / Loop::F), (490, 480));
    assert_eq!([479, 480, 500, 501].map(|raw| code_of(&record, raw)), [19, 0, 0, 19]);
    // 500 is read as 487.5, and still 510 is not too far.
    keep(&mut record, &[Sample(500), Sample(510)]);
    assert_eq!([499, 500, 520, 521].map(|raw| code_of(&record, raw)), [19, 0, 0, 19]);
}

/// "a field of its own [..] and decides 19; the window decides the mean": in a record that no loop
/// reaches they say different things, and so does the last command.
#[test]
fn the_last_raw_temperature_is_a_field_of_its_own() {
    let mut record = running(10, 480);
    record.last_raw = 600;
    assert_eq!(record.check(), Ok(()));
    assert_eq!([480, 589, 590, 610, 611].map(|raw| code_of(&record, raw)), [19, 19, 0, 0, 19]);
    keep(&mut record, &[Sample(600)]);
    assert_eq!((record.last_raw, &record.window[..3]), (600, &[600, 480, 0][..]));
}

/// No content is tested in a repeat: one of a remembered sample is served, however far that lies from
/// the last raw temperature.
#[test]
fn a_repeat_is_not_tested() {
    let mut record = running(10, 480);
    let done = Answer { code: 0, output: 100, last: 2 };
    assert_eq!(deliver(&mut record, 2, Sample(480)), done);
    let far = Loop { last_raw: 900, ..record };
    assert_eq!(deliver(&mut far.clone(), 2, Sample(480)), done);
    assert_eq!(deliver(&mut far.clone(), 2, Sample(900)).code, 2);
}

/// With the bench log's temperatures 480, 480, 478, 476 a jump of 2 changes nothing, and with a jump of
/// 1 the sample 478 is wild.
#[test]
fn the_bench_log_with_a_jump() {
    for (jump, codes) in [(2, [0, 0, 0, 0, 0]), (1, [0, 0, 0, 19, 19])] {
        let mut record = fresh(jump);
        let log = [Automatic, Sample(480), Sample(480), Sample(478), Sample(476)];
        let answered = log.map(|command| {
            let number = record.last + 1;
            deliver(&mut record, number, command).code
        });
        assert_eq!(answered, codes, "jump {jump}");
    }
    let mut record = fresh(2);
    keep(&mut record, &[Automatic, Sample(480), Sample(480), Sample(478)]);
    assert_eq!((record.u, record.integral), (113, 181 * Loop::F / 2));
}

/// What a walk over a list knows of request 8, and no more: the temperatures of the kept samples.
struct Kept {
    automatic: bool,
    raws: Vec<i32>,
}

impl Kept {
    /// Whether a sample that the law before the request accepts is refused 19.
    fn refuses(&self, jump: i32, raw: i32) -> bool {
        let before = self.raws.last();
        self.automatic && before.map_or(false, |&before| (before - raw).abs() > jump)
    }

    fn keeps(&mut self, command: Command) {
        match command {
            Sample(raw) => self.raws.push(raw),
            Automatic => self.automatic = true,
            Hold => self.automatic = false,
            _ => {}
        }
    }
}

/// Over lists of every kind: 19 comes exactly where the last kept sample lies further away, it alone is
/// what the record remembers, and "nothing but a kept sample touches it".
#[test]
fn nineteen_comes_exactly_where_the_last_kept_sample_is_further_than_jump_away() {
    let mut codes = [0; 20];
    for_each_seed(600, |rng| {
        let settings = gen::settings(rng);
        let mut record = Loop::make(&settings).1;
        let mut kept = Kept { automatic: false, raws: vec![] };
        for Delivery { number, command } in gen::deliveries(rng, &settings, 300) {
            let before = record;
            let answer = deliver(&mut record, number, command);
            codes[answer.code as usize] += 1;
            if let (Sample(raw), 0 | 19, true) = (command, answer.code, number == before.last + 1) {
                let refused = kept.refuses(settings.jump, raw);
                assert_eq!(answer.code == 19, refused, "{raw} on {before:?}");
            } else {
                assert_ne!(answer.code, 19, "{command:?} as {number} on {before:?}");
            }
            if record.last != before.last {
                kept.keeps(command);
            }
            assert_eq!(record.last_raw, kept.raws.last().copied().unwrap_or(0), "{command:?}");
        }
    });
    assert!(codes[19] > 3_000, "{codes:?}");
}

/// "In automatic" two kept samples one after the other are never further apart than jump.
#[test]
fn kept_samples_in_automatic_are_never_further_apart_than_jump() {
    let (mut pairs, mut at_the_edge, mut further) = (0, 0, 0);
    for_each_seed(600, |rng| {
        let settings = gen::settings(rng);
        let mut record = Loop::make(&settings).1;
        let mut earlier = None;
        for Delivery { number, command } in gen::deliveries(rng, &settings, 300) {
            let before = record;
            deliver(&mut record, number, command);
            if let (Sample(raw), true) = (command, record.last != before.last) {
                let distance = earlier.map_or(0, |earlier: i32| (earlier - raw).abs());
                if before.mode == Mode::Automatic {
                    assert!(distance <= settings.jump, "{raw} after {earlier:?}");
                    pairs += 1;
                    at_the_edge += usize::from(distance == settings.jump);
                } else {
                    further += usize::from(distance > settings.jump);
                }
                earlier = Some(raw);
            }
        }
    });
    assert!(pairs > 20_000 && at_the_edge > 2_000, "{pairs}, {at_the_edge} at the edge");
    assert!(further > 1_000, "{further} further in manual");
}

/// From any record that keeps the state rules: the rule refuses some of what the law without it takes,
/// and changes nothing else; with a jump of 2,000,000 it refuses none.
#[test]
fn the_rule_only_refuses_and_with_2_000_000_nothing() {
    let (mut refused, mut tested, mut same) = (0, 0, 0);
    for_each_seed(3_000, |rng| {
        let mut record = gen::record(rng);
        if rng.one_in(2) {
            record.settings.jump = 2_000_000;
        }
        for _ in 0..40 {
            let command = gen::command(rng, &record);
            let (mut with, mut without) = (record, record);
            let outcome = obey(&mut with, command);
            let other = obey_any_reading(&mut without, command);
            if outcome == Err(Refusal::WildReading) {
                assert_eq!((other, with), (Ok(()), record), "{command:?}");
                assert!(record.settings.jump < 2_000_000, "{command:?}");
                refused += 1;
            } else {
                assert_eq!((outcome, with), (other, without), "{command:?} on {record:?}");
                same += 1;
            }
            tested += usize::from(record.settings.jump == 2_000_000);
            record = with;
        }
    });
    assert!(refused > 1_000 && same > 50_000 && tested > 50_000, "{refused} {same} {tested}");
}
