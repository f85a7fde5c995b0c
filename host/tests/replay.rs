//! 01, "Replay".

use host::delivery::{deliver, Answer};
use host::example;
use host::gen;
use host::law::{Command, Loop};
use host::memory::Entry;
use host::replay::{replay, Replayed};
use host::rng::{for_each_seed, Rng};
use host::settings::Settings;

fn done(count: usize) -> Replayed {
    Replayed { code: 0, place: 0, count }
}

fn refused(code: i32, place: usize) -> Replayed {
    Replayed { code, place, count: 0 }
}

/// Samples for a random record, at most as many as it has numbers left.
fn samples_for(rng: &mut Rng, record: &Loop, most: usize) -> Vec<i32> {
    let left = u64::from(u32::MAX - record.last).min(most as u64) as usize;
    let count = rng.below(left + 1);
    gen::samples_for(rng, record, count)
}

/// "C with mean=2, automatic, 480, 480, 470: 100, 105, 116", replayed as one and cut anywhere.
#[test]
fn the_mean_goes_on_from_one_replay_to_the_next() {
    let samples = [480, 480, 470];
    for cut in 0..=3 {
        let mut record = Loop::make(&Settings { mean: 2, ..example::settings() }).1;
        deliver(&mut record, 1, Command::Automatic);
        let mut outputs = [-7; 3];
        let (front, back) = outputs.split_at_mut(cut);
        assert_eq!(replay(&mut record, 2, &samples[..cut], front), done(cut));
        let next = record.last + 1;
        assert_eq!(replay(&mut record, next, &samples[cut..], back), done(3 - cut));
        assert_eq!(outputs, [100, 105, 116], "cut at {cut}");
        assert_eq!((&record.window[..4], record.seen), (&[470, 480, 480, 0][..], 3));
    }
}

/// The log's samples 480, 480, 478 in automatic, replayed as one.
#[test]
fn the_example_of_01() {
    let mut record = example::fresh();
    deliver(&mut record, 1, Command::Automatic);
    let mut outputs = [-7; 5];
    let replayed = replay(&mut record, 2, &[480, 480, 478], &mut outputs);
    assert_eq!(replayed, done(3));
    assert_eq!(outputs, [100, 105, 113, -7, -7], "every later place keeps its number");
    assert_eq!((record.u, record.integral), (113, 181 * Loop::F / 2));
    let newest = Entry { command: Some(Command::Sample(478)), output: 113 };
    assert_eq!((record.last, record.memory.0[0]), (4, newest));
}

/// "On success the record and outputs are those of delivering the n samples in order", the window
/// and its count in the record: of fewer samples than the mean is over, and of more than two windows
/// hold.
#[test]
fn a_replay_equals_single_deliveries() {
    let (mut kept, mut past) = (0, 0);
    for_each_seed(2_000, |rng| {
        let start = gen::record(rng);
        let most = rng.pick(&[5, 60, 300]);
        let samples = samples_for(rng, &start, most);
        past += usize::from(samples.len() > 128 && start.settings.mean > 1);
        let spare = rng.below(4);
        let mut one_by_one = start;
        let mut expected = Vec::new();
        for (number, &pv) in (u64::from(start.last) + 1..).zip(&samples) {
            let answer = deliver(&mut one_by_one, number as u32, Command::Sample(pv));
            assert_eq!(answer.code, 0);
            expected.push(answer.output);
        }
        expected.extend(vec![-7; spare]);

        let mut replayed = start;
        let mut outputs = vec![-7; samples.len() + spare];
        let first = start.last.wrapping_add(1);
        let answer = replay(&mut replayed, first, &samples, &mut outputs);
        if start.last == u32::MAX {
            assert_eq!(answer, refused(1, 0), "after the last number every replay is 1");
        } else {
            assert_eq!(answer, done(samples.len()));
        }
        assert_eq!((replayed, outputs), (one_by_one, expected));
        kept += samples.len();
    });
    assert!(kept > 10_000 && past > 50, "{kept} kept, {past} past a window");
}

/// "A replay that kept at least one sample and is sent again whole is refused 1, also when n was
/// 1."
#[test]
fn a_replay_sent_again_whole_is_refused_1() {
    for_each_seed(1_000, |rng| {
        let mut record = gen::record(rng);
        let samples = samples_for(rng, &record, 3);
        let first = record.last.wrapping_add(1);
        let mut outputs = vec![-7; samples.len()];
        if !samples.is_empty() {
            assert_eq!(replay(&mut record, first, &samples, &mut outputs), done(samples.len()));
            let (kept, written) = (record, outputs.clone());
            assert_eq!(replay(&mut record, first, &samples, &mut outputs), refused(1, 0));
            assert_eq!((record, outputs), (kept, written));
        }
    });
    let mut record = example::fresh();
    assert_eq!(replay(&mut record, 1, &[480], &mut [0]), done(1));
    assert_eq!(replay(&mut record, 1, &[480], &mut [0]), refused(1, 0));
    let repeat = deliver(&mut record, 1, Command::Sample(480));
    let as_before = Answer { code: 0, output: 100, last: 1 };
    assert_eq!(repeat, as_before, "its sample alone is a repeat");
}

/// "No samples: done, nothing changes", though 10, 1 and 3 are tested still.
#[test]
fn no_samples_change_nothing() {
    let mut record = example::fresh();
    let before = record;
    let mut outputs = [-7; 2];
    assert_eq!(replay(&mut record, 1, &[], &mut outputs), done(0));
    assert_eq!(replay(&mut record, 1, &[], &mut outputs), done(0), "and it may be sent again");
    assert_eq!(replay(&mut record, 0, &[], &mut outputs), refused(1, 0));
    assert_eq!(replay(&mut record, 2, &[], &mut outputs), refused(3, 0));
    assert_eq!((record, outputs), (before, [-7; 2]));
    assert_eq!(replay(&mut Loop::blank(), 1, &[], &mut outputs), refused(10, 0));
}

#[test]
fn after_the_last_number_every_replay_is_1() {
    let mut record = example::at_number(u32::MAX, Command::Sample(480));
    for first in [0, 1, u32::MAX - 32, u32::MAX - 31, u32::MAX - 1, u32::MAX] {
        for samples in [&[][..], &[480], &[i32::MAX]] {
            assert_eq!(replay(&mut record, first, samples, &mut []), refused(1, 0));
        }
    }
}

/// A random record with numbers left for any list.
fn with_numbers_left(rng: &mut Rng) -> Loop {
    let last = rng.pick(&[0, 1, 20, 31, 32, 2_000_000_000]);
    gen::record_at(rng, last)
}

/// "then 4, with the place of the first bad sample"
#[test]
fn the_first_bad_sample_is_told_and_nothing_kept() {
    for_each_seed(1_000, |rng| {
        let mut record = with_numbers_left(rng);
        let before = record;
        let count = 1 + rng.below(50);
        let mut samples = gen::samples_for(rng, &record, count);
        let first_bad = rng.below(count);
        let bad = [1_000_001, -1_000_001, i32::MIN, i32::MAX];
        samples[first_bad] = rng.pick(&bad);
        let later = first_bad + rng.below(count - first_bad);
        samples[later] = rng.pick(&bad);
        let mut outputs = vec![-7; count];
        let answer = replay(&mut record, before.last + 1, &samples, &mut outputs);
        assert_eq!(answer, refused(4, first_bad));
        assert_eq!((record, outputs), (before, vec![-7; count]));
    });
}

/// A loop from C with a jump of 10.
fn tight() -> Loop {
    Loop::make(&Settings { jump: 10, ..example::settings() }).1
}

/// "jump=10, last kept 480: [490, 479] is 19 at 1; [490, 501, 1000001] is 19 at 1; [490, 1000001, 5] is
/// 4 at 1." And at place 0: "tested against the record's (unless manual or not primed)".
#[test]
fn the_earliest_bad_sample_is_told_with_its_code() {
    let mut automatic = tight();
    deliver(&mut automatic, 1, Command::Automatic);
    deliver(&mut automatic, 2, Command::Sample(480));
    let cases: [(&[i32], i32, usize); 15] = [
        (&[490, 479], 19, 1),
        (&[490, 501, 1_000_001], 19, 1),
        (&[490, 1_000_001, 5], 4, 1),
        (&[491], 19, 0),
        (&[469], 19, 0),
        (&[491, 1_000_001], 19, 0),
        (&[1_000_001, 491], 4, 0),
        (&[480, 490, 500, 510, 521], 19, 4),
        (&[480, 470, 460, 450, 439], 19, 4),
        (&[480, 470, 460, 471, 439], 19, 3),
        (&[490, 480, 491, i32::MIN], 19, 2),
        (&[490, 480, i32::MIN, 491], 4, 2),
        (&[490, 500, 490, 480, 470, 460], 0, 0),
        (&[490], 0, 0),
        (&[470], 0, 0),
    ];
    for (samples, code, place) in cases {
        let mut record = automatic;
        let mut outputs = [-7; 7];
        let answer = replay(&mut record, 3, samples, &mut outputs);
        let count = if code == 0 { samples.len() } else { 0 };
        assert_eq!(answer, Replayed { code, place, count }, "{samples:?}");
        assert!(code == 0 || (record, outputs) == (automatic, [-7; 7]), "{samples:?}");
        assert!(code != 0 || record.last_raw == samples[count - 1], "{samples:?}");
    }
}

/// "Not primed, automatic: [1000000, -1000000] is 19 at 1", which is the sample before it and not the
/// record's. In manual nothing is wild.
#[test]
fn the_first_sample_and_manual_mode_are_exempt_in_a_replay() {
    let leap = [1_000_000, -1_000_000];
    for (jump, answer) in [(10, refused(19, 1)), (1_999_999, refused(19, 1)), (2_000_000, done(2))]
    {
        let mut record = tight();
        record.settings.jump = jump;
        let manual = replay(&mut record.clone(), 1, &leap, &mut [0; 2]);
        assert_eq!(manual, done(2), "manual, jump {jump}");
        deliver(&mut record, 1, Command::Automatic);
        assert_eq!(replay(&mut record, 2, &leap, &mut [0; 2]), answer, "jump {jump}");
    }
    let mut held = tight();
    for (number, command) in (1..).zip([Command::Automatic, Command::Sample(480), Command::Hold]) {
        deliver(&mut held, number, command);
    }
    assert_eq!(replay(&mut held, 4, &[0, 480, -480], &mut [0; 3]), done(3));
    assert_eq!(held.last_raw, -480);
}

/// "In a replay the test uses the sample before, and the earliest bad sample is reported with its code
/// and place": where single deliveries would be refused first, and with their code; "before it all are
/// good".
#[test]
fn a_replay_is_refused_where_single_deliveries_would_be() {
    let mut codes = [[0; 20]; 2];
    for_each_seed(10_000, |rng| {
        let start = with_numbers_left(rng);
        let count = rng.below(25);
        let samples = gen::doubtful_samples(rng, &start, count);
        let mut one_by_one = start;
        let mut outputs = vec![];
        let first_bad = (start.last + 1..).zip(&samples).find_map(|(number, &raw)| {
            let answer = deliver(&mut one_by_one, number, Command::Sample(raw));
            outputs.push(answer.output);
            (answer.code != 0).then_some(answer.code)
        });
        let mut record = start;
        let mut written = vec![-7; count];
        let answer = replay(&mut record, start.last + 1, &samples, &mut written);
        match first_bad {
            None => {
                assert_eq!((answer, record), (done(count), one_by_one));
                assert_eq!(written, outputs);
            }
            Some(code) => {
                assert_eq!(answer, refused(code, outputs.len() - 1), "{samples:?}");
                assert_eq!((record, written), (start, vec![-7; count]));
            }
        }
        codes[usize::from(answer.place > 0)][answer.code as usize] += 1;
    });
    assert!(codes[0][0] > 1_000 && codes[1][0] == 0, "{codes:?}");
    assert!([4, 19].iter().all(|&code| codes.iter().all(|at| at[code] > 100)), "{codes:?}");
}

/// A day's replay goes through in one call and agrees with its two halves.
#[test]
fn a_long_replay_may_be_cut_anywhere() {
    for_each_seed(5, |rng| {
        let settings = gen::settings(rng);
        let samples = gen::samples(rng, &settings, 50_000);
        let (front, back) = samples.split_at(rng.below(samples.len()));
        let (mut whole, mut cut) = (Loop::make(&settings).1, Loop::make(&settings).1);
        for record in [&mut whole, &mut cut] {
            deliver(record, 1, Command::Automatic);
        }
        let (mut all, mut parts) = (vec![0; 50_000], vec![0; 50_000]);
        replay(&mut whole, 2, &samples, &mut all);
        replay(&mut cut, 2, front, &mut parts);
        let next = cut.last + 1;
        replay(&mut cut, next, back, &mut parts[front.len()..]);
        assert_eq!((whole, all), (cut, parts));
        assert_eq!(whole.last, 50_001);
    });
}
