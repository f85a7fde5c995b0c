//! 01's state rules and those of requests 6, 7 and 8: each by itself, at its ends, and over unreached
//! records.

use host::delivery::{deliver, Answer};
use host::example;
use host::gen;
use host::law::{obey, Command, Loop, Mode};
use host::memory::{Entry, Memory};
use host::refusal::Refusal;
use host::replay::{replay, Replayed};
use host::rng::for_each_seed;
use host::settings::{GainSet, Settings};

/// A valid automatic record, primed, that has seen three temperatures and remembers seven commands.
fn valid() -> Loop {
    let mut window = [0; 128];
    window[..3].fill(480);
    Loop {
        window,
        seen: 3,
        last_raw: 480,
        mode: Mode::Automatic,
        primed: true,
        y: 480 * Loop::F,
        ..example::at_number(7, Command::Sample(480))
    }
}

/// The same at another last number, with what that asks for.
fn valid_at(last: u32) -> Loop {
    Loop { last, memory: example::at_number(last, Command::Sample(480)).memory, ..valid() }
}

fn with(change: fn(&mut Loop)) -> Loop {
    let mut record = valid();
    change(&mut record);
    record
}

/// Records that break one rule each.
fn broken() -> Vec<Loop> {
    let others = [broken_settings(), broken_state(), broken_window(), broken_last_raw()].concat();
    [others, broken_counts(), broken_entries()].concat()
}

/// Those that break "settings within the table".
fn broken_settings() -> Vec<Loop> {
    vec![
        Loop::blank(),
        with(|l| l.settings.action = 2),
        with(|l| l.settings.action = -1),
        with(|l| l.settings.lo = -1_000_001),
        with(|l| l.settings.hi = 1_000_001),
        with(|l| l.settings.hi = l.settings.lo),
        with(|l| l.settings.out = -1),
        with(|l| l.settings.out = 1_001),
        with(|l| l.settings.sp = 1_000_001),
        with(|l| l.settings.rate = 0),
        with(|l| l.settings.mean = 0),
        with(|l| l.settings.mean = 129),
        with(|l| l.settings.mean = -1),
        with(|l| l.settings.mean = i32::MIN),
        with(|l| l.settings.mean = i32::MAX),
        with(|l| l.settings.jump = 0),
        with(|l| l.settings.jump = 2_000_001),
        with(|l| l.settings.jump = -1),
        with(|l| l.settings.jump = i32::MIN),
        with(|l| l.settings.jump = i32::MAX),
        with(|l| l.settings.sets[3].kp = -1),
        with(|l| l.settings.sets[2].ki = 4_194_305),
        with(|l| l.settings.sets[1].alpha = 0),
        with(|l| l.settings.sets[3].kt = 65_537),
        with(|l| l.settings.sets[4].kp = -1),
        with(|l| l.settings.sets[10].alpha = 65_537),
        with(|l| l.settings.sets[15].kt = 65_537),
    ]
}

/// Those that break another rule.
fn broken_state() -> Vec<Loop> {
    vec![
        with(|l| l.w = 1_000_001),
        with(|l| l.w = -1_000_001),
        with(|l| l.target = 1_000_001),
        with(|l| l.target = -1_000_001),
        with(|l| l.rate = 0),
        with(|l| l.rate = 2_000_001),
        with(|l| l.set = -1),
        with(|l| l.set = 16),
        with(|l| l.set = 256),
        with(|l| l.set = i32::MIN),
        with(|l| l.set = i32::MAX),
        with(|l| l.u = -1),
        with(|l| l.u = 1_001),
        with(|l| l.integral = 16_842_752_000_001),
        with(|l| l.integral = -16_842_752_000_001),
        with(|l| l.integral = i64::MIN),
        with(|l| l.y = 65_536_000_001),
        with(|l| l.y = -65_536_000_001),
        with(|l| l.y = i64::MIN),
        with(|l| {
            l.primed = false;
            l.last_raw = 0;
        }),
        with(|l| {
            l.mode = Mode::Manual;
            l.pending = true;
        }),
    ]
}

/// Those that break a rule of request 6: "it holds as many entries as the smaller of 32 and the last
/// number".
fn broken_counts() -> Vec<Loop> {
    let mut records = vec![with(|l| l.memory = Memory::BLANK)];
    // As many entries as `one` asks for, at the last number `other`.
    let at = |one, other| Loop { last: other, ..valid_at(one) };
    let few = [0, 1, 2, 6, 8, 30, 31, 32, 33, 256, 1 << 31, u32::MAX - 1, u32::MAX];
    records.extend(few.map(|last| at(7, last)));
    records.extend((1..=40).map(|last| at(last, 0)));
    records.extend((1..=32).flat_map(|last| [at(last - 1, last), at(last, last - 1)]));
    records.extend([33, 1_000, u32::MAX].map(|last| at(31, last)));
    records
}

/// Every place of the memory at each of these last numbers, and whether it is used there.
fn places(lasts: &[u32]) -> Vec<(u32, usize, bool)> {
    let of_one = |&last: &u32| (0..32).map(move |place| (last, place, place < last as usize));
    lasts.iter().flat_map(of_one).collect()
}

/// A record at this last number with this in a place of its memory.
fn with_entry(last: u32, place: usize, command: Option<Command>, output: i32) -> Loop {
    let mut record = valid_at(last);
    record.memory.0[place] = Entry { command, output };
    record
}

/// "their outputs lie in lo..hi, and unused places are blank", in each place.
fn broken_entries() -> Vec<Loop> {
    let sample = Some(Command::Sample(480));
    let mut records = vec![];
    for (last, place, used) in places(&[7, 31, 32, 33, u32::MAX]) {
        let broken = if used {
            let outside = [-1, 1_001, i32::MIN, i32::MAX].map(|output| (sample, output));
            [&outside[..], &[(None, 0), (None, 100), (None, -1)]].concat()
        } else {
            vec![(sample, 0), (sample, 100), (None, 1), (None, -1), (None, 100), (None, i32::MIN)]
        };
        let with_entry = |(command, output)| with_entry(last, place, command, output);
        records.extend(broken.into_iter().map(with_entry));
    }
    records
}

/// Records that keep the rules of request 6 at their very ends. "Not the values in its command, not that
/// the newest output is u", which here is 100.
fn memories_at_the_ends() -> Vec<Loop> {
    let entries = [
        (Command::Sample(i32::MIN), 0),
        (Command::Set(77), 1_000),
        (Command::Put(-5), 99),
        (Command::Target { target: i32::MAX, rate: 0 }, 101),
        (Command::Hold, 100),
    ];
    let mut records: Vec<Loop> = (0..=40).chain([u32::MAX - 1, u32::MAX]).map(valid_at).collect();
    let lasts = [1, 2, 7, 31, 32, 33, u32::MAX];
    for (last, place, _) in places(&lasts).into_iter().filter(|&(_, _, used)| used) {
        let with_entry = |(command, output)| with_entry(last, place, Some(command), output);
        records.extend(entries.map(with_entry));
    }
    records
}

/// Those that break a rule of request 7: "the window's temperatures lie in range, at most 128 are
/// seen, unfilled places are zero".
fn broken_window() -> Vec<Loop> {
    vec![
        with(|l| l.window[0] = 1_000_001),
        with(|l| l.window[2] = -1_000_001),
        with(|l| l.window[1] = i32::MIN),
        with(|l| l.window[3] = 1),
        with(|l| l.window[127] = -1),
        with(|l| l.window[127] = 1_000_001),
        with(|l| l.seen = 0),
        with(|l| l.seen = 2),
        with(|l| l.seen = 129),
        with(|l| l.seen = 256),
        with(|l| l.seen = usize::MAX),
        with(|l| {
            l.seen = 128;
            l.window[127] = -1_000_001;
        }),
    ]
}

/// Those that break a rule of request 8: "The last kept raw temperature joins the record, within
/// ±1,000,000, and 0 while not primed."
fn broken_last_raw() -> Vec<Loop> {
    vec![
        with(|l| l.last_raw = 1_000_001),
        with(|l| l.last_raw = -1_000_001),
        with(|l| l.last_raw = i32::MIN),
        with(|l| l.last_raw = i32::MAX),
        unprimed(480),
        unprimed(1),
        unprimed(-1),
        unprimed(1_000_000),
    ]
}

/// A record that is not primed, with this last raw temperature.
fn unprimed(last_raw: i32) -> Loop {
    Loop { primed: false, y: 0, last_raw, ..valid() }
}

/// Records that keep the rules of request 8 at their very ends. None ties the last raw temperature to
/// the window, to y or to the last command, which here are 480.
fn last_raws_at_the_ends() -> Vec<Loop> {
    vec![
        with(|l| l.settings.jump = 1),
        with(|l| l.settings.jump = 1_999_999),
        with(|l| l.last_raw = 1_000_000),
        with(|l| l.last_raw = -1_000_000),
        with(|l| l.last_raw = 0),
        with(|l| l.last_raw = 481),
        unprimed(0),
    ]
}

/// Records that keep the rules of request 7 at their very ends. "No state rule ties `seen` to primed".
fn windows_at_the_ends() -> Vec<Loop> {
    vec![
        with(|l| l.settings.mean = 128),
        with(|l| l.window[0] = 1_000_000),
        with(|l| l.window[2] = -1_000_000),
        with(|l| l.window[..3].fill(0)),
        with(|l| l.seen = 4),
        with(|l| l.seen = 128),
        with(|l| {
            l.seen = 128;
            l.window = [-1_000_000; 128];
        }),
        with(|l| {
            l.seen = 0;
            l.window = [0; 128];
        }),
        unprimed(0),
    ]
}

/// Records that are valid at the very end of a rule.
fn at_the_ends() -> Vec<Loop> {
    vec![
        valid(),
        with(|l| l.w = 1_000_000),
        with(|l| l.w = -1_000_000),
        with(|l| l.target = 1_000_000),
        with(|l| l.target = -1_000_000),
        with(|l| l.rate = 1),
        with(|l| l.rate = 2_000_000),
        with(|l| l.set = 3),
        with(|l| l.set = 4),
        with(|l| l.set = 15),
        with(|l| l.u = 0),
        with(|l| l.u = 1_000),
        with(|l| l.integral = 16_842_752_000_000),
        with(|l| l.integral = -16_842_752_000_000),
        with(|l| l.y = 65_536_000_000),
        with(|l| l.y = -65_536_000_000),
        unprimed(0),
        with(|l| l.pending = true),
    ]
}

#[test]
fn each_rule_is_tested_and_nothing_more() {
    let windows = [windows_at_the_ends(), last_raws_at_the_ends()].concat();
    for record in [at_the_ends(), memories_at_the_ends(), windows].concat() {
        assert_eq!(record.check(), Ok(()), "{record:?}");
    }
    for record in broken() {
        assert_eq!(record.check(), Err(Refusal::BrokenRecord), "{record:?}");
    }
}

/// "settings within the table" speaks of each of the sixteen sets, whichever is in force.
#[test]
fn each_value_of_each_set_is_tested() {
    for (k, set) in (0..16).flat_map(|k| (0..16).map(move |set| (k, set))) {
        let spoiled: [fn(&mut GainSet); 10] = [
            |gains| gains.kp = -1,
            |gains| gains.kp = 4_194_305,
            |gains| gains.ki = -1,
            |gains| gains.ki = 4_194_305,
            |gains| gains.kd = -1,
            |gains| gains.kd = 4_194_305,
            |gains| gains.alpha = 0,
            |gains| gains.alpha = 65_537,
            |gains| gains.kt = -1,
            |gains| gains.kt = 65_537,
        ];
        let sound = Loop { set, ..valid() };
        assert_eq!(sound.check(), Ok(()), "set {set}");
        for spoil in spoiled {
            let mut record = sound;
            spoil(&mut record.settings.sets[k]);
            assert_eq!(record.check(), Err(Refusal::BrokenRecord), "{record:?}");
            assert_eq!(Loop::make(&record.settings), (11, Loop::blank()));
        }
    }
}

/// "A record breaking the state rules gets code 10, output 0 and number 0", before all else.
#[test]
fn a_broken_record_gets_10_and_stays() {
    let commands = [Command::Sample(i32::MAX), Command::Sample(480), Command::Hold];
    for record in broken() {
        for (number, command) in [0, 1, 7, 8, 9].into_iter().zip(commands.iter().cycle()) {
            let mut tried = record;
            let answer = deliver(&mut tried, number, *command);
            assert_eq!(answer, Answer { code: 10, output: 0, last: 0 });
            assert_eq!(tried, record);
            assert_eq!(obey(&mut tried, *command), Err(Refusal::BrokenRecord));
            assert_eq!(tried, record);
            let mut outputs = [-7; 1];
            let replayed = replay(&mut tried, number, &[480, i32::MAX], &mut outputs);
            assert_eq!(replayed, Replayed { code: 10, place: 0, count: 0 });
            assert_eq!((tried, outputs), (record, [-7]));
        }
    }
}

/// "some records that keep them are never reached, and are served all the same": each command that such
/// a one remembers gets the output beside it, whatever its values and whatever u is, and with another
/// command its number gets u.
#[test]
fn unreached_memories_are_served() {
    for record in memories_at_the_ends() {
        for (place, entry) in (0..).zip(record.memory.0.iter().take(record.last.min(32) as usize)) {
            let number = record.last - place;
            let mut tried = record;
            let command = entry.command.expect("a command in a used place");
            let first = Answer { code: 0, output: entry.output, last: number };
            assert_eq!(deliver(&mut tried, number, command), first, "{record:?}");
            let reused = Answer { code: 2, output: record.u, last: record.last };
            assert_eq!(deliver(&mut tried, number, Command::Put(77)), reused, "{record:?}");
            assert_eq!(tried, record);
        }
    }
}

/// "some records that keep them are never reached, and are served all the same"; power stays
/// within lo..hi and the integral within B.
#[test]
fn unreached_records_are_served_and_stay_valid() {
    let (mut kept, mut repeats) = (0, 0);
    for_each_seed(4_000, |rng| {
        let mut record = gen::record(rng);
        assert_eq!(record.check(), Ok(()), "{record:?}");
        for _ in 0..30 {
            let before = record;
            let next = gen::delivery(rng, &record);
            let answer = deliver(&mut record, next.number, next.command);
            assert_eq!(record.check(), Ok(()), "{next:?} on {before:?}");
            assert_ne!(answer.code, 10);
            let Settings { lo, hi, .. } = record.settings;
            assert!([record.u, answer.output].iter().all(|output| (lo..=hi).contains(output)));
            assert!(-Loop::B <= record.integral && record.integral <= Loop::B);
            if record.last == before.last {
                assert_eq!(record, before, "{next:?}");
                repeats += usize::from(answer.code == 0);
                if answer.code == 0 {
                    let place = (record.last - next.number) as usize;
                    let first = Entry { command: Some(next.command), output: answer.output };
                    assert_eq!((record.memory.0[place], answer.last), (first, next.number));
                } else {
                    assert_eq!((answer.output, answer.last), (record.u, record.last));
                }
            } else {
                kept += 1;
                let newest = Entry { command: Some(next.command), output: record.u };
                assert_eq!((answer.code, record.last), (0, next.number));
                assert_eq!((answer.output, answer.last), (record.u, record.last));
                assert_eq!(record.memory.0[0], newest);
                assert_eq!(record.memory.0[1..], before.memory.0[..31], "each a place further");
            }
        }
    });
    assert!(kept > 30_000 && repeats > 10_000, "{kept} kept, {repeats} repeats");
}

/// "Every loop the software makes keeps them".
#[test]
fn made_loops_keep_the_rules_and_the_blank_does_not() {
    let mut codes = [0; 17];
    for_each_seed(3_000, |rng| {
        let settings = gen::doubtful_settings(rng);
        let (code, record) = Loop::make(&settings);
        codes[code as usize] += 1;
        assert_eq!(record.check().is_ok(), code == 0);
        if code != 0 {
            assert_eq!(record, Loop::blank());
        }
    });
    assert!(codes[0] > 500 && codes[11] > 500 && codes[16] > 50, "{codes:?}");
}
