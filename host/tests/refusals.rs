//! 01's table of codes and code 19 of request 8: each is reached, and they come in the papers' order.

// What else the papers say of the settings text is the matter of other tests.
#[allow(dead_code)]
mod papers;

use host::delivery::deliver;
use host::example::{self, C};
use host::law::{Command, Loop, Mode};
use host::oven;
use host::refusal::{code, Refusal};
use host::replay::{replay, Replayed};
use host::settings::Settings;
use host::text;
use papers::{full_c, FORMS, FULL, SHORT};
use Command::{Automatic, Hold, Put, Sample, Set};

/// The code of one delivery to a loop from C that has kept these commands.
fn delivered(kept: &[Command], number: u32, command: Command) -> i32 {
    delivered_to(&example::settings(), kept, number, command)
}

/// The same to a loop of these settings.
fn delivered_to(settings: &Settings, kept: &[Command], number: u32, command: Command) -> i32 {
    let mut record = Loop::make(settings).1;
    for (number, &command) in (1..).zip(kept) {
        assert_eq!(deliver(&mut record, number, command).code, 0);
    }
    let before = record;
    let answer = deliver(&mut record, number, command);
    assert!(answer.code == 0 || record == before, "refused, yet changed");
    assert_eq!((answer.output, answer.last), (record.u, record.last));
    answer.code
}

fn aim(target: i32, rate: i32) -> Command {
    Command::Target { target, rate }
}

/// A text with one line in place of another.
fn with(text: &str, line: &str, other: &str) -> String {
    assert!(text.contains(&format!("{line}\n")), "there is no line {line}");
    text.replacen(line, other, 1)
}

fn broken() -> Loop {
    Loop { u: -1, ..example::fresh() }
}

#[test]
fn every_code_is_reached() {
    let narrow = Settings { hi: 0, out: 0, ..example::settings() };
    let wide = Settings { hi: 1_000_001, ..example::settings() };
    let near_the_end = example::at_number(u32::MAX - 1, Hold);
    let tight = Settings { jump: 10, ..example::settings() };
    let codes = [
        delivered(&[], 1, Hold),
        delivered(&[Hold; 33], 1, Hold),
        delivered(&[Hold], 1, Automatic),
        delivered(&[Hold], 3, Hold),
        delivered(&[], 1, Sample(1_000_001)),
        delivered(&[], 1, Put(1_001)),
        delivered(&[Automatic], 2, Put(50)),
        delivered(&[], 1, aim(1_000_001, 1)),
        delivered(&[], 1, aim(0, 2_000_001)),
        delivered(&[], 1, Set(16)),
        deliver(&mut broken(), 1, Hold).code,
        Loop::make(&wide).0,
        replay(&mut example::fresh(), 1, &[480], &mut []).code,
        replay(&mut near_the_end.clone(), u32::MAX, &[480; 2], &mut [0; 2]).code,
        text::read(b"").code,
        text::read(with(C, "action=0", "action=2").as_bytes()).code,
        Loop::make(&narrow).0,
        text::read(format!("{}\n", full_c()).as_bytes()).code,
        text::write(&example::settings(), &mut []).code,
        delivered_to(&tight, &[Automatic, Sample(480)], 3, Sample(491)),
    ];
    assert_eq!(codes.to_vec(), (0..=19).collect::<Vec<i32>>());
}

#[test]
fn each_refusal_has_the_number_of_the_table() {
    use Refusal::*;
    let table = [
        OldNumber,
        ReusedNumber,
        NumberAhead,
        Temperature,
        PutOutside,
        PutWhileAutomatic,
        Target,
        Rate,
        NoSuchSet,
        BrokenRecord,
        SettingOutside,
        OutputsShort,
        NumbersUsedUp,
        LineForm,
        LineValue,
        Limits,
        BytesAfter,
        BufferShort,
        WildReading,
    ];
    for (number, refusal) in (1..).zip(table) {
        assert_eq!(refusal.code(), number);
        assert_eq!(code(Err(refusal)), number);
    }
    assert_eq!(code(Ok(())), 0);
}

/// "10; then 1, 2, 3; then content, with 6 before 5 and 7 before 8"
#[test]
fn deliveries_are_refused_in_order() {
    let bad = Sample(i32::MAX);
    assert_eq!(deliver(&mut broken(), 0, bad).code, 10);
    assert_eq!(delivered(&[Hold], 0, bad), 1);
    assert_eq!(delivered(&[Hold; 33], 1, bad), 1);
    assert_eq!(delivered(&[Hold; 32], 1, bad), 2);
    assert_eq!(delivered(&[Hold], 1, bad), 2);
    assert_eq!(delivered(&[Hold], 3, bad), 3);
    assert_eq!(delivered(&[Hold], 2, bad), 4);
    assert_eq!(delivered(&[Automatic], 2, Put(1_001)), 6);
    assert_eq!(delivered(&[Automatic, Hold], 3, Put(1_001)), 5);
    assert_eq!(delivered(&[], 1, aim(1_000_001, 0)), 7);
    assert_eq!(delivered(&[], 1, aim(1_000_000, 0)), 8);
}

/// "code 19, tested after 4", and as content after 10, 1, 2 and 3.
#[test]
fn a_wild_reading_is_refused_last() {
    let tight = Settings { jump: 10, ..example::settings() };
    let kept = [Automatic, Sample(999_995)];
    let broken = Loop { u: -1, ..Loop::make(&tight).1 };
    assert_eq!(deliver(&mut broken.clone(), 3, Sample(0)).code, 10);
    assert_eq!(delivered_to(&tight, &kept, 0, Sample(0)), 1);
    assert_eq!(delivered_to(&tight, &kept, 1, Sample(0)), 2);
    assert_eq!(delivered_to(&tight, &kept, 2, Sample(0)), 2);
    let long = [&kept[..], &[Sample(999_995); 31]].concat();
    assert_eq!(delivered_to(&tight, &long, 1, Sample(0)), 1);
    assert_eq!(delivered_to(&tight, &kept, 4, Sample(0)), 3);
    for far in [i32::MIN, -1_000_001, 1_000_001, 1_000_006, i32::MAX] {
        assert_eq!(delivered_to(&tight, &kept, 3, Sample(far)), 4, "{far}");
    }
    assert_eq!(delivered_to(&tight, &kept, 3, Sample(0)), 19);
    assert_eq!(delivered_to(&tight, &kept, 3, Sample(-1_000_000)), 19);
    assert_eq!(delivered_to(&tight, &kept, 3, Sample(1_000_000)), 0);
}

/// "Making a loop from settings tests 11, then 16."
#[test]
fn making_is_refused_in_order() {
    let good = example::settings();
    let make = |settings: Settings| {
        let (code, record) = Loop::make(&settings);
        assert!(code == 0 || record == Loop::blank());
        code
    };
    let both = Settings { lo: 1_000, rate: 0, ..good };
    assert_eq!(make(both), 11);
    assert_eq!(make(Settings { rate: 1, ..both }), 16);
    assert_eq!(make(Settings { out: -1, ..good }), 16);
    assert_eq!(make(Settings { out: 1_001, ..good }), 16);
    assert_eq!(make(Settings { out: 1_000_001, ..good }), 11);
    for mean in [0, 129, -1, i32::MIN, i32::MAX] {
        assert_eq!(make(Settings { mean, ..good }), 11, "mean {mean}");
        assert_eq!(make(Settings { mean, lo: 1_000, ..good }), 11, "11 before 16");
    }
    assert_eq!(make(Settings { mean: 128, lo: 1_000, ..good }), 16);
    assert_eq!(make(Settings { mean: 128, ..good }), 0);
    for jump in [0, 2_000_001, -1, i32::MIN, i32::MAX] {
        assert_eq!(make(Settings { jump, ..good }), 11, "jump {jump}");
        assert_eq!(make(Settings { jump, lo: 1_000, ..good }), 11, "11 before 16");
    }
    for jump in [1, 2_000_000] {
        assert_eq!(make(Settings { jump, lo: 1_000, ..good }), 16);
        assert_eq!(make(Settings { jump, ..good }), 0);
    }
    assert_eq!(make(Settings { out: 0, ..good }), 0);
    assert_eq!(make(Settings { out: 1_000, ..good }), 0);
}

/// "The writer tests 11, 16, 18"
#[test]
fn writing_is_refused_in_order() {
    let good = example::settings();
    let write = |settings: Settings, length: usize| {
        let mut buffer = vec![7; length];
        let writing = text::write(&settings, &mut buffer);
        assert!(writing.code == 0 || buffer == vec![7; length]);
        assert!(writing.code == 0 || writing.length == 0);
        writing.code
    };
    let all = Settings { hi: -1, sp: i32::MIN, ..good };
    assert_eq!(write(all, 0), 11);
    assert_eq!(write(Settings { sp: 0, ..all }, 0), 16);
    assert_eq!(write(Settings { mean: 0, ..good }, 0), 11);
    assert_eq!(write(Settings { mean: 129, ..good }, 0), 11);
    assert_eq!(write(Settings { jump: 0, ..good }, 0), 11);
    assert_eq!(write(Settings { jump: 2_000_001, ..good }, 0), 11);
    assert_eq!(write(good, 0), 18);
    for form in &FORMS[..5] {
        assert_eq!(write(good, form.c().len()), 18, "no shorter form is written");
    }
    assert_eq!(write(good, full_c().len() - 1), 18);
    assert_eq!(write(good, full_c().len()), 0);
}

fn read(text: &str) -> (i32, usize) {
    let reading = text::read(text.as_bytes());
    (reading.code, reading.line)
}

/// "Lines count from 1 and are tested in order, 14 before 15 in each. [..] Then 17, then 16."
#[test]
fn reading_is_refused_in_order() {
    assert_eq!(read("action=2"), (14, 1), "its line feed is missing");
    assert_eq!(read("action=2\n"), (15, 1));
    assert_eq!(read("action=2\nx\n"), (15, 1), "an earlier line comes first");
    assert_eq!(read("action=x\nlo=1000001\n"), (14, 1));
    for form in FULL {
        let limits = with(&form.c(), "hi=1000", "hi=0");
        assert_eq!(read(&limits), (16, 0));
        let and_bytes = limits + "x";
        assert_eq!(read(&and_bytes), (17, 0), "17 before 16");
        let and_value = with(&and_bytes, "kt15=0", "kt15=65537");
        assert_eq!(read(&and_value), (15, form.lines), "15 before 17");
        let and_form = with(&and_value, "kp15=65536", "kp15=");
        assert_eq!(read(&and_form), (14, form.line(82)), "an earlier line comes first");
    }
}

/// "tested there": the jump, too, in its place. "15 in mean comes before 14 in jump".
#[test]
fn the_jump_is_refused_in_its_place() {
    for form in FORMS.into_iter().filter(|form| form.has_jump()) {
        for jump in ["jump=0", "jump=2000001"] {
            let jump = with(&form.c(), "jump=2000000", jump);
            assert_eq!(read(&jump), (15, 8));
            assert_eq!(read(&with(&jump, "kp0=65536", "kp0=")), (15, 8), "an earlier line first");
            assert_eq!(read(&with(&jump, "mean=1", "mean=129")), (15, 7));
            assert_eq!(read(&with(&jump, "mean=1", "mean=")), (14, 7));
            assert_eq!(read(&with(&jump, "hi=1000", "hi=0")), (15, 8), "15 before 16");
            assert_eq!(read(&(jump + "x")), (15, 8), "15 before 17");
        }
        assert_eq!(
            read(&with(&form.c(), "jump=2000000", "jump=2000001x")),
            (14, 8),
            "14 before 15"
        );
        let both = with(&with(&form.c(), "jump=2000000", "jump="), "mean=1", "mean=129");
        assert_eq!(read(&both), (15, 7), "15 in mean before 14 in jump");
    }
}

/// "tested there": the mean is refused before what stands after it, and after what stands before it.
#[test]
fn the_mean_is_refused_in_its_place() {
    for form in FORMS.into_iter().filter(|form| form.has_mean()) {
        let mean = with(&form.c(), "mean=1", "mean=129");
        assert_eq!(read(&mean), (15, 7));
        assert_eq!(read(&with(&mean, "kp0=65536", "kp0=")), (15, 7), "an earlier line comes first");
        assert_eq!(read(&with(&mean, "rate=50", "rate=0")), (15, 6));
        assert_eq!(read(&with(&mean, "hi=1000", "hi=0")), (15, 7), "15 before 16");
        assert_eq!(read(&(mean + "x")), (15, 7), "15 before 17");
        assert_eq!(read(&with(&form.c(), "mean=1", "mean=129x")), (14, 7), "14 before 15");
    }
}

/// "26 lines with lo = hi are 16; the same and one more byte are 14 at 27", and never 17; with the lines
/// of mean and jump they are up to two more.
#[test]
fn reading_the_short_form_is_refused_in_order() {
    for form in SHORT {
        let (c, last) = (form.c(), form.lines);
        let limits = with(&c, "hi=1000", "hi=0");
        assert_eq!(read(&limits), (16, 0));
        let and_bytes = limits + "x";
        assert_eq!(read(&and_bytes), (14, last + 1), "14 before 16");
        let and_value = with(&and_bytes, "kt3=0", "kt3=65537");
        assert_eq!(read(&and_value), (15, last), "an earlier line comes first");
        assert_eq!(read(&format!("{c}kp4=4194305")), (14, last + 1), "14 before 15");
        assert_eq!(read(&format!("{c}kp4=4194305\n")), (15, last + 1));
        assert_eq!(read(&format!("{c}kp4=4194304\n")), (14, last + 2));
    }
}

/// "Raise four to sixteen, so code 9 starts at 16"; "Negative set numbers stay 9."
#[test]
fn code_9_starts_at_16() {
    for k in 0..16 {
        assert_eq!(delivered(&[], 1, Set(k)), 0, "set {k}");
        assert_eq!(delivered(&[Automatic], 2, Set(k)), 0, "set {k}");
    }
    for k in [16, 17, 31, 32, 255, 256, 65_536, i32::MAX, -1, -15, -16, -256, i32::MIN] {
        assert_eq!(delivered(&[], 1, Set(k)), 9, "set {k}");
        assert_eq!(delivered(&[Automatic], 2, Set(k)), 9, "set {k}");
    }
}

/// "Order: 10; first number 0 or at most last: 1; above last + 1: 3; 12; 13; then 4". One thing
/// after the other is put right.
#[test]
fn replays_are_refused_in_order() {
    let last = u32::MAX - 3;
    let good = example::at_number(last, Hold);
    let broken = Loop { pending: true, ..good };
    let samples = [480, 480, 1_000_001, i32::MIN];
    let run = |mut record: Loop, first: u32, samples: &[i32], places: usize| {
        let before = record;
        let mut outputs = vec![-7; places];
        let replayed = replay(&mut record, first, samples, &mut outputs);
        assert!(replayed.code == 0 || (record == before && outputs == vec![-7; places]));
        (replayed.code, replayed.place, replayed.count)
    };
    assert_eq!(run(broken, 0, &samples, 3), (10, 0, 0));
    assert_eq!(run(good, 0, &samples, 3), (1, 0, 0));
    assert_eq!(run(good, 1, &samples, 3), (1, 0, 0));
    assert_eq!(run(good, last, &samples, 3), (1, 0, 0));
    assert_eq!(run(good, last + 2, &samples, 3), (3, 0, 0));
    assert_eq!(run(good, last + 1, &samples, 3), (12, 0, 0));
    assert_eq!(run(good, last + 1, &samples, 4), (13, 0, 0));
    assert_eq!(run(good, last + 1, &samples[..3], 4), (4, 2, 0));
    assert_eq!(run(good, last + 1, &samples[..2], 4), (0, 0, 2));
    let done = Replayed { code: 0, place: 0, count: 3 };
    let last_three = replay(&mut good.clone(), last + 1, &[480; 3], &mut [0; 3]);
    assert_eq!(last_three, done, "as many samples as numbers left");
}

/// The same of 19: what a replay refuses before 4 comes before 19, too.
#[test]
fn a_replay_refuses_a_wild_reading_last() {
    let last = u32::MAX - 3;
    let mut good = example::at_number(last, Hold);
    good = Loop { mode: Mode::Automatic, primed: true, last_raw: 480, ..good };
    good.settings.jump = 10;
    let broken = Loop { last_raw: 1_000_001, ..good };
    let run = |record: Loop, first: u32, samples: &[i32], places: usize| {
        let replayed = replay(&mut record.clone(), first, samples, &mut vec![0; places]);
        (replayed.code, replayed.place)
    };
    let samples = [480, 470, 0, 480];
    assert_eq!(run(broken, 0, &samples, 3), (10, 0));
    assert_eq!(run(good, last, &samples, 3), (1, 0));
    assert_eq!(run(good, last + 2, &samples, 3), (3, 0));
    assert_eq!(run(good, last + 1, &samples, 3), (12, 0));
    assert_eq!(run(good, last + 1, &samples, 4), (13, 0));
    assert_eq!(run(good, last + 1, &samples[..3], 4), (19, 2));
    assert_eq!(run(good, last + 1, &samples[..2], 4), (0, 0));
}

/// "A malformed sample line [..] is 14; else a sample past the last number is 13, and one out of
/// range 4." "a line is judged 14, 13, 4, 19"
#[test]
fn sample_lines_are_refused_in_order() {
    let ended = example::at_number(u32::MAX, Hold);
    let serve = |record: Loop, file: &[u8]| oven::serve(&mut record.clone(), file);
    let tight = |record: Loop| Loop {
        settings: Settings { jump: 10, ..record.settings },
        mode: Mode::Automatic,
        primed: true,
        last_raw: 999_995,
        ..record
    };
    assert_eq!(serve(tight(ended), b"0"), "refused 14 1\n");
    assert_eq!(serve(tight(ended), b"0\n"), "refused 13 1\n");
    assert_eq!(serve(tight(example::fresh()), b"1000006\n"), "refused 4 1\n");
    assert_eq!(serve(tight(example::fresh()), b"0\n"), "refused 19 1\n");
    assert_eq!(serve(ended, b"10000001\n"), "refused 14 1\n");
    assert_eq!(serve(ended, b"480"), "refused 14 1\n");
    assert_eq!(serve(ended, b"1000001\n"), "refused 13 1\n");
    assert_eq!(serve(ended, b"480\n"), "refused 13 1\n");
    assert_eq!(serve(example::fresh(), b"1000001\n"), "refused 4 1\n");
}
