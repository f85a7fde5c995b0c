//! 01's program: its example, and how each line is answered.

// What else the papers say of the settings text is the matter of other tests.
#[allow(dead_code)]
mod papers;

use host::delivery::deliver;
use host::example::{self, C};
use host::gen;
use host::law::{Command, Loop};
use host::oven::{run, serve};
use host::rng::for_each_seed;
use papers::{edges_told, full_c, jump_examples, mean_examples, short_c};

/// The output with settings C.
fn with_c(samples: &str) -> String {
    papers::with_c(|settings| run(settings, samples.as_bytes()))
}

/// "With settings C and samples 480, 480, 478 the whole output is three lines: 100, 105, 113."
#[test]
fn the_example_of_01() {
    assert_eq!(with_c("480\n480\n478\n"), "100\n105\n113\n");
}

/// "C with mean=2, automatic, 480, 480, 470: 100, 105, 116", and others by hand.
#[test]
fn the_examples_of_the_mean() {
    for (settings, samples, expected) in mean_examples() {
        assert_eq!(run(settings.as_bytes(), samples), expected, "{settings}");
    }
}

/// "The program writes `refused 19 LINE`", by hand.
#[test]
fn the_examples_of_the_jump() {
    for (settings, samples, expected) in jump_examples() {
        assert_eq!(run(settings.as_bytes(), samples), expected, "{settings}");
    }
}

#[test]
fn a_refusal_ends_a_run_under_way_at_its_line() {
    assert_eq!(with_c("480\n480\nx\n"), "100\n105\nrefused 14 3\n");
    assert_eq!(with_c("480\n480\n1000001\n"), "100\n105\nrefused 4 3\n");
    assert_eq!(with_c("x\n480\n"), "refused 14 1\n");
    assert_eq!(with_c("480\n-1000001\n480\n"), "100\nrefused 4 2\n");
}

/// What is written never depends on what follows the first refusal.
#[test]
fn lines_are_judged_one_by_one() {
    assert_eq!(with_c("480\n1000001\nx\n"), "100\nrefused 4 2\n");
    assert_eq!(with_c("480\nx\n1000001\n"), "100\nrefused 14 2\n");
    assert_eq!(with_c("1000001\n480"), "refused 4 1\n");
}

#[test]
fn the_last_line_needs_its_line_feed() {
    assert_eq!(with_c("480"), "refused 14 1\n");
    assert_eq!(with_c("480\n480"), "100\nrefused 14 2\n");
    assert_eq!(with_c("480\n1000001"), "100\nrefused 14 2\n");
    assert_eq!(with_c("480\n\n"), "100\nrefused 14 2\n");
    assert_eq!(with_c("480\n \n"), "100\nrefused 14 2\n");
}

#[test]
fn an_empty_sample_file_writes_nothing() {
    assert_eq!(with_c(""), "");
    assert_eq!(with_c("\n"), "refused 14 1\n");
}

#[test]
fn samples_have_the_decimal_form_of_the_settings() {
    for line in ["-0", "00", "0480", "+480", " 480", "480 ", "480\r", "10000000", "4.8", "-"] {
        assert_eq!(with_c(&format!("{line}\n")), "refused 14 1\n", "{line}");
    }
    for line in ["9999999", "-9999999", "1000001", "-1000001"] {
        assert_eq!(with_c(&format!("{line}\n")), "refused 4 1\n", "{line}");
    }
    for line in ["0", "-1", "1000000", "-1000000"] {
        assert_eq!(with_c(&format!("{line}\n")), "100\n", "{line}");
    }
    assert_eq!(run(C.as_bytes(), b"480\n\xff\n"), "100\nrefused 14 2\n");
}

/// "the line is 0 for codes 16 and 17"; a refusal of the settings reports the settings' line.
#[test]
fn refused_settings_end_the_run_before_any_sample() {
    let refused = |settings: String| run(settings.as_bytes(), b"480\nx\n");
    assert_eq!(refused(String::new()), "refused 14 1\n");
    assert_eq!(refused(C.replace("rate=50\n", "rate=\n")), "refused 14 6\n");
    assert_eq!(refused(C.replace("kt3=0\n", "kt3=65537\n")), "refused 15 26\n");
    assert_eq!(refused(C.replace("hi=1000\n", "hi=0\n")), "refused 16 0\n");
    assert_eq!(refused(format!("{C}x")), "refused 14 27\n");
    assert_eq!(refused(format!("{C}kp4=4194305\n")), "refused 15 27\n");
    assert_eq!(refused(format!("{}x", full_c())), "refused 17 0\n");
    assert_eq!(refused(short_c("mean=0")), "refused 15 7\n");
    assert_eq!(refused(short_c("mean=129")), "refused 15 7\n");
    assert_eq!(refused(short_c("mean=1\nmean=1")), "refused 14 8\n");
    assert_eq!(refused(short_c("mean=1") + "x"), "refused 14 28\n");
    assert_eq!(refused(short_c("mean=1\njump=0")), "refused 15 8\n");
    assert_eq!(refused(short_c("mean=1\njump=2000001")), "refused 15 8\n");
    assert_eq!(refused(short_c("jump=10")), "refused 14 7\n");
    assert_eq!(refused(short_c("jump=10\nmean=1")), "refused 14 7\n");
    assert_eq!(refused(short_c("mean=1\njump=10") + "x"), "refused 14 29\n");
    assert_eq!(run(b"x", b""), "refused 14 1\n", "no samples, and yet told");
}

/// Settings C at an edge of its six forms are taken whole or refused.
#[test]
fn settings_at_an_edge_are_taken_or_refused_as_the_papers_say() {
    for (text, expected) in edges_told("100\n105\n113\n") {
        let written = run(text.as_bytes(), b"480\n480\n478\n");
        assert_eq!(written, expected, "{}", text.escape_debug());
    }
}

/// "delivers automatic as number 1 and the samples from number 2 on": line k has number k + 1.
#[test]
fn a_sample_past_number_4_294_967_295_is_13() {
    let mut record = example::fresh();
    deliver(&mut record, 1, Command::Automatic);
    assert_eq!(serve(&mut record, b"480\n480\n478\n"), "100\n105\n113\n");
    assert_eq!(record.last, 4);
    let late = example::at_number(u32::MAX - 2, Command::Sample(478));
    record = Loop { last: late.last, memory: late.memory, ..record };
    assert_eq!(serve(&mut record, b"478\n478\n478\n1\n"), "118\n124\nrefused 13 3\n");
    assert_eq!(record.last, u32::MAX);
    assert_eq!(serve(&mut record, b"478\n"), "refused 13 1\n");
    assert_eq!(serve(&mut record, b""), "");
}

/// Files of more than one piece of 64 KiB, answered as single deliveries.
#[test]
fn long_files_are_answered_line_by_line() {
    for_each_seed(10, |rng| {
        let settings = gen::settings(rng);
        let samples = gen::samples(rng, &settings, 40_000);
        let file = gen::sample_file(&samples);
        assert!(file.len() > 64 * 1024);
        let mut record = Loop::make(&settings).1;
        deliver(&mut record, 1, Command::Automatic);
        let mut expected = String::new();
        for (number, &pv) in (2..).zip(&samples) {
            let answer = deliver(&mut record, number, Command::Sample(pv));
            expected += &format!("{}\n", answer.output);
        }
        assert_eq!(run(&gen::settings_text(rng, &settings), &file), expected);
    });
}

/// The code and the line of the first sample of an automatic run that is out of range or further than
/// jump from the sample before it, if one is.
fn first_bad(samples: &[i32], jump: i32) -> Option<(i32, usize)> {
    let mut before = None;
    for (line, &raw) in (1..).zip(samples) {
        if raw.abs() > 1_000_000 {
            return Some((4, line));
        }
        if before.map_or(false, |before: i32| before.abs_diff(raw) > jump as u32) {
            return Some((19, line));
        }
        before = Some(raw);
    }
    None
}

/// Files with wild readings in the middle: the outputs before the first stand, then it is told.
#[test]
fn a_file_is_answered_up_to_its_first_wild_reading() {
    let mut codes = [0; 20];
    for_each_seed(3_000, |rng| {
        let settings = gen::settings(rng);
        let count = rng.below(40);
        let samples = gen::doubtful_oven_samples(rng, &settings, count);
        let bad = first_bad(&samples, settings.jump);
        let written = run(&gen::settings_text(rng, &settings), &gen::sample_file(&samples));
        let taken = bad.map_or(samples.len(), |(_, line)| line - 1);
        let outputs: String = written.split_inclusive('\n').take(taken).collect();
        assert!(!outputs.contains("refused"), "{written}");
        let told = bad.map_or(String::new(), |(code, line)| format!("refused {code} {line}\n"));
        assert_eq!(written, outputs + &told, "{samples:?}");
        codes[bad.map_or(0, |(code, _)| code as usize)] += 1;
    });
    assert!([0, 4, 19].iter().all(|&code| codes[code] > 200), "{codes:?}");
}

/// A spoiled file gives the front of the good file's output and one `refused` line.
#[test]
fn a_spoiled_file_is_answered_up_to_its_bad_line() {
    let mut codes = [0; 15];
    for_each_seed(500, |rng| {
        let settings = gen::settings(rng);
        let text = gen::settings_text(rng, &settings);
        let count = rng.below(40);
        let samples = gen::samples(rng, &settings, count);
        let good = run(&text, &gen::sample_file(&samples));
        let spoiled = run(&text, &gen::spoiled_sample_file(rng, &samples));
        let at = spoiled.find("refused ").expect("a refusal");
        assert!(good.starts_with(&spoiled[..at]), "the outputs before it stand");
        let line = spoiled[..at].matches('\n').count() + 1;
        let code = if spoiled[at..].starts_with("refused 4 ") { 4 } else { 14 };
        codes[code] += 1;
        assert_eq!(spoiled[at..], format!("refused {code} {line}\n"));
    });
    assert!(codes[4] > 50 && codes[14] > 50, "{codes:?}");
}
