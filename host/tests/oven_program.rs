//! The proved program `oven` against the peer: every byte that it writes.

mod common;
// What else the papers say of the settings text is the matter of other tests.
#[allow(dead_code)]
mod papers;

use common::{across_a_cut, for_each_seed, odd_lines, same, words_of_digits, Program};
use host::by_hand::{Halves, PLACES};
use host::rng::Rng;
use host::settings::Settings;
use host::{example, gen, oven, text};
use papers::{edges_told, full_c, jump_examples, longest_text, mean_examples, short_c, with_c};
use papers::{FORMS, FULL, JUMPS, MEANS};
use std::sync::atomic::{AtomicUsize, Ordering::Relaxed};
use std::sync::Mutex;

fn oven_agrees(program: &Program, settings: &[u8], samples: &[u8]) {
    same("oven", &program.run(settings, samples), &oven::run(settings, samples));
}

#[test]
fn the_example_of_01() {
    let program = Program::new("oven");
    let written = with_c(|settings| {
        String::from_utf8(program.run(settings, b"480\n480\n478\n")).expect("text")
    });
    assert_eq!(written, "100\n105\n113\n");
}

/// Request 7, by hand: what the papers say, and not what the peer says.
#[test]
fn the_examples_of_the_mean() {
    let program = Program::new("oven");
    for (settings, samples, expected) in mean_examples() {
        same("oven", &program.run(settings.as_bytes(), samples), &expected);
    }
}

/// Request 8, by hand: what the papers say, and not what the peer says.
#[test]
fn the_examples_of_the_jump() {
    let program = Program::new("oven");
    for (settings, samples, expected) in jump_examples() {
        same("oven", &program.run(settings.as_bytes(), samples), &expected);
    }
}

/// Jumps of every size: series that keep to them, with samples exactly a jump away on either side, and
/// the same with a last one that is a jump and one more away.
#[test]
fn series_at_the_edge_of_each_jump_are_answered_alike() {
    let program = Program::new("oven");
    for jump in JUMPS {
        let [taken, wild] = [AtomicUsize::new(0), AtomicUsize::new(0)];
        for_each_seed(40, |rng| {
            let settings = Settings { jump, ..gen::settings(rng) };
            let count = 1 + rng.below(300);
            let mut samples = gen::samples(rng, &settings, count);
            let text = gen::settings_text(rng, &settings);
            let last = samples[count - 1];
            let past = if last > 0 { last - jump - 1 } else { last + jump + 1 };
            oven_agrees(&program, &text, &gen::sample_file(&samples));
            samples.extend([past, last]);
            oven_agrees(&program, &text, &gen::sample_file(&samples));
            let written = oven::run(&text, &gen::sample_file(&samples));
            let told = format!("refused 19 {}\n", count + 1);
            wild.fetch_add(usize::from(written.ends_with(&told)), Relaxed);
            let edges =
                samples[..count].windows(2).filter(|pair| pair[0].abs_diff(pair[1]) == jump as u32);
            taken.fetch_add(edges.count(), Relaxed);
        });
        let [taken, wild] = [taken.into_inner(), wild.into_inner()];
        assert!(jump > 1_000 || (taken > 100 && wild == 40), "{jump}: {taken} taken, {wild} wild");
    }
}

/// Means over one temperature, over few, over one less than the window holds and over all; of more
/// samples than two windows hold, of both signs, with halves.
#[test]
fn long_runs_of_each_mean_are_answered_alike() {
    let program = Program::new("oven");
    for mean in MEANS {
        let halves = Mutex::new(Halves::default());
        for_each_seed(30, |rng| {
            let settings = Settings { mean, ..gen::settings(rng) };
            let count = 300 + rng.below(300);
            let samples = gen::samples(rng, &settings, count);
            let text = gen::settings_text(rng, &settings);
            oven_agrees(&program, &text, &gen::sample_file(&samples));
            let mut halves = halves.lock().expect("no test has failed");
            halves.add_list(&settings, &gen::sample_deliveries(&samples));
        });
        let Halves { above, below } = halves.into_inner().expect("no test has failed");
        let of_the_mean = [above[PLACES - 1], below[PLACES - 1]];
        let has_halves = mean % 2 == 0;
        assert!(of_the_mean.iter().all(|&count| !has_halves || count > 5), "{of_the_mean:?}");
    }
}

/// The six forms: what the papers say of each edge, and not what the peer says.
#[test]
fn settings_at_an_edge_are_taken_or_refused_as_the_papers_say() {
    let program = Program::new("oven");
    for (text, expected) in edges_told("100\n105\n113\n") {
        same("oven", &program.run(text.as_bytes(), b"480\n480\n478\n"), &expected);
    }
    for form in FORMS {
        let longest = form.of(&longest_text());
        same("oven", &program.run(longest.as_bytes(), b""), "");
    }
}

/// Settings C in 86, 87 and 88 lines cut at each byte, and so in 26, 27 and 28 too: "a full settings text
/// cut exactly after the last line of set 3 is accepted, as the short form".
#[test]
fn settings_cut_anywhere_are_refused_where_they_stop() {
    let program = Program::new("oven");
    for form in FULL {
        let full = form.c();
        let set_3 = full.find("kp4=").expect("set 4");
        for length in 0..full.len() {
            let feeds = full[..length].matches('\n').count();
            let refused = format!("refused 14 {}\n", feeds + 1);
            let expected = if length == set_3 { "100\n" } else { &refused };
            same("oven", &program.run(&full.as_bytes()[..length], b"480\n"), expected);
        }
    }
}

#[test]
fn the_readings_of_the_program() {
    let program = Program::new("oven");
    for samples in [
        "",
        "480\n480\nx\n",
        "480\n1000001\nx\n",
        "480\n480",
        "\n",
        "480\r\n",
        "-0\n",
        "01\n",
        "00000001\n",
        "12345678\n",
    ] {
        oven_agrees(&program, example::C.as_bytes(), samples.as_bytes());
    }
}

#[test]
fn damaged_settings_are_refused_alike() {
    let program = Program::new("oven");
    for_each_seed(2_000, |rng| {
        let settings = gen::settings(rng);
        let whole = gen::any_form(rng, &settings);
        let damaged = gen::damaged(rng, &whole);
        oven_agrees(&program, &damaged, b"0\n1\n");
    });
}

#[test]
fn sample_files_are_answered_alike() {
    let program = Program::new("oven");
    for_each_seed(500, |rng| {
        let settings = gen::settings(rng);
        // one in twenty-five is longer than 64 KiB, and its lines lie across every cut
        let count = if rng.one_in(25) { 15_000 } else { rng.below(400) };
        let samples = gen::samples(rng, &settings, count);
        let file = match rng.below(4) {
            0 => gen::spoiled_sample_file(rng, &samples),
            1 => gen::sample_file(&gen::doubtful_oven_samples(rng, &settings, count)),
            _ => gen::sample_file(&samples),
        };
        oven_agrees(&program, &gen::settings_text(rng, &settings), &file);
    });
}

/// Wild readings, and temperatures out of range, in the middle of a file.
#[test]
fn wild_readings_are_refused_alike() {
    let program = Program::new("oven");
    let [wild, out_of_range] = [AtomicUsize::new(0), AtomicUsize::new(0)];
    for_each_seed(600, |rng| {
        let settings = gen::settings(rng);
        let count = 1 + rng.below(60);
        let file = gen::sample_file(&gen::doubtful_oven_samples(rng, &settings, count));
        let text = gen::settings_text(rng, &settings);
        oven_agrees(&program, &text, &file);
        let written = oven::run(&text, &file);
        wild.fetch_add(written.matches("refused 19 ").count(), Relaxed);
        out_of_range.fetch_add(written.matches("refused 4 ").count(), Relaxed);
    });
    let [wild, out_of_range] = [wild.into_inner(), out_of_range.into_inner()];
    assert!(wild > 50 && out_of_range > 50, "{wild} wild, {out_of_range} out of range");
}

#[test]
fn a_line_across_a_cut_is_answered_alike() {
    let program = Program::new("oven");
    let mut lines = odd_lines();
    lines.extend(["-123456\n", "1000001\n", "x\n", "480"].map(|line| line.as_bytes().to_vec()));
    let filler = |count: usize| {
        let first = ["", "1\n10\n", "1\n", "10\n"][count % 4];
        format!("{first}{}", "480\n".repeat((count - first.len()) / 4)).into_bytes()
    };
    across_a_cut(&lines, filler, b"481\n479\n", |file| {
        oven_agrees(&program, example::C.as_bytes(), file);
    });
    // With a jump of 500 the lines before are taken, 480 the last; these lie 500 and 501 away.
    let at_the_edge = ["980\n", "981\n", "-20\n", "-21\n"].map(|line| line.as_bytes().to_vec());
    let tight = short_c("mean=1\njump=500");
    across_a_cut(&at_the_edge, filler, b"480\n", |file| {
        oven_agrees(&program, tight.as_bytes(), file);
    });
}

#[test]
fn words_of_any_length_are_answered_alike() {
    let program = Program::new("oven");
    for word in words_of_digits() {
        let samples = format!("480\n{word}\n480\n");
        oven_agrees(&program, example::C.as_bytes(), samples.as_bytes());
        for settings in [
            example::C.replace("hi=1000", &format!("hi={word}")),
            example::C.replace("kt3=0", &format!("kt3={word}")),
            format!("{}kp4={word}\n", example::C),
            full_c().replace("kt15=0", &format!("kt15={word}")),
            short_c(&format!("mean={word}")),
            short_c(&format!("mean=1\njump={word}")),
            format!("{}kp4={word}\n", short_c("mean=1")),
            format!("{}kp4={word}\n", short_c("mean=1\njump=1")),
        ] {
            oven_agrees(&program, settings.as_bytes(), b"480\n");
        }
    }
}

#[test]
fn a_hundred_thousand_digits_are_14() {
    let program = Program::new("oven");
    let word = "9".repeat(100_000);
    let settings = example::C.replace("hi=1000", &format!("hi={word}"));
    assert_eq!(program.run(settings.as_bytes(), b"480\n"), b"refused 14 3\n");
    let settings = format!("{}kp4={word}\n", example::C);
    assert_eq!(program.run(settings.as_bytes(), b"480\n"), b"refused 14 27\n");
    let settings = short_c(&format!("mean={word}"));
    assert_eq!(program.run(settings.as_bytes(), b"480\n"), b"refused 14 7\n");
    let settings = short_c(&format!("mean=1\njump={word}"));
    assert_eq!(program.run(settings.as_bytes(), b"480\n"), b"refused 14 8\n");
    let settings = format!("{}kp16={word}\n", full_c());
    assert_eq!(program.run(settings.as_bytes(), b"480\n"), b"refused 17 0\n");
    let samples = format!("480\n{word}\n480\n");
    assert_eq!(program.run(example::C.as_bytes(), samples.as_bytes()), b"100\nrefused 14 2\n");
}

#[test]
fn a_day_of_samples_is_answered_alike() {
    let program = Program::new("oven");
    for (mean, jump) in [(1, 2_000_000), (128, 2_000_000), (1, 40)] {
        let settings = Settings { mean, jump, ..example::settings() };
        let samples = gen::samples(&mut Rng::new(864), &settings, 864_000);
        oven_agrees(&program, text::lines_of(&settings).as_bytes(), &gen::sample_file(&samples));
    }
}

#[test]
fn what_is_missing_is_told_on_standard_error() {
    Program::new("oven").tells_what_is_missing();
}
