//! The proved program `journal` against the peer: every byte that it writes.

mod common;
mod late;
// What else the papers say of the settings text is the matter of other tests.
#[allow(dead_code)]
mod papers;
// Where a walk ends is the matter of other tests.
#[allow(dead_code)]
mod walk;

use common::{across_a_cut, for_each_seed, odd_lines, same, words_of_digits, Program};
use host::delivery::Delivery;
use host::law::Command;
use host::rng::Rng;
use host::settings::Settings;
use host::{example, gen, journal};
use papers::{deliveries_of, edges_told, journals, short_c, FORMS, JUMPS, MEANS};
use std::sync::atomic::{AtomicUsize, Ordering::Relaxed};
use std::sync::Mutex;
use walk::{Repeats, Walk};

fn journal_agrees(program: &Program, settings: &[u8], deliveries: &[u8]) {
    same("journal", &program.run(settings, deliveries), &journal::run(settings, deliveries));
}

/// A list of so many deliveries to a loop of these settings; gives the number of wild readings in it.
fn list_agrees(program: &Program, rng: &mut Rng, settings: &Settings, count: usize) -> usize {
    let deliveries = gen::deliveries_file(&gen::deliveries(rng, settings, count));
    let text = gen::settings_text(rng, settings);
    let expected = journal::run(&text, &deliveries);
    same("journal", &program.run(&text, &deliveries), &expected);
    expected.matches(" code=19 ").count()
}

#[test]
fn the_bench_log() {
    let rows = [
        (1, Command::Sample(480)),
        (2, Command::Automatic),
        (3, Command::Sample(480)),
        (4, Command::Sample(480)),
        (4, Command::Sample(480)),
        (4, Command::Sample(481)),
        (6, Command::Sample(480)),
        (5, Command::Sample(478)),
        (6, Command::Set(1)),
        (7, Command::Sample(476)),
        (8, Command::Sample(476)),
        (9, Command::Target { target: 800, rate: 50 }),
        (10, Command::Sample(476)),
        (11, Command::Put(50)),
    ];
    let deliveries: Vec<Delivery> =
        rows.iter().map(|&(number, command)| Delivery { number, command }).collect();
    let written =
        Program::new("journal").run(example::C.as_bytes(), &gen::deliveries_file(&deliveries));
    let answers: Vec<String> = String::from_utf8(written)
        .expect("text")
        .lines()
        .map(|line| {
            line.split(" code=")
                .nth(1)
                .expect("an answer")
                .replace("output=", "")
                .replace("last=", "")
        })
        .collect();
    let expected = [
        "0 100 1", "0 100 2", "0 100 3", "0 105 4", "0 105 4", "2 105 4", "3 105 4", "0 113 5",
        "0 113 6", "0 113 7", "0 119 8", "0 119 9", "0 237 10", "6 237 10",
    ];
    assert_eq!(answers, expected);
}

/// "with sets 4 to 15 equal to set 0": in each the samples 480, 480 and 478 get 01's 100, 105, 113.
#[test]
fn the_sets_that_26_lines_leave_out_are_set_0() {
    let program = Program::new("journal");
    let samples = [480, 480, 478].map(Command::Sample);
    for (set, form) in (4..16).flat_map(|set| FORMS.map(|form| (set, form))) {
        let commands = [Command::Automatic, Command::Set(set)].into_iter().chain(samples);
        let numbered = (1..).zip(commands);
        let list: Vec<Delivery> =
            numbered.map(|(number, command)| Delivery { number, command }).collect();
        let written = program.run(form.c().as_bytes(), &gen::deliveries_file(&list));
        let answer = |(delivery, output): (&Delivery, i32)| {
            let (line, number) = (journal::delivery_line(delivery), delivery.number);
            format!("{line} code=0 output={output} last={number}\n")
        };
        let expected: String = list.iter().zip([100, 100, 100, 105, 113]).map(answer).collect();
        same("journal", &written, &expected);
    }
}

/// The six forms: what the papers say of each edge, and not what the peer says.
#[test]
fn settings_at_an_edge_are_taken_or_refused_as_the_papers_say() {
    let program = Program::new("journal");
    for (text, expected) in edges_told("") {
        same("journal", &program.run(text.as_bytes(), b""), &expected);
    }
}

/// "code 9 starts at 16"; "Negative set numbers stay 9."
#[test]
fn there_are_sixteen_sets() {
    let program = Program::new("journal");
    let set = |k: i32| format!("number=1 command=set value={k} second=0");
    for form in FORMS {
        let answered = |k| program.run(form.c().as_bytes(), (set(k) + "\n").as_bytes());
        for k in 0..16 {
            same("journal", &answered(k), &(set(k) + " code=0 output=100 last=1\n"));
        }
        for k in [16, 17, 256, i32::MAX, -1, -16, i32::MIN] {
            same("journal", &answered(k), &(set(k) + " code=9 output=100 last=0\n"));
        }
    }
}

/// Requests 6, 7 and 8, by hand: what the papers say, and not what the peer says.
#[test]
fn the_journals_of_a_mean_of_a_jump_and_of_late_repeats() {
    let program = Program::new("journal");
    for (after_rate, journal) in journals() {
        let settings = short_c(after_rate);
        same("journal", &program.run(settings.as_bytes(), &deliveries_of(&journal)), &journal);
    }
}

/// Every number from the latest to 40 back, after each of many commands: what was answered first, and not
/// what the peer's memory says.
#[test]
fn late_repeats_at_every_distance_are_answered_as_at_first() {
    let list = late::probed(&late::every_kind(130));
    let deliveries: Vec<Delivery> = list.iter().map(|(delivery, _)| *delivery).collect();
    let expected: String = list.iter().map(late::line).collect();
    let file = gen::deliveries_file(&deliveries);
    for form in FORMS {
        let written = Program::new("journal").run(form.c().as_bytes(), &file);
        same("journal", &written, &expected);
        assert_eq!(journal::run(form.c().as_bytes(), &file), expected);
    }
}

/// At least 200,000 deliveries of which a third are exact repeats, at every distance from 0 to 40: those of
/// the last 32 are served, and the others are 1.
#[test]
fn random_retries_are_answered_alike() {
    let program = Program::new("journal");
    let met = Mutex::new((0, Repeats::NONE));
    for_each_seed(420, |rng| {
        let settings = gen::settings(rng);
        let list = gen::retries(rng, &settings, 500);
        let text = gen::settings_text(rng, &settings);
        let file = gen::deliveries_file(&list);
        let expected = journal::run(&text, &file);
        same("journal", &program.run(&text, &file), &expected);

        let (mut walk, mut repeats) = (Walk::new(&settings), Repeats::NONE);
        for (delivery, line) in list.iter().zip(expected.lines()) {
            let distance = repeats.add(&walk, delivery);
            let answer = walk.answer(delivery);
            assert_eq!(format!("{line}\n"), late::line(&(*delivery, answer)));
            let code = distance.map(|distance| i32::from(distance > 31));
            assert!(code.map_or(true, |code| code == answer.code), "{distance:?}: {line}");
        }
        let mut met = met.lock().expect("no other part has failed");
        met.0 += list.len();
        met.1.join(&repeats);
    });
    let (count, repeats) = met.into_inner().expect("no part has failed");
    assert!(count >= 200_000 && repeats.sum() * 3 >= count, "{} of {count}", repeats.sum());
    assert!(repeats.fewest() >= 500, "{repeats:?}");
}

/// Lists of every command whose kept samples fill the window more than twice.
#[test]
fn long_lists_of_each_mean_are_answered_alike() {
    let program = Program::new("journal");
    for mean in MEANS {
        for_each_seed(20, |rng| {
            let settings = Settings { mean, ..gen::settings(rng) };
            list_agrees(&program, rng, &settings, 1_000);
        });
    }
}

/// Lists of every command with each jump: samples at its edges, holds, automatics and other gain sets
/// between them, and refusals whose numbers are taken by what follows.
#[test]
fn lists_of_each_jump_are_answered_alike() {
    let program = Program::new("journal");
    for jump in JUMPS {
        let wild = AtomicUsize::new(0);
        for_each_seed(40, |rng| {
            let settings = Settings { jump, ..gen::settings(rng) };
            wild.fetch_add(list_agrees(&program, rng, &settings, 400), Relaxed);
        });
        let wild = wild.into_inner();
        assert!(jump > 1_000 || wild > 100, "{jump}: {wild} wild");
        assert!(jump < 2_000_000 || wild == 0, "{jump}: {wild} wild");
    }
}

#[test]
fn random_deliveries_are_answered_alike() {
    let program = Program::new("journal");
    let wild = AtomicUsize::new(0);
    for_each_seed(500, |rng| {
        let settings = gen::settings(rng);
        wild.fetch_add(list_agrees(&program, rng, &settings, 420), Relaxed);
    });
    let wild = wild.into_inner();
    assert!(wild > 2_000, "{wild} wild");
}

#[test]
fn spoiled_deliveries_are_answered_alike() {
    let program = Program::new("journal");
    for_each_seed(200, |rng| {
        let settings = gen::settings(rng);
        let deliveries = gen::deliveries(rng, &settings, 30);
        let text = gen::settings_text(rng, &settings);
        journal_agrees(&program, &text, &gen::spoiled_deliveries_file(rng, &deliveries));
    });
    for line in gen::MALFORMED_DELIVERIES {
        journal_agrees(&program, example::C.as_bytes(), line);
    }
}

#[test]
fn words_of_any_length_are_answered_alike() {
    let program = Program::new("journal");
    for word in words_of_digits() {
        for line in [
            format!("number={word} command=hold value=0 second=0\n"),
            format!("number=1 command=sample value={word} second=0\n"),
            format!("number=1 command=target value=480 second={word}\n"),
        ] {
            journal_agrees(&program, example::C.as_bytes(), line.as_bytes());
        }
    }
}

#[test]
fn a_line_across_a_cut_is_answered_alike() {
    let program = Program::new("journal");
    let mut lines = odd_lines();
    lines.extend(
        [
            "number=1 command=automatic value=0 second=0\n",
            "number=4294967295 command=target value=-2147483648 second=-2147483648\n",
            "number=1 command=hold value=0 second=0",
        ]
        .map(|line| line.as_bytes().to_vec()),
    );
    // the number 0 is old, whatever the command: each is refused, and the run goes on
    let filler = |count: usize| {
        let puts = count / 42;
        let digits = |i: usize| if i < count - puts * 42 { "123456" } else { "12345" };
        (0..puts)
            .map(|i| format!("number=0 command=put value={} second=0\n", digits(i)))
            .collect::<String>()
            .into_bytes()
    };
    let after =
        b"number=1 command=hold value=0 second=0\nnumber=2 command=sample value=480 second=0\n";
    across_a_cut(&lines, filler, after, |file| {
        journal_agrees(&program, example::C.as_bytes(), file);
    });
}

#[test]
fn doubtful_settings_are_refused_alike() {
    let program = Program::new("journal");
    for_each_seed(200, |rng| {
        let settings = gen::doubtful_settings(rng);
        let text = gen::any_form(rng, &settings);
        journal_agrees(&program, &text, b"number=1 command=hold value=0 second=0\n");
    });
}

#[test]
fn what_is_missing_is_told_on_standard_error() {
    Program::new("journal").tells_what_is_missing();
}
