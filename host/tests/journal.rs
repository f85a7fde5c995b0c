//! The journal program: one journal line for each delivery.

// What else the papers say of the settings text is the matter of other tests.
#[allow(dead_code)]
mod papers;

use host::delivery::{deliver, Delivery};
use host::example::C;
use host::gen;
use host::journal::{delivery_line, parse, run};
use host::law::{Command, Loop};
use host::rng::for_each_seed;
use papers::{deliveries_of, edges_told, full_c, journals, short_c};

/// The output with settings C.
fn with_c(deliveries: &[u8]) -> String {
    papers::with_c(|settings| run(settings, deliveries))
}

/// The bench log of 01 as a journal.
#[test]
fn the_bench_log() {
    let journal = "\
number=1 command=sample value=480 second=0 code=0 output=100 last=1
number=2 command=automatic value=0 second=0 code=0 output=100 last=2
number=3 command=sample value=480 second=0 code=0 output=100 last=3
number=4 command=sample value=480 second=0 code=0 output=105 last=4
number=4 command=sample value=480 second=0 code=0 output=105 last=4
number=4 command=sample value=481 second=0 code=2 output=105 last=4
number=6 command=sample value=480 second=0 code=3 output=105 last=4
number=5 command=sample value=478 second=0 code=0 output=113 last=5
number=6 command=set value=1 second=0 code=0 output=113 last=6
number=7 command=sample value=476 second=0 code=0 output=113 last=7
number=8 command=sample value=476 second=0 code=0 output=119 last=8
number=9 command=target value=800 second=50 code=0 output=119 last=9
number=10 command=sample value=476 second=0 code=0 output=237 last=10
number=11 command=put value=50 second=0 code=6 output=237 last=10
number=11 command=hold value=0 second=0 code=0 output=237 last=11
number=12 command=put value=50 second=0 code=0 output=50 last=12
";
    assert_eq!(with_c(&deliveries_of(journal)), journal);
}

#[test]
fn an_empty_file_writes_nothing() {
    assert_eq!(with_c(b""), "");
}

/// A refused delivery is answered with its code, and the run goes on; values may be any of 32
/// bits, and the number any unsigned one.
#[test]
fn refused_deliveries_are_answered_and_the_run_goes_on() {
    let journal = "\
number=0 command=hold value=0 second=0 code=1 output=100 last=0
number=4294967295 command=hold value=0 second=0 code=3 output=100 last=0
number=1 command=sample value=2147483647 second=0 code=4 output=100 last=0
number=1 command=sample value=-2147483648 second=0 code=4 output=100 last=0
number=1 command=put value=1001 second=0 code=5 output=100 last=0
number=1 command=target value=1000001 second=0 code=7 output=100 last=0
number=1 command=target value=1 second=-2147483648 code=8 output=100 last=0
number=1 command=set value=16 second=0 code=9 output=100 last=0
number=1 command=set value=-1 second=0 code=9 output=100 last=0
number=1 command=set value=15 second=0 code=0 output=100 last=1
number=2 command=put value=0 second=0 code=0 output=0 last=2
";
    assert_eq!(with_c(&deliveries_of(journal)), journal);
}

/// Repeats and refusals do not enter the window, manual samples do; a wild reading is answered 19, after
/// which the run goes on; and a late repeat has its own number in its answer.
#[test]
fn the_journals_of_a_mean_of_a_jump_and_of_late_repeats() {
    for (after_rate, journal) in journals() {
        assert_eq!(run(short_c(after_rate).as_bytes(), &deliveries_of(&journal)), journal);
    }
}

#[test]
fn a_malformed_line_ends_the_run_with_14_and_its_line() {
    let good = "number=1 command=hold value=0 second=0";
    let answer = format!("{good} code=0 output=100 last=1\n");
    for line in gen::MALFORMED_DELIVERIES {
        let file = [good.as_bytes(), b"\n", line, b"\n", good.as_bytes(), b"\n"].concat();
        let output = run(C.as_bytes(), &file);
        assert_eq!(output, format!("{answer}refused 14 2\n"), "{}", line.escape_ascii());
        assert_eq!(parse(line), None);
    }
    assert_eq!(with_c(good.as_bytes()), "refused 14 1\n", "its line feed is missing");
    let twice = format!("{good}\n{good}");
    assert_eq!(with_c(twice.as_bytes()), format!("{answer}refused 14 2\n"));
    assert_eq!(with_c(b"\n"), "refused 14 1\n");
}

#[test]
fn refused_settings_end_the_run() {
    let refused = |settings: String| run(settings.as_bytes(), b"x\n");
    assert_eq!(refused(String::new()), "refused 14 1\n");
    assert_eq!(refused(C.replace("lo=0\n", "lo=-1000001\n")), "refused 15 2\n");
    assert_eq!(refused(C.replace("out=100\n", "out=1001\n")), "refused 16 0\n");
    assert_eq!(refused(format!("{C}\n")), "refused 14 27\n");
    assert_eq!(refused(format!("{}\n", full_c())), "refused 17 0\n");
    for (text, expected) in edges_told("") {
        assert_eq!(run(text.as_bytes(), b""), expected, "{}", text.escape_debug());
    }
}

#[test]
fn each_line_is_read_as_it_is_written() {
    for_each_seed(5_000, |rng| {
        let record = gen::record(rng);
        let delivery = gen::delivery(rng, &record);
        assert_eq!(parse(delivery_line(&delivery).as_bytes()), Some(delivery));
    });
    let aim = Delivery {
        number: 4_294_967_295,
        command: Command::Target { target: i32::MIN, rate: i32::MAX },
    };
    let line = "number=4294967295 command=target value=-2147483648 second=2147483647";
    assert_eq!(delivery_line(&aim), line);
    assert_eq!(parse(line.as_bytes()), Some(aim));
}

/// What is read is written as the same bytes, however a line was damaged.
#[test]
fn damaged_lines_are_read_exactly_or_not_at_all() {
    let mut read = 0;
    for_each_seed(20_000, |rng| {
        let record = gen::record(rng);
        let line = delivery_line(&gen::delivery(rng, &record));
        let damaged = gen::damaged(rng, line.as_bytes());
        if let Some(delivery) = parse(&damaged) {
            read += 1;
            assert_eq!(delivery_line(&delivery).into_bytes(), damaged);
        }
    });
    assert!(read > 500, "{read} read");
}

#[test]
fn random_lists_are_answered_as_single_deliveries() {
    for_each_seed(100, |rng| {
        let settings = gen::settings(rng);
        let list = gen::deliveries(rng, &settings, 200);
        let mut record = Loop::make(&settings).1;
        let mut expected = String::new();
        for delivery in &list {
            let answer = deliver(&mut record, delivery.number, delivery.command);
            let (code, output, last) = (answer.code, answer.output, answer.last);
            let line = delivery_line(delivery);
            expected += &format!("{line} code={code} output={output} last={last}\n");
        }
        let text = gen::settings_text(rng, &settings);
        assert_eq!(run(&text, &gen::deliveries_file(&list)), expected);

        let spoiled = run(&text, &gen::spoiled_deliveries_file(rng, &list));
        let at = spoiled.find("refused 14 ").expect("a refusal");
        assert!(expected.starts_with(&spoiled[..at]));
        let line = spoiled[..at].matches('\n').count() + 1;
        assert_eq!(spoiled[at..], format!("refused 14 {line}\n"));
    });
}
