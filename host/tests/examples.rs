//! The files below examples/: what the README shows of them, what a mean does for a noisy sensor, a
//! jump for a loose connector, and what a late repeat is answered.

// Cut lines and missing files are the matter of the other tests of the programs.
#[allow(dead_code)]
mod common;

use common::{same, Program};
use host::{journal, oven};
use std::path::Path;

/// The bytes of an example.
fn example(name: &str) -> Vec<u8> {
    let root = Path::new(env!("CARGO_MANIFEST_DIR")).parent().expect("the project's root");
    std::fs::read(root.join("examples").join(name)).expect("an example")
}

/// The settings and the samples of each oven.
const OVENS: [(&str, &str); 5] = [
    ("c.settings", "three.samples"),
    ("cooler.settings", "three.samples"),
    ("warming.settings", "warming.samples"),
    ("noisy.settings", "noisy.samples"),
    ("noisy-plain.settings", "noisy.samples"),
];

/// The settings and the deliveries of each journal.
const JOURNALS: [(&str, &str); 4] = [
    ("c.settings", "retried.deliveries"),
    ("c.settings", "late.deliveries"),
    ("sixteen.settings", "sixteen.deliveries"),
    ("loose.settings", "loose.deliveries"),
];

/// The peer's outputs for an oven of the examples.
fn outputs(settings: &str, samples: &str) -> Vec<i32> {
    let written = oven::run(&example(settings), &example(samples));
    written.lines().map(|output| output.parse().expect("an output")).collect()
}

/// The peer's answers to the deliveries of an example: what follows "code=" in each line.
fn answers(settings: &str, deliveries: &str) -> Vec<String> {
    let written = journal::run(&example(settings), &example(deliveries));
    written.lines().filter_map(|line| line.split(" code=").nth(1)).map(String::from).collect()
}

/// How far the outputs lie apart.
fn spread(outputs: &[i32]) -> i32 {
    let fold = |best: fn(i32, i32) -> i32| outputs.iter().copied().reduce(best).expect("outputs");
    fold(i32::max) - fold(i32::min)
}

#[test]
fn the_ovens_have_the_outputs_that_the_readme_shows() {
    assert_eq!(outputs("c.settings", "three.samples"), [100, 105, 113]);
    assert_eq!(outputs("cooler.settings", "three.samples"), [-100, -105, -113]);
    let warming = outputs("warming.settings", "warming.samples");
    assert_eq!(warming[..4], [0, 220_438, 424_958, 608_970]);
    assert_eq!(warming[117..], [362_031, 357_583, 363_556]);
}

/// The same cooler with and without its line of the mean: the noise of the sensor is the same, and
/// its power moves within less than a sixth.
#[test]
fn a_mean_calms_the_power_of_a_noisy_cooler() {
    let calm = outputs("noisy.settings", "noisy.samples");
    let plain = outputs("noisy-plain.settings", "noisy.samples");
    assert_eq!(calm.len(), 32);
    assert_eq!(calm[..8], [400_000, 397_848, 400_363, 398_796, 400_926, 399_147, 398_974, 399_630]);
    assert_eq!(
        plain[..8],
        [400_000, 395_678, 405_239, 394_220, 409_254, 390_100, 398_083, 403_984]
    );
    assert_eq!((spread(&calm), spread(&plain)), (3_235, 21_010));
    let [with, without] = ["noisy.settings", "noisy-plain.settings"].map(example);
    let [with, without] = [with, without].map(|text| String::from_utf8(text).expect("text"));
    assert_eq!(with.replace("mean=8\n", ""), without, "they differ by that line alone");
}

/// A wild reading leaves the power as it is, and its number to the next sample. A real step is refused
/// until hold, a sample, automatic; then the samples go on from there.
#[test]
fn a_jump_keeps_a_loose_connector_from_the_power() {
    let expected = [
        "0 output=350000 last=1",
        "0 output=350000 last=2",
        "0 output=350768 last=3",
        "0 output=350313 last=4",
        "19 output=350313 last=4",
        "0 output=350501 last=5",
        "0 output=350562 last=6",
        "19 output=350562 last=6",
        "19 output=350562 last=6",
        "0 output=350562 last=7",
        "0 output=350562 last=8",
        "0 output=350562 last=9",
        "0 output=350562 last=10",
        "0 output=397479 last=11",
    ];
    assert_eq!(answers("loose.settings", "loose.deliveries"), expected);
    let without =
        String::from_utf8(example("loose.settings")).expect("text").replace("jump=500\n", "");
    let driven = journal::run(without.as_bytes(), &example("loose.deliveries"));
    let wild = driven.lines().nth(4).expect("the wild reading");
    assert!(wild.ends_with(" code=0 output=1000000 last=5"), "without the jump: {wild}");
}

/// 36 commands are kept, and 5 to 36 are remembered: 5 comes again with its first answer, and 4 is too
/// old. 20 has another value. With 37 kept, 5 is too old as well, and 6 is the oldest.
#[test]
fn late_repeats_are_answered_as_the_readme_shows() {
    let answers = answers("c.settings", "late.deliveries");
    assert_eq!(
        answers[3..6],
        ["0 output=113 last=4", "0 output=117 last=5", "0 output=122 last=6"]
    );
    let late = [
        "0 output=166 last=36",
        "0 output=166 last=35",
        "0 output=117 last=5",
        "1 output=166 last=36",
        "2 output=166 last=36",
        "0 output=166 last=37",
        "1 output=166 last=37",
        "0 output=122 last=6",
    ];
    assert_eq!(answers[35..], late);
}

#[test]
fn the_programs_answer_every_example_as_the_peer_does() {
    let (oven, journal) = (Program::new("oven"), Program::new("journal"));
    for (settings, samples) in OVENS {
        let (settings, samples) = (example(settings), example(samples));
        same("oven", &oven.run(&settings, &samples), &oven::run(&settings, &samples));
    }
    for (settings, deliveries) in JOURNALS {
        let (settings, deliveries) = (example(settings), example(deliveries));
        let expected = journal::run(&settings, &deliveries);
        assert!(!expected.contains("refused"), "{expected}");
        same("journal", &journal.run(&settings, &deliveries), &expected);
    }
}
