//! Request 3's two mirrors of the proved programs: what `journal` and `oven` write for mirrored
//! files is the mirror of what they write for the others. The peer counts the halves, and no more.

// Cut lines and missing files are the matter of the other tests of the programs.
#[allow(dead_code)]
mod common;

use common::{same, Program};
use host::by_hand::Halves;
use host::delivery::Delivery;
use host::form::{AfterRate, Form};
use host::mirror::{oven_line, Mirror};
use host::rng::{for_each_seed, Rng};
use host::settings::Settings;
use host::{example, gen, text};

/// What the program writes for the bytes of its two files.
fn written(program: &Program, settings: &[u8], lines: &[u8]) -> String {
    String::from_utf8(program.run(settings, lines)).expect("text")
}

/// Whether this line refuses the file, and answers nothing in it.
fn refuses(line: &str) -> bool {
    line.starts_with("refused ")
}

/// The program's output for a mirrored pair of files is a mirrored pair, line by line, and a file
/// is refused as its mirror is, whichever forms the texts of the settings have. Gives the first
/// output.
fn outputs_mirror(
    program: &Program,
    settings: &[Vec<u8>; 2],
    files: [Vec<u8>; 2],
    answer: impl Fn(&str) -> Option<String>,
) -> String {
    let output = written(program, &settings[0], &files[0]);
    let expected: String = output
        .lines()
        .map(|line| if refuses(line) { line.into() } else { answer(line).expect("an answer") })
        .map(|line| line + "\n")
        .collect();
    same("the mirror", written(program, &settings[1], &files[1]).as_bytes(), &expected);
    output
}

/// How many of the lines answer a line of the file.
fn answers(output: &str) -> usize {
    output.lines().filter(|line| !refuses(line)).count()
}

/// How many wild readings a program has told, of either file.
fn wild_readings(output: &str) -> usize {
    output.matches(" code=19 ").count() + output.matches("refused 19 ").count()
}

/// The two files of two lists. One pair in four is spoiled, by the same stream and so at the same
/// place by the same line.
fn files<T>(
    rng: &mut Rng,
    lists: [&[T]; 2],
    good: impl Fn(&[T]) -> Vec<u8>,
    spoiled: impl Fn(&mut Rng, &[T]) -> Vec<u8>,
) -> [Vec<u8>; 2] {
    if rng.one_in(4) {
        lists.map(|list| spoiled(&mut rng.clone(), list))
    } else {
        lists.map(good)
    }
}

/// Deliveries of every kind, or those of an oven, which nothing disturbs.
fn deliveries(rng: &mut Rng, settings: &Settings) -> Vec<Delivery> {
    if rng.one_in(2) {
        gen::deliveries(rng, settings, 300)
    } else {
        gen::sample_deliveries(&gen::samples(rng, settings, 300))
    }
}

/// Samples for these settings, now and then with some among them that are wild or out of range.
fn samples(rng: &mut Rng, settings: &Settings) -> Vec<i32> {
    if rng.one_in(3) {
        gen::doubtful_oven_samples(rng, settings, 300)
    } else {
        gen::samples(rng, settings, 300)
    }
}

/// A mirrored pair of files, and what is delivered for the first of them: so many deliveries that
/// get no line, then one for each line.
struct Pair {
    files: [Vec<u8>; 2],
    silent: usize,
    delivered: Vec<Delivery>,
}

/// Draws pairs of files and runs the program on them, in both mirrors.
fn pairs_mirror(
    name: &str,
    draw: impl Fn(Mirror, &mut Rng, &Settings) -> Pair,
    answer: impl Fn(Mirror, &str) -> Option<String>,
) {
    let program = Program::new(name);
    for mirror in Mirror::BOTH {
        let (mut answered, mut wild, mut halves) = (0, 0, Halves::default());
        for_each_seed(200, |rng| {
            let settings = gen::settings(rng);
            let pair = draw(mirror, rng, &settings);
            let both = [settings, mirror.settings(&settings)];
            let texts = both.map(|settings| gen::settings_text(rng, &settings));
            let output = outputs_mirror(&program, &texts, pair.files, |line| answer(mirror, line));
            let count = answers(&output);
            answered += count;
            wild += wild_readings(&output);
            halves.add_list(&settings, &pair.delivered[..pair.silent + count]);
        });
        println!("{name}, {mirror:?}: {answered} answers, {wild} wild, {halves:?}");
        assert!(answered >= 10_000 && wild >= 5, "{answered} answers, {wild} wild");
        assert!(halves.fewest() > 0, "{halves:?}");
    }
}

/// "same codes, same numbers, outputs [..] with the other sign"
#[test]
fn mirrored_deliveries_get_mirrored_answers_from_journal() {
    let draw = |mirror: Mirror, rng: &mut Rng, settings: &Settings| {
        let drawn = deliveries(rng, settings).into_iter();
        let pairs = drawn.filter_map(|next| Some((next, mirror.delivery(&next)?)));
        let (delivered, others): (Vec<Delivery>, Vec<Delivery>) = pairs.unzip();
        let lists = [&delivered[..], &others];
        let files = files(rng, lists, gen::deliveries_file, gen::spoiled_deliveries_file);
        Pair { files, silent: 0, delivered }
    };
    pairs_mirror("journal", draw, |mirror, line| mirror.journal_line(line));
}

/// "every output [..] change[s] sign"
#[test]
fn mirrored_samples_get_mirrored_outputs_from_oven() {
    let draw = |mirror: Mirror, rng: &mut Rng, settings: &Settings| {
        let list = samples(rng, settings);
        let lists = [&list[..], &mirror.samples(&list)];
        let files = files(rng, lists, gen::sample_file, gen::spoiled_sample_file);
        Pair { files, silent: 1, delivered: gen::sample_deliveries(&list) }
    };
    pairs_mirror("oven", draw, |_, line| oven_line(line));
}

/// Halves of either sign at each place that rounds, in ovens whose outputs are worked out by hand.
/// All of their sets are alike, so that a text that ends after set 3 says them, too.
#[test]
fn a_half_at_each_place_shows_in_what_the_programs_write() {
    let (oven, journal) = (Program::new("oven"), Program::new("journal"));
    for example in example::half_ovens() {
        let short = Form { after_rate: AfterRate::Mean, short: true }.text(&example.settings);
        let output = written(&oven, &short, &gen::sample_file(&example.samples));
        let outputs: Vec<i32> = output.lines().map(|u| u.parse().expect("an output")).collect();
        assert_eq!(outputs, example.outputs, "{:?}", example.settings);
        for mirror in Mirror::BOTH {
            let mirrored = text::lines_of(&mirror.settings(&example.settings)).into_bytes();
            let texts = [short.clone(), mirrored];
            let lists = [&example.samples[..], &mirror.samples(&example.samples)];
            let files = lists.map(gen::sample_file);
            let output = outputs_mirror(&oven, &texts, files, oven_line);
            assert_eq!(answers(&output), outputs.len());
            let files = lists.map(|list| gen::deliveries_file(&gen::sample_deliveries(list)));
            outputs_mirror(&journal, &texts, files, |line| mirror.journal_line(line));
        }
    }
}

/// Settings are taken exactly when their mirror is. The line of a bad value moves with it, where lo
/// and hi change places; a refusal by their order has no line.
#[test]
fn mirrored_settings_are_taken_or_refused_by_both() {
    let program = Program::new("oven");
    let mut taken = [0; 2];
    for mirror in Mirror::BOTH {
        for_each_seed(40, |rng| {
            let settings = gen::doubtful_settings(rng);
            let texts = [settings, mirror.settings(&settings)]
                .map(|settings| gen::settings_text(rng, &settings));
            let [one, other] = texts.map(|text| written(&program, &text, b"0\n"));
            assert_eq!(refuses(&other), refuses(&one), "{settings:?}");
            assert_eq!(other == "refused 16 0\n", one == "refused 16 0\n", "{settings:?}");
            taken[usize::from(refuses(&one))] += 1;
        });
    }
    assert!(taken[0] > 10 && taken[1] > 10, "taken, refused {taken:?}");
}
