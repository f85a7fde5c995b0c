//! 01, "Settings text", in the six forms of requests 5, 7 and 8: every edge that they name, and both
//! round trips.

// What the programs write of the settings text is the matter of other tests.
#[allow(dead_code)]
mod papers;

use host::example::{self, C};
use host::gen;
use host::rng::{for_each_seed, Rng};
use host::settings::{GainSet, Settings};
use host::text::{lines_of, read, write, Reading, Writing};
use papers::{edges, first_lines, full_c, keys, longest_text, range, short_c, with_line};
use papers::{Form, FORMS, FULL, SHORT};

/// The code and line of a refused text; what stands beside them is blank.
fn refused(text: &[u8]) -> (i32, usize) {
    let reading = read(text);
    assert_ne!(reading.code, 0, "{}", text.escape_ascii());
    assert_eq!(reading.settings, Settings::default());
    (reading.code, reading.line)
}

/// What the writer gives for settings that it has to take.
fn written(settings: &Settings) -> String {
    let mut buffer = [0; 1_066];
    let writing = write(settings, &mut buffer);
    assert_eq!(writing.code, 0, "{settings:?}");
    String::from_utf8(buffer[..writing.length].to_vec()).expect("text")
}

/// Settings whose every value has the most bytes its range and code 16 leave it.
fn longest() -> Settings {
    let gains = GainSet { kp: 4_194_304, ki: 4_194_304, kd: 4_194_304, alpha: 65_536, kt: 65_536 };
    Settings {
        action: 1,
        lo: -1_000_000,
        hi: -999_999,
        out: -1_000_000,
        sp: -1_000_000,
        rate: 2_000_000,
        mean: 128,
        jump: 2_000_000,
        sets: [gains; 16],
    }
}

/// "Writing always gives 86 lines", and with those of mean and jump two more: 01's C comes first, and
/// then set 0 twelve times more.
#[test]
fn settings_c_is_read_in_each_form_and_written_in_88_lines() {
    assert_eq!((C.matches('\n').count(), C.len()), (26, 230));
    for (form, bytes) in FORMS.into_iter().zip([230, 237, 250, 800, 807, 820]) {
        let text = form.c();
        assert_eq!((text.matches('\n').count(), text.len()), (form.lines, bytes));
        let reading = read(text.as_bytes());
        assert_eq!(reading, Reading { code: 0, line: 0, settings: example::settings() });
        let mut buffer = [b'#'; 1_100];
        let writing = write(&reading.settings, &mut buffer);
        assert_eq!(writing, Writing { code: 0, length: 820 });
        assert_eq!(&buffer[..820], full_c().as_bytes());
        assert!(buffer[820..].iter().all(|&byte| byte == b'#'), "bytes after the text are left");
    }
}

/// "A text that ends after 26 lines is still read, with sets 4 to 15 equal to set 0", "a text whose
/// line after rate begins with kp0 is read as mean 1", and "one without jump means 2,000,000". Short
/// forms are "written full".
#[test]
fn what_a_text_leaves_out_is_set_0_and_mean_1_and_jump_2_000_000() {
    let (mut other_sets, mut other_means, mut other_jumps) = (0, 0, 0);
    for_each_seed(3_000, |rng| {
        let settings = gen::settings(rng);
        let every_line = lines_of(&settings);
        for form in FORMS {
            let mut expected = settings;
            if SHORT.contains(&form) {
                other_sets += usize::from(settings.sets[4..] != [settings.sets[0]; 12]);
                expected.sets[4..].fill(settings.sets[0]);
            }
            if !form.has_mean() {
                other_means += usize::from(settings.mean != 1);
                expected.mean = 1;
            }
            if !form.has_jump() {
                other_jumps += usize::from(settings.jump != 2_000_000);
                expected.jump = 2_000_000;
            }
            let text = form.of(&every_line);
            let reading = read(text.as_bytes());
            assert_eq!(reading, Reading { code: 0, line: 0, settings: expected });
            let long = written(&reading.settings);
            assert_eq!(long.matches('\n').count(), 88);
            assert_eq!(form.of(&long), text);
            assert_eq!(read(long.as_bytes()), reading, "written and read again");
        }
    });
    assert!(other_sets > 2_000, "{other_sets} texts that leave out other sets");
    assert!(other_means > 2_000, "{other_means} texts that leave out another mean");
    assert!(other_jumps > 2_000, "{other_jumps} texts that leave out another jump");
}

/// Each mean from 1 to 128 is read from its line, in either form that has it, and written back.
#[test]
fn each_mean_from_1_to_128_is_read_and_written() {
    for mean in 1..=128 {
        let expected = Settings { mean, ..example::settings() };
        let line = format!("mean={mean}");
        let full = full_c().replace("mean=1", &line);
        for text in [short_c(&line), short_c(&format!("{line}\njump=2000000")), full.clone()] {
            assert_eq!(read(text.as_bytes()).settings, expected);
        }
        assert_eq!(written(&expected), full);
    }
}

/// "jump is 1 to 2,000,000", whatever the mean before it is: it is read from its line, in either form
/// that has it, and written back.
#[test]
fn each_jump_is_read_and_written() {
    let mut rng = Rng::new(8);
    let drawn = (0..500).map(|_| rng.between(1, 2_000_000) as i32).collect();
    let few =
        [(1..=100).collect(), drawn, vec![999_999, 1_000_000, 1_000_001, 1_999_999, 2_000_000]];
    for jump in few.concat() {
        let mean = 1 + jump % 128;
        let expected = Settings { mean, jump, ..example::settings() };
        let lines = format!("mean={mean}\njump={jump}");
        let full = full_c().replace("mean=1\njump=2000000", &lines);
        for text in [short_c(&lines), full.clone()] {
            assert_eq!(read(text.as_bytes()).settings, expected);
        }
        assert_eq!(written(&expected), full);
    }
}

/// Each set of a text of 88 lines has the values of its own lines: here each its line's number, but
/// for lo and out, which have to keep to 01's order.
#[test]
fn each_of_the_88_lines_says_its_own_value() {
    let line = |(number, key): (i32, String)| match key.as_str() {
        "lo" | "out" => format!("{key}={}\n", -number),
        _ => format!("{key}={number}\n"),
    };
    let text: String = (1..).zip(keys()).map(line).collect();
    let text = text.replace("lo=-2\n", "lo=-1000000\n");
    let Reading { code, settings, .. } = read(text.as_bytes());
    assert_eq!(code, 0, "{text}");
    let Settings { action, lo, hi, out, sp, rate, mean, jump, sets } = settings;
    assert_eq!([action, lo, hi, out], [1, -1_000_000, 3, -4]);
    assert_eq!([sp, rate, mean, jump], [5, 6, 7, 8]);
    for (k, set) in (0..16).zip(sets) {
        let at = 9 + 5 * k;
        let own = GainSet { kp: at, ki: at + 1, kd: at + 2, alpha: at + 3, kt: at + 4 };
        assert_eq!(set, own, "set {k}");
    }
    assert_eq!(written(&settings), text);
}

/// "Text that stops early is 14 at the line where it stops: empty text at line 1, text ending
/// after the line feed of line 5 at line 6." Request 5: "26 or 86 lines are good, nothing between:
/// 31 lines are 14 at line 32."
#[test]
fn a_text_that_stops_early_is_14_where_it_stops() {
    assert_eq!(refused(b""), (14, 1));
    assert_eq!(refused(first_lines(C, 5).as_bytes()), (14, 6));
    assert_eq!(refused(first_lines(C, 6).as_bytes()), (14, 7));
    for form in FORMS {
        let (text, last) = (form.c(), form.line(26));
        for length in 0..text.len() {
            let feeds = text[..length].matches('\n').count();
            let cut = &text.as_bytes()[..length];
            if feeds == last && text[..length].ends_with('\n') {
                assert!(FULL.contains(&form));
                assert_eq!(read(cut).settings, example::settings(), "it is a short form");
            } else {
                assert_eq!(refused(cut), (14, feeds + 1), "{form:?}, cut at {length}");
            }
        }
        assert_eq!(read(text.as_bytes()).code, 0);
    }
}

/// What the papers answer at every edge of the forms.
#[test]
fn each_edge_of_the_six_forms_is_answered_as_the_papers_say() {
    for (text, code, line) in edges() {
        let reading = read(text.as_bytes());
        assert_eq!((reading.code, reading.line), (code, line), "{}", text.escape_debug());
        let settings = if code == 0 { example::settings() } else { Settings::default() };
        assert_eq!(reading.settings, settings, "{}", text.escape_debug());
    }
}

/// What line 2 may not be.
const NO_LO: [&[u8]; 40] = [
    b"",
    b"lo",
    b"lo=",
    b"lo=-",
    b"lo=-0",
    b"lo=00",
    b"lo=-00",
    b"lo=01",
    b"lo=-01",
    b"lo=+1",
    b"lo=+0",
    b"lo= 1",
    b"lo=1 ",
    b" lo=1",
    b"lo =1",
    b"lo==1",
    b"lo:1",
    b"lo 1",
    b"lo1",
    b"=1",
    b"LO=1",
    b"Lo=1",
    b"l=1",
    b"loo=1",
    b"hi=1",
    b"lo=1.",
    b"lo=1e1",
    b"lo=0x1",
    b"lo=--1",
    b"lo=1-",
    b"lo=1,000",
    b"lo=1\r",
    b"lo=1\0",
    b"\0lo=1",
    b"lo=\xb1",
    b"l\xef=1",
    b"\xef\xbb\xbflo=1",
    b"lo=10000000",
    b"lo=-10000000",
    b"lo=00000001",
];

#[test]
fn lines_of_wrong_form_are_14() {
    for line in NO_LO {
        for form in FORMS {
            assert_eq!(refused(&with_line(&form.c(), 2, line)), (14, 2), "{}", line.escape_ascii());
        }
        let line = String::from_utf8_lossy(line);
        for form in FULL {
            let damaged = with_line(&form.c(), form.lines, line.replace("lo", "kt15").as_bytes());
            assert_eq!(refused(&damaged), (14, form.lines), "{line}");
        }
        for (number, key) in [(7, "mean"), (8, "jump")] {
            let damaged = with_line(&full_c(), number, line.replace("lo", key).as_bytes());
            assert_eq!(refused(&damaged), (14, number), "{line}");
        }
    }
}

#[test]
fn line_ends_are_one_line_feed() {
    for form in FORMS {
        let (text, lines) = (form.c(), form.lines);
        assert_eq!(refused(text.replace('\n', "\r\n").as_bytes()), (14, 1));
        assert_eq!(refused(text.replace('\n', "\r").as_bytes()), (14, 1));
        assert_eq!(refused(text.replace('\n', "\n\n").as_bytes()), (14, 2));
        assert_eq!(refused(text.trim_end().as_bytes()), (14, lines), "no last line feed");
        assert_eq!(refused(format!("\n{text}").as_bytes()), (14, 1));
        assert_eq!(refused(format!("\u{feff}{text}").as_bytes()), (14, 1));
        for number in 1..=lines {
            let mut split: Vec<&str> = text.split_inclusive('\n').collect();
            split.insert(number - 1, "\n");
            assert_eq!(refused(split.concat().as_bytes()), (14, number), "an empty line {number}");
        }
    }
}

#[test]
fn keys_stand_in_one_order() {
    let refused = |form: Form, from: &str, to: &str| {
        assert!(form.c().contains(from), "{form:?} has no {from}");
        refused(form.c().replacen(from, to, 1).as_bytes())
    };
    for form in FORMS {
        assert_eq!(refused(form, "lo=0\nhi=1000\n", "hi=1000\nlo=0\n"), (14, 2));
        assert_eq!(refused(form, "sp=500\n", ""), (14, 5));
        assert_eq!(refused(form, "sp=500\n", "sp=500\nsp=500\n"), (14, 6));
        assert_eq!(refused(form, "kp1=", "kp0="), (14, form.line(12)));
        assert_eq!(refused(form, "kp3=", "kp4="), (14, form.line(22)));
    }
    for form in FULL {
        assert_eq!(refused(form, "kp4=65536\n", ""), (14, form.line(27)));
        assert_eq!(refused(form, "kp9=", "kp10="), (14, form.line(52)));
        assert_eq!(refused(form, "kt15=", "kt16="), (14, form.line(86)));
    }
}

/// Each line of each form in the place of each other one is 14 at the first of the two, but kp0 in
/// the place of the mean or of the jump: that is a text without it, in which the next line is of wrong
/// form.
#[test]
fn two_lines_that_change_places_are_14_at_the_first() {
    for form in FORMS {
        let (text, lines) = (form.c(), form.lines);
        for (one, other) in (0..lines).flat_map(|one| (one + 1..lines).map(move |o| (one, o))) {
            let mut split: Vec<&str> = text.split_inclusive('\n').collect();
            split.swap(one, other);
            let kp0 = 6 + form.optional;
            let left_out = other == kp0 && (6..kp0).contains(&one);
            let line = if left_out { one + 2 } else { one + 1 };
            assert_eq!(refused(split.concat().as_bytes()), (14, line), "{one} and {other}");
        }
    }
}

/// Sets go by their numbers and not by their letters, by which kp10 would follow kp1.
#[test]
fn sets_stand_in_the_order_of_their_numbers() {
    let full = full_c();
    let mut split: Vec<&str> = full.split_inclusive('\n').collect();
    let sets = split.split_off(8);
    let mut by_letters: Vec<(String, &[&str])> =
        (0..16).map(|k: usize| k.to_string()).zip(sets.chunks(5)).collect();
    by_letters.sort();
    for (_, lines) in by_letters {
        split.extend(lines);
    }
    assert_eq!((split.len(), split[13], split[18]), (88, "kp1=131072\n", "kp10=65536\n"));
    assert_eq!(refused(split.concat().as_bytes()), (14, 19));
}

/// "Eight digits are 14, and seven that are too large are 15."
#[test]
fn seven_digits_too_large_are_15_and_eight_14() {
    for form in FORMS {
        for (number, key) in (1..).zip(form.keys()) {
            let with = |value: &str| {
                refused(&with_line(&form.c(), number, format!("{key}={value}").as_bytes()))
            };
            assert_eq!(with("9999999"), (15, number));
            assert_eq!(with("-9999999"), (15, number));
            assert_eq!(with("99999999"), (14, number));
            assert_eq!(with("-99999999"), (14, number));
        }
    }
}

/// Every row's ends are in range, and one past them is 15 at its line, in each set.
#[test]
fn every_range_ends_where_the_table_says() {
    for form in FORMS {
        let text = form.of(&longest_text());
        for (number, key) in (1..).zip(form.keys()) {
            let with = |value: i32| with_line(&text, number, format!("{key}={value}").as_bytes());
            let (least, most) = range(&key);
            for past in [least - 1, most + 1] {
                assert_eq!(refused(&with(past)), (15, number), "{key}={past}");
            }
            for end in [least, most] {
                let reading = read(&with(end));
                // hi at its least is lo, and lo at its most is above hi; out at its most is, too.
                let limits = [("lo", most), ("hi", least), ("out", most)];
                let code = if limits.contains(&(key.as_str(), end)) { 16 } else { 0 };
                assert_eq!(reading.code, code, "{key}={end}");
            }
        }
    }
}

/// "For out, codes 11 and 15 use ±1,000,000; its place between lo and hi is code 16's matter."
#[test]
fn limits_out_of_order_are_16() {
    for form in FORMS {
        let with = |lo: i32, hi: i32, out: i32| {
            let settings = Settings { lo, hi, out, ..example::settings() };
            form.of(&lines_of(&settings)).into_bytes()
        };
        assert_eq!(refused(&with(7, 7, 7)), (16, 0), "lo = hi");
        assert_eq!(refused(&with(8, 7, 7)), (16, 0));
        assert_eq!(refused(&with(0, 7, 8)), (16, 0));
        assert_eq!(refused(&with(0, 7, -1)), (16, 0));
        assert_eq!(refused(&with(0, 7, 1_000_000)), (16, 0));
        assert_eq!(refused(&with(0, 7, 1_000_001)), (15, 4));
        assert_eq!(read(&with(0, 7, 0)).code, 0);
        assert_eq!(read(&with(6, 7, 7)).code, 0);
    }
}

/// "1,044 bytes bounds accepted texts (1,045 pass every line and are 16)", and with one more they
/// are 17; with the mean it is 1,053, with the jump 1,066. So is the short form bounded by 01's 306,
/// with the mean by 315 and with the jump by 328; with one byte more its 307, 316, or 329, are 14 at the
/// line after.
#[test]
fn the_longest_texts() {
    assert_eq!(written(&longest()), longest_text());
    for form in FORMS {
        let text = form.of(&longest_text());
        assert_eq!(text.len(), form.bytes);
        let mean = if form.has_mean() { 128 } else { 1 };
        let settings = Settings { mean, ..longest() };
        assert_eq!(read(text.as_bytes()), Reading { code: 0, line: 0, settings });
        let after = if FULL.contains(&form) { (17, 0) } else { (14, form.lines + 1) };
        assert_eq!(refused(format!("{text}1").as_bytes()), after);

        let too_long = text.replace("hi=-999999\n", "hi=-1000000\n");
        assert_eq!(too_long.len(), form.bytes + 1);
        assert_eq!(refused(too_long.as_bytes()), (16, 0));
        for byte in ["1", "\n", "k"] {
            assert_eq!(refused(format!("{too_long}{byte}").as_bytes()), after);
        }
    }
    for_each_seed(3_000, |rng| {
        let text = lines_of(&gen::settings(rng));
        assert!(FORMS.iter().all(|form| form.of(&text).len() <= form.bytes));
    });
}

/// Code 18 is for a buffer shorter than this text, whatever other texts may need.
#[test]
fn the_buffer_has_to_hold_this_text() {
    for settings in [example::settings(), longest()] {
        let text = lines_of(&settings);
        for length in [0, 1, 230, 328, text.len() - 1] {
            let mut buffer = vec![b'#'; length];
            let refusal = Writing { code: 18, length: 0 };
            assert_eq!(write(&settings, &mut buffer), refusal);
            assert_eq!(buffer, vec![b'#'; length], "not a byte is written");
        }
        let mut buffer = vec![b'#'; text.len()];
        assert_eq!(write(&settings, &mut buffer).length, text.len());
        assert_eq!(buffer, text.as_bytes());
    }
}

/// "settings written are read back the same"
#[test]
fn settings_written_are_read_back() {
    for_each_seed(5_000, |rng| {
        let settings = gen::settings(rng);
        let spare = rng.below(20);
        let mut buffer = vec![b'#'; 1_066 + spare];
        let writing = write(&settings, &mut buffer);
        assert_eq!(writing.code, 0);
        assert!(buffer[writing.length..].iter().all(|&byte| byte == b'#'));
        let reading = read(&buffer[..writing.length]);
        assert_eq!((reading.code, reading.line), (0, 0));
        assert_eq!(reading.settings, settings);
    });
}

/// The number that a line, without its line feed, gives its key: what is printed as the same bytes,
/// in at most seven digits.
fn printed_number(line: &[u8], key: &str) -> Option<i32> {
    let value = std::str::from_utf8(line).ok()?.strip_prefix(key)?.strip_prefix('=')?;
    let number: i32 = value.parse().ok()?;
    let as_printed = number.to_string() == value && number.abs() <= 9_999_999;
    Some(number).filter(|_| as_printed)
}

/// The form that a text has so far as it goes: "a text whose line after rate begins with kp0" has no
/// line of the mean and none of the jump, one that goes on so after the mean none of the jump, and one
/// that ends after set 3 no more sets.
fn form_of(text: &[u8]) -> Form {
    let lines: Vec<&[u8]> = text.split_inclusive(|&byte| byte == b'\n').collect();
    let is_kp0 = |line: usize| lines.get(line - 1).map_or(false, |line| line.starts_with(b"kp0"));
    let optional = [7, 8].into_iter().position(is_kp0).unwrap_or(2);
    let forms = if lines.len() > 26 + optional { FULL } else { SHORT };
    forms[optional]
}

/// The code and line of a text, in another way than the peer's: line by line, so long as there are
/// bytes left.
fn answer_of(text: &[u8]) -> (i32, usize) {
    let (mut rest, mut values) = (text, Vec::new());
    for (line, key) in (1..).zip(form_of(text).keys()) {
        let end = rest.iter().position(|&byte| byte == b'\n');
        match end.and_then(|end| printed_number(&rest[..end], &key)) {
            None => return (14, line),
            Some(number) if number < range(&key).0 || number > range(&key).1 => return (15, line),
            Some(number) => values.push(number),
        }
        rest = &rest[end.expect("a line") + 1..];
    }
    match values[1..4] {
        _ if !rest.is_empty() => (17, 0),
        [lo, hi, out] if lo >= hi || out < lo || out > hi => (16, 0),
        _ => (0, 0),
    }
}

/// "Settings read from text are written back as the same bytes", and "same bytes are claimed only
/// for texts that have every line"; of any other the same lines are written, and those that it
/// leaves out.
#[test]
fn damaged_texts_are_refused_or_written_back() {
    let mut codes = [[0; 18]; 6];
    for_each_seed(60_000, |rng| {
        let settings = gen::settings(rng);
        let whole = gen::any_form(rng, &settings);
        let text = gen::damaged(rng, &whole);
        let reading = read(&text);
        assert_eq!((reading.code, reading.line), answer_of(&text), "{}", text.escape_ascii());
        let form = form_of(&text);
        let place = FORMS.iter().position(|&other| other == form).expect("one of the six");
        codes[place][reading.code as usize] += 1;
        if reading.code == 0 {
            let long = written(&reading.settings);
            assert_eq!(long.matches('\n').count(), 88);
            assert_eq!(form.of(&long).into_bytes(), text);
            assert!(form.has_mean() || reading.settings.mean == 1);
            assert!(form.has_jump() || reading.settings.jump == 2_000_000);
        } else {
            assert_eq!(reading.settings, Settings::default());
        }
    });
    for (form, codes) in FORMS.iter().zip(codes) {
        assert!([0, 14, 15, 16].iter().all(|&code| codes[code] > 30), "{form:?}: {codes:?}");
        let after_the_last_line = if FULL.contains(form) { codes[17] > 30 } else { codes[17] == 0 };
        assert!(after_the_last_line, "{form:?}: {codes:?}");
    }
}
