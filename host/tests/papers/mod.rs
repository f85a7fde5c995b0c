//! What the papers say of the settings text, in their own numbers: 26 lines or 86, four sets or
//! sixteen, with the line of the mean one more and with that of the jump two; and what they say of a
//! mean, of a jump and of late repeats. The peer has no part in it but the text of settings C, which is
//! 01's.

pub mod retries;

use host::example::C;
use retries::{journal_of_a_window_that_stays, journal_of_the_window, JOURNAL_WITH_LATE_REPEATS};

/// "action, lo, hi, out, sp, rate", mean, which "follows rate", jump, "a settings line after mean",
/// "then kp0 ki0 kd0 alpha0 kt0, then the same for" the sets 1 to 15: the 88 keys in their order.
pub fn keys() -> Vec<String> {
    let once = ["action", "lo", "hi", "out", "sp", "rate", "mean", "jump"].map(String::from);
    let set = |k: usize| ["kp", "ki", "kd", "alpha", "kt"].map(|letters| format!("{letters}{k}"));
    once.into_iter().chain((0..16).flat_map(set)).collect()
}

/// The least and the most of 01's table for a key. "For out, codes 11 and 15 use ±1,000,000".
pub fn range(key: &str) -> (i32, i32) {
    match key.trim_end_matches(|c: char| c.is_ascii_digit()) {
        "action" => (0, 1),
        "lo" | "hi" | "out" | "sp" => (-1_000_000, 1_000_000),
        "rate" | "jump" => (1, 2_000_000),
        "mean" => (1, 128),
        "kp" | "ki" | "kd" => (0, 4_194_304),
        "alpha" => (1, 65_536),
        "kt" => (0, 65_536),
        other => panic!("{other} is no key"),
    }
}

/// Means over one temperature, over few, over one less than the window holds, and over all.
pub const MEANS: [i32; 5] = [1, 2, 7, 127, 128];

/// The keys of the lines that a text may leave out: "neither line, mean alone, or both".
const OPTIONAL: [&str; 2] = ["mean", "jump"];

/// A form of the settings text: "a text that ends after 26 lines" or after 86; with the line of the mean
/// each is "one more", and with those of mean and jump two.
#[derive(Debug, Clone, Copy, PartialEq, Eq)]
pub struct Form {
    /// How many of the lines of mean and jump are in it.
    pub optional: usize,
    /// How many lines it has.
    pub lines: usize,
    /// How many bytes it has at most.
    pub bytes: usize,
}

const fn form(optional: usize, lines: usize, bytes: usize) -> Form {
    Form { optional, lines, bytes }
}

/// Those that end after set 3; of each the next one in [`FULL`] has every set.
pub const SHORT: [Form; 3] = [form(0, 26, 306), form(1, 27, 315), form(2, 28, 328)];

/// Those that end after set 15. "same bytes are claimed only for texts that have every line": the
/// last.
pub const FULL: [Form; 3] = [form(0, 86, 1_044), form(1, 87, 1_053), form(2, 88, 1_066)];

/// All six.
pub const FORMS: [Form; 6] = [SHORT[0], SHORT[1], SHORT[2], FULL[0], FULL[1], FULL[2]];

impl Form {
    /// Whether the line of the mean is in it.
    pub fn has_mean(self) -> bool {
        self.optional >= 1
    }

    /// Whether the line of the jump is in it.
    pub fn has_jump(self) -> bool {
        self.optional == 2
    }

    /// A text of every line in this form.
    pub fn of(self, every_line: &str) -> String {
        let without = &OPTIONAL[self.optional..];
        let stays = |line: &&str| !without.iter().any(|key| line.starts_with(key));
        every_line.split_inclusive('\n').filter(stays).take(self.lines).collect()
    }

    /// Settings C in this form.
    pub fn c(self) -> String {
        self.of(&full_c())
    }

    /// The keys of its lines, in their order.
    pub fn keys(self) -> Vec<String> {
        let without = &OPTIONAL[self.optional..];
        let stays = |key: &String| !without.contains(&key.as_str());
        keys().into_iter().filter(stays).take(self.lines).collect()
    }

    /// The number that a line of 01 or of request 5 has here: those after rate are one more for each
    /// of the lines of mean and jump.
    pub fn line(self, without_either: usize) -> usize {
        without_either + if without_either > 6 { self.optional } else { 0 }
    }
}

/// Settings C with these lines between rate and kp0, after which it has four sets.
pub fn short_c(after_rate: &str) -> String {
    C.replace("rate=50\n", &format!("rate=50\n{after_rate}\n"))
}

/// Settings C in 88 lines: those of 01, which are "read as mean 1" and, "without jump", as 2,000,000,
/// and then the lines of set 0 for each of the sets 4 to 15.
pub fn full_c() -> String {
    let set = |k| format!("kp{k}=65536\nki{k}=16384\nkd{k}=0\nalpha{k}=65536\nkt{k}=0\n");
    short_c("mean=1\njump=2000000") + &(4..16).map(set).collect::<String>()
}

/// What is written of settings C, which is the same with each of its six texts.
pub fn with_c(run: impl Fn(&[u8]) -> String) -> String {
    let written = run(C.as_bytes());
    for form in FORMS {
        assert_eq!(run(form.c().as_bytes()), written, "{form:?}");
    }
    written
}

/// The first lines of a text, each with its line feed.
pub fn first_lines(text: &str, count: usize) -> String {
    text.split_inclusive('\n').take(count).collect()
}

/// A text with one line, counted from 1, in place of its own; the line feed stays.
pub fn with_line(text: &str, number: usize, line: &[u8]) -> Vec<u8> {
    let mut lines: Vec<&[u8]> = text.as_bytes().split(|&byte| byte == b'\n').collect();
    lines[number - 1] = line;
    lines.join(&b'\n')
}

/// A text at an edge of a form, with the code and the line that the papers answer.
pub type Edge = (String, i32, usize);

/// What follows set 3, where it is not nothing and not the first line of set 4.
const NO_SET_4: [&str; 25] = [
    "x",
    "\n",
    " ",
    "\0",
    "\r\n",
    "k",
    "kp4",
    "kp4=",
    "kp4=0",
    "kp4=\n",
    "kp4=-0\n",
    "kp4=00\n",
    "kp4=0 \n",
    "kp4=0\r\n",
    "kp4=10000000\n",
    "kp3=0\n",
    "kp5=0\n",
    "ki4=0\n",
    "kp04=0\n",
    "kp=0\n",
    "kp40=0\n",
    "kpa=0\n",
    "action=0\n",
    "mean=1\n",
    "jump=2000000\n",
];

/// "Any byte after line 26 is tested as line 27 is, 14 before 15, and on to line 86"; "With mean a text
/// may end after line 27, and bytes after it are line 28; with mean and jump 28 and 29."
pub fn edges_after_set_3() -> Vec<Edge> {
    SHORT.into_iter().zip(FULL).flat_map(|(short, full)| after_set_3(short, full)).collect()
}

fn after_set_3(short: Form, full: Form) -> Vec<Edge> {
    let (c, last) = (short.c(), short.lines);
    let no_line = NO_SET_4.iter().map(|after| (format!("{c}{after}"), 14, last + 1));
    let mut edges: Vec<Edge> = no_line.collect();
    edges.push((c.clone(), 0, 0));
    edges.push((format!("{c}{c}"), 14, last + 1));
    edges.push((c.trim_end().to_string(), 14, last));
    for value in ["4194305", "-1", "9999999", "-9999999"] {
        edges.push((format!("{c}kp4={value}\n"), 15, last + 1));
        edges.push((format!("{c}kp4={value}"), 14, last + 1));
        edges.push((format!("{c}kp4={value}\nx"), 15, last + 1));
    }
    for value in ["0", "65536", "4194304"] {
        edges.push((format!("{c}kp4={value}\n"), 14, last + 2));
        edges.push((format!("{c}kp4={value}\nki4=4194305\n"), 15, last + 2));
    }
    for count in last + 1..full.lines {
        edges.push((first_lines(&full.c(), count), 14, count + 1));
        edges.push((first_lines(&full.c(), count) + "x", 14, count + 1));
    }
    edges
}

/// "17 comes only after the last line", and the limits only after that.
pub fn edges_of_the_end() -> Vec<Edge> {
    SHORT.into_iter().zip(FULL).flat_map(|(short, full)| at_the_end(short, full)).collect()
}

fn at_the_end(short: Form, full: Form) -> Vec<Edge> {
    let c = full.c();
    let mut edges = vec![(c.clone(), 0, 0), (c.trim_end().to_string(), 14, full.lines)];
    for after in ["\n", "x", " ", "\0", "kt15=0\n", "kp16=0\n", "kp16=4194305\n", C, &c] {
        edges.push((format!("{c}{after}"), 17, 0));
    }
    let next = short.lines + 1;
    let [short, long] = [short.c(), c].map(|text| text.replace("hi=1000\n", "hi=0\n"));
    for after in ["x", "\n", " ", "\0"] {
        edges.push((format!("{short}{after}"), 14, next));
        edges.push((format!("{long}{after}"), 17, 0));
    }
    edges.push((format!("{short}kp4=4194305\n"), 15, next));
    edges.push((short, 16, 0));
    edges.push((long, 16, 0));
    edges
}

/// Keys that are not those of their line, though like them: the number of a set has no leading
/// zero, and two digits are one number. The lines are those of 86.
const KEYS_ALIKE: [(usize, &[&str]); 6] = [
    (7, &["kp", "kp00", "kp-0", "kp 0", "kpa", "kp1", "kp10", "k0", "p0", "KP0"]),
    (12, &["kp01", "kp10", "kp11", "kp1 ", "kp", "kp0", "kpl"]),
    (27, &["kp04", "kp40", "kp14", "kp", "kp3", "kp5", "ki4"]),
    (57, &["kp1 0", "kp010", "kp1", "kp0", "kp100", "kp01", "kp9", "kp11", "kpa", "kp", "kp:"]),
    (65, &["alpha1", "alpha 11", "alpha011", "alpha111", "alphb", "alphaB", "alph11", "kt11"]),
    (86, &["kt1", "kt5", "kt15 ", "kt015", "kt51", "kt14", "kt16", "ktf", "kt1 5"]),
];

/// Each of them with and without the lines of mean and jump.
pub fn edges_of_the_keys() -> Vec<Edge> {
    let alike = |form: Form, line: usize, key| {
        with_text(&form.c(), form.line(line), &format!("{key}=1"), 14)
    };
    let mut edges = vec![];
    for (form, (line, keys)) in FULL.into_iter().flat_map(|form| KEYS_ALIKE.map(|at| (form, at))) {
        edges.extend(keys.iter().map(|key| alike(form, line, key)));
    }
    edges
}

/// A text with one line in place of its own, which is refused there.
fn with_text(text: &str, number: usize, line: &str, code: i32) -> Edge {
    let text = String::from_utf8(with_line(text, number, line.as_bytes())).expect("text");
    (text, code, number)
}

/// What line 7 may not be: neither a line of the mean, nor one that begins with kp0. "jump alone is 14
/// at line 7".
const NO_MEAN: [&str; 24] = [
    "",
    "mean",
    "mean=",
    "mean=-",
    "mean=-0",
    "mean=00",
    "mean=01",
    "mean=+1",
    "mean= 1",
    "mean=1 ",
    "mean =1",
    " mean=1",
    "mean=1\r",
    "mean=00000001",
    "mean=12800000",
    "Mean=1",
    "means=1",
    "mea=1",
    "mean1=1",
    "mean0=1",
    "jump=1",
    "rate=1",
    "kp1=1",
    "ki0=1",
];

/// The mean at another line than after rate, and what stands there instead, in a text without jump: the
/// lines of settings C that are replaced, by what, and the first line of wrong form.
const MEAN_OUT_OF_PLACE: [(&str, &str, usize); 9] = [
    ("mean=1\n", "mean=1\nmean=1\n", 8),
    ("mean=1\n", "mean=1\nmean=129\n", 8),
    ("mean=1\n", "jump=1\n", 7),
    ("mean=1\n", "jump=1\nmean=1\n", 7),
    ("mean=1\nkp0=65536\n", "kp0=65536\nmean=1\n", 8),
    ("mean=1\nkp0=65536\n", "mean=1\n", 8),
    ("mean=1\nkp0=65536\n", "", 7),
    ("rate=50\nmean=1\n", "mean=1\nrate=50\n", 6),
    ("rate=50\n", "", 6),
];

/// "One settings line, mean, follows rate; a text whose line after rate begins with kp0 is read as
/// mean 1".
pub fn edges_of_the_mean() -> Vec<Edge> {
    let in_its_line = FORMS.into_iter().filter(|form| form.has_mean()).flat_map(of_the_mean);
    let alone = [SHORT[1], FULL[1]];
    in_its_line.chain(alone.into_iter().flat_map(of_the_mean_alone)).collect()
}

/// Bad lines of the mean, whatever follows it.
fn of_the_mean(form: Form) -> Vec<Edge> {
    let c = form.c();
    let mut edges: Vec<Edge> = NO_MEAN.iter().map(|line| with_text(&c, 7, line, 14)).collect();
    for value in ["0", "129", "-1", "-128", "256", "9999999", "-9999999"] {
        edges.push(with_text(&c, 7, &format!("mean={value}"), 15));
        edges.push(with_text(&c, 7, &format!("mean={value}\nmean=1"), 15));
    }
    edges
}

/// What stands in the place of the mean, or after it, where there is no jump.
fn of_the_mean_alone(form: Form) -> Vec<Edge> {
    let c = form.c();
    let mut edges = out_of_place(&c, &MEAN_OUT_OF_PLACE);
    // What begins with kp0 is tested as its line is, here the seventh.
    for (line, code) in [("kp0", 14), ("kp0=", 14), ("kp0=-1", 15), ("kp0=4194305", 15)] {
        edges.push(with_text(&c.replace("mean=1\n", ""), 7, line, code));
    }
    let front = first_lines(&c, 6);
    for stop in ["", "m", "mean", "mean=", "mean=1", "k", "kp", "kp0", "kp0=65536", "kp0=4194305"] {
        edges.push((format!("{front}{stop}"), 14, 7));
    }
    for seventh in ["mean=1\n", "mean=128\n", "kp0=65536\n"] {
        edges.push((format!("{front}{seventh}"), 14, 8));
    }
    edges
}

/// A text with these lines replaced, each by another, and the first line of wrong form.
fn out_of_place(text: &str, replaced: &[(&str, &str, usize)]) -> Vec<Edge> {
    let edge = |&(lines, other, line): &(&str, &str, usize)| {
        assert!(text.contains(lines), "there is no {lines}");
        (text.replacen(lines, other, 1), 14, line)
    };
    replaced.iter().map(edge).collect()
}

/// What line 8 may not be after a mean: neither a line of the jump, nor one that begins with kp0.
const NO_JUMP: [&str; 25] = [
    "",
    "jump",
    "jump=",
    "jump=-",
    "jump=-0",
    "jump=00",
    "jump=01",
    "jump=+1",
    "jump= 1",
    "jump=1 ",
    "jump =1",
    " jump=1",
    "jump=1\r",
    "jump=00000001",
    "jump=20000000",
    "Jump=1",
    "jumps=1",
    "jum=1",
    "jump0=1",
    "jump1=1",
    "mean=1",
    "rate=1",
    "kp1=1",
    "ki0=1",
    "kp=1",
];

/// The jump at another line than after the mean: "jump alone is 14 at line 7, jump before mean too; mean
/// twice is 14 at line 8".
const JUMP_OUT_OF_PLACE: [(&str, &str, usize); 14] = [
    ("mean=1\n", "", 7),
    ("mean=1\njump=2000000\n", "jump=2000000\nmean=1\n", 7),
    ("mean=1\njump=2000000\n", "jump=2000001\nmean=1\n", 7),
    ("mean=1\n", "mean=1\nmean=1\n", 8),
    ("mean=1\n", "jump=2000000\n", 7),
    ("jump=2000000\n", "jump=2000000\njump=2000000\n", 9),
    ("jump=2000000\n", "jump=2000000\njump=0\n", 9),
    ("jump=2000000\n", "jump=2000000\nmean=1\n", 9),
    ("jump=2000000\nkp0=65536\n", "kp0=65536\njump=2000000\n", 9),
    ("mean=1\njump=2000000\nkp0=65536\n", "kp0=65536\nmean=1\njump=2000000\n", 8),
    ("mean=1\njump=2000000\nkp0=65536\n", "kp0=65536\njump=2000000\n", 8),
    ("jump=2000000\nkp0=65536\n", "jump=2000000\n", 9),
    ("jump=2000000\nkp0=65536\n", "", 8),
    ("rate=50\nmean=1\njump=2000000\n", "jump=2000000\nrate=50\nmean=1\n", 6),
];

/// "jump is 1 to 2,000,000, a settings line after mean; a text may have neither line, mean alone, or
/// both".
pub fn edges_of_the_jump() -> Vec<Edge> {
    [SHORT[2], FULL[2]].into_iter().flat_map(of_the_jump).collect()
}

fn of_the_jump(form: Form) -> Vec<Edge> {
    let c = form.c();
    let mut edges: Vec<Edge> = NO_JUMP.iter().map(|line| with_text(&c, 8, line, 14)).collect();
    for value in ["0", "2000001", "-1", "-2000000", "9999999", "-9999999"] {
        edges.push(with_text(&c, 8, &format!("jump={value}"), 15));
        edges.push(with_text(&c, 8, &format!("jump={value}\njump=1"), 15));
    }
    edges.extend(out_of_place(&c, &JUMP_OUT_OF_PLACE));
    // "15 in mean comes before 14 in jump"
    for jump in ["x", "jump=0", "jump=", ""] {
        let both = c.replace("jump=2000000\n", &format!("{jump}\n"));
        edges.push(with_text(&both, 7, "mean=129", 15));
    }
    // What begins with kp0 is tested as its line is, here the eighth.
    for (line, code) in [("kp0", 14), ("kp0=", 14), ("kp0=-1", 15), ("kp0=4194305", 15)] {
        edges.push(with_text(&c.replace("jump=2000000\n", ""), 8, line, code));
    }
    let front = first_lines(&c, 7);
    for stop in ["", "j", "jump", "jump=", "jump=1", "k", "kp", "kp0", "kp0=65536", "kp0=4194305"] {
        edges.push((format!("{front}{stop}"), 14, 8));
    }
    for eighth in ["jump=1\n", "jump=2000000\n", "kp0=65536\n"] {
        edges.push((format!("{front}{eighth}"), 14, 9));
    }
    edges
}

/// Settings C with a mean, with a jump or with other lines, samples, and what `oven` writes.
pub type OvenExample = (String, &'static [u8], String);

/// "C with mean=2, automatic, 480, 480, 470: 100, 105, 116", and of every other mean. In the third
/// sample
///
/// | mean | the law reads | e | P + I + g | u |
/// |---|---|---|---|---|
/// | 1 | 470 | 30 | 30 + 85 + 7.5 | 123 |
/// | 2 | 950 / 2 = 475 | 25 | 25 + 85 + 6.25 | 116 |
/// | 3 and more | 1,430 / 3, nearest to 477 | 23 | 23 + 85 + 5.75 | 114 |
///
/// "480, 481 gives 481", so that e = 19 and P + I + g = 19 + 80 + 4.75; "-480, -481 gives -481", so
/// that with sp = -500 e = -19 and P + I + g = -19 + 120 - 4.75. "code 4 tests the raw one": before it
/// e = 500 twice, and P + I + g = 500 - 400 + 125.
pub fn mean_examples() -> Vec<OvenExample> {
    let of_each = |mean| {
        let third = match mean {
            1 => 123,
            2 => 116,
            _ => 114,
        };
        let samples: &[u8] = b"480\n480\n470\n";
        (short_c(&format!("mean={mean}")), samples, format!("100\n105\n{third}\n"))
    };
    let mut examples: Vec<OvenExample> = (1..=128).map(of_each).collect();
    let two = short_c("mean=2");
    let below = two.replace("sp=500\n", "sp=-500\n");
    let bad = "100\n225\nrefused 4 3\n";
    examples.push((two, b"480\n481\n", "100\n104\n".to_string()));
    examples.push((below, b"-480\n-481\n", "100\n96\n".to_string()));
    examples.push((short_c("mean=128"), b"0\n0\n1000001\n", bad.to_string()));
    examples
}

/// Jumps of the least, of few, of one less than what refuses nothing, and of that.
pub const JUMPS: [i32; 5] = [1, 2, 1_000, 1_999_999, 2_000_000];

/// What stands between rate and kp0, samples, and the outputs that precede a refusal or the end. Of C
/// with sp = 500 and u = 100, kp = 1 and ki = 1/4, after the transfer sample 480 with I = 80:
///
/// | sample | e | P + I + g | u |
/// |---|---|---|---|
/// | 490 | 10 | 10 + 80 + 2.5 | 93 |
/// | 480 after that | 20 | 20 + 82.5 + 5 | 108 |
/// | 470 after that | 30 | 30 + 87.5 + 7.5 | 125 |
/// | 490 with mean=2, read as 485 | 15 | 15 + 80 + 3.75 | 99 |
/// | 500 after that, read as 495 | 5 | 5 + 83.75 + 1.25 | 90 |
/// | 480 after 480 | 20 | 20 + 80 + 5 | 105 |
/// | 479 after that | 21 | 21 + 85 + 5.25 | 111 |
/// | 478 after that | 22 | 22 + 90.25 + 5.5 | 118 |
///
/// From one end of the range to the other P is past a limit, and the output at it.
const WITH_A_JUMP: [(&str, &[u8], &str); 20] = [
    ("mean=1\njump=10", b"480\n490\n480\n470\n", "100 93 108 125"),
    ("mean=1\njump=10", b"480\n491\n480\n", "100 refused 19 2"),
    ("mean=1\njump=10", b"480\n469\n480\n", "100 refused 19 2"),
    ("mean=1\njump=10", b"480\n490\n479\n", "100 93 refused 19 3"),
    ("mean=1\njump=10", b"480\n490\n501\n1000001\n", "100 93 refused 19 3"),
    ("mean=1\njump=10", b"480\n490\n501\nx\n", "100 93 refused 19 3"),
    ("mean=1\njump=10", b"480\n490\n1000001\n5\n", "100 93 refused 4 3"),
    ("mean=1\njump=10", b"480\n490\n501", "100 93 refused 14 3"),
    ("mean=1\njump=10", b"480\n10000000\n", "100 refused 14 2"),
    ("mean=1\njump=1", b"480\n480\n478\n", "100 105 refused 19 3"),
    ("mean=1\njump=1", b"480\n480\n479\n478\n", "100 105 111 118"),
    ("mean=1\njump=2", b"480\n480\n478\n", "100 105 113"),
    ("mean=2\njump=10", b"480\n490\n500\n", "100 99 90"),
    ("mean=2\njump=10", b"480\n490\n479\n", "100 99 refused 19 3"),
    ("mean=1\njump=1999999", b"1000000\n-1000000\n", "100 refused 19 2"),
    ("mean=1\njump=1999999", b"-1000000\n1000000\n", "100 refused 19 2"),
    ("mean=1\njump=2000000", b"1000000\n-1000000\n", "100 1000"),
    ("mean=1\njump=2000000", b"-1000000\n1000000\n", "100 0"),
    ("mean=1", b"1000000\n-1000000\n", "100 1000"),
    ("mean=1\njump=1", b"1000000\n", "100"),
];

/// "The program writes `refused 19 LINE`; a line is judged 14, 13, 4, 19."
pub fn jump_examples() -> Vec<OvenExample> {
    let lines = |outputs: &str| match outputs.split_once("refused") {
        None => outputs.replace(' ', "\n") + "\n",
        Some((taken, refusal)) => taken.replace(' ', "\n") + "refused" + refusal + "\n",
    };
    let example = |(after_rate, samples, outputs)| (short_c(after_rate), samples, lines(outputs));
    let mut examples = WITH_A_JUMP.map(example).to_vec();
    // With alpha0=1 the filter stays at 480, and kd0=0 keeps it from the output: 500 has e = 0.
    let slow = short_c("mean=1\njump=10").replace("alpha0=65536\n", "alpha0=1\n");
    examples.push((slow.clone(), b"480\n490\n500\n", lines("100 93 83")));
    examples.push((slow, b"480\n490\n479\n", lines("100 93 refused 19 3")));
    examples
}

/// What `journal` writes for settings C with jump=10. Manual samples may lie anywhere, those of automatic
/// within 10 of the one kept before, transfer samples too; a refused one leaves its number free, and is
/// not what the next is compared with. The sample 490 leaves I = 90, then 480 gives 20 + 90 + 5. In set 1
/// with kp = 2, kd = 1 and alpha = 1/2 the filter goes from 480 to 590, 650 and 675: on 710 P = -420 and
/// D = -60 leave I = 595, and 700 gives -400 + 595 - 50 - 25.
pub const JOURNAL_WITH_JUMP_10: &str = "\
number=1 command=sample value=0 second=0 code=0 output=100 last=1
number=2 command=sample value=480 second=0 code=0 output=100 last=2
number=3 command=automatic value=0 second=0 code=0 output=100 last=3
number=4 command=sample value=491 second=0 code=19 output=100 last=3
number=4 command=sample value=469 second=0 code=19 output=100 last=3
number=4 command=sample value=490 second=0 code=0 output=100 last=4
number=5 command=sample value=501 second=0 code=19 output=100 last=4
number=5 command=sample value=1000001 second=0 code=4 output=100 last=4
number=5 command=sample value=2147483647 second=0 code=4 output=100 last=4
number=5 command=sample value=511 second=0 code=19 output=100 last=4
number=5 command=sample value=479 second=0 code=19 output=100 last=4
number=5 command=sample value=480 second=0 code=0 output=115 last=5
number=5 command=sample value=480 second=0 code=0 output=115 last=5
number=5 command=sample value=1000 second=0 code=2 output=115 last=5
number=7 command=sample value=1000 second=0 code=3 output=115 last=5
number=4 command=sample value=1000 second=0 code=2 output=115 last=5
number=4 command=sample value=490 second=0 code=0 output=100 last=4
number=6 command=set value=1 second=0 code=0 output=115 last=6
number=7 command=sample value=491 second=0 code=19 output=115 last=6
number=7 command=hold value=0 second=0 code=0 output=115 last=7
number=8 command=sample value=700 second=0 code=0 output=115 last=8
number=9 command=automatic value=0 second=0 code=0 output=115 last=9
number=10 command=sample value=480 second=0 code=19 output=115 last=9
number=10 command=sample value=711 second=0 code=19 output=115 last=9
number=10 command=sample value=710 second=0 code=0 output=115 last=10
number=11 command=sample value=700 second=0 code=0 output=120 last=11
";

/// What `journal` writes for settings C with mean=2: a repeat, a refused sample and other commands do
/// not enter the window, a manual sample does. The samples 470 are read as 475, and so is the last
/// 480: e = 25 each time.
pub const JOURNAL_WITH_MEAN_2: &str = "\
number=1 command=sample value=480 second=0 code=0 output=100 last=1
number=2 command=automatic value=0 second=0 code=0 output=100 last=2
number=3 command=sample value=480 second=0 code=0 output=100 last=3
number=4 command=sample value=480 second=0 code=0 output=105 last=4
number=4 command=sample value=480 second=0 code=0 output=105 last=4
number=5 command=sample value=1000001 second=0 code=4 output=105 last=4
number=6 command=sample value=400 second=0 code=3 output=105 last=4
number=3 command=sample value=400 second=0 code=2 output=105 last=4
number=3 command=sample value=480 second=0 code=0 output=100 last=3
number=4 command=sample value=400 second=0 code=2 output=105 last=4
number=5 command=target value=500 second=50 code=0 output=105 last=5
number=6 command=sample value=470 second=0 code=0 output=116 last=6
number=6 command=sample value=475 second=0 code=2 output=116 last=6
number=6 command=sample value=470 second=0 code=0 output=116 last=6
number=7 command=hold value=0 second=0 code=0 output=116 last=7
number=8 command=sample value=480 second=0 code=0 output=116 last=8
number=9 command=automatic value=0 second=0 code=0 output=116 last=9
number=10 command=sample value=470 second=0 code=0 output=116 last=10
number=11 command=sample value=480 second=0 code=0 output=122 last=11
";

/// The deliveries of a journal.
pub fn deliveries_of(journal: &str) -> Vec<u8> {
    let delivery = |line: &str| line.split(" code=").next().map(|line| format!("{line}\n"));
    journal.lines().filter_map(delivery).collect::<String>().into_bytes()
}

/// What stands between rate and kp0 in settings C, and what `journal` writes.
pub fn journals() -> [(&'static str, String); 5] {
    [
        ("mean=2", JOURNAL_WITH_MEAN_2.to_string()),
        ("mean=1\njump=10", JOURNAL_WITH_JUMP_10.to_string()),
        ("mean=1", JOURNAL_WITH_LATE_REPEATS.to_string()),
        ("mean=1", journal_of_the_window()),
        ("mean=1", journal_of_a_window_that_stays()),
    ]
}

/// The longest text that is accepted, of every line; in each form it is the longest of that.
pub fn longest_text() -> String {
    let value = |key: &str| match key {
        "lo" | "out" | "sp" => -1_000_000,
        "hi" => -999_999,
        other => range(other).1,
    };
    keys().iter().map(|key| format!("{key}={}\n", value(key))).collect()
}

/// "1,044 bytes bounds accepted texts (1,045 pass every line and are 16)"; so do 306, 315, 328, 1,053
/// and 1,066.
/// What follows is answered alike, however much it is.
pub fn edges_of_the_length() -> Vec<Edge> {
    let short = SHORT.map(|form| (form, 14, form.lines + 1));
    let full = FULL.map(|form| (form, 17, 0));
    let mut edges = vec![];
    for (form, code, line) in short.into_iter().chain(full) {
        let text = form.of(&longest_text());
        let too_long = text.replace("hi=-999999\n", "hi=-1000000\n");
        for count in [1, 2, 3, 13, 14, 15, 16, 22, 23, 24, 25, 738, 739, 740, 5_000, 70_000] {
            for after in ["1", "\n"].map(|byte| byte.repeat(count)) {
                edges.push((format!("{text}{after}"), code, line));
                edges.push((format!("{too_long}{after}"), code, line));
            }
        }
        edges.push((too_long, 16, 0));
    }
    edges
}

/// All of these. What is accepted of them says settings C.
pub fn edges() -> Vec<Edge> {
    let in_lines = [edges_of_the_keys(), edges_of_the_mean(), edges_of_the_jump()].concat();
    [edges_after_set_3(), in_lines, edges_of_the_end(), edges_of_the_length()].concat()
}

/// The same texts with what a program writes of each, where it writes `taken` of those accepted.
pub fn edges_told(taken: &str) -> Vec<(String, String)> {
    let told = |code, line| match code {
        0 => taken.to_string(),
        _ => format!("refused {code} {line}\n"),
    };
    edges().into_iter().map(|(text, code, line)| (text, told(code, line))).collect()
}
