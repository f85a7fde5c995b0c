//! Random and hostile inputs for the tests: settings, their text in each of its forms, loop records,
//! deliveries and sample files.
//!
//! What is drawn depends on the stream of the [`Rng`] alone, so a seed names an input.

use crate::delivery::{deliver, Delivery};
use crate::form::Form;
use crate::journal::delivery_line;
use crate::law::{Command, Loop, Mode};
use crate::memory::{Entry, Memory, REMEMBERED};
use crate::rng::Rng;
use crate::settings::{places, GainSet, Row, Settings, JUMP, LINES, MEAN, ROWS, SETS, WINDOW};

const LEAST_PV: i32 = -1_000_000;
const MOST_PV: i32 = 1_000_000;
const MOST_RATE: i32 = 2_000_000;
const MOST_SET: i32 = *Loop::SETS.end();

/// A number in `least..=most`, often at an end, beside one, or near zero.
pub fn within(rng: &mut Rng, least: i64, most: i64) -> i64 {
    match rng.below(10) {
        0 | 1 => least,
        2 | 3 => most,
        4 => (least + 1).min(most),
        5 => (most - 1).max(least),
        6 => rng.between(-3, 3).clamp(least, most),
        _ => rng.between(least, most),
    }
}

/// The same for the numbers of a command.
fn within32(rng: &mut Rng, least: i32, most: i32) -> i32 {
    let number = within(rng, i64::from(least), i64::from(most));
    i32::try_from(number).expect("a number between two of 32 bits")
}

/// A number outside `least..=most`: one past an end, an end of the 32 bits, or anything else.
fn outside32(rng: &mut Rng, least: i32, most: i32) -> i32 {
    let any = rng.bits() as i32;
    let past = rng.pick(&[least - 1, most + 1, i32::MIN, i32::MAX]);
    if rng.one_in(4) && !(least..=most).contains(&any) {
        any
    } else {
        past
    }
}

/// A number mostly in `least..=most`, one time in ten outside.
fn around32(rng: &mut Rng, least: i32, most: i32) -> i32 {
    if rng.one_in(10) {
        outside32(rng, least, most)
    } else {
        within32(rng, least, most)
    }
}

/// Valid settings: a third of them at the ends of the ranges, a third of a loop that moves within
/// its limits, a third of one whose roundings land on halves. Each form of the text says a ninth of
/// them whole, at least; about half have the jump that refuses nothing.
pub fn settings(rng: &mut Rng) -> Settings {
    let settings = match rng.below(3) {
        0 => extreme_settings(rng),
        1 => lively_settings(rng),
        _ => halving_settings(rng),
    };
    if rng.one_in(3) {
        settings
    } else {
        rng.pick(&Form::ALL).says(&settings)
    }
}

fn extreme_settings(rng: &mut Rng) -> Settings {
    let mut values = [0; LINES];
    for (value, place) in values.iter_mut().zip(places()) {
        *value = within32(rng, place.row.least, place.row.most);
    }
    let mut settings = Settings::from_values(&values);
    settings.lo = within32(rng, LEAST_PV, MOST_PV - 1);
    settings.hi = within32(rng, settings.lo + 1, MOST_PV);
    settings.out = within32(rng, settings.lo, settings.hi);
    for set in &mut settings.sets {
        if rng.one_in(2) {
            set.kt = 0;
        }
    }
    settings
}

fn lively_settings(rng: &mut Rng) -> Settings {
    let lo = rng.between(-200_000, 0) as i32;
    let hi = rng.between(1, 1_000_000) as i32;
    settings_within(rng, [lo, hi], 100_000, 5_000, lively_gains)
}

/// Settings of these limits, with sp within ± so much and a rate up to this one.
fn settings_within(
    rng: &mut Rng,
    [lo, hi]: [i32; 2],
    sp: i64,
    rate: i64,
    gains: fn(&mut Rng) -> GainSet,
) -> Settings {
    Settings {
        action: rng.below(2) as i32,
        lo,
        hi,
        out: rng.between(i64::from(lo), i64::from(hi)) as i32,
        sp: rng.between(-sp, sp) as i32,
        rate: rng.between(1, rate) as i32,
        mean: mean(rng),
        jump: jump(rng),
        sets: [(); SETS].map(|()| gains(rng)),
    }
}

/// How many temperatures the mean is over: few, whose sums often lie on a half, or any number, often
/// all that the window holds or one less.
fn mean(rng: &mut Rng) -> i32 {
    if rng.one_in(2) {
        rng.pick(&[2, 2, 4, 7])
    } else {
        within32(rng, MEAN.least, MEAN.most)
    }
}

/// How far a sample may lie from the one before it: not further than samples often do, of any size, or
/// any distance, often the least or the most.
fn jump(rng: &mut Rng) -> i32 {
    let near = rng.pick(&[3, 100, 1_000, 5_000, 100_000]);
    if rng.one_in(2) {
        rng.between(1, near) as i32
    } else {
        within32(rng, JUMP.least, JUMP.most)
    }
}

fn lively_gains(rng: &mut Rng) -> GainSet {
    GainSet {
        kp: rng.between(0, 4 * Loop::F) as i32,
        ki: rng.between(0, Loop::F / 4) as i32,
        kd: rng.between(0, 2 * Loop::F) as i32,
        alpha: within32(rng, 1, 65_536),
        kt: if rng.one_in(2) { 0 } else { within32(rng, 1, 65_536) },
    }
}

/// Limits on either side of zero or about it, near enough to be passed now and then.
fn halving_settings(rng: &mut Rng) -> Settings {
    let lo = rng.between(-2_000, 1_000) as i32;
    let hi = lo + rng.between(1, 2_000) as i32;
    settings_within(rng, [lo, hi], 500, 50, halving_gains)
}

/// Gains of one half, which leave a half of every odd number, and of few fine units, which leave
/// odd numbers of them. P and g keep to halves, so that v is on one, or off it by the little that
/// the other roundings leave.
fn halving_gains(rng: &mut Rng) -> GainSet {
    GainSet {
        kp: rng.pick(&[32_768, 98_304]),
        ki: rng.pick(&[0, 0, 32_768]),
        kd: rng.pick(&[0, 0, 1, 32_768, 65_536]),
        alpha: rng.pick(&[1, 3, 32_768, 65_536]),
        kt: rng.pick(&[0, 1, 3, 32_768]),
    }
}

/// Settings that break one range or the order of the limits, or keep both.
pub fn doubtful_settings(rng: &mut Rng) -> Settings {
    let mut values = settings(rng).values();
    for _ in 0..rng.below(3) {
        let (place, Row { least, most, .. }) = any_place(rng);
        values[place] = around32(rng, least, most);
        if rng.one_in(3) {
            values[place] = outside32(rng, least, most);
        }
    }
    Settings::from_values(&values)
}

/// The place of a value and its row: each row of the table is as likely, and in it each set.
fn any_place(rng: &mut Rng) -> (usize, Row) {
    let row = rng.pick(&ROWS);
    let of_the_row = (0..).zip(places()).filter(|(_, place)| place.row == row);
    let choices: Vec<usize> = of_the_row.map(|(index, _)| index).collect();
    (rng.pick(&choices), row)
}

/// A text of these settings, in any of the forms that say them whole, of which one in two is the first
/// and shortest.
pub fn settings_text(rng: &mut Rng, settings: &Settings) -> Vec<u8> {
    let says = |form: &Form| form.says(settings) == *settings;
    let whole: Vec<Form> = Form::ALL.into_iter().filter(says).collect();
    let form = if rng.one_in(2) { whole[0] } else { rng.pick(&whole) };
    form.text(settings)
}

/// A text of these settings in any form, whatever that leaves out.
pub fn any_form(rng: &mut Rng, settings: &Settings) -> Vec<u8> {
    rng.pick(&Form::ALL).text(settings)
}

/// A record that keeps the state rules, though most of these are never reached.
pub fn record(rng: &mut Rng) -> Loop {
    let last = last_number(rng);
    record_at(rng, last)
}

/// The same with this last number.
pub fn record_at(rng: &mut Rng, last: u32) -> Loop {
    let settings = settings(rng);
    let automatic = rng.one_in(2);
    let primed = !rng.one_in(4);
    let w = within32(rng, LEAST_PV, MOST_PV);
    let seen = seen(rng, &settings);
    let mut record = Loop {
        settings,
        mode: if automatic { Mode::Automatic } else { Mode::Manual },
        pending: automatic && rng.one_in(3),
        set: rng.below(SETS) as i32,
        w,
        target: within32(rng, LEAST_PV, MOST_PV),
        rate: within32(rng, 1, MOST_RATE),
        u: within32(rng, settings.lo, settings.hi),
        integral: within(rng, -Loop::B, Loop::B),
        primed,
        y: if primed { within(rng, -Loop::Y, Loop::Y) } else { 0 },
        window: window(rng, w, seen),
        seen,
        last_raw: if primed { last_raw(rng, w) } else { 0 },
        last,
        memory: Memory::BLANK,
    };
    record.memory = memory(rng, &record);
    record
}

/// What a record at its last number remembers: commands that the law accepts or refuses, with outputs
/// anywhere within the limits. No rule ties the newest of them to u.
fn memory(rng: &mut Rng, record: &Loop) -> Memory {
    let Settings { lo, hi, .. } = record.settings;
    let entries = REMEMBERED.min(record.last as usize);
    (0..entries).map(|_| (command(rng, record), within32(rng, lo, hi))).collect()
}

/// How many temperatures a record has seen: any number of them, often just enough for its mean, one
/// too few, none, or all that the window holds.
fn seen(rng: &mut Rng, settings: &Settings) -> usize {
    let enough = settings.mean as usize;
    let any = rng.below(WINDOW + 1);
    rng.pick(&[0, enough - 1, enough, WINDOW - 1, WINDOW, any])
}

/// A window with so many temperatures in it: about the setpoint, or anywhere.
fn window(rng: &mut Rng, w: i32, seen: usize) -> [i32; WINDOW] {
    let about = rng.one_in(2);
    let mut window = [0; WINDOW];
    for raw in &mut window[..seen] {
        *raw = if about {
            in_range(w + rng.between(-3, 3) as i32)
        } else {
            within32(rng, LEAST_PV, MOST_PV)
        };
    }
    window
}

/// The last kept raw temperature of a primed record: about the setpoint, anywhere, or 0. No rule ties it
/// to the window.
fn last_raw(rng: &mut Rng, w: i32) -> i32 {
    let about = in_range(w + rng.between(-100, 100) as i32);
    let any = within32(rng, LEAST_PV, MOST_PV);
    rng.pick(&[about, about, any, any, 0])
}

/// This record with one to three of its numbers and flags changed, most of them against a rule.
pub fn doubtful(rng: &mut Rng, record: &Loop) -> Loop {
    let mut record = *record;
    for _ in 0..1 + rng.below(3) {
        spoil(rng, &mut record);
    }
    record
}

/// Changes one thing.
fn spoil(rng: &mut Rng, record: &mut Loop) {
    match rng.below(24) {
        0 => record.settings = doubtful_settings(rng),
        1 => record.mode = Mode::Manual,
        2 => record.pending = !record.pending,
        3 => record.set = outside32(rng, 0, MOST_SET),
        4 => record.w = outside32(rng, LEAST_PV, MOST_PV),
        5 => record.target = outside32(rng, LEAST_PV, MOST_PV),
        6 => record.rate = outside32(rng, 1, MOST_RATE),
        7 => record.u = past_the_limits(rng, &record.settings),
        8 => record.integral = rng.pick(&[Loop::B + 1, -Loop::B - 1, i64::MIN, i64::MAX]),
        9 => record.y = rng.pick(&[Loop::Y + 1, -Loop::Y - 1, i64::MIN, i64::MAX]),
        10 => record.primed = !record.primed,
        11 => record.window[rng.below(WINDOW)] = outside32(rng, LEAST_PV, MOST_PV),
        12 => record.window[WINDOW - 1] = within32(rng, LEAST_PV, MOST_PV),
        13 => record.settings.mean = outside32(rng, MEAN.least, MEAN.most),
        14 => record.seen = rng.pick(&[0, WINDOW - 1, WINDOW + 1, 2 * WINDOW, usize::MAX]),
        15 => record.settings.jump = outside32(rng, JUMP.least, JUMP.most),
        16 => record.last_raw = outside32(rng, LEAST_PV, MOST_PV),
        17 => record.last_raw = within32(rng, LEAST_PV, MOST_PV),
        18 => record.last = rng.pick(&[0, 1, 31, 32, u32::MAX]),
        _ => spoil_memory(rng, record),
    }
}

/// An output that most of these settings do not allow.
fn past_the_limits(rng: &mut Rng, settings: &Settings) -> i32 {
    let (below, above) = (settings.lo.saturating_sub(1), settings.hi.saturating_add(1));
    rng.pick(&[below, above, i32::MIN, i32::MAX])
}

/// Changes one place of what is remembered: its output, whether it has a command, or both.
fn spoil_memory(rng: &mut Rng, record: &mut Loop) {
    let past = past_the_limits(rng, &record.settings);
    let place = &mut record.memory.0[rng.below(REMEMBERED)];
    match rng.below(4) {
        0 => place.output = past,
        1 => place.command = None,
        2 => place.command = Some(Command::Hold),
        _ => *place = Entry::BLANK,
    }
}

/// A last number: 0, few, about as many as a loop remembers commands, the most or some before, or any.
fn last_number(rng: &mut Rng) -> u32 {
    match rng.below(8) {
        0 => 0,
        1 => 1,
        2 => u32::MAX - 1,
        3 => u32::MAX,
        4 => u32::MAX - rng.below(40) as u32,
        5 => rng.pick(&[31, 32, 33]),
        6 => 1 + rng.below(40) as u32,
        _ => rng.bits() as u32,
    }
}

/// A command for this record, in most cases one that the law accepts.
pub fn command(rng: &mut Rng, record: &Loop) -> Command {
    let limits = (record.settings.lo, record.settings.hi);
    match rng.below(20) {
        0 => Command::Automatic,
        1 if record.mode == Mode::Manual => Command::Automatic,
        2 => Command::Hold,
        3 => Command::Put(around32(rng, limits.0, limits.1)),
        4 => Command::Target {
            target: around32(rng, LEAST_PV, MOST_PV),
            rate: around32(rng, 1, MOST_RATE),
        },
        5 | 6 => target_nearby(rng, record),
        7 => Command::Set(set_number(rng, record)),
        _ => Command::Sample(temperature(rng, record)),
    }
}

/// A number for a gain set: that of any, of the one in force, or of none.
fn set_number(rng: &mut Rng, record: &Loop) -> i32 {
    match rng.below(10) {
        0 => outside32(rng, 0, MOST_SET),
        1 | 2 => record.set,
        _ => rng.below(SETS) as i32,
    }
}

/// A target that the ramp reaches within some samples.
fn target_nearby(rng: &mut Rng, record: &Loop) -> Command {
    Command::Target {
        target: in_range(record.w + rng.between(-5_000, 5_000) as i32),
        rate: rng.between(1, 1_000) as i32,
    }
}

/// A temperature: most are near enough to the one before, where that is tested; some lie at the edge of
/// the jump or just past it, and some anywhere.
fn temperature(rng: &mut Rng, record: &Loop) -> i32 {
    let any = any_temperature(rng, record);
    match compared_with(record) {
        Some(before) if !rng.one_in(8) => beside(rng, before, record.settings.jump, any),
        _ => any,
    }
}

/// The temperature that the next sample of this record is compared with, if it is with any.
fn compared_with(record: &Loop) -> Option<i32> {
    let tested = record.mode == Mode::Automatic && record.primed;
    Some(record.last_raw).filter(|_| tested)
}

/// A temperature beside the one before: where the range lets it, now and then exactly a jump away or
/// one more; else this one, or as far toward it as the jump goes.
fn beside(rng: &mut Rng, before: i32, jump: i32, pv: i32) -> i32 {
    let edge = before.saturating_add(at_the_edge(rng, jump));
    if rng.one_in(4) && Loop::TEMPERATURES.contains(&edge) {
        edge
    } else {
        toward(before, pv, jump)
    }
}

/// A jump up or down, or one more.
fn at_the_edge(rng: &mut Rng, jump: i32) -> i32 {
    rng.pick(&[jump, jump + 1]) * rng.pick(&[1, -1])
}

/// The temperature on the way from one to another that is at most a jump away.
fn toward(before: i32, pv: i32, jump: i32) -> i32 {
    before.saturating_add(pv.saturating_sub(before).clamp(-jump, jump))
}

/// A temperature in range that this record takes.
pub fn good_temperature(rng: &mut Rng, record: &Loop) -> i32 {
    let pv = within32(rng, LEAST_PV, MOST_PV);
    compared_with(record).map_or(pv, |before| toward(before, pv, record.settings.jump))
}

/// A temperature near the working setpoint, near the filter, or anywhere; seldom out of range.
fn any_temperature(rng: &mut Rng, record: &Loop) -> i32 {
    let distance = rng.pick(&[3, 100, 5_000]);
    let noise = rng.between(-distance, distance) as i32;
    let measured = (record.y / Loop::F) as i32;
    match rng.below(20) {
        0..=9 => in_range(record.w + noise),
        10..=15 => in_range(measured + noise),
        16..=18 => within32(rng, LEAST_PV, MOST_PV),
        _ => around32(rng, LEAST_PV, MOST_PV),
    }
}

/// The nearest temperature in range.
fn in_range(pv: i32) -> i32 {
    pv.clamp(LEAST_PV, MOST_PV)
}

/// A list of deliveries from a fresh loop of these settings: every command, repeats of the latest and
/// late ones, reused numbers, old numbers, number 0, gaps and bad values.
pub fn deliveries(rng: &mut Rng, settings: &Settings, count: usize) -> Vec<Delivery> {
    list(rng, settings, count, delivery_after)
}

/// The same of a queue that retries: half of the list are kept commands under their own numbers, from
/// the latest to 40 back, and some are such with a value or the word changed.
pub fn retries(rng: &mut Rng, settings: &Settings, count: usize) -> Vec<Delivery> {
    list(rng, settings, count, |rng, record, kept| match rng.below(20) {
        0..=9 => late(rng, record, kept),
        10 => reused(rng, record, kept),
        _ => delivery_after(rng, record, kept),
    })
}

/// Deliveries, each drawn for the loop that the ones before it have reached, and for the commands that
/// it has kept, oldest first.
fn list(
    rng: &mut Rng,
    settings: &Settings,
    count: usize,
    draw: impl Fn(&mut Rng, &Loop, &[Command]) -> Delivery,
) -> Vec<Delivery> {
    let (_, mut record) = Loop::make(settings);
    let mut kept = vec![];
    let next = |_| {
        let next = draw(rng, &record, &kept);
        let before = record.last;
        deliver(&mut record, next.number, next.command);
        if record.last != before {
            kept.push(next.command);
        }
        next
    };
    (0..count).map(next).collect()
}

/// A delivery for this record, in three cases of five under the next number.
pub fn delivery(rng: &mut Rng, record: &Loop) -> Delivery {
    let remembered: Vec<Command> =
        record.memory.0.iter().rev().filter_map(|entry| entry.command).collect();
    delivery_after(rng, record, &remembered)
}

/// The same for a record that has kept these commands, oldest first, up to its last number.
fn delivery_after(rng: &mut Rng, record: &Loop, kept: &[Command]) -> Delivery {
    let last = u64::from(record.last);
    let command = command(rng, record);
    let under = |number: u64| Delivery { number: number.min(u64::from(u32::MAX)) as u32, command };
    match rng.below(30) {
        0 | 1 => back(record, kept, 0),
        2 | 3 => late(rng, record, kept),
        4 => reused(rng, record, kept),
        5 => under(last.saturating_sub(rng.below(FURTHEST + 1) as u64)),
        6 => under(rng.bits() % (last + 1)),
        7 => Delivery { number: record.last.max(1) - 1, ..back(record, kept, 0) },
        8 => under(0),
        9 => under(last + 2),
        10 => under(rng.bits() % (1 << 32)),
        11 => under(u64::from(u32::MAX)),
        _ => under(last + 1),
    }
}

/// How far back a late command lies at most, counted from the latest: some are older than any that a
/// loop remembers.
const FURTHEST: usize = 40;

/// A kept command under its own number; each distance is as likely.
fn late(rng: &mut Rng, record: &Loop, kept: &[Command]) -> Delivery {
    back(record, kept, rng.below(FURTHEST + 1))
}

/// The number of such a one with another command, which differs in little.
fn reused(rng: &mut Rng, record: &Loop, kept: &[Command]) -> Delivery {
    let Delivery { number, command } = late(rng, record, kept);
    Delivery { number, command: almost(rng, command) }
}

/// The kept command so far back from the latest, or the first where that is nearer; before the first a
/// hold under number 0.
fn back(record: &Loop, kept: &[Command], distance: usize) -> Delivery {
    let distance = distance.min(kept.len().saturating_sub(1));
    let command = kept.iter().rev().nth(distance).copied().unwrap_or(Command::Hold);
    Delivery { number: record.last - distance as u32, command }
}

/// A command that differs from this one in a single value, or in its word.
fn almost(rng: &mut Rng, command: Command) -> Command {
    let beside = |value: i32| if value == i32::MAX { 0 } else { value + 1 };
    match command {
        Command::Sample(pv) if rng.one_in(3) => Command::Put(pv),
        Command::Sample(pv) => Command::Sample(beside(pv)),
        Command::Hold => Command::Automatic,
        Command::Put(x) => Command::Put(beside(x)),
        Command::Automatic => Command::Hold,
        Command::Target { target, rate } if rng.one_in(2) => {
            Command::Target { target: beside(target), rate }
        }
        Command::Target { target, rate } => Command::Target { target, rate: beside(rate) },
        Command::Set(k) => Command::Set(beside(k)),
    }
}

/// The bytes of a deliveries file.
pub fn deliveries_file(list: &[Delivery]) -> Vec<u8> {
    let line = |delivery| format!("{}\n", delivery_line(delivery));
    list.iter().map(line).collect::<String>().into_bytes()
}

/// A deliveries file in which a malformed line, or a last one without its line feed, ends the run.
pub fn spoiled_deliveries_file(rng: &mut Rng, list: &[Delivery]) -> Vec<u8> {
    let (before, after) = list.split_at(rng.below(list.len() + 1));
    let mut file = deliveries_file(before);
    let line = rng.pick(&MALFORMED_DELIVERIES);
    file.extend(line);
    // Without its line feed the empty line would be none.
    if line.is_empty() || !rng.one_in(4) {
        file.push(b'\n');
        file.extend(deliveries_file(after));
    }
    file
}

/// Lines, without their line feeds, that are no deliveries.
pub const MALFORMED_DELIVERIES: [&[u8]; 52] = [
    b"",
    b" ",
    b"number=1",
    b"number=1 command=hold",
    b"number=1 command=hold value=0",
    b"number=1 command=hold value=0 second=",
    b"number=1 command=hold value=0 second=0 ",
    b" number=1 command=hold value=0 second=0",
    b"number=1  command=hold value=0 second=0",
    b"number=1 command=hold value=0  second=0",
    b"number=1\tcommand=hold value=0 second=0",
    b"number=1 command=hold value=0 second=0\r",
    b"number=1 command=hold value=0 second=0 code=0",
    b"number=1 command=hold value=0 second=0 code=0 output=100 last=1",
    b"number=1 command=hold second=0 value=0",
    b"command=hold number=1 value=0 second=0",
    b"Number=1 command=hold value=0 second=0",
    b"number:1 command=hold value=0 second=0",
    b"number==1 command=hold value=0 second=0",
    b"number= command=hold value=0 second=0",
    b"number=-1 command=hold value=0 second=0",
    b"number=-0 command=hold value=0 second=0",
    b"number=+1 command=hold value=0 second=0",
    b"number=01 command=hold value=0 second=0",
    b"number=00 command=hold value=0 second=0",
    b"number=x command=hold value=0 second=0",
    b"number=4294967296 command=hold value=0 second=0",
    b"number=9999999999 command=hold value=0 second=0",
    b"number=10000000000 command=hold value=0 second=0",
    b"number=18446744073709551617 command=hold value=0 second=0",
    b"number=1 command= value=0 second=0",
    b"number=1 command=Hold value=0 second=0",
    b"number=1 command=holds value=0 second=0",
    b"number=1 command=hol value=0 second=0",
    b"number=1 command=auto value=0 second=0",
    b"number=1 command=hold value=1 second=0",
    b"number=1 command=hold value=0 second=1",
    b"number=1 command=automatic value=-1 second=0",
    b"number=1 command=automatic value=0 second=-1",
    b"number=1 command=sample value=480 second=1",
    b"number=1 command=put value=480 second=1",
    b"number=1 command=set value=1 second=1",
    b"number=1 command=sample value=2147483648 second=0",
    b"number=1 command=sample value=-2147483649 second=0",
    b"number=1 command=sample value=4294967296 second=0",
    b"number=1 command=sample value=00000000001 second=0",
    b"number=1 command=sample value=-0 second=0",
    b"number=1 command=sample value=0480 second=0",
    b"number=1 command=sample value=+480 second=0",
    b"number=1 command=sample value=480 second=-0",
    b"number=1 command=target value=480 second=2147483648",
    b"number=1 command=sample value=\xb480 second=0",
];

/// Temperatures that a fresh loop of these settings takes in automatic: they start near sp and wander,
/// with a leap now and then, as far as the jump lets them; one list in three rests between, long enough
/// for the filter to settle.
pub fn samples(rng: &mut Rng, settings: &Settings, count: usize) -> Vec<i32> {
    wander(rng, settings, settings.sp, count)
}

/// The same for this record: where that is tested, they start near enough to the last one.
pub fn samples_for(rng: &mut Rng, record: &Loop, count: usize) -> Vec<i32> {
    let start = compared_with(record).unwrap_or(record.settings.sp);
    wander(rng, &record.settings, start, count)
}

/// Temperatures after this one, each at most a jump away from the one before.
fn wander(rng: &mut Rng, settings: &Settings, start: i32, count: usize) -> Vec<i32> {
    let reach = rng.pick(&[2, 50, 2_000, 1_000_000]);
    let rest = rng.pick(&[1, 1, 30]);
    let mut before = start;
    let mut next = |rng: &mut Rng| {
        let mut pv = before;
        if rng.one_in(rest) {
            pv = in_range(pv + rng.between(-reach, reach) as i32);
        }
        if rng.one_in(50) {
            pv = settings.sp;
        }
        if rng.one_in(200) {
            pv = within32(rng, LEAST_PV, MOST_PV);
        }
        before = toward(before, pv, settings.jump);
        before
    };
    (0..count).map(|_| next(rng)).collect()
}

/// Temperatures for this record, with up to three among them that lie at the edge of the jump or just
/// past it, anywhere, or out of range: some of these are refused, 4 or 19, and so may be what follows.
pub fn doubtful_samples(rng: &mut Rng, record: &Loop, count: usize) -> Vec<i32> {
    let mut samples = samples_for(rng, record, count);
    for _ in 0..rng.below(4).min(count) {
        let place = rng.below(count);
        let before = if place == 0 { record.last_raw } else { samples[place - 1] };
        let edge = before.saturating_add(at_the_edge(rng, record.settings.jump));
        let any = within32(rng, LEAST_PV, MOST_PV);
        let out = outside32(rng, LEAST_PV, MOST_PV);
        samples[place] = match rng.below(6) {
            0 => out,
            1 => any,
            _ if Loop::TEMPERATURES.contains(&edge) => edge,
            _ => any,
        };
    }
    samples
}

/// Such temperatures for an oven of these settings, of seven digits at most, as a sample file has them.
pub fn doubtful_oven_samples(rng: &mut Rng, settings: &Settings, count: usize) -> Vec<i32> {
    let samples = doubtful_samples(rng, &Loop::make(settings).1, count);
    samples.into_iter().map(|raw| raw.clamp(-9_999_999, 9_999_999)).collect()
}

/// What the program delivers for its samples: "automatic as number 1 and the samples from number 2
/// on".
pub fn sample_deliveries(samples: &[i32]) -> Vec<Delivery> {
    let samples = samples.iter().map(|&pv| Command::Sample(pv));
    let numbered = (1..).zip([Command::Automatic].into_iter().chain(samples));
    numbered.map(|(number, command)| Delivery { number, command }).collect()
}

/// The bytes of a sample file.
pub fn sample_file(samples: &[i32]) -> Vec<u8> {
    let line = |pv| format!("{pv}\n");
    samples.iter().map(line).collect::<String>().into_bytes()
}

/// A sample file that is refused somewhere: a malformed line, a temperature out of range, or no
/// last line feed. After the bad line others follow, which no answer may show.
pub fn spoiled_sample_file(rng: &mut Rng, samples: &[i32]) -> Vec<u8> {
    let (before, after) = samples.split_at(rng.below(samples.len() + 1));
    let mut file = sample_file(before);
    if rng.one_in(4) {
        file.extend(rng.pick(&[&b"480"[..], b"-", b"1000001", b"x"]));
    } else {
        file.extend(bad_sample_line(rng));
        file.extend(sample_file(after));
    }
    file
}

/// A sample line, with its line feed, that is refused 14 or 4.
pub fn bad_sample_line(rng: &mut Rng) -> Vec<u8> {
    const MALFORMED: [&[u8]; 20] = [
        b"\n",
        b"x\n",
        b"-\n",
        b"-0\n",
        b"00\n",
        b"0480\n",
        b"-0480\n",
        b"+480\n",
        b" 480\n",
        b"480 \n",
        b"480\r\n",
        b"4 80\n",
        b"--480\n",
        b"4.8\n",
        b"\t480\n",
        b"480\0\n",
        b"\xef\xbb\xbf480\n",
        b"\xb480\n",
        b"10000000\n",
        b"-10000000\n",
    ];
    const OUT_OF_RANGE: [&[u8]; 4] = [b"1000001\n", b"-1000001\n", b"9999999\n", b"-9999999\n"];
    match rng.below(3) {
        0 => rng.pick(&OUT_OF_RANGE).to_vec(),
        1 => rng.pick(&MALFORMED).to_vec(),
        _ => {
            let length = 1 + rng.below(100_000);
            let mut line = vec![rng.pick(b"09-x"); length];
            line.extend(b"x\n");
            line
        }
    }
}

/// The same bytes with one to three pieces of damage.
pub fn damaged(rng: &mut Rng, text: &[u8]) -> Vec<u8> {
    let mut bytes = text.to_vec();
    for _ in 0..1 + rng.below(3) {
        damage(rng, &mut bytes);
    }
    bytes
}

/// One piece of damage.
fn damage(rng: &mut Rng, bytes: &mut Vec<u8>) {
    if bytes.is_empty() {
        bytes.push(odd_byte(rng));
        return;
    }
    let place = rng.below(bytes.len());
    match rng.below(12) {
        0 => bytes[place] = odd_byte(rng),
        1 => {
            bytes.remove(place);
        }
        2 => bytes.insert(place, odd_byte(rng)),
        3 => duplicate_a_line(rng, bytes),
        4 => swap_two_lines(rng, bytes),
        5 => bytes.truncate(place),
        6 => append(rng, bytes),
        7 => cut_after_a_line(rng, bytes),
        8 => leave_out_a_line(rng, bytes),
        _ => change_a_value(rng, bytes),
    }
}

/// A byte that texts are made of, or any byte at all.
fn odd_byte(rng: &mut Rng) -> u8 {
    let any = rng.bits() as u8;
    rng.pick(&[b'0', b'1', b'9', b'-', b'=', b' ', b'\n', b'\r', b'+', b'.', b'k', 0, 255, any])
}

/// The lines with their line feeds, so far as they have one.
fn pieces(bytes: &[u8]) -> Vec<Vec<u8>> {
    bytes.split_inclusive(|&byte| byte == b'\n').map(<[u8]>::to_vec).collect()
}

fn duplicate_a_line(rng: &mut Rng, bytes: &mut Vec<u8>) {
    let mut lines = pieces(bytes);
    let place = rng.below(lines.len());
    lines.insert(place, lines[place].clone());
    *bytes = lines.concat();
}

fn swap_two_lines(rng: &mut Rng, bytes: &mut Vec<u8>) {
    let mut lines = pieces(bytes);
    let (one, other) = (rng.below(lines.len()), rng.below(lines.len()));
    lines.swap(one, other);
    *bytes = lines.concat();
}

fn leave_out_a_line(rng: &mut Rng, bytes: &mut Vec<u8>) {
    let mut lines = pieces(bytes);
    let place = any_line(rng, &lines);
    lines.remove(place);
    *bytes = lines.concat();
}

fn cut_after_a_line(rng: &mut Rng, bytes: &mut Vec<u8>) {
    let lines = pieces(bytes);
    let count = rng.below(lines.len() + 1);
    *bytes = lines[..count].concat();
}

fn append(rng: &mut Rng, bytes: &mut Vec<u8>) {
    for _ in 0..1 + rng.below(4) {
        bytes.push(odd_byte(rng));
    }
}

/// One of the lines; the first ones, where each row of the table stands, have more than their share.
fn any_line(rng: &mut Rng, lines: &[Vec<u8>]) -> usize {
    let among = if rng.one_in(2) { lines.len() } else { lines.len().min(ROWS.len()) };
    rng.below(among)
}

/// Gives one `key=value` of a line another value, well formed or not.
fn change_a_value(rng: &mut Rng, bytes: &mut Vec<u8>) {
    const VALUES: [&[u8]; 24] = [
        b"0",
        b"1",
        b"-1",
        b"2",
        b"128",
        b"129",
        b"65536",
        b"65537",
        b"1000000",
        b"1000001",
        b"-1000000",
        b"-1000001",
        b"2000000",
        b"2000001",
        b"4194304",
        b"4194305",
        b"9999999",
        b"-9999999",
        b"10000000",
        b"4294967296",
        b"-0",
        b"00",
        b"",
        b"-",
    ];
    let mut lines = pieces(bytes);
    let line = any_line(rng, &lines);
    let signs: Vec<usize> = (0..lines[line].len()).filter(|&at| lines[line][at] == b'=').collect();
    if !signs.is_empty() {
        let start = rng.pick(&signs) + 1;
        let ends = |byte: &u8| *byte == b' ' || *byte == b'\n';
        let length = lines[line][start..].iter().take_while(|b| !ends(b)).count();
        lines[line].splice(start..start + length, rng.pick(&VALUES).iter().copied());
    }
    *bytes = lines.concat();
}
