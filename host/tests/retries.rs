//! Request 6, "Longer memory for retries".

// What the program journal writes of late repeats is the matter of its own tests.
#[allow(dead_code)]
mod late;
#[allow(dead_code)]
mod walk;

use host::delivery::{deliver, Answer, Delivery};
use host::example;
use host::gen;
use host::law::{Command, Loop};
use host::memory::{Entry, Memory};
use host::replay::{replay, Replayed};
use host::rng::{for_each_seed, Rng};
use std::collections::BTreeSet;
use walk::{Repeats, Walk};
use Command::{Automatic, Hold, Put, Sample, Set};

fn answer(code: i32, output: i32, last: u32) -> Answer {
    Answer { code, output, last }
}

/// Delivers and asserts that nothing changes.
fn unkept(record: &Loop, number: u32, command: Command) -> Answer {
    let mut tried = *record;
    let answer = deliver(&mut tried, number, command);
    assert_eq!(tried, *record, "number {number} {command:?}");
    answer
}

/// Delivers commands under the next numbers, each of which has to be kept.
fn keep(record: &mut Loop, commands: &[Command]) {
    for &command in commands {
        let number = record.last + 1;
        let answered = deliver(record, number, command);
        assert_eq!((answered.code, answered.last), (0, number), "{command:?}");
    }
}

/// A loop from C that has kept so many puts, each of its own number up to 1,000 and then of that.
fn puts(count: u32) -> Loop {
    let mut record = example::fresh();
    let puts: Vec<Command> = (1..=count as i32).map(|x| Put(x.min(1_000))).collect();
    keep(&mut record, &puts);
    record
}

/// The numbers of each last number that are in the window, the first of them L - 31 or 1.
#[test]
fn the_last_32_are_served_and_the_one_before_them_is_1() {
    let windows =
        [(1, 1), (2, 1), (31, 1), (32, 1), (33, 2), (34, 3), (40, 9), (64, 33), (999, 968)];
    for (last, oldest) in windows {
        let record = puts(last);
        let in_force = last as i32;
        for number in oldest..=last {
            let x = number as i32;
            assert_eq!(unkept(&record, number, Put(x)), answer(0, x, number), "last {last}");
            for other in [Put(x + 1), Put(x - 1), Sample(x), Set(x), Hold, Automatic] {
                assert_eq!(unkept(&record, number, other), answer(2, in_force, last), "{other:?}");
            }
        }
        for older in 0..oldest {
            let x = older as i32;
            for command in [Put(x), Put(x + 1), Hold, Sample(i32::MIN)] {
                assert_eq!(unkept(&record, older, command), answer(1, in_force, last), "{older}");
            }
        }
    }
}

/// "A late repeat's answer is not the output in force": of C in automatic, as in 01's own example.
#[test]
fn a_late_repeat_gets_its_first_output_after_the_output_has_moved_on() {
    let mut record = example::fresh();
    let list = [(Automatic, 100), (Sample(480), 100), (Sample(480), 105), (Sample(478), 113)];
    for (number, (command, output)) in (1..).zip(list) {
        assert_eq!(deliver(&mut record, number, command), answer(0, output, number));
    }
    keep(&mut record, &[Hold, Put(70)]);
    for (number, (command, output)) in (1..).zip(list) {
        assert_eq!(unkept(&record, number, command), answer(0, output, number));
    }
    assert_eq!(unkept(&record, 5, Hold), answer(0, 113, 5));
    assert_eq!(unkept(&record, 6, Put(70)), answer(0, 70, 6));
    assert_eq!(unkept(&record, 3, Sample(478)), answer(2, 70, 6), "the two samples are not alike");
}

/// "No content is tested there": what the law would refuse by now is served, and bad values are 2.
#[test]
fn a_late_repeat_is_not_tested() {
    let mut record = example::fresh();
    record.settings.jump = 10;
    keep(&mut record, &[Sample(0), Put(70), Sample(480), Automatic, Sample(490), Sample(500)]);
    assert_eq!(unkept(&record, 2, Put(70)), answer(0, 70, 2), "while automatic");
    assert_eq!(unkept(&record, 3, Sample(480)), answer(0, 70, 3), "further than jump by now");
    assert_eq!(unkept(&record, 1, Sample(0)), answer(0, 100, 1));
    for bad in [Sample(i32::MAX), Put(-1), Set(16), Command::Target { target: 0, rate: 0 }] {
        assert_eq!(unkept(&record, 3, bad), answer(2, record.u, 6));
    }
}

/// "A command refused under a number that another command then took is, when it comes late, 2."
#[test]
fn a_refused_command_whose_number_was_taken_is_2_when_it_comes_late() {
    let mut record = example::fresh();
    keep(&mut record, &[Automatic, Sample(480)]);
    for (refused, code) in [(Put(50), 6), (Sample(1_000_001), 4), (Set(16), 9)] {
        assert_eq!(unkept(&record, 3, refused), answer(code, 100, 2));
    }
    keep(&mut record, &[Hold, Put(60)]);
    for late in [Put(50), Sample(1_000_001), Set(16)] {
        assert_eq!(unkept(&record, 3, late), answer(2, 60, 4));
    }
    assert_eq!(unkept(&record, 3, Hold), answer(0, 100, 3));
}

/// "Every kept command counts, of no effect too": 31 of these leave the put in the window, and one more
/// drives it out.
#[test]
fn commands_of_no_effect_count() {
    for idle in [Hold, Set(0), Command::Target { target: 500, rate: 50 }] {
        let mut record = example::fresh();
        keep(&mut record, &[Put(70), Put(80)]);
        keep(&mut record, &[idle; 30]);
        assert_eq!(unkept(&record, 1, Put(70)), answer(0, 70, 1));
        keep(&mut record, &[idle]);
        assert_eq!(unkept(&record, 1, Put(70)), answer(1, 80, 33));
        assert_eq!(unkept(&record, 2, Put(80)), answer(0, 80, 2));
        assert_eq!(unkept(&record, 33, idle), answer(0, 80, 33));
    }
}

/// A thousand repeats and refusals are not kept: the window is of the same 32 after them.
#[test]
fn neither_a_repeat_nor_a_refusal_moves_the_window() {
    let mut record = puts(33);
    let before = record;
    for (number, command, code) in [
        (2, Put(2), 0),
        (33, Put(33), 0),
        (20, Put(20), 0),
        (34, Put(-1), 5),
        (34, Sample(i32::MIN), 4),
        (35, Put(35), 3),
        (20, Put(21), 2),
        (1, Put(1), 1),
        (0, Put(0), 1),
    ]
    .repeat(100)
    {
        assert_eq!(deliver(&mut record, number, command).code, code);
    }
    assert_eq!(record, before);
    keep(&mut record, &[Put(34)]);
    assert_eq!(unkept(&record, 2, Put(2)), answer(1, 34, 34));
    assert_eq!(unkept(&record, 3, Put(3)), answer(0, 3, 3));
}

/// "Replayed samples enter the window too", each with the output of its place: 100, 105, 113 of 01's own
/// example, 119 with e = 23 and I = 90.5, and 126 with e = 24 and I = 96.25.
#[test]
fn replayed_samples_are_served_with_the_output_of_their_place() {
    let mut record = example::fresh();
    keep(&mut record, &[Put(70), Put(100), Automatic]);
    let samples = [480, 480, 478, 477, 476];
    let mut outputs = [0; 5];
    let done = Replayed { code: 0, place: 0, count: 5 };
    assert_eq!(replay(&mut record, 4, &samples, &mut outputs), done);
    assert_eq!(outputs, [100, 105, 113, 119, 126]);
    keep(&mut record, &[Hold, Put(33)]);
    for (number, (&raw, output)) in (4..).zip(samples.iter().zip(outputs)) {
        assert_eq!(unkept(&record, number, Sample(raw)), answer(0, output, number));
        assert_eq!(unkept(&record, number, Sample(raw + 1)), answer(2, 33, 10));
    }
    assert_eq!(unkept(&record, 1, Put(70)), answer(0, 70, 1), "kept before the replay");
    assert_eq!(unkept(&record, 9, Hold), answer(0, 126, 9), "kept after it");
}

/// "a replay sent again is still refused 1", and so is one that starts inside the window, whatever its
/// samples: those that were kept there, others, bad ones or none.
#[test]
fn a_replay_that_starts_in_the_window_is_1() {
    let samples: Vec<i32> = (0..50).map(|n| 450 + n).collect();
    for count in [1, 2, 31, 32, 33, 50] {
        let mut record = example::fresh();
        let (sent, mut outputs) = (&samples[..count], vec![-7; count]);
        assert_eq!(replay(&mut record, 1, sent, &mut outputs).code, 0);
        let (kept, written) = (record, outputs.clone());
        let refused = Replayed { code: 1, place: 0, count: 0 };
        for first in 0..=count {
            let from = first.saturating_sub(1);
            let again = [&sent[from..], &samples[from..], &[480], &[i32::MIN], &[]];
            for samples in again {
                let answered = replay(&mut record, first as u32, samples, &mut outputs);
                assert_eq!(answered, refused, "{count} kept, from {first}");
                assert_eq!((record, &outputs), (kept, &written));
            }
        }
    }
}

/// "After number 4,294,967,295 the last 32 are served; every replay is 1."
#[test]
fn after_the_last_number_the_last_32_are_served() {
    let last = 4_294_967_295;
    let mut record = example::at_number(last - 40, Hold);
    for number in last - 39..=last {
        let put = Put((last - number) as i32);
        assert_eq!(deliver(&mut record, number, put), answer(0, (last - number) as i32, number));
    }
    for distance in 0..=31 {
        let (number, x) = (last - distance, distance as i32);
        assert_eq!(unkept(&record, number, Put(x)), answer(0, x, number));
        assert_eq!(unkept(&record, number, Put(x + 1)), answer(2, 0, last));
        assert_eq!(replay(&mut record.clone(), number, &[480], &mut [0]).code, 1);
    }
    for distance in [32, 33, 39, 40, last - 1, last] {
        assert_eq!(unkept(&record, last - distance, Put(distance as i32)), answer(1, 0, last));
    }
    assert_eq!(unkept(&record, 4_294_967_264, Put(31)), answer(0, 31, 4_294_967_264));
    assert_eq!(unkept(&record, 4_294_967_263, Put(32)), answer(1, 0, last));
}

/// Every number from the latest to 40 back, after each of many commands of every kind: what was answered
/// first, and nothing changes.
#[test]
fn late_repeats_at_every_distance_are_answered_as_at_first() {
    let mut record = example::fresh();
    let list = late::probed(&late::every_kind(130));
    for (Delivery { number, command }, expected) in &list {
        let before = record;
        assert_eq!(deliver(&mut record, *number, *command), *expected, "{number} {command:?}");
        assert_eq!(record == before, *number <= before.last, "{number} {command:?}");
    }
    let outputs: BTreeSet<i32> = list.iter().map(|(_, answer)| answer.output).collect();
    assert!(outputs.len() > 40, "{} outputs tell the commands apart", outputs.len());
}

/// Demand 3: "an exact repeat of any of the last 32 kept ones gets its first answer", and every other
/// delivery what the walk says, which knows the law and all that was ever answered.
#[test]
fn any_list_of_retries_is_walked_as_demand_3_says() {
    let (mut repeats, mut kept, mut codes) = (Repeats::NONE, 0, [0; 20]);
    for_each_seed(300, |rng| {
        let settings = gen::settings(rng);
        let mut record = Loop::make(&settings).1;
        let mut walk = Walk::new(&settings);
        for next in gen::retries(rng, &settings, 400) {
            repeats.add(&walk, &next);
            let expected = walk.answer(&next);
            let answered = deliver(&mut record, next.number, next.command);
            assert_eq!(answered, expected, "{next:?}");
            codes[answered.code as usize] += 1;
        }
        assert_eq!(record, walk.end());
        kept += walk.kept.len();
    });
    assert!(kept > 25_000 && repeats.fewest() > 500, "{kept} kept, {repeats:?}");
    assert!((0..10).chain([19]).all(|code| codes[code] > 30), "{codes:?}");
}

/// "a second delivery of it must write nothing", nor any later one while the command is in the window:
/// after each delivery all of the last 40 kept are delivered again.
#[test]
fn every_later_delivery_gets_the_same_answer_and_changes_nothing() {
    let mut again = [0; 2];
    for_each_seed(60, |rng| {
        let settings = gen::settings(rng);
        let mut record = Loop::make(&settings).1;
        let mut kept: Vec<(Delivery, Answer)> = vec![];
        for next in gen::deliveries(rng, &settings, 150) {
            let last = record.last;
            let first = deliver(&mut record, next.number, next.command);
            if record.last != last {
                kept.push((next, first));
            }
            for (distance, (earlier, first)) in kept.iter().rev().enumerate().take(40) {
                let answered = unkept(&record, earlier.number, earlier.command);
                let old = answer(1, record.u, record.last);
                assert_eq!(answered, if distance < 32 { *first } else { old }, "{earlier:?}");
                again[usize::from(distance < 32)] += 1;
            }
        }
    });
    assert!(again.iter().all(|&count| count > 10_000), "older, in the window {again:?}");
}

/// The memory of a record after these samples and outputs: they stand before what it remembered, newest
/// first, and the first 32 of all that stay.
fn memory_after(before: &Memory, samples: &[i32], outputs: &[i32]) -> Memory {
    let entry = |(&raw, &output): (&i32, &i32)| Entry { command: Some(Sample(raw)), output };
    let mut entries: Vec<Entry> = samples.iter().zip(outputs).map(entry).rev().collect();
    entries.extend(before.0);
    Memory(entries[..32].try_into().expect("32 entries"))
}

/// A replay of so many samples into this record equals their single deliveries, what is remembered
/// included, whatever was remembered before.
fn replay_equals_single_deliveries(rng: &mut Rng, start: &Loop, count: usize) {
    let samples = gen::samples_for(rng, start, count);
    let (mut replayed, mut outputs) = (*start, vec![-7; count]);
    let answered = replay(&mut replayed, start.last + 1, &samples, &mut outputs);
    assert_eq!(answered, Replayed { code: 0, place: 0, count });
    assert_eq!(replayed.memory, memory_after(&start.memory, &samples, &outputs));
    let mut one_by_one = *start;
    for ((number, &raw), &output) in (start.last + 1..=u32::MAX).zip(&samples).zip(&outputs) {
        let answered = deliver(&mut one_by_one, number, Sample(raw));
        assert_eq!(answered, answer(0, output, number), "{raw}");
    }
    assert_eq!(replayed, one_by_one);
}

#[test]
fn a_replay_remembers_what_single_deliveries_do() {
    for_each_seed(150, |rng| {
        for last in [0, 1, 2, 30, 31, 32, 33, 1_000, u32::MAX - 64] {
            for count in [0, 1, 2, 31, 32, 33, 64] {
                let start = gen::record_at(rng, last);
                replay_equals_single_deliveries(rng, &start, count);
            }
            let (start, count) = (gen::record_at(rng, last), rng.below(65));
            replay_equals_single_deliveries(rng, &start, count);
        }
    });
}

/// Samples that are replayed in pieces, with single deliveries and late repeats between: each is served
/// with its first output, wherever the pieces are cut.
#[test]
fn pieces_of_a_replay_are_remembered_as_the_whole() {
    for_each_seed(300, |rng| {
        let settings = gen::settings(rng);
        let samples = gen::samples(rng, &settings, 100);
        let fresh = {
            let mut record = Loop::make(&settings).1;
            keep(&mut record, &[Automatic]);
            record
        };
        let (mut whole, mut all) = (fresh, vec![0; 100]);
        assert_eq!(replay(&mut whole, 2, &samples, &mut all).code, 0);
        let mut cut = fresh;
        let mut left = &samples[..];
        while !left.is_empty() {
            let (piece, rest) = left.split_at(rng.below(left.len().min(40)) + 1);
            let first = cut.last + 1;
            if piece.len() == 1 {
                keep(&mut cut, &[Sample(piece[0])]);
            } else {
                assert_eq!(replay(&mut cut, first, piece, &mut [0; 40]).code, 0);
            }
            left = rest;
        }
        assert_eq!(cut, whole);
        for (number, (&raw, &output)) in (2..).zip(samples.iter().zip(&all)) {
            let first = answer(0, output, number);
            let old = answer(1, whole.u, 101);
            let expected = if number >= 70 { first } else { old };
            assert_eq!(unkept(&cut, number, Sample(raw)), expected, "{number}");
        }
    });
}
