//! 01, "Numbered delivery", and the walk of demand 3 over the plain law, as request 6 amends both.

// How far back repeats lie is counted in the tests of request 6.
#[allow(dead_code)]
mod walk;

use host::delivery::{deliver, Answer};
use host::example;
use host::gen;
use host::law::{Command, Loop};
use host::rng::for_each_seed;
use walk::Walk;
use Command::{Automatic, Hold, Put, Sample, Set};

fn answer(code: i32, output: i32, last: u32) -> Answer {
    Answer { code, output, last }
}

/// A loop from C that has kept sample 480 as number 1 and put 70 as number 2.
fn two_kept() -> Loop {
    let mut record = example::fresh();
    assert_eq!(deliver(&mut record, 1, Sample(480)), answer(0, 100, 1));
    assert_eq!(deliver(&mut record, 2, Put(70)), answer(0, 70, 2));
    record
}

/// Delivers and asserts that nothing changes.
fn unkept(record: &Loop, number: u32, command: Command) -> Answer {
    let mut tried = *record;
    let answer = deliver(&mut tried, number, command);
    assert_eq!(tried, *record, "number {number} {command:?}");
    answer
}

#[test]
fn numbers_are_judged_as_the_table_says() {
    let record = two_kept();
    assert_eq!(unkept(&record, 0, Hold), answer(1, 70, 2));
    assert_eq!(unkept(&record, 1, Sample(480)), answer(0, 100, 1));
    assert_eq!(unkept(&record, 1, Sample(481)), answer(2, 70, 2));
    assert_eq!(unkept(&record, 2, Put(70)), answer(0, 70, 2));
    assert_eq!(unkept(&record, 2, Put(71)), answer(2, 70, 2));
    assert_eq!(unkept(&record, 2, Sample(70)), answer(2, 70, 2));
    assert_eq!(unkept(&record, 4, Hold), answer(3, 70, 2));
    assert_eq!(unkept(&record, u32::MAX, Hold), answer(3, 70, 2));
}

#[test]
fn before_the_first_only_number_1_is_tried() {
    let fresh = example::fresh();
    assert_eq!(unkept(&fresh, 0, Hold), answer(1, 100, 0));
    assert_eq!(unkept(&fresh, 2, Hold), answer(3, 100, 0));
    assert_eq!(deliver(&mut fresh.clone(), 1, Hold), answer(0, 100, 1));
}

/// "Remembering a refused command's number, so that the corrected one is called a reuse."
#[test]
fn a_refused_number_stays_free() {
    let mut record = two_kept();
    assert_eq!(unkept(&record, 3, Sample(1_000_001)), answer(4, 70, 2));
    assert_eq!(unkept(&record, 3, Put(1_001)), answer(5, 70, 2));
    assert_eq!(unkept(&record, 3, Set(16)), answer(9, 70, 2));
    assert_eq!(unkept(&record, 3, Set(-1)), answer(9, 70, 2));
    assert_eq!(deliver(&mut record, 3, Set(15)), answer(0, 70, 3));
    assert_eq!(deliver(&mut record, 4, Sample(480)), answer(0, 70, 4));
}

/// So does the number of a wild reading: with a jump of 10, 491 is too far from 480 in automatic.
#[test]
fn the_number_of_a_wild_reading_stays_free() {
    let mut record = two_kept();
    record.settings.jump = 10;
    assert_eq!(deliver(&mut record, 3, Automatic), answer(0, 70, 3));
    assert_eq!(unkept(&record, 4, Sample(491)), answer(19, 70, 3));
    assert_eq!(unkept(&record, 4, Sample(491)), answer(19, 70, 3), "and is refused again");
    assert_eq!(unkept(&record, 5, Sample(480)), answer(3, 70, 3));
    assert_eq!(deliver(&mut record, 4, Sample(490)), answer(0, 70, 4));
    assert_eq!(unkept(&record, 4, Sample(491)), answer(2, 70, 4), "now it is a reuse");
}

#[test]
fn a_repeat_needs_every_value() {
    let aim = |target, rate| Command::Target { target, rate };
    let mut record = two_kept();
    assert_eq!(deliver(&mut record, 3, aim(600, 10)), answer(0, 70, 3));
    assert_eq!(unkept(&record, 3, aim(600, 10)).code, 0);
    assert_eq!(unkept(&record, 3, aim(600, 11)).code, 2);
    assert_eq!(unkept(&record, 3, aim(601, 10)).code, 2);
    assert_eq!(unkept(&record, 3, aim(10, 600)).code, 2);
    assert_eq!(deliver(&mut record, 4, Set(2)), answer(0, 70, 4));
    assert_eq!(unkept(&record, 4, Set(2)).code, 0);
    assert_eq!(unkept(&record, 4, Set(1)).code, 2);
    assert_eq!(unkept(&record, 4, Put(2)).code, 2);
    assert_eq!(unkept(&record, 4, Set(16)).code, 2);
    assert_eq!(deliver(&mut record, 5, Hold), answer(0, 70, 5));
    assert_eq!(unkept(&record, 5, Hold).code, 0);
    assert_eq!(unkept(&record, 5, Automatic).code, 2);
}

/// A command of no effect is accepted all the same, and its number kept.
#[test]
fn commands_of_no_effect_are_kept() {
    let mut record = example::fresh();
    for (number, command) in (1..).zip([Automatic, Automatic, Set(0), Hold, Hold]) {
        assert_eq!(deliver(&mut record, number, command), answer(0, 100, number));
        assert_eq!(record.pending, number <= 3);
    }
}

/// Content is tested at last + 1 only: a repeat of a remembered command is served even where the
/// law would refuse it, in an unreached record.
#[test]
fn a_repeat_is_served_whatever_its_content() {
    for command in [Sample(i32::MIN), Put(5_000), Set(16), Command::Target { target: 0, rate: 0 }] {
        let record = example::at_number(9, command);
        for number in 1..=9 {
            assert_eq!(unkept(&record, number, command), answer(0, 100, number));
        }
        assert_ne!(unkept(&record, 10, command).code, 0);
    }
}

/// "After number 4,294,967,295 the last 32 are served": 4,294,967,264 is the oldest of them.
#[test]
fn after_the_last_number_only_repeats_of_the_last_32_are_served() {
    let last = 4_294_967_295;
    let mut record = example::at_number(last - 1, Hold);
    assert_eq!(unkept(&record, last, Put(-1)), answer(5, 100, last - 1));
    assert_eq!(deliver(&mut record, last, Put(50)), answer(0, 50, last));
    assert_eq!(unkept(&record, last, Put(50)), answer(0, 50, last));
    assert_eq!(unkept(&record, last, Put(51)), answer(2, 50, last));
    for number in 4_294_967_264..last {
        assert_eq!(unkept(&record, number, Hold), answer(0, 100, number));
        assert_eq!(unkept(&record, number, Put(50)), answer(2, 50, last));
    }
    for number in [0, 1, 2, 4_294_967_262, 4_294_967_263] {
        assert_eq!(unkept(&record, number, Hold), answer(1, 50, last));
        assert_eq!(unkept(&record, number, Put(50)), answer(1, 50, last));
    }
}

/// "The end state is the law's after the kept commands, each given once." "Demand 3's law includes this
/// rule": some samples of the lists are wild.
#[test]
fn any_list_is_walked_as_demand_3_says() {
    let (mut kept, mut wild) = (0, 0);
    for_each_seed(500, |rng| {
        let settings = gen::settings(rng);
        let mut record = Loop::make(&settings).1;
        let mut walk = Walk::new(&settings);
        for delivery in gen::deliveries(rng, &settings, 300) {
            let expected = walk.answer(&delivery);
            let answered = deliver(&mut record, delivery.number, delivery.command);
            assert_eq!(answered, expected, "{delivery:?}");
            wild += usize::from(answered.code == 19);
        }
        assert_eq!(record, walk.end());
        kept += walk.kept.len();
    });
    assert!(kept > 50_000 && wild > 2_000, "{kept} kept, {wild} wild");
}

/// Every list gives the same end state with each delivery doubled: "a second delivery of it must
/// write nothing".
#[test]
fn a_doubled_list_ends_in_the_same_state() {
    for_each_seed(200, |rng| {
        let settings = gen::settings(rng);
        let list = gen::deliveries(rng, &settings, 100);
        let (mut once, mut twice) = (Loop::make(&settings).1, Loop::make(&settings).1);
        for delivery in list {
            let first = deliver(&mut once, delivery.number, delivery.command);
            assert_eq!(deliver(&mut twice, delivery.number, delivery.command), first);
            assert_eq!(deliver(&mut twice, delivery.number, delivery.command), first);
        }
        assert_eq!(once, twice);
    });
}
