//! 01, "The bench log": every row with its code, u and after-state, and the cases at the limits.

use host::delivery::{deliver, Answer};
use host::example;
use host::law::{obey, Command, Loop, Mode};
use Command::{Automatic, Put, Sample, Set};

/// What the log's last column says. "I, w, y are in units of F where they are fine."
enum After {
    Y(f64),
    I(f64),
    W(i32),
    Pending,
    Unchanged,
}
use After::{Pending, Unchanged, I, W, Y};

/// An amount in units of F as a fine amount; the log's decimals are exact.
fn fine(amount: f64) -> i64 {
    (amount * 65_536.0) as i64
}

const RAMP: Command = Command::Target { target: 800, rate: 50 };

/// Number, command, code, u, after.
const LOG: [(u32, Command, i32, i32, &[After]); 14] = [
    (1, Sample(480), 0, 100, &[Y(480.0)]),
    (2, Automatic, 0, 100, &[Pending]),
    (3, Sample(480), 0, 100, &[I(80.0)]),
    (4, Sample(480), 0, 105, &[I(85.0)]),
    (4, Sample(480), 0, 105, &[I(85.0), Unchanged]),
    (4, Sample(481), 2, 105, &[I(85.0), Unchanged]),
    (6, Sample(480), 3, 105, &[I(85.0), Unchanged]),
    (5, Sample(478), 0, 113, &[I(90.5)]),
    (6, Set(1), 0, 113, &[Pending]),
    (7, Sample(476), 0, 113, &[Y(477.0), I(64.0)]),
    (8, Sample(476), 0, 119, &[Y(476.5), I(70.0)]),
    (9, RAMP, 0, 119, &[W(500)]),
    (10, Sample(476), 0, 237, &[W(550), I(88.5)]),
    (11, Put(50), 6, 237, &[Unchanged]),
];

#[test]
fn every_row_is_answered_as_logged() {
    answered_as_logged(example::fresh());
}

/// "with sets 4 to 15 equal to set 0": each may stand in its place.
#[test]
fn every_row_is_answered_as_logged_from_each_set_that_is_equal_to_set_0() {
    for set in 4..16 {
        answered_as_logged(Loop { set, ..example::fresh() });
    }
}

fn answered_as_logged(mut record: Loop) {
    let mut last = 0;
    for (number, command, code, output, after) in LOG {
        let before = record;
        if code == 0 {
            last = number;
        }
        let answer = deliver(&mut record, number, command);
        assert_eq!(answer, Answer { code, output, last }, "number {number} {command:?}");
        for fact in after {
            let holds = match *fact {
                Y(amount) => record.primed && record.y == fine(amount),
                I(amount) => !record.pending && record.integral == fine(amount),
                W(w) => record.w == w,
                Pending => record.pending,
                Unchanged => record == before,
            };
            assert!(holds, "number {number} {command:?} leaves {record:?}");
        }
    }
}

/// Whether a row is kept: "0 done", but for the second row of number 4, which is its repeat.
fn is_kept(row: &(u32, Command, i32, i32, &[After])) -> bool {
    row.2 == 0 && !row.4.iter().any(|fact| matches!(fact, Unchanged))
}

#[test]
fn the_log_ends_in_this_record() {
    let mut record = example::fresh();
    for (number, command, ..) in LOG {
        deliver(&mut record, number, command);
    }
    let mut window = [0; 128];
    window[..7].copy_from_slice(&[476, 476, 476, 478, 480, 480, 480]);
    let end = Loop {
        settings: example::settings(),
        mode: Mode::Automatic,
        pending: false,
        set: 1,
        w: 550,
        target: 800,
        rate: 50,
        u: 237,
        integral: fine(88.5),
        primed: true,
        y: fine(476.25),
        window,
        seen: 7,
        last_raw: 476,
        last: 10,
        memory: LOG.into_iter().filter(is_kept).map(|row| (row.1, row.3)).collect(),
    };
    assert_eq!(record, end);
}

/// "At the upper limit, ordinary sample 400, w = target = 500, y = 400".
fn at_the_upper_limit(set: i32, integral: i64) -> Loop {
    Loop { mode: Mode::Automatic, set, integral, primed: true, y: fine(400.0), ..example::fresh() }
}

#[test]
fn the_cases_at_the_upper_limit() {
    let cases = [
        (0, fine(900.0), fine(900.0)),
        (0, fine(890.0), fine(900.0)),
        (0, fine(950.0), fine(950.0)),
        (2, fine(900.0), fine(912.5)),
        (4, fine(890.0), fine(900.0)),
        (15, fine(890.0), fine(900.0)),
    ];
    for (set, integral, expected) in cases {
        let mut record = at_the_upper_limit(set, integral);
        assert_eq!(obey(&mut record, Sample(400)), Ok(()));
        assert_eq!((record.u, record.integral), (1_000, expected), "set {set}, I {integral}");
        assert_eq!((record.w, record.y), (500, fine(400.0)));
    }
}

/// The same cases upside down: e is -100, P is -100, and with lo = 0 the mirrored amounts are
/// I = 100, 110, 50 and 100 where the upper ones have 900, 890, 950 and 900.
#[test]
fn the_same_cases_at_the_lower_limit() {
    let cases = [
        (0, fine(100.0), fine(100.0)),
        (0, fine(110.0), fine(100.0)),
        (0, fine(50.0), fine(50.0)),
        (2, fine(100.0), fine(87.5)),
    ];
    for (set, integral, expected) in cases {
        let mut record = Loop { y: fine(600.0), ..at_the_upper_limit(set, integral) };
        assert_eq!(obey(&mut record, Sample(600)), Ok(()));
        assert_eq!((record.u, record.integral), (0, expected), "set {set}, I {integral}");
    }
}

/// A cooler at 600 needs what a heater at 400 needs: s × (w - pv) is 100 for both.
#[test]
fn a_cooler_mirrors_the_temperatures() {
    for (integral, expected) in [(900.0, 900.0), (890.0, 900.0), (950.0, 950.0)] {
        let mut record = at_the_upper_limit(0, fine(integral));
        record.settings.action = 1;
        record.y = fine(600.0);
        assert_eq!(obey(&mut record, Sample(600)), Ok(()));
        assert_eq!((record.u, record.integral), (1_000, fine(expected)));
    }
}

#[test]
fn pv_1_000_000_is_taken_and_1_000_001_refused_4() {
    for (pv, code) in [
        (1_000_000, 0),
        (1_000_001, 4),
        (-1_000_000, 0),
        (-1_000_001, 4),
        (i32::MAX, 4),
        (i32::MIN, 4),
    ] {
        let mut record = example::fresh();
        let answer = deliver(&mut record, 1, Sample(pv));
        assert_eq!(answer.code, code, "pv {pv}");
        assert_eq!(answer.last, u32::from(code == 0), "pv {pv}");
    }
}

#[test]
fn number_4_294_967_295_is_taken_after_4_294_967_294() {
    let mut record = example::at_number(4_294_967_294, Command::Hold);
    let answer = deliver(&mut record, 4_294_967_295, Sample(480));
    assert_eq!(answer, Answer { code: 0, output: 100, last: 4_294_967_295 });
    assert_eq!(record.y, fine(480.0));
}
