//! 01, "The law, one command at a time", with the halves of request 3, the window of request 7 and the
//! last raw temperature of request 8.

use host::by_hand::{amounts, nearest, Amounts, Halves};
use host::example;
use host::gen;
use host::law::{obey, Command, Loop, Mode};
use host::memory::Memory;
use host::refusal::Refusal;
use host::rng::for_each_seed;
use host::settings::{GainSet, Settings};
use Command::{Automatic, Hold, Put, Sample, Set};

/// A loop from C in automatic, past its transfer sample at 480: u = 100, I = 80.
fn running() -> Loop {
    let mut record = example::fresh();
    for command in [Automatic, Sample(480)] {
        assert_eq!(obey(&mut record, command), Ok(()));
    }
    record
}

/// The record after a command that has to be accepted.
fn after(mut record: Loop, command: Command) -> Loop {
    assert_eq!(obey(&mut record, command), Ok(()), "{command:?}");
    record
}

#[test]
fn a_fresh_loop_is_as_01_lists_it() {
    let settings = Settings { out: 123, sp: 456, rate: 78, ..example::settings() };
    let fresh = Loop {
        settings,
        mode: Mode::Manual,
        pending: false,
        set: 0,
        w: 456,
        target: 456,
        rate: 78,
        u: 123,
        integral: 0,
        primed: false,
        y: 0,
        window: [0; 128],
        seen: 0,
        last_raw: 0,
        last: 0,
        memory: Memory::BLANK,
    };
    assert_eq!(Loop::make(&settings), (0, fresh));
}

#[test]
fn hold_goes_to_manual_and_ends_pending() {
    let pending = after(running(), Set(1));
    assert!(pending.pending);
    let held = after(pending, Hold);
    assert_eq!(held, Loop { mode: Mode::Manual, pending: false, ..pending });
    assert_eq!(after(held, Hold), held);
}

#[test]
fn put_moves_the_output_in_manual_only() {
    let manual = example::fresh();
    for x in [0, 1, 999, 1_000] {
        assert_eq!(after(manual, Put(x)), Loop { u: x, ..manual });
    }
    for x in [-1, 1_001, i32::MIN, i32::MAX] {
        assert_eq!(obey(&mut manual.clone(), Put(x)), Err(Refusal::PutOutside));
        assert_eq!(obey(&mut running(), Put(x)), Err(Refusal::PutWhileAutomatic));
    }
}

#[test]
fn automatic_makes_a_manual_loop_pending_and_no_other() {
    let manual = example::fresh();
    let started = after(manual, Automatic);
    assert_eq!(started, Loop { mode: Mode::Automatic, pending: true, ..manual });
    assert_eq!(after(started, Automatic), started, "pending stays");
    assert_eq!(after(running(), Automatic), running(), "no effect");
}

#[test]
fn a_target_is_taken_and_w_waits_for_the_next_sample() {
    let record = running();
    let aimed = after(record, Command::Target { target: -800, rate: 7 });
    assert_eq!(aimed, Loop { target: -800, rate: 7, ..record });
    assert_eq!(after(aimed, Sample(480)).w, 493);
}

#[test]
fn target_and_rate_are_taken_at_their_ends_and_not_past_them() {
    let try_target = |target, rate| obey(&mut running(), Command::Target { target, rate });
    for (target, rate) in [(1_000_000, 1), (-1_000_000, 2_000_000)] {
        assert_eq!(try_target(target, rate), Ok(()));
    }
    for target in [1_000_001, -1_000_001, i32::MAX, i32::MIN] {
        assert_eq!(try_target(target, 1), Err(Refusal::Target));
    }
    for rate in [0, -1, 2_000_001, i32::MAX, i32::MIN] {
        assert_eq!(try_target(0, rate), Err(Refusal::Rate));
    }
}

#[test]
fn a_set_comes_into_force_and_only_another_makes_an_automatic_loop_pending() {
    let record = running();
    assert_eq!(after(record, Set(0)), record, "the set in force: no effect");
    assert_eq!(after(record, Set(3)), Loop { set: 3, pending: true, ..record });
    let manual = example::fresh();
    assert_eq!(after(manual, Set(2)), Loop { set: 2, ..manual });
    let pending = after(record, Set(3));
    assert_eq!(after(pending, Set(3)), pending, "pending stays");
    assert_eq!(after(record, Set(15)), Loop { set: 15, pending: true, ..record });
    for k in [-1, 16, i32::MIN, i32::MAX] {
        assert_eq!(obey(&mut running(), Set(k)), Err(Refusal::NoSuchSet));
    }
}

/// Each of the sixteen sets has gains of its own. With kp = k alone, the transfer sample at e = 20
/// leaves I = 100 - 20 k, and the next one at e = 21 gives 100 + k.
#[test]
fn the_gains_are_those_of_the_set_in_force() {
    let mut record = running();
    for (k, set) in (0..).zip(&mut record.settings.sets) {
        *set = GainSet { kp: k * 65_536, ki: 0, kd: 0, alpha: 65_536, kt: 0 };
    }
    for k in 0..16 {
        let started = Loop { pending: true, ..after(record, Set(k)) };
        let transferred = after(started, Sample(480));
        let integral = (100 - 20 * i64::from(k)) * Loop::F;
        assert_eq!((transferred.u, transferred.integral), (100, integral), "set {k}");
        assert_eq!(after(transferred, Sample(479)).u, 100 + k, "set {k}");
    }
}

#[test]
fn a_manual_sample_moves_setpoint_filter_window_and_last_raw_only() {
    let aimed = after(example::fresh(), Command::Target { target: 400, rate: 30 });
    let sampled = after(aimed, Sample(480));
    let mut window = [0; 128];
    window[0] = 480;
    let y = 480 * Loop::F;
    let moved = Loop { w: 470, primed: true, y, window, seen: 1, last_raw: 480, ..aimed };
    assert_eq!(sampled, moved);
}

/// "Adding the integral share on a transfer sample: the output jumps by ki × e."
#[test]
fn a_transfer_sample_takes_no_share() {
    assert_eq!((running().u, running().integral), (100, 80 * Loop::F));
}

/// "Letting the derivative act on e, so that a ramp kicks the heater."
#[test]
fn the_derivative_acts_on_the_measurement() {
    let mut record = after(after(running(), Set(1)), Sample(480));
    record = after(record, Command::Target { target: 800, rate: 50 });
    let settled = record.integral;
    record = after(record, Sample(480));
    // e = 550 - 480 = 70: P = 140, g = 17.5, and D = 0 although e moved by 50.
    assert_eq!(record.integral, settled + 35 * Loop::F / 2);
    // The transfer sample with e = 20 and P = 40 left I = 60, so v = 60 + 157.5.
    assert_eq!((settled, record.u), (60 * Loop::F, 218));
}

/// A falling temperature pushes a heater up: y goes from 480 to 470 by half, so D = 10 / 2 × 1.
#[test]
fn the_derivative_has_the_sign_of_the_action() {
    for (action, d) in [(0, 5), (1, -5)] {
        let mut record = running();
        record.settings.action = action;
        record.set = 1;
        record.settings.sets[1].kp = 0;
        record.settings.sets[1].ki = 0;
        let moved = after(record, Sample(470));
        assert_eq!(moved.u, 80 + d, "action {action}");
        assert_eq!(moved.y, 475 * Loop::F);
    }
}

/// Half of the way from y to 0 in fine units: -0.5 rounds to -1, 0.5 to 1, -1.5 to -2, 1.5 to 2.
#[test]
fn the_filter_rounds_halves_away_from_zero() {
    for (y, next) in [(1, 0), (-1, 0), (3, 1), (-3, -1)] {
        let mut record = running();
        record.settings.sets[0].alpha = 32_768;
        record.y = y;
        assert_eq!(after(record, Sample(0)).y, next, "from {y}");
    }
}

/// With alpha = 1 fine, y moves from 0 by pv fine units; with kd = 1/2, D is half of it turned
/// round: -0.5 rounds to -1, 0.5 to 1, -1.5 to -2, 1.5 to 2. A cooler turns it round again.
#[test]
fn the_derivative_rounds_halves_away_from_zero() {
    let gains = GainSet { kp: 0, ki: 0, kd: 32_768, alpha: 1, kt: 0 };
    for (pv, d) in [(1, -1), (-1, 1), (3, -2), (-3, 2)] {
        for (action, s) in [(0, 1), (1, -1)] {
            let mut record = running();
            record.settings.action = action;
            record.settings.sets[0] = gains;
            record.y = 0;
            record.pending = true;
            let moved = after(record, Sample(pv));
            assert_eq!(moved.y, i64::from(pv));
            assert_eq!(moved.integral, 100 * Loop::F - s * d, "pv {pv}, action {action}");
        }
    }
}

/// The largest amounts of 01: the integral of a transfer sample is B itself.
#[test]
fn a_transfer_sample_reaches_the_bound_exactly() {
    let gains = GainSet { kp: 4_194_304, ki: 4_194_304, kd: 4_194_304, alpha: 65_536, kt: 65_536 };
    let settings = Settings {
        action: 0,
        lo: -1_000_000,
        hi: 1_000_000,
        out: 1_000_000,
        sp: -1_000_000,
        rate: 1,
        mean: 1,
        jump: 2_000_000,
        sets: [gains; 16],
    };
    let (code, fresh) = Loop::make(&settings);
    assert_eq!(code, 0);
    let record = after(after(after(fresh, Sample(-1_000_000)), Automatic), Sample(1_000_000));
    assert_eq!((record.u, record.integral), (1_000_000, Loop::B));
    assert_eq!(record.check(), Ok(()));
    // Next D = 0, P = g = -8,388,608,000,000, so v = 65,536,000,000 is within limits; kt adds 0.
    let next = after(record, Sample(1_000_000));
    assert_eq!((next.u, next.integral), (1_000_000, 8_454_144_000_000));
}

/// v far past the limits both ways, at the largest products that 01 names.
#[test]
fn back_calculation_is_limited_to_the_bound() {
    let gains = GainSet { kp: 4_194_304, ki: 4_194_304, kd: 4_194_304, alpha: 65_536, kt: 1 };
    for sign in [1, -1] {
        let mut record = running();
        record.settings.lo = -1_000_000;
        record.settings.hi = 1_000_000;
        record.settings.sets[0] = gains;
        record.w = sign as i32 * 1_000_000;
        record.target = record.w;
        record.integral = sign * Loop::B;
        record.y = sign * Loop::Y;
        let moved = after(record, Sample(-record.w));
        assert_eq!(moved.u, record.w);
        assert_eq!(moved.integral, sign * Loop::B);
        // With kt = F the whole excess U - v is taken back: I + g + U - v = U - P - D.
        record.settings.sets[0].kt = 65_536;
        let moved = after(record, Sample(-record.w));
        assert_eq!(moved.integral, sign * (65_536_000_000 - 16_777_216_000_000));
    }
}

/// Back-calculation rounds kt × (U - v) / F: with e = 0, v is I, which lies 1 or 3 fine units past
/// a limit, and kt is one half. At the upper limit -0.5 rounds to -1 and -1.5 to -2, at the lower
/// one 0.5 to 1 and 1.5 to 2.
#[test]
fn back_calculation_rounds_halves_away_from_zero() {
    let hi = 1_000 * Loop::F;
    for (integral, share) in [(hi + 1, -1), (hi + 3, -2), (-1, 1), (-3, 2)] {
        let mut record = running();
        record.set = 2;
        record.integral = integral;
        assert_eq!(after(record, Sample(500)).integral, integral + share, "I = {integral}");
    }
}

/// "0: clamping; else back-calculation": the least kt takes back one fine unit for each unit past
/// the limit. P = 100, g = 25, so v is 75 past it.
#[test]
fn the_least_kt_is_back_calculation() {
    let mut record = running();
    record.settings.sets[0].kt = 1;
    record.integral = 950 * Loop::F;
    let moved = after(record, Sample(400));
    assert_eq!((moved.u, moved.integral), (1_000, 975 * Loop::F - 75));
}

#[test]
fn a_share_of_zero_leaves_a_clamped_integral() {
    for integral in [-500, 100, 5_000] {
        let mut record = running();
        record.integral = integral * Loop::F;
        let moved = after(record, Sample(500));
        assert_eq!(moved.integral, integral * Loop::F);
        assert_eq!(i64::from(moved.u), integral.clamp(0, 1_000));
    }
}

#[test]
fn the_output_is_rounded_and_not_cut() {
    for (integral, u) in [(32_767, 0), (32_768, 1), (98_303, 1), (98_304, 2)] {
        let mut record = running();
        record.integral = integral;
        assert_eq!(after(record, Sample(500)).u, u, "fine {integral}");
    }
    for (integral, u) in [(-32_767, 0), (-32_768, -1), (-98_303, -1), (-98_304, -2)] {
        let mut record = running();
        record.settings.lo = -1_000;
        record.integral = integral;
        assert_eq!(after(record, Sample(500)).u, u, "fine {integral}");
    }
}

/// "Hold, leaving manual and a change of gain set move the output by nothing, nor does the first
/// sample after each."
#[test]
fn hold_automatic_and_set_move_the_output_by_nothing() {
    for_each_seed(3_000, |rng| {
        let mut record = gen::record(rng);
        let other = (record.set + 1 + rng.below(15) as i32) % 16;
        let command = match record.mode {
            Mode::Manual => rng.pick(&[Hold, Automatic]),
            Mode::Automatic => rng.pick(&[Hold, Set(other)]),
        };
        let u = record.u;
        record = after(record, command);
        assert_eq!(record.u, u, "{command:?}");
        let pv = gen::good_temperature(rng, &record);
        record = after(record, Sample(pv));
        assert_eq!(record.u, u, "the first sample after {command:?}");
        assert!(!record.pending);
    });
}

/// "Where no new target comes between, w is at the target after exactly ceiling(distance / rate)
/// samples and not before."
#[test]
fn the_setpoint_arrives_after_exactly_the_ceiling_of_distance_over_rate() {
    for_each_seed(1_000, |rng| {
        let mut record = gen::record(rng);
        let distance = rng.between(0, 3_000) as i32;
        let away = if record.w > 0 { -distance } else { distance };
        let rate = 1 + rng.below(400) as i32;
        let target = record.w + away;
        record = after(record, Command::Target { target, rate });
        for _ in 0..(distance + rate - 1) / rate {
            assert_ne!(record.w, target, "not before");
            record = after(record, Sample(gen::good_temperature(rng, &record)));
        }
        assert_eq!(record.w, target);
        let pv = gen::good_temperature(rng, &record);
        assert_eq!(after(record, Sample(pv)).w, target, "and there it stays");
    });
}

/// The share of the integral in a sample past a limit. Clamping leaves of g what brings v to the
/// limit, so far as g itself drove v past it; back-calculation has a share of kt.
fn share_past_a_limit(sample: &Amounts) -> i64 {
    let excess = sample.v - sample.limited;
    let g = sample.g;
    if sample.share != 0 {
        g + nearest(sample.share)
    } else if g.signum() == excess.signum() {
        g.signum() * (g.abs() - excess.abs()).max(0)
    } else {
        g
    }
}

/// "Over an unbroken run of kept ordinary automatic samples within limits, the integral moves by
/// exactly the sum of gain times error, one share for each sample." Past a limit it moves as
/// clamping or back-calculation says.
#[test]
fn the_integral_moves_by_the_shares() {
    let (mut within, mut past, mut halves) = (0, [0; 2], Halves::default());
    for_each_seed(300, |rng| {
        let mut record = Loop::make(&gen::settings(rng)).1;
        for _ in 0..200 {
            let before = record;
            let command = gen::command(rng, &record);
            let kept = obey(&mut record, command).is_ok();
            let automatic = before.mode == Mode::Automatic && !before.pending;
            if let (Sample(pv), true, true) = (command, kept, automatic) {
                let sample = amounts(&before, pv);
                halves.add(&before, command);
                assert!(!before.primed || record.y == before.y + nearest(sample.filter));
                assert_eq!(i64::from(record.u), nearest(sample.limited));
                if sample.v == sample.limited {
                    within += 1;
                    assert_eq!(record.integral, before.integral + sample.g);
                } else {
                    past[usize::from(sample.share != 0)] += 1;
                    let moved = before.integral + share_past_a_limit(&sample);
                    assert_eq!(record.integral, moved.clamp(-Loop::B, Loop::B));
                }
            }
        }
    });
    assert!(within > 3_000, "{within} within limits");
    assert!(past[0] > 3_000 && past[1] > 3_000, "clamped, back-calculated {past:?}");
    assert!(halves.fewest() > 0, "{halves:?}");
}
