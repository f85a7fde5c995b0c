//! 01, "Units": rounding, as request 3 has it, and the table of ranges, as requests 5, 7 and 8
//! have it.

// What else the papers say of the settings text is the matter of other tests.
#[allow(dead_code)]
mod papers;

use host::by_hand::{nearest, nearest_over};
use host::law::{round, round_over, Loop};
use host::rng::for_each_seed;
use host::settings::{places, Settings, LINES, ROWS, SETS, WINDOW};
use host::text::{SHORT_LINES, SHORT_SETS};

/// "fine -32,768 now gives -1, and -32,767 gives 0"; 01's other numbers stand.
#[test]
fn rounding_gives_the_numbers_of_request_3() {
    assert_eq!(Loop::F, 65_536);
    let examples =
        [(32_767, 0), (32_768, 1), (-32_767, 0), (-32_768, -1), (-32_769, -1), (98_304, 2)];
    for (fine, rounded) in examples {
        assert_eq!(round(fine), rounded, "fine {fine}");
        assert_eq!(nearest(fine), rounded, "fine {fine}, by hand");
    }
}

/// No whole number lies nearer, and of two that lie as near the one "away from zero" is taken.
#[test]
fn rounding_is_to_the_nearest_and_halves_go_away_from_zero_at_every_size() {
    let most = 2_800_000_000_000_000_000;
    let mut halves = 0;
    for_each_seed(20_000, |rng| {
        let size = rng.pick(&[70_000, 1 << 40, most]);
        let any = rng.between(-size, size);
        let near_a_half = (any & !0xffff) + rng.between(32_766, 32_770);
        let x = rng.pick(&[any, near_a_half]);
        for r in [round(x), nearest(x)] {
            let distance = (Loop::F * r - x).abs();
            assert!(2 * distance <= Loop::F, "{x} gives {r}");
            if 2 * distance == Loop::F {
                halves += 1;
                assert!((Loop::F * r).abs() > x.abs(), "{x} gives {r}");
            }
        }
        assert_eq!(round(-x), -round(x), "{x} and its opposite");
    });
    assert!(halves > 1_000, "{halves} halves");
}

/// The mean is "rounded as in request 3", over any number of temperatures.
#[test]
fn rounding_over_any_number_is_to_the_nearest_and_halves_go_away_from_zero() {
    let examples = [(961, 2, 481), (-961, 2, -481), (1_430, 3, 477), (-1_430, 3, -477)];
    for (sum, number, rounded) in examples {
        assert_eq!(round_over(sum, number), rounded, "{sum} over {number}");
    }
    let mut halves = 0;
    for number in 1..=128 {
        for sum in -400..=400 {
            let r = round_over(sum, number);
            assert_eq!(nearest_over(sum, number), r, "{sum} over {number}, by hand");
            let twice_the_distance = 2 * (number * r - sum).abs();
            assert!(twice_the_distance <= number, "{sum} over {number} gives {r}");
            if twice_the_distance == number {
                halves += 1;
                assert!((number * r).abs() > sum.abs(), "{sum} over {number} gives {r}");
            }
        }
    }
    assert!(halves > 1_000, "{halves} halves");
}

/// One row for each of 01's keys, one for the mean and one for the jump, and a place for each of the 88
/// lines.
#[test]
fn the_table_has_the_rows_of_the_papers_in_the_order_of_the_text() {
    let letters = ROWS.map(|row| row.letters);
    assert_eq!(letters.join(" "), "action lo hi out sp rate mean jump kp ki kd alpha kt");
    let keys: Vec<String> = places().map(|place| place.key()).collect();
    assert_eq!(keys, papers::keys());
    let spelled = "action lo hi out sp rate mean jump kp0 ki0 kd0 alpha0 kt0 kp1 ki1 kd1 alpha1 \
                   kt1 kp2 ki2 kd2 alpha2 kt2 kp3 ki3 kd3 alpha3 kt3 kp4 ki4 kd4 alpha4 kt4";
    assert_eq!(keys[..33].join(" "), spelled);
    assert_eq!(keys[58..63].join(" "), "kp10 ki10 kd10 alpha10 kt10");
    assert_eq!(keys[83..].join(" "), "kp15 ki15 kd15 alpha15 kt15");
    for (place, key) in places().zip(&keys) {
        assert_eq!((place.row.least, place.row.most), papers::range(key), "{key}");
    }
}

/// "Raise four to sixteen, so code 9 starts at 16 and the text has 86 lines"; with those of mean and
/// jump they are two more. "a window of 128 places"
#[test]
fn the_counts_are_those_of_requests_5_7_and_8() {
    assert_eq!((SETS, LINES, places().count()), (16, 88, 88));
    assert_eq!((SHORT_SETS, SHORT_LINES), (4, 28));
    assert_eq!(Loop::SETS, 0..=15);
    assert_eq!((WINDOW, Loop::blank().window.len()), (128, 128));
}

#[test]
fn the_bounds_of_the_state_rules_follow_from_the_ranges() {
    let most_output = 1_000_000 * Loop::F;
    let largest_share = 4_194_304 * 2_000_000;
    assert_eq!(largest_share, 8_388_608_000_000);
    assert_eq!(Loop::B, most_output + 2 * largest_share);
    assert_eq!(Loop::B, 16_842_752_000_000);
    assert_eq!(Loop::Y, 65_536_000_000);
}

#[test]
fn values_and_settings_are_two_views_of_the_same() {
    for_each_seed(200, |rng| {
        let values = [0; 88].map(|_: i32| rng.bits() as i32);
        let settings = Settings::from_values(&values);
        assert_eq!(settings.values(), values);
        let Settings { lo, rate, mean, jump, sets, .. } = settings;
        assert_eq!([lo, rate, mean, jump], [values[1], values[5], values[6], values[7]]);
        assert_eq!((sets[0].kp, sets[3].kt), (values[8], values[27]));
        assert_eq!((sets[2].ki, sets[1].alpha), (values[19], values[16]));
        assert_eq!((sets[4].kp, sets[10].kd), (values[28], values[60]));
        assert_eq!((sets[15].kp, sets[15].kt), (values[83], values[87]));
    });
}
