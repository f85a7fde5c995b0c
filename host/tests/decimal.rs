//! The decimal forms of the settings text and of a journal.

use host::decimal::{setting, signed, unsigned};
use host::rng::for_each_seed;

/// What no decimal form allows.
const NEVER: [&[u8]; 24] = [
    b"",
    b"-",
    b"--1",
    b"-0",
    b"00",
    b"01",
    b"-01",
    b"-00",
    b"+1",
    b" 1",
    b"1 ",
    b"1-",
    b"1.0",
    b"1e3",
    b"0x1",
    b"1,000",
    b"1_000",
    b"\t1",
    b"1\r",
    b"1\n",
    b"1\0",
    b"\xb1",
    b"\xd9\xa1",
    b"one",
];

#[test]
fn malformed_decimals_are_none() {
    for bytes in NEVER {
        let shown = bytes.escape_ascii();
        assert_eq!(setting(bytes), None, "{shown}");
        assert_eq!(signed(bytes), None, "{shown}");
        assert_eq!(unsigned(bytes), None, "{shown}");
    }
}

#[test]
fn a_setting_has_one_to_seven_digits() {
    assert_eq!(setting(b"0"), Some(0));
    assert_eq!(setting(b"-1"), Some(-1));
    assert_eq!(setting(b"9999999"), Some(9_999_999));
    assert_eq!(setting(b"-9999999"), Some(-9_999_999));
    assert_eq!(setting(b"10000000"), None);
    assert_eq!(setting(b"-10000000"), None);
    assert_eq!(setting(b"00000001"), None);
}

#[test]
fn a_journal_number_keeps_within_its_32_bits() {
    assert_eq!(signed(b"2147483647"), Some(i32::MAX));
    assert_eq!(signed(b"2147483648"), None);
    assert_eq!(signed(b"-2147483648"), Some(i32::MIN));
    assert_eq!(signed(b"-2147483649"), None);
    assert_eq!(signed(b"9999999999"), None);
    assert_eq!(unsigned(b"4294967295"), Some(u32::MAX));
    assert_eq!(unsigned(b"4294967296"), None);
    assert_eq!(unsigned(b"9999999999"), None);
    assert_eq!(unsigned(b"-1"), None);
    assert_eq!(unsigned(b"0"), Some(0));
    // These would wrap into range, were digits only counted by their bits.
    assert_eq!(unsigned(b"18446744073709551617"), None);
    assert_eq!(signed(b"18446744073709551617"), None);
}

#[test]
fn more_digits_than_any_number_has_are_none() {
    for length in (11..=30).chain([100_000]) {
        for digit in ["0", "1", "9"] {
            let word = digit.repeat(length);
            assert_eq!(setting(word.as_bytes()), None, "{length} times {digit}");
            assert_eq!(signed(word.as_bytes()), None, "{length} times {digit}");
            assert_eq!(unsigned(word.as_bytes()), None, "{length} times {digit}");
            assert_eq!(signed(format!("-{word}").as_bytes()), None, "minus {length} times {digit}");
        }
    }
}

#[test]
fn every_number_is_read_as_it_is_printed() {
    for_each_seed(20_000, |rng| {
        let number = (rng.bits() >> rng.below(64)) as i32;
        let printed = number.to_string();
        assert_eq!(signed(printed.as_bytes()), Some(number));
        let in_seven = (-9_999_999..=9_999_999).contains(&number);
        assert_eq!(setting(printed.as_bytes()), Some(number).filter(|_| in_seven));
        let number = number as u32;
        assert_eq!(unsigned(number.to_string().as_bytes()), Some(number));
    });
}

/// What is read is printed as the same bytes, whatever stood there.
#[test]
fn nothing_else_is_read() {
    let mut read = 0;
    for_each_seed(50_000, |rng| {
        let length = rng.below(12);
        let bytes: Vec<u8> = (0..length).map(|_| rng.pick(b"0123456789001234567890-+ x")).collect();
        if let Some(number) = signed(&bytes) {
            read += 1;
            assert_eq!(number.to_string().into_bytes(), bytes);
        }
        if let Some(number) = unsigned(&bytes) {
            assert_eq!(number.to_string().into_bytes(), bytes);
        }
        if let Some(number) = setting(&bytes) {
            assert_eq!(number.to_string().into_bytes(), bytes);
        }
    });
    assert!(read > 5_000, "{read} read");
}
