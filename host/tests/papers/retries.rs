//! What request 6 says of late repeats, as `journal` writes it for settings C.

/// A list whose outputs move on, and then every kind of late delivery. The transfer sample leaves I = 180;
/// then
///
/// | number | sample | e | P + I + g | u |
/// |---|---|---|---|---|
/// | 5 | 480 | 20 | 20 + 180 + 5 | 205 |
/// | 6 | 478 | 22 | 22 + 185 + 5.5 | 213 |
/// | 10 | 476 | 24 | 24 + 190.5 + 6 | 221 |
/// | 11 | 476 | 24 | 24 + 196.5 + 6 | 227 |
///
/// Numbers 2, 7 and 8 are of no effect, and kept. Under number 6 two commands are refused before another
/// takes it: when they come late, they are 2. "No content is tested there": a put is served while
/// automatic, and a set that does not exist is 2.
pub const JOURNAL_WITH_LATE_REPEATS: &str = "\
number=1 command=put value=200 second=0 code=0 output=200 last=1
number=2 command=hold value=0 second=0 code=0 output=200 last=2
number=3 command=automatic value=0 second=0 code=0 output=200 last=3
number=4 command=sample value=480 second=0 code=0 output=200 last=4
number=5 command=sample value=480 second=0 code=0 output=205 last=5
number=6 command=sample value=1000001 second=0 code=4 output=205 last=5
number=6 command=put value=50 second=0 code=6 output=205 last=5
number=6 command=sample value=478 second=0 code=0 output=213 last=6
number=7 command=automatic value=0 second=0 code=0 output=213 last=7
number=8 command=set value=0 second=0 code=0 output=213 last=8
number=9 command=target value=500 second=50 code=0 output=213 last=9
number=10 command=sample value=476 second=0 code=0 output=221 last=10
number=5 command=sample value=480 second=0 code=0 output=205 last=5
number=4 command=sample value=480 second=0 code=0 output=200 last=4
number=1 command=put value=200 second=0 code=0 output=200 last=1
number=2 command=hold value=0 second=0 code=0 output=200 last=2
number=3 command=automatic value=0 second=0 code=0 output=200 last=3
number=7 command=automatic value=0 second=0 code=0 output=213 last=7
number=8 command=set value=0 second=0 code=0 output=213 last=8
number=9 command=target value=500 second=50 code=0 output=213 last=9
number=10 command=sample value=476 second=0 code=0 output=221 last=10
number=6 command=sample value=478 second=0 code=0 output=213 last=6
number=6 command=sample value=1000001 second=0 code=2 output=221 last=10
number=6 command=put value=50 second=0 code=2 output=221 last=10
number=9 command=target value=500 second=51 code=2 output=221 last=10
number=9 command=target value=501 second=50 code=2 output=221 last=10
number=9 command=target value=50 second=500 code=2 output=221 last=10
number=2 command=automatic value=0 second=0 code=2 output=221 last=10
number=1 command=put value=201 second=0 code=2 output=221 last=10
number=1 command=sample value=200 second=0 code=2 output=221 last=10
number=8 command=set value=1 second=0 code=2 output=221 last=10
number=8 command=set value=16 second=0 code=2 output=221 last=10
number=5 command=sample value=-2147483648 second=0 code=2 output=221 last=10
number=0 command=put value=200 second=0 code=1 output=221 last=10
number=12 command=sample value=476 second=0 code=3 output=221 last=10
number=11 command=sample value=476 second=0 code=0 output=227 last=11
number=10 command=sample value=476 second=0 code=0 output=221 last=10
number=12 command=hold value=0 second=0 code=0 output=227 last=12
number=13 command=put value=0 second=0 code=0 output=0 last=13
number=11 command=sample value=476 second=0 code=0 output=227 last=11
number=5 command=sample value=480 second=0 code=0 output=205 last=5
number=13 command=put value=0 second=0 code=0 output=0 last=13
number=12 command=put value=0 second=0 code=2 output=0 last=13
number=12 command=hold value=0 second=0 code=0 output=227 last=12
";

/// Puts, each of its own number, so that an output says which of them it belongs to. After the put of
/// last number L come all numbers from L down to 0 or 40 back: L - 31 to L "are in the window", L - 32 is
/// the first that is older, and number 0 is none's.
pub fn journal_of_the_window() -> String {
    let mut journal = String::new();
    for last in 1..=80 {
        journal += &put(last, last, 0, last, last);
        for number in (i32::max(last - 40, 0)..=last).rev() {
            let in_window = number >= 1 && number >= last - 31;
            journal += &if in_window {
                put(number, number, 0, number, number) + &put(number, number + 1, 2, last, last)
            } else {
                put(number, number, 1, last, last) + &put(number, number + 1, 1, last, last)
            };
        }
    }
    journal
}

/// The line of a put.
fn put(number: i32, x: i32, code: i32, output: i32, last: i32) -> String {
    format!(
        "number={number} command=put value={x} second=0 code={code} output={output} last={last}\n"
    )
}

/// The 32 kept last, oldest first, and 2 to 33 in that order after every repeat and every refusal: neither
/// moves the window. Number 1 is older than that whatever comes. Then one more is kept, and number 2 is
/// older, too.
pub fn journal_of_a_window_that_stays() -> String {
    let mut journal: String =
        (1..=33).map(|number| put(number, number, 0, number, number)).collect();
    for _ in 0..3 {
        journal += &put(1, 1, 1, 33, 33);
        for number in 2..=33 {
            journal += &put(number, number, 0, number, number);
            journal += &put(34, -1, 5, 33, 33);
            journal += &put(35, 35, 3, 33, 33);
            journal += &put(number, 0, 2, 33, 33);
        }
    }
    journal += &put(34, 34, 0, 34, 34);
    journal += &put(2, 2, 1, 34, 34);
    journal += &put(3, 3, 0, 3, 3);
    journal
}
