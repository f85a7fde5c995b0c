//! 01, "Replay": many samples under consecutive numbers.

use crate::law::{Command, Loop};
use crate::refusal::Refusal;

/// What a replay answers beside the record and the list.
#[derive(Debug, Clone, Copy, PartialEq, Eq)]
pub struct Replayed {
    /// 0, or 01's code of the refusal.
    pub code: i32,
    /// "the place of the first bad sample. Places are counted from 0; for every code but 4 the
    /// place is 0." Request 8: 19 is reported "with its code and place", too.
    pub place: usize,
    /// How many samples were kept: all of them, or none on a refusal.
    pub count: usize,
}

/// "On success the record and outputs are those of delivering the n samples in order; the first n
/// places hold the outputs, every later place keeps its number, and the count is n."
///
/// "On a refusal neither record nor list changes, and the count is 0."
///
/// Request 6: "Replayed samples enter the window too; a replay sent again is still refused 1."
pub fn replay(record: &mut Loop, first: u32, samples: &[i32], outputs: &mut [i32]) -> Replayed {
    if let Err((refusal, place)) = judge(record, first, samples, outputs.len()) {
        return Replayed { code: refusal.code(), place, count: 0 };
    }
    for (&raw, output) in samples.iter().zip(outputs) {
        record.keep(Command::Sample(raw));
        *output = record.u;
    }
    Replayed { code: 0, place: 0, count: samples.len() }
}

/// "Order: 10; first number 0 or at most last: 1; above last + 1: 3; 12; 13; then 4", and with it 19,
/// each with its place.
fn judge(
    record: &Loop,
    first: u32,
    samples: &[i32],
    places: usize,
) -> Result<(), (Refusal, usize)> {
    record.check().map_err(|broken| (broken, 0))?;
    if first == 0 || first <= record.last {
        return Err((Refusal::OldNumber, 0));
    }
    if first - record.last > 1 {
        return Err((Refusal::NumberAhead, 0));
    }
    if places < samples.len() {
        return Err((Refusal::OutputsShort, 0));
    }
    let numbers_left = u32::MAX - record.last;
    if samples.len() as u64 > u64::from(numbers_left) {
        return Err((Refusal::NumbersUsedUp, 0));
    }
    judge_samples(record, samples)
}

/// "In a replay the test uses the sample before, and the earliest bad sample is reported with its code
/// and place."
fn judge_samples(record: &Loop, samples: &[i32]) -> Result<(), (Refusal, usize)> {
    let mut before = record.kept_before();
    for (place, &raw) in samples.iter().enumerate() {
        record.reading(before, raw).map_err(|refusal| (refusal, place))?;
        before = Some(raw);
    }
    Ok(())
}
