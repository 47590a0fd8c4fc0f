//! C-14's sentences about bytes that planning reads with trial bays closed, and judging, drawing, the pen and laying with trial bays open.

use crate::orders::{is_trial_bay, number, read, Refusal, TrialBays, RECORD};

/// The index of the first D record that names a trial bay, whatever else is wrong with it.
pub fn first_record(order: &[u8]) -> Option<usize> {
    order.chunks_exact(RECORD).position(|r| r[0] == b'D' && is_trial_bay(number(r, 2, 2)))
}

/// What planning reads, names no trial bay and judging reads alike; what either refuses, the other refuses alike. But where planning gives
/// 15 it is of the first trial bay, and judging does not find the fault of an earlier record, or of that one. The answer is whether it did.
pub fn sentence(order: &[u8]) -> Result<bool, String> {
    let (new, old) = (read(order, TrialBays::Closed), read(order, TrialBays::Open));
    let first = first_record(order);
    let kept = match (&new, &old) {
        (Err(Refusal { number: 15, place }), Err(r)) => first == Some(*place) && (r.number > 5 || r.number > 2 && r.place > *place),
        (Err(Refusal { number: 15, place }), Ok(_)) => first == Some(*place),
        (new, old) => new == old && (new.is_err() || first.is_none()),
    };
    if !kept || old.as_ref().is_err_and(|r| r.number == 15) {
        return Err(format!("planning reads {new:?}, judging {old:?}, the first trial bay in record {first:?}"));
    }
    Ok(new != old)
}
