//! The sentences of C-11 that hold of every log, held against what came back.

use crate::answers::House;
use crate::layout::Slot;
use crate::library::Laid;
use crate::log::{Read, Reading, PER_GRAM};
use std::mem::discriminant;

/// Whether the stretch between two records is known, by their forms alone.
fn known(ends: &[Read]) -> bool {
    discriminant(&ends[0].1) == discriminant(&ends[1].1) && ends[0].1 != Reading::Missing
}

/// Known and unknown seconds add up to the log's; the line rises by no more than the dose, and where all is known by what lies between the
/// first point and the last.
pub fn sentences(house: &House, slots: &[Slot], dose: usize, log: &[Read], laid: &Laid) -> Result<(), String> {
    let drawn = |read: &Read| u64::from(house.point(slots, dose, read.0).amount);
    let say = |what: &str| Err(format!("{what}: dose {dose}, {} records, {laid:?}", log.len()));
    let [first, .., last] = log else {
        return if *laid == Laid::default() { Ok(()) } else { say("figures without a stretch") };
    };
    let seconds: u32 = log.windows(2).filter(|ends| known(ends)).map(|ends| ends[1].0 - ends[0].0).sum();
    if seconds + laid.unknown != last.0 - first.0 {
        return say("seconds lost or counted twice");
    }
    if laid.risen > u64::from(PER_GRAM) * u64::from(house.order.doses[dose].grams) {
        return say("rises by more than the dose");
    }
    if laid.unknown == 0 && laid.risen != u64::from(PER_GRAM) * (drawn(last) - drawn(first)) {
        return say("all known, and another rise than between the first point and the last");
    }
    Ok(())
}

/// A log cut in two at a record, which is in both pieces, adds up.
pub fn adds_up(whole: &Laid, pieces: [Laid; 2]) -> Result<(), String> {
    let sum = |field: fn(&Laid) -> u64| field(&pieces[0]) + field(&pieces[1]) == field(whole);
    if sum(|laid| laid.metered) && sum(|laid| laid.risen) && sum(|laid| u64::from(laid.unknown)) {
        Ok(())
    } else {
        Err(format!("a log cut in two does not add up: {pieces:?} and {whole:?}"))
    }
}
