//! C-15's sheet: a stream cut into orders, each read on its own, and what they add up to.

use crate::answers::House;
use crate::layout::Slot;
use crate::library::{Judged, Season};
use crate::orders::RECORD;
use std::collections::BTreeMap;

/// "A stream of up to 65,536 bytes."
pub const LONGEST_STREAM: usize = 65_536;

/// W and P.
pub type Rate = (u64, u64);

/// The greatest first class "if there is none".
pub const NONE: Rate = (0, 1);

/// What an accepted order adds: its doses' grams, its fan-seconds, and W and P of its first class if it has a dose.
#[derive(Clone, Copy, Debug, PartialEq, Eq)]
pub struct Figures {
    pub grams: u64,
    pub seconds: u64,
    pub first: Option<Rate>,
}

/// The orders of a stream: each F record with those behind it, "up to the next F". Nothing for 16: "the stream is longer, is not whole
/// records, or is not empty and doesn't open with F".
pub fn orders(stream: &[u8]) -> Option<Vec<&[u8]>> {
    if stream.len() > LONGEST_STREAM || !stream.len().is_multiple_of(RECORD) {
        return None;
    }
    let mut starts: Vec<usize> = (0..stream.len()).step_by(RECORD).filter(|&at| stream[at] == b'F').collect();
    if starts.first().map_or(!stream.is_empty(), |&at| at != 0) {
        return None;
    }
    starts.push(stream.len());
    Some(starts.windows(2).map(|ends| &stream[ends[0]..ends[1]]).collect())
}

/// "Fan-seconds (from the slots)": the exact times of all slots, those of one W added up as a fraction of that denominator. Nothing if one of
/// these fractions is not whole.
pub fn fan_seconds(slots: &[Slot]) -> Option<u64> {
    let mut times: BTreeMap<u64, u64> = BTreeMap::new();
    for slot in slots {
        *times.entry(u64::from(slot.weight)).or_default() += slot.to() - slot.from();
    }
    times.into_iter().map(|(w, units)| if units.is_multiple_of(w) { Some(units / w) } else { None }).sum()
}

/// An accepted order. Its fan-seconds are those of a plan's slots, and must be "equal to the sum of P over classes".
pub fn figures(house: &House) -> Figures {
    let seconds = fan_seconds(&house.slots(None)).expect("the slots of a class take whole fan-seconds");
    assert_eq!(seconds, house.classes.iter().map(|c| c.time).sum(), "the slots take the sum of P");
    let first = house.classes.first().map(|c| (c.weight, c.time));
    Figures { grams: house.order.doses.iter().map(|d| u64::from(d.grams)).sum(), seconds, first }
}

/// Whether the first rate is above the second, by exact products.
pub fn above(a: Rate, b: Rate) -> bool {
    u128::from(a.0) * u128::from(b.1) > u128::from(b.0) * u128::from(a.1)
}

/// What the orders of a stream add up to, each accepted or refused by a number.
pub fn sheet(orders: &[Result<Figures, u32>]) -> Season {
    let mut season = Season { weight: NONE.0, time: NONE.1, ..Season::default() };
    for order in orders {
        match order {
            // From 2 to 9, as judging refuses an order.
            Err(number) => season.refused[*number as usize] += 1,
            Ok(figures) => {
                season.accepted += 1;
                season.grams += figures.grams;
                season.seconds += figures.seconds;
                // The earliest on a tie: a later one must be above it.
                if let Some(first) = figures.first.filter(|&first| above(first, (season.weight, season.time))) {
                    (season.weight, season.time) = first;
                }
            }
        }
    }
    season
}

/// 16, of a stream that has no orders.
pub const REFUSED: Season = Season { number: 16, place: 0, accepted: 0, refused: [0; 10], grams: 0, seconds: 0, weight: 0, time: 0 };

/// An order as the sheet takes it, from how it was read.
pub fn taken(read: Result<House, Judged>) -> Result<Figures, u32> {
    read.map(|house| figures(&house)).map_err(|refusal| refusal.number)
}

/// The sheet of a stream, its orders read like this.
pub fn of(stream: &[u8], accept: impl Fn(&[u8]) -> Result<House, Judged>) -> Season {
    orders(stream).map_or(REFUSED, |orders| sheet(&orders.iter().map(|order| taken(accept(order))).collect::<Vec<_>>()))
}
