//! Test builds only: the season's errors that look right, built into a copy of its sheet.

use crate::answers::House;
use crate::library::{Judged, Season};
use crate::orders::{number, TrialBays, LONGEST_ORDER, RECORD};
use crate::rest::by_rule;
use crate::season::{above, orders, Figures, Rate, LONGEST_STREAM, NONE, REFUSED};
use crate::slipped::Slipped;
use crate::slips::Slip::*;

/// Where the records of kind F begin.
fn fans(stream: &[u8]) -> Vec<usize> {
    (0..stream.len()).step_by(RECORD).filter(|&at| stream[at] == b'F').collect()
}

/// Each F record with the doses before it, and what is behind the last.
fn with_the_next(stream: &[u8]) -> Vec<&[u8]> {
    let mut ends: Vec<usize> = std::iter::once(0).chain(fans(stream).into_iter().map(|at| at + RECORD)).chain([stream.len()]).collect();
    ends.dedup();
    ends.windows(2).map(|ends| &stream[ends[0]..ends[1]]).collect()
}

fn common(a: u64, b: u64) -> u64 {
    if b == 0 {
        a
    } else {
        common(b, a % b)
    }
}

impl Slipped {
    fn cut<'a>(&self, stream: &'a [u8]) -> Option<Vec<&'a [u8]>> {
        let own = orders(stream);
        match self.0 {
            LongestRefused if stream.len() == LONGEST_STREAM => None,
            EmptyRefused if stream.is_empty() => None,
            LongerRead => orders(&stream[..stream.len().min(LONGEST_STREAM)]),
            RaggedRead => orders(&stream[..stream.len() / RECORD * RECORD]),
            FromFirstFan => orders(&stream[fans(stream).first().copied().unwrap_or(stream.len())..]),
            OfNextFan => own.map(|_| with_the_next(stream)),
            FirstLeftOut => own.map(|orders| orders.into_iter().skip(1).collect()),
            LongOrderRefusesAll => own.filter(|orders| orders.iter().all(|order| order.len() <= LONGEST_ORDER)),
            LastRecordLost => own.map(|mut orders| {
                orders.iter_mut().rev().take(1).for_each(|order| *order = &order[..order.len() - RECORD]);
                orders
            }),
            _ => own,
        }
    }

    fn figures(&self, house: &House) -> Figures {
        let classes = &house.classes;
        let counted = if self.0 == FirstClassSeconds { classes.len().min(1) } else { classes.len() };
        let first = classes.first().map(|c| (c.weight, c.time)).map(|(weight, time)| match self.0 {
            ReducedFirst => (weight / common(weight, time), time / common(weight, time)),
            _ => (weight, time),
        });
        let seconds = classes[..counted].iter().map(|c| c.time).sum();
        Figures { grams: house.order.doses.iter().map(|d| u64::from(d.grams)).sum(), seconds, first }
    }

    /// What an order adds though it is refused.
    fn refused(&self, order: &[u8], refusal: &Judged) -> Figures {
        let (fast, doses) = (refusal.number == 9, order.chunks(RECORD).skip(1));
        let grams = if self.0 == RefusedGrams && fast { doses.map(|d| u64::from(number(d, 12, 4))).sum() } else { 0 };
        let first = (self.0 == RefusedFirst && fast).then_some((u64::from(refusal.weight), u64::from(refusal.time)));
        Figures { grams, seconds: 0, first }
    }

    /// Whether a later first class takes the place of the greatest so far.
    fn greater(&self, later: Rate, earlier: Rate) -> bool {
        match self.0 {
            LaterTie => !above(earlier, later),
            WholeDivisionFirst => later.0 / later.1 > earlier.0 / earlier.1,
            FloatFirst => later.0 as f32 / later.1 as f32 > earlier.0 as f32 / earlier.1 as f32,
            _ => above(later, earlier),
        }
    }

    /// The sheet of a stream with its error.
    pub fn add_up(&self, stream: &[u8]) -> Season {
        let Some(orders) = self.cut(stream) else { return REFUSED };
        let trial_bays = if self.0 == ClosedToSeason { TrialBays::Closed } else { TrialBays::Open };
        let (mut season, mut greatest) = (Season::default(), None);
        for order in orders {
            let order = if self.0 == RuleOfFirstOrder { by_rule(order, stream[2]) } else { order.to_vec() };
            let figures = match self.accept(&order, trial_bays) {
                Ok(house) => {
                    season.accepted += u32::from(self.0 != AloneLeftOut || !house.order.doses.is_empty());
                    self.figures(&house)
                }
                Err(refusal) => {
                    // There is no place for 15.
                    season.refused.iter_mut().skip(refusal.number as usize).take(1).for_each(|count| *count += 1);
                    self.refused(&order, &refusal)
                }
            };
            season.grams += figures.grams;
            season.seconds += figures.seconds;
            greatest = match (figures.first, greatest) {
                (Some(later), Some(earlier)) if !self.greater(later, earlier) => Some(earlier),
                (first, earlier) => first.or(earlier),
            };
        }
        (season.weight, season.time) = greatest.unwrap_or(if self.0 == NoneIsZero { (0, 0) } else { NONE });
        season
    }
}
