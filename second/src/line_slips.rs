//! Test builds only: the line's errors that look right, in its amounts and its states.

use crate::answers::House;
use crate::layout::Slot;
use crate::line::{class_of, Point, State};
use crate::slipped::Slipped;
use crate::slips::Slip::*;

impl Slipped {
    fn amount(&self, house: &House, slots: &[Slot], dose: usize, tick: u32) -> Option<u64> {
        let d = house.order.doses[dose];
        match self.0 {
            StraightLine => {
                let at = u64::from(tick.clamp(d.release, d.deadline) - d.release);
                Some(u64::from(d.grams) * at / u64::from(d.deadline - d.release))
            }
            RoundedSlots => {
                let time = house.classes[class_of(&house.classes, dose)].time;
                let part = |s: &Slot| ((u64::from(tick) * u64::from(s.weight)).clamp(s.from(), s.to()) - s.from()) / time;
                Some(slots.iter().filter(|s| s.dose as usize == dose).map(part).sum())
            }
            _ => None,
        }
    }

    /// The state inside the window: the wrong slots, or the wrong one of them.
    fn fed(&self, slots: &[Slot], dose: usize, tick: u32) -> State {
        let (now, next) = ((tick, 0), (tick + 1, 0));
        let feeds = |s: &&Slot| match self.0 {
            DosingAtEnd => s.start < next && s.end >= now,
            Instant => s.start <= now && s.end > now,
            DosingBefore => s.start <= next && s.end > now,
            _ => s.start < next && s.end > now,
        };
        let mut fed = slots.iter().filter(|s| s.dose as usize == dose).filter(feeds);
        let named = if self.0 == FirstInFile { fed.next() } else { fed.min_by_key(|s| s.start) };
        named.map_or(State::Idle, |s| State::Dosing(s.fan))
    }

    pub fn point(&self, house: &House, slots: &[Slot], dose: usize, tick: u32) -> Point {
        let own = house.point(slots, dose, tick);
        let amount = self.amount(house, slots, dose, tick).map_or(own.amount, |grams| grams as u32);
        let state = match own.state {
            State::Idle | State::Dosing(_) => self.fed(slots, dose, tick),
            outside => outside,
        };
        Point { amount, state }
    }
}
