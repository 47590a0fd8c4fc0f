//! The drawn line of a dose, and its four states by the whole second.

use crate::classes::Class;
use crate::layout::Slot;
use crate::orders::Order;

#[derive(Clone, Copy, Debug, PartialEq, Eq)]
pub enum State {
    Finished,
    Shut,
    Idle,
    Dosing(u32),
}

#[derive(Clone, Copy, Debug, PartialEq, Eq)]
pub struct Point {
    pub amount: u32,
    pub state: State,
}

/// Units of the dose's slots before a tick.
pub fn units_before(slots: &[Slot], dose: usize, tick: u32) -> u64 {
    let own = slots.iter().filter(|s| s.dose as usize == dose);
    own.map(|s| (u64::from(tick) * u64::from(s.weight)).clamp(s.from(), s.to()) - s.from()).sum()
}

/// The class of a dose, by its place in the list.
pub fn class_of(classes: &[Class], dose: usize) -> usize {
    classes.iter().position(|c| c.set >> dose & 1 == 1).expect("every dose has a class")
}

/// Of the dose's slots that feed the second, "starts before t+1 and ends after t", the earliest (C-12). The file does not tell: a share cut
/// by wrap-around is listed with its later piece first. One dose, one W: moments compare by tick, then part.
fn earliest_fed(slots: &[Slot], dose: usize, tick: u32) -> Option<&Slot> {
    let own = slots.iter().filter(|s| s.dose as usize == dose);
    own.filter(|s| s.start < (tick + 1, 0) && s.end > (tick, 0)).min_by_key(|s| s.start)
}

pub fn point(order: &Order, classes: &[Class], slots: &[Slot], dose: usize, tick: u32) -> Point {
    let amount = units_before(slots, dose, tick) / classes[class_of(classes, dose)].time;
    let d = &order.doses[dose];
    let state = if tick >= d.deadline {
        State::Finished
    } else if tick < d.release {
        State::Shut
    } else {
        earliest_fed(slots, dose, tick).map_or(State::Idle, |s| State::Dosing(s.fan))
    };
    Point { amount: amount as u32, state }
}
