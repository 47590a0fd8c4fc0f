//! C-12's sentences about one second of a dose, held against its state by the time in its slots and by the exact amount.

use crate::answers::House;
use crate::demand3::{exact, some_tick};
use crate::layout::Slot;
use crate::line::State;
use crate::orders::WEEK;
use crate::random::Random;

/// Kinds of seconds, so that the reach of a run can be seen.
pub const SECONDS: [&str; 7] = [
    "Finished",
    "Shut",
    "Idle",
    "Dosing by one slot, from the instant on",
    "Dosing by one slot, later in the second alone",
    "Dosing by several slots, the earliest first in the file",
    "Dosing by several slots, another first in the file",
];

/// The units that a slot has within [t, t+1).
fn within(s: &Slot, tick: u32) -> u64 {
    let (w, from) = (u64::from(s.weight), u64::from(tick) * u64::from(s.weight));
    s.to().min(from + w).saturating_sub(s.from().max(from))
}

/// Whether a dose gains anything from a tick on before this slot of it begins.
fn gained_before(own: &[Slot], s: &Slot, tick: u32) -> bool {
    let (w, from) = (u64::from(s.weight), u64::from(tick) * u64::from(s.weight));
    exact(own, s.dose as usize, s.from().max(from), w) > exact(own, s.dose as usize, from, w)
}

/// Inside its window a dose is Dosing exactly in the seconds in which it has slot time, which are those in which it gains; the fan is that
/// of a slot of such time before which the dose has none in that second. The answer is the kind of second, by its place in the list.
pub fn sentence(house: &House, slots: &[Slot], dose: usize, tick: u32, state: State) -> Result<usize, String> {
    let d = &house.order.doses[dose];
    let own: Vec<Slot> = slots.iter().filter(|s| s.dose as usize == dose).copied().collect();
    let fed: Vec<&Slot> = own.iter().filter(|s| within(s, tick) > 0).collect();
    let gains = exact(&own, dose, u64::from(tick) + 1, 1) > exact(&own, dose, u64::from(tick), 1);
    let rises = house.point(slots, dose, tick + 1).amount > house.point(slots, dose, tick).amount;
    let say = |what: &str| Err(format!("{what}: dose {dose} at {tick}, {state:?}"));
    if gains == fed.is_empty() || (rises && !gains) {
        return say("gains without slot time, or has it and does not gain");
    }
    match state {
        State::Finished if tick >= d.deadline && !gains => Ok(0),
        State::Shut if tick < d.release && !gains => Ok(1),
        State::Finished | State::Shut => say("not outside its window, or fed there"),
        _ if tick < d.release || tick >= d.deadline => say("neither Finished nor Shut outside its window"),
        State::Idle if gains => say("fed, and not Dosing"),
        State::Idle => Ok(2),
        State::Dosing(_) if !gains => say("Dosing, and not fed"),
        State::Dosing(fan) => {
            let first = |s: &&&Slot| !gained_before(&own, s, tick) && fed.iter().all(|other| s.from() <= other.from());
            match fed.iter().find(first) {
                Some(s) if s.fan == fan && fed.len() == 1 => Ok(3 + usize::from(s.start > (tick, 0))),
                Some(s) if s.fan == fan => Ok(5 + usize::from(s != &fed[0])),
                _ => say("not on the fan that feeds it first"),
            }
        }
    }
}

/// The whole seconds at both edges of a slot, and one before and after.
fn around(s: &Slot) -> impl Iterator<Item = u32> {
    [s.start, s.end].into_iter().flat_map(|(tick, part)| tick.saturating_sub(1)..=(tick + u32::from(part > 0) + 1).min(WEEK))
}

/// Doses and ticks around every edge of the slots; in a plan of more than `most` slots, of so many by chance.
pub fn edges(slots: &[Slot], most: usize, r: &mut Random) -> Vec<(usize, u32)> {
    let mut some: Vec<&Slot> = slots.iter().collect();
    if some.len() > most {
        r.shuffle(&mut some);
        some.truncate(most);
    }
    let mut asked: Vec<(usize, u32)> = some.iter().flat_map(|s| around(s).map(|tick| (s.dose as usize, tick))).collect();
    asked.sort_unstable();
    asked.dedup();
    asked
}

/// The sentences around the edges of so many slots, and at a tick by chance for each dose.
pub fn sentences(house: &House, slots: &[Slot], most: usize, r: &mut Random) -> Result<(), String> {
    let mut asked = edges(slots, most, r);
    asked.extend((0..house.order.doses.len()).map(|dose| (dose, some_tick(house, slots, dose, r))));
    asked.iter().try_for_each(|&(dose, tick)| sentence(house, slots, dose, tick, house.point(slots, dose, tick).state).map(|_| ()))
}
