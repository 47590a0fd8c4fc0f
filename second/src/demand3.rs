//! Demand 3's sentences, held against a plan's slots at random moments k/q.

use crate::answers::House;
use crate::layout::Slot;
use crate::line::class_of;
use crate::orders::WEEK;
use crate::random::Random;

/// Whether a slot covers the moment k/q.
fn covers(s: &Slot, k: u64, q: u64) -> bool {
    let moment = u128::from(k) * u128::from(s.weight);
    u128::from(s.from()) * u128::from(q) <= moment && moment < u128::from(s.to()) * u128::from(q)
}

/// The exact amount at k/q times q P, added up slot by slot.
pub fn exact(slots: &[Slot], dose: usize, k: u64, q: u64) -> u128 {
    let own = slots.iter().filter(|s| s.dose as usize == dose);
    own.map(|s| {
        let (from, to) = (u128::from(s.from()) * u128::from(q), u128::from(s.to()) * u128::from(q));
        (u128::from(k) * u128::from(s.weight)).clamp(from, to) - from
    })
    .sum()
}

/// A tick in or near a dose's window, often at an edge of a slot.
pub fn some_tick(house: &House, slots: &[Slot], dose: usize, r: &mut Random) -> u32 {
    let d = &house.order.doses[dose];
    let tick = match r.below(8) {
        0 => r.range(0, WEEK),
        1 => d.release,
        2 => d.deadline,
        3 | 4 if !slots.is_empty() => {
            let s = slots[r.below(slots.len() as u64) as usize];
            if r.once_in(2) {
                s.start.0
            } else {
                s.end.0
            }
        }
        _ => r.range(d.release, d.deadline),
    };
    (tick + r.range(0, 2)).saturating_sub(1).min(WEEK)
}

/// The line at some pairs of ticks.
fn line(house: &House, slots: &[Slot], r: &mut Random) -> Result<(), String> {
    let dose = r.below(house.order.doses.len() as u64) as usize;
    let (d, class) = (house.order.doses[dose], &house.classes[class_of(&house.classes, dose)]);
    let (w, p) = (u128::from(class.weight), u128::from(class.time));
    let (x, y) = (some_tick(house, slots, dose, r), some_tick(house, slots, dose, r));
    let (a, b) = (x.min(y), x.max(y));
    let (low, high) = (house.point(slots, dose, a).amount, house.point(slots, dose, b).amount);
    let say = |what: &str| Err(format!("{what}: dose {dose}, ticks {a} and {b}, drawn {low} and {high}"));
    for (t, amount) in [(a, low), (b, high)] {
        let units = exact(slots, dose, u64::from(t), 1);
        if u128::from(amount) * p > units || units >= (u128::from(amount) + 1) * p {
            return say("ahead, or behind by a gram");
        }
        if (t <= d.release && amount != 0) || (t >= d.deadline && amount != d.grams) {
            return say("not 0 before the release or not all from the deadline");
        }
    }
    if high < low {
        return say("falls");
    }
    let rise = u128::from(high - low);
    if rise * p >= u128::from(b - a) * w + p {
        return say("rises too fast");
    }
    if exact(slots, dose, u64::from(a), 1) == exact(slots, dose, u64::from(b), 1) && rise != 0 {
        return say("rises without a fan");
    }
    Ok(())
}

/// A dose inside its window has a fan, or every fan runs at its rate or more.
fn waiting(house: &House, slots: &[Slot], r: &mut Random) -> Result<(), String> {
    let dose = r.below(house.order.doses.len() as u64) as usize;
    let (d, class) = (house.order.doses[dose], &house.classes[class_of(&house.classes, dose)]);
    let own: Vec<&Slot> = slots.iter().filter(|s| s.dose as usize == dose).collect();
    let mine = own[r.below(own.len() as u64) as usize];
    let (mut k, q) = match r.below(4) {
        0 => (u64::from(some_tick(house, slots, dose, r)), 1),
        1 => (mine.to(), u64::from(mine.weight)),
        2 => (mine.from().saturating_sub(1), u64::from(mine.weight)),
        _ => {
            let q = u64::from(r.scaled(1, 1 << 30));
            (u64::from(d.release) * q + r.below(u64::from(d.deadline - d.release) * q), q)
        }
    };
    if k < u64::from(d.release) * q || k >= u64::from(d.deadline) * q {
        k = u64::from(d.release) * q;
    }
    let running: Vec<&Slot> = slots.iter().filter(|s| covers(s, k, q)).collect();
    if running.iter().filter(|s| s.dose as usize == dose).count() > 1 {
        return Err(format!("dose {dose} meets itself at {k}/{q}"));
    }
    if running.iter().any(|s| s.dose as usize == dose) {
        return Ok(());
    }
    for fan in 1..=house.order.fans {
        let on: Vec<_> = running.iter().filter(|s| s.fan == fan).collect();
        let good = on.len() == 1 && u128::from(on[0].weight) * u128::from(class.time) >= u128::from(class.weight) * u128::from(on[0].time);
        if !good {
            return Err(format!("dose {dose} waits at {k}/{q} while fan {fan} is not busy at its rate"));
        }
    }
    Ok(())
}

/// Some random checks of each sentence.
pub fn sentences(house: &House, slots: &[Slot], times: u32, r: &mut Random) -> Result<(), String> {
    if house.order.doses.is_empty() {
        return if slots.is_empty() { Ok(()) } else { Err("slots without doses".into()) };
    }
    for _ in 0..times {
        line(house, slots, r)?;
        waiting(house, slots, r)?;
    }
    Ok(())
}
