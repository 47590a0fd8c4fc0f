//! Whether plan bytes stand for an order: every clause, and nothing of the planner's shape.

use crate::classes::Class;
use crate::intervals::Intervals;
use crate::layout::Slot;
use crate::orders::{number, zero, Order, RECORD};
use std::cmp::Ordering;

/// The first clause found broken, in words.
pub type Broken = &'static str;

pub const CLAUSES: [Broken; 18] = [
    "length",
    "kind",
    "zero byte",
    "class after slot",
    "class record",
    "classes missing",
    "no such class",
    "dose not of class",
    "W or P",
    "no such fan",
    "part not below W",
    "start not before end",
    "outside the window",
    "not in one interval",
    "slots out of order",
    "overlap of a fan",
    "overlap of a dose",
    "total",
];

pub fn slot_of(r: &[u8]) -> Slot {
    Slot {
        fan: number(r, 1, 1),
        dose: number(r, 2, 2),
        start: (number(r, 4, 4), number(r, 8, 4)),
        end: (number(r, 12, 4), number(r, 16, 4)),
        weight: number(r, 20, 4),
        time: number(r, 24, 4),
        class: number(r, 28, 1),
    }
}

/// Compares a/A with b/B parts of a tick on top of whole ticks.
pub fn compare(a: (u32, u32), aw: u32, b: (u32, u32), bw: u32) -> Ordering {
    let parts = || (u64::from(a.1) * u64::from(bw)).cmp(&(u64::from(b.1) * u64::from(aw)));
    a.0.cmp(&b.0).then_with(parts)
}

/// The clauses that a slot meets or breaks alone; the answer is its interval.
fn alone(order: &Order, spans: &Intervals, classes: &[Class], s: &Slot) -> Result<usize, Broken> {
    if s.class == 0 || s.class as usize > classes.len() {
        return Err("no such class");
    }
    let class = &classes[s.class as usize - 1];
    if s.dose as usize >= order.doses.len() || class.set >> s.dose & 1 == 0 {
        return Err("dose not of class");
    }
    if u64::from(s.weight) != class.weight || u64::from(s.time) != class.time {
        return Err("W or P");
    }
    if s.fan == 0 || s.fan > order.fans {
        return Err("no such fan");
    }
    if s.start.1 >= s.weight || s.end.1 >= s.weight {
        return Err("part not below W");
    }
    if s.start >= s.end {
        return Err("start not before end");
    }
    let dose = &order.doses[s.dose as usize];
    if s.start.0 < dose.release || s.end > (dose.deadline, 0) {
        return Err("outside the window");
    }
    let j = spans.at(s.start.0).ok_or("not in one interval")?;
    if s.end > (spans.instants[j + 1], 0) {
        return Err("not in one interval");
    }
    Ok(j)
}

/// Slots of one dose, in any order: no two overlap.
fn apart(mut own: Vec<&Slot>) -> bool {
    own.sort_by_key(|s| s.from());
    own.windows(2).all(|w| w[0].to() <= w[1].from())
}

/// The slots of a plan that stands, or the clause it breaks.
pub fn stands(order: &Order, spans: &Intervals, classes: &[Class], plan: &[u8]) -> Result<Vec<Slot>, Broken> {
    if !plan.len().is_multiple_of(RECORD) {
        return Err("length");
    }
    let mut seen = 0;
    let mut slots: Vec<Slot> = Vec::with_capacity(plan.len() / RECORD);
    let mut last: Option<(usize, Slot)> = None;
    for r in plan.chunks(RECORD) {
        match r[0] {
            b'C' => {
                if !slots.is_empty() {
                    return Err("class after slot");
                }
                if !zero(r, 12, 32) {
                    return Err("zero byte");
                }
                let class = classes.get(seen).ok_or("class record")?;
                seen += 1;
                let given = (number(r, 1, 1), number(r, 2, 2), u64::from(number(r, 4, 4)), u64::from(number(r, 8, 4)));
                if given != (seen as u32, class.set.count_ones(), class.weight, class.time) {
                    return Err("class record");
                }
            }
            b'S' => {
                if !zero(r, 29, 32) {
                    return Err("zero byte");
                }
                let s = slot_of(r);
                let j = alone(order, spans, classes, &s)?;
                if let Some((i, b)) = last {
                    let start = compare(b.start, b.weight, s.start, s.weight);
                    if (i, b.fan).cmp(&(j, s.fan)).then(start) == Ordering::Greater {
                        return Err("slots out of order");
                    }
                    // In this order only neighbours on one fan of one interval can overlap.
                    if (i, b.fan) == (j, s.fan) && compare(b.end, b.weight, s.start, s.weight) == Ordering::Greater {
                        return Err("overlap of a fan");
                    }
                }
                last = Some((j, s));
                slots.push(s);
            }
            _ => return Err("kind"),
        }
    }
    if seen != classes.len() {
        return Err("classes missing");
    }
    for (k, dose) in order.doses.iter().enumerate() {
        let own: Vec<&Slot> = slots.iter().filter(|s| s.dose as usize == k).collect();
        let total: u64 = own.iter().map(|s| s.to() - s.from()).sum();
        let time = classes.iter().find(|c| c.set >> k & 1 == 1).map_or(0, |c| c.time);
        if !apart(own) {
            return Err("overlap of a dose");
        }
        if total != u64::from(dose.grams) * time {
            return Err("total");
        }
    }
    Ok(slots)
}
