//! Other plans that stand (permuted fans, split slots, pieces moved in time) and damaged plans.

use crate::answers::House;
use crate::layout::{plan_bytes, Slot};
use crate::orders::{number, put, RECORD};
use crate::random::Random;
use crate::stands::compare;

/// Slots by interval, fan, start.
pub fn sorted(house: &House, mut slots: Vec<Slot>) -> Vec<Slot> {
    slots.sort_by(|a, b| {
        let place = |s: &Slot| (house.spans.at(s.start.0), s.fan);
        place(a).cmp(&place(b)).then_with(|| compare(a.start, a.weight, b.start, b.weight))
    });
    slots
}

/// Another order of the fans in each interval.
pub fn permute_fans(house: &House, slots: &[Slot], r: &mut Random) -> Vec<Slot> {
    let mut maps: Vec<Vec<u32>> = vec![(1..=house.order.fans).collect(); house.spans.count()];
    maps.iter_mut().for_each(|m| r.shuffle(m));
    let fan = |s: &Slot| maps[house.spans.at(s.start.0).expect("a slot lies in an interval")][s.fan as usize - 1];
    sorted(house, slots.iter().map(|s| Slot { fan: fan(s), ..*s }).collect())
}

/// Some slots cut in two or more at any unit.
pub fn split(slots: &[Slot], r: &mut Random) -> Vec<Slot> {
    let mut out = Vec::new();
    for s in slots {
        let mut from = s.from();
        while s.to() - from > 1 && r.once_in(3) {
            let cut = from + 1 + r.below(s.to() - from - 1);
            out.push(s.cut(from, cut));
            from = cut;
        }
        out.push(s.cut(from, s.to()));
    }
    out
}

/// In each interval, blocks of whole ticks change places, each with its own order of fans.
pub fn move_blocks(house: &House, slots: &[Slot], r: &mut Random) -> Vec<Slot> {
    let mut out = Vec::new();
    for j in 0..house.spans.count() {
        let (start, length) = (house.spans.instants[j], house.spans.length(j) as u32);
        let blocks = r.range(1, 5.min(length));
        let size = length / blocks;
        let mut places: Vec<u32> = (0..blocks).collect();
        r.shuffle(&mut places);
        let mut fans: Vec<u32> = (1..=house.order.fans).collect();
        for (b, &place) in places.iter().chain([&blocks]).enumerate() {
            let b = b as u32;
            let from = start + b * size;
            let to = if b == blocks { start + length } else { from + size };
            r.shuffle(&mut fans);
            for s in slots.iter().filter(|s| house.spans.at(s.start.0) == Some(j)) {
                let w = u64::from(s.weight);
                let (x, y) = (s.from().max(u64::from(from) * w), s.to().min(u64::from(to) * w));
                if x < y {
                    let base = u64::from(start) * w + u64::from(place * size) * w;
                    let piece = s.cut(base + x - u64::from(from) * w, base + y - u64::from(from) * w);
                    out.push(Slot { fan: fans[s.fan as usize - 1], ..piece });
                }
            }
        }
    }
    sorted(house, out)
}

/// A plan that stands, not always the planner's.
pub fn standing(house: &House, r: &mut Random) -> Vec<u8> {
    let mut slots = if r.once_in(4) { house.slots(None) } else { house.slots(Some(r)) };
    if r.once_in(3) {
        slots = move_blocks(house, &slots, r);
    }
    if r.once_in(2) {
        slots = permute_fans(house, &slots, r);
    }
    for _ in 0..r.pick(&[0, 0, 1, 1, 1, 4]) {
        slots = split(&slots, r);
    }
    plan_bytes(&house.classes, &slots)
}

/// A slot's edge moved by a unit, its parts carried.
fn nudge(record: &mut [u8], tick_at: usize, up: bool) {
    let w = number(record, 20, 4);
    let (tick, part) = (number(record, tick_at, 4), number(record, tick_at + 4, 4));
    let (tick, part) = match (up, part) {
        (true, p) if p.wrapping_add(1) == w => (tick.wrapping_add(1), 0),
        (true, p) => (tick, p.wrapping_add(1)),
        (false, 0) => (tick.wrapping_sub(1), w.wrapping_sub(1)),
        (false, p) => (tick, p - 1),
    };
    put(record, tick_at, 4, tick);
    put(record, tick_at + 4, 4, part);
}

/// Damage to whole records or fields: some of it leaves a plan that stands.
pub fn damage(plan: &[u8], r: &mut Random) -> Vec<u8> {
    let mut bytes = plan.to_vec();
    let n = bytes.len() / RECORD;
    if n == 0 {
        let extra = r.range(1, 64) as usize;
        return vec![r.pick(&[0, b'C', b'S']); extra];
    }
    let at = r.below(n as u64) as usize * RECORD;
    let other = r.below(n as u64) as usize * RECORD;
    match r.below(13) {
        0 => drop(bytes.drain(at..at + RECORD)),
        1 => {
            let copy = bytes[other..other + RECORD].to_vec();
            bytes.splice(at..at, copy);
        }
        2 => (0..RECORD).for_each(|i| bytes.swap(at + i, other + i)),
        3 => bytes.truncate(r.below(plan.len() as u64) as usize),
        4 => bytes.extend(vec![r.pick(&[0, b'C', b'S']); r.range(1, 64) as usize]),
        5 => nudge(&mut bytes[at..], 4, r.once_in(2)),
        6 => nudge(&mut bytes[at..], 12, r.once_in(2)),
        7 => {
            let up = r.once_in(2);
            nudge(&mut bytes[at..], 4, up);
            nudge(&mut bytes[at..], 12, up);
        }
        8 => {
            nudge(&mut bytes[at..], 12, true);
            nudge(&mut bytes[other..], 12, false);
        }
        9 => bytes[at + 1] = r.range(0, 9) as u8,
        10 => bytes[at + 2] = r.range(0, 25) as u8,
        11 => (1..4).for_each(|i| bytes.swap(at + i, other + i)),
        _ => {
            let (offset, width) = r.pick(&[(4, 4), (8, 4), (12, 4), (16, 4), (20, 4), (24, 4), (28, 1), (2, 2)]);
            let value = number(&bytes[other..], offset, width);
            put(&mut bytes[at..], offset, width, value);
        }
    }
    bytes
}

/// One byte changed: to a neighbour, by a bit, or to anything else.
pub fn damage_byte(plan: &[u8], at: usize, r: &mut Random) -> Vec<u8> {
    let mut bytes = plan.to_vec();
    let old = bytes[at];
    bytes[at] = match r.below(4) {
        0 => old.wrapping_add(1),
        1 => old.wrapping_sub(1),
        2 => old ^ 1 << r.below(8),
        _ => old.wrapping_add(r.range(1, 255) as u8),
    };
    bytes
}
