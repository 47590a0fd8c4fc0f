//! Plans spoilt to break one clause of "A plan stands". Mostly the others hold; some foreign doses, a wrong fan or missing records also
//! upset totals or the sequence, which the judge meets later.

use crate::answers::House;
use crate::layout::{class_record, plan_bytes, slot_record, Slot};
use crate::orders::{put, RECORD};
use crate::random::Random;
use crate::stands::Broken;
use crate::variants::sorted;

type Found = Vec<(Broken, Vec<u8>)>;

fn pick(slots: &[Slot], r: &mut Random) -> usize {
    r.below(slots.len() as u64) as usize
}

/// A fan with no slot at all in interval j.
fn idle_fan(house: &House, slots: &[Slot], j: usize) -> Option<u32> {
    let busy = |fan: u32| slots.iter().any(|s| s.fan == fan && house.spans.at(s.start.0) == Some(j));
    (1..=house.order.fans).find(|&fan| !busy(fan))
}

/// Broken bytes: length, kind, zeros, the C records.
fn records(house: &House, plan: &[u8], r: &mut Random) -> Found {
    let mut out = Found::new();
    let n = (plan.len() / RECORD) as u64;
    let heads = house.classes.len();
    let mut with = |name: Broken, change: &mut dyn FnMut(&mut Vec<u8>)| {
        let mut bytes = plan.to_vec();
        change(&mut bytes);
        out.push((name, bytes));
    };
    with("length", &mut |b| b.resize(plan.len() + r.range(1, 31) as usize, 0));
    with("length", &mut |b| b.truncate(plan.len() - r.range(1, 31) as usize));
    let kind = r.pick(&[0, b'F', b'D', b'O', b'c', b's', 255]);
    let at = r.below(n) as usize * RECORD;
    with("kind", &mut |b| b[at] = kind);
    with("kind", &mut |b| b.extend([0; RECORD]));
    let c = r.below(heads as u64) as usize * RECORD;
    let s = (heads as u64 + r.below(n - heads as u64)) as usize * RECORD;
    with("zero byte", &mut |b| b[c + r.range(12, 31) as usize] = r.range(1, 255) as u8);
    with("zero byte", &mut |b| b[s + r.range(29, 31) as usize] = r.range(1, 255) as u8);
    let field = r.pick(&[1, 2, 4, 8]);
    with("class record", &mut |b| b[c + field] = b[c + field].wrapping_add(r.range(1, 255) as u8));
    with("class record", &mut |b| b[c + 3] = r.range(1, 255) as u8);
    with("class record", &mut |b| {
        let extra = class_record(heads + 1, &house.classes[heads - 1]);
        b.splice(heads * RECORD..heads * RECORD, extra);
    });
    with("classes missing", &mut |b| drop(b.drain((heads - 1) * RECORD..heads * RECORD)));
    with("classes missing", &mut |b| b.truncate((heads - 1) * RECORD));
    with("class after slot", &mut |b| b.extend(class_record(heads, &house.classes[heads - 1])));
    with("class after slot", &mut |b| b[(heads - 1) * RECORD..(heads + 1) * RECORD].rotate_left(RECORD));
    if heads > 1 {
        with("class record", &mut |b| (0..RECORD).for_each(|i| b.swap(i, (heads - 1) * RECORD + i)));
    }
    out
}

/// Broken fields of one slot.
fn fields(house: &House, slots: &[Slot], r: &mut Random) -> Found {
    let mut out = Found::new();
    let i = pick(slots, r);
    let s = slots[i];
    let mut with = |name: Broken, changed: Slot| {
        let mut all = slots.to_vec();
        all[i] = changed;
        out.push((name, plan_bytes(&house.classes, &all)));
    };
    with("no such class", Slot { class: 0, ..s });
    with("no such class", Slot { class: house.classes.len() as u32 + 1, ..s });
    with("dose not of class", Slot { dose: house.order.doses.len() as u32, ..s });
    with("dose not of class", Slot { dose: s.dose + 256, ..s });
    if let Some(k) = (0..house.order.doses.len()).find(|k| house.classes[s.class as usize - 1].set >> k & 1 == 0) {
        with("dose not of class", Slot { dose: k as u32, ..s });
    }
    // As many units of a class with a greater W: shorter, and so still apart from all others.
    let greater = |i: &usize| *i + 1 != s.class as usize && house.classes[*i].weight >= u64::from(s.weight) && s.start.1 == 0;
    if let Some(i) = (0..house.classes.len()).find(greater) {
        let (w, p) = (house.classes[i].weight, house.classes[i].time);
        let (from, units) = (u64::from(s.start.0) * w, s.to() - s.from());
        let renamed = Slot { class: i as u32 + 1, weight: w as u32, time: p as u32, ..s };
        with("dose not of class", renamed.cut(from, from + units));
    }
    with("W or P", Slot { weight: s.weight + 1, ..s });
    with("W or P", Slot { time: s.time - 1, ..s });
    with("W or P", Slot { weight: s.weight * 2, time: s.time * 2, start: (s.start.0, s.start.1 * 2), end: (s.end.0, s.end.1 * 2), ..s });
    with("no such fan", Slot { fan: 0, ..s });
    with("no such fan", Slot { fan: house.order.fans + 1, ..s });
    if s.end.0 > 0 {
        with("part not below W", Slot { end: (s.end.0 - 1, s.end.1 + s.weight), ..s });
    }
    if s.start.0 > 0 {
        with("part not below W", Slot { start: (s.start.0 - 1, s.start.1 + s.weight), ..s });
    }
    if s.to() - s.from() > 1 {
        with("total", s.cut(s.from(), s.to() - 1));
        with("total", s.cut(s.from() + 1, s.to()));
    }
    out
}

/// Broken places: a slot more, moved, merged or out of order.
fn places(house: &House, slots: &[Slot], r: &mut Random) -> Found {
    let mut out = Found::new();
    let i = pick(slots, r);
    let s = slots[i];
    let mut give = |name: Broken, all: Vec<Slot>| out.push((name, plan_bytes(&house.classes, &all)));
    let without = |i: usize| slots.iter().enumerate().filter(move |(k, _)| *k != i).map(|(_, s)| *s);
    let mut all = slots.to_vec();
    all.insert(i, Slot { end: s.start, ..s });
    give("start not before end", all);
    give("total", without(i).collect());
    if slots.len() > 1 {
        let k = (i + 1) % slots.len();
        let mut all = slots.to_vec();
        all.swap(i, k);
        give("slots out of order", all);
    }
    let j = house.spans.at(s.start.0).expect("a slot lies in an interval");
    if let (Some(fan), true) = (idle_fan(house, slots, j), s.to() - s.from() > 1) {
        let cut = s.from() + 1 + r.below(s.to() - s.from() - 1);
        let second = Slot { fan, ..s.cut(cut - 1, s.to() - 1) };
        give("overlap of a dose", sorted(house, without(i).chain([s.cut(s.from(), cut), second]).collect()));
    }
    let foreign = |j: usize| house.spans.active[j] >> s.dose & 1 == 0;
    if let Some((j, fan)) = (0..house.spans.count()).filter(|&j| foreign(j)).find_map(|j| idle_fan(house, slots, j).map(|f| (j, f))) {
        let base = u64::from(house.spans.instants[j]) * u64::from(s.weight);
        let unit = Slot { fan, ..s.cut(base, base + 1) };
        let rest = (s.to() - s.from() > 1).then(|| s.cut(s.from() + 1, s.to()));
        give("outside the window", sorted(house, without(i).chain([unit]).chain(rest).collect()));
    }
    if let Some(k) = slots.iter().position(|t| (t.fan, t.dose, t.start) == (s.fan, s.dose, s.end) && house.spans.at(t.start.0) != Some(j)) {
        let merged = Slot { end: slots[k].end, ..s };
        let all = slots.iter().enumerate().filter(|(x, _)| *x != k).map(|(x, t)| if x == i { merged } else { *t });
        give("not in one interval", all.collect());
    }
    let meets = |t: &&Slot| t.fan != s.fan && t.dose != s.dose && t.start.0 < s.end.0 && s.start.0 < t.end.0;
    if let Some(t) = slots.iter().find(meets) {
        let moved = Slot { fan: t.fan, ..s };
        give("overlap of a fan", sorted(house, without(i).chain([moved]).collect()));
    }
    out
}

/// For each clause that this plan lets be broken: its name and the bytes. The plan must stand.
pub fn each(house: &House, plan: &[u8], slots: &[Slot], r: &mut Random) -> Found {
    if slots.is_empty() {
        let mut record = slot_record(&Slot { fan: 1, dose: 0, start: (0, 0), end: (1, 0), weight: 1, time: 1, class: 1 });
        put(&mut record, 0, 1, u32::from(r.pick(b"SSC")));
        let name = if record[0] == b'S' { "no such class" } else { "zero byte" };
        return vec![(name, record.to_vec()), ("length", vec![0]), ("kind", vec![0; RECORD])];
    }
    let mut out = records(house, plan, r);
    out.extend(fields(house, slots, r));
    out.extend(places(house, slots, r));
    out
}
