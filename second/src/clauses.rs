//! Every clause of "A plan stands" for itself: a second, plainer judge that stops at nothing, so that it can be seen which clauses a plan
//! breaks and that it breaks no other.

use crate::answers::House;
use crate::layout::{class_record, Slot};
use crate::orders::{zero, RECORD};
use crate::stands::{slot_of, Broken};
use std::cmp::Ordering;

/// Compares two moments, each a number of parts of a tick, by exact products.
fn compare(a: u64, aw: u32, b: u64, bw: u32) -> Ordering {
    (u128::from(a) * u128::from(bw)).cmp(&(u128::from(b) * u128::from(aw)))
}

fn meet(a: &Slot, b: &Slot) -> bool {
    compare(a.from(), a.weight, b.to(), b.weight).is_lt() && compare(b.from(), b.weight, a.to(), a.weight).is_lt()
}

fn some_pair(slots: &[Slot], fits: impl Fn(&Slot, &Slot) -> bool) -> bool {
    slots.iter().enumerate().any(|(i, a)| slots[..i].iter().any(|b| fits(a, b)))
}

/// The clauses that some slot breaks alone; where its class or dose does not exist, only that is said.
fn of_slots(house: &House, slots: &[Slot]) -> [(Broken, bool); 8] {
    let class = |s: &Slot| house.classes.get((s.class as usize).wrapping_sub(1));
    let dose = |s: &Slot| house.order.doses.get(s.dose as usize);
    let within = |s: &Slot, a: u32, b: u32| {
        let w = u64::from(s.weight);
        u64::from(a) * w <= s.from() && s.to() <= u64::from(b) * w
    };
    let some = |fits: &dyn Fn(&Slot) -> bool| slots.iter().any(fits);
    [
        ("no such class", some(&|s| class(s).is_none())),
        ("dose not of class", some(&|s| class(s).is_some_and(|c| dose(s).is_none() || c.set >> s.dose & 1 == 0))),
        ("W or P", some(&|s| class(s).is_some_and(|c| (c.weight, c.time) != (u64::from(s.weight), u64::from(s.time))))),
        ("no such fan", some(&|s| s.fan == 0 || s.fan > house.order.fans)),
        ("part not below W", some(&|s| s.start.1 >= s.weight || s.end.1 >= s.weight)),
        ("start not before end", some(&|s| s.from() >= s.to())),
        ("outside the window", some(&|s| dose(s).is_some_and(|d| !within(s, d.release, d.deadline)))),
        ("not in one interval", some(&|s| !house.spans.instants.windows(2).any(|i| within(s, i[0], i[1])))),
    ]
}

/// Whether some slot comes before one that it should follow: by interval, fan, start.
fn out_of_order(house: &House, slots: &[Slot]) -> bool {
    let place = |s: &Slot| (house.spans.instants.iter().filter(|&&i| u64::from(i) * u64::from(s.weight) <= s.from()).count(), s.fan);
    let later = |a: &Slot, b: &Slot| place(a).cmp(&place(b)).then_with(|| compare(a.from(), a.weight, b.from(), b.weight)).is_gt();
    slots.windows(2).any(|w| later(&w[0], &w[1]))
}

fn wrong_total(house: &House, slots: &[Slot]) -> bool {
    house.order.doses.iter().enumerate().any(|(k, dose)| {
        let units = |s: &Slot| i128::from(s.to()) - i128::from(s.from());
        let total: i128 = slots.iter().filter(|s| s.dose as usize == k).map(units).sum();
        let time = house.classes.iter().find(|c| c.set >> k & 1 == 1).map_or(0, |c| c.time);
        total != i128::from(dose.grams) * i128::from(time)
    })
}

/// All clauses that plan bytes break; none if they stand.
pub fn broken(house: &House, plan: &[u8]) -> Vec<Broken> {
    let records: Vec<&[u8]> = plan.chunks_exact(RECORD).collect();
    let of_kind = |kind: u8| records.iter().copied().filter(move |r| r[0] == kind);
    let heads: Vec<&[u8]> = of_kind(b'C').collect();
    let wanted: Vec<[u8; RECORD]> = house.classes.iter().enumerate().map(|(i, c)| class_record(i + 1, c)).collect();
    let slots: Vec<Slot> = of_kind(b'S').map(slot_of).collect();
    let first_slot = records.iter().position(|r| r[0] == b'S').unwrap_or(records.len());
    let mut found = vec![
        ("length", !plan.len().is_multiple_of(RECORD)),
        ("kind", records.iter().any(|r| !b"CS".contains(&r[0]))),
        ("zero byte", heads.iter().any(|r| !zero(r, 12, 32)) || of_kind(b'S').any(|r| !zero(r, 29, 32))),
        ("class after slot", records[first_slot..].iter().any(|r| r[0] == b'C')),
        ("class record", heads.len() > wanted.len() || heads.iter().zip(&wanted).any(|(h, w)| h[..12] != w[..12])),
        ("classes missing", heads.len() < wanted.len()),
    ];
    found.extend(of_slots(house, &slots));
    found.extend([
        ("slots out of order", out_of_order(house, &slots)),
        ("overlap of a fan", some_pair(&slots, |a, b| a.fan == b.fan && meet(a, b))),
        ("overlap of a dose", some_pair(&slots, |a, b| a.dose == b.dose && meet(a, b))),
        ("total", wrong_total(house, &slots)),
    ]);
    found.into_iter().filter(|(_, is)| *is).map(|(name, _)| name).collect()
}
