//! C-14 asked of a peer: 15 in planning alone, "in 5's place for that record after 5 itself, with the record's place"; judging, drawing, the
//! pen and laying answer of trial bays as of all others.

use crate::answers::{accept, not_laid, planned, refusal, refused, PLAN_BUFFER};
use crate::cases::{amounts, order, p1, p2, p3, p6, TOP};
use crate::checks::Checks;
use crate::library::{Judged, Laid, DOSING, FINISHED, IDLE};
use crate::log::{meter_record, COUNTER, PER_GRAM};
use crate::orders::{fan_record, put, write, Order, TrialBays, FIRST_TRIAL_BAY, LAST_BAY, MILLION, RECORD, WEEK};
use crate::random::Random;
use crate::refusals::{with, TOO_SHORT};
use crate::{laying, samples, seconds};

/// A trial bay between the first and the last.
const BETWEEN: u32 = FIRST_TRIAL_BAY + 50;

/// The sample as it is stored.
const STORED: [&[u8]; 2] = [include_bytes!("../../samples/old.order"), include_bytes!("../../samples/old.plan")];

/// The doses of an order in these bays.
pub fn in_bays(mut o: Order, bays: &[u32]) -> Order {
    o.doses.iter_mut().zip(bays).for_each(|(d, &bay)| d.bay = bay);
    o
}

/// Equal doses one after the other in these bays: a class, and a slot each.
fn row(bays: &[u32]) -> Order {
    let windows: Vec<_> = (0..bays.len() as u32).map(|i| (10 * i, 10 * i + 5, 20)).collect();
    in_bays(order(2, TOP, &windows), bays)
}

/// 15 in planning, after 1.
fn not_planned(c: &mut Checks, name: &str, order: &[u8], place: usize) {
    c.plan(name, order, PLAN_BUFFER, planned(refusal(15, place)));
    c.plan(name, order, PLAN_BUFFER + 1_000, planned(refusal(15, place)));
    c.plan(name, order, PLAN_BUFFER - 1, TOO_SHORT);
}

/// 15 in planning, and the same bytes refused otherwise by judging, drawing, the pen and laying.
fn otherwise(c: &mut Checks, name: &str, order: &[u8], place: usize, wanted: Judged) {
    not_planned(c, name, order, place);
    c.refused_with_a_plan(name, order, wanted);
}

/// 15 in planning; this plan stands, and every dose is drawn and laid beside a log by it. Without its last record it falls.
fn read_as_old(c: &mut Checks, name: &str, order: &[u8], place: usize, plan: &[u8]) {
    not_planned(c, name, order, place);
    c.judge(name, order, plan, Judged::default());
    let house = accept(order, TrialBays::Open).expect("an old order");
    let slots = house.stands(plan).unwrap_or_default();
    for (dose, tick) in seconds::edges(&slots, slots.len(), &mut Random::new(5)) {
        let name = format!("{name}, dose {dose} at {tick}");
        c.point(&name, order, plan, dose, tick, house.draw(&slots, dose, tick));
        c.step(&name, order, plan, dose, tick, (house.draw(&slots, dose, tick + 1), tick + 1));
    }
    for (dose, d) in house.order.doses.iter().enumerate() {
        let log = [meter_record(d.bay, d.release, COUNTER, 7), meter_record(d.bay, d.deadline, COUNTER, 9)].concat();
        let risen = u64::from(d.grams * PER_GRAM);
        c.log(name, order, plan, dose, &log, Laid { metered: u64::from(2 * PER_GRAM), risen, ..Laid::default() });
    }
    let (fallen, none) = (&plan[..plan.len().saturating_sub(RECORD)], house.order.doses.len());
    c.judge(name, order, fallen, refusal(10, 0));
    c.not_drawn(name, order, fallen, 0, 3, refused(10));
    c.log(name, order, fallen, 0, &[], not_laid(refusal(10, 0)));
    c.not_drawn(name, order, plan, none, 3, refused(11));
    c.not_drawn(name, order, plan, 0, WEEK + 1, refused(12));
    c.log(name, order, plan, none, &[], not_laid(refusal(11, 0)));
}

/// The same with this program's plan.
fn old_order(c: &mut Checks, name: &str, order: &[u8], place: usize) {
    let house = accept(order, TrialBays::Open).expect("an old order");
    read_as_old(c, name, order, place, &house.plan(None));
}

/// A bay and what planning says of it. Two open ones have the low byte of a trial bay.
const BAYS: [(u32, u32); 14] = [
    (0, 5),
    (1, 0),
    (FIRST_TRIAL_BAY % 256, 0),
    (LAST_BAY % 256, 0),
    (FIRST_TRIAL_BAY - 2, 0),
    (FIRST_TRIAL_BAY - 1, 0),
    (FIRST_TRIAL_BAY, 15),
    (FIRST_TRIAL_BAY + 1, 15),
    (BETWEEN, 15),
    (LAST_BAY - 1, 15),
    (LAST_BAY, 15),
    (LAST_BAY + 1, 5),
    (LAST_BAY + 2, 5),
    (u16::MAX as u32, 5),
];

/// Each bay in each of three doses, with F in every place: the record's index is not always the dose's number.
pub fn edges(c: &mut Checks) {
    for (bay, number) in BAYS {
        for (dose, fan_at) in (0..3).flat_map(|dose| (0..=3).map(move |fan_at| (dose, fan_at))) {
            let mut bays = [10, 20, 30];
            bays[dose] = bay;
            let (bytes, place) = (write(&row(&bays), fan_at), dose + usize::from(fan_at <= dose));
            let name = format!("bay {bay} in record {place}, dose {dose}");
            match number {
                0 => drop(c.planned(&name, &bytes, 1, 3)),
                15 => old_order(c, &name, &bytes, place),
                _ => c.refused(&name, &bytes, refusal(number, place)),
            }
        }
    }
    for (fan_at, place) in [(0, 2), (1, 2), (2, 1)] {
        let bytes = write(&row(&[10, LAST_BAY, FIRST_TRIAL_BAY, BETWEEN]), fan_at);
        old_order(c, &format!("the first of three trial bays, F before dose {fan_at}"), &bytes, place);
    }
}

/// F and four doses, of which dose 1 in record 2 is in a trial bay.
fn four() -> Vec<u8> {
    write(&row(&[10, BETWEEN, 30, 40]), 0)
}

/// A byte that gives a record this fault.
fn fault(kind: u32, record: usize) -> (usize, u8) {
    match kind {
        3 => (record * RECORD, b'C'),
        4 => (record * RECORD + 31, 9),
        _ => (record * RECORD + 12, 0),
    }
}

/// 3, 4 and 5 in the record of the trial bay: each comes before 15.
fn in_the_record(c: &mut Checks) {
    for kind in [3, 4, 5] {
        c.refused(&format!("{kind} in the record itself"), &with(&four(), &[fault(kind, 2)]), refusal(kind, 2));
    }
    for at in [1].into_iter().chain(16..RECORD) {
        c.refused(&format!("4: byte {at} of the record itself"), &with(&four(), &[(2 * RECORD + at, 1)]), refusal(4, 2));
    }
    // Its window is [10, 15).
    let grams = [0, MILLION + 1, u32::MAX].map(|value| ("grams", 12, value));
    let releases = [15, WEEK, u32::MAX].map(|value| ("release", 4, value));
    let deadlines = [0, 10, WEEK + 1, u32::MAX].map(|value| ("deadline", 8, value));
    for (name, at, value) in grams.into_iter().chain(releases).chain(deadlines) {
        let mut bytes = four();
        put(&mut bytes[2 * RECORD..], at, 4, value);
        c.refused(&format!("5: {name} {value} in the record itself"), &bytes, refusal(5, 2));
    }
}

/// 3, 4 and 5 in other records: one before it comes first, one behind it is judging's alone.
fn in_others(c: &mut Checks) {
    for kind in [3, 4, 5] {
        c.refused(&format!("{kind} before"), &with(&four(), &[fault(kind, 1)]), refusal(kind, 1));
        let both = with(&four(), &[fault(kind, 1), fault(8 - kind, 3)]);
        c.refused(&format!("{kind} before and {} behind", 8 - kind), &both, refusal(kind, 1));
        for record in [3, 4] {
            otherwise(c, &format!("{kind} behind, in record {record}"), &with(&four(), &[fault(kind, record)]), 2, refusal(kind, record));
        }
    }
    for (kind, at, value) in [(3, 0, 0), (4, 3, 1), (5, 1, 0), (5, 2, 2)] {
        c.refused(&format!("{kind} in F, byte {at}, first"), &with(&four(), &[(at, value)]), refusal(kind, 0));
        let last = write(&row(&[10, BETWEEN, 30, 40]), 4);
        otherwise(c, &format!("{kind} in F, byte {at}, last"), &with(&last, &[(4 * RECORD + at, value)]), 1, refusal(kind, 4));
    }
    c.refused("bay 1,000 before", &write(&row(&[LAST_BAY + 1, LAST_BAY]), 0), refusal(5, 1));
    otherwise(c, "bay 1,000 behind", &write(&row(&[LAST_BAY, LAST_BAY + 1]), 0), 1, refusal(5, 2));
}

/// Faults of the whole order: 2 before 15, and 6 to 9 after it.
fn of_orders(c: &mut Checks) {
    let good = four();
    for len in [2 * RECORD + 1, 3 * RECORD - 1, 3 * RECORD + 1, 4 * RECORD - 1] {
        c.refused(&format!("2 before 15: {len} bytes"), &good[..len], refusal(2, 0));
        c.plan(&format!("1 before 2 and 15: {len} bytes"), &good[..len], PLAN_BUFFER - 1, TOO_SHORT);
    }
    c.refused("2 before 15: 1,632 bytes", &write(&row(&[BETWEEN; 50]), 0), refusal(2, 0));
    otherwise(c, "6: no F", &good[RECORD..], 1, refusal(6, 0));
    otherwise(c, "6: two F", &[&good[..], &fan_record(1, 0, 1, 1)].concat(), 2, refusal(6, 0));
    otherwise(c, "6: two F in front", &[&fan_record(1, 0, 1, 1), &good[..]].concat(), 3, refusal(6, 0));
    let bays: Vec<u32> = (1..25).collect();
    otherwise(c, "7: the first of 25 doses", &write(&row(&[&[LAST_BAY], &bays[..]].concat()), 25), 0, refusal(7, 0));
    otherwise(c, "7: the last of 25 doses", &write(&row(&[&bays[..], &[LAST_BAY]].concat()), 0), 25, refusal(7, 0));
    otherwise(c, "7: 49 doses", &write(&row(&[BETWEEN; 49]), 0), 1, refusal(7, 0));
    let mut clash = row(&[10, BETWEEN, 30, 10]);
    clash.doses[3].release = 4;
    otherwise(c, "8: in an open bay", &write(&clash, 0), 2, refusal(8, 4));
    let mut clash = row(&[10, BETWEEN, BETWEEN]);
    clash.doses[2].release = 14;
    otherwise(c, "8: in the trial bay itself", &write(&clash, 0), 2, refusal(8, 3));
    clash.doses[2].release = 15;
    old_order(c, "two doses of one trial bay that touch", &write(&clash, 0), 2);
    let nine = Judged { number: 9, place: 0, set: 2, weight: 16, time: 4 };
    otherwise(c, "9: P8", &write(&in_bays(p1((3, 1)), &[10, LAST_BAY]), 0), 2, nine);
    otherwise(c, "9: P8, F last", &write(&in_bays(p1((3, 1)), &[LAST_BAY, 10]), 2), 0, nine);
}

pub fn faults(c: &mut Checks) {
    in_the_record(c);
    in_others(c);
    of_orders(c);
}

/// The examples in trial bays with the plan of the examples, and the stored sample.
pub fn old(c: &mut Checks) {
    for (name, o, classes, slots) in [("P1", p1(TOP), 2, 2), ("P2", p2(), 1, 4), ("P3", p3(), 1, 2), ("P6", p6(), 2, 3)] {
        let plan = c.planned(name, &write(&o, 0), classes, slots);
        let bays = [LAST_BAY, FIRST_TRIAL_BAY, BETWEEN];
        read_as_old(c, &format!("{name} in trial bays"), &write(&in_bays(o, &bays), 0), 1, &plan);
    }
    let one = in_bays(p1(TOP), &[BETWEEN, FIRST_TRIAL_BAY]);
    let plan = accept(&write(&one, 0), TrialBays::Open).expect("an old order").plan(None);
    let line = [(3, 0, IDLE, 0), (4, 0, DOSING, 1), (5, 3, DOSING, 1), (6, 6, DOSING, 1), (7, 10, DOSING, 1), (10, 20, FINISHED, 0)];
    amounts(c, "P1 in trial bays", &one, &plan, 0, &line);
    laying::rows(c, &one);
    for bay in [0, 1, FIRST_TRIAL_BAY, BETWEEN - 1, LAST_BAY, LAST_BAY + 1] {
        let log = meter_record(bay, 5, COUNTER, 7);
        c.log(&format!("13: a log of bay {bay}"), &write(&one, 0), &plan, 0, &log, not_laid(refusal(13, 0)));
    }
    let [order, plan] = STORED;
    c.same("the stored sample is the made one", (order.to_vec(), plan.to_vec()), (samples::old(), samples::old_plan()));
    read_as_old(c, "the stored sample", order, 3, plan);
}
