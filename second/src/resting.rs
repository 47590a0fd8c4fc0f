//! C-16 asked of a peer: the rest between windows of a bay by both rules, 8's place, and what byte 2 of F may be.

use crate::adding::sheet;
use crate::answers::{accept, planned, refusal, PLAN_BUFFER};
use crate::cases::{amounts, one_bay, order, p1, p2, p3, p6, TOP};
use crate::checks::Checks;
use crate::closing::in_bays;
use crate::library::{Judged, DOSING, FINISHED, IDLE};
use crate::orders::{fan_record, write, Dose, Order, TrialBays, LAST_BAY, RECORD, REST, RESTS, WEEK};
use crate::refusals::{row, with};
use crate::season::NONE;
use crate::{laying, printer, samples};

/// The samples as they are stored, and what the printer says of them.
const STORED: [(&str, &[u8], &str); 2] = [
    ("rest", include_bytes!("../../samples/rest.order"), include_str!("../../samples/rest.txt")),
    ("short-rest", include_bytes!("../../samples/short-rest.order"), include_str!("../../samples/short-rest.txt")),
];

/// The order by rule 1.
fn rested(o: Order) -> Order {
    Order { rest: REST, ..o }
}

/// The record of a dose where F stands before dose `fan_at`.
fn record(dose: usize, fan_at: usize) -> usize {
    dose + usize::from(fan_at <= dose)
}

/// An order with F in every place: planned, in one class with a slot for each dose, or refused by 8 in the record of a dose.
fn in_every_place(c: &mut Checks, name: &str, o: &Order, clash: Option<usize>) {
    for fan_at in 0..=o.doses.len() {
        let (name, bytes) = (format!("{name}, rest {}, F before dose {fan_at}", o.rest), write(o, fan_at));
        match clash {
            None => drop(c.planned(&name, &bytes, o.doses.len().min(1) as u32, o.doses.len() as u32)),
            Some(dose) => c.refused(&name, &bytes, refusal(8, record(dose, fan_at))),
        }
    }
}

/// Two windows of a bay in both sequences and by both rules; they clash where they are apart by less than the rest.
fn two(c: &mut Checks, name: &str, [earlier, later]: [(u32, u32, u32); 2], apart: u32) {
    for (rest, windows) in RESTS.into_iter().flat_map(|rest| [(rest, [earlier, later]), (rest, [later, earlier])]) {
        let clash = if apart < rest { Some(1) } else { None };
        in_every_place(c, &format!("{name}, {windows:?}"), &Order { rest, ..one_bay(&windows) }, clash);
    }
}

pub fn edges(c: &mut Checks) {
    for apart in [0, 1, REST - 2, REST - 1, REST, REST + 1, REST + 2, 2 * REST] {
        let name = format!("{apart} seconds apart");
        two(c, &name, [(0, 4, 10), (4 + apart, 8 + apart, 10)], apart);
        two(c, &name, [(1_000, 1_900, 10), (1_900 + apart, 2_800 + apart, 10)], apart);
        // The rest after the last dose ends in the next week, where no dose is.
        two(c, &format!("{name}, at the week's end"), [(WEEK - 8 - apart, WEEK - 4 - apart, 10), (WEEK - 4, WEEK, 10)], apart);
    }
    two(c, "first and last second", [(0, 1, 10), (WEEK - 1, WEEK, 10)], WEEK - 2);
    two(c, "two halves of the week", [(0, WEEK / 2 - 1, 10), (WEEK / 2 + 1, WEEK, 10)], 2);
    for release in [0, 1, REST - 1, REST, WEEK - REST, WEEK - 1] {
        in_every_place(c, &format!("one dose, from {release}"), &rested(order(1, TOP, &[(release, release + 1, 10)])), None);
    }
    in_every_place(c, "no dose", &rested(order(1, TOP, &[])), None);
    // Doses of different bays need no rest, and those of one bay clash as before.
    for apart in [0, 1, REST - 1] {
        let o = rested(order(1, TOP, &[(0, 4, 10), (4 + apart, 8 + apart, 10)]));
        in_every_place(c, &format!("different bays, {apart} seconds apart"), &o, None);
    }
    in_every_place(c, "different bays, one window", &rested(order(2, TOP, &[(0, 4, 10); 2])), None);
    for second in [(3, 8, 10), (1, 2, 10), (0, 9, 10), (0, 4, 10)] {
        in_every_place(c, "overlapping", &rested(one_bay(&[(0, 4, 10), second])), Some(1));
    }
}

/// Three windows of a bay in every sequence, by their number in time, and those of them that are too near each other.
fn three(c: &mut Checks, name: &str, middle: (u32, u32, u32), clashes: &[[usize; 2]]) {
    let windows = [(0, 10, 10), middle, (620, 630, 10)];
    for sequence in [[0, 1, 2], [0, 2, 1], [1, 0, 2], [1, 2, 0], [2, 0, 1], [2, 1, 0]] {
        let at = |window: usize| sequence.iter().position(|&i| i == window).expect("each window comes once");
        // The first D that is too near an earlier one.
        let clash = clashes.iter().map(|&[one, other]| at(one).max(at(other))).min();
        in_every_place(c, &format!("{name}, {sequence:?}"), &rested(one_bay(&sequence.map(|i| windows[i]))), clash);
    }
}

/// Eight doses in each of three bays, 300 seconds apart, the last of each bay by so many less.
fn day(less: u32) -> Order {
    let dose = |i: u32| {
        let release = i / 3 * (100 + REST) - if i >= 21 { less } else { 0 };
        Dose { bay: 1 + i % 3, release, deadline: release + 100, grams: 10 }
    };
    Order { doses: (0..24).map(dose).collect(), ..rested(order(3, TOP, &[])) }
}

pub fn places(c: &mut Checks) {
    three(c, "three, the rest twice", (310, 320, 10), &[]);
    three(c, "three, the first two too near", (309, 319, 10), &[[0, 1]]);
    three(c, "three, the last two too near", (311, 321, 10), &[[1, 2]]);
    three(c, "three, all too near", (309, 321, 10), &[[0, 1], [1, 2]]);
    let between = |last| rested(in_bays(order(1, TOP, &[(0, 10, 10), (10, 20, 10), (310, 320, 10), last]), &[5, 7, 5, 7]));
    in_every_place(c, "two bays in turn", &between((320, 330, 10)), None);
    in_every_place(c, "two bays in turn, the last too near", &between((319, 329, 10)), Some(3));
    for fan_at in [0, 12, 24] {
        c.planned(&format!("24 doses, F before dose {fan_at}"), &write(&day(0), fan_at), 1, 24);
        let mut short = day(1);
        c.refused(&format!("24 doses, three too near, F before dose {fan_at}"), &write(&short, fan_at), refusal(8, record(21, fan_at)));
        short.doses.reverse();
        c.refused(&format!("24 doses from the last on, F before dose {fan_at}"), &write(&short, fan_at), refusal(8, record(3, fan_at)));
    }
}

/// Bytes of an F, and what it is refused by.
const SPOILT: [(&[(usize, u8)], u32); 20] = [
    (&[(2, 2)], 5),
    (&[(2, 3)], 5),
    (&[(2, 127)], 5),
    (&[(2, 128)], 5),
    (&[(2, 254)], 5),
    (&[(2, 255)], 5),
    (&[(2, 2), (1, 0)], 5),
    (&[(2, 1), (1, 0)], 5),
    (&[(2, 1), (1, 9)], 5),
    (&[(2, 1), (8, 0)], 5),
    (&[(3, 1)], 4),
    (&[(3, 255)], 4),
    (&[(2, 1), (3, 1)], 4),
    (&[(2, 2), (3, 1)], 4),
    (&[(2, 255), (3, 255)], 4),
    (&[(2, 2), (12, 1)], 4),
    (&[(2, 255), (31, 1)], 4),
    (&[(2, 1), (20, 1)], 4),
    (&[(3, 1), (1, 0)], 4),
    (&[(2, 2), (3, 2), (1, 9)], 4),
];

/// Byte 2 of F in every place, with other faults of that F.
fn of_fans(c: &mut Checks) {
    for fan_at in 0..=2 {
        let right = write(&p1(TOP), fan_at);
        let spoilt = |changes: &[(usize, u8)]| with(&right, &changes.iter().map(|&(at, b)| (fan_at * RECORD + at, b)).collect::<Vec<_>>());
        for rule in [0, 1] {
            c.planned(&format!("rule {rule}, F in record {fan_at}"), &spoilt(&[(2, rule)]), 2, 2);
        }
        for (changes, number) in SPOILT {
            c.refused(&format!("{number}: {changes:?} in F, record {fan_at}"), &spoilt(changes), refusal(number, fan_at));
        }
    }
}

/// Byte 2 above 1, or too short a rest, with faults elsewhere.
fn with_others(c: &mut Checks) {
    let short = one_bay(&[(0, 4, 10), (303, 307, 10)]);
    let last = with(&write(&short, 2), &[(2 * RECORD + 2, 2)]);
    for (number, at, value) in [(3, 0, b'd'), (4, 31, 1), (5, 12, 0)] {
        c.refused(&format!("{number} in a dose before F"), &with(&last, &[(RECORD + at, value)]), refusal(number, 1));
        let first = with(&write(&short, 0), &[(2, 2), (RECORD + at, value)]);
        c.refused(&format!("{number} in a dose behind F"), &first, refusal(5, 0));
        let right = with(&write(&rested(short.clone()), 2), &[(RECORD + at, value)]);
        c.refused(&format!("{number} before 8"), &right, refusal(number, 1));
    }
    c.refused("5 before 8", &last, refusal(5, 2));
    c.refused("5 before 6", &[&last[..], &fan_record(1, 0, 1, 1)].concat(), refusal(5, 2));
    for rests in [[0, REST], [REST, 0], [REST, REST]] {
        let two_fans = [&fan_record(1, rests[0], 1, 1)[..], &last[..2 * RECORD], &fan_record(1, rests[1], 1, 1)].concat();
        c.refused(&format!("6 before 8: F of rests {rests:?}"), &two_fans, refusal(6, 0));
    }
    c.refused("6 before 8: no F", &last[..2 * RECORD], refusal(6, 0));
    c.refused("7 before 8", &write(&rested(one_bay(&[(0, 4, 10); 25])), 25), refusal(7, 0));
    c.refused("7 by rule 1", &with(&row(25), &[(2, 1)]), refusal(7, 0));
    let slow = |second| Order { top_grams: 1, ..rested(one_bay(&[(0, 4, 10), second])) };
    for fan_at in 0..=2 {
        c.refused("8 before 9", &write(&slow((303, 307, 10)), fan_at), refusal(8, record(1, fan_at)));
        let nine = Judged { number: 9, place: 0, set: 3, weight: 20, time: 8 };
        c.refused("9 by rule 1", &write(&slow((304, 308, 10)), fan_at), nine);
        // In a trial bay 15 is planning's, 8 the others'.
        let old = write(&in_bays(rested(short.clone()), &[LAST_BAY; 2]), fan_at);
        c.plan("15 before 8", &old, PLAN_BUFFER, planned(refusal(15, record(0, fan_at))));
        c.refused_with_a_plan("8 in a trial bay", &old, refusal(8, record(1, fan_at)));
    }
}

pub fn rules(c: &mut Checks) {
    of_fans(c);
    with_others(c);
}

/// The examples by rule 1, each dose in its own bay: planned, judged, drawn and laid as by rule 0.
fn as_by_rule_0(c: &mut Checks) {
    for (name, o, classes, slots) in [("P1", p1(TOP), 2, 2), ("P2", p2(), 1, 4), ("P3", p3(), 1, 2), ("P6", p6(), 2, 3)] {
        let [plan, same] = RESTS.map(|rest| c.planned(name, &write(&Order { rest, ..o.clone() }, 0), classes, slots));
        c.same(&format!("{name}, the plan by rule 1"), &same, &plan);
        c.judge(&format!("{name}, judged by rule 1"), &write(&rested(o), 0), &plan, Judged::default());
    }
    let one = rested(p1(TOP));
    let plan = accept(&write(&one, 0), TrialBays::Closed).expect("P1 is an order").plan(None);
    amounts(c, "P1 by rule 1", &one, &plan, 0, &[(3, 0, IDLE, 0), (4, 0, DOSING, 1), (6, 6, DOSING, 1), (10, 20, FINISHED, 0)]);
    laying::rows(c, &one);
}

/// The stored samples are the made ones, and printed as stored.
fn stored(c: &mut Checks) {
    for (name, bytes, text) in STORED {
        let made = samples::all().into_iter().find(|(other, _)| *other == name).map(|(_, made)| made);
        c.same(&format!("the stored {name} is the made one"), Some(bytes.to_vec()), made);
        c.same(&format!("what is said of the stored {name}"), printer::plan(bytes), text.into());
    }
    let (good, short) = (STORED[0], STORED[1]);
    let plan = c.planned("the stored rest", good.1, 5, 11);
    let house = accept(good.1, TrialBays::Closed).expect("the sample is an order");
    c.same("the stored rest, printed whole", house.stands(&plan).map(|slots| printer::lines(&house, &slots)), Ok(good.2.into()));
    c.judge("the stored rest", good.1, &plan, Judged::default());
    c.refused("the stored short rest", short.1, refusal(8, 3));
    let other_valves = with(short.1, &[(short.1.len() - RECORD + 2, 0)]);
    c.planned("the stored short rest by rule 0", &other_valves, 5, 11);
}

/// Every order of a stream is read by its own rule.
fn streams(c: &mut Checks) {
    let by_rules = |windows: &[(u32, u32, u32)]| RESTS.map(|rest| write(&Order { rest, ..one_bay(windows) }, 0));
    let [touching, refused] = by_rules(&[(0, 4, 10), (4, 8, 10)]);
    let [apart, accepted] = by_rules(&[(0, 4, 10), (304, 308, 10)]);
    let rate = (20, 8);
    c.season("touching by rule 0, then by rule 1", &[&touching[..], &refused].concat(), sheet((1, &[8], 20, 8, rate)));
    c.season("touching by rule 1, then by rule 0", &[&refused[..], &touching].concat(), sheet((1, &[8], 20, 8, rate)));
    c.season("apart by both, touching by both", &[accepted, apart, refused.clone(), touching].concat(), sheet((3, &[8], 60, 24, rate)));
    c.season("too near alone", &refused.repeat(3), sheet((0, &[8; 3], 0, 0, NONE)));
    c.season("F alone by each rule", &[fan_record(1, 0, 1, 1), fan_record(1, REST, 1, 1)].concat(), sheet((2, &[], 0, 0, NONE)));
    for (number, at, value) in [(5, 2, 2), (5, 2, 255), (4, 3, 1)] {
        let stream = [&refused[..], &with(&refused, &[(at, value)]), &refused].concat();
        c.season(&format!("byte {at} of the second F is {value}"), &stream, sheet((0, &[8, number, 8], 0, 0, NONE)));
    }
}

pub fn others(c: &mut Checks) {
    as_by_rule_0(c);
    stored(c);
    streams(c);
}
