//! Judging asked of a peer: each clause of "A plan stands" broken alone, beside a plan that is right in that respect and stands; other
//! plans that stand than the planner's; and plans longer than any planner writes.

use crate::answers::{accept, refusal, refused, House, PLAN_BUFFER};
use crate::cases::{order, p1, p2, p3, p5, p6, TOP};
use crate::checks::Checks;
use crate::clauses;
use crate::demand3;
use crate::layout::{class_record, plan_bytes, Slot};
use crate::library::Judged;
use crate::orders::{write, Order, TrialBays, RECORD};
use crate::random::Random;
use crate::stands::Broken;
use crate::variants::{move_blocks, permute_fans, sorted, split};
use crate::{samples, seconds};

/// Slots of a plan around whose edges points are asked for: all of most plans here, some of the longest sample's.
const SLOTS: usize = 200;

/// An accepted order, its bytes, and the slots of the second program's plan.
struct Bench {
    bytes: Vec<u8>,
    house: House,
    slots: Vec<Slot>,
}

impl Bench {
    fn of(bytes: Vec<u8>) -> Bench {
        let house = accept(&bytes, TrialBays::Open).expect("an accepted order");
        let slots = house.slots(None);
        Bench { bytes, house, slots }
    }

    fn of_order(o: &Order) -> Bench {
        Bench::of(write(o, 0))
    }

    /// The plan of these slots, put in order.
    fn plan(&self, slots: &[Slot]) -> Vec<u8> {
        plan_bytes(&self.house.classes, &sorted(&self.house, slots.to_vec()))
    }

    /// A plan that stands: judged 0, drawn as the second program draws it, and true to demand 3 and C-12.
    fn right(&self, c: &mut Checks, name: &str, plan: &[u8]) {
        c.judge(name, &self.bytes, plan, Judged::default());
        c.same(name, clauses::broken(&self.house, plan), Vec::new());
        let slots = self.house.stands(plan).unwrap_or_default();
        c.same(name, slots.is_empty(), self.house.order.doses.is_empty());
        let mut r = Random::new(3);
        c.same(name, demand3::sentences(&self.house, &slots, 40, &mut r), Ok(()));
        c.same(name, seconds::sentences(&self.house, &slots, slots.len(), &mut r), Ok(()));
        let windows = self.house.order.doses.iter().enumerate();
        let asked = windows.flat_map(|(dose, d)| [(dose, d.release), (dose, d.deadline - 1), (dose, d.deadline)]);
        for (dose, tick) in asked.chain(seconds::edges(&slots, SLOTS, &mut r)) {
            c.point(&format!("{name}, dose {dose} at {tick}"), &self.bytes, plan, dose, tick, self.house.draw(&slots, dose, tick));
        }
    }

    /// A plan that breaks this clause and no other: judged and drawn 10, and the pen stays.
    fn wrong(&self, c: &mut Checks, name: &str, clause: Broken, plan: &[u8]) {
        c.judge(name, &self.bytes, plan, refusal(10, 0));
        c.not_drawn(name, &self.bytes, plan, 0, 1, refused(10));
        c.same(name, self.house.stands(plan).err(), Some(clause));
        c.same(name, clauses::broken(&self.house, plan), vec![clause]);
    }

    fn wrong_slots(&self, c: &mut Checks, name: &str, clause: Broken, slots: &[Slot]) {
        self.wrong(c, name, clause, &self.plan(slots));
    }
}

/// Length, kinds, zeros and C records. P6: dose 0 in class 1 of 8/2, dose 1 in class 2 of 4/4.
fn records(c: &mut Checks, six: &Bench) {
    let plan = six.plan(&six.slots);
    six.right(c, "P6", &plan);
    let with = |change: &dyn Fn(&mut Vec<u8>)| {
        let mut bytes = plan.clone();
        change(&mut bytes);
        bytes
    };
    for more in [1, 16, 31] {
        six.wrong(c, "ragged length", "length", &with(&|b| b.resize(plan.len() + more, 0)));
    }
    for kind in [0, b'F', b'D', b'c', b's', 255] {
        let mut unknown = [0; RECORD];
        unknown[0] = kind;
        six.wrong(c, "unknown kind, last", "kind", &with(&|b| b.extend(unknown)));
        six.wrong(c, "unknown kind, first", "kind", &with(&|b| drop(b.splice(0..0, unknown))));
    }
    for at in (12..32).chain(2 * RECORD + 29..3 * RECORD).chain(4 * RECORD + 29..5 * RECORD) {
        six.wrong(c, &format!("byte {at} not zero"), "zero byte", &with(&|b| b[at] = 1));
    }
    six.wrong(c, "C out of order", "class record", &with(&|b| b[..2 * RECORD].rotate_left(RECORD)));
    let other = plan_bytes(&Bench::of_order(&p1(TOP)).house.classes, &six.slots);
    six.wrong(c, "C of another order", "class record", &other);
    for at in [1, 2, 3, 4, 7, 8, 11] {
        six.wrong(c, &format!("C with another byte {at}"), "class record", &with(&|b| b[at] += 1));
    }
    let extra = class_record(3, &six.house.classes[1]);
    six.wrong(c, "a C too many", "class record", &with(&|b| drop(b.splice(2 * RECORD..2 * RECORD, extra))));
    six.wrong(c, "a C too few", "classes missing", &with(&|b| drop(b.drain(RECORD..2 * RECORD))));
    six.wrong(c, "no C", "classes missing", &with(&|b| drop(b.drain(..2 * RECORD))));
    six.wrong(c, "C behind a slot", "class after slot", &with(&|b| b[RECORD..3 * RECORD].rotate_left(RECORD)));
    let empty = Bench::of_order(&order(3, TOP, &[]));
    empty.right(c, "no doses, no plan", &[]);
    empty.wrong(c, "a C without doses", "class record", &extra);
    empty.wrong(c, "a zero byte without doses", "length", &[0]);
}

/// Fields of a slot. P6: dose 0 on fan 1 in [0,2), dose 1 on fan 2 in [0,2) and on fan 1 in [2,4).
fn fields(c: &mut Checks, six: &Bench) {
    let [a, b, d] = [six.slots[0], six.slots[1], six.slots[2]];
    let foreign = Slot { class: 1, weight: 8, time: 2, end: (3, 0), ..d };
    six.wrong_slots(c, "dose of another class", "dose not of class", &[a, b, foreign]);
    six.wrong_slots(c, "a slot of dose 2", "dose not of class", &[a, b, d, Slot { fan: 2, dose: 2, ..d }]);
    six.wrong_slots(c, "class 0", "no such class", &[a, b, Slot { class: 0, ..d }]);
    six.wrong_slots(c, "class 3", "no such class", &[a, b, Slot { class: 3, ..d }]);
    six.wrong_slots(c, "another W, as many units", "W or P", &[a, b, Slot { weight: 8, end: (3, 0), ..d }]);
    six.wrong_slots(c, "another P", "W or P", &[a, b, Slot { time: 5, ..d }]);
    six.wrong_slots(c, "fan 0", "no such fan", &[a, b, Slot { fan: 0, ..d }]);
    six.wrong_slots(c, "fan 3 of 2", "no such fan", &[a, Slot { fan: 3, ..b }, d]);
    six.wrong_slots(c, "end part W", "part not below W", &[Slot { end: (1, 8), ..a }, b, d]);
    let carried = plan_bytes(&six.house.classes, &[a, b, Slot { start: (1, 4), ..d }]);
    six.wrong(c, "start part W", "part not below W", &carried);
    six.wrong_slots(c, "no length at the release", "start not before end", &[a.cut(0, 0), a, b, d]);
    six.right(c, "a slot in two", &six.plan(&[a.cut(0, 8), a.cut(8, 16), b, d]));
    six.wrong_slots(c, "no length between two", "start not before end", &[a.cut(0, 8), a.cut(8, 8), a.cut(8, 16), b, d]);
}

/// Places of slots in time and on fans. The units of dose 0 are eighths of a tick, those of dose 1 quarters.
fn places(c: &mut Checks, six: &Bench) {
    let [a, b, d] = [six.slots[0], six.slots[1], six.slots[2]];
    let on = |fan: u32, s: Slot| Slot { fan, ..s };
    six.wrong_slots(c, "a unit past the deadline", "outside the window", &[a.cut(0, 15), on(2, a.cut(16, 17)), b, d]);
    let late = Bench::of_order(&order(2, TOP, &[(2, 4, 8), (0, 4, 4)]));
    let [e, f, g] = [late.slots[0], late.slots[1], late.slots[2]];
    late.right(c, "P6 turned round", &late.plan(&late.slots));
    late.wrong_slots(c, "a unit before the release", "outside the window", &[e, on(2, f.cut(15, 16)), f.cut(17, 32), g]);
    six.right(c, "dose 1 on fan 2 throughout", &six.plan(&[a, b, on(2, d)]));
    six.wrong_slots(c, "across two intervals", "not in one interval", &[a, b.cut(0, 16)]);
    six.wrong_slots(c, "across by a unit", "not in one interval", &[a, b.cut(0, 9), on(2, d.cut(9, 16))]);
    six.wrong_slots(c, "two doses on one fan", "overlap of a fan", &[a, on(1, b), d]);
    six.wrong_slots(c, "two doses on one fan for a unit", "overlap of a fan", &[a, on(1, b.cut(7, 8)), b.cut(0, 7), d]);
    let crossing = [a.cut(0, 14), on(1, b.cut(7, 8)), b.cut(0, 7), on(2, a.cut(14, 16)), d];
    six.right(c, "fans crossed", &six.plan(&crossing));
    let eighth = [a.cut(0, 15), on(1, b.cut(7, 8)), b.cut(0, 7), on(2, a.cut(15, 16)), d];
    six.wrong_slots(c, "two doses on one fan for an eighth", "overlap of a fan", &eighth);
    let five = Bench::of_order(&p5());
    let s = five.slots[0];
    for cut in [1, 25, 49] {
        five.right(c, "one dose on two fans", &five.plan(&[s.cut(0, cut), on(2, s.cut(cut, 50))]));
        five.wrong_slots(c, "a dose with itself for a unit", "overlap of a dose", &[s.cut(0, cut), on(2, s.cut(cut - 1, 49))]);
    }
    let two = Bench::of_order(&p2());
    let [h, i, j, k] = [two.slots[0], two.slots[1], two.slots[2], two.slots[3]];
    six.wrong_slots(c, "a unit short", "total", &[a, b, d.cut(8, 15)]);
    two.wrong_slots(c, "a unit from dose 1 to dose 0", "total", &[h.cut(0, 61), i.cut(61, 90), j, k]);
    six.wrong_slots(c, "a slot short", "total", &[a, b]);
    six.wrong_slots(c, "no slot", "total", &[]);
    let three = Bench::of_order(&p3());
    let turned: Vec<Slot> = three.slots.iter().rev().copied().collect();
    three.wrong(c, "starts out of order", "slots out of order", &plan_bytes(&three.house.classes, &turned));
    six.wrong(c, "fans out of order", "slots out of order", &plan_bytes(&six.house.classes, &[b, a, d]));
    six.wrong(c, "intervals out of order", "slots out of order", &plan_bytes(&six.house.classes, &[a, d, b]));
    let mixed = [crossing[1], crossing[0], crossing[2], crossing[3], d];
    six.wrong(c, "starts of two classes out of order", "slots out of order", &plan_bytes(&six.house.classes, &mixed));
}

pub fn broken(c: &mut Checks) {
    let six = Bench::of_order(&p6());
    records(c, &six);
    fields(c, &six);
    places(c, &six);
}

/// Permuted fans, split slots, other shares and blocks moved in time, on the samples.
pub fn standing(c: &mut Checks) {
    for (name, bytes) in samples::all() {
        if accept(&bytes, TrialBays::Open).is_err() {
            continue;
        }
        let bench = Bench::of(bytes);
        let mut r = Random::new(2);
        let other = bench.house.slots(Some(&mut r));
        let shapes = [
            ("permuted fans", permute_fans(&bench.house, &bench.slots, &mut r)),
            ("split slots", split(&bench.slots, &mut r)),
            ("blocks moved", move_blocks(&bench.house, &other, &mut r)),
            ("other shares", other),
        ];
        for (shape, slots) in shapes {
            // The shares of these four are forced, and blocks are whole seconds, of which cut has one.
            let free = !matches!((name, shape), ("p2" | "cut" | "old" | "rest", "other shares") | ("cut", "blocks moved"));
            c.same(&format!("{name}, {shape}: another plan"), slots != bench.slots, free);
            bench.right(c, &format!("{name}, {shape}"), &plan_bytes(&bench.house.classes, &slots));
        }
    }
}

/// One slot split into 3,000: more records than the planner's buffer holds.
pub fn long(c: &mut Checks) {
    let bench = Bench::of_order(&order(2, (1_000_000, 1), &[(0, 5, 9_000), (1, 4, 90)]));
    let dose = bench.slots.iter().find(|s| s.dose == 0 && s.start == (1, 0)).copied().expect("dose 0 has a fan from 1 to 4");
    let others: Vec<Slot> = bench.slots.iter().filter(|s| **s != dose).copied().collect();
    let pieces =
        |last: u64| (0..3_000).map(move |i| dose.cut(dose.from() + 9 * i, dose.from() + if i == 2_999 { last } else { 9 * i + 9 }));
    let plan = |last: u64| bench.plan(&others.iter().copied().chain(pieces(last)).collect::<Vec<_>>());
    let right = plan(27_000);
    c.same("longer than the buffer", right.len() > 2 * PLAN_BUFFER, true);
    bench.right(c, "a slot split into 3,000", &right);
    bench.wrong(c, "the same a unit short", "total", &plan(26_999));
    bench.wrong(c, "the same with one byte more", "length", &[&right[..], &[0]].concat());
}
