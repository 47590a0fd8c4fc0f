//! C-12 asked of a peer: a dose is Dosing in each whole second in which it is fed, on the fan of the earliest slot. Points and pens.

use crate::answers::accept;
use crate::cases::{amounts, example, order, TOP};
use crate::checks::Checks;
use crate::layout::{plan_bytes, Slot};
use crate::library::{Drawn, Judged, DOSING, FINISHED, IDLE, SHUT};
use crate::orders::{write, Order, TrialBays};
use crate::random::Random;
use crate::seconds::sentences;
use crate::variants::sorted;

/// Tick, amount, state and fan.
type Row = (u32, u32, u32, u32);

/// A dose's points at some ticks, and a pen that moves on to each.
fn line(c: &mut Checks, name: &str, o: &Order, plan: &[u8], dose: usize, rows: &[Row]) {
    amounts(c, name, o, plan, dose, rows);
    for &(tick, amount, state, fan) in rows.iter().filter(|row| row.0 > 0) {
        let name = format!("{name}, pen of dose {dose} moved to {tick}");
        c.step(&name, &write(o, 0), plan, dose, tick - 1, (Drawn { amount, state, fan, ..Drawn::default() }, tick));
    }
}

/// Plans of the planner's own. Their shares are not open.
pub fn planned(c: &mut Checks) {
    let (name, o) = ("fed across the seconds", order(2, TOP, &[(0, 2, 10); 3]));
    let slots = [[1, 0, 0, 0, 1, 10, 1], [1, 1, 1, 10, 2, 0, 1], [2, 1, 0, 0, 0, 20, 1], [2, 2, 0, 20, 2, 0, 1]];
    let plan = example(c, name, &o, &[(7, 30, 4)], &slots);
    line(c, name, &o, &plan, 0, &[(0, 0, DOSING, 1), (1, 7, DOSING, 1), (2, 10, FINISHED, 0)]);
    line(c, name, &o, &plan, 1, &[(0, 0, DOSING, 2), (1, 5, DOSING, 1), (2, 10, FINISHED, 0)]);
    line(c, name, &o, &plan, 2, &[(0, 0, DOSING, 2), (1, 2, DOSING, 2), (2, 10, FINISHED, 0)]);

    let (name, o) = ("the earliest slot last in the file", order(2, TOP, &[(5, 6, 10); 3]));
    let slots = [[1, 0, 5, 0, 5, 20, 1], [1, 1, 5, 20, 6, 0, 1], [2, 1, 5, 0, 5, 10, 1], [2, 2, 5, 10, 6, 0, 1]];
    let plan = example(c, name, &o, &[(7, 30, 2)], &slots);
    for (dose, fan) in [(0, 1), (1, 2), (2, 2)] {
        line(c, name, &o, &plan, dose, &[(4, 0, SHUT, 0), (5, 0, DOSING, fan), (6, 10, FINISHED, 0), (7, 10, FINISHED, 0)]);
    }

    let (name, o) = ("fed between two seconds alone", order(1, TOP, &[(7, 8, 1); 3]));
    let plan = example(c, name, &o, &[(7, 3, 1)], &[[1, 0, 7, 0, 7, 1, 1], [1, 1, 7, 1, 7, 2, 1], [1, 2, 7, 2, 8, 0, 1]]);
    for dose in 0..3 {
        line(c, name, &o, &plan, dose, &[(6, 0, SHUT, 0), (7, 0, DOSING, 1), (8, 1, FINISHED, 0)]);
    }

    // A slot that ends at t and one that starts at t+1 have no time in the second.
    let (name, o) = ("slots that begin and end with a second", order(2, TOP, &[(5, 8, 10); 3]));
    let slots = [[1, 0, 5, 0, 7, 0, 1], [1, 1, 7, 0, 8, 0, 1], [2, 1, 5, 0, 6, 0, 1], [2, 2, 6, 0, 8, 0, 1]];
    let plan = example(c, name, &o, &[(7, 30, 6)], &slots);
    line(c, name, &o, &plan, 0, &[(4, 0, SHUT, 0), (5, 0, DOSING, 1), (6, 5, DOSING, 1), (7, 10, IDLE, 0), (8, 10, FINISHED, 0)]);
    line(c, name, &o, &plan, 1, &[(4, 0, SHUT, 0), (5, 0, DOSING, 2), (6, 5, IDLE, 0), (7, 5, DOSING, 1), (8, 10, FINISHED, 0)]);
    line(c, name, &o, &plan, 2, &[(4, 0, SHUT, 0), (5, 0, IDLE, 0), (6, 0, DOSING, 2), (7, 5, DOSING, 2), (8, 10, FINISHED, 0)]);

    let (name, o) = ("slots that begin and end within a second", order(2, TOP, &[(0, 7, 10); 3]));
    let slots = [[1, 0, 0, 0, 4, 20, 1], [1, 1, 4, 20, 7, 0, 1], [2, 1, 0, 0, 2, 10, 1], [2, 2, 2, 10, 7, 0, 1]];
    let plan = example(c, name, &o, &[(7, 30, 14)], &slots);
    line(c, name, &o, &plan, 0, &[(3, 6, DOSING, 1), (4, 8, DOSING, 1), (5, 10, IDLE, 0), (6, 10, IDLE, 0), (7, 10, FINISHED, 0)]);
    let cut = [(1, 2, DOSING, 2), (2, 4, DOSING, 2), (3, 5, IDLE, 0), (4, 5, DOSING, 1), (5, 5, DOSING, 1), (6, 7, DOSING, 1)];
    line(c, name, &o, &plan, 1, &cut);
    line(c, name, &o, &plan, 2, &[(0, 0, IDLE, 0), (1, 0, IDLE, 0), (2, 0, DOSING, 2), (3, 1, DOSING, 2), (7, 10, FINISHED, 0)]);

    let (name, o) = ("all given before the deadline", order(1, TOP, &[(0, 10, 20), (6, 10, 16)]));
    let plan = example(c, name, &o, &[(2, 16, 4), (1, 20, 6)], &[[1, 0, 0, 0, 6, 0, 2], [1, 1, 6, 0, 10, 0, 1]]);
    line(c, name, &o, &plan, 0, &[(5, 16, DOSING, 1), (6, 20, IDLE, 0), (9, 20, IDLE, 0), (10, 20, FINISHED, 0)]);
    line(c, name, &o, &plan, 1, &[(5, 0, SHUT, 0), (6, 0, DOSING, 1), (9, 12, DOSING, 1), (10, 16, FINISHED, 0)]);
}

/// Dose, fan, start and end in units.
type Piece = (u32, u32, u64, u64);

/// A plan that is not the planner's, put in order. It must stand and be true to C-12.
fn laid(c: &mut Checks, name: &str, o: &Order, pieces: &[Piece]) -> Vec<u8> {
    let bytes = write(o, 0);
    let house = accept(&bytes, TrialBays::Open).expect("an accepted order");
    let model = house.slots(None)[0];
    let slots = sorted(&house, pieces.iter().map(|&(dose, fan, from, to)| Slot { dose, fan, ..model.cut(from, to) }).collect());
    let plan = plan_bytes(&house.classes, &slots);
    c.judge(name, &bytes, &plan, Judged::default());
    c.same(name, house.stands(&plan).err(), None);
    c.same(name, sentences(&house, &slots, slots.len(), &mut Random::new(4)), Ok(()));
    plan
}

/// One dose on three fans, never without one: its units are tenths of a second, and it is given two grams in each second.
const ALWAYS: [(&str, &[Piece], [u32; 5]); 7] = [
    ("the earliest first in the file", &[(0, 1, 0, 15), (0, 2, 15, 50)], [1, 1, 2, 2, 2]),
    ("the earliest second in the file", &[(0, 2, 0, 15), (0, 1, 15, 50)], [2, 2, 1, 1, 1]),
    ("the earliest neither first nor last in the file", &[(0, 2, 0, 14), (0, 1, 14, 17), (0, 3, 17, 50)], [2, 2, 3, 3, 3]),
    ("four in one second", &[(0, 2, 0, 12), (0, 1, 12, 14), (0, 2, 14, 17), (0, 1, 17, 50)], [2, 2, 1, 1, 1]),
    ("one for each second", &[(0, 3, 0, 10), (0, 2, 10, 20), (0, 1, 20, 30), (0, 3, 30, 40), (0, 1, 40, 50)], [3, 2, 1, 3, 1]),
    ("each a tenth past its second", &[(0, 3, 0, 11), (0, 2, 11, 21), (0, 1, 21, 31), (0, 3, 31, 41), (0, 1, 41, 50)], [3, 3, 2, 1, 3]),
    ("cut on one fan", &[(0, 2, 0, 11), (0, 2, 11, 13), (0, 2, 13, 19), (0, 1, 19, 21), (0, 2, 21, 50)], [2, 2, 1, 2, 2]),
];

/// Three doses on two fans in [5, 6), each with 20 of its 30 units.
const SHARED: [(&str, &[Piece], [u32; 3]); 3] = [
    ("fans turned", &[(1, 1, 150, 160), (2, 1, 160, 180), (0, 2, 150, 170), (1, 2, 170, 180)], [2, 1, 1]),
    (
        "cut in four",
        &[(0, 1, 150, 170), (1, 1, 170, 174), (1, 1, 174, 180), (1, 2, 150, 153), (1, 2, 153, 160), (2, 2, 160, 180)],
        [1, 2, 2],
    ),
    (
        "fed three times in one second",
        &[(0, 1, 150, 168), (1, 1, 168, 176), (0, 1, 176, 178), (1, 1, 178, 180), (2, 2, 150, 151), (1, 2, 151, 161), (2, 2, 161, 180)],
        [1, 2, 2],
    ),
];

pub fn several(c: &mut Checks) {
    let o = order(3, TOP, &[(0, 5, 10)]);
    for (name, pieces, fans) in ALWAYS {
        let plan = laid(c, name, &o, pieces);
        let rows = fans.iter().zip(0..).map(|(&fan, tick)| (tick, 2 * tick, DOSING, fan));
        line(c, name, &o, &plan, 0, &rows.chain([(5, 10, FINISHED, 0)]).collect::<Vec<Row>>());
    }
    let o = order(2, TOP, &[(5, 6, 10); 3]);
    for (name, pieces, fans) in SHARED {
        let plan = laid(c, name, &o, pieces);
        for (dose, fan) in fans.into_iter().enumerate() {
            line(c, name, &o, &plan, dose, &[(4, 0, SHUT, 0), (5, 0, DOSING, fan), (6, 10, FINISHED, 0)]);
        }
    }
}
