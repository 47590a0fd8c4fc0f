//! Document 01's bench examples P1 to P12, its run line and its whole print of P2, asked of a peer.

use crate::answers::{accept, refusal};
use crate::checks::Checks;
use crate::library::{Drawn, Judged, DOSING, FINISHED, IDLE, SHUT};
use crate::orders::{number, write, Dose, Order, TrialBays, FIRST_TRIAL_BAY, LAST_BAY, RECORD, REST};
use crate::printer;
use crate::refusals::with;

type Window = (u32, u32, u32);

pub const TOP: (u32, u32) = (1_000, 1);

/// An order by rule 0, each dose in a bay of its own.
pub fn order(fans: u32, top: (u32, u32), windows: &[Window]) -> Order {
    let doses = windows.iter().zip(1..).map(|(&(release, deadline, grams), bay)| Dose { bay, release, deadline, grams });
    Order { fans, top_grams: top.0, top_seconds: top.1, rest: 0, doses: doses.collect() }
}

pub fn p1(top: (u32, u32)) -> Order {
    order(1, top, &[(0, 10, 20), (0, 4, 16)])
}

pub fn p2() -> Order {
    order(2, TOP, &[(0, 3, 10); 3])
}

pub fn p3() -> Order {
    order(1, TOP, &[(0, 1, 1), (0, 1, 2)])
}

pub fn p5() -> Order {
    order(2, TOP, &[(0, 5, 10)])
}

pub fn p6() -> Order {
    order(2, TOP, &[(0, 2, 8), (0, 4, 4)])
}

pub fn p9() -> Order {
    order(1, (33_333, 10_000), &[(0, 3, 10)])
}

/// Two windows of one bay, F first.
pub fn one_bay(windows: &[Window]) -> Order {
    let mut o = order(1, TOP, windows);
    o.doses.iter_mut().for_each(|d| d.bay = 5);
    o
}

const P2_PRINT: &str = "class 1 3 30 6\nslot 1 0 0 0 2 0 1\nslot 1 1 2 0 3 0 1\nslot 2 1 0 0 1 0 1\nslot 2 2 1 0 3 0 1\ntotal 1 4\n";

/// P1 to P12 by name.
pub fn examples() -> Vec<(&'static str, Vec<u8>)> {
    let p4 = order(1, TOP, &[(0, 2, 4), (2, 4, 4)]);
    let list = [p1(TOP), p2(), p3(), p4, p5(), p6(), p1((4, 1)), p1((3, 1)), p9(), order(3, TOP, &[])];
    let names = ["p1", "p2", "p3", "p4", "p5", "p6", "p7", "p8", "p9", "p10"];
    let mut named: Vec<_> = names.into_iter().zip(list.iter().map(|o| write(o, 0))).collect();
    named.push(("p11", Vec::new()));
    named.push(("p12", write(&one_bay(&[(0, 4, 10), (4, 8, 10)]), 0)));
    named.push(("p12-overlap", write(&one_bay(&[(0, 4, 10), (3, 8, 10)]), 0)));
    named
}

/// The examples' orders, the samples, the edges of the trial bays and faults of the rest, as the first cases of every comparison.
pub fn fixed() -> Vec<Vec<u8>> {
    let mut list = vec![order(1, TOP, &[(0, 4, 0)]), order(1, TOP, &[(0, 4, 1_000_001)]), order(1, TOP, &[(0, 4, 1); 25])];
    // Two rates that differ by 1 part in 3 x 10^11.
    list.push(order(2, TOP, &[(0, 604_800, 604_799), (0, 604_799, 604_798)]));
    let mut bytes: Vec<Vec<u8>> = examples().into_iter().map(|(_, b)| b).collect();
    bytes.splice(10..10, list.iter().map(|o| write(o, 0)));
    bytes.extend(crate::samples::all().into_iter().map(|(_, b)| b));
    // Both sides of each edge of the trial bays, and one of them in a record of no grams.
    for (bay, grams) in [(FIRST_TRIAL_BAY - 1, 1), (FIRST_TRIAL_BAY, 1), (LAST_BAY, 1), (LAST_BAY + 1, 1), (LAST_BAY, 0)] {
        let mut one = order(1, TOP, &[(0, 4, grams)]);
        one.doses[0].bay = bay;
        bytes.push(write(&one, 0));
    }
    // Byte 2 of F above 1, also with byte 3; and three doses of a bay, of which the last in the file is too near the first alone.
    let right = write(&p1(TOP), 0);
    bytes.extend([with(&right, &[(2, 2)]), with(&right, &[(2, 2), (3, 1)])]);
    bytes.push(write(&Order { rest: REST, ..one_bay(&[(0, 4, 10), (900, 904, 10), (303, 307, 10)]) }, 3));
    bytes
}

/// The doses in a class, W and P.
type Said = (u32, u32, u32);
/// Fan, dose, start tick and part, end tick and part, class.
type Line = [u32; 7];

/// What a plan's own bytes say: of each class the doses in its slots, W and P; and the slots.
fn said(plan: &[u8]) -> (Vec<Said>, Vec<Line>) {
    let (heads, slots): (Vec<&[u8]>, Vec<&[u8]>) = plan.chunks(RECORD).partition(|r| r[0] == b'C');
    let doses =
        |class: &[u8]| slots.iter().filter(|s| s[28] == class[1]).fold(0, |set, s| set | 1u32.checked_shl(number(s, 2, 2)).unwrap_or(0));
    let line = |s: &&[u8]| {
        [number(s, 1, 1), number(s, 2, 2), number(s, 4, 4), number(s, 8, 4), number(s, 12, 4), number(s, 16, 4), number(s, 28, 1)]
    };
    (heads.iter().map(|c| (doses(c), number(c, 4, 4), number(c, 8, 4))).collect(), slots.iter().map(line).collect())
}

/// Plans an example and holds its classes and slots against document 01's; no example leaves the shares open.
pub fn example(c: &mut Checks, name: &str, o: &Order, classes: &[Said], slots: &[Line]) -> Vec<u8> {
    let bytes = write(o, 0);
    let plan = c.planned(name, &bytes, classes.len() as u32, slots.len() as u32);
    c.same(name, said(&plan), (classes.to_vec(), slots.to_vec()));
    c.judge(name, &bytes, &plan, Judged::default());
    c.same(name, accept(&bytes, TrialBays::Open).map(|house| house.stands(&plan).err()), Ok(None));
    plan
}

/// The drawn amounts of a dose at some ticks.
pub fn amounts(c: &mut Checks, name: &str, o: &Order, plan: &[u8], dose: usize, at: &[(u32, u32, u32, u32)]) {
    for &(tick, amount, state, fan) in at {
        c.point(
            &format!("{name}, dose {dose} at {tick}"),
            &write(o, 0),
            plan,
            dose,
            tick,
            Drawn { amount, state, fan, ..Drawn::default() },
        );
    }
}

fn print(c: &mut Checks, name: &str, o: &Order, plan: &[u8], wanted: &str) {
    let house = accept(&write(o, 0), TrialBays::Closed).ok();
    let text = house.and_then(|house| house.stands(plan).ok().map(|slots| printer::lines(&house, &slots)));
    c.same(name, text.as_deref(), Some(wanted));
}

pub fn proved(c: &mut Checks) {
    let (one, two) = (p1(TOP), p2());
    let p1_classes = [(2, 16, 4), (1, 20, 6)];
    let p1_slots = [[1, 1, 0, 0, 4, 0, 1], [1, 0, 4, 0, 10, 0, 2]];
    let plan = example(c, "P1", &one, &p1_classes, &p1_slots);
    let p1_line = [(4, 0, DOSING, 1), (5, 3, DOSING, 1), (6, 6, DOSING, 1), (7, 10, DOSING, 1), (10, 20, FINISHED, 0)];
    amounts(c, "P1", &one, &plan, 0, &p1_line);
    let p2_slots = [[1, 0, 0, 0, 2, 0, 1], [1, 1, 2, 0, 3, 0, 1], [2, 1, 0, 0, 1, 0, 1], [2, 2, 1, 0, 3, 0, 1]];
    let plan = example(c, "P2", &two, &[(7, 30, 6)], &p2_slots);
    amounts(c, "P2", &two, &plan, 1, &[(0, 0, DOSING, 2), (1, 5, IDLE, 0), (2, 5, DOSING, 1), (3, 10, FINISHED, 0)]);
    print(c, "P2, printed whole", &two, &plan, P2_PRINT);
    let plan = example(c, "P3", &p3(), &[(3, 3, 1)], &[[1, 0, 0, 0, 0, 1, 1], [1, 1, 0, 1, 1, 0, 1]]);
    amounts(c, "P3", &p3(), &plan, 0, &[(0, 0, DOSING, 1), (1, 1, FINISHED, 0)]);
    amounts(c, "P3", &p3(), &plan, 1, &[(0, 0, DOSING, 1), (1, 2, FINISHED, 0)]);
    let p4_slots = [[1, 0, 0, 0, 2, 0, 1], [1, 1, 2, 0, 4, 0, 1]];
    example(c, "P4", &order(1, TOP, &[(0, 2, 4), (2, 4, 4)]), &[(3, 8, 4)], &p4_slots);
    example(c, "P5", &p5(), &[(1, 10, 5)], &[[1, 0, 0, 0, 5, 0, 1]]);
    let p6_slots = [[1, 0, 0, 0, 2, 0, 1], [2, 1, 0, 0, 2, 0, 2], [1, 1, 2, 0, 4, 0, 2]];
    let plan = example(c, "P6", &p6(), &[(1, 8, 2), (2, 4, 4)], &p6_slots);
    amounts(c, "P6", &p6(), &plan, 1, &[(0, 0, DOSING, 2), (1, 1, DOSING, 2), (2, 2, DOSING, 1), (3, 3, DOSING, 1), (4, 4, FINISHED, 0)]);
    example(c, "P7", &p1((4, 1)), &p1_classes, &p1_slots);
    c.refused("P8", &write(&p1((3, 1)), 0), Judged { number: 9, place: 0, set: 2, weight: 16, time: 4 });
    c.refused("P9", &write(&p9(), 0), Judged { number: 9, place: 0, set: 1, weight: 10, time: 3 });
    let plan = example(c, "P10", &order(3, TOP, &[]), &[], &[]);
    print(c, "P10, printed whole", &order(3, TOP, &[]), &plan, "total 0 0\n");
    c.refused("P11", &[], refusal(6, 0));
    let p12_slots = [[1, 0, 0, 0, 4, 0, 1], [1, 1, 4, 0, 8, 0, 1]];
    example(c, "P12 touching", &one_bay(&[(0, 4, 10), (4, 8, 10)]), &[(3, 20, 8)], &p12_slots);
    c.refused("P12 overlapping", &write(&one_bay(&[(0, 4, 10), (3, 8, 10)]), 0), refusal(8, 2));
}

pub fn run_line(c: &mut Checks) {
    c.refused("grams 0", &write(&order(1, TOP, &[(0, 4, 0)]), 0), refusal(5, 1));
    c.refused("grams 1,000,001", &write(&order(1, TOP, &[(0, 4, 1_000_001)]), 0), refusal(5, 1));
    c.refused("25 doses", &write(&order(1, TOP, &[(0, 4, 1); 25]), 3), refusal(7, 0));
}

pub fn states(c: &mut Checks) {
    let o = order(2, TOP, &[(1, 4, 10); 3]);
    let p2_slots = [[1, 0, 1, 0, 3, 0, 1], [1, 1, 3, 0, 4, 0, 1], [2, 1, 1, 0, 2, 0, 1], [2, 2, 2, 0, 4, 0, 1]];
    let plan = example(c, "P2 a tick later", &o, &[(7, 30, 6)], &p2_slots);
    let line = [(0, 0, SHUT, 0), (1, 0, DOSING, 2), (2, 5, IDLE, 0), (3, 5, DOSING, 1), (4, 10, FINISHED, 0), (604_800, 10, FINISHED, 0)];
    amounts(c, "P2 a tick later", &o, &plan, 1, &line);
    let first = [(0, 0, SHUT, 0), (1, 0, DOSING, 1), (2, 5, DOSING, 1), (3, 10, IDLE, 0), (4, 10, FINISHED, 0)];
    amounts(c, "P2 a tick later", &o, &plan, 0, &first);
    let last = [(0, 0, SHUT, 0), (1, 0, IDLE, 0), (2, 0, DOSING, 2), (3, 5, DOSING, 2), (4, 10, FINISHED, 0)];
    amounts(c, "P2 a tick later", &o, &plan, 2, &last);
}
