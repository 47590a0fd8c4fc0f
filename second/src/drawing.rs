//! Drawing asked of a peer: refusals 10, 11 and 12 at their edges, and the pen.

use crate::answers::{accept, refused, House};
use crate::cases::{order, p1, p2, p6, TOP};
use crate::checks::Checks;
use crate::layout::Slot;
use crate::orders::{write, Order, TrialBays, WEEK};

/// An example with the second program's plan for it; the shares of the examples are not open.
pub fn example(o: &Order) -> (Vec<u8>, House, Vec<Slot>, Vec<u8>) {
    let bytes = write(o, 1);
    let house = accept(&bytes, TrialBays::Open).expect("an accepted order");
    let (slots, plan) = (house.slots(None), house.plan(None));
    (bytes, house, slots, plan)
}

pub fn edges(c: &mut Checks) {
    let (bytes, house, slots, plan) = example(&p2());
    for tick in [0, 1, 2, 3, WEEK - 1, WEEK] {
        for dose in 0..3 {
            c.point(&format!("dose {dose} of 3 at {tick}"), &bytes, &plan, dose, tick, house.draw(&slots, dose, tick));
        }
        for dose in [3, 4, 24, 1 << 32, usize::MAX] {
            c.not_drawn(&format!("11: dose {dose} of 3 at {tick}"), &bytes, &plan, dose, tick, refused(11));
        }
    }
    for tick in [WEEK + 1, 1 << 31, u32::MAX] {
        for dose in 0..3 {
            c.not_drawn(&format!("12: dose {dose} at {tick}"), &bytes, &plan, dose, tick, refused(12));
        }
        for dose in [3, usize::MAX] {
            c.not_drawn(&format!("11 before 12: dose {dose} of 3 at {tick}"), &bytes, &plan, dose, tick, refused(11));
        }
    }
    for fallen in [&plan[32..], &plan[..plan.len() - 1], &[]] {
        for (dose, tick) in [(0, 0), (3, 0), (0, WEEK + 1), (usize::MAX, u32::MAX)] {
            c.not_drawn(&format!("10 first: dose {dose} at {tick}"), &bytes, fallen, dose, tick, refused(10));
        }
    }
    let empty = write(&order(3, TOP, &[]), 0);
    c.not_drawn("11: no dose at all", &empty, &[], 0, WEEK + 1, refused(11));
}

pub fn pen(c: &mut Checks) {
    for (name, o) in [("P1", p1(TOP)), ("P2", p2()), ("P6", p6())] {
        let (bytes, house, slots, plan) = example(&o);
        for dose in 0..o.doses.len() {
            for tick in (0..12).chain([WEEK - 2, WEEK - 1]) {
                let name = format!("{name}: pen of dose {dose} at {tick}");
                c.step(&name, &bytes, &plan, dose, tick, (house.draw(&slots, dose, tick + 1), tick + 1));
            }
            for tick in [WEEK, WEEK + 1, u32::MAX] {
                c.step(&format!("{name}: 12, dose {dose} at {tick}"), &bytes, &plan, dose, tick, (refused(12), tick));
            }
        }
        let none = o.doses.len();
        for tick in [0, WEEK - 1, WEEK, u32::MAX] {
            c.step(&format!("{name}: 11, pen of dose {none} at {tick}"), &bytes, &plan, none, tick, (refused(11), tick));
            c.step(&format!("{name}: 10, fallen plan, pen at {tick}"), &bytes, &plan[..32], 0, tick, (refused(10), tick));
        }
    }
}
