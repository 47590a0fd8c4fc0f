//! What the plan printer says of an order and the season's program of a stream, and what the second program thinks of an order.

use crate::answers::{accept, House, OWN};
use crate::layout::Slot;
use crate::library::{Judged, Peer};
use crate::line::State;
use crate::log::{self, PER_GRAM};
use crate::orders::{TrialBays, LONGEST_ORDER};
use crate::season::LONGEST_STREAM;
use std::fmt::Write;

fn refusal(j: &Judged) -> String {
    match j.number {
        9 => format!("refused 9 {} {} {} {}\n", j.place, j.set, j.weight, j.time),
        n => format!("refused {n} {}\n", j.place),
    }
}

pub fn plan(order: &[u8]) -> String {
    // One byte more than an order may have is read, so that a longer one is seen.
    match accept(&order[..order.len().min(LONGEST_ORDER + 1)], TrialBays::Closed) {
        Err(j) => refusal(&j),
        Ok(house) => lines(&house, &house.slots(None)),
    }
}

/// The lines of a plan with these slots.
pub fn lines(house: &House, slots: &[Slot]) -> String {
    let mut text = String::new();
    for (i, c) in house.classes.iter().enumerate() {
        writeln!(text, "class {} {} {} {}", i + 1, c.set.count_ones(), c.weight, c.time).unwrap();
    }
    for s in slots {
        let (a, b) = (s.start, s.end);
        writeln!(text, "slot {} {} {} {} {} {} {}", s.fan, s.dose, a.0, a.1, b.0, b.1, s.class).unwrap();
    }
    writeln!(text, "total {} {}", house.classes.len(), slots.len()).unwrap();
    text
}

/// "One figure a line in this order: accepted, a line of number and count for each refusal met, rising, grams, fan-seconds, then W and P on one
/// line; or `refused 16 0`."
pub fn season(stream: &[u8]) -> String {
    let s = OWN.season(&stream[..stream.len().min(LONGEST_STREAM + 1)]);
    if s.number != 0 {
        return format!("refused {} {}\n", s.number, s.place);
    }
    let met = s.refused.iter().enumerate().filter(|(_, &count)| count > 0);
    let refused: String = met.map(|(number, count)| format!("{number} {count}\n")).collect();
    format!("{}\n{refused}{}\n{}\n{} {}\n", s.accepted, s.grams, s.seconds, s.weight, s.time)
}

/// The classes of an order, each as a set with its W and P, or its refusal, as judging reads it.
pub fn classes(order: &[u8]) -> String {
    match accept(order, TrialBays::Open) {
        Err(j) => refusal(&j),
        Ok(house) => house.classes.iter().map(|c| format!("class {} {} {}\n", c.set, c.weight, c.time)).collect(),
    }
}

/// What a log comes to beside a dose's line, or why it is refused.
fn log_of(house: &House, slots: &[Slot], dose: usize, bytes: &[u8]) -> String {
    let Some(d) = house.order.doses.get(dose) else { return "no such dose".into() };
    match log::read(bytes, d.bay) {
        Err((r, fault)) => format!("refused {} {}: {fault}", r.number, r.place),
        Ok(log) => {
            let laid = house.lay(slots, dose, bytes);
            let (metered, risen) = (laid.metered, laid.risen);
            format!("{} records, metered {metered} and risen {risen} of 1/{PER_GRAM} gram, {} seconds unknown", log.len(), laid.unknown)
        }
    }
}

/// Doses, classes, the plan's verdict and a dose's log, in words; the order as judging reads it, and what planning alone says of it.
pub fn case(order: &[u8], plan: Option<&[u8]>, log: Option<(usize, &[u8])>) {
    println!("{} bytes of order", order.len());
    let old = accept(order, TrialBays::Open);
    if let Err(j) = accept(order, TrialBays::Closed) {
        if old.as_ref().err() != Some(&j) {
            print!("in planning alone: {}", refusal(&j));
        }
    }
    let house = match old {
        Err(j) => {
            print!("{}", refusal(&j));
            return;
        }
        Ok(house) => house,
    };
    let o = &house.order;
    println!("{} fans, top {}/{}, {} doses, {} intervals", o.fans, o.top_grams, o.top_seconds, o.doses.len(), house.spans.count());
    println!("{} seconds of rest between doses of a bay", o.rest);
    for (k, d) in o.doses.iter().enumerate() {
        println!("dose {k}: bay {}, [{}, {}) {} grams", d.bay, d.release, d.deadline, d.grams);
    }
    for (i, c) in house.classes.iter().enumerate() {
        let doses: Vec<usize> = (0..o.doses.len()).filter(|k| c.set >> k & 1 == 1).collect();
        println!("class {}: {}/{}, doses {doses:?}, reserved {:?}", i + 1, c.weight, c.time, c.reserved);
    }
    let own = house.plan(None);
    let plan = plan.unwrap_or(&own);
    match house.stands(plan) {
        Err(clause) => println!("the plan of {} bytes does not stand: {clause}", plan.len()),
        Ok(slots) => {
            println!("the plan of {} bytes stands, {} slots", plan.len(), slots.len());
            for (k, d) in o.doses.iter().enumerate() {
                let middle = d.release + (d.deadline - d.release) / 2;
                let p = house.point(&slots, k, middle);
                let state = match p.state {
                    State::Dosing(fan) => format!("Dosing on fan {fan}"),
                    other => format!("{other:?}"),
                };
                println!("dose {k} at {middle}: {} grams, {state}", p.amount);
            }
            if let Some((dose, bytes)) = log {
                println!("the log of dose {dose}: {}", log_of(&house, &slots, dose, bytes));
            }
        }
    }
}
