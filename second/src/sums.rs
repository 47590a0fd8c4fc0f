//! The sentences of C-15 that hold of every stream, held against what came back of it and of its orders alone.

use crate::answers::{accept, House, PLAN_BUFFER};
use crate::layout::Slot;
use crate::library::{Peer, Season};
use crate::orders::{number, TrialBays, RECORD};
use crate::season::{above, fan_seconds, sheet, Figures};

/// Of every plan that stands, whoever laid it: its slots take the fan-seconds that are "the sum of P over classes".
pub fn fan_time(house: &House, slots: &[Slot]) -> Result<(), String> {
    let (slots, classes) = (fan_seconds(slots), house.classes.iter().map(|c| c.time).sum());
    if slots == Some(classes) {
        Ok(())
    } else {
        Err(format!("slots of {slots:?} fan-seconds, and P of all classes {classes}"))
    }
}

/// Every F record begins an order, which is accepted or refused.
pub fn counts(stream: &[u8], season: &Season) -> Result<(), String> {
    let orders = stream.chunks(RECORD).filter(|r| r[0] == b'F').count();
    if season.accepted as usize + season.refused.iter().map(|&n| n as usize).sum::<usize>() == orders {
        Ok(())
    } else {
        Err(format!("{orders} F records, and {season:?}"))
    }
}

/// Two streams that are read add up if one is put behind the other: of equal first classes the earlier stream's is the greatest.
pub fn adds_up(whole: &Season, [earlier, later]: [&Season; 2]) -> Result<(), String> {
    let later_first = above((later.weight, later.time), (earlier.weight, earlier.time));
    let greatest = if later_first { later } else { earlier };
    let mut sum = Season { weight: greatest.weight, time: greatest.time, ..Season::default() };
    for part in [earlier, later] {
        sum.accepted += part.accepted;
        sum.refused.iter_mut().zip(part.refused).for_each(|(n, more)| *n += more);
        sum.grams += part.grams;
        sum.seconds += part.seconds;
    }
    if *whole == sum {
        Ok(())
    } else {
        Err(format!("two streams put together do not add up: {earlier:?} and {later:?}, and {whole:?}"))
    }
}

/// Records of one kind in an order or a plan.
fn records(bytes: &[u8], kind: u8) -> impl Iterator<Item = &[u8]> {
    bytes.chunks(RECORD).filter(move |r| r[0] == kind)
}

/// The time of an S record: its W, start and end.
fn slot(r: &[u8]) -> Slot {
    let [start, end] = [4, 12].map(|at| (number(r, at, 4), number(r, at + 4, 4)));
    Slot { fan: 0, dose: 0, start, end, weight: number(r, 20, 4), time: 0, class: 0 }
}

/// The plan that a peer gives for an order, or, of trial bays, this program's, if the peer judges it as standing.
fn plan_of(peer: &dyn Peer, order: &[u8], buffer: &mut [u8]) -> Result<Vec<u8>, String> {
    let planned = peer.plan(order, buffer);
    if planned.number == 0 {
        return Ok(buffer[..(planned.classes + planned.slots) as usize * RECORD].to_vec());
    }
    let house = accept(order, TrialBays::Open).ok().filter(|_| planned.number == 15);
    let plan = house.ok_or_else(|| format!("an order accepted by judging, and not planned: {planned:?}"))?.plan(None);
    match peer.judge(order, &plan) {
        judged if judged.number == 0 => Ok(plan),
        judged => Err(format!("a plan of trial bays, judged: {judged:?}")),
    }
}

/// An order as judging reads it alone; its figures by the bytes of a plan: its grams, the times of the plan's slots, which are the P of its
/// classes, and its first class. An empty plan stands for no doses, and falls by 10 for an accepted order that has some.
fn alone(peer: &dyn Peer, order: &[u8], buffer: &mut [u8]) -> Result<Result<Figures, u32>, String> {
    let plan = match peer.judge(order, &[]).number {
        0 => Vec::new(),
        10 => plan_of(peer, order, buffer)?,
        refused => return Ok(Err(refused)),
    };
    let classes: Vec<(u64, u64)> = records(&plan, b'C').map(|c| (u64::from(number(c, 4, 4)), u64::from(number(c, 8, 4)))).collect();
    let seconds = classes.iter().map(|(_, time)| time).sum();
    let times = fan_seconds(&records(&plan, b'S').map(slot).collect::<Vec<_>>());
    if times != Some(seconds) {
        return Err(format!("slots of {times:?} fan-seconds, and P of all classes {seconds}"));
    }
    Ok(Ok(Figures { grams: records(order, b'D').map(|d| u64::from(number(d, 12, 4))).sum(), seconds, first: classes.first().copied() }))
}

/// The figures of a stream that is read are those of its orders, asked of the other entry points one by one.
pub fn of_orders(peer: &dyn Peer, orders: &[&[u8]], season: &Season) -> Result<(), String> {
    let mut buffer = vec![0; PLAN_BUFFER];
    let mut figures = Vec::new();
    for order in orders {
        match alone(peer, order, &mut buffer)? {
            Err(number) if ![2, 3, 4, 5, 7, 8, 9].contains(&number) => return Err(format!("an order of a stream refused by {number}")),
            figure => figures.push(figure),
        }
    }
    let sheet = sheet(&figures);
    if sheet == *season {
        Ok(())
    } else {
        Err(format!("the orders alone come to {sheet:?}, and {season:?}"))
    }
}
