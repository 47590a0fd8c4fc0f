//! Random orders that pass 1 to 8, in many styles.

use crate::classes;
use crate::intervals::Intervals;
use crate::orders::{read, write, Dose, Order, TrialBays, FIRST_TRIAL_BAY, LAST_BAY, MILLION, MOST_DOSES, RESTS, WEEK};
use crate::random::Random;

const HARD: &[u8] = include_bytes!("../../samples/hard.order");

pub const STYLES: [&str; 14] = [
    "small",
    "one-second",
    "equal windows",
    "touching",
    "equal rates",
    "extreme grams",
    "week",
    "nested",
    "staircase",
    "close rates",
    "hard",
    "edges",
    "spread",
    "two groups",
];

const HARD_STYLE: usize = 10;

fn count(r: &mut Random) -> usize {
    match r.below(8) {
        0 => r.below(3) as usize,
        1 => MOST_DOSES,
        2 | 3 => r.below(25) as usize,
        _ => 1 + r.below(9) as usize,
    }
}

fn some_grams(r: &mut Random) -> u32 {
    match r.below(4) {
        0 => r.range(1, 12),
        1 => r.range(1, MILLION),
        _ => r.scaled(1, MILLION),
    }
}

/// A window inside [low, high].
fn window(r: &mut Random, low: u32, high: u32) -> (u32, u32) {
    let release = r.range(low, high - 1);
    (release, r.range(release + 1, high))
}

/// Windows and grams of one style; bays come later.
fn windows(style: usize, n: usize, r: &mut Random) -> Vec<(u32, u32, u32)> {
    let base = if r.once_in(3) { 0 } else { r.scaled(0, WEEK - 100) };
    let span = r.scaled(2, WEEK - base).max(2);
    let top = base + span;
    let rate = r.scaled(1, 1_000);
    let length = r.range(1, span);
    let group = [window(r, base, top), window(r, base, top), window(r, base, top)];
    (0..n as u32)
        .map(|i| match style {
            0 => {
                let (a, b) = window(r, 0, 12);
                (a, b, r.range(1, 12))
            }
            1 => {
                let a = base + r.range(0, (span - 1).min(5));
                (a, a + 1, some_grams(r))
            }
            2 => (group[0].0, group[0].1, some_grams(r)),
            4 => {
                let (a, b) = window(r, base, base + span.min(900));
                (a, b, (rate * (b - a)).min(MILLION))
            }
            5 => {
                let (a, b) = window(r, 0, WEEK);
                (a, b, r.pick(&[1, 1, MILLION, MILLION, 2, MILLION - 1]))
            }
            6 => {
                let (a, b) = window(r, 0, WEEK);
                (a, b, r.range(1, MILLION))
            }
            7 => {
                let half = span / 2;
                let inset = r.range(0, half.saturating_sub(1));
                (base + inset, (base + span - inset).max(base + inset + 1), some_grams(r))
            }
            8 => {
                let a = base + ((u64::from(i) * u64::from(span - 1)) / (n as u64 + 1)) as u32;
                (a, (a + length).min(top).max(a + 1), some_grams(r))
            }
            9 => {
                let (a, length) = (r.range(0, 8), 500_000 + r.range(0, 8));
                (a, a + length, length - r.range(0, 2))
            }
            11 => match r.below(3) {
                0 => (WEEK - 1, WEEK, some_grams(r)),
                1 => (0, r.pick(&[1, 2, WEEK - 1, WEEK]), some_grams(r)),
                _ => (r.pick(&[0, 1, WEEK - 2]), r.pick(&[WEEK - 1, WEEK]), some_grams(r)),
            },
            12 => (r.range(0, WEEK / 2 - 1), r.range(WEEK / 2, WEEK), r.range(1, MILLION)),
            13 => {
                let (a, b) = r.pick(&group);
                (a, b, r.range(1, 20))
            }
            _ => {
                let (a, b) = window(r, base, top);
                (a, b, some_grams(r))
            }
        })
        .collect()
}

/// Few bays, each with a row of windows that are as near each other as the rest lets them be, or nearly so.
pub fn rows(n: usize, rest: u32, r: &mut Random) -> Vec<Dose> {
    let bays = r.range(1, 3);
    let mut at = [0; 4];
    let most = r.pick(&[3, 50, WEEK / 24]);
    let mut doses = Vec::new();
    for _ in 0..n {
        let bay = r.range(1, bays);
        let release = at[bay as usize] + if r.once_in(2) { 0 } else { r.range(0, 3) };
        let deadline = release + r.range(1, most);
        if deadline > WEEK {
            break;
        }
        at[bay as usize] = deadline + rest;
        doses.push(Dose { bay: bay * 299, release, deadline, grams: some_grams(r) });
    }
    r.shuffle(&mut doses);
    doses
}

/// The hard sample with a few doses changed or left out.
fn hard(r: &mut Random) -> Vec<Dose> {
    let mut doses = read(HARD, TrialBays::Closed).expect("the sample is an order").doses;
    for _ in 0..r.below(4) {
        let i = r.below(doses.len() as u64) as usize;
        match r.below(3) {
            0 => drop(doses.remove(i)),
            1 => doses[i].grams = (doses[i].grams + r.range(0, 2)).saturating_sub(1).clamp(1, MILLION),
            _ => doses[i].deadline = (doses[i].deadline + r.range(0, 9)).min(WEEK),
        }
    }
    doses
}

/// An open bay for each.
fn own_bays(list: Vec<(u32, u32, u32)>, r: &mut Random) -> Vec<Dose> {
    let mut bays: Vec<u32> = (1..FIRST_TRIAL_BAY).collect();
    r.shuffle(&mut bays);
    list.into_iter().zip(bays).map(|((release, deadline, grams), bay)| Dose { bay, release, deadline, grams }).collect()
}

/// The last open bays.
const LAST_OPEN: [u32; 2] = [FIRST_TRIAL_BAY - 2, FIRST_TRIAL_BAY - 1];

/// A trial bay: the first ones, the last ones, one between, and any.
pub fn trial_bay(r: &mut Random) -> u32 {
    let any = r.range(FIRST_TRIAL_BAY, LAST_BAY);
    r.pick(&[FIRST_TRIAL_BAY, FIRST_TRIAL_BAY + 1, FIRST_TRIAL_BAY + 50, LAST_BAY - 1, LAST_BAY, any])
}

/// Bays renamed, all doses of a bay alike, so that windows stay apart: one order in five has trial bays, another one the last open bays.
fn rename(doses: &mut [Dose], r: &mut Random) {
    let how = r.below(5);
    if doses.is_empty() || how > 1 {
        return;
    }
    for _ in 0..r.pick(&[1, 1, 2, doses.len()]) {
        let old = r.pick(doses).bay;
        let new = if how == 0 { trial_bay(r) } else { r.pick(&LAST_OPEN) };
        if doses.iter().all(|d| d.bay != new) {
            doses.iter_mut().filter(|d| d.bay == old).for_each(|d| d.bay = new);
        }
    }
}

/// Sets the top rate just at, just above or just below the first class's rate, or anywhere.
fn set_top(order: &mut Order, r: &mut Random) {
    (order.top_grams, order.top_seconds) = (MILLION, 1);
    let how = r.below(8);
    if how < 4 {
        return;
    }
    if how == 4 {
        (order.top_grams, order.top_seconds) = (r.scaled(1, MILLION), r.scaled(1, MILLION));
        return;
    }
    let Some(first) = classes::first(order, &Intervals::of(order)) else { return };
    let (w, p) = (first.weight, first.time);
    let scale = (1..=24).find(|s| w % s == 0 && p % s == 0 && w / s <= 1_000_000 && p / s <= 1_000_000);
    let seconds = match scale {
        Some(s) if how == 5 => p / s,
        _ => u64::from(r.scaled(1, MILLION)),
    };
    let grams = (w * seconds).div_ceil(p) - r.below(2);
    if (1..=u64::from(MILLION)).contains(&grams) {
        (order.top_grams, order.top_seconds) = (grams as u32, seconds as u32);
    }
}

/// An order of this style that passes 2 to 8, of so many doses; the style of the hard sample has its own number.
fn of_style(style: usize, n: usize, r: &mut Random) -> Order {
    let rest = r.pick(&RESTS);
    let mut doses = match style {
        3 => rows(n, rest, r),
        HARD_STYLE => hard(r),
        _ => {
            let list = windows(style, n, r);
            own_bays(list, r)
        }
    };
    rename(&mut doses, r);
    let mut order = Order { fans: if r.once_in(4) { r.range(1, 2) } else { r.range(1, 8) }, top_grams: 1, top_seconds: 1, rest, doses };
    set_top(&mut order, r);
    order
}

/// An order that passes 2 to 8, by either rule of rest, and the style it has.
pub fn valid(r: &mut Random) -> (Order, usize) {
    let style = r.below(STYLES.len() as u64) as usize;
    let n = count(r);
    (of_style(style, n, r), style)
}

/// An order that passes 2 to 8, of any other style than the hard sample's, with at most so many doses.
pub fn few(most: u64, r: &mut Random) -> Order {
    let style = r.below(STYLES.len() as u64 - 1) as usize;
    let n = r.below(most + 1) as usize;
    of_style(if style < HARD_STYLE { style } else { style + 1 }, n, r)
}

/// Styles of orders for measuring.
pub const OVER_THE_WEEK: usize = 6;
pub const SPREAD: usize = 12;

/// An order of exactly `n` doses of one of these, for measuring.
pub fn exactly(n: usize, style: usize, r: &mut Random) -> Order {
    let list = windows(style, n, r);
    Order { fans: r.range(1, 8), top_grams: MILLION, top_seconds: 1, rest: 0, doses: own_bays(list, r) }
}

/// The bytes of an order with its F record anywhere, often first or last.
pub fn bytes(order: &Order, r: &mut Random) -> Vec<u8> {
    let last = order.doses.len();
    let anywhere = r.below(last as u64 + 1) as usize;
    write(order, r.pick(&[0, last, anywhere, anywhere]))
}
