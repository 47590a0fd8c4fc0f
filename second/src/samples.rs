//! The sample orders, a stored plan, and the orders of a season.

use crate::answers::accept;
use crate::cases::{examples, order, p2, TOP};
use crate::compare::order_of;
use crate::orders::{write, Dose, Order, TrialBays, REST};
use crate::random::Random;
use crate::streams;
use crate::variants::{damage, standing};
use std::path::Path;

const HARD: &[u8] = include_bytes!("../../samples/hard.order");

/// Hour and minute.
type Clock = (u32, u32);

/// Bay, release, deadline, grams.
type Row = (u32, Clock, Clock, u32);

/// A day of a house.
const DAY: [Row; 24] = [
    (101, (5, 30), (6, 15), 1_800),
    (102, (5, 30), (6, 15), 1_800),
    (103, (5, 45), (7, 0), 2_400),
    (104, (6, 0), (6, 5), 900),
    (105, (6, 0), (8, 0), 5_200),
    (106, (6, 0), (8, 0), 5_200),
    (107, (6, 0), (8, 0), 4_750),
    (108, (6, 0), (8, 0), 5_200),
    (109, (6, 0), (8, 0), 5_200),
    (110, (6, 0), (8, 30), 7_500),
    (111, (6, 10), (7, 40), 4_100),
    (112, (6, 15), (7, 45), 6_250),
    (113, (6, 15), (6, 45), 1_350),
    (114, (6, 30), (7, 10), 2_250),
    (115, (6, 30), (7, 10), 2_250),
    (104, (6, 30), (9, 0), 4_000),
    (101, (6, 40), (6, 50), 1_250),
    (102, (7, 0), (12, 0), 12_000),
    (103, (7, 0), (7, 20), 1_600),
    (101, (7, 15), (9, 0), 3_900),
    (106, (9, 15), (9, 16), 75),
    (107, (11, 0), (13, 0), 6_400),
    (201, (0, 0), (24, 0), 20_000),
    (202, (17, 59), (18, 0), 30),
];

/// A new order that names a trial bay, and then a dose of no grams: the trial bay comes first in planning, and judging meets the grams.
const TRIAL: [Row; 3] = [(101, (6, 0), (6, 30), 1_800), (950, (6, 10), (6, 40), 1_200), (102, (6, 20), (7, 0), 0)];

/// An old order with trial bays, from when they were open. Its shares are forced.
const OLD: [Row; 5] = [
    (101, (6, 0), (6, 20), 1_500),
    (102, (6, 0), (6, 30), 2_400),
    (950, (6, 10), (6, 30), 1_200),
    (901, (6, 25), (7, 0), 900),
    (101, (6, 30), (6, 50), 1_000),
];

/// An order for new valves: the doses of bays 101 and 102 are five minutes apart, that of bay 103 begins as another bay's ends. Its shares are
/// forced.
const RESTED: [Row; 6] = [
    (101, (6, 0), (6, 20), 1_500),
    (102, (6, 0), (6, 30), 2_400),
    (101, (6, 25), (6, 40), 900),
    (102, (5, 40), (5, 55), 600),
    (103, (6, 20), (6, 45), 1_200),
    (101, (6, 45), (7, 0), 700),
];

/// The dose of it that comes before another one of its bay in time, and behind it in the file.
const EARLY: usize = 3;

fn order_on(fans: u32, rows: &[Row]) -> Order {
    let seconds = |(h, m): Clock| h * 3_600 + m * 60;
    let dose = |&(bay, from, to, grams): &_| Dose { bay, release: seconds(from), deadline: seconds(to), grams };
    Order { fans, top_grams: 7, top_seconds: 2, rest: 0, doses: rows.iter().map(dose).collect() }
}

fn house() -> Order {
    order_on(8, &DAY)
}

pub fn old() -> Vec<u8> {
    write(&order_on(2, &OLD), 0)
}

pub fn old_plan() -> Vec<u8> {
    accept(&old(), TrialBays::Open).expect("an old order").plan(None)
}

/// Its F names rule 1, and stands last.
fn rested() -> Order {
    Order { rest: REST, ..order_on(2, &RESTED) }
}

/// The samples by name.
pub fn all() -> Vec<(&'static str, Vec<u8>)> {
    let mut fast = house();
    (fast.top_grams, fast.top_seconds) = (29, 10);
    let mut damaged = write(&house(), 0);
    damaged[7 * 32 + 21] = 0x40;
    // The middle dose is cut in two within its one second.
    let cut = write(&order(2, TOP, &[(5, 6, 10); 3]), 0);
    let own = [("p2", write(&p2(), 0)), ("house", write(&house(), 0)), ("fast", write(&fast, 0)), ("damaged", damaged)];
    let later = [("hard", HARD.to_vec()), ("cut", cut), ("trial", write(&order_on(2, &TRIAL), 0)), ("old", old())];
    // The rest after the early dose is a second too short.
    let mut short = rested();
    short.doses[EARLY].deadline += 1;
    let rests = [("rest", write(&rested(), RESTED.len())), ("short-rest", write(&short, RESTED.len()))];
    own.into_iter().chain(later).chain(rests).collect()
}

/// Days in the sample season: six weeks.
const DAYS: usize = 42;

/// An ordinary day of the season: from 8 doses to all of the house's, with more grams from day to day.
fn ordinary(day: usize) -> Order {
    let rows = DAY.iter().enumerate().filter(|(i, _)| (7 * i + 5 * day) % DAY.len() < 8 + 11 * day % 17);
    let mut o = order_on(5 + day as u32 % 4, &rows.map(|(_, row)| *row).collect::<Vec<_>>());
    o.doses.iter_mut().for_each(|d| d.grams = d.grams * (58 + day as u32) / 100);
    o
}

/// The ordinary day with one more dose in it.
fn with_dose(day: usize, row: Row) -> Vec<u8> {
    let mut o = ordinary(day);
    o.doses.extend(order_on(1, &[row]).doses);
    write(&o, 0)
}

/// The ordinary day with one byte of it put to another.
fn with_byte(day: usize, at: usize, value: u8) -> Vec<u8> {
    let mut bytes = write(&ordinary(day), 0);
    bytes[at] = value;
    bytes
}

/// The orders of a season, a day an order: ordinary days, and among them each refusal that can come, trial bays, days without a dose, and two
/// doses at the top rate by different W and P.
fn season() -> Vec<u8> {
    let fast = Order { top_grams: 29, top_seconds: 10, ..house() };
    let mut crowded = house();
    crowded.doses.extend(order_on(8, &[(301, (9, 0), (10, 0), 900)]).doses);
    let three_days = order_on(8, &[&DAY[..], &DAY, &DAY[..2]].concat());
    let day = |day: usize| match day {
        3 | 29 => old(),
        5 => with_byte(day, 7 * 32 + 21, 0x40),
        9 => write(&fast, 0),
        12 => with_dose(day, (301, (9, 0), (10, 0), 0)),
        13 | 27 => write(&order_on(8, &[]), 0),
        16 => with_byte(day, 4 * 32, b'd'),
        18 => with_dose(day, (302, (10, 0), (10, 5), 1_050)),
        19 => with_dose(day, (201, (10, 0), (11, 0), 900)),
        22 => write(&crowded, 0),
        25 => write(&three_days, 0),
        33 => with_dose(day, (302, (10, 0), (10, 10), 2_100)),
        _ => write(&ordinary(day), 0),
    };
    (0..DAYS).flat_map(day).collect()
}

/// The sample streams by name. The second one is of orders whose F comes last.
pub fn streams() -> Vec<(&'static str, Vec<u8>)> {
    let last = [write(&order_on(2, &OLD), OLD.len()), write(&p2(), 3)].concat();
    vec![("season", season()), ("no-season", last)]
}

fn put(folder: &Path, name: &str, end: &str, bytes: &[u8]) -> bool {
    let file = folder.join(format!("{name}.{end}"));
    let written = std::fs::write(&file, bytes);
    println!("{}: {}", file.display(), written.as_ref().map_or_else(ToString::to_string, |()| format!("{} bytes", bytes.len())));
    written.is_ok()
}

/// Writes NAME.order for each sample, and in cases/ for P1 to P12, and NAME.stream for the streams; the texts beside them are the programs' own.
/// Also the old order's plan.
pub fn make(folder: &str) -> bool {
    let (samples, cases) = (Path::new(folder), Path::new(folder).join("cases"));
    std::fs::create_dir_all(&cases).is_ok()
        && all().iter().all(|(name, bytes)| put(samples, name, "order", bytes))
        && put(samples, "old", "plan", &old_plan())
        && streams().iter().all(|(name, bytes)| put(samples, name, "stream", bytes))
        && examples().iter().all(|(name, bytes)| put(&cases, name, "order", bytes))
}

/// A plan for an order as judging reads it: one that stands or a damaged one, and for a refused order no bytes.
fn plan_for(order: &[u8], r: &mut Random) -> Vec<u8> {
    let plan = accept(order, TrialBays::Open).map_or_else(|_| Vec::new(), |house| standing(&house, r));
    if r.once_in(2) {
        damage(&plan, r)
    } else {
        plan
    }
}

/// Writes the orders of a seed's first cases as 0.order, 1.order and so on, each with a plan for it as 0.plan and a stream as 0.stream.
pub fn make_cases(folder: &str, cases: u64, seed: u64) -> bool {
    let write_case = |number: u64| {
        let mut r = Random::of_case(seed, number);
        let order = order_of(number, &mut r);
        let plan = plan_for(&order, &mut r);
        let stream = streams::any(&order, &mut r);
        let file = |end: &str| Path::new(folder).join(format!("{number}.{end}"));
        [("order", order), ("plan", plan), ("stream", stream)].iter().all(|(end, bytes)| std::fs::write(file(end), bytes).is_ok())
    };
    std::fs::create_dir_all(folder).is_ok() && (0..cases).all(write_case)
}
