//! What a run has met: orders, answers and broken clauses, so that its reach can be seen.

use crate::answers::House;
use crate::layout::Slot;
use crate::library::Judged;
use crate::log::{metered, Fault, Read, Reading, FAULTS};
use crate::orders::{read, read_records, Dose, Refusal, TrialBays, RECORD, REST};
use crate::rest::{by_rule, rule};
use crate::season::{above, sheet, Figures, Rate};
use crate::seconds::SECONDS;
use crate::stands::CLAUSES;
use crate::trial;

#[derive(Clone, Default)]
pub struct Tally {
    pub cases: u64,
    orders: [u64; 16],
    old: Old,
    rests: Rests,
    plannings: [u64; 16],
    drawings: [u64; 16],
    seconds: [u64; SECONDS.len()],
    standing: u64,
    clauses: [u64; CLAUSES.len()],
    doses: [u64; 25],
    most_slots: usize,
    logs: [u64; 16],
    faults: [u64; FAULTS.len()],
    stretches: [u64; STRETCHES.len()],
    most_records: usize,
    streams: Streams,
}

/// What was answered of streams, and of the orders in those that were read.
#[derive(Clone, Default)]
struct Streams {
    answers: [u64; 17],
    added_up: u64,
    most_orders: usize,
    orders: [u64; 10],
    /// Accepted orders with trial bays, and those of an F record alone.
    old: u64,
    alone: u64,
    /// Orders accepted by rule 1, and refused by the rest alone.
    rested: u64,
    short: u64,
    /// Streams in which another order has the greatest first class's rate, by other W and P; and a lower one of the same whole grams a second.
    ties: u64,
    near_ties: u64,
}

/// What was answered of orders that name trial bays.
#[derive(Clone, Default)]
struct Old {
    /// All of them by planning's answer; those that planning refuses by 15, by judging's.
    planning: [u64; 16],
    judging: [u64; 10],
    /// Whether the order in hand is refused by 15; plans of such orders that stand, their points and pens, their logs.
    in_hand: bool,
    standing: u64,
    drawn: u64,
    laid: u64,
}

/// What was met of the rest between doses.
#[derive(Clone, Default)]
struct Rests {
    /// Orders by rule 1 and orders that name no rule, by judging's answer.
    rule_1: [u64; 10],
    no_rule: [u64; 10],
    /// Those by rule 1 that are refused by 8: by the rest alone, and with a later place by rule 0.
    alone: u64,
    sooner: u64,
    /// Orders by rule 1 with two doses of a bay: F before all doses, between them, behind them.
    fans: [u64; 3],
    /// All such pairs: in the file as they are in time, and the other way round.
    pairs: [[u64; 2]; PAIRS.len()],
}

/// Two windows of a bay, by the seconds between them.
const PAIRS: [&str; 6] =
    ["overlapping", "under 299 seconds apart", "299 seconds apart", "300 seconds apart", "301 seconds apart", "further apart"];

/// Kinds of stretches in the logs that were laid.
const STRETCHES: [&str; 4] = ["counter", "counter that turns", "flow", "unknown"];

impl Tally {
    /// An order, as planning reads it and as judging does.
    pub fn order(&mut self, bytes: &[u8], new: &Result<House, Judged>, old: &Result<House, Judged>) {
        let answer = |read: &Result<House, Judged>| read.as_ref().map_or_else(|j| j.number as usize, |_| 0);
        self.cases += 1;
        self.orders[answer(new)] += 1;
        if let Ok(house) = old {
            self.doses[house.order.doses.len()] += 1;
        }
        self.old.in_hand = answer(new) == 15;
        self.old.planning[answer(new)] += u64::from(trial::first_record(bytes).is_some());
        self.old.judging[answer(old)] += u64::from(self.old.in_hand);
        match rule(bytes) {
            Some(1) => self.rests.order(bytes, old.as_ref().err()),
            Some(2..) => self.rests.no_rule[answer(old)] += 1,
            _ => {}
        }
    }

    pub fn planned(&mut self, number: u32) {
        self.plannings[number.min(15) as usize] += 1;
    }

    pub fn drawn(&mut self, number: u32) {
        self.drawings[number.min(15) as usize] += 1;
        self.old.drawn += u64::from(self.old.in_hand && number == 0);
    }

    /// A second whose state was asked for around a slot's edge.
    pub fn second(&mut self, kind: usize) {
        self.seconds[kind] += 1;
    }

    pub fn judged(&mut self, own: &Result<Vec<Slot>, &'static str>) {
        match own {
            Ok(slots) => {
                self.standing += 1;
                self.old.standing += u64::from(self.old.in_hand);
                self.most_slots = self.most_slots.max(slots.len());
            }
            Err(clause) => {
                let i = CLAUSES.iter().position(|c| c == clause).expect("every clause is listed");
                self.clauses[i] += 1;
            }
        }
    }

    pub fn laid(&mut self, number: u32) {
        self.logs[number.min(15) as usize] += 1;
        self.old.laid += u64::from(self.old.in_hand && number == 0);
    }

    /// A log asked of a plan that stands and a dose that it has.
    pub fn log(&mut self, own: &Result<Vec<Read>, (Refusal, Fault)>) {
        match own {
            Ok(log) => {
                self.most_records = self.most_records.max(log.len());
                log.windows(2).for_each(|ends| self.stretches[kind(ends[0], ends[1])] += 1);
            }
            Err((_, fault)) => {
                let i = FAULTS.iter().position(|f| f == fault).expect("every fault is listed");
                self.faults[i] += 1;
            }
        }
    }

    pub fn season(&mut self, number: u32) {
        self.streams.answers[number.min(16) as usize] += 1;
    }

    /// A stream whose sheet was held against those of two pieces.
    pub fn added_up(&mut self) {
        self.streams.added_up += 1;
    }

    /// A stream that was read: its orders, and what each adds or is refused by.
    pub fn stream(&mut self, orders: &[&[u8]], figures: &[Result<Figures, u32>]) {
        let s = &mut self.streams;
        s.most_orders = s.most_orders.max(orders.len());
        for (order, figures) in orders.iter().zip(figures) {
            s.orders[figures.as_ref().err().map_or(0, |&number| number as usize)] += 1;
            s.old += u64::from(figures.is_ok() && trial::first_record(order).is_some());
            s.alone += u64::from(figures.is_ok() && order.len() == RECORD);
            s.rested += u64::from(figures.is_ok() && rule(order) == Some(1));
            s.short += u64::from(*figures == Err(8) && read(&by_rule(order, 0), TrialBays::Open).is_ok());
        }
        let season = sheet(figures);
        let greatest = (season.weight, season.time);
        let met = |beside: fn(Rate, Rate) -> bool| figures.iter().flatten().filter_map(|f| f.first).any(|rate| beside(greatest, rate));
        s.ties += u64::from(met(|a, b| a != b && !above(a, b)));
        s.near_ties += u64::from(met(|a, b| above(a, b) && a.0 / a.1 == b.0 / b.1));
    }

    pub fn add(&mut self, other: &Tally) {
        self.cases += other.cases;
        self.standing += other.standing;
        self.most_slots = self.most_slots.max(other.most_slots);
        self.most_records = self.most_records.max(other.most_records);
        sum(&mut self.orders, &other.orders);
        sum(&mut self.old.planning, &other.old.planning);
        sum(&mut self.old.judging, &other.old.judging);
        self.old.standing += other.old.standing;
        self.old.drawn += other.old.drawn;
        self.old.laid += other.old.laid;
        self.rests.add(&other.rests);
        self.streams.add(&other.streams);
        sum(&mut self.plannings, &other.plannings);
        sum(&mut self.drawings, &other.drawings);
        sum(&mut self.seconds, &other.seconds);
        sum(&mut self.clauses, &other.clauses);
        sum(&mut self.doses, &other.doses);
        sum(&mut self.logs, &other.logs);
        sum(&mut self.faults, &other.faults);
        sum(&mut self.stretches, &other.stretches);
    }

    pub fn print(&self) {
        println!("cases {}", self.cases);
        println!("orders by answer      {}", row(&self.orders));
        println!("judged by doses       {}", row(&self.doses));
        println!("with trial bays       {}", row(&self.old.planning));
        println!("of 15, by judging     {}", row(&self.old.judging));
        let Old { standing, drawn, laid, .. } = self.old;
        println!("of 15, with plans     {standing} judged standing, {drawn} points and pens drawn, {laid} logs laid");
        self.rests.print();
        println!("planning by answer    {}", row(&self.plannings));
        println!("points, pens by answer {}", row(&self.drawings));
        for (kind, n) in SECONDS.iter().zip(self.seconds) {
            println!("seconds at slot edges {n:>9}  {kind}");
        }
        println!("plans judged standing {}, the longest of {} slots", self.standing, self.most_slots);
        for (clause, n) in CLAUSES.iter().zip(self.clauses) {
            println!("plans judged broken   {n:>9}  {clause}");
        }
        println!("logs by answer        {}, the longest laid of {} records", row(&self.logs), self.most_records);
        for (kind, n) in STRETCHES.iter().zip(self.stretches) {
            println!("stretches laid        {n:>9}  {kind}");
        }
        for (fault, n) in FAULTS.iter().zip(self.faults) {
            println!("logs refused          {n:>9}  {fault}");
        }
        self.streams.print();
    }
}

impl Rests {
    /// An order by rule 1, and what judging refuses it by.
    fn order(&mut self, bytes: &[u8], refusal: Option<&Judged>) {
        let number = refusal.map_or(0, |j| j.number as usize);
        self.rule_1[number] += 1;
        let touching = read(&by_rule(bytes, 0), TrialBays::Open);
        self.alone += u64::from(number == 8 && touching.is_ok());
        self.sooner += u64::from(number == 8 && touching.is_err_and(|r| refusal.is_some_and(|j| r.place > j.place as usize)));
        let Ok((order, _)) = read_records(bytes, TrialBays::Open) else { return };
        let mut two = false;
        for (i, d) in order.doses.iter().enumerate() {
            for e in order.doses[..i].iter().filter(|e| e.bay == d.bay) {
                self.pairs[pair(e, d)][usize::from(d.release < e.release)] += 1;
                two = true;
            }
        }
        let fan_at = bytes.chunks(RECORD).take_while(|r| r[0] == b'D').count();
        let place = if fan_at == 0 { 0 } else { 1 + usize::from(fan_at == order.doses.len()) };
        self.fans[place] += u64::from(two);
    }

    fn add(&mut self, other: &Rests) {
        sum(&mut self.rule_1, &other.rule_1);
        sum(&mut self.no_rule, &other.no_rule);
        sum(&mut self.fans, &other.fans);
        self.alone += other.alone;
        self.sooner += other.sooner;
        self.pairs.iter_mut().zip(&other.pairs).for_each(|(a, b)| sum(a, b));
    }

    fn print(&self) {
        println!("rule 1, by judging    {}", row(&self.rule_1));
        println!("no rule, by judging   {}", row(&self.no_rule));
        println!("8 by rule 1           {} by the rest alone, {} with a later place by rule 0", self.alone, self.sooner);
        let [before, between, behind] = self.fans;
        println!("two doses of a bay    F before all doses {before}, between them {between}, behind them {behind}");
        for (kind, [as_in_time, other_way]) in PAIRS.iter().zip(self.pairs) {
            println!("two windows of a bay  {as_in_time:>9} as in time, {other_way:>6} the other way round  {kind}");
        }
    }
}

impl Streams {
    fn add(&mut self, other: &Streams) {
        sum(&mut self.answers, &other.answers);
        sum(&mut self.orders, &other.orders);
        self.added_up += other.added_up;
        self.most_orders = self.most_orders.max(other.most_orders);
        self.old += other.old;
        self.alone += other.alone;
        self.rested += other.rested;
        self.short += other.short;
        self.ties += other.ties;
        self.near_ties += other.near_ties;
    }

    fn print(&self) {
        println!(
            "streams by answer     {}, the most orders {}, added up in two pieces {}",
            row(&self.answers),
            self.most_orders,
            self.added_up
        );
        println!("orders in streams     {}", row(&self.orders));
        println!("accepted in streams   {} with trial bays, {} of an F record alone, {} by rule 1", self.old, self.alone, self.rested);
        println!("refused in streams    {} by the rest alone", self.short);
        println!("greatest first class  {} streams with a tie, {} with a near tie", self.ties, self.near_ties);
    }
}

fn sum(a: &mut [u64], b: &[u64]) {
    a.iter_mut().zip(b).for_each(|(x, y)| *x += y);
}

/// The counts that are not zero.
fn row(list: &[u64]) -> String {
    let met = list.iter().enumerate().filter(|(_, &n)| n > 0);
    met.map(|(i, n)| format!("{i}: {n}")).collect::<Vec<_>>().join(", ")
}

/// The kind of two windows, by its place in the list.
fn pair(d: &Dose, e: &Dose) -> usize {
    let later = d.release.max(e.release);
    match later.checked_sub(d.deadline.min(e.deadline)) {
        None => 0,
        Some(apart) if apart < REST - 1 => 1,
        Some(apart) => 2 + (apart - (REST - 1)).min(3) as usize,
    }
}

/// The kind of a stretch, by its place in the list.
fn kind(earlier: Read, later: Read) -> usize {
    match (earlier.1, later.1) {
        (Reading::Counter(a), Reading::Counter(b)) => usize::from(b < a),
        _ if metered(earlier, later).is_some() => 2,
        _ => 3,
    }
}
