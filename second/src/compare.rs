//! One case: a peer's six entry points held against the second program's own.

use crate::answers::{accept, drawn, not_drawn, not_laid, planned, refusal, refused, House, PLAN_BUFFER};
use crate::demand3::sentences;
use crate::layout::Slot;
use crate::library::{Drawn, Judged, Laid, Peer, Planned};
use crate::measure::Measure;
use crate::orders::{put, TrialBays, FIRST_TRIAL_BAY, RECORD, WEEK};
use crate::random::Random;
use crate::tally::Tally;
use crate::{alone, cases, guard, log, meter, near, rest, season_case, seconds, stretches, sums, trial, variants};

/// A case in which the two differ, with the bytes that show it.
#[derive(Default)]
pub struct Difference {
    pub what: String,
    pub order: Vec<u8>,
    pub plan: Vec<u8>,
    pub log: Vec<u8>,
    pub stream: Vec<u8>,
}

/// As planning reads, and as the others do.
const BOTH: [TrialBays; 2] = [TrialBays::Closed, TrialBays::Open];

/// Slots of a damaged plan that still stands around whose edges points are asked for.
const FEW: usize = 4;

/// The record that is put into a trial bay where every length of order is asked.
const TRIAL_RECORD: usize = 9;

/// Once in so many accepted orders a log of about 4,096 records is laid.
const LONG: u64 = 8;

struct Case<'a> {
    peer: &'a dyn Peer,
    order: Vec<u8>,
    measure: Measure,
    r: &'a mut Random,
    tally: &'a mut Tally,
}

impl Case<'_> {
    fn differ<T>(&self, what: String, plan: &[u8]) -> Result<T, Difference> {
        self.differ_with(what, plan, &[])
    }

    fn differ_with<T>(&self, what: String, plan: &[u8], log: &[u8]) -> Result<T, Difference> {
        Err(Difference { what, order: self.order.clone(), plan: plan.to_vec(), log: log.to_vec(), stream: Vec::new() })
    }

    /// What came back of a lent call, or the byte that changed as a difference.
    fn got<T>(&self, answer: Result<T, String>, plan: &[u8]) -> Result<T, Difference> {
        answer.or_else(|what| self.differ(what, plan))
    }

    /// The order as planning reads it, with trial bays closed, and as judging, drawing, the pen and laying do, with trial bays open.
    fn own(&self) -> Result<[Result<House, Judged>; 2], Difference> {
        trial::sentence(&self.order).or_else(|what| self.differ(format!("C-14: {what}"), &[]))?;
        for trial_bays in BOTH {
            rest::sentence(&self.order, trial_bays).or_else(|what| self.differ(format!("C-16: {what}"), &[]))?;
        }
        Ok(BOTH.map(|trial_bays| accept(&self.order, trial_bays)))
    }

    /// A buffer that is too short, now and then; the answer is 1 whatever the order.
    fn short(&mut self, own: &Result<House, Judged>) -> Result<(), Difference> {
        let len = match self.r.below(6) {
            0 => self.r.pick(&[0, 1, 32, PLAN_BUFFER - 1, PLAN_BUFFER - 32]),
            1 => self.r.below(PLAN_BUFFER as u64) as usize,
            _ => return Ok(()),
        };
        self.plan(own, len).map(|_| ())
    }

    fn plan(&mut self, own: &Result<House, Judged>, len: usize) -> Result<Option<Vec<u8>>, Difference> {
        let lent = guard::plan(self.peer, &self.order, len, self.r);
        let (answer, plan) = self.got(lent, &[])?;
        self.tally.planned(answer.number);
        let wanted = match own {
            _ if len < PLAN_BUFFER => Planned { number: 1, ..Planned::default() },
            Err(refusal) => planned(*refusal),
            Ok(house) => Planned { classes: house.classes.len() as u32, slots: answer.slots, ..Planned::default() },
        };
        if answer != wanted {
            return self.differ(format!("planning with a buffer of {len}: {answer:?} and not {wanted:?}"), &[]);
        }
        let (Ok(house), true) = (own, answer.number == 0) else { return Ok(None) };
        match house.stands(&plan) {
            Err(clause) => self.differ(format!("the planner's plan does not stand: {clause}"), &plan),
            Ok(slots) if !house.by_wrap_around(&slots, &plan) => self.differ("a plan not laid by wrap-around".into(), &plan),
            Ok(_) => Ok(Some(plan)),
        }
    }

    /// The verdict on one plan; the answer is its slots if it stands.
    fn judge(&mut self, house: &House, plan: &[u8]) -> Result<Option<Vec<Slot>>, Difference> {
        let own = house.stands(plan);
        self.tally.judged(&own);
        let wanted = refusal(if own.is_ok() { 0 } else { 10 }, 0);
        let lent = guard::lend(&self.order, plan, self.r, |order, plan| self.peer.judge(order, plan));
        let answer = self.got(lent, plan)?;
        if answer != wanted {
            let why = own.err().unwrap_or("none");
            return self.differ(format!("judging: {answer:?} and not {}, clause broken: {why}", wanted.number), plan);
        }
        Ok(own.ok())
    }

    fn point(&mut self, plan: &[u8], wanted: Drawn, dose: usize, tick: u32) -> Result<(), Difference> {
        let lent = guard::lend(&self.order, plan, self.r, |order, plan| self.peer.point(order, plan, dose, tick));
        let answer = self.got(lent, plan)?;
        self.tally.drawn(answer.number);
        if answer != wanted {
            return self.differ(format!("dose {dose} at {tick}: {answer:?} and not {wanted:?}"), plan);
        }
        Ok(())
    }

    fn step(&mut self, plan: &[u8], wanted: Drawn, dose: usize, tick: u32, after: u32) -> Result<(), Difference> {
        let lent = guard::step(self.peer, &self.order, plan, dose, tick, self.r);
        let (answer, now) = self.got(lent, plan)?;
        self.tally.drawn(answer.number);
        if (answer, now) != (wanted, after) {
            return self.differ(format!("pen of dose {dose} at {tick}: {answer:?}, now at {now}, and not {wanted:?}, {after}"), plan);
        }
        Ok(())
    }

    /// Points around the edges of so many slots, each true to C-12.
    fn edges(&mut self, house: &House, slots: &[Slot], plan: &[u8], most: usize) -> Result<(), Difference> {
        for (dose, tick) in seconds::edges(slots, most, self.r) {
            let own = house.point(slots, dose, tick);
            self.point(plan, drawn(own), dose, tick)?;
            match seconds::sentence(house, slots, dose, tick, own.state) {
                Ok(kind) => self.tally.second(kind),
                Err(what) => return self.differ(format!("C-12: {what}"), plan),
            }
        }
        Ok(())
    }

    /// Points and pens on a plan that stands: at slot edges, the dose's edges, the week's end and by chance.
    fn draw(&mut self, house: &House, slots: &[Slot], plan: &[u8]) -> Result<(), Difference> {
        let n = house.order.doses.len();
        let mut asked = Vec::new();
        for (k, d) in house.order.doses.iter().enumerate() {
            let near = [0, 1, d.release.saturating_sub(1), d.release, d.release + 1, d.deadline - 1, d.deadline, d.deadline + 1];
            asked.extend(near.map(|t| (k, t)));
            asked.extend([WEEK - 1, WEEK, WEEK + 1, u32::MAX].map(|t| (k, t)));
            asked.extend((0..4).map(|_| (k, self.r.range(d.release, d.deadline))));
        }
        asked.extend(seconds::edges(slots, slots.len(), self.r));
        self.r.shuffle(&mut asked);
        asked.truncate(self.measure.points);
        asked.extend([(n, 0), (n + 1, WEEK + 1), (usize::MAX, u32::MAX), (n, self.r.range(0, WEEK))]);
        for (dose, tick) in asked {
            self.point(plan, house.draw(slots, dose, tick), dose, tick)?;
            let mut pen = if self.r.once_in(2) { tick.wrapping_sub(1) } else { tick };
            for _ in 0..self.r.range(0, 2) {
                let before = pen;
                let wanted = house.step(slots, dose, &mut pen);
                self.step(plan, wanted, dose, before, pen)?;
            }
        }
        Ok(())
    }

    fn log(&mut self, plan: &[u8], wanted: Laid, dose: usize, log: &[u8]) -> Result<(), Difference> {
        let lent = guard::log(self.peer, &self.order, plan, dose, log, self.r);
        let answer = lent.or_else(|what| self.differ_with(what, plan, log))?;
        self.tally.laid(answer.number);
        if answer != wanted {
            return self.differ_with(format!("dose {dose}, a log of {} bytes: {answer:?} and not {wanted:?}", log.len()), plan, log);
        }
        Ok(())
    }

    /// A log of any dose beside a plan that stands; C-11's sentences are held against it, now and then cut in two.
    fn lay(&mut self, house: &House, slots: &[Slot], plan: &[u8], dose: usize, bytes: &[u8]) -> Result<(), Difference> {
        let laid = house.lay(slots, dose, bytes);
        self.log(plan, laid, dose, bytes)?;
        let Some(d) = house.order.doses.get(dose) else { return Ok(()) };
        let own = log::read(bytes, d.bay);
        self.tally.log(&own);
        let Ok(records) = own else { return Ok(()) };
        let mut kept = stretches::sentences(house, slots, dose, &records, &laid);
        if !records.is_empty() && self.r.once_in(4) {
            let cut = self.r.below(records.len() as u64) as usize * RECORD;
            let pieces = [&bytes[..cut + RECORD], &bytes[cut..]];
            let figures = pieces.map(|piece| house.lay(slots, dose, piece));
            for (piece, laid) in pieces.into_iter().zip(figures) {
                self.log(plan, laid, dose, piece)?;
            }
            kept = kept.and_then(|()| stretches::adds_up(&laid, figures));
        }
        kept.or_else(|what| self.differ_with(format!("C-11: {what}"), plan, bytes))
    }

    /// Logs beside a plan that stands, also of doses that don't exist.
    fn logs(&mut self, house: &House, slots: &[Slot], plan: &[u8]) -> Result<(), Difference> {
        let n = house.order.doses.len();
        for _ in 0..self.measure.logs {
            if n == 0 || self.r.once_in(16) {
                let (dose, len) = (self.r.pick(&[n, n + 1, usize::MAX]), self.r.pick(&[0, 1, RECORD, log::LONGEST_LOG + RECORD]));
                self.lay(house, slots, plan, dose, &vec![b'M'; len])?;
            } else {
                let dose = self.r.below(n as u64) as usize;
                let bytes = meter::any(house, slots, dose, self.r);
                self.lay(house, slots, plan, dose, &bytes)?;
            }
        }
        Ok(())
    }

    /// A log of about as many records as there may be, whole or spoilt in one place.
    fn long_log(&mut self, house: &House, slots: &[Slot], plan: &[u8]) -> Result<(), Difference> {
        let dose = self.r.below(house.order.doses.len() as u64) as usize;
        let mut bytes = meter::long(self.r.range(4_095, 4_097), house.order.doses[dose].bay, self.r);
        if self.r.once_in(2) {
            meter::spoil(&mut bytes, self.r);
        }
        self.lay(house, slots, plan, dose, &bytes)
    }

    /// A plan that must stand: judged, drawn, also around the edges of so many slots, demand 3, C-12 and C-15's fan-seconds held against it,
    /// and logs laid beside it.
    fn standing(&mut self, house: &House, plan: &[u8], most: usize) -> Result<(), Difference> {
        let Some(slots) = self.judge(house, plan)? else {
            return self.differ("a plan that should stand does not".into(), plan);
        };
        if let Err(what) = sentences(house, &slots, self.measure.moments, self.r) {
            return self.differ(format!("demand 3: {what}"), plan);
        }
        if let Err(what) = sums::fan_time(house, &slots) {
            return self.differ(format!("C-15: {what}"), plan);
        }
        self.edges(house, &slots, plan, most)?;
        self.draw(house, &slots, plan)?;
        self.logs(house, &slots, plan)
    }

    fn damaged(&mut self, house: &House, plan: &[u8]) -> Result<(), Difference> {
        let mut places: Vec<usize> = (0..plan.len()).collect();
        let short = plan.len() <= 8 * RECORD || (plan.len() <= 64 * RECORD && self.r.once_in(8));
        if !(short && self.measure.every) {
            self.r.shuffle(&mut places);
            places.truncate(self.measure.bytes);
        }
        for at in places {
            let bytes = variants::damage_byte(plan, at, self.r);
            if let Some(slots) = self.judge(house, &bytes)? {
                self.edges(house, &slots, &bytes, FEW)?;
            }
        }
        for _ in 0..self.measure.records {
            let mut bytes = variants::damage(plan, self.r);
            if self.r.once_in(4) {
                bytes = variants::damage(&bytes, self.r);
            }
            let slots = self.judge(house, &bytes)?;
            let (dose, tick) = (self.r.below(30) as usize, self.r.range(0, WEEK + 9));
            match slots {
                Some(slots) => {
                    self.point(&bytes, house.draw(&slots, dose, tick), dose, tick)?;
                    self.edges(house, &slots, &bytes, FEW)?;
                }
                None => {
                    self.point(&bytes, refused(10), dose, tick)?;
                    self.step(&bytes, refused(10), dose, tick, tick)?;
                    if self.r.once_in(4) {
                        self.log(&bytes, not_laid(refusal(10, 0)), dose, &meter::RAGGED)?;
                    }
                }
            }
        }
        Ok(())
    }

    /// A refused order: judging and drawing refuse alike, whatever the plan bytes.
    fn refused(&mut self, refusal: Judged) -> Result<(), Difference> {
        let len = self.r.pick(&[0, 0, 32, 31, 320]);
        let plan: Vec<u8> = (0..len).map(|i| if i % RECORD == 0 { b'C' } else { 0 }).collect();
        let lent = guard::lend(&self.order, &plan, self.r, |order, plan| self.peer.judge(order, plan));
        let answer = self.got(lent, &plan)?;
        if answer != refusal {
            return self.differ(format!("judging a refused order: {answer:?} and not {refusal:?}"), &plan);
        }
        let (dose, tick) = (self.r.below(26) as usize, self.r.pick(&[0, 5, WEEK, WEEK + 1]));
        self.point(&plan, not_drawn(refusal), dose, tick)?;
        self.step(&plan, not_drawn(refusal), dose, tick, tick)?;
        self.log(&plan, not_laid(refusal), dose, &meter::RAGGED)
    }

    /// Planning alone, and judging where planning refuses the order.
    fn brief(&mut self) -> Result<(), Difference> {
        let [new, old] = self.own()?;
        self.plan(&new, PLAN_BUFFER)?;
        match old {
            Err(refusal) => self.refused(refusal),
            Ok(house) if new.is_err() => self.judge(&house, &house.plan(None)).map(|_| ()),
            Ok(_) => Ok(()),
        }
    }

    /// Every length of order from 0 to 1,700, of these records.
    fn lengths(&mut self, long: &[u8]) -> Result<(), Difference> {
        (0..=1_700).try_for_each(|len| {
            self.order = long[..len].to_vec();
            self.brief()
        })
    }

    /// Logs of dose 0 at short lengths and around the greatest.
    fn log_lengths(&mut self) -> Result<(), Difference> {
        let house = accept(&self.order, TrialBays::Open).expect("the first case is P1");
        let (slots, plan) = (house.slots(None), house.plan(None));
        let log = meter::long(4_097, house.order.doses[0].bay, self.r);
        for len in (0..=100).chain(log::LONGEST_LOG - 33..=log.len()) {
            self.lay(&house, &slots, &plan, 0, &log[..len])?;
        }
        Ok(())
    }

    fn run(&mut self) -> Result<(), Difference> {
        let [new, old] = self.own()?;
        self.tally.order(&self.order, &new, &old);
        self.short(&new)?;
        let len = PLAN_BUFFER + if self.r.once_in(8) { self.r.below(3_000) as usize } else { 0 };
        let planned = self.plan(&new, len)?;
        let house = match old {
            Err(refusal) => return self.refused(refusal),
            Ok(house) => house,
        };
        // Planning gives none where trial bays are closed to it: the order is then judged and drawn with stored plans alone.
        let mut plans: Vec<Vec<u8>> = planned.into_iter().collect();
        plans.push(house.plan(None));
        plans.push(variants::standing(&house, self.r));
        plans.push(variants::standing(&house, self.r));
        for (number, plan) in plans.iter().enumerate() {
            let first = number == 0 && self.measure.every;
            self.standing(&house, plan, if first { usize::MAX } else { self.measure.slots })?;
        }
        let any = self.r.below(plans.len() as u64) as usize;
        let slots = house.stands(&plans[any]).unwrap_or_default();
        if !slots.is_empty() && self.r.once_in(LONG) {
            self.long_log(&house, &slots, &plans[any])?;
        }
        for (clause, bytes) in alone::each(&house, &plans[any], &slots, self.r) {
            if self.judge(&house, &bytes)?.is_some() {
                return self.differ(format!("{clause} broken on purpose, and the plan stands"), &bytes);
            }
        }
        self.damaged(&house, &plans[any])
    }
}

/// The order of a case: the fixed ones first, then by chance.
pub fn order_of(number: u64, r: &mut Random) -> Vec<u8> {
    cases::fixed().into_iter().nth(number as usize).unwrap_or_else(|| near::bytes(r))
}

/// Runs one case of a seed. The first also takes lengths of streams and of logs, and every length of order, with and without a trial bay.
pub fn case(peer: &dyn Peer, seed: u64, number: u64, measure: Measure, tally: &mut Tally) -> Result<(), Difference> {
    let mut r = Random::of_case(seed, number);
    let order = order_of(number, &mut r);
    let mut case = Case { peer, order, measure, r: &mut r, tally };
    case.run()?;
    season_case::run(peer, &case.order, measure, case.r, case.tally)?;
    if number == 0 {
        season_case::lengths(peer, case.r, case.tally)?;
        case.log_lengths()?;
        let mut long = near::long(case.r);
        case.lengths(&long)?;
        put(&mut long[TRIAL_RECORD * RECORD..], 2, 2, FIRST_TRIAL_BAY);
        case.lengths(&long)?;
    }
    Ok(())
}
