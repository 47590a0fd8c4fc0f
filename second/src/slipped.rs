//! Test builds only: a copy of the second program with one error in it: the planner, the judge and the entry points.

use crate::answers::{drawn, not_drawn, not_laid, planned, refusal, refused, House, PLAN_BUFFER};
use crate::classes::{by_flow, open_time, too_fast, weight_of, Class, FEW};
use crate::flow::Network;
use crate::intervals::Intervals;
use crate::layout::{plan_bytes, wrap, Slot};
use crate::library::{Drawn, Judged, Laid, Peer, Planned, Season};
use crate::orders::{Order, TrialBays, RECORD, WEEK};
use crate::shares::Shares;
use crate::slips::{Slip, Slip::*};

/// A copy of the second program with one error in it.
pub struct Slipped(pub Slip);

impl Slipped {
    /// Whether the first rate is above the second; the wrong ways of comparing.
    fn above(&self, a: (u64, u64), b: (u64, u64)) -> bool {
        match self.0 {
            WholeDivision => a.0 / a.1.max(1) > b.0 / b.1.max(1),
            Floats => a.0 as f32 / a.1 as f32 > b.0 as f32 / b.1 as f32,
            WideFloats => a.0 as f64 / a.1 as f64 > b.0 as f64 / b.1 as f64,
            _ => a.0 * b.1 > b.0 * a.1,
        }
    }

    fn next(&self, order: &Order, spans: &Intervals, free: &[u32], rest: u32) -> u32 {
        let (mut best, mut found) = ((0, 1), 0);
        let mut set = rest;
        while set != 0 {
            let rate = (weight_of(order, set), open_time(spans, free, set));
            if self.above(rate, best) || found == 0 {
                (best, found) = (rate, set);
            } else if !self.above(best, rate) {
                found = if self.0 == AnySet { set } else { found | set };
            }
            set = (set - 1) & rest;
        }
        found
    }

    fn classes(&self, order: &Order, spans: &Intervals) -> Vec<Class> {
        let wrong = [FansUsed, FansUsedLater, AnySet, WholeDivision, Floats, WideFloats].contains(&self.0);
        if !wrong || order.doses.len() > FEW {
            return by_flow(order, spans);
        }
        let mut used = vec![0; spans.count()];
        let mut rest = (1u32 << order.doses.len()) - 1;
        let mut classes = Vec::new();
        while rest != 0 {
            let by_used = self.0 == FansUsed || (self.0 == FansUsedLater && !classes.is_empty());
            let free: Vec<u32> = used.iter().map(|&u| if by_used { u } else { order.fans - u }).collect();
            let set = self.next(order, spans, &free, rest);
            let reserved: Vec<u32> = (0..free.len()).map(|j| (spans.active[j] & set).count_ones().min(free[j])).collect();
            used.iter_mut().zip(&reserved).for_each(|(u, r)| *u = (*u + r).min(order.fans));
            classes.push(Class { set, weight: weight_of(order, set), time: open_time(spans, &free, set), reserved });
            rest &= !set;
        }
        classes
    }

    pub fn accept(&self, bytes: &[u8], trial_bays: TrialBays) -> Result<House, Judged> {
        let order = self.read(bytes, trial_bays).map_err(|r| refusal(r.number, r.place))?;
        let spans = Intervals::of(&order);
        let classes = self.classes(&order, &spans);
        let over = |c: &Class| match self.0 {
            WholeDivisionTop => c.weight / c.time > u64::from(order.top_grams / order.top_seconds),
            _ => too_fast(&order, c),
        };
        match classes.first().filter(|c| over(c)) {
            Some(c) => Err(Judged { number: 9, place: 0, set: c.set, weight: c.weight as u32, time: c.time as u32 }),
            None => Ok(House { order, spans, classes }),
        }
    }

    /// Shares without the cap: all needs met, but a dose may get more of an interval than it is long.
    fn uncapped(house: &House, class: &Class) -> Shares {
        let (n, m) = (house.order.doses.len(), house.spans.count());
        let mut net = Network::new(n + m + 2, n * m + n + m);
        let mut table = vec![vec![0; n]; m];
        let mut cells = Vec::new();
        for k in (0..n).filter(|k| class.set >> k & 1 == 1) {
            net.edge(n + m, k, u64::from(house.order.doses[k].grams) * class.time);
            for j in (0..m).filter(|&j| house.spans.active[j] >> k & 1 == 1) {
                cells.push((k, j, net.edge(k, n + j, u64::MAX / 4)));
            }
        }
        for j in 0..m {
            net.edge(n + j, n + m + 1, house.spans.length(j) * u64::from(class.reserved[j]) * class.weight);
        }
        net.run(n + m, n + m + 1);
        cells.iter().for_each(|&(k, j, e)| table[j][k] = net.moved(e));
        table
    }

    fn slots(&self, house: &House) -> Vec<Slot> {
        let found = |c: &Class| match self.0 {
            NoCap => Some(Slipped::uncapped(house, c)),
            _ => crate::shares::shares(&house.order, &house.spans, c, None).0,
        };
        let Some(shares) = house.classes.iter().map(found).collect::<Option<Vec<Shares>>>() else { return Vec::new() };
        let mut slots = wrap(&house.spans, &house.classes, &shares);
        if self.0 == Merged {
            let mut merged: Vec<Slot> = Vec::new();
            for s in slots {
                match merged.iter_mut().find(|m| (m.fan, m.dose, m.end) == (s.fan, s.dose, s.start)) {
                    Some(m) => m.end = s.end,
                    None => merged.push(s),
                }
            }
            slots = merged;
        }
        slots
    }

    fn stands(&self, house: &House, plan: &[u8]) -> Result<Vec<Slot>, &'static str> {
        let own = house.stands(plan);
        match (self.0, own) {
            (NoTotals, Err("total")) => Ok(Vec::new()),
            (OnlyOwnPlan, Ok(_)) if plan != house.plan(None) => Err("total"),
            (TouchingMeets, Ok(slots)) if slots.windows(2).any(|w| w[0].dose == w[1].dose && w[0].end == w[1].start) => Err("total"),
            (_, own) => own,
        }
    }

    fn ask(&self, order: &[u8], plan: &[u8], dose: usize, tick: u32, late: bool) -> Drawn {
        let house = match self.accept(order, self.drawn_with()) {
            Err(j) => return not_drawn(j),
            Ok(house) => house,
        };
        let Ok(slots) = self.stands(&house, plan) else { return refused(10) };
        let no_dose = dose >= house.order.doses.len();
        if no_dose && !(late && self.0 == TickFirst) {
            return refused(11);
        }
        if late {
            return refused(12);
        }
        drawn(self.point(&house, &slots, dose, tick))
    }
}

impl Peer for Slipped {
    fn name(&self) -> &'static str {
        "copy with an error"
    }

    fn plan(&self, order: &[u8], plan: &mut [u8]) -> Planned {
        if plan.len() < PLAN_BUFFER {
            return Planned { number: 1, ..Planned::default() };
        }
        let mut house = match self.accept(order, TrialBays::Closed) {
            Err(j) => return planned(j),
            Ok(house) => house,
        };
        let slots = self.slots(&house);
        if self.0 == Reduced {
            for c in house.classes.iter_mut() {
                let common = (1..=c.time).rev().find(|x| c.time % x == 0 && c.weight % x == 0).unwrap_or(1);
                (c.weight, c.time) = (c.weight / common, c.time / common);
            }
        }
        let bytes = plan_bytes(&house.classes, &slots);
        if self.0 == Clears {
            plan.fill(0);
        }
        plan[..bytes.len()].copy_from_slice(&bytes);
        Planned { classes: house.classes.len() as u32, slots: (bytes.len() / RECORD - house.classes.len()) as u32, ..Planned::default() }
    }

    fn judge(&self, order: &[u8], plan: &[u8]) -> Judged {
        match self.accept(order, TrialBays::Open) {
            Err(j) => j,
            Ok(house) if self.stands(&house, plan).is_ok() => Judged::default(),
            Ok(_) => refusal(10, 0),
        }
    }

    fn point(&self, order: &[u8], plan: &[u8], dose: usize, tick: u32) -> Drawn {
        self.ask(order, plan, dose, tick, tick > WEEK)
    }

    fn advance(&self, order: &[u8], plan: &[u8], dose: usize, tick: &mut u32) -> Drawn {
        let answer = self.ask(order, plan, dose, tick.saturating_add(1), *tick >= WEEK);
        if answer.number == 0 || self.0 == PenMoves {
            *tick = tick.saturating_add(1);
        }
        answer
    }

    fn log(&self, order: &[u8], plan: &[u8], dose: usize, log: &[u8]) -> Laid {
        match self.accept(order, self.drawn_with()) {
            Err(j) => not_laid(j),
            Ok(house) => self.stands(&house, plan).map_or(not_laid(refusal(10, 0)), |slots| self.lay(&house, &slots, dose, log)),
        }
    }

    fn season(&self, stream: &[u8]) -> Season {
        self.add_up(stream)
    }
}
