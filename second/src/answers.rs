//! The second program's own six entry points, and its own plan for an order.

use crate::classes::{self, Class};
use crate::intervals::Intervals;
use crate::layout::{plan_bytes, wrap, Slot};
use crate::library::{Drawn, Judged, Laid, Peer, Planned, Season, DOSING, FINISHED, IDLE, SHUT};
use crate::line::{point, Point, State};
use crate::log;
use crate::orders::{read, Order, TrialBays, RECORD, WEEK};
use crate::random::Random;
use crate::season;
use crate::shares::{shares, Shares};
use crate::stands::stands;

pub const PLAN_BUFFER: usize = 47_392;

/// An accepted order with its intervals and classes.
pub struct House {
    pub order: Order,
    pub spans: Intervals,
    pub classes: Vec<Class>,
}

/// A way to find all classes of an order.
type Finder = fn(&Order, &Intervals) -> Vec<Class>;

/// Refusals 2 to 9; where trial bays are closed, as in planning, also 15.
pub fn accept(bytes: &[u8], trial_bays: TrialBays) -> Result<House, Judged> {
    accept_by(bytes, trial_bays, classes::all)
}

fn accept_by(bytes: &[u8], trial_bays: TrialBays, find: Finder) -> Result<House, Judged> {
    let order = read(bytes, trial_bays).map_err(|r| refusal(r.number, r.place))?;
    let spans = Intervals::of(&order);
    let classes = find(&order, &spans);
    match classes.first() {
        Some(c) if classes::too_fast(&order, c) => {
            Err(Judged { number: 9, place: 0, set: c.set, weight: c.weight as u32, time: c.time as u32 })
        }
        _ => Ok(House { order, spans, classes }),
    }
}

impl House {
    /// Valid shares for every class, other ones by chance, and the chains pushed.
    pub fn shares(&self, mut chance: Option<&mut Random>) -> (Vec<Shares>, u64) {
        let mut chains = 0;
        let mut all = Vec::new();
        for c in &self.classes {
            let (found, n) = shares(&self.order, &self.spans, c, chance.as_deref_mut());
            all.push(found.expect("a class has shares that meet its needs"));
            chains += n;
        }
        (all, chains)
    }

    pub fn slots(&self, chance: Option<&mut Random>) -> Vec<Slot> {
        wrap(&self.spans, &self.classes, &self.shares(chance).0)
    }

    pub fn plan(&self, chance: Option<&mut Random>) -> Vec<u8> {
        plan_bytes(&self.classes, &self.slots(chance))
    }

    /// The plan's shares, added up from its slots, laid again: the same bytes.
    pub fn by_wrap_around(&self, slots: &[Slot], plan: &[u8]) -> bool {
        let (n, m) = (self.order.doses.len(), self.spans.count());
        let mut shares = vec![vec![vec![0u64; n]; m]; self.classes.len()];
        for s in slots {
            let j = self.spans.at(s.start.0).expect("a slot of a plan that stands lies in an interval");
            shares[s.class as usize - 1][j][s.dose as usize] += s.to() - s.from();
        }
        plan_bytes(&self.classes, &wrap(&self.spans, &self.classes, &shares)) == plan
    }

    pub fn stands(&self, plan: &[u8]) -> Result<Vec<Slot>, &'static str> {
        stands(&self.order, &self.spans, &self.classes, plan)
    }

    pub fn point(&self, slots: &[Slot], dose: usize, tick: u32) -> Point {
        point(&self.order, &self.classes, slots, dose, tick)
    }

    /// What drawing answers once the plan stands.
    pub fn draw(&self, slots: &[Slot], dose: usize, tick: u32) -> Drawn {
        if dose >= self.order.doses.len() {
            return refused(11);
        }
        if tick > WEEK {
            return refused(12);
        }
        drawn(self.point(slots, dose, tick))
    }

    /// What moving a pen answers once the plan stands; a refusal leaves the pen.
    pub fn step(&self, slots: &[Slot], dose: usize, tick: &mut u32) -> Drawn {
        if dose >= self.order.doses.len() {
            return refused(11);
        }
        if *tick >= WEEK {
            return refused(12);
        }
        *tick += 1;
        drawn(self.point(slots, dose, *tick))
    }

    /// What laying a log answers once the plan stands.
    pub fn lay(&self, slots: &[Slot], dose: usize, bytes: &[u8]) -> Laid {
        let Some(d) = self.order.doses.get(dose) else { return not_laid(refusal(11, 0)) };
        match log::read(bytes, d.bay) {
            Err((r, _)) => not_laid(refusal(r.number, r.place)),
            Ok(log) => log::lay(&log, |tick| self.point(slots, dose, tick).amount),
        }
    }
}

pub fn refusal(number: u32, place: usize) -> Judged {
    Judged { number, place: place as u32, ..Judged::default() }
}

pub fn planned(j: Judged) -> Planned {
    Planned { number: j.number, place: j.place, set: j.set, weight: j.weight, time: j.time, ..Planned::default() }
}

pub fn not_drawn(j: Judged) -> Drawn {
    Drawn { number: j.number, place: j.place, set: j.set, weight: j.weight, time: j.time, state: SHUT, ..Drawn::default() }
}

pub fn not_laid(j: Judged) -> Laid {
    Laid { number: j.number, place: j.place, set: j.set, weight: j.weight, time: j.time, ..Laid::default() }
}

pub fn refused(number: u32) -> Drawn {
    not_drawn(refusal(number, 0))
}

pub fn drawn(p: Point) -> Drawn {
    let (state, fan) = match p.state {
        State::Finished => (FINISHED, 0),
        State::Shut => (SHUT, 0),
        State::Idle => (IDLE, 0),
        State::Dosing(fan) => (DOSING, fan),
    };
    Drawn { amount: p.amount, state, fan, ..Drawn::default() }
}

/// The second program itself, behind the same six entry points.
pub struct Own(Finder);

/// Classes over all subsets where there are few doses; classes by flows always.
pub const OWN: Own = Own(classes::all);
pub const OWN_FLOW: Own = Own(classes::by_flow);

impl Own {
    /// What is asked of a plan that stands; else 2 to 10, as this entry point gives a refusal.
    fn ask<T>(&self, order: &[u8], plan: &[u8], refuse: fn(Judged) -> T, answer: impl FnOnce(&House, &[Slot]) -> T) -> T {
        match accept_by(order, TrialBays::Open, self.0) {
            Err(j) => refuse(j),
            Ok(house) => house.stands(plan).map_or_else(|_| refuse(refusal(10, 0)), |slots| answer(&house, &slots)),
        }
    }
}

impl Peer for Own {
    fn name(&self) -> &'static str {
        "second program"
    }

    fn plan(&self, order: &[u8], plan: &mut [u8]) -> Planned {
        if plan.len() < PLAN_BUFFER {
            return Planned { number: 1, ..Planned::default() };
        }
        match accept_by(order, TrialBays::Closed, self.0) {
            Err(j) => planned(j),
            Ok(house) => {
                let bytes = house.plan(None);
                plan[..bytes.len()].copy_from_slice(&bytes);
                let classes = house.classes.len();
                Planned { classes: classes as u32, slots: (bytes.len() / RECORD - classes) as u32, ..Planned::default() }
            }
        }
    }

    fn judge(&self, order: &[u8], plan: &[u8]) -> Judged {
        self.ask(order, plan, |j| j, |_, _| Judged::default())
    }

    fn point(&self, order: &[u8], plan: &[u8], dose: usize, tick: u32) -> Drawn {
        self.ask(order, plan, not_drawn, |house, slots| house.draw(slots, dose, tick))
    }

    fn advance(&self, order: &[u8], plan: &[u8], dose: usize, tick: &mut u32) -> Drawn {
        self.ask(order, plan, not_drawn, |house, slots| house.step(slots, dose, tick))
    }

    fn log(&self, order: &[u8], plan: &[u8], dose: usize, log: &[u8]) -> Laid {
        self.ask(order, plan, not_laid, |house, slots| house.lay(slots, dose, log))
    }

    fn season(&self, stream: &[u8]) -> Season {
        season::of(stream, |order| accept_by(order, TrialBays::Open, self.0))
    }
}
