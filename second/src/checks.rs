//! Named checks asked of a peer. Every call lends its bytes between canaries, and a byte that changes fails the check.

use crate::answers::{not_drawn, not_laid, planned, PLAN_BUFFER};
use crate::guard;
use crate::library::{Drawn, Judged, Laid, Peer, Planned, Season};
use crate::meter::RAGGED;
use crate::orders::RECORD;
use crate::random::Random;
use crate::{adding, cases, closing, drawing, feeding, laying, refusals, resting, verdicts};
use std::fmt::Debug;

pub struct Checks<'a> {
    peer: &'a dyn Peer,
    r: Random,
    done: u32,
    failed: u32,
}

impl Checks<'_> {
    /// Noise and alignments come from a fixed seed: the same checks in every run.
    fn of(peer: &dyn Peer) -> Checks<'_> {
        Checks { peer, r: Random::new(1), done: 0, failed: 0 }
    }

    pub fn same<T: PartialEq + Debug>(&mut self, name: &str, got: T, wanted: T) {
        self.done += 1;
        if got != wanted {
            self.failed += 1;
            println!("{name}: {got:?} and not {wanted:?}");
        }
    }

    /// What came back of a lent call; nothing if it changed a byte that it must leave.
    fn got<T>(&mut self, name: &str, answer: Result<T, String>) -> Option<T> {
        self.same(name, answer.as_ref().err(), None);
        answer.ok()
    }

    /// Plans into noise of this length; the plan comes back.
    pub fn plan(&mut self, name: &str, order: &[u8], len: usize, wanted: Planned) -> Vec<u8> {
        let lent = guard::plan(self.peer, order, len, &mut self.r);
        let (answer, plan) = self.got(name, lent).unwrap_or_default();
        self.same(name, answer, wanted);
        plan
    }

    /// Plans an accepted order into a buffer of the smallest size and a longer one: the counts are the plan's own, the plans the same.
    pub fn planned(&mut self, name: &str, order: &[u8], classes: u32, slots: u32) -> Vec<u8> {
        let wanted = Planned { classes, slots, ..Planned::default() };
        let plan = self.plan(name, order, PLAN_BUFFER, wanted);
        let again = self.plan(name, order, PLAN_BUFFER + 1_000, wanted);
        self.same(name, again == plan && plan.len() == (classes + slots) as usize * RECORD, true);
        plan
    }

    pub fn judge(&mut self, name: &str, order: &[u8], plan: &[u8], wanted: Judged) {
        let lent = guard::lend(order, plan, &mut self.r, |order, plan| self.peer.judge(order, plan));
        let answer = self.got(name, lent).unwrap_or_default();
        self.same(name, answer, wanted);
    }

    pub fn point(&mut self, name: &str, order: &[u8], plan: &[u8], dose: usize, tick: u32, wanted: Drawn) {
        let lent = guard::lend(order, plan, &mut self.r, |order, plan| self.peer.point(order, plan, dose, tick));
        let answer = self.got(name, lent).unwrap_or_default();
        self.same(name, answer, wanted);
    }

    /// One step of a pen: the answer, and where the pen is after it.
    pub fn step(&mut self, name: &str, order: &[u8], plan: &[u8], dose: usize, tick: u32, wanted: (Drawn, u32)) {
        let lent = guard::step(self.peer, order, plan, dose, tick, &mut self.r);
        let answer = self.got(name, lent).unwrap_or_default();
        self.same(name, answer, wanted);
    }

    /// A point and a pen's step that give this refusal; the pen stays.
    pub fn not_drawn(&mut self, name: &str, order: &[u8], plan: &[u8], dose: usize, tick: u32, wanted: Drawn) {
        self.point(name, order, plan, dose, tick, wanted);
        self.step(name, order, plan, dose, tick, (wanted, tick));
    }

    pub fn log(&mut self, name: &str, order: &[u8], plan: &[u8], dose: usize, log: &[u8], wanted: Laid) {
        let lent = guard::log(self.peer, order, plan, dose, log, &mut self.r);
        let answer = self.got(name, lent).unwrap_or_default();
        self.same(name, answer, wanted);
    }

    pub fn season(&mut self, name: &str, stream: &[u8], wanted: Season) {
        let lent = guard::season(self.peer, stream, &mut self.r);
        let answer = self.got(name, lent).unwrap_or_default();
        self.same(name, answer, wanted);
    }

    /// An order that planning, judging, drawing, the pen and laying refuse alike, whatever the plan bytes, dose, tick and log.
    pub fn refused(&mut self, name: &str, order: &[u8], wanted: Judged) {
        self.plan(name, order, PLAN_BUFFER, planned(wanted));
        self.refused_with_a_plan(name, order, wanted);
    }

    /// An order that judging, drawing, the pen and laying refuse alike.
    pub fn refused_with_a_plan(&mut self, name: &str, order: &[u8], wanted: Judged) {
        for plan in [&[][..], &[b'S'; 33]] {
            self.judge(name, order, plan, wanted);
            self.not_drawn(name, order, plan, 0, 3, not_drawn(wanted));
            self.not_drawn(name, order, plan, usize::MAX, u32::MAX, not_drawn(wanted));
            self.log(name, order, plan, 0, &[], not_laid(wanted));
            self.log(name, order, plan, usize::MAX, &RAGGED, not_laid(wanted));
        }
    }
}

/// A name, and the checks behind it.
type Group = (&'static str, fn(&mut Checks));

const GROUPS: [Group; 27] = [
    ("planning: P1 to P12", cases::proved),
    ("planning: the run line", cases::run_line),
    ("refusals: 1 to 9, each alone", refusals::alone),
    ("refusals: fields at their edges", refusals::edges),
    ("refusals: several faults at once", refusals::several),
    ("judging: each clause broken alone", verdicts::broken),
    ("judging: other plans that stand", verdicts::standing),
    ("judging: a plan longer than the planner's buffer", verdicts::long),
    ("drawing: the four states", cases::states),
    ("drawing: the whole second of C-12", feeding::planned),
    ("drawing: several slots of a dose in one second", feeding::several),
    ("drawing: 10, 11 and 12 at their edges", drawing::edges),
    ("drawing: the pen", drawing::pen),
    ("laying: the figures of C-11", laying::figures),
    ("laying: 13 and 14, each alone", laying::refusals),
    ("laying: several faults at once", laying::several),
    ("trial bays: their edges and 15's place", closing::edges),
    ("trial bays: with other faults", closing::faults),
    ("trial bays: old orders judged, drawn and laid", closing::old),
    ("season: the figures of C-15", adding::figures),
    ("season: 16, and what is none", adding::refused),
    ("season: where a stream is cut", adding::cuts),
    ("season: the greatest first class", adding::greatest),
    ("valve rest: about 300 seconds", resting::edges),
    ("valve rest: 8's place", resting::places),
    ("valve rest: byte 2 of F, with other faults", resting::rules),
    ("valve rest: plans, samples and streams", resting::others),
];

/// Runs every group; true if no check failed.
pub fn run(peer: &dyn Peer) -> bool {
    println!("asking the {}", peer.name());
    let mut c = Checks::of(peer);
    for (name, group) in GROUPS {
        let (done, failed) = (c.done, c.failed);
        group(&mut c);
        println!("{name}: {} checks, {} failed", c.done - done, c.failed - failed);
    }
    println!("{} checks, {} failed", c.done, c.failed);
    c.failed == 0
}
