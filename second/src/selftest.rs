//! The second program held against document 01's examples and against itself.

use crate::answers::{accept, House, OWN, OWN_FLOW};
use crate::checks;
use crate::classes::{by_flow, by_subsets};
use crate::demand3;
use crate::intervals::Intervals;
use crate::layout::{plan_bytes, Slot};
use crate::library::Peer;
use crate::log::{flow, flow_bits, TOP_FLOW};
use crate::measure::LITTLE;
use crate::orders::{write, Order, TrialBays, RECORD};
use crate::random::Random;
use crate::runs;
use crate::stands::{Broken, CLAUSES};
use crate::{alone, clauses, near, rest, season, seconds, streams, styles, sums, trial, variants};
use std::time::Instant;

fn fail(what: &str, case: u64, order: &Order) -> bool {
    println!("case {case}: {what}\n{order:?}");
    false
}

fn took(what: &str, began: Instant) {
    println!("{what}: {:.1} s", began.elapsed().as_secs_f64());
}

/// Subset classes against flow classes; a few orders of up to 15 doses too.
fn classes(cases: u64, seed: u64) -> bool {
    let began = Instant::now();
    let mut counts = [0u64; 16];
    for case in 0..cases {
        let mut r = Random::of_case(seed, case);
        let (mut order, _) = styles::valid(&mut r);
        let most = if case % 50 == 0 { 15 } else { 12 };
        order.doses.truncate(most);
        counts[order.doses.len()] += 1;
        let spans = Intervals::of(&order);
        let (a, b) = (by_subsets(&order, &spans), by_flow(&order, &spans));
        if a != b {
            return fail(&format!("classes by subsets {a:?} and by flow {b:?}"), case, &order);
        }
    }
    took(&format!("subset classes equal flow classes on {cases} orders, by doses {counts:?}"), began);
    true
}

/// C-14's and C-16's sentences about one order: whether planning alone refuses it, and whether rule 1 alone would.
fn read_alike(order: &[u8]) -> Result<(bool, bool), String> {
    rest::sentence(order, TrialBays::Closed)?;
    Ok((trial::sentence(order)?, rest::sentence(order, TrialBays::Open)?))
}

/// The same of orders and nearly orders.
fn reads(cases: u64, seed: u64) -> bool {
    let began = Instant::now();
    let (mut closed, mut short) = (0, 0);
    for case in 0..cases {
        match read_alike(&near::bytes(&mut Random::of_case(seed, case))) {
            Ok((by_planning, by_rest)) => (closed, short) = (closed + u64::from(by_planning), short + u64::from(by_rest)),
            Err(what) => {
                println!("case {case}: {what}");
                return false;
            }
        }
    }
    took(&format!("planning and judging read {cases} orders alike, but for {closed} with trial bays"), began);
    println!("  by rule 0 and by rule 1 they read alike, but for {short} with too short a rest");
    true
}

/// Every flow is read from the bits of its float, and between the smallest and the greatest no other bits are a flow.
fn flows() -> bool {
    let began = Instant::now();
    let read = |known: u32| flow((known as f32 / 1_024.0).to_bits()) == Ok(known);
    let count = (flow_bits(1)..=flow_bits(TOP_FLOW)).filter(|&bits| flow(bits).is_ok()).count();
    took(&format!("{count} flows from 1/1024 to 1,000 by their bits"), began);
    (0..=TOP_FLOW).all(read) && count == TOP_FLOW as usize
}

/// Demand 3 at so many pairs of checks, C-12 around the edges of so many slots, and C-15's fan-seconds.
fn sentences(house: &House, slots: &[Slot], times: u32, r: &mut Random) -> Result<(), String> {
    demand3::sentences(house, slots, times, r)?;
    sums::fan_time(house, slots)?;
    seconds::sentences(house, slots, times as usize, r)
}

/// One stream: if it is read, it is its orders behind each other, each with one F, in front; its sheet is the same with classes by flow, and
/// adds up where it is cut in two between orders. The answer is its number of orders, if it is read.
fn one_stream(stream: &[u8], r: &mut Random) -> Result<Option<usize>, String> {
    let fans = |bytes: &[u8]| bytes.chunks(RECORD).filter(|r| r[0] == b'F').count();
    let whole = OWN.season(stream);
    let Some(orders) = season::orders(stream) else {
        let ragged = stream.len() > 65_536 || !stream.len().is_multiple_of(32);
        let good = whole == season::REFUSED && (ragged || stream.first().is_some_and(|&kind| kind != 0x46));
        return if good { Ok(None) } else { Err(format!("{whole:?} of a stream with no orders")) };
    };
    if orders.concat() != stream || orders.iter().any(|order| order[0] != b'F' || fans(order) != 1) {
        return Err("a stream cut in the wrong places".into());
    }
    if OWN_FLOW.season(stream) != whole {
        return Err("another sheet with classes by flow".into());
    }
    sums::counts(stream, &whole)?;
    let (front, behind) = orders.split_at(r.below(orders.len() as u64 + 1) as usize);
    sums::adds_up(&whole, [&OWN.season(&front.concat()), &OWN.season(&behind.concat())])?;
    Ok(Some(orders.len()))
}

/// C-15's sentences about streams by chance.
fn seasons(cases: u64, seed: u64) -> bool {
    let began = Instant::now();
    let (mut read, mut orders) = (0, 0);
    for case in 0..cases {
        let mut r = Random::of_case(seed ^ 0x1515, case);
        let order = near::bytes(&mut r);
        match one_stream(&streams::any(&order, &mut r), &mut r) {
            Ok(count) => (read, orders) = (read + u64::from(count.is_some()), orders + count.unwrap_or(0)),
            Err(what) => {
                println!("case {case}: {what}");
                return false;
            }
        }
    }
    took(&format!("{cases} streams, of which {read} are read, with {orders} orders, add up"), began);
    true
}

/// A plan in several shapes: each must stand and keep demand 3, C-12 and C-15's fan-seconds.
fn shapes(house: &House, r: &mut Random) -> Vec<(&'static str, Vec<Slot>)> {
    let own = house.slots(None);
    let other = house.slots(Some(r));
    vec![
        ("permuted fans", variants::permute_fans(house, &own, r)),
        ("split slots", variants::split(&own, r)),
        ("moved blocks", variants::move_blocks(house, &other, r)),
        ("own plan", own),
        ("other shares", other),
    ]
}

fn plans(cases: u64, seed: u64) -> bool {
    let began = Instant::now();
    let (mut standing, mut longest, mut differing) = (0, 0, 0);
    for case in 0..cases {
        let mut r = Random::of_case(seed ^ 0xA5A5, case);
        let (order, _) = styles::valid(&mut r);
        let Ok(house) = accept(&write(&order, 0), TrialBays::Open) else { continue };
        // With shares that meet every need, falling rates make these sets the classes.
        if !house.classes.windows(2).all(|w| w[1].weight * w[0].time < w[0].weight * w[1].time) {
            return fail("class rates do not fall", case, &order);
        }
        let shapes = shapes(&house, &mut r);
        differing += u64::from(shapes[3].1 != shapes[4].1);
        for (name, slots) in shapes {
            longest = longest.max(slots.len());
            match house.stands(&plan_bytes(&house.classes, &slots)) {
                Err(clause) => return fail(&format!("{name} does not stand: {clause}"), case, &order),
                Ok(read) if read != slots => return fail("slots read otherwise", case, &order),
                Ok(_) => standing += 1,
            }
            if let Err(what) = sentences(&house, &slots, 20, &mut r) {
                return fail(&format!("{name}: {what}"), case, &order);
            }
        }
    }
    took(
        &format!("{standing} plans stand and keep demand 3, C-12 and C-15, {differing} orders with other shares, longest {longest} slots"),
        began,
    );
    true
}

/// Records in a plan beyond which its pairs of slots are too many to be looked at for every byte.
const MANY: usize = 64;

/// Both judges on one plan: they agree whether it stands, and what one finds broken first is among what the other finds.
/// The answer is the verdict and how many clauses are broken, if that was counted.
fn judged(house: &House, plan: &[u8]) -> Result<(Result<Vec<Slot>, Broken>, usize), String> {
    let own = house.stands(plan);
    if own.is_err() && plan.len() > MANY * RECORD {
        return Ok((own, 0));
    }
    let all = clauses::broken(house, plan);
    let agree = own.as_ref().map_or_else(|clause| all.contains(clause), |_| all.is_empty());
    if agree {
        Ok((own, all.len()))
    } else {
        Err(format!("one judge says {:?}, the other {all:?}", own.err()))
    }
}

/// How often each clause was broken: by damage, on purpose, and on purpose with no other clause broken.
#[derive(Default)]
struct Met {
    by_damage: [u64; CLAUSES.len()],
    on_purpose: [u64; CLAUSES.len()],
    alone: [u64; CLAUSES.len()],
    standing: u64,
}

impl Met {
    fn spoil(&mut self, house: &House, plan: &[u8], slots: &[Slot], r: &mut Random) -> Result<(), String> {
        for (clause, bytes) in alone::each(house, plan, slots, r) {
            let i = place(clause);
            match judged(house, &bytes)? {
                (Err(found), count) if found == clause => {
                    self.on_purpose[i] += 1;
                    self.alone[i] += u64::from(count == 1);
                }
                (other, _) => return Err(format!("{clause} broken on purpose, judged {other:?}")),
            }
        }
        let every = (0..plan.len()).map(|at| (at, false));
        for (at, whole) in every.chain((0..100).map(|i| (i, true))) {
            let bytes = if whole { variants::damage(plan, r) } else { variants::damage_byte(plan, at, r) };
            match judged(house, &bytes)?.0 {
                Err(clause) => self.by_damage[place(clause)] += 1,
                Ok(slots) => {
                    self.standing += 1;
                    sentences(house, &slots, 4, r).map_err(|what| format!("a damaged plan that stands: {what}"))?;
                }
            }
        }
        Ok(())
    }
}

fn place(clause: Broken) -> usize {
    CLAUSES.iter().position(|c| *c == clause).expect("every clause is listed")
}

/// Plans damaged at every byte: one verdict of both judges each, and those that still stand keep demand 3, C-12 and C-15's fan-seconds.
fn damage(cases: u64, seed: u64) -> bool {
    let began = Instant::now();
    let mut met = Met::default();
    for case in 0..cases {
        let mut r = Random::of_case(seed ^ 0x5A5A, case);
        let (mut order, _) = styles::valid(&mut r);
        order.doses.truncate(8);
        let Ok(house) = accept(&write(&order, 0), TrialBays::Open) else { continue };
        let plan = variants::standing(&house, &mut r);
        let slots = house.stands(&plan).expect("a standing plan");
        if let Err(what) = met.spoil(&house, &plan, &slots, &mut r) {
            return fail(&what, case, &order);
        }
    }
    for (i, clause) in CLAUSES.iter().enumerate() {
        println!("  by damage {:>8}, on purpose {:>6}, alone {:>6}  {clause}", met.by_damage[i], met.on_purpose[i], met.alone[i]);
    }
    let total: u64 = met.by_damage.iter().sum();
    took(&format!("{} damaged plans judged, {total} broken, {} still stand", total + met.standing, met.standing), began);
    met.by_damage.iter().chain(&met.alone).all(|&n| n > 0) || cases < 200
}

pub fn run(cases: u64, seed: u64) -> bool {
    println!("seed {seed}, cases {cases}");
    let mut good = checks::run(&OWN);
    good = flows() && good;
    good = reads(2 * cases, seed) && good;
    good = classes(2 * cases, seed) && good;
    good = plans(cases, seed) && good;
    good = damage(cases / 4, seed) && good;
    good = seasons(cases, seed) && good;
    good = runs::run(&OWN, cases / 20, seed, 0, 1, LITTLE) && good;
    println!("{}", if good { "self-test passed" } else { "self-test FAILED" });
    good
}
