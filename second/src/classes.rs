//! Rate classes: by the definition over all subsets, and by flows where there are too many subsets.

use crate::flow::Network;
use crate::intervals::Intervals;
use crate::orders::Order;

/// Up to this many doses every subset is looked at.
pub const FEW: usize = 12;

#[derive(Clone, Debug, PartialEq, Eq)]
pub struct Class {
    pub set: u32,
    /// W and P.
    pub weight: u64,
    pub time: u64,
    /// Fans reserved in each interval.
    pub reserved: Vec<u32>,
}

pub fn weight_of(order: &Order, set: u32) -> u64 {
    order.doses.iter().enumerate().filter(|(i, _)| set >> i & 1 == 1).map(|(_, d)| u64::from(d.grams)).sum()
}

/// Fan time open to a set, `free` fans being left in each interval.
pub fn open_time(spans: &Intervals, free: &[u32], set: u32) -> u64 {
    (0..spans.count()).map(|j| spans.length(j) * u64::from((spans.active[j] & set).count_ones().min(free[j]))).sum()
}

/// The definition: greatest W/P, and among equals the set that contains all others.
fn next_by_subsets(order: &Order, spans: &Intervals, free: &[u32], rest: u32) -> u32 {
    let (mut best, mut union) = ((0u64, 1u64), 0u32);
    let mut equals = Vec::new();
    let mut set = rest;
    while set != 0 {
        let (w, p) = (weight_of(order, set), open_time(spans, free, set));
        let (mine, other) = (u128::from(w) * u128::from(best.1), u128::from(best.0) * u128::from(p));
        if mine > other {
            best = (w, p);
            union = 0;
            equals.clear();
        }
        if mine >= other {
            union |= set;
            equals.push(set);
        }
        set = (set - 1) & rest;
    }
    assert!(equals.contains(&union), "one of the equal sets contains all others");
    union
}

/// The largest set B of `rest` with the greatest W(B) p - P(B) w: the far side of the last cut.
fn heaviest(order: &Order, spans: &Intervals, free: &[u32], rest: u32, w: u64, p: u64) -> u32 {
    let (n, m) = (order.doses.len(), spans.count());
    let (source, sink) = (n + m, n + m + 1);
    let mut net = Network::new(n + m + 2, n * m + n + m);
    for k in (0..n).filter(|k| rest >> k & 1 == 1) {
        net.edge(source, k, u64::from(order.doses[k].grams) * p);
        for j in (0..m).filter(|&j| spans.active[j] >> k & 1 == 1 && free[j] > 0) {
            net.edge(k, n + j, spans.length(j) * w);
        }
    }
    for j in (0..m).filter(|&j| spans.active[j] & rest != 0) {
        net.edge(n + j, sink, spans.length(j) * u64::from(free[j]) * w);
    }
    net.run(source, sink);
    let reaching = net.reaching(sink);
    (0..n).filter(|&k| rest >> k & 1 == 1 && !reaching[k]).fold(0, |set, k| set | 1 << k)
}

/// Raises the rate until no set pays more; the largest set that pays as much is the class.
fn next_by_flow(order: &Order, spans: &Intervals, free: &[u32], rest: u32) -> u32 {
    let mut set = rest;
    loop {
        let (w, p) = (weight_of(order, set), open_time(spans, free, set));
        let found = heaviest(order, spans, free, set, w, p);
        let (w2, p2) = (weight_of(order, found), open_time(spans, free, found));
        let (old, new) = (u128::from(w) * u128::from(p2), u128::from(w2) * u128::from(p));
        assert!(found != 0 && old <= new, "a flow's set pays at least as much");
        if old == new {
            return found;
        }
        set = found;
    }
}

type Next = fn(&Order, &Intervals, &[u32], u32) -> u32;

fn all_by(order: &Order, spans: &Intervals, next: Next, first_only: bool) -> Vec<Class> {
    let mut free = vec![order.fans; spans.count()];
    let mut rest = (1u32 << order.doses.len()) - 1;
    let mut classes = Vec::new();
    while rest != 0 && !(first_only && classes.len() == 1) {
        let set = next(order, spans, &free, rest);
        let reserved: Vec<u32> = (0..free.len()).map(|j| (spans.active[j] & set).count_ones().min(free[j])).collect();
        classes.push(Class { set, weight: weight_of(order, set), time: open_time(spans, &free, set), reserved: reserved.clone() });
        for (f, r) in free.iter_mut().zip(reserved) {
            *f -= r;
        }
        rest &= !set;
    }
    classes
}

pub fn by_subsets(order: &Order, spans: &Intervals) -> Vec<Class> {
    all_by(order, spans, next_by_subsets, false)
}

pub fn by_flow(order: &Order, spans: &Intervals) -> Vec<Class> {
    all_by(order, spans, next_by_flow, false)
}

/// All classes: by the definition for few doses, by flows for many.
pub fn all(order: &Order, spans: &Intervals) -> Vec<Class> {
    if order.doses.len() <= FEW {
        by_subsets(order, spans)
    } else {
        by_flow(order, spans)
    }
}

pub fn first(order: &Order, spans: &Intervals) -> Option<Class> {
    let next = if order.doses.len() <= FEW { next_by_subsets } else { next_by_flow };
    all_by(order, spans, next, true).pop()
}

/// Whether the first class asks for more than the top rate (refusal 9).
pub fn too_fast(order: &Order, class: &Class) -> bool {
    u128::from(class.weight) * u128::from(order.top_seconds) > u128::from(class.time) * u128::from(order.top_grams)
}
