//! Bytes that are nearly orders: every refusal, damaged bytes, any length.

use crate::orders::{
    dose_record, fan_record, number, put, Dose, Order, FIRST_TRIAL_BAY, LAST_BAY, MILLION, MOST_DOSES, RECORD, REST, RESTS, WEEK,
};
use crate::random::Random;
use crate::styles;

/// The starts of the records of one kind.
fn records(bytes: &[u8], kind: u8) -> Vec<usize> {
    (0..bytes.len() / RECORD).map(|i| i * RECORD).filter(|&i| bytes[i] == kind).collect()
}

fn any(r: &mut Random, list: &[usize]) -> Option<usize> {
    if list.is_empty() {
        None
    } else {
        Some(r.pick(list))
    }
}

fn insert(bytes: &mut Vec<u8>, record: &[u8], r: &mut Random) {
    let at = r.below((bytes.len() / RECORD) as u64 + 1) as usize * RECORD;
    bytes.splice(at..at, record.iter().copied());
}

/// Where a field lies, its width, and a value at or past its bounds.
type Edge = (usize, usize, u32);

const DOSE_EDGES: [Edge; 17] = [
    (2, 2, 0),
    (2, 2, LAST_BAY + 1),
    (2, 2, LAST_BAY),
    (2, 2, 65_535),
    (4, 4, WEEK),
    (4, 4, WEEK - 1),
    (4, 4, u32::MAX),
    (8, 4, WEEK + 1),
    (8, 4, WEEK),
    (8, 4, 0),
    (8, 4, u32::MAX),
    (12, 4, 0),
    (12, 4, MILLION),
    (12, 4, MILLION + 1),
    (12, 4, u32::MAX),
    (8, 4, u32::MAX - 1),
    (4, 4, 0),
];

const FAN_EDGES: [Edge; 13] = [
    (1, 1, 0),
    (1, 1, 8),
    (1, 1, 9),
    (1, 1, 255),
    (4, 4, 0),
    (4, 4, 1),
    (4, 4, MILLION),
    (4, 4, MILLION + 1),
    (8, 4, 0),
    (8, 4, MILLION),
    (8, 4, MILLION + 1),
    (8, 4, u32::MAX),
    (4, 4, u32::MAX),
];

/// A field of the record at `at` put to one of its edges.
fn to_edge(bytes: &mut [u8], at: usize, edges: &[Edge], r: &mut Random) {
    let (offset, width, value) = r.pick(edges);
    put(&mut bytes[at..], offset, width, value);
}

/// A deadline at the release or a second after it.
fn short_window(bytes: &mut [u8], at: usize, r: &mut Random) {
    let release = number(&bytes[at..], 4, 4);
    put(&mut bytes[at..], 8, 4, release.wrapping_add(r.below(2) as u32));
}

/// Fields that no dose may have.
const OUT_OF_RANGE: [Edge; 6] = [(4, 4, WEEK), (8, 4, 0), (8, 4, WEEK + 1), (12, 4, 0), (12, 4, MILLION + 1), (12, 4, u32::MAX)];

/// A dose put into a trial bay, with a fault in its own record or in any, before it or behind; or put into a bay beside the trial bays.
fn near_trial_bays(bytes: &mut [u8], r: &mut Random) {
    let Some(at) = any(r, &records(bytes, b'D')) else { return };
    let whole = (bytes.len() / RECORD) as u64;
    let other = if r.once_in(2) { at } else { r.below(whole) as usize * RECORD };
    let bay = styles::trial_bay(r);
    put(&mut bytes[at..], 2, 2, bay);
    match r.below(4) {
        0 => bytes[other] = r.pick(&[0, b'C', b'd', 255]),
        1 => bytes[other + r.pick(&[1, 16, 20, 31])] = r.pick(&[1, 128, 255]),
        2 => to_edge(bytes, other, &OUT_OF_RANGE, r),
        _ => put(&mut bytes[at..], 2, 2, r.pick(&[FIRST_TRIAL_BAY - 1, LAST_BAY + 1])),
    }
}

/// A dose in the bay of another, overlapping, touching or apart by a second.
fn same_bay(bytes: &mut Vec<u8>, at: usize, r: &mut Random) {
    let field = |o, w| number(&bytes[at..], o, w);
    let (bay, release, deadline) = (field(2, 2), field(4, 4), field(8, 4));
    let (a, b) = match r.below(4) {
        0 => (deadline.saturating_add(r.below(2) as u32).saturating_sub(1), deadline.saturating_add(2)),
        1 => (release.saturating_sub(3), release.saturating_add(r.below(2) as u32)),
        2 => (release, deadline),
        _ => (0, WEEK),
    };
    let b = b.min(WEEK);
    let d = Dose { bay, release: a.min(b.saturating_sub(1)), deadline: b, grams: r.range(1, 50) };
    insert(bytes, &dose_record(&d), r);
}

/// Byte 2 of an F put to a rule, or to none; byte 3, a byte behind the fields or a field may be spoilt too.
fn any_rule(bytes: &mut [u8], at: usize, r: &mut Random) {
    let any = r.below(256) as u8;
    bytes[at + 2] = r.pick(&[0, 1, 2, 2, 3, 255, any]);
    match r.below(8) {
        0 | 1 => bytes[at + 3] = r.pick(&[1, 2, 128, 255]),
        2 => bytes[at + r.pick(&[12, 20, 31])] = r.pick(&[1, 128, 255]),
        3 => to_edge(bytes, at, &FAN_EDGES, r),
        _ => {}
    }
}

/// Bytes of orders spoilt in one place; now and then they are right all the same.
pub fn spoil(bytes: &mut Vec<u8>, r: &mut Random) {
    let whole = bytes.len() / RECORD;
    let some = if whole == 0 { None } else { Some(r.below(whole as u64) as usize * RECORD) };
    let (doses, fans) = (records(bytes, b'D'), records(bytes, b'F'));
    match r.below(13) {
        0 => {
            let cut = r.below(bytes.len() as u64 + 1) as usize;
            bytes.truncate(cut);
        }
        1 => bytes.extend((0..r.range(1, 40)).map(|_| r.pick(&[0, b'F', b'D', 255])).collect::<Vec<u8>>()),
        2 => {
            if let Some(at) = some {
                bytes[at] = r.pick(&[0, b'C', b'S', b'O', b'M', b'E', b'G', b'd', b'f', 255, b'F', b'D']);
            }
        }
        3 => {
            if let Some(at) = some {
                bytes[at + r.pick(&[1, 2, 3, 12, 15, 16, 20, 30, 31])] = r.pick(&[1, 128, 255]);
            }
        }
        4 | 5 => {
            if let Some(at) = any(r, &doses) {
                to_edge(bytes, at, &DOSE_EDGES, r);
                if r.once_in(4) {
                    short_window(bytes, at, r);
                }
            }
        }
        6 => {
            if let Some(at) = any(r, &fans) {
                to_edge(bytes, at, &FAN_EDGES, r);
            }
        }
        7 => match any(r, &fans) {
            Some(at) if r.once_in(2) => drop(bytes.drain(at..at + RECORD)),
            _ => insert(bytes, &fan_record(r.range(1, 8), r.pick(&RESTS), MILLION, 1), r),
        },
        8 => {
            for i in 0..r.range(1, 30) {
                let d = Dose { bay: 1 + (whole as u32 * 7 + i) % LAST_BAY, release: i, deadline: i + 1, grams: 1 };
                insert(bytes, &dose_record(&d), r);
            }
        }
        9 => {
            if let Some(at) = any(r, &doses) {
                same_bay(bytes, at, r);
            }
        }
        10 | 11 => {
            if let Some(at) = any(r, &fans) {
                any_rule(bytes, at, r);
            }
        }
        _ => {
            for _ in 0..r.range(1, 3).min(bytes.len() as u32) {
                let at = r.below(bytes.len() as u64) as usize;
                bytes[at] = if r.once_in(2) { bytes[at] ^ 1 << r.below(8) } else { r.below(256) as u8 };
            }
        }
    }
}

/// Seconds between two windows of a bay: none, or about the rest.
const GAPS: [u32; 12] = [0, 1, REST - 2, REST - 1, REST - 1, REST - 1, REST, REST, REST, REST, REST + 1, REST + 2];

/// A second more or less at one end of a window, or at both.
fn nudge(d: &mut Dose, r: &mut Random) {
    let (by, to) = r.pick(&[(-1, 0), (1, 0), (0, -1), (0, 1), (-1, -1), (1, 1)]);
    let (Some(release), Some(deadline)) = (d.release.checked_add_signed(by), d.deadline.checked_add_signed(to)) else { return };
    if release < deadline && deadline <= WEEK {
        (d.release, d.deadline) = (release, deadline);
    }
}

/// Rows of doses with the rest between them, of which a few are nudged.
fn nudged_rows(order: &mut Order, r: &mut Random) {
    let n = r.range(2, 9) as usize;
    order.doses = styles::rows(n, REST, r);
    (order.top_grams, order.top_seconds) = (MILLION, 1);
    for _ in 0..r.pick(&[0, 1, 2, 3]) {
        let i = r.below(n as u64) as usize;
        if let Some(d) = order.doses.get_mut(i) {
            nudge(d, r);
        }
    }
}

/// Doses of the bay of another one, before it or behind, with about the rest between them.
fn beside(order: &mut Order, r: &mut Random) {
    if order.doses.is_empty() {
        return;
    }
    let mut beside = r.pick(&order.doses);
    for _ in 0..r.pick(&[1, 1, 1, 2, 3]) {
        let (gap, length, count) = (r.pick(&GAPS), r.scaled(1, 900), order.doses.len());
        let (before, behind) = (beside.release.saturating_sub(gap), beside.deadline + gap);
        let (release, deadline) = match r.once_in(2) {
            true if before > 0 => (before.saturating_sub(length), before),
            _ if behind < WEEK => (behind, (behind + length).min(WEEK)),
            _ => continue,
        };
        let d = Dose { release, deadline, grams: r.range(1, 50), ..beside };
        // In a record of its own, or in place of another dose.
        let at = r.below(count as u64 + 1) as usize;
        if order.doses.get(at).is_some_and(|other| *other != beside) && (count == MOST_DOSES || r.once_in(2)) {
            order.doses[at] = d;
        } else if count < MOST_DOSES {
            order.doses.insert(at, d);
        }
        if r.once_in(2) {
            beside = d;
        }
    }
}

/// Several doses in a bay, mostly by rule 1: the rest between them is too short, or just long enough.
pub fn crowd(order: &mut Order, r: &mut Random) {
    order.rest = r.pick(&[0, REST, REST, REST]);
    if r.once_in(3) {
        nudged_rows(order, r);
    } else {
        beside(order, r);
    }
}

/// Any length from 0 to 1,700: records repeated, noise, or a mixture.
fn any_length(r: &mut Random) -> Vec<u8> {
    let len = if r.once_in(2) { RECORD * r.below(54) as usize } else { r.below(1_701) as usize };
    match r.below(3) {
        0 => (0..len).map(|_| r.below(256) as u8).collect(),
        1 => (0..len).map(|i| if i % RECORD == 0 { r.pick(b"FDDD") } else { 0 }).collect(),
        _ => long(r)[..len].to_vec(),
    }
}

/// More right records than an order may have, all of open bays.
pub fn long(r: &mut Random) -> Vec<u8> {
    let mut all = fan_record(r.range(1, 8), r.pick(&RESTS), MILLION, 1).to_vec();
    for i in 0..60 {
        all.extend(dose_record(&Dose { bay: 1 + i, release: 5 * i, deadline: 5 * i + 7, grams: 3 + i }));
    }
    all
}

/// Bytes for one case: an order, nearly one, or none.
pub fn bytes(r: &mut Random) -> Vec<u8> {
    if r.once_in(16) {
        return any_length(r);
    }
    let (mut order, _) = styles::valid(r);
    if r.once_in(3) {
        crowd(&mut order, r);
    }
    let mut bytes = styles::bytes(&order, r);
    if r.once_in(3) {
        for _ in 0..r.pick(&[1, 1, 1, 2, 3]) {
            spoil(&mut bytes, r);
        }
    }
    if r.once_in(10) {
        near_trial_bays(&mut bytes, r);
    }
    bytes
}
