//! Refusals 1 to 9 asked of a peer: each alone, every field at its edges, and several faults at once. All of open bays.

use crate::answers::{refusal, PLAN_BUFFER};
use crate::cases::{one_bay, order, p1, p2, p9, TOP};
use crate::checks::Checks;
use crate::library::{Judged, Planned};
use crate::orders::{dose_record, fan_record, put, write, Dose, FIRST_TRIAL_BAY, LAST_BAY, MILLION, RECORD, WEEK};

pub const TOO_SHORT: Planned = Planned { number: 1, place: 0, set: 0, weight: 0, time: 0, classes: 0, slots: 0 };

/// F and so many doses of a bay each, one after the other.
pub fn row(doses: u32) -> Vec<u8> {
    let windows: Vec<_> = (0..doses).map(|i| (i, i + 1, 1)).collect();
    write(&order(1, TOP, &windows), 0)
}

/// The same bytes with some bytes put to others.
pub fn with(bytes: &[u8], changes: &[(usize, u8)]) -> Vec<u8> {
    let mut bytes = bytes.to_vec();
    changes.iter().for_each(|&(at, value)| bytes[at] = value);
    bytes
}

pub fn alone(c: &mut Checks) {
    let right = write(&p1(TOP), 0);
    for len in [0, 1, 32, PLAN_BUFFER - 32, PLAN_BUFFER - 1] {
        c.plan(&format!("1: a buffer of {len}"), &right, len, TOO_SHORT);
    }
    for len in [1, 31, 33, 95] {
        c.refused(&format!("2: {len} bytes"), &[right.clone(), right.clone()].concat()[..len], refusal(2, 0));
    }
    c.refused("2: 1,599 bytes", &row(49)[..1_599], refusal(2, 0));
    c.refused("2: 1,632 bytes", &row(50), refusal(2, 0));
    for (place, kind) in [(0, 0), (0, b'C'), (1, b'S'), (2, b'd'), (2, b'f'), (1, 255)] {
        c.refused(&format!("3: kind {kind} in record {place}"), &with(&right, &[(place * RECORD, kind)]), refusal(3, place));
    }
    for (place, at) in [3].into_iter().chain(12..32).map(|at| (0, at)).chain([1].into_iter().chain(16..32).map(|at| (2, at))) {
        c.refused(&format!("4: byte {at} of record {place}"), &with(&right, &[(place * RECORD + at, 1)]), refusal(4, place));
    }
    c.refused("6: no F", &right[RECORD..], refusal(6, 0));
    c.refused("6: two F", &[&right[..], &right[..RECORD]].concat(), refusal(6, 0));
    c.refused("7: 25 doses", &row(25), refusal(7, 0));
    c.refused("7: 49 doses", &row(49), refusal(7, 0));
    c.planned("24 doses are no refusal", &row(24), 1, 24);
    for (name, second) in [("by a second", (3, 8, 10)), ("inside", (1, 2, 10)), ("around", (0, 9, 10)), ("equal", (0, 4, 10))] {
        c.refused(&format!("8: overlapping {name}"), &write(&one_bay(&[(0, 4, 10), second]), 0), refusal(8, 2));
        c.refused(&format!("8: overlapping {name}, F last"), &write(&one_bay(&[(0, 4, 10), second]), 2), refusal(8, 1));
    }
    let three = one_bay(&[(0, 4, 10), (4, 8, 10), (7, 9, 10), (0, 9, 10)]);
    c.refused("8: the first D that overlaps an earlier one", &write(&three, 1), refusal(8, 3));
    c.refused("9: P8", &write(&p1((3, 1)), 1), Judged { number: 9, place: 0, set: 2, weight: 16, time: 4 });
    c.refused("9: P9", &write(&p9(), 1), Judged { number: 9, place: 0, set: 1, weight: 10, time: 3 });
    c.refused(
        "9: the rate above by 1 part in 1,000,000",
        &write(&p1((999_999, 250_000)), 0),
        Judged { number: 9, place: 0, set: 2, weight: 16, time: 4 },
    );
    c.planned("9: the top rate itself is no refusal", &write(&p1((1_000_000, 250_000)), 0), 2, 2);
}

/// A record with one field put to a value, and whether that is in range.
fn edge(c: &mut Checks, name: &str, record: usize, (at, width, value): (usize, usize, u32), in_range: bool) {
    let mut bytes = write(&order(2, (MILLION, 1), &[(5, 10, 20), (6, 12, 30)]), 0);
    put(&mut bytes[record * RECORD..], at, width, value);
    let name = format!("{name} {value}");
    if in_range {
        c.refused(&format!("{name} with a damaged record after it"), &[&bytes[..], &[0; RECORD]].concat(), refusal(3, 3));
    } else {
        c.refused(&format!("5: {name}"), &bytes, refusal(5, record));
    }
}

pub fn edges(c: &mut Checks) {
    for (fans, good) in [(0, false), (1, true), (8, true), (9, false), (255, false)] {
        edge(c, "fans", 0, (1, 1, fans), good);
    }
    for (rule, good) in [(0, true), (1, true), (2, false), (128, false), (255, false)] {
        edge(c, "rule", 0, (2, 1, rule), good);
    }
    for (name, record, at) in [("top grams", 0, 4), ("top seconds", 0, 8), ("grams", 2, 12)] {
        for (value, good) in [(0, false), (1, true), (MILLION, true), (MILLION + 1, false), (u32::MAX, false)] {
            edge(c, name, record, (at, 4, value), good);
        }
    }
    for (bay, good) in [(0, false), (1, true), (FIRST_TRIAL_BAY - 1, true), (LAST_BAY + 1, false), (65_535, false)] {
        edge(c, "bay", 2, (2, 2, bay), good);
    }
    // The window of record 2 is [6, 12).
    for (release, good) in [(0, true), (11, true), (12, false), (13, false), (WEEK - 1, false), (WEEK, false), (u32::MAX, false)] {
        edge(c, "release", 2, (4, 4, release), good);
    }
    for (deadline, good) in [(0, false), (6, false), (7, true), (WEEK, true), (WEEK + 1, false), (u32::MAX, false)] {
        edge(c, "deadline", 2, (8, 4, deadline), good);
    }
    let last = Dose { bay: 1, release: WEEK - 1, deadline: WEEK, grams: MILLION };
    let bytes = [&fan_record(8, 0, MILLION, 1)[..], &dose_record(&last)].concat();
    c.planned("the last second, a ton of it", &bytes, 1, 1);
}

pub fn several(c: &mut Checks) {
    let (right, fast) = (write(&p1(TOP), 0), write(&p1((3, 1)), 0));
    c.plan("1 before 2", &right[..33], PLAN_BUFFER - 1, TOO_SHORT);
    c.plan("1 before 6", &[], PLAN_BUFFER - 1, TOO_SHORT);
    c.plan("1 before 9", &fast, PLAN_BUFFER - 1, TOO_SHORT);
    c.refused("2 before 3", &[0; 33], refusal(2, 0));
    c.refused("2 before 3 and 7", &[b'd'; 1_632], refusal(2, 0));
    c.refused("3 in 1,600 bytes", &[0; 1_600], refusal(3, 0));
    // Faults 3, 4 and 5 in records 1 to 3, in every sequence: the first record decides.
    let good = write(&order(1, TOP, &[(0, 3, 1); 3]), 0);
    let fault = |kind: usize, record: usize| match kind {
        3 => (record * RECORD, b'C'),
        4 => (record * RECORD + 31, 9),
        _ => (record * RECORD + 12, 0),
    };
    for kinds in [[3, 4, 5], [3, 5, 4], [4, 3, 5], [4, 5, 3], [5, 3, 4], [5, 4, 3]] {
        let bytes = with(&good, &[fault(kinds[0], 1), fault(kinds[1], 2), fault(kinds[2], 3)]);
        c.refused(&format!("faults {kinds:?} in records 1, 2, 3"), &bytes, refusal(kinds[0] as u32, 1));
    }
    for (kinds, first) in [(&[3, 4][..], 3), (&[3, 5], 3), (&[4, 5], 4), (&[3, 4, 5], 3)] {
        let changes: Vec<_> = kinds.iter().map(|&kind| fault(kind, 2)).collect();
        c.refused(&format!("faults {kinds:?} in record 2"), &with(&good, &changes), refusal(first, 2));
    }
    let two_fans = [&good[..], &good[..RECORD]].concat();
    c.refused("5 before 6: a second F of 0 fans", &with(&two_fans, &[(4 * RECORD + 1, 0)]), refusal(5, 4));
    c.refused("5 before 6: two F, a dose of 0 grams", &with(&two_fans, &[fault(5, 3)]), refusal(5, 3));
    c.refused("6 before 7: no F, 25 doses", &row(25)[RECORD..], refusal(6, 0));
    c.refused("6 before 7: two F, 25 doses", &[row(25), row(0)].concat(), refusal(6, 0));
    c.refused("7 before 8: 25 doses of one bay", &write(&one_bay(&[(0, 4, 1); 25]), 0), refusal(7, 0));
    let mut both = one_bay(&[(0, 4, 10), (3, 8, 10)]);
    (both.top_grams, both.top_seconds) = (1, 1_000);
    c.refused("8 before 9", &write(&both, 0), refusal(8, 2));
    let mut far = p2();
    far.doses[2].bay = far.doses[0].bay;
    c.refused("8 with a bay between", &write(&far, 1), refusal(8, 3));
}
