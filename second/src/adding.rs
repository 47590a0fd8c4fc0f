//! C-15 asked of a peer: what a stream of orders adds up to, where it is cut, which first class is the greatest, and 16.

use crate::answers::OWN;
use crate::cases::{examples, one_bay, order, p1, p2, p9, TOP};
use crate::checks::Checks;
use crate::closing::in_bays;
use crate::library::{Peer, Season};
use crate::orders::{dose_record, fan_record, write, Dose, Order, FIRST_TRIAL_BAY, LAST_BAY, MILLION, RECORD, WEEK};
use crate::printer;
use crate::refusals::{row, with};
use crate::samples;
use crate::season::{Rate, LONGEST_STREAM, NONE, REFUSED};

/// The samples as they are stored, and what the season's program says of them.
const STORED: [(&[u8], &str); 2] = [
    (include_bytes!("../../samples/season.stream"), include_str!("../../samples/season.txt")),
    (include_bytes!("../../samples/no-season.stream"), include_str!("../../samples/no-season.txt")),
];

/// Orders accepted, the numbers of those refused, grams, fan-seconds, W and P.
pub type Sheet<'a> = (u32, &'a [usize], u64, u64, Rate);

pub fn sheet((accepted, refused, grams, seconds, (weight, time)): Sheet) -> Season {
    let mut season = Season { accepted, grams, seconds, weight, time, ..Season::default() };
    refused.iter().for_each(|&number| season.refused[number] += 1);
    season
}

const EMPTY: Sheet<'static> = (0, &[], 0, 0, NONE);

/// P1 is 16/4 and 20/6: 36 grams in 10 fan-seconds.
const P1: Sheet<'static> = (1, &[], 36, 10, (16, 4));

/// P1 and an order refused by this number.
fn with_p1(number: usize) -> Season {
    sheet((1, &[number], 36, 10, (16, 4)))
}

/// The F record alone.
fn alone() -> Vec<u8> {
    write(&order(3, TOP, &[]), 0)
}

/// An order of one dose of so many grams in so many seconds, which are W and P of its first class.
fn rated(grams: u32, seconds: u32) -> Vec<u8> {
    write(&order(1, (MILLION, 1), &[(0, seconds, grams)]), 0)
}

/// So many doses of a ton over the whole week, on eight fans.
fn tons(doses: usize) -> Vec<u8> {
    write(&order(8, TOP, &vec![(0, WEEK, MILLION); doses]), 0)
}

/// An order for each number that can come.
fn refused_orders() -> [(usize, Vec<u8>); 7] {
    let right = write(&p1(TOP), 0);
    [
        (2, row(50)),
        (3, with(&right, &[(RECORD, b'd')])),
        (4, with(&right, &[(2 * RECORD + 31, 1)])),
        (5, with(&right, &[(1, 0)])),
        (7, row(25)),
        (8, write(&one_bay(&[(0, 4, 10), (3, 8, 10)]), 0)),
        (9, write(&p1((3, 1)), 0)),
    ]
}

fn in_trial_bays(o: Order) -> Vec<u8> {
    write(&in_bays(o, &[LAST_BAY, FIRST_TRIAL_BAY, 950]), 0)
}

/// Document 01's examples, each a stream of its own; P11 has no bytes.
const EXAMPLES: [Sheet<'static>; 13] = [
    P1,
    (1, &[], 30, 6, (30, 6)),
    (1, &[], 3, 1, (3, 1)),
    (1, &[], 8, 4, (8, 4)),
    (1, &[], 10, 5, (10, 5)),
    (1, &[], 12, 6, (8, 2)),
    P1,
    (0, &[9], 0, 0, NONE),
    (0, &[9], 0, 0, NONE),
    (1, &[], 0, 0, NONE),
    EMPTY,
    (1, &[], 20, 8, (20, 8)),
    (0, &[8], 0, 0, NONE),
];

pub fn figures(c: &mut Checks) {
    c.season("no bytes", &[], sheet(EMPTY));
    for ((name, bytes), wanted) in examples().into_iter().zip(EXAMPLES) {
        c.season(name, &bytes, sheet(wanted));
    }
    let all: Vec<u8> = examples().into_iter().flat_map(|(_, bytes)| bytes).collect();
    c.season("all examples", &all, sheet((9, &[9, 9, 8], 155, 50, (30, 6))));
    c.season("all examples twice", &all.repeat(2), sheet((18, &[9, 9, 8, 9, 9, 8], 310, 100, (30, 6))));
    for count in [1, 2, 3, 2_047, 2_048] {
        let name = format!("{count} F records alone");
        c.season(&name, &alone().repeat(count as usize), sheet((count, &[], 0, 0, NONE)));
    }
    let one = write(&p1(TOP), 0);
    let (mut stream, mut numbers) = (one.clone(), Vec::new());
    for (number, bytes) in refused_orders() {
        c.season(&format!("refused by {number}"), &bytes, sheet((0, &[number], 0, 0, NONE)));
        c.season(&format!("refused by {number}, then P1"), &[&bytes[..], &one].concat(), with_p1(number));
        c.season(&format!("P1, then refused by {number}"), &[&one[..], &bytes].concat(), with_p1(number));
        stream.extend(bytes.repeat(number));
        numbers.extend(vec![number; number]);
    }
    stream.extend(alone());
    c.season("each number as often as it says", &stream, sheet((2, &numbers, 36, 10, (16, 4))));
    let old = [in_trial_bays(p1(TOP)), in_trial_bays(p2()), in_trial_bays(p1((3, 1)))].concat();
    c.season("trial bays", &old, sheet((2, &[9], 66, 16, (30, 6))));
    c.season("227 orders of 8 tons", &tons(8).repeat(227), sheet((227, &[], 1_816_000_000, 1_098_316_800, (8_000_000, 4_838_400))));
    c.season("81 orders of 24 tons", &tons(24).repeat(81), sheet((81, &[], 1_944_000_000, 391_910_400, (24_000_000, 4_838_400))));
    c.season("1,024 orders of a ton", &tons(1).repeat(1_024), sheet((1_024, &[], 1_024_000_000, 619_315_200, (1_000_000, 604_800))));
    for ((stream, text), (name, made)) in STORED.into_iter().zip(samples::streams()) {
        c.season(&format!("the stored {name}"), stream, OWN.season(stream));
        c.same(&format!("the stored {name} is the made one"), stream, &made[..]);
        c.same(&format!("what is said of the stored {name}"), printer::season(stream), text.into());
    }
}

/// 16 for a length or the first record; what is next to it is read.
pub fn refused(c: &mut Checks) {
    let right = [write(&p1(TOP), 0), alone()].concat();
    for len in (1..right.len()).filter(|len| len % RECORD != 0) {
        c.season(&format!("16: {len} bytes"), &right[..len], REFUSED);
    }
    let long = right.repeat(LONGEST_STREAM / right.len() + 1);
    let most = LONGEST_STREAM as u32 / 128;
    c.season("65,536 bytes", &long[..LONGEST_STREAM], sheet((2 * most, &[], 36 * u64::from(most), 10 * u64::from(most), (16, 4))));
    for len in [LONGEST_STREAM - 1, LONGEST_STREAM + 1, LONGEST_STREAM + RECORD] {
        c.season(&format!("16: {len} bytes"), &long[..len], REFUSED);
    }
    c.season("16: twice as long", &alone().repeat(2 * LONGEST_STREAM / RECORD), REFUSED);
    c.season("16: 65,536 zeros", &[0; LONGEST_STREAM], REFUSED);
    for kind in [0, 1, b'C', b'D', b'E', b'G', b'M', b'O', b'S', b'f', 0xC6, 255] {
        c.season(&format!("16: kind {kind} in front"), &with(&right, &[(0, kind)]), REFUSED);
    }
    c.season("16: doses before their F", &write(&p1(TOP), 1), REFUSED);
    c.season("16: F behind its doses", &write(&p1(TOP), 2), REFUSED);
    c.season("16: no F", &right[RECORD..3 * RECORD], REFUSED);
    c.season("16: 33 bytes, not open", &[b'D'; 33], REFUSED);
    c.season("16: 50 doses in front", &[&row(50)[RECORD..], &right].concat(), REFUSED);
}

/// A stream is cut at each record of kind F, and nowhere else.
pub fn cuts(c: &mut Checks) {
    let one = write(&p1(TOP), 0);
    let other = dose_record(&Dose { bay: 7, release: 20, deadline: 25, grams: 5 });
    // The dose is then of P1's order, in a class of its own, 5/5.
    c.season("a dose before the next F", &[&one[..], &other, &alone()].concat(), sheet((2, &[], 41, 15, (16, 4))));
    c.season("doses behind an F alone", &[&alone()[..], &one[RECORD..]].concat(), sheet((1, &[], 36, 14, (16, 4))));
    c.season("doses between two F", &[&alone()[..], &alone(), &one].concat(), sheet((3, &[], 36, 10, (16, 4))));
    // F is 0x46, which is 70.
    let mut seventy = order(2, (70, 70), &[(70, 0x4646, 70), (70, 140, 0x46)]);
    (seventy.doses[0].bay, seventy.doses[1].bay) = (70, 0x0146);
    c.season("70 in every field", &write(&seventy, 0).repeat(2), sheet((2, &[], 280, 35_980, (70, 70))));
    for at in [1, 16, 20, 24, 31] {
        let bytes = with(&one, &[(RECORD + at, b'F')]);
        c.season(&format!("70 in byte {at} of a dose"), &[&one[..], &bytes].concat(), with_p1(4));
    }
    for kind in [0, b'C', b'S', b'f', b'E', b'G', 255] {
        let bytes = with(&one, &[(2 * RECORD, kind)]);
        c.season(&format!("kind {kind} last"), &[&bytes[..], &one].concat(), with_p1(3));
    }
    for (number, at, value) in [(5, 1, 0), (5, 1, 9), (5, 2, 2), (4, 3, 1), (4, 31, 70), (5, 11, 1)] {
        let bytes = [with(&one, &[(at, value)]), one.clone()].concat();
        c.season(&format!("{number}: byte {at} of an F"), &bytes, with_p1(number));
    }
    // 24 doses are the most, 1,600 bytes the longest: 49 doses.
    for (doses, number) in [(25, 7), (48, 7), (49, 7), (50, 2), (51, 2), (2_044, 2)] {
        c.season(&format!("{doses} doses before P1"), &[&row(doses)[..], &one].concat(), with_p1(number));
    }
    c.season("24 doses before P1", &[&row(24)[..], &one].concat(), sheet((2, &[], 60, 34, (16, 4))));
    c.season("one bay in two orders", &one.repeat(2), sheet((2, &[], 72, 20, (16, 4))));
    c.season("each its own top rate", &[write(&p1((3, 1)), 0), write(&p1((4, 1)), 0)].concat(), with_p1(9));
    let fan = fan_record(2, 0, 1_000, 1);
    c.season("each its own fans", &[&one[..], &fan, &one[RECORD..]].concat(), sheet((2, &[], 72, 24, (16, 4))));
}

pub fn greatest(c: &mut Checks) {
    // In either sequence: the first of the two, or the one that is above.
    let equal: [(Rate, Rate); 5] =
        [((2, 1), (4, 2)), ((1, 1), (604_800, 604_800)), ((10, 3), (100, 30)), ((7, 604_800), (1, 86_400)), ((5, 5), (5, 5))];
    let near: [(Rate, Rate); 7] = [
        ((7, 2), (10, 3)),
        ((1, 1), (100, 101)),
        ((604_799, 604_800), (604_798, 604_799)),
        ((1_000_000, 604_799), (1_000_000, 604_800)),
        ((1_000_000, 604_800), (999_999, 604_800)),
        ((500_001, 500_000), (500_002, 500_001)),
        ((1, 604_799), (1, 604_800)),
    ];
    let mut ask = |name: &str, a: Rate, b: Rate, wanted: Rate| {
        let orders = [a, b].map(|(w, p)| rated(w as u32, p as u32));
        let (grams, seconds, name) = (a.0 + b.0, a.1 + b.1, format!("{name}: {a:?}, {b:?}"));
        c.season(&name, &orders.concat(), sheet((2, &[], grams, seconds, wanted)));
        let between = [&orders[0][..], &alone(), &write(&p9(), 0), &orders[1]].concat();
        c.season(&name, &between, sheet((3, &[9], grams, seconds, wanted)));
    };
    for (a, b) in equal {
        ask("a tie", a, b, a);
        ask("a tie", b, a, b);
    }
    for (a, b) in near {
        ask("a near tie", a, b, a);
        ask("a near tie", b, a, a);
    }
    let three = [rated(6, 3), rated(2, 1), rated(4, 2)];
    c.season("three of one rate", &three.concat(), sheet((3, &[], 12, 6, (6, 3))));
    c.season("a greater one last", &[three.concat(), rated(9, 4)].concat(), sheet((4, &[], 21, 10, (9, 4))));
    c.season("a refused one is none", &[write(&p9(), 0), rated(3, 1)].concat(), sheet((1, &[9], 3, 1, (3, 1))));
    // 24 tons in 8 weeks are a ton in 201,600 seconds.
    let (grams, seconds) = (25_000_000, 4_838_400);
    c.season(
        "24 tons, equal",
        &[tons(24), rated(MILLION, 201_600)].concat(),
        sheet((2, &[], grams, seconds + 201_600, (24_000_000, seconds))),
    );
    c.season(
        "24 tons, equal, behind",
        &[rated(MILLION, 201_600), tons(24)].concat(),
        sheet((2, &[], grams, 5_040_000, (1_000_000, 201_600))),
    );
    c.season("24 tons, above", &[tons(24), rated(MILLION, 201_599)].concat(), sheet((2, &[], grams, 5_039_999, (1_000_000, 201_599))));
    c.season("24 tons, below", &[rated(MILLION, 201_601), tons(24)].concat(), sheet((2, &[], grams, 5_040_001, (24_000_000, seconds))));
}
