//! Laying a log asked of a peer: C-11's figures and its refusals, each at its edges. The plan is P1's: dose 0 of bay 1 is drawn at 0, 3, 6,
//! 10, 13, 16 and 20 grams from tick 4 to 10, dose 1 of bay 2 at 0, 4, 8, 12 and 16 from tick 0 to 4.

use crate::answers::{not_laid, refusal};
use crate::cases::{order, p1, TOP};
use crate::checks::Checks;
use crate::drawing::example;
use crate::library::Laid;
use crate::log::{meter_record, COUNTER, FLOW, LONGEST_LOG, MISSING};
use crate::orders::{write, Order, RECORD, WEEK};

/// A record as a house sends it: tick, form and value.
type Sent = (u32, u32, u32);

const MINUS_ZERO: u32 = 0x8000_0000;
const SMALLEST: u32 = 0x3A80_0000;
const QUARTER: u32 = 0x3E80_0000;
const HALF: u32 = 0x3F00_0000;
const TWO: u32 = 0x4000_0000;
const THREE: u32 = 0x4040_0000;
const GREATEST: u32 = 0x447A_0000;

/// A log of dose 0, and what was metered, risen and unknown.
type Row = (&'static str, &'static [Sent], (u64, u64, u32));

const ROWS: [Row; 21] = [
    ("no record", &[], (0, 0, 0)),
    ("one record", &[(5, COUNTER, 7)], (0, 0, 0)),
    ("one flow", &[(0, FLOW, GREATEST)], (0, 0, 0)),
    ("a counter", &[(4, COUNTER, 100), (7, COUNTER, 111)], (11_264, 10_240, 0)),
    ("a counter that turns", &[(4, COUNTER, 4_294_967_290), (10, COUNTER, 5)], (11_264, 20_480, 0)),
    ("a counter that turns by one pulse", &[(0, COUNTER, 4_294_967_295), (10, COUNTER, 0)], (1_024, 20_480, 0)),
    ("a counter one pulse short of a turn", &[(0, COUNTER, 1), (10, COUNTER, 0)], (4_398_046_510_080, 20_480, 0)),
    ("a counter that turns twice", &[(0, COUNTER, 4_294_967_295), (4, COUNTER, 1), (5, COUNTER, 0)], (4_398_046_512_128, 3_072, 0)),
    ("a counter that stands still", &[(4, COUNTER, 9), (7, COUNTER, 9)], (0, 10_240, 0)),
    ("a flow of a half for 10 seconds", &[(0, FLOW, HALF), (10, FLOW, 0)], (5_120, 20_480, 0)),
    ("the smallest flow", &[(4, FLOW, SMALLEST), (7, FLOW, 0)], (3, 10_240, 0)),
    ("the greatest flow for a week", &[(0, FLOW, GREATEST), (WEEK, FLOW, GREATEST)], (619_315_200_000, 20_480, 0)),
    ("minus zero", &[(0, FLOW, MINUS_ZERO), (10, FLOW, MINUS_ZERO)], (0, 20_480, 0)),
    ("a flow holds until the next record", &[(0, FLOW, TWO), (4, FLOW, THREE), (10, FLOW, GREATEST)], (26_624, 20_480, 0)),
    ("a counter, then a flow", &[(0, COUNTER, 5), (6, FLOW, HALF)], (0, 0, 6)),
    ("a flow, then a counter", &[(0, FLOW, HALF), (6, COUNTER, 5)], (0, 0, 6)),
    ("a missing one between two counters", &[(0, COUNTER, 5), (5, MISSING, 0), (10, COUNTER, 9)], (0, 0, 10)),
    ("missing ones", &[(0, MISSING, 0), (9, MISSING, 0)], (0, 0, 9)),
    ("a missing one, then counters", &[(0, MISSING, 0), (4, COUNTER, 5), (7, COUNTER, 9)], (4_096, 10_240, 4)),
    ("after the deadline up to 604,800", &[(10, COUNTER, 3), (WEEK, COUNTER, 5)], (2_048, 0, 0)),
    (
        "all forms",
        &[(0, FLOW, HALF), (4, FLOW, QUARTER), (5, COUNTER, 10), (7, COUNTER, 14), (9, MISSING, 0), (10, COUNTER, 20), (WEEK, COUNTER, 20)],
        (6_144, 7_168, 4),
    ),
];

fn records(bay: u32, sent: &[Sent]) -> Vec<u8> {
    sent.iter().flat_map(|&(tick, form, value)| meter_record(bay, tick, form, value)).collect()
}

fn laid((metered, risen, unknown): (u64, u64, u32)) -> Laid {
    Laid { metered, risen, unknown, ..Laid::default() }
}

fn thirteen(place: usize) -> Laid {
    not_laid(refusal(13, place))
}

fn fourteen(place: usize) -> Laid {
    not_laid(refusal(14, place))
}

/// The rows beside P1 in any bays.
pub fn rows(c: &mut Checks, o: &Order) {
    let (bytes, _, _, plan) = example(o);
    for (name, sent, figures) in ROWS {
        c.log(name, &bytes, &plan, 0, &records(o.doses[0].bay, sent), laid(figures));
    }
    let other = records(o.doses[1].bay, &[(1, COUNTER, 0), (3, COUNTER, 8)]);
    c.log("dose 1", &bytes, &plan, 1, &other, laid((8_192, 8_192, 0)));
}

pub fn figures(c: &mut Checks) {
    rows(c, &p1(TOP));
    let (bytes, _, _, plan) = example(&p1(TOP));
    for power in 0..20 {
        let (first, last) = ((1u32 << power) as f32, ((2u64 << power) - 1).min(1_024_000) as f32);
        for flow in [first, last] {
            let log = records(1, &[(6, FLOW, (flow / 1_024.0).to_bits()), (7, FLOW, 0)]);
            c.log(&format!("a flow of {flow}/1024"), &bytes, &plan, 0, &log, laid((flow as u64, 4_096, 0)));
        }
    }
    let seconds = |count: u32| records(1, &(0..count).map(|tick| (tick, COUNTER, tick)).collect::<Vec<_>>());
    c.log("4,095 records", &bytes, &plan, 0, &seconds(4_095), laid((4_192_256, 20_480, 0)));
    c.log("4,096 records", &bytes, &plan, 0, &seconds(4_096), laid((4_193_280, 20_480, 0)));
    c.log("13: 4,097 records", &bytes, &plan, 0, &seconds(4_097), thirteen(0));
}

/// Bits beside and beyond every flow.
const NO_FLOWS: [u32; 24] = [
    0x0000_0001, // the least number above zero
    0x007F_FFFF,
    0x0080_0000,
    0x3A00_0000, // 1/2048
    0x3A7F_FFFF,
    0x3A80_0001,
    0x3EFF_FFFF,
    0x3F00_0001,
    0x4479_FFFF,
    0x447A_0001,
    0x447A_0010, // 1,000 and 1/1024
    0x4480_0000,
    0x4600_0000, // from here on every float is a multiple
    0x7F7F_FFFF,
    0x8000_0001,
    0xBA80_0000,
    0xC47A_0000,
    0x7F80_0000, // infinite
    0xFF80_0000,
    0x7F80_0001, // signalling
    0xFFBF_FFFF,
    0x7FC0_0000, // quiet
    0xFFC0_0000,
    0xFFFF_FFFF,
];

/// A log of four counters, one of which is spoilt: 13 with its index.
fn spoilt(c: &mut Checks, name: &str, change: impl Fn(&mut [u8])) {
    let (bytes, _, _, plan) = example(&p1(TOP));
    for place in [0, 1, 3] {
        let mut log = records(1, &[(4, COUNTER, 100), (5, COUNTER, 103), (6, COUNTER, 106), (7, COUNTER, 111)]);
        change(&mut log[place * RECORD..(place + 1) * RECORD]);
        c.log(&format!("13: {name} in record {place}"), &bytes, &plan, 0, &log, thirteen(place));
    }
}

fn put_value(form: u32, value: u32) -> impl Fn(&mut [u8]) {
    move |r| {
        r[1] = form as u8;
        r[8..12].copy_from_slice(&value.to_le_bytes());
    }
}

/// Each of 13's faults alone, then 14's.
pub fn refusals(c: &mut Checks) {
    for kind in [0, b'F', b'D', b'C', b'S', b'm', b'L', b'N', 255] {
        spoilt(c, &format!("kind {kind}"), |r| r[0] = kind);
    }
    for form in [3, 4, 128, 255] {
        spoilt(c, &format!("form {form}"), |r| r[1] = form);
    }
    for at in 12..RECORD {
        spoilt(c, &format!("byte {at} not zero"), |r| r[at] = 1);
    }
    for bay in [0, 2, 257, 999, 65_535] {
        spoilt(c, &format!("bay {bay}"), |r| r[2..4].copy_from_slice(&(bay as u16).to_le_bytes()));
    }
    for tick in [WEEK + 1, 1 << 31, u32::MAX] {
        spoilt(c, &format!("tick {tick}"), |r| r[4..8].copy_from_slice(&tick.to_le_bytes()));
    }
    for value in [1, 1 << 24, MINUS_ZERO, u32::MAX] {
        spoilt(c, &format!("missing with {value}"), put_value(MISSING, value));
    }
    for bits in NO_FLOWS {
        spoilt(c, &format!("a flow of {bits:#x}"), put_value(FLOW, bits));
    }
    let (bytes, _, _, plan) = example(&p1(TOP));
    let counters = |ticks: &[u32]| records(1, &ticks.iter().map(|&tick| (tick, COUNTER, tick)).collect::<Vec<_>>());
    for (ticks, place) in [(&[4, 4][..], 1), (&[5, 4], 1), (&[4, 5, 5], 2), (&[4, 6, 5, 3], 2), (&[0, WEEK, WEEK], 2), (&[1, 0, 0], 1)] {
        c.log(&format!("14: ticks {ticks:?}"), &bytes, &plan, 0, &counters(ticks), fourteen(place));
    }
}

/// Faults at once, in document 02's sequence: 2 to 11 first, then 13 over the whole log, then 14.
pub fn several(c: &mut Checks) {
    let (bytes, _, _, plan) = example(&p1(TOP));
    let right = records(1, &[(4, COUNTER, 100), (4, COUNTER, 103), (6, COUNTER, 106), (7, COUNTER, 111)]);
    let with = |at: usize, value: u8| {
        let mut log = right.clone();
        log[at] = value;
        log
    };
    c.log("14 in record 1", &bytes, &plan, 0, &right, fourteen(1));
    c.log("13 in record 3 with 14 in record 1", &bytes, &plan, 0, &with(3 * RECORD, 0), thirteen(3));
    c.log("13 in record 3 with its bay, 14 in record 1", &bytes, &plan, 0, &with(3 * RECORD + 2, 2), thirteen(3));
    c.log("13 and 14 in record 1", &bytes, &plan, 0, &with(RECORD + 1, 3), thirteen(1));
    c.log("the first of two 13", &bytes, &plan, 0, &[with(3 * RECORD, 0), with(0, 0)].concat(), thirteen(3));
    for len in [1, 31, 33, 127] {
        c.log(&format!("13: {len} bytes"), &bytes, &plan, 0, &with(0, 0)[..len], thirteen(0));
    }
    for len in [LONGEST_LOG - 1, LONGEST_LOG + 1, LONGEST_LOG + RECORD, 2 * LONGEST_LOG] {
        c.log(&format!("13: {len} bytes"), &bytes, &plan, 0, &vec![b'M'; len], thirteen(0));
    }
    c.log("13: a log of dose 1's bay", &bytes, &plan, 1, &right, thirteen(0));
    for log in [&[][..], &right, &right[..33]] {
        for dose in [2, 3, 24, 1 << 32, usize::MAX] {
            c.log(&format!("11: dose {dose} of 2"), &bytes, &plan, dose, log, not_laid(refusal(11, 0)));
        }
        for dose in [0, 2, usize::MAX] {
            c.log(&format!("10 first: dose {dose}"), &bytes, &plan[RECORD..], dose, log, not_laid(refusal(10, 0)));
        }
    }
    c.log("11: no dose at all", &write(&order(3, TOP, &[]), 0), &[], 0, &right, not_laid(refusal(11, 0)));
}
