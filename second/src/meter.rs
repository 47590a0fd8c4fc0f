//! Logs by chance: whole ones of every form, nearly whole ones and long ones.

use crate::answers::House;
use crate::demand3::some_tick;
use crate::layout::Slot;
use crate::log::{flow_bits, meter_record, COUNTER, FLOW, MISSING, ONE, TOP_FLOW};
use crate::orders::{number, put, RECORD, WEEK};
use crate::random::Random;

/// A float's sign, and the exponent of those that are no numbers.
const MINUS: u32 = 1 << 31;
const INFINITE: u32 = 255 * ONE;

/// A log that would be refused 13 if nothing came before it.
pub const RAGGED: [u8; RECORD + 1] = [b'M'; RECORD + 1];

/// The bits of a flow: zeros, the ends, the first and the last of each exponent, and any.
fn some_flow(r: &mut Random) -> u32 {
    match r.below(6) {
        0 => r.pick(&[0, MINUS]),
        1 => flow_bits(TOP_FLOW - r.range(0, 2)),
        2 => flow_bits(1 << r.below(20)),
        3 => flow_bits((2 << r.below(19)) - 1),
        4 => flow_bits(r.range(0, TOP_FLOW)),
        _ => flow_bits(r.scaled(1, TOP_FLOW)),
    }
}

/// Bits that are no flow: below the least normal number, below 1/1024, beside a multiple, above 1,000, below zero, infinite, quiet and
/// signalling; and any bits.
fn odd_flow(r: &mut Random) -> u32 {
    let (digits, sign) = (r.range(0, ONE - 1), r.pick(&[0, MINUS]));
    match r.below(11) {
        0 => sign + r.range(1, ONE - 1),
        1 => r.range(1, 116) * ONE + digits,
        2 | 3 => some_flow(r) ^ 1 << r.below(4),
        4 => flow_bits(TOP_FLOW) + r.scaled(1, ONE),
        5 => r.range(137, 254) * ONE + digits,
        6 => some_flow(r) | MINUS,
        7 => sign + INFINITE,
        8 => sign + INFINITE + r.range(ONE / 2, ONE - 1),
        9 => sign + INFINITE + r.range(1, ONE / 2 - 1),
        _ => r.next() as u32,
    }
}

/// The records of a bay at rising ticks. A form stays for a while; a counter turns, stands still, runs or jumps.
fn records(ticks: &[u32], bay: u32, r: &mut Random) -> Vec<u8> {
    let one: &[u32] = r.pick(&[&[COUNTER], &[FLOW]]);
    let forms = r.pick(&[one, one, &[COUNTER, FLOW], &[MISSING, COUNTER], &[MISSING, FLOW], &[MISSING, COUNTER, FLOW]]);
    let stays = 1 + r.below(12);
    let (mut form, mut counter) = (r.pick(forms), r.pick(&[0, u32::MAX, u32::MAX - 9]));
    let mut record = |&tick: &u32| {
        if r.once_in(stays) {
            form = r.pick(forms);
        }
        counter = counter.wrapping_add(match r.below(6) {
            0 => 0,
            1 => r.next() as u32,
            _ => r.scaled(0, 1_000_000),
        });
        let value = match form {
            MISSING => 0,
            COUNTER => counter,
            _ => some_flow(r),
        };
        meter_record(bay, tick, form, value)
    };
    ticks.iter().flat_map(&mut record).collect()
}

/// A log that is laid, at ticks in or near the dose's window.
fn whole(house: &House, slots: &[Slot], dose: usize, r: &mut Random) -> Vec<u8> {
    let count = match r.below(8) {
        0 => r.below(3),
        1 => r.below(100),
        _ => 2 + r.below(10),
    };
    let mut ticks: Vec<u32> = (0..count).map(|_| some_tick(house, slots, dose, r)).collect();
    if r.once_in(8) {
        ticks.extend([0, WEEK]);
    }
    ticks.sort_unstable();
    ticks.dedup();
    records(&ticks, house.order.doses[dose].bay, r)
}

/// A log of so many records, evenly over some part of the week.
pub fn long(count: u32, bay: u32, r: &mut Random) -> Vec<u8> {
    let step = r.range(1, WEEK / count);
    let first = r.range(0, WEEK - step * count);
    let ticks: Vec<u32> = (0..count).map(|i| first + i * step).collect();
    records(&ticks, bay, r)
}

/// A log with one record or its length spoilt; some such logs are whole all the same.
pub fn spoil(log: &mut Vec<u8>, r: &mut Random) {
    let count = log.len() / RECORD;
    if count == 0 {
        log.extend(vec![b'M'; r.range(1, 64) as usize]);
        return;
    }
    let (at, other) = (r.below(count as u64) as usize * RECORD, r.below(count as u64) as usize * RECORD);
    let field = |log: &[u8], offset, width| number(&log[at..], offset, width);
    match r.below(14) {
        0 => log[at] = r.pick(&[0, b'F', b'D', b'C', b'S', b'O', b'm', b'L', b'N', 255]),
        1 => log[at + 1] = r.pick(&[0, 1, 2, 3, 4, 128, 255]),
        2 => log[at + r.range(12, 31) as usize] = r.range(1, 255) as u8,
        3 => {
            let bay = field(log, 2, 2);
            put(&mut log[at..], 2, 2, r.pick(&[0, bay + 1, bay.wrapping_sub(1), bay ^ 256, 999, 65_535]));
        }
        4 => put(&mut log[at..], 4, 4, r.pick(&[0, WEEK, WEEK + 1, WEEK + 256, 1 << 31, u32::MAX])),
        5 => {
            log[at + 1] = MISSING as u8;
            put(&mut log[at..], 8, 4, r.pick(&[1, 256, MINUS, u32::MAX]));
        }
        6..=8 => {
            log[at + 1] = FLOW as u8;
            put(&mut log[at..], 8, 4, odd_flow(r));
        }
        9 => {
            let tick = field(log, 4, 4).saturating_sub(r.range(0, 1));
            put(&mut log[other..], 4, 4, tick);
        }
        10 => (0..RECORD).for_each(|i| log.swap(at + i, other + i)),
        11 => log.truncate(r.below(log.len() as u64) as usize),
        12 => log.extend(vec![r.pick(&[0, b'M']); r.range(1, 64) as usize]),
        _ => log[at + r.below(RECORD as u64) as usize] ^= 1 << r.below(8),
    }
}

/// A log for a dose of this order: whole, or spoilt in some places.
pub fn any(house: &House, slots: &[Slot], dose: usize, r: &mut Random) -> Vec<u8> {
    let mut log = whole(house, slots, dose, r);
    for _ in 0..r.pick(&[0, 0, 1, 1, 2, 3]) {
        spoil(&mut log, r);
    }
    log
}
