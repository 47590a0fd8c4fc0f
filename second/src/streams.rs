//! Streams by chance: orders that begin with their F record, put behind each other, and bytes that are nearly such a stream.

use crate::cases::{order, TOP};
use crate::near;
use crate::orders::{dose_record, fan_record, number, write, Dose, Order, LAST_BAY, MILLION, MOST_DOSES, RECORD, RESTS, WEEK};
use crate::random::Random;
use crate::samples;
use crate::season::LONGEST_STREAM;
use crate::styles;

/// Doses in most orders of a stream.
const FEW: u64 = 5;

/// Once in so many streams one as long as there may be, or longer; and once in so many a full one of 24 doses in each order.
const LONG: u64 = 48;
const FULL: u64 = 1_000;

/// An F record on its own: an order without doses.
fn alone(r: &mut Random) -> Vec<u8> {
    fan_record(r.range(1, 8), r.pick(&RESTS), r.scaled(1, MILLION), r.scaled(1, MILLION)).to_vec()
}

/// The bytes of an order with its first F record in front, if it has one.
fn opened(order: &[u8]) -> Vec<u8> {
    let mut records: Vec<&[u8]> = order.chunks(RECORD).collect();
    if let Some(at) = records.iter().position(|r| r[0] == b'F') {
        records[..=at].rotate_right(1);
    }
    records.concat()
}

/// One dose of so many grams in a window of so many seconds, anywhere: its first class is W = grams, P = seconds.
fn one_dose(grams: u32, seconds: u32, r: &mut Random) -> Vec<u8> {
    let release = r.range(0, WEEK - seconds);
    let mut o = order(r.range(1, 8), (MILLION, 1), &[(release, release + seconds, grams)]);
    o.doses[0].bay = r.range(1, LAST_BAY);
    o.rest = r.pick(&RESTS);
    write(&o, 0)
}

/// Orders whose first classes have one rate by different W and P, and some beside it: by so little that whole division takes them for equal,
/// or that a 32-bit float does.
fn tied(r: &mut Random) -> Vec<Vec<u8>> {
    let (grams, seconds) = (r.scaled(1, 1_000), r.scaled(1, 1_000));
    let (beside, close) = (r.pick(&[0, 0, 1]), r.once_in(4));
    let mut order = |_| match r.below(8) {
        0 => one_dose(r.range(1, grams), r.range(seconds, WEEK), r),
        1 => alone(r),
        _ if close => {
            let seconds = 500_000 + r.range(0, 8);
            one_dose(seconds - r.range(0, 2), seconds, r)
        }
        _ => {
            let times = r.scaled(1, (MILLION / grams).min(WEEK / seconds) - 1);
            one_dose(grams * times + r.range(0, beside), seconds * times, r)
        }
    };
    (0..6).map(&mut order).collect()
}

/// An order that is refused by 9: it is read whole, and its first class is above the top rate.
fn too_fast(r: &mut Random) -> Vec<u8> {
    let mut bytes = one_dose(r.range(2, MILLION), r.range(1, 9), r);
    let grams = number(&bytes[RECORD..], 12, 4);
    bytes[..RECORD].copy_from_slice(&fan_record(1, r.pick(&RESTS), r.range(1, (grams / 10).max(1)), r.range(9, MILLION)));
    bytes
}

/// About as many doses as an order may have, or as many bytes.
fn crowded(r: &mut Random) -> Vec<u8> {
    let doses = r.pick(&[MOST_DOSES, MOST_DOSES + 1, 48, 49, 50, 60]);
    near::long(r)[..(1 + doses) * RECORD].to_vec()
}

/// One order for a stream: right, refused or nearly one, and now and then the case's own.
fn one(case: &[u8], r: &mut Random) -> Vec<u8> {
    match r.below(20) {
        0 => alone(r),
        1 => opened(case),
        2 if r.once_in(4) => case.to_vec(),
        3 => too_fast(r),
        4 if r.once_in(3) => crowded(r),
        5..=7 => {
            let mut bytes = write(&styles::few(FEW, r), 0);
            near::spoil(&mut bytes, r);
            // Whole records, so that the orders behind it are still found.
            bytes.truncate(bytes.len() / RECORD * RECORD);
            bytes
        }
        8..=11 => {
            let mut order = styles::few(FEW, r);
            near::crowd(&mut order, r);
            write(&order, 0)
        }
        _ => write(&styles::few(FEW, r), 0),
    }
}

/// The stream repeated, to about the greatest length.
fn long(stream: &[u8], r: &mut Random) -> Vec<u8> {
    let len = LONGEST_STREAM + r.pick(&[0, 0, RECORD]) - r.pick(&[0, 0, RECORD]) + r.pick(&[0, 0, 1, RECORD - 1]);
    stream.iter().copied().cycle().take(len).collect()
}

/// As many orders of 24 doses as a stream may hold.
fn full(r: &mut Random) -> Vec<u8> {
    let one = |_| {
        let order = styles::exactly(MOST_DOSES, styles::OVER_THE_WEEK, r);
        write(&Order { rest: r.pick(&RESTS), ..order }, 0)
    };
    (0..LONGEST_STREAM / RECORD / (MOST_DOSES + 1)).flat_map(one).collect()
}

/// A dose in front, so that the stream doesn't open with F.
fn with_a_dose_in_front(stream: &mut Vec<u8>, r: &mut Random) {
    let d = Dose { bay: r.range(1, LAST_BAY), release: 0, deadline: r.range(1, WEEK), grams: r.scaled(1, MILLION) };
    stream.splice(..0, dose_record(&d));
}

/// The sample streams, and two first classes that differ by 1 part in 3 x 10^11, the greater one behind.
pub fn fixed() -> Vec<Vec<u8>> {
    let close = [(WEEK - 1, WEEK - 2), (WEEK, WEEK - 1)].map(|(seconds, grams)| write(&order(1, TOP, &[(0, seconds, grams)]), 0));
    samples::streams().into_iter().map(|(_, stream)| stream).chain([close.concat()]).collect()
}

/// A stream for a case with this order: a few small orders; now and then spoilt, full or too long.
pub fn any(case: &[u8], r: &mut Random) -> Vec<u8> {
    if r.once_in(FULL) {
        return full(r);
    }
    let orders = match r.below(4) {
        0 => tied(r),
        _ => (0..r.pick(&[0, 1, 2, 3, 4, 5, 6, 7, 12])).map(|_| one(case, r)).collect(),
    };
    let mut stream = orders.concat();
    if !stream.is_empty() && r.once_in(LONG) {
        return long(&stream, r);
    }
    match r.below(16) {
        0 => with_a_dose_in_front(&mut stream, r),
        1 => stream.truncate(r.below(stream.len() as u64 + 1) as usize),
        2..=4 => near::spoil(&mut stream, r),
        _ => {}
    }
    stream
}
