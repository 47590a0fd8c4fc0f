//! Shares to slots by wrap-around, and the C and S records.

use crate::classes::Class;
use crate::intervals::Intervals;
use crate::orders::{put, RECORD};
use crate::shares::Shares;

#[derive(Clone, Copy, Debug, PartialEq, Eq)]
pub struct Slot {
    pub fan: u32,
    pub dose: u32,
    pub start: (u32, u32),
    pub end: (u32, u32),
    pub weight: u32,
    pub time: u32,
    pub class: u32,
}

impl Slot {
    /// Start and end in units of 1/W tick.
    pub fn from(&self) -> u64 {
        u64::from(self.start.0) * u64::from(self.weight) + u64::from(self.start.1)
    }

    pub fn to(&self) -> u64 {
        u64::from(self.end.0) * u64::from(self.weight) + u64::from(self.end.1)
    }

    /// The same slot from one place of the line to another, in units.
    pub fn cut(&self, from: u64, to: u64) -> Slot {
        let w = u64::from(self.weight);
        let moment = |x: u64| ((x / w) as u32, (x % w) as u32);
        Slot { start: moment(from), end: moment(to), ..*self }
    }
}

/// Lays the shares of all classes, interval by interval, class by class, fan by fan.
pub fn wrap(spans: &Intervals, classes: &[Class], shares: &[Shares]) -> Vec<Slot> {
    let mut slots = Vec::new();
    for (j, ends) in spans.instants.windows(2).enumerate() {
        let mut lowest = 0;
        for (i, class) in classes.iter().enumerate() {
            let cut = u64::from(ends[1] - ends[0]) * class.weight;
            let base = u64::from(ends[0]) * class.weight;
            let mut at = 0;
            for (k, &share) in shares[i][j].iter().enumerate() {
                let end = at + share;
                while at < end {
                    let fan = at / cut;
                    let stop = end.min((fan + 1) * cut);
                    let blank = Slot {
                        fan: lowest + fan as u32 + 1,
                        dose: k as u32,
                        start: (0, 0),
                        end: (0, 0),
                        weight: class.weight as u32,
                        time: class.time as u32,
                        class: i as u32 + 1,
                    };
                    slots.push(blank.cut(base + at - fan * cut, base + stop - fan * cut));
                    at = stop;
                }
            }
            lowest += class.reserved[j];
        }
    }
    slots
}

pub fn class_record(number: usize, class: &Class) -> [u8; RECORD] {
    let mut r = [0; RECORD];
    r[0] = b'C';
    put(&mut r, 1, 1, number as u32);
    put(&mut r, 2, 2, class.set.count_ones());
    put(&mut r, 4, 4, class.weight as u32);
    put(&mut r, 8, 4, class.time as u32);
    r
}

pub fn slot_record(s: &Slot) -> [u8; RECORD] {
    let mut r = [0; RECORD];
    r[0] = b'S';
    put(&mut r, 1, 1, s.fan);
    put(&mut r, 2, 2, s.dose);
    put(&mut r, 4, 4, s.start.0);
    put(&mut r, 8, 4, s.start.1);
    put(&mut r, 12, 4, s.end.0);
    put(&mut r, 16, 4, s.end.1);
    put(&mut r, 20, 4, s.weight);
    put(&mut r, 24, 4, s.time);
    put(&mut r, 28, 1, s.class);
    r
}

pub fn plan_bytes(classes: &[Class], slots: &[Slot]) -> Vec<u8> {
    let heads = classes.iter().enumerate().map(|(i, c)| class_record(i + 1, c));
    heads.chain(slots.iter().map(slot_record)).flatten().collect()
}
