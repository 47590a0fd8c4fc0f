//! F and D records: reading an order, refusals 2 to 8 and 15 with their place, and writing one.

pub const RECORD: usize = 32;
pub const LONGEST_ORDER: usize = 1_600;
pub const MOST_DOSES: usize = 24;
pub const WEEK: u32 = 604_800;
pub const MILLION: u32 = 1_000_000;
pub const LAST_BAY: u32 = 999;
/// "Bays 900 to 999 were for demonstrations and no house has one now."
pub const FIRST_TRIAL_BAY: u32 = 900;

/// "Newer inlet valves must rest 300 seconds between doses."
pub const REST: u32 = 300;
/// The rest that each rule asks for: "0 lets windows of a bay touch, 1 asks that the later release be at least 300 after the earlier
/// deadline".
pub const RESTS: [u32; 2] = [0, REST];

/// Whether an order may name trial bays. Closed: "New orders that name them are not planned." Open: "Old orders and their plans are still
/// judged, drawn and replayed, since growers look back at past seasons."
#[derive(Clone, Copy, Debug, PartialEq, Eq)]
pub enum TrialBays {
    Open,
    Closed,
}

#[derive(Clone, Copy, Debug, PartialEq, Eq)]
pub struct Dose {
    pub bay: u32,
    pub release: u32,
    pub deadline: u32,
    pub grams: u32,
}

#[derive(Clone, Debug, PartialEq, Eq)]
pub struct Order {
    pub fans: u32,
    pub top_grams: u32,
    pub top_seconds: u32,
    /// The seconds that the windows of a bay must be apart.
    pub rest: u32,
    pub doses: Vec<Dose>,
}

#[derive(Clone, Copy, Debug, PartialEq, Eq)]
pub struct Refusal {
    pub number: u32,
    pub place: usize,
}

/// A number of 1, 2 or 4 bytes, least significant first.
pub fn number(record: &[u8], at: usize, width: usize) -> u32 {
    (0..width).rev().fold(0, |sum, i| sum * 256 + u32::from(record[at + i]))
}

pub fn put(record: &mut [u8], at: usize, width: usize, value: u32) {
    record[at..at + width].copy_from_slice(&value.to_le_bytes()[..width]);
}

pub fn zero(record: &[u8], from: usize, to: usize) -> bool {
    record[from..to].iter().all(|&b| b == 0)
}

fn between(low: u32, x: u32, high: u32) -> bool {
    low <= x && x <= high
}

pub fn is_trial_bay(bay: u32) -> bool {
    between(FIRST_TRIAL_BAY, bay, LAST_BAY)
}

fn in_range(d: &Dose) -> bool {
    let window = d.release < WEEK && between(d.release + 1, d.deadline, WEEK);
    between(1, d.bay, LAST_BAY) && window && between(1, d.grams, MILLION)
}

/// Reads the records of an order: 2, then record by record 3, 4, 5 and, where trial bays are closed, 15 "in 5's place for that record after 5
/// itself"; then 6, 7. The windows of a bay may still clash. With it comes the index of each dose's record.
pub fn read_records(bytes: &[u8], trial_bays: TrialBays) -> Result<(Order, Vec<usize>), Refusal> {
    let refuse = |number, place| Err(Refusal { number, place });
    if !bytes.len().is_multiple_of(RECORD) || bytes.len() > LONGEST_ORDER {
        return refuse(2, 0);
    }
    let mut fans = Vec::new();
    let (mut doses, mut places) = (Vec::new(), Vec::new());
    for (place, r) in bytes.chunks(RECORD).enumerate() {
        match r[0] {
            b'F' => {
                if !zero(r, 3, 4) || !zero(r, 12, 32) {
                    return refuse(4, place);
                }
                let f = (number(r, 1, 1), number(r, 4, 4), number(r, 8, 4));
                let ranges = between(1, f.0, 8) && between(1, f.1, MILLION) && between(1, f.2, MILLION);
                // "Byte 2 above 1 is 5": no rule has that number.
                match RESTS.get(usize::from(r[2])) {
                    Some(&rest) if ranges => fans.push((f, rest)),
                    _ => return refuse(5, place),
                }
            }
            b'D' => {
                if !zero(r, 1, 2) || !zero(r, 16, 32) {
                    return refuse(4, place);
                }
                let d = Dose { bay: number(r, 2, 2), release: number(r, 4, 4), deadline: number(r, 8, 4), grams: number(r, 12, 4) };
                if !in_range(&d) {
                    return refuse(5, place);
                }
                if trial_bays == TrialBays::Closed && is_trial_bay(d.bay) {
                    return refuse(15, place);
                }
                doses.push(d);
                places.push(place);
            }
            _ => return refuse(3, place),
        }
    }
    if fans.len() != 1 {
        return refuse(6, 0);
    }
    if doses.len() > MOST_DOSES {
        return refuse(7, 0);
    }
    let ((n, top_grams, top_seconds), rest) = fans[0];
    Ok((Order { fans: n, top_grams, top_seconds, rest, doses }, places))
}

/// Whether the later release is at least the rest after the earlier deadline, whichever of the two windows is the earlier.
fn apart(d: &Dose, e: &Dose, rest: u32) -> bool {
    d.deadline + rest <= e.release || e.deadline + rest <= d.release
}

/// Reads an order: its records, and then 8 by the rest that its F asks for, which may stand behind the doses.
pub fn read(bytes: &[u8], trial_bays: TrialBays) -> Result<Order, Refusal> {
    let (order, places) = read_records(bytes, trial_bays)?;
    let doses = &order.doses;
    let clash = |d: &Dose, e: &Dose| d.bay == e.bay && !apart(d, e, order.rest);
    match (0..doses.len()).find(|&i| doses[..i].iter().any(|e| clash(&doses[i], e))) {
        Some(i) => Err(Refusal { number: 8, place: places[i] }),
        None => Ok(order),
    }
}

/// An F record; the rest is one that a rule asks for.
pub fn fan_record(fans: u32, rest: u32, top_grams: u32, top_seconds: u32) -> [u8; RECORD] {
    let rule = RESTS.iter().position(|&r| r == rest).expect("a rest that a rule asks for");
    let mut r = [0; RECORD];
    r[0] = b'F';
    put(&mut r, 1, 1, fans);
    put(&mut r, 2, 1, rule as u32);
    put(&mut r, 4, 4, top_grams);
    put(&mut r, 8, 4, top_seconds);
    r
}

pub fn dose_record(d: &Dose) -> [u8; RECORD] {
    let mut r = [0; RECORD];
    r[0] = b'D';
    put(&mut r, 2, 2, d.bay);
    put(&mut r, 4, 4, d.release);
    put(&mut r, 8, 4, d.deadline);
    put(&mut r, 12, 4, d.grams);
    r
}

/// The bytes of an order with its F record before dose `fan_at` (or last).
pub fn write(order: &Order, fan_at: usize) -> Vec<u8> {
    let fan = fan_record(order.fans, order.rest, order.top_grams, order.top_seconds);
    let mut records: Vec<_> = order.doses.iter().map(dose_record).collect();
    records.insert(fan_at.min(order.doses.len()), fan);
    records.concat()
}
