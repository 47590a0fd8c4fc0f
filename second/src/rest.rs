//! C-16's sentences about bytes that are read by the rule that their F names.

use crate::orders::{number, read, zero, Dose, Order, Refusal, TrialBays, LONGEST_ORDER, MILLION, MOST_DOSES, RECORD, REST, RESTS, WEEK};

/// The rule that the first F record names, whatever else is wrong with it.
pub fn rule(order: &[u8]) -> Option<u8> {
    order.chunks_exact(RECORD).find(|r| r[0] == b'F').map(|r| r[2])
}

/// The same bytes, every F record of which names this rule.
pub fn by_rule(order: &[u8], rule: u8) -> Vec<u8> {
    let mut order = order.to_vec();
    order.chunks_exact_mut(RECORD).filter(|r| r[0] == b'F').for_each(|r| r[2] = rule);
    order
}

/// The fault of one record to the reader of before: 3, 4, 5 or 15. Bytes 2 and 3 of F must both be zero.
fn fault(r: &[u8], trial_bays: TrialBays) -> Option<u32> {
    let within = |at, width, low, high| (low..=high).contains(&number(r, at, width));
    let release = number(r, 4, 4);
    let (zeros, ranges) = match r[0] {
        b'F' => (zero(r, 2, 4) && zero(r, 12, 32), within(1, 1, 1, 8) && within(4, 4, 1, MILLION) && within(8, 4, 1, MILLION)),
        b'D' => {
            let window = release < WEEK && within(8, 4, release + 1, WEEK);
            (zero(r, 1, 2) && zero(r, 16, 32), within(2, 2, 1, 999) && window && within(12, 4, 1, MILLION))
        }
        _ => return Some(3),
    };
    match (zeros, ranges) {
        (false, _) => Some(4),
        (true, false) => Some(5),
        _ if r[0] == b'D' && trial_bays == TrialBays::Closed && within(2, 2, 900, 999) => Some(15),
        _ => None,
    }
}

/// The reader of before the request: "Byte 2 of F, zero until now", and "two doses of one bay with overlapping windows (touching is allowed)".
/// With a rest, two windows overlap if they do with the rest put behind each.
fn before(bytes: &[u8], trial_bays: TrialBays, rest: u32) -> Result<Order, Refusal> {
    let refuse = |number, place| Err(Refusal { number, place });
    if !bytes.len().is_multiple_of(RECORD) || bytes.len() > LONGEST_ORDER {
        return refuse(2, 0);
    }
    let records: Vec<&[u8]> = bytes.chunks(RECORD).collect();
    if let Some((number, place)) = records.iter().enumerate().find_map(|(place, r)| fault(r, trial_bays).map(|number| (number, place))) {
        return refuse(number, place);
    }
    let (fans, doses): (Vec<usize>, Vec<usize>) = (0..records.len()).partition(|&i| records[i][0] == b'F');
    if fans.len() != 1 {
        return refuse(6, 0);
    }
    if doses.len() > MOST_DOSES {
        return refuse(7, 0);
    }
    let field = |place: usize, at, width| number(records[place], at, width);
    let dose = |i| Dose { bay: field(i, 2, 2), release: field(i, 4, 4), deadline: field(i, 8, 4), grams: field(i, 12, 4) };
    let overlap = |d: Dose, e: Dose| d.bay == e.bay && d.release.max(e.release) < (d.deadline + rest).min(e.deadline + rest);
    if let Some(&place) = doses.iter().find(|&&i| doses.iter().any(|&j| j < i && overlap(dose(i), dose(j)))) {
        return refuse(8, place);
    }
    let fan = |at, width| field(fans[0], at, width);
    Ok(Order { fans: fan(1, 1), top_grams: fan(4, 4), top_seconds: fan(8, 4), rest, doses: doses.into_iter().map(dose).collect() })
}

/// The first F record that names no rule, as it is refused: "byte 2 above 1 is 5", after 4.
fn no_rule(order: &[u8]) -> Option<Refusal> {
    let (place, r) = order.chunks_exact(RECORD).enumerate().find(|(_, r)| r[0] == b'F' && r[2] > 1)?;
    Some(Refusal { number: if zero(r, 3, 4) && zero(r, 12, 32) { 5 } else { 4 }, place })
}

/// By rule 0 orders "read as they did", by rule 1 as with the rest put behind each window. What is read by rule 1 is read by rule 0, with the
/// same fans, top rate and doses; what rule 0 refuses by 8, rule 1 does with that place or an earlier one; any other refusal is the same by
/// both. An F that names no rule is refused, if no earlier record is. The answer is whether rule 1 alone would refuse these records.
pub fn sentence(order: &[u8], trial_bays: TrialBays) -> Result<bool, String> {
    let [touching, rested] = [0, 1].map(|rule| read(&by_rule(order, rule), trial_bays));
    let plain = RESTS.map(|rest| before(&by_rule(order, 0), trial_bays, rest));
    let own = read(order, trial_bays);
    let kept = match (&touching, &rested) {
        (Ok(o), Ok(p)) => *p == Order { rest: REST, ..o.clone() },
        (Ok(_), Err(r)) => r.number == 8,
        (Err(r), Err(s)) if r.number == 8 => s.number == 8 && s.place <= r.place,
        (r, s) => r == s,
    };
    let earlier = |r: &Refusal, place| r.number == 2 || (matches!(r.number, 3 | 4 | 5 | 15) && r.place < place);
    let due = match no_rule(order) {
        Some(r) if !touching.as_ref().is_err_and(|t| earlier(t, r.place)) => &Err(r),
        None if rule(order) == Some(1) => &rested,
        _ => &touching,
    };
    if !kept || own != *due || [&touching, &rested] != plain.each_ref() {
        return Err(format!("read as {own:?}, by rule 0 {touching:?}, by rule 1 {rested:?}, by the plainer reader {plain:?}"));
    }
    Ok(touching.is_ok() && rested.is_err())
}
