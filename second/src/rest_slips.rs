//! Test builds only: the errors about the rest between doses that look right, built into a copy of the reader.

use crate::orders::{read_records, Dose, Order, Refusal, TrialBays, RECORD, REST};
use crate::slipped::Slipped;
use crate::slips::Slip::*;

impl Slipped {
    /// An F record as this copy takes it.
    fn taken(&self, fan: &mut [u8]) {
        match self.0 {
            // 4 comes of byte 3.
            RuleFour if fan[2] > 1 => fan[3] = 1,
            AnyRuleRests => fan[2] = fan[2].min(1),
            WideRule if fan[3] > 0 => (fan[2], fan[3]) = (u8::MAX, 0),
            ThirdByteUnread => fan[3] = 0,
            _ => {}
        }
    }

    /// The rest that is asked of the dose in this record, where F is in that one.
    fn rest(&self, order: &Order, place: usize, fan_at: usize, planning: bool) -> u32 {
        match self.0 {
            AskedOfRuleZero => REST,
            OneLess if order.rest > 0 => REST - 1,
            OneMore if order.rest > 0 => REST + 1,
            AskedBehindFans if fan_at > place => 0,
            RuleOfFirstRecord if fan_at > 0 => 0,
            AskedInPlanning if !planning => 0,
            _ => order.rest,
        }
    }

    /// Whether a dose and one of an earlier record clash.
    fn clash(&self, earlier: &Dose, later: &Dose, rest: u32) -> bool {
        let back = if self.0 == AskedOneWay { 0 } else { rest };
        let apart = earlier.deadline + rest <= later.release || later.deadline + back <= earlier.release;
        !apart && (earlier.bay == later.bay || (self.0 == AskedOfAllBays && rest > 0))
    }

    /// The order with trial bays open, as planning or as the others ask for it.
    pub fn read_open(&self, bytes: &[u8], planning: bool) -> Result<Order, Refusal> {
        let mut bytes = bytes.to_vec();
        bytes.chunks_exact_mut(RECORD).filter(|r| r[0] == b'F').for_each(|fan| self.taken(fan));
        let (order, places) = read_records(&bytes, TrialBays::Open)?;
        let fan_at = bytes.chunks(RECORD).position(|r| r[0] == b'F').unwrap_or(0);
        for (i, d) in order.doses.iter().enumerate() {
            let rest = self.rest(&order, places[i], fan_at, planning);
            let neighbour = (0..i).rev().find(|&j| order.doses[j].bay == d.bay);
            let asked = |j| if self.0 == AskedOfNeighbours && neighbour != Some(j) { 0 } else { rest };
            if let Some(j) = (0..i).find(|&j| self.clash(&order.doses[j], d, asked(j))) {
                return Err(Refusal { number: 8, place: places[if self.0 == RestAtEarlier { j } else { i }] });
            }
        }
        Ok(order)
    }
}
