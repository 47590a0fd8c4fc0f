//! Test builds only: the errors about trial bays that look right, built into a copy of the reader.

use crate::orders::{number, put, Order, Refusal, TrialBays, FIRST_TRIAL_BAY, LAST_BAY, RECORD};
use crate::slipped::Slipped;
use crate::slips::Slip::*;

/// The same record in bay 1.
fn elsewhere(record: &[u8]) -> Vec<u8> {
    let mut record = record.to_vec();
    put(&mut record, 2, 2, 1);
    record
}

impl Slipped {
    /// Whether drawing and laying read with trial bays open.
    pub fn drawn_with(&self) -> TrialBays {
        if self.0 == ClosedToDrawing {
            TrialBays::Closed
        } else {
            TrialBays::Open
        }
    }

    fn names_trial_bay(&self, record: &[u8]) -> bool {
        let (first, last) = match self.0 {
            LastOpenClosed => (FIRST_TRIAL_BAY - 1, LAST_BAY),
            LastTrialOpen => (FIRST_TRIAL_BAY, LAST_BAY - 1),
            PastLastClosed => (FIRST_TRIAL_BAY, LAST_BAY + 1),
            _ => (FIRST_TRIAL_BAY, LAST_BAY),
        };
        record[0] == b'D' && (first..=last).contains(&number(record, 2, 2))
    }

    /// The fault of one record: 3, 4 or 5.
    fn fault(&self, record: &[u8]) -> Option<u32> {
        self.read_open(record, true).err().map(|r| r.number).filter(|number| (3..=5).contains(number))
    }

    /// The refusal of one record where trial bays are closed.
    fn refusal(&self, record: &[u8]) -> Option<u32> {
        let own = self.fault(record);
        if !self.names_trial_bay(record) {
            return own;
        }
        match (self.0, own) {
            (FifteenBeforeFive | FifteenBeforeFour, Some(5)) | (FifteenBeforeFour, Some(4)) => Some(15),
            (PastLastClosed, _) => self.fault(&elsewhere(record)).or(Some(15)),
            (_, own) => own.or(Some(15)),
        }
    }

    /// The first record that is refused where trial bays are closed.
    fn first(&self, bytes: &[u8]) -> Option<Refusal> {
        let mut doses = 0;
        for (place, record) in bytes.chunks(RECORD).enumerate() {
            if let Some(number) = self.refusal(record) {
                return Some(Refusal { number, place: if number == 15 && self.0 == DoseForPlace { doses } else { place } });
            }
            doses += usize::from(record[0] == b'D');
        }
        None
    }

    pub fn read(&self, bytes: &[u8], trial_bays: TrialBays) -> Result<Order, Refusal> {
        let open = self.read_open(bytes, trial_bays == TrialBays::Closed);
        let closed = self.0 == ClosedToJudging || (trial_bays == TrialBays::Closed && self.0 != PlannedAsBefore);
        let before = open.as_ref().err().is_some_and(|r| match self.0 {
            FifteenAfterRecords => r.number <= 5,
            FifteenAfterEight => true,
            _ => r.number == 2,
        });
        if before || !closed {
            return open;
        }
        self.first(bytes).map_or(open, Err)
    }
}
