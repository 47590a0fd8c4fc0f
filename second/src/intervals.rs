//! The distinct releases and deadlines, sorted, and which doses are active between them.

use crate::orders::Order;

#[derive(Clone, Debug)]
pub struct Intervals {
    /// One more than there are intervals, or none at all.
    pub instants: Vec<u32>,
    /// For each interval the active doses, bit i for dose i.
    pub active: Vec<u32>,
}

impl Intervals {
    pub fn of(order: &Order) -> Intervals {
        let mut instants: Vec<u32> = order.doses.iter().flat_map(|d| [d.release, d.deadline]).collect();
        instants.sort_unstable();
        instants.dedup();
        let active = instants
            .windows(2)
            .map(|w| {
                let open = |d: &crate::orders::Dose| d.release <= w[0] && w[1] <= d.deadline;
                order.doses.iter().enumerate().filter(|(_, d)| open(d)).fold(0, |set, (i, _)| set | 1 << i)
            })
            .collect();
        Intervals { instants, active }
    }

    pub fn count(&self) -> usize {
        self.active.len()
    }

    pub fn length(&self, j: usize) -> u64 {
        u64::from(self.instants[j + 1] - self.instants[j])
    }

    /// The interval that holds the moment just after this tick's start, if any.
    pub fn at(&self, tick: u32) -> Option<usize> {
        let before = self.instants.partition_point(|&i| i <= tick);
        if before == 0 || before == self.instants.len() {
            None
        } else {
            Some(before - 1)
        }
    }
}
