//! How much of everything a case of the comparison does.

#[derive(Clone, Copy)]
pub struct Measure {
    /// Whether short plans are damaged at every byte, and points asked for around every slot edge of the planner's own plan.
    pub every: bool,
    /// Other plans are damaged at this many bytes, and in this many whole records.
    pub bytes: usize,
    pub records: usize,
    pub points: usize,
    /// Points are asked for around every slot edge of other plans too; in one of more slots than this, around the edges of so many by chance.
    pub slots: usize,
    pub moments: u32,
    pub logs: usize,
    /// Streams by chance.
    pub streams: usize,
}

/// Four plans in five have no more than 64 slots. All edges of every longer one would take a run several times as long: a point judges the
/// whole plan.
pub const USUAL: Measure = Measure { every: true, bytes: 64, records: 20, points: 24, slots: 64, moments: 40, logs: 16, streams: 4 };
pub const LITTLE: Measure = Measure { every: false, bytes: 6, records: 4, points: 4, slots: 1, moments: 2, logs: 2, streams: 1 };
