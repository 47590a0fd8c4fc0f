//! Measuring: times of the six entry points, chains and stacks.

use crate::answers::{accept, PLAN_BUFFER};
use crate::library::{stack_use, Drawn, Judged, Laid, Peer, Planned, Season};
use crate::log::{flow_bits, meter_record, COUNTER, FLOW, LONGEST_LOG};
use crate::orders::{read, write, Order, TrialBays, MOST_DOSES, RECORD, WEEK};
use crate::random::Random;
use crate::season::LONGEST_STREAM;
use crate::styles;
use std::hint::black_box;
use std::time::Instant;

const HARD: &[u8] = include_bytes!("../../samples/hard.order");

/// Calls that are timed, after one to warm.
pub const TIMED: usize = 15;

/// What is timed on orders of every size; the last is judging a plan that lacks its last record.
pub const ENTRIES: [&str; 5] = ["plan", "judge", "point", "pen step", "judge, a plan that falls"];

/// What is looked at for its stack.
pub const STACKED: [&str; 6] = ["plan", "judge", "point", "pen step", "log", "season"];

/// Stack use of each of them, in bytes.
pub type Stacks = [usize; STACKED.len()];

/// Orders of 24 doses that a stream holds: 81.
pub const FULL_STREAM: usize = LONGEST_STREAM / RECORD / (MOST_DOSES + 1);

/// Keeps an answer from being left out.
fn spend<T>(answer: T) {
    let _ = black_box(answer);
}

pub fn median<T: Copy + PartialOrd>(mut list: Vec<T>) -> T {
    list.sort_by(|a, b| a.partial_cmp(b).expect("comparable"));
    list[list.len() / 2]
}

/// Microseconds of a call: one to warm, then the median of some.
fn time(mut call: impl FnMut()) -> f64 {
    call();
    let spans = (0..TIMED).map(|_| {
        let began = Instant::now();
        call();
        began.elapsed().as_nanos() as f64 / 1_000.0
    });
    median(spans.collect())
}

fn plan_of(peer: &dyn Peer, order: &[u8]) -> Vec<u8> {
    let mut buffer = vec![0; PLAN_BUFFER];
    let done = peer.plan(order, &mut buffer);
    buffer.truncate((done.classes + done.slots) as usize * RECORD);
    buffer
}

/// Medians over some orders, in microseconds.
pub struct Times {
    pub entries: [f64; 5],
    /// Planning the slowest order.
    pub slowest: f64,
    /// What a point costs beyond judging the same bytes.
    pub beyond: f64,
    pub slots: usize,
}

/// Measures some peers on the same orders, order by order.
pub fn measure(peers: &[&dyn Peer], orders: &[Vec<u8>]) -> Vec<Times> {
    let mut rows: Vec<Vec<([f64; 5], usize)>> = vec![Vec::new(); peers.len()];
    let mut buffer = vec![0; PLAN_BUFFER];
    for bytes in orders {
        let order = read(bytes, TrialBays::Closed).expect("an order to measure");
        let dose = order.doses.len() / 2;
        let middle = order.doses[dose].release + (order.doses[dose].deadline - order.doses[dose].release) / 2;
        for (peer, row) in peers.iter().zip(&mut rows) {
            let plan = plan_of(*peer, bytes);
            let mut pen = middle.saturating_sub(TIMED as u32);
            let entries = [
                time(|| spend(peer.plan(black_box(bytes), &mut buffer))),
                time(|| spend(peer.judge(black_box(bytes), &plan))),
                time(|| spend(peer.point(black_box(bytes), &plan, dose, middle))),
                time(|| spend(peer.advance(black_box(bytes), &plan, dose, &mut pen))),
                time(|| spend(peer.judge(black_box(bytes), &plan[..plan.len() - RECORD]))),
            ];
            row.push((entries, plan.chunks(RECORD).filter(|r| r[0] == b'S').count()));
        }
    }
    let over = |row: &[([f64; 5], usize)]| Times {
        entries: [0, 1, 2, 3, 4].map(|i| median(row.iter().map(|(entries, _)| entries[i]).collect())),
        slowest: row.iter().map(|(entries, _)| entries[0]).fold(0.0, f64::max),
        beyond: median(row.iter().map(|(entries, _)| entries[2] - entries[1]).collect()),
        slots: median(row.iter().map(|(_, slots)| *slots).collect()),
    };
    rows.iter().map(|row| over(row)).collect()
}

/// The longest log of a dose, over the whole week: counters in its first half, then flows, so that all stretches but one are known.
fn full_log(order: &Order, dose: usize) -> Vec<u8> {
    let count = (LONGEST_LOG / RECORD) as u32;
    let bay = order.doses.get(dose).map_or(0, |d| d.bay);
    let record = |i: u32| {
        let (form, value) = if i < count / 2 { (COUNTER, 3 * i) } else { (FLOW, flow_bits(i)) };
        meter_record(bay, i * (WEEK / count), form, value)
    };
    (0..count).flat_map(record).collect()
}

/// Microseconds of laying the longest log and of judging the same plan, for each peer order by order.
pub fn logs(peers: &[&dyn Peer], orders: &[Vec<u8>]) -> Vec<Vec<[f64; 2]>> {
    let mut rows = vec![Vec::new(); peers.len()];
    for bytes in orders {
        let order = read(bytes, TrialBays::Closed).expect("an order to measure");
        let dose = order.doses.len() / 2;
        let log = full_log(&order, dose);
        for (peer, row) in peers.iter().zip(&mut rows) {
            let plan = plan_of(*peer, bytes);
            let laying = time(|| spend(peer.log(black_box(bytes), &plan, dose, &log)));
            row.push([laying, time(|| spend(peer.judge(black_box(bytes), &plan)))]);
        }
    }
    rows
}

/// Microseconds of the sheet of a full stream of these orders, and of planning them one by one, for each peer. Where there are fewer orders,
/// they come again.
pub fn seasons(peers: &[&dyn Peer], orders: &[Vec<u8>]) -> Vec<[f64; 2]> {
    let orders: Vec<&[u8]> = orders.iter().map(Vec::as_slice).cycle().take(FULL_STREAM).collect();
    let stream = orders.concat();
    let mut buffer = vec![0; PLAN_BUFFER];
    let times = |peer: &&dyn Peer| {
        let adding = time(|| spend(peer.season(black_box(&stream))));
        [adding, time(|| orders.iter().for_each(|order| spend(peer.plan(black_box(order), &mut buffer))))]
    };
    peers.iter().map(times).collect()
}

/// Accepted orders of exactly `n` doses.
pub fn random_orders(n: usize, style: usize, count: usize, r: &mut Random) -> Vec<Vec<u8>> {
    let all = std::iter::repeat_with(|| write(&styles::exactly(n, style, r), 0));
    all.filter(|bytes| accept(bytes, TrialBays::Closed).is_ok()).take(count.max(1)).collect()
}

/// The hard sample's first doses.
pub fn hard_orders(n: usize) -> Vec<Vec<u8>> {
    let mut order: Order = read(HARD, TrialBays::Closed).expect("the sample is an order");
    order.doses.truncate(n);
    vec![write(&order, 0)]
}

/// The median number of chains that the second program's flow pushes for the shares.
pub fn chains(orders: &[Vec<u8>]) -> u64 {
    median(orders.iter().map(|b| accept(b, TrialBays::Closed).map_or(0, |h| h.shares(None).1)).collect())
}

/// Answers at once: what it takes of the stack is the measuring's own.
struct Nobody;

impl Peer for Nobody {
    fn name(&self) -> &'static str {
        "nobody"
    }

    fn plan(&self, order: &[u8], plan: &mut [u8]) -> Planned {
        black_box((order, plan));
        Planned::default()
    }

    fn judge(&self, order: &[u8], plan: &[u8]) -> Judged {
        black_box((order, plan));
        Judged::default()
    }

    fn point(&self, order: &[u8], plan: &[u8], dose: usize, tick: u32) -> Drawn {
        black_box((order, plan, dose, tick));
        Drawn::default()
    }

    fn advance(&self, order: &[u8], plan: &[u8], dose: usize, tick: &mut u32) -> Drawn {
        black_box((order, plan, dose, tick));
        Drawn::default()
    }

    fn log(&self, order: &[u8], plan: &[u8], dose: usize, log: &[u8]) -> Laid {
        black_box((order, plan, dose, log));
        Laid::default()
    }

    fn season(&self, stream: &[u8]) -> Season {
        black_box(stream);
        Season::default()
    }
}

/// Stack use of the six entry points with one plan, the longest log of dose 0 and a stream.
fn stacks_with(peer: &dyn Peer, order: &[u8], plan: &[u8], log: &[u8], stream: &[u8]) -> Stacks {
    let mut buffer = vec![0; PLAN_BUFFER];
    [
        stack_use(|| spend(peer.plan(order, &mut buffer))),
        stack_use(|| spend(peer.judge(order, plan))),
        stack_use(|| spend(peer.point(order, plan, 0, 1))),
        stack_use(|| spend(peer.advance(order, plan, 0, &mut 1))),
        stack_use(|| spend(peer.log(order, plan, 0, log))),
        stack_use(|| spend(peer.season(stream))),
    ]
}

/// Deepest stack use of the six entry points over some orders, with a plan that stands and with one that falls. The stream is the order twice,
/// each time from its F on.
pub fn stacks(peer: &dyn Peer, orders: &[Vec<u8>]) -> Stacks {
    let own = stacks_with(&Nobody, &[], &[], &[], &[]);
    let mut deepest = own;
    for bytes in orders {
        let plan = plan_of(peer, bytes);
        let order = read(bytes, TrialBays::Closed).expect("an order to measure");
        let (log, stream) = (full_log(&order, 0), write(&order, 0).repeat(2));
        for plan in [&plan[..], &plan[..plan.len().saturating_sub(RECORD)]] {
            let used = stacks_with(peer, bytes, plan, &log, &stream);
            deepest.iter_mut().zip(used).for_each(|(most, used)| *most = used.max(*most));
        }
    }
    std::array::from_fn(|i| deepest[i] - own[i])
}
