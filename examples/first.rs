//! A sample order planned, judged and drawn, a log laid beside it, and the order added up, from Rust.
//!     rustc -L target/staticlib examples/first.rs && ./first samples/p2.order

#[repr(C)]
struct Planned {
    number: u32,
    place: usize,
    set: u64,
    weight: u64,
    time: u64,
    classes: usize,
    slots: usize,
}

#[repr(C)]
struct Judged {
    number: u32,
    place: usize,
    set: u64,
    weight: u64,
    time: u64,
}

#[repr(C)]
struct Drawn {
    number: u32,
    place: usize,
    set: u64,
    weight: u64,
    time: u64,
    amount: u32,
    state: u32,
    fan: u32,
}

#[repr(C)]
struct Laid {
    number: u32,
    place: usize,
    set: u64,
    weight: u64,
    time: u64,
    metered: u64,
    risen: u64,
    unknown: u32,
}

#[repr(C)]
struct AddedUp {
    number: u32,
    place: usize,
    accepted: u32,
    refused: [u32; 10],
    grams: u64,
    seconds: u64,
    weight: u64,
    time: u64,
}

#[link(name = "knellgable", kind = "static")]
extern "C" {
    fn knellgable_plan(order: *const u8, order_bytes: usize, plan: *mut u8, plan_bytes: usize) -> Planned;
    fn knellgable_judge(order: *const u8, order_bytes: usize, plan: *const u8, plan_bytes: usize) -> Judged;
    fn knellgable_point(order: *const u8, order_bytes: usize, plan: *const u8, plan_bytes: usize, dose: usize, tick: u32) -> Drawn;
    fn knellgable_advance(order: *const u8, order_bytes: usize, plan: *const u8, plan_bytes: usize, dose: usize, tick: *mut u32) -> Drawn;
    fn knellgable_log(
        order: *const u8,
        order_bytes: usize,
        plan: *const u8,
        plan_bytes: usize,
        dose: usize,
        log: *const u8,
        log_bytes: usize,
    ) -> Laid;
    fn knellgable_season(stream: *const u8, stream_bytes: usize) -> AddedUp;
}

/// An order and the plan made for it. Slices are lent for each call only, so every call below is sound for any bytes.
struct Desk {
    order: Vec<u8>,
    plan: Vec<u8>,
}

impl Desk {
    fn judge(&self) -> Judged {
        unsafe { knellgable_judge(self.order.as_ptr(), self.order.len(), self.plan.as_ptr(), self.plan.len()) }
    }

    fn point(&self, dose: usize, tick: u32) -> Drawn {
        unsafe { knellgable_point(self.order.as_ptr(), self.order.len(), self.plan.as_ptr(), self.plan.len(), dose, tick) }
    }

    fn advance(&self, dose: usize, tick: &mut u32) -> Drawn {
        unsafe { knellgable_advance(self.order.as_ptr(), self.order.len(), self.plan.as_ptr(), self.plan.len(), dose, tick) }
    }

    fn log(&self, dose: usize, log: &[u8]) -> Laid {
        let (order, plan) = (&self.order, &self.plan);
        unsafe { knellgable_log(order.as_ptr(), order.len(), plan.as_ptr(), plan.len(), dose, log.as_ptr(), log.len()) }
    }

    /// A stream of this order alone, which begins with its F.
    fn season(&self) -> AddedUp {
        unsafe { knellgable_season(self.order.as_ptr(), self.order.len()) }
    }
}

/// An M record of bay 1: form 0 is a missing reading, 1 a counter, 2 a flow.
fn reading(tick: u32, form: u8, value: u32) -> [u8; 32] {
    let mut record = [0; 32];
    record[..3].copy_from_slice(&[0x4D, form, 1]);
    record[4..8].copy_from_slice(&tick.to_le_bytes());
    record[8..12].copy_from_slice(&value.to_le_bytes());
    record
}

fn main() {
    let Some(order) = std::env::args().nth(1).and_then(|name| std::fs::read(name).ok()) else {
        eprintln!("use: first ORDER");
        std::process::exit(2)
    };
    let mut plan = vec![0; 47_392];
    let planned = unsafe { knellgable_plan(order.as_ptr(), order.len(), plan.as_mut_ptr(), plan.len()) };
    println!("planned {}: {} classes, {} slots", planned.number, planned.classes, planned.slots);
    plan.truncate(32 * (planned.classes + planned.slots));

    let desk = Desk { order, plan };
    println!("judged {}", desk.judge().number);

    let drawn = desk.point(0, 0);
    println!("dose 0 at 0: {} grams, state {}, fan {}", drawn.amount, drawn.state, drawn.fan);

    let mut tick = 604_799;
    for _ in 0..2 {
        let drawn = desk.advance(0, &mut tick);
        println!("pen at {tick}: answer {}, {} grams, state {}", drawn.number, drawn.amount, drawn.state);
    }

    let log = [reading(0, 1, 4_294_967_290), reading(2, 1, 4), reading(3, 0, 0)].concat();
    let Laid { number, metered, risen, unknown, .. } = desk.log(0, &log);
    println!("log: answer {number}, metered {metered}/1024 grams, risen {risen}/1024, seconds unknown {unknown}");

    let AddedUp { number, accepted, grams, seconds, weight, time, .. } = desk.season();
    println!("season: answer {number}, {accepted} accepted, {grams} grams, {seconds} fan-seconds, first class {weight}/{time}");
}
