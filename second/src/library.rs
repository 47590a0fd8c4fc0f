//! The boundary: numbers and byte slices only. The one module that may be unsafe.

#[derive(Clone, Copy, Debug, Default, PartialEq, Eq)]
pub struct Planned {
    pub number: u32,
    pub place: u32,
    pub set: u32,
    pub weight: u32,
    pub time: u32,
    pub classes: u32,
    pub slots: u32,
}

#[derive(Clone, Copy, Debug, Default, PartialEq, Eq)]
pub struct Judged {
    pub number: u32,
    pub place: u32,
    pub set: u32,
    pub weight: u32,
    pub time: u32,
}

pub const FINISHED: u32 = 0;
pub const SHUT: u32 = 1;
pub const IDLE: u32 = 2;
pub const DOSING: u32 = 3;

#[derive(Clone, Copy, Debug, Default, PartialEq, Eq)]
pub struct Drawn {
    pub number: u32,
    pub place: u32,
    pub set: u32,
    pub weight: u32,
    pub time: u32,
    pub amount: u32,
    pub state: u32,
    pub fan: u32,
}

/// A log laid beside a plan: what was metered in its known stretches and what the line rose by in them, in 1/1024 gram, and the seconds of
/// the unknown ones.
#[derive(Clone, Copy, Debug, Default, PartialEq, Eq)]
pub struct Laid {
    pub number: u32,
    pub place: u32,
    pub set: u32,
    pub weight: u32,
    pub time: u32,
    pub metered: u64,
    pub risen: u64,
    pub unknown: u32,
}

/// A season's sheet: orders accepted, orders refused by number, and of the accepted ones the grams, the fan-seconds, and W and P of the greatest
/// first class.
#[derive(Clone, Copy, Debug, Default, PartialEq, Eq)]
pub struct Season {
    pub number: u32,
    pub place: u32,
    pub accepted: u32,
    pub refused: [u32; 10],
    pub grams: u64,
    pub seconds: u64,
    pub weight: u64,
    pub time: u64,
}

/// The six entry points, whoever answers them.
pub trait Peer: Sync {
    fn name(&self) -> &'static str;
    fn plan(&self, order: &[u8], plan: &mut [u8]) -> Planned;
    fn judge(&self, order: &[u8], plan: &[u8]) -> Judged;
    fn point(&self, order: &[u8], plan: &[u8], dose: usize, tick: u32) -> Drawn;
    fn advance(&self, order: &[u8], plan: &[u8], dose: usize, tick: &mut u32) -> Drawn;
    fn log(&self, order: &[u8], plan: &[u8], dose: usize, log: &[u8]) -> Laid;
    fn season(&self, stream: &[u8]) -> Season;
}

#[cfg(feature = "library")]
mod linked {
    use super::{Drawn, Judged, Laid, Peer, Planned, Season};

    /// The answers as they cross the boundary: the library counts and places in wider numbers.
    #[repr(C)]
    struct WidePlanned {
        number: u32,
        place: usize,
        set: u64,
        weight: u64,
        time: u64,
        classes: usize,
        slots: usize,
    }

    #[repr(C)]
    struct WideJudged {
        number: u32,
        place: usize,
        set: u64,
        weight: u64,
        time: u64,
    }

    #[repr(C)]
    struct WideDrawn {
        number: u32,
        place: usize,
        set: u64,
        weight: u64,
        time: u64,
        amount: u32,
        state: u32,
        fan: u32,
    }

    #[repr(C)]
    struct WideLaid {
        number: u32,
        place: usize,
        set: u64,
        weight: u64,
        time: u64,
        metered: u64,
        risen: u64,
        unknown: u32,
    }

    #[repr(C)]
    struct WideSeason {
        number: u32,
        place: usize,
        accepted: u32,
        refused: [u32; 10],
        grams: u64,
        seconds: u64,
        weight: u64,
        time: u64,
    }

    #[link(name = "knellgable", kind = "static")]
    extern "C" {
        fn knellgable_plan(order: *const u8, order_len: usize, plan: *mut u8, plan_len: usize) -> WidePlanned;
        fn knellgable_judge(order: *const u8, order_len: usize, plan: *const u8, plan_len: usize) -> WideJudged;
        fn knellgable_point(order: *const u8, order_len: usize, plan: *const u8, plan_len: usize, dose: usize, tick: u32) -> WideDrawn;
        fn knellgable_advance(
            order: *const u8,
            order_len: usize,
            plan: *const u8,
            plan_len: usize,
            dose: usize,
            tick: *mut u32,
        ) -> WideDrawn;
        fn knellgable_log(
            order: *const u8,
            order_len: usize,
            plan: *const u8,
            plan_len: usize,
            dose: usize,
            log: *const u8,
            log_len: usize,
        ) -> WideLaid;
        fn knellgable_season(stream: *const u8, stream_len: usize) -> WideSeason;
    }

    /// No right answer is wider than 32 bits; a wider one stops the case it came in.
    fn narrow<T: TryInto<u32>>(wide: T) -> u32 {
        wide.try_into().ok().expect("an answer of the library fits 32 bits")
    }

    impl From<WideDrawn> for Drawn {
        fn from(w: WideDrawn) -> Drawn {
            let (place, set, weight, time) = (narrow(w.place), narrow(w.set), narrow(w.weight), narrow(w.time));
            Drawn { number: w.number, place, set, weight, time, amount: w.amount, state: w.state, fan: w.fan }
        }
    }

    /// The proved library. Each call lends slices that live as long as the call.
    pub struct Library;

    impl Peer for Library {
        fn name(&self) -> &'static str {
            "proved library"
        }

        fn plan(&self, order: &[u8], plan: &mut [u8]) -> Planned {
            let w = unsafe { knellgable_plan(order.as_ptr(), order.len(), plan.as_mut_ptr(), plan.len()) };
            let (place, set, weight, time) = (narrow(w.place), narrow(w.set), narrow(w.weight), narrow(w.time));
            Planned { number: w.number, place, set, weight, time, classes: narrow(w.classes), slots: narrow(w.slots) }
        }

        fn judge(&self, order: &[u8], plan: &[u8]) -> Judged {
            let w = unsafe { knellgable_judge(order.as_ptr(), order.len(), plan.as_ptr(), plan.len()) };
            Judged { number: w.number, place: narrow(w.place), set: narrow(w.set), weight: narrow(w.weight), time: narrow(w.time) }
        }

        fn point(&self, order: &[u8], plan: &[u8], dose: usize, tick: u32) -> Drawn {
            unsafe { knellgable_point(order.as_ptr(), order.len(), plan.as_ptr(), plan.len(), dose, tick) }.into()
        }

        fn advance(&self, order: &[u8], plan: &[u8], dose: usize, tick: &mut u32) -> Drawn {
            unsafe { knellgable_advance(order.as_ptr(), order.len(), plan.as_ptr(), plan.len(), dose, tick) }.into()
        }

        fn log(&self, order: &[u8], plan: &[u8], dose: usize, log: &[u8]) -> Laid {
            let w = unsafe { knellgable_log(order.as_ptr(), order.len(), plan.as_ptr(), plan.len(), dose, log.as_ptr(), log.len()) };
            let (place, set, weight, time) = (narrow(w.place), narrow(w.set), narrow(w.weight), narrow(w.time));
            Laid { number: w.number, place, set, weight, time, metered: w.metered, risen: w.risen, unknown: w.unknown }
        }

        fn season(&self, stream: &[u8]) -> Season {
            let w = unsafe { knellgable_season(stream.as_ptr(), stream.len()) };
            let (accepted, refused, grams, seconds) = (w.accepted, w.refused, w.grams, w.seconds);
            Season { number: w.number, place: narrow(w.place), accepted, refused, grams, seconds, weight: w.weight, time: w.time }
        }
    }
}

#[cfg(feature = "library")]
pub use linked::Library;

/// Bytes of stack that are painted before a call.
const PAINTED: usize = 1 << 20;
const PAINT: u8 = 0xA5;

/// Paints the stack below the caller; the answer is the lowest painted place.
#[inline(never)]
fn paint() -> usize {
    let mut wall = [0u8; PAINTED];
    for byte in wall.iter_mut() {
        unsafe { std::ptr::write_volatile(byte, PAINT) };
    }
    wall.as_ptr() as usize
}

/// How far down the paint is gone, read where it was laid (a frame of its own would wet it).
#[inline(never)]
fn look(low: usize) -> usize {
    let mut kept = 0;
    while kept < PAINTED && unsafe { std::ptr::read_volatile((low + kept) as *const u8) } == PAINT {
        kept += 1;
    }
    PAINTED - kept
}

/// The deepest stack use of a call, on a thread of its own: paint, call and look.
pub fn stack_use(call: impl FnOnce() + Send) -> usize {
    std::thread::scope(|scope| {
        let deep = std::thread::Builder::new().stack_size(8 * PAINTED);
        let worker = deep.spawn_scoped(scope, || {
            let low = paint();
            call();
            look(low)
        });
        worker.expect("a thread starts").join().expect("a thread ends")
    })
}
