//! Many cases on some threads, with a progress line; failing cases become files.

use crate::compare::{case, order_of, Difference};
use crate::library::Peer;
use crate::machine::today;
use crate::measure::Measure;
use crate::random::Random;
use crate::tally::Tally;
use std::io::Write;
use std::panic::{catch_unwind, AssertUnwindSafe};
use std::sync::atomic::{AtomicBool, AtomicU64, Ordering::Relaxed};
use std::sync::Mutex;
use std::time::{Duration, Instant};

/// Differences after which a run stops.
const ENOUGH: usize = 5;

/// One case; a panic of either side counts as a difference.
pub fn guarded(peer: &dyn Peer, seed: u64, number: u64, measure: Measure, tally: &mut Tally) -> Result<(), Difference> {
    let run = catch_unwind(AssertUnwindSafe(|| case(peer, seed, number, measure, tally)));
    run.unwrap_or_else(|_| {
        let order = order_of(number, &mut Random::of_case(seed, number));
        Err(Difference { what: "a panic".into(), order, ..Difference::default() })
    })
}

fn keep(seed: u64, number: u64, d: &Difference) {
    let name = format!("failing-{seed}-{number}");
    println!("\ncase {number} of seed {seed}: {}", d.what);
    for (end, bytes) in [("order", &d.order), ("plan", &d.plan), ("log", &d.log), ("stream", &d.stream)] {
        let file = format!("{name}.{end}");
        match std::fs::write(&file, bytes) {
            Ok(()) => println!("  written to {file}, {} bytes", bytes.len()),
            Err(e) => println!("  {file} could not be written: {e}"),
        }
    }
}

/// Runs cases `from` to `from + cases`; true if no case differed.
pub fn run(peer: &dyn Peer, cases: u64, seed: u64, from: u64, threads: u64, measure: Measure) -> bool {
    println!("comparing with the {}: seed {seed}, cases {from} to {}, threads {threads}", peer.name(), from + cases);
    let (next, done, over) = (AtomicU64::new(from), AtomicU64::new(0), AtomicBool::new(false));
    let found = Mutex::new(Vec::new());
    let total = Mutex::new(Tally::default());
    let began = Instant::now();
    std::thread::scope(|scope| {
        let workers: Vec<_> = (0..threads.max(1))
            .map(|_| {
                scope.spawn(|| {
                    let mut tally = Tally::default();
                    loop {
                        let number = next.fetch_add(1, Relaxed);
                        if number >= from + cases || found.lock().unwrap().len() >= ENOUGH {
                            break;
                        }
                        if let Err(d) = guarded(peer, seed, number, measure, &mut tally) {
                            keep(seed, number, &d);
                            found.lock().unwrap().push(number);
                        }
                        done.fetch_add(1, Relaxed);
                    }
                    total.lock().unwrap().add(&tally);
                })
            })
            .collect();
        scope.spawn(|| {
            while !over.load(Relaxed) {
                let n = done.load(Relaxed);
                let rate = n as f64 / began.elapsed().as_secs_f64().max(0.001);
                eprint!("\r{n} of {cases} cases, {rate:.0} a second, {} differences ", found.lock().unwrap().len());
                let _ = std::io::stderr().flush();
                std::thread::park_timeout(Duration::from_millis(500));
            }
            eprintln!();
        });
        workers.into_iter().for_each(|w| w.join().expect("a worker ends"));
        over.store(true, Relaxed);
    });
    let found = found.into_inner().unwrap();
    total.into_inner().unwrap().print();
    let (seconds, n) = (began.elapsed().as_secs_f64(), found.len());
    println!("{}, {}: cases {from} to {} of seed {seed}, {n} differences, {seconds:.1} s", today(), peer.name(), from + cases);
    found.is_empty()
}
