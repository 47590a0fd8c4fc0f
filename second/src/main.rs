//! An independent second program: orders, classes, plans, verdicts and lines by document 01, logs and seasons by document 02.

#![deny(unsafe_code)]

mod adding;
mod alone;
mod answers;
mod bench;
mod cases;
mod checks;
mod classes;
mod clauses;
mod closing;
mod compare;
mod demand3;
mod drawing;
mod feeding;
mod flow;
mod glpk;
mod guard;
mod intervals;
mod laying;
mod layout;
#[allow(unsafe_code)]
mod library;
mod line;
#[cfg(feature = "errors")]
mod line_slips;
mod log;
#[cfg(feature = "errors")]
mod log_slips;
mod machine;
mod measure;
mod meter;
mod near;
mod orders;
mod page;
mod printer;
mod random;
mod refusals;
mod rest;
#[cfg(feature = "errors")]
mod rest_slips;
mod resting;
mod runs;
mod samples;
mod season;
mod season_case;
#[cfg(feature = "errors")]
mod season_slips;
mod seconds;
mod selftest;
mod shares;
#[cfg(feature = "errors")]
mod slipped;
#[cfg(feature = "errors")]
mod slips;
mod stands;
mod streams;
mod stretches;
mod styles;
mod sums;
mod tally;
mod trial;
#[cfg(feature = "errors")]
mod trial_slips;
mod variants;
mod verdicts;

use std::process::ExitCode;

const USE: &str = "use: second self [cases] [seed]
     second cases
     second compare [cases] [seed] [threads] [first case] [little]
     second errors [cases] [seed]           (built with --features errors)
     second case FILE [PLAN FILE [DOSE LOG FILE]]
     second plan FILE
     second classes FILE
     second season FILE
     second bench [orders] [FILE]
     second make-samples DIR
     second make-cases DIR [cases] [seed]";

/// The peer that `cases` and `compare` ask: the proved library if it is linked.
#[cfg(feature = "library")]
const PEER: library::Library = library::Library;
#[cfg(not(feature = "library"))]
const PEER: answers::Own = answers::OWN;

fn number(args: &[String], at: usize, usual: u64) -> u64 {
    match args.get(at) {
        None => usual,
        Some(text) => text.parse().unwrap_or_else(|_| {
            eprintln!("not a number: {text}");
            std::process::exit(2)
        }),
    }
}

fn file(args: &[String], at: usize) -> Vec<u8> {
    let Some(name) = args.get(at) else {
        eprintln!("{USE}");
        std::process::exit(2)
    };
    std::fs::read(name).unwrap_or_else(|e| {
        eprintln!("{name}: {e}");
        std::process::exit(2)
    })
}

fn main() -> ExitCode {
    let args: Vec<String> = std::env::args().skip(1).collect();
    let good = match args.first().map(String::as_str) {
        Some("self") => selftest::run(number(&args, 1, 2_000), number(&args, 2, 1)),
        Some("cases") => checks::run(&PEER),
        Some("compare") => {
            let measure = if args.get(5).is_some_and(|word| word == "little") { measure::LITTLE } else { measure::USUAL };
            runs::run(&PEER, number(&args, 1, 1_000), number(&args, 2, 1), number(&args, 4, 0), number(&args, 3, 1), measure)
        }
        #[cfg(feature = "errors")]
        Some("errors") => slips::run(number(&args, 1, 1_000), number(&args, 2, 1)),
        Some("case") => {
            let plan = if args.len() > 2 { Some(file(&args, 2)) } else { None };
            let log = if args.len() > 3 { Some((number(&args, 3, 0) as usize, file(&args, 4))) } else { None };
            printer::case(&file(&args, 1), plan.as_deref(), log.as_ref().map(|(dose, bytes)| (*dose, &bytes[..])));
            true
        }
        Some("plan") => {
            print!("{}", printer::plan(&file(&args, 1)));
            true
        }
        Some("classes") => {
            print!("{}", printer::classes(&file(&args, 1)));
            true
        }
        Some("season") => {
            print!("{}", printer::season(&file(&args, 1)));
            true
        }
        Some("bench") => page::run(number(&args, 1, 100) as usize, args.get(2).map(String::as_str)),
        Some("make-samples") => samples::make(args.get(1).map_or(".", String::as_str)),
        Some("make-cases") => samples::make_cases(args.get(1).map_or(".", String::as_str), number(&args, 2, 1_000), number(&args, 3, 1)),
        _ => {
            eprintln!("{USE}");
            return ExitCode::from(2);
        }
    };
    if good {
        ExitCode::SUCCESS
    } else {
        ExitCode::FAILURE
    }
}
