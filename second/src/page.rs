//! The page of benchmarks, written whole by one command from the project's root.

use crate::answers::OWN_FLOW;
use crate::bench::{chains, hard_orders, logs, measure, median, random_orders, seasons, stacks};
use crate::bench::{Stacks, Times, ENTRIES, FULL_STREAM, STACKED, TIMED};
use crate::glpk;
use crate::library::Peer;
use crate::machine::{processor, today};
use crate::near;
use crate::orders::{read, TrialBays};
use crate::random::Random;
use crate::styles::{OVER_THE_WEEK, SPREAD};
use std::fmt::Write;
use std::process::Command;

const SIZES: [usize; 4] = [1, 6, 12, 24];
const GROWTH: [usize; 9] = [1, 3, 6, 9, 12, 15, 18, 21, 24];
/// Orders of each size that `glpsol` is asked.
const GLPK_ORDERS: usize = 10;
/// Orders of each kind beside whose plans a log is laid.
const LOG_ORDERS: usize = 10;
/// Orders of each kind whose stacks are looked at.
const STACK_ORDERS: usize = 300;
const STACK: usize = 64 << 10;
/// Milliseconds of planning a hard order that would be a relapse. Set after the first measurements: a mark to watch, and no aim.
const RELAPSE: f64 = 50.0;
/// Where the summary lines of long comparisons are kept.
const LONG_RUNS: &str = "second/long-run.txt";

#[cfg(feature = "library")]
const SIDES: &[&dyn Peer] = &[&crate::library::Library, &OWN_FLOW];
#[cfg(not(feature = "library"))]
const SIDES: &[&dyn Peer] = &[&OWN_FLOW];

/// An aim of the project, set before it was first measured, and what was measured of it.
struct Figure {
    aim: String,
    measured: String,
    reached: bool,
}

/// A table's head: the given columns, then one for each side.
fn head(text: &mut String, columns: &[&str], after: &[&str]) {
    let all: Vec<&str> = columns.iter().copied().chain(SIDES.iter().map(|s| s.name())).chain(after.iter().copied()).collect();
    writeln!(text, "| {} |\n|{}", all.join(" | "), "---|".repeat(all.len())).unwrap();
}

/// The orders that are measured at each number of doses.
fn kinds(n: usize, count: usize, r: &mut Random) -> [(&'static str, Vec<Vec<u8>>); 3] {
    let (week, spread) = (random_orders(n, OVER_THE_WEEK, count, r), random_orders(n, SPREAD, count, r));
    [("random", week), ("spread", spread), ("hard", hard_orders(n))]
}

/// The table of times; the answer is those of the last size, by kind of order.
fn times(text: &mut String, count: usize, r: &mut Random) -> Vec<Vec<Times>> {
    head(text, &["doses", "orders", "asked"], &["glpk, shares only"]);
    let mut last = Vec::new();
    for n in SIZES {
        last.clear();
        for (kind, orders) in kinds(n, count, r) {
            let sides = measure(SIDES, &orders);
            let shares = glpk::time(&orders[..orders.len().min(GLPK_ORDERS)]).map_or_else(String::from, |t| format!("{t:.0}"));
            for (i, entry) in ENTRIES.iter().enumerate() {
                let cells: Vec<String> = sides.iter().map(|t| format!("{:.1}", t.entries[i])).collect();
                let shares = if i == 0 { &shares } else { "" };
                writeln!(text, "| {n} | {kind} | {entry} | {} | {shares} |", cells.join(" | ")).unwrap();
            }
            last.push(sides);
        }
    }
    last
}

fn growth(text: &mut String, count: usize, r: &mut Random) {
    head(text, &["doses", "orders"], &["slots", "second program's chains"]);
    for n in GROWTH {
        for (kind, orders) in kinds(n, count, r) {
            let sides = measure(SIDES, &orders);
            let cells: Vec<String> = sides.iter().map(|t| format!("{:.0} ({:.0})", t.entries[0], t.slowest)).collect();
            writeln!(text, "| {n} | {kind} | {} | {} | {} |", cells.join(" | "), sides[0].slots, chains(&orders)).unwrap();
        }
    }
}

/// What tests/chains counts in the built printer.
fn searches(text: &mut String) {
    let said = Command::new("tests/chains").output().ok().filter(|o| !o.stdout.is_empty());
    match said {
        Some(output) => String::from_utf8_lossy(&output.stdout).lines().for_each(|line| writeln!(text, "- {line}").unwrap()),
        None => *text += "- not counted in this run: it needs valgrind and the built printer\n",
    }
}

/// The times of the longest log, and of judging the same plan; the answer is the library's slowest order.
fn log_table(text: &mut String, r: &mut Random) -> [f64; 2] {
    head(text, &["orders", "asked"], &[]);
    let slower = |a: [f64; 2], b: [f64; 2]| if b[0] > a[0] { b } else { a };
    let mut most = [0.0; 2];
    for (kind, orders) in kinds(24, LOG_ORDERS, r) {
        let sides = logs(SIDES, &orders);
        let slowest: Vec<[f64; 2]> = sides.iter().map(|times| times.iter().copied().fold([0.0; 2], slower)).collect();
        for (i, entry) in ["log of 4,096 records", "judge"].iter().enumerate() {
            let over = |times: &[[f64; 2]]| median(times.iter().map(|t| t[i]).collect());
            let cells = sides.iter().zip(&slowest).map(|(times, slowest)| format!("{:.1} ({:.1})", over(times), slowest[i]));
            writeln!(text, "| {kind} | {entry} | {} |", cells.collect::<Vec<_>>().join(" | ")).unwrap();
        }
        most = slower(most, slowest[0]);
    }
    most
}

/// The times of a full stream, and of planning its orders one by one; the answer is the library's greatest part of the one in the other.
fn season_table(text: &mut String, r: &mut Random) -> f64 {
    head(text, &["orders", "asked"], &[]);
    let mut most: f64 = 0.0;
    for (kind, orders) in kinds(24, FULL_STREAM, r) {
        let sides = seasons(SIDES, &orders);
        for (i, entry) in ["season", "plan, one by one"].iter().enumerate() {
            let cells: Vec<String> = sides.iter().map(|times| format!("{:.1}", times[i] / 1_000.0)).collect();
            writeln!(text, "| {kind} | {entry} | {} |", cells.join(" | ")).unwrap();
        }
        most = most.max(sides[0][0] / sides[0][1]);
    }
    most
}

/// The greatest stacks of each side; the answer is the library's. Spread orders lead to the longest chains.
fn stack_table(text: &mut String, r: &mut Random) -> Stacks {
    let mut orders: Vec<Vec<u8>> = kinds(24, STACK_ORDERS, r).into_iter().flat_map(|(_, orders)| orders).collect();
    let valid = std::iter::repeat_with(|| near::bytes(r)).filter(|bytes| read(bytes, TrialBays::Closed).is_ok());
    orders.extend(valid.take(STACK_ORDERS));
    writeln!(text, "| side | {} |\n|---|{}", STACKED.join(" | "), "---|".repeat(STACKED.len())).unwrap();
    let all: Vec<Stacks> = SIDES.iter().map(|side| stacks(*side, &orders)).collect();
    for (side, used) in SIDES.iter().zip(&all) {
        let cells: Vec<String> = used.iter().map(usize::to_string).collect();
        writeln!(text, "| {} | {} |", side.name(), cells.join(" | ")).unwrap();
    }
    all[0]
}

/// The aims, from the library's times at 24 doses and its stacks.
fn figures(kinds: &[Vec<Times>], [log, judge]: [f64; 2], season: f64, used: Stacks) -> Vec<Figure> {
    let [library, second] = &kinds[0][..] else { return Vec::new() };
    let plan = library.entries[0];
    let (beside, part, fallen) = (plan / second.entries[0], library.entries[1] / plan, library.entries[4] / plan);
    let mut list = vec![
        Figure {
            aim: "planning random orders of 24 doses: at most 1.5 times the second program's flow".into(),
            measured: format!("{beside:.2} times"),
            reached: beside <= 1.5,
        },
        Figure {
            aim: "judging a plan that stands: at most a quarter of planning".into(),
            measured: format!("{part:.3}, where it falls {fallen:.2}"),
            reached: part <= 0.25,
        },
        Figure {
            aim: "judging a plan that stands, better: a tenth of planning".into(),
            measured: format!("{part:.3}"),
            reached: part <= 0.1,
        },
        Figure {
            aim: "a point: at most 20 microseconds beyond judging the same bytes".into(),
            measured: format!("{:.1} beyond, {:.1} in all", library.beyond, library.entries[2]),
            reached: library.beyond <= 20.0,
        },
        Figure {
            aim: "a log of 4,096 records over a plan of 24 doses: at most 25 milliseconds".into(),
            measured: format!("{:.1}, of which judging {:.2}", log / 1_000.0, judge / 1_000.0),
            reached: log <= 25_000.0,
        },
        Figure {
            aim: "a season of 81 orders of 24 doses: at most 1.2 times planning them one by one".into(),
            measured: format!("{season:.2} times"),
            reached: season <= 1.2,
        },
    ];
    let stack = |(entry, used): (&str, usize)| Figure {
        aim: format!("{entry}: under 64 KiB of stack"),
        measured: format!("{used} bytes"),
        reached: used < STACK,
    };
    list.extend(STACKED.into_iter().zip(used).map(stack));
    list
}

fn aims(text: &mut String, list: &[Figure]) {
    *text += "| aim | measured | reached |\n|---|---|---|\n";
    for f in list {
        writeln!(text, "| {} | {} | {} |", f.aim, f.measured, if f.reached { "yes" } else { "no" }).unwrap();
    }
    if list.iter().any(|f| !f.reached) {
        *text += "\nWhy an aim is missed stands in `docs/DECISIONS.md`.\n";
    }
}

/// Hard orders are watched: no aim in numbers was set for them.
fn watched(text: &mut String, kinds: &[Vec<Times>]) {
    let (hard, spread) = (kinds[2][0].slowest / 1_000.0, kinds[1][0].slowest / 1_000.0);
    let relapse = if hard.max(spread) > RELAPSE { " This is a relapse." } else { "" };
    writeln!(
        text,
        "\nWatched, and no aim: planning hard orders of 24 doses took {hard:.1} milliseconds on the hard sample, and {spread:.1} on the slowest of \
         the spread orders. Over {RELAPSE:.0} would be a relapse; that mark was set after the first measurements.{relapse}"
    )
    .unwrap();
}

/// How the times are taken, and of what.
const TIMES: &str = "
This page is written whole by `second bench` (see `second/README.md`). Times are microseconds. Each call is warmed once and timed TIMED times, \
which gives its median, and the figure is the median of these over COUNT orders. Random: windows and grams anywhere in the week, 1 to 8 fans. \
Spread: every release in the first half of the week, every deadline in the second, which makes the longest chains. Hard: the first doses of \
`samples/hard.order`, one order at each size. The sides take turns, order by order, in one run. The second program is built without overflow checks and finds classes and shares by its flow. The plan \
buffer is not cleared between calls.

glpk (`glpsol` of Debian's glpk-utils) is given a part of planning only: the classes are known, and it finds the shares of all classes as one \
linear program in the CPLEX format. It has a variable for each dose and open interval of its class, from 0 to the interval's length; a dose's \
variables add up to at most its need, those of a class in an interval to at most its reserved time; and it asks for the greatest total, which \
must come out as all needs. The figure is the time from start to end of the quickest of 15 runs of `glpsol`, less that of the quickest \
run on a program of one variable, in turn; so it counts reading the program and writing the answer. It is the median over the first ten \
orders. glpk counts in floats.
";

const GROWN: &str = "
The median, and in brackets the slowest order. The times are taken as above, later in the same run. The random and spread orders are others than \
those above, so their medians differ by chance; the hard ones are the same orders, timed again, and differ by what else the machine did.

";

const LOGS: &str = "
A log of one dose over the whole week, 2,048 counters and then 2,048 flows, so that all stretches but one are known; and judging the same plan, \
which laying does once. LOGGED random and spread orders of 24 doses and the hard sample: the median, and in brackets the order whose log took longest.

";

const SEASONS: &str = "
The sheet of a stream of ORDERS orders of 24 doses, 64,800 bytes, and planning the same orders one by one: both in milliseconds, each the median \
of its timed runs. The hard sample comes ORDERS times.

";

const STACKS: &str = "
The deepest use in bytes: the stack is painted, the call made, and the paint looked at, less what a call takes that answers at once. Over STACKED \
random and spread orders of 24 doses, the hard sample, and as many orders of every style; judging, drawing and laying with the planner's plan \
and with one that lacks its last record, for which the classes are computed. The log is the one above, of dose 0; the stream of a season is the \
order twice.

";

const AIMS: &str = "
The aims are the project's own, set before the first page was measured, those of the log and the season before they were built; documents 01 \
and 02 name no figure. Reading the bytes is taken as judging them: a point checks 2 to 10 first, by its definition. Where a plan falls, judging computes the \
classes, to tell 9 from 10. How each aim is read, and what another reading would miss, stands in `docs/DECISIONS.md`.

";

fn page(count: usize) -> String {
    let mut r = Random::new(1);
    let mut text = format!("# Benchmarks\n\nProcessor: {}. Date: {}.\n", processor(), today());
    text += &TIMES.replace("TIMED", &TIMED.to_string()).replace("COUNT", &count.to_string());
    text += "\n## Times\n\n";
    let last = times(&mut text, count, &mut r);
    text += "\n## How planning grows with the doses\n";
    text += GROWN;
    growth(&mut text, count, &mut r);
    text += "\nThe chains are those that the second program's flow pushes for the shares of an order, without the search for classes.\n";
    text += "\n## Searches for chains in the library\n\nCounted by `tests/chains`, for classes and shares; a search pushes one chain or finds none.\n\n";
    searches(&mut text);
    text += "\n## Laying a log\n";
    text += &LOGS.replace("LOGGED", &LOG_ORDERS.to_string());
    let laid = log_table(&mut text, &mut r.clone());
    text += "\n## Adding up a season\n";
    text += &SEASONS.replace("ORDERS", &FULL_STREAM.to_string());
    let added = season_table(&mut text, &mut r.clone());
    text += "\n## Stack\n";
    text += &STACKS.replace("STACKED", &STACK_ORDERS.to_string());
    let used = stack_table(&mut text, &mut r);
    text += "\n## Aims and measurements\n";
    text += AIMS;
    aims(&mut text, &figures(&last, laid, added, used));
    watched(&mut text, &last);
    text += "\n## Random cases\n\nThe last lines of `second compare` and of `tests/sanitized`, kept in `second/long-run.txt`:\n\n";
    match std::fs::read_to_string(LONG_RUNS) {
        Ok(runs) => runs.lines().for_each(|line| writeln!(text, "- {line}").unwrap()),
        Err(_) => text += "- none yet\n",
    }
    text
}

/// Measures and prints; with a file name, writes the page there too.
pub fn run(count: usize, file: Option<&str>) -> bool {
    let text = page(count);
    print!("{text}");
    match file.map(|name| std::fs::write(name, &text)) {
        Some(Err(e)) => {
            println!("could not be written: {e}");
            false
        }
        _ => true,
    }
}
