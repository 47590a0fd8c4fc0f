//! The shares asked of glpk's `glpsol`, a solver of linear programs, to see how a general tool fares.

use crate::answers::{accept, House};
use crate::bench::median;
use crate::orders::TrialBays;
use std::fmt::Write;
use std::path::{Path, PathBuf};
use std::process::{Command, Stdio};
use std::time::Instant;

/// Runs of `glpsol` for each program, in turn with runs on an empty one.
const TIMED: usize = 15;

const EMPTY: &str = "Maximize\n total: x\nSubject to\n one: x <= 1\nEnd\n";

/// The shares of all classes as one linear program, in ticks: the greatest total within the needs, the reserved times and the rooms.
fn program(house: &House) -> String {
    let (mut total, mut doses, mut spans, mut rooms) = (String::new(), String::new(), String::new(), String::new());
    for (i, class) in house.classes.iter().enumerate() {
        let open = |k: usize, j: usize| class.set >> k & 1 == 1 && house.spans.active[j] >> k & 1 == 1 && class.reserved[j] > 0;
        let mut reserved = vec![String::new(); house.spans.count()];
        for k in (0..house.order.doses.len()).filter(|k| class.set >> k & 1 == 1) {
            write!(doses, " d{k}:").unwrap();
            for (j, row) in reserved.iter_mut().enumerate().filter(|(j, _)| open(k, *j)) {
                let term = format!(" + x{k}_{j}\n");
                [&mut total, &mut doses, row].into_iter().for_each(|text| text.push_str(&term));
                writeln!(rooms, " 0 <= x{k}_{j} <= {}", house.spans.length(j)).unwrap();
            }
            let need = f64::from(house.order.doses[k].grams) * class.time as f64 / class.weight as f64;
            writeln!(doses, " <= {need}").unwrap();
        }
        for (j, row) in reserved.iter().enumerate().filter(|(_, row)| !row.is_empty()) {
            writeln!(spans, " c{i}_{j}:{row} <= {}", u64::from(class.reserved[j]) * house.spans.length(j)).unwrap();
        }
    }
    format!("Maximize\n total:{total}Subject to\n{doses}{spans}Bounds\n{rooms}End\n")
}

/// Microseconds from start to end of `glpsol` on a program, and the total it finds.
fn solve(text: &str, folder: &Path) -> Option<(f64, f64)> {
    let (asked, found) = (folder.join("shares.lp"), folder.join("shares.found"));
    std::fs::write(&asked, text).ok()?;
    let mut run = Command::new("glpsol");
    run.arg("--lp").arg(&asked).arg("-w").arg(&found).stdout(Stdio::null());
    let began = Instant::now();
    run.status().ok().filter(|status| status.success())?;
    let span = began.elapsed().as_nanos() as f64 / 1_000.0;
    let answer = std::fs::read_to_string(&found).ok()?;
    let line = answer.lines().find(|l| l.starts_with("s bas") && l.contains(" f f "))?;
    Some((span, line.split(' ').next_back()?.parse().ok()?))
}

/// The quickest run on the shares of an order less the quickest on an empty program: other work on the machine only slows runs down.
fn beyond_empty(house: &House, folder: &Path) -> Result<f64, &'static str> {
    let (text, wanted) = (program(house), house.classes.iter().map(|c| c.time).sum::<u64>() as f64);
    let (mut quick, mut quick_empty) = (f64::MAX, f64::MAX);
    for _ in 0..TIMED {
        quick_empty = solve(EMPTY, folder).ok_or("not installed")?.0.min(quick_empty);
        let (span, total) = solve(&text, folder).ok_or("no answer")?;
        if (total - wanted).abs() > 1e-6 * wanted {
            return Err("not the greatest total");
        }
        quick = span.min(quick);
    }
    Ok((quick - quick_empty).max(0.0))
}

/// A folder of its own for the programs, gone at the end.
struct Folder(PathBuf);

impl Drop for Folder {
    fn drop(&mut self) {
        let _ = std::fs::remove_dir_all(&self.0);
    }
}

/// The median microseconds that `glpsol` takes for the shares of these orders, or why there is none.
pub fn time(orders: &[Vec<u8>]) -> Result<f64, &'static str> {
    let folder = Folder(std::env::temp_dir().join(format!("shares-{}", std::process::id())));
    std::fs::create_dir_all(&folder.0).map_err(|_| "no folder")?;
    let houses = orders.iter().filter_map(|bytes| accept(bytes, TrialBays::Closed).ok());
    houses.map(|house| beyond_empty(&house, &folder.0)).collect::<Result<Vec<f64>, _>>().map(median)
}
