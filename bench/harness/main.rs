//! Times the proved systems against the baseline, on the same work in the same run.
//!
//! Both are warmed up first; of several runs, taken in turns, the best counts. A call
//! here is one fresh, build, equate or look; the mark before a round and the back behind it
//! are in the time and not in the count. No buffer is cleared between rounds: back
//! alone makes a system as it was.

#[path = "../baseline/mod.rs"]
mod baseline;

use baseline::workloads::{base_balanced, base_doubling, base_extend, base_nested, base_rows};
use std::process::ExitCode;
use std::time::Instant;

/// Builds a system of a capacity and does the work so many times; answers how many
/// calls were made in all.
type Work = extern "C" fn(capacity: u32, size: u32, times: u32) -> i64;

#[link(name = "workloads", kind = "static")]
extern "C" {
    fn work_nested(capacity: u32, size: u32, times: u32) -> i64;
    fn work_balanced(capacity: u32, size: u32, times: u32) -> i64;
    fn work_doubling(capacity: u32, size: u32, times: u32) -> i64;
    fn work_rows(capacity: u32, size: u32, times: u32) -> i64;
    fn work_extend(capacity: u32, size: u32, times: u32) -> i64;
}

// Safe to call with any numbers: no export has a precondition.
macro_rules! safe {
    ($($name:ident => $export:ident),*) => {$(
        extern "C" fn $name(capacity: u32, size: u32, times: u32) -> i64 {
            unsafe { $export(capacity, size, times) }
        }
    )*};
}

safe!(
    our_nested => work_nested,
    our_balanced => work_balanced,
    our_doubling => work_doubling,
    our_rows => work_rows,
    our_extend => work_extend
);

struct Row {
    name: &'static str,
    ours: Work,
    baseline: Work,
    /// The same work with the class layer above, where that is exported.
    layered: Option<Work>,
    /// Calls in a round of that size.
    calls: fn(u32) -> i64,
    /// A size that fits 512 cells, and one for 4,096.
    small: u32,
    large: u32,
}

const ROWS: [Row; 5] = [
    Row {
        name: "nested",
        ours: our_nested,
        baseline: base_nested,
        layered: None,
        calls: |size| 4 + 2 * i64::from(size),
        small: 250,
        large: 2000,
    },
    Row {
        name: "balanced",
        ours: our_balanced,
        baseline: base_balanced,
        layered: None,
        calls: |size| 2 + 2 * i64::from(size),
        small: 250,
        large: 2000,
    },
    Row {
        name: "doubling",
        ours: our_doubling,
        baseline: base_doubling,
        layered: None,
        calls: |size| 4 + 6 * i64::from(size),
        small: 120,
        large: 1000,
    },
    Row {
        name: "rows",
        ours: our_rows,
        baseline: base_rows,
        layered: None,
        calls: |size| 100 * i64::from(size),
        small: 5,
        large: 40,
    },
    Row {
        name: "extend",
        ours: our_extend,
        baseline: base_extend,
        layered: None,
        calls: |size| 52 * i64::from(size),
        small: 5,
        large: 40,
    },
];

const FEW_CELLS: u32 = 512;
const MANY_CELLS: u32 = 4096;
const RUNS: u32 = 60;
/// What one run is to take, in seconds.
const RUN: f64 = 0.004;

/// The same work may cost so much more with more cells, and with the class layer.
const MOST_FOR_CELLS: f64 = 1.2;
const MOST_FOR_LAYER: f64 = 1.3;

/// A work with its size and capacity.
#[derive(Clone, Copy)]
struct Task {
    work: Work,
    capacity: u32,
    size: u32,
    calls: i64,
}

impl Task {
    /// Seconds for so many rounds; nothing if the calls were not all answered.
    fn time(&self, times: u32) -> Option<f64> {
        let start = Instant::now();
        let calls = (self.work)(self.capacity, self.size, times);
        let seconds = start.elapsed().as_secs_f64();
        (calls == self.calls * i64::from(times)).then_some(seconds)
    }

    /// How many rounds make a run, after a warm-up.
    fn rounds(&self) -> Option<u32> {
        let mut times = 1;
        while self.time(times)? < RUN {
            times *= 2;
        }
        Some(times)
    }
}

/// Nanoseconds per call of each task, the best of runs taken in turns.
fn measure<const N: usize>(tasks: [Task; N]) -> Option<[f64; N]> {
    let mut best = [f64::INFINITY; N];
    let mut rounds = [0; N];
    for (times, task) in rounds.iter_mut().zip(&tasks) {
        *times = task.rounds()?;
    }
    for _ in 0..RUNS {
        for ((best, times), task) in best.iter_mut().zip(rounds).zip(&tasks) {
            let calls = task.calls as f64 * f64::from(times);
            *best = best.min(task.time(times)? * 1e9 / calls);
        }
    }
    Some(best)
}

impl Row {
    fn task(&self, work: Work, capacity: u32, size: u32) -> Task {
        Task {
            work,
            capacity,
            size,
            calls: (self.calls)(size),
        }
    }

    /// Ours against the baseline, at one size.
    fn against_baseline(&self, size: u32) -> Line {
        let ours = self.task(self.ours, MANY_CELLS, size);
        let baseline = self.task(self.baseline, MANY_CELLS, size);
        Line::of(self.name, [ours, baseline])
    }

    /// Many cells against few.
    fn against_cells(&self) -> Line {
        let few = self.task(self.ours, FEW_CELLS, self.small);
        let many = self.task(self.ours, MANY_CELLS, self.small);
        Line::of(self.name, [many, few])
    }

    /// With the class layer against without.
    fn against_bare(&self, layered: Work) -> Line {
        let layered = self.task(layered, MANY_CELLS, self.small);
        let bare = self.task(self.ours, MANY_CELLS, self.small);
        Line::of(self.name, [layered, bare])
    }
}

/// Two tasks by nanoseconds per call; nothing where a call was refused.
struct Line {
    title: String,
    costs: Option<[f64; 2]>,
}

impl Line {
    fn of(name: &str, tasks: [Task; 2]) -> Line {
        Line {
            title: format!("{name} {}", tasks[0].size),
            costs: measure(tasks),
        }
    }

    /// Prints the line, and says whether the first task costs at most so much more.
    fn print(&self, most: f64) -> bool {
        let Some([first, second]) = self.costs else {
            println!("{:16} a call was refused", self.title);
            return false;
        };
        let ratio = first / second;
        let verdict = if ratio <= most { "" } else { " TOO MUCH" };
        println!(
            "{:16} {first:9.2} {second:9.2} {ratio:9.2}{verdict}",
            self.title
        );
        ratio <= most
    }
}

fn heading(first: &str, second: &str, most: f64) {
    let bound = match most.is_finite() {
        true => format!(" (at most {most})"),
        false => String::new(),
    };
    println!("{:16} {first:>9} {second:>9}     ratio{bound}", "ns a call");
}

fn main() -> ExitCode {
    let mut good = true;
    heading("ours", "baseline", f64::INFINITY);
    for row in &ROWS {
        good &= row.against_baseline(row.small).print(f64::INFINITY);
        good &= row.against_baseline(row.large).print(f64::INFINITY);
    }
    heading("C = 4096", "C = 512", MOST_FOR_CELLS);
    for row in &ROWS {
        good &= row.against_cells().print(MOST_FOR_CELLS);
    }
    heading("classes", "bare", MOST_FOR_LAYER);
    for row in &ROWS {
        if let Some(layered) = row.layered {
            good &= row.against_bare(layered).print(MOST_FOR_LAYER);
        }
    }
    if good {
        ExitCode::SUCCESS
    } else {
        ExitCode::FAILURE
    }
}
