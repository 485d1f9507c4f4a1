//! The same work as that of the crate `workloads`, call for call.

use super::cell::{Head, Sort};
use super::system::{Fault, System, View};

const ALL: u32 = (1 << 24) - 1;
const LOW: u32 = (1 << 12) - 1;

type Made = Result<usize, Fault>;

/// Refused where the code is unknown or still open.
fn shows_head(system: &System, code: usize) -> Result<(), Fault> {
    match system.look(code)? {
        View::Built(..) => Ok(()),
        View::Open(_) => Err(Fault::Unknown),
    }
}

fn lists(system: &mut System, inner: usize, depth: u32) -> Made {
    let mut at = inner;
    for _ in 0..depth {
        at = system.build(Head::List, at, at, 0, 0)?;
    }
    Ok(at)
}

fn nested(system: &mut System, size: u32) -> Result<u64, Fault> {
    let open = system.fresh(Sort::Type)?;
    let whole = system.build(Head::Whole, open, open, 0, 0)?;
    let a = lists(system, open, size)?;
    let b = lists(system, whole, size)?;
    system.equate(a, b)?;
    shows_head(system, open)?;
    Ok(4 + 2 * u64::from(size))
}

fn leaf(system: &mut System, open: bool) -> Made {
    if open {
        return system.fresh(Sort::Type);
    }
    system.build(Head::Whole, 0, 0, 0, 0)
}

fn tree(system: &mut System, open: bool, nodes: u32) -> Made {
    if nodes <= 1 {
        return leaf(system, open);
    }
    let below = nodes - 1;
    let left = tree(system, open, below / 2)?;
    if below == 1 {
        return system.build(Head::List, left, left, 0, 0);
    }
    let right = tree(system, open, below - below / 2)?;
    system.build(Head::To, left, right, 0, 0)
}

fn balanced(system: &mut System, size: u32) -> Result<u64, Fault> {
    let a = tree(system, true, size)?;
    let b = tree(system, false, size)?;
    system.equate(a, b)?;
    shows_head(system, a)?;
    Ok(2 + 2 * u64::from(size))
}

fn chain(system: &mut System, steps: u32) -> Made {
    let mut last = system.fresh(Sort::Type)?;
    for _ in 0..steps {
        let next = system.fresh(Sort::Type)?;
        let pair = system.build(Head::To, last, last, 0, 0)?;
        system.equate(next, pair)?;
        last = next;
    }
    Ok(last)
}

fn doubling(system: &mut System, size: u32) -> Result<u64, Fault> {
    let a = chain(system, size)?;
    let b = chain(system, size)?;
    system.equate(a, b)?;
    shows_head(system, a)?;
    Ok(4 + 6 * u64::from(size))
}

fn row(system: &mut System, labels: u32, falling: bool) -> Made {
    let mut lacked = labels;
    let mut at = system.fresh(Sort::Row(labels))?;
    for i in 0u8..24 {
        let label = if falling { 23 - i } else { i };
        if lacked & (1 << label) != 0 {
            let field = system.fresh(Sort::Field)?;
            at = system.build(Head::Row, field, at, label, lacked)?;
            lacked ^= 1 << label;
        }
    }
    Ok(at)
}

fn rows(system: &mut System, size: u32) -> Result<u64, Fault> {
    for _ in 0..size {
        let a = row(system, ALL, false)?;
        let b = row(system, ALL, true)?;
        system.equate(a, b)?;
        shows_head(system, a)?;
    }
    Ok(100 * u64::from(size))
}

fn extend(system: &mut System, size: u32) -> Result<u64, Fault> {
    for _ in 0..size {
        let a = row(system, LOW, false)?;
        let b = row(system, ALL - LOW, true)?;
        system.equate(a, b)?;
        shows_head(system, a)?;
    }
    Ok(52 * u64::from(size))
}

fn repeat(
    rows: bool,
    capacity: u32,
    times: u32,
    work: impl Fn(&mut System) -> Result<u64, Fault>,
) -> i64 {
    let mut system = System::new(rows, capacity as usize);
    let mut calls = 0;
    for _ in 0..times {
        if system.mark().is_err() {
            continue;
        }
        calls += work(&mut system).unwrap_or(0) as i64;
        let _ = system.back();
    }
    calls
}

macro_rules! workload {
    ($name:ident, $rows:expr, $work:ident) => {
        #[inline(never)]
        pub extern "C" fn $name(capacity: u32, size: u32, times: u32) -> i64 {
            repeat($rows, capacity, times, |system| $work(system, size))
        }
    };
}

workload!(base_nested, false, nested);
workload!(base_balanced, false, balanced);
workload!(base_doubling, false, doubling);
workload!(base_rows, true, rows);
workload!(base_extend, true, extend);
