//! The inputs: texts, plans and lists of reports.
use rival::limits::{LONGEST_TIME, TASKS, TYPES, UNITS};
use rival::plan::{Constraint, Plan};
use rival::schedule::Record;
use rival::simulate::{simulate, worst_times};
use std::fmt::Write;

/// What a text is made of. Task t has the types y with `usable(t, y)`, the
/// first of them from t on, round in a circle, is chosen.
pub struct Shape {
    pub types: usize,
    pub units: usize,
    pub tasks: usize,
    pub usable: fn(usize, usize) -> bool,
    pub times: fn(usize, usize) -> (u32, u32),
    pub arrow: fn(usize, usize) -> bool,
}

impl Shape {
    /// The tasks stand in the order of their numbers; arrows go from lower to higher.
    pub fn text(&self) -> Vec<u8> {
        let mut text = String::new();
        for y in 0..self.types {
            let _ = writeln!(text, "U\t{y}\t{}", self.units);
        }
        for t in 0..self.tasks {
            for y in (0..self.types).filter(|&y| (self.usable)(t, y)) {
                let (best, worst) = (self.times)(t, y);
                let _ = writeln!(text, "T\t{t}\t{y}\t{best}\t{worst}");
            }
        }
        for to in 0..self.tasks {
            for from in (0..to).filter(|&from| (self.arrow)(from, to)) {
                let _ = writeln!(text, "A\t{from}\t{to}");
            }
        }
        for t in 0..self.tasks {
            let mut types = (t..t + self.types).map(|y| y % self.types);
            let chosen = types.find(|&y| (self.usable)(t, y)).expect("a usable type");
            let _ = writeln!(text, "C\t{t}\t{chosen}");
        }
        text.into_bytes()
    }

    pub fn plan(&self) -> (Plan, Constraint) {
        rival::reader::read(&self.text()).expect("a text that is read")
    }
}

/// Best and worst with many digits.
fn long_times(t: usize, y: usize) -> (u32, u32) {
    (LONGEST_TIME / 6 + (97 * t + y) as u32, LONGEST_TIME - (31 * t + y) as u32)
}

/// Every pair, every arrow: the longest sound text.
pub const LARGEST: Shape = Shape {
    types: TYPES,
    units: UNITS,
    tasks: TASKS,
    usable: |_, _| true,
    times: long_times,
    arrow: |_, _| true,
};

pub const MIDDLE: Shape = Shape {
    types: 4,
    units: 2,
    tasks: 16,
    usable: |t, y| (t + y) % 2 == 0,
    times: |t, y| ((10 + t) as u32, (100 + 10 * t + y) as u32),
    arrow: |from, to| (from + to) % 5 == 0,
};

pub const FEW_ARROWS: Shape = Shape {
    types: TYPES,
    units: 2,
    tasks: TASKS,
    usable: |t, y| (t + y) % 3 == 0,
    times: long_times,
    arrow: |from, to| from + 9 == to,
};

/// The tasks wait for units alone, and each may take any of them.
pub const NO_ARROW: Shape = Shape { arrow: |_, _| false, ..LARGEST };

/// As large as the largest, for times from 1 to the longest.
pub const ANY_TIMES: Shape = Shape { times: |_, _| (1, LONGEST_TIME), ..LARGEST };
pub const ANY_TIMES_FEW_ARROWS: Shape = Shape { times: |_, _| (1, LONGEST_TIME), ..FEW_ARROWS };

/// One after the other on a single unit.
pub const CHAIN: Shape = Shape {
    types: 1,
    units: 1,
    tasks: TASKS,
    usable: |_, _| true,
    times: |_, _| (1, 21),
    arrow: |from, to| from + 1 == to,
};

/// All at once, with a unit for each.
pub const WIDE: Shape = Shape { types: TYPES, units: UNITS, arrow: |_, _| false, ..CHAIN };

/// Waits for units and for predecessors.
pub const MIXED: Shape = Shape { types: 4, units: 2, arrow: |from, to| from + 5 == to, ..CHAIN };

/// Legal reports up to the end of a run whose tasks take 1 to 20 ticks.
pub fn reports(plan: &Plan, constraint: &Constraint) -> Vec<u64> {
    let times: Vec<u32> = (0..plan.tasks as u32).map(|t| t * 7 % 20 + 1).collect();
    let run = simulate(plan, constraint, &times).expect("legal times");
    run.reports(plan, run.response as usize)
}

/// The run with worst times as a schedule, last task first.
pub fn schedule(plan: &Plan, constraint: &Constraint) -> Vec<Record> {
    let times = worst_times(plan, constraint);
    let run = simulate(plan, constraint, &times).expect("legal times");
    let entry = |i: usize| {
        let (task, unit_type) = (constraint.task[i] as u32, constraint.kind[i] as u32);
        let t = task as usize;
        Record { task, unit_type, start: run.starts[t], finish: run.finishes[t] }
    };
    (0..plan.tasks as usize).rev().map(entry).collect()
}
