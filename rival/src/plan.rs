//! The plan, the constraint and the refusal.
use crate::limits::*;

#[derive(Clone, PartialEq, Eq, Debug)]
pub struct Plan {
    pub types: u64,
    pub units: [u32; TYPES],
    pub tasks: u64,
    pub best: [u32; PAIRS],
    pub worst: [u32; PAIRS],
    /// Bit p of entry t: task t waits for task p.
    pub predecessors: [u64; TASKS],
    /// 0 for a task without one.
    pub deadlines: [u32; TASKS],
    /// The not-before instant: the earliest at which the task may start.
    pub releases: [u32; TASKS],
}

/// The execution order and the one type that each task may use.
#[derive(Clone, PartialEq, Eq, Debug)]
pub struct Constraint {
    pub length: u64,
    pub task: [u64; TASKS],
    pub kind: [u64; TASKS],
}

#[derive(Clone, Copy, PartialEq, Eq, Debug)]
pub struct Refusal {
    pub number: u64,
    pub place: u64,
}

pub fn refuse<T>(number: u64, place: u64) -> Result<T, Refusal> {
    Err(Refusal { number, place })
}

impl Refusal {
    /// The one line that a program writes.
    pub fn line(self) -> String {
        let Refusal { number, place } = self;
        format!("refused\t{number}\t{place}\n")
    }
}

impl Plan {
    pub fn zero() -> Plan {
        Plan {
            types: 0,
            units: [0; TYPES],
            tasks: 0,
            best: [0; PAIRS],
            worst: [0; PAIRS],
            predecessors: [0; TASKS],
            deadlines: [0; TASKS],
            releases: [0; TASKS],
        }
    }

    /// Neither too few nor too many types and tasks.
    pub fn counts_are_right(&self) -> bool {
        (1..=TYPES as u64).contains(&self.types) && (1..=TASKS as u64).contains(&self.tasks)
    }
}

impl Constraint {
    pub fn zero() -> Constraint {
        Constraint { length: 0, task: [0; TASKS], kind: [0; TASKS] }
    }

    /// The chosen type of each task, by task number. Only for accepted constraints.
    pub fn chosen(&self) -> [usize; TASKS] {
        let mut chosen = [0; TASKS];
        for p in 0..self.length as usize {
            chosen[self.task[p] as usize] = self.kind[p] as usize;
        }
        chosen
    }
}

/// Where the pair of a task and a type stands.
pub fn pair(task: usize, kind: usize) -> usize {
    task * TYPES + kind
}

/// Best and worst of a task's chosen type. Only for accepted plans and constraints.
pub fn pair_of(plan: &Plan, constraint: &Constraint, task: usize) -> (u32, u32) {
    let at = pair(task, constraint.chosen()[task]);
    (plan.best[at], plan.worst[at])
}

/// The set of the tasks 0 to n - 1.
pub fn first_tasks(n: u64) -> u64 {
    if n >= u64::BITS.into() { u64::MAX } else { (1 << n) - 1 }
}

/// The task numbers of a set, lowest first.
pub fn members(set: u64) -> impl Iterator<Item = usize> {
    (0..TASKS).filter(move |t| set >> t & 1 == 1)
}
