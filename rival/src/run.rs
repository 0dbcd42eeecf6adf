//! A run, straight from "Running rules".
use crate::limits::*;
use crate::plan::*;

/// All starts and finishes by task number, and the greatest finish.
#[derive(Clone, PartialEq, Eq, Debug)]
pub struct Times {
    pub starts: [u32; TASKS],
    pub finishes: [u32; TASKS],
    pub response: u32,
}

impl Times {
    pub fn zero() -> Times {
        Times { starts: [0; TASKS], finishes: [0; TASKS], response: 0 }
    }

    /// The tasks that finish at instants 1, 2, and so on, up to the end or to this many.
    pub fn reports(&self, plan: &Plan, most: usize) -> Vec<u64> {
        let mut reports = vec![0; most.min(self.response as usize)];
        for t in 0..plan.tasks as usize {
            if let Some(report) = reports.get_mut(self.finishes[t] as usize - 1) {
                *report |= 1 << t;
            }
        }
        reports
    }
}

/// The tasks that the walk starts at this instant, given how many of the order have started
/// and which of those are finished. Only for accepted plans and constraints.
pub fn walk(
    plan: &Plan,
    constraint: &Constraint,
    instant: u32,
    started: u64,
    finished: u64,
) -> u64 {
    let mut busy = [0u32; TYPES];
    for p in 0..started as usize {
        if finished >> constraint.task[p] & 1 == 0 {
            busy[constraint.kind[p] as usize] += 1;
        }
    }
    let mut just_started = 0;
    for p in started as usize..plan.tasks as usize {
        let (task, kind) = (constraint.task[p] as usize, constraint.kind[p] as usize);
        let waiting = plan.predecessors[task] & !finished != 0;
        let too_soon = instant < plan.releases[task];
        if waiting || too_soon || busy[kind] >= plan.units[kind] {
            break;
        }
        busy[kind] += 1;
        just_started |= 1 << task;
    }
    just_started
}

/// The run with one time for each task, by task number. Only for accepted plans and constraints.
/// After 0 a walk starts something only where a task finishes or a not-before instant comes, so the
/// instant moves on from one of these to the next.
pub fn run(plan: &Plan, constraint: &Constraint, times: &[u32; TASKS]) -> Times {
    let mut result = Times::zero();
    let (mut instant, mut started, mut running, mut finished) = (0u32, 0u64, 0u64, 0u64);
    loop {
        let just_started = walk(plan, constraint, instant, started, finished);
        for t in members(just_started) {
            result.starts[t] = instant;
            result.finishes[t] = instant + times[t];
            result.response = result.response.max(result.finishes[t]);
        }
        started += just_started.count_ones() as u64;
        running |= just_started;

        let unstarted = &constraint.task[started as usize..plan.tasks as usize];
        let releases = unstarted.iter().map(|&t| plan.releases[t as usize]);
        let to_come = releases.filter(|&release| release > instant);
        let next = members(running).map(|t| result.finishes[t]).chain(to_come).min();
        let Some(next) = next else { return result };
        let up = members(running).filter(|&t| result.finishes[t] == next);
        let up = up.fold(0, |set, t| set | 1 << t);
        running &= !up;
        finished |= up;
        instant = next;
    }
}
