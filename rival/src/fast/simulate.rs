//! The simulation, position by position: as quick for long times as for short.
use super::check;
use crate::limits::*;
use crate::plan::*;
use crate::run::Times;

pub fn simulate(plan: &Plan, constraint: &Constraint, times: &[u32]) -> Result<Times, Refusal> {
    check(plan, constraint)?;
    if times.len() as u64 != plan.tasks {
        return refuse(17, times.len() as u64);
    }
    let mut by_task = [0; TASKS];
    by_task[..times.len()].copy_from_slice(times);
    let outside = outside(plan, constraint, &by_task);
    if outside != 0 {
        return refuse(18, outside.trailing_zeros().into());
    }
    Ok(run(plan, constraint, &by_task))
}

/// The run with the worst times of the chosen types. Only for accepted plans and constraints.
pub(super) fn worst_run(plan: &Plan, constraint: &Constraint) -> Times {
    let mut worst = [0; TASKS];
    for (task, kind) in in_order(constraint) {
        worst[task] = plan.worst[pair(task, kind)];
    }
    run(plan, constraint, &worst)
}

/// The tasks and chosen types in execution order. Only for accepted constraints.
fn in_order(constraint: &Constraint) -> impl Iterator<Item = (usize, usize)> + '_ {
    let n = constraint.length as usize;
    let positions = constraint.task[..n].iter().zip(&constraint.kind[..n]);
    // The masks alter nothing; with them an index needs no further look.
    positions.map(|(&task, &kind)| (task as usize % TASKS, kind as usize % TYPES))
}

/// The tasks whose time is not from 1 to worst.
fn outside(plan: &Plan, constraint: &Constraint, times: &[u32; TASKS]) -> u64 {
    in_order(constraint).fold(0, |set, (task, kind)| {
        let outside = (times[task] == 0) | (times[task] > plan.worst[pair(task, kind)]);
        set | u64::from(outside) << task
    })
}

/// The run with one time for each task. Only for accepted plans and constraints.
/// No task starts before the one ahead of it in the order, so each start is the
/// greatest of that start, its own not-before instant, the predecessors' finishes
/// and the first free unit.
fn run(plan: &Plan, constraint: &Constraint, times: &[u32; TASKS]) -> Times {
    let mut result = Times::zero();
    let mut free_at = [[0u32; UNITS]; TYPES];
    let mut now = 0;
    // Tasks finished by now for certain: a later task need not look at them again.
    let mut past = 0;
    for (task, kind) in in_order(constraint) {
        let mut waited_for = plan.predecessors[task] & !past;
        past |= waited_for;
        while waited_for != 0 {
            now = now.max(result.finishes[waited_for.trailing_zeros() as usize]);
            waited_for &= waited_for - 1;
        }
        let units = &mut free_at[kind][..plan.units[kind] as usize];
        let Some(unit) = units.iter_mut().min() else { continue };
        now = now.max(*unit).max(plan.releases[task]);
        let finish = now + times[task];
        *unit = finish;
        result.starts[task] = now;
        result.finishes[task] = finish;
        result.response = result.response.max(finish);
    }
    result
}
