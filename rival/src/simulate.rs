//! The simulation and the bound: refusals 8 to 11, 17 and 18.
use crate::check::check;
use crate::limits::*;
use crate::plan::*;
use crate::run::{run, Times};

pub fn simulate(plan: &Plan, constraint: &Constraint, times: &[u32]) -> Result<Times, Refusal> {
    check(plan, constraint)?;
    if times.len() as u64 != plan.tasks {
        return refuse(17, times.len() as u64);
    }
    let chosen = constraint.chosen();
    for (t, time) in times.iter().enumerate() {
        if !(1..=plan.worst[pair(t, chosen[t])]).contains(time) {
            return refuse(18, t as u64);
        }
    }
    let mut by_task = [0; TASKS];
    by_task[..times.len()].copy_from_slice(times);
    Ok(run(plan, constraint, &by_task))
}

/// The worst times of the chosen types, by task number.
pub fn worst_times(plan: &Plan, constraint: &Constraint) -> Vec<u32> {
    let chosen = constraint.chosen();
    (0..plan.tasks as usize).map(|t| plan.worst[pair(t, chosen[t])]).collect()
}

pub fn bound(plan: &Plan, constraint: &Constraint) -> Result<Times, Refusal> {
    check(plan, constraint)?;
    simulate(plan, constraint, &worst_times(plan, constraint))
}
