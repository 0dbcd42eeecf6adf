//! The check, in one pass over the plan and one over the order.
use crate::limits::*;
use crate::plan::*;

pub fn check(plan: &Plan, constraint: &Constraint) -> Result<(), Refusal> {
    if !keeps_the_rules(plan) {
        return refuse(8, 0);
    }
    if constraint.length != plan.tasks {
        return refuse(9, constraint.length);
    }
    check_order(plan, constraint)
}

/// The rules of "The plan", with its deadlines and not-before instants.
pub(super) fn keeps_the_rules(plan: &Plan) -> bool {
    let sized = plan.counts_are_right() && units_are_right(plan);
    let right = sized && pairs_are_right(plan) && predecessors_are_right(plan);
    right
        && instants_are_right(plan, &plan.deadlines, LATEST_DEADLINE)
        && instants_are_right(plan, &plan.releases, LATEST_RELEASE)
}

/// Refusals 9 to 11 by position; bit p of a set stands for position p.
fn check_order(plan: &Plan, constraint: &Constraint) -> Result<(), Refusal> {
    let n = plan.tasks as usize;
    let (mut placed, mut unusable, mut waiting) = (0u64, 0u64, 0u64);
    for (p, (&task, &kind)) in constraint.task[..n].iter().zip(&constraint.kind[..n]).enumerate() {
        if task >= plan.tasks || placed >> task & 1 == 1 {
            return refuse(9, p as u64);
        }
        let t = task as usize;
        let usable = kind < plan.types && plan.best[pair(t, kind as usize)] != 0;
        unusable |= u64::from(!usable) << p;
        waiting |= u64::from(plan.predecessors[t] & !placed != 0) << p;
        placed |= 1 << t;
    }
    if unusable != 0 {
        return refuse(10, unusable.trailing_zeros().into());
    }
    if waiting != 0 {
        return refuse(11, waiting.trailing_zeros().into());
    }
    Ok(())
}

fn units_are_right(plan: &Plan) -> bool {
    let (present, absent) = plan.units.split_at(plan.types as usize);
    let in_range = |units: &u32| (1..=UNITS as u32).contains(units);
    present.iter().all(in_range) && absent.iter().all(|&units| units == 0)
}

fn pairs_are_right(plan: &Plan) -> bool {
    let end = plan.tasks as usize * TYPES;
    let (best, absent_best) = plan.best.split_at(end);
    let (worst, absent_worst) = plan.worst.split_at(end);
    // No branch for a single pair, so that many are looked at together.
    let wrong = best.iter().zip(worst).fold(false, |wrong, (&best, &worst)| {
        wrong | (best > worst) | (worst > LONGEST_TIME) | ((best == 0) & (worst != 0))
    });
    !wrong
        && all_zero(absent_best)
        && all_zero(absent_worst)
        && best.chunks_exact(TYPES).all(|row| types_are_right(row, plan.types))
}

/// Some present type of a task is usable, and no absent one.
fn types_are_right(best: &[u32], types: u64) -> bool {
    let (present, absent) = best.split_at(types as usize);
    present.iter().any(|&time| time != 0) && absent.iter().all(|&time| time == 0)
}

fn all_zero(numbers: &[u32]) -> bool {
    numbers.iter().fold(0, |all, number| all | number) == 0
}

fn predecessors_are_right(plan: &Plan) -> bool {
    let (present, absent) = plan.predecessors.split_at(plan.tasks as usize);
    let nobody = !first_tasks(plan.tasks);
    let wrong = present.iter().enumerate().map(|(t, set)| set & (nobody | 1 << t));
    let wrong = wrong.fold(0, |all, wrong| all | wrong);
    absent.iter().fold(wrong, |all, set| all | set) == 0
}

/// One instant for each task, up to the latest; 0 for absent tasks.
fn instants_are_right(plan: &Plan, instants: &[u32; TASKS], latest: u32) -> bool {
    let (present, absent) = instants.split_at(plan.tasks as usize);
    let wrong = present.iter().fold(false, |wrong, &instant| wrong | (instant > latest));
    !wrong && all_zero(absent)
}
