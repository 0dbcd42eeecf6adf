//! The check, over any plan and constraint: refusals 8 to 11.
use crate::limits::*;
use crate::plan::*;

pub fn check(plan: &Plan, constraint: &Constraint) -> Result<(), Refusal> {
    if !keeps_the_rules(plan) {
        return refuse(8, 0);
    }
    if constraint.length != plan.tasks {
        return refuse(9, constraint.length);
    }
    let n = plan.tasks as usize;
    let (order, kinds) = (&constraint.task[..n], &constraint.kind[..n]);
    let bad_task = |p: usize| order[p] >= plan.tasks || order[..p].contains(&order[p]);
    if let Some(p) = (0..n).find(|&p| bad_task(p)) {
        return refuse(9, p as u64);
    }
    let bad_type = |p: usize| {
        kinds[p] >= plan.types || !usable(plan, order[p] as usize, kinds[p] as usize)
    };
    if let Some(p) = (0..n).find(|&p| bad_type(p)) {
        return refuse(10, p as u64);
    }
    let waits_for = |p: usize, q: usize| plan.predecessors[order[p] as usize] >> order[q] & 1 == 1;
    if let Some(p) = (0..n).find(|&p| (p + 1..n).any(|q| waits_for(p, q))) {
        return refuse(11, p as u64);
    }
    Ok(())
}

fn usable(plan: &Plan, task: usize, kind: usize) -> bool {
    plan.best[pair(task, kind)] != 0
}

/// The rules of "The plan", with its deadlines and not-before instants.
pub fn keeps_the_rules(plan: &Plan) -> bool {
    plan.counts_are_right()
        && units_are_right(plan)
        && pairs_are_right(plan)
        && predecessors_are_right(plan)
        && instants_are_right(plan, &plan.deadlines, LATEST_DEADLINE)
        && instants_are_right(plan, &plan.releases, LATEST_RELEASE)
}

fn units_are_right(plan: &Plan) -> bool {
    (0..TYPES).all(|y| {
        let units = plan.units[y];
        if (y as u64) < plan.types { (1..=UNITS as u32).contains(&units) } else { units == 0 }
    })
}

fn pairs_are_right(plan: &Plan) -> bool {
    (0..TASKS).all(|t| {
        let present_task = (t as u64) < plan.tasks;
        let right = (0..TYPES).all(|y| {
            let (best, worst) = (plan.best[pair(t, y)], plan.worst[pair(t, y)]);
            let present = present_task && (y as u64) < plan.types;
            let in_range = 1 <= best && best <= worst && worst <= LONGEST_TIME;
            (best, worst) == (0, 0) || (present && in_range)
        });
        right && (!present_task || (0..TYPES).any(|y| usable(plan, t, y)))
    })
}

fn predecessors_are_right(plan: &Plan) -> bool {
    (0..TASKS).all(|t| {
        let set = plan.predecessors[t];
        let own = set >> t & 1 == 1;
        let absent = set & !first_tasks(plan.tasks) != 0;
        if (t as u64) < plan.tasks { !own && !absent } else { set == 0 }
    })
}

/// One instant for each task, up to the latest; 0 for absent tasks.
fn instants_are_right(plan: &Plan, instants: &[u32; TASKS], latest: u32) -> bool {
    (0..TASKS).all(|t| {
        let present = (t as u64) < plan.tasks;
        instants[t] == 0 || (present && instants[t] <= latest)
    })
}
