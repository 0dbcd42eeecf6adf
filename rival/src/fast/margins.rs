//! The margins, in one look over the deadlines after the run with worst times.
use super::check;
use super::simulate::worst_run;
use crate::margins::Margins;
use crate::plan::*;

pub fn margins(plan: &Plan, constraint: &Constraint) -> Result<Margins, Refusal> {
    check(plan, constraint)?;
    let run = worst_run(plan, constraint);
    let mut answer = Margins::zero();
    // No margin is as great as this one.
    let (mut least, mut lowest) = (i64::MAX, 0);
    let tasks = plan.deadlines.iter().zip(&run.finishes).zip(&mut answer.margins).enumerate();
    for (task, ((&deadline, &finish), margin)) in tasks.take(plan.tasks as usize) {
        if deadline == 0 {
            continue;
        }
        *margin = i64::from(deadline) - i64::from(finish);
        if *margin < least {
            (least, lowest) = (*margin, task as u64);
        }
    }
    if least < i64::MAX {
        (answer.any, answer.least, answer.task) = (true, least, lowest);
    }
    Ok(answer)
}
