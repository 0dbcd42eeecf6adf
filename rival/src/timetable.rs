//! The timetable, into a lent buffer: refusal 19 after those of the simulation.
use crate::limits::*;
use crate::plan::*;
use crate::simulate::{bound, simulate};

/// The whole text, before any buffer is lent.
pub fn text(plan: &Plan, constraint: &Constraint, times: &[u32]) -> Result<String, Refusal> {
    let run = simulate(plan, constraint, times)?;
    let mut text = String::new();
    for p in 0..plan.tasks as usize {
        let (task, kind) = (constraint.task[p] as usize, constraint.kind[p]);
        let (start, finish) = (run.starts[task], run.finishes[task]);
        text += &format!("{task}\t{kind}\t{start}\t{finish}\n");
    }
    text += &format!("R\t{}\n", run.response);
    Ok(text)
}

/// Gives the bytes written. A refusal alters nothing.
pub fn timetable(
    plan: &Plan,
    constraint: &Constraint,
    times: &[u32],
    buffer: &mut [u8],
) -> Result<u64, Refusal> {
    let text = text(plan, constraint, times)?;
    let needed = text.len();
    if buffer.len() < needed {
        return refuse(19, needed as u64);
    }
    buffer[..needed].copy_from_slice(text.as_bytes());
    Ok(needed as u64)
}

/// The timetable of worst times.
pub fn of_worst_times(
    plan: &Plan,
    constraint: &Constraint,
    buffer: &mut [u8],
) -> Result<u64, Refusal> {
    bound(plan, constraint)?;
    let times = crate::simulate::worst_times(plan, constraint);
    timetable(plan, constraint, &times, buffer)
}

/// The program of document 01: a plan text in, a timetable or one line out.
pub fn program(text: &[u8]) -> Vec<u8> {
    let mut buffer = [0; LONGEST_TIMETABLE];
    let answer = crate::reader::read(text)
        .and_then(|(plan, constraint)| of_worst_times(&plan, &constraint, &mut buffer));
    match answer {
        Ok(written) => buffer[..written as usize].to_vec(),
        Err(refusal) => refusal.line().into_bytes(),
    }
}
