//! How much is to spare until the deadlines: refusals 8 to 11.
use crate::limits::*;
use crate::plan::*;
use crate::run::Times;
use crate::simulate::bound;

/// Each task's deadline minus its worst finish, by task number; 0 without deadline.
#[derive(Clone, PartialEq, Eq, Debug)]
pub struct Margins {
    /// Some task has a deadline. Otherwise all else is 0.
    pub any: bool,
    /// Among the tasks with a deadline.
    pub least: i64,
    /// The lowest of these that has the least margin.
    pub task: u64,
    pub margins: [i64; TASKS],
}

impl Margins {
    pub fn zero() -> Margins {
        Margins { any: false, least: 0, task: 0, margins: [0; TASKS] }
    }
}

/// The tasks with a deadline, lowest first.
pub fn with_deadline(plan: &Plan) -> impl Iterator<Item = usize> + '_ {
    (0..TASKS).filter(|&t| plan.deadlines[t] != 0)
}

pub fn margins(plan: &Plan, constraint: &Constraint) -> Result<Margins, Refusal> {
    Ok(after_run(plan, &bound(plan, constraint)?))
}

/// From the run with worst times.
fn after_run(plan: &Plan, run: &Times) -> Margins {
    let mut margins = [0; TASKS];
    for t in with_deadline(plan) {
        margins[t] = i64::from(plan.deadlines[t]) - i64::from(run.finishes[t]);
    }
    // Of several that are least, this is the first.
    match with_deadline(plan).min_by_key(|&t| margins[t]) {
        Some(t) => Margins { any: true, least: margins[t], task: t as u64, margins },
        None => Margins::zero(),
    }
}

/// A line for each task with a deadline, then one for the least margin.
pub fn text(plan: &Plan, constraint: &Constraint) -> Result<String, Refusal> {
    let run = bound(plan, constraint)?;
    let Margins { any, least, task, margins } = after_run(plan, &run);
    if !any {
        return Ok("no deadlines\n".to_string());
    }
    let mut text = String::new();
    for t in with_deadline(plan) {
        let (deadline, finish, margin) = (plan.deadlines[t], run.finishes[t], margins[t]);
        text += &format!("{t}\t{deadline}\t{finish}\t{margin}\n");
    }
    text += &format!("L\t{least}\t{task}\n");
    Ok(text)
}

/// The program of the margins: a plan text in, their text or one line out.
pub fn program(plan_text: &[u8]) -> Vec<u8> {
    let answer = crate::reader::read(plan_text)
        .and_then(|(plan, constraint)| text(&plan, &constraint));
    answer.unwrap_or_else(Refusal::line).into_bytes()
}
