//! One instant of a run.
use crate::limits::TASKS;
use crate::plan::*;
use crate::state::State;

/// How far a run is after the walk of an instant.
pub struct Moment<'a> {
    pub plan: &'a Plan,
    pub constraint: &'a Constraint,
    starts: &'a [u32; TASKS],
    pub instant: u32,
    /// So many of the order.
    pub started: usize,
    pub finished: u64,
}

impl Moment<'_> {
    /// At the instant of a sound state or an earlier one.
    pub fn of(state: &State, instant: u32) -> Moment<'_> {
        let State { plan, constraint, starts, finishes, .. } = state;
        let begun = |&&t: &&u64| starts[t as usize] <= instant;
        let ended = |&t: &usize| finishes[t] <= instant;
        Moment {
            plan,
            constraint,
            starts,
            instant,
            started: constraint.task[..state.started as usize].iter().filter(begun).count(),
            finished: members(state.finished).filter(ended).fold(0, |set, t| set | 1 << t),
        }
    }

    pub fn running(&self) -> u64 {
        let started = &self.constraint.task[..self.started];
        started.iter().fold(0, |set, t| set | 1 << t) & !self.finished
    }

    /// The running tasks that at the next instant have run their worst.
    pub fn due(&self) -> u64 {
        let chosen = self.constraint.chosen();
        let ran = |t: usize| self.instant + 1 - self.starts[t];
        let due = |&t: &usize| ran(t) >= self.plan.worst[pair(t, chosen[t])];
        members(self.running()).filter(due).fold(0, |set, t| set | 1 << t)
    }
}
