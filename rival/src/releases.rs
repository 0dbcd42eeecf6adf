//! The cases of not-before instants: what they hold in a run, and starts at them or before them.
use crate::cases::*;
use crate::check::check;
use crate::edges;
use crate::moment::Moment;
use crate::plan::*;
use crate::run::Times;
use crate::simulate::worst_times;
use crate::state::State;

impl Moment<'_> {
    /// The next task waits for its not-before instant and for nothing else.
    fn is_held_by_an_instant(&self) -> bool {
        let Moment { plan, constraint, started, .. } = *self;
        if started == plan.tasks as usize {
            return false;
        }
        let (task, kind) = (constraint.task[started] as usize, constraint.kind[started] as usize);
        let chosen = constraint.chosen();
        let holders = members(self.running()).filter(|&t| chosen[t] == kind).count();
        let ready = plan.predecessors[task] & !self.finished == 0;
        ready && holders < plan.units[kind] as usize && self.instant < plan.releases[task]
    }

    /// Nothing runs, and the run is not over.
    fn is_idle(&self) -> bool {
        self.finished != first_tasks(self.plan.tasks) && self.running() == 0
    }

    fn cases(&self) -> Vec<Case> {
        let (idle, all_come) = (self.is_idle(), greatest(self.plan) <= self.instant);
        those_that_are(&[
            (self.is_held_by_an_instant(), HELD),
            (idle, IDLE),
            (idle && all_come, IDLE_AFTER_ALL),
        ])
    }
}

/// Of all not-before instants.
pub fn greatest(plan: &Plan) -> u32 {
    plan.releases.into_iter().fold(0, u32::max)
}

/// The cases of a walk at this instant that started these tasks, from the state after it or a later
/// one.
pub fn cases_of_walk(state: &State, instant: u32, started: u64) -> Vec<Case> {
    [Moment::of(state, instant).cases(), cases_of_starts(state, started)].concat()
}

/// The cases of a whole run, each once. What is so at some instant is so at 0, at a finish or just
/// before a not-before instant.
pub fn cases_of_run(plan: &Plan, constraint: &Constraint, run: &Times) -> Vec<Case> {
    let end = at_the_end(plan, constraint, run);
    let before = plan.releases.into_iter().filter_map(|release| release.checked_sub(1));
    let instants = run.finishes.into_iter().chain(before).chain([0]);
    let mut cases: Vec<Case> = instants.flat_map(|at| Moment::of(&end, at).cases()).collect();
    cases.extend(cases_of_starts(&end, first_tasks(plan.tasks)));
    cases.sort_unstable();
    cases.dedup();
    cases
}

/// The state of a live run that went this way.
fn at_the_end(plan: &Plan, constraint: &Constraint, run: &Times) -> State {
    State {
        instant: run.response,
        started: plan.tasks,
        finished: first_tasks(plan.tasks),
        starts: run.starts,
        finishes: run.finishes,
        ..State::before_the_walk(plan, constraint)
    }
}

/// The cases of those of these started tasks that start at a not-before instant other than 0.
fn cases_of_starts(state: &State, tasks: u64) -> Vec<Case> {
    let State { plan, starts, .. } = state;
    let at_its_instant = |&t: &usize| starts[t] == plan.releases[t] && starts[t] != 0;
    let starts: Vec<u32> = members(tasks).filter(at_its_instant).map(|t| starts[t]).collect();
    let mut cases = those_that_are(&[(!starts.is_empty(), RELEASED)]);
    cases.extend(cases_among(&starts, &edges::RELEASES, &START_EDGES));
    cases
}

/// The cases of this bound of a plan and constraint.
pub fn cases_of_bound(plan: &Plan, constraint: &Constraint, response: u32) -> Vec<Case> {
    let (instant, sum) = (greatest(plan), worst_times(plan, constraint).iter().sum::<u32>());
    those_that_are(&[
        (instant > 0 && response == instant + sum, BOUND_IS_SUM),
        (response > instant + sum, BOUND_ABOVE_SUM),
    ])
}

/// The cases of a state that is not sound, if all that is wrong are starts before their instants.
pub fn cases_of_unsound(state: &State) -> Vec<Case> {
    let mut mended = state.clone();
    for (release, start) in mended.plan.releases.iter_mut().zip(state.starts) {
        *release = start.min(*release);
    }
    if check(&state.plan, &state.constraint).is_err() || !mended.sound() {
        return Vec::new();
    }
    let by = |t: usize| state.plan.releases[t] - mended.plan.releases[t];
    let early = |set: u64| members(set).any(|t| by(t) > 0);
    let (running, finished) = (state.running(), state.finished);
    let by_one = members(running | finished).all(|t| by(t) <= 1);
    those_that_are(&[
        (!early(finished), RUNNING_EARLY),
        (!early(running), FINISHED_EARLY),
        (by_one, ONE_EARLY),
    ])
}
