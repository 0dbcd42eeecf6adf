//! The live run: start, soundness (12), tick (13, 16, 14) and lists of ticks.
use crate::check::check;
use crate::limits::*;
use crate::plan::*;
use crate::run::walk;

#[derive(Clone, PartialEq, Eq, Debug)]
pub struct State {
    pub plan: Plan,
    pub constraint: Constraint,
    pub instant: u32,
    pub started: u64,
    pub finished: u64,
    pub starts: [u32; TASKS],
    pub finishes: [u32; TASKS],
}

impl State {
    pub fn zero() -> State {
        State {
            plan: Plan::zero(),
            constraint: Constraint::zero(),
            instant: 0,
            started: 0,
            finished: 0,
            starts: [0; TASKS],
            finishes: [0; TASKS],
        }
    }

    /// At instant 0, before the walk.
    pub fn before_the_walk(plan: &Plan, constraint: &Constraint) -> State {
        State { plan: plan.clone(), constraint: constraint.clone(), ..State::zero() }
    }

    /// The first of the order. Only if no more are started than there are tasks.
    fn started_set(&self) -> u64 {
        let order = &self.constraint.task[..self.started as usize];
        order.iter().fold(0, |set, t| set | 1 << t)
    }

    pub fn running(&self) -> u64 {
        self.started_set() & !self.finished
    }

    /// The next unstarted task of the order. Only if no more are started than there are tasks.
    pub fn next(&self) -> Option<usize> {
        let order = &self.constraint.task[..self.plan.tasks as usize];
        order.get(self.started as usize).map(|&t| t as usize)
    }

    fn walk(&mut self) -> u64 {
        let State { plan, constraint, instant, started, finished, .. } = self;
        let just_started = walk(plan, constraint, *instant, *started, *finished);
        for t in members(just_started) {
            self.starts[t] = self.instant;
        }
        self.started += just_started.count_ones() as u64;
        just_started
    }

    /// Every clause of 12.
    pub fn sound(&self) -> bool {
        self.sound_at_any_instant()
            && self.instant <= LAST_INSTANT
            && (self.instant < LAST_INSTANT || self.all_finished())
    }

    /// Every clause of 12 but the limit of the instant.
    pub fn sound_at_any_instant(&self) -> bool {
        check(&self.plan, &self.constraint).is_ok()
            && self.started <= self.plan.tasks
            && self.finished & !self.started_set() == 0
            && (0..TASKS).all(|t| self.notes_are_right(t))
            && self.running_fits()
    }

    pub fn all_finished(&self) -> bool {
        self.finished == first_tasks(self.plan.tasks)
    }

    /// The start and finish instants of one task.
    fn notes_are_right(&self, t: usize) -> bool {
        let (start, finish) = (self.starts[t], self.finishes[t]);
        let has_started = self.started_set() >> t & 1 == 1;
        let has_finished = self.finished >> t & 1 == 1;
        let start_right = match has_started {
            true => self.plan.releases[t] <= start && start <= self.instant,
            false => start == 0,
        };
        let finish_right = match has_finished {
            true => start < finish && finish <= self.instant,
            false => finish == 0,
        };
        start_right && finish_right
    }

    /// No running task has reached its worst time, no type has too few units.
    fn running_fits(&self) -> bool {
        let chosen = self.constraint.chosen();
        let running = self.running();
        let in_time = |t: usize| self.instant - self.starts[t] < self.plan.worst[pair(t, chosen[t])];
        let users = |y: usize| members(running).filter(|&t| chosen[t] == y).count();
        members(running).all(in_time) && (0..TYPES).all(|y| users(y) <= self.plan.units[y] as usize)
    }

    /// Refusals 12, 13, 16 and 14, in this order (document 02, 7).
    fn refusal(&self, report: u64) -> Result<(), Refusal> {
        if !self.sound() {
            return refuse(12, 0);
        }
        if self.all_finished() {
            return refuse(13, 0);
        }
        let (running, chosen) = (self.running(), self.constraint.chosen());
        let ran = |t: usize| self.instant + 1 - self.starts[t];
        let overrun = |t: &usize| ran(*t) >= self.plan.worst[pair(*t, chosen[*t])];
        if let Some(t) = members(running & !report).find(overrun) {
            return refuse(16, t as u64);
        }
        if let Some(t) = members(report & !running).next() {
            return refuse(14, t as u64);
        }
        Ok(())
    }

    /// The new state and the tasks just started; a refused state comes back as it was.
    pub fn tick(mut self, report: u64) -> (State, Result<u64, Refusal>) {
        if let Err(refusal) = self.refusal(report) {
            return (self, Err(refusal));
        }
        self.instant += 1;
        self.finished |= report;
        for t in members(report) {
            self.finishes[t] = self.instant;
        }
        let just_started = self.walk();
        (self, Ok(just_started))
    }
}

/// The state after the walk of instant 0, and the tasks started.
pub fn start(plan: &Plan, constraint: &Constraint) -> (State, Result<u64, Refusal>) {
    if let Err(refusal) = check(plan, constraint) {
        return (State::zero(), Err(refusal));
    }
    let mut state = State::before_the_walk(plan, constraint);
    let just_started = state.walk();
    (state, Ok(just_started))
}

/// The tasks started at instant 0, and the answer to each report.
pub struct Replayed {
    pub started: u64,
    pub ticks: Vec<Result<u64, Refusal>>,
}

/// Start, then a tick for each report on the state that the one before gave back, accepted or
/// refused. If start refuses there are no ticks.
pub fn replay(
    plan: &Plan,
    constraint: &Constraint,
    reports: &[u64],
) -> (State, Result<Replayed, Refusal>) {
    let (mut state, answer) = start(plan, constraint);
    let started = match answer {
        Ok(started) => started,
        Err(refusal) => return (state, Err(refusal)),
    };
    let mut ticks = Vec::new();
    for &report in reports {
        let (next, answer) = state.tick(report);
        state = next;
        ticks.push(answer);
    }
    (state, Ok(Replayed { started, ticks }))
}
