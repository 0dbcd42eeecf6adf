//! Start and tick, with one look over the state.
use super::check;
use crate::limits::*;
use crate::plan::*;
use crate::state::State;

/// What one look over a sound state finds, as sets of tasks.
#[derive(Default)]
struct Look {
    running: u64,
    /// The running tasks by chosen type.
    users: [u64; TYPES],
    /// Running tasks that at the new instant have run their worst.
    late: u64,
}

/// The state after the walk of instant 0, and the tasks started.
pub fn start(plan: &Plan, constraint: &Constraint) -> (State, Result<u64, Refusal>) {
    let verdict = check(plan, constraint);
    if verdict.is_err() {
        return (State::zero(), verdict.map(|()| 0));
    }
    let mut state = State::before_the_walk(plan, constraint);
    let just_started = walk(&mut state, [0; TYPES]);
    (state, Ok(just_started))
}

/// The new state and the tasks just started; a refused state comes back as it was.
pub fn tick(mut state: State, report: u64) -> (State, Result<u64, Refusal>) {
    let answer = advance(&mut state, report);
    (state, answer)
}

/// Starts, then ticks for each report. Gives the last state; the answers to
/// the reports go to the three slices: refusal number, place, started tasks.
/// If start refuses, the slices are left as they are.
pub fn replay(
    plan: &Plan,
    constraint: &Constraint,
    reports: &[u64],
    numbers: &mut [u32],
    places: &mut [usize],
    sets: &mut [u64],
) -> State {
    let (mut state, answer) = start(plan, constraint);
    if answer.is_err() {
        return state;
    }
    let answers = numbers.iter_mut().zip(places).zip(sets);
    for (&report, ((number, place), set)) in reports.iter().zip(answers) {
        let (next, answer) = tick(state, report);
        state = next;
        (*number, *place, *set) = match answer {
            Ok(just_started) => (0, 0, just_started),
            Err(refusal) => (refusal.number as u32, refusal.place as usize, 0),
        };
    }
    state
}

/// A tick in place. A refusal alters nothing.
fn advance(state: &mut State, report: u64) -> Result<u64, Refusal> {
    let Some(look) = look_over(state) else { return refuse(12, 0) };
    if state.finished == first_tasks(state.plan.tasks) {
        return refuse(13, 0);
    }
    let faults = [(16, look.late & !report), (14, report & !look.running)];
    if let Some((number, faulty)) = faults.into_iter().find(|(_, faulty)| *faulty != 0) {
        return refuse(number, faulty.trailing_zeros().into());
    }
    state.instant += 1;
    state.finished |= report;
    let mut reported = report;
    while reported != 0 {
        state.finishes[reported.trailing_zeros() as usize] = state.instant;
        reported &= reported - 1;
    }
    Ok(walk(state, look.users.map(|users| users & !report)))
}

/// Starts what may start, given the running tasks by type.
fn walk(state: &mut State, mut users: [u64; TYPES]) -> u64 {
    let State { plan, constraint, .. } = state;
    let mut just_started = 0;
    for p in state.started as usize..plan.tasks as usize {
        let (task, kind) = (constraint.task[p] as usize, constraint.kind[p] as usize);
        let waiting = plan.predecessors[task] & !state.finished != 0;
        let too_soon = state.instant < plan.releases[task];
        if waiting || too_soon || users[kind].count_ones() >= plan.units[kind] {
            break;
        }
        users[kind] |= 1 << task;
        just_started |= 1 << task;
        state.starts[task] = state.instant;
        state.started += 1;
    }
    just_started
}

/// Nothing if the state is not sound (12).
fn look_over(state: &State) -> Option<Look> {
    let State { plan, constraint, instant, .. } = state;
    check(plan, constraint).ok()?;
    if state.started > plan.tasks || *instant > LAST_INSTANT {
        return None;
    }
    let (look, started) = look_over_started(state)?;
    let unstarted = (0..TASKS).filter(|t| started >> t & 1 == 0);
    let notes = unstarted.fold(0, |all, t| all | state.starts[t] | state.finishes[t]);
    let crowded = (0..TYPES).any(|y| look.users[y].count_ones() > plan.units[y]);
    let too_late = *instant == LAST_INSTANT && state.finished != first_tasks(plan.tasks);
    let unsound = state.finished & !started != 0 || notes != 0 || crowded || too_late;
    (!unsound).then_some(look)
}

/// The started tasks, which are the first of the order; nothing if one is not sound.
fn look_over_started(state: &State) -> Option<(Look, u64)> {
    let State { plan, constraint, instant, starts, finishes, .. } = state;
    let (mut look, mut started) = (Look::default(), 0u64);
    for p in 0..state.started as usize {
        let (task, kind) = (constraint.task[p] as usize, constraint.kind[p] as usize);
        let (start, finish) = (starts[task], finishes[task]);
        started |= 1 << task;
        if start > *instant || start < plan.releases[task] {
            return None;
        }
        if state.finished >> task & 1 == 1 {
            if finish <= start || finish > *instant {
                return None;
            }
            continue;
        }
        let (ran, worst) = (*instant + 1 - start, plan.worst[pair(task, kind)]);
        if finish != 0 || ran > worst {
            return None;
        }
        look.users[kind] |= 1 << task;
        look.late |= u64::from(ran == worst) << task;
    }
    look.running = started & !state.finished;
    Some((look, started))
}
