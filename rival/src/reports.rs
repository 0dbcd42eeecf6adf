//! The cases of reports: tasks that end early or after the longest time, strangers and overruns.
use crate::cases::*;
use crate::limits::LONGEST_TIME;
use crate::moment::Moment;
use crate::plan::*;
use crate::state::State;

/// The cases of a report that moves the run on to this instant, from the state after it or a later
/// one.
pub fn cases_of_taken(state: &State, instant: u32, report: u64) -> Vec<Case> {
    let State { plan, constraint, starts, .. } = state;
    let ran = |t: usize| instant - starts[t];
    let early = |t: usize| ran(t) < pair_of(plan, constraint, t).0;
    those_that_are(&[
        (members(report).any(early), EARLY_REPORT),
        (members(report).any(|t| ran(t) == LONGEST_TIME), LONGEST_REPORT),
    ])
}

/// The cases of a report that is refused so at this instant, from the state then or a later one.
pub fn cases_of_refused(
    state: &State,
    instant: u32,
    report: u64,
    refusal: &Refusal,
) -> Vec<Case> {
    let Refusal { number, place } = *refusal;
    let moment = Moment::of(state, instant);
    let (strangers, overruns) = (report & !moment.running(), moment.due() & !report);
    let lowest = u64::from(strangers.trailing_zeros());
    let (_, worst) = pair_of(&state.plan, &state.constraint, place as usize);
    let mut cases = those_that_are(&[
        (moment.running() == 0, IDLE_REPORT),
        (overruns == 0, STRANGER_ALONE),
        (overruns != 0, STRANGER_FIRST),
        (strangers == 0, OVERRUN_ALONE),
        (strangers != 0 && lowest < place, LOWER_STRANGER),
        (strangers != 0 && lowest > place, HIGHER_STRANGER),
        (strangers != 0 && overruns.count_ones() > 1, STRANGER_AND_OVERRUNS),
        (worst == LONGEST_TIME, LONGEST_OVERRUN),
    ]);
    cases.retain(|case| case.0 == number);
    cases
}
