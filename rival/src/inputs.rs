//! Random times, instants and reports for a plan: most are legal, the others are wrong on purpose.
use crate::check::check;
use crate::driver::LONGEST_LIST;
use crate::edges::{self, SIXTEEN_BITS};
use crate::limits::*;
use crate::moment::Moment;
use crate::plan::*;
use crate::random::Random;
use crate::simulate::{simulate, worst_times};
use crate::state::{start, State};

/// Numbers on the edges of what fits or is allowed.
pub const EDGES: [u64; 19] = [
    0,
    1,
    2,
    TYPES as u64 - 1,
    TYPES as u64,
    TYPES as u64 + 1,
    UNITS as u64,
    UNITS as u64 + 1,
    TASKS as u64 - 1,
    TASKS as u64,
    TASKS as u64 + 1,
    SIXTEEN_BITS as u64,
    SIXTEEN_BITS as u64 + 1,
    LONGEST_TIME as u64 - 1,
    LONGEST_TIME as u64,
    LONGEST_TIME as u64 + 1,
    u32::MAX as u64,
    u32::MAX as u64 + 1,
    u64::MAX,
];

/// All worst, all best, all 1, a mixture of these, or anything from 1 to worst; if that is long,
/// perhaps an edge. Only for accepted plans and constraints.
pub fn allowed_times(random: &mut Random, plan: &Plan, constraint: &Constraint) -> Vec<u32> {
    let chosen = constraint.chosen();
    let which = random.below(6);
    let mut time = |t: usize| {
        let (best, worst) = (plan.best[pair(t, chosen[t])], plan.worst[pair(t, chosen[t])]);
        match which {
            0 => worst,
            1 => best,
            2 => 1,
            3 => random.pick(&[1, best, worst]),
            4 if worst >= SIXTEEN_BITS => random.pick(&edges::TIMES).min(worst),
            _ => random.from(1, worst.into()) as u32,
        }
    };
    (0..plan.tasks as usize).map(&mut time).collect()
}

/// Times that are allowed, or not, or not as many as tasks.
pub fn times(random: &mut Random, plan: &Plan, constraint: &Constraint) -> Vec<u64> {
    let accepted = check(plan, constraint).is_ok();
    let mut times: Vec<u64> = match accepted {
        true => allowed_times(random, plan, constraint).into_iter().map(u64::from).collect(),
        false => vec![1; random.below(LONGEST_LIST as u64 + 3) as usize],
    };
    match random.below(8) {
        0 => drop(times.pop()),
        1 => times.push(1),
        2 => times.truncate(random.below(3) as usize),
        3 | 4 if accepted => {
            let worst = worst_times(plan, constraint);
            for _ in 0..random.from(1, 2) {
                let t = random.below(plan.tasks) as usize;
                let edge = random.pick(&EDGES);
                times[t] = random.pick(&[0, edge, u64::from(worst[t]) + 1]);
            }
        }
        _ => {}
    }
    times
}

/// A deadline for each of these worst finishes, all chosen in one way or each in its own.
pub fn deadlines(random: &mut Random, finishes: &[u32]) -> Vec<u64> {
    let which = random.below(9);
    finishes.iter().map(|&finish| one_deadline(random, which, finish.into())).collect()
}

/// A deadline for this worst finish: when it is, a little later, about then, early, at an edge, or
/// anything.
pub fn deadline(random: &mut Random, finish: u64) -> u64 {
    let which = random.below(7);
    one_deadline(random, which, finish)
}

fn one_deadline(random: &mut Random, which: u64, finish: u64) -> u64 {
    let (first, last) = (1, u64::from(LATEST_DEADLINE));
    let deadline = match which {
        0 => finish,
        1 => finish + random.below(3),
        2 => finish + random.from(1, 9),
        3 => (finish + 2).saturating_sub(random.below(5)),
        4 => random.from(first, finish.max(first)),
        5 => random.pick(&edges::DEADLINES).into(),
        6 => random.from(first, last),
        _ => return deadline(random, finish),
    };
    deadline.clamp(first, last)
}

/// A not-before instant for each of these starts, all chosen in one way or each in its own.
pub fn releases(random: &mut Random, starts: &[u32]) -> Vec<u64> {
    let which = random.below(17);
    starts.iter().map(|&start| one_release(random, which, start.into())).collect()
}

/// A not-before instant for a task with this start: mostly when it is, soon after, before or 0; now
/// and then an edge, or anything.
pub fn release(random: &mut Random, start: u64) -> u64 {
    let which = random.below(13);
    one_release(random, which, start)
}

fn one_release(random: &mut Random, which: u64, start: u64) -> u64 {
    let last = u64::from(LATEST_RELEASE);
    let release = match which {
        0 => 0,
        1 => start,
        2..=4 => start + 1,
        5..=8 => start + random.from(1, 9),
        9 | 10 => random.from(0, start),
        11 => random.pick(&edges::RELEASES).into(),
        12 => random.from(0, last),
        _ => return release(random, start),
    };
    release.min(last)
}

/// A report that a sound state takes; 0 for others.
pub fn legal_report(random: &mut Random, state: &State) -> u64 {
    if !state.sound() {
        return 0;
    }
    let more = members(state.running()).filter(|_| random.once_in(3));
    more.fold(due_report(state), |set, t| set | 1 << t)
}

/// The running tasks that at the new instant have run their worst. Only for sound states.
pub fn due_report(state: &State) -> u64 {
    Moment::of(state, state.instant).due()
}

/// A report that is legal, or has a stranger, lacks a task, has all that run, has the tasks that
/// only start at the new instant, has a stranger and lacks what is due, or is any set.
pub fn some_report(random: &mut Random, state: &State) -> u64 {
    let legal = legal_report(random, state);
    match random.below(16) {
        0 => legal | 1 << random.below(TASKS as u64),
        1 => legal & random.number(),
        2 => random.number(),
        3 if state.sound() => state.running(),
        4 => legal | state.clone().tick(legal).1.unwrap_or(0),
        5 => 0,
        6 if state.sound() && due_report(state) != 0 => both_faults(random, state),
        _ => legal,
    }
}

/// Lacks a task that is due, perhaps more, and names one that does not run and is lower or higher;
/// if there is none, it names none. Only for sound states in which a task is due.
fn both_faults(random: &mut Random, state: &State) -> u64 {
    let running = state.running();
    let overrun = one_of(random, due_report(state));
    let lower = overrun - 1;
    let side = random.pick(&[lower, !lower]);
    running & !overrun & random.number() | one_of(random, side & !running)
}

/// One task of a set, as a set; the empty set has none.
fn one_of(random: &mut Random, set: u64) -> u64 {
    let tasks: Vec<usize> = members(set).collect();
    if tasks.is_empty() { 0 } else { 1 << random.pick(&tasks) }
}

/// A list of reports: whole runs, lists with faults in between, any sets, quiet ticks, none.
pub fn reports(random: &mut Random, plan: &Plan, constraint: &Constraint) -> Vec<u64> {
    let (state, answer) = start(plan, constraint);
    let most = LONGEST_LIST as u64 + 1;
    let length = random.pick(&[1, 3, 8, 20, 20, most - 1, most]);
    match random.below(8) {
        0 => Vec::new(),
        1 => vec![0; random.below(most + 1) as usize],
        2 => (0..random.below(12)).map(|_| random.number()).collect(),
        3 | 4 if answer.is_ok() => whole_run(random, plan, constraint),
        _ => one_by_one(random, state, length),
    }
}

/// The reports of a run with allowed times, often with some more after its end. What goes beyond
/// the longest list is left out.
fn whole_run(random: &mut Random, plan: &Plan, constraint: &Constraint) -> Vec<u64> {
    let times = allowed_times(random, plan, constraint);
    let Ok(run) = simulate(plan, constraint, &times) else { return Vec::new() };
    let mut reports = run.reports(plan, LONGEST_LIST);
    for _ in 0..random.below(3) {
        reports.push(random.pick(&[0, 1, u64::MAX]));
    }
    reports
}

/// Each report is chosen for the state that the ticks before it leave.
fn one_by_one(random: &mut Random, mut state: State, length: u64) -> Vec<u64> {
    let mut reports = Vec::new();
    for _ in 0..length {
        let report = some_report(random, &state);
        (state, _) = state.tick(report);
        reports.push(report);
    }
    reports
}
