//! The cases of answers that are counted besides all answers with their number.
use crate::edges;

/// A number, and what is so in some of the answers with it.
pub type Case = (u64, &'static str);

pub(crate) fn those_that_are(cases: &[(bool, Case)]) -> Vec<Case> {
    cases.iter().filter(|(so, _)| *so).map(|(_, case)| *case).collect()
}

/// The cases of those edges that are among the numbers.
pub(crate) fn cases_among<'a, const N: usize>(
    numbers: &'a [u32],
    edges: &'a [u32; N],
    cases: &'a [Case; N],
) -> impl Iterator<Item = Case> + 'a {
    let edges = edges.iter().zip(cases);
    edges.filter(|(edge, _)| numbers.contains(edge)).map(|(_, case)| *case)
}

/// A report names a task before its best time.
pub const EARLY_REPORT: Case = (0, "before best");
/// The task has run the longest time that a task may have; it is reported, or not.
pub const LONGEST_REPORT: Case = (0, "after the longest time");
pub const LONGEST_OVERRUN: Case = (16, "after the longest time");

pub const TIME_BELOW_BEST: Case = (0, "below best");
pub const TIME_OF_0: Case = (18, "for 0");
pub const TIME_ABOVE_WORST: Case = (18, "above worst");
/// The worst time is the longest.
pub const TIME_ABOVE_LONGEST: Case = (18, "for one above the longest");

/// Of times that a simulation or timetable is given.
pub const TIMES: [Case; 4] = [TIME_BELOW_BEST, TIME_OF_0, TIME_ABOVE_WORST, TIME_ABOVE_LONGEST];

/// For each of `edges::TIMES`, `DEADLINES` or `RELEASES`: it is among what is accepted.
macro_rules! cases_of_edges {
    ($what:literal) => {
        [
            (0, concat!($what, " of 1")),
            (0, concat!($what, " of 16 bits")),
            (0, concat!($what, " one above 16 bits")),
            (0, concat!($what, " one below the greatest")),
            (0, concat!($what, " that is the greatest")),
        ]
    };
}

/// Of the times and instants that are read.
pub const READ_EDGES: [[Case; edges::TIMES.len()]; 4] = [
    cases_of_edges!("best"),
    cases_of_edges!("worst"),
    cases_of_edges!("deadline"),
    cases_of_edges!("not-before instant"),
];

/// An N line that is read says what holds without it.
pub const RELEASE_OF_0: Case = (0, "not-before instant of 0");

/// Of accepted times that a simulation or timetable is given.
pub const TIME_EDGES: [Case; edges::TIMES.len()] = cases_of_edges!("time");

/// Of tasks that start at their not-before instants.
pub const START_EDGES: [Case; edges::RELEASES.len()] = cases_of_edges!("start at an instant");

/// The next task waits for its not-before instant and for nothing else.
pub const HELD: Case = (0, "held by an instant alone");
/// Nothing runs, and the run is not over.
pub const IDLE: Case = (0, "idle");
/// A task starts at its not-before instant, which is not 0.
pub const RELEASED: Case = (0, "start at its instant");

/// Of runs in which a task waits for its not-before instant.
pub const WAITS: [Case; 3] = [HELD, IDLE, RELEASED];

// A stranger is a reported task that does not run; an overrun is a task that runs, is not reported
// and at the new instant has run its worst.

/// A stranger in a run that is idle.
pub const IDLE_REPORT: Case = (14, "while nothing runs");
pub const STRANGER_ALONE: Case = (14, "without an overrun");
pub const OVERRUN_ALONE: Case = (16, "without a stranger");
/// The lowest stranger is lower or higher than the place.
pub const LOWER_STRANGER: Case = (16, "with a lower stranger");
pub const HIGHER_STRANGER: Case = (16, "with a higher stranger");
pub const STRANGER_AND_OVERRUNS: Case = (16, "of several with a stranger");

/// Of reports with a stranger, an overrun or both.
pub const FAULTY_REPORTS: [Case; 6] = [
    IDLE_REPORT, STRANGER_ALONE, OVERRUN_ALONE, LOWER_STRANGER, HIGHER_STRANGER,
    STRANGER_AND_OVERRUNS,
];

/// What no report with both faults gives.
pub const STRANGER_FIRST: Case = (14, "with an overrun");

/// The bound is the greatest not-before instant, which is not 0, plus the sum of worst times.
pub const BOUND_IS_SUM: Case = (0, "instant plus sum of times");

/// What no run does: it is idle once all not-before instants have come, or its bound is above the
/// greatest of them plus the sum of worst times.
pub const IDLE_AFTER_ALL: Case = (0, "idle after all instants");
pub const BOUND_ABOVE_SUM: Case = (0, "above instant plus sum of times");

/// For each of `edges::INSTANTS`, with a task unfinished and with all finished. Nothing but the
/// instant is wrong with the state.
pub const INSTANTS: [[Case; 2]; edges::INSTANTS.len()] = [
    [(0, "unfinished after times of 16 bits"), (13, "after times of 16 bits")],
    [(0, "unfinished before the last instant"), (13, "before the last instant")],
    [(12, "unfinished at the last instant"), (13, "at the last instant")],
    [(12, "unfinished after the last instant"), (12, "finished after the last instant")],
];

/// No timetable needs more bytes; it has as many, or one too few.
pub const LONGEST_WRITTEN: Case = (0, "longest timetable");
pub const LONGEST_REFUSED: Case = (19, "a byte short of the longest timetable");

pub const TIMETABLES: [Case; 2] = [LONGEST_WRITTEN, LONGEST_REFUSED];

/// Nothing else is wrong with the plan.
pub(crate) const ABOVE: &str = "for a deadline one above";
pub(crate) const ABSENT: &str = "for a deadline of an absent task";
pub(crate) const LONG: &str = "for a time one above";
pub(crate) const RELEASED_ABOVE: &str = "for a not-before instant one above";
pub(crate) const RELEASED_ABSENT: &str = "for a not-before instant of an absent task";
pub const DEADLINE_ABOVE: Case = (8, ABOVE);
pub const DEADLINE_ABSENT: Case = (8, ABSENT);
pub const TIME_ABOVE: Case = (8, LONG);
pub const RELEASE_ABOVE: Case = (8, RELEASED_ABOVE);
pub const RELEASE_ABSENT: Case = (8, RELEASED_ABSENT);
pub const UNSOUND_ABOVE: Case = (12, ABOVE);
pub const UNSOUND_ABSENT: Case = (12, ABSENT);
pub const UNSOUND_LONG: Case = (12, LONG);
pub const UNSOUND_RELEASE_ABOVE: Case = (12, RELEASED_ABOVE);
pub const UNSOUND_RELEASE_ABSENT: Case = (12, RELEASED_ABSENT);

/// Of a plan with wrong deadlines, times or not-before instants.
pub const FAULTS: [Case; 5] =
    [DEADLINE_ABOVE, DEADLINE_ABSENT, TIME_ABOVE, RELEASE_ABOVE, RELEASE_ABSENT];

/// Of a state with such a plan.
pub const UNSOUND_PLANS: [Case; 5] = [
    UNSOUND_ABOVE, UNSOUND_ABSENT, UNSOUND_LONG, UNSOUND_RELEASE_ABOVE, UNSOUND_RELEASE_ABSENT,
];

/// A task has started before its not-before instant; nothing else is wrong with the state.
pub const RUNNING_EARLY: Case = (12, "for a running task before its instant");
pub const FINISHED_EARLY: Case = (12, "for a finished task before its instant");
pub const ONE_EARLY: Case = (12, "for a start one before its instant");

/// Of a state with starts before their instants.
pub const EARLY: [Case; 3] = [RUNNING_EARLY, FINISHED_EARLY, ONE_EARLY];

pub const NO_DEADLINES: Case = (0, "no deadlines");
pub const LEAST_BELOW_ZERO: Case = (0, "least below zero");
pub const LEAST_ZERO: Case = (0, "least zero");
pub const LEAST_ABOVE_ZERO: Case = (0, "least above zero");
pub const LEAST_OF_SEVERAL: Case = (0, "least of several");
/// The 0 of a task without deadline is less than all margins.
pub const LESS_WITHOUT: Case = (0, "less without deadline");
pub const LEAST_OF_ALL: Case = (0, "least of all plans");
/// Every task with a deadline has it.
pub const GREATEST_OF_ALL: Case = (0, "greatest of all plans");

/// Of accepted margins.
pub const MARGINS: [Case; 8] = [
    NO_DEADLINES, LEAST_BELOW_ZERO, LEAST_ZERO, LEAST_ABOVE_ZERO, LEAST_OF_SEVERAL, LESS_WITHOUT,
    LEAST_OF_ALL, GREATEST_OF_ALL,
];
