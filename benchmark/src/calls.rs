//! The proved code behind safe functions. The structs are those of include/benchplan.h, with the
//! fields of those that are opaque there.
use rival::limits::{PAIRS, TASKS, TYPES};
use rival::margins::Margins;
use rival::run::Times;
use rival::schedule::Record as Listed;

#[repr(C)]
#[derive(Clone, Copy, PartialEq)]
struct Plan {
    types: usize,
    units: [u32; TYPES],
    tasks: usize,
    best: [u32; PAIRS],
    worst: [u32; PAIRS],
    predecessors: [u64; TASKS],
    deadlines: [u32; TASKS],
    releases: [u32; TASKS],
}

#[repr(C)]
#[derive(Clone, Copy, PartialEq)]
struct Constraint {
    length: usize,
    order: [usize; TASKS],
    chosen: [usize; TASKS],
}

#[repr(C)]
#[derive(PartialEq)]
struct State {
    plan: Plan,
    constraint: Constraint,
    instant: u32,
    started: usize,
    finished: u64,
    starts: [u32; TASKS],
    finishes: [u32; TASKS],
}

#[repr(C)]
#[derive(PartialEq)]
pub struct Text {
    number: u32,
    place: usize,
    plan: Plan,
    constraint: Constraint,
}

#[repr(C)]
#[derive(PartialEq)]
pub struct Verdict {
    number: u32,
    place: usize,
}

#[repr(C)]
#[derive(PartialEq)]
pub struct Run {
    number: u32,
    place: usize,
    pub response: u32,
    starts: [u32; TASKS],
    finishes: [u32; TASKS],
}

#[repr(C)]
#[derive(PartialEq)]
pub struct Slacks {
    number: u32,
    place: usize,
    any: bool,
    least: i64,
    task: usize,
    slacks: [i64; TASKS],
}

#[repr(C)]
#[derive(PartialEq)]
pub struct Ticked {
    number: u32,
    place: usize,
    started: u64,
    state: State,
}

#[repr(C)]
pub struct Record {
    task: u32,
    unit_type: u32,
    start: u32,
    finish: u32,
}

#[repr(C)]
#[derive(PartialEq)]
pub struct Adoption {
    number: u32,
    place: usize,
    constraint: Constraint,
}

#[repr(C)]
#[derive(PartialEq)]
pub struct Proposal {
    number: u32,
    place: usize,
    constraint: Constraint,
}

#[link(name = "benchplan", kind = "static")]
extern "C" {
    fn bench_read(text: *const u8, length: usize) -> Text;
    fn bench_check(plan: Plan, constraint: Constraint) -> Verdict;
    fn bench_simulate(
        plan: Plan, constraint: Constraint, times: *const u32, times_length: usize,
    ) -> Run;
    fn bench_bound(plan: Plan, constraint: Constraint) -> Run;
    fn bench_margins(plan: Plan, constraint: Constraint) -> Slacks;
    fn bench_adopt(plan: Plan, records: *const Record, records_length: usize) -> Adoption;
    fn bench_propose(plan: Plan) -> Proposal;
    fn bench_replay(
        plan: Plan, constraint: Constraint, reports: *const u64, reports_length: usize,
        numbers: *mut u32, numbers_length: usize, places: *mut usize, places_length: usize,
        sets: *mut u64, sets_length: usize,
    ) -> Ticked;
}

/// A plan and constraint in the form that the library takes.
pub struct Input {
    plan: Plan,
    constraint: Constraint,
}

impl Input {
    pub fn new(plan: &rival::plan::Plan, constraint: &rival::plan::Constraint) -> Input {
        Input {
            plan: Plan {
                types: plan.types as usize,
                units: plan.units,
                tasks: plan.tasks as usize,
                best: plan.best,
                worst: plan.worst,
                predecessors: plan.predecessors,
                deadlines: plan.deadlines,
                releases: plan.releases,
            },
            constraint: Constraint {
                length: constraint.length as usize,
                order: constraint.task.map(|t| t as usize),
                chosen: constraint.kind.map(|k| k as usize),
            },
        }
    }

    /// The same plan with the proposed constraint.
    pub fn with(&self, proposal: &Proposal) -> Input {
        Input { plan: self.plan, constraint: proposal.constraint }
    }
}

impl Record {
    pub fn new(record: &Listed) -> Record {
        let &Listed { task, unit_type, start, finish } = record;
        Record { task, unit_type, start, finish }
    }
}

// The answers that accept: number and place are 0, all else is the rival's.

impl Text {
    pub fn accepted(input: Input) -> Text {
        Text { number: 0, place: 0, plan: input.plan, constraint: input.constraint }
    }
}

impl Verdict {
    pub fn accepted() -> Verdict {
        Verdict { number: 0, place: 0 }
    }
}

impl Run {
    pub fn accepted(times: Times) -> Run {
        let Times { starts, finishes, response } = times;
        Run { number: 0, place: 0, response, starts, finishes }
    }
}

impl Slacks {
    pub fn accepted(margins: Margins) -> Slacks {
        let Margins { any, least, task, margins: slacks } = margins;
        Slacks { number: 0, place: 0, any, least, task: task as usize, slacks }
    }
}

impl Adoption {
    pub fn accepted(input: Input) -> Adoption {
        Adoption { number: 0, place: 0, constraint: input.constraint }
    }
}

impl Proposal {
    pub fn accepted(input: Input) -> Proposal {
        Proposal { number: 0, place: 0, constraint: input.constraint }
    }
}

impl Ticked {
    pub fn accepted(started: u64, state: rival::state::State) -> Ticked {
        let Input { plan, constraint } = Input::new(&state.plan, &state.constraint);
        let state = State {
            plan,
            constraint,
            instant: state.instant,
            started: state.started as usize,
            finished: state.finished,
            starts: state.starts,
            finishes: state.finishes,
        };
        Ticked { number: 0, place: 0, started, state }
    }
}

/// What ticks answer, one entry for each report.
#[derive(PartialEq)]
pub struct Answers {
    pub numbers: Vec<u32>,
    pub places: Vec<usize>,
    pub sets: Vec<u64>,
}

impl Answers {
    /// Entries that no tick answers, so that one left alone is seen.
    pub fn unwritten(count: usize) -> Answers {
        let places = vec![usize::MAX; count];
        Answers { numbers: vec![u32::MAX; count], places, sets: vec![u64::MAX; count] }
    }
}

// In each call below the arrays have the lengths that the library asks for,
// and every slice goes with its own length.

pub fn read(text: &[u8]) -> Text {
    unsafe { bench_read(text.as_ptr(), text.len()) }
}

pub fn check(i: &Input) -> Verdict {
    unsafe { bench_check(i.plan, i.constraint) }
}

pub fn simulate(i: &Input, times: &[u32]) -> Run {
    unsafe { bench_simulate(i.plan, i.constraint, times.as_ptr(), times.len()) }
}

pub fn bound(i: &Input) -> Run {
    unsafe { bench_bound(i.plan, i.constraint) }
}

pub fn margins(i: &Input) -> Slacks {
    unsafe { bench_margins(i.plan, i.constraint) }
}

pub fn adopt(i: &Input, records: &[Record]) -> Adoption {
    unsafe { bench_adopt(i.plan, records.as_ptr(), records.len()) }
}

pub fn propose(i: &Input) -> Proposal {
    unsafe { bench_propose(i.plan) }
}

pub fn replay(i: &Input, reports: &[u64], answers: &mut Answers) -> Ticked {
    let n = reports.len();
    let Answers { numbers, places, sets } = answers;
    assert!(numbers.len() == n && places.len() == n && sets.len() == n);
    unsafe {
        bench_replay(
            i.plan, i.constraint, reports.as_ptr(), n, numbers.as_mut_ptr(), n,
            places.as_mut_ptr(), n, sets.as_mut_ptr(), n,
        )
    }
}
