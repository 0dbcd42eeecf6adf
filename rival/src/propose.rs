//! The bench proposes the order: HACPA makes a schedule from a plan alone, and this gives a
//! constraint. Refusals 8 and 23.
use crate::check::keeps_the_rules;
use crate::limits::*;
use crate::plan::*;
use crate::reader::read;
use crate::schedule::{constraint, Record};

/// Every count of usable types divides it, so that ranks are whole.
pub const SCALE: u64 = 840;

/// A task on a unit of its type.
#[derive(Clone, Copy, PartialEq, Eq, Debug)]
pub struct Placed {
    pub record: Record,
    pub unit: usize,
}

/// The ranks by task number, and the schedule in the order in which its tasks were placed.
#[derive(Clone, PartialEq, Eq, Debug)]
pub struct Proposal {
    pub ranks: [u64; TASKS],
    pub placed: Vec<Placed>,
}

impl Proposal {
    /// The list that other tools would hand in for this schedule.
    pub fn records(&self) -> Vec<Record> {
        self.placed.iter().map(|placed| placed.record).collect()
    }

    pub fn greatest_finish(&self) -> u32 {
        self.placed.iter().map(|placed| placed.record.finish).fold(0, u32::max)
    }

    /// By start, as of a list that is handed in.
    pub fn constraint(&self) -> Constraint {
        constraint(&self.records())
    }
}

/// The constraint that the schedule for a plan gives.
pub fn propose(plan: &Plan) -> Result<Constraint, Refusal> {
    Ok(proposal(plan)?.constraint())
}

pub fn proposal(plan: &Plan) -> Result<Proposal, Refusal> {
    if !keeps_the_rules(plan) {
        return refuse(8, 0);
    }
    if has_a_circle(plan) {
        return refuse(23, 0);
    }
    let ranks = ranks(plan);
    let mut placed = Vec::new();
    for task in by_falling_rank(plan, &ranks) {
        placed.push(place(plan, &placed, task));
    }
    Ok(Proposal { ranks, placed })
}

/// For each task the set of those that wait for it.
pub fn successors(plan: &Plan) -> [u64; TASKS] {
    let mut successors = [0; TASKS];
    for to in 0..TASKS {
        for from in members(plan.predecessors[to]) {
            successors[from] |= 1 << to;
        }
    }
    successors
}

/// The arrows lead from some task back to itself.
pub fn has_a_circle(plan: &Plan) -> bool {
    let successors = successors(plan);
    (0..TASKS).any(|task| led_to(&successors, task) >> task & 1 == 1)
}

/// The tasks to which one arrow or more lead from this one.
pub fn led_to(successors: &[u64; TASKS], task: usize) -> u64 {
    let mut set = successors[task];
    loop {
        let more = members(set).fold(set, |more, t| more | successors[t]);
        if more == set {
            return set;
        }
        set = more;
    }
}

/// Of all tasks. Only for plans without a circle.
fn ranks(plan: &Plan) -> [u64; TASKS] {
    let (successors, mut known) = (successors(plan), [None; TASKS]);
    for task in 0..plan.tasks as usize {
        rank(plan, &successors, &mut known, task);
    }
    known.map(|rank| rank.unwrap_or(0))
}

/// Of one task, worked out once.
fn rank(
    plan: &Plan,
    successors: &[u64; TASKS],
    known: &mut [Option<u64>; TASKS],
    task: usize,
) -> u64 {
    if let Some(rank) = known[task] {
        return rank;
    }
    let of_successors = members(successors[task]).map(|t| rank(plan, successors, known, t));
    let rank = average(plan, task) + of_successors.max().unwrap_or(0);
    known[task] = Some(rank);
    rank
}

/// 840 times the average worst time over the usable types.
fn average(plan: &Plan, task: usize) -> u64 {
    let worst: Vec<u64> = usable(plan, task).map(|y| plan.worst[pair(task, y)].into()).collect();
    SCALE * worst.iter().sum::<u64>() / worst.len() as u64
}

/// The types that a task can use, in number order.
pub fn usable(plan: &Plan, task: usize) -> impl Iterator<Item = usize> + '_ {
    (0..TYPES).filter(move |&y| plan.best[pair(task, y)] != 0)
}

/// Equal ranks by lower number.
fn by_falling_rank(plan: &Plan, ranks: &[u64; TASKS]) -> Vec<usize> {
    let mut tasks: Vec<usize> = (0..plan.tasks as usize).collect();
    tasks.sort_by(|&a, &b| ranks[b].cmp(&ranks[a]).then(a.cmp(&b)));
    tasks
}

/// On the unit with the earliest finish; of several with it, the first.
fn place(plan: &Plan, placed: &[Placed], task: usize) -> Placed {
    let on_units = on_each_unit(plan, placed, task);
    on_units.min_by_key(|on| on.record.finish).expect("a usable type")
}

/// The task on each unit that it can use, types and then units in number order.
pub fn on_each_unit<'a>(
    plan: &'a Plan,
    placed: &'a [Placed],
    task: usize,
) -> impl Iterator<Item = Placed> + 'a {
    let units = |y: usize| (0..plan.units[y] as usize).map(move |unit| (y, unit));
    usable(plan, task).flat_map(units).map(move |(y, unit)| {
        let start = free(placed, y, unit).max(ready(plan, placed, task));
        let (task, unit_type, finish) = (task as u32, y as u32, start + plan.worst[pair(task, y)]);
        Placed { record: Record { task, unit_type, start, finish }, unit }
    })
}

/// When the last task that was placed on the unit finishes; 0 without any.
pub fn free(placed: &[Placed], unit_type: usize, unit: usize) -> u32 {
    let on_it = |on: &&Placed| on.record.unit_type as usize == unit_type && on.unit == unit;
    placed.iter().rfind(on_it).map_or(0, |on| on.record.finish)
}

/// When the predecessors are finished and the not-before instant has come.
pub fn ready(plan: &Plan, placed: &[Placed], task: usize) -> u32 {
    finished(plan, placed, task).max(plan.releases[task])
}

/// When the last of the predecessors, all of which are placed, finishes; 0 without any.
pub fn finished(plan: &Plan, placed: &[Placed], task: usize) -> u32 {
    let precedes = |on: &&Placed| plan.predecessors[task] >> on.record.task & 1 == 1;
    placed.iter().filter(precedes).map(|on| on.record.finish).fold(0, u32::max)
}

/// A C line for each entry, in order.
pub fn text(plan: &Plan) -> Result<String, Refusal> {
    let Constraint { length, task, kind } = propose(plan)?;
    Ok((0..length as usize).map(|p| format!("C\t{}\t{}\n", task[p], kind[p])).collect())
}

/// The program of the proposal: a plan text in, C lines or one line out. The constraint of the text
/// plays no part.
pub fn program(plan_text: &[u8]) -> Vec<u8> {
    let answer = read(plan_text).and_then(|(plan, _)| text(&plan));
    answer.unwrap_or_else(Refusal::line).into_bytes()
}
