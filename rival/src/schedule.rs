//! Plans scheduled elsewhere: a list of records gives a constraint. Refusals 8 and 20 to 22.
use crate::check::keeps_the_rules;
use crate::limits::*;
use crate::plan::*;

/// The task holds a unit of the type from the start up to, not including, the finish.
#[derive(Clone, Copy, PartialEq, Eq, Debug)]
pub struct Record {
    pub task: u32,
    pub unit_type: u32,
    pub start: u32,
    pub finish: u32,
}

impl Record {
    pub fn holds_at(&self, instant: u32) -> bool {
        self.start <= instant && instant < self.finish
    }
}

/// Whether something is wrong with the record at a place of a list.
type Fault = fn(&Plan, &[Record], usize) -> bool;

/// Each number is tried over the whole list before the next.
const FAULTS: [(u64, &[Fault]); 3] = [
    (20, &[has_an_absent_task, repeats_a_task]),
    (21, &[has_an_unusable_type, has_another_finish]),
    (22, &[starts_before_a_finish, starts_before_its_instant, finds_no_unit]),
];

/// The constraint that a list gives for a plan.
pub fn adopt(plan: &Plan, records: &[Record]) -> Result<Constraint, Refusal> {
    if !keeps_the_rules(plan) {
        return refuse(8, 0);
    }
    let count = records.len() as u64;
    if count != plan.tasks {
        return refuse(20, count);
    }
    for (number, _) in FAULTS {
        let faulty = |&place: &usize| is_faulty(plan, records, number, place);
        if let Some(place) = (0..records.len()).find(faulty) {
            return refuse(number, place as u64);
        }
    }
    Ok(constraint(records))
}

/// Whether the record at this place is refused with this number, 20, 21 or 22.
pub fn is_faulty(plan: &Plan, records: &[Record], number: u64, place: usize) -> bool {
    let mut faults = FAULTS.iter().filter(|(of, _)| *of == number).flat_map(|(_, faults)| *faults);
    faults.any(|fault| fault(plan, records, place))
}

pub fn has_an_absent_task(plan: &Plan, records: &[Record], place: usize) -> bool {
    u64::from(records[place].task) >= plan.tasks
}

/// As some record before it.
pub fn repeats_a_task(_: &Plan, records: &[Record], place: usize) -> bool {
    records[..place].iter().any(|before| before.task == records[place].task)
}

/// A type that is absent or that the task cannot use.
pub fn has_an_unusable_type(plan: &Plan, records: &[Record], place: usize) -> bool {
    worst(plan, &records[place]).is_none()
}

/// The finish is not start plus worst.
pub fn has_another_finish(plan: &Plan, records: &[Record], place: usize) -> bool {
    let Record { start, finish, .. } = records[place];
    let differs = |worst| u64::from(start) + u64::from(worst) != u64::from(finish);
    worst(plan, &records[place]).is_some_and(differs)
}

/// The start is before a predecessor's finish.
pub fn starts_before_a_finish(plan: &Plan, records: &[Record], place: usize) -> bool {
    latest_finish_before(plan, records, place).is_some_and(|finish| records[place].start < finish)
}

/// The start is before the task's not-before instant.
pub fn starts_before_its_instant(plan: &Plan, records: &[Record], place: usize) -> bool {
    let Record { task, start, .. } = records[place];
    plan.releases.get(task as usize).is_some_and(|&release| start < release)
}

/// At the start more tasks hold the type, this one among them, than there are units.
pub fn finds_no_unit(plan: &Plan, records: &[Record], place: usize) -> bool {
    let units = plan.units.get(records[place].unit_type as usize);
    units.is_some_and(|&units| holders(records, place) > units as usize)
}

/// The worst time of the record's task with its type; none if the task is absent or cannot use it.
pub fn worst(plan: &Plan, record: &Record) -> Option<u32> {
    let Record { task, unit_type, .. } = *record;
    let present = u64::from(task) < plan.tasks && u64::from(unit_type) < plan.types;
    let at = pair(task as usize, unit_type as usize);
    (present && plan.best[at] != 0).then(|| plan.worst[at])
}

/// Of the predecessors in the list; none without any.
pub fn latest_finish_before(plan: &Plan, records: &[Record], place: usize) -> Option<u32> {
    let predecessors = *plan.predecessors.get(records[place].task as usize)?;
    let precedes =
        |other: &&Record| other.task < TASKS as u32 && predecessors >> other.task & 1 == 1;
    records.iter().filter(precedes).map(|other| other.finish).max()
}

/// How many tasks hold the record's type at its start.
pub fn holders(records: &[Record], place: usize) -> usize {
    let Record { unit_type, start, .. } = records[place];
    records.iter().filter(|other| other.unit_type == unit_type && other.holds_at(start)).count()
}

/// Tasks by start, equal starts by lower number, types as listed.
pub fn constraint(records: &[Record]) -> Constraint {
    let mut sorted = records.to_vec();
    sorted.sort_by_key(|record| (record.start, record.task));
    let mut constraint = Constraint::zero();
    constraint.length = records.len() as u64;
    for (p, record) in sorted.iter().enumerate() {
        constraint.task[p] = record.task.into();
        constraint.kind[p] = record.unit_type.into();
    }
    constraint
}
